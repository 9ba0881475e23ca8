/* A plain C twin of the program for short lines: getline, strtok_r and printf over a table of places, with no protocol
   beyond what `bench/lines` sends. It reads `LOAD NAME EDGE SIGMA H rest BYTES` with a body of whole-number coordinates,
   and answers `SHOW NAME N`.
   Build: cc -O3 -march=native -o lines lines.c */
#define _GNU_SOURCE
#include <stdint.h>
#include <stdio.h>
#include <stdlib.h>
#include <string.h>

struct place {
    uint32_t x, y, z;
};

static char *line;
static size_t room;
static char name[17];
static struct place *places;
static unsigned long long count;

static int read_line(void) { return getline(&line, &room, stdin) > 0; }

static uint32_t coordinate(unsigned long long file_units, unsigned long long edge) {
    return (uint32_t)((file_units << 32) / edge);
}

/* Reads the body of a LOAD: a count, a comment, and a line for each atom. */
static int load(unsigned long long edge) {
    unsigned long long x, y, z;
    if (!read_line()) return 0;
    count = strtoull(line, 0, 10);
    places = malloc(count * sizeof *places);
    if (!places || !read_line()) return 0;
    for (unsigned long long i = 0; i < count; i++) {
        if (!read_line() || sscanf(line, "%*s %llu %llu %llu", &x, &y, &z) != 3) return 0;
        places[i] = (struct place){coordinate(x, edge), coordinate(y, edge), coordinate(z, edge)};
    }
    printf("OK LOAD %s 0 %llu\n", name, count);
    return 1;
}

static void show(const char *session, const char *number) {
    char *end;
    unsigned long long i = strtoull(number, &end, 10);
    if (*end)
        puts("ERR 03 SYNTAX");
    else if (strcmp(session, name))
        puts("ERR 10 NO_SESSION");
    else if (i >= count)
        puts("ERR 14 NO_ATOM");
    else
        printf("OK SHOW %s 0 %llu %u %u %u\n", name, i, places[i].x, places[i].y, places[i].z);
}

int main(void) {
    while (read_line()) {
        char *rest;
        char *verb = strtok_r(line, " \t\n", &rest);
        char *first = strtok_r(0, " \t\n", &rest);
        char *second = strtok_r(0, " \t\n", &rest);
        if (!verb || !first || !second) {
            puts("ERR 03 SYNTAX");
        } else if (!strcmp(verb, "LOAD")) {
            snprintf(name, sizeof name, "%s", first);
            if (!load(strtoull(second, 0, 10))) return 1;
        } else if (!strcmp(verb, "SHOW")) {
            show(first, second);
        } else {
            puts("ERR 06 COMMAND");
        }
    }
    return 0;
}
