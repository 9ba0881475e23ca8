/* A plain C twin of one LOAD or LOADMIX, ADVANCE, SHOW and MEASURE stream: the baseline that the product's speed is
   measured against. Each pair once, the cutoff test on the squared distance, the bin by a reciprocal and one correction.
   No lanes, no blocks, one thread. It answers as ljserve does, so that the replies can be compared byte for byte.
   One species is the mixture whose three classes are alike, and one kernel computes both.
   It reads well-formed streams of bench/liquid only. Build: cc -O3 -march=native -o plain plain.c */
#include <stdint.h>
#include <stdio.h>
#include <stdlib.h>
#include <string.h>
#include <time.h>

typedef __int128 i128;
typedef unsigned __int128 u128;
typedef struct { uint32_t x, y, z; } place;

/* How two atoms of given species interact: sigma squared, where the cutoff is, a reciprocal for the bin, the step factor,
   and the weight of an energy in 256ths. */
typedef struct { uint64_t square, cut, inverse; uint32_t h, weight; } class;

/* Two atoms that interact: their image along each axis, their class and their bin. */
typedef struct { int32_t x, y, z; const class *class; uint32_t bin; } pair;

static int64_t W[800], V[800];
static class classes[3];
static uint64_t reach;
static int n;
static int64_t edge, step;
static place *prev, *cur, *f;
static uint8_t *second;
static double spent;

static void tables(void) {
    for (int k = 0; k < 800; k++) {
        i128 m = 2 * (k < 64 ? 64 : k) + 1, c = m * m * m;
        W[k] = (int64_t)(((i128)24 << 56) * ((1 << 25) - c) / (c * c * m));
        V[k] = (int64_t)(((i128)1 << 50) * ((1 << 24) - c) / (c * c));
    }
}

static int32_t image(uint32_t a, uint32_t b) { return (int32_t)(a - b); }
static uint64_t sq(int32_t d) { return (uint64_t)((int64_t)d * d); }
static uint32_t push(i128 c, int32_t d) { return (uint32_t)(int32_t)(c * d / ((i128)1 << 56)); }

static uint32_t bin_of(uint64_t s, const class *c) {
    uint64_t k = (uint64_t)(((u128)s * c->inverse) >> 64) >> 24;
    return (uint32_t)(k - ((u128)k * c->square > ((u128)s << 7)));
}

/* Whether atoms i and j interact, and then how. */
static inline int interact(int i, int j, pair *p) {
    const place *r = cur;
    p->x = image(r[i].x, r[j].x), p->y = image(r[i].y, r[j].y), p->z = image(r[i].z, r[j].z);
    uint64_t s = sq(p->x) + sq(p->y) + sq(p->z);
    if (s >= reach) return 0;
    p->class = &classes[second[i] + second[j]];
    if (s >= p->class->cut) return 0;
    p->bin = bin_of(s, p->class);
    return 1;
}

static void forces(void) {
    pair p;
    memset(f, 0, sizeof *f * n);
    for (int i = 0; i < n; i++)
        for (int j = i + 1; j < n; j++)
            if (interact(i, j, &p)) {
                i128 c = (i128)W[p.bin] * p.class->h;
                uint32_t a = push(c, p.x), b = push(c, p.y), d = push(c, p.z);
                f[i].x += a, f[i].y += b, f[i].z += d;
                f[j].x -= a, f[j].y -= b, f[j].z -= d;
            }
}

/* The sum of the energies, each of which is weighted and rounded toward zero for itself. */
static int64_t potential(void) {
    int64_t sum = 0;
    pair p;
    for (int i = 0; i < n; i++)
        for (int j = i + 1; j < n; j++)
            if (interact(i, j, &p)) sum += V[p.bin] * p.class->weight / 256;
    return sum;
}

/* plain decimals of at most nine places */
static int64_t nano(const char *w) {
    int minus = *w == '-';
    int64_t v = 0;
    int places = -1;
    for (w += minus; *w && *w != ' ' && *w != '\n'; w++) {
        if (*w == '.') places = 0;
        else { v = 10 * v + (*w - '0'); if (places >= 0) places++; }
    }
    for (places = places < 0 ? 0 : places; places < 9; places++) v *= 10;
    return minus ? -v : v;
}

static uint32_t place_of(int64_t q) {
    i128 p = (i128)q << 32;
    i128 whole = p / edge - (p % edge < 0);
    return (uint32_t)whole;
}

static class class_of(const char *sigma_word, uint32_t h, uint32_t weight) {
    uint64_t sigma = (uint64_t)(((u128)nano(sigma_word) << 32) / (u128)edge), square = sigma * sigma;
    uint64_t cut = (uint64_t)(((u128)25 * square + 3) / 4), inverse = (uint64_t)((((u128)1 << 95) + square - 1) / square);
    return (class){square, cut, inverse, h, weight};
}

/* Reads a LOAD or a LOADMIX line into the edge, the classes and the symbol of the second species; what else, 0. */
static int read_load(const char *line, char *verb, char *name, char *other) {
    char e[64], s[3][64];
    uint32_t h[3], w[3] = {256, 256, 256};
    int mixed = sscanf(line, "LOADMIX %63s %63s %*s %63s %63s %u %u %63s %u %u %63s %u %u rest", name, e, other,
                       s[0], &h[0], &w[0], s[1], &h[1], &w[1], s[2], &h[2], &w[2]) == 12;
    if (!mixed) {
        if (sscanf(line, "LOAD %63s %63s %63s %u rest", name, e, s[0], &h[0]) != 4) return 0;
        memcpy(s[1], s[0], sizeof *s), memcpy(s[2], s[0], sizeof *s);
        h[1] = h[2] = h[0];
        *other = 0;
    }
    strcpy(verb, mixed ? "LOADMIX" : "LOAD");
    edge = nano(e);
    reach = 0;
    for (int c = 0; c < 3; c++) {
        classes[c] = class_of(s[c], h[c], w[c]);
        if (classes[c].cut > reach) reach = classes[c].cut;
    }
    return 1;
}

static int read_atoms(const char *other) {
    char line[4096], symbol[64], x[64], y[64], z[64];
    if (!fgets(line, sizeof line, stdin)) return 0;
    n = atoi(line);
    if (!fgets(line, sizeof line, stdin)) return 0;
    prev = malloc(sizeof *prev * n), cur = malloc(sizeof *cur * n), f = malloc(sizeof *f * n), second = malloc(n);
    for (int i = 0; i < n; i++) {
        if (!fgets(line, sizeof line, stdin) || sscanf(line, "%63s %63s %63s %63s", symbol, x, y, z) != 4) return 0;
        second[i] = !strcmp(symbol, other);
        cur[i] = prev[i] = (place){place_of(nano(x)), place_of(nano(y)), place_of(nano(z))};
    }
    return 1;
}

static void advance(long long steps) {
    struct timespec a, b;
    clock_gettime(CLOCK_MONOTONIC, &a);
    for (long long t = 0; t < steps; t++) {
        forces();
        for (int i = 0; i < n; i++) {
            place c = cur[i];
            cur[i] = (place){2 * c.x - prev[i].x + f[i].x, 2 * c.y - prev[i].y + f[i].y, 2 * c.z - prev[i].z + f[i].z};
            prev[i] = c;
        }
    }
    clock_gettime(CLOCK_MONOTONIC, &b);
    spent += b.tv_sec - a.tv_sec + 1e-9 * (b.tv_nsec - a.tv_nsec);
    step += steps;
}

/* The decimal digits of a number that may be greater than 2^64, in `room`. */
static const char *decimal(u128 value, char room[40]) {
    char *at = room + 39;
    *at = 0;
    do *--at = '0' + value % 10;
    while (value /= 10);
    return at;
}

static void measure(const char *name) {
    int64_t x = 0, y = 0, z = 0;
    u128 kinetic = 0;
    char digits[40];
    for (int i = 0; i < n; i++) {
        int32_t a = image(cur[i].x, prev[i].x), b = image(cur[i].y, prev[i].y), c = image(cur[i].z, prev[i].z);
        x += a, y += b, z += c;
        kinetic += (u128)sq(a) + sq(b) + sq(c);
    }
    printf("OK MEASURE %s %lld %d %lld %lld %lld %s %lld\n", name, (long long)step, n, (long long)x, (long long)y,
           (long long)z, decimal(kinetic, digits), (long long)potential());
}

int main(void) {
    static char line[4096], verb[8], name[64], other[64];
    tables();
    while (fgets(line, sizeof line, stdin)) {
        long long k;
        if (read_load(line, verb, name, other)) {
            if (!read_atoms(other)) return 1;
            printf("OK %s %s 0 %d\n", verb, name, n);
        } else if (sscanf(line, "ADVANCE %63s %lld", name, &k) == 2) {
            advance(k);
            printf("OK ADVANCE %s %lld\n", name, (long long)step);
        } else if (sscanf(line, "SHOW %63s %lld", name, &k) == 2)
            printf("OK SHOW %s %lld %lld %u %u %u\n", name, (long long)step, k, cur[k].x, cur[k].y, cur[k].z);
        else if (sscanf(line, "MEASURE %63s", name) == 1)
            measure(name);
    }
    fprintf(stderr, "plain: %d atoms, %lld steps, %.3f ms per step\n", n, (long long)step, step ? 1e3 * spent / step : 0);
    return 0;
}
