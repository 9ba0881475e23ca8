/* Lennard-Jones atoms of two species in double precision, beside which `bench/accuracy` measures the program. Lengths
   are in sigma and energies in epsilon of the first species, masses are 1. A configuration is text: the number of atoms,
   the edge of the periodic box, sigma and epsilon between unlike atoms, and those of the second species; then seven
   numbers for each atom, its position, its velocity and its species, 0 or 1. Where all are 0, it is one species.

     accuracy forces KIND                        prints the force on each atom, then the potential energy
     accuracy run KIND DT STEPS EVERY T FRAMES   goes on by velocity Verlet; prints `E kinetic potential` after each EVERY
                                                 steps, behind that the positions where FRAMES is 1, and the
                                                 configuration at the end. Where T is above 0, the velocities are scaled
                                                 to that temperature after each 20 steps.
     accuracy pairs WIDTH COUNT                  reads configurations up to the end of the input, and prints for each how
                                                 many pairs there are at a distance in each of COUNT bins of that width

   KIND is cut: pairs within 2.5 sigma of their own; bins: the same, taken at the centres of the program's bins of squared
   distance, but not rounded; or far: all pairs and images within 10 sigma of the first species.
   Build: cc -O3 -march=native -ffp-contract=off -o accuracy accuracy.c -lm. Without contracted or reordered operations
   each number is the same on every machine. */
#include <math.h>
#include <stdio.h>
#include <stdlib.h>
#include <string.h>

enum { MOST = 4096 };
static const double CUT = 6.25, FAR = 100;

/* How two atoms interact, by how many of them are of the second species. */
static struct { double sigma, epsilon, square; } classes[3];
static int n, species[MOST];
static double edge, x[3][MOST], v[3][MOST], f[3][MOST];

static int read_configuration(void) {
    classes[0].sigma = classes[0].epsilon = 1;
    if (scanf("%d %lf %lf %lf %lf %lf", &n, &edge, &classes[1].sigma, &classes[1].epsilon, &classes[2].sigma,
              &classes[2].epsilon) != 6 || n < 1 || n > MOST) return 0;
    for (int c = 0; c < 3; c++) classes[c].square = classes[c].sigma * classes[c].sigma;
    for (int i = 0; i < n; i++)
        if (scanf("%lf %lf %lf %lf %lf %lf %d", &x[0][i], &x[1][i], &x[2][i], &v[0][i], &v[1][i], &v[2][i], &species[i]) != 7
            || species[i] < 0 || species[i] > 1) return 0;
    return 1;
}

/* The nearest whole number, for sizes below 2^51: the sum has no room for a fraction. */
static double nearest(double a) { return (a + 0x1.8p52) - 0x1.8p52; }

/* The force of a pair over its distance, at a squared distance of s squares of its sigma, into *push; answers its energy. */
static double pair_at(double s, int class, double *push) {
    double u = 1 / s, c = u * u * u, epsilon = classes[class].epsilon;
    *push = 24 * (2 * c - 1) * c * u * (epsilon / classes[class].square);
    return 4 * (c - 1) * c * epsilon;
}

static double centre(double s) {
    double k = floor(128 * s);
    return ((k < 64 ? 64 : k) + 0.5) / 128;
}

/* The forces of pairs within the cutoff into f; answers the potential energy. */
static double near_forces(int bins) {
    static double d[3][MOST], square[MOST];
    static int near[MOST];
    double energy = 0, inverse = 1 / edge, most = fmax(fmax(classes[0].square, classes[1].square), classes[2].square);
    memset(f, 0, sizeof f);
    for (int i = 0; i < n; i++) {
        for (int j = i + 1; j < n; j++) {
            double a = x[0][i] - x[0][j], b = x[1][i] - x[1][j], c = x[2][i] - x[2][j];
            d[0][j] = a -= edge * nearest(a * inverse);
            d[1][j] = b -= edge * nearest(b * inverse);
            d[2][j] = c -= edge * nearest(c * inverse);
            square[j] = a * a + b * b + c * c;
        }
        int count = 0;
        for (int j = i + 1; j < n; j++) {
            near[count] = j;
            count += square[j] < CUT * most;
        }
        for (int at = 0; at < count; at++) {
            int j = near[at], class = species[i] + species[j];
            double s = square[j] / classes[class].square, push;
            if (s >= CUT) continue;
            energy += pair_at(bins ? centre(s) : s, class, &push);
            for (int axis = 0; axis < 3; axis++) {
                f[axis][i] += push * d[axis][j];
                f[axis][j] -= push * d[axis][j];
            }
        }
    }
    return energy;
}

/* The forces of all pairs and images within 10 sigma into f; answers the potential energy, with that of atoms spread
   evenly beyond. */
static double far_forces(void) {
    int images = (int)(sqrt(FAR) / edge) + 2;
    double energy = 0, beyond = 0, volume = edge * edge * edge;
    memset(f, 0, sizeof f);
    for (int i = 0; i < n; i++)
        for (int j = 0; j < n; j++) {
            int class = species[i] + species[j];
            beyond += classes[class].epsilon * pow(classes[class].square, 3);
            for (int cell = 0, side = 2 * images + 1; cell < side * side * side; cell++) {
                int place[3] = {cell % side - images, cell / side % side - images, cell / side / side - images};
                double d[3], s = 0, push;
                for (int axis = 0; axis < 3; axis++) {
                    d[axis] = x[axis][i] - x[axis][j];
                    d[axis] += edge * (place[axis] - nearest(d[axis] / edge));
                    s += d[axis] * d[axis];
                }
                if (s >= FAR || s == 0) continue;
                energy += pair_at(s / classes[class].square, class, &push) / 2;
                for (int axis = 0; axis < 3; axis++) f[axis][i] += push * d[axis];
            }
        }
    return energy - 8 * M_PI / 3 * beyond / volume / pow(FAR, 1.5);
}

static double forces(const char *kind) {
    return !strcmp(kind, "far") ? far_forces() : near_forces(!strcmp(kind, "bins"));
}

static double kinetic(void) {
    double sum = 0;
    for (int axis = 0; axis < 3; axis++)
        for (int i = 0; i < n; i++) sum += v[axis][i] * v[axis][i] / 2;
    return sum;
}

static void kick(double time) {
    for (int axis = 0; axis < 3; axis++)
        for (int i = 0; i < n; i++) v[axis][i] += time * f[axis][i];
}

static void scale_to(double temperature) {
    double factor = sqrt(temperature * 3 * (n - 1) / (2 * kinetic()));
    for (int axis = 0; axis < 3; axis++)
        for (int i = 0; i < n; i++) v[axis][i] *= factor;
}

static void print_configuration(void) {
    printf("%d %.17g %.17g %.17g %.17g %.17g\n", n, edge, classes[1].sigma, classes[1].epsilon, classes[2].sigma,
           classes[2].epsilon);
    for (int i = 0; i < n; i++)
        printf("%.17g %.17g %.17g %.17g %.17g %.17g %d\n", x[0][i], x[1][i], x[2][i], v[0][i], v[1][i], v[2][i], species[i]);
}

static void run(const char *kind, double dt, long steps, long every, double temperature, int frames) {
    forces(kind);
    for (long step = 1; step <= steps; step++) {
        kick(dt / 2);
        for (int axis = 0; axis < 3; axis++)
            for (int i = 0; i < n; i++) x[axis][i] += dt * v[axis][i];
        double potential = forces(kind);
        kick(dt / 2);
        if (temperature > 0 && step % 20 == 0) scale_to(temperature);
        if (step % every == 0) {
            printf("E %.17g %.17g\n", kinetic(), potential);
            if (frames) print_configuration();
        }
    }
    print_configuration();
}

static void pairs(double width, int count) {
    long *found = calloc(count, sizeof *found);
    while (found && read_configuration()) {
        memset(found, 0, count * sizeof *found);
        for (int i = 0; i < n; i++)
            for (int j = i + 1; j < n; j++) {
                double s = 0;
                for (int axis = 0; axis < 3; axis++) {
                    double d = x[axis][i] - x[axis][j];
                    d -= edge * nearest(d / edge);
                    s += d * d;
                }
                double bin = sqrt(s) / width;
                if (bin < count) found[(int)bin]++;
            }
        for (int bin = 0; bin < count; bin++) printf("%ld%c", found[bin], bin + 1 < count ? ' ' : '\n');
    }
    free(found);
}

int main(int words, char **word) {
    if (words == 4 && !strcmp(word[1], "pairs")) {
        pairs(atof(word[2]), atoi(word[3]));
        return 0;
    }
    if (words < 3 || !read_configuration()) return 2;
    if (words == 3 && !strcmp(word[1], "forces")) {
        double energy = forces(word[2]);
        for (int i = 0; i < n; i++) printf("%.17g %.17g %.17g\n", f[0][i], f[1][i], f[2][i]);
        printf("%.17g\n", energy);
        return 0;
    }
    if (words == 8 && !strcmp(word[1], "run")) {
        run(word[2], atof(word[3]), atol(word[4]), atol(word[5]), atof(word[6]), atoi(word[7]));
        return 0;
    }
    return 2;
}
