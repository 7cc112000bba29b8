/* Counts over a recipe of chance, as gcc compiles it: tools/chance compiles this file with RECIPE, the name of the recipe.

   chance_counts PART FOUNDERS prints a line for each count: its name, what was counted, and the most that a sound recipe
   gives. PART is families, streams or numbers.
   chance_counts values reads lines `iteration seed part whole` and prints what the functions give.

   A recipe has next_seed, drawn and child_seed. With WHOLE it has number_below and chance_of too; with STILL a parent does
   not go on to its next seed when it bears. */
#include <math.h>
#include <stdint.h>
#include <stdio.h>
#include <stdlib.h>
#include <string.h>

int iteration_loop;
#include RECIPE

#define ITERATIONS 300
/* Standard deviations that a count may lie off: of 200000 sound recipes about one would have one of its 2200 counts further off. */
#define FAR 6.0

static uint64_t row;

/* SplitMix64: what is laid before a recipe, and is none of its functions. */
static uint64_t other(void) {
    uint64_t z = (row += 0x9E3779B97F4A7C15u);
    z = (z ^ z >> 30) * 0xBF58476D1CE4E5B9u;
    z = (z ^ z >> 27) * 0x94D049BB133111EBu;
    return z ^ z >> 31;
}

static int other_seed(void) { return (int)(int64_t)((other() >> 32) - 2147483648u); }

static int bear(int *parent) {
#ifndef STILL
    *parent = next_seed(*parent);
#endif
    return child_seed(*parent);
}

static void tell(const char *what, const char *part, double counted, double most) {
    printf("%s %s: %.10g, at most %.10g\n", what, part, counted, most);
}

/* The most that a count with a small mean, as that of equal pairs, may be. */
static double most_of(double mean) { return mean + FAR * sqrt(mean) + FAR; }

/* Chi-square as a normal deviate, by Wilson and Hilferty: too uneven is far off, and too even as well. */
static double deviate(double square, int freedom) {
    double part = 2.0 / (9 * freedom);
    return fabs(cbrt(square / freedom) - (1 - part)) / sqrt(part);
}

/* How far bins that are equally likely are off. */
static double off(const int *bins, int count, double total) {
    double square = 0, each = total / count;
    int i;
    for (i = 0; i < count; i++) square += (bins[i] - each) * (bins[i] - each) / each;
    return deviate(square, count - 1);
}

/* ---- families: how many pairs of the living have one seed */

static uint32_t *living, *spare;

static double equal_pairs(size_t count) {
    double pairs = 0;
    size_t i, same = 0;
    int shift;
    for (shift = 0; shift < 32; shift += 16) {
        static size_t place[65537];
        memset(place, 0, sizeof place);
        for (i = 0; i < count; i++) place[(living[i] >> shift & 65535) + 1]++;
        for (i = 0; i < 65536; i++) place[i + 1] += place[i];
        for (i = 0; i < count; i++) spare[place[living[i] >> shift & 65535]++] = living[i];
        memcpy(living, spare, count * sizeof *living);
    }
    for (i = 1; i < count; i++) {
        same = living[i] == living[i - 1] ? same + 1 : 0;
        pairs += (double)same;
    }
    return pairs;
}

struct pattern {
    const char *name;
    int every;      /* births come in each so manieth iteration, */
    int children;   /* so many of a parent, */
    int until;      /* up to this iteration. */
    int who;        /* 0: founders bear, 1: the youngest of each family, 2: all */
    int draws;      /* of a founder in an iteration */
    int later;      /* of the others */
};

static const struct pattern patterns[] = {
    {"one_child_an_iteration", 1, 1, 300, 0, 1, 1},
    {"twins", 6, 2, 300, 0, 1, 1},
    {"parents_draw_not_at_all", 6, 1, 300, 0, 0, 1},
    {"parents_draw_twice", 6, 1, 300, 0, 2, 1},
    {"children_draw_twice", 6, 1, 300, 0, 1, 2},
    {"nobody_draws", 6, 1, 300, 0, 0, 0},
    {"ten_generations", 30, 1, 300, 1, 1, 1},
    {"ten_generations_of_twins", 30, 2, 300, 1, 1, 1},
    {"all_bear_six_times", 1, 1, 6, 2, 1, 1},
};

static void families(int founders) {
    size_t p;
    for (p = 0; p < sizeof patterns / sizeof *patterns; p++) {
        const struct pattern *one = &patterns[p];
        size_t count = (size_t)founders, youngest = 0, i;
        int t, k;
        row = 100;
        for (i = 0; i < count; i++) living[i] = (uint32_t)other_seed();
        for (t = 1; t <= ITERATIONS; t++) {
            size_t there = count, from = one->who == 1 ? youngest : 0;
            size_t to = one->who == 0 ? (size_t)founders : there;
            iteration_loop = t;
            for (i = 0; i < there; i++) {
                int seed = (int)living[i];
                for (k = 0; k < (i < (size_t)founders ? one->draws : one->later); k++) seed = next_seed(seed);
                living[i] = (uint32_t)seed;
            }
            if (t % one->every != 0 || t > one->until) continue;
            /* Of twins the first one bears. */
            for (i = from; i < to; i += from > 0 ? (size_t)one->children : 1) {
                int seed = (int)living[i];
                for (k = 0; k < one->children; k++) living[count++] = (uint32_t)bear(&seed);
                living[i] = (uint32_t)seed;
            }
            youngest = there;
        }
        tell("equal_seeds", one->name, equal_pairs(count), most_of((double)count * (count - 1) / 2 / 4294967296.0));
    }
}

/* ---- streams: whether the numbers of two agents tell of one another */

static void two_streams(const char *name, const int *left, const int *right, int pairs) {
    static int x[ITERATIONS], y[ITERATIONS];
    static int high[256], low[256], tens[100];
    double sums[5] = {0};
    double total = (double)pairs * ITERATIONS;
    double equal = 0;
    int i, t, lag;
    char part[100];
    memset(high, 0, sizeof high);
    memset(low, 0, sizeof low);
    memset(tens, 0, sizeof tens);
    for (i = 0; i < pairs; i++) {
        int a = left[i], b = right[i];
        for (t = 0; t < ITERATIONS; t++) {
            iteration_loop = t + 1;
            a = next_seed(a);
            b = next_seed(b);
            x[t] = drawn(a);
            y[t] = drawn(b);
            high[(x[t] >> 27) * 16 + (y[t] >> 27)]++;
            low[x[t] % 16 * 16 + y[t] % 16]++;
            tens[x[t] % 10 * 10 + y[t] % 10]++;
        }
        for (lag = -2; lag <= 2; lag++) {
            for (t = lag < 0 ? -lag : 0; t < ITERATIONS && t + lag < ITERATIONS; t++) {
                sums[lag + 2] += (x[t] / 2147483648.0 - 0.5) * (y[t + lag] / 2147483648.0 - 0.5);
                equal += x[t] == y[t + lag];
            }
        }
    }
    for (lag = -2; lag <= 2; lag++) {
        sprintf(part, "%s_%d_later", name, lag);
        tell("correlation", part, fabs(sums[lag + 2]) * 12 / sqrt((double)pairs * (ITERATIONS - abs(lag))), FAR);
    }
    tell("upper_bits", name, off(high, 256, total), FAR);
    tell("lower_bits", name, off(low, 256, total), FAR);
    tell("last_digits", name, off(tens, 100, total), FAR);
    tell("equal_numbers", name, equal, most_of(total * 5 / 2147483648.0));
}

static void streams(int founders) {
    int *a = malloc(founders * sizeof *a), *b = malloc(founders * sizeof *b);
    int *c = malloc(founders * sizeof *c), *d = malloc(founders * sizeof *d);
    int *e = malloc(founders * sizeof *e);
    int i, k;
    row = 200;
    iteration_loop = 1;
    for (i = 0; i < founders; i++) {
        a[i] = other_seed();
        b[i] = bear(&a[i]);
        c[i] = bear(&a[i]);
        d[i] = b[i];
        for (k = 0; k < 3; k++) d[i] = next_seed(d[i]);
        d[i] = bear(&d[i]);
    }
    two_streams("parent_child", a, b, founders);
    two_streams("siblings", b, c, founders);
    two_streams("parent_grandchild", a, d, founders);
    for (i = 0; i < founders; i++) {
        iteration_loop = i % 100 + 1;
        e[i] = bear(&a[i]);
    }
    two_streams("siblings_of_another_time", e, c, founders);
    for (i = 0; i < founders; i++) {
        a[i] = i + 1;
        b[i] = i + 2;
        c[i] = i == 0 ? 0 : -i;
        d[i] = (int)(65536u * (uint32_t)(i + 1));
    }
    two_streams("founders_1_2_3", a, b, founders);
    two_streams("founders_and_those_below_0", a, c, founders);
    two_streams("founders_by_upper_half", d, a, founders);
    row = 300;
    for (i = 0; i < founders; i++) a[i] = other_seed();
    for (i = 0; i < founders; i++) b[i] = a[(i + 1) % founders];
    two_streams("neighbours", a, b, founders);
    for (i = 0; i < founders; i++) b[i] = next_seed(a[i]);
    two_streams("one_step_ahead", a, b, founders);
    free(a);
    free(b);
    free(c);
    free(d);
    free(e);
}

/* ---- single numbers */

static void bits(int founders) {
    static int ones[2][32], change[2][32][32], pair[3][256];
    int samples = 4 * founders, i, j, k;
    double worst[2] = {0, 0}, even[2] = {0, 0}, total = (double)founders * ITERATIONS;
    row = 400;
    for (i = 0; i < founders; i++) {
        int seed = other_seed();
        for (k = 0; k < ITERATIONS; k++) {
            uint32_t number, child;
            iteration_loop = k + 1;
            seed = next_seed(seed);
            number = (uint32_t)drawn(seed);
            child = (uint32_t)child_seed(seed);
            for (j = 0; j < 32; j++) {
                ones[0][j] += number >> j & 1;
                ones[1][j] += child >> j & 1;
            }
            pair[0][(number >> 27) * 16 + (child >> 28)]++;
            pair[1][(number & 15) * 16 + (child & 15)]++;
            pair[2][(child >> 28) * 16 + ((uint32_t)seed >> 28)]++;
        }
    }
    for (i = 0; i < samples; i++) {
        int seed = other_seed();
        iteration_loop = i % 1000 + 1;
        for (k = 0; k < 32; k++) {
            int near = (int)((uint32_t)seed ^ 1u << k);
            uint32_t numbers = (uint32_t)drawn(seed) ^ (uint32_t)drawn(near);
            uint32_t children = (uint32_t)child_seed(seed) ^ (uint32_t)child_seed(near);
            for (j = 0; j < 32; j++) {
                change[0][k][j] += numbers >> j & 1;
                change[1][k][j] += children >> j & 1;
            }
        }
    }
    for (k = 0; k < 2; k++) {
        for (j = 0; j < 32 - (k == 0); j++) {
            even[k] = fmax(even[k], fabs(ones[k][j] - total / 2) / sqrt(total / 4));
            for (i = 0; i < 32; i++) {
                worst[k] = fmax(worst[k], fabs(change[k][i][j] - samples / 2.0) / sqrt(samples / 4.0));
            }
        }
    }
    tell("ones", "of_numbers", even[0], FAR);
    tell("ones", "of_children", even[1], FAR);
    tell("changed_bits", "of_numbers", worst[0], FAR);
    tell("changed_bits", "of_children", worst[1], FAR);
    tell("upper_bits", "number_and_child", off(pair[0], 256, total), FAR);
    tell("lower_bits", "number_and_child", off(pair[1], 256, total), FAR);
    tell("upper_bits", "seed_and_child", off(pair[2], 256, total), FAR);
}

/* ---- draws and children in another order */

static void orders(int founders) {
    static const char *names[] = {"draw_then_bear", "draw_twice_then_bear", "child_of_a_child", "child_on_the_way_of_its_parent"};
    double same[4] = {0};
    int tries = 100 * founders, i, k;
    row = 500;
    for (i = 0; i < tries; i++) {
        int seed = other_seed(), next, child, second, walker;
        iteration_loop = i % 300 + 1;
        next = next_seed(seed);
        child = child_seed(seed);
        second = child_seed(next);
        same[0] += second == next_seed(child);
        same[1] += child_seed(next_seed(next)) == next_seed(next_seed(child));
        same[2] += child_seed(next_seed(child)) == child_seed(child_seed(next)) || child_seed(child) == seed;
        walker = seed;
        for (k = 0; k < 32; k++) {
            same[3] += walker == child;
            walker = next_seed(walker);
        }
    }
    for (i = 0; i < 4; i++) tell("same_seed", names[i], same[i], most_of(tries * (i == 3 ? 32.0 : 2.0) / 4294967296.0));
}

/* From each of these the seeds go on for long without a return. */
static void cycles(int founders) {
    static const int first[] = {0, 1, 2, -1, -2, 16807, 65536, 2147483647, -2147483647, -2147483647 - 1};
    double back = 0;
    size_t i;
    for (i = 0; i < sizeof first / sizeof *first; i++) {
        int seed = next_seed(first[i]), slow = first[i], k;
        for (k = 0; k < 100 * founders && seed != slow; k++) {
            seed = next_seed(next_seed(seed));
            slow = next_seed(slow);
        }
        back += seed == slow;
    }
    tell("short_cycles", "of_ten_seeds", back, 0);
}

#ifdef WHOLE
static int at_the_ends(int k) {
    int power = k % 31, near = k / 31 % 5 - 2;
    uint32_t seed = (1u << (power + 1)) + (uint32_t)near;
    return k % 2 ? (int)seed : (int)(0u - seed);
}

static void bounds(int founders) {
    static const int counts[] = {1, 2, 3, 6, 7, 10, 100, 150, 1000, 65536, 1000003, 536870913, 1073741823, 1073741824, 1073741825,
                                 1431655765, 1610612736, 2147483646, 2147483647};
    static const int parts[][2] = {{0, 7}, {7, 7}, {8, 7}, {-1, 7}, {6, 100}, {1, 2}, {1, 20}, {1, 400}, {999, 1000}, {1, 1000003},
                                   {1073741824, 2147483647}, {2147483646, 2147483647}};
    int tries = 30 * founders, i;
    size_t k;
    double outside = 0, steps = 0;
    char part[100];
    row = 600;
    for (k = 0; k < sizeof counts / sizeof *counts; k++) {
        int bins[60], many = counts[k] < 60 ? counts[k] : 60;
        double square = 0;
        memset(bins, 0, sizeof bins);
        for (i = 0; i < tries; i++) {
            int number;
            iteration_loop = i % 300 + 1;
            number = number_below(other_seed(), counts[k]);
            if (number < 0 || number >= counts[k]) {
                outside++;
                continue;
            }
            bins[(int64_t)number * many / counts[k]]++;
        }
        for (i = 0; i < many; i++) {
            /* The numbers of a bin, exactly. */
            int64_t from = ((int64_t)counts[k] * i + many - 1) / many, to = ((int64_t)counts[k] * (i + 1) + many - 1) / many;
            double each = tries * (double)(to - from) / counts[k];
            square += (bins[i] - each) * (bins[i] - each) / each;
        }
        sprintf(part, "below_%d", counts[k]);
        if (many > 1) tell("even", part, deviate(square, many - 1), FAR);
    }
    for (k = 0; k < sizeof parts / sizeof *parts; k++) {
        double held = 0, share = fmin(1, fmax(0, (double)parts[k][0] / parts[k][1])), mean = tries * share;
        for (i = 0; i < tries; i++) {
            int one;
            iteration_loop = i % 300 + 1;
            one = chance_of(other_seed(), parts[k][0], parts[k][1]);
            held += one;
            outside += one != 0 && one != 1;
        }
        sprintf(part, "%d_in_%d", parts[k][0], parts[k][1]);
        /* A share of 0 or 1 is exact; a rare one has a skewed distribution. */
        tell("chance", part, fabs(held - mean), share == 0 || share == 1 ? 0 : FAR * sqrt(mean * (1 - share)) + FAR);
    }
    /* All functions at the ends of int, near powers of two and elsewhere, at iterations up to the last: a fault of C ends the program here. */
    for (i = 0; i < 300 * founders; i++) {
        int seed = i < 310 ? at_the_ends(i) : i < 1000 ? i - 700 : other_seed(), number, count = (int)(other() >> 33) | 1;
        iteration_loop = i % 7 == 0 ? 2147483647 : i % 7 == 1 ? 0 : (int)(other() >> 33);
        number = drawn(seed);
        outside += number < 0;
        number = number_below(seed, count);
        outside += number < 0 || number >= count;
        outside += (uint32_t)child_seed(seed) == (uint32_t)child_seed(next_seed(seed));
        steps += (uint32_t)next_seed(seed) - (uint32_t)seed != 1640531527u;
    }
    tell("outside", "of_what_is_promised", outside, 0);
    /* Each step adds one odd number, modulo 2 to the 32: so all seeds are one cycle. */
    tell("other_steps", "than_the_one_number", steps, 0);
}

static void values(void) {
    int seed, part, whole;
    while (scanf("%d %d %d %d", &iteration_loop, &seed, &part, &whole) == 4) {
        printf("%d %d %d %d %d\n", next_seed(seed), drawn(seed), number_below(seed, whole), chance_of(seed, part, whole), child_seed(seed));
    }
}
#endif

int main(int words, char **word) {
    int founders = words > 2 ? atoi(word[2]) : 0;
#ifdef WHOLE
    if (words > 1 && strcmp(word[1], "values") == 0) {
        values();
        return 0;
    }
#endif
    if (founders < 1) return 2;
    if (strcmp(word[1], "families") == 0) {
        living = malloc((size_t)founders * 301 * sizeof *living);
        spare = malloc((size_t)founders * 301 * sizeof *spare);
        if (!living || !spare) return 2;
        families(founders);
    } else if (strcmp(word[1], "streams") == 0) {
        streams(founders);
    } else {
        bits(founders);
        orders(founders);
        cycles(founders);
#ifdef WHOLE
        bounds(founders);
#endif
    }
    return 0;
}
