/* The time of a square root: the machine's instruction in a loop, `sqrt` one by one, and `sqrt_into_slice`, on the same values.
 * Every result is compared with the instruction's. Prints nanoseconds a root, the median of 31 runs. */
#include <math.h>
#include <stddef.h>
#include <stdint.h>
#include <stdio.h>
#include <stdlib.h>
#include <string.h>
#include <time.h>

#include "fuistelo.h"

void bench_sqrt_into_slice(const double *src, size_t src_len, double *dst, size_t dst_len);

enum { VALUES = 4096, PASSES = 50, RUNS = 31 };

static double values[VALUES], roots[VALUES], expected[VALUES];

static void hardware(const double *src, size_t src_len, double *dst, size_t dst_len) {
    (void)dst_len;
    for (size_t i = 0; i < src_len; i++) dst[i] = sqrt(src[i]);
}

static void called(const double *src, size_t src_len, double *dst, size_t dst_len) {
    (void)dst_len;
    for (size_t i = 0; i < src_len; i++) dst[i] = fuistelo_sqrt(src[i]);
}

static double now(void) {
    struct timespec t;
    clock_gettime(CLOCK_MONOTONIC, &t);
    return t.tv_sec * 1e9 + t.tv_nsec;
}

static int by_size(const void *a, const void *b) {
    double x = *(const double *)a, y = *(const double *)b;
    return (x > y) - (x < y);
}

static void measure(const char *name, void (*f)(const double *, size_t, double *, size_t)) {
    double times[RUNS];
    for (int r = 0; r < RUNS; r++) {
        double begin = now();
        for (int p = 0; p < PASSES; p++) f(values, VALUES, roots, VALUES);
        times[r] = (now() - begin) / ((double)PASSES * VALUES);
    }
    qsort(times, RUNS, sizeof times[0], by_size);
    int wrong = memcmp(roots, expected, sizeof roots) != 0;
    printf("%-44s %6.2f ns a root%s\n", name, times[RUNS / 2], wrong ? "   WRONG RESULTS" : "");
    if (wrong) exit(1);
}

static uint64_t state = 20260101;

static uint64_t next(void) { /* splitmix64 */
    uint64_t z = state += 0x9e3779b97f4a7c15u;
    z = (z ^ (z >> 30)) * 0xbf58476d1ce4e5b9u;
    z = (z ^ (z >> 27)) * 0x94d049bb133111ebu;
    return z ^ (z >> 31);
}

/* values above zero whose exponent field is least or one of the `fields` from there on */
static void fill(const char *what, uint64_t least, uint64_t fields) {
    for (int i = 0; i < VALUES; i++) {
        uint64_t bits = (least + next() % fields) << 52 | next() >> 12;
        memcpy(&values[i], &bits, 8);
        expected[i] = sqrt(values[i]);
    }
    printf("%s\n", what);
}

int main(void) {
    for (int set = 0; set < 3; set++) {
        if (set == 0) fill("values from 2^-8 to 2^8", 1015, 16);
        if (set == 1) fill("normal values of any exponent", 1, 2046);
        if (set == 2) fill("subnormal values", 0, 1);
        measure("  the machine's instruction, in a C loop", hardware);
        measure("  sqrt, called for each value", called);
        measure("  sqrt_into_slice", bench_sqrt_into_slice);
    }
    return 0;
}
