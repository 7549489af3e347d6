/* Nanoseconds a square root takes: the processor's instruction, the same behind a call that makes rummyteak_sqrt's tests, and rummyteak_sqrt.
   All three sum the roots of the same numbers, in turn; the least time of twenty-five rounds or more, and of 1.8 seconds or more, counts.
   `root once` runs each once through `counted`, for callgrind, and says in which order. */
#include "rummyteak.h"
#include <math.h>
#include <stdio.h>
#include <string.h>
#include <time.h>

static double by_port(const double *xs, size_t n) {
    double sum = 0, root = 0;
    for (size_t i = 0; i < n; i++)
        if (rummyteak_sqrt(xs[i], &root) == RUMMYTEAK_RESULT)
            sum += root;
    return sum;
}

/* The processor's root with the tests and the form of rummyteak_sqrt. */
__attribute__((noinline)) uint32_t tested_sqrt(double x, double *root) {
    if (!isfinite(x))
        return RUMMYTEAK_BAD_NUMBER;
    if (x < 0)
        return RUMMYTEAK_NOT_FINITE;
    *root = sqrt(x);
    return RUMMYTEAK_RESULT;
}

static double by_call(const double *xs, size_t n) {
    double sum = 0, root = 0;
    for (size_t i = 0; i < n; i++)
        if (tested_sqrt(xs[i], &root) == RUMMYTEAK_RESULT)
            sum += root;
    return sum;
}

static double by_processor(const double *xs, size_t n) {
    double sum = 0;
    for (size_t i = 0; i < n; i++)
        sum += sqrt(xs[i]);
    return sum;
}

/* All that is timed goes through here, and callgrind counts what is done within. */
__attribute__((noinline)) double counted(double (*roots)(const double *, size_t), const double *xs, size_t n) {
    double sum = roots(xs, n);
    __asm__ volatile("" ::: "memory");
    return sum;
}

static double now(void) {
    struct timespec t;
    clock_gettime(CLOCK_MONOTONIC, &t);
    return t.tv_sec * 1e9 + t.tv_nsec;
}

/* One more round of one program; the least time of its rounds is kept. */
static double once_more(double (*roots)(const double *, size_t), const double *xs, size_t n, double *least) {
    double start = now();
    double sum = counted(roots, xs, n);
    double ns = (now() - start) / n;
    if (ns < *least)
        *least = ns;
    return sum;
}

#define N 65536
static double xs[N];

int main(int argc, char **argv) {
    int once = argc > 1 && strcmp(argv[1], "once") == 0;
    int rounds = once ? 1 : 25;
    uint64_t x = 0x9e3779b97f4a7c15u;
    for (int i = 0; i < N; i++) {
        x ^= x << 13;
        x ^= x >> 7;
        x ^= x << 17;
        /* normal numbers between 2^-512 and 2^512, as sums of squares are */
        uint64_t bits = (x & 0x000fffffffffffffu) | (((x >> 52) % 1024 + 511) << 52);
        memcpy(&xs[i], &bits, 8);
    }
    double a = 0, b = 0, c = 0, port = 1e18, called = 1e18, processor = 1e18;
    double start = now();
    for (int round = 0; round < rounds || (!once && now() - start < 1.8e9); round++) {
        a = once_more(by_port, xs, N, &port);
        b = once_more(by_call, xs, N, &called);
        c = once_more(by_processor, xs, N, &processor);
    }
    if (a != b || a != c) {
        printf("the sums differ\n");
        return 1;
    }
    if (once) {
        printf("root - - root %d 3\n", N);
        return 0;
    }
    printf("square root, ns each over %d numbers\n", N);
    printf("  processor        %6.2f\n", processor);
    printf("  processor, called%6.2f\n", called);
    printf("  rummyteak_sqrt   %6.2f   %5.2f times the processor's, %.2f times the called one's\n", port, port / processor, port / called);
    return 0;
}
