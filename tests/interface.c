/* Calls every function of the C interface on good and bad input. Buffers are exactly as long as stated. Behind each lies
 * a page without access, so that a step beyond it ends the program, in the library too, which the sanitizers don't see
 * into; in front of it stand marks. What a refusal must leave alone is filled with a mark. */
#define _DEFAULT_SOURCE
#include "../include/rummyteak.h"

#include <fenv.h>
#include <inttypes.h>
#include <math.h>
#include <stddef.h>
#include <stdio.h>
#include <stdlib.h>
#include <string.h>
#include <sys/mman.h>
#include <unistd.h>

#define W RUMMYTEAK_WIDTH

static int checks, wrong;

static void expect(bool right, const char *what, int line)
{
    checks++;
    if (!right) {
        wrong++;
        printf("line %d: %s\n", line, what);
    }
}

#define EXPECT(x) expect((x), #x, __LINE__)

/* The state of a march that no test looks at. */
static struct rummyteak_march_state aside;

static uint64_t bits(double x)
{
    uint64_t u;
    memcpy(&u, &x, sizeof u);
    return u;
}

static bool same(const double *a, const double *b, size_t n)
{
    for (size_t i = 0; i < n; i++)
        if (bits(a[i]) != bits(b[i]))
            return false;
    return true;
}

static const double MARK = -12345.0;

/* The buffers that are lent: where the pages begin, the numbers, and how many pages' bytes there are. */
static struct {
    double *pages, *p;
    size_t bytes;
} lent[64];

/* A buffer of n numbers, all of them the mark, that ends where a page without access begins. */
static double *marked(size_t n)
{
    size_t page = (size_t)sysconf(_SC_PAGESIZE), bytes = (n * sizeof(double) / page + 1) * page, k = 0;
    char *pages = mmap(NULL, bytes + page, PROT_READ | PROT_WRITE, MAP_PRIVATE | MAP_ANONYMOUS, -1, 0);
    while (k < 64 && lent[k].p)
        k++;
    if (pages == MAP_FAILED || k == 64 || mprotect(pages + bytes, page, PROT_NONE) != 0)
        exit(2);
    lent[k].pages = (double *)pages;
    lent[k].p = (double *)(pages + bytes) - n;
    lent[k].bytes = bytes + page;
    for (double *q = lent[k].pages; q < lent[k].p + n; q++)
        *q = MARK;
    return lent[k].p;
}

/* Gives a buffer back; nothing may have been written in front of it. */
static void release(double *p)
{
    for (size_t k = 0; k < 64; k++) {
        if (!p || lent[k].p != p)
            continue;
        bool kept = true;
        for (double *q = lent[k].pages; q < p; q++)
            kept = kept && bits(*q) == bits(MARK);
        EXPECT(kept);
        munmap(lent[k].pages, lent[k].bytes);
        lent[k].p = NULL;
        return;
    }
    exit(2);
}

static double *copy(const double *a, size_t n)
{
    double *p = marked(n);
    memcpy(p, a, n * sizeof *p);
    return p;
}

static bool untouched(const double *p, size_t from, size_t to)
{
    for (size_t i = from; i < to; i++)
        if (bits(p[i]) != bits(MARK))
            return false;
    return true;
}

/* R is (0,0) (8,0) (8,2) (0,2) (0,0); U is R without its last point. */
static const double R[] = {0, 0, 8, 0, 8, 2, 0, 2, 0, 0};
#define RLEN 10
#define ULEN 8
static const double T = 0.001, G = 0.01;

/* Circles at (4,1) and (5,1), radius 1, contacts straight below and above. */
static const double PAIR[] = {4, 1, 1, 4, 0, 4, 2, 4, 14, 5, 1, 1, 5, 0, 5, 2, 5, 13};

static void roots(void)
{
    double r = MARK;
    EXPECT(rummyteak_sqrt(25, &r) == 0 && r == 5);
    EXPECT(rummyteak_sqrt(2, &r) == 0 && bits(r) == UINT64_C(0x3ff6a09e667f3bcd));
    EXPECT(rummyteak_sqrt(-0.0, &r) == 0 && bits(r) == bits(-0.0));
    r = MARK;
    EXPECT(rummyteak_sqrt(-1, &r) == 12 && r == MARK);
    EXPECT(rummyteak_sqrt(NAN, &r) == 2 && r == MARK);
}

static void cleaning(void)
{
    const double four[] = {0, 0, 0.5, 0, 1, 0, 1.5, 0};
    const double two[] = {0, 0, 1, 0};
    double *points = copy(four, 8), *half = copy(four, 4), *odd = copy(four, 7), *r = copy(R, RLEN);
    double *out = marked(10), *tight = marked(9), *back = marked(RLEN), *little = marked(RLEN - 1);
    size_t count = 77;
    bool closed = true;
    EXPECT(rummyteak_from_points(points, 8, 0.5, false, out, 10, &count, &closed) == 0);
    EXPECT(count == 2 && !closed && same(out, two, 4) && untouched(out, 4, 10));
    for (size_t i = 0; i < 10; i++)
        out[i] = MARK;
    count = 77, closed = true;
    EXPECT(rummyteak_from_points(half, 4, 0.5, false, out, 10, &count, &closed) == 5);
    EXPECT(rummyteak_from_points(points, 8, 0.5, false, tight, 9, &count, &closed) == 4);
    EXPECT(rummyteak_from_points(odd, 7, 0.5, false, out, 10, &count, &closed) == 1);
    EXPECT(rummyteak_from_points(points, 8, -1, false, out, 10, &count, &closed) == 3);
    EXPECT(rummyteak_from_points(NULL, 0, 0.5, false, NULL, 0, &count, &closed) == 1);
    EXPECT(count == 77 && closed && untouched(out, 0, 10) && untouched(tight, 0, 9));
    EXPECT(rummyteak_reversed(r, RLEN, T, back, RLEN, &count, &closed) == 0);
    EXPECT(count == 5 && closed && back[2] == 0 && back[3] == 2);
    EXPECT(rummyteak_reversed(r, RLEN, T, little, RLEN - 1, &count, &closed) == 4 && untouched(little, 0, RLEN - 1));
    release(points), release(half), release(odd), release(r), release(out), release(tight), release(back), release(little);
}

static void sections(void)
{
    double *r = copy(R, RLEN), *u = copy(R, ULEN), *odd = copy(R, 3), *station = marked(5), *crossing = marked(4), x = MARK;
    size_t index = 77, edges[2] = {77, 77};
    bool yes = false;
    EXPECT(rummyteak_is_closed(r, RLEN, T, &yes) == 0 && yes);
    EXPECT(rummyteak_is_closed(u, ULEN, T, &yes) == 0 && !yes);
    EXPECT(rummyteak_is_closed(odd, 3, T, &yes) == 1 && !yes);
    EXPECT(rummyteak_length(r, RLEN, T, &x) == 0 && x == 20);
    EXPECT(rummyteak_length(r, RLEN, NAN, &x) == 3 && x == 20);
    EXPECT(rummyteak_at_length(r, RLEN, T, 9, station, &index) == 0);
    EXPECT(station[0] == 8 && station[1] == 1 && station[4] == 0.5 && index == 1);
    EXPECT(rummyteak_at_length(r, RLEN, T, 20, station, &index) == 0 && station[4] == 1 && index == 3);
    index = 77;
    for (size_t i = 0; i < 5; i++)
        station[i] = MARK;
    EXPECT(rummyteak_at_length(r, RLEN, T, -0.5, station, &index) == 9);
    EXPECT(rummyteak_at_vertex(r, RLEN, T, 5, station, &index) == 4);
    EXPECT(rummyteak_at_closest_to_point(r, RLEN, T, INFINITY, 0, station, &index) == 2);
    EXPECT(rummyteak_at_front(odd, 3, T, station, &index) == 1);
    EXPECT(rummyteak_at_back(r, RLEN, -1, station, &index) == 3);
    EXPECT(index == 77 && untouched(station, 0, 5));
    EXPECT(rummyteak_at_front(r, RLEN, T, station, &index) == 0 && station[0] == 0 && index == 0);
    EXPECT(rummyteak_at_back(u, ULEN, T, station, &index) == 0 && station[1] == 2 && station[4] == 1);
    EXPECT(rummyteak_at_vertex(r, RLEN, T, 1, station, &index) == 0 && station[0] == 8 && index == 1);
    EXPECT(rummyteak_at_closest_to_point(r, RLEN, T, 4, -1, station, &index) == 0 && station[0] == 4 && station[1] == 0);
    EXPECT(rummyteak_length_along(r, RLEN, T, 1, 0.5, &x) == 0 && x == 9);
    EXPECT(rummyteak_length_along(r, RLEN, T, 4, 0.5, &x) == 4 && x == 9);
    EXPECT(rummyteak_crossing_line(r, RLEN, T, 4, 1, 0, 1, crossing, edges) == 0 && edges[0] == 0 && edges[1] == 2);
    EXPECT(rummyteak_crossing_line(r, RLEN, T, 0, 0, 1, -1, crossing, edges) == 0 && edges[0] == 0 && edges[1] == 3);
    EXPECT(rummyteak_crossing_line(r, RLEN, T, 4, 1, 0, 1, crossing, edges) == 0);
    edges[0] = edges[1] = 77;
    EXPECT(crossing[0] == 4 && crossing[1] == 0 && crossing[2] == 0 && crossing[3] == 2);
    for (size_t i = 0; i < 4; i++)
        crossing[i] = MARK;
    EXPECT(rummyteak_crossing_line(r, RLEN, T, 4, 1, 4, 1, crossing, edges) == 8 && untouched(crossing, 0, 4) && edges[0] == 77 && edges[1] == 77);
    EXPECT(rummyteak_joined_crossing(r, RLEN, T, 4, 1, 4, 1, crossing, edges) == 0 && edges[0] == 0 && edges[1] == 1);
    EXPECT(crossing[0] == 0 && crossing[1] == 0 && crossing[2] == 8 && crossing[3] == 2);
    EXPECT(rummyteak_joined_crossing(r, RLEN, T, 20, 1, 0, 1, crossing, edges) == 8);
    release(r), release(u), release(odd), release(station), release(crossing);
}

static void stretches(void)
{
    const double over[] = {5, 0, 8, 0, 8, 2, 0, 2, 0, 0, 4, 0}, lower[] = {4, 0, 8, 0, 8, 2, 4, 2}, upper[] = {4, 2, 0, 2, 0, 0, 4, 0};
    const double before[] = {0, 0, 8, 0, 8, 1}, after[] = {8, 1, 8, 2, 0, 2};
    double *r = copy(R, RLEN), *u = copy(R, ULEN), *out = marked(RLEN + 2), *second = marked(RLEN + 2), *tight = marked(RLEN + 1);
    size_t count = 77, given = 77, counts[2] = {77, 77}, both[2] = {77, 77};
    bool closed = true, are_closed[2] = {true, true};
    EXPECT(rummyteak_between_lengths(r, RLEN, T, 5, 5.0005, out, RLEN + 2, &count, &closed, &given) == 21);
    EXPECT(rummyteak_between_lengths(u, ULEN, T, 5, 4, out, RLEN + 2, &count, &closed, &given) == 21);
    EXPECT(rummyteak_between_lengths(r, RLEN, T, 5, 20.5, out, RLEN + 2, &count, &closed, &given) == 9);
    EXPECT(rummyteak_between_lengths(r, RLEN, T, 5, NAN, out, RLEN + 2, &count, &closed, &given) == 2);
    EXPECT(rummyteak_between_lengths(r, RLEN, T, 5, 4, tight, RLEN + 1, &count, &closed, &given) == 4);
    EXPECT(rummyteak_between_lengths(NULL, 0, T, 5, 4, NULL, 0, &count, &closed, &given) == 1);
    EXPECT(rummyteak_split_open_at_length(r, RLEN, T, 9, out, RLEN + 2, second, RLEN + 2, counts, are_closed, both) == 22);
    EXPECT(rummyteak_split_closed_at_lengths(u, ULEN, T, 4, 99, out, RLEN + 2, second, RLEN + 2, counts, are_closed, both) == 22);
    EXPECT(rummyteak_split_closed_at_lengths(r, RLEN, T, 4, 14, out, RLEN + 2, tight, RLEN + 1, counts, are_closed, both) == 4);
    EXPECT(rummyteak_split_closed_at_lengths(r, RLEN, T, 4, 14, tight, RLEN + 1, out, RLEN + 2, counts, are_closed, both) == 4);
    EXPECT(rummyteak_split_open_at_length(u, ULEN, T, 17.9995, out, RLEN + 2, second, RLEN + 2, counts, are_closed, both) == 21);
    EXPECT(count == 77 && given == 77 && closed && untouched(out, 0, RLEN + 2) && untouched(second, 0, RLEN + 2) && untouched(tight, 0, RLEN + 1));
    EXPECT(counts[0] == 77 && counts[1] == 77 && both[0] == 77 && both[1] == 77 && are_closed[0] && are_closed[1]);
    EXPECT(rummyteak_between_lengths(r, RLEN, T, 5, 4, out, RLEN + 2, &count, &closed, &given) == 0);
    EXPECT(count == 6 && given == 6 && !closed && same(out, over, RLEN + 2));
    EXPECT(rummyteak_split_open_at_length(u, ULEN, T, 9, out, ULEN + 2, second, ULEN + 2, counts, are_closed, both) == 0);
    EXPECT(counts[0] == 3 && both[0] == 3 && !are_closed[0] && same(out, before, 6) && same(out + 6, over + 6, RLEN - 4));
    EXPECT(counts[1] == 3 && both[1] == 3 && !are_closed[1] && same(second, after, 6) && untouched(second, 6, RLEN + 2));
    EXPECT(rummyteak_split_closed_at_lengths(r, RLEN, T, 4, 14, out, RLEN + 2, second, RLEN + 2, counts, are_closed, both) == 0);
    EXPECT(counts[0] == 4 && both[0] == 4 && !are_closed[0] && same(out, lower, 8));
    EXPECT(counts[1] == 4 && both[1] == 4 && !are_closed[1] && same(second, upper, 8) && untouched(second, 8, RLEN + 2));
    release(r), release(u), release(out), release(second), release(tight);
}

static void circles(void)
{
    const double want[] = {4, 1.00048828125, 0.99951171875, 4, 0, 4, 2, 4, 14};
    double *r = copy(R, RLEN), *c = marked(W), *a = copy(PAIR, W), *b = copy(PAIR + W, W);
    bool added = true;
    size_t edges[2] = {77, 77};
    EXPECT(rummyteak_inscribed_from_crossing(r, RLEN, T, G, 4, 0, 0, 2, c) == 0 && same(c, want, W));
    EXPECT(rummyteak_try_inscribed(r, RLEN, T, G, 4, 1, 0, 1, c, edges) == 0 && same(c, want, W) && edges[0] == 0 && edges[1] == 2);
    edges[0] = edges[1] = 77;
    for (size_t i = 0; i < W; i++)
        c[i] = MARK;
    EXPECT(rummyteak_try_inscribed(r, RLEN, T, G, 20, 1, 0, 1, c, edges) == 8 && edges[0] == 77 && edges[1] == 77);
    EXPECT(rummyteak_inscribed_from_crossing(r, RLEN, T, 1e-7, 4, 0, 0, 2, c) == 3);
    EXPECT(rummyteak_inscribed_refined(r, RLEN, T, G, a, b, c, &added) == 0 && !added && untouched(c, 0, W));
    a[2] = -1, added = true;
    EXPECT(rummyteak_inscribed_refined(r, RLEN, T, G, a, b, c, &added) == 2 && added && untouched(c, 0, W));
    a[2] = -0.0, a[7] = -0.0, a[8] = -0.0;
    EXPECT(rummyteak_inscribed_refined(r, RLEN, T, G, a, b, c, &added) == 0);
    a[8] = -1, added = true;
    EXPECT(rummyteak_inscribed_refined(r, RLEN, T, G, a, b, c, &added) == 2 && added);
    a[8] = 0, b[7] = INFINITY;
    EXPECT(rummyteak_inscribed_refined(r, RLEN, T, G, a, b, c, &added) == 2 && added);
    EXPECT(rummyteak_inscribed_from_crossing(r, RLEN, T, 1000, 1e160, 0, 1, 0, c) == 12);
    release(r), release(c), release(a), release(b);
}

static void runs(void)
{
    double *r = copy(R, RLEN), *odd = copy(R, 5), *circle = copy(PAIR + W, W);
    size_t count = 77, full = 77, edges[2] = {77, 77};
    uint32_t units = 77, all = 77;
    bool found = false;
    double *big = marked(W * 200), *small = marked(W * 200), *none = marked(W - 1);
    EXPECT(rummyteak_march(r, RLEN, T, G, 4, 1, 0, 1, big, W * 200, RUMMYTEAK_NO_LIMIT, &full, &all, edges, &found, &aside) == 0);
    EXPECT(found && edges[0] == 0 && edges[1] == 2);
    EXPECT(full > 0 && all > 0 && untouched(big, W * full, W * 200));
    for (uint32_t limit = 0; limit <= all + 1; limit++) {
        for (size_t i = 0; i < W * 200; i++)
            small[i] = MARK;
        edges[0] = edges[1] = 77, found = false;
        uint32_t n = rummyteak_march(r, RLEN, T, G, 4, 1, 0, 1, small, W * 200, limit, &count, &units, edges, &found, &aside);
        EXPECT(found && edges[0] == 0 && edges[1] == 2);
        EXPECT((n == 14) == (limit < all) && units == (limit < all ? limit : all));
        EXPECT(count <= full && same(small, big, W * count) && untouched(small, W * count, W * 200));
    }
    count = 77, units = 77;
    EXPECT(rummyteak_march(r, RLEN, T, G, 4, 1, 0, 1, none, W - 1, 9, &count, &units, edges, &found, &aside) == 15 && count == 0 && units == 0);
    EXPECT(found && edges[0] == 0 && edges[1] == 2);
    edges[0] = edges[1] = 77;
    EXPECT(rummyteak_march(r, RLEN, T, G, 20, 1, 0, 1, none, W - 1, 9, &count, &units, edges, &found, &aside) == 8 && count == 0 && units == 0);
    EXPECT(!found && edges[0] == 77 && edges[1] == 77);
    found = true;
    count = 77, units = 77;
    EXPECT(rummyteak_march(r, RLEN, T, NAN, 4, 1, 0, 1, none, W - 1, 9, &count, &units, edges, &found, &aside) == 3 && count == 77 && units == 77);
    /* a general tolerance finer than the section's */
    EXPECT(rummyteak_march(r, RLEN, G, T, 4, 1, 0, 1, none, W - 1, 9, &count, &units, edges, &found, &aside) == 23 && count == 77 && units == 77);
    EXPECT(found && edges[0] == 77 && edges[1] == 77);
    EXPECT(rummyteak_extract_circles(r, RLEN, G, T, 4, 1, 0, 1, none, W - 1, 9, &count, &units) == 23 && count == 77);
    EXPECT(rummyteak_extract_circles(odd, 5, T, G, 4, 1, 0, 1, none, W - 1, 9, &count, &units) == 1 && count == 77);
    EXPECT(untouched(none, 0, W - 1));
    for (size_t i = 0; i < W * 200; i++)
        big[i] = MARK;
    EXPECT(rummyteak_extract_circles(r, RLEN, T, G, 4, 1, 0, 1, big, W * 200, RUMMYTEAK_NO_LIMIT, &count, &units) == 0);
    EXPECT(count > full && units > all && untouched(big, W * count, W * 200));
    EXPECT(rummyteak_extract_circles(r, RLEN, T, G, 4, 1, 0, 1, big, W * 200, 9, &count, &units) == 14 && units == 9);
    double *store = marked(3 * W), *full_store = copy(PAIR, 2 * W);
    memcpy(store, PAIR, W * sizeof *store);
    EXPECT(rummyteak_refine_and_push(r, RLEN, T, G, store, 3 * W, 1, circle, 100, &count, &units) == 0);
    EXPECT(count == 2 && units == 1 && same(store, PAIR, 2 * W) && untouched(store, 2 * W, 3 * W));
    count = 77, units = 77;
    EXPECT(rummyteak_refine_and_push(r, RLEN, T, G, full_store, 2 * W, 3, circle, 100, &count, &units) == 4);
    EXPECT(rummyteak_refine_and_push(r, RLEN, T, G, full_store, 2 * W, SIZE_MAX, circle, 100, &count, &units) == 4);
    EXPECT(rummyteak_refine_and_push(r, RLEN, G, T, full_store, 2 * W, 3, circle, 100, &count, &units) == 23);
    EXPECT(rummyteak_refine_and_push(r, RLEN, T, G, store, 3 * W, 3, circle, 100, &count, &units) == 2);
    EXPECT(count == 77 && units == 77 && same(store, PAIR, 2 * W) && untouched(store, 2 * W, 3 * W) && same(full_store, PAIR, 2 * W));
    release(r), release(odd), release(full_store), release(circle), release(big), release(small), release(none), release(store);
}

/* NaNs that differ from each other, quiet and signalling, for what no call may read or write. */
static uint64_t odd_nan(size_t i)
{
    return (i % 2 ? UINT64_C(0x7ff4000000000001) : UINT64_C(0xfff8000000000001)) + 3 * i;
}

static void fill_with_nans(double *p, size_t from, size_t to)
{
    for (size_t i = from; i < to; i++) {
        uint64_t u = odd_nan(i);
        memcpy(p + i, &u, sizeof u);
    }
}

static bool are_nans(const double *p, size_t from, size_t to)
{
    for (size_t i = from; i < to; i++)
        if (bits(p[i]) != odd_nan(i))
            return false;
    return true;
}

/* The circle that R has on the upright line at x. */
static void upright(double x, double *circle)
{
    const double c[W] = {x, 1.00048828125, 0.99951171875, x, 0, x, 2, x, 18 - x};
    memcpy(circle, c, sizeof c);
}

#define CELL RUMMYTEAK_CELL_SLOTS

/* A store of 300 slots that has circles of R in the first ones, each 1/256 to the right of the one before, and NaNs behind. */
static double *rank_of(size_t circles)
{
    double *store = marked(W * 300);
    fill_with_nans(store, 0, W * 300);
    for (size_t k = 0; k < circles; k++)
        upright(1 + (double)k / 256, store + W * k);
    return store;
}

/* The refinement for the cell: 256 circles fit, the 257th is 15; a stated 257 is 4, where the other entry says 2 or has a result. */
static void cell_refinements(void)
{
    double *r = copy(R, RLEN), *circle = marked(W), *full = rank_of(256), *store = rank_of(255), *more = rank_of(257), *third = rank_of(300);
    size_t count = 77;
    uint32_t units = 77;
    upright(1 + 255.0 / 256, circle);
    EXPECT(rummyteak_refine_and_push_cell(r, RLEN, T, G, store, W * 300, 255, circle, 9, &count, &units) == 0);
    EXPECT(count == 256 && units == 1 && same(store, full, W * CELL) && are_nans(store, W * CELL, W * 300));
    EXPECT(rummyteak_refine_and_push_cell(r, RLEN, T, G, store, W * 300, 256, circle, 0, &count, &units) == 14 && count == 256 && units == 0);
    EXPECT(rummyteak_refine_and_push_cell(r, RLEN, T, G, store, W * 300, 256, circle, 9, &count, &units) == 15 && count == 256 && units == 1);
    EXPECT(same(store, full, W * CELL) && are_nans(store, W * CELL, W * 300));
    count = 77, units = 77;
    EXPECT(rummyteak_refine_and_push_cell(r, RLEN, T, G, store, W * 300, 257, circle, 9, &count, &units) == 4);
    EXPECT(rummyteak_refine_and_push(r, RLEN, T, G, store, W * 300, 257, circle, 9, &count, &units) == 2);
    EXPECT(rummyteak_refine_and_push_cell(r, RLEN, T, G, more, W * 300, 257, circle, 9, &count, &units) == 4);
    EXPECT(rummyteak_refine_and_push_cell(r, RLEN, T, G, more, W * 300, SIZE_MAX, circle, 9, &count, &units) == 4);
    EXPECT(rummyteak_refine_and_push_cell(r, RLEN, G, T, more, W * 300, 257, circle, 9, &count, &units) == 23);
    EXPECT(rummyteak_refine_and_push_cell(r, RLEN, T, NAN, more, W * 300, 257, circle, 9, &count, &units) == 3);
    EXPECT(rummyteak_refine_and_push_cell(NULL, 0, T, G, NULL, 0, 1, circle, 9, &count, &units) == 1);
    fill_with_nans(third, W * 255, W * 256);
    EXPECT(rummyteak_refine_and_push_cell(r, RLEN, T, G, third, W * 300, 257, circle, 9, &count, &units) == 2);
    EXPECT(count == 77 && units == 77 && same(store, full, W * CELL) && are_nans(more, W * 257, W * 300) && are_nans(third, W * 255, W * 256));
    EXPECT(rummyteak_refine_and_push(r, RLEN, T, G, full, W * 300, 256, circle, 9, &count, &units) == 0 && count == 257 && units == 1);
    EXPECT(same(full, store, W * 256) && same(full + W * 256, circle, W) && are_nans(full, W * 257, W * 300));
    /* a store with fewer slots is full as it is for the other entry */
    EXPECT(rummyteak_refine_and_push_cell(r, RLEN, T, G, more, W * 256 - 1, 255, circle, 9, &count, &units) == 15 && count == 255 && units == 1);
    EXPECT(rummyteak_refine_and_push_cell(r, RLEN, T, G, more, W * 256 - 1, 256, circle, 9, &count, &units) == 4);
    release(r), release(circle), release(full), release(store), release(more), release(third);
}

/* A state as the header lays it out. */
_Static_assert(sizeof(struct rummyteak_march_state) == 4632, "the size of a state");
_Static_assert(offsetof(struct rummyteak_march_state, refining) == 0 && sizeof aside.refining == 8, "refining");
_Static_assert(offsetof(struct rummyteak_march_state, fraction) == 8 && sizeof aside.fraction == 8, "fraction");
_Static_assert(offsetof(struct rummyteak_march_state, count) == 16 && sizeof aside.count == 8, "count");
_Static_assert(offsetof(struct rummyteak_march_state, waiting) == 24 && sizeof aside.waiting == 4608, "waiting");
_Static_assert(sizeof aside.waiting == 8 * RUMMYTEAK_WAITING * W && RUMMYTEAK_WAITING == 64, "64 may wait");

/* A state that is lent, and all marks; release_state gives it back. */
static struct rummyteak_march_state *marked_state(void)
{
    return (struct rummyteak_march_state *)(void *)marked(sizeof(struct rummyteak_march_state) / sizeof(double));
}

static void release_state(struct rummyteak_march_state *state)
{
    release((double *)(void *)state);
}

/* Whether two states are the same, byte by byte. */
static bool same_state(const struct rummyteak_march_state *a, const struct rummyteak_march_state *b)
{
    return memcmp(a, b, sizeof *a) == 0;
}

/* Both entries on the same input, each into a store of 300 slots: alike, or the one for the cell ends in 15 with the first 256 circles of the other. */
static void both_marches(const double *section, double tol, double x, double y, uint32_t limit)
{
    double *large = rank_of(0), *small = rank_of(0);
    struct rummyteak_march_state *states[3] = {marked_state(), marked_state(), marked_state()};
    size_t count[2] = {77, 77}, edges[2][2] = {{77, 77}, {77, 77}};
    uint32_t units[2] = {77, 77};
    bool found[2] = {false, false};
    uint32_t n = rummyteak_march(section, RLEN, T, tol, x, y, 0, 1, large, W * 300, limit, &count[0], &units[0], edges[0], &found[0], states[0]);
    uint32_t m = rummyteak_march_cell(section, RLEN, T, tol, x, y, 0, 1, small, W * 300, limit, &count[1], &units[1], edges[1], &found[1], states[1]);
    EXPECT(found[0] == found[1] && edges[0][0] == edges[1][0] && edges[0][1] == edges[1][1]);
    if (count[0] <= CELL || n == 3) {
        EXPECT(n == m && count[0] == count[1] && units[0] == units[1] && same(large, small, W * 300) && same_state(states[0], states[1]));
    } else {
        EXPECT(m == 15 && count[1] == CELL && units[1] <= units[0] && same(large, small, W * CELL));
    }
    EXPECT((n == 14) != same_state(states[0], states[2]) && (m == 14) != same_state(states[1], states[2]));
    EXPECT(count[1] > CELL ? count[1] == 77 : are_nans(small, W * count[1], W * 300));
    release(large), release(small), release_state(states[0]), release_state(states[1]), release_state(states[2]);
}

static void cell_marches(void)
{
    const double strip[] = {0, 0, 8, 0, 8, 0.1, 0, 0.1, 0, 0};
    double *r = copy(R, RLEN), *s = copy(strip, RLEN), *none = marked(W - 1), *store = rank_of(0);
    size_t count = 77, edges[2] = {77, 77};
    uint32_t units = 77;
    bool found = false;
    for (uint32_t limit = 0; limit < 105; limit++)
        both_marches(r, G, 4, 1, limit);
    for (uint32_t limit = 505; limit < 602; limit++)
        both_marches(s, T, 5.5, 0.05, limit);
    both_marches(s, T, 5.5, 0.05, RUMMYTEAK_NO_LIMIT);
    both_marches(r, G, 20, 1, 9);
    both_marches(r, NAN, 4, 1, 9);
    EXPECT(rummyteak_march_cell(s, RLEN, T, T, 6.482, 0.05, 0, 1, store, W * 300, 510, &count, &units, edges, &found, &aside) == 0);
    EXPECT(count == 256 && units == 510 && found && edges[0] == 0 && edges[1] == 2 && are_nans(store, W * CELL, W * 300));
    EXPECT(rummyteak_march_cell(s, RLEN, T, T, 6.484, 0.05, 0, 1, store, W * 300, 512, &count, &units, edges, &found, &aside) == 15);
    EXPECT(count == 256 && units == 512 && are_nans(store, W * CELL, W * 300));
    EXPECT(rummyteak_march(s, RLEN, T, T, 6.484, 0.05, 0, 1, store, W * 300, 512, &count, &units, edges, &found, &aside) == 0 && count == 257 && units == 512);
    EXPECT(rummyteak_march_cell(r, RLEN, T, G, 4, 1, 0, 1, none, W - 1, 9, &count, &units, edges, &found, &aside) == 15 && count == 0 && units == 0);
    EXPECT(rummyteak_march_cell(r, RLEN, T, G, 20, 1, 0, 1, none, W - 1, 9, &count, &units, edges, &found, &aside) == 8 && !found && count == 0);
    count = 77, units = 77;
    EXPECT(rummyteak_march_cell(r, RLEN, G, T, 4, 1, 0, 1, none, W - 1, 9, &count, &units, edges, &found, &aside) == 23);
    EXPECT(rummyteak_march_cell(r, RLEN - 1, T, G, 4, 1, 0, 1, none, W - 1, 9, &count, &units, edges, &found, &aside) == 1);
    EXPECT(count == 77 && units == 77 && untouched(none, 0, W - 1));
    release(r), release(s), release(none), release(store);
}

/* The circles that a march within a limit left in `old`, of `slots` slots, offered to an empty store with as many by the same entry: the same list within every
 * limit that is large enough, its first circles within others, and NaNs behind. */
static void one_again(const double *section, size_t section_len, double tol, double x, double y, double dy, size_t slots, uint32_t first, bool cell, uint32_t ending, size_t circles)
{
    double *old = rank_of(0), *store = rank_of(0), *list = marked(W * 300);
    size_t count = 77, edges[2];
    uint32_t units = 77, number;
    bool found;
    if (cell) {
        EXPECT(rummyteak_march_cell(section, section_len, T, tol, x, y, 0, dy, old, W * slots, first, &count, &units, edges, &found, &aside) == ending);
    } else {
        EXPECT(rummyteak_march(section, section_len, T, tol, x, y, 0, dy, old, W * slots, first, &count, &units, edges, &found, &aside) == ending);
    }
    EXPECT(count == circles);
    memcpy(list, old, W * 300 * sizeof *list);
    for (uint32_t limit = 0; limit <= circles; limit++) {
        bool enough = limit + 1 >= circles;
        fill_with_nans(store, 0, W * 300);
        if (cell) {
            number = rummyteak_refine_all_cell(section, section_len, T, tol, store, W * slots, 0, list, W * 300, circles, limit, &count, &units);
        } else {
            number = rummyteak_refine_all(section, section_len, T, tol, store, W * slots, 0, list, W * 300, circles, limit, &count, &units);
        }
        EXPECT(number == (enough ? 0 : 14) && count == (enough ? circles : limit + 1) && units == (enough && circles ? circles - 1 : enough ? 0 : limit));
        EXPECT(same(store, old, W * count) && are_nans(store, W * count, W * 300) && same(list, old, W * 300));
    }
    release(old), release(store), release(list);
}

static void offered_again(void)
{
    const double strip[] = {0, 0, 8, 0, 8, 0.1, 0, 0.1, 0, 0};
    double *r = copy(R, RLEN), *s = copy(strip, RLEN), *large = rank_of(0), *store = rank_of(0);
    size_t count = 77, edges[2];
    uint32_t units = 77;
    bool found;
    for (int cell = 0; cell < 2; cell++) {
        one_again(r, RLEN, G, 4, 1, 1, 300, RUMMYTEAK_NO_LIMIT, cell, 0, 52);
        one_again(r, RLEN, G, 4, 1, 1, 300, 30, cell, 14, 16);
        one_again(r, RLEN, G, 4, 1, 1, 300, 0, cell, 14, 1);
        one_again(r, RLEN, G, 4, 1, 1, 10, RUMMYTEAK_NO_LIMIT, cell, 15, 10);
        one_again(r, RLEN, G, 4, 1, 1, 0, RUMMYTEAK_NO_LIMIT, cell, 15, 0);
        one_again(r, RLEN, G, 20, 1, 1, 300, RUMMYTEAK_NO_LIMIT, cell, 8, 0);
    }
    one_again(s, RLEN, T, 5.5, 0.05, 1, 300, RUMMYTEAK_NO_LIMIT, true, 15, 256);
    one_again(s, RLEN, T, 5.5, 0.05, 1, 300, RUMMYTEAK_NO_LIMIT, false, 15, 300);
    /* a list of 300 for the cell: its 257th circle is 15, with the unit of its trial; the list may be longer than the cell's store */
    EXPECT(rummyteak_march(s, RLEN, T, T, 5.5, 0.05, 0, 1, large, W * 300, RUMMYTEAK_NO_LIMIT, &count, &units, edges, &found, &aside) == 15 && count == 300);
    EXPECT(rummyteak_refine_all_cell(s, RLEN, T, T, store, W * 300, 0, large, W * 300, 300, 256, &count, &units) == 15 && count == 256 && units == 256);
    EXPECT(same(store, large, W * CELL) && are_nans(store, W * CELL, W * 300));
    EXPECT(rummyteak_refine_all_cell(s, RLEN, T, T, store, W * 300, 0, large, W * 300, 300, 255, &count, &units) == 14 && count == 256 && units == 255);
    /* no circle: no unit, without a list and without a store too */
    for (size_t stated = 0; stated < 3; stated++) {
        EXPECT(rummyteak_refine_all(s, RLEN, T, T, store, W * 300, stated, NULL, 0, 0, 0, &count, &units) == 0 && count == stated && units == 0);
        EXPECT(rummyteak_refine_all_cell(s, RLEN, T, T, store, W * 300, stated, large, W * 300, 0, 0, &count, &units) == 0 && count == stated && units == 0);
    }
    EXPECT(rummyteak_refine_all(s, RLEN, T, T, NULL, 0, 0, NULL, 0, 0, 0, &count, &units) == 0 && count == 0 && units == 0);
    EXPECT(rummyteak_refine_all(s, RLEN, T, T, NULL, 0, 0, large, W, 1, 0, &count, &units) == 15 && count == 0 && units == 0);
    EXPECT(same(store, large, W * CELL) && are_nans(store, W * CELL, W * 300));
    release(r), release(s), release(large), release(store);
}

/* What is refused on entry leaves all as it was, the whole list being tested; later, the store keeps what was accepted. */
static void offers_refused(void)
{
    const double far_off[] = {6, -5, 4, 1, -8, 3, 4, -4, 6, -5}, far_circle[W] = {6e28, 0, 1, 0, 0, 2, 0, 20, 8};
    double *r = copy(R, RLEN), *far_section = copy(far_off, RLEN), *store = rank_of(2), *old = rank_of(2), *list = rank_of(4), *bad = rank_of(3), *big = marked(W * 1025);
    size_t count = 77;
    uint32_t units = 77;
    bad[2 * W + 8] = -1;
    EXPECT(rummyteak_refine_all(r, RLEN - 1, T, G, store, W * 300, 301, bad, W * 3, 4, 9, &count, &units) == 1);
    EXPECT(rummyteak_refine_all_cell(NULL, 0, T, G, store, W * 300, 301, bad, W * 3, 4, 9, &count, &units) == 1);
    EXPECT(rummyteak_refine_all(r, RLEN, T, NAN, store, W * 300, 2, bad, W * 3, 4, 9, &count, &units) == 2);
    EXPECT(rummyteak_refine_all_cell(r, RLEN, T, NAN, store, W * 300, 2, bad, W * 3, 4, 9, &count, &units) == 2);
    EXPECT(rummyteak_refine_all(r, RLEN, T, G, store, W * 300, 3, list, W * 3, 3, 9, &count, &units) == 2);
    EXPECT(rummyteak_refine_all(r, RLEN, T, NAN, store, W * 2, 3, list, W * 3, 4, 9, &count, &units) == 3);
    EXPECT(rummyteak_refine_all_cell(r, RLEN, NAN, G, store, W * 2, 3, list, W * 3, 4, 9, &count, &units) == 3);
    EXPECT(rummyteak_refine_all(r, RLEN, G, T, store, W * 2, 3, list, W * 3, 4, 9, &count, &units) == 23);
    EXPECT(rummyteak_refine_all_cell(r, RLEN, G, T, store, W * 2, 2, list, W * 3, 3, 9, &count, &units) == 23);
    EXPECT(rummyteak_refine_all(r, RLEN, 2, 2, store, W * 300, 2, list, W * 3, 4, 9, &count, &units) == 4);
    EXPECT(rummyteak_refine_all(r, RLEN, 2, 2, store, W * 300, 2, list, W * 4 - 1, 4, 9, &count, &units) == 4);
    EXPECT(rummyteak_refine_all(r, RLEN, 2, 2, store, W * 2, 3, list, W * 3, 3, 9, &count, &units) == 4);
    EXPECT(rummyteak_refine_all_cell(r, RLEN, 2, 2, store, W * 2, 3, list, W * 3, 3, 9, &count, &units) == 4);
    EXPECT(rummyteak_refine_all_cell(r, RLEN, T, G, store, W * 300, 2, list, W * 3, SIZE_MAX, 9, &count, &units) == 4);
    EXPECT(rummyteak_refine_all_cell(r, RLEN, T, G, store, W * 300, SIZE_MAX, list, W * 3, 0, 9, &count, &units) == 2);
    EXPECT(rummyteak_refine_all(r, RLEN, T, G, store, W * 300, 2, NULL, 0, 1, 9, &count, &units) == 4);
    EXPECT(rummyteak_refine_all(r, RLEN, 2, 2, store, W * 300, 2, list, W * 3, 3, 9, &count, &units) == 6);
    EXPECT(rummyteak_refine_all_cell(r, RLEN, 2, 2, store, W * 300, 2, list, W * 3, 3, 9, &count, &units) == 6);
    for (size_t k = 0; k < 1024; k++)
        upright(1 + (double)k / 256, big + W * k);
    fill_with_nans(big, W * 1024, W * 1025);
    EXPECT(rummyteak_refine_all(r, RLEN, T, G, store, W * 300, 2, big, W * 1025, 1025, 9, &count, &units) == 4);
    EXPECT(rummyteak_refine_all_cell(r, RLEN, T, G, store, W * 300, 2, big, W * 1025, 1025, 9, &count, &units) == 4);
    EXPECT(count == 77 && units == 77 && same(store, old, W * 2) && are_nans(store, W * 2, W * 300));
    EXPECT(rummyteak_refine_all_cell(r, RLEN, T, G, store, W * 300, 0, big, W * 1025, 1024, 256, &count, &units) == 15 && count == 256 && units == 256);
    EXPECT(same(store, big, W * CELL) && are_nans(store, W * CELL, W * 300));
    /* 10 to 12 in a trial, and 16 where each trial adds: what was accepted before stays, and no circle behind is offered */
    for (int k = 0; k < 4; k++) {
        const double wide = k == 2 ? 1.7e308 : 0, third[W] = {4, 1, 1, 0, -wide, 0, wide, 4, 14}, small[W] = {4, 0.5, 0.5, 4, 0, 4, 1, 4, 14};
        const double *section = k ? r : far_section;
        const uint32_t number = k == 3 ? 16 : 10 + (uint32_t)k, taken = k == 3 ? 64 : k ? 2 : 1;
        const size_t accepted = k == 1 || k == 2 ? 2 : 1;
        for (int i = 0; i < 4; i++)
            upright(5 + i, list + W * i);
        for (int i = 0; i < 4 && !k; i++)
            memcpy(list + W * i, far_circle, sizeof far_circle);
        if (k == 1 || k == 2)
            memcpy(list + W * 2, third, sizeof third);
        if (k == 3)
            memcpy(list, small, sizeof small);
        for (uint32_t limit = taken - 1; limit < taken + 2; limit++) {
            fill_with_nans(store, 0, W * 300);
            EXPECT(rummyteak_refine_all(section, RLEN, T, G, store, W * 300, 0, list, W * 4, 4, limit, &count, &units) == (limit < taken ? 14 : number));
            EXPECT(count == accepted && units == (limit < taken ? limit : taken) && same(store, list, W * accepted) && are_nans(store, W * accepted, W * 300));
        }
    }
    release(r), release(far_section), release(store), release(old), release(list), release(bad), release(big);
}

/* A store of 300 slots with these circles in front and NaNs behind. */
static double *store_of(const double *circles, size_t count)
{
    double *store = rank_of(0);
    memcpy(store, circles, count * W * sizeof *store);
    return store;
}

/* Whether a thinning of `stated` circles left those of the named places, then zeros, and NaNs behind the stated count. */
static bool thinned(const double *store, const double *old, size_t stated, const size_t *places, size_t kept)
{
    bool right = are_nans(store, W * stated, W * 300);
    for (size_t k = 0; k < kept; k++)
        right = right && same(store + W * k, old + W * places[k], W);
    for (size_t i = W * kept; i < W * stated; i++)
        right = right && bits(store[i]) == 0;
    return right;
}

/* What is refused on entry leaves all as it was: in this order 1, 2, 3, 23, 4, 6. */
static void thinnings_refused(void)
{
    const double far_off[] = {6, -5, 4, 1, -8, 3, 4, -4, 6, -5}, far_circle[W] = {6e28, 0, 1, 0, 0, 2, 0, 20, 8};
    double *r = copy(R, RLEN), *far_section = copy(far_off, RLEN), *store = rank_of(4), *old = rank_of(4), *big = marked(W * 1025);
    size_t count = 77;
    uint32_t units = 77;
    EXPECT(rummyteak_thin(r, RLEN - 1, T, G, store, W * 300, 301, 9, &count, &units) == 1);
    EXPECT(rummyteak_thin(NULL, 0, T, G, store, W * 300, 301, 9, &count, &units) == 1);
    EXPECT(rummyteak_thin(r, RLEN, T, NAN, store, W * 300, 5, 9, &count, &units) == 2);
    EXPECT(rummyteak_thin(r, RLEN, T, NAN, store, W * 4, 5, 9, &count, &units) == 3);
    EXPECT(rummyteak_thin(r, RLEN, -1, G, store, W * 4, 5, 9, &count, &units) == 3);
    EXPECT(rummyteak_thin(r, RLEN, G, T, store, W * 4, 5, 9, &count, &units) == 23);
    EXPECT(rummyteak_thin(r, RLEN, 2, 2, store, W * 4, 5, 9, &count, &units) == 4);
    EXPECT(rummyteak_thin(r, RLEN, T, G, store, W * 5 - 1, 5, 9, &count, &units) == 4);
    EXPECT(rummyteak_thin(r, RLEN, T, G, store, W * 4, SIZE_MAX, 9, &count, &units) == 4);
    EXPECT(rummyteak_thin(r, RLEN, T, G, NULL, 0, 1, 9, &count, &units) == 4);
    EXPECT(rummyteak_thin(r, RLEN, 2, 2, store, W * 300, 4, 9, &count, &units) == 6);
    for (size_t k = 0; k < 1024; k++)
        upright(1 + (double)k / 256, big + W * k);
    fill_with_nans(big, W * 1024, W * 1025);
    EXPECT(rummyteak_thin(r, RLEN, T, G, big, W * 1025, 1025, 9, &count, &units) == 4);
    EXPECT(count == 77 && units == 77 && same(store, old, W * 4) && are_nans(store, W * 4, W * 300));
    EXPECT(rummyteak_thin(r, RLEN, T, G, big, W * 1025, 1024, 1022, &count, &units) == 0 && units == 1022 && are_nans(big, W * 1024, W * 1025));
    /* refused in a trial: the whole store is as it was, what was decided before too */
    for (int k = 0; k < 3; k++) {
        double wide = k == 2 ? 1.7e308 : 0, last[W] = {4, 1, 1, 0, -wide, 0, wide, 4, 14};
        memcpy(k ? store + 3 * W : store, k ? last : far_circle, sizeof last);
        for (int i = 1; i < 4 && !k; i++)
            memcpy(store + W * i, far_circle, sizeof far_circle);
        memcpy(old, store, W * 4 * sizeof *old);
        uint32_t taken = k ? 2 : 1;
        const double *section = k ? r : far_section;
        EXPECT(rummyteak_thin(section, RLEN, T, G, store, W * 300, 4, 9, &count, &units) == (uint32_t)(10 + k) && count == 4 && units == taken);
        EXPECT(same(store, old, W * 4) && are_nans(store, W * 4, W * 300));
        EXPECT(rummyteak_thin(section, RLEN, T, G, store, W * 300, 4, taken - 1, &count, &units) == 14 && count == 4 && units == taken - 1);
        EXPECT(same(store, old, W * 4) && are_nans(store, W * 4, W * 300));
        for (int i = 0; i < 3; i++)
            upright(1 + (double)i / 256, store + W * i);
    }
    release(r), release(far_section), release(store), release(old), release(big);
}

/* A march on R has 52 circles, of which a thinning keeps those of places 0, 24 and 51; a list that is made up keeps 0, 2 and 5. */
static void thinnings(void)
{
    static const size_t marched[] = {0, 24, 51}, made[] = {0, 2, 5};
    /* of (4, 1) with radius 0.5 the halfway circle is not between its neighbours' */
    const double list[6 * W] = {1, 1, 1, 1, 0, 1, 2, 1, 17, 2, 1, 1, 2, 0, 2, 2, 2, 16, 3, 1, 1, 3, 0, 3, 2, -0.0, 15,
                                4, 1, 0.5, 4, 0, 4, 2, 4, 14, 5, 1, 1, 5, 0, 5, 2, 5, 13, 6, 1, 1, 6, 0, 6, 2, 6, 12};
    double *r = copy(R, RLEN), *old = rank_of(0), *circle = marked(W);
    size_t count = 77, edges[2];
    uint32_t units = 77;
    bool found, added;
    EXPECT(rummyteak_march(r, RLEN, T, G, 4, 1, 0, 1, old, W * 300, RUMMYTEAK_NO_LIMIT, &count, &units, edges, &found, &aside) == 0 && count == 52);
    for (int k = 0; k < 2; k++) {
        size_t stated = k ? 6 : 52;
        const double *from = k ? list : old;
        for (uint32_t limit = 0; limit <= stated + 1; limit++) {
            double *store = store_of(from, stated);
            uint32_t number = rummyteak_thin(r, RLEN, T, G, store, W * 300, stated, limit, &count, &units);
            if (limit < stated - 2) {
                EXPECT(number == 14 && count == stated && units == limit && same(store, from, W * stated) && are_nans(store, W * stated, W * 300));
            } else {
                EXPECT(number == 0 && count == 3 && units == stated - 2 && thinned(store, from, stated, k ? made : marched, 3));
            }
            release(store);
        }
    }
    /* the pairs that are left add none, the march's pairs having added none; a later refinement writes into the first free slot */
    double *store = store_of(old, 52);
    EXPECT(rummyteak_thin(r, RLEN, T, G, store, W * 300, 52, RUMMYTEAK_NO_LIMIT, &count, &units) == 0 && count == 3);
    for (size_t k = 0; k < 51; k++)
        EXPECT(rummyteak_inscribed_refined(r, RLEN, T, G, old + W * k, old + W * (k + 1), circle, &added) == 0 && !added);
    for (size_t k = 0; k < 2; k++)
        EXPECT(rummyteak_inscribed_refined(r, RLEN, T, G, store + W * k, store + W * (k + 1), circle, &added) == 0 && !added);
    EXPECT(rummyteak_refine_and_push(r, RLEN, T, G, store, W * 300, 3, old + W * 51, 9, &count, &units) == 0 && count == 4 && units == 1);
    EXPECT(same(store + W * 3, old + W * 51, W) && bits(store[W * 4]) == 0 && are_nans(store, W * 52, W * 300));
    release(store);
    /* with fewer than three circles there is no trial, and nothing changes; without a store there are none */
    for (size_t stated = 0; stated < 3; stated++) {
        store = store_of(list, 6);
        EXPECT(rummyteak_thin(r, RLEN, T, G, store, W * 300, stated, 0, &count, &units) == 0 && count == stated && units == 0);
        EXPECT(same(store, list, W * 6) && are_nans(store, W * 6, W * 300));
        release(store);
    }
    EXPECT(rummyteak_thin(r, RLEN, T, G, NULL, 0, 0, 0, &count, &units) == 0 && count == 0 && units == 0);
    release(r), release(old), release(circle);
}

/* A march that is cut into pieces: its section, general tolerance and line, the slots of its store, and how it ends where nothing cuts it; and what is lent to each piece. */
struct cut {
    const double *section;
    size_t section_len;
    double tol, line[4];
    size_t slots;
    uint32_t number;
    size_t count;
    uint32_t units;
    double *points, *store;
    struct rummyteak_march_state *state, *marks;
};

static void lend(struct cut *m)
{
    m->points = copy(m->section, m->section_len), m->store = marked(W * m->slots);
    m->state = marked_state(), m->marks = marked_state();
}

static void give_back(struct cut *m)
{
    release(m->points), release(m->store), release_state(m->state), release_state(m->marks);
}

/* What a piece leaves: what it returned and wrote, the slots that were lent, and the state. */
struct left {
    uint32_t number;
    size_t count;
    uint32_t units;
    double store[W * 300];
    struct rummyteak_march_state state;
};

static void keep(const struct cut *m, struct left *left, uint32_t number, size_t count, uint32_t units)
{
    left->number = number, left->count = count, left->units = units, left->state = *m->state;
    memcpy(left->store, m->store, W * m->slots * sizeof *m->store);
}

/* The march within a limit, by either entry. A state that it doesn't write stays as it was. */
static void begun(const struct cut *m, bool cell, uint32_t limit, struct left *left)
{
    const double *l = m->line;
    size_t count = 77, edges[2] = {77, 77};
    uint32_t units = 77, number;
    bool found = false;
    fill_with_nans(m->store, 0, W * m->slots);
    *m->state = *m->marks;
    if (cell) {
        number = rummyteak_march_cell(m->points, m->section_len, T, m->tol, l[0], l[1], l[2], l[3], m->store, W * m->slots, limit, &count, &units, edges, &found, m->state);
    } else {
        number = rummyteak_march(m->points, m->section_len, T, m->tol, l[0], l[1], l[2], l[3], m->store, W * m->slots, limit, &count, &units, edges, &found, m->state);
    }
    EXPECT(found && (number == 14) != same_state(m->state, m->marks));
    keep(m, left, number, count, units);
}

/* The next piece, from what the one before left. */
static void gone_on(const struct cut *m, bool cell, uint32_t limit, const struct left *before, struct left *left)
{
    size_t count = 77;
    uint32_t units = 77, number;
    memcpy(m->store, before->store, W * m->slots * sizeof *m->store);
    *m->state = before->state;
    if (cell) {
        number = rummyteak_go_on_cell(m->points, m->section_len, T, m->tol, m->store, W * m->slots, before->count, m->state, limit, &count, &units);
    } else {
        number = rummyteak_go_on(m->points, m->section_len, T, m->tol, m->store, W * m->slots, before->count, m->state, limit, &count, &units);
    }
    EXPECT(units <= limit && (number == 14 || same_state(m->state, &before->state)));
    keep(m, left, number, count, units);
}

/* Whether a piece, with so many units before it, ends as the one march does: number, count, the sum of the units, every bit of the store, and every byte of the state where it is spent. */
static bool as_one(const struct cut *m, const struct left *one, const struct left *piece, uint32_t before)
{
    return one->number == piece->number && one->count == piece->count && one->units == before + piece->units && same(one->store, piece->store, W * m->slots) && (one->number != 14 || same_state(&one->state, &piece->state));
}

/* Cut at every limit, and gone on with every second one up to a little more than its units; then, in three pieces, with every third one too. */
static void cut_everywhere(struct cut *m, bool cell, bool in_three)
{
    struct left *one = calloc(m->units + 3, sizeof *one), *second = calloc(1, sizeof *second), *third = calloc(1, sizeof *third);
    if (!one || !second || !third)
        exit(2);
    lend(m);
    for (uint32_t limit = 0; limit < m->units + 3; limit++) {
        begun(m, cell, limit, &one[limit]);
        EXPECT(one[limit].number == (limit < m->units ? 14 : m->number) && one[limit].units == (limit < m->units ? limit : m->units));
        EXPECT(limit < m->units || one[limit].count == m->count);
    }
    for (uint32_t a = 0; a < m->units; a++) {
        for (uint32_t b = 0; a + b < m->units + 3; b++) {
            gone_on(m, cell, b, &one[a], second);
            EXPECT(as_one(m, &one[a + b], second, a));
            for (uint32_t c = 0; in_three && second->number == 14 && a + b + c < m->units + 3; c++) {
                gone_on(m, cell, c, second, third);
                EXPECT(as_one(m, &one[a + b + c], third, a + b));
            }
        }
        gone_on(m, cell, RUMMYTEAK_NO_LIMIT - a, &one[a], second);
        EXPECT(as_one(m, &one[m->units], second, a));
    }
    give_back(m);
    free(one), free(second), free(third);
}

/* On (0,-4) (0,4) (-4,1) up to four circles wait; on the other section each fraction of a step is due at some limit, and up to four wait. */
static const double CORNER[] = {0, -4, 0, 4, -4, 1, 0, -4}, STEPS[] = {-2, -3, 4, -1, 2, -1, 3, 1, -4, 1, -3, -4, -2, -3}, STRIP[] = {0, 0, 8, 0, 8, 0.1, 0, 0.1, 0, 0};

static void marches_cut(void)
{
    struct cut corner = {.section = CORNER, .section_len = 8, .tol = 0.1, .line = {-2, 1, -2, 2}, .slots = 21, .number = 0, .count = 19, .units = 36};
    struct cut full = {.section = CORNER, .section_len = 8, .tol = 0.1, .line = {-2, 1, -2, 2}, .slots = 10, .number = 15, .count = 10, .units = 20};
    struct cut steps = {.section = STEPS, .section_len = 14, .tol = 0.05, .line = {1, 2, 2, 2}, .slots = 24, .number = 13, .count = 22, .units = 46};
    struct cut whole = {.section = R, .section_len = RLEN, .tol = G, .line = {4, 1, 0, 1}, .slots = 54, .number = 0, .count = 52, .units = 102};
    struct cut strip = {.section = STRIP, .section_len = RLEN, .tol = T, .line = {6.484, 0.05, 0, 1}, .slots = 300, .number = 0, .count = 257, .units = 512};
    struct left *one = calloc(1, sizeof *one), *second = calloc(1, sizeof *second), *third = calloc(1, sizeof *third);
    unsigned fractions = 0, waiting = 0;
    if (!one || !second || !third)
        exit(2);
    for (int cell = 0; cell < 2; cell++) {
        cut_everywhere(&corner, cell, true), cut_everywhere(&steps, cell, true);
        cut_everywhere(&full, cell, true), cut_everywhere(&whole, cell, false);
    }
    lend(&steps), lend(&strip);
    for (uint32_t limit = 0; limit < steps.units; limit++) {
        begun(&steps, false, limit, one);
        if (one->state.refining) {
            EXPECT(one->state.refining == 1 && one->state.fraction == 0 && one->state.count > 0);
            waiting |= 1u << one->state.count;
        } else {
            EXPECT(one->state.count == 0);
            fractions |= 1u << one->state.fraction;
        }
        for (size_t i = W * one->state.count; i < W * RUMMYTEAK_WAITING; i++)
            EXPECT(bits(one->state.waiting[i]) == 0);
    }
    EXPECT(fractions == 0xf && waiting == 0x1e);
    /* the cell's slots in pieces: the 257th circle is 15 there, at whatever limit it was cut before */
    for (uint32_t a = 0; a < 512; a += a < 500 ? 250 : 3) {
        begun(&strip, true, a, one), begun(&strip, false, a, second);
        EXPECT(one->number == 14 && as_one(&strip, one, second, 0));
        gone_on(&strip, true, RUMMYTEAK_NO_LIMIT - a, one, second);
        EXPECT(second->number == 15 && second->count == 256 && second->units == 512 - a && are_nans(second->store, W * CELL, W * 300));
        gone_on(&strip, true, 511 - a, one, second);
        EXPECT(second->number == 14 && second->count == 256);
        gone_on(&strip, false, 512 - a, one, third);
        EXPECT(third->number == 0 && third->count == 257 && third->units == 512 - a);
        gone_on(&strip, false, 1, second, third);
        EXPECT(third->number == 0 && third->count == 257 && third->units == 1);
    }
    give_back(&steps), give_back(&strip);
    free(one), free(second), free(third);
}

/* A state made by hand: circles that R has on upright lines wait, each 1/256 to the right of the one before, behind them NaNs. */
static void by_hand(struct rummyteak_march_state *state, uint64_t refining, uint64_t fraction, uint64_t count)
{
    double waiting[W * RUMMYTEAK_WAITING];
    fill_with_nans(waiting, 0, W * RUMMYTEAK_WAITING);
    for (size_t k = 0; k < count && k < RUMMYTEAK_WAITING; k++)
        upright(3 + (double)k / 256, waiting + W * k);
    state->refining = refining, state->fraction = fraction, state->count = count;
    memcpy(state->waiting, waiting, sizeof waiting);
}

/* Both entries refuse a going on by one number, and write nothing. */
static void refused(uint32_t number, const double *section, size_t section_len, double section_tol, double tol, const double *circles, size_t slots, size_t stated, const struct rummyteak_march_state *state, int line)
{
    double *store = copy(circles, W * slots);
    struct rummyteak_march_state *lent_state = marked_state();
    size_t count = 77;
    uint32_t units = 77;
    *lent_state = *state;
    expect(rummyteak_go_on(section, section_len, section_tol, tol, store, W * slots, stated, lent_state, 9, &count, &units) == number, "the number", line);
    expect(rummyteak_go_on_cell(section, section_len, section_tol, tol, store, W * slots, stated, lent_state, 9, &count, &units) == number, "the number for the cell", line);
    expect(count == 77 && units == 77 && same(store, circles, W * slots) && same_state(lent_state, state), "nothing is written", line);
    release(store), release_state(lent_state);
}

#define REFUSED(number, ...) refused(number, __VA_ARGS__, __LINE__)

static void states_refused(void)
{
    double *r = copy(R, RLEN), *two = rank_of(2), *many = rank_of(257), *bad = rank_of(2), *none = rank_of(0);
    struct rummyteak_march_state *good = marked_state(), *state = marked_state();
    size_t count = 77;
    uint32_t units = 77;
    by_hand(good, 1, 0, 3);
    bad[W + 2] = -1;
    /* more than 64 waiting; none while refining, one while advancing; no circle in use; a fraction above 3 while advancing */
    for (uint64_t refining = 0; refining < 2; refining++)
        for (uint64_t n = 65; n; n = n == 65 ? UINT64_C(1) << 32 : n == UINT64_C(1) << 32 ? UINT64_MAX : 0)
            by_hand(state, refining, 0, n), REFUSED(27, r, RLEN, T, G, two, 300, 2, state);
    by_hand(state, 1, 0, 0), REFUSED(27, r, RLEN, T, G, two, 300, 2, state);
    by_hand(state, 0, 0, 1), REFUSED(27, r, RLEN, T, G, two, 300, 2, state);
    REFUSED(27, r, RLEN, T, G, two, 300, 0, good);
    by_hand(state, 0, 0, 0), REFUSED(27, r, RLEN, T, G, two, 300, 0, state);
    for (uint64_t fraction = 4; fraction; fraction = fraction == 4 ? UINT64_C(1) << 32 : fraction == UINT64_C(1) << 32 ? UINT64_MAX : 0)
        by_hand(state, 0, fraction, 0), REFUSED(27, r, RLEN, T, G, two, 300, 2, state);
    /* a bad number at any place of the first, the middle or the last waiting circle; below zero at a radius or a length along */
    for (size_t n = 1; n <= RUMMYTEAK_WAITING; n += 63)
        for (size_t k = 0; k < n; k += n == 1 ? 1 : 21)
            for (size_t i = 0; i < W; i++)
                for (int v = 0; v < 5; v++) {
                    static const double values[] = {NAN, INFINITY, -INFINITY, -1, -5e-324};
                    by_hand(state, 1, 0, n);
                    state->waiting[W * k + i] = values[v];
                    if (v < 3 || i == 2 || i > 6)
                        REFUSED(27, r, RLEN, T, G, two, 300, 2, state);
                }
    /* in order 1, 2, 3, 23, 4, 27, 6: each with all that is tested behind it wrong too */
    by_hand(state, 0, 4, 1);
    REFUSED(1, r, RLEN - 1, NAN, NAN, bad, 2, 3, state);
    REFUSED(1, NULL, 0, T, G, none, 0, 1, state);
    REFUSED(2, r, RLEN, T, NAN, bad, 2, 3, state);
    REFUSED(3, r, RLEN, T, NAN, two, 2, 3, state);
    REFUSED(23, r, RLEN, 3, 2, two, 2, 3, state);
    REFUSED(4, r, RLEN, 2, 2, two, 2, 3, state);
    REFUSED(4, r, RLEN, T, G, two, 2, SIZE_MAX, state);
    REFUSED(27, r, RLEN, 2, 2, two, 2, 2, state);
    REFUSED(6, r, RLEN, 2, 2, two, 2, 2, good);
    REFUSED(4, r, RLEN, 2, 2, two, 2, 3, good);
    REFUSED(4, r, RLEN, T, G, none, 0, 1, state);
    REFUSED(27, r, RLEN, T, G, none, 0, 0, good);
    /* a stated count of 257 is 4 for the cell before the state is looked at */
    EXPECT(rummyteak_go_on_cell(r, RLEN, T, G, many, W * 300, 257, state, 0, &count, &units) == 4);
    EXPECT(rummyteak_go_on(r, RLEN, T, G, many, W * 300, 257, state, 0, &count, &units) == 27);
    EXPECT(rummyteak_go_on_cell(r, RLEN, T, G, many, W * 300, 257, good, 0, &count, &units) == 4 && count == 77 && units == 77);
    EXPECT(rummyteak_go_on(r, RLEN, T, G, many, W * 300, 257, good, 0, &count, &units) == 14 && count == 257 && units == 0);
    EXPECT(are_nans(many, W * 257, W * 300));
    release(r), release(two), release(many), release(bad), release(none), release_state(good), release_state(state);
}

/* States made by hand that are taken. */
static void states_taken(void)
{
    const double small[2 * W] = {4, 0.5, 0.5, 4, 0, 4, 1, 4, 14, 5, 1.00048828125, 0.99951171875, 5, 0, 5, 2, 5, 13};
    double *r = copy(R, RLEN), *store = rank_of(0), *old = rank_of(2);
    struct rummyteak_march_state *state = marked_state(), *other = marked_state(), *want = marked_state();
    size_t count = 77, all = 77;
    uint32_t units = 77;
    /* any number but 0 is refining, whatever its bytes; the fraction is not read then, and comes back 0; nor are the slots behind, which come back +0 */
    for (uint32_t limit = 0; limit < 8; limit++) {
        static const uint64_t yes[] = {1, 2, 0x100, 0xffffffff, UINT64_C(1) << 32, UINT64_C(1) << 63, UINT64_MAX};
        for (size_t k = 0; k < sizeof yes / sizeof *yes; k++) {
            memcpy(store, old, W * 300 * sizeof *store);
            by_hand(state, yes[k], k ? UINT64_MAX - k : 0, 3);
            uint32_t number = rummyteak_go_on(r, RLEN, T, G, store, W * 300, 2, state, limit, &count, &units);
            EXPECT(number == 14 && units == limit && state->refining <= 1 && (state->refining == 1) == (state->count > 0) && (!state->refining || state->fraction == 0));
            for (size_t i = W * state->count; i < W * RUMMYTEAK_WAITING; i++)
                EXPECT(bits(state->waiting[i]) == 0);
            if (!k)
                *want = *state, all = count;
            EXPECT(same_state(state, want) && count == all);
        }
        by_hand(state, 1, 0, 3);
        EXPECT(limit || (count == 2 && state->count == 3 && same(want->waiting, state->waiting, 3 * W)));
    }
    /* while advancing nothing of the waiting slots is read */
    for (uint64_t fraction = 0; fraction < 4; fraction++) {
        memcpy(store, old, W * 300 * sizeof *store);
        by_hand(state, 0, fraction, 0), by_hand(want, 0, fraction, 0);
        memset(want->waiting, 0, sizeof want->waiting);
        EXPECT(rummyteak_go_on(r, RLEN, T, G, store, W * 300, 2, state, 0, &count, &units) == 14 && count == 2 && units == 0 && same_state(state, want));
    }
    /* -0 passes the test of 2 */
    by_hand(state, 1, 0, 1);
    state->waiting[2] = state->waiting[7] = state->waiting[8] = -0.0;
    EXPECT(rummyteak_go_on_cell(r, RLEN, T, G, store, W * 300, 2, state, 0, &count, &units) == 14 && bits(state->waiting[7]) == bits(-0.0));
    /* a fraction is due whose step is below the tolerance: an end without a unit, where a smaller fraction's step passes */
    upright(4, store);
    for (uint64_t fraction = 0; fraction < 4; fraction++) {
        by_hand(state, 0, fraction, 0), by_hand(want, 0, fraction, 0);
        EXPECT(rummyteak_go_on(r, RLEN, T, 0.1, store, W * 300, 1, state, 0, &count, &units) == (fraction ? 0 : 14) && count == 1 && units == 0);
        EXPECT(!fraction || same_state(state, want));
        EXPECT(rummyteak_go_on_cell(r, RLEN, T, 0.1, store, W * 300, 1, want, 0, &count, &units) == (fraction ? 0 : 14) && count == 1 && units == 0 && same_state(state, want));
    }
    /* advancing may be refused without a unit, as refining never is */
    memcpy(store, PAIR, W * sizeof *store);
    store[6] = 0;
    by_hand(state, 0, 0, 0), *want = *state;
    EXPECT(rummyteak_go_on(r, RLEN, T, G, store, W * 300, 1, state, 0, &count, &units) == 11 && count == 1 && units == 0 && same_state(state, want));
    by_hand(state, 1, 0, 1);
    EXPECT(rummyteak_go_on(r, RLEN, T, G, store, W * 300, 1, state, 0, &count, &units) == 14 && count == 1 && units == 0);
    /* 64 may wait: where a trial then adds it is 16, with its unit */
    for (uint64_t n = 62; n < 65; n++)
        for (uint32_t limit = 0; limit < 5; limit++)
            for (int cell = 0; cell < 2; cell++) {
                uint32_t spent_at = (uint32_t)(64 - n);
                memcpy(store, small, W * sizeof *store);
                by_hand(state, 1, 0, n);
                for (size_t k = 0; k < n; k++)
                    memcpy(state->waiting + W * k, small + W, W * sizeof *small);
                *want = *state;
                uint32_t number = cell ? rummyteak_go_on_cell(r, RLEN, T, G, store, W * 300, 1, state, limit, &count, &units) : rummyteak_go_on(r, RLEN, T, G, store, W * 300, 1, state, limit, &count, &units);
                EXPECT(number == (limit <= spent_at ? 14 : 16) && units == (limit <= spent_at ? limit : spent_at + 1) && count == 1 && same(store, small, W));
                EXPECT(number == 14 ? state->count == n + limit : same_state(state, want));
            }
    /* 10, 11, 12 in the first trial, and 15 where its circle has no slot: with its unit, and the state stays */
    const double far_off[] = {6, -5, 4, 1, -8, 3, 4, -4, 6, -5}, far_circle[W] = {6e28, 0, 1, 0, 0, 2, 0, 20, 8};
    double *far_section = copy(far_off, RLEN);
    for (int k = 0; k < 4; k++) {
        const double wide = k == 2 ? 1.7e308 : 0, third[W] = {4, 1, 1, 0, -wide, 0, wide, 4, 14};
        memcpy(store, old, W * 300 * sizeof *store);
        by_hand(state, 1, 0, 1);
        if (!k)
            memcpy(store, far_circle, sizeof far_circle), memcpy(store + W, far_circle, sizeof far_circle), memcpy(state->waiting, far_circle, sizeof far_circle);
        if (k == 1 || k == 2)
            memcpy(state->waiting, third, sizeof third);
        *other = *state;
        for (uint32_t limit = 1; limit < 3; limit++) {
            EXPECT(rummyteak_go_on(k ? r : far_section, RLEN, T, G, store, W * (k == 3 ? 2 : 300), 2, state, limit, &count, &units) == (k == 3 ? 15 : 10 + (uint32_t)k) && count == 2 && units == 1 && same_state(state, other));
            EXPECT(rummyteak_go_on_cell(k ? r : far_section, RLEN, T, G, store, W * (k == 3 ? 2 : 300), 2, state, limit, &count, &units) == (k == 3 ? 15 : 10 + (uint32_t)k) && count == 2 && units == 1 && same_state(state, other));
        }
        EXPECT(are_nans(store, W * 2, W * 300));
    }
    release(far_section);
    /* 256 circles in use: the next is 15 for the cell, and accepted by the other entry */
    double *many = rank_of(256);
    by_hand(state, 1, 0, 1), *other = *state;
    upright(1 + 255.0 / 256, state->waiting);
    *other = *state;
    EXPECT(rummyteak_go_on_cell(r, RLEN, T, G, many, W * 300, 256, state, 9, &count, &units) == 15 && count == 256 && units == 1 && same_state(state, other) && are_nans(many, W * 256, W * 300));
    EXPECT(rummyteak_go_on_cell(r, RLEN, T, G, many, W * 300, 255, state, 1, &count, &units) == 14 && count == 256 && units == 1 && state->refining == 0 && state->fraction == 0);
    EXPECT(rummyteak_go_on(r, RLEN, T, G, many, W * 300, 256, other, 1, &count, &units) == 14 && count == 257 && units == 1 && same_state(state, other) && same(many + W * 255, many + W * 256, W));
    EXPECT(are_nans(many, W * 257, W * 300));
    release(many);
    /* the state of another section is taken as one made by hand is */
    size_t edges[2];
    bool found;
    EXPECT(rummyteak_march(STRIP, RLEN, T, T, 5.5, 0.05, 0, 1, store, W * 300, 9, &count, &units, edges, &found, want) == 14 && want->count == 1);
    for (uint32_t limit = 0; limit < 40; limit++) {
        *state = *want;
        memcpy(store, old, W * 300 * sizeof *store);
        EXPECT(rummyteak_go_on(r, RLEN, T, G, store, W * 300, 2, state, limit, &count, &units) == 14 && units == limit && count >= 2 && count <= 2 + limit);
        EXPECT(same(store, old, W * 2) && are_nans(store, W * count, W * 300) && (limit || same_state(state, want)));
    }
    EXPECT(count == 21 && rummyteak_go_on(r, RLEN, T, G, store, W * 300, count, state, RUMMYTEAK_NO_LIMIT, &count, &units) == 15 && count == 300 && same(store, old, W * 2));
    /* where the march is over the state is still the one that was handed in: gone on with once more, it gives two circles that are no part of the march */
    EXPECT(rummyteak_march_cell(r, RLEN, T, G, 4, 1, 0, 1, store, W * 300, 99, &count, &units, edges, &found, state) == 14 && count == 50);
    *want = *state;
    EXPECT(rummyteak_go_on_cell(r, RLEN, T, G, store, W * 300, 50, state, 9, &count, &units) == 0 && count == 52 && units == 3 && same_state(state, want));
    EXPECT(rummyteak_go_on_cell(r, RLEN, T, G, store, W * 300, 52, state, 9, &count, &units) == 0 && count == 54 && units == 3 && same_state(state, want));
    EXPECT(rummyteak_go_on(r, RLEN, T, G, store, W * 300, 50, state, 9, &count, &units) == 0 && count == 52 && units == 3 && same_state(state, want));
    EXPECT(rummyteak_go_on(r, RLEN, T, G, store, W * 300, 52, state, 9, &count, &units) == 0 && count == 54 && units == 3 && same_state(state, want));
    release(r), release(store), release(old), release_state(state), release_state(other), release_state(want);
}

static void lists(void)
{
    double *store = copy(PAIR, 2 * W), *front = marked(W), *back = marked(W), *line = marked(4), x = MARK;
    size_t place = 77, first = 77, numbers = 77;
    EXPECT(rummyteak_front_and_back(store, 2 * W, 2, front, back) == 0 && same(front, PAIR, W) && same(back, PAIR + W, W));
    for (size_t i = 0; i < W; i++)
        front[i] = back[i] = MARK;
    EXPECT(rummyteak_front_and_back(store, 2 * W, 0, front, back) == 7 && untouched(front, 0, W) && untouched(back, 0, W));
    EXPECT(rummyteak_index_of_tmax(store, 2 * W, 2, &place) == 0 && place == 1);
    EXPECT(rummyteak_index_of_tmax(store, 2 * W, 3, &place) == 4 && place == 1);
    EXPECT(rummyteak_average_spacing(store, 2 * W, 2, &x) == 0 && x == 1);
    EXPECT(rummyteak_average_spacing(store, 2 * W, 1, &x) == 7 && x == 1);
    EXPECT(rummyteak_end_clip_line(store, 2 * W, 2, line) == 0 && line[2] == 1);
    EXPECT(rummyteak_end_clip_line(store, 2 * W, 1, line) == 7);
    EXPECT(rummyteak_circles_from(store, 2 * W, 2, 1, &first, &numbers) == 0 && first == W && numbers == W);
    EXPECT(rummyteak_circles_from(store, 2 * W, 2, 2, &first, &numbers) == 0 && numbers == 0);
    first = numbers = 77;
    EXPECT(rummyteak_circles_from(store, 2 * W, 2, 3, &first, &numbers) == 4 && first == 77 && numbers == 77);
    EXPECT(rummyteak_reverse_points(store, 2 * W, 2) == 0 && store[4] == 2 && store[6] == 0 && store[7] == 14 && store[8] == 4);
    EXPECT(rummyteak_reverse_order(store, 2 * W, 2) == 0 && same(store, PAIR + W, W));
    EXPECT(rummyteak_reverse_order_only(store, 2 * W, 2) == 0 && same(store, PAIR, 2 * W));
    EXPECT(rummyteak_reverse_order_only(store, 2 * W, 9) == 4 && same(store, PAIR, 2 * W));
    store[0] = NAN;
    EXPECT(rummyteak_index_of_tmax(store, 2 * W, 2, &place) == 2);
    EXPECT(rummyteak_reverse_points(store, 2 * W, 2) == 2 && store[4] == 0);
    EXPECT(rummyteak_reverse_order(store, 2 * W, 2) == 2 && same(store + W, PAIR + W, W));
    release(store), release(front), release(back), release(line);
}

static void curves(void)
{
    double *store = copy(PAIR, 2 * W), *six = marked(6), *five = marked(5), *out = marked(10);
    size_t kept = 77;
    bool closed = true;
    EXPECT(rummyteak_camber_curve(store, 2 * W, 2, T, six, 6, &kept, &closed) == 0 && kept == 2 && !closed);
    EXPECT(six[0] == 4 && six[3] == 1 && untouched(six, 4, 6));
    EXPECT(rummyteak_make_camber_curve(0, 1, 8, 1, store, 2 * W, 2, T, out, 10, &kept, &closed) == 0 && kept == 4);
    EXPECT(out[0] == 0 && out[6] == 8 && untouched(out, 8, 10));
    kept = 77;
    EXPECT(rummyteak_camber_curve(store, 2 * W, 2, T, five, 5, &kept, &closed) == 4 && untouched(five, 0, 5));
    EXPECT(rummyteak_make_camber_curve(0, 2e6, 8, 1, store, 2 * W, 2, T, out, 10, &kept, &closed) == 2 && kept == 77);
    release(store), release(six), release(five), release(out);
}

static void orientation(void)
{
    double *store = copy(PAIR, 2 * W);
    bool yes = false;
    EXPECT(rummyteak_orient_lower(1, 0, store, 2 * W, 2, &yes) == 0 && yes && store[4] == 2 && store[7] == 14);
    EXPECT(rummyteak_orient_upper(0, -1, store, 2 * W, 2, &yes) == 0 && !yes && store[4] == 2);
    EXPECT(rummyteak_orient_upper(0, 1, store, 2 * W, 2, &yes) == 0 && yes && same(store, PAIR, 2 * W));
    EXPECT(rummyteak_orient_fwd(1, 0, store, 2 * W, 2, &yes) == 0 && yes && store[0] == 5);
    EXPECT(rummyteak_orient_airflow(1, 0, store, 2 * W, 2, &yes) == 0 && yes && same(store, PAIR, 2 * W));
    EXPECT(rummyteak_orient_tmax_fwd(store, 2 * W, 2, &yes) == 0);
    release(store), store = copy(PAIR, 2 * W);
    EXPECT(rummyteak_orient_curvature(store, 2 * W, 2, &yes) == 0 && yes && store[0] == 4 && store[4] == 2);
    EXPECT(rummyteak_orient_curvature(store, 2 * W, 2, &yes) == 0 && !yes && store[0] == 4 && store[4] == 2);
    double *one = copy(PAIR, W);
    yes = true;
    EXPECT(rummyteak_orient_fwd(1, 0, one, W, 1, &yes) == 7 && yes && same(one, PAIR, W));
    EXPECT(rummyteak_orient_airflow(NAN, 0, one, W, 1, &yes) == 2 && yes);
    EXPECT(rummyteak_orient_upper(0, 1, one, W, 0, &yes) == 7 && yes);
    EXPECT(rummyteak_orient_lower(0, INFINITY, one, W, 1, &yes) == 2 && yes && same(one, PAIR, W));
    EXPECT(rummyteak_orient_tmax_fwd(one, W, 2, &yes) == 4 && yes);
    EXPECT(rummyteak_orient_curvature(one, W, 2, &yes) == 4 && yes);
    EXPECT(rummyteak_orient_curvature(one, W, 1, &yes) == 7 && yes && same(one, PAIR, W));
    one[0] = 2e6;
    EXPECT(rummyteak_orient_curvature(one, W, 1, &yes) == 2 && yes && one[4] == 0);
    release(store), release(one);
}

static void edges(void)
{
    const double three[] = {2, 1.00048828125, 0.99951171875, 2, 0, 2, 2, 2, 16};
    double *r = copy(R, ULEN), *closed = copy(R, RLEN), *store = marked(3 * W), *point = marked(2);
    size_t count = 77;
    uint32_t units = 77;
    bool open = false;
    memcpy(store, PAIR, sizeof PAIR);
    EXPECT(rummyteak_is_open_at_end(r, ULEN, T, G, store, 3 * W, 2, true, &open) == 0 && open);
    EXPECT(rummyteak_is_open_at_end(closed, RLEN, T, G, store, 3 * W, 2, true, &open) == 0 && !open);
    open = true;
    EXPECT(rummyteak_is_open_at_end(r, ULEN, T, G, store, 3 * W, 1, true, &open) == 7 && open);
    EXPECT(rummyteak_fit_open_edge(r, ULEN, T, G, store, 3 * W, 2, true, 0, point, &count, &units) == 14);
    EXPECT(count == 2 && units == 0 && untouched(point, 0, 2) && same(store, PAIR, 2 * W) && untouched(store, 2 * W, 3 * W));
    EXPECT(rummyteak_fit_open_edge(r, ULEN, T, G, store, 3 * W, 2, false, 1, point, &count, &units) == 20);
    EXPECT(rummyteak_fit_open_edge(r, ULEN, T, G, store, 3 * W, 2, true, 1, point, &count, &units) == 0);
    EXPECT(count == 3 && units == 1 && point[0] == 0 && point[1] == 1.00048828125);
    EXPECT(same(store, three, W) && same(store + W, PAIR, 2 * W));
    EXPECT(rummyteak_fit_open_edge(closed, RLEN, T, G, store, 3 * W, 3, true, 1, point, &count, &units) == 17);
    EXPECT(count == 3 && units == 0);
    count = 77, units = 77;
    EXPECT(rummyteak_fit_open_edge(r, ULEN, T, G, store, 3 * W, 4, true, 1, point, &count, &units) == 4);
    EXPECT(rummyteak_fit_open_edge(r, ULEN, G, T, store, 3 * W, 4, true, 1, point, &count, &units) == 23);
    EXPECT(rummyteak_is_open_at_end(r, ULEN, G, T, store, 3 * W, 2, true, &open) == 0);
    EXPECT(count == 77 && units == 77);
    release(r), release(closed), release(store), release(point);
}

/* A buffer of n bytes, as `marked` lends them; release_bytes gives it back. Where n isn't a multiple of eight, marks stand
 * behind it too. */
static uint8_t *marked_bytes(size_t n)
{
    return (uint8_t *)marked((n + 7) / 8);
}

static void release_bytes(uint8_t *p)
{
    release((double *)(void *)p);
}

/* Whether the bytes from `from` to `to` of a buffer are still marks. */
static bool untouched_bytes(const uint8_t *p, size_t from, size_t to)
{
    uint8_t mark[8];
    memcpy(mark, &MARK, 8);
    for (size_t i = from; i < to; i++)
        if (p[i] != mark[i % 8])
            return false;
    return true;
}

/* Byte p, so that no two neighbours and no two of a column are the same by chance. */
static uint8_t byte_at(size_t p)
{
    return (uint8_t)(p * 37 + p / 256 * 11 + 5);
}

/* n numbers there and back, each into an output that is `more` bytes longer. */
static void shuffled(size_t n, size_t more)
{
    size_t len = 8 * n, room = len + more;
    uint8_t *bytes = marked_bytes(len), *sorted = marked_bytes(room), *back = marked_bytes(room);
    for (size_t p = 0; p < len; p++)
        bytes[p] = byte_at(p);
    EXPECT(rummyteak_shuffle(bytes, len, sorted, room) == 0);
    EXPECT(rummyteak_unshuffle(sorted, len, back, room) == 0);
    bool there = true;
    for (size_t k = 0; k < n; k++)
        for (size_t i = 0; i < 8; i++)
            there = there && sorted[i * n + k] == byte_at(8 * k + i);
    EXPECT(there && memcmp(bytes, back, len) == 0);
    size_t end = (room + 7) / 8 * 8;
    EXPECT(untouched_bytes(sorted, len, end) && untouched_bytes(back, len, end));
    release_bytes(bytes), release_bytes(sorted), release_bytes(back);
}

/* Byte b at place i of word k, and no other, is turned to place k of word i. */
static void turned(size_t k, size_t i, uint64_t b)
{
    uint64_t *words = (uint64_t *)(void *)marked(8);
    memset(words, 0, 64);
    words[k] = b << 8 * i;
    EXPECT(rummyteak_transpose_words(words) == 0);
    bool right = true;
    for (size_t j = 0; j < 8; j++)
        right = right && words[j] == (j == i ? b << 8 * k : 0);
    EXPECT(right);
    release((double *)(void *)words);
}

static void all_turns(void)
{
    for (size_t k = 0; k < 8; k++)
        for (size_t i = 0; i < 8; i++)
            turned(k, i, 0x81), turned(k, i, 0xff);
    uint64_t words[8], twice[8];
    uint8_t bytes[64], sorted[64];
    for (size_t p = 0; p < 64; p++)
        bytes[p] = byte_at(p);
    for (size_t k = 0; k < 8; k++) {
        words[k] = 0;
        for (size_t i = 0; i < 8; i++)
            words[k] |= (uint64_t)bytes[8 * k + i] << 8 * i;
    }
    memcpy(twice, words, 64);
    EXPECT(rummyteak_transpose_words(words) == 0 && rummyteak_shuffle(bytes, 64, sorted, 64) == 0);
    bool same_bytes = true;
    for (size_t p = 0; p < 64; p++)
        same_bytes = same_bytes && (uint8_t)(words[p / 8] >> 8 * (p % 8)) == sorted[p];
    EXPECT(same_bytes);
    EXPECT(rummyteak_transpose_words(words) == 0 && memcmp(words, twice, 64) == 0);
}

static void stored_bytes(void)
{
    static const size_t counts[] = {0, 1, 2, 7, 8, 9, 15, 16, 17, 9216};
    for (size_t k = 0; k < sizeof counts / sizeof *counts; k++)
        shuffled(counts[k], 0), shuffled(counts[k], 1), shuffled(counts[k], 9);
    EXPECT(rummyteak_shuffle(NULL, 0, NULL, 0) == 0 && rummyteak_unshuffle(NULL, 0, NULL, 0) == 0);
    uint8_t *bytes = marked_bytes(RUMMYTEAK_BYTES + 8), *out = marked_bytes(RUMMYTEAK_BYTES + 8), *none = marked_bytes(0);
    EXPECT(rummyteak_shuffle(bytes, RUMMYTEAK_BYTES + 8, out, RUMMYTEAK_BYTES + 8) == 26);
    EXPECT(rummyteak_unshuffle(bytes, RUMMYTEAK_BYTES + 8, out, RUMMYTEAK_BYTES + 8) == 26);
    EXPECT(rummyteak_shuffle(bytes, 15, out, 15) == 26 && rummyteak_unshuffle(bytes, 15, out, 15) == 26);
    EXPECT(rummyteak_shuffle(bytes, 1, none, 0) == 26 && rummyteak_unshuffle(bytes, 1, none, 0) == 26);
    EXPECT(rummyteak_shuffle(bytes, 16, out, 15) == 4 && rummyteak_unshuffle(bytes, 16, out, 15) == 4);
    EXPECT(rummyteak_shuffle(bytes, RUMMYTEAK_BYTES, out, RUMMYTEAK_BYTES - 1) == 4);
    EXPECT(rummyteak_unshuffle(bytes, RUMMYTEAK_BYTES, none, 0) == 4);
    EXPECT(untouched_bytes(out, 0, RUMMYTEAK_BYTES + 8));
    release_bytes(bytes), release_bytes(out), release_bytes(none);
}

/* A buffer of n bytes that ends where a page without access begins; `at` is where it starts. */
static uint8_t *ending_bytes(size_t n, uint8_t **at)
{
    *at = marked_bytes(n);
    return *at + (8 - n % 8) % 8;
}

/* The ending of the first n bytes of a record, with byte k of them put to `byte`; k may be beyond them. */
static uint32_t read_with(const uint8_t *record, size_t n, size_t k, uint8_t byte, double *store, size_t *count)
{
    uint8_t *at, *bytes = ending_bytes(n, &at);
    memcpy(bytes, record, n);
    if (k < n)
        bytes[k] = byte;
    uint32_t ending = rummyteak_read_record(bytes, n, store, 3 * W, count);
    release_bytes(at);
    return ending;
}

/* One circle whose numbers are all x: how long its record is, and whether its bits come back. */
static void one_circle(double x, size_t length, uint8_t low, uint8_t high)
{
    double *store = marked(W), *back = marked(W);
    uint8_t *at, *out = ending_bytes(length, &at);
    size_t written = 77, count = 77;
    for (size_t i = 0; i < W; i++)
        store[i] = x;
    EXPECT(rummyteak_write_record(store, W, 1, out, length, &written) == 0 && written == length);
    EXPECT(out[0] == 1 && out[1] == 0 && out[2] == low && out[3] == high);
    EXPECT(rummyteak_read_record(out, length, back, W, &count) == 0 && count == 1 && same(store, back, W));
    release(store), release(back), release_bytes(at);
}

/* The longest record there and back. */
static void longest_record(void)
{
    size_t numbers = W * RUMMYTEAK_SLOTS, written = 77, count = 77;
    double *store = marked(numbers + W), *back = marked(numbers);
    uint8_t *at, *out = ending_bytes(RUMMYTEAK_RECORD, &at);
    for (size_t i = 0; i < numbers + W; i++)
        store[i] = 1.0 + (double)i / 7.0;
    EXPECT(rummyteak_write_record(store, numbers + W, RUMMYTEAK_SLOTS + 1, out, RUMMYTEAK_RECORD, &written) == 4);
    EXPECT(rummyteak_write_record(store, numbers, RUMMYTEAK_SLOTS, out, RUMMYTEAK_RECORD - 1, &written) == 4);
    EXPECT(written == 77 && untouched_bytes(at, 0, (size_t)(out - at) + RUMMYTEAK_RECORD));
    EXPECT(rummyteak_write_record(store, numbers, RUMMYTEAK_SLOTS, out, RUMMYTEAK_RECORD, &written) == 0);
    EXPECT(written == RUMMYTEAK_RECORD);
    EXPECT(rummyteak_read_record(out, RUMMYTEAK_RECORD, back, numbers - 1, &count) == 4);
    EXPECT(count == 77 && untouched(back, 0, numbers));
    EXPECT(rummyteak_read_record(out, RUMMYTEAK_RECORD, back, numbers, &count) == 0);
    EXPECT(count == RUMMYTEAK_SLOTS && same(store, back, numbers));
    release(store), release(back), release_bytes(at);
}

/* Both circles of PAIR have one number that is +0, the fifth: 66 bytes each. */
static void records(void)
{
    double *store = copy(PAIR, 2 * W), *back = marked(3 * W);
    uint8_t *out = marked_bytes(136), *none = marked_bytes(0);
    size_t written = 77, count = 77;
    EXPECT(rummyteak_write_record(store, 2 * W, 2, out, 133, &written) == 4);
    EXPECT(rummyteak_write_record(store, 2 * W, 3, out, 136, &written) == 4);
    EXPECT(rummyteak_write_record(NULL, 0, 0, none, 0, &written) == 4);
    store[2 * W - 1] = -1.0;
    EXPECT(rummyteak_write_record(store, 2 * W, 2, out, 136, &written) == 2);
    store[2 * W - 1] = NAN;
    EXPECT(rummyteak_write_record(store, 2 * W, 2, out, 133, &written) == 4);
    EXPECT(rummyteak_write_record(store, 2 * W, 2, out, 134, &written) == 2);
    EXPECT(written == 77 && untouched_bytes(out, 0, 136));
    EXPECT(rummyteak_write_record(store, 2 * W, 1, out, 68, &written) == 0 && written == 68);
    store[2 * W - 1] = PAIR[2 * W - 1];
    EXPECT(rummyteak_write_record(store, 2 * W, 2, out, 136, &written) == 0 && written == 134);
    EXPECT(out[0] == 2 && out[1] == 0 && out[2] == 0xef && out[3] == 1 && untouched_bytes(out, 134, 136));
    /* cut at every byte, a byte left over, a count that doesn't fit, bit 9 of the first map, bit 15 of the second, a radius below zero */
    for (size_t n = 0; n < 134; n++)
        EXPECT(read_with(out, n, n, 0, back, &count) == 24);
    EXPECT(read_with(out, 135, 135, 0, back, &count) == 24);
    EXPECT(read_with(out, 134, 0, 4, back, &count) == 4 && read_with(out, 134, 1, 1, back, &count) == 4);
    EXPECT(read_with(out, 134, 0, 3, back, &count) == 24 && read_with(out, 134, 0, 1, back, &count) == 24);
    EXPECT(read_with(out, 134, 3, 3, back, &count) == 25 && read_with(out, 134, 69, 0x81, back, &count) == 25);
    EXPECT(read_with(out, 134, 27, 0xbf, back, &count) == 2);
    EXPECT(rummyteak_read_record(out, 134, back, 2 * W - 1, &count) == 4);
    EXPECT(rummyteak_read_record(NULL, 0, NULL, 0, &count) == 24);
    EXPECT(count == 77 && untouched(back, 0, 3 * W));
    EXPECT(rummyteak_read_record(out, 134, back, 3 * W, &count) == 0 && count == 2);
    EXPECT(same(back, PAIR, 2 * W) && untouched(back, 2 * W, 3 * W));
    EXPECT(rummyteak_write_record(NULL, 0, 0, out, 2, &written) == 0 && written == 2 && out[0] == 0 && out[1] == 0);
    EXPECT(rummyteak_read_record(out, 2, NULL, 0, &count) == 0 && count == 0);
    one_circle(0.0, 4, 0, 0), one_circle(-0.0, 76, 0xff, 1), one_circle(2.5, 76, 0xff, 1);
    longest_record();
    release(store), release(back), release_bytes(out), release_bytes(none);
}

/* Takes subnormal numbers for zero, or keeps them again; false where it isn't known how. */
static bool flush_to_zero(bool on)
{
#if defined(__SSE2__)
    unsigned both = 0x8040; /* flush-to-zero, and denormals-are-zero */
    __builtin_ia32_ldmxcsr(on ? __builtin_ia32_stmxcsr() | both : __builtin_ia32_stmxcsr() & ~both);
    return true;
#elif defined(__aarch64__)
    uint64_t control, flush = UINT64_C(1) << 24;
    __asm__ volatile("mrs %0, fpcr" : "=r"(control));
    __asm__ volatile("msr fpcr, %0" : : "r"(on ? control | flush : control & ~flush));
    return true;
#else
    (void)on;
    return false;
#endif
}

/* An extraction in an oval that is open at its left end. */
static size_t oval(double *store, size_t store_len, const double *section, size_t section_len, uint32_t *ending)
{
    size_t count = 0;
    uint32_t units;
    *ending = rummyteak_extract_circles(section, section_len, T, G, 0, 0.1, 0.03, 1, store, store_len, RUMMYTEAK_NO_LIMIT, &count, &units);
    return count;
}

/* What the caller owes of the floating-point environment: the same calls rounding to nearest and otherwise, with subnormal numbers
 * and without, and what differs. */
static void environment(void)
{
    enum { POINTS = 65 };
    static const struct {
        int mode;
        const char *name;
    } modes[] = {{FE_UPWARD, "upward"}, {FE_DOWNWARD, "downward"}, {FE_TOWARDZERO, "toward zero"}};
    const double tiny[] = {0, 0, 2e-160, 0, 3e-160, 2e-160};
    size_t room = W * RUMMYTEAK_SLOTS;
    double *section = marked(2 * POINTS), *want = marked(room), *got = marked(room), *points = copy(tiny, 6), x = MARK;
    uint32_t ending, other;
    for (int k = 0; k < POINTS; k++) {
        double t = (k - POINTS / 2) / 4.0;
        section[2 * k] = 20 * (1 - t * t) / (1 + t * t), section[2 * k + 1] = 8 * t / (1 + t * t);
    }
    size_t count = oval(want, room, section, 2 * POINTS, &ending);
    EXPECT(ending == 0 && count > 100);
    for (size_t k = 0; k < sizeof modes / sizeof *modes; k++) {
        EXPECT(fesetround(modes[k].mode) == 0);
        size_t found = oval(got, room, section, 2 * POINTS, &other), differ = 0;
        EXPECT(fesetround(FE_TONEAREST) == 0);
        for (size_t i = 0; i < W * (found < count ? found : count); i++)
            differ += bits(want[i]) != bits(got[i]);
        EXPECT(differ > 0);
        printf("rounding %s: %zu of the %zu numbers of an extraction differ\n", modes[k].name, differ, W * count);
    }
    EXPECT(oval(got, room, section, 2 * POINTS, &other) == count && other == 0 && same(want, got, W * count));
    EXPECT(rummyteak_length(points, 6, 0, &x) == 0 && x > 4.2e-160 && x < 4.3e-160);
    if (flush_to_zero(true)) {
        ending = rummyteak_length(points, 6, 0, &x);
        flush_to_zero(false);
        EXPECT(ending == 6);
        printf("subnormal numbers taken for zero: a length is refused by %" PRIu32 ", which is a result with them\n", ending);
        EXPECT(rummyteak_length(points, 6, 0, &x) == 0);
    } else {
        printf("subnormal numbers taken for zero: skipped, it isn't known how this processor does that\n");
    }
    release(section), release(want), release(got), release(points);
}

int main(void)
{
    roots();
    cleaning();
    sections();
    stretches();
    circles();
    runs();
    cell_refinements();
    cell_marches();
    offered_again();
    offers_refused();
    thinnings();
    thinnings_refused();
    marches_cut();
    states_refused();
    states_taken();
    lists();
    curves();
    orientation();
    edges();
    records();
    stored_bytes();
    all_turns();
    environment();
    printf("C interface: %d checks, %d wrong\n", checks, wrong);
    return wrong != 0;
}
