/* Rummyteak: a measured blade section into inscribed circles, a camber line and an open-edge point.
 *
 * Every function returns a number: 0 for a result, else one of enum rummyteak_ending. Nobody has to check anything
 * beforehand: any content and any lengths are met by a result or by one of these numbers, and every call ends.
 *
 * What a call writes. A result writes what the function's comment says. A refusal writes nothing, but for a run
 * (refine_and_push, refine_all, march, go_on, extract_circles, fit_open_edge) that was not refused on entry: it keeps its accepted
 * circles in the store and writes count and units. The entries for the cell (refine_and_push_cell, refine_all_cell, march_cell,
 * go_on_cell) are such runs. A march and a going on write the state that they are handed where they are spent, and else leave it
 * as it was. A thinning (thin) that is refused later, or spent, writes count and units too, and leaves the whole store as it
 * was. An output keeps what stands behind the result.
 *
 * What the caller owes. A pointer with a length points to that many numbers (with length 0 it may be null); a pointer
 * without one points to as many as its comment says. What is written overlaps nothing else that is handed in.
 * The calling thread's floating-point arithmetic rounds to nearest, has subnormal numbers (neither flush-to-zero nor
 * denormals-are-zero is set) and traps no exception, as when a program starts. What is promised here is promised of that
 * arithmetic and no other. With another rounding most numbers of an extraction differ; with flush-to-zero a refusal may
 * stand in place of a result; a trap may end the program, since values on the way may be infinite or NaN, which is refused
 * (12) and not avoided. A library built with -ffast-math can set flush-to-zero for a whole process when it is loaded;
 * fegetround of fenv.h tells the rounding.
 *
 * Points are x, y, x, y and so on, in millimetres; a length counts numbers, not points. A line is an origin and a direction.
 * Lengths of bytes count bytes.
 * A circle is RUMMYTEAK_WIDTH numbers: centre x, y, radius, contact p0 x, y, contact p1 x, y, and the lengths along of the
 * section's nearest points to p0 and to p1. A store is a slice of circles packed from its start; it holds its length /
 * RUMMYTEAK_WIDTH, and at most RUMMYTEAK_SLOTS, or RUMMYTEAK_CELL_SLOTS by an entry for the cell.
 */
#ifndef RUMMYTEAK_H
#define RUMMYTEAK_H

#include <stdbool.h>
#include <stddef.h>
#include <stdint.h>

#ifdef __cplusplus
extern "C" {
#endif

/* Numbers to a circle, and circles that a store holds at most. */
#define RUMMYTEAK_WIDTH 9
#define RUMMYTEAK_SLOTS 1024
/* The same by the entries for the cell, whose program has slots for 256. */
#define RUMMYTEAK_CELL_SLOTS 256
/* Circles that wait in a refinement at most. */
#define RUMMYTEAK_WAITING 64
/* Points of a section, and of what is cleaned or cut, at most. */
#define RUMMYTEAK_POINTS 4096
#define RUMMYTEAK_CLEANED 4095
/* Bytes that are shuffled, at most: 9,216 numbers of eight. */
#define RUMMYTEAK_BYTES 73728
/* Bytes of the longest hand-over record: that of 1,024 circles, no number of which is +0. */
#define RUMMYTEAK_RECORD 75778
/* The largest limit: no limit is felt. */
#define RUMMYTEAK_NO_LIMIT UINT32_MAX

enum rummyteak_ending {
    RUMMYTEAK_RESULT = 0,
    /* points: odd count of numbers, fewer than 2 points, or over 4,096 (cleaning and stretches: over 4,095) */
    RUMMYTEAK_POINT_COUNT = 1,
    /* a number handed in isn't finite, lies beyond 1,000,000, or is a radius or a circle's length along below zero */
    RUMMYTEAK_BAD_NUMBER = 2,
    /* section tolerance outside 0 to 1,000,000, or general tolerance outside 1e-6 to 1,000 */
    RUMMYTEAK_TOLERANCE = 3,
    /* stated count, place or output that doesn't fit */
    RUMMYTEAK_NO_ROOM = 4,
    /* cleaning leaves fewer than two points */
    RUMMYTEAK_TOO_FEW_KEPT = 5,
    /* neighbouring points no farther apart than the section tolerance, or summed lengths that don't strictly rise */
    RUMMYTEAK_NOT_SPACED = 6,
    /* fewer than two circles where two are needed */
    RUMMYTEAK_TOO_FEW_CIRCLES = 7,
    /* a line asked for directly, or a start line, has not exactly two hits */
    RUMMYTEAK_NO_CROSSING = 8,
    /* a length along below 0 or above the whole */
    RUMMYTEAK_OFF_CURVE = 9,
    /* a line to be halved is too long for the tolerance */
    RUMMYTEAK_TOO_LONG = 10,
    /* a vector to be normalised has length zero; by curvature, a camber line's ends lie within its tolerance of each other */
    RUMMYTEAK_ZERO_LENGTH = 11,
    /* a value on the way is infinite or NaN */
    RUMMYTEAK_NOT_FINITE = 12,
    /* the advance finds no line */
    RUMMYTEAK_NO_ADVANCE = 13,
    /* spent: one more unit is wanted than the limit */
    RUMMYTEAK_SPENT = 14,
    /* a circle would be accepted and no slot is free */
    RUMMYTEAK_STORE_FULL = 15,
    /* a 65th circle would wait in a refinement */
    RUMMYTEAK_STACK_FULL = 16,
    /* open edge asked of a closed section */
    RUMMYTEAK_CLOSED_SECTION = 17,
    /* a gap end projects below zero on the camber ray */
    RUMMYTEAK_GAP_BEHIND = 18,
    /* camber ray and gap are parallel */
    RUMMYTEAK_GAP_PARALLEL = 19,
    /* the ray meets the gap's line at a fraction of 0 or less, or outside the gap */
    RUMMYTEAK_GAP_MISSED = 20,
    /* a stretch between lengths nearer to each other than the section tolerance, whose end lies before its start on an open
     * section, or of under two points */
    RUMMYTEAK_EMPTY_STRETCH = 21,
    /* a split asked of the wrong kind of section: an open one of a closed section, or the other way round */
    RUMMYTEAK_WRONG_KIND = 22,
    /* a run with a general tolerance smaller than its section tolerance; tested straight after 3 */
    RUMMYTEAK_FINER_THAN_SECTION = 23,
    /* a hand-over record that ends early, or has bytes left over */
    RUMMYTEAK_RECORD_LENGTH = 24,
    /* a hand-over record's map with one of bits 9 to 15, or with a bit over a field that is all zero */
    RUMMYTEAK_RECORD_MAP = 25,
    /* bytes of stored numbers: a count that isn't a multiple of eight, or is above 73,728 */
    RUMMYTEAK_BYTE_COUNT = 26,
    /* a state with over 64 waiting circles or a bad one, none while refining, some while advancing, no circle in use, or, while
     * advancing, a fraction above 3 */
    RUMMYTEAK_BAD_STATE = 27
};

/* The state of a spent march: march and go_on write it with 14, and go_on reads it. It is all in these plain numbers, with no
 * pointer among them, so that it may be copied, kept, and written to a file byte by byte and read back by a program on the same
 * kind of machine. The layout is fixed: refining at offset 0, fraction at 8, count at 16 and waiting at 24, 4,632 bytes in all,
 * and no byte between them; where the machine has the least significant byte of a number first, so do these bytes. Any content
 * of the bytes is taken: it is met by a result or a refusal.
 * A state is that of one march: of its section, its tolerances, its store with the circles in use, and its entry, the cell's or
 * the other. */
struct rummyteak_march_state {
    /* 0 while advancing, any other number while refining; 1 is written */
    uint64_t refining;
    /* while advancing, the number of the fraction that is due, 0 to 3; while refining 0 is written, and it is not read */
    uint64_t fraction;
    /* how many circles wait: 1 to RUMMYTEAK_WAITING while refining, 0 while advancing */
    uint64_t count;
    /* the waiting circles, packed from the start on as in a store, the newest last; the one whose trial is due is among them.
     * What stands behind them is +0 when written, and not read */
    double waiting[RUMMYTEAK_WAITING * RUMMYTEAK_WIDTH];
};

/* ---- the square root */

/* The correctly rounded root of x: 2 where x isn't finite, 12 below zero. */
uint32_t rummyteak_sqrt(double x, double *root);

/* ---- cleaning */

/* Cleans points into out (points_len + 2 numbers at least): how many points were kept, and whether the curve is closed. */
uint32_t rummyteak_from_points(const double *points, size_t points_len, double tol, bool force_closed, double *out,
                               size_t out_len, size_t *count, bool *is_closed);

/* A section's points backwards, into out (points_len numbers at least). */
uint32_t rummyteak_reversed(const double *points, size_t points_len, double tol, double *out, size_t out_len,
                            size_t *count, bool *is_closed);

/* ---- a section */

/* Whether the ends meet within the tolerance. */
uint32_t rummyteak_is_closed(const double *section, size_t section_len, double tol, bool *is_closed);

/* The length of the whole. */
uint32_t rummyteak_length(const double *section, size_t section_len, double tol, double *length);

/* Stations: station is 5 numbers, point x, y, direction x, y and the fraction of the edge; index is the edge. */
uint32_t rummyteak_at_front(const double *section, size_t section_len, double tol, double *station, size_t *index);
uint32_t rummyteak_at_back(const double *section, size_t section_len, double tol, double *station, size_t *index);
uint32_t rummyteak_at_vertex(const double *section, size_t section_len, double tol, size_t vertex, double *station,
                             size_t *index);
uint32_t rummyteak_at_length(const double *section, size_t section_len, double tol, double length, double *station,
                             size_t *index);
uint32_t rummyteak_at_closest_to_point(const double *section, size_t section_len, double tol, double x, double y,
                                       double *station, size_t *index);

/* The length along of a fraction of an edge. */
uint32_t rummyteak_length_along(const double *section, size_t section_len, double tol, size_t index, double fraction,
                                double *length);

/* Where a line crosses the section: crossing is 4 numbers, origin and direction from the first hit to the second; edges is 2,
 * the edges of the first hit and the second. The joined crossing counts a hit nearer than 1e-8 to the last kept one as one
 * with it where their edges are neighbours, as last and first edge of a closed section are, and tells the kept hits' edges. */
uint32_t rummyteak_crossing_line(const double *section, size_t section_len, double tol, double ox, double oy, double dx,
                                 double dy, double *crossing, size_t *edges);
uint32_t rummyteak_joined_crossing(const double *section, size_t section_len, double tol, double ox, double oy,
                                   double dx, double dy, double *crossing, size_t *edges);

/* ---- a stretch of a section, of at most RUMMYTEAK_CLEANED points, into out (section_len + 2 numbers at least)
 *
 * The piece is cleaned: how many points it has, whether it is closed, and how many points it was given before cleaning, which
 * is one more than the section has, at most. */

/* The part from the length l0 along to l1. Of a closed section it runs over the seam where the end's length along, as worked out
 * from its edge and fraction, lies before the start's. These are l1 and l0 but for rounding: where l1 is below l0 by so little that
 * both come out the same, there is no way round, but 21 or a piece of almost no length. */
uint32_t rummyteak_between_lengths(const double *section, size_t section_len, double tol, double l0, double l1,
                                   double *out, size_t out_len, size_t *count, bool *is_closed, size_t *given);

/* A split in two: counts, are_closed and given are 2 each, for the piece in out0 and the one in out1. A refusal of either piece
 * leaves both outputs alone. */
uint32_t rummyteak_split_open_at_length(const double *section, size_t section_len, double tol, double at, double *out0,
                                        size_t out0_len, double *out1, size_t out1_len, size_t *counts,
                                        bool *are_closed, size_t *given);
uint32_t rummyteak_split_closed_at_lengths(const double *section, size_t section_len, double tol, double l0, double l1,
                                           double *out0, size_t out0_len, double *out1, size_t out1_len, size_t *counts,
                                           bool *are_closed, size_t *given);

/* ---- one circle or two; circle, a and b are RUMMYTEAK_WIDTH numbers */

/* The circle of a line that is a crossing. */
uint32_t rummyteak_inscribed_from_crossing(const double *section, size_t section_len, double section_tol, double tol,
                                           double ox, double oy, double dx, double dy, double *circle);

/* The circle on a line, and the 2 edges of the line's crossing. */
uint32_t rummyteak_try_inscribed(const double *section, size_t section_len, double section_tol, double tol, double ox,
                                 double oy, double dx, double dy, double *circle, size_t *edges);

/* The trial between two circles, a the earlier: whether one is to be added, and then which. */
uint32_t rummyteak_inscribed_refined(const double *section, size_t section_len, double section_tol, double tol,
                                     const double *a, const double *b, double *circle, bool *added);

/* ---- runs within a limit of units; these, and the fit of the open edge, are 23 where tol is smaller than section_tol */

/* Offers a circle to a store that holds `stated`, and refines until none waits. */
uint32_t rummyteak_refine_and_push(const double *section, size_t section_len, double section_tol, double tol,
                                   double *store, size_t store_len, size_t stated, const double *circle, uint32_t limit,
                                   size_t *count, uint32_t *units);

/* The circles on one side of a line, and on both sides. The store's content doesn't count. A march that was not refused on
 * entry writes found, whether its line has a crossing, and where it has one the crossing's 2 edges, whichever way it ends. Where
 * it is spent (14) it writes its state, from which go_on goes on; with every other number the state stays as it was. */
uint32_t rummyteak_march(const double *section, size_t section_len, double section_tol, double tol, double ox, double oy,
                         double dx, double dy, double *store, size_t store_len, uint32_t limit, size_t *count,
                         uint32_t *units, size_t *edges, bool *found, struct rummyteak_march_state *state);
uint32_t rummyteak_extract_circles(const double *section, size_t section_len, double section_tol, double tol, double ox,
                                   double oy, double dx, double dy, double *store, size_t store_len, uint32_t limit,
                                   size_t *count, uint32_t *units);

/* The entries for the cell: a store holds at most RUMMYTEAK_CELL_SLOTS circles, however long it is, and all else is as above.
 * The 257th circle that would be accepted is 15. 2 tests the circles in use, and 4 the stated count, by these slots too: a stated
 * count of 257 is 4, and the 257th circle is not looked at, so that a bad one is 4 where refine_and_push says 2. What stands in
 * the store behind slot 256 is neither read nor written.
 * With a stated count of at most RUMMYTEAK_CELL_SLOTS: where the run above leaves no more circles than that, both are alike in
 * all: the number, count and units, the edges, every bit of the store, and the state of a spent march. Else the cell's ends in 15
 * with RUMMYTEAK_CELL_SLOTS circles, the first ones of the run above bit for bit, within its units, with the same edges, and the
 * store behind them is as it was. This holds at every limit, the same for both.
 * Extraction and the fit of the open edge have no entry for the cell, and what is asked of a list of circles needs none, nor does
 * a thinning: a store that was filled here is handed to those functions as it is. They hold up to RUMMYTEAK_SLOTS. */
uint32_t rummyteak_refine_and_push_cell(const double *section, size_t section_len, double section_tol, double tol,
                                        double *store, size_t store_len, size_t stated, const double *circle,
                                        uint32_t limit, size_t *count, uint32_t *units);
uint32_t rummyteak_march_cell(const double *section, size_t section_len, double section_tol, double tol, double ox,
                              double oy, double dx, double dy, double *store, size_t store_len, uint32_t limit,
                              size_t *count, uint32_t *units, size_t *edges, bool *found,
                              struct rummyteak_march_state *state);

/* Goes on with a march that was spent (14): from the state that it wrote, in the store that it left, where stated is the count
 * that it wrote, within a second limit of units. The state is read; where this run is spent too its state is written in its place,
 * and with every other number it stays as it was.
 * Tested on entry, in this order: 1; 2, of the section and of the circles in use as far as the store holds them; 3; 23; 4, a
 * stated count above what the store holds; 27, of the state and the stated count; 6. A refusal on entry writes nothing. A
 * waiting circle that fails the test of 2 is 27.
 * While refining it goes on with the trial of the newest waiting circle; while advancing it begins with the stop test again, and
 * then takes the due fraction. From there on it is the march: it ends with a result, is spent (14), or is refused later (10, 11,
 * 12, 13, 15, 16). It keeps the circles that it accepts in the slots behind those in use, later slots untouched. count is how
 * many circles are in use then, and units are those of this call alone.
 * A march with the limit a that is spent, and then a going on with the limit b, are one march with the limit a + b, where that is
 * no more than UINT32_MAX, and where the going on has the entry of the march, its section and both tolerances, and the store, as
 * long as it was, and the state as the march left them: both end with the same number and the same count, with every bit of the
 * store the same, and where they are spent with the same state, bit for bit; the units of the march and of the going on add up to
 * those of the one march. The same holds of a going on that is spent and the going on from its state, so that a march may be
 * taken in any number of pieces. With the limit 0 a going on from the state of a spent march, or of a spent going on, is spent
 * with no unit, and leaves state and store as they were. The edges come with the march alone, spent or not.
 * Go on after 14, with which a state always comes, one that is none of 27 with the count that comes with it. A refusal on entry
 * leaves state and store as they were, so that the call may be made again as it was meant. After a result, or a refusal behind
 * the entry tests, the march is over: the state is still the one that was handed in, and no longer that of the store. With that
 * one, with one made by hand, or with another section, tolerance, store or entry, this call is a result or a refusal as any other
 * is; what is promised of a march in pieces is not promised of it. */
uint32_t rummyteak_go_on(const double *section, size_t section_len, double section_tol, double tol, double *store,
                         size_t store_len, size_t stated, struct rummyteak_march_state *state, uint32_t limit,
                         size_t *count, uint32_t *units);

/* The same by the entry for the cell, by which a march of march_cell goes on: the store holds at most RUMMYTEAK_CELL_SLOTS
 * circles, however long it is, and 2, 4 and 15 go by these slots, as in refine_and_push_cell. With a stated count of at most
 * RUMMYTEAK_CELL_SLOTS both entries are alike, or the cell's ends in 15, as those of a march. */
uint32_t rummyteak_go_on_cell(const double *section, size_t section_len, double section_tol, double tol, double *store,
                              size_t store_len, size_t stated, struct rummyteak_march_state *state, uint32_t limit,
                              size_t *count, uint32_t *units);

/* Offers the circles of a list in order to a store that holds `stated`, each refined until none waits before the next is offered,
 * within one limit of units over all: what planning calls with an old list after a changeover.
 * The list is a store of its own, offered, which is only read; the first offered_count of its circles are offered. It holds its
 * length / RUMMYTEAK_WIDTH circles, and at most RUMMYTEAK_SLOTS, by the entry for the cell too.
 * Tested on entry, in this order: 1; 2, of the section, of the circles in use of the store and of the circles of the list that are
 * offered, of each as far as it holds them; 3; 23; 4, a stated count above what the store holds, or an offered count above what
 * the list holds; 6.
 * All of this is tested before the first circle is offered, and a refusal on entry writes nothing.
 * Each circle is refined as by refine_and_push, with the store and the count that the one before left and the units that are left.
 * A result: all were offered, count is how many circles are in use then, and units are those of all together. With no circle in
 * the list the store is as it was, count is the stated count, and no unit is taken.
 * Spent (14) or refused later (10, 11, 12, 15, 16): no circle behind that one is offered. The store keeps the circles that were
 * accepted, later slots untouched, and count and units are written. The circles of a spent call are the first ones, bit for bit,
 * of the same call under any larger limit; an ending other than 14 is the same at every larger limit, in all.
 * The circles that a march left that was not refused on entry, by either entry and whichever way it ended then, finished, spent or
 * refused later: offered to an empty store with as many slots, by the same entry, with the march's section and tolerances and a
 * limit of at least one unit fewer than there are circles, they are a result with the same circles, bit for bit, for one unit fewer than there are circles, and none
 * where there are none. What stands behind them in the store stays. Of an extraction that is not promised: circles may be added
 * where its halves meet, and in its first half, which was turned. */
uint32_t rummyteak_refine_all(const double *section, size_t section_len, double section_tol, double tol, double *store,
                              size_t store_len, size_t stated, const double *offered, size_t offered_len,
                              size_t offered_count, uint32_t limit, size_t *count, uint32_t *units);

/* The same for the cell: the store holds at most RUMMYTEAK_CELL_SLOTS circles, however long it is, and 2, 4 and 15 go by these
 * slots, as in refine_and_push_cell. The list may hold up to RUMMYTEAK_SLOTS. */
uint32_t rummyteak_refine_all_cell(const double *section, size_t section_len, double section_tol, double tol,
                                   double *store, size_t store_len, size_t stated, const double *offered,
                                   size_t offered_len, size_t offered_count, uint32_t limit, size_t *count,
                                   uint32_t *units);

/* Thins the circles of a store that holds `stated`, as a finished march left them: with the section and the tolerances of the
 * march.
 * Tested on entry, in this order: 1; 2, of the section and of the circles in use as far as the store holds them; 3; 23; 4, a
 * stated count above what the store holds, which is RUMMYTEAK_SLOTS at most; 6. A refusal on entry writes nothing.
 * It goes from the front. A circle between the first and the last is dropped where the trial of the last kept circle before it,
 * as a, and the circle behind it, as b, adds none (inscribed_refined); else it is kept. The first and the last circle are kept.
 * Each trial is one unit, taken before the trial: a thinning that finishes takes as many units as there are circles between the
 * first and the last, and none where there are fewer than three circles.
 * A result: the kept circles stand from the store's start on, in their order and without gaps, each of their numbers as it was,
 * bit for bit. All nine numbers of each slot that is freed are +0. What stood behind the stated count stays. count is how many
 * circles were kept.
 * Spent (14), or refused in a trial (10, 11, 12): the whole store is as it was, count is the stated count, and units those that
 * were taken, that of the refused trial too.
 * If no neighbouring pair would be refined before, which is to say that the trial of each circle and the one behind it adds none,
 * no neighbouring pair would be refined after. A limit alters nothing: a thinning is spent exactly where it would take more units
 * than the limit, and is else the same at every limit. Circles that were thinned may become fewer still by a second thinning.
 * The slots that are freed are free for a refinement that is handed the store with the new count: refine_and_push writes the
 * circles that it accepts into them, from the first one on. There is no entry for the cell: a store that was filled by one is
 * handed in as it is. */
uint32_t rummyteak_thin(const double *section, size_t section_len, double section_tol, double tol, double *store,
                        size_t store_len, size_t stated, uint32_t limit, size_t *count, uint32_t *units);

/* ---- a list of circles */

/* The first and the last circle, RUMMYTEAK_WIDTH numbers each. */
uint32_t rummyteak_front_and_back(const double *store, size_t store_len, size_t count, double *front, double *back);

/* The place of the thickest circle, the last of equal ones. */
uint32_t rummyteak_index_of_tmax(const double *store, size_t store_len, size_t count, size_t *place);

/* The average distance of neighbouring centres. */
uint32_t rummyteak_average_spacing(const double *store, size_t store_len, size_t count, double *spacing);

/* The clip line at the last circles: 4 numbers. */
uint32_t rummyteak_end_clip_line(const double *store, size_t store_len, size_t count, double *line);

/* Both contacts of each circle swapped with their lengths along, the order turned, or both. */
uint32_t rummyteak_reverse_points(double *store, size_t store_len, size_t count);
uint32_t rummyteak_reverse_order_only(double *store, size_t store_len, size_t count);
uint32_t rummyteak_reverse_order(double *store, size_t store_len, size_t count);

/* The circles from a place on stand at store + first, in so many numbers. */
uint32_t rummyteak_circles_from(const double *store, size_t store_len, size_t count, size_t place, size_t *first,
                                size_t *numbers);

/* ---- camber curves, into out (the points' numbers and two more at least) */

/* Through the centres. */
uint32_t rummyteak_camber_curve(const double *store, size_t store_len, size_t count, double tol, double *out,
                                size_t out_len, size_t *kept, bool *is_closed);

/* From the leading edge point through the centres to the trailing edge point. */
uint32_t rummyteak_make_camber_curve(double le_x, double le_y, double te_x, double te_y, const double *store,
                                     size_t store_len, size_t count, double tol, double *out, size_t out_len,
                                     size_t *kept, bool *is_closed);

/* ---- orientation: the store is turned, and the answer says whether it was */

/* Leading edge first: by the greatest radius, by a vector along the airflow, or by one that points forward. */
uint32_t rummyteak_orient_tmax_fwd(double *store, size_t store_len, size_t count, bool *turned);
uint32_t rummyteak_orient_airflow(double x, double y, double *store, size_t store_len, size_t count, bool *turned);
uint32_t rummyteak_orient_fwd(double x, double y, double *store, size_t store_len, size_t count, bool *turned);

/* Second contact on the upper side: by the side to which the camber bends, by a vector to the upper side, or by one to the lower.
 * By curvature a camber line whose ends lie within its tolerance of each other is 11. It is the curve through the centres, and its
 * tolerance a twentieth of the average distance of neighbouring ones. */
uint32_t rummyteak_orient_curvature(double *store, size_t store_len, size_t count, bool *swapped);
uint32_t rummyteak_orient_upper(double x, double y, double *store, size_t store_len, size_t count, bool *swapped);
uint32_t rummyteak_orient_lower(double x, double y, double *store, size_t store_len, size_t count, bool *swapped);

/* ---- the open edge */

/* Whether the section is open at one end of its circles. */
uint32_t rummyteak_is_open_at_end(const double *section, size_t section_len, double section_tol, double tol,
                                  const double *store, size_t store_len, size_t count, bool at_front, bool *is_open);

/* The point where the camber line meets the gap (2 numbers), and the circles on the way to it. */
uint32_t rummyteak_fit_open_edge(const double *section, size_t section_len, double section_tol, double tol,
                                 double *store, size_t store_len, size_t stated, bool at_front, uint32_t limit,
                                 double *point, size_t *count, uint32_t *units);

/* ---- the hand-over record: circles as one string of bytes, the least significant byte of each number first
 *
 * A 16-bit count; then per circle a 16-bit map, bit 0 for centre x and so on to bit 8 in stored order, and eight bytes for each
 * number whose bit stands. A bit stands where the number's 64 bits are not all zero: -0 is written, and a clear bit is +0. */

/* The circles in use of a store, into out (2 bytes and 74 for each circle are always enough): how many bytes were written.
 * 4 for a count that the store doesn't hold or an out shorter than this record, then 2 for a bad circle. */
uint32_t rummyteak_write_record(const double *store, size_t store_len, size_t count, uint8_t *out, size_t out_len,
                                size_t *written);

/* A record's circles, into the store from its start on: how many they are. The bytes are all of the record and nothing else.
 * From the front: 24 where a count, a map or a field is cut off, 4 for a count above the store's slots, 25 for one of bits 9 to
 * 15 or a field that is all zero, 2 for a bad number; bytes left over are 24, last. The store changes only where all was read. */
uint32_t rummyteak_read_record(const uint8_t *bytes, size_t bytes_len, double *store, size_t store_len, size_t *count);

/* ---- stored numbers as bytes, eight to a number, into out (as many bytes at least) */

/* Sorted by byte place, which archives store better: byte i of number k of n goes to place i * n + k. */
uint32_t rummyteak_shuffle(const uint8_t *bytes, size_t bytes_len, uint8_t *out, size_t out_len);

/* Back: byte i of number k of n comes from place i * n + k. */
uint32_t rummyteak_unshuffle(const uint8_t *bytes, size_t bytes_len, uint8_t *out, size_t out_len);

/* The turn by which both move eight numbers at a time: of 8 words, byte i of word k, counted from the least significant,
 * becomes byte k of word i. It refuses nothing. */
uint32_t rummyteak_transpose_words(uint64_t *words);

#ifdef __cplusplus
}
#endif

#endif
