/* Paving of cradle plates: the calls on a job and on a state.
 *
 * Link with the archives target/staticlib/libexports*.a, which `tools/build` makes of each crate crates/exports*
 * (x86-64 Linux). They need memcpy and memset and nothing else. examples/square.c is a whole program. The measures of sides,
 * rings, quads and outlines are in paving_geometry.h, and the job's text in paving_text.h.
 *
 * A slice goes over as two parameters: its address, and how many elements it has (not how many bytes).
 *
 * What a caller has to see to, since no call can test it:
 *   - a slice is valid memory for all its elements, aligned for its type;
 *   - no address is NULL, also where the length is 0;
 *   - a slice that is written overlaps no other slice of the same call.
 * Nothing else is asked. Every call takes all contents of all slices, all lengths and all numbers, and ends.
 *
 * Threads: no call keeps anything between calls, and none reads or writes anything but what it is lent. Any number of threads
 * may call at once, each with buffers of its own.
 *
 * Stack: a call works on the caller's stack and takes no other memory. The most that was measured (oracle/compare stack, over
 * 2,019 jobs and 6,016 states, in threads of 256 KiB): pave_job 100,615 bytes, pave_sample 66,759, pave_row 37,911, pave_close
 * 6,087, pave_fan 5,431, and each call of paving_geometry.h at most 263.
 */
#ifndef PAVING_H
#define PAVING_H

#include <stdbool.h>
#include <stddef.h>
#include <stdint.h>

#ifdef __cplusplus
extern "C" {
#endif

/* ---- Sizes ---- */

/* How many elements each lent buffer must have. Another length is number 1. */
#define PAVE_POINT_PLACES 8192        /* double: x, then y, of each point */
#define PAVE_QUAD_PLACES 16384        /* uint16_t: four node numbers of each quad */
#define PAVE_FRONT_NODE_PLACES 2048   /* uint16_t: the nodes of all fronts, front after front */
#define PAVE_FRONT_LENGTH_PLACES 16   /* uint16_t: how many nodes each front has */
#define PAVE_COUNT_PLACES 8           /* uint64_t: the counts, a struct pave_counts */

/* The most that a job may bring, and that an answer may have. */
#define PAVE_MOST_LOOPS 16
#define PAVE_MOST_PAIRS 2048          /* of coordinates, over all loops */
#define PAVE_MOST_SAMPLED 2048        /* nodes that sampling plans, over all loops */
#define PAVE_MOST_POINTS 4096
#define PAVE_MOST_QUADS 4096
#define PAVE_MOST_FRONTS 16
#define PAVE_MOST_PASSES 64

/* ---- The options ---- */

/* The defaults, each, and all six in the order of the calls' parameters. */
#define PAVE_CORNER_MARGIN 2.4        /* what a sharp corner takes from each of its sides in sampling, in sizes h */
#define PAVE_MIN_EDGE_FRACTION 0.08   /* the shortest side of a new row, in sizes h */
#define PAVE_FRONT_GAP 1.2            /* the least distance of a new row to another front, in sizes h */
#define PAVE_MAX_ROW_ROUNDS 32        /* the most passes */
#define PAVE_CORNER_LIMIT 0.08715574274765817 /* what every corner value of a quad has to be above: the sine of 5 degrees */
#define PAVE_DEFAULT_OPTIONS PAVE_CORNER_MARGIN, PAVE_MIN_EDGE_FRACTION, PAVE_FRONT_GAP, PAVE_MAX_ROW_ROUNDS, false, PAVE_CORNER_LIMIT

/* The corner test: at each corner of a quad the cross product of its two sides, divided by the product of their lengths, is
 * finite and above corner_limit. Every row, closing and fan tests its own quads so, with the limit of its own call; quads that
 * were there are not tested again, and two calls on one state may have two limits. */

/* ---- The counts ---- */

/* The eight counts of an answer, laid out as a slice of eight uint64_t: pass its address and PAVE_COUNT_PLACES. */
typedef struct pave_counts {
    uint64_t points;
    uint64_t quads;        /* row_quads and core_quads together */
    uint64_t fronts;       /* fronts that remain */
    uint64_t row_quads;    /* quads of rows and closings */
    uint64_t core_quads;   /* quads of the fan */
    uint64_t row_rounds;   /* rows laid */
    uint64_t passes_begun; /* passes begun; only a job changes it */
    uint64_t laid;         /* the quads when the rows stopped */
} pave_counts;

#ifdef __cplusplus
static_assert(sizeof(pave_counts) == PAVE_COUNT_PLACES * sizeof(uint64_t), "eight uint64_t without gaps");
#else
_Static_assert(sizeof(pave_counts) == PAVE_COUNT_PLACES * sizeof(uint64_t), "eight uint64_t without gaps");
#endif

/* ---- The numbers ---- */

/* A call answers PAVE_DONE, or the number of the first test that refuses it. Each call below names its numbers in the order of
 * its tests. docs/NUMBERS.md says for each number what it means at the drawing board, what to do about it, and gives a plate
 * that it refuses. */
enum {
    PAVE_DONE = 0,
        /* The call was accepted. */
    /* the job */
    PAVE_SHAPE = 1,
        /* A buffer has a wrong length; or there are not 1 to 16 loops; or the coordinates are odd in number, are not those of
         * the loop lengths, or are over 2,048 pairs. */
    PAVE_SIZE = 2,
        /* The size h is not finite, or not above 0. */
    PAVE_OPTION = 3,
        /* The size is outside 0.001 to 1,000,000; corner_margin or front_gap outside 0 to 100; min_edge_fraction outside 0 to
         * 1; the passes over 64; seam is true; or corner_limit outside 0.02 to 0.9. A NaN is outside. */
    PAVE_OUTER = 4,
        /* The outer loop has fewer than three points. */
    PAVE_COORDINATE = 5,
        /* A coordinate is not finite, or over 1,000,000 in magnitude. */
    PAVE_AREA = 6,
        /* The outline's area is not positive: the outer loop runs clockwise, or the holes take all of it. */
    /* each loop, in sampling */
    PAVE_LOOP = 7,
        /* A loop has fewer than three points, those that are closer than 0.001 * h counted as one. */
    PAVE_NODES = 10,
        /* The loops come to more than 2,048 nodes at this size. */
    /* the job's text */
    PAVE_TEXT = 11,
        /* The text is not a job. Only the program pave and pave_text answer this. */
    /* a state that is given back */
    PAVE_FRONT = 20,
        /* Row: there is no front of that number. */
    PAVE_FULL = 21,
        /* The result would have more than 4,096 points or 4,096 quads. */
    PAVE_ROW = 22,
        /* Row: the row fails one of its checks. */
    PAVE_FRONTS = 23,
        /* Fan: there is more than one front. */
    PAVE_FAN_NODES = 24,
        /* Fan: the front has under four nodes, or an odd number. */
    PAVE_STATE = 25,
        /* The state given back is not one: a count too large, a front under three nodes, a node that is no point or stands
         * twice in fronts, a coordinate not finite or over 1,000,000,000, or counts that do not agree. */
    PAVE_FAN_CENTRE = 26,
        /* Fan: no point of the search is inside both the front and the plate. */
    PAVE_FAN_CORNER = 27,
        /* Fan: a quad of the fan fails the corner test. */
    /* a tile list's text; only the program recheck and pave_recheck answer these */
    PAVE_LIST = 30,
        /* The text is not a tile list. */
    PAVE_PAIR = 31,
        /* A pair of nodes is counted neither never nor twice. */
    PAVE_LIST_CORNER = 32
        /* A quad fails the corner test. */
};

/* ---- The calls on a job ---- */

/* The job: coords has x, then y, of each point, loop after loop; loop_lengths has the number of points of each loop, the outer
 * one first and counter-clockwise, then the holes, in any direction. h is the size of a tile. Then the six options.
 *
 * The results: quad i has the nodes quads[4 i] to quads[4 i + 3], and node n is the point points[2 n], points[2 n + 1]. Front k
 * has the front_lengths[k] nodes that follow those of the fronts before it in front_nodes.
 *
 * What the buffers held before counts for nothing. Accepted: the places behind the counts are 0. Refused: every place of all
 * five buffers is 0, whatever their lengths. */

/* The loops sampled into nodes: each is a front, no quad is laid. A point is dropped when it differs by less than 0.001 * h, in x
 * and in y, from the last point that was kept; then last points that differ so little from the first. Numbers 1 to 6, then for
 * each loop in turn 7, 10. */
uint32_t pave_sample(
    const double *coords, size_t coords_len,
    const uint16_t *loop_lengths, size_t loop_lengths_len,
    double h,
    double corner_margin, double min_edge_fraction, double front_gap, uint64_t max_row_rounds, bool seam, double corner_limit,
    double *points, size_t points_len,
    uint16_t *quads, size_t quads_len,
    uint16_t *front_nodes, size_t front_nodes_len,
    uint16_t *front_lengths, size_t front_lengths_len,
    pave_counts *counts, size_t counts_len);

/* The whole job: sampling, passes of rows, closings. Numbers 1 to 6, then for each loop in turn 7, 10, then 21. */
uint32_t pave_job(
    const double *coords, size_t coords_len,
    const uint16_t *loop_lengths, size_t loop_lengths_len,
    double h,
    double corner_margin, double min_edge_fraction, double front_gap, uint64_t max_row_rounds, bool seam, double corner_limit,
    double *points, size_t points_len,
    uint16_t *quads, size_t quads_len,
    uint16_t *front_nodes, size_t front_nodes_len,
    uint16_t *front_lengths, size_t front_lengths_len,
    pave_counts *counts, size_t counts_len);

/* ---- The calls on a state ---- */

/* The state is what an accepted call left in the five buffers, or one that the caller put together. It is given back with the
 * job, whose numbers 1 to 6 are tested first, then PAVE_STATE. The places behind the counts are not read.
 *
 * Accepted: the places behind the new counts are 0. Refused: nothing is changed. */

/* One row laid on front `front`, counted from 0; the new front takes its place. Numbers 1 to 6, 25, 20, 22, 21. */
uint32_t pave_row(
    const double *coords, size_t coords_len,
    const uint16_t *loop_lengths, size_t loop_lengths_len,
    double h,
    double corner_margin, double min_edge_fraction, double front_gap, uint64_t max_row_rounds, bool seam, double corner_limit,
    uint64_t front,
    double *points, size_t points_len,
    uint16_t *quads, size_t quads_len,
    uint16_t *front_nodes, size_t front_nodes_len,
    uint16_t *front_lengths, size_t front_lengths_len,
    pave_counts *counts, size_t counts_len);

/* The fronts of four and six nodes closed, where the quads pass the corner test; the others are kept. Numbers 1 to 6, 25, 21. */
uint32_t pave_close(
    const double *coords, size_t coords_len,
    const uint16_t *loop_lengths, size_t loop_lengths_len,
    double h,
    double corner_margin, double min_edge_fraction, double front_gap, uint64_t max_row_rounds, bool seam, double corner_limit,
    double *points, size_t points_len,
    uint16_t *quads, size_t quads_len,
    uint16_t *front_nodes, size_t front_nodes_len,
    uint16_t *front_lengths, size_t front_lengths_len,
    pave_counts *counts, size_t counts_len);

/* The one front filled by quads round a centre; with no front it is done and adds nothing. Numbers 1 to 6, 25, 23, 24, 26, 21, 27. */
uint32_t pave_fan(
    const double *coords, size_t coords_len,
    const uint16_t *loop_lengths, size_t loop_lengths_len,
    double h,
    double corner_margin, double min_edge_fraction, double front_gap, uint64_t max_row_rounds, bool seam, double corner_limit,
    double *points, size_t points_len,
    uint16_t *quads, size_t quads_len,
    uint16_t *front_nodes, size_t front_nodes_len,
    uint16_t *front_lengths, size_t front_lengths_len,
    pave_counts *counts, size_t counts_len);

#ifdef __cplusplus
}
#endif

#endif
