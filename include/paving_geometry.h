/* The measures that the paving works with: the square root, sides, rings, quads, outlines and fronts.
 *
 * What paving.h says of slices, threads and the caller's part holds here too. A point is passed as its two coordinates. A ring
 * is a slice of coordinates, x then y of each point; the last number counts for nothing where it has no partner. No call
 * refuses: where numbers do not fit together the answer is NaN or false, as each call says. A NaN answer may have any payload.
 */
#ifndef PAVING_GEOMETRY_H
#define PAVING_GEOMETRY_H

#include <stdbool.h>
#include <stddef.h>
#include <stdint.h>

#ifdef __cplusplus
extern "C" {
#endif

/* ---- Numbers, sides and quads ---- */

/* The square root: the double nearest to the exact root. */
double pave_root(double x);

/* The length of the side from a to b. */
double pave_side_length(double ax, double ay, double bx, double by);

/* The distance from (x, y) to the side from a to b. A side whose squared length is at most `shortest` counts as a point. */
double pave_segment_distance(double shortest, double x, double y, double ax, double ay, double bx, double by);

/* Whether the open sides from a to b and from c to d cross. */
bool pave_segments_cross(double ax, double ay, double bx, double by, double cx, double cy, double dx, double dy);

/* The corner test of the quad a b c d with the default limit: every corner value is finite and above 0.08715574274765817, the
 * sine of 5 degrees. */
bool pave_corners_pass(double ax, double ay, double bx, double by, double cx, double cy, double dx, double dy);

/* The least corner value of the quad a b c d: at each corner the cross product of its two sides over their lengths. */
double pave_least_corner(double ax, double ay, double bx, double by, double cx, double cy, double dx, double dy);

/* The signed area of the quad a b c d, positive when it runs counter-clockwise. */
double pave_quad_area(double ax, double ay, double bx, double by, double cx, double cy, double dx, double dy);

/* ---- Rings ---- */

/* The signed area of a ring, positive when it runs counter-clockwise. */
double pave_signed_area(const double *points, size_t points_len);

/* Whether (x, y) is within a ring. */
bool pave_in_polygon(double x, double y, const double *points, size_t points_len);

/* Whether the corner at place i of a ring is sharp, which is a turn above 30 degrees. False where the ring has no such place. */
bool pave_sharp_at(const double *points, size_t points_len, size_t i);

/* ---- Outlines: coords and loop_lengths as in a job ---- */

/* The area within the outer loop and outside the holes. NaN where the lengths ask for more points than there are. */
double pave_domain_area(const double *coords, size_t coords_len, const uint16_t *loop_lengths, size_t loop_lengths_len);

/* Whether (x, y) is within the outer loop and outside every hole. False where the lengths ask for more points than there are. */
bool pave_contains(double x, double y, const double *coords, size_t coords_len, const uint16_t *loop_lengths, size_t loop_lengths_len);

/* The distance from (x, y) to the nearest side. NaN where the lengths ask for more points than there are. */
double pave_distance_to_boundary(double x, double y, const double *coords, size_t coords_len, const uint16_t *loop_lengths, size_t loop_lengths_len);

/* ---- Fronts: node numbers, each of a point of a list of coordinates ---- */

/* The length of a front. NaN where a node number is not that of a point. */
double pave_front_length(const double *points, size_t points_len, const uint16_t *nodes, size_t nodes_len);

/* The distance from (x, y) to a front. NaN where a node number is not that of a point. */
double pave_front_distance(double x, double y, const double *points, size_t points_len, const uint16_t *nodes, size_t nodes_len);

/* Whether (x, y) is within a front. False where a node number is not that of a point. */
bool pave_in_front(double x, double y, const double *points, size_t points_len, const uint16_t *nodes, size_t nodes_len);

#ifdef __cplusplus
}
#endif

#endif
