/* Paves document 01's square, of side 3 mm with tiles of 1 mm, and prints the answer as the program pave does.
 *
 *     tools/build
 *     gcc -Iinclude examples/square.c target/staticlib/libexports*.a -o target/square
 */
#include <inttypes.h>
#include <stdio.h>
#include <string.h>

#include "paving.h"

static double points[PAVE_POINT_PLACES];
static uint16_t quads[PAVE_QUAD_PLACES];
static uint16_t front_nodes[PAVE_FRONT_NODE_PLACES];
static uint16_t front_lengths[PAVE_FRONT_LENGTH_PLACES];
static pave_counts counts;

static uint64_t bits(double x)
{
    uint64_t b;
    memcpy(&b, &x, sizeof b);
    return b;
}

int main(void)
{
    const double coords[] = {0, 0, 3000, 0, 3000, 3000, 0, 3000};
    const uint16_t loop_lengths[] = {4};
    uint32_t number = pave_job(coords, 8, loop_lengths, 1, 1000, PAVE_DEFAULT_OPTIONS,
                               points, PAVE_POINT_PLACES, quads, PAVE_QUAD_PLACES,
                               front_nodes, PAVE_FRONT_NODE_PLACES, front_lengths, PAVE_FRONT_LENGTH_PLACES,
                               &counts, PAVE_COUNT_PLACES);
    if (number != PAVE_DONE) {
        printf("refused\t%" PRIu32 "\n", number);
        return 1;
    }
    printf("done\t%" PRIu64 "\t%" PRIu64 "\t%" PRIu64 "\t%" PRIu64 "\t%" PRIu64 "\t%" PRIu64 "\t%" PRIu64 "\t%" PRIu64 "\n",
           counts.points, counts.quads, counts.fronts, counts.row_quads, counts.core_quads, counts.row_rounds,
           counts.passes_begun, counts.laid);
    for (uint64_t n = 0; n < counts.points; n++)
        printf("p\t%016" PRIX64 "\t%016" PRIX64 "\n", bits(points[2 * n]), bits(points[2 * n + 1]));
    for (uint64_t i = 0; i < counts.quads; i++)
        printf("q\t%u\t%u\t%u\t%u\n", quads[4 * i], quads[4 * i + 1], quads[4 * i + 2], quads[4 * i + 3]);
    const uint16_t *node = front_nodes;
    for (uint64_t k = 0; k < counts.fronts; k++) {
        printf("f");
        for (unsigned i = 0; i < front_lengths[k]; i++)
            printf("\t%u", *node++);
        printf("\n");
    }
    return 0;
}
