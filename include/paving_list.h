/* A tile list's text in, the same text or a refusal out: what the program recheck does with standard input and standard output.
 *
 * A tile list is an s line of nodes for each sampled loop, then what the program pave prints for an accepted job.
 *
 * What paving.h says of slices, threads and the caller's part holds here too. Its stack: the call's own buffers have 254,016
 * bytes; what it takes in all was not measured. A thread with 512 KiB has room for twice the buffers.
 */
#ifndef PAVING_LIST_H
#define PAVING_LIST_H

#include <stddef.h>
#include <stdint.h>

#ifdef __cplusplus
extern "C" {
#endif

/* How long the output has to be. No list is that long. */
#define PAVE_LIST_ROOM 286720

/* Reads the list and tests it: it is written as pave writes it and says nothing that number 25 refuses (30), each pair of nodes
 * is counted never or twice over loops, quads and fronts (31), and each quad passes the corner test with the default limit (32).
 * An accepted list is written to output again, byte for byte, otherwise the word refused, a tab, the first such number and a
 * line end; zeros behind it. The answer is the text's length. Where output is shorter than PAVE_LIST_ROOM, nothing is written,
 * and the answer is 0. */
uint64_t pave_recheck(const uint8_t *input, size_t input_len, uint8_t *output, size_t output_len);

#ifdef __cplusplus
}
#endif

#endif
