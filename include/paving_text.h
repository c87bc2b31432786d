/* A job's text in, the answer's text out: what the program pave does with standard input and standard output.
 *
 * What paving.h says of slices, threads and the caller's part holds here too. Its stack:
 * 202,103 bytes were the most that was measured (oracle/compare stack, over 2,000 texts), the job's own buffers among them, so
 * that a thread with 256 KiB gets an answer.
 */
#ifndef PAVING_TEXT_H
#define PAVING_TEXT_H

#include <stddef.h>
#include <stdint.h>

#ifdef __cplusplus
extern "C" {
#endif

/* A longer text is refused with number 11. */
#define PAVE_MOST_TEXT 65536

/* How long the output has to be. No answer is that long. */
#define PAVE_TEXT_ROOM 270336

/* Reads the job's text, paves it with the default options, writes the answer's text to output, zeros behind it, and answers the
 * text's length. A refused job's text is the word refused, a tab, the number and a line end. Where output is shorter than
 * PAVE_TEXT_ROOM, nothing is written, and the answer is 0. */
uint64_t pave_text(const uint8_t *input, size_t input_len, uint8_t *output, size_t output_len);

#ifdef __cplusplus
}
#endif

#endif
