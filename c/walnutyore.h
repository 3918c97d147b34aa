/*
 * Walnutyore for C: a bench list on a new dictionary, all in memory that the caller lends. No heap is used.
 *
 * What is proved, of the code behind this header and for any bytes and sizes: the text and the count below are as
 * described, nothing is read or written beyond the lengths that are passed, and the call returns.
 *
 * What is trusted: the toolchain that proves and compiles, and this caller. No C code is checked. Every pointer must be
 * valid for its length for the whole call, aligned for its type, and not null, even where the length is 0; and no two of
 * the five may overlap. The call needs 8 KiB of stack for the amounts, and some more to run, which no proof bounds.
 */
#ifndef WALNUTYORE_H
#define WALNUTYORE_H

#include <stddef.h>
#include <stdint.h>

#ifdef __cplusplus
extern "C" {
#endif

/*
 * Opens a dictionary, runs the lines of `lines` on it, and writes into `out` what the program `bench` prints for them: a
 * line for each line, and at the end `nodes N bytes B`.
 *
 *   map     14 * M bytes, M one of 16, 32, 64, .. 1024. There may be 9 * 16 / 10 nodes at first, and with each
 *           double (a line `D`) those of twice as many slots, up to 9 * M / 10
 *   labels  1 to 1048576 bytes for the labels of all tags
 *   starts  9 * M / 10 to 32768 elements, one for each label
 *   lines   the list; the last line may lack its byte 10
 *   out     what is printed, as far as it goes; bytes beyond it are left as they were. It is not closed by a byte 0
 *
 * The memory may hold anything, and every call begins anew in it; what it holds after a call is left open. In memory of
 * other sizes every line that is read gives `refused 13`. Where `map_len` is not 14 * M for an M of 16, 32, 64, .. 32768,
 * `map`, `labels` and `starts` are left as they were.
 *
 * Answers how many bytes are printed, whether they fit into `out` or not (it stops at SIZE_MAX): where that is more than
 * `out_len`, `out` holds the first `out_len` of them. A call with `out_len` 0 tells how large `out` must be.
 */
size_t walnutyore_answers(
    uint8_t *map, size_t map_len,
    uint8_t *labels, size_t labels_len,
    uint32_t *starts, size_t starts_len,
    const uint8_t *lines, size_t lines_len,
    uint8_t *out, size_t out_len);

#ifdef __cplusplus
}
#endif

#endif
