/* The check of a show image, for a host program in C or C++. */
#ifndef PLOT_IMAGE_H
#define PLOT_IMAGE_H

#include <stddef.h>
#include <stdint.h>

#ifdef __cplusplus
extern "C" {
#endif

/*
 * An image is 1 to 64 blocks of 512 bytes, numbered from 0, all of one kind. A block has its number at bytes 0-1 (low
 * byte first), its kind at 2, its mark at 3, zeros at 4-7, 31 rows of 16 bytes from 8 on, and its check at 504-511.
 *
 * Checks the `length` bytes at `bytes` as an image of the kind with this number: 1 level, 2 cue timing.
 *
 * Answers 0 where the image is sound. Otherwise it answers the first fault of the first block that has one, in the
 * order of this table, as one number: refusal + 256 x block + 65,536 x row. The row, 0 to 30, is told for 19 only.
 *
 *   14  the length is not that of 1 to 64 whole blocks (block 0)
 *   15  the block's number is not its place in the image
 *   16  the block is of another kind
 *   17  the block's mark, or one of the four bytes after it, is not 0
 *   18  the block's check does not fit: byte k of it is the exclusive or of the 63 bytes k, k + 8, .. k + 496
 *   19  a row of the block is not one that a value of the kind is stored as
 *
 * Any other kind number gets 16 with block 0, or 14 where the length is wrong too.
 *
 * `bytes` must not be NULL and must point to `length` readable bytes, which nothing else may write during the call.
 * Nothing is written or kept, and nothing is allocated.
 */
uint32_t plot_image_check(const uint8_t *bytes, size_t length, uint32_t kind);

#ifdef __cplusplus
}
#endif

#endif
