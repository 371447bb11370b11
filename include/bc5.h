/* BC5 blocks: sixteen samples of each of two channels in sixteen bytes; a current map has an east and a north part. More calls of the library that bc4.h is
   for. The refusals, the options, what a call promises and what is the caller's part stand there.

   A block is the first channel's BC4 block and then the second's, both by one set of options. The samples of a channel stand together, not in turn with the
   other's. Each half of an answer is what bc4.h's call gives for that channel alone. What is different: encoded lengths are doubled, a call
   takes less than 5 KiB of stack, and BC4_SAMPLE_COUNT and BC4_SAMPLE_IS_NAN write into detail->what which channel they are about, BC4_FIRST_CHANNEL or
   BC4_SECOND_CHANNEL. The first channel is looked at before the second: where both have a NaN, it is the first channel's, at whatever index. A NaN in either
   refuses the whole call. */
#ifndef BC5_H
#define BC5_H

#include "bc4.h"

#ifdef __cplusplus
extern "C" {
#endif

/* Encodes sixteen samples of each channel, row by row and on the scale that bc4_encode_block has, into block[0..7] and block[8..15].
   Refuses BC4_SAMPLE_COUNT, BC4_SAMPLE_IS_NAN, BC4_WORD_MALFORMED. */
uint32_t bc5_encode_block(const float *first, size_t first_count, const float *second, size_t second_count, uint32_t options, uint8_t *block,
                          bc4_detail *detail);

/* Decodes sixteen bytes into first[0..15] and second[0..15], each sample in 0 to 1.
   Refuses BC4_ENCODED_LENGTH. */
uint32_t bc5_decode_block(const uint8_t *encoded, size_t encoded_length, bool snorm, float *first, float *second, bc4_detail *detail);

/* The block error of each channel, as bc4_block_error has it, into errors[0] and errors[1].
   Refuses BC4_SAMPLE_COUNT, BC4_ENCODED_LENGTH, BC4_SAMPLE_IS_NAN. */
uint32_t bc5_block_error(const float *first, size_t first_count, const float *second, size_t second_count, const uint8_t *encoded,
                         size_t encoded_length, bool snorm, float *errors, bc4_detail *detail);

/* Encodes sixteen samples of each channel afresh and writes into block[0..15] the bytes to hold from now on, each half by itself: the fresh one, with
   1 in its place of fresh[0..1], where its block error is strictly below that of the held one; else the held one, with 0. `block` is not `held`.
   Refuses BC4_SAMPLE_COUNT, BC4_ENCODED_LENGTH, BC4_DITHERED_RESEND, BC4_SAMPLE_IS_NAN, BC4_WORD_MALFORMED. */
uint32_t bc5_resend(const float *first, size_t first_count, const float *second, size_t second_count, const uint8_t *held, size_t held_length,
                    uint32_t options, uint8_t *block, uint8_t *fresh, bc4_detail *detail);

/* Encodes a tile of width * height samples of each channel, row by row, into the first width * height bytes of `out`, and that count into *written: its
   blocks, row by row from the top left, each as bc5_encode_block gives it. Later bytes of `out` stay as they are.
   Refuses BC4_SIDE_IS_ZERO, BC4_SIDE_TOO_LARGE, BC4_SIDE_NOT_MULTIPLE_OF_4, BC4_SAMPLE_COUNT, BC4_OUTPUT_LENGTH, BC4_SAMPLE_IS_NAN, BC4_WORD_MALFORMED. */
uint32_t bc5_encode_tile(const float *first, size_t first_count, const float *second, size_t second_count, size_t width, size_t height,
                         uint32_t options, uint8_t *out, size_t out_length, size_t *written, bc4_detail *detail);

/* Where in an encoded tile the block of a column and a row of blocks stands: its sixteen bytes are tile[*offset] to tile[*offset + 15].
   Refuses BC4_SIDE_IS_ZERO, BC4_SIDE_TOO_LARGE, BC4_SIDE_NOT_MULTIPLE_OF_4, BC4_ENCODED_LENGTH, BC4_NO_SUCH_BLOCK. */
uint32_t bc5_block_view(const uint8_t *tile, size_t tile_length, size_t width, size_t height, size_t column, size_t row, size_t *offset,
                        bc4_detail *detail);

#ifdef __cplusplus
}
#endif

#endif
