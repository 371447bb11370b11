/* BC4 blocks: sixteen samples in eight bytes, and DDS files of them. The calls of the static library `exports` (crates/exports), for C99 and C++ on x86-64;
   those on two channels are in bc5.h, those of the receiving side in station.h.

   A call answers 0, or the number of a refusal: of all that apply, the first in the order that its comment lists them. A refused call changes nothing
   that it was lent, but for *detail, where the refusal has something to say. No call reads or writes outside what it is lent, and each ends for every input. That, and every value written, is proved, as far as the caller keeps its part. No call allocates, keeps a pointer or has
   a state: the language it is written in has no means for it. So calls may run in any number of threads at once. A call takes less than 4 KiB of stack, not
   counting what memcpy, memmove and memset take.
   The caller's part:
   - No pointer is null. A pointer that comes with a length has so many elements behind it, any other one as many as its type says.
   - What a call writes to overlaps nothing else that it is lent, to this call or to one in another thread.
   - The thread's floating-point environment is the one that a program starts with: rounding to nearest, no flush to zero, denormals not taken as zero
     (linking with -ffast-math may change both), exceptions masked. Else bytes and samples may be others than the proved ones, and a call may raise SIGFPE.
     A call may leave status flags set.
   What the library needs of its program: memcpy, memmove, memset. */
#ifndef BC4_H
#define BC4_H

#include <stdbool.h>
#include <stddef.h>
#include <stdint.h>

/* Major, minor and patch number of this header, a byte each. */
#define BC4_VERSION 0x030200u

/* ---- refusals */
#define BC4_OK 0u                      /* none */
#define BC4_SIDE_IS_ZERO 1u            /* width or height is 0; detail: the side, here and in 9 and 10 */
#define BC4_SAMPLE_COUNT 2u            /* the sample count is not 16, or not width * height; detail of a call of bc5.h: the channel */
#define BC4_ENCODED_LENGTH 3u          /* the encoded length is not 8, or not width * height / 2, in a call of bc5.h twice that;
                                          or a record of editions has not one entry for each block, width * height / 16 */
#define BC4_OUTPUT_LENGTH 4u           /* the output is shorter than width * height / 2, in a call of bc5.h than twice that, for a file than 128 + width * height / 2 */
#define BC4_DITHERED_RESEND 5u         /* a resend with BC4_DITHER */
#define BC4_NO_SUCH_BLOCK 6u           /* the column is not below width / 4, or the row not below height / 4 */
#define BC4_SAMPLE_IS_NAN 7u           /* a sample is NaN; detail: the lowest such index, in a tile with its row and column, of a call of bc5.h with the channel */
#define BC4_WORD_MALFORMED 8u          /* the options are no sum of the constants below */
#define BC4_SIDE_TOO_LARGE 9u          /* width or height is over 1,024 */
#define BC4_SIDE_NOT_MULTIPLE_OF_4 10u /* width or height is no multiple of 4 */
#define BC4_DDS_CUT 11u                /* the file is shorter than its headers; detail: the field, here and to 14 */
#define BC4_DDS_MARK 12u               /* the file does not begin as a DDS file does */
#define BC4_DDS_FORMAT 13u             /* the pixels are not BC4 by the names BC4U, BC4S, or DX10 with format 80 or 81 */
#define BC4_DDS_PICTURES 14u           /* the file says that it holds more than one flat picture, or with DX10 none */
#define BC4_DDS_BODY 15u               /* the bytes after the headers are not exactly width * height / 2 */
#define BC4_EDITION_REUSED 16u         /* the place holds a message's edition with other bytes */
#define BC4_EDITION_OPPOSITE 17u       /* a message's edition is exactly 32,768 from the one that its place holds: as far ahead as behind */

/* ---- sides, for `what` below with 1, 9 and 10: the one that is so, the width where both are, with its offset in a DDS file */
#define BC4_WIDTH 1u  /* 16 */
#define BC4_HEIGHT 2u /* 12 */

/* ---- fields of a DDS file, for `what` below with 11 to 14: which one is wrong, with its offset in the file */
#define BC4_FIELD_HEADER 3u           /* 0: the first 128 bytes, which are not all there */
#define BC4_FIELD_EXTENSION 4u        /* 128: the 20 bytes that DX10 asks for, which are not all there */
#define BC4_FIELD_MAGIC 5u            /* 0: not DDS and a blank */
#define BC4_FIELD_HEADER_SIZE 6u      /* 4: not 124 */
#define BC4_FIELD_FOUR_CHARACTERS 7u  /* 84: none of BC4U, BC4S, DX10 */
#define BC4_FIELD_EXTENSION_FORMAT 8u /* 128: neither 80 nor 81 */
#define BC4_FIELD_MIP_COUNT 9u        /* 28: over 1 */
#define BC4_FIELD_DEPTH 10u           /* 24: over 1 */
#define BC4_FIELD_CUBE_FACES 11u      /* 112: one of the bits 0xFC00 */
#define BC4_FIELD_ARRAY_SIZE 12u      /* 140: not 1 */

/* ---- channels, for `what` below with 2 and 7 of a call of bc5.h: the first one that is so */
#define BC4_FIRST_CHANNEL 13u
#define BC4_SECOND_CHANNEL 14u

/* What a refusal says besides its number. Where it has something to say, by the list of refusals, all four are written, with 0 for what it says nothing about.
   On any other answer, 0 included, all four stay as they were. */
typedef struct bc4_detail {
  size_t what; /* a side, a field or a channel, by the lists above */
  size_t index; /* of a sample, in a tile row * width + column */
  size_t row;
  size_t column;
} bc4_detail;

/* ---- options: any of the flags, one limit and one quality, or'ed. 0 has no flag, the limit 0 and BC4_ROUND. A limit over 255 is 255; the macro reads
   its argument twice. */
#define BC4_DITHER 0x01u
#define BC4_SNORM 0x02u
#define BC4_BRUTE_FORCE 0x04u
#define BC4_USE_INTER4 0x08u
#define BC4_USE_INTER4_HEURISTIC 0x10u
#define BC4_FAST_ITER 0x20u
#define BC4_SIZE_VARIATIONS 0x40u
#define BC4_ITER_INITIAL_INTER4 0x80u
#define BC4_MAX_REFINE_ITER(n) ((uint32_t)((uintmax_t)(n) > 255u ? 255u : (uintmax_t)(n)) << 8)
#define BC4_ROUND 0x000000u
#define BC4_MEDIUM_QUALITY 0x010000u
#define BC4_HIGH_QUALITY 0x020000u

#ifdef __cplusplus
extern "C" {
#endif

/* BC4_VERSION of the library. Refuses nothing. */
uint32_t bc4_version(void);

/* Encodes sixteen samples, row by row, into block[0..7]. Samples are on the scale 0 to 1, with BC4_SNORM too, where 0 is what a reader of the signed
   format shows as -1 and 1 as 1; below and above, infinity included, they are clamped.
   Refuses BC4_SAMPLE_COUNT, BC4_SAMPLE_IS_NAN, BC4_WORD_MALFORMED. */
uint32_t bc4_encode_block(const float *samples, size_t sample_count, uint32_t options, uint8_t *block, bc4_detail *detail);

/* Decodes eight bytes into samples[0..15], each in 0 to 1, signed blocks on the scale that bc4_encode_block has.
   Refuses BC4_ENCODED_LENGTH. */
uint32_t bc4_decode_block(const uint8_t *encoded, size_t encoded_length, bool snorm, float *samples, bc4_detail *detail);

/* The f32 sum, in order, of the squared distances between sixteen samples, clamped, and what eight bytes decode to, into *error.
   Refuses BC4_SAMPLE_COUNT, BC4_ENCODED_LENGTH, BC4_SAMPLE_IS_NAN. */
uint32_t bc4_block_error(const float *samples, size_t sample_count, const uint8_t *encoded, size_t encoded_length, bool snorm, float *error,
                         bc4_detail *detail);

/* Encodes sixteen samples afresh and writes into block[0..7] the bytes to hold from now on: the fresh ones, and *fresh is 1, where their block
   error is strictly below that of the held ones; else the held ones, and *fresh is 0. `block` is not `held`.
   Refuses BC4_SAMPLE_COUNT, BC4_ENCODED_LENGTH, BC4_DITHERED_RESEND, BC4_SAMPLE_IS_NAN, BC4_WORD_MALFORMED. */
uint32_t bc4_resend(const float *samples, size_t sample_count, const uint8_t *held, size_t held_length, uint32_t options, uint8_t *block,
                    uint8_t *fresh, bc4_detail *detail);

/* Encodes a tile of width * height samples, row by row, into the first width * height / 2 bytes of `out`, and that count into *written: its blocks,
   row by row from the top left, each as bc4_encode_block gives it. Later bytes of `out` stay as they are.
   Refuses BC4_SIDE_IS_ZERO, BC4_SIDE_TOO_LARGE, BC4_SIDE_NOT_MULTIPLE_OF_4, BC4_SAMPLE_COUNT, BC4_OUTPUT_LENGTH, BC4_SAMPLE_IS_NAN, BC4_WORD_MALFORMED. */
uint32_t bc4_encode_tile(const float *samples, size_t sample_count, size_t width, size_t height, uint32_t options, uint8_t *out,
                         size_t out_length, size_t *written, bc4_detail *detail);

/* Where in an encoded tile the block of a column and a row of blocks stands: its eight bytes are tile[*offset] to tile[*offset + 7].
   Refuses BC4_SIDE_IS_ZERO, BC4_SIDE_TOO_LARGE, BC4_SIDE_NOT_MULTIPLE_OF_4, BC4_ENCODED_LENGTH, BC4_NO_SUCH_BLOCK. */
uint32_t bc4_block_view(const uint8_t *tile, size_t tile_length, size_t width, size_t height, size_t column, size_t row, size_t *offset,
                        bc4_detail *detail);

/* Writes an encoded tile as a DDS file into the first 128 + width * height / 2 bytes of `out`, and that count into *written: a header with BC4U, with
   snorm BC4S, and then the tile's bytes. Later bytes of `out` stay as they are.
   Refuses BC4_SIDE_IS_ZERO, BC4_SIDE_TOO_LARGE, BC4_SIDE_NOT_MULTIPLE_OF_4, BC4_ENCODED_LENGTH, BC4_OUTPUT_LENGTH. */
uint32_t bc4_write_dds(const uint8_t *tile, size_t tile_length, size_t width, size_t height, bool snorm, uint8_t *out, size_t out_length,
                       size_t *written, bc4_detail *detail);

/* Reads a DDS file of one BC4 tile: its size into *width and *height, 1 into *snorm where the blocks are signed and 0 where not, and into *offset where its
   width * height / 2 bytes start: they are file[*offset] to the file's last byte. Fields that no refusal names may hold anything.
   Refuses BC4_DDS_CUT, BC4_DDS_MARK, BC4_DDS_FORMAT, BC4_DDS_PICTURES, BC4_SIDE_IS_ZERO, BC4_SIDE_TOO_LARGE, BC4_SIDE_NOT_MULTIPLE_OF_4, BC4_DDS_BODY. */
uint32_t bc4_read_dds(const uint8_t *file, size_t file_length, size_t *width, size_t *height, uint8_t *snorm, size_t *offset,
                      bc4_detail *detail);

#ifdef __cplusplus
}
#endif

#endif
