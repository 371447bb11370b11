/* Calls every export but those for DDS files (tests/c/dds.c) with right and wrong arguments, and compares numbers, values and every byte that was lent.
   Standard input is crates/replay/stdin: records and the Rust's blocks for them. Exits with 1 where anything differs. */
#include <string.h>
#include <unistd.h>
#include "bc4.h"
#include "lent.h"

#define MOST 16384
#define MOST_SAMPLES (1024u * 1024u)
LENT(samples, MOST_SAMPLES * sizeof(float));
LENT(encoded, MOST);
LENT(block, MOST);
LENT(out, MOST_SAMPLES / 2);
LENT(fresh, MOST);
LENT(written, MOST);
LENT(detail, MOST);
LENT(error, MOST);
LENT(decoded, MOST);
LENT(offset, MOST);
static lent *const all[] = {&samples, &encoded, &block, &out, &fresh, &written, &detail, &error, &decoded, &offset};

static void lend_all(void) {
  for (size_t i = 0; i < sizeof all / sizeof *all; i++) lend(all[i], MOST);
}

static bool untouched(void) { return as_before(all, sizeof all / sizeof *all); }

static bool told_index(size_t index) { return told(0, index, 0, 0); }

/* ---- samples and blocks */
static float nan_of(void) {
  uint32_t bits = 0x7fc00000u;
  float x;
  memcpy(&x, &bits, sizeof x);
  return x;
}

static void set_sample(size_t i, float x) { put(&samples, i * sizeof x, &x, sizeof x); }

static void lend_samples(float x, size_t count) {
  for (size_t i = 0; i < count; i++) set_sample(i, x);
}

static const uint8_t zeros[8] = {0, 0, 0, 0, 0, 0, 0, 0};
static const uint8_t ones[8] = {255, 0, 0, 0, 0, 0, 0, 0};
static const uint8_t signed_zeros[8] = {0x81, 0x81, 0, 0, 0, 0, 0, 0};
static const uint8_t searched_zeros[8] = {0x01, 0x00, 0x49, 0x92, 0x24, 0x49, 0x92, 0x24};
static const uint8_t searched_ones[8] = {0x00, 0xfe, 255, 255, 255, 255, 255, 255};
/* index 2 everywhere, four-value: one fifth */
static const uint8_t fifths[8] = {0x00, 0xff, 0x92, 0x24, 0x49, 0x92, 0x24, 0x49};

/* a quality byte over 2, and a last byte that is not 0 */
static const uint32_t malformed[] = {0x030000u, 0xff0000u, 0x01000000u, 0x80020000u};

/* ---- encode block */
static uint32_t encode(size_t count, uint32_t options) { return bc4_encode_block(at(&samples), count, options, at(&block), at(&detail)); }

static void encodes(float x, uint32_t options, const uint8_t *expected) {
  uint8_t got[8];
  lend_all();
  lend_samples(x, 16);
  EXPECT(encode(16, options) == BC4_OK);
  take(&block, got, 8);
  EXPECT(memcmp(got, expected, 8) == 0);
  EXPECT(untouched());
}

static void encode_refuses(size_t count, uint32_t options, uint32_t number) {
  EXPECT(encode(count, options) == number);
  EXPECT(untouched());
}

static void encode_blocks(void) {
  encodes(0.0f, 0, zeros);
  encodes(-3.0f, 0, zeros);
  encodes(1.0f, 0, ones);
  encodes(1.0f / 0.0f, 0, ones);
  encodes(0.0f, BC4_SNORM, signed_zeros);
  encodes(0.0f, BC4_BRUTE_FORCE, searched_zeros);
  encodes(1.0f, BC4_BRUTE_FORCE, searched_ones);
  lend_all();
  lend_samples(0.5f, 32);
  encode_refuses(0, 0, BC4_SAMPLE_COUNT);
  encode_refuses(15, 0, BC4_SAMPLE_COUNT);
  encode_refuses(17, 0, BC4_SAMPLE_COUNT);
  encode_refuses(32, malformed[0], BC4_SAMPLE_COUNT);
  for (size_t k = 0; k < sizeof malformed / sizeof *malformed; k++) encode_refuses(16, malformed[k], BC4_WORD_MALFORMED);
  set_sample(9, nan_of());
  set_sample(12, nan_of());
  encode_refuses(9, 0, BC4_SAMPLE_COUNT);
  EXPECT(encode(16, 0) == BC4_SAMPLE_IS_NAN);
  EXPECT(told_index(9));
  EXPECT(untouched());
  EXPECT(encode(16, malformed[0]) == BC4_SAMPLE_IS_NAN);
  EXPECT(told_index(9));
  EXPECT(untouched());
}

/* ---- decode block */
static uint32_t decode(size_t length, bool snorm) { return bc4_decode_block(at(&encoded), length, snorm, at(&decoded), at(&detail)); }

/* Each sample is within 1/2,097,152 of num / den, and 0 and 1 are exact. Times den and 2,097,152 both sides are exact in double. */
static void decodes(const uint8_t *bytes, bool snorm, double num, double den) {
  float got[16];
  lend_all();
  put(&encoded, 0, bytes, 8);
  EXPECT(decode(8, snorm) == BC4_OK);
  take(&decoded, got, sizeof got);
  for (size_t i = 0; i < 16; i++) {
    double off = ((double)got[i] * den - num) * 2097152.0;
    double most = den == 1 ? 0 : den;
    EXPECT(-most <= off && off <= most);
  }
  EXPECT(untouched());
}

static void decode_blocks(void) {
  decodes(zeros, false, 0, 1);
  decodes(ones, false, 1, 1);
  decodes(signed_zeros, true, 0, 1);
  decodes(searched_zeros, false, 0, 1);
  decodes(searched_ones, false, 1, 1);
  decodes(fifths, false, 1, 5);
  lend_all();
  for (size_t length = 0; length < 20; length++) {
    if (length == 8) continue;
    EXPECT(decode(length, length % 2 == 1) == BC4_ENCODED_LENGTH);
    EXPECT(untouched());
  }
}

/* ---- block error */
static uint32_t score(size_t count, size_t length, bool snorm) {
  return bc4_block_error(at(&samples), count, at(&encoded), length, snorm, at(&error), at(&detail));
}

static void scores(float x, const uint8_t *bytes, bool snorm, float expected) {
  float got;
  lend_all();
  lend_samples(x, 16);
  put(&encoded, 0, bytes, 8);
  EXPECT(score(16, 8, snorm) == BC4_OK);
  take(&error, &got, sizeof got);
  EXPECT(got == expected);
  EXPECT(untouched());
}

static void block_errors(void) {
  scores(0.0f, zeros, false, 0.0f);
  scores(1.0f, zeros, false, 16.0f);
  scores(7.0f, zeros, false, 16.0f);
  scores(0.5f, ones, false, 4.0f);
  scores(-1.0f / 0.0f, signed_zeros, true, 0.0f);
  lend_all();
  lend_samples(0.5f, 16);
  set_sample(3, nan_of());
  EXPECT(score(15, 7, false) == BC4_SAMPLE_COUNT && untouched());
  EXPECT(score(17, 8, false) == BC4_SAMPLE_COUNT && untouched());
  EXPECT(score(16, 7, false) == BC4_ENCODED_LENGTH && untouched());
  EXPECT(score(16, 9, false) == BC4_ENCODED_LENGTH && untouched());
  EXPECT(score(16, 8, false) == BC4_SAMPLE_IS_NAN);
  EXPECT(told_index(3));
  EXPECT(untouched());
}

/* ---- resend */
static uint32_t resend(size_t count, size_t length, uint32_t options) {
  return bc4_resend(at(&samples), count, at(&encoded), length, options, at(&block), at(&fresh), at(&detail));
}

static void resends(float x, uint32_t options, const uint8_t *held, const uint8_t *expected, uint8_t is_fresh) {
  uint8_t got[8], flag;
  lend_all();
  lend_samples(x, 16);
  put(&encoded, 0, held, 8);
  EXPECT(resend(16, 8, options) == BC4_OK);
  take(&block, got, 8);
  take(&fresh, &flag, 1);
  EXPECT(memcmp(got, expected, 8) == 0);
  EXPECT(flag == is_fresh);
  EXPECT(untouched());
}

static void resend_blocks(void) {
  resends(1.0f, 0, zeros, ones, 1);
  resends(1.0f, 0, ones, ones, 0);
  /* an equal error: the held bytes stay */
  resends(1.0f, 0, searched_ones, searched_ones, 0);
  resends(0.0f, BC4_SNORM, ones, signed_zeros, 1);
  lend_all();
  lend_samples(0.5f, 16);
  set_sample(15, nan_of());
  EXPECT(resend(15, 7, BC4_DITHER) == BC4_SAMPLE_COUNT && untouched());
  EXPECT(resend(16, 7, BC4_DITHER) == BC4_ENCODED_LENGTH && untouched());
  EXPECT(resend(16, 9, malformed[2]) == BC4_ENCODED_LENGTH && untouched());
  EXPECT(resend(16, 8, BC4_DITHER) == BC4_DITHERED_RESEND && untouched());
  EXPECT(resend(16, 8, BC4_DITHER | malformed[1]) == BC4_DITHERED_RESEND && untouched());
  EXPECT(resend(16, 8, malformed[1]) == BC4_SAMPLE_IS_NAN);
  EXPECT(told_index(15));
  EXPECT(untouched());
  lend_samples(0.5f, 16);
  for (size_t k = 0; k < sizeof malformed / sizeof *malformed; k++) EXPECT(resend(16, 8, malformed[k]) == BC4_WORD_MALFORMED && untouched());
}

/* ---- encode tile */
static uint32_t tile(size_t count, size_t width, size_t height, uint32_t options, size_t room) {
  return bc4_encode_tile(at(&samples), count, width, height, options, at(&out), room, at(&written), at(&detail));
}

static void lend_tile(size_t count, size_t room) {
  lend_all();
  lend(&samples, count * sizeof(float));
  lend(&out, room);
  lend_samples(0.5f, count);
}

static void tiles(size_t width, size_t height, uint32_t options, size_t room) {
  static uint8_t got[MOST_SAMPLES / 2];
  float x[16];
  const size_t n = width * height / 2;
  lend_tile(width * height, room);
  for (size_t i = 0; i < width * height; i++) set_sample(i, (float)(i * 7919 % 1009) / 1009.0f);
  EXPECT(tile(width * height, width, height, options, room) == BC4_OK);
  EXPECT(taken_size(&written) == n);
  take(&out, got, n);
  EXPECT(untouched());
  for (size_t row = 0; row < height / 4; row++)
    for (size_t column = 0; column < width / 4; column++) {
      uint8_t alone[8];
      bc4_detail none;
      size_t where = 0;
      for (size_t k = 0; k < 16; k++)
        memcpy(x + k, samples.bytes + SIDE + ((4 * row + k / 4) * width + 4 * column + k % 4) * sizeof *x, sizeof *x);
      EXPECT(bc4_encode_block(x, 16, options, alone, &none) == BC4_OK);
      EXPECT(bc4_block_view(got, n, width, height, column, row, &where, &none) == BC4_OK);
      EXPECT(where == 8 * (row * (width / 4) + column));
      EXPECT(memcmp(got + where, alone, 8) == 0);
    }
}

/* One sample is NaN. */
static void tile_nan(size_t width, size_t height, size_t index, size_t row, size_t column) {
  const size_t count = width * height;
  lend_tile(count, count / 2);
  set_sample(index, nan_of());
  EXPECT(tile(count, width, height, 0, count / 2) == BC4_SAMPLE_IS_NAN);
  EXPECT(told(0, index, row, column));
  EXPECT(untouched());
}

/* With all else wrong, and a bad size with all else right but for a NaN. */
static void tile_size(size_t width, size_t height, uint32_t number, size_t side) {
  const size_t count = area(width, height, samples.length / sizeof(float));
  EXPECT(refused(tile(1, width, height, malformed[0], 0), number, side));
  if (side != 0) EXPECT(refused(tile(count, width, height, 0, count / 2), number, side));
}

static void encode_tiles(void) {
  tiles(4, 4, 0, 8);
  tiles(8, 4, BC4_USE_INTER4, 16);
  tiles(4, 8, BC4_DITHER, 100);
  tiles(16, 12, BC4_SNORM | BC4_MAX_REFINE_ITER(3) | BC4_HIGH_QUALITY, 96);
  tiles(1024, 4, 0, 2049);
  tiles(4, 1024, 0, 2048);
  tiles(1024, 1024, 0, MOST_SAMPLES / 2);
  tile_nan(8, 4, 13, 1, 5);
  for (size_t index = 0; index < 8 * 12; index++) tile_nan(8, 12, index, index / 8, index % 8);
  tile_nan(1024, 1024, 1048575, 1023, 1023);
  lend_all();
  set_sample(0, nan_of());
  every_size(tile_size, SIZE_MAX, BC4_SAMPLE_COUNT);
  lend_all();
  lend_samples(0.5f, 64);
  set_sample(17, nan_of());
  set_sample(50, nan_of());
  EXPECT(tile(63, 8, 8, malformed[0], 0) == BC4_SAMPLE_COUNT && untouched());
  EXPECT(tile(64, 8, 4, 0, 32) == BC4_SAMPLE_COUNT && untouched());
  EXPECT(tile(64, 8, 8, malformed[0], 31) == BC4_OUTPUT_LENGTH && untouched());
  EXPECT(tile(64, 8, 8, 0, 0) == BC4_OUTPUT_LENGTH && untouched());
  EXPECT(tile(64, 8, 8, malformed[0], 32) == BC4_SAMPLE_IS_NAN);
  EXPECT(told(0, 17, 2, 1));
  EXPECT(untouched());
  lend_samples(0.5f, 64);
  EXPECT(tile(64, 8, 8, malformed[0], 32) == BC4_WORD_MALFORMED && untouched());
}

/* ---- block view */
static uint32_t view(size_t length, size_t width, size_t height, size_t column, size_t row) {
  return bc4_block_view(at(&encoded), length, width, height, column, row, at(&offset), at(&detail));
}

/* With all else wrong, and a bad size with all else right. */
static void view_size(size_t width, size_t height, uint32_t number, size_t side) {
  EXPECT(refused(view(1, width, height, SIZE_MAX, SIZE_MAX), number, side));
  if (side != 0) EXPECT(refused(view(area(width, height, 2 * encoded.length) / 2, width, height, 0, 0), number, side));
}

static void block_views(void) {
  lend_all();
  for (size_t row = 0; row < 3; row++)
    for (size_t column = 0; column < 2; column++) {
      EXPECT(view(48, 8, 12, column, row) == BC4_OK);
      EXPECT(taken_size(&offset) == 16 * row + 8 * column);
      EXPECT(untouched());
    }
  every_size(view_size, SIZE_MAX, BC4_ENCODED_LENGTH);
  EXPECT(view(47, 8, 12, 2, 0) == BC4_ENCODED_LENGTH && untouched());
  EXPECT(view(49, 8, 12, 0, 0) == BC4_ENCODED_LENGTH && untouched());
  EXPECT(view(48, 8, 12, 2, 0) == BC4_NO_SUCH_BLOCK && untouched());
  EXPECT(view(48, 8, 12, 0, 3) == BC4_NO_SUCH_BLOCK && untouched());
  EXPECT(view(48, 8, 12, (size_t)-1, (size_t)-1) == BC4_NO_SUCH_BLOCK && untouched());
}

/* ---- stack */
static uint32_t stack_options;
static void encode_once(void) { encode(16, stack_options); }
static void score_once(void) { score(16, 8, false); }
static void resend_once(void) { resend(16, 8, stack_options); }
static void tile_once(void) { tile(64, 8, 8, stack_options, 32); }

static void stack(void) {
  static void (*const calls[])(void) = {encode_once, score_once, resend_once, tile_once};
  static const uint32_t sets[] = {0, BC4_DITHER, BC4_BRUTE_FORCE, 0xf8u | BC4_MAX_REFINE_ITER(10) | BC4_HIGH_QUALITY};
  lend_all();
  lend_samples(0.5f, 64);
  for (size_t i = 0; i < 64; i++) set_sample(i, (float)(i * 7919 % 1009) / 1009.0f);
  put(&encoded, 0, zeros, 8);
  for (size_t k = 0; k < sizeof calls / sizeof *calls; k++)
    for (size_t j = 0; j < sizeof sets / sizeof *sets; j++) {
      stack_options = sets[j];
      stack_of(calls[k]); /* the first call may look memcpy and memset up */
      EXPECT(stack_of(calls[k]) < 4096);
    }
}

/* ---- the list of the Rust's answers: an options word, sixteen samples, eight bytes */
static void replayed(void) {
  uint8_t entry[76], got[8];
  long count = 0;
  for (;;) {
    size_t have = 0;
    while (have < sizeof entry) {
      long n = read(0, entry + have, sizeof entry - have);
      if (n <= 0) break;
      have += (size_t)n;
    }
    if (have < sizeof entry) break;
    count++;
    lend_all();
    put(&samples, 0, entry + 4, 64);
    EXPECT(encode(16, entry[0] | BC4_MAX_REFINE_ITER(entry[1]) | (uint32_t)entry[2] << 16 | (uint32_t)entry[3] << 24) == BC4_OK);
    take(&block, got, 8);
    EXPECT(memcmp(got, entry + 68, 8) == 0);
    EXPECT(untouched());
  }
  EXPECT(count > 4000);
}

int main(void) {
  EXPECT(bc4_version() == BC4_VERSION);
  EXPECT(BC4_MAX_REFINE_ITER(0) == 0 && BC4_MAX_REFINE_ITER(255) == 0xff00 && BC4_MAX_REFINE_ITER(256) == 0xff00 && BC4_MAX_REFINE_ITER(-1) == 0xff00);
  encode_blocks();
  decode_blocks();
  block_errors();
  resend_blocks();
  encode_tiles();
  block_views();
  stack();
  replayed();
  return counted(__FILE__);
}
