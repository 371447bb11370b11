/* Calls the exports on two channels with right and wrong arguments, and compares numbers, values and every byte that was lent. A half has to be what the call
   on one channel gives; whether that is right, tests/c/exports.c looks at. Exits with 1 where anything differs. */
#include <string.h>
#include "bc5.h"
#include "lent.h"

#define MOST_SAMPLES (1024u * 1024u)
#define SPARE 64u /* samples or bytes more than the largest tile has, for calls that say more */
#define CHANNEL (16 * sizeof(float))
LENT(first, (MOST_SAMPLES + SPARE) * sizeof(float));
LENT(second, (MOST_SAMPLES + SPARE) * sizeof(float));
LENT(encoded, MOST_SAMPLES + SPARE);
LENT(block, 16);
LENT(first_decoded, CHANNEL);
LENT(second_decoded, CHANNEL);
LENT(errors, 2 * sizeof(float));
LENT(fresh, 2);
LENT(out, MOST_SAMPLES + SPARE);
LENT(written, sizeof(size_t));
LENT(offset, sizeof(size_t));
LENT(detail, sizeof(bc4_detail));
static lent *const all[] = {&first, &second, &encoded, &block, &first_decoded, &second_decoded, &errors, &fresh, &out, &written, &offset, &detail};

static bool untouched(void) { return as_before(all, sizeof all / sizeof *all); }

static void lend_all(size_t first_count, size_t second_count, size_t encoded_length, size_t room) {
  lend(&first, first_count * sizeof(float));
  lend(&second, second_count * sizeof(float));
  lend(&encoded, encoded_length);
  lend(&block, 16);
  lend(&first_decoded, CHANNEL);
  lend(&second_decoded, CHANNEL);
  lend(&errors, 2 * sizeof(float));
  lend(&fresh, 2);
  lend(&out, room);
  lend(&written, sizeof(size_t));
  lend(&offset, sizeof(size_t));
  lend(&detail, sizeof(bc4_detail));
}

/* ---- the calls. The lengths that they are told are those of what is lent, and a format that of the options. */
static size_t width, height; /* of the tile, 0 for calls on one block */

static void set_size(size_t w, size_t h) {
  width = w;
  height = h;
}

/* The samples of a channel that a call has to be lent, and as many encoded bytes. */
static size_t right_count(void) { return width == 0 ? 16 : width * height; }

static void lend_right(void) {
  const size_t right = right_count();
  lend_all(right, right, right, right);
}

static size_t count(const lent *channel) { return channel->length / sizeof(float); }

static uint32_t encode(uint32_t options) {
  return bc5_encode_block(at(&first), count(&first), at(&second), count(&second), options, at(&block), at(&detail));
}

static uint32_t decode(uint32_t options) {
  return bc5_decode_block(at(&encoded), encoded.length, (options & BC4_SNORM) != 0, at(&first_decoded), at(&second_decoded), at(&detail));
}

static uint32_t score(uint32_t options) {
  return bc5_block_error(at(&first), count(&first), at(&second), count(&second), at(&encoded), encoded.length, (options & BC4_SNORM) != 0, at(&errors),
                         at(&detail));
}

static uint32_t resend(uint32_t options) {
  return bc5_resend(at(&first), count(&first), at(&second), count(&second), at(&encoded), encoded.length, options, at(&block), at(&fresh), at(&detail));
}

static uint32_t tile(uint32_t options) {
  return bc5_encode_tile(at(&first), count(&first), at(&second), count(&second), width, height, options, at(&out), out.length, at(&written), at(&detail));
}

static uint32_t view(size_t column, size_t row) {
  return bc5_block_view(at(&encoded), encoded.length, width, height, column, row, at(&offset), at(&detail));
}

/* ---- samples, options and bytes */
static float random_sample(void) { return (float)(random_bits() >> 8) / 16777216.0f; }

static void set_sample(lent *channel, size_t i, float x) { put(channel, i * sizeof x, &x, sizeof x); }

static void set_nan(lent *channel, size_t i) {
  static const uint32_t nans[] = {0x7fc00000u, 0xffc00000u, 0x7f800001u, 0xffffffffu};
  put(channel, i * sizeof *nans, nans + random_bits() % 4, sizeof *nans);
}

static void set_flat(lent *channel, float x) {
  for (size_t i = 0; i < count(channel); i++) set_sample(channel, i, x);
}

static void set_random(lent *channel) {
  uint32_t kind = 0;
  float level = 0;
  for (size_t i = 0; i < count(channel); i++) {
    const float x = random_sample();
    if (i % 16 == 0) {
      kind = random_bits() % 6;
      level = random_sample();
    }
    switch (kind) {
    case 0: set_sample(channel, i, level); break;
    case 1: set_sample(channel, i, level + x / 32768.0f); break; /* nearly flat */
    case 2: set_sample(channel, i, level / 2 + (float)(i % 16) / 40.0f + x / 16.0f); break;
    case 3: set_sample(channel, i, x < level ? 0.0f : 1.0f); break;
    case 4: set_sample(channel, i, x < 0.125f ? -1.0f / 0.0f : x > 0.875f ? 1.0f / 0.0f : 4.0f * x - 1.5f); break;
    default: set_sample(channel, i, x);
    }
  }
}

static void set_random_bytes(size_t from, size_t length) {
  for (size_t i = from; i < from + length; i++) {
    const uint8_t byte = (uint8_t)random_bits();
    put(&encoded, i, &byte, 1);
  }
}

/* The exhaustive search seldom, since it takes a thousand times as long. */
static uint32_t random_options(void) {
  const uint32_t flags = random_bits() & (random_bits() % 32 == 0 ? 0xffu : 0xffu & ~BC4_BRUTE_FORCE);
  return flags | BC4_MAX_REFINE_ITER(random_bits() % 256) | random_bits() % 3 << 16;
}

/* ---- refusals */
/* What can be wrong besides a size, in the order in which a call looks at it. A set of these is an or of them. */
enum { FIRST_COUNT = 1, SECOND_COUNT = 2, LENGTH = 4, ROOM = 8, DITHER = 16, FIRST_NAN = 32, SECOND_NAN = 64, WORD = 128 };
#define WAYS 12

static bool refused_nan(uint32_t answer, size_t channel, size_t index) {
  const bool told_place = width == 0 ? told(channel, index, 0, 0) : told(channel, index, index / width, index % width);
  return answer == BC4_SAMPLE_IS_NAN && told_place && untouched();
}

/* A channel with a wrong count, or with NaNs of which the lowest is at `lowest`, or neither. */
static void set_wrong(lent *channel, bool miscounted, bool has_nan, size_t right, size_t lowest, size_t way) {
  const size_t counts[] = {right - 1, right + 1, 0, right / 2, 2 * right};
  lend(channel, (miscounted ? counts[way % 5] : right) * sizeof(float));
  if (has_nan)
    for (size_t i = lowest; i < count(channel); i += 1 + way) set_nan(channel, i);
}

/* A call that is right but for a set of faults, each made in one of its ways, is refused for the first of them. */
static bool refused_for(unsigned faults, size_t way, uint32_t (*call)(uint32_t)) {
  const size_t right = right_count();
  const size_t lengths[] = {15, 17, 8, 0, 32}, rooms[] = {right - 1, right / 2, 0}, lowest[] = {right - 1, 0, 7, 5};
  const uint32_t words[] = {0x030000u, 0xff0000u, 0x01000000u, 0x80000000u};
  const size_t in_first = lowest[way % 4], in_second = lowest[(way + 1) % 4];
  const uint32_t options = (random_options() & ~BC4_DITHER) | (faults & DITHER ? BC4_DITHER : 0) | (faults & WORD ? words[way % 4] : 0);
  lend_all(right, right, faults & LENGTH ? lengths[way % 5] : right, faults & ROOM ? rooms[way % 3] : right);
  set_wrong(&first, faults & FIRST_COUNT, faults & FIRST_NAN, right, in_first, way);
  set_wrong(&second, faults & SECOND_COUNT, faults & SECOND_NAN, right, in_second, way + 1);
  const uint32_t answer = call(options);
  if (faults & FIRST_COUNT) return refused(answer, BC4_SAMPLE_COUNT, BC4_FIRST_CHANNEL);
  if (faults & SECOND_COUNT) return refused(answer, BC4_SAMPLE_COUNT, BC4_SECOND_CHANNEL);
  if (faults & LENGTH) return refused(answer, BC4_ENCODED_LENGTH, 0);
  if (faults & ROOM) return refused(answer, BC4_OUTPUT_LENGTH, 0);
  if (faults & DITHER) return refused(answer, BC4_DITHERED_RESEND, 0);
  if (faults & FIRST_NAN) return refused_nan(answer, BC4_FIRST_CHANNEL, in_first);
  if (faults & SECOND_NAN) return refused_nan(answer, BC4_SECOND_CHANNEL, in_second);
  return refused(answer, BC4_WORD_MALFORMED, 0);
}

/* Every set of the faults that a call looks at. */
static void every_set(unsigned looked_at, uint32_t (*call)(uint32_t)) {
  for (unsigned faults = 1; faults <= looked_at; faults++)
    for (size_t way = 0; way < WAYS; way++)
      if ((faults & ~looked_at) == 0) EXPECT(refused_for(faults, way, call));
}

/* NaNs at every place of either channel, or of both: the first channel's is told, at whatever place. */
static void every_nan(uint32_t (*call)(uint32_t)) {
  const size_t right = right_count(); /* as a place: none */
  for (size_t i = 0; i <= right; i++)
    for (size_t j = 0; j <= right; j++) {
      if (i == right && j == right) continue;
      lend_right();
      if (i < right) set_nan(&first, i);
      if (j < right) set_nan(&second, j);
      EXPECT(i < right ? refused_nan(call(0), BC4_FIRST_CHANNEL, i) : refused_nan(call(0), BC4_SECOND_CHANNEL, j));
    }
}

/* Every quality byte over 2, and every last byte but 0. */
static void every_malformed_word(uint32_t (*call)(uint32_t)) {
  lend_right();
  for (uint32_t byte = 1; byte < 256; byte++) {
    EXPECT(refused(call(byte << 24), BC4_WORD_MALFORMED, 0));
    if (byte > 2) EXPECT(refused(call(byte << 16), BC4_WORD_MALFORMED, 0));
  }
}

static void block_refusals(void) {
  set_size(0, 0);
  every_set(FIRST_COUNT | SECOND_COUNT | FIRST_NAN | SECOND_NAN | WORD, encode);
  every_set(LENGTH, decode);
  every_set(FIRST_COUNT | SECOND_COUNT | LENGTH | FIRST_NAN | SECOND_NAN, score);
  every_set(FIRST_COUNT | SECOND_COUNT | LENGTH | DITHER | FIRST_NAN | SECOND_NAN | WORD, resend);
  every_nan(encode);
  every_nan(score);
  every_nan(resend);
  every_malformed_word(encode);
  every_malformed_word(resend);
  for (size_t length = 0; length <= 40; length++) {
    if (length == 16) continue;
    lend_all(16, 16, length, 0);
    EXPECT(refused(decode(0), BC4_ENCODED_LENGTH, 0));
    EXPECT(refused(decode(BC4_SNORM), BC4_ENCODED_LENGTH, 0));
    EXPECT(refused(score(0), BC4_ENCODED_LENGTH, 0));
    EXPECT(refused(resend(0), BC4_ENCODED_LENGTH, 0));
  }
}

/* With all else wrong, and a bad size with all else right. After the size the first channel's count is looked at. */
static void tile_size(size_t w, size_t h, uint32_t number, size_t side) {
  const size_t right = area(w, h, 1028 * 4);
  set_size(w, h);
  lend_all(1, 1, 0, 0);
  set_nan(&first, 0);
  set_nan(&second, 0);
  EXPECT(refused(tile(0xffffffffu), number, side == 0 ? BC4_FIRST_CHANNEL : side));
  if (side == 0) return;
  lend_all(right, right, 0, right);
  EXPECT(refused(tile(0), number, side));
}

static void tile_refusals(void) {
  static const unsigned looked_at = FIRST_COUNT | SECOND_COUNT | ROOM | FIRST_NAN | SECOND_NAN | WORD;
  set_size(12, 8);
  every_set(looked_at, tile);
  every_nan(tile);
  every_malformed_word(tile);
  set_size(4, 4);
  every_set(looked_at, tile);
  every_nan(tile);
  set_size(1024, 1024);
  EXPECT(refused_for(SECOND_COUNT | ROOM | FIRST_NAN, 0, tile));
  EXPECT(refused_for(ROOM | FIRST_NAN, 0, tile));
  EXPECT(refused_for(FIRST_NAN, 0, tile));
  EXPECT(refused_for(SECOND_NAN, 3, tile));
  every_size(tile_size, SIZE_MAX, BC4_SAMPLE_COUNT);
}

/* ---- values worked by hand */
static const uint8_t zero_one[16] = {0, 0, 0, 0, 0, 0, 0, 0, 255, 0, 0, 0, 0, 0, 0, 0};
static const uint8_t one_zero[16] = {255, 0, 0, 0, 0, 0, 0, 0, 0, 0, 0, 0, 0, 0, 0, 0};
static const uint8_t one_one[16] = {255, 0, 0, 0, 0, 0, 0, 0, 255, 0, 0, 0, 0, 0, 0, 0};
static const uint8_t zero_zero[16] = {0};
static const uint8_t signed_zeros[16] = {0x81, 0x81, 0, 0, 0, 0, 0, 0, 0x81, 0x81, 0, 0, 0, 0, 0, 0};
static const uint8_t searched[16] = {0x01, 0x00, 0x49, 0x92, 0x24, 0x49, 0x92, 0x24, 0x00, 0xfe, 255, 255, 255, 255, 255, 255};

static bool encodes_to(float x, float y, uint32_t options, const uint8_t *expected) {
  uint8_t got[16];
  lend_right();
  set_flat(&first, x);
  set_flat(&second, y);
  const bool accepted = encode(options) == BC4_OK;
  take(&block, got, 16);
  return accepted && memcmp(got, expected, 16) == 0 && untouched();
}

static bool decodes_to(const uint8_t *bytes, uint32_t options, float x, float y) {
  float a[16], b[16];
  bool equal = true;
  lend_right();
  put(&encoded, 0, bytes, 16);
  const bool accepted = decode(options) == BC4_OK;
  take(&first_decoded, a, sizeof a);
  take(&second_decoded, b, sizeof b);
  for (size_t i = 0; i < 16; i++) equal = equal && a[i] == x && b[i] == y;
  return accepted && equal && untouched();
}

static bool scores_to(float x, float y, const uint8_t *bytes, float in_first, float in_second) {
  float got[2];
  lend_right();
  set_flat(&first, x);
  set_flat(&second, y);
  put(&encoded, 0, bytes, 16);
  const bool accepted = score(0) == BC4_OK;
  take(&errors, got, sizeof got);
  return accepted && got[0] == in_first && got[1] == in_second && untouched();
}

static bool resends_to(float x, float y, const uint8_t *held, uint32_t options, const uint8_t *expected, uint8_t first_fresh, uint8_t second_fresh) {
  uint8_t got[16], flags[2];
  lend_right();
  set_flat(&first, x);
  set_flat(&second, y);
  put(&encoded, 0, held, 16);
  const bool accepted = resend(options) == BC4_OK;
  take(&block, got, 16);
  take(&fresh, flags, 2);
  return accepted && memcmp(got, expected, 16) == 0 && flags[0] == first_fresh && flags[1] == second_fresh && untouched();
}

static void worked(void) {
  set_size(0, 0);
  EXPECT(encodes_to(0.0f, 1.0f, 0, zero_one));
  EXPECT(encodes_to(1.0f, 0.0f, 0, one_zero));
  EXPECT(encodes_to(-1.0f / 0.0f, 1.0f / 0.0f, 0, zero_one));
  EXPECT(encodes_to(7.0f, -3.0f, BC4_DITHER, one_zero));
  EXPECT(encodes_to(0.0f, -0.0f, BC4_SNORM, signed_zeros));
  EXPECT(encodes_to(0.0f, 1.0f, BC4_BRUTE_FORCE, searched));
  EXPECT(decodes_to(zero_one, 0, 0.0f, 1.0f));
  EXPECT(decodes_to(one_zero, 0, 1.0f, 0.0f));
  EXPECT(decodes_to(searched, 0, 0.0f, 1.0f));
  EXPECT(decodes_to(signed_zeros, BC4_SNORM, 0.0f, 0.0f));
  EXPECT(scores_to(0.0f, 1.0f, zero_one, 0.0f, 0.0f));
  EXPECT(scores_to(1.0f, 0.5f, zero_one, 16.0f, 4.0f));
  EXPECT(scores_to(0.5f, 9.0f, one_zero, 4.0f, 16.0f));
  /* one half is better, the other one, both, none; and bytes of an equal error stay */
  EXPECT(resends_to(1.0f, 1.0f, zero_one, 0, one_one, 1, 0));
  EXPECT(resends_to(1.0f, 1.0f, one_zero, 0, one_one, 0, 1));
  EXPECT(resends_to(1.0f, 1.0f, zero_zero, 0, one_one, 1, 1));
  EXPECT(resends_to(1.0f, 1.0f, one_one, 0, one_one, 0, 0));
  EXPECT(resends_to(0.0f, 1.0f, searched, 0, searched, 0, 0));
  EXPECT(resends_to(0.0f, 1.0f, zero_one, BC4_BRUTE_FORCE, zero_one, 0, 0));
  EXPECT(resends_to(0.0f, 0.0f, one_one, BC4_SNORM, signed_zeros, 1, 1));
}

/* ---- each half is what the call on one channel gives */
static bool encodes(uint32_t options, uint8_t *got) {
  uint8_t alone[16];
  bc4_detail none;
  const bool each = bc4_encode_block(at(&first), 16, options, alone, &none) == BC4_OK && bc4_encode_block(at(&second), 16, options, alone + 8, &none) == BC4_OK;
  const bool both = encode(options) == BC4_OK;
  take(&block, got, 16);
  return each && both && memcmp(got, alone, 16) == 0 && untouched();
}

static bool decodes(uint32_t options) {
  const uint8_t *bytes = at(&encoded);
  const bool snorm = (options & BC4_SNORM) != 0;
  float alone[32], got[32];
  bc4_detail none;
  const bool each = bc4_decode_block(bytes, 8, snorm, alone, &none) == BC4_OK && bc4_decode_block(bytes + 8, 8, snorm, alone + 16, &none) == BC4_OK;
  const bool both = decode(options) == BC4_OK;
  take(&first_decoded, got, CHANNEL);
  take(&second_decoded, got + 16, CHANNEL);
  return each && both && memcmp(got, alone, sizeof got) == 0 && untouched();
}

/* Of any sixteen bytes, not those that are lent alone. */
static bool each_error(const uint8_t *bytes, uint32_t options, float *to) {
  const bool snorm = (options & BC4_SNORM) != 0;
  bc4_detail none;
  return bc4_block_error(at(&first), 16, bytes, 8, snorm, to, &none) == BC4_OK && bc4_block_error(at(&second), 16, bytes + 8, 8, snorm, to + 1, &none) == BC4_OK;
}

static bool scores(uint32_t options) {
  float alone[2], got[2];
  const bool each = each_error(at(&encoded), options, alone);
  const bool both = score(options) == BC4_OK;
  take(&errors, got, sizeof got);
  return each && both && memcmp(got, alone, sizeof got) == 0 && untouched();
}

/* As the calls on one channel, and by the rule itself: a half is the fresh one exactly where its error is strictly below that of the held one. */
static bool resends(uint32_t options, const uint8_t *fresh_bytes, uint8_t *flags) {
  const uint8_t *held = at(&encoded);
  uint8_t alone[16], alone_flags[2], got[16];
  float fresh_errors[2], held_errors[2];
  bc4_detail none;
  bool by_rule = each_error(fresh_bytes, options, fresh_errors) && each_error(held, options, held_errors);
  const bool each = bc4_resend(at(&first), 16, held, 8, options, alone, alone_flags, &none) == BC4_OK &&
                    bc4_resend(at(&second), 16, held + 8, 8, options, alone + 8, alone_flags + 1, &none) == BC4_OK;
  const bool both = resend(options) == BC4_OK;
  take(&block, got, 16);
  take(&fresh, flags, 2);
  for (size_t half = 0; half < 2; half++) {
    const bool better = fresh_errors[half] < held_errors[half];
    by_rule = by_rule && flags[half] == better && memcmp(got + 8 * half, (better ? fresh_bytes : held) + 8 * half, 8) == 0;
  }
  return by_rule && each && both && memcmp(got, alone, 16) == 0 && memcmp(flags, alone_flags, 2) == 0 && untouched();
}

/* Held bytes, each half by chance: any, the fresh ones, or these with one bit changed. */
static void set_held(const uint8_t *fresh_bytes) {
  for (size_t half = 0; half < 2; half++) {
    const uint32_t kind = random_bits() % 3;
    const size_t at_byte = 8 * half + random_bits() % 8;
    const uint8_t changed = fresh_bytes[at_byte] ^ (uint8_t)(1u << random_bits() % 8);
    if (kind == 0) {
      set_random_bytes(8 * half, 8);
      continue;
    }
    put(&encoded, 8 * half, fresh_bytes + 8 * half, 8);
    if (kind == 1) put(&encoded, at_byte, &changed, 1);
  }
}

static void halves(void) {
  long seen[2][2] = {{0, 0}, {0, 0}};
  set_size(0, 0);
  for (int k = 0; k < 4000; k++) {
    const uint32_t options = random_options(), undithered = options & ~BC4_DITHER;
    uint8_t bytes[16], flags[2];
    lend_right();
    set_random(&first);
    set_random(&second);
    EXPECT(encodes(options, bytes));
    put(&encoded, 0, bytes, 16);
    EXPECT(decodes(options));
    EXPECT(scores(options));
    set_random_bytes(0, 16);
    EXPECT(decodes(options));
    EXPECT(scores(options));
    EXPECT(encodes(undithered, bytes));
    set_held(bytes);
    EXPECT(resends(undithered, bytes, flags));
    seen[flags[0] != 0][flags[1] != 0]++;
  }
  EXPECT(seen[0][0] > 100 && seen[0][1] > 100 && seen[1][0] > 100 && seen[1][1] > 100);
}

/* ---- tiles */
static void samples_of(const lent *channel, size_t column, size_t row, float *to) {
  for (size_t k = 0; k < 16; k++)
    memcpy(to + k, channel->bytes + SIDE + ((4 * row + k / 4) * width + 4 * column + k % 4) * sizeof *to, sizeof *to);
}

/* Each block is where the view finds it, and each half of it is what the call on one channel gives for its sixteen samples. */
static void tiles(size_t w, size_t h, uint32_t options, size_t more) {
  static uint8_t got[MOST_SAMPLES];
  const size_t n = w * h;
  set_size(w, h);
  lend_all(n, n, 0, n + more);
  set_random(&first);
  set_random(&second);
  EXPECT(tile(options) == BC4_OK);
  EXPECT(taken_size(&written) == n);
  take(&out, got, n);
  EXPECT(untouched());
  for (size_t row = 0; row < h / 4; row++)
    for (size_t column = 0; column < w / 4; column++) {
      float a[16], b[16];
      uint8_t alone[16];
      bc4_detail none;
      size_t where = 0;
      samples_of(&first, column, row, a);
      samples_of(&second, column, row, b);
      EXPECT(bc4_encode_block(a, 16, options, alone, &none) == BC4_OK);
      EXPECT(bc4_encode_block(b, 16, options, alone + 8, &none) == BC4_OK);
      EXPECT(bc5_block_view(got, n, w, h, column, row, &where, &none) == BC4_OK);
      EXPECT(where == 16 * (row * (w / 4) + column));
      EXPECT(memcmp(got + where, alone, 16) == 0);
    }
}

static void encode_tiles(void) {
  static const size_t sizes[][2] = {{4, 4}, {8, 4}, {4, 8}, {12, 8}, {8, 12}, {20, 36}, {100, 40}, {1024, 4}, {4, 1024}};
  for (size_t k = 0; k < sizeof sizes / sizeof *sizes; k++) {
    for (size_t more = 0; more <= SPARE; more += SPARE / 4) tiles(sizes[k][0], sizes[k][1], random_options() & ~BC4_BRUTE_FORCE, more);
    tiles(sizes[k][0], sizes[k][1], 0, 1);
  }
  tiles(4, 4, BC4_BRUTE_FORCE, 0);
  tiles(260, 516, BC4_SNORM, 0);
  tiles(1024, 1024, 0, SPARE);
}

/* ---- block view */
/* With all else wrong, and a bad size with all else right. */
static void view_size(size_t w, size_t h, uint32_t number, size_t side) {
  set_size(w, h);
  lend_all(0, 0, 1, 0);
  EXPECT(refused(view(SIZE_MAX, SIZE_MAX), number, side));
  if (side == 0) return;
  lend_all(0, 0, area(w, h, 1028 * 4), 0);
  EXPECT(refused(view(0, 0), number, side));
}

static void block_views(void) {
  static const size_t sizes[][2] = {{4, 4}, {8, 12}, {12, 8}, {4, 1024}, {1024, 4}};
  static const size_t past[] = {0, 1, 4, SIZE_MAX / 16, SIZE_MAX / 4};
  for (size_t k = 0; k < sizeof sizes / sizeof *sizes; k++) {
    set_size(sizes[k][0], sizes[k][1]);
    const size_t n = width * height, columns = width / 4, rows = height / 4;
    lend_all(0, 0, n, 0);
    for (size_t row = 0; row < rows; row++)
      for (size_t column = 0; column < columns; column++) {
        EXPECT(view(column, row) == BC4_OK);
        EXPECT(taken_size(&offset) == 16 * (row * columns + column));
        EXPECT(untouched());
      }
    for (size_t i = 0; i < sizeof past / sizeof *past; i++) {
      EXPECT(refused(view(columns + past[i], 0), BC4_NO_SUCH_BLOCK, 0));
      EXPECT(refused(view(0, rows + past[i]), BC4_NO_SUCH_BLOCK, 0));
      EXPECT(refused(view(columns + past[i], rows - 1), BC4_NO_SUCH_BLOCK, 0));
      EXPECT(refused(view(columns - 1, rows + past[i]), BC4_NO_SUCH_BLOCK, 0));
      EXPECT(refused(view(columns + past[i], rows + past[i]), BC4_NO_SUCH_BLOCK, 0));
    }
    EXPECT(refused(view(SIZE_MAX, 0), BC4_NO_SUCH_BLOCK, 0));
    EXPECT(refused(view(0, SIZE_MAX), BC4_NO_SUCH_BLOCK, 0));
    const size_t lengths[] = {0, n / 2, n - 8, n - 1, n + 1, n + 16, 2 * n};
    for (size_t i = 0; i < sizeof lengths / sizeof *lengths; i++) {
      lend_all(0, 0, lengths[i], 0);
      EXPECT(refused(view(0, 0), BC4_ENCODED_LENGTH, 0));
      EXPECT(refused(view(columns, rows), BC4_ENCODED_LENGTH, 0));
    }
  }
  set_size(1024, 1024);
  lend_all(0, 0, MOST_SAMPLES, 0);
  EXPECT(view(255, 255) == BC4_OK);
  EXPECT(taken_size(&offset) == MOST_SAMPLES - 16);
  EXPECT(untouched());
  every_size(view_size, SIZE_MAX, BC4_ENCODED_LENGTH);
}

/* ---- stack */
static uint32_t stack_options;
static void encode_once(void) { encode(stack_options); }
static void decode_once(void) { decode(stack_options); }
static void score_once(void) { score(stack_options); }
static void resend_once(void) { resend(stack_options); }
static void tile_once(void) { tile(stack_options); }
static void view_once(void) { view(0, 0); }

/* Every call is accepted, but for a resend with dither. */
static void stack(void) {
  static const struct {
    void (*call)(void);
    size_t side; /* of its tile */
  } calls[] = {{encode_once, 0}, {decode_once, 0}, {score_once, 0}, {resend_once, 0}, {tile_once, 8}, {view_once, 8}};
  static const uint32_t sets[] = {0, BC4_DITHER, BC4_SNORM, BC4_BRUTE_FORCE, 0xf8u | BC4_MAX_REFINE_ITER(10) | BC4_HIGH_QUALITY};
  for (size_t k = 0; k < sizeof calls / sizeof *calls; k++)
    for (size_t j = 0; j < sizeof sets / sizeof *sets; j++) {
      set_size(calls[k].side, calls[k].side);
      lend_right();
      for (size_t i = 0; i < right_count(); i++) {
        set_sample(&first, i, random_sample());
        set_sample(&second, i, random_sample());
      }
      stack_options = sets[j];
      stack_of(calls[k].call); /* the first call may look memcpy and memset up */
      EXPECT(stack_of(calls[k].call) < 5120);
    }
}

int main(void) {
  worked();
  block_refusals();
  tile_refusals();
  halves();
  encode_tiles();
  block_views();
  stack();
  return counted(__FILE__);
}
