/* What the C tests of the library share: checks that are counted, what a call is lent, numbers by chance, sizes, and how far down the stack a call writes. */
#ifndef LENT_H
#define LENT_H

#include <stdio.h>
#include <string.h>
#include "bc4.h"

static long checks, differ;

static void expect(bool holds, const char *file, int line, const char *what) {
  checks++;
  if (!holds) {
    differ++;
    printf("%s:%d: %s\n", file, line, what);
  }
}
#define EXPECT(holds) expect((holds), __FILE__, __LINE__, #holds)

/* The last line, and the exit status. */
static int counted(const char *file) {
  printf("%s: %ld checks, %ld differ\n", file, checks, differ);
  return differ != 0;
}

/* ---- what a call is lent: a stretch of bytes with a fill on both sides, and what the stretch held before the call */
#define SIDE 64
#define FILL 0xa5
typedef struct {
  uint8_t *bytes; /* a side, the stretch, a side */
  uint8_t *before;
  size_t length;
} lent;

/* A stretch that can be `most` bytes long. Aligned, since a call may be lent a number there. */
#define LENT(name, most)                                                                               \
  static uint8_t name##_bytes[SIDE + (most) + SIDE] __attribute__((aligned(16))), name##_before[most]; \
  static lent name = {name##_bytes, name##_before, 0}

static void *at(lent *l) { return l->bytes + SIDE; }

static void lend(lent *l, size_t length) {
  memset(l->bytes, FILL, SIDE + length + SIDE);
  memset(l->before, FILL, length);
  l->length = length;
}

static void put(lent *l, size_t offset, const void *from, size_t length) {
  memcpy(l->bytes + SIDE + offset, from, length);
  memcpy(l->before + offset, from, length);
}

/* What a call was to write is given back first, by `take`; then every byte of every stretch and of its sides is as before. */
static void take(lent *l, void *to, size_t length) {
  memcpy(to, at(l), length);
  memcpy(at(l), l->before, length);
}

static bool as_before(lent *const *all, size_t count) {
  for (size_t i = 0; i < count; i++) {
    const lent *l = all[i];
    if (memcmp(l->bytes + SIDE, l->before, l->length) != 0) return false;
    for (size_t k = 0; k < SIDE; k++)
      if (l->bytes[k] != FILL || l->bytes[SIDE + l->length + k] != FILL) return false;
  }
  return true;
}

/* `inline` are those that not every test calls: a compiler says nothing of them where none does. */
static inline size_t taken_size(lent *l) {
  size_t n;
  take(l, &n, sizeof n);
  return n;
}

/* Each test has these two: what a refusal says besides its number, and whether all that it lends is as before. */
static lent detail;
static bool untouched(void);

/* Every number of the detail is written. */
static bool told(size_t what, size_t index, size_t row, size_t column) {
  bc4_detail d;
  take(&detail, &d, sizeof d);
  return d.what == what && d.index == index && d.row == row && d.column == column;
}

/* A refusal that says a side or a field, and nothing else. Where `what` is 0 it says nothing, and the detail stays too. */
static bool refused(uint32_t answer, uint32_t number, size_t what) {
  const bool told_what = what == 0 || told(what, 0, 0, 0);
  return answer == number && told_what && untouched();
}

/* ---- numbers, pseudo-random, the same in each run */
static inline uint32_t random_bits(void) {
  static uint32_t state = 2463534242u;
  state ^= state << 13;
  state ^= state >> 17;
  return state ^= state << 5;
}

/* ---- sizes */
/* The samples of a size, but no more than `most`, for what a call with a size that has too many is lent. */
static size_t area(size_t width, size_t height, size_t most) { return height == 0 || width <= most / height ? width * height : most; }

static bool is_wrong(uint32_t number, size_t side) {
  switch (number) {
  case 1: return side == 0;
  case 9: return side > 1024;
  default: return side % 4 != 0; /* 10 */
  }
}

/* The number comes first, and then the width before the height. 0 for a good size. */
static uint32_t size_refusal(size_t width, size_t height, size_t *side) {
  static const uint32_t numbers[] = {1, 9, 10};
  const size_t sides[] = {width, height};
  for (size_t n = 0; n < 3; n++)
    for (size_t s = 0; s < 2; s++)
      if (is_wrong(numbers[n], sides[s])) {
        *side = s + 1;
        return numbers[n];
      }
  *side = 0;
  return 0;
}

/* Hands sizes to `ask`, with the number and the side that a call has to answer: for a good size `next`, the number of what is wrong besides, and no side.
   `largest` is the largest side that the call can be told. */
static void every_size(void (*ask)(size_t width, size_t height, uint32_t number, size_t side), size_t largest, uint32_t next) {
  const struct {
    size_t width, height;
    uint32_t number;
    size_t side;
  } listed[] = {
      {6, 0, BC4_SIDE_IS_ZERO, BC4_HEIGHT},
      {6, 2000, BC4_SIDE_TOO_LARGE, BC4_HEIGHT},
      {2000, 6, BC4_SIDE_TOO_LARGE, BC4_WIDTH},
      {1026, 4, BC4_SIDE_TOO_LARGE, BC4_WIDTH},
      {6, 6, BC4_SIDE_NOT_MULTIPLE_OF_4, BC4_WIDTH},
      {4, 6, BC4_SIDE_NOT_MULTIPLE_OF_4, BC4_HEIGHT},
      {0, 0, BC4_SIDE_IS_ZERO, BC4_WIDTH},
      {0, 2000, BC4_SIDE_IS_ZERO, BC4_WIDTH},
      {1028, 1028, BC4_SIDE_TOO_LARGE, BC4_WIDTH},
      {1024, 1024, next, 0},
      {largest, 4, BC4_SIDE_TOO_LARGE, BC4_WIDTH},
      {4, largest, BC4_SIDE_TOO_LARGE, BC4_HEIGHT},
      {6, largest, BC4_SIDE_TOO_LARGE, BC4_HEIGHT},
      {largest, largest, BC4_SIDE_TOO_LARGE, BC4_WIDTH},
      {largest, 0, BC4_SIDE_IS_ZERO, BC4_HEIGHT},
      {0, largest, BC4_SIDE_IS_ZERO, BC4_WIDTH},
  };
  /* the last two of the second row are right where only the lower 16 or 32 bits are looked at; of 32 bits, the last is 8 */
  const size_t sides[] = {
      0, 1, 2, 3, 4, 5, 6, 7, 8, 12, 1020, 1022, 1023, 1024, 1025, 1026, 1028, 2000, 65536, 4294967295,
      largest / 2 + 1, largest - 3, largest, 0x10008, largest - 0xffffffff + 8,
  };
  const size_t count = sizeof sides / sizeof *sides;
  for (size_t k = 0; k < sizeof listed / sizeof *listed; k++) ask(listed[k].width, listed[k].height, listed[k].number, listed[k].side);
  for (size_t w = 0; w < count; w++)
    for (size_t h = 0; h < count; h++) {
      size_t side;
      const uint32_t number = size_refusal(sides[w], sides[h], &side);
      ask(sides[w], sides[h], number == 0 ? next : number, side);
    }
}

/* ---- stack: how far down a call writes, seen in a stretch below the stack pointer that was filled before */
__attribute__((noinline)) static long stack_of(void (*call)(void)) {
  volatile uint8_t *frame = __builtin_frame_address(0);
  long below;
  for (below = 512; below < 32768; below++) frame[-below] = FILL;
  call();
  for (below = 32767; below > 512 && frame[-below] == FILL;) below--;
  return below;
}

#endif
