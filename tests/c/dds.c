/* Calls the exports for DDS files with right and wrong arguments, and compares numbers, values and every byte that was lent. What is expected follows from
   the format and from include/bc4.h; none of it is what the library once gave. Exits with 1 where anything differs. */
#include <string.h>
#include "bc4.h"
#include "lent.h"

#define HEADER 128u
#define EXTENSION 20u
#define MOST_TILE (1024u * 1024u / 2u)
#define SPARE 32u /* bytes behind what a right call needs, for calls that say more */
LENT(tile, MOST_TILE + SPARE);
LENT(out, HEADER + MOST_TILE + SPARE);
LENT(written, sizeof(size_t));
LENT(file, HEADER + EXTENSION + MOST_TILE + SPARE);
LENT(width, sizeof(size_t));
LENT(height, sizeof(size_t));
LENT(snorm, 1);
LENT(offset, sizeof(size_t));
LENT(detail, sizeof(bc4_detail));
static lent *const all[] = {&tile, &out, &written, &file, &width, &height, &snorm, &offset, &detail};

static bool untouched(void) { return as_before(all, sizeof all / sizeof *all); }

/* For a tile of so many bytes. None is 0 or the fill, so that one that is cleared or not written shows; they repeat with a period that fits no block. */
static void lend_all(size_t tile_length) {
  lend(&tile, tile_length + SPARE);
  lend(&out, HEADER + tile_length + SPARE);
  lend(&written, sizeof(size_t));
  lend(&file, HEADER + EXTENSION + tile_length + SPARE);
  lend(&width, sizeof(size_t));
  lend(&height, sizeof(size_t));
  lend(&snorm, 1);
  lend(&offset, sizeof(size_t));
  lend(&detail, sizeof(bc4_detail));
  for (size_t i = 0; i < tile.length; i++) {
    const uint8_t byte = (uint8_t)(1 + i * 7919 % 1009 % (FILL - 1));
    put(&tile, i, &byte, 1);
  }
}

/* ---- the format */
/* The header of an unsigned tile of 8 by 4: 32 fields, the lowest byte of each first. */
static const uint8_t eight_by_four[HEADER] = {
    /*   0 */ 'D', 'D', 'S', ' ', 124, 0, 0, 0, 0x07, 0x10, 0x08, 0, 4, 0, 0, 0, /* magic, header size, flags, height */
    /*  16 */ 8, 0, 0, 0, 16, 0, 0, 0, 0, 0, 0, 0, 1, 0, 0, 0, /* width, linear size, depth, mip count */
    /*  32 */ 0, 0, 0, 0, 0, 0, 0, 0, 0, 0, 0, 0, 0, 0, 0, 0, /* reserved, and the same up to 75 */
    /*  48 */ 0, 0, 0, 0, 0, 0, 0, 0, 0, 0, 0, 0, 0, 0, 0, 0,
    /*  64 */ 0, 0, 0, 0, 0, 0, 0, 0, 0, 0, 0, 0, 32, 0, 0, 0, /* the last is the pixel format size */
    /*  80 */ 4, 0, 0, 0, 'B', 'C', '4', 'U', 0, 0, 0, 0, 0, 0, 0, 0, /* pixel flags, four characters, bit count, a mask */
    /*  96 */ 0, 0, 0, 0, 0, 0, 0, 0, 0, 0, 0, 0, 0, 0x10, 0, 0, /* three masks, caps */
    /* 112 */ 0, 0, 0, 0, 0, 0, 0, 0, 0, 0, 0, 0, 0, 0, 0, 0, /* caps2, caps3, caps4, reserved */
};

#define FOUR(a, b, c, d) ((uint32_t)(a) | (uint32_t)(b) << 8 | (uint32_t)(c) << 16 | (uint32_t)(d) << 24)

static void set_in(uint8_t *bytes, size_t offset, uint32_t value) {
  for (size_t k = 0; k < 4; k++) bytes[offset + k] = (uint8_t)(value >> 8 * k);
}

static void header_of(uint8_t *bytes, size_t w, size_t h, bool is_signed) {
  memcpy(bytes, eight_by_four, HEADER);
  set_in(bytes, 12, (uint32_t)h);
  set_in(bytes, 16, (uint32_t)w);
  set_in(bytes, 20, (uint32_t)(w * h / 2));
  if (is_signed) bytes[87] = 'S';
}

/* ---- writing */
static uint32_t write_dds(size_t length, size_t w, size_t h, bool is_signed, size_t room) {
  return bc4_write_dds(at(&tile), length, w, h, is_signed, at(&out), room, at(&written), at(&detail));
}

/* The file is left in `got`. */
static uint8_t got[HEADER + MOST_TILE];
static bool writes(size_t w, size_t h, bool is_signed, size_t more) {
  const size_t length = w * h / 2;
  uint8_t header[HEADER];
  header_of(header, w, h, is_signed);
  lend_all(length);
  const bool wrote = write_dds(length, w, h, is_signed, HEADER + length + more) == BC4_OK;
  const bool counted_right = taken_size(&written) == HEADER + length;
  take(&out, got, HEADER + length);
  return wrote && counted_right && memcmp(got, header, HEADER) == 0 && memcmp(got + HEADER, at(&tile), length) == 0 && untouched();
}

static bool write_refuses_side(size_t length, size_t w, size_t h, size_t room, uint32_t number, size_t side) {
  return refused(write_dds(length, w, h, false, room), number, side) && refused(write_dds(length, w, h, true, room), number, side);
}

static bool write_refuses(size_t length, size_t w, size_t h, size_t room, uint32_t number) {
  return write_refuses_side(length, w, h, room, number, 0);
}

/* With all else wrong, and a bad size with all else right. */
static void write_size(size_t w, size_t h, uint32_t number, size_t side) {
  const size_t fits = area(w, h, 2 * tile.length) / 2;
  EXPECT(write_refuses_side(1, w, h, 0, number, side));
  if (side != 0) EXPECT(write_refuses_side(fits, w, h, HEADER + fits, number, side));
}

static void written_files(void) {
  EXPECT(writes(8, 4, false, 0));
  EXPECT(memcmp(got, eight_by_four, HEADER) == 0);
  for (size_t more = 0; more <= SPARE; more += SPARE / 2)
    for (int is_signed = 0; is_signed < 2; is_signed++) {
      EXPECT(writes(8, 4, is_signed, more));
      EXPECT(writes(4, 8, is_signed, more));
      EXPECT(writes(4, 4, is_signed, more));
      EXPECT(writes(12, 20, is_signed, more));
      EXPECT(writes(260, 516, is_signed, more));
      EXPECT(writes(4, 1024, is_signed, more));
      EXPECT(writes(1024, 4, is_signed, more));
      EXPECT(writes(1024, 1024, is_signed, more));
    }
  EXPECT(write_refuses(MOST_TILE - 1, 1024, 1024, HEADER + MOST_TILE, BC4_ENCODED_LENGTH));
  EXPECT(write_refuses(MOST_TILE + 1, 1024, 1024, HEADER + MOST_TILE, BC4_ENCODED_LENGTH));
  EXPECT(write_refuses(MOST_TILE, 1024, 1024, HEADER + MOST_TILE - 1, BC4_OUTPUT_LENGTH));
  EXPECT(write_refuses(MOST_TILE, 1024, 1024, MOST_TILE, BC4_OUTPUT_LENGTH));
  EXPECT(write_refuses_side(MOST_TILE, 1024, 1028, HEADER + MOST_TILE, BC4_SIDE_TOO_LARGE, BC4_HEIGHT));
  EXPECT(write_refuses_side(MOST_TILE, 1028, 1024, HEADER + MOST_TILE, BC4_SIDE_TOO_LARGE, BC4_WIDTH));
  lend_all(2056); /* what 1,028 by 4 asks for */
  every_size(write_size, SIZE_MAX, BC4_ENCODED_LENGTH);
  lend_all(16);
  for (size_t length = 0; length <= 16 + SPARE; length++) {
    if (length == 16) continue;
    EXPECT(write_refuses(length, 8, 4, HEADER + 16, BC4_ENCODED_LENGTH));
    EXPECT(write_refuses(length, 8, 4, HEADER + 15, BC4_ENCODED_LENGTH));
    EXPECT(write_refuses(length, 8, 4, 0, BC4_ENCODED_LENGTH));
  }
  for (size_t room = 0; room < HEADER + 16; room++) EXPECT(write_refuses(16, 8, 4, room, BC4_OUTPUT_LENGTH));
}

/* ---- reading */
/* What a file holds, and where. */
typedef struct {
  size_t w, h;
  bool is_signed;
  size_t offset, length;
} picture;

/* A right file, in each of the four ways to say a format; the tile's bytes go on behind it. */
enum kind { BC4U, BC4S, DX10_80, DX10_81, KINDS };
static picture lend_file(size_t w, size_t h, enum kind kind) {
  const bool extended = kind >= DX10_80;
  const picture p = {w, h, kind % 2 == 1, HEADER + (extended ? EXTENSION : 0), HEADER + (extended ? EXTENSION : 0) + w * h / 2};
  uint8_t head[HEADER + EXTENSION] = {0};
  header_of(head, w, h, kind == BC4S);
  if (extended) {
    set_in(head, 84, FOUR('D', 'X', '1', '0'));
    set_in(head, 128, p.is_signed ? 81 : 80);
    set_in(head, 132, 3); /* two dimensions */
    set_in(head, 140, 1);
  }
  lend_all(w * h / 2);
  put(&file, 0, head, p.offset);
  put(&file, p.offset, at(&tile), tile.length);
  return p;
}

static uint32_t word(size_t offset) {
  return FOUR(file.before[offset], file.before[offset + 1], file.before[offset + 2], file.before[offset + 3]);
}

static void set(size_t offset, uint32_t value) {
  uint8_t bytes[4];
  set_in(bytes, 0, value);
  put(&file, offset, bytes, 4);
}

static uint32_t read_dds(size_t length) {
  return bc4_read_dds(at(&file), length, at(&width), at(&height), at(&snorm), at(&offset), at(&detail));
}

static bool reads(picture p) {
  uint8_t flag;
  const bool read = read_dds(p.length) == BC4_OK;
  const bool w = taken_size(&width) == p.w, h = taken_size(&height) == p.h, start = taken_size(&offset) == p.offset;
  take(&snorm, &flag, 1);
  return read && w && h && start && flag == (p.is_signed ? 1 : 0) && untouched();
}

static bool refuses(size_t length, uint32_t number, size_t field) { return refused(read_dds(length), number, field); }

static void lengths(void) {
  for (enum kind kind = BC4U; kind < KINDS; kind++) {
    const picture p = lend_file(8, 4, kind);
    for (size_t length = 0; length <= p.length + SPARE; length++) {
      if (length < HEADER)
        EXPECT(refuses(length, BC4_DDS_CUT, BC4_FIELD_HEADER));
      else if (length < p.offset)
        EXPECT(refuses(length, BC4_DDS_CUT, BC4_FIELD_EXTENSION));
      else if (length != p.length)
        EXPECT(refuses(length, BC4_DDS_BODY, 0));
      else
        EXPECT(reads(p));
    }
  }
  /* no field is looked at before the file is as long as its header */
  lend_all(16);
  for (size_t length = 0; length < HEADER; length++) EXPECT(refuses(length, BC4_DDS_CUT, BC4_FIELD_HEADER));
  EXPECT(refuses(HEADER, BC4_DDS_MARK, BC4_FIELD_MAGIC));
  for (enum kind kind = BC4U; kind < KINDS; kind++) {
    const picture p = lend_file(1024, 1024, kind);
    EXPECT(reads(p));
    EXPECT(refuses(p.length - 1, BC4_DDS_BODY, 0));
    EXPECT(refuses(p.length + 1, BC4_DDS_BODY, 0));
    EXPECT(refuses(p.length - EXTENSION, BC4_DDS_BODY, 0));
    EXPECT(refuses(p.length + EXTENSION, BC4_DDS_BODY, 0));
    EXPECT(refuses(p.offset, BC4_DDS_BODY, 0));
    EXPECT(refuses(HEADER - 1, BC4_DDS_CUT, BC4_FIELD_HEADER));
  }
}

/* The fields that a refusal names, in the order in which they are looked at; those from 128 on are there with DX10 alone. */
static const struct named {
  size_t offset;
  uint32_t wrong; /* a value that is refused */
  uint32_t bits;  /* those that, changed alone, make the field of a right file of 8 by 4 wrong */
  uint32_t number;
  size_t field;
} fields[] = {
    {0, FOUR('d', 'd', 's', ' '), 0xffffffff, BC4_DDS_MARK, BC4_FIELD_MAGIC},
    {4, 125, 0xffffffff, BC4_DDS_MARK, BC4_FIELD_HEADER_SIZE},
    {84, FOUR('A', 'T', 'I', '1'), 0xffffffff, BC4_DDS_FORMAT, BC4_FIELD_FOUR_CHARACTERS},
    {128, 83, 0xfffffffe, BC4_DDS_FORMAT, BC4_FIELD_EXTENSION_FORMAT}, /* 80 and 81 differ in the lowest bit */
    {28, 2, 0xfffffffe, BC4_DDS_PICTURES, BC4_FIELD_MIP_COUNT},
    {24, 2, 0xfffffffe, BC4_DDS_PICTURES, BC4_FIELD_DEPTH},
    {112, 0x400, 0xfc00, BC4_DDS_PICTURES, BC4_FIELD_CUBE_FACES},
    {140, 2, 0xffffffff, BC4_DDS_PICTURES, BC4_FIELD_ARRAY_SIZE},
    {16, 0, 8, BC4_SIDE_IS_ZERO, BC4_WIDTH},
    {12, 0, 4, BC4_SIDE_IS_ZERO, BC4_HEIGHT},
    {16, 2000, 0xfffffc00, BC4_SIDE_TOO_LARGE, BC4_WIDTH},
    {12, 2000, 0xfffffc00, BC4_SIDE_TOO_LARGE, BC4_HEIGHT},
    {16, 6, 3, BC4_SIDE_NOT_MULTIPLE_OF_4, BC4_WIDTH},
    {12, 6, 3, BC4_SIDE_NOT_MULTIPLE_OF_4, BC4_HEIGHT},
};
#define FIELDS (sizeof fields / sizeof *fields)

static const struct named *named_at(size_t offset, uint32_t bits) {
  for (size_t i = 0; i < FIELDS; i++)
    if (fields[i].offset == offset && (fields[i].bits & bits) != 0) return fields + i;
  return NULL;
}

/* Each bit of the headers, changed alone: refused by the name of its field, or read with the same answer. */
static void every_bit(void) {
  for (enum kind kind = BC4U; kind < KINDS; kind++) {
    const picture p = lend_file(8, 4, kind);
    picture other_format = p;
    other_format.is_signed = !p.is_signed;
    for (size_t where = 0; where < p.offset; where += 4)
      for (uint32_t bit = 1; bit != 0; bit <<= 1) {
        const struct named *f = named_at(where, bit);
        set(where, word(where) ^ bit);
        if (f != NULL)
          EXPECT(refuses(p.length, f->number, f->field));
        else if (where == 12 || where == 16)
          EXPECT(refuses(p.length, BC4_DDS_BODY, 0)); /* a size that another body goes with */
        else if (where == 128)
          EXPECT(reads(other_format));
        else
          EXPECT(reads(p));
        set(where, word(where) ^ bit);
      }
  }
}

/* All that no refusal looks at, at once. */
static void unnamed(void) {
  static const uint32_t values[] = {0, 0xffffffff, FOUR('D', 'D', 'S', ' '), 0x01020304};
  for (enum kind kind = BC4U; kind < KINDS; kind++)
    for (size_t k = 0; k < sizeof values / sizeof *values; k++) {
      const picture p = lend_file(8, 4, kind);
      for (size_t where = 0; where < p.offset; where += 4)
        if (named_at(where, 0xffffffff) == NULL) set(where, values[k]);
      set(112, values[k] & ~(uint32_t)0xfc00);
      EXPECT(reads(p));
      for (size_t where = p.offset; where < p.length; where += 4) set(where, values[k]);
      EXPECT(reads(p));
    }
}

/* One field with a value at an edge, or one that another reader may take. BC4_OK where the file is read with the same answer. */
static void edges(void) {
  static const struct {
    size_t offset;
    uint32_t value, number;
    size_t field;
  } cases[] = {
      {0, FOUR(' ', 'S', 'D', 'D'), BC4_DDS_MARK, BC4_FIELD_MAGIC},
      {0, FOUR('D', 'D', 'S', 0), BC4_DDS_MARK, BC4_FIELD_MAGIC},
      {0, 0, BC4_DDS_MARK, BC4_FIELD_MAGIC},
      {4, 0, BC4_DDS_MARK, BC4_FIELD_HEADER_SIZE},
      {4, 123, BC4_DDS_MARK, BC4_FIELD_HEADER_SIZE},
      {4, 128, BC4_DDS_MARK, BC4_FIELD_HEADER_SIZE},
      {4, 144, BC4_DDS_MARK, BC4_FIELD_HEADER_SIZE},
      {84, 0, BC4_DDS_FORMAT, BC4_FIELD_FOUR_CHARACTERS},
      {84, 80, BC4_DDS_FORMAT, BC4_FIELD_FOUR_CHARACTERS},
      {84, FOUR('U', '4', 'C', 'B'), BC4_DDS_FORMAT, BC4_FIELD_FOUR_CHARACTERS},
      {84, FOUR('b', 'c', '4', 'u'), BC4_DDS_FORMAT, BC4_FIELD_FOUR_CHARACTERS},
      {84, FOUR('B', 'C', '4', 0), BC4_DDS_FORMAT, BC4_FIELD_FOUR_CHARACTERS},
      {84, FOUR('B', 'C', '5', 'U'), BC4_DDS_FORMAT, BC4_FIELD_FOUR_CHARACTERS},
      {84, FOUR('A', 'T', 'I', '2'), BC4_DDS_FORMAT, BC4_FIELD_FOUR_CHARACTERS},
      {84, FOUR('D', 'X', 'T', '1'), BC4_DDS_FORMAT, BC4_FIELD_FOUR_CHARACTERS},
      {128, 0, BC4_DDS_FORMAT, BC4_FIELD_EXTENSION_FORMAT},
      {128, 79, BC4_DDS_FORMAT, BC4_FIELD_EXTENSION_FORMAT},
      {128, 82, BC4_DDS_FORMAT, BC4_FIELD_EXTENSION_FORMAT},
      {128, 0xffffffff, BC4_DDS_FORMAT, BC4_FIELD_EXTENSION_FORMAT},
      {28, 0, BC4_OK, 0},
      {28, 1, BC4_OK, 0},
      {28, 2, BC4_DDS_PICTURES, BC4_FIELD_MIP_COUNT},
      {28, 0xffffffff, BC4_DDS_PICTURES, BC4_FIELD_MIP_COUNT},
      {24, 0, BC4_OK, 0},
      {24, 1, BC4_OK, 0},
      {24, 2, BC4_DDS_PICTURES, BC4_FIELD_DEPTH},
      {24, 0xffffffff, BC4_DDS_PICTURES, BC4_FIELD_DEPTH},
      {112, 0x200, BC4_OK, 0}, /* a cube without faces */
      {112, 0x400, BC4_DDS_PICTURES, BC4_FIELD_CUBE_FACES},
      {112, 0x800, BC4_DDS_PICTURES, BC4_FIELD_CUBE_FACES},
      {112, 0x1000, BC4_DDS_PICTURES, BC4_FIELD_CUBE_FACES},
      {112, 0x2000, BC4_DDS_PICTURES, BC4_FIELD_CUBE_FACES},
      {112, 0x4000, BC4_DDS_PICTURES, BC4_FIELD_CUBE_FACES},
      {112, 0x8000, BC4_DDS_PICTURES, BC4_FIELD_CUBE_FACES},
      {112, 0x600, BC4_DDS_PICTURES, BC4_FIELD_CUBE_FACES},
      {112, 0xfe00, BC4_DDS_PICTURES, BC4_FIELD_CUBE_FACES},
      {112, 0xffffffff, BC4_DDS_PICTURES, BC4_FIELD_CUBE_FACES},
      {112, 0xffff03ff, BC4_OK, 0},
      {140, 0, BC4_DDS_PICTURES, BC4_FIELD_ARRAY_SIZE},
      {140, 1, BC4_OK, 0},
      {140, 2, BC4_DDS_PICTURES, BC4_FIELD_ARRAY_SIZE},
      {140, 0xffffffff, BC4_DDS_PICTURES, BC4_FIELD_ARRAY_SIZE},
      {16, 0x00010008, BC4_SIDE_TOO_LARGE, BC4_WIDTH},
      {12, 0x00010004, BC4_SIDE_TOO_LARGE, BC4_HEIGHT},
      {16, 12, BC4_DDS_BODY, 0},
      {12, 8, BC4_DDS_BODY, 0},
  };
  for (enum kind kind = BC4U; kind < KINDS; kind++) {
    const picture p = lend_file(8, 4, kind);
    for (size_t k = 0; k < sizeof cases / sizeof *cases; k++) {
      const size_t where = cases[k].offset;
      if (where >= p.offset) continue;
      const uint32_t was = word(where);
      set(where, cases[k].value);
      EXPECT(cases[k].number == BC4_OK ? reads(p) : refuses(p.length, cases[k].number, cases[k].field));
      set(where, was);
    }
  }
}

/* With a wrong body, and a bad size with a body of as many bytes as it asks for, where that is possible. */
static void read_size(size_t w, size_t h, uint32_t number, size_t side) {
  for (enum kind kind = BC4U; kind < KINDS; kind++) {
    const picture p = lend_file(1024, 4, kind);
    set(16, (uint32_t)w);
    set(12, (uint32_t)h);
    EXPECT(refuses(p.offset + 1, number, side));
    if (side != 0) EXPECT(refuses(p.offset + area(w, h, 2 * tile.length) / 2, number, side));
  }
}

/* Of two fields that are wrong the earlier one is named, and either before a body of a wrong length and after headers that are cut. Then all are wrong,
   and become right from the first to the last. A side is wrong in three ways, one after the other. */
static void order(void) {
  for (enum kind kind = BC4U; kind < KINDS; kind++) {
    const picture p = lend_file(8, 4, kind);
    uint32_t right[FIELDS];
    for (size_t i = 0; i < FIELDS; i++) right[i] = word(fields[i].offset);
    for (size_t i = 0; i < FIELDS; i++)
      for (size_t j = i; j < FIELDS; j++) {
        if (fields[i].offset >= p.offset || fields[j].offset >= p.offset) continue;
        if (i != j && fields[i].offset == fields[j].offset) continue;
        set(fields[i].offset, fields[i].wrong);
        set(fields[j].offset, fields[j].wrong);
        EXPECT(refuses(p.length, fields[i].number, fields[i].field));
        EXPECT(refuses(p.length - 1, fields[i].number, fields[i].field));
        EXPECT(refuses(p.length + 1, fields[i].number, fields[i].field));
        EXPECT(refuses(p.offset, fields[i].number, fields[i].field));
        EXPECT(refuses(HEADER - 1, BC4_DDS_CUT, BC4_FIELD_HEADER));
        if (p.offset > HEADER && word(84) == FOUR('D', 'X', '1', '0')) EXPECT(refuses(p.offset - 1, BC4_DDS_CUT, BC4_FIELD_EXTENSION));
        set(fields[i].offset, right[i]);
        set(fields[j].offset, right[j]);
      }
    for (size_t i = 0; i < FIELDS; i++) {
      if (fields[i].offset >= p.offset) continue;
      for (size_t j = FIELDS; j-- > i;) /* so that of a side's ways the first that is left is set last */
        if (fields[j].offset < p.offset) set(fields[j].offset, fields[j].wrong);
      EXPECT(refuses(p.length + 1, fields[i].number, fields[i].field));
      set(fields[i].offset, right[i]);
    }
    EXPECT(refuses(p.length + 1, BC4_DDS_BODY, 0));
    EXPECT(reads(p));
  }
}

/* ---- what was written is read: the size, the format and the tile's bytes */
static bool comes_back(size_t w, size_t h) {
  for (int is_signed = 0; is_signed < 2; is_signed++) {
    const picture p = {w, h, is_signed, HEADER, HEADER + w * h / 2};
    if (!writes(w, h, is_signed, 0)) return false;
    put(&file, 0, got, p.length);
    if (!reads(p) || memcmp(file.before + p.offset, at(&tile), p.length - p.offset) != 0) return false;
  }
  return true;
}

static void there_and_back(void) {
  for (size_t side = 4; side <= 1024; side += 4) {
    EXPECT(comes_back(side, 4));
    EXPECT(comes_back(4, side));
  }
  EXPECT(comes_back(12, 20));
  EXPECT(comes_back(516, 260));
  EXPECT(comes_back(1020, 1024));
  EXPECT(comes_back(1024, 1020));
  EXPECT(comes_back(1024, 1024));
}

/* ---- stack */
static picture stack_picture;
static void write_once(void) { write_dds(stack_picture.w * stack_picture.h / 2, stack_picture.w, stack_picture.h, stack_picture.is_signed, out.length); }
static void read_once(void) { read_dds(stack_picture.length); }
static void refuse_once(void) { read_dds(stack_picture.length + 1); }

static void stack(void) {
  static void (*const calls[])(void) = {write_once, read_once, refuse_once};
  static const size_t sizes[] = {4, 1024};
  for (enum kind kind = BC4U; kind < KINDS; kind++)
    for (size_t j = 0; j < sizeof sizes / sizeof *sizes; j++) {
      stack_picture = lend_file(sizes[j], sizes[j], kind);
      for (size_t k = 0; k < sizeof calls / sizeof *calls; k++) {
        stack_of(calls[k]); /* the first call may look memcpy and memset up */
        EXPECT(stack_of(calls[k]) < 4096);
      }
    }
}

int main(void) {
  written_files();
  lengths();
  every_bit();
  unnamed();
  edges();
  every_size(read_size, 0xffffffff, BC4_DDS_BODY);
  order();
  there_and_back();
  stack();
  return counted(__FILE__);
}
