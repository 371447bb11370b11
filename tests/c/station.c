/* Calls the exports of the receiving side with right and wrong arguments, and compares numbers, outcomes and every byte that was lent. What is expected is
   reckoned here, by counting editions up, and none of it is what the library once gave. Exits with 1 where anything differs. */
#include <string.h>
#include "station.h"
#include "lent.h"

#define MOST_PLACES (256u * 256u)
#define SPARE 64u /* bytes more than the largest tile or a message has, for calls that say more */
#define ENTRY sizeof(uint32_t)
LENT(tile, MOST_PLACES * 8 + SPARE);
LENT(editions, MOST_PLACES * 8 * ENTRY); /* for calls that say so many entries as the tile has bytes */
LENT(block, 8 + SPARE);
LENT(outcome, 1);
LENT(detail, sizeof(bc4_detail));
static lent *const all[] = {&tile, &editions, &block, &outcome, &detail};

static bool untouched(void) { return as_before(all, sizeof all / sizeof *all); }

/* The lengths that a call is told are those of what is lent. */
static void lend_all(size_t tile_length, size_t entries, size_t block_length) {
  lend(&tile, tile_length);
  lend(&editions, entries * ENTRY);
  lend(&block, block_length);
  lend(&outcome, 1);
  lend(&detail, sizeof(bc4_detail));
}

/* ---- a station: its size, a tile whose bytes are all different from the next ones and none 0 or the fill, and a record */
static size_t width, height;

static size_t places(void) { return width * height / 16; }

static void set_entry(size_t place, uint32_t entry) { put(&editions, place * ENTRY, &entry, ENTRY); }

static void lend_station(size_t w, size_t h) {
  width = w;
  height = h;
  lend_all(8 * places(), places(), 8);
  for (size_t i = 0; i < tile.length; i++) {
    const uint8_t byte = (uint8_t)(1 + i * 7919 % 1009 % (FILL - 1));
    put(&tile, i, &byte, 1);
  }
  for (size_t place = 0; place < places(); place++) set_entry(place, 0);
}

static uint32_t receive(size_t column, size_t row, uint16_t edition) {
  return bc4_receive(at(&tile), tile.length, at(&editions), editions.length / ENTRY, width, height, column, row, edition, at(&block), block.length,
                     at(&outcome), at(&detail));
}

/* ---- messages */
typedef struct {
  size_t place; /* counted as the tile's blocks are, row by row */
  uint16_t edition;
  uint8_t bytes[8];
} message;

static uint32_t arrives(const message *m) {
  const size_t columns = width / 4;
  put(&block, 0, m->bytes, 8);
  return receive(m->place % columns, m->place / columns, m->edition);
}

static bool refuses(const message *m, uint32_t number) { return refused(arrives(m), number, 0); }

/* What all that is lent has to hold after a message that is taken or that replaces. */
static void expect_at_place(const message *m) {
  const uint32_t entry = (uint32_t)m->edition + 1;
  memcpy(tile.before + 8 * m->place, m->bytes, 8);
  memcpy(editions.before + ENTRY * m->place, &entry, ENTRY);
}

/* The answer is 0 and the outcome this one. */
static bool comes_out(const message *m, uint8_t expected) {
  uint8_t got;
  const bool accepted = arrives(m) == BC4_OK;
  take(&outcome, &got, 1);
  if (expected == BC4_TAKEN || expected == BC4_REPLACED) expect_at_place(m);
  return accepted && got == expected;
}

/* And every byte of the tile, the record and all else is what it has to be. */
static bool becomes(const message *m, uint8_t expected) {
  const bool right = comes_out(m, expected);
  return untouched() && right;
}

static message message_of(size_t place, uint16_t edition, uint8_t first_byte) {
  message m = {place, edition, {0}};
  for (size_t k = 0; k < 8; k++) m.bytes[k] = (uint8_t)(first_byte + 17 * k);
  return m;
}

/* What a place holds already, as a message. */
static message held_at(size_t place, uint16_t edition) {
  message m = {place, edition, {0}};
  memcpy(m.bytes, tile.before + 8 * place, 8);
  return m;
}

/* ---- refusals */
/* With all else wrong, and a bad size with all else right. */
static void receive_size(size_t w, size_t h, uint32_t number, size_t side) {
  const size_t fits = area(w, h, 1028 * 4);
  width = w;
  height = h;
  lend_all(1, 3, 7);
  EXPECT(refused(receive(SIZE_MAX, SIZE_MAX, 0), number, side));
  if (side == 0) return;
  lend_all(fits / 2, fits / 16, 8);
  EXPECT(refused(receive(0, 0, 0), number, side));
}

/* What can be wrong besides a size. Of the last two one at most, since they say different things of one edition. */
enum { TILE = 1, RECORD = 2, BLOCK = 4, COLUMN = 8, ROW = 16, REUSED = 32, OPPOSITE = 64, FAULTS = 128 };
#define WAYS 6

/* A call that is right but for a set of faults, each made in one of its ways, is refused for the first of them. */
static bool refused_for(unsigned faults, size_t way) {
  const size_t n = places(), columns = width / 4, rows = height / 4;
  const size_t tiles[WAYS] = {8 * n - 1, 8 * n + 1, 0, 8 * n - 8, 8 * n + 8, n}, records[WAYS] = {n - 1, n + 1, 0, 2 * n, 8 * n, n / 2};
  const size_t blocks[WAYS] = {7, 9, 0, 16, 4, 1}, past[WAYS] = {0, 1, columns * rows, SIZE_MAX / 8 + 1 - columns, SIZE_MAX / 2, SIZE_MAX - columns - rows};
  const size_t column = faults & COLUMN ? columns + past[way] : way % columns, row = faults & ROW ? rows + past[way] : way % rows;
  const uint16_t edition = (uint16_t)(13107 * way);
  const uint32_t entry = faults & REUSED ? edition + 1u : faults & OPPOSITE ? (edition + 32768u) % 65536u + 1u : 0;
  lend_all(faults & TILE ? tiles[way] : 8 * n, faults & RECORD ? records[way] : n, faults & BLOCK ? blocks[way] : 8);
  for (size_t place = 0; place < editions.length / ENTRY; place++) set_entry(place, entry);
  if (block.length > 0) put(&block, 0, "a", 1); /* not what the tile holds */
  const uint32_t answer = receive(column, row, edition);
  if (faults & (TILE | RECORD | BLOCK)) return refused(answer, BC4_ENCODED_LENGTH, 0);
  if (faults & (COLUMN | ROW)) return refused(answer, BC4_NO_SUCH_BLOCK, 0);
  return refused(answer, faults & REUSED ? BC4_EDITION_REUSED : BC4_EDITION_OPPOSITE, 0);
}

static const size_t sizes[][2] = {{4, 4}, {8, 4}, {4, 8}, {12, 8}, {8, 12}, {20, 36}, {1024, 4}, {4, 1024}};
#define SIZES (sizeof sizes / sizeof *sizes)

static void refusals(void) {
  every_size(receive_size, SIZE_MAX, BC4_ENCODED_LENGTH);
  for (size_t k = 0; k < SIZES; k++) {
    lend_station(sizes[k][0], sizes[k][1]);
    for (unsigned faults = 1; faults < FAULTS; faults++)
      for (size_t way = 0; way < WAYS; way++)
        if ((faults & REUSED) == 0 || (faults & OPPOSITE) == 0) EXPECT(refused_for(faults, way));
  }
  lend_station(1024, 1024);
  for (size_t way = 0; way < WAYS; way++)
    for (unsigned fault = 1; fault < FAULTS; fault *= 2) EXPECT(refused_for(fault, way));
  for (size_t length = 0; length <= 8 + SPARE; length++) {
    if (length == 8) continue;
    lend_station(8, 8);
    lend(&block, length);
    EXPECT(refused(receive(1, 1, 5), BC4_ENCODED_LENGTH, 0));
    lend_station(8, 16);
    lend(&editions, length * ENTRY);
    EXPECT(refused(receive(1, 1, 5), BC4_ENCODED_LENGTH, 0));
    lend_station(4, 4);
    lend(&tile, length);
    EXPECT(refused(receive(0, 0, 5), BC4_ENCODED_LENGTH, 0));
  }
}

/* ---- one place */
/* A place whose entry means `held`, and one message of every edition, counted up from it: with the bytes that stand there, and with others. */
static void every_edition(uint32_t entry, uint16_t held) {
  uint16_t edition = held;
  for (uint32_t steps = 0; steps < 65536; steps++) {
    for (int other = 0; other < 2; other++) {
      message m = held_at(1, edition);
      if (other) m.bytes[steps % 8] ^= (uint8_t)(1u << steps / 8 % 8);
      set_entry(1, entry);
      if (steps == 0)
        EXPECT(other ? refuses(&m, BC4_EDITION_REUSED) : becomes(&m, BC4_REPEAT));
      else if (steps < 32768)
        EXPECT(becomes(&m, BC4_REPLACED));
      else if (steps == 32768)
        EXPECT(refuses(&m, BC4_EDITION_OPPOSITE));
      else
        EXPECT(becomes(&m, BC4_OLD));
    }
    edition = edition == 65535 ? 0 : edition + 1;
  }
}

static void entries(void) {
  static const struct {
    uint32_t entry;
    uint16_t edition;
  } read_as[] = {
      {1, 0}, {32768, 32767}, {32769, 32768}, {65536, 65535}, {65537, 0}, {65537 + 5, 5}, {0x12345678, 0x5677}, {0x80000000u, 65535}, {0xffffffffu, 65534},
  };
  lend_station(12, 4);
  set_entry(0, 7);
  for (size_t k = 0; k < sizeof read_as / sizeof *read_as; k++) every_edition(read_as[k].entry, read_as[k].edition);
}

/* From an empty place on, each message after the one before it. */
static void sequences(void) {
  const message zero = message_of(2, 0, 1), five = message_of(2, 5, 2), last = message_of(2, 65535, 3);
  const message below = message_of(2, 32767, 4), opposite = message_of(2, 32768, 5), over = message_of(2, 32769, 6);
  message other = five;
  lend_station(8, 8);
  EXPECT(becomes(&last, BC4_TAKEN));
  EXPECT(becomes(&zero, BC4_REPLACED));
  EXPECT(becomes(&last, BC4_OLD));
  EXPECT(refuses(&opposite, BC4_EDITION_OPPOSITE));
  EXPECT(becomes(&over, BC4_OLD));
  EXPECT(becomes(&below, BC4_REPLACED));
  EXPECT(becomes(&zero, BC4_OLD));
  lend_station(8, 8);
  EXPECT(becomes(&five, BC4_TAKEN));
  EXPECT(becomes(&five, BC4_REPEAT));
  for (size_t bit = 0; bit < 64; bit++) {
    other = five;
    other.bytes[bit / 8] ^= (uint8_t)(1u << bit % 8);
    EXPECT(refuses(&other, BC4_EDITION_REUSED));
  }
  EXPECT(becomes(&five, BC4_REPEAT));
  other.place = 3; /* the same edition with other bytes, of another place */
  EXPECT(becomes(&other, BC4_TAKEN));
}

/* An empty place takes any edition, and whatever bytes: those that the tile holds there too. */
static void empty_places(void) {
  static const uint16_t any[] = {0, 1, 32767, 32768, 32769, 65535};
  for (size_t k = 0; k < sizeof any / sizeof *any; k++) {
    lend_station(8, 4);
    const message same = held_at(0, any[k]), others = message_of(1, any[k], 9);
    EXPECT(becomes(&same, BC4_TAKEN));
    EXPECT(becomes(&others, BC4_TAKEN));
    EXPECT(becomes(&same, BC4_REPEAT));
    EXPECT(becomes(&others, BC4_REPEAT));
  }
}

/* Every place of a tile, the last one included: it is taken, replaced, repeated and found newer, and no other place changes. */
static void every_place(size_t w, size_t h) {
  lend_station(w, h);
  for (size_t k = 0; k < places(); k++) {
    const message first = message_of(k, (uint16_t)(65535 - k), (uint8_t)k), second = message_of(k, (uint16_t)(65535 - k + 3), (uint8_t)(k + 1));
    EXPECT(becomes(&first, BC4_TAKEN));
    EXPECT(becomes(&second, BC4_REPLACED));
    EXPECT(becomes(&second, BC4_REPEAT));
    EXPECT(becomes(&first, BC4_OLD));
  }
}

static void corners(void) {
  static const size_t of[] = {0, 255, 256, MOST_PLACES / 2, MOST_PLACES - 256, MOST_PLACES - 1};
  lend_station(1024, 1024);
  for (size_t k = 0; k < sizeof of / sizeof *of; k++) {
    const message m = message_of(of[k], (uint16_t)k, (uint8_t)k);
    EXPECT(becomes(&m, BC4_TAKEN));
  }
}

/* ---- histories. The sender counts with a number that does not wrap, of which the edition is what 16 bits keep; the newest is the one with the highest number.
   What a message holds follows from its place and its number, so that no edition names two contents. */
typedef struct {
  uint32_t place;
  uint32_t number;
} sent;

static message message_sent(sent s) {
  message m = {s.place, (uint16_t)s.number, {0}};
  for (size_t k = 0; k < 4; k++) {
    m.bytes[k] = (uint8_t)(s.number * 2654435761u >> 8 * k);
    m.bytes[4 + k] = (uint8_t)((s.place + s.number) * 2246822519u >> 8 * k);
  }
  return m;
}

/* Of each place one more than the highest number that arrived, and 0 where none did. */
static uint32_t newest[MOST_PLACES];

static uint8_t reckoned(sent s) {
  const uint32_t before = newest[s.place], now = s.number + 1;
  if (now > before) newest[s.place] = now;
  return before == 0 ? BC4_TAKEN : now == before ? BC4_REPEAT : now > before ? BC4_REPLACED : BC4_OLD;
}

static void forget(void) { memset(newest, 0, sizeof newest); }

/* Three messages of a place, each twice: all orders. */
static void every_order(uint32_t a, uint32_t b, uint32_t c) {
  const uint32_t numbers[] = {a, a, b, b, c, c};
  for (size_t order = 0; order < 720; order++) {
    bool left[6] = {true, true, true, true, true, true};
    size_t choices = order;
    message last = message_sent((sent){1, c});
    lend_station(8, 4);
    forget();
    for (size_t turn = 6; turn > 0; turn--) {
      size_t skip = choices % turn, k = 0;
      choices /= turn;
      while (!left[k] || skip-- > 0) k++;
      left[k] = false;
      const sent s = {1, numbers[k]};
      const message m = message_sent(s);
      EXPECT(becomes(&m, reckoned(s)));
    }
    const message held = held_at(1, last.edition);
    EXPECT(memcmp(held.bytes, last.bytes, 8) == 0);
    EXPECT(becomes(&last, BC4_REPEAT));
  }
}

static void orders(void) {
  every_order(0, 1, 2);
  every_order(0, 1, 32767);
  every_order(0, 32766, 32767);
  every_order(65534, 65535, 65536);
  every_order(65535, 65536, 65535 + 32767);
  every_order(40000, 65536, 40000 + 32767);
}

/* A long history on the largest tile, shuffled. Some messages are lost at first, and sent again when the others have arrived. */
#define MESSAGES 100000u
static sent history[MESSAGES];
static bool lost[MESSAGES];

/* The editions of a place lie within 32,767 steps, often with the first and the last of them; of half of the places they wrap. Half of the messages are of
   few places, so that these have many. */
static void make_history(void) {
  static uint32_t first[MOST_PLACES];
  for (size_t place = 0; place < MOST_PLACES; place++) first[place] = random_bits() % 65536;
  for (size_t i = 0; i < MESSAGES; i++) {
    const uint32_t place = random_bits() % 2 == 0 ? random_bits() % MOST_PLACES : random_bits() % 256 * 257, kind = random_bits() % 8;
    history[i] = (sent){place, first[place] + (kind == 0 ? 0 : kind == 1 ? 32767 : random_bits() % 32768)};
  }
}

static void shuffle(void) {
  for (uint32_t i = MESSAGES - 1; i > 0; i--) {
    const uint32_t k = random_bits() % (i + 1);
    const sent other = history[k];
    history[k] = history[i];
    history[i] = other;
  }
}

static long outcomes[5];

static bool as_reckoned(sent s) {
  const uint8_t expected = reckoned(s);
  const message m = message_sent(s);
  outcomes[expected]++;
  return comes_out(&m, expected);
}

/* The record and the tile of a station that holds the newest of each place, over the tile that was lent. */
static bool holds_newest(void) {
  uint8_t *bytes = at(&tile);
  for (uint32_t place = 0; place < MOST_PLACES; place++) {
    const uint32_t entry = newest[place] == 0 ? 0 : (newest[place] - 1) % 65536 + 1;
    const message m = message_sent((sent){place, newest[place] - 1});
    if (memcmp((uint8_t *)at(&editions) + ENTRY * place, &entry, ENTRY) != 0) return false;
    if (newest[place] != 0 && memcmp(bytes + 8 * place, m.bytes, 8) != 0) return false;
  }
  return untouched();
}

static void long_history(void) {
  static uint8_t first_tile[MOST_PLACES * 8], first_editions[MOST_PLACES * ENTRY];
  make_history();
  for (int way = 0; way < 3; way++) {
    lend_station(1024, 1024);
    forget();
    shuffle();
    for (size_t i = 0; i < MESSAGES; i++) {
      lost[i] = random_bits() % 8 == 0;
      if (lost[i]) continue;
      EXPECT(as_reckoned(history[i]));
      if (random_bits() % 4 == 0) EXPECT(as_reckoned(history[i]));
      const size_t earlier = random_bits() % (i + 1);
      if (!lost[earlier]) EXPECT(as_reckoned(history[earlier]));
    }
    EXPECT(holds_newest());
    for (size_t i = MESSAGES; i-- > 0;)
      if (lost[i] || random_bits() % 16 == 0) EXPECT(as_reckoned(history[i]));
    EXPECT(holds_newest());
    if (way == 0) {
      memcpy(first_tile, at(&tile), tile.length);
      memcpy(first_editions, at(&editions), editions.length);
      continue;
    }
    EXPECT(memcmp(first_tile, at(&tile), tile.length) == 0);
    EXPECT(memcmp(first_editions, at(&editions), editions.length) == 0);
  }
  for (size_t k = BC4_TAKEN; k <= BC4_OLD; k++) EXPECT(outcomes[k] > 10000);
}

/* ---- clearing */
static bool clears(void) {
  bc4_clear(at(&editions), editions.length / ENTRY);
  memset(editions.before, 0, editions.length);
  return untouched();
}

static void cleared(void) {
  const message newer = message_of(3, 9, 1), older = message_of(3, 8, 2), reused = message_of(3, 9, 3);
  lend_station(8, 8);
  EXPECT(becomes(&newer, BC4_TAKEN));
  EXPECT(becomes(&older, BC4_OLD));
  EXPECT(clears());
  EXPECT(becomes(&older, BC4_TAKEN));
  EXPECT(clears());
  EXPECT(becomes(&newer, BC4_TAKEN));
  EXPECT(clears());
  EXPECT(becomes(&reused, BC4_TAKEN)); /* an edition of another history names nothing in this one */
  for (size_t entries = 0; entries <= 70; entries++) {
    lend_all(8, entries, 8);
    EXPECT(clears());
    EXPECT(clears());
  }
  lend_all(8, MOST_PLACES, 8);
  EXPECT(clears());
}

/* ---- stack */
static message stack_message;
static void receive_once(void) { arrives(&stack_message); }
static void clear_once(void) { bc4_clear(at(&editions), editions.length / ENTRY); }

/* A message to a place with each of these entries: taken, repeated, replaced, old, and refused for its edition or the tile's size. */
static void stack(void) {
  static const uint32_t held[] = {0, 6, 5, 7, 5 + 32769};
  static const size_t sides[] = {4, 1024};
  for (size_t j = 0; j < sizeof sides / sizeof *sides; j++) {
    lend_station(sides[j], sides[j]);
    for (size_t k = 0; k <= sizeof held / sizeof *held; k++) {
      stack_message = held_at(0, 5);
      if (k < sizeof held / sizeof *held)
        set_entry(0, held[k]);
      else
        width = 6;
      stack_of(receive_once); /* the first call may look memcpy up */
      set_entry(0, k < sizeof held / sizeof *held ? held[k] : 0);
      EXPECT(stack_of(receive_once) < 4096);
    }
    stack_of(clear_once);
    EXPECT(stack_of(clear_once) < 4096);
  }
}

int main(void) {
  refusals();
  entries();
  sequences();
  empty_places();
  for (size_t k = 0; k < SIZES; k++) every_place(sizes[k][0], sizes[k][1]);
  corners();
  orders();
  long_history();
  cleared();
  stack();
  return counted(__FILE__);
}
