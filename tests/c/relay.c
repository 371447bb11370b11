/* A drone sends a wetness map, block by block, over three relays to a station. Each link loses, repeats and delays, so that messages come twice, late or
   behind newer ones, and what is not acknowledged in time is sent again, encoded with more refinement. The station takes messages by their editions, as
   include/station.h has it. Beside it, with the same messages over the same links, is the old way: every try is encoded afresh, and whatever arrives last is
   put over what is held. All is pseudo-random from one seed. Exits with 1, and lines that say what is wrong, where the station's way is not as it has to be. */
#include <stdio.h>
#include <string.h>
#include "shoreline.h"
#include "station.h"
#include "wetness.h"

/* ---- what is simulated. A tick is the unit of time; "one in" is a chance at each link that a message takes. */
enum {
  TILE = 8 * PLACES, /* bytes */

  LINKS = 4, /* drone, three relays, station; acknowledgements take the same four back */
  LOST = 10, /* one in */
  DOUBLED = 10, /* one in: two go on, each with a delay of its own */
  DELAY = 8, /* ticks at most, 1 at least */
  KEPT = 10, /* one in: the next is out of reach, and the message is kept for some time more */
  KEPT_LEAST = 50,
  KEPT_MOST = 200,

  MEASURED = 8, /* places a tick */
  PATIENCE = 64, /* ticks from a try to the next where no acknowledgement comes */
  FIRST_EDITION = 65533, /* so that the editions wrap in the run */
  MOST_TRIES = 100,
  MOST_FLYING = 65536,
  TABLE = 100, /* ticks from a line of the table to the next */
  DATA = 5, /* and of the data */
};

/* What the tries of a place are encoded with; those after the last are as the last. */
static const uint32_t efforts[] = {
    0,
    BC4_MAX_REFINE_ITER(2),
    BC4_MAX_REFINE_ITER(4) | BC4_MEDIUM_QUALITY,
    BC4_MAX_REFINE_ITER(7) | BC4_HIGH_QUALITY,
    BC4_MAX_REFINE_ITER(10) | BC4_HIGH_QUALITY | BC4_USE_INTER4,
    BC4_MAX_REFINE_ITER(10) | BC4_HIGH_QUALITY | BC4_USE_INTER4 | BC4_SIZE_VARIATIONS,
};
enum { EFFORTS = sizeof efforts / sizeof *efforts };

/* ---- checks */
static uint32_t now; /* the tick */
static long wrongs;

static void check(bool holds, const char *what, size_t place) {
  if (!holds && ++wrongs <= 10) printf("wrong at tick %u, place %zu: %s\n", (unsigned)now, place, what);
}

static void check_run(bool holds, const char *what) {
  if (!holds && ++wrongs <= 10) printf("wrong in the run: %s\n", what);
}

static bc4_detail detail;

static void answered(uint32_t refused, const char *call, size_t place) {
  if (refused != BC4_OK && ++wrongs <= 10) printf("wrong at tick %u, place %zu: %s refuses, %u\n", (unsigned)now, place, call, (unsigned)refused);
}

static float error_of(size_t place, const uint8_t *block) {
  float samples[16], error = 0;
  samples_of(place, samples);
  answered(bc4_block_error(samples, 16, block, 8, false, &error, &detail), "bc4_block_error", place);
  return error;
}

/* ---- links */
typedef struct {
  uint32_t due; /* when it is at the end of its link */
  uint32_t links; /* that it still has to take, this one among them */
  bool back; /* an acknowledgement, of which the rest is place and edition alone */
  size_t place;
  uint16_t edition;
  uint8_t block[8];
  uint32_t try; /* carried for the old way and the checks: the station does not look at it */
  uint8_t afresh[8]; /* what the old way sends */
} message;

static message flying[MOST_FLYING];
static size_t flying_count;
typedef struct {
  long sent, doubled, lost, arrived;
} traffic;
static traffic there, back;

static traffic *traffic_of(const message *m) { return m->back ? &back : &there; }

static void put_on_link(message m) {
  m.due = now + 1 + random_below(DELAY);
  if (one_in(KEPT)) m.due += KEPT_LEAST + random_below(KEPT_MOST - KEPT_LEAST + 1);
  check(flying_count < MOST_FLYING, "too many messages on the way", m.place);
  if (flying_count < MOST_FLYING) flying[flying_count++] = m;
}

static void take_link(message m) {
  if (one_in(LOST)) {
    traffic_of(&m)->lost++;
    return;
  }
  put_on_link(m);
  if (one_in(DOUBLED)) {
    traffic_of(&m)->doubled++;
    put_on_link(m);
  }
}

static void send(message m) {
  m.links = LINKS;
  traffic_of(&m)->sent++;
  take_link(m);
}

/* ---- the drone */
static struct {
  uint32_t tries;
  uint32_t next; /* when it is sent again */
  bool acknowledged;
  uint16_t edition; /* the newest sent, with its bytes and their error */
  uint8_t block[8];
  float error;
  float first_error; /* of the first edition */
} drone[PLACES];
static size_t measured_count, acknowledged_count;
static long editions_sent, wrapped;

/* What each try sent, by its number, and how many corrections were made until then: the list that the station is checked against. */
static struct {
  uint8_t block[8];
  uint32_t corrections;
} sent[PLACES][MOST_TRIES];

static uint32_t effort_of(uint32_t try) { return efforts[try < EFFORTS ? try : EFFORTS - 1]; }

/* The bytes to send from now on, and whether they are another edition than the last. */
static bool encode_try(size_t place, uint32_t try, uint8_t *block) {
  float samples[16];
  uint8_t fresh = 0;
  samples_of(place, samples);
  if (try == 0)
    answered(bc4_encode_block(samples, 16, effort_of(0), block, &detail), "bc4_encode_block", place);
  else
    answered(bc4_resend(samples, 16, drone[place].block, 8, effort_of(try), block, &fresh, &detail), "bc4_resend", place);
  return fresh == 1;
}

static void new_edition(size_t place, const uint8_t *block) {
  const float error = error_of(place, block);
  const bool first = drone[place].tries == 0;
  check(first || error <= drone[place].error, "an edition is sent whose block error is above that of the one before", place);
  drone[place].edition = (uint16_t)(first ? FIRST_EDITION + place % 3 : drone[place].edition + 1u);
  drone[place].error = error;
  if (first) drone[place].first_error = error;
  memcpy(drone[place].block, block, 8);
  editions_sent++;
  if (drone[place].edition == 0) wrapped++;
}

static void send_try(size_t place) {
  const uint32_t try = drone[place].tries;
  message m = {.place = place, .try = try};
  float samples[16];
  const bool fresh = encode_try(place, try, m.block);
  if (try == 0 || fresh) new_edition(place, m.block);
  m.edition = drone[place].edition;
  samples_of(place, samples);
  answered(bc4_encode_block(samples, 16, effort_of(try), m.afresh, &detail), "bc4_encode_block", place);
  memcpy(sent[place][try].block, m.block, 8);
  sent[place][try].corrections = try == 0 ? 0 : sent[place][try - 1].corrections + fresh;
  drone[place].tries++;
  drone[place].next = now + PATIENCE;
  send(m);
}

static void fly(void) {
  for (size_t place = 0; place < measured_count; place++)
    if (!drone[place].acknowledged && drone[place].next == now) {
      if (drone[place].tries < MOST_TRIES)
        send_try(place);
      else
        check(false, "no acknowledgement after the last try", place);
    }
  for (int i = 0; i < MEASURED && measured_count < PLACES; i++) send_try(measured_count++);
}

/* Of an older edition it says nothing about the newest. */
static void take_acknowledgement(const message *m) {
  if (drone[m->place].acknowledged || m->edition != drone[m->place].edition) return;
  drone[m->place].acknowledged = true;
  acknowledged_count++;
}

/* ---- the two ways to hold what arrives */
enum { STATION, OLD_WAY, WAYS };
static uint8_t tile[WAYS][TILE];
static uint32_t editions[PLACES];
static float pictures[WAYS][SAMPLES]; /* what the tiles decode to */
static struct {
  bool held;
  uint32_t newest; /* of the tries that arrived */
  uint32_t last; /* the one that arrived last before, which the old way holds */
  float error[WAYS], best[WAYS];
  bool got_worse; /* in the old way */
} arrived[PLACES];
static size_t held_count;
static long outcomes[BC4_OLD + 1];

/* How often something got worse, and the block error that this added. */
typedef struct {
  long times;
  double sum, largest;
} loss;
static loss worse_by_older, worse_by_newer;

static void add_loss(loss *l, double more) {
  l->times++;
  l->sum += more;
  if (more > l->largest) l->largest = more;
}

static void show(int way, size_t place) {
  float samples[16];
  float *corner = pictures[way] + place / ACROSS * 4 * SIDE + place % ACROSS * 4;
  answered(bc4_decode_block(tile[way] + 8 * place, 8, false, samples, &detail), "bc4_decode_block", place);
  for (size_t i = 0; i < 16; i++) corner[i / 4 * SIDE + i % 4] = samples[i];
}

/* Scores what the place holds now; the answer is the error that it had before. */
static float score(int way, size_t place) {
  const float before = arrived[place].error[way], error = error_of(place, tile[way] + 8 * place);
  show(way, place);
  arrived[place].error[way] = error;
  if (!arrived[place].held || error < arrived[place].best[way]) arrived[place].best[way] = error;
  return before;
}

/* By the drone's list, in place of the editions. */
static uint8_t expected_outcome(size_t place, uint32_t try) {
  const uint32_t held = sent[place][arrived[place].newest].corrections, came = sent[place][try].corrections;
  if (!arrived[place].held) return BC4_TAKEN;
  return came == held ? BC4_REPEAT : came > held ? BC4_REPLACED : BC4_OLD;
}

static void receive(const message *m) {
  const size_t place = m->place;
  const uint8_t expected = expected_outcome(place, m->try);
  uint8_t outcome = 0;
  answered(bc4_receive(tile[STATION], TILE, editions, PLACES, SIDE, SIDE, place % ACROSS, place / ACROSS, m->edition, m->block, 8, &outcome, &detail),
           "bc4_receive", place);
  check(outcome == expected, "another outcome than the order of the tries says", place);
  if (outcome <= BC4_OLD) outcomes[outcome]++;
  if (!arrived[place].held || m->try > arrived[place].newest) arrived[place].newest = m->try;
  check(memcmp(tile[STATION] + 8 * place, sent[place][arrived[place].newest].block, 8) == 0, "the station does not hold the newest that arrived", place);
  const float before = score(STATION, place);
  check(!arrived[place].held || arrived[place].error[STATION] <= before, "the block error at the station rises", place);
}

static void put_over(const message *m) {
  const size_t place = m->place;
  memcpy(tile[OLD_WAY] + 8 * place, m->afresh, 8);
  const float before = score(OLD_WAY, place), more = arrived[place].error[OLD_WAY] - before;
  if (arrived[place].held && more > 0) {
    add_loss(m->try < arrived[place].last ? &worse_by_older : &worse_by_newer, more);
    arrived[place].got_worse = true;
  }
  arrived[place].last = m->try;
}

/* The acknowledgement names the edition that is held. */
static void take_message(const message *m) {
  receive(m);
  put_over(m);
  if (!arrived[m->place].held) held_count++;
  arrived[m->place].held = true;
  send((message){.back = true, .place = m->place, .edition = (uint16_t)(editions[m->place] - 1)});
}

static void end_link(message m) {
  if (--m.links > 0) {
    take_link(m);
    return;
  }
  traffic_of(&m)->arrived++;
  if (m.back)
    take_acknowledgement(&m);
  else
    take_message(&m);
}

/* Those that it puts on a link are due later than now. */
static void end_links(void) {
  for (size_t i = 0; i < flying_count;) {
    if (flying[i].due != now) {
      i++;
      continue;
    }
    const message m = flying[i];
    flying[i] = flying[--flying_count];
    end_link(m);
  }
}

/* ---- what is printed */
static bool data;
static struct {
  shift at;
  uint32_t tick;
} worst[WAYS];
static uint32_t whole_since; /* the tick at which all places were held */

static double error_sum(int way) {
  double sum = 0;
  for (size_t place = 0; place < PLACES; place++) sum += arrived[place].error[way];
  return sum;
}

static void print_errors(void) {
  if (data && now % DATA == 0) printf("error %u %zu %.6f %.6f\n", (unsigned)now, held_count, error_sum(STATION), error_sum(OLD_WAY));
  if (!data && now % TABLE == 0) printf("%6u %6zu %12.4f %12.4f\n", (unsigned)now, held_count, error_sum(STATION), error_sum(OLD_WAY));
}

/* A place that is not held yet has no shoreline, so this starts when all are. */
static void look_at_shoreline(void) {
  if (held_count < PLACES) return;
  if (whole_since == 0) whole_since = now;
  for (int way = 0; way < WAYS; way++) {
    const shift s = shift_of(pictures[way]);
    if (worst[way].tick == 0 || mean_of(&s) > mean_of(&worst[way].at)) {
      worst[way].at = s;
      worst[way].tick = now;
    }
  }
}

static void run(void) {
  memset(editions, 0xa5, sizeof editions); /* of an earlier map, so that there is something to clear */
  bc4_clear(editions, PLACES);
  while (measured_count < PLACES || flying_count > 0 || acknowledged_count < PLACES) {
    now++;
    end_links();
    fly();
    print_errors();
    look_at_shoreline();
    if (wrongs > 0) return;
  }
}

/* What has to hold of the run as a whole. */
static void check_end(void) {
  const long taken = outcomes[BC4_TAKEN], repeats = outcomes[BC4_REPEAT], corrections = outcomes[BC4_REPLACED], old = outcomes[BC4_OLD];
  long tries = 0;
  for (size_t place = 0; place < PLACES; place++) {
    tries += drone[place].tries;
    check(memcmp(tile[STATION] + 8 * place, sent[place][drone[place].tries - 1].block, 8) == 0, "the station's tile is not the newest sent", place);
  }
  check_run(there.sent == tries, "the messages sent are not the tries of all places");
  check_run(there.sent + there.doubled == there.lost + there.arrived, "messages sent and doubled are not those lost and arrived");
  check_run(back.sent + back.doubled == back.lost + back.arrived, "acknowledgements sent and doubled are not those lost and arrived");
  check_run(back.sent == there.arrived, "the acknowledgements are not as many as the messages that arrived");
  check_run(taken + repeats + corrections + old == there.arrived, "the outcomes are not as many as the messages that arrived");
  check_run(taken == PLACES, "the places taken are not all, once each");
  check_run(repeats > 0 && corrections > 0 && old > 0 && wrapped > 0, "an outcome or the wrap of the editions was not tried");
}

static void print_traffic(void) {
  printf("\nmessages: %ld sent, of them %ld first editions and %ld corrections; %ld doubled by links, %ld lost, %ld arrived\n", there.sent, (long)PLACES,
         editions_sent - PLACES, there.doubled, there.lost, there.arrived);
  printf("at the station: %ld taken, %ld repeats, %ld old, %ld corrections; at %ld places the editions passed 65,535\n", outcomes[BC4_TAKEN],
         outcomes[BC4_REPEAT], outcomes[BC4_OLD], outcomes[BC4_REPLACED], wrapped);
  printf("acknowledgements: %ld sent, %ld doubled, %ld lost, %ld arrived; the last message or acknowledgement at tick %u\n", back.sent, back.doubled, back.lost,
         back.arrived, (unsigned)now);
}

/* The first editions alone are what corrections are measured by: what both ways would hold without any. */
static void print_last_errors(void) {
  double first = 0;
  for (size_t place = 0; place < PLACES; place++) first += drone[place].first_error;
  printf("\nthe error at the end: station %.5f, old way %.5f; of the first editions alone %.5f\n", error_sum(STATION), error_sum(OLD_WAY), first);
}

static void print_loss(const char *what, const loss *l) {
  printf("  %s: %ld, by %.5f in sum and %.5f at most\n", what, l->times, l->sum, l->largest);
}

static void print_losses(void) {
  loss ended = {0, 0, 0};
  double best = 0;
  long places = 0;
  for (size_t place = 0; place < PLACES; place++) {
    const float more = arrived[place].error[OLD_WAY] - arrived[place].best[OLD_WAY];
    if (more > 0) {
      add_loss(&ended, more);
      best += arrived[place].best[OLD_WAY];
    }
    places += arrived[place].got_worse;
  }
  printf("\nthe old way: %ld places got worse by a message after their first, in block error\n", places);
  print_loss("times, by a try older than the one that was held", &worse_by_older);
  print_loss("times, by a newer try that was encoded worse", &worse_by_newer);
  print_loss("places that ended worse than they had been", &ended);
  printf("    the best that these had held: %.5f in sum\n", best);
}

static void print_shift(const char *name, uint32_t tick, const shift *s) {
  printf("  %-20s %5u %9.4f %9.3f %5ld %5ld %9.4f\n", name, (unsigned)tick, mean_of(s), s->largest, s->far, s->none, s->capped / (double)(s->count + s->none));
}

static void print_shifts(void) {
  const shift station = shift_of(pictures[STATION]), old_way = shift_of(pictures[OLD_WAY]);
  printf("\nthe shoreline: how far, in samples, %ld measured crossings are from the nearest of the picture on their line; far: over %d; none: it has none\n"
         "there, and no distance; capped: the mean of all, with %d for each of those; all places are held since tick %u\n",
         station.count + station.none, CAP, CAP, (unsigned)whole_since);
  printf("                        tick      mean   largest   far  none    capped\n");
  print_shift("station, at the end", now, &station);
  print_shift("station, at worst", worst[STATION].tick, &worst[STATION].at);
  print_shift("old way, at the end", now, &old_way);
  print_shift("old way, at worst", worst[OLD_WAY].tick, &worst[OLD_WAY].at);
}

/* The sample before it and the part of the way, apart, so that a reader knows between which two it is. */
static void print_crossings(const char *name, const float *picture) {
  for (size_t y = 0; y < SIDE; y++)
    for (size_t x = 0; x < SIDE; x++) {
      const float *here = picture + y * SIDE + x;
      float part;
      if (x + 1 < SIDE && crosses(here[0], here[1], &part)) printf("%s row %zu %zu %.3f\n", name, y, x, part);
      if (y + 1 < SIDE && crosses(here[0], here[SIDE], &part)) printf("%s column %zu %zu %.3f\n", name, x, y, part);
    }
}

static void print_end(void) {
  if (data) {
    print_crossings("measured", measured);
    print_crossings("station", pictures[STATION]);
    print_crossings("old", pictures[OLD_WAY]);
    return;
  }
  print_traffic();
  print_last_errors();
  print_losses();
  print_shifts();
}

/* ---- the words that it is called with */
static const char usage[] =
    "usage: relay [SEED] [data]\n"
    "Simulates a drone, three relays and a station. SEED is 1 to 4294967295, and 1 where there is none. With `data` it prints what the pictures of\n"
    "docs/RELAYS.md are drawn from: `error`, tick, places held, error of the station's picture and of the old way's; then for each picture its crossings\n"
    "of one half: its name, `row` or `column`, which one, after which sample of it, and after which part of the way to the next.\n";

static bool read_seed(const char *word, uint32_t *seed) {
  uintmax_t n = 0;
  for (; *word >= '0' && *word <= '9' && n <= 0xffffffff; word++) n = 10 * n + (uintmax_t)(*word - '0');
  if (*word != 0 || n == 0 || n > 0xffffffff) return false;
  *seed = (uint32_t)n;
  return true;
}

int main(int count, char **words) {
  uint32_t seed = 1;
  if (count == 2 && (strcmp(words[1], "--help") == 0 || strcmp(words[1], "-h") == 0)) return printf("%s", usage) < 0;
  int next = 1;
  if (next < count && read_seed(words[next], &seed)) next++;
  if (next < count && strcmp(words[next], "data") == 0) {
    data = true;
    next++;
  }
  if (next < count) {
    fprintf(stderr, "%s", usage);
    return 2;
  }
  start_chance(seed);
  make_map();
  if (!data) printf("seed %u\n\n  tick   held      station      old way   (sum of the block errors of the places held)\n", (unsigned)seed);
  run();
  if (wrongs == 0) check_end();
  if (wrongs == 0) print_end();
  if (!data || wrongs > 0) printf("\ntests/c/relay.c: seed %u, %ld wrong\n", (unsigned)seed, wrongs);
  return wrongs > 0;
}
