/* The wetness map of relay.c, and the chance that it and all else there is drawn from. */
#ifndef WETNESS_H
#define WETNESS_H

#include <stdbool.h>
#include <stddef.h>
#include <stdint.h>

enum {
  SIDE = 128, /* samples */
  SAMPLES = SIDE * SIDE,
  ACROSS = SIDE / 4, /* places for a block */
  PLACES = ACROSS * ACROSS,
};

/* ---- chance */
static uint32_t state;

static uint32_t random_bits(void) {
  state ^= state << 13;
  state ^= state >> 17;
  return state ^= state << 5;
}

/* The first numbers of a small seed are small. */
static void start_chance(uint32_t seed) {
  state = seed;
  for (int i = 0; i < 32; i++) random_bits();
}

static uint32_t random_below(uint32_t n) { return (random_bits() >> 8) % n; }
static float random_part(void) { return (float)(random_bits() >> 8) / 16777216.0f; }
static bool one_in(uint32_t n) { return random_below(n) == 0; }

/* ---- the map */
static float measured[SAMPLES];

static float clamped(float x, float least, float most) { return x < least ? least : x > most ? most : x; }
static float blend(float a, float b, float t) { return a + (b - a) * t * t * (3 - 2 * t); }

/* Adds hills and hollows: a random height, up to `high` and down to -`high`, each `apart` samples, and a smooth way from one to the next. */
static void add_hills(float *ground, size_t apart, float high) {
  static float heights[SIDE + 1][SIDE + 1];
  for (size_t y = 0; y <= SIDE / apart; y++)
    for (size_t x = 0; x <= SIDE / apart; x++) heights[y][x] = high * (2 * random_part() - 1);
  for (size_t i = 0; i < SAMPLES; i++) {
    const size_t x = i % SIDE / apart, y = i / SIDE / apart;
    const float right = (float)(i % SIDE % apart) / (float)apart, down = (float)(i / SIDE % apart) / (float)apart;
    ground[i] += blend(blend(heights[y][x], heights[y][x + 1], right), blend(heights[y + 1][x], heights[y + 1][x + 1], right), down);
  }
}

/* A river from the top to the bottom. Its left bank is steep; on its right lies a plain that is flooded far out, where wetness falls slowly and a small error
   moves the shoreline most. Reeds and waves make parts of it rough. Lengths are in samples. */
static void make_map(void) {
  static float bed[SAMPLES], ground[SAMPLES], reeds[SAMPLES];
  add_hills(bed, 64, 16);
  add_hills(ground, 32, 10);
  add_hills(ground, 16, 4);
  add_hills(ground, 8, 1);
  add_hills(reeds, 16, 1);
  for (size_t i = 0; i < SAMPLES; i++) {
    const float aside = (float)(i % SIDE) - 32 - bed[i - i % SIDE];
    const float far = aside < 0 ? -aside : aside * 0.25f;
    const float smooth = clamped(0.5f + (16 - far - ground[i]) / 16, 0.02f, 0.98f);
    const float rough = reeds[i] > 0.3f ? 0.1f : 0.01f;
    measured[i] = clamped(smooth + rough * (2 * random_part() - 1), 0, 1);
  }
}

static void samples_of(size_t place, float *samples) {
  const float *corner = measured + place / ACROSS * 4 * SIDE + place % ACROSS * 4;
  for (size_t i = 0; i < 16; i++) samples[i] = corner[i / 4 * SIDE + i % 4];
}

#endif
