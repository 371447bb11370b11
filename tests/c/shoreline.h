/* How far the shoreline of a picture is from the measured one, for relay.c. */
#ifndef SHORELINE_H
#define SHORELINE_H

#include "wetness.h"

enum { CAP = 4 /* samples: a crossing of the shoreline that is farther away may be another one */ };

/* ---- the shoreline: where, between two samples of a row or a column, wetness crosses one half */
/* Distances from the measured crossings to the nearest of a picture on the same line. One that vanished is as far away as the next piece of shoreline, and a
   few of these can make up most of the sum; in the capped one each counts as the cap. It is over all crossings, so that both ways are compared on the same. */
typedef struct {
  long count, far, none; /* far: over the cap; none: the picture has no crossing on the line, and there is no distance */
  double sum, capped, largest;
} shift;

/* Whether it does between two neighbours, and then after which part of the way from the first to the second. */
static bool crosses(float a, float b, float *part) {
  if ((a < 0.5f) == (b < 0.5f)) return false;
  *part = (0.5f - a) / (b - a);
  return true;
}

/* Into at[], where on the line; and how many. */
static size_t crossings(const float *line, size_t step, float *at) {
  size_t count = 0;
  for (size_t k = 0; k + 1 < SIDE; k++) {
    float part;
    if (crosses(line[k * step], line[(k + 1) * step], &part)) at[count++] = (float)k + part;
  }
  return count;
}

static void add_distance(shift *s, float nearest) {
  s->count++;
  s->sum += nearest;
  s->capped += clamped(nearest, 0, CAP);
  if (nearest > CAP) s->far++;
  if (nearest > s->largest) s->largest = nearest;
}

static void add_none(shift *s) {
  s->none++;
  s->capped += CAP;
}

static float nearest_of(const float *others, size_t count, float here) {
  float nearest = SIDE;
  for (size_t k = 0; k < count; k++) {
    const float away = here < others[k] ? others[k] - here : here - others[k];
    if (away < nearest) nearest = away;
  }
  return nearest;
}

static void shift_of_line(const float *of, const float *picture, size_t step, shift *s) {
  float here[SIDE], others[SIDE];
  const size_t count = crossings(of, step, here), other_count = crossings(picture, step, others);
  for (size_t i = 0; i < count; i++) {
    if (other_count == 0)
      add_none(s);
    else
      add_distance(s, nearest_of(others, other_count, here[i]));
  }
}

static shift shift_of(const float *picture) {
  shift s = {0, 0, 0, 0, 0, 0};
  for (size_t k = 0; k < SIDE; k++) {
    shift_of_line(measured + k * SIDE, picture + k * SIDE, 1, &s);
    shift_of_line(measured + k, picture + k, SIDE, &s);
  }
  return s;
}

static double mean_of(const shift *s) { return s->sum / (double)s->count; }

#endif
