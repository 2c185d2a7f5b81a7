// Random numbers by other laws than "each as likely as the others", in whole numbers. Each call draws one word.
#ifndef TWARP_DRAWS_H
#define TWARP_DRAWS_H
#include "twarp.h"

// Minus the logarithms of (64 + i) / 128, and that of 1/2, in 2^24ths. `tools/exponential-table` prints them.
#define LN_2 11629080u
static const u32 log_knots[65] = {
  11629080, 11368963, 11112817, 10860523, 10611968, 10367040, 10125637, 9887659, 9653009, 9421595, 9193330, 8968129, 8745911,
  8526598, 8310115, 8096389, 7885352, 7676937, 7471079, 7267716, 7066789, 6868240, 6672013, 6478055, 6286313, 6096738, 5909281,
  5723895, 5540536, 5359159, 5179722, 5002184, 4826504, 4652646, 4480570, 4310242, 4141625, 3974686, 3809392, 3645710, 3483610,
  3323062, 3164035, 3006501, 2850433, 2695803, 2542585, 2390754, 2240285, 2091153, 1943335, 1796809, 1651550, 1507539, 1364753,
  1223173, 1082777, 943546, 805461, 668503, 532655, 397897, 264214, 131587, 0,
};

// Minus the natural logarithm of a word's part of 2^32, in 2^24ths, within 0.00003. That of 0 is 22.87.
static inline u64 minus_log(u32 drawn) {
  u32 zeros = 0, shifted = drawn;
  for (u32 step = 16; step != 0; step /= 2) {
    if (shifted >> (32 - step) == 0) {
      shifted <<= step;
      zeros += step;
    }
  }
  if (drawn == 0) zeros = 32;
  u32 knot = shifted >> 25 & 63;
  u64 beyond = shifted & ((1u << 25) - 1);
  u64 between = log_knots[knot] * ((1ul << 25) - beyond) + log_knots[knot + 1] * beyond;
  return (u64)zeros * LN_2 + (between >> 25);
}

// An exponential number with this mean, at most 2^30, rounded to the nearest. It may be 0.
static inline u64 exponential(u32 mean) { return (mean * minus_log(word()) + (1u << 23)) >> 24; }

// The same as a delay of `send`: at least one tick. With means of many ticks that makes next to no difference.
static inline u64 exponential_delay(u32 mean) {
  u64 drawn = exponential(mean);
  return drawn != 0 ? drawn : 1;
}

// Whether something happens that has the probability numerator / denominator. The denominator is from 1 to 2^32.
static inline u32 chance(u64 numerator, u64 denominator) { return below(denominator) < numerator; }

// An index of `weights`, each with a probability by its weight. Their sum is from 1 to 2^32.
static inline u32 weighted(const u32 *weights, u32 count) {
  u64 sum = 0;
  for (u32 i = 0; i < count; i++) sum += weights[i];
  u64 left = below(sum);
  u32 index = 0;
  while (left >= weights[index]) left -= weights[index++];
  return index;
}

// A number by its quantiles, in rising order, of which there are at least two: from the first, which is the least, to the
// last, the most, evenly spread between two of them.
static inline u64 empirical(const u32 *quantiles, u32 count) {
  u64 place = (u64)word() * (count - 1);
  u32 index = place >> 32;
  u64 low = quantiles[index], high = quantiles[index + 1];
  return low + ((high - low) * (place & 0xffffffff) >> 32);
}

#endif
