// Tokens that hop from process to process. Each mixes its number into a sum that depends on the order in which they come.
// It makes the records of `twarp run --model hop`: kind 1, the new sum.
#include "twarp.h"

const volatile u32 hops = 2;    // of each token, 0 to 1,000,000
const volatile u32 stride = 1;  // processes of a hop, 0 to 65,535
const volatile u32 delay = 2;   // ticks of a hop, 1 to 1,000,000
const volatile u32 rise = 0;    // by how much the priority rises with a hop within the tick, 0 (no such hop) to 255

u64 sum;

static u64 rotate_left(u64 value, u32 bits) { return value << bits | value >> (64 - bits); }

// An event carries the token's number, and how many hops it has left.
void start(u32 lp) { send(lp, lp + 1, 0, lp + 1, hops); }

void forward(u32 lp, u64 tick, u32 priority, u64 token, u64 left) {
  sum = rotate_left(sum, 8) ^ token;
  emit(1, sum);
  if (left == 0) return;
  u32 dest = (lp + stride) % lps();
  u32 raised = priority + rise;
  if (raised != priority && raised <= 255) send(dest, 0, raised, token, left - 1);
  else send(dest, delay, 0, token, left - 1);
}

u64 finish(u32 lp) { return sum; }
