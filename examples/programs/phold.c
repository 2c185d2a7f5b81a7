// PHOLD (Fujimoto 1990): each event schedules exactly one other, so that their number stays the same.
// It makes the records of `twarp run --model phold`: kind 2, how many events a process has had.
#include "twarp.h"

const volatile u32 population = 1;  // events that each process starts with, 0 to 16
const volatile u32 remote = 0;      // percent of the events that go to a drawn process, 0 to 100
const volatile u32 lookahead = 1;   // ticks from an event to the one that it schedules, at least, 1 to 1,000,000
const volatile u32 span = 1;        // a draw below it is added, in ticks, 1 to 1,000,000

u64 count;

void start(u32 lp) {
  for (u32 i = population; i != 0; i--) send(lp, lookahead + below(span), 0, 0, 0);
}

void forward(u32 lp, u64 tick, u32 priority, u64 a, u64 b) {
  u32 dest = lp;
  if (below(100) < remote) dest = below(lps());
  u64 wait = below(span);
  count++;
  emit(2, count);
  send(dest, lookahead + wait, 0, 0, 0);
}

u64 finish(u32 lp) { return count; }
