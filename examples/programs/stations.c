// A closed network of stations with one server each: jobs queue, are served one at a time, and travel to a drawn station.
// It makes the records of `twarp run --model stations`: kind 3, how many jobs are at a station after one has come; kind 4,
// how many it has served. README.md shows this file in short.
#include "twarp.h"

const volatile u32 jobs = 1;     // at each station at the start, 0 to 1,000
const volatile u32 service = 1;  // a service takes 1 to so many ticks, 1 to 1,000,000
const volatile u32 travel = 1;   // ticks of the way to the next station, 1 to 1,000,000

enum { ARRIVE, DEPART };

struct {
  u64 length;  // jobs at the station: one is served, the others wait
  u64 served;
} state;

static void serve(u32 lp) { send(lp, 1 + below(service), 0, DEPART, 0); }

static void arrive(u32 lp) {
  state.length++;
  emit(3, state.length);
  if (state.length == 1) serve(lp);
}

static void depart(u32 lp) {
  if (state.length == 0) return;
  state.length--;
  state.served++;
  emit(4, state.served);
  u32 next = below(lps());
  send(next, travel, 0, ARRIVE, 0);
  if (state.length != 0) serve(lp);
}

void start(u32 lp) {
  state.length = jobs;
  if (state.length != 0) serve(lp);
}

void forward(u32 lp, u64 tick, u32 priority, u64 a, u64 b) {
  if (a == ARRIVE) arrive(lp);
  else depart(lp);
}

u64 finish(u32 lp) { return state.served; }
