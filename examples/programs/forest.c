// Patches of forest on a ring. Lightning sets a patch on fire, the fire passes on to both neighbours, and the trees grow again.
// A record is made when a patch burns: kind 0 if lightning struck it, kind 1 if a neighbour's fire did, and how many ticks have
// passed since it burnt last. docs/MODEL_IN_C.md shows this file in short.
#include "twarp.h"
#include "twarp_draws.h"

const volatile u32 lightning = 20000;  // mean ticks from one stroke of lightning at a patch to the next
const volatile u32 growth = 1000;      // the trees are back after so many ticks, up to twice as many
const volatile u32 spread = 40;        // ticks until a neighbour is on fire too; 0: never

enum { LIGHTNING, FIRE, GROWN };  // what an event carries first

struct {
  u64 burnt, fires;  // when the patch burnt last, and how often
  u32 bare;          // whether it has no trees
} patch;

static void expect_lightning(u32 lp) { send(lp, exponential_delay(lightning), 0, LIGHTNING, 0); }

static void burn(u32 lp, u64 now, u32 cause) {
  emit(cause, now - patch.burnt);
  patch.burnt = now;
  patch.fires++;
  patch.bare = 1;
  send(lp, growth + below(growth), 0, GROWN, 0);
  if (spread == 0) return;
  send((lp + 1) % lps(), spread, 0, FIRE, 0);
  send((lp + lps() - 1) % lps(), spread, 0, FIRE, 0);
}

void start(u32 lp) { expect_lightning(lp); }

void forward(u32 lp, u64 tick, u32 priority, u64 a, u64 b) {
  if (a == LIGHTNING) expect_lightning(lp);
  if (a == GROWN) patch.bare = 0;
  else if (!patch.bare) burn(lp, tick, a);
}

u64 finish(u32 lp) { return patch.fires; }
