// Cars on a grid of one-way roads with signalled junctions. It makes the records of the proved model in crates/vt_traffic.
//
// Each process is a junction. The road to the east leads to the next process, the road to the south to the one `columns`
// further. A car takes one tick to cross a junction, and one car crosses at a time. Kind 2: how many cars have passed, after
// one has; kind 1: how many wait, after each event.
#include "twarp.h"
#include "twarp_draws.h"

const volatile u32 columns = 4;   // junctions of a row, 1 to 65,536
const volatile u32 cars = 4;      // cars that wait on each road of a junction at the start, 0 to 1,000
const volatile u32 green = 12;    // ticks between two changes of the lights, 1 to 1,000,000
const volatile u32 travel = 5;    // ticks of the shortest way to the next junction; a draw below it is added, 1 to 1,000,000
const volatile u32 turning = 25;  // percent of the cars that turn, 0 to 100

enum road { EASTWARD, SOUTHWARD, NONE };
enum { ARRIVE, LEAVE, CHANGE };  // what happens; a car that arrives comes by the road of the second number
enum { WAITING = 1, PASSED = 2 };

struct {
  u64 at_green, at_red;  // cars that wait
  u64 passed;
  u32 green;     // the road that has green
  u32 crossing;  // the road by which the car came that is crossing
} junction;

static void join(u32 road) {
  if (road == junction.green) junction.at_green++;
  else junction.at_red++;
}

static void change(void) {
  u64 at_green = junction.at_green;
  junction.green = 1 - junction.green;
  junction.at_green = junction.at_red;
  junction.at_red = at_green;
}

static void enter(u32 lp) {
  if (junction.at_green == 0 || junction.crossing != NONE) return;
  junction.at_green--;
  junction.crossing = junction.green;
  send(lp, 1, 0, LEAVE, 0);
}

static void leave(u32 lp) {
  u32 road = junction.crossing;
  if (road == NONE) return;
  junction.crossing = NONE;
  junction.passed++;
  emit(PASSED, junction.passed);
  if (chance(turning, 100)) road = 1 - road;
  u32 next = (lp + (road == EASTWARD ? 1 : columns)) % lps();
  send(next, travel + below(travel), 0, ARRIVE, road);
}

void start(u32 lp) {
  junction.at_green = junction.at_red = cars;
  junction.green = EASTWARD;
  junction.crossing = NONE;
  send(lp, 1 + below(green), 0, CHANGE, 0);
  enter(lp);
}

void forward(u32 lp, u64 tick, u32 priority, u64 what, u64 road) {
  if (what == ARRIVE) {
    join(road);
  } else if (what == LEAVE) {
    leave(lp);
  } else {
    change();
    send(lp, green, 0, CHANGE, 0);
  }
  enter(lp);
  emit(WAITING, junction.at_green + junction.at_red);
}

u64 finish(u32 lp) { return junction.passed; }
