// A digital circuit: each process is a gate, a flip-flop, an input or a branch of a net. `tools/netlist` makes the file of
// --data from Verilog, with the values of the inputs for each cycle of the clock, and says --lps and --end for it.
//
// A gate's output follows its inputs after a tick. Cycle k of the clock begins at tick k times the period: then flip-flops
// take what they see, and a tick later the inputs have the values of that cycle. Nets that have a name in Verilog are
// recorded: kind 1 and the new value, where it changes. The final value of a process is how many events it has had.
//
// The circuit may be there more than once: process p is process p modulo their number, of copy p divided by it.
#include "twarp.h"

// The circuit, in words of 32 bits: first these, then four of each process; at WIRES the ends of nets, each a process and
// a pin times 2^16; and at INPUTS the bits of the inputs, word by word for each cycle.
enum { PROCESSES, PERIOD, CYCLES, WORDS_OF_CYCLE, WIRES, INPUTS, FIRST_PROCESS };
enum { WHAT, FUNCTION, ENDS, END_COUNT, WORDS_OF_PROCESS };
// WHAT: which of these it is; times 2^8, whether it is recorded; times 2^16, the value before the first cycle.
enum { GATE, FLIP_FLOP, INPUT, BRANCH };
// FUNCTION: of a gate, its output for each value of its four pins, from 0 to 15, and times 2^16 the pins that are always 1.
// Of an input, its bit.

// What an event says, beside a value: that a pin has it, that a gate looks at its pins, or that a cycle begins.
enum { PIN, LOOK = 16, CYCLE = 17 };
enum { CHANGE_FIRST = 0, LOOK_LATER = 8, CLOCK_LAST = 16 };  // priorities in a tick

struct {
  u32 events;
  u8 pins, value, looks;  // looks: whether it looks at its pins at the end of this tick
} now;

static const u32 *circuit, *own;
static u32 base;

static void find(u32 lp) {
  circuit = (const u32 *)data;
  base = lp - lp % circuit[PROCESSES];
  own = circuit + FIRST_PROCESS + (lp - base) * WORDS_OF_PROCESS;
}

static void tell(u64 delay, u32 priority, u32 value) {
  const u32 *ends = circuit + circuit[WIRES] + own[ENDS];
  for (u32 i = 0; i < own[END_COUNT]; i++) send(base + (ends[i] & 0xffff), delay, priority, value, PIN + (ends[i] >> 16));
}

static void become(u32 value) {
  if (value == now.value) return;
  now.value = value;
  if (own[WHAT] >> 8 & 1) emit(1, value);
  tell(1, CHANGE_FIRST, value);
}

static void look(void) {
  now.looks = 0;
  become(own[FUNCTION] >> now.pins & 1);
}

static void begin_cycle(u32 lp, u64 tick) {
  if ((own[WHAT] & 255) == FLIP_FLOP) {
    become(now.pins);
  } else {
    u64 cycle = tick / circuit[PERIOD] % circuit[CYCLES];
    const u32 *inputs = circuit + circuit[INPUTS] + cycle * circuit[WORDS_OF_CYCLE];
    become(inputs[own[FUNCTION] / 32] >> own[FUNCTION] % 32 & 1);
  }
  send(lp, circuit[PERIOD], CLOCK_LAST, 0, CYCLE);
}

static void change_pin(u32 lp, u32 pin, u32 value, u32 priority) {
  if ((own[WHAT] & 255) == BRANCH) {
    tell(0, priority + 1, value);
    return;
  }
  now.pins = (now.pins & ~(1 << pin)) | value << pin;
  if ((own[WHAT] & 255) == FLIP_FLOP || now.looks) return;
  now.looks = 1;
  send(lp, 0, LOOK_LATER, 0, LOOK);
}

void start(u32 lp) {
  find(lp);
  u32 what = own[WHAT] & 255;
  if (what == GATE) {
    now.pins = own[FUNCTION] >> 16;
    now.looks = 1;
    send(lp, 0, LOOK_LATER, 0, LOOK);
  } else if (what == FLIP_FLOP) {
    now.value = own[WHAT] >> 16;
    now.pins = own[FUNCTION] >> 16;
    if (now.value) tell(0, 1, 1);
    send(lp, circuit[PERIOD], CLOCK_LAST, 0, CYCLE);
  } else if (what == INPUT) {
    send(lp, 1, CLOCK_LAST, 0, CYCLE);
  }
}

void forward(u32 lp, u64 tick, u32 priority, u64 value, u64 what) {
  find(lp);
  now.events++;
  if (what == LOOK) look();
  else if (what == CYCLE) begin_cycle(lp, tick);
  else change_pin(lp, what, value, priority);
}

u64 finish(u32 lp) { return now.events; }
