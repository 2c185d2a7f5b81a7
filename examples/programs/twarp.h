// What a model in C includes: the three handlers that it writes, and the calls of the simulator.
//
// All of its objects that may change are the state of one logical process: each process has its own, at most 4,096 bytes in
// all, and a handler sees that of the process it runs for. Nothing else is kept from one handler to the next. A number that
// the command line may set by --set NAME=VALUE is `const volatile u32 NAME = DEFAULT;`, or u64: it takes no state, but by gcc.
#ifndef TWARP_H
#define TWARP_H

typedef unsigned char u8;
typedef unsigned short u16;
typedef unsigned int u32;
typedef unsigned long u64;
_Static_assert(sizeof(u16) == 2 && sizeof(u32) == 4 && sizeof(u64) == 8, "a machine of 64 bits");

// The handlers. start: the state of process lp at time 0, and its first sends; it makes no records. forward: an event with
// the two numbers that it carries; it sends at most 16 events, makes at most 4 records, and draws at most 64 words. finish:
// the final value of the process, of its state at the end of the run; it draws, sends and records nothing, and has no lps().
void start(u32 lp);
void forward(u32 lp, u64 tick, u32 priority, u64 a, u64 b);
u64 finish(u32 lp);

// The bytes of --data FILE, which can't be written. There are data_size() of them.
extern const u8 data[];

#ifdef NATIVE
#include "twarp_native.h"
#else

// Draws a random number below n, from 1 to 2^32. One word.
static inline u64 below(u64 n) {
  register u64 a0 __asm__("a0") = n;
  register u64 a7 __asm__("a7") = 0;
  __asm__ volatile("ecall" : "+r"(a0) : "r"(a7));
  return a0;
}

// Draws a random word of 32 bits.
static inline u32 word(void) {
  register u64 a0 __asm__("a0");
  register u64 a7 __asm__("a7") = 1;
  __asm__ volatile("ecall" : "=r"(a0) : "r"(a7));
  return (u32)a0;
}

// Sends an event to process dest, `delay` ticks from now, with a priority from 0 to 255. It must be later than now: a later
// tick, or the same tick with a higher priority. It carries a and b.
static inline void send(u32 dest, u64 delay, u32 priority, u64 a, u64 b) {
  register u64 a0 __asm__("a0") = dest;
  register u64 a1 __asm__("a1") = delay;
  register u64 a2 __asm__("a2") = priority;
  register u64 a3 __asm__("a3") = a;
  register u64 a4 __asm__("a4") = b;
  register u64 a7 __asm__("a7") = 2;
  __asm__ volatile("ecall" : "+r"(a0) : "r"(a1), "r"(a2), "r"(a3), "r"(a4), "r"(a7));
}

// Makes a record of the event: a line `tick priority lp kind value` of the output. Kind 4294967295 is kept for traps.
static inline void emit(u32 kind, u64 value) {
  register u64 a0 __asm__("a0") = kind;
  register u64 a1 __asm__("a1") = value;
  register u64 a7 __asm__("a7") = 3;
  __asm__ volatile("ecall" : "+r"(a0) : "r"(a1), "r"(a7));
}

// How many processes there are.
static inline u32 lps(void) {
  register u64 a0 __asm__("a0");
  register u64 a7 __asm__("a7") = 4;
  __asm__ volatile("ecall" : "=r"(a0) : "r"(a7));
  return (u32)a0;
}

// How many bytes --data gave, 0 without it.
static inline u64 data_size(void) {
  register u64 a0 __asm__("a0");
  register u64 a7 __asm__("a7") = 5;
  __asm__ volatile("ecall" : "=r"(a0) : "r"(a7));
  return a0;
}

#endif
#endif
