// A network of queues: stations with several servers, classes of customers, finite rooms, and ways from one station to the
// next. `tools/queues` makes the file of --data that describes it; without one it is the example below.
//
// Process p is station p modulo the number of stations. So twice as many processes are two networks that know nothing of
// each other, and --lps has to be a multiple of the number of stations.
//
// Who comes to a station is served by a free server, or waits in its room, or is lost where the room is full. Customers of
// class 0 are served first, then those of class 1; nobody is interrupted. A station that `holds` loses nobody who comes from
// another station: whoever has been served there stays with his server, who serves nobody else, until there is a place.
//
// Every `report` ticks each station makes records of its counts since the start, for each class c: kind 8c, customers who
// came; 8c + 1, who were lost; 8c + 2, whose service began; 8c + 3, the sum of their waits; 8c + 4, customers who left the
// network from here; 8c + 5, the sum of the ticks from their coming to it until then. Kind 100: the events of the station.
// The final value is how many services have begun.
#include "twarp.h"
#include "twarp_draws.h"

const volatile u64 report = 1000000;

#ifndef ROOM
#define ROOM 64  // the most customers who wait at a station
#endif
enum { CLASSES = 4, HELD = 8, NOBODY = 255 };

// A network, in words of 32 bits: stations, classes, ticks from one station to the next; then for each station three words,
// and four for each of its classes; then the tables that these lead to.
enum { STATIONS, MANY_CLASSES, TRAVEL, FIRST_STATION };
enum { SERVERS, PLACES, HOLDS, FIRST_CLASS };
enum { ARRIVALS, LAW, AMOUNT, WAYS, WORDS_OF_CLASS };  // AMOUNT: ticks, or the place of a table: its length, its quantiles
enum { EXPONENTIAL, FIXED, TABLE };
// Ways: how many, and for each the part of 2^32 of those who go there or to one before it, and the station. The others leave.

static const u32 example[] = {
  3, 2, 10,
  1, 20, 0, 4000, EXPONENTIAL, 1000, 36, 8000, EXPONENTIAL, 1500, 36,
  2, 20, 0, 0, EXPONENTIAL, 2500, 41, 0, EXPONENTIAL, 2500, 41,
  1, 5, 1, 0, FIXED, 900, 44, 0, TABLE, 45, 44,
  2, 0x80000000, 1, 0xc0000000, 2, 1, 0x40000000, 2, 0, 4, 300, 500, 900, 4000,
};

enum { GENERATE, ARRIVE, OFFER, TAKEN, DONE, REPORT, REPORT_LEAVING };

struct customer {
  u32 since, born;  // when he came to the station, and to the network, modulo 2^32
};

struct counts {
  u32 came, lost, begun, left;
  u64 waited, stayed;
};

struct {
  struct counts counts[CLASSES];
  u64 events;
  u32 busy;     // servers who serve, or wait until another station has a place
  u32 waiting;  // customers in the room
  struct customer customers[ROOM];
  struct { u32 born, from, class; } held[HELD];  // whoever waits with his server at another station for a place here
  u32 first_held, held_count;
  u8 next[ROOM];                       // of each customer who waits, the next one of his class
  u8 first[CLASSES], last[CLASSES];    // of each class who waits
  u8 free, used;                       // the first of the places that were left, and how many have been used ever
} at;

static const u32 *network, *station;
static u32 base, now;

static const u32 *of_class(u32 class) { return station + FIRST_CLASS + class * WORDS_OF_CLASS; }

static u64 service(const u32 *words) {
  if (words[LAW] == EXPONENTIAL) return exponential_delay(words[AMOUNT]);
  u64 ticks = words[LAW] == FIXED ? words[AMOUNT] : empirical(network + words[AMOUNT] + 1, network[words[AMOUNT]]);
  return ticks != 0 ? ticks : 1;
}

static void begin(u32 lp, u32 class, struct customer who) {
  at.busy++;
  at.counts[class].begun++;
  at.counts[class].waited += now - who.since;
  send(lp, service(of_class(class)), 0, DONE | class << 8, who.born);
}

static void wait(u32 class, struct customer who) {
  u32 place = at.free;
  if (place == NOBODY) place = at.used++;
  else at.free = at.next[place];
  at.customers[place] = who;
  at.next[place] = NOBODY;
  if (at.first[class] == NOBODY) at.first[class] = place;
  else at.next[at.last[class]] = place;
  at.last[class] = place;
  at.waiting++;
}

// Takes a customer in, if there is a server or a place for him.
static u32 take(u32 lp, u32 class, u32 born) {
  struct customer who = {now, born};
  if (at.busy < station[SERVERS]) begin(lp, class, who);
  else if (at.waiting < station[PLACES]) wait(class, who);
  else return 0;
  at.counts[class].came++;
  return 1;
}

static void arrive(u32 lp, u32 class, u32 born) {
  if (take(lp, class, born)) return;
  at.counts[class].came++;
  at.counts[class].lost++;
}

static void serve_next(u32 lp) {
  at.busy--;
  for (u32 class = 0; class < network[MANY_CLASSES]; class++) {
    u32 place = at.first[class];
    if (place == NOBODY) continue;
    at.first[class] = at.next[place];
    at.next[place] = at.free;
    at.free = place;
    at.waiting--;
    begin(lp, class, at.customers[place]);
    break;
  }
  if (at.held_count == 0) return;
  u32 first = at.first_held;
  take(lp, at.held[first].class, at.held[first].born);
  send(at.held[first].from, 1, 0, TAKEN, 0);
  at.first_held = (first + 1) % HELD;
  at.held_count--;
}

static void offer(u32 lp, u32 class, u32 born, u32 from) {
  if (take(lp, class, born)) {
    send(from, 1, 0, TAKEN, 0);
  } else {
    u32 last = (at.first_held + at.held_count++) % HELD;
    at.held[last].class = class;
    at.held[last].born = born;
    at.held[last].from = from;
  }
}

static void leave(u32 class, u32 born) {
  at.counts[class].left++;
  at.counts[class].stayed += now - born;
}

static void depart(u32 lp, u32 class, u32 born) {
  const u32 *ways = network + of_class(class)[WAYS];
  u32 drawn = word(), count = ways[0], way = 0;
  while (way < count && drawn >= ways[1 + 2 * way]) way++;
  if (way == count) {
    leave(class, born);
    serve_next(lp);
    return;
  }
  u32 to = ways[2 + 2 * way];
  u32 holds = network[FIRST_STATION + to * (FIRST_CLASS + network[MANY_CLASSES] * WORDS_OF_CLASS) + HOLDS];
  send(base + to, network[TRAVEL], 0, (holds ? OFFER : ARRIVE) | class << 8 | (u64)lp << 32, born);
  if (!holds) serve_next(lp);
}

static void generate(u32 lp, u32 class) { send(lp, exponential_delay(of_class(class)[ARRIVALS]), 0, GENERATE | class << 8, 0); }

static void tell(u32 lp, u32 class) {
  const struct counts *counts = &at.counts[class];
  emit(8 * class, counts->came);
  emit(8 * class + 1, counts->lost);
  emit(8 * class + 2, counts->begun);
  emit(8 * class + 3, counts->waited);
  send(lp, 0, 201 + 2 * class, REPORT_LEAVING | class << 8, 0);
}

static void tell_leaving(u32 lp, u32 class) {
  emit(8 * class + 4, at.counts[class].left);
  emit(8 * class + 5, at.counts[class].stayed);
  if (class + 1 < network[MANY_CLASSES]) {
    send(lp, 0, 202 + 2 * class, REPORT | (class + 1) << 8, 0);
  } else {
    emit(100, at.events);
    send(lp, report, 200, REPORT, 0);
  }
}

static void find(u32 lp) {
  network = data_size() != 0 ? (const u32 *)data : example;
  base = lp - lp % network[STATIONS];
  station = network + FIRST_STATION + (lp - base) * (FIRST_CLASS + network[MANY_CLASSES] * WORDS_OF_CLASS);
}

void start(u32 lp) {
  find(lp);
  at.free = NOBODY;
  for (u32 class = 0; class < CLASSES; class++) at.first[class] = NOBODY;
  for (u32 class = 0; class < network[MANY_CLASSES]; class++) {
    if (of_class(class)[ARRIVALS] != 0) generate(lp, class);
  }
  send(lp, report, 200, REPORT, 0);
}

void forward(u32 lp, u64 tick, u32 priority, u64 a, u64 b) {
  u32 class = a >> 8 & 255;
  find(lp);
  now = tick;
  if ((a & 255) < REPORT) at.events++;
  switch (a & 255) {
    case GENERATE: generate(lp, class); arrive(lp, class, tick); break;
    case ARRIVE: arrive(lp, class, b); break;
    case OFFER: offer(lp, class, b, a >> 32); break;
    case TAKEN: serve_next(lp); break;
    case DONE: depart(lp, class, b); break;
    case REPORT: tell(lp, class); break;
    case REPORT_LEAVING: tell_leaving(lp, class); break;
  }
}

u64 finish(u32 lp) {
  u64 begun = 0;
  for (u32 class = 0; class < CLASSES; class++) begun += at.counts[class].begun;
  return begun;
}
