// Packets in a network of routers: each process is a node, with a drop-tail queue before each of its links. `tools/topology`
// makes the file of --data from nodes, links and flows, with the shortest ways between all nodes. A tick is a nanosecond.
//
// A flow sends packets of one size from its node to another one. At each node on its way a packet waits until the link is
// free, is sent at the link's speed, and is at the next node after the link's delay. Where the packets before it and it
// itself are more bytes than the link's queue has, it is lost.
//
// A packet that arrives makes a record of kind 1, with how many ticks it has been under way; one that is lost, of kind 2,
// with its flow. With `each` 0 there are none. The final value is what `final` says: 1 the packets that were sent at the
// node, 2 those that have arrived there, 3 those that were lost there, and 0 the first less the other two, modulo 2^64: so
// the sum of the finals is how many packets are under way.
#include "twarp.h"
#include "twarp_draws.h"

const volatile u32 each = 1;
const volatile u32 final = 0;

#ifndef LINKS
#define LINKS 12  // the most links of a node
#endif

// The network, in words of 32 bits: first these, which are the places of the tables.
enum { NODES, NODE_TABLE, LINK_TABLE, FLOW_TABLE, NEXT_TABLE };
enum { FIRST_LINK, FIRST_FLOW, FLOW_COUNT, WORDS_OF_NODE };
enum { TO, DELAY, TICKS_OF_BYTE, QUEUE, WORDS_OF_LINK };  // TICKS_OF_BYTE: in 2^16ths. QUEUE: in bytes
enum { DEST, SIZE, INTERVAL, IS_RANDOM, BEGIN, END = BEGIN + 2, WORDS_OF_FLOW = END + 2 };  // BEGIN, END: ticks, the low word first
// NEXT_TABLE: for each node and each destination a byte, by which of the node's links the way goes on.

struct {
  u32 sent, arrived, lost;
  u64 free_at[LINKS];  // of each link, when it has sent what was handed to it
} node;

// What an event is, in the lowest 8 bits of its first number; above them is the flow.
enum { PACKET, NEXT_OF_FLOW, BEGIN_FLOWS };

static const u32 *network, *own;

static void find(u32 lp) {
  network = (const u32 *)data;
  own = network + network[NODE_TABLE] + lp * WORDS_OF_NODE;
}

static const u32 *flow_at(u32 flow) { return network + network[FLOW_TABLE] + flow * WORDS_OF_FLOW; }

static u64 tick_at(const u32 *words) { return words[0] | (u64)words[1] << 32; }

static void arrive(u64 born, u64 now) {
  node.arrived++;
  if (each) emit(1, now - born);
}

static void lose(u32 flow) {
  node.lost++;
  if (each) emit(2, flow);
}

// Hands a packet to the link of its way.
static void pass_on(u32 lp, u32 flow, u64 born, u64 now) {
  const u32 *words = flow_at(flow);
  u32 link = ((const u8 *)(network + network[NEXT_TABLE]))[lp * network[NODES] + words[DEST]];
  const u32 *way = network + network[LINK_TABLE] + (own[FIRST_LINK] + link) * WORDS_OF_LINK;
  u64 begin = node.free_at[link] > now ? node.free_at[link] : now;
  u64 end = begin + ((u64)words[SIZE] * way[TICKS_OF_BYTE] >> 16);
  if (end - now > (u64)way[QUEUE] * way[TICKS_OF_BYTE] >> 16) {
    lose(flow);
    return;
  }
  node.free_at[link] = end;
  send(way[TO], end - now + way[DELAY], 0, PACKET | (u64)flow << 8, born);
}

static void send_packet(u32 lp, u32 flow, u64 now) {
  const u32 *words = flow_at(flow);
  u64 wait = words[IS_RANDOM] ? exponential_delay(words[INTERVAL]) : words[INTERVAL];
  if (now + wait < tick_at(words + END)) send(lp, wait, 0, NEXT_OF_FLOW | (u64)flow << 8, 0);
  node.sent++;
  pass_on(lp, flow, now, now);
}

// A node may have more flows than a handler has sends: each of up to sixteen events begins eight of them.
enum { FLOWS_AT_ONCE = 8 };

static void begin_flows(u32 lp, u32 first) {
  u32 after = own[FIRST_FLOW] + own[FLOW_COUNT], last = first + FLOWS_AT_ONCE < after ? first + FLOWS_AT_ONCE : after;
  for (u32 flow = first; flow < last; flow++) send(lp, tick_at(flow_at(flow) + BEGIN), 0, NEXT_OF_FLOW | (u64)flow << 8, 0);
}

void start(u32 lp) {
  find(lp);
  for (u32 i = 0; i < own[FLOW_COUNT]; i += FLOWS_AT_ONCE) send(lp, 0, 1, BEGIN_FLOWS, own[FIRST_FLOW] + i);
}

void forward(u32 lp, u64 tick, u32 priority, u64 a, u64 b) {
  u32 flow = a >> 8;
  find(lp);
  if ((a & 255) == BEGIN_FLOWS) begin_flows(lp, b);
  else if ((a & 255) == NEXT_OF_FLOW) send_packet(lp, flow, tick);
  else if (flow_at(flow)[DEST] == lp) arrive(b, tick);
  else pass_on(lp, flow, b, tick);
}

u64 finish(u32 lp) {
  if (final == 1) return node.sent;
  if (final == 2) return node.arrived;
  if (final == 3) return node.lost;
  return (u64)node.sent - node.arrived - node.lost;
}
