#!/usr/bin/env python3
"""Runs PHOLD and the closed network of stations by their definitions, and prints what the tests of this crate expect.

It shares nothing with the crates: the block function is that of RFC 8439 with 8 rounds, a 64-bit counter and the process
as a 64-bit nonce, and the run takes the event of least (time, source, number) from a heap.

    models.py phold LPS END SEED POPULATION REMOTE LOOKAHEAD SPAN
    models.py stations LPS END SEED JOBS SERVICE TRAVEL

prints a line `time process kind value` for each record, then for each process its final value, its send number and its
place in its random words, and last how many records there are, and all of them in their order as one number.
"""

import heapq
import struct
import sys

MASK = 2**64 - 1


def block(key, nonce, counter):
    def rotated(x, n):
        return (x << n | x >> 32 - n) & 0xFFFFFFFF

    def quarter_round(a, b, c, d):
        for x, y, z, n in ((a, b, d, 16), (c, d, b, 12), (a, b, d, 8), (c, d, b, 7)):
            state[x] = state[x] + state[y] & 0xFFFFFFFF
            state[z] = rotated(state[z] ^ state[x], n)

    first = struct.unpack("<16I", b"expand 32-byte k" + key + struct.pack("<QQ", counter, nonce))
    state = list(first)
    for _ in range(4):
        for column in range(4):
            quarter_round(column, 4 + column, 8 + column, 12 + column)
        for diagonal in range(4):
            quarter_round(diagonal, 4 + (diagonal + 1) % 4, 8 + (diagonal + 2) % 4, 12 + (diagonal + 3) % 4)
    return [x + y & 0xFFFFFFFF for x, y in zip(state, first)]


class Process:
    def __init__(self, run, lp):
        self.run, self.lp, self.number, self.place, self.now = run, lp, 0, 0, 0

    def below(self, n):
        key = struct.pack("<Q", self.run.seed) + bytes(24)
        word = block(key, self.lp, self.place // 16)[self.place % 16]
        self.place = self.place + 1 & MASK
        return word * n // 2**32

    def send(self, dest, delay, payload):
        if self.now + delay < self.run.end:
            heapq.heappush(self.run.pending, (self.now + delay, self.lp, self.number, dest, payload))
        self.number += 1

    def emit(self, kind, value):
        self.run.records.append((self.now, self.lp, kind, value))


class Phold(Process):
    def start(self, population, remote, lookahead, span):
        self.remote, self.lookahead, self.span, self.count = remote, lookahead, span, 0
        for _ in range(population):
            wait = self.below(span)
            self.send(self.lp, lookahead + wait, None)

    def forward(self, _payload):
        dest = self.below(self.run.lps) if self.below(100) < self.remote else self.lp
        wait = self.below(self.span)
        self.send(dest, self.lookahead + wait, None)
        self.count = self.count + 1 & MASK
        self.emit(2, self.count)

    def final(self):
        return self.count


class Stations(Process):
    def start(self, jobs, service, travel):
        self.service, self.travel, self.length, self.served = service, travel, jobs, 0
        if jobs != 0:
            self.serve()

    def serve(self):
        wait = self.below(self.service)
        self.send(self.lp, 1 + wait, "depart")

    def forward(self, payload):
        if payload == "arrive":
            self.length = self.length + 1 & MASK
            if self.length == 1:
                self.serve()
            self.emit(3, self.length)
        elif self.length != 0:
            self.length -= 1
            self.served = self.served + 1 & MASK
            dest = self.below(self.run.lps)
            self.send(dest, self.travel, "arrive")
            if self.length != 0:
                self.serve()
            self.emit(4, self.served)

    def final(self):
        return self.served


class Run:
    def __init__(self, model, lps, end, seed, options):
        self.lps, self.end, self.seed, self.pending, self.records = lps, end, seed, [], []
        self.processes = [model(self, lp) for lp in range(lps)]
        for process in self.processes:
            process.start(*options)
        while self.pending:
            time, _source, _number, dest, payload = heapq.heappop(self.pending)
            process = self.processes[dest]
            process.now = time
            process.forward(payload)


def main():
    model = {"phold": Phold, "stations": Stations}[sys.argv[1]]
    lps, end, seed, *options = map(int, sys.argv[2:])
    run = Run(model, lps, end, seed, options)
    for record in run.records:
        print(*record)
    for process in run.processes:
        print("process", process.lp, "final", process.final(), "number", process.number, "place", process.place)
    folded = 0
    for time, process, _kind, value in run.records:
        folded = ((folded * 31 + time) * 31 + process) * 31 + value & MASK
    print("records", len(run.records), "folded", folded)


if __name__ == "__main__":
    main()
