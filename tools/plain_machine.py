#!/usr/bin/env python3
"""Runs a program for RISC-V on a plain machine, by a plain simulator: `tools/plain_machine.py FILE [--lps N] [--end N] ..`.

It prints the text of `twarp run --program FILE` with the same options, of which it takes --lps, --end, --seed, --fuel, --data and
--finals. It goes slowly, one event after another, and shares no code with twarp: tests compare the two. The file is taken to be a
lawful program.

Numbers by the manual, The RISC-V Instruction Set Manual, Volume I, version 20191213: RV64I, M and C.
"""

import argparse
import heapq
import struct

# The memory of a handler.
IMAGE, DATA, STATE, STACK, RETURN = 0x1_0000, 0x2000_0000, 0x4000_0000, 1024, 0xFFFF_FFFC
CLASSES = (64, 256, 1024, 4096)  # bytes of a state
MOST_SENDS, MOST_RECORDS, MOST_DRAWS = 16, 4, 64
TRAP, NO_FINAL = 2**32 - 1, 2**64 - 1
BAD_JUMP, BAD_INSTRUCTION, BAD_ADDRESS, BAD_CALL, TOO_MANY, BAD_SEND, SPENT, BREAKPOINT = range(1, 9)
BELOW, WORD, SEND, EMIT, LPS, DATA_SIZE = range(6)

# ---- The words that processes draw: ChaCha with eight rounds, a stream for each process.

QUARTERS = ((0, 4, 8, 12), (1, 5, 9, 13), (2, 6, 10, 14), (3, 7, 11, 15), (0, 5, 10, 15), (1, 6, 11, 12), (2, 7, 8, 13), (3, 4, 9, 14))


def drawn_word(seed, lp, place):
    """The word at a place of a process's stream."""
    first = [*struct.unpack("<4I", b"expand 32-byte k"), *struct.unpack("<2I", struct.pack("<Q", seed)), *[0] * 6]
    first += struct.unpack("<4I", struct.pack("<QQ", place // 16, lp))
    words = list(first)
    for quarter in 4 * QUARTERS:
        for step, turn in enumerate((16, 12, 8, 7)):
            to, by, mixed = (quarter[it] for it in ((0, 1, 3), (2, 3, 1))[step % 2])
            words[to] = (words[to] + words[by]) % 2**32
            words[mixed] ^= words[to]
            words[mixed] = (words[mixed] << turn | words[mixed] >> 32 - turn) % 2**32
    return (words[place % 16] + first[place % 16]) % 2**32


# ---- Instructions.


class Trap(Exception):
    """Why a handler traps."""


def part(bits, high, low):
    return bits >> low & (1 << high - low + 1) - 1


def signed(number, width):
    """A number of so many bits, the highest of which is its sign."""
    return (number + (1 << width - 1)) % (1 << width) - (1 << width - 1)


def joined(bits, *parts):
    """A number of parts of an instruction: pairs of the part's bits and of the place of its lowest bit."""
    return sum(part(bits, high, low) << place for high, low, place in parts)


# The formats R, I, S, B and J.


def with_registers(opcode, f3, f7, to, first, second):
    return opcode | to << 7 | f3 << 12 | first << 15 | second << 20 | f7 << 25


def with_immediate(opcode, f3, to, first, number):
    return opcode | to << 7 | f3 << 12 | first << 15 | (number & 0xFFF) << 20


def store(f3, source, base, offset=0):
    return 0x23 | (offset & 31) << 7 | f3 << 12 | base << 15 | source << 20 | (offset >> 5 & 127) << 25


def branch(f3, first, second, offset):
    return (0x63 | (offset >> 11 & 1) << 7 | (offset >> 1 & 15) << 8 | f3 << 12 | first << 15 | second << 20 | (offset >> 5 & 63) << 25
            | (offset >> 12 & 1) << 31)  # fmt: skip


def jal(to, offset):
    return 0x6F | to << 7 | (offset >> 12 & 255) << 12 | (offset >> 11 & 1) << 20 | (offset >> 1 & 1023) << 21 | (offset >> 20 & 1) << 31


def expanded_0(half):
    """The instruction that one of quadrant 0 stands for, or None."""
    to, base = 8 + part(half, 4, 2), 8 + part(half, 9, 7)
    wide, narrow = joined(half, (12, 10, 3), (6, 5, 6)), joined(half, (12, 10, 3), (6, 6, 2), (5, 5, 6))
    function = half >> 13
    if function == 0:
        number = joined(half, (12, 11, 4), (10, 7, 6), (6, 6, 2), (5, 5, 3))
        return with_immediate(0x13, 0, to, 2, number) if number else None
    if function in (2, 3):
        return with_immediate(0x03, function, to, base, narrow if function == 2 else wide)
    if function in (6, 7):
        return store(function - 4, to, base, narrow if function == 6 else wide)
    return None


def expanded_arithmetic(half):
    """The same of function 4 of quadrant 1."""
    to, second, amount = 8 + part(half, 9, 7), 8 + part(half, 4, 2), joined(half, (12, 12, 5), (6, 2, 0))
    function = part(half, 11, 10)
    if function < 2:
        return with_immediate(0x13, 5, to, to, amount | 0x400 * function)
    if function == 2:
        return with_immediate(0x13, 7, to, to, signed(amount, 6))
    found = {0: (0x33, 0, 32), 1: (0x33, 4, 0), 2: (0x33, 6, 0), 3: (0x33, 7, 0), 4: (0x3B, 0, 32), 5: (0x3B, 0, 0)}.get(
        joined(half, (12, 12, 2), (6, 5, 0)))  # fmt: skip
    return with_registers(*found, to, to, second) if found else None


def expanded_1(half):
    """The same of quadrant 1."""
    to, function, number = part(half, 11, 7), half >> 13, signed(joined(half, (12, 12, 5), (6, 2, 0)), 6)
    if function < 3:
        return None if function == 1 and to == 0 else with_immediate((0x13, 0x1B, 0x13)[function], 0, to, 0 if function == 2 else to, number)
    if function == 3 and to == 2:
        number = signed(joined(half, (12, 12, 9), (6, 6, 4), (5, 5, 6), (4, 3, 7), (2, 2, 5)), 10)
        return with_immediate(0x13, 0, 2, 2, number) if number else None
    if function == 3:
        return 0x37 | to << 7 | (number & 0xFFFFF) << 12 if number else None
    if function == 4:
        return expanded_arithmetic(half)
    if function == 5:
        return jal(0, signed(joined(half, (12, 12, 11), (11, 11, 4), (10, 9, 8), (8, 8, 10), (7, 7, 6), (6, 6, 7), (5, 3, 1), (2, 2, 5)), 12))
    return branch(function - 6, 8 + part(half, 9, 7), 0, signed(joined(half, (12, 12, 8), (11, 10, 3), (6, 5, 6), (4, 3, 1), (2, 2, 5)), 9))


def expanded_2(half):
    """The same of quadrant 2."""
    to, second, function = part(half, 11, 7), part(half, 6, 2), half >> 13
    if function == 0:
        return with_immediate(0x13, 1, to, to, joined(half, (12, 12, 5), (6, 2, 0)))
    if function in (2, 3) and to:
        parts = ((12, 12, 5), (6, 4, 2), (3, 2, 6)) if function == 2 else ((12, 12, 5), (6, 5, 3), (4, 2, 6))
        return with_immediate(0x03, function, to, 2, joined(half, *parts))
    if function == 4 and second:
        return with_registers(0x33, 0, 0, to, to * part(half, 12, 12), second)
    if function == 4 and to:
        return with_immediate(0x67, 0, part(half, 12, 12), to, 0)
    if function == 4:
        return 0x0010_0073 if part(half, 12, 12) else None
    if function in (6, 7):
        return store(function - 4, second, 2, joined(half, *(((12, 9, 2), (8, 7, 6)) if function == 6 else ((12, 10, 3), (9, 7, 6)))))
    return None


def quotient(a, b):
    """The quotient of numbers with a sign, towards zero; -1 of a division by 0."""
    return -1 if b == 0 else abs(a) // abs(b) * (1 if (a < 0) == (b < 0) else -1)


def rest(a, b):
    return a if b == 0 else a - b * quotient(a, b)


# What the instructions of two registers give, by functions 7 and 3. Each takes its numbers without and with their signs.
OF_DOUBLES = {
    (0, 0): lambda a, b, x, y: a + b, (32, 0): lambda a, b, x, y: a - b, (0, 1): lambda a, b, x, y: a << b % 64,
    (0, 2): lambda a, b, x, y: x < y, (0, 3): lambda a, b, x, y: a < b, (0, 4): lambda a, b, x, y: a ^ b,
    (0, 5): lambda a, b, x, y: a >> b % 64, (32, 5): lambda a, b, x, y: x >> b % 64, (0, 6): lambda a, b, x, y: a | b,
    (0, 7): lambda a, b, x, y: a & b,
    (1, 0): lambda a, b, x, y: a * b, (1, 1): lambda a, b, x, y: x * y >> 64, (1, 2): lambda a, b, x, y: x * b >> 64,
    (1, 3): lambda a, b, x, y: a * b >> 64, (1, 4): lambda a, b, x, y: quotient(x, y), (1, 5): lambda a, b, x, y: a // b if b else -1,
    (1, 6): lambda a, b, x, y: rest(x, y), (1, 7): lambda a, b, x, y: a % b if b else a,
}  # fmt: skip
# The same of those that take and give 32 bits.
OF_WORDS = {
    (0, 0): lambda a, b, x, y: a + b, (32, 0): lambda a, b, x, y: a - b, (0, 1): lambda a, b, x, y: a << b % 32,
    (0, 5): lambda a, b, x, y: a >> b % 32, (32, 5): lambda a, b, x, y: x >> b % 32,
    (1, 0): lambda a, b, x, y: a * b, (1, 4): lambda a, b, x, y: quotient(x, y), (1, 5): lambda a, b, x, y: a // b if b else -1,
    (1, 6): lambda a, b, x, y: rest(x, y), (1, 7): lambda a, b, x, y: a % b if b else a,
}  # fmt: skip
TAKEN = {0: lambda a, b, x, y: a == b, 1: lambda a, b, x, y: a != b, 4: lambda a, b, x, y: x < y, 5: lambda a, b, x, y: x >= y,
         6: lambda a, b, x, y: a < b, 7: lambda a, b, x, y: a >= b}  # fmt: skip


def reckoned(bits, a, b):
    """What an instruction of arithmetic gives of the numbers in its registers, or None."""
    opcode, f3, f7, number = bits & 127, part(bits, 14, 12), bits >> 25, signed(bits >> 20, 12) % 2**64
    width = 32 if opcode & 8 else 64
    table = OF_WORDS if opcode & 8 else OF_DOUBLES
    if opcode in (0x13, 0x1B):
        b = number
        if f3 in (1, 5):
            f7, b = (f7, b % 32) if width == 32 else (f7 & ~1, b % 64)
        else:
            f7 = 0
        if f7 == 1 or width == 32 and f3 not in (0, 1, 5):
            return None
    if (f7, f3) not in table:
        return None
    a, b = a % 2**width, b % 2**width
    return signed(table[f7, f3](a, b, signed(a, width), signed(b, width)), width)


# ---- The program.


class Program:
    """What a file has: image, code, the first state, and where the handlers begin."""

    def __init__(self, file):
        self.flags = struct.unpack_from("<I", file, 48)[0]
        self.image, self.first, self.code_size = b"", b"", 0
        programs, (count,) = struct.unpack_from("<Q", file, 32)[0], struct.unpack_from("<H", file, 56)
        for at in range(programs, programs + 56 * count, 56):
            kind, flags, offset, address, _, file_size, size = struct.unpack_from("<IIQQQQQ", file, at)
            data = file[offset : offset + file_size] + bytes(size - file_size)
            if kind != 1 or size == 0:
                continue
            if flags & 2:
                self.first += bytes(address - STATE - len(self.first)) + data
            else:
                self.image += bytes(address - IMAGE - len(self.image)) + data
                self.code_size = len(self.image) if flags & 1 else self.code_size
        self.first = self.first.ljust(next(it for it in CLASSES if len(self.first) <= it), b"\0")
        self.entries = dict(symbols_of(file))

    def at(self, address):
        """The instruction at an address, and its length."""
        offset = address - IMAGE
        if self.is_misaligned(address) or not 0 <= offset <= self.code_size - 2:
            raise Trap(BAD_JUMP)
        half = int.from_bytes(self.image[offset : offset + 2], "little")
        if half % 4 == 3:
            return (int.from_bytes(self.image[offset : offset + 4], "little"), 4) if offset <= self.code_size - 4 else (None, 4)
        return ((expanded_0, expanded_1, expanded_2)[half % 4](half) if self.flags % 2 else None), 2

    def is_misaligned(self, address):
        return address % (2 if self.flags % 2 else 4) != 0


def symbols_of(file):
    """The names and addresses of functions."""
    sections, count = struct.unpack_from("<Q", file, 40)[0], struct.unpack_from("<H", file, 60)[0]
    for at in range(sections, sections + 64 * count, 64):
        if struct.unpack_from("<I", file, at + 4)[0] == 2:
            table, size, link = struct.unpack_from("<QQI", file, at + 24)
            names = struct.unpack_from("<Q", file, sections + 64 * link + 24)[0]
            for symbol in range(table, table + size, 24):
                name, kind, _, section, address = struct.unpack_from("<IBBHQ", file, symbol)
                if section and kind % 16 in (0, 2):
                    yield file[names + name : file.index(b"\0", names + name)].decode(), address


# ---- A handler.


class Handler:
    """A run of a handler."""

    def __init__(self, run, kind, state, numbers, now=(0, 0)):
        self.run, self.kind, self.now, self.lp = run, kind, now, numbers[0]
        self.pc = run.program.entries[kind]
        self.registers = [0, RETURN, STATE, *[0] * 7, *numbers, *[0] * (22 - len(numbers))]
        self.state, self.stack = bytearray(state), bytearray(STACK)
        self.sends, self.records, self.draws = [], [], 0

    def trap(self):
        """Runs it to its end. Gives 0, or the value of the trap's record."""
        try:
            for _ in range(self.run.fuel):
                if self.pc == RETURN:
                    return 0
                self.step()
            if self.pc != RETURN:
                raise Trap(SPENT)
            return 0
        except Trap as trap:
            return trap.args[0] << 32 | self.pc % 2**32

    def step(self):
        bits, length = self.run.program.at(self.pc)
        if bits is None:
            raise Trap(BAD_INSTRUCTION)
        opcode, to, behind = bits & 127, part(bits, 11, 7), (self.pc + length) % 2**64
        a, b = self.registers[part(bits, 19, 15)], self.registers[part(bits, 24, 20)]
        value, pc = self.gone(bits, a, b, behind) if opcode in (0x6F, 0x67, 0x63) else (self.given(bits, a, b), behind)
        if value is not None and to:
            self.registers[to] = value % 2**64
        self.pc = pc

    def gone(self, bits, a, b, behind):
        """What a jump or a branch puts into its register, if it does, and where it goes."""
        opcode, f3 = bits & 127, part(bits, 14, 12)
        if opcode == 0x6F:
            return behind, self.jumped(self.pc + signed(joined(bits, (31, 31, 20), (19, 12, 12), (20, 20, 11), (30, 21, 1)), 21))
        if opcode == 0x67 and f3 == 0:
            return behind, self.jumped((a + signed(bits >> 20, 12)) // 2 * 2)
        if opcode == 0x67 or f3 not in TAKEN:
            raise Trap(BAD_INSTRUCTION)
        if not TAKEN[f3](a, b, signed(a, 64), signed(b, 64)):
            return None, behind
        return None, self.jumped(self.pc + signed(joined(bits, (31, 31, 12), (7, 7, 11), (30, 25, 5), (11, 8, 1)), 13))

    def given(self, bits, a, b):
        """What another instruction puts into its register, or None."""
        opcode, f3 = bits & 127, part(bits, 14, 12)
        if opcode in (0x37, 0x17):
            return signed(bits >> 12 << 12, 32) + (self.pc if opcode == 0x17 else 0)
        if opcode == 0x03 and f3 < 7:
            return self.loaded(a + signed(bits >> 20, 12), f3)
        if opcode == 0x23 and f3 < 4:
            memory, at = self.memory(a + signed(joined(bits, (31, 25, 5), (11, 7, 0)), 12), 1 << f3, True)
            memory[at : at + (1 << f3)] = (b % 2 ** (8 << f3)).to_bytes(1 << f3, "little")
        elif bits == 0x73:
            self.call()
        elif bits == 0x0010_0073:
            raise Trap(BREAKPOINT)
        elif opcode != 0x0F or f3 > 1:
            value = reckoned(bits, a, b) if opcode in (0x13, 0x1B, 0x33, 0x3B) else None
            if value is None:
                raise Trap(BAD_INSTRUCTION)
            return value
        return None

    def jumped(self, address):
        if self.run.program.is_misaligned(address):
            raise Trap(BAD_JUMP)
        return address % 2**64

    def memory(self, address, size, written):
        """The part of memory in which so many bytes lie, and where in it."""
        parts = [(STATE, self.state), (STATE - STACK, self.stack)]
        for base, memory in parts if written else [*parts, (DATA, self.run.data), (IMAGE, self.run.program.image)]:
            at = address % 2**64 - base
            if 0 <= at <= len(memory) - size:
                return memory, at
        raise Trap(BAD_ADDRESS)

    def loaded(self, address, f3):
        size = 1 << f3 % 4
        memory, at = self.memory(address, size, False)
        value = int.from_bytes(memory[at : at + size], "little")
        return signed(value, 8 * size) if f3 < 4 else value

    def call(self):
        a0, a1, a2, a3, a4 = self.registers[10:15]
        number = self.registers[17]
        if number == BELOW and 1 <= a0 <= 2**32:
            self.registers[10] = self.drawn() * a0 >> 32
        elif number == WORD:
            self.registers[10] = self.drawn()
        elif number == SEND:
            self.send(a0 % 2**32, a1, a2 % 2**32, (a3, a4))
        elif number == EMIT and a0 % 2**32 != TRAP:
            if self.kind != "forward" or len(self.records) == MOST_RECORDS:
                raise Trap(TOO_MANY)
            self.records.append((a0 % 2**32, a1))
        elif number == LPS and self.kind != "finish":
            self.registers[10] = self.run.lps
        elif number == DATA_SIZE:
            self.registers[10] = len(self.run.data)
        else:
            raise Trap(BAD_CALL)

    def drawn(self):
        if self.kind == "finish" or self.draws == MOST_DRAWS:
            raise Trap(TOO_MANY)
        self.draws += 1
        self.run.drawn[self.lp] += 1
        return drawn_word(self.run.seed, self.lp, self.run.drawn[self.lp] - 1)

    def send(self, dest, delay, priority, numbers):
        tick = self.now[0] + delay
        if dest >= self.run.lps or priority > 255 or (tick, priority) <= self.now:
            raise Trap(BAD_SEND)
        if self.kind == "finish" or len(self.sends) == MOST_SENDS:
            raise Trap(TOO_MANY)
        self.sends.append((tick, priority, dest, numbers))


# ---- The simulator.


class Run:
    """A sequential run."""

    def __init__(self, file, lps=2, end=10, seed=0, fuel=1_000_000, data=b""):
        self.program, self.lps, self.end, self.seed, self.fuel, self.data = Program(file), lps, end, seed, fuel, data
        self.drawn, self.sent, self.failed, self.states, self.pending = [0] * lps, [0] * lps, [], [], []
        for lp in range(lps):
            handler = Handler(self, "start", self.program.first, [lp])
            self.failed.append(handler.trap())
            self.states.append(self.program.first if self.failed[lp] else bytes(handler.state))
            self.post(lp, [(0, 1, lp, (0, 0))] if self.failed[lp] else handler.sends)

    def post(self, lp, sends):
        for tick, priority, dest, numbers in sends:
            if tick < self.end:
                heapq.heappush(self.pending, (tick, priority, lp, self.sent[lp], dest, numbers))
            self.sent[lp] += 1

    def lines(self):
        """The records, as lines."""
        while self.pending:
            tick, priority, _, _, lp, numbers = heapq.heappop(self.pending)
            handler = Handler(self, "forward", self.states[lp], [lp, tick, priority, *numbers], (tick, priority))
            trap = self.failed[lp] or handler.trap()
            if not trap:
                self.states[lp] = bytes(handler.state)
                self.post(lp, handler.sends)
            for kind, value in [(TRAP, trap)] if trap else handler.records:
                yield f"{tick} {priority} {lp} {kind} {value}\n"

    def finals(self):
        """The final values, as lines."""
        for lp in range(self.lps):
            handler = Handler(self, "finish", self.states[lp], [lp])
            trapped = self.failed[lp] or handler.trap()
            yield f"final {lp} {NO_FINAL if trapped else handler.registers[10]}\n"


def main():
    parser = argparse.ArgumentParser(description=__doc__, formatter_class=argparse.RawDescriptionHelpFormatter)
    parser.add_argument("file", type=argparse.FileType("rb"), metavar="FILE")
    for name, default in {"lps": 2, "end": 10, "seed": 0, "fuel": 1_000_000}.items():
        parser.add_argument(f"--{name}", type=int, default=default, metavar="N", help="[%(default)s]")
    parser.add_argument("--data", type=argparse.FileType("rb"), metavar="FILE")
    parser.add_argument("--finals", action="store_true")
    given = parser.parse_args()
    run = Run(given.file.read(), given.lps, given.end, given.seed, given.fuel, given.data.read() if given.data else b"")
    print("twarp-records 2")
    for line in run.lines():
        print(line, end="")
    print("".join(run.finals()) if given.finals else "", end="")


if __name__ == "__main__":
    main()
