#!/usr/bin/env python3
"""Makes plans.bin: 4,096 erase plans of the Rust, at most 12 entries each.

The last 128 records are out of reach of the settings and the parameters: see docs/ORACLE.md, which
gives the record too. The same bytes come out every time.
"""
import struct
import sys
sys.dont_write_bytecode = True
from common import Source, ask, write
from rules import make_plan

COUNT = 4096
OUT_OF_REACH = 128
ENTRIES = 12
rnd = Source(0x91A7)
MEMORY = 1 << 32


def random_time():
    return rnd.pick([None, None, 0, 1000, 30000, 288000, 32000000, rnd.dword()])


def type_set(sizes):
    """Types of the given sizes in random order, some with opcodes or times in common."""
    opcodes = [rnd.below(256) for _ in range(2)] + [0x20, 0x52, 0xD8, 0, 0xFF]
    return rnd.shuffle((size, rnd.pick(opcodes), random_time()) for size in sizes)


def powers():
    """One to four powers of two from 2 to 2^31, near enough to one another to be mixed in a plan."""
    top = rnd.pick([rnd.between(1, 31), rnd.between(1, 8), rnd.between(12, 20), 31])
    sizes = [1 << top]
    for _ in range(rnd.below(4)):
        if rnd.chance(25):
            sizes.append(rnd.pick(sizes))
        else:
            sizes.append(1 << max(1, top - rnd.below(7)))
    return sizes


def known():
    return rnd.pick([[4096, 32768, 65536], [4096, 65536], [4096, 32768, 65536, 262144], [4096],
                     [4, 32, 64], [65536], [256], [4096, 4096, 65536]])


def odd():
    small = rnd.between(3, 300) | 1
    return [rnd.pick([1, 1, 3, 5, 6, 7, 100, 1000, 4095, 4097, 12288, 65535, 65537, 3 << 20,
                      (1 << 31) - 1, (1 << 31) - 2, small, small * 2, rnd.between(1, 1 << 31)])]


def mixed_range(sizes):
    """A range that starts a little before a limit of the largest blocks and ends a little past one.

    There the first and the last entry are of smaller types than those between.
    """
    top = max(sizes)
    while True:
        first = rnd.between(0, min(12, MEMORY // top))
        if rnd.chance(30):
            first = MEMORY // top - rnd.between(0, min(12, MEMORY // top))
        last = first + rnd.pick([0, 0, 1, 1, 2, rnd.below(10)])
        size, other = rnd.pick(sizes), rnd.pick(sizes)
        start = first * top - rnd.pick([0, 1, size - 1, size, size + 1, size // 2, rnd.below(size + 1)])
        end = last * top + rnd.pick([0, 1, other - 1, other, other + 1, other // 2, rnd.below(other + 1)])
        if 0 <= start < MEMORY and start < end <= MEMORY:
            return start, end - start


def random_range(sizes):
    """A range whose start and end lie on or near limits of blocks, inside 4 GiB."""
    while True:
        size = rnd.pick(sizes)
        blocks = max(1, MEMORY // size)
        block = rnd.pick([0, 0, 1, rnd.below(16), rnd.below(blocks), blocks - rnd.between(1, min(9, blocks))])
        start = block * size + rnd.pick([0, 0, 1, -1, 2, -2, rnd.below(size)])
        other = rnd.pick(sizes)
        limit = (start // other + rnd.pick([0, 1, 2, 3, rnd.below(9), rnd.below(14)])) * other
        end = limit + rnd.pick([0, 0, 1, -1, 2, -2, rnd.below(other), -rnd.below(other)])
        if rnd.chance(4):
            end = MEMORY
        if rnd.chance(2):
            end = start
        if 0 <= start < MEMORY and start <= end <= MEMORY:
            return start, end - start


def fits(types, start, length):
    # The number of entries is at least this; it keeps the count below from taking for ever.
    if length > (ENTRIES + 1) * max(size for size, _, _ in types):
        return False
    return len(make_plan(types, start, length)) <= ENTRIES


def in_reach():
    # The seven of the Rust's own test.
    for start, length in ((0, 4), (0, 64), (0, 192), (0, 70), (0, 66), (62, 64), (62, 68)):
        yield [(4, 1, None), (32, 2, None), (64, 3, None)], start, length
    # The refusal at 4,096 starts with this plan.
    yield [(4096, 0x20, None), (32768, 0x52, None), (65536, 0xD8, None)], 4096, 61440
    yield [(256, 0x20, None)], 256, 2
    while True:
        kind = rnd.below(10)
        sizes = powers() if kind < 6 else known() if kind < 8 else odd()
        types = type_set(sizes)
        start, length = mixed_range(sizes) if kind < 8 and rnd.chance(60) else random_range(sizes)
        yield types, start, length


def out_of_reach():
    # A type of one byte beside others. A setting gives one size only; a table has no size of one byte.
    for i in range(OUT_OF_REACH - 8):
        while True:
            sizes = [1] + [1 << rnd.between(1, 4) for _ in range(rnd.between(1, 3))]
            types = type_set(sizes)
            start, length = random_range([s for s in sizes if s > 1])
            # Two of three end one byte before the end of a block.
            if i % 3 and (start + length) % 2 == 0:
                continue
            if length and fits(types, start, length):
                break
        yield types, start, length
    # The sum of start and length does not fit in 64 bits.
    for start in (1, 2, 255, 256, 4096, 1 << 31, MEMORY - 2, MEMORY - 1):
        yield [(4096, 0x20, None)], start, (1 << 64) - rnd.between(1, start)


def main():
    cases = []
    seen = set()
    for case in in_reach():
        if len(cases) == COUNT - OUT_OF_REACH:
            break
        key = (tuple(case[0]), case[1], case[2])
        if key not in seen and fits(*case):
            seen.add(key)
            cases.append(case)
    cases += list(out_of_reach())
    assert len(cases) == COUNT

    questions = []
    for types, start, length in cases:
        text = ",".join("%d:%02x:%s" % (size, opcode, "-" if time is None else time)
                        for size, opcode, time in types)
        questions.append("plan %s %d %d" % (text, start, length))

    out = bytearray()
    by_count = {}
    for (types, start, length), answer in zip(cases, ask(questions)):
        words = answer.split()
        verdict = {"ok": 0, "panic": 255}[words[0]]
        entries = [] if verdict or words[1] == "-" else words[1].split(",")
        assert len(entries) <= ENTRIES
        name = "panic" if verdict else len(entries)
        by_count[name] = by_count.get(name, 0) + 1
        record = struct.pack("<BBBxIQ", len(types), len(entries), verdict, start, length)
        for size, opcode, time in types:
            record += struct.pack("<IBBxxI", size, opcode, time is not None, time or 0)
        record = record.ljust(64, b"\0")
        for entry in entries:
            opcode, size, base, time = entry.split(":")
            record += struct.pack("<BBxxIII", int(opcode, 16), time != "-", int(size), int(base),
                                  0 if time == "-" else int(time))
        out += record.ljust(256, b"\0")
    print("entries:", ", ".join("%s: %d" % pair for pair in sorted(by_count.items(), key=str)))
    write("plans.bin", bytes(out))


main()
