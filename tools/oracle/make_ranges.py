#!/usr/bin/env python3
"""Makes ranges.bin: 4,096 questions to the range check with the Rust's answers.

docs/ORACLE.md gives the record. The same bytes come out every time.
"""
import struct
import sys
sys.dont_write_bytecode = True
from common import Source, ask, write
from rules import check_range

COUNT = 4096
rnd = Source(0x4A6E)
TOP = (1 << 64) - 1


def near(value, top, spread=2):
    """The numbers around a value that are in 0..top."""
    return [n for n in range(value - spread, value + spread + 1) if 0 <= n <= top]


def chosen():
    """The cases that docs/SCOPE.md names, and the smallest of every difference."""
    yield 3, None, 0, 16777216
    yield 3, None, 0, 16777217
    for address_bytes in (1, 2, 3, 4):
        limit = 256 ** address_bytes
        for capacity in (None, 0, limit, limit + 1, TOP):
            yield address_bytes, capacity, 0, 0
            yield address_bytes, capacity, 0, limit
            yield address_bytes, capacity, 0, limit + 1
            yield address_bytes, capacity, 0, limit + 2
            yield address_bytes, capacity, 1, TOP
            yield address_bytes, capacity, 1, 0
    yield 4, None, 0xFFFFF000, 4096
    yield 4, None, 0xFFFFF000, 4097


def grid():
    for address_bytes in (1, 2, 3, 4):
        limit = 256 ** address_bytes
        capacities = {None, 0, 1, 2, 3, 4096, 1 << 31, (1 << 32) - 1, 1 << 32, (1 << 32) + 1, 1 << 40,
                      (1 << 63) - 1, 1 << 63, TOP - 1, TOP, limit // 2}
        capacities.update(near(limit, TOP))
        capacities.update((rnd.below(limit), rnd.below(1 << 32), rnd.next()))
        for capacity in sorted(capacities, key=lambda c: -1 if c is None else c):
            marks = [limit] + ([] if capacity is None else [capacity])
            addresses = {0, 1, 2, 255, 1 << 31, 0xFFFFFFFE, 0xFFFFFFFF, rnd.below(limit), rnd.dword()}
            for mark in marks:
                addresses.update(near(mark, 0xFFFFFFFF))
            for address in sorted(addresses):
                lengths = {0, 1, 2, 256, 1 << 32, 1 << 63, TOP - 1, TOP, rnd.below(limit) + 1, rnd.next()}
                for mark in marks + [1 << 32, 1 << 64]:
                    lengths.update(near(mark - address, TOP))
                for length in sorted(lengths):
                    yield address_bytes, capacity, address, length


def main():
    cases = []
    seen = set()
    # Most of the grid is refused from far away: first the ranges that end within two bytes of a mark,
    # the accepted ones of them before the others.
    all_cases = rnd.shuffle(grid())

    def close(case):
        address_bytes, capacity, address, length = case
        end = address + length
        return any(abs(end - mark) <= 2 for mark in (256 ** address_bytes, capacity or 0))

    def accepted(case):
        return check_range(*case)[0] == 0

    near_accepted = (case for case in all_cases if close(case) and accepted(case))
    near_any = (case for case in all_cases if close(case))
    for group, limit in ((chosen(), COUNT), (near_accepted, 1200), (near_any, 2900), (all_cases, COUNT)):
        for case in group:
            if len(cases) >= limit:
                break
            if case not in seen:
                seen.add(case)
                cases.append(case)
    assert len(cases) == COUNT

    answers = ask(["range %d %s %d %d" % (ab, "-" if cap is None else cap, address, length)
                   for ab, cap, address, length in cases])
    out = bytearray()
    verdicts = {}
    for (address_bytes, capacity, address, length), answer in zip(cases, answers):
        words = answer.split()
        verdict = {"ok": 0, "bad": 5, "panic": 255}[words[0]]
        reported = int(words[1]) if verdict == 5 else 0
        verdicts[verdict] = verdicts.get(verdict, 0) + 1
        out += struct.pack("<BBBxIQQI4x", address_bytes, capacity is not None, verdict, address, length,
                           capacity or 0, reported)
    print("verdicts:", ", ".join("%d: %d" % pair for pair in sorted(verdicts.items())))
    write("ranges.bin", bytes(out))


main()
