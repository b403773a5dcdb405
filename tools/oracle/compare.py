#!/usr/bin/env python3
"""Compares the lists with docs/SCOPE.md's rules (rules.py) and counts every difference.

    tools/oracle/compare.py            the lists alone
    tools/oracle/compare.py --search   also puts questions to the oracle: all small inputs, plans for the
                                       areas of sfdp.bin, the examples of known.txt

It fails if a difference is found that no named class explains, or an example is not answered as noted.
"""
import itertools
import os
import struct
import sys
sys.dont_write_bytecode = True
from common import HERE, ask, pack_answer, place
from rules import (CHOICE_SLIPS, PLAN_SLIPS, RANGE_SLIPS, SFDP_SLIPS, check_range, make_plan,
                   plan_types, read_area)


def records(name, size):
    with open(place(name), "rb") as file:
        data = file.read()
    assert len(data) % size == 0
    return [data[i:i + size] for i in range(0, len(data), size)]


def causes(rule, slips, rust):
    """The slips that make the difference between rule(no slips) and the Rust's answer."""
    everything = frozenset(slips)
    if rule(everything) != rust:
        raise SystemExit("a difference that no class explains: %r" % (rust,))
    plain = rule(frozenset())
    if plain == rust:
        return []
    # A slip counts if taking it away changes the answer; where two give the same, each alone counts.
    found = [s for s in sorted(slips) if rule(everything - {s}) != rust]
    return found or [s for s in sorted(slips) if rule(frozenset({s})) != plain]


def report(title, slips, total, counts, first):
    print("%s: %d inputs, %d differ" % (title, total, counts.pop("any", 0)))
    for slip in sorted(slips):
        print("  %s %5d  %s%s" % (slip, counts.get(slip, 0), slips[slip],
                                  ("; first: " + first[slip]) if slip in first else ""))


def compare(title, slips, cases):
    """Cases are (rule, the Rust's answer, a text of the input)."""
    counts, first, total = {}, {}, 0
    for rule, rust, text in cases:
        total += 1
        found = causes(rule, slips, rust)
        if found:
            counts["any"] = counts.get("any", 0) + 1
        for slip in found:
            counts[slip] = counts.get(slip, 0) + 1
            first.setdefault(slip, text)
    report(title, slips, total, counts, first)


def sfdp_cases():
    for i, record in enumerate(records("sfdp.bin", 256)):
        area = record[:128]
        yield (lambda slips: pack_answer(*read_area(area, slips))), record[128:], "record %d" % i


def range_cases():
    for record in records("ranges.bin", 32):
        ab, is_set, verdict, address, length, capacity, reported = struct.unpack("<BBBxIQQI4x", record)
        capacity = capacity if is_set else None
        yield ((lambda slips: check_range(ab, capacity, address, length, slips)), (verdict, reported),
               "range %d %s %d %d" % (ab, "-" if capacity is None else capacity, address, length))


def plan_cases(wanted):
    for i, record in enumerate(records("plans.bin", 256)):
        n, m, verdict, start, length = struct.unpack_from("<BBBxIQ", record)
        types = []
        for k in range(n):
            size, opcode, timed, time = struct.unpack_from("<IBBxxI", record, 16 + 12 * k)
            types.append((size, opcode, time if timed else None))
        entries = []
        for k in range(m):
            opcode, timed, size, base, time = struct.unpack_from("<BBxxIII", record, 64 + 16 * k)
            entries.append((opcode, size, base, time if timed else None))
        reach = i < 4096 - 128
        if wanted == ("reach" if reach else "panic" if verdict else "out"):
            if verdict:
                entries = None
            yield ((lambda slips: None if start + length >= 1 << 64 else
                    make_plan(types, start, length, slips)), entries, "record %d" % i)


def parts_against_rules():
    parts = records("parts.bin", 1024)
    wrong = 0
    for record in parts:
        if pack_answer(*read_area(record[:896])) != record[896:]:
            wrong += 1
    print("parts.bin: %d parts, %d differ from docs/SCOPE.md's rules" % (len(parts), wrong))
    assert wrong == 0


# ---------------------------------------------------------------- all small inputs

def asked(make_question, cases):
    cases = list(cases)
    return zip(cases, ask([make_question(*case) for case in cases]))


def search_ranges():
    cases = []
    for ab in (1, 2):
        limit = 256 ** ab
        lengths = list(range(0, 6)) + list(range(limit - 5, limit + 6)) + list(range(2 * limit - 5, 2 * limit + 6))
        addresses = list(range(0, 6)) + list(range(limit - 5, limit + 6))
        for cap in [None, 0, 1, 2, 5] + list(range(limit - 3, limit + 4)):
            for address, length in itertools.product(addresses, lengths):
                cases.append((ab, cap, address, length))

    def question(ab, cap, address, length):
        return "range %d %s %d %d" % (ab, "-" if cap is None else cap, address, length)

    for case, answer in asked(question, cases):
        words = answer.split()
        rust = ({"ok": 0, "bad": 5, "panic": 255}[words[0]], int(words[1]) if len(words) > 1 else 0)
        yield (lambda slips: check_range(*case, slips=slips)), rust, question(*case)


def parse_plan(answer):
    """The entries of a plan, or None for any other answer."""
    words = answer.split()
    if words[0] != "ok":
        return None
    entries = []
    for entry in [] if words[1] == "-" else words[1].split(","):
        opcode, size, base, time = entry.split(":")
        entries.append((int(opcode, 16), int(size), int(base), None if time == "-" else int(time)))
    return entries


def search_plans(sets, top):
    cases = [(sizes, start, length) for sizes in sets for start in range(top) for length in range(top)]

    def question(sizes, start, length):
        text = ",".join("%d:%02x:-" % (size, i + 1) for i, size in enumerate(sizes))
        return "plan %s %d %d" % (text, start, length)

    for case, answer in asked(question, cases):
        sizes, start, length = case
        types = [(size, i + 1, None) for i, size in enumerate(sizes)]
        rust = parse_plan(answer)
        yield (lambda slips: make_plan(types, start, length, slips)), rust, question(*case)


def search_choices():
    """Plans of `make_erase_plan` after each accepted area, on ranges around the largest size."""
    cases = []
    for i, record in enumerate(records("sfdp.bin", 256)):
        if record[128] != 0:
            continue
        values = read_area(record[:128], SFDP_SLIPS)[1]
        top = max([size for size, _, _ in plan_types(values)] + [4096])
        for start, length in ((0, 1), (top - 1, 2), (top // 2 + 1, top)):
            cases.append((i, record[:128], values, start, length))

    def question(i, area, values, start, length):
        return "mplan area=%s %d %d" % (area.hex(), start, length)

    for (i, area, values, start, length), answer in asked(question, cases):

        def rule(slips):
            types = plan_types(values, slips)
            return make_plan(types, start, length) if types else None

        assert answer.startswith("ok") or answer == "err 7"
        yield rule, parse_plan(answer), "area of record %d, start %d, length %d" % (i, start, length)


def check_known():
    """known.txt: question => the Rust's answer; a star at the end: only the start is noted."""
    pairs = []
    with open(os.path.join(HERE, "known.txt")) as file:
        for line in file:
            if line.strip() and not line.startswith("#"):
                question, answer = line.strip().split(" => ")
                pairs.append((question, answer))
    for (question, wanted), answer in zip(pairs, ask([question for question, _ in pairs])):
        same = answer.startswith(wanted[:-1]) if wanted.endswith("*") else answer == wanted
        if not same:
            raise SystemExit("known.txt: %s\n  noted   %s\n  answers %s" % (question, wanted, answer))
    print("known.txt: %d examples, all answered as noted" % len(pairs))


def search():
    check_known()
    compare("make_erase_plan after each accepted area of sfdp.bin, three ranges", CHOICE_SLIPS,
            search_choices())
    compare("all small ranges, 1 and 2 address bytes", RANGE_SLIPS, search_ranges())
    powers = [2, 4, 8, 16]
    sets = [s for n in (1, 2, 3) for s in itertools.combinations_with_replacement(powers, n)]
    compare("plans, one to three powers of two from 2 to 16", PLAN_SLIPS, search_plans(sets, 40))
    compare("plans, a single size from 1 to 20", PLAN_SLIPS, search_plans([(s,) for s in range(1, 21)], 48))
    sets = [(1,) + s for n in (1, 2) for s in itertools.combinations_with_replacement(powers, n)]
    compare("plans, size 1 beside powers of two (out of reach)", PLAN_SLIPS, search_plans(sets, 40))
    sets = list(itertools.combinations(range(2, 9), 2))
    compare("plans, two different sizes from 2 to 8 (out of reach unless powers)", PLAN_SLIPS,
            search_plans(sets, 40))


def main():
    compare("sfdp.bin", SFDP_SLIPS, sfdp_cases())
    parts_against_rules()
    compare("ranges.bin", RANGE_SLIPS, range_cases())
    compare("plans.bin, in reach", PLAN_SLIPS, plan_cases("reach"))
    compare("plans.bin, size 1 beside others", PLAN_SLIPS, plan_cases("out"))
    compare("plans.bin, start plus length past 64 bits", PLAN_SLIPS, plan_cases("panic"))
    if sys.argv[1:] == ["--search"]:
        search()


main()
