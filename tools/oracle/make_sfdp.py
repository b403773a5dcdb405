#!/usr/bin/env python3
"""Makes sfdp.bin: 4,096 SFDP areas of 128 bytes with what the Rust makes of them.

docs/ORACLE.md gives the record. Every area is different; the same bytes come out every time.
"""
import struct
import sys
sys.dont_write_bytecode = True
from common import Source, ask, pack_answer, parse_area, write

COUNT = 4096
SIZE = 128
rnd = Source(0x5FD9)

# The four real parts: SFDP minor, parameter headers (the first is made anew, see area), dwords.
REAL = {
    "mx25l25635e": (0, 0, ["c2000104600000ff"],
                    "FFF320E5 0FFFFFFF 6B08EB44 BB043B08 FFFFFFEE FF00FFFF FF00FFFF 520F200C FF00D810"),
    "mx66l1g45g": (6, 6, ["c2000104100100ff", "84000102c00000ff"],
                   "FFFB20E5 3FFFFFFF 6B08EB44 BB043B08 FFFFFFFE FF00FFFF EB44FFFF 520F200C FF00D810 "
                   "00C549D6 E304DF85 38670344 B030B030 5CD5BDF7 FF299E4A 85F950F0"),
    "n25q256a": (0, 0, [],
                 "FFFB20E5 0FFFFFFF 6B27EB29 BB273B08 FFFFFFFF BB27FFFF EB29FFFF D810200C 00000000"),
    "w25q256": (0, 0, [],
                "FFF320E5 0FFFFFFF 6B08EB44 BB423B08 FFFFFFFE 0000FFFF EB21FFFF 520F200C 0000D810"),
}


def dwords_of(name):
    return [int(word, 16) for word in REAL[name][3].split()]


SHORT = dwords_of("w25q256")
LONG = dwords_of("mx66l1g45g")

# Multi-bit fields by dword: (lowest bit, width).
FIELDS = {
    1: [(0, 2), (8, 8), (17, 2)],
    2: [(0, 31)],
    8: [(0, 8), (8, 8), (16, 8), (24, 8)],
    9: [(0, 8), (8, 8), (16, 8), (24, 8)],
    10: [(0, 4), (4, 7), (4, 5), (9, 2), (11, 7), (11, 5), (16, 2), (18, 7), (18, 5), (23, 2),
         (25, 7), (25, 5), (30, 2)],
    11: [(0, 4), (4, 4), (8, 6), (8, 5), (14, 5), (14, 4), (19, 5), (19, 4), (24, 7), (24, 5), (29, 2)],
    14: [(2, 6)],
    16: [(0, 7), (0, 5), (8, 6)],
}


def area(dwords, minor=0, count=None, pointer=16, major=1, param_id=0xFF00, signature=b"SFDP",
         sfdp=(6, 1), headers=0, protocol=0xFF, others=()):
    """An area with a header, a first parameter header, others, and a table at the pointer.

    count is the dword count written into the header; headers is byte 6 (their number minus 1).
    """
    count = len(dwords) if count is None else count
    data = bytearray(b"\xFF" * SIZE)

    def put(at, what):
        for i, value in enumerate(what):
            if at + i < SIZE:
                data[at + i] = value

    put(pointer, b"".join(struct.pack("<I", d) for d in dwords))
    put(0, signature + bytes([sfdp[0], sfdp[1], headers, protocol]))
    put(8, bytes([param_id & 0xFF, minor, major, count]) + struct.pack("<I", pointer)[:3]
        + bytes([param_id >> 8]))
    for i, other in enumerate(others):
        put(16 + 8 * i, bytes.fromhex(other))
    return bytes(data)


def changed(dwords, number, value):
    """The table with dword `number` (from 1) replaced."""
    out = list(dwords)
    out[number - 1] = value & 0xFFFFFFFF
    return out


def with_field(word, low, width, value):
    mask = ((1 << width) - 1) << low
    return (word & ~mask) | (value << low)


# ---------------------------------------------------------------- the groups

def real_parts():
    for name in sorted(REAL):
        sfdp_minor, minor, others, _ = REAL[name]
        for pointer in (48, 16, 40, 33):
            if pointer < 16 + 8 * len(others):
                continue
            yield area(dwords_of(name), minor, pointer=pointer, sfdp=(sfdp_minor, 1),
                       headers=len(others), others=others)


def field_ends():
    """Every dword that is read: all 0, all 1, single bits, every field at its ends."""
    for number in (1, 2, 8, 9, 10, 11, 14, 16):
        bases = [(LONG, 6)] + ([(SHORT, 0)] if number <= 9 else [])
        for table, minor in bases:
            here = table[number - 1]
            values = [0, 0xFFFFFFFF]
            values += [here ^ (1 << bit) for bit in range(32)]
            if minor == 6:
                values += [1 << bit for bit in range(32)]
                if number >= 10:
                    values += [0xFFFFFFFF ^ (1 << bit) for bit in range(32)]
            for low, width in FIELDS[number]:
                top = (1 << width) - 1
                for value in (0, 1, top - 1, top):
                    values.append(with_field(here, low, width, value))
                    values.append(with_field(0, low, width, value))
                    if number >= 10:
                        values.append(with_field(0xFFFFFFFF, low, width, value))
            for value in values:
                yield area(changed(table, number, value), minor)


def minors_and_counts():
    table = LONG + [0, 0xFFFFFFFF, 0x12345678, 0x9ABCDEF0]
    for minor in list(range(9)) + [9, 15, 16, 127, 128, 254, 255]:
        for count in range(21):
            yield area(table[:count], minor, count=count)
    # The header's count goes past the table that is there: the rest is FF.
    for minor in (4, 5, 6, 7):
        for count in (16, 17, 28, 29, 64, 128, 255):
            yield area(LONG[:12], minor, count=count)


def pointers():
    for pointer in list(range(0, 129)):
        yield area(LONG, 6, pointer=pointer)
        yield area(SHORT, 4, pointer=pointer)
    for pointer in (129, 200, 255, 256, 256 + 16, 4096, 0x10000, 0x10010, 0x100000, 0x7FFFFF,
                    0x800000, 0xFFFF10, 0xFFFFF0, 0xFFFFFE, 0xFFFFFF):
        for count in (9, 16):
            yield area(LONG[:count], 6, pointer=pointer)
    # The table starts inside the header: dword 1 is bytes 4 to 7 (and so on), the rest is good.
    for pointer in (4, 12):
        for _ in range(16):
            table = random_table(16)
            yield area(table, rnd.between(0, 8), pointer=pointer, sfdp=(rnd.below(256), rnd.below(256)))


def headers():
    for i in range(4):
        for bit in range(8):
            wrong = bytearray(b"SFDP")
            wrong[i] ^= 1 << bit
            yield area(LONG, 6, signature=bytes(wrong))
    for wrong in (b"\0\0\0\0", b"\xFF\xFF\xFF\xFF", b"PDFS", b"sfdp", b"SFD\0", b"FDPS"):
        yield area(LONG, 6, signature=wrong)
        yield area(SHORT, 0, signature=wrong, protocol=0, param_id=0, major=7)
    for bit in range(16):
        yield area(LONG, 6, param_id=0xFF00 ^ (1 << bit))
    for wrong in (0x0000, 0xFFFF, 0x00FF, 0xC2FF, 0xFFC2, 0xFF84, 0xFF03):
        yield area(LONG, 6, param_id=wrong)
    for major in (0, 2, 3, 4, 0x10, 0x81, 254, 255):
        yield area(LONG, 6, major=major)
        yield area(SHORT, 0, major=major)
    # The ID is looked at before the count and the fields.
    yield area(LONG[:3], 6, param_id=0xFF01)
    yield area(changed(LONG, 2, 0x80000040), 6, major=2)
    for protocol in (0x00, 0x01, 0x7F, 0x80, 0xF0, 0xFA, 0xFC, 0xFD, 0xFE):
        yield area(LONG, 6, protocol=protocol)
        yield area(SHORT, 0, protocol=protocol)
        yield area(SHORT[:5], 0, protocol=protocol)
    for sfdp in ((0, 0), (0, 2), (255, 255), (0, 0xFF), (8, 1), (1, 0)):
        yield area(LONG, 6, sfdp=sfdp)
        yield area(SHORT, 0, sfdp=sfdp)
    for number in (1, 2, 3, 7, 13, 14, 15, 31, 63, 64, 127, 128, 254, 255):
        yield area(LONG, 6, headers=number, pointer=48)
        yield area(SHORT, 0, headers=number, pointer=16)
    # Only the first header counts, also where a later one is the basic table.
    yield area(SHORT, 6, headers=1, pointer=48, param_id=0xFF84, others=["00000109300000ff"])
    yield area(SHORT, 0, headers=1, pointer=48, others=["00060110300000ff"])


def exponents():
    for slot in range(4):
        dword, low = 8 + slot // 2, 16 * (slot % 2)
        for exponent in (0, 1, 2, 12, 15, 16, 30, 31, 32, 33, 63, 64, 128, 254, 255):
            for opcode in (0, 1, 0x20, 0xFF):
                for table, minor in ((SHORT, 0), (LONG, 6)):
                    pair = exponent | opcode << 8
                    word = with_field(table[dword - 1], low, 16, pair)
                    yield area(changed(table, dword, word), minor)
    for exponent in (0, 1, 12, 15, 16, 31, 32, 33, 255):
        for opcode in (0, 0x20):
            pair = exponent | opcode << 8
            for table, minor in ((SHORT, 0), (LONG, 6)):
                yield area(changed(changed(table, 8, pair | pair << 16), 9, pair | pair << 16), minor)


def densities():
    values = [0, 1, 2, 6, 7, 8, 9, 14, 15, 16, 0x7FFF, 0x8000, 0xFFFFFF, 0x1000000,
              0x3FFFFFFF, 0x40000000, 0x7FFFFFF6, 0x7FFFFFF7, 0x7FFFFFF8, 0x7FFFFFFE, 0x7FFFFFFF]
    for exponent in (0, 1, 2, 3, 4, 8, 24, 27, 30, 31, 32, 33, 34, 35, 36, 62, 63, 64, 65, 66, 96, 127,
                     128, 255, 256, 257, 0x8000, 0x10000, 0x1000000, 0x20000000, 0x40000000,
                     0x40000001, 0x7FFFFFFE, 0x7FFFFFFF):
        values.append(0x80000000 | exponent)
    for value in values:
        yield area(changed(LONG, 2, value), 6)
        yield area(changed(SHORT, 2, value), 0)


def equal_sizes():
    """Two, three or four types of one size with different (some equal) opcodes."""
    for _ in range(240):
        extended = rnd.chance(60)
        table = list(LONG if extended else SHORT)
        size = rnd.between(1, 31)
        shared = rnd.between(2, 4)
        pairs = []
        for i in range(4):
            if i < shared:
                opcode = rnd.pick([0x20, 0x21, 0x52, 0xD8, 0xDC, 0x01, 0xFF, rnd.between(1, 255)])
                pairs.append((size, opcode))
            elif rnd.chance(70):
                pairs.append((rnd.between(1, 31), rnd.between(1, 255)))
            else:
                pairs.append((0, 0))
        pairs = rnd.shuffle(pairs)
        table[7] = pairs[0][0] | pairs[0][1] << 8 | pairs[1][0] << 16 | pairs[1][1] << 24
        table[8] = pairs[2][0] | pairs[2][1] << 8 | pairs[3][0] << 16 | pairs[3][1] << 24
        if extended:
            table[9] = rnd.dword()
        yield area(table, 6 if extended else 0)


def volatility_polls_resets():
    for value in range(128):
        yield area(changed(LONG, 16, with_field(LONG[15], 0, 7, value)), 6)
    for value in range(64):
        yield area(changed(LONG, 16, with_field(LONG[15], 8, 6, value)), 7)
    for value in range(16):
        yield area(changed(LONG, 14, with_field(rnd.dword(), 2, 4, value)), 8)


def small_erase():
    """4 KiB erase: its two bits, its opcode, with and without types."""
    for support in range(4):
        for opcode in (0x00, 0x01, 0x20, 0xFE, 0xFF):
            for types in (False, True):
                for table, minor in ((SHORT, 0), (LONG, 6)):
                    word = with_field(with_field(table[0], 0, 2, support), 8, 8, opcode)
                    table = changed(table, 1, word)
                    if not types:
                        table = changed(changed(table, 8, 0x00102000), 9, 0xD8000000)
                    yield area(table, minor)


def random_type():
    kind = rnd.below(10)
    if kind == 0:
        return 0, 0
    if kind == 1:
        return 0, rnd.between(1, 255)
    if kind == 2:
        return rnd.below(256), 0
    if kind <= 6:
        return rnd.pick([12, 12, 15, 16, 18]), rnd.pick([0x20, 0x21, 0x52, 0x5C, 0xD8, 0xDC])
    return rnd.between(1, 31), rnd.between(1, 255)


def random_table(count):
    """A table that is in order: random fields, exponents in their limits."""
    table = [rnd.dword() for _ in range(count)]
    if rnd.chance(60):
        table[1] = rnd.dword() & 0x7FFFFFFF
    else:
        table[1] = 0x80000000 | rnd.below(64)
    for number in (8, 9):
        (size_a, op_a), (size_b, op_b) = random_type(), random_type()
        table[number - 1] = size_a | op_a << 8 | size_b << 16 | op_b << 24
    if rnd.chance(40):
        table[0] = with_field(table[0], 0, 2, 1)
    if count >= 16 and rnd.chance(50):
        table[15] = with_field(table[15], 0, 5, 1 << rnd.below(5))
    return table


def random_good():
    while True:
        if rnd.chance(80):
            count = rnd.pick([16, 16, 16, 17, 18, 19, 20])
            minor = rnd.pick([5, 6, 7, 8, 6, 7, 5, rnd.between(5, 255)])
        else:
            count = rnd.between(9, 20)
            minor = rnd.between(0, 4)
        pointer = rnd.pick([16, 16, 24, 32, 40, 48, rnd.between(16, SIZE - 4 * count)])
        pointer = min(pointer, SIZE - 4 * count)
        yield area(random_table(count), minor, pointer=pointer, sfdp=(rnd.below(9), 1),
                   headers=rnd.pick([0, 0, 0, 1, 2, rnd.below(256)]) if pointer >= 48 else 0)


def damaged():
    """Copies of good areas with a few bits or bytes changed."""
    good = random_good()
    for i in range(600):
        data = bytearray(next(good) if i % 2 else area(*rnd.pick([(LONG, 6), (SHORT, 0), (LONG, 5)])))
        for _ in range(rnd.between(1, 4)):
            at = rnd.below(100)
            if rnd.chance(50):
                data[at] ^= 1 << rnd.below(8)
            else:
                data[at] = rnd.pick([0, 1, 0x7F, 0x80, 0xFE, 0xFF, rnd.below(256)])
        yield bytes(data)


def random_dwords():
    """Tables of random dwords: nearly all break a limit."""
    for _ in range(64):
        yield area([rnd.dword() for _ in range(20)], rnd.below(9), count=rnd.between(9, 20))
    for _ in range(16):
        yield bytes(rnd.below(256) for _ in range(SIZE))


def main():
    seen = set()
    areas = []

    def take(group, limit=COUNT):
        for data in group:
            if len(areas) >= limit:
                return
            if data not in seen:
                seen.add(data)
                areas.append(data)

    counts = []
    for group in (real_parts, field_ends, minors_and_counts, pointers, headers, exponents, densities,
                  equal_sizes, volatility_polls_resets, small_erase, damaged, random_dwords):
        before = len(areas)
        take(group())
        counts.append((group.__name__, len(areas) - before))
    before = len(areas)
    take(random_good())
    counts.append(("random_good", len(areas) - before))
    assert len(areas) == COUNT and all(len(data) == SIZE for data in areas)

    out = bytearray()
    verdicts = {}
    extended = 0
    for data, answer in zip(areas, ask(["area " + data.hex() for data in areas])):
        verdict, values = parse_area(answer)
        verdicts[verdict] = verdicts.get(verdict, 0) + 1
        if verdict == 0:
            # Two settings are not in the record: they follow from the parameters.
            assert values["cap"] == values["capacity"] and values["page"] == values["ppage"]
            extended += values["extended"]
        out += data + pack_answer(verdict, values)
    print("groups:", ", ".join("%s %d" % pair for pair in counts))
    print("verdicts:", ", ".join("%d: %d" % pair for pair in sorted(verdicts.items())),
          "; extended:", extended)
    write("sfdp.bin", bytes(out))


main()
