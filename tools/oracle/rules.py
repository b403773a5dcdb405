"""docs/SCOPE.md's rules for ranges, plans and SFDP reading, and the Rust's known departures from them.

Every function takes `slips`, the set of departures to make. With no slips it is docs/SCOPE.md; with all
of them it is meant to equal the Rust, and compare.py checks that it does.
"""

# ---------------------------------------------------------------- ranges

RANGE_SLIPS = {
    "R1": "address 0, length one above the limit of the address bytes",
    "R2": "address 0, length 0",
    "R3": "address plus length reaches 2^64",
}


def check_range(address_bytes, capacity, address, length, slips=()):
    """(0, 0) if accepted, (5, reported) if refused, (255, 0) where the Rust panics."""
    limit = 256 ** address_bytes
    end = address + length
    if "R2" in slips and end == 0:
        return 255, 0
    if "R3" in slips and end >= 1 << 64:
        return 255, 0
    if "R1" in slips and address == 0 and length == limit + 1:
        limit += 1
    if length >= 1 and end <= limit and (capacity is None or end <= capacity):
        return 0, 0
    return 5, (end - 1) % (1 << 32)


# ---------------------------------------------------------------- plans

PLAN_SLIPS = {
    "P1": "the block of a larger type ends one byte past the range, a smaller one covers it too",
}


def make_plan(types, start, length, slips=()):
    """Types are (size, opcode, time or None). Entries are (opcode, size, base, time or None)."""
    types = sorted(types, key=lambda t: (t[0], t[1], -1 if t[2] is None else t[2]))
    entries = []
    position, end = start, start + length
    while position < end:
        best = None
        for size, opcode, time in types:
            base = position - position % size
            covered = min(base + size, end) - position
            if "P1" in slips and base + size == end + 1:
                covered += 1
            if best is None or covered > best[0]:
                best = (covered, (opcode, size, base, time))
        position += best[0]
        entries.append(best[1])
    return entries


CHOICE_SLIPS = {
    "P2": "no type, 4 KiB erase supported with opcode FF",
}


def plan_types(values, slips=()):
    """The types that a plan uses after an area was read on a fresh session; none is answer 7."""
    types = [(size, opcode, typ if values["extended"] else None)
             for opcode, size, typ, _ in filter(None, values["types"])]
    if types:
        return types
    if values["4k"] and (values["4kop"] != 0xFF or "P2" in slips):
        return [(4096, values["4kop"], None)]
    # The setting is unset: with 4 KiB usable the case above has it, else nothing set it.
    return []


# ---------------------------------------------------------------- SFDP

SFDP_SLIPS = {
    "S1": "density exponent 64 or more",
    "S2": "size exponent 32 or more, opcode not 0",
    "S3": "minor 5, 9 to 15 dwords",
    "S4": "minor 6 or more, 9 to 15 dwords",
    "S5": "access protocol byte (byte 7) is not FF",
    "S6": "several of the volatility bits 4:0",
    "S7": "two smallest types of one size, the lower opcode later",
}


def field(word, low, width):
    return (word >> low) & ((1 << width) - 1)


def read_area(area, slips=()):
    """(verdict, values) under the names of common.parse_area; verdict 1 stands for answer 12."""

    def at(start, count):
        return [area[i] if i < len(area) else 0xFF for i in range(start, start + count)]

    count = at(0, 8)[6] + 1
    head = at(0, 8 + 8 * count)
    if bytes(head[0:4]) != b"SFDP":
        return 1, None
    if "S5" in slips and head[7] != 0xFF:
        return 1, None
    first = head[8:16]
    minor, major, dword_count = first[1], first[2], first[3]
    if (first[7], first[0]) != (0xFF, 0x00) or major != 1:
        return 3, None
    data = at(first[4] | first[5] << 8 | first[6] << 16, 4 * dword_count)
    dwords = [int.from_bytes(bytes(data[i:i + 4]), "little") for i in range(0, len(data), 4)]
    if len(dwords) < 9:
        return 4, None
    if "S4" in slips and minor >= 6 and len(dwords) < 16:
        return 4, None

    def dword(n, low, width):
        return field(dwords[n - 1], low, width)

    if dword(2, 31, 1) == 0:
        density = dword(2, 0, 31) + 1
    elif dword(2, 0, 31) < 64:
        density = 1 << dword(2, 0, 31)
    else:
        return (255 if "S1" in slips else 4), None
    types = []
    for n, low in ((8, 0), (8, 16), (9, 0), (9, 16)):
        exponent, opcode = dword(n, low, 8), dword(n, low + 8, 8)
        if exponent == 0 or opcode == 0:
            types.append(None)
        elif exponent >= 32:
            return (255 if "S2" in slips else 4), None
        else:
            types.append((opcode, 1 << exponent, 0, 0))
    if "S3" in slips and minor == 5 and len(dwords) < 16:
        return 255, None

    values = {
        "major": major, "minor": minor, "addr": dword(1, 17, 2), "density": density,
        "capacity": density // 8, "4k": int(dword(1, 0, 2) == 1), "4kop": dword(1, 8, 8),
        "wren": 0x06 if dword(1, 4, 1) else 0x50, "bpvol": dword(1, 3, 1), "gran": dword(1, 2, 1),
        "types": types, "extended": False, "timing": (0,) * 8, "ppage": 0, "flag": 0, "status": 0,
        "f0": 0, "6699": 0, "vol": 0, "ab": 4 if dword(1, 17, 2) == 2 else 3,
    }
    if len(dwords) >= 16 and minor >= 5:
        values["extended"] = True
        slower = 2 * (dword(10, 0, 4) + 1)
        for i, low in enumerate((4, 11, 18, 25)):
            if types[i]:
                typ = (dword(10, low, 5) + 1) * (1, 16, 128, 1000)[dword(10, low + 5, 2)] * 1000
                types[i] = (types[i][0], types[i][1], typ, slower * typ)
        chip = (dword(11, 24, 5) + 1) * (16, 256, 4000, 64000)[dword(11, 29, 2)] * 1000
        page = (dword(11, 8, 5) + 1) * (8, 64)[dword(11, 13, 1)]
        first_byte = (dword(11, 14, 4) + 1) * (1, 8)[dword(11, 18, 1)]
        later_byte = (dword(11, 19, 4) + 1) * (1, 8)[dword(11, 23, 1)]
        times = 2 * (dword(11, 0, 4) + 1)
        values["timing"] = (chip, slower * chip, first_byte, times * first_byte, later_byte,
                            times * later_byte, page, times * page)
        values["ppage"] = 1 << dword(11, 4, 4)
        values["flag"], values["status"] = dword(14, 3, 1), dword(14, 2, 1)
        values["f0"], values["6699"] = dword(16, 11, 1), dword(16, 12, 1)
        volatility = dword(16, 0, 5)
        single = {1: 0, 2: 1, 4: 2, 8: 3, 16: 4}
        if "S6" in slips:
            volatility &= -volatility
        values["vol"] = single.get(volatility, 5)

    present = [t for t in types if t]
    values["sector"] = None
    values["esize"], values["eop"] = 0, 0x20
    if present:
        if "S7" in slips:
            chosen = min(present, key=lambda t: t[1])
        else:
            chosen = min(present, key=lambda t: (t[1], t[0]))
        values["sector"] = (chosen[0], chosen[1])
        values["eop"], values["esize"] = values["sector"]
    elif values["4k"] and values["4kop"] != 0xFF:
        values["eop"], values["esize"] = values["4kop"], 4096
    return 0, values
