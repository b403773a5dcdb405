#!/usr/bin/env python3
"""Makes parts.bin from real SFDP areas and their decoded values.

    tools/oracle/make_parts.py FOLDER

FOLDER holds NAME.bin (the area) and NAME.json (its values), one pair for each part. The values come
from the JSON files alone; the oracle is not asked. docs/ORACLE.md gives the record.
"""
import glob
import json
import os
import sys
sys.dont_write_bytecode = True
from common import pack_answer, write

AREA = 896


def values_of(part):
    """The JSON's values under the names of common.parse_area."""
    full = part["full"]
    types = []
    for i, pair in enumerate(part["types"]):
        if pair is None:
            types.append(None)
        else:
            size, opcode = pair
            typ = part["erase_typ_ms"][i] * 1000 if full else 0
            top = part["erase_max_ms"][i] * 1000 if full else 0
            types.append((opcode, size, typ, top))
    present = [(t[1], t[0]) for t in types if t]
    sector = None
    if present:
        size, opcode = min(present)
        sector = (opcode, size)
    timing = (0,) * 8
    if full:
        timing = (part["chip_ms"] * 1000, part["chip_max_ms"] * 1000, part["first_us"],
                  part["first_max_us"], part["later_us"], part["later_max_us"], part["page_typ_us"],
                  part["page_max_us"])

    def later(key):
        return int(part[key]) if full else 0

    return {
        "major": part["pmajor"], "minor": part["pminor"], "addr": part["abcode"],
        "4k": int(part["dw1_4k"]), "4kop": part["op4k"], "wren": int(part["we"], 16),
        "bpvol": part["volatile_protect"], "gran": part["granularity"], "extended": full,
        "flag": later("poll_flag"), "status": later("poll_sr1"), "f0": later("reset_f0"),
        "6699": later("reset_6699"), "vol": later("volatility"), "sector": sector,
        "density": part["bits"], "capacity": part["capacity"], "ppage": later("page"),
        "types": types, "timing": timing, "ab": part["addr_bytes"],
        "esize": part["set_erase"][0], "eop": part["set_erase"][1],
    }


def main():
    if len(sys.argv) != 2:
        raise SystemExit("usage: tools/oracle/make_parts.py FOLDER")
    out = bytearray()
    names = sorted(glob.glob(os.path.join(sys.argv[1], "*.json")))
    for name in names:
        with open(name) as file:
            part = json.load(file)
        with open(name[:-len("json")] + "bin", "rb") as file:
            area = file.read()
        assert len(area) <= AREA, name
        answer = part["answer"]
        out += area.ljust(AREA, b"\xFF") + pack_answer(answer, values_of(part) if answer == 0 else None)
    print("parts:", ", ".join(os.path.basename(n)[:-len(".json")] for n in names))
    write("parts.bin", bytes(out))


main()
