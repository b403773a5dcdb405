"""What the list makers share: a fixed random source, the oracle's pipe, the record of an answer."""
import os
import struct
import subprocess

HERE = os.path.dirname(os.path.abspath(__file__))
ROOT = os.path.dirname(os.path.dirname(HERE))
ORACLE = os.path.join(ROOT, "target", "oracle", "bin", "oracle")
# Each list is the data of the program that replays it.
PLACES = {"sfdp.bin": "replay_sfdp", "parts.bin": "replay_sfdp", "ranges.bin": "replay_plans", "plans.bin": "replay_plans",
          "runs.bin": "replay_runs"}


def place(name):
    return os.path.join(ROOT, "crates", PLACES[name], "data", name)


class Source:
    """splitmix64: the same numbers on every machine and with every Python."""

    def __init__(self, seed):
        self.state = seed

    def next(self):
        mask = (1 << 64) - 1
        self.state = (self.state + 0x9E3779B97F4A7C15) & mask
        z = self.state
        z = ((z ^ (z >> 30)) * 0xBF58476D1CE4E5B9) & mask
        z = ((z ^ (z >> 27)) * 0x94D049BB133111EB) & mask
        return z ^ (z >> 31)

    def below(self, n):
        return self.next() % n

    def between(self, low, high):
        """A number from low to high, both included."""
        return low + self.below(high - low + 1)

    def pick(self, items):
        return items[self.below(len(items))]

    def chance(self, percent):
        return self.below(100) < percent

    def dword(self):
        return self.next() & 0xFFFFFFFF

    def shuffle(self, items):
        items = list(items)
        for i in range(len(items) - 1, 0, -1):
            j = self.below(i + 1)
            items[i], items[j] = items[j], items[i]
        return items


def ask(questions):
    """Puts all questions to the oracle and returns its answers, one for each."""
    if not os.path.exists(ORACLE):
        raise SystemExit("no oracle: run tools/oracle/build SRC first")
    run = subprocess.run([ORACLE], input="\n".join(questions) + "\n", stdout=subprocess.PIPE,
                         universal_newlines=True, check=True)
    answers = run.stdout.splitlines()
    if len(answers) != len(questions):
        raise SystemExit("the oracle gave %d answers to %d questions" % (len(answers), len(questions)))
    for question, answer in zip(questions, answers):
        if answer.startswith("bad question"):
            raise SystemExit("%s: %s" % (question, answer))
    return answers


def write(name, data):
    os.makedirs(os.path.dirname(place(name)), exist_ok=True)
    with open(place(name), "wb") as file:
        file.write(data)
    print("%s: %d bytes" % (os.path.relpath(place(name), ROOT), len(data)))


# ---------------------------------------------------------------- decoded SFDP parameters

NONE, BAD_HEADER, BAD_PARAMS, PANIC = 1, 3, 4, 255


def parse_area(answer):
    """The oracle's answer to `area` as (verdict, values); values is None unless the verdict is 0."""
    if answer == "none":
        return NONE, None
    if answer == "err 3":
        return BAD_HEADER, None
    if answer == "err 4":
        return BAD_PARAMS, None
    if answer == "panic":
        return PANIC, None
    words = answer.split()
    if words[0] != "ok":
        raise SystemExit("unexpected answer: " + answer)
    text = dict(word.split("=", 1) for word in words[1:])

    def number(key):
        return 0 if text[key] == "-" else int(text[key])

    types = []
    for item in text["erase"].split(","):
        if item == "-":
            types.append(None)
        else:
            opcode, size, typ, top = item.split(":")
            types.append((int(opcode, 16), int(size), 0 if typ == "-" else int(typ),
                          0 if top == "-" else int(top)))
    sector = None
    if text["sector"] != "-":
        opcode, size = text["sector"].split(":")
        sector = (int(opcode, 16), int(size))
    extended = text["timing"] != "-"
    values = {
        "major": number("major"), "minor": number("minor"), "addr": number("addr"),
        "4k": number("4k"), "4kop": int(text["4kop"], 16), "wren": int(text["wren"], 16),
        "bpvol": number("bpvol"), "gran": number("gran"), "extended": extended,
        "flag": number("flag"), "status": number("status"), "f0": number("f0"),
        "6699": number("6699"), "vol": number("vol"), "sector": sector,
        "density": number("density"), "capacity": number("capacity"), "ppage": number("ppage"),
        "types": types,
        "timing": tuple(int(t) for t in text["timing"].split(":")) if extended else (0,) * 8,
        "ab": number("ab"), "eop": int(text["eop"], 16), "esize": number("esize"),
        # Not in the records: they follow from the others.
        "cap": number("cap"), "page": number("page"),
    }
    return 0, values


def pack_answer(verdict, v):
    """The 128 bytes of an answer (bytes 128 to 255 of a record of sfdp.bin)."""
    if verdict != 0:
        return bytes([verdict]) + bytes(127)
    types = [t if t else (0, 0, 0, 0) for t in v["types"]]
    sector = v["sector"] if v["sector"] else (0, 0)
    chip_typ, chip_max, first_typ, first_max, succ_typ, succ_max, page_typ, page_max = v["timing"]
    out = struct.pack("<16B", 0, v["major"], v["minor"], v["addr"], v["4k"], v["4kop"], v["wren"],
                      v["bpvol"], v["gran"], v["extended"], v["flag"], v["status"], v["f0"],
                      v["6699"], v["vol"], v["sector"] is not None)
    out += struct.pack("<QQII", v["density"], v["capacity"], v["ppage"], sector[1])
    out += struct.pack("<5B3x", sector[0], *[t[0] for t in types])
    for column in (1, 2, 3):
        out += struct.pack("<4I", *[t[column] for t in types])
    out += struct.pack("<IQHHHHHI", chip_typ, chip_max, first_typ, first_max, succ_typ, succ_max,
                       page_typ, page_max)
    out += struct.pack("<BBI", v["ab"], v["eop"], v["esize"])
    assert len(out) == 128
    return out
