#!/usr/bin/env python3
"""Makes runs.bin: 4,096 runs of the Rust's commands over replies by rule, with a digest of what it sent.

It reads sfdp.bin, so make_sfdp.py comes first. docs/ORACLE.md gives the record; run_rules.py has the rules. The same bytes
come out every time. At the end it holds each run against docs/SCOPE.md's rules and counts the classes.
"""
import struct
import sys
sys.dont_write_bytecode = True
from common import Source, ask, place, write
from rules import make_plan, read_area
import run_rules as R

COUNT = 4096
rnd = Source(0x5EED)
MEMORY = R.MEMORY
NOTHING = bytes(128)
# More than any run of the list has.
MOST = 200


# ---------------------------------------------------------------- the Rust's side

def settings_words(case):
    words = []
    if case["area_first"]:
        words.append("area=" + case["area"].hex())
    if case["ab"]:
        words.append("ab=%d" % case["ab"])
    if case["cap_how"]:
        words.append("cap=%d" % case["cap"] if case["cap_how"] == 1 else "cap=-")
    for key in ("page", "esize"):
        if case[key]:
            words.append("%s=%d" % (key, case[key]))
    if case["eop_set"]:
        words.append("eop=%02x" % case["eop"])
    return words


def command_words(case):
    words = [R.COMMANDS[case["command"]]]
    if case["command"] in R.WITH_LENGTH:
        words += [str(case["address"]), str(case["length"])]
    if case["command"] in R.WITH_DATA:
        words += [str(case["address"]), R.data_of(case).hex() or "-"]
        if case["command"] == R.PROGRAM:
            words.append(str(case["verify"]))
    return words


def reply_word(reply):
    return "!" if reply is None else reply.hex() or "-"


def trace_of(text):
    """The transactions of a trace: (bytes sent, reply length, delay)."""
    out = []
    for word in [] if text == "-" else text.split():
        if word[0] == "~":
            sent, wanted, _ = out[-1]
            out[-1] = (sent, wanted, int(word[1:]))
        else:
            sent, wanted = word.split("/")
            out.append((bytes.fromhex(sent), int(wanted), 0))
    return out


class Run:
    """One case, put to the oracle again and again with one reply more."""

    def __init__(self, case):
        self.case = case
        self.front = " ".join(["run"] + settings_words(case) + command_words(case) + [":"])
        self.words, self.busy, self.done = [], 0, None
        self.wire = R.Replies(case, R.settings_of(case).ab)

    def question(self):
        return self.front + "".join(" " + word for word in self.words)

    def take(self, answer):
        outcome, trace, settings = [part.strip() for part in answer.split("|")]
        trace = trace_of(trace)
        if not outcome.startswith("stuck"):
            self.done = self.outcome(outcome, trace, settings)
            return
        sent, wanted, _ = trace[-1]
        assert len(trace) == len(self.words) + 1 <= MOST
        if self.is_poll(trace, len(trace) - 1) and self.case["command"] != R.BUSY:
            # The Rust polls on after the last poll that we allow.
            if self.busy == self.case["limit"]:
                self.done = self.outcome("stuck", trace[:-1], settings)
                return
            self.busy += 1
        else:
            self.busy = 0
        self.words.append(reply_word(self.wire.answer(sent, wanted)))

    def is_poll(self, trace, i):
        """A status read that is a poll: not the one of is_protected, nor the one after a mismatch."""
        sent, wanted, _ = trace[i]
        if sent not in (b"\x05", b"\x70") or wanted != 1:
            return False
        return not (sent == b"\x05" and i > 0 and trace[i - 1][0][0] == 0x0B and trace[i - 1][1] > 0) and \
            self.case["command"] != R.PROTECTED

    def outcome(self, text, trace, settings):
        words = text.split()
        values, data = [0, 0, 0, 0], b""
        kind = self.case["command"]
        if words[0] == "ok":
            number = R.OK
            if kind in (R.READ, R.LEGACY):
                data = b"" if words[1] == "-" else bytes.fromhex(words[1])
            elif kind == R.ID:
                values = [0, int(words[1]), int(words[2], 16), int(words[3], 16)]
            elif kind in (R.BUSY, R.PROTECTED):
                values[1] = int(words[1] == "yes")
        elif words[0] == "err":
            number = int(words[1])
            if number == 5:
                values[0] = int(words[2])
            if number == 1:
                values = [int(words[2]), int(words[3], 16), int(words[4], 16), 0]
        else:
            number = {"none": R.NO_SFDP, "stuck": R.STUCK, "panic": R.PANIC}[words[0]]
        log = R.Log()
        for i, (sent, wanted, delay) in enumerate(trace):
            log.add(sent, wanted, delay, self.is_poll(trace, i))
        after = dict(word.split("=") for word in settings.split())

        def given(key):
            return 0 if after[key] == "-" else int(after[key])

        cap = None if after["cap"] == "-" else int(after["cap"])
        return {"number": number, "values": values, "data": data, "count": log.count, "polls": log.polls,
                "digest": log.digest, "settings": (int(after["ab"]), cap, given("page"), given("esize"), int(after["eop"], 16))}


def finish(cases):
    """The Rust's outcomes of the cases, in order."""
    runs = [Run(case) for case in cases]
    left = runs
    while left:
        for run, answer in zip(left, ask([run.question() for run in left])):
            run.take(answer)
        left = [run for run in left if run.done is None]
    return [run.done for run in runs]


# ---------------------------------------------------------------- areas

def area(types=(), capacity=1 << 16, minor=6, address=0, page=8, timed=True, dword10=None, page_time=None, flag=0, resets=2,
         legacy=None, **head):
    """An area of 16 dwords, or 9 where it is not timed. types are (exponent, opcode)."""
    pairs = (list(types) + [(0, 0)] * 4)[:4]
    dwords = [0] * 16
    dwords[0] = address << 17 | (1 | legacy << 8 if legacy is not None else 0)
    dwords[1] = (capacity * 8 - 1) if capacity < 1 << 28 else 1 << 31 | (capacity.bit_length() + 2)
    for i, (exponent, opcode) in enumerate(pairs):
        dwords[7 + i // 2] |= (exponent | opcode << 8) << 16 * (i % 2)
    dwords[9] = rnd.dword() if dword10 is None else dword10
    dwords[10] = page << 4 | (rnd.below(64) if page_time is None else page_time) << 8
    dwords[13] = flag << 3 | rnd.below(2) << 2
    dwords[15] = resets << 11 | 1
    count = 16 if timed else 9
    data = b"SFDP" + bytes([6, 1, head.get("headers", 0), head.get("protocol", 0xFF)])
    data += bytes([0, minor if timed else 0, 1, count, 16, 0, 0, 0xFF])
    data += struct.pack("<%dI" % count, *dwords[:count])
    return data.ljust(128, b"\xFF")


REAL = [(12, 0x20), (15, 0x52), (16, 0xD8)]


def some_area(tops=(8,)):
    """An area with one to four small types, or the usual large ones."""
    top = rnd.pick(tops)
    exponents = sorted({rnd.between(1, top) for _ in range(rnd.between(1, 4))})
    types = [(e, rnd.pick([0x20, 0x52, 0xD8, 0x81, rnd.between(1, 255)])) for e in exponents]
    if rnd.chance(25):
        types = REAL
    return area(rnd.shuffle(types), capacity=rnd.pick([256, 4096, 1 << 16, 1 << 24, 1 << 20]), address=rnd.below(4),
                page=rnd.pick([0, 1, 2, 3, 4, 5, 8, 8, 15]), timed=rnd.chance(75), minor=rnd.pick([5, 6, 7, 8]),
                flag=rnd.below(2), resets=rnd.below(4), legacy=rnd.pick([None, 0x20, 0xFF]))


# ---------------------------------------------------------------- cases

def make(command, **given):
    case = {name: 0 for name, _ in R.FIELDS}
    case.update(command=command, area=NOTHING, limit=3, stuck_from=R.NEVER, differs=R.NOWHERE, seed=rnd.dword())
    if "area" in given and command != R.PARAMS:
        case["area_first"] = 1
    if given.get("cap") is not None:
        case["cap_how"] = 1
    if given.get("eop") is not None:
        case["eop_set"] = 1
    case.update((name, value) for name, value in given.items() if value is not None)
    return case


def varied(case, **changes):
    out = dict(case)
    out.update(changes)
    return out


def plain_settings():
    """Settings without parameters. Sizes that are no power of two too."""
    given = {"ab": rnd.between(1, 4), "page": rnd.pick([0, 1, 2, 3, 4, 5, 7, 8, 16, 16, 32, 64, 100, 256, 32768]),
             "esize": rnd.pick([1, 2, 2, 3, 4, 5, 7, 16, 16, 32, 48, 64, 100, 256, 256, 1000, 4096, 0]),
             "limit": rnd.between(1, 6), "busy": rnd.pick([0, 0, 0, 1, 2, 3])}
    if rnd.chance(50):
        given["eop"] = rnd.below(256)
    limit = 256 ** given["ab"]
    if rnd.chance(60):
        size = given["esize"] or 16
        given["cap"] = rnd.pick([limit, limit, limit // 2, limit * 2, size * rnd.between(1, 9), 64 + rnd.below(200), 7, 1, 0])
    return given


def area_settings():
    given = {"area": some_area((8, 8, 5, 12)), "limit": rnd.between(1, 6), "busy": rnd.pick([0, 0, 1, 2])}
    if rnd.chance(20):
        given["ab"] = rnd.between(1, 4)
    if rnd.chance(20):
        given["page"] = rnd.pick([1, 8, 16, 64, 256])
    if rnd.chance(20):
        given["esize"] = rnd.pick([1, 16, 4096])
    if rnd.chance(25):
        given["cap"] = rnd.pick([64, 200, 255, 4096, 1 << 16, 1 << 24])
    if rnd.chance(10):
        given["cap_how"] = 2
    return given


def some_settings():
    return plain_settings() if rnd.chance(55) else area_settings()


def limits_of(case):
    """Where addresses end, by the address bytes and by the capacity."""
    flash = R.settings_of(case)
    return [256 ** flash.ab] + ([flash.cap] if flash.cap is not None else [])


def near(limit, length):
    """An address so that the range ends near a limit."""
    return limit - length + rnd.pick([0, 0, 0, 1, -1, 2, -rnd.below(9), rnd.below(9)])


def addresses(case, length, size):
    """An address on or near a block's limit, near a limit of the range, or anywhere."""
    limits = limits_of(case)
    top = min(limits)
    pick = rnd.below(10)
    if pick < 3:
        at = near(rnd.pick(limits), length)
    elif pick < 7:
        blocks = max(1, top // size)
        at = rnd.pick([0, 1, rnd.below(blocks), blocks - 1]) * size + rnd.pick([0, 0, 0, 1, -1, rnd.below(size)])
    else:
        at = rnd.below(max(1, top))
    return at if 0 <= at < MEMORY else rnd.below(16)


def reads(command):
    for ab in (1, 2, 3, 4):
        limit = 256 ** ab
        for cap in (None, 1, 100, limit - 1, limit, limit + 1, limit + 2):
            ends = sorted({limit} | ({cap} if cap else set()))
            for end in ends:
                for length in (0, 1, 2, 17):
                    for step in (-1, 0, 1, 2):
                        at = end - length + step
                        if 0 <= at < MEMORY:
                            yield make(command, ab=ab, cap=cap, address=at, length=length)
            # The Rust asks for so many bytes. With 4 address bytes they would be 4 GiB.
            if ab < 4:
                yield make(command, ab=ab, cap=cap, address=0, length=limit + 1, fault=R.FAILS if ab > 1 else 0)
            for at, length in ((0, 0), (1, (1 << 64) - 1), (0, (1 << 64) - 1), (5, (1 << 64) - 5), (5, (1 << 64) - 6)):
                yield make(command, ab=ab, cap=cap, address=at, length=length)
    for fault in (0, R.FAILS, R.SHORT, R.LONG):
        for length in (1, 2, 3, 64, 255, 256, 4095, 4096):
            for kind in (0, 1):
                yield make(command, address=rnd.below(1000), length=length, reads=kind, fault=fault)
    for _ in range(60):
        case = make(command, **some_settings())
        length = rnd.pick([0, 1, 2, rnd.below(300)])
        yield varied(case, address=addresses(case, length, 16), length=length, reads=rnd.below(4),
                     fault=rnd.pick([0, 0, 0, 1, 2, 3]), fault_at=rnd.below(2))


def stored_areas():
    """Areas of sfdp.bin with the Rust's verdict."""
    with open(place("sfdp.bin"), "rb") as file:
        data = file.read()
    return [(data[i:i + 128], data[i + 128]) for i in range(0, len(data), 256)]


def params():
    areas = stored_areas()
    by_verdict = {}
    for item, verdict in areas:
        by_verdict.setdefault(verdict, []).append(item)
    for item in [areas[i][0] for i in (0, 4, 8, 12)] + [some_area() for _ in range(8)]:
        yield make(R.PARAMS, area=item)
        for i in range(3):
            for fault in (R.FAILS, R.SHORT, R.LONG):
                yield make(R.PARAMS, area=item, fault=fault, fault_at=i)
        for bump in (1, 2, 127, 254, 255):
            yield make(R.PARAMS, area=item, bump=bump)
    for verdict in sorted(by_verdict):
        for _ in range(30 if verdict else 60):
            yield make(R.PARAMS, area=rnd.pick(by_verdict[verdict]), **({} if rnd.chance(50) else before_params()))
    # The smallest size twice, and byte 7.
    for first, second in ((1, 2), (2, 1), (0x20, 0x20), (0xFF, 1)):
        yield make(R.PARAMS, area=area([(4, first), (8, 9), (4, second)]))
        yield make(R.RESET, area=area([(4, first), (8, 9), (4, second)]))
        yield make(R.SECTORS, area=area([(4, first), (8, 9), (4, second)]), address=16, length=32)
    for minor in (4, 5, 6, 8):
        for count in (8, 9, 15, 16):
            data = bytearray(area(REAL))
            data[9], data[11] = minor, count
            yield make(R.PARAMS, area=bytes(data))
    for _ in range(12):
        item = area(REAL, headers=rnd.below(3), protocol=rnd.pick([0, 1, 0xFE, 0xFF]))
        yield make(R.PARAMS, area=item, bump=rnd.pick([0, 0, 1]))


def before_params():
    given = plain_settings()
    given.pop("limit")
    return given


def erases():
    for item in (None, area(REAL), area(REAL, flag=1), area(REAL, timed=False)):
        given = {"area": item} if item else {}
        for limit in range(1, 7):
            for busy in range(0, 7):
                yield make(R.ERASE, limit=limit, busy=busy, **given)
        yield make(R.ERASE, limit=4 if item else 100, stuck_from=0, **given)
        for i in range(5):
            for fault in (R.FAILS, R.SHORT, R.LONG):
                yield make(R.ERASE, limit=3, busy=2, fault=fault, fault_at=i, **given)


def small_plan(case):
    """Whether the plans of both sides have at most 12 entries."""
    flash, length = R.settings_of(case), case["length"]
    if length == 0 or case["address"] + length >= 1 << 63:
        return True
    for types in [flash.types()] + ([[(4096, 0xFF, None)]] if R.is_p2(flash) else []):
        if types and length > 13 * max(size for size, _, _ in types):
            return False
        if types and len(make_plan(types, case["address"], length)) > 12:
            return False
    return True


def is_dull(case):
    """A plain refusal of a range. Some of them are enough."""
    if case["command"] == R.SECTORS:
        return R.play(case)["number"] == 5 and rnd.chance(80)
    return R.bad_range(R.settings_of(case), case) is not None and rnd.chance(85)


def sizes_of(case):
    types = R.settings_of(case).types()
    return [size for size, _, _ in types] or [16]


def sectors(count):
    yield make(R.SECTORS, ab=4, esize=1, address=MEMORY - 1, length=1)
    yield make(R.SECTORS, ab=4, esize=1 << 31, address=0, length=MEMORY)
    yield make(R.SECTORS, ab=4, esize=1 << 30, address=0, length=MEMORY, busy=1)
    yield make(R.SECTORS, ab=4, area=area([(31, 0xD8), (30, 0x20)], capacity=MEMORY), address=0, length=MEMORY)
    yield make(R.SECTORS, ab=4, esize=1 << 31, address=0, length=MEMORY, fault=R.FAILS, fault_at=2)
    yield make(R.SECTORS, ab=4, esize=1 << 31, address=0, length=MEMORY, fault=R.LONG, fault_at=1)
    yield make(R.SECTORS, ab=4, address=0, length=MEMORY)
    yield make(R.SECTORS, ab=4, cap=MEMORY, esize=4096, address=MEMORY - 4096, length=4096)
    yield make(R.SECTORS, ab=1, esize=257, address=0, length=257)
    yield make(R.SECTORS, ab=1, esize=256, address=0, length=257)
    yield make(R.SECTORS, ab=1, esize=129, address=0, length=257)
    yield make(R.SECTORS, ab=2, esize=4096, address=0, length=65537)
    yield make(R.SECTORS, esize=4096, address=0, length=0)
    yield make(R.SECTORS, esize=4096, address=4096, length=0)
    yield make(R.SECTORS, address=0, length=0)
    yield make(R.SECTORS, address=16, length=16)
    yield make(R.SECTORS, esize=16, address=1, length=(1 << 64) - 1)
    yield make(R.SECTORS, address=4096, length=61440, area=area(REAL))
    for esize in (0, 16, 4096, 8192):
        for at, length in ((0, 1), (0, 4096), (4096, 8192), (0, 8192)):
            yield make(R.SECTORS, area=area(legacy=0xFF), esize=esize, address=at, length=length)
            yield make(R.SECTORS, area=area(legacy=0x21), esize=esize, address=at, length=length)
    for _ in range(count):
        case = make(R.SECTORS, **some_settings())
        sizes = sizes_of(case)
        size = rnd.pick(sizes)
        length = rnd.pick([1, 1, 2, 3, 4, 5, 8, 11]) * rnd.pick(sizes) + rnd.pick([0, 0, 0, 0, 1, -1, size // 2])
        if rnd.chance(5):
            length = rnd.pick([0, 1, 257, 65537, (1 << 64) - rnd.between(1, 300)])
        case = varied(case, address=addresses(case, length, size), length=length, seed=rnd.dword())
        if rnd.chance(8):
            # Up to the end of 32 bits.
            end = MEMORY - length
            if 0 <= end < MEMORY:
                case = varied(case, ab=4, address=end, cap_how=2)
        if rnd.chance(8):
            case = varied(case, stuck_from=rnd.below(3))
        if not is_dull(case):
            yield case


def programs(count):
    yield make(R.PROGRAM, esize=256, eop=0x20, page=256, cap=1024, address=256, length=2, reads=1)
    yield make(R.PROGRAM, ab=4, esize=1, address=MEMORY - 1, length=1)
    yield make(R.PROGRAM, ab=4, esize=16, address=MEMORY - 3, length=3)
    yield make(R.PROGRAM, ab=4, esize=7, address=MEMORY - 3, length=3)
    yield make(R.PROGRAM, ab=1, cap=7, esize=4, address=5, length=1)
    yield make(R.PROGRAM, ab=1, cap=7, esize=4, address=4, length=1)
    yield make(R.PROGRAM, ab=1, esize=257, address=0, length=1)
    yield make(R.PROGRAM, ab=1, esize=257, address=5, length=1)
    yield make(R.PROGRAM, esize=2, address=2, length=2)
    yield make(R.PROGRAM, address=0, length=0)
    yield make(R.PROGRAM, address=1, length=0, esize=1)
    yield make(R.PROGRAM, address=1, length=1)
    for esize in (0, 16):
        yield make(R.PROGRAM, area=area(legacy=0xFF), esize=esize, address=1, length=3)
    for _ in range(count):
        case = make(R.PROGRAM, **some_settings())
        if rnd.chance(40) and case["esize"]:
            case = varied(case, page=rnd.pick([case["esize"], max(1, case["esize"] // 2), max(1, case["esize"] // 4)]))
        sizes = sizes_of(case)
        size = rnd.pick(sizes)
        length = rnd.pick([0, 1, 1, 2, 3, min(64, size), min(64, size + 1), rnd.below(65), rnd.below(65)])
        case = varied(case, address=addresses(case, max(1, length), size), length=length, verify=rnd.below(2),
                      reads=rnd.pick([0, 0, 1, 1, 2, 3]))
        if case["verify"] and rnd.chance(40):
            case = varied(case, differs=rnd.pick([0, 1, length - 1 if length else 0, rnd.below(80), rnd.below(300)]))
        if rnd.chance(5) and length:
            case = varied(case, ab=4, address=MEMORY - length, cap_how=2)
        if rnd.chance(8):
            case = varied(case, stuck_from=rnd.below(4))
        if not is_dull(case):
            yield case


def writes(count):
    yield make(R.DATA, address=1, length=1)
    yield make(R.DATA, address=1, length=0)
    yield make(R.DATA, address=0, length=0)
    yield make(R.DATA, address=0, length=0, cap=0)
    yield make(R.DATA, cap=1, address=0, length=2)
    yield make(R.DATA, ab=4, address=MEMORY - 64, length=64, page=16)
    yield make(R.DATA, ab=4, address=MEMORY - 63, length=64, page=16)
    yield make(R.DATA, ab=4, address=MEMORY - 64, length=64, page=64)
    yield make(R.DATA, ab=1, address=256, length=16, page=16)
    for page in (1, 2, 3, 16, 64):
        for at in (0, 1, page - 1, page, page + 1, 5 * page, 200 - 200 % page):
            for length in (0, 1, page - 1, page, page + 1, 2 * page, min(64, 2 * page + 1)):
                if length <= 64 and (length + at % page) / page <= 12:
                    yield make(R.DATA, page=page, address=at, length=length, limit=2, busy=rnd.below(2))
    for _ in range(count):
        case = make(R.DATA, **some_settings())
        page = R.settings_of(case).page or 256
        length = rnd.pick([1, 2, min(64, page), min(64, page + 1), rnd.below(65), rnd.below(65)])
        case = varied(case, address=addresses(case, length, page), length=length)
        if rnd.chance(8):
            case = varied(case, stuck_from=rnd.below(3))
        yield case


def singles():
    areas = [None] + [area(REAL, resets=resets, flag=flag, timed=timed)
                      for resets in range(4) for flag in (0, 1) for timed in (True, False) if timed or not resets]
    for item in areas:
        given = {"area": item} if item else {}
        for i in range(2):
            for fault in (0, R.FAILS, R.SHORT, R.LONG):
                if i == 0 or fault:
                    yield make(R.RESET, fault=fault, fault_at=i, **given)
        for busy in (0, 1):
            for fault in (0, R.FAILS, R.SHORT, R.LONG):
                yield make(R.BUSY, busy=busy, fault=fault, limit=1, **given)
        for _ in range(3):
            yield make(R.BUSY, busy=rnd.below(3), **given)
            yield make(R.PROTECTED, **given)
    for fault in (R.FAILS, R.SHORT, R.LONG):
        yield make(R.PROTECTED, fault=fault)
        yield make(R.PROTECTED, fault=fault, fault_at=1)
    for _ in range(24):
        yield make(R.PROTECTED, busy=rnd.below(2))
    for count in range(17):
        for i in range(2):
            for fault in (0, R.FAILS, R.SHORT, R.LONG):
                if i == 0 or fault:
                    yield make(R.ID, id_7f=count, fault=fault, fault_at=i)


# ---------------------------------------------------------------- the list

def is_usable(case):
    """Whether the run fits: our room, few transactions, an area that both sides take."""
    if case["area_first"] and (read_area(case["area"])[0] or read_area(case["area"], {"S3", "S4", "S5"})[0]):
        return False
    if case["command"] in (R.SECTORS, R.PROGRAM) and not small_plan(case):
        return False
    ours = R.play(case)
    return ours["number"] != 11 and ours["count"] <= MOST


def key_of(case):
    """Two cases of one key are one case, but where the seed alone makes the reply that counts."""
    key = tuple(case[name] for name, _ in R.FIELDS if name != "seed") + (case["area"],)
    return key + ((case["seed"],) if case["command"] in (R.ID, R.BUSY, R.PROTECTED) else ())


def take(cases, count, seen):
    """The first so many usable cases that are new."""
    out = []
    for case in cases:
        if len(out) == count:
            break
        key = key_of(case)
        if key not in seen and is_usable(case):
            seen.add(key)
            out.append(case)
    return out


def faulty(cases, outcomes, every):
    """Some of the cases again: a fault at each transaction of every so many, one fault of the others."""
    for i, (case, rust) in enumerate(zip(cases, outcomes)):
        if case["fault"] or rust["count"] == 0:
            continue
        if i % every == 0 and rust["count"] <= 24:
            for at in range(rust["count"]):
                for fault in (R.FAILS, R.SHORT, R.LONG):
                    yield varied(case, fault=fault, fault_at=at)
        elif rnd.chance(35):
            yield varied(case, fault=rnd.pick([R.FAILS, R.FAILS, R.SHORT, R.LONG]), fault_at=rnd.below(rust["count"] + 1))


def pack(case, rust):
    out = b"".join(case[name].to_bytes(width, "little") for name, width in R.FIELDS).ljust(64, b"\0")
    ab, cap, page, esize, eop = rust["settings"]
    digest = R.fold_bytes(0, rust["data"]) if rust["data"] else 0
    number, first, second, third = rust["values"]
    out += struct.pack("<B3xIBBHIIII", rust["number"], number, first, second, third, rust["count"], rust["polls"],
                       rust["digest"], digest)
    out += struct.pack("<BBBxIQI", ab, cap is not None, eop, page, cap or 0, esize)
    out = out.ljust(124, b"\0") + struct.pack("<I", R.summary(R.play(case))) + case["area"]
    assert len(out) == 256
    return out


def main():
    seen = set()
    cases = take(rnd.shuffle(reads(R.READ)), 330, seen) + take(rnd.shuffle(reads(R.LEGACY)), 170, seen)
    cases += take(params(), 480, seen) + take(erases(), 210, seen) + take(singles(), 420, seen)
    outcomes = finish(cases)
    for base, share, every in ((sectors(6000), 760, 12), (programs(6000), 1100, 12), (writes(2000), 520, 12)):
        whole = take(base, share * 60 // 100, seen)
        done = finish(whole)
        more = take(faulty(whole, done, every), share - len(whole), seen)
        cases, outcomes = cases + whole + more, outcomes + done + finish(more)
    # The rest: programs, which have the most to go wrong.
    rest = take(programs(12000), COUNT - len(cases), seen)
    cases, outcomes = cases + rest, outcomes + finish(rest)
    assert len(cases) == COUNT

    classes, verdicts, commands = {}, {}, {}
    for i, (case, rust) in enumerate(zip(cases, outcomes)):
        ours = R.play(case)
        name = "same" if R.same(ours, rust) else R.classify(case, ours, rust)
        classes[name] = classes.get(name, 0) + 1
        verdicts[rust["number"]] = verdicts.get(rust["number"], 0) + 1
        word = R.COMMANDS[case["command"]]
        commands[word] = commands.get(word, 0) + 1
        if name == "unlisted":
            print("unlisted:", i, Run(case).question(), case, ours, rust)
    print("commands:", ", ".join("%s: %d" % pair for pair in commands.items()))
    print("the Rust's outcomes:", ", ".join("%s: %d" % pair for pair in sorted(verdicts.items())))
    print("classes:", ", ".join("%s: %d" % (name, classes.get(name, 0)) for name in R.CLASSES))
    write("runs.bin", b"".join(pack(case, rust) for case, rust in zip(cases, outcomes)))


main()
