/*
 * Replays runs.bin, 4,096 runs of the Rust's commands, through the archive: the same settings, arguments and replies; the
 * answer with its numbers, every transaction, the polls, the bytes read and the settings compared. docs/ORACLE.md has the
 * record, the rules of the replies and the classes on which the Rust and docs/SCOPE.md part. The program replay_runs does the
 * same from inside; both print the same lines.
 *
 *   replay crates/replay_runs/data/runs.bin
 */
#include <stdio.h>
#include <stdlib.h>
#include <string.h>

#include "rig.h"

#define RECORD 256
#define ROOM 4096

enum { KIND_READ, KIND_LEGACY, KIND_PARAMS, KIND_ERASE, KIND_SECTORS, KIND_PROGRAM, KIND_DATA, KIND_RESET, KIND_ID,
       KIND_BUSY, KIND_PROTECTED };

/* ---- numbers of a record; beyond its end all is FF */

static uint32_t byte_at(const uint8_t *s, size_t i)
{
    return i < RECORD ? s[i] : 0xFF;
}

static uint32_t number_at(const uint8_t *s, size_t i)
{
    return byte_at(s, i) | byte_at(s, i + 1) << 8 | byte_at(s, i + 2) << 16 | byte_at(s, i + 3) << 24;
}

static uint64_t long_at(const uint8_t *s, size_t i)
{
    return number_at(s, i) | (uint64_t)number_at(s, i + 4) << 32;
}

static uint32_t fold(uint32_t d, uint64_t x)
{
    return (uint32_t)(((uint64_t)d * 16777619 + (uint32_t)x + 1) % 4294967291u);
}

static uint32_t fold_bytes(uint32_t d, const uint8_t *bytes, size_t length)
{
    size_t i;

    for (i = 0; i < length; i++)
        d = fold(d, bytes[i]);
    return d;
}

/* ---- the other end of the wire */

struct run {
    const uint8_t *s;    /* the record */
    int plain;           /* the area is read first, without a fault */
    uint32_t count, row, waits;
    uint64_t kept;       /* bytes written so far */
    uint8_t written[ROOM];
    uint8_t session[MOSS_FLASH_SESSION_SIZE];
    uint8_t before[MOSS_FLASH_SESSION_SIZE];
    uint8_t event[MOSS_FLASH_EVENT_SIZE];
    struct room work;
    uint8_t reply[ROOM + 8];
    uint32_t digest;
};

/* A byte that is never FF. */
static uint8_t mix(uint32_t seed, uint32_t i, uint64_t j)
{
    uint64_t x = (seed + 40503 * (j + 1) + 977 * ((uint64_t)i + 1)) % 65521;
    return (uint8_t)(x * 2654435761u / 65536 % 255);
}

static int is_status(const uint8_t *event)
{
    uint8_t opcode = moss_flash_event_head(event)[0];
    return moss_flash_event_reply(event) == 1 && (opcode == 0x05 || opcode == 0x70);
}

static uint32_t waits_now(const struct run *r)
{
    return r->waits + (r->row == 0);
}

static uint8_t status(const struct run *r, uint8_t m)
{
    int stuck = byte_at(r->s, 42) < waits_now(r);
    int busy = stuck || r->row < byte_at(r->s, 41);

    if (moss_flash_event_head(r->event)[0] == 0x05)
        return (uint8_t)(m / 2 * 2 + busy);
    return (uint8_t)(m % 128 + (busy ? 0 : 128));
}

static uint8_t area_byte(const struct run *r, uint64_t j)
{
    const uint8_t *head = moss_flash_event_head(r->event);
    uint64_t at = (uint64_t)head[1] << 16 | (uint64_t)head[2] << 8 | head[3];
    uint8_t value = at + j < 128 ? r->s[128 + at + j] : 0xFF;

    return (uint8_t)(r->count == 1 && j == 6 && !r->plain ? value + byte_at(r->s, 48) : value);
}

static uint8_t echo(const struct run *r, uint64_t j)
{
    uint8_t value = j < r->kept ? r->written[j % ROOM] : 0;
    return (uint8_t)(value + (j == number_at(r->s, 44) % 65536));
}

static uint8_t memory_byte(const struct run *r, uint64_t j, uint8_t m)
{
    uint64_t reply = moss_flash_event_reply(r->event);

    switch (byte_at(r->s, 40)) {
    case 0: return m;
    case 1: return 0xFF;
    case 2: return j + 1 < reply ? 0xFF : m;
    default: return j == 0 ? m : 0xFF;
    }
}

static uint8_t reply_byte(const struct run *r, uint64_t j)
{
    uint8_t m = mix(number_at(r->s, 36), r->count, j);
    uint8_t opcode = moss_flash_event_head(r->event)[0];

    if (is_status(r->event))
        return status(r, m);
    if (opcode == 0x5A)
        return area_byte(r, j);
    if (opcode == 0x9F)
        return j < byte_at(r->s, 43) ? 0x7F : m;
    return r->kept ? echo(r, j) : memory_byte(r, j, m);
}

/* 0 none, 1 fails, 2 a byte short, 3 a byte long. */
static uint32_t fault(const struct run *r)
{
    return !r->plain && r->count == byte_at(r->s, 47) ? byte_at(r->s, 46) : 0;
}

static size_t reply_length(const struct run *r)
{
    uint64_t wanted = moss_flash_event_reply(r->event);
    uint64_t given = fault(r) == 2 && wanted ? wanted - 1 : fault(r) == 3 ? wanted + 1 : wanted;

    return (size_t)(given < sizeof r->reply ? given : sizeof r->reply);
}

/* The wire after a transaction. */
static void advance(struct run *r, const uint8_t *payload, uint64_t length)
{
    if (is_status(r->event)) {
        r->waits = waits_now(r);
        r->row++;
    } else {
        r->row = 0;
    }
    if (moss_flash_event_head(r->event)[0] == 0x02 && moss_flash_event_reply(r->event) == 0)
        for (; length > 0; length--)
            r->written[r->kept++ % ROOM] = *payload++;
    r->count++;
}

/* One transaction and its step. */
static uint8_t turn(struct run *r)
{
    const uint8_t *e = r->event;
    uint64_t length = moss_flash_event_payload_length(e);
    const uint8_t *payload = r->work.bytes + moss_flash_event_payload_offset(e);
    int failed = fault(r) == 1;
    size_t n = reply_length(r), j;

    for (j = 0; j < n; j++)
        r->reply[j] = reply_byte(r, j);
    r->digest = fold_bytes(r->digest, moss_flash_event_head(e), moss_flash_event_head_length(e));
    r->digest = fold_bytes(r->digest, payload, (size_t)length);
    r->digest = fold(r->digest, moss_flash_event_head_length(e) + length);
    r->digest = fold(fold(r->digest, moss_flash_event_reply(e)), failed ? 0 : moss_flash_event_delay(e));
    advance(r, payload, length);
    return moss_flash_step(r->session, sizeof r->session, (uint8_t)failed, r->reply, n, r->work.bytes, r->work.length, r->event,
                      sizeof r->event);
}

/* To the answer, in at most 255 transactions. */
static void play(struct run *r, uint8_t begun, int plain)
{
    uint8_t now = begun;
    int turns;

    r->plain = plain;
    r->count = r->row = r->waits = 0;
    r->kept = 0;
    r->digest = 0;
    for (turns = 0; now == MOSS_FLASH_SEND && turns < 255; turns++)
        now = turn(r);
}

/* ---- a record's settings and command */

static void set_up(struct run *r)
{
    const uint8_t *s = r->s;
    uint8_t *p = r->session;

    moss_flash_new(p, RECORD);
    if (byte_at(s, 1))
        play(r, moss_flash_read_params(p, 256, ROOM, r->event, sizeof r->event), 1);
    if (byte_at(s, 2))
        moss_flash_set_address_bytes(p, 256, (uint8_t)byte_at(s, 2));
    moss_flash_set_poll_limit(p, 256, byte_at(s, 7));
    if (byte_at(s, 3) == 1)
        moss_flash_set_capacity(p, 256, long_at(s, 20));
    if (byte_at(s, 3) == 2)
        moss_flash_clear_capacity(p, 256);
    if (number_at(s, 28))
        moss_flash_set_page_size(p, 256, number_at(s, 28));
    if (number_at(s, 32))
        moss_flash_set_erase_size(p, 256, number_at(s, 32));
    if (byte_at(s, 4))
        moss_flash_set_erase_opcode(p, 256, (uint8_t)byte_at(s, 5));
    memcpy(r->before, p, 256);
}

static uint8_t start(struct run *r)
{
    const uint8_t *s = r->s;
    uint8_t *p = r->session, *e = r->event;
    uint32_t address = number_at(s, 8);
    uint64_t length = long_at(s, 12);
    uint8_t data[64];
    unsigned j;

    for (j = 0; j < sizeof data; j++)
        data[j] = (uint8_t)(mix(number_at(s, 36), 255, j) + 1);
    switch (byte_at(s, 0)) {
    case KIND_READ: return moss_flash_read(p, 256, address, length, ROOM, e, 64);
    case KIND_LEGACY: return moss_flash_legacy_read(p, 256, address, length, ROOM, e, 64);
    case KIND_PARAMS: return moss_flash_read_params(p, 256, ROOM, e, 64);
    case KIND_ERASE: return moss_flash_erase(p, 256, e, 64);
    case KIND_SECTORS: return moss_flash_erase_sectors(p, 256, address, length, e, 64);
    case KIND_PROGRAM:
        return moss_flash_program(p, 256, address, data, (size_t)length, (uint8_t)byte_at(s, 6), r->work.bytes, ROOM, e, 64);
    case KIND_DATA: return moss_flash_program_data(p, 256, address, data, (size_t)length, r->work.bytes, ROOM, e, 64);
    case KIND_RESET: return moss_flash_reset(p, 256, e, 64);
    case KIND_ID: return moss_flash_read_jedec_id(p, 256, e, 64);
    case KIND_BUSY: return moss_flash_is_busy(p, 256, e, 64);
    default: return moss_flash_is_protected(p, 256, e, 64);
    }
}

/* ---- our outcome, in the record's form */

struct outcome {
    uint32_t number, value, first, second, third, data;
    uint64_t polls;
    uint8_t settings[MOSS_FLASH_SETTINGS_SIZE];
};

static void values_of(const struct run *r, struct outcome *o)
{
    const uint8_t *e = r->event;
    uint32_t kind = byte_at(r->s, 0);

    if (o->number == MOSS_FLASH_READBACK_ERROR) {
        o->value = moss_flash_event_address(e);
        o->first = moss_flash_event_wrote(e);
        o->second = moss_flash_event_read(e);
    }
    if (o->number == MOSS_FLASH_INVALID_ADDRESS)
        o->value = moss_flash_event_address(e);
    if (o->number == MOSS_FLASH_DONE && kind == KIND_ID) {
        o->first = moss_flash_event_bank(e);
        o->second = moss_flash_event_manufacturer(e);
        o->third = moss_flash_event_device(e);
    }
    if (o->number == MOSS_FLASH_DONE && (kind == KIND_BUSY || kind == KIND_PROTECTED))
        o->first = moss_flash_event_yes(e);
}

static struct outcome outcome_of(const struct run *r)
{
    struct outcome o;
    size_t length = (size_t)long_at(r->s, 12);

    memset(&o, 0, sizeof o);
    o.number = moss_flash_event_kind(r->event) == MOSS_FLASH_SEND ? 253 : moss_flash_event_kind(r->event);
    o.polls = moss_flash_event_polls(r->event);
    values_of(r, &o);
    if (o.number == MOSS_FLASH_DONE && byte_at(r->s, 0) <= KIND_LEGACY)
        o.data = fold(fold_bytes(0, r->work.bytes, length), length);
    moss_flash_settings(r->session, sizeof r->session, o.settings, sizeof o.settings);
    return o;
}

/* One number for all of an outcome, as tools/oracle/run_rules.py makes it. */
static uint32_t summary(const struct run *r, const struct outcome *o)
{
    const uint8_t *t = o->settings;
    uint32_t d = fold(fold(fold(fold(fold(0, o->number), o->value), o->first), o->second), o->third);

    d = fold(fold(fold(fold(d, r->count), o->polls), r->digest), o->data);
    d = fold(fold(d, moss_flash_settings_address_bytes(t)), moss_flash_settings_capacity_set(t));
    d = fold(fold(d, moss_flash_settings_capacity(t)), moss_flash_settings_capacity(t) >> 32);
    return fold(fold(fold(d, moss_flash_settings_page_size(t)), moss_flash_settings_erase_size(t)), moss_flash_settings_erase_opcode(t));
}

static int same_answer(const uint8_t *s, const struct outcome *o)
{
    return o->number == byte_at(s, 64) && o->value == number_at(s, 68) && o->first == byte_at(s, 72) &&
           o->second == byte_at(s, 73) && o->third == number_at(s, 74) % 65536 && o->data == number_at(s, 88);
}

static int same_wire(const struct run *r, const struct outcome *o)
{
    return r->count == number_at(r->s, 76) && o->polls == number_at(r->s, 80) && r->digest == number_at(r->s, 84);
}

/* The settings but for the erase opcode. */
static int same_settings(const uint8_t *s, const uint8_t *t)
{
    return moss_flash_settings_address_bytes(t) == byte_at(s, 92) && moss_flash_settings_capacity_set(t) == byte_at(s, 93) &&
           moss_flash_settings_page_size(t) == number_at(s, 96) && moss_flash_settings_capacity(t) == long_at(s, 100) &&
           moss_flash_settings_erase_size(t) == number_at(s, 108);
}

/* ---- the classes */

enum { SAME, R1, R2, R3, P2, C1, C2, C3, C4, C5, C6, C7, C8, C9, C10, C11, S1, S2, S3, S4, S5, S7, UNLISTED, WRONG,
       CLASSES };

#define STUCK 254
#define PANIC 255

static int given(int holds, int class)
{
    return holds ? class : UNLISTED;
}

/* Whether docs/SCOPE.md refuses a range. */
static int is_refused(const uint8_t *t, uint64_t address, uint64_t length)
{
    uint64_t reach = (uint64_t)1 << 8 * moss_flash_settings_address_bytes(t);

    if (length == 0 || length > reach || address + length > reach)
        return 1;
    return moss_flash_settings_capacity_set(t) && address + length > moss_flash_settings_capacity(t);
}

static int range_class(const uint8_t *s, const uint8_t *t)
{
    uint64_t address = number_at(s, 8), length = long_at(s, 12);

    if (address == 0 && length == 0)
        return R2;
    if (~(uint64_t)0 - length < address)
        return R3;
    return given(address == 0 && length - 1 == (uint64_t)1 << 8 * moss_flash_settings_address_bytes(t), R1);
}

static int ends_at_top(const uint8_t *s)
{
    return long_at(s, 12) == 0x100000000u - (uint64_t)number_at(s, 8);
}

/* Four bytes of the table that the area's first header points to. */
static uint32_t table_number(const uint8_t *s, size_t place)
{
    uint32_t pointer = number_at(s, 140) % 16777216;
    return number_at(s, (pointer < 128 ? 128 + pointer : 256) + place);
}

/* The exponent of erase type i, 256 where there is none. */
static uint32_t exponent(const uint8_t *s, size_t i)
{
    uint32_t pair = table_number(s, 28 + 2 * i) % 65536;
    return pair % 256 && pair / 256 ? pair % 256 : 256;
}

static int has_types(const uint8_t *s)
{
    return exponent(s, 0) < 256 || exponent(s, 1) < 256 || exponent(s, 2) < 256 || exponent(s, 3) < 256;
}

/* The area was read, has no type, and 4 KiB with opcode FF. */
static int is_p2(const uint8_t *s)
{
    uint32_t first = table_number(s, 0);
    return byte_at(s, 1) == 1 && !has_types(s) && first % 4 == 1 && first / 256 % 256 == 0xFF;
}

static int smallest_twice(const uint8_t *s)
{
    uint32_t least = 256, times = 0;
    size_t i;

    for (i = 0; i < 4; i++)
        if (exponent(s, i) < least)
            least = exponent(s, i);
    for (i = 0; i < 4; i++)
        times += exponent(s, i) == least;
    return least < 256 && times > 1;
}

static int panic_in_params(const uint8_t *s)
{
    uint32_t count = byte_at(s, 139);
    size_t i;

    if (count < 9)
        return UNLISTED;
    if (table_number(s, 4) >= 0x80000040u)
        return S1;
    for (i = 0; i < 4; i++)
        if (exponent(s, i) >= 32 && exponent(s, i) < 256)
            return S2;
    return given(byte_at(s, 137) == 5 && count < 16, S3);
}

static int params_class(const uint8_t *s)
{
    uint32_t count = byte_at(s, 139), headers = byte_at(s, 134);

    switch (byte_at(s, 64)) {
    case 12:
        if (byte_at(s, 135) != 0xFF)
            return S5;
        return given(headers < (uint8_t)(headers + byte_at(s, 48)), C11);
    case 4: return given(byte_at(s, 137) >= 6 && count >= 9 && count < 16, S4);
    case PANIC: return panic_in_params(s);
    default: return UNLISTED;
    }
}

/* Whether a write ends in its first page, which it does not start. */
static int ends_in_page(const uint8_t *t, uint32_t address, uint64_t length)
{
    uint64_t page = moss_flash_settings_page_size(t) ? moss_flash_settings_page_size(t) : 256;
    return address % page && length < page - address % page;
}

/* Whether a program writes in the first page alone. */
static int is_c8(const struct run *r, const uint8_t *t)
{
    uint8_t slots[64 * MOSS_FLASH_ENTRY_SIZE], event[MOSS_FLASH_EVENT_SIZE];
    uint64_t end = (uint64_t)number_at(r->s, 8) + long_at(r->s, 12);
    const uint8_t *last;

    if (moss_flash_make_erase_plan(r->before, 256, number_at(r->s, 8), long_at(r->s, 12), slots, sizeof slots, event, 64))
        return 0;
    last = slots + (moss_flash_event_count(event) - 1) * MOSS_FLASH_ENTRY_SIZE;
    if (byte_at(r->s, 40) != 1)
        end = (uint64_t)moss_flash_entry_base(last) + moss_flash_entry_size(last);
    return ends_in_page(t, moss_flash_entry_base(slots), end - moss_flash_entry_base(slots));
}

static int sectors_class(const uint8_t *s)
{
    if (!ends_at_top(s))
        return UNLISTED;
    if (number_at(s, 8) == 0)
        return given(byte_at(s, 64) == 5 && number_at(s, 68) == 0, C2);
    return given(byte_at(s, 64) == PANIC, C1);
}

static int program_class(const struct run *r, const uint8_t *t)
{
    if (byte_at(r->s, 64) != PANIC)
        return UNLISTED;
    return ends_at_top(r->s) ? C3 : given(is_c8(r, t), C8);
}

static int data_class(const uint8_t *s, const uint8_t *t)
{
    int inside = byte_at(s, 64) == PANIC && ends_in_page(t, number_at(s, 8), long_at(s, 12));
    return given(inside, long_at(s, 12) ? C6 : C7);
}

static int refused_span(const uint8_t *s)
{
    uint32_t verdict = byte_at(s, 64);

    if (verdict == PANIC && ends_at_top(s))
        return C3;
    return given((verdict == 5 || verdict == 8) && number_at(s, 76) == 1, C4);
}

/* A run that is not refused at its start. */
static int run_class(const struct run *r, const struct outcome *o, const uint8_t *t)
{
    const uint8_t *s = r->s;
    uint32_t at = byte_at(s, 47);

    if (byte_at(s, 46) > 1 && o->number == 8 && r->count == at + 1 && at < number_at(s, 76))
        return C9;
    if (byte_at(s, 64) == STUCK)
        return given(o->number == 9 && same_wire(r, o) && same_settings(s, o->settings) &&
                     moss_flash_settings_erase_opcode(o->settings) == byte_at(s, 94), C10);
    switch (byte_at(s, 0)) {
    case KIND_PARAMS: return params_class(s);
    case KIND_SECTORS: return sectors_class(s);
    case KIND_PROGRAM: return program_class(r, t);
    case KIND_DATA: return data_class(s, t);
    default: return UNLISTED;
    }
}

static int differs(const struct run *r, const struct outcome *o)
{
    const uint8_t *s = r->s;
    uint32_t kind = byte_at(s, 0);
    int ranged = kind <= KIND_LEGACY || (kind >= KIND_SECTORS && kind <= KIND_DATA);
    uint8_t t[MOSS_FLASH_SETTINGS_SIZE];

    moss_flash_settings(r->before, 256, t, sizeof t);
    if (same_answer(s, o) && same_wire(r, o) && same_settings(s, o->settings))
        return given(smallest_twice(s), S7);
    if (ranged && is_refused(t, number_at(s, 8), long_at(s, 12))) {
        if (kind != KIND_DATA)
            return given(o->number == 5, range_class(s, t));
        if (long_at(s, 12))
            return given(o->number == 5, C5);
    }
    if ((kind == KIND_SECTORS || kind == KIND_PROGRAM) && is_p2(s))
        return P2;
    if (kind == KIND_PROGRAM && o->number == 5)
        return refused_span(s);
    return run_class(r, o, t);
}

static int class_of(const struct run *r, const struct outcome *o)
{
    if (summary(r, o) != number_at(r->s, 124))
        return WRONG;
    if (same_answer(r->s, o) && same_wire(r, o) && same_settings(r->s, o->settings) &&
        moss_flash_settings_erase_opcode(o->settings) == byte_at(r->s, 94))
        return SAME;
    return differs(r, o);
}

/* ---- all records */

static int replay_one(const uint8_t *record)
{
    static struct run r;
    struct outcome o;
    int class;

    memset(&r, 0, sizeof r);
    r.s = record;
    room_make(&r.work, ROOM, 0);
    set_up(&r);
    play(&r, start(&r), 0);
    o = outcome_of(&r);
    class = room_guards_stand(&r.work) ? class_of(&r, &o) : WRONG;
    room_free(&r.work);
    return class;
}

struct line {
    int class;
    const char *text;
};

static const struct line lines[] = {
    {SAME, "agree in answer, transactions, polls, bytes and settings: "},
    {C1, "C1 erase_sectors up to 2^32, the Rust panics: "},
    {C2, "C2 erase_sectors of 2^32 bytes, the Rust refuses: "},
    {C3, "C3 program up to 2^32, the Rust panics: "},
    {C4, "C4 program's span past the limits, the Rust reads first: "},
    {C5, "C5 program_data past the limits, the Rust writes: "},
    {C6, "C6 program_data inside a page, the Rust panics: "},
    {C7, "C7 program_data of nothing off a page, the Rust panics: "},
    {C8, "C8 program inside a page, the Rust panics: "},
    {C9, "C9 a reply of another length, the Rust takes it or panics: "},
    {C10, "C10 more polls than the limit, the Rust polls on: "},
    {C11, "C11 the second reply counts more headers, the Rust finds no SFDP: "},
    {R1, "R1 one byte past the address bytes' limit, the Rust accepts: "},
    {R2, "R2 length 0 at address 0, the Rust panics: "},
    {R3, "R3 the sum passes 64 bits, the Rust panics: "},
    {P2, "P2 4 KiB erase with opcode FF, the Rust sends it: "},
    {S1, "S1 density exponent 64 or more, the Rust panics: "},
    {S2, "S2 size exponent 32 or more, the Rust panics: "},
    {S3, "S3 minor 5 with 9 to 15 dwords, the Rust panics: "},
    {S4, "S4 minor 6 or more with 9 to 15 dwords, the Rust refuses: "},
    {S5, "S5 access protocol byte not FF, the Rust finds no SFDP: "},
    {S7, "S7 the smallest size twice, the Rust takes the first opcode: "},
    {UNLISTED, "differ and are on no list: "},
    {WRONG, "ours is not what docs/SCOPE.md's rules give: "},
};

int main(int argc, char **argv)
{
    unsigned long by_class[CLASSES] = {0}, seen = 0, first = 0;
    uint8_t record[RECORD];
    FILE *file = argc == 2 ? fopen(argv[1], "rb") : NULL;
    size_t i;

    if (!file) {
        fprintf(stderr, "usage: replay RUNS.BIN\n");
        return 2;
    }
    while (fread(record, 1, RECORD, file) == RECORD) {
        int class = replay_one(record);
        by_class[class]++;
        seen++;
        if (class >= UNLISTED && !first)
            first = seen;
    }
    fclose(file);
    printf("The Rust's commands, runs.bin\n");
    for (i = 0; i < sizeof lines / sizeof lines[0]; i++)
        printf("%s%lu\n", lines[i].text, by_class[lines[i].class]);
    printf("number of the first of those, 0 for none: %lu\n", first);
    printf("replay: %lu checks, %lu failed\n", seen, by_class[UNLISTED] + by_class[WRONG] + (seen == 0));
    return by_class[UNLISTED] + by_class[WRONG] > 0 || seen == 0;
}
