/* Each command of the archive on the simulated part: what is sent, what is answered, and what every answer leaves. */
#include <stdio.h>
#include <stdlib.h>
#include <string.h>

#include "rig.h"

#define S(g) (g)->session, sizeof (g)->session
#define E(g) (g)->event, sizeof (g)->event

/* ---- the commands, each with arguments that suit both kinds of part */

enum { READ, LEGACY, PARAMS, ERASE, SECTORS, PROGRAM, VERIFIED, DATA, RESET, ID, BUSY, PROTECTED, COMMANDS };

static const uint8_t data[20] = "twenty bytes of data";

static uint8_t start(struct rig *g, int command)
{
    switch (command) {
    case READ: return moss_flash_read(S(g), 250, 12, g->work.length, E(g));
    case LEGACY: return moss_flash_legacy_read(S(g), 250, 12, g->work.length, E(g));
    case PARAMS: return moss_flash_read_params(S(g), g->work.length, E(g));
    case ERASE: return moss_flash_erase(S(g), E(g));
    case SECTORS: return moss_flash_erase_sectors(S(g), 61440, 8192, E(g));
    case PROGRAM:
    case VERIFIED:
        return moss_flash_program(S(g), 4600, data, sizeof data, command == VERIFIED, g->work.bytes, g->work.length, E(g));
    case DATA: return moss_flash_program_data(S(g), 250, data, sizeof data, g->work.bytes, g->work.length, E(g));
    case RESET: return moss_flash_reset(S(g), E(g));
    case ID: return moss_flash_read_jedec_id(S(g), E(g));
    case BUSY: return moss_flash_is_busy(S(g), E(g));
    default: return moss_flash_is_protected(S(g), E(g));
    }
}

/* The room that a command needs. */
static size_t need_of(int command)
{
    static const size_t needs[COMMANDS] = {12, 12, 2056, 0, 0, 4096, 4096, 20, 0, 0, 0, 0};
    return needs[command];
}

/* Whether a command writes, so that it waits. */
static int waits(int command)
{
    return command >= ERASE && command <= DATA;
}

/* ---- two kinds of part: by hand, and by its SFDP area */

#define BY_HAND 0
#define BY_SFDP 1
#define CAPACITY 131072u

static void fill_memory(struct rig *g)
{
    size_t i;

    for (i = 0; i < g->part.capacity; i++)
        g->memory[i] = (uint8_t)(i * 31 + i / 256 * 7 + 1);
}

static uint8_t small_area[SIM_SFDP_SIZE];

static void make_rig(struct rig *g, int kind, size_t room)
{
    size_t i;

    rig_make(g, CAPACITY, room);
    fill_memory(g);
    memcpy(small_area, sim_sfdp, sizeof small_area);
    small_area[22] = 0x0F; /* 131,072 bytes */
    g->part.sfdp = small_area;
    if (kind == BY_SFDP) {
        uint8_t area_room[MOSS_FLASH_SFDP_ROOM];
        struct room kept = g->work;
        g->work.bytes = area_room;
        g->work.length = sizeof area_room;
        MUST(rig_run(g, moss_flash_read_params(S(g), sizeof area_room, E(g)), no_twist) == MOSS_FLASH_DONE);
        g->work = kept;
    } else {
        MUST(moss_flash_set_capacity(S(g), CAPACITY) == MOSS_FLASH_DONE);
        MUST(moss_flash_set_erase_size(S(g), 4096) == MOSS_FLASH_DONE);
    }
    MUST(moss_flash_set_poll_limit(S(g), 3) == MOSS_FLASH_DONE);
    g->part.transactions = g->part.operations = g->part.polls = g->part.ignored = 0;
    for (i = 0; i < g->work.length; i++)
        g->work.bytes[i] = (uint8_t)(0x5A + i);
}

/* Whether the working buffer is as make_rig left it, from a byte on. */
static int untouched_from(const struct rig *g, size_t from)
{
    size_t i;

    for (i = from; i < g->work.length; i++)
        if (g->work.bytes[i] != (uint8_t)(0x5A + i))
            return 0;
    return 1;
}

static int same_settings(const struct rig *g, const uint8_t *before)
{
    uint8_t now[MOSS_FLASH_SETTINGS_SIZE];

    rig_settings(g, now);
    return !memcmp(now, before, sizeof now);
}

/* Another step, and moss_flash_event, tell the answer again and change nothing. */
static void check_repeats(struct rig *g, uint8_t answer)
{
    uint8_t session[MOSS_FLASH_SESSION_SIZE], event[MOSS_FLASH_EVENT_SIZE];
    unsigned sent = g->part.transactions;

    memcpy(session, g->session, sizeof session);
    memset(event, 0xEE, sizeof event);
    CHECK(moss_flash_step(S(g), 1, data, 3, g->work.bytes, 0, event, sizeof event) == answer);
    CHECK(!memcmp(event, g->event, sizeof event) && !memcmp(session, g->session, sizeof session));
    memset(event, 0xEE, sizeof event);
    CHECK(moss_flash_event(S(g), event, sizeof event) == answer);
    CHECK(!memcmp(event, g->event, sizeof event) && !memcmp(session, g->session, sizeof session));
    CHECK(g->part.transactions == sent);
}

/* ---- fresh sessions and settings */

static void test_new(void)
{
    uint8_t bytes[300], copy[300], s[MOSS_FLASH_SETTINGS_SIZE], event[MOSS_FLASH_EVENT_SIZE];
    size_t lengths[] = {0, 1, 255, 257, 300};
    size_t i;

    memset(bytes, 0x77, sizeof bytes);
    memcpy(copy, bytes, sizeof copy);
    for (i = 0; i < sizeof lengths / sizeof lengths[0]; i++) {
        CHECK(moss_flash_new(bytes, lengths[i]) == MOSS_FLASH_BAD_SESSION);
        CHECK(!memcmp(bytes, copy, sizeof bytes));
    }
    CHECK(moss_flash_event(bytes, 256, event, sizeof event) == MOSS_FLASH_BAD_SESSION);
    CHECK(moss_flash_new(bytes, 256) == MOSS_FLASH_DONE && !memcmp(bytes + 256, copy + 256, 44));
    CHECK(moss_flash_settings(bytes, 256, s, sizeof s) == MOSS_FLASH_DONE);
    CHECK(moss_flash_settings_address_bytes(s) == 3 && moss_flash_settings_capacity_set(s) == 0 && moss_flash_settings_capacity(s) == 0);
    CHECK(moss_flash_settings_erase_opcode(s) == 0x20 && moss_flash_settings_poll_limit(s) == 65535);
    CHECK(moss_flash_settings_page_size(s) == 0 && moss_flash_settings_erase_size(s) == 0 && moss_flash_settings_density(s) == 0);
    CHECK(moss_flash_settings_known(s) == 0 && moss_flash_settings_by_flag(s) == 0 && moss_flash_settings_runs(s) == 0);
    memset(event, 0xEE, sizeof event);
    CHECK(moss_flash_event(bytes, 256, event, sizeof event) == MOSS_FLASH_DONE);
    for (i = 0; i < sizeof event; i++)
        MUST(event[i] == 0);
    memset(event, 0xEE, sizeof event);
    CHECK(moss_flash_step(bytes, 256, 0, 0, 0, 0, 0, event, sizeof event) == MOSS_FLASH_DONE && event[40] == 0);
}

static void test_short_records(void)
{
    uint8_t session[256], room[64], copy[64];
    size_t i;

    moss_flash_new(session, 256);
    memset(room, 0x3C, sizeof room);
    memcpy(copy, room, sizeof copy);
    for (i = 0; i < 32; i++)
        CHECK(moss_flash_settings(session, 256, room, i) == MOSS_FLASH_NO_ROOM && !memcmp(room, copy, sizeof room));
    for (i = 0; i < 64; i++) {
        CHECK(moss_flash_event(session, 256, room, i) == MOSS_FLASH_NO_ROOM);
        CHECK(moss_flash_erase(session, 256, room, i) == MOSS_FLASH_NO_ROOM);
        CHECK(moss_flash_read(session, 256, 0, 1, 1, room, i) == MOSS_FLASH_NO_ROOM);
        CHECK(moss_flash_program_data(session, 256, 0, data, 0, 0, 0, room, i) == MOSS_FLASH_NO_ROOM);
        CHECK(!memcmp(room, copy, sizeof room));
    }
    CHECK(moss_flash_event(session, 256, room, 64) == MOSS_FLASH_DONE);
}

static void test_setters(void)
{
    static const uint64_t page[] = {0, 32769, 65536, 1ull << 32, (1ull << 32) + 1, ~0ull};
    static const uint64_t size[] = {0, 2147483649ull, 1ull << 32, (1ull << 32) + 4096, ~0ull};
    static const uint32_t limit[] = {0, 65536, 65537, 0xFFFFFFFFu};
    uint8_t s[256], before[256], r[MOSS_FLASH_SETTINGS_SIZE];
    unsigned i;

    moss_flash_new(s, 256);
    memcpy(before, s, 256);
    for (i = 0; i < 256; i++)
        CHECK((i >= 1 && i <= 4) || moss_flash_set_address_bytes(s, 256, (uint8_t)i) == MOSS_FLASH_BAD_SETTING);
    for (i = 0; i < sizeof page / 8; i++)
        CHECK(moss_flash_set_page_size(s, 256, page[i]) == MOSS_FLASH_BAD_SETTING);
    for (i = 0; i < sizeof size / 8; i++)
        CHECK(moss_flash_set_erase_size(s, 256, size[i]) == MOSS_FLASH_BAD_SETTING);
    for (i = 0; i < sizeof limit / 4; i++)
        CHECK(moss_flash_set_poll_limit(s, 256, limit[i]) == MOSS_FLASH_BAD_SETTING);
    CHECK(!memcmp(before, s, 256));
    CHECK(moss_flash_set_address_bytes(s, 256, 1) == 0 && moss_flash_set_address_bytes(s, 256, 4) == 0);
    CHECK(moss_flash_set_page_size(s, 256, 1) == 0 && moss_flash_set_page_size(s, 256, 32768) == 0);
    CHECK(moss_flash_set_erase_size(s, 256, 1) == 0 && moss_flash_set_erase_size(s, 256, 2147483648ull) == 0);
    CHECK(moss_flash_set_poll_limit(s, 256, 1) == 0 && moss_flash_set_poll_limit(s, 256, 65535) == 0);
    CHECK(moss_flash_set_erase_opcode(s, 256, 0) == 0 && moss_flash_set_erase_opcode(s, 256, 0xFF) == 0);
    CHECK(moss_flash_set_capacity(s, 256, 0) == 0 && moss_flash_set_capacity(s, 256, ~0ull) == 0);
    CHECK(moss_flash_settings(s, 256, r, sizeof r) == 0);
    CHECK(moss_flash_settings_address_bytes(r) == 4 && moss_flash_settings_page_size(r) == 32768);
    CHECK(moss_flash_settings_erase_size(r) == 2147483648u && moss_flash_settings_erase_opcode(r) == 0xFF);
    CHECK(moss_flash_settings_capacity_set(r) == 1 && moss_flash_settings_capacity(r) == ~0ull);
    CHECK(moss_flash_clear_capacity(s, 256) == 0 && moss_flash_settings(s, 256, r, sizeof r) == 0);
    CHECK(moss_flash_settings_capacity_set(r) == 0 && moss_flash_settings_capacity(r) == 0);
}

/* ---- what is sent */

static void expect_run(struct rig *g, int command, uint8_t answer, const char *trace)
{
    uint8_t now = rig_run(g, start(g, command), no_twist);

    CHECK(now == answer);
    CHECK(!strcmp(g->trace, trace));
    if (strcmp(g->trace, trace))
        printf("sent: %.300s\n", g->trace);
    check_repeats(g, now);
}

/* docs/SCOPE.md's whole list. */
static void test_whole_list(void)
{
    static const uint8_t two[] = {1, 2};
    struct rig g;

    rig_make(&g, 1024, 256);
    moss_flash_set_erase_size(S(&g), 256);
    moss_flash_set_erase_opcode(S(&g), 0x20);
    moss_flash_set_page_size(S(&g), 256);
    moss_flash_set_capacity(S(&g), 1024);
    g.part.types[0].size = 256;
    CHECK(rig_run(&g, moss_flash_program(S(&g), 256, two, 2, 0, g.work.bytes, 256, E(&g)), no_twist) == MOSS_FLASH_DONE);
    CHECK(!strcmp(g.trace, "0b00010200/254 06/0 20000100/0 05/1 06/0 020001000102/0 05/1"));
    CHECK(moss_flash_event_polls(g.event) == 2 && g.memory[256] == 1 && g.memory[257] == 2 && g.part.ignored == 0);
    rig_free(&g);
}

static void test_sent(void)
{
    struct rig g;
    uint8_t *before = malloc(CAPACITY);

    make_rig(&g, BY_HAND, 4096);
    expect_run(&g, READ, MOSS_FLASH_DONE, "0b0000fa00/12");
    CHECK(!memcmp(g.work.bytes, g.memory + 250, 12) && untouched_from(&g, 12));
    expect_run(&g, LEGACY, MOSS_FLASH_DONE, "030000fa/12");
    expect_run(&g, RESET, MOSS_FLASH_DONE, "66/0 99/0");
    expect_run(&g, ID, MOSS_FLASH_DONE, "9f/3");
    CHECK(moss_flash_event_bank(g.event) == 0 && moss_flash_event_manufacturer(g.event) == 0xEF);
    CHECK(moss_flash_event_device(g.event) == 0x4014);
    expect_run(&g, BUSY, MOSS_FLASH_DONE, "05/1");
    CHECK(moss_flash_event_yes(g.event) == 0 && moss_flash_event_polls(g.event) == 1);
    expect_run(&g, PROTECTED, MOSS_FLASH_DONE, "05/1");
    CHECK(moss_flash_event_yes(g.event) == 0 && moss_flash_event_polls(g.event) == 0);
    g.part.protect = 0x10;
    expect_run(&g, PROTECTED, MOSS_FLASH_DONE, "05/1");
    CHECK(moss_flash_event_yes(g.event) == 1);
    memcpy(before, g.memory, CAPACITY);
    memset(before + 61440, 0xFF, 8192);
    expect_run(&g, SECTORS, MOSS_FLASH_DONE, "06/0 2000f000/0 05/1 06/0 20010000/0 05/1");
    CHECK(!memcmp(before, g.memory, CAPACITY));
    free(before);
    expect_run(&g, ERASE, MOSS_FLASH_DONE, "06/0 c7/0 05/1");
    CHECK(g.memory[0] == 0xFF && g.memory[CAPACITY - 1] == 0xFF);
    expect_run(&g, DATA, MOSS_FLASH_DONE, "06/0 020000fa7477656e7479/0 05/1 06/0 02000100206279746573206f662064617461/0 05/1");
    CHECK(!memcmp(g.memory + 250, data, 20) && g.memory[249] == 0xFF && g.memory[270] == 0xFF);
    g.part.id[0] = 0x7F;
    expect_run(&g, ID, MOSS_FLASH_DONE, "9f/3 9f/16");
    CHECK(moss_flash_event_bank(g.event) == 1 && moss_flash_event_manufacturer(g.event) == 0x40);
    memset(g.part.id, 0x7F, 16);
    expect_run(&g, ID, MOSS_FLASH_INVALID_MANUFACTURER, "9f/3 9f/16");
    CHECK(g.part.ignored == 0);
    rig_free(&g);
}

/* A program keeps each neighbour; the bytes after it are written again only if one of them is not FF. */
static void test_program(void)
{
    struct rig g;
    uint8_t *before = malloc(CAPACITY);
    int kind;

    for (kind = BY_HAND; kind <= BY_SFDP; kind++) {
        make_rig(&g, kind, 4096 + 10);
        memcpy(before, g.memory, CAPACITY);
        memcpy(before + 4600, data, 20);
        CHECK(rig_run(&g, start(&g, VERIFIED), no_twist) == MOSS_FLASH_DONE);
        CHECK(!memcmp(before, g.memory, CAPACITY) && !memcmp(before + 4096, g.work.bytes, 4096));
        CHECK(untouched_from(&g, 4096));
        CHECK(g.sent == 2 + 17 * 3 + 1 && moss_flash_event_polls(g.event) == 17 && g.part.ignored == 0);
        CHECK(!strncmp(g.trace, "0b00100000/504 0b00120c00/3572 06/0 20001000/0", 46));
        CHECK((strstr(g.trace, " ~24000 ") != NULL) == (kind == BY_SFDP));
        memset(g.memory + 4620, 0xFF, 3572);
        CHECK(rig_run(&g, start(&g, VERIFIED), no_twist) == MOSS_FLASH_DONE);
        CHECK(g.sent == 2 + 4 * 3 + 1 && !memcmp(before, g.memory, 4620));
        CHECK(!strcmp(g.trace + strlen(g.trace) - 14, "0b00100000/524"));
        rig_free(&g);
    }
    free(before);
}

static void test_params(void)
{
    struct rig g;
    uint8_t s[MOSS_FLASH_SETTINGS_SIZE], before[MOSS_FLASH_SETTINGS_SIZE];

    make_rig(&g, BY_HAND, MOSS_FLASH_SFDP_ROOM);
    expect_run(&g, PARAMS, MOSS_FLASH_DONE, "5a00000000/8 5a00000000/16 5a00001000/64");
    CHECK(!memcmp(g.work.bytes, small_area + 16, 64) && untouched_from(&g, 64));
    rig_settings(&g, s);
    CHECK(moss_flash_settings_known(s) && moss_flash_settings_capacity(s) == CAPACITY && moss_flash_settings_density(s) == CAPACITY * 8);
    CHECK(moss_flash_settings_page_size(s) == 256 && moss_flash_settings_erase_size(s) == 4096);
    CHECK(moss_flash_settings_erase_opcode(s) == 0x20 && moss_flash_settings_address_bytes(s) == 3 && !moss_flash_settings_by_flag(s));
    small_area[27] ^= 1; /* a byte that no setting hangs on */
    memcpy(before, s, sizeof s);
    small_area[11] = 8;
    expect_run(&g, PARAMS, MOSS_FLASH_INVALID_SFDP_PARAMS, "5a00000000/8 5a00000000/16 5a00001000/32");
    CHECK(same_settings(&g, before));
    small_area[15] = 0xFE;
    expect_run(&g, PARAMS, MOSS_FLASH_INVALID_SFDP_HEADER, "5a00000000/8 5a00000000/16");
    CHECK(same_settings(&g, before));
    small_area[3] = 0x51;
    expect_run(&g, PARAMS, MOSS_FLASH_NO_SFDP, "5a00000000/8 5a00000000/16");
    CHECK(same_settings(&g, before));
    rig_free(&g);
}

/* Flag polling, reset by F0, and none at all. */
static void test_flag_part(void)
{
    struct rig g;

    make_rig(&g, BY_HAND, 4096);
    small_area[16 + 52] = 0x0B; /* dword 14: poll by flag status */
    small_area[16 + 61] = 0x08; /* dword 16: F0, not 66 */
    CHECK(rig_run(&g, start(&g, PARAMS), no_twist) == MOSS_FLASH_DONE);
    expect_run(&g, BUSY, MOSS_FLASH_DONE, "70/1");
    CHECK(moss_flash_event_polls(g.event) == 1 && moss_flash_event_yes(g.event) == 0);
    expect_run(&g, PROTECTED, MOSS_FLASH_DONE, "05/1");
    expect_run(&g, RESET, MOSS_FLASH_DONE, "f0/0");
    g.part.busy_polls = 3;
    expect_run(&g, ERASE, MOSS_FLASH_DONE, "06/0 c7/0 70/1 70/1 70/1");
    small_area[16 + 61] = 0x00;
    CHECK(rig_run(&g, start(&g, PARAMS), no_twist) == MOSS_FLASH_DONE);
    expect_run(&g, BUSY, MOSS_FLASH_DONE, "70/1");
    {
        uint8_t before[MOSS_FLASH_SESSION_SIZE];
        memcpy(before, g.session, sizeof before);
        CHECK(start(&g, RESET) == MOSS_FLASH_NO_RESET_INSTRUCTION && !memcmp(before, g.session, sizeof before));
        CHECK(moss_flash_event_kind(g.event) == MOSS_FLASH_NO_RESET_INSTRUCTION && moss_flash_event_polls(g.event) == 0);
    }
    rig_free(&g);
}

/* ---- refusals */

struct range {
    uint8_t address_bytes;
    uint32_t address;
    uint64_t length;
    int accepted;
    uint32_t reported;
};

static void test_ranges(void)
{
    static const struct range ranges[] = {
        {3, 0, 16777216, 1, 0}, {3, 0, 16777217, 0, 16777216}, {3, 0, 0, 0, 0xFFFFFFFFu}, {3, 5, 0, 0, 4},
        {3, 16777215, 1, 1, 0}, {3, 16777215, 2, 0, 16777216}, {3, 16777216, 1, 0, 16777216}, {1, 0, 256, 1, 0},
        {1, 0, 257, 0, 256}, {2, 65535, 1, 1, 0}, {2, 65535, 2, 0, 65536}, {4, 0xFFFFF000u, 4096, 1, 0},
        {4, 0xFFFFF000u, 4097, 0, 0}, {4, 0, 1ull << 32, 1, 0}, {4, 0, (1ull << 32) + 1, 0, 0},
        {4, 1, ~0ull, 0, 0xFFFFFFFFu}, {4, 0xFFFFFFFFu, ~0ull, 0, 0xFFFFFFFDu}, {3, 1, ~0ull, 0, 0xFFFFFFFFu},
    };
    unsigned i;

    for (i = 0; i < sizeof ranges / sizeof ranges[0]; i++) {
        const struct range *r = &ranges[i];
        uint8_t s[256], before[256], event[64];
        uint8_t now;

        moss_flash_new(s, 256);
        moss_flash_set_address_bytes(s, 256, r->address_bytes);
        memcpy(before, s, 256);
        now = moss_flash_read(s, 256, r->address, r->length, ~0ull, event, 64);
        CHECK(now == (r->accepted ? MOSS_FLASH_SEND : MOSS_FLASH_INVALID_ADDRESS));
        CHECK(r->accepted || (moss_flash_event_address(event) == r->reported && !memcmp(s, before, 256)));
        CHECK(!r->accepted || (moss_flash_event_reply(event) == r->length && memcmp(s, before, 256)));
        if (r->accepted) {
            memcpy(s, before, 256);
            CHECK(moss_flash_read(s, 256, r->address, r->length, r->length - 1, event, 64) == MOSS_FLASH_NO_ROOM);
            CHECK(moss_flash_event_need(event) == r->length && !memcmp(s, before, 256));
        }
    }
}

/* A start that is refused changes no byte but the event's. */
static void refuses(struct rig *g, uint8_t now, uint8_t answer, uint64_t number)
{
    CHECK(now == answer && moss_flash_event_kind(g->event) == answer && moss_flash_event_a(g->event) == number);
    CHECK(moss_flash_event_polls(g->event) == 0 && moss_flash_event_head_length(g->event) == 0);
}

static void test_refusals(void)
{
    struct rig g;
    uint8_t before[256];
    uint8_t *w;

    make_rig(&g, BY_SFDP, 4095);
    memcpy(before, g.session, 256);
    w = g.work.bytes;
    refuses(&g, moss_flash_program(S(&g), 4600, data, 20, 0, w, 4095, E(&g)), MOSS_FLASH_NO_ROOM, 4096);
    refuses(&g, moss_flash_program(S(&g), CAPACITY - 6, data, 20, 0, w, 0, E(&g)), MOSS_FLASH_INVALID_ADDRESS, CAPACITY + 13);
    refuses(&g, moss_flash_program(S(&g), 0, data, 0, 0, w, 0, E(&g)), MOSS_FLASH_INVALID_ADDRESS, 0xFFFFFFFF);
    refuses(&g, moss_flash_program_data(S(&g), CAPACITY - 6, data, 20, w, 0, E(&g)), MOSS_FLASH_INVALID_ADDRESS, CAPACITY + 13);
    refuses(&g, moss_flash_program_data(S(&g), CAPACITY - 20, data, 20, w, 19, E(&g)), MOSS_FLASH_NO_ROOM, 20);
    refuses(&g, moss_flash_erase_sectors(S(&g), 4096, 61440, E(&g)), MOSS_FLASH_INVALID_ADDRESS, 4096);
    refuses(&g, moss_flash_erase_sectors(S(&g), 4097, 4096, E(&g)), MOSS_FLASH_INVALID_ADDRESS, 4097);
    refuses(&g, moss_flash_erase_sectors(S(&g), 4096, 4095, E(&g)), MOSS_FLASH_INVALID_ADDRESS, 8191);
    refuses(&g, moss_flash_read_params(S(&g), 2055, E(&g)), MOSS_FLASH_NO_ROOM, 2056);
    CHECK(!memcmp(before, g.session, 256));
    CHECK(untouched_from(&g, 0));
    moss_flash_set_capacity(S(&g), CAPACITY - 1); /* the last block passes it */
    refuses(&g, moss_flash_program(S(&g), CAPACITY - 6, data, 5, 0, w, 4095, E(&g)), MOSS_FLASH_INVALID_ADDRESS, CAPACITY - 1);
    moss_flash_set_capacity(S(&g), 0);
    refuses(&g, moss_flash_read(S(&g), 0, 1, 1, E(&g)), MOSS_FLASH_INVALID_ADDRESS, 0);
    moss_flash_new(S(&g));
    refuses(&g, moss_flash_program(S(&g), 0, data, 5, 0, w, 0, E(&g)), MOSS_FLASH_NO_ERASE_INSTRUCTION, 0);
    refuses(&g, moss_flash_erase_sectors(S(&g), 0, 5, E(&g)), MOSS_FLASH_NO_ERASE_INSTRUCTION, 0);
    CHECK(g.part.transactions == 0);
    rig_free(&g);
}

/* No data: Done at any address, and a later step repeats that. */
static void test_no_data(void)
{
    struct rig g;

    make_rig(&g, BY_HAND, 16);
    CHECK(rig_run(&g, start(&g, BUSY), no_twist) == MOSS_FLASH_DONE && moss_flash_event_polls(g.event) == 1);
    CHECK(moss_flash_program_data(S(&g), 0xFFFFFFFFu, data, 0, g.work.bytes, 16, E(&g)) == MOSS_FLASH_DONE);
    CHECK(moss_flash_event_polls(g.event) == 0);
    check_repeats(&g, MOSS_FLASH_DONE);
    rig_free(&g);
}

/* ---- what goes wrong, at each transaction of each command */

/* The working buffer, which holds the restore data as far as it came. */
static void check_kept(const struct rig *g, int command, unsigned sent, const uint8_t *before)
{
    if (command == READ || command == LEGACY)
        CHECK(untouched_from(g, 0));
    if (command != PROGRAM && command != VERIFIED)
        return;
    CHECK(!memcmp(g->work.bytes + 504, data, 20));
    if (sent > 1)
        CHECK(!memcmp(g->work.bytes, before + 4096, 504));
    if (sent > 2)
        CHECK(!memcmp(g->work.bytes + 524, before + 4620, 3572));
}

static void run_twisted(int kind, int command, struct twist t, unsigned at, const uint8_t *before)
{
    struct rig g;
    uint8_t settings[MOSS_FLASH_SETTINGS_SIZE];

    make_rig(&g, kind, 4096);
    rig_settings(&g, settings);
    CHECK(rig_run(&g, start(&g, command), t) == MOSS_FLASH_ACCESS);
    CHECK(g.sent == at + 1 && same_settings(&g, settings));
    check_kept(&g, command, g.sent, before);
    check_repeats(&g, MOSS_FLASH_ACCESS);
    rig_free(&g);
}

static void test_each_fault(int kind, int command)
{
    struct rig g;
    uint8_t *before = malloc(CAPACITY);
    unsigned sent, at;

    make_rig(&g, kind, 4096);
    memcpy(before, g.memory, CAPACITY);
    CHECK(rig_run(&g, start(&g, command), no_twist) == MOSS_FLASH_DONE);
    sent = g.sent;
    rig_free(&g);
    for (at = 0; at < sent; at++) {
        struct twist fails = {(int)at, -1, -1, 0}, shorter = {-1, (int)at, -1, 0}, longer = {-1, -1, (int)at, 0};
        run_twisted(kind, command, fails, at, before);
        run_twisted(kind, command, shorter, at, before);
        run_twisted(kind, command, longer, at, before);
    }
    free(before);
}

/* A room that is a byte too short at each step; a room that is longer than needed. */
static void test_rooms(int kind, int command)
{
    struct twist poor = {-1, -1, -1, 1};
    struct rig g;

    make_rig(&g, kind, need_of(command));
    CHECK(rig_run(&g, start(&g, command), poor) == MOSS_FLASH_DONE);
    rig_free(&g);
    make_rig(&g, kind, need_of(command) + 100);
    CHECK(rig_run(&g, start(&g, command), no_twist) == MOSS_FLASH_DONE);
    CHECK(untouched_from(&g, need_of(command)));
    rig_free(&g);
}

/* The part stays busy from each of its operations on. */
static void test_stuck(int kind, int command)
{
    struct rig g;
    uint8_t settings[MOSS_FLASH_SETTINGS_SIZE];
    uint8_t *before = malloc(CAPACITY);
    unsigned operations, i;

    make_rig(&g, kind, 4096);
    memcpy(before, g.memory, CAPACITY);
    CHECK(rig_run(&g, start(&g, command), no_twist) == MOSS_FLASH_DONE);
    operations = g.part.operations;
    rig_free(&g);
    for (i = 0; i < operations; i++) {
        make_rig(&g, kind, 4096);
        rig_settings(&g, settings);
        g.part.stuck_from = i;
        CHECK(rig_run(&g, start(&g, command), no_twist) == MOSS_FLASH_BUSY);
        CHECK(g.polls == i + 3 && g.part.operations == i + 1 && same_settings(&g, settings));
        check_kept(&g, command, g.sent, before);
        check_repeats(&g, MOSS_FLASH_BUSY);
        rig_free(&g);
    }
    free(before);
}

/* ---- while a command runs */

static void refused_while_running(struct rig *g)
{
    uint8_t before[MOSS_FLASH_SESSION_SIZE], event[MOSS_FLASH_EVENT_SIZE];
    uint8_t *work = malloc(g->work.length + 1);
    int other;

    memcpy(before, g->session, sizeof before);
    memcpy(event, g->event, sizeof event);
    memcpy(work, g->work.bytes, g->work.length);
    for (other = 0; other < COMMANDS; other++)
        CHECK(start(g, other) == MOSS_FLASH_BAD_SESSION);
    CHECK(moss_flash_set_address_bytes(S(g), 4) == MOSS_FLASH_BAD_SESSION && moss_flash_set_address_bytes(S(g), 9) == MOSS_FLASH_BAD_SESSION);
    CHECK(moss_flash_set_page_size(S(g), 1) == MOSS_FLASH_BAD_SESSION && moss_flash_set_erase_size(S(g), 1) == MOSS_FLASH_BAD_SESSION);
    CHECK(moss_flash_set_erase_opcode(S(g), 1) == MOSS_FLASH_BAD_SESSION && moss_flash_set_poll_limit(S(g), 1) == MOSS_FLASH_BAD_SESSION);
    CHECK(moss_flash_set_capacity(S(g), 1) == MOSS_FLASH_BAD_SESSION && moss_flash_clear_capacity(S(g)) == MOSS_FLASH_BAD_SESSION);
    CHECK(!memcmp(before, g->session, sizeof before) && !memcmp(work, g->work.bytes, g->work.length));
    memset(g->event, 0xEE, sizeof event);
    CHECK(moss_flash_event(S(g), E(g)) == MOSS_FLASH_SEND);
    CHECK(!memcmp(event, g->event, sizeof event) && !memcmp(before, g->session, sizeof before));
    free(work);
}

static void test_running(int kind, int command)
{
    struct rig g;
    uint8_t s[MOSS_FLASH_SETTINGS_SIZE];

    make_rig(&g, kind, 4096);
    CHECK(start(&g, command) == MOSS_FLASH_SEND);
    rig_settings(&g, s);
    CHECK(moss_flash_settings_runs(s) == 1);
    refused_while_running(&g);
    CHECK(rig_run(&g, MOSS_FLASH_SEND, no_twist) == MOSS_FLASH_DONE);
    rig_settings(&g, s);
    CHECK(moss_flash_settings_runs(s) == 0);
    rig_free(&g);
}

/* Each bit of a session flipped: 13 with no byte changed, or another session that is sound. How many are answered 13. */
static unsigned flip_bits(const struct rig *g)
{
    unsigned bit, seen = 0;

    for (bit = 0; bit < 2048; bit++) {
        uint8_t s[256], before[256], event[64], unwritten[64];
        uint8_t now;

        memcpy(s, g->session, 256);
        s[bit / 8] ^= (uint8_t)(1u << bit % 8);
        memcpy(before, s, 256);
        memset(event, 0xEE, sizeof event);
        memset(unwritten, 0xEE, sizeof event);
        now = moss_flash_event(s, 256, event, 64);
        CHECK(now <= MOSS_FLASH_BAD_SESSION || now == MOSS_FLASH_SEND);
        if (now == MOSS_FLASH_BAD_SESSION && event[0] == 0xEE) {
            MUST(moss_flash_step(s, 256, 0, g->reply, 0, g->work.bytes, g->work.length, event, 64) == MOSS_FLASH_BAD_SESSION);
            MUST(moss_flash_erase(s, 256, event, 64) == MOSS_FLASH_BAD_SESSION);
            MUST(moss_flash_set_capacity(s, 256, 1) == MOSS_FLASH_BAD_SESSION);
            MUST(!memcmp(event, unwritten, sizeof event));
            seen++;
        }
        MUST(!memcmp(s, before, 256));
    }
    return seen;
}

static void test_flips(int kind, int command)
{
    struct rig g;
    size_t lengths[] = {0, 1, 255, 257, 512};
    uint8_t wide[512] = {0};
    unsigned idle, running;
    size_t i;

    make_rig(&g, kind, 4096);
    idle = flip_bits(&g);
    CHECK(start(&g, command) == MOSS_FLASH_SEND);
    running = flip_bits(&g);
    if (command == VERIFIED)
        printf("%s: of 2048 flipped bits %u are answered 13 in an idle session, %u in one that programs\n",
               kind == BY_HAND ? "set by hand" : "set by SFDP", idle, running);
    memcpy(wide, g.session, 256);
    for (i = 0; i < sizeof lengths / sizeof lengths[0]; i++)
        CHECK(moss_flash_event(wide, lengths[i], E(&g)) == MOSS_FLASH_BAD_SESSION);
    CHECK(!memcmp(wide, g.session, 256));
    rig_free(&g);
}

/* ---- readback */

static void test_readback(void)
{
    struct rig g;
    struct twist fails = {-1, -1, -1, 0};
    uint8_t *before = malloc(CAPACITY);
    unsigned sent;

    make_rig(&g, BY_HAND, 4096);
    memcpy(before, g.memory, CAPACITY);
    memcpy(before + 4600, data, 20);
    g.part.bad_cell = 4605;
    CHECK(rig_run(&g, start(&g, VERIFIED), no_twist) == MOSS_FLASH_READBACK_ERROR);
    CHECK(moss_flash_event_address(g.event) == 4605 && moss_flash_event_wrote(g.event) == data[5] && moss_flash_event_read(g.event) == 0);
    CHECK(!strcmp(g.trace + strlen(g.trace) - 20, "0b00100000/4096 05/1") && g.polls == 17);
    CHECK(!memcmp(g.work.bytes, before + 4096, 4096));
    check_repeats(&g, MOSS_FLASH_READBACK_ERROR);
    sent = g.sent;
    rig_free(&g);
    make_rig(&g, BY_HAND, 4096);
    g.part.bad_cell = 4605;
    fails.fails_at = (int)sent - 1;
    CHECK(rig_run(&g, start(&g, VERIFIED), fails) == MOSS_FLASH_ACCESS && g.polls == 17);
    CHECK(!memcmp(g.work.bytes, before + 4096, 4096));
    rig_free(&g);
    free(before);
}

/* ---- plans */

struct wanted_plan {
    uint32_t start, length;
    unsigned count;
    uint32_t entries[3][3]; /* opcode, size, base */
};

/* The seven plans of the Rust's own test. */
static const struct wanted_plan plans[7] = {
    {0, 4, 1, {{1, 4, 0}}},
    {0, 64, 1, {{3, 64, 0}}},
    {0, 192, 3, {{3, 64, 0}, {3, 64, 64}, {3, 64, 128}}},
    {0, 70, 2, {{3, 64, 0}, {2, 32, 64}}},
    {0, 66, 2, {{3, 64, 0}, {1, 4, 64}}},
    {62, 64, 2, {{1, 4, 60}, {3, 64, 64}}},
    {62, 68, 3, {{1, 4, 60}, {3, 64, 64}, {1, 4, 128}}},
};

static void check_plan(struct rig *g, const struct wanted_plan *p)
{
    uint8_t slots[5 * MOSS_FLASH_ENTRY_SIZE], copy[sizeof slots];
    unsigned i;

    memset(slots, 0xC3, sizeof slots);
    memcpy(copy, slots, sizeof slots);
    CHECK(moss_flash_make_erase_plan(S(g), p->start, p->length, slots, 16 * p->count - 1, E(g)) == MOSS_FLASH_NO_ROOM);
    CHECK(moss_flash_event_need(g->event) == p->count && !memcmp(slots, copy, sizeof slots));
    CHECK(moss_flash_make_erase_plan(S(g), p->start, p->length, slots, 16 * p->count + 15, E(g)) == MOSS_FLASH_DONE);
    CHECK(moss_flash_event_count(g->event) == p->count);
    for (i = 0; i < p->count; i++) {
        const uint8_t *e = slots + 16 * i;
        CHECK(moss_flash_entry_opcode(e) == p->entries[i][0] && moss_flash_entry_size(e) == p->entries[i][1]);
        CHECK(moss_flash_entry_base(e) == p->entries[i][2] && moss_flash_entry_timed(e) == 0 && moss_flash_entry_time(e) == 0);
        CHECK(e[2] == 0 && e[3] == 0);
    }
    CHECK(!memcmp(slots + 16 * p->count, copy, sizeof slots - 16 * p->count));
}

static void test_plans(void)
{
    static const uint32_t dwords[9] = {0, 65536 * 8 - 1, 0, 0, 0, 0, 0, 0x02050102, 0x00000306};
    uint8_t area[64], before[256];
    uint8_t slots[16];
    struct rig g;
    unsigned i;

    rig_make(&g, 65536, MOSS_FLASH_SFDP_ROOM);
    CHECK(moss_flash_make_erase_plan(S(&g), 0, 4, slots, 16, E(&g)) == MOSS_FLASH_NO_ERASE_INSTRUCTION);
    g.part.sfdp_len = make_area(area, 0, dwords, 9);
    g.part.sfdp = area;
    CHECK(rig_run(&g, start(&g, PARAMS), no_twist) == MOSS_FLASH_DONE);
    for (i = 0; i < 7; i++)
        check_plan(&g, &plans[i]);
    memcpy(before, g.session, 256);
    CHECK(moss_flash_make_erase_plan(S(&g), 65530, 20, slots, 0, E(&g)) == MOSS_FLASH_INVALID_ADDRESS);
    CHECK(moss_flash_event_address(g.event) == 65549);
    CHECK(moss_flash_make_erase_plan(S(&g), 0, 4, slots, 16, g.event, 63) == MOSS_FLASH_NO_ROOM);
    CHECK(moss_flash_make_erase_plan(g.session, 255, 0, 4, slots, 16, E(&g)) == MOSS_FLASH_BAD_SESSION);
    CHECK(!memcmp(before, g.session, 256));
    CHECK(start(&g, ERASE) == MOSS_FLASH_SEND); /* also while a command runs */
    CHECK(moss_flash_make_erase_plan(S(&g), 0, 4, slots, 16, E(&g)) == MOSS_FLASH_DONE && moss_flash_entry_opcode(slots) == 1);
    rig_free(&g);
}

/* With times: the simulated part's own area. */
static void test_timed_plan(void)
{
    struct rig g;
    uint8_t slots[32];

    make_rig(&g, BY_SFDP, 16);
    CHECK(moss_flash_make_erase_plan(S(&g), 0, 32768, slots, 32, E(&g)) == MOSS_FLASH_DONE && moss_flash_event_count(g.event) == 1);
    CHECK(moss_flash_entry_opcode(slots) == 0x52 && moss_flash_entry_timed(slots) == 1 && moss_flash_entry_time(slots) == 128000);
    rig_free(&g);
}

/* ---- random commands on small parts with one erase size, against plain arithmetic */

struct small {
    uint32_t size, page;
    uint64_t top;     /* where addresses end */
    uint8_t bytes[64];
    size_t length;
    uint32_t address;
};

static void make_small(struct rig *g, struct small *c)
{
    static const uint32_t sizes[] = {1, 2, 3, 7, 16, 48, 64, 100, 256};
    static const uint32_t pages[] = {1, 2, 5, 16, 64, 256};
    size_t capacity = 64 + (size_t)below(960);
    size_t i;

    rig_make(g, capacity, 1400);
    c->size = sizes[below(9)];
    c->page = pages[below(6)];
    g->part.address_bytes = (uint8_t)(1 + below(4));
    g->part.types[0].size = c->size;
    g->part.page = c->page * (size_t)(1 + below(4));
    g->part.busy_polls = (uint32_t)below(4);
    for (i = 0; i < capacity; i++)
        g->memory[i] = (uint8_t)(below(3) ? random64() : 0xFF);
    c->top = g->part.address_bytes == 1 && capacity > 256 ? 256 : capacity;
    MUST(moss_flash_set_address_bytes(S(g), g->part.address_bytes) == 0 && moss_flash_set_capacity(S(g), capacity) == 0);
    MUST(moss_flash_set_erase_size(S(g), c->size) == 0 && moss_flash_set_page_size(S(g), c->page) == 0);
    MUST(moss_flash_set_poll_limit(S(g), 4) == 0);
    c->length = (size_t)below(sizeof c->bytes + 1);
    c->address = (uint32_t)below(c->top + 8);
    for (i = 0; i < c->length; i++)
        c->bytes[i] = (uint8_t)random64();
}

/* How many pages the bytes from one address up to another meet. */
static uint64_t pages_met(const struct small *c, uint64_t from, uint64_t to)
{
    return from < to ? (to - 1) / c->page - from / c->page + 1 : 0;
}

static void random_program(void)
{
    struct rig g;
    struct small c;
    uint64_t first, end, most;
    uint8_t *image;
    uint8_t now;
    int fits;

    make_small(&g, &c);
    image = malloc(g.part.capacity);
    memcpy(image, g.memory, g.part.capacity);
    first = c.address - c.address % c.size;
    end = (c.address + c.length + c.size - 1) / c.size * c.size;
    fits = c.length > 0 && c.address + c.length <= c.top && end <= c.top;
    now = rig_run(&g, moss_flash_program(S(&g), c.address, c.bytes, c.length, (uint8_t)below(3), g.work.bytes, g.work.length,
                                    E(&g)), no_twist);
    CHECK(now == (fits ? MOSS_FLASH_DONE : MOSS_FLASH_INVALID_ADDRESS));
    if (fits)
        memcpy(image + c.address, c.bytes, c.length);
    CHECK(!memcmp(image, g.memory, g.part.capacity) && g.part.ignored == 0);
    most = 4 + ((end - first) / c.size + pages_met(&c, first, end)) * 6;
    CHECK(g.sent <= (fits ? most : 0));
    rig_free(&g);
    free(image);
}

static void random_data(void)
{
    struct rig g;
    struct small c;
    uint8_t *image;
    uint8_t now;
    size_t i;
    int fits;

    make_small(&g, &c);
    image = malloc(g.part.capacity);
    memcpy(image, g.memory, g.part.capacity);
    fits = c.length == 0 || c.address + c.length <= c.top;
    for (i = 0; fits && i < c.length; i++)
        image[c.address + i] &= c.bytes[i];
    now = rig_run(&g, moss_flash_program_data(S(&g), c.address, c.bytes, c.length, g.work.bytes, g.work.length, E(&g)), no_twist);
    CHECK(now == (fits ? MOSS_FLASH_DONE : MOSS_FLASH_INVALID_ADDRESS));
    CHECK(!memcmp(image, g.memory, g.part.capacity) && g.part.ignored == 0);
    CHECK(g.sent <= (fits ? pages_met(&c, c.address, c.address + c.length) * 6 : 0));
    rig_free(&g);
    free(image);
}

static void random_sectors(void)
{
    struct rig g;
    struct small c;
    uint64_t end, reported;
    uint8_t *image;
    uint8_t now;
    int in_range, fits;

    make_small(&g, &c);
    if (below(2))
        c.address -= c.address % c.size;
    if (below(2))
        c.length = (size_t)(c.length / c.size * c.size);
    image = malloc(g.part.capacity);
    memcpy(image, g.memory, g.part.capacity);
    end = c.address + c.length;
    in_range = c.length > 0 && end <= c.top;
    fits = in_range && c.address % c.size == 0 && end % c.size == 0;
    reported = !in_range ? end - 1 : c.address % c.size ? c.address : end;
    now = rig_run(&g, moss_flash_erase_sectors(S(&g), c.address, c.length, E(&g)), no_twist);
    CHECK(now == (fits ? MOSS_FLASH_DONE : MOSS_FLASH_INVALID_ADDRESS));
    CHECK(fits || moss_flash_event_address(g.event) == (uint32_t)reported);
    if (fits)
        memset(image + c.address, 0xFF, c.length);
    CHECK(!memcmp(image, g.memory, g.part.capacity) && g.part.ignored == 0);
    CHECK(g.sent <= (fits ? c.length / c.size * 6 : 0));
    rig_free(&g);
    free(image);
}

int main(void)
{
    int kind, command, i;

    seed_random(20);
    test_new();
    test_short_records();
    test_setters();
    test_whole_list();
    test_sent();
    test_program();
    test_params();
    test_flag_part();
    test_ranges();
    test_refusals();
    test_no_data();
    test_readback();
    test_plans();
    test_timed_plan();
    for (kind = BY_HAND; kind <= BY_SFDP; kind++)
        for (command = 0; command < COMMANDS; command++) {
            test_each_fault(kind, command);
            test_rooms(kind, command);
            test_running(kind, command);
            test_flips(kind, command);
            if (waits(command))
                test_stuck(kind, command);
        }
    for (i = 0; i < 2000; i++) {
        random_program();
        random_data();
        random_sectors();
    }
    return checks_end("behaviour");
}
