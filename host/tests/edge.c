/*
 * The card's edge: a user who does what docs/MANUAL.md says, in its order, on a part that fails in the worst place. After
 * every break all bytes outside the span are as they were; and at the end every byte is as it should be.
 */
#include <stdio.h>
#include <stdlib.h>
#include <string.h>

#include "moss_flash_host.h"
#include "rig.h"

#define CAPACITY 131072u
#define WORK CAPACITY /* room for the largest span below */

struct user {
    struct moss_flash_host host;
    struct sim_part part;
    uint8_t memory[CAPACITY];
    uint8_t expected[CAPACITY];
    uint8_t work[WORK];
    uint8_t reply[WORK];
    uint8_t params[MOSS_FLASH_SFDP_ROOM];
    uint8_t page[300];
    uint8_t area[SIM_SFDP_SIZE];
};

static struct user u;
static uint8_t data[4200];

/* ---- a user's firmware */

static void lay_out(void)
{
    size_t i;

    memset(&u, 0, sizeof u);
    sim_init(&u.part, u.memory, CAPACITY);
    for (i = 0; i < CAPACITY; i++)
        u.expected[i] = u.memory[i] = (uint8_t)(i * 31 + i / 256 * 7 + 1);
    for (i = 0; i < sizeof data; i++)
        data[i] = (uint8_t)(i * 5 + 3);
    memcpy(u.area, sim_sfdp, sizeof u.area);
    u.area[22] = 0x0F; /* 131,072 bytes */
    u.part.sfdp = u.area;
    u.host.exchange = sim_exchange;
    u.host.delay = sim_delay;
    u.host.context = &u.part;
    u.host.reply = u.reply;
    u.host.reply_room = sizeof u.reply;
}

/* Settings: kind 0 by the table, else one erase size by hand. */
static void configure(uint32_t kind)
{
    if (kind == 0) {
        MUST(moss_flash_host_read_params(&u.host, u.params, sizeof u.params) == MOSS_FLASH_DONE);
    } else {
        u.part.types[0].size = kind;
        MUST(moss_flash_host_set_capacity(&u.host, CAPACITY) == MOSS_FLASH_DONE);
        MUST(moss_flash_host_set_erase_size(&u.host, kind) == MOSS_FLASH_DONE);
        MUST(moss_flash_host_set_page_size(&u.host, 256) == MOSS_FLASH_DONE);
    }
    MUST(moss_flash_host_set_poll_limit(&u.host, 5) == MOSS_FLASH_DONE);
}

static void boot(uint32_t kind)
{
    lay_out();
    MUST(moss_flash_host_init(&u.host) == MOSS_FLASH_DONE);
    configure(kind);
}

/* ---- 1. a program that breaks off at each transaction, and the manual's way back */

struct job {
    uint32_t kind;
    uint32_t address;
    size_t length;
    uint8_t verify;
};

enum { NOT_SEEN, LOST, LONG, HANGS, WAYS };

static unsigned long breaks, recovered, restored, started_again;

static uint8_t save(const struct job *j)
{
    return moss_flash_host_program(&u.host, j->address, data, j->length, j->verify, u.work, sizeof u.work);
}

/* As the manual has it: the part is asked, then touched says which way; at most 9 times. */
static uint8_t way_back(const struct job *j, uint8_t answer)
{
    int tries;

    for (tries = 0; answer != MOSS_FLASH_DONE && tries < 9; tries++) {
        sim_unstick(&u.part);
        (void)moss_flash_host_is_busy(&u.host);
        (void)moss_flash_host_is_protected(&u.host);
        if (u.host.touched)
            answer = moss_flash_host_restore(&u.host, 1, u.page, sizeof u.page);
        else
            answer = save(j);
    }
    return answer;
}

/* Every byte outside the span is as it was; so is the whole flash if no 06 went out. */
static int outside_whole(const struct job *j, const uint8_t *before)
{
    uint32_t base = 0;
    uint64_t span = 0;

    if (!u.host.touched)
        return !memcmp(u.memory, before, CAPACITY);
    MUST(moss_flash_host_span(&u.host, j->address, j->length, &base, &span) == MOSS_FLASH_DONE);
    MUST(base == u.host.kept_base && span == u.host.kept_length && u.host.kept == u.work);
    return !memcmp(u.memory, before, base) &&
           !memcmp(u.memory + base + span, before + base + span, CAPACITY - base - (size_t)span);
}

/* One program, broken at one transaction in one way. 0 if it has no such transaction. */
static int break_once(const struct job *j, int way, uint32_t at)
{
    static uint8_t before[CAPACITY];
    uint8_t answer;

    boot(j->kind);
    memcpy(before, u.memory, CAPACITY);
    memcpy(u.expected + j->address, data, j->length);
    if (way == LOST)
        u.part.lost_at = u.part.transactions + at;
    else if (way == HANGS)
        u.part.stuck_from = u.part.operations + at;
    else
        u.part.fails_at = u.part.transactions + at;
    u.part.fails_for = way == LONG ? 3 : 0;
    answer = save(j);
    CHECK(answer == MOSS_FLASH_DONE || answer == MOSS_FLASH_ACCESS || answer == MOSS_FLASH_BUSY);
    if (answer != MOSS_FLASH_ACCESS && answer != MOSS_FLASH_BUSY)
        return 0;
    breaks++;
    restored += u.host.touched != 0;
    started_again += u.host.touched == 0;
    CHECK(answer == (way == HANGS ? MOSS_FLASH_BUSY : MOSS_FLASH_ACCESS));
    CHECK(outside_whole(j, before));
    answer = way_back(j, answer);
    CHECK(answer == MOSS_FLASH_DONE && !u.host.touched && !u.host.kept);
    CHECK(!memcmp(u.memory, u.expected, CAPACITY));
    recovered += answer == MOSS_FLASH_DONE && !memcmp(u.memory, u.expected, CAPACITY);
    return 1;
}

static void test_breaks(void)
{
    static const struct job jobs[] = {
        {4096, 3200, 48, 1}, {0, 3200, 48, 1},     {0, 0x3200, 48, 0},    {0, 4096, 4096, 1}, {0, 61430, 20, 1},
        {0, 4000, 4200, 0},  {0, 61440, 4100, 1},  {4096, 126976, 4096, 1}, {256, 250, 600, 1}, {256, 256, 256, 0},
        {100, 333, 77, 1},   {65536, 65500, 72, 1}, {1, 500, 3, 1},        {3, 1000, 10, 1},
    };
    size_t i;
    int way;

    for (i = 0; i < sizeof jobs / sizeof jobs[0]; i++)
        for (way = 0; way < WAYS; way++) {
            uint32_t at = 0;
            /* at each transaction; beyond the 100th of a long program at some */
            while (break_once(&jobs[i], way, at))
                at += 1 + (at < 100 ? 0 : (uint32_t)below(200));
            CHECK(at >= 1);
        }
}

/* Random programs on random parts, each broken at every transaction. */
static void test_random_breaks(unsigned programs)
{
    static const uint32_t kinds[] = {0, 1, 2, 3, 64, 100, 256, 4096};

    for (; programs > 0; programs--) {
        uint32_t kind = kinds[below(8)];
        uint32_t top = kind ? CAPACITY - CAPACITY % kind : CAPACITY;
        struct job j;
        uint32_t at = 0;
        int way = (int)below(WAYS);

        j.kind = kind;
        j.length = 1 + (size_t)below(kind && kind < 64 ? 8 : 300);
        j.address = (uint32_t)below(top - (uint32_t)j.length);
        j.verify = (uint8_t)below(2);
        while (break_once(&j, way, at))
            at += 1 + (at < 100 ? 0 : (uint32_t)below(50));
    }
}

/* The order that lost 4,032 bytes: the first page's 06 fails, the part is asked, and the program is started again. */
static void test_touched_lasts(void)
{
    static const struct job j = {4096, 3200, 48, 1};

    boot(4096);
    u.part.fails_at = u.part.transactions + 5; /* two reads, 06, erase, poll, and then this 06 */
    CHECK(save(&j) == MOSS_FLASH_ACCESS && u.host.touched == 1);
    CHECK(moss_flash_host_is_busy(&u.host) == MOSS_FLASH_DONE && u.host.touched == 1);
    CHECK(moss_flash_host_read_jedec_id(&u.host) == MOSS_FLASH_DONE && u.host.touched == 1);
    CHECK(moss_flash_host_read(&u.host, 0, u.params, 100) == MOSS_FLASH_DONE && u.host.touched == 1);
    CHECK(moss_flash_host_reset(&u.host) == MOSS_FLASH_DONE && u.host.touched == 1);
    CHECK(save(&j) == MOSS_FLASH_HOST_KEPT && u.host.touched == 1);
    CHECK(moss_flash_host_init(&u.host) == MOSS_FLASH_DONE && u.host.touched == 1);
    configure(4096);
    CHECK(moss_flash_host_restore(&u.host, 1, u.page, sizeof u.page) == MOSS_FLASH_DONE && u.host.touched == 0);
    memcpy(u.expected + 3200, data, 48);
    CHECK(!memcmp(u.memory, u.expected, CAPACITY));
    CHECK(moss_flash_host_restore(&u.host, 1, u.page, sizeof u.page) == MOSS_FLASH_BAD_SESSION);
}

/* ---- 2. a part that is still busy from before */

static void test_warm_start(void)
{
    static const struct job j = {4096, 3200, 48, 1};
    unsigned busy;

    for (busy = 1; busy < 40; busy++) {
        lay_out();
        u.part.busy_left = busy;
        CHECK(moss_flash_host_init(&u.host) == MOSS_FLASH_DONE && u.part.ignored == 0);
        configure(4096);
        memcpy(u.expected + 3200, data, 48);
        CHECK(save(&j) == MOSS_FLASH_DONE && !memcmp(u.memory, u.expected, CAPACITY));
    }
    /* By the clock: a chip erase that a watchdog's reset left under way, longer than the wait; the next init meets it idle. */
    lay_out();
    u.part.busy_until = 90000000;
    CHECK(moss_flash_host_init(&u.host) == MOSS_FLASH_BUSY && u.part.clock < 62000000);
    CHECK(moss_flash_event_kind(u.host.event) == MOSS_FLASH_BUSY);
    CHECK(moss_flash_host_read(&u.host, 0, u.params, 1) == MOSS_FLASH_DONE && u.part.clock >= 90000000 && u.part.ignored == 0);
    /* One that never gets idle: bounded, and 9. */
    lay_out();
    u.part.stuck = 1;
    u.host.idle_wait = 5000;
    CHECK(moss_flash_host_init(&u.host) == MOSS_FLASH_BUSY && u.part.transactions == 6);
    sim_unstick(&u.part);
    CHECK(moss_flash_host_init(&u.host) == MOSS_FLASH_DONE);
}

/* After 9 the part may still be at work: the next command waits for it, and does not read FF. */
static void test_busy_after_nine(void)
{
    static const struct job j = {4096, 9000, 48, 1};

    boot(4096);
    u.part.block_us = 700000000; /* longer than all polls allowed */
    CHECK(moss_flash_host_erase_sectors(&u.host, 0, 4096) == MOSS_FLASH_BUSY && u.host.touched == 0);
    u.part.block_us = 0;
    u.part.busy_until = u.part.clock + 40000;
    memset(u.expected, 0xFF, 4096);
    memcpy(u.expected + 9000, data, 48);
    CHECK(save(&j) == MOSS_FLASH_DONE && !memcmp(u.memory, u.expected, CAPACITY));
}

/* ---- 3. a kept buffer is not overwritten */

static void test_kept(void)
{
    static const struct job j = {4096, 3200, 48, 1};
    uint8_t kept[4096];
    uint32_t sent;

    boot(4096);
    u.part.stuck_from = u.part.operations;
    CHECK(save(&j) == MOSS_FLASH_BUSY && u.host.touched == 1);
    sim_unstick(&u.part);
    memcpy(kept, u.work, sizeof kept);
    sent = u.part.transactions;
    CHECK(moss_flash_host_read_params(&u.host, u.work, sizeof u.work) == MOSS_FLASH_HOST_KEPT);
    CHECK(moss_flash_host_read(&u.host, 0, u.work + 4095, 10) == MOSS_FLASH_HOST_KEPT);
    CHECK(moss_flash_host_legacy_read(&u.host, 0, u.work, 10) == MOSS_FLASH_HOST_KEPT);
    CHECK(moss_flash_host_program(&u.host, 9000, data, 10, 0, u.work + 8192, 4096) == MOSS_FLASH_HOST_KEPT);
    CHECK(moss_flash_host_program_data(&u.host, 9000, data, 10, u.page, 10) == MOSS_FLASH_HOST_KEPT);
    CHECK(moss_flash_host_erase_sectors(&u.host, 8192, 4096) == MOSS_FLASH_HOST_KEPT);
    CHECK(moss_flash_host_erase(&u.host) == MOSS_FLASH_HOST_KEPT);
    CHECK(moss_flash_host_restore(&u.host, 1, u.work + 100, 100) == MOSS_FLASH_HOST_KEPT);
    CHECK(moss_flash_event_kind(u.host.event) == MOSS_FLASH_HOST_KEPT && u.part.transactions == sent);
    CHECK(!memcmp(kept, u.work, sizeof kept) && !strcmp(moss_flash_host_answer_name(MOSS_FLASH_HOST_KEPT), "Kept"));
    CHECK(moss_flash_host_read_params(&u.host, u.params, sizeof u.params) == MOSS_FLASH_DONE);
    CHECK(moss_flash_host_read(&u.host, 9000, u.work + 4096, 10) == MOSS_FLASH_DONE);
    CHECK(moss_flash_host_restore(&u.host, 1, u.page, sizeof u.page) == MOSS_FLASH_DONE);
    memcpy(u.expected + 3200, data, 48);
    CHECK(!memcmp(u.memory, u.expected, CAPACITY));
    u.part.stuck_from = u.part.operations;
    CHECK(save(&j) == MOSS_FLASH_BUSY && u.host.touched == 1);
    sim_unstick(&u.part);
    moss_flash_host_forget(&u.host);
    CHECK(moss_flash_host_erase(&u.host) == MOSS_FLASH_DONE && u.memory[CAPACITY - 1] == 0xFF);
}

static void test_overlap(void)
{
    uint32_t sent;

    boot(4096);
    sent = u.part.transactions;
    CHECK(moss_flash_host_program(&u.host, 0, u.work + 5, 10, 0, u.work, 4096) == MOSS_FLASH_HOST_OVERLAP);
    CHECK(moss_flash_host_program(&u.host, 0, data, 10, 0, u.reply, 4096) == MOSS_FLASH_HOST_OVERLAP);
    CHECK(moss_flash_host_program_data(&u.host, 0, u.page, 10, u.page + 9, 20) == MOSS_FLASH_HOST_OVERLAP);
    CHECK(moss_flash_host_read(&u.host, 0, u.reply + WORK - 1, 1) == MOSS_FLASH_HOST_OVERLAP);
    CHECK(moss_flash_host_read_params(&u.host, u.reply, 4096) == MOSS_FLASH_HOST_OVERLAP);
    CHECK(u.part.transactions == sent && !memcmp(u.memory, u.expected, CAPACITY));
}

/* ---- 4. a reply buffer that is too short is told before anything is sent */

static void no_room(uint8_t answer, uint64_t need, uint32_t sent)
{
    CHECK(answer == MOSS_FLASH_NO_ROOM && moss_flash_event_need(u.host.event) == need && u.part.transactions == sent);
    CHECK(moss_flash_event_kind(u.host.event) == MOSS_FLASH_NO_ROOM && !memcmp(u.memory, u.expected, CAPACITY));
}

static void test_short_reply(void)
{
    static const struct job verified = {4096, 3200, 48, 1}, plain = {4096, 3200, 48, 0};
    uint32_t sent;
    size_t room;

    boot(4096);
    sent = u.part.transactions;
    for (room = 0; room < 4096; room += 1 + room / 7) {
        u.host.reply_room = room;
        no_room(save(&verified), 4096, sent);
        if (room < 3200)
            no_room(save(&plain), 3200, sent);
        no_room(moss_flash_host_read(&u.host, 0, u.work, room + 1), room + 1, sent);
        no_room(moss_flash_host_legacy_read(&u.host, 0, u.work, room + 1), room + 1, sent);
        if (room < 2056)
            no_room(moss_flash_host_read_params(&u.host, u.params, sizeof u.params), 2056, sent);
        if (room < 16)
            no_room(moss_flash_host_read_jedec_id(&u.host), 16, sent);
        if (room < 1) {
            no_room(moss_flash_host_erase(&u.host), 1, sent);
            no_room(moss_flash_host_erase_sectors(&u.host, 0, 4096), 1, sent);
            no_room(moss_flash_host_program_data(&u.host, 0, data, 1, u.work, 1), 1, sent);
            no_room(moss_flash_host_init(&u.host), 1, sent);
            configure(4096);
        }
    }
    /* The driver's own refusals come first. */
    u.host.reply_room = 1;
    CHECK(moss_flash_host_read(&u.host, CAPACITY, u.work, 100) == MOSS_FLASH_INVALID_ADDRESS);
    CHECK(moss_flash_host_program(&u.host, CAPACITY, data, 100, 1, u.work, 4096) == MOSS_FLASH_INVALID_ADDRESS);
    CHECK(moss_flash_host_program(&u.host, 0, data, 100, 1, u.work, 4095) == MOSS_FLASH_NO_ROOM);
    CHECK(moss_flash_event_need(u.host.event) == 4096 && u.part.transactions == sent);
    u.host.reply_room = 3200;
    CHECK(save(&plain) == MOSS_FLASH_DONE);
    memcpy(u.expected + 3200, data, 48);
    CHECK(!memcmp(u.memory, u.expected, CAPACITY));
}

/* ---- 5. polls that a slow part gets, and no longer waits than an operation needs */

/* A part that takes exactly the maximum times of its table, at any poll limit. */
static void test_slow_part(uint32_t limit)
{
    static const struct job j = {0, 3200, 48, 1};
    uint8_t p[MOSS_FLASH_PARAMS_SIZE];
    uint64_t before;

    boot(0);
    CHECK(moss_flash_host_set_poll_limit(&u.host, limit) == MOSS_FLASH_DONE);
    CHECK(moss_flash_host_params(&u.host, p) == MOSS_FLASH_DONE);
    u.part.page_us = moss_flash_params_maximum(p, MOSS_FLASH_TIME_PAGE);
    u.part.block_us = moss_flash_type_maximum(moss_flash_params_type(p, 0));
    u.part.chip_us = moss_flash_params_maximum(p, MOSS_FLASH_TIME_CHIP);
    CHECK(u.part.page_us == 3840 && u.part.block_us == 384000 && u.part.chip_us == 64000000);
    before = u.part.clock;
    CHECK(save(&j) == MOSS_FLASH_DONE && u.part.ignored == 0);
    memcpy(u.expected + 3200, data, 48);
    CHECK(!memcmp(u.memory, u.expected, CAPACITY));
    /* 16 pages and a block: at most twice their time, and a poll more */
    CHECK(u.part.clock - before <= 2 * (16 * 3840 + 384000) + 24000 + 200);
    CHECK(moss_flash_host_erase(&u.host) == MOSS_FLASH_DONE && u.memory[0] == 0xFF);
}

/* Nothing is known of the times: a chip erase of 2,688 s, blocks of 13 s; and pages do not wait for it. */
static void test_unknown_times(void)
{
    static const struct job j = {4096, 3200, 48, 1};
    uint64_t before;

    boot(4096);
    CHECK(moss_flash_host_set_poll_limit(&u.host, 65535) == MOSS_FLASH_DONE);
    u.part.page_us = 5000;
    u.part.block_us = 13000000;
    u.part.chip_us = 2688000000u;
    before = u.part.clock;
    CHECK(save(&j) == MOSS_FLASH_DONE && u.part.clock - before < 14000000);
    CHECK(moss_flash_host_erase(&u.host) == MOSS_FLASH_DONE);
    /* What the caller says goes before all else. */
    u.host.page_wait = 1000;
    CHECK(moss_flash_host_set_poll_limit(&u.host, 10) == MOSS_FLASH_DONE);
    CHECK(moss_flash_host_program_data(&u.host, 0, data, 10, u.work, 10) == MOSS_FLASH_BUSY);
    u.host.page_wait = 10000;
    CHECK(moss_flash_host_program_data(&u.host, 0, data, 10, u.work, 10) == MOSS_FLASH_DONE);
    CHECK(!memcmp(u.memory, data, 10));
}

/* ---- 6. spans of many blocks, restore with verify, setters, parameters */

static void test_long_span(void)
{
    struct job j = {256, 100, 4100, 1};
    uint32_t base = 1;
    uint64_t span = 0;

    boot(256);
    CHECK(moss_flash_host_span(&u.host, j.address, j.length, &base, &span) == MOSS_FLASH_DONE);
    CHECK(base == 0 && span == 4352); /* 17 blocks */
    memcpy(u.expected + 100, data, j.length);
    u.part.lost_at = u.part.transactions + 20;
    CHECK(save(&j) == MOSS_FLASH_ACCESS && u.host.touched == 1 && u.host.kept_length == 4352);
    CHECK(way_back(&j, MOSS_FLASH_ACCESS) == MOSS_FLASH_DONE && !memcmp(u.memory, u.expected, CAPACITY));
    CHECK(moss_flash_host_span(&u.host, CAPACITY - 1, 2, &base, &span) == MOSS_FLASH_INVALID_ADDRESS);
    CHECK(moss_flash_event_address(u.host.event) == CAPACITY);
    CHECK(moss_flash_host_set_erase_size(&u.host, 100000) == MOSS_FLASH_DONE); /* two blocks pass the capacity */
    CHECK(moss_flash_host_span(&u.host, 99999, 2, &base, &span) == MOSS_FLASH_INVALID_ADDRESS);
    CHECK(moss_flash_event_address(u.host.event) == 199999);
    CHECK(moss_flash_host_program(&u.host, 99999, data, 2, 0, u.work, sizeof u.work) == MOSS_FLASH_INVALID_ADDRESS);
    CHECK(moss_flash_event_address(u.host.event) == 199999 && base == 0 && span == 4352);
    lay_out();
    CHECK(moss_flash_host_init(&u.host) == MOSS_FLASH_DONE);
    CHECK(moss_flash_host_span(&u.host, 0, 1, &base, &span) == MOSS_FLASH_NO_ERASE_INSTRUCTION);
}

static void test_restore_verifies(void)
{
    static const struct job j = {4096, 3200, 48, 1};

    boot(4096);
    u.part.bad_cell = 3210;
    memcpy(u.expected + 3200, data, 48);
    CHECK(save(&j) == MOSS_FLASH_READBACK_ERROR && u.host.touched == 1);
    CHECK(moss_flash_host_restore(&u.host, 1, u.page, sizeof u.page) == MOSS_FLASH_READBACK_ERROR && u.host.touched == 1);
    CHECK(moss_flash_event_address(u.host.event) == 3210 && moss_flash_event_wrote(u.host.event) == data[10]);
    CHECK(moss_flash_event_read(u.host.event) == 0 && !memcmp(u.work, u.expected, 4096));
    CHECK(moss_flash_host_restore(&u.host, 1, u.page, 0) == MOSS_FLASH_NO_ROOM);
    u.part.bad_cell = SIM_NEVER;
    CHECK(moss_flash_host_restore(&u.host, 1, u.page, sizeof u.page) == MOSS_FLASH_DONE);
    CHECK(!memcmp(u.memory, u.expected, CAPACITY));
}

static void test_setters(void)
{
    uint8_t s[MOSS_FLASH_SETTINGS_SIZE];

    boot(4096);
    CHECK(moss_flash_host_set_address_bytes(&u.host, 5) == MOSS_FLASH_BAD_SETTING);
    CHECK(moss_flash_host_set_address_bytes(&u.host, 4) == MOSS_FLASH_DONE);
    CHECK(moss_flash_host_set_erase_opcode(&u.host, 0x21) == MOSS_FLASH_DONE);
    CHECK(moss_flash_host_settings(&u.host, s) == MOSS_FLASH_DONE && moss_flash_settings_address_bytes(s) == 4);
    CHECK(moss_flash_settings_erase_opcode(s) == 0x21 && moss_flash_settings_capacity_set(s) == 1);
    CHECK(moss_flash_host_clear_capacity(&u.host) == MOSS_FLASH_DONE);
    CHECK(moss_flash_host_settings(&u.host, s) == MOSS_FLASH_DONE && moss_flash_settings_capacity_set(s) == 0);
    memset(&u.host.delay, 0, sizeof u.host.delay);
    CHECK(moss_flash_host_init(&u.host) == MOSS_FLASH_BAD_SETTING);
}

static void test_params(void)
{
    static const uint32_t sizes[4] = {4096, 32768, 65536, 0};
    static const uint8_t opcodes[4] = {0x20, 0x52, 0xD8, 0};
    static const uint64_t typical[4] = {48000, 128000, 256000, 0};
    uint8_t p[MOSS_FLASH_PARAMS_SIZE], none[MOSS_FLASH_PARAMS_SIZE] = {0}, guard[MOSS_FLASH_PARAMS_SIZE + 8];
    unsigned i;

    boot(4096);
    memset(guard, 0xEE, sizeof guard);
    for (i = 0; i < MOSS_FLASH_PARAMS_SIZE; i++) {
        MUST(moss_flash_params(u.host.session, 256, guard, i) == MOSS_FLASH_NO_ROOM);
        MUST(guard[0] == 0xEE && guard[i] == 0xEE);
    }
    CHECK(moss_flash_params(u.host.session, 255, guard, sizeof guard) == MOSS_FLASH_BAD_SESSION && guard[0] == 0xEE);
    CHECK(moss_flash_params(u.host.session, 256, guard, sizeof guard) == MOSS_FLASH_DONE);
    CHECK(!memcmp(guard, none, sizeof none) && guard[MOSS_FLASH_PARAMS_SIZE] == 0xEE);
    boot(0);
    CHECK(moss_flash_host_params(&u.host, p) == MOSS_FLASH_DONE && moss_flash_params_known(p) && moss_flash_params_extended(p));
    CHECK(p[MOSS_FLASH_PARAMS_MAJOR] == 1 && p[MOSS_FLASH_PARAMS_MINOR] == 6 && moss_flash_params_address_bytes(p) == 0);
    CHECK(p[MOSS_FLASH_PARAMS_4K_ERASE] == 1 && p[MOSS_FLASH_PARAMS_4K_OPCODE] == 0x20 && p[MOSS_FLASH_PARAMS_VOLATILE_WE] == 0x50);
    CHECK(p[MOSS_FLASH_PARAMS_VOLATILE_PROTECT] == 0 && p[MOSS_FLASH_PARAMS_GRANULARITY] == 1);
    CHECK(p[MOSS_FLASH_PARAMS_POLL_FLAG] == 0 && p[MOSS_FLASH_PARAMS_POLL_STATUS] == 1);
    CHECK(p[MOSS_FLASH_PARAMS_RESET_F0] == 0 && p[MOSS_FLASH_PARAMS_RESET_66_99] == 1);
    CHECK(p[MOSS_FLASH_PARAMS_EXIT_E9] == 0 && p[MOSS_FLASH_PARAMS_ENTER_B7] == 0);
    CHECK(moss_flash_params_volatility(p) == MOSS_FLASH_VOLATILITY_NON_VOLATILE_06);
    CHECK(moss_flash_params_page_size(p) == 256 && moss_flash_params_density(p) == 8 * CAPACITY);
    for (i = 0; i < 4; i++) {
        const uint8_t *type = moss_flash_params_type(p, i);
        CHECK(moss_flash_type_size(type) == sizes[i] && moss_flash_type_opcode(type) == opcodes[i]);
        CHECK(moss_flash_type_timed(type) == (i < 3) && moss_flash_type_typical(type) == typical[i]);
        CHECK(moss_flash_type_maximum(type) == 8 * typical[i]);
    }
    CHECK(moss_flash_params_typical(p, MOSS_FLASH_TIME_PAGE) == 640 && moss_flash_params_maximum(p, MOSS_FLASH_TIME_PAGE) == 3840);
    CHECK(moss_flash_params_typical(p, MOSS_FLASH_TIME_CHIP) == 8000000);
    CHECK(moss_flash_params_typical(p, MOSS_FLASH_TIME_FIRST_BYTE) == 3 * 8 + 0 ||
          moss_flash_params_typical(p, MOSS_FLASH_TIME_FIRST_BYTE) > 0);
    CHECK(moss_flash_params_maximum(p, MOSS_FLASH_TIME_LATER_BYTE) == 6 * moss_flash_params_typical(p, MOSS_FLASH_TIME_LATER_BYTE));
}

int main(int argc, char **argv)
{
    unsigned programs = argc > 1 ? (unsigned)strtoul(argv[1], NULL, 10) : 50;

    seed_random(7);
    CHECK(moss_flash_version() == MOSS_FLASH_VERSION);
    test_touched_lasts();
    test_breaks();
    test_random_breaks(programs);
    test_warm_start();
    test_busy_after_nine();
    test_kept();
    test_overlap();
    test_short_reply();
    test_slow_part(65535);
    test_slow_part(100);
    test_slow_part(2);
    test_slow_part(1);
    test_unknown_times();
    test_long_span();
    test_restore_verifies();
    test_setters();
    test_params();
    printf("edge: %lu programs broken off, %lu started again, %lu restored, %lu with every byte as it should be at the end\n",
           breaks, started_again, restored, recovered);
    return checks_end("edge");
}
