/*
 * Calls every export with sessions that are whole, flipped, cut, spliced or random, and with random arguments.
 *
 *   fuzz COUNT [SEED]
 *
 * COUNT is the least number of calls. Checked at each: no crash, where every lent slice ends at a page that cannot be touched
 * and has guard bytes before it; the result is in the table; what is lent for reading is as before; after 5, 6, 7, 10, 11
 * and 13 so is all else but the event record; an event record has its form; what is handed back is accepted, and what is
 * accepted is packed again to the same bytes. Besides, whole commands are run with random replies and must end within
 * docs/SCOPE.md's bounds.
 */
#define _DEFAULT_SOURCE
#include <stdio.h>
#include <stdlib.h>
#include <string.h>
#include <sys/mman.h>
#include <time.h>
#include <unistd.h>

#include "rig.h"

/* ---- slices that end at a page which cannot be touched */

#define MOST 8192
#define BEFORE 32

struct fence {
    uint8_t *end;
    uint8_t *at;     /* the slice of this call */
    size_t length;
    uint8_t copy[MOST];
};

enum { SESSION, EVENT, WORK, REPLY, DATA, SLOTS, FENCES };

static struct fence fences[FENCES];

static void fence_make(struct fence *f)
{
    size_t page = (size_t)sysconf(_SC_PAGESIZE);
    size_t size = (MOST + BEFORE + page - 1) / page * page;
    uint8_t *bytes = mmap(NULL, size + page, PROT_READ | PROT_WRITE, MAP_PRIVATE | MAP_ANONYMOUS, -1, 0);

    if (bytes == MAP_FAILED || mprotect(bytes + size, page, PROT_NONE))
        abort();
    f->end = bytes + size;
}

/* Lends a slice of so many bytes; what is in it stays. */
static uint8_t *lend(int which, size_t length)
{
    struct fence *f = &fences[which];

    f->length = length;
    f->at = f->end - length;
    memset(f->at - BEFORE, 0xB7, BEFORE);
    return f->at;
}

static void remember(void)
{
    int i;

    for (i = 0; i < FENCES; i++)
        memcpy(fences[i].copy, fences[i].at, fences[i].length);
}

static int unchanged(int which)
{
    return !memcmp(fences[which].copy, fences[which].at, fences[which].length);
}

static int guards_stand(void)
{
    static uint8_t guard[BEFORE];
    int i;

    memset(guard, 0xB7, BEFORE);
    for (i = 0; i < FENCES; i++)
        if (memcmp(fences[i].at - BEFORE, guard, BEFORE))
            return 0;
    return 1;
}

/* ---- sessions that earlier calls handed back */

#define POOL 64

struct live {
    uint8_t session[MOSS_FLASH_SESSION_SIZE];
    uint8_t event[MOSS_FLASH_EVENT_SIZE];   /* what it told last */
};

static struct live pool[POOL];
static struct live *live;
static unsigned long calls, longest, results[256];

enum { WHOLE, CHANGED, RANDOM, CUT };

/* Lends a session, most often a whole one. Gives what was done to it. */
static int lend_session(void)
{
    uint8_t *s = lend(SESSION, MOSS_FLASH_SESSION_SIZE);
    unsigned i, times;

    live = &pool[below(POOL)];
    memcpy(s, live->session, MOSS_FLASH_SESSION_SIZE);
    switch (below(16)) {
    case 0:
    case 1:
        for (times = 1 + (unsigned)below(below(2) ? 1 : 6); times > 0; times--)
            s[below(MOSS_FLASH_SESSION_SIZE)] ^= (uint8_t)(1u << below(8));
        return CHANGED;
    case 2:
        s[below(MOSS_FLASH_SESSION_SIZE)] = (uint8_t)random64();
        return CHANGED;
    case 3:
        i = (unsigned)below(MOSS_FLASH_SESSION_SIZE);
        memcpy(s + i, pool[below(POOL)].session + i, below(MOSS_FLASH_SESSION_SIZE - i + 1));
        return CHANGED;
    case 4:
        for (i = 0; i < MOSS_FLASH_SESSION_SIZE; i++)
            s[i] = (uint8_t)random64();
        return RANDOM;
    case 5:
        s = lend(SESSION, (size_t)below(300));
        return fences[SESSION].length == MOSS_FLASH_SESSION_SIZE ? CHANGED : CUT;
    default:
        return WHOLE;
    }
}

/* ---- arguments */

static uint64_t some_number(void)
{
    switch (below(6)) {
    case 0: return below(4);
    case 1: return ((uint64_t)1 << below(64)) - below(2);
    case 2: return random64();
    case 3: return below(70000);
    default: return below(5000);
    }
}

static uint32_t some_address(void)
{
    return (uint32_t)(below(8) ? below(70000) : some_number() - below(2));
}

/* A length for a plan: short, so that the plan is short whatever the erase size is, or past every limit. */
static uint64_t some_plan_length(void)
{
    return below(10) ? below(5000) : ((uint64_t)1 << 33) + random64() / 2;
}

static size_t some_room(size_t most)
{
    return (size_t)(below(5) ? most : below(most + 1));
}

static void lend_event(void)
{
    size_t length = below(12) ? MOSS_FLASH_EVENT_SIZE + (size_t)below(3) : (size_t)below(MOSS_FLASH_EVENT_SIZE);

    memset(lend(EVENT, length), 0xEE, length);
}

/* The reply to what the session told last, most often of the right length. */
static void lend_reply(void)
{
    uint64_t wanted = moss_flash_event_reply(live->event);
    size_t length = (size_t)(wanted < MOST ? wanted : MOST);
    static const uint8_t bytes[] = {0x00, 0x80, 0x01, 0x7F, 0xFF};
    uint8_t byte = (uint8_t)(below(4) ? bytes[below(5)] : random64());
    uint8_t *r;

    if (below(16) == 0)
        length = (size_t)below(MOST + 1);
    r = lend(REPLY, length);
    memset(r, byte, length);
    if (length > 4 && byte < 2)
        memcpy(r, "SFDP", 4);
    if (length > 20 && byte < 2 && below(2))
        memcpy(r, sim_sfdp, length < SIM_SFDP_SIZE ? length : SIM_SFDP_SIZE);
    if (length && below(2))
        r[below(length)] = (uint8_t)random64();
}

static void lend_all(void)
{
    lend_event();
    lend_reply();
    lend(WORK, some_room(MOST));
    lend(DATA, (size_t)below(below(4) ? 64 : 4097));
    lend(SLOTS, (size_t)below(below(2) ? 40 : 400));
}

/* ---- one call */

#define AT(which) fences[which].at, fences[which].length

enum { STEP, TELL, NEW, SETTER, GETTER, READ, LEGACY, PARAMS, ERASE, SECTORS, PROGRAM, WRITE, RESET, ID, BUSY, PROTECTED,
       SHOWN, SPAN, PLAN, EXPORTS };

static uint8_t call_setter(void)
{
    switch (below(7)) {
    case 0: return moss_flash_set_address_bytes(AT(SESSION), (uint8_t)below(below(4) ? 6 : 256));
    case 1: return moss_flash_set_page_size(AT(SESSION), some_number());
    case 2: return moss_flash_set_erase_size(AT(SESSION), some_number());
    case 3: return moss_flash_set_erase_opcode(AT(SESSION), (uint8_t)random64());
    case 4: return moss_flash_set_poll_limit(AT(SESSION), (uint32_t)(below(3) ? below(5) : some_number()));
    case 5: return moss_flash_set_capacity(AT(SESSION), some_number());
    default: return moss_flash_clear_capacity(AT(SESSION));
    }
}

static uint8_t call(int which)
{
    uint32_t address = some_address();

    switch (which) {
    case STEP: return moss_flash_step(AT(SESSION), below(16) == 0, AT(REPLY), AT(WORK), AT(EVENT));
    case TELL: return moss_flash_event(AT(SESSION), AT(EVENT));
    case NEW: return moss_flash_new(AT(SESSION));
    case SETTER: return call_setter();
    case GETTER: return moss_flash_settings(AT(SESSION), AT(SLOTS));
    case READ: return moss_flash_read(AT(SESSION), address, some_number(), some_number(), AT(EVENT));
    case LEGACY: return moss_flash_legacy_read(AT(SESSION), address, some_number(), some_number(), AT(EVENT));
    case PARAMS: return moss_flash_read_params(AT(SESSION), below(4) ? MOST : some_number(), AT(EVENT));
    case ERASE: return moss_flash_erase(AT(SESSION), AT(EVENT));
    case SECTORS: return moss_flash_erase_sectors(AT(SESSION), address, some_plan_length(), AT(EVENT));
    case PROGRAM: return moss_flash_program(AT(SESSION), address, AT(DATA), (uint8_t)below(3), AT(WORK), AT(EVENT));
    case WRITE: return moss_flash_program_data(AT(SESSION), address, AT(DATA), AT(WORK), AT(EVENT));
    case RESET: return moss_flash_reset(AT(SESSION), AT(EVENT));
    case ID: return moss_flash_read_jedec_id(AT(SESSION), AT(EVENT));
    case BUSY: return moss_flash_is_busy(AT(SESSION), AT(EVENT));
    case PROTECTED: return moss_flash_is_protected(AT(SESSION), AT(EVENT));
    case SHOWN: return moss_flash_params(AT(SESSION), AT(SLOTS));
    case SPAN: return moss_flash_span(AT(SESSION), address, some_plan_length(), AT(EVENT));
    default: return moss_flash_make_erase_plan(AT(SESSION), address, some_plan_length(), AT(SLOTS), AT(EVENT));
    }
}

static unsigned long now_ns(void)
{
    struct timespec t;

    clock_gettime(CLOCK_MONOTONIC, &t);
    return (unsigned long)t.tv_sec * 1000000000ul + (unsigned long)t.tv_nsec;
}

static uint8_t timed_call(int which)
{
    unsigned long begun = now_ns(), taken;
    uint8_t result = call(which);

    taken = now_ns() - begun;
    if (taken > longest)
        longest = taken;
    calls++;
    results[result]++;
    return result;
}

/* ---- what must hold after a call */

static int is_refusal(uint8_t r)
{
    return (r >= MOSS_FLASH_INVALID_ADDRESS && r <= MOSS_FLASH_NO_ERASE_INSTRUCTION) || r == MOSS_FLASH_BAD_SETTING ||
           r == MOSS_FLASH_NO_ROOM || r == MOSS_FLASH_BAD_SESSION;
}

static int has_event(int which)
{
    return which != NEW && which != SETTER && which != GETTER && which != SHOWN;
}

/* Whether an event record has its form; the payload lies in so many bytes of room. */
static int event_stands(const uint8_t *e, uint8_t kind, uint64_t room)
{
    int i, zero = 1;

    if (moss_flash_event_kind(e) != kind || e[37] || e[38] || e[39])
        return 0;
    if (kind != MOSS_FLASH_SEND) {
        for (i = 1; i < MOSS_FLASH_EVENT_POLLS; i++)
            zero &= e[i] == 0;
        return zero;
    }
    for (i = MOSS_FLASH_EVENT_HEAD + moss_flash_event_head_length(e); i < MOSS_FLASH_EVENT_REPLY; i++)
        zero &= e[i] == 0;
    return zero && moss_flash_event_head_length(e) >= 1 && moss_flash_event_head_length(e) <= MOSS_FLASH_HEAD_MOST &&
           moss_flash_event_is_poll(e) <= 1 && moss_flash_event_polls(e) == 0 && moss_flash_event_a(e) == 0 && moss_flash_event_b(e) == 0 &&
           moss_flash_event_payload_length(e) <= room && moss_flash_event_payload_offset(e) <= room - moss_flash_event_payload_length(e);
}

/* The event record after a call: as it was, or whole. */
static void check_event(int which, uint8_t r)
{
    const struct fence *f = &fences[EVENT];
    int lends_room = which == STEP || which == PROGRAM || which == WRITE;

    if (unchanged(EVENT)) {
        MUST(r == MOSS_FLASH_BAD_SESSION || (r == MOSS_FLASH_NO_ROOM && f->length < MOSS_FLASH_EVENT_SIZE));
        return;
    }
    MUST(f->length >= MOSS_FLASH_EVENT_SIZE && event_stands(f->at, r, lends_room ? fences[WORK].length : ~(uint64_t)0));
    MUST(!memcmp(f->at + MOSS_FLASH_EVENT_SIZE, f->copy + MOSS_FLASH_EVENT_SIZE, f->length - MOSS_FLASH_EVENT_SIZE));
}

static void check_buffers(int which, uint8_t r)
{
    int writes_work = which == STEP || which == PROGRAM || which == WRITE;
    int writes_slots = (which == PLAN || which == GETTER || which == SHOWN) && r == MOSS_FLASH_DONE;
    int writes_session = which != TELL && which != GETTER && which != SHOWN && which != SPAN && which != PLAN;

    CHECK(guards_stand() && unchanged(REPLY) && unchanged(DATA));
    MUST(unchanged(WORK) || (writes_work && !is_refusal(r)));
    MUST(unchanged(SLOTS) || writes_slots);
    MUST(unchanged(SESSION) || (writes_session && !is_refusal(r)));
}

/* A session that is accepted and whose command is over is packed again as it was, byte for byte. */
static void check_packed(void)
{
    uint8_t s[MOSS_FLASH_SETTINGS_SIZE] = {0}, copy[MOSS_FLASH_SESSION_SIZE];

    memcpy(copy, fences[SESSION].at, sizeof copy);
    calls += 2;
    MUST(moss_flash_settings(AT(SESSION), s, sizeof s) == MOSS_FLASH_DONE && !moss_flash_settings_runs(s));
    MUST(moss_flash_set_erase_opcode(AT(SESSION), moss_flash_settings_erase_opcode(s)) == MOSS_FLASH_DONE);
    MUST(!memcmp(copy, fences[SESSION].at, sizeof copy));
}

/* Keeps what was handed back, which must be accepted and tell the same. */
static void keep(int which, uint8_t r)
{
    uint8_t event[MOSS_FLASH_EVENT_SIZE];
    uint8_t told = moss_flash_event(AT(SESSION), event, sizeof event);

    calls++;
    MUST(told <= MOSS_FLASH_BAD_SESSION || told == MOSS_FLASH_SEND);
    MUST(unchanged(SESSION) || told != MOSS_FLASH_BAD_SESSION);
    if (told == MOSS_FLASH_BAD_SESSION)
        return;
    MUST(event_stands(event, told, ~(uint64_t)0));
    if (r == MOSS_FLASH_SEND || (which == STEP && !is_refusal(r)))
        MUST(told == r && (fences[EVENT].length < MOSS_FLASH_EVENT_SIZE || !memcmp(event, fences[EVENT].at, sizeof event)));
    if (told != MOSS_FLASH_SEND)
        check_packed();
    memcpy(live->session, fences[SESSION].at, MOSS_FLASH_SESSION_SIZE);
    memcpy(live->event, event, sizeof event);
}

/* A command that needs more room than is ever lent would never get on. */
static void renew(void)
{
    moss_flash_new(live->session, MOSS_FLASH_SESSION_SIZE);
    moss_flash_event(live->session, MOSS_FLASH_SESSION_SIZE, live->event, MOSS_FLASH_EVENT_SIZE);
    calls += 2;
}

static int some_export(void)
{
    if (below(2))
        return STEP;
    return (int)below(EXPORTS);
}

static void one_call(void)
{
    int done = lend_session();
    int which = some_export();
    uint8_t r;

    if (which == NEW && below(16))
        which = SETTER;
    lend_all();
    remember();
    r = timed_call(which);
    MUST(r <= MOSS_FLASH_BAD_SESSION || r == MOSS_FLASH_SEND);
    MUST(done != CUT || r == MOSS_FLASH_BAD_SESSION);
    MUST(done != RANDOM || r == MOSS_FLASH_BAD_SESSION || which == NEW);
    check_buffers(which, r);
    if (has_event(which))
        check_event(which, r);
    /* 13 for bad bytes tells nothing in the event record; 13 because a command runs does, where the record has room. */
    if (has_event(which) && r == MOSS_FLASH_BAD_SESSION && done != CHANGED)
        MUST(unchanged(EVENT) == (done != WHOLE || fences[EVENT].length < MOSS_FLASH_EVENT_SIZE));
    if (fences[SESSION].length == MOSS_FLASH_SESSION_SIZE && (done == WHOLE || below(2)))
        keep(which, r);
    if (which == STEP && r == MOSS_FLASH_NO_ROOM && done == WHOLE && below(2))
        renew();
}

/* ---- whole commands: random settings and replies, and docs/SCOPE.md's bounds */

struct bounded {
    int which;
    uint32_t address, limit;
    uint64_t length, most;
};

static void some_settings(struct bounded *b)
{
    static const uint64_t pages[] = {1, 3, 16, 64, 256, 4096};
    static const uint64_t sizes[] = {1, 5, 64, 256, 1000, 4096};

    b->limit = 1 + (uint32_t)below(5);
    moss_flash_new(lend(SESSION, MOSS_FLASH_SESSION_SIZE), MOSS_FLASH_SESSION_SIZE);
    moss_flash_set_poll_limit(AT(SESSION), b->limit);
    moss_flash_set_address_bytes(AT(SESSION), (uint8_t)(2 + below(3)));
    moss_flash_set_page_size(AT(SESSION), pages[below(6)]);
    moss_flash_set_erase_size(AT(SESSION), sizes[below(6)]);
    calls += 5;
}

/* How many pages a write from one address up to another meets. */
static uint64_t pages_met(uint64_t from, uint64_t to)
{
    uint8_t s[MOSS_FLASH_SETTINGS_SIZE] = {0};
    uint64_t page;

    moss_flash_settings(AT(SESSION), s, sizeof s);
    calls++;
    page = moss_flash_settings_page_size(s) ? moss_flash_settings_page_size(s) : 256;
    return from < to ? (to - 1) / page - from / page + 1 : 0;
}

/* The plan's entries, and its span. */
static uint64_t entries_of(const struct bounded *b, uint64_t *from, uint64_t *to)
{
    static uint8_t slots[MOST * MOSS_FLASH_ENTRY_SIZE];
    uint8_t event[MOSS_FLASH_EVENT_SIZE] = {0};
    uint8_t *last;

    calls++;
    *from = *to = 0;
    if (moss_flash_make_erase_plan(AT(SESSION), b->address, b->length, slots, sizeof slots, event, sizeof event))
        return 0;
    last = slots + (moss_flash_event_count(event) - 1) * MOSS_FLASH_ENTRY_SIZE;
    *from = moss_flash_entry_base(slots);
    *to = (uint64_t)moss_flash_entry_base(last) + moss_flash_entry_size(last);
    return moss_flash_event_count(event);
}

static uint8_t start_bounded(struct bounded *b)
{
    static const int kinds[] = {READ, PARAMS, ERASE, SECTORS, PROGRAM, PROGRAM, WRITE, RESET, ID, BUSY, PROTECTED};
    uint64_t from, to, entries;

    b->which = kinds[below(11)];
    b->address = (uint32_t)below(30000);
    b->length = 1 + below(3000);
    entries = entries_of(b, &from, &to);
    lend(DATA, (size_t)b->length);
    lend(WORK, MOST);
    lend(EVENT, MOSS_FLASH_EVENT_SIZE);
    calls++;
    switch (b->which) {
    case READ: b->most = 1; return moss_flash_read(AT(SESSION), b->address, b->length, MOST, AT(EVENT));
    case PARAMS: b->most = 3; return moss_flash_read_params(AT(SESSION), MOST, AT(EVENT));
    case ERASE: b->most = 2 + b->limit; return moss_flash_erase(AT(SESSION), AT(EVENT));
    case SECTORS:
        b->most = entries * (2 + b->limit);
        return moss_flash_erase_sectors(AT(SESSION), b->address, b->length, AT(EVENT));
    case PROGRAM:
        b->most = 4 + (entries + pages_met(from, to)) * (2 + b->limit);
        return moss_flash_program(AT(SESSION), b->address, AT(DATA), (uint8_t)below(2), AT(WORK), AT(EVENT));
    case WRITE:
        b->most = pages_met(b->address, b->address + b->length) * (2 + b->limit);
        return moss_flash_program_data(AT(SESSION), b->address, AT(DATA), AT(WORK), AT(EVENT));
    case RESET: b->most = 2; return moss_flash_reset(AT(SESSION), AT(EVENT));
    case ID: b->most = 2; return moss_flash_read_jedec_id(AT(SESSION), AT(EVENT));
    case BUSY: b->most = 1; return moss_flash_is_busy(AT(SESSION), AT(EVENT));
    default: b->most = 1; return moss_flash_is_protected(AT(SESSION), AT(EVENT));
    }
}

/* A reply of the right length; polls are ready three times in four, so that long commands get on. */
static uint8_t step_bounded(struct live *l)
{
    uint8_t status = (uint8_t)(below(4) ? 0x80 : 0x01);
    uint8_t now;

    memcpy(l->event, fences[EVENT].at, MOSS_FLASH_EVENT_SIZE);
    live = l;
    lend_reply();
    if (moss_flash_event_reply(l->event) < MOST)
        lend(REPLY, (size_t)moss_flash_event_reply(l->event));
    if (moss_flash_event_is_poll(l->event))
        fences[REPLY].at[0] = status;
    calls++;
    now = moss_flash_step(AT(SESSION), below(500) == 0, AT(REPLY), AT(WORK), AT(EVENT));
    results[now]++;
    return now;
}

static void one_command(void)
{
    static struct live l;
    struct bounded b;
    uint64_t sent = 0, polls = 0;
    uint8_t now;

    some_settings(&b);
    now = start_bounded(&b);
    while (now == MOSS_FLASH_SEND && sent <= b.most) {
        polls += moss_flash_event_is_poll(fences[EVENT].at);
        sent++;
        now = step_bounded(&l);
    }
    CHECK(now <= MOSS_FLASH_BAD_SESSION && sent <= b.most);
    MUST(moss_flash_event_polls(fences[EVENT].at) == polls);
    MUST(!is_refusal(now) || sent == 0);
}

/* How often each result came, so that it is seen what was reached. */
static void show_results(void)
{
    int i;

    printf("fuzz: results");
    for (i = 0; i <= MOSS_FLASH_BAD_SESSION; i++)
        printf(" %d: %lu,", i, results[i]);
    printf(" send: %lu\n", results[MOSS_FLASH_SEND]);
}

int main(int argc, char **argv)
{
    unsigned long count = argc > 1 ? strtoul(argv[1], NULL, 10) : 300000;
    unsigned long begun = now_ns();
    int i;

    seed_random(argc > 2 ? strtoull(argv[2], NULL, 10) : 1);
    for (i = 0; i < FENCES; i++) {
        fence_make(&fences[i]);
        lend(i, 0);
    }
    for (i = 0; i < POOL; i++) {
        moss_flash_new(pool[i].session, MOSS_FLASH_SESSION_SIZE);
        moss_flash_event(pool[i].session, MOSS_FLASH_SESSION_SIZE, pool[i].event, MOSS_FLASH_EVENT_SIZE);
    }
    while (calls < count) {
        one_call();
        if (below(400) == 0)
            one_command();
    }
    printf("fuzz: %lu calls in %.1f seconds, the longest %lu us\n", calls, (double)(now_ns() - begun) / 1e9,
           longest / 1000);
    show_results();
    return checks_end("fuzz");
}
