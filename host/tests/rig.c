#include "rig.h"

#include <stdio.h>
#include <stdlib.h>
#include <string.h>

/* ---- checks */

static unsigned long checks_done, checks_failed;

void must(int holds, const char *what, const char *file, int line)
{
    if (!holds && checks_failed++ < 20)
        printf("%s:%d: not so: %s\n", file, line, what);
}

void check(int holds, const char *what, const char *file, int line)
{
    checks_done++;
    must(holds, what, file, line);
}

int checks_end(const char *name)
{
    printf("%s: %lu checks, %lu failed\n", name, checks_done, checks_failed);
    return checks_failed != 0;
}

/* ---- random numbers: splitmix64 */

static uint64_t state = 1;

void seed_random(uint64_t seed)
{
    state = seed;
}

uint64_t random64(void)
{
    uint64_t z = state += 0x9E3779B97F4A7C15u;

    z = (z ^ z >> 30) * 0xBF58476D1CE4E5B9u;
    z = (z ^ z >> 27) * 0x94D049BB133111EBu;
    return z ^ z >> 31;
}

uint64_t below(uint64_t n)
{
    return n ? random64() % n : 0;
}

/* ---- rooms */

static uint8_t guard_byte(size_t i)
{
    return (uint8_t)(0xA7 ^ i * 29);
}

void room_make(struct room *r, size_t length, uint8_t fill)
{
    size_t i;

    r->whole = malloc(length + 2 * GUARD);
    if (!r->whole)
        abort();
    r->bytes = r->whole + GUARD;
    r->length = length;
    memset(r->bytes, fill, length);
    for (i = 0; i < GUARD; i++)
        r->whole[i] = r->bytes[length + i] = guard_byte(i);
}

void room_free(struct room *r)
{
    free(r->whole);
}

int room_guards_stand(const struct room *r)
{
    size_t i;

    for (i = 0; i < GUARD; i++)
        if (r->whole[i] != guard_byte(i) || r->bytes[r->length + i] != guard_byte(i))
            return 0;
    return 1;
}

/* ---- the rig */

const struct twist no_twist = {-1, -1, -1, 0};

void rig_make(struct rig *g, size_t capacity, size_t room)
{
    memset(g, 0, sizeof *g);
    g->memory = malloc(capacity + 1);
    g->reply_room = (capacity > 4096 ? capacity : 4096) + 2;
    g->reply = malloc(g->reply_room);
    if (!g->memory || !g->reply)
        abort();
    room_make(&g->work, room, 0x5A);
    sim_init(&g->part, g->memory, capacity);
    MUST(moss_flash_new(g->session, sizeof g->session) == MOSS_FLASH_DONE);
}

void rig_free(struct rig *g)
{
    MUST(room_guards_stand(&g->work));
    room_free(&g->work);
    free(g->memory);
    free(g->reply);
}

void rig_settings(const struct rig *g, uint8_t *settings)
{
    memset(settings, 0, MOSS_FLASH_SETTINGS_SIZE);
    MUST(moss_flash_settings(g->session, sizeof g->session, settings, MOSS_FLASH_SETTINGS_SIZE) == MOSS_FLASH_DONE);
}

static void put(struct rig *g, const char *text)
{
    size_t length = strlen(text);

    if (g->traced + length + 1 < sizeof g->trace) {
        memcpy(g->trace + g->traced, text, length + 1);
        g->traced += length;
    }
}

static void put_bytes(struct rig *g, const uint8_t *bytes, size_t length)
{
    char text[3];
    size_t i;

    for (i = 0; i < length; i++) {
        sprintf(text, "%02x", bytes[i]);
        put(g, text);
    }
}

static void trace(struct rig *g)
{
    const uint8_t *e = g->event;
    char text[64];

    if (g->traced)
        put(g, " ");
    put_bytes(g, moss_flash_event_head(e), moss_flash_event_head_length(e));
    put_bytes(g, g->work.bytes + moss_flash_event_payload_offset(e), (size_t)moss_flash_event_payload_length(e));
    sprintf(text, "/%llu", (unsigned long long)moss_flash_event_reply(e));
    put(g, text);
    if (moss_flash_event_delay(e)) {
        sprintf(text, " ~%u", moss_flash_event_delay(e));
        put(g, text);
    }
}

/* A transaction's record has the form that moss_flash.h says. */
static void check_transaction(const struct rig *g)
{
    const uint8_t *e = g->event;
    unsigned i;

    MUST(moss_flash_event_kind(e) == MOSS_FLASH_SEND);
    MUST(moss_flash_event_head_length(e) >= 1 && moss_flash_event_head_length(e) <= MOSS_FLASH_HEAD_MOST);
    for (i = moss_flash_event_head_length(e); i < MOSS_FLASH_HEAD_MOST; i++)
        MUST(moss_flash_event_head(e)[i] == 0);
    MUST(moss_flash_event_payload_length(e) <= g->work.length);
    MUST(moss_flash_event_payload_offset(e) <= g->work.length - moss_flash_event_payload_length(e));
    MUST(moss_flash_event_is_poll(e) <= 1 && e[37] == 0 && e[38] == 0 && e[39] == 0);
    MUST(moss_flash_event_polls(e) == 0 && moss_flash_event_a(e) == 0 && moss_flash_event_b(e) == 0);
}

/* A step that is lent a byte too little: 11 with the need and the polls issued, and no byte changed. */
static void lend_too_little(const struct rig *g, size_t reply_len)
{
    uint8_t session[MOSS_FLASH_SESSION_SIZE], event[MOSS_FLASH_EVENT_SIZE] = {0};
    uint8_t *kept = malloc(g->work.length + 1);
    uint64_t need;
    uint8_t now;

    if (!kept)
        abort();
    memcpy(session, g->session, sizeof session);
    memcpy(kept, g->work.bytes, g->work.length);
    now = moss_flash_step(session, sizeof session, 0, g->reply, reply_len, g->work.bytes, 0, event, sizeof event);
    if (now == MOSS_FLASH_NO_ROOM) {
        need = moss_flash_event_need(event);
        CHECK(need >= 1 && need <= g->work.length);
        CHECK(moss_flash_event_polls(event) == g->polls);
        CHECK(!memcmp(session, g->session, sizeof session));
        now = moss_flash_step(session, sizeof session, 1, g->reply, reply_len + 1, g->work.bytes, (size_t)need - 1, event,
                         sizeof event);
        CHECK(now == MOSS_FLASH_NO_ROOM && moss_flash_event_need(event) == need);
        CHECK(!memcmp(session, g->session, sizeof session) && !memcmp(kept, g->work.bytes, g->work.length));
    }
    free(kept);
}

static uint8_t turn(struct rig *g, struct twist t)
{
    const uint8_t *e = g->event;
    size_t wanted = (size_t)moss_flash_event_reply(e), given = wanted;
    int at = (int)g->sent, failed = at == t.fails_at;
    const uint8_t *payload = g->work.bytes + moss_flash_event_payload_offset(e);

    check_transaction(g);
    trace(g);
    g->sent++;
    g->polls += moss_flash_event_is_poll(e);
    if (wanted + 1 > g->reply_room)
        return MOSS_FLASH_ACCESS;
    if (!failed)
        failed = sim_exchange(&g->part, moss_flash_event_head(e), moss_flash_event_head_length(e), payload,
                              (size_t)moss_flash_event_payload_length(e), g->reply, wanted);
    if (at == t.short_at)
        given = wanted ? wanted - 1 : 1;
    if (at == t.long_at)
        given = wanted + 1;
    if (t.poor)
        lend_too_little(g, given);
    return moss_flash_step(g->session, sizeof g->session, (uint8_t)(failed ? 1 + at % 255 : 0), g->reply, given, g->work.bytes,
                      g->work.length, g->event, sizeof g->event);
}

uint8_t rig_run(struct rig *g, uint8_t begun, struct twist t)
{
    uint8_t now = begun;

    g->sent = g->polls = 0;
    g->traced = 0;
    g->trace[0] = 0;
    while (now == MOSS_FLASH_SEND)
        now = turn(g, t);
    CHECK(moss_flash_event_kind(g->event) == now && moss_flash_event_head_length(g->event) == 0 &&
          moss_flash_event_polls(g->event) == g->polls);
    return now;
}

size_t make_area(uint8_t *area, uint8_t minor, const uint32_t *dwords, unsigned count)
{
    static const uint8_t head[16] = {0x53, 0x46, 0x44, 0x50, 6, 1, 0, 0xFF, 0, 0, 1, 0, 16, 0, 0, 0xFF};
    unsigned i, j;

    memcpy(area, head, sizeof head);
    area[9] = minor;
    area[11] = (uint8_t)count;
    for (i = 0; i < count; i++)
        for (j = 0; j < 4; j++)
            area[16 + 4 * i + j] = (uint8_t)(dwords[i] >> 8 * j);
    return 16 + 4 * count;
}
