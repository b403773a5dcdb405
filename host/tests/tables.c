/* The SFDP area of an emulated part, made from that of a real one: written, read by the driver, written again. The arguments are files with areas. */
#include <stdio.h>
#include <stdlib.h>
#include <string.h>

#include "rig.h"

#define S(g) (g)->session, sizeof (g)->session
#define E(g) (g)->event, sizeof (g)->event
#define FILL 0x5A

/* A session that has read an area. */
static void read_area(struct rig *g, const uint8_t *area, size_t length)
{
    rig_make(g, 4096, MOSS_FLASH_SFDP_ROOM);
    g->part.sfdp = area;
    g->part.sfdp_len = length;
    CHECK(rig_run(g, moss_flash_read_params(S(g), g->work.length, E(g)), no_twist) == MOSS_FLASH_DONE);
}

static int filled(const struct room *r, size_t from)
{
    size_t i;

    for (i = from; i < r->length; i++)
        if (r->bytes[i] != FILL)
            return 0;
    return room_guards_stand(r);
}

/* A call with so many bytes lent: its answer, and that nothing else is changed. */
static void write_in(const struct rig *g, size_t length, uint8_t answer, uint8_t *table)
{
    uint8_t before[MOSS_FLASH_SESSION_SIZE];
    struct room r;

    memcpy(before, g->session, sizeof before);
    room_make(&r, length, FILL);
    CHECK(moss_flash_write_table(S(g), r.bytes, r.length) == answer);
    CHECK(filled(&r, answer == MOSS_FLASH_DONE ? MOSS_FLASH_TABLE_SIZE : 0));
    CHECK(!memcmp(before, g->session, sizeof before));
    if (answer == MOSS_FLASH_DONE)
        memcpy(table, r.bytes, MOSS_FLASH_TABLE_SIZE);
    room_free(&r);
}

/* The refusals: 15 comes before 11, and 13 before both. */
static void test_refusals(const struct rig *g, uint8_t answer)
{
    struct rig bad = *g;
    uint8_t none[MOSS_FLASH_TABLE_SIZE];
    size_t length;

    for (length = 0; length < MOSS_FLASH_TABLE_SIZE; length++)
        write_in(g, length, answer ? answer : MOSS_FLASH_NO_ROOM, none);
    bad.session[0] ^= 0xFF;
    write_in(&bad, MOSS_FLASH_TABLE_SIZE, MOSS_FLASH_BAD_SESSION, none);
    write_in(&bad, 0, MOSS_FLASH_BAD_SESSION, none);
    CHECK(moss_flash_write_table(g->session, sizeof g->session - 1, none, sizeof none) == MOSS_FLASH_BAD_SESSION);
}

/* What was written is read as the same parameters, and written again as the same bytes; also while a command runs. */
static void test_again(struct rig *g, int same_minor, const uint8_t *table)
{
    uint8_t first[MOSS_FLASH_SETTINGS_SIZE], second[MOSS_FLASH_SETTINGS_SIZE], again[MOSS_FLASH_TABLE_SIZE];
    struct rig e;

    read_area(&e, table, MOSS_FLASH_TABLE_SIZE);
    rig_settings(g, first);
    rig_settings(&e, second);
    CHECK(!memcmp(first, second, sizeof first));
    if (same_minor)
        CHECK(!memcmp(g->session, e.session, sizeof e.session));
    write_in(&e, MOSS_FLASH_TABLE_SIZE, MOSS_FLASH_DONE, again);
    CHECK(!memcmp(table, again, sizeof again));
    CHECK(moss_flash_read_params(S(&e), e.work.length, E(&e)) == MOSS_FLASH_SEND);
    write_in(&e, MOSS_FLASH_TABLE_SIZE + 5, MOSS_FLASH_DONE, again);
    CHECK(!memcmp(table, again, sizeof again));
    rig_free(&e);
}

static void test_area(const uint8_t *area, size_t length)
{
    uint8_t table[MOSS_FLASH_TABLE_SIZE];
    int extended = area[11] >= 16 && area[9] >= 5;
    uint8_t answer = extended ? MOSS_FLASH_DONE : MOSS_FLASH_NO_FORM;
    struct rig g;

    read_area(&g, area, length);
    test_refusals(&g, answer);
    write_in(&g, MOSS_FLASH_TABLE_SIZE, answer, table);
    if (extended)
        test_again(&g, area[9] == 6, table);
    rig_free(&g);
}

/* Without parameters. */
static void test_fresh(void)
{
    uint8_t none[MOSS_FLASH_TABLE_SIZE];
    struct rig g;

    rig_make(&g, 4096, 0);
    write_in(&g, MOSS_FLASH_TABLE_SIZE, MOSS_FLASH_NO_FORM, none);
    test_refusals(&g, MOSS_FLASH_NO_FORM);
    rig_free(&g);
}

int main(int count, char **names)
{
    static uint8_t area[65536];
    int i;

    test_fresh();
    test_area(sim_sfdp, SIM_SFDP_SIZE);
    for (i = 1; i < count; i++) {
        FILE *file = fopen(names[i], "rb");
        size_t length = file ? fread(area, 1, sizeof area, file) : 0;

        CHECK(length > 16);
        if (length > 16)
            test_area(area, length);
        if (file)
            fclose(file);
    }
    return checks_end("tables");
}
