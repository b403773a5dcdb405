/*
 * How much stack the exports use: each call runs on a painted stack of its own, and the lowest byte that changed is looked
 * for. The commands run on the simulated part with its SFDP parameters. What is printed is the most of each export.
 */
#define _DEFAULT_SOURCE
#include <stdio.h>
#include <string.h>
#include <ucontext.h>

#include "sim_part.h"
#include "moss_flash.h"

#define STACK 262144
#define PAINT 0xA5
#define CAPACITY 1048576

static uint8_t stack[STACK], memory[CAPACITY], work[65536], reply[65536], slots[64 * MOSS_FLASH_ENTRY_SIZE], data[300];
static uint8_t session[MOSS_FLASH_SESSION_SIZE], event[MOSS_FLASH_EVENT_SIZE], settings[MOSS_FLASH_SETTINGS_SIZE];
static struct sim_part part;
static ucontext_t here, there;
static void (*called)(void);
static uint8_t result;
static size_t reply_len;

#define SESSION session, sizeof session
#define EVENT event, sizeof event

static void nothing(void) { result = 0; }
static void new_session(void) { result = moss_flash_new(SESSION); }
static void set_address_bytes(void) { result = moss_flash_set_address_bytes(SESSION, 3); }
static void set_page_size(void) { result = moss_flash_set_page_size(SESSION, 256); }
static void set_erase_size(void) { result = moss_flash_set_erase_size(SESSION, 4096); }
static void set_erase_opcode(void) { result = moss_flash_set_erase_opcode(SESSION, 0x20); }
static void set_poll_limit(void) { result = moss_flash_set_poll_limit(SESSION, 100); }
static void set_capacity(void) { result = moss_flash_set_capacity(SESSION, CAPACITY); }
static void clear_capacity(void) { result = moss_flash_clear_capacity(SESSION); }
static void get_settings(void) { result = moss_flash_settings(SESSION, settings, sizeof settings); }
static void get_params(void) { result = moss_flash_params(SESSION, slots, sizeof slots); }
static void span(void) { result = moss_flash_span(SESSION, 100, 200000, EVENT); }
static void version(void) { result = moss_flash_version() == MOSS_FLASH_VERSION ? 0 : 1; }
static void tell(void) { result = moss_flash_event(SESSION, EVENT); }
static void read_bytes(void) { result = moss_flash_read(SESSION, 100, 5000, sizeof work, EVENT); }
static void legacy_read(void) { result = moss_flash_legacy_read(SESSION, 100, 5000, sizeof work, EVENT); }
static void read_params(void) { result = moss_flash_read_params(SESSION, sizeof work, EVENT); }
static void erase(void) { result = moss_flash_erase(SESSION, EVENT); }
static void erase_sectors(void) { result = moss_flash_erase_sectors(SESSION, 65536 - 4096, 8192, EVENT); }
static void reset(void) { result = moss_flash_reset(SESSION, EVENT); }
static void read_id(void) { result = moss_flash_read_jedec_id(SESSION, EVENT); }
static void is_busy(void) { result = moss_flash_is_busy(SESSION, EVENT); }
static void is_protected(void) { result = moss_flash_is_protected(SESSION, EVENT); }
static void plan(void) { result = moss_flash_make_erase_plan(SESSION, 100, 200000, slots, sizeof slots, EVENT); }
static void program(void)
{
    result = moss_flash_program(SESSION, 65400, data, sizeof data, 1, work, sizeof work, EVENT);
}
static void program_data(void)
{
    result = moss_flash_program_data(SESSION, 200, data, sizeof data, work, sizeof work, EVENT);
}
static void step(void)
{
    result = moss_flash_step(SESSION, 0, reply, reply_len, work, sizeof work, EVENT);
}

static void enter(void)
{
    called();
}

/* Runs a function on the painted stack; how many bytes of it were used. */
static size_t used_by(void (*f)(void))
{
    size_t i = 0;

    memset(stack, PAINT, sizeof stack);
    getcontext(&there);
    there.uc_stack.ss_sp = stack;
    there.uc_stack.ss_size = sizeof stack;
    there.uc_link = &here;
    called = f;
    makecontext(&there, enter, 0);
    swapcontext(&here, &there);
    while (i < sizeof stack && stack[i] == PAINT)
        i++;
    return sizeof stack - i;
}

struct measured {
    const char *name;
    void (*call)(void);
    size_t most;
};

/* moss_flash_step stands first: every command is carried on by it. */
static struct measured exports[] = {
    {"moss_flash_step", step, 0}, {"moss_flash_new", new_session, 0}, {"moss_flash_set_address_bytes", set_address_bytes, 0},
    {"moss_flash_set_page_size", set_page_size, 0}, {"moss_flash_set_erase_size", set_erase_size, 0},
    {"moss_flash_set_erase_opcode", set_erase_opcode, 0}, {"moss_flash_set_poll_limit", set_poll_limit, 0},
    {"moss_flash_clear_capacity", clear_capacity, 0}, {"moss_flash_set_capacity", set_capacity, 0},
    {"moss_flash_read_params", read_params, 0}, {"moss_flash_settings", get_settings, 0}, {"moss_flash_event", tell, 0},
    {"moss_flash_read", read_bytes, 0}, {"moss_flash_legacy_read", legacy_read, 0}, {"moss_flash_erase", erase, 0},
    {"moss_flash_erase_sectors", erase_sectors, 0}, {"moss_flash_program", program, 0}, {"moss_flash_program_data", program_data, 0},
    {"moss_flash_reset", reset, 0}, {"moss_flash_read_jedec_id", read_id, 0}, {"moss_flash_is_busy", is_busy, 0},
    {"moss_flash_is_protected", is_protected, 0}, {"moss_flash_make_erase_plan", plan, 0},
    {"moss_flash_params", get_params, 0}, {"moss_flash_span", span, 0}, {"moss_flash_version", version, 0},
};

#define EXPORTS (sizeof exports / sizeof exports[0])

static void measure(struct measured *m, size_t base)
{
    size_t used = used_by(m->call) - base;

    if (used > m->most)
        m->most = used;
}

/* Carries what was begun on to its answer. */
static void carry_on(size_t base)
{
    while (result == MOSS_FLASH_SEND) {
        reply_len = (size_t)moss_flash_event_reply(event);
        sim_exchange(&part, moss_flash_event_head(event), moss_flash_event_head_length(event),
                     work + moss_flash_event_payload_offset(event), (size_t)moss_flash_event_payload_length(event), reply, reply_len);
        measure(&exports[0], base);
    }
}

int main(void)
{
    size_t base = used_by(nothing), deepest = 0, i;
    int turn, failed = 0;

    sim_init(&part, memory, sizeof memory);
    part.busy_polls = 2;
    for (turn = 0; turn < 2; turn++)
        for (i = 1; i < EXPORTS; i++) {
            if (turn == 1 && i == 1)
                continue; /* the second time with the parameters known */
            memory[i * 4096 + 9] = 0;
            measure(&exports[i], base);
            carry_on(base);
            failed += result != MOSS_FLASH_DONE;
        }
    for (i = 0; i < EXPORTS; i++) {
        printf("  %-26s %6zu\n", exports[i].name, exports[i].most);
        if (exports[i].most > exports[deepest].most)
            deepest = i;
    }
    printf("deepest: %s, %zu bytes; %d commands were not Done\n", exports[deepest].name, exports[deepest].most, failed);
    return failed != 0;
}
