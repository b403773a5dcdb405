/* The loop that the manual prints, taken out of it as it stands, on a part that takes all the time its table allows. */
#include <stdio.h>
#include <string.h>

#include "manual_loop.c"
#include "sim_part.h"

#define CAPACITY 1048576u

static uint8_t memory[CAPACITY], expected[CAPACITY], work[4096], reply[4096];
static uint8_t session[MOSS_FLASH_SESSION_SIZE], event[MOSS_FLASH_EVENT_SIZE];
static struct sim_part part;
static int wrong;

int exchange(const uint8_t *head, size_t head_len, const uint8_t *payload, size_t payload_len, uint8_t *to, size_t to_len)
{
    return sim_exchange(&part, head, head_len, payload, payload_len, to, to_len);
}

void wait_us(uint64_t microseconds)
{
    part.clock += microseconds;
}

static void expect(int holds, const char *what)
{
    if (!holds)
        printf("loop: not so: %s\n", what);
    wrong |= !holds;
}

int main(void)
{
    static const uint8_t data[48] = "settings";
    uint8_t now;
    size_t i;

    sim_init(&part, memory, CAPACITY);
    for (i = 0; i < CAPACITY; i++)
        expected[i] = memory[i] = (uint8_t)(i * 7 + 1);
    part.page_us = 3840;
    part.block_us = 384000;
    expect(moss_flash_new(session, sizeof session) == MOSS_FLASH_DONE, "a fresh session");
    now = moss_flash_read_params(session, sizeof session, sizeof work, event, sizeof event);
    now = carry_on(now, session, event, work, sizeof work, reply, sizeof reply, 0);
    expect(now == MOSS_FLASH_DONE, "the parameters are read");
    now = moss_flash_program(session, sizeof session, 0x3200, data, sizeof data, 1, work, sizeof work, event, sizeof event);
    now = carry_on(now, session, event, work, sizeof work, reply, sizeof reply, 384000);
    memcpy(expected + 0x3200, data, sizeof data);
    expect(now == MOSS_FLASH_DONE && !memcmp(memory, expected, CAPACITY), "a slow part is waited for");
    now = moss_flash_read_params(session, sizeof session, sizeof work, event, sizeof event);
    reply[15] = 0xA5;
    now = carry_on(now, session, event, work, sizeof work, reply, 15, 0);
    expect(now == MOSS_FLASH_ACCESS && reply[15] == 0xA5, "a reply longer than its buffer is not read");
    return wrong;
}
