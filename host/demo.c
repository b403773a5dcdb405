/*
 * A look at the driver without hardware: a simulated part, every transaction in a table. Settings are written beside
 * seeds in one erase block, and the seeds must survive; then the part hangs in the middle of such a write.
 * The exit status is 0 only if all was as it should be.
 */
#include <stdio.h>
#include <string.h>

#include "moss_flash_host.h"
#include "sim_part.h"

#define CAPACITY 1048576u
#define BLOCK 0x3000u    /* the erase block that seeds and settings share */
#define BLOCK_SIZE 4096u
#define SEEDS 256u       /* from the block's first byte on */
#define SETTINGS 0x3200u
#define SETTINGS_SIZE 48u

static uint8_t memory[CAPACITY];
static uint8_t expected[CAPACITY];
static uint8_t work[BLOCK_SIZE];                /* the working buffer of programs, and nothing else */
static uint8_t area[MOSS_FLASH_SFDP_ROOM];      /* where the SFDP area lands */
static uint8_t reply[BLOCK_SIZE];

static struct sim_part part;
static struct moss_flash_host host;
static int shows = 1;      /* whether transactions are printed */
static int programs;       /* whether the command is a program */
static int wrote;          /* whether it has written yet */
static unsigned number;    /* of the transaction, in its command */
static unsigned polls;     /* in a row, not yet printed */
static int wrong;

static void expect(int holds, const char *what)
{
    printf("  %s: %s\n", what, holds ? "yes" : "NO");
    wrong |= !holds;
}

/* ---- the table */

static const char *read_meaning(void)
{
    return !programs ? "read" : wrote ? "read back what was written" : "read what must survive";
}

static const char *meaning(const uint8_t *event)
{
    wrote |= moss_flash_event_head(event)[0] == 0x02;
    switch (moss_flash_event_head(event)[0]) {
    case 0x02: return "write a page, or a part of one";
    case 0x05: return "read the status";
    case 0x06: return "allow one erase or write";
    case 0x0B: return read_meaning();
    case 0x20: return "erase 4 KiB";
    case 0x52: return "erase 32 KiB";
    case 0xD8: return "erase 64 KiB";
    case 0xC7: return "erase the chip";
    case 0x5A: return "read the SFDP area";
    case 0x9F: return "read the ID";
    default: return "other";
    }
}

static void rule(void)
{
    printf("  ---------  -----------------  -------  -------  -----  --------  ------------------------------\n");
}

static void table_head(void)
{
    printf("\n  number     bytes              address  payload  reply  delay us  meaning\n");
    rule();
    number = polls = 0;
    wrote = 0;
}

static void show_polls(void)
{
    char range[24];

    if (!polls)
        return;
    if (polls == 1)
        snprintf(range, sizeof range, "%u", number);
    else
        snprintf(range, sizeof range, "%u to %u", number - polls + 1, number);
    printf("  %-9s  %-17s  %7s  %7s  %5s  %8s  ", range, "05", "", "", "1", "");
    printf(polls == 1 ? "poll the status\n" : "poll the status, %u times\n", polls);
    polls = 0;
}

static void show_number(uint64_t n, int width)
{
    if (n)
        printf("  %*llu", width, (unsigned long long)n);
    else
        printf("  %*s", width, "");
}

static void show_one(const uint8_t *event, int failed)
{
    const uint8_t *head = moss_flash_event_head(event);
    unsigned length = moss_flash_event_head_length(event);
    char bytes[24] = "";
    char address[8] = "";
    unsigned i;

    for (i = 0; i < length; i++)
        sprintf(bytes + 3 * i, "%02X ", head[i]);
    if (length >= 4)
        sprintf(address, "%06X", head[1] * 65536u + head[2] * 256u + head[3]);
    printf("  %-9u  %-17.17s  %7s", number, bytes, address);
    show_number(moss_flash_event_payload_length(event), 7);
    show_number(moss_flash_event_reply(event), 5);
    show_number(moss_flash_event_delay(event), 8);
    printf("  %s%s\n", meaning(event), failed ? " (failed)" : "");
}

static void watch(void *context, const uint8_t *event, int failed)
{
    (void)context;
    if (!moss_flash_event_is_poll(event) && shows)
        show_polls();
    number++;
    if (!shows)
        return;
    if (moss_flash_event_is_poll(event))
        polls++;
    else
        show_one(event, failed);
}

static void table_end(uint8_t answer)
{
    show_polls();
    rule();
    printf("  answer %u, %s; %llu polls\n\n", answer, moss_flash_host_answer_name(answer),
           (unsigned long long)moss_flash_event_polls(host.event));
}

/* ---- the five parts of the show */

static void set_up(void)
{
    unsigned i;

    sim_init(&part, memory, sizeof memory);
    part.busy_polls = 2;
    for (i = 0; i < SEEDS; i++)
        memory[BLOCK + i] = (uint8_t)(i * 7 + 13);
    memcpy(memory + SETTINGS, "name=router-1;boot=a", 20);
    memcpy(expected, memory, sizeof memory);
    host.exchange = sim_exchange;
    host.delay = sim_delay;
    host.watch = watch;
    host.context = &part;
    host.reply = reply;
    host.reply_room = sizeof reply;
    shows = 0;
    expect(moss_flash_host_init(&host) == MOSS_FLASH_DONE, "a fresh session of 256 bytes, and the part is idle");
    shows = 1;
}

static void identify(void)
{
    uint8_t answer;

    printf("\n1. Who is there?\n");
    table_head();
    answer = moss_flash_host_read_jedec_id(&host);
    table_end(answer);
    printf("  manufacturer %02X in bank %u, device %04X\n", moss_flash_event_manufacturer(host.event),
           moss_flash_event_bank(host.event), moss_flash_event_device(host.event));
    expect(answer == MOSS_FLASH_DONE && moss_flash_event_manufacturer(host.event) == 0xEF, "the ID is the part's");
}

static void learn(void)
{
    uint8_t s[MOSS_FLASH_SETTINGS_SIZE] = {0};
    uint8_t answer;

    printf("\n2. What can it do? (the part's SFDP area)\n");
    table_head();
    answer = moss_flash_host_read_params(&host, area, sizeof area);
    table_end(answer);
    expect(moss_flash_host_settings(&host, s) == MOSS_FLASH_DONE, "the settings can be read");
    printf("  %u address bytes, capacity %llu, pages of %u, erase size %u by opcode %02X\n",
           moss_flash_settings_address_bytes(s), (unsigned long long)moss_flash_settings_capacity(s), moss_flash_settings_page_size(s),
           moss_flash_settings_erase_size(s), moss_flash_settings_erase_opcode(s));
    expect(answer == MOSS_FLASH_DONE && moss_flash_settings_capacity(s) == CAPACITY, "the settings are the part's");
}

static void write_beside_seeds(void)
{
    static const uint8_t data[SETTINGS_SIZE] = "name=router-1;boot=b;watchdog=30";
    uint8_t answer;

    printf("\n3. New settings, 48 bytes at 003200. The same 4 KiB block holds 256 bytes of seeds at 003000.\n");
    table_head();
    programs = 1;
    answer = moss_flash_host_program(&host, SETTINGS, data, sizeof data, 1, work, sizeof work);
    programs = 0;
    table_end(answer);
    memcpy(expected + SETTINGS, data, sizeof data);
    expect(answer == MOSS_FLASH_DONE, "written, and read back equal");
    expect(!memcmp(memory + BLOCK, expected + BLOCK, SEEDS), "the seeds survived");
    expect(!memcmp(memory, expected, sizeof memory), "no other byte of the part changed");
}

static void read_back(void)
{
    uint8_t text[SETTINGS_SIZE + 1] = {0};
    uint8_t answer;

    printf("\n4. What is there now?\n");
    table_head();
    answer = moss_flash_host_read(&host, SETTINGS, text, SETTINGS_SIZE);
    table_end(answer);
    printf("  \"%s\"\n", (const char *)text);
    expect(answer == MOSS_FLASH_DONE && !memcmp(text, expected + SETTINGS, SETTINGS_SIZE), "what was written");
}

static void hang(void)
{
    static const uint8_t data[SETTINGS_SIZE] = "name=router-1;boot=a;watchdog=60";
    uint8_t answer;

    printf("\n5. The same again, but the part hangs after the erase. At most 5 polls are allowed.\n");
    expect(moss_flash_host_set_poll_limit(&host, 5) == MOSS_FLASH_DONE, "the limit is set");
    part.stuck_from = part.operations;
    table_head();
    programs = 1;
    answer = moss_flash_host_program(&host, SETTINGS, data, sizeof data, 1, work, sizeof work);
    programs = 0;
    table_end(answer);
    memcpy(expected + SETTINGS, data, sizeof data);
    expect(answer == MOSS_FLASH_BUSY && moss_flash_event_polls(host.event) == 5, "answer 9 after 5 polls, and no hang of ours");
    expect(memory[BLOCK] == 0xFF, "the block is erased: the flash has no seeds now");
    expect(!memcmp(work, expected + BLOCK, BLOCK_SIZE), "the working buffer has the seeds and the new settings");
}

static void recover(void)
{
    uint8_t page[256];
    uint8_t answer;

    printf("\n  The part is ready again. The span is erased and written again from the working buffer, and read back.\n");
    expect(host.touched == 1 && host.kept == work, "the host knows that the block waits to be restored");
    expect(moss_flash_host_program(&host, SETTINGS, work, 1, 0, area, sizeof area) == MOSS_FLASH_HOST_KEPT,
           "and writes nothing else before that");
    sim_unstick(&part);
    shows = 0;
    number = 0;
    answer = moss_flash_host_restore(&host, 1, page, sizeof page);
    printf("  answer %u, %s; %u transactions\n", answer, moss_flash_host_answer_name(answer), number);
    expect(answer == MOSS_FLASH_DONE && !host.touched, "restored");
    expect(!memcmp(memory, expected, sizeof memory), "every byte of the part is as it should be");
}

int main(void)
{
    set_up();
    identify();
    learn();
    write_beside_seeds();
    read_back();
    hang();
    recover();
    printf(wrong ? "\ndemo: something was NOT as it should be\n" : "\ndemo: all as it should be\n");
    return wrong;
}
