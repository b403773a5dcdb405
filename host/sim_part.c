/* The simulated part. sim_part.h says what it does. */
#include "sim_part.h"

/* JESD216B: signature, one parameter header, the basic table of 16 dwords. */
const uint8_t sim_sfdp[SIM_SFDP_SIZE] = {
    0x53, 0x46, 0x44, 0x50, 0x06, 0x01, 0x00, 0xFF, /* signature, revision 1.6, one header */
    0x00, 0x06, 0x01, 0x10, 0x10, 0x00, 0x00, 0xFF, /* ID FF00, 1.6, 16 dwords at 16 */
    0xE5, 0x20, 0x81, 0xFF,                         /* 1: 4 KiB erase by 20, 3 address bytes */
    0xFF, 0xFF, 0x7F, 0x00,                         /* 2: 8,388,608 bits */
    0x00, 0x00, 0x00, 0x00,                         /* 3 */
    0x08, 0x3B, 0x00, 0x00,                         /* 4 */
    0xEE, 0xFF, 0xFF, 0xFF,                         /* 5 */
    0xFF, 0xFF, 0x00, 0xFF,                         /* 6 */
    0xFF, 0xFF, 0x00, 0xFF,                         /* 7 */
    0x0C, 0x20, 0x0F, 0x52,                         /* 8: 4 KiB by 20, 32 KiB by 52 */
    0x10, 0xD8, 0x00, 0x00,                         /* 9: 64 KiB by D8 */
    0x23, 0x02, 0x06, 0x01,                         /* 10: 48, 128 and 256 ms, at most 8 times that */
    0x82, 0xA9, 0x14, 0xC1,                         /* 11: pages of 256 in 640 us, chip erase in 8 s */
    0x00, 0x00, 0x00, 0x80,                         /* 12 */
    0x00, 0x00, 0x00, 0x00,                         /* 13 */
    0x07, 0x00, 0x00, 0x80,                         /* 14: poll by status 1 */
    0x00, 0x00, 0x00, 0x00,                         /* 15 */
    0x01, 0x10, 0x00, 0x00,                         /* 16: reset by 66, 99 */
};

static void fill(uint8_t *bytes, size_t length, uint8_t value)
{
    size_t i;

    for (i = 0; i < length; i++)
        bytes[i] = value;
}

void sim_init(struct sim_part *p, uint8_t *memory, size_t capacity)
{
    static struct sim_part none; /* all 0 */
    static const struct sim_type types[SIM_TYPES] = {{0x20, 4096}, {0x52, 32768}, {0xD8, 65536}, {0, 0}};
    int i;

    *p = none;
    p->memory = memory;
    p->capacity = capacity;
    p->page = 256;
    p->address_bytes = 3;
    for (i = 0; i < SIM_TYPES; i++)
        p->types[i] = types[i];
    p->id[0] = 0xEF;
    p->id[1] = 0x40;
    p->id[2] = 0x14;
    p->sfdp = sim_sfdp;
    p->sfdp_len = sizeof sim_sfdp;
    p->busy_polls = 1;
    p->stuck_from = p->fails_at = p->lost_at = p->bad_cell = SIM_NEVER;
    fill(memory, capacity, 0xFF);
}

/* The address in a head, of so many bytes. */
static size_t address_of(const uint8_t *head, size_t bytes)
{
    size_t address = 0;
    size_t i;

    for (i = 1; i <= bytes; i++)
        address = address << 8 | head[i];
    return address;
}

/* Whether an erase or write may go on: the latch is set. It is clear afterwards, and the part busy, by the clock if the
 * operation has a time. */
static int begins(struct sim_part *p, uint64_t microseconds)
{
    if (!p->latch) {
        p->ignored++;
        return 0;
    }
    p->latch = 0;
    p->busy_left = microseconds ? 0 : p->busy_polls;
    p->busy_until = p->clock + microseconds;
    p->stuck = p->operations >= p->stuck_from;
    p->operations++;
    return 1;
}

/* A byte that cannot be changed stays as it is. */
static void mind_bad_cell(struct sim_part *p)
{
    if (p->bad_cell < p->capacity)
        p->memory[p->bad_cell] = 0;
}

static void erase_block(struct sim_part *p, size_t address, size_t size)
{
    size_t base = address - address % size;
    size_t i;

    for (i = base; i < base + size && i < p->capacity; i++)
        p->memory[i] = 0xFF;
}

static void write_page(struct sim_part *p, size_t address, const uint8_t *payload, size_t length)
{
    size_t base = address - address % p->page;
    size_t i;

    for (i = 0; i < length; i++) {
        size_t at = base + (address + i) % p->page;
        if (at < p->capacity)
            p->memory[at] &= payload[i];
    }
}

/* Bytes from a place on; FF beyond the last. */
static void read_bytes(const uint8_t *bytes, size_t count, size_t from, uint8_t *reply, size_t length)
{
    size_t i;

    for (i = 0; i < length; i++)
        reply[i] = from + i < count ? bytes[from + i] : 0xFF;
}

static int is_busy(const struct sim_part *p)
{
    return p->busy_left > 0 || p->stuck || p->clock < p->busy_until;
}

/* A poll first lowers the busy polls left; a part that is stuck never lowers its last one. */
static void poll(struct sim_part *p, uint8_t opcode, uint8_t *reply, size_t length)
{
    int busy;

    p->polls++;
    if (p->busy_left > 0 && !p->stuck)
        p->busy_left--;
    busy = is_busy(p);
    if (opcode == 0x05)
        fill(reply, length, (uint8_t)(busy | p->latch << 1 | p->protect));
    else
        fill(reply, length, busy ? 0x00 : 0x80);
}

static const struct sim_type *type_of(const struct sim_part *p, uint8_t opcode)
{
    int i;

    for (i = 0; i < SIM_TYPES; i++)
        if (p->types[i].size && p->types[i].opcode == opcode)
            return &p->types[i];
    return 0;
}

/* A block erase, if the part has one by that opcode. */
static void erase_by(struct sim_part *p, const uint8_t *head)
{
    const struct sim_type *type = type_of(p, head[0]);

    if (!type)
        p->ignored++;
    else if (begins(p, p->block_us))
        erase_block(p, address_of(head, p->address_bytes), type->size);
}

/* A command other than a poll, of a part that is not busy. */
static void act(struct sim_part *p, const uint8_t *head, const uint8_t *payload, size_t payload_len, uint8_t *reply,
                size_t reply_len)
{
    switch (head[0]) {
    case 0x06: p->latch = 1; break;
    case 0x03:
    case 0x0B: read_bytes(p->memory, p->capacity, address_of(head, p->address_bytes), reply, reply_len); break;
    case 0x5A: read_bytes(p->sfdp, p->sfdp_len, address_of(head, 3), reply, reply_len); break;
    case 0x9F: read_bytes(p->id, sizeof p->id, 0, reply, reply_len); break;
    case 0x66: break;
    case 0x99:
    case 0xF0: p->latch = 0; break;
    case 0x02:
        if (begins(p, p->page_us))
            write_page(p, address_of(head, p->address_bytes), payload, payload_len);
        break;
    case 0xC7:
        if (begins(p, p->chip_us))
            fill(p->memory, p->capacity, 0xFF);
        break;
    default: erase_by(p, head); break;
    }
    mind_bad_cell(p);
}

int sim_exchange(void *part, const uint8_t *head, size_t head_len, const uint8_t *payload, size_t payload_len,
                 uint8_t *reply, size_t reply_len)
{
    struct sim_part *p = (struct sim_part *)part;
    uint32_t number = p->transactions++;
    uint8_t bytes[8] = {0};
    size_t i;

    p->clock += 2;
    if (number >= p->fails_at && number - p->fails_at <= p->fails_for)
        return 1;
    for (i = 0; i < head_len && i < sizeof bytes; i++)
        bytes[i] = head[i];
    if (bytes[0] == 0x05 || bytes[0] == 0x70) {
        poll(p, bytes[0], reply, reply_len);
    } else if (is_busy(p)) {
        p->ignored++;
        fill(reply, reply_len, 0xFF);
    } else {
        act(p, bytes, payload, payload_len, reply, reply_len);
    }
    return number == p->lost_at;
}

void sim_delay(void *part, uint32_t microseconds)
{
    struct sim_part *p = (struct sim_part *)part;

    p->clock += microseconds;
}

void sim_unstick(struct sim_part *p)
{
    p->stuck = 0;
    p->stuck_from = SIM_NEVER;
}
