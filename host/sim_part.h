/*
 * sim_part.h: a flash part in memory, as docs/SCOPE.md models it, for tests and for a look at the driver without hardware.
 *
 * It has memory, a write latch and a number of busy polls left. 06 sets the latch. A block erase sets its block to FF, 02
 * ANDs each byte and wraps in the device page, C7 sets all to FF; each needs the latch and clears it. 05 shows busy in bit
 * 0 and the latch in bit 1, 70 shows ready in bit 7; each of them first lowers the busy polls left. While the part is busy
 * all else is ignored and reads as FF. Beyond the model it can be busy by a clock, hang, and lose transactions.
 */
#ifndef SIM_PART_H
#define SIM_PART_H

#include <stddef.h>
#include <stdint.h>

#define SIM_TYPES 4
#define SIM_NEVER 0xFFFFFFFFu

struct sim_type {
    uint8_t opcode;
    uint32_t size; /* 0: no such type */
};

struct sim_part {
    /* What the part is. */
    uint8_t *memory;
    size_t capacity;
    size_t page;
    uint8_t address_bytes;
    struct sim_type types[SIM_TYPES];
    uint8_t id[16];
    const uint8_t *sfdp; /* FF beyond it */
    size_t sfdp_len;

    /* How it behaves. */
    uint32_t busy_polls;  /* after each erase or write */
    uint32_t stuck_from;  /* from this erase or write on, counted from 0, it never gets ready */
    uint32_t fails_at;    /* this transaction, counted from 0, cannot be carried out; the part does not see it */
    uint32_t fails_for;   /* and so many after it */
    uint32_t lost_at;     /* this one is carried out, but the host is told that it was not */
    uint64_t page_us;     /* how long a page write takes by the clock; 0: busy_polls counts */
    uint64_t block_us;    /* a block erase */
    uint64_t chip_us;     /* a chip erase */
    uint32_t bad_cell;    /* the byte at this address stays 00 */
    uint8_t protect;      /* or-ed into the status that 05 shows */

    /* What it is doing. */
    int latch;
    uint32_t busy_left;
    uint64_t clock;       /* microseconds: 2 for each transaction, and what sim_delay waits */
    uint64_t busy_until;  /* by the clock */
    int stuck;

    /* What it saw. */
    uint32_t transactions;
    uint32_t operations;  /* erases and writes that it took */
    uint32_t polls;       /* 05 and 70 */
    uint32_t ignored;     /* sent while it was busy, or without the latch, or not known */
};

/* The SFDP area of the part below: 1 MiB, 4, 32 and 64 KiB erases, pages of 256, 16 dwords. */
#define SIM_SFDP_SIZE 80
extern const uint8_t sim_sfdp[SIM_SFDP_SIZE];

/* A part of that kind over so much memory, idle, all FF. */
void sim_init(struct sim_part *p, uint8_t *memory, size_t capacity);

/* One transaction, in the form of moss_flash_host.h's exchange; part is a struct sim_part. */
int sim_exchange(void *part, const uint8_t *head, size_t head_len, const uint8_t *payload, size_t payload_len,
                 uint8_t *reply, size_t reply_len);

/* Lets the part's clock go on, in the form of moss_flash_host.h's delay. */
void sim_delay(void *part, uint32_t microseconds);

/* A hang ends. */
void sim_unstick(struct sim_part *p);

#endif
