/* What the test programs share: counted checks, a random source, and a session on a simulated part with everything traced. */
#ifndef RIG_H
#define RIG_H

#include <stddef.h>
#include <stdint.h>

#include "sim_part.h"
#include "moss_flash.h"

/* ---- checks */

#define CHECK(holds) check((holds) != 0, #holds, __FILE__, __LINE__)
/* A part of a check, which is only counted if it fails. */
#define MUST(holds) must((holds) != 0, #holds, __FILE__, __LINE__)

void check(int holds, const char *what, const char *file, int line);
void must(int holds, const char *what, const char *file, int line);

/* Prints 'NAME: N checks, M failed'; the exit status. */
int checks_end(const char *name);

/* ---- random numbers, the same every time */

void seed_random(uint64_t seed);
uint64_t random64(void);
/* From 0 to n - 1; 0 for n = 0. */
uint64_t below(uint64_t n);

/* ---- a room with guards before and after it */

#define GUARD 64

struct room {
    uint8_t *bytes;
    size_t length;
    uint8_t *whole;
};

void room_make(struct room *r, size_t length, uint8_t fill);
void room_free(struct room *r);
int room_guards_stand(const struct room *r);

/* ---- a session on a simulated part */

#define TRACE_SIZE 65536

struct rig {
    struct sim_part part;
    uint8_t *memory;
    uint8_t session[MOSS_FLASH_SESSION_SIZE];
    uint8_t event[MOSS_FLASH_EVENT_SIZE];
    struct room work;
    uint8_t *reply;
    size_t reply_room;
    unsigned sent;             /* transactions of the command */
    unsigned polls;            /* polls among them */
    char trace[TRACE_SIZE];    /* each transaction: bytes sent in hex, '/', reply length; then '~' and a delay */
    size_t traced;
};

/* What goes wrong on the way; -1 for never. Transactions count from 0. */
struct twist {
    int fails_at;   /* the host reports a failure */
    int short_at;   /* a reply with a byte less; for a reply of none: one byte */
    int long_at;    /* a reply with a byte more */
    int poor;       /* 1: each step is first lent a byte too little */
};

extern const struct twist no_twist;

void rig_make(struct rig *g, size_t capacity, size_t room);
void rig_free(struct rig *g);
/* Carries a command on to its answer. */
uint8_t rig_run(struct rig *g, uint8_t begun, struct twist t);
/* The settings record of the session. */
void rig_settings(const struct rig *g, uint8_t *settings);

/* An SFDP area: one header that points to 16, then so many dwords. Gives its length, 16 + 4 * count. */
size_t make_area(uint8_t *area, uint8_t minor, const uint32_t *dwords, unsigned count);

#endif
