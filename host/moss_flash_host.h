/*
 * moss_flash_host.h: the host's side of the driver, for a firmware to take as it stands or to copy from.
 *
 * Supply two functions, one that exchanges bytes with the part and one that waits. Each command below starts, carries
 * out every transaction, and gives the command's answer (include/moss_flash.h), or one of the two answers of its own below.
 * Nothing is allocated. docs/MANUAL.md has a complete example.
 */
#ifndef MOSS_FLASH_HOST_H
#define MOSS_FLASH_HOST_H

#include "moss_flash.h"

#ifdef __cplusplus
extern "C" {
#endif

/* ---- answers of the host itself. Nothing was sent, and nothing was changed */

/* A program broke off, and its working buffer holds the only copy of what its span held. This call would overwrite that
 * buffer, or erase or write the flash while the span is not restored. Next: moss_flash_host_restore, or, to give those
 * bytes up, moss_flash_host_forget. */
#define MOSS_FLASH_HOST_KEPT 128

/* Two buffers of this call overlap, or one overlaps h->reply. Next: lend buffers that are apart. */
#define MOSS_FLASH_HOST_OVERLAP 129

/* ---- how long operations may take, in microseconds, where neither the caller nor the part's table says */

#define MOSS_FLASH_HOST_PAGE_WAIT 100000u      /* a page write: 0.1 s */
#define MOSS_FLASH_HOST_BLOCK_WAIT 60000000u   /* a block erase: 60 s */
#define MOSS_FLASH_HOST_CHIP_WAIT 3600000000u  /* a chip erase: an hour */
#define MOSS_FLASH_HOST_IDLE_WAIT 60000000u    /* a part that is busy when it is first met: 60 s */
#define MOSS_FLASH_HOST_RESET_WAIT 100000u     /* waited after a reset */
#define MOSS_FLASH_HOST_IDLE_GAP 1000u         /* between two looks at such a part */

struct moss_flash_host {
    /* ---- set by the caller, before moss_flash_host_init; make all else 0 */

    /* Selects the part, sends head and then payload, reads reply_len bytes into reply, and lets the part go.
     * 0: done. Any other: it could not be done. */
    int (*exchange)(void *context, const uint8_t *head, size_t head_len, const uint8_t *payload, size_t payload_len,
                    uint8_t *reply, size_t reply_len);
    /* Waits at least so many microseconds. A watchdog may be served here. */
    void (*delay)(void *context, uint32_t microseconds);
    /* Sees each transaction after it was carried out; may be NULL. */
    void (*watch)(void *context, const uint8_t *event, int failed);
    void *context;
    /* Where replies land. A command whose longest reply is longer is answered MOSS_FLASH_NO_ROOM with the need before
     * anything is sent: the length of a read, the span of a program that verifies, 2,056 for the parameters, 16 for
     * the ID, 1 for what only polls. */
    uint8_t *reply;
    size_t reply_room;
    /* The longest that a page write, a block erase, a chip erase may take, in microseconds. 0: twice the maximum of the
     * part's own table, and the number above where the table has none. Before each poll the host waits the operation's
     * time divided by the poll limit, so that the limit is never used up earlier. */
    uint64_t page_wait, block_wait, chip_wait;
    /* How long a part that may be busy is waited for before a command. 0: MOSS_FLASH_HOST_IDLE_WAIT. */
    uint64_t idle_wait;

    /* ---- the host's own; to be read, not changed */

    /* 1 from the first 06 of a program that then broke off until its span is restored, or given up; no other command
     * changes it. The flash may hold anything in the span then, and `kept` holds the span as it shall be. 0: the
     * last program is Done, or it broke off with the flash as it was, and may be started again. */
    int touched;
    uint8_t *kept;         /* that program's working buffer; NULL if touched is 0. Do not change its first kept_length bytes */
    uint32_t kept_base;    /* the span's first address */
    uint64_t kept_length;  /* its length */
    int unsettled;         /* 1: the part may be busy, or not back from a reset; it is waited for before the next command */
    int programs;          /* 1 while a program or a restore runs */
    int enabled;           /* 1 after a 06: the next transaction is the operation */
    uint64_t wait;         /* how long that operation may take */
    uint8_t session[MOSS_FLASH_SESSION_SIZE];
    uint8_t event[MOSS_FLASH_EVENT_SIZE];
};

/* Makes a fresh session and waits until the part is idle: it may still be at work for whoever used it before, and a busy
 * part's reads are not its contents. May be called again at any time; what a broken program left is kept.
 * Done; 9 if it is still busy after idle_wait, 8 if it could not be asked (call it again, or reset the part by pin or
 * power); 10 if exchange, delay or reply is missing; 11 if reply_room is 0; 13 if header and archive do not fit. */
uint8_t moss_flash_host_init(struct moss_flash_host *h);

/* ---- settings: the setters of moss_flash.h, and the two records */
uint8_t moss_flash_host_set_address_bytes(struct moss_flash_host *h, uint8_t n);
uint8_t moss_flash_host_set_page_size(struct moss_flash_host *h, uint64_t n);
uint8_t moss_flash_host_set_erase_size(struct moss_flash_host *h, uint64_t n);
uint8_t moss_flash_host_set_erase_opcode(struct moss_flash_host *h, uint8_t opcode);
uint8_t moss_flash_host_set_poll_limit(struct moss_flash_host *h, uint32_t n);
uint8_t moss_flash_host_set_capacity(struct moss_flash_host *h, uint64_t n);
uint8_t moss_flash_host_clear_capacity(struct moss_flash_host *h);
uint8_t moss_flash_host_settings(const struct moss_flash_host *h, uint8_t settings[MOSS_FLASH_SETTINGS_SIZE]);
uint8_t moss_flash_host_params(const struct moss_flash_host *h, uint8_t params[MOSS_FLASH_PARAMS_SIZE]);

/* ---- the commands. The numbers of an answer are read from h->event with the readers of moss_flash.h */
uint8_t moss_flash_host_read(struct moss_flash_host *h, uint32_t address, uint8_t *out, size_t length);
uint8_t moss_flash_host_legacy_read(struct moss_flash_host *h, uint32_t address, uint8_t *out, size_t length);
/* work: 2,056 bytes or more, not the working buffer of a program that broke off. */
uint8_t moss_flash_host_read_params(struct moss_flash_host *h, uint8_t *work, size_t work_len);
uint8_t moss_flash_host_erase(struct moss_flash_host *h);
uint8_t moss_flash_host_erase_sectors(struct moss_flash_host *h, uint32_t address, uint64_t length);
/* After any answer but Done look at h->touched: 0, the flash is as it was; 1, call moss_flash_host_restore. */
uint8_t moss_flash_host_program(struct moss_flash_host *h, uint32_t address, const uint8_t *data, size_t length,
                                uint8_t verify, uint8_t *work, size_t work_len);
uint8_t moss_flash_host_program_data(struct moss_flash_host *h, uint32_t address, const uint8_t *data, size_t length,
                                     uint8_t *work, size_t work_len);
/* Also waits MOSS_FLASH_HOST_RESET_WAIT. An erase or write that was under way leaves anything in its block or page. */
uint8_t moss_flash_host_reset(struct moss_flash_host *h);
uint8_t moss_flash_host_read_jedec_id(struct moss_flash_host *h);
uint8_t moss_flash_host_is_busy(struct moss_flash_host *h);
uint8_t moss_flash_host_is_protected(struct moss_flash_host *h);

/* The span that a program of these bytes erases and writes again: its first address and its length. */
uint8_t moss_flash_host_span(struct moss_flash_host *h, uint32_t address, uint64_t length, uint32_t *base, uint64_t *span);

/* Writes the span of a broken program again from its kept working buffer: waits until the part is idle, erases exactly that
 * span, writes it, and with verify reads it back. page: another buffer, of page_len bytes (1 or more), through which the
 * bytes go a part at a time. Done: touched is 0 again. Any other answer leaves touched and the kept buffer: correct the
 * cause and call it again, as often as it takes. 13 if no program broke off. Also 1, with address, wrote and read. */
uint8_t moss_flash_host_restore(struct moss_flash_host *h, uint8_t verify, uint8_t *page, size_t page_len);

/* Gives up what a broken program kept: the span holds what it holds. */
void moss_flash_host_forget(struct moss_flash_host *h);

/* Carries a command on to its answer. begun: what its start gave. work: its working or out buffer, as long as the start
 * was told. For firmware that calls the starts of moss_flash.h itself; what a program that breaks off here leaves is not
 * kept in touched and kept. */
uint8_t moss_flash_host_run(struct moss_flash_host *h, uint8_t begun, uint8_t *work, size_t work_len);

/* An answer's name, for a log. */
const char *moss_flash_host_answer_name(uint8_t answer);

#ifdef __cplusplus
}
#endif

#endif
