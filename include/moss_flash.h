/*
 * moss_flash.h: the C interface of the proved SPI NOR flash driver (x86-64 only).
 *
 * The driver never touches the bus and never waits. A session is 256 bytes that the caller lends. Start a command; while
 * the result is MOSS_FLASH_SEND, carry out the transaction in the event record and hand its reply to moss_flash_step; any
 * other result is the command's answer. host/moss_flash_host.c is that loop. docs/MANUAL.md is the manual.
 *
 * Rules for every call:
 *   - A slice is a pointer and a number of bytes. The pointer is valid for that many bytes. Where the number is 0 the
 *     pointer is not used.
 *   - No slice that a call may write overlaps another slice of that call.
 *   - No pointer is kept after the call. Nothing is allocated. No call waits.
 *   - One session is used by one thread at a time. Two sessions know nothing of each other.
 * Numbers in the records are little-endian.
 */
#ifndef MOSS_FLASH_H
#define MOSS_FLASH_H

#include <stddef.h>
#include <stdint.h>

#ifdef __cplusplus
extern "C" {
#endif

/* ---- version: major, minor, patch, a byte each. It changes with this interface */

#define MOSS_FLASH_VERSION 0x000200u

/* The version of the archive. If it is not MOSS_FLASH_VERSION, header and archive are of different releases. */
uint32_t moss_flash_version(void);

/* ---- sizes, in bytes */

#define MOSS_FLASH_SESSION_SIZE 256  /* a session, exactly */
#define MOSS_FLASH_EVENT_SIZE 64     /* an event record, at least */
#define MOSS_FLASH_SETTINGS_SIZE 32  /* a settings record, at least */
#define MOSS_FLASH_PARAMS_SIZE 192   /* a parameters record, at least */
#define MOSS_FLASH_ENTRY_SIZE 16     /* one entry of an erase plan */
#define MOSS_FLASH_SFDP_ROOM 2056    /* the working buffer of moss_flash_read_params, at least; also its longest reply */
#define MOSS_FLASH_ID_REPLY 16       /* the longest reply of moss_flash_read_jedec_id */
#define MOSS_FLASH_HEAD_MOST 6       /* the longest head of a transaction */

/* ---- results
 *
 * Each function gives one of these. "Refused" means: no transaction was issued, and no byte of the session or of a lent
 * buffer changed, but for the event record, which tells the answer.
 */

/* Not an answer: carry out the transaction in the event record, then call moss_flash_step. */
#define MOSS_FLASH_SEND 255

/* The command finished, or the setter took its value.
 * Left: what the command was to do is done. Next: go on. */
#define MOSS_FLASH_DONE 0

/* Verify found a byte that is not what was written: address, wrote, read in the event record.
 * Left: all is erased and written; the working buffer holds every byte of the span as it should be; settings as before.
 * Next: erase the span and write it again from the working buffer (moss_flash_host_restore); if that does not verify
 * either, the block is worn or protected. */
#define MOSS_FLASH_READBACK_ERROR 1

/* The ID has no manufacturer: byte 0 of the short reply is 7F, and so are bytes 1 to 13 of the long one.
 * Left: settings as before. Next: check the wiring; a bus that is stuck high or a wrong mode reads like this. */
#define MOSS_FLASH_INVALID_MANUFACTURER 2

/* The first SFDP parameter header is not the basic table (ID FF00) or its major is not 1.
 * Left: settings and parameters as before. Next: set sizes by hand, or reject the part. */
#define MOSS_FLASH_INVALID_SFDP_HEADER 3

/* The basic table is too short (under 9 dwords) or has a size or density exponent that cannot be.
 * Left: settings and parameters as before. Next: set sizes by hand, or reject the part. */
#define MOSS_FLASH_INVALID_SFDP_PARAMS 4

/* The range is empty, or passes the address bytes' limit or the capacity; or the plan's span does.
 * The reported address is in the event record. Refused. Next: correct the range, the capacity or the address bytes. */
#define MOSS_FLASH_INVALID_ADDRESS 5

/* The parameters rule out both ways of a software reset. Refused. Next: reset by pin or by power. */
#define MOSS_FLASH_NO_RESET_INSTRUCTION 6

/* The parameters give no erase type and no erase size is set. Refused.
 * Next: moss_flash_set_erase_size and moss_flash_set_erase_opcode by the data sheet. */
#define MOSS_FLASH_NO_ERASE_INSTRUCTION 7

/* The host said that the transaction failed, or the reply has another length than was asked.
 * Left: the command is over; the flash is as the transactions before left it, and the failed one may or may not have
 * acted. After a program the working buffer keeps the restore data gathered so far: all of it, once a 06 was sent. An out
 * buffer of a read is as before. Settings as before. Next: repair the bus; wait until the part is idle; if a program had
 * sent a 06, erase its span and write it again from the working buffer (moss_flash_host_restore); else start again. */
#define MOSS_FLASH_ACCESS 8

/* The last poll that the limit allows still says busy.
 * Left: the command is over; the part may still be at work. After a program the working buffer keeps the restore data.
 * Settings as before. Next: keep the working buffer; wait until moss_flash_is_busy says no, or reset the part; then erase
 * the span and write it again from the working buffer (moss_flash_host_restore). A limit that is too low, or polls that
 * follow each other too fast, give this too. */
#define MOSS_FLASH_BUSY 9

/* A setter's argument is outside its limits. Refused. Next: correct the argument. */
#define MOSS_FLASH_BAD_SETTING 10

/* A lent room is too small; the need is in the event record.
 * From a start: refused. From moss_flash_step: the reply was not used, and the command waits unchanged; call
 * moss_flash_step again with the same reply and enough room. For a record that is too short the result alone tells. */
#define MOSS_FLASH_NO_ROOM 11

/* No SFDP signature. Left: settings and parameters as before. Next: set sizes by hand, or reject the part. */
#define MOSS_FLASH_NO_SFDP 12

/* The session is not 256 bytes, or not bytes that a session packs to; or a command runs, and this was a start or a
 * setter. Refused. Next: if a command runs, step it to its answer, or abandon it: moss_flash_step with failed = 1. Else the
 * bytes were damaged: moss_flash_new, and the settings again. */
#define MOSS_FLASH_BAD_SESSION 13

/* ---- the event record: offsets */

#define MOSS_FLASH_EVENT_KIND 0            /* MOSS_FLASH_SEND, or the answer's number */
#define MOSS_FLASH_EVENT_HEAD_LENGTH 1     /* 1 to 6; 0 for an answer */
#define MOSS_FLASH_EVENT_HEAD 2            /* 6 bytes: command byte, address (highest first), dummy; the rest 0 */
#define MOSS_FLASH_EVENT_REPLY 8           /* 64 bits: so many bytes are read after head and payload */
#define MOSS_FLASH_EVENT_PAYLOAD_OFFSET 16 /* 64 bits: where the payload starts in the working buffer */
#define MOSS_FLASH_EVENT_PAYLOAD_LENGTH 24 /* 64 bits: 0 for none */
#define MOSS_FLASH_EVENT_DELAY 32          /* 32 bits: µs to wait after the transaction, before the step */
#define MOSS_FLASH_EVENT_POLL 36           /* 1 for a status poll */
#define MOSS_FLASH_EVENT_POLLS 40          /* 64 bits, of an answer: the status polls that the command issued */
#define MOSS_FLASH_EVENT_A 48              /* 64 bits: the answer's first number */
#define MOSS_FLASH_EVENT_B 56              /* 64 bits: the answer's second number */

/* ---- the settings record: offsets */

#define MOSS_FLASH_SETTINGS_ADDRESS_BYTES 0
#define MOSS_FLASH_SETTINGS_CAPACITY_SET 1 /* 0 or 1 */
#define MOSS_FLASH_SETTINGS_ERASE_OPCODE 2
#define MOSS_FLASH_SETTINGS_KNOWN 3        /* 1 once SFDP parameters were read */
#define MOSS_FLASH_SETTINGS_POLL_LIMIT 4   /* 16 bits */
#define MOSS_FLASH_SETTINGS_BY_FLAG 6      /* 1 if polls go by the flag status register */
#define MOSS_FLASH_SETTINGS_RUNS 7         /* 1 while a command runs */
#define MOSS_FLASH_SETTINGS_CAPACITY 8     /* 64 bits, bytes */
#define MOSS_FLASH_SETTINGS_PAGE_SIZE 16   /* 32 bits; 0: unset, and 256 is used */
#define MOSS_FLASH_SETTINGS_ERASE_SIZE 20  /* 32 bits; 0: unset */
#define MOSS_FLASH_SETTINGS_DENSITY 24     /* 64 bits, in bits; 0: unknown */

/* ---- the parameters record: offsets. All is 0 until a table was read */

#define MOSS_FLASH_PARAMS_KNOWN 0          /* 1 once SFDP parameters were read */
#define MOSS_FLASH_PARAMS_EXTENDED 1       /* 1 if dwords 10 to 16 were read; else what comes from them is unknown and 0 */
#define MOSS_FLASH_PARAMS_MAJOR 2
#define MOSS_FLASH_PARAMS_MINOR 3
#define MOSS_FLASH_PARAMS_ADDRESS_BYTES 4  /* 0: three, 1: three or four, 2: four, 3: reserved */
#define MOSS_FLASH_PARAMS_4K_ERASE 5       /* 1 if 4 KiB erase is supported */
#define MOSS_FLASH_PARAMS_4K_OPCODE 6
#define MOSS_FLASH_PARAMS_VOLATILE_WE 7    /* write-enable for volatile status bits: 50 or 06 */
#define MOSS_FLASH_PARAMS_VOLATILE_PROTECT 8
#define MOSS_FLASH_PARAMS_GRANULARITY 9
#define MOSS_FLASH_PARAMS_POLL_FLAG 10
#define MOSS_FLASH_PARAMS_POLL_STATUS 11
#define MOSS_FLASH_PARAMS_RESET_F0 12
#define MOSS_FLASH_PARAMS_RESET_66_99 13
#define MOSS_FLASH_PARAMS_EXIT_E9 14       /* E9 leaves 4-byte addresses */
#define MOSS_FLASH_PARAMS_ENTER_B7 15      /* B7 enters them */
#define MOSS_FLASH_PARAMS_VOLATILITY 16    /* of status 1: MOSS_FLASH_VOLATILITY_ below; counts where EXTENDED is 1 */
#define MOSS_FLASH_PARAMS_PAGE_SIZE 20     /* 32 bits */
#define MOSS_FLASH_PARAMS_DENSITY 24       /* 64 bits, in bits */
#define MOSS_FLASH_PARAMS_TYPES 32         /* four erase types, 24 bytes each */
#define MOSS_FLASH_PARAMS_TYPE_SIZE 24
#define MOSS_FLASH_PARAMS_TYPE_COUNT 4
#define MOSS_FLASH_PARAMS_TIMES 128        /* typical and maximum time in µs, 64 bits each, of the four below, in order */

/* of an erase type, from its first byte */
#define MOSS_FLASH_TYPE_OPCODE 0
#define MOSS_FLASH_TYPE_TIMED 1            /* 1 if its times are known */
#define MOSS_FLASH_TYPE_BLOCK_SIZE 4       /* 32 bits; 0: no such type */
#define MOSS_FLASH_TYPE_TYPICAL 8          /* 64 bits, µs */
#define MOSS_FLASH_TYPE_MAXIMUM 16         /* 64 bits, µs */

/* which time */
#define MOSS_FLASH_TIME_PAGE 0             /* a page write */
#define MOSS_FLASH_TIME_CHIP 1             /* a chip erase */
#define MOSS_FLASH_TIME_FIRST_BYTE 2       /* the first byte of a write */
#define MOSS_FLASH_TIME_LATER_BYTE 3       /* each later byte */

/* how status 1 is written, and whether it keeps its value */
#define MOSS_FLASH_VOLATILITY_NON_VOLATILE_06 0
#define MOSS_FLASH_VOLATILITY_VOLATILE_06 1
#define MOSS_FLASH_VOLATILITY_VOLATILE_50 2
#define MOSS_FLASH_VOLATILITY_NON_VOLATILE_06_VOLATILE_50 3
#define MOSS_FLASH_VOLATILITY_MIXED_06 4
#define MOSS_FLASH_VOLATILITY_RESERVED 5

/* ---- an entry of an erase plan: offsets */

#define MOSS_FLASH_ENTRY_OPCODE 0
#define MOSS_FLASH_ENTRY_TIMED 1           /* 1 if the typical time is known */
#define MOSS_FLASH_ENTRY_BLOCK_SIZE 4      /* 32 bits, bytes */
#define MOSS_FLASH_ENTRY_BASE 8            /* 32 bits */
#define MOSS_FLASH_ENTRY_TIME 12           /* 32 bits: typical time in µs */

/* ---- limits of the settings */

#define MOSS_FLASH_ADDRESS_BYTES_MOST 4            /* from 1 */
#define MOSS_FLASH_PAGE_SIZE_MOST 32768            /* from 1 */
#define MOSS_FLASH_ERASE_SIZE_MOST 2147483648u     /* from 1 */
#define MOSS_FLASH_POLL_LIMIT_MOST 65535           /* from 1; the default */

/* ---- a session */

/* Makes the bytes a fresh session: 3 address bytes, erase opcode 20, poll limit 65,535, nothing else set.
 * 0; 13 if session_len is not 256, and then nothing is written. */
uint8_t moss_flash_new(uint8_t *session, size_t session_len);

/* ---- setters: 0; 10 outside the limits; 13 for bad bytes or while a command runs */

uint8_t moss_flash_set_address_bytes(uint8_t *session, size_t session_len, uint8_t n);
uint8_t moss_flash_set_page_size(uint8_t *session, size_t session_len, uint64_t n);
uint8_t moss_flash_set_erase_size(uint8_t *session, size_t session_len, uint64_t n);
uint8_t moss_flash_set_erase_opcode(uint8_t *session, size_t session_len, uint8_t opcode);
uint8_t moss_flash_set_poll_limit(uint8_t *session, size_t session_len, uint32_t n);
uint8_t moss_flash_set_capacity(uint8_t *session, size_t session_len, uint64_t n);
uint8_t moss_flash_clear_capacity(uint8_t *session, size_t session_len);

/* Writes the settings record. 0; 13 for bad bytes; 11 if settings_len is under 32, and then nothing is written. */
uint8_t moss_flash_settings(const uint8_t *session, size_t session_len, uint8_t *settings, size_t settings_len);

/* Writes the parameters record: what the part's table said. 0; 13 for bad bytes; 11 if params_len is under 192, and then
 * nothing is written. A command may be running. */
uint8_t moss_flash_params(const uint8_t *session, size_t session_len, uint8_t *params, size_t params_len);

/* ---- starts
 *
 * MOSS_FLASH_SEND with the first transaction in the event record, or an answer. 13 for bad bytes: nothing is written, the
 * event record neither. 11 if event_len is under 64: nothing is written or started.
 */

/* Reads with command 0B. The bytes land at the start of the out buffer, which is lent as `work` to each step; room is
 * its length. Also 5, then 11. */
uint8_t moss_flash_read(uint8_t *session, size_t session_len, uint32_t address, uint64_t length, uint64_t room,
                   uint8_t *event, size_t event_len);

/* The same with command 03. */
uint8_t moss_flash_legacy_read(uint8_t *session, size_t session_len, uint32_t address, uint64_t length, uint64_t room,
                          uint8_t *event, size_t event_len);

/* Reads the SFDP area and sets address bytes, capacity, page size, erase size and opcode by it. The working buffer has
 * room bytes, at least 2,056 (else 11). Also 12, 3, 4, 8. */
uint8_t moss_flash_read_params(uint8_t *session, size_t session_len, uint64_t room, uint8_t *event, size_t event_len);

/* Erases the whole chip. */
uint8_t moss_flash_erase(uint8_t *session, size_t session_len, uint8_t *event, size_t event_len);

/* Erases exactly these bytes: 5 if the plan's blocks would take more. Also 7. */
uint8_t moss_flash_erase_sectors(uint8_t *session, size_t session_len, uint32_t address, uint64_t length,
                            uint8_t *event, size_t event_len);

/* Writes data and keeps every other byte: reads what else the erase blocks hold, erases, writes back. The working buffer
 * holds the whole span of the blocks (11 tells how long that is) and is lent to each step; data is only needed for this
 * call. verify: 0 no, any other yes. 5, 7, 5 for the span, 11. */
uint8_t moss_flash_program(uint8_t *session, size_t session_len, uint32_t address, const uint8_t *data, size_t data_len,
                      uint8_t verify, uint8_t *work, size_t work_len, uint8_t *event, size_t event_len);

/* Writes data page by page without an erase: bits only go from 1 to 0. The data are copied into the working buffer.
 * No data: Done at any address. 5, 11. */
uint8_t moss_flash_program_data(uint8_t *session, size_t session_len, uint32_t address, const uint8_t *data, size_t data_len,
                           uint8_t *work, size_t work_len, uint8_t *event, size_t event_len);

/* Software reset: 66 and 99, or F0, by the parameters. Also 6. */
uint8_t moss_flash_reset(uint8_t *session, size_t session_len, uint8_t *event, size_t event_len);

/* The JEDEC ID: bank, manufacturer and device in the event record. Also 2. */
uint8_t moss_flash_read_jedec_id(uint8_t *session, size_t session_len, uint8_t *event, size_t event_len);

/* One status poll, and one status read: yes or no in the event record. */
uint8_t moss_flash_is_busy(uint8_t *session, size_t session_len, uint8_t *event, size_t event_len);
uint8_t moss_flash_is_protected(uint8_t *session, size_t session_len, uint8_t *event, size_t event_len);

/* ---- steps */

/* The transaction was carried out. failed: 0 no; any other: the host could not carry it out, and the reply is not looked
 * at. reply: exactly the bytes that were asked for (none: length 0). work: the working or out buffer of the command, the
 * same bytes at every step; any slice, of length 0 too, for a command that has none. MOSS_FLASH_SEND with the next
 * transaction, or the command's answer. On a command that is over: its answer again. */
uint8_t moss_flash_step(uint8_t *session, size_t session_len, uint8_t failed, const uint8_t *reply, size_t reply_len,
                   uint8_t *work, size_t work_len, uint8_t *event, size_t event_len);

/* Tells again what the session waits on, or its last answer. Changes nothing but the event record. */
uint8_t moss_flash_event(const uint8_t *session, size_t session_len, uint8_t *event, size_t event_len);

/* ---- plans */

/* The blocks that an erase of these bytes takes, as records of 16 bytes; there are entries_len / 16 slots. 0 with their
 * count, 5 with the reported address, 7, 11 with the count that is needed (then no slot is changed), 13. A command may
 * be running. */
uint8_t moss_flash_make_erase_plan(const uint8_t *session, size_t session_len, uint32_t address, uint64_t length,
                              uint8_t *entries, size_t entries_len, uint8_t *event, size_t event_len);

/* The span that moss_flash_program of these bytes would erase and write again, from the first byte of its first block to
 * the last byte of its last one: 0 with the first address and the length, which is also what its working buffer needs.
 * Else what the program would answer before it asks for room: 5, 7, 5 for the span; or 13. A command may be running. */
uint8_t moss_flash_span(const uint8_t *session, size_t session_len, uint32_t address, uint64_t length, uint8_t *event,
                        size_t event_len);

/* ---- readers of the records */

static inline uint32_t moss_flash_le32(const uint8_t *p)
{
    return (uint32_t)p[0] | (uint32_t)p[1] << 8 | (uint32_t)p[2] << 16 | (uint32_t)p[3] << 24;
}

static inline uint64_t moss_flash_le64(const uint8_t *p)
{
    return (uint64_t)moss_flash_le32(p) | (uint64_t)moss_flash_le32(p + 4) << 32;
}

/* Of any event. */
static inline uint8_t moss_flash_event_kind(const uint8_t *event) { return event[MOSS_FLASH_EVENT_KIND]; }

/* Of a transaction. */
static inline uint8_t moss_flash_event_head_length(const uint8_t *event) { return event[MOSS_FLASH_EVENT_HEAD_LENGTH]; }
static inline const uint8_t *moss_flash_event_head(const uint8_t *event) { return event + MOSS_FLASH_EVENT_HEAD; }
static inline uint64_t moss_flash_event_reply(const uint8_t *event) { return moss_flash_le64(event + MOSS_FLASH_EVENT_REPLY); }
static inline uint64_t moss_flash_event_payload_offset(const uint8_t *event)
{
    return moss_flash_le64(event + MOSS_FLASH_EVENT_PAYLOAD_OFFSET);
}
static inline uint64_t moss_flash_event_payload_length(const uint8_t *event)
{
    return moss_flash_le64(event + MOSS_FLASH_EVENT_PAYLOAD_LENGTH);
}
static inline uint32_t moss_flash_event_delay(const uint8_t *event) { return moss_flash_le32(event + MOSS_FLASH_EVENT_DELAY); }
static inline uint8_t moss_flash_event_is_poll(const uint8_t *event) { return event[MOSS_FLASH_EVENT_POLL]; }

/* Of an answer. */
static inline uint64_t moss_flash_event_polls(const uint8_t *event) { return moss_flash_le64(event + MOSS_FLASH_EVENT_POLLS); }
static inline uint64_t moss_flash_event_a(const uint8_t *event) { return moss_flash_le64(event + MOSS_FLASH_EVENT_A); }
static inline uint64_t moss_flash_event_b(const uint8_t *event) { return moss_flash_le64(event + MOSS_FLASH_EVENT_B); }

/* Of answer 1: where the first differing byte is; of answer 5: the reported address. */
static inline uint32_t moss_flash_event_address(const uint8_t *event) { return moss_flash_le32(event + MOSS_FLASH_EVENT_A); }
/* Of answer 1: what was written there and what was read. */
static inline uint8_t moss_flash_event_wrote(const uint8_t *event) { return event[MOSS_FLASH_EVENT_B]; }
static inline uint8_t moss_flash_event_read(const uint8_t *event) { return event[MOSS_FLASH_EVENT_B + 1]; }
/* Of answer 11: the bytes, or the slots of a plan, that are needed. */
static inline uint64_t moss_flash_event_need(const uint8_t *event) { return moss_flash_event_a(event); }
/* Of answer 0 of a plan: how many entries it has. */
static inline uint64_t moss_flash_event_count(const uint8_t *event) { return moss_flash_event_a(event); }
/* Of answer 0 of moss_flash_span: the first address, and the length. */
static inline uint32_t moss_flash_event_base(const uint8_t *event) { return moss_flash_le32(event + MOSS_FLASH_EVENT_A); }
static inline uint64_t moss_flash_event_span(const uint8_t *event) { return moss_flash_event_b(event); }
/* Of answer 0 of moss_flash_is_busy and moss_flash_is_protected: 0 or 1. */
static inline uint8_t moss_flash_event_yes(const uint8_t *event) { return event[MOSS_FLASH_EVENT_A]; }
/* Of answer 0 of moss_flash_read_jedec_id: how many 7F came before the manufacturer, the manufacturer, the device. */
static inline uint8_t moss_flash_event_bank(const uint8_t *event) { return event[MOSS_FLASH_EVENT_A]; }
static inline uint8_t moss_flash_event_manufacturer(const uint8_t *event) { return event[MOSS_FLASH_EVENT_B]; }
static inline uint16_t moss_flash_event_device(const uint8_t *event)
{
    return (uint16_t)(event[MOSS_FLASH_EVENT_B + 1] | event[MOSS_FLASH_EVENT_B + 2] << 8);
}

static inline uint8_t moss_flash_settings_address_bytes(const uint8_t *s) { return s[MOSS_FLASH_SETTINGS_ADDRESS_BYTES]; }
static inline uint8_t moss_flash_settings_capacity_set(const uint8_t *s) { return s[MOSS_FLASH_SETTINGS_CAPACITY_SET]; }
static inline uint8_t moss_flash_settings_erase_opcode(const uint8_t *s) { return s[MOSS_FLASH_SETTINGS_ERASE_OPCODE]; }
static inline uint8_t moss_flash_settings_known(const uint8_t *s) { return s[MOSS_FLASH_SETTINGS_KNOWN]; }
static inline uint16_t moss_flash_settings_poll_limit(const uint8_t *s)
{
    return (uint16_t)(s[MOSS_FLASH_SETTINGS_POLL_LIMIT] | s[MOSS_FLASH_SETTINGS_POLL_LIMIT + 1] << 8);
}
static inline uint8_t moss_flash_settings_by_flag(const uint8_t *s) { return s[MOSS_FLASH_SETTINGS_BY_FLAG]; }
static inline uint8_t moss_flash_settings_runs(const uint8_t *s) { return s[MOSS_FLASH_SETTINGS_RUNS]; }
static inline uint64_t moss_flash_settings_capacity(const uint8_t *s) { return moss_flash_le64(s + MOSS_FLASH_SETTINGS_CAPACITY); }
static inline uint32_t moss_flash_settings_page_size(const uint8_t *s) { return moss_flash_le32(s + MOSS_FLASH_SETTINGS_PAGE_SIZE); }
static inline uint32_t moss_flash_settings_erase_size(const uint8_t *s) { return moss_flash_le32(s + MOSS_FLASH_SETTINGS_ERASE_SIZE); }
static inline uint64_t moss_flash_settings_density(const uint8_t *s) { return moss_flash_le64(s + MOSS_FLASH_SETTINGS_DENSITY); }

/* Of the parameters record. type: 0 to 3; one with block size 0 is not there. time: MOSS_FLASH_TIME_. */
static inline uint8_t moss_flash_params_known(const uint8_t *p) { return p[MOSS_FLASH_PARAMS_KNOWN]; }
static inline uint8_t moss_flash_params_extended(const uint8_t *p) { return p[MOSS_FLASH_PARAMS_EXTENDED]; }
static inline uint8_t moss_flash_params_address_bytes(const uint8_t *p) { return p[MOSS_FLASH_PARAMS_ADDRESS_BYTES]; }
static inline uint8_t moss_flash_params_volatility(const uint8_t *p) { return p[MOSS_FLASH_PARAMS_VOLATILITY]; }
static inline uint32_t moss_flash_params_page_size(const uint8_t *p) { return moss_flash_le32(p + MOSS_FLASH_PARAMS_PAGE_SIZE); }
static inline uint64_t moss_flash_params_density(const uint8_t *p) { return moss_flash_le64(p + MOSS_FLASH_PARAMS_DENSITY); }
static inline const uint8_t *moss_flash_params_type(const uint8_t *p, unsigned type)
{
    return p + MOSS_FLASH_PARAMS_TYPES + MOSS_FLASH_PARAMS_TYPE_SIZE * type;
}
static inline uint64_t moss_flash_params_typical(const uint8_t *p, unsigned time)
{
    return moss_flash_le64(p + MOSS_FLASH_PARAMS_TIMES + 16 * time);
}
static inline uint64_t moss_flash_params_maximum(const uint8_t *p, unsigned time)
{
    return moss_flash_le64(p + MOSS_FLASH_PARAMS_TIMES + 16 * time + 8);
}

/* type: what moss_flash_params_type gave. */
static inline uint8_t moss_flash_type_opcode(const uint8_t *type) { return type[MOSS_FLASH_TYPE_OPCODE]; }
static inline uint8_t moss_flash_type_timed(const uint8_t *type) { return type[MOSS_FLASH_TYPE_TIMED]; }
static inline uint32_t moss_flash_type_size(const uint8_t *type) { return moss_flash_le32(type + MOSS_FLASH_TYPE_BLOCK_SIZE); }
static inline uint64_t moss_flash_type_typical(const uint8_t *type) { return moss_flash_le64(type + MOSS_FLASH_TYPE_TYPICAL); }
static inline uint64_t moss_flash_type_maximum(const uint8_t *type) { return moss_flash_le64(type + MOSS_FLASH_TYPE_MAXIMUM); }

/* entry: the first byte of a record of 16 bytes. */
static inline uint8_t moss_flash_entry_opcode(const uint8_t *entry) { return entry[MOSS_FLASH_ENTRY_OPCODE]; }
static inline uint8_t moss_flash_entry_timed(const uint8_t *entry) { return entry[MOSS_FLASH_ENTRY_TIMED]; }
static inline uint32_t moss_flash_entry_size(const uint8_t *entry) { return moss_flash_le32(entry + MOSS_FLASH_ENTRY_BLOCK_SIZE); }
static inline uint32_t moss_flash_entry_base(const uint8_t *entry) { return moss_flash_le32(entry + MOSS_FLASH_ENTRY_BASE); }
static inline uint32_t moss_flash_entry_time(const uint8_t *entry) { return moss_flash_le32(entry + MOSS_FLASH_ENTRY_TIME); }

/* ---- tables for emulated parts */

#define MOSS_FLASH_TABLE_SIZE 80 /* an SFDP area that moss_flash_write_table writes, at least */

/* The session has no parameters, or no SFDP table of 16 dwords gives them back exactly. Given by moss_flash_write_table alone. Refused.
 * Next: read the parameters of a part whose table has 16 dwords. */
#define MOSS_FLASH_NO_FORM 15

/* Writes the SFDP area of a part with the session's parameters into the first 80 bytes of table: an emulated part that holds it is read as the part that the
 * parameters came from. 13, 15, 11 (table is shorter than 80 bytes): no byte of it is changed. Bytes behind the 80 are left alone. A command may be running. */
uint8_t moss_flash_write_table(const uint8_t *session, size_t session_len, uint8_t *table, size_t table_len);

#ifdef __cplusplus
}
#endif

#endif
