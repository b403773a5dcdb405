/* The host's loop around the driver. moss_flash_host.h says what each function does. */
#include "moss_flash_host.h"

#define SESSION(h) (h)->session, sizeof (h)->session
#define EVENT(h) (h)->event, sizeof (h)->event

/* ---- answers that the host writes into the event record itself */

static void put64(uint8_t *at, uint64_t n)
{
    int i;

    for (i = 0; i < 8; i++)
        at[i] = (uint8_t)(n >> (8 * i));
}

static uint8_t answer_with(struct moss_flash_host *h, uint8_t answer, uint64_t a, uint64_t b)
{
    size_t i;

    for (i = 0; i < sizeof h->event; i++)
        h->event[i] = 0;
    h->event[MOSS_FLASH_EVENT_KIND] = answer;
    put64(h->event + MOSS_FLASH_EVENT_A, a);
    put64(h->event + MOSS_FLASH_EVENT_B, b);
    return answer;
}

/* ---- buffers that must be apart */

static int overlap(const uint8_t *a, uint64_t a_len, const uint8_t *b, uint64_t b_len)
{
    uintptr_t x = (uintptr_t)a, y = (uintptr_t)b;

    return a_len && b_len && x < y + b_len && y < x + a_len;
}

/* What a call may not write into: the reply buffer, and what a broken program kept. Done if it does not. */
static uint8_t apart(struct moss_flash_host *h, const uint8_t *written, size_t length)
{
    if (h->touched && overlap(written, length, h->kept, h->kept_length))
        return answer_with(h, MOSS_FLASH_HOST_KEPT, 0, 0);
    if (overlap(written, length, h->reply, h->reply_room))
        return answer_with(h, MOSS_FLASH_HOST_OVERLAP, 0, 0);
    return MOSS_FLASH_DONE;
}

/* The flash is not erased or written beside a span that waits to be restored. */
static uint8_t may_write(struct moss_flash_host *h)
{
    return h->touched ? answer_with(h, MOSS_FLASH_HOST_KEPT, 0, 0) : (uint8_t)MOSS_FLASH_DONE;
}

/* ---- waiting */

static void pause_us(struct moss_flash_host *h, uint64_t microseconds)
{
    while (microseconds > 0xFFFFFFFFu) {
        h->delay(h->context, 0xFFFFFFFFu);
        microseconds -= 0xFFFFFFFFu;
    }
    if (microseconds)
        h->delay(h->context, (uint32_t)microseconds);
}

/* The caller's own time, else twice the table's maximum, else what is safe. */
static uint64_t chosen_wait(uint64_t callers, uint64_t maximum, uint64_t safe)
{
    return callers ? callers : maximum ? 2 * maximum : safe;
}

/* The longest maximum of the table's erase types with this opcode; 0 if none is known. */
static uint64_t block_maximum(const uint8_t *params, uint8_t opcode)
{
    uint64_t most = 0;
    unsigned i;

    for (i = 0; i < MOSS_FLASH_PARAMS_TYPE_COUNT; i++) {
        const uint8_t *type = moss_flash_params_type(params, i);
        if (moss_flash_type_size(type) && moss_flash_type_timed(type) && moss_flash_type_opcode(type) == opcode &&
            moss_flash_type_maximum(type) > most)
            most = moss_flash_type_maximum(type);
    }
    return most;
}

/* How long the operation with this opcode may take. */
static uint64_t operation_wait(const struct moss_flash_host *h, uint8_t opcode)
{
    uint8_t p[MOSS_FLASH_PARAMS_SIZE] = {0};

    (void)moss_flash_params(SESSION(h), p, sizeof p);
    if (opcode == 0x02)
        return chosen_wait(h->page_wait, moss_flash_params_maximum(p, MOSS_FLASH_TIME_PAGE), MOSS_FLASH_HOST_PAGE_WAIT);
    if (opcode == 0xC7)
        return chosen_wait(h->chip_wait, moss_flash_params_maximum(p, MOSS_FLASH_TIME_CHIP), MOSS_FLASH_HOST_CHIP_WAIT);
    return chosen_wait(h->block_wait, block_maximum(p, opcode), MOSS_FLASH_HOST_BLOCK_WAIT);
}

/* What is waited before each poll: as many polls as the limit allows take at least the operation's time. */
static uint64_t poll_gap(const struct moss_flash_host *h)
{
    uint8_t s[MOSS_FLASH_SETTINGS_SIZE] = {0};

    if (!h->wait || moss_flash_settings(SESSION(h), s, sizeof s) != MOSS_FLASH_DONE)
        return 0;
    return h->wait / moss_flash_settings_poll_limit(s) + 1;
}

/* ---- the loop */

/* What the host notes before a transaction goes out. */
static void note(struct moss_flash_host *h)
{
    uint8_t opcode = moss_flash_event_head(h->event)[0];

    if (moss_flash_event_is_poll(h->event)) {
        pause_us(h, poll_gap(h));
        return;
    }
    if (h->enabled)
        h->wait = operation_wait(h, opcode);
    h->enabled = !h->enabled && opcode == 0x06;
    if (h->enabled && h->programs)
        h->touched = 1;
}

/* Carries out the transaction in the event record. 0: done. */
static int carry_out(struct moss_flash_host *h, const uint8_t *work)
{
    const uint8_t *event = h->event;
    uint64_t reply = moss_flash_event_reply(event);
    uint64_t length = moss_flash_event_payload_length(event);
    const uint8_t *payload = length ? work + (size_t)moss_flash_event_payload_offset(event) : 0;
    int failed = 1;

    note(h);
    if (reply <= h->reply_room)
        failed = h->exchange(h->context, moss_flash_event_head(event), moss_flash_event_head_length(event), payload,
                             (size_t)length, h->reply, (size_t)reply);
    if (h->watch)
        h->watch(h->context, event, failed);
    if (!failed)
        pause_us(h, moss_flash_event_delay(event));
    return failed;
}

uint8_t moss_flash_host_run(struct moss_flash_host *h, uint8_t begun, uint8_t *work, size_t work_len)
{
    uint8_t now = begun;

    h->enabled = 0;
    h->wait = 0;
    while (now == MOSS_FLASH_SEND) {
        int failed = carry_out(h, work);
        size_t length = failed ? 0 : (size_t)moss_flash_event_reply(h->event);
        now = moss_flash_step(SESSION(h), failed != 0, h->reply, length, work, work_len, EVENT(h));
    }
    if (begun == MOSS_FLASH_SEND && now != MOSS_FLASH_DONE)
        h->unsettled = 1;
    return now;
}

/* Waits until the part is idle, at most idle_wait. */
static uint8_t settle(struct moss_flash_host *h)
{
    uint64_t most = h->idle_wait ? h->idle_wait : MOSS_FLASH_HOST_IDLE_WAIT;
    uint64_t waited = 0;

    for (;;) {
        uint8_t answer = moss_flash_host_run(h, moss_flash_is_busy(SESSION(h), EVENT(h)), 0, 0);
        if (answer != MOSS_FLASH_DONE)
            return answer;
        if (!moss_flash_event_yes(h->event))
            break;
        if (waited >= most)
            return answer_with(h, MOSS_FLASH_BUSY, 0, 0);
        pause_us(h, MOSS_FLASH_HOST_IDLE_GAP);
        waited += MOSS_FLASH_HOST_IDLE_GAP;
    }
    h->unsettled = 0;
    return MOSS_FLASH_DONE;
}

/* Before each command that a busy part would ignore: room for its longest reply, and a part that is idle. */
static uint8_t ready(struct moss_flash_host *h, uint64_t longest)
{
    if (longest > h->reply_room)
        return answer_with(h, MOSS_FLASH_NO_ROOM, longest, 0);
    return h->unsettled ? settle(h) : (uint8_t)MOSS_FLASH_DONE;
}

uint8_t moss_flash_host_init(struct moss_flash_host *h)
{
    uint8_t answer;

    if (moss_flash_version() != MOSS_FLASH_VERSION)
        return answer_with(h, MOSS_FLASH_BAD_SESSION, 0, 0);
    if (!h->exchange || !h->delay || !h->reply)
        return answer_with(h, MOSS_FLASH_BAD_SETTING, 0, 0);
    if (!h->reply_room)
        return answer_with(h, MOSS_FLASH_NO_ROOM, 1, 0);
    answer = moss_flash_new(SESSION(h));
    if (answer != MOSS_FLASH_DONE)
        return answer;
    h->unsettled = 1;
    return settle(h);
}

/* ---- settings */

uint8_t moss_flash_host_set_address_bytes(struct moss_flash_host *h, uint8_t n)
{
    return moss_flash_set_address_bytes(SESSION(h), n);
}

uint8_t moss_flash_host_set_page_size(struct moss_flash_host *h, uint64_t n)
{
    return moss_flash_set_page_size(SESSION(h), n);
}

uint8_t moss_flash_host_set_erase_size(struct moss_flash_host *h, uint64_t n)
{
    return moss_flash_set_erase_size(SESSION(h), n);
}

uint8_t moss_flash_host_set_erase_opcode(struct moss_flash_host *h, uint8_t opcode)
{
    return moss_flash_set_erase_opcode(SESSION(h), opcode);
}

uint8_t moss_flash_host_set_poll_limit(struct moss_flash_host *h, uint32_t n)
{
    return moss_flash_set_poll_limit(SESSION(h), n);
}

uint8_t moss_flash_host_set_capacity(struct moss_flash_host *h, uint64_t n)
{
    return moss_flash_set_capacity(SESSION(h), n);
}

uint8_t moss_flash_host_clear_capacity(struct moss_flash_host *h)
{
    return moss_flash_clear_capacity(SESSION(h));
}

uint8_t moss_flash_host_settings(const struct moss_flash_host *h, uint8_t settings[MOSS_FLASH_SETTINGS_SIZE])
{
    return moss_flash_settings(SESSION(h), settings, MOSS_FLASH_SETTINGS_SIZE);
}

uint8_t moss_flash_host_params(const struct moss_flash_host *h, uint8_t params[MOSS_FLASH_PARAMS_SIZE])
{
    return moss_flash_params(SESSION(h), params, MOSS_FLASH_PARAMS_SIZE);
}

/* ---- commands that read */

typedef uint8_t (*read_start)(uint8_t *, size_t, uint32_t, uint64_t, uint64_t, uint8_t *, size_t);

static uint8_t read_by(struct moss_flash_host *h, read_start start, uint32_t address, uint8_t *out, size_t length)
{
    uint8_t trial[MOSS_FLASH_SESSION_SIZE];
    uint8_t answer = apart(h, out, length);
    size_t i;

    if (answer != MOSS_FLASH_DONE)
        return answer;
    /* The driver's own refusals come first: they are asked for on a copy of the session. */
    for (i = 0; i < sizeof trial; i++)
        trial[i] = h->session[i];
    answer = start(trial, sizeof trial, address, length, length, EVENT(h));
    if (answer != MOSS_FLASH_SEND)
        return answer;
    answer = ready(h, length);
    if (answer != MOSS_FLASH_DONE)
        return answer;
    return moss_flash_host_run(h, start(SESSION(h), address, length, length, EVENT(h)), out, length);
}

uint8_t moss_flash_host_read(struct moss_flash_host *h, uint32_t address, uint8_t *out, size_t length)
{
    return read_by(h, moss_flash_read, address, out, length);
}

uint8_t moss_flash_host_legacy_read(struct moss_flash_host *h, uint32_t address, uint8_t *out, size_t length)
{
    return read_by(h, moss_flash_legacy_read, address, out, length);
}

uint8_t moss_flash_host_read_params(struct moss_flash_host *h, uint8_t *work, size_t work_len)
{
    uint8_t answer = apart(h, work, work_len);

    if (answer == MOSS_FLASH_DONE && work_len >= MOSS_FLASH_SFDP_ROOM)
        answer = ready(h, MOSS_FLASH_SFDP_ROOM);
    if (answer != MOSS_FLASH_DONE)
        return answer;
    return moss_flash_host_run(h, moss_flash_read_params(SESSION(h), work_len, EVENT(h)), work, work_len);
}

uint8_t moss_flash_host_read_jedec_id(struct moss_flash_host *h)
{
    uint8_t answer = ready(h, MOSS_FLASH_ID_REPLY);

    if (answer != MOSS_FLASH_DONE)
        return answer;
    return moss_flash_host_run(h, moss_flash_read_jedec_id(SESSION(h), EVENT(h)), 0, 0);
}

/* These two ask a part that may be busy. */
uint8_t moss_flash_host_is_busy(struct moss_flash_host *h)
{
    return moss_flash_host_run(h, moss_flash_is_busy(SESSION(h), EVENT(h)), 0, 0);
}

uint8_t moss_flash_host_is_protected(struct moss_flash_host *h)
{
    return moss_flash_host_run(h, moss_flash_is_protected(SESSION(h), EVENT(h)), 0, 0);
}

uint8_t moss_flash_host_reset(struct moss_flash_host *h)
{
    uint8_t begun = moss_flash_reset(SESSION(h), EVENT(h));
    uint8_t answer = moss_flash_host_run(h, begun, 0, 0);

    if (begun == MOSS_FLASH_SEND) {
        h->unsettled = 1;
        pause_us(h, MOSS_FLASH_HOST_RESET_WAIT);
    }
    return answer;
}

/* ---- commands that erase and write */

uint8_t moss_flash_host_erase(struct moss_flash_host *h)
{
    uint8_t answer = may_write(h);

    if (answer == MOSS_FLASH_DONE)
        answer = ready(h, 1);
    if (answer != MOSS_FLASH_DONE)
        return answer;
    return moss_flash_host_run(h, moss_flash_erase(SESSION(h), EVENT(h)), 0, 0);
}

static uint8_t erase_range(struct moss_flash_host *h, uint32_t address, uint64_t length)
{
    uint8_t answer = ready(h, 1);

    if (answer != MOSS_FLASH_DONE)
        return answer;
    return moss_flash_host_run(h, moss_flash_erase_sectors(SESSION(h), address, length, EVENT(h)), 0, 0);
}

uint8_t moss_flash_host_erase_sectors(struct moss_flash_host *h, uint32_t address, uint64_t length)
{
    uint8_t answer = may_write(h);

    return answer == MOSS_FLASH_DONE ? erase_range(h, address, length) : answer;
}

static uint8_t write_range(struct moss_flash_host *h, uint32_t address, const uint8_t *data, size_t length, uint8_t *work,
                           size_t work_len)
{
    uint8_t answer = ready(h, 1);

    if (answer != MOSS_FLASH_DONE)
        return answer;
    return moss_flash_host_run(
        h, moss_flash_program_data(SESSION(h), address, data, length, work, work_len, EVENT(h)), work, work_len);
}

uint8_t moss_flash_host_program_data(struct moss_flash_host *h, uint32_t address, const uint8_t *data, size_t length,
                                     uint8_t *work, size_t work_len)
{
    uint8_t answer = may_write(h);

    if (answer == MOSS_FLASH_DONE)
        answer = apart(h, work, work_len);
    if (answer == MOSS_FLASH_DONE && overlap(data, length, work, work_len))
        answer = answer_with(h, MOSS_FLASH_HOST_OVERLAP, 0, 0);
    return answer == MOSS_FLASH_DONE ? write_range(h, address, data, length, work, work_len) : answer;
}

uint8_t moss_flash_host_span(struct moss_flash_host *h, uint32_t address, uint64_t length, uint32_t *base, uint64_t *span)
{
    uint8_t answer = moss_flash_span(SESSION(h), address, length, EVENT(h));

    if (answer == MOSS_FLASH_DONE) {
        *base = moss_flash_event_base(h->event);
        *span = moss_flash_event_span(h->event);
    }
    return answer;
}

/* The longest reply of a program: what it reads before or after its data, the whole span if it verifies; a poll's byte. */
static uint64_t program_reply(uint32_t base, uint64_t span, uint32_t address, uint64_t length, uint8_t verify)
{
    uint64_t before = address - base;
    uint64_t behind = span - before - length;
    uint64_t longest = before > behind ? before : behind;

    if (verify)
        longest = span;
    return longest ? longest : 1;
}

uint8_t moss_flash_host_program(struct moss_flash_host *h, uint32_t address, const uint8_t *data, size_t length,
                                uint8_t verify, uint8_t *work, size_t work_len)
{
    uint32_t base = 0;
    uint64_t span = 0;
    uint8_t answer = may_write(h);

    if (answer == MOSS_FLASH_DONE)
        answer = apart(h, work, work_len);
    if (answer == MOSS_FLASH_DONE && overlap(data, length, work, work_len))
        answer = answer_with(h, MOSS_FLASH_HOST_OVERLAP, 0, 0);
    if (answer == MOSS_FLASH_DONE)
        answer = moss_flash_host_span(h, address, length, &base, &span);
    if (answer == MOSS_FLASH_DONE && work_len >= span)
        answer = ready(h, program_reply(base, span, address, length, verify));
    if (answer != MOSS_FLASH_DONE)
        return answer;
    h->kept_base = base;
    h->kept_length = span;
    h->kept = work;
    h->programs = 1;
    answer = moss_flash_host_run(
        h, moss_flash_program(SESSION(h), address, data, length, verify, work, work_len, EVENT(h)), work, work_len);
    h->programs = 0;
    if (answer == MOSS_FLASH_DONE)
        h->touched = 0;
    if (!h->touched)
        h->kept = 0;
    return answer;
}

/* ---- a span written again */

/* Reads a part back and compares it with what was kept. */
static uint8_t check_part(struct moss_flash_host *h, uint64_t from, uint8_t *page, size_t length)
{
    uint32_t at = h->kept_base + (uint32_t)from;
    uint8_t answer = moss_flash_host_read(h, at, page, length);
    size_t i;

    for (i = 0; answer == MOSS_FLASH_DONE && i < length; i++) {
        uint8_t wrote = h->kept[(size_t)from + i];
        if (page[i] != wrote)
            return answer_with(h, MOSS_FLASH_READBACK_ERROR, at + (uint32_t)i, (uint64_t)(wrote | page[i] << 8));
    }
    return answer;
}

/* The kept bytes written, or read back, a part at a time. */
static uint8_t go_over(struct moss_flash_host *h, int reads, uint8_t *page, size_t page_len)
{
    uint8_t answer = MOSS_FLASH_DONE;
    uint64_t done = 0;

    while (answer == MOSS_FLASH_DONE && done < h->kept_length) {
        uint64_t left = h->kept_length - done;
        size_t part = left < page_len ? (size_t)left : page_len;
        if (reads && part > h->reply_room)
            part = h->reply_room;
        answer = reads ? check_part(h, done, page, part)
                       : write_range(h, h->kept_base + (uint32_t)done, h->kept + (size_t)done, part, page, page_len);
        done += part;
    }
    return answer;
}

uint8_t moss_flash_host_restore(struct moss_flash_host *h, uint8_t verify, uint8_t *page, size_t page_len)
{
    uint8_t answer;

    if (!h->touched)
        return answer_with(h, MOSS_FLASH_BAD_SESSION, 0, 0);
    if (!page_len)
        return answer_with(h, MOSS_FLASH_NO_ROOM, 1, 0);
    answer = apart(h, page, page_len);
    if (answer == MOSS_FLASH_DONE) {
        h->unsettled = 1;
        answer = erase_range(h, h->kept_base, h->kept_length);
    }
    if (answer == MOSS_FLASH_DONE)
        answer = go_over(h, 0, page, page_len);
    if (answer == MOSS_FLASH_DONE && verify)
        answer = go_over(h, 1, page, page_len);
    if (answer == MOSS_FLASH_DONE)
        moss_flash_host_forget(h);
    return answer;
}

void moss_flash_host_forget(struct moss_flash_host *h)
{
    h->touched = 0;
    h->kept = 0;
}

const char *moss_flash_host_answer_name(uint8_t answer)
{
    static const char *const names[] = {
        "Done", "ReadbackError", "InvalidManufacturer", "InvalidSFDPHeader", "InvalidSFDPParams", "InvalidAddress",
        "NoResetInstruction", "NoEraseInstruction", "Access", "Busy", "BadSetting", "NoRoom", "NoSFDP", "BadSession",
    };

    if (answer < sizeof names / sizeof names[0])
        return names[answer];
    switch (answer) {
    case MOSS_FLASH_SEND: return "Send";
    case MOSS_FLASH_NO_FORM: return "NoForm";
    case MOSS_FLASH_HOST_KEPT: return "Kept";
    case MOSS_FLASH_HOST_OVERLAP: return "Overlap";
    default: return "unknown";
    }
}
