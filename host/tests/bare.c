/*
 * The archive and the host without a C library: a Linux program with its own start, memcpy and memset. A block is
 * programmed on the simulated part; the exit status is 0 if all is as it should be.
 */
#include "moss_flash_host.h"
#include "sim_part.h"

#define CAPACITY 65536u

static uint8_t memory[CAPACITY], work[4096], reply[4096], area[MOSS_FLASH_SFDP_ROOM];
static struct sim_part part;
static struct moss_flash_host host;

/* What the compiler and the archive call. */
void *memcpy(void *to, const void *from, size_t count);
void *memcpy(void *to, const void *from, size_t count)
{
    uint8_t *t = (uint8_t *)to;
    const uint8_t *f = (const uint8_t *)from;

    while (count--)
        *t++ = *f++;
    return to;
}

void *memset(void *to, int byte, size_t count);
void *memset(void *to, int byte, size_t count)
{
    uint8_t *t = (uint8_t *)to;

    while (count--)
        *t++ = (uint8_t)byte;
    return to;
}

static int works(void)
{
    static const uint8_t data[3] = {1, 2, 3};
    size_t i;

    sim_init(&part, memory, CAPACITY);
    for (i = 0; i < CAPACITY; i++)
        memory[i] = (uint8_t)i;
    host.exchange = sim_exchange;
    host.delay = sim_delay;
    host.context = &part;
    host.reply = reply;
    host.reply_room = sizeof reply;
    if (moss_flash_host_init(&host) || moss_flash_host_read_params(&host, area, sizeof area) ||
        moss_flash_host_set_capacity(&host, CAPACITY) ||
        moss_flash_host_program(&host, 5000, data, sizeof data, 1, work, sizeof work))
        return 0;
    for (i = 0; i < CAPACITY; i++)
        if (memory[i] != (i >= 5000 && i < 5003 ? data[i - 5000] : (uint8_t)i))
            return 0;
    return 1;
}

void _start(void);
__attribute__((force_align_arg_pointer)) void _start(void)
{
    long status = works() ? 0 : 1;

    __asm__ volatile("syscall" : : "a"(60L), "D"(status) : "rcx", "r11", "memory");
    for (;;)
        ;
}
