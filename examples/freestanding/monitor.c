/*
 * A monitor without a C library: the archive is all that is linked. It starts, serves requests of two machines, and
 * ends with the status 0 if every answer is the expected one, and else with the number of the first check that fails.
 *
 * It assumes Linux on x86-64 for its two ends alone: how a program is entered, and the system call by which it exits.
 */
#include "common.h"

/* Where the program is entered: it runs the checks, and exits (system call 60) with what they answer. */
__asm__(".globl _start\n"
        "_start:\n"
        "    call first_failure\n"
        "    mov %eax, %edi\n"
        "    mov $60, %eax\n"
        "    syscall\n");

/* The three functions that the archive may call. Their bytes are volatile, so that the compiler does not make a call
   of the function of its own loop. */
void *memset(void *to, int byte, size_t size);
void *memcpy(void *to, const void *from, size_t size);
void *memmove(void *to, const void *from, size_t size);

/* Makes bytes all the same. */
void *memset(void *to, int byte, size_t size)
{
    volatile uint8_t *out = to;
    for (size_t i = 0; i < size; i++)
        out[i] = (uint8_t)byte;
    return to;
}

/* Copies bytes to where none of them stands, from the first to the last. */
void *memcpy(void *to, const void *from, size_t size)
{
    volatile uint8_t *out = to;
    const uint8_t *in = from;
    for (size_t i = 0; i < size; i++)
        out[i] = in[i];
    return to;
}

/* Copies bytes to where some of them may stand: from the last to the first, if the copy begins within them. */
void *memmove(void *to, const void *from, size_t size)
{
    volatile uint8_t *out = to;
    const uint8_t *in = from;
    if ((uintptr_t)to <= (uintptr_t)from)
        return memcpy(to, from, size);
    for (size_t i = size; i > 0; i--)
        out[i - 1] = in[i - 1];
    return to;
}

/* Two machines with a region each, and an allocator's region of three pages. */
static const uint8_t CONFIG[] = {
    U16(2),                                                        /* machines */
    U16(1), U16(1),                                                /* number 1, with one region: */
    U64(0x0), U64(0x100000), U64(4), RF_KIND_ORDINARY,             /* guest start, host start, pages, kind */
    U16(2), U16(1),                                                /* number 2, with one region: */
    U64(0x0), U64(0x200000), U64(4), RF_KIND_ORDINARY,             /* guest start, host start, pages, kind */
    U64(0x10000000), U64(3)                                        /* the allocator's: host start, pages */
};

/* The machines by their numbers, and the allocator's host start. */
enum { FIRST = 1, SECOND = 2, POOL = 0x10000000 };

/* What the memories are made for. */
enum { MACHINES = 2, SLOTS = 1, FRAMES = 16, OWNABLE = 3 };

/* The five memories, and the spare ones for calls in bytes. */
static uint64_t table[RF_TABLE_WORDS];
static uint64_t zones[MACHINES * (3 + 8 * SLOTS)], spare_zones[MACHINES * (3 + 8 * SLOTS)];
static uint16_t tree[(FRAMES - 1) / 15], spare_tree[(FRAMES - 1) / 15];
static uint8_t owners[FRAMES], spare_owners[FRAMES];
static uint64_t words[OWNABLE * RF_FRAME_WORDS];

/* A list in bytes (docs/FORMAT.md) of two requests for a frame, and the words for its answers. */
static const uint8_t TWO_FRAMES[] = {255, 8, U64(0), U64(0), U64(0), U64(0), 8, U64(0), U64(0), U64(0), U64(0)};
static uint64_t answers[2 * (sizeof TWO_FRAMES / RF_REQUEST_BYTES)];

/* All five of them, as the functions take them. */
#define MONITOR LENT(table), LENT(zones), LENT(tree), LENT(owners), LENT(words)

/* Checks 1 to 9: the start, and the machines' regions. */
static int failure_with_regions(void)
{
    uint64_t host = 0;
    if (rf_start(CONFIG, sizeof CONFIG - 1, MONITOR) != RF_CONFIG_TOO_SHORT)
        return 1;
    if (rf_start(LENT(CONFIG), MONITOR) != RF_DONE)
        return 2;
    if (rf_add_zone(LENT(table), LENT(zones), FIRST) != RF_DONE)
        return 3;
    if (rf_add_zone(LENT(table), LENT(zones), 3) != RF_NO_MACHINE)
        return 4;
    if (rf_insert_region(LENT(table), LENT(zones), FIRST, 0x0, 0x200000, 4, RF_KIND_ORDINARY) != RF_NOT_GIVEN)
        return 5;
    if (rf_insert_region(LENT(table), LENT(zones), FIRST, 0x0, 0x100000, 4, RF_KIND_ORDINARY) != RF_DONE)
        return 6;
    if (rf_translate(LENT(table), LENT(zones), FIRST, RF_SET_PROCESSORS, 0x1234, &host) != RF_DONE)
        return 7;
    if (host != 0x101234)
        return 8;
    if (rf_translate(LENT(table), LENT(zones), FIRST, RF_SET_DEVICES, 0x1234, &host) != RF_NOT_MAPPED)
        return 9;
    return 0;
}

/* Checks 10 to 17: frames are taken, given back by their owner alone, and empty when they are given again. */
static int failure_with_frames(void)
{
    uint64_t addr = 0;
    if (rf_alloc(MONITOR, SECOND, &addr) != RF_NOT_PRESENT)
        return 10;
    if (rf_alloc(MONITOR, FIRST, &addr) != RF_DONE)
        return 11;
    if (addr != POOL)
        return 12;
    if (rf_add_zone(LENT(table), LENT(zones), SECOND) != RF_DONE)
        return 13;
    if (rf_dealloc(MONITOR, SECOND, POOL) != RF_NOT_YOURS)
        return 14;
    words[7] = 1;
    if (rf_remove_zone_whole(MONITOR, FIRST) != RF_DONE)
        return 15;
    if (words[7] != 0)
        return 16;
    if (rf_alloc_contiguous(MONITOR, SECOND, 4, 0, &addr) != RF_NO_ROOM)
        return 17;
    return 0;
}

/* What the list of two requests is answered, for the second machine. */
static uint32_t ask_for_two(uint64_t *index)
{
    uint64_t addr = 0;
    return rf_serve(MONITOR, LENT(spare_zones), LENT(spare_tree), LENT(spare_owners), SECOND, LENT(TWO_FRAMES),
                    LENT(answers), index, &addr);
}

/* Checks 18 to 24: a list of requests is done whole or not at all, and the memories are sound unless damaged. */
static int failure_with_lists(void)
{
    uint64_t index = 0;
    size_t frames = 0;
    if (ask_for_two(&index) != RF_DONE)
        return 18;
    if (answers[1] != POOL || answers[3] != POOL + RF_PAGE_BYTES)
        return 19;
    if (ask_for_two(&index) != RF_NO_ROOM || index != 1)
        return 20;
    if (rf_allocator_owned_count(LENT(tree), LENT(owners), POOL, 1, &frames) != RF_DONE)
        return 21;
    if (frames != 2)
        return 22;
    if (rf_check(MONITOR) != RF_DONE)
        return 23;
    words[2 * RF_FRAME_WORDS] = 1;
    if (rf_check(MONITOR) != RF_CORRUPT)
        return 24;
    return 0;
}

int first_failure(void);

/* The number of the first check that fails, or 0. */
int first_failure(void)
{
    int failure = failure_with_regions();
    if (failure == 0)
        failure = failure_with_frames();
    if (failure == 0)
        failure = failure_with_lists();
    return failure;
}
