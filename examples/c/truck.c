/*
 * A monitor in C: an outside-broadcast truck runs replay, graphics, sound and commentary as machines of four
 * companies. It is started from a configuration, serves their requests, refuses those that reach for what is
 * another's, and prints what each call answered.
 *
 * It assumes the proved archive (docs/LINKING.md). No machine runs here: their memory is addresses alone, and the
 * frames' own memory is an array, where a hypervisor lends the memory at the allocator's host start.
 */
#include <inttypes.h>
#include <stdio.h>

#include "common.h"

/* Four machines, what each may be given, and the allocator's region. */
static const uint8_t CONFIG[] = {
    U16(4),                    /* machines */

    U16(1),                    /* replay: its number */
    U16(3),                    /* its regions */
    U64(0x0),                  /* its memory: guest start */
    U64(0x100000),             /* host start */
    U64(64),                   /* pages */
    RF_KIND_ORDINARY,          /* kind */
    U64(0x1000000),            /* the pictures: guest start */
    U64(0x900000),             /* host start */
    U64(8),                    /* pages */
    RF_KIND_SHARED,            /* kind */
    U64(0x2000000),            /* its disks: guest start */
    U64(0xfe0000),             /* host start */
    U64(2),                    /* pages */
    RF_KIND_DEVICE,            /* kind */

    U16(2),                    /* graphics: its number */
    U16(2),                    /* its regions */
    U64(0x0),                  /* its memory: guest start */
    U64(0x200000),             /* host start */
    U64(64),                   /* pages */
    RF_KIND_ORDINARY,          /* kind */
    U64(0x1000000),            /* the pictures: guest start */
    U64(0x900000),             /* host start */
    U64(8),                    /* pages */
    RF_KIND_SHARED,            /* kind */

    U16(3),                    /* sound: its number */
    U16(2),                    /* its regions */
    U64(0x0),                  /* its memory: guest start */
    U64(0x300000),             /* host start */
    U64(32),                   /* pages */
    RF_KIND_ORDINARY,          /* kind */
    U64(0x2000000),            /* its mixer: guest start */
    U64(0xff0000),             /* host start */
    U64(1),                    /* pages */
    RF_KIND_DEVICE,            /* kind */

    U16(4),                    /* commentary: its number */
    U16(2),                    /* its regions */
    U64(0x0),                  /* its memory: guest start */
    U64(0x400000),             /* host start */
    U64(32),                   /* pages */
    RF_KIND_ORDINARY,          /* kind */
    U64(0x1800000),            /* the pictures: guest start */
    U64(0x900000),             /* host start */
    U64(8),                    /* pages */
    RF_KIND_SHARED,            /* kind */

    U64(0x10000000),           /* the allocator's region: host start */
    U64(12)                    /* pages */
};

/* The machines by their numbers. */
enum { REPLAY = 1, GRAPHICS = 2, SOUND = 3, COMMENTARY = 4 };

/* What the memories are made for: replay has the most regions, three; 16 is the smallest number of frames for 12
   pages; and the last two of these pages stay reserved. */
enum { MACHINES = 4, SLOTS = 3, FRAMES = 16, OWNABLE = 10 };

/* The five memories. */
static uint64_t table[RF_TABLE_WORDS];
static uint64_t zones[MACHINES * (3 + 8 * SLOTS)];
static uint16_t tree[(FRAMES - 1) / 15];
static uint8_t owners[FRAMES];
static uint64_t words[OWNABLE * RF_FRAME_WORDS];

/* Spare memory for calls in bytes. */
static uint64_t spare_zones[MACHINES * (3 + 8 * SLOTS)];
static uint16_t spare_tree[(FRAMES - 1) / 15];
static uint8_t spare_owners[FRAMES];

/* The first address of the allocator's region. */
static const uint64_t POOL = 0x10000000;

/* A region as a machine asks for it. */
struct region {
    const char *name;
    uint64_t guest, host, pages, kind;
};

/* The regions of the configuration that are asked for, and one that is in it for nobody. */
static const struct region REPLAYS_MEMORY = {"replay's memory", 0x0, 0x100000, 64, RF_KIND_ORDINARY};
static const struct region GRAPHICS_MEMORY = {"graphics' memory", 0x0, 0x200000, 64, RF_KIND_ORDINARY};
static const struct region COMMENTARYS_MEMORY = {"commentary's memory", 0x0, 0x400000, 32, RF_KIND_ORDINARY};
static const struct region PICTURES = {"the pictures", 0x1000000, 0x900000, 8, RF_KIND_SHARED};
static const struct region COMMENTARYS_PICTURES = {"the pictures", 0x1800000, 0x900000, 8, RF_KIND_SHARED};
static const struct region MORE_THAN_PICTURES = {"the pictures and more", 0x1000000, 0x900000, 9, RF_KIND_SHARED};

/* A list in bytes (docs/FORMAT.md): a frame, and then eleven in a run. And the words for its answers. */
static const uint8_t GREEDY[] = {255, 8, U64(0), U64(0), U64(0), U64(0), 9, U64(11), U64(0), U64(0), U64(0)};
static uint64_t answers[2 * (sizeof GREEDY / RF_REQUEST_BYTES)];

/* The own words of the frame at an address. */
static uint64_t *words_at(uint64_t addr)
{
    return words + (addr - POOL) / RF_PAGE_BYTES * RF_FRAME_WORDS;
}

/* The name of a machine. */
static const char *name_of(uint64_t number)
{
    static const char *const names[] = {"", "replay", "graphics", "sound", "commentary"};
    return number <= COMMENTARY ? names[number] : "a stranger";
}

/* An answer in words, of those that are met here. */
static const char *answer_of(uint32_t code)
{
    switch (code) {
    case RF_DONE: return "done";
    case RF_NO_ROOM: return "refused: no room";
    case RF_NOT_YOURS: return "refused: not yours";
    case RF_CORRUPT: return "refused: the memories are not sound";
    case RF_NO_MACHINE: return "refused: no such machine";
    case RF_NOT_PRESENT: return "refused: the machine is not there";
    case RF_NOT_EMPTY: return "refused: it still has a region or a frame";
    case RF_NOT_GIVEN: return "refused: not given by the configuration";
    case RF_OVERLAP: return "refused: it overlaps a region of the set";
    case RF_NOT_MAPPED: return "refused: not mapped";
    default: return "refused: see enum rf_code";
    }
}

/* Prints what a machine did to what, and the answer. */
static void show(uint64_t number, const char *did, const char *what, uint32_t code)
{
    printf("  %-10s %-16s %-22s %2" PRIu32 "  %s\n", name_of(number), did, what, code, answer_of(code));
}

/* The same, where done means that there is an address; and answers that. */
static uint64_t show_address(uint64_t number, const char *did, const char *what, uint32_t code, uint64_t addr)
{
    if (code != RF_DONE) {
        show(number, did, what, code);
        return 0;
    }
    printf("  %-10s %-16s %-22s %2" PRIu32 "  at 0x%" PRIx64 "\n", name_of(number), did, what, code, addr);
    return addr;
}

/* The machine comes. */
static void add(uint64_t number)
{
    show(number, "is added", "", rf_add_zone(LENT(table), LENT(zones), number));
}

/* The machine goes, which has nothing left. */
static void remove_empty(uint64_t number)
{
    uint32_t code = rf_remove_zone(LENT(table), LENT(zones), LENT(tree), LENT(owners), number);
    show(number, "is removed", "", code);
}

/* The machine goes, with all that it has. */
static void remove_whole(uint64_t number)
{
    uint32_t code = rf_remove_zone_whole(LENT(table), LENT(zones), LENT(tree), LENT(owners), LENT(words), number);
    show(number, "is removed", "with all that it has", code);
}

/* The machine's processors are to reach a region. */
static void insert(uint64_t number, struct region r)
{
    uint32_t code = rf_insert_region(LENT(table), LENT(zones), number, r.guest, r.host, r.pages, r.kind);
    show(number, "inserts", r.name, code);
}

/* The machine's devices are to reach a region. */
static void insert_for_devices(uint64_t number, struct region r)
{
    uint32_t code = rf_insert_iommu_region(LENT(table), LENT(zones), number, r.guest, r.host, r.pages, r.kind);
    show(number, "lets devices at", r.name, code);
}

/* The machine's processors are to reach a region no longer. */
static void remove_region(uint64_t number, struct region r)
{
    uint32_t code = rf_remove_region(LENT(table), LENT(zones), number, r.guest, r.host, r.pages, r.kind);
    show(number, "removes", r.name, code);
}

/* Where a guest address of the machine stands in the host. */
static void translate(uint64_t number, const char *what, uint64_t guest)
{
    uint64_t host = 0;
    uint32_t code = rf_translate(LENT(table), LENT(zones), number, RF_SET_PROCESSORS, guest, &host);
    show_address(number, "reaches", what, code, host);
}

/* The address of a frame for the machine, or 0. */
static uint64_t take_frame(uint64_t number)
{
    uint64_t addr = 0;
    uint32_t code = rf_alloc(LENT(table), LENT(zones), LENT(tree), LENT(owners), LENT(words), number, &addr);
    return show_address(number, "takes", "a frame", code, addr);
}

/* The address of a run of frames for the machine, the first a multiple of 2 to a power, or 0. */
static uint64_t take_run(uint64_t number, const char *what, size_t size, size_t align_log2)
{
    uint64_t addr = 0;
    uint32_t code = rf_alloc_contiguous(LENT(table), LENT(zones), LENT(tree), LENT(owners), LENT(words), number,
                                        size, align_log2, &addr);
    return show_address(number, "takes", what, code, addr);
}

/* The machine gives back the frame at an address. */
static void give_back(uint64_t number, const char *what, uint64_t addr)
{
    uint32_t code = rf_dealloc(LENT(table), LENT(zones), LENT(tree), LENT(owners), LENT(words), number, addr);
    show(number, "gives back", what, code);
}

/* The machine asks for more than there is, in a list that is done whole or not at all. */
static void ask_greedily(uint64_t number)
{
    uint64_t index = 0, addr = 0;
    uint32_t code = rf_serve(LENT(table), LENT(zones), LENT(tree), LENT(owners), LENT(words), LENT(spare_zones),
                             LENT(spare_tree), LENT(spare_owners), number, LENT(GREEDY), LENT(answers), &index,
                             &addr);
    show(number, "asks in a list", "for 1 and 11 frames", code);
    if (code != RF_DONE)
        printf("             stopped at request %" PRIu64 " of the list; nothing is done\n", index);
}

/* How many frames the machine owns, of which the allocator knows the place in the configuration. */
static void show_frames(uint64_t number)
{
    size_t frames = 0;
    rf_allocator_owned_count(LENT(tree), LENT(owners), POOL, (uint8_t)(number - 1), &frames);
    printf("  %-10s owns frames: %zu\n", name_of(number), frames);
}

/* Whether the memories are sound. */
static void show_check(void)
{
    uint32_t code = rf_check(LENT(table), LENT(zones), LENT(tree), LENT(owners), LENT(words));
    printf("  %-50s %2" PRIu32 "  %s\n", "the memories are checked", code, answer_of(code));
}

/* The machines come, with what the configuration gives them. */
static void set_up(void)
{
    puts("The machines are set up.");
    add(REPLAY);
    add(GRAPHICS);
    add(SOUND);
    add(COMMENTARY);
    add(9);
    insert(REPLAY, REPLAYS_MEMORY);
    insert(REPLAY, PICTURES);
    insert_for_devices(REPLAY, PICTURES);
    insert(GRAPHICS, GRAPHICS_MEMORY);
    insert(GRAPHICS, PICTURES);
    insert(COMMENTARY, COMMENTARYS_MEMORY);
    insert(COMMENTARY, COMMENTARYS_PICTURES);
    translate(COMMENTARY, "the second picture", 0x1801000);
}

/* Graphics reaches for what is not its own, and gets none of it. */
static void misbehave(uint64_t of_replay)
{
    puts("Graphics misbehaves.");
    insert(GRAPHICS, REPLAYS_MEMORY);
    insert(GRAPHICS, MORE_THAN_PICTURES);
    insert(GRAPHICS, GRAPHICS_MEMORY);
    translate(GRAPHICS, "replay's disks", 0x2000000);
    give_back(GRAPHICS, "replay's frame", of_replay);
    take_run(GRAPHICS, "11 frames in a run", 11, 0);
    ask_greedily(GRAPHICS);
    show_frames(GRAPHICS);
}

/* Graphics is gone with all that it had, and what it wrote is gone too. */
static void recover(uint64_t of_graphics)
{
    uint64_t addr;
    puts("Graphics crashes, with a word of its own in its frame.");
    *words_at(of_graphics) = 0xc0ffee;
    remove_whole(GRAPHICS);
    addr = take_frame(REPLAY);
    if (addr != 0)
        printf("             the frame's first word is %" PRIu64 "\n", *words_at(addr));
    take_frame(GRAPHICS);
    show_check();
}

/* A machine leaves in order, and the memories are damaged. */
static void end(void)
{
    puts("The match is over.");
    remove_empty(COMMENTARY);
    remove_region(COMMENTARY, COMMENTARYS_PICTURES);
    remove_region(COMMENTARY, COMMENTARYS_MEMORY);
    remove_empty(COMMENTARY);
    show_check();
    puts("Somebody else writes the tree.");
    tree[0] = 0xffff;
    show_check();
}

/* The story of a match. */
int main(void)
{
    uint64_t of_replay, of_graphics;
    uint32_t code = rf_start(LENT(CONFIG), LENT(table), LENT(zones), LENT(tree), LENT(owners), LENT(words));
    printf("The monitor is started: %" PRIu32 "  %s\n", code, answer_of(code));
    if (code != RF_DONE)
        return 1;
    set_up();
    puts("Replay and graphics take frames.");
    of_replay = take_frame(REPLAY);
    take_run(REPLAY, "4 frames at 4", 4, 2);
    of_graphics = take_frame(GRAPHICS);
    if (of_replay == 0 || of_graphics == 0)
        return 1;
    misbehave(of_replay);
    recover(of_graphics);
    end();
    return 0;
}
