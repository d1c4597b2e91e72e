/*
 * Replayframes: which page frames of a server belong to which virtual machine. For hypervisors that run machines
 * of companies that don't trust each other.
 *
 * The functions are written in Rattle and proved: each takes any words, bytes and numbers, ends, reads and writes
 * nothing but the memory that is lent to it, and answers as its contract says. They keep no state of their own,
 * allocate nothing, take no lock, and do no input or output. This header assumes C99 or C++11 on a processor with
 * 64-bit addresses, and of a C library the two headers below, which compilers have without one.
 *
 * To link: ./archive in the repository's root writes target/libreplayframes.a, the one file to name behind your own
 * objects. Its undefined symbols are at most memset, memcpy and memmove; a program without a C library defines
 * them (examples/freestanding). docs/LINKING.md goes through it step by step, and examples/c is a whole program.
 *
 *
 * THE FIVE MEMORIES
 *
 * Everything that the monitor knows stands in five memories that the caller lends to each call, always in this
 * order and by these names. A memory is a pointer followed by a length that counts elements and not bytes
 * (table and table_len).
 *
 *   table   uint64_t   8325                 the configuration
 *   zones   uint64_t   m * (3 + 8 * s)      the machines: whether each is there, and its two sets of regions
 *   tree    uint16_t   (f - 1) / 15         which frames are free
 *   owners  uint8_t    f                    who owns which frame
 *   words   uint64_t   512 * k              the frames' own memory
 *
 *   m   the machines of the configuration, at most 64
 *   s   the slots of a set: at least as many as the machine with the most regions is given, which are at most 32
 *   n   the pages of the allocator's region
 *   f   the smallest of 16, 256, 4096, 65536, 1048576, ... (powers of 16) that is at least n; a larger one will do
 *   k   the frames that machines can own, at most n: the first k pages of the allocator's region
 *
 * rf_to_lend computes all five, with k = n. The pages of the allocator's region from k on are reserved: no machine
 * is ever given one, so the other memories may lie there. Frame i has the 512 words from words[512 * i] on, and its
 * host address is the region's host start + 4096 * i.
 *
 *
 * WHAT THE CALLER MUST KEEP
 *
 * Nothing checks these. What is proved holds if they hold.
 *
 *  1. The memories are the same from call to call, with the same lengths, from rf_start on.
 *  2. Nobody else writes them, but machines the frames that they own.
 *  3. One call at a time on the same memories. Locks are the caller's.
 *  4. No two pointers of one call overlap, those for values among them. No memory but words lies in a page that a
 *     machine is given or can own.
 *  5. A pointer is not null, also where its length is 0, and is aligned for its type. Behind it there is as much as
 *     the length says.
 *  6. number is that of the machine that asks: the caller has authenticated it. Nothing in a machine's request can
 *     name another machine.
 *  7. words is the memory at the host start of the allocator's region, as the monitor sees it.
 *  8. A machine is shown nothing of the words for replies and answers but what is told to it, and nothing of the
 *     spare memory (see "Calls in bytes").
 *  9. The functions are called as C functions of the System V ABI for x86-64: they use SSE registers, and the 128
 *     bytes beneath the stack pointer (the red zone). Where a hypervisor's interrupts may come during a call, they
 *     run on another stack and save these registers.
 *
 *
 * WHAT A CALL ANSWERS
 *
 * Each function answers RF_DONE, which is 0, or a reason: the first that applies, in the order in which they are
 * named with it. A refusal leaves every word and byte of the five memories, and what the pointers for values
 * point to, except where a function says that it names a place. After rf_start the memories are sound, and every
 * function of the sections "Machines" and "Calls in bytes" keeps them so; RF_CORRUPT is then never answered there.
 */
#ifndef REPLAYFRAMES_H
#define REPLAYFRAMES_H

#include <stddef.h>
#include <stdint.h>

#if SIZE_MAX != UINT64_MAX
#error "replayframes: the archive is for processors with 64-bit addresses: compile for one"
#endif

#ifdef __cplusplus
extern "C" {
#endif

/* How many words a table has. */
#define RF_TABLE_WORDS 8325
/* How many words a frame has. */
#define RF_FRAME_WORDS 512
/* How many bytes a page and a frame have. */
#define RF_PAGE_BYTES 4096
/* How many bytes a request has: see docs/FORMAT.md. */
#define RF_REQUEST_BYTES 33

/* ---- What the functions answer -------------------------------------------------------------------------------- */

/* 0 or a reason, and what to do about it. */
enum rf_code {
    /* It is done, and the value is written. */
    RF_DONE = 0,

    /* The tree's words are no full tree. Lend 1, 17, 273, 4369, 69905, ... words, as rf_to_lend says. */
    RF_NOT_FULL = 1,
    /* No full tree has that many frames. Ask for a power of 16, or from rf_to_lend for 2^52 frames at most. */
    RF_NO_SIZE = 2,
    /* There is no such frame: its number is the tree's number of frames or above. Ask for a lower one. */
    RF_OUTSIDE = 3,
    /* The range or the run has no frame. Ask for one at least. */
    RF_EMPTY = 4,
    /* The range ends before it starts. Exchange its two ends. */
    RF_REVERSED = 5,
    /* No frame, or no such run of frames, is free; or no slot of the set. Give some back, or ask for fewer. */
    RF_NO_ROOM = 6,
    /* The frame is free already. It is given back twice, or was never taken: look for the mistake. */
    RF_NOT_TAKEN = 7,
    /* A summary doesn't agree with what it summarises, or the memories aren't sound: they were not started, somebody
       else wrote them, or they are lent with other lengths. Stop, and start again from the configuration. */
    RF_CORRUPT = 8,
    /* There are not as many bytes of owners as the tree has frames. Lend 15 * tree_len + 1 bytes. */
    RF_UNMATCHED = 9,
    /* The base is no multiple of 4096. Name the first address of a page. */
    RF_BAD_BASE = 10,
    /* There is no such client. Number clients from 0 to 63. */
    RF_NO_CLIENT = 11,
    /* The address is below the first frame. Give back an address that was given. */
    RF_BELOW = 12,
    /* The address is not the first of a frame. Give back an address that was given. */
    RF_NOT_AT_FRAME = 13,
    /* The frame is another's, or reserved. Whoever asks doesn't own it: refuse it that. */
    RF_NOT_YOURS = 14,
    /* There are not that many frames. Lend a larger tree, or start with fewer. */
    RF_TOO_MANY = 15,
    /* A frame would end past 2^64 - 1. Choose a lower base, or fewer frames. */
    RF_TOO_HIGH = 16,
    /* A client owns a frame of the range. Have it given back first. */
    RF_TAKEN = 17,
    /* The bit and the byte of a frame are not in order. Somebody else wrote the memories: start again. */
    RF_WRONG = 18,
    /* The frames' words are not those of whole frames, or of more than there are. Lend 512 for each frame. */
    RF_UNBACKED = 19,
    /* The frame has no words of its own. Ask for frames below words_len / 512. */
    RF_BEYOND = 20,
    /* A frame is free and not empty. Somebody else wrote the frames' words: start again. */
    RF_DIRTY = 21,

    /* The configuration's bytes end within a field. Write it whole. Place: the field's offset. */
    RF_CONFIG_TOO_SHORT = 32,
    /* There are more than 64 machines. Configure fewer. */
    RF_CONFIG_TOO_MANY_MACHINES = 33,
    /* A machine has more than 32 regions. Join or drop some. Place: the machine. */
    RF_CONFIG_TOO_MANY_REGIONS = 34,
    /* A region's kind is none of 0, 1 and 2. Mend it. Places: machine, region. */
    RF_CONFIG_UNKNOWN_KIND = 35,
    /* Two machines have one number. Give one of them another. Places: machine, machine. */
    RF_CONFIG_SAME_NUMBER = 36,
    /* A region is not valid. Mend it as the fault says. Places: machine, region, fault (enum rf_fault). */
    RF_CONFIG_NOT_VALID = 37,
    /* The allocator's region is not valid. Mend it as the fault says. Place: fault (enum rf_fault). */
    RF_CONFIG_POOL_NOT_VALID = 38,
    /* An ordinary or device region has a host page of another region. Move one. Places: machine, region, and the
       other's machine, region. */
    RF_CONFIG_HOST_SHARED = 39,
    /* Shared regions of two machines have a host page in common, but not all of them. Give both the same host start
       and pages, or move one. Places: machine, region, machine, region. */
    RF_CONFIG_NOT_COINCIDING = 40,
    /* Two shared regions of one machine have a host page in common. Drop or move one. Places: machine, region,
       region. */
    RF_CONFIG_ONE_MACHINE = 41,
    /* Two regions of one machine have a guest page in common. Move one. Places: machine, region, region. */
    RF_CONFIG_GUEST_SHARED = 42,
    /* A region has a host page of the allocator's region. Move one. Places: machine, region. */
    RF_CONFIG_POOL_SHARED = 43,
    /* Bytes are left over after the allocator's region. Drop them, or mend a count. Place: their offset. */
    RF_CONFIG_LEFT_OVER = 44,
    /* The table has not 8325 words. Lend RF_TABLE_WORDS of them. */
    RF_NO_TABLE = 45,

    /* No machine of the configuration has the number, or the place. Configure it, or mend the number. */
    RF_NO_MACHINE = 48,
    /* The machine is there already. Remove it before it is added again. */
    RF_PRESENT = 49,
    /* The machine is not there. Add it first. */
    RF_NOT_PRESENT = 50,
    /* The machine still has a region or a frame. Take them back first, or remove it whole. */
    RF_NOT_EMPTY = 51,
    /* The configuration doesn't give the machine that region, the same in every field. Refuse it that. */
    RF_NOT_GIVEN = 52,
    /* The region has a guest page in common with one of the set. Remove that one first. */
    RF_OVERLAP = 53,
    /* That very region, the same in every field, is not in the set. Name it as it was inserted. */
    RF_NOT_IN_SET = 54,
    /* No region of the set has the guest address. The machine may not reach it: refuse it that. */
    RF_NOT_MAPPED = 55,
    /* There is no such kind. Kinds are numbered 0 to 2 (enum rf_kind). */
    RF_NO_KIND = 56,
    /* There is no such set. Sets are numbered 0 and 1 (enum rf_set). */
    RF_NO_SET = 57,
    /* The machines' words are not as many as any number of slots gives. Lend m * (3 + 8 * s). */
    RF_ZONES = 58,
    /* A machine is given more regions than a set has slots. Lend more words for the machines. */
    RF_FEW_SLOTS = 59,
    /* The allocator's region has more pages than the tree has frames. Lend a larger tree and as many owners. */
    RF_POOL_TOO_LARGE = 60,
    /* More frames have words than the allocator's region has pages. Lend fewer words for the frames. */
    RF_FRAMES_TOO_MANY = 61,
    /* The bytes of a request mean no request. Answer the machine so; docs/FORMAT.md has the bytes. */
    RF_MALFORMED = 62,
    /* The bytes are no sequence of calls. Write each call's header and its length whole (docs/FORMAT.md). */
    RF_BROKEN = 63,
    /* The memory for replies or answers has too few words. Lend as many as the function says. */
    RF_FEW_WORDS = 64,
    /* A spare memory is not as long as the memory that it is to hold. Lend as much as of that one. */
    RF_SPARE = 65,
    /* There is no such region: the machine, or its set, has fewer. Ask for a place below their count. */
    RF_NO_REGION = 66,
    /* More than 64 machines are asked for. Ask for fewer. */
    RF_MANY_MACHINES = 67,
    /* More than 32 slots are asked for. Ask for fewer. */
    RF_MANY_SLOTS = 68
};

/* What is wrong with a region of a configuration. */
enum rf_fault {
    /* Nothing. */
    RF_FAULT_NOTHING = 0,
    /* It has no page. */
    RF_FAULT_NO_PAGE = 1,
    /* Its guest start is no multiple of 4096. */
    RF_FAULT_GUEST_START = 2,
    /* Its host start is no multiple of 4096. */
    RF_FAULT_HOST_START = 3,
    /* Its guest end passes 2^64 - 1. */
    RF_FAULT_GUEST_END = 4,
    /* Its host end passes 2^64 - 1. */
    RF_FAULT_HOST_END = 5
};

/* What a region is for. */
enum rf_kind {
    /* Memory of one machine. */
    RF_KIND_ORDINARY = 0,
    /* The registers of a device, given to one machine. */
    RF_KIND_DEVICE = 1,
    /* Memory that a machine shares with others. */
    RF_KIND_SHARED = 2
};

/* A set of a machine's regions. */
enum rf_set {
    /* What its processors reach. */
    RF_SET_PROCESSORS = 0,
    /* What its devices reach, through the IOMMU. */
    RF_SET_DEVICES = 1
};

/* What a frame is that no client owns. */
enum rf_owner {
    /* It is free. */
    RF_FREE = 64,
    /* It is reserved. */
    RF_RESERVED = 65
};

/* ---- Configuration --------------------------------------------------------------------------------------------
 *
 * A configuration says which machines there may be, which regions each may be given, and where the allocator's
 * frames are. It is bytes, every number little-endian and without a sign, one field after the other:
 *
 *   2 bytes   how many machines, at most 64; and for each of them:
 *     2         its number, which no other has
 *     2         how many regions, at most 32; and for each of them:
 *       8         guest start, a multiple of 4096
 *       8         host start, a multiple of 4096
 *       8         pages, one at least
 *       1         kind (enum rf_kind)
 *   8         host start of the allocator's region, a multiple of 4096
 *   8         its pages, one at least
 *
 * Ordinary and device regions have no host page in common with any other region. Shared regions of two machines
 * have none in common, or the same host start and pages. Regions of one machine have no guest page in common. The
 * allocator's region has no page in common with any. Nothing is left over at the end.
 *
 * Here machines and regions are named by their places in the bytes, counted from 0. */

/* Whether bytes are a configuration that is right.
 *   first .. fourth   are written always: with RF_DONE the number of machines and 0, 0, 0; with a reason its places
 *                     in their order, and 0 after them.
 * Answers RF_DONE, or RF_CONFIG_TOO_SHORT to RF_CONFIG_LEFT_OVER for the first rule that is broken. */
uint32_t rf_config_check(const uint8_t *bytes, size_t bytes_len, size_t *first, size_t *second, size_t *third,
                         size_t *fourth);

/* Writes a configuration that is right into the table. rf_start does that too.
 * Answers RF_DONE, RF_NO_TABLE, or RF_CONFIG_TOO_SHORT to RF_CONFIG_LEFT_OVER. */
uint32_t rf_config_load(const uint8_t *bytes, size_t bytes_len, uint64_t *table, size_t table_len);

/* Writes how many machines the table has to *machines.
 * Answers RF_DONE or RF_NO_TABLE. */
uint32_t rf_config_machines(const uint64_t *table, size_t table_len, uint64_t *machines);

/* Writes the number of the machine at a place to *number.
 * Answers RF_DONE, RF_NO_TABLE or RF_NO_MACHINE. */
uint32_t rf_config_number(const uint64_t *table, size_t table_len, uint64_t place, uint64_t *number);

/* Writes how many regions the machine at a place is given to *count.
 * Answers RF_DONE, RF_NO_TABLE or RF_NO_MACHINE. */
uint32_t rf_config_regions(const uint64_t *table, size_t table_len, uint64_t place, uint64_t *count);

/* Writes region i that the machine at a place is given to *guest, *host, *pages and *kind.
 * Answers RF_DONE, RF_NO_TABLE, RF_NO_MACHINE or RF_NO_REGION. */
uint32_t rf_config_region(const uint64_t *table, size_t table_len, uint64_t place, uint64_t i, uint64_t *guest,
                          uint64_t *host, uint64_t *pages, uint64_t *kind);

/* Writes the allocator's region to *host and *pages.
 * Answers RF_DONE or RF_NO_TABLE. */
uint32_t rf_config_pool(const uint64_t *table, size_t table_len, uint64_t *host, uint64_t *pages);

/* ---- Lending -------------------------------------------------------------------------------------------------- */

/* How much to lend.
 *   machines   of the configuration, at most 64
 *   slots      of a set, at most 32: as many regions as one machine is given at most
 *   frames     the pages of the allocator's region, at most 2^52
 *   table .. words   how many elements of each of the five memories are to be lent
 * Answers RF_DONE, RF_MANY_MACHINES, RF_MANY_SLOTS or RF_NO_SIZE. */
uint32_t rf_to_lend(uint64_t machines, uint64_t slots, uint64_t frames, uint64_t *table, uint64_t *zones,
                    uint64_t *tree, uint64_t *owners, uint64_t *words);

/* ---- Start and check ------------------------------------------------------------------------------------------ */

/* Starts a monitor. Whatever the memories held, they are those of the configuration afterwards: no machine is there,
 * the frames with words are free and cleared, all others reserved.
 *   bytes   the configuration, which is not needed after the call
 * Answers RF_DONE, RF_NO_TABLE, RF_CONFIG_TOO_SHORT to RF_CONFIG_LEFT_OVER (rf_config_check has the places), RF_ZONES,
 * RF_FEW_SLOTS, RF_NOT_FULL, RF_UNMATCHED, RF_UNBACKED, RF_POOL_TOO_LARGE or RF_FRAMES_TOO_MANY. */
uint32_t rf_start(const uint8_t *bytes, size_t bytes_len, uint64_t *table, size_t table_len, uint64_t *zones,
                  size_t zones_len, uint16_t *tree, size_t tree_len, uint8_t *owners, size_t owners_len,
                  uint64_t *words, size_t words_len);

/* Whether the memories are sound: RF_DONE exactly if they are. It looks at all of them, and at every word of every
 * free frame. Call it where memories were kept across a restart, or are in doubt.
 * Answers RF_DONE or, of the first fault in the order of table, zones and frames, RF_ZONES, RF_FEW_SLOTS,
 * RF_POOL_TOO_LARGE or RF_FRAMES_TOO_MANY, and RF_CORRUPT for every other. */
uint32_t rf_check(const uint64_t *table, size_t table_len, const uint64_t *zones, size_t zones_len,
                  const uint16_t *tree, size_t tree_len, const uint8_t *owners, size_t owners_len,
                  const uint64_t *words, size_t words_len);

/* ---- Machines -------------------------------------------------------------------------------------------------
 *
 * What a machine asks for. number, that of the configuration, says which machine; it acts on itself alone. Addresses
 * are in bytes.
 *
 * Beside the answers that are named with it, each function answers RF_NO_MACHINE where no machine has the number,
 * RF_NOT_PRESENT where the machine is not there, unless that is what is asked, and RF_CORRUPT only where the memories
 * are not sound. RF_NO_KIND, RF_NO_SET and RF_NO_TABLE come before these, in that order, all others after them. */

/* Adds the machine, which then has no region and no frame.
 * Answers RF_DONE, RF_PRESENT. */
uint32_t rf_add_zone(const uint64_t *table, size_t table_len, uint64_t *zones, size_t zones_len, uint64_t number);

/* Removes the machine, which has no region in either set and no frame.
 * Answers RF_DONE, RF_NOT_EMPTY. */
uint32_t rf_remove_zone(const uint64_t *table, size_t table_len, uint64_t *zones, size_t zones_len,
                        const uint16_t *tree, size_t tree_len, const uint8_t *owners, size_t owners_len,
                        uint64_t number);

/* Removes the machine with all its regions and all its frames, which are cleared and free.
 * Answers RF_DONE. */
uint32_t rf_remove_zone_whole(const uint64_t *table, size_t table_len, uint64_t *zones, size_t zones_len,
                              uint16_t *tree, size_t tree_len, uint8_t *owners, size_t owners_len, uint64_t *words,
                              size_t words_len, uint64_t number);

/* Puts a region into the set of the machine's processors. The configuration must give it the machine, the same in
 * every field.
 *   guest, host, pages, kind   the region, its kind one of enum rf_kind
 * Answers RF_DONE, RF_NO_KIND, RF_NOT_GIVEN, RF_OVERLAP; RF_NO_ROOM only where the memories are not sound. */
uint32_t rf_insert_region(const uint64_t *table, size_t table_len, uint64_t *zones, size_t zones_len,
                          uint64_t number, uint64_t guest, uint64_t host, uint64_t pages, uint64_t kind);

/* Takes a region out of the set of the machine's processors: that very region, the same in every field.
 *   guest, host, pages, kind   the region
 * Answers RF_DONE, RF_NO_KIND, RF_NOT_IN_SET. */
uint32_t rf_remove_region(const uint64_t *table, size_t table_len, uint64_t *zones, size_t zones_len,
                          uint64_t number, uint64_t guest, uint64_t host, uint64_t pages, uint64_t kind);

/* As rf_insert_region, for the set of the machine's devices. */
uint32_t rf_insert_iommu_region(const uint64_t *table, size_t table_len, uint64_t *zones, size_t zones_len,
                                uint64_t number, uint64_t guest, uint64_t host, uint64_t pages, uint64_t kind);

/* As rf_remove_region, for the set of the machine's devices. */
uint32_t rf_remove_iommu_region(const uint64_t *table, size_t table_len, uint64_t *zones, size_t zones_len,
                                uint64_t number, uint64_t guest, uint64_t host, uint64_t pages, uint64_t kind);

/* Writes the host address that a guest address stands for to *host.
 *   which   through which set (enum rf_set)
 *   addr    the guest address
 * Answers RF_DONE, RF_NO_SET, RF_NOT_MAPPED. */
uint32_t rf_translate(const uint64_t *table, size_t table_len, const uint64_t *zones, size_t zones_len,
                      uint64_t number, uint64_t which, uint64_t addr, uint64_t *host);

/* Gives the machine the lowest free frame, which is all 0, and writes its host address to *addr.
 * Answers RF_DONE, RF_NO_ROOM. */
uint32_t rf_alloc(const uint64_t *table, size_t table_len, const uint64_t *zones, size_t zones_len, uint16_t *tree,
                  size_t tree_len, uint8_t *owners, size_t owners_len, const uint64_t *words, size_t words_len,
                  uint64_t number, uint64_t *addr);

/* Gives the machine the lowest run of free frames, all 0, that is aligned, and writes the first one's host address
 * to *addr.
 *   size         how many frames, one at least
 *   align_log2   the first frame's number is a multiple of 2 to this power: its host address is one of that many
 *                pages if the allocator's host start is
 * Answers RF_DONE, RF_EMPTY, RF_NO_ROOM. */
uint32_t rf_alloc_contiguous(const uint64_t *table, size_t table_len, const uint64_t *zones, size_t zones_len,
                             uint16_t *tree, size_t tree_len, uint8_t *owners, size_t owners_len,
                             const uint64_t *words, size_t words_len, uint64_t number, size_t size,
                             size_t align_log2, uint64_t *addr);

/* The machine gives back a frame, which is cleared.
 *   addr   its host address
 * Answers RF_DONE, RF_BELOW, RF_NOT_AT_FRAME, RF_OUTSIDE, RF_NOT_TAKEN, RF_NOT_YOURS. */
uint32_t rf_dealloc(const uint64_t *table, size_t table_len, const uint64_t *zones, size_t zones_len, uint16_t *tree,
                    size_t tree_len, uint8_t *owners, size_t owners_len, uint64_t *words, size_t words_len,
                    uint64_t number, size_t addr);

/* The machine gives back consecutive frames, all or none; they are cleared.
 *   addr    the first one's host address
 *   count   how many, one at least
 * Answers RF_DONE, RF_BELOW, RF_NOT_AT_FRAME, RF_EMPTY, RF_OUTSIDE, RF_NOT_TAKEN, RF_NOT_YOURS. */
uint32_t rf_dealloc_contiguous(const uint64_t *table, size_t table_len, const uint64_t *zones, size_t zones_len,
                               uint16_t *tree, size_t tree_len, uint8_t *owners, size_t owners_len, uint64_t *words,
                               size_t words_len, uint64_t number, size_t addr, size_t count);

/* Writes to *there 1 if the machine is there, and 0 if it is not, which is no refusal.
 * Answers RF_DONE, RF_NO_TABLE. */
uint32_t rf_zone_there(const uint64_t *table, size_t table_len, const uint64_t *zones, size_t zones_len,
                       uint64_t number, uint8_t *there);

/* Writes how many regions a set of the machine has to *count: 0 where the machine is not there, which is no refusal.
 *   which   the set (enum rf_set)
 * Answers RF_DONE, RF_NO_SET, RF_NO_TABLE. */
uint32_t rf_zone_regions(const uint64_t *table, size_t table_len, const uint64_t *zones, size_t zones_len,
                         uint64_t number, uint64_t which, uint64_t *count);

/* Writes region i of a set of the machine, in the order of their guest starts, to *guest, *host, *pages and *kind.
 *   which   the set (enum rf_set)
 *   i       its place, counted from 0
 * Answers RF_DONE, RF_NO_SET, RF_NO_TABLE; RF_NO_REGION, also where the machine is not there. */
uint32_t rf_zone_region(const uint64_t *table, size_t table_len, const uint64_t *zones, size_t zones_len,
                        uint64_t number, uint64_t which, uint64_t i, uint64_t *guest, uint64_t *host,
                        uint64_t *pages, uint64_t *kind);

/* ---- Calls in bytes -------------------------------------------------------------------------------------------
 *
 * The same requests as bytes that a machine hands over: one request, or a list of requests that are all done or
 * none. docs/FORMAT.md has the bytes, and what is written for replies and answers.
 *
 * Beside the five memories the caller lends spare ones, of exactly as many elements as zones, tree and owners; what
 * they hold before a call doesn't matter, and after it is nobody's to read. A call that is not done leaves the five
 * memories; the spare memories may change, and of the words for answers those of a list's requests. */

/* Serves a call of the machine.
 *   number    the machine that asks
 *   bytes     the call
 *   answers   at least 2 words for each 33 bytes of the call. Of a list that is all done they hold the code and the
 *             address (0 where there is none) of each request in turn; of another call nothing is said of them
 *   index     which request of a list is refused or malformed, counted from 0, is written here, and 0 where the call
 *             is malformed and no list; else it is left
 *   address   the host address in the answer to one request is written here; it is left where there is none
 * Answers RF_DONE, RF_FEW_WORDS, RF_SPARE, RF_MALFORMED, or what the function of the request answers: of a list that
 * of the first request that is refused. */
uint32_t rf_serve(const uint64_t *table, size_t table_len, uint64_t *zones, size_t zones_len, uint16_t *tree,
                  size_t tree_len, uint8_t *owners, size_t owners_len, uint64_t *words, size_t words_len,
                  uint64_t *spare_zones, size_t spare_zones_len, uint16_t *spare_tree, size_t spare_tree_len,
                  uint8_t *spare_owners, size_t spare_owners_len, uint64_t number, const uint8_t *bytes,
                  size_t bytes_len, uint64_t *answers, size_t answers_len, uint64_t *index, uint64_t *address);

/* Serves a sequence of calls, before each of which stands the number of the machine that asks. A call that is
 * refused or malformed is replied to so, and the next one is served.
 *   bytes     the sequence
 *   replies   at least 3 words for each 16 bytes of the sequence: the code, the index and the address of each call
 *   answers   at least 2 words for each 33 bytes of the sequence: the answers to lists
 *   offset    how many calls were served is written here; with RF_BROKEN the offset of the call that is not whole
 * Answers RF_DONE, RF_FEW_WORDS, RF_SPARE; RF_BROKEN, and then no call was served. */
uint32_t rf_run(const uint64_t *table, size_t table_len, uint64_t *zones, size_t zones_len, uint16_t *tree,
                size_t tree_len, uint8_t *owners, size_t owners_len, uint64_t *words, size_t words_len,
                uint64_t *spare_zones, size_t spare_zones_len, uint16_t *spare_tree, size_t spare_tree_len,
                uint8_t *spare_owners, size_t spare_owners_len, const uint8_t *bytes, size_t bytes_len,
                uint64_t *replies, size_t replies_len, uint64_t *answers, size_t answers_len, uint64_t *offset);

/* ---- The shared allocator -------------------------------------------------------------------------------------
 *
 * The layer beneath machines: frames that clients own. A monitor that uses the functions above changes its memories
 * by those alone; of these it may call the ones that only look. An allocator of its own takes a tree, as many owners
 * as the tree has frames, and a base.
 *
 *   base     the address of frame 0, a multiple of 4096; of a monitor the allocator's host start
 *   client   who asks, 0 to 63; of a monitor a machine's place in the configuration
 *   k        a frame's number
 *
 * Each function that takes a tree answers, before all that is named with it, RF_NOT_FULL, RF_UNMATCHED or RF_BAD_BASE
 * where the memories or the base are not an allocator's, and each that takes a client RF_NO_CLIENT. RF_CORRUPT is
 * answered only where rf_allocator_check is not content. */

/* Writes the number of the frame at an address to *frame. It may be one that no tree has.
 * Answers RF_DONE, RF_BAD_BASE, RF_BELOW, RF_NOT_AT_FRAME. */
uint32_t rf_allocator_fid(size_t base, size_t addr, size_t *frame);

/* Writes the address of frame k to *addr.
 * Answers RF_DONE, RF_BAD_BASE, RF_TOO_HIGH. */
uint32_t rf_allocator_paddr(size_t base, size_t k, size_t *addr);

/* Writes what frame k is to *owner: 0 to 63 for the client that owns it, RF_FREE, or RF_RESERVED.
 * Answers RF_DONE, RF_OUTSIDE. */
uint32_t rf_allocator_owner(const uint16_t *tree, size_t tree_len, const uint8_t *owners, size_t owners_len,
                            size_t base, size_t k, uint8_t *owner);

/* Writes how many frames the client owns to *frames.
 * Answers RF_DONE. */
uint32_t rf_allocator_owned_count(const uint16_t *tree, size_t tree_len, const uint8_t *owners, size_t owners_len,
                                  size_t base, uint8_t client, size_t *frames);

/* Whether the memories are an allocator's: RF_DONE exactly if they are.
 *   at   with RF_CORRUPT the lowest word of the tree that is at fault is written here, with RF_WRONG the lowest frame
 * Answers RF_DONE, RF_CORRUPT, RF_WRONG. */
uint32_t rf_allocator_check(const uint16_t *tree, size_t tree_len, const uint8_t *owners, size_t owners_len,
                            size_t base, size_t *at);

/* Makes the frames below n free and all others reserved, whatever the memories held.
 * Answers RF_DONE, RF_TOO_MANY, RF_TOO_HIGH. */
uint32_t rf_allocator_init(uint16_t *tree, size_t tree_len, uint8_t *owners, size_t owners_len, size_t base,
                           size_t n);

/* Gives the client the lowest free frame, and writes its address to *addr.
 * Answers RF_DONE, RF_NO_ROOM, RF_CORRUPT. */
uint32_t rf_allocator_alloc(uint16_t *tree, size_t tree_len, uint8_t *owners, size_t owners_len, size_t base,
                            uint8_t client, size_t *addr);

/* Gives the client the lowest run of free frames that is aligned, and writes the first one's address to *addr.
 *   size         how many frames, one at least
 *   align_log2   the first frame's number is a multiple of 2 to this power
 * Answers RF_DONE, RF_EMPTY, RF_NO_ROOM, RF_CORRUPT. */
uint32_t rf_allocator_alloc_contiguous(uint16_t *tree, size_t tree_len, uint8_t *owners, size_t owners_len,
                                       size_t base, uint8_t client, size_t size, size_t align_log2, size_t *addr);

/* The client gives back the frame at an address.
 * Answers RF_DONE, RF_BELOW, RF_NOT_AT_FRAME, RF_OUTSIDE, RF_NOT_TAKEN, RF_NOT_YOURS. */
uint32_t rf_allocator_dealloc(uint16_t *tree, size_t tree_len, uint8_t *owners, size_t owners_len, size_t base,
                              uint8_t client, size_t addr);

/* The client gives back the `count` frames from an address on, all or none.
 *   frame   with RF_NOT_TAKEN and RF_NOT_YOURS the first frame that is not the client's is written here
 * Answers RF_DONE, RF_BELOW, RF_NOT_AT_FRAME, RF_EMPTY, RF_OUTSIDE, RF_NOT_TAKEN, RF_NOT_YOURS. */
uint32_t rf_allocator_dealloc_contiguous(uint16_t *tree, size_t tree_len, uint8_t *owners, size_t owners_len,
                                         size_t base, uint8_t client, size_t addr, size_t count, size_t *frame);

/* Makes the frames from `from` up to but not `to` free; no client may own one.
 *   frame   with RF_TAKEN the first frame that a client owns is written here
 * Answers RF_DONE, RF_EMPTY, RF_REVERSED, RF_OUTSIDE, RF_TAKEN, RF_TOO_HIGH. */
uint32_t rf_allocator_insert(uint16_t *tree, size_t tree_len, uint8_t *owners, size_t owners_len, size_t base,
                             size_t from, size_t to, size_t *frame);

/* Reserves the frames from `from` up to but not `to`; no client may own one.
 *   frame   with RF_TAKEN the first frame that a client owns is written here
 * Answers RF_DONE, RF_EMPTY, RF_REVERSED, RF_OUTSIDE, RF_TAKEN. */
uint32_t rf_allocator_remove(uint16_t *tree, size_t tree_len, uint8_t *owners, size_t owners_len, size_t base,
                             size_t from, size_t to, size_t *frame);

/* Makes every frame of the client free.
 * Answers RF_DONE. */
uint32_t rf_allocator_release_all(uint16_t *tree, size_t tree_len, uint8_t *owners, size_t owners_len, size_t base,
                                  uint8_t client);

/* ---- The shared allocator with contents -----------------------------------------------------------------------
 *
 * The same with the frames' own memory, words, of 512 for each frame that may become free. A frame is cleared before
 * it becomes free, so that one that is handed out is all 0. What the section before says holds here, and before all
 * that each function answers RF_UNBACKED where words are not those of whole frames, or of more than there are owners.
 * RF_CORRUPT is answered only where rf_frames_check is not content. */

/* Makes the frames with words free and clears them, and all others reserved, whatever the memories held.
 * Answers RF_DONE, RF_TOO_HIGH. */
uint32_t rf_frames_init(uint16_t *tree, size_t tree_len, uint8_t *owners, size_t owners_len, uint64_t *words,
                        size_t words_len, size_t base);

/* Gives the client the lowest free frame, and writes its address to *addr.
 * Answers RF_DONE, RF_NO_ROOM, RF_CORRUPT. */
uint32_t rf_frames_alloc(uint16_t *tree, size_t tree_len, uint8_t *owners, size_t owners_len, const uint64_t *words,
                         size_t words_len, size_t base, uint8_t client, size_t *addr);

/* Gives the client the lowest run of free frames that is aligned, and writes the first one's address to *addr.
 *   size         how many frames, one at least
 *   align_log2   the first frame's number is a multiple of 2 to this power
 * Answers RF_DONE, RF_EMPTY, RF_NO_ROOM, RF_CORRUPT. */
uint32_t rf_frames_alloc_contiguous(uint16_t *tree, size_t tree_len, uint8_t *owners, size_t owners_len,
                                    const uint64_t *words, size_t words_len, size_t base, uint8_t client,
                                    size_t size, size_t align_log2, size_t *addr);

/* The client gives back the frame at an address, which is cleared.
 * Answers RF_DONE, RF_BELOW, RF_NOT_AT_FRAME, RF_OUTSIDE, RF_NOT_TAKEN, RF_NOT_YOURS, RF_CORRUPT. */
uint32_t rf_frames_dealloc(uint16_t *tree, size_t tree_len, uint8_t *owners, size_t owners_len, uint64_t *words,
                           size_t words_len, size_t base, uint8_t client, size_t addr);

/* The client gives back the `count` frames from an address on, all or none; they are cleared.
 *   frame   with RF_NOT_TAKEN and RF_NOT_YOURS the first frame that is not the client's is written here
 * Answers RF_DONE, RF_BELOW, RF_NOT_AT_FRAME, RF_EMPTY, RF_OUTSIDE, RF_NOT_TAKEN, RF_NOT_YOURS, RF_CORRUPT. */
uint32_t rf_frames_dealloc_contiguous(uint16_t *tree, size_t tree_len, uint8_t *owners, size_t owners_len,
                                      uint64_t *words, size_t words_len, size_t base, uint8_t client, size_t addr,
                                      size_t count, size_t *frame);

/* Makes the frames from `from` up to but not `to` free and clears them; no client may own one.
 *   frame   with RF_TAKEN the first frame that a client owns is written here
 * Answers RF_DONE, RF_EMPTY, RF_REVERSED, RF_OUTSIDE, RF_TAKEN, RF_TOO_HIGH, RF_BEYOND. */
uint32_t rf_frames_insert(uint16_t *tree, size_t tree_len, uint8_t *owners, size_t owners_len, uint64_t *words,
                          size_t words_len, size_t base, size_t from, size_t to, size_t *frame);

/* Reserves the frames from `from` up to but not `to`; no client may own one.
 *   frame   with RF_TAKEN the first frame that a client owns is written here
 * Answers RF_DONE, RF_EMPTY, RF_REVERSED, RF_OUTSIDE, RF_TAKEN. */
uint32_t rf_frames_remove(uint16_t *tree, size_t tree_len, uint8_t *owners, size_t owners_len, const uint64_t *words,
                          size_t words_len, size_t base, size_t from, size_t to, size_t *frame);

/* Makes every frame of the client free and clears them.
 * Answers RF_DONE, RF_CORRUPT. */
uint32_t rf_frames_release_all(uint16_t *tree, size_t tree_len, uint8_t *owners, size_t owners_len, uint64_t *words,
                               size_t words_len, size_t base, uint8_t client);

/* Whether the memories are an allocator's and every free frame is all 0: RF_DONE exactly if so.
 *   at   with RF_CORRUPT the lowest word of the tree that is at fault is written here, with RF_WRONG, RF_BEYOND and
 *        RF_DIRTY the lowest frame
 * Answers RF_DONE, RF_CORRUPT, RF_WRONG, RF_BEYOND, RF_DIRTY. */
uint32_t rf_frames_check(const uint16_t *tree, size_t tree_len, const uint8_t *owners, size_t owners_len,
                         const uint64_t *words, size_t words_len, size_t base, size_t *at);

/* ---- The bitmap -----------------------------------------------------------------------------------------------
 *
 * The lowest layer: which frames are free, in the tree alone, with no owners. Each function that takes a tree answers,
 * before all that is named with it, RF_NOT_FULL where its words are no full tree. RF_CORRUPT is answered only where
 * rf_bitmap_check is not content; after rf_bitmap_reset it is. Where it is not content, a frame or a run that is found
 * lies within the tree and was free, but need not be the lowest, and rf_bitmap_any and RF_NO_ROOM may be wrong; a
 * refusal leaves every word there too. */

/* Writes to *words how many words a tree of that many frames has.
 * Answers RF_DONE; RF_NO_SIZE where the frames are not 16, 256, 4096, ..., a power of 16 up to 16^15. */
uint32_t rf_bitmap_words_for(size_t frames, size_t *words);

/* Writes how many frames there are to *frames.
 * Answers RF_DONE. */
uint32_t rf_bitmap_cap(const uint16_t *tree, size_t tree_len, size_t *frames);

/* Writes how many frames are free to *frames.
 * Answers RF_DONE. */
uint32_t rf_bitmap_count_free(const uint16_t *tree, size_t tree_len, size_t *frames);

/* Writes to *some 1 if some frame is free, and 0 if none is.
 * Answers RF_DONE. */
uint32_t rf_bitmap_any(const uint16_t *tree, size_t tree_len, uint8_t *some);

/* Writes to *free 1 if frame k is free, and 0 if it is taken.
 * Answers RF_DONE, RF_OUTSIDE. */
uint32_t rf_bitmap_test(const uint16_t *tree, size_t tree_len, size_t k, uint8_t *free);

/* Writes the lowest free frame at or above k to *frame.
 * Answers RF_DONE, RF_OUTSIDE, RF_NO_ROOM, RF_CORRUPT. */
uint32_t rf_bitmap_next(const uint16_t *tree, size_t tree_len, size_t k, size_t *frame);

/* Whether the summaries agree: RF_DONE exactly if they do.
 *   word   with RF_CORRUPT the lowest word that is at fault is written here
 * Answers RF_DONE, RF_CORRUPT. */
uint32_t rf_bitmap_check(const uint16_t *tree, size_t tree_len, size_t *word);

/* Makes every frame taken, whatever the words held.
 * Answers RF_DONE. */
uint32_t rf_bitmap_reset(uint16_t *tree, size_t tree_len);

/* Takes the lowest free frame, and writes it to *frame.
 * Answers RF_DONE, RF_NO_ROOM, RF_CORRUPT. */
uint32_t rf_bitmap_alloc(uint16_t *tree, size_t tree_len, size_t *frame);

/* Takes the lowest run of free frames that is aligned, and writes its first to *frame.
 *   size         how many frames, one at least
 *   align_log2   the first frame is a multiple of 2 to this power
 * Answers RF_DONE, RF_EMPTY, RF_NO_ROOM, RF_CORRUPT. */
uint32_t rf_bitmap_alloc_contiguous(uint16_t *tree, size_t tree_len, size_t size, size_t align_log2, size_t *frame);

/* Makes frame k, which is taken, free.
 * Answers RF_DONE, RF_OUTSIDE, RF_NOT_TAKEN. */
uint32_t rf_bitmap_dealloc(uint16_t *tree, size_t tree_len, size_t k);

/* Makes the frames from `from` up to but not `to` free, whatever they were.
 * Answers RF_DONE, RF_EMPTY, RF_REVERSED, RF_OUTSIDE. */
uint32_t rf_bitmap_insert(uint16_t *tree, size_t tree_len, size_t from, size_t to);

/* Makes the frames from `from` up to but not `to` taken, whatever they were.
 * Answers RF_DONE, RF_EMPTY, RF_REVERSED, RF_OUTSIDE. */
uint32_t rf_bitmap_remove(uint16_t *tree, size_t tree_len, size_t from, size_t to);

#ifdef __cplusplus
}
#endif

#endif
