/*
 * One processor's copy of a replicated mapping database (L4 X.2), for kernels in C and C++.
 *
 * Each processor has a copy of its own. A command (Map, Unmap, the end of a space) is done at one
 * copy, at once, and issues operations there. The kernel carries operations from copy to copy, in
 * any order and as often as it likes; copies that took the same operations answer each query alike
 * (mapdb_counts tells how many operations are kept, which may differ). docs/KERNELS.md says what a
 * kernel does beside that.
 *
 * Link libmapdb_c.a. It wants memcpy, memmove and memset as of C (memcpy also from a place to
 * itself, and all three with size 0 whatever the pointers), and three functions for its heap, which
 * are declared below:
 *
 *  - rattle_alloc gives a block of `size` bytes, or of `alignment` bytes where the size is 0, at a
 *    multiple of `alignment`. An alignment divides 16, and a size is below 2^63. Whether there is
 *    such a block is told by `ok`; `block` is never null, also where there is none.
 *  - rattle_realloc gives the block `old` another size, in its place or another one, with the
 *    alignment that it had. Its first `kept` bytes stay, which are no more than the old size or the
 *    new one. Where `ok` is false, the old block stays as it was, and in use.
 *  - rattle_dealloc takes a block back that the other two gave.
 *
 * They are called while a call runs, on its thread, and come back without a call of this library.
 * They may refuse at any time. c/mapdb_heap.c has them over malloc.
 *
 * The code uses SSE registers, and the red zone below the stack pointer: enter calls with the stack
 * aligned to 16 bytes and 24 kB of it free (96 kB at mapdb_load), have interrupts on a stack of
 * their own, and save the vector registers where the thread that calls does not own them.
 *
 * No call waits, takes a lock or starts a thread. No call changes anything but its copy, its heap
 * and the places that it is given, and each call ends. A call that is refused leaves the copy as it
 * was, but where MAPDB_MEMORY says what stands. Behind what a call writes into an array, the array
 * stays as it was.
 *
 * What C owes, since no call can test it:
 *
 *  - No pointer is null. An array of length 0 has a pointer too. Pointers are aligned as their
 *    types are.
 *  - An array has as many elements as its length says, also one that is only written.
 *  - A mapdb_copy is MAPDB_EMPTY or as the last call left it. It is not copied: no two handles are
 *    of one copy.
 *  - A mapdb_copy is in one call at a time. That holds for queries too, so readers of one copy lock
 *    it, or better, stay on its processor. Two calls at two copies may run at once, if the heap's
 *    functions may.
 *  - The places that one call is given do not overlap. The two copies of mapdb_covers and of
 *    mapdb_same are two.
 *  - A copy goes to another thread only whole: the first thread's calls come before the second's,
 *    as by a lock or a barrier.
 *
 * Units: an address is in bytes, a page or a frame is the address divided by 4096, a size is an
 * order (2^order bytes, 12 to 48), and rights are added up of MAPDB_READ, MAPDB_WRITE and
 * MAPDB_EXECUTE. Addresses lie below 2^48.
 */
#ifndef MAPDB_H
#define MAPDB_H

#include <stdbool.h>
#include <stddef.h>
#include <stdint.h>

#ifdef __cplusplus
extern "C" {
#endif

/* Of a call: its pointers are not null, and of MAPDB_CALL that its status is looked at. */
#if defined(__GNUC__)
#define MAPDB_CALL __attribute__((nonnull, warn_unused_result))
#define MAPDB_NONNULL __attribute__((nonnull))
#else
#define MAPDB_CALL
#define MAPDB_NONNULL
#endif

/* A block of the heap, or none; and the heap's functions, which the library calls: see above. */
typedef struct mapdb_block {
    bool ok;
    void *block;
} mapdb_block;
mapdb_block rattle_alloc(size_t size, size_t alignment);
mapdb_block rattle_realloc(void *old, size_t kept, size_t size, size_t alignment);
void rattle_dealloc(void *block);

/* The version of the library. */
#define MAPDB_VERSION "1.0.0"

/* The rights of a page. */
enum {
    MAPDB_EXECUTE = 1,
    MAPDB_WRITE = 2,
    MAPDB_READ = 4,
    MAPDB_ALL_RIGHTS = 7
};

/* Bounds. */
enum {
    MAPDB_PROCESSORS = 64,       /* processors are numbered below this */
    MAPDB_SPACES = 65536,        /* numbers of spaces lie below this */
    MAPDB_OPERATIONS = 65536,    /* a copy holds at most so many operations */
    MAPDB_PAGE_ORDER = 12,       /* the order of a page, the least */
    MAPDB_TOP_ORDER = 48         /* the order of the complete address space, the greatest */
};

/* What a call answers. */
enum mapdb_status {
    MAPDB_DONE = 0,              /* the call did what it says */
    MAPDB_NO_COPY = 1,           /* the handle has no copy, or one of two has none */
    MAPDB_MEMORY = 2,            /* memory ran out; the call's comment says what stands */
    MAPDB_BAD_PROCESSOR = 3,     /* a processor of 64 or more */
    MAPDB_BAD_SPACE = 4,         /* the number of a space is 2^16 or more */
    MAPDB_NOT_SERVED = 5,        /* the page is served from no frame */
    MAPDB_SPACE_ENDED = 6,       /* a space that the command names has ended */
    MAPDB_ROOT_SPACE = 7,        /* the space that receives, or ends, has number 0 */
    MAPDB_NUMBERS_SPENT = 8,     /* a record would need a number of 2^40 or more */
    MAPDB_FULL = 9,              /* the copy would hold more than 65,536 operations */
    MAPDB_GRANT = 10,            /* the item's first word is that of a grant item */
    MAPDB_NOT_MAP_ITEM = 11,     /* the item's first word is that of another item */
    MAPDB_RESERVED_BITS = 12,    /* bits of the item's first word that are to be zero are set */
    MAPDB_RESERVED_BIT = 13,     /* the reserved bit of an fpage word is set */
    MAPDB_TOO_SMALL = 14,        /* an order below 12 */
    MAPDB_TOO_LARGE = 15,        /* an order above 48 */
    MAPDB_OUT_OF_SPACE = 16,     /* an address of 2^48 or more */
    MAPDB_UNALIGNED = 17,        /* an address that is no multiple of its place's size */
    MAPDB_BAD_KIND = 18,         /* an operation of no kind */
    MAPDB_BAD_NUMBER = 19,       /* a number of no record: 2^40 or more, or 0 but for the root's */
    MAPDB_PARENT_NOT_BEFORE = 20, /* a record's number is not greater than its parent's */
    MAPDB_SOURCE_UNALIGNED = 21, /* a record's source is no multiple of its place's page count */
    MAPDB_PAGE_OUT_OF_SPACE = 22, /* a record's source, or mapdb_run_end's page, is 2^36 or more */
    MAPDB_BAD_RIGHTS = 23,       /* rights of 8 or more */
    MAPDB_CLASH = 24,            /* two different records have one name */
    MAPDB_BAD_MARK = 25,         /* the first mark is above the end mark, or that above the list */
    MAPDB_NO_ROOM = 26,          /* the array is too short; how long it is to be is told */
    MAPDB_NOT_JSON = 27,         /* the text is no JSON, or is nested deeper than 127 */
    MAPDB_SNAPSHOT_SHAPE = 28,   /* the JSON has not the shape of a snapshot */
    MAPDB_SNAPSHOT_VERSION = 29  /* the snapshot has another version than 1, 2 and 3 */
};

/* A name for a status, as "done"; "unknown" for a number that is none. It is a constant string. */
static inline const char *mapdb_status_name(uint32_t status)
{
    switch (status) {
    case MAPDB_DONE: return "done";
    case MAPDB_NO_COPY: return "no-copy";
    case MAPDB_MEMORY: return "memory";
    case MAPDB_BAD_PROCESSOR: return "bad-processor";
    case MAPDB_BAD_SPACE: return "bad-space";
    case MAPDB_NOT_SERVED: return "not-served";
    case MAPDB_SPACE_ENDED: return "space-ended";
    case MAPDB_ROOT_SPACE: return "root-space";
    case MAPDB_NUMBERS_SPENT: return "numbers-spent";
    case MAPDB_FULL: return "full";
    case MAPDB_GRANT: return "grant";
    case MAPDB_NOT_MAP_ITEM: return "not-map-item";
    case MAPDB_RESERVED_BITS: return "reserved-bits";
    case MAPDB_RESERVED_BIT: return "reserved-bit";
    case MAPDB_TOO_SMALL: return "too-small";
    case MAPDB_TOO_LARGE: return "too-large";
    case MAPDB_OUT_OF_SPACE: return "out-of-space";
    case MAPDB_UNALIGNED: return "unaligned";
    case MAPDB_BAD_KIND: return "bad-kind";
    case MAPDB_BAD_NUMBER: return "bad-number";
    case MAPDB_PARENT_NOT_BEFORE: return "parent-not-before";
    case MAPDB_SOURCE_UNALIGNED: return "source-unaligned";
    case MAPDB_PAGE_OUT_OF_SPACE: return "page-out-of-space";
    case MAPDB_BAD_RIGHTS: return "bad-rights";
    case MAPDB_CLASH: return "clash";
    case MAPDB_BAD_MARK: return "bad-mark";
    case MAPDB_NO_ROOM: return "no-room";
    case MAPDB_NOT_JSON: return "not-json";
    case MAPDB_SNAPSHOT_SHAPE: return "snapshot-shape";
    case MAPDB_SNAPSHOT_VERSION: return "snapshot-version";
    default: return "unknown";
    }
}

/*
 * A copy, or none. It is MAPDB_EMPTY before the first call, or bytes that are 0, as static memory
 * is at first; then the calls alone write it.
 */
typedef struct mapdb_copy {
    void *at;
} mapdb_copy;

/* No copy yet: mapdb_copy copy = MAPDB_EMPTY; */
#define MAPDB_EMPTY { NULL }

/*
 * An address space: 8 bytes. Number 0 with version 0 is the first space, which is physical memory,
 * page for page. A number is used again under another version once a space has ended.
 */
typedef struct mapdb_space {
    uint32_t number;             /* 0: below 2^16 */
    uint32_t version;            /* 4: which use of the number, from 0 on */
} mapdb_space;

/*
 * An fpage with rights: 16 bytes. With order 0 it is nil, which is nothing, and the address is not
 * looked at.
 */
typedef struct mapdb_fpage {
    uint64_t address;            /* 0: the first byte, a multiple of 2^order */
    uint32_t order;              /* 8: 12 to 48, or 0 for nil */
    uint32_t rights;             /* 12: below 8; of a receive window it is not looked at */
} mapdb_fpage;

/* The kinds of operations. */
enum mapdb_kind {
    MAPDB_RECORD = 1,            /* a mapping is there */
    MAPDB_REVOCATION = 2,        /* rights are taken from a part of a record, for good */
    MAPDB_END = 3                /* a space has ended, for good */
};

/*
 * An operation: 64 bytes, one cache line, in the byte order of the processor. It has no pointer and
 * no hidden bytes, so a kernel may send it over a channel of its own as it stands, and keep it as
 * long as it likes. A field that the kind does not use is not looked at when an operation is taken,
 * and is 0 when one is given.
 *
 *                                     record                  revocation           end
 */
typedef struct mapdb_operation {
    uint32_t kind;              /*  0: 1                       2                    3         */
    uint32_t rights;            /*  4: that the item named     that are taken       -         */
    uint64_t number;            /*  8: of its name             of the record's name -         */
    uint64_t parent_number;     /* 16: of its parent's name    -                    -         */
    uint64_t address;           /* 24: its place's first byte  the part's first     -         */
    uint64_t source;            /* 32: the source's first page -                    -         */
    mapdb_space space;          /* 40: that received the place -                    that ended */
    uint32_t processor;         /* 48: of its name             of the record's name -         */
    uint32_t parent_processor;  /* 52: of its parent's name    -                    -         */
    uint32_t order;             /* 56: of its place            of the part          -         */
    uint32_t reserved;          /* 60: 0, and not looked at                                   */
} mapdb_operation;

/* What a command issued: 24 bytes. */
typedef struct mapdb_issued {
    /* 0: with MAPDB_DONE the number of a Map's first record, from which the numbers rise by one. 0
     * of a Map that issued none, of other commands, and with any other status: with MAPDB_MEMORY
     * too, where records may stand. */
    uint64_t first;
    /* 8: how many operations were issued: with MAPDB_DONE all; with MAPDB_MEMORY the first of them,
     * which stand, and are not all; 0 with any other status. */
    uint64_t count;
    /* 16: with MAPDB_SPACE_ENDED the space that has, the sender before the receiver; else 0 and 0.
     */
    mapdb_space space;
} mapdb_issued;

/* What became of a batch: 32 bytes. A field that says nothing of the status is 0. */
typedef struct mapdb_taken {
    /* 0: with MAPDB_DONE how many operations were new to the copy at their turn; 0 with any other
     * status: with MAPDB_MEMORY too, where some may stand. */
    uint64_t count;
    /* 8: of a bad operation its place in the batch, from 0; with MAPDB_MEMORY of how many first
     * operations of the batch what is new stands, which are not all. */
    uint64_t place;
    /* 16: with MAPDB_CLASH the number of the least name that clashes. */
    uint64_t number;
    /* 24: with MAPDB_CLASH the processor of that name. */
    uint32_t processor;
    /* 28: 0. */
    uint32_t reserved;
} mapdb_taken;

/* A frame with rights: 16 bytes. */
typedef struct mapdb_found {
    uint64_t frame;              /* 0: the frame, below 2^36 */
    uint32_t rights;             /* 8: added up */
    uint32_t reserved;           /* 12: 0 */
} mapdb_found;

/*
 * Pages of a space, one behind the other, that are served from frames that rise by one, with equal
 * rights: 40 bytes.
 */
typedef struct mapdb_row {
    mapdb_space space;           /* 0: whose pages they are */
    uint64_t page;               /* 8: the first page */
    uint64_t count;              /* 16: how many pages */
    uint64_t frame;              /* 24: the frame of the first page */
    uint32_t rights;             /* 32: of each page, added up */
    uint32_t reserved;           /* 36: 0 */
} mapdb_row;

/*
 * Making and freeing.
 */

/*
 * Makes a copy that holds nothing, of a processor below 64. A copy that was there is freed, unless
 * the call fails. Give each processor's number to one copy alone: it names the records that the
 * copy issues.
 *   MAPDB_BAD_PROCESSOR, MAPDB_MEMORY: the handle is as it was.
 */
MAPDB_CALL uint32_t mapdb_create(mapdb_copy *copy, uint32_t processor);

/* Frees the copy, if there is one, and leaves the handle empty. It may be called twice. */
MAPDB_NONNULL void mapdb_destroy(mapdb_copy *copy);

/*
 * Commands. Each is done at once, at this copy, and issues operations that the kernel is to carry
 * to the other copies: they stand last in what mapdb_give and mapdb_give_own give. Faults are
 * looked for in the order of the arguments, of a page its place before its rights, then
 * MAPDB_NO_COPY, and then in this order:
 *   MAPDB_SPACE_ENDED: a space has ended, as issued->space tells.
 *   MAPDB_ROOT_SPACE, MAPDB_NUMBERS_SPENT: nothing is issued.
 *   MAPDB_FULL: what is held and what would be new are more than 65,536. Nothing is issued.
 *   MAPDB_MEMORY: the first issued->count operations stand, for good, and are to be carried; they
 *     are not all. The same Unmap again issues the rest; the same Map again issues all its records
 *     anew, under further names.
 * Where an argument is refused, or there is no copy, *issued is not written; with any other status
 * all of it is. The statuses of a place are, in this order, MAPDB_TOO_SMALL, MAPDB_TOO_LARGE,
 * MAPDB_OUT_OF_SPACE and MAPDB_UNALIGNED.
 */

/*
 * Map: what the fpage of an item offers, with a send base, goes from the sender's space into a
 * receive window of the receiver's. The smaller of fpage and window goes over; in the larger, the
 * send base picks the part, counted round. Each record of the sender's space with one of these
 * rights on a page there makes one record of the receiver's. Also:
 *   MAPDB_BAD_SPACE; of the page MAPDB_TOO_SMALL, MAPDB_TOO_LARGE, MAPDB_OUT_OF_SPACE,
 *     MAPDB_UNALIGNED, MAPDB_BAD_RIGHTS; of the window the first four of these.
 */
MAPDB_CALL uint32_t mapdb_map(mapdb_copy *copy, mapdb_space sender, uint64_t send_base,
    const mapdb_fpage *page, mapdb_space receiver, const mapdb_fpage *window,
    mapdb_issued *issued);

/*
 * Map, by the kernel's words of 64 bits. Of an item's first word the highest 54 bits are the send
 * base in units of 1024 bytes, six are 0, and the lowest four are 100C, where C is not looked at;
 * of its second word the highest 54 are the fpage's base in these units, six its size, one is 0,
 * and the lowest three are rwx. A window is as the second word, but its lowest four bits are not
 * looked at. Base and size 0 are nil; base 0 and size 1 are the complete address space. Also:
 *   MAPDB_BAD_SPACE; of the item MAPDB_GRANT, MAPDB_NOT_MAP_ITEM, MAPDB_RESERVED_BITS,
 *     MAPDB_RESERVED_BIT and those of a place; of the window those of a place.
 */
MAPDB_CALL uint32_t mapdb_map_words(mapdb_copy *copy, mapdb_space sender, uint64_t first,
    uint64_t second, mapdb_space receiver, uint64_t window, mapdb_issued *issued);

/*
 * Unmap: takes the page's rights, on its pages, from all that came from this space's pages there,
 * directly or through others, also where this space received it itself; with a flush that is not 0
 * from those pages too. What this copy does not know yet loses them when it comes, where it comes
 * from a child that this copy knew, and with a flush also where it comes from a record of the
 * space's own there that this copy knew. Another record of the space's own there, which this copy
 * does not know, keeps its rights, and so does what comes from it. Without a flush a child of the
 * space's own pages that this copy does not know keeps its rights. Also:
 *   MAPDB_BAD_SPACE, and those of the page as of mapdb_map. MAPDB_ROOT_SPACE is none: the first
 *     space may unmap. With a flush it loses the rights to these frames itself, for good, and
 *     nobody can map them again.
 */
MAPDB_CALL uint32_t mapdb_unmap(mapdb_copy *copy, mapdb_space space, const mapdb_fpage *page,
    uint32_t flush, mapdb_issued *issued);

/*
 * Unmap, by an fpage word as the second word of an item. Also:
 *   MAPDB_BAD_SPACE, MAPDB_RESERVED_BIT, those of a place.
 */
MAPDB_CALL uint32_t mapdb_unmap_word(mapdb_copy *copy, mapdb_space space, uint64_t word,
    uint32_t flush, mapdb_issued *issued);

/*
 * Ends a space, for good: it never has rights again, whatever comes later. Also:
 *   MAPDB_BAD_SPACE
 */
MAPDB_CALL uint32_t mapdb_end(mapdb_copy *copy, mapdb_space space, mapdb_issued *issued);

/*
 * Carrying operations.
 */

/*
 * Takes a batch of operations that other copies issued, in any order and however often. What is new
 * stands behind what was held; it is never among the copy's own operations, also where its
 * processor issued it. But for the last of these, a batch is refused as a whole, with nothing
 * changed, for the first that holds:
 *   MAPDB_NO_COPY: *taken is not written.
 *   MAPDB_MEMORY, with taken->place 0: to read the batch. It may come in place of any below, but
 *     not where there is no operation, or the first one says none.
 *   MAPDB_BAD_KIND, MAPDB_BAD_SPACE, MAPDB_BAD_PROCESSOR, MAPDB_BAD_RIGHTS or that of a place: the
 *     operation at taken->place says no operation. It is the first such one. Its kind is looked at
 *     first; of a record then its processor, space, place, parent's processor and rights, of a
 *     revocation its processor, place and rights, of an end its space. All operations are read
 *     before any of the faults below is looked for.
 *   MAPDB_BAD_NUMBER, MAPDB_PARENT_NOT_BEFORE, MAPDB_SOURCE_UNALIGNED, MAPDB_ROOT_SPACE,
 *     MAPDB_PAGE_OUT_OF_SPACE: the operation at taken->place is not well-formed. It is the first
 *     such one.
 *   MAPDB_CLASH: two different records have the name of taken->number and taken->processor.
 *   MAPDB_FULL: what is held and what is new of the batch, as often as it stands there, are more
 *     than 65,536.
 *   MAPDB_MEMORY: what is new of the first taken->place operations stands; they are not all. Take
 *     the batch again from that place on, or all of it, which comes to the same.
 * But for MAPDB_NO_COPY, all of *taken is written.
 */
MAPDB_CALL uint32_t mapdb_take(mapdb_copy *copy, const mapdb_operation *operations, size_t length,
    mapdb_taken *taken);

/*
 * Writes the operations that the copy holds, in order of arrival, from the mark first on and up to
 * before the mark end, into room, and how many they are into *count. Marks count from 0;
 * mapdb_counts tells where the list ends.
 *   MAPDB_NO_COPY, MAPDB_BAD_MARK, MAPDB_MEMORY: nothing is written, *count neither.
 *   MAPDB_NO_ROOM: *count, which is end - first, is above length. Nothing else is written.
 */
MAPDB_CALL uint32_t mapdb_give(mapdb_copy *copy, uint32_t first, uint32_t end,
    mapdb_operation *room, size_t length, uint64_t *count);

/* The same of the operations that the copy itself issued. */
MAPDB_CALL uint32_t mapdb_give_own(mapdb_copy *copy, uint32_t first, uint32_t end,
    mapdb_operation *room, size_t length, uint64_t *count);

/*
 * How many operations the copy holds, and how many of them it issued.
 *   MAPDB_NO_COPY: nothing is written.
 */
MAPDB_CALL uint32_t mapdb_counts(mapdb_copy *copy, uint32_t *held, uint32_t *own);

/*
 * Asking. A copy answers from the operations that it holds. No query changes the copy. A page of
 * 2^36 or more is served from nothing, and nobody has rights to it.
 */

/*
 * The frame that a page of a space is served from: that of the least record of the space with any
 * right there, by number and then processor, with all rights that the space's records have to that
 * frame there.
 *   MAPDB_BAD_SPACE, MAPDB_NO_COPY, MAPDB_NOT_SERVED: *found is not written.
 */
MAPDB_CALL uint32_t mapdb_served(mapdb_copy *copy, mapdb_space space, uint64_t page,
    mapdb_found *found);

/*
 * Writes each frame that the space has some right to at the page, with its rights, ascending by
 * frame, into room, and how many they are into *count.
 *   MAPDB_BAD_SPACE, MAPDB_NO_COPY, MAPDB_MEMORY: nothing is written.
 *   MAPDB_NO_ROOM: *count is above length. Nothing else is written.
 */
MAPDB_CALL uint32_t mapdb_rights(mapdb_copy *copy, mapdb_space space, uint64_t page,
    mapdb_found *room, size_t length, uint64_t *count);

/*
 * One past the last page up to which what mapdb_served tells of a page goes on from this page: that
 * nothing serves any of them, or frames that rise by one with each page, with equal rights. It is
 * at most 2^36.
 *   MAPDB_BAD_SPACE, MAPDB_PAGE_OUT_OF_SPACE (the page is 2^36 or more), MAPDB_NO_COPY: *end is not
 *   written.
 */
MAPDB_CALL uint32_t mapdb_run_end(mapdb_copy *copy, mapdb_space space, uint64_t page,
    uint64_t *end);

/* Whether the copy holds all that the other one holds. MAPDB_NO_COPY: *answer is not written. */
MAPDB_CALL uint32_t mapdb_covers(mapdb_copy *copy, mapdb_copy *other, bool *answer);

/*
 * Whether both hold the same. Then mapdb_served and mapdb_rights, and so the table and the
 * snapshot, are alike at both; mapdb_counts need not be, since what is kept depends on the order in
 * which it came.
 *   MAPDB_NO_COPY: *answer is not written.
 */
MAPDB_CALL uint32_t mapdb_same(mapdb_copy *copy, mapdb_copy *other, bool *answer);

/*
 * The least version of a space of this number whose end the copy does not hold. It may be in use,
 * here or at another processor.
 *   MAPDB_BAD_SPACE, MAPDB_NO_COPY: *version is not written.
 */
MAPDB_CALL uint32_t mapdb_free_version(mapdb_copy *copy, uint32_t number, uint32_t *version);

/*
 * The translation table: for each space ascending, and ascending by page, the longest runs of pages
 * that are served from frames that rise by one, with equal rights. It says of each page what
 * mapdb_served does.
 *   MAPDB_NO_COPY, MAPDB_MEMORY: nothing is written.
 *   MAPDB_NO_ROOM: *count is above length. Nothing else is written.
 */
MAPDB_CALL uint32_t mapdb_table(mapdb_copy *copy, mapdb_row *room, size_t length, uint64_t *count);

/*
 * The snapshot of the copy: what it holds as one JSON text, in UTF-8, with no byte 0 behind it.
 * docs/SCRIPT.md has its shape. It follows from what the copy holds alone, so copies that are the
 * same have the same snapshot.
 *   MAPDB_NO_COPY, MAPDB_MEMORY: nothing is written.
 *   MAPDB_NO_ROOM: *count is above length. Nothing else is written.
 */
MAPDB_CALL uint32_t mapdb_snapshot(mapdb_copy *copy, uint8_t *room, size_t length, uint64_t *count);

/*
 * Takes what a snapshot says, as mapdb_take takes a batch: its records, then its revocations, then
 * its ends. Each row counts as an operation, and a snapshot may have more rows than its copy has
 * operations (docs/SCRIPT.md, "Snapshots"): so that of a copy may be MAPDB_FULL. mapdb_give and
 * mapdb_take bring any copy elsewhere.
 *   MAPDB_NO_COPY: *taken is not written.
 *   MAPDB_NOT_JSON, MAPDB_SNAPSHOT_SHAPE, MAPDB_SNAPSHOT_VERSION, or that of a place: nothing is
 *     changed, and *taken is 0 throughout: it has no place.
 *   MAPDB_MEMORY: in place of any of these, so too; or as of mapdb_take. The same text may be
 *     loaded again.
 *   Else those of mapdb_take, with places of this order; here an operation's number is looked at
 *     before its processor: MAPDB_BAD_NUMBER, MAPDB_BAD_PROCESSOR, MAPDB_PARENT_NOT_BEFORE and on.
 */
MAPDB_CALL uint32_t mapdb_load(mapdb_copy *copy, const uint8_t *text, size_t length,
    mapdb_taken *taken);

/* What the archive was built for. */
#if defined(__cplusplus) && __cplusplus >= 201103L
#define MAPDB_ASSERT(claim) static_assert(claim, #claim)
#else
#define MAPDB_ASSERT_AT(claim, line) typedef char mapdb_assert_##line[(claim) ? 1 : -1]
#define MAPDB_ASSERT_LINE(claim, line) MAPDB_ASSERT_AT(claim, line)
#define MAPDB_ASSERT(claim) MAPDB_ASSERT_LINE(claim, __LINE__)
#endif
MAPDB_ASSERT(sizeof(mapdb_copy) == sizeof(void *));
MAPDB_ASSERT(sizeof(size_t) == 8);
MAPDB_ASSERT(sizeof(bool) == 1);
MAPDB_ASSERT(sizeof(mapdb_space) == 8);
MAPDB_ASSERT(offsetof(mapdb_space, version) == 4);
MAPDB_ASSERT(sizeof(mapdb_fpage) == 16);
MAPDB_ASSERT(offsetof(mapdb_fpage, order) == 8);
MAPDB_ASSERT(offsetof(mapdb_fpage, rights) == 12);
MAPDB_ASSERT(sizeof(mapdb_operation) == 64);
MAPDB_ASSERT(offsetof(mapdb_operation, rights) == 4);
MAPDB_ASSERT(offsetof(mapdb_operation, number) == 8);
MAPDB_ASSERT(offsetof(mapdb_operation, parent_number) == 16);
MAPDB_ASSERT(offsetof(mapdb_operation, address) == 24);
MAPDB_ASSERT(offsetof(mapdb_operation, source) == 32);
MAPDB_ASSERT(offsetof(mapdb_operation, space) == 40);
MAPDB_ASSERT(offsetof(mapdb_operation, processor) == 48);
MAPDB_ASSERT(offsetof(mapdb_operation, parent_processor) == 52);
MAPDB_ASSERT(offsetof(mapdb_operation, order) == 56);
MAPDB_ASSERT(offsetof(mapdb_operation, reserved) == 60);
MAPDB_ASSERT(sizeof(mapdb_issued) == 24);
MAPDB_ASSERT(offsetof(mapdb_issued, count) == 8);
MAPDB_ASSERT(offsetof(mapdb_issued, space) == 16);
MAPDB_ASSERT(sizeof(mapdb_taken) == 32);
MAPDB_ASSERT(offsetof(mapdb_taken, place) == 8);
MAPDB_ASSERT(offsetof(mapdb_taken, number) == 16);
MAPDB_ASSERT(offsetof(mapdb_taken, processor) == 24);
MAPDB_ASSERT(offsetof(mapdb_taken, reserved) == 28);
MAPDB_ASSERT(sizeof(mapdb_found) == 16);
MAPDB_ASSERT(offsetof(mapdb_found, rights) == 8);
MAPDB_ASSERT(offsetof(mapdb_found, reserved) == 12);
MAPDB_ASSERT(sizeof(mapdb_row) == 40);
MAPDB_ASSERT(offsetof(mapdb_row, page) == 8);
MAPDB_ASSERT(offsetof(mapdb_row, count) == 16);
MAPDB_ASSERT(offsetof(mapdb_row, frame) == 24);
MAPDB_ASSERT(offsetof(mapdb_row, rights) == 32);
MAPDB_ASSERT(offsetof(mapdb_row, reserved) == 36);
#undef MAPDB_ASSERT

#ifdef __cplusplus
}
#endif

#endif
