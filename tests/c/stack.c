/*
 * How much of a stack the calls touch, beyond what a thread that does nothing touches: the bounds
 * are those of mapdb.h. The heap over malloc counts too.
 */
#define _XOPEN_SOURCE 700
#include "checks.h"
#include <pthread.h>
#include <string.h>

enum {
    ROOM = 1 << 18,
    CALLS = 24 << 10,
    LOADS = 96 << 10,
    CHAIN = 1000,
    DEPTH = 127
};

static const mapdb_space one = {1, 0}, two = {2, 0};

static unsigned char room[ROOM] __attribute__((aligned(4096)));
static uint8_t saved[1 << 18];
static uint64_t saved_length;

/* Runs a function on a stack of its own, and answers how many bytes of it were written. */
static size_t touched_by(void *(*run)(void *))
{
    pthread_attr_t attributes;
    pthread_t thread;
    size_t untouched = 0;

    memset(room, 0xa5, sizeof room);
    CHECK(pthread_attr_init(&attributes), 0);
    CHECK(pthread_attr_setstack(&attributes, room, sizeof room), 0);
    CHECK(pthread_create(&thread, &attributes, run, NULL), 0);
    CHECK(pthread_join(thread, NULL), 0);
    CHECK(pthread_attr_destroy(&attributes), 0);
    while (untouched < sizeof room && room[untouched] == 0xa5)
        untouched++;
    return sizeof room - untouched;
}

/* A page that is handed on from space to space. */
static void chain(mapdb_copy *copy)
{
    mapdb_fpage whole = fpage(0x10000, 14, MAPDB_ALL_RIGHTS);
    mapdb_issued issued;
    mapdb_space from = {0, 0}, to = {1, 0};

    for (; to.number <= CHAIN; to.number++) {
        CHECK(mapdb_map(copy, from, 0, &whole, to, &whole, &issued), MAPDB_DONE);
        from = to;
    }
}

static void *calls(void *nothing)
{
    static mapdb_operation given[4 * CHAIN];
    static mapdb_row rows[4 * CHAIN];
    mapdb_copy copy = created(0), other = created(1);
    mapdb_fpage hole = fpage(0x11000, 12, MAPDB_WRITE);
    mapdb_issued issued;
    mapdb_found found;
    mapdb_taken taken;
    uint64_t count;
    uint32_t held, own;
    bool answer;

    chain(&copy);
    CHECK(mapdb_unmap(&copy, one, &hole, 1, &issued), MAPDB_DONE);
    CHECK(mapdb_end(&copy, two, &issued), MAPDB_DONE);
    CHECK(mapdb_counts(&copy, &held, &own), MAPDB_DONE);
    CHECK(mapdb_give(&copy, 0, held, given, 4 * CHAIN, &count), MAPDB_DONE);
    CHECK(mapdb_take(&other, given, count, &taken), MAPDB_DONE);
    CHECK(mapdb_served(&copy, one, 0x11, &found), MAPDB_DONE);
    CHECK(mapdb_rights(&copy, one, 0x11, &found, 1, &count), MAPDB_DONE);
    CHECK(mapdb_run_end(&copy, one, 0x11, &count), MAPDB_DONE);
    CHECK(mapdb_same(&copy, &other, &answer), MAPDB_DONE);
    CHECK(answer, true);
    CHECK(mapdb_table(&copy, rows, 4 * CHAIN, &count), MAPDB_DONE);
    CHECK(mapdb_snapshot(&copy, saved, sizeof saved, &saved_length), MAPDB_DONE);
    mapdb_destroy(&copy);
    mapdb_destroy(&other);
    return nothing;
}

/* What was saved is loaded, and a text that is nested as deep as is read. */
static void *loads(void *nothing)
{
    static uint8_t nested[2 * DEPTH];
    mapdb_copy copy = created(2);
    mapdb_taken taken;

    memset(nested, '[', DEPTH);
    memset(nested + DEPTH, ']', DEPTH);
    CHECK(mapdb_load(&copy, saved, saved_length, &taken), MAPDB_DONE);
    CHECK(mapdb_load(&copy, nested, sizeof nested, &taken), MAPDB_SNAPSHOT_SHAPE);
    mapdb_destroy(&copy);
    return nothing;
}

static void *nothing_at_all(void *nothing)
{
    return nothing;
}

int main(void)
{
    size_t own = touched_by(nothing_at_all);
    size_t of_calls = touched_by(calls) - own, of_loads = touched_by(loads) - own;

    CHECK(of_calls <= CALLS, 1);
    CHECK(of_loads <= LOADS, 1);
    printf("stack: %lu bytes, and %lu to load\n", (unsigned long)of_calls,
           (unsigned long)of_loads);
    printf("stack: %d passed, %d failed\n", passed, failed);
    return failed != 0;
}
