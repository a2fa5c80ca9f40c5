/*
 * What comes first: of the faults of a batch, of its repeats and of what is new, and of what a
 * flush takes.
 */
#include "checks.h"
#include <string.h>

static const mapdb_space root = {0, 0}, one = {1, 0}, two = {2, 0};

static void map(mapdb_copy *copy, mapdb_space sender, uint64_t source, mapdb_space receiver,
                uint64_t target, uint32_t order, uint64_t count)
{
    mapdb_fpage given = fpage(source, order, MAPDB_ALL_RIGHTS);
    mapdb_fpage window = fpage(target, order, MAPDB_ALL_RIGHTS);
    mapdb_issued issued;

    CHECK(mapdb_map(copy, sender, 0, &given, receiver, &window, &issued), MAPDB_DONE);
    CHECK(issued.count, count);
}

static uint32_t held_by(mapdb_copy *copy)
{
    uint32_t held = 77, own = 77;

    CHECK(mapdb_counts(copy, &held, &own), MAPDB_DONE);
    return held;
}

/* More repeats than a copy holds, with a clash and a bad operation behind them. */
static void batches(void)
{
    static mapdb_operation batch[MAPDB_OPERATIONS + 2];
    mapdb_copy copy = created(1), source = created(0);
    mapdb_operation record;
    mapdb_taken taken;
    uint64_t count;
    size_t place;

    memset(batch, 0, sizeof batch);
    for (place = 0; place < MAPDB_OPERATIONS + 2; place++) {
        batch[place].kind = MAPDB_END;
        batch[place].space.number = 5;
    }
    CHECK(mapdb_take(&copy, batch, MAPDB_OPERATIONS + 1, &taken), MAPDB_FULL);
    CHECK(held_by(&copy), 0);
    map(&source, root, 0x10000, one, 0x20000, 12, 1);
    CHECK(mapdb_give(&source, 0, 1, &record, 1, &count), MAPDB_DONE);
    CHECK(mapdb_take(&copy, &record, 1, &taken), MAPDB_DONE);
    CHECK(mapdb_take(&copy, batch, MAPDB_OPERATIONS, &taken), MAPDB_FULL);
    batch[MAPDB_OPERATIONS] = record;
    batch[MAPDB_OPERATIONS].space = two;
    CHECK(mapdb_take(&copy, batch, MAPDB_OPERATIONS + 1, &taken), MAPDB_CLASH);
    CHECK(taken.number == 1 && taken.processor == 0, 1);
    batch[MAPDB_OPERATIONS + 1] = record;
    batch[MAPDB_OPERATIONS + 1].number = 0;
    CHECK(mapdb_take(&copy, batch, MAPDB_OPERATIONS + 2, &taken), MAPDB_BAD_NUMBER);
    CHECK(taken.place, MAPDB_OPERATIONS + 1);
    CHECK(held_by(&copy), 1);
    CHECK(mapdb_take(&copy, batch, MAPDB_OPERATIONS - 1, &taken), MAPDB_DONE);
    CHECK(taken.count, 1);
    CHECK(mapdb_take(&copy, batch, MAPDB_OPERATIONS, &taken), MAPDB_DONE);
    CHECK(taken.count, 0);
    CHECK(held_by(&copy), 2);
    mapdb_destroy(&copy);
    mapdb_destroy(&source);
}

/* The least name that clashes is told, wherever it stands in the batch. */
static void clashes(void)
{
    mapdb_copy copy = created(3), source = created(0), other = created(1);
    mapdb_operation batch[5];
    mapdb_taken taken;
    uint64_t count;

    map(&source, root, 0x10000, one, 0x20000, 12, 1);
    map(&source, root, 0x11000, one, 0x21000, 12, 1);
    map(&other, root, 0x12000, one, 0x22000, 12, 1);
    CHECK(mapdb_give(&source, 0, 2, batch, 5, &count), MAPDB_DONE);
    CHECK(mapdb_give(&other, 0, 1, batch + 2, 3, &count), MAPDB_DONE);
    batch[3] = batch[1];
    batch[3].space = two;
    batch[4] = batch[2];
    batch[4].space = two;
    CHECK(mapdb_take(&copy, batch, 5, &taken), MAPDB_CLASH);
    CHECK(taken.number == 1 && taken.processor == 1, 1);
    CHECK(held_by(&copy), 0);
    CHECK(mapdb_take(&copy, batch, 3, &taken), MAPDB_DONE);
    CHECK(taken.count, 3);
    CHECK(mapdb_take(&copy, batch, 5, &taken), MAPDB_CLASH);
    CHECK(taken.number == 1 && taken.processor == 1, 1);
    CHECK(held_by(&copy), 3);
    mapdb_destroy(&copy);
    mapdb_destroy(&source);
    mapdb_destroy(&other);
}

static void flush(mapdb_copy *copy, mapdb_space space, mapdb_fpage page, uint64_t count)
{
    mapdb_issued issued;

    CHECK(mapdb_unmap(copy, space, &page, 1, &issued), MAPDB_DONE);
    CHECK(issued.count, count);
}

/* A revocation of all rights from a record of processor 0, or from the root. */
static void check_revocation(int line, const mapdb_operation *found, uint64_t number,
                             uint64_t address, uint32_t order)
{
    check(line, "kind", found->kind, MAPDB_REVOCATION);
    check(line, "rights", found->rights, MAPDB_ALL_RIGHTS);
    check(line, "processor", found->processor, 0);
    check(line, "number", found->number, number);
    check(line, "address", found->address, address);
    check(line, "order", found->order, order);
}

/* One holder after the other: what its children lose, and then what it loses itself. */
static void flushes(void)
{
    mapdb_copy copy = created(0);
    mapdb_operation lost[4];
    uint64_t count;

    map(&copy, root, 0x10000, one, 0x40000, 13, 1);
    map(&copy, root, 0x30000, one, 0x42000, 13, 1);
    map(&copy, one, 0x40000, two, 0x80000, 14, 2);
    flush(&copy, one, fpage(0, 32, MAPDB_ALL_RIGHTS), 4);
    CHECK(mapdb_give_own(&copy, 4, 8, lost, 4, &count), MAPDB_DONE);
    check_revocation(__LINE__, &lost[0], 3, 0x80000, 13);
    check_revocation(__LINE__, &lost[1], 1, 0x40000, 13);
    check_revocation(__LINE__, &lost[2], 4, 0x82000, 13);
    check_revocation(__LINE__, &lost[3], 2, 0x42000, 13);
    flush(&copy, two, fpage(0, 32, MAPDB_ALL_RIGHTS), 0);
    flush(&copy, one, fpage(0, 32, MAPDB_ALL_RIGHTS), 0);
    mapdb_destroy(&copy);
}

/* Of the first space: what the root's child loses comes before what the root loses itself. */
static void root_flushes(void)
{
    mapdb_copy copy = created(0);
    mapdb_operation lost[2];
    uint64_t count;

    map(&copy, root, 0x10000, one, 0x40000, 13, 1);
    flush(&copy, root, fpage(0x10000, 12, MAPDB_ALL_RIGHTS), 2);
    CHECK(mapdb_give_own(&copy, 1, 3, lost, 2, &count), MAPDB_DONE);
    check_revocation(__LINE__, &lost[0], 1, 0x40000, 12);
    check_revocation(__LINE__, &lost[1], 0, 0x10000, 12);
    mapdb_destroy(&copy);
}

/* A number of spaces is used again, version by version. */
static void versions(void)
{
    mapdb_copy copy = created(0);
    mapdb_space five = {5, 0};
    mapdb_issued issued;
    mapdb_found found;
    uint32_t version;

    for (five.version = 0; five.version < 1000; five.version++) {
        CHECK(mapdb_free_version(&copy, 5, &version), MAPDB_DONE);
        CHECK(version, five.version);
        map(&copy, root, 0x10000, five, 0x20000, 12, 1);
        CHECK(mapdb_served(&copy, five, 0x20, &found), MAPDB_DONE);
        CHECK(found.frame, 0x10);
        CHECK(mapdb_end(&copy, five, &issued), MAPDB_DONE);
        CHECK(mapdb_served(&copy, five, 0x20, &found), MAPDB_NOT_SERVED);
    }
    CHECK(mapdb_free_version(&copy, 5, &version), MAPDB_DONE);
    CHECK(version, 1000);
    CHECK(mapdb_free_version(&copy, 4, &version), MAPDB_DONE);
    CHECK(version, 0);
    mapdb_destroy(&copy);
}

int main(void)
{
    batches();
    clashes();
    flushes();
    root_flushes();
    versions();
    printf("orders: %d passed, %d failed\n", passed, failed);
    return failed != 0;
}
