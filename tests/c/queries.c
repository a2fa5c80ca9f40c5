/* What a copy answers, shows and saves, once as it should go, and at each status. */
#include "counting_heap.h"
#include "mapped.h"
#include <string.h>

static const mapdb_space far_space = {65536, 0};

static void asking(void)
{
    mapdb_copy copy = created(0);
    mapdb_issued issued;
    mapdb_found found, room[3];
    mapdb_fpage next = fpage(0x20000, 14, MAPDB_READ);
    uint64_t count = 0;
    uint64_t end = 0;

    CHECK(map(&copy, root, page, one, &issued), MAPDB_DONE);
    CHECK(map(&copy, root, next, one, &issued), MAPDB_DONE);
    CHECK(mapdb_served(&copy, one, 0x4b, &found), MAPDB_DONE);
    CHECK(found.frame == 0x13 && found.rights == 6 && found.reserved == 0, 1);
    CHECK(mapdb_served(&copy, one, 0x4c, &found), MAPDB_NOT_SERVED);
    CHECK(mapdb_served(&copy, one, ~0ULL, &found), MAPDB_NOT_SERVED);
    CHECK(mapdb_served(&copy, root, (1ULL << 36) - 1, &found), MAPDB_DONE);
    CHECK(found.frame, (1ULL << 36) - 1);
    CHECK(mapdb_served(&copy, root, 1ULL << 36, &found), MAPDB_NOT_SERVED);
    CHECK(mapdb_rights(&copy, root, 1ULL << 36, room, 3, &count), MAPDB_DONE);
    CHECK(count, 0);
    CHECK(mapdb_served(&copy, far_space, 0x48, &found), MAPDB_BAD_SPACE);
    CHECK(mapdb_run_end(&copy, one, 0x48, &end), MAPDB_DONE);
    CHECK(end, 0x4c);
    CHECK(mapdb_run_end(&copy, one, 0x4c, &end), MAPDB_DONE);
    CHECK(end, 1ULL << 36);
    CHECK(mapdb_run_end(&copy, root, 1ULL << 36, &end), MAPDB_PAGE_OUT_OF_SPACE);
    CHECK(mapdb_run_end(&copy, far_space, 0x48, &end), MAPDB_BAD_SPACE);
    CHECK(mapdb_rights(&copy, one, 0x4b, room, 3, &count), MAPDB_DONE);
    CHECK(count == 2 && room[0].frame == 0x13 && room[0].rights == 6 && room[1].frame == 0x23 &&
              room[1].rights == 4,
          1);
    CHECK(mapdb_rights(&copy, one, 0x4b, room, 1, &count), MAPDB_NO_ROOM);
    CHECK(count, 2);
    CHECK(mapdb_rights(&copy, two, 0x4b, room, 3, &count), MAPDB_DONE);
    CHECK(count, 0);
    CHECK(mapdb_rights(&copy, far_space, 0x4b, room, 3, &count), MAPDB_BAD_SPACE);
    mapdb_destroy(&copy);
}

static void comparing(void)
{
    mapdb_copy copy = created(0), other = created(1);
    mapdb_issued issued;
    mapdb_fpage next = fpage(0x20000, 14, MAPDB_READ);
    mapdb_operation given[2];
    mapdb_taken taken;
    uint64_t count = 0;
    bool answer = false;

    CHECK(map(&copy, root, page, one, &issued), MAPDB_DONE);
    CHECK(map(&copy, root, next, one, &issued), MAPDB_DONE);
    CHECK(mapdb_covers(&copy, &other, &answer), MAPDB_DONE);
    CHECK(answer, 1);
    CHECK(mapdb_covers(&other, &copy, &answer), MAPDB_DONE);
    CHECK(answer, 0);
    CHECK(mapdb_give(&copy, 0, 2, given, 2, &count), MAPDB_DONE);
    CHECK(mapdb_take(&other, given + 1, 1, &taken), MAPDB_DONE);
    CHECK(mapdb_same(&copy, &other, &answer), MAPDB_DONE);
    CHECK(answer, 0);
    CHECK(mapdb_take(&other, given, 1, &taken), MAPDB_DONE);
    CHECK(mapdb_same(&copy, &other, &answer), MAPDB_DONE);
    CHECK(answer, 1);
    mapdb_destroy(&copy);
    mapdb_destroy(&other);
}

/* What header and docs say of queries: these take no memory. */
static void asking_without_memory(void)
{
    mapdb_copy copy = created(0), other = created(1);
    mapdb_issued issued;
    mapdb_found found;
    uint32_t held, own, version;
    uint64_t end;
    unsigned long before;
    bool answer;

    CHECK(map(&copy, root, page, one, &issued), MAPDB_DONE);
    CHECK(mapdb_end(&copy, two, &issued), MAPDB_DONE);
    before = heap_requests;
    CHECK(mapdb_served(&copy, one, 0x48, &found), MAPDB_DONE);
    CHECK(mapdb_run_end(&copy, one, 0x48, &end), MAPDB_DONE);
    CHECK(mapdb_counts(&copy, &held, &own), MAPDB_DONE);
    CHECK(mapdb_covers(&copy, &other, &answer), MAPDB_DONE);
    CHECK(mapdb_same(&copy, &other, &answer), MAPDB_DONE);
    CHECK(mapdb_free_version(&copy, 2, &version), MAPDB_DONE);
    CHECK(heap_requests - before, 0);
    mapdb_destroy(&copy);
    mapdb_destroy(&other);
}

static void tables(void)
{
    mapdb_copy copy = created(0);
    mapdb_issued issued;
    mapdb_row room[3];
    mapdb_fpage hole = fpage(0x11000, 12, 7);
    uint64_t count = 0;

    CHECK(map(&copy, root, page, one, &issued), MAPDB_DONE);
    CHECK(mapdb_unmap(&copy, root, &hole, 0, &issued), MAPDB_DONE);
    CHECK(mapdb_table(&copy, room, 2, &count), MAPDB_NO_ROOM);
    CHECK(count, 3);
    CHECK(mapdb_table(&copy, room, 3, &count), MAPDB_DONE);
    CHECK(count == 3 && room[0].space.number == 0 && room[0].page == 0 &&
              room[0].count == 1ULL << 36,
          1);
    CHECK(room[0].frame == 0 && room[0].rights == 7 && room[0].reserved == 0, 1);
    CHECK(room[1].space.number == 1 && room[1].page == 0x48 && room[1].count == 1 &&
              room[1].frame == 0x10,
          1);
    CHECK(room[2].page == 0x4a && room[2].count == 2 && room[2].frame == 0x12 &&
              room[2].rights == 6,
          1);
    mapdb_destroy(&copy);
}

static uint32_t load(mapdb_copy *copy, const char *text, mapdb_taken *taken)
{
    return mapdb_load(copy, (const uint8_t *)text, strlen(text), taken);
}

static void snapshots(void)
{
    static const char wanted[] =
        "{\"cuts\":[],\"ended\":[],\"records\":[[1,0,1,0,72,14,0,0,16,6]],\"version\":3}";
    mapdb_copy copy = created(0), other = created(1);
    mapdb_issued issued;
    mapdb_taken taken;
    uint8_t text[256];
    uint64_t count = 0;
    bool answer = false;

    CHECK(map(&copy, root, page, one, &issued), MAPDB_DONE);
    CHECK(mapdb_snapshot(&copy, text, 3, &count), MAPDB_NO_ROOM);
    CHECK(count, sizeof wanted - 1);
    CHECK(mapdb_snapshot(&copy, text, sizeof text, &count), MAPDB_DONE);
    CHECK(count == sizeof wanted - 1 && memcmp(text, wanted, count) == 0, 1);
    CHECK(mapdb_load(&other, text, count, &taken), MAPDB_DONE);
    CHECK(taken.count, 1);
    CHECK(mapdb_same(&copy, &other, &answer), MAPDB_DONE);
    CHECK(answer, 1);
    CHECK(load(&other, "{", &taken), MAPDB_NOT_JSON);
    CHECK(load(&other, "[]", &taken), MAPDB_SNAPSHOT_SHAPE);
    CHECK(load(&other, "{\"version\":9}", &taken), MAPDB_SNAPSHOT_VERSION);
    CHECK(load(&other,
               "{\"cuts\":[],\"ended\":[],\"records\":[[1,0,1,0,73,14,0,0,16,6]],\"version\":3}",
               &taken),
          MAPDB_UNALIGNED);
    CHECK(load(&other,
               "{\"cuts\":[],\"ended\":[],\"records\":[[0,0,1,0,72,14,0,0,16,6]],\"version\":3}",
               &taken),
          MAPDB_BAD_NUMBER);
    CHECK(load(&other,
               "{\"cuts\":[],\"ended\":[],\"records\":[[1,0,2,0,72,14,0,0,16,6]],\"version\":3}",
               &taken),
          MAPDB_CLASH);
    CHECK(taken.number, 1);
    mapdb_destroy(&copy);
    mapdb_destroy(&other);
}

static void names(void)
{
    uint32_t status, other;

    for (status = 0; status <= MAPDB_SNAPSHOT_VERSION; status++)
        for (other = 0; other < status; other++)
            CHECK(strcmp(mapdb_status_name(status), mapdb_status_name(other)) != 0, 1);
    CHECK(strcmp(mapdb_status_name(MAPDB_SNAPSHOT_VERSION + 1), "unknown"), 0);
}

int main(void)
{
    asking();
    comparing();
    asking_without_memory();
    tables();
    snapshots();
    names();
    CHECK(heap_blocks, 0);
    printf("queries: %d passed, %d failed\n", passed, failed);
    return failed != 0;
}
