/*
 * Each call that changes a copy, or gives its operations, once as it should go, and at each status;
 * and all calls at a handle without a copy.
 */
#include "counting_heap.h"
#include "mapped.h"
#include <string.h>

static const mapdb_space far_space = {65536, 0};

/* The page and the window of that map by words. */
static const uint64_t first_word = 0x8008, second_word = 0x100e6, window_word = 0x40100;

/* Bytes that no call writes, to see what was left as it was. */
#define UNTOUCHED 0x55

static bool is_untouched(const void *place, size_t size)
{
    const unsigned char *bytes = (const unsigned char *)place;

    while (size > 0 && bytes[size - 1] == UNTOUCHED)
        size--;
    return size == 0;
}

static void no_copy(void)
{
    mapdb_copy none = MAPDB_EMPTY, some = created(0);
    mapdb_issued issued;
    mapdb_found found;
    mapdb_taken taken;
    mapdb_operation operation;
    mapdb_row row;
    uint8_t text[1];
    uint64_t count = 77;
    uint32_t held = 77, own = 77, version = 77;
    bool answer = true;

    memset(&issued, UNTOUCHED, sizeof issued);
    memset(&found, UNTOUCHED, sizeof found);
    memset(&taken, UNTOUCHED, sizeof taken);
    memset(&operation, UNTOUCHED, sizeof operation);
    memset(&row, UNTOUCHED, sizeof row);
    memset(text, UNTOUCHED, sizeof text);
    CHECK(mapdb_map(&none, root, 0, &page, one, &window, &issued), MAPDB_NO_COPY);
    CHECK(mapdb_map_words(&none, root, first_word, second_word, one, window_word, &issued),
          MAPDB_NO_COPY);
    CHECK(mapdb_unmap(&none, root, &page, 0, &issued), MAPDB_NO_COPY);
    CHECK(mapdb_unmap_word(&none, root, second_word, 0, &issued), MAPDB_NO_COPY);
    CHECK(mapdb_end(&none, one, &issued), MAPDB_NO_COPY);
    CHECK(mapdb_take(&none, &operation, 0, &taken), MAPDB_NO_COPY);
    CHECK(mapdb_give(&none, 0, 0, &operation, 0, &count), MAPDB_NO_COPY);
    CHECK(mapdb_give_own(&none, 0, 0, &operation, 0, &count), MAPDB_NO_COPY);
    CHECK(mapdb_counts(&none, &held, &own), MAPDB_NO_COPY);
    CHECK(mapdb_served(&none, root, 0, &found), MAPDB_NO_COPY);
    CHECK(mapdb_run_end(&none, root, 0, &count), MAPDB_NO_COPY);
    CHECK(mapdb_rights(&none, root, 0, &found, 1, &count), MAPDB_NO_COPY);
    CHECK(mapdb_covers(&none, &some, &answer), MAPDB_NO_COPY);
    CHECK(mapdb_covers(&some, &none, &answer), MAPDB_NO_COPY);
    CHECK(mapdb_same(&none, &some, &answer), MAPDB_NO_COPY);
    CHECK(mapdb_same(&some, &none, &answer), MAPDB_NO_COPY);
    CHECK(mapdb_free_version(&none, 1, &version), MAPDB_NO_COPY);
    CHECK(mapdb_table(&none, &row, 1, &count), MAPDB_NO_COPY);
    CHECK(mapdb_snapshot(&none, text, 1, &count), MAPDB_NO_COPY);
    CHECK(mapdb_load(&none, text, 0, &taken), MAPDB_NO_COPY);
    CHECK(count == 77 && held == 77 && own == 77 && version == 77 && answer, 1);
    CHECK(is_untouched(&issued, sizeof issued) && is_untouched(&found, sizeof found), 1);
    CHECK(is_untouched(&taken, sizeof taken) && is_untouched(&row, sizeof row), 1);
    CHECK(is_untouched(&operation, sizeof operation) && is_untouched(text, sizeof text), 1);
    CHECK(none.at == NULL && some.at != NULL, 1);
    mapdb_destroy(&none);
    mapdb_destroy(&some);
    mapdb_destroy(&some);
    CHECK(some.at == NULL, 1);
}

static void making(void)
{
    mapdb_copy copy = created(63);
    void *at = copy.at;
    mapdb_issued issued;
    uint32_t held, own;

    CHECK(mapdb_create(&copy, 64), MAPDB_BAD_PROCESSOR);
    CHECK(mapdb_create(&copy, 0xffffffff), MAPDB_BAD_PROCESSOR);
    CHECK(copy.at == at, 1);
    CHECK(map(&copy, root, page, one, &issued), MAPDB_DONE);
    CHECK(mapdb_create(&copy, 5), MAPDB_DONE);
    CHECK(mapdb_counts(&copy, &held, &own), MAPDB_DONE);
    CHECK(held + own, 0);
    mapdb_destroy(&copy);
}

static void mapping(void)
{
    mapdb_copy copy = created(3);
    mapdb_issued issued;
    mapdb_fpage bad = fpage(0x11000, 14, 6);

    CHECK(map(&copy, root, page, one, &issued), MAPDB_DONE);
    CHECK(issued.first == 1 && issued.count == 1, 1);
    CHECK(mapdb_map_words(&copy, root, first_word | 1, second_word, two, window_word, &issued),
          MAPDB_DONE);
    CHECK(issued.first == 2 && issued.count == 1, 1);
    CHECK(map(&copy, one, fpage(0, 0, 7), two, &issued), MAPDB_DONE);
    CHECK(issued.first == 0 && issued.count == 0, 1);
    memset(&issued, UNTOUCHED, sizeof issued);
    CHECK(map(&copy, far_space, bad, one, &issued), MAPDB_BAD_SPACE);
    CHECK(map(&copy, root, page, far_space, &issued), MAPDB_BAD_SPACE);
    CHECK(map(&copy, root, bad, far_space, &issued), MAPDB_UNALIGNED);
    CHECK(is_untouched(&issued, sizeof issued), 1);
    CHECK(map(&copy, root, fpage(0x10000, 11, 8), one, &issued), MAPDB_TOO_SMALL);
    CHECK(map(&copy, root, fpage(0x10000, 49, 6), one, &issued), MAPDB_TOO_LARGE);
    CHECK(map(&copy, root, fpage(0x10000, 256 + 14, 6), one, &issued), MAPDB_TOO_LARGE);
    CHECK(map(&copy, root, fpage(1ULL << 48, 14, 6), one, &issued), MAPDB_OUT_OF_SPACE);
    CHECK(map(&copy, root, fpage(0x10000, 14, 8), one, &issued), MAPDB_BAD_RIGHTS);
    CHECK(map(&copy, root, fpage(0x10000, 14, 256 + 6), one, &issued), MAPDB_BAD_RIGHTS);
    CHECK(mapdb_map(&copy, root, 0, &page, one, &bad, &issued), MAPDB_UNALIGNED);
    CHECK(mapdb_map_words(&copy, root, first_word | 2, second_word, one, window_word, &issued),
          MAPDB_GRANT);
    CHECK(mapdb_map_words(&copy, root, 0x8000, second_word, one, window_word, &issued),
          MAPDB_NOT_MAP_ITEM);
    CHECK(mapdb_map_words(&copy, root, first_word | 0x10, second_word, one, window_word, &issued),
          MAPDB_RESERVED_BITS);
    CHECK(mapdb_map_words(&copy, root, first_word, second_word | 8, one, window_word, &issued),
          MAPDB_RESERVED_BIT);
    CHECK(mapdb_map_words(&copy, root, first_word, 0x110e6, one, window_word, &issued),
          MAPDB_UNALIGNED);
    CHECK(mapdb_map_words(&copy, root, first_word, second_word, one, 0x41100, &issued),
          MAPDB_UNALIGNED);
    CHECK(map(&copy, root, page, root, &issued), MAPDB_ROOT_SPACE);
    CHECK(issued.first == 0 && issued.count == 0, 1);
    mapdb_destroy(&copy);
}

static void unmapping(void)
{
    mapdb_copy copy = created(0);
    mapdb_issued issued;
    mapdb_found found;
    mapdb_fpage first_page = fpage(0x10000, 12, MAPDB_WRITE);

    CHECK(map(&copy, root, page, one, &issued), MAPDB_DONE);
    CHECK(mapdb_unmap(&copy, root, &first_page, 0, &issued), MAPDB_DONE);
    CHECK(issued.first == 0 && issued.count == 1, 1);
    CHECK(mapdb_served(&copy, one, 0x48, &found), MAPDB_DONE);
    CHECK(found.frame == 0x10 && found.rights == MAPDB_READ, 1);
    CHECK(mapdb_unmap_word(&copy, one, 0x48000 | 12 << 4 | 4, 2, &issued), MAPDB_DONE);
    CHECK(issued.count, 1);
    CHECK(mapdb_served(&copy, one, 0x48, &found), MAPDB_NOT_SERVED);
    CHECK(mapdb_served(&copy, root, 0x10, &found), MAPDB_DONE);
    CHECK(found.frame == 0x10 && found.rights == MAPDB_ALL_RIGHTS, 1);
    CHECK(mapdb_unmap(&copy, far_space, &first_page, 0, &issued), MAPDB_BAD_SPACE);
    CHECK(mapdb_unmap_word(&copy, one, 0x48008, 0, &issued), MAPDB_RESERVED_BIT);
    CHECK(mapdb_unmap_word(&copy, one, 0x48000 | 11 << 4, 0, &issued), MAPDB_TOO_SMALL);
    mapdb_destroy(&copy);
}

static void ending(void)
{
    mapdb_copy copy = created(0);
    mapdb_issued issued;
    uint32_t version = 77;
    mapdb_space again = {1, 1};

    CHECK(mapdb_free_version(&copy, 1, &version), MAPDB_DONE);
    CHECK(version, 0);
    CHECK(mapdb_end(&copy, one, &issued), MAPDB_DONE);
    CHECK(issued.first == 0 && issued.count == 1, 1);
    CHECK(mapdb_free_version(&copy, 1, &version), MAPDB_DONE);
    CHECK(version, 1);
    CHECK(mapdb_free_version(&copy, 65536, &version), MAPDB_BAD_SPACE);
    CHECK(mapdb_end(&copy, one, &issued), MAPDB_SPACE_ENDED);
    CHECK(issued.count == 0 && issued.space.number == 1 && issued.space.version == 0, 1);
    CHECK(map(&copy, again, page, one, &issued), MAPDB_SPACE_ENDED);
    CHECK(issued.space.number == 1 && issued.space.version == 0, 1);
    CHECK(mapdb_end(&copy, again, &issued), MAPDB_DONE);
    CHECK(map(&copy, again, page, one, &issued), MAPDB_SPACE_ENDED);
    CHECK(issued.space.number == 1 && issued.space.version == 1, 1);
    CHECK(mapdb_end(&copy, root, &issued), MAPDB_ROOT_SPACE);
    CHECK(mapdb_end(&copy, far_space, &issued), MAPDB_BAD_SPACE);
    mapdb_destroy(&copy);
}

static void giving(void)
{
    mapdb_copy copy = created(3), other = created(4);
    mapdb_issued issued;
    mapdb_operation room[4];
    mapdb_taken taken;
    mapdb_fpage first_page = fpage(0x10000, 12, MAPDB_WRITE);
    mapdb_space five = {5, 6};
    uint64_t count = 0;
    uint32_t held, own;

    CHECK(map(&copy, root, page, one, &issued), MAPDB_DONE);
    CHECK(mapdb_unmap(&copy, root, &first_page, 0, &issued), MAPDB_DONE);
    CHECK(mapdb_end(&other, five, &issued), MAPDB_DONE);
    CHECK(mapdb_give_own(&other, 0, 1, room, 4, &count), MAPDB_DONE);
    CHECK(mapdb_take(&copy, room, count, &taken), MAPDB_DONE);
    CHECK(mapdb_counts(&copy, &held, &own), MAPDB_DONE);
    CHECK(held == 3 && own == 2, 1);
    memset(room, 0x55, sizeof room);
    CHECK(mapdb_give(&copy, 0, 3, room, 4, &count), MAPDB_DONE);
    CHECK(count, 3);
    CHECK(room[0].kind == MAPDB_RECORD && room[0].rights == 6 && room[0].number == 1 &&
              room[0].processor == 3,
          1);
    CHECK(room[0].parent_number == 0 && room[0].parent_processor == 0 && room[0].reserved == 0, 1);
    CHECK(room[0].address == 0x48000 && room[0].order == 14 && room[0].source == 0x10, 1);
    CHECK(room[0].space.number == 1 && room[0].space.version == 0, 1);
    CHECK(room[1].kind == MAPDB_REVOCATION && room[1].rights == 2 && room[1].number == 1 &&
              room[1].processor == 3,
          1);
    CHECK(room[1].address == 0x48000 && room[1].order == 12 && room[1].source == 0 &&
              room[1].space.number == 0,
          1);
    CHECK(room[2].kind == MAPDB_END && room[2].space.number == 5 && room[2].space.version == 6, 1);
    CHECK(room[2].number == 0 && room[2].address == 0 && room[2].order == 0 && room[2].rights == 0,
          1);
    CHECK(room[3].kind, 0x55555555);
    CHECK(mapdb_give_own(&copy, 1, 2, room, 1, &count), MAPDB_DONE);
    CHECK(count == 1 && room[0].kind == MAPDB_REVOCATION, 1);
    CHECK(mapdb_give(&copy, 0, 3, room, 2, &count), MAPDB_NO_ROOM);
    CHECK(count == 3 && room[0].kind == MAPDB_REVOCATION, 1);
    CHECK(mapdb_give(&copy, 0, 4, room, 4, &count), MAPDB_BAD_MARK);
    CHECK(mapdb_give(&copy, 2, 1, room, 4, &count), MAPDB_BAD_MARK);
    CHECK(mapdb_give_own(&copy, 0, 3, room, 4, &count), MAPDB_BAD_MARK);
    mapdb_destroy(&copy);
    mapdb_destroy(&other);
}

static uint32_t take_one(mapdb_copy *copy, mapdb_operation operation, uint64_t *place)
{
    mapdb_operation batch[2];
    mapdb_taken taken;
    uint32_t status;

    memset(batch, 0, sizeof batch);
    batch[0].kind = MAPDB_END;
    batch[0].space.number = 9;
    batch[1] = operation;
    status = mapdb_take(copy, batch, 2, &taken);
    *place = taken.place;
    return status;
}

#define TAKE_BAD(field, value, wanted)                                                             \
    do {                                                                                           \
        mapdb_operation bad = good;                                                                \
        bad.field = value;                                                                         \
        CHECK(take_one(&copy, bad, &place), wanted);                                               \
        CHECK(place, 1);                                                                           \
    } while (0)

static void taking(void)
{
    mapdb_copy copy = created(1), source = created(0);
    mapdb_issued issued;
    mapdb_operation good, other;
    mapdb_taken taken;
    uint64_t count, place;
    uint32_t held, own;

    CHECK(map(&source, root, page, one, &issued), MAPDB_DONE);
    CHECK(mapdb_give(&source, 0, 1, &good, 1, &count), MAPDB_DONE);
    TAKE_BAD(kind, 0, MAPDB_BAD_KIND);
    TAKE_BAD(kind, 77, MAPDB_BAD_KIND);
    TAKE_BAD(kind, 0xffffffff, MAPDB_BAD_KIND);
    TAKE_BAD(order, 300, MAPDB_TOO_LARGE);
    TAKE_BAD(order, 0, MAPDB_TOO_SMALL);
    TAKE_BAD(address, 0x49000, MAPDB_UNALIGNED);
    TAKE_BAD(address, ~0ULL, MAPDB_OUT_OF_SPACE);
    TAKE_BAD(processor, 64, MAPDB_BAD_PROCESSOR);
    TAKE_BAD(processor, 300, MAPDB_BAD_PROCESSOR);
    TAKE_BAD(parent_processor, 64, MAPDB_BAD_PROCESSOR);
    TAKE_BAD(rights, 8, MAPDB_BAD_RIGHTS);
    TAKE_BAD(rights, 256, MAPDB_BAD_RIGHTS);
    TAKE_BAD(space.number, 70000, MAPDB_BAD_SPACE);
    TAKE_BAD(number, 0, MAPDB_BAD_NUMBER);
    TAKE_BAD(number, 1ULL << 40, MAPDB_BAD_NUMBER);
    TAKE_BAD(parent_number, 1, MAPDB_PARENT_NOT_BEFORE);
    TAKE_BAD(source, 0x11, MAPDB_SOURCE_UNALIGNED);
    TAKE_BAD(source, 1ULL << 36, MAPDB_PAGE_OUT_OF_SPACE);
    TAKE_BAD(space.number, 0, MAPDB_ROOT_SPACE);
    CHECK(mapdb_counts(&copy, &held, &own), MAPDB_DONE);
    CHECK(held, 0);
    CHECK(mapdb_take(&copy, &good, 1, &taken), MAPDB_DONE);
    CHECK(taken.count, 1);
    CHECK(mapdb_take(&copy, &good, 1, &taken), MAPDB_DONE);
    CHECK(taken.count, 0);
    other = good;
    other.space.number = 2;
    CHECK(mapdb_take(&copy, &other, 1, &taken), MAPDB_CLASH);
    CHECK(taken.number == 1 && taken.processor == 0 && taken.count == 0, 1);
    CHECK(mapdb_take(&copy, &good, 0, &taken), MAPDB_DONE);
    mapdb_destroy(&copy);
    mapdb_destroy(&source);
}

/* Fields that the kind of an operation does not use are not looked at, nor the one that is reserved
 * of any kind. */
static void fields_that_are_not_looked_at(void)
{
    mapdb_copy copy = created(1), source = created(0);
    mapdb_issued issued;
    mapdb_operation record, end;
    mapdb_taken taken;
    uint64_t count;

    CHECK(map(&source, root, page, one, &issued), MAPDB_DONE);
    CHECK(mapdb_give(&source, 0, 1, &record, 1, &count), MAPDB_DONE);
    CHECK(mapdb_take(&copy, &record, 1, &taken), MAPDB_DONE);
    record.reserved = 5;
    CHECK(mapdb_take(&copy, &record, 1, &taken), MAPDB_DONE);
    CHECK(taken.count, 0);
    memset(&end, 0xff, sizeof end);
    end.kind = MAPDB_END;
    end.space = two;
    CHECK(mapdb_take(&copy, &end, 1, &taken), MAPDB_DONE);
    CHECK(taken.count, 1);
    CHECK(mapdb_end(&copy, two, &issued), MAPDB_SPACE_ENDED);
    mapdb_destroy(&copy);
    mapdb_destroy(&source);
}

/* All that a full copy holds, given in one call, and in its snapshot. */
static void handing_on(mapdb_copy *full)
{
    static mapdb_operation given[MAPDB_OPERATIONS];
    static uint8_t text[4 << 20];
    static mapdb_row rows[2];
    mapdb_copy taker = created(1), loader = created(2);
    mapdb_taken taken;
    uint64_t count;
    bool answer;

    CHECK(mapdb_give(full, 0, MAPDB_OPERATIONS, given, MAPDB_OPERATIONS, &count), MAPDB_DONE);
    CHECK(count, MAPDB_OPERATIONS);
    CHECK(mapdb_take(&taker, given, MAPDB_OPERATIONS, &taken), MAPDB_DONE);
    CHECK(taken.count, MAPDB_OPERATIONS);
    CHECK(mapdb_same(&taker, full, &answer), MAPDB_DONE);
    CHECK(answer, true);
    CHECK(mapdb_snapshot(full, text, sizeof text, &count), MAPDB_DONE);
    CHECK(mapdb_load(&loader, text, count, &taken), MAPDB_DONE);
    CHECK(taken.count, MAPDB_OPERATIONS);
    CHECK(mapdb_same(&loader, full, &answer), MAPDB_DONE);
    CHECK(answer, true);
    CHECK(mapdb_table(full, rows, 2, &count), MAPDB_DONE);
    CHECK(count, 1);
    mapdb_destroy(&taker);
    mapdb_destroy(&loader);
}

/* As many ends as a copy holds. */
static void filling(void)
{
    static mapdb_operation batch[1024];
    mapdb_copy copy = created(0);
    mapdb_issued issued;
    mapdb_taken taken;
    mapdb_fpage all = fpage(0, 48, 7);
    uint32_t round, place, held, own;

    for (round = 0; round < 64; round++) {
        memset(batch, 0, sizeof batch);
        for (place = 0; place < 1024; place++) {
            batch[place].kind = MAPDB_END;
            batch[place].space.number = 1 + (round * 1024 + place) % 512;
            batch[place].space.version = (round * 1024 + place) / 512;
        }
        CHECK(mapdb_take(&copy, batch, 1024, &taken), MAPDB_DONE);
    }
    CHECK(mapdb_counts(&copy, &held, &own), MAPDB_DONE);
    CHECK(held == MAPDB_OPERATIONS && own == 0, 1);
    batch[0].space.number = 999;
    CHECK(mapdb_take(&copy, batch, 1, &taken), MAPDB_FULL);
    CHECK(mapdb_end(&copy, batch[0].space, &issued), MAPDB_FULL);
    CHECK(mapdb_map(&copy, root, 0, &all, batch[0].space, &all, &issued), MAPDB_FULL);
    handing_on(&copy);
    mapdb_destroy(&copy);
}

static void spending(void)
{
    mapdb_copy copy = created(0);
    mapdb_operation last = {MAPDB_RECORD, 7, (1ULL << 40) - 1, 0, 0x10000, 0x10, {1, 0}, 9, 0,
                            12,           0};
    mapdb_issued issued;
    mapdb_taken taken;

    CHECK(mapdb_take(&copy, &last, 1, &taken), MAPDB_DONE);
    CHECK(map(&copy, root, page, two, &issued), MAPDB_NUMBERS_SPENT);
    mapdb_destroy(&copy);
}

int main(void)
{
    no_copy();
    making();
    mapping();
    unmapping();
    ending();
    giving();
    taking();
    fields_that_are_not_looked_at();
    filling();
    spending();
    CHECK(heap_blocks, 0);
    printf("calls: %d passed, %d failed\n", passed, failed);
    return failed != 0;
}
