/*
 * Calls with each request for memory refused in turn: what they answer, what stands then, and that
 * nothing is left in the heap.
 */
#include "counting_heap.h"
#include "mapped.h"

/*
 * How a copy stands whose last map had a request refused: what it answers, and its blocks then and
 * after one operation more. So many maps come before it that its lists have to grow.
 */
typedef struct standing {
    uint32_t status;
    bool reached;
    long blocks, later;
} standing;

static standing mapped_with(unsigned long refused)
{
    const mapdb_space three = {3, 0};
    mapdb_space next = {4, 0};
    mapdb_copy copy = created(0);
    mapdb_issued issued;
    mapdb_found found = {0, 0, 0};
    mapdb_row rows[4];
    uint64_t end = 0, count = 0;
    long before = heap_blocks;
    standing answer;
    int turn;

    CHECK(map(&copy, root, page, two, &issued), MAPDB_DONE);
    for (; next.number < 7; next.number++) {
        CHECK(map(&copy, root, page, next, &issued), MAPDB_DONE);
        CHECK(mapdb_end(&copy, next, &issued), MAPDB_DONE);
    }
    heap_requests = 0;
    heap_refused = refused;
    answer.status = map(&copy, two, fpage(0x48000, 14, MAPDB_READ), one, &issued);
    answer.reached = refused != 0 && heap_requests >= refused;
    heap_refused = 0;
    answer.blocks = heap_blocks - before;
    for (turn = 0; turn < 2 && answer.status == MAPDB_DONE; turn++) {
        CHECK(mapdb_served(&copy, one, 0x48, &found), MAPDB_DONE);
        CHECK(found.frame == 0x10 && found.rights == MAPDB_READ, 1);
        CHECK(mapdb_run_end(&copy, one, 0x48, &end), MAPDB_DONE);
        CHECK(end, 0x4c);
        CHECK(mapdb_table(&copy, rows, 4, &count), MAPDB_DONE);
        CHECK(count == 3 && rows[1].frame == 0x10 && rows[2].frame == 0x10, 1);
        if (turn == 0)
            CHECK(mapdb_end(&copy, three, &issued), MAPDB_DONE);
    }
    answer.later = heap_blocks - before;
    mapdb_destroy(&copy);
    return answer;
}

/*
 * Where the index can't have memory, no call fails for it: it lets go of what it has, answers are
 * as ever, and the next operation has it there again.
 */
static void without_an_index(void)
{
    standing whole = mapped_with(0), found = whole;
    unsigned long refused = 0, absent = 0;

    do {
        found = mapped_with(++refused);
        if (found.reached && found.status == MAPDB_DONE) {
            absent += found.blocks < whole.blocks;
            CHECK(found.later, whole.later);
        }
    } while (found.reached);
    CHECK(absent > 0, 1);
}

/* A path over every call that takes memory. It answers whether a call ran out of memory. */
static bool wanting(void)
{
    mapdb_copy copy = MAPDB_EMPTY, other = MAPDB_EMPTY;
    mapdb_issued issued;
    mapdb_taken taken;
    mapdb_operation given[8];
    mapdb_found found[4];
    mapdb_row rows[8];
    uint8_t text[512];
    mapdb_fpage first_page = fpage(0x10000, 12, MAPDB_WRITE);
    uint64_t count = 0, length = 0;
    uint32_t statuses[12], place;
    bool wanted = false;

    statuses[0] = mapdb_create(&copy, 0);
    statuses[1] = mapdb_create(&other, 1);
    statuses[2] = map(&copy, root, page, one, &issued);
    statuses[3] = mapdb_unmap(&copy, root, &first_page, 0, &issued);
    statuses[4] = mapdb_end(&copy, two, &issued);
    statuses[5] = mapdb_rights(&copy, one, 0x48, found, 4, &count);
    statuses[6] = mapdb_table(&copy, rows, 8, &count);
    statuses[7] = mapdb_snapshot(&copy, text, sizeof text, &length);
    statuses[8] = MAPDB_DONE;
    if (statuses[7] == MAPDB_DONE)
        statuses[8] = mapdb_load(&other, text, length, &taken);
    statuses[9] = mapdb_give(&copy, 0, 1, given, 8, &count);
    statuses[10] = mapdb_give_own(&copy, 0, 1, given, 8, &count);
    statuses[11] = MAPDB_DONE;
    if (statuses[10] == MAPDB_DONE)
        statuses[11] = mapdb_take(&other, given, count, &taken);
    for (place = 0; place < 12; place++)
        wanted = wanted || statuses[place] == MAPDB_MEMORY;
    mapdb_destroy(&copy);
    mapdb_destroy(&other);
    return wanted;
}

static void refusing(void)
{
    unsigned long refused, absorbed = 0;
    bool reached = true;

    for (refused = 1; reached; refused++) {
        heap_requests = 0;
        heap_refused = refused;
        bool wanted = wanting();
        reached = heap_requests >= refused;
        heap_refused = 0;
        CHECK(heap_blocks, 0);
        CHECK(wanted && !reached, 0);
        absorbed += reached && !wanted;
    }
    printf("requests for memory refused in turn: %lu, of which %lu were done without\n",
           refused - 2, absorbed);
}

enum { CARRIED = 24, PIECES = 12 };

/* Maps so many pieces of physical memory to one place of space 1, each in a record of its own. */
static void map_pieces(mapdb_copy *copy, uint32_t count)
{
    mapdb_issued issued;
    uint32_t piece;

    for (piece = 1; piece <= count; piece++)
        CHECK(map(copy, root, fpage(0x10000 * piece, 14, MAPDB_READ | MAPDB_WRITE), one, &issued),
              MAPDB_DONE);
}

static uint32_t own_of(mapdb_copy *copy)
{
    uint32_t held = 77, own = 77;

    CHECK(mapdb_counts(copy, &held, &own), MAPDB_DONE);
    return own;
}

/*
 * Takes a batch with one request for memory refused, and goes on behind what stands, so that no
 * operation is left out. It answers of how many operations what was new stood then.
 */
static size_t carried_with(const mapdb_operation *batch, unsigned long refused)
{
    mapdb_copy copy = created(1);
    mapdb_taken taken;
    uint32_t status, held = 77, own = 77;
    size_t first = 0;

    heap_requests = 0;
    heap_refused = refused;
    while ((status = mapdb_take(&copy, batch + first, CARRIED - first, &taken)) == MAPDB_MEMORY) {
        CHECK(taken.count == 0 && taken.number == 0 && taken.processor == 0, 1);
        CHECK(taken.place < CARRIED - first, 1);
        first += taken.place;
        CHECK(mapdb_counts(&copy, &held, &own), MAPDB_DONE);
        CHECK(held, first);
    }
    heap_refused = 0;
    CHECK(status, MAPDB_DONE);
    CHECK(taken.place == 0 && first + taken.count == CARRIED, 1);
    mapdb_destroy(&copy);
    return first;
}

/* A batch in whose middle memory runs out. */
static void carrying(void)
{
    mapdb_copy source = created(0);
    mapdb_operation batch[CARRIED];
    unsigned long refused = 0, parted = 0;
    uint64_t count = 0;

    map_pieces(&source, CARRIED);
    CHECK(mapdb_give(&source, 0, CARRIED, batch, CARRIED, &count), MAPDB_DONE);
    do
        parted += carried_with(batch, ++refused) != 0;
    while (heap_requests >= refused);
    CHECK(parted > 0, 1);
    mapdb_destroy(&source);
}

/*
 * Hands pieces on in one Map and takes them back in one Unmap, each with one request for memory
 * refused. It adds up how often a part of either stood.
 */
static unsigned long issued_with(unsigned long refused, bool *reached)
{
    const mapdb_fpage whole = fpage(0x40000, 16, MAPDB_READ | MAPDB_WRITE);
    mapdb_copy copy = created(0);
    mapdb_issued issued;
    unsigned long parted = 0;
    uint32_t status, records;
    uint64_t first;

    map_pieces(&copy, PIECES);
    heap_requests = 0;
    heap_refused = refused;
    status = mapdb_map(&copy, one, 0, &whole, two, &whole, &issued);
    *reached = heap_requests >= refused;
    records = own_of(&copy) - PIECES;
    CHECK(status == MAPDB_DONE || status == MAPDB_MEMORY, 1);
    CHECK(issued.count, records);
    CHECK(issued.first, status == MAPDB_DONE ? PIECES + 1 : 0);
    CHECK(status == MAPDB_DONE ? records == PIECES : records < PIECES, 1);
    parted += status == MAPDB_MEMORY && records != 0;
    heap_requests = 0;
    status = mapdb_unmap(&copy, one, &whole, 0, &issued);
    *reached = *reached || heap_requests >= refused;
    heap_refused = 0;
    CHECK(status == MAPDB_DONE || status == MAPDB_MEMORY, 1);
    first = issued.count;
    CHECK(own_of(&copy), PIECES + records + first);
    CHECK(status == MAPDB_DONE ? first == records : first < records, 1);
    parted += status == MAPDB_MEMORY && first != 0;
    /* The same Unmap again issues the rest, and no more. */
    CHECK(mapdb_unmap(&copy, one, &whole, 0, &issued), MAPDB_DONE);
    CHECK(issued.first == 0 && first + issued.count == records, 1);
    mapdb_destroy(&copy);
    return parted;
}

/* Commands in whose middle memory runs out. */
static void issuing(void)
{
    unsigned long refused = 0, parted = 0;
    bool reached;

    do
        parted += issued_with(++refused, &reached);
    while (reached);
    CHECK(parted > 0, 1);
}

int main(void)
{
    without_an_index();
    refusing();
    carrying();
    issuing();
    CHECK(heap_blocks, 0);
    printf("memory: %d passed, %d failed\n", passed, failed);
    return failed != 0;
}
