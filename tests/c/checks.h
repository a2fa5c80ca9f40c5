/* What is asked, and counted; and what a test begins with. */
#ifndef CHECKS_H
#define CHECKS_H

#include "mapdb.h"
#include <stdio.h>

static int passed, failed;

static void check(int line, const char *what, unsigned long long is, unsigned long long wanted)
{
    if (is == wanted) {
        passed++;
        return;
    }
    failed++;
    printf("line %d: %s is %llu, not %llu\n", line, what, is, wanted);
}

#define CHECK(what, wanted)                                                                        \
    check(__LINE__, #what, (unsigned long long)(what), (unsigned long long)(wanted))

static mapdb_fpage fpage(uint64_t address, uint32_t order, uint32_t rights)
{
    mapdb_fpage made = {0, 0, 0};

    made.address = address;
    made.order = order;
    made.rights = rights;
    return made;
}

static mapdb_copy created(uint32_t processor)
{
    mapdb_copy copy = MAPDB_EMPTY;

    CHECK(mapdb_create(&copy, processor), MAPDB_DONE);
    return copy;
}

#endif
