/*
 * What calls of the library for C cost, on a copy of 10,000 records of one page in 100 spaces:
 *
 *     make build/calls && build/calls
 *
 * It prints, for each call, the mean time in nanoseconds: of one call, or of an operation that is
 * given, or of a row of the table. Spaces and pages are taken in an order that is random and the
 * same each time. Of questions the time is the least of five rounds, since other work on the
 * machine only makes rounds longer; Map, Unmap, operations and the table are timed once.
 */
#define _POSIX_C_SOURCE 200809L

#include "mapdb.h"
#include <stdio.h>
#include <stdlib.h>
#include <time.h>

enum { SPACES = 100, PAGES = 100, RECORDS = SPACES * PAGES, ROUNDS = 5, QUERIES = 200000 };

static uint64_t seed = 1;

/* A random number below a limit. */
static uint32_t below(uint32_t limit)
{
    seed = seed * 6364136223846793005ULL + 1442695040888963407ULL;
    return (uint32_t)(seed >> 33) % limit;
}

static double now(void)
{
    struct timespec time;

    clock_gettime(CLOCK_MONOTONIC, &time);
    return (double)time.tv_sec * 1e9 + (double)time.tv_nsec;
}

static void expect(uint32_t status, const char *call)
{
    if (status == MAPDB_DONE)
        return;
    fprintf(stderr, "%s: %s\n", call, mapdb_status_name(status));
    exit(1);
}

static mapdb_space space_of(uint32_t number)
{
    mapdb_space space = {0, 0};

    space.number = number;
    return space;
}

static mapdb_fpage page_at(uint64_t page)
{
    mapdb_fpage fpage = {0, MAPDB_PAGE_ORDER, MAPDB_READ | MAPDB_WRITE};

    fpage.address = page << MAPDB_PAGE_ORDER;
    return fpage;
}

/* Maps a page of physical memory to each page of each space, in a random order. */
static double fill(mapdb_copy *copy)
{
    static uint32_t turns[RECORDS];
    mapdb_issued issued;
    double begun;
    uint32_t i;

    for (i = 0; i < RECORDS; i++) {
        uint32_t other = below(i + 1);

        turns[i] = turns[other];
        turns[other] = i;
    }
    begun = now();
    for (i = 0; i < RECORDS; i++) {
        mapdb_fpage page = page_at(turns[i] % 977);
        mapdb_fpage window = page_at(turns[i] / SPACES);

        expect(mapdb_map(copy, space_of(0), 0, &page, space_of(1 + turns[i] % SPACES), &window,
                         &issued), "mapdb_map");
    }
    return (now() - begun) / RECORDS;
}

static void ask_counts(mapdb_copy *copy)
{
    uint32_t held, own;

    expect(mapdb_counts(copy, &held, &own), "mapdb_counts");
}

static void ask_served(mapdb_copy *copy)
{
    mapdb_found found;

    expect(mapdb_served(copy, space_of(1 + below(SPACES)), below(PAGES), &found), "mapdb_served");
}

static void ask_rights(mapdb_copy *copy)
{
    mapdb_found found[4];
    uint64_t count;

    expect(mapdb_rights(copy, space_of(1 + below(SPACES)), below(PAGES), found, 4, &count),
           "mapdb_rights");
}

static void ask_run_end(mapdb_copy *copy)
{
    uint64_t end;

    expect(mapdb_run_end(copy, space_of(1 + below(SPACES)), below(PAGES), &end), "mapdb_run_end");
}

/* The mean time of a question, in the best of the rounds. */
static double mean_time(mapdb_copy *copy, void (*ask)(mapdb_copy *))
{
    double best = 0;
    int round, i;

    for (round = 0; round < ROUNDS; round++) {
        double begun = now(), mean;

        for (i = 0; i < QUERIES; i++)
            ask(copy);
        mean = (now() - begun) / QUERIES;
        if (round == 0 || mean < best)
            best = mean;
    }
    return best;
}

/* The mean time of an Unmap of one page, from 1,000 spaces and pages. */
static double unmap_time(mapdb_copy *copy)
{
    mapdb_issued issued;
    double begun = now();
    int i;

    for (i = 0; i < 1000; i++) {
        mapdb_fpage page = page_at(below(PAGES));

        page.rights = MAPDB_WRITE;
        expect(mapdb_unmap(copy, space_of(1 + below(SPACES)), &page, 1, &issued), "mapdb_unmap");
    }
    return (now() - begun) / 1000;
}

/* The mean time of an operation, where all are given in batches of 100. */
static double give_time(mapdb_copy *copy)
{
    enum { BATCH = 100 };
    static mapdb_operation room[BATCH];
    double begun = now();
    uint64_t count;
    uint32_t first;

    for (first = 0; first < RECORDS; first += BATCH)
        expect(mapdb_give(copy, first, first + BATCH, room, BATCH, &count), "mapdb_give");
    return (now() - begun) / RECORDS;
}

/* The mean time of a row of the table. */
static double table_time(mapdb_copy *copy)
{
    enum { MOST_ROWS = RECORDS + 1 };
    static mapdb_row rows[MOST_ROWS];
    double begun = now();
    uint64_t count;

    expect(mapdb_table(copy, rows, MOST_ROWS, &count), "mapdb_table");
    return (now() - begun) / (double)count;
}

int main(void)
{
    mapdb_copy copy = MAPDB_EMPTY;
    double map;

    expect(mapdb_create(&copy, 0), "mapdb_create");
    map = fill(&copy);
    printf("mapdb_map      %7.0f ns\n", map);
    printf("mapdb_counts   %7.0f ns\n", mean_time(&copy, ask_counts));
    printf("mapdb_served   %7.0f ns\n", mean_time(&copy, ask_served));
    printf("mapdb_rights   %7.0f ns\n", mean_time(&copy, ask_rights));
    printf("mapdb_run_end  %7.0f ns\n", mean_time(&copy, ask_run_end));
    printf("mapdb_give     %7.0f ns an operation\n", give_time(&copy));
    printf("mapdb_table    %7.0f ns a row\n", table_time(&copy));
    printf("mapdb_unmap    %7.0f ns\n", unmap_time(&copy));
    mapdb_destroy(&copy);
    return 0;
}
