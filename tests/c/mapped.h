/* Three spaces, and a map that the tests make again and again. */
#ifndef MAPPED_H
#define MAPPED_H

#include "checks.h"

static const mapdb_space root = {0, 0}, one = {1, 0}, two = {2, 0};

/* 10000/14:rw- into space 1, at 8000 of the window 40000/16. */
static const mapdb_fpage page = {0x10000, 14, MAPDB_READ | MAPDB_WRITE}, window = {0x40000, 16, 99};

static uint32_t map(mapdb_copy *copy, mapdb_space sender, mapdb_fpage given, mapdb_space receiver,
                    mapdb_issued *issued)
{
    return mapdb_map(copy, sender, 0x8000, &given, receiver, &window, issued);
}

#endif
