#include "counting_heap.h"
#include "mapdb.h"
#include <stdlib.h>

unsigned long heap_requests, heap_refused;
long heap_blocks;

static char no_block;

static bool is_refused(void)
{
    return ++heap_requests == heap_refused;
}

static mapdb_block block_at(void *block)
{
    mapdb_block answer;

    answer.ok = block != NULL;
    answer.block = block != NULL ? block : &no_block;
    return answer;
}

mapdb_block rattle_alloc(size_t size, size_t alignment)
{
    void *block = NULL;

    if (alignment <= 16 && !is_refused())
        block = malloc(size != 0 ? size : alignment);
    if (block != NULL)
        heap_blocks++;
    return block_at(block);
}

mapdb_block rattle_realloc(void *old, size_t kept, size_t size, size_t alignment)
{
    void *block = NULL;

    (void)kept;
    if (alignment <= 16 && !is_refused())
        block = realloc(old, size != 0 ? size : alignment);
    return block_at(block);
}

void rattle_dealloc(void *block)
{
    heap_blocks--;
    free(block);
}
