/*
 * The heap of libmapdb_c.a over malloc. A kernel with an allocator of its own writes these three
 * functions over that one.
 *
 * A block that is asked for with size 0 is one of `alignment` bytes. Alignments divide 16, and
 * malloc aligns blocks to 16. The pointer is never null, also where there is no memory. These
 * functions are trusted: no proof speaks of them.
 */
#include "mapdb.h"
#include <stdlib.h>

static char no_block;

static mapdb_block block_at(void *block)
{
    mapdb_block answer;

    answer.ok = block != NULL;
    answer.block = block != NULL ? block : &no_block;
    return answer;
}

/* A block of so many bytes. */
mapdb_block rattle_alloc(size_t size, size_t alignment)
{
    return block_at(malloc(size != 0 ? size : alignment));
}

/*
 * The block with so many bytes, of which the first `kept` stay. Where there is no memory, the old
 * block stays.
 */
mapdb_block rattle_realloc(void *old, size_t kept, size_t size, size_t alignment)
{
    (void)kept;
    return block_at(realloc(old, size != 0 ? size : alignment));
}

/* Frees a block that the other two gave. */
void rattle_dealloc(void *block)
{
    free(block);
}
