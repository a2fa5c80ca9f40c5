/*
 * A program with no C library: a heap in an array, memcpy, memmove and memset, and an exit by a
 * system call (Linux on x86-64).
 */
#include "mapdb.h"

void *memcpy(void *to, const void *from, size_t size);
void *memmove(void *to, const void *from, size_t size);
void *memset(void *to, int byte, size_t size);
void _start(void);

static union {
    char bytes[1 << 20];
    long double aligned;
} pool;
static size_t used;

void *memmove(void *to, const void *from, size_t size)
{
    char *target = to;
    const char *source = from;
    size_t place;

    if (target < source)
        for (place = 0; place < size; place++)
            target[place] = source[place];
    else
        while (size-- > 0)
            target[size] = source[size];
    return to;
}

void *memcpy(void *to, const void *from, size_t size)
{
    return memmove(to, from, size);
}

void *memset(void *to, int byte, size_t size)
{
    char *target = to;

    while (size-- > 0)
        target[size] = (char)byte;
    return to;
}

/* The next piece of the array, in units of 16 bytes. Nothing is given back. */
mapdb_block rattle_alloc(size_t size, size_t alignment)
{
    size_t rounded = (size + (size == 0 ? alignment : 0) + 15) & ~(size_t)15;
    mapdb_block answer = {false, pool.bytes};

    if (rounded <= sizeof pool.bytes - used) {
        answer.ok = true;
        answer.block = pool.bytes + used;
        used += rounded;
    }
    return answer;
}

mapdb_block rattle_realloc(void *old, size_t kept, size_t size, size_t alignment)
{
    mapdb_block answer = rattle_alloc(size, alignment);

    if (answer.ok)
        memmove(answer.block, old, kept < size ? kept : size);
    return answer;
}

void rattle_dealloc(void *block)
{
    (void)block;
}

static int run(void)
{
    mapdb_copy copy = MAPDB_EMPTY;
    mapdb_space root = {0, 0}, task = {1, 0};
    mapdb_fpage page = {0x10000, 14, MAPDB_READ};
    mapdb_issued issued;
    mapdb_found found;

    if (mapdb_create(&copy, 0) != MAPDB_DONE)
        return 1;
    if (mapdb_map(&copy, root, 0, &page, task, &page, &issued) != MAPDB_DONE)
        return 2;
    if (mapdb_served(&copy, task, 0x11, &found) != MAPDB_DONE || found.frame != 0x11 ||
        found.rights != MAPDB_READ)
        return 3;
    mapdb_destroy(&copy);
    return copy.at == NULL ? 0 : 4;
}

__attribute__((force_align_arg_pointer, noreturn)) void _start(void)
{
    long status = run();

    for (;;)
        __asm__ volatile("syscall" : : "a"(60L), "D"(status) : "rcx", "r11", "memory");
}
