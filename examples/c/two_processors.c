/*
 * Two threads stand for two processors. Each has a copy of its own, maps and unmaps there, and
 * sends what it issued over a channel to the other, which takes it in another order than it was
 * issued. At the end both copies answer alike.
 *
 * A channel has room for all that is sent. A kernel's is a ring: who finds it full keeps the
 * operations for later.
 */
#include "mapdb.h"
#include <pthread.h>
#include <stdio.h>
#include <stdlib.h>
#include <string.h>

enum { ROUNDS = 8, BATCH = 16, CHANNEL = 512, TRIES = 100 };

/*
 * A channel: operations as they stand, from one thread to the other. The lock is the kernel's, and
 * none of the library's.
 */
typedef struct channel {
    pthread_mutex_t lock;
    pthread_cond_t changed;
    mapdb_operation operations[CHANNEL];
    size_t written, read;
    bool closed;
} channel;

typedef struct processor {
    uint32_t number;
    mapdb_copy copy;
    uint32_t sent; /* how many of its own operations it has sent */
    channel *out, *in;
    int failures;
} processor;

static void expect(processor *self, uint32_t status, const char *what)
{
    if (status != MAPDB_DONE) {
        printf("processor %u: %s: %s\n", (unsigned)self->number, what, mapdb_status_name(status));
        self->failures++;
    }
}

static bool open_channel(channel *opened)
{
    return pthread_mutex_init(&opened->lock, NULL) == 0 &&
           pthread_cond_init(&opened->changed, NULL) == 0;
}

static void put_on(channel *out, const mapdb_operation *operations, size_t count)
{
    pthread_mutex_lock(&out->lock);
    if (count > CHANNEL - out->written) {
        fprintf(stderr, "a channel is full\n");
        abort();
    }
    memcpy(out->operations + out->written, operations, count * sizeof *operations);
    out->written += count;
    pthread_cond_signal(&out->changed);
    pthread_mutex_unlock(&out->lock);
}

static void close_channel(channel *out)
{
    pthread_mutex_lock(&out->lock);
    out->closed = true;
    pthread_cond_signal(&out->changed);
    pthread_mutex_unlock(&out->lock);
}

/*
 * What has come, up to BATCH operations, the last one first. It waits for one, and answers 0 where
 * no more come.
 */
static size_t receive(channel *in, mapdb_operation *batch)
{
    size_t count = 0;

    pthread_mutex_lock(&in->lock);
    while (in->read == in->written && !in->closed)
        pthread_cond_wait(&in->changed, &in->lock);
    while (count < BATCH && in->read + count < in->written)
        count++;
    for (size_t place = 0; place < count; place++)
        batch[place] = in->operations[in->read + count - 1 - place];
    in->read += count;
    pthread_mutex_unlock(&in->lock);
    return count;
}

/*
 * Sends what the copy has issued since the last time. Where memory runs out, the same operations
 * are asked for again: what was not given is not sent.
 */
static void send_own(processor *self)
{
    mapdb_operation batch[BATCH];
    uint64_t count = 0;
    uint32_t held = 0, own = 0, status = mapdb_counts(&self->copy, &held, &own);

    expect(self, status, "counts");
    for (int tries = 0; self->sent < own && tries < TRIES;) {
        uint32_t end = own - self->sent > BATCH ? self->sent + BATCH : own;

        status = mapdb_give_own(&self->copy, self->sent, end, batch, BATCH, &count);
        if (status == MAPDB_DONE) {
            put_on(self->out, batch, count);
            self->sent = end;
        } else
            tries++;
    }
    expect(self, status, "give");
}

/*
 * Takes a batch, all of it. Where memory runs out in its middle, what is new of the first
 * operations stands, and the others are taken from there on.
 */
static void take(processor *self, const mapdb_operation *batch, size_t count)
{
    mapdb_taken taken;
    size_t first = 0;
    uint32_t status = MAPDB_MEMORY;

    for (int tries = 0; status == MAPDB_MEMORY && tries < TRIES; tries++) {
        status = mapdb_take(&self->copy, batch + first, count - first, &taken);
        if (status == MAPDB_MEMORY)
            first += taken.place;
    }
    expect(self, status, "take");
}

/*
 * Memory goes to a space of this processor, half of it on to a space of the other's, and a page of
 * it is taken back.
 */
static void command(processor *self, uint32_t round)
{
    mapdb_space root = {0, 0}, mine = {1 + self->number, 0}, theirs = {2 - self->number, 0};
    uint64_t base = (uint64_t)(1 + round * 2 + self->number) << 16;
    mapdb_fpage whole = {base, 16, MAPDB_READ | MAPDB_WRITE};
    mapdb_fpage half = {base, 15, MAPDB_READ};
    mapdb_fpage page = {base, 12, MAPDB_WRITE | MAPDB_READ};
    mapdb_issued issued;

    expect(self, mapdb_map(&self->copy, root, 0, &whole, mine, &whole, &issued), "map");
    expect(self, mapdb_map(&self->copy, mine, 0, &half, theirs, &half, &issued), "map on");
    if (round % 2 == 1)
        expect(self, mapdb_unmap(&self->copy, mine, &page, 0, &issued), "unmap");
}

static void *run(void *argument)
{
    processor *self = (processor *)argument;
    mapdb_operation batch[BATCH];
    size_t count;

    for (uint32_t round = 0; round < ROUNDS; round++) {
        command(self, round);
        send_own(self);
    }
    close_channel(self->out);
    while ((count = receive(self->in, batch)) != 0)
        take(self, batch, count);
    return NULL;
}

/* Asks both copies for each page that was mapped, and tells how many answers differ. */
static int differences(processor *one, processor *other)
{
    int different = 0;

    for (uint32_t number = 1; number <= 2; number++)
        for (uint64_t page = 0x10; page < 0x10 * (2 * ROUNDS + 2); page++) {
            mapdb_space space = {number, 0};
            mapdb_found a = {0, 0, 0}, b = {0, 0, 0};
            uint32_t first = mapdb_served(&one->copy, space, page, &a);
            uint32_t second = mapdb_served(&other->copy, space, page, &b);

            different += first != second || a.frame != b.frame || a.rights != b.rights;
        }
    return different;
}

int main(void)
{
    static channel there, back;
    processor one = {0, MAPDB_EMPTY, 0, &there, &back, 0};
    processor other = {1, MAPDB_EMPTY, 0, &back, &there, 0};
    pthread_t threads[2];
    bool same = false;
    uint32_t held = 0, own = 0;
    int different;

    if (!open_channel(&there) || !open_channel(&back))
        return 1;
    expect(&one, mapdb_create(&one.copy, one.number), "create");
    expect(&other, mapdb_create(&other.copy, other.number), "create");
    if (pthread_create(&threads[0], NULL, run, &one) != 0 ||
        pthread_create(&threads[1], NULL, run, &other) != 0)
        return 1;
    if (pthread_join(threads[0], NULL) != 0 || pthread_join(threads[1], NULL) != 0)
        return 1;
    expect(&one, mapdb_same(&one.copy, &other.copy, &same), "same");
    expect(&one, mapdb_counts(&one.copy, &held, &own), "counts");
    different = differences(&one, &other);
    printf("operations %u, same %s, different answers %d\n", (unsigned)held, same ? "yes" : "no",
           different);
    mapdb_destroy(&one.copy);
    mapdb_destroy(&other.copy);
    return one.failures + other.failures + different == 0 && same ? 0 : 1;
}
