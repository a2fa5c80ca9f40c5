/* Stands before the C library in a run of the program: refuses allocations and threads, and makes
 * standard input and output give or take little, or fail. The environment tells what to do; a file
 * counts what was met.
 *
 *   INTERPOSE_REPORT           the file of counters, of sizeof(struct report) bytes
 *   INTERPOSE_ALLOCATION=N     the Nth allocation is refused
 *   INTERPOSE_THREAD=N         the Nth thread is refused
 *   INTERPOSE_ONWARD=1         all behind the one that is refused are refused too
 *   INTERPOSE_READ_PIECE=N     a read of standard input gives at most N bytes
 *   INTERPOSE_READ_FAIL=N      the Nth read of standard input fails
 *   INTERPOSE_WRITE_PIECE=N    a write to standard output takes at most N bytes
 *   INTERPOSE_WRITE_FAIL=N     the Nth write to standard output fails, and all behind it
 *   INTERPOSE_WRITE_NOTHING=N  the Nth write to standard output takes no byte, nor do later ones
 *   INTERPOSE_INTERRUPTED=1    what fails is interrupted by a signal, in place of an I/O error
 *
 * Numbers count from 1; 0, or none, leaves things as they are. */
#define _GNU_SOURCE
#include <dlfcn.h>
#include <errno.h>
#include <fcntl.h>
#include <pthread.h>
#include <stdint.h>
#include <stdlib.h>
#include <sys/mman.h>
#include <sys/syscall.h>
#include <sys/uio.h>
#include <unistd.h>

/* How many calls of each kind there were, and how many of them were refused. */
struct report {
    uint64_t allocations, refused_allocations;
    uint64_t threads, refused_threads;
    uint64_t reads, failed_reads;
    uint64_t writes, failed_writes;
    uint64_t bytes;
};

static struct {
    uint64_t allocation, thread, onward;
    uint64_t read_piece, read_fail;
    uint64_t write_piece, write_fail, write_nothing;
    uint64_t interrupted;
} wanted;

static struct report unused;
static struct report *report = &unused;
static int is_begun;

static uint64_t number_of(const char *name) {
    const char *text = getenv(name);
    return text ? strtoull(text, NULL, 10) : 0;
}

static void open_report(void) {
    const char *path = getenv("INTERPOSE_REPORT");
    int file = path ? open(path, O_RDWR) : -1;
    if (file < 0)
        return;
    void *place = mmap(NULL, sizeof *report, PROT_READ | PROT_WRITE, MAP_SHARED, file, 0);
    close(file);
    if (place != MAP_FAILED)
        report = place;
}

__attribute__((constructor)) static void begin(void) {
    wanted.allocation = number_of("INTERPOSE_ALLOCATION");
    wanted.thread = number_of("INTERPOSE_THREAD");
    wanted.onward = number_of("INTERPOSE_ONWARD");
    wanted.read_piece = number_of("INTERPOSE_READ_PIECE");
    wanted.read_fail = number_of("INTERPOSE_READ_FAIL");
    wanted.write_piece = number_of("INTERPOSE_WRITE_PIECE");
    wanted.write_fail = number_of("INTERPOSE_WRITE_FAIL");
    wanted.write_nothing = number_of("INTERPOSE_WRITE_NOTHING");
    wanted.interrupted = number_of("INTERPOSE_INTERRUPTED");
    open_report();
    is_begun = 1;
}

static uint64_t count(uint64_t *counter) {
    return __atomic_add_fetch(counter, 1, __ATOMIC_SEQ_CST);
}

/* Whether the call that is counted here is one to refuse; counts that too. */
static int is_refused(uint64_t *counter, uint64_t *refused, uint64_t first, uint64_t onward) {
    uint64_t number = count(counter);
    if (first == 0 || number < first || (number > first && !onward))
        return 0;
    count(refused);
    return 1;
}

static int no_memory(void) {
    uint64_t *refused = &report->refused_allocations;
    if (!is_begun || !is_refused(&report->allocations, refused, wanted.allocation, wanted.onward))
        return 0;
    errno = ENOMEM;
    return 1;
}

/* Allocations. */

extern void *__libc_malloc(size_t);
extern void *__libc_calloc(size_t, size_t);
extern void *__libc_realloc(void *, size_t);
extern void *__libc_memalign(size_t, size_t);

/* The same, of a call that asks for so many bytes; counts those that are given. */
static int is_without(size_t size) {
    if (no_memory())
        return 1;
    if (is_begun)
        __atomic_add_fetch(&report->bytes, size, __ATOMIC_SEQ_CST);
    return 0;
}

void *malloc(size_t size) { return is_without(size) ? NULL : __libc_malloc(size); }

void *calloc(size_t members, size_t size) {
    return is_without(members * size) ? NULL : __libc_calloc(members, size);
}

void *realloc(void *old, size_t size) {
    return is_without(size) ? NULL : __libc_realloc(old, size);
}

void *memalign(size_t alignment, size_t size) {
    return is_without(size) ? NULL : __libc_memalign(alignment, size);
}

void *aligned_alloc(size_t alignment, size_t size) { return memalign(alignment, size); }

int posix_memalign(void **place, size_t alignment, size_t size) {
    void *found = memalign(alignment, size);
    if (found == NULL)
        return ENOMEM;
    *place = found;
    return 0;
}

/* Threads. */

typedef int create(pthread_t *, const pthread_attr_t *, void *(*)(void *), void *);

int pthread_create(pthread_t *thread, const pthread_attr_t *attributes, void *(*body)(void *),
                   void *argument) {
    static create *next;
    if (is_refused(&report->threads, &report->refused_threads, wanted.thread, wanted.onward))
        return EAGAIN;
    if (next == NULL)
        *(void **)&next = dlsym(RTLD_NEXT, "pthread_create");
    return next(thread, attributes, body, argument);
}

/* Streams. */

static size_t at_most(size_t size, uint64_t piece) {
    return piece != 0 && size > piece ? piece : size;
}

ssize_t read(int file, void *place, size_t size) {
    if (file != STDIN_FILENO)
        return syscall(SYS_read, file, place, size);
    if (is_refused(&report->reads, &report->failed_reads, wanted.read_fail, 0)) {
        errno = wanted.interrupted ? EINTR : EIO;
        return -1;
    }
    return syscall(SYS_read, file, place, at_most(size, wanted.read_piece));
}

ssize_t write(int file, const void *place, size_t size) {
    if (file != STDOUT_FILENO)
        return syscall(SYS_write, file, place, size);
    if (is_refused(&report->writes, &report->failed_writes, wanted.write_fail, 1)) {
        errno = wanted.interrupted ? EINTR : EIO;
        return -1;
    }
    if (wanted.write_nothing != 0 && report->writes >= wanted.write_nothing) {
        count(&report->failed_writes);
        return 0;
    }
    return syscall(SYS_write, file, place, at_most(size, wanted.write_piece));
}

/* The first piece that is not empty stands for all of them. */
static const struct iovec *first_piece(const struct iovec *pieces, int pieces_count) {
    while (pieces_count > 1 && pieces->iov_len == 0) {
        pieces++;
        pieces_count--;
    }
    return pieces;
}

ssize_t readv(int file, const struct iovec *pieces, int pieces_count) {
    if (file != STDIN_FILENO || pieces_count < 1)
        return syscall(SYS_readv, file, pieces, pieces_count);
    const struct iovec *piece = first_piece(pieces, pieces_count);
    return read(file, piece->iov_base, piece->iov_len);
}

ssize_t writev(int file, const struct iovec *pieces, int pieces_count) {
    if (file != STDOUT_FILENO || pieces_count < 1)
        return syscall(SYS_writev, file, pieces, pieces_count);
    const struct iovec *piece = first_piece(pieces, pieces_count);
    return write(file, piece->iov_base, piece->iov_len);
}
