/* Faults on demand, of the program that this library is preloaded into.

   What is to fail is said by the environment. A range is A-B (from the A-th to the B-th, from 1) or A- (from the A-th on).

     FAULTS_GROWTHS  the growths that are refused: calls of malloc, calloc, realloc, aligned_alloc, memalign, posix_memalign
     FAULTS_MARKED   where it is set, growths count between the lines "call begins" and "call ends" on the standard error,
                     which are swallowed; else from the start of the process
     FAULTS_READS    the reads of the standard input that fail
     FAULTS_WRITES   the writes to the standard output that fail
     FAULTS_ERROR    their errno, EIO without it; 0 makes them move no byte in place of failing
     FAULTS_SHORT    where it is set, a read of the standard input and a write to the standard output move one byte each

   At the end of the process the last line on the standard error is "faults: growths G refused R reads I writes O". */
#define _GNU_SOURCE
#include <errno.h>
#include <stdatomic.h>
#include <stddef.h>
#include <stdio.h>
#include <stdlib.h>
#include <string.h>
#include <sys/syscall.h>
#include <sys/uio.h>
#include <unistd.h>

extern void *__libc_malloc(size_t size);
extern void *__libc_calloc(size_t count, size_t size);
extern void *__libc_realloc(void *block, size_t size);
extern void *__libc_memalign(size_t alignment, size_t size);

struct range {
    long first;
    long last;
};

static struct range growths_refused, reads_failed, writes_failed;
static int marked, moves_one, error_number = EIO;
static atomic_int counting;
static atomic_long growths, refused, reads, writes;

static struct range range_of(const char *name) {
    struct range none = {0, -1};
    const char *text = getenv(name);
    char *end;
    if (!text)
        return none;
    none.first = strtol(text, &end, 10);
    none.last = *end == '-' && end[1] ? strtol(end + 1, NULL, 10) : __LONG_MAX__;
    return none;
}

static int holds(struct range range, long number) {
    return range.first <= number && number <= range.last;
}

__attribute__((constructor)) static void begin(void) {
    const char *error = getenv("FAULTS_ERROR");
    growths_refused = range_of("FAULTS_GROWTHS");
    reads_failed = range_of("FAULTS_READS");
    writes_failed = range_of("FAULTS_WRITES");
    marked = getenv("FAULTS_MARKED") != NULL;
    moves_one = getenv("FAULTS_SHORT") != NULL;
    if (error)
        error_number = atoi(error);
    counting = !marked;
}

__attribute__((destructor)) static void end(void) {
    static atomic_int told;
    char line[160];
    counting = 0;
    if (told++)
        return;
    int length = snprintf(line, sizeof line, "faults: growths %ld refused %ld reads %ld writes %ld\n", (long)growths,
                          (long)refused, (long)reads, (long)writes);
    syscall(SYS_write, 2, line, (size_t)length);
}

/* A program with threads ends by this, which runs no destructor. */
__attribute__((noreturn)) void _exit(int status) {
    end();
    syscall(SYS_exit_group, status);
    __builtin_unreachable();
}

/* Whether the growth that is asked for now is refused. */
static int is_refused(void) {
    if (!counting || !holds(growths_refused, ++growths))
        return 0;
    refused++;
    errno = ENOMEM;
    return 1;
}

void *malloc(size_t size) { return is_refused() ? NULL : __libc_malloc(size); }

void *calloc(size_t count, size_t size) { return is_refused() ? NULL : __libc_calloc(count, size); }

void *realloc(void *block, size_t size) { return is_refused() ? NULL : __libc_realloc(block, size); }

void *memalign(size_t alignment, size_t size) { return is_refused() ? NULL : __libc_memalign(alignment, size); }

void *aligned_alloc(size_t alignment, size_t size) { return memalign(alignment, size); }

int posix_memalign(void **block, size_t alignment, size_t size) {
    void *made = memalign(alignment, size);
    if (!made)
        return ENOMEM;
    *block = made;
    return 0;
}

static int is_line(const void *bytes, size_t length, const char *line) {
    return length == strlen(line) && memcmp(bytes, line, length) == 0;
}

static ssize_t moved(long call, int file, void *bytes, size_t length, atomic_long *count, struct range failed) {
    if (holds(failed, ++*count)) {
        errno = error_number;
        return error_number ? -1 : 0;
    }
    return syscall(call, file, bytes, moves_one && length ? 1 : length);
}

ssize_t write(int file, const void *bytes, size_t length) {
    if (file == STDOUT_FILENO)
        return moved(SYS_write, file, (void *)bytes, length, &writes, writes_failed);
    if (file == STDERR_FILENO && marked && is_line(bytes, length, "call begins\n")) {
        counting = 1;
        return (ssize_t)length;
    }
    if (file == STDERR_FILENO && marked && is_line(bytes, length, "call ends\n")) {
        counting = 0;
        return (ssize_t)length;
    }
    return syscall(SYS_write, file, bytes, length);
}

/* Several buffers are written as their first that is not empty: a write may move fewer bytes than it is given. */
ssize_t writev(int file, const struct iovec *parts, int count) {
    while (count > 1 && parts->iov_len == 0) {
        parts++;
        count--;
    }
    return count ? write(file, parts->iov_base, parts->iov_len) : 0;
}

ssize_t read(int file, void *bytes, size_t length) {
    if (file == STDIN_FILENO)
        return moved(SYS_read, file, bytes, length, &reads, reads_failed);
    return syscall(SYS_read, file, bytes, length);
}
