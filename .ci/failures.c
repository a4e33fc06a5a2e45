// Stands between a program and the C library, and lets one call fail or fall short: which one, the environment says, by the
// call's number from 1. FAIL_ALLOC refuses a request for memory; FAIL_READ and FAIL_WRITE let a read or a write fail; INTERRUPT
// lets a read be interrupted; SHORT_READ and SHORT_WRITE let one of several bytes move one; from FULL on no write takes a byte.
// Where it did, it makes the file that FAILED_NOTE names. READ_SIZE and WRITE_SIZE are at most how many bytes each read and each
// write moves. Used by .ci/failures.
#define _GNU_SOURCE
#include <errno.h>
#include <fcntl.h>
#include <stdlib.h>
#include <sys/syscall.h>
#include <unistd.h>

extern void *__libc_malloc(size_t size);
extern void *__libc_realloc(void *place, size_t size);

static long wanted(const char *name) {
    const char *word = getenv(name);
    return word ? atol(word) : 0;
}

// Counts a call, and answers whether it is the one.
static int is_chosen(const char *name, long *count) {
    long number = __atomic_add_fetch(count, 1, __ATOMIC_SEQ_CST);
    if (number != wanted(name))
        return 0;
    const char *note = getenv("FAILED_NOTE");
    if (note)
        syscall(SYS_close, syscall(SYS_open, note, O_CREAT | O_WRONLY, 0600));
    return 1;
}

// How many bytes a call may move of those that it is asked for.
static size_t at_most(const char *name, size_t size) {
    long most = wanted(name);
    return most > 0 && size > (size_t)most ? (size_t)most : size;
}

static long requests, reads, interrupts, writes, long_reads, long_writes, taken;
static int is_full;

void *malloc(size_t size) {
    if (is_chosen("FAIL_ALLOC", &requests)) {
        errno = ENOMEM;
        return NULL;
    }
    return __libc_malloc(size);
}

void *realloc(void *place, size_t size) {
    if (is_chosen("FAIL_ALLOC", &requests)) {
        errno = ENOMEM;
        return NULL;
    }
    return __libc_realloc(place, size);
}

ssize_t read(int file, void *place, size_t size) {
    if (is_chosen("FAIL_READ", &reads)) {
        errno = EIO;
        return -1;
    }
    if (is_chosen("INTERRUPT", &interrupts)) {
        errno = EINTR;
        return -1;
    }
    if (size > 1 && is_chosen("SHORT_READ", &long_reads))
        size = 1;
    return syscall(SYS_read, file, place, at_most("READ_SIZE", size));
}

ssize_t write(int file, const void *place, size_t size) {
    if (is_chosen("FAIL_WRITE", &writes)) {
        errno = EIO;
        return -1;
    }
    if (is_chosen("FULL", &taken))
        is_full = 1;
    if (is_full)
        return 0;
    if (size > 1 && is_chosen("SHORT_WRITE", &long_writes))
        size = 1;
    return syscall(SYS_write, file, place, at_most("WRITE_SIZE", size));
}

ssize_t __write(int file, const void *place, size_t size) {
    return write(file, place, size);
}
