/* Refuses requests for memory, lets reads give less than is asked, and lets reads and writes fail, in a program that it is loaded into in
   front of the C library.

   REFUSE=N        refuses the Nth request, once
   REFUSE_FROM=N   refuses the Nth and all after it
   READ=N          lets a read give N octets at most
   FAIL_READ=N     lets the Nth read of standard input fail
   FAIL_WRITE=N    lets the Nth write to standard output fail
   NO_WRITE=N      lets it take no octet
   INTERRUPT=1     interrupts each other read of standard input, and each other write to standard output
   REQUESTS=PATH   writes how many requests there were
   MARKS=PATH      writes how many of them came before the first mark, how many between a mark and the next, how many there were, and how many
                   marks

   A mark is a write to standard error, and each second one ends what the one before began. So a program that writes there for marks alone
   tells which requests are a call's: a mark is a single write, takes no memory, and leaves standard output to what the call writes. */
#define _GNU_SOURCE
#include <errno.h>
#include <fcntl.h>
#include <stdio.h>
#include <stdlib.h>
#include <string.h>
#include <sys/syscall.h>
#include <unistd.h>

extern void *__libc_malloc(size_t);
extern void *__libc_calloc(size_t, size_t);
extern void *__libc_realloc(void *, size_t);
extern void *__libc_memalign(size_t, size_t);

static unsigned long requests, once, from, most, before, between, interrupts;
static int counts, marks;

/* The calls of a device so far, and the one that fails. */
static struct { unsigned long calls, failing, idle; } in, out;

static unsigned long number(const char *name) {
    const char *text = getenv(name);
    return text ? strtoul(text, NULL, 10) : 0;
}

__attribute__((constructor)) static void begin(void) {
    once = number("REFUSE");
    from = number("REFUSE_FROM");
    most = number("READ");
    in.failing = number("FAIL_READ");
    out.failing = number("FAIL_WRITE");
    out.idle = number("NO_WRITE");
    interrupts = number("INTERRUPT");
    counts = 1;
}

static void put(const char *name, const char *text) {
    const char *path = getenv(name);
    ssize_t length = strlen(text);
    if (!path)
        return;
    int file = open(path, O_WRONLY | O_CREAT | O_TRUNC, 0600);
    if (file < 0 || write(file, text, length) != length || close(file))
        abort();
}

__attribute__((destructor)) static void end(void) {
    char text[96];
    counts = 0;
    snprintf(text, sizeof text, "%lu\n", requests);
    put("REQUESTS", text);
    snprintf(text, sizeof text, "%lu %lu %lu %d\n", before, between, requests, marks);
    put("MARKS", text);
}

static int is_refused(void) {
    if (!counts)
        return 0;
    requests++;
    between += marks % 2;
    if (requests != once && (!from || requests < from))
        return 0;
    errno = ENOMEM;
    return 1;
}

void *malloc(size_t size) { return is_refused() ? NULL : __libc_malloc(size); }

void *calloc(size_t count, size_t size) { return is_refused() ? NULL : __libc_calloc(count, size); }

void *realloc(void *old, size_t size) { return is_refused() ? NULL : __libc_realloc(old, size); }

void *aligned_alloc(size_t alignment, size_t size) { return is_refused() ? NULL : __libc_memalign(alignment, size); }

int posix_memalign(void **found, size_t alignment, size_t size) {
    void *memory = is_refused() ? NULL : __libc_memalign(alignment, size);
    if (!memory)
        return ENOMEM;
    *found = memory;
    return 0;
}

/* Why the next call of a device fails, or 0. */
static int fault_of(unsigned long *calls, unsigned long failing) {
    ++*calls;
    return *calls == failing ? EIO : interrupts && *calls % 2 ? EINTR : 0;
}

ssize_t read(int file, void *octets, size_t size) {
    if (file == STDIN_FILENO && (errno = fault_of(&in.calls, in.failing)))
        return -1;
    return syscall(SYS_read, file, octets, most && most < size ? most : size);
}

ssize_t write(int file, const void *octets, size_t size) {
    if (counts && file == STDERR_FILENO) {
        before = marks ? before : requests;
        marks++;
    }
    if (file == STDOUT_FILENO && (errno = fault_of(&out.calls, out.failing)))
        return -1;
    if (file == STDOUT_FILENO && out.calls == out.idle)
        return 0;
    return syscall(SYS_write, file, octets, size);
}
