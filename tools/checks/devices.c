/* Lets calls of a program fail that ask something of its devices, files or folders, and tells how it reads and writes. It is loaded into the
   program in front of the C library.

   CALL=NAME    which calls fail: `read` of standard input, `write` to standard output, `open` of a file or a folder, `file` for a read of an
                open file, `list` for what is in an open folder, or `look` for what is known of a path
   AT=PATH      those of this path alone, where they are of a path; `file` and `list` need it
   FAULT=N      the number of their error; EIO without it
   AFTER=N      the first N of them go through
   TIMES=N      those after N that have failed go through again
   OCTETS=N     of an open file's reads those fail that come once it has given N octets
   PIECE=N      a read of standard input gives N octets at most
   ROOM=N       standard output takes N octets: a write of more than is left of them fails
   LONG=N       a name in a folder that begins with 100 letters `n` begins with N of them; and a path with N of them leads to the file with 100
   LOG=PATH     writes a line there for each read of standard input, `read` and how many octets standard output had taken, and for each write to
                standard output, `wrote` and how many octets it took, none where it failed */
#define _GNU_SOURCE
#include <dirent.h>
#include <errno.h>
#include <fcntl.h>
#include <limits.h>
#include <stdarg.h>
#include <stddef.h>
#include <stdio.h>
#include <stdlib.h>
#include <string.h>
#include <sys/stat.h>
#include <sys/syscall.h>
#include <unistd.h>

enum { SHORT = 100, NOTHING = -1 };

static const char *failing, *at;
static unsigned long fault, after, times, octets, piece, room, longer, calls, given, taken;
static int has_room, watched = NOTHING, events = NOTHING;

static unsigned long number(const char *name, unsigned long otherwise) {
    const char *text = getenv(name);
    return text ? strtoul(text, NULL, 10) : otherwise;
}

__attribute__((constructor)) static void begin(void) {
    const char *log = getenv("LOG");
    failing = getenv("CALL") ? getenv("CALL") : "";
    at = getenv("AT");
    fault = number("FAULT", EIO);
    after = number("AFTER", 0);
    times = number("TIMES", ULONG_MAX);
    octets = number("OCTETS", 0);
    piece = number("PIECE", 0);
    room = number("ROOM", 0);
    has_room = getenv("ROOM") != NULL;
    longer = number("LONG", 0);
    if (log)
        events = syscall(SYS_openat, AT_FDCWD, log, O_WRONLY | O_CREAT | O_TRUNC | O_CLOEXEC, 0600);
}

static void tell(const char *event, unsigned long count) {
    char line[64];
    int length = snprintf(line, sizeof line, "%s %lu\n", event, count);
    if (events != NOTHING && syscall(SYS_write, events, line, length) != length)
        abort();
}

/* Whether this call fails, of those that have this name. */
static int fails(const char *name) {
    if (strcmp(failing, name))
        return 0;
    calls++;
    if (calls <= after || calls - after > times)
        return 0;
    errno = fault;
    return 1;
}

static int is_there(const char *path) { return !at || !strcmp(path, at); }

/* The path with SHORT letters in place of the many. */
static const char *shortened(const char *path, char *place) {
    char many[PATH_MAX];
    const char *found;
    if (!longer || longer >= sizeof many)
        return path;
    memset(many, 'n', longer);
    many[longer] = 0;
    found = strstr(path, many);
    if (!found || strlen(path) >= PATH_MAX)
        return path;
    snprintf(place, PATH_MAX, "%.*s%.*s%s", (int)(found - path), path, SHORT, many, found + longer);
    return place;
}

static int opened(int folder, const char *path, int flags, mode_t mode) {
    char place[PATH_MAX];
    int file;
    if (is_there(path) && fails("open"))
        return -1;
    file = syscall(SYS_openat, folder, shortened(path, place), flags, mode);
    if (file >= 0 && at && is_there(path))
        watched = file;
    return file;
}

static mode_t mode_of(int flags, va_list rest) { return flags & (O_CREAT | O_TMPFILE) ? va_arg(rest, mode_t) : 0; }

int open(const char *path, int flags, ...) {
    va_list rest;
    va_start(rest, flags);
    mode_t mode = mode_of(flags, rest);
    va_end(rest);
    return opened(AT_FDCWD, path, flags, mode);
}

int openat(int folder, const char *path, int flags, ...) {
    va_list rest;
    va_start(rest, flags);
    mode_t mode = mode_of(flags, rest);
    va_end(rest);
    return opened(folder, path, flags, mode);
}

int statx(int folder, const char *restrict path, int flags, unsigned mask, struct statx *restrict found) {
    char place[PATH_MAX];
    if (is_there(path) && fails("look"))
        return -1;
    return syscall(SYS_statx, folder, shortened(path, place), flags, mask, found);
}

/* Puts an entry into room for so many octets: its length, or 0 where there is none. */
static size_t put_entry(char *put, size_t left, const struct dirent64 *entry) {
    size_t head = offsetof(struct dirent64, d_name), more = 0, name = strlen(entry->d_name);
    if (longer && strspn(entry->d_name, "n") == SHORT)
        more = longer - SHORT;
    size_t length = (head + more + name + 1 + 7) / 8 * 8;
    if (length > left)
        return 0;
    unsigned short told = length;
    memcpy(put, entry, head);
    memcpy(put + offsetof(struct dirent64, d_reclen), &told, sizeof told);
    memset(put + head, 'n', more);
    memcpy(put + head + more, entry->d_name, name + 1);
    return length;
}

ssize_t getdents64(int folder, void *entries, size_t size) {
    char found[4096];
    size_t told = 0;
    if (folder == watched && fails("list"))
        return -1;
    if (!longer)
        return syscall(SYS_getdents64, folder, entries, size);
    ssize_t length = syscall(SYS_getdents64, folder, found, sizeof found);
    for (ssize_t from = 0; from < length;) {
        const struct dirent64 *entry = (const struct dirent64 *)(found + from);
        size_t put = put_entry((char *)entries + told, size - told, entry);
        if (!put)
            abort();
        told += put;
        from += entry->d_reclen;
    }
    return length < 0 ? length : (ssize_t)told;
}

static ssize_t read_file(int file, void *place, size_t size) {
    if (given >= octets && fails("file"))
        return -1;
    size_t most = octets > given && octets - given < size ? octets - given : size;
    ssize_t length = syscall(SYS_read, file, place, most);
    given += length > 0 ? length : 0;
    return length;
}

ssize_t read(int file, void *place, size_t size) {
    if (file == watched)
        return read_file(file, place, size);
    if (file != STDIN_FILENO)
        return syscall(SYS_read, file, place, size);
    tell("read", taken);
    if (fails("read"))
        return -1;
    return syscall(SYS_read, file, place, piece && piece < size ? piece : size);
}

ssize_t write(int file, const void *place, size_t size) {
    if (file != STDOUT_FILENO)
        return syscall(SYS_write, file, place, size);
    ssize_t length = -1;
    if (has_room && taken + size > room)
        errno = fault;
    else if (!fails("write"))
        length = syscall(SYS_write, file, place, size);
    int why = errno;
    tell("wrote", length < 0 ? 0 : length);
    taken += length < 0 ? 0 : length;
    errno = why;
    return length;
}
