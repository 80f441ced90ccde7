/* Loaded before the C library. Four kinds of calls are counted, each from 1 on: DISK, those that open and lock the file depot.journal, open and
   sync the current folder, and ask for the length of the file, read, write or sync it; OUTPUT, the writes to standard output; SHELF, those that
   open any other file, measure, lock, cut, read or write it, and the one that looks whether it is the journal; INPUT, the reads of standard input.
   (The program holds the root folder, so that no file gets the number of a closed stream: that isn't counted.) The call of a kind that is named
   by KIND_REFUSED (DISK_REFUSED and so on) fails. At the call DISK_STOPPED the machine stops, with the status 99: of what was written since the
   last sync the journal then has nothing where DISK_IMAGE is 0, all (the write of that call too) where it is 1, and as many bytes FF where it is
   2. Where it is 0 there is no journal either, if it was made in this run and the folder wasn't synced since; and until then the program isn't to
   write to it. At the end the four numbers of calls are written to the file that CALL_COUNTS names, and in a second line the name of the other
   file that was opened last, up to the call that failed. */
#define _GNU_SOURCE
#include <dlfcn.h>
#include <errno.h>
#include <fcntl.h>
#include <stdarg.h>
#include <stdio.h>
#include <stdlib.h>
#include <string.h>
#include <sys/file.h>
#include <sys/stat.h>
#include <unistd.h>

enum { STOPPED = 99, MOST_WRITES = 64 };
enum { DISK, OUTPUT, SHELF, INPUT, KINDS };

static const char *const REFUSED[KINDS] = {"DISK_REFUSED", "OUTPUT_REFUSED", "SHELF_REFUSED", "INPUT_REFUSED"};
static const char JOURNAL[] = "depot.journal";

static unsigned long calls[KINDS];
static char *stable;
static off_t stable_length = -1;
static struct { off_t at; size_t count; } writes[MOST_WRITES];
static int write_count;
static int is_new, is_refused_now;
static char shelf[4096];

static unsigned long number(const char *name) {
    const char *text = getenv(name);
    return text ? strtoul(text, NULL, 10) : 0;
}

#define REAL(type, name, ...)                                                 \
    static type (*real)(__VA_ARGS__);                                         \
    if (!real) real = (type(*)(__VA_ARGS__))dlsym(RTLD_NEXT, name)

static void tell(void) {
    REAL(int, "open", const char *, int, ...);
    const char *name = getenv("CALL_COUNTS");
    int file = name ? real(name, O_WRONLY | O_CREAT | O_TRUNC, 0600) : -1;
    if (file >= 0) dprintf(file, "%lu %lu %lu %lu\n%s\n", calls[DISK], calls[OUTPUT], calls[SHELF], calls[INPUT], shelf);
}

__attribute__((destructor)) static void at_end(void) { tell(); }

/* Whether a call of this kind, which is one more, is the one that fails. */
static int is_refused(int kind, int why) {
    if (++calls[kind] != number(REFUSED[kind])) return 0;
    errno = why;
    return is_refused_now = 1;
}

static int is_journal(int file) {
    char link[32], path[4096];
    snprintf(link, sizeof link, "/proc/self/fd/%d", file);
    ssize_t length = readlink(link, path, sizeof path - 1);
    if (length < 0) return 0;
    path[length] = 0;
    const char *name = strrchr(path, '/');
    return name && strcmp(name + 1, JOURNAL) == 0;
}

/* From now on a stop leaves the bytes that the journal has. */
static void keep(int file) {
    off_t at = lseek(file, 0, SEEK_CUR);
    stable_length = lseek(file, 0, SEEK_END);
    stable = realloc(stable, stable_length + 1);
    if (!stable || pread(file, stable, stable_length, 0) != stable_length) abort();
    lseek(file, at, SEEK_SET);
    write_count = 0;
}

/* Whether a call on the journal fails. What it has before the first one is stable. */
static int is_disk_refused(int file) {
    if (stable_length < 0) keep(file);
    return is_refused(DISK, EIO);
}

/* Whether a call on another file fails. Those of the program's own streams don't. */
static int is_shelf_refused(int file, int why) { return file > STDERR_FILENO && is_refused(SHELF, why); }

static int is_stop(void) { return calls[DISK] == number("DISK_STOPPED"); }

/* A folder that wasn't synced may lose the name of a file that was made in it. */
static void lose_name(void) {
    if (is_new && number("DISK_IMAGE") == 0 && unlink(JOURNAL)) abort();
}

/* Whether a call fails by which the journal is opened. Where the machine stops in it, nothing was written. */
static int is_opening_refused(int why) {
    if (is_refused(DISK, why)) return 1;
    if (is_stop()) {
        lose_name();
        tell();
        _exit(STOPPED);
    }
    return 0;
}

static void stop(int file) {
    if (!is_stop()) return;
    switch (number("DISK_IMAGE")) {
    case 0:
        if (ftruncate(file, 0) || pwrite(file, stable, stable_length, 0) != stable_length) abort();
        break;
    case 2:
        for (int i = 0; i < write_count; i++)
            for (size_t k = 0; k < writes[i].count; k++)
                if (pwrite(file, "\xff", 1, writes[i].at + k) != 1) abort();
    }
    lose_name();
    tell();
    _exit(STOPPED);
}

ssize_t write(int file, const void *bytes, size_t count) {
    REAL(ssize_t, "write", int, const void *, size_t);
    if (file == STDOUT_FILENO) return is_refused(OUTPUT, ENOSPC) ? -1 : real(file, bytes, count);
    if (!is_journal(file)) return is_shelf_refused(file, ENOSPC) ? -1 : real(file, bytes, count);
    if (is_disk_refused(file)) return -1;
    if (is_new) abort();
    off_t at = lseek(file, 0, SEEK_CUR);
    ssize_t done = real(file, bytes, count);
    if (done < 0 || write_count == MOST_WRITES) abort();
    writes[write_count].at = at;
    writes[write_count++].count = done;
    stop(file);
    return done;
}

ssize_t read(int file, void *into, size_t count) {
    REAL(ssize_t, "read", int, void *, size_t);
    if (file == STDIN_FILENO) return is_refused(INPUT, EIO) ? -1 : real(file, into, count);
    if (!is_journal(file)) return is_shelf_refused(file, EIO) ? -1 : real(file, into, count);
    if (is_disk_refused(file)) return -1;
    stop(file);
    return real(file, into, count);
}

int fdatasync(int file) {
    REAL(int, "fdatasync", int);
    if (!is_journal(file)) return real(file);
    if (is_disk_refused(file)) return -1;
    stop(file);
    int done = real(file);
    if (!done) keep(file);
    return done;
}

int statx(int file, const char *path, int flags, unsigned mask, struct statx *into) {
    REAL(int, "statx", int, const char *, int, unsigned, struct statx *);
    if (!is_journal(file)) return is_refused(SHELF, EIO) ? -1 : real(file, path, flags, mask, into);
    if (is_disk_refused(file)) return -1;
    stop(file);
    return real(file, path, flags, mask, into);
}

int open(const char *path, int flags, ...) {
    REAL(int, "open", const char *, int, ...);
    va_list rest;
    va_start(rest, flags);
    mode_t mode = va_arg(rest, mode_t);
    va_end(rest);
    if (!strcmp(path, "/")) return real(path, flags, mode);
    if (strcmp(path, JOURNAL) && strcmp(path, ".")) {
        if (!is_refused_now) snprintf(shelf, sizeof shelf, "%s", path);
        return is_refused(SHELF, EACCES) ? -1 : real(path, flags, mode);
    }
    int is_made = flags & O_CREAT && access(path, F_OK);
    if (is_opening_refused(EIO)) return -1;
    int file = real(path, flags, mode);
    if (is_made && file >= 0) is_new = 1;
    return file;
}

int flock(int file, int how) {
    REAL(int, "flock", int, int);
    if (!is_journal(file)) return is_refused(SHELF, EWOULDBLOCK) ? -1 : real(file, how);
    return is_opening_refused(EWOULDBLOCK) ? -1 : real(file, how);
}

int ftruncate(int file, off_t length) {
    REAL(int, "ftruncate", int, off_t);
    if (!is_journal(file) && is_refused(SHELF, EIO)) return -1;
    return real(file, length);
}

/* The program calls this of the folder alone. */
int fsync(int file) {
    REAL(int, "fsync", int);
    if (is_opening_refused(EIO)) return -1;
    int done = real(file);
    if (!done) is_new = 0;
    return done;
}
