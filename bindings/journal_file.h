/* The file of a node's journal, kept by a caller of the library, in C.
 *
 * It makes the calls on the file that the program's disk makes, in their order (docs/FORMATS.md), so that `depot node` goes on
 * from this file and this from the program's, never both at one time: the lock sees to that. A call that a signal interrupted
 * is made again. Each function gives 0, or -1 where a call failed; errno says why. Then the file is touched no more: use no
 * answer that came since the last journal_keep, end the node, and start again from the file.
 *
 *     journal_open, journal_read, depot_start of what was read; then journal_keep after the start and after each message
 *
 * A file whose records nobody read is never written: journal_keep fails with EINVAL before journal_read. Nothing here knows
 * whether the file is the node's newest: tools/guard.py does, and the Python caller uses it. */
#ifndef JOURNAL_FILE_H
#define JOURNAL_FILE_H
#include "depot.h"
#include <errno.h>
#include <fcntl.h>
#include <string.h>
#include <sys/file.h>
#include <sys/stat.h>
#include <unistd.h>

#define JOURNAL_MOST ((off_t)1 << 30) /* no journal has more bytes */
#define AGAIN(result, call) do (result) = (call); while ((result) < 0 && errno == EINTR)

struct journal {
    int file;           /* open and locked */
    int is_read;        /* the records that it has are known, and no call failed since */
    uint64_t gate;      /* where the closed gate stands, behind the records that are kept */
    uint64_t kept;      /* how many these are */
};

static int journal_write(int file, const uint8_t *bytes, size_t size, uint64_t at)
{
    while (size) {
        ssize_t n;
        AGAIN(n, pwrite(file, bytes, size, (off_t)at));
        if (n <= 0)
            return -1;
        bytes += n, size -= (size_t)n, at += (uint64_t)n;
    }
    return 0;
}

static int journal_sync(int file)
{
    int done;
    AGAIN(done, fdatasync(file));
    return done;
}

/* Opens the journal of a folder, makes it where there is none, and locks it; another one who has the lock is a failure. The
 * folder is synced, so that no stop loses a file that was made. */
static int journal_open(struct journal *j, const char *folder)
{
    int done, names;
    *j = (struct journal){-1, 0, 0, 0};
    AGAIN(names, open(folder, O_RDONLY | O_DIRECTORY | O_CLOEXEC));
    if (names < 0)
        return -1;
    AGAIN(j->file, openat(names, "depot.journal", O_RDWR | O_CREAT | O_CLOEXEC, 0666));
    done = j->file < 0 ? -1 : flock(j->file, LOCK_EX | LOCK_NB);
    if (!done)
        AGAIN(done, fsync(names));
    if (done && j->file >= 0)
        close(j->file), j->file = -1;
    close(names);
    return done;
}

/* Finds the closed gate, and counts the records before it. Whether the file is whole: from a damaged one no node starts. */
static int journal_is_whole(struct journal *j, const uint8_t *bytes, size_t size)
{
    for (j->gate = 0, j->kept = 0; j->gate < size && bytes[j->gate] == 1; j->kept++) {
        const uint8_t *length = bytes + j->gate + 1;
        if (size - j->gate < 6)
            return 0;
        j->gate += 5 + ((uint64_t)length[0] << 24 | (uint64_t)length[1] << 16 | (uint64_t)length[2] << 8 | length[3]);
    }
    return j->gate < size || !size;
}

/* The bytes that a start takes, which the caller frees. A file of at most one byte has no records, and gets a closed gate. */
static int journal_read(struct journal *j, uint8_t **bytes, size_t *size)
{
    struct stat about;
    *bytes = NULL;
    if (journal_sync(j->file) || fstat(j->file, &about))
        return -1;
    *size = about.st_size <= 1 ? 0 : (size_t)(about.st_size < JOURNAL_MOST ? about.st_size : JOURNAL_MOST);
    *bytes = malloc(*size + 1);
    if (!*bytes)
        return -1;
    for (size_t at = 0; at < *size;) {
        ssize_t n;
        AGAIN(n, pread(j->file, *bytes + at, *size - at, (off_t)at));
        if (n <= 0)
            return -1;
        at += (size_t)n;
    }
    if (!*size && (journal_write(j->file, (const uint8_t *)"", 1, 0) || journal_sync(j->file)))
        return -1;
    j->is_read = journal_is_whole(j, *bytes, *size);
    return 0;
}

/* Appends a run of records: all but its first gate, and a closed one, behind the closed gate; then that is opened. By two syncs, be they many. */
static int journal_append(struct journal *j, uint8_t *run, size_t size)
{
    uint8_t first = *run;
    memmove(run, run + 1, size - 1);
    run[size - 1] = 0;
    return journal_write(j->file, run, size, j->gate + 1) || journal_sync(j->file) || journal_write(j->file, &first, 1, j->gate) ||
           journal_sync(j->file) ? -1 : 0;
}

/* How many records a run has. */
static uint64_t journal_count(const uint8_t *run, size_t size)
{
    uint64_t count = 0;
    for (size_t at = 0; at < size; count++)
        at += 5 + ((size_t)run[at + 1] << 24 | (size_t)run[at + 2] << 16 | (size_t)run[at + 3] << 8 | run[at + 4]);
    return count;
}

/* Appends the records that the node has and the file lacks, all at once. The answer stays as it was. ENOMEM: no memory was found, nothing
 * was written, and it may be called again. */
static int journal_keep(struct journal *j, void *node)
{
    if (!j->is_read)
        return errno = EINVAL, -1;
    uint64_t lent = depot_records(node, j->kept);
    if (lent != DEPOT_DONE)
        return errno = lent == DEPOT_MEMORY ? ENOMEM : EINVAL, -1;
    size_t size = depot_records_length(node);
    uint8_t *run = size ? malloc(size) : NULL;
    if (!run)
        return size ? errno = ENOMEM, -1 : 0;
    depot_records_copy(node, 0, run, size);
    uint64_t count = journal_count(run, size);
    j->is_read = !journal_append(j, run, size);
    free(run);
    j->gate += size, j->kept += count;
    return j->is_read ? 0 : -1;
}
#endif
