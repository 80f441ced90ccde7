/* What may happen in the calls on a file, for tests; linked with -Wl,--wrap=pwrite,--wrap=fdatasync. STOP names what: `kill N` ends
 * the process in the Nth call, with half of what it writes written; `fail N` has the Nth call fail; `interrupt 0` has each call
 * fail with EINTR first, and write one byte at most. */
#define _GNU_SOURCE
#include <errno.h>
#include <signal.h>
#include <stdio.h>
#include <stdlib.h>
#include <string.h>
#include <unistd.h>

ssize_t __real_pwrite(int file, const void *bytes, size_t size, off_t at);
int __real_fdatasync(int file);

static char what[16];
static long at_call, calls;
static int is_read, again;

/* Whether this call is the one that is named. */
static int is_now(void)
{
    const char *stop = getenv("STOP");
    if (!is_read && stop && sscanf(stop, "%15s %ld", what, &at_call) != 2)
        abort();
    is_read = 1;
    return ++calls == at_call;
}

/* Whether this call is interrupted: every other one is. */
static int is_interrupted(void)
{
    again = !again;
    errno = EINTR;
    return !strcmp(what, "interrupt") && again;
}

ssize_t __wrap_pwrite(int file, const void *bytes, size_t size, off_t at)
{
    int now = is_now();
    if (now && !strcmp(what, "kill")) {
        (void)!__real_pwrite(file, bytes, size / 2, at);
        raise(SIGKILL);
    }
    if (now && !strcmp(what, "fail"))
        return errno = EIO, -1;
    if (is_interrupted())
        return -1;
    return __real_pwrite(file, bytes, strcmp(what, "interrupt") ? size : 1, at);
}

int __wrap_fdatasync(int file)
{
    int now = is_now();
    if (now && !strcmp(what, "kill"))
        raise(SIGKILL);
    if (now && !strcmp(what, "fail"))
        return errno = EIO, -1;
    return is_interrupted() ? -1 : __real_fdatasync(file);
}
