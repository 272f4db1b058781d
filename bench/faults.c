/*
 * Faults for the tests of report, write_card and six_reports. Loaded before
 * one of them (LD_PRELOAD), this library makes its reads of descriptor 0 and
 * its writes of descriptor 1 go wrong as the environment says:
 *
 *   FAULT_READ_AT_MOST=N      a read moves at most N bytes
 *   FAULT_READ_AFTER=N        after N bytes in all, reads fail with EIO
 *   FAULT_READ_INTERRUPTED=N  before each read that is made, N fail with EINTR
 *
 * and FAULT_WRITE_.. the same for writes, which fail with ENOSPC.
 */
#define _DEFAULT_SOURCE

#include <errno.h>
#include <stdlib.h>
#include <sys/syscall.h>
#include <unistd.h>

struct channel {
    const char *at_most, *after, *interrupted;
    int error;
    long interruptions; /* since the last call that was made */
    long moved;
};

static struct channel in = {
    "FAULT_READ_AT_MOST", "FAULT_READ_AFTER", "FAULT_READ_INTERRUPTED", EIO, 0, 0};
static struct channel out = {
    "FAULT_WRITE_AT_MOST", "FAULT_WRITE_AFTER", "FAULT_WRITE_INTERRUPTED", ENOSPC, 0, 0};

static long asked(const char *name, long otherwise)
{
    const char *text = getenv(name);

    return text ? strtol(text, NULL, 10) : otherwise;
}

/* One call of the system's, for fewer bytes or none where a fault is asked for. */
static ssize_t faulty(struct channel *c, long call, int fd, void *bytes, size_t n)
{
    long most = asked(c->at_most, (long)n);
    long after = asked(c->after, -1);
    ssize_t moved;

    if (c->interruptions < asked(c->interrupted, 0)) {
        c->interruptions++;
        errno = EINTR;
        return -1;
    }
    c->interruptions = 0;
    if (after >= 0 && n > 0) {
        if (c->moved >= after) {
            errno = c->error;
            return -1;
        }
        if (most > after - c->moved)
            most = after - c->moved;
    }
    if (n > (size_t)most)
        n = (size_t)most;
    moved = syscall(call, fd, bytes, n);
    if (moved > 0)
        c->moved += moved;
    return moved;
}

ssize_t read(int fd, void *bytes, size_t n)
{
    return fd == 0 ? faulty(&in, SYS_read, fd, bytes, n) : syscall(SYS_read, fd, bytes, n);
}

ssize_t write(int fd, const void *bytes, size_t n)
{
    return fd == 1 ? faulty(&out, SYS_write, fd, (void *)bytes, n)
                   : syscall(SYS_write, fd, bytes, n);
}
