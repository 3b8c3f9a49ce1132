// Stands in for the C library's reads and writes: of the file at standard input each read gives at most 3 bytes, and fails after READS of
// them, or is interrupted INTERRUPTS times before it goes on; each write to the file at standard output fails after WRITES bytes.
#include <errno.h>
#include <stdlib.h>
#include <sys/stat.h>
#include <sys/syscall.h>
#include <unistd.h>
static long left[2];
static int begun[2];

static int is_same(int file, int standard) {
    struct stat one, other;
    return !fstat(file, &one) && !fstat(standard, &other) && one.st_dev == other.st_dev && one.st_ino == other.st_ino;
}

static ssize_t moved(long call, int standard, int file, void *bytes, size_t size) {
    char const *limit = getenv(standard ? "WRITES" : "READS");
    if (!limit || !is_same(file, standard)) return syscall(call, file, bytes, size);
    if (!begun[standard]++) left[standard] = strtol(limit, 0, 10);
    if (left[standard] == 0) {
        errno = standard ? ENOSPC : EIO;
        return -1;
    }
    if (size > (size_t)left[standard]) size = left[standard];
    if (!standard && size > 3) size = 3;
    long count = syscall(call, file, bytes, size);
    if (count > 0) left[standard] -= count;
    return count;
}
ssize_t read(int file, void *to, size_t size) {
    static long interrupted;
    char const *often = getenv("INTERRUPTS");
    if (often && is_same(file, 0)) {
        if (interrupted++ < strtol(often, 0, 10)) {
            errno = EINTR;
            return -1;
        }
        interrupted = 0;
    }
    return moved(SYS_read, 0, file, to, size);
}
ssize_t write(int file, void const *from, size_t size) { return moved(SYS_write, 1, file, (void *)from, size); }
