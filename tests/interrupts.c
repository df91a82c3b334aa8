/* Reads and writes that a signal interrupts before each, once or as often as INTERRUPTS says, and that move three bytes at most.
   Where MOVES_NOTHING is set, no read is interrupted, and a write to standard output moves nothing without an error. A program
   under test is started with them in place of the C library's (LD_PRELOAD). */
#include <errno.h>
#include <stdlib.h>
#include <sys/syscall.h>
#include <unistd.h>

static ssize_t transfer(long number, int fd, const void *bytes, size_t count) {
    static unsigned long interrupts;
    const char *most = getenv("INTERRUPTS");
    if (interrupts < (most ? strtoul(most, NULL, 10) : 1)) {
        interrupts++;
        errno = EINTR;
        return -1;
    }
    interrupts = 0;
    return syscall(number, fd, bytes, count < 3 ? count : 3);
}

ssize_t read(int fd, void *bytes, size_t count) {
    return getenv("MOVES_NOTHING") ? syscall(SYS_read, fd, bytes, count) : transfer(SYS_read, fd, bytes, count);
}

ssize_t write(int fd, const void *bytes, size_t count) {
    if (getenv("MOVES_NOTHING"))
        return fd == STDOUT_FILENO ? 0 : syscall(SYS_write, fd, bytes, count);
    return transfer(SYS_write, fd, bytes, count);
}
