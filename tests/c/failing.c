/* Put before the C library, its read of standard input and write to standard output do as a word of the environment says, READS and WRITES,
 * a letter a call: i is interrupted, b would block, e fails, 0 to 9 moves at most so many bytes. Calls behind the last letter go through. */
#define _GNU_SOURCE
#include <errno.h>
#include <stdlib.h>
#include <sys/syscall.h>
#include <unistd.h>

static const char *reads, *writes;

/* How many bytes this call may move, or -1 with errno set. */
static ssize_t allowed(const char **word, const char *name, size_t asked) {
    if (!*word) {
        *word = getenv(name) ? getenv(name) : "";
    }
    char letter = **word;
    *word += letter != 0;
    if (letter >= '0' && letter <= '9') {
        size_t most = (size_t)(letter - '0');
        return (ssize_t)(most < asked ? most : asked);
    }
    errno = letter == 'i' ? EINTR : letter == 'b' ? EAGAIN : EIO;
    return letter ? -1 : (ssize_t)asked;
}

ssize_t read(int fd, void *buf, size_t count) {
    ssize_t most = fd == 0 ? allowed(&reads, "READS", count) : (ssize_t)count;
    return most < 0 ? -1 : syscall(SYS_read, fd, buf, (size_t)most);
}

ssize_t write(int fd, const void *buf, size_t count) {
    ssize_t most = fd == 1 ? allowed(&writes, "WRITES", count) : (ssize_t)count;
    return most < 0 ? -1 : syscall(SYS_write, fd, buf, (size_t)most);
}
