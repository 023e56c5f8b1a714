/* Loaded before the C library (LD_PRELOAD): read from descriptor 0 and write answer as READ and WRITE of the environment say,
 * one word for a call.
 * A word is `pass`, `intr` (interrupted by a signal), `io` (input/output error) or a number (at most so many bytes), with `*N` for N calls.
 * Calls behind the last word pass. */
#define _GNU_SOURCE
#include <errno.h>
#include <stdlib.h>
#include <string.h>
#include <sys/syscall.h>
#include <unistd.h>

struct plan {
    const char *at;
    long left;
};

/* The next call's most bytes, or minus its error. */
static ssize_t next(struct plan *p, const char *name, size_t n)
{
    char *end;
    size_t word;
    if (p->at == NULL)
        p->at = getenv(name) ? getenv(name) : "";
    while (*p->at == ' ')
        p->at++;
    word = strcspn(p->at, " *");
    if (word == 0)
        return n;
    if (p->left == 0)
        p->left = p->at[word] == '*' ? strtol(p->at + word + 1, NULL, 10) : 1;
    const char *now = p->at;
    if (--p->left == 0)
        p->at += strcspn(p->at, " ");
    if (strncmp(now, "pass", word) == 0)
        return n;
    if (strncmp(now, "intr", word) == 0)
        return -EINTR;
    if (strncmp(now, "io", word) == 0)
        return -EIO;
    unsigned long most = strtoul(now, &end, 10);
    if (end != now + word)
        abort();
    return most < n ? most : n;
}

static struct plan reads, writes;

ssize_t read(int fd, void *buf, size_t n)
{
    ssize_t most = fd == 0 ? next(&reads, "READ", n) : (ssize_t)n;
    if (most < 0) {
        errno = -most;
        return -1;
    }
    return syscall(SYS_read, fd, buf, (size_t)most);
}

ssize_t write(int fd, const void *buf, size_t n)
{
    ssize_t most = next(&writes, "WRITE", n);
    if (most < 0) {
        errno = -most;
        return -1;
    }
    return syscall(SYS_write, fd, buf, (size_t)most);
}
