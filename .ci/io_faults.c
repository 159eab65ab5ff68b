/* A library for LD_PRELOAD. It changes the results of read on standard input and of write on standard output. READ_SIZES has the maximum
   sizes of the first read, the second and so on; the last size is also that of all later reads. WRITE_MOST is the maximum size of a write.
   READ_FAILS and WRITE_FAILS are the numbers, from 1 on, of the read and the write that fail; with WRITE_EMPTY that write returns 0 instead
   of an error. With READ_END_FAILS a read at the end of the input fails. Each call appends a line to the file CALLS: `r` or `w`, and the
   number of bytes, or -1 for a failure. Nothing else changes. */
#define _GNU_SOURCE
#include <dlfcn.h>
#include <errno.h>
#include <fcntl.h>
#include <stdio.h>
#include <stdlib.h>
#include <unistd.h>

typedef ssize_t (*Reader)(int, void *, size_t);
typedef ssize_t (*Writer)(int, const void *, size_t);

static long number(const char *name, long otherwise) {
    const char *value = getenv(name);
    return value ? strtol(value, NULL, 10) : otherwise;
}

/* The maximum size of the next read. */
static size_t next_size(void) {
    static const char *left;
    static size_t size = (size_t)-1;
    if (!left) left = getenv("READ_SIZES") ? getenv("READ_SIZES") : "";
    if (*left) {
        char *end;
        size = strtoul(left, &end, 10);
        left = *end ? end + 1 : end;
    }
    return size;
}

static ssize_t logged(char what, ssize_t count, Writer write_on) {
    static int file = -1;
    char line[32];
    int length = snprintf(line, sizeof line, "%c %zd\n", what, count);
    if (file < 0 && getenv("CALLS")) file = open(getenv("CALLS"), O_CREAT | O_WRONLY | O_APPEND, 0600);
    if (file >= 0 && write_on(file, line, length) != length) abort();
    if (count < 0) errno = EINTR;
    return count;
}

ssize_t write(int to, const void *bytes, size_t size) {
    static Writer next;
    static long calls;
    size_t most = number("WRITE_MOST", -1);
    if (!next) next = (Writer)dlsym(RTLD_NEXT, "write");
    if (to != 1) return next(to, bytes, size);
    if (++calls == number("WRITE_FAILS", 0)) return logged('w', getenv("WRITE_EMPTY") ? 0 : -1, next);
    return logged('w', next(to, bytes, size < most ? size : most), next);
}

ssize_t read(int from, void *bytes, size_t size) {
    static Reader next;
    static long calls;
    size_t most;
    ssize_t count;
    if (!next) next = (Reader)dlsym(RTLD_NEXT, "read");
    if (from != 0) return next(from, bytes, size);
    most = next_size();
    count = ++calls == number("READ_FAILS", 0) ? -1 : next(from, bytes, size < most ? size : most);
    if (count == 0 && size && getenv("READ_END_FAILS")) count = -1;
    return logged('r', count, (Writer)dlsym(RTLD_NEXT, "write"));
}
