// A library that is loaded in front of a program, and refuses requests for memory. REFUSE has the number of the one that is
// refused, counted from 1, or `all`. Where REFUSE_BEHIND is set, only requests between the line of that number that the
// program writes and the next are counted, and all others are served. Where REFUSED names a file, a byte is written to it
// for each request that is refused. Where LIVE names a file, the number of blocks that live is written to it, as a line, for
// each line that the program writes.
#include <errno.h>
#include <fcntl.h>
#include <stddef.h>
#include <stdio.h>
#include <stdlib.h>
#include <string.h>
#include <sys/syscall.h>
#include <unistd.h>

// The C library's own makers of blocks.
extern void *__libc_malloc(size_t size);
extern void *__libc_calloc(size_t count, size_t size);
extern void *__libc_realloc(void *block, size_t size);
extern void *__libc_memalign(size_t alignment, size_t size);
extern void __libc_free(void *block);

// How many requests are still served before one is refused; below 0 none will be.
static long long left = -1;

static int refuses_all = 0;

// The line behind which requests are counted; below 0 all are.
static int behind = -1;

// How many lines the program has written.
static int lines = 0;

// How many blocks were made and not freed.
static long long live = 0;

// Requests that were made before this ran are those of the loader, and are served.
__attribute__((constructor)) static void start(void) {
    const char *which = getenv("REFUSE");
    const char *line = getenv("REFUSE_BEHIND");
    behind = line == NULL ? -1 : atoi(line);
    refuses_all = which != NULL && strcmp(which, "all") == 0;
    left = which == NULL || refuses_all ? -1 : atoll(which);
}

// Writes that this library makes go past its own `write`.
static ssize_t written(int file, const void *bytes, size_t count) {
    return syscall(SYS_write, file, bytes, count);
}

// Appends a text to the file that a variable names, if there is one.
static void tell(const char *variable, const char *text) {
    const char *path = getenv(variable);
    int file = path == NULL ? -1 : open(path, O_WRONLY | O_CREAT | O_APPEND, 0644);
    if (file >= 0) {
        if (written(file, text, strlen(text)) != (ssize_t)strlen(text)) _exit(3);
        close(file);
    }
}

ssize_t write(int file, const void *bytes, size_t count) {
    char number[24];
    if (count > 0 && ((const char *)bytes)[count - 1] == '\n') {
        lines++;
        snprintf(number, sizeof number, "%lld\n", live);
        tell("LIVE", number);
    }
    return written(file, bytes, count);
}

static int is_refused(void) {
    if (behind >= 0 && lines != behind) return 0;
    if (!refuses_all && (left <= 0 || --left > 0)) return 0;
    tell("REFUSED", "!");
    errno = ENOMEM;
    return 1;
}

// A block that was made lives.
static void *made(void *block) {
    if (block != NULL) live++;
    return block;
}

void *malloc(size_t size) {
    return is_refused() ? NULL : made(__libc_malloc(size));
}

void *calloc(size_t count, size_t size) {
    return is_refused() ? NULL : made(__libc_calloc(count, size));
}

// A block that grows lives on. One that is to have no bytes is freed.
void *realloc(void *block, size_t size) {
    if (block == NULL) return malloc(size);
    if (size == 0) {
        free(block);
        return NULL;
    }
    return is_refused() ? NULL : __libc_realloc(block, size);
}

void *memalign(size_t alignment, size_t size) {
    return is_refused() ? NULL : made(__libc_memalign(alignment, size));
}

void *aligned_alloc(size_t alignment, size_t size) {
    return memalign(alignment, size);
}

int posix_memalign(void **block, size_t alignment, size_t size) {
    void *aligned = memalign(alignment, size);
    if (aligned == NULL) return ENOMEM;
    *block = aligned;
    return 0;
}

void free(void *block) {
    if (block != NULL) live--;
    __libc_free(block);
}
