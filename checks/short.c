// A library that is loaded in front of a program. Each of its reads gives one byte, and each of its writes takes at most
// three. The read whose number, counted from 1, is in FAIL_READ gives an error, and so does the write of FAIL_WRITE.
#include <errno.h>
#include <stdlib.h>
#include <sys/syscall.h>
#include <unistd.h>

// How many calls come in front of the one that fails; below 0 none does.
static long long reads_left = -1;
static long long writes_left = -1;

static long long number_in(const char *name) {
    const char *number = getenv(name);
    return number == NULL ? -1 : atoll(number) - 1;
}

__attribute__((constructor)) static void start(void) {
    reads_left = number_in("FAIL_READ");
    writes_left = number_in("FAIL_WRITE");
}

static int fails(long long *left) {
    if (*left < 0 || --*left >= 0) return 0;
    errno = EIO;
    return 1;
}

ssize_t read(int file, void *bytes, size_t count) {
    if (fails(&reads_left)) return -1;
    return syscall(SYS_read, file, bytes, count < 1 ? count : 1);
}

// What is written to standard error is left alone.
ssize_t write(int file, const void *bytes, size_t count) {
    if (file == STDERR_FILENO) return syscall(SYS_write, file, bytes, count);
    if (fails(&writes_left)) return -1;
    return syscall(SYS_write, file, bytes, count < 3 ? count : 3);
}
