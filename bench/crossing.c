// What calls of the library take: one that is refused at once, which is the crossing alone, and over a file the reading of its text, the check
// of its tree's bytes and the writing of their text. Prints nanoseconds a call, and a byte of the file; the least of several rounds.
//
// usage: crossing FILE
#include "cuvolemin.h"
#include <stdio.h>
#include <stdlib.h>
#include <time.h>

enum { ROUNDS = 15, CALLS = 1000000 };

static double now(void) {
    struct timespec it;
    clock_gettime(CLOCK_MONOTONIC, &it);
    return 1e9 * (double)it.tv_sec + (double)it.tv_nsec;
}

struct slice {
    uint8_t *start;
    size_t len;
};

static struct slice text, bytes, out;

static void must(uint32_t answer) {
    if (answer != CUVOLEMIN_OK) {
        fprintf(stderr, "crossing: fault %u\n", (unsigned)answer);
        exit(1);
    }
}

static void refused(void) {
    size_t at;
    for (int i = 0; i < CALLS; i++) {
        tt_check_bytes(bytes.start, 3, &at);
    }
}

static void reads(void) {
    size_t written, at;
    must(tt_text_to_bytes(text.start, text.len, bytes.start, out.len, &written, &at));
    bytes.len = written;
}

static void checks(void) {
    size_t at;
    must(tt_check_bytes(bytes.start, bytes.len, &at));
}

static void writes(void) {
    size_t written, at;
    must(tt_bytes_to_text(bytes.start, bytes.len, out.start, out.len, &written, &at));
}

// The least nanoseconds of several rounds.
static double least(void (*call)(void)) {
    double best = 0;
    for (int i = 0; i < ROUNDS; i++) {
        double start = now();
        call();
        double took = now() - start;
        best = i == 0 || took < best ? took : best;
    }
    return best;
}

static struct slice room(size_t len) {
    struct slice it = {malloc(len), len};
    if (!it.start) {
        exit(1);
    }
    return it;
}

int main(int argc, char **argv) {
    FILE *file = argc == 2 ? fopen(argv[1], "rb") : NULL;
    if (!file || fseek(file, 0, SEEK_END) != 0) {
        fprintf(stderr, "usage: crossing FILE\n");
        return 2;
    }
    text = room((size_t)ftell(file));
    rewind(file);
    if (fread(text.start, 1, text.len, file) != text.len) {
        return 1;
    }
    bytes = room(64 + 8 * text.len);
    out = room(64 + 8 * text.len);
    double read = least(reads);
    printf("a call that is refused: %.1f ns\n", least(refused) / CALLS);
    printf("text to bytes: %.2f ns a byte of %zu\n", read / (double)text.len, text.len);
    printf("check of %zu bytes: %.2f ns a byte of the text\n", bytes.len, least(checks) / (double)text.len);
    printf("bytes to text: %.2f ns a byte of the text\n", least(writes) / (double)text.len);
    return 0;
}
