// Writes the Rust text on standard input with its macros expanded.
#include "cuvolemin.h"
#include <stdio.h>
#include <stdlib.h>

// Reads all of a stream into `*text`. Returns its number of bytes; on failure it frees `*text` and sets it to NULL.
static size_t read_all(FILE *stream, uint8_t **text) {
    size_t len = 0, room = 1 << 16, got;
    uint8_t *more;
    *text = malloc(room);
    while (*text && (got = fread(*text + len, 1, room - len, stream)) > 0) {
        len += got;
        if (len < room) {
            continue;
        }
        room *= 2;
        if (!(more = realloc(*text, room))) {
            free(*text);
        }
        *text = more;
    }
    if (*text && ferror(stream)) {
        free(*text);
        *text = NULL;
    }
    return len;
}

int main(void) {
    uint8_t *text, *out = NULL, *more;
    size_t len = read_all(stdin, &text), room, written = 0, at;
    uint32_t answer;
    if (!text) {
        fputs("standard input cannot be read\n", stderr);
        return 1;
    }
    do {
        room = out ? written : 2 * len + 64;
        if (!(more = realloc(out, room))) {
            return 1;
        }
        out = more;
        answer = tt_expand_text(text, len, out, room, &written, &at);
    } while (answer == CUVOLEMIN_NO_ROOM);
    if (answer == CUVOLEMIN_OK) {
        fwrite(out, 1, written, stdout);
    } else {
        fprintf(stderr, "fault %u at byte %zu\n", (unsigned)answer, at);
    }
    free(text);
    free(out);
    return answer != CUVOLEMIN_OK;
}
