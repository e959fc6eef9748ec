// Expands calls inside one another on a small stack: stack DEPTH BYTES. Prints the answer of the library.
#include "cuvolemin.h"
#include <pthread.h>
#include <stdio.h>
#include <stdlib.h>
#include <string.h>

static const char DEFINITION[] = "macro_rules! m { (a $($x:tt)*) => { m!($($x)*) }; () => { 1 } } const A: u8 = m!(";

static char *text;
static uint32_t answer = 1;

// Expands the text, with 1,000 nested expansions at most. The outputs are static, so that they take no stack. If something is found, the answer is
// the fault of the first finding.
static void *expand(void *unused) {
    static uint8_t out[1 << 16];
    static size_t findings[1 << 10];
    size_t written, found, at;
    (void)unused;
    answer = tt_expand_text_with((const uint8_t *)text, strlen(text), (const uint8_t *)"crate", 5, out, 0, out, 0, 0, 0, 1000, 4000000, out,
                                 sizeof out, &written, findings, sizeof findings / sizeof *findings, &found, &at);
    if (answer == 0 && findings[1] != 0) {
        answer = (uint32_t)findings[2];
    }
    return NULL;
}

int main(int count, char **words) {
    pthread_attr_t size;
    pthread_t thread;
    int depth = count > 2 ? atoi(words[1]) : 0;
    if (count != 3 || !(text = malloc(sizeof DEFINITION + 2 * (size_t)depth + 2))) {
        return 2;
    }
    strcpy(text, DEFINITION);
    for (int i = 0; i < depth; i++) {
        strcat(text, "a ");
    }
    strcat(text, ");");
    if (pthread_attr_init(&size) || pthread_attr_setstacksize(&size, strtoul(words[2], NULL, 10)) ||
        pthread_create(&thread, &size, expand, NULL) || pthread_join(thread, NULL)) {
        return 2;
    }
    printf("%u\n", (unsigned)answer);
    free(text);
    return 0;
}
