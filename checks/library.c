// A judge of the library, by a program in C: outputs of each size, texts that were worked out by hand, and several threads at once.
// It prints a line for each thing that it tries, which begins with `ok ` where it is as it has to be.
#include "cuvolemin.h"
#include <pthread.h>
#include <stdbool.h>
#include <stdio.h>
#include <string.h>

enum { ROOM = 4096, WORD_ROOM = 64, GUARD = 16, UNTOUCHED = 0xa5, THREADS = 8, ROUNDS = 400 };

typedef uint32_t makes(const uint8_t *, size_t, uint8_t *, size_t, size_t *, size_t *);

struct made {
    uint32_t answer;
    size_t written, at;
    uint8_t bytes[ROOM + GUARD];
};

static void tell(bool right, const char *what) {
    printf("%s %s\n", right ? "ok" : "FAILED", what);
}

// What a function makes of an input in an output of that size. All of the output's place holds UNTOUCHED before.
static struct made make(makes *function, const void *input, size_t len, size_t room) {
    struct made made = {.written = 77, .at = 77};
    memset(made.bytes, UNTOUCHED, sizeof made.bytes);
    made.answer = function(input, len, made.bytes, room, &made.written, &made.at);
    return made;
}

static bool is_untouched(const struct made *made, size_t from) {
    for (size_t i = from; i < sizeof made->bytes; i++) {
        if (made->bytes[i] != UNTOUCHED) {
            return false;
        }
    }
    return true;
}

// With each size from 0 up to a few bytes more than it needs.
static bool fits_each_size(makes *function, const void *input, size_t len) {
    struct made all = make(function, input, len, ROOM);
    if (all.answer != CUVOLEMIN_OK || !is_untouched(&all, all.written)) {
        return false;
    }
    for (size_t room = 0; room <= all.written + GUARD; room++) {
        struct made made = make(function, input, len, room);
        bool fits = room >= all.written;
        size_t used = fits ? all.written : 0;
        if (made.answer != (fits ? CUVOLEMIN_OK : CUVOLEMIN_NO_ROOM) || made.written != all.written || made.at != 0 ||
            memcmp(made.bytes, all.bytes, used) != 0 || !is_untouched(&made, used)) {
            return false;
        }
    }
    return true;
}

static bool makes_text(makes *function, const void *input, size_t len, const char *text) {
    struct made made = make(function, input, len, ROOM);
    return made.answer == CUVOLEMIN_OK && made.written == strlen(text) && memcmp(made.bytes, text, made.written) == 0;
}

static bool is_fault(makes *function, const void *input, size_t len, uint32_t fault, size_t at) {
    struct made made = make(function, input, len, ROOM);
    return made.answer == fault && made.at == at && made.written == 0 && is_untouched(&made, 0);
}

static struct made tree_of(const char *text) {
    return make(tt_text_to_bytes, text, strlen(text), ROOM);
}

static bool is_checked(const uint8_t *bytes, size_t len, uint32_t answer, size_t place) {
    size_t at = 77;
    return tt_check_bytes(bytes, len, &at) == answer && at == place;
}

// The text of what the macro of these arms makes of an input.
static bool expands(const char *arms, const char *input, const char *text) {
    struct made macro = tree_of(arms), given = tree_of(input), made = {0};
    made.answer = tt_expand_bytes(macro.bytes, macro.written, given.bytes, given.written, made.bytes, ROOM, &made.written, &made.at);
    return made.answer == CUVOLEMIN_OK && makes_text(tt_bytes_to_text, made.bytes, made.written, text);
}

static const char TEXT[] = "fn  first( a :u8 )->u8{a}// last";
static const char SOURCE[] = "macro_rules! twice { ($x:tt) => { [$x $x] } }\nlet  a = twice!(b); // stays\n";
static const char EXPANDED[] = "macro_rules! twice { ($x:tt) => { [$x $x] } }\nlet  a = [b b]; // stays\n";
static const char WRITTEN[] = "fn first(a: u8) -> u8 { a }";

static const char FAULTY[] =
    "macro_rules! m { ($x:ident) => { n!($x) } }\n"
    "macro_rules! n { (a) => { 1 } }\n"
    "f(m!(a), m!(b));\n"
    "macro_rules! bad { () => {}; ($y) => {} }\n";
// What is made of it, the names of two findings and of a caller, and what the rules expect for the first finding.
static const char LISTED[] =
    "macro_rules! m { ($x:ident) => { n!($x) } }\n"
    "macro_rules! n { (a) => { 1 } }\n"
    "f(1, n!(b));\n"
    "macro_rules! bad { () => {}; ($y) => {} }\n\0n\0`a` (rule 1)\0bad\0m";
static const size_t WORDS[] = {
    131, 2, CUVOLEMIN_NO_MATCH, 88, 57, 0, 0, 132, 134, CUVOLEMIN_BEGINS_NOTHING, 123, SIZE_MAX, SIZE_MAX, 1, 147, SIZE_MAX, 85, SIZE_MAX, 151,
};
enum { WORD_COUNT = sizeof WORDS / sizeof *WORDS };

struct listed {
    struct made made;
    size_t found;
    size_t words[WORD_ROOM + GUARD];
};

struct options {
    const char *root, *only, *cfg;
    size_t cfg_len;
    uint32_t everywhere, one_line;
    size_t limit, max_tokens;
};

static const struct options USUAL = {"crate", "", "", 0, 0, 0, 128, 4000000};

// What a text expands to with options, in outputs of these sizes.
static struct listed list(const void *text, size_t len, struct options with, size_t room, size_t word_room) {
    struct listed listed = {.made = {.written = 77, .at = 77}, .found = 77};
    memset(listed.made.bytes, UNTOUCHED, sizeof listed.made.bytes);
    memset(listed.words, UNTOUCHED, sizeof listed.words);
    listed.made.answer =
        tt_expand_text_with(text, len, (const uint8_t *)with.root, strlen(with.root), (const uint8_t *)with.only, strlen(with.only),
                            (const uint8_t *)with.cfg, with.cfg_len, with.everywhere, with.one_line, with.limit, with.max_tokens,
                            listed.made.bytes, room, &listed.made.written, listed.words, word_room, &listed.found, &listed.made.at);
    return listed;
}

static bool are_words_untouched(const struct listed *listed, size_t from) {
    for (size_t i = from; i < WORD_ROOM + GUARD; i++) {
        if (listed->words[i] != SIZE_MAX / UINT8_MAX * UNTOUCHED) {
            return false;
        }
    }
    return true;
}

// Whether the text above is listed in outputs of these sizes, or neither is written if one of them is too short.
static bool is_listed_in(size_t room, size_t word_room) {
    struct listed listed = list(FAULTY, strlen(FAULTY), USUAL, room, word_room);
    bool fits = room >= sizeof LISTED && word_room >= WORD_COUNT;
    return listed.made.answer == (fits ? CUVOLEMIN_OK : CUVOLEMIN_NO_ROOM) && listed.made.at == 0 && listed.made.written == sizeof LISTED &&
           listed.found == WORD_COUNT && (!fits || memcmp(listed.made.bytes, LISTED, sizeof LISTED) == 0) &&
           (!fits || memcmp(listed.words, WORDS, sizeof WORDS) == 0) && is_untouched(&listed.made, fits ? sizeof LISTED : 0) &&
           are_words_untouched(&listed, fits ? WORD_COUNT : 0);
}

static bool lists_in_each_size(void) {
    for (size_t room = 0; room <= sizeof LISTED + GUARD; room++) {
        if (!is_listed_in(room, WORD_ROOM)) {
            return false;
        }
    }
    for (size_t room = 0; room <= WORD_COUNT + GUARD; room++) {
        if (!is_listed_in(ROOM, room) || !is_listed_in(sizeof LISTED - 1, room)) {
            return false;
        }
    }
    return true;
}

// The same words, by the structs of the header.
static bool has_findings(void) {
    struct listed listed = list(FAULTY, strlen(FAULTY), USUAL, ROOM, WORD_ROOM);
    const struct cuvolemin_finding *findings = (const struct cuvolemin_finding *)(listed.words + 2);
    const struct cuvolemin_caller *callers = (const struct cuvolemin_caller *)(findings + listed.words[1]);
    const char *names = (const char *)listed.made.bytes;
    return listed.words[1] == 2 && findings[0].fault == CUVOLEMIN_NO_MATCH && strcmp(names + findings[0].name, "n") == 0 &&
           callers[findings[0].caller].at == 85 && strcmp(names + callers[findings[0].caller].name, "m") == 0 &&
           callers[findings[0].caller].caller == SIZE_MAX && strcmp(names + findings[0].expected, "`a` (rule 1)") == 0 &&
           findings[1].detail == 1 && strcmp(names + findings[1].name, "bad") == 0 && findings[1].expected == SIZE_MAX;
}

// Whether a text becomes another one with options, with this first fault, or with none if that is 0.
static bool becomes(const char *text, struct options with, const char *wanted, size_t fault) {
    struct listed listed = list(text, strlen(text), with, ROOM, WORD_ROOM);
    size_t len = strlen(wanted);
    return listed.made.answer == CUVOLEMIN_OK && listed.words[0] == len && memcmp(listed.made.bytes, wanted, len + 1) == 0 &&
           (fault ? listed.words[1] == 1 && listed.words[2] == fault : listed.found == 2 && listed.made.written == len + 1);
}

static bool heeds_options(void) {
    struct options root = USUAL, only = USUAL, everywhere = USUAL, one_line = USUAL, limit = USUAL, max_tokens = USUAL;
    root.root = "std";
    only.only = "b";
    everywhere.everywhere = 2;
    one_line.one_line = 3;
    limit.limit = 1;
    max_tokens.max_tokens = 2;
    return becomes("macro_rules! p { () => { $crate::q } } f(p!());", root, "macro_rules! p { () => { $crate::q } } f(std::q);", 0) &&
           becomes("macro_rules! p { () => { $crate::q } } f(p!());", one_line, "macro_rules! p { () => { $crate::q } } f(crate :: q);", 0) &&
           becomes("macro_rules! a { () => { 1 } } macro_rules! b { () => { 2 } } f(a!(), b!());", only,
                   "macro_rules! a { () => { 1 } } macro_rules! b { () => { 2 } } f(a!(), 2);", 0) &&
           becomes("macro_rules! a { () => { 1 } } v![a!()];", USUAL, "macro_rules! a { () => { 1 } } v![a!()];", 0) &&
           becomes("macro_rules! a { () => { 1 } } v![a!()];", everywhere, "macro_rules! a { () => { 1 } } v![1];", 0) &&
           becomes("macro_rules! m { () => { m!() } } f(m!());", limit, "macro_rules! m { () => { m!() } } f(m!());", CUVOLEMIN_TOO_DEEP) &&
           becomes("macro_rules! m { () => { 1 2 3 } } f(m!());", max_tokens, "macro_rules! m { () => { 1 2 3 } } f(m!());",
                   CUVOLEMIN_OVER_MAX_TOKENS);
}

// Whether a fault is told with its place, and nothing is written.
static bool is_not_listed(const char *text, struct options with, uint32_t fault, size_t at) {
    struct listed listed = list(text, strlen(text), with, ROOM, WORD_ROOM);
    return listed.made.answer == fault && listed.made.at == at && listed.made.written == 0 && listed.found == 0 &&
           is_untouched(&listed.made, 0) && are_words_untouched(&listed, 0);
}

static bool refuses(void) {
    struct options root = USUAL, only = USUAL;
    root.root = "ab\xff";
    only.only = "a\xff";
    struct options both = USUAL;
    both.root = root.root;
    both.only = only.only;
    return is_not_listed("a ) b", USUAL, CUVOLEMIN_UNOPENED, 2) && is_not_listed("\xff", both, CUVOLEMIN_NOT_UTF8, 0) &&
           is_not_listed("a", both, CUVOLEMIN_NOT_UTF8, 2) && is_not_listed("a", only, CUVOLEMIN_NOT_UTF8, 1);
}

static bool knows_conditions(void) {
    static const char TEXT[] = "#[cfg(all(b, k = \"v\"))] macro_rules! m(() => {1}); #[cfg(not(b))] macro_rules! m(() => {2}); const A: u8 = m!();";
    static const char MADE[] = "#[cfg(all(b, k = \"v\"))] macro_rules! m(() => {1}); #[cfg(not(b))] macro_rules! m(() => {2}); const A: u8 = 1;";
    static const char CFG[] = "b\0k=\"v\"", NO_VALUE[] = "b\0k=v", EMPTY[] = "", NO_TEXT[] = "b\0\xff";
    struct options both = USUAL, unended = USUAL, no_value = USUAL, empty = USUAL, no_text = USUAL;
    both.cfg = unended.cfg = CFG;
    both.cfg_len = sizeof CFG;
    unended.cfg_len = sizeof CFG - 1;
    no_value.cfg = NO_VALUE;
    no_value.cfg_len = sizeof NO_VALUE;
    empty.cfg = EMPTY;
    empty.cfg_len = sizeof EMPTY;
    no_text.cfg = NO_TEXT;
    no_text.cfg_len = sizeof NO_TEXT;
    return becomes(TEXT, both, MADE, 0) && becomes(TEXT, unended, MADE, 0) && becomes(TEXT, USUAL, TEXT, CUVOLEMIN_SEVERAL_DEFINITIONS) &&
           is_not_listed("a ) b", no_value, CUVOLEMIN_NO_CFG, 1) && is_not_listed("a", empty, CUVOLEMIN_NO_CFG, 0) &&
           is_not_listed("a", no_text, CUVOLEMIN_NOT_UTF8, 2);
}

static const char PARTS[] = "a += (\"\xc3\xa9\")";
// The texts of its tokens, and the words about them.
static const char TEXTS[] = "a+=(\"\xc3\xa9\")";
static const size_t TOKENS[] = {
    CUVOLEMIN_IDENT, 0, 0, 1, 0, 1, 0, 0, 0, CUVOLEMIN_PUNCT, 1, 1, 1, 2, 3, 0, 0, 0, CUVOLEMIN_PUNCT, 0, 2, 1, 3, 4, 0, 0, 0,
    CUVOLEMIN_OPEN, 0, 3, 1, 5, 6, 0, 0, 0, CUVOLEMIN_LITERAL, 4, 4, 4, 6, 10, 0, 0, 0, CUVOLEMIN_CLOSE, 0, 8, 1, 10, 11, 0, 0, 0,
};
enum { TEXTS_LEN = sizeof TEXTS - 1, TOKENS_LEN = sizeof TOKENS / sizeof *TOKENS };

// The tokens of a tree, in outputs of these sizes.
static struct listed tokens_of(const uint8_t *bytes, size_t len, size_t room, size_t word_room) {
    struct listed listed = {.made = {.written = 77, .at = 77}, .found = 77};
    memset(listed.made.bytes, UNTOUCHED, sizeof listed.made.bytes);
    memset(listed.words, UNTOUCHED, sizeof listed.words);
    listed.made.answer =
        tt_bytes_to_tokens(bytes, len, listed.made.bytes, room, &listed.made.written, listed.words, word_room, &listed.found, &listed.made.at);
    return listed;
}

// Whether the tokens above are given in outputs of these sizes, or nothing is written if one of them is too short.
static bool are_tokens_in(const struct made *tree, size_t room, size_t word_room) {
    struct listed listed = tokens_of(tree->bytes, tree->written, room, word_room);
    bool fits = room >= TEXTS_LEN && word_room >= TOKENS_LEN;
    return listed.made.answer == (fits ? CUVOLEMIN_OK : CUVOLEMIN_NO_ROOM) && listed.made.at == 0 && listed.made.written == TEXTS_LEN &&
           listed.found == TOKENS_LEN && (!fits || memcmp(listed.made.bytes, TEXTS, TEXTS_LEN) == 0) &&
           (!fits || memcmp(listed.words, TOKENS, sizeof TOKENS) == 0) && is_untouched(&listed.made, fits ? TEXTS_LEN : 0) &&
           are_words_untouched(&listed, fits ? TOKENS_LEN : 0);
}

static bool has_tokens(void) {
    struct made tree = tree_of(PARTS);
    for (size_t room = 0; room <= TEXTS_LEN + GUARD; room++) {
        if (!are_tokens_in(&tree, room, WORD_ROOM)) {
            return false;
        }
    }
    for (size_t room = 0; room <= TOKENS_LEN + GUARD; room++) {
        if (!are_tokens_in(&tree, ROOM, room) || !are_tokens_in(&tree, TEXTS_LEN - 1, room)) {
            return false;
        }
    }
    struct listed short_of = tokens_of(tree.bytes, 3, ROOM, WORD_ROOM);
    return short_of.made.answer == CUVOLEMIN_BYTES_TOO_SHORT && short_of.made.at == 3 && short_of.made.written == 0 && short_of.found == 0 &&
           is_untouched(&short_of.made, 0) && are_words_untouched(&short_of, 0);
}

// The same words, by the struct of the header.
static bool are_tokens(void) {
    struct made tree = tree_of(PARTS);
    struct listed listed = tokens_of(tree.bytes, tree.written, ROOM, WORD_ROOM);
    const struct cuvolemin_token *tokens = (const struct cuvolemin_token *)listed.words;
    return listed.found == 6 * sizeof *tokens / sizeof(size_t) && tokens[3].sort == CUVOLEMIN_OPEN && tokens[4].kind == 4 &&
           memcmp(listed.made.bytes + tokens[4].text, "\"\xc3\xa9\"", tokens[4].text_len) == 0 && tokens[4].start == 6 && tokens[4].end == 10 &&
           tokens[5].file == 0 && tokens[5].item == 0 && tokens[5].context == 0;
}

// Reads, writes and expands again and again, with outputs of its own, and notes whether all was right.
static void *work(void *right) {
    struct made tree = tree_of(TEXT);
    for (int round = 0; round < ROUNDS; round++) {
        struct made again = tree_of(TEXT);
        if (again.written != tree.written || memcmp(again.bytes, tree.bytes, tree.written) != 0 ||
            !makes_text(tt_bytes_to_text, tree.bytes, tree.written, WRITTEN) ||
            !makes_text(tt_expand_text, SOURCE, strlen(SOURCE), EXPANDED) || !is_listed_in(ROOM, WORD_ROOM) ||
            !expands("($a:ident + $b:ident) => { $b - $a }", "p + q", "q - p")) {
            return NULL;
        }
    }
    *(bool *)right = true;
    return NULL;
}

static bool works_in_threads(void) {
    pthread_t threads[THREADS];
    bool right[THREADS] = {false}, all = true;
    for (size_t i = 0; i < THREADS; i++) {
        if (pthread_create(&threads[i], NULL, work, &right[i]) != 0) {
            return false;
        }
    }
    for (size_t i = 0; i < THREADS; i++) {
        pthread_join(threads[i], NULL);
        all = all && right[i];
    }
    return all;
}

int main(void) {
    struct made tree = tree_of(TEXT);
    tell(tree.answer == CUVOLEMIN_OK && memcmp(tree.bytes, "tt\1\0", 4) == 0, "C: a text has bytes");
    tell(makes_text(tt_bytes_to_text, tree.bytes, tree.written, WRITTEN), "C: bytes have a text");
    tell(is_checked(tree.bytes, tree.written, CUVOLEMIN_OK, 0), "C: they are a tree's");
    tell(is_checked(tree.bytes, 3, CUVOLEMIN_BYTES_TOO_SHORT, 3), "C: the first three are none's");
    tell(fits_each_size(tt_text_to_bytes, TEXT, strlen(TEXT)), "C: outputs of each size for bytes");
    tell(fits_each_size(tt_bytes_to_text, tree.bytes, tree.written), "C: outputs of each size for a text");
    tell(is_fault(tt_text_to_bytes, "a ) b", 5, CUVOLEMIN_UNOPENED, 2), "C: a bracket that is not opened");
    tell(is_fault(tt_text_to_bytes, "ab\xff", 3, CUVOLEMIN_NOT_UTF8, 2), "C: a text that is no UTF-8");
    tell(is_fault(tt_bytes_to_text, "tt\2\0", 4, CUVOLEMIN_BYTES_OF_OTHER_FORMAT, 2), "C: bytes of another version");
    tell(makes_text(tt_bytes_to_text, tree.bytes, tree.written, WRITTEN), "C: a fault leaves nothing behind");
    tell(expands("($a:ident + $b:ident) => { $b - $a }", "p + q", "q - p"), "C: a macro expands an input");
    tell(makes_text(tt_expand_text, SOURCE, strlen(SOURCE), EXPANDED), "C: a text is expanded");
    tell(fits_each_size(tt_expand_text, SOURCE, strlen(SOURCE)), "C: outputs of each size for an expanded text");
    tell(is_fault(tt_expand_text, "a ) b", 5, CUVOLEMIN_UNOPENED, 2), "C: a text with a fault is not expanded");
    tell(lists_in_each_size(), "C: outputs of each size for a text and its findings");
    tell(has_findings(), "C: findings have names and callers");
    tell(heeds_options(), "C: options of an expansion");
    tell(refuses(), "C: a text or an option with a fault has no findings");
    tell(knows_conditions(), "C: conditions that are true, and wrong ones");
    tell(has_tokens(), "C: outputs of each size for tokens");
    tell(are_tokens(), "C: tokens have texts and spans");
    tell(works_in_threads(), "C: several threads at once");
    return 0;
}
