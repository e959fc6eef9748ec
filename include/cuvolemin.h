/* Rust texts, token trees in bytes, and macros. docs/EMBEDDING.md says how to link, and what a caller ensures.
 *
 * All functions
 *   - read from slices: a pointer and a number of bytes. The pointer is never null, not even if the number is 0;
 *   - return CUVOLEMIN_OK, or the number of a fault from the table below, with its place in *at;
 *   - keep nothing, and return no pointer. They free all memory that they take from malloc before they return;
 *   - may be called by several threads at once, if no two calls share what one of them writes.
 *
 * Those with an output write into out, which has room for out_len bytes, and set *written to the number of bytes that they make.
 * If these are more than out_len, they write nothing and return CUVOLEMIN_NO_ROOM: call again with that much room. With any other
 * fault they write nothing and set *written to 0. What they write overlaps with nothing else that the caller passes.
 */
#ifndef CUVOLEMIN_H
#define CUVOLEMIN_H

#include <stddef.h>
#include <stdint.h>

#ifdef __cplusplus
extern "C" {
#endif

/* The bytes of the tree of a Rust text, of edition 2024, in UTF-8. The places of its tokens are bytes of the text, in file 0.
 * Faults: 1 to 44. *at is a byte of the text; 0 for faults 1, 2 and 4 to 9. */
uint32_t tt_text_to_bytes(const uint8_t *text, size_t text_len, uint8_t *out, size_t out_len, size_t *written, size_t *at);

/* The Rust text of the tree that has these bytes, on one line, with the spaces of rustfmt. Read again, it gives the same tokens.
 * Faults: 1, 2, 60 to 64, with a byte of the input in *at; 105, with the number of tokens before the leaf in *at; 106. */
uint32_t tt_bytes_to_text(const uint8_t *bytes, size_t bytes_len, uint8_t *out, size_t out_len, size_t *written, size_t *at);

/* The tokens of the tree that has these bytes, in reading order: each subtree is a token that opens it, what it holds, and one that closes it.
 * The top is left out. out gets their texts, one behind the other. tokens has room for tokens_len words and gets those of each token. *found
 * is the number of words. If one of the outputs is too short, nothing is written into either.
 * Faults: 1, 2, 60 to 64, with a byte of the input in *at. */
uint32_t tt_bytes_to_tokens(const uint8_t *bytes, size_t bytes_len, uint8_t *out, size_t out_len, size_t *written, size_t *tokens,
                            size_t tokens_len, size_t *found, size_t *at);

/* What a token is. */
enum cuvolemin_sort {
    /* The start of a subtree. Its kind is that of its brackets: 0 `(`, 1 `{`, 2 `[`, 3 none, 4 none but kept as one tree. */
    CUVOLEMIN_OPEN = 1,
    /* The end of a subtree, with the same kind. */
    CUVOLEMIN_CLOSE = 2,
    /* A name or a keyword. Its kind is 1 if it is raw, else 0. */
    CUVOLEMIN_IDENT = 3,
    /* A character of punctuation. Its kind is 0, or 1 if another one follows directly, or 2 if another token does. */
    CUVOLEMIN_PUNCT = 4,
    /* A literal. Its kind is 0 for a byte, 1 a character, 2 an integer, 3 a float, 4 and 5 a string, 6 and 7 a byte string, 8 and 9 a C string,
     * each time the second for a raw one, 10 for a text that is no literal. */
    CUVOLEMIN_LITERAL = 5,
};

/* The words of a token, which may be read as this struct. */
struct cuvolemin_token {
    /* What it is, of the table above. */
    size_t sort;
    /* Its kind among these. */
    size_t kind;
    /* The byte of out at which its text begins, and the number of bytes of that: with quotes and suffix, with r#; empty if a subtree has no
     * brackets. */
    size_t text;
    size_t text_len;
    /* Where it begins and ends: bytes of the item of the file. */
    size_t start;
    size_t end;
    size_t file;
    size_t item;
    /* Its syntax context. */
    size_t context;
};

/* A Rust text with the calls of its own macros expanded. All else stays byte for byte, but for lines in which nothing is left. What a call
 * becomes is laid out like the template and the input that it comes from, with the indentation of the call. Up to 128 expansions may be
 * nested, and a call and the calls in its result may write 4,000,000 tokens; 64 KiB of stack were enough when measured. $crate becomes crate. A call
 * under #[cfg(..)] stays only if the condition cannot apply to each part of its expansion. A call of a macro whose last definition is under
 * #[cfg(..)] stays if another definition of the name is in scope.
 * Faults: 1 to 44; 81 to 92, but for 84, 90 and 91, of definitions; 90, 91 and 100 to 108, of calls; and 5 to 9 of either. *at is a byte of
 * the text; 0 for faults 2 and 4, for 1 if no call is expanded then, and for 5 to 9 if the text itself exceeds the limit. */
uint32_t tt_expand_text(const uint8_t *text, size_t text_len, uint8_t *out, size_t out_len, size_t *written, size_t *at);

/* The same with options, and with all findings: a definition or a call with a fault stays, and the function still returns CUVOLEMIN_OK.
 *   root        the word that $crate becomes, such as crate
 *   only        the name, without r#, of the only macros that are read and expanded; all are if only_len is 0
 *   cfg         what is true in #[cfg(..)], each with a 0 behind it: NAME or NAME="VALUE". All else is open
 *   everywhere  not 0: calls in the brackets of calls that stay are expanded too
 *   one_line    not 0: what a call becomes is one line, with spaces between most tokens
 *   limit       how many expansions may be nested (128 are usual)
 *   max_tokens  how many tokens a call and the calls in its result may write (4,000,000 are usual)
 * out gets the text and then the names and other texts that the words speak of, each of them with a 0 behind it. findings has room for findings_len words
 * and gets: the number of bytes of the text; the number of findings; the words of each finding, in order; and those of each caller, up to
 * the end. *found is the number of words. If one of the outputs is too short, nothing is written into either.
 * Faults: 1; 2; 3 of the text, of root, of only or of cfg, in this order, with a byte of that in *at; 50, with the number of conditions in cfg
 * before the wrong one; 4 to 44, with a byte of the text. *at is 0 for faults 2 and 4 to 9, and for 1 if no call is expanded then. */
uint32_t tt_expand_text_with(const uint8_t *text, size_t text_len, const uint8_t *root, size_t root_len, const uint8_t *only, size_t only_len,
                             const uint8_t *cfg, size_t cfg_len, uint32_t everywhere, uint32_t one_line, size_t limit, size_t max_tokens,
                             uint8_t *out, size_t out_len, size_t *written, size_t *findings, size_t findings_len, size_t *found, size_t *at);

/* The words of a finding, which may be read as this struct. A number that is missing is SIZE_MAX. */
struct cuvolemin_finding {
    /* Its number in the table below. Those of warnings are 84 and 93 to 97. */
    size_t fault;
    /* The byte of the text at which it shows. */
    size_t at;
    /* The byte at which the macro's name begins in its definition, if this is about a call. */
    size_t defined_at;
    /* The index of the caller that wrote the definition or the call, if it is not in the text itself. */
    size_t caller;
    /* The byte at which the macro binds the name, for CUVOLEMIN_CAPTURED; else the number of the arm, from 0, if the fault is in one; else 0. */
    size_t detail;
    /* The byte of out at which the name of the macro begins. */
    size_t name;
    /* The byte of out at which a text begins that says what the macro's rules expect at the byte `at`, for CUVOLEMIN_NO_MATCH: up to three
     * parts of their patterns, such as `,` (rule 1) or the end (rule 1). */
    size_t expected;
};

/* The words of a caller: a call whose expansion has a finding. */
struct cuvolemin_caller {
    /* The byte of the text at which the call begins. */
    size_t at;
    /* The index of the caller that wrote it, which is a lower one, if it is not in the text itself. */
    size_t caller;
    /* The byte of out at which the name of its macro begins. */
    size_t name;
};

/* The bytes of what a macro makes of an input. Its arms, `(pattern) => {template}` with `;` between them, and the input are trees in bytes.
 * Faults: 1, 2, 5 to 9; 60 to 64, with a byte of the arms in *at; 70 to 74, with a byte of the input; 81 to 92 and 101 to 103, with the
 * number of the arm, from 0; 100, with the number of tokens of the input before the place that no arm passes. */
uint32_t tt_expand_bytes(const uint8_t *arms, size_t arms_len, const uint8_t *input, size_t input_len, uint8_t *out, size_t out_len,
                         size_t *written, size_t *at);

/* Whether bytes are a tree's. Faults: 1, and 60 to 64 with a byte of the input in *at. */
uint32_t tt_check_bytes(const uint8_t *bytes, size_t bytes_len, size_t *at);

/* The answers. A number keeps its meaning. */
enum cuvolemin_answer {
    CUVOLEMIN_OK = 0,
    /* Memory ran out. */
    CUVOLEMIN_MEMORY = 1,
    /* The result is longer than the output. Nothing is written there. */
    CUVOLEMIN_NO_ROOM = 2,
    /* The text is not UTF-8. */
    CUVOLEMIN_NOT_UTF8 = 3,
    /* The text has 4,294,967,296 bytes or more. */
    CUVOLEMIN_TEXT_TOO_LONG = 4,
    /* The trees have too many tokens. */
    CUVOLEMIN_TOO_MANY_TOKENS = 5,
    /* The trees have too many span parts. */
    CUVOLEMIN_TOO_MANY_SPAN_PARTS = 6,
    /* The trees have too many symbols. */
    CUVOLEMIN_TOO_MANY_SYMBOLS = 7,
    /* The trees have too many bytes. */
    CUVOLEMIN_TOO_MANY_BYTES = 8,
    /* Another limit of trees is exceeded. */
    CUVOLEMIN_OTHER_LIMIT = 9,
    /* A closing bracket without an open one. */
    CUVOLEMIN_UNOPENED = 10,
    /* A closing bracket that does not match the innermost open one. */
    CUVOLEMIN_MISMATCHED = 11,
    /* The innermost bracket still open at the end. */
    CUVOLEMIN_UNCLOSED = 12,
    /* `/ *` without a closing `* /`. */
    CUVOLEMIN_UNTERMINATED_COMMENT = 20,
    /* A literal that is never closed. */
    CUVOLEMIN_UNTERMINATED_LITERAL = 21,
    /* The hashes of a raw literal without a quote behind them. */
    CUVOLEMIN_RAW_WITHOUT_QUOTE = 22,
    /* More than 255 hashes. */
    CUVOLEMIN_TOO_MANY_HASHES = 23,
    /* A suffix of more than 255 bytes. */
    CUVOLEMIN_SUFFIX_TOO_LONG = 24,
    /* `r#` before a name that is never raw. */
    CUVOLEMIN_NEVER_RAW = 25,
    /* A character that begins no token. */
    CUVOLEMIN_UNKNOWN_CHARACTER = 26,
    /* A name right before a quote or a `#` that is no prefix of a literal. */
    CUVOLEMIN_UNKNOWN_PREFIX = 27,
    /* A name that contains emoji. */
    CUVOLEMIN_INVALID_IDENT = 28,
    /* `##` or `#"`. */
    CUVOLEMIN_GUARDED_PREFIX = 29,
    /* The letter of a base without a digit behind it. */
    CUVOLEMIN_NO_DIGITS = 30,
    /* The `e` of a float without a digit behind it. */
    CUVOLEMIN_EMPTY_EXPONENT = 31,
    /* A float that is not written in base ten. */
    CUVOLEMIN_FLOAT_OF_ANOTHER_BASE = 32,
    /* A digit that the number's base does not have. */
    CUVOLEMIN_FOREIGN_DIGIT = 33,
    /* A byte or a byte string with a character beyond ASCII. */
    CUVOLEMIN_BEYOND_ASCII = 34,
    /* A carriage return without a line feed behind it. */
    CUVOLEMIN_BARE_RETURN = 35,
    /* An escape that such a literal does not have. */
    CUVOLEMIN_UNKNOWN_ESCAPE = 36,
    /* `\x` without two digits of base 16. */
    CUVOLEMIN_BAD_HEX_ESCAPE = 37,
    /* `\x80` or more, if that would be no character. */
    CUVOLEMIN_HEX_ESCAPE_TOO_LARGE = 38,
    /* `\u` that spells no character. */
    CUVOLEMIN_BAD_UNICODE_ESCAPE = 39,
    /* A character that a character literal allows only behind a backslash. */
    CUVOLEMIN_WANTS_ESCAPE = 40,
    /* A character literal without a character. */
    CUVOLEMIN_EMPTY_CHAR = 41,
    /* A character literal with several characters. */
    CUVOLEMIN_SEVERAL_CHARS = 42,
    /* A null in a C string. */
    CUVOLEMIN_NULL_IN_C_STR = 43,
    /* `'` and a digit. */
    CUVOLEMIN_LIFETIME_BEGINS_WITH_DIGIT = 44,
    /* A condition is no `NAME` and no `NAME="VALUE"`. */
    CUVOLEMIN_NO_CFG = 50,
    /* The bytes end too early. */
    CUVOLEMIN_BYTES_TOO_SHORT = 60,
    /* The bytes have another format, or another version of this one. */
    CUVOLEMIN_BYTES_OF_OTHER_FORMAT = 61,
    /* A symbol's text is not UTF-8. */
    CUVOLEMIN_BYTES_WITHOUT_TEXT = 62,
    /* The bytes contain no tree. */
    CUVOLEMIN_BYTES_WITHOUT_TREE = 63,
    /* The bytes contain a tree that is stored as other bytes. */
    CUVOLEMIN_BYTES_STORED_OTHERWISE = 64,
    /* The bytes of the input end too early. */
    CUVOLEMIN_INPUT_TOO_SHORT = 70,
    /* The bytes of the input have another format. */
    CUVOLEMIN_INPUT_OF_OTHER_FORMAT = 71,
    /* A symbol's text in the bytes of the input is not UTF-8. */
    CUVOLEMIN_INPUT_WITHOUT_TEXT = 72,
    /* The bytes of the input contain no tree. */
    CUVOLEMIN_INPUT_WITHOUT_TREE = 73,
    /* The bytes of the input contain a tree that is stored as other bytes. */
    CUVOLEMIN_INPUT_STORED_OTHERWISE = 74,
    /* No pattern comes where an arm should begin. */
    CUVOLEMIN_NO_PATTERN = 81,
    /* A `$` of a pattern begins nothing. */
    CUVOLEMIN_BEGINS_NOTHING = 82,
    /* A variable names a fragment that does not exist. */
    CUVOLEMIN_UNKNOWN_FRAGMENT = 83,
    /* A warning: the definition of a call's macro has a fault, so the call stays. */
    CUVOLEMIN_LEFT = 84,
    /* Two variables have the same name. */
    CUVOLEMIN_NAME_TWICE = 85,
    /* A repetition has a separator but never two rounds. */
    CUVOLEMIN_NEEDLESS_SEPARATOR = 86,
    /* The body of a repetition may match zero trees. */
    CUVOLEMIN_EMPTY_REPETITION = 87,
    /* No `=>` follows a pattern. */
    CUVOLEMIN_NO_ARROW = 88,
    /* No template follows `=>`. */
    CUVOLEMIN_NO_TEMPLATE = 89,
    /* A variable still repeats where it is used. */
    CUVOLEMIN_STILL_REPEATS = 90,
    /* Nothing repeats in a repetition of a template. */
    CUVOLEMIN_NOTHING_REPEATS = 91,
    /* Neither the end nor `;` follows a template. */
    CUVOLEMIN_NO_SEMICOLON = 92,
    /* A warning: a call of a macro that is built into the compiler stays. */
    CUVOLEMIN_BUILT_IN = 93,
    /* A warning: which definition of a call's macro holds depends on `#[cfg(..)]`, so the call stays. */
    CUVOLEMIN_SEVERAL_DEFINITIONS = 94,
    /* A warning: no macro of the name after `crate::` has `#[macro_export]`, so the call stays. */
    CUVOLEMIN_NOT_EXPORTED = 95,
    /* A warning: an expansion binds a name of its input, and does not keep the two apart. */
    CUVOLEMIN_CAPTURED = 96,
    /* A warning: the attributes of a call cannot apply to its expansion, so the call stays. */
    CUVOLEMIN_CONDITIONAL = 97,
    /* No arm matches the input. */
    CUVOLEMIN_NO_MATCH = 100,
    /* An arm matches the input in two ways. */
    CUVOLEMIN_AMBIGUOUS = 101,
    /* Variables of a repetition have different numbers of rounds. */
    CUVOLEMIN_LENGTHS_DIFFER = 102,
    /* A repetition that needs a round has none. */
    CUVOLEMIN_NO_ROUND = 103,
    /* Too many expansions are nested. */
    CUVOLEMIN_TOO_DEEP = 104,
    /* A leaf of the tree cannot be written as a text that reads back. */
    CUVOLEMIN_NOT_WRITABLE = 105,
    /* The text would have 4,294,967,295 bytes or more. */
    CUVOLEMIN_MADE_TOO_LONG = 106,
    /* The expansion of a call that is no statement is statements. */
    CUVOLEMIN_STATEMENTS = 107,
    /* A call and the calls in its result would write too many tokens. */
    CUVOLEMIN_OVER_MAX_TOKENS = 108,
};

#ifdef __cplusplus
}
#endif

#endif
