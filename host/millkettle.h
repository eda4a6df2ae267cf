/* Millkettle for C and for whatever speaks C: a regular-expression matcher whose every promise is proved.
 *
 * There are two sets of calls. Those on bytes are in target/staticlib/libhost.a, have the intake program's sizes and
 * bring their own memory; those on words (`.._words`) are in target/staticlib/libengine_c.a, have the library's own
 * limits, and all memory is lent. `host/archives` proves them and writes them for x86-64 Linux; link one or both. Of C
 * they need memcpy, memmove and memset and nothing else: no heap, no file, no global state, so calls may run at the
 * same time on memory of their own.
 *
 * On bytes, words are passed four bytes to a word, low byte first; a register is a signed word in two's complement.
 * Where a slice's length is no multiple of four, the bytes behind its last whole word are neither read nor written.
 *
 * A call on bytes takes some 40 KB of stack, most of it for the table, the code and the workspace inside.
 *
 * Every content of the slices is safe, and every call ends. What is left to the caller is C's own: a pointer is not
 * NULL, also where its length is 0; the bytes that it lends with its length are there; and no slice that a call may
 * write overlaps another of that call.
 *
 * docs/01-scope.md has the rules word by word, with the numbers of the refusals.
 */
#ifndef MILLKETTLE_H
#define MILLKETTLE_H

#include <stddef.h>
#include <stdint.h>

#ifdef __cplusplus
extern "C" {
#endif

/* Code that has room for any program that the calls below accept: 1,164 words. More is never written, and a run
 * refuses more. */
#define MILLKETTLE_CODE_BYTES 4656

/* Registers that are enough for any code: a start and an end for the whole match and for each of 31 groups. */
#define MILLKETTLE_REGISTER_BYTES 256

/* A register of a group that took no part, and of all groups on none. */
#define MILLKETTLE_UNSET (-1)

/* What compiling answers. */
typedef struct {
    uint32_t number; /* 0, or the number of the refusal: 1 to 16 */
    uint32_t rows;   /* how many rows the code has; 0 if refused */
    uint32_t groups; /* how many groups the pattern has; 0 if refused */
    size_t place;    /* the refusal's place in the pattern; 0 if not refused */
} millkettle_compiled;

/* What a run answers. */
typedef struct {
    uint32_t number; /* 0, or the number of the refusal: 20 to 24 */
    uint32_t found;  /* 1 found; 0 none, or refused */
    size_t place;    /* 0: a refused run has no other place */
    uint64_t count;  /* how many rows were executed: at most 2 * rows at each position; 0 if refused */
} millkettle_ran;

/* What reading a field answers. */
typedef struct {
    uint32_t number;   /* 0, or the number of the refusal: 28 */
    uint32_t decimals; /* how many digits stood behind the point; 0 if refused */
    size_t place;      /* 0: a refused span has no other place */
    double value;      /* the float nearest to the number, -0.0 behind a minus; 0.0 if refused */
} millkettle_field;

/* What a gate answers. */
typedef struct {
    uint32_t number; /* 0, or the number of the refusal: 29 */
    uint32_t passes; /* 1 passes; 0 stopped, or refused */
    size_t place;    /* 0: a refused gate has no other place */
} millkettle_passed;

/* Compiles a pattern into code. Not refused, the first 48 * (rows + 1) bytes of code are the code; later bytes stay.
 * Refused, all stay. 2 refuses patterns of 129 to 2,048 bytes, 1 longer ones; 16 refuses 12 * (rows + 1) words that
 * are more than the whole words of code_len, or more than 1,164. */
millkettle_compiled millkettle_compile(const uint8_t *pattern, size_t pattern_len, uint8_t *code, size_t code_len);

/* The same for the tidied pattern, which answers as the plain one does on every text and has no more rows. Refusals
 * are those of the plain pattern, but 16 is by the tidied pattern's rows. */
millkettle_compiled millkettle_compile_tidied(const uint8_t *pattern, size_t pattern_len, uint8_t *code, size_t code_len);

/* Matches at position start of the text. Not refused, the first 8 * (groups + 1) bytes of registers are the start and
 * the end of the match and of each group, or all -1 on none; later bytes stay. Refused, all stay. 20 refuses code of
 * more than 1,164 words whatever it says; 24 refuses 16 * rows * (groups + 2) of more than 8,000. */
millkettle_ran millkettle_match(const uint8_t *code, size_t code_len, const uint8_t *text, size_t text_len, size_t start,
                                uint8_t *registers, size_t registers_len);

/* The same for the first position from start on at which the pattern matches. */
millkettle_ran millkettle_search(const uint8_t *code, size_t code_len, const uint8_t *text, size_t text_len, size_t start,
                                 uint8_t *registers, size_t registers_len);

/* ---- on words: lengths are numbers of words, and of bytes for a pattern or a text */

/* Words that are enough for any pattern of so many bytes, for any program, and for any run of so many rows and groups. */
#define MILLKETTLE_TABLE_WORDS(pattern_len) (32 * ((size_t)(pattern_len) + 1))
#define MILLKETTLE_CODE_WORDS ((size_t)12300)
#define MILLKETTLE_WORKSPACE_WORDS(rows, groups) (16 * (size_t)(rows) * ((size_t)(groups) + 2))

/* What a call for every match answers. */
typedef struct {
    uint32_t number; /* 0, or the number of the refusal: 20, 21, 22, 24 or 25 */
    size_t place;    /* 0: a refusal has no other place */
    size_t matches;  /* how many matches there are; 0 if refused */
    size_t needed;   /* with 25, how many words the list needs; else 0 */
    uint64_t count;  /* how many rows all runs executed together; 0 if refused */
} millkettle_listed;

/* Compiles a pattern of at most 2,048 bytes and 1,024 rows. Not refused, the first 12 * (rows + 1) words of code are the
 * code, and later words stay; refused, all stay. 1 to 3 leave the table, 4 to 16 set all of it to zero. */
millkettle_compiled millkettle_compile_words(const uint8_t *pattern, size_t pattern_len, uint32_t *table, size_t table_len,
                                             uint32_t *code, size_t code_len);

/* The same for the tidied pattern. */
millkettle_compiled millkettle_compile_tidied_words(const uint8_t *pattern, size_t pattern_len, uint32_t *table,
                                                    size_t table_len, uint32_t *code, size_t code_len);

/* Matches at position start of the text, or searches from it on. Not refused, the first 2 * (groups + 1) registers are
 * starts and ends, or all -1 on none, and later ones stay; the first 16 * rows * (groups + 2) words of the workspace may
 * change, later ones stay. Refused, all stays. */
millkettle_ran millkettle_match_words(const uint32_t *code, size_t code_len, const uint8_t *text, size_t text_len,
                                      size_t start, int32_t *registers, size_t registers_len, uint32_t *workspace,
                                      size_t workspace_len);
millkettle_ran millkettle_search_words(const uint32_t *code, size_t code_len, const uint8_t *text, size_t text_len,
                                       size_t start, int32_t *registers, size_t registers_len, uint32_t *workspace,
                                       size_t workspace_len);

/* Finds every match from start on, in order, as repeated execution with the global flag does: the list then begins with
 * 2 * (groups + 1) words for each match, and later words stay. 25 refuses a list of fewer words, which stays, and says
 * how many are needed. A list for text_len - start + 1 matches is never too short, and needs one pass over the text and
 * not two. The count of all runs, and the time, can grow with the square of the text's length. */
millkettle_listed millkettle_search_all_words(const uint32_t *code, size_t code_len, const uint8_t *text, size_t text_len,
                                              size_t start, int32_t *list, size_t list_len, uint32_t *workspace,
                                              size_t workspace_len);

/* Reads the span of a text from start to end, two registers as they stand, as a number: an optional minus, one or more
 * digits, optionally a point and one or more digits, 15 digits at most in all. 28 refuses any other span, also -1 and -1,
 * a reversed one and one past the text. The value is the digits as a whole number divided once by a power of ten. */
millkettle_field millkettle_read_field(const uint8_t *text, size_t text_len, int32_t start, int32_t end);

/* Whether a value is at least low and at most high, both included. With -INFINITY as low it is a gate that says at most,
 * with INFINITY as high one that says at least. 29 refuses a limit that is no number. With low above high nothing passes,
 * nor does a value that is no number. */
millkettle_passed millkettle_pass(double low, double high, double value);

/* The longest text that the second engine takes, and the workspace words that it needs for a text of so many bytes. */
#define MILLKETTLE_SECOND_TEXT_BYTES 4096
#define MILLKETTLE_SECOND_WORDS(rows, groups, text_len) \
    ((size_t)(rows) * (4 * (size_t)(groups) + 10) * ((size_t)(text_len) + 1) + 2 * ((size_t)(groups) + 1))

/* A second opinion on millkettle_match, by a plain backtracking matcher: the same answer and registers; the count is its
 * own. Code, registers and workspace are lent as words, in this machine's own order, with lengths in words. Not refused,
 * the first 2 * (groups + 1) registers are written and later ones stay, and workspace words behind those needed stay.
 * Refused, all stay: 21 refuses texts over 4,096 bytes, 24 fewer words than MILLKETTLE_SECOND_WORDS. */
millkettle_ran millkettle_second_match(const uint32_t *code, size_t code_len, const uint8_t *text, size_t text_len,
                                       size_t start, int32_t *registers, size_t registers_len, uint32_t *workspace,
                                       size_t workspace_len);

/* The same for the first position from start on at which the pattern matches. */
millkettle_ran millkettle_second_search(const uint32_t *code, size_t code_len, const uint8_t *text, size_t text_len,
                                        size_t start, int32_t *registers, size_t registers_len, uint32_t *workspace,
                                        size_t workspace_len);

#ifdef __cplusplus
}
#endif

#endif
