/* A call of each kind from C: that the header's structs, sizes and bytes are the archive's. Writes nothing and ends with 0 if all
 * holds; else says what does not. The lines whose answers are known are asked from Rust. */
#include "../millkettle.h"
#include <string.h>

int printf(const char *format, ...);

static uint8_t code[MILLKETTLE_CODE_BYTES + 4];
static uint8_t registers[MILLKETTLE_REGISTER_BYTES + 3];
static int failed = 0;

static void expect(int holds, const char *line) {
    if (!holds) {
        printf("does not hold: %s\n", line);
        failed = 1;
    }
}

static size_t length(const char *s) {
    size_t n = 0;
    while (s[n] != 0) {
        n++;
    }
    return n;
}

static void fill(uint8_t *bytes, size_t n, uint8_t value) {
    for (size_t i = 0; i < n; i++) {
        bytes[i] = value;
    }
}

static int32_t register_at(size_t i) {
    const uint8_t *b = registers + 4 * i;
    return (int32_t)((uint32_t)b[0] | (uint32_t)b[1] << 8 | (uint32_t)b[2] << 16 | (uint32_t)b[3] << 24);
}

static millkettle_compiled compile(const char *pattern) {
    return millkettle_compile((const uint8_t *)pattern, length(pattern), code, MILLKETTLE_CODE_BYTES);
}

static millkettle_ran run(int searching, const char *text, size_t start, size_t registers_len) {
    fill(registers, sizeof registers, 0x55);
    const uint8_t *bytes = (const uint8_t *)text;
    if (searching) {
        return millkettle_search(code, MILLKETTLE_CODE_BYTES, bytes, length(text), start, registers, registers_len);
    }
    return millkettle_match(code, MILLKETTLE_CODE_BYTES, bytes, length(text), start, registers, registers_len);
}

static uint32_t table[MILLKETTLE_TABLE_WORDS(2048)];
static uint32_t words[MILLKETTLE_CODE_WORDS];
static uint32_t workspace[MILLKETTLE_WORKSPACE_WORDS(1024, 15)];

/* The calls on words: every match of a* in baaac, into lists on both sides of what is needed; and the most rows. */
static void lent_words(void) {
    const uint8_t *text = (const uint8_t *)"baaac";
    int32_t list[9];
    for (size_t i = 0; i < 9; i++) list[i] = 7;
    millkettle_compiled c =
        millkettle_compile_words((const uint8_t *)"a*", 2, table, sizeof table / 4, words, MILLKETTLE_CODE_WORDS);
    expect(c.number == 0 && c.rows == 13 && words[0] == 13, "a* has 13 rows");
    millkettle_listed l =
        millkettle_search_all_words(words, MILLKETTLE_CODE_WORDS, text, 5, 0, list, 7, workspace, sizeof workspace / 4);
    expect(l.number == 25 && l.needed == 8 && l.count == 0 && list[0] == 7, "seven words are too few for four matches");
    l = millkettle_search_all_words(words, MILLKETTLE_CODE_WORDS, text, 5, 0, list, 9, workspace, sizeof workspace / 4);
    expect(l.number == 0 && l.matches == 4 && l.needed == 0 && l.count == 53, "eight are enough: 53 rows");
    const int32_t spans[9] = {0, 0, 1, 4, 4, 4, 5, 5, 7};
    for (size_t i = 0; i < 9; i++) expect(list[i] == spans[i], "0,0 1,4 4,4 5,5, and the word behind stays");
    c = millkettle_compile_tidied_words((const uint8_t *)"a{508}", 6, table, sizeof table / 4, words, MILLKETTLE_CODE_WORDS);
    expect(c.number == 0 && c.rows == 1024, "a{508} is 1,024 rows");
    millkettle_ran r =
        millkettle_search_words(words, MILLKETTLE_CODE_WORDS, text, 5, 0, list, 2, workspace, sizeof workspace / 4);
    expect(r.number == 0 && r.found == 0 && list[0] == -1 && list[1] == -1, "and not in baaac");
    r = millkettle_match_words(words, MILLKETTLE_CODE_WORDS, text, 5, 6, list, 2, workspace, sizeof workspace / 4);
    expect(r.number == 22, "from 6: refusal 22");
}

int main(void) {
    lent_words();
    fill(code, sizeof code, 0x55);
    millkettle_compiled c = compile("a|ab");
    expect(c.number == 0 && c.rows == 13 && c.groups == 0 && c.place == 0, "a|ab has 13 rows and no group");
    expect(code[0] == 13 && code[1] == 0 && code[48 * 14] == 0x55, "the first word is 13, and bytes behind the code stay");
    millkettle_ran r = run(0, "ab", 0, 11);
    expect(r.number == 0 && r.found == 1 && register_at(0) == 0 && register_at(1) == 1, "a|ab on ab: 0,1");
    expect(registers[8] == 0x55 && registers[10] == 0x55, "bytes behind the two registers stay");
    r = run(0, "ab", 0, 7);
    expect(r.number == 23 && r.found == 0 && r.count == 0 && registers[0] == 0x55, "seven bytes are one register: 23");

    c = compile("(a*)b");
    r = run(1, "caabd", 0, MILLKETTLE_REGISTER_BYTES);
    expect(c.number == 0 && c.groups == 1 && r.number == 0 && r.found == 1, "(a*)b searched in caabd: found");
    expect(register_at(0) == 1 && register_at(1) == 4 && register_at(2) == 1 && register_at(3) == 3, "1,4; 1,3");

    c = compile("a");
    r = run(1, "b", 0, MILLKETTLE_REGISTER_BYTES);
    expect(c.number == 0 && r.number == 0 && r.found == 0 && r.count == 13, "a searched in b: none, 13");
    expect(register_at(0) == MILLKETTLE_UNSET && register_at(1) == MILLKETTLE_UNSET, "on none the registers are -1");
    expect(run(0, "a", 2, MILLKETTLE_REGISTER_BYTES).number == 22, "a in a from 2: refusal 22");
    r = millkettle_match(code, MILLKETTLE_CODE_BYTES + 4, (const uint8_t *)"a", 1, 0, registers, sizeof registers);
    expect(r.number == 20 && r.place == 0 && r.count == 0, "4,660 bytes of code: refusal 20");

    c = millkettle_compile_tidied((const uint8_t *)"(?:a*)*", 7, code, MILLKETTLE_CODE_BYTES);
    expect(c.number == 0 && c.rows == 13 && c.groups == 0, "(?:a*)* tidied is a*, which has 13 rows");
    r = run(0, "aab", 0, MILLKETTLE_REGISTER_BYTES);
    expect(r.number == 0 && r.found == 1 && register_at(0) == 0 && register_at(1) == 2, "it matches 0,2 in aab");

    const uint8_t *line = (const uint8_t *)"L03 -48.25 dB";
    millkettle_field f = millkettle_read_field(line, 13, 4, 10);
    expect(f.number == 0 && f.decimals == 2 && f.place == 0 && f.value == -48.25, "-48.25 with two decimals");
    f = millkettle_read_field(line, 13, 4, 11);
    expect(f.number == 28 && f.decimals == 0 && f.place == 0 && f.value == 0.0, "a space behind it: refusal 28");
    expect(millkettle_read_field(line, 13, -1, -1).number == 28, "a group that took no part: refusal 28");
    expect(millkettle_read_field(line, 13, 4, 14).number == 28, "past the text: refusal 28");
    double none = 0.0 / 0.0, most = 1.0 / 0.0;
    millkettle_passed p = millkettle_pass(-most, -40.0, -48.25);
    expect(p.number == 0 && p.passes == 1 && p.place == 0, "-48.25 is at most -40.0");
    p = millkettle_pass(-most, -40.0, -39.0);
    expect(p.number == 0 && p.passes == 0 && p.place == 0, "-39.0 is not");
    expect(millkettle_pass(-48.25, -48.25, -48.25).passes == 1, "ends are included");
    p = millkettle_pass(-40.0, -50.0, -45.0);
    expect(p.number == 0 && p.passes == 0, "a lower limit above the upper passes nothing");
    expect(millkettle_pass(none, 0.0, 0.0).number == 29 && millkettle_pass(0.0, none, 0.0).number == 29, "no number: 29");

    c = compile("(a*)b");
    static uint32_t words[12 * 32], work[14 * 32 * 6 + 4];
    static int32_t spans[5] = {7, 7, 7, 7, 7};
    memcpy(words, code, 48 * (c.rows + 1));
    size_t needed = MILLKETTLE_SECOND_WORDS(c.rows, c.groups, 5);
    r = millkettle_second_search(words, 12 * (c.rows + 1), (const uint8_t *)"caabd", 5, 0, spans, 5, work, needed - 1);
    expect(r.number == 24 && spans[0] == 7, "the second engine with a word too few: 24");
    r = millkettle_second_search(words, 12 * (c.rows + 1), (const uint8_t *)"caabd", 5, 0, spans, 5, work, needed);
    expect(r.number == 0 && r.found == 1 && spans[0] == 1 && spans[1] == 4 && spans[2] == 1 && spans[3] == 3, "1,4; 1,3");
    expect(spans[4] == 7, "later registers stay");

    c = compile("a**");
    expect(c.number == 6 && c.place == 2 && c.rows == 0 && c.groups == 0, "a** refuses 6 at 2");
    return failed;
}
