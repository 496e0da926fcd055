/* Every call with the words a and aa and the text aa, each refusal that is short to ask for, and document 01's book, whose file is
 * named on the command line: the result, the five told numbers, and what is written. */
#include "orgamish.h"

#include <inttypes.h>
#include <stdio.h>
#include <stdlib.h>
#include <string.h>

#define N ORGAMISH_NONE
#define LEFT 7777 /* fills memory that is to be written: it stays past what a call writes */

static const uint8_t dict[] = {87, 68, 1, 97, 87, 68, 2, 97, 97};
static const uint16_t right_table[] = {N, 1, N, 0, N, N, N, 0, 97, 2, N, 1, 0, 0, N, 1, 97, N, N, 2, 1, 1, 1, 2, LEFT};
static const uint16_t right_narrow[] = {N, 1, N, 0, N, N, N, 97, 2, N, 1, 0, 0, N, 97, N, N, 2, 1, 1, 1, LEFT};
static const uint16_t right_states[] = {0, 1, 2, LEFT};
static const uint64_t right_counts[] = {1, 1, 2, LEFT};
static const uint8_t *const text = (const uint8_t *)"aa";

static uint8_t map[ORGAMISH_MAP_LENGTH];
static uint16_t table[25], narrow[22], states[ORGAMISH_MOST_ENTRIES], reading[3];
static uint64_t counts[ORGAMISH_MOST_ENTRIES], told[ORGAMISH_TOLD];
static int tests, failures;

static void check(int right, const char *what) {
    tests++;
    failures += !right;
    if (!right)
        printf("calls: %s\n", what);
}

/* What a call gave back and told. Five other numbers stand in told before the next call. */
static void tells(const char *call, uint16_t got, uint16_t refusal, uint64_t place, uint64_t a, uint64_t b, uint64_t c,
                  uint64_t d) {
    const uint64_t right[ORGAMISH_TOLD] = {place, a, b, c, d};
    check(got == refusal && memcmp(told, right, sizeof right) == 0, call);
    memset(told, 1, sizeof told);
}

static void refuses(const char *call, uint16_t got, uint16_t refusal, uint64_t place) {
    tells(call, got, refusal, place, 0, 0, 0, 0);
}

static void fill(uint16_t *numbers, size_t length) {
    for (size_t i = 0; i < length; i++)
        numbers[i] = LEFT;
}

static void test_tables(void) {
    fill(table, 25);
    refuses("build, short", orgamish_build(map, 256, dict, 9, table, 23, told), ORGAMISH_TABLE_TOO_SHORT, 0);
    check(table[0] == LEFT, "build, short: writes nothing");
    tells("build", orgamish_build(map, 256, dict, 9, table, 25, told), 0, 0, 2, 3, 2, 0);
    check(memcmp(table, right_table, sizeof table) == 0, "build: table");
    fill(narrow, 22);
    tells("narrow", orgamish_narrow(map, 256, dict, 9, table, 25, narrow, 22, told), 0, 0, 2, 3, 2, 0);
    check(memcmp(narrow, right_narrow, sizeof narrow) == 0, "narrow: narrow table");
    fill(table, 25);
    tells("widen", orgamish_widen(map, 256, dict, 9, narrow, 22, table, 25, told), 0, 0, 2, 3, 2, 0);
    check(memcmp(table, right_table, sizeof table) == 0, "widen: table");
    refuses("widen, other", orgamish_widen(map, 256, dict, 9, table, 25, narrow, 22, told), ORGAMISH_OTHER_TABLE, 0);
    refuses("narrow, short", orgamish_narrow(map, 256, dict, 9, narrow, 22, table, 25, told), ORGAMISH_TABLE_TOO_SHORT, 0);
}

static void test_dictionaries(void) {
    static const uint8_t block[] = {87, 68, 1, 97, 84, 66, 0, 0}, empty[] = {87, 68, 0}, twice[] = {87, 68, 1, 97, 87, 68, 1, 97};
    refuses("build, map", orgamish_build(map, 255, dict, 9, table, 25, told), ORGAMISH_BAD_MAP, 0);
    refuses("build, block", orgamish_build(map, 256, block, 8, table, 25, told), ORGAMISH_BAD_WORD_MARK, 1);
    refuses("build, empty word", orgamish_build(map, 256, empty, 3, table, 25, told), ORGAMISH_BAD_WORD_LENGTH, 0);
    refuses("build, cut off", orgamish_build(map, 256, dict, 8, table, 25, told), ORGAMISH_WORD_CUT_OFF, 1);
    refuses("build, twice", orgamish_build(map, 256, twice, 8, table, 25, told), ORGAMISH_REPEATED_WORD, 1);
    check(memcmp(table, right_table, sizeof table) == 0, "build, refused: table");
}

static uint16_t scan(const uint8_t *letters, size_t len, size_t states_len, size_t counts_len) {
    return orgamish_scan(map, 256, dict, 9, table, 25, letters, len, states, states_len, counts, counts_len, told);
}

static uint16_t first(const uint8_t *letters, size_t len, size_t room) {
    return orgamish_first(map, 256, dict, 9, table, 25, letters, len, states, 4, counts, 4, reading, room, told);
}

static uint16_t next(size_t room, size_t given) {
    return orgamish_next(map, 256, dict, 9, table, 25, text, 2, states, 4, counts, 4, reading, room, given, told);
}

static uint16_t jump(size_t room, uint64_t n) {
    return orgamish_jump(map, 256, dict, 9, table, 25, text, 2, states, 4, counts, 4, reading, room, n, told);
}

static uint16_t place(size_t given) {
    return orgamish_place(map, 256, dict, 9, table, 25, text, 2, states, 4, counts, 4, reading, 3, given, told);
}

static void reads(const char *call, uint16_t a, uint16_t b, uint16_t c) {
    check(reading[0] == a && reading[1] == b && reading[2] == c, call);
}

static void test_scan(void) {
    static const uint8_t long_text[ORGAMISH_LONGEST_TEXT + 1];
    refuses("scan, long", scan(long_text, sizeof long_text, 4, 4), ORGAMISH_TEXT_TOO_LONG, 0);
    refuses("scan, states", scan(text, 2, 2, 4), ORGAMISH_COLUMN_TOO_SHORT, 0);
    refuses("scan, counts", scan(text, 2, 4, 2), ORGAMISH_COLUMN_TOO_SHORT, 0);
    states[3] = LEFT;
    counts[3] = LEFT;
    tells("scan", scan(text, 2, 4, 4), 0, 0, 1, 2, 2, 3);
    check(memcmp(states, right_states, sizeof right_states) == 0, "scan: states");
    check(memcmp(counts, right_counts, sizeof right_counts) == 0, "scan: counts");
}

static void test_readings(void) {
    fill(reading, 3);
    refuses("first, short", first(text, 2, 0), ORGAMISH_BUFFER_TOO_SHORT, 0);
    refuses("first, other text", first((const uint8_t *)"ab", 2, 3), ORGAMISH_OTHER_COLUMNS, 0);
    tells("first", first(text, 2, 3), 0, 0, 1, 1, 0, 0);
    reads("first: reading", 1, LEFT, LEFT);
    refuses("next, short", next(1, 1), ORGAMISH_BUFFER_TOO_SHORT, 0);
    refuses("next, not given", next(3, 0), ORGAMISH_NOT_A_READING, 0);
    tells("next", next(3, 1), 0, 0, 1, 2, 0, 0);
    reads("next: reading", 0, 0, LEFT);
    tells("next, the last", next(3, 2), 0, 0, 0, 0, 0, 0);
    tells("place", place(2), 0, 0, 1, 0, 0, 0);
    refuses("place, not given", place(4), ORGAMISH_NOT_A_READING, 0);
    refuses("jump, too far", jump(3, 2), ORGAMISH_NO_SUCH_READING, 0);
    refuses("jump, short", jump(1, 1), ORGAMISH_BUFFER_TOO_SHORT, 0);
    reads("refused or the last: reading", 0, 0, LEFT);
    tells("jump", jump(3, 0), 0, 0, 1, 1, 0, 0);
    reads("jump: reading", 1, 0, LEFT);
}

/* Of no reading, and of too many. */
static void test_counts(void) {
    uint8_t many[93];
    memset(many, 97, sizeof many);
    tells("scan, 93 letters", scan(many, 93, 94, 94), 0, 0, 1, 93, ORGAMISH_MOST_COUNTED, 92 + 93);
    refuses("jump, 93 letters",
            orgamish_jump(map, 256, dict, 9, table, 25, many, 93, states, 94, counts, 94, reading, 3, 0, told),
            ORGAMISH_COUNT_NOT_EXACT, 0);
    refuses("place, 93 letters",
            orgamish_place(map, 256, dict, 9, table, 25, many, 93, states, 94, counts, 94, reading, 3, 0, told),
            ORGAMISH_COUNT_NOT_EXACT, 0);
    tells("scan, b", scan((const uint8_t *)"b", 1, 4, 4), 0, 0, 0, 0, 0, 0);
    refuses("first, b", first((const uint8_t *)"b", 1, 3), ORGAMISH_NO_READING, 0);
}

static void test_book(const char *name) {
    static uint8_t book[ORGAMISH_LONGEST_BOOK + 1];
    FILE *file = fopen(name, "rb");
    size_t len = file == NULL ? 0 : fread(book, 1, sizeof book, file);
    check(file != NULL && fclose(file) == 0, "the book is read");
    tells("check_book", orgamish_check_book(map, 256, book, len, told), 0, 0, 5, 4, 0, 0);
    tells("block 0", orgamish_block(map, 256, book, len, 0, told), 0, 0, 36, 6, 0, 0);
    tells("block 1", orgamish_block(map, 256, book, len, 1, told), 0, 0, 46, 0, 0, 0);
    tells("block 4", orgamish_block(map, 256, book, len, 4, told), 0, 0, 0, 0, 0, 0);
    tells("block 0, map", orgamish_block(map, 255, book, len, 0, told), 0, 0, 0, 0, 0, 0);
    tells("block 0, cut off", orgamish_block(map, 256, book, len - 1, 0, told), 0, 0, 0, 0, 0, 0);
    refuses("check_book, cut off", orgamish_check_book(map, 256, book, len - 1, told), ORGAMISH_BAD_BLOCK, 8);
    refuses("check_book, long", orgamish_check_book(map, 256, book, sizeof book, told), ORGAMISH_BOOK_TOO_LONG, 0);
    book[34] = 1;
    book[35] = 16;
    refuses("check_book, 4097", orgamish_check_book(map, 256, book, len, told), ORGAMISH_TEXT_TOO_LONG, 5);
}

static void test_identity(void) {
    int right = 0;
    orgamish_identity(map);
    for (int byte = 0; byte < ORGAMISH_MAP_LENGTH; byte++)
        right += map[byte] == byte;
    check(right == ORGAMISH_MAP_LENGTH, "identity");
}

int main(int argc, char **argv) {
    test_identity();
    test_tables();
    test_dictionaries();
    test_scan();
    test_readings();
    test_counts();
    test_book(argc == 2 ? argv[1] : "");
    printf("calls: %d of %d passed\n", tests - failures, tests);
    return failures == 0 ? EXIT_SUCCESS : EXIT_FAILURE;
}
