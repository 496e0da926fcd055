/* Prints the readings of a block of a book: readings BOOK BLOCK. A reading's words are told by number, with the position where each
 * ends. readings.rs prints the same. To run it: make && target/examples/readings crates/readings/stdin 0 */
#include "orgamish.h"

#include <inttypes.h>
#include <stdio.h>
#include <stdlib.h>

#define MOST_SHOWN 20
#define BLOCK_HEAD 4 /* a block record's mark and length */

static uint8_t map[ORGAMISH_MAP_LENGTH], book[ORGAMISH_LONGEST_BOOK + 1]; /* one byte more, to see that a book is too long */
static uint16_t table[ORGAMISH_MOST_NUMBERS], states[ORGAMISH_MOST_ENTRIES], reading[ORGAMISH_LONGEST_TEXT];
static uint64_t counts[ORGAMISH_MOST_ENTRIES], told[ORGAMISH_TOLD];

static const char *const messages[] = {
    [ORGAMISH_BAD_WORD_MARK] = "a word record is due and its mark, 87 68, is not there",
    [ORGAMISH_BAD_WORD_LENGTH] = "a word has 1 to 64 letters",
    [ORGAMISH_WORD_CUT_OFF] = "the bytes end inside a word record",
    [ORGAMISH_TOO_MANY_WORDS] = "a dictionary has at most 256 words",
    [ORGAMISH_TOO_MANY_LETTERS] = "a dictionary's words have at most 2,047 letters in all",
    [ORGAMISH_REPEATED_WORD] = "the word equals an earlier one",
    [ORGAMISH_TEXT_TOO_LONG] = "a text has at most 4,096 letters",
    [ORGAMISH_BAD_BLOCK] = "a block record is due and is not there, or not whole",
    [ORGAMISH_BOOK_TOO_LONG] = "a book has at most 65,536 bytes",
};

static void print_refusal(uint16_t number) {
    if (number != ORGAMISH_BOOK_TOO_LONG)
        printf("record %" PRIu64 ": ", told[0]);
    printf("%s\n", messages[number]);
}

/* A word's length is the depth of its state. */
static size_t word_length(uint16_t word) {
    const uint16_t *row = table;
    while (row[ORGAMISH_WORD] != word)
        row += ORGAMISH_WIDTH;
    return row[ORGAMISH_DEPTH];
}

static void print_reading(int number, uint64_t words) {
    size_t end = 0;
    printf("reading %d:", number);
    for (uint64_t i = 0; i < words; i++) {
        end += word_length(reading[i]);
        printf("%s %u to %zu", i == 0 ? "" : ",", (unsigned)reading[i], end);
    }
    printf("\n");
}

/* Book and block are checked, so nothing is refused but first where there is no reading: it tells 0 then. */
static void print_readings(size_t words_len, const uint8_t *text, size_t len) {
    orgamish_build(map, sizeof map, book, words_len, table, ORGAMISH_MOST_NUMBERS, told);
    orgamish_scan(map, sizeof map, book, words_len, table, ORGAMISH_MOST_NUMBERS, text, len, states, ORGAMISH_MOST_ENTRIES, counts,
                  ORGAMISH_MOST_ENTRIES, told);
    uint64_t left = told[3];
    printf("readings %" PRIu64 "%s, farthest %" PRIu64 "\n", left, left == ORGAMISH_MOST_COUNTED ? " or more" : "", told[2]);
    orgamish_first(map, sizeof map, book, words_len, table, ORGAMISH_MOST_NUMBERS, text, len, states, ORGAMISH_MOST_ENTRIES, counts,
                   ORGAMISH_MOST_ENTRIES, reading, ORGAMISH_LONGEST_TEXT, told);
    for (int shown = 0; told[1] == 1 && shown < MOST_SHOWN; shown++, left--) {
        print_reading(shown, told[2]);
        orgamish_next(map, sizeof map, book, words_len, table, ORGAMISH_MOST_NUMBERS, text, len, states, ORGAMISH_MOST_ENTRIES,
                      counts, ORGAMISH_MOST_ENTRIES, reading, ORGAMISH_LONGEST_TEXT, told[2], told);
    }
    if (left > 0)
        printf("and %" PRIu64 " more\n", left);
}

int main(int argc, char **argv) {
    FILE *file = argc == 3 ? fopen(argv[1], "rb") : NULL;
    if (file == NULL) {
        printf("usage: readings BOOK BLOCK\n");
        return EXIT_FAILURE;
    }
    size_t book_len = fread(book, 1, sizeof book, file);
    fclose(file);
    orgamish_identity(map);
    uint16_t number = orgamish_check_book(map, sizeof map, book, book_len, told);
    if (number != ORGAMISH_OK) {
        print_refusal(number);
        return EXIT_FAILURE;
    }
    orgamish_block(map, sizeof map, book, book_len, strtoul(argv[2], NULL, 10), told);
    size_t text_at = told[1], text_len = told[2];
    if (text_at == 0) {
        printf("there is no block %s\n", argv[2]);
        return EXIT_FAILURE;
    }
    orgamish_block(map, sizeof map, book, book_len, 0, told);
    print_readings(told[1] - BLOCK_HEAD, book + text_at, text_len);
    return EXIT_SUCCESS;
}
