/*
 * Orgamish: is a block a concatenation of dictionary words, how many readings has it, which are they, in order, and where does each
 * word end. Every call below is proved to meet its contract for every input (README.md, "What is proved").
 *
 * What all calls but orgamish_identity have in common
 *
 * - The result is a refusal number, 0 (ORGAMISH_OK) for none. Five numbers are written to `told`: told[0] is the refusal's place, 0
 *   where there is none; told[1] to told[4] are the values, 0 where a call has fewer or refuses. Each call says its values, in order.
 * - A call's refusals are listed in the order of the tests; the first that applies is told. Records are tested one by one: a word record
 *   for 1, 3 (no length byte), 2, 3 (letters cut off), 4, 5, 6; a block record for 15 (mark and length), 9, 15 (text cut off).
 * - The place is the record's number, counted from 0 over all records, for 1 to 6, 15, and 9 in a book; it is 0 otherwise.
 * - A refusal writes nothing but `told`. What lies past the numbers that a call writes stays as it was. A longer map is refused; longer
 *   tables, columns and buffers than needed are no fault.
 * - A length counts elements, not bytes. Every input is taken: no length, byte or number that is passed makes a call fail otherwise than
 *   by its refusal number. What a caller owes is C's own: a pointer points to so many elements, is aligned, and is not null, even where
 *   the length is 0; memory that a call writes (`told` too) overlaps no other argument's, and nothing else writes it meanwhile.
 * - No call keeps a pointer, allocates or has state. Calls may run in parallel, each on its own written memory; what is only read may
 *   be shared.
 * - A call takes at most ORGAMISH_STACK bytes of stack; jump, first and next the most, for a reading of 4,096 words, the others far less
 *   (measured: tests/run prints what each takes).
 *
 * The arguments
 *
 * - map: 256 numbers, one for each byte; two letters are the same where the map gives them the same number (orgamish_identity).
 * - dict: word records and nothing else: 87 68, a length byte (1 to 64), the letters. A book: word records, then block records: 84 66,
 *   the text's length in two bytes, the lower first, the text.
 * - table: eight numbers a state (ORGAMISH_WIDTH); narrow: seven (ORGAMISH_NARROW_WIDTH). ORGAMISH_MOST_NUMBERS is room for any table.
 * - states, counts: the columns of a text, one entry more than it has letters.
 * - reading: word numbers, counted from 0. A reading has at most as many words as its text has letters.
 */
#ifndef ORGAMISH_H
#define ORGAMISH_H

#include <stddef.h>
#include <stdint.h>

#ifdef __cplusplus
extern "C" {
#endif

/* Limits. */
#define ORGAMISH_MAP_LENGTH 256
#define ORGAMISH_LONGEST_WORD 64
#define ORGAMISH_MOST_WORDS 256
#define ORGAMISH_MOST_LETTERS 2047
#define ORGAMISH_LONGEST_TEXT 4096
#define ORGAMISH_LONGEST_BOOK 65536
#define ORGAMISH_MOST_STATES 2048
#define ORGAMISH_WIDTH 8
#define ORGAMISH_NARROW_WIDTH 7
#define ORGAMISH_MOST_NUMBERS 16384
#define ORGAMISH_MOST_ENTRIES 4097 /* of a column: ORGAMISH_LONGEST_TEXT + 1 */
#define ORGAMISH_MOST_COUNTED UINT64_MAX /* that many readings or more */
#define ORGAMISH_TOLD 5 /* numbers in told */
#define ORGAMISH_STACK 589824 /* bytes */

/* The numbers of a table's row, in order; ORGAMISH_NONE stands for none. */
#define ORGAMISH_LETTER 0
#define ORGAMISH_CHILD 1
#define ORGAMISH_SIBLING 2
#define ORGAMISH_DEPTH 3
#define ORGAMISH_WORD 4
#define ORGAMISH_BORDER 5
#define ORGAMISH_LINK 6
#define ORGAMISH_CHAIN 7 /* not in a narrow row */
#define ORGAMISH_NONE 65535

/* Refusals. */
#define ORGAMISH_OK 0
#define ORGAMISH_BAD_WORD_MARK 1
#define ORGAMISH_BAD_WORD_LENGTH 2
#define ORGAMISH_WORD_CUT_OFF 3
#define ORGAMISH_TOO_MANY_WORDS 4
#define ORGAMISH_TOO_MANY_LETTERS 5
#define ORGAMISH_REPEATED_WORD 6
#define ORGAMISH_TABLE_TOO_SHORT 7
#define ORGAMISH_OTHER_TABLE 8
#define ORGAMISH_TEXT_TOO_LONG 9
#define ORGAMISH_COLUMN_TOO_SHORT 10
#define ORGAMISH_OTHER_COLUMNS 11
#define ORGAMISH_NO_READING 12
#define ORGAMISH_NOT_A_READING 13
#define ORGAMISH_BUFFER_TOO_SHORT 14
#define ORGAMISH_BAD_BLOCK 15
#define ORGAMISH_BOOK_TOO_LONG 16
#define ORGAMISH_BAD_MAP 18
#define ORGAMISH_NO_SUCH_READING 21
#define ORGAMISH_COUNT_NOT_EXACT 22

/* Tells nothing. Writes the map that sends each byte to itself. */
void orgamish_identity(uint8_t map[ORGAMISH_MAP_LENGTH]);

/* Tells words, states, and the length r of the longest chain (how many words end at one place at most). Writes eight numbers a state to
 * table. Refuses 18, 1 to 6, 7. */
uint16_t orgamish_build(const uint8_t *map, size_t map_len, const uint8_t *dict, size_t dict_len, uint16_t *table, size_t table_len,
                        uint64_t told[ORGAMISH_TOLD]);

/* A table stored with seven numbers a state is written with eight. Tells what build tells. Writes table. Refuses 18, 1 to 6, 7 and 8 for
 * narrow, then 7 for table. */
uint16_t orgamish_widen(const uint8_t *map, size_t map_len, const uint8_t *dict, size_t dict_len, const uint16_t *narrow,
                        size_t narrow_len, uint16_t *table, size_t table_len, uint64_t told[ORGAMISH_TOLD]);

/* The other way round. Writes narrow. Refuses 18, 1 to 6, 7 and 8 for table, then 7 for narrow. */
uint16_t orgamish_narrow(const uint8_t *map, size_t map_len, const uint8_t *dict, size_t dict_len, const uint16_t *table,
                         size_t table_len, uint16_t *narrow, size_t narrow_len, uint64_t told[ORGAMISH_TOLD]);

/* Tells whether the text is accepted (1 or 0), farthest (the length of its longest prefix that some concatenation of words begins with),
 * the count of its readings (ORGAMISH_MOST_COUNTED for that many or more), and the probes (the places where a word ends, each as often
 * as words end there). Writes text_len + 1 entries of states and of counts. Refuses 18, 1 to 6, 7, 8, 9, 10. */
uint16_t orgamish_scan(const uint8_t *map, size_t map_len, const uint8_t *dict, size_t dict_len, const uint16_t *table,
                       size_t table_len, const uint8_t *text, size_t text_len, uint16_t *states, size_t states_len, uint64_t *counts,
                       size_t counts_len, uint64_t told[ORGAMISH_TOLD]);

/* The first reading. Tells 1 and the number of its words. Writes them to reading. Refuses as scan, 11, 12, 14. */
uint16_t orgamish_first(const uint8_t *map, size_t map_len, const uint8_t *dict, size_t dict_len, const uint16_t *table,
                        size_t table_len, const uint8_t *text, size_t text_len, const uint16_t *states, size_t states_len,
                        const uint64_t *counts, size_t counts_len, uint16_t *reading, size_t reading_len,
                        uint64_t told[ORGAMISH_TOLD]);

/* The reading after the one that the first `given` entries of reading are. Tells 1 and the number of its words, and writes them over the
 * given ones; or tells 0 where the given one is the last, and writes nothing. Refuses as scan, 11, 13, 14. */
uint16_t orgamish_next(const uint8_t *map, size_t map_len, const uint8_t *dict, size_t dict_len, const uint16_t *table,
                       size_t table_len, const uint8_t *text, size_t text_len, const uint16_t *states, size_t states_len,
                       const uint64_t *counts, size_t counts_len, uint16_t *reading, size_t reading_len, size_t given,
                       uint64_t told[ORGAMISH_TOLD]);

/* Reading n, counted from 0 in the order of first and next. Tells 1 and the number of its words. Writes them to reading. Refuses as
 * scan, 11, 22, 21, 14. */
uint16_t orgamish_jump(const uint8_t *map, size_t map_len, const uint8_t *dict, size_t dict_len, const uint16_t *table,
                       size_t table_len, const uint8_t *text, size_t text_len, const uint16_t *states, size_t states_len,
                       const uint64_t *counts, size_t counts_len, uint16_t *reading, size_t reading_len, uint64_t n,
                       uint64_t told[ORGAMISH_TOLD]);

/* The other way round. Tells the number n of the reading that the first `given` entries of reading are. Writes nothing else. Refuses as
 * scan, 11, 22, 13. */
uint16_t orgamish_place(const uint8_t *map, size_t map_len, const uint8_t *dict, size_t dict_len, const uint16_t *table,
                        size_t table_len, const uint8_t *text, size_t text_len, const uint16_t *states, size_t states_len,
                        const uint64_t *counts, size_t counts_len, const uint16_t *reading, size_t reading_len, size_t given,
                        uint64_t told[ORGAMISH_TOLD]);

/* Tells the words and the blocks of a book. Writes nothing else. Refuses 18, 16, then the records: 1 to 6, 9,
 * 15. */
uint16_t orgamish_check_book(const uint8_t *map, size_t map_len, const uint8_t *book, size_t book_len, uint64_t told[ORGAMISH_TOLD]);

/* Tells the offset in the book of block n's text, and its length. Refuses nothing: the offset is 0, and so is the length, where there is
 * no such block, or the book or the map is refused; the text of a block never stands at offset 0. The word part of a book, to pass as
 * dict, ends where block 0's record begins, four bytes before its text; without a block it is the whole book. */
uint16_t orgamish_block(const uint8_t *map, size_t map_len, const uint8_t *book, size_t book_len, size_t n,
                        uint64_t told[ORGAMISH_TOLD]);

#ifdef __cplusplus
}
#endif

#endif
