/* How much stack each call takes at its deepest, on a thread's stack that is painted first; no call may take more than the header says, and
 * those that go no deeper with a longer reading take far less than the others: two thirds at most. Where the lent table has not room for
 * every table, one is made beside it and copied. */
#define _POSIX_C_SOURCE 200809L
#include "orgamish.h"

#include <pthread.h>
#include <stdio.h>
#include <stdlib.h>
#include <string.h>

#define STACK ((size_t)4 << 20)
#define PAINT 0xA5

/* Each letter a word, and a text of that letter: the reading with the most words. aab, whose only other reading is a a b, so that next
 * writes from the first word on. */
static const uint8_t one[] = {87, 68, 1, 'a'}, three[] = {87, 68, 1, 'a', 87, 68, 3, 'a', 'a', 'b', 87, 68, 1, 'b'};
static uint8_t map[ORGAMISH_MAP_LENGTH], all_a[ORGAMISH_LONGEST_TEXT], then_b[ORGAMISH_LONGEST_TEXT];
static uint16_t table[ORGAMISH_MOST_NUMBERS], narrow[ORGAMISH_MOST_NUMBERS], states[ORGAMISH_MOST_ENTRIES], reading[ORGAMISH_LONGEST_TEXT];
static uint64_t counts[ORGAMISH_MOST_ENTRIES], told[ORGAMISH_TOLD];

#define MAP map, sizeof map
#define TABLE table, ORGAMISH_MOST_NUMBERS
#define NARROW narrow, ORGAMISH_MOST_NUMBERS
#define COLUMNS states, ORGAMISH_MOST_ENTRIES, counts, ORGAMISH_MOST_ENTRIES
#define READING reading, ORGAMISH_LONGEST_TEXT
#define ONE MAP, one, sizeof one
#define ONE_STATES 2
#define THREE MAP, three, sizeof three
#define ALL_A all_a, sizeof all_a
#define THEN_B then_b, sizeof then_b

static void nothing(void) {}
static void build(void) { orgamish_build(ONE, TABLE, told); }
static void to_narrow(void) { orgamish_narrow(ONE, TABLE, NARROW, told); }
static void widen(void) { orgamish_widen(ONE, NARROW, TABLE, told); }
static void build_copied(void) { orgamish_build(ONE, table, ONE_STATES * ORGAMISH_WIDTH, told); }
static void to_narrow_copied(void) { orgamish_narrow(ONE, TABLE, narrow, ONE_STATES * ORGAMISH_NARROW_WIDTH, told); }
static void widen_copied(void) { orgamish_widen(ONE, NARROW, table, ONE_STATES * ORGAMISH_WIDTH, told); }
static void scan(void) { orgamish_scan(ONE, TABLE, ALL_A, COLUMNS, told); }
static void first(void) { orgamish_first(ONE, TABLE, ALL_A, COLUMNS, READING, told); }
static void jump(void) { orgamish_jump(ONE, TABLE, ALL_A, COLUMNS, READING, 0, told); }
static void place(void) { orgamish_place(ONE, TABLE, ALL_A, COLUMNS, READING, ORGAMISH_LONGEST_TEXT, told); }
static void check_book(void) { orgamish_check_book(ONE, told); }
static void block(void) { orgamish_block(ONE, 0, told); }

static void build_three(void) { orgamish_build(THREE, TABLE, told); }
static void scan_three(void) { orgamish_scan(THREE, TABLE, THEN_B, COLUMNS, told); }
static void first_three(void) { orgamish_first(THREE, TABLE, THEN_B, COLUMNS, READING, told); }
static void next(void) { orgamish_next(THREE, TABLE, THEN_B, COLUMNS, READING, ORGAMISH_LONGEST_TEXT - 2, told); }

static const struct {
    const char *name;
    void (*call)(void);
    int deeper; /* with a longer reading */
} calls[] = {{"nothing", nothing, 0},
             {"build", build, 0},
             {"narrow", to_narrow, 0},
             {"widen", widen, 0},
             {"build, copied", build_copied, 0},
             {"narrow, copied", to_narrow_copied, 0},
             {"widen, copied", widen_copied, 0},
             {"scan", scan, 0},
             {"first", first, 1},
             {"jump", jump, 1},
             {"place", place, 0},
             {"check_book", check_book, 0},
             {"block", block, 0},
             {"build", build_three, 0},
             {"scan", scan_three, 0},
             {"first", first_three, 1},
             {"next", next, 1}};

static void *run(void *at) {
    calls[*(size_t *)at].call();
    return NULL;
}

static size_t taken(size_t at, unsigned char *stack) {
    pthread_attr_t attributes;
    pthread_t thread;
    size_t untouched = 0;
    memset(stack, PAINT, STACK);
    pthread_attr_init(&attributes);
    if (pthread_attr_setstack(&attributes, stack, STACK) != 0 || pthread_create(&thread, &attributes, run, &at) != 0)
        exit(EXIT_FAILURE);
    pthread_join(thread, NULL);
    while (stack[untouched] == PAINT)
        untouched++;
    return STACK - untouched;
}

int main(void) {
    void *stack;
    size_t thread_takes = 0, least_deep = STACK, most_other = 0;
    if (posix_memalign(&stack, 65536, STACK) != 0)
        return EXIT_FAILURE;
    orgamish_identity(map);
    memset(all_a, 'a', sizeof all_a);
    memset(then_b, 'a', sizeof then_b);
    then_b[sizeof then_b - 1] = 'b';
    for (size_t at = 0; at < sizeof calls / sizeof *calls; at++) {
        size_t bytes = taken(at, stack) - thread_takes;
        if (at == 0)
            thread_takes = bytes;
        else
            printf("stack: %s %zu bytes\n", calls[at].name, bytes);
        if (bytes > ORGAMISH_STACK)
            return EXIT_FAILURE;
        if (calls[at].deeper && bytes < least_deep)
            least_deep = bytes;
        if (!calls[at].deeper && at != 0 && bytes > most_other)
            most_other = bytes;
    }
    return 3 * most_other <= 2 * least_deep ? EXIT_SUCCESS : EXIT_FAILURE;
}
