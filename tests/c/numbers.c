// Numbers that do not fit on their way in: each is refused where it stands. Also NULL with length 0, and the words.
#include <stdio.h>
#include <string.h>

#include "expect.h"
#include "jefkantu.h"
#include "jefkantu_words.h"

enum { COLUMNS = 4, ROOM = 12, RECORD_BYTES = 6, NONE = JEFKANTU_NO_PLACE };

// The text of the task (1, 10, 10, 10).
static const uint8_t LINE[] = {'1', ';', '0', '.', '1', ';', '0', '.', '1', ';', '0', '.', '1', '\n'};

// Two tasks, (1, 10, 5, 3) and (1, 100, 100, 4), on M = 1, in one partition: the first is late.
static const uint8_t LATE_ORDER[] = {
    0x10, 0x21, 0x00,
    0x02, 0x00, 0x01, 0x40, 0x00, 0x0A, 0x00, 0x00, 0x60,
    0x02, 0x00, 0x0C, 0x80, 0x00, 0xC8, 0x00, 0x00, 0x80,
};
static const uint8_t LATE_BUILD[] = {0x10, 0x21, 0x01, 0x02, 0x00, 0x00, 0x00, 0x00, 0x0C, 0x00, 0x20, 0x00, 0x0E};

// The order with the single task (1, 10, 10, 10) on M = 4, with one number changed: 0 is M, then m, T, D and C.
static uint64_t written_with(size_t changed, uint32_t number, uint8_t *out) {
    uint32_t numbers[1 + COLUMNS] = {4, 1, 10, 10, 10};
    numbers[changed] = number;
    memset(out, 0xA5, ROOM);
    return jefkantu_write_order(numbers[0], &numbers[1], 1, &numbers[2], 1, &numbers[3], 1, &numbers[4], 1, out, ROOM);
}

// Whatever does not fit is refused in every column, and nothing is written.
static void refused_everywhere(const char *what, uint32_t number) {
    static const uint32_t NUMBERS[1 + COLUMNS] = {3, 7, 8, 9, 10};
    static const uint32_t PLACES[1 + COLUMNS] = {NONE, 0, 0, 0, 0};
    uint8_t out[ROOM], before[ROOM];
    memset(before, 0xA5, ROOM);
    expect(what, number == JEFKANTU_NO_NUMBER);
    for (size_t i = 0; i < 1 + COLUMNS; i++) {
        uint64_t word = written_with(i, number, out);
        expect(what, jefkantu_number(word) == NUMBERS[i] && jefkantu_place(word) == PLACES[i]);
        expect(what, memcmp(out, before, ROOM) == 0);
    }
    uint64_t word = jefkantu_read_text(number, LINE, sizeof LINE, out, ROOM);
    expect(what, jefkantu_number(word) == 3 && jefkantu_place(word) == NONE);
    expect(what, memcmp(out, before, ROOM) == 0);
}

static void numbers_that_do_not_fit(void) {
    refused_everywhere("2^32 + 75", jefkantu_from_unsigned((UINT64_C(1) << 32) + 75));
    refused_everywhere("2^32 + 75, signed", jefkantu_from_signed((INT64_C(1) << 32) + 75));
    refused_everywhere("2^32 + 75, real", jefkantu_from_real(4294967371.0));
    refused_everywhere("2^32 + 75, text", jefkantu_from_text("4294967371"));
    refused_everywhere("-1", jefkantu_from_signed(-1));
    refused_everywhere("-1, converted", jefkantu_from_unsigned((uint64_t)INT64_C(-1)));
    refused_everywhere("-1, real", jefkantu_from_real(-1.0));
    refused_everywhere("-1, text", jefkantu_from_text("-1"));
    refused_everywhere("7.5", jefkantu_from_real(7.5));
    refused_everywhere("7.5, text", jefkantu_from_text("7.5"));
    refused_everywhere("7,5", jefkantu_from_text("7,5"));
    refused_everywhere("no text", jefkantu_from_text(""));
    refused_everywhere("no text at all", jefkantu_from_text(NULL));
    refused_everywhere("a blank", jefkantu_from_text(" 7"));
    refused_everywhere("a text's end", jefkantu_from_text("7\n"));
    refused_everywhere("2^64 + 7, text", jefkantu_from_text("18446744073709551623"));
    refused_everywhere("no real number", jefkantu_from_real(0.0 / 0.0));
    refused_everywhere("a real number without end", jefkantu_from_real(1.0 / 0.0));
    refused_everywhere("the largest", jefkantu_from_unsigned(UINT64_MAX));
    refused_everywhere("the least", jefkantu_from_signed(INT64_MIN));
}

static void numbers_that_fit(void) {
    expect("0", jefkantu_from_unsigned(0) == 0 && jefkantu_from_signed(0) == 0);
    expect("0, real and text", jefkantu_from_real(0.0) == 0 && jefkantu_from_text("0") == 0);
    expect("750", jefkantu_from_unsigned(750) == 750 && jefkantu_from_signed(750) == 750);
    expect("750, real and text", jefkantu_from_real(750.0) == 750 && jefkantu_from_text("00750") == 750);
    uint32_t most = JEFKANTU_NO_NUMBER - 1;
    expect("2^32 - 2", jefkantu_from_unsigned(most) == most && jefkantu_from_signed(most) == most);
    expect("2^32 - 2, real and text", jefkantu_from_real(4294967294.0) == most && jefkantu_from_text("4294967294") == most);
    uint8_t out[ROOM];
    expect("P12: C = D", jefkantu_number(written_with(COLUMNS, jefkantu_from_text("10"), out)) == 0);
}

static void answers(const char *what, uint64_t word, uint32_t number) {
    expect(what, jefkantu_number(word) == number && jefkantu_place(word) == NONE && jefkantu_count(word) == 0);
}

// "With length 0 a pointer may be NULL"
static void nothing_lent(void) {
    uint32_t numbers[1][JEFKANTU_ORDER_NUMBERS];
    answers("no order to read", jefkantu_read_order(NULL, 0, numbers), 1);
    answers("no columns", jefkantu_write_order(4, NULL, 0, NULL, 0, NULL, 0, NULL, 0, NULL, 0), 4);
    answers("no text to read", jefkantu_read_text(4, NULL, 0, NULL, 0), 4);
    answers("no order to write as text", jefkantu_write_text(NULL, 0, NULL, 0), 1);
    answers("no order to plan", jefkantu_plan(NULL, 0, NULL, 0), 1);
    answers("no order to check", jefkantu_check(NULL, 0, NULL, 0), 1);
    answers("no order to run", jefkantu_run(NULL, 0, NULL, 0, NULL, 0, NULL, 0), 1);
    answers("no order to show late", jefkantu_late(NULL, 0, NULL, 0, NULL, 0), 1);
    answers("no order to give the sets of", jefkantu_partition_sets(NULL, 0, NULL, 0, NULL, 0), 1);
    answers("no room for a list", jefkantu_write_list(1, NULL, 0), 12);
    answers("an empty list needs none", jefkantu_write_list(0, NULL, 0), 0);
    uint64_t set = 1;
    answers("no list", jefkantu_read_list(NULL, 0, &set), 0);
    expect("it is the empty set", set == 0);
    uint8_t order[ROOM], build[JEFKANTU_MOST_BUILD_BYTES];
    answers("no room", jefkantu_write_order(4, numbers[0], 0, numbers[0], 0, numbers[0], 0, numbers[0], 0, NULL, 0), 4);
    expect("an order", jefkantu_number(written_with(0, 4, order)) == 0);
    answers("no room for its text", jefkantu_write_text(order, ROOM, NULL, 0), 12);
    answers("no room for a text's order", jefkantu_read_text(4, LINE, sizeof LINE, NULL, 0), 12);
    answers("no room for its build", jefkantu_plan(order, ROOM, NULL, 0), 12);
    answers("no build", jefkantu_check(order, ROOM, NULL, 0), 20);
    answers("no build to show late", jefkantu_late(order, ROOM, NULL, 0, NULL, 0), 63);
    answers("no room for a late script", jefkantu_late(LATE_ORDER, sizeof LATE_ORDER, LATE_BUILD, sizeof LATE_BUILD, NULL, 0), 12);
    size_t size = jefkantu_count(jefkantu_plan(order, ROOM, build, sizeof build));
    answers("no script", jefkantu_run(order, ROOM, build, size, NULL, 0, NULL, 0), 0);
    answers("no room for its sets", jefkantu_partition_sets(order, ROOM, build, size, NULL, 0), 12);
}

// Bytes need no alignment.
static void odd_addresses(void) {
    uint8_t order[1 + ROOM], build[1 + JEFKANTU_MOST_BUILD_BYTES];
    expect("an order", jefkantu_number(written_with(0, 4, order + 1)) == 0);
    uint64_t word = jefkantu_plan(order + 1, ROOM, build + 1, JEFKANTU_MOST_BUILD_BYTES);
    expect("its build", jefkantu_number(word) == 0 && jefkantu_count(word) == 9);
    answers("that build", jefkantu_check(order + 1, ROOM, build + 1, jefkantu_count(word)), 0);
    uint64_t set = 0;
    word = jefkantu_partition_sets(order + 1, ROOM, build + 1, jefkantu_count(word), &set, 1);
    expect("its set", jefkantu_number(word) == 0 && jefkantu_count(word) == 1 && set == 1);
    word = jefkantu_write_list(set, build + 1, 1);
    expect("its list", jefkantu_number(word) == 0 && jefkantu_count(word) == 1 && build[1] == '0');
    answers("that list", jefkantu_read_list(build + 1, 1, &set), 0);
    uint8_t late_order[1 + sizeof LATE_ORDER], late_build[1 + sizeof LATE_BUILD], script[1 + 2 * RECORD_BYTES];
    memcpy(late_order + 1, LATE_ORDER, sizeof LATE_ORDER);
    memcpy(late_build + 1, LATE_BUILD, sizeof LATE_BUILD);
    word = jefkantu_late(late_order + 1, sizeof LATE_ORDER, late_build + 1, sizeof LATE_BUILD, script + 1, 2 * RECORD_BYTES);
    expect("a late script", jefkantu_number(word) == 0 && jefkantu_count(word) == 2 * RECORD_BYTES);
}

static int same(const char *text, const char *other) { return text != NULL && strcmp(text, other) == 0; }

static void words(void) {
    expect("11", same(jefkantu_words(11), "first fit runs out") && same(jefkantu_place_kind(11), "task"));
    expect("24", same(jefkantu_place_kind(24), "partition"));
    expect("50", same(jefkantu_place_kind(50), "line") && same(jefkantu_place_kind(51), "line"));
    expect("52", same(jefkantu_words(52), "more than 32 lines: type one for each task, at most 32") && jefkantu_place_kind(52) == NULL);
    expect("60", same(jefkantu_place_kind(60), "byte") && same(jefkantu_place_kind(61), "byte") && same(jefkantu_place_kind(62), "byte"));
    expect("63", same(jefkantu_words(63), "the build is not refused 29: the check names no late task to show") && jefkantu_place_kind(63) == NULL);
    expect("64", jefkantu_words(64) != NULL && jefkantu_place_kind(64) == NULL);
    expect("65", same(jefkantu_words(65), "a text over 1,024 bytes: write each processor once") && jefkantu_place_kind(65) == NULL);
    expect("46", same(jefkantu_words(46), "too few places for finish ticks") && jefkantu_place_kind(46) == NULL);
    expect("no such cause", jefkantu_words(0) == NULL && jefkantu_words(14) == NULL && jefkantu_words(65535) == NULL);
}

int main(void) {
    numbers_that_do_not_fit();
    numbers_that_fit();
    nothing_lent();
    odd_addresses();
    words();
    printf("%d checks passed\n", passed);
    return failed != 0;
}
