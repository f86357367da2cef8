// The text of the order form, read and written: the accident, each refusal, and every byte of the caller's memory.
#include <stdio.h>
#include <string.h>

#include "expect.h"
#include "jefkantu.h"

enum { UNTOUCHED = 0xA5, ROOM = 1024, MOST_TASKS = 32, LINE_ROOM = 64, LONG = 1 << 20, NONE = JEFKANTU_NO_PLACE };

struct task {
    uint32_t width, period, deadline, run;
};
struct order {
    uint32_t processors;
    size_t tasks;
    struct task task[MOST_TASKS];
};

// The caller's memory for the output, with a guard on either side.
struct output {
    uint8_t before[16], bytes[ROOM], after[16];
};
static struct output out;

static uint64_t read_text(uint32_t processors, const char *text, size_t size, size_t room) {
    memset(&out, UNTOUCHED, sizeof out);
    return jefkantu_read_text(processors, (const uint8_t *)text, size, out.bytes, room);
}

static uint64_t write_text(const uint8_t *order, size_t size, size_t room) {
    memset(&out, UNTOUCHED, sizeof out);
    return jefkantu_write_text(order, size, out.bytes, room);
}

// The answer, and all that the output holds: what is counted in front, and nothing else changed.
static void answers(const char *what, uint64_t word, uint32_t number, uint32_t place, const void *front, size_t count) {
    struct output wanted;
    memset(&wanted, UNTOUCHED, sizeof wanted);
    memcpy(wanted.bytes, front, count);
    expect(what, jefkantu_number(word) == number);
    expect(what, jefkantu_place(word) == place);
    expect(what, jefkantu_count(word) == count);
    expect(what, memcmp(&out, &wanted, sizeof out) == 0);
}

static void refused(const char *what, uint64_t word, uint32_t number, uint32_t place) {
    answers(what, word, number, place, "", 0);
}

// A text that is refused, on four processors and with room.
static void refuses(const char *text, uint32_t number, uint32_t line) {
    refused(text, read_text(4, text, strlen(text), ROOM), number, line);
}

static size_t bytes_of(const struct order *o, uint8_t *bytes) {
    uint32_t columns[4][MOST_TASKS];
    for (size_t i = 0; i < o->tasks; i++) {
        columns[0][i] = o->task[i].width;
        columns[1][i] = o->task[i].period;
        columns[2][i] = o->task[i].deadline;
        columns[3][i] = o->task[i].run;
    }
    size_t n = o->tasks;
    uint64_t word = jefkantu_write_order(o->processors, columns[0], n, columns[1], n, columns[2], n, columns[3], n, bytes, JEFKANTU_MOST_ORDER_BYTES);
    expect("an order", jefkantu_number(word) == 0);
    return jefkantu_count(word);
}

static size_t text_of(const struct order *o, char *text) {
    size_t size = 0;
    for (size_t i = 0; i < o->tasks; i++) {
        struct task t = o->task[i];
        size += (size_t)snprintf(text + size, LINE_ROOM, "%u;%u.%02u;%u.%02u;%u.%02u\n", t.width, t.period / 100, t.period % 100,
                                 t.deadline / 100, t.deadline % 100, t.run / 100, t.run % 100);
    }
    return size;
}

// A text that is read as an order, where it just fits too, and not in one byte less.
static void reads(const char *what, const char *text, size_t size, const struct order *o) {
    uint8_t bytes[JEFKANTU_MOST_ORDER_BYTES];
    size_t count = bytes_of(o, bytes);
    answers(what, read_text(o->processors, text, size, ROOM), 0, NONE, bytes, count);
    answers(what, read_text(o->processors, text, size, count), 0, NONE, bytes, count);
    refused(what, read_text(o->processors, text, size, count - 1), 12, NONE);
}

// An order that is written as text, where it just fits too, and not in one byte less; and read back.
static void writes(const char *what, const struct order *o) {
    uint8_t bytes[JEFKANTU_MOST_ORDER_BYTES];
    char text[MOST_TASKS * LINE_ROOM];
    size_t size = bytes_of(o, bytes), count = text_of(o, text);
    answers(what, write_text(bytes, size, ROOM), 0, NONE, text, count);
    answers(what, write_text(bytes, size, count), 0, NONE, text, count);
    refused(what, write_text(bytes, size, count - 1), 12, NONE);
    reads(what, text, count, o);
}

static const struct order SAMPLE = {4, 3, {{2, 10, 10, 4}, {1, 14, 13, 4}, {1, 14, 13, 4}}};
static const uint8_t SAMPLE_BYTES[30] = {
    0x10, 0x81, 0x80,
    0x04, 0x00, 0x01, 0x40, 0x00, 0x14, 0x00, 0x00, 0x80,
    0x02, 0x00, 0x01, 0xC0, 0x00, 0x1A, 0x00, 0x00, 0x80,
    0x02, 0x00, 0x01, 0xC0, 0x00, 0x1A, 0x00, 0x00, 0x80,
};
static const char SAMPLE_TEXT[] = "2;0.10;0.10;0.04\n1;0.14;0.13;0.04\n1;0.14;0.13;0.04\n";

static void sample(void) {
    size_t size = strlen(SAMPLE_TEXT);
    answers("the sample's text", write_text(SAMPLE_BYTES, sizeof SAMPLE_BYTES, ROOM), 0, NONE, SAMPLE_TEXT, size);
    answers("the sample typed", read_text(4, SAMPLE_TEXT, size, ROOM), 0, NONE, SAMPLE_BYTES, sizeof SAMPLE_BYTES);
    writes("the sample", &SAMPLE);
    refused("a closing 0 byte", read_text(4, SAMPLE_TEXT, sizeof SAMPLE_TEXT, ROOM), 50, 3);
}

// "7,5 is 750 ticks and 0.01 is 1"
static void typed(void) {
    static const struct { const char *text; struct task task; } CASES[] = {
        {"1;7,5;7,5;7,5\n", {1, 750, 750, 750}}, {"1;7.50;7.5;7,50\n", {1, 750, 750, 750}},
        {"1;75;75;7,5\n", {1, 7500, 7500, 750}}, {"1;75;0,1;0.01\n", {1, 7500, 10, 1}},
        {"0001;0075;0007.50;07,5\n", {1, 7500, 750, 750}}, {"4;7.05;7,05;7.00\n", {4, 705, 705, 700}},
        {"4;10000;9999.99;9999,9\n", {4, 1000000, 999999, 999990}}, {"1;0,01;00.01;0.01\n", {1, 1, 1, 1}},
    };
    for (size_t i = 0; i < sizeof CASES / sizeof CASES[0]; i++) {
        struct order o = {4, 1, {CASES[i].task}};
        reads(CASES[i].text, CASES[i].text, strlen(CASES[i].text), &o);
    }
}

// 50, in the first line and in the second.
static void not_of_this_shape(void) {
    static const char *const CASES[] = {
        "1;75;75;7,5 ", " 1;75;75;75", "1; 75;75;75", "1;75;75;7,505", "1;75;75;,5", "1;75;75;7,", "1;75;75;7.", "1;75;75;+7",
        "1;75;75;-7", "1;75;75;7;5", "1;75;75;7,5\r", "1;75;75;75\t", "1;75;75", "1;75;75;", "1;75;75;75;", ";75;75;75", ";;;",
        "1;;75;75", "", "1", "1.0;75;75;75", "1,5;75;75;75", "1;7,5,5;75;75", "1;7.,5;75;75", "1;7..5;75;75", "1;75,.;75;75",
        "1;7e1;75;75", "1;0x7;75;75", "1:75:75:75", "1,75,75,75", "1;75;75;75ms", "1;\"75\";75;75", "1;\xEF\xBC\x97;75;75",
    };
    char text[LINE_ROOM];
    for (size_t i = 0; i < sizeof CASES / sizeof CASES[0]; i++) {
        snprintf(text, sizeof text, "%s\n1;75;75;75\n", CASES[i]);
        refuses(text, 50, 0);
        snprintf(text, sizeof text, "1;75;75;75\n%s\n", CASES[i]);
        refuses(text, 50, 1);
    }
}

// "anything else": each such byte at each position, in place of the one that is there and before it.
static void any_other_byte(void) {
    static const char LINE[] = "12;7,5;7.50;0075\n";
    size_t size = strlen(LINE);
    for (unsigned byte = 0; byte < 256; byte++) {
        if (byte != 0 && strchr("0123456789,.;\n", (int)byte) != NULL) continue;
        for (size_t at = 0; at < size; at++) {
            char text[LINE_ROOM];
            memcpy(text, LINE, size);
            text[at] = (char)byte;
            refused("a byte that is another", read_text(64, text, size, ROOM), 50, 0);
            memcpy(text + at + 1, LINE + at, size - at);
            refused("a byte more", read_text(64, text, size + 1, ROOM), 50, 0);
        }
    }
}

// Each front of a text that ends within a line.
static void unfinished(void) {
    uint32_t line = 0;
    for (size_t size = 1; size < strlen(SAMPLE_TEXT); size++) {
        if (SAMPLE_TEXT[size - 1] == '\n') {
            line++;
        } else {
            refused("an unfinished line", read_text(4, SAMPLE_TEXT, size, ROOM), 50, line);
        }
    }
    refuses("1;75;75;75\n1;99999;75;75", 50, 1);
}

// 51, and below it the writer's.
static void numbers_over(void) {
    static const struct { const char *line; uint32_t number; } CASES[] = {
        {"1048576;75;75;75", 51}, {"1;10485.76;75;75", 51}, {"1;75;10485,76;75", 51}, {"1;75;75;10485.76", 51},
        {"1;10486;75;75", 51}, {"1;10485,8;75;75", 51}, {"4294967297;75;75;75", 51}, {"1;42949672.97;75;75", 51},
        {"1;18446744073709551617;75;75", 51}, {"1;75;75;184467440737095516.17", 51}, {"1;0010485.76;75;75", 51},
        {"1048575;75;75;75", 7}, {"5;75;75;75", 7}, {"0;75;75;75", 7}, {"0001048575;75;75;75", 7},
        {"1;10485.75;75;75", 8}, {"1;10000.01;75;75", 8}, {"1;0;75;75", 8}, {"1;0.00;75;75", 8},
        {"1;75;10485,75;75", 9}, {"1;75;75.01;75", 9}, {"1;75;0;75", 9},
        {"1;75;75;10485.75", 10}, {"1;75;75;75,01", 10}, {"1;75;75;0,0", 10},
    };
    for (size_t i = 0; i < sizeof CASES / sizeof CASES[0]; i++) {
        char text[LINE_ROOM];
        snprintf(text, sizeof text, "%s\n1;75;75;75\n", CASES[i].line);
        refuses(text, CASES[i].number, 0);
        snprintf(text, sizeof text, "1;75;75;75\n%s\n", CASES[i].line);
        refuses(text, CASES[i].number, 1);
    }
}

// Which one comes where several apply.
static void in_turn(void) {
    refuses("1;10485.76;75;+7\n", 50, 0);
    refuses("1;10485.76;75;75\n1;75;75;+7\n", 51, 0);
    refuses("1;75;75;+7\n1;10485.76;75;75\n", 50, 0);
    refuses("0;75;75;75\n1;10485.76;75;75\n", 51, 1);
    refuses("0;75;75;75\n1;75;75;+7\n", 50, 1);
    static const char *const CASES[] = {"", "0;75;75;75\n", "1;99999;75;75\n", "1;75;75;7,\n"};
    static const uint32_t NUMBERS[] = {3, 3, 51, 50}, PLACES[] = {NONE, NONE, 0, 0};
    for (size_t i = 0; i < sizeof CASES / sizeof CASES[0]; i++) {
        refused("M = 0", read_text(0, CASES[i], strlen(CASES[i]), 0), NUMBERS[i], PLACES[i]);
        refused("M = 65", read_text(65, CASES[i], strlen(CASES[i]), 0), NUMBERS[i], PLACES[i]);
        refused("no such M", read_text(JEFKANTU_NO_NUMBER, CASES[i], strlen(CASES[i]), ROOM), NUMBERS[i], PLACES[i]);
    }
    refuses("", 4, NONE);
    refused("10 before 12", read_text(4, "1;1;1;2\n", 8, 0), 10, 0);
}

// 52: lines are counted whatever is in them, and before M is looked at.
static void lines_counted(void) {
    char text[(MOST_TASKS + 1) * LINE_ROOM];
    struct order o = {64, MOST_TASKS, {{0, 0, 0, 0}}};
    for (size_t i = 0; i < MOST_TASKS; i++) {
        struct task widest = {64, 1000000, 1000000, 1000000};
        o.task[i] = widest;
    }
    size_t size = text_of(&o, text);
    expect("the longest text", size == JEFKANTU_MOST_TEXT_BYTES);
    writes("32 lines", &o);
    text[size] = '+';
    refused("32 lines and an unfinished one", read_text(0, text, size + 1, 0), 52, NONE);
    text[size] = '\n';
    refused("32 lines and an empty one", read_text(64, text, size + 1, ROOM), 52, NONE);
    memset(text, '\n', sizeof text);
    refused("33 empty lines", read_text(4, text, 33, ROOM), 52, NONE);
    refused("32 empty lines", read_text(4, text, 32, ROOM), 50, 0);
    refused("many empty lines", read_text(4, text, sizeof text, ROOM), 52, NONE);
}

// "A text has no longest length": a number is judged by its value.
static void long_texts(void) {
    static char text[LONG];
    static const char LAST[] = "1;75;0000075.00;7,5\n";
    static const struct order ONE = {4, 1, {{1, 7500, 7500, 750}}};
    size_t size = strlen(LAST), from = LONG - size;
    memset(text, '0', from);
    memcpy(text + from, LAST, size);
    reads("many zeros", text, sizeof text, &ONE);
    text[0] = '1';
    refused("a number of many digits", read_text(4, text, sizeof text, ROOM), 51, 0);
    text[sizeof text - 1] = '0';
    refused("and no line feed", read_text(4, text, sizeof text, ROOM), 50, 0);
    memset(text, ';', sizeof text);
    refused("many semicolons", read_text(4, text, sizeof text, ROOM), 50, 0);
    memset(text, '\n', sizeof text);
    refused("many lines", read_text(4, text, sizeof text, ROOM), 52, NONE);
}

// The order's 1 to 10 come before 12.
static void orders_refused(void) {
    static const struct { size_t at; uint8_t bytes[2]; uint32_t number, place; } CASES[] = {
        {0, {0x20, 0x81}, 2, NONE}, {1, {0x01, 0x80}, 3, NONE}, {1, {0x80, 0x00}, 4, NONE}, {1, {0x81, 0x00}, 5, NONE},
        {1, {0x81, 0x81}, 6, NONE}, {28, {0x00, 0x81}, 6, 2}, {3, {0x0A, 0x00}, 7, 0}, {14, {0x00, 0x00}, 8, 1},
        {16, {0x00, 0x1E}, 9, 1}, {28, {0x00, 0x00}, 10, 2},
    };
    for (size_t size = 0; size < sizeof SAMPLE_BYTES; size++) {
        refused("a front of the sample", write_text(SAMPLE_BYTES, size, ROOM), size < 3 ? 1 : 5, NONE);
    }
    for (size_t i = 0; i < sizeof CASES / sizeof CASES[0]; i++) {
        uint8_t order[sizeof SAMPLE_BYTES];
        memcpy(order, SAMPLE_BYTES, sizeof order);
        memcpy(order + CASES[i].at, CASES[i].bytes, sizeof CASES[i].bytes);
        refused("an order that is changed", write_text(order, sizeof order, ROOM), CASES[i].number, CASES[i].place);
        refused("and no room", write_text(order, sizeof order, 0), CASES[i].number, CASES[i].place);
    }
    refused("no room", write_text(SAMPLE_BYTES, sizeof SAMPLE_BYTES, 0), 12, NONE);
}

static uint64_t seed = 1;

// 1 to a limit, of any number of digits.
static uint32_t up_to(uint32_t limit) {
    seed = seed * UINT64_C(6364136223846793005) + UINT64_C(1442695040888963407);
    uint32_t drawn = (uint32_t)(seed >> 33), cut = 1;
    for (uint32_t i = drawn % 8; i > 0 && limit / cut >= 10; i--) cut *= 10;
    return 1 + (drawn >> 3) % (limit / cut);
}

// "reading it back gives the same order"
static void there_and_back(void) {
    for (int round = 0; round < 1000; round++) {
        struct order o = {up_to(64), up_to(MOST_TASKS), {{0, 0, 0, 0}}};
        for (size_t i = 0; i < o.tasks; i++) {
            struct task *t = &o.task[i];
            t->width = up_to(o.processors);
            t->period = up_to(1000000);
            t->deadline = up_to(t->period);
            t->run = up_to(t->deadline);
        }
        writes("an order there and back", &o);
    }
}

// What a call writes to may lie beside what it reads, and has no alignment.
static void beside(void) {
    uint8_t memory[1 + 2 * sizeof SAMPLE_BYTES + sizeof SAMPLE_TEXT];
    size_t text_len = strlen(SAMPLE_TEXT), order_len = sizeof SAMPLE_BYTES;
    uint8_t *before = memory + 1, *text = before + order_len, *after = text + text_len;
    memcpy(text, SAMPLE_TEXT, text_len);
    expect("an order before its text", jefkantu_number(jefkantu_read_text(4, text, text_len, before, order_len)) == 0);
    expect("an order after its text", jefkantu_number(jefkantu_read_text(4, text, text_len, after, order_len)) == 0);
    expect("the text is as it was", memcmp(text, SAMPLE_TEXT, text_len) == 0);
    expect("both are the sample", memcmp(before, SAMPLE_BYTES, order_len) == 0 && memcmp(after, SAMPLE_BYTES, order_len) == 0);
    memset(text, UNTOUCHED, text_len);
    expect("a text between orders", jefkantu_number(jefkantu_write_text(before, order_len, text, text_len)) == 0);
    expect("it is the sample's", memcmp(text, SAMPLE_TEXT, text_len) == 0);
    expect("both are as they were", memcmp(before, SAMPLE_BYTES, order_len) == 0 && memcmp(after, SAMPLE_BYTES, order_len) == 0);
}

int main(void) {
    sample();
    typed();
    not_of_this_shape();
    any_other_byte();
    unfinished();
    numbers_over();
    in_turn();
    lines_counted();
    long_texts();
    orders_refused();
    there_and_back();
    beside();
    printf("%d checks passed\n", passed);
    return failed != 0;
}
