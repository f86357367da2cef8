// Orders written and read through the C surface: the sample order, each refusal, and memory left as it was.
#include "jefkantu.h"

#include <stdio.h>
#include <string.h>

enum { UNTOUCHED = 0xA5, ROOM = 400, MOST_TASKS = 40, NONE = JEFKANTU_NO_PLACE };

static int passed = 0;
static int failed = 0;

static void check(const char *name, int holds) {
    if (holds) {
        passed += 1;
    } else {
        failed += 1;
        printf("FAILED: %s\n", name);
    }
}

static void check_word(const char *name, uint64_t word, uint32_t number, uint32_t place, uint32_t count) {
    int holds = jefkantu_number(word) == number && jefkantu_place(word) == place && jefkantu_count(word) == count;
    if (!holds) {
        printf("%s: number %u, place %u, count %u\n", name, jefkantu_number(word), jefkantu_place(word), jefkantu_count(word));
    }
    check(name, holds);
}

// An order's fields, whatever they hold.
struct task {
    uint32_t width, period, deadline, run, spare;
};
struct order {
    uint32_t version, processors, tasks, spare;
    struct task task[MOST_TASKS];
};

// The sample order of the document, and its bytes.
static const struct order SAMPLE = {1, 4, 3, 0, {{2, 10, 10, 4, 0}, {1, 14, 13, 4, 0}, {1, 14, 13, 4, 0}}};
static const uint8_t SAMPLE_BYTES[30] = {
    0x10, 0x81, 0x80,
    0x04, 0x00, 0x01, 0x40, 0x00, 0x14, 0x00, 0x00, 0x80,
    0x02, 0x00, 0x01, 0xC0, 0x00, 0x1A, 0x00, 0x00, 0x80,
    0x02, 0x00, 0x01, 0xC0, 0x00, 0x1A, 0x00, 0x00, 0x80,
};

// The order with the single task (1, 10, 10, 10) on M = 4.
static const struct order SINGLE = {1, 4, 1, 0, {{1, 10, 10, 10, 0}}};

// Bit by bit, most significant first.
static size_t pack_field(uint8_t *bytes, size_t at, unsigned width, uint32_t value) {
    for (unsigned i = 0; i < width; i++) {
        unsigned bit = value >> (width - 1 - i) & 1;
        bytes[(at + i) / 8] |= (uint8_t)(bit << (7 - (at + i) % 8));
    }
    return at + width;
}

static size_t pack(const struct order *o, uint8_t *bytes) {
    memset(bytes, 0, ROOM);
    size_t at = pack_field(bytes, 0, 4, o->version);
    at = pack_field(bytes, at, 7, o->processors);
    at = pack_field(bytes, at, 6, o->tasks);
    at = pack_field(bytes, at, 7, o->spare);
    for (size_t i = 0; i < o->tasks && i < MOST_TASKS; i++) {
        at = pack_field(bytes, at, 7, o->task[i].width);
        at = pack_field(bytes, at, 20, o->task[i].period);
        at = pack_field(bytes, at, 20, o->task[i].deadline);
        at = pack_field(bytes, at, 20, o->task[i].run);
        at = pack_field(bytes, at, 5, o->task[i].spare);
    }
    return at / 8;
}

static int untouched(const void *memory, size_t size) {
    const uint8_t *bytes = (const uint8_t *)memory;
    for (size_t i = 0; i < size; i++) {
        if (bytes[i] != UNTOUCHED) return 0;
    }
    return 1;
}

// The caller's memory for the numbers, with a guard on either side.
struct numbers {
    uint32_t before[4];
    uint32_t order[JEFKANTU_ORDER_NUMBERS];
    uint32_t after[4];
};

// Bytes that are read: M, n and the table, zero past its n tasks.
static void reads(const char *name, const uint8_t *bytes, size_t size, const struct order *o) {
    struct numbers numbers;
    uint32_t wanted[JEFKANTU_ORDER_NUMBERS] = {o->processors, o->tasks};
    for (size_t i = 0; i < o->tasks; i++) {
        wanted[2 + 4 * i] = o->task[i].width;
        wanted[3 + 4 * i] = o->task[i].period;
        wanted[4 + 4 * i] = o->task[i].deadline;
        wanted[5 + 4 * i] = o->task[i].run;
    }
    memset(&numbers, UNTOUCHED, sizeof numbers);
    check_word(name, jefkantu_read_order(bytes, size, &numbers.order), 0, NONE, 0);
    check(name, memcmp(numbers.order, wanted, sizeof wanted) == 0);
    check(name, untouched(numbers.before, sizeof numbers.before) && untouched(numbers.after, sizeof numbers.after));
}

// Bytes that are refused: the numbers are as they were.
static void refuses(const char *name, const uint8_t *bytes, size_t size, uint32_t number, uint32_t place) {
    struct numbers numbers;
    memset(&numbers, UNTOUCHED, sizeof numbers);
    check_word(name, jefkantu_read_order(bytes, size, &numbers.order), number, place, 0);
    check(name, untouched(&numbers, sizeof numbers));
}

static void refuses_order(const char *name, const struct order *o, uint32_t number, uint32_t place) {
    uint8_t bytes[ROOM];
    size_t size = pack(o, bytes);
    refuses(name, bytes, size, number, place);
}

// The four columns, each with its own length.
struct columns {
    uint32_t widths[MOST_TASKS], periods[MOST_TASKS], deadlines[MOST_TASKS], runs[MOST_TASKS];
    size_t lengths[4];
};

static struct columns columns_of(const struct order *o) {
    struct columns c;
    for (size_t i = 0; i < 4; i++) {
        c.lengths[i] = o->tasks;
    }
    for (size_t i = 0; i < MOST_TASKS; i++) {
        c.widths[i] = o->task[i].width;
        c.periods[i] = o->task[i].period;
        c.deadlines[i] = o->task[i].deadline;
        c.runs[i] = o->task[i].run;
    }
    return c;
}

// The caller's memory for the output, with a guard on either side.
struct output {
    uint8_t before[16];
    uint8_t bytes[ROOM];
    uint8_t after[16];
};

static uint64_t write_columns(uint32_t processors, const struct columns *c, struct output *out, size_t room) {
    memset(out, UNTOUCHED, sizeof *out);
    return jefkantu_write_order(processors, c->widths, c->lengths[0], c->periods, c->lengths[1], c->deadlines, c->lengths[2], c->runs, c->lengths[3], out->bytes, room);
}

// An order that is written and read back: only the counted front of the output changes.
static void writes(const char *name, const struct order *o, size_t room) {
    struct columns c = columns_of(o);
    struct output out;
    uint8_t wanted[ROOM];
    size_t size = pack(o, wanted);
    check_word(name, write_columns(o->processors, &c, &out, room), 0, NONE, (uint32_t)size);
    check(name, memcmp(out.bytes, wanted, size) == 0);
    check(name, untouched(out.before, sizeof out.before) && untouched(out.bytes + size, ROOM - size) && untouched(out.after, sizeof out.after));
    reads(name, out.bytes, size, o);
}

// Columns that are not written: the output is as it was.
static void keeps(const char *name, uint32_t processors, const struct columns *c, size_t room, uint32_t number, uint32_t place) {
    struct output out;
    check_word(name, write_columns(processors, c, &out, room), number, place, 0);
    check(name, untouched(&out, sizeof out));
}

static void keeps_order(const char *name, const struct order *o, uint32_t number, uint32_t place) {
    struct columns c = columns_of(o);
    keeps(name, o->processors, &c, ROOM, number, place);
}

static void both_refuse(const char *name, const struct order *o, uint32_t number, uint32_t place) {
    refuses_order(name, o, number, place);
    keeps_order(name, o, number, place);
}

static void sample_order(void) {
    uint8_t bytes[ROOM];
    check("sample order's bytes", pack(&SAMPLE, bytes) == sizeof SAMPLE_BYTES && memcmp(bytes, SAMPLE_BYTES, sizeof SAMPLE_BYTES) == 0);
    writes("sample order", &SAMPLE, ROOM);
    writes("sample order where it just fits", &SAMPLE, sizeof SAMPLE_BYTES);
    reads("sample order read", SAMPLE_BYTES, sizeof SAMPLE_BYTES, &SAMPLE);
}

static struct order largest(void) {
    static const struct task WIDEST = {64, 1000000, 1000000, 1000000, 0};
    struct order o = SAMPLE;
    o.processors = 64;
    o.tasks = 32;
    for (size_t i = 0; i < MOST_TASKS; i++) o.task[i] = WIDEST;
    return o;
}

static void largest_order(void) {
    struct order o = largest();
    uint8_t bytes[ROOM];
    size_t size = pack(&o, bytes);
    writes("largest order", &o, JEFKANTU_MOST_ORDER_BYTES);
    refuses("5: largest order and a byte more", bytes, size + 1, 5, NONE);
    o.task[31].run = 1000001;
    both_refuse("10 of the last task", &o, 10, 31);
    o.tasks = 33;
    both_refuse("4: 33 tasks", &o, 4, NONE);
}

static void reader_header(void) {
    for (size_t size = 0; size < sizeof SAMPLE_BYTES; size++) {
        refuses("1, 5: a front of the sample order", SAMPLE_BYTES, size, size < 3 ? 1 : 5, NONE);
    }
    for (uint32_t version = 0; version < 16; version++) {
        struct order o = SAMPLE;
        o.version = version;
        if (version != 1) refuses_order("2: version", &o, 2, NONE);
    }
    for (uint32_t processors = 0; processors < 128; processors++) {
        struct order o = SAMPLE;
        o.processors = processors;
        if (processors == 0 || processors > 64) both_refuse("3: M", &o, 3, NONE);
    }
    for (uint32_t tasks = 0; tasks < 64; tasks++) {
        struct order o = SAMPLE;
        uint8_t bytes[ROOM];
        o.tasks = tasks;
        pack(&o, bytes);
        if (tasks != 3) refuses("4, 5: n", bytes, sizeof SAMPLE_BYTES, tasks == 0 || tasks > 32 ? 4 : 5, NONE);
    }
}

static void reader_spares(void) {
    for (unsigned bit = 0; bit < 7; bit++) {
        struct order o = SAMPLE;
        o.spare = 1u << bit;
        refuses_order("6: spare bit of the header", &o, 6, NONE);
        o.task[1].spare = 1;
        refuses_order("6: header before task", &o, 6, NONE);
    }
    for (unsigned bit = 0; bit < 5; bit++) {
        for (uint32_t task = 0; task < 3; task++) {
            struct order o = SAMPLE;
            o.task[task].spare = 1u << bit;
            refuses_order("6: spare bit of a task", &o, 6, task);
            o.task[2].spare = 1;
            o.task[0].width = 0;
            refuses_order("6: the lowest task, and before 7", &o, 6, task);
        }
    }
}

static void task_ranges(void) {
    static const struct { struct task task; uint32_t number; } CASES[] = {
        {{0, 10, 10, 4, 0}, 7}, {{5, 10, 10, 4, 0}, 7}, {{127, 10, 10, 4, 0}, 7}, {{0, 0, 0, 0, 0}, 7},
        {{4, 0, 0, 0, 0}, 8}, {{4, 1000001, 10, 4, 0}, 8}, {{4, 1048575, 1048575, 1048575, 0}, 8},
        {{4, 10, 0, 0, 0}, 9}, {{4, 10, 11, 4, 0}, 9}, {{4, 10, 1048575, 1048575, 0}, 9},
        {{4, 10, 10, 0, 0}, 10}, {{4, 10, 10, 11, 0}, 10}, {{4, 1000000, 5, 6, 0}, 10},
    };
    for (size_t i = 0; i < sizeof CASES / sizeof CASES[0]; i++) {
        for (uint32_t task = 0; task < 3; task++) {
            struct order o = SAMPLE;
            o.task[task] = CASES[i].task;
            both_refuse("7, 8, 9, 10: a task out of range", &o, CASES[i].number, task);
            if (task < 2) o.task[2].width = 0;
            both_refuse("7, 8, 9, 10: task by task", &o, CASES[i].number, task);
        }
    }
}

// P10, P11, P12 as far as reader and writer go.
static void points_on_the_line(void) {
    struct order o = SINGLE;
    o.task[0].width = 4;
    writes("P10: m = M", &o, ROOM);
    o.task[0].width = 5;
    both_refuse("P10: m = M + 1", &o, 7, 0);
    o = SINGLE;
    o.task[0].period = 1000000;
    writes("P11: T = 1,000,000", &o, ROOM);
    o.task[0].period = 1000001;
    both_refuse("P11: T = 1,000,001", &o, 8, 0);
    o = SINGLE;
    writes("P12: C = D", &o, ROOM);
    o.task[0].run = 11;
    both_refuse("P12: C = D + 1", &o, 10, 0);
}

static void writer_refuses(void) {
    struct columns c = columns_of(&SAMPLE);
    keeps("3: M = 2^32 - 1", 0xFFFFFFFF, &c, ROOM, 3, NONE);
    keeps("12: one byte short", 4, &c, sizeof SAMPLE_BYTES - 1, 12, NONE);
    keeps("12: no room", 4, &c, 0, 12, NONE);
    c.runs[2] = 0xFFFFFFFF;
    keeps("10 before 12", 4, &c, 0, 10, 2);
    keeps("3 before 10", 65, &c, 0, 3, NONE);
    for (size_t column = 0; column < 4; column++) {
        c = columns_of(&SAMPLE);
        c.lengths[column] = 2;
        keeps("13: a shorter column", 4, &c, ROOM, 13, NONE);
        c.lengths[column] = 4;
        keeps("13: a longer column", 4, &c, ROOM, 13, NONE);
        c.lengths[column] = 0;
        keeps("13 before 3", 0, &c, 0, 13, NONE);
    }
    struct order no_task = SAMPLE;
    no_task.tasks = 0;
    struct columns none = columns_of(&no_task);
    keeps("4: no task", 4, &none, ROOM, 4, NONE);
    keeps("3 before 4", 0, &none, ROOM, 3, NONE);
}

int main(void) {
    sample_order();
    largest_order();
    reader_header();
    reader_spares();
    task_ranges();
    points_on_the_line();
    writer_refuses();
    if (failed > 0) {
        printf("%d checks failed\n", failed);
        return 1;
    }
    printf("%d checks passed\n", passed);
    return 0;
}
