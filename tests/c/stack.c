// How many bytes of stack each entry point takes, the most over large and refused inputs: less than 16,384.
#define _XOPEN_SOURCE 700
#include <stdio.h>
#include <string.h>
#include <ucontext.h>

#include "jefkantu.h"

enum { ROOM = 1 << 20, LIMIT = 16384, TASKS = 32, RECORD_BYTES = 6 };

static uint8_t painted[ROOM] __attribute__((aligned(16)));
static ucontext_t here, there;

// What the calls take and give, and how much of it they see.
static uint32_t processors, tasks;
static uint32_t widths[TASKS], periods[TASKS], deadlines[TASKS], runs[TASKS];
static uint8_t order[JEFKANTU_MOST_ORDER_BYTES], build[JEFKANTU_MOST_BUILD_BYTES], script[JEFKANTU_MOST_RECORDS * RECORD_BYTES];
static uint8_t text[JEFKANTU_MOST_TEXT_BYTES], list[JEFKANTU_MOST_LIST_TEXT_BYTES + 1];
static size_t order_len, text_len, list_len, build_len, script_len, room, places;
static uint32_t numbers[1][JEFKANTU_ORDER_NUMBERS], finish[JEFKANTU_MOST_RECORDS];
static uint64_t word, set, sets[JEFKANTU_MOST_PARTITIONS];

static void call_nothing(void) {}

static void call_read(void) { word = jefkantu_read_order(order, order_len, numbers); }

static void call_write(void) {
    word = jefkantu_write_order(processors, widths, tasks, periods, tasks, deadlines, tasks, runs, tasks, order, room);
}

static void call_read_text(void) { word = jefkantu_read_text(processors, text, text_len, order, room); }

static void call_write_text(void) { word = jefkantu_write_text(order, order_len, text, room); }

static void call_plan(void) { word = jefkantu_plan(order, order_len, build, room); }

static void call_check(void) { word = jefkantu_check(order, order_len, build, build_len); }

static void call_run(void) {
    word = jefkantu_run(order, order_len, build, build_len, script, script_len, finish, places);
}

static void call_late(void) { word = jefkantu_late(order, order_len, build, build_len, script, room); }

static void call_partition_sets(void) {
    word = jefkantu_partition_sets(order, order_len, build, build_len, sets, places);
}

static void call_write_list(void) { word = jefkantu_write_list(set, list, room); }

static void call_read_list(void) { word = jefkantu_read_list(list, list_len, &set); }

// How far down a call writes on a stack of one colour.
static size_t depth_on(uint8_t colour, void (*call)(void)) {
    memset(painted, colour, sizeof painted);
    getcontext(&there);
    there.uc_stack.ss_sp = painted;
    there.uc_stack.ss_size = sizeof painted;
    there.uc_link = &here;
    makecontext(&there, call, 0);
    swapcontext(&here, &there);
    size_t clean = 0;
    while (clean < sizeof painted && painted[clean] == colour) {
        clean++;
    }
    return sizeof painted - clean;
}

// On two colours, since the last byte that is written may be of one.
static size_t depth(void (*call)(void)) {
    size_t one = depth_on(0xA5, call);
    size_t other = depth_on(0x5A, call);
    return one < other ? other : one;
}

static size_t most_read, most_write, most_read_text, most_write_text, most_plan, most_check, most_run;
static size_t most_late, most_partition_sets, most_write_list, most_read_list;
static int failed;

// Calls, and keeps the most; the answer must have the number. The first call is not measured: the linker may take part.
static void calls(const char *what, void (*call)(void), size_t *most, uint32_t number) {
    call();
    size_t bytes = depth(call) - depth(call_nothing);
    if (*most < bytes) {
        *most = bytes;
    }
    if (jefkantu_number(word) != number) {
        failed = 1;
        printf("not so: %s answers %u, not %u\n", what, jefkantu_number(word), number);
    }
}

static void put_record(size_t i, uint32_t tick, uint32_t task, uint32_t duration) {
    uint64_t bits = (uint64_t)tick << 28 | (uint64_t)task << 23 | (uint64_t)duration << 3;
    for (size_t k = 0; k < RECORD_BYTES; k++) {
        script[RECORD_BYTES * i + k] = (uint8_t)(bits >> (8 * (RECORD_BYTES - 1 - k)));
    }
}

// 32 tasks of a width, written, read, planned and checked.
static void plan_tasks(uint32_t width, uint32_t period, uint32_t run) {
    processors = 64;
    tasks = TASKS;
    for (size_t i = 0; i < TASKS; i++) {
        widths[i] = width;
        periods[i] = period + (uint32_t)i;
        deadlines[i] = period;
        runs[i] = run;
    }
    room = sizeof order;
    calls("an order written", call_write, &most_write, 0);
    order_len = jefkantu_count(word);
    calls("an order read", call_read, &most_read, 0);
    room = sizeof text;
    calls("a text written", call_write_text, &most_write_text, 0);
    text_len = jefkantu_count(word);
    room = sizeof order;
    calls("a text read", call_read_text, &most_read_text, 0);
    room = sizeof build;
    calls("an order planned", call_plan, &most_plan, 0);
    build_len = jefkantu_count(word);
    calls("a build checked", call_check, &most_check, 0);
    calls("no late job in it", call_late, &most_late, 63);
    places = JEFKANTU_MOST_PARTITIONS;
    calls("a build's sets", call_partition_sets, &most_partition_sets, 0);
    places = 0;
    calls("no place for its sets", call_partition_sets, &most_partition_sets, 12);
}

// The longest script: every task again and again, each some ticks after the one before it.
static void run_longest(uint32_t round, uint32_t apart, uint32_t duration) {
    for (size_t i = 0; i < JEFKANTU_MOST_RECORDS; i++) {
        uint32_t task = (uint32_t)(i % TASKS);
        put_record(i, (uint32_t)(i / TASKS) * round + task * apart, task, duration);
    }
    script_len = sizeof script;
    places = JEFKANTU_MOST_RECORDS;
    calls("the longest script", call_run, &most_run, 0);
}

// Refused at the end of what each call does.
static void refuse_last(void) {
    put_record(JEFKANTU_MOST_RECORDS - 1, 1048575, TASKS - 1, 0);
    calls("a job of no length", call_run, &most_run, 44);
    places = 0;
    calls("no place for finish ticks", call_run, &most_run, 46);
    build[build_len - 1] ^= 0x02;
    calls("a response that was invented", call_check, &most_check, 30);
    calls("a run of that build", call_run, &most_run, 30);
    calls("the sets of that build", call_partition_sets, &most_partition_sets, 30);
    room = 0;
    calls("no room for a build", call_plan, &most_plan, 12);
    calls("no room for an order", call_write, &most_write, 12);
    calls("no room for a text", call_write_text, &most_write_text, 12);
    calls("no room for a text's order", call_read_text, &most_read_text, 12);
    text[text_len - 1] = ';';
    calls("a text without its last line feed", call_read_text, &most_read_text, 50);
    runs[TASKS - 1] = deadlines[TASKS - 1] + 1;
    calls("a run time over its deadline", call_write, &most_write, 10);
    order[order_len - 1] |= 1;
    calls("a spare bit in the last task", call_read, &most_read, 6);
    calls("a text of that order", call_write_text, &most_write_text, 6);
    calls("a plan of that order", call_plan, &most_plan, 6);
    calls("a check of that order", call_check, &most_check, 6);
    calls("the late job of that order's build", call_late, &most_late, 6);
    calls("the sets of that order's build", call_partition_sets, &most_partition_sets, 6);
}

// Bytes of a build, behind those that are there.
static void put_number(size_t size, uint32_t number) {
    for (size_t i = 0; i < size; i++) build[build_len++] = (uint8_t)(number >> (8 * (size - 1 - i)));
}

// 32 tasks in one partition: task 0 is late, tasks 1 to 30 are higher, 960 of every 1,000 ticks together, and task 31 blocks
// it by C ticks less 1. It starts in round k, the first with C - 1 < 40k: 30k + 2 records.
static void show_late(uint32_t blocker) {
    processors = 64;
    tasks = TASKS;
    build_len = 0;
    put_number(3, 1u << 20 | 64u << 13 | TASKS << 7 | 1u);
    put_number(2, 1u << 9);
    for (uint32_t i = 0; i < TASKS; i++) {
        widths[i] = 1;
        periods[i] = deadlines[i] = i == 0 ? 2000 : i < TASKS - 1 ? 1000 : 1000000;
        runs[i] = i == 0 ? 1 : i < TASKS - 1 ? 32 : blocker;
        put_number(4, (i == 0 ? TASKS - 2 : i < TASKS - 1 ? i - 1 : i) << 21);
    }
    room = sizeof order;
    calls("an order written", call_write, &most_write, 0);
    order_len = jefkantu_count(word);
    calls("a late build", call_check, &most_check, 29);
}

// The longest late script, refused where it ends, and one that is longer.
static void late_scripts(void) {
    show_late(1321);
    room = sizeof script;
    calls("a late script of 1,022 records", call_late, &most_late, 0);
    room = 1022 * RECORD_BYTES - 1;
    calls("no room for it", call_late, &most_late, 12);
    show_late(1361);
    room = sizeof script;
    calls("a late script of 1,052 records", call_late, &most_late, 64);
    show_late(30001);
    calls("a late script of many records", call_late, &most_late, 64);
}

// The longest lists, written and read, and refused at their ends.
static void list_sets(void) {
    set = UINT64_C(0xB6DB6DB6DB6DB6DB);
    room = JEFKANTU_MOST_LIST_BYTES;
    calls("the longest list written", call_write_list, &most_write_list, 0);
    list_len = jefkantu_count(word);
    calls("the longest list read", call_read_list, &most_read_list, 0);
    list[list_len - 1] = '-';
    calls("a list that stops short", call_read_list, &most_read_list, 60);
    room--;
    calls("no room for the longest list", call_write_list, &most_write_list, 12);
    for (size_t i = 0; i < sizeof list; i++) list[i] = i % 2 == 0 ? '1' : ',';
    list_len = sizeof list;
    calls("a text over the longest", call_read_list, &most_read_list, 65);
    list_len -= 2;
    calls("the longest text of single digits", call_read_list, &most_read_list, 0);
    list[list_len - 1] = ',';
    calls("a comma for its last", call_read_list, &most_read_list, 60);
    for (size_t i = 0; i < sizeof list; i++) list[i] = '0';
    list_len = JEFKANTU_MOST_LIST_TEXT_BYTES;
    calls("the longest number", call_read_list, &most_read_list, 0);
    list[0] = '9';
    calls("a number of many digits", call_read_list, &most_read_list, 61);
}

// Two of the widest tasks that no partition takes together.
static void refuse_plan(void) {
    processors = 64;
    tasks = 2;
    for (size_t i = 0; i < tasks; i++) {
        widths[i] = 64;
        periods[i] = deadlines[i] = runs[i] = 1000000;
    }
    room = sizeof order;
    calls("the widest tasks", call_write, &most_write, 0);
    order_len = jefkantu_count(word);
    room = sizeof build;
    calls("no place for the second", call_plan, &most_plan, 11);
}

static void tell(const char *call, size_t most) {
    printf("%s: %zu bytes of stack\n", call, most);
    if (most >= LIMIT) {
        failed = 1;
        printf("not so: %s takes less than %d\n", call, LIMIT);
    }
}

int main(void) {
    plan_tasks(1, 1000, 20);
    run_longest(1100, 0, 20);
    run_longest(1100, 31, 1);
    refuse_last();
    plan_tasks(8, 1000, 200);
    run_longest(1100, 31, 200);
    refuse_last();
    plan_tasks(2, 1000, 1000);
    run_longest(2000, 1, 1000);
    refuse_last();
    refuse_plan();
    late_scripts();
    list_sets();
    tell("jefkantu_read_order", most_read);
    tell("jefkantu_write_order", most_write);
    tell("jefkantu_read_text", most_read_text);
    tell("jefkantu_write_text", most_write_text);
    tell("jefkantu_plan", most_plan);
    tell("jefkantu_check", most_check);
    tell("jefkantu_run", most_run);
    tell("jefkantu_late", most_late);
    tell("jefkantu_partition_sets", most_partition_sets);
    tell("jefkantu_write_list", most_write_list);
    tell("jefkantu_read_list", most_read_list);
    return failed;
}
