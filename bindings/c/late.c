// Shows the late job of P5, whose build the check refuses 29: prints each record of the script, and the finish tick of each
// where task 2 is allowed 14 ticks, as in P6. It comes the second time at tick 14 and finishes at 28; P5 allows it 13.
#include "show.h"

enum { TASKS = 3, RECORD_BYTES = 6 };

// m, T, D and C of each task, on one processor; D of P5, and of P6.
static const uint32_t WIDTHS[TASKS] = {1, 1, 1}, PERIODS[TASKS] = {10, 14, 14}, RUNS[TASKS] = {4, 4, 4};
static const uint32_t DEADLINES[TASKS] = {10, 13, 13}, LATER_DEADLINES[TASKS] = {10, 13, 14};

// One partition, ranks 0, 1 and 2, worst responses 7, 11 and 14.
static const uint8_t BUILD[17] = {
    0x10, 0x21, 0x81, 0x02, 0x00,
    0x00, 0x00, 0x00, 0x0E, 0x00, 0x20, 0x00, 0x16, 0x00, 0x40, 0x00, 0x1C,
};

static uint64_t write_order(const uint32_t *deadlines, uint8_t *order) {
    return jefkantu_write_order(1, WIDTHS, TASKS, PERIODS, TASKS, deadlines, TASKS, RUNS, TASKS, order, JEFKANTU_MOST_ORDER_BYTES);
}

int main(void) {
    static uint8_t script[JEFKANTU_MOST_SCRIPT_BYTES];
    static uint32_t finish[JEFKANTU_MOST_RECORDS];
    uint8_t order[JEFKANTU_MOST_ORDER_BYTES];
    uint64_t word = write_order(DEADLINES, order);
    if (jefkantu_number(word) != 0) return refused(word);
    word = jefkantu_late(order, jefkantu_count(word), BUILD, sizeof BUILD, script, sizeof script);
    if (jefkantu_number(word) != 0) return refused(word);
    size_t script_len = jefkantu_count(word);
    for (size_t i = 0; i < script_len / RECORD_BYTES; i++) {
        size_t at = 8 * RECORD_BYTES * i;
        uint32_t tick = take(script, &at, 20), task = take(script, &at, 5), duration = take(script, &at, 20);
        printf("release %u %u %u\n", tick, task, duration);
    }
    word = write_order(LATER_DEADLINES, order);
    if (jefkantu_number(word) != 0) return refused(word);
    word = jefkantu_run(order, jefkantu_count(word), BUILD, sizeof BUILD, script, script_len, finish, JEFKANTU_MOST_RECORDS);
    if (jefkantu_number(word) != 0) return refused(word);
    for (size_t i = 0; i < jefkantu_count(word); i++) printf("finish %zu %u\n", i, finish[i]);
    return 0;
}
