// Plans the sample order and prints, for each partition, the list of its processors, as `taskset --cpu-list` takes it; or
// reads a list and prints it as it is written: lists, or lists LIST.
#include <string.h>

#include "show.h"

enum { TASKS = 3 };

// The sample order: m, T, D and C of each task, on four processors.
static const uint32_t WIDTHS[TASKS] = {2, 1, 1}, PERIODS[TASKS] = {10, 14, 14}, DEADLINES[TASKS] = {10, 13, 13}, RUNS[TASKS] = {4, 4, 4};

// No 0 byte ends a list, so that its length goes with it; the longest has room, so that it is never refused.
static void print_list(uint64_t set) {
    uint8_t list[JEFKANTU_MOST_LIST_BYTES];
    uint64_t word = jefkantu_write_list(set, list, sizeof list);
    printf("%.*s\n", (int)jefkantu_count(word), (const char *)list);
}

static int print_partitions(void) {
    uint8_t order[JEFKANTU_MOST_ORDER_BYTES], build[JEFKANTU_MOST_BUILD_BYTES];
    uint64_t sets[JEFKANTU_MOST_PARTITIONS];
    uint64_t word = jefkantu_write_order(4, WIDTHS, TASKS, PERIODS, TASKS, DEADLINES, TASKS, RUNS, TASKS, order, sizeof order);
    if (jefkantu_number(word) != 0) return refused(word);
    size_t order_len = jefkantu_count(word);
    word = jefkantu_plan(order, order_len, build, sizeof build);
    if (jefkantu_number(word) != 0) return refused(word);
    word = jefkantu_partition_sets(order, order_len, build, jefkantu_count(word), sets, JEFKANTU_MOST_PARTITIONS);
    if (jefkantu_number(word) != 0) return refused(word);
    for (uint32_t i = 0; i < jefkantu_count(word); i++) {
        printf("list %u ", i);
        print_list(sets[i]);
    }
    return 0;
}

int main(int count, char **arguments) {
    if (count < 2) return print_partitions();
    uint64_t set;
    uint64_t word = jefkantu_read_list((const uint8_t *)arguments[1], strlen(arguments[1]), &set);
    if (jefkantu_number(word) != 0) return refused(word);
    print_list(set);
    return 0;
}
