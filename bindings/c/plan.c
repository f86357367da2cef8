// Plans the sample order, or the order in the file that is named, and prints its build as the printer does.
#include "show.h"

enum { TASKS = 3, FIELDS = 4 };

// The sample order as a form sends it: m, T, D and C of each task.
static const char *const SAMPLE[TASKS][FIELDS] = {{"2", "10", "10", "4"}, {"1", "14", "13", "4"}, {"1", "14", "13", "4"}};

// Each number goes through jefkantu_from_text, so that "7,5" is refused and never 7 or 75.
static uint64_t write_sample(uint8_t *order, size_t room) {
    uint32_t columns[FIELDS][TASKS];
    for (size_t i = 0; i < TASKS; i++) {
        for (size_t field = 0; field < FIELDS; field++) columns[field][i] = jefkantu_from_text(SAMPLE[i][field]);
    }
    uint32_t processors = jefkantu_from_signed(4);
    return jefkantu_write_order(processors, columns[0], TASKS, columns[1], TASKS, columns[2], TASKS, columns[3], TASKS, order, room);
}

// One byte more than the longest order, so that a longer file is refused.
static int read_file(const char *name, uint8_t *order, size_t room, size_t *size) {
    FILE *file = fopen(name, "rb");
    if (file != NULL) {
        *size = fread(order, 1, room, file);
        int broken = ferror(file);
        fclose(file);
        if (!broken) return 1;
    }
    perror(name);
    return 0;
}

int main(int count, char **arguments) {
    uint8_t order[JEFKANTU_MOST_ORDER_BYTES + 1];
    size_t order_len = 0;
    if (count > 1) {
        if (!read_file(arguments[1], order, sizeof order, &order_len)) return 2;
    } else {
        uint64_t written = write_sample(order, sizeof order);
        if (jefkantu_number(written) != 0) return refused(written);
        order_len = jefkantu_count(written);
    }
    return planned(order, order_len);
}
