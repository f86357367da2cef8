// Writes the script of P9, runs it through the sample build, and prints each record's finish tick.
#include "show.h"

enum { RECORDS = 3, RECORD_BYTES = 6 };

static const uint8_t ORDER[30] = {
    0x10, 0x81, 0x80,
    0x04, 0x00, 0x01, 0x40, 0x00, 0x14, 0x00, 0x00, 0x80,
    0x02, 0x00, 0x01, 0xC0, 0x00, 0x1A, 0x00, 0x00, 0x80,
    0x02, 0x00, 0x01, 0xC0, 0x00, 0x1A, 0x00, 0x00, 0x80,
};
static const uint8_t BUILD[19] = {
    0x10, 0x81, 0x82, 0x04, 0x00, 0x02, 0x10,
    0x00, 0x00, 0x00, 0x0E, 0x00, 0x20, 0x00, 0x10, 0x04, 0x00, 0x00, 0x08,
};

// Tick, task and length of each record, as 64-bit numbers.
static const uint64_t RELEASES[RECORDS][3] = {{0, 1, 4}, {1, 0, 4}, {1, 2, 3}};

// Tick 20 bits, task 5, length 20, spare 3; 0 where a number is more than its field holds, since it would be cut.
static int put_record(uint8_t *out, uint64_t tick, uint64_t task, uint64_t duration) {
    if (tick >> 20 != 0 || task >> 5 != 0 || duration >> 20 != 0) return 0;
    uint64_t bits = tick << 28 | task << 23 | duration << 3;
    for (size_t i = 0; i < RECORD_BYTES; i++) {
        out[i] = (uint8_t)(bits >> (8 * (RECORD_BYTES - 1 - i)) & 0xFF);
    }
    return 1;
}

int main(void) {
    uint8_t script[RECORDS * RECORD_BYTES];
    uint32_t finish[RECORDS];
    for (size_t i = 0; i < RECORDS; i++) {
        if (!put_record(script + RECORD_BYTES * i, RELEASES[i][0], RELEASES[i][1], RELEASES[i][2])) {
            fprintf(stderr, "record %zu: a number is more than its field holds\n", i);
            return 2;
        }
    }
    uint64_t word = jefkantu_run(ORDER, sizeof ORDER, BUILD, sizeof BUILD, script, sizeof script, finish, RECORDS);
    if (jefkantu_number(word) != 0) return refused(word);
    for (size_t i = 0; i < RECORDS; i++) printf("finish %zu %u\n", i, finish[i]);
    return 0;
}
