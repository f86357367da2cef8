// What the examples print: a refusal, and a build as the printer does.
#ifndef SHOW_H
#define SHOW_H

#include <stdio.h>

#include "jefkantu.h"
#include "jefkantu_words.h"

static inline int refused(uint64_t word) {
    uint32_t number = jefkantu_number(word), place = jefkantu_place(word);
    const char *kind = jefkantu_place_kind(number), *words = jefkantu_words(number);
    fprintf(stderr, "refused %u", number);
    if (place != JEFKANTU_NO_PLACE) fprintf(stderr, " at %s %u", kind ? kind : "place", place);
    fprintf(stderr, ": %s\n", words ? words : "a cause that the table does not have");
    return 1;
}

// The next bits of a build as a number, most significant bit first.
static inline uint32_t take(const uint8_t *bytes, size_t *at, size_t width) {
    uint32_t value = 0;
    for (size_t end = *at + width; *at < end; (*at)++) {
        value = value << 1 | (bytes[*at / 8] >> (7 - *at % 8) & 1u);
    }
    return value;
}

// A build that was planned: its header, p partition records, n task records.
static inline void print_build(const uint8_t *build) {
    size_t at = 4;
    uint32_t processors = take(build, &at, 7), tasks = take(build, &at, 6), partitions = take(build, &at, 7);
    printf("build %u %u %u\n", processors, tasks, partitions);
    for (uint32_t i = 0; i < partitions; i++, at += 3) {
        uint32_t volume = take(build, &at, 7), first = take(build, &at, 6);
        printf("part %u %u %u\n", i, volume, first);
    }
    for (uint32_t i = 0; i < tasks; i++, at += 1) {
        uint32_t partition = take(build, &at, 6), rank = take(build, &at, 5), response = take(build, &at, 20);
        printf("task %u %u %u %u\n", i, partition, rank, response);
    }
}

// Plans an order and prints its build, or why there is none.
static inline int planned(const uint8_t *order, size_t order_len) {
    uint8_t build[JEFKANTU_MOST_BUILD_BYTES];
    uint64_t word = jefkantu_plan(order, order_len, build, sizeof build);
    if (jefkantu_number(word) != 0) return refused(word);
    print_build(build);
    return 0;
}

#endif
