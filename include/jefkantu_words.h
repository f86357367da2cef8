// jefkantu_words.h: what the number of a refusal means, in words. bindings/c/words writes this file from
// bindings/python/causes.txt; edit that list, and not this file.
#ifndef JEFKANTU_WORDS_H
#define JEFKANTU_WORDS_H

#include <stddef.h>
#include <stdint.h>

// The words of a refusal's number; NULL for a number that the table does not have, as 0.
static inline const char *jefkantu_words(uint32_t number) {
    switch (number) {
        case 1: return "order under 3 bytes";
        case 2: return "order version not 1";
        case 3: return "M out of range";
        case 4: return "n out of range";
        case 5: return "order length";
        case 6: return "spare bit set in the order (header: no place)";
        case 7: return "m out of range";
        case 8: return "T out of range";
        case 9: return "D out of range";
        case 10: return "C out of range";
        case 11: return "first fit runs out";
        case 12: return "output shorter than the order, build, text, list, sets or script";
        case 13: return "the writer's columns differ in length";
        case 20: return "build under 3 bytes";
        case 21: return "build version not 1, M or n not the order's, or p not 1 to 32";
        case 22: return "build length";
        case 23: return "spare bit set in the build";
        case 24: return "place is a partition: volume 0, past M, or overlapping an earlier one";
        case 25: return "no such partition, or narrower than m";
        case 26: return "rank wrong";
        case 27: return "no window up to H";
        case 28: return "some start not found up to H";
        case 29: return "worst response over D";
        case 30: return "recorded response differs";
        case 40: return "script not a multiple of 6 bytes, or over 6,144";
        case 41: return "spare bit set";
        case 42: return "no such task";
        case 43: return "records out of order";
        case 44: return "length 0 or over C";
        case 45: return "releases closer than T";
        case 46: return "too few places for finish ticks";
        case 50: return "not m;T;D;C and a line feed: type m as digits, times in milliseconds as 7 or 7,5 or 7.50, and nothing else";
        case 51: return "a number over 1,048,575, times in ticks: type m up to M, and times up to 10000 milliseconds";
        case 52: return "more than 32 lines: type one for each task, at most 32";
        case 60: return "no list could have this byte here, or the text stops short: write numbers and ranges with commas between them, as 0-3,7, and nothing else";
        case 61: return "a number over 63: write processors as 0 to 63";
        case 62: return "a range that falls: write its lower number first";
        case 63: return "the build is not refused 29: the check names no late task to show";
        case 64: return "more than 1,024 records: the script that shows the late job is longer than a script may be";
        case 65: return "a text over 1,024 bytes: write each processor once";
        default: return NULL;
    }
}

// What the place of a refusal counts, "task", "partition", "record", "line" or "byte"; NULL where the number never has a
// place.
static inline const char *jefkantu_place_kind(uint32_t number) {
    switch (number) {
        case 6: return "task";
        case 7: return "task";
        case 8: return "task";
        case 9: return "task";
        case 10: return "task";
        case 11: return "task";
        case 24: return "partition";
        case 25: return "task";
        case 26: return "task";
        case 27: return "task";
        case 28: return "task";
        case 29: return "task";
        case 30: return "task";
        case 41: return "record";
        case 42: return "record";
        case 43: return "record";
        case 44: return "record";
        case 45: return "record";
        case 50: return "line";
        case 51: return "line";
        case 60: return "byte";
        case 61: return "byte";
        case 62: return "byte";
        default: return NULL;
    }
}

#endif
