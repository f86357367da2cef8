// Lists of processors, written and read, and the sets of a build's partitions: each refusal with its place, and every
// byte of the caller's memory.
#include <stdio.h>
#include <string.h>

#include "expect.h"
#include "jefkantu.h"

enum { UNTOUCHED = 0xA5, PROCESSORS = 64, ROOM = 256, TEXT_ROOM = 2048, GUARD = 4, NONE = JEFKANTU_NO_PLACE };
enum { MOST_TEXT = JEFKANTU_MOST_LIST_TEXT_BYTES, MOST_PARTITIONS = JEFKANTU_MOST_PARTITIONS };

// The caller's memory for a list, and for sets, with a guard on either side.
struct bytes {
    uint8_t before[16], bytes[ROOM], after[16];
};
struct sets {
    uint64_t before[GUARD], sets[MOST_PARTITIONS + GUARD], after[GUARD];
};
static struct bytes out;
static struct sets given;

static void answers(const char *what, uint64_t word, uint32_t number, uint32_t place, size_t count) {
    expect(what, jefkantu_number(word) == number);
    expect(what, jefkantu_place(word) == place);
    expect(what, jefkantu_count(word) == count);
}

// Writing answers this, and the output holds what is counted in front and nothing else changed.
static void writes_in(const char *what, uint64_t set, size_t room, uint32_t number, const char *list, size_t count) {
    struct bytes wanted;
    memset(&wanted, UNTOUCHED, sizeof wanted);
    memcpy(wanted.bytes, list, count);
    memset(&out, UNTOUCHED, sizeof out);
    answers(what, jefkantu_write_list(set, out.bytes, room), number, NONE, count);
    expect(what, memcmp(&out, &wanted, sizeof out) == 0);
}

// Reading answers this, and only the set changes, where it is accepted.
static void reads_as(const char *what, const char *text, size_t size, uint32_t number, uint32_t place, uint64_t set) {
    struct sets wanted;
    memset(&wanted, UNTOUCHED, sizeof wanted);
    if (number == 0) wanted.sets[0] = set;
    memset(&given, UNTOUCHED, sizeof given);
    answers(what, jefkantu_read_list((const uint8_t *)text, size, given.sets), number, place, 0);
    expect(what, memcmp(&given, &wanted, sizeof given) == 0);
}

static void reads(const char *text, uint64_t set) { reads_as(text, text, strlen(text), 0, NONE, set); }

static void refuses(const char *text, uint32_t number, uint32_t byte) { reads_as(text, text, strlen(text), number, byte, 0); }

static int has(uint64_t set, uint32_t processor) { return processor < PROCESSORS && (set >> processor & 1) != 0; }

// From the first processor to the last.
static uint64_t range(uint32_t first, uint32_t last) {
    uint64_t set = 0;
    for (uint32_t i = first; i <= last; i++) set |= UINT64_C(1) << i;
    return set;
}

// The list of a set, by its definition.
static size_t list_of(uint64_t set, char *list) {
    size_t size = 0;
    list[0] = 0;
    for (uint32_t first = 0, last; first < PROCESSORS; first = last + 1) {
        last = first;
        if (!has(set, first)) continue;
        while (has(set, last + 1)) last++;
        size += (size_t)snprintf(list + size, ROOM - size, first == last ? "%s%u" : "%s%u-%u", size == 0 ? "" : ",", first, last);
    }
    return size;
}

// A set that is written, where it just fits too, and not in one byte less; and read back.
static void writes(const char *what, uint64_t set) {
    char list[ROOM];
    size_t count = list_of(set, list);
    writes_in(what, set, ROOM, 0, list, count);
    writes_in(what, set, count, 0, list, count);
    if (count > 0) writes_in(what, set, count - 1, 12, "", 0);
    if (count > 0) writes_in(what, set, 0, 12, "", 0);
    reads_as(what, list, count, 0, NONE, set);
}

// "rising, touching numbers joined, a pair as a range, a single one alone"
static void written(void) {
    static const struct { uint64_t set; const char *list; } CASES[] = {
        {0, ""}, {1, "0"}, {2, "1"}, {3, "0-1"}, {4, "2"}, {5, "0,2"}, {7, "0-2"}, {0x8F, "0-3,7"}, {0x18F, "0-3,7-8"},
        {0x600, "9-10"}, {0x200, "9"}, {0x400, "10"}, {UINT64_C(1) << 63, "63"}, {UINT64_C(3) << 62, "62-63"},
        {UINT64_MAX, "0-63"}, {UINT64_MAX - 1, "1-63"}, {UINT64_MAX / 2, "0-62"}, {UINT64_C(1) << 63 | 1, "0,63"},
        {UINT64_C(1) << 32, "32"}, {UINT64_C(0x180000000), "31-32"}, {UINT64_C(0xFFFFFFFF00000000), "32-63"},
    };
    for (size_t i = 0; i < sizeof CASES / sizeof CASES[0]; i++) {
        writes_in(CASES[i].list, CASES[i].set, ROOM, 0, CASES[i].list, strlen(CASES[i].list));
        writes(CASES[i].list, CASES[i].set);
    }
    for (uint32_t first = 0; first < PROCESSORS; first++) {
        for (uint32_t last = first; last < PROCESSORS; last++) {
            writes("a range", range(first, last));
            writes("all but a range", ~range(first, last));
            writes("two processors", range(first, first) | range(last, last));
        }
    }
}

static void longest(void) {
    static const char LONGEST[] = "0-1,3-4,6-7,9-10,12-13,15-16,18-19,21-22,24-25,27-28,30-31,33-34,36-37,39-40,42-43,45-46,48-49,"
                                  "51-52,54-55,57-58,60-61,63";
    uint64_t set = UINT64_C(0xB6DB6DB6DB6DB6DB);
    expect("the longest list", strlen(LONGEST) == JEFKANTU_MOST_LIST_BYTES);
    writes_in("the longest list", set, JEFKANTU_MOST_LIST_BYTES, 0, LONGEST, strlen(LONGEST));
    writes("the longest list", set);
}

// "Read any such list back, unsorted or overlapping too, as its set"; "Leading zeros are read."
static void read_back(void) {
    static const struct { const char *text; uint64_t set; } CASES[] = {
        {"", 0}, {"0-3,7", 0x8F}, {"7,0-3", 0x8F}, {"3,2,1,0,7", 0x8F}, {"0-2,1-3,7,7", 0x8F}, {"0,1,2,3,7-7", 0x8F},
        {"7,7,7", 0x80}, {"7-7", 0x80}, {"0,1", 3}, {"1,0", 3}, {"0-63,5", UINT64_MAX}, {"63,0-62", UINT64_MAX}, {"0-0,00-01", 3},
        {"007", 0x80}, {"0000-00003,0007", 0x8F}, {"063", UINT64_C(1) << 63}, {"00000000000000000000063", UINT64_C(1) << 63},
        {"0", 1}, {"00", 1}, {"9-10", 0x600}, {"09-010", 0x600}, {"62-63,0", UINT64_C(3) << 62 | 1},
    };
    for (size_t i = 0; i < sizeof CASES / sizeof CASES[0]; i++) reads(CASES[i].text, CASES[i].set);
}

// Each cause where it stands; where several apply, "the lowest place decides".
static void refused(void) {
    static const struct { const char *text; uint32_t number, byte; } CASES[] = {
        {",", 60, 0}, {"-", 60, 0}, {" ", 60, 0}, {"x", 60, 0}, {"\n", 60, 0}, {"0,", 60, 2}, {"0-", 60, 2}, {"0,,1", 60, 2},
        {",0", 60, 0}, {"-1", 60, 0}, {"+1", 60, 0}, {"0--1", 60, 2}, {"0-,1", 60, 2}, {"0-1-2", 60, 3}, {"0-1,", 60, 4}, {"0,-1", 60, 2},
        {"0 ", 60, 1}, {" 0", 60, 0}, {"0, 1", 60, 2}, {"0\n", 60, 1}, {"0-3,7\n", 60, 5}, {"0-3,7\r\n", 60, 5}, {"0-10:2", 60, 4},
        {"0-10:2/4", 60, 4}, {"all", 60, 0}, {"none", 60, 0}, {"0x1", 60, 1}, {"1e1", 60, 1}, {"0.5", 60, 1}, {"0;1", 60, 1}, {"0-N", 60, 2},
        {"0\xE2\x80\x93" "3", 60, 1}, {"\xEF\xBB\xBF" "0", 60, 0}, {"\xEF\xBC\x91", 60, 0},
        {"64", 61, 0}, {"0,64", 61, 2}, {"0-64", 61, 2}, {"64-64", 61, 0}, {"64-0", 61, 0}, {"1,0064", 61, 2}, {"99-98", 61, 0},
        {"63-64", 61, 3}, {"100", 61, 0}, {"640", 61, 0}, {"4294967296", 61, 0}, {"18446744073709551616", 61, 0},
        {"18446744073709551679", 61, 0}, {"0-4294967299", 61, 2}, {"3,2-0099,1", 61, 4},
        {"1-0", 62, 2}, {"7,3-0", 62, 4}, {"63-062", 62, 3}, {"10-9", 62, 3}, {"0010-0009", 62, 5}, {"0-3,3-0,1-0", 62, 6},
        {"64,", 61, 0}, {"64x", 61, 0}, {"0-64,", 61, 2}, {"0,,64", 60, 2}, {"x64", 60, 0}, {"1-0,", 62, 2}, {"1-0x", 62, 2},
        {"1-0-", 62, 2}, {"0,,1-0", 60, 2}, {"1-0,64", 62, 2}, {"64,1-0", 61, 0}, {"64-", 61, 0}, {"64--", 61, 0}, {"5-64-", 61, 2},
    };
    for (size_t i = 0; i < sizeof CASES / sizeof CASES[0]; i++) refuses(CASES[i].text, CASES[i].number, CASES[i].byte);
}

static int is_digit(char byte) { return byte >= '0' && byte <= '9'; }

// The lowest place at which the shape breaks: a digit may stand anywhere, a comma or dash behind a digit, a dash within no
// range; a text ends behind a digit. NONE where it does not break.
static size_t breaks_at(const char *text, size_t size) {
    int in_range = 0;
    for (size_t i = 0; i < size; i++) {
        int behind_digit = i > 0 && is_digit(text[i - 1]);
        if (text[i] == ',' ? !behind_digit : text[i] == '-' ? !behind_digit || in_range : !is_digit(text[i])) return i;
        in_range = text[i] == '-' || (in_range && text[i] != ',');
    }
    return size == 0 || is_digit(text[size - 1]) ? (size_t)NONE : size;
}

// The number with all its digits at a place, 64 for any larger one.
static uint32_t number_at(const char *text, size_t size, size_t at) {
    uint32_t value = 0;
    for (; at < size && is_digit(text[at]); at++) {
        value = 10 * value + (uint32_t)(text[at] - '0');
        if (value > PROCESSORS) value = PROCESSORS;
    }
    return value;
}

// A text of any bytes is read as its definition says: place by place up to where its shape breaks.
static void reads_by_definition(const char *what, const char *text, size_t size) {
    size_t broken = breaks_at(text, size);
    uint64_t set = 0;
    uint32_t first = 0;
    for (size_t i = 0; i < size && i < broken; i++) {
        if (!is_digit(text[i]) || (i > 0 && is_digit(text[i - 1]))) continue;
        uint32_t value = number_at(text, size, i);
        int second = i > 0 && text[i - 1] == '-';
        if (value == PROCESSORS || (second && value < first)) {
            reads_as(what, text, size, value == PROCESSORS ? 61 : 62, (uint32_t)i, 0);
            return;
        }
        set |= second ? range(first, value) : range(value, value);
        first = value;
    }
    reads_as(what, text, size, broken == NONE ? 0 : 60, (uint32_t)broken, set);
}

// Each byte at each position of a list, in place of the one that is there and before it; and each of its fronts.
static void any_byte(void) {
    static const char LIST[] = "0-3,07,60-63,9,1-2";
    size_t size = strlen(LIST);
    for (unsigned byte = 0; byte < 256; byte++) {
        for (size_t at = 0; at <= size; at++) {
            char text[sizeof LIST + 1];
            memcpy(text, LIST, size);
            text[at] = (char)byte;
            reads_by_definition("a byte that is another", text, at < size ? size : size + 1);
            memcpy(text + at + 1, LIST + at, size - at);
            reads_by_definition("a byte more", text, size + 1);
        }
    }
    for (size_t front = 0; front <= size; front++) reads_by_definition("a front", LIST, front);
}

static uint64_t seed = 1;

static uint32_t below(uint32_t limit) {
    seed = seed * UINT64_C(6364136223846793005) + UINT64_C(1442695040888963407);
    return (uint32_t)(seed >> 33) % limit;
}

// Texts of the bytes that lists have, seldom of another; most of them short.
static void any_text(void) {
    static const char BYTES[] = "0123456,,--";
    static char text[MOST_TEXT];
    for (int round = 0; round < 100000; round++) {
        size_t size = below(round % 100 == 0 ? MOST_TEXT + 1 : 16);
        for (size_t i = 0; i < size; i++) text[i] = below(100) == 0 ? (char)below(256) : BYTES[below(sizeof BYTES - 1)];
        reads_by_definition("any text", text, size);
    }
}

// Items of any order with leading zeros, most of them no more than 63 and rising.
static void any_items(void) {
    static char text[TEXT_ROOM];
    for (int round = 0; round < 20000; round++) {
        size_t size = 0;
        for (uint32_t i = below(20); i > 0; i--) {
            int zeros = (int)below(4);
            uint32_t limit = below(20) == 0 ? 70 : PROCESSORS, first = below(limit), last = first + below(limit - first);
            if (below(50) == 0) last = below(limit);
            const char *comma = size == 0 ? "" : ",";
            size += (size_t)snprintf(text + size, sizeof text - size, below(2) == 0 ? "%s%0*u" : "%s%0*u-%0*u", comma, zeros, first, zeros, last);
        }
        reads_by_definition("any items", text, size);
    }
}

// "two sets give the same written bytes exactly when equal": each is read back as itself.
static void there_and_back(void) {
    for (int round = 0; round < 100000; round++) {
        uint64_t set = (uint64_t)below(UINT32_C(1) << 31) << 33 ^ (uint64_t)below(UINT32_C(1) << 31) << 16 ^ below(1 << 16);
        for (uint32_t i = below(6); i > 0; i--) set = below(2) == 0 ? set | set << below(PROCESSORS) : set & set >> below(PROCESSORS);
        writes("a set there and back", set);
    }
}

// "65 a text over 1,024 bytes, no place, first"
static void length_limited(void) {
    static char text[TEXT_ROOM];
    memset(text, '0', sizeof text);
    reads_as("the longest text", text, MOST_TEXT, 0, NONE, 1);
    reads_as("one byte more", text, MOST_TEXT + 1, 65, NONE, 0);
    reads_as("many bytes more", text, sizeof text, 65, NONE, 0);
    text[MOST_TEXT - 1] = '7';
    reads_as("many zeros and 7", text, MOST_TEXT, 0, NONE, 0x80);
    text[MOST_TEXT - 1] = 'x';
    reads_as("60 at the last byte", text, MOST_TEXT, 60, MOST_TEXT - 1, 0);
    text[MOST_TEXT - 1] = ',';
    reads_as("60 at the longest text's length", text, MOST_TEXT, 60, MOST_TEXT, 0);
    text[0] = '9';
    reads_as("a number of many digits", text, MOST_TEXT, 61, 0, 0);
    text[0] = 'x';
    reads_as("60 at the first byte", text, MOST_TEXT, 60, 0, 0);
    reads_as("65 before 60", text, MOST_TEXT + 1, 65, NONE, 0);
    for (size_t i = 0; i < sizeof text; i++) text[i] = "1,"[i % 2];
    reads_as("the most items", text, MOST_TEXT - 1, 0, NONE, 2);
    memcpy(text + 1020, "3-2,", 4);
    reads_as("62 near the end", text, MOST_TEXT, 62, 1022, 0);
    memcpy(text + 1020, "0064", 4);
    reads_as("61 near the end", text, MOST_TEXT, 61, 1020, 0);
    reads_as("65 before 61", text, MOST_TEXT + 1, 65, NONE, 0);
}

static const uint8_t SAMPLE_ORDER[30] = {
    0x10, 0x81, 0x80,
    0x04, 0x00, 0x01, 0x40, 0x00, 0x14, 0x00, 0x00, 0x80,
    0x02, 0x00, 0x01, 0xC0, 0x00, 0x1A, 0x00, 0x00, 0x80,
    0x02, 0x00, 0x01, 0xC0, 0x00, 0x1A, 0x00, 0x00, 0x80,
};
static const uint8_t SAMPLE_BUILD[19] = {
    0x10, 0x81, 0x82, 0x04, 0x00, 0x02, 0x10,
    0x00, 0x00, 0x00, 0x0E, 0x00, 0x20, 0x00, 0x10, 0x04, 0x00, 0x00, 0x08,
};

// The answer, and all that the output holds: the sets that are counted in front, and nothing else changed.
static void gives(const char *what, const uint8_t *order, size_t order_len, const uint8_t *build, size_t build_len, size_t room,
                  uint32_t number, uint32_t place, const uint64_t *sets, size_t count) {
    struct sets wanted;
    memset(&wanted, UNTOUCHED, sizeof wanted);
    if (count > 0) memcpy(wanted.sets, sets, count * sizeof *sets);
    memset(&given, UNTOUCHED, sizeof given);
    answers(what, jefkantu_partition_sets(order, order_len, build, build_len, given.sets, room), number, place, count);
    expect(what, memcmp(&given, &wanted, sizeof given) == 0);
}

// The sample with a build of the same length, in room for so many sets.
static void sample_gives(const char *what, const uint8_t *build, size_t room, uint32_t number, uint32_t place, const uint64_t *sets, size_t count) {
    gives(what, SAMPLE_ORDER, sizeof SAMPLE_ORDER, build, sizeof SAMPLE_BUILD, room, number, place, sets, count);
}

static void sample(void) {
    static const uint64_t SETS[2] = {3, 4};
    for (size_t room = 2; room <= MOST_PARTITIONS; room++) sample_gives("the sample's sets", SAMPLE_BUILD, room, 0, NONE, SETS, 2);
    sample_gives("one place for two sets", SAMPLE_BUILD, 1, 12, NONE, NULL, 0);
    sample_gives("no place", SAMPLE_BUILD, 0, 12, NONE, NULL, 0);
    writes_in("partition 0", SETS[0], ROOM, 0, "0-1", 3);
    writes_in("partition 1", SETS[1], ROOM, 0, "2", 1);
}

// The check's refusals come before 12.
static void builds_refused(void) {
    static const struct { size_t at; uint8_t byte; uint32_t number, place; } CASES[] = {
        {0, 0x20, 21, NONE}, {2, 0x83, 22, NONE}, {18, 0x09, 23, NONE}, {3, 0x00, 24, 0}, {6, 0x20, 24, 1}, {6, 0x08, 24, 1},
        {15, 0x08, 25, 2}, {12, 0x00, 26, 1}, {18, 0x0A, 30, 2},
    };
    for (size_t size = 0; size < sizeof SAMPLE_BUILD; size++) {
        gives("a front of the build", SAMPLE_ORDER, sizeof SAMPLE_ORDER, SAMPLE_BUILD, size, MOST_PARTITIONS, size < 3 ? 20 : 22, NONE, NULL, 0);
    }
    for (size_t size = 0; size < sizeof SAMPLE_ORDER; size++) {
        gives("a front of the order", SAMPLE_ORDER, size, SAMPLE_BUILD, sizeof SAMPLE_BUILD, 0, size < 3 ? 1 : 5, NONE, NULL, 0);
    }
    for (size_t i = 0; i < sizeof CASES / sizeof CASES[0]; i++) {
        uint8_t build[sizeof SAMPLE_BUILD];
        memcpy(build, SAMPLE_BUILD, sizeof build);
        build[CASES[i].at] = CASES[i].byte;
        sample_gives("a build that is changed", build, MOST_PARTITIONS, CASES[i].number, CASES[i].place, NULL, 0);
        sample_gives("and no room", build, 0, CASES[i].number, CASES[i].place, NULL, 0);
    }
}

// Any order that is planned: a set for each partition, apart, below M, with as many processors as its volume.
static void planned(void) {
    uint32_t columns[4][MOST_PARTITIONS], processors = 1 + below(PROCESSORS), tasks = 1 + below(32);
    for (uint32_t i = 0; i < tasks; i++) {
        columns[0][i] = 1 + below(processors < 8 ? processors : 8);
        columns[1][i] = columns[2][i] = 100;
        columns[3][i] = 1 + below(100);
    }
    uint8_t order[JEFKANTU_MOST_ORDER_BYTES], build[JEFKANTU_MOST_BUILD_BYTES];
    uint64_t word = jefkantu_write_order(processors, columns[0], tasks, columns[1], tasks, columns[2], tasks, columns[3], tasks, order, sizeof order);
    size_t order_len = jefkantu_count(word), build_len = jefkantu_count(jefkantu_plan(order, order_len, build, sizeof build));
    if (build_len == 0) return;
    uint64_t sets[MOST_PARTITIONS], used = 0;
    size_t partitions = build[2] % 128;
    for (size_t i = 0; i < partitions; i++) {
        uint32_t place = (uint32_t)build[3 + 2 * i] << 8 | build[4 + 2 * i], volume = place >> 9, first = place >> 3 & 63;
        sets[i] = range(first, first + volume - 1);
        expect("apart and below M", (used & sets[i]) == 0 && first + volume <= processors);
        used |= sets[i];
    }
    gives("the sets of a plan", order, order_len, build, build_len, MOST_PARTITIONS, 0, NONE, sets, partitions);
    gives("in as many places", order, order_len, build, build_len, partitions, 0, NONE, sets, partitions);
    gives("in one place less", order, order_len, build, build_len, partitions - 1, 12, NONE, NULL, 0);
}

// The widest partition, the most partitions, and any.
static void plans(void) {
    static const uint32_t WIDTHS[] = {64, 2};
    for (size_t i = 0; i < 2; i++) {
        uint32_t tasks = PROCESSORS / WIDTHS[i], widths[MOST_PARTITIONS], times[MOST_PARTITIONS];
        uint64_t sets[MOST_PARTITIONS];
        for (uint32_t k = 0; k < tasks; k++) {
            widths[k] = WIDTHS[i];
            times[k] = 10;
            sets[k] = range(k * WIDTHS[i], (k + 1) * WIDTHS[i] - 1);
        }
        uint8_t order[JEFKANTU_MOST_ORDER_BYTES], build[JEFKANTU_MOST_BUILD_BYTES];
        uint64_t word = jefkantu_write_order(64, widths, tasks, times, tasks, times, tasks, times, tasks, order, sizeof order);
        size_t order_len = jefkantu_count(word), build_len = jefkantu_count(jefkantu_plan(order, order_len, build, sizeof build));
        gives("partitions of one width", order, order_len, build, build_len, MOST_PARTITIONS, 0, NONE, sets, tasks);
    }
    for (int round = 0; round < 1000; round++) planned();
}

// What a call writes to may lie beside what it reads.
static void beside(void) {
    uint64_t memory[3] = {0, 0, 0};
    uint8_t *text = (uint8_t *)&memory[1];
    memcpy(text, "0-3,7,63", 8);
    expect("a set before its list", jefkantu_number(jefkantu_read_list(text, 8, &memory[0])) == 0);
    expect("a set after its list", jefkantu_number(jefkantu_read_list(text, 8, &memory[2])) == 0);
    expect("the list is as it was", memcmp(text, "0-3,7,63", 8) == 0);
    expect("both are its set", memory[0] == (UINT64_C(1) << 63 | 0x8F) && memory[2] == memory[0]);
    uint8_t whole[sizeof SAMPLE_ORDER + sizeof SAMPLE_BUILD];
    memcpy(whole, SAMPLE_ORDER, sizeof SAMPLE_ORDER);
    memcpy(whole + sizeof SAMPLE_ORDER, SAMPLE_BUILD, sizeof SAMPLE_BUILD);
    uint64_t word = jefkantu_partition_sets(whole, sizeof SAMPLE_ORDER, whole + sizeof SAMPLE_ORDER, sizeof SAMPLE_BUILD, memory, 3);
    expect("sets of one memory", jefkantu_number(word) == 0 && memory[0] == 3 && memory[1] == 4);
}

int main(void) {
    written();
    longest();
    read_back();
    refused();
    any_byte();
    any_text();
    any_items();
    there_and_back();
    length_limited();
    sample();
    builds_refused();
    plans();
    beside();
    printf("%d checks passed\n", passed);
    return failed != 0;
}
