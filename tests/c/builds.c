// The sample order planned, its build checked and run, and each refused where it must be.
#include <stdio.h>
#include <string.h>

#include "expect.h"
#include "jefkantu.h"

static const uint8_t order[30] = {
    0x10, 0x81, 0x80,
    0x04, 0x00, 0x01, 0x40, 0x00, 0x14, 0x00, 0x00, 0x80,
    0x02, 0x00, 0x01, 0xC0, 0x00, 0x1A, 0x00, 0x00, 0x80,
    0x02, 0x00, 0x01, 0xC0, 0x00, 0x1A, 0x00, 0x00, 0x80,
};

static const uint8_t build[19] = {
    0x10, 0x81, 0x82, 0x04, 0x00, 0x02, 0x10,
    0x00, 0x00, 0x00, 0x0E, 0x00, 0x20, 0x00, 0x10, 0x04, 0x00, 0x00, 0x08,
};

static void answers(const char *what, uint64_t word, uint32_t number, uint32_t place, uint32_t count) {
    expect(what, jefkantu_number(word) == number);
    expect(what, jefkantu_place(word) == place);
    expect(what, jefkantu_count(word) == count);
}

// Every byte from a position on is still the filler.
static int untouched(const uint8_t *bytes, size_t from, size_t to) {
    for (size_t i = from; i < to; i++) {
        if (bytes[i] != 0xEE) {
            return 0;
        }
    }
    return 1;
}

static void plans(void) {
    uint8_t out[JEFKANTU_MOST_BUILD_BYTES];
    memset(out, 0xEE, sizeof out);
    answers("the sample is planned", jefkantu_plan(order, sizeof order, out, sizeof out), 0, JEFKANTU_NO_PLACE, 19);
    expect("its build is the document's", memcmp(out, build, sizeof build) == 0);
    expect("only the counted front changes", untouched(out, sizeof build, sizeof out));
    memset(out, 0xEE, sizeof out);
    answers("18 bytes are too few", jefkantu_plan(order, sizeof order, out, 18), 12, JEFKANTU_NO_PLACE, 0);
    expect("a refusal changes nothing", untouched(out, 0, sizeof out));

    uint8_t narrow[sizeof order];
    memcpy(narrow, order, sizeof order);
    narrow[1] = 0x41;
    answers("two processors are too few", jefkantu_plan(narrow, sizeof narrow, out, sizeof out), 11, 2, 0);
    narrow[1] = 0x61;
    answers("three are enough", jefkantu_plan(narrow, sizeof narrow, out, sizeof out), 0, JEFKANTU_NO_PLACE, 19);
}

static void checks(void) {
    answers("the sample build is right", jefkantu_check(order, sizeof order, build, sizeof build), 0, JEFKANTU_NO_PLACE, 0);
    uint8_t other[sizeof build];
    memcpy(other, build, sizeof build);
    other[18] ^= 0x02;
    answers("a response that was invented", jefkantu_check(order, sizeof order, other, sizeof other), 30, 2, 0);
    memcpy(other, build, sizeof build);
    other[5] = 0x08;
    answers("a partition past M", jefkantu_check(order, sizeof order, other, sizeof other), 24, 1, 0);
    answers("no build at all", jefkantu_check(order, sizeof order, other, 0), 20, JEFKANTU_NO_PLACE, 0);
}

// "P9: in the sample build, releases (tick, task, length) (0,1,4), (1,0,4), (1,2,3) finish at 4, 8, 4."
static void runs(void) {
    static const uint8_t script[18] = {
        0x00, 0x00, 0x00, 0x80, 0x00, 0x20,
        0x00, 0x00, 0x10, 0x00, 0x00, 0x20,
        0x00, 0x00, 0x11, 0x00, 0x00, 0x18,
    };
    uint32_t out[5] = {7, 7, 7, 7, 7};
    answers("the script of P9 runs", jefkantu_run(order, sizeof order, build, sizeof build, script, sizeof script, out, 5), 0, JEFKANTU_NO_PLACE, 3);
    expect("its jobs finish at 4, 8 and 4", out[0] == 4 && out[1] == 8 && out[2] == 4);
    expect("only the counted front changes", out[3] == 7 && out[4] == 7);
    answers("an empty script is done", jefkantu_run(order, sizeof order, build, sizeof build, script, 0, out, 0), 0, JEFKANTU_NO_PLACE, 0);
    answers("two places are too few", jefkantu_run(order, sizeof order, build, sizeof build, script, sizeof script, out, 2), 46, JEFKANTU_NO_PLACE, 0);
    answers("five bytes are no record", jefkantu_run(order, sizeof order, build, sizeof build, script, 5, out, 5), 40, JEFKANTU_NO_PLACE, 0);
}

int main(void) {
    plans();
    checks();
    runs();
    printf("%d checks passed\n", passed);
    return failed != 0;
}
