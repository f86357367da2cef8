// What jefkantu_run does where its finish ticks overlap its script, which the header forbids: each try in a process of
// its own, ended after some seconds. Takes the number of tries, the seconds, and a seed.
#define _XOPEN_SOURCE 700
#include <stdio.h>
#include <stdlib.h>
#include <string.h>
#include <sys/wait.h>
#include <time.h>
#include <unistd.h>

#include "jefkantu.h"

enum { TASKS = 32, RECORD_BYTES = 6, SCRIPT_BYTES = JEFKANTU_MOST_RECORDS * RECORD_BYTES, TICK_BYTES = 4 };
enum { TICKS_BYTES = JEFKANTU_MOST_RECORDS * TICK_BYTES, ROOM = TICKS_BYTES + SCRIPT_BYTES + TICKS_BYTES };
enum { REFUSED = 1, RIGHT = 2, WRONG = 3 };

static uint8_t order[JEFKANTU_MOST_ORDER_BYTES], build[JEFKANTU_MOST_BUILD_BYTES], script[SCRIPT_BYTES];
static size_t order_len, build_len, records;
static double longest;
static uint32_t finish[JEFKANTU_MOST_RECORDS];
static uint32_t memory[ROOM / TICK_BYTES];

static uint64_t seed = 1;

static uint32_t below(uint32_t limit) {
    seed = seed * UINT64_C(6364136223846793005) + UINT64_C(1442695040888963407);
    return (uint32_t)(seed >> 33) % limit;
}

static double now(void) {
    struct timespec time;
    clock_gettime(CLOCK_MONOTONIC, &time);
    return (double)time.tv_sec + (double)time.tv_nsec / 1e9;
}

static void put_record(size_t i, uint32_t tick, uint32_t task, uint32_t duration) {
    uint64_t bits = (uint64_t)tick << 28 | (uint64_t)task << 23 | (uint64_t)duration << 3;
    for (size_t k = 0; k < RECORD_BYTES; k++) {
        script[RECORD_BYTES * i + k] = (uint8_t)(bits >> (8 * (RECORD_BYTES - 1 - k)));
    }
}

// 32 tasks of a width in some partitions, and a script of any length: every task again and again.
static void prepare(void) {
    uint32_t widths[TASKS], periods[TASKS], deadlines[TASKS], runs[TASKS];
    uint32_t width = 1 + below(8), period = 1000, run = 10 + below(20);
    for (size_t i = 0; i < TASKS; i++) {
        widths[i] = width;
        periods[i] = deadlines[i] = period;
        runs[i] = run;
    }
    uint64_t word = jefkantu_write_order(64, widths, TASKS, periods, TASKS, deadlines, TASKS, runs, TASKS, order, sizeof order);
    order_len = jefkantu_count(word);
    word = jefkantu_plan(order, order_len, build, sizeof build);
    build_len = jefkantu_count(word);
    records = 1 + below(JEFKANTU_MOST_RECORDS);
    for (size_t i = 0; i < records; i++) {
        uint32_t task = (uint32_t)(i % TASKS);
        put_record(i, (uint32_t)(i / TASKS) * (period + 100) + task * 31, task, 1 + below(run));
    }
    double from = now();
    word = jefkantu_run(order, order_len, build, build_len, script, RECORD_BYTES * records, finish, records);
    double took = now() - from;
    longest = longest < took ? took : longest;
    if (jefkantu_number(word) != 0) {
        printf("the script of a try is refused %u\n", jefkantu_number(word));
        exit(1);
    }
}

// The call with ticks that begin at an offset of the memory that has the script in its middle.
static int overlapping(size_t at) {
    uint8_t *bytes = (uint8_t *)memory;
    size_t script_len = RECORD_BYTES * records;
    memcpy(bytes + TICKS_BYTES, script, script_len);
    uint64_t word = jefkantu_run(order, order_len, build, build_len, bytes + TICKS_BYTES, script_len, memory + at / TICK_BYTES, records);
    if (jefkantu_number(word) != 0) return REFUSED;
    return memcmp(bytes + at, finish, TICK_BYTES * records) == 0 ? RIGHT : WRONG;
}

int main(int argc, char **argv) {
    int tries = argc > 1 ? atoi(argv[1]) : 40, slow = 0, ended = 0, kinds[4] = {0, 0, 0, 0};
    unsigned seconds = argc > 2 ? (unsigned)atoi(argv[2]) : 5;
    seed = argc > 3 ? (uint64_t)atoi(argv[3]) : 1;
    for (int i = 0; i < tries; i++) {
        prepare();
        // From one tick over the script's first bytes to one tick over its last.
        size_t ticks = TICK_BYTES * records, places = (TICK_BYTES + RECORD_BYTES) * records / TICK_BYTES - 1;
        size_t at = TICKS_BYTES - ticks + TICK_BYTES * (1 + below((uint32_t)places));
        double from = now();
        pid_t child = fork();
        if (child == 0) {
            alarm(seconds);
            _exit(overlapping(at));
        }
        int status = 0;
        waitpid(child, &status, 0);
        slow += now() - from > 1;
        ended += WIFSIGNALED(status);
        kinds[WIFEXITED(status) ? WEXITSTATUS(status) : 0]++;
    }
    printf("%d tries: %d took over a second, %d were ended after %u seconds; of the others %d answered 0 with the right ticks, "
           "%d answered 0 with wrong ticks, %d refused\n", tries, slow, ended, seconds, kinds[RIGHT], kinds[WRONG], kinds[REFUSED]);
    printf("without overlap the longest call took %.2f ms\n", 1000 * longest);
    return 0;
}
