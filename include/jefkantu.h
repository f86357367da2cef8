// jefkantu.h: the planner of camera boxes for C and C++. Link with libjefkantu.a, and with the C library for its memcpy
// and memset.
//
// NUMBERS. The library is proved over 32-bit numbers, and C cuts a larger number to 32 bits without a word: 2^32 + 75
// arrives as 75, -1 as a large number, 7.5 as 7. Hand numbers over by jefkantu_from_unsigned, jefkantu_from_signed,
// jefkantu_from_real or jefkantu_from_text: whatever is no 32-bit number becomes JEFKANTU_NO_NUMBER, which is over every
// limit, so that it is refused by name. Compile with -Wconversion, which finds the numbers that go round them. The text
// of an order form goes to jefkantu_read_text as it was typed, every byte of it. A set of processors is a 64-bit number,
// and each one is a set; hand it over as it is. -1 arrives as all 64 processors, and 7.5 as 7, processors 0, 1 and 2:
// -Wsign-conversion and -Wconversion find these.
//
// BYTES. An order, a build, a script, a text and a list are bytes; docs/FORMATS.md has each bit of them, with a sample:
//   order:  3 bytes of header (version, M, n), then 9 for each task (m, T, D, C)
//   build:  3 bytes of header (version, M, n, p), then 2 for each partition (volume, first processor), then 4 for each
//           task (partition, rank, worst response)
//   script: 6 bytes for each record (tick, task, length)
//   text:   a line m;T;D;C for each task, ended by a line feed, its times in milliseconds: 7,5 and 7.50 are 750 ticks
//   list:   the processors of a set, numbers and ranges with commas between them, as the kernel's cpuset(7) and taskset
//           take them: 0-3,7. A set is a 64-bit word, processor 0 its lowest bit: 0x8F
//
// MEMORY. What is lent is what the proofs rest on:
// - A length counts items from its pointer on, all of them readable, or writable where the call writes.
// - With length 0 a pointer may be NULL: nothing is read or written through it (tests/c/numbers.c tries each).
// - A pointer to uint32_t is aligned as a uint32_t is, one to uint64_t as a uint64_t is; bytes have no alignment.
// - What a call writes to must overlap nothing else that it is lent, and nothing may change what it is lent while it
//   runs. What a call only reads may overlap. Each function says what that means for it. Where it is broken, the
//   proofs say nothing of that call: neither what it answers, nor what it leaves in what it writes to, nor that it ends.
// - The library has no state: no global, no heap, no file, no lock. Any threads may call it at once, each with its own
//   output; the same bytes may be lent to many calls that read them.
// - A call takes less than 16,384 bytes of stack. That is measured (tests/c/stack.c) and not proved.
//
// jefkantu_words.h has the words of each refusal.
#ifndef JEFKANTU_H
#define JEFKANTU_H

#include <stddef.h>
#include <stdint.h>

#ifdef __cplusplus
extern "C" {
#endif

// The place where none applies.
#define JEFKANTU_NO_PLACE 65535

// The length of the longest order, in bytes: 32 tasks.
#define JEFKANTU_MOST_ORDER_BYTES 291

// The length of the longest text that is written, in bytes: 32 lines. One that is read may be longer.
#define JEFKANTU_MOST_TEXT_BYTES 960

// The length of the longest build, in bytes: 32 partitions and 32 tasks.
#define JEFKANTU_MOST_BUILD_BYTES 195

// The length of the longest list that is written, in bytes; no 0 byte ends it.
#define JEFKANTU_MOST_LIST_BYTES 121

// The length of the longest text that is read as a list, in bytes.
#define JEFKANTU_MOST_LIST_TEXT_BYTES 1024

// The most partitions of a build, and so the most sets of one.
#define JEFKANTU_MOST_PARTITIONS 32

// The most records of a script, and so the most finish ticks of a run.
#define JEFKANTU_MOST_RECORDS 1024

// The length of the longest script, in bytes: 1,024 records.
#define JEFKANTU_MOST_SCRIPT_BYTES 6144

// An order read, as numbers: M, n, then m, T, D and C of 32 tasks, zero past the n tasks.
#define JEFKANTU_ORDER_NUMBERS 130

// What stands for a number that does not fit: as M it is refused 3, as m, T, D and C it is refused 7, 8, 9 and 10.
#define JEFKANTU_NO_NUMBER UINT32_MAX

// A 32-bit number of any unsigned one; of a signed one too, since a negative number is converted to a large one.
static inline uint32_t jefkantu_from_unsigned(uint64_t value) {
    return value < JEFKANTU_NO_NUMBER ? (uint32_t)value : JEFKANTU_NO_NUMBER;
}

// A 32-bit number of any signed one.
static inline uint32_t jefkantu_from_signed(int64_t value) {
    return value < 0 ? JEFKANTU_NO_NUMBER : jefkantu_from_unsigned((uint64_t)value);
}

// A 32-bit number of a real one that is whole; 7.5 is none.
static inline uint32_t jefkantu_from_real(double value) {
    if (!(value >= 0 && value < JEFKANTU_NO_NUMBER)) return JEFKANTU_NO_NUMBER;
    uint32_t whole = (uint32_t)value;
    return whole < value ? JEFKANTU_NO_NUMBER : whole;
}

// A 32-bit number of text that is digits and nothing else; "7,5", "7.5", "-1", " 7", "" and NULL are none.
static inline uint32_t jefkantu_from_text(const char *text) {
    uint64_t value = 0;
    if (text == NULL || *text == 0) return JEFKANTU_NO_NUMBER;
    for (; *text != 0; text++) {
        if (*text < '0' || *text > '9') return JEFKANTU_NO_NUMBER;
        value = jefkantu_from_unsigned(10 * value + (uint64_t)(*text - '0'));
    }
    return jefkantu_from_unsigned(value);
}

// Every call answers one word: number + place * 2^16 + count * 2^32.

// The number of an answer: 0 is done, any other is the cause of the refusal.
static inline uint32_t jefkantu_number(uint64_t word) { return (uint32_t)(word % 65536); }

// The place of an answer: the task, partition, record, line or byte of a refusal, or JEFKANTU_NO_PLACE.
static inline uint32_t jefkantu_place(uint64_t word) { return (uint32_t)(word / 65536 % 65536); }

// The count of an answer: bytes, finish ticks or sets written, 0 on refusal.
static inline uint32_t jefkantu_count(uint64_t word) { return (uint32_t)(word >> 32); }

// Reads an order: 1 to 6 in turn, then task by task 7 to 10; a refusal leaves the numbers as they were.
// The numbers must not overlap the order. Where they do, the order's bytes are written over.
uint64_t jefkantu_read_order(const uint8_t *order, size_t order_len,
                             uint32_t (*numbers)[JEFKANTU_ORDER_NUMBERS]);

// Writes M and four columns as an order: 13, 3, 4, then task by task 7 to 10, then 12; a refusal leaves the output as it
// was, and success changes only the counted front.
// The output must overlap no column; columns may overlap each other. Where it does, the order that is written may be
// another than the columns said.
uint64_t jefkantu_write_order(uint32_t processors,
                              const uint32_t *widths, size_t widths_len,
                              const uint32_t *periods, size_t periods_len,
                              const uint32_t *deadlines, size_t deadlines_len,
                              const uint32_t *runs, size_t runs_len,
                              uint8_t *out, size_t out_len);

// Reads M and the text of an order form, and writes their order: 52, then line by line 50 and 51, then the writer's 3, 4,
// 7 to 10 and 12; a refusal leaves the output as it was, and success changes only the counted front.
// A text is any bytes of any length, and no 0 byte ends it. One of no bytes has no task: 3 or 4.
// The output must not overlap the text. Where it does, the text's bytes are written over by the order.
uint64_t jefkantu_read_text(uint32_t processors, const uint8_t *text, size_t text_len, uint8_t *out, size_t out_len);

// Writes an order as text, its times with a point and two decimals: the order's 1 to 10, then 12; a refusal leaves the
// output as it was, and success changes only the counted front. Read back beside the order's M, it gives the same order.
// The output must not overlap the order. Where it does, the order's bytes are written over by the text.
uint64_t jefkantu_write_text(const uint8_t *order, size_t order_len, uint8_t *out, size_t out_len);

// Plans an order: the order's 1 to 10, then 11, then 12; a refusal leaves the output as it was, and success writes the
// build into its counted front.
// The output must not overlap the order. Where it does, the order's bytes are written over by the build.
uint64_t jefkantu_plan(const uint8_t *order, size_t order_len, uint8_t *out, size_t out_len);

// Checks a build against an order: the order's 1 to 10, then 20 to 30; 0 says that every rule holds.
// Nothing is written, so order and build may overlap.
uint64_t jefkantu_check(const uint8_t *order, size_t order_len,
                        const uint8_t *build, size_t build_len);

// Runs a release script through a build: the check, 40, 46, then record by record 41 to 45; a refusal leaves the output
// as it was, and success writes one finish tick per record into its counted front.
// The output must overlap neither the script, nor the build, nor the order; these may overlap each other. Where it
// does, their bytes are written over, and nothing is promised of the call: neither its answer, nor that it ends.
// docs/CLAIMS.md has what was measured.
uint64_t jefkantu_run(const uint8_t *order, size_t order_len,
                      const uint8_t *build, size_t build_len,
                      const uint8_t *script, size_t script_len,
                      uint32_t *out, size_t out_len);

// Writes a script that shows the late job of a build that the check refuses 29: legal releases with which, in the step
// machine, a job of the task that the check names finishes after its deadline; of that task's records it is the last. The
// order's 1 to 10, then 63 where the check's one answer is not 29, 64 where the script has more than 1,024 records, then
// 12; a refusal leaves the output as it was, and success writes the script's bytes into its counted front. A run through
// this build is refused 29 too; the script runs through a build of these tasks that the check accepts.
// The output must overlap neither the build nor the order; these may overlap each other. Where it does, their bytes are
// written over by the script.
uint64_t jefkantu_late(const uint8_t *order, size_t order_len,
                       const uint8_t *build, size_t build_len,
                       uint8_t *out, size_t out_len);

// Gives the set of each partition of a build: the check, then 12 where there are fewer places than partitions; a refusal
// leaves the output as it was, and success writes one set per partition into its counted front. The length counts sets.
// The output must overlap neither the build nor the order; these may overlap each other. Where it does, their bytes are
// written over by the sets.
uint64_t jefkantu_partition_sets(const uint8_t *order, size_t order_len,
                                 const uint8_t *build, size_t build_len,
                                 uint64_t *out, size_t out_len);

// Writes a set as a list: rising, touching numbers joined, a pair as a range, a single one alone. Its one refusal is 12; it
// leaves the output as it was, and success changes only the counted front. The empty set has the list of no bytes. Read
// back, a list gives its set.
// Nothing but the output is lent, so that it overlaps nothing.
uint64_t jefkantu_write_list(uint64_t set, uint8_t *out, size_t out_len);

// Reads a list, unsorted or overlapping too, and gives its set: 65, then whichever of 60, 61 and 62 has the lowest place;
// a refusal leaves the set as it was. The count is 0. Nothing is skipped: a blank and a line feed are 60.
// The set must not overlap the text, and is no NULL. Where it does overlap it, the text's bytes are written over.
uint64_t jefkantu_read_list(const uint8_t *text, size_t text_len, uint64_t *set);

#ifdef __cplusplus
}
#endif

#endif
