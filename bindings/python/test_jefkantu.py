"""The sample order of document 01, each line of bindings/refusals.txt, numbers that do not fit, and the README's Python."""

import array
import contextlib
import io
import os
import pickle
import re
import shutil
import subprocess
import sys
import tempfile
import unittest
from pathlib import Path

import jefkantu
from jefkantu import Build, Member, Order, Partition, Refused, Release, Task

ROOT = Path(__file__).resolve().parent.parent.parent
ORDER = bytes.fromhex("108180 040001400014000080 020001C0001A000080 020001C0001A000080")
BUILD = bytes.fromhex("108182 0400 0210 0000000E 00200010 04000008")
SAMPLE = Order(4, [Task(2, 10, 10, 4), Task(1, 14, 13, 4), Task(1, 14, 13, 4)])
TEXT = "2;0.10;0.10;0.04\n1;0.14;0.13;0.04\n1;0.14;0.13;0.04\n"
SCRIPT = jefkantu.write_script([Release(0, 1, 4), Release(1, 0, 4), Release(1, 2, 3)])


def text(path):
    return (ROOT / path).read_text(encoding="utf-8")


def data(word):
    """Bytes in hexadecimal, or those of the sample."""
    samples = {"-": b"", "order": ORDER, "build": BUILD, "script": SCRIPT}
    return samples[word] if word in samples else bytes.fromhex(word)


def column(word):
    return [] if word == "-" else [int(number) for number in word.split(",")]


def typed_task(time):
    """The task of a line with one time three times over."""
    (task,) = jefkantu.read_order(jefkantu.read_text(4, f"1;{time};{time};{time}\n")).tasks
    return task


def calls(asked, words):
    """The calls that a line of bindings/refusals.txt stands for."""
    if asked == "order":
        order = data(words[0])
        return [
            lambda: jefkantu.read_order(order),
            lambda: jefkantu.write_text(order, 0),
            lambda: jefkantu.plan(order, 0),
            lambda: jefkantu.check(order, b""),
            lambda: jefkantu.run(order, b"", b"\0", 0),
            lambda: jefkantu.late(order, b"", 0),
            lambda: jefkantu.partition_sets(order, b"", 0),
        ]
    if asked == "plan":
        return [lambda: jefkantu.plan(data(words[0]), int(words[1]))]
    if asked == "write":
        columns = [column(word) for word in words[1:5]]
        return [lambda: jefkantu.write_columns(int(words[0]), *columns, int(words[5]))]
    if asked == "read_text":
        return [lambda: jefkantu.read_text(int(words[0]), data(words[1]), int(words[2]))]
    if asked == "write_text":
        return [lambda: jefkantu.write_text(data(words[0]), int(words[1]))]
    if asked == "build":
        order, build = data(words[0]), data(words[1])
        return [
            lambda: jefkantu.check(order, build),
            lambda: jefkantu.run(order, build, b"\0", 0),
            lambda: jefkantu.partition_sets(order, build, 0),
        ]
    if asked == "run":
        return [lambda: jefkantu.run(*map(data, words[:3]), int(words[3]))]
    if asked == "late":
        return [lambda: jefkantu.late(*map(data, words[:2]), int(words[2]))]
    if asked == "sets":
        return [lambda: jefkantu.partition_sets(*map(data, words[:2]), int(words[2]))]
    if asked == "write_list":
        return [lambda: jefkantu.write_list(*map(int, words))]
    if asked == "read_list":
        return [lambda: jefkantu.read_list(data(words[0]))]
    raise ValueError(f"{asked} asks nothing")


class Sample(unittest.TestCase):
    def test_order_is_written_and_read_back(self):
        self.assertEqual(jefkantu.write_order(SAMPLE), ORDER)
        self.assertEqual(jefkantu.read_order(ORDER), SAMPLE)

    def test_longest_order_is_written_and_read_back(self):
        order = Order(64, [Task(64, 1_000_000, 999_999, run) for run in range(1, 33)])
        written = jefkantu.write_order(order)
        self.assertEqual(len(written), jefkantu.MOST_ORDER_BYTES)
        self.assertEqual(jefkantu.read_order(written), order)

    def test_p1_build(self):
        self.assertEqual(jefkantu.plan(ORDER), BUILD)
        self.assertEqual(jefkantu.plan(bytearray(ORDER)), BUILD)
        self.assertIsNone(jefkantu.check(ORDER, BUILD))

    def test_longest_build(self):
        order = jefkantu.write_order(Order(64, [Task(2, 10, 10, 10)] * 32))
        build = jefkantu.plan(order)
        self.assertEqual(len(build), jefkantu.MOST_BUILD_BYTES)
        partitions = [Partition(2, 2 * i) for i in range(32)]
        members = [Member(i, 0, 10) for i in range(32)]
        self.assertEqual(jefkantu.read_build(order, build), Build(64, partitions, members))

    def test_build_reads_as_the_printer_prints_it(self):
        self.assertEqual(str(jefkantu.read_build(ORDER, BUILD)), text("crates/printer/stdout"))

    def test_p9_finish_ticks(self):
        self.assertEqual(SCRIPT.hex(), "000000800020000010000020000011000018")
        self.assertEqual(jefkantu.run(ORDER, BUILD, SCRIPT), [4, 8, 4])

    def test_shortest_and_longest_script(self):
        self.assertEqual(jefkantu.run(ORDER, BUILD, b""), [])
        releases = [Release(10 * i, 0, 4) for i in range(1025)]
        longest = jefkantu.write_script(releases[:1024])
        self.assertEqual(jefkantu.run(ORDER, BUILD, longest), [10 * i + 4 for i in range(1024)])
        with self.assertRaises(Refused) as caught:
            jefkantu.run(ORDER, BUILD, jefkantu.write_script(releases))
        self.assertEqual(caught.exception.number, 40)


class Text(unittest.TestCase):
    """The text of the order form: as it was typed, or refused at its line."""

    def refused(self, number, line, text):
        with self.subTest(text=text[:40]), self.assertRaises(Refused) as caught:
            jefkantu.read_text(4, text)
        self.assertEqual((caught.exception.number, caught.exception.place), (number, line))

    def test_text_is_read_and_written_back(self):
        for typed in [TEXT, TEXT.encode(), bytearray(TEXT.encode()), memoryview(TEXT.encode())]:
            self.assertEqual(jefkantu.read_text(4, typed), ORDER)
        self.assertEqual(jefkantu.read_text(Whole(4), TEXT), ORDER)
        self.assertEqual(jefkantu.write_text(ORDER), TEXT)

    def test_exact_room(self):
        self.assertEqual(jefkantu.read_text(4, TEXT, len(ORDER)), ORDER)
        self.assertEqual(jefkantu.write_text(ORDER, len(TEXT)), TEXT)

    def test_longest_text_is_written_and_read_back(self):
        order = jefkantu.write_order(Order(64, [Task(64, 1_000_000, 1_000_000, 1_000_000)] * 32))
        longest = jefkantu.write_text(order)
        self.assertEqual(longest, "64;10000.00;10000.00;10000.00\n" * 32)
        self.assertEqual(len(longest), jefkantu.MOST_TEXT_BYTES)
        self.assertEqual(jefkantu.read_text(64, longest), order)
        self.refused(52, None, longest + "\n")
        self.refused(52, None, longest + "6")

    def test_times_are_as_typed(self):
        for typed, ticks in [("7,5", 750), ("7.50", 750), ("75", 7_500), ("0.01", 1), ("0,1", 10), ("007,05", 705)]:
            self.assertEqual(typed_task(typed), Task(1, ticks, ticks, ticks))

    def test_nothing_is_tidied(self):
        typed = ["7,5 ", "7,505", ",5", "7,", "+7", "7;5", "7,5\r", "", "7_5", "7\0"]
        for time in [*typed, "É", "\uff17", "\u0667", "7\xa0", "\ud800"]:
            self.refused(50, 1, f"1;75;75;75\n1;75;75;{time}\n")
        for text in ["1;75;75;75", "\n1;75;75;75\n", "\ufeff1;75;75;75\n", "1;75;75;75\u2028", b"1;75;75;7\xff\n"]:
            self.refused(50, 0, text)

    def test_a_number_is_judged_by_its_value(self):
        zeros = "0" * 1_000_000
        self.assertEqual(len(jefkantu.read_text(4, f"{zeros}1;{zeros}75;75;75\n")), 12)
        self.refused(51, 0, f"1;1{zeros};75;75\n")
        self.refused(51, 0, "1;10485.76;75;75\n")
        self.refused(8, 0, "1;10485.75;75;75\n")

    def test_no_line_is_no_task(self):
        self.refused(4, None, "")

    def test_a_refusal_tells_its_line(self):
        with self.assertRaisesRegex(Refused, "^refused 50 at line 1: not m;T;D;C and a line feed: "):
            jefkantu.read_text(4, "1;75;75;75\n1;75;75;7,505\n")


# P5 as one partition of one processor: ranks 0, 1 and 2, worst responses 7, 11 and 14.
P5 = [Task(1, 10, 10, 4), Task(1, 14, 13, 4), Task(1, 14, 13, 4)]
P5_BUILD = bytes.fromhex("102181 0200 0000000E 00200016 0040001C")

# Task 2 has no lower member, so B is 0 and all begin at tick 0. Its responses are 12 and 14, its job 1 is the first late
# one: it comes at 14 and starts at 24. So task 2 comes at 0 and 14, and up to 24 task 0 at 0, 10 and 20, task 1 at 0 and
# 14.
P5_SCRIPT = [(0, 0, 4), (0, 1, 4), (0, 2, 4), (10, 0, 4), (14, 1, 4), (14, 2, 4), (20, 0, 4)]


def ordered(tasks):
    return jefkantu.write_order(Order(1, tasks))


def together(*ranks):
    """A build of one partition of one processor; the responses stay 0."""
    header = 1 << 20 | 1 << 13 | len(ranks) << 7 | 1
    return header.to_bytes(3, "big") + b"\2\0" + b"".join((rank << 21).to_bytes(4, "big") for rank in ranks)


class Late(unittest.TestCase):
    """The late script: a job of the task that the check names, which finishes after its deadline."""

    def refused(self, number, place, call):
        with self.assertRaises(Refused) as caught:
            call()
        self.assertEqual((caught.exception.number, caught.exception.place), (number, place))

    def shows(self, order, build, task, records):
        self.refused(29, task, lambda: jefkantu.check(order, build))
        script = jefkantu.late(order, build)
        self.assertEqual(jefkantu.read_script(script), records)
        self.assertEqual(jefkantu.write_script(records), script)
        self.assertEqual(jefkantu.late(bytearray(order), memoryview(build), len(script)), script)
        self.refused(12, None, lambda: jefkantu.late(order, build, len(script) - 1))

    def test_p5_shows_the_second_job(self):
        self.shows(ordered(P5), P5_BUILD, 2, P5_SCRIPT)

    def test_a_recorded_response_does_not_matter(self):
        self.shows(ordered(P5), P5_BUILD[:-1] + b"\0", 2, P5_SCRIPT)

    def test_p6_runs_the_same_script_in_time(self):
        """P6 allows 14 ticks, and that job takes them all: it comes at 14 and finishes at 28."""
        script = jefkantu.late(ordered(P5), P5_BUILD)
        order = ordered([*P5[:2], P5[2]._replace(deadline=14)])
        self.assertEqual(jefkantu.run(order, P5_BUILD, script), [4, 8, 12, 16, 20, 28, 24])
        self.refused(63, None, lambda: jefkantu.late(order, P5_BUILD))

    def test_the_sample_build_runs_it_too(self):
        """In the sample's build task 2 has a partition of its own."""
        script = jefkantu.late(ordered(P5), P5_BUILD)
        self.assertEqual(jefkantu.run(ORDER, BUILD, script), [4, 8, 4, 14, 18, 18, 24])
        told = "^refused 63: the build is not refused 29: the check names no late task to show$"
        with self.assertRaisesRegex(Refused, told):
            jefkantu.late(ORDER, BUILD)

    def test_the_blocker_comes_first(self):
        """The lower member with the largest C, lowest number among equals: task 1, though task 2 has the higher
        priority."""
        tasks = [Task(1, 10, 5, 3), Task(1, 100, 100, 4), Task(1, 100, 90, 4)]
        self.shows(ordered(tasks), together(0, 2, 1), 0, [(0, 1, 4), (1, 0, 3)])

    def test_no_blocker_of_one_tick(self):
        """Lower members with C = 1 make B 0: none of them comes, and all begin at tick 0."""
        build = together(0, 1, 2, 3)
        self.shows(ordered([*P5, Task(1, 100, 100, 1)]), build[:5] + P5_BUILD[5:13] + build[13:], 2, P5_SCRIPT)

    def test_the_longest_script(self):
        """With a blocker of C ticks task 0 starts 3C - 1 ticks after tick 1, and up to then task 1 comes C times: C + 2
        records."""
        tasks = [Task(1, 1000, 1000, 1), Task(1, 3, 3, 2), Task(1, 1_000_000, 1_000_000, 1022)]
        records = [(0, 2, 1022), (1, 0, 1), *[(1 + 3 * i, 1, 2) for i in range(1022)]]
        self.assertEqual(6 * len(records), jefkantu.MOST_SCRIPT_BYTES)
        self.shows(ordered(tasks), together(1, 0, 2), 0, records)
        longer = ordered([*tasks[:2], tasks[2]._replace(run=1023)])
        self.refused(64, None, lambda: jefkantu.late(longer, together(1, 0, 2)))

    def test_a_script_is_read_as_it_was_written(self):
        for records in [[], [(0xFFFFF, 31, 0xFFFFF)], P5_SCRIPT]:
            self.assertEqual(jefkantu.read_script(bytearray(jefkantu.write_script(records))), records)
        for size in [1, 5, 7]:
            with self.assertRaisesRegex(ValueError, f"^script: {size} bytes are no whole records$"):
                jefkantu.read_script(bytes(size))
        for spare in [1, 2, 4]:
            with self.assertRaisesRegex(ValueError, "^record 1: a spare bit is set$"):
                jefkantu.read_script(bytes(11) + bytes([spare]))
        with self.assertRaisesRegex(TypeError, "^script: "):
            jefkantu.read_script([0] * 6)


class Lists(unittest.TestCase):
    """Lists of processors: as their sets, or refused at their byte."""

    def refused(self, number, byte, text):
        with self.subTest(text=text[:40]), self.assertRaises(Refused) as caught:
            jefkantu.read_list(text)
        self.assertEqual((caught.exception.number, caught.exception.place), (number, byte))

    def test_each_partition_has_its_set(self):
        self.assertEqual(jefkantu.partition_sets(ORDER, BUILD), [0b11, 0b100])
        self.assertEqual(jefkantu.partition_sets(ORDER, bytearray(BUILD), 2), [0b11, 0b100])
        self.assertEqual([*map(jefkantu.write_list, jefkantu.partition_sets(ORDER, BUILD))], ["0-1", "2"])

    def test_the_most_partitions(self):
        order = jefkantu.write_order(Order(64, [Task(2, 10, 10, 10)] * 32))
        sets = jefkantu.partition_sets(order, jefkantu.plan(order))
        self.assertEqual(sets, [3 << 2 * i for i in range(jefkantu.MOST_PARTITIONS)])

    def test_sets_are_written_and_read_back(self):
        lists = ["", "0", "63", "0-1", "0-3,7", "0,2,4-5", "9-10,62-63", "0-63"]
        sets = [0, 1, 1 << 63, 3, 0x8F, 0x35, 3 << 62 | 0x600, 2**64 - 1]
        for written, word in zip(lists, sets):
            self.assertEqual(jefkantu.write_list(word), written)
            self.assertEqual(jefkantu.write_list(word, len(written)), written)
            for given in [written, written.encode(), bytearray(written.encode()), memoryview(written.encode())]:
                self.assertEqual(jefkantu.read_list(given), word)

    def test_lists_of_others_are_read(self):
        for given in ["7,0-3", "3,2,1,0,7", "0-2,1-3,7,7-7", "0007,00-03", "0,1,2,3,7"]:
            self.assertEqual(jefkantu.read_list(given), 0x8F)

    def test_longest_list_and_text(self):
        longest = jefkantu.write_list(0xB6DB6DB6DB6DB6DB)
        self.assertEqual(len(longest), jefkantu.MOST_LIST_BYTES)
        self.assertEqual(jefkantu.read_list(longest), 0xB6DB6DB6DB6DB6DB)
        zeros = "0" * jefkantu.MOST_LIST_TEXT_BYTES
        self.assertEqual(jefkantu.read_list(zeros), 1)
        self.refused(65, None, zeros + "0")
        self.refused(60, len(zeros), zeros[1:] + ",")

    def test_nothing_is_tidied(self):
        for after in [" ", "\n", "\r\n", "\0", ":2", "x", "\u2013", "\uff17", "\u0667", "\xa0", "\ud800", ";"]:
            self.refused(60, 5, "0-3,7" + after)
        self.refused(60, 0, "\ufeff0-3,7")
        self.refused(60, 0, " 0-3,7")
        self.refused(60, 2, b"0,\xff")

    def test_the_lowest_place_decides(self):
        self.refused(61, 2, "1,0064")
        self.refused(62, 2, "3-0,64,")
        self.refused(61, 0, "64-0,")
        self.refused(60, 2, "0,,3-0,64")

    def test_a_refusal_tells_its_byte(self):
        with self.assertRaisesRegex(Refused, "^refused 62 at byte 2: a range that falls: "):
            jefkantu.read_list("3-0")

    def test_sets_of_processors(self):
        for word, processors in [(0, set()), (0x8F, {0, 1, 2, 3, 7}), (2**64 - 1, {*range(64)}), (1 << 63, {63})]:
            self.assertEqual(jefkantu.processors_of(word), processors)
            for given in [processors, frozenset(processors), sorted(processors) * 2, iter(processors)]:
                self.assertEqual(jefkantu.set_of(given), word)
        self.assertEqual(jefkantu.set_of([Whole(7), Whole(7)]), 0x80)
        self.assertEqual(jefkantu.processors_of(Whole(0x80)), {7})
        self.assertEqual(jefkantu.write_list(Whole(0x80)), "7")


class Refusals(unittest.TestCase):
    def test_every_number_comes_through_with_its_place_and_words(self):
        seen = set()
        for line in text("bindings/refusals.txt").splitlines():
            if line.startswith("#"):
                continue
            number, place, asked, *words = line.split("#")[0].split()
            for call in calls(asked, words):
                with self.subTest(line), self.assertRaises(Refused) as caught:
                    call()
                refusal = caught.exception
                self.assertEqual(refusal.number, int(number), line)
                self.assertEqual(refusal.place, None if place == "-" else int(place), line)
                self.assertEqual(refusal.words, jefkantu.CAUSES[int(number)].words)
            seen.add(int(number))
        self.assertEqual(seen, set(jefkantu.CAUSES) - {28})  # 28 is proved impossible

    def test_refusals_speak_in_the_words_of_the_document(self):
        with self.assertRaises(Refused) as caught:
            jefkantu.plan(jefkantu.write_order(SAMPLE._replace(processors=2)))
        self.assertEqual(str(caught.exception), "refused 11 at task 2: first fit runs out")
        again = pickle.loads(pickle.dumps(caught.exception))
        self.assertEqual((again.number, again.place, again.words), (11, 2, "first fit runs out"))
        with self.assertRaises(Refused) as caught:
            jefkantu.plan(b"")
        self.assertEqual(str(caught.exception), "refused 1: order under 3 bytes")


# 2^32 + 75, -1, 7.5 and "7,5", and what else is no number of 32 bits; each with its error.
UNFIT = [
    (2**32 + 75, OverflowError),
    (-1, OverflowError),
    (7.5, TypeError),
    ("7,5", TypeError),
    ("7", TypeError),
    (7.0, TypeError),
    (None, TypeError),
    (b"7", TypeError),
    ([7], TypeError),
    (10**5000, OverflowError),
]


class Whole:
    """A whole number of another kind, as numpy's are."""

    def __init__(self, number):
        self.number = number

    def __index__(self):
        return self.number


class Numbers(unittest.TestCase):
    """No number changes on its way in: it comes through whole, or an error names its row and its field."""

    def refused(self, error, where, call):
        with self.assertRaises(error) as caught:
            call()
        self.assertTrue(str(caught.exception).startswith(where + ": "), str(caught.exception))

    def test_every_field_of_a_task(self):
        for row in range(2):
            for field in Task._fields:
                for value, error in UNFIT:
                    tasks = [Task(1, 10, 10, 4), Task(1, 10, 10, 4)]
                    tasks[row] = tasks[row]._replace(**{field: value})
                    with self.subTest(row=row, field=field, value=value):
                        self.refused(error, f"task {row}, {field}", lambda: jefkantu.write_order(Order(4, tasks)))

    def test_processors(self):
        for value, error in UNFIT:
            self.refused(error, "processors", lambda: jefkantu.write_order(Order(value, [Task(1, 10, 10, 4)])))
            self.refused(error, "processors", lambda: jefkantu.read_text(value, "7;5\n"))

    def test_every_column(self):
        for at, field in enumerate(Task._fields):
            for value, error in UNFIT:
                columns = [[1, 1], [10, 10], [10, 10], [4, 4]]
                columns[at] = [1, value]
                with self.subTest(field=field, value=value):
                    self.refused(error, f"task 1, {field}", lambda: jefkantu.write_columns(4, *columns))
            columns[at] = "1234"
            self.refused(TypeError, field, lambda: jefkantu.write_columns(4, *columns))

    def test_every_field_of_a_record(self):
        over = {"tick": 1 << 20, "task": 32, "duration": 1 << 20}
        self.assertEqual(set(over), set(Release._fields))
        for field in Release._fields:
            for value, error in [*UNFIT, (over[field], OverflowError)]:
                releases = [Release(0, 1, 4), Release(20, 0, 4)._replace(**{field: value})]
                with self.subTest(field=field, value=value):
                    self.refused(error, f"record 1, {field}", lambda: jefkantu.write_script(releases))

    def test_a_set(self):
        for value, error in [*UNFIT[1:], (2**64, OverflowError), (2**64 + 7, OverflowError)]:
            with self.subTest(value=value):
                self.refused(error, "set", lambda: jefkantu.write_list(value))
                self.refused(error, "set", lambda: jefkantu.processors_of(value))

    def test_processors_of_a_set(self):
        for value, error in [*UNFIT, (64, OverflowError)]:
            with self.subTest(value=value):
                self.refused(error, "processors, item 1", lambda: jefkantu.set_of([7, value]))
        for value in ["7", b"7", bytearray(b"7"), {7: 7}, 7, None]:
            self.refused(TypeError, "processors", lambda: jefkantu.set_of(value))

    def test_room(self):
        for value, error in UNFIT:
            self.refused(error, "room", lambda: jefkantu.late(ORDER, BUILD, value))
            self.refused(error, "room", lambda: jefkantu.partition_sets(ORDER, BUILD, value))
            self.refused(error, "room", lambda: jefkantu.write_list(0, value))
            self.refused(error, "room", lambda: jefkantu.read_text(4, TEXT, value))
            self.refused(error, "room", lambda: jefkantu.write_text(ORDER, value))
            self.refused(error, "room", lambda: jefkantu.plan(ORDER, value))
            self.refused(error, "room", lambda: jefkantu.run(ORDER, BUILD, SCRIPT, value))
            self.refused(error, "room", lambda: jefkantu.write_columns(4, [1], [9], [9], [9], value))

    def test_a_row_has_exactly_its_fields(self):
        for row in [(1, 100, 100, 4, 2500, 10), (1, 10), (), 7, None, "1234", {1, 2, 3, 4}, b"\1\2\2\1"]:
            with self.subTest(row=row):
                self.refused(TypeError, "task 1", lambda: jefkantu.write_order(Order(4, [(1, 9, 9, 9), row])))
                self.refused(TypeError, "record 1", lambda: jefkantu.write_script([(0, 0, 1), row]))
        self.refused(TypeError, "tasks", lambda: jefkantu.write_order(Order(4, 7)))
        self.refused(TypeError, "the order", lambda: jefkantu.write_order((4, [(1, 9, 9, 9)], 1)))

    def test_numbers_that_fit_are_judged_by_the_library(self):
        for at, number in enumerate([7, 8, 9, 10]):
            row = [1, 10, 10, 10]
            row[at] = 2**32 - 1
            with self.assertRaises(Refused) as caught:
                jefkantu.write_order(Order(4, [row]))
            self.assertEqual((caught.exception.number, caught.exception.place), (number, 0))
        with self.assertRaisesRegex(Refused, "^refused 3: "):
            jefkantu.read_text(2**32 - 1, TEXT)

    def test_whole_numbers_of_other_kinds_and_generators(self):
        rows = [[Whole(number) for number in task] for task in SAMPLE.tasks]
        self.assertEqual(jefkantu.write_order(Order(Whole(4), rows)), ORDER)
        self.assertEqual(jefkantu.write_order(Order(4, ((number for number in row) for row in rows))), ORDER)
        columns = [array.array("L", column) for column in zip(*SAMPLE.tasks)]
        self.assertEqual(jefkantu.write_columns(4, *columns), ORDER)
        self.assertEqual(jefkantu.write_columns(4, *map(iter, columns)), ORDER)
        self.assertEqual(jefkantu.write_script(map(Release._make, [(0, 1, 4), (1, 0, 4), (1, 2, 3)])), SCRIPT)

    def test_an_error_of_a_generator_is_its_own(self):
        def tasks():
            yield Task(1, 10, 10, 4)
            raise TypeError("of the caller")

        with self.assertRaisesRegex(TypeError, "^of the caller$"):
            jefkantu.write_order(Order(4, tasks()))


class Buffers(unittest.TestCase):
    def test_what_is_no_bytes_is_an_error(self):
        for other in ["108180", 30, None, list(ORDER), array.array("H", ORDER)]:
            with self.subTest(other=other), self.assertRaisesRegex(TypeError, "^order: "):
                jefkantu.plan(other)
            with self.subTest(other=other), self.assertRaisesRegex(TypeError, "^script: "):
                jefkantu.run(ORDER, BUILD, other)
        for other in [30, None, list(ORDER), [TEXT], array.array("H", ORDER)]:
            with self.subTest(other=other), self.assertRaisesRegex(TypeError, "^text: "):
                jefkantu.read_text(4, other)
            with self.subTest(other=other), self.assertRaisesRegex(TypeError, "^text: "):
                jefkantu.read_list(other)

    def test_one_buffer_may_hold_them_all(self):
        whole = bytearray(ORDER + BUILD + SCRIPT)
        view = memoryview(whole)
        order, build, script = view[:30], view[30:49], view[49:]
        self.assertEqual(jefkantu.run(order, build, script), [4, 8, 4])
        self.assertEqual(jefkantu.run(view[::-1][::-1][:30], build, script), [4, 8, 4])
        self.assertEqual(whole, ORDER + BUILD + SCRIPT)


class Repository(unittest.TestCase):
    def test_limits_are_those_of_the_header(self):
        header = dict(re.findall(r"#define JEFKANTU_(\w+) (\d+)", text("include/jefkantu.h")))
        limits = {name: value for name, value in vars(jefkantu).items() if name.startswith("MOST_")}
        self.assertEqual(limits, {name: int(value) for name, value in header.items() if name.startswith("MOST_")})

    def test_the_formats_page_has_every_cause_and_the_sample(self):
        page = text("docs/FORMATS.md")
        rows = re.findall(r"^\| (\d+) \| (.*?) \| (.*?) \| .* \|$", page, re.MULTILINE)
        causes = [(str(it.number), it.words, it.place or "none") for it in jefkantu.CAUSES.values()]
        self.assertEqual(rows, causes)
        lines = re.findall(r"^([0-9A-F]{2})  ([01|]+)  ", page, re.MULTILINE)
        for byte, bits in lines:
            self.assertEqual(int(byte, 16), int(bits.replace("|", ""), 2))
        self.assertEqual(bytes.fromhex("".join(byte for byte, _ in lines)), ORDER + BUILD + SCRIPT)

    def test_the_formats_page_reads_times_as_the_library_does(self):
        page = text("docs/FORMATS.md")
        self.assertIn(f"```text\n{TEXT}```\n", page)
        rows = re.findall(r"^\| (`.*`).* \| ([\d,]+) ticks? \|$", page, re.MULTILINE)
        times = [(time, int(ticks.replace(",", ""))) for typed, ticks in rows for time in re.findall("`(.*?)`", typed)]
        self.assertEqual(len(times), 7)
        for time, ticks in times:
            self.assertEqual(typed_task(time), Task(1, ticks, ticks, ticks))
        rows = re.findall(r"^\| (`.*`).* \| refused (5\d) \|$", page, re.MULTILINE)
        refused = [(time, number) for typed, number in rows for time in re.findall("`(.*?)`", typed)]
        self.assertEqual(len(refused), 8)
        for time, number in refused:
            with self.subTest(time=time), self.assertRaisesRegex(Refused, f"^refused {number} at line 0: "):
                jefkantu.read_text(4, f"1;75;75;{time}\n")

    def test_the_formats_page_reads_lists_as_the_library_does(self):
        page = text("docs/FORMATS.md")
        rows = re.findall(r"^\| (`.*`).* \| processors? ([-\d, and]+) \|$", page, re.MULTILINE)
        lists = [(it, processors) for given, processors in rows for it in re.findall("`(.*?)`", given)]
        self.assertEqual(len(lists), 9)
        for given, processors in lists:
            self.assertEqual(jefkantu.read_list(given), jefkantu.set_of(map(int, re.findall(r"\d+", processors))))
        rows = re.findall(r"^\| (`.*`).* \| refused (6\d) at byte (\d+) \|$", page, re.MULTILINE)
        refused = [(it, number, byte) for given, number, byte in rows for it in re.findall("`(.*?)`", given)]
        self.assertEqual(len(refused), 14)
        for given, number, byte in refused:
            with self.subTest(given=given), self.assertRaisesRegex(Refused, f"^refused {number} at byte {byte}: "):
                jefkantu.read_list(given)

    def test_the_formats_page_shows_the_late_job_as_the_library_does(self):
        record = r"^record \d: tick +(\d+), task (\d), length (\d); finishes at +(\d+), deadline at (\d+)(?:: late by (\d+))?$"
        rows = [[int(it or 0) for it in row] for row in re.findall(record, text("docs/FORMATS.md"), re.MULTILINE)]
        script = jefkantu.late(ordered(P5), P5_BUILD)
        self.assertEqual(jefkantu.read_script(script), [tuple(row[:3]) for row in rows])
        in_time = ordered([*P5[:2], P5[2]._replace(deadline=14)])
        self.assertEqual(jefkantu.run(in_time, P5_BUILD, script), [row[3] for row in rows])
        self.assertEqual([tick + P5[task].deadline for tick, task, *_ in rows], [row[4] for row in rows])
        self.assertEqual([max(0, row[3] - row[4]) for row in rows], [row[5] for row in rows])

    def test_a_copied_folder_works(self):
        here = Path(__file__).resolve().parent
        with tempfile.TemporaryDirectory() as directory:
            copy = Path(directory) / "copy"
            shutil.copytree(here, copy, ignore=shutil.ignore_patterns("__pycache__"))
            environment = {name: value for name, value in os.environ.items() if name != "JEFKANTU_LIB_DIR"}
            command = [sys.executable, "-B", str(copy / "example.py")]
            alone = subprocess.run(command, env=environment, cwd=directory, capture_output=True, text=True)
            self.assertIn("ImportError: there is no ", alone.stderr)
            shutil.copy(jefkantu._find(), copy)
            beside = subprocess.run(command, env=environment, cwd=directory, capture_output=True, text=True)
            self.assertEqual((beside.stdout, beside.stderr), (text("crates/printer/stdout"), ""))

    def test_the_readme_runs(self):
        blocks = re.findall(r"^```python\n(.*?)^```$", text("README.md"), re.DOTALL | re.MULTILINE)
        self.assertEqual(len(blocks), 1)
        with contextlib.redirect_stdout(io.StringIO()) as printed:
            exec(blocks[0], {})
        self.assertEqual(printed.getvalue(), "build 4 1 1\npart 0 2 0\ntask 0 0 0 4\n")


if __name__ == "__main__":
    unittest.main()
