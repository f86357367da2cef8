"""The planner of camera boxes for Python: the eleven operations of the proved library libjefkantu.

The library is libjefkantu.so in the directory JEFKANTU_LIB_DIR, or else beside this file, or else in the repository's
target/python, where bindings/python/link writes it. This folder works wherever it is copied, with its causes.txt.

Orders, builds and scripts are bytes, the text of an order form and a list of processors are bytes or a str; a refusal is
raised as Refused. A number is a whole number or an error: nothing is cut, rounded or parsed on its way in. Where it fits
32 bits the library itself judges it; where it does not, or is no whole number, the error names its row and its field. A
set of processors is a whole number of 64 bits, processor 0 its lowest: set_of makes it of processors, and processors_of
gives them. The bytes of a call are copied first and its output is the call's own, so nothing that a call writes can
overlap what it reads.
"""

import ctypes
import operator
import os
from collections.abc import Mapping, Set
from pathlib import Path
from typing import Any, FrozenSet, Iterable, List, NamedTuple, Optional, Union

MOST_ORDER_BYTES = 291
MOST_TEXT_BYTES = 960
MOST_BUILD_BYTES = 195
MOST_LIST_BYTES = 121
MOST_LIST_TEXT_BYTES = 1024
MOST_PARTITIONS = 32
MOST_RECORDS = 1024
MOST_SCRIPT_BYTES = 6144

_HERE = Path(__file__).resolve().parent
_ORDER_NUMBERS = 130
_NO_PLACE = 65535
_RECORD_BYTES = 6
_COLUMN_BITS = 32
_PROCESSOR_BITS = 6
_SET_BITS = 64
_RECORD_BITS = {"tick": 20, "task": 5, "duration": 20}  # then 3 spare


class Cause(NamedTuple):
    """A number of the document's table "What comes back"."""

    number: int
    place: Optional[str]  # what its place counts: "task", "partition", "record", "line" or "byte"
    words: str


def _cause(line: str) -> Cause:
    number, place, words = line.split(" ", 2)
    return Cause(int(number), None if place == "-" else place, words)


def _causes() -> dict:
    lines = (_HERE / "causes.txt").read_text(encoding="utf-8").splitlines()
    return {cause.number: cause for cause in (_cause(line) for line in lines if not line.startswith("#"))}


CAUSES = _causes()


class Refused(Exception):
    """A refusal: its number, its place (None where none applies), and the document's words."""

    def __init__(self, number: int, place: Optional[int]):
        cause = CAUSES.get(number, Cause(number, None, "a cause that the table does not have"))
        at = "" if place is None else f" at {cause.place or 'place'} {place}"
        super().__init__(f"refused {number}{at}: {cause.words}")
        self.number = number
        self.place = place
        self.words = cause.words

    def __reduce__(self):
        return Refused, (self.number, self.place)


class Task(NamedTuple):
    """A task: m, and T, D and C in ticks of 10 microseconds."""

    width: int
    period: int
    deadline: int
    run: int


class Order(NamedTuple):
    """An order: M, and its tasks."""

    processors: int
    tasks: Iterable[Task]


class Partition(NamedTuple):
    """A partition of a build: how many processors it has, and the lowest of them."""

    volume: int
    first: int


class Member(NamedTuple):
    """What a build says of a task: the partition that it is a member of, its rank there, its worst response."""

    partition: int
    rank: int
    response: int


class Build(NamedTuple):
    """A build that was checked; as text it is the lines of the build printer."""

    processors: int
    partitions: List[Partition]
    tasks: List[Member]

    def __str__(self) -> str:
        lines = [f"build {self.processors} {len(self.tasks)} {len(self.partitions)}"]
        lines += [f"part {i} {it.volume} {it.first}" for i, it in enumerate(self.partitions)]
        lines += [f"task {i} {it.partition} {it.rank} {it.response}" for i, it in enumerate(self.tasks)]
        return "".join(line + "\n" for line in lines)


class Release(NamedTuple):
    """A record of a script: the tick of the release, the task, and the job's length, 1 to C."""

    tick: int
    task: int
    duration: int


def read_order(order: bytes) -> Order:
    """Reads an order: 1 to 6 in turn, then task by task 7 to 10."""
    numbers = (ctypes.c_uint32 * _ORDER_NUMBERS)()
    _count(_library.jefkantu_read_order(*_lent("order", order), numbers))
    processors, tasks, *table = numbers
    return Order(processors, [Task(*table[4 * i : 4 * i + 4]) for i in range(tasks)])


def write_order(order: Order) -> bytes:
    """Writes an order: 3, 4, then task by task 7 to 10. A task has exactly its fields, or it is an error."""
    processors, tasks = _fields("the order", order, Order)
    rows = [_fields(f"task {i}", task, Task) for i, task in enumerate(_items("tasks", tasks))]
    columns = [[row[field] for row in rows] for field in range(len(Task._fields))]
    return write_columns(processors, *columns)


def write_columns(
    processors: int,
    widths: Iterable[int],
    periods: Iterable[int],
    deadlines: Iterable[int],
    runs: Iterable[int],
    room: int = MOST_ORDER_BYTES,
) -> bytes:
    """The writer itself, given M and four columns: 13, 3, 4, then task by task 7 to 10; 12 if over room bytes."""
    processors = _number("processors", processors, _COLUMN_BITS)
    columns = [_column(field, values) for field, values in zip(Task._fields, (widths, periods, deadlines, runs))]
    lent = [argument for column in columns for argument in (column, len(column))]
    out = _output(ctypes.c_uint8, room)
    count = _count(_library.jefkantu_write_order(processors, *lent, out, len(out)))
    return bytes(out[:count])


def read_text(processors: int, text: Union[str, bytes], room: int = MOST_ORDER_BYTES) -> bytes:
    """Reads M and the text of an order form, and gives their order: 52, then line by line 50 and 51, then 3, 4, then
    task by task 7 to 10; 12 if over room bytes. Text goes in as it was typed, a str as its UTF-8 bytes: none is skipped
    or tidied. Read a file of it as bytes, for Python takes carriage returns out of what it reads as text."""
    processors = _number("processors", processors, _COLUMN_BITS)
    out = _output(ctypes.c_uint8, room)
    count = _count(_library.jefkantu_read_text(processors, *_lent("text", _typed(text)), out, len(out)))
    return bytes(out[:count])


def write_text(order: bytes, room: int = MOST_TEXT_BYTES) -> str:
    """Writes an order as text, its times with a point and two decimals: the order's 1 to 10; 12 if over room bytes."""
    out = _output(ctypes.c_uint8, room)
    count = _count(_library.jefkantu_write_text(*_lent("order", order), out, len(out)))
    return bytes(out[:count]).decode("ascii")


def plan(order: bytes, room: int = MOST_BUILD_BYTES) -> bytes:
    """Plans an order and gives its build: the order's 1 to 10, then 11; 12 if over room bytes."""
    out = _output(ctypes.c_uint8, room)
    count = _count(_library.jefkantu_plan(*_lent("order", order), out, len(out)))
    return bytes(out[:count])


def check(order: bytes, build: bytes) -> None:
    """Checks a build against an order: the order's 1 to 10, then 20 to 30."""
    _count(_library.jefkantu_check(*_lent("order", order), *_lent("build", build)))


def run(order: bytes, build: bytes, script: bytes, room: int = MOST_RECORDS) -> List[int]:
    """Runs a script and gives each record's finish tick: the check, 40, 46 if over room, then 41 to 45."""
    out = _output(ctypes.c_uint32, room)
    lent = [*_lent("order", order), *_lent("build", build), *_lent("script", script)]
    count = _count(_library.jefkantu_run(*lent, out, len(out)))
    return list(out[:count])


def late(order: bytes, build: bytes, room: int = MOST_SCRIPT_BYTES) -> bytes:
    """Gives a script that shows the late job of a build that the check refuses 29: the order's 1 to 10, 63, 64; 12 if over
    room bytes."""
    out = _output(ctypes.c_uint8, room)
    count = _count(_library.jefkantu_late(*_lent("order", order), *_lent("build", build), out, len(out)))
    return bytes(out[:count])


def partition_sets(order: bytes, build: bytes, room: int = MOST_PARTITIONS) -> List[int]:
    """Gives the set of each partition of a build: the check, then 12 if over room."""
    out = _output(ctypes.c_uint64, room)
    count = _count(_library.jefkantu_partition_sets(*_lent("order", order), *_lent("build", build), out, len(out)))
    return list(out[:count])


def write_list(set: int, room: int = MOST_LIST_BYTES) -> str:
    """Writes a set as a list, as 0-3,7: rising, touching numbers joined; 12 if over room bytes."""
    set = _number("set", set, _SET_BITS)
    out = _output(ctypes.c_uint8, room)
    count = _count(_library.jefkantu_write_list(set, out, len(out)))
    return bytes(out[:count]).decode("ascii")


def read_list(text: Union[str, bytes]) -> int:
    """Reads a list, unsorted or overlapping too, and gives its set: 65, then whichever of 60, 61 and 62 has the lowest
    place. Nothing is skipped or tidied: take off the line feed of a file that the kernel wrote."""
    out = ctypes.c_uint64()
    _count(_library.jefkantu_read_list(*_lent("text", _typed(text)), out))
    return out.value


def set_of(processors: Iterable[int]) -> int:
    """The set of processors from 0 to 63, in any order."""
    items = list(processors) if isinstance(processors, Set) else _items("processors", processors)
    numbers = [_number(f"processors, item {i}", value, _PROCESSOR_BITS) for i, value in enumerate(items)]
    return sum(1 << number for number in {*numbers})


def processors_of(set: int) -> FrozenSet[int]:
    """The processors of a set."""
    word = _number("set", set, _SET_BITS)
    return frozenset(number for number in range(_SET_BITS) if word >> number & 1)


def read_build(order: bytes, build: bytes) -> Build:
    """Checks a build against an order, and gives its fields where every rule holds."""
    build = _bytes("build", build)
    check(order, build)
    header = int.from_bytes(build[:3], "big")
    end = 3 + 2 * (header % 128)
    partitions = [int.from_bytes(build[at : at + 2], "big") for at in range(3, end, 2)]
    tasks = [int.from_bytes(build[at : at + 4], "big") for at in range(end, len(build), 4)]
    return Build(
        header >> 13 & 127,
        [Partition(it >> 9, it >> 3 & 63) for it in partitions],
        [Member(it >> 26, it >> 21 & 31, it >> 1 & 0xFFFFF) for it in tasks],
    )


def write_script(releases: Iterable[Release]) -> bytes:
    """Writes a script; an error names the record and the field that cannot hold its number. The run says whether it is
    legal."""
    return b"".join(_record(f"record {i}", release) for i, release in enumerate(_items("releases", releases)))


def read_script(script: bytes) -> List[Release]:
    """The records of a script; bytes that are no whole records, or have a spare bit set, are an error."""
    script = _bytes("script", script)
    if len(script) % _RECORD_BYTES != 0:
        raise ValueError(f"script: {len(script)} bytes are no whole records")
    records = [int.from_bytes(script[at : at + _RECORD_BYTES], "big") for at in range(0, len(script), _RECORD_BYTES)]
    for i, record in enumerate(records):
        if record % 8 != 0:
            raise ValueError(f"record {i}: a spare bit is set")
    return [Release(it >> 28, it >> 23 & 31, it >> 3 & 0xFFFFF) for it in records]


def _record(where: str, release: Release) -> bytes:
    """tick 20, task 5, length 20, spare 3"""
    fields = zip(Release._fields, _fields(where, release, Release))
    tick, task, duration = (_number(f"{where}, {name}", value, _RECORD_BITS[name]) for name, value in fields)
    return (tick << 28 | task << 23 | duration << 3).to_bytes(_RECORD_BYTES, "big")


def _number(where: str, value: Any, bits: int) -> int:
    """A whole number as it is; ctypes would cut one of too many bits, so that is an error here."""
    try:
        number = operator.index(value)
    except TypeError:
        raise TypeError(f"{where}: {value!r} is not a whole number") from None
    if not 0 <= number < 1 << bits:
        told = number if number.bit_length() <= 64 else f"a number of {number.bit_length()} bits"
        raise OverflowError(f"{where}: {told} is not from 0 to {(1 << bits) - 1}")
    return number


def _typed(text: Union[str, bytes]) -> bytes:
    """Text as its UTF-8 bytes; what is no str stays as it is."""
    return text.encode("utf-8", "surrogatepass") if isinstance(text, str) else text


def _items(where: str, values: Iterable) -> list:
    """The items of a list, a generator or the like. Text and bytes are none: their items are characters."""
    if not isinstance(values, (str, bytes, bytearray, Set, Mapping)):
        try:
            return list(iter(values))
        except TypeError:
            if hasattr(values, "__iter__"):
                raise
    raise TypeError(f"{where}: {values!r} is no list")


def _fields(where: str, values: Iterable, kind: type) -> list:
    """The values of a row, exactly one for each field."""
    items = _items(where, values)
    if len(items) != len(kind._fields):
        raise TypeError(f"{where}: {len(items)} values for {', '.join(kind._fields)}")
    return items


def _column(field: str, values: Iterable[int]) -> ctypes.Array:
    """A column for the library."""
    items = _items(field, values)
    numbers = [_number(f"task {i}, {field}", value, _COLUMN_BITS) for i, value in enumerate(items)]
    return (ctypes.c_uint32 * len(numbers))(*numbers)


def _output(kind: type, room: int) -> ctypes.Array:
    """A new output with room for so many items."""
    return (kind * _number("room", room, _COLUMN_BITS))()


def _bytes(where: str, data: bytes) -> bytes:
    """A copy, which nobody else can change during a call; items of more than a byte are no bytes."""
    try:
        view = memoryview(data)
    except TypeError:
        raise TypeError(f"{where}: {type(data).__name__} is no bytes") from None
    if view.itemsize != 1:
        raise TypeError(f"{where}: items of {view.itemsize} bytes are no bytes")
    return view.tobytes()


def _lent(where: str, data: bytes) -> tuple:
    """The arguments for bytes: their pointer and length."""
    data = _bytes(where, data)
    return data, len(data)


def _count(word: int) -> int:
    """Takes an answer's word apart: number + place * 2^16 + count * 2^32."""
    number, place, count = word & 0xFFFF, word >> 16 & 0xFFFF, word >> 32
    if number != 0:
        raise Refused(number, None if place == _NO_PLACE else place)
    return count


def _find() -> Path:
    """Where libjefkantu.so is."""
    named = os.environ.get("JEFKANTU_LIB_DIR")
    places = [Path(named)] if named else [_HERE, _HERE.parent.parent / "target" / "python"]
    files = [place.resolve() / "libjefkantu.so" for place in places]
    for file in files:
        if file.is_file():
            return file
    raise ImportError(f"there is no {' nor '.join(map(str, files))}: bindings/python/link writes it")


def _load() -> ctypes.CDLL:
    """The library, with the types that include/jefkantu.h declares."""
    library = ctypes.CDLL(str(_find()))
    size, data = ctypes.c_size_t, ctypes.c_char_p
    column, out = ctypes.POINTER(ctypes.c_uint32), ctypes.POINTER(ctypes.c_uint8)
    numbers, sets = ctypes.POINTER(ctypes.c_uint32 * _ORDER_NUMBERS), ctypes.POINTER(ctypes.c_uint64)
    arguments = {
        "read_order": [data, size, numbers],
        "write_order": [ctypes.c_uint32, *[column, size] * 4, out, size],
        "read_text": [ctypes.c_uint32, data, size, out, size],
        "write_text": [data, size, out, size],
        "plan": [data, size, out, size],
        "check": [data, size] * 2,
        "run": [*[data, size] * 3, column, size],
        "late": [*[data, size] * 2, out, size],
        "partition_sets": [*[data, size] * 2, sets, size],
        "write_list": [ctypes.c_uint64, out, size],
        "read_list": [data, size, sets],
    }
    for name, types in arguments.items():
        function = getattr(library, f"jefkantu_{name}")
        function.argtypes, function.restype = types, ctypes.c_uint64
    return library


_library = _load()
