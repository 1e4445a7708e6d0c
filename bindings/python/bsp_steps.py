"""Supersteps whose tasks are generators: `yield` ends a task's superstep, and the end of the generator ends the task.

    from bsp_steps import Steps

    def swap(task, other):
        task.put("a", 1 - other, task["a"][other])
        yield
        task.print(task["a"][1 - other])

    report = Steps({"a": [10, 20]}, [(swap, 1), (swap, 0)]).run()
    report.arrays["a"]      # [20, 10]

A task sees the arrays as its superstep began, as read-only memoryviews of 64-bit integers. What it writes takes effect when all tasks
have run: in the order of their paths, and for each task in the order of its calls. The tasks run one after another on the caller's
thread; `Steps.segments` is where another engine may run them. What the calls of the library promise is proved; what is in this file
isn't."""

import ctypes
import inspect
import operator
import struct
import sys
from array import array as numbers
from ctypes import POINTER, byref, c_bool, c_int32, c_int64, c_size_t, c_uint8, c_uint16, c_uint32, c_void_p
from typing import Any, Callable, Dict, Iterable, Iterator, List, Mapping, NamedTuple, Optional, Sequence, SupportsIndex, Tuple, Type, Union

import bsp
from bsp import Report

DONE, ENDED, FAULT, LIMIT, NO_MEMORY, OVER, UNREAD = 0, 1, 2, 3, 6, 12, 15
_WHY = {
    4: "an array has over 4294967295 cells",
    5: "more start tasks than may live, or than 65535",
    11: "there isn't one deed for each live task, or a task fails by a number from 16 to 255",
    12: "the run is over",
    13: "the run isn't over",
    14: "an array's name is a lower-case letter and up to 15 lower-case letters, digits and underscores, and no word of the language",
}
_ENDS = {DONE: None, ENDED: "ended", FAULT: "fault", LIMIT: "limit"}
# Items of packed deeds, as `bsp_steps_close_packed` reads them: an end, a put or an addition, a row, a print.
_pack_end = struct.Struct("<BBH").pack
_pack_put = struct.Struct("<BHIq").pack
_pack_row = struct.Struct("<BHII").pack
_pack_print = struct.Struct("<Bq").pack

Body = Callable[..., Iterator[Any]]
Cells = Union[Iterable[SupportsIndex], memoryview]


class StepsError(ValueError):
    """A call was refused, and changed nothing: `status` is one of bsp_steps.h."""

    def __init__(self, status: int, why: Optional[str] = None) -> None:
        super().__init__(why or _WHY.get(status, f"status {status}"))
        self.status = status

    def __reduce__(self) -> Tuple[Type["StepsError"], Tuple[int, str]]:
        return StepsError, (self.status, str(self))


class _Slot(ctypes.Structure):
    _fields_ = [("at", c_void_p), ("held", c_bool)]


class _Array(ctypes.Structure):
    _fields_ = [("name", ctypes.c_char_p), ("name_len", c_size_t), ("cells", c_void_p), ("len", c_size_t)]


class _Block(ctypes.Structure):
    _fields_ = [("at", ctypes.c_char_p), ("len", c_size_t)]


class _Unread(ctypes.Structure):
    _fields_ = [("block", c_size_t), ("byte", c_size_t)]


class _Origin(ctypes.Structure):
    _fields_ = [("place", c_size_t), ("number", c_uint16), ("spawned", c_bool)]


class _Look(ctypes.Structure):
    _fields_ = [("step", c_uint32), ("status", c_int32), ("live", c_size_t), ("arrays", c_size_t), ("prints", c_size_t), ("records", c_size_t)]


class _Lent(ctypes.Structure):
    _fields_ = [("at", c_void_p), ("len", c_size_t)]


_calls: Any = bsp._calls
_slot: Any = POINTER(_Slot)
_arguments: Any
for _name, _arguments in {
    "open": [POINTER(_Array), c_size_t, c_uint32, c_uint32, c_uint32, _slot],
    "close_packed": [POINTER(_Block), c_size_t, _slot, POINTER(_Unread)],
    "look": [_slot, POINTER(_Look)],
    "cells": [_slot, c_size_t, POINTER(_Lent)],
    "path": [_slot, c_size_t, POINTER(_Lent)],
    "origin": [_slot, c_size_t, POINTER(_Origin)],
    "report": [_slot, c_void_p, c_size_t, POINTER(c_size_t)],
    "free": [_slot],
}.items():
    _call = getattr(_calls, "bsp_steps_" + _name)
    _call.argtypes, _call.restype = _arguments, c_int32


_calls.bsp_process_sum.argtypes, _calls.bsp_process_sum.restype = [_slot], ctypes.c_uint64


def _done(status: int) -> None:
    if status == NO_MEMORY:
        raise MemoryError
    if status != DONE:
        raise StepsError(status)


def _address(buffer: Any) -> Optional[int]:
    """Where the bytes of a writable buffer are, if there is one."""
    return ctypes.addressof(c_uint8.from_buffer(buffer)) if len(buffer) else None


def _cells(values: Cells, what: str) -> "numbers[int]":
    """64-bit integers: from a buffer of such without a look at each."""
    all_ = numbers("q")
    try:
        view = memoryview(values)  # type: ignore[arg-type]
    except TypeError:
        pass
    else:
        if view.format in ("q", "l") and view.itemsize == 8 and view.c_contiguous:
            all_.frombytes(view.cast("B"))
            return all_
    for value in values:
        try:
            all_.append(value)  # type: ignore[arg-type]
        except OverflowError:
            raise OverflowError(f"{what}: {value} doesn't fit 64 signed bits") from None
        except TypeError:
            raise TypeError(f"{what}: {value!r} is no integer") from None
    return all_


class _Run:
    """A run in the library. It is freed once neither a `Steps` nor a view of its cells uses it."""

    def __init__(self, arrays: Mapping[str, Cells], starts: int, most: int, limit: int) -> None:
        self.slot = _Slot()
        cells = [_cells(it, name) for name, it in arrays.items()]
        names = [it.encode("utf-8", "backslashreplace") for it in arrays]
        given = (_Array * len(names))(*(_Array(n, len(n), _address(c), len(c)) for n, c in zip(names, cells)))
        _done(_calls.bsp_steps_open(given, len(names), starts, most, limit, byref(self.slot)))

    def __del__(self) -> None:
        if hasattr(self, "slot"):
            _calls.bsp_steps_free(byref(self.slot))

    def view(self, array: int) -> memoryview:
        lent = _Lent()
        _done(_calls.bsp_steps_cells(byref(self.slot), array, byref(lent)))
        if not lent.len:
            return memoryview(b"").cast("q")
        kind: Any = type("Cells", (c_int64 * lent.len,), {})
        cells = kind.from_address(lent.at)
        cells.run = self  # A view keeps the run.
        return memoryview(cells).cast("B").cast("q").toreadonly()

    def look(self) -> _Look:
        look = _Look()
        _done(_calls.bsp_steps_look(byref(self.slot), byref(look)))
        return look


class _Fails(Exception):
    pass


class Deed(NamedTuple):
    """What a task left in a superstep: its deed as bytes, packed as `bsp_steps.h` says at `bsp_steps_close_packed`; and the function and
    the words of each task that it spawned. It can be pickled if the functions and words can."""

    packed: bytes
    spawns: Sequence[Tuple[Any, ...]]


class Task:
    """What a task sees and does. It can be used only while the task runs; otherwise a call raises RuntimeError."""

    def __init__(self, steps: "Steps", function: Body, words: Tuple[Any, ...]) -> None:
        self._steps, self._runs = steps, False
        self._items = bytearray()
        self._spawns: List["Task"] = []
        self._made = (function, *words)
        self._body = _generator(function, self, words)

    def _running(self) -> None:
        if not self._runs:
            raise RuntimeError("the task doesn't run now")

    def _add(self, array: str, kind: int, index: SupportsIndex, value: SupportsIndex) -> None:
        self._running()
        try:
            self._items += _pack_put(kind, self._steps._places[array], index, value)
        except struct.error:
            where = f"{array}[{index!r}] = {value!r}"
            _fits(where, "index", index, 0, 2**32 - 1)
            _fits(where, "value", value, -(2**63), 2**63 - 1)
            raise

    def __getitem__(self, array: str) -> memoryview:
        """The cells of an array as the superstep began. Raises KeyError if there is no such array."""
        self._running()
        return self._steps._views[self._steps._places[array]]

    @property
    def step(self) -> int:
        """The superstep, from 0."""
        self._running()
        return self._steps.steps

    @property
    def path(self) -> Tuple[int, ...]:
        """The numbers of its spawners, from that of a start task on, and its own: up to 8."""
        self._running()
        lent = _Lent()
        _done(_calls.bsp_steps_path(byref(self._steps._run.slot), self._steps._now, byref(lent)))
        return tuple((c_uint16 * lent.len).from_address(lent.at))

    def put(self, array: str, index: SupportsIndex, value: SupportsIndex) -> None:
        """Sets a cell, counted from 0, to a value of 64 signed bits. If there is no such cell, the run ends by fault 3. Raises KeyError
        if there is no such array, OverflowError if a number doesn't fit, and TypeError if it is no integer."""
        self._add(array, 1, index, value)

    def add(self, array: str, index: SupportsIndex, value: SupportsIndex) -> None:
        """Adds to a cell. A sum that doesn't fit 64 signed bits ends the run by fault 8. Otherwise as `put`."""
        self._add(array, 2, index, value)

    def put_row(self, array: str, first: SupportsIndex, values: Cells) -> None:
        """Sets cells side by side, from the cell `first` on. `values` is a buffer of 64-bit integers, such as an `array`, a NumPy
        array or a `memoryview`, which is copied at once, or any other integers. Otherwise as `put`."""
        self._running()
        row = _cells(values, f"{array}[{first!r}] and on")
        _fits(f"a row in {array}", "first index", first, 0, 2**32 - 1)
        start, count = operator.index(first), len(row)
        if start + count > 2**32:
            raise OverflowError(f"{array}[{start}] and on: {count} values go on past the cell 4294967295")
        if not count:
            return
        if sys.byteorder == "big":
            row.byteswap()
        self._items += _pack_row(3, self._steps._places[array], start, count) + row.tobytes()

    def print(self, value: SupportsIndex) -> None:
        """Prints a number of 64 signed bits. Raises OverflowError if it doesn't fit, and TypeError if it is no integer."""
        self._running()
        try:
            self._items += _pack_print(4, value)
        except struct.error:
            _fits("a print", "value", value, -(2**63), 2**63 - 1)
            raise

    def spawn(self, function: Body, *words: Any) -> None:
        """Spawns a task, which first runs in the next superstep. Raises OverflowError after 65535 spawns in a superstep, and TypeError
        if `function` makes no generator. A task with 8 numbers in its path that spawns ends the run by fault 5."""
        self._running()
        if len(self._spawns) == 65535:
            raise OverflowError("a task spawns at most 65535 tasks in a superstep")
        self._spawns.append(Task(self._steps, function, words))

    def fail(self, number: SupportsIndex) -> None:
        """Ends the run by a fault, with a number from 16 to 255. Raises StepsError for another one."""
        self._running()
        if not 16 <= operator.index(number) <= 255:
            raise StepsError(11)
        raise _Fails(operator.index(number))

    def segment(self) -> Deed:
        """Runs to the next `yield`, and returns what the task left in the superstep. `Steps.segments` calls it."""
        self._items, self._spawns = bytearray(), []
        self._runs, ending = True, 0
        try:
            next(self._body)
        except StopIteration:
            ending = 1
        except _Fails as it:
            ending = it.args[0]
        finally:
            self._runs = False
        return Deed(bytes(self._items) + _pack_end(0, ending, len(self._spawns)), [it._made for it in self._spawns])


def _fits(where: str, what: str, number: SupportsIndex, least: int, most: int) -> None:
    try:
        index = operator.index(number)
    except TypeError:
        raise TypeError(f"{where}: the {what} is no integer") from None
    if not least <= index <= most:
        raise OverflowError(f"{where}: the {what} has to be from {least} to {most}") from None


def _generator(function: Body, task: Task, words: Tuple[Any, ...]) -> Iterator[Any]:
    """The generator of a task."""
    why = f"a task is a generator: {getattr(function, '__name__', function)!r} is a function without `yield`"
    if inspect.isgeneratorfunction(function):
        return function(task, *words)
    try:
        body = function(task, *words)
    except RuntimeError as error:
        raise TypeError(why) from error
    if not hasattr(body, "__next__"):
        raise TypeError(why)
    return body


class Steps:
    """A run of tasks: `arrays` by name, each of 64-bit integers, and for each start task a generator function and what it takes beside
    its `Task`. At most `most` tasks may live at once, and at most `limit` supersteps are taken. With no task, or a limit of 0, the run
    is over at once.

    Raises StepsError if an array's name is none that a job may have, if there are more tasks than `most` or 65535, or if an array is
    too large; OverflowError for a number that doesn't fit; TypeError for one that is no integer, and for a task that is no generator;
    MemoryError.

    `steps` counts the supersteps that were taken."""

    def __init__(
        self,
        arrays: Mapping[str, Cells],
        tasks: Sequence[Union[Body, Tuple[Any, ...]]],
        most: SupportsIndex = 4096,
        limit: SupportsIndex = 1000000,
    ) -> None:
        for name, number in (("most", most), ("limit", limit), ("the number of tasks", len(tasks))):
            _fits(f"{name} = {number!r}", "number", number, 0, 2**32 - 1)
        self._run = _Run(arrays, len(tasks), operator.index(most), operator.index(limit))
        self._names = list(arrays)
        self._places = {name: place for place, name in enumerate(arrays)}
        self._views: List[memoryview] = []
        self._now, self.steps = 0, 0
        self.status: int = self._run.look().status
        self._tasks = [Task(self, it[0], it[1:]) for it in (it if isinstance(it, tuple) else (it,) for it in tasks)]

    def segments(self, tasks: Sequence[Task]) -> Sequence[Deed]:
        """Runs the segment of each live task, and returns what each left, in this order. `step` calls it.

        Override it to run tasks elsewhere, for example some of them in each of several processes that all have this run and pass the
        deeds to each other: a task whose deed comes from elsewhere isn't run here, and what it spawned is made by its deed. Every
        process has to return the same deeds."""
        deeds = []
        for self._now, task in enumerate(tasks):
            deeds.append(task.segment())
        return deeds

    def step(self) -> Optional[str]:
        """Takes one superstep. Returns None if the run goes on, else "ended", "fault" or "limit". What a task raises is raised here;
        then the superstep isn't taken, and the run can't go on. Raises StepsError if the run is over."""
        if self.status != DONE:
            raise StepsError(OVER)
        self._views = [self._run.view(place) for place in range(len(self._names))]
        self.status = OVER
        for task in self._tasks:
            task._spawns = []
        deeds = list(self.segments(self._tasks))
        blocks = (_Block * len(deeds))(*(_Block(it.packed, len(it.packed)) for it in deeds))
        unread = _Unread()
        status: int = _calls.bsp_steps_close_packed(blocks, len(deeds), byref(self._run.slot), byref(unread))
        if status == UNREAD:
            raise StepsError(status, f"the deed of the task {unread.block} can't be read at its byte {unread.byte}")
        if status > LIMIT:
            _done(status)
        look = self._run.look()
        self.status, self.steps = status, look.step
        if status == DONE:
            self._tasks = [self._from(place, deeds) for place in range(look.live)]
        return _ENDS[status]

    def _from(self, place: int, deeds: Sequence[Deed]) -> Task:
        origin = _Origin()
        _done(_calls.bsp_steps_origin(byref(self._run.slot), place, byref(origin)))
        task = self._tasks[origin.place]
        if not origin.spawned:
            return task
        if origin.number < len(task._spawns):
            return task._spawns[origin.number]
        function, *words = deeds[origin.place].spawns[origin.number]
        return Task(self, function, tuple(words))

    def sum(self) -> int:
        """A sum of 64 bits of what is to be seen of the run: how far it is, its arrays, the paths of its live tasks, its prints and
        records. Processes that took the same supersteps have the same sum; if the runs differ, so do the sums, but for chance."""
        return int(_calls.bsp_process_sum(byref(self._run.slot)))

    @property
    def arrays(self) -> Dict[str, memoryview]:
        """The arrays as they are now, by name. The views change with the next superstep."""
        return {name: self._run.view(place) for place, name in enumerate(self._names)}

    def run(self) -> Report:
        """Takes supersteps until the run is over, and returns its report. Raises as `step`."""
        while self.status == DONE:
            self.step()
        return self.report()

    def report(self) -> Report:
        """The report of a run that is over. Raises StepsError if it isn't, and MemoryError."""
        look, arrays = self._run.look(), self.arrays
        # No line is longer than this. The memory isn't touched before it is written.
        room = 80 + 86 * look.prints + 71 * look.records + sum(23 + 21 * len(it) for it in arrays.values())
        out, length = bytearray(room), c_size_t()
        _done(_calls.bsp_steps_report(byref(self._run.slot), _address(out), room, byref(length)))
        text = str(memoryview(out)[: length.value], "ascii")
        return bsp._report(text)._replace(arrays={name: it.tolist() for name, it in arrays.items()})
