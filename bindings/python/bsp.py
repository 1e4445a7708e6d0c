"""Jobs of the task language, and phasers between processes: `libbsp.so` by ctypes.

    import bsp
    report = bsp.run(open("swap.job").read(), limit=1000)
    report.arrays["a"]      # [20, 10]
    report.prints           # [Print(step=1, path=(0,), value=20), Print(step=1, path=(1,), value=10)]
    report.supersteps       # [Superstep(phase=0, parties=2, left=0, spawned=0), ...]

The library is that of the environment variable BSP_LIBRARY, else `lib/libbsp.so` of the folder that this file was
installed to, else the one that the system finds. `tools/install --prefix DIR` makes both. What the calls of the library
promise is proved; what is in this file isn't."""

import ctypes
import math
import multiprocessing
import operator
import os
import time
from ctypes import POINTER, byref, c_int32, c_int64, c_size_t, c_uint32, c_uint64
from typing import Any, Dict, List, NamedTuple, Optional, SupportsIndex, Tuple, Type, Union

Text = Union[str, bytes, bytearray, memoryview]

CODES = {
    1: "TooLong", 2: "BadByte", 3: "BadHeader", 4: "UnknownLine", 5: "BadName", 6: "BadNumber", 7: "BadLine",
    8: "Twice", 9: "UnknownName", 10: "Unclosed", 11: "BadNesting", 12: "TooMany", 13: "BadLength", 14: "Reserved",
}
FAULTS = {1: "Overflow", 2: "DivideByZero", 3: "Index", 4: "Budget", 5: "Depth", 6: "Spawns", 7: "TooMany", 8: "SumOverflow"}


def _number(number: SupportsIndex, least: int, most: int, what: str) -> int:
    """The number, if it is an integer that fits: what crosses into C is never cut off."""
    number = operator.index(number)
    if not least <= number <= most:
        raise OverflowError(f"{what} has to be from {least} to {most}: {number}")
    return number


class Refused(ValueError):
    """A text isn't a job: `line` and `code` of its first fault, both from 1, and the code's `name`."""

    def __init__(self, line: int, code: int) -> None:
        super().__init__(f"line {line}: {CODES[code]} (code {code}; `bsp explain {code}` says more)")
        self.line, self.code, self.name = line, code, CODES[code]

    def __reduce__(self) -> Tuple[Type["Refused"], Tuple[int, int]]:
        return Refused, (self.line, self.code)


class Superstep(NamedTuple):
    """How many tasks took part in a superstep, how many of them stopped, and how many were spawned in it."""

    phase: int
    parties: int
    left: int
    spawned: int


class Print(NamedTuple):
    """A value that the task of this path printed in this superstep."""

    step: int
    path: Tuple[int, ...]
    value: int


class Fault(NamedTuple):
    """Why a job failed: the fault's code (`bsp explain --fault CODE` says more) and name, the superstep, and the path of the
    task, or None for fault 7."""

    code: int
    name: str
    step: int
    path: Optional[Tuple[int, ...]]


class Report(NamedTuple):
    """What a job left. `status` is "ended", "fault" or "limit"; `steps` counts the supersteps that had an effect."""

    status: str
    steps: int
    supersteps: List[Superstep]
    prints: List[Print]
    arrays: Dict[str, List[int]]
    fault: Optional[Fault]
    text: str


def _library() -> ctypes.CDLL:
    here = os.path.dirname(os.path.realpath(__file__))
    installed = os.path.join(here, "..", "..", "..", "lib", "libbsp.so")
    named = os.environ.get("BSP_LIBRARY") or (installed if os.path.exists(installed) else "libbsp.so")
    try:
        return ctypes.CDLL(named)
    except OSError as error:
        raise ImportError(f"no library {named} ({error}): install it by tools/install --prefix DIR, and set BSP_LIBRARY to DIR/lib/libbsp.so") from None


class _Told(ctypes.Structure):
    _fields_ = [("bytes", c_size_t), ("line", c_size_t), ("code", c_uint32)]


_calls = _library()
_text: List[Any] = [ctypes.c_char_p, c_size_t]
_out: List[Any] = [ctypes.c_char_p, c_size_t, POINTER(_Told)]
_word: List[Any] = [POINTER(c_uint64)]
_answer: List[Any] = [POINTER(c_int32)]
for _name, _arguments in {
    "bsp_check": _text + _out,
    "bsp_upgrade": _text + _out,
    "bsp_run": [*_text, c_uint32, *_out],
    "bsp_phaser_new": [c_int64, c_uint32, *_word],
    "bsp_phaser_phase": [c_uint64, *_answer],
    "bsp_phaser_parties": [c_uint64, *_answer],
    "bsp_phaser_arrived": [c_uint64, *_answer],
    "bsp_phaser_unarrived": [c_uint64, *_answer],
    "bsp_process_set": [*_word, c_uint64],
    "bsp_process_arrive": [*_word, c_uint32, *_answer, *_answer],
    "bsp_process_leave": [*_word, c_uint32, *_answer],
    "bsp_process_register": [*_word, c_int64, *_answer],
    "bsp_process_force": [*_word, *_answer],
    "bsp_process_await": [*_word, c_int32, c_uint32, *_answer],
}.items():
    getattr(_calls, _name).argtypes = _arguments
    getattr(_calls, _name).restype = None if _name == "bsp_process_set" else c_int32
_calls.bsp_process_get.argtypes, _calls.bsp_process_get.restype = _word, c_uint64


def _ask(call: Any, text: Text, *limit: int) -> Tuple[int, str]:
    """The status and the text of a call, which is made again if there was too little room for the text."""
    given = text.encode("utf-8", "surrogateescape") if isinstance(text, str) else bytes(text)
    room = 4096
    while True:
        out, told = ctypes.create_string_buffer(room), _Told()
        status = call(given, len(given), *limit, out, room, byref(told))
        if status != 10:
            break
        room = told.bytes
    if status == 4:
        raise Refused(told.line, told.code)
    if status == 6:
        raise MemoryError("out of memory in libbsp.so")
    return status, out.raw[: told.bytes].decode("ascii")


def check(text: Text) -> str:
    """The canonical text of a job, a str or bytes. Raises Refused and MemoryError."""
    return _ask(_calls.bsp_check, text)[1]


def upgrade(text: Text) -> str:
    """The canonical text of the job in format 2. Raises Refused and MemoryError."""
    return _ask(_calls.bsp_upgrade, text)[1]


def run(text: Text, limit: SupportsIndex = 1000000) -> Report:
    """Runs a job, a str or bytes, within a limit of supersteps, from 1 to 4294967295, on the caller's thread, and returns
    its Report, also if a task failed or the limit was reached. Raises Refused, MemoryError, and ValueError for the limit."""
    most = operator.index(limit)
    if not 1 <= most <= 0xFFFFFFFF:
        raise ValueError("the limit is from 1 to 4294967295")
    return _report(_ask(_calls.bsp_run, text, most)[1])


def _path(word: str) -> Optional[Tuple[int, ...]]:
    return None if word == "-" else tuple(map(int, word.split(".")))


def _report(text: str) -> Report:
    supersteps: List[Superstep] = []
    prints: List[Print] = []
    arrays: Dict[str, List[int]] = {}
    fault: Optional[Fault] = None
    kind = ""
    for line in text.splitlines():
        kind, *words = line.split(" ")
        if kind == "phase":
            supersteps.append(Superstep(int(words[0]), *map(int, words[2::2])))
        elif kind == "print":
            prints.append(Print(int(words[0]), _path(words[1]) or (), int(words[2])))
        elif kind == "array":
            arrays[words[0]] = [int(word) for word in words[1:]]
        elif kind == "fault":
            fault = Fault(int(words[0]), FAULTS.get(int(words[0]), "Own"), int(words[2]), _path(words[4]))
    return Report(kind, len(supersteps), supersteps, prints, arrays, fault, text)


class PhaserError(ValueError):
    """A phaser refused a call; nothing changed. `status` is that of bsp_phaser.h, `name` its name."""

    NAMES = {1: "not a phaser's word", 3: "TooMany", 4: "Full", 5: "NobodyUnarrived", 6: "Negative"}

    def __init__(self, status: int) -> None:
        super().__init__(f"{self.NAMES[status]} (status {status})")
        self.status, self.name = status, self.NAMES[status]

    def __reduce__(self) -> Tuple[Type["PhaserError"], Tuple[int]]:
        return PhaserError, (self.status,)


class Ended(RuntimeError):
    """The phaser ended before all parties had arrived."""


class Phaser:
    """A phaser for processes and threads, after Java's Phaser: one word in memory that they share. Give it to a process
    as an argument when you start it (`multiprocessing.Process(target=f, args=(phaser,))`). It ends if an advance leaves
    fewer parties than `least`: 1 is Java's rule, and 0 never ends it.

    A call raises PhaserError if the phaser refuses it, and OverflowError if a number doesn't fit the library's; then nothing
    has changed."""

    _value: Any
    _least: int

    def __init__(self, parties: SupportsIndex, least: SupportsIndex = 1) -> None:
        self._value, self._least = multiprocessing.RawValue(c_uint64), _least(least)
        _done(_calls.bsp_phaser_new(_parties(parties), 0, byref(self._value)))

    @classmethod
    def on(cls, buffer: Any, offset: int = 0, least: SupportsIndex = 1) -> "Phaser":
        """The phaser whose word is in this buffer, for example in that of a multiprocessing.shared_memory.SharedMemory, 8
        bytes from an offset that 8 divides. Keep the buffer open for as long."""
        if offset % 8:
            raise ValueError("8 has to divide the offset")
        phaser = cls.__new__(cls)
        phaser._value, phaser._least = c_uint64.from_buffer(buffer, offset), _least(least)
        phaser.phase  # refused unless this is a phaser's word
        return phaser

    @staticmethod
    def place(buffer: Any, parties: SupportsIndex, offset: int = 0) -> None:
        """Writes the word of a new phaser into a buffer, for `on`. Nobody may use a phaser there yet."""
        value = c_uint64.from_buffer(buffer, offset)
        _done(_calls.bsp_phaser_new(_parties(parties), 0, byref(value)))

    def arrive(self) -> int:
        """One party arrives. Returns the phase of the arrival, negative once the phaser has ended."""
        return self._arrive()[0]

    def _arrive(self) -> Tuple[int, int]:
        answer, index = c_int32(), c_int32()
        _done(_calls.bsp_process_arrive(byref(self._value), self._least, byref(answer), byref(index)))
        return answer.value, index.value

    def arrive_and_wait(self, timeout: Optional[float] = None) -> int:
        """One party arrives and waits until all have, no longer than `timeout` seconds, or without a limit for None. Returns its
        arrival index: parties - 1 for the first, 0 for the last. Raises Ended if the phaser ends before, and TimeoutError if some
        haven't arrived by then: the party has arrived all the same, so don't call it again in this phase."""
        phase, index = self._arrive()
        if phase < 0:
            raise Ended
        now = self.wait(phase, timeout)
        if now < 0 and now + 2147483648 == phase:
            raise Ended
        return index

    def leave(self) -> int:
        """One party arrives and leaves. Returns the phase, negative once the phaser has ended."""
        return self._of(_calls.bsp_process_leave, self._least)

    def register(self, count: SupportsIndex = 1) -> int:
        """`count` parties register. Returns the phase to which this applies, negative once the phaser has ended."""
        return self._of(_calls.bsp_process_register, _parties(count))

    def force(self) -> int:
        """Ends the phaser at once. Returns the phase shown."""
        return self._of(_calls.bsp_process_force)

    def wait(self, phase: SupportsIndex, timeout: Optional[float] = None) -> int:
        """Waits until this phase is over, no longer than `timeout` seconds, or without a limit for None. Returns the phase then,
        negative once the phaser has ended. Raises TimeoutError if the phase isn't over by then: wait again, or read `unarrived`."""
        phase, answer = _number(phase, -(2**31), 2**31 - 1, "a phase"), c_int32()
        end = None if timeout is None else time.monotonic() + _seconds(timeout)
        left = 0.1
        while True:
            if end is not None:
                left = min(max(end - time.monotonic(), 0), 0.1)
            # Python's handlers of signals run between two calls
            status = _calls.bsp_process_await(byref(self._value), phase, math.ceil(left * 1000), byref(answer))
            if status != 2:
                _done(status)
                return answer.value
            if end is not None and time.monotonic() >= end:
                raise TimeoutError("the phase isn't over")

    def _of(self, call: Any, *words: int) -> int:
        answer = c_int32()
        _done(call(byref(self._value), *words, byref(answer)))
        return answer.value

    def _read(self, call: Any) -> int:
        answer = c_int32()
        _done(call(self.word, byref(answer)))
        return answer.value

    @property
    def word(self) -> int:
        """The word, as docs/FORMATS.md describes it."""
        return int(_calls.bsp_process_get(byref(self._value)))

    @property
    def phase(self) -> int:
        """The phase shown, negative once the phaser has ended."""
        return self._read(_calls.bsp_phaser_phase)

    @property
    def parties(self) -> int:
        """How many parties are registered."""
        return self._read(_calls.bsp_phaser_parties)

    @property
    def arrived(self) -> int:
        """How many parties have arrived in this phase."""
        return self._read(_calls.bsp_phaser_arrived)

    @property
    def unarrived(self) -> int:
        """How many parties haven't arrived in this phase."""
        return self._read(_calls.bsp_phaser_unarrived)


def _least(least: SupportsIndex) -> int:
    return _number(least, 0, 2**32 - 1, "the least number of parties")


def _parties(parties: SupportsIndex) -> int:
    """The library says which numbers of parties it refuses."""
    return _number(parties, -(2**63), 2**63 - 1, "a number of parties")


def _seconds(timeout: float) -> float:
    seconds = float(timeout)
    if math.isnan(seconds):
        raise ValueError("a timeout is a number of seconds")
    return seconds


def _done(status: int) -> None:
    if status:
        raise PhaserError(status)
