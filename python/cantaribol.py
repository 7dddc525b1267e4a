"""Read, check and run designs of guarded rules, clock by clock.

What is answered here is answered by the proved library; this file only lends
it buffers and gives its numbers names. It needs the library as a shared
object, which one command makes of what `rt lib` in crates/host writes, in the
top folder:

    mkdir -p target && cc -shared -o target/libcantaribol.so -Wl,--whole-archive crates/host/out/libhost.a -Wl,--no-whole-archive

The object is the file that the environment variable CANTARIBOL_SO names, or
else target/libcantaribol.so in the top folder.

    from pathlib import Path
    from cantaribol import Board, Design

    design = Design(Path("designs/gcd.bin").read_bytes())
    design.check()                      # what passes never gets stuck
    board = Board(design)               # registers at their start values
    outcome = board.clock()             # fired, quiet, or stuck
    print(outcome.letters, outcome.displays, board.state)
    ending, count = board.run(1000)     # only the end of up to 1000 clocks

A clock or a run takes up to 0.9 MB of the caller's stack. The main thread has
that; a thread of yours may have less, and a stack that is too small ends the
process: call threading.stack_size(2 << 20) before you start it. A board is for
one thread at a time, a design for any number. A run cannot be interrupted.
"""

import ctypes
import enum
import functools
import operator
import os
import re
from collections.abc import Sequence
from dataclasses import dataclass
from pathlib import Path
from typing import Any, NamedTuple, Optional, Union, overload

__version__ = "0.1.0"

COMMAND = (
    "mkdir -p target && cc -shared -o target/libcantaribol.so "
    "-Wl,--whole-archive crates/host/out/libhost.a -Wl,--no-whole-archive"
)

FATE_ROOM = 64
DISPLAY_ROOM = 4096
PLAN_SIZE = 1092
LOG_ROOM = 4096

# Where a sentence has a place to name, it names it inside the brackets.
_WORDS = {
    1: "the file is over 32,768 bytes",
    2: "the record[ at offset {}] is cut short by the end of the file",
    3: "the record[ at offset {}] begins with an unknown mark",
    4: "[at offset {} stands ]a method or rule whose latest instance is no user module, "
    "or a byte after the schedule",
    5: "the record[ at offset {}] is the 65th instance, the 129th method or the 65th rule",
    6: "the record[ at offset {}] has a field out of its range, "
    "or a kind and a result that disagree",
    7: "the record[ at offset {}] has a body with an unknown or out-of-range byte, "
    "or of depth 17, or that is not exactly its expressions",
    8: "the schedule[ at offset {}] names a missing rule, or one twice",
    9: "the file ends without a schedule[, at offset {}]",
    10: "the state's length is not the instance count",
    11: "the fate buffer has under 64 entries",
    12: "the display buffer has under 4,096 entries",
    13: "the plan has under 1,092 numbers",
    14: "the log has under 4,096 entries",
    21: "wrong kind of value",
    22: "no such local",
    23: "instance missing or not below the caller's",
    24: "no such method or port",
    25: "wrong argument count",
    26: "action in a pure place",
    27: "65th call",
    28: "17th live local",
}


def words(number: int) -> str:
    """Refusal 1 to 14 or reason 21 to 28 in words; "" for any other number."""
    return re.sub(r"\[.*?\]", "", _WORDS.get(number, ""))


def _sentence(number: int, place: int) -> str:
    return re.sub(r"[][]", "", _WORDS.get(number, "")).format(place)


class _Numbered(Exception):
    """A number with its place, and its words."""

    def __init__(self, number: int, place: int) -> None:
        super().__init__(number, place)
        self.number = number
        self.place = place
        self.words = words(number)


class Refused(_Numbered):
    """The bytes are no design: a number 1 to 9, and a place in the file."""

    def __str__(self) -> str:
        sentence = _sentence(self.number, self.place)
        return f"{sentence} (number {self.number}, place {self.place})"


class Failed(_Numbered):
    """The check's first failure: a reason 21 to 28, and its record's place."""

    def __str__(self) -> str:
        number, place = self.number, self.place
        return f"{self.words} in the record at offset {place} (number {number}, place {place})"


class Fate(enum.Enum):
    """What became of a schedule entry in one clock."""

    FIRED = 0
    UNAVAILABLE = 1
    INSIDE = 2  # conflict inside the rule
    EARLIER = 3  # conflict with an earlier fired rule
    HARDWARE = 4  # hardware conflict
    STUCK = 5
    NOT_REACHED = 6

    @property
    def letter(self) -> str:
        """The letter that the lister prints."""
        return "FUAEHS-"[self.value]


class Counts(NamedTuple):
    """How much a design holds; the state has an entry for each instance."""

    instances: int
    methods: int
    rules: int
    entries: int


@dataclass(frozen=True)
class Stuck:
    """Which rule is stuck, and the reason's number, 21 to 28."""

    rule: int
    number: int

    @property
    def words(self) -> str:
        """The reason in words."""
        return words(self.number)

    def __str__(self) -> str:
        return f"rule {self.rule} is stuck: {self.words} (number {self.number})"


@dataclass(frozen=True)
class Outcome:
    """What one clock answers: it fired, was quiet, or is stuck.

    A stuck clock leaves the registers as they were; its fates and displays are
    those up to the stuck rule.
    """

    fired: bool
    stuck: Optional[Stuck]
    fates: tuple[tuple[int, Fate], ...]  # each with its rule, in schedule order
    displays: tuple[int, ...]

    @property
    def quiet(self) -> bool:
        """No rule fired, and every later clock is the same."""
        return not self.fired and self.stuck is None

    @property
    def letters(self) -> str:
        """The fates as the lister prints them."""
        return "".join(fate.letter for _, fate in self.fates)

    def __str__(self) -> str:
        if self.stuck is not None:
            return str(self.stuck)
        return f"fired, {len(self.displays)} displays" if self.fired else "quiet"


@dataclass(frozen=True)
class Ending:
    """How a run ended: at its limit, quiet or stuck."""

    quiet: bool
    stuck: Optional[Stuck]

    @property
    def limit(self) -> bool:
        """All the clocks asked for were run, and a rule fired in each."""
        return not self.quiet and self.stuck is None

    def __str__(self) -> str:
        if self.stuck is not None:
            return str(self.stuck)
        return "quiet" if self.quiet else "limit"


class Run(NamedTuple):
    """How a run ended, and the clocks in which a rule fired."""

    ending: Ending
    count: int

    def __str__(self) -> str:
        return f"{self.ending}, after {self.count} clocks that fired"


class Design:
    """A design file that reads."""

    def __init__(self, file: Union[bytes, bytearray, memoryview]) -> None:
        # bytes(5) would be five zeros.
        if not isinstance(file, (bytes, bytearray, memoryview)):
            raise TypeError(f"a design is bytes, not {type(file).__name__}")
        self._file = bytes(file)
        answer = _library().cantaribol_read(*self._lent())
        if answer != 0:
            raise Refused(answer & 0xFF, answer >> 8)
        counts = _library().cantaribol_counts(*self._lent())
        self._counts = Counts(*counts.to_bytes(8, "little")[:4])

    def _lent(self) -> tuple[bytes, int]:
        return self._file, len(self._file)

    @property
    def file(self) -> bytes:
        """The bytes of the file."""
        return self._file

    @property
    def counts(self) -> Counts:
        """Instances, methods, rules and schedule entries."""
        return self._counts

    @property
    def schedule(self) -> tuple[int, ...]:
        """The scheduled rule numbers in order: SC is the file's last record."""
        return tuple(self._file[len(self._file) - self._counts.entries :])

    @property
    def registers(self) -> tuple[int, ...]:
        """The instances that are registers; the others are user modules."""
        marks = (mark for mark in _marks(self._file) if mark in _INSTANCES)
        return tuple(number for number, mark in enumerate(marks) if mark != b"UM")

    def check(self) -> None:
        """Raise Failed, or promise that no clock gets stuck, from any registers."""
        answer = _library().cantaribol_check(*self._lent())
        if answer != 0:
            raise Failed(answer & 0xFF, answer >> 8)

    def rule_part(self, rule: int) -> bytes:
        """A rule's guard and body; empty for a number that names no rule."""
        return _slice(self._file, self.rule_range(rule))

    def method_part(self, instance: int, method: int) -> bytes:
        """A method's body; empty for numbers that name no method."""
        return _slice(self._file, self.method_range(instance, method))

    def rule_range(self, rule: int) -> range:
        """Where a rule's guard and body stand in the file."""
        rule = _within("a rule's number", rule, 0, 2**64 - 1)
        return _range(_library().cantaribol_rule_part(*self._lent(), rule))

    def method_range(self, instance: int, method: int) -> range:
        """Where a method's body stands in the file."""
        instance = _within("an instance's number", instance, 0, 2**64 - 1)
        method = _within("a method's number", method, 0, 2**64 - 1)
        return _range(_library().cantaribol_method_part(*self._lent(), instance, method))


class State(Sequence[int]):
    """A value for each instance, to be overwritten between clocks.

    A user module's value is neither read nor written. The length stays.
    """

    def __init__(self, values: ctypes.Array, length: int) -> None:
        self._values = values
        self._length = length

    def __len__(self) -> int:
        return self._length

    @overload
    def __getitem__(self, at: int) -> int: ...

    @overload
    def __getitem__(self, at: slice) -> list[int]: ...

    def __getitem__(self, at: Any) -> Any:
        if isinstance(at, slice):
            return self._values[: self._length][at]
        return self._values[self._entry(at)]

    def __setitem__(self, at: Union[int, slice], value: Any) -> None:
        if isinstance(at, slice):
            self._overwrite(range(self._length)[at], list(value))
        else:
            self._overwrite(range(self._entry(at), self._entry(at) + 1), [value])

    def _entry(self, at: int) -> int:
        at = _whole("an index", at)
        if not -self._length <= at < self._length:
            raise IndexError(f"the state has {self._length} entries and none at {at}")
        return at % self._length

    def _overwrite(self, entries: range, values: list[int]) -> None:
        """All or none: every value is tested before the first is written."""
        if len(entries) != len(values):
            raise ValueError(f"{len(entries)} values are wanted here, not {len(values)}")
        tested = [_within("a register's value", value, -(2**31), 2**31 - 1) for value in values]
        for entry, value in zip(entries, tested):
            self._values[entry] = value

    def __eq__(self, other: object) -> bool:
        if not isinstance(other, (State, list, tuple)):
            return NotImplemented
        return list(self) == list(other)

    def __repr__(self) -> str:
        return repr(list(self))


class Board:
    """A design being run: its state, and the clocks that it is given."""

    def __init__(self, design: Design) -> None:
        if not isinstance(design, Design):
            raise TypeError(f"a board is made of a Design, not {type(design).__name__}")
        self._design = design
        length = design.counts.instances
        # One entry at least, as an empty array might have no address.
        self._values = (ctypes.c_int32 * max(1, length))()
        self._fates = (ctypes.c_uint8 * FATE_ROOM)()
        self._displays = (ctypes.c_int32 * DISPLAY_ROOM)()
        # The file is read once: each clock goes by the plan.
        self._plan = (ctypes.c_uint16 * PLAN_SIZE)()
        self._log = (ctypes.c_uint64 * LOG_ROOM)()
        _accepted(_library().cantaribol_prepare(*design._lent(), self._plan, PLAN_SIZE))
        self._state = State(self._values, length)
        self.reset()

    def _lent(self) -> tuple[bytes, int, ctypes.Array, int]:
        return (*self._design._lent(), self._values, len(self._state))

    @property
    def design(self) -> Design:
        """The design that is run."""
        return self._design

    @property
    def state(self) -> State:
        """The state; assign to its entries, or to all of it at once."""
        return self._state

    @state.setter
    def state(self, values: Sequence[int]) -> None:
        self._state[:] = values

    def reset(self) -> None:
        """Set every register to its start value."""
        _accepted(_library().cantaribol_start(*self._lent()))

    def clock(self) -> Outcome:
        """One clock."""
        fates, displays = self._fates, self._displays
        plan = (self._plan, PLAN_SIZE)
        state = (self._values, len(self._state))
        buffers = (fates, FATE_ROOM, displays, DISPLAY_ROOM, self._log, LOG_ROOM)
        answer = _accepted(
            _library().cantaribol_tick(*self._design._lent(), *plan, *state, *buffers)
        )
        stuck = _stuck(answer)
        return Outcome(
            fired=stuck is None and answer >> 8 & 1 == 1,
            stuck=stuck,
            fates=tuple(zip(self._design.schedule, map(Fate, fates))),
            displays=tuple(displays[: answer >> 16]),
        )

    def run(self, n: int) -> Run:
        """Up to n clocks; how they ended, and in how many a rule fired."""
        n = _within("a number of clocks", n, 0, 2**32 - 1)
        answer = _accepted(_library().cantaribol_run(*self._lent(), n))
        quiet = answer & 0xFF == 100
        return Run(Ending(quiet, None if quiet else _stuck(answer)), answer >> 16)


def _accepted(answer: int) -> int:
    """A board's buffers fit its design, so nothing is refused."""
    if 1 <= answer & 0xFF <= 14:
        raise Refused(answer & 0xFF, answer >> 8)
    return answer


def _stuck(answer: int) -> Optional[Stuck]:
    number = answer & 0xFF
    return Stuck(answer >> 8 & 0xFF, number) if number != 0 else None


def _whole(what: str, value: Any) -> int:
    try:
        return operator.index(value)
    except TypeError:
        kind = type(value).__name__
        raise TypeError(f"{what} is a whole number, not {kind}") from None


def _within(what: str, value: Any, low: int, high: int) -> int:
    """The value, tested: ctypes would cut it to size without a word."""
    number = _whole(what, value)
    if not low <= number <= high:
        raise ValueError(f"{what} is {low} to {high}, not {number}")
    return number


def _range(part: int) -> range:
    start, length = part >> 16, part & 0xFFFF
    return range(start, start + length)


def _slice(file: bytes, part: range) -> bytes:
    return file[part.start : part.stop]


_INSTANCES = {b"RG": 6, b"CR": 7, b"UM": 2}


def _marks(file: bytes) -> list[bytes]:
    """The records' marks in order, of a file that reads."""
    marks, at = [], 0
    while at < len(file):
        marks.append(file[at : at + 2])
        at += _record_length(file, at)
    return marks


def _record_length(file: bytes, at: int) -> int:
    mark = file[at : at + 2]
    if mark == b"SC":
        return 3 + file[at + 2]
    if mark in _INSTANCES:
        return _INSTANCES[mark]
    # A method has its kind, its result and its parameters before the length.
    before = 5 + file[at + 4] if mark == b"MD" else 2
    return before + 2 + int.from_bytes(file[at + before : at + before + 2], "little")


_FILE = (ctypes.c_char_p, ctypes.c_size_t)
_STATE = (*_FILE, ctypes.POINTER(ctypes.c_int32), ctypes.c_size_t)
_FATES = (ctypes.POINTER(ctypes.c_uint8), ctypes.c_size_t)
_DISPLAYS = (ctypes.POINTER(ctypes.c_int32), ctypes.c_size_t)
_PLAN = (ctypes.POINTER(ctypes.c_uint16), ctypes.c_size_t)
_LOG = (ctypes.POINTER(ctypes.c_uint64), ctypes.c_size_t)

_FUNCTIONS = {
    "cantaribol_read": _FILE,
    "cantaribol_counts": _FILE,
    "cantaribol_rule_part": (*_FILE, ctypes.c_uint64),
    "cantaribol_method_part": (*_FILE, ctypes.c_uint64, ctypes.c_uint64),
    "cantaribol_check": _FILE,
    "cantaribol_start": _STATE,
    "cantaribol_clock": (*_STATE, *_FATES, *_DISPLAYS),
    "cantaribol_prepare": (*_FILE, *_PLAN),
    "cantaribol_tick": (*_FILE, *_PLAN, *_STATE[2:], *_FATES, *_DISPLAYS, *_LOG),
    "cantaribol_run": (*_STATE, ctypes.c_uint32),
}


@functools.lru_cache(maxsize=None)
def _library() -> Any:
    """The shared object, looked for at the first use and not at the import."""
    beside = Path(__file__).resolve().parent.parent / "target" / "libcantaribol.so"
    path = Path(os.environ.get("CANTARIBOL_SO") or beside).absolute()
    if not path.is_file():
        raise FileNotFoundError(
            f"no shared object {path}: in the top folder, after `rt lib` in crates/host, run\n"
            f"    {COMMAND}\nor set CANTARIBOL_SO to where it stands"
        )
    try:
        return _typed(ctypes.CDLL(str(path)))
    except (OSError, AttributeError) as error:
        raise OSError(f"{path} is not the library: {error}") from None


def _typed(library: Any) -> Any:
    for name, arguments in _FUNCTIONS.items():
        function = getattr(library, name)
        function.argtypes = arguments
        function.restype = ctypes.c_uint64
    return library
