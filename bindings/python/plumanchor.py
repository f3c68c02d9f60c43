"""The proved operations of Plumanchor: quantified Boolean formulas in prenex negation normal form, as bytes, "sheets".

Each operation is a function of this module. It takes the bytes of a sheet, wide ones unless ``format`` says otherwise, and is proved
to answer as its contract says, on any bytes (docs/ASSURANCE.md). This module isn't proved: it passes bytes to the operations, by the
shared library, and takes their answers apart. What an operation refuses is raised as `Refused`.

    >>> import plumanchor
    >>> sheet = plumanchor.from_qdimacs(b"p cnf 2 2\\na 1 0\\ne 2 0\\n1 -2 0\\n-1 2 0\\n")
    >>> plumanchor.check(sheet)
    Sizes(variables=2, nodes=7)
    >>> plumanchor.solve(sheet).verdict
    True
    >>> plumanchor.check(sheet[:-1])
    Traceback (most recent call last):
    plumanchor.Refused: refused 3: the sheet's length is not that of its sizes

Outputs and work buffers are as long as the longest sheet of the format, as those of the program are, unless ``room`` says otherwise.

The shared library is the file that PLUMANCHOR_LIBRARY names; else the one installed with this module, or built in its repository
(``make library``); else whatever the system finds.
"""

from __future__ import annotations

import ctypes
import enum
import os
from array import array
from dataclasses import dataclass
from pathlib import Path
from typing import Iterable, List, Optional, Sequence, Tuple, Union

__version__ = "1.0.0"

Bytes = Union[bytes, bytearray, memoryview]


class Format(enum.Enum):
    """A format of sheets: its name, bytes to a number, most variables (the highest number of one too) and most nodes."""

    NARROW = ("narrow", 2, 256, 4096)
    WIDE = ("wide", 4, 1024, 8192)

    def __init__(self, title: str, width: int, most_variables: int, most_nodes: int) -> None:
        self.title = title
        self.width = width
        self.most_variables = most_variables
        self.most_nodes = most_nodes

    @property
    def header(self) -> int:
        """Where the kinds begin: behind the two sizes."""
        return 2 * self.width

    def length(self, rows: int) -> int:
        """The length of a sheet of so many rows."""
        return self.header + (1 + self.width) * rows

    @property
    def longest(self) -> int:
        """The length of the longest sheet. No output and no work buffer needs to be longer."""
        return self.length(self.most_variables + self.most_nodes)


TRIAL_VARIABLES = 20
"""The most variables that `trial` takes."""


class Reason(enum.IntEnum):
    """Why a call is refused, by the number of documents 01 and 02 (26 to 29 are ours); `text` says it in words."""

    text: str

    def __new__(cls, number: int, text: str) -> Reason:
        reason = int.__new__(cls, number)
        reason._value_ = number
        reason.text = text
        return reason

    TOO_SHORT = 1, "the sheet is shorter than its two sizes"
    SIZE_OUTSIDE = 2, "a size is outside its limits"
    WRONG_LENGTH = 3, "the sheet's length is not that of its sizes"
    BAD_KIND = 4, "the row's kind is none that may stand there"
    BAD_NUMBER = 5, "the quantifier's number is outside its limits"
    BOUND_TWICE = 6, "a number is bound twice"
    UNBOUND = 7, "the literal's variable is not bound"
    NOT_ONE_TREE = 8, "the rows are not one tree"
    NOT_TIDY = 9, "the sheet is not tidy"
    NOT_IN_PREFIX = 10, "the variable is not in the prefix"
    WRONG_BLOCK = 11, "the variable is not in the innermost block, or not universal and one block out"
    NOT_SETTLED = 12, "the variable may not be settled"
    NO_ROOM = 13, "a buffer has too little room, or the sheet would be above its limits"
    TOO_MANY_TO_TRY = 14, "the sheet has more than 20 variables"
    BAD_HEADER = 15, "the text has no header of 'p cnf' and two numbers, the first within the sheet's limits"
    BAD_LISTS = 16, "the text is not lists of whole numbers ended by 0, quantified ones in front"
    BEYOND_HEADER = 17, "a variable is above the header's count, or the clauses are not as many as it says"
    NO_NUMBERS_LEFT = 18, "fewer unused numbers are left than new variables"
    ABOVE_CEILING = 19, "the raw rows are above the ceiling"
    NO_CLAUSES = 20, "the tree is not AND of literals and of ORs of literals"
    BAD_VALUE = 21, "a value is neither 0 nor 1"
    TOO_MANY_VALUES = 22, "there are too many values for the sheet's variables"
    ROOT_NOT_AND = 23, "the root is not AND"
    NOT_NARROW = 24, "a size or a variable's number is above the narrow limits"
    WRONG_COUNTS = 25, "settled, expanded and variables left don't add up to the starting count"
    NOT_A_STRATEGY = 26, "the second sheet is no strategy of that side over the first sheet's prefix"
    READS_BEYOND = 27, "the function of the pair in the row reads what it may not"
    WRONG_ANSWERS = 28, "there are not as many answers as lists of values"
    BAD_ANSWER = 29, "an answer is neither 0 nor 1 nor 2"


class Refused(Exception):
    """A call that was refused: `number`, its `reason` (None if this version has no words for it), and `place`, the row at fault,
    counted from 0, where the reason has one, else 0. Of two sheets, `sheet` is 1 or 2 for the one at fault, None for neither."""

    def __init__(self, number: int, place: int, sheet: Optional[int] = None) -> None:
        super().__init__(number, place, sheet)
        self.number = number
        self.place = place
        self.sheet = sheet

    @property
    def reason(self) -> Optional[Reason]:
        """The number by its name."""
        try:
            return Reason(self.number)
        except ValueError:
            return None

    def __str__(self) -> str:
        text = self.reason.text if self.reason else "a refusal that this version has no words for"
        has_row = Reason.BAD_KIND <= self.number <= Reason.NOT_TIDY or self.number == Reason.READS_BEYOND
        row = f" (row {self.place}, counted from 0)" if has_row else ""
        which = f"sheet {self.sheet}: " if self.sheet else ""
        return f"{which}refused {self.number}: {text}{row}"


class Kind(enum.IntEnum):
    """What a row is: a quantifier of the prefix, or a node of the tree."""

    EXISTS = 1
    FOR_ALL = 2
    POSITIVE = 3
    NEGATIVE = 4
    AND = 5
    OR = 6


Row = Tuple[int, int]
"""A row's kind, and its variable or, of an operator, how many children it has."""


class Quantifier(enum.IntEnum):
    """A quantifier, by its row's kind."""

    EXISTS = 1
    FOR_ALL = 2


class Outcome(enum.IntEnum):
    """With which values the owner of a turn gets the outcome wanted."""

    NEITHER = 0
    ZERO = 1
    ONE = 2
    BOTH = 3
    STOPPED = 4


class Order(enum.IntEnum):
    """How a sheet is filed beside another."""

    BEFORE = 0
    EQUAL = 1
    AFTER = 2


class Operation(enum.IntEnum):
    """What a step does."""

    SETTLE = 0
    EXPAND = 1


@dataclass(frozen=True)
class Sizes:
    """How many variables and nodes a sheet has."""

    variables: int
    nodes: int


@dataclass(frozen=True)
class Tried:
    """The verdict of trying all values, and how many leaves were tried."""

    verdict: bool
    leaves: int


@dataclass(frozen=True)
class Copied:
    """An expansion one block out: the new sheet, how many variables were copied, and the lowest of their old numbers, 0 if none."""

    sheet: bytes
    count: int
    lowest: int


@dataclass(frozen=True)
class Solved:
    """How a run ended: its verdict, None if it stopped; its counts; the variable that it stopped at, 0 with a verdict; and the sheet
    that it reached, which has the same truth. As text it is the program's line."""

    verdict: Optional[bool]
    settled: int
    expanded: int
    variable: int
    reached: bytes

    def __str__(self) -> str:
        word = "stopped" if self.verdict is None else str(self.verdict).lower()
        return f"{word} {self.settled} {self.expanded} {self.variable}"


@dataclass(frozen=True)
class Guarded:
    """What `guards` found. Of a false sheet: the sheet of the children kept, and how many of them were kept because the run without
    them stopped. Else the verdict of the run on the whole sheet, None if it stopped, with its counts and variable, and no sheet."""

    verdict: Optional[bool]
    kept: Optional[bytes]
    stops: int
    settled: int
    expanded: int
    variable: int


@dataclass(frozen=True)
class Forced:
    """Whose turn is next, with which values its owner gets the outcome wanted, and the variable that a value's run stopped at, 0 with
    a known outcome."""

    turn: Quantifier
    outcome: Outcome
    variable: int


@dataclass(frozen=True)
class Strategy:
    """How a run ended: its verdict, None if it stopped; its counts; the variable that it stopped at, else 0; the sheet of the strategy by
    which the verdict's side wins, None if there is none or it is too long; and how many node rows it has if it is too long, else 0."""

    verdict: Optional[bool]
    settled: int
    expanded: int
    variable: int
    sheet: Optional[bytes]
    rows: int


@dataclass(frozen=True)
class Certified:
    """What a derivation shows: the verdict asked for; or None, and the number of the first step that isn't valid, from 0 on, of all steps
    if only the last constraint isn't empty."""

    verdict: Optional[bool]
    step: int


class Decision(enum.IntEnum):
    """How a search ended: with a verdict, for want of a place for a sheet that waits, or with its budget spent."""

    DECIDED_FALSE = 0
    DECIDED_TRUE = 1
    NO_PLACE = 2
    SPENT = 3


@dataclass(frozen=True)
class Decided:
    """How a search ended: its verdict, None without one; how many runs of `solve` it took; and how it ended."""

    verdict: Optional[bool]
    runs: int
    decision: Decision


@dataclass(frozen=True)
class Stepped:
    """What a list of steps leaves, and what each step answers: the length of the sheet that it wrote, or its refusal."""

    sheet: bytes
    answers: List[Union[int, Refused]]


# Functions of the library, by the kinds of their parameters: bytes, an output, words, numbers and answers are a pointer and a length each.
_DECLARED = {
    "check": "bytes",
    "trial": "bytes",
    "part": "bytes number",
    "tidy": "bytes output",
    "settle": "bytes number output",
    "expand": "bytes number output",
    "outer": "bytes number output",
    "quote": "bytes number",
    "execute": "bytes number number output",
    "reduce": "bytes output",
    "sort": "bytes output",
    "qdimacs": "bytes output",
    "solve": "bytes output output",
    "guards": "bytes output output output",
    "force": "bytes bytes output output",
    "steps": "bytes bytes numbers answers answers output output",
    "compare": "bytes bytes output output",
    "response": "bytes number output",
    "strategy": "bytes output output output",
    "claim": "bytes number bytes output",
    "certify": "bytes number words words",
    "clauses": "bytes output",
    "decide": "bytes number output output output",
    "split": "bytes bytes output",
    "join": "bytes number bytes",
}
_DECLARED.update({f"{name}_wide": kinds for name, kinds in _DECLARED.items()})
_DECLARED.update(widen="bytes output", narrow="bytes output", resume="number number number bytes number output output")

_TYPES = {
    "bytes": (ctypes.c_char_p, ctypes.c_size_t),
    "output": (ctypes.POINTER(ctypes.c_char), ctypes.c_size_t),
    "words": (ctypes.POINTER(ctypes.c_uint32), ctypes.c_size_t),
    "numbers": (ctypes.POINTER(ctypes.c_size_t), ctypes.c_size_t),
    "answers": (ctypes.POINTER(ctypes.c_size_t), ctypes.c_size_t),
    "number": (ctypes.c_size_t,),
}

_HIGHEST = ctypes.c_size_t(-1).value


def _load() -> ctypes.CDLL:
    """The shared library with its functions declared."""
    soname = f"libplumanchor.so.{__version__.split('.')[0]}"
    named = os.environ.get("PLUMANCHOR_LIBRARY")
    here = Path(__file__).resolve()
    beside = [here.parents[up] / folder / soname for up, folder in ((3, "lib"), (2, "build/library")) if up < len(here.parents)]
    found = named or next((str(path) for path in beside if path.exists()), soname)
    try:
        library = ctypes.CDLL(found)
    except OSError as error:
        raise ImportError(f"no library of Plumanchor ({error}): install it, or name the file in PLUMANCHOR_LIBRARY") from error
    for name, kinds in _DECLARED.items():
        function = getattr(library, f"plumanchor_{name}")
        function.argtypes = [part for kind in kinds.split() for part in _TYPES[kind]]
        function.restype = ctypes.c_size_t if name.startswith("part") else ctypes.c_uint64
    return library


_LIBRARY = _load()


def _call(name: str, *values: object) -> int:
    """Calls a function with a value for each parameter: bytes, a buffer, an array or a number."""
    arguments: List[object] = []
    for kind, value in zip(_DECLARED[name].split(), values):
        if kind == "number":
            arguments.append(_number(value))
        else:
            arguments += [value, len(value)]  # type: ignore[arg-type]
    return getattr(_LIBRARY, f"plumanchor_{name}")(*arguments)


def _number(value: object) -> int:
    """A number that the library takes as it is: ctypes would cut a larger one."""
    if not isinstance(value, int):
        raise TypeError(f"a number is wanted, and not {value!r}")
    if not 0 <= value <= _HIGHEST:
        raise ValueError(f"{value} is not a number from 0 to {_HIGHEST}")
    return value


def _lent(data: Bytes) -> bytes:
    """The bytes, and nothing that only can be made into some."""
    return data if isinstance(data, bytes) else memoryview(data).tobytes()


def _words(values: Iterable[int]) -> ctypes.Array[ctypes.c_uint32]:
    """Words that the library takes as they are: ctypes would cut larger ones."""
    try:
        words = array("I", values)
    except OverflowError as error:
        raise ValueError(f"not all are words of 32 bits: {error}") from error
    return (ctypes.c_uint32 * len(words)).from_buffer(words)


def _entry(name: str, format: Format) -> str:
    return f"{name}_wide" if format is Format.WIDE else name


def _buffer(format: Format, room: Optional[int]) -> ctypes.Array[ctypes.c_char]:
    length = format.longest if room is None else min(_number(room), format.longest)
    return (ctypes.c_char * length)()


class _Parts:
    """An answer's word and two values, as include/plumanchor.h has them; a refusal is raised."""

    def __init__(self, answer: int, pair: bool = False) -> None:
        number, self.word = answer & 0xFF, answer >> 8 & 0xFF
        self.low, self.high = answer >> 16 & 0xFFFF, answer >> 32
        self.lower, self.upper = self.high & 0xFFFF, self.high >> 16
        if number:
            raise Refused(number, self.low, (self.word or None) if pair else None)


def _written(name: str, sheet: Bytes, format: Format, room: Optional[int], *numbers: int) -> bytes:
    """What an operation leaves at the front of its output."""
    output = _buffer(format, room)
    parts = _Parts(_call(name, _lent(sheet), *numbers, output))
    return output.raw[: parts.high]


def from_rows(prefix: Sequence[Row], nodes: Sequence[Row], format: Format = Format.WIDE) -> bytes:
    """The sheet of a prefix, outermost variable first, and of the nodes in preorder: each operator in front of its children.

    >>> both = [(Kind.AND, 2), (Kind.POSITIVE, 1), (Kind.NEGATIVE, 2)]
    >>> sheet = from_rows([(Kind.EXISTS, 1), (Kind.EXISTS, 2)], both)
    >>> rows(sheet) == ([(Kind.EXISTS, 1), (Kind.EXISTS, 2)], both)
    True
    """
    all_rows = [*prefix, *nodes]
    # A number that doesn't fit becomes the highest that does, which is above all limits: check refuses it where it stands.
    highest = 256**format.width - 1
    numbers = [len(prefix), len(nodes)] + [argument for _, argument in all_rows]
    digits = [min(_number(number), highest).to_bytes(format.width, "little") for number in numbers]
    sheet = b"".join(digits[:2]) + bytes(kind for kind, _ in all_rows) + b"".join(digits[2:])
    check(sheet, format)
    return sheet


def rows(sheet: Bytes, format: Format = Format.WIDE) -> Tuple[List[Row], List[Row]]:
    """The prefix and the nodes of a sheet, as `from_rows` takes them."""
    lent, sizes = _lent(sheet), check(sheet, format)
    count = sizes.variables + sizes.nodes
    kinds = map(Kind, lent[format.header : format.header + count])
    starts = range(format.header + count, len(lent), format.width)
    all_rows: List[Row] = [
        (kind, int.from_bytes(lent[start : start + format.width], "little")) for kind, start in zip(kinds, starts)
    ]
    return all_rows[: sizes.variables], all_rows[sizes.variables :]


def check(sheet: Bytes, format: Format = Format.WIDE) -> Sizes:
    """Check: whether the bytes are a sheet, and its sizes."""
    parts = _Parts(_call(_entry("check", format), _lent(sheet)))
    return Sizes(parts.low, parts.high)


def trial(sheet: Bytes, format: Format = Format.WIDE) -> Tried:
    """Trial: the verdict of trying all values, for up to `TRIAL_VARIABLES` variables."""
    parts = _Parts(_call(_entry("trial", format), _lent(sheet)))
    return Tried(parts.word == 1, parts.high)


def part(sheet: Bytes, node: int, format: Format = Format.WIDE) -> bytes:
    """Part: the kind bytes of the subtree at a node; none if the sheet or the node is bad."""
    lent = _lent(sheet)
    rows = _call(_entry("part", format), lent, node)
    if rows == 0:
        return b""
    start = format.header + int.from_bytes(lent[: format.width], "little") + node
    return lent[start : start + rows]


def tidy(sheet: Bytes, format: Format = Format.WIDE, room: Optional[int] = None) -> bytes:
    """Tidy: the tidied sheet."""
    return _written(_entry("tidy", format), sheet, format, room)


def settle(sheet: Bytes, x: int, format: Format = Format.WIDE, room: Optional[int] = None) -> bytes:
    """Settle: the sheet with the variable ``x`` settled."""
    return _written(_entry("settle", format), sheet, format, room, x)


def expand(sheet: Bytes, x: int, format: Format = Format.WIDE, room: Optional[int] = None) -> bytes:
    """Expand: the sheet with the variable ``x`` of the innermost block expanded."""
    return _written(_entry("expand", format), sheet, format, room, x)


def outer(sheet: Bytes, x: int, format: Format = Format.WIDE, room: Optional[int] = None) -> Copied:
    """Outer: the sheet with the universal variable ``x`` expanded one block out, and what was copied with it."""
    output = _buffer(format, room)
    parts = _Parts(_call(_entry("outer", format), _lent(sheet), x, output))
    return Copied(output.raw[: parts.low], parts.lower, parts.upper)


def quote(sheet: Bytes, x: int, format: Format = Format.WIDE) -> int:
    """Quote: how many node rows the raw sheet of the expansion of ``x`` has."""
    return _Parts(_call(_entry("quote", format), _lent(sheet), x)).high


def execute(sheet: Bytes, x: int, ceiling: int, format: Format = Format.WIDE, room: Optional[int] = None) -> bytes:
    """Execute: `expand`, if the raw sheet has at most so many node rows as the ceiling."""
    return _written(_entry("execute", format), sheet, format, room, x, ceiling)


def reduce(sheet: Bytes, format: Format = Format.WIDE, room: Optional[int] = None) -> bytes:
    """Reduce: the sheet after universal reduction, of a tidy AND of clauses."""
    return _written(_entry("reduce", format), sheet, format, room)


def sort(sheet: Bytes, format: Format = Format.WIDE, room: Optional[int] = None) -> bytes:
    """Sort: the sheet with all children in order."""
    return _written(_entry("sort", format), sheet, format, room)


def compare(a: Bytes, b: Bytes, format: Format = Format.WIDE) -> Order:
    """Compare: how the first sheet is filed beside the second."""
    first, second = _lent(a), _lent(b)
    buffers = [(ctypes.c_char * len(sheet))() for sheet in (first, second)]
    parts = _Parts(_call(_entry("compare", format), first, second, *buffers), pair=True)
    return Order(min(parts.word, Order.AFTER))


def widen(sheet: Bytes) -> bytes:
    """Conversion to the wide format: the rows of a narrow sheet as a wide one."""
    return _written("widen", sheet, Format.WIDE, None)


def narrow(sheet: Bytes) -> bytes:
    """Conversion to the narrow format: the rows of a wide sheet as a narrow one."""
    return _written("narrow", sheet, Format.NARROW, None)


def from_qdimacs(text: Union[str, Bytes], format: Format = Format.WIDE, room: Optional[int] = None) -> bytes:
    """QDIMACS in: the sheet that a QDIMACS 1.1 text says."""
    lent = text.encode() if isinstance(text, str) else _lent(text)
    return _written(_entry("qdimacs", format), lent, format, room)


def solve(sheet: Bytes, format: Format = Format.WIDE, room: Optional[int] = None) -> Solved:
    """Solve: the verdict by document 01's rule, or where the run stopped for want of room."""
    first, second = _buffer(format, room), _buffer(format, room)
    return _solved(_call(_entry("solve", format), _lent(sheet), first, second), format, first)


def resume(
    sheet: Bytes, started: int, settled: int, expanded: int, format: Format = Format.WIDE, room: Optional[int] = None
) -> Solved:
    """Resume: goes on from the sheet that a stopped run reached, under the wide limits. ``started`` is how many variables its first
    sheet had; the other two are its counts. The sheet then reached is a wide one."""
    first, second = _buffer(Format.WIDE, room), _buffer(Format.WIDE, room)
    narrow = int(format is Format.NARROW)
    answer = _call("resume", started, settled, expanded, _lent(sheet), narrow, first, second)
    run = _solved(answer, Format.WIDE, first)
    # Sixteen bits of a count come back, and the run's own share is less than they hold.
    whole = [given + (low - given) % 65536 for given, low in ((settled, run.settled), (expanded, run.expanded))]
    return Solved(run.verdict, whole[0], whole[1], run.variable, run.reached)


def _solved(answer: int, format: Format, first: ctypes.Array[ctypes.c_char]) -> Solved:
    parts = _Parts(answer)
    left = first.raw
    sizes = [int.from_bytes(left[at : at + format.width], "little") for at in (0, format.width)]
    reached = left[: format.length(sum(sizes))]
    if parts.word == 2:
        return Solved(None, parts.low, parts.lower, parts.upper, reached)
    return Solved(parts.word == 1, parts.low, parts.lower, 0, reached)


def guards(sheet: Bytes, format: Format = Format.WIDE, room: Optional[int] = None) -> Guarded:
    """Guards: of a false sheet whose root is AND, the children to blame."""
    output, first, second = (_buffer(format, room) for _ in range(3))
    parts = _Parts(_call(_entry("guards", format), _lent(sheet), output, first, second))
    if parts.word == 1:
        return Guarded(True, None, 0, parts.low, parts.lower, 0)
    if parts.word == 2:
        return Guarded(None, None, 0, parts.low, parts.lower, parts.upper)
    return Guarded(False, output.raw[: parts.high], parts.low, 0, 0, 0)


def force(sheet: Bytes, values: Iterable[int], format: Format = Format.WIDE, room: Optional[int] = None) -> Forced:
    """Force: with a value for each of the first variables of the prefix, whose turn is next, and with which of 0 and 1 its owner gets
    the outcome wanted: true for exists, false for all."""
    first, second = _buffer(format, room), _buffer(format, room)
    parts = _Parts(_call(_entry("force", format), _lent(sheet), bytes(list(values)), first, second))
    outcome = Outcome(min(parts.word, Outcome.STOPPED))
    turn = Quantifier.EXISTS if parts.low == 1 else Quantifier.FOR_ALL
    return Forced(turn, outcome, parts.high if outcome is Outcome.STOPPED else 0)


def response(sheet: Bytes, x: int, format: Format = Format.WIDE, room: Optional[int] = None) -> bytes:
    """Response: the function of the variable ``x`` by which its owner can answer what the others are, as a sheet of the prefix without
    ``x``.

    >>> sheet = tidy(from_qdimacs("p cnf 2 2\\na 1 0\\ne 2 0\\n1 -2 0\\n-1 2 0\\n"))
    >>> rows(response(sheet, 2)) == ([(Kind.FOR_ALL, 1)], [(Kind.POSITIVE, 1)])
    True
    """
    return _written(_entry("response", format), sheet, format, room, x)


def strategy(sheet: Bytes, format: Format = Format.WIDE, room: Optional[int] = None) -> Strategy:
    """Strategy: `solve`, and where it ends the strategy by which the verdict's side wins: OR of one AND for each variable of the side, its
    literal and its function.

    >>> sheet = from_qdimacs("p cnf 2 2\\na 1 0\\ne 2 0\\n1 -2 0\\n-1 2 0\\n")
    >>> rows(strategy(sheet).sheet)[1] == [(Kind.OR, 1), (Kind.AND, 2), (Kind.POSITIVE, 2), (Kind.POSITIVE, 1)]
    True
    """
    first, second, output = (_buffer(format, room) for _ in range(3))
    answer = _call(_entry("strategy", format), _lent(sheet), first, second, output)
    word = _Parts(answer).word
    settled, expanded, last = answer >> 16 & 0xFFF, answer >> 28 & 0xFFF, answer >> 40
    if word == 2:
        return Strategy(None, settled, expanded, last, None, 0)
    if word > 2:
        return Strategy(word == 4, settled, expanded, 0, None, last)
    return Strategy(word == 1, settled, expanded, 0, output.raw[:last], 0)


def claim(sheet: Bytes, side: Quantifier, strategy: Bytes, format: Format = Format.WIDE, room: Optional[int] = None) -> bytes:
    """Claim: that a strategy of any origin wins for a side, as a sheet of one quantifier. It has the truth that the side wants, true for
    exists and false for all, exactly if the strategy wins. Of a refusal, `sheet` is 2 for the strategy and None for want of room.

    >>> sheet = from_qdimacs("p cnf 2 2\\na 1 0\\ne 2 0\\n1 -2 0\\n-1 2 0\\n")
    >>> follows = from_rows(rows(sheet)[0], [(Kind.OR, 1), (Kind.AND, 2), (Kind.POSITIVE, 2), (Kind.POSITIVE, 1)])
    >>> trial(claim(sheet, Quantifier.EXISTS, follows)).verdict
    True
    """
    output = _buffer(format, room)
    answer = _call(_entry("claim", format), _lent(sheet), Quantifier(side), _lent(strategy), output)
    return output.raw[: _Parts(answer, pair=True).high]


def certify(
    sheet: Bytes, verdict: bool, heads: Iterable[int], codes: Iterable[int], format: Format = Format.WIDE
) -> Certified:
    """Certify: whether a derivation of any origin shows the verdict: with clauses that the sheet is false, with cubes that it is true.
    Four words in ``heads`` say a step: 0, or the pivot's code and 1; two antecedents, by their numbers; and where its codes in ``codes``
    end. A literal's code is twice its variable, and one more if it is negative.

    >>> sheet = from_qdimacs("p cnf 1 2\\ne 1 0\\n1 0\\n-1 0\\n")
    >>> certify(sheet, False, [0, 0, 0, 1, 0, 0, 0, 2, 3, 0, 1, 2], [2, 3])
    Certified(verdict=False, step=0)
    """
    words = (_words(heads), _words(codes))
    parts = _Parts(_call(_entry("certify", format), _lent(sheet), int(bool(verdict)), *words))
    return Certified(None, parts.high) if parts.word == 2 else Certified(parts.word == 1, 0)


def clauses(sheet: Bytes, format: Format = Format.WIDE, room: Optional[int] = None) -> bytes:
    """Clauses: a sheet of the same truth whose matrix is AND of clauses, with a new existential variable for each operator that has no
    clause of its own."""
    return _written(_entry("clauses", format), sheet, format, room)


def decide(
    sheet: Bytes, budget: int, places: int, format: Format = Format.WIDE, room: Optional[int] = None
) -> Decided:
    """Decide: runs of `solve`, at most so many as the budget; where one stops, both halves of the sheet that it reached, of which at most
    so many wait as there are places. More places than variables change nothing.

    >>> sheet = from_qdimacs("p cnf 2 2\\na 1 0\\ne 2 0\\n1 -2 0\\n-1 2 0\\n")
    >>> decide(sheet, 10, 1, room=len(sheet))
    Decided(verdict=True, runs=3, decision=<Decision.DECIDED_TRUE: 1>)
    """
    first, second = _buffer(format, room), _buffer(format, room)
    # Each split takes a variable away.
    stack = (ctypes.c_char * (min(_number(places), check(sheet, format).variables) * len(first)))()
    parts = _Parts(_call(_entry("decide", format), _lent(sheet), budget, first, second, stack))
    decision = Decision(parts.word) if parts.word in list(Decision) else Decision.DECIDED_FALSE
    return Decided(None if decision > Decision.DECIDED_TRUE else bool(decision), parts.high, decision)


def split(sheet: Bytes, values: Iterable[int], format: Format = Format.WIDE, room: Optional[int] = None) -> bytes:
    """Split: the sheet under values, 0 or 1, for the first variables of its prefix. It isn't tidied."""
    output = _buffer(format, room)
    parts = _Parts(_call(_entry("split", format), _lent(sheet), bytes(list(values)), output))
    return output.raw[: parts.high]


def join(sheet: Bytes, k: int, answers: Iterable[Optional[bool]], format: Format = Format.WIDE) -> Optional[bool]:
    """Join: the verdict, if it is known, from an answer for each list of values of the first ``k`` variables, None for an unknown one. The
    lists are in order, those that begin with 0 first.

    >>> sheet = from_qdimacs("p cnf 2 2\\na 1 0\\ne 2 0\\n1 -2 0\\n-1 2 0\\n")
    >>> join(sheet, 1, [trial(split(sheet, [value])).verdict for value in (0, 1)])
    True
    """
    lent = bytes(2 if answer is None else int(answer) for answer in answers)
    word = _Parts(_call(_entry("join", format), _lent(sheet), k, lent)).word
    return None if word == 2 else word == 1


def steps(
    sheet: Bytes, steps: Sequence[Tuple[Operation, int]], format: Format = Format.WIDE, room: Optional[int] = None
) -> Stepped:
    """Steps: settles or expands each variable in turn, in the sheet that the steps before it left."""
    array = ctypes.c_size_t * len(steps)
    operations = bytes(Operation(operation) for operation, _ in steps)
    variables = array(*(_number(variable) for _, variable in steps))
    numbers, values = array(), array()
    first, second = _buffer(format, room), _buffer(format, room)
    arrays = (operations, variables, numbers, values)
    parts = _Parts(_call(_entry("steps", format), _lent(sheet), *arrays, first, second))
    answers: List[Union[int, Refused]] = [
        Refused(number, value) if number else value for number, value in zip(numbers, values)
    ]
    return Stepped(first.raw[: parts.high], answers)
