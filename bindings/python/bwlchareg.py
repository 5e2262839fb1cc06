"""Bwlchareg: a compliance checker for usage-constrained RT0 credentials.

The calls of the C interface, over the shared library that bindings/install.sh makes. Tables,
queries and records are numbers: bindings/LAYOUT.md says what they mean, and docs/DEFINITION.md how
every input is answered. A refusal is raised as the exception Refusal.

>>> table = [
...     4, 0, 0, 0,                      # four credentials, and nothing else
...     1, 1, Kind.LINKING, 3, 2, 0,     # Shop.discount <- Shop.accredited.student
...     1, 3, Kind.MEMBERSHIP, 2, 0, 0,  # Shop.accredited <- School
...     2, 2, Kind.MEMBERSHIP, 4, 0, 0,  # School.student <- Ann
...     1, 1, Kind.MEMBERSHIP, 4, 0, 0,  # Shop.discount <- Ann
... ]
>>> query = Query(principal=4, owner=1, name=1, depth=2)  # Ann in Shop.discount within 2
>>> list_sets(table, query)
[7, 8]
>>> write(table, query, 7)
[1, 2, 2, 0, 3, 0]
>>> verify(table, query, [1, 2, 2, 0, 3, 0])
7

The library is the file that BWLCHAREG_LIBRARY names. If that is not set, it is looked for beside
this file, where an install puts it, in the repository's target/install, and last by the system.
"""

from __future__ import annotations

import ctypes
import operator
import os
from array import array
from enum import IntEnum
from pathlib import Path
from typing import Any, Callable, Dict, List, NamedTuple, Sequence

VERSION = "0.7.0"
VERSION_NUMBER = 700

# Limits. The last two follow from the others: the length of the longest table, and how many sets
# there can be of which none is part of another.
MAX_CREDENTIALS = 20
MAX_PART_CELLS = 63
MAX_AUTOMATA = 8
MAX_EDGES = 128
MAX_PRINCIPAL = 64
MAX_NAME = 64
MAX_STATE = 15
MIN_PARTS = 2
MAX_PARTS = 4
MAX_DEPTH = 16
MAX_TABLE_LENGTH = 1105
MAX_SETS = 184756

# How many numbers the head of a table, a record of each sort and a node of a proof record have.
HEAD_LENGTH = 4
CREDENTIAL_LENGTH = 6
PART_CELL_LENGTH = 3
AUTOMATON_LENGTH = 3
EDGE_LENGTH = 6
NODE_LENGTH = 2

Numbers = Sequence[int]
"""A table or a record: integers from 0 to 65535. Bytes (bytes, bytearray, memoryview) are read in
pairs, each a number with its low byte first."""


class Kind(IntEnum):
    """The kind of a credential."""

    MEMBERSHIP = 1
    CONTAINMENT = 2
    LINKING = 3
    INTERSECTION = 4


class Label(IntEnum):
    """The label of an edge: which roles it matches."""

    THIS_ROLE = 1
    EVERY_ROLE = 2
    OTHER_ROLES = 3
    ROLES_OF_OWNER = 4


class Mark(IntEnum):
    """The mark of an automaton: must it accept every word of a record, or at least one?"""

    EVERY_WORD = 0
    SOME_WORD = 1


class Reason(IntEnum):
    """The numbers of the refusals."""

    SHORT_HEAD = 1
    COUNT_OVER_LIMIT = 2
    WRONG_LENGTH = 3
    CREDENTIAL = 4
    PART_CELL = 5
    CHAIN = 6
    EDGE = 7
    QUERY = 8
    NO_MINIMAL_SET = 9
    LONGER_LIST = 10
    RECORD_LENGTH = 11
    NODE = 12
    BRANCH = 13
    WORD = 14
    NOT_LISTED = 15
    LONGER_RECORD = 16
    MARK = 17


_WORDS: Dict[int, str] = {
    1: "the table has fewer than 4 numbers",
    2: "a count of the table's head is over its limit",
    3: "the table's length is not what its head says",
    4: "a field of the credential is outside what its kind allows",
    5: "the part cell's principal or name is out of range, or its next is neither 0 nor a later cell",
    6: "the chain of the kind 4 credential does not have 2 to 4 cells",
    7: "the edge's automaton, a state or the label is out of range, or owner and name are not as the label allows",
    8: "the query's principal, owner, name or depth limit is out of range",
    9: "there is no minimal set",
    10: "there are more minimal sets than cells",
    11: "fewer than two numbers remain for the node, or numbers remain after the tree",
    12: "the node's credential or middle does not fit its goal",
    13: "the node is deeper than the depth limit, or its principal and role are already on the branch",
    14: "the automaton is not met: with mark 0 it rejects a word, with mark 1 every word",
    15: "the set is not on the list",
    16: "the record has more numbers than there are cells",
    17: "the automaton's mark is neither 0 nor 1",
}

_POSITION_WORDS: Dict[int, str] = {
    4: "the credential",
    5: "the part cell",
    6: "the credential",
    7: "the edge",
    8: "the field",
    11: "the node",
    12: "the node",
    13: "the node",
    14: "the automaton",
    17: "the automaton",
}


class Query(NamedTuple):
    """Is the principal in the role owner.name, by a derivation of at most `depth` levels?"""

    principal: int
    owner: int
    name: int
    depth: int


class Refusal(Exception):
    """Why an input is not accepted, and where.

    `number` is one of Reason, and `words` says what is wrong. `position` says where, and
    `position_words` what is counted there, from 1; the position is 0 where there is none.

    >>> try:
    ...     check([1, 0, 0, 0, 1, 1, Kind.MEMBERSHIP, 65, 0, 0])
    ... except Refusal as refusal:
    ...     print(refusal.number == Reason.CREDENTIAL, refusal.position, refusal.position_words)
    ...     print(refusal)
    True 1 the credential
    refused 4 at 1, the credential: a field of the credential is outside what its kind allows
    """

    def __init__(self, number: int, position: int) -> None:
        super().__init__(number, position)
        self.number = number
        self.position = position

    @property
    def words(self) -> str:
        """The condition of the refusal, in the words of docs/DEFINITION.md."""
        return _WORDS.get(self.number, f"not a refusal of version {VERSION}")

    @property
    def position_words(self) -> str:
        """What the position counts, or nothing where it is 0."""
        return _POSITION_WORDS.get(self.number, "")

    def __str__(self) -> str:
        counted = f", {self.position_words}" if self.position_words else ""
        return f"refused {self.number} at {self.position}{counted}: {self.words}"


def check(table: Numbers) -> None:
    """Checks a table.

    Refuses by the table's rows of docs/DEFINITION.md, "Where each input is stopped".

    >>> check([0, 0, 0, 0])
    >>> check([0, 0, 0])
    Traceback (most recent call last):
    bwlchareg.Refusal: refused 1 at 0: the table has fewer than 4 numbers
    """
    _call(_library.bwlchareg_check, *_slice("table", table))


def check_query(table: Numbers, query: Query) -> None:
    """Checks a table and a query.

    Refuses by the request's rows: the table's rows, then 8. The calls below make these checks
    first, and so refuse with these numbers too.
    """
    _call(_library.bwlchareg_check_query, *_request(table, query))


def list_sets(table: Numbers, query: Query) -> List[int]:
    """Lists all minimal sets that prove the membership, ascending; credential i counts 2^(i-1).

    Refuses with 9 if there is none.
    """
    request = _request(table, query)

    def listed(cells: Any) -> int:
        return _call(_library.bwlchareg_list, *request, cells, len(cells))

    return _filled(listed, ctypes.c_uint32, Reason.LONGER_LIST, MAX_SETS, factor=MAX_SETS)


def write(table: Numbers, query: Query, credential_set: int, limit: int = 1 << 20) -> List[int]:
    """Writes the first record of a minimal set: what the holder shows, and what verify accepts.

    Refuses with 15 if the set is not on the list, and with 16 if the record has more numbers than
    the limit. A record may have more than a thousand million.
    """
    request = _request(table, query)
    chosen = _integer("credential_set", credential_set, 32)

    def written(cells: Any) -> int:
        return _call(_library.bwlchareg_write, *request, chosen, cells, len(cells))

    most = _integer("limit", limit, 62)
    return _filled(written, ctypes.c_uint16, Reason.LONGER_RECORD, most, factor=2)


def verify(table: Numbers, query: Query, record: Numbers) -> int:
    """Verifies a proof record, and returns its used set; credential i counts 2^(i-1).

    Refuses with 11 to 14.
    """
    return _call(_library.bwlchareg_verify, *_request(table, query), *_slice("record", record))


def credentials(credential_set: int) -> List[int]:
    """The credentials of a set, ascending.

    >>> credentials(13)
    [1, 3, 4]
    """
    bits = _integer("credential_set", credential_set, 32)
    return [bit + 1 for bit in range(32) if bits >> bit & 1]


def _call(function: Callable[..., int], *arguments: Any) -> int:
    """The value of a call, or its refusal."""
    value = ctypes.c_uint64()
    number = function(*arguments, ctypes.byref(value))
    if number != 0:
        raise Refusal(number, value.value)
    return value.value


def _filled(
    call: Callable[[Any], int], cell: Any, too_few: Reason, most: int, factor: int
) -> List[int]:
    """The cells that a call fills. If it has too few it is called again, with more."""
    length = min(1024, most)
    while True:
        cells = (cell * length)()
        try:
            return list(cells[: call(cells)])
        except Refusal as refusal:
            if refusal.number != too_few or length == most:
                raise
        length = min(factor * length, most)


def _request(table: Numbers, query: Query) -> List[Any]:
    """A table and a query, as the calls take them."""
    fields = Query(*query)._asdict().items()
    numbers = [_integer(f"query.{name}", number, 16) for name, number in fields]
    return [*_slice("table", table), *numbers]


def _slice(what: str, numbers: Numbers) -> List[Any]:
    """A copy of the numbers for a call, and how many they are."""
    copied = _copied(what, numbers)
    return [(ctypes.c_uint16 * len(copied)).from_buffer(copied), len(copied)]


def _copied(what: str, numbers: Numbers) -> array[int]:
    if isinstance(numbers, (bytes, bytearray, memoryview)):
        packed = bytes(numbers)
        if len(packed) % 2 != 0:
            raise ValueError(f"{what} has {len(packed)} bytes, and two are a number")
        return array("H", packed)
    listed = list(numbers)
    try:
        return array("H", map(operator.index, listed))
    except (OverflowError, TypeError):
        for index, number in enumerate(listed):
            _integer(f"{what}[{index}]", number, 16)
        raise


def _integer(what: str, number: int, bits: int) -> int:
    """The number, if it has at most so many bits."""
    try:
        integer = operator.index(number)
    except TypeError:
        raise TypeError(f"{what} is a {type(number).__name__}, not an integer") from None
    if not 0 <= integer < 1 << bits:
        said = integer if integer.bit_length() <= 64 else f"{integer.bit_length()} bits long"
        raise ValueError(f"{what} is {said}, not 0 to {(1 << bits) - 1}")
    return integer


def _path() -> str:
    """The shared library: a file, or the name by which the system finds it."""
    soname = "libbwlchareg.so." + VERSION.rpartition(".")[0]
    here = Path(__file__).resolve().parent
    above = here.parent.parent
    files = [folder / soname for folder in (here, above / "lib", above / "target/install/lib")]
    found = [str(file) for file in files if file.exists()]
    return os.environ.get("BWLCHAREG_LIBRARY") or (found + [soname])[0]


def _loaded(path: str) -> ctypes.CDLL:
    """The library, if its version is one that this file is for."""
    try:
        library = ctypes.CDLL(path)
        version = library.bwlchareg_version()
    except (OSError, AttributeError) as error:
        advice = f"run bindings/install.sh, or set BWLCHAREG_LIBRARY to a library of {VERSION}"
        raise ImportError(f"cannot load bwlchareg's shared library: {error}; {advice}") from error
    if version // 100 != VERSION_NUMBER // 100:
        raise ImportError(f"{path} has version number {version}, not {VERSION_NUMBER}")
    return library


def _declare(library: ctypes.CDLL) -> None:
    """Says what the calls take and return."""
    numbers: List[Any] = [ctypes.POINTER(ctypes.c_uint16), ctypes.c_size_t]
    request: List[Any] = [*numbers, *[ctypes.c_uint16] * 4]
    sets: List[Any] = [ctypes.POINTER(ctypes.c_uint32), ctypes.c_size_t]
    parameters: Dict[str, List[Any]] = {
        "bwlchareg_check": numbers,
        "bwlchareg_check_query": request,
        "bwlchareg_verify": [*request, *numbers],
        "bwlchareg_list": [*request, *sets],
        "bwlchareg_write": [*request, ctypes.c_uint32, *numbers],
    }
    for name, types in parameters.items():
        function = getattr(library, name)
        function.argtypes = [*types, ctypes.POINTER(ctypes.c_uint64)]
        function.restype = ctypes.c_uint32


_library = _loaded(_path())
_declare(_library)
