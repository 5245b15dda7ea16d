"""Questions about one game file, or about two."""
import ctypes
import os
from functools import partial
from typing import Dict, Literal, NamedTuple, Optional, Tuple

from . import _library
from ._inputs import Input, Source
from .errors import GameFileError, TableError, shown

__all__ = ["Renumbering", "canonical", "check", "explain", "key", "renumbering", "same", "table"]

# A table may be far longer than its tree, and one that does not fit is computed twice. To make room for
# long ones at once would take longer than most calls, since ctypes fills it with zeros.
_LEAST_ROOM = 1 << 14
# An explanation is seldom longer, but for the name of its file.
_ROOM_OF_WORDS = 1 << 10
# No set or outcome is described in fewer bytes.
_BYTES_OF_A_PAIR = 8


class Renumbering(NamedTuple):
    """Which numbers of two games correspond, in order of first use."""

    #: The number of an information set in the second game, by its player and its number in the
    #: first. Player 0 is chance.
    sets: Dict[Tuple[int, int], int]
    #: The number of an outcome in the second game, by its number in the first.
    outcomes: Dict[int, int]


def _refusal(
    game: Input, fault: _library.Fault, which: Optional[Literal["a", "b"]] = None
) -> GameFileError:
    read = game.before(fault.end)
    return GameFileError(
        f"E{fault.code}",
        fault.start,
        fault.end,
        read.count(b"\n", 0, fault.start) + 1,
        fault.start - read.rfind(b"\n", 0, fault.start),
        _library.message(fault.code, fault.expected).decode(),
        partial(_hint, read),
        which,
        game.path,
    )


def _hint(read: bytes) -> Optional[str]:
    """The hint for a file that is refused at the end of these bytes, if there is one."""
    _, found, hint = (explain(read, name="") or "").rpartition("\n  hint: ")
    return hint.removesuffix("\n") if found else None


def _judge(status: int, game: Input, fault: _library.Fault) -> None:
    if status == _library.REFUSED:
        raise _refusal(game, fault)
    if status == _library.NOMEM:
        raise MemoryError
    if status != _library.OK:
        raise AssertionError(f"libgamefile answers {status}")


def _judge_two(
    status: int, first: Input, second: Input, fault: _library.Fault, which: ctypes.c_int
) -> None:
    if status == _library.REFUSED:
        raise _refusal(second, fault, "b") if which.value else _refusal(first, fault, "a")
    _judge(status, first, fault)


def check(data: Source) -> Literal["tree", "table"]:
    """Returns the kind of a game file: a tree (extensive) or a table (strategic).

    Raises GameFileError if the file is refused, OSError if it cannot be read, and MemoryError.

    >>> check(b'NFG 1 R "" { "A" } { 2 } 1 2')
    'table'
    """
    kind, fault = ctypes.c_int(), _library.Fault()
    with Input(data) as game:
        _judge(_library.check(*game.given, kind, fault), game, fault)
    return "tree" if kind.value == _library.TREE else "table"


def explain(data: Source, *, name: Optional[str] = None) -> Optional[str]:
    """Returns why a file is refused, in the words of the program's ``--explain``.

    The text begins with the name: by default that is the path, or ``<input>`` for bytes. Returns None
    if the file is valid.

    Raises OSError if the file cannot be read, and MemoryError.

    >>> print(explain(b'NFG 1 R "" { "A" } { 2 } 1 two', name="game.nfg"), end="")
    game.nfg:1:28: E4 at 27..30: `two` is not a number
      1 | NFG 1 R "" { "A" } { 2 } 1 two
        |                            ^^^
      hint: write 3, -0.5, 1e-3 or 1/3
    """
    if name is None:
        name = os.fspath(data) if isinstance(data, os.PathLike) else "<input>"
    called = shown(name).encode()
    fault = _library.Fault()
    with Input(data) as game:
        needed = ctypes.c_size_t(len(called) + _ROOM_OF_WORDS)
        while True:
            room = ctypes.create_string_buffer(needed.value)
            status = _library.explain(*game.given, called, room, len(room), needed, fault)
            if status == _library.REFUSED:
                return memoryview(room)[: needed.value].tobytes().decode()
            if status != _library.TOO_SMALL:
                _judge(status, game, fault)
                return None


def canonical(data: Source, *, names: bool = True) -> bytes:
    """Returns the canonical text: two files have equal texts exactly when they mean the same game.

    Without names, the title, the comment, and the names of nodes, information sets and outcomes are
    written empty.

    Raises GameFileError if the file is refused, OSError if it cannot be read, and MemoryError.

    >>> game = b'NFG 1 D "x" { "A" } { 2 } 0.5 4/2'
    >>> print(canonical(game).decode(), end="")
    NFG 1 R "x" { "A" }
    { { "1" "2" } }
    ""
    <BLANKLINE>
    1/2
    2
    >>> canonical(game, names=False).startswith(b'NFG 1 R ""')
    True
    """
    flags = 0 if names else _library.NO_NAMES
    with Input(data) as game:
        needed, fault = ctypes.c_size_t(game.length + game.length // 8 + 4096), _library.Fault()
        while True:
            room = ctypes.create_string_buffer(needed.value)
            status = _library.canonical(*game.given, flags, room, len(room), needed, fault)
            if status != _library.TOO_SMALL:
                _judge(status, game, fault)
                return memoryview(room)[: needed.value].tobytes()


def key(data: Source, *, names: bool = True) -> str:
    """Returns the SHA-256 digest of the canonical text, in 64 hexadecimal digits.

    Files of the same game have the same key, in all versions 1.x.

    Raises GameFileError if the file is refused, OSError if it cannot be read, and MemoryError.

    >>> key(b'NFG 1 R "x" { "A" } { 2 } 1 2') == key(b'NFG 1 D "x" { "A" } { 2 } 1.0 4/2')
    True
    """
    digits, fault = ctypes.create_string_buffer(65), _library.Fault()
    with Input(data) as game:
        status = _library.hash(*game.given, 0 if names else _library.NO_NAMES, digits, fault)
        _judge(status, game, fault)
    return digits.value.decode()


def same(a: Source, b: Source, *, names: bool = True) -> bool:
    """Returns whether two files mean the same game.

    Raises GameFileError if a file is refused, OSError if one cannot be read, and MemoryError.

    >>> same(b'NFG 1 R "x" { "A" } { 1 } 1', b'NFG 1 R "y" { "A" } { 1 } 1.0')
    False
    >>> same(b'NFG 1 R "x" { "A" } { 1 } 1', b'NFG 1 R "y" { "A" } { 1 } 1.0', names=False)
    True
    """
    fault, which = _library.Fault(), ctypes.c_int()
    flags = 0 if names else _library.NO_NAMES
    with Input(a) as first, Input(b) as second:
        status: int = _library.same(*first.given, *second.given, flags, fault, which)
        if status != _library.DIFFERENT:
            _judge_two(status, first, second, fault, which)
    return status == _library.OK


def renumbering(a: Source, b: Source) -> Optional[Renumbering]:
    """Returns which information sets and outcomes of two trees correspond.

    Returns None if the files do not mean the same game. For two tables that do, the result is empty.

    Raises GameFileError if a file is refused, OSError if one cannot be read, and MemoryError.

    >>> tree = b'EFG 2 R "" { "A" } p "" 1 7 "" { "x" } 0 t "" 3 "" { 1 }'
    >>> renumbering(tree, canonical(tree))
    Renumbering(sets={(1, 7): 1}, outcomes={3: 1})
    >>> renumbering(tree, b'NFG 1 R "" { "A" } { 1 } 1') is None
    True
    """
    fault, which = _library.Fault(), ctypes.c_int()
    with Input(a) as first, Input(b) as second:
        needed = ctypes.c_size_t(first.length // _BYTES_OF_A_PAIR + 1)
        while True:
            most = needed.value
            room = ctypes.create_string_buffer(most * _library.PAIR.size)
            status = _library.renumbering(*first.given, *second.given, room, most, needed, fault, which)
            if status == _library.DIFFERENT:
                return None
            if status != _library.TOO_SMALL:
                _judge_two(status, first, second, fault, which)
                break
    pairs = list(_library.PAIR.iter_unpack(memoryview(room)[: needed.value * _library.PAIR.size]))
    return Renumbering(
        {(player, old): new for kind, player, old, new in pairs if kind == _library.SET},
        {old: new for kind, _, old, new in pairs if kind != _library.SET},
    )


def table(data: Source, *, reduced: bool = False) -> bytes:
    """Returns a tree as a strategic file: its strategic form, or its reduced form.

    For a strategic file, returns its canonical text.

    Raises GameFileError if the file is refused, TableError if the tree has no table, OSError if the
    file cannot be read, and MemoryError.

    >>> tree = b'EFG 2 R "" { "A" } p "" 1 1 "" { "x" "y" } 0 t "" 1 "" { 3 } t "" 2 "" { 4 }'
    >>> print(table(tree).decode(), end="")
    NFG 1 R "" { "A" }
    { { "1" "2" } }
    ""
    <BLANKLINE>
    3
    4
    """
    flags = _library.REDUCED if reduced else 0
    fault, profile = _library.Fault(), ctypes.c_uint64()
    with Input(data) as game:
        needed = ctypes.c_size_t(max(2 * game.length, _LEAST_ROOM))
        while True:
            room = ctypes.create_string_buffer(needed.value)
            status = _library.table(*game.given, flags, room, len(room), needed, fault, profile)
            if status == _library.TOO_MANY_PROFILES:
                raise TableError("too many profiles", None, game.path)
            if status == _library.OVERFLOW:
                raise TableError("overflow", profile.value, game.path)
            if status != _library.TOO_SMALL:
                _judge(status, game, fault)
                return memoryview(room)[: needed.value].tobytes()
