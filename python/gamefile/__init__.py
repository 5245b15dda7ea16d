"""Checks Gambit game files (.efg, .nfg), compares them, and writes canonical texts and tables.

A file is given as its bytes, in any buffer, or as a path: a `pathlib.Path` or another `os.PathLike`.
The library keeps no state, so you may make any call on any thread. A call releases the interpreter's
lock (GIL), so do not change a buffer on another thread meanwhile.

>>> game = b'EFG 2 R "toss" { "A" } c "" 9 "coin" { "h" 0.5 "t" 2/4 } 0 t "" 7 "win" { 1e0 } t "" 7'
>>> check(game)
'tree'
>>> print(canonical(game).decode(), end="")
EFG 2 R "toss" { "A" }
""
<BLANKLINE>
c "" 1 "coin" { "h" 1/2 "t" 1/2 } 0
t "" 1 "win" { 1 }
t "" 1
>>> same(game, canonical(game))
True

`__version__` is the version of the library. ``python -m gamefile`` runs some of the commands of the
program gamefile.
"""
from ._library import version as _version
from .collection import Entry, collect
from .errors import Error, GameFileError, TableError
from .games import Renumbering, canonical, check, explain, key, renumbering, same, table

__all__ = [
    "Entry",
    "Error",
    "GameFileError",
    "Renumbering",
    "TableError",
    "__version__",
    "canonical",
    "check",
    "collect",
    "explain",
    "key",
    "renumbering",
    "same",
    "table",
]

__version__: str = _version().decode()
