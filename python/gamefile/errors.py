"""What the calls raise."""
import os
from pathlib import Path
from typing import Any, Callable, Literal, Optional, Tuple, Union
from unicodedata import category

__all__ = ["Error", "GameFileError", "TableError", "shown"]

# What stands for a control character, and for a byte of a name that is not UTF-8.
_STAND_INS = {"Cc": "?", "Cs": "\ufffd"}
# Unicode's property Bidi_Control: characters that set the direction of a text.
_DIRECTIONS = "\u061c\u200e\u200f\u202a\u202b\u202c\u202d\u202e\u2066\u2067\u2068\u2069"


def shown(path: Union[str, "os.PathLike[str]"]) -> str:
    """A path as it may stand on a terminal."""
    return "".join(
        "?" if it in _DIRECTIONS else _STAND_INS.get(category(it), it) for it in os.fsdecode(path)
    )


class Error(Exception):
    """What this package raises of its own: a `GameFileError` or a `TableError`."""

    #: The path of the file, or None if it was given as bytes.
    path: Optional[Path] = None


class GameFileError(Error, ValueError):
    """A file is refused.

    >>> import gamefile
    >>> try:
    ...     gamefile.check(b'NFG 1 R "Selten" { "Player 1" } { 3 } 1 two 3')
    ... except gamefile.GameFileError as error:
    ...     print(error)
    ...     print(error.code, error.start, error.end, error.line, error.column)
    ...     print(error.message)
    ...     print(error.hint)
    1:41: E4 at 40..43: this is not a number
    E4 40 43 1 41
    this is not a number
    write 3, -0.5, 1e-3 or 1/3
    """

    #: The code, as ``"E4"``. Codes never change.
    code: str
    #: The first byte of what is refused, counted from 0.
    start: int
    #: One past its last byte.
    end: int
    #: The line of `start`, counted from 1.
    line: int
    #: Its column in bytes, counted from 1.
    column: int
    #: What is wrong, in English.
    message: str
    #: Which of two files is refused; None if there is only one.
    which: Optional[Literal["a", "b"]]

    def __init__(
        self,
        code: str,
        start: int,
        end: int,
        line: int,
        column: int,
        message: str,
        hint: Union[str, Callable[[], Optional[str]], None] = None,
        which: Optional[Literal["a", "b"]] = None,
        path: Optional[Path] = None,
    ) -> None:
        super().__init__(code, start, end, line, column, message)
        self.code = code
        self.start = start
        self.end = end
        self.line = line
        self.column = column
        self.message = message
        self.which = which
        self.path = path
        # It may be a function that finds the hint, which takes as long as the call itself.
        self._hint = hint

    @property
    def hint(self) -> Optional[str]:
        """How to fix the file, as `explain` says it, or None if there is no hint."""
        found = self._hint
        if callable(found):
            found = self._hint = found()
        return found

    def _keep_hint(self) -> None:
        """Finds the hint, so that the exception keeps no part of the file for it any more."""
        self._hint = self.hint

    def __reduce__(self) -> Union[str, Tuple[Any, ...]]:
        # Another process gets the hint, and no part of the file.
        self._keep_hint()
        return super().__reduce__()

    def __str__(self) -> str:
        file = self.which if self.path is None else shown(self.path)
        line = f"{self.line}:{self.column}: {self.code} at {self.start}..{self.end}: {self.message}"
        return f"{file}:{line}" if file else line


class TableError(Error, ArithmeticError):
    """A tree has no table.

    >>> import gamefile
    >>> largest = str(2**127 - 1).encode()
    >>> tree = b'EFG 2 R "" { "A" } p "" 1 1 "" { "x" } 1 "" { %s } t "" 1' % largest
    >>> try:
    ...     gamefile.table(tree)
    ... except gamefile.TableError as error:
    ...     print(error.reason, error.profile)
    ...     print(error.message)
    overflow 1
    the expected payoffs at profile 1 cannot be worked out within 127 bits
    """

    #: Why there is none: the strategic form has more than 1,048,576 profiles, or a payoff cannot be
    #: worked out within 127 bits.
    reason: Literal["too many profiles", "overflow"]
    #: The first profile that overflows, counted from 1; None if there are too many profiles.
    profile: Optional[int]

    def __init__(
        self,
        reason: Literal["too many profiles", "overflow"],
        profile: Optional[int] = None,
        path: Optional[Path] = None,
    ) -> None:
        super().__init__(reason, profile)
        self.reason = reason
        self.profile = profile
        self.path = path

    @property
    def message(self) -> str:
        """Why there is none, in English."""
        if self.profile is None:
            return "the strategic form has more than 1,048,576 strategy profiles"
        return f"the expected payoffs at profile {self.profile} cannot be worked out within 127 bits"

    def __str__(self) -> str:
        line = self.reason if self.profile is None else f"{self.reason} at profile {self.profile}"
        return line if self.path is None else f"{shown(self.path)}: {line}"
