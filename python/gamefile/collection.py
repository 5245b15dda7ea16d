"""The keys of all games in a folder."""
import os
from concurrent.futures import Executor
from functools import partial
from pathlib import Path
from typing import Iterator, List, NamedTuple, Optional, Tuple, Union

from .errors import GameFileError
from .games import key

__all__ = ["Entry", "collect", "game_files"]

# How many files an executor takes at once: to send one by itself may cost more than to read it.
_BATCH = 32


class Entry(NamedTuple):
    """A file of a folder, with its key, or with the reason why it has none."""

    path: Path
    #: The key of the game, or None.
    key: Optional[str]
    #: Why there is no key, or None.
    error: Union[GameFileError, OSError, MemoryError, None]


def _identity(folder: str) -> Tuple[int, int]:
    found = os.stat(folder)
    return found.st_dev, found.st_ino


def _paths_in(folder: str) -> List[str]:
    """The paths of what a folder shows, ordered by the bytes of the names, the last one first."""
    names = sorted(os.listdir(folder), key=os.fsencode, reverse=True)
    return [os.path.join(folder, name) for name in names if not name.startswith(".")]


def _is_game_file(path: str) -> bool:
    """Whether a name ends like that of a game file. No pipe, socket or device is one."""
    is_named = path.lower().endswith((".efg", ".nfg"))
    return is_named and (os.path.isfile(path) or not os.path.exists(path))


def game_files(folder: str) -> Iterator[str]:
    """Gives the files below a folder whose names end in .efg or .nfg, in upper or lower case.

    Each folder is ordered by the bytes of its names. Links are followed, but no folder is visited
    twice. What is hidden, by a name that begins with a full stop, is passed over. A folder below that
    cannot be read is given too, as if it were a file.

    Raises OSError if the folder cannot be read.
    """
    waiting, visited = _paths_in(folder), {_identity(folder)}
    while waiting:
        path = waiting.pop()
        if not os.path.isdir(path):
            if _is_game_file(path):
                yield path
        else:
            try:
                identity = _identity(path)
                waiting += [] if identity in visited else _paths_in(path)
                visited.add(identity)
            except OSError:
                yield path


def _entry(path: str, names: bool) -> Entry:
    file = Path(path)
    try:
        return Entry(file, key(file, names=names), None)
    except GameFileError as refusal:
        # What is kept of a folder holds no files.
        refusal._keep_hint()
        return Entry(file, None, refusal.with_traceback(None))
    except (OSError, MemoryError) as error:
        return Entry(file, None, error.with_traceback(None))


def _entries(paths: List[str], names: bool) -> List[Entry]:
    return [_entry(path, names) for path in paths]


def collect(
    folder: os.PathLike[str], *, names: bool = True, executor: Optional[Executor] = None
) -> List[Entry]:
    """Returns the paths of all game files below a folder, each with its key or an error.

    A game file has a name that ends in .efg or .nfg, in upper or lower case. Each folder is ordered
    by the bytes of its names. Links are followed, but no folder is visited twice. Pipes, sockets and
    devices are passed over, and so is what is hidden, by a name that begins with a full stop.

    With an executor, its threads or processes read the files. If they are on other machines, these
    have to find the files at the same paths.

    Raises OSError if the folder cannot be read.
    """
    paths = list(game_files(os.fspath(folder)))
    batches = [paths[first : first + _BATCH] for first in range(0, len(paths), _BATCH)]
    work = partial(_entries, names=names)
    found = map(work, batches) if executor is None else executor.map(work, batches)
    return [entry for entries in found for entry in entries]
