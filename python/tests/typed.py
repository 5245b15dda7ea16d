"""Calls for mypy --strict, which has to accept these and no others; nothing runs them."""
import mmap
from array import array
from concurrent.futures import Executor
from pathlib import Path
from typing import Dict, List, Literal, Optional, Tuple

import gamefile


def take_every_source(
    a: bytes, b: bytearray, c: memoryview, d: Path, e: mmap.mmap, f: "array[int]"
) -> Literal["tree", "table"]:
    for text in (gamefile.canonical(a), gamefile.canonical(d, names=False), gamefile.table(e, reduced=True)):
        gamefile.check(text)
    key: str = gamefile.key(b) + gamefile.key(f)
    is_same: bool = gamefile.same(c, d) or gamefile.same(a, key.encode())
    words: Optional[str] = gamefile.explain(d, name="game.efg") or gamefile.explain(c)
    return "tree" if is_same or words else gamefile.check(a)


def take_answers(game: bytes) -> Optional[Dict[Tuple[int, int], int]]:
    pairs = gamefile.renumbering(game, Path("game.efg"))
    return pairs.sets if pairs else None


def take_entries(folder: Path, executor: Executor) -> List[Tuple[Path, str]]:
    entries: List[gamefile.Entry] = gamefile.collect(folder, executor=executor)
    return [(entry.path, entry.key or str(entry.error)) for entry in entries]


def take_errors(game: bytes) -> str:
    try:
        gamefile.table(game)
    except gamefile.GameFileError as error:
        place = gamefile.explain(error.path) if error.path else f"{error.start}..{error.end}"
        return f"{place}, {error.code}: {error.message}, {error.hint or ''}"
    except gamefile.TableError as error:
        return f"{error.reason}, {(error.profile or 0) + 1}"
    except gamefile.Error as error:
        path: Optional[Path] = error.path
        return gamefile.__version__ if path is None else path.name
    return ""


def refuse_others(game: str) -> None:
    gamefile.check(game)  # type: ignore[arg-type]
    gamefile.same(b"", 1)  # type: ignore[arg-type]
    gamefile.collect(game)  # type: ignore[arg-type]
