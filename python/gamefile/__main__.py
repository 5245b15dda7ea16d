"""Runs commands of the program gamefile over the library: python -m gamefile COMMAND ..

Output and exit statuses are those of the program; help, the messages about wrong usage and the hint about
folders are not.
"""
import argparse
import os
import sys
from contextlib import contextmanager, suppress
from typing import Callable, ContextManager, Iterator, List, NoReturn, Tuple, TypeVar

from . import Error, GameFileError, TableError, __version__, _library
from . import canonical, check, explain, key, renumbering, same, table
from .collection import game_files
from .errors import shown

# The program reads no longer input; the library has no limit.
LIMIT = 16_777_216
# The hint where a folder stands in the place of a file. The program has more commands.
FOLDER_HINT = "  hint: `check` and `hash` read folders"

Answer = Callable[[str], str]
Told = TypeVar("Told", bytes, str)


class TooLong(Exception):
    """An input is longer than the limit."""


class Unwritten(Exception):
    """The output cannot be written."""

    def __init__(self, cause: OSError) -> None:
        self.cause = cause


class Explained(Exception):
    """A failure in words, which begin with the name of its file if that is refused."""

    def __init__(self, words: str, failure: Exception) -> None:
        self.words, self.failure = words, failure
        self.is_named = isinstance(failure, (GameFileError, TooLong))


class Named(Exception):
    """A failure with the name of the file that it is about."""

    def __init__(self, name: str, failure: Exception) -> None:
        self.name, self.failure = name, failure


CAUSES = (Error, TooLong, Unwritten, OSError, MemoryError)
FAILURES = (*CAUSES, Explained, Named)


@contextmanager
def about(name: str) -> Iterator[None]:
    """Puts a name before the line of a failure."""
    try:
        yield
    except FAILURES as failure:
        raise Named(name, failure) from failure


@contextmanager
def explained(asked: bool, *files: Tuple[str, bytes]) -> Iterator[None]:
    """Puts a failure into words if that is asked for, by the name and the bytes of its file, or of two."""
    try:
        yield
    except CAUSES as failure:
        if not asked:
            raise
        is_second = isinstance(failure, GameFileError) and failure.which == "b"
        name, data = files[is_second] if files else ("", b"")
        raise Explained(in_words(failure, name, data), failure) from failure


def reason(failure: OSError) -> str:
    return f"{failure.strerror} (os error {failure.errno})"


def in_words(failure: Exception, name: str, data: bytes) -> str:
    """What the program says about a failure with --explain, without its last line feed."""
    line, _ = described(failure)
    if isinstance(failure, GameFileError):
        return (explain(data, name=name) or line).removesuffix("\n")
    if isinstance(failure, TableError):
        return f"{line}: {failure.message}"
    if isinstance(failure, TooLong):
        return f"{shown(name)}: {line}: {_library.message(1, 0).decode()}"
    if isinstance(failure, Unwritten):
        return f"{line}: cannot write the output: {reason(failure.cause)}"
    if isinstance(failure, OSError):
        is_folder = isinstance(failure, IsADirectoryError)
        words = f"{line}: cannot {'read' if is_folder else 'open'} {shown(name)}: {reason(failure)}"
        return f"{words}\n{FOLDER_HINT}" if is_folder else words
    return f"{line}: out of memory"


def described(failure: Exception) -> Tuple[str, int]:
    """The line of a failure, and its status."""
    if isinstance(failure, Explained):
        return failure.words, described(failure.failure)[1]
    if isinstance(failure, Named):
        line, status = described(failure.failure)
        is_named = isinstance(failure.failure, Explained) and failure.failure.is_named
        return line if is_named else f"{shown(failure.name)}: {line}", status
    if isinstance(failure, GameFileError):
        file = {"a": "A: ", "b": "B: ", None: ""}[failure.which]
        return f"{file}{failure.code} at {failure.start}..{failure.end}", 2
    if isinstance(failure, TableError):
        return str(failure), 2
    if isinstance(failure, TooLong):
        return f"E1 at {LIMIT}..{LIMIT}", 2
    if isinstance(failure, Unwritten):
        return "E21", 4
    return ("E20", 4) if isinstance(failure, OSError) else ("E19", 5)


def write(data: bytes) -> None:
    """Writes to standard output."""
    left = memoryview(data)
    try:
        while left:
            left = left[os.write(1, left) :]
    except OSError as cause:
        raise Unwritten(cause) from None


def say(line: str) -> None:
    """Writes a line to standard error."""
    with suppress(OSError):
        os.write(2, os.fsencode(f"{line}\n"))


def tell(failure: Exception) -> int:
    """Writes the line of a failure to standard error, and returns its status."""
    line, status = described(failure)
    say(line)
    return status


def called(name: str) -> str:
    """What one file is called where a failure is explained."""
    return "<stdin>" if name == "-" else name


def opened(name: str) -> int:
    """The descriptor of a file. As in the program, a folder can be opened, and cannot be read."""
    return 0 if name == "-" else os.open(name, os.O_RDONLY)


def read(descriptor: int) -> bytes:
    with open(descriptor, "rb", closefd=descriptor > 0) as file:
        data = file.read(LIMIT + 1)
    if len(data) > LIMIT:
        raise TooLong
    return data


def answered(file: str, name: str, explains: bool, answer: Callable[[bytes], Told]) -> Told:
    """The answer to the bytes of a file, which has this name where a failure is explained."""
    with explained(explains, (name, b"")):
        data = read(opened(file))
    with explained(explains, (name, data)):
        return answer(data)


def run_one(options: argparse.Namespace, answer: Callable[[bytes], bytes]) -> int:
    """Writes the answer to one file."""
    write(answered(options.file, called(options.file), options.explain, answer))
    return 0


def run_canon(options: argparse.Namespace) -> int:
    return run_one(options, lambda data: canonical(data, names=options.names))


def run_table(options: argparse.Namespace) -> int:
    return run_one(options, lambda data: table(data, reduced=options.reduced))


def files_of(name: str) -> Iterator[str]:
    """A file itself, or the game files below a folder."""
    if name == "-" or not os.path.isdir(name):
        yield name
        return
    try:
        files = list(game_files(name))
    except OSError:
        files = [name]
    if not files:
        say(f"{shown(name)}: no game files")
    yield from files


def run_each(names: List[str], answer: Answer) -> int:
    """Writes the answer for each file, or tells why there is none; returns the worst status."""
    worst = 0
    for name in (file for given in names for file in files_of(given)):
        try:
            with about(name):
                line = answer(name)
        except Named as failure:
            worst = max(worst, tell(failure))
        else:
            write(os.fsencode(line))
    return worst


def hash_line(digest: str, name: str) -> str:
    """A line as sha256sum writes it, which escapes names that would not fit on a line."""
    escaped = name.replace("\\", "\\\\").replace("\n", "\\n").replace("\r", "\\r")
    mark = "" if escaped == name else "\\"
    return f"{mark}{digest}  {escaped}\n"


def run_hash(options: argparse.Namespace) -> int:
    def digest(data: bytes) -> str:
        return key(data, names=options.names)

    return run_each(
        options.files or ["-"],
        lambda name: hash_line(answered(name, name, options.explain, digest), name),
    )


def run_check(options: argparse.Namespace) -> int:
    files = options.files or ["-"]
    if len(files) > 1 or os.path.isdir(files[0]):
        return run_each(
            files, lambda name: f"{shown(name)}: {answered(name, name, options.explain, check)}\n"
        )
    write(f"{answered(files[0], called(files[0]), options.explain, check)}\n".encode())
    return 0


def comparison(first: bytes, second: bytes, options: argparse.Namespace) -> Tuple[str, int]:
    """What `same` writes, and its status."""
    if not options.map:
        is_same = same(first, second, names=options.names)
        return ("same\n", 0) if is_same else ("different\n", 1)
    pairs = renumbering(first, second)
    if pairs is None:
        return "different\n", 1
    sets = [f"set {player} {old} {new}\n" for (player, old), new in pairs.sets.items()]
    outcomes = [f"outcome {old} {new}\n" for old, new in pairs.outcomes.items()]
    return "".join(["same\n", *sets, *outcomes]), 0


def run_same(options: argparse.Namespace) -> int:
    def about_one(letter: str, name: str) -> ContextManager[None]:
        """Says which file a failure is about: by its letter, or in words."""
        return explained(True, (name, b"")) if options.explain else about(letter)

    with about_one("A", options.a):
        first = opened(options.a)
    with about_one("B", options.b):
        second = opened(options.b)
    with about_one("A", options.a):
        a = read(first)
    with about_one("B", options.b):
        b = read(second)
    with explained(options.explain, (options.a, a), (options.b, b)):
        answer, status = comparison(a, b, options)
    write(answer.encode())
    return status


class Parser(argparse.ArgumentParser):
    """Reports wrong usage with the status that the program has for it."""

    def error(self, message: str) -> NoReturn:
        self.print_usage(sys.stderr)
        self.exit(3, f"{self.prog}: {message}\n")


def parser() -> Parser:
    top = Parser(prog="python -m gamefile", description="Commands of the program gamefile.")
    top.add_argument("-V", "--version", action="version", version=f"gamefile {__version__}")
    commands = top.add_subparsers(title="commands", dest="command", required=True)

    def command(name: str, run: Callable[[argparse.Namespace], int], help: str) -> Parser:
        added = commands.add_parser(name, help=help, description=help, allow_abbrev=False)
        added.set_defaults(run=run)
        return added

    canon = command("canon", run_canon, "Write the canonical text of a game file.")
    checks = command("check", run_check, "Say whether game files are valid, and what they hold.")
    tables = command("table", run_table, "Write the strategic form of a game.")
    sames = command("same", run_same, "Say whether two game files mean the same game.")
    hashes = command("hash", run_hash, "Write a hash of each game file.")
    for of_one in (canon, tables):
        of_one.add_argument("file", metavar="FILE", nargs="?", default="-")
    for of_many in (checks, hashes):
        of_many.add_argument("files", metavar="FILE|FOLDER", nargs="*")
    for explaining in (canon, checks, tables, sames, hashes):
        explaining.add_argument("--explain", action="store_true", help="say what is wrong, and where")
    tables.add_argument("--reduced", action="store_true", help="leave out choices at sets that the player has ruled out")
    sames.add_argument("a", metavar="A")
    sames.add_argument("b", metavar="B")
    names = sames.add_mutually_exclusive_group()
    names.add_argument("--map", action="store_true", help="also list which numbers correspond")
    for ignoring in (canon, hashes, names):
        ignoring.add_argument(
            "--no-names",
            dest="names",
            action="store_false",
            help="ignore the title, the comment, and the names of nodes, sets and outcomes",
        )
    return top


def options_first(words: List[str]) -> List[str]:
    """The words with all options before the files, between which argparse takes none. No option has a value."""
    end = words.index("--") if "--" in words else len(words)
    ordered = sorted(words[1:end], key=lambda it: it == "-" or not it.startswith("-"))
    return [*words[:1], *ordered, *words[end:]]


def main(words: List[str]) -> int:
    options = parser().parse_args(options_first(words or ["canon"]))
    try:
        with explained(options.explain):
            status: int = options.run(options)
            return status
    except FAILURES as failure:
        return tell(failure)


if __name__ == "__main__":
    sys.exit(main(sys.argv[1:]))
