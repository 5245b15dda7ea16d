"""Tests what the calls of gamefile take, and what they raise: test_inputs.py

The last line is 'inputs: N passed, M failed'.
"""
import inspect
import mmap
import os
import pickle
import sys
import tempfile
import tracemalloc
import typing
from array import array
from functools import partial
from pathlib import Path

import cases
import gamefile

TREE = b'EFG 2 R "toss" { "A" } c "" 9 "coin" { "h" 0.5 "t" 2/4 } 0 t "" 7 "win" { 1e0 } t "" 7'
TABLE = b'NFG 1 R "x" { "A" } { 2 } 0.5 4/2'
REFUSED = b'NFG 1 R "x" { "A" }\n{ 2 } 0.5 two'
TABLELESS = b'EFG 2 R "" { "A" } p "" 1 1 "" { "x" } 1 "" { %d } t "" 1' % (2**127 - 1)
# The same code and the same expectation have another hint in another file.
HINTS = {
    REFUSED: "write 3, -0.5, 1e-3 or 1/3",
    b'EFG 2 R "" { "A" } t "" 0 t "" 0': "the game is already complete here",
    b'EFG 2 R "" { "A" } t "" 0 "o" { 1 2 }': "outcome 0 takes no description",
    b'EFG 2 R "" { "A" } p "" 1 1 "" { "x" } 0 P "" 1': "each action needs a subtree",
    b'EFG 2 R "" { "A" } P "" 1 1 0': "the tree begins here, after the players and at most one comment",
    b'\xef\xbb\xbfNFG 1 R "" { } { }': "the file begins with a byte order mark; save it as UTF-8 without one",
    'NFG 1 R “x” { } { }'.encode(): 'texts stand in straight double quotes, as in "A"',
    b'NFG 1 R "" { "A" } { 1 } 1/0': None,
}
FILES = [TREE, TABLE, REFUSED, b""]
LARGE = b'NFG 1 R "%b" { "A" } { 1 } 0' % (b"x" * 4_000_000)
CALLS = [
    gamefile.check,
    gamefile.canonical,
    partial(gamefile.canonical, names=False),
    gamefile.key,
    gamefile.table,
    partial(gamefile.table, reduced=True),
    partial(gamefile.explain, name="game"),
]
CALLS_OF_TWO = [gamefile.same, partial(gamefile.same, names=False), gamefile.renumbering]


def mapped(data, access=mmap.ACCESS_WRITE):
    """Gives a file with these bytes, in memory."""
    with tempfile.TemporaryFile() as file:
        file.write(data)
        file.flush()
        return mmap.mmap(file.fileno(), len(data), access=access) if data else bytearray()


def saved(data):
    """Gives the path of a file with these bytes."""
    handle, name = tempfile.mkstemp(dir=FOLDER.name)
    os.close(handle)
    Path(name).write_bytes(data)
    return Path(name)


class OtherPath:
    """A path that is no pathlib.Path."""

    def __init__(self, path):
        self.path = path

    def __fspath__(self):
        return str(self.path)


FOLDER = tempfile.TemporaryDirectory()
SOURCES = [
    bytearray,
    memoryview,
    lambda data: memoryview(bytearray(b"EFG" + data))[3:],
    lambda data: memoryview(bytes(byte for byte in data for _ in range(2)))[::2],
    lambda data: memoryview(bytearray(byte for byte in data for _ in range(2)))[::2],
    lambda data: array("B", data),
    mapped,
    partial(mapped, access=mmap.ACCESS_READ),
    saved,
    lambda data: OtherPath(saved(data)),
]


def answer(call, *sources):
    """Gives what a call answers, or what it raises."""
    try:
        return call(*sources)
    except gamefile.Error as error:
        return type(error), error.args, getattr(error, "hint", None), getattr(error, "which", None)


def raised(kind, call, *sources):
    """Gives the exception of this kind that a call raises."""
    try:
        call(*sources)
    except kind as error:
        return error
    raise AssertionError(f"{call} of {sources} raises no {kind.__name__}")


def memory_of(source):
    """Gives the bytes of memory that checking a file takes in Python."""
    tracemalloc.start()
    gamefile.check(source)
    peak = tracemalloc.get_traced_memory()[1]
    tracemalloc.stop()
    return peak


def test_each_source_answers_as_its_bytes():
    for data in FILES:
        for source in SOURCES:
            for call in CALLS:
                assert answer(call, source(data)) == answer(call, data), (call, source, data)


def test_each_source_answers_as_its_bytes_in_calls_of_two():
    for source in SOURCES:
        for a, b in [(TREE, TREE), (TREE, TABLE), (TABLE, REFUSED), (b"", TABLE)]:
            for call in CALLS_OF_TWO:
                expected = answer(call, a, b)
                assert answer(call, source(a), b) == answer(call, a, source(b)) == expected


def test_items_of_several_bytes_are_bytes():
    padded = TABLE + b" " * (-len(TABLE) % 8)
    assert gamefile.check(array("d", padded)) == "table"


def test_only_what_cannot_be_written_is_copied():
    for source in (LARGE, bytearray(LARGE), array("B", LARGE), mapped(LARGE), memoryview(bytearray(LARGE))):
        assert memory_of(source) < len(LARGE) / 10, type(source)
    assert memory_of(memoryview(LARGE)) >= len(LARGE)


def test_an_exception_keeps_no_buffer():
    data, file = bytearray(REFUSED), mapped(REFUSED)
    kept = [raised(gamefile.GameFileError, gamefile.check, source) for source in (data, file)]
    data.append(0)
    file.close()
    assert [error.line for error in kept] == [2, 2]


def test_a_hint_is_that_of_the_explanation():
    for data, hint in HINTS.items():
        told = gamefile.explain(data).splitlines()[-1]
        assert raised(gamefile.GameFileError, gamefile.check, data).hint == hint, data
        assert told == f"  hint: {hint}" if hint else "  hint: " not in told


def test_a_hint_outlives_its_file():
    for data, hint in HINTS.items():
        buffer, path = bytearray(data), saved(data)
        kept = [raised(gamefile.GameFileError, gamefile.check, source) for source in (buffer, path)]
        buffer[:] = b"x"
        path.unlink()
        sent = [pickle.loads(pickle.dumps(error)) for error in kept]
        assert [error.hint for error in (*sent, *kept)] == [hint] * 4, data


def test_an_error_names_its_file():
    path, other = saved(REFUSED), saved(TREE)
    for call in CALLS[:-1]:
        error = raised(gamefile.GameFileError, call, path)
        assert error.path == path and str(error) == f"{path}:2:11: E4 at 30..33: this is not a number"
        assert raised(gamefile.GameFileError, call, OtherPath(path)).path == path
        error = raised(gamefile.GameFileError, call, REFUSED)
        assert error.path is None and str(error) == "2:11: E4 at 30..33: this is not a number"
    for call in CALLS_OF_TWO:
        for a, b, which in ((path, other, "a"), (other, path, "b"), (TREE, path, "b"), (path, path, "a")):
            error = raised(gamefile.GameFileError, call, a, b)
            assert (error.path, error.which) == (path, which) and str(error).startswith(f"{path}:2:11: E4 at ")
        error = raised(gamefile.GameFileError, call, REFUSED, other)
        assert (error.path, error.which) == (None, "a") and str(error).startswith("a:2:11: E4 at ")


def test_a_tree_without_a_table_is_named():
    path = saved(TABLELESS)
    error = raised(gamefile.TableError, gamefile.table, path)
    assert error.path == path and str(error) == f"{path}: overflow at profile 1"
    error = raised(gamefile.TableError, gamefile.table, TABLELESS)
    assert error.path is None and str(error) == "overflow at profile 1"


def test_a_path_is_shown_as_in_explanations():
    for name in ("a b\x1b[31m", "ü\u0085\n", os.fsdecode(b"a\xffb")):
        path = Path(FOLDER.name, name)
        path.write_bytes(REFUSED)
        error = raised(gamefile.GameFileError, gamefile.check, path)
        place = str(error).split(": ")[0]
        assert error.path == path and place.isprintable() and gamefile.explain(path).startswith(f"{place}: E4")


def test_errors_can_be_sent():
    paths = saved(REFUSED), saved(TABLELESS)
    for source in (REFUSED, TABLELESS, *paths):
        error = raised(gamefile.Error, gamefile.table, source)
        sent = pickle.loads(pickle.dumps(error))
        assert (type(sent), str(sent), vars(sent)) == (type(error), str(error), vars(error))
        assert sent.path == (source if source in paths else None)


def test_a_view_stays_that_of_its_caller():
    with memoryview(bytearray(TREE)) as view:
        assert gamefile.check(view) == gamefile.check(view) == "tree"
        assert view.tobytes() == TREE


def test_a_path_that_cannot_be_read():
    for call in CALLS:
        assert raised(OSError, call, Path(FOLDER.name, "missing")).filename.endswith("missing")
        raised(OSError, call, Path(FOLDER.name))


def test_a_name_is_no_path():
    for call in CALLS:
        for source in ("game.efg", 1, None, [1]):
            message = str(raised(TypeError, call, source))
            assert "Path(..)" in message and type(source).__name__ in message
    for call in CALLS_OF_TWO:
        raised(TypeError, call, TREE, "game.efg")


def test_one_base_of_all_errors():
    refusal = raised(gamefile.GameFileError, gamefile.check, REFUSED)
    assert isinstance(refusal, gamefile.Error) and isinstance(refusal, ValueError)
    assert issubclass(gamefile.TableError, gamefile.Error)
    assert issubclass(gamefile.TableError, ArithmeticError)
    assert str(pickle.loads(pickle.dumps(refusal))) == str(refusal)


def test_types_can_be_looked_up():
    for call in (gamefile.check, gamefile.same, gamefile.collect):
        types = typing.get_type_hints(call).values()
        assert any("PathLike" in str(it) for it in types), call


def test_docstrings_say_what_is_raised():
    for name in gamefile.__all__:
        value = getattr(gamefile, name)
        if inspect.isfunction(value):
            text = inspect.getdoc(value)
            assert "Raises " in text and "OSError" in text, name
            # Of these, collect takes no file, and explain returns what the others raise.
            assert ("GameFileError" in text) == (name not in ("collect", "explain")), name
            assert ("TableError" in text) == (name == "table"), name
    assert "two files have equal texts exactly when they mean the same game" in gamefile.canonical.__doc__


sys.exit(cases.run("inputs", vars()))
