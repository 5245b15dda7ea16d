"""Tests gamefile.collect: test_collection.py PROGRAM FOLDER

The keys and the refusals of the files below the folder have to be those of PROGRAM hash. The last line is
'collection: N passed, M failed'.
"""
import os
import socket
import subprocess
import sys
import tempfile
import tracemalloc
from concurrent.futures import ProcessPoolExecutor, ThreadPoolExecutor
from contextlib import contextmanager
from pathlib import Path

import cases
import gamefile

PROGRAM, FOLDER = sys.argv[1], Path(sys.argv[2])
GAME = b'NFG 1 R "x" { "A" } { 2 } 1 2'
KEY = gamefile.key(GAME)
NOBODY = 65534


def shown(entries):
    """Gives entries in a form that can be compared."""
    return [(path, key, type(error), str(error)) for path, key, error in entries]


@contextmanager
def folder_of(*paths):
    """Gives a folder that has the same game at these paths."""
    with tempfile.TemporaryDirectory() as name:
        for path in paths:
            Path(name, path).parent.mkdir(parents=True, exist_ok=True)
            Path(name, path).write_bytes(GAME)
        yield Path(name)


def names_in(folder, **options):
    """Gives the names of the files that are found in a folder."""
    return [str(entry.path.relative_to(folder)) for entry in gamefile.collect(folder, **options)]


def judge_as_program(*words, **options):
    ran = subprocess.run([PROGRAM, "hash", *words, FOLDER], capture_output=True, check=False)
    entries = gamefile.collect(FOLDER, **options)
    hashes = [f"{key}  {path}" for path, key, error in entries if error is None]
    refusals = [
        f"{path}: {error.code} at {error.start}..{error.end}" for path, key, error in entries if key is None
    ]
    assert hashes == ran.stdout.decode().splitlines() and hashes
    assert refusals == ran.stderr.decode().splitlines() and refusals


def test_keys_and_refusals_of_the_program():
    judge_as_program()


def test_keys_without_names():
    judge_as_program("--no-names", names=False)


def test_executors():
    expected = shown(gamefile.collect(FOLDER))
    for executor in (ThreadPoolExecutor, ProcessPoolExecutor):
        with executor(3) as pool:
            assert shown(gamefile.collect(FOLDER, executor=pool)) == expected


def test_order_and_names():
    with folder_of("b.efg", "a/z.NFG", "a/y.txt", "B.efg", "é.efg", ".c.nfg", "a.efg") as folder:
        assert names_in(folder) == ["B.efg", "a/z.NFG", "a.efg", "b.efg", "é.efg"]
        assert {key for _, key, _ in gamefile.collect(folder)} == {KEY}


def test_entries_keep_no_files():
    with folder_of() as folder:
        (folder / "a.nfg").write_bytes(b'NFG 1 R "%b" { "A" } { 1 } x' % (b"x" * 4_000_000))
        tracemalloc.start()
        [entry] = gamefile.collect(folder)
        kept = tracemalloc.get_traced_memory()[0]
        tracemalloc.stop()
        assert kept < 100_000, kept
        assert entry.error.path == entry.path and entry.error.hint == "write 3, -0.5, 1e-3 or 1/3"


def test_an_empty_folder():
    with folder_of() as folder:
        assert gamefile.collect(folder) == []


def test_links_are_followed_once():
    with folder_of("a/x.efg") as folder:
        (folder / "a" / "loop").symlink_to(folder)
        (folder / "b").symlink_to(folder / "a")
        (folder / "y.efg").symlink_to(folder / "a" / "x.efg")
        (folder / "z.efg").symlink_to("nowhere")
        assert names_in(folder) == ["a/x.efg", "y.efg", "z.efg"]
        assert isinstance(gamefile.collect(folder)[-1].error, FileNotFoundError)


def test_what_is_hidden_is_passed_over_unless_named():
    with folder_of("x.efg", ".h.nfg", ".git/y.efg", ".git/.z.efg") as folder:
        (folder / "link.efg").symlink_to(".h.nfg")
        assert names_in(folder) == ["link.efg", "x.efg"]
        assert names_in(folder / ".git") == ["y.efg"]


def test_a_name_that_is_not_utf_8_is_read():
    name = os.fsdecode(b"\xff.efg")
    with folder_of("a.efg", name) as folder:
        assert [entry[1:] for entry in gamefile.collect(folder)] == [(KEY, None)] * 2
        assert names_in(folder) == ["a.efg", name]


def test_pipes_and_sockets_are_passed_over():
    with folder_of("x.efg") as folder, socket.socket(socket.AF_UNIX) as bound:
        os.mkfifo(folder / "pipe.efg")
        bound.bind(str(folder / "socket.efg"))
        assert names_in(folder) == ["x.efg"]


def test_a_folder_that_is_missing():
    for path in (Path("missing"), Path(__file__)):
        try:
            gamefile.collect(path)
        except OSError:
            continue
        raise AssertionError(f"{path} is read as a folder")


def test_a_folder_below_that_cannot_be_read():
    with folder_of("a/x.efg", "y.efg") as folder:
        (folder / "a").chmod(0)
        folder.chmod(0o755)
        user = os.geteuid()
        if user == 0:
            os.seteuid(NOBODY)
        try:
            found = gamefile.collect(folder)
        finally:
            os.seteuid(user)
            (folder / "a").chmod(0o755)
        assert [(path.name, key) for path, key, _ in found] == [("a", None), ("y.efg", KEY)]
        assert isinstance(found[0].error, PermissionError)


if __name__ == "__main__":
    sys.exit(cases.run("collection", vars()))
