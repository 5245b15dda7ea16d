"""Tests python -m gamefile against the program: test_commands.py PROGRAM TESTS-FOLDER

The same words and the same input have to give the same output, errors and status; but a hint names no command
that the package lacks. The last line is 'commands: N passed, M failed'.
"""
import os
import subprocess
import sys
import tempfile
from concurrent.futures import ThreadPoolExecutor
from pathlib import Path

import cases

PROGRAM, TESTS = Path(sys.argv[1]).resolve(), Path(sys.argv[2]).resolve()
PACKAGE = [sys.executable, "-m", "gamefile"]
# The program reads no more.
LIMIT = 16_777_216
# One file in so many is enough here: test_gamefile.py goes through all of them.
STEP = 29
GAME = b'NFG 1 R "x" { "A" } { 2 } 1 2'
# Which commands read folders: those of the program, and those of the package.
FOLDER_COMMANDS = b"`check`, `hash`, `duplicates`, `canon --check` and `canon --write`", b"`check` and `hash`"


def ran(start, words, **options):
    """Gives the output, the errors and the status of a run."""
    done = subprocess.run([*start, *words], capture_output=True, check=False, timeout=60, **options)
    return done.stdout, done.stderr, done.returncode


def judge(words, **options):
    """Compares a run of the package with one of the program, and gives what they write."""
    output, errors, status = ran([PROGRAM], words, **options)
    expected = output, errors.replace(*FOLDER_COMMANDS), status
    found = ran(PACKAGE, words, **options)
    assert found == expected, f"{words}: {found} and not {expected}"[:1000]
    return expected


def judge_all(runs):
    with ThreadPoolExecutor() as pool:
        return list(pool.map(judge, runs))


def some_files():
    games = sorted(TESTS.glob("corpus/*.[en]fg"))[::STEP]
    return [*games, *sorted(TESTS.glob("forms/overflow*.efg"))[:2]]


def test_one_file():
    files = some_files()
    commands = ["canon"], ["canon", "--no-names"], ["check"], ["table"], ["table", "--reduced"], ["hash"]
    found = judge_all([[*command, file] for command in commands for file in files])
    assert {status for _, _, status in found} == {0, 2}


def test_several_files():
    files = some_files()
    judge(["hash", *files, "missing"])
    judge(["hash", files[0], "--no-names", files[1]])
    judge(["hash", "--no-names", TESTS / "corpus"])
    judge(["hash", f"{TESTS}/./corpus/", files[0]])


def test_two_files():
    files = some_files()
    beside = [file.with_suffix(".out") for file in files]
    pairs = list(zip(files, [path if path.exists() else files[0] for path in beside]))
    pairs += [(files[0], files[1]), ("missing", files[0]), (files[0], "missing"), ("missing", "missing")]
    words = [[], ["--map"], ["--no-names"]]
    found = judge_all([["same", *option, *pair] for option in words for pair in pairs])
    assert {status for _, _, status in found} == {0, 1, 2, 4}
    assert {errors[:2] for _, errors, _ in found} == {b"", b"A:", b"B:"}


def test_standard_input():
    for words in ([], ["canon"], ["check"], ["table"], ["hash"]):
        for game in (GAME, GAME[:-3], b""):
            judge(words, input=game)


def test_a_minus_is_standard_input():
    for words in (["canon"], ["check"], ["table"], ["hash"]):
        found = judge([*words, "-"], input=GAME)
        assert found == judge(words, input=GAME) and found[2] == 0
    assert judge(["same", "-", "/dev/null"], input=GAME) == (b"", b"B: E3 at 0..0\n", 2)


def test_check_explains():
    refused = [file for file in some_files() if not file.with_suffix(".out").exists()]
    found = judge_all([["check", "--explain", file] for file in [*refused, "missing", *some_files()[:2]]])
    assert {status for _, _, status in found} == {0, 2, 4} and any(b"  hint: " in it[1] for it in found)
    judge(["check", "--explain", *refused, "missing", "mis\x1b[31msing"])
    judge(["check", "--explain", TESTS / "corpus"])
    for words in ([], ["-"], ["-", "-"]):
        judge(["check", "--explain", *words], input=GAME[:-3])
    with tempfile.NamedTemporaryFile() as file:
        file.truncate(LIMIT + 1)
        judge_all([["check", "--explain", *[file.name] * count] for count in (1, 2)])


def test_other_commands_explain():
    files = some_files()
    commands = ["canon"], ["table"], ["table", "--reduced"], ["hash"], ["canon", "--no-names"]
    found = judge_all([[*command, "--explain", file] for command in commands for file in files])
    assert {status for _, _, status in found} == {0, 2}
    said = b"".join(errors for _, errors, _ in found)
    assert b"  hint: " in said and b"overflow at profile" in said and b"cannot be worked out" in said
    refused = [file for file in files if not file.with_suffix(".out").exists()][:3]
    for one in (*refused, files[0], "missing", "."):
        for other in (*refused, files[0], "missing"):
            judge_all([["same", "--explain", *option, one, other] for option in ([], ["--map"])])
    assert FOLDER_COMMANDS[1] in judge(["canon", "--explain", "."])[1]
    judge(["hash", "--explain", *refused, "missing", "mis\x1b[31msing"])
    for words in (["canon"], ["table"], ["hash"], ["same", "/dev/null"]):
        judge([*words, "--explain", "-"], input=GAME[:-3])
    judge(["same", "--explain", "-", "/dev/null"], input=GAME[:-3])


def test_too_many_profiles_in_words():
    # One set of two actions for each of 21 players, one below another.
    players = range(1, 22)
    names = " ".join(f'"{player}"' for player in players)
    moves = "".join(f'p "" {player} 1 "" {{ "l" "r" }} 0 t "" 0 ' for player in players)
    tree = f'EFG 2 R "" {{ {names} }} {moves} t "" 0'.encode()
    assert judge(["table", "--explain"], input=tree)[2] == 2


def test_what_cannot_be_read():
    for name in ("missing", "."):
        for words in (["canon"], ["table"]):
            judge([*words, name])
    judge(["check", "missing"])
    judge(["hash", "missing"])


def test_the_limit_of_the_program():
    with tempfile.NamedTemporaryFile() as file:
        for length in (LIMIT, LIMIT + 1):
            file.truncate(length)
            judge_all([["check", file.name], ["hash", file.name]])
            judge_all([["same", file.name, "missing"], ["same", file.name, "/dev/null"]])


def test_output_that_cannot_be_written():
    explained = ["check", "--explain"], ["check", "--explain", "-", "-"]
    for words in (["canon"], ["check"], *explained, ["hash"], ["same", "/dev/stdin", "/dev/null"]):
        with open("/dev/full", "wb") as full:
            options = {"input": GAME, "stdout": full, "stderr": subprocess.PIPE, "check": False}
            runs = [subprocess.run([*start, *words], **options) for start in ([PROGRAM], PACKAGE)]
        assert (runs[0].stderr, runs[0].returncode) == (runs[1].stderr, runs[1].returncode), words
        assert runs[1].returncode == (2 if words[0] == "same" else 4)


def test_wrong_usage():
    for line in ("nothing", "canon a b", "same a", "check --no-names", "--no-names", "canon --no"):
        words = line.split()
        found = ran(PACKAGE, words)
        assert found[0] == b"" and b"usage: python -m gamefile" in found[1] and found[2] == 3, words
        assert ran([PROGRAM], words)[2] == 3, words


def test_the_version():
    judge(["--version"])
    judge(["-V"])


def test_check_of_several_files():
    with tempfile.TemporaryDirectory() as name:
        good, bad = Path(name, "a.nfg"), Path(name, "b.nfg")
        good.write_bytes(GAME)
        bad.write_bytes(b"x")
        expected = f"{good}: table\n".encode(), f"{bad}: E3 at 0..1\n".encode(), 2
        assert judge(["check", good, bad]) == judge(["check", name]) == expected
        odd = "\x1b[31m\n\u0085\u202e"
        empty = Path(name, f"empty{odd}")
        empty.mkdir()
        for command in ("check", "hash"):
            judge([command, empty, good, Path(name, f"missing{odd}")])
        game_at(name, f"a{odd}.nfg")
        judge(["check", name])


def game_at(folder, *names):
    """Writes a game to files of these names below a folder."""
    for name in names:
        path = Path(folder, name)
        path.parent.mkdir(parents=True, exist_ok=True)
        path.write_bytes(GAME)


def test_what_a_folder_holds():
    with tempfile.TemporaryDirectory() as folder:
        game_at(folder, "b.nfg", "a/z.NFG", "a/y.txt", "B.efg", "a.efg", "é.efg", "a-b/x.efg", "d.nfg/x.efg")
        game_at(folder, ".h.nfg", ".git/y.efg", ".git/.z.efg", "a/.x.efg", "hidden/.x.efg", "hidden/.a/x.efg")
        links = {"f.nfg": "a.efg", "g.efg": "nowhere", "h": ".git", "i.efg": ".h.nfg", "loop": "."}
        for name, target in links.items():
            Path(folder, name).symlink_to(target)
        os.mkfifo(Path(folder, "pipe.efg"))
        named = [["."], [".h.nfg"], [".git"], ["hidden"], ["h"], [".", "."], ["a", "a/", ".git", "hidden/.a"]]
        for command in (["check"], ["check", "--explain"], ["hash"], ["hash", "--no-names"]):
            for names in named:
                judge([*command, *names], cwd=folder)


def test_names_that_are_not_utf_8():
    with tempfile.TemporaryDirectory() as folder:
        game_at(folder, "a.nfg", os.fsdecode(b"\xff.nfg"), os.fsdecode(b"\xff.txt"))
        output, errors, status = ran([PROGRAM], ["check", "."], cwd=folder)
        assert (output, errors.count(b": E20\n"), status) == (b"./a.nfg: table\n", 2, 4)
        assert ran(PACKAGE, ["check", "."], cwd=folder) == (output + "./\ufffd.nfg: table\n".encode(), b"", 0)


def test_names_are_escaped_as_sha256sum_does():
    names = "a b", "a\nb", "a\rb", "a\\b", b"a\xffb"
    with tempfile.TemporaryDirectory() as folder:
        text = ran([PROGRAM], ["canon"], input=GAME)[0]
        for name in names:
            Path(folder, os.fsdecode(name)).write_bytes(text)
        for name in names:
            assert ran(PACKAGE, ["hash", name], cwd=folder) == ran(["sha256sum"], [name], cwd=folder), name
        judge(["hash", *names[:4]], cwd=folder)


sys.exit(cases.run("commands", vars()))
