"""Tests what is said of the installed package: test_package.py EXAMPLE README

The example in README is run in a folder that has the game file EXAMPLE under the names there. The last
line is 'package: N passed, M failed'.
"""
import importlib.metadata
import os
import re
import shutil
import sys
import tempfile
from pathlib import Path

import cases
import gamefile

EXAMPLE, README = map(Path, sys.argv[1:])
SAID = importlib.metadata.metadata("gamefile")


def test_the_version_is_that_of_the_library():
    assert SAID["Version"] == gamefile.__version__
    assert "`__version__`" in gamefile.__doc__


def test_what_indexes_show():
    assert SAID["Summary"] and SAID["Requires-Python"] == ">=3.9"
    assert SAID["Project-URL"].endswith("https://gambitproject.readthedocs.io/en/latest/formats.html")
    assert "Typing :: Typed" in SAID.get_all("Classifier")
    assert SAID["License"] is None and not any("License" in it for it in SAID.get_all("Classifier"))


def test_the_readme():
    text = README.read_text()
    description = SAID["Description"] or SAID.get_payload()
    assert SAID["Description-Content-Type"] == "text/markdown" and text.strip() in description
    [block] = re.findall(r"^```python\n(.*?)^```$", text, re.M | re.S)
    with tempfile.TemporaryDirectory() as folder:
        Path(folder, "games").mkdir()
        for name in ("game.efg", "other.efg", "games/game.efg"):
            shutil.copy(EXAMPLE, Path(folder, name))
        os.chdir(folder)
        for line in block.splitlines():
            exec(line, globals())
        os.chdir("/")


def test_the_files():
    files = {path.name for path in importlib.metadata.files("gamefile")}
    assert {"py.typed", "libgamefile.so.1", "__main__.py"} <= files
    assert Path(gamefile.__file__).parent.joinpath("py.typed").exists()


sys.exit(cases.run("package", vars()))
