"""Makes libraries that are loaded before the C library, for tests/memory and tests/streams."""
import os
import shutil
import subprocess
from pathlib import Path


def make_library(folder, source):
    """Makes a library from this C with the compiler beside `rt`, and gives its path."""
    tools = Path(shutil.which(os.environ.get("RT", "rt"))).resolve().parent.parent / "toolchain" / "bin"
    library = Path(folder, "before_libc.so")
    words = [tools / "clang", "--target=x86_64-unknown-linux-gnu", f"--ld-path={tools / 'ld.lld'}"]
    words += ["-shared", "-fPIC", "-nostdlib", "-x", "c", "-", "-o", library]
    subprocess.run(words, input=source.encode(), check=True)
    return library
