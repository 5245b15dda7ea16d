"""Tables of tests: their lines, and the bytes that a text in them stands for."""
import re
from pathlib import Path


def bytes_of(text):
    """Gives the bytes that a text stands for, in which %xx is the byte of these two hexadecimal digits."""
    return re.sub(rb"%([0-9a-f]{2})", lambda found: bytes.fromhex(found[1].decode()), text.encode())


def lines_of(name):
    """Gives the lines of a table that are neither empty nor comments."""
    lines = (Path(__file__).parent / name).read_text().splitlines()
    return [line for line in lines if line and not line.startswith("#")]
