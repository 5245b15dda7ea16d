"""The calls of libgamefile, as gamefile.h declares them."""
import ctypes
import struct
from pathlib import Path
from typing import Any

# What a call returns.
OK, DIFFERENT, REFUSED, NOMEM = 0, 1, 2, 5
TOO_MANY_PROFILES, OVERFLOW, TOO_SMALL = 6, 7, 8
# Kinds, flags, and what a pair of numbers belongs to.
TREE, NO_NAMES, REDUCED, SET = 1, 1, 2, 1
# A pair: its kind, player, first and second number, in 32 bits each.
PAIR = struct.Struct("=4I")


class Fault(ctypes.Structure):
    """Why a file is refused: `gamefile_fault`."""

    code: int
    expected: int
    start: int
    end: int
    _fields_ = [
        ("code", ctypes.c_uint32),
        ("expected", ctypes.c_uint32),
        ("start", ctypes.c_size_t),
        ("end", ctypes.c_size_t),
    ]


_shared_object = ctypes.CDLL(str(Path(__file__).with_name("libgamefile.so.1")))


def _call(name: str, *arguments: Any, result: Any = ctypes.c_int) -> Any:
    call = getattr(_shared_object, name)
    call.argtypes = arguments
    call.restype = result
    return call


_input = (ctypes.c_void_p, ctypes.c_size_t)
_output = (ctypes.c_void_p, ctypes.c_size_t, ctypes.POINTER(ctypes.c_size_t))
_flags, _fault, _which = ctypes.c_uint, ctypes.POINTER(Fault), ctypes.POINTER(ctypes.c_int)
_profile = ctypes.POINTER(ctypes.c_uint64)
_code = (ctypes.c_uint32, ctypes.c_uint32)

version = _call("gamefile_version", result=ctypes.c_char_p)
check = _call("gamefile_check", *_input, ctypes.POINTER(ctypes.c_int), _fault)
explain = _call("gamefile_explain", *_input, ctypes.c_char_p, *_output, _fault)
canonical = _call("gamefile_canonical", *_input, _flags, *_output, _fault)
hash = _call("gamefile_hash", *_input, _flags, ctypes.c_char_p, _fault)
table = _call("gamefile_table", *_input, _flags, *_output, _fault, _profile)
same = _call("gamefile_same", *_input, *_input, _flags, _fault, _which)
renumbering = _call("gamefile_renumbering", *_input, *_input, *_output, _fault, _which)
message = _call("gamefile_message", *_code, result=ctypes.c_char_p)
