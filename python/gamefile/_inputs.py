"""What a call reads: bytes in memory, or the file at a path."""
import ctypes
import os
from array import array
from mmap import mmap
from pathlib import Path
from typing import TYPE_CHECKING, Any, Optional, Tuple, Union

if TYPE_CHECKING:
    Array = array[Any]
else:
    Array = array

#: Bytes in memory, or the path of a file.
Source = Union[bytes, bytearray, memoryview, mmap, Array, os.PathLike[str]]


def _data(source: Source) -> Union[bytes, memoryview]:
    if isinstance(source, os.PathLike):
        with open(source, "rb") as file:
            return file.read()
    try:
        return memoryview(source)
    except TypeError:
        name = type(source).__name__
        raise TypeError(f"expected bytes or a path, not {name}: write Path(..) for a path") from None


class Input:
    """The bytes of a file, as a call of the library takes them, until the end of a `with` block.

    ctypes reaches the memory of bytes, and of a buffer that can be written; others are copied.
    """

    __slots__ = ("given", "length", "_source", "_view")
    #: The two arguments of a call.
    given: Tuple[Union[bytes, int], int]

    def __init__(self, source: Source) -> None:
        data = source if isinstance(source, bytes) else _data(source)
        self._source = source
        self._view: Optional[memoryview] = None
        if isinstance(data, memoryview):
            if data.nbytes > 0 and data.c_contiguous and not data.readonly:
                self._view = data
                self.length = data.nbytes
                self.given = ctypes.addressof(ctypes.c_char.from_buffer(data)), self.length
                return
            data = data.tobytes()
        self.length = len(data)
        self.given = data, self.length

    @property
    def path(self) -> Optional[Path]:
        """The path of the file, or None if it was given as bytes."""
        source = self._source
        return Path(os.fsdecode(source)) if isinstance(source, os.PathLike) else None

    def before(self, place: int) -> bytes:
        """The bytes before a place."""
        return ctypes.string_at(self.given[0], place)

    def __enter__(self) -> "Input":
        return self

    def __exit__(self, *_: object) -> None:
        # An exception that is kept must not keep the caller's buffer in use.
        if self._view is not None:
            self._view.release()
