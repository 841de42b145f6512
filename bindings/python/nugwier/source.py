"""Where the bytes of a file are: in memory, or in a file that is read by parts."""

from __future__ import annotations

import ctypes
import io
import mmap
import os
from ctypes import byref
from typing import Any, BinaryIO, List, Union

from . import _library as c

Source = Union[str, "os.PathLike[str]", bytes, bytearray, memoryview, mmap.mmap, BinaryIO]


def _address(content: bytes) -> Any:
    """Where bytes are, which stay there as long as the object."""
    return ctypes.cast(ctypes.c_char_p(content), ctypes.c_void_p).value


class Whole:
    """A file whose bytes are all in memory."""

    def __init__(self, content: bytes) -> None:
        self._content = content

    def open(self) -> Any:
        file = c.File()
        c.call("open", _address(self._content), len(self._content), byref(file))
        return file

    def load(self, file: Any, start: int, end: int) -> None:
        raise AssertionError("all of the file is loaded")

    def close(self) -> None:
        self._content = b""


class Parts:
    """A file that is read by the ranges that calls need. Each is kept, so what was read stays as it was."""

    def __init__(self, file: BinaryIO, size: int, is_own: bool) -> None:
        self._file, self._size, self._is_own = file, size, is_own
        self._loaded: List[bytes] = []
        self._ranges: Any = (c.Range * 8)()

    def open(self) -> Any:
        file = c.File()
        while True:
            try:
                c.call("open_ranges", self._size, self._ranges, len(self._loaded), byref(file))
                return file
            except c.ElfError as error:
                if error.code != c.NOT_LOADED:
                    raise
                self.load(file, error.first, error.second)

    def load(self, file: Any, start: int, end: int) -> None:
        """Reads a range of the file, and adds it to those that calls know."""
        self._file.seek(start)
        content = b""
        while len(content) < end - start:
            more = self._file.read(end - start - len(content))
            if not more:
                raise EOFError(f"the file ends before byte {end}")
            content = content + more if content else bytes(more)
        count = len(self._loaded)
        if count == len(self._ranges):
            grown = (c.Range * (2 * count))()
            ctypes.memmove(grown, self._ranges, ctypes.sizeof(self._ranges))
            self._ranges = grown
        self._ranges[count] = c.Range(start, _address(content), len(content))
        self._loaded.append(content)
        file.ranges, file.ranges_len = ctypes.addressof(self._ranges), count + 1

    def close(self) -> None:
        self._loaded = []
        if self._is_own:
            self._file.close()


def _size(file: BinaryIO) -> int:
    """The size of a file, or 0 if the system says none, as of a pipe or of a file of /proc."""
    try:
        return file.seek(0, os.SEEK_END) if file.seekable() else 0
    except OSError:
        return 0


def _of_object(file: BinaryIO, is_own: bool) -> Whole | Parts:
    """A file that is read by parts, or whole if its size is not known."""
    if isinstance(file, io.TextIOBase):
        raise TypeError("a file object has to give bytes")
    size = _size(file)
    if size:
        return Parts(file, size, is_own)
    if file.seekable():
        file.seek(0)
    content = file.read()
    if is_own:
        file.close()
    return Whole(bytes(content))


def opened_source(source: Source) -> Whole | Parts:
    if isinstance(source, (str, os.PathLike)):
        return _of_object(open(source, "rb", buffering=0), True)
    if isinstance(source, (bytes, bytearray, memoryview, mmap.mmap)):
        return Whole(bytes(source))
    return _of_object(source, False)
