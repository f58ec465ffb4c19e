"""Memory: bytes lent to a call without a copy, and new memory that costs nothing until it is written.

It rests on Python's buffer protocol. No view is exported by another view for longer than a call: the garbage collection
of Python 3.11 crashes on a cycle with such a pair.
"""
from __future__ import annotations

import ctypes
from contextlib import suppress
from ctypes import Structure, byref, c_int, c_size_t, c_ssize_t, c_void_p
from mmap import MADV_HUGEPAGE, MAP_ANONYMOUS, MAP_PRIVATE, mmap
from typing import Any, TypeAlias

BytesLike: TypeAlias = bytes | bytearray | memoryview | mmap

_LARGE_PAGE = 2 * 1024 * 1024


class _PyBuffer(Structure):
    """Py_buffer of Python's C interface. PyBuffer_Release lets go of `obj`."""

    _fields_ = [("buf", c_void_p), ("obj", c_void_p), ("len", c_ssize_t), ("itemsize", c_ssize_t), ("readonly", c_int),
                ("ndim", c_int), ("format", c_void_p), ("shape", c_void_p), ("strides", c_void_p),
                ("suboffsets", c_void_p), ("internal", c_void_p)]


_get_buffer = ctypes.pythonapi.PyObject_GetBuffer
_get_buffer.restype, _get_buffer.argtypes = c_int, (ctypes.py_object, c_void_p, c_int)
_release_buffer = ctypes.pythonapi.PyBuffer_Release
_release_buffer.restype, _release_buffer.argtypes = None, (c_void_p,)
_SIMPLE, _WRITABLE = 0, 1
_NO_BYTES = (c_size_t * 1)()


class Lent:
    """A contiguous bytes-like object as an argument of a call: its address, never null, and its length.

    The object is held as it is until `release`, which the call does at its end, on whatever thread it runs.
    """

    __slots__ = ("_as_parameter_", "length", "_buffer")

    def __init__(self, data: Any, *, writable: bool = False) -> None:
        self._buffer = _PyBuffer()
        _get_buffer(data, byref(self._buffer), _WRITABLE if writable else _SIMPLE)
        self._as_parameter_: int = self._buffer.buf or ctypes.addressof(_NO_BYTES)
        self.length: int = self._buffer.len

    def release(self) -> None:
        """Lets go of the object; a second time does nothing."""
        _release_buffer(byref(self._buffer))

    __del__ = release

    def overlaps(self, other: Lent) -> bool:
        """Whether a byte belongs to both."""
        first, second = self._as_parameter_, other._as_parameter_
        return max(first, second) < min(first + self.length, second + other.length)


def view(data: BytesLike) -> memoryview:
    """A view of the object's bytes, in one dimension. TypeError or BufferError where it isn't contiguous bytes."""
    whole = memoryview(data)
    if not whole.c_contiguous:
        raise BufferError("the bytes aren't contiguous: copy them by bytes(..)")
    return whole if whole.format == "B" and whole.ndim == 1 else whole.cast("B")


def anonymous(length: int, *, filled: bool = False) -> mmap:
    """Memory of that many zero bytes, at least one. Where all of it will be filled, large pages are asked for."""
    memory = mmap(-1, max(length, 1), flags=MAP_PRIVATE | MAP_ANONYMOUS)
    if filled and length >= _LARGE_PAGE:
        with suppress(OSError):
            memory.madvise(MADV_HUGEPAGE)
    return memory
