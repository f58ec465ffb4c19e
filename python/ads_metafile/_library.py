"""The C library libads: its structs and signatures, where it is found, and how numbers and texts are given to it.

Structs and signatures repeat include/ads.h. The library is loaded at the first call, not when the package is imported.
"""
from __future__ import annotations

import ctypes
import operator
import os
from ctypes import Structure, c_bool, c_char_p, c_int64, c_size_t, c_uint8, c_uint64, c_void_p
from functools import cache
from typing import Any, TypeAlias

from . import _stack
from ._memory import Lent
from ._numbers import Refused

Text: TypeAlias = str | bytes

MOST_BYTES = 2**30
SONAME = "libads.so.0"
VERSION_NODE = "ADS_0.9"
NEWEST = "ads_ancestors"
"""The version that the package needs, and a function that has it."""
BLOCKS_NODE = "ADS_0.10"
BLOCKS = "ads_pack"
"""The same for the blocks, asked once all functions of before are there."""
_REMEDY = f"run `make` in the repository, or set ADS_LIBRARY to the path of {SONAME}"


class Row(Structure):
    _fields_ = [("serial", c_uint8 * 38), ("place", c_size_t), ("header", c_size_t), ("contents", c_size_t),
                ("bytes", c_size_t), ("end", c_size_t), ("dependencies", c_size_t), ("offset", c_int64),
                ("multichunk", c_bool), ("good", c_bool), ("ending", c_uint8)]


class Reading(Structure):
    _fields_ = [("count", c_size_t), ("stop", c_size_t), ("good", c_bool), ("number", c_uint8)]


class Written(Structure):
    _fields_ = [("length", c_size_t), ("number", c_uint8)]


class Counted(Structure):
    _fields_ = [("count", c_size_t), ("number", c_uint8)]


class CountedRow(Structure):
    _fields_ = [("count", c_size_t), ("row", c_size_t), ("number", c_uint8)]


class ParentAnswer(Structure):
    _fields_ = [("row", c_size_t), ("found", c_bool), ("agree", c_bool), ("number", c_uint8)]


class Ends(Structure):
    _fields_ = [("first", c_size_t), ("second", c_size_t), ("third", c_size_t), ("number", c_uint8)]


class Part(Structure):
    _fields_ = [("place", c_size_t), ("bytes", c_size_t), ("number", c_uint8)]


class AncestryAnswer(Structure):
    _fields_ = [("count", c_size_t), ("missing", c_size_t), ("number", c_uint8)]


class Priced(Structure):
    _fields_ = [("length", c_size_t), ("header", c_size_t), ("chunks", c_size_t), ("unread", c_size_t),
                ("number", c_uint8)]


class Text256(Structure):
    _fields_ = [("bytes", c_uint8 * 256), ("given", c_size_t)]


class Text32(Structure):
    _fields_ = [("bytes", c_uint8 * 32), ("given", c_size_t)]


class DescriptionStruct(Structure):
    _fields_ = [("subformat", Text256), ("generic", c_uint8 * 3), ("synch", c_uint8 * 3), ("standard", c_uint8 * 3),
                ("alternate", c_uint8 * 38), ("offset", c_uint8 * 16), ("event", c_uint8 * 3),
                ("linked", c_uint8 * 38), ("serial", c_uint8 * 38), ("recorded", c_uint8 * 8), ("recorder", Text32),
                ("written", c_uint8 * 8), ("writer", Text32)]


_WORD = c_char_p  # a `bytes` object of a fixed length
_TEXT = (c_char_p, c_size_t)  # a `bytes` object and its length
_LENT = (c_void_p, c_size_t)  # a `Lent` and its length
_CHANGED = (DescriptionStruct, DescriptionStruct)  # the answer, and the description that is given

_SIGNATURES: dict[str, tuple[Any, ...]] = {
    "ads_begin": (Written, _WORD, *_TEXT, _WORD, _WORD, *_TEXT, _WORD, *_TEXT, *_LENT),
    "ads_read": (Reading, *_LENT, *_LENT),
    "ads_is_clean": (c_bool, Reading, c_size_t),
    "ads_parent": (ParentAnswer, *_LENT, c_size_t, c_size_t),
    "ads_ancestors": (AncestryAnswer, *_LENT, c_size_t, *_LENT),
    "ads_contents": (Part, *_LENT, c_size_t),
    "ads_gather": (Written, *_LENT, c_size_t, *_TEXT, *_LENT),
    "ads_relations_write": (Written, *_LENT, *_LENT),
    "ads_relations_check": (Counted, *_LENT, c_size_t, *_LENT),
    "ads_relations_check_latest": (CountedRow, *_LENT, *_LENT),
    "ads_price": (Priced, *_LENT, c_uint64, c_uint64, *_LENT),
    "ads_listing": (Written, *_LENT, *_LENT),
    "ads_append": (Ends, *_LENT, c_size_t, DescriptionStruct, *_LENT, *_LENT, *_LENT, c_bool),
    "ads_description_new": (DescriptionStruct,),
    "ads_sub_format": (*_CHANGED, *_TEXT),
    "ads_recording": (*_CHANGED, _WORD, *_TEXT),
    "ads_writing": (*_CHANGED, _WORD, *_TEXT),
} | {
    f"ads_{name}": (*_CHANGED, _WORD)
    for name in ("generic_type", "synch_type", "time_standard", "alternate_standard", "time_offset", "event_synch",
                 "slave_event", "master_event", "serial_number")
} | {
    "ads_pack": (Written, *_LENT, *_LENT),
    "ads_unpack": (Written, *_LENT, *_LENT),
}


def _path() -> str:
    """The library to load: ADS_LIBRARY, the one beside the package, that of a checkout, or what the loader finds."""
    named = os.environ.get("ADS_LIBRARY")
    if named:
        return named
    folder = os.path.dirname(os.path.realpath(__file__))
    checkout = os.path.dirname(os.path.dirname(folder))
    beside = [os.path.join(folder, SONAME), os.path.join(os.path.dirname(folder), SONAME)]
    if os.path.isfile(os.path.join(checkout, "include", "ads.h")):
        beside.append(os.path.join(checkout, "target", "lib", SONAME))
    return next(filter(os.path.isfile, beside), SONAME)


def _check_version(library: ctypes.CDLL, path: str, name: str, node: str) -> None:
    """Refuses a library without a version that the package needs, where the C library can tell."""
    find = getattr(ctypes.CDLL(None), "dlvsym", None)
    if find is None:
        return
    find.restype, find.argtypes = c_void_p, (c_void_p, c_char_p, c_char_p)
    if find(library._handle, name.encode(), node.encode()) is None:
        found = "an older libads, or one without versions" if hasattr(library, "ads_read") else "no libads"
        raise ImportError(f"{path} is {found}: this package needs version {node}; {_REMEDY}")


@cache
def _library() -> ctypes.CDLL:
    """The library, loaded. An ImportError says in words what was found and what to run."""
    path = _path()
    try:
        library = ctypes.CDLL(path)
    except OSError as error:
        raise ImportError(f"the library libads can't be loaded: {error}; {_REMEDY}") from None
    _check_version(library, path, NEWEST, VERSION_NODE)
    for name, (answer, *given) in _SIGNATURES.items():
        if name == BLOCKS:
            _check_version(library, path, BLOCKS, BLOCKS_NODE)
        if not hasattr(library, name):
            raise ImportError(f"{path} is no whole libads: it has no {name}; {_REMEDY}")
        function = getattr(library, name)
        function.restype, function.argtypes = answer, given
    return library


def _answer(name: str, arguments: tuple[Any, ...]) -> Any:
    try:
        return getattr(_library(), name)(*arguments)
    finally:
        for each in arguments:
            if isinstance(each, Lent):
                each.release()


def call(name: str, *arguments: Any) -> Any:
    """The function's answer, whatever its number is, from a stack that is large enough. The first call loads the
    library."""
    return _stack.run(_answer, name, arguments)


def accepted(name: str, *arguments: Any) -> Any:
    """The function's answer; `Refused` where its number isn't 0."""
    answer = call(name, *arguments)
    if answer.number != 0:
        raise Refused(answer.number)
    return answer


def size(number: int, what: str) -> int:
    """The number, where it fits in size_t or uint64_t; it never wraps."""
    number = operator.index(number)
    if not 0 <= number < 2**64:
        raise ValueError(f"{what} is {number}, outside 0 to 2^64 - 1")
    return number


def text(given: Text, what: str) -> bytes:
    """The text's bytes: a str has to be ASCII."""
    if isinstance(given, str):
        try:
            return given.encode("ascii")
        except UnicodeEncodeError:
            raise ValueError(f"{what} has a character outside ASCII: {given!r}") from None
    if isinstance(given, (bytes, bytearray, memoryview)):
        return bytes(given)
    raise TypeError(f"{what} must be str or bytes, not {type(given).__name__}")


def fixed(given: Text, width: int, what: str) -> bytes:
    """The same for a field that has just `width` bytes."""
    made = text(given, what)
    if len(made) != width:
        raise ValueError(f"{what} must have {width} bytes, has {len(made)}")
    return made
