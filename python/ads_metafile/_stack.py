"""Calls on a stack that is large enough: on the caller's thread where its stack has room, else on a thread of its own.

A call of the library takes up to 1 MiB of stack. How much is left is known from the bounds of the thread's stack, which
the C library tells, and from the stack pointer. Where either can't be known the call gets its own thread.
"""
from __future__ import annotations

import _thread
import ctypes
import os
import resource
import sys
import threading
from ctypes import byref, c_int, c_size_t, c_ulong, c_void_p
from typing import Any, Callable, TypeVar

Answer = TypeVar("Answer")

NEEDED = 1280 * 1024
OWN_STACK = 4 * 1024 * 1024

# on x86-64: the size of glibc's pthread_attr_t and ucontext_t, rounded up, and where the latter holds the stack pointer
_ATTRIBUTES_SIZE = 64
_CONTEXT_SIZE = 1024
_STACK_POINTER_AT = 160

_SIGNATURES: dict[str, tuple[Any, ...]] = {
    "pthread_self": (c_ulong,),
    "pthread_getattr_np": (c_int, c_ulong, c_void_p),
    "pthread_attr_getstack": (c_int, c_void_p, c_void_p, c_void_p),
    "pthread_attr_destroy": (c_int, c_void_p),
    "getcontext": (c_int, c_void_p),
}

_known = threading.local()
_starting = threading.Lock()


def _c_library() -> ctypes.PyDLL | None:
    if sys.platform != "linux" or os.uname().machine != "x86_64" or ctypes.sizeof(c_void_p) != 8:
        return None
    library = ctypes.PyDLL(None)
    for name, (answer, *given) in _SIGNATURES.items():
        if not hasattr(library, name):
            return None
        function = getattr(library, name)
        function.restype, function.argtypes = answer, given
    return library


_C = _c_library()


def _bounds(c: ctypes.PyDLL) -> tuple[int, int]:
    """The lowest address of this thread's stack and the one past its highest; (0, 0) where they can't be had."""
    attributes = ctypes.create_string_buffer(_ATTRIBUTES_SIZE)
    lowest, size = c_void_p(), c_size_t()
    if c.pthread_getattr_np(c.pthread_self(), attributes) != 0:
        return (0, 0)
    failed = c.pthread_attr_getstack(attributes, byref(lowest), byref(size))
    c.pthread_attr_destroy(attributes)
    return (0, 0) if failed else (lowest.value or 0, (lowest.value or 0) + size.value)


def room() -> int:
    """Bytes left on this thread's stack; 0 where that can't be known.

    The bounds are asked for once for each thread, and again when the limit of the main thread's stack was changed.
    """
    if _C is None:
        return 0
    limit = resource.getrlimit(resource.RLIMIT_STACK)[0]
    if getattr(_known, "limit", None) != limit:
        _known.bounds, _known.limit = _bounds(_C), limit
    lowest, highest = _known.bounds
    context = ctypes.create_string_buffer(_CONTEXT_SIZE)
    if _C.getcontext(context) != 0:
        return 0
    pointer = c_size_t.from_buffer(context, _STACK_POINTER_AT).value
    return pointer - lowest if lowest <= pointer < highest else 0


def run(function: Callable[..., Answer], *arguments: Any) -> Answer:
    """The function's answer, or the exception that it raised, from a stack that is large enough."""
    return function(*arguments) if room() >= NEEDED else on_own_thread(function, *arguments)


def on_own_thread(function: Callable[..., Answer], *arguments: Any) -> Answer:
    """The same, from a new thread. What a signal's handler raises meanwhile is raised when the call has ended."""
    outcome: list[tuple[Any, BaseException | None]] = []
    ended = _thread.allocate_lock()
    ended.acquire()

    def work() -> None:
        try:
            outcome.append((function(*arguments), None))
        except BaseException as error:
            outcome.append((None, error))
        finally:
            ended.release()

    _start(work)
    raised: BaseException | None = None
    while not outcome:
        try:
            ended.acquire()
        except BaseException as error:
            raised = error
    answer, failure = outcome[0]
    if raised is not None:
        raise raised
    if failure is not None:
        raise failure
    return answer


def _start(work: Callable[[], None]) -> None:
    """Starts a thread with a large stack. That size is the whole process's, so it is set for this moment alone."""
    with _starting:
        before = threading.stack_size(OWN_STACK)
        try:
            _thread.start_new_thread(work, ())
        finally:
            threading.stack_size(before)
