"""A map of small values that threads share, and whose keys are never used again: libshardheap from Python.

    import shardheap

    with shardheap.Table(values=1000, words=2) as table:
        key = table.insert([7, 8])
        assert table[key] == (7, 8)
        del table[key]
        assert key not in table  # from now on, for ever

A value is 0 to 16 numbers from 0 to 2**64 - 1. A `Table` grows, and any thread uses it. A `Heap` has the calls of
shardheap.h one by one, whose head says what passes, shards and holds are. A refused call raises `Refused`.

The library is libshardheap.so.0, or the file that the variable SHARDHEAP_SO names. Calls keep the lock of the
interpreter. So two threads of Python never use one handle at once; and no call waits. An interpreter without that lock
does not import the module.
"""
from __future__ import annotations

import array
import ctypes
import enum
import os
import sys
import threading
from collections.abc import Iterable
from types import TracebackType
from typing import Any, NoReturn

__all__ = ["Code", "Guard", "Heap", "Layout", "Pass", "Refused", "Table"]

WORDS_MAX = 16


class Code(enum.IntEnum):
    """What calls return. shardheap.h says what each means."""

    OK = 0
    BAD_KEY = 1
    GONE = 2
    CROWDED = 3
    HOLDS_FULL = 4
    NOT_HELD = 5
    TOO_LONG = 6
    FULL = 7
    MEMORY = 8
    TAKEN = 9
    NO_SHARD = 10
    WAITING = 11
    BAD_SHAPE = 12
    EMPTY = 14
    OCCUPIED = 15
    NO_PASS = 16
    SHORT = 17
    NULL = 18
    BAD_LAYOUT = 19
    OWNS = 20
    AWAY = 21
    NO_PAGE = 22
    OVERLAP = 23
    NO_HANDLE = 24
    MOVED = 25
    BUSY = 26
    OTHER_HEAP = 27
    NO_KEY = 28
    NO_PLACE = 29


class Layout(enum.IntEnum):
    """How many shards and pages a heap may have: see shardheap.h."""

    WIDE = 0
    TAGGED = 1
    DEEP = 2
    TINY = 3
    GROWING = 4


class Refused(Exception):
    """A call did nothing, because of `code`."""

    def __init__(self, code: int) -> None:
        super().__init__(Code(code).name)
        self.code = Code(code)


class _Handle(ctypes.Structure):
    """32 bytes that the library writes. Zeroed ones are an empty handle."""

    _fields_ = [("words", ctypes.c_uint64 * 4)]


_u32, _u64, _size = ctypes.c_uint32, ctypes.c_uint64, ctypes.c_size_t
_handle, _out = ctypes.POINTER(_Handle), ctypes.POINTER(ctypes.c_uint64)
# The calls, by what they return and take.
_CALLS: dict[str, tuple[Any, list[Any]]] = {
    "open": (_u32, [_handle, _u32, _u32, _u32, _u32]),
    "open_for": (_u32, [_handle, _u32, _u32, _u64, _u32, _u32]),
    "open_growing": (_u32, [_handle, _u32, _u64, _u32, _u32, _u32]),
    "chunks": (_u64, [_handle]),
    "passes": (_u64, [_handle]),
    "capacity": (_u64, [_handle, _u32]),
    "bytes": (_u64, [_handle]),
    "layout_of": (_u32, [_handle, ctypes.POINTER(_u32)]),
    "take": (_u32, [_handle, _handle]),
    "close": (None, [_handle]),
    "adopt": (_u32, [_handle, _u64]),
    "leave": (_u32, [_handle]),
    "leave_idle": (_u32, [_handle]),
    "give": (_u32, [_handle]),
    "insert": (_u32, [_handle, _out, _size, _out]),
    "get": (_u32, [_handle, _u64]),
    "read": (_u32, [_handle, _u64, _out, _size, _out]),
    "release": (_u32, [_handle, _u64]),
    "load": (_u32, [_handle, _u64, _out, _size, _out]),
    "take_value": (_u32, [_handle, _u64, _out, _size, _out]),
    "remove": (_u32, [_handle, _u64]),
}


def _library() -> ctypes.PyDLL:
    if not getattr(sys, "_is_gil_enabled", lambda: True)():
        raise ImportError("shardheap needs the lock of the interpreter")
    library = ctypes.PyDLL(os.environ.get("SHARDHEAP_SO", "libshardheap.so.0"))
    for name, (result, parameters) in _CALLS.items():
        call = getattr(library, f"shardheap_{name}")
        call.restype, call.argtypes = result, parameters
    return library


_lib = _library()


def _check(code: int) -> None:
    if code != Code.OK:
        raise Refused(code)


def _number(value: int, bits: int) -> int:
    """A number for the library. ctypes would cut off what is too large."""
    if not 0 <= value < 1 << bits:
        raise OverflowError(f"{value} is not a number from 0 to 2**{bits} - 1")
    return value


class _Owner:
    """An object that owns a handle: it is not copied, and `with` closes it."""

    def __init__(self) -> None:
        self._handle = _Handle()

    def __reduce_ex__(self, protocol: Any) -> NoReturn:
        raise TypeError(f"a {type(self).__name__} cannot be copied or pickled")

    def close(self) -> None:
        """Empties the handle. It may be closed twice."""
        raise NotImplementedError

    def __enter__(self) -> Any:
        return self

    def __exit__(self, kind: type[BaseException] | None, fault: BaseException | None,
                 trace: TracebackType | None) -> None:
        self.close()


class Heap(_Owner):
    """A heap, which lends passes. It goes with the last of its passes, and once it is closed.

        with Heap.open_for(Layout.WIDE, owners=1, values=20000, words=2, passes=8) as heap, heap.take() as owner:
            owner.adopt(0)
            key = owner.insert([7, 8])
    """

    @classmethod
    def open(cls, layout: Layout, shards: int, segments: int, passes: int) -> Heap:
        """Opens a heap of so many shards, each of so many segments of 8 pages. BAD_SHAPE, MEMORY."""
        return cls._opened("open", layout, *(_number(it, 32) for it in (shards, segments, passes)))

    @classmethod
    def open_for(cls, layout: Layout, owners: int, values: int, words: int, passes: int) -> Heap:
        """Opens the least heap in which each owner has room for so many values of so many words. BAD_SHAPE, MEMORY."""
        return cls._opened("open_for", layout, _number(owners, 32), _number(values, 64), _number(words, 32),
                           _number(passes, 32))

    @classmethod
    def growing(cls, owners: int, values: int, words: int, passes: int, chunks: int = 256) -> Heap:
        """Opens a heap that grows, whose first chunk has that room. Owners are the threads that insert. BAD_SHAPE,
        MEMORY."""
        return cls._opened("open_growing", _number(owners, 32), _number(values, 64), _number(words, 32),
                           _number(passes, 32), _number(chunks, 32))

    @classmethod
    def _opened(cls, call: str, *numbers: int) -> Heap:
        heap = cls()
        _check(getattr(_lib, f"shardheap_{call}")(heap._handle, *numbers))
        return heap

    @property
    def chunks(self) -> int:
        """How many chunks are open: 1 unless the heap grows, and 0 once it is closed."""
        return int(_lib.shardheap_chunks(self._handle))

    @property
    def passes(self) -> int:
        """How many passes the heap has, at home or away: 0 once it is closed."""
        return int(_lib.shardheap_passes(self._handle))

    @property
    def bytes(self) -> int:
        """How many bytes the words of the open chunks take: 0 once the heap is closed."""
        return int(_lib.shardheap_bytes(self._handle))

    @property
    def layout(self) -> Layout:
        """The layout of the heap. EMPTY."""
        number = _u32()
        _check(_lib.shardheap_layout_of(self._handle, number))
        return Layout(number.value)

    def capacity(self, words: int) -> int:
        """How many values of so many words the open chunks have slots for, if all are for that length: 0 for more than
        16 words, and once the heap is closed."""
        return int(_lib.shardheap_capacity(self._handle, _number(words, 32)))

    def take(self) -> Pass:
        """Takes a pass that is at home. NO_PASS, EMPTY, MEMORY."""
        taken = Pass()
        _check(_lib.shardheap_take(self._handle, taken._handle))
        return taken

    def close(self) -> None:
        _lib.shardheap_close(self._handle)

    def __del__(self) -> None:
        self.close()


class Pass(_Owner):
    """A pass of a heap: what a thread uses it by."""

    def adopt(self, shard: int) -> None:
        """Makes the pass the owner of a shard, so that it inserts there. TAKEN, NO_SHARD, MEMORY, EMPTY."""
        _check(_lib.shardheap_adopt(self._handle, _number(shard, 64)))

    def leave(self) -> None:
        """Leaves the shard, which another pass may adopt. NO_SHARD, WAITING, EMPTY."""
        _check(_lib.shardheap_leave(self._handle))

    def leave_idle(self) -> None:
        """The same. Of a heap that grows it leaves each shard of the pass in which no other thread is in a free."""
        _check(_lib.shardheap_leave_idle(self._handle))

    def insert(self, words: Iterable[int]) -> int:
        """Stores a value, and returns its key. NO_SHARD, TOO_LONG, FULL, MEMORY, EMPTY."""
        value = array.array("Q", words)
        key, room = _u64(), (_u64 * len(value)).from_buffer(value) if value else None
        _check(_lib.shardheap_insert(self._handle, room, len(value), key))
        return key.value

    def get(self, key: int) -> Guard:
        """Holds a value: it stays readable until the guard is released. GONE, BAD_KEY, HOLDS_FULL, CROWDED, EMPTY."""
        _check(_lib.shardheap_get(self._handle, _number(key, 64)))
        return Guard(self, key)

    def load(self, key: int) -> tuple[int, ...]:
        """A copy of the value, without a hold. GONE, BAD_KEY, EMPTY. Of a key that the pass did not insert, HOLDS_FULL
        and CROWDED may come too, if its value is not there yet."""
        return self._filled(_lib.shardheap_load, key)

    def take_value(self, key: int) -> tuple[int, ...]:
        """Removes the key, and returns its value. Of all that remove one key, one succeeds. Refused as get is."""
        return self._filled(_lib.shardheap_take_value, key)

    def remove(self, key: int) -> None:
        """Removes a key. Its value stays until its last guard is released. GONE, BAD_KEY, EMPTY."""
        _check(_lib.shardheap_remove(self._handle, _number(key, 64)))

    def close(self) -> None:
        """Leaves the shard that the pass owns, and brings it home. WAITING, if another thread is in a free there."""
        code = _lib.shardheap_give(self._handle)
        if code == Code.OWNS:
            self.leave()
            code = _lib.shardheap_give(self._handle)
        if code != Code.EMPTY:
            _check(code)

    def _filled(self, call: Any, key: int) -> tuple[int, ...]:
        room, length = (_u64 * WORDS_MAX)(), _u64()
        _check(call(self._handle, _number(key, 64), room, WORDS_MAX, length))
        return tuple(room[:length.value])

    def __del__(self) -> None:
        try:
            self.close()
        except Refused:
            pass  # another thread is in the middle of a free: the pass stays away


class Guard:
    """A hold on a value, which `with` releases.

        with owner.get(key) as guard:
            owner.remove(key)
            assert guard.read() == (7, 8)
    """

    def __init__(self, holder: Pass, key: int) -> None:
        self._pass: Pass | None = holder
        self.key = key

    def read(self) -> tuple[int, ...]:
        """The value. NOT_HELD, if the guard is released."""
        if self._pass is None:
            raise Refused(Code.NOT_HELD)
        return self._pass._filled(_lib.shardheap_read, self.key)

    def release(self) -> None:
        """Gives the hold back. It may be released twice."""
        holder, self._pass = self._pass, None
        if holder is not None:
            _check(_lib.shardheap_release(holder._handle, self.key))

    def __enter__(self) -> Guard:
        return self

    def __exit__(self, kind: type[BaseException] | None, fault: BaseException | None,
                 trace: TracebackType | None) -> None:
        self.release()


class Table:
    """A table that grows, for at most 64 threads at once. Each has a pass, which comes home when the thread ends."""

    def __init__(self, values: int = 1000, words: int = WORDS_MAX, threads: int = 64) -> None:
        self._heap = Heap.growing(owners=1, values=values, words=words, passes=threads)
        self._own = threading.local()

    def _pass(self) -> Pass:
        found = getattr(self._own, "taken", None)
        if found is None:
            found = self._own.taken = self._heap.take()
        return found

    def insert(self, words: Iterable[int]) -> int:
        """Stores a value, and returns its key. TOO_LONG, FULL, NO_SHARD, MEMORY, NO_PASS, EMPTY once the table is
        closed."""
        return self._pass().insert(words)

    def take(self, key: int) -> tuple[int, ...]:
        """Removes a key, and returns its value: of several threads one gets it, and for the others it is GONE."""
        return self._pass().take_value(key)

    def __getitem__(self, key: int) -> tuple[int, ...]:
        return self._pass().load(key)

    def __delitem__(self, key: int) -> None:
        self._pass().remove(key)

    def __contains__(self, key: int) -> bool:
        try:
            self[key]
        except Refused as fault:
            if fault.code in (Code.GONE, Code.BAD_KEY):
                return False
            raise
        return True

    def close(self) -> None:
        """Closes the table. Threads that used it go on with it until they end."""
        taken = getattr(self._own, "taken", None)
        self._own.taken = None
        if taken is not None:
            taken.close()
        self._heap.close()

    def __enter__(self) -> Table:
        return self

    def __exit__(self, kind: type[BaseException] | None, fault: BaseException | None,
                 trace: TracebackType | None) -> None:
        self.close()
