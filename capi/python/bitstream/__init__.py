"""Streams in the LLVM bitstream container, by the C library libbitstream.so.

`check`, `normal`, `show`, `report`, `pieces`, `same`, `first_difference`, `magic` and `events` take an input: bytes, or any other
object with a contiguous buffer, such as an mmap. It is not copied, so it may not change during a call, and while `events` or
`pieces` runs. A refused input raises `Refused`, which has the reason and the bit. `assemble` takes a listing. `Input` is an input
that comes in pieces, and `Writer` makes the normal form of a tree item by item.

    if bitstream.check(data):  # True, or Refused is raised
        key = "%d-%s" % (bitstream.FORM_VERSION, hashlib.sha256(bitstream.normal(data)).hexdigest())

    try:
        bitstream.check(data)
    except bitstream.Refused as refused:
        print(refused.reason, refused.bit)

An argument of a wrong type raises TypeError, and a number that is out of range ValueError; each names the argument.

Threads: the functions disturb no other call. An `Input`, `Writer`, `Events` or `Pieces` does one call at a time; those of other
threads wait until it ends. So each event and each piece of a text goes to one thread, and a piece that is fed stays whole. A call
that begins inside another one on the same object, as a signal handler's may, raises Error. Limits that are changed during a call
do not change that call.

Processes: errors, limits, events and differences can be pickled and copied, so they pass between processes. An `Input`, `Writer`,
`Events` or `Pieces` can't: TypeError. A forked process can use those that it inherits, but those that a thread of its parent was in
a call on are closed.

Memory: `events` takes 16 bytes for each value of a record while it reads them, and Python's numbers above 256 take 32 more. In an
input of 24 bytes a record can have as many values as the limit permits, 2 GiB under the usual limits. For inputs that are not
trusted, permit fewer: `Limits(values=1000000)`. If memory is short, MemoryError is raised.

The library is the one that the variable BITSTREAM_LIBRARY names, by its file or its folder; else the one in this module's folder;
else the one below the prefix that this module is installed in; else the one that the system's loader finds."""
from __future__ import annotations

import copyreg
import ctypes
import operator
import os
import threading
import weakref
from ctypes import Structure, byref, c_bool, c_size_t, c_uint8, c_uint32, c_uint64
from typing import (TYPE_CHECKING, Any, Callable, Dict, Iterable, Iterator, List, NamedTuple, NoReturn, Optional, SupportsIndex, Tuple,
                    Type, TypeVar)

from . import _library
from ._library import FORM_VERSION, VERSION, View, calls

if TYPE_CHECKING:
    from _typeshed import ReadableBuffer

__all__ = ["BadValue", "Difference", "Error", "Event", "Events", "FORM_VERSION", "Input", "LeftOut", "Limits", "Pieces", "Refused",
           "RefusedLine", "Standing", "Unfit", "VERSION", "Writer", "assemble", "check", "events", "first_difference", "magic",
           "normal", "pieces", "report", "same", "show"]
__version__ = "1"

_TEXTS = {_library.TOO_LONG: "normal form longer than the limit", _library.LIMITS: "limits: a limit is past its cap",
          _library.CLOSED: "the handle is closed", _library.NAMES: "left_out: a name of records of BLOCKINFO blocks",
          _library.UNFIT: "this item does not fit here"}
_DEPTH = 255
_OPERANDS = ("literal", "fixed", "vbr", "array", "char6", "blob")
_T = TypeVar("_T")


def _wrong(name: str, wanted: str, given: object) -> TypeError:
    return TypeError("%s must be %s, not %s" % (name, wanted, type(given).__name__))


def _of(kind: Type[_T], name: str, given: object) -> _T:
    """Returns this argument if it is of a type."""
    if not isinstance(given, kind):
        raise _wrong(name, "a " + kind.__name__, given)
    return given


def _number(name: str, given: object, bits: int, least: int = 0, error: Type[ValueError] = ValueError) -> int:
    """Returns this number if it fits `bits` bits; ctypes would cut it."""
    try:
        number = given if type(given) is int else operator.index(None if isinstance(given, bool) else given)  # type: ignore[arg-type]
    except TypeError:
        raise _wrong(name, "an integer", given) from None
    if not least <= number < 1 << bits:
        raise error("%s must be from %d to %d" % (name, least, (1 << bits) - 1))
    return number


def _each_of(name: str, given: Iterable[_T]) -> Iterator[_T]:
    try:
        return iter(given)
    except TypeError:
        raise _wrong(name, "iterable", given) from None


class Limits(Structure):
    """The limits on an input; without arguments, the usual limits. The call that gets a limit past its cap raises BadValue."""
    _fields_ = [("bytes", c_uint64), ("depth", c_uint32), ("values", c_uint64), ("shapes_at_use", c_bool)]
    bytes: int
    depth: int
    values: int
    shapes_at_use: bool

    if TYPE_CHECKING:
        def __init__(self, *, bytes: int = ..., depth: int = ..., values: int = ..., shapes_at_use: bool = ...) -> None: ...
    else:
        def __init__(self, **given):
            super().__init__()
            calls.bs_usual_limits(byref(self))
            for name, value in given.items():
                if name not in _LIMIT_BITS:
                    raise TypeError("there is no limit %s" % name)
                setattr(self, name, value)

    def __setattr__(self, name: str, value: Any) -> None:
        if name not in _LIMIT_BITS:
            raise AttributeError("there is no limit %s" % name)
        bits = _LIMIT_BITS[name]
        super().__setattr__(name, _number(name, value, bits) if bits > 1 else _of(bool, name, value))

    def _all(self) -> Dict[str, int]:
        return {name: getattr(self, name) for name in _LIMIT_BITS}

    def __eq__(self, other: object) -> bool:
        if not isinstance(other, Limits):
            return NotImplemented
        return self._all() == other._all()

    # They can be changed.
    __hash__ = None  # type: ignore[assignment]

    def __repr__(self) -> str:
        return "Limits(%s)" % ", ".join("%s=%r" % it for it in self._all().items())

    def _past_caps(self) -> str:
        """Which limits are past their caps, for the text of an error."""
        given = self._all()
        return ", ".join("%s is %d, and at most %d" % (name, given[name], cap) for name, cap in _CAPS.items() if given[name] > cap)


_LIMIT_BITS = {"bytes": 64, "depth": 32, "values": 64, "shapes_at_use": 1}
_CAPS = {"bytes": 17179869180, "depth": _DEPTH, "values": 4294967295}


class Error(Exception):
    """A call failed for another cause than its input."""

    def __reduce__(self) -> Tuple[Any, ...]:
        # Copied without __init__, whose arguments are not those of the exception.
        return copyreg.__newobj__, (type(self), *self.args), self.__dict__  # type: ignore[attr-defined]


class BadValue(Error, ValueError):
    """The library does not take an argument: a limit past its cap, or a name of records of BLOCKINFO blocks."""


class Refused(Error):
    """A refused input: the name of the reason, the bit, and 0 for the only or the first input, 1 for the second. Of two inputs the
    text says which."""

    def __init__(self, reason: str, bit: int, input: int, of_two: bool = False) -> None:
        super().__init__("%s%s at bit %d" % (("first: ", "second: ")[input] if of_two else "", reason, bit))
        self.reason, self.bit, self.input = reason, bit, input


class RefusedLine(Error):
    """A refused listing: the name of the reason, and the number of the line, counted from 1."""

    def __init__(self, reason: str, line: int) -> None:
        super().__init__("%s at line %d" % (reason, line))
        self.reason, self.line = reason, line


class Unfit(Error, ValueError):
    """A call of a writer does not fit: no tree within the limits has that item there. The text says which rule is broken."""


class _Names(NamedTuple):
    info: bool
    blocks: Tuple[int, ...]
    records: Tuple[Tuple[int, int], ...]


class LeftOut(_Names):
    """What is left out: the BLOCKINFO blocks, blocks by their ids, records by the id of their block and their code. The
    blocks and the records may come from any iterable, which is read once, here."""
    __slots__ = ()

    def __new__(cls, info: bool = False, blocks: Iterable[SupportsIndex] = (),
                records: Iterable[Tuple[SupportsIndex, SupportsIndex]] = ()) -> LeftOut:
        return super().__new__(cls, _of(bool, "info", info), tuple(_number("blocks", it, 32) for it in _each_of("blocks", blocks)),
                               tuple(map(_record_name, _each_of("records", records))))

    @classmethod
    def _make(cls, fields: Iterable[Any]) -> LeftOut:  # type: ignore[override]
        return cls(*fields)


def _record_name(given: Iterable[object]) -> Tuple[int, int]:
    try:
        block, code = given
    except (TypeError, ValueError):
        raise TypeError("records must have pairs of the id of a block and a code") from None
    return _number("records: the id of a block", block, 32), _number("records: a code", code, 64)


class Event(NamedTuple):
    """An event: "block" with the block's id, "define" with its operands, "record" with its abbreviation id, code and values, or
    "end"; and the bit at which it begins, 0 for an end, and the bit after it. Fields that its kind does not have are 0 or empty. An
    operand is ("literal", value), ("fixed", width), ("vbr", width), ("array", 0), ("char6", 0) or ("blob", 0)."""
    kind: str
    first: int
    after: int
    id: int = 0
    width: int = 0
    code: int = 0
    values: Tuple[int, ...] = ()
    operands: Tuple[Tuple[str, int], ...] = ()


class Standing(NamedTuple):
    """The item at a place of an input, and its first bit: "magic", "block" with its id, "record" with its code and number of
    values, or "end"."""
    kind: str
    bit: int
    magic: bytes
    id: int
    code: int
    count: int  # type: ignore[assignment]


class Difference(NamedTuple):
    """Where two inputs first differ: the open blocks, each with its id and the number of items before it, the outermost first; the
    number of items before the place in the innermost; the item there in each input; and for two records with the same code the
    index of the first values that differ and these two, or None."""
    blocks: List[Tuple[int, int]]
    items: int
    first: Standing
    second: Standing
    values: Optional[Tuple[int, int, int]]


def _ask(name: str, *arguments: Any) -> int:
    """Returns the status of a call if it is no error."""
    fault = _library.Fault()
    status: int = getattr(calls, name)(*arguments, byref(fault))
    if status == _library.REFUSED:
        raise _refused(name, fault)
    if status == _library.MEMORY:
        raise MemoryError
    if status in _TEXTS:
        raise _error(status, arguments)
    return status


def _refused(name: str, fault: _library.Fault) -> Error:
    reason = _library.Bytes()
    calls.bs_reason_name(c_uint32(fault.reason), byref(reason))
    told = ctypes.string_at(reason.at, reason.len).decode()
    if fault.reason > 100:
        return RefusedLine(told, fault.bit)
    return Refused(told, fault.bit, fault.input, name.endswith(("same", "difference")))


def _error(status: int, arguments: Iterable[object]) -> Error:
    text = _TEXTS[status]
    if status == _library.LIMITS:
        # What `byref` returns has the structure as `_obj`.
        passed = (getattr(it, "_obj", None) for it in arguments)
        return BadValue(": ".join([text, *(it._past_caps() for it in passed if isinstance(it, Limits))]))
    return {_library.NAMES: BadValue, _library.UNFIT: Unfit}.get(status, Error)(text)


_USUAL, _WHOLE = Limits(), _library.LeftOut()


def _kept(given: Optional[Limits]) -> Limits:
    """A copy of limits, which another thread may change."""
    return _USUAL if given is None else Limits.from_buffer_copy(_of(Limits, "limits", given))


def _limits(given: Optional[Limits]) -> Any:
    return byref(_kept(given))


def _left_out(given: LeftOut) -> Any:
    info, blocks, records = _of(LeftOut, "left_out", given)
    if not any(given):
        return byref(_WHOLE)
    names = [_library.RecordName(*it) for it in records]
    return byref(_library.LeftOut(info, (c_uint32 * len(blocks))(*blocks), len(blocks), (_library.RecordName * len(names))(*names),
                                  len(names)))


def _length(handle: Any) -> c_size_t:
    """The bytes of the text that a handle holds."""
    needed = c_size_t()
    _ask("bs_text", handle, None, c_size_t(0), byref(needed))
    return needed


def _copied(handle: Any) -> bytes:
    """The text that a handle holds."""
    needed = _length(handle)
    room = (c_uint8 * needed.value)()
    _ask("bs_text", handle, room, needed, byref(needed))
    return bytes(room)


def _text(name: str, data: ReadableBuffer, limits: Optional[Limits], *left_out: Any) -> bytes:
    """A text that the library makes once and holds until it is copied."""
    handle = byref(_library.Handle())
    try:
        with View("data", data) as given:
            _ask(name, *given, _limits(limits), *left_out, handle)
        return _copied(handle)
    finally:
        calls.bs_close(handle)


def check(data: ReadableBuffer, limits: Optional[Limits] = None) -> bool:
    """Returns True if an input is accepted, and raises Refused if not."""
    with View("data", data) as given:
        return _ask("bs_check", *given, _limits(limits)) == _library.DONE


def normal(data: ReadableBuffer, left_out: LeftOut = LeftOut(), limits: Optional[Limits] = None) -> bytes:
    """The normal form of an input, as bytes."""
    return _text("bs_hold_normal", data, limits, _left_out(left_out))


def show(data: ReadableBuffer, left_out: LeftOut = LeftOut(), limits: Optional[Limits] = None) -> str:
    """The listing of an input, as `bitstool show` prints it."""
    return _text("bs_hold_show", data, limits, _left_out(left_out)).decode()


def report(data: ReadableBuffer, limits: Optional[Limits] = None) -> str:
    """The report of an input, as `bitstool analyse` prints it."""
    return _text("bs_hold_report", data, limits).decode()


def assemble(text: str, limits: Optional[Limits] = None) -> bytes:
    """The normal form of the tree that a listing spells, as bytes. A refused listing raises RefusedLine."""
    # A lone surrogate is no UTF-8, and no listing either: its line is refused.
    encoded, limits = _of(str, "text", text).encode(errors="surrogatepass"), _limits(limits)
    room, needed = (c_uint8 * (2 * len(encoded)))(), c_size_t()
    with View("text", encoded) as given:
        while _ask("bs_assemble", *given, limits, room, c_size_t(len(room)), byref(needed)) == _library.ROOM:
            room = (c_uint8 * needed.value)()
    return bytes(memoryview(room)[: needed.value])


def same(first: ReadableBuffer, second: ReadableBuffer, left_out: LeftOut = LeftOut(), limits: Optional[Limits] = None) -> bool:
    """Whether two inputs have the same magic, blocks and records."""
    with View("first", first) as one, View("second", second) as two:
        return _ask("bs_same", *one, *two, _limits(limits), _left_out(left_out)) == _library.DONE


def _standing(it: _library.Standing) -> Standing:
    kind = ("", "magic", "block", "record", "end")[it.kind]
    return Standing(kind, it.bit, bytes(it.magic), it.id, it.code, it.count)


def first_difference(first: ReadableBuffer, second: ReadableBuffer, left_out: LeftOut = LeftOut(),
                     limits: Optional[Limits] = None) -> Optional[Difference]:
    """Returns where two inputs first differ, or None."""
    with View("first", first) as one, View("second", second) as two:
        return _first_difference("bs_first_difference", *one, *two, _limits(limits), _left_out(left_out))


def _first_difference(name: str, *given: Any) -> Optional[Difference]:
    difference, room = _library.Difference(), (_library.OpenBlock * _DEPTH)()
    if _ask(name, *given, byref(difference), room, c_size_t(_DEPTH)) == _library.DONE:
        return None
    values = difference.values
    return Difference([(it.id, it.items) for it in room[: difference.depth]], difference.items, _standing(difference.first),
                      _standing(difference.second), (values.index, values.first, values.second) if values.differ else None)


def magic(data: ReadableBuffer, limits: Optional[Limits] = None) -> bytes:
    """The magic of the stream of an input. Only the magic and a wrapper are judged."""
    handle, found = byref(_library.Handle()), _library.Magic()
    with View("data", data) as given:
        try:
            _ask("bs_open", *given, _limits(limits), handle)
            _ask("bs_magic", handle, byref(found))
            return bytes(found.bytes)
        finally:
            calls.bs_close(handle)


class _Held:
    """A handle of the library, for one call at a time: while a call runs, the handle is empty."""

    def __init__(self) -> None:
        self._lock, self._handle, self._open = threading.RLock(), byref(_library.Handle()), True
        self._bs_close = calls.bs_close
        _all_held.add(self)

    def alone(self, call: Callable[..., _T], *given: Any) -> _T:
        """The result of a call. Those of other threads wait. One inside another, of the same thread, would see an empty handle."""
        if self._lock._is_owned():  # type: ignore[attr-defined]
            raise Error("the object is in another call of this thread")
        with self._lock:
            return call(*given)

    def ask(self, name: str, *arguments: Any) -> int:
        """One call on the handle."""
        return self.alone(self._ask, name, *arguments)

    # The others are for a caller that is alone: `forked` and `__del__` always are.

    def _ask(self, name: str, *arguments: Any) -> int:
        return _ask(name, self.opened(), *arguments)

    def opened(self) -> Any:
        """The argument of a call for the handle."""
        if not self._open:
            raise Error(_TEXTS[_library.CLOSED])
        return self._handle

    def taken(self) -> bytes:
        """The text that the handle holds. The handle is closed."""
        text = _copied(self._handle)
        self.free()
        return text

    def free(self) -> None:
        """Closes the handle."""
        if self._open:
            self._open = False
            self._bs_close(self._handle)

    def forked(self) -> None:
        """Closes the handle in a forked process if a thread that stayed in the parent was in a call on it."""
        if self._lock.acquire(blocking=False):
            self._lock.release()
        else:
            self._lock, self._handle, self._open = threading.RLock(), byref(_library.Handle()), False

    __del__ = free


_all_held: weakref.WeakSet[_Held] = weakref.WeakSet()


def _after_fork() -> None:
    for held in list(_all_held):
        held.forked()


os.register_at_fork(after_in_child=_after_fork)


class _Owner:
    """What owns a handle until it is closed."""
    _held: _Held

    def close(self) -> None:
        """Frees what is held. Each later call raises Error."""
        self._held.alone(self._held.free)

    def __enter__(self: _T) -> _T:
        return self

    def __exit__(self, *_: object) -> None:
        self._held.alone(self._held.free)

    def __reduce__(self) -> NoReturn:
        raise TypeError("%s can't be copied or pickled, since it owns what the library holds" % type(self).__name__)


class _Iterator(_Owner, Iterator[_T]):
    """Gives items until none remains. Then, and after an exception, it is closed, and gives nothing."""

    def __init__(self, held: _Held, view: Optional[View]) -> None:
        self._held, self._view, self._over = held, view, False

    def __next__(self) -> _T:
        item = self._held.alone(self._next)
        if item is None:
            raise StopIteration
        return item

    def _next(self) -> Optional[_T]:
        item = None
        try:
            item = None if self._over else self._step()
        finally:
            if item is None:
                self._end()
        return item

    def _step(self) -> Optional[_T]:
        raise NotImplementedError

    def _end(self) -> None:
        self._over = True
        self._held.free()
        if self._view is not None:
            self._view.__exit__()

    def close(self) -> None:
        """Frees what is held. No item follows."""
        self._held.alone(self._end)

    def __exit__(self, *_: object) -> None:
        self.close()


class Pieces(_Iterator[bytes]):
    """The bytes of a text in pieces, as `pieces` returns them."""

    def __init__(self, name: str, view: View, size: int, *arguments: Any) -> None:
        super().__init__(_Held(), view)
        self._name, self._size, self._arguments = name, size, arguments
        self._room = (c_uint8 * 0)()

    def _begin(self, view: View) -> None:
        """Makes the text. The input is released."""
        handle, self._view = self._held.opened(), None
        with view as given:
            _ask(self._name, *given, *self._arguments, handle)
        self._room = (c_uint8 * min(self._size, _length(handle).value))()

    def _step(self) -> Optional[bytes]:
        if self._view is not None:
            self._begin(self._view)
        taken = c_size_t()
        _ask("bs_take", self._held.opened(), self._room, c_size_t(len(self._room)), byref(taken))
        return ctypes.string_at(self._room, taken.value) or None


class Events(_Iterator[Event]):
    """The events of an input, as `events` and `Input.events` return them."""

    def __init__(self, held: _Held, view: Optional[View] = None, limits: Any = None) -> None:
        super().__init__(held, view)
        self._limits, self._event = limits, _library.Event()

    def _step(self) -> Optional[Event]:
        handle, event = self._held.opened(), self._event
        if self._view is not None and self._limits is not None:
            _ask("bs_open", *self._view.__enter__(), self._limits, handle)
            self._limits = None
        _ask("bs_next", handle, byref(event))
        if not event.kind:
            return None
        kind = ("", "block", "define", "record", "end")[event.kind]
        values = _values(handle, event.count) if kind == "record" else ()
        operands = _operands(handle) if kind == "define" else ()
        return Event(kind, event.first, event.after, event.id, event.width, event.code, values, operands)


def _values(handle: Any, count: int) -> Tuple[int, ...]:
    if not count:
        return ()
    room, needed = (c_uint64 * count)(), c_size_t()
    _ask("bs_values", handle, room, c_size_t(count), byref(needed))
    # By a view, since the items of ctypes take longer.
    return tuple(memoryview(room).cast("B").cast("Q"))


def _operands(handle: Any) -> Tuple[Tuple[str, int], ...]:
    needed, none = c_size_t(), (_library.Operand * 0)()
    if _ask("bs_operands", handle, none, c_size_t(0), byref(needed)) == _library.DONE:
        return ()
    room = (_library.Operand * needed.value)()
    _ask("bs_operands", handle, room, needed, byref(needed))
    return tuple((_OPERANDS[it.kind], it.value) for it in room)


def events(data: ReadableBuffer, limits: Optional[Limits] = None) -> Events:
    """Gives the events of an input. If the input is refused, it gives those before the fault, and then raises Refused. The input
    exports its buffer until the last event was given, or the events are closed or deleted."""
    return Events(_Held(), View("data", data), _limits(limits))


def pieces(text: str, data: ReadableBuffer, size: int = 65536, left_out: LeftOut = LeftOut(), limits: Optional[Limits] = None) -> Pieces:
    """Gives the bytes of a text of an input, "normal", "show" or "report", in pieces of `size` bytes, the last one shorter. A report
    leaves out nothing."""
    if _of(str, "text", text) not in ("normal", "show", "report"):
        raise ValueError('text must be "normal", "show" or "report"')
    names = [_left_out(left_out)]
    if text == "report":
        if left_out != LeftOut():
            raise ValueError("left_out must be empty for a report")
        names = []
    return Pieces("bs_hold_" + text, View("data", data), _number("size", size, 64, least=1), _limits(limits), *names)


class Input(_Owner):
    """An input that comes in pieces, which are kept until it is closed. A refused input stays."""

    def __init__(self) -> None:
        self._held = _Held()
        self.feed(b"")

    def feed(self, piece: ReadableBuffer) -> None:
        """Adds a piece."""
        with View("piece", piece) as given:
            self._held.ask("bs_feed", *given)

    def check(self, limits: Optional[Limits] = None) -> bool:
        """Returns True if the input is accepted, and raises Refused if not."""
        return self._held.ask("bs_fed_check", _limits(limits)) == _library.DONE

    def same(self, other: Input, left_out: LeftOut = LeftOut(), limits: Optional[Limits] = None) -> bool:
        """Whether this input and another one in pieces have the same magic, blocks and records. Both stay."""
        return self._with(other, _ask, "bs_fed_same", _limits(limits), _left_out(left_out)) == _library.DONE

    def first_difference(self, other: Input, left_out: LeftOut = LeftOut(), limits: Optional[Limits] = None) -> Optional[Difference]:
        """Returns where this input and another one in pieces first differ, or None. Both stay."""
        return self._with(other, _first_difference, "bs_fed_first_difference", _limits(limits), _left_out(left_out))

    def normal(self, left_out: LeftOut = LeftOut(), limits: Optional[Limits] = None) -> bytes:
        """The normal form, as bytes. The input is closed."""
        return self._held.alone(self._text, "bs_fed_normal", _limits(limits), _left_out(left_out))

    def show(self, left_out: LeftOut = LeftOut(), limits: Optional[Limits] = None) -> str:
        """The listing. The input is closed."""
        return self._held.alone(self._text, "bs_fed_show", _limits(limits), _left_out(left_out)).decode()

    def report(self, limits: Optional[Limits] = None) -> str:
        """The report. The input is closed."""
        return self._held.alone(self._text, "bs_fed_report", _limits(limits)).decode()

    def events(self, limits: Optional[Limits] = None) -> Events:
        """Gives the events, and then closes the input. If it is refused, it gives those before the fault, and then raises Refused. If
        its magic is refused, this call raises Refused, and the input stays."""
        self._held.ask("bs_fed_events", _limits(limits))
        return Events(self._held)

    def magic(self) -> bytes:
        """The magic of the stream, while its events are read."""
        found = _library.Magic()
        self._held.ask("bs_magic", byref(found))
        return bytes(found.bytes)

    def _text(self, name: str, *arguments: Any) -> bytes:
        _ask(name, self._held.opened(), *arguments)
        return self._held.taken()

    def _with(self, other: Input, call: Callable[..., _T], name: str, *arguments: Any) -> _T:
        """A call on two inputs. The library takes no handle twice. All calls on two take the locks in one order."""
        if _of(Input, "other", other) is self:
            raise ValueError("other must be another input")
        first, second = self._held, other._held
        low, high = sorted((first, second), key=id)
        return low.alone(lambda: high.alone(lambda: call(name, first.opened(), second.opened(), *arguments)))


class Writer(_Owner):
    """Writes the normal form of a tree item by item. An item that no tree within the limits has there, also one with a number of more
    than 32 or 64 bits, raises Unfit and changes nothing, as does a wrong type; another error closes the writer."""

    def __init__(self, magic: ReadableBuffer = b"BC\xc0\xde", limits: Optional[Limits] = None) -> None:
        self._held, self._limits = _Held(), _kept(limits)
        # The ids of the open blocks; and whether the innermost has a record, if it is a BLOCKINFO block.
        self._blocks: List[int] = []
        self._has_record = False
        with View("magic", magic) as (given, length):
            if length.value != 4:
                raise ValueError("magic must have four bytes")
            self._held.alone(self._open, given)

    def enter(self, id: SupportsIndex) -> None:
        """A block with this id begins."""
        self._held.alone(self._enter, _number("id", id, 32, error=Unfit))

    def record(self, code: SupportsIndex, values: Iterable[SupportsIndex] = ()) -> None:
        """A record of the innermost open block."""
        number = _number("code", code, 64, error=Unfit)
        self._held.alone(self._record, number, [_number("values", it, 64, error=Unfit) for it in _each_of("values", values)])

    def leave(self) -> None:
        """The innermost open block ends."""
        self._held.alone(self._leave)

    def finish(self) -> bytes:
        """The normal form of the tree, as bytes. The writer is closed."""
        return self._held.alone(self._finish)

    # The calls, for a caller that is alone, each with the rule that it breaks if it does not fit.

    def _open(self, magic: Any) -> None:
        self._write(lambda: "DE C0 17 0B is the magic of a wrapper", "bs_write_open", magic, byref(self._limits), self._held.opened())

    def _enter(self, id: int) -> None:
        self._write(self._block_rule, "bs_write_enter", self._held.opened(), c_uint32(id))
        self._blocks.append(id)
        self._has_record = False

    def _record(self, code: int, values: List[int]) -> None:
        self._write(lambda: self._record_rule(code, values), "bs_write_record", self._held.opened(), c_uint64(code),
                    (c_uint64 * len(values))(*values), c_size_t(len(values)))
        self._has_record = True

    def _leave(self) -> None:
        self._write(lambda: "no block is open", "bs_write_leave", self._held.opened())
        self._blocks.pop()

    def _finish(self) -> bytes:
        self._write(lambda: "a block is open", "bs_write_finish", self._held.opened())
        return self._held.taken()

    def _write(self, rule: Callable[[], str], name: str, *arguments: Any) -> None:
        try:
            _ask(name, *arguments)
        except Unfit as error:
            raise Unfit("%s: %s" % (error, rule())) from None

    def _block_rule(self) -> str:
        return "a BLOCKINFO block has no blocks" if self._blocks[-1:] == [0] else "the limit on depth is %d" % self._limits.depth

    def _record_rule(self, code: int, values: List[int]) -> str:
        if not self._blocks:
            return "no block is open"
        if self._blocks[-1] == 0 and code == 1 and not (values and values[0] < 1 << 32):
            return "a record with code 1 in a BLOCKINFO block begins with the id of a block"
        if self._blocks[-1] == 0 and code != 1 and not self._has_record:
            return "the first record of a BLOCKINFO block has code 1"
        return "the limit on values is %d" % self._limits.values
