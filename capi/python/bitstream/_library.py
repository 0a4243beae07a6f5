"""The C library libbitstream.so: where it is, its structures, and the buffers that it reads."""
from __future__ import annotations

import ctypes
import os
from ctypes import POINTER, Structure, byref, c_bool, c_size_t, c_ssize_t, c_uint8, c_uint32, c_uint64, c_void_p
from typing import TYPE_CHECKING, Tuple

if TYPE_CHECKING:
    from _typeshed import ReadableBuffer

VERSION = 1
_FILE = "libbitstream.so.%d" % VERSION
DONE, DIFFERENT, REFUSED, MEMORY, TOO_LONG, LIMITS, ROOM, CLOSED, NAMES, UNFIT = range(10)


def _path() -> str:
    """The file of the library."""
    here = os.path.dirname(os.path.abspath(__file__))
    named = os.environ.get("BITSTREAM_LIBRARY")
    if named:
        path = os.path.abspath(named)
        return os.path.join(path, _FILE) if os.path.isdir(path) else path
    known = (os.path.join(folder, _FILE) for folder in (here, os.path.join(here, "..", "..", "..")))
    return next((os.path.abspath(path) for path in known if os.path.exists(path)), _FILE)


def _loaded() -> Tuple[ctypes.CDLL, int]:
    """The library's calls, and the version of the normal form that they write."""
    path = _path()
    try:
        found = ctypes.CDLL(path)
        version, form_version = found.bs_version(), found.bs_form_version()
    except (OSError, AttributeError) as error:
        raise ImportError("%s is not the library, which BITSTREAM_LIBRARY can name: %s" % (path, error)) from error
    if version != VERSION:
        raise ImportError("%s has version %d, and not %d" % (path, version, VERSION))
    return found, form_version


calls, FORM_VERSION = _loaded()


class RecordName(Structure):
    _fields_ = [("block", c_uint32), ("code", c_uint64)]


class LeftOut(Structure):
    _fields_ = [("info", c_bool), ("blocks", POINTER(c_uint32)), ("blocks_len", c_size_t),
                ("records", POINTER(RecordName)), ("records_len", c_size_t)]


class Fault(Structure):
    _fields_ = [("reason", c_uint32), ("input", c_uint32), ("bit", c_uint64)]


class Bytes(Structure):
    _fields_ = [("at", c_void_p), ("len", c_size_t)]


class Handle(Structure):
    _fields_ = [("live", c_bool), ("inner", c_void_p)]


class Event(Structure):
    _fields_ = [("kind", c_uint32), ("id", c_uint32), ("width", c_uint32), ("code", c_uint64), ("count", c_size_t),
                ("first", c_uint64), ("after", c_uint64)]


class Operand(Structure):
    _fields_ = [("kind", c_uint32), ("value", c_uint64)]


class Magic(Structure):
    _fields_ = [("bytes", c_uint8 * 4)]


class OpenBlock(Structure):
    _fields_ = [("id", c_uint32), ("items", c_uint64)]


class Standing(Structure):
    _fields_ = [("bit", c_uint64), ("kind", c_uint32), ("magic", c_uint8 * 4), ("id", c_uint32), ("code", c_uint64),
                ("count", c_uint64)]


class Values(Structure):
    _fields_ = [("differ", c_bool), ("index", c_uint64), ("first", c_uint64), ("second", c_uint64)]


class Difference(Structure):
    _fields_ = [("place", c_uint32), ("depth", c_size_t), ("items", c_uint64), ("first", Standing), ("second", Standing),
                ("values", Values)]


# Not ctypes.pythonapi, where another module may declare these functions with a type of its own.
_api = ctypes.PyDLL(None)


class View(Structure):
    """The buffer of an object, as Python's C API has it. The object exports it until this is released or deleted."""
    _fields_ = [("at", c_void_p), ("object", c_void_p), ("len", c_ssize_t), ("rest", c_uint64 * 7)]

    def __init__(self, name: str, data: ReadableBuffer) -> None:
        super().__init__()
        try:
            _api.PyObject_GetBuffer(ctypes.py_object(data), byref(self), 0)
        except (TypeError, ValueError, BufferError) as error:
            kind = next(it for it in (TypeError, ValueError, BufferError) if isinstance(error, it))
            raise kind("%s: %s" % (name, error)) from None

    def __enter__(self) -> Tuple[c_void_p, c_size_t]:
        """The arguments of a call for the bytes."""
        return c_void_p(self.at), c_size_t(self.len)

    def __exit__(self, *_: object) -> None:
        _api.PyBuffer_Release(byref(self))

    __del__ = __exit__
