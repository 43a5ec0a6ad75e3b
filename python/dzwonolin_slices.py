"""What the Python module lends to the library: its functions, each when it is first asked for, and slices over the caller's memory.

A buffer is lent as it is and asked for its type. A file is mapped, and never read whole. What is given wrongly is told in the
caller's words.
"""
from __future__ import annotations

import ctypes
import io
import mmap
import operator
import os
import platform
import stat

TEXT_LIMIT = 16777216


class NoLibrary(OSError):
    """The shared library is not there, or it cannot be loaded here."""


class _Shared:
    """The functions of the shared library, each looked up when it is first asked for."""

    def __init__(self, path: str, functions: dict):
        self._functions = functions
        machine = _machine_of(path)
        if machine not in (None, platform.machine()):
            raise NoLibrary(f"{path} is for {machine}, and this machine is {platform.machine()}")
        try:
            self._opened = ctypes.CDLL(path)
        except OSError as wrong:
            raise NoLibrary(str(wrong)) from None

    def __getattr__(self, name: str):
        if name not in self._functions:
            raise AttributeError(name)
        try:
            function = getattr(self._opened, name)
        except AttributeError:
            raise AttributeError(f"this libdzwonolin.so has no {name}: it is of an older version") from None
        function.argtypes, function.restype = self._functions[name], ctypes.c_uint64
        setattr(self, name, function)
        return function


def _machine_of(path: str):
    """The processor that a shared library is for, as far as it is told by its first bytes."""
    try:
        with io.open(path, "rb") as opened:
            first = opened.read(20)
    except OSError:
        return None
    return {62: "x86_64", 183: "aarch64"}.get(int.from_bytes(first[18:20], "little")) if first[:4] == b"\x7fELF" else None


def _number(value, what: str = "a number") -> int:
    """A number that fits 64 bits; ctypes alone would cut it short."""
    try:
        value = operator.index(value)
    except TypeError:
        raise TypeError(f"{what} must be a whole number, and {value!r} is not") from None
    if not 0 <= value < 1 << 64:
        raise ValueError(f"{what} must be a whole number of 64 bits, and {value} is not")
    return value


def _buffer(given):
    """The memory of an object that lends it as numbers of 64 bits, without a sign; none of one that lends nothing."""
    try:
        view = memoryview(given)
    except TypeError:
        return None
    raw = view.format in ("B", "b", "c", "<B") and view.nbytes % 8 == 0
    if not view.contiguous or not (raw or view.itemsize == 8 and view.format.lstrip("<=@") in ("Q", "L")):
        raise TypeError(f"a buffer of 64-bit numbers without a sign is asked for, as array('Q'), and not one of format {view.format!r}")
    return view


class _Buffer(ctypes.Structure):
    """Python's Py_buffer: where the bytes of an object lie. A read-only one is lent too, which ctypes alone does not do."""
    _fields_ = [("at", ctypes.c_void_p), ("owner", ctypes.c_void_p), ("length", ctypes.c_ssize_t), ("item", ctypes.c_ssize_t),
                ("readonly", ctypes.c_int), ("dimensions", ctypes.c_int), ("format", ctypes.c_void_p), ("shape", ctypes.c_void_p),
                ("strides", ctypes.c_void_p), ("suboffsets", ctypes.c_void_p), ("internal", ctypes.c_void_p)]


def _lent_numbers(view):
    """A slice over the same memory; memory that may only be read is lent too, and kept as long as the slice."""
    kind = ctypes.c_uint64 * (view.nbytes // 8)
    if not view.nbytes:
        return kind()
    if not view.readonly:
        return kind.from_buffer(view)
    buffer = _Buffer()
    ctypes.pythonapi.PyObject_GetBuffer(ctypes.py_object(view), ctypes.byref(buffer), 0)
    lent = kind.from_address(buffer.at)
    lent.kept = view
    ctypes.pythonapi.PyBuffer_Release(ctypes.byref(buffer))
    return lent


def _numbers(values, what: str = "a number"):
    """A lent slice that holds these numbers: the caller's own memory where it is a buffer of such numbers."""
    if isinstance(values, ctypes.Array) and values._type_ is ctypes.c_uint64:
        return values
    if isinstance(values, (str, bytes)):
        raise TypeError(f"numbers are asked for, as [2, 91282], and not the text {values[:40]!r}")
    view = None if isinstance(values, (list, tuple)) else _buffer(values)
    if view is not None:
        return _lent_numbers(view)
    values = [_number(v, what) for v in values]
    return (ctypes.c_uint64 * len(values))(*values)


def _bytes(data) -> bytes:
    """A slice to read: the caller's own memory where it is bytes, a copy of another buffer."""
    return data if isinstance(data, bytes) else bytes(data)


def _room(given, default: int):
    """A slice to be written: a size gives a new one of zeros, a buffer of 64-bit numbers is used as it is."""
    if given is None or isinstance(given, int):
        return (ctypes.c_uint64 * (default if given is None else given))()
    if isinstance(given, ctypes.Array) and given._type_ is ctypes.c_uint64:
        return given
    view = _buffer(given)
    if view is None:
        raise TypeError(f"room is a size or a buffer of 64-bit numbers, as array('Q'), and not {type(given).__name__}")
    if view.readonly and view.nbytes:
        raise TypeError("the buffer is to be written, and may only be read")
    return _lent_numbers(view)


def _first(stream, count: int) -> bytes:
    """So many bytes of a stream, or fewer where it ends; a piece at a time, since a bad file may ask for any number."""
    pieces = []
    while count > 0:
        pieces.append(stream.read(min(count, 1 << 20)))
        count -= len(pieces[-1])
        if not pieces[-1]:
            break
    return b"".join(pieces)


def streamed(stream, text: bool) -> bytes:
    """What can count of a header text, or of a NIfTI-2 file, that comes through a pipe: of a file, the bytes before its data offset."""
    if text:
        return _first(stream, TEXT_LIMIT + 1)
    header = _first(stream, 544)
    order = "little" if header[:4] == b"\x1c\x02\0\0" else "big"
    return header + _first(stream, int.from_bytes(header[168:176], order, signed=True) - len(header))


def _opened(path, text: bool):
    """The bytes of a file: mapped, never read whole. Of a pipe, only what can count."""
    with io.open(path, "rb") as stream:
        told = os.fstat(stream.fileno())
        if stat.S_ISREG(told.st_mode):
            return mmap.mmap(stream.fileno(), 0, access=mmap.ACCESS_READ) if told.st_size else b""
        return streamed(stream, text)


class _Lent:
    """The bytes of a file or of a buffer, lent without a copy. Used with `with`."""

    def __init__(self, file, text: bool = False, path: bool = False):
        self.mapped, self.buffer = None, _Buffer()
        if isinstance(file, (str, os.PathLike)):
            if text and not path:
                raise TypeError("the text of a header is bytes and not str: a file is opened by open(path, lengths), or read in mode 'rb'")
            file = _opened(file, text)
            self.mapped = file or None
        if isinstance(file, (bytes, bytearray, mmap.mmap)):
            self.file = file
            return
        try:
            self.file = memoryview(file)
        except TypeError:
            raise TypeError(f"bytes are asked for, and not {type(file).__name__}") from None
        if self.file.itemsize != 1:
            raise TypeError(f"bytes are asked for, and not a buffer of format {self.file.format!r}")

    def __enter__(self):
        ctypes.pythonapi.PyObject_GetBuffer(ctypes.py_object(self.file), ctypes.byref(self.buffer), 0)
        self.length = self.buffer.length
        self.slice = (ctypes.c_ubyte * self.length).from_address(self.buffer.at) if self.length else b""
        return self

    def __exit__(self, *_):
        self.slice = None
        ctypes.pythonapi.PyBuffer_Release(ctypes.byref(self.buffer))
        if isinstance(self.mapped, mmap.mmap):
            self.mapped.close()

    def cut(self, start: int, length: int) -> bytes:
        return ctypes.string_at(self.buffer.at + start, length) if length else b""
