"""Bytes that go to the library and come from it, copied as seldom as is safe."""
import contextlib
import ctypes
from ctypes import POINTER, byref, c_char, c_char_p, c_int, c_ssize_t, c_void_p, py_object
from typing import Any, Iterator, Tuple, Union

Bytes = Union[bytes, bytearray, memoryview]


class _Buffer(ctypes.Structure):
    """Python's Py_buffer."""

    _fields_ = [
        ("buf", c_void_p),
        ("obj", py_object),
        ("len", c_ssize_t),
        ("itemsize", c_ssize_t),
        ("readonly", c_int),
        ("ndim", c_int),
        ("format", c_char_p),
        ("shape", POINTER(c_ssize_t)),
        ("strides", POINTER(c_ssize_t)),
        ("suboffsets", POINTER(c_ssize_t)),
        ("internal", c_void_p),
    ]


def bytes_of(data: Bytes) -> Union[bytes, memoryview]:
    """The same bytes, which nothing changes any more: what another thread could write meanwhile is copied, and so is what doesn't stand in
    one piece. A read-only memoryview is taken at its word."""
    if isinstance(data, bytes):
        return data
    if isinstance(data, memoryview):
        return data.cast("B") if data.readonly and data.c_contiguous and data.nbytes else data.tobytes()
    if isinstance(data, bytearray):
        return bytes(data)
    raise TypeError(f"bytes are wanted, not {type(data).__name__}")


@contextlib.contextmanager
def lent(data: Union[bytes, memoryview]) -> Iterator[Tuple[Any, int]]:
    """The address and the length of bytes, for a call."""
    if isinstance(data, bytes):
        yield data, len(data)
        return
    buffer = _Buffer()
    ctypes.pythonapi.PyObject_GetBuffer(py_object(data), byref(buffer), 0)
    try:
        yield buffer.buf, buffer.len
    finally:
        ctypes.pythonapi.PyBuffer_Release(byref(buffer))


class Room:
    """Room for so many bytes that a call copies out."""

    def __init__(self, count: int) -> None:
        self.bytes = bytearray(count)
        self.words: Any = (c_char * count).from_buffer(self.bytes) if count else None
