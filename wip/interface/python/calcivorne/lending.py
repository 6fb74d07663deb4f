"""Bytes of Python lent to a call."""
import array
import ctypes
import mmap
from typing import Any, Tuple, Union

Bytes = Union[bytes, bytearray, memoryview, mmap.mmap, "array.array[Any]"]
Lent = Tuple[object, int]


def lend(data: Bytes) -> Lent:
    """The pointer and the length that a call takes for these bytes.

    bytes, and all that may be written (a bytearray, a mapped file open for writing), are lent as they are; of anything else, and of what does not stand
    in one piece, a copy is lent. What is lent cannot be resized for as long as the result is held.

    >>> scene = bytearray(b"<r/>")
    >>> lent = lend(scene)
    >>> scene.append(32)
    Traceback (most recent call last):
    BufferError: Existing exports of data: object cannot be re-sized
    >>> del lent
    >>> scene.append(32)
    """
    if isinstance(data, bytes):
        return data, len(data)
    view = memoryview(data)
    if view.nbytes > 0 and view.c_contiguous and not view.readonly:
        return ctypes.byref(ctypes.c_char.from_buffer(view)), view.nbytes
    return view.tobytes(), view.nbytes


def owned(data: Bytes) -> bytes:
    """The bytes themselves, which nobody changes any more."""
    return data if isinstance(data, bytes) else memoryview(data).tobytes()


def part(data: Bytes, offset: int, length: int) -> bytes:
    """So many bytes of data from an offset on: fewer where there are fewer."""
    view = memoryview(data)
    plain = view if view.format == "B" and view.ndim == 1 else memoryview(view.tobytes())
    return plain[offset:offset + length].tobytes()


def natural(name: str, value: int, most: int = 2**64 - 1) -> int:
    """The value, where a call can take it: ctypes would cut it silently.

    >>> natural("most", -1)
    Traceback (most recent call last):
    ValueError: most is -1: 0 to 18446744073709551615 is possible
    """
    if not 0 <= value <= most:
        raise ValueError(f"{name} is {value}: 0 to {most} is possible")
    return value
