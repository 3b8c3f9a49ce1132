"""Many inputs in one call: the lines of some data, a column of byte strings, and a column of numbers."""
from __future__ import annotations

from array import array
from typing import TYPE_CHECKING, Optional, SupportsIndex, Tuple, TypeVar, Union, overload

from ._hashers import _column, _lines, _number_column, _number_of

if TYPE_CHECKING:
    from _typeshed import ReadableBuffer as Buffer

Out = TypeVar("Out", bound="Buffer")
# as many as there are texts are made of it, which takes a third of the time that it takes of bytes
_ZERO = array("Q", (0,))


def hash_lines(name: str, data: Buffer) -> array[int]:
    """The hash of each line, as an array of 64 bits each. A newline ends a line and is none of its bytes; the last line may have none, and
    no bytes have no line."""
    number = _number_of(name)
    hashes = _ZERO * _lines(number, data, None)
    _lines(number, data, hashes)
    return hashes


def shape_of(offsets: Buffer, data: Buffer) -> Tuple[int, int]:
    """The bits of an offset, 32 or 64, and how many texts there are. A negative offset is larger than the data, since signed ones of 32 bits
    are for data below 2^31."""
    with memoryview(offsets) as places, memoryview(data) as text:
        kind = places.format.lstrip("@=<")
        if kind not in ("I", "i", "L", "l", "Q", "q", "N", "n") or places.itemsize not in (4, 8):
            raise TypeError(f"offsets are whole numbers of 32 or 64 bits, not of the format {places.format}")
        if kind == "i" and text.nbytes >= 1 << 31:
            raise ValueError("signed offsets of 32 bits are for less than 2**31 bytes")
        if places.nbytes == 0:
            raise ValueError("there is no offset")
        return 8 * places.itemsize, places.nbytes // places.itemsize - 1


@overload
def hash_column(name: str, offsets: Buffer, data: Buffer, out: None = None) -> array[int]: ...
@overload
def hash_column(name: str, offsets: Buffer, data: Buffer, out: Out) -> Out: ...
def hash_column(name: str, offsets: Buffer, data: Buffer, out: Optional[Out] = None) -> Union[array[int], Out]:
    """The hash of each input of a column, where input i lies in the data from offset i to offset i + 1, as in Arrow's columns of strings.
    The offsets are an array of 32 or 64 bits each, one more than there are inputs. The hashes go to `out`, a buffer of 8 bytes for each,
    or to a new array. ValueError, and nothing is written, if the offsets fall or pass the data."""
    number = _number_of(name)
    width, count = shape_of(offsets, data)
    hashes: Union[array[int], Out] = _ZERO * count if out is None else out
    with memoryview(hashes) as room:
        if room.nbytes != 8 * count:
            raise ValueError(f"out has {room.nbytes} bytes, not 8 for each of {count} hashes")
    _column(number, width, offsets, data, hashes)
    return hashes


@overload
def number_column(numbers: Buffer, multiplier: SupportsIndex, addend: SupportsIndex, out: None = None) -> array[int]: ...
@overload
def number_column(numbers: Buffer, multiplier: SupportsIndex, addend: SupportsIndex, out: Out) -> Out: ...
def number_column(numbers: Buffer, multiplier: SupportsIndex, addend: SupportsIndex, out: Optional[Out] = None) -> Union[array[int], Out]:
    """`number_hash` of each number of a column, an array of 64-bit whole numbers, under one key. The hashes go to `out`, a buffer of 8 bytes
    for each number that does not overlap the column, or to a new array."""
    with memoryview(numbers) as places:
        if places.format.lstrip("@=<") not in ("L", "l", "Q", "q", "N", "n") or places.itemsize != 8:
            raise TypeError(f"numbers are of 64 bits, not of the format {places.format}")
        hashes: Union[array[int], Out] = _ZERO * (places.nbytes // 8) if out is None else out
    _number_column(numbers, multiplier, addend, hashes)
    return hashes
