"""A Bloom filter in words of the caller's."""
from __future__ import annotations

import sys
from math import ceil, log, log2
from operator import index
from pickle import UnpicklingError
from typing import TYPE_CHECKING, Any, Callable, Optional, SupportsIndex, Tuple, Type, TypeVar

from ._hashers import BloomBase, _unite
from ._many import shape_of

if TYPE_CHECKING:
    from _typeshed import ReadableBuffer as Buffer

Filter = TypeVar("Filter", bound="Bloom")

# how many bytes are counted at a time
CHUNK = 1 << 16


def _bit_count(number: int) -> int:
    if sys.version_info >= (3, 10):
        return number.bit_count()
    return bin(number).count("1")


class Bloom(BloomBase):
    """A Bloom filter of so many bits, in which each key has so many probes. About 0.693 * bits / keys probes are best. A key that was
    added is found; a strange one is found by chance, at 10 bits for each key and 7 probes about 1 of 120. `add` tells whether the key is
    new, as `add_lines` and `add_column` count.

    The bits lie in `buffer`: a new bytearray, or whatever writable buffer of 8 bytes for each 64 bits is given, as a file's mmap; a new
    filter's are zeros. `hashes` names the two hashes by which keys are placed: spooky_lookup3, or fnv1a64_lookup3. One thread at a time
    may add. A copy, by `copy` or the module of that name, has a bytearray of its own, and so has what pickle brings elsewhere."""
    __slots__ = ()

    # for inspect, which reads no signature of a type in C before Python 3.10
    def __new__(cls: Type[Filter], bits: SupportsIndex, probes: SupportsIndex, *, hashes: str = "spooky_lookup3",
                buffer: Optional[Buffer] = None) -> Filter:
        return super().__new__(cls, bits, probes, hashes=hashes, buffer=buffer)

    @classmethod
    def for_keys(cls: Type[Filter], keys: SupportsIndex, error_rate: float = 0.01, *, hashes: str = "spooky_lookup3",
                 buffer: Optional[Buffer] = None) -> Filter:
        """A filter for that many keys, in which a strange key is found with about that chance once they were added. It has
        -keys * ln(error_rate) / ln(2)^2 bits, 9.6 for each key at 0.01, and -log2(error_rate) probes."""
        count = index(keys)
        if not 0 < count < 1 << 64 or not 0 < error_rate < 1:
            raise ValueError("a filter is for 1 to 2**64 - 1 keys, and an error rate between 0 and 1")
        halvings = -log2(error_rate)
        return cls(ceil(count * halvings / log(2)), max(1, round(halvings)), hashes=hashes, buffer=buffer)

    def __repr__(self) -> str:
        return f"<Bloom filter of {self.bits} bits and {self.probes} probes by {self.hashes}>"

    def __reduce__(self) -> Tuple[Callable[..., Bloom], Tuple[Any, ...]]:
        return _filled, (type(self), self.bits, self.probes, self.hashes, memoryview(self.buffer).tobytes())

    def copy(self: Filter) -> Filter:
        """A second filter with the same keys, over a bytearray of its own."""
        return type(self)(self.bits, self.probes, hashes=self.hashes, buffer=bytearray(memoryview(self.buffer)))

    def __len__(self) -> int:
        """About how many different keys were added, as the bits that are set tell it: bits / probes * ln(bits / zeros). It goes over all
        bits. OverflowError where all are set, which tells nothing."""
        zeros = self.bits - self._ones()
        if zeros == 0:
            raise OverflowError("all bits are set, so they do not tell how many keys there are")
        return round(self.bits / self.probes * log(self.bits / zeros))

    def __bool__(self) -> bool:
        """Whether a key was added."""
        return self._ones() > 0

    def _ones(self) -> int:
        """How many bits are set, of those that are the filter's."""
        with memoryview(self.buffer) as buffer, buffer.cast("B") as words:
            if len(words) != (self.bits + 63) // 64 * 8:
                raise ValueError(f"a filter of {self.bits} bits has a buffer of {(self.bits + 63) // 64 * 8} bytes, not of {len(words)}")
            ones = 0
            for start in range(0, len(words), CHUNK):
                chunk = int.from_bytes(words[start:start + CHUNK], "little")
                ones += _bit_count(chunk & ((1 << min(8 * CHUNK, self.bits - 8 * start)) - 1))
        return ones

    def add_column(self, offsets: Buffer, data: Buffer) -> int:
        """Adds each text of a column, as `hash_column` takes them. The answer is how many were not there. ValueError, and none is added,
        where the offsets fall or pass the data."""
        return self._add_column(shape_of(offsets, data)[0], offsets, data)

    def found(self, offsets: Buffer, data: Buffer) -> bytes:
        """Of each text of a column whether it is found: a byte of 1, or of 0 where it is not."""
        return self._found(shape_of(offsets, data)[0], offsets, data)

    def update(self, other: Bloom) -> None:
        """Adds another filter's keys, of as many bits and probes and by the same hashes; else a ValueError."""
        if not isinstance(other, Bloom):
            raise TypeError(f"update takes another filter, not {type(other).__name__}")
        if (self.bits, self.probes, self.hashes) != (other.bits, other.probes, other.hashes):
            raise ValueError("the filters are of different bits, probes or hashes")
        if other is not self:
            _unite(self, other)

    def __ior__(self: Filter, other: Bloom) -> Filter:
        if not isinstance(other, Bloom):
            return NotImplemented
        self.update(other)
        return self

    def __or__(self: Filter, other: Bloom) -> Filter:
        """A new filter that finds what either finds; the filters have the same bits, probes and hashes, else a ValueError."""
        if not isinstance(other, Bloom):
            return NotImplemented
        both = self.copy()
        both.update(other)
        return both


def _filled(kind: Type[Bloom], bits: int, probes: int, hashes: str, words: bytes) -> Bloom:
    """The filter of these words."""
    return kind(bits, probes, hashes=hashes, buffer=bytearray(words))


def _revived(*_: object) -> Bloom:
    """What pickles name that the package made before: in their filters keys have other places."""
    raise UnpicklingError("this filter is of an older version of the package hashers, where keys had other places: make it again")
