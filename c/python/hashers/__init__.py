"""Non-cryptographic hash functions whose code is proved, in hashlib's manner.

    >>> import hashers
    >>> hashers.fnv1a64(b"a")
    12638187200555641996
    >>> h = hashers.new("djb2", b"a")
    >>> h.update(b"b")
    >>> h.intdigest(), h.hexdigest()
    (5860902, '00596e26')
    >>> hashers.djb2(b"b", hash=hashers.djb2(b"a"))
    5860902

Data is any object with a contiguous buffer: bytes, bytearray, memoryview, array, mmap, an array of numpy. It is not copied, and may not be
written while a call runs. For data above 2 KiB the GIL is released. None of the functions protects against chosen inputs, except SipHash
under a key that nobody else knows, as its authors claim, and poly61 under one as long as nobody else sees a hash either.
"""
from __future__ import annotations

from os import urandom
from typing import TYPE_CHECKING, Optional, Protocol, SupportsIndex

from . import _hashers
from ._bloom import Bloom
from ._chunks import Cuts, chunks
from ._hashers import *
from ._many import hash_column, hash_lines, number_column
from ._ring import Ring

if TYPE_CHECKING:
    from _typeshed import ReadableBuffer as Buffer

# as python-xxhash names them
xxh3_64, xxh3_128 = xxh3, xxh128

__all__ = ["xxh3_64", "xxh3_128", "xxh32_hexdigest", "xxh64_hexdigest", "xxh3_64_hexdigest", "xxh3_128_hexdigest"]
__all__ += ["Bloom", "Cuts", "Function", "Ring", "chunks", "hash_column", "hash_lines", "number_column", "random_key"]
__all__ += [name for name in dir(_hashers) if not name.startswith("_") and name != "BloomBase"]
_number: int = _hashers._version()
__version__ = f"{_number // 10000}.{_number // 100 % 100}.{_number % 100}"


class Function(Protocol):
    """A function that returns the hash of the data; if `hash` is given, the hash so far, continued with the data."""
    __name__: str

    def __call__(self, data: Buffer, hash: Optional[SupportsIndex] = None) -> int: ...


def xxh32_hexdigest(data: Buffer, seed: SupportsIndex = 0) -> str:
    """`xxh32` in hexadecimal digits, the high one first, as python-xxhash has it."""
    return new("xxh32", data, seed=seed).hexdigest()


def xxh64_hexdigest(data: Buffer, seed: SupportsIndex = 0) -> str:
    """`xxh64` in hexadecimal digits, the high one first, as python-xxhash has it."""
    return new("xxh64", data, seed=seed).hexdigest()


def xxh3_64_hexdigest(data: Buffer, seed: SupportsIndex = 0) -> str:
    """`xxh3_64` in hexadecimal digits, the high one first, as python-xxhash has it."""
    return new("xxh3", data, seed=seed).hexdigest()


def xxh3_128_hexdigest(data: Buffer, seed: SupportsIndex = 0) -> str:
    """`xxh3_128` in hexadecimal digits, the high one first, as python-xxhash has it."""
    return new("xxh128", data, seed=seed).hexdigest()


def random_key() -> int:
    """A key from the system's randomness, each of 0 to 2^61 - 2 as likely."""
    while True:
        key = int.from_bytes(urandom(8), "little") >> 3
        if key != (1 << 61) - 1:
            return key
