"""Content-defined chunks."""
from __future__ import annotations

from array import array
from operator import attrgetter, index
from typing import IO, TYPE_CHECKING, Callable, Iterator, Optional, SupportsIndex, Union, cast

from ._hashers import _chunk_ends
from ._many import _ZERO

if TYPE_CHECKING:
    from _typeshed import ReadableBuffer as Buffer

# the average where neither it nor a larger least is given, and the largest that a size may be
AVERAGE, LARGEST = 1 << 16, (1 << 64) - 1
# how many bytes of a file are read at a time: as many as a chunk may have, within these bounds
LEAST_READ, MOST_READ = 1 << 20, 1 << 26


class Cuts:
    """How to split data into chunks by its content, so that an edit mostly changes only the chunks around it: a place is a boundary if the
    gear hash of the 64 bytes before it is low. Chunks have `least` to `most` bytes, the last one maybe fewer. From `least` on about one place
    in `average` is a boundary, if the bytes look random, so the mean chunk is longer: 1.23 to 1.36 times `average`, as measured. ValueError
    unless 64 <= least <= average <= most < 2^64. The defaults are those of the program cuts: an average of 65536, or of four times a least
    above 65536; a least of a quarter of the average, but 64 at least; a most of four times the average; and 2^64 - 1 where that would be
    more. Other seeds give other boundaries."""
    __slots__ = ("_average", "_least", "_most", "_seed1", "_seed2")
    average = cast(int, property(attrgetter("_average")))
    least = cast(int, property(attrgetter("_least")))
    most = cast(int, property(attrgetter("_most")))
    seed1 = cast(int, property(attrgetter("_seed1")))
    seed2 = cast(int, property(attrgetter("_seed2")))

    def __init__(self, average: Optional[SupportsIndex] = None, *, least: Optional[SupportsIndex] = None,
                 most: Optional[SupportsIndex] = None, seed1: SupportsIndex = 0, seed2: SupportsIndex = 0) -> None:
        if average is None:
            average = AVERAGE if least is None or index(least) <= AVERAGE else min(4 * index(least), LARGEST)
        self._average = index(average)
        self._least = max(self._average // 4, 64) if least is None else index(least)
        self._most = min(4 * self._average, LARGEST) if most is None else index(most)
        self._seed1, self._seed2 = index(seed1), index(seed2)
        if not 64 <= self._least <= self._average <= self._most <= LARGEST:
            raise ValueError(f"of a chunk 64 <= least <= average <= most < 2**64, not {self._least}, {self._average} and {self._most}")
        if not 0 <= min(self._seed1, self._seed2) <= max(self._seed1, self._seed2) <= LARGEST:
            raise ValueError("a seed is from 0 to 2**64 - 1")

    def __repr__(self) -> str:
        return f"Cuts({self.average}, least={self.least}, most={self.most}, seed1={self.seed1}, seed2={self.seed2})"

    def ends(self, data: Buffer) -> array[int]:
        """Where each chunk of the data ends, in bytes from its beginning; the next chunk begins there."""
        with memoryview(data) as text:
            ends = _ZERO * (text.nbytes // self.least + 1)
            count = _chunk_ends(data, ends, self.least, self.average, self.most, self.seed1, self.seed2)
            if text.nbytes and not count:
                raise ValueError(f"{self!r} cuts nothing")
        del ends[count:]
        return ends

    def chunks(self, source: Union[Buffer, IO[bytes]]) -> Iterator[Union[bytes, memoryview]]:
        """Each chunk: of data a memoryview, and of a file that is open for reading bytes, of which no more than a chunk and what is
        read at a time are kept. What is read at a time changes no boundary."""
        try:
            text = memoryview(cast("Buffer", source))
        except TypeError:
            if not hasattr(source, "read"):
                raise TypeError(f"chunks are of bytes or of a file, open(path, 'rb'), not of {type(source).__name__}") from None
            return self._of_reads(cast("IO[bytes]", source).read)
        if not text.c_contiguous:
            raise BufferError("the bytes of the data do not lie side by side")
        # of no bytes a view of several dimensions cannot be cast
        return self._of_text(text.cast("B") if text.nbytes else memoryview(b""))

    def _of_text(self, text: memoryview) -> Iterator[memoryview]:
        start = 0
        for end in self.ends(text):
            yield text[start:end]
            start = end

    def _of_reads(self, read: Callable[[int], Optional[bytes]]) -> Iterator[bytes]:
        kept = b""
        while True:
            block = read(min(max(LEAST_READ, self.most), MOST_READ))
            if block is None:
                raise BlockingIOError("the file has no bytes now, and has not ended")
            if isinstance(block, str):
                raise TypeError("the file is open for text: open it for bytes, by the mode 'rb'")
            text, start = kept + block, 0
            for end in self.ends(text):
                # where what was read ends is no cut, unless the chunk cannot be longer
                if block and end == len(text) and end - start < self.most:
                    break
                yield text[start:end]
                start = end
            if not block:
                return
            kept = text[start:]


def chunks(source: Union[Buffer, IO[bytes]], average: Optional[SupportsIndex] = None, *, least: Optional[SupportsIndex] = None,
           most: Optional[SupportsIndex] = None, seed1: SupportsIndex = 0, seed2: SupportsIndex = 0) -> Iterator[Union[bytes, memoryview]]:
    """The chunks of data or of a file, as `Cuts` of these numbers has them."""
    return Cuts(average, least=least, most=most, seed1=seed1, seed2=seed2).chunks(source)
