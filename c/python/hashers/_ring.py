"""Consistent hashing: nodes on a ring, where only the keys of a removed node move."""
from __future__ import annotations

from array import array
from bisect import bisect_left
from operator import index
from typing import TYPE_CHECKING, Callable, Dict, Iterable, Iterator, List, Mapping, Optional, SupportsIndex, Tuple, Type, Union

from . import _hashers
from ._hashers import _number_of, _ring_add, _ring_owners, _ring_points, _ring_remove, _ring_sort
from ._many import _ZERO

if TYPE_CHECKING:
    from _typeshed import ReadableBuffer as Buffer

Name = Union[str, bytes]
# the weight of a node where none is given
WEIGHT = 160


def _bytes_of(name: Name) -> bytes:
    if isinstance(name, (str, bytes)):
        return str.encode(name) if isinstance(name, str) else b"".join((name,))
    raise TypeError(f"the name of a node is a str or bytes, not {type(name).__name__}")


class Ring:
    """Nodes on a ring of 2^64 places, each a name, a str or bytes, with a weight, which is how many points it has there. A key belongs to the
    node of the first point at or after the key's hash, round the ring: so if a node is removed only its keys move, and if one is added keys
    move only to it. Shares are rough with few points: a node had up to 28 % more than its share with 100, and up to 12 % with 1000.

    Point k of a node is at the hash of its name followed by k in 8 bytes, the lowest first, so rings of the same names and weights under one
    hash agree in all languages, in whatever order the nodes came. Names are ordered as bytes, a str as its UTF-8. Threads may ask while one
    of them changes the ring: they see it as it was before or as it is after."""
    __slots__ = ("_hash", "_number", "_state")

    def __init__(self, nodes: Union[Mapping[Name, SupportsIndex], Iterable[Name]] = (), *, hash: str = "spooky") -> None:
        """`nodes` has the weights of names, or names alone, which get a weight of 160."""
        self._number = _number_of(hash)
        self._hash = _hashers.new(hash).name
        if isinstance(nodes, (str, bytes)):
            raise TypeError("nodes are names, not one name")
        if isinstance(nodes, Ring):
            nodes = nodes.weights()
        weights = list(nodes.items()) if isinstance(nodes, Mapping) else [(name, WEIGHT) for name in nodes]
        named = {_bytes_of(name): (name, _weight_of(weight)) for name, weight in weights}
        if len(named) < len(weights):
            raise ValueError("two nodes have the same name")
        keys = sorted(named)
        points = _room_for(sum(weight for _, weight in named.values()))
        start = 0
        with memoryview(points) as room:
            for node, key in enumerate(keys):
                end = start + 2 * named[key][1]
                _ring_points(self._number, bytearray(key + bytes(8)), node, room[start:end])
                start = end
        _ring_sort(points)
        # the names in order, as bytes and as they were given, their weights, and the points: the place and the node of each
        self._state: _State = keys, [named[key][0] for key in keys], [named[key][1] for key in keys], points

    @property
    def hash(self) -> str:
        """The name of the hash that places nodes and keys."""
        return self._hash

    def __repr__(self) -> str:
        return f"<Ring of {len(self)} nodes by {self.hash}>"

    def __reduce__(self) -> Tuple[Callable[..., Ring], Tuple[Type[Ring], Dict[Name, int], str]]:
        return _revived, (type(self), self.weights(), self.hash)

    def copy(self) -> Ring:
        """A second ring with the same nodes, independent of this one."""
        return _revived(type(self), self.weights(), self.hash)

    def __eq__(self, other: object) -> bool:
        """Whether it has the same hash, names and weights, a str as its UTF-8."""
        if not isinstance(other, Ring):
            return NotImplemented
        return (self._hash, self._state[0], self._state[2]) == (other._hash, other._state[0], other._state[2])

    __hash__ = None  # type: ignore[assignment]

    def __len__(self) -> int:
        return len(self._state[0])

    def __iter__(self) -> Iterator[Name]:
        """The names, in their order."""
        return iter(self._state[1])

    def __contains__(self, name: Name) -> bool:
        keys = self._state[0]
        return _place_of(keys, _bytes_of(name))[1]

    def weights(self) -> Dict[Name, int]:
        """The nodes with their weights, in the order of their names."""
        _, names, weights, _ = self._state
        return dict(zip(names, weights))

    def add(self, name: Name, weight: SupportsIndex = WEIGHT) -> None:
        """Adds a node; ValueError if there is one of that name. To begin with many nodes, give them to `Ring` at once."""
        key, count = _bytes_of(name), _weight_of(weight)
        keys, names, weights, points = self._state
        node, is_there = _place_of(keys, key)
        if is_there:
            raise ValueError(f"a node of the name {name!r} is there")
        added = _room_for(count)
        _ring_points(self._number, bytearray(key + bytes(8)), node, added)
        points = points + added
        _ring_add(points, added, node)
        self._state = (keys[:node] + [key] + keys[node:], names[:node] + [name] + names[node:],
                       weights[:node] + [count] + weights[node:], points)

    def remove(self, name: Name) -> int:
        """Removes a node, and returns its weight; KeyError if there is none of that name."""
        keys, names, weights, points = self._state
        node, is_there = _place_of(keys, _bytes_of(name))
        if not is_there:
            raise KeyError(name)
        points = points[:]
        del points[2 * _ring_remove(points, node):]
        self._state = keys[:node] + keys[node + 1:], names[:node] + names[node + 1:], weights[:node] + weights[node + 1:], points
        return weights[node]

    def owner(self, key: Buffer) -> Optional[Name]:
        """The node that owns the key; None if there are no nodes."""
        _, names, _, points = self._state
        found = _ZERO[:]
        return names[found[0]] if _ring_owners(self._number, points, key, found) else None

    def owners(self, key: Buffer, count: SupportsIndex) -> List[Name]:
        """The first so many different nodes round the ring from the key, or all where there are fewer: the first owns it, the second would if
        the first were gone, and so on."""
        if index(count) < 0:
            raise ValueError(f"there are no {index(count)} owners")
        _, names, _, points = self._state
        found = _ZERO * min(index(count), len(names))
        return [names[node] for node in found[:_ring_owners(self._number, points, key, found)]]

    def shares(self) -> Dict[Name, int]:
        """How many of the 2^64 places of the ring each node owns. Under a hash of 32 bits all keys lie in the first 2^32 of them, so there it
        says nothing of the keys."""
        _, names, _, points = self._state
        shares, before = [0] * len(names), -1
        for place, node in zip(points[0::2], points[1::2]):
            shares[node] += place - before
            before = place
        if points:
            shares[points[1]] += (1 << 64) - 1 - before
        return dict(zip(names, shares))


_State = Tuple[List[bytes], List[Name], List[int], "array[int]"]


def _weight_of(weight: SupportsIndex) -> int:
    count = index(weight)
    if count < 1:
        raise ValueError(f"a node has a weight of at least 1, not {count}")
    return count


def _room_for(count: int) -> array[int]:
    """Room for so many points: the place and the node of each."""
    try:
        return _ZERO * (2 * count)
    except OverflowError:
        raise ValueError(f"a ring cannot have {count} points") from None


def _place_of(keys: List[bytes], key: bytes) -> Tuple[int, bool]:
    """Where the name stands or would, and whether it is there."""
    node = bisect_left(keys, key)
    return node, node < len(keys) and keys[node] == key


def _revived(kind: Type[Ring], nodes: Dict[Name, int], hash: str) -> Ring:
    return kind(nodes, hash=hash)
