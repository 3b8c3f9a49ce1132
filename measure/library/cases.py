"""The hashes of texts by libhashers, whose calls are proved."""
import ctypes
import os
from array import array
from functools import lru_cache
from itertools import accumulate, islice

from library.build import libhashers
from library.names import names

# how many texts one call hashes
PART = 65536


@lru_cache(maxsize=None)
def built():
    return ctypes.CDLL(os.path.join(libhashers(), "libhashers.so.1"))


def hashers_call(name, answer=ctypes.c_uint64):
    """A call of the library, which answers a number or what is said. What it takes as a number has 64 bits."""
    function = built()[f"hashers_{name}"]
    function.restype = answer
    return lambda *words: function(*(ctypes.c_uint64(word) if isinstance(word, int) else word for word in words))


def hash_column(name, texts):
    """The hashes of a list of texts."""
    kind, text, offsets = hashers_call("kind")(name.encode(), len(name)), b"".join(texts), array("Q", accumulate(map(len, texts), initial=0))
    found = array("Q", bytes(8 * len(texts)))
    columns = (word for column in (offsets, found) for word in (ctypes.c_void_p(column.buffer_info()[0]), len(column)))
    assert hashers_call("column64", ctypes.c_bool)(kind, text, len(text), *columns)
    return found


def hashes_of_keys(keys, chosen=None):
    """The hashes of keys by each name, or by the chosen ones."""
    columns, keys = {name: array("Q") for name in chosen or names()}, iter(keys)
    while part := list(islice(keys, PART)):
        for name, column in columns.items():
            column.extend(hash_column(name, part))
    return columns
