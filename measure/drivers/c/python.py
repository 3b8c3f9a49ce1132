"""usage: PYTHONPATH=PACKAGE:measure python3 measure/drivers/c/python.py RUNS

Prints the tables of measure/results/c.md on Python: a call of hashers beside those of xxhash, hashlib and zlib; a text in parts, and a
filter, beside xxhash; and many texts in one call beside a loop. PACKAGE is the folder where `make -C c python` leaves the package; xxhash
is Debian's python3-xxhash. Each time is the least of so many short runs by turns, and of a tenth of them where a run is long.
"""
import hashlib
import sys
import time
import zlib
from array import array

import hashers
import xxhash
from library.page import table
from library.turns import by_turns

RUNS = int(sys.argv[1])


def timed(call, turns):
    """A call whose answer is the nanoseconds of so many calls in a row, each."""
    def nanoseconds():
        start = time.perf_counter_ns()
        for _ in range(turns):
            call()
        return (time.perf_counter_ns() - start) / turns
    return nanoseconds


def least(calls, turns, runs):
    """The least nanoseconds of each call."""
    return [min(times) for times in by_turns([timed(call, turns) for call in calls], max(runs, 1))]


def calls():
    rows = {
        "`hashers.xxh64`": hashers.xxh64, "`xxhash.xxh64_intdigest`": xxhash.xxh64_intdigest,
        "`hashers.xxh3`": hashers.xxh3, "`xxhash.xxh3_64_intdigest`": xxhash.xxh3_64_intdigest,
        "`hashers.fnv1a64`": hashers.fnv1a64, "`hashers.fxhash`": hashers.fxhash, "`hashers.spooky`": hashers.spooky,
        "`hashers.crc32`": hashers.crc32, "`zlib.crc32`": zlib.crc32,
        "`hashlib.md5(..).digest()`": lambda text: hashlib.md5(text).digest(),
        "`hashlib.blake2b(..).digest()`": lambda text: hashlib.blake2b(text).digest(),
        "a function in Python that does nothing": lambda text: None,
    }
    def over(*texts):
        return [lambda call=call, text=text: call(text) for call in rows.values() for text in texts]
    short, long = least(over(bytes(8), bytearray(8), bytes(64)), 200, RUNS), least(over(bytes(1 << 20)), 1, RUNS // 10)
    told = [[name, *(f"{it:.0f}" for it in (*short[3 * i:3 * i + 3], long[i]))] for i, name in enumerate(rows)]
    return table(["call", "8 bytes", "a bytearray of 8", "64 bytes", "1 MiB"], told, 4)


def in_parts(begin, text):
    """A text by new, update and its number."""
    def call():
        made = begin()
        made.update(text)
        return made.intdigest()
    return call


def parts():
    text, ours, theirs, seen = bytes(16), hashers.new("fnv1a64"), xxhash.xxh64(), hashers.Bloom(10_000, 7)
    rows = {
        "`new`, `update`, `intdigest`: `hashers.new(\"fnv1a64\")`": in_parts(lambda: hashers.new("fnv1a64"), text),
        "the same: `hashers.new(\"spooky\")`": in_parts(lambda: hashers.new("spooky"), text),
        "the same: `hashers.new(\"xxh64\")`": in_parts(lambda: hashers.new("xxh64"), text),
        "the same: `xxhash.xxh64()`": in_parts(xxhash.xxh64, text),
        "`update` of hashers": lambda: ours.update(text), "`update` of xxhash": lambda: theirs.update(text),
        "`hexdigest` of hashers": ours.hexdigest, "`hexdigest` of xxhash": theirs.hexdigest,
        "`copy` of hashers": ours.copy, "`copy` of xxhash": theirs.copy,
        "`Bloom.add`": lambda: seen.add(text), "a key in a `Bloom`": lambda: text in seen,
    }
    return table(["16 bytes", "ns"], [[name, f"{it:.0f}"] for name, it in zip(rows, least(rows.values(), 200, RUNS))], 1)


def columns():
    count, told = 10 ** 6, []
    data, offsets, out = bytes(16 * count), array("Q", range(0, 16 * count + 1, 16)), array("Q", bytes(8 * count))
    lines = (b"x" * 15 + b"\n") * count
    for name in ("fnv1a64", "fxhash"):
        hash_of = getattr(hashers, name)
        times = least([lambda: hashers.hash_column(name, offsets, data, out),
                       lambda: [hash_of(data[i:j]) for i, j in zip(offsets, offsets[1:])],
                       lambda: hashers.hash_lines(name, lines), lambda: [hash_of(line) for line in lines.splitlines()]], 1, RUNS // 10)
        told.append([f"`hash_column`, `{name}`", *(f"{it / count:.0f}" for it in times[:2])])
        told.append([f"`hash_lines`, `{name}`", *(f"{it / count:.0f}" for it in times[2:])])
    return table(["10^6 texts of 16 bytes", "ns a text, one call", "ns a text, a loop"], told, 2)


print(f"{calls()}\n\n{parts()}\n\n{columns()}")
