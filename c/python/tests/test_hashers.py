"""Tests of the package, over whichever hashers Python finds. Its lists are held against c/hashers.h and against the library."""
from __future__ import annotations

import ast
import contextlib
import copy
import ctypes
import doctest
import functools
import gc
import hashlib
import importlib.util
import inspect
import io
import mmap
import os
import pickle
import random
import re
import signal
import subprocess
import sys
import tempfile
import threading
import time
import tracemalloc
import types
import unittest
import unittest.mock
import weakref
import zlib
from array import array
from pathlib import Path
from random import Random
from typing import Any, Callable, Dict, List, Tuple, cast

import hashers
from hashers import _hashers

C = Path(__file__).resolve().parent.parent.parent
HEADER = (C / "hashers.h").read_text(encoding="utf-8")
# the table of hashes: the columns of each name
HEAD, *LINES = [re.split(r" *[|] ", line) for line in (C.parent / "hashes.txt").read_text(encoding="utf-8").split("\n\n")[1].split("\n")]
TABLE: Dict[str, Dict[str, str]] = {line[0]: dict(zip(HEAD, line)) for line in LINES}
# those of 128 bits, those under a seed or a key, and those to which cuts show
WIDE = tuple(name for name, row in TABLE.items() if row["bits"] == "128")
NAMES = sorted(hashers.algorithms_available.difference(WIDE))
BY_THE_BLOCK = [name for name in NAMES if TABLE[name]["start"] in ("seed", "seed of 32 bits", "key")]
CUT = [name for name in NAMES if TABLE[name]["cuts show"] == "yes"]
TEXT = bytes(i * 167 // 8 % 256 for i in range(500))
TOP = (1 << 64) - 1


def declarations() -> Dict[str, Tuple[str, List[str]]]:
    """What the header declares: the result and the parameters of each call."""
    code = re.sub(r"/\*.*?\*/", "", HEADER, flags=re.S)
    found = re.findall(r"^(\w+) hashers_(\w+)\(([^)]*)\);", code, re.M)
    return {name: (result, [" ".join(it.split()) for it in rest.split(",") if it != "void"]) for result, name, rest in found}


def ending(end: str) -> List[str]:
    """The names of hash functions that have a call with that end for a number, by the header."""
    return sorted(name[:-len(end)] for name, (result, _) in declarations().items()
                  if name.endswith(end) and name[:-len(end)] in NAMES and result == "uint64_t")


PRIME = (1 << 61) - 1


def poly61_by_definition(text: bytes, key: int) -> Tuple[int, int]:
    """The state behind the whole words of seven bytes, and the hash, by Python's whole numbers."""
    whole = len(text) // 7 * 7
    state = 1
    for at in range(0, whole, 7):
        state = (state * key + int.from_bytes(text[at:at + 7], "little")) % PRIME
    value = (state * key + int.from_bytes(text[whole:] + b"\1", "little")) * key % PRIME
    return state, value + (value % 8 << 61)


class AgainstTheHeader(unittest.TestCase):
    def test_names(self) -> None:
        texts = ["const void *text", "size_t n"]
        self.assertEqual(NAMES, sorted(name for name, (result, rest) in declarations().items() if (result, rest) == ("uint64_t", texts)))
        places = {name.lower(): int(number) for name, number in re.findall(r"^ *HASHERS_(\w+) = (\d+),?$", HEADER, re.M)}
        self.assertEqual(places.pop("kinds"), len(NAMES))
        self.assertEqual(places, {name: _hashers._number_of(name) for name in NAMES})

    def test_what_is_typed(self) -> None:
        # The stubs declare what the module has, and each call of theirs has as many arguments in its signature.
        declared = ast.parse(Path(_hashers.__file__).with_name("_hashers.pyi").read_text(encoding="utf-8")).body
        functions = {it.name: it.args for it in declared if isinstance(it, ast.FunctionDef)}
        self.assertEqual(sorted(functions), sorted(name for name, it in vars(_hashers).items() if isinstance(it, types.BuiltinFunctionType)))
        for name, arguments in functions.items():
            if not name.startswith("_"):
                told = inspect.signature(getattr(hashers, name)).parameters
                self.assertEqual(list(told), [it.arg for it in arguments.args + arguments.kwonlyargs], name)
        for made in (it for it in declared if isinstance(it, ast.ClassDef)):
            names = {it.name if isinstance(it, ast.FunctionDef) else cast(Any, it).target.id for it in made.body}
            self.assertEqual(names - set(dir(getattr(_hashers, made.name))), set())

    def test_which_can_be_unwritten(self) -> None:
        def can(name: str) -> bool:
            try:
                hashers.new(name).unwrite(b"")
            except ValueError:
                return False
            return True
        self.assertEqual([name for name in NAMES if can(name)], ending("_unwrite"))
        self.assertEqual(ending("_write"), [name for name in NAMES if name not in ("spooky", "spooky_v1", *BY_THE_BLOCK)])

    def test_which_can_be_combined(self) -> None:
        halves = TEXT[:100], TEXT[100:]
        for name in NAMES:
            if name in ending("_combine"):
                one, two, whole = (hashers.new(name, it).intdigest() for it in (*halves, TEXT))
                self.assertEqual(hashers.combine(name, one, two, len(halves[1])), whole)
                over = 1 << 8 * hashers.new(name).digest_size
                self.assertLess(hashers.combine(name, over - 1, over - 1, TOP), over)
                for numbers in ((over, 0, 1), (0, over, 1), (0, 0, TOP + 1)):
                    self.assertRaises(ValueError, hashers.combine, name, *numbers)
            else:
                self.assertRaises(ValueError, hashers.combine, name, 1, 2, 3)

    def test_ending_by_zlib(self) -> None:
        self.assertEqual(hashers.crc32_ending(hashers.crc32(b"12345"), 0xCBF43926), b"6789")
        for length, answer in enumerate((0, 1, 0xFFFFFFFF, 0x12345678)):
            text = TEXT[:length * 17]
            ending = hashers.crc32_ending(zlib.crc32(text), answer)
            self.assertEqual((len(ending), zlib.crc32(text + ending)), (4, answer))
        for hash_, answer in ((1 << 32, 0), (0, 1 << 32), (-1, 0), (0, TOP)):
            self.assertRaises(ValueError, hashers.crc32_ending, hash_, answer)

    def test_which_have_32_bits(self) -> None:
        # A hash of 64 bits goes on from a number of 32 to larger ones. Every number of a hash's bits is a hash so far, which a write of nothing
        # keeps, and one of more bits is refused. elf has 28 bits, and null is 0.
        for name in NAMES:
            function, size = getattr(hashers, name), hashers.new(name).digest_size
            if name in ending("_write"):
                bits = int(TABLE[name]["bits"])
                self.assertEqual(bits > 32, any(function(bytes([byte]), hash=(1 << min(bits, 32)) - 1) >> 32 for byte in range(256)))
                top = (1 << bits) - 1
                self.assertEqual((function(b"", hash=top), hashers.new(name, hash=top).intdigest()), (top, top), name)
                self.assertRaises(ValueError, function, b"", hash=top + 1)
                self.assertRaises(ValueError, hashers.new, name, hash=top + 1)
                self.assertEqual(size, {0: 8, 28: 4}.get(bits, bits // 8), name)
            elif TABLE[name]["bits"] == "32":
                self.assertEqual(size, 4)
                self.assertLess(function(TEXT), 1 << 32)
            else:
                self.assertEqual(size, 8)
                self.assertGreater(function(TEXT), 1 << 32)

    def test_versions_agree(self) -> None:
        wanted = (C.parent / "VERSION").read_text(encoding="utf-8").strip()
        project = (C / "python" / "pyproject.toml").read_text(encoding="utf-8")
        self.assertEqual(hashers.__version__, wanted)
        self.assertEqual(re.findall(r'^version = "(.*)"', project, re.M), [wanted])
        self.assertIn(f'HASHERS_VERSION_STRING "{wanted}"', HEADER)


class Hashes(unittest.TestCase):
    def test_vectors(self) -> None:
        for line in (C.parent / "vectors.txt").read_text(encoding="utf-8").splitlines():
            if line.startswith("#"):
                continue
            name, start, digits, wanted = line.split()
            text = bytes.fromhex(digits.strip("-"))
            with self.subTest(line):
                if name == "poly61":
                    self.assertEqual(hashers.poly61(text, int(start, 16)), int(wanted, 16))
                    continue
                given: Dict[str, Any] = {} if start == "-" else {"key": bytes.fromhex(start)} if len(start) == 32 else {"seed": int(start, 16)}
                made, found = hashers.new(name, text, **given), getattr(hashers, name)(text, **given)
                self.assertEqual(made.hexdigest(), wanted)
                self.assertEqual(found, made.words() if name in WIDE else made.intdigest())

    def test_digests(self) -> None:
        self.assertEqual(hashers.new("fnv1a32", b"a").digest(), bytes.fromhex("e40c292c"))
        for name in NAMES:
            made = hashers.new(name, TEXT)
            self.assertEqual(made.name, name)
            self.assertEqual(int(made.hexdigest(), 16), made.intdigest())
            self.assertEqual(len(made.digest()), made.digest_size)

    def test_parts_and_copies(self) -> None:
        for name in NAMES:
            for cut in (0, 1, 95, 96, 191, 192, 193, 480, 500):
                with self.subTest(name, cut=cut):
                    made = hashers.new(name, TEXT[:cut])
                    copy = made.copy()
                    made.update(TEXT[cut:])
                    if name not in CUT:
                        self.assertEqual(made.intdigest(), getattr(hashers, name)(TEXT))
                    self.assertEqual(copy.intdigest(), getattr(hashers, name)(TEXT[:cut]))

    def test_unwrite(self) -> None:
        for name in ending("_unwrite"):
            made = hashers.new(name, TEXT)
            made.update(b"more")
            self.assertNotEqual(made.intdigest(), getattr(hashers, name)(TEXT))
            made.unwrite(bytearray(b"more"))
            self.assertEqual(made.intdigest(), getattr(hashers, name)(TEXT))

    def test_seeds_and_128_bits(self) -> None:
        for name, whole in (("spooky", hashers.spooky128), ("spooky_v1", hashers.spooky128_v1)):
            for cut in (0, 10, 200, 500):
                made = hashers.new(name, TEXT[:cut], seeds=(1, TOP))
                made.update(TEXT[cut:])
                self.assertEqual(made.words(), whole(TEXT, 1, TOP))
                self.assertEqual(made.intdigest(), made.words()[0])
            self.assertEqual(whole(TEXT)[0], getattr(hashers, name)(TEXT))
            self.assertNotEqual(whole(TEXT, 1), whole(TEXT))

    def test_128_bits_as_hashsum_has_them(self) -> None:
        for text in (b"", b"a", TEXT):
            made, (first, second) = hashers.new("spooky128", text), hashers.spooky128(text)
            self.assertEqual((made.name, made.digest_size, made.words()), ("spooky128", 16, (first, second)))
            self.assertEqual(made.hexdigest(), f"{first:016x}{second:016x}")
            self.assertEqual(made.intdigest(), first << 64 | second)
        self.assertEqual(hashers.new("spooky128", b"a", seeds=(1, TOP)).words(), hashers.spooky128(b"a", 1, TOP))
        for name in WIDE:
            self.assertRaises(ValueError, hashers.hash_lines, name, b"")
            self.assertRaises(ValueError, hashers.hash_column, name, array("I", [0]), b"")

    def test_seeds_and_keys(self) -> None:
        key = bytes(range(16))
        for name in BY_THE_BLOCK:
            start: Dict[str, Any] = {"key": bytearray(key)} if name.startswith("sip") else {"seed": (1 << 32) - 1}
            function = getattr(hashers, name)
            self.assertNotEqual(function(TEXT, **start), function(TEXT))
            for cut in (0, 1, 17, 240, 241, 500):
                made = hashers.new(name, TEXT[:cut], **start)
                made.update(TEXT[cut:])
                self.assertEqual(made.intdigest(), function(TEXT, **start), (name, cut))
        for name, whole in (("murmur3_128", hashers.murmur3_128), ("xxh128", hashers.xxh128)):
            made = hashers.new(name, TEXT, seed=TOP)
            self.assertEqual(made.words(), whole(TEXT, TOP))
            self.assertEqual(len(made.digest()), 16)
        self.assertEqual(hashers.xxh128(TEXT, TOP)[0], hashers.xxh3(TEXT, seed=TOP))

    def test_seeds_and_keys_that_are_refused(self) -> None:
        for name, start in (("xxh32", {"seed": 1 << 32}), ("murmur3_32", {"seed": -1}), ("xxh3", {"seed": 1 << 64}), ("djb2", {"seed": 0}),
                            ("siphash13", {"seed": 0}), ("siphash13", {"key": bytes(15)}), ("xxh64", {"key": bytes(16)}),
                            ("xxh64", {"seeds": (1, 2)})):
            self.assertRaises(ValueError, hashers.new, name, b"", **cast(Any, start))
        self.assertRaises(ValueError, hashers.xxh32, b"", seed=1 << 32)
        self.assertRaises(ValueError, hashers.siphash24, b"", key=bytes(17))
        self.assertRaises(TypeError, hashers.siphash24, b"", key=5)
        self.assertRaises(TypeError, hashers.new, "siphash24", b"", key=5)

        for why, call in (("-1 is not from 0 to 2..32 - 1", lambda: hashers.murmur3_32(b"", -1)),
                          ("a number of 1329 bits is not from 0 to 2..64 - 1", lambda: hashers.xxh64(b"", 10**400)),
                          ("4294967296 is not from 0 to 2..32 - 1", lambda: hashers.xxh32(b"", seed=1 << 32))):
            self.assertRaisesRegex(ValueError, why, call)

    def test_names_and_places_of_the_peers(self) -> None:
        self.assertEqual((hashers.xxh64(b"a", 7), hashers.crc32(b"b", 3)), (hashers.xxh64(b"a", seed=7), zlib.crc32(b"b", 3)))
        self.assertEqual((hashers.xxh3_64, hashers.xxh3_128), (hashers.xxh3, hashers.xxh128))
        for name in ("xxh32", "xxh64", "xxh3_64", "xxh3_128"):
            row = {"xxh3_64": "xxh3", "xxh3_128": "xxh128"}.get(name, name)
            self.assertEqual(getattr(hashers, name + "_hexdigest")(TEXT, 7), hashers.new(row, TEXT, seed=7).hexdigest())
        self.assertEqual(list(inspect.signature(hashers.Bloom).parameters), ["bits", "probes", "hashes", "buffer"])
        for name in set(hashers.__all__) - {"Hash", "algorithms_available", "Function"}:
            inspect.signature(getattr(hashers, name))

    def test_going_on_from_a_number(self) -> None:
        one, two = TEXT[:100], TEXT[100:]
        for name in NAMES:
            function = getattr(hashers, name)
            if name in ("spooky", "spooky_v1", *BY_THE_BLOCK):
                self.assertRaises(TypeError if name in BY_THE_BLOCK else ValueError, function, two, hash=function(one))
                self.assertRaises(ValueError, hashers.new, name, hash=0)
                self.assertRaises(ValueError, hashers.new(name, one).unwrite, one)
                continue
            made = hashers.new(name, one)
            made.update(two)
            self.assertEqual(function(two, hash=function(one)), made.intdigest(), name)
            self.assertEqual(function(bytearray(two), hash=function(one)), made.intdigest(), name)
            self.assertEqual(hashers.new(name, two, hash=function(one)).intdigest(), made.intdigest(), name)
            self.assertEqual(hashers.new(name, hash=function(one)).intdigest(), function(one), name)
            for number in (-1, 1 << 64):
                self.assertRaises(ValueError, function, one, hash=number)
                self.assertRaises(ValueError, hashers.new, name, hash=number)
        self.assertEqual(hashers.crc32(two, hash=zlib.crc32(one)), zlib.crc32(two, zlib.crc32(one)))
        self.assertRaises(ValueError, hashers.new, "spooky128", hash=0)
        self.assertRaises(TypeError, hashers.crc32, one, hash="0")

    def test_names_in_either_case(self) -> None:
        for name in hashers.algorithms_available:
            self.assertEqual(hashers.new(name.upper()).name, name)
        self.assertEqual(hashers.hash_lines("FNV1a64", b"a"), hashers.hash_lines("fnv1a64", b"a"))
        self.assertEqual(hashers.combine("CRC32", 0, hashers.crc32(b"a"), 1), hashers.crc32(b"a"))

    def test_what_is_refused(self) -> None:
        self.assertRaises(ValueError, hashers.new, "md5")
        self.assertRaises(TypeError, hashers.new, 1)
        self.assertRaises(ValueError, hashers.new, "djb2", usedforsecurity=True)
        self.assertRaises(ValueError, hashers.new, "djb2", seeds=(1, 2))
        for seeds in ((), (1,), (1, 2, 3)):
            self.assertRaises(ValueError, hashers.new, "spooky", seeds=seeds)
        self.assertRaises(ValueError, hashers.new("djb2").words)
        self.assertRaises(ValueError, hashers.spooky128, b"", -1)
        self.assertRaises(ValueError, hashers.new, "spooky", seeds=(0, 1 << 64))
        self.assertRaises(ValueError, hashers.combine, "sdbm", 0, 1 << 64, 0)
        self.assertRaises(TypeError, hashers.spooky128, b"", 1.5)
        djb2 = hashers.new("djb2")
        calls: List[Callable[[Any], object]] = [hashers.djb2, hashers.spooky128, djb2.update, djb2.unwrite, hashers.new("spooky").update]
        for call in calls:
            self.assertRaises(TypeError, call, "text")
            self.assertRaises(BufferError, call, memoryview(b"text")[::2])

    def test_arguments_that_are_refused(self) -> None:
        self.assertEqual(hashers.djb2(data=b"a"), hashers.djb2(b"a"))
        self.assertEqual(hashers.poly61(key=7, data=b"a"), hashers.poly61(b"a", 7))
        djb2, poly61 = cast(Any, hashers.djb2), cast(Any, hashers.poly61)
        calls: Dict[str, Callable[[], object]] = {
            "misses the argument 'data'": lambda: djb2(), "misses the argument 'key'": lambda: poly61(b"a"),
            "takes 2 argument.s. without": lambda: djb2(b"a", 1, 2), "cannot be interpreted": lambda: djb2(b"a", b"a"),
            "'data' twice": lambda: djb2(b"a", data=b"a"), "'key' twice": lambda: poly61(b"a", 7, key=7),
            "'text' unexpectedly": lambda: djb2(text=b"a"), "new.. takes 2 argument.s. without": lambda: cast(Any, hashers.new)("djb2", b"", 7),
            "hashers.new makes": lambda: hashers.Hash()}
        for why, call in calls.items():
            self.assertRaisesRegex(TypeError, why, call)

    def test_documentation(self) -> None:
        self.assertEqual(doctest.testmod(hashers).failed, 0)
        readme = (C.parent / "README.md").read_text(encoding="utf-8")
        example = re.findall(r"```python\n(.*?)```", readme, re.S)
        self.assertEqual(len(example), 1)
        with contextlib.redirect_stdout(io.StringIO()) as said:
            exec(example[0], {})
        self.assertEqual(said.getvalue().strip(), example[0].strip().split("  # prints ")[1])

    def test_the_forged_texts(self) -> None:
        page = (C.parent / "docs" / "CHOOSING.md").read_text(encoding="utf-8")
        examples = re.findall(r"```python\n(.*?)```", page, re.S)
        self.assertEqual(len(examples), 2)
        for example in examples:
            with contextlib.redirect_stdout(io.StringIO()) as said:
                exec(example, {})
            self.assertEqual(said.getvalue().strip(), example.strip().split("  # prints ")[1])

    @unittest.skipUnless(hasattr(hashlib, "file_digest"), "hashlib has it from 3.11 on")
    def test_files_by_hashlib(self) -> None:
        file_digest: Any = getattr(hashlib, "file_digest")
        for name in ("xxh128", "fnv1a64"):
            digest = file_digest(io.BytesIO(TEXT), lambda: hashers.new(name)).digest()
            self.assertEqual(digest, hashers.new(name, TEXT).digest())

    def test_the_page(self) -> None:
        # Each line of the page's example runs, and the literals behind # are what it gives.
        page = (C.parent / "docs" / "C.md").read_text(encoding="utf-8")
        names: Dict[str, Any] = {"hash1": 1, "hash2": 2, "length2": 3, "data": b"a\nb", "offsets": array("I", [0, 3]), "out": array("Q", [0])}
        compared = 0
        for line in re.findall(r"```python\n(.*?)```", page, re.S)[0].splitlines():
            code, _, told = line.partition("  #")
            try:
                value = eval(code, names)
            except SyntaxError:
                exec(code, names)
                continue
            with contextlib.suppress(ValueError, SyntaxError):
                wanted = ast.literal_eval(told.split(", as ")[0].strip())
                self.assertEqual(value, wanted, line)
                compared += 1
        self.assertGreaterEqual(compared, 5)


class Copies(unittest.TestCase):
    def ways(self) -> Dict[str, Callable[[Any], Any]]:
        """The ways to copy an object."""
        ways: Dict[str, Callable[[Any], Any]] = {"copy()": lambda made: made.copy(), "copy.copy": copy.copy, "copy.deepcopy": copy.deepcopy}
        for protocol in range(pickle.HIGHEST_PROTOCOL + 1):
            ways[f"pickle {protocol}"] = functools.partial(self.pickled, protocol)
        return ways

    @staticmethod
    def pickled(protocol: int, made: Any) -> Any:
        return pickle.loads(pickle.dumps(made, protocol))

    def test_a_copy_goes_on_by_itself(self) -> None:
        for name in hashers.algorithms_available:
            for way, copied in self.ways().items():
                with self.subTest(name, way=way):
                    made = hashers.new(name, TEXT)
                    before = made.hexdigest()
                    other = copied(made)
                    self.assertEqual((type(other), other.name, other.hexdigest()), (type(made), name, before))
                    other.update(b"other")
                    self.assertEqual(made.hexdigest(), before)
                    made.update(b"more")
                    wanted = hashers.new(name, TEXT)
                    wanted.update(b"other")
                    self.assertEqual(other.hexdigest(), wanted.hexdigest())
                    other.reset()
                    self.assertEqual(other.hexdigest(), hashers.new(name).hexdigest())

    def test_a_copy_keeps_where_it_began(self) -> None:
        starts: List[Tuple[str, Dict[str, Any]]] = [("djb2", {"hash": 7}), ("lookup3", {"hash": TOP}), ("spooky", {"seeds": (1, TOP)}),
                                                    ("spooky128", {"seeds": (TOP, 2)}), ("xxh64", {"seed": TOP}), ("xxh128", {"seed": 1}),
                                                    ("siphash24", {"key": bytes(range(16))})]
        for name, start in starts:
            for way, copied in self.ways().items():
                made = copied(hashers.new(name, TEXT, **start))
                self.assertEqual(made.hexdigest(), hashers.new(name, TEXT, **start).hexdigest(), (name, way))
                made.reset()
                made.update(b"a")
                self.assertEqual(made.hexdigest(), hashers.new(name, b"a", **start).hexdigest(), (name, way))

    def test_another_process(self) -> None:
        filter_ = hashers.Bloom(1000, 7)
        filter_.add(b"key")
        sent = [[hashers.new(name, TEXT) for name in NAMES], filter_, {name: getattr(hashers, name) for name in NAMES}]
        code = ("import pickle, sys; made, filter_, functions = pickle.load(sys.stdin.buffer); [it.update(b'more') for it in made];"
                "print([it.hexdigest() for it in made], b'key' in filter_, [it.__name__ for it in functions.values()])")
        done = subprocess.run([sys.executable, "-c", code], input=pickle.dumps(sent), stdout=subprocess.PIPE, check=True)
        for made in cast(List[hashers.Hash], sent[0]):
            made.update(b"more")
        wanted = f"{[made.hexdigest() for made in cast(List[hashers.Hash], sent[0])]} True {NAMES}\n"
        self.assertEqual(done.stdout.decode(), wanted)

    def test_states_that_are_none(self) -> None:
        made = hashers.new("spooky", TEXT)
        function, (name, seeds, state) = cast(Tuple[Callable[..., Any], Tuple[Any, ...]], made.__reduce__())
        self.assertEqual(function(name, seeds, state).words(), made.words())
        for other in (b"", state[:-1], state + b"x"):
            self.assertRaises(ValueError, function, name, seeds, other)
        self.assertEqual(function(name, seeds, bytes(len(state))).words(), (0, 0))

    def test_pickles_of_the_package_before(self) -> None:
        with self.assertRaisesRegex(pickle.UnpicklingError, "where keys had other places"):
            pickle.loads(b"chashers._bloom\n_revived\n(I64\nI3\nVfnv1a64_lookup3\nc_codecs\nencode\n"
                         b"(V\\u0000\\u0010\\u0010\\u0010\\u0000\\u0000\\u0000\\u0000\nVlatin1\ntRtR.")
        for name in ("_NumberHash", "_TextHash", "_SpookyHash", "_Poly61Hash", "fnv1a64"):
            for loads in (pickle.loads, pickle._loads):  # type: ignore[attr-defined]
                with self.assertRaisesRegex(pickle.UnpicklingError, "an older version of the package hashers"):
                    loads(b"chashers._hashes\n%s\n(Vdjb2\nI5381\nI177604\ntR." % name.encode())

    def test_other_interpreters(self) -> None:
        # Each has types and names of its own; from 3.12 on each has a GIL of its own too, and they run side by side.
        name = next((it for it in ("_interpreters", "_xxsubinterpreters") if importlib.util.find_spec(it)), None)
        if name is None:
            self.skipTest("this Python has no other interpreters")
        code = ("import hashers, pickle; made = hashers.new('SPOOKY', bytes(5000)); one = hashers.Bloom(1000, 3); one.add(b'a')\n"
                "for _ in range(2000): made = pickle.loads(pickle.dumps(made.copy())); made.update(b'more'); one |= one.copy()\n"
                "assert made.intdigest() == hashers.spooky(bytes(5000) + 2000 * b'more') and b'a' in one and type(made) is hashers.Hash")
        run = (f"import sys, threading, {name} as them; run = getattr(them, 'exec', None) or them.run_string; code = {code!r}; exec(code)\n"
               f"import hashers; kept = hashers.new('djb2', b'a')\n"
               "ids = [them.create() for _ in range(4)]; said = []\n"
               "threads = [threading.Thread(target=lambda id=id: said.append(run(id, code))) for id in ids]\n"
               "[it.start() for it in threads]; [it.join() for it in threads]; [them.destroy(id) for id in ids]\n"
               "assert said == [None] * 4, said\n"
               "exec(code); assert kept.copy().hexdigest() == hashers.new('djb2', b'a').hexdigest()")
        done = subprocess.run([sys.executable, "-c", run], stdout=subprocess.PIPE, stderr=subprocess.PIPE, cwd=tempfile.gettempdir())
        self.assertEqual((done.returncode, done.stdout, done.stderr.decode()), (0, b"", ""))


class Manners(unittest.TestCase):
    """A hash object's manners, as hashlib has them."""

    def test_block_sizes(self) -> None:
        self.assertEqual(sorted(hashers.algorithms_available), sorted(set(TABLE) - {"poly61"}))
        for name in hashers.algorithms_available:
            self.assertEqual(hashers.new(name).block_size, int(TABLE[name]["block"]))
            self.assertIn(name, repr(hashers.new(name)))

    def test_a_handler_that_updates_the_same_hash(self) -> None:
        # The signal comes during the long update, if not before, and the handler runs once the library has come back from that: its bytes
        # come behind, if not in front, and none are lost. A deadlock is ended by run.
        code = """
import signal, sys, time
import hashers
data, behind = bytes(20_000_000), 0
for name in sys.argv[1:]:
    for part in (data, bytearray(data)):
        made, told = hashers.new(name), []
        def handler(*_):
            made.update(b"handler")
            told.append(made.hexdigest())
        signal.signal(signal.SIGALRM, handler)
        signal.setitimer(signal.ITIMER_REAL, 0.001)
        made.update(part)
        while not told:
            time.sleep(0.001)
        if told == [made.hexdigest()]:
            behind += 1
            parts = (part, b"handler")
        else:
            assert told == [hashers.new(name, b"handler").hexdigest()], (name, type(part))
            parts = (b"handler", part)
        wanted = hashers.new(name)
        for it in parts:
            wanted.update(it)
        assert made.hexdigest() == wanted.hexdigest(), (name, type(part), parts[0] is part)
assert behind
"""
        slow = [name for name in hashers.algorithms_available if name not in ("null", "passthrough")]
        subprocess.run([sys.executable, "-c", code, *slow], check=True, timeout=300)

    def test_what_hashlib_tests(self) -> None:
        try:
            test_hashlib: Any = importlib.import_module("test.test_hashlib")
        except ImportError:
            self.skipTest("for want of CPython's own tests, Debian's libpython3.N-testsuite")
        names = {name: functools.partial(hashers.new, name) for name in hashers.algorithms_available}
        uncut = {name: make for name, make in names.items() if name not in CUT}
        # their tests call hashlib itself, too
        stands_in = types.SimpleNamespace(new=hashers.new, sha1=names["spooky"], sha256=names["spooky"],
                                          file_digest=getattr(hashlib, "file_digest", None))

        class Theirs(test_hashlib.HashLibTestCase):  # type: ignore[misc]
            supported_hash_names = tuple(names)

            def __init__(self, method: str, made: Dict[str, Any]) -> None:
                unittest.TestCase.__init__(self, method)
                self.constructors_to_test = {name: {make} for name, make in made.items()}

            def test_no_text(self) -> None:
                for name in names:
                    self.check_no_unicode(name)

            def test_sizes_and_names(self) -> None:
                for name, make in names.items():
                    self.check_blocksize_name(name, make().block_size, make().digest_size)

        tests: List[unittest.TestCase] = [Theirs(method, names) for method in (
            "test_hash_array", "test_unknown_hash", "test_hexdigest", "test_name_attribute", "test_threaded_hashing", "test_no_text",
            "test_sizes_and_names")]
        tests.append(Theirs("test_large_update", uncut))
        if stands_in.file_digest:
            tests.append(test_hashlib.KDFTests("test_file_digest"))
        result = unittest.TestResult()
        with tempfile.TemporaryDirectory() as room, unittest.mock.patch.object(test_hashlib, "hashlib", stands_in):
            before = os.getcwd()
            os.chdir(room)
            try:
                unittest.TestSuite(tests).run(result)
            finally:
                os.chdir(before)
        self.assertEqual(result.failures + result.errors, [])
        self.assertEqual((result.testsRun, result.skipped), (len(tests), []))


class Buffers(unittest.TestCase):
    def test_each_sort_of_buffer(self) -> None:
        wanted = hashers.fnv1a64(TEXT)
        with mmap.mmap(-1, len(TEXT)) as mapped:
            mapped.write(TEXT)
            self.assertEqual(hashers.fnv1a64(mapped), wanted)
        buffers: List[Any] = [bytearray(TEXT), memoryview(TEXT), memoryview(bytearray(TEXT)), array("H", TEXT), memoryview(b"x" + TEXT)[1:],
                              memoryview(TEXT).cast("B", (5, 100)), (ctypes.c_char * 500).from_buffer_copy(TEXT)]
        for data in buffers:
            self.assertEqual(hashers.fnv1a64(data), wanted, data)
            self.assertEqual(hashers.new("fnv1a64", data).intdigest(), wanted, data)
        empty: List[Any] = [b"", bytearray(), array("Q"), memoryview(b"")]
        for nothing in empty:
            self.assertEqual(hashers.fnv1a64(nothing), 14695981039346656037)

    def test_a_buffer_is_read_where_it_lies_and_let_go(self) -> None:
        data = bytearray(TEXT)
        # a bytearray that is being read cannot grow
        long, refused = bytearray(50_000_000), 0
        thread = threading.Thread(target=hashers.oaat, args=(long,))
        thread.start()
        while thread.is_alive():
            try:
                long.append(0)
                time.sleep(0.001)
            except BufferError:
                refused += 1
        self.assertGreater(refused, 0)
        hashers.spooky(data)
        hashers.new("djb2", data).unwrite(data)
        hashers.hash_lines("djb2", data)
        self.assertRaises(ValueError, hashers.hash_column, "djb2", array("I", [0, 501]), data)
        data.append(0)

    def test_nothing_is_held_behind_a_call(self) -> None:
        # Whether a call answers or refuses, its arguments can be resized, and have no more references than before; memory is given back.
        class Odd:
            def __index__(self) -> int:
                raise KeyError("odd")
        long, short, few = bytearray(5000), bytearray(b"abcde"), bytearray(8)
        offsets, falling, room = array("I", [0, 3, 5]), array("I", [3, 1, 2]), array("Q", [0, 0])
        made, spooky, keeps, text, odd = hashers.new("djb2"), hashers.new("spooky"), hashers.new("xxh64"), "text", Odd()
        one, two = hashers.Bloom(1000, 3), hashers.Bloom(1000, 4)
        held: List[Any] = [long, short, few, offsets, falling, room, made, spooky, keeps, text, odd, one, two, one.buffer, hashers.Hash,
                           hashers.Bloom, _hashers._revived]
        state = cast(Any, spooky.__reduce__())[1][2]
        scope = {**globals(), **locals()}
        calls: List[Callable[[], object]] = [cast(Any, eval("lambda: " + it, scope)) for it in (
            "hashers.djb2(long)", "hashers.djb2(text)", "hashers.djb2(short, hash=7)", "hashers.djb2(short, hash=odd)",
            "hashers.djb2(short, hash=1 << 40)", "hashers.djb2()",
            "hashers.djb2(short, short)", "hashers.djb2(short, x=short)", "hashers.djb2(short, data=short)", "hashers.spooky(short, hash=1)",
            "hashers.djb2(memoryview(short)[::2])", "hashers.new('djb2', long)", "hashers.new('DJB2', text)", "hashers.new(text)",
            "hashers.new(long)", "hashers.new('POLY61', long, key=7)", "hashers.new('spooky', long, seeds=(1, 2))",
            "hashers.new('spooky', long, seeds=(1, odd))",
            "hashers.new('spooky', long, seeds=text)", "hashers.new('spooky', text)", "hashers.new('poly61', long, key=odd)",
            "hashers.new('poly61', long, key=7)", "hashers.new('djb2', long, key=7)", "hashers.new('djb2', long, hash=odd)", "hashers.Hash()",
            "made.update(long)", "made.update(text)", "made.unwrite(long)", "spooky.unwrite(long)", "spooky.update(long)", "made.words()",
            "spooky.words()", "spooky.copy()", "copy.deepcopy(made)", "pickle.loads(pickle.dumps(spooky))", "spooky.reset()", "repr(made)",
            "hashers.new('xxh64', long).copy()", "hashers.new('xxh3', text)", "keeps.update(long) or keeps.reset()", "keeps.unwrite(long)",
            "pickle.loads(pickle.dumps(hashers.new('siphash24', long)))", "_hashers._revived('xxh32', (1, 2), state).hexdigest()",
            "made.hexdigest()", "(made.name, made.digest_size, made.block_size)", "_hashers._revived(text, (1, 2), state)",
            "_hashers._revived('spooky', (1, 2), state)", "_hashers._revived('djb2', (1, 2), state)", "_hashers._revived(text)",
            "hashers.spooky128(long, 1, 2)", "hashers.number_hash(1, 1 << 70, 3)", "hashers.number_hash(odd, odd, 1 << 130)",
            "hashers.map_hash(long, bytes(296))", "hashers.map_hash(long, text)", "hashers.map_hash(text, bytes(296))",
            "hashers.number_column(array('Q', (1, 2)), 1 << 70, 3)", "_hashers._number_column(long, 1, 2, long)", "hashers.xxh128(long, 5)",
            "hashers.new('siphash13', long, key=bytes(16))", "hashers.new('siphash13', long, key=text)", "hashers.xxh64(long, seed=odd)",
            "hashers.spooky128(long, odd)", "hashers.spooky128_v1(text)", "hashers.poly61(long, 1)",
            "hashers.poly61(long, odd)", "hashers.poly61_pair(long, 1, odd)", "hashers.poly61_pair(long, 1, 2)",
            "hashers.poly61_state(long, 1)", "hashers.poly61_state(few, 1)", "hashers.poly61_combine(1, 2, 3, odd)",
            "hashers.combine('crc32', 1, 2, odd)", "hashers.combine('djb2', 1, 2, 3)", "hashers.crc32_ending(1, odd)",
            "hashers.hash_lines('djb2', long)", "hashers.hash_lines(text, long)", "hashers.hash_lines('djb2', text)",
            "_hashers._lines(1, room, room)", "_hashers._lines(99, short, room)", "_hashers._lines(1, short, short)",
            "_hashers._lines(1, short, bytes(8))", "hashers.hash_column('djb2', offsets, short, room)",
            "hashers.hash_column('djb2', falling, short, room)", "hashers.hash_column('djb2', offsets, short, bytes(16))",
            "_hashers._column(1, 32, offsets, room, room)", "_hashers._column(1, 64, short, short, room)",
            "_hashers._column(1, 32, text, short, room)", "_hashers._column(99, 32, offsets, short, room)",
            "hashers.Bloom(1000, 3)", "hashers.Bloom(0, 3)", "hashers.Bloom(10, odd)", "hashers.Bloom(10, 3, hashes=text)",
            "hashers.Bloom(10, 3, buffer=few)", "hashers.Bloom(10, 3, buffer=short)", "hashers.Bloom(10, 3, buffer=text)", "one.add(long)",
            "one.add(text)", "one.add(one.buffer)", "long in one", "text in one", "_hashers._unite(one, two)", "_hashers._unite(one, one)",
            "_hashers._unite(one, text)", "one | two", "one | one", "one.add_lines(long)", "one.add_lines(one.buffer)",
            "one.add_lines(text)", "one.add_column(offsets, short)", "one.add_column(falling, short)", "one.add_column(offsets, one.buffer)",
            "one.add_column(offsets, text)", "one._add_column(64, offsets, short)", "one.found(offsets, short)", "one.found(falling, short)",
            "one.found(text, short)", "one._found(64, offsets, text)", "len(one)", "bool(one)", "pickle.loads(pickle.dumps(one))")]

        def often(call: Callable[[], object], times: int) -> None:
            for _ in range(times):
                with contextlib.suppress(TypeError, ValueError, BufferError, KeyError):
                    call()
            gc.collect()

        # what a few calls keep for the next ones is not of interest
        tracemalloc.start()
        self.addCleanup(tracemalloc.stop)
        for number, call in enumerate(calls):
            before, memory = [sys.getrefcount(it) for it in held], []
            often(call, 200)
            for _ in range(4):
                often(call, 300)
                memory.append(tracemalloc.get_traced_memory()[0])
            self.assertLess(min(after - first for first, after in zip(memory, memory[1:])), 8000, number)
            for it, count in zip(held, before):
                self.assertLess(abs(sys.getrefcount(it) - count), 50, number)
            for it in (long, short, few, cast(bytearray, one.buffer)):
                it.append(0)
                it.pop()
            for many in (offsets, falling, room):
                many.append(0)
                many.pop()

    def test_want_of_memory(self) -> None:
        # Each request for memory of a call is refused in turn: it raises MemoryError, or does without, and the next call is as ever.
        try:
            own: Any = importlib.import_module("_testcapi")
        except ImportError:
            self.skipTest("this Python has not CPython's own tests")
        long, offsets, one = bytes(5000), array("I", [0, 3, 5]), hashers.Bloom(1000, 3)
        keeps, spooky = hashers.new("xxh64"), hashers.new("spooky")
        state = cast(Any, spooky.__reduce__())[1]
        calls: List[Callable[[], object]] = [
            lambda: hashers.djb2(long), lambda: hashers.new("DJB2", long), lambda: hashers.new("spooky", long, seeds=(TOP, TOP)),
            lambda: hashers.new("xxh3", long), lambda: hashers.new("poly61", long, key=TOP), lambda: keeps.update(long), keeps.copy,
            spooky.copy, keeps.__reduce__, spooky.intdigest, spooky.hexdigest, spooky.digest, spooky.words, lambda: _hashers._revived(*state),
            lambda: hashers.Bloom(1000, 3), lambda: one.add(b"a"), lambda: one.add_lines(long), lambda: one.add_column(offsets, b"abcde"),
            lambda: one.found(offsets, b"abcde"), lambda: one | one, lambda: hashers.hash_column("djb2", offsets, b"abcde"),
            lambda: hashers.hash_lines("djb2", long), lambda: hashers.combine("loselose", TOP, 2, 3), lambda: hashers.crc32_ending(1, 2)]
        refused = 0
        for call in calls:
            for number in range(40):
                own.set_nomemory(number, number + 1)
                try:
                    call()
                except MemoryError:
                    refused += 1
                finally:
                    own.remove_mem_hooks()
            call()
        self.assertGreater(refused, 60)
        self.assertIn(keeps.intdigest(), [hashers.xxh64(long * times) for times in range(42)])

    def test_a_filter_whose_buffer_became_read_only(self) -> None:
        # An array of numpy can become so; of Python's own objects none can, so the field is changed by which a view says that it is.
        view = memoryview(bytearray(128))
        other, size = view.toreadonly(), memoryview.__basicsize__ // 4
        made = hashers.Bloom(1000, 3, buffer=view)
        fields, others = ((ctypes.c_int * size).from_address(id(it)) for it in (view, other))
        field, = (i for i in range(4, size) if (fields[i], others[i]) == (0, 1))
        fields[field] = 1
        self.assertTrue(view.readonly)
        self.assertRaises(BufferError, made.add, b"a")
        self.assertRaises(BufferError, made.add_lines, b"a")
        self.assertRaises(BufferError, made.add_column, array("I", [0, 1]), b"a")
        self.assertRaises(BufferError, made.update, hashers.Bloom(1000, 3))
        self.assertNotIn(b"a", made)
        fields[field] = 0
        self.assertTrue(made.add(b"a"))
        self.assertIn(b"a", made)

    def test_a_filter_whose_buffer_shrank(self) -> None:
        made = hashers.Bloom(1000, 3)
        cast(bytearray, made.buffer).pop()
        for call in (lambda: made.add(b"a"), lambda: b"a" in made, lambda: len(made)):
            self.assertRaises(ValueError, call)

    def test_other_threads_run_during_a_call(self) -> None:
        data, turns, spans = bytes(200_000_000), 0, []

        def run() -> None:
            start = time.monotonic()
            hashers.oaat(data)
            spans.append(time.monotonic() - start)
        thread = threading.Thread(target=run)
        thread.start()
        while thread.is_alive():
            time.sleep(0.001)
            turns += 1
        self.assertGreater(turns, 10, f"a call of {spans[0]} seconds")

    def test_threads_that_update_one_hash(self) -> None:
        def updated(made: hashers.Hash, part: bytes, times: int) -> hashers.Hash:
            for _ in range(times):
                made.update(part)
                made.intdigest()
            return made
        for name, length in (("spooky", 5_000_000), ("spooky128", 5_000_000), ("fxhash", 5_000_000), ("xxh64", 200_000)):
            made, part = hashers.new(name), bytes(length)
            threads = [threading.Thread(target=updated, args=(made, part, 20)) for _ in range(4)]
            for thread in threads:
                thread.start()
            for thread in threads:
                thread.join()
            self.assertEqual(made.hexdigest(), updated(hashers.new(name), part, 80).hexdigest())

    def test_a_reset_while_another_thread_updates(self) -> None:
        # it comes before an update or behind, so what is left is the hash of some of the last parts
        part, made, whole = bytes(range(256)) * 20_000, hashers.new("spooky"), hashers.new("spooky")
        wanted = {whole.intdigest()}
        for _ in range(20):
            whole.update(part)
            wanted.add(whole.intdigest())

        def updated() -> None:
            for _ in range(20):
                made.update(part)
        thread = threading.Thread(target=updated)
        thread.start()
        while thread.is_alive():
            time.sleep(0.0002)
            made.reset()
            self.assertIn(made.intdigest(), wanted)
        self.assertIn(made.intdigest(), wanted)


class Numbers(unittest.TestCase):
    def test_numbers_under_a_key(self) -> None:
        top = (1 << 128) - 1
        for multiplier, addend in ((0, 0), (1 << 64, 7), (top, top), (0x0123456789ABCDEF << 64 | 0x0FEDCBA987654321, 1 << 127)):
            numbers = array("Q", (0, 1, 255, 1 << 32, TOP))
            wanted = [(multiplier * number + addend) % (1 << 128) >> 64 for number in numbers]
            self.assertEqual([hashers.number_hash(number, multiplier, addend) for number in numbers], wanted)
            self.assertEqual(list(hashers.number_column(numbers, multiplier, addend)), wanted)
            out = (ctypes.c_uint64 * 5)()
            self.assertEqual(list(hashers.number_column(numbers, multiplier, addend, out)), wanted)
        self.assertEqual(list(hashers.number_column(array("q", ()), 1, 2)), [])

    def test_keys_of_maps(self) -> None:
        multipliers = [0x0123456789ABCDEF0FEDCBA987654321]
        while len(multipliers) < 17:
            multipliers.append((multipliers[-1] * 0x9E3779B97F4A7C15F39CC0605CEDC835 + 1) % (1 << 128))
        wide = [*multipliers, 0xDEADBEEFCAFEBABE8BADF00DDEADC0DE]
        key = array("Q", [word for it in wide for word in (it >> 64, it % (1 << 64))] + [1234567])
        data = bytes(at * 37 % 256 for at in range(200))
        for length, wanted in ((0, 16045690984503098046), (9, 4622286899896622519), (128, 695559789670581238), (129, 1833634219120750240), (200, 6365603775763803409)):
            self.assertEqual(hashers.map_hash(data[:length], key), wanted)
        self.assertEqual(hashers.map_hash((255).to_bytes(8, "little"), key), hashers.number_hash(255, wide[0], wide[17]))
        for wrong in (b"", bytes(295), bytes(297)):
            self.assertRaises(ValueError, hashers.map_hash, data, wrong)

    def test_numbers_that_are_refused(self) -> None:
        numbers = array("Q", (1, 2))
        for given in ((-1, 0, 0), (1 << 64, 0, 0), (0, -1, 0), (0, 1 << 128, 0), (0, 0, 1 << 128)):
            self.assertRaises(ValueError, hashers.number_hash, *given)
        self.assertRaises(TypeError, hashers.number_hash, 1.5, 0, 0)
        self.assertRaises(TypeError, hashers.number_hash, 1, 0, "0")
        self.assertRaises(TypeError, hashers.number_column, array("I", (1,)), 1, 2)
        self.assertRaises(TypeError, hashers.number_column, bytes(8), 1, 2)
        self.assertRaises(ValueError, hashers.number_column, numbers, 1, 1 << 128)
        for out in (numbers, array("Q", (1,)), bytearray(17)):
            self.assertRaises(ValueError, hashers.number_column, numbers, 1, 2, out)
        self.assertRaises(BufferError, hashers.number_column, numbers, 1, 2, bytes(16))


class ManyTexts(unittest.TestCase):
    def test_lines(self) -> None:
        for data in (b"", b"\n", b"a", b"a\n", b"a\n\nb", b"\n\n", TEXT):
            lines = data.split(b"\n")
            lines = lines if lines[-1] else lines[:-1]
            for name in NAMES:
                self.assertEqual(list(hashers.hash_lines(name, bytearray(data))), [getattr(hashers, name)(it) for it in lines], (name, data))
        self.assertRaises(ValueError, hashers.hash_lines, "md5", b"")
        self.assertRaises(TypeError, hashers.hash_lines, "djb2", "text")
        self.assertRaises(BufferError, _hashers._lines, 1, b"a", bytes(8))

    def test_columns(self) -> None:
        places = [0, 0, 3, 100, 500]
        columns: List[Any] = [array("I", places), array("i", places), array("L", places), array("q", places)]
        columns += [(ctypes.c_uint32 * 5)(*places), (ctypes.c_int64 * 5)(*places)]
        for name in NAMES:
            wanted = [getattr(hashers, name)(TEXT[i:j]) for i, j in zip(places, places[1:])]
            for offsets in columns:
                self.assertEqual(list(hashers.hash_column(name, offsets, TEXT)), wanted)
        out = array("Q", [7] * 4)
        self.assertIs(hashers.hash_column("djb2", columns[0], TEXT, out), out)
        self.assertEqual(list(out), [hashers.djb2(TEXT[i:j]) for i, j in zip(places, places[1:])])
        self.assertEqual(len(hashers.hash_column("djb2", array("I", [0]), b"")), 0)

    def test_columns_that_are_refused(self) -> None:
        out = array("Q", [7, 7])
        wrong: List[List[int]] = [[0, 2, 1], [0, 1, 501], [501, 501, 501], [0, 1], [0, 1, 2, 3], []]
        for offsets in wrong:
            self.assertRaises(ValueError, hashers.hash_column, "djb2", array("Q", offsets), TEXT, out)
        self.assertRaises(ValueError, hashers.hash_column, "djb2", array("i", [0, -1, 2]), TEXT, out)
        self.assertRaises(ValueError, hashers.hash_column, "djb2", array("q", [-1, 1, 2]), TEXT, out)
        self.assertEqual(list(out), [7, 7])
        for size in "IQ":
            self.assertRaises(ValueError, hashers.hash_column, "djb2", array(size, [5]), b"")
        places = array("Q", [0, 1, 2])
        self.assertRaises(ValueError, hashers.hash_column, "djb2", places, TEXT, memoryview(places)[:2])
        self.assertRaises(ValueError, hashers.hash_column, "djb2", places, out, out)
        self.assertRaises(ValueError, hashers.hash_column, "djb2", places, TEXT, memoryview(bytearray(17))[1:])
        self.assertRaises(BufferError, hashers.hash_column, "djb2", places, TEXT, bytes(16))
        self.assertRaises(BufferError, hashers.hash_column, "djb2", memoryview(places)[::2], TEXT)
        others: List[Any] = [array("d", [0, 1]), b"12345678", [0, 1]]
        for other in others:
            self.assertRaises(TypeError, hashers.hash_column, "djb2", other, TEXT)


def first_end(text: bytes, cuts: hashers.Cuts) -> int:
    """Where the first chunk ends, by the definition: at the first place where the gear hash of the 64 bytes before it is low."""
    numbers = [hashers.spooky128(bytes([byte]), cuts.seed1, cuts.seed2)[0] for byte in range(256)]
    end = min(len(text), cuts.most)
    for place in range(cuts.least, end):
        value = 0
        for byte in text[place - 64:place]:
            value = (2 * value + numbers[byte]) % 2 ** 64
        if value * cuts.average < 2 ** 64:
            return place
    return end


class ByThreeBytes(io.RawIOBase):
    """A file of which a read gives three bytes at most."""
    def __init__(self, text: bytes) -> None:
        self.text = io.BytesIO(text)

    def read(self, size: int = -1) -> bytes:
        return self.text.read(3)


class Chunks(unittest.TestCase):
    text = Random(5).randbytes(5000)

    def test_by_the_definition(self) -> None:
        for cuts in (hashers.Cuts(64, most=64), hashers.Cuts(100, least=64, most=300), hashers.Cuts(100, least=100, most=5000, seed1=1, seed2=2),
                     hashers.Cuts(4000, least=64)):
            wanted, place = [], 0
            while place < len(self.text):
                place += first_end(self.text[place:], cuts)
                wanted.append(place)
            self.assertEqual(list(cuts.ends(self.text)), wanted)
            self.assertEqual(list(map(len, cuts.chunks(self.text))), [to - at for at, to in zip([0, *wanted], wanted)])

    def test_data_and_files_are_cut_alike(self) -> None:
        cuts = hashers.Cuts(256)
        chunks = list(map(bytes, cuts.chunks(self.text)))
        self.assertEqual(b"".join(chunks), self.text)
        for file in (io.BytesIO(self.text), ByThreeBytes(self.text)):
            self.assertEqual(list(cuts.chunks(cast(io.BytesIO, file))), chunks)
        self.assertEqual(list(map(bytes, hashers.chunks(array("Q", self.text), 256))), chunks)
        with mmap.mmap(-1, len(self.text)) as mapped:
            mapped[:] = self.text
            mapped.seek(7)
            self.assertEqual(list(map(bytes, cuts.chunks(mapped))), chunks)
        nothing: List[Any] = [b"", io.BytesIO(), ((ctypes.c_uint8 * 5) * 0)()]
        self.assertEqual([chunk for source in nothing for chunk in cuts.chunks(source)], [])
        with unittest.mock.patch.object(sys.modules["hashers._chunks"], "LEAST_READ", 1):
            self.assertEqual(list(cuts.chunks(io.BytesIO(self.text))), chunks)
        for kept in cuts.chunks(self.text):
            self.assertIs(cast(memoryview, kept).obj, self.text)

    def test_a_large_file(self) -> None:
        text = Random(6).randbytes(3 << 20)
        chunks = list(hashers.chunks(io.BytesIO(text)))
        self.assertEqual(list(hashers.chunks(text)), chunks)
        self.assertTrue(all(16384 <= len(each) <= 262144 for each in chunks[:-1]))
        self.assertGreater(len(chunks), 20)

    def test_an_edit_changes_the_chunks_around_it(self) -> None:
        before, after = (set(map(bytes, hashers.chunks(text, 128))) for text in (self.text, self.text[:2000] + b"new" + self.text[2000:]))
        self.assertLess(len(after - before), 5)
        self.assertGreater(len(after & before), 15)

    def test_what_is_refused(self) -> None:
        for sizes in ({"average": 63}, {"average": 100, "least": 101}, {"average": 100, "least": 63}, {"average": 100, "most": 99},
                      {"average": 1 << 64}, {"average": -1}, {"seed1": -1}, {"seed2": 1 << 64}, {"least": 1 << 64}, {"most": 1 << 64},
                      {"least": 63}, {"most": 65535}):
            with self.assertRaisesRegex(ValueError, "seed is from 0" if "seed" in str(sizes) else "64 <= least <= average <= most < 2[*][*]64"):
                hashers.Cuts(**sizes)
        with self.assertRaisesRegex(TypeError, "open it for bytes"):
            list(hashers.chunks(cast(Any, io.StringIO("a"))))
        with self.assertRaisesRegex(TypeError, r"open.path, 'rb'., not of str"):
            hashers.chunks(cast(Any, "a"))
        with self.assertRaises(BufferError):
            hashers.chunks(memoryview(bytes(200))[::2])
        with self.assertRaises(BufferError):
            hashers.Cuts().ends(memoryview(bytes(200))[::2])
        with self.assertRaises(TypeError):
            hashers.Cuts(cast(Any, 1.5))
        with self.assertRaises(BlockingIOError):
            list(hashers.chunks(unittest.mock.Mock(read=lambda size: None)))
        with self.assertRaises((BufferError, TypeError)):
            _hashers._chunk_ends(b"a", b"12345678", 64, 64, 64, 0, 0)
        with self.assertRaises(ValueError):
            _hashers._chunk_ends(b"a", bytearray(9), 64, 64, 64, 0, 0)
        with self.assertRaises(ValueError):
            _hashers._chunk_ends(b"a", bytearray(8), 64, 64, 64, -1, 0)
        self.assertEqual(_hashers._chunk_ends(b"a", bytearray(8), 63, 64, 64, 0, 0), 0)

    def test_sizes_that_are_not_given(self) -> None:
        # as the program cuts has them: crates/cuts_core/src/sizes.rt
        wanted: List[Tuple[Dict[str, int], Tuple[int, int, int]]] = [
            ({}, (16384, 65536, 262144)), ({"average": 100}, (64, 100, 400)), ({"average": 1024}, (256, 1024, 4096)),
            ({"least": 20000}, (20000, 65536, 262144)), ({"least": 65536}, (65536, 65536, 262144)), ({"least": 65537}, (65537, 262148, 1048592)),
            ({"least": 100000}, (100000, 400000, 1600000)), ({"least": 64, "most": 65536}, (64, 65536, 65536)),
            ({"average": 1 << 62}, (1 << 60, 1 << 62, TOP)), ({"average": TOP}, (TOP // 4, TOP, TOP)),
            ({"least": 1 << 61}, (1 << 61, 1 << 63, TOP)), ({"least": 1 << 62}, (1 << 62, TOP, TOP)), ({"least": TOP}, (TOP, TOP, TOP))]
        for given, sizes in wanted:
            cuts = hashers.Cuts(**given)
            self.assertEqual((cuts.least, cuts.average, cuts.most), sizes)
            self.assertEqual(list(map(len, hashers.chunks(bytes(50), **given))), [50])

    def test_sizes_stay(self) -> None:
        cuts: Any = hashers.Cuts(4096)
        for name in ("average", "least", "most", "seed1", "seed2"):
            with self.assertRaises(AttributeError):
                setattr(cuts, name, 512)
        for copied in (copy.copy(cuts), pickle.loads(pickle.dumps(cuts))):
            self.assertEqual(repr(copied), repr(cuts))
        cuts._average = 512
        for source in (bytes(10_000), io.BytesIO(bytes(10_000))):
            with self.assertRaisesRegex(ValueError, "Cuts.512, least=1024, .*cuts nothing"):
                list(cuts.chunks(source))
        self.assertEqual(list(cuts.chunks(b"")), [])

    def test_what_is_shown(self) -> None:
        cuts = hashers.Cuts(1024, seed2=7)
        self.assertEqual(repr(cuts), "Cuts(1024, least=256, most=4096, seed1=0, seed2=7)")
        self.assertEqual(eval(repr(cuts), vars(hashers)).ends(self.text), cuts.ends(self.text))


class Rings(unittest.TestCase):
    trees = {"oak": 2, "elm": 1, "ash": 3}

    @staticmethod
    def owner_of(ring: hashers.Ring, gone: set[Any], place: int) -> Any:
        """By the definition: of all points the first one at or after the place, round the ring, and of those at one place that of the least name."""
        points = [((hashers.new(ring.hash, key + k.to_bytes(8, "little")).intdigest() - place) % 2**64, key, name)
                  for name, weight in ring.weights().items() for key in [name.encode() if isinstance(name, str) else name] for k in range(weight)
                  if name not in gone]
        return min(points)[2] if points else None

    def check(self, ring: hashers.Ring) -> None:
        for k in range(12):
            key = b"key%d" % k
            place = hashers.new(ring.hash, key).intdigest()
            gone: set[Any] = set()
            owners: List[Any] = []
            while len(owners) < len(ring):
                owners.append(self.owner_of(ring, gone, place))
                gone.add(owners[-1])
            self.assertEqual(ring.owners(key, 99), owners)
            self.assertEqual(ring.owners(key, 2), owners[:2])
            self.assertEqual(ring.owner(key), owners[0] if owners else None)

    def test_by_the_definition(self) -> None:
        nodes: dict[Any, int] = {"": 3, "oak": 2, b"\xff\0": 20, "oaks": 9, "\u00e9lm": 1, "fir": 30}
        for name in ("spooky", "xxh3", "loselose", "crc32", "null"):
            one_by_one = hashers.Ring(hash=name)
            self.check(one_by_one)
            for node, weight in nodes.items():
                one_by_one.add(node, weight)
                self.check(one_by_one)
            at_once = hashers.Ring(nodes, hash=name)
            self.assertEqual(at_once.weights(), one_by_one.weights())
            for copy_of in (at_once, at_once.copy(), copy.copy(at_once), hashers.Ring(at_once, hash=name.upper()), pickle.loads(pickle.dumps(one_by_one))):
                self.assertEqual(copy_of._state, one_by_one._state)
                self.assertEqual(copy_of, one_by_one)
                self.assertFalse(copy_of == hashers.Ring(nodes, hash="sdbm") or copy_of == hashers.Ring(hash=name) or copy_of == name)
            self.assertEqual(sum(at_once.shares().values()), 2**64)
            for node, weight in nodes.items():
                self.assertIn(node, one_by_one)
                self.assertEqual(one_by_one.remove(node), weight)
                self.assertNotIn(node, one_by_one)
                self.check(one_by_one)
            self.assertEqual(len(at_once), 6)
            self.assertEqual(one_by_one.shares(), {})

    def test_the_ring_of_the_proved_library(self) -> None:
        ring = hashers.Ring(self.trees, hash="fnv1a64")
        self.assertEqual(list(ring), ["ash", "elm", "oak"])
        for key, owners in ((b"a", "oak ash elm"), (b"one", "elm ash oak"), (b"sea", "ash oak elm"), (b"four", "elm ash")):
            self.assertEqual(ring.owners(key, len(owners.split())), owners.split())
        self.assertEqual(ring.shares(), {"ash": 3337199519089381728, "elm": 11756901173466240504, "oak": 3352643381153929384})
        self.assertEqual(ring.remove("oak"), 2)
        self.assertEqual(ring.owners(b"a", 3), ["ash", "elm"])

    def test_children(self) -> None:
        class Named(str):
            def encode(self, *given: Any) -> bytes:
                return b"other"

        class Mine(hashers.Ring):
            pass
        mine = Mine([Named("a"), "b"])
        self.assertEqual(mine.owners(b"key", 2), hashers.Ring(["a", "b"]).owners(b"key", 2))
        self.assertEqual((type(mine.copy()), hashers.Ring(hash="XXH3").hash), (Mine, "xxh3"))

    def test_what_is_no_point(self) -> None:
        room, whole = array("Q", [1, 0, 2]), array("Q", [1, 0])
        refused: List[Callable[[], object]] = [
            lambda: _hashers._ring_sort(room), lambda: _hashers._ring_remove(room, 0), lambda: _hashers._ring_add(room, whole, 0),
            lambda: _hashers._ring_add(whole, room, 0), lambda: _hashers._ring_points(0, bytearray(8), 0, room),
            lambda: _hashers._ring_owners(0, room, b"", whole), lambda: _hashers._ring_points(99, bytearray(8), 0, whole),
            lambda: _hashers._ring_points(0, bytearray(7), 0, whole), lambda: _hashers._ring_add(whole, whole, 0)]
        for call in refused:
            with self.assertRaises(ValueError):
                call()
        self.assertEqual((list(room), list(whole)), ([1, 0, 2], [1, 0]))
        with self.assertRaises(BufferError):
            _hashers._ring_points(0, cast(bytearray, bytes(8)), 0, whole)

    def test_names_alone(self) -> None:
        ring = hashers.Ring(["a", b"b"])
        self.assertEqual(ring.weights(), {"a": 160, b"b": 160})
        self.assertIn(b"a", ring)
        self.assertEqual(repr(ring), "<Ring of 2 nodes by spooky>")
        ring.add("c")
        self.assertEqual(list(ring), ["a", b"b", "c"])

    def test_a_ring_that_is_asked_while_it_changes(self) -> None:
        ring, wrong = hashers.Ring({"node%d" % i: 50 for i in range(20)}), []
        done = threading.Event()

        def ask() -> None:
            while not done.is_set():
                if len(set(ring.owners(b"key", 5))) != 5:
                    wrong.append(1)
        threads = [threading.Thread(target=ask) for _ in range(3)]
        for thread in threads:
            thread.start()
        for _ in range(200):
            ring.add("one", 50)
            ring.remove("one")
        done.set()
        for thread in threads:
            thread.join()
        self.assertEqual(wrong, [])

    def test_what_is_refused(self) -> None:
        ring = hashers.Ring(self.trees)
        refused: List[Tuple[type, Callable[[], object]]] = [
            (ValueError, lambda: ring.add("oak", 1)), (ValueError, lambda: ring.add("fir", 0)), (KeyError, lambda: ring.remove("fir")),
            (ValueError, lambda: hashers.Ring({"a": 1, b"a": 1})), (ValueError, lambda: hashers.Ring({"a": -1})),
            (ValueError, lambda: hashers.Ring({"a": 2**62})), (ValueError, lambda: hashers.Ring({"a": 2**61, "b": 2**61})),
            (ValueError, lambda: ring.add("fir", 2**70)), (MemoryError, lambda: hashers.Ring({"a": 2**59})),
            (MemoryError, lambda: ring.add("fir", 2**59)),
            (TypeError, lambda: hashers.Ring("abc")), (TypeError, lambda: ring.owner(cast(bytes, "a"))),
            (ValueError, lambda: ring.owners(b"a", -1)), (AttributeError, lambda: setattr(ring, "hash", "xxh3")),
            (TypeError, lambda: ring.add(cast(str, 5))), (TypeError, lambda: ring.remove(cast(str, bytearray(b"oak")))),
            (TypeError, lambda: cast(str, 5) in ring),
            (ValueError, lambda: hashers.Ring(hash="no")), (ValueError, lambda: hashers.Ring(hash="spooky128"))]
        for error, call in refused:
            with self.assertRaises(error):
                call()
        self.assertEqual(ring.weights(), {"ash": 3, "elm": 1, "oak": 2})


class Mine(hashers.Bloom):
    """A child's filter, which pickle finds here."""


class Filters(unittest.TestCase):
    def test_keys_are_found(self) -> None:
        for hashes in ("fnv1a64_lookup3", "spooky_lookup3"):
            one, two = (hashers.Bloom(10_000, 7, hashes=hashes) for _ in range(2))
            keys = [b"key %d" % i for i in range(1000)]
            new = [one.add(key) for key in keys[:500]].count(True)
            self.assertGreater(new, 490)
            self.assertFalse(any(map(one.add, keys[:500])))
            self.assertTrue(all(bytearray(key) in one for key in keys[:500]))
            self.assertLess(sum(key in one for key in keys[500:]), 20)
            for key in keys[500:]:
                two.add(key)
            one.update(two)
            one.update(one)
            self.assertTrue(all(key in one for key in keys))

    def test_for_keys(self) -> None:
        for count, rate, bits, probes in ((1000, 0.01, 9586, 7), (10_000, 0.001, 143776, 10), (1, 0.9, 1, 1), (3, 0.5, 5, 1),
                                          (1000, 5e-324, 1549455, 1074), (10, 1 - 2**-53, 1, 1)):
            made = hashers.Bloom.for_keys(count, rate)
            self.assertEqual((made.bits, made.probes, made.hashes), (bits, probes, "spooky_lookup3"))
        made = hashers.Bloom.for_keys(20_000, hashes="fnv1a64_lookup3", buffer=bytearray(23968))
        self.assertEqual((made.bits, made.probes, made.hashes), (191702, 7, "fnv1a64_lookup3"))
        for number in range(20_000):
            made.add(b"%d" % number)
        self.assertLess(abs(sum(b"other %d" % number in made for number in range(20_000)) - 200), 60)
        wrong: List[Tuple[int, float]] = [(0, 0.1), (-1, 0.1), (1, 0), (1, 1), (1, -0.1), (1, float("nan")), (1 << 64, 0.01),
                                          (1 << 64, 1 - 2**-53), (1 << 2000, 0.01)]
        for count, rate in wrong:
            self.assertRaises(ValueError, hashers.Bloom.for_keys, count, rate)
        self.assertRaises(TypeError, hashers.Bloom.for_keys, 1.5)

    def test_small_filters_keep_their_rate(self) -> None:
        # where all places of a key were f + i * g, 2.6, 7 and 40 times as many strange keys were found
        source = random.Random(1)
        for count, rate, filters, asked in ((10, 0.01, 100, 10_000), (100, 1e-4, 20, 100_000), (1000, 1e-6, 4, 1_000_000)):
            found, offsets = 0, array("I", range(0, 16 * asked + 1, 16))
            for _ in range(filters):
                made = hashers.Bloom.for_keys(count, rate)
                made.add_column(offsets[:count + 1], source.randbytes(16 * count))
                found += sum(made.found(offsets, source.randbytes(16 * asked)))
            self.assertLess(found, 1.5 * rate * filters * asked + 10, (count, rate))

    def test_many_keys(self) -> None:
        texts = [b"", b"a", b"key", b"", b"a longer key " * 500, b"key"]
        places = [sum(map(len, texts[:i])) for i in range(len(texts) + 1)]
        for hashes in ("fnv1a64_lookup3", "spooky_lookup3"):
            for offsets in (array("I", places), array("q", places)):
                one, two = (hashers.Bloom(10_000, 7, hashes=hashes) for _ in range(2))
                self.assertEqual(two.found(offsets, b"".join(texts)), bytes(6))
                self.assertEqual([two.add(text) for text in texts].count(True), 4)
                self.assertEqual(one.add_column(offsets, bytearray(b"".join(texts))), 4)
                self.assertEqual((one.buffer, one.add_column(offsets, b"".join(texts))), (two.buffer, 0))
                self.assertEqual(one.found(offsets, b"".join(texts)), bytes([1] * 6))
                self.assertEqual(one.found(array("Q", [0, 2, 4, 4]), b"akey"), bytes([0, 0, 1]))
            for data in (b"", b"\n", b"a", b"a\n", b"a\n\nb\na", b"\n\n", TEXT, b"a\n" + bytes(5000)):
                lines = data.split(b"\n")
                one, two = (hashers.Bloom(10_000, 7, hashes=hashes) for _ in range(2))
                new = [two.add(line) for line in (lines if lines[-1] else lines[:-1])].count(True)
                self.assertEqual((one.add_lines(data), one.buffer), (new, two.buffer), data)
        self.assertEqual((one.add_column(array("I", [7]), TEXT), one.found(array("I", [7]), TEXT)), (0, b""))

    def test_many_keys_that_are_refused(self) -> None:
        made = hashers.Bloom(1000, 3)
        wrong: List[Any] = [array("I", [0, 2, 1]), array("I", [1, 0, 1]), array("Q", [0, 501]), array("I", [501]), array("i", [0, -1, 2]),
                            array("q", [-1, 1]), array("Q", [])]
        for offsets in wrong:
            for call in (made.add_column, made.found):
                self.assertRaises(ValueError, call, offsets, TEXT)
        others: List[Any] = [array("d", [0, 1]), b"12345678", [0, 1]]
        for offsets in others:
            self.assertRaises(TypeError, made.add_column, offsets, TEXT)
            self.assertRaises(TypeError, made.found, offsets, TEXT)
        self.assertRaises(TypeError, made.add_lines, "text")
        self.assertRaises(TypeError, made.add_column, array("I", [0]), "text")
        self.assertRaises(ValueError, made.add_lines, made.buffer)
        self.assertRaises(ValueError, made.add_column, array("I", [0, 128]), made.buffer)
        self.assertRaises(ValueError, made.add_column, memoryview(cast(bytearray, made.buffer)).cast("Q"), TEXT)
        self.assertFalse(any(cast(bytearray, made.buffer)))
        # a filter may be asked for its own bytes
        self.assertEqual(made.found(array("I", [0, 128]), made.buffer), b"\0")

    def test_copies(self) -> None:
        ways: List[Callable[[hashers.Bloom], hashers.Bloom]] = [lambda made: made.copy(), copy.copy, copy.deepcopy, lambda made: made | made]
        ways += [cast(Any, functools.partial(Copies.pickled, protocol)) for protocol in range(pickle.HIGHEST_PROTOCOL + 1)]
        with mmap.mmap(-1, 128) as mapped:
            for buffer in (None, array("Q", bytes(128)), mapped, (ctypes.c_uint64 * 16)()):
                made = hashers.Bloom(1000, 3, hashes="spooky_lookup3", buffer=buffer)
                made.add(b"a")
                for copied in ways:
                    other = copied(made)
                    self.assertEqual((other.bits, other.probes, other.hashes, type(other.buffer)), (1000, 3, "spooky_lookup3", bytearray))
                    self.assertIn(b"a", other)
                    other.add(b"b")
                    self.assertIn(b"b", other)
                    self.assertNotIn(b"b", made)
                    self.assertEqual((len(made), len(other)), (1, 2))

    def test_children(self) -> None:
        made = Mine(1000, 3, hashes="spooky_lookup3")
        made.add(b"a")
        like = hashers.Bloom(1000, 3, hashes="spooky_lookup3")
        for other in (made | made, made | like, *(copied(made) for copied in Copies().ways().values())):
            self.assertEqual((type(other), other.hashes, other.buffer), (Mine, "spooky_lookup3", made.buffer))
        made |= made.copy()
        self.assertEqual((type(made), type(Mine.for_keys(5))), (Mine, Mine))

    def test_unions(self) -> None:
        one, two = hashers.Bloom(1000, 3), hashers.Bloom(1000, 3)
        one.add(b"a")
        two.add(b"b")
        both = one | two
        self.assertTrue(b"a" in both and b"b" in both)
        self.assertFalse(b"b" in one or b"a" in two)
        before = one.buffer
        one |= two
        self.assertTrue(b"b" in one and one.buffer is before)
        self.assertRaises(ValueError, lambda: one | hashers.Bloom(1000, 2))
        self.assertRaises(TypeError, lambda: one | cast(Any, b"b"))

    def test_about_how_many_keys(self) -> None:
        for bits in (1, 63, 100, 10_000, 1_000_000):
            made = hashers.Bloom(bits, 7)
            self.assertEqual(len(made), 0)
            self.assertIn(f"{bits} bits and 7 probes by spooky_lookup3", repr(made))
            for number in range(bits // 10):
                made.add(number.to_bytes(8, "little"))
            self.assertLessEqual(abs(len(made) - bits // 10), 1 + bits // 200, bits)
            # bits that are none of the filter's tell nothing
            full = hashers.Bloom(bits, 7, buffer=bytearray(b"\xff" * ((bits + 63) // 64 * 8)))
            self.assertRaises(OverflowError, len, full)

    def test_a_buffer_of_the_callers(self) -> None:
        words = array("Q", bytes(16))
        first = hashers.Bloom(128, 3, buffer=words)
        first.add(b"a")
        self.assertTrue(any(words))
        self.assertIn(b"a", hashers.Bloom(128, 3, buffer=bytearray(words.tobytes())))
        with mmap.mmap(-1, 16) as mapped:
            mapped.write(words.tobytes())
            self.assertIn(b"a", hashers.Bloom(128, 3, buffer=mapped))

    def test_a_filter_that_its_buffer_knows(self) -> None:
        class Known(bytearray):
            by: hashers.Bloom
        words = Known(128)
        words.by = hashers.Bloom(1000, 3, buffer=words)
        gone = weakref.ref(words)
        del words
        gc.collect()
        self.assertIsNone(gone())

    def test_what_is_refused(self) -> None:
        for bits, probes in ((0, 1), (1, 0), (1, 1 << 32), (-1, 1), (1 << 64, 1)):
            self.assertRaises(ValueError, hashers.Bloom, bits, probes)
        self.assertRaises(ValueError, hashers.Bloom, 64, 1, hashes="djb2")
        for buffer in (bytearray(8), bytearray(17), bytearray(24), memoryview(bytearray(17))[1:]):
            self.assertRaises(ValueError, hashers.Bloom, 128, 1, buffer=buffer)
        self.assertRaises(BufferError, hashers.Bloom, 128, 1, buffer=bytes(16))
        made = hashers.Bloom(128, 1)
        self.assertRaises(TypeError, made.add, "text")
        self.assertRaises(ValueError, made.add, made.buffer)
        self.assertRaises(ValueError, made.update, hashers.Bloom(128, 2))
        with self.assertRaisesRegex(TypeError, "update takes another filter, not list"):
            made.update(cast(Any, [b"key"]))
        self.assertRaises(ValueError, made.update, hashers.Bloom(128, 1, buffer=made.buffer))


class Program(unittest.TestCase):
    def run_it(self, *arguments: str, text: bytes = b"", stdout: Any = subprocess.PIPE) -> Tuple[int, str, str]:
        done = subprocess.run([sys.executable, "-m", "hashers", *arguments], input=text, stderr=subprocess.PIPE, stdout=stdout,
                              cwd=tempfile.gettempdir())
        return done.returncode, (done.stdout or b"").decode(), done.stderr.decode()

    def test_files_and_standard_input(self) -> None:
        with tempfile.TemporaryDirectory() as room:
            path = Path(room) / "zeros"
            path.write_bytes(bytes(4097))
            pieces = hashers.new("lookup3", bytes(4096))
            pieces.update(bytes(1))
            self.assertEqual(self.run_it("lookup3", str(path)), (0, f"{pieces.intdigest()}  {path}\n", ""))
            self.assertEqual(self.run_it("fnv1a64", text=b"a"), (0, "12638187200555641996\n", ""))
            self.assertEqual(self.run_it("djb2", "--hex", "-", str(path), text=b"a"),
                             (0, f"0002b5c4  -\n{hashers.new('djb2', bytes(4097)).hexdigest()}  {path}\n", ""))
            status, out, error = self.run_it("djb2", room + "/none", str(path))
            self.assertEqual((status, out), (1, f"{hashers.djb2(bytes(4097))}  {path}\n"))
            self.assertEqual(error, f"hashers: {room}/none: No such file or directory\n")
            self.assertEqual(self.run_it("SPOOKY128", "--hex", text=b"a"), (0, hashers.new("spooky128", b"a").hexdigest() + "\n", ""))

    def test_names_are_written_as_their_bytes(self) -> None:
        wanted = str(hashers.djb2(b"a")).encode()
        with tempfile.TemporaryDirectory() as room:
            names = [b"one", b"\xff", "\u00e9".encode(), b"two"]
            for name in names:
                with open(os.path.join(room.encode(), name), "wb") as file:
                    file.write(b"a")
            for encoding in ("utf-8:strict", "ascii:strict", "latin-1", "utf-16"):
                done = subprocess.run([sys.executable, "-m", "hashers", "djb2", *names], cwd=room, stdout=subprocess.PIPE,
                                      stderr=subprocess.PIPE, env={**os.environ, "PYTHONIOENCODING": encoding})
                said = b"".join(wanted + b"  " + name + b"\n" for name in names)
                self.assertEqual((done.returncode, done.stdout, done.stderr), (0, said, b""), encoding)

    def test_wrong_calls_and_a_full_output(self) -> None:
        self.assertEqual(self.run_it("--version"), (0, f"hashers {hashers.__version__}\n", ""))
        self.assertEqual(self.run_it("--help")[0], 0)
        nameless: List[List[str]] = [[], ["--hex"]]
        for arguments in nameless:
            status, out, error = self.run_it(*arguments)
            self.assertEqual((status, out, error.splitlines()[-1]),
                             (2, "", "python3 -m hashers: error: the following arguments are required: NAME"))
        status, out, error = self.run_it("md5")
        self.assertEqual((status, out), (2, ""))
        self.assertIn("unknown name: md5", error)
        with open("/dev/full", "wb") as full:
            for arguments in (["djb2"], ["--help"], ["--version"]):
                self.assertEqual(self.run_it(*arguments, stdout=full), (1, "", "hashers: standard output: No space left on device\n"))

    def test_a_closed_pipe(self) -> None:
        done = subprocess.run(["sh", "-c", '{ sleep 0.2; "$0" -m hashers djb2; echo $? >&2; } | head -c 0', sys.executable], input=b"a",
                              stderr=subprocess.PIPE, cwd=tempfile.gettempdir())
        self.assertEqual(done.stderr.decode(), "141\n")

    def test_closed_streams(self) -> None:
        said = {"<&-": ("", "hashers: -: Bad file descriptor\n"), ">&-": ("", "hashers: standard output: Bad file descriptor\n"),
                "<&- 2>&-": ("", ""), ">&- 2>&-": ("", "")}
        for streams, wanted in said.items():
            done = subprocess.run(["sh", "-c", f'exec "$0" -m hashers "$@" {streams}', sys.executable, "djb2"], input=b"a",
                                  stdout=subprocess.PIPE, stderr=subprocess.PIPE, cwd=tempfile.gettempdir())
            self.assertEqual((done.returncode, done.stdout.decode(), done.stderr.decode()), (1, *wanted), streams)

    def test_an_interrupt(self) -> None:
        def heeds_interrupts() -> None:
            signal.signal(signal.SIGINT, signal.default_int_handler)
        with subprocess.Popen([sys.executable, "-c", "import runpy, sys; sys.argv = ['hashers', 'djb2', '/dev/stdin']; print(1, flush=True);"
                               "runpy.run_module('hashers', run_name='__main__')"],
                              stdin=subprocess.PIPE, stdout=subprocess.PIPE, stderr=subprocess.PIPE, preexec_fn=heeds_interrupts) as running:
            assert running.stdin and running.stdout and running.stderr
            self.assertEqual(running.stdout.readline(), b"1\n")
            running.stdin.write(bytes(1 << 17))
            running.stdin.flush()
            # more than a pipe holds was taken, so it reads
            running.send_signal(signal.SIGINT)
            self.assertEqual(running.wait(60), -signal.SIGINT)
            self.assertEqual((running.stdout.read(), running.stderr.read()), (b"", b""))


class Keyed(unittest.TestCase):
    """The polynomial hash at a key."""

    def test_by_definition(self) -> None:
        random = Random(61)
        for turn in range(100_000):
            key = random.choice((0, 1, PRIME - 1, PRIME, TOP, random.getrandbits(64)))
            text = random.randbytes(random.randrange(80))
            state, wanted = poly61_by_definition(text, key % PRIME)
            self.assertEqual(hashers.poly61(text, key), wanted)
            if len(text) % 7 == 0:
                self.assertEqual(hashers.poly61_state(text, key), state)

    def test_parts_and_pairs(self) -> None:
        key = hashers.random_key()
        self.assertEqual(hashers.poly61_pair(TEXT, key, 7), (hashers.poly61(TEXT, key), hashers.poly61(TEXT, 7)))
        for cut in range(0, len(TEXT), 7):
            state, end = hashers.poly61_state(TEXT[:cut], key), TEXT[cut:]
            self.assertEqual(hashers.poly61_combine(key, state, hashers.poly61(end, key), len(end)), hashers.poly61(TEXT, key))
        self.assertRaises(ValueError, hashers.poly61_state, b"a", key)
        self.assertRaises(ValueError, hashers.poly61, b"a", -1)

    def test_in_parts(self) -> None:
        random, key = Random(62), hashers.random_key()
        for turn in range(1000):
            hasher, at = hashers.new("Poly61", key=key), 0
            while at < len(TEXT):
                part = TEXT[at : at + random.randrange(40)]
                at += len(part)
                hasher.update(part)
                self.assertEqual(hasher.intdigest(), hashers.poly61(TEXT[:at], key))
        self.assertEqual((hasher.name, hasher.digest_size, hasher.block_size), ("poly61", 8, 7))
        for other in (hasher.copy(), copy.copy(hasher), pickle.loads(pickle.dumps(hasher))):
            other.update(b"more")
            self.assertEqual(other.intdigest(), hashers.poly61(TEXT + b"more", key))
        self.assertEqual(hasher.intdigest(), hashers.poly61(TEXT, key))
        hasher.reset()
        self.assertEqual(hasher.hexdigest(), f"{hashers.poly61(b'', key):016x}")
        for call in (lambda: hashers.new("poly61"), lambda: hashers.new("djb2", key=1), lambda: hashers.new("poly61", key=1, hash=2),
                     lambda: hashers.new("poly61", key=1, seeds=(1, 2)), lambda: hashers.new("poly61", key=1 << 64)):
            self.assertRaises(ValueError, call)

    def test_keys(self) -> None:
        keys = {hashers.random_key() for _ in range(100)}
        self.assertTrue(len(keys) > 90 and all(0 <= key < PRIME for key in keys))


if __name__ == "__main__":
    unittest.main()
