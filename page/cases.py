"""What test.mjs holds the module against, by rust/reference.py, as lines of JSON: random texts with their hashes, each twentieth also under
seeds and keys; for each hash how often its bits change over two of the page's random keys; and the windows of hashes.txt."""
import json
import os
import random
import sys

sys.dont_write_bytecode = True
TOP = os.path.join(os.path.dirname(os.path.realpath(__file__)), "..")
sys.path[:0] = [os.path.join(TOP, "rust"), os.path.join(TOP, "measure")]

import reference  # noqa: E402
from library.names import listed  # noqa: E402

PIECE = 4096
M64 = 2 ** 64 - 1
BITS = {row["name"]: int(row["bits"]) for row in listed("name")}


def under_seeds(source, text):
    seed, second, key = (source.randrange(2 ** 64) for _ in range(3))
    spooky, first = (reference.spooky128(text, (seed, second), version)[0] for version in (1, 0))
    low = reference.spooky128(text, (seed, second))[1]
    found = {"spooky": spooky, "spooky_v1": first, "spooky128": spooky << 64 | low, "xxh3": reference.xxh3(text, seed),
             "xxh128": reference.xxh128(text, seed), "poly61": reference.poly61(key, text)}
    return {"seeds": [str(seed), hex(second), "", str(key)], "hashes": {name: str(number) for name, number in found.items()}}


def texts(count):
    source = random.Random("wasm")
    for number in range(count):
        length = source.randrange(3 * PIECE) if number % 20 == 0 else source.choice([number % 400, source.randrange(400)])
        text = source.randbytes(length)
        pieces = [text[at:at + PIECE] for at in range(0, len(text), PIECE)] or [b""]
        hashes = {**reference.answers(pieces), "xxh128": reference.xxh128(text)}
        yield {"text": text.hex(), "hashes": {name: str(answer) for name, answer in hashes.items()}}
        if number % 20 == 0:
            yield {"text": text.hex(), **under_seeds(source, text)}


def random_word(place):
    """SplitMix64 from 0."""
    word = (place + 1) * 0x9e3779b97f4a7c15 & M64
    word = (word ^ word >> 30) * 0xbf58476d1ce4e5b9 & M64
    word = (word ^ word >> 27) * 0x94d049bb133111eb & M64
    return word ^ word >> 31


def avalanches(length):
    """The changes of each bit of the hash, for each bit of the key, over two keys."""
    keys = [b"".join(random_word(8 * number + at).to_bytes(8, "little") for at in range(8))[:length] for number in range(2)]
    flipped = [[bytes(byte ^ (1 << bit % 8 if at == bit // 8 else 0) for at, byte in enumerate(key)) for key in keys]
               for bit in range(8 * length)]
    whole = [reference.answers([key]) for key in keys]
    answers = [[reference.answers([key]) for key in pair] for pair in flipped]
    for name in whole[0]:
        changes = [[a[name] ^ b[name] for a, b in zip(pair, whole)] for pair in answers]
        counts = [sum(change >> bit & 1 for change in pair) for pair in changes for bit in range(BITS[name])]
        yield {"avalanche": name, "bytes": length, "bits": BITS[name], "counts": counts}


def main():
    windows = {"windows": {row["name"]: row["window"] for row in listed("name") if row["window"]}}
    for case in [*texts(int(sys.argv[1])), *avalanches(5), *avalanches(9), windows]:
        print(json.dumps(case))


if __name__ == "__main__":
    main()
