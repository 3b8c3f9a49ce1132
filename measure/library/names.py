"""The rows of hashes.txt, with the names of the hashes and the original's hashers, and the lines of vectors.txt."""
import os

ROOT = os.path.dirname(os.path.dirname(os.path.dirname(os.path.abspath(__file__))))


def listed(first):
    """The rows of the table in hashes.txt whose first column is that one, each by its columns."""
    with open(os.path.join(ROOT, "hashes.txt"), encoding="utf-8") as file:
        tables = [[[cell.strip() for cell in line.split(" | ")] for line in block.strip().split("\n")] for block in file.read().split("\n\n")]
    head, *rows = next(table for table in tables if table[0][0] == first)
    return [dict(zip(head, row + [""] * (len(head) - len(row)))) for row in rows]


def vectors():
    """Of each line of vectors.txt the name, the two words that the hash starts from, the text, and the hash."""
    with open(os.path.join(ROOT, "vectors.txt"), encoding="utf-8") as file:
        for name, start, text, wanted in (line.split() for line in file if not line.startswith("#")):
            key = bytes.fromhex(start) if len(start) == 32 else int(start.strip("-") or "0", 16).to_bytes(16, "little")
            words = int.from_bytes(key[:8], "little"), int.from_bytes(key[8:], "little")
            yield name, words, bytes.fromhex(text.strip("-")), int(wanted, 16)


def names():
    """In the order of the table of all kinds."""
    return [row["name"] for row in listed("name") if row["kind"]]


def unlike_names():
    """The original's, of which no two spread alike: fxhash64 answers as fxhash, and version 1 of SpookyHash spreads as SpookyHash does."""
    return [name for name in names() if original_of(name) and name not in ("fxhash64", "spooky_v1")]


def hashers_of_original():
    """The original's hasher of each name that it has, in the order of the table; its SpookyHasher is our version 1."""
    return {row["name"]: row["original"] for row in listed("name") if row["original"]}


def original_of(name):
    """The original's name of one of ours, and from how many bytes on the two agree; None where the original has no such hash."""
    alike = {"spooky": ("spooky_v1", 192)}.get(name, (name, 0))
    return alike if alike[0] in hashers_of_original() else None


def rows_of_original():
    """Each of our names that the original has, with its hasher there, and from how many bytes on the two agree."""
    hashers = hashers_of_original()
    found = ((name, original_of(name)) for name in names())
    return [(name, hashers[alike[0]], alike[1]) for name, alike in found if alike]
