#!/usr/bin/env python3
"""Print the hash of each FILE, which workers hash in blocks. A name with a newline, a carriage return or a backslash is escaped, as
`hashsum` does.

A hash that combines is proved to be that of the whole input if it is made from the hashes of its parts. So each line has the number
whose digits `hashsum -a NAME FILE` prints. `poly61` has 122 bits, under two keys of 8 bytes each, the lowest byte first, which FILE of
--key-file holds: whoever does not know them has next to no chance of making two files with one hash.
"""
import os
import struct
import sys

import hashers
from parts import answers, blocks_of, cluster, ended, parsed

NAMES = ("sdbm", "loselose", "passthrough", "crc32", "crc32c", "poly61")


def hash_of_block(block, name):
    """The block's hash."""
    return hashers.new(name, block.bytes()).intdigest()


def hash_of_file(client, path, name, size):
    """The hash of the file, from those of its blocks."""
    blocks = blocks_of(path, size)
    whole = hashers.new(name).intdigest()
    for block, hash_of_part in zip(blocks, answers(client, hash_of_block, blocks, name=name)):
        whole = hashers.combine(name, whole, hash_of_part, block.size)
    return whole


def keyed_part(block, keys, whole):
    """Under each key the state after the block, or the hash of the last one."""
    text, law = block.bytes(), hashers.poly61 if block.start + block.size == whole else hashers.poly61_state
    return [law(text, key) for key in keys]


def keyed_hash_of_file(client, path, keys, size):
    """The polynomial hash of the file under each key: each block but the last has a multiple of seven bytes, and they are joined from the last
    to the first."""
    blocks = blocks_of(path, max(7, size // 7 * 7))
    whole = sum(block.size for block in blocks)
    parts = list(answers(client, keyed_part, blocks, keys=keys, whole=whole))
    joined = parts.pop() if parts else [hashers.poly61(b"", key) for key in keys]
    for block, states in reversed(list(zip(blocks, parts))):
        behind = whole - block.start - block.size
        joined = [hashers.poly61_combine(key, state, hash_behind, behind) for key, state, hash_behind in zip(keys, states, joined)]
    return "".join(f"{number:016x}" for number in joined)


def keys_of(path):
    """The two keys of a file of 16 bytes."""
    with open(path, "rb") as file:
        return struct.unpack("<2Q", file.read(17))


def hash_by(client, path, call, keys):
    """What is printed for a file."""
    return keyed_hash_of_file(client, path, keys, call.block) if keys else hash_of_file(client, path, call.hash, call.block)


def line_of(hash_of_path, path):
    """The line of a file. That of a name which is escaped begins with a backslash."""
    name = os.fsencode(path)
    escaped = name.replace(b"\\", b"\\\\").replace(b"\n", b"\\n").replace(b"\r", b"\\r")
    return (b"" if escaped == name else b"\\") + f"{hash_of_path}  ".encode() + escaped + b"\n"


def main():
    call = parsed(__doc__, ("files", {"metavar": "FILE", "nargs": "+"}),
                  ("--hash", {"choices": NAMES, "default": "sdbm", "help": "a hash that combines (sdbm)"}),
                  ("--key-file", {"metavar": "FILE", "help": "16 bytes that nobody else knows, for poly61"}))
    if (call.hash == "poly61") != (call.key_file is not None):
        sys.exit("hash_of_file.py: poly61 and --key-file go together")
    try:
        keys = keys_of(call.key_file) if call.key_file else None
    except struct.error:
        sys.exit(f"hash_of_file.py: {call.key_file}: a key file must have 16 bytes")
    status = 0
    with cluster(call) as client, open(sys.stdout.fileno(), "wb", buffering=0, closefd=False) as output:
        for path in call.files:
            try:
                hash_of_path = hash_by(client, path, call, keys)
            except OSError as error:
                # of a file; others are of the cluster
                if error.filename is None:
                    raise
                print(f"hash_of_file.py: {path}: {error.strerror}", file=sys.stderr)
                status = 1
            else:
                output.write(line_of(hash_of_path, path))
    return status


if __name__ == "__main__":
    ended(main)
