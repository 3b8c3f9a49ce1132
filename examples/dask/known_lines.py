#!/usr/bin/env python3
"""Print the lines of ASKED that are not among those of KNOWN, by a Bloom filter that workers make in parts.

A filter is proved to find each line that was inserted, and a union what either part finds. So no line of KNOWN is printed. A few others
are taken for known ones: about one in 120 at 10 bits for each line.
"""
import sys

import hashers
from parts import answers, blocks_of, cluster, ended, parsed, positive


def each_line(block):
    """The texts of the block's lines."""
    lines = block.lines().split(b"\n")
    return lines if lines[-1] else lines[:-1]


def count_lines(block):
    """How many lines begin in the block."""
    return len(each_line(block))


def filter_of(blocks, bits, probes):
    """The words of a filter of the blocks' lines."""
    made = hashers.Bloom(bits, probes)
    for block in blocks:
        for line in each_line(block):
            made.add(line)
    return made.buffer


def united(words, others, bits, probes):
    """The words of the union of two filters."""
    made = hashers.Bloom(bits, probes, buffer=bytearray(words))
    made.update(hashers.Bloom(bits, probes, buffer=others))
    return made.buffer


def strange(block, words, bits, probes):
    """The lines of the block that the filter does not find."""
    known = hashers.Bloom(bits, probes, buffer=words)
    return b"".join(line + b"\n" for line in each_line(block) if line not in known)


def made_in_parts(client, blocks, **size):
    """The words of a filter of all blocks, on a worker: each worker makes one of its share, and two by two they are united."""
    count = max(1, min(len(client.nthreads()), len(blocks)))
    parts = client.map(filter_of, [blocks[first::count] for first in range(count)], pure=False, **size)
    while len(parts) > 1:
        pairs = [client.submit(united, *parts[at:at + 2], pure=False, **size) for at in range(0, len(parts) - 1, 2)]
        parts = pairs + parts[len(pairs) * 2:]
    return parts[0]


def main():
    call = parsed(__doc__, ("known", {"metavar": "KNOWN"}), ("asked", {"metavar": "ASKED"}),
                  ("--bits", {"type": positive, "default": 10, "metavar": "N", "help": "bits for each line of KNOWN (10)"}))
    with cluster(call) as client:
        blocks, asked = blocks_of(call.known, call.block), blocks_of(call.asked, call.block)
        bits = call.bits * max(1, sum(answers(client, count_lines, blocks)))
        size = {"bits": bits, "probes": max(1, round(0.693 * call.bits))}
        words = made_in_parts(client, blocks, **size)
        with open(sys.stdout.fileno(), "wb", closefd=False) as output:
            for lines in answers(client, strange, asked, words=words, **size):
                output.write(lines)
                output.flush()


if __name__ == "__main__":
    ended(main)
