#!/usr/bin/env python3
"""Write each line of the files IN once, into files in the folder OUT, with workers that each see some of the lines.

Each worker runs the program `dedup` over a block, and deals its lines into shards by their fnv1a64. Then `dedup` runs over each shard.
Equal lines have equal hashes, so they meet in one shard, and `dedup` is proved to write each line of its input once. A task writes a
temporary file and renames it, so one that is interrupted and run again changes nothing. OUT appears once all is done.
"""
import errno
import os
import subprocess
import tempfile
from array import array
from itertools import accumulate
from uuid import uuid4

import hashers
from parts import answers, blocks_of, cluster, ended, parsed, positive


def kept(folder, name, write):
    """Has a file written under a name of its own in the folder, and renames it once it is whole."""
    path = os.path.join(folder, uuid4().hex)
    with open(path, "xb") as file:
        write(file)
    os.rename(path, name)


def once(program, text, output=subprocess.PIPE):
    """Each line of the text once, as the program `dedup` writes it."""
    done = subprocess.run([program], input=text, stdout=output, check=False)
    if done.returncode:
        raise OSError(errno.EIO, f"ended with status {done.returncode}", program)
    return done.stdout


def deal(numbered, shards, folder, program):
    """Writes each line of a block once, one shard after the other, preceded by where each begins and the last ends."""
    number, block = numbered
    text = once(program, block.lines())
    dealt = [[] for _ in range(shards)]
    for line, hash_of_line in zip(text.split(b"\n"), hashers.hash_lines("fnv1a64", text)):
        dealt[hash_of_line % shards].append(line)
    texts = [b"".join(line + b"\n" for line in lines) for lines in dealt]
    places = array("Q", accumulate(map(len, texts), initial=8 * (shards + 1)))
    kept(folder, os.path.join(folder, str(number)), lambda file: file.writelines([places.tobytes(), *texts]))


def shard_of(path, shard):
    """The lines of a shard in what `deal` wrote."""
    with open(path, "rb") as file:
        file.seek(8 * shard)
        begin, end = array("Q", file.read(16))
        file.seek(begin)
        return file.read(end - begin)


def finish(shard, count, folder, out, program):
    """Writes each line of a shard once, over all blocks in their order."""
    text = b"".join(shard_of(os.path.join(folder, str(number)), shard) for number in range(count))
    kept(folder, os.path.join(out, f"shard-{shard:06}"), lambda file: once(program, text, file))


def main():
    call = parsed(__doc__, ("files", {"metavar": "IN", "nargs": "+"}), ("out", {"metavar": "OUT", "help": "a folder that is new or empty"}),
                  ("--dedup", {"default": "dedup", "metavar": "PROGRAM", "help": "the program dedup, if it is not on the PATH"}),
                  ("--shards", {"type": positive, "metavar": "N", "help": "how many files are written (one for each block, or worker)"}))
    out, program = os.path.abspath(call.out), os.path.abspath(call.dedup) if os.sep in call.dedup else call.dedup
    blocks = [block for path in call.files for block in blocks_of(path, call.block)]
    if os.path.exists(out) and os.listdir(out):
        raise OSError(errno.ENOTEMPTY, os.strerror(errno.ENOTEMPTY), call.out)
    with tempfile.TemporaryDirectory(prefix=f"{out}.") as room, cluster(call) as client:
        parts, whole = os.path.join(room, "parts"), os.path.join(room, "whole")
        os.mkdir(parts)
        os.mkdir(whole)
        shards = call.shards or max(len(client.nthreads()), len(blocks))
        list(answers(client, deal, list(enumerate(blocks)), shards=shards, folder=parts, program=program))
        list(answers(client, finish, range(shards), count=len(blocks), folder=parts, out=whole, program=program))
        os.rename(whole, out)


if __name__ == "__main__":
    ended(main)
