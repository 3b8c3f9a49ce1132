"""What the programs beside this file share: their call, a cluster, files in blocks, and tasks whose answers come in order."""
import argparse
import errno
import logging
import os
import sys
import tempfile
from contextlib import ExitStack, contextmanager
from io import UnsupportedOperation
from typing import NamedTuple

from distributed import Client, LocalCluster

import hashers


class Block(NamedTuple):
    """So many bytes of a file from `start` on. Each worker reads the file by this path."""
    path: str
    start: int
    size: int

    def bytes(self):
        """The block's bytes; EOFError where the file has become shorter."""
        with open(self.path, "rb") as file:
            file.seek(self.start)
            text = file.read(self.size)
        if len(text) != self.size:
            raise EOFError(f"{self.path}: the file has become shorter")
        return text

    def lines(self):
        """The bytes of the lines that begin in the block, so that each line of the file is in one of its blocks."""
        with open(self.path, "rb") as file:
            if self.start:
                file.seek(self.start - 1)
                file.readline()
            text = file.read(max(0, self.start + self.size - file.tell()))
            return text if text.endswith(b"\n") or not text else text + file.readline()


def blocks_of(path, size):
    """The file in blocks of that many bytes, of which the last may be shorter; an OSError with its name where it cannot be sought, and no
    wait for a pipe's other end."""
    with open(path, "rb", opener=lambda name, flags: os.open(name, flags | os.O_NONBLOCK)) as file:
        try:
            length = file.seek(0, os.SEEK_END)
        except OSError as error:
            raise UnsupportedOperation(errno.ESPIPE, os.strerror(errno.ESPIPE), path) from error
    return [Block(os.path.abspath(path), start, min(size, length - start)) for start in range(0, length, size)]


def positive(word):
    number = int(word)
    if number < 1:
        raise ValueError
    return number


def parsed(doc, *words):
    """The words of a call: the program's own, each with what argparse is to know of it, and what all these programs take."""
    parser = argparse.ArgumentParser(description=doc, formatter_class=argparse.RawDescriptionHelpFormatter)
    for word, known in words:
        parser.add_argument(word, **known)
    parser.add_argument("--block", type=positive, default=64 << 20, metavar="BYTES", help="how much one task reads (64 MiB)")
    parser.add_argument("--workers", type=positive, default=os.cpu_count(), metavar="N", help="worker processes of this machine")
    parser.add_argument("--scheduler", metavar="ADDRESS", help="a running scheduler of Dask, whose workers are taken instead")
    parser.add_argument("--version", action="version", version=f"hashers {hashers.__version__}")
    return parser.parse_args()


@contextmanager
def cluster(call):
    """A client of the scheduler that the call names, or of workers that are started here and end with the program."""
    # Dask gives waits up as it ends, and asyncio would tell of each on standard error
    logging.getLogger("asyncio").setLevel(logging.CRITICAL)
    with tempfile.TemporaryDirectory() as room, ExitStack() as stack:
        own = {"n_workers": call.workers, "threads_per_worker": 1, "dashboard_address": None, "local_directory": room}
        client = stack.enter_context(Client(call.scheduler or stack.enter_context(LocalCluster(silence_logs=logging.ERROR, **own))))
        client.wait_for_workers(1)
        client.upload_file(__file__)
        yield client


def answers(client, function, items, **rest):
    """What the function answers of each item and the rest, in the order of the items. A task whose worker is lost is done again."""
    tasks = client.map(function, items, pure=False, **rest)
    count, at_once = len(tasks), max(1, len(client.nthreads()))
    for begin in range(0, count, at_once):
        yield from client.gather(tasks[begin:begin + at_once])
        tasks[begin:begin + at_once] = [None] * len(tasks[begin:begin + at_once])
        if sys.stderr.isatty():
            end = min(begin + at_once, count)
            print(f"\r{function.__name__}: {end} of {count}", end="\n" if end == count else "", file=sys.stderr, flush=True)


def ended(main):
    """Runs a program, and says why it failed; that nobody reads its output any more the status alone tells."""
    try:
        status = main()
    except BrokenPipeError:
        os.dup2(os.open(os.devnull, os.O_WRONLY), sys.stdout.fileno())
        status = 141
    except (OSError, EOFError) as error:
        where = f"{error.filename}: " if getattr(error, "filename", None) else ""
        status = f"{os.path.basename(sys.argv[0])}: {where}{getattr(error, 'strerror', None) or error}"
    sys.exit(status)
