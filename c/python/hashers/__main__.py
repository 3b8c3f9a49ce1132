"""python3 -m hashers NAME [FILE..]: prints the hash of each file, or of standard input."""
from __future__ import annotations

import argparse
import errno
import os
import signal
import sys
from typing import IO, BinaryIO, Optional, TextIO

from . import Hash, __version__, algorithms_available, new

# The pieces in which hashof reads; the hash of lookup3 shows them.
PIECE = 4096


def opened(stream: Optional[TextIO]) -> BinaryIO:
    """The bytes of a standard stream; OSError where its descriptor was closed when Python began, so that Python has none."""
    if stream is None:
        raise OSError(errno.EBADF, os.strerror(errno.EBADF))
    return stream.buffer


def hash_of(name: str, file: BinaryIO) -> Hash:
    made = new(name)
    while True:
        piece = file.read(PIECE)
        if not piece:
            return made
        made.update(piece)


def hash_of_file(name: str, path: str) -> Hash:
    if path == "-":
        return hash_of(name, opened(sys.stdin))
    with open(path, "rb") as file:
        return hash_of(name, file)


class Parser(argparse.ArgumentParser):
    """A parser that does not keep silent where its help cannot be written."""

    def _print_message(self, message: str, file: Optional[IO[str]] = None) -> None:
        (file or sys.stderr).write(message)


def parsed() -> argparse.Namespace:
    parser = Parser(prog="python3 -m hashers", epilog="NAME is one of " + ", ".join(sorted(algorithms_available)) + ".",
                    description="Print the hash of each FILE as a number. With no FILE, or where FILE is -, read standard input.")
    parser.add_argument("name", metavar="NAME", help="the hash function")
    # without a default argparse calls it required
    parser.add_argument("files", metavar="FILE", nargs="*", default=[], help="a file, or - for standard input")
    parser.add_argument("--hex", action="store_true", help="print hexadecimal digits, the high one first")
    parser.add_argument("--version", action="version", version=f"hashers {__version__}")
    asked = parser.parse_intermixed_args()
    if asked.name.lower() not in algorithms_available:
        parser.error(f"unknown name: {asked.name}")
    return asked


def main() -> int:
    """The status: 1 where a file could not be read, or a line not be written; 2 for a wrong call."""
    output = opened(sys.stdout)
    asked = parsed()
    status = 0
    for path in asked.files or ["-"]:
        try:
            made = hash_of_file(asked.name, path)
        except OSError as error:
            print(f"hashers: {path}: {error.strerror}", file=sys.stderr)
            status = 1
            continue
        line = made.hexdigest() if asked.hex else str(made.intdigest())
        # a name goes out as the bytes it came in, whatever the output's encoding
        output.write(os.fsencode(line + (f"  {path}" if asked.files else "") + "\n"))
        output.flush()
    return status


def main_and_flush() -> int:
    """The same, where what argparse writes is written too."""
    try:
        return main()
    finally:
        if sys.stdout is not None:
            sys.stdout.flush()


if __name__ == "__main__":
    # ^C ends it as it ends other programs, with no words
    if signal.getsignal(signal.SIGINT) is signal.default_int_handler:
        signal.signal(signal.SIGINT, signal.SIG_DFL)
    # and so does a closed pipe
    signal.signal(signal.SIGPIPE, signal.SIG_DFL)
    if sys.stderr is None:
        sys.stderr = open(os.devnull, "w")
    try:
        sys.exit(main_and_flush())
    except OSError as error:
        # Nothing more can be written, so Python is not to try it again at its end.
        if sys.stdout is not None:
            os.dup2(os.open(os.devnull, os.O_WRONLY), sys.stdout.fileno())
        sys.exit(f"hashers: standard output: {error.strerror}")
