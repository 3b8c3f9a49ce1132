"""What each program that writes tables does alike: its call, and what becomes of the tables that it makes."""
import argparse
import os
import sys

from library.build import say
from library.names import ROOT
from library.page import Picture, draw, moved, write, written

QUICK = "a little of everything, in less than a minute where what it measures is built; prints, and writes nothing"
# the program, with its folder
NAME = os.path.relpath(os.path.abspath(sys.argv[0]), ROOT)


def called(doc, *words):
    """The words of the call. Each word or option of the program's own is given with what argparse is to know of it."""
    parser = argparse.ArgumentParser(prog=NAME, description=doc, formatter_class=argparse.RawDescriptionHelpFormatter)
    parser.add_argument("--quick", action="store_true", help=QUICK)
    for word, known in words:
        parser.add_argument(word, **known)
    return parser.parse_args()


def show(made):
    """Prints a table or a picture's size."""
    where = f"{made.page}, " if made.page else ""
    if isinstance(made, Picture):
        print(f"{made.page}: a picture of {len(made.text)} bytes\n")
    else:
        print(f"{where}{made.name}:\n\n{made.text}\n", flush=True)


def publish(made):
    """Writes a table or a picture, and prints which figures moved."""
    if isinstance(made, Picture):
        draw(made)
        print(f"{made.page} is drawn", flush=True)
        return
    lines, count = moved(written(NAME, made), made.text)
    write(NAME, made)
    print(f"{made.page}, {made.name}: {len(lines)} of {count} cells moved by more than 10 %", flush=True)
    for line in lines:
        print(f"moved: {made.page}, {made.name}: {line}", flush=True)


def run(quick, tables):
    """Writes the tables and pictures as they are made. A quick run, and a table of no page, are printed alone."""
    for made in tables:
        if quick or not made.page:
            show(made)
        else:
            publish(made)
    if quick:
        say("a quick run: nothing was written")
