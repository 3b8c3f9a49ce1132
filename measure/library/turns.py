"""Running by turns, and what is told of the machine."""
import hashlib
import os
import subprocess
import sys
import time
from typing import NamedTuple


def processor():
    """The processor's name."""
    with open("/proc/cpuinfo", encoding="utf-8") as file:
        return next(line.split(":")[1].strip() for line in file if line.startswith("model name"))


def machine():
    """What is told in front of a table of times."""
    load = round(os.getloadavg()[0])
    return f"Processor: {processor()}, {os.cpu_count()} of them, with {load} program{'s' * (load != 1)} at work in the last minute."


def compilers(*commands):
    """What is told of the compilers: the first line in which each says its version."""
    said = (subprocess.run([command, "version" if command == "rt" else "--version"], stdout=subprocess.PIPE, text=True, check=True).stdout
            for command in commands)
    return f"Compilers: {'; '.join(text.split(chr(10))[0] for text in said)}."


def by_turns(calls, turns):
    """What each call answers in each turn. Which begins a turn changes with each."""
    answers = [[] for _ in calls]
    order = list(range(len(calls)))
    for _ in range(turns):
        for at in order:
            answers[at].append(calls[at]())
        order.reverse()
    return answers


class Ran(NamedTuple):
    """What a command took: processor's seconds in itself and in the system, seconds that passed, mebibytes at most, which are never fewer
    than those of the program that measures; a checksum of what it wrote, and the end of that."""
    user: float
    system: float
    wall: float
    mebibytes: float
    checksum: str
    end: bytes


def ran(command, path):
    """Runs a command over a file, by the C locale. Of what it writes it keeps a checksum and the end."""
    sums, end, start = hashlib.md5(), b"", time.monotonic()
    with open(path, "rb") as file:
        child = subprocess.Popen(command, stdin=file, stdout=subprocess.PIPE, env={**os.environ, "LC_ALL": "C"})
        while part := child.stdout.read(1 << 20):
            sums.update(part)
            end = (end + part)[-100:]
        _, status, used = os.wait4(child.pid, 0)
    if status:
        sys.exit(f"{command[0]} ended with {status}")
    return Ran(used.ru_utime, used.ru_stime, time.monotonic() - start, used.ru_maxrss / 1024, sums.hexdigest(), end)
