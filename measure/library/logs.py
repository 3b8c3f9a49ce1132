"""Lines as of a log, which are measured where real ones would be too many."""
import os
import random
import sys


def log(path, count, repeated, seed=1):
    """Lines as of a log, of which that share came before."""
    chance, seen = random.Random(seed), []
    with open(path, "w", encoding="ascii") as file:
        for number in range(count):
            if seen and chance.random() < repeated:
                line = seen[chance.randrange(len(seen))]
            else:
                time = f"{number // 3600000:02}:{number // 60000 % 60:02}:{number // 1000 % 60:02}"
                line = f"{time} request {chance.getrandbits(32):08x} GET /items/{chance.randrange(100000)} 200\n"
                seen.append(line)
            file.write(line)


def apart(make, path):
    """Makes an input in a process of its own, so that the memory it takes isn't counted for the tools."""
    child = os.fork()
    if not child:
        make(path)
        os._exit(0)
    if os.waitpid(child, 0)[1]:
        sys.exit("the input was not made")
