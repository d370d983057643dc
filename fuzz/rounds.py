"""Rounds of a script: its words, a folder for each round that stays where it fails, and the last line."""
import argparse
import collections
import os
import random
import shutil
import sys
import tempfile
import time
import traceback

import model


def words_of(description, ways):
    parser = argparse.ArgumentParser(description=description)
    parser.add_argument("ways", nargs="*", default=list(ways), help="which of " + ", ".join(ways))
    parser.add_argument("--program", default=str(model.PROGRAM))
    parser.add_argument("--seconds", type=float, default=60, help="for each of the ways")
    parser.add_argument("--seed", type=int, default=None, help="the first round's number; rounds count up from it")
    parser.add_argument("--rounds", type=int, default=None, help="how many rounds of each, in place of a time")
    words = parser.parse_args()
    if not set(words.ways) <= set(ways):
        parser.error("a way is one of " + ", ".join(ways))
    return words


def go(name, description, ways):
    """Runs rounds of each way: a call of a random source, a folder of its own and the program, which answers what it met."""
    words = words_of(description, ways)
    seed = words.seed if words.seed is not None else random.randrange(1 << 40)
    top = tempfile.mkdtemp(prefix=f"bookedit-{name}-")
    print(f"{name}: rounds from {seed} on, in {top}", flush=True)
    for way in words.ways:
        end, done, counts = time.monotonic() + words.seconds, 0, collections.Counter()
        while done < words.rounds if words.rounds is not None else time.monotonic() < end:
            home = os.path.join(top, f"{way}-{seed + done}")
            os.mkdir(home)
            try:
                counts += ways[way](random.Random(seed + done), home, words.program)
            except Exception as fault:
                if not isinstance(fault, model.Fault):
                    traceback.print_exc()
                sys.exit(f"{name}: {way}, round {seed + done} (left in {home}): {fault}")
            shutil.rmtree(home)
            done += 1
        label = name if len(ways) == 1 else f"{name}: {way}"
        print(f"{label}: {done} rounds, no difference; {dict(sorted(counts.items()))}", flush=True)
    shutil.rmtree(top)
