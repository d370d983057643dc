#!/usr/bin/env python3
"""Runs the gate and tells what each crate costs it: processor seconds for its proof (and what is built of it), its must-fail edits and its tests.

usage: bench/gate.py [WORDS OF rt ci]

Without words it is `rt ci`: what an earlier run on this machine kept isn't done again, and costs nothing here; `--anew` does all.
The gate's own lines go to standard error, the table to standard output, for docs/WORKING.md. The status is that of the gate.
"""
import os
import subprocess
import sys
import threading
import time
from pathlib import Path

TOP = Path(__file__).resolve().parent.parent
TICKS = os.sysconf("SC_CLK_TCK")
SECONDS_A_LOOK = 0.2
KINDS = ["proof", "edits", "tests"]


def crates():
    lines = (line.split("#")[0].strip() for line in (TOP / "crates.txt").read_text().splitlines())
    return [line.split(":")[0].split()[0] for line in lines if line]


def kind_of(words, folder):
    if "rt-edit-" in folder:
        return "edits"
    return "tests" if "--test" in words else "proof"


class Watch(threading.Thread):
    """Looks at all processes of the prover again and again. A process has cost what the last look at it saw."""

    def __init__(self):
        super().__init__(daemon=True)
        self.seen, self.ended = {}, threading.Event()

    def run(self):
        while not self.ended.wait(SECONDS_A_LOOK):
            for folder in Path("/proc").glob("[0-9]*"):
                self.look(folder)

    def look(self, folder):
        try:
            words = (folder / "cmdline").read_bytes().decode(errors="replace").split("\0")
            if not words[0].endswith("/rattle") or "--crate-name" not in words:
                return
            fields = (folder / "stat").read_text().rpartition(")")[2].split()
            name, kind = words[words.index("--crate-name") + 1], kind_of(words, os.readlink(folder / "cwd"))
        except (OSError, IndexError):
            return
        # user and system time, and when it began, so that a number that is used again is another process
        self.seen[folder.name, fields[19]] = (name, kind, (int(fields[11]) + int(fields[12])) / TICKS)


def table(seen, seconds):
    costs = {}
    for name, kind, cost in seen.values():
        costs.setdefault(name, dict.fromkeys(KINDS, 0.0))[kind] += cost
    rows = [(name, costs[name]) for name in crates() if name in costs]
    print(f"| Crate | {' | '.join(KINDS)} | sum |")
    print("|---|" + "---:|" * (len(KINDS) + 1))
    for name, cost in rows:
        print(f"| {name} | {' | '.join(f'{cost[kind]:.0f}' for kind in KINDS)} | {sum(cost.values()):.0f} |")
    sums = {kind: sum(cost[kind] for _, cost in rows) for kind in KINDS}
    print(f"| all | {' | '.join(f'{sums[kind]:.0f}' for kind in KINDS)} | {sum(sums.values()):.0f} |")
    print(f"\n{sum(sums.values()) / 60:.0f} processor minutes in {seconds / 60:.0f} minutes on {len(os.sched_getaffinity(0))} processors.")


def main(words):
    if words == ["--help"]:
        print(__doc__.strip())
        return 0
    watch, begin = Watch(), time.monotonic()
    watch.start()
    with subprocess.Popen(["rt", "ci", *words], cwd=TOP, stdin=subprocess.DEVNULL, stdout=subprocess.PIPE, stderr=subprocess.STDOUT) as ran:
        for line in ran.stdout:
            sys.stderr.buffer.write(line)
            sys.stderr.flush()
    watch.ended.set()
    watch.join()
    table(watch.seen, time.monotonic() - begin)
    return ran.returncode


if __name__ == "__main__":
    sys.exit(main(sys.argv[1:]))
