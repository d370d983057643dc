#!/usr/bin/env python3
"""Times many edits of one book in one run, against a reading of its bytes and against a copy of them. bench/README.md says more."""
import argparse
import os
import platform
import random
import statistics
import sys
import tempfile
import time
from pathlib import Path

TOP = Path(__file__).resolve().parent.parent
sys.path.insert(0, str(TOP / "fuzz"))
sys.dont_write_bytecode = True
import documents  # noqa: E402
import model  # noqa: E402
from classes import CLASSES  # noqa: E402
from save import ROOT, run  # noqa: E402

KIB = 1024
READER = TOP / "crates/book_where/out/book_where"
# An edit is to take at most so many times what reading its new bytes and writing them takes.
AIM = 1.2


def texts_of(nodes, place=()):
    """Each text node of at least one character, with its place."""
    for number, node in enumerate(nodes, 1):
        here = (*place, number)
        if node.kind == "text":
            yield here, node
        yield from texts_of(node.kids, here)


class Edits:
    """So many edits of texts of a document, each of which puts one letter for one, and the document afterwards."""

    def __init__(self, text, count):
        rng = random.Random(9)
        texts = list(texts_of(documents.nodes_of(text)))
        lines, values = [], {}
        for _ in range(count):
            place, node = rng.choice(texts)
            begin, value = node.begin, documents.value_of(text[node.begin : node.end])
            value = values.get(begin, (node, value))[1]
            at, letter = rng.randrange(len(value)), rng.choice("XYZ<&")
            lines.append(f"text {''.join(f'/{number}' for number in place)} {at} {at + 1} \"{letter}\"\n")
            values[begin] = (node, value[:at] + letter + value[at + 1 :])
        self.script, after = "".join(lines).encode(), text
        for _, (node, value) in sorted(values.items(), reverse=True):
            after = after[: node.begin] + documents.escaped(value) + after[node.end :]
        self.after = after


def check(folder, program, edits, count):
    told = model.run(folder, [ROOT], edits.script, program)
    model.want("the status", told.status, 0)
    model.want("what is told of the edits and of the book", told.output, b"ok\n" * count + documents.printed(edits.after, ROOT))


def copied(content):
    begin = time.perf_counter()
    bytes(bytearray(content))
    return time.perf_counter() - begin


def times(folder, program, reader, size, count, repeats):
    """Medians, in seconds: of one edit, of a reading, and of a copy."""
    old = CLASSES["book"](size)
    edits = Edits(old.decode(), count)
    Path(folder, ROOT).write_bytes(old)
    check(folder, program, edits, count)
    found = {"edit": [], "reading": [], "copy": []}
    for _ in range(repeats):
        without = run([program, ROOT], folder)[1]
        found["edit"].append((run([program, ROOT], folder, edits.script)[1] - without) / count)
        found["reading"].append(run([reader, ROOT], folder)[1])
        found["copy"].append(copied(old))
    return {name: statistics.median(column) for name, column in found.items()}


def page(rows, count, repeats, load):
    lines = [
        "# Results of bench/edit.py",
        "",
        f"Medians of {repeats} runs each, processor time. {os.cpu_count()} processors ({platform.machine()}); load {load[0]:.1f} at the start and {os.getloadavg()[0]:.1f} at the end.",
        f"\"Edit\" is the {count:,}th part of what {count:,} edits add to a run. \"Reading\" is a whole run of `book_where`, which reads the file and makes nothing of it (for a small book, mostly the start of a process); \"copy\" a copy of the bytes in memory.",
        "",
        "| Book | Edit | Reading | Copy | Edit to reading and copy | Aim |",
        "|---|---|---|---|---|---|",
    ]
    for size, row in rows:
        ratio = row["edit"] / (row["reading"] + row["copy"])
        cells = (f"{row[name] * 1e6:,.0f} µs" for name in ("edit", "reading", "copy"))
        lines.append(f"| {size // KIB:,} KiB | {' | '.join(cells)} | {ratio:.2f} | {AIM} |")
    return "\n".join(lines) + "\n"


def main():
    parser = argparse.ArgumentParser(description=__doc__)
    parser.add_argument("--program", default=str(model.PROGRAM))
    parser.add_argument("--reader", default=str(READER))
    parser.add_argument("--edits", type=int, default=1000)
    parser.add_argument("--repeats", type=int, default=3)
    parser.add_argument("--results", default=str(TOP / "bench/EDIT.md"), help="the file to write; - for standard output alone")
    parser.add_argument("--anyway", action="store_true", help="also on a loaded machine")
    words = parser.parse_args()
    load = os.getloadavg()
    if load[0] > os.cpu_count() / 2 and not words.anyway:
        sys.exit(f"bench: the machine is busy (load {load[0]:.1f} on {os.cpu_count()} processors); --anyway runs it all the same")
    program, reader = (str(Path(path).resolve()) for path in (words.program, words.reader))
    rows = []
    with tempfile.TemporaryDirectory(prefix="bookedit-edits-") as folder:
        for size in (4 * KIB, 4096 * KIB - 4 * KIB):
            rows.append((size, times(folder, program, reader, size, words.edits, words.repeats)))
            print(rows[-1], flush=True)
    text = page(rows, words.edits, words.repeats, load)
    if words.results != "-":
        Path(words.results).write_text(text)
    print(text)


if __name__ == "__main__":
    main()
