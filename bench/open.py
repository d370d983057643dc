#!/usr/bin/env python3
"""Times the proved program's open and print against xmllint, on documents of 1, 2 and 4 MiB; or counts instructions.

Each output is first compared with lines that are rendered here from Python's own XML parser. bench/README.md says more.
"""
import argparse
import hashlib
import os
import platform
import re
import shutil
import statistics
import subprocess
import sys
import tempfile
import time
from pathlib import Path
from typing import NamedTuple

from classes import CLASSES, MIB
from expected import Expected

TOP = Path(__file__).resolve().parent.parent
LINEAR = 4.4


class Run(NamedTuple):
    """Processor time of one command on one document, in seconds, and its greatest resident size, in KiB."""

    median: float
    least: float
    peak: int


def run_to_file(command, folder, path):
    with open(path, "wb") as out:
        return subprocess.run(command, cwd=folder, stdin=subprocess.DEVNULL, stdout=out, stderr=subprocess.DEVNULL).returncode


def check_output(command, folder, document):
    """The number of nodes, where the program prints exactly what is expected."""
    expected = Expected(document)
    if expected.fault:
        sys.exit(f"bench: a document that should open has {expected.fault}")
    path = Path(folder) / "printed"
    status = run_to_file(command, folder, path)
    digest, lines, count = hashlib.sha256(), 0, 0
    with open(path, "rb") as printed:
        while block := printed.read(1 << 20):
            digest.update(block)
            lines += block.count(b"\n")
            count += len(block)
    path.unlink()
    if status != 0:
        sys.exit(f"bench: status {status} from {command}")
    if (lines, count, digest.hexdigest()) != (expected.lines, expected.bytes, expected.hash.hexdigest()):
        sys.exit(f"bench: {command} printed {lines} lines in {count} bytes, and not the expected {expected.lines} in {expected.bytes}")
    return expected


def processor_time(command, folder):
    """User and system time of one run, in seconds."""
    null = os.open(os.devnull, os.O_RDWR)
    child = subprocess.Popen(command, cwd=folder, stdin=null, stdout=null, stderr=null)
    _, status, usage = os.wait4(child.pid, 0)
    child.returncode = os.waitstatus_to_exitcode(status)
    os.close(null)
    if child.returncode != 0:
        sys.exit(f"bench: status {child.returncode} from {command}")
    return usage.ru_utime + usage.ru_stime


def peak_memory(command, folder):
    """The greatest resident size of one run, in KiB. Sampled, since wait's figure counts this script's own before exec."""
    null = os.open(os.devnull, os.O_RDWR)
    child = subprocess.Popen(command, cwd=folder, stdin=null, stdout=null, stderr=null)
    peak = 0
    while child.poll() is None:
        try:
            with open(f"/proc/{child.pid}/status", "rb") as status:
                for line in status:
                    if line.startswith(b"VmHWM:"):
                        peak = max(peak, int(line.split()[1]))
                        break
        except (FileNotFoundError, ProcessLookupError):
            pass
        time.sleep(0.0002)
    os.close(null)
    return peak


def measured(commands, folders, repeats):
    """Times and memory of each size and command. All take turns, so that a busy spell or a slower clock meets each of them."""
    times = {(size, name): [] for size in folders for name in commands}
    for _ in range(repeats):
        for size, folder in folders.items():
            for name, command in commands.items():
                times[size, name].append(processor_time(command, folder))
    rows = {}
    for size, folder in folders.items():
        for name, command in commands.items():
            peak = max(peak_memory(command, folder) for _ in range(min(3, repeats)))
            rows[size, name] = Run(statistics.median(times[size, name]), min(times[size, name]), peak)
    return rows


def instructions(command, folder):
    """How many instructions one run takes outside of the kernel, by callgrind."""
    counted = ["valgrind", "--tool=callgrind", "--callgrind-out-file=/dev/null", *command]
    ran = subprocess.run(counted, cwd=folder, stdin=subprocess.DEVNULL, stdout=subprocess.DEVNULL, stderr=subprocess.PIPE, text=True)
    found = re.search(r"Collected : (\d+)", ran.stderr)
    if ran.returncode != 0 or not found:
        sys.exit(f"bench: status {ran.returncode} from {counted}")
    return int(found.group(1))


def ratio(a, b):
    return f"{a / b:.2f}" if b else "-"


def mib_of(size):
    return int(size) if size == int(size) else size


def times_of(rows):
    lines = [
        "| Document | Size | Nodes | Printed | Program | `--noout` | `--xinclude` | CPU ratio to `--noout` | least to least | to `--xinclude` | Memory | `--noout` | Memory ratio |",
        "|---|---|---|---|---|---|---|---|---|---|---|---|---|",
    ]
    for row in rows:
        ours, noout, xinclude = (row["runs"][name] for name in ("program", "noout", "xinclude"))
        lines.append(
            f"| {row['name']} | {row['mib']} MiB | {row['nodes']:,} | {row['printed'] / MIB:.1f} MiB "
            f"| {ours.median * 1000:.1f} ms | {noout.median * 1000:.1f} ms | {xinclude.median * 1000:.1f} ms "
            f"| {ratio(ours.median, noout.median)} | {ratio(ours.least, noout.least)} | {ratio(ours.median, xinclude.median)} "
            f"| {ours.peak / 1024:.1f} MiB | {noout.peak / 1024:.1f} MiB | {ratio(ours.peak, noout.peak)} |"
        )
    lines += ["", "Linear, by time:", "", "| Document | from | to | Medians | Least times | At most |", "|---|---|---|---|---|---|"]
    for name, sizes in by_name(rows):
        if 1 in sizes and 4 in sizes:
            small, large = sizes[1]["runs"]["program"], sizes[4]["runs"]["program"]
            lines.append(f"| {name} | 1 MiB | 4 MiB | {ratio(large.median, small.median)} | {ratio(large.least, small.least)} | {LINEAR} |")
    return lines


def counts_of(rows):
    lines = ["| Document | Size | Program | `--noout` | Ratio |", "|---|---|---|---|---|"]
    for row in rows:
        ours, noout = row["counts"]["program"], row["counts"].get("noout")
        peer = f"{noout / 1e6:.1f} | {ratio(ours, noout)}" if noout else "- | -"
        lines.append(f"| {row['name']} | {row['mib']} MiB | {ours / 1e6:.1f} | {peer} |")
    lines += ["", "Linear, by instructions:", "", "| Document | from | to | Ratio | At most |", "|---|---|---|---|---|"]
    for name, sizes in by_name(rows):
        if 1 in sizes and 4 in sizes:
            lines.append(f"| {name} | 1 MiB | 4 MiB | {ratio(sizes[4]['counts']['program'], sizes[1]['counts']['program'])} | {LINEAR} |")
    return lines


def by_name(rows):
    """The rows of each class, by their size."""
    for name in dict.fromkeys(row["name"] for row in rows):
        yield name, {row["mib"]: row for row in rows if row["name"] == name}


def steeper(rows, cost):
    """The classes in which 4 MiB cost more than the limit allows."""
    for name, sizes in by_name(rows):
        if 1 in sizes and 4 in sizes and cost(sizes[4]) > LINEAR * cost(sizes[1]):
            yield name


def times_section(rows, repeats, load):
    now = os.getloadavg()
    return [
        f"Medians of {repeats} runs each, processor time (user and system) and greatest resident memory; \"least\" is the least of the {repeats}. "
        f"{os.cpu_count()} processors ({platform.machine()}); load {load[0]:.1f} at the start and {now[0]:.1f} at the end. Peer: xmllint, {version_of_xmllint()}. "
        "Every output was the expected one, to the byte.",
        "",
        *times_of(rows),
    ]


def counts_section(rows):
    return [
        f"Millions of instructions of one run outside of the kernel, by `valgrind --tool=callgrind` ({platform.machine()}). Peer: xmllint, {version_of_xmllint()}. "
        "Every output was the expected one, to the byte.",
        "",
        *counts_of(rows),
    ]


def put_section(path, title, lines):
    """Writes a section of the page of results anew; the others stay as they are, those written by hand too."""
    front, *sections = re.split(r"(?m)^(?=## )", path.read_text() if path.exists() else "")
    found = {section.split("\n", 1)[0][3:]: section.strip() for section in sections}
    found[title] = "\n".join([f"## {title}", "", *lines])
    order = ["Times", "Instructions"] + [other for other in found if other not in ("Times", "Instructions")]
    path.write_text("\n\n".join(["# Results of bench/open.py", *(found[one] for one in order if one in found)]) + "\n")


def version_of_xmllint():
    told = subprocess.run(["xmllint", "--version"], capture_output=True, text=True).stderr
    for line in told.splitlines():
        if "libxml version" in line:
            return "libxml version " + line.split()[-1]
    return "of unknown version"


def parsed():
    parser = argparse.ArgumentParser(description=__doc__)
    parser.add_argument("--program", default=str(TOP / "crates/book_cli/out/book_cli"), help="the program to measure")
    parser.add_argument("--sizes", type=float, nargs="+", default=[1, 2, 4], help="in MiB, at most 4")
    parser.add_argument("--classes", nargs="+", default=list(CLASSES), choices=list(CLASSES))
    parser.add_argument("--repeats", type=int, default=15)
    parser.add_argument("--results", default=str(TOP / "bench/RESULTS.md"), help="the file whose section is written; - for standard output alone")
    parser.add_argument("--render", metavar="FILE", help="print the lines that are expected of this document, and end")
    parser.add_argument("--check", action="store_true", help="compare the outputs alone, and measure nothing")
    parser.add_argument("--instructions", action="store_true", help="count instructions by valgrind, and time nothing")
    parser.add_argument("--alone", action="store_true", help="with --instructions: without the peer")
    parser.add_argument("--anyway", action="store_true", help="also on a loaded machine")
    return parser.parse_args()


def made(folder, name, sizes):
    """A folder for each size, with the document in it."""
    folders = {}
    for size in sizes:
        folders[mib_of(size)] = Path(folder) / name / str(mib_of(size))
        folders[mib_of(size)].mkdir(parents=True)
        (folders[mib_of(size)] / "book.xml").write_bytes(CLASSES[name](int(size * MIB)))
    return folders


def rows_of(words, commands, name, folders):
    """The rows of a class; each output is compared first."""
    expected = {mib: check_output(commands["program"], folder, (folder / "book.xml").read_bytes()) for mib, folder in folders.items()}
    if words.check:
        for mib, tree in expected.items():
            print(f"{name} {mib} MiB: {tree.lines:,} lines as expected", flush=True)
        return []
    rows = [{"name": name, "mib": mib, "nodes": tree.nodes, "printed": tree.bytes} for mib, tree in expected.items()]
    if words.instructions:
        counted = ("program",) if words.alone else ("program", "noout")
        for row in rows:
            row["counts"] = {one: instructions(commands[one], folders[row["mib"]]) for one in counted}
            print(f"{name} {row['mib']} MiB: {row['counts']}", flush=True)
        return rows
    runs = measured(commands, folders, words.repeats)
    for row in rows:
        row["runs"] = {one: runs[row["mib"], one] for one in commands}
        ours, noout = row["runs"]["program"], row["runs"]["noout"]
        print(f"{name} {row['mib']} MiB: {ratio(ours.median, noout.median)} of --noout's time, {ratio(ours.peak, noout.peak)} of its memory", flush=True)
    return rows


def needs(words, program, load):
    """What is wanting, where something is."""
    if not program.is_file():
        return f"no program at {program}; `rt run` in crates/book_cli builds it"
    if words.check:
        return None
    if not shutil.which("xmllint"):
        return "xmllint is wanted: apt-get install libxml2-utils"
    if words.instructions:
        return None if shutil.which("valgrind") else "valgrind is wanted: apt-get install valgrind"
    if load[0] > os.cpu_count() / 2 and not words.anyway:
        return f"the machine is busy (load {load[0]:.1f} on {os.cpu_count()} processors); --anyway runs it all the same"
    return None


def main():
    words = parsed()
    if words.render:
        Expected(Path(words.render).read_bytes(), Path(words.render).name, sys.stdout.buffer)
        return
    load = os.getloadavg()
    program = Path(words.program).resolve()
    wanting = needs(words, program, load)
    if wanting:
        sys.exit(f"bench: {wanting}")
    commands = {
        "program": [str(program), "book.xml"],
        "noout": ["xmllint", "--noout", "book.xml"],
        "xinclude": ["xmllint", "--xinclude", "book.xml"],
    }
    rows = []
    for name in words.classes:
        with tempfile.TemporaryDirectory(prefix="bookedit-bench-") as folder:
            rows += rows_of(words, commands, name, made(folder, name, words.sizes))
    if words.check:
        return
    if words.instructions:
        title, lines = "Instructions", counts_section(rows)
        slow = list(steeper(rows, lambda row: row["counts"]["program"]))
    else:
        title, lines = "Times", times_section(rows, words.repeats, load)
        slow = list(steeper(rows, lambda row: row["runs"]["program"].least))
    if words.results != "-":
        put_section(Path(words.results), title, lines)
    print("\n".join(lines))
    for name in slow:
        print(f"bench: {name} is more than linear")
    sys.exit(1 if slow else 0)


if __name__ == "__main__":
    main()
