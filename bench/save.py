#!/usr/bin/env python3
"""Times recoveries and a save of the proved program against plain writes and syncs of the same bytes. bench/README.md says more."""
import argparse
import os
import platform
import random
import re
import shutil
import statistics
import subprocess
import sys
import tempfile
import time
from pathlib import Path

TOP = Path(__file__).resolve().parent.parent
sys.path.insert(0, str(TOP / "fuzz"))
sys.dont_write_bytecode = True
import documents  # noqa: E402
import model  # noqa: E402
from classes import CLASSES  # noqa: E402

ROOT = "book.xml"
AIM = 1.25
KIB = 1024


def document(size):
    front, back = b"<a>", b"</a>\n"
    return front + b"x" * (size - len(front) - len(back)) + back


def waited(call):
    """Wall-clock seconds of a call."""
    begin = time.perf_counter()
    call()
    return time.perf_counter() - begin


def run(command, folder, script=b""):
    """Wall-clock time, and processor time, of one run of a program that has to end with status 0."""
    with tempfile.TemporaryFile() as stdin:
        stdin.write(script)
        stdin.seek(0)
        begin = time.perf_counter()
        child = subprocess.Popen(command, cwd=folder, stdin=stdin, stdout=subprocess.DEVNULL, stderr=subprocess.DEVNULL)
        _, status, usage = os.wait4(child.pid, 0)
        wall = time.perf_counter() - begin
    child.returncode = os.waitstatus_to_exitcode(status)
    if child.returncode != 0:
        sys.exit(f"bench: status {child.returncode} from {command}")
    return wall, usage.ru_utime + usage.ru_stime


def sync(path):
    number = os.open(path, os.O_RDONLY)
    os.fsync(number)
    os.close(number)


def write(path, content):
    number = os.open(path, os.O_WRONLY | os.O_CREAT | os.O_TRUNC, 0o666)
    while content:
        content = content[os.write(number, content) :]
    os.close(number)


def write_and_sync(folder, files):
    """Files on the disk, where others may see them cut meanwhile: each is written in its place and synced, and then their folder."""
    for name, content in files:
        write(os.path.join(folder, name), content)
    for name, _ in files:
        sync(os.path.join(folder, name))
    sync(folder)


def replace_and_sync(folder, files):
    """What any program has to do so that files are on the disk, and whole to everyone: each is written beside the old one, synced and renamed over it, and then
    their folder is synced."""
    for name, content in files:
        new = os.path.join(folder, ".new")
        write(new, content)
        sync(new)
        os.rename(new, os.path.join(folder, name))
    sync(folder)


def plain_save(folder, journal, files):
    """The writes and syncs of a save: the journal, the marker, the files, and the marker away."""
    write_and_sync(folder, [(model.JOURNAL, journal)])
    write_and_sync(folder, [(model.GATE, b"OPEN")])
    replace_and_sync(folder, files)
    os.unlink(os.path.join(folder, model.GATE))
    sync(folder)


def settled(folder, files):
    """Makes a folder hold these files alone, and waits until all of it is on the disk."""
    model.put_files_anew(folder, files)
    os.sync()


def recovery_times(folder, program, count, size, repeats):
    """Times of a recovery of so many files, of plain writes of the same with a rename of each and in their place, and of a run with nothing to recover."""
    items = [(b"%04d.xml" % number, document(size)) for number in range(count - 1)] + [(ROOT.encode(), document(size))]
    olds = {name: b"<old/>" for name, _ in items}
    journal = model.journal_of(items)
    plain = [(name.decode(), content) for name, content in items]
    times = {"recovery": [], "plain": [], "in place": [], "nothing": []}
    for _ in range(repeats):
        settled(folder, {**olds, model.JOURNAL.encode(): journal, model.GATE.encode(): b"OPEN"})
        times["recovery"].append(run([program, ROOT], folder)[0])
        model.want("the files after a recovery", model.book_of(model.files_in(folder)), dict(items))
        settled(folder, olds)
        times["plain"].append(waited(lambda: replace_and_sync(folder, plain)))
        settled(folder, olds)
        times["in place"].append(waited(lambda: write_and_sync(folder, plain)))
        settled(folder, dict(items))
        times["nothing"].append(run([program, ROOT], folder)[0])
    return {name: statistics.median(found) for name, found in times.items()}


def place_of_text(text):
    """The place of the longest text of a document, as a path of numbers and as an XPath of node tests."""

    def texts(nodes, place, path):
        names = {}
        for number, node in enumerate(nodes, 1):
            test = "text()" if node.kind == "text" else "*"
            names[test] = names.get(test, 0) + 1
            here = (*place, number), f"{path}/{test}[{names[test]}]"
            if node.kind == "text":
                yield node.end - node.begin, *here
            yield from texts(node.kids, *here)

    _, place, path = max(texts(documents.nodes_of(text), (), ""))
    return place, path


def save_times(folder, program, size, repeats):
    """Times of one edit with and without a burst of a book of so many bytes, of the plain writes and syncs of a save, and of xmlstarlet."""
    old = CLASSES["book"](size)
    place, path = place_of_text(old.decode())
    reply, new = documents.edited(old.decode(), place, 0, 1, "Z")
    model.want("the model's reply", reply, "ok")
    edit = ("text " + "".join(f"/{number}" for number in place) + " 0 1 \"Z\"\n").encode()
    scripts = {"save": edit + b"burst\n", "edit": edit}
    value = documents.value_of(new[slice(*span_at(new, place))])
    journal = model.journal_of([(ROOT.encode(), new.encode())])
    commands = {name: [program, ROOT] for name in ("save", "edit", "open")}
    if shutil.which("xmlstarlet"):
        commands["xmlstarlet"] = ["xmlstarlet", "ed", "-P", "-L", "-u", path, "-v", value, ROOT]
    times = {name: [] for name in (*commands, "plain")}
    for _ in range(repeats):
        for name, command in commands.items():
            settled(folder, {ROOT.encode(): old})
            times[name].append(run(command, folder, scripts.get(name, b"")))
            if name == "save":
                model.want("the file after a burst", model.files_in(folder)[ROOT.encode()], new.encode())
        settled(folder, {ROOT.encode(): old})
        times["plain"].append((waited(lambda: plain_save(folder, journal, [(ROOT, new.encode())])), 0.0))
    return {name: tuple(statistics.median(column) for column in zip(*found)) for name, found in times.items()}


def span_at(text, place):
    node = documents.node_at(documents.nodes_of(text), place)
    return node.begin, node.end


def ms(seconds):
    return f"{seconds * 1000:.1f} ms"


def version_of_xmlstarlet():
    if not shutil.which("xmlstarlet"):
        return "not there"
    told = subprocess.run(["xmlstarlet", "--version"], capture_output=True, text=True).stdout
    return re.sub(r"\s+", " ", told).strip()


def page(recoveries, small, save, repeats, load, folder):
    kind = subprocess.run(["stat", "-f", "-c", "%T", folder], capture_output=True, text=True).stdout.strip()
    lines = [
        "# Results of bench/save.py",
        "",
        f"Medians of {repeats} runs each, wall-clock time; the runs take turns, and before each all that was written is on the disk. {os.cpu_count()} processors "
        f"({platform.machine()}), file system {kind}; load {load[0]:.1f} at the start and {os.getloadavg()[0]:.1f} at the end.",
        "",
        "## Recovery",
        "",
        "A journal of so many files under an open gate, over files of one folder. \"Plain\" writes each of the same files beside the old one, syncs it, renames it over the old one, and syncs the folder; \"in place\" writes and syncs them without a rename, so that others may see them cut; \"nothing\" is a run of the program over the new files, with nothing to recover.",
        "",
        "| Files | Bytes each | Recovery | Plain | In place | Nothing | Recovery to plain | without what \"nothing\" takes | Aim |",
        "|---|---|---|---|---|---|---|---|---|",
    ]
    for count, size, times in recoveries:
        lines.append(
            f"| {count:,} | {size:,} | {ms(times['recovery'])} | {ms(times['plain'])} | {ms(times['in place'])} | {ms(times['nothing'])} | {times['recovery'] / times['plain']:.2f} "
            f"| {(times['recovery'] - times['nothing']) / times['plain']:.2f} | {AIM} |"
        )
    lines += [
        "",
        "## One edit and a save of a book of 4 MiB",
        "",
        "\"Save\" is a run with the script `text ..` and `burst`: it reads, edits, writes journal, gate and file with their syncs, and prints the tree. \"Edit\" is the same run without the `burst`, \"open\" without a script. "
        f"\"Plain\" writes and syncs the journal, the marker and, beside the old one and with a rename, the file, each with its folder, and removes the marker. xmlstarlet: {version_of_xmlstarlet()}; it makes the same edit (`ed -P -L -u PATH -v VALUE`), and syncs nothing.",
        "",
        "| Run | Wall-clock time | Processor time |",
        "|---|---|---|",
    ]
    lines += [f"| {name} | {ms(wall)} | {ms(processor) if processor else '-'} |" for name, (wall, processor) in save.items()]
    lines.append("")
    for name, times in (("4 MiB", save), ("4 KiB", small)):
        over, plain = times["save"][0] - times["edit"][0], times["plain"][0]
        lines.append(f"What a `burst` adds to a run over a book of {name} (save without edit): {ms(over)}, plain {ms(plain)}; to plain: {over / plain:.2f} (aim {AIM}).")
    lines.append(f"The edit of the book of 4 MiB (edit without open): {ms(save['edit'][0] - save['open'][0])}.")
    if "xmlstarlet" in save:
        lines.append(f"Save to xmlstarlet: {save['save'][0] / save['xmlstarlet'][0]:.2f} of the wall-clock time, {save['save'][1] / save['xmlstarlet'][1]:.2f} of the processor time.")
    return "\n".join(lines) + "\n"


def main():
    parser = argparse.ArgumentParser(description=__doc__)
    parser.add_argument("--program", default=str(model.PROGRAM))
    parser.add_argument("--repeats", type=int, default=9)
    parser.add_argument("--folder", default=None, help="where to make the folder of the runs; its file system is what is measured")
    parser.add_argument("--results", default=str(TOP / "bench/SAVING.md"), help="the file to write; - for standard output alone")
    parser.add_argument("--anyway", action="store_true", help="also on a loaded machine")
    words = parser.parse_args()
    load = os.getloadavg()
    if load[0] > os.cpu_count() / 2 and not words.anyway:
        sys.exit(f"bench: the machine is busy (load {load[0]:.1f} on {os.cpu_count()} processors); --anyway runs it all the same")
    program = str(Path(words.program).resolve())
    recoveries = []
    with tempfile.TemporaryDirectory(prefix="bookedit-save-", dir=words.folder) as home:
        folder = os.path.join(home, "folder")
        for count, size in ((1, 4 * KIB), (1, 4096 * KIB), (20, 4 * KIB), (20, 512 * KIB), (1000, 4 * KIB), (1000, 64 * KIB)):
            recoveries.append((count, size, recovery_times(folder, program, count, size, words.repeats)))
            print(f"recovery of {count} files of {size} bytes: {recoveries[-1][2]}", flush=True)
        small = save_times(folder, program, 4 * KIB, words.repeats)
        save = save_times(folder, program, 4096 * KIB - 64, words.repeats)
        text = page(recoveries, small, save, words.repeats, load, home)
    if words.results != "-":
        Path(words.results).write_text(text)
    print(text)


if __name__ == "__main__":
    main()
