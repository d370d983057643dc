#!/usr/bin/env python3
"""What goes stale in texts: a line for each that doesn't hold, and a last line `N M` of how many checks passed and failed.

  module     a table of modules in a crate's README lists exactly the files of its specs/; a file that a README names is there
  name       each status, fault and refusal of docs/FORMATS.md stands in docs/bookedit.1, docs/GUIDE.md and tools/why
  time       how long a build takes stands in README.md alone, beside the number of crates with which it was measured (give or take 6)
  number     numbers that the pages of bench/ and README.md quote are those of the tables
  message    no commit message behind the one that is named here has a machine, a folder of one, or an address
"""
import re
import subprocess
import sys
from pathlib import Path

TOP = Path(__file__).resolve().parent.parent
# Messages up to this commit stay as they are.
SINCE = "89c8639"
MACHINES = re.compile(r"(?<![\w.])/(?:work|root|home|tmp|opt|var)/\w|\b\d{1,3}(?:\.\d{1,3}){3}\b|\b[\w-]+\.(?:local|internal|lan)\b|\bip-\d+-\d+")
TIMES = re.compile(r"\b(?:takes?|taking|in|for|about|some)\b[^.;|]{0,30}\b(?:minutes?|hours?|half an hour)\b", re.I)
passed, failed = 0, 0


def check(what, holds):
    global passed, failed
    if holds:
        passed += 1
    else:
        failed += 1
        print(f"text check: {what}")


def read(name):
    file = TOP / name
    return file.read_text(errors="replace") if file.is_file() else ""


def crates():
    lines = (line.split("#")[0] for line in read("crates.txt").splitlines())
    return [line.split(":")[0].split()[0] for line in lines if line.strip()]


def rows(text, head):
    """The cells of the rows below the heads of tables that begin with a text."""
    inside = False
    for line in text.splitlines():
        if line.startswith(head):
            inside = True
        elif not line.startswith("|"):
            inside = False
        elif inside and not line.startswith("|---"):
            yield [cell.strip() for cell in line.strip("|").split("|")]


def check_modules(crate):
    text, folder = read(f"crates/{crate}/README.md"), TOP / "crates" / crate
    files = {str(file.relative_to(folder / "specs"))[:-5].replace("/", ".") for file in folder.glob("specs/**/*.antt")} - {"Lib"}
    listed = {name for cells in rows(text, "| Module") for name in re.findall(r"`([A-Z]\w*(?:\.\w+)*)`", cells[0])}
    for name in sorted(listed - files):
        check(f"crates/{crate}/README.md lists the module {name}, which is none", False)
    named = set(re.findall(r"`(?:specs/)?([A-Z]\w*)(?:\.antt)?`", text))
    for name in sorted(files if listed else []):
        check(f"crates/{crate}/README.md does not name the module {name} of its specs/", name in named or name.split(".")[-1] in named)
    for name in sorted(set(re.findall(r"`((?:specs|proofs|src)/[\w/]+(?:\.antt|\.rt)?/?)`", text))):
        there = any((folder / f"{name}{end}").exists() for end in ("", ".antt", ".rt"))
        check(f"crates/{crate}/README.md names {name}, which is no file of the crate", there)


def check_names():
    formats = read("docs/FORMATS.md")
    statuses = {cells[0] for cells in rows(formats, "| Status |")}
    faults = {name for cells in rows(formats, "| Line | Comes where |") for name in re.findall(r"`fault (\w+)", cells[0])}
    later = {name for cells in rows(formats, "| Line | Fields |") for name in re.findall(r"`fault (\w+)", cells[0])}
    refusals = {cells[0].strip("`") for cells in rows(formats, "| Refusal | Where |")}
    guide, page, why = read("docs/GUIDE.md"), read("docs/bookedit.1"), read("tools/why")
    check("docs/FORMATS.md has no statuses, faults or refusals where they are looked for", bool(statuses and faults and refusals))
    for name in sorted(faults):
        check(f"docs/bookedit.1 has no fault {name}", f"fault {name} " in page)
        check(f"docs/GUIDE.md has no fault {name}", f"**`fault {name} " in guide)
        check(f"tools/why has no fault {name}", f'"{name}":' in why)
    for name in sorted(later):
        check(f"docs/GUIDE.md does not name the fault {name}", f"`{name}`" in guide)
    for name in sorted(refusals):
        check(f"docs/bookedit.1 has no refusal {name}", f"refused {name}\n" in page)
        check(f"docs/GUIDE.md has no refusal {name}", f"`refused {name}`" in guide)
        check(f"tools/why has no refusal {name}", f'"{name}":' in why)
    for status in sorted(statuses):
        check(f"docs/bookedit.1 has no status {status}", f"\n.B {status}\n" in page)
        for text in ("README.md", "docs/GUIDE.md"):
            check(f"{text} has no status {status}", f"\n| {status} |" in read(text))


def check_times():
    measured = re.search(r"measured with (\d+) crates", read("README.md"))
    check("README.md does not say with how many crates its build was measured", measured)
    if measured:
        check(f"README.md has the time of a build of {measured[1]} crates, and there are {len(crates())}: measure anew", abs(int(measured[1]) - len(crates())) <= 6)
    texts = [*TOP.glob("docs/*.md"), *TOP.glob("crates/*/README.md"), *TOP.glob("examples/*.md"), TOP / "bookedit", *TOP.glob("tools/*")]
    for file in sorted(file for file in texts if file.is_file()):
        found = TIMES.search(file.read_text(errors="replace"))
        check(f"{file.relative_to(TOP)} has a time that a build takes ({found and found[0]}): README.md alone says it", not found)


def check_numbers():
    results, saving, page, readme = (read(name) for name in ("bench/RESULTS.md", "bench/SAVING.md", "bench/README.md", "README.md"))
    instructions = {(cells[0], cells[1]): cells[2] for cells in rows(results, "| Document | Size | Program | `--noout` | Ratio |")}
    for cells in rows(results, "| Part |"):
        if cells[0] == "the whole run":
            for name, number in zip(("book", "deep", "nodes", "namespaces"), cells[1:]):
                check(f"bench/RESULTS.md: the whole run over {name} is {number} here and {instructions.get((name, '1 MiB'))} there", instructions.get((name, "1 MiB")) == number)
    few = [float(cells[6]) for cells in rows(saving, "| Files |") if int(cells[0].replace(",", "")) <= 20]
    quoted = re.search(r"few files \(([\d.]+) to ([\d.]+) of the last run\)", page)
    check("bench/README.md quotes other ratios of few files than bench/SAVING.md has", not quoted or (few and [float(it) for it in quoted.groups()] == [min(few), max(few)]))
    ratios = [float(cells[7]) for cells in rows(results, "| Document | Size | Nodes |")]
    quoted = re.search(r"takes ([\d.]+) to ([\d.]+) times the time of `--noout`", readme)
    check("README.md quotes other times than bench/RESULTS.md has", not quoted or (ratios and [float(it) for it in quoted.groups()] == [round(min(ratios), 1), round(max(ratios), 1)]))
    for said, source, text, name in [
        (r"A save of 4 MiB takes ([\d.]+) times plain writes", r"to plain: ([\d.]+) ", page, "bench/README.md"),
        (r"([\d.]+) times its time at 4 MiB", r"Save to xmlstarlet: ([\d.]+) ", readme, "README.md"),
    ]:
        found, measured = re.search(said, text), re.search(source, saving)
        check(f"{name} quotes {found and found[1]}, and bench/SAVING.md has {measured and measured[1]}", not found or measured and abs(float(found[1]) - float(measured[1])) <= 0.05)


def check_messages():
    git = ["git", "-C", str(TOP)]
    if subprocess.run([*git, "cat-file", "-e", f"{SINCE}^{{commit}}"], stderr=subprocess.DEVNULL).returncode:
        return
    told = subprocess.run([*git, "log", "--format=%h%x00%B%x01", f"{SINCE}..HEAD"], stdout=subprocess.PIPE, text=True, errors="replace").stdout
    for commit in filter(None, (it.strip() for it in told.split("\x01"))):
        name, _, message = commit.partition("\0")
        found = MACHINES.search(message)
        check(f"the message of {name} names a machine: {found and found[0]}", not found)


for crate in crates():
    check_modules(crate)
check_names()
check_times()
check_numbers()
check_messages()
print(passed, failed)
sys.exit(1 if failed else 0)
