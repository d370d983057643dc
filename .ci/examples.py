#!/usr/bin/env python3
"""Runs the examples of the repository's texts, and compares what they tell with what is shown.

usage: .ci/examples.py PROGRAM [TEXT..]

An example is a block ```console of a text: a line `$ COMMAND` is run by sh, and the lines up to the next one are what it tells, on
either output. A line `...` stands for any lines. Each section (## and below it) begins in a new copy of examples/, in the folder
that FOLDERS names for the text, and its blocks follow one another there. bookedit is PROGRAM, beside the tools of tools/.
"""
import os
import re
import shutil
import subprocess
import sys
import tempfile
from pathlib import Path
from typing import NamedTuple

TOP = Path(__file__).resolve().parent.parent
TEXTS = ["README.md", "examples/README.md", "docs/GUIDE.md", "docs/SAVING.md"]
FOLDERS = {"docs/GUIDE.md": "examples/guide", "docs/SAVING.md": "examples/guide"}
TOOLS = ["places", "why", "preview"]
MARK = "== end of one command =="


class Example(NamedTuple):
    """The number of its line, the lines of its command and of what is shown."""

    number: int
    command: list
    shown: list


def sections(text):
    """The examples of each section. What stands behind <<'END' goes on in lines that begin with `> `."""
    found, inside, here = [[]], False, False
    for number, line in enumerate(text.split("\n"), 1):
        if not inside and line.startswith("## "):
            found.append([])
        elif line.startswith("```"):
            inside = line == "```console" and not inside
        elif inside and line.startswith("$ "):
            found[-1].append(Example(number, [line[2:]], []))
            here = line.endswith("<<'END'")
        elif inside and here:
            found[-1][-1].command.append(line[2:])
            here = line != "> END"
        elif inside and found[-1]:
            found[-1][-1].shown.append(line)
    return [section for section in found if section]


def is_told(told, shown):
    """Whether what was told is what is shown, where `...` stands for any lines."""
    pattern = "".join(r"(?:.*\n)*?" if line == "..." else re.escape(line + "\n") for line in shown)
    return re.fullmatch(pattern, told) is not None


def run_section(section, folder, room):
    """What each command of a section told."""
    lines = ["exec 2>&1"]
    for example in section:
        lines += [*example.command, f"printf '%s\\n' '{MARK}'"]
    environment = {"PATH": f"{room}/bin:{os.environ.get('PATH', '/usr/bin:/bin')}", "HOME": str(room), "LANG": "C.UTF-8", "PYTHONDONTWRITEBYTECODE": "1", "BOOKEDIT": f"{room}/bin/bookedit"}
    if os.access(TOP / "crates/book_where/out/book_where", os.X_OK):
        environment["BOOKWHERE"] = str(TOP / "crates/book_where/out/book_where")
    (room / "section.sh").write_text("\n".join(lines) + "\n")
    how = {"stdin": subprocess.DEVNULL, "stdout": subprocess.PIPE, "stderr": subprocess.STDOUT, "text": True, "errors": "replace"}
    ran = subprocess.run(["sh", f"{room}/section.sh"], cwd=folder, env=environment, timeout=60, **how)
    return ran.stdout.split(f"{MARK}\n")


def failures(name, program):
    """A line for each example of a text that tells something else."""
    for section in sections((TOP / name).read_text()):
        with tempfile.TemporaryDirectory(prefix="bookedit-texts-") as room:
            room = Path(room)
            shutil.copytree(TOP / "examples", room / "examples", ignore=shutil.ignore_patterns(".burst-*"))
            (room / "bin").mkdir()
            (room / "bin/bookedit").symlink_to(program)
            for tool in TOOLS:
                (room / "bin" / tool).symlink_to(TOP / "tools" / tool)
            told = run_section(section, room / FOLDERS.get(name, "."), room)
        for example, was in zip(section, told + [""] * len(section)):
            if not is_told(was, example.shown):
                yield f"{name}:{example.number}: `{example.command[0]}` does not tell what is shown:\n" + "".join(f"    {line}\n" for line in was.splitlines())


def main(words):
    if not words or "--help" in words:
        print(__doc__.strip())
        return 0 if words else 2
    program, texts, count = Path(words[0]).resolve(), words[1:] or TEXTS, 0
    for name in texts:
        if (TOP / name).is_file():
            for failure in failures(name, program):
                print(failure, end="")
                count += 1
    return 1 if count else 0


if __name__ == "__main__":
    sys.exit(main(sys.argv[1:]))
