"""What the tools beside bookedit share: the program, and runs of it over copies of a folder. Nothing in the folder is changed."""
import os
import re
import shutil
import subprocess
import sys
import tempfile
from pathlib import Path
from typing import NamedTuple

HERE = Path(__file__).resolve().parent
# As many bytes as a file of a book has at most; larger ones are not copied but for their first bytes.
MOST = 4_194_304
CONTROL = (".burst-journal", ".burst-gate")
# A folder of more files than a book may have names, or of more bytes than a gibibyte of copies, is taken for no book's.
MOST_FILES, MOST_BYTES = 20_000, 2**30
NODE = re.compile(rb"( *)(element|text|comment|pi) ")


def program(name, variable):
    """The command of a program of this repository: as the environment says, beside this folder, or wherever the shell finds it."""
    folders = (HERE.parent, HERE.parent.parent / "bin", HERE, HERE.parent / "crates" / name / "out")
    found = [folder / name for folder in folders if os.access(folder / name, os.X_OK) and (folder / name).is_file()]
    return os.environ.get(variable) or (str(found[0]) if found else shutil.which(name))


def copy_file(file, to):
    """A copy, and how many bytes it has; of a file that is too large, so many that it stays so."""
    with open(file, "rb") as read, open(to, "wb") as write:
        return write.write(read.read(MOST + 1))


def copy_folder(folder, to):
    """Copies the files at and below a folder, but for hidden ones that are no control files of a save."""
    count, size = 0, 0
    for at, folders, files in os.walk(folder):
        folders[:] = sorted(name for name in folders if not name.startswith("."))
        inside = Path(to) / Path(at).relative_to(folder)
        inside.mkdir(exist_ok=True)
        for name in files:
            if (not name.startswith(".") or name in CONTROL) and (Path(at) / name).is_file() and os.access(Path(at) / name, os.R_OK):
                count, size = count + 1, size + copy_file(Path(at) / name, inside / name)
                if count > MOST_FILES or size > MOST_BYTES:
                    raise OSError(f"{folder} has more files than a book: run this in the book's own folder")


class Run(NamedTuple):
    status: int
    lines: list


def run_in(folder, root, script):
    """The status of a run in a folder, and the lines that it told."""
    command = program("bookedit", "BOOKEDIT")
    if not command:
        sys.exit("there is no bookedit: set BOOKEDIT, or build it by tools/build")
    ran = subprocess.run([command, root], cwd=folder, input=script, stdout=subprocess.PIPE)
    return Run(ran.returncode, ran.stdout.splitlines())


class Copy:
    """A copy of the current folder, for as long as it is used."""

    def __enter__(self):
        self.room = tempfile.TemporaryDirectory(prefix="bookedit-")
        self.folder = Path(self.room.name) / "book"
        copy_folder(Path.cwd(), self.folder)
        return self.folder

    def __exit__(self, *_):
        self.room.cleanup()


def with_places(lines):
    """Each line of a printed tree with the place of its node, as a script names it; of a line that is no node's, with none."""
    counts = []
    for line in lines:
        found = NODE.match(line)
        if not found:
            yield "", line
            continue
        level = len(found[1]) // 2
        counts = counts[: level + 1] + [0] * (level + 1 - len(counts))
        counts[level] += 1
        yield "".join(f"/{number}" for number in counts), line


def put(line):
    sys.stdout.buffer.write(line if line.endswith(b"\n") else line + b"\n")
