"""What the program should do, told apart from its code: journals, folders, runs. documents.py has one document.

docs/FORMATS.md says the rules.
"""
import os
import re
import shutil
import subprocess
import sys
from pathlib import Path
from typing import NamedTuple

TOP = Path(__file__).resolve().parent.parent
PROGRAM = TOP / "crates/book_cli/out/book_cli"
JOURNAL = ".burst-journal"
GATE = ".burst-gate"
MARK = b"BKBURST1"
MOST_FILE = 4_194_304
MOST_ITEMS = 5_120
MOST_JOURNAL = 68_450_316
SECONDS = 120
sys.path.insert(0, str(TOP / "bench"))  # for expected.py, which bench and fuzz share


# Journals


def journal_of(items):
    """The bytes of a journal: items are names (bytes) with bytes, or with None for a removal."""
    parts = [MARK, len(items).to_bytes(4, "big")]
    for name, content in sorted(items, key=lambda item: item[0]):
        parts.append((b"\0" if content is None else b"\1") + len(name).to_bytes(2, "big") + name)
        if content is not None:
            parts.append(len(content).to_bytes(4, "big") + content)
    return b"".join(parts)


NAME_PART = re.compile("(?!\\.burst-)[-._~A-Za-z0-9 \u00b7\u00c0-\u00d6\u00d8-\u00f6\u00f8-\u037d\u037f-\u1fff\u200c\u200d\u203f\u2040\u2070-\u218f"
                       "\u2c00-\u2fef\u3001-\ud7ff\uf900-\ufdcf\ufdf0-\ufffd\U00010000-\U000effff]+")


def is_file_name(name):
    """Whether the bytes are a file name of a book."""
    if not 1 <= len(name) <= 255:
        return False
    try:
        parts = name.decode().split("/")
    except UnicodeDecodeError:
        return False
    return all(part not in (".", "..") and NAME_PART.fullmatch(part) for part in parts)


class Cursor:
    """Fields from the front of some bytes; `ValueError` where they end too early."""

    def __init__(self, content):
        self.content, self.at = content, 0

    def take(self, count):
        if self.at + count > len(self.content):
            raise ValueError
        self.at += count
        return self.content[self.at - count : self.at]

    def number(self, count):
        return int.from_bytes(self.take(count), "big")


def items_of(journal):
    """The items of a journal, in their order; None where it has no reading."""
    if len(journal) > MOST_JOURNAL:
        return None
    cursor, items = Cursor(journal), []
    try:
        if cursor.take(8) != MARK:
            return None
        count = cursor.number(4)
        if not 1 <= count <= MOST_ITEMS:
            return None
        for _ in range(count):
            kind = cursor.number(1)
            name = bytes(cursor.take(cursor.number(2)))
            if kind > 1 or not is_file_name(name) or items and items[-1][0] >= name:
                return None
            length = cursor.number(4) if kind else 0
            if length > MOST_FILE:
                return None
            items.append((name, bytes(cursor.take(length)) if kind else None))
    except ValueError:
        return None
    return items if cursor.at == len(journal) else None


# Folders and runs


def files_in(folder):
    """The files below a folder, by name from there as bytes, with what they hold."""
    found = {}
    top = os.fsencode(folder)
    for path, _, names in os.walk(top):
        for name in names:
            whole = os.path.join(path, name)
            with open(whole, "rb") as file:
                found[os.path.relpath(whole, top)] = file.read()
    return found


def put_files(folder, files):
    """Writes files into a folder that is empty."""
    for name, content in files.items():
        path = os.path.join(os.fsencode(folder), name)
        os.makedirs(os.path.dirname(path), exist_ok=True)
        with open(path, "wb") as file:
            file.write(content)


def put_files_anew(folder, files):
    """Makes a folder hold these files alone."""
    shutil.rmtree(folder, ignore_errors=True)
    os.makedirs(folder)
    put_files(folder, files)


def book_of(files):
    """The files without the two that a save writes beside the book."""
    return {name: content for name, content in files.items() if name not in (JOURNAL.encode(), GATE.encode())}


def recovered(files):
    """What a recovery makes of a folder; None where its journal is damaged."""
    after = dict(files)
    if files.get(GATE.encode()) != b"OPEN":
        return after
    items = items_of(files.get(JOURNAL.encode(), b""))
    if items is None:
        return None
    for name, content in items:
        if content is None:
            after.pop(name, None)
        else:
            after[name] = content
    del after[GATE.encode()]
    return after


class Told(NamedTuple):
    status: int
    output: bytes


def run(folder, words, script=b"", program=None, before=()):
    """Status and output of a run of the program in a folder; what it writes to standard error is a fault."""
    command = [*before, str(program or PROGRAM), *words]
    ran = subprocess.run(command, cwd=folder, input=script, stdout=subprocess.PIPE, stderr=subprocess.PIPE, timeout=SECONDS)
    if ran.stderr and not before:
        raise Fault(f"standard error: {ran.stderr[:200]!r}")
    return Told(ran.returncode, ran.stdout)


class Fault(Exception):
    """The program did something else than it should."""


def want(what, found, expected):
    if found != expected:
        raise Fault(f"{what}: {short(found)}, and not {short(expected)}")


def short(value):
    text = repr(value)
    return text if len(text) <= 600 else text[:300] + " .. " + text[-300:]
