#!/usr/bin/env python3
"""Refuses each request for memory of a run in turn, by a library that the loader puts before the C library (needs gcc).

A run whose request is refused ends with 7, and what it told is a front of what the whole run tells; or it needs no such
request. Either way the next run opens one save, whole, and the gate is closed. README.md says more.
"""
import atexit
import collections
import os
import shutil
import subprocess
import tempfile
from pathlib import Path

import documents
import edits
import model
import rounds
from kill import Case, check_folder, recovery_case, save_case, saves_in

SOURCE = Path(__file__).resolve().parent / "refused/refused.c"
ROOT = "book.xml"


def built():
    """The library, built in a folder that goes when the script ends."""
    folder = tempfile.mkdtemp(prefix="bookedit-refused-")
    atexit.register(shutil.rmtree, folder)
    library = os.path.join(folder, "refused.so")
    subprocess.run(["gcc", "-shared", "-fPIC", "-O1", "-o", library, str(SOURCE), "-ldl"], check=True)
    return library


LIBRARY = built()
ENOUGH = 25  # so many runs in a row that need no such request: none needs a later one


MANY = "".join(f" p:n{number}='{number}'" for number in range(20))  # so many that their names are looked up in a set
WHOLE = (
    "\ufeff<?xml version='1.0' encoding='utf-8'?>\r\n<!-- é --><?p d?><a xmlns='u:1' xmlns:p='u:2' xml:base='b/' xml:lang='de'" + MANY + ">"
    "t&amp;中<![CDATA[<]]>\r\n<p:b xml:id=' x  y ' n=\"&lt;&#x3e;\"/><c xmlns='' xml:base='../c.xml'><?q r?>x</c></a>\n"
)
MOST = 300


def small_document(rng):
    """A document that opens, of at most so many characters."""
    while True:
        text = edits.document(rng)
        if len(text) <= MOST:
            return text


def document_case(rng):
    """An edit of a text, where there is one, and a save, over a document with whatever documents hold."""
    text = WHOLE if rng.random() < 0.3 else small_document(rng)
    places = [place for place, node in edits.places_of(documents.nodes_of(text)) if node.kind == "text"]
    files = {ROOT.encode(): text.encode()}
    if not places:
        return Case(files, b"burst\n", [], [model.book_of(files)])
    place = rng.choice(places)
    reply, after = documents.edited(text, place, 0, 1, "new")
    model.want("the model's reply", reply, "ok")
    script = f"text /{'/'.join(map(str, place))} 0 1 \"new\"\nburst\n"
    return Case(files, script.encode(), [ROOT.encode()], [model.book_of(files), {ROOT.encode(): after.encode()}])


def some_case(rng):
    """A small save, a recovery of few files, or a save of a document of any kind: each of its requests is refused once."""
    kind = rng.random()
    if kind < 0.3:
        return save_case(rng, 40)
    return recovery_case(rng, 40, rng.randint(0, 4)) if kind < 0.6 else document_case(rng)


def refused(case, folder, number, program):
    """What a run tells whose request of this number is refused."""
    model.put_files_anew(folder, case.files)
    before = ("env", f"LD_PRELOAD={LIBRARY}", f"REFUSED={number}")
    return model.run(folder, [ROOT], case.script, program, before)


def check_refused(case, folder, told, whole, program):
    """Whether a run without memory says so, has told a front of the whole, and leaves one save."""
    model.want("the status without memory", told.status, 7)
    model.want("the output without memory", told.output, whole.output[: len(told.output)])
    return check_folder(case, folder, saves_in(told.output), program)


def memory_round(rng, home, program):
    case, counts, number, in_a_row = some_case(rng), collections.Counter(), 0, 0
    whole = refused(case, home, 0, program)
    while in_a_row < ENOUGH:
        number += 1
        told = refused(case, home, number, program)
        if told == whole:
            in_a_row += 1
            continue
        in_a_row = 0
        counts[f"refused, {check_refused(case, home, told, whole, program)} book"] += 1
    return counts


if __name__ == "__main__":
    rounds.go("memory", __doc__, {"requests": memory_round})
