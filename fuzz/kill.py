#!/usr/bin/env python3
"""Stops the program in saves and recoveries, and looks at what the next run makes of the folder. fuzz/README.md says more."""
import collections
import errno
import os
import re
import subprocess
import time
from pathlib import Path

import documents
import model
import rounds
import urls
from model import GATE, JOURNAL, Fault, want

ROOT = "book.xml"
CALLS = "openat,open,creat,write,writev,pwrite64,fsync,fdatasync,sync,syncfs,flock,fchmod,unlink,unlinkat,mkdir,mkdirat,rename,renameat,renameat2,ftruncate,truncate,link,linkat,symlink,symlinkat,rmdir"
READS = "read,pread64,lseek,close,newfstatat,fstat,statx"
NOT_LOADED = 127  # the status of the loader, where it could not read the C library
PARTS = "abcXYZ019-._~" + "é中 "
NEW = b".burst-new"  # what the name of a file begins with that is to take another's place


# What is saved and what is recovered


def document(rng, mark, most):
    return f"<a n='{mark}'>{rng.choice('xyz') * rng.randint(1, most)}</a>".encode()


def file_name(rng):
    while True:
        parts = ["".join(rng.choice(PARTS) for _ in range(rng.randint(1, 6))) for _ in range(rng.choice((1, 1, 1, 2, 3)))]
        name = "/".join(parts).encode()
        if model.is_file_name(name) and name != ROOT.encode():
            return name


def stands_below(name, others):
    """Whether one of two names would be a folder of the other."""
    return any(name.startswith(other + b"/") or other.startswith(name + b"/") for other in others)


def some_names(rng, count):
    names = []
    while len(names) < count:
        name = file_name(rng)
        if name not in names and not stands_below(name, names):
            names.append(name)
    return names


def is_new(name):
    return os.path.basename(name).startswith(NEW)


class Case:
    """A folder, a script, the files that are written or removed, and the books that the next run may find, by the number of
    saves that were made: after a recovery there is one."""

    def __init__(self, files, script, touched, books):
        self.files, self.script, self.touched, self.books = files, script, set(touched), books

    def others(self, files):
        """Those of some files that are neither written nor removed, nor new ones that had not yet their names."""
        return {name: content for name, content in model.book_of(files).items() if name not in self.touched and not is_new(name)}


def save_case(rng, most):
    """One to three edits of the root, each with a burst, beside other files; in some folders lies a journal that was carried out."""
    text = document(rng, "old", most).decode()
    files = {ROOT.encode(): text.encode(), b"other.xml": b"<o/>", b"d/e.xml": b"<e/>"}
    if rng.random() < 0.5:
        files[JOURNAL.encode()] = model.journal_of([(b"other.xml", b"<wrong/>"), (ROOT.encode(), b"<wrong/>")])
    books, script = [model.book_of(files)], []
    for number in range(rng.choice((1, 1, 2, 3))):
        string = f"{number}" + rng.choice("uvw") * rng.randint(0, min(most, 300_000))
        reply, text = documents.edited(text, (1, 1), 0, 1, string)
        want("the model's reply", reply, "ok")
        script.append(f"text /1/1 0 1 \"{string}\"\nburst\n")
        books.append({**books[0], ROOT.encode(): text.encode()})
    return Case(files, "".join(script).encode(), [ROOT.encode()], books)


def recovery_case(rng, most, count):
    """An open journal of many files, removals among them, over a folder that has some of them."""
    names = some_names(rng, count)
    items = [(name, None if rng.random() < 0.25 else document(rng, "new", most)) for name in names]
    items.append((ROOT.encode(), document(rng, "new", most)))
    files = {name: document(rng, "old", most) for name, _ in items if rng.random() < 0.7}
    for name in some_names(rng, 5):
        if name not in names and not stands_below(name, names):
            files[name] = b"stays"
    files[JOURNAL.encode()] = model.journal_of(items)
    files[GATE.encode()] = b"OPEN"
    return Case(files, b"", [name for name, _ in items], [model.book_of(model.recovered(files))])


# After a stop


def printed(book):
    """The printed tree of the root."""
    return documents.printed(book[ROOT.encode()].decode(), ROOT, urls.join)


def check_folder(case, folder, saves, program):
    """Whether the next run gives the book of the saves that were told, or of one more, and the run after it changes nothing."""
    want("the other files", case.others(model.files_in(folder)), case.others(case.files))
    again = model.run(folder, [ROOT], b"", program)
    files = model.files_in(folder)
    book = model.book_of(files)
    if book not in case.books[saves : saves + 2]:
        raise Fault(f"after {saves} saves: {model.short(book)}")
    if files.get(GATE.encode()) == b"OPEN":
        raise Fault("the gate is still open")
    want("the output of the next run", again, model.Told(0, printed(book)))
    want("the run after it", model.run(folder, [ROOT], b"", program), again)
    want("the files after it", model.files_in(folder), files)
    return "new" if book == case.books[-1] else "old"


def saves_in(told):
    """How many saves were told."""
    return told.count(b"burst 1\n")


def whole_output(case):
    """What a run that is not stopped tells, and its status."""
    return b"ok\nburst 1\n" * (len(case.books) - 1) + printed(case.books[-1])


def check_told(case, told):
    """Whether the output is a front of the whole one."""
    if not whole_output(case).startswith(told):
        raise Fault(f"told {model.short(told)}")


# Stops at random moments


def run_and_kill(folder, case, program, seconds):
    """Starts a run and kills it after so long; what it told, and whether it was killed."""
    out = os.path.join(os.path.dirname(folder), "told")
    with open(out, "wb") as told, open(os.path.join(os.path.dirname(folder), "script"), "w+b") as script:
        script.write(case.script)
        script.flush()
        script.seek(0)
        child = subprocess.Popen([program, ROOT], cwd=folder, stdin=script, stdout=told, stderr=subprocess.PIPE)
        end = time.perf_counter() + seconds
        while time.perf_counter() < end and child.poll() is None:
            pass
        child.kill()
        _, errors = child.communicate()
    if errors:
        raise Fault(f"standard error: {errors[:200]!r}")
    return Path(out).read_bytes(), child.returncode


def time_of(folder, case, program):
    begin = time.perf_counter()
    run_and_kill(folder, case, program, model.SECONDS)
    return time.perf_counter() - begin


def some_case(rng):
    if rng.random() < 0.5:
        return save_case(rng, rng.choice((1, 5000, 500_000)))
    return recovery_case(rng, rng.choice((1, 3000, 60_000)), rng.choice((1, 5, 40)))


def kill_round(rng, home, program):
    """One case, killed at many moments; each time over a new folder, or over what the last kill left."""
    case = some_case(rng)
    counts = collections.Counter()
    folder = os.path.join(home, "folder")
    model.put_files_anew(folder, case.files)
    whole = time_of(folder, case, program)
    want("files of a whole run", model.book_of(model.files_in(folder)), case.books[-1])
    for _ in range(12):
        model.put_files_anew(folder, case.files)
        stops = rng.choice((1, 1, 3)) if not case.script else 1
        for _ in range(stops):
            told, status = run_and_kill(folder, case, program, rng.uniform(0, whole * 1.1))
            check_told(case, told)
            if status not in (0, -9):
                raise Fault(f"status {status}")
        counts["killed" if status == -9 else "ended"] += 1
        counts[check_folder(case, folder, saves_in(told), program)] += 1
    return counts


# Stops at each system call


def traced(folder, case, program, words):
    """A run under strace with these words; what it told, its status, and the lines of strace."""
    lines = os.path.join(os.path.dirname(folder), "calls")
    command = ["strace", "-f", "-qq", "-s", "0", "-o", lines, *words, program, ROOT]
    ran = subprocess.run(command, cwd=folder, input=case.script, stdout=subprocess.PIPE, stderr=subprocess.PIPE, timeout=model.SECONDS)
    return ran.stdout, ran.returncode, Path(lines).read_text().splitlines()


def calls_of(folder, case, program):
    _, status, lines = traced(folder, case, program, ["-e", f"trace={CALLS},{READS}"])
    want("the status of a whole run", status, 0)
    return sum(1 for line in lines if re.match(r"\d+ +\w+\(", line))


def stop_round(rng, home, program):
    """One small case, stopped before each of its calls: killed, or with this call failing and every later one as it may."""
    case = save_case(rng, 20) if rng.random() < 0.4 else recovery_case(rng, 20, rng.choice((1, 3)))
    counts = collections.Counter()
    folder = os.path.join(home, "folder")
    model.put_files_anew(folder, case.files)
    count = calls_of(folder, case, program)
    for number in range(1, count + 1):
        fault = rng.choice(("EIO", "ENOSPC", "EACCES"))
        for way in (f"error=EINTR:signal=KILL:when={number}", f"error={fault}:when={number}", f"error={fault}:when={number}+"):
            model.put_files_anew(folder, case.files)
            told, status, _ = traced(folder, case, program, ["-e", f"trace={CALLS},{READS}", "-e", f"inject={CALLS},{READS}:{way}"])
            ended = "killed" if "KILL" in way else f"status {status}"
            if "KILL" not in way and status not in (0, 5, 6, NOT_LOADED):
                raise Fault(f"status {status} with {way}")
            check_stopped(case, folder, told, status)
            try:
                counts[check_folder(case, folder, saves_in(told), program)] += 1
            except Fault as fault_found:
                raise Fault(f"with {way}: {fault_found}") from fault_found
            counts[ended] += 1
    return counts


def check_stopped(case, folder, told, status):
    """Whether a run that was stopped told what it may; where it could not read its script it did nothing else."""
    if status == 0:
        want("the output with status 0", told, whole_output(case))
        want("the files with status 0", model.book_of(model.files_in(folder)), case.books[-1])
    elif status == 5:
        want("the output with status 5", told, b"fault source\n")
        want("the files with status 5", model.files_in(folder), case.files)
    else:
        check_told(case, told)


# Power cuts: what a disk may hold that kept only what was synced


CALL = re.compile(r"\d+ +(\w+)\((.*)\) += (-?\d+|\?)")


class Disk:
    """The files of a folder as they read, and which of them a power cut may spoil."""

    def __init__(self, files):
        self.now = dict(files)
        self.file_synced, self.entry_synced, self.new_folders, self.renamed = {}, {}, set(), set()

    def does(self, what, name, content):
        """A call of the run; `content` is what it writes."""
        if what == "write":
            self.now[name] = content
            self.file_synced[name], self.entry_synced[name] = False, False
            self.renamed.discard(name)
        elif what == "rename":
            self.now[name] = self.now.pop(content)
            self.file_synced[name], self.entry_synced[name] = self.file_synced[content], False
            self.file_synced[content], self.entry_synced[content] = True, False
            self.renamed.add(name)
        elif what == "remove":
            self.now.pop(name, None)
            self.file_synced[name], self.entry_synced[name] = True, False
        elif what == "folder":
            self.new_folders.add(name)
        elif what == "sync":
            self.sync(name)

    def sync(self, path):
        for name in self.file_synced:
            if name == path:
                self.file_synced[name] = True
            if os.path.dirname(name) == path:
                self.entry_synced[name] = True
        self.new_folders = {folder for folder in self.new_folders if os.path.dirname(folder) != path}

    def is_pending(self, name):
        return self.is_below_new(name) or not (self.file_synced[name] and self.entry_synced[name])

    def is_below_new(self, name):
        return any(name.startswith(folder + b"/") for folder in self.new_folders)

    def is_old_or_new(self, name):
        """Whether a pending file was synced and then renamed, so that a power cut leaves the old file of this name, or all of the new one."""
        return name in self.renamed and self.file_synced[name] and not self.is_below_new(name)

    def pending(self):
        return [name for name in self.file_synced if self.is_pending(name)]

    def settled(self):
        return [name for name in self.file_synced if not self.is_pending(name)]


def paths_of(lines):
    """The calls that changed or synced something, in order: what, and the path; of a rename both, the new one first."""
    opened, found = {}, []
    for line in lines:
        call = CALL.match(line)
        if not call or call.group(3) in ("?", "-1") or call.group(3).startswith("-"):
            continue
        name, args, answer = call.groups()
        paths = [os.fsencode(text.encode().decode("unicode_escape").encode("latin-1").decode()) for text in re.findall(r'"((?:[^"\\]|\\.)*)"', args)]
        path = paths[0] if paths else None
        if name in ("openat", "open", "creat"):
            opened[answer] = path
            if "O_TRUNC" in args or "O_CREAT" in args:
                found.append(("write", path, None))
        elif name in ("write", "pwrite64", "writev", "ftruncate"):
            number = args.split(",")[0].split("<")[0]
            if number == "1":
                found.append(("tell", None, None))
            elif number != "2":
                found.append(("write", opened[number], None))
        elif name in ("fsync", "fdatasync"):
            found.append(("sync", opened[args.split("<")[0]], None))
        elif name in ("unlink", "unlinkat"):
            found.append(("remove", path, None))
        elif name in ("mkdir", "mkdirat"):
            found.append(("folder", path, None))
        elif name in ("rename", "renameat", "renameat2"):
            found.append(("rename", paths[1], paths[0]))
        elif name in ("link", "linkat", "symlink", "symlinkat", "truncate", "rmdir", "sync", "syncfs"):
            raise Fault(f"the model of the disk has no {name}")
    return found


def in_folder(path):
    """A path from the folder, as a name; the folder itself is empty."""
    path = os.path.normpath(path)
    return b"" if path == b"." else path


def cut_round(rng, home, program):
    """A whole run under strace, and then the next run over what a power cut may leave behind each call, with each pending
    file absent, old, new, cut short or of other bytes."""
    case = save_case(rng, 20) if rng.random() < 0.4 else recovery_case(rng, 20, rng.choice((1, 4)))
    folder = os.path.join(home, "folder")
    model.put_files_anew(folder, case.files)
    told, status, lines = traced(folder, case, program, ["-s", "4096", "-e", f"trace={CALLS}"])
    want("a whole run", (status, told), (0, whole_output(case)))
    counts = collections.Counter()
    disk, tells = Disk(case.files), 0
    durable, pending = dict(case.files), []
    for what, path, before in paths_of(lines):
        name = in_folder(path) if path is not None else None
        tells += what == "tell"
        saves = min(tells // 2, len(case.books) - 1)
        disk.does(what, name, in_folder(before) if before is not None else written(case, saves, name))
        pending = disk.pending()
        for one in disk.settled():
            durable.pop(one, None)
            if one in disk.now:
                durable[one] = disk.now[one]
        for _ in range(3):
            after_cut(rng, case, folder, durable, disk, pending, saves, program, counts)
    want("what is pending at the end", pending, [])
    return counts


def written(case, saves, name):
    """What a run writes into a file after so many saves."""
    if name == GATE.encode():
        return b"OPEN"
    if name is not None and is_new(name):
        name = os.path.join(os.path.dirname(name), os.path.basename(name)[len(NEW) + 1 :])
    book = case.books[min(saves + 1, len(case.books) - 1)]
    if name == JOURNAL.encode():
        return model.journal_of([(ROOT.encode(), book[ROOT.encode()])])
    return book.get(name, b"")


def after_cut(rng, case, folder, durable, disk, pending, saves, program, counts):
    """One thing that a power cut may leave, and the next run over it."""
    files = {name: content for name, content in durable.items() if name not in pending}
    for name in pending:
        old_or_new = [durable.get(name), disk.now.get(name)]
        spoiled = [None, (disk.now.get(name) or b"x")[:-1], bytes(rng.randrange(256) for _ in range(5))]
        content = rng.choice(old_or_new if disk.is_old_or_new(name) else old_or_new + spoiled)
        if content is not None:
            files[name] = content
    model.put_files_anew(folder, files)
    try:
        counts[check_folder(case, folder, saves, program)] += 1
    except Fault as fault:
        raise Fault(f"with {model.short(files)}, pending {pending}: {fault}") from fault


# Journals with faults


def spoiled(rng, journal):
    """A journal that is mostly none."""
    found = bytearray(journal)
    for _ in range(rng.choice((1, 1, 2))):
        at = rng.randrange(len(found) + 1)
        kind = rng.randrange(5)
        if kind == 0 and at < len(found):
            found[at] ^= 1 << rng.randrange(8)
        elif kind == 1:
            del found[at : at + rng.randint(1, 4)]
        elif kind == 2:
            found[at:at] = bytes(rng.randrange(256) for _ in range(rng.randint(1, 3)))
        elif kind == 3:
            del found[at:]
        elif at + 4 <= len(found):
            found[at : at + 4] = rng.choice((b"\0\0\0\0", b"\0\0\0\1", b"\xff\xff\xff\xff", b"\0\x40\0\0", b"\0\x40\0\1"))
    return bytes(found)


def named_journals(rng):
    """Journals with one odd name or an order that may not be."""
    odd = [b"", b".", b"..", b"../x", b"/x", b"x/", b"a//b", b"a/../b", b".burst-gate", b".burst-journal", b"a/.burst-x", b"a\\b", b"a\nb", b"\xff", b"a\0b",
           b"x" * 255, b"x" * 256, "é".encode() * 127, "×".encode(), b".burst", b"...", b" ", b"a:b", b"~", "\u0300".encode(), "\u00b7".encode()]
    items = [(rng.choice(odd), rng.choice((None, b"<x/>"))), (ROOT.encode(), b"<a/>")]
    if rng.random() < 0.2:
        items = [(b"b.xml", b"<x/>"), (b"a.xml", b"<x/>")] if rng.random() < 0.5 else [(b"a.xml", b""), (b"a.xml", b"")]
        body = b"".join((b"\1" + len(name).to_bytes(2, "big") + name + len(content).to_bytes(4, "big") + content) for name, content in items)
        return model.MARK + len(items).to_bytes(4, "big") + body
    return model.journal_of(items)


def great_journal(rng):
    """A journal round one of its limits: of items, of the bytes of a file, of its own bytes."""
    way = rng.randrange(3)
    if way == 0:
        count = model.MOST_ITEMS - rng.randint(0, 1) + rng.randint(0, 1)
        return model.journal_of([(b"%05d" % number, b"x" if number % 7 else None) for number in range(count)])
    if way == 1:
        return model.journal_of([(b"great.xml", b"x" * (model.MOST_FILE + rng.randint(-1, 1)))])
    items = [(b"%02d" % number, b"x" * model.MOST_FILE) for number in range(16)]
    left = model.MOST_JOURNAL - len(model.journal_of([*items, (b"99", b"")]))
    return model.journal_of([*items, (b"99", b"y" * (left + rng.randint(-1, 1)))])


def journal_round(rng, home, program):
    """A journal, spoiled or with an odd name, under an open gate: carried out exactly where it has a reading."""
    case = recovery_case(rng, 10, rng.choice((1, 2, 5)))
    kind = rng.random()
    journal = great_journal(rng) if kind > 0.995 else spoiled(rng, case.files[JOURNAL.encode()]) if kind < 0.6 else named_journals(rng)
    files = {**case.files, JOURNAL.encode(): journal, ROOT.encode(): b"<a>root</a>"}
    if rng.random() < 0.05:
        del files[JOURNAL.encode()]
    folder = os.path.join(home, "folder")
    model.put_files_anew(folder, files)
    after = model.recovered(files)
    told = model.run(folder, [ROOT], b"", program)
    if after is None:
        want("a damaged journal", told, model.Told(8, b"fault journal\n"))
        want("the files", model.files_in(folder), files)
        return collections.Counter(["damaged"])
    if any(stands_below(name, after) for name in after):
        return collections.Counter(["skipped"])
    want("the files", model.files_in(folder), after)
    return collections.Counter(["carried out"])


ROUNDS = {"kill": kill_round, "stops": stop_round, "cuts": cut_round, "journals": journal_round}


if __name__ == "__main__":
    rounds.go("kill", __doc__, ROUNDS)
