#!/usr/bin/env python3
"""A folder that others use too: runs side by side, readers while a script saves, signals, files that may not be written, links and modes. fuzz/README.md says more."""
import collections
import os
import re
import shutil
import signal
import stat
import subprocess
import threading
import time

import model
import rounds
from model import GATE, JOURNAL, Fault, want

WORDS = "abcdefgh"
SAVED = b"ok\nburst 1\n"


def book(text):
    return f"<a>{text}</a>".encode()


def save_of(text, length):
    """A script that gives the text of such a book another value, and saves it."""
    return f'text /1/1 0 {length} "{text}"\nburst\n'.encode()


def started(folder, root, script, program):
    child = subprocess.Popen([program, root], cwd=folder, stdin=subprocess.PIPE, stdout=subprocess.PIPE, stderr=subprocess.PIPE)
    child.stdin.write(script)
    child.stdin.close()
    child.stdin = None
    return child


def ended(child):
    told, errors = child.communicate(timeout=model.SECONDS)
    want("standard error", errors, b"")
    return model.Told(child.returncode, told)


def names_in(folder):
    return sorted(os.fsdecode(name) for name in model.files_in(folder))


def check_closed(folder, books):
    """Whether a folder has these books, and besides at most the journal and an empty marker, as a stop leaves it before `OPEN` is written."""
    own = {JOURNAL} | ({GATE} if model.files_in(folder).get(GATE.encode()) == b"" else set())
    want("the names", [name for name in names_in(folder) if name not in own], sorted(books))


# Runs side by side


def same_book_round(rng, home, program):
    """Eight runs at once on one book, each with one character in front: each told save is in the file, and no run fails."""
    folder, count = os.path.join(home, "folder"), 8
    model.put_files_anew(folder, {b"book.xml": book("|")})
    scripts = {word: f'text /1/1 0 0 "{word}"\nburst\n'.encode() * rng.randint(1, 6) for word in WORDS[:count]}
    children = {word: started(folder, "book.xml", script, program) for word, script in scripts.items()}
    saves = 0
    for word, child in children.items():
        status, told = ended(child)
        want("the status", status, 0)
        done = scripts[word].count(b"burst")
        want("the replies", told.startswith(SAVED * done), True)
        saves += done
    text = model.files_in(folder)[b"book.xml"].decode()
    want("the saves in the file", collections.Counter(text[3:-4]), collections.Counter("|") + collections.Counter({word: scripts[word].count(b"burst") for word in scripts}))
    check_closed(folder, ["book.xml"])
    return collections.Counter(saves=saves, runs=count)


def own_books_round(rng, home, program):
    """Eight books of one folder, each saved by runs of its own, all at once."""
    folder, count = os.path.join(home, "folder"), 8
    roots = [f"{word}.xml" for word in WORDS[:count]]
    model.put_files_anew(folder, {root.encode(): book("|") for root in roots})
    turns, found = rng.randint(2, 8), {root: [] for root in roots}

    def saves_of(root):
        for _ in range(turns):
            found[root].append(ended(started(folder, root, b'text /1/1 0 0 "x"\nburst\n', program)))

    threads = [threading.Thread(target=saves_of, args=(root,)) for root in roots]
    for thread in threads:
        thread.start()
    for thread in threads:
        thread.join()
    files = model.files_in(folder)
    for root in roots:
        want(f"the statuses of {root}", [told.status for told in found[root]], [0] * turns)
        want(f"the replies of {root}", all(told.output.startswith(SAVED) for told in found[root]), True)
        want(f"the file {root}", files[root.encode()], book("x" * turns + "|"))
    check_closed(folder, roots)
    return collections.Counter(saves=turns * count, runs=turns * count)


# Readers


def reader_round(rng, home, program):
    """A script of 40 saves of a book of half a megabyte, and a reader that looks all the while: each look sees a whole book."""
    folder, size, saves = os.path.join(home, "folder"), 500_000, 40
    filler = "y" * size
    model.put_files_anew(folder, {b"book.xml": book("00" + filler)})
    script = b"".join(f'text /1/1 0 2 "{number:02}"\nburst\n'.encode() for number in range(1, saves + 1))
    child = started(folder, "book.xml", script, program)
    path, looks, seen, wrong = os.path.join(folder, "book.xml"), 0, set(), []
    tail = (filler + "</a>").encode()
    while child.poll() is None:
        with open(path, "rb") as file:
            text = file.read()
        looks += 1
        if re.fullmatch(rb"<a>\d\d", text[:5]) and text[5:] == tail:
            seen.add(text[3:5])
        else:
            wrong.append(len(text))
        if child.stdout.closed:
            break
        os.set_blocking(child.stdout.fileno(), False)
        while child.stdout.read(1 << 20):
            pass
    child.communicate()
    want("the status", child.returncode, 0)
    want("looks that saw no whole book, by their lengths", wrong[:5], [])
    want("the last book", model.files_in(folder)[b"book.xml"], f"<a>{saves:02}".encode() + tail)
    check_closed(folder, ["book.xml"])
    return collections.Counter(looks=looks, books=len(seen))


# Signals


def signal_round(rng, home, program):
    """SIGTERM or SIGKILL at random moments of a script of saves: the file is whole at once, and the next run leaves no other name."""
    folder, size = os.path.join(home, "folder"), rng.choice((10, 50_000, 500_000))
    tail, counts = "y" * size + "</a>", collections.Counter()
    script = b"".join(f'text /1/1 0 2 "{number:02}"\nburst\n'.encode() for number in range(1, 21))
    nested = rng.random() < 0.5
    for _ in range(8):
        model.put_files_anew(folder, {b"book.xml": f"<a>00{tail}".encode(), b"d/other.xml": b"<o/>"})
        path = os.path.join(folder, "book.xml")
        if nested:
            os.rename(path, os.path.join(folder, "d", "real.xml"))
            os.symlink("d/real.xml", path)
        child = subprocess.Popen([program, "book.xml"], cwd=folder, stdin=subprocess.PIPE, stdout=subprocess.DEVNULL, stderr=subprocess.DEVNULL)
        child.stdin.write(script)
        child.stdin.close()
        time.sleep(rng.uniform(0, rng.choice((0.05, 0.3, 1))))
        kind = rng.choice((signal.SIGTERM, signal.SIGKILL))
        child.send_signal(kind)
        child.wait()
        with open(path, "rb") as file:
            text = file.read()
        want("the file after a signal", (text[:3], text[5:]), (b"<a>", tail.encode()))
        again = model.run(folder, ["book.xml"], b"", program)
        want("the status of the next run", again.status, 0)
        files = ["book.xml", "d/other.xml"] + (["d/real.xml"] if nested else [])
        check_closed(folder, files)
        counts[kind.name if child.returncode < 0 else "ended"] += 1
    return counts


# Files that may not be written, modes and links


def read_only_round(rng, home, program):
    """A book that is read-only: no save of it, and no marker; what is edited by hand later stays, whatever is opened next."""
    folder = os.path.join(home, "folder")
    model.put_files_anew(folder, {b"book.xml": book("old"), b"other.xml": book("old")})
    path = os.path.join(folder, "book.xml")
    os.chmod(path, rng.choice((0o444, 0o400, 0o440)))
    told = model.run(folder, ["book.xml"], save_of("new", 3), program)
    want("a save of it", told, model.Told(6, b"ok\n"))
    want("the files", model.book_of(model.files_in(folder)), {b"book.xml": book("old"), b"other.xml": book("old")})
    want("the names", GATE in names_in(folder), False)
    want("it opens", model.run(folder, ["book.xml"], b"", program).status, 0)
    want("a save of another book", model.run(folder, ["other.xml"], save_of("new", 3), program).output.startswith(SAVED), True)
    os.chmod(path, 0o644)
    with open(path, "wb") as file:
        file.write(book("by hand"))
    want("another book", model.run(folder, ["other.xml"], b"", program).status, 0)
    want("the book", model.files_in(folder)[b"book.xml"], book("by hand"))
    check_closed(folder, ["book.xml", "other.xml"])
    return collections.Counter(["read-only"])


def kept_round(rng, home, program):
    """Modes, hard links and symbolic links stay as they are over a save, and so does another owner."""
    folder, away = os.path.join(home, "folder"), os.path.join(home, "away")
    model.put_files_anew(folder, {b"book.xml": book("old"), b"d/e.xml": b"<e/>"})
    os.mkdir(away)
    path, kind = os.path.join(folder, "book.xml"), rng.choice(("mode", "hard link", "link", "link away", "links", "dangling", "owner"))
    mode, files = rng.choice((0o600, 0o640, 0o644, 0o664, 0o755, 0o666)), ["book.xml", "d/e.xml"]
    real = path
    if kind == "hard link":
        os.link(path, os.path.join(away, "same.xml"))
    elif kind in ("link", "links"):
        real = os.path.join(folder, "d", "real.xml")
        os.rename(path, real)
        os.symlink("d/real.xml" if kind == "link" else "d/next.xml", path)
        if kind == "links":
            os.symlink("real.xml", os.path.join(folder, "d", "next.xml"))
        files += ["d/real.xml"] + (["d/next.xml"] if kind == "links" else [])
    elif kind == "link away":
        real = os.path.join(away, "real.xml")
        os.rename(path, real)
        os.symlink(real, path)
    elif kind == "owner" and os.geteuid() == 0:
        os.chown(path, 1, 1)
    if kind == "dangling":
        os.remove(path)
        os.symlink(os.path.join(away, "none.xml"), path)
        want("a link that leads nowhere", model.run(folder, ["book.xml"], b"", program), model.Told(3, b"fault Missing book.xml\n"))
        return collections.Counter([kind])
    os.chmod(real, mode)
    links, before = [os.readlink(path)] if os.path.islink(path) else [], os.stat(real)
    told = model.run(folder, ["book.xml"], save_of("new", 3), program)
    want("the run", (told.status, told.output.startswith(SAVED)), (0, True))
    after = os.stat(real)
    with open(real, "rb") as file:
        want("the file", file.read(), book("new"))
    want("mode, owner and group", (stat.S_IMODE(after.st_mode), after.st_uid, after.st_gid), (mode, before.st_uid, before.st_gid))
    want("the link", [os.readlink(path)] if os.path.islink(path) else [], links)
    want("how many names it has", after.st_nlink, before.st_nlink)
    want("whether it is another file", after.st_ino != before.st_ino, kind not in ("hard link", "owner") or kind == "owner" and os.geteuid() != 0)
    check_closed(folder, files)
    want("the names away", sorted(os.listdir(away)), {"hard link": ["same.xml"], "link away": ["real.xml"]}.get(kind, []))
    return collections.Counter([kind])


ROUNDS = {"one": same_book_round, "many": own_books_round, "reader": reader_round, "signals": signal_round, "locked": read_only_round, "kept": kept_round}


if __name__ == "__main__":
    rounds.go("shared", __doc__, ROUNDS)
