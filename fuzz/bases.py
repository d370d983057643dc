#!/usr/bin/env python3
"""Random `xml:base` in elements within each other: the printed bases, or the fault, against node's URL. fuzz/README.md says more."""
import collections
import functools
import os

import documents
import made
import model
import rounds
import urls
from model import Fault

ROOT = "book.xml"
LEVELS = 12

# Parts of references, as values

SCHEMES = ["http", "https", "file", "ftp", "ws", "wss", "mailto", "data", "urn", "x", "HTTP", "fIlE", "x+y-z.1", "javascript", "blob", "about", "1x", "é"]
SLASHES = ["", "/", "//", "///", "////", "\\", "/\\", "\\\\"]
USERS = ["", "", "", "", "u@", "u:p@", ":@", "@", "u@v@", "é:%@", "u:p:q@", "u;<@"]
HOSTS = [
    "example.org", "EXAMPLE.org", "h", "", "localhost", "LOCALHOST", "127.0.0.1", "127.1", "0x7f.1", "0300.0.0.1", "256", "256.256.256.256", "1.2.3.4.5", "4294967295",
    "4294967296", "09", "0x", "1.", "1..2", "[::1]", "[1:2:3:4:5:6:7:8]", "[::ffff:1.2.3.4]", "[1::8]", "[::1", "[g]", "[1:0:0:4:0:0:0:8]", "[::0.0.0.256]", "[0:0::]", "[]",
    "a b", "a%20b", "a%41b", "%", "%zz", "a_b", "a-", "-a", "xn--bcher-kva", "xn--", "xn--a", "bücher.example", "BÜCHER", "faß.de", "ａ.b", "a。b", "\u00ad", "a\u00adb", "é",
    "e\u0301", "中", "a.b.", "..", "a..b", "a<b", "a|b", "a^b", "a:b", "\u200d", "x\u200db", "א", "אa", "\ufeff", "c:", "C|", "a" * 64, "0.0.0.0", "%30x7f.1", "☃", "%e4%b8%ad",
]
PORTS = ["", "", "", "", ":80", ":443", ":21", ":0", ":65535", ":65536", ":", ":08", ":x", ":1x", ":-1", ":99999999999", ":8 0"]
SEGMENTS = [
    "a", "b.xml", ".", "..", "...", "%2e", "%2E%2e", ".%2e", "", " ", "a b", "é", "e\u0301", "中", "%", "%4", "%zz", "%41", "%e9", "\\", "a\\b", "|", "c:", "C|", "c|d", "{x}", "<x>", "\"", "'", "`",
    "^", "~", "*", ":", "a:b", "@", ";", "=", "+", "$", ",", "!", "(", "\t", "\n", "\r", "a\tb", "\u007f", "\u00a0", "\u2028", "\ufdd0", "\U0001f600", "\U0010ffff", "[", "]", "%00", "%2f", "%5c", "%0a", "\ufffd",
]
QUERIES = ["", "", "", "?", "?q", "?a=b&c", "?é", "? ", "?'\"<>", "?%", "?a/../b", "??", "?\\", "?{|}^`", "?\t", "?#"]
FRAGMENTS = ["", "", "", "#", "#f", "#é", "# ", "##", "#`<>\"", "#?", "#/..", "#\t"]
EDGES = ["", "", "", "", "", " ", "\t", "\n ", "\u00a0", "\ufeff", "\u0085", "\u007f"]


def path_of(rng):
    return "/".join(rng.choice(SEGMENTS) for _ in range(rng.choice((0, 1, 1, 2, 3, 5))))


def authority(rng):
    return rng.choice(USERS) + rng.choice(HOSTS) + rng.choice(PORTS)


def reference(rng):
    """A reference of any form."""
    kind = rng.random()
    if kind < 0.05:
        front = rng.choice(("mailto:", "data:", "urn:", "x:", "about:", "MAILTO:")) + "".join(rng.choice(SEGMENTS) for _ in range(rng.randint(0, 3)))
        return front + rng.choice(("", "", "", "/", " ")) + rng.choice(QUERIES) + rng.choice(FRAGMENTS) + rng.choice(EDGES)
    if kind < 0.35:
        front = rng.choice(SCHEMES) + ":" + rng.choice(SLASHES) if kind < 0.1 else f"{rng.choice(SCHEMES)}://{authority(rng)}"
    elif kind < 0.45:
        front = f"//{authority(rng)}"
    else:
        front = ""
    slash = rng.choice(("", "/", "/", "\\")) if front else rng.choice(("", "", "", "/", "\\", "//", "/.//"))
    text = front + slash + path_of(rng) + rng.choice(QUERIES) + rng.choice(FRAGMENTS)
    return rng.choice(EDGES) + text + rng.choice(EDGES)


def simple_reference(rng):
    """One that joins to most bases."""
    return rng.choice(("", "/", "../", "./", "x/../", "//h/", "http://h/", "file:///c:/", "#")) + rng.choice(("", "a", "b/c", "é", "a b", "?q"))


ESCAPES = str.maketrans({"&": "&amp;", "<": "&lt;", "\"": "&quot;", "\t": "&#9;", "\n": "&#10;", "\r": "&#13;"})


def document(references):
    """Elements within each other, each with its `xml:base` from the outermost to the innermost."""
    front = "".join(f"<e xml:base=\"{one.translate(ESCAPES)}\">" for one in references)
    return front + "</e>" * len(references)


def told_of(references, folder, program):
    """What the program and the model tell of elements with these references."""
    content = document(references).encode()
    model.put_files_anew(folder, {ROOT.encode(): content})
    return model.run(folder, [ROOT], b"", program), model.Told(*documents.opened(content, ROOT, urls.join))


def first_difference(references, folder, program):
    """The first reference that is joined otherwise, with its base, for a message."""
    for count in range(1, len(references) + 1):
        told, expected = told_of(references[:count], folder, program)
        if told != expected:
            base = functools.reduce(urls.join, references[: count - 1], f"file:///book/{ROOT}")
            return f"{references[count - 1]!r} at {base!r} is {urls.node().ask(base, references[count - 1])!r} by node, and the program told {told.output[-200:]!r}"
    return "all together alone"


def some_references(rng, counts):
    """References from the outermost to the innermost, none behind one that doesn't join; those that are left out are counted."""
    base, found = f"file:///book/{ROOT}", []
    for _ in range(rng.choice((1, 2, 3, LEVELS))):
        one = reference(rng) if rng.random() < 0.5 else simple_reference(rng)
        reason = urls.left_out(base, one)
        if reason:
            counts[f"left out: {reason}"] += 1
            continue
        found.append(one)
        base = urls.join(base, one)
        counts["not joined" if base is None else "joined"] += 1
        if base is None:
            break
    return found or ["."]


def bases_round(rng, home, program):
    """Elements within each other. A reference that doesn't join is the fault of the whole, so it is the innermost one."""
    counts = collections.Counter()
    references = some_references(rng, counts)
    folder = os.path.join(home, "folder")
    told, expected = told_of(references, folder, program)
    if told != expected:
        raise Fault(first_difference(references, folder, program))
    return counts


if __name__ == "__main__":
    rounds.go("bases", __doc__, {"bases": bases_round})
