#!/usr/bin/env python3
"""Openings of random, mutated and cut documents, and of those at a limit: the tree or the fault's line against a model.
fuzz/README.md says more."""
import collections
import os
import re
import subprocess

import documents
import made
import model
import rounds
import urls
from model import Fault, want

ROOT = "book.xml"
BITS = ["<", ">", "/", "&", '"', "'", " ", "\n", "\r", "\t", "]]>", "<!--", "-->", "--", "->", "<?", "?>", "<![CDATA[", "]]", "<a>", "</a>", "<b/>", ":", "x:"]
BITS += ["&amp;", "&#65;", "&#x41;", "&#0;", "&#xD800;", "&#1114112;", "&lt", "=", "!", "?", "-", "x", "1", ".", "é", "\ufffe", "\ufeff", "\x01", "&e;", "&é;"]
BITS += ['<?xml version="1.0"?>', "<?xml encoding='UTF-8'?>", '<?xml version="1.0" encoding="latin1"?>', '<?xml version="2.0"?>', "[", "]", "xml", "<?XML x?>"]
BITS += [' a="1"', ' a=""', "#", 'x ="', ' xmlns="u"', ' xmlns:p="u"', ' xmlns:p=""', ' p:a="1"', ' xml:base="http://["', ' xml:base="x"', "<p:q/>", "<?p:q r?>"]
BITS += [' xmlns="http://www.w3.org/2001/XInclude"', ' xmlns:xml="http://www.w3.org/XML/1998/namespace"', "<!DOCTYPE a>", '<!DOCTYPE a SYSTEM "u" [<!-- ] -->]>']
FALSE_BASES = [*made.BASES, "http://[", "http://a b/", "http:", "//", "http://a:99999/", "mailto:x", "data:,x", "file://h:1/", "http://%00/"]


# What others say of a document

ODD_VERSION = re.compile(r"\ufeff?<\?xml\s+version\s*=\s*([\"'])(?!1\.[0-9]+\1)")
DECLARED_TWICE = re.compile(r"(xmlns(?::[^\s=]+)?)\s*=[^<]*?\s\1\s*=")
ENTITY = re.compile(f"&{documents.NCNAME};")


def differs_by_design(found, text):
    """Whether expat and xmllint may find something else of well-formedness: they take any version, read the declarations of a
    DOCTYPE, and have colons as letters where Namespaces in XML allows none."""
    return ODD_VERSION.match(text) or "<!DOCTYPE" in text or documents.is_well_formed(text.replace(":", "_")) == found


def without_entities(text):
    """A text as well-formed as before, with references that need no declaration in place of all others."""
    return ENTITY.sub("&amp;", text)


def is_read_by_xmllint(text, home):
    path = os.path.join(home, "asked.xml")
    with open(path, "wb") as file:
        file.write(text.encode())
    return subprocess.run(["xmllint", "--noout", "--nonet", path], capture_output=True).returncode == 0


def agrees(who, found, expected, text, counts):
    """Counts an answer that is the model's; another is a fault but where it differs by design."""
    if found == expected or differs_by_design(found, text):
        counts[who if found == expected else f"{who}, by design"] += 1
    else:
        raise Fault(f"{who} has {found} and the model {expected}: {text!r}")


def compare_readers(rng, content, answer, home, counts):
    """Whether expat, and now and then xmllint, take the document for well-formed where the model does."""
    kind = answer[1].split()[1] if answer[0] else b""
    if kind in (b"Encoding", b"TooDeep", b"TooLarge"):
        return
    text, expected = without_entities(content.decode()), kind != b"NotWellFormed"
    agrees("expat", documents.is_read_by_expat(text), expected, text, counts)
    # libxml2 passes over a declaration that isn't allowed before it looks for two attributes of one name.
    if rng.random() < 0.1 and not DECLARED_TWICE.search(text):
        agrees("xmllint", is_read_by_xmllint(text, home), expected, text, counts)
    if kind in (b"", *NAMESPACE_FAULTS):
        compare_names(text, answer, counts)


NAMESPACE_FAULTS = (b"BadNamespace", b"Unbound", b"DuplicateAttribute")


def compare_names(text, answer, counts):
    """Whether expat's own namespaces refuse a document where the model has such a fault, and else give the names that it has."""
    names = documents.names_by_expat(text)
    want("a fault of names by expat", names is None, answer[0] != 0)
    # A namespace with a quote or a line end in it is told as it is, and then a line can't be taken apart.
    if names is not None and not any(set(name) & {'"', "\n"} for name in names):
        want("the names by expat", names, documents.names_in(answer[1]))
    counts["expat, names"] += 1


# Openings


def check_opening(content, home, program, counts):
    """The program's answer to an opening, which is the model's; it is counted."""
    folder = os.path.join(home, "folder")
    model.put_files_anew(folder, {ROOT.encode(): content})
    answer = documents.opened(content, ROOT, urls.join)
    told = model.run(folder, [ROOT], b"", program)
    want("the answer", told, model.Told(*answer))
    want("files", model.files_in(folder), {ROOT.encode(): content})
    counts[" ".join(answer[1].decode().split()[:2]) if answer[0] else "opened"] += 1
    return answer


def mutated(rng, text):
    """A document with a few changes, by a piece put in, some characters left out, or a piece of its own put elsewhere."""
    for _ in range(rng.choice((0, 1, 1, 2, 3))):
        at = rng.randrange(len(text) + 1)
        way = rng.randrange(4)
        if way == 0:
            text = text[:at] + rng.choice(BITS) + text[at:]
        elif way == 1:
            text = text[:at] + text[at + rng.randrange(1, 4) :]
        elif way == 2:
            to = rng.randrange(len(text) + 1)
            text = text[:to] + text[at : at + rng.randrange(1, 20)] + text[to:]
        else:
            spots = [found.end() for found in re.finditer(r"<[^\s/>!?]+", text)]
            at = rng.choice(spots) if spots else at
            text = text[:at] + rng.choice([bit for bit in BITS if "=" in bit]) + text[at:]
    return text


def spoiled(rng, content):
    """Now and then with a byte that may be no UTF-8."""
    if rng.random() > 0.03:
        return content
    at = rng.randrange(len(content) + 1)
    after = content[:at] + bytes([rng.randrange(256)]) + content[at + rng.randint(0, 1) :]
    # A character that stands in for another one before expat may not come in by chance.
    return content if set(after.decode(errors="replace")) & set(map(chr, documents.STOOD_IN)) else after


def documents_round(rng, home, program):
    """A random document, whose names, declarations and bases may be wrong."""
    counts = collections.Counter()
    content = made.document(rng, FALSE_BASES, rng.choice((0, 0.01, 0.03))).encode()
    answer = check_opening(content, home, program, counts)
    compare_readers(rng, content, answer, home, counts)
    return counts


def mutated_round(rng, home, program):
    """A random document with a few changes."""
    counts = collections.Counter()
    content = spoiled(rng, mutated(rng, made.document(rng, FALSE_BASES, rng.choice((0, 0, 0.02)))).encode())
    answer = check_opening(content, home, program, counts)
    compare_readers(rng, content, answer, home, counts)
    return counts


# Cut documents

WHOLE = (
    "\ufeff<?xml version=\"1.0\" encoding='UTF-8' standalone=\"no\"?>\r\n<!-- é -->\n<?p d?><a xmlns='u' xmlns:p=\"v\" p:x='&lt;&#x3e;&#62;' xml:base='b/'>"
    "t&amp;中<![CDATA[<]]>]]<p:b /><!--c--><?q  r ?></a>\n<!--e--><?z?> "
)
MOST_CUT = 500


def cuts_round(rng, home, program):
    """A document of a few hundred bytes, cut at each of its lengths; now and then one with a bit of everything."""
    counts = collections.Counter()
    content = WHOLE.encode() if rng.random() < 0.1 else b"x" * (MOST_CUT + 1)
    while len(content) > MOST_CUT:
        content = made.document(rng).encode()
    for length in range(len(content) + 1):
        answer = check_opening(content[:length], home, program, counts)
        compare_readers(rng, content[:length], answer, home, counts)
    return counts


# Limits


def nested(levels, inner):
    """So many elements within each other, and something in the innermost."""
    return "<e>" * levels + inner + "</e>" * levels


def deep_documents():
    """Both sides of the limit of levels, with what may stand at the 129th."""
    for levels in (127, 128, 129):
        for inner in ("", "t", "<e/>", "<e></e>", "<e a='1' a='2'/>", "<e", "</f>", "<e/>]]>", "<e>" * 3, "<!--c-->", "<p:e/>", "<e><f", "&e;", "<e>&e;"):
            yield nested(levels, inner)
    for levels in (128, 129):
        yield nested(levels, "") + "<e>"
        yield "<!DOCTYPE e>" + nested(levels, "")
        yield nested(levels, "")[: -len("</e>")]
        yield "<e p:a='1'>" + nested(levels - 1, "") + "</e>"
        yield "<e>&e;" + nested(levels - 1, "") + "</e>"


def stretched(front, unit, back, count):
    """So many bytes: spaces behind the document."""
    content = (front + unit * ((count - len(front) - len(back)) // len(unit)) + back).encode()
    return content + b" " * (count - len(content))


def large_documents():
    """Both sides of the limit of bytes and of the limit of nodes."""
    for count in (model.MOST_FILE, model.MOST_FILE + 1):
        yield stretched("<a>", "x", "</a>", count)
        yield stretched("<a", " ", "/>", count)
        yield stretched("<a>", "x", "<", count)
        yield stretched("\xff", "x", "", count // 2)
        yield stretched("<a b='", "y\r\n", "'/>", count)
        yield stretched("<a><!--", "z\r", "--></a>", count)
        yield stretched("<a><![CDATA[", "]]", "]]></a>", count)
        yield b"\xff" * count
    for count in (999_999, 1_000_000):
        yield b"<r>" + b"<a/>" * count + b"</r>"
        yield b"<r>" + b"<a/>" * (count - 1) + b"t</r>"
        yield b"<r>" + b"<a/>" * (count - 1) + b"<!----></r>"
        yield b"<r>" + b"<a/>" * (count - 2) + b"</r><?p?><?q?>"
        yield b"<r>" + b"<a/>" * (count - 1) + b"<![CDATA[]]>" + b"</r>\n\n"
        yield b"<r>" + b"<a/>" * count + b"<p:a/></r>"
        yield b"<r>" + b"<a/>" * (count - 1) + b"<p:a/></r>"


def check_missing(home, program):
    """No file, and a folder of its name."""
    for files in ({}, {f"{ROOT}/x".encode(): b""}):
        folder = os.path.join(home, "folder")
        model.put_files_anew(folder, files)
        want("a root that is missing", model.run(folder, [ROOT], b"", program), model.Told(*documents.faulted(ROOT, "Missing")))


def limits_round(rng, home, program):
    """All documents at a limit of levels, and some at a limit of bytes or of nodes."""
    counts = collections.Counter()
    check_missing(home, program)
    for text in deep_documents():
        check_opening(text.encode(), home, program, counts)
    for content in rng.sample(list(large_documents()), 3):
        counts["large"] += 1
        check_opening(content, home, program, counts)
    return counts


WAYS = {"documents": documents_round, "mutated": mutated_round, "cuts": cuts_round, "limits": limits_round}

if __name__ == "__main__":
    rounds.go("opens", __doc__, WAYS)
