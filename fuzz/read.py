#!/usr/bin/env python3
"""Mutated documents and entities: what is read, and where its items begin, against expat. fuzz/README.md says more."""
import argparse
import collections
import random
import re
import shutil
import struct
import subprocess
import sys
import tempfile
import time
from pathlib import Path
from xml.parsers import expat

TOP = Path(__file__).resolve().parent.parent
LIBRARIES = ("xt_spec", "xt_table", "xt_lex", "xt_tree", "xt_read")
# One call of the reader takes this many documents, which leaves its output below the tool's limit.
A_ROUND = 20_000

DOCUMENTS = [
    "<a/>",
    "<a></a>",
    "<a b=\"c\" d='e'>t</a>",
    '<?xml version="1.0"?>\n<a>x<b/>y</a>\n',
    '<?xml version="1.0" encoding="UTF-8" standalone="no"?><a><!--c--><?p d?>t<![CDATA[<x>&]] ]]>u&amp;&#60;&#x3E;</a><!-- e -->',
    "<!DOCTYPE a><a/>",
    '<!DOCTYPE a SYSTEM "u"><a>&e;</a>',
    "<!DOCTYPE a PUBLIC \"-//x\" 'u' [\n<!ELEMENT a ANY><!ATTLIST a b CDATA \"x>]\"><!ENTITY e \"]>\"><!-- ]> --><?p ]> ?>\n] >\n<a b=\"1\">é字</a>",
    "\ufeff<a>\r\n \t</a>\n<?q?>",
    '<?p?><!----><a x="&lt;&#9;"  y = "1" />\n\n',
    "<a>]] ></a>",
    "<a>]]&gt;</a>",
    '<a><b><c d="1"/></b><b></b ></a >',
    "<?xml version='1.0' standalone=\"yes\" ?><a><![CDATA[]]><![CDATA[x]]></a>",
    "<?xml-x y?><a>&#x10FFFF;</a>",
    "<a><?p  d ? > ?><?p?></a>",
]
ENTITIES = [
    "",
    "t",
    " <a/> ",
    "<a/><b>x</b>",
    "\ufeff<?xml encoding='UTF-8'?>x<!--c-->&lt;<?p d?>",
    '<?xml version="1.0" encoding="UTF-8" ?>\n<a b="1"><![CDATA[]]]]>]]&gt;</a>y',
    "&e;x&#9;<a>&e;</a>",
]
BITS = ["<", ">", "/", "&", '"', "'", " ", "\n", "\r", "\t", "]]>", "<!--", "-->", "--", "->", "<?", "?>", "<![CDATA[", "]]", "<a>", "</a>", "<b/>"]
BITS += ["&amp;", "&#65;", "&#x41;", "&#0;", "&#xD800;", "&lt", "=", "!", "?", "-", "x", "1", ".", "é", "\ufffe", "\ufeff", "\x01", "<!DOCTYPE a>"]
BITS += ['<?xml version="1.0"?>', "<?xml encoding='UTF-8'?>", "[", "]", "xml", "<?xml ?>", "<?XML x?>", ' a="1"', ' a=""', "#", 'x ="']
VERSION = re.compile(rb"(?:\xef\xbb\xbf)?<\?xml\s+version\s*=\s*([\"'])(.*?)\1", re.S)


def mutated(rng, seeds):
    text = rng.choice(seeds)
    for _ in range(rng.choice((0, 1, 1, 1, 2, 2, 3))):
        way, at = rng.randrange(5), rng.randrange(len(text) + 1)
        if way == 0:
            text = text[:at] + rng.choice(BITS) + text[at:]
        elif way == 1:
            text = text[:at] + text[at + rng.randrange(1, 4) :]
        elif way == 2:
            other = rng.randrange(len(text) + 1)
            text = text[: min(at, other)] + text[max(at, other) :]
        elif way == 3:
            to = rng.randrange(len(text) + 1)
            text = text[:to] + text[at : at + rng.randrange(1, 12)] + text[to:]
        else:
            other = rng.choice(seeds)
            cut = rng.randrange(len(other) + 1)
            text = text[:at] + other[cut : cut + rng.randrange(1, 20)] + text[at:]
    data = text.encode()
    if rng.random() < 0.03:
        at = rng.randrange(len(data) + 1)
        data = data[:at] + bytes([rng.randrange(256)]) + data[at:]
    return data


class Told:
    """What expat tells of a document or an entity: its items' kinds and places, or where it stopped."""

    def __init__(self):
        self.items, self.in_text, self.declares, self.skipped, self.fault = [], False, False, False, None

    def begin(self, parser, kind):
        self.items.append((kind, parser.CurrentByteIndex))
        self.in_text = False

    def text(self, parser):
        if not self.in_text:
            self.begin(parser, "T")
            self.in_text = True

    def listen(self, parser):
        def declares(value):
            self.declares = value

        def skipped(*_):
            self.skipped = True

        def leaf(kind):
            return lambda *_: None if self.declares else self.begin(parser, kind)

        parser.StartElementHandler = lambda *_: self.begin(parser, "S")
        parser.EndElementHandler = lambda *_: self.begin(parser, "E")
        parser.CommentHandler, parser.ProcessingInstructionHandler = leaf("C"), leaf("P")
        parser.CharacterDataHandler = parser.StartCdataSectionHandler = lambda *_: self.text(parser)
        parser.SkippedEntityHandler = skipped
        parser.StartDoctypeDeclHandler = lambda *_: declares(True)
        parser.EndDoctypeDeclHandler = lambda *_: declares(False)

    def parse(self, parser, data):
        try:
            parser.Parse(data, True)
        except LookupError:
            self.fault = "encoding"
        except expat.ExpatError as error:
            # An entity that nothing declares is a reference that stands for itself in the lossless tree.
            self.fault = "entity" if error.code == 11 else "declares" if self.declares else str(error)


def told_document(data):
    told, parser = Told(), expat.ParserCreate()
    parser.UseForeignDTD(True)
    parser.SetParamEntityParsing(expat.XML_PARAM_ENTITY_PARSING_UNLESS_STANDALONE)
    parser.ExternalEntityRefHandler = lambda *_: 1
    told.listen(parser)
    told.parse(parser, data)
    return told


def told_entity(data):
    told, parser = Told(), expat.ParserCreate()

    def opened(context, _base, system, _public):
        if system == "entity":
            inner = parser.ExternalEntityParserCreate(context)
            told.listen(inner)
            told.parse(inner, data)
        return 1

    parser.SetParamEntityParsing(expat.XML_PARAM_ENTITY_PARSING_ALWAYS)
    parser.ExternalEntityRefHandler = opened
    parser.Parse('<!DOCTYPE r SYSTEM "dtd" [<!ENTITY here SYSTEM "entity">]><r>&here;</r>', True)
    return told


def is_odd(data):
    """Whether expat's answer says nothing: it takes any version, has names of the fourth edition, without U+FEFF, and takes
    colons in names where Namespaces in XML has none."""
    version = VERSION.match(data)
    return (version and not re.fullmatch(rb"1\.[0-9]+", version.group(2))) or b"\xef\xbb\xbf" in data[1:] or b":" in data


def items_of(lines):
    """The kinds and places of the items as read, in expat's order; and whether some reference stands for itself."""
    items, refers = [], False
    for line in lines:
        kind, start, end = line.split()
        refers |= kind == "R"
        if kind not in "RG":
            items.append(("E", int(end)) if kind == "N" else (kind, int(start)))
    return items, refers


def difference(data, role, lines):
    """What is wrong with an answer, if anything."""
    try:
        data.decode()
    except UnicodeDecodeError as error:
        return None if lines[0] == f"NotUtf8 {error.start}" else f"{lines[0]}, and the bytes are UTF-8 up to {error.start}"
    told = (told_document if role == "D" else told_entity)(data)
    if is_odd(data) or lines[0] == "Encoding":
        return None
    if lines[0] != "ok":
        return f"{lines[0]}, and expat reads it" if told.fault is None else None
    if told.fault in ("entity", "declares"):
        return None
    if told.fault:
        return f"read, and expat says {told.fault}"
    items, refers = items_of(lines[1:])
    return None if refers or told.skipped or items == told.items else f"{items}, and expat has {told.items}"


def workspace():
    """A folder with the reader, and a program over it that is built without a proof."""
    top = Path(tempfile.mkdtemp(prefix="bookedit-read-"))
    (top / "crates").mkdir()
    for crate in LIBRARIES:
        shutil.copytree(TOP / "crates" / crate, top / "crates" / crate)
    (top / "crates/reader/src").mkdir(parents=True)
    shutil.copy(TOP / "fuzz/reader/main.rt.txt", top / "crates/reader/src/main.rt")
    lines = [line for line in (TOP / "crates.txt").read_text().splitlines() if line.split(":")[0] in LIBRARIES]
    (top / "crates.txt").write_text("\n".join(lines) + f"\nreader: {' '.join(LIBRARIES)} sqlite_items itoa\n")
    return top


def answers(top, cases):
    framed = b"".join(role.encode() + struct.pack(">I", len(data)) + data for role, data in cases)
    run = subprocess.run(["rt", "try", "--seconds", "600", "--steps", "1000000000000"], cwd=top / "crates/reader", input=framed, capture_output=True)
    blocks = run.stdout.decode().split("\n.\n")
    if len(blocks) != len(cases) + 1:
        sys.exit(f"{len(cases)} cases have {len(blocks) - 1} answers: {run.stderr.decode()[-2000:]}")
    return [block.split("\n") for block in blocks[:-1]]


def one_round(seed, top, counts):
    rng = random.Random(seed)
    cases = [("D", mutated(rng, DOCUMENTS)) if rng.random() < 0.7 else ("E", mutated(rng, ENTITIES)) for _ in range(A_ROUND)]
    for (role, data), lines in zip(cases, answers(top, cases)):
        wrong = difference(data, role, lines)
        if wrong:
            sys.exit(f"round {seed}, role {role}: {data!r}: {wrong}")
        counts[f"{role} {lines[0].split()[0]}"] += 1


def main():
    parser = argparse.ArgumentParser(description=__doc__)
    parser.add_argument("--seconds", type=float, default=60)
    parser.add_argument("--seed", type=int, default=None, help="the first round's number; rounds count up from it")
    words = parser.parse_args()
    seed = words.seed if words.seed is not None else random.randrange(1 << 40)
    top, end, done, counts = workspace(), time.monotonic() + words.seconds, 0, collections.Counter()
    print(f"read: rounds of {A_ROUND} from {seed} on, in {top}", flush=True)
    while time.monotonic() < end:
        one_round(seed + done, top, counts)
        done += 1
    shutil.rmtree(top)
    print(f"read: {done} rounds: {dict(sorted(counts.items()))}")


main()
