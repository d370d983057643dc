"""What one document is, told apart from the program's code: its items or the fault of its reading, values, nodes, edits of a
text, and the whole answer to an opening.

docs/FORMATS.md says the rules. Offsets are characters of the document's text, from 0, half open. Tokens are regular
expressions of XML 1.0 (Fifth Edition); the printed tree, and the faults of nodes, come from expat (bench/expected.py).
"""
import io
import re
from typing import NamedTuple
from xml.parsers import expat

from model import MOST_FILE  # and the folder of expected.py
from expected import Expected, printed_name

MOST_LEVELS = 128

# Tokens

NO_CHAR = "\x00-\x08\x0b\x0c\x0e-\x1f\ufffe\uffff"
START = ("A-Z_a-z\u00c0-\u00d6\u00d8-\u00f6\u00f8-\u02ff\u0370-\u037d\u037f-\u1fff\u200c\u200d\u2070-\u218f\u2c00-\u2fef"
         "\u3001-\ud7ff\uf900-\ufdcf\ufdf0-\ufffd\U00010000-\U000effff")
NCNAME = f"[{START}][-.0-9\u00b7\u0300-\u036f\u203f\u2040{START}]*+"
QNAME = f"{NCNAME}(?::{NCNAME})?+"
S = "[ \t\r\n]"
REFERENCE = f"&(?:#x(?P<hexadecimal>[0-9a-fA-F]+)|#(?P<decimal>[0-9]+)|(?P<named>{NCNAME}));"
REF = f"&(?:#x[0-9a-fA-F]+|#[0-9]+|{NCNAME});"
QUOTED = f"\"(?:[^<&\"{NO_CHAR}]|{REF})*+\"|'(?:[^<&'{NO_CHAR}]|{REF})*+'"
ATTRIBUTE = f"{S}++{QNAME}{S}*+={S}*+(?:{QUOTED})"
LITERAL = f"(?:\"[^\"{NO_CHAR}]*+\"|'[^'{NO_CHAR}]*+')"
PUBLIC = "(?:\"[- \r\na-zA-Z0-9'()+,./:=?;!*#@$_%]*+\"|'[- \r\na-zA-Z0-9()+,./:=?;!*#@$_%]*+')"
SUBSET = "\\[(?:[^]\"'<]|\"[^\"]*+\"|'[^']*+'|<!--(?s:.*?)-->|<\\?(?s:.*?)\\?>|<(?!!--|\\?))*+\\]"
EQUALS = f"{S}*+={S}*+"

TOKEN = re.compile(
    f"(?P<start><(?P<name>{QNAME})(?P<attributes>(?:{ATTRIBUTE})*+){S}*+(?P<empty>/?)>)"
    f"|(?P<end></(?P<closed>{QNAME}){S}*+>)"
    f"|(?P<chars>(?:(?!\\]\\]>)[^<&{NO_CHAR}])++)"
    f"|(?P<reference>{REF})"
    f"|(?P<cdata><!\\[CDATA\\[[^{NO_CHAR}]*?\\]\\]>)"
    f"|(?P<comment><!--(?:-?[^-{NO_CHAR}])*+-->)"
    f"|(?P<pi><\\?(?!(?i:xml)(?:{S}|\\?>))(?P<target>{NCNAME})(?:{S}[^{NO_CHAR}]*?)?\\?>)"
    f"|(?P<doctype><!DOCTYPE{S}++{QNAME}(?:{S}++(?:SYSTEM{S}++{LITERAL}|PUBLIC{S}++{PUBLIC}{S}++{LITERAL}))?+{S}*+(?:{SUBSET}{S}*+)?+>)"
)
ATTRIBUTES = re.compile(f"{S}++(?P<name>{QNAME}){S}*+={S}*+(?P<quoted>{QUOTED})")
DECLARATION = re.compile(
    f"<\\?xml{S}++version{EQUALS}(?:\"1\\.[0-9]++\"|'1\\.[0-9]++')"
    f"(?:{S}++encoding{EQUALS}(?P<quote>[\"'])(?P<encoding>[A-Za-z][-._A-Za-z0-9]*+)(?P=quote))?+"
    f"(?:{S}++standalone{EQUALS}(?:\"(?:yes|no)\"|'(?:yes|no)'))?+{S}*+\\?>"
)
NAMED = {"lt": "<", "gt": ">", "amp": "&", "apos": "'", "quot": '"'}
REFERENCES = re.compile(REFERENCE)


def is_char(c):
    """XML 1.0, [2] Char."""
    n = ord(c)
    return n in (9, 10, 13) or 0x20 <= n <= 0xD7FF or 0xE000 <= n <= 0xFFFD or 0x10000 <= n


def char_of(found):
    """The character of a reference, as it was found; empty where it is none that a document may hold."""
    if found["named"] is not None:
        return NAMED[found["named"]]
    number = int(found["hexadecimal"], 16) if found["hexadecimal"] else int(found["decimal"])
    return chr(number) if number <= 0x10FFFF and not 0xD800 <= number <= 0xDFFF and is_char(chr(number)) else ""


# Items


class Item(NamedTuple):
    """An element (its start-tag), a text, a comment, a processing instruction, a reference or a gap, between its bounds."""

    kind: str
    begin: int
    end: int
    kids: list


class Faulty(Exception):
    """A document that has no reading: the name of its fault."""


class Reading:
    """The items of a text, read from left to right. `declares` says whether it needs declarations: a DOCTYPE, or a reference
    that stands for no character."""

    def __init__(self, text):
        self.text, self.top, self.opened, self.declares, self.rooted, self.at = text, [], [], False, False, 0
        self.front()
        while self.at < len(text):
            self.token()
        if self.opened or not self.rooted:
            raise Faulty("NotWellFormed")

    def front(self):
        """The byte order mark and the XML declaration."""
        self.at = int(self.text.startswith("\ufeff"))
        found = DECLARATION.match(self.text, self.at)
        if found:
            if (found["encoding"] or "UTF-8").upper() != "UTF-8":
                raise Faulty("Encoding")
            self.at = found.end()

    def kids(self):
        return self.opened[-1][1] if self.opened else self.top

    def put(self, kind, end):
        item = Item(kind, self.at, end, [])
        self.kids().append(item)
        self.at = end
        return item

    def token(self):
        found = TOKEN.match(self.text, self.at)
        if not found:
            raise Faulty("NotWellFormed")
        kind = found.lastgroup
        if kind in ("start", "end", "reference", "cdata", "doctype") or (kind == "chars" and not self.opened):
            getattr(self, kind)(found)
        elif kind == "chars":
            self.text_part(found.end())
        else:
            self.put(kind, found.end())

    def start(self, found):
        level = len(self.opened) + 1
        if level > MOST_LEVELS:
            raise Faulty("TooDeep")
        names = []
        for attribute in ATTRIBUTES.finditer(found["attributes"]):
            names.append(attribute["name"])
            for reference in REFERENCES.finditer(attribute["quoted"]):
                self.refer(reference)
        if len(set(names)) < len(names) or level == 1 and self.rooted:
            raise Faulty("NotWellFormed")
        self.rooted = True
        item = self.put("element", found.end())
        if not found["empty"]:
            self.opened.append((found["name"], item.kids))

    def end(self, found):
        if not self.opened or self.opened[-1][0] != found["closed"]:
            raise Faulty("NotWellFormed")
        self.opened.pop()
        self.at = found.end()

    def chars(self, found):
        """Characters at the top: white space alone."""
        if found[0].strip(" \t\r\n"):
            raise Faulty("NotWellFormed")
        self.put("gap", found.end())

    def text_part(self, end):
        """A part of a text; parts in a row are one item."""
        kids = self.kids()
        if kids and kids[-1].kind == "text" and kids[-1].end == self.at:
            kids[-1] = kids[-1]._replace(end=end)
            self.at = end
        else:
            self.put("text", end)

    def refer(self, found):
        """A reference, as it was found: whether it stands for a character."""
        if found["named"] is not None and found["named"] not in NAMED:
            self.declares = True
            return False
        if not char_of(found):
            raise Faulty("NotWellFormed")
        return True

    def reference(self, found):
        stands = self.refer(REFERENCES.match(found[0]))
        if not self.opened:
            raise Faulty("NotWellFormed")
        if stands:
            self.text_part(found.end())
        else:
            self.put("reference", found.end())

    def cdata(self, found):
        if not self.opened:
            raise Faulty("NotWellFormed")
        self.text_part(found.end())

    def doctype(self, found):
        if self.opened or self.rooted or any(item.kind == "doctype" for item in self.top):
            raise Faulty("NotWellFormed")
        self.declares = True
        self.put("doctype", found.end())


def is_well_formed(text):
    """Whether a text has a reading, however deep it is."""
    try:
        Reading(text)
    except Faulty as fault:
        return str(fault) != "NotWellFormed"
    return True


# Values and nodes

PART = re.compile(f"<!\\[CDATA\\[(?P<section>(?s:.*?))\\]\\]>|(?P<refer>{REFERENCE})|(?P<plain>[^<&]+)")


def lines_read(text):
    """Line ends as they are read (XML 1.0, 2.11)."""
    return text.replace("\r\n", "\n").replace("\r", "\n")


def value_of(raw):
    """The value of a text item, part by part: line ends of what is written are read, references replaced."""
    parts = []
    for part in PART.finditer(raw):
        if part["refer"] is not None:
            parts.append(char_of(part))
        else:
            parts.append(lines_read(part["section"] if part["section"] is not None else part["plain"]))
    return "".join(parts)


def escaped(value):
    """A value as it is written into a text item."""
    parts = []
    for at, c in enumerate(value):
        if c in "&<>\r\ufeff":
            parts.append({"&": "&amp;", "<": "&lt;", ">": "&gt;", "\r": "&#13;", "\ufeff": "&#65279;"}[c])
        elif c == "\n" and at == 0:
            parts.append("&#10;")
        elif c == "]" and at == len(value) - 1:
            parts.append("&#93;")
        else:
            parts.append(c)
    return "".join(parts)


def nodes_in(items, text):
    """The items that give a node: not the gaps, and not a text whose value is empty."""
    kept = []
    for item in items:
        if item.kind in ("element", "comment", "pi") or item.kind == "text" and value_of(text[item.begin : item.end]):
            kept.append(item._replace(kids=nodes_in(item.kids, text)))
    return kept


def nodes_of(text):
    """The nodes at the top of a document, which has a reading and needs no declarations."""
    return nodes_in(Reading(text).top, text)


def node_at(nodes, place):
    """The node to which the numbers lead, each counted from 1 among the children of the one before."""
    found = None
    for number in place:
        if number > len(nodes):
            return None
        found = nodes[number - 1]
        nodes = found.kids
    return found


def edited(text, place, begin, end, string):
    """The reply to an edit of a text, and the document after it."""
    node = node_at(nodes_of(text), place)
    if node is None:
        return "refused NoSuchPlace", text
    if node.kind != "text":
        return "refused WrongKind", text
    value = value_of(text[node.begin : node.end])
    if end < begin or end > len(value):
        return "refused BadRange", text
    if not all(is_char(c) for c in string):
        return "refused BadText", text
    after = text[: node.begin] + escaped(value[:begin] + string + value[end:]) + text[node.end :]
    if len(after.encode()) > MOST_FILE:
        return "refused TooLarge", text
    return "ok", after


# The answer to an opening

# Characters that names have since the fifth edition of XML 1.0 and expat's have not, each with one that expat's have.
STAND_IN = str.maketrans("\u0370\u200c\u2c00\u3001\uf900\U00010000\ufeff\ud7ff\ufffd\U0001f600\u203f", "\u0250\u0251\u0252\u0253\u0254\u0255\u0256\u0257\u0258\u0259\u0302")
STOOD_IN = {after: before for before, after in STAND_IN.items()}


def for_expat(text):
    """A document's text as expat takes it; a byte order mark stays."""
    return (text[:1] + text[1:].translate(STAND_IN)).encode()


def faulted(name, kind, *fields):
    return 3, " ".join(["fault", kind, name, *fields]).encode() + b"\n"


def opened(content, name, join=None):
    """Status and output of a run that opens these bytes, without a script."""
    if len(content) > MOST_FILE:
        return faulted(name, "TooLarge")
    try:
        text = content.decode()
        reading = Reading(text)
    except UnicodeDecodeError:
        return faulted(name, "Encoding")
    except Faulty as fault:
        return faulted(name, str(fault))
    return faulted(name, "NotYet") if reading.declares else opened_nodes(text, name, join)


def opened_nodes(text, name, join):
    """The same of a text that has a reading and needs no declarations. Expat takes it for not well-formed where its own XML
    differs, which the model doesn't know of: that is told as its error."""
    lines = io.BytesIO()
    expected = Expected(for_expat(text), name, lines, lambda base, reference: join(base, reference.translate(STOOD_IN)))
    if expected.fault:
        fields = [field.translate(STOOD_IN) for field in expected.fault.fields]
        return faulted(name, expected.fault.kind, *fields)
    return 0, lines.getvalue().decode().translate(STOOD_IN).encode()


def printed(text, name, join=None):
    """The printed tree of a document that opens."""
    status, output = opened_nodes(text, name, join)
    if status != 0:
        raise ValueError(f"the model's document has {output!r}")
    return output


def is_read_by_expat(text):
    """Whether expat takes a text for a well-formed document."""
    try:
        expat.ParserCreate().Parse(for_expat(text), True)
    except (expat.ExpatError, LookupError):
        return False
    return True


SEPARATOR = "\x0c"  # no document holds it


def names_by_expat(text):
    """The names of elements and attributes as printed, in order, by expat's own namespaces; None where it refuses some."""
    found = []

    def shown(name):
        space, _, local = name.rpartition(SEPARATOR)
        return printed_name(space, local)

    def start(name, attributes):
        found.append(shown(name))
        found.extend(shown(one) for one in attributes[::2])

    parser = expat.ParserCreate(namespace_separator=SEPARATOR)
    parser.ordered_attributes, parser.StartElementHandler = True, start
    try:
        parser.Parse(for_expat(text), True)
    except expat.ExpatError:
        return None
    return [name.translate(STOOD_IN) for name in found]


NAME_LINE = re.compile(r"^ *(?:element (?P<element>.*) in [^ \n]*$|attribute (?P<attribute>[^\"]*)=\")", re.M)


def names_in(output):
    """The names of elements and attributes of a printed tree."""
    return [found["element"] if found["element"] is not None else found["attribute"] for found in NAME_LINE.finditer(output.decode())]
