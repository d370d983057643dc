"""The printed tree of a document, rendered line by line from the events of Python's own XML parser (expat), or the first
fault of its nodes. docs/FORMATS.md says the lines and the order of faults.

Names are expanded here from expat's names as written: its own namespaces stop at the first fault, and in another order.
What is not well-formed is expat's error. What expat takes and the program does not (a name with two colons, another
encoding, a DOCTYPE) is not asked here: fuzz/documents.py does.
"""
import hashlib
import xml.parsers.expat

XML = "http://www.w3.org/XML/1998/namespace"
XMLNS = "http://www.w3.org/2000/xmlns/"
XINCLUDE = "http://www.w3.org/2001/XInclude"
BASE = "file:///book/"
MOST_NODES = 1_000_000
ESCAPES = str.maketrans({"\"": "\\\"", "\\": "\\\\", "\n": "\\n", "\t": "\\t", "\r": "\\r"})


class NodeFault(Exception):
    """A fault of an element, as its line tells it: its name, and the prefix where there is one."""

    def __init__(self, kind, *fields):
        super().__init__(kind, *fields)
        self.kind, self.fields = kind, fields


def is_allowed(prefix, namespace):
    """Whether a declaration is allowed (Namespaces in XML, section 3 and 5)."""
    if prefix == "xmlns":
        return False
    if prefix == "xml":
        return namespace == XML
    return namespace not in (XML, XMLNS) and (namespace != "" or prefix == "")


def scope_within(outer, attributes):
    """What is bound to what in an element with these attributes."""
    scope = outer
    for name, value in attributes:
        if name != "xmlns" and not name.startswith("xmlns:"):
            continue
        prefix = name[6:]
        if not is_allowed(prefix, value):
            raise NodeFault("BadNamespace")
        if scope is outer:
            scope = dict(outer)
        scope[prefix] = value
    return scope


def expanded(scope, qname, default):
    """A name's namespace and local part."""
    prefix, colon, local = qname.partition(":")
    if not colon:
        return default, qname
    if prefix not in scope:
        raise NodeFault("Unbound", prefix)
    return scope[prefix], local


def printed_name(space, local):
    if space == "":
        return local
    return f"xml:{local}" if space == XML else f"{{{space}}}{local}"


def collapsed(value):
    """A value of type ID: no spaces in front, behind, or two in a row."""
    return " ".join(part for part in value.split(" ") if part)


def written_attributes(scope, attributes):
    """The attributes that are no declarations, each with its expanded name."""
    found, names = [], set()
    for name, value in attributes:
        if name == "xmlns" or name.startswith("xmlns:"):
            continue
        space_and_local = expanded(scope, name, "")
        found.append((space_and_local, collapsed(value) if name == "xml:id" else value))
        names.add(space_and_local)
    if len(names) < len(found):
        raise NodeFault("DuplicateAttribute")
    return found


class Expected:
    """The lines of a document's tree and their count, size and hash; `fault` is the first of its nodes, where there is one,
    and then the lines mean nothing. `join` answers the URI of an `xml:base` at a base, or None."""

    def __init__(self, document, name="book.xml", out=None, join=None):
        self.name, self.level, self.pending, self.out, self.join = name, 0, [], out, join
        self.scopes, self.bases = [{"xml": XML}], [None]
        self.fault, self.includes = None, False
        self.hash, self.lines, self.nodes, self.bytes = hashlib.sha256(), 0, 0, 0
        parser = xml.parsers.expat.ParserCreate("UTF-8")
        parser.ordered_attributes = True
        parser.StartElementHandler = self.start
        parser.EndElementHandler = self.end
        parser.CharacterDataHandler = self.pending.append
        parser.CommentHandler = self.comment
        parser.ProcessingInstructionHandler = self.instruction
        parser.Parse(document, True)
        if self.includes and self.fault is None:
            self.fault = NodeFault("NotYet")

    def line(self, level, words):
        line = ("  " * level + words + "\n").encode()
        self.hash.update(line)
        if self.out:
            self.out.write(line)
        self.lines += 1
        self.bytes += len(line)

    def node(self, words):
        """The line of a node, where there is room for it."""
        self.nodes += 1
        if self.nodes > MOST_NODES and self.fault is None:
            self.fault = NodeFault("TooLarge")
        if self.fault is None:
            self.line(self.level, f"{words} in {self.name}")

    def settle(self):
        """The text before this place, where there is one."""
        if self.pending:
            value = "".join(self.pending).translate(ESCAPES)
            self.pending.clear()
            self.node(f"text \"{value}\"")

    def comment(self, inner):
        self.settle()
        self.node(f"comment \"{inner.translate(ESCAPES)}\"")

    def instruction(self, target, data):
        self.settle()
        self.node(f"pi {target} \"{data.translate(ESCAPES)}\"")

    def base_within(self, attributes):
        """The base of an element with these attributes."""
        around = self.bases[-1] or BASE + self.name
        for (space, local), value in attributes:
            if (space, local) == (XML, "base"):
                around = self.join(around, value)
                if around is None:
                    raise NodeFault("BadReference")
        return around

    def start(self, tag, flat):
        self.settle()
        if self.fault is not None:
            return
        try:
            self.element(tag, list(zip(flat[::2], flat[1::2])))
        except NodeFault as fault:
            self.fault = fault

    def element(self, tag, written):
        scope = scope_within(self.scopes[-1], written) if written else self.scopes[-1]
        space, local = expanded(scope, tag, scope.get("", ""))
        attributes = written_attributes(scope, written) if written else written
        base = self.base_within(attributes) if attributes or self.level == 0 else self.bases[-1]
        self.includes |= space == XINCLUDE
        self.node(f"element {printed_name(space, local)}")
        self.level += 1
        if base != self.bases[-1]:
            self.line(self.level, f"base {base}")
        for (attribute_space, attribute_local), value in attributes:
            self.line(self.level, f"attribute {printed_name(attribute_space, attribute_local)}=\"{value.translate(ESCAPES)}\"")
        self.scopes.append(scope)
        self.bases.append(base)

    def end(self, _tag):
        self.settle()
        if self.fault is None:
            self.level -= 1
            self.scopes.pop()
            self.bases.pop()
