"""Random documents: all that a document without declarations may have, and, where it is wanted, what makes it fault."""
import model  # noqa: F401 (the folder of expected.py)
import expected

STARTS = "abcxyzABC_" + "éßøΩЖ中\u0370\u200c\u2c00\u3001\uf900\U00010000"
MORE = STARTS + "0123456789-." + "\u00b7\u0300\u203f"
PLAIN = "aaabcde   fghij\n\n\r\t\"'>]]é中\u0085\u2028\u00a0\u007f\ud7ff\ue000\ufeff\ufffd\U0001f600\U0010ffff"
REFERENCES = ["&lt;", "&gt;", "&amp;", "&apos;", "&quot;", "&#38;", "&#x26;", "&#10;", "&#13;", "&#9;", "&#x1F600;", "&#0000065;", "&#xFEFF;", "&#93;",
              "&#x10FFFF;", "&#32;", "&#x0D;"]
SPACES = (" ", " ", " ", "  ", "\n", "\t ", "\r\n", "\r")
NAMESPACES = ["u:1", "u:2", "http://example.org/", "é", "a b", "http://www.w3.org/XML/1998/namespac", "HTTP://example.org/", "&amp;", "u&#x3a;1", "x>y"]
BASES = ["a/", "../x/y.xml", "", "#f", "?q", "b.xml?q=1#f", "http://example.org/a/../b", "//host/p", "/top/", "./.", "é/", "a b/", "%41", "x&amp;y", ".."]
EXPANSIONS = {"xml": expected.XML}


def name_of(rng):
    """An NCName that no rule looks at."""
    name = rng.choice(STARTS) + "".join(rng.choice(MORE) for _ in range(rng.choice((0, 0, 1, 2, 5))))
    return f"_{name}" if name.lower().startswith("xml") else name


def space(rng):
    return rng.choice(SPACES)


def gap(rng):
    return rng.choice(("", "", "", space(rng)))


def plain(rng, most):
    """Raw characters, never `]]>`."""
    return "".join(rng.choice(PLAIN) for _ in range(rng.randint(1, most))).replace("]]>", "]] >")


def section(rng, most):
    """A CDATA section; half of them are short, and some empty."""
    inner = "".join(rng.choice(PLAIN + "<&<") for _ in range(rng.choice((0, 0, 1, 2, most)))).replace("]]>", "]] >")
    return f"<![CDATA[{inner}]]>"


def raw_text(rng, most=12):
    """The raw text of an item: characters, references and CDATA sections, in any order."""
    parts, was_plain = [], False
    for _ in range(rng.choice((1, 1, 2, 3, 6))):
        kind = rng.random()
        if kind < 0.5 and not was_plain:
            parts.append(plain(rng, most))
        else:
            parts.append(rng.choice(REFERENCES) if kind < 0.75 else section(rng, most))
        was_plain = parts[-1][0] not in "<&"
    return "".join(parts)


def comment(rng):
    inner = "".join(rng.choice(PLAIN + "<&-") for _ in range(rng.choice((0, 1, 5, 20)))).replace("-", "- ")
    return f"<!--{inner}-->"


def instruction(rng):
    data = "".join(rng.choice(PLAIN + "<&?") for _ in range(rng.choice((0, 1, 5, 20)))).replace("?>", "? >")
    target = rng.choice((name_of(rng), "xml-stylesheet", "Xm", "php"))
    return f"<?{target}{space(rng)}{gap(rng)}{data}?>" if data or rng.random() < 0.3 else f"<?{target}?>"


def quoted(rng, value):
    """A value as a tag has it; a quote in it is left out."""
    quote = rng.choice("\"'")
    return quote + value.replace(quote, "") + quote


def some_value(rng):
    return "".join(rng.choice(REFERENCES) if rng.random() < 0.2 else rng.choice(PLAIN) for _ in range(rng.choice((0, 1, 3, 8))))


def attribute(rng, name, value):
    return f"{space(rng)}{gap(rng)}{name}{gap(rng)}={gap(rng)}{quoted(rng, value)}"


class Maker:
    """Makes elements; `bases` are references for `xml:base`, `faults` is how often something may fault, and `budget` how many
    more elements there may be."""

    def __init__(self, rng, budget, bases=BASES, faults=0.0):
        self.rng, self.budget, self.bases, self.faults = rng, budget, bases, faults

    def may_fault(self):
        return self.faults > 0 and self.rng.random() < self.faults

    def declarations(self, scope):
        """Declarations by the prefix that they bind, and the scope with them."""
        rng, found = self.rng, {}
        for _ in range(rng.choice((0, 0, 0, 1, 1, 3))):
            prefix = rng.choice(("", "", "p", "q", "p2", name_of(rng)))
            found[prefix] = rng.choice(NAMESPACES) if prefix or rng.random() < 0.7 else ""
        if rng.random() < 0.03:
            found["xml"] = expected.XML
        if self.may_fault():
            found["p"] = found["q"] = "u:1"
        if self.may_fault():
            prefix = rng.choice(("", "p", "xml", "xmlns", "xi"))
            found[prefix] = rng.choice(("", expected.XML, expected.XMLNS, expected.XINCLUDE, "u:1"))
        return found, {**scope, **found}

    def qname(self, scope):
        """A name whose prefix is bound, or mostly so."""
        rng = self.rng
        if self.may_fault():
            return f"{rng.choice(('xmlns', 'unbound', 'p', 'é', 'xml'))}:{name_of(rng)}"
        prefix = rng.choice(("", "", *scope))
        local = rng.choice((name_of(rng), "a", "b"))
        return f"{prefix}:{local}" if prefix and rng.random() < 0.7 else local

    def attributes(self, scope):
        """Names and raw values, no two of one name, and mostly no two of one expanded name."""
        rng, found, names = self.rng, {}, set()
        for _ in range(rng.choice((0, 0, 1, 2, 5, 20))):
            name = self.qname(scope)
            prefix, colon, local = name.rpartition(":")
            own = (scope.get(prefix) if colon else "", local)
            if name not in found and (own not in names or self.may_fault()):
                found[name] = some_value(rng)
                names.add(own)
        if self.faults and scope.get("p", "") == scope.get("q") and rng.random() < 0.3:
            found["p:a"] = found["q:a"] = ""
        if rng.random() < 0.15:
            found["xml:base"] = rng.choice(self.bases)
        if rng.random() < 0.1:
            found["xml:lang"] = rng.choice(("", "en", "de-CH", " "))
        if rng.random() < 0.1:
            found["xml:id"] = rng.choice((" a  b ", "x", "\n a", "&#32;a&#32;&#32;b", "&#9;a&#10; b", "", "  "))
        return found

    def head(self, scope):
        declared, inner = self.declarations(scope)
        attributes = self.attributes(inner)
        attributes.update({f"xmlns:{prefix}" if prefix else "xmlns": value for prefix, value in declared.items()})
        written = [attribute(self.rng, name, value) for name, value in attributes.items()]
        self.rng.shuffle(written)
        name = self.qname(inner)
        return name, f"{name}{''.join(written)}{gap(self.rng)}", inner

    def element(self, level, scope):
        rng = self.rng
        name, head, inner = self.head(scope)
        self.budget -= 1
        if rng.random() < 0.2:
            return f"<{head}/>"
        return f"<{head}>{self.content(level, inner)}</{name}{gap(rng)}>"

    def content(self, level, scope):
        rng, parts, was_text = self.rng, [], False
        for _ in range(rng.choice((0, 1, 2, 3, 6))):
            kind = rng.random()
            if kind < 0.45 and not was_text:
                parts.append(raw_text(rng))
                was_text = True
                continue
            if kind < 0.8 and self.budget > 0 and level < 100:
                parts.append(self.element(level + 1, scope))
            else:
                parts.append(rng.choice((comment, instruction))(rng))
            was_text = False
        return "".join(parts)


def declaration(rng):
    """An XML declaration, in its forms."""
    def pair(name, value):
        return f"{space(rng)}{name}{gap(rng)}={gap(rng)}{quoted(rng, value)}"

    parts = [pair("version", rng.choice(("1.0", "1.0", "1.1", "1.25")))]
    if rng.random() < 0.5:
        parts.append(pair("encoding", rng.choice(("UTF-8", "utf-8", "Utf-8"))))
    if rng.random() < 0.3:
        parts.append(pair("standalone", rng.choice(("yes", "no"))))
    return f"<?xml{''.join(parts)}{gap(rng)}?>"


def misc(rng):
    """What stands beside the document element."""
    return "".join(rng.choice((space, space, comment, instruction))(rng) for _ in range(rng.choice((0, 0, 1, 2, 4))))


def deep(rng):
    """Up to 128 elements within each other, with a text."""
    levels = rng.randint(1, 128)
    return "".join(f"<n{level}>" for level in range(levels)) + raw_text(rng) + "".join(f"</n{level}>" for level in reversed(range(levels)))


def document(rng, bases=BASES, faults=0.0):
    """A document; with `faults` above 0 some of its names, declarations and attributes may be wrong."""
    kind = rng.random()
    if kind < 0.04:
        body = deep(rng)
    elif kind < 0.07:
        body = f"<t>{raw_text(rng, 5000)}</t>"
    else:
        body = Maker(rng, rng.choice((1, 5, 40)), bases, faults).element(1, EXPANSIONS)
    mark = "\ufeff" if rng.random() < 0.2 else ""
    front = declaration(rng) if rng.random() < 0.4 else ""
    return f"{mark}{front}{misc(rng)}{body}{misc(rng)}"
