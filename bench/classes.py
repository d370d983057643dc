"""The documents of each class, of exactly so many bytes. bench/README.md says what is in them."""
import random

MIB = 1_048_576
WORDS = (
    "the of and a to in is that it was for on are with as his they be at one have this from or had by hot word but what "
    "some we can out other were all there when up use your how said an each she which do their time if will way about many "
    "then them write would like so these her long make thing see him two has look more day could go come did number sound "
    "no most people my over know water than call first who may down side been now find naïve café größer"
).split()


def sentence(rng, count):
    """So many words; among them a reference, a quote or a line end now and then."""
    words = [rng.choice(WORDS) for _ in range(count)]
    for at in range(0, count, 17):
        words[at] = rng.choice(("&amp;", "&#8212;", "\"quoted\"", "&lt;tag&gt;", "\n", "it's"))
    return " ".join(words)


def filled(front, unit, back, size):
    """A document of exactly so many bytes: units from a call by number, then spaces at the end."""
    parts, left, number = [front], size - len(front.encode()) - len(back.encode()), 0
    while True:
        part = unit(number)
        length = len(part.encode())
        if length > left:
            break
        parts.append(part)
        left -= length
        number += 1
    return ("".join(parts) + back + " " * left).encode()


def book(size):
    rng = random.Random(1)

    def chapter(number):
        paragraphs = []
        for paragraph in range(12):
            paragraphs.append(
                f"\n      <p id=\"p{number}-{paragraph}\">{sentence(rng, 40)} <em>{sentence(rng, 3)}</em> {sentence(rng, 25)}</p>"
            )
        return (
            f"\n  <chapter id='c{number}' status=\"{rng.choice(('draft', 'done &amp; read'))}\">\n    <title>{sentence(rng, 6)}</title>"
            f"\n    <section>{''.join(paragraphs)}\n    </section>\n  </chapter>"
        )

    return filled("<book lang=\"en\">", chapter, "\n</book>\n", size)


def deep(size):
    rng = random.Random(2)

    def chain(_number):
        down = "".join(f"<s>{' '.join(rng.choice(WORDS) for _ in range(12))}" for _ in range(127))
        return down + "</s>" * 127

    return filled("<deep>", chain, "</deep>\n", size)


def nodes(size):
    return filled("<n>", lambda number: "<a/><bc/>", "</n>\n", size)


def attributes(size, most=16):
    names = [f"{chr(97 + at % 26)}{at}" for at in range(most)]

    def element(number):
        tag = "".join(f" {name}=\"{number * 7 % 100000} {'x' * (at % 9)}\"" for at, name in enumerate(names))
        return f"<e{tag}/>"

    return filled("<a>", element, "</a>\n", size)


def wide(size):
    return attributes(size, 1000)


def text(size):
    rng = random.Random(3)
    return filled("<t>", lambda number: " ".join(rng.choice(WORDS) for _ in range(12)) + "\n", "</t>\n", size)


def namespaces(size):
    """Prefixed elements and attributes; eight declarations at the root, and two in each section, one of them the default."""
    rng = random.Random(4)
    prefixes = ("db", "xl", "m", "svg", "dc", "t", "p1", "a-long-prefix")
    front = "<db:book" + "".join(f"\n  xmlns:{prefix}=\"http://example.org/ns/{prefix}\"" for prefix in prefixes) + ">"

    def section(number):
        rows = []
        for row in range(8):
            outer, inner, attribute = (rng.choice(prefixes) for _ in range(3))
            rows.append(
                f"\n    <{outer}:row {attribute}:id=\"r{number}-{row}\" xl:href='#c{row}' n=\"{row}\">"
                f"<{inner}:cell own:kind=\"k\">{sentence(rng, 3)}</{inner}:cell><cell/><own:cell m:x='{row}' t:x=\"{number}\"/></{outer}:row>"
            )
        return f"\n  <section xmlns=\"http://example.org/section\" xmlns:own='urn:own:{number % 100}'>{''.join(rows)}\n  </section>"

    return filled(front, section, "\n</db:book>\n", size)


def comments(size):
    """Comments and processing instructions between elements."""
    rng = random.Random(5)

    def part(number):
        return (
            f"\n  <!-- {sentence(rng, 12)} -->\n  <?page number=\"{number}\" {rng.choice(WORDS)}?><p>{sentence(rng, 6)}</p>"
            f"<!--{number}--><?break?><!-- {sentence(rng, 40)} - {sentence(rng, 20)} --><br/>"
        )

    return filled("<?xml version=\"1.0\"?>\n<!-- notes -->\n<notes>", part, "\n</notes>\n", size)


def cdata(size):
    """Long CDATA sections, and lines that end in CR LF."""
    rng = random.Random(6)

    def listing(number):
        lines = "".join(f"  if (a[{rng.randint(0, 99)}] < b && c > d) {{ {rng.choice(WORDS)}(\"{rng.choice(WORDS)}\"); }}\r\n" for _ in range(60))
        return f"<p>{sentence(rng, 12)}\r\n</p>\r\n<code n=\"{number}\"><![CDATA[\r\n{lines}]]></code>\r\n"

    return filled("<listings>\r\n", listing, "</listings>\r\n", size)


def manual(size):
    """A manual as people indent it: white space between all elements, and references in most sentences."""
    rng = random.Random(7)
    references = ("&lt;", "&amp;", "&gt;", "&quot;", "&#160;", "&#x2014;")

    def step(number):
        words = " ".join(rng.choice(references) if rng.random() < 0.2 else rng.choice(WORDS) for _ in range(9))
        return f"\n      <step n=\"{number}\">\n        <p>\n          {words}\n        </p>\n        <note/>\n      </step>"

    return filled("<manual>\n  <part>\n    <steps>", step, "\n    </steps>\n  </part>\n</manual>\n", size)


def line(size):
    """One text without a line end."""
    rng = random.Random(8)
    return filled("<t>", lambda number: " ".join(rng.choice(WORDS) for _ in range(12)) + " ", "</t>", size)


def short(size):
    """Elements of one letter within each other, without texts."""
    return filled("<s>", lambda number: "<a>" * 127 + "</a>" * 127, "</s>\n", size)


CLASSES = {
    "book": book,
    "deep": deep,
    "nodes": nodes,
    "attributes": attributes,
    "namespaces": namespaces,
    "text": text,
    "comments": comments,
    "cdata": cdata,
    "wide": wide,
    "manual": manual,
    "line": line,
    "short": short,
}
