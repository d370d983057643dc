#!/usr/bin/env python3
"""Random documents and random scripts: replies, final tree and files against a model. fuzz/README.md says more."""
import collections
import os

import documents
import made
import model
import rounds
import urls
from model import want

ROOT = "book.xml"
NO_CHARS = "\x00\x01\x08\x0b\x1f\ufffe\uffff"


def printed(text):
    """The printed tree of a document, which expat has to take."""
    return documents.printed(text, ROOT, urls.join)


def document(rng):
    """A document that opens, mostly one with a text."""
    wants_text = rng.random() < 0.9
    while True:
        text = made.document(rng)
        status, output = documents.opened(text.encode(), ROOT, urls.join)
        if status == 0 and (b" text \"" in output or not wants_text):
            return text


# Scripts


def spelled(rng, string):
    """A STRING of a script that stands for a text."""
    parts = []
    for c in string:
        named = {"\"": "\\\"", "\\": "\\\\", "\n": "\\n", "\t": "\\t", "\r": "\\r"}.get(c)
        if rng.random() < 0.1:
            parts.append("\\u{" + rng.choice(("%x", "%X", "%06x")) % ord(c) + "}")
        elif named and (c in "\"\\\n\r" or rng.random() < 0.5):
            parts.append(named)
        else:
            parts.append(c)
    return '"' + "".join(parts) + '"'


def new_text(rng):
    """Characters for an edit, now and then one that no document may hold."""
    kind = rng.random()
    if kind < 0.15:
        return ""
    if kind < 0.2:
        return rng.choice(("]", "\n", "]]>", "\ufeff", "\r", "<", "&amp;", "\r\n", "]]", "<![CDATA[", "-->"))
    chars = [rng.choice(made.PLAIN + "<&\\") for _ in range(rng.randint(1, 10))]
    if rng.random() < 0.08:
        chars.insert(rng.randint(0, len(chars)), rng.choice(NO_CHARS))
    return "".join(chars)


def places_of(nodes, front=()):
    """The places of all nodes, with the nodes."""
    for at, node in enumerate(nodes):
        place = (*front, at + 1)
        yield place, node
        yield from places_of(node.kids, place)


def some_edit(rng, text):
    """An edit: its place, its range and its text; mostly one that may be made."""
    places = list(places_of(documents.nodes_of(text)))
    texts = [(place, node) for place, node in places if node.kind == "text"]
    kind = rng.random()
    if texts and kind < 0.85:
        place, node = rng.choice(texts)
        count = len(documents.value_of(text[node.begin : node.end]))
    else:
        place, node = rng.choice(places)
        count = rng.randint(0, 3)
    if kind > 0.95:
        place = (*place, rng.choice((1, 2, 4294967295)))
    begin = rng.randint(0, count)
    end = rng.choice((begin, count, rng.randint(begin, count)))
    if rng.random() < 0.05:
        begin, end = rng.choice(((end + 1, end), (begin, count + 1), (begin, 4294967295), (4294967295, 4294967295)))
    return place, begin, end, new_text(rng)


def spaces(rng):
    return " " * rng.choice((1, 1, 1, 2, 5))


def line_of(rng, words):
    ends = [rng.choice(("", "", " ", "   ")) for _ in range(2)]
    return ends[0] + spaces(rng).join(words) + ends[1]


def end_of_line(rng):
    return rng.choice(("\n", "\n", "\r\n"))


NO_LINES = [
    b"Burst", b"burst x", b"undo", b"redo", b"tree", b"\tburst", b"burst\t", b"burst\rburst", b"text /0 0 1 \"x\"", b"text /1/0 0 1 \"x\"",
    b"text /01 0 1 \"x\"", b"text /1 00 1 \"x\"", b"text /1 0 01 \"x\"", b"text /1 0 4294967296 \"x\"", b"text /4294967296 0 1 \"x\"",
    b"text /1/ 0 1 \"x\"", b"text / 0 1 \"x\"", b"text 1 0 1 \"x\"", b"text /1^ 0 1 \"x\"", b"text /1 0 1", b"text /1 0 1 \"x", b"text /1 0 1 x",
    b"text /1 0 1 \"x\"y", b"text /1 0 1\"x\"", b"text /1 0 1 \"x\" \"y\"", b"text /1 0 1 \"\\x\"", b"text /1 0 1 \"\\u{}\"", b"text /1 0 1 \"\\u{110000}\"",
    b"text /1 0 1 \"\\u{d800}\"", b"text /1 0 1 \"\\u{0000041}\"", b"text /1 0 1 \"\\u41\"", b"text /1 0 1 \"\\u{41\"", b"text /1 -1 1 \"x\"", b"text /1 +1 1 \"x\"",
    b"text /1 0 1 \"\xff\"", b"# \xff", b"\xef\xbb\xbfburst", b"put /1 first \"x\"", b"text /1 0 1 '\x78'", b"text /1 0 1 \"\\", b"\"", b"text", b"\xc2\xa0", b"\x00",
]


class Run:
    """The documents, the script and what should be told, as the commands are made one by one."""

    def __init__(self, rng, text):
        self.rng, self.text, self.saved = rng, text, text
        self.script, self.replies, self.journal = [], [], None
        self.counts = collections.Counter()

    def command(self):
        rng = self.rng
        if rng.random() < 0.15:
            changed = self.text != self.saved
            if changed:
                self.saved = self.text
                self.journal = model.journal_of([(ROOT.encode(), self.text.encode())])
            self.tell(line_of(rng, ["burst"]), f"burst {int(changed)}")
            return
        place, begin, end, string = some_edit(rng, self.text)
        reply, self.text = documents.edited(self.text, place, begin, end, string)
        where = "".join(f"/{number}" for number in place)
        self.tell(line_of(rng, ["text", where, str(begin), str(end), spelled(rng, string)]), reply)

    def tell(self, line, reply):
        self.script.append((line + end_of_line(self.rng)).encode())
        self.replies.append(reply.encode() + b"\n")
        self.counts[reply] += 1

    def nothing(self):
        """A line without a command."""
        line = self.rng.choice(("", "  ", "# a comment", "  #\t\"", "#burst"))
        self.script.append((line + end_of_line(self.rng)).encode())


def whole_script(run, rng):
    script = b"".join(run.script)
    if rng.random() < 0.3 and script.endswith(b"\n"):
        script = script[:-2] if script.endswith(b"\r\n") else script[:-1]
    return script


def put_script(folder, script):
    """Keeps the script beside the folder, to be found where a round fails."""
    with open(os.path.join(os.path.dirname(folder), "script"), "wb") as file:
        file.write(script)


def started(rng, text):
    """The files of a folder that opens with this document: as it is, or behind a journal that was not carried out."""
    files = {b"other.xml": b"<other", b"d/x.xml": b"<x/>"}
    kind = rng.random()
    if kind < 0.7:
        files[ROOT.encode()] = text.encode()
        if kind < 0.1:
            files[model.GATE.encode()] = rng.choice((b"", b"OPE", b"OPENX", b"open"))
            files[model.JOURNAL.encode()] = model.journal_of([(ROOT.encode(), b"<wrong/>")])
        return files, files
    files[ROOT.encode()] = rng.choice((b"", b"<old>x</old>", text.encode()[: len(text) // 2]))
    if rng.random() < 0.3:
        del files[ROOT.encode()]
    items = [(ROOT.encode(), text.encode()), (b"d/x.xml", None), (b"e/f/g.xml", b"g")]
    files[model.GATE.encode()] = b"OPEN"
    files[model.JOURNAL.encode()] = model.journal_of(items)
    return files, model.recovered(files)


def check_edits(rng, folder, program):
    text = document(rng)
    files, opened = started(rng, text)
    model.put_files(folder, files)
    run = Run(rng, text)
    for _ in range(rng.choice((0, 1, 3, 10, 40))):
        run.command()
        if rng.random() < 0.2:
            run.nothing()
    script = whole_script(run, rng)
    put_script(folder, script)
    told = model.run(folder, [ROOT], script, program)
    want("output", told.output, b"".join(run.replies) + printed(run.text))
    want("status", told.status, int(any(reply.startswith(b"refused") for reply in run.replies)))
    after = {**opened, ROOT.encode(): run.saved.encode()}
    if run.journal:
        after[model.JOURNAL.encode()] = run.journal
        after.pop(model.GATE.encode(), None)
    want("files", model.files_in(folder), after)
    again = model.run(folder, [ROOT], b"", program)
    want("the next run", again, model.Told(0, printed(run.saved)))
    return run.counts


def check_faulty_script(rng, folder, program):
    """A script with a line that has no reading: its number is told, and no file is touched, not even by a recovery."""
    text = document(rng)
    files, _ = started(rng, text)
    model.put_files(folder, files)
    run = Run(rng, text)
    for _ in range(rng.randint(0, 5)):
        run.command()
        if rng.random() < 0.5:
            run.nothing()
    at = rng.randint(0, len(run.script))
    run.script.insert(at, rng.choice(NO_LINES) + b"\n")
    if rng.random() < 0.3:
        run.script.append(rng.choice(NO_LINES))
    script = b"".join(run.script)
    put_script(folder, script)
    want("a faulty script", model.run(folder, [ROOT], script, program), model.Told(4, f"fault script line {at + 1}\n".encode()))
    want("files", model.files_in(folder), files)
    return collections.Counter(["fault script line"])


def check_size_of_script(rng, folder, program):
    """Scripts at their limits of bytes and of commands."""
    model.put_files(folder, {ROOT.encode(): b"<a>x</a>"})
    tree = printed("<a>x</a>")
    most = 1_048_576
    for script, told in (
        (b"burst\n" * 4096 + b"#" * (most - 6 * 4096), model.Told(0, b"burst 0\n" * 4096 + tree)),
        (b"#" * (most + 1), model.Told(4, b"fault script long\n")),
        (b"\xff" + b"#" * most, model.Told(4, b"fault script long\n")),
        (b"burst\n" * 4097, model.Told(4, b"fault script commands\n")),
        (b"burst\n" * 4096 + b"\n# x\nundo\n" + b"burst\n", model.Told(4, b"fault script line 4099\n")),
        (b"burst\n" * 4097 + b"undo\n", model.Told(4, b"fault script commands\n")),
    ):
        want(f"a script of {len(script)} bytes", model.run(folder, [ROOT], script, program), told)
    return collections.Counter(["limits of scripts"])


def check_size_of_file(rng, folder, program):
    """Edits round the greatest file."""
    free = rng.randint(0, 40)
    front, back = "<a>b<c/>", "</a>"
    text = front + "x" * (documents.MOST_FILE - free - len(front) - len(back)) + back
    model.put_files(folder, {ROOT.encode(): text.encode()})
    run = Run(rng, text)
    for _ in range(4):
        place = rng.choice(((1, 1), (1, 3)))
        node = documents.node_at(documents.nodes_of(run.text), place)
        count = len(documents.value_of(run.text[node.begin : node.end]))
        begin = rng.randint(0, count)
        string = rng.choice("<y中") * rng.randint(0, 14)
        reply, run.text = documents.edited(run.text, place, begin, begin, string)
        run.tell("text " + "".join(f"/{number}" for number in place) + f" {begin} {begin} {spelled(rng, string)}", reply)
    script = b"".join(run.script) + b"burst\n"
    told = model.run(folder, [ROOT], script, program)
    changed = f"burst {int(run.text != text)}\n".encode()
    want("output", told.output, b"".join(run.replies) + changed + printed(run.text))
    want("files", model.files_in(folder)[ROOT.encode()], run.text.encode())
    return run.counts


def edits_round(rng, home, program):
    kind = rng.random()
    check = check_faulty_script if kind < 0.15 else check_size_of_file if kind > 0.995 else check_size_of_script if kind > 0.99 else check_edits
    folder = os.path.join(home, "folder")
    os.mkdir(folder)
    return check(rng, folder, program)


if __name__ == "__main__":
    rounds.go("edits", __doc__, {"edits": edits_round})
