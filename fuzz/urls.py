"""References joined to bases by node's URL, which follows the URL Standard: one process, asked a line at a time."""
import functools
import json
import re
import shutil
import subprocess

SCRIPT = """
const { createInterface } = require('node:readline');
const textOf = (reference, base) => { try { return new URL(reference, base).href; } catch { return null; } };
createInterface({ input: process.stdin }).on('line', (line) => {
  const [base, reference] = JSON.parse(line);
  const joined = textOf(reference, base);
  process.stdout.write(JSON.stringify([joined, joined === null ? null : textOf(joined)]) + '\\n');
});
"""
SPECIAL = "(?:https?|wss?|ftp|file)"


class Node:
    """The process; it ends with this one."""

    def __init__(self):
        path = shutil.which("node")
        if path is None:
            raise SystemExit("node is wanted, for its URL")
        self.process = subprocess.Popen([path, "-e", SCRIPT], stdin=subprocess.PIPE, stdout=subprocess.PIPE, text=True)

    def ask(self, base, reference):
        """The URL of a reference at a base, and what that is read back as; None where there is none."""
        self.process.stdin.write(json.dumps([base, reference]) + "\n")
        self.process.stdin.flush()
        return json.loads(self.process.stdout.readline())


@functools.cache
def node():
    return Node()


def stripped(reference):
    """A reference as the URL Standard reads it: without spaces and controls at its ends, and without tabs and line ends."""
    return re.sub("[\t\r\n]", "", re.sub(r"\A[\0- ]+|[\0- ]+\Z", "", reference))


def is_none_at_opaque(base, reference):
    """Whether a reference has no URL since its base has an opaque path. Node finds one where it has a fragment behind a path."""
    text = stripped(reference)
    return not re.match("[^:]*:/", base) and text[:1] != "#" and not re.match(r"(?i)[a-z][-+.a-z0-9]*:", text)


@functools.lru_cache(maxsize=100_000)
def join(base, reference):
    """The URI of a reference at a base, without its fragment; None where it has none, or one that isn't read back as itself."""
    if is_none_at_opaque(base, reference):
        return None
    joined, back = node().ask(base, reference)
    return None if joined is None or back != joined else joined.split("#", 1)[0]


def left_out(base, reference):
    """Why node 20 is not asked, where its URL is known to be another than the standard's; None where it is asked."""
    text, joined = stripped(reference), node().ask(base, reference)[0] or ""
    rest = re.sub(f"(?i)\\A{SPECIAL}:", "", text) if re.match(SPECIAL, base) else text
    if base.endswith("?") and base.count("?") == 1 and rest[:1] in ("", "#"):
        return "an empty query of the base"
    if re.match(r"[^:]*:/[^?#]*\^", joined):
        return "^ in a path"
    goes_up = re.search(r"(?i)(?:\.|%2e){2}", text) and re.search(r"[/\\]?[A-Za-z][:|][^/\\?#]", text)
    if joined.startswith("file:") and (goes_up or re.match("file://[^/]*/[A-Za-z]:[^/?#]", base)):
        return "a segment that begins like a drive"
    if re.match(f"(?!{SPECIAL}:)[^:]*:(?://[^/?#]*)?(?:[?#]|$)", joined) and re.match("[^?#]*[/.%]", text):
        return "no path, where the scheme is not special"
    if re.match("[^:]*:(?!/)[^?#]* [?#]", joined):
        return "a space at the end of an opaque path"
    if re.search("(?i)xn--", text) and not joined:
        return "an xn-- label"
    return None
