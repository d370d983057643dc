#!/usr/bin/env python3
"""Writes the script that puts one word in the place of another, in each text of a tree that `places` lists: places ROOT | replace.py OLD NEW"""
import re
import sys

UNESCAPED = {"n": "\n", "t": "\t", "r": "\r"}


def value_of(quoted):
    return re.sub(r"\\(.)", lambda it: UNESCAPED.get(it[1], it[1]), quoted)


def quoted(value):
    return '"' + value.replace("\\", "\\\\").replace('"', '\\"').replace("\n", "\\n").replace("\r", "\\r") + '"'


old, new = sys.argv[1:]
for line in sys.stdin:
    found = re.match(r'(/\S+) +text "((?:\\.|[^"\\])*)" in ', line)
    if found:
        # from the last one on, so that the numbers of those in front still hold
        for it in reversed([*re.finditer(rf"\b{re.escape(old)}\b", value_of(found[2]))]):
            print("text", found[1], it.start(), it.end(), quoted(new))
print("burst")
