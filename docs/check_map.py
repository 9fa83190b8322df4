#!/usr/bin/env python3
"""Shows that docs/ARCHITECTURE.md agrees with crates.txt: each crate has one room and each room is a crate, a crate stands on no crate below it
in its own list, and the drawings name crates alone. crates.txt lists the lowest crates first.
usage: docs/check_map.py"""
import os
import re
import sys

ROOT = os.path.join(os.path.dirname(os.path.abspath(__file__)), "..")


def crates():
    """Each crate with the crates and libraries that it stands on, in the order of crates.txt."""
    with open(os.path.join(ROOT, "crates.txt")) as file:
        lines = (line.split("#")[0].strip() for line in file)
        return {head.split()[0]: below.split() for head, below in (line.split(":") for line in lines if line)}


def rooms(page):
    """The crates of each list, in order."""
    lists = {}
    for section in page.split("\n## ")[1:]:
        heads = re.findall(r"^- (`[^:]*`):", section, re.M)
        lists[section.split("\n")[0]] = [name for head in heads for name in re.findall(r"`(\w+)`", head)]
    return lists


def faults(below, page):
    listed = list(below)
    for name in listed:
        for low in below[name]:
            if low in below and listed.index(low) > listed.index(name):
                yield "crates.txt: %s comes before %s, on which it stands" % (name, low)
    lists = rooms(page)
    named = [name for row in lists.values() for name in row]
    yield from ("no room: " + name for name in listed if name not in named)
    yield from ("no crate: " + name for name in named if name not in listed)
    yield from ("two rooms: " + name for name in set(named) if named.count(name) > 1)
    for title, row in lists.items():
        for at, name in enumerate(row):
            for low in below.get(name, []):
                if low in row[at:]:
                    yield "%s: %s stands above %s, on which it stands" % (title, name, low)
    for drawing in re.findall(r"```\n(.*?)```", page, re.S):
        for word in sorted(set(re.findall(r"\w+_\w+", drawing))):
            if word not in below:
                yield "the drawing names no crate: " + word


with open(os.path.join(ROOT, "docs", "ARCHITECTURE.md")) as file:
    architecture = file.read()
known = crates()
found = list(faults(known, architecture))
print("\n".join(found + ["%d crates, %d edges between them, %d faults"
                         % (len(known), sum(low in known for lows in known.values() for low in lows), len(found))]))
sys.exit(bool(found))
