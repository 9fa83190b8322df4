#!/usr/bin/env python3
"""Shows that the first part of docs/DEFINITIONS.md names exactly the files of definitions below the program's clauses on `try`: the closure
of imports from alpaca_cli/specs/Answers.antt, without what the compiler exactly builds, the law of images, the assembler, the generator, saved
states and the audit.
usage: docs/check_definitions.py"""
import os
import re
import sys

ROOT = os.path.join(os.path.dirname(os.path.abspath(__file__)), "..")
CRATES = os.path.join(ROOT, "crates")
START = "alpaca_cli/specs/Answers.antt"
APART = ("image_laws/", "image_reports/", "asm_line/", "msp_asm/", "source_generator/", "state_text/", "fram_state/", "compiled_states/",
         "state_commands/", "alpaca_cli/specs/OfSources.antt", "report_audit/")


def imports(text):
    """The spec files that a file imports, also through a crate that passes them on; a declared type is one of the program's own."""
    for crate, words in re.findall(r"use Rattle\.(\w+)\.specs\.([\w.]+)", text):
        path = words.rstrip(".").split(".")
        while os.path.isdir(os.path.join(CRATES, path[0])) and not os.path.exists(os.path.join(CRATES, crate, "specs", path[0] + ".antt")):
            crate, path = path[0], path[1:]
        crate, path = passed_on(crate, path)
        files = ("%s/specs/%s.antt" % (crate, "/".join(path[:k])) for k in range(len(path), 0, -1))
        yield from [f for f in files if os.path.exists(os.path.join(CRATES, f))][:1]


def passed_on(crate, path):
    """Where a module lies that a crate passes on under its own name."""
    lib = os.path.join(CRATES, crate, "specs", "Lib.antt")
    if not path or not os.path.exists(lib):
        return crate, path
    with open(lib) as file:
        lower = re.search(r"^pub use Rattle\.(\w+)\.specs\.%s as %s$" % (path[0], path[0]), file.read(), re.M)
    return (lower.group(1), path) if lower else (crate, path)


def closure(start):
    seen, todo = {}, [start]
    while todo:
        name = todo.pop()
        if name in seen or name.startswith(APART):
            continue
        with open(os.path.join(CRATES, name)) as file:
            text = file.read()
        code = [line for line in text.split("\n") if line.strip() and not re.match(r"\s*--|use |pub mod ", line)]
        seen[name] = len(code)
        todo.extend(imports(text))
    return seen


def named(page):
    """The files that the rows of a page name between "in" and ":", the first of a row with its folder, the others beside it."""
    for files in re.findall(r"^- .*?, in ((?:`[^`]*`,? ?)+):", page.replace("\n  ", " "), re.M):
        folder = ""
        for word in re.findall(r"`([\w/]+\.antt)`", files):
            folder = os.path.dirname(word) or folder
            yield os.path.join(folder, os.path.basename(word))


with open(os.path.join(ROOT, "docs", "DEFINITIONS.md")) as file:
    first_part = file.read().split("\n# ")[1]
files = closure(START)
page = set(named(first_part))
for name in sorted(set(files) - page):
    print("not on the page: " + name)
for name in sorted(page - set(files)):
    print("on the page, and not below `try`: " + name)
print("%d files of %d crates, %d lines" % (len(files), len({f.split("/")[0] for f in files}), sum(files.values())))
sys.exit(set(files) != page)
