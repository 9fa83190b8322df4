#!/usr/bin/env python3
"""Runs the examples of README.md and of the pages in docs/, and compares what they print with what the pages say.

usage: docs/check_examples.py ALPACA SCOPE [PAGE ..]   (the built programs)

A block whose info string is `file NAME` is a file, and `part NAME` are lines of a file of examples/. A block `console` holds commands, `$ alpaca WORDS`,
`$ alpaca-scope WORDS` or `$ cat FILES`, each followed by what it prints on standard output and standard error; a last line `[status N]` is the exit
status where it isn't 0. `> NAME` at a command's end puts standard output into that file, and a line `...` stands for any lines. The blocks of a page run in
its order, in one folder, where at first the files of examples/ lie. A block with the name of one of these has to be that file.
"""
import pathlib
import shlex
import shutil
import subprocess
import sys
import tempfile

DOCS = pathlib.Path(__file__).resolve().parent
EXAMPLES = DOCS.parent / "examples"


def blocks(text):
    """The info string and the lines of each fenced block."""
    info, lines = None, []
    for line in text.splitlines():
        if line.startswith("```"):
            if info is None:
                info, lines = line[3:].strip(), []
            else:
                yield info, lines
                info = None
        elif info is not None:
            lines.append(line)


def commands(lines):
    """Each command of a console block with the lines that it prints."""
    command, wanted = None, []
    for line in lines:
        if line.startswith("$ "):
            if command is not None:
                yield command, wanted
            command, wanted = line[2:], []
        else:
            wanted.append(line)
    if command is not None:
        yield command, wanted


def run(programs, words, folder):
    """What one command writes on standard output and standard error, and its exit status."""
    if words[0] == "cat":
        return "".join(pathlib.Path(folder, name).read_text() for name in words[1:]), "", 0
    if words[0] not in programs:
        raise SystemExit(f"no command that this script knows: {words}")
    ended = subprocess.run([programs[words[0]], *words[1:]], cwd=folder, capture_output=True, text=True, timeout=60)
    return ended.stdout, ended.stderr, ended.returncode


def printed(programs, command, folder):
    """The lines that a command prints, and its status where that isn't 0."""
    words = shlex.split(command)
    into = words[-1] if words[-2:-1] == [">"] else None
    output, errors, status = run(programs, words[:-2] if into else words, folder)
    if into:
        pathlib.Path(folder, into).write_text(output)
        output = ""
    return (output + errors).splitlines() + ([f"[status {status}]"] if status else [])


def agree(got, wanted):
    """Whether the lines are the wanted ones, of which `...` stands for any."""
    if "..." not in wanted:
        return got == wanted
    at = wanted.index("...")
    front, behind = wanted[:at], wanted[at + 1 :]
    return got[:at] == front and any(agree(got[k:], behind) for k in range(at, len(got) + 1))


def is_another(name, text):
    """Whether an example has that name and another text."""
    example = EXAMPLES / name
    return example.exists() and example.read_text() != text


def check(programs, page):
    """How many commands and examples of a page were looked at, and how many of them aren't as the page says."""
    ran = wrong = 0
    with tempfile.TemporaryDirectory() as folder:
        shutil.copytree(EXAMPLES, folder, dirs_exist_ok=True)
        for info, lines in blocks(page.read_text()):
            kind, _, name = info.partition(" ")
            if kind == "file":
                text = "".join(line + "\n" for line in lines)
                pathlib.Path(folder, name).write_text(text)
                if is_another(name, text):
                    wrong += 1
                    print(f"{page.name}: {name} isn't the file of examples/")
            elif kind == "part" and not agree((EXAMPLES / name).read_text().splitlines(), ["...", *lines, "..."]):
                wrong += 1
                print(f"{page.name}: {name} in examples/ has no such lines")
            elif kind == "console":
                for command, wanted in commands(lines):
                    ran += 1
                    got = printed(programs, command, folder)
                    if not agree(got, wanted):
                        wrong += 1
                        print(f"{page.name}: {command}\n  page:    {wanted}\n  program: {got}")
    return ran, wrong


def main():
    if len(sys.argv) < 3:
        raise SystemExit(__doc__)
    programs = {name: str(pathlib.Path(path).resolve()) for name, path in zip(("alpaca", "alpaca-scope"), sys.argv[1:3])}
    pages = [pathlib.Path(p) for p in sys.argv[3:]] or [DOCS.parent / "README.md", *sorted(DOCS.glob("*.md"))]
    counts = [check(programs, page) for page in pages]
    ran, wrong = sum(c[0] for c in counts), sum(c[1] for c in counts)
    print(f"{ran - wrong} examples agree, {wrong} don't")
    raise SystemExit(1 if wrong else 0)


main()
