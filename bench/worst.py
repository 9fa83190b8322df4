#!/usr/bin/env python3
"""What each task needs at most, by `alpaca-scope bounds`, beside the dearest attempt that a search over readings finds.

usage: bench/worst.py ALPACA SCOPE [--seconds N] [--gen FROM TO] [SOURCE ..]

Each attempt begins with a power-up, clears the version words, and ends with its commit: what NEED is measured against. The search (bench/worst.c, a plain
emulator of the instructions that the compiler writes) goes on from attempt to attempt, mostly with those of 24 lists of readings that cost the most. With
--gen the sources of the generator's numbers FROM to TO - 1 are searched too, by docs/GENERATOR.md. For each task a line: source, task, table, NEED, the most
cycles found, NEED by them. Last how many are within 1.05, and the middle one. A NEED below the cycles found is told, and ends with status 1.
"""
import argparse
import pathlib
import re
import statistics
import subprocess
import sys
import tempfile

FOLDER = pathlib.Path(__file__).resolve().parent


def generated(number):
    """The source of a number, by docs/GENERATOR.md."""
    state = number

    def draw():
        nonlocal state
        state = (state * 1664525 + 1013904223) % 2**32
        return state >> 16

    def statement(d):
        a, b, c = d // 6 % 8, d // 48 % 8, d // 384 % 2
        return [
            f"x{a} = x{b} + sense();",
            f"a{c}[x{a}] = x{b};",
            f"x{b} = a{c}[x{a} % 32] ^ {d};",
            f"if (x{a} < x{b}) {{ x{a} = {d}; }} else {{ emit(x{b}); }}",
            f"for (i = 0; i < 8; i++) {{ a{c}[i] = a{c}[i] + x{b}; }}",
            f"emit(x{a} * x{b});",
        ][d % 6]

    lines = [f"shared unsigned x{i} = {draw()};" for i in range(8)]
    lines += ["shared unsigned a0[32];", "shared unsigned a1[32];"]
    for task in range(16):
        body = ["unsigned i;"] + [statement(draw()) for _ in range(6)]
        lines.append(f"task t{task} {{ {' '.join(body)} transition_to(t{(task + 1 + draw() % 3) % 16}); }}")
    return "\n".join(lines + ["entry t0;", ""])


def memory(image):
    """The bytes of the address space, and the addresses of the map's line `words`."""
    space, at = bytearray(65536), 0
    text, _, after = image.partition("\nq\n")
    for line in text.split("\n"):
        if line.startswith("@"):
            at = int(line[1:], 16)
        else:
            part = bytes.fromhex(line)
            space[at : at + len(part)] = part
            at += len(part)
    return bytes(space), re.search(r"^words (.*)$", after, re.M).group(1).split()


def rows(program, scope, emulator, name, text, seconds):
    """For each task its name, the table's number, NEED, and the most cycles found."""
    with tempfile.TemporaryDirectory() as folder:
        source, image, words = (pathlib.Path(folder, n) for n in ("s", "i", "w"))
        source.write_text(text)
        for command in ([program, "build", "s", "i"], [scope, "bounds", "s"]):
            told = subprocess.run(command, cwd=folder, capture_output=True, text=True, timeout=60)
            if told.returncode:
                sys.exit(f"{name}: {told.stderr.strip()}")
        tasks = [line.split()[1:4] for line in told.stdout.split("\n") if line.startswith("task ")]
        space, places = memory(image.read_text())
        words.write_bytes(space)
        numbers = sorted({n for n in re.findall(r"\b\d+\b", re.sub(r"//.*", "", text)) if int(n) < 65536})
        search = [emulator, str(words), places[2], places[7], places[0], str(len(tasks)), str(seconds), *numbers[:200]]
        found = subprocess.run(search, capture_output=True, text=True)
        if found.returncode:
            sys.exit(f"{name}: {found.stderr.strip()}")
        most = [int(line.split()[1]) for line in found.stdout.split("\n") if line]
        return [(task, int(table), int(need), cycles) for (task, need, table), cycles in zip(tasks, most)]


def main():
    words = argparse.ArgumentParser(usage=__doc__.split("\n\n")[1].removeprefix("usage: "))
    words.add_argument("alpaca")
    words.add_argument("scope")
    words.add_argument("--seconds", type=float, default=1)
    words.add_argument("--gen", type=int, nargs=2, default=[0, 0])
    words.add_argument("sources", nargs="*")
    said = words.parse_intermixed_args()
    program, scope = (str(pathlib.Path(p).resolve()) for p in (said.alpaca, said.scope))
    sources = [(pathlib.Path(p).stem, pathlib.Path(p).read_text()) for p in said.sources]
    sources += [(f"gen {n}", generated(n)) for n in range(*said.gen)]
    ratios, wrong = [], 0
    with tempfile.TemporaryDirectory() as folder:
        emulator = folder + "/worst"
        subprocess.run(["cc", "-O2", "-o", emulator, FOLDER / "worst.c"], check=True)
        print("source\ttask\ttable\tneed\tfound\tneed by found")
        for name, text in sources:
            for task, table, need, cycles in rows(program, scope, emulator, name, text, said.seconds):
                if not cycles:
                    print(f"{name}\t{task}\t{table}\t{need}\t-\t-")
                    continue
                ratios.append(need / cycles)
                wrong += need < cycles
                print(f"{name}\t{task}\t{table}\t{need}\t{cycles}\t{need / cycles:.2f}{' BELOW' if need < cycles else ''}")
    if ratios:
        print(f"{sum(r <= 1.05 for r in ratios)} of {len(ratios)} within 1.05, the middle one {statistics.median(ratios):.2f}")
    sys.exit(1 if wrong else 0)


main()
