#!/usr/bin/env python3
"""Of ten task bodies: the cycles and the words of their own work, beside those of clang's code for the same body.

usage: bench/alone.py PROGRAM

Each body is built and run on one charge by a small model of the CPU, up to the end of the first commit. Its cycles are told apart by
the code that they are spent in: boot and attempt start, commit, and the task; and in the task by what an instruction is for: the *versions* of
arrays (the comparison of a version word with VER; behind the first store to an element the version word and the entry; where an element is updated, its
first store, which goes to the copy and not to the word that was read), and the *transition* (NEXT, the entries, SB, GATE and the branch). What is left is
the body: `own`. Its words are told apart in the same way; of code that stands twice, for an element's copy and for the element, one counts.
"""
import re
import subprocess
import sys
import tempfile

# Cycles and words.
CLANG = {"sum8": (75, 12), "addto8": (79, 10), "row14": (517, 8), "mul": (116, 9), "divmod": (285, 28), "branch": (33, 27), "sense": (27, 16),
         "dot8": (259, 20), "mix": (39, 31), "max16": (217, 15)}
NEXT, GATE, ENTRIES, VER = 0x4402, 0x4404, 0x4406, 0x440E
MEMORY_ROW, REGISTER_ROW = (4, 6, 5, 5), (1, 3, 2, 2)


def source_of(instruction):
    """The mode of a source: its register, its extension word or none, a constant or none."""
    register, mode = instruction >> 8 & 15, instruction >> 4 & 3
    if register == 3:
        return "constant", (0, 1, 2, 0xFFFF)[mode]
    if register == 2 and mode >= 2:
        return "constant", (4, 8)[mode - 2]
    if register == 0 and mode == 3:
        return "number", None
    return ("register", "memory", "indirect", "increment")[mode], register


class Board:
    def __init__(self, words, readings):
        self.words, self.readings, self.r, self.cycles = words, readings, [0] * 16, 0
        self.r[0] = self.load(0xFFFE)

    def load(self, address):
        if address == 0x200:
            return self.readings.pop(0)
        return self.words.get(address & 0xFFFE, 0)

    def fetch(self):
        word = self.load(self.r[0])
        self.r[0] = self.r[0] + 2 & 0xFFFF
        return word

    def at(self, register):
        """The address behind a register and an extension word; SR stands for 0."""
        offset = self.fetch()
        return offset if register == 2 else self.r[register] + offset & 0xFFFF

    def set_flags(self, result, carry, overflow):
        self.r[2] = carry | (result == 0) << 1 | (result >> 15) << 2 | overflow << 8
        return result

    def added(self, x, y, carry):
        total = x + y + carry
        return self.set_flags(total & 0xFFFF, total >> 16, ((x ^ total) & (y ^ total)) >> 15 & 1)

    def two(self, word):
        kind, value = source_of(word)
        row = MEMORY_ROW if word & 0x80 else REGISTER_ROW
        if kind == "number":
            x, price = self.fetch(), row[3]
        elif kind == "register":
            x, price = self.r[value], row[0]
        elif kind == "memory":
            x, price = self.load(self.at(value)), row[1]
        elif kind in ("indirect", "increment"):
            x, price = self.load(self.r[value]), row[2]
            self.r[value] += 2 * (kind == "increment")
        else:
            x, price = value, row[0]
        to = word & 15
        if word & 0x80:
            place = self.at(to)
            y = self.load(place)
        else:
            y = self.r[to]
        result = self.operated(word >> 12, x, y)
        if result is not None and word & 0x80:
            self.words[place] = result
        elif result is not None:
            self.r[to] = result
            price += to == 0 and (1 if kind in ("register", "constant", "number", "increment") else 0)
        self.cycles += price

    def operated(self, operation, x, y):
        carry = self.r[2] & 1
        if operation == 4:
            return x
        if operation in (5, 6):
            return self.added(x, y, carry if operation == 6 else 0)
        if operation in (7, 8, 9):
            result = self.added(x ^ 0xFFFF, y, carry if operation == 7 else 1)
            return None if operation == 9 else result
        if operation == 0xC:
            return y & ~x
        if operation == 0xD:
            return y | x
        result = y ^ x if operation == 0xE else y & x
        self.set_flags(result, int(result != 0), 0)
        return None if operation == 0xB else result

    def one(self, word):
        to, x = word & 15, self.r[word & 15]
        operation = word >> 7 & 7
        if operation == 4:
            kind, value = source_of((word & 15) << 8 | word & 0x30)
            if kind == "number":
                x, price = self.fetch(), 4
            elif kind == "memory":
                x, price = self.load(self.at(value)), 5
            elif kind == "constant":
                x, price = value, 3
            else:
                x, price = self.r[value], 3
            self.r[1] -= 2
            self.words[self.r[1]] = x
            self.cycles += price
            return
        self.cycles += 1
        if operation == 0:
            self.r[to] = self.set_flags(x >> 1 | (self.r[2] & 1) << 15, x & 1, 0)
        elif operation == 1:
            self.r[to] = (x >> 8 | x << 8) & 0xFFFF
        elif operation == 2:
            self.r[to] = self.set_flags(x >> 1 | x & 0x8000, x & 1, 0)
        else:
            low = x & 0xFF
            self.r[to] = self.set_flags(low | 0xFF00 * (low >> 7), int(low != 0), 0)

    def jump(self, word):
        c, z, n, v = (self.r[2] >> k & 1 for k in (0, 1, 2, 8))
        met = (not z, z, not c, c, n, n == v, n != v, True)[word >> 10 & 7]
        offset = word & 0x3FF
        if met:
            self.r[0] = self.r[0] + 2 * (offset - 0x400 * (offset >> 9)) & 0xFFFF
        self.cycles += 2

    def step(self):
        """One instruction: where it stands, its words and its cycles."""
        at, before = self.r[0], self.cycles
        word = self.fetch()
        if word >> 13 == 1:
            self.jump(word)
        elif word >> 12 == 1:
            self.one(word)
        else:
            self.two(word)
        return at, word, self.load(at + 2), self.load(at + 4), self.cycles - before


def image(text):
    words, at = {}, 0
    for line in text.split("\nq")[0].split("\n"):
        if line.startswith("@"):
            at = int(line[1:], 16)
        else:
            pairs = line.split()
            for low, high in zip(pairs[::2], pairs[1::2]):
                words[at] = int(low, 16) | int(high, 16) << 8
                at += 2
    versions = re.search(r"^versions (\w+) (\d+)", text, re.M)
    low = int(versions[1], 16) if versions else 0
    return words, range(low, low + 2 * int(versions[2]) if versions else low)


def built(program, source, folder):
    """The text of a source's image."""
    with open(folder + "/s", "w") as file:
        file.write(source + "\n")
    subprocess.run([program, "build", folder + "/s", folder + "/i"], check=True, stdout=subprocess.DEVNULL)
    with open(folder + "/i") as file:
        return file.read()


def attempt(board):
    """The steps of a charge up to the end of its first commit, and which of them decides."""
    steps, decides = [], None
    while decides is None or board.load(GATE) == 1:
        steps.append(board.step())
        if decides is None and board.load(GATE) == 1:
            decides = len(steps) - 1
    return steps, decides


def of_task(steps, versions):
    """What each step of a task's code is for."""
    parts, part, look = [], "own", 0
    for at, word, first, second, cycles in steps:
        reads_number = word & 0xFFF0 == 0x4210 and first == VER
        if part == "own" and NEXT in (first, second) and word & 0xF0FF in (0x40B2, 0x4082, 0x4092, 0x40A2):
            part = "transition"
        elif part == "own" and word == 0x4684 and first in versions:
            part, look = "versions", 0
        elif part == "own" and reads_number:
            look = 3
            if parts and steps[len(parts) - 1][1] == 0x4784:
                parts[-1] = "versions"
        parts.append("versions" if look else part)
        look -= look > 0
        if part == "versions" and (word == 0x5392 and first == ENTRIES or word == 0x3C0A):
            part = "own"
    return parts


def length_of(word):
    """The words of an instruction that begins with this one."""
    if word >> 12 == 1:
        return 1 + (source_of((word & 15) << 8 | word & 0x30)[0] in ("number", "memory"))
    return 1 + (word >> 13 != 1) * ((source_of(word)[0] in ("number", "memory")) + (word >> 7 & 1))


def own_words(load, begins, ends, versions):
    """The words of a task's code from one address up to another that are neither for versions nor for its transition."""
    own, at, resumes, last = 0, begins, begins, 0
    while at < ends:
        word, first, second = load(at), load(at + 2), load(at + 4)
        behind = at + 2 * length_of(word)
        if NEXT in (first, second) and word & 0xF0FF in (0x40B2, 0x4082, 0x4092, 0x40A2):
            return own
        if word & 0xFFF0 == 0x4210 and first == VER and at >= resumes:
            looks = load(behind) & 0xF000 == 0x9000
            own -= 2 * (load(last) == 0x4784)
            jump = behind + 2 * length_of(load(behind))
            resumes = jump + 2 + 2 * (load(jump) & 0x3FF) if looks else behind
        elif word == 0x4684 and first in versions and at >= resumes:
            resumes = at
            while load(resumes) != 0x5392 or load(resumes + 2) != ENTRIES:
                resumes += 2 * length_of(load(resumes))
            resumes += 4
        own += (behind - at) // 2 * (at >= resumes)
        at, last = behind, at
    return own


def told_apart(program, source, folder):
    """The cycles of each part of a charge that completes one transition, and the words of the task's own work."""
    words, versions = image(built(program, source, folder))
    board = Board(words, [5] * 64)
    steps, decides = attempt(board)
    commit = steps[decides + 2][0]
    begins = next(k for k, step in enumerate(steps) if step[0] > commit)
    task = of_task(steps[begins : decides + 2], versions)
    names = ["runtime"] * begins + task + ["runtime"] * (len(steps) - decides - 2)
    parts = dict.fromkeys(("runtime", "versions", "transition", "own"), 0)
    for name, step in zip(names, steps):
        parts[name] += step[4]
    addresses = [step[0] for step in steps[begins : decides + 2]]
    return parts, own_words(board.load, min(addresses), max(addresses), versions)


def main():
    bodies = re.findall(r"^less (\w+) '(.*)'$", open(sys.path[0] + "/bodies.sh").read(), re.M)
    head = ("body", "runtime", "versions", "transition", "own", "clang -Os", "ratio", "words", "clang -Os", "ratio")
    print("%-8s %8s %8s %10s %6s %9s %6s %6s %9s %6s" % head)
    cycles_product, words_sum = 1, 0
    with tempfile.TemporaryDirectory() as folder:
        for name, source in bodies:
            parts, words = told_apart(sys.argv[1], source, folder)
            cycles, clang_words = CLANG[name]
            cycles_product *= parts["own"] / cycles
            words_sum += words / clang_words
            row = (name, *parts.values(), cycles, parts["own"] / cycles, words, clang_words, words / clang_words)
            print("%-8s %8d %8d %10d %6d %9d %6.2f %6d %9d %6.2f" % row)
    print("cycles, geometric mean %.2f; words, mean %.2f" % (cycles_product ** (1 / len(bodies)), words_sum / len(bodies)))


main()
