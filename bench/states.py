#!/usr/bin/env python3
"""Draws states of boards, broken ones among them, and asks whether `resume` and `migrate` answer as docs/BOARD.md and docs/FIELD.md say.

usage: bench/states.py PROGRAM COUNT SEED

It draws COUNT sources, each with a new version, saves each source's image at some steps, changes words of most of the states, and works out from the
texts alone what the two commands have to answer; what `migrate` puts has to be the expected text to the byte. It stops at the first answer that differs,
and else prints how often each answer came. Nothing is shared with the program: neither code nor tables.
"""
import collections
import dataclasses
import os
import random
import subprocess
import sys
import tempfile

FRAM = range(0x4400, 0x10000, 2)
RESET = 0xFFFE
STATES = 12


@dataclasses.dataclass
class Variable:
    """A shared variable as a line of a map or a declaration has it; a scalar has one word."""

    name: str
    kind: str
    word_type: str
    length: int
    address: int = 0

    def addresses(self):
        return [self.address + 2 * k for k in range(self.length)]

    def is_like(self, other):
        return (self.kind, self.word_type, self.length) == (other.kind, other.word_type, other.length)


@dataclasses.dataclass
class Place:
    """A named place of a map: so many entries, of so many words each."""

    address: int = FRAM.start
    entries: int = 0
    words: int = 1

    def addresses(self):
        return [self.address + 2 * k for k in range(self.entries * self.words)]

    def lies_in_fram(self):
        return FRAM.start <= self.address and self.address + 2 * self.entries * self.words <= FRAM.stop


class Map:
    """What the lines of a map say."""

    def __init__(self, lines):
        self.shared, self.tasks, self.private, self.places = [], [], {}, {"copies": Place()}
        for name, *fields in map(str.split, lines):
            if name == "words":
                self.cur, self.next, self.gate, self.cln, self.en, self.base, self.sb, self.ver = (int(a, 16) for a in fields)
            elif name in ("list", "emits", "versions", "copies"):
                self.places[name] = Place(int(fields[0], 16), int(fields[1]), 3 if name == "list" else 1)
            elif name in ("scalar", "array"):
                length = int(fields[3]) if name == "array" else 1
                self.shared.append(Variable(fields[0], name, fields[1], length, int(fields[2], 16)))
            elif name == "task":
                self.tasks.append(fields[0])
                self.private[fields[0]] = []
            elif name == "private":
                self.private[self.tasks[-1]].append(fields[0])

    def runtime_words(self):
        return [self.cur, self.next, self.gate, self.cln, self.en, self.base, self.sb, self.ver]

    def named(self):
        """The addresses of all its places."""
        parts = [*self.places.values(), *self.shared]
        return {*self.runtime_words(), *(a for part in parts for a in part.addresses())}


class State:
    """An image's or a state's text: words by address, the lines of its map, and the receiver's next number."""

    def __init__(self, text):
        lines = text.split("\n")
        end = lines.index("q")
        self.words, at = collections.defaultdict(int), 0
        for line in lines[:end]:
            if line.startswith("@"):
                at = int(line[1:], 16)
            else:
                for byte in line.split():
                    self.words[at & ~1] |= int(byte, 16) << 8 * (at & 1)
                    at += 1
        self.lines, self.receiver = [line for line in lines[end + 1 :] if line], 0
        if self.lines and self.lines[-1].startswith("receiver"):
            self.receiver = int(self.lines.pop().split()[1])
        self.map = Map(self.lines)

    def text(self):
        """The state's text as it is printed."""
        out, run = [], []
        for a in [*FRAM, None]:
            if a is not None and (self.words[a] or a == RESET):
                if not run:
                    out.append(f"@{a:04X}")
                run += [f"{self.words[a] & 255:02X}", f"{self.words[a] >> 8:02X}"]
            else:
                out += [" ".join(run[k : k + 16]) for k in range(0, len(run), 16)]
                run = []
        return "\n".join([*out, "q", *self.lines, f"receiver {self.receiver}"]) + "\n"


# ---- what the commands have to answer

def pending_fault(state):
    """The first rule that a state breaks whose transition is decided; the rules before hold."""
    m, w = state.map, state.words
    if w[m.next] >= len(m.tasks):
        return "NEXT"
    if (state.receiver - w[m.sb]) % 0x10000 > w[m.en]:
        return "SB"
    copies = m.places["copies"]
    homes = {a for variable in m.shared for a in variable.addresses()}
    sources, total = set(copies.addresses()), 0
    for k in range(w[m.cln]):
        home, copy, length = (w[m.places["list"].address + 6 * k + 2 * n] for n in range(3))
        goes_well = all(home + 2 * n in homes and copy + 2 * n in sources for n in range(length))
        if length < 1 or not goes_well:
            return "list"
        total += length
    return "list" if total > m.places["list"].entries or not copies.lies_in_fram() else None


def rule_broken(state):
    """The first rule of sound states that a state breaks, or none."""
    m, w = state.map, state.words
    versions, entries, emits = m.places["versions"], m.places["list"], m.places["emits"]
    sent = {0: [state.receiver], 1: [w[m.sb], (w[m.sb] + w[m.en]) % 0x10000]}
    if w[m.gate] > 1:
        return "GATE"
    if w[m.cur] >= len(m.tasks):
        return "CUR"
    if not versions.lies_in_fram() or any(w[a] > w[m.ver] for a in versions.addresses()):
        return "versions"
    if w[m.base] not in sent[w[m.gate]]:
        return "BASE"
    if not entries.lies_in_fram() or w[m.cln] > entries.entries:
        return "CLN"
    if not emits.lies_in_fram() or w[m.en] > emits.entries:
        return "EN"
    return pending_fault(state) if w[m.gate] else None


def why_not_resumed(image, state):
    """What `resume` tells of a state that it doesn't take, or none."""
    if image.lines != state.lines:
        return "OtherImage map"
    named = image.map.named()
    other = next((a for a in FRAM if a not in named and image.words[a] != state.words[a]), None)
    if other is not None:
        return f"OtherImage {other:04x}"
    rule = rule_broken(state)
    return rule and f"Unsound {rule}"


def writes_in_place(source, m, task, name):
    return name in source.assigned[task] and name not in m.private[task]


def migrated(old, image, state, new, new_image):
    """Why `migrate` refuses a state, or none; and the text that it puts, or none."""
    refusal = why_not_resumed(image, state)
    if refusal:
        return refusal, None
    m, n = image.map, new_image.map
    if state.words[m.gate]:
        return "Pending", None
    task = m.tasks[state.words[m.cur]]
    if task not in n.tasks:
        return f"NoTask {task}", None
    kept = {variable.name: variable for variable in m.shared}
    put = State(new_image.text())
    for variable in n.shared:
        before = kept.get(variable.name)
        if before and before.is_like(variable):
            loose = variable.kind == "scalar" and writes_in_place(old, m, task, variable.name)
            if loose and not writes_in_place(new, n, task, variable.name):
                return f"Unsettled {variable.name}", None
            for a, b in zip(variable.addresses(), before.addresses()):
                put.words[a] = state.words[b]
    put.words[n.cur], put.words[n.base], put.receiver = n.tasks.index(task), state.words[m.base], state.receiver
    return None, put.text()


# ---- sources, versions of them, and states

class Source:
    """A source, and which scalars each of its tasks assigns."""

    def __init__(self, rng, variables, tasks):
        self.variables, self.tasks, self.assigned = variables, tasks, {task: set() for task in tasks}
        lines = [declaration(rng, variable) for variable in variables]
        for task in tasks:
            body = "".join(" " + self.statement(rng, task) for _ in range(rng.randrange(5)))
            lines.append(f"task {task} {{{body} transition_to({rng.choice(tasks)}); }}")
        self.text = "\n".join([*lines, f"entry {rng.choice(tasks)};", ""])

    def statement(self, rng, task):
        scalars = [v.name for v in self.variables if v.kind == "scalar"]
        arrays = [v for v in self.variables if v.kind == "array"]
        kind = rng.random()
        if kind < 0.5 and scalars:
            x, y = rng.choice(scalars), rng.choice(scalars)
            self.assigned[task].add(x)
            one = f"{x} = " + rng.choice(["sense()", f"{x} + sense()", f"{y} + 1", "7"]) + ";"
            return f"if ({y} > 3) {{ {one} }}" if rng.random() < 0.3 else one
        if kind < 0.75 and arrays:
            a = rng.choice(arrays)
            return f"{a.name}[{rng.randrange(a.length)}] = {a.name}[{rng.randrange(a.length)}] + sense();"
        return f"emit({rng.choice(scalars) if scalars else 'sense()'});"


def declaration(rng, variable):
    if variable.kind == "array":
        return f"shared {variable.word_type} {variable.name}[{variable.length}];"
    return f"shared {variable.word_type} {variable.name}{rng.choice(['', f' = {rng.randrange(0x10000)}'])};"


def first_version(rng):
    """A source with a few variables and tasks."""
    variables = []
    for k in range(rng.randrange(1, 6)):
        kind = "scalar" if rng.random() < 0.7 else "array"
        length = 1 if kind == "scalar" else rng.randrange(1, 5)
        variables.append(Variable(f"v{k}", kind, rng.choice(["unsigned", "int"]), length))
    return Source(rng, variables, [f"t{k}" for k in range(rng.randrange(1, 4))])


def next_version(rng, source):
    """A source with most of another's variables and tasks, some of them changed."""
    variables, tasks = [dataclasses.replace(v) for v in source.variables], list(source.tasks)
    for variable in variables:
        if rng.random() < 0.12:
            variable.word_type = "int" if variable.word_type == "unsigned" else "unsigned"
        if rng.random() < 0.12 and variable.kind == "array":
            variable.length = rng.randrange(1, 5)
        if rng.random() < 0.08:
            variable.kind, variable.length = ("array", 2) if variable.kind == "scalar" else ("scalar", 1)
        if rng.random() < 0.08:
            variable.name = "n" + variable.name
    if rng.random() < 0.4:
        variables.append(Variable("w", "scalar", "unsigned", 1))
    if rng.random() < 0.3:
        tasks.append("u")
    if rng.random() < 0.2:
        tasks[rng.randrange(len(tasks))] = "z"
    rng.shuffle(variables)
    rng.shuffle(tasks)
    return Source(rng, variables, tasks)


def changed(rng, state):
    """Changes a word or two of a state, or its receiver's number."""
    m = state.map
    listed = m.places["list"].addresses()
    for _ in range(rng.choice([0, 1, 1, 2])):
        kind = rng.random()
        if kind < 0.08:
            state.receiver = rng.choice([(state.receiver + 1) % 0x10000, rng.randrange(0x10000)])
        elif kind < 0.18:
            state.words[rng.choice(FRAM)] = rng.randrange(0x10000)
        elif kind < 0.30:
            state.words[m.gate] = rng.choice([0, 1, 1, 2, 0xFFFF])
        else:
            a = rng.choice(listed if listed and rng.random() < 0.4 else m.runtime_words())
            near = [(state.words[a] + step) % 0x10000 for step in (-1, 1, 2)]
            state.words[a] = rng.choice([0, 1, 2, 3, *near, 0xFFFF, rng.choice(sorted(m.named()))])


# ---- the program

class Board:
    """The program, in a folder of its own."""

    def __init__(self, program):
        self.program, self.folder = os.path.abspath(program), tempfile.TemporaryDirectory()

    def put(self, name, text):
        with open(os.path.join(self.folder.name, name), "w", encoding="ascii") as file:
            file.write(text)

    def text(self, name):
        path = os.path.join(self.folder.name, name)
        if not os.path.exists(path):
            return None
        with open(path, encoding="ascii") as file:
            return file.read()

    def call(self, *words):
        """The status of a command, and what it says on standard error."""
        ended = subprocess.run([self.program, *words], capture_output=True, text=True, cwd=self.folder.name, timeout=60)
        return ended.returncode, ended.stderr

    def well(self, *words):
        """Runs a command that has to end well."""
        answer = self.call(*words)
        if answer != (0, ""):
            raise SystemExit(f"{' '.join(words)}: {answer}")


def agree(what, answer, refusal, texts):
    """Asks whether an answer is a refusal of the state, or good where there is none."""
    wanted = (1, f"refused state 0 {refusal}\n") if refusal else (0, "")
    if answer != wanted:
        raise SystemExit(f"{what}: {answer} where {wanted} is due\n" + "\n".join(texts))


def one_state(rng, board, old, new, tally):
    """Saves a state, changes it, and asks both commands of it."""
    image, new_image = State(board.text("image")), State(board.text("new_image"))
    readings = "".join(f" {rng.randrange(0x10000)}" for _ in range(rng.randrange(12)))
    steps = rng.choice([0, rng.randrange(60), rng.randrange(400), rng.randrange(3000)])
    board.put("trace", f"s {steps} {rng.choice([0, 0xFFFF])}\nr{readings}\n")
    board.well("save", "image", "trace", "state")
    state = State(board.text("state"))
    if state.text() != board.text("state") or why_not_resumed(image, state):
        raise SystemExit(f"save: {why_not_resumed(image, state)}\n{old.text}")
    changed(rng, state)
    board.put("state", state.text())
    agree("resume", board.call("resume", "image", "state", "nothing"), why_not_resumed(image, state), [old.text])
    refusal, text = migrated(old, image, state, new, new_image)
    if board.text("new_state") is not None:
        os.remove(os.path.join(board.folder.name, "new_state"))
    agree("migrate", board.call("migrate", "source", "image", "state", "new", "new_image", "new_state"), refusal, [old.text, new.text])
    if board.text("new_state") != text:
        raise SystemExit(f"migrate puts another state\n{old.text}\n{new.text}")
    if text:
        board.well("resume", "new_image", "new_state", "nothing")
    tally[" ".join(refusal.split()[: 2 if refusal.startswith("Unsound") else 1]) if refusal else "migrated"] += 1


def main():
    board, tally = Board(sys.argv[1]), collections.Counter()
    for k in range(int(sys.argv[2])):
        rng = random.Random(f"{sys.argv[3]} {k}")
        old = first_version(rng)
        new = next_version(rng, old)
        for name, text in (("source", old.text), ("new", new.text), ("nothing", "c 0 0\n")):
            board.put(name, text)
        board.well("build", "source", "image")
        board.well("build", "new", "new_image")
        for _ in range(STATES):
            one_state(rng, board, old, new, tally)
    print(", ".join(f"{answer} {count}" for answer, count in sorted(tally.items())))


if __name__ == "__main__":
    main()
