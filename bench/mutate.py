"""Mutates texts and runs the program on them; bench/mutate.sh says how it is called."""
import collections
import multiprocessing
import os
import pathlib
import random
import re
import select
import signal
import sys
import tempfile
import time

TOP = pathlib.Path(__file__).resolve().parent.parent
MIB = 1 << 20
# a run that is lawful, but may take long, is cut short after these seconds; any other has the rest of a minute
SHORT, LONG = 5, 60
# how many cycles or transitions' cycles a short run has at most
SHORT_WORK = 10**9
STATUSES = {0, 1, 2, 3, 4, 6, 7}

SUM = b"shared unsigned n = 0;\ntask a { n = n + sense(); emit(n); transition_to(a); }\nentry a;\n"
TRACE = b"c 40 0 * 3\ns 100 65535\nc 20000 7\nr 5 7 9 11\n"
JUMP = b"@4400\nFF 3F\n@FFFE\n00 44\nq\n"
MAP = (
    b"@4400\n92 43 04 50 B2 40 05 00 10 50 82 43 04 50 32 D0\n10 00\n@FFFE\n00 44\nq\nmap\nbound 9\n"
    b"words 5000 5002 5004 5006 5008 500A 500C 500E\nlist 5020 1\nemits 5030 1\nversions 5040 0\n"
    b"scalar x unsigned 5010\narray y int 5012 3\ntask a\nprivate x\nend\n"
)
# the texts that stand beside the mutated one
BESIDE = {"s": SUM, "t": TRACE, "i": MAP}
# the commands of a kind: the words, the name of the mutated text, and the name that is put, if one is
COMMANDS = {
    "source": [("mean m t", None), ("build m p", "p"), ("try m t p", "p")],
    "trace": [("mean s m", None), ("run i m", None), ("try s m p", "p")],
    "image": [("run m t", None), ("dis m", None), ("save m t p", "p")],
    "map": [("run m t", None), ("save m t p", "p"), ("resume m m t", None), ("resume i m t", None)],
    "assembler": [("asm m p", "p")],
}
SUFFIXES = {".alp": "source", ".trace": "trace", ".tr": "trace", ".asm": "assembler"}
NUMBERS = b"0 1 -1 2 7 15 16 255 256 257 511 512 4095 32767 32768 65534 65535 65536 4294967295 4294967296 0x 0xFFFF 0x10000 007 1000000 1000001".split()
TOKENS = [b"(", b"((", b"{", b"a", b"a ", b"9", b"+1", b"\n", b" ", b"//", b"#", b"@", b"@4400\n", b"00 ", b"q\n", b"r 1\n", b"1 ", b"c 1 0\n", b"x:", b"x: nop\n", b".word 0\n", b"nop;", b"\0", b"\xff", b"task t\n", b"receiver 1\n", b"-", b"if(1){", b"emit(1);"]


def kind_of(name, text):
    """The kind of an example, None where it is none of the five."""
    suffix = pathlib.Path(name).suffix
    if suffix == ".txt":
        return "map" if b"\nmap\n" in text else "image"
    return SUFFIXES.get(suffix)


def examples():
    """The examples of each kind: those of examples/ and of the pages, an image and a map."""
    texts = [("jump.txt", JUMP), ("map.txt", MAP)]
    texts += [(path.name, path.read_bytes()) for path in sorted((TOP / "examples").iterdir()) if path.is_file()]
    for page in [TOP / "README.md", *sorted((TOP / "docs").glob("*.md"))]:
        texts += re.findall(r"```file (\S+)\n(.*?)```", page.read_text(), re.S)
    found = {kind: [] for kind in COMMANDS}
    for name, text in texts:
        text = text if isinstance(text, bytes) else text.encode()
        kind = kind_of(name, text)
        if kind:
            found[kind].append(text)
    return found


def flipped(text, dice):
    """A few bytes are others."""
    text = bytearray(text)
    for _ in range(dice.randint(1, 4)):
        if text:
            text[dice.randrange(len(text))] ^= 1 << dice.randrange(8)
    return bytes(text)


def swapped(text, dice):
    """Two lines, or two words of one, have changed places."""
    parts = re.split(rb"(\n)" if dice.random() < 0.5 else rb"(\s)", text)
    a, b = dice.randrange(len(parts)), dice.randrange(len(parts))
    parts[a], parts[b] = parts[b], parts[a]
    return b"".join(parts)


def cut_off(text, dice):
    """The front, the end or the middle is gone."""
    a, b = sorted((dice.randint(0, len(text)), dice.randint(0, len(text))))
    return dice.choice([text[:a], text[b:], text[:a] + text[b:]])


def repeated(text, dice):
    """A piece comes again, a few times or many."""
    a, b = sorted((dice.randint(0, len(text)), dice.randint(0, len(text))))
    return text[:b] + text[a:b] * dice.choice([1, 2, 3, 70, 300]) + text[b:]


def limits(text, dice):
    """A number is one at a limit."""
    places = list(re.finditer(rb"\b(0x)?[0-9A-F]+\b", text))
    if not places:
        return text
    place = dice.choice(places)
    number = dice.choice(NUMBERS) if dice.random() < 0.95 else b"9" * dice.choice([20, 1000])
    return text[: place.start()] + number + text[place.end() :]


def one_token(text, dice):
    """About 1 MiB of one token."""
    token = dice.choice(TOKENS)
    at = dice.randint(0, len(text))
    room = MIB - len(text) + dice.choice([-1, 0, 1, len(token)])
    return text[:at] + token * max(room // len(token), 0) + text[at:]


CHANGES = [flipped, swapped, cut_off, repeated, limits]


def mutated(text, dice):
    if dice.random() < 0.005:
        return one_token(text, dice)
    for _ in range(dice.randint(1, 3)):
        text = dice.choice(CHANGES)(text, dice)
    return text


class Runner:
    """Runs the program in a folder of its own."""

    def __init__(self, program, folder):
        self.program = program
        os.chdir(folder)
        for name, text in BESIDE.items():
            pathlib.Path(name).write_bytes(text)

    def run(self, words, seconds):
        """The status, None where the time was up; what was written; what was told."""
        create = os.O_WRONLY | os.O_CREAT | os.O_TRUNC
        files = [(os.POSIX_SPAWN_OPEN, 0, "/dev/null", os.O_RDONLY, 0)]
        files += [(os.POSIX_SPAWN_OPEN, k, name, create, 0o600) for k, name in ((1, "out"), (2, "err"))]
        pid = os.posix_spawn(self.program, ["alpaca", *words], {}, file_actions=files)
        ended = os.pidfd_open(pid)
        is_ended = bool(select.select([ended], [], [], seconds)[0])
        os.close(ended)
        if not is_ended:
            os.kill(pid, signal.SIGKILL)
        status = os.waitstatus_to_exitcode(os.waitpid(pid, 0)[1])
        status = status if is_ended else None
        return status, pathlib.Path("out").read_bytes(), pathlib.Path("err").read_bytes()

    def may_be_long(self, words):
        """Whether the texts ask for more work than a short run does."""
        if words[0] in ("run", "try", "save", "resume"):
            trace = pathlib.Path(words[3 if words[0] == "resume" else 2]).read_bytes()
            if charged(trace) > SHORT_WORK:
                return True
        if words[0] == "mean":
            status, out, _ = self.run(["build", words[1], "p"], LONG)
            return status == 0 and int(out.split()[1]) * 10_000 > SHORT_WORK
        return False


def charged(trace):
    """The cycles of a trace, an instruction being ten at most."""
    total = 0
    for kind, count, times in re.findall(rb"^\s*([cs])\s+(\w+)\s+\w+\s*(?:\*\s*(\w+))?", trace, re.M):
        total += int(count, 0) * int(times or b"1", 0) * (10 if kind == b"s" else 1) if numbers(count, times) else 0
    return total


def numbers(*words):
    return all(re.fullmatch(rb"0x[0-9A-Fa-f]+|0|[1-9][0-9]*|", word) for word in words)


def wrong(status, out, err, puts):
    """What is wrong with an answer, None where nothing is."""
    put = puts is not None and os.path.exists(puts)
    if status is None:
        return "hangs"
    if status < 0:
        return f"stops by signal {-status}"
    if status not in STATUSES:
        return f"status {status}"
    if (status == 0) != (err == b"") or err.count(b"\n") > 1:
        return f"status {status}, and tells {err[:200]!r}"
    if status in (1, 2, 3, 7) and (out or put):
        return f"status {status}, and writes or puts"
    if status == 6 and put:
        return "status 6, and puts"
    if status == 0 and puts is not None and not put:
        return "status 0, and puts nothing"
    return None


def work(job):
    program, end, seed, texts, keep = job
    dice = random.Random(seed)
    counts = collections.Counter()
    with tempfile.TemporaryDirectory(dir="/dev/shm" if os.path.isdir("/dev/shm") else None) as folder:
        runner = Runner(program, folder)
        while time.monotonic() < end:
            kind = dice.choice(list(texts))
            text = mutated(dice.choice(texts[kind]), dice)
            words, puts = dice.choice(COMMANDS[kind])
            pathlib.Path("m").write_bytes(text)
            pathlib.Path("p").unlink(missing_ok=True)
            status, out, err = runner.run(words.split(), SHORT)
            if status is None and runner.may_be_long(words.split()):
                counts["cut short, as they ask for long runs"] += 1
                continue
            if status is None:
                status, out, err = runner.run(words.split(), LONG)
            counts["hung" if status is None else status] += 1
            what = wrong(status, out, err, puts)
            if what:
                counts["wrong"] += 1
                name = pathlib.Path(keep, f"{seed}-{counts.total()}")
                name.write_bytes(text)
                print(f"alpaca {words} with m as in {name}: {what}", flush=True)
        os.chdir("/")
    return counts


def main():
    if len(sys.argv) != 4:
        raise SystemExit("usage: bench/mutate.sh SECONDS SEED")
    program, seconds, seed = os.path.abspath(sys.argv[1]), float(sys.argv[2]), int(sys.argv[3])
    workers = int(os.environ.get("WORKERS", os.cpu_count()))
    keep = tempfile.mkdtemp(prefix="mutated-")
    texts, start = examples(), time.monotonic()
    jobs = [(program, start + seconds, seed * 1000 + k, texts, keep) for k in range(workers)]
    with multiprocessing.Pool(workers) as pool:
        counts = sum(pool.map(work, jobs, 1), collections.Counter())
    bad = counts.pop("wrong", 0)
    tried = counts.total()
    print(f"{tried} texts, {tried / (time.monotonic() - start):.0f} a second, seed {seed}; {bad} wrong")
    for what, count in sorted(counts.items(), key=str):
        print(f"  {count} {'answered by status ' + str(what) if isinstance(what, int) else what}")
    if not bad:
        os.rmdir(keep)
    raise SystemExit(1 if bad else 0)


main()
