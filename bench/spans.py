#!/usr/bin/env python3
"""Runs the programs of examples/, and checks each report by the source's meaning on the readings that its transitions took.

usage: bench/spans.py PROGRAM [FOLDER]

For each NAME.alp, with NAME.trace and NAME.report beside it: `try` has to print NAME.report. Then the readings A up to B of each of its
lines `t K TASK NEXT A B` are joined to one list, on which `mean` has to make the same transitions: the same tasks, as many readings for
each, the same words sent and the same words of shared variables. The spans have to lie behind one another.
"""
import pathlib
import subprocess
import sys
import tempfile


def output(program, *words):
    """What a command prints; it has to end with status 0."""
    ended = subprocess.run([program, *map(str, words)], capture_output=True, text=True, timeout=60)
    if ended.returncode:
        raise SystemExit(f"{' '.join(map(str, words))}: status {ended.returncode}: {ended.stderr}")
    return ended.stdout


def readings_of(trace):
    """The readings of a trace."""
    words = []
    for line in trace.read_text().splitlines():
        fields = line.split("#")[0].split()
        if fields[:1] == ["r"]:
            words += [int(field, 0) for field in fields[1:]]
    return words


def transitions_of(report):
    """Each transition of a report: its number and tasks, its span, and its lines of words."""
    made = []
    for line in report.splitlines():
        fields = line.split()
        if fields[0] == "t":
            made.append((fields[1:4], int(fields[4]), int(fields[5]), []))
        elif fields[0] in ("o", "v"):
            made[-1][3].append(line)
    return made


def meaning_of(program, source, readings, folder):
    """The transitions that the source makes on these readings."""
    trace = pathlib.Path(folder, "spans.trace")
    trace.write_text("".join(f"r {word}\n" for word in readings))
    return transitions_of(output(program, "mean", source, trace))


def fault_of(program, source, folder):
    """How many transitions the report of a source has, and what is wrong with it, if anything."""
    trace, report = source.with_suffix(".trace"), source.with_suffix(".report")
    printed = output(program, "try", source, trace, pathlib.Path(folder, "image"))
    if printed != report.read_text():
        return 0, "the report is another one"
    made, readings = transitions_of(printed), readings_of(trace)
    spans = [(start, end) for _, start, end, _ in made]
    if any(start < end_before for (_, end_before), (start, _) in zip(spans, spans[1:])):
        return len(made), "spans overlap"
    taken = [word for start, end in spans for word in readings[start:end]]
    meant = meaning_of(program, source, taken, folder)[: len(made)]
    for mine, its in zip(made, meant):
        if (mine[0], mine[2] - mine[1], mine[3]) != (its[0], its[2] - its[1], its[3]):
            return len(made), f"transition {mine[0][0]} isn't the source's"
    return len(made), None if len(meant) == len(made) else "the source makes fewer transitions"


def main():
    if len(sys.argv) < 2:
        raise SystemExit(__doc__)
    program = str(pathlib.Path(sys.argv[1]).resolve())
    here = pathlib.Path(__file__).resolve().parent.parent / "examples"
    sources = sorted(pathlib.Path(sys.argv[2] if sys.argv[2:] else here).glob("*.alp"))
    wrong = 0
    with tempfile.TemporaryDirectory() as folder:
        for source in sources:
            count, fault = fault_of(program, source, folder)
            wrong += fault is not None
            print(f"{source.stem}: {fault or f'{count} transitions, as the source makes them'}")
    print(f"{len(sources) - wrong} reports are right, {wrong} aren't")
    raise SystemExit(1 if wrong or not sources else 0)


main()
