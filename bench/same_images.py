"""Builds the same sources by two programs: `bench/same_images.sh BEFORE AFTER` says how."""
import pathlib
import re
import subprocess
import sys
import tempfile

TOP = pathlib.Path(__file__).resolve().parent.parent
ROWS = TOP / "crates" / "rows" / "data"
GROUP = re.compile(r"\\\((\d+) (.*?)\\\)")
LINE = re.compile(r"(\||-|(\d+) \*)(?: (.*))?$")


def said(text, turn):
    """A piece of a row's text: the byte of two hexadecimal digits, the number of the turn from 1 and from 0."""
    text = text.replace("\\#", str(turn + 1)).replace("\\@", str(turn))
    return re.sub(r"\\([0-9A-Fa-f]{2})", lambda found: chr(int(found[1], 16)), text)


def line_text(line):
    """The text of a line of a row's text, or None where the line is none."""
    found = LINE.match(line)
    if not found:
        return None
    ended = "\n" if found[1] == "|" else ""
    text = ""
    for turn in range(int(found[2] or 1)):
        groups = GROUP.sub(lambda group: "".join(said(group[2], k) for k in range(int(group[1]))), found[3] or "")
        text += said(groups, turn) + ended
    return text


def sources_of(rows):
    """The texts that the rows of a file build, each once."""
    files, name, found = {}, None, []
    for line in rows.read_text(encoding="latin-1").split("\n"):
        text = line_text(line)
        words = line.split()
        if text is not None:
            if name is not None:
                files[name] += text
        elif words and words[0] == "row":
            files, name = {}, None
        elif words and words[0] == "file":
            name = words[1]
            files[name] = ""
        elif words and not line.startswith("#"):
            name = None
            if len(words) > 2 and words[0] in ("call", "each") and words[1] in ("build", "try") and words[2] in files:
                found.append(files[words[2]])
    return list(dict.fromkeys(found))


def built(program, words, text, folder):
    """What a call answers and tells, and the image that it puts."""
    image = folder / "image"
    image.unlink(missing_ok=True)
    (folder / "source").write_bytes(text.encode("latin-1"))
    run = subprocess.run([program, *words, "image"], cwd=folder, capture_output=True)
    return run.returncode, run.stdout, run.stderr, image.read_bytes() if image.exists() else None


def main():
    before, after = (str(pathlib.Path(word).resolve()) for word in sys.argv[1:3])
    cases = [(path.name, ["build", "source"], path.read_text(encoding="latin-1")) for path in sorted((TOP / "examples").glob("*.alp"))]
    for rows in sorted(ROWS.glob("*.rows")):
        cases += [(f"{rows.name}, source {number}", ["build", "source"], text) for number, text in enumerate(sources_of(rows), 1)]
    cases += [(f"gen {number}", ["gen", str(number)], "") for number in range(0, 400 * 10_737_418, 10_737_418)]
    images = others = 0
    with tempfile.TemporaryDirectory() as name:
        folder = pathlib.Path(name)
        for title, words, text in cases:
            one, two = (built(program, words, text, folder) for program in (before, after))
            images += one[3] is not None
            if one != two:
                others += 1
                print(f"{title}: " + ("another image" if one[3] != two[3] else "another answer"))
    print(f"{len(cases)} calls, {images} images, {others} differ")
    return bool(others)


sys.exit(main())
