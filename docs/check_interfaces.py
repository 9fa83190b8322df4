#!/usr/bin/env python3
"""Shows that a crate's proofs reach another crate's by its interface alone: whoever cites them, also through a crate that passes them on,
names its module Interface.
usage: docs/check_interfaces.py"""
import glob
import os
import re
import sys

ROOT = os.path.join(os.path.dirname(os.path.abspath(__file__)), "..", "crates")
CITES = re.compile(r"^(?:pub )?use Rattle\.(\w+)\.proofs\.([\w.]+)", re.M)

own = set(os.listdir(ROOT))
found = []
cited = 0
for path in sorted(glob.glob(os.path.join(ROOT, "*", "proofs", "**", "*.antt"), recursive=True)):
    crate = os.path.relpath(path, ROOT).split(os.sep)[0]
    # In its list of modules a crate passes lower ones on.
    if os.path.basename(path) == "Lib.antt":
        continue
    with open(path) as file:
        for below, words in CITES.findall(file.read()):
            if below in own and below != crate:
                cited += 1
                if "Interface" not in words.split("."):
                    found.append("%s cites %s.proofs.%s" % (os.path.relpath(path, ROOT), below, words))
print("\n".join(found + ["%d citations of other crates' proofs, %d past an interface" % (cited, len(found))]))
sys.exit(bool(found))
