#!/usr/bin/env python3
"""Tries the edits crates/NAME/refused/*.edit, which the language itself must refuse, before any proof.

usage: refused.py     at the top of the repository

An edit has lines `file:`, `old:` and `new:`, as those of must-fail/, and a line `says:` with the name of the error. Each is
made in a copy of the repository, and `rt check` must fail there with that error. Otherwise the status is 1.
"""

import glob
import os
import shutil
import subprocess
import sys
import tempfile


def refused(edit, top):
    crate = os.path.dirname(os.path.dirname(edit))
    with open(edit, encoding="utf-8") as f:
        lines = dict(line.split(": ", 1) for line in f.read().splitlines() if line)
    path = os.path.join(top, crate, lines["file"])
    with open(path, encoding="utf-8") as f:
        text = f.read()
    if text.count(lines["old"]) != 1:
        return f"BAD EDIT: the old text does not stand once in {lines['file']}"
    with open(path, "w", encoding="utf-8") as f:
        f.write(text.replace(lines["old"], lines["new"]))
    run = subprocess.run(["rt", "check"], cwd=os.path.join(top, crate), capture_output=True, text=True)
    with open(path, "w", encoding="utf-8") as f:
        f.write(text)
    said = [line for line in (run.stdout + run.stderr).splitlines() if f"error[{lines['says']}]" in line]
    return None if run.returncode and said else f"NOT REFUSED by {lines['says']}"


def main():
    edits = sorted(glob.glob("crates/*/refused/*.edit"))
    bad = 0
    with tempfile.TemporaryDirectory() as top:
        shutil.copy("crates.txt", top)
        shutil.copytree("crates", os.path.join(top, "crates"), ignore=shutil.ignore_patterns("out"))
        for edit in edits:
            why = refused(edit, top)
            bad += why is not None
            print(f"{edit}: {why or 'refused, as it must be'}")
    if not edits:
        print("there is no edit in crates/*/refused")
    if bad or not edits:
        sys.exit(1)


if __name__ == "__main__":
    main()
