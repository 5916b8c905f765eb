#!/usr/bin/env python3
"""Tries the must-fail edits of must-fail/, which the gate leaves out for its time.

    bench/must_fail.py [CRATE ...]

Each crate named, or each that has a folder in must-fail/, is tried by `rt ci` in a copy of the checkout, with these
edits beside its own. What the gate has proved on this machine is not proved again; an edit takes some half a minute,
and the first of a crate as long as the crate's proof. The lines are those of `rt ci`; the status is 0 where it proved
every crate and refused every edit.
"""

import pathlib
import shutil
import subprocess
import sys
import tempfile

ROOT = pathlib.Path(__file__).resolve().parent.parent
EDITS = ROOT / "must-fail"


def crates_named(words):
    """The crates to try, in the order given; a word that has no folder ends the program."""
    known = sorted(it.name for it in EDITS.iterdir() if it.is_dir())
    for word in words:
        if word not in known:
            sys.exit(f"must-fail/ has no folder {word}; it has {', '.join(known)}")
    return words or known


def copy_with_edits(to, crates):
    """Copies what git knows of the checkout, and puts the edits of these crates where `rt ci` looks for them."""
    listed = subprocess.run(["git", "ls-files", "-z"], cwd=ROOT, check=True, stdout=subprocess.PIPE, text=True).stdout
    for name in filter(None, listed.split("\0")):
        place = to / name
        place.parent.mkdir(parents=True, exist_ok=True)
        shutil.copy2(ROOT / name, place)
    for crate in crates:
        folder = to / "crates" / crate / "must-fail"
        folder.mkdir(exist_ok=True)
        for edit in (EDITS / crate).glob("*.edit"):
            shutil.copy2(edit, folder)


def main():
    """Tries the edits of the crates named, and ends with the status of `rt ci`."""
    crates = crates_named(sys.argv[1:])
    with tempfile.TemporaryDirectory(prefix="clifinl-must-fail-") as room:
        copy = pathlib.Path(room)
        copy_with_edits(copy, crates)
        sys.exit(subprocess.run(["rt", "ci", *crates], cwd=copy).returncode)


if __name__ == "__main__":
    main()
