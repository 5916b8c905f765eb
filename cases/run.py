#!/usr/bin/env python3
"""Runs the built program on the cases of this folder, and names each that goes otherwise.

    cases/run.py PROGRAM [FILE ...]

A file has any number of cases. A case begins with a line `=== WORDS`, the words of the command line as a shell reads
them; behind them its name may stand, as in `=== check  # a number of 2^64`. Behind the line stands what is read from
standard input, then a line `--- STATUS`, and behind that what is written to standard output or to standard error: to
the first with status 0 or 6, to the second with any other, and nothing to the other one. Where a text does not end with
a line break, its last line ends with a backslash, which does not belong to it. With status 2, words that are none of a
command, nothing behind the status stands for any text but the empty one.

A text that `check` refuses is also read by `print`, `inline` and `run`, which have to refuse it with the same line.

With files it runs those. Without, it runs all of this folder and those of `made.py`; then `inline` of a chain of calls
and `gen`, each by several numbers of workers, who have to write the same; and the first case of each command that is
done, once for each number of bytes below its output's length with a sink that takes no more, and once with a source
that fails. The status is 1 where something goes otherwise, and 2 where no program is named. A run without an end within
ten minutes is one that goes otherwise.
"""

import pathlib
import shlex
import sys

import made
from case import by_other_commands, read_cases
from program import call, call_without_source

HERE = pathlib.Path(__file__).resolve().parent
# The commands that read no text.
UNREADING = ("gen",)


class Trial:
    """What is tried of a program, and how often it went otherwise."""

    def __init__(self, program):
        self.program = program
        self.count = self.missed = 0

    def expect(self, goes_so, found, wanted, name, words):
        """Counts a run, and names it where it went otherwise."""
        self.count += 1
        if not goes_so:
            self.missed += 1
            shown = [(status, out[-2000:], err[-2000:]) for status, out, err in (wanted, found)]
            shown_words = shlex.join(words).encode(errors="backslashreplace").decode()
            print(f"{name}: {shown_words}\n  wanted {shown[0]}\n  found  {shown[1]}")

    def expect_same(self, found, wanted, name, words):
        """Counts a run, and names it where its status or what it wrote is another."""
        self.expect(found == wanted, found, wanted, name, words)

    def run(self, case):
        """A case as it stands."""
        found = call(self.program, case.words, case.text)
        self.expect(case.goes_so(found), found, case.answer(), case.name, case.words)

    def run_by_workers(self, words, text):
        """The same by several numbers of workers."""
        alone = call(self.program, [*words, "--workers=1"], text)
        self.expect_same((alone[0], b"", alone[2]), (0, b"", b""), "one worker", words)
        for workers in (2, 3, 8, 64):
            found = call(self.program, [*words, f"--workers={workers}"], text)
            self.expect_same(found, alone, f"{workers} workers", words)

    def run_failing(self, case):
        """A case that is done, with less room in the sink, and with a source that fails."""
        for room in range(len(case.written)):
            found = call(self.program, case.words, case.text, room=room)
            wanted = (4, case.written[:room], b"error WriteFault\n")
            self.expect_same(found, wanted, f"{case.name} with room for {room}", case.words)
        found = call_without_source(self.program, case.words)
        wanted = case.answer() if case.words[0] in UNREADING else (3, b"", b"error ReadFault\n")
        self.expect_same(found, wanted, f"{case.name} of a folder", case.words)


def main():
    """Tries what the words of the command line name."""
    if len(sys.argv) < 2:
        print(__doc__, file=sys.stderr)
        sys.exit(2)
    program, *files = sys.argv[1:]
    trial = Trial(program)
    paths = [pathlib.Path(it) for it in files] or sorted(HERE.glob("*.txt"))
    cases = [case for path in paths for case in read_cases(path)]
    if not files:
        cases += made.limits() + made.stretches() + made.not_utf8() + made.prefixes()
    for case in cases:
        for one in (case, *by_other_commands(case)):
            trial.run(one)
    if not files:
        trial.run_by_workers(["inline"], made.chain(600))
        trial.run_by_workers(["gen", "--number=1", "--functions=600"], b"")
        done = {case.words[0]: case for case in reversed(cases) if case.is_done() and case.written}
        for case in done.values():
            trial.run_failing(case)
    print(f"cases: {trial.count - trial.missed} runs go as they are to, {trial.missed} do not")
    sys.exit(trial.missed > 0)


if __name__ == "__main__":
    main()
