"""A case, and how a file has cases."""

import shlex
from typing import NamedTuple

# The statuses with which the whole output is written.
DONE = (0, 6)
# The status of words that are none of a command.
OF_WORDS = 2


class Case(NamedTuple):
    """Where a case stands, with its name where it has one; the words; what is read; the status; and what is written, to
    standard output with status 0 or 6 and to standard error with any other. With status 2 an empty text stands for any
    that is not empty."""

    name: str
    words: list
    text: bytes
    status: int
    written: bytes

    def is_done(self):
        """Whether the whole output is written."""
        return self.status in DONE

    def goes_so(self, found):
        """Whether this status, standard output and standard error are those of the case."""
        status, out, err = found
        if self.status == OF_WORDS and not self.written:
            return status == OF_WORDS and not out and err != b""
        return found == self.answer()

    def answer(self):
        """The status, standard output and standard error that the case has."""
        return (self.status, self.written, b"") if self.is_done() else (self.status, b"", self.written)


def whole(lines):
    """The text of these lines of a file."""
    text = b"".join(line + b"\n" for line in lines)
    return text[:-2] if text.endswith(b"\\\n") else text


def read_head(line):
    """The words and the name of a line `=== WORDS # NAME`."""
    head = line.decode().removeprefix("===")
    name = head.partition(" # ")[2].strip()
    return shlex.split(head, comments=True), name


def read_cases(path):
    """The cases of a file."""
    parts, lines_of = [], None
    for number, line in enumerate(path.read_bytes().split(b"\n")[:-1], 1):
        if line == b"===" or line.startswith(b"=== "):
            words, name = read_head(line)
            place = f"{path.name}:{number}"
            text, written = [], []
            parts.append([f"{place} ({name})" if name else place, words, text, None, written])
            lines_of = text
        elif line.startswith(b"--- "):
            parts[-1][3] = int(line[4:])
            lines_of = written
        elif lines_of is not None:
            lines_of.append(line)
    return [Case(name, words, whole(text), status, whole(written)) for name, words, text, status, written in parts]


def by_other_commands(case):
    """A text that `check` refuses, by the other commands that refuse it with the same line."""
    if case.words != ["check"] or case.status != 1:
        return []
    others = (["print"], ["inline"], ["run", "--entry=%f"])
    return [case._replace(name=f"{case.name} by {words[0]}", words=words) for words in others]
