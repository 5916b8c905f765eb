"""Cases whose texts are too long or too many for a file, or whose words are no text."""

import pathlib
import re

from case import Case

EXAMPLES = pathlib.Path(__file__).resolve().parent.parent / "examples"
# A token, or a comment, which is none.
TOKEN = re.compile(rb";[^\n]*|->|-?[\w.%]+|\S")


def nops(count):
    """A function of so many lines and a `return`."""
    return b"function %f() {\nblock0:\n" + b"    nop\n" * count + b"    return\n}\n"


def returning(count):
    """So many functions of four lines, which return at once."""
    return b"".join(b"function %%f%d() {\nblock0:\n    return\n}\n" % number for number in range(count))


def limits():
    """The largest function, the most functions and the longest text that there may be, and one more of each."""
    too_large = b"error %d:10 TooLarge\n"
    return [
        Case("a function of size 262,144", ["check"], nops(262_142), 0, b"ok 1\n"),
        Case("a function of size 262,145", ["check"], nops(262_143), 1, too_large % 1),
        Case("65,536 functions", ["check"], returning(65_536), 0, b"ok 65536\n"),
        Case("65,537 functions", ["check"], returning(65_537), 1, too_large % (4 * 65_536 + 1)),
        Case("a chain of 65,536 functions", ["check"], chain(65_536), 0, b"ok 65536\n"),
        Case("a chain of 65,537 functions", ["check"], chain(65_537), 1, too_large % (5 + 6 * 65_535 + 1)),
        Case("a text of 67,108,864 bytes", ["check"], b" " * 67_108_864, 0, b"ok 0\n"),
        Case("a text of 67,108,865 bytes", ["check"], b" " * 67_108_865, 1, b"error TooLong\n"),
        Case("a text of 67,108,865 bytes", ["test"], b" " * 67_108_865, 1, b"error TooLong\n"),
    ]


def stretches():
    """Functions with so many comments that the text is read and printed in stretches, by several workers."""
    read = b"function u0:%d(i64) -> i64 fast {\n%sblock0(v5: i64):\n v1 = iadd v5, v5\n return v1\n}\n"
    printed = b"function u0:%d(i64) -> i64 fast {\nblock0(v0: i64):\n    v1 = iadd v0, v0\n    return v1\n}\n"
    text = b"".join(read % (number, b"; a comment\n" * 150) for number in range(100))
    written = b"\n".join(printed % number for number in range(100))
    return [Case("a hundred functions in stretches", ["print"], text, 0, written)]


def chain(count):
    """So many functions, each but the first of which calls the one before. Workers draw several of them at a time."""
    callers = (
        b"function %%f%d(i64) -> i64 fast {\n    fn0 = colocated %%f%d(i64) -> i64 fast\n"
        b"block0(v0: i64):\n    v1 = call fn0(v0)\n    return v1\n}\n" % (number, number - 1)
        for number in range(1, count)
    )
    first = b"function %f0(i64) -> i64 fast {\nblock0(v0: i64):\n    v1 = iadd v0, v0\n    return v1\n}\n"
    return first + b"".join(callers)


def not_utf8():
    """Words with a byte that stands in no UTF-8, which Python writes as a surrogate."""
    line = b"error: invalid UTF-8 was detected in word %d\n"
    return [
        Case("a command that is not UTF-8", ["\udcff"], b"", 2, line % 1),
        Case("an option that is not UTF-8", ["check", "\udcff"], b"", 2, line % 2),
        Case("a value that is not UTF-8", ["run", "--entry=%f", "--args=\udcff"], b"", 2, line % 3),
    ]


def cut_at(text, end):
    """A module that is cut behind a token: accepted where a function ends there, else without the next token."""
    head = text[:end]
    # A function ends with the one brace that begins a line.
    if head.endswith(b"\n}"):
        return Case(f"cut at byte {end}", ["check"], head, 0, b"ok %d\n" % head.count(b"\n}"))
    line, column = head.count(b"\n") + 1, end - head.rfind(b"\n")
    return Case(f"cut at byte {end}", ["check"], head, 1, b"error %d:%d Syntax\n" % (line, column))


def prefixes():
    """Two accepted modules, each cut behind each of its tokens."""
    texts = [(EXAMPLES / name).read_bytes() for name in ("calls.clif", "one_block.clif")]
    return [cut_at(text, it.end()) for text in texts for it in TOKEN.finditer(text) if not it.group().startswith(b";")]
