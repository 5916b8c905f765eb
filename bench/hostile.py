#!/usr/bin/env python3
"""Hostile use of the built program: each answer has to be one of those that docs/commands.md states.

    python3 bench/hostile.py PATH/clifinl [SCALE]

`rt ci`, or `rt run` in crates/clifinl, builds the program and leaves it in out/. SCALE (1, and at most that) makes the
large texts smaller, and the endless loop shorter. It runs:
- `check` of two texts cut behind each of their tokens: Syntax at the end, and nothing written, but behind a function;
- `inline` by four workers, `test`, and `gen` by two, under limits on memory (`ulimit -v`), each a little further than
  the one before, from what the program cannot begin with to what it needs in all: done with the same bytes, or status 5
  and nothing written;
- a chain of 65,536 functions; the values and the parameters of a block; a chain of 3,400,000 aliases, which has nearly
  64 MiB; one name of 60 MB; brackets 1,000,000 deep;
- `run`: 1,000,000,000 steps of an endless loop, the last byte of the greatest memory and the one behind it, arguments
  at each end of each type and one past it (for i128 at the ends of what is a number at all), a script of 126,008 bytes
  in a command line (which takes words of 131,072 at most), and by `test` one of a megabyte;
- `inline` of a text of exactly 64 MiB, filled by 65,000 functions of about 1,030 bytes, by one, two and four workers on
  as many processors, under limits on memory: done with the same bytes, or status 5 and nothing written.
Texts at the limits and one past them, a sink that is full and a source that fails are tried by `cases/run.py`.

Where the kit is at hand, three runs in crates/clifinl refuse the Nth allocation, for each N from 1 up to the first that
is never asked for:

    rt try --fail-alloc N -- inline < ../../examples/first.clif
    rt try --fail-alloc N -- test < ../../filetests/directives/expectations.clif
    rt try --fail-alloc N -- gen --number 1 --functions 50 --workers 2"""
import os
import pathlib
import re
import sys

from texts import aliases, chain, function
from timing import program_and_scale

sys.path.insert(0, str(pathlib.Path(__file__).resolve().parent.parent / 'cases'))
from program import call

EXAMPLE = '''function %risky(i64) -> i64 {
    ss0 = explicit_slot 8
    fn0 = %host(i64) -> i64

block0(v0: i64):
    stack_store v0, ss0
    <1, ss0> v1 = call fn0(v0)
    return v1
}

function %guarded(i64) -> i64 {
    sig0 = (i64) -> i64
    fn0 = %risky sig0

block0(v0: i64):
    try_call fn0(v0), sig0, block1(ret0, v0), [ tag1: block2(exn0), default: block3 ]

block1(v1: i64, v2: i64):
    v3 = iadd v1, v2
    return v3

block2(v4: i64):
    return v4

block3:
    v5 = iconst.i64 -1
    return v5
}
'''
# A table of one tag under a table of three, which are joined where the call is inlined.
JOINED = '''function %g(i64) -> i64 {
    sig0 = (i64) -> i64
    fn0 = %h sig0
block0(v0: i64):
    try_call fn0(v0), sig0, block1(ret0), [ tag1: block2(exn0) ]
block1(v1: i64):
    return v1
block2(v2: i64):
    return v2
}
function %f(i64) -> i64 {
    sig0 = (i64) -> i64
    fn0 = %g sig0
block0(v0: i64):
    try_call fn0(v0), sig0, block1(ret0), [ tag1: block2(exn0), tag2: block2(exn1), default: block2(exn0) ]
block1(v1: i64):
    return v1
block2(v2: i64):
    return v2
}
'''
CALLED = '''function %f0() -> i32 {
block0:
    v0 = iconst.i32 10
    return v0
}

function %f1() -> i32 {
    fn0 = %f0() -> i32

block0:
    v0 = call fn0()
    return v0
}
'''
TESTED = '''test interpret
function %f(i64) -> i64 {
    fn0 = %h(i64) -> i64
block0(v0: i64):
    v1 = call fn0(v0)
    return v1
}
; host: return(9)
; run: %f(5) == 9
; run: %f(5) == 8
'''
SPIN = 'function %f() {\nblock0:\n    jump block1\nblock1:\n    jump block1\n}\n'
STORE = 'function %f(i64) {\nblock0(v0: i64):\n    v1 = iconst.i8 7\n    store v1, v0\n    return\n}\n'
HOST = '''function %f(i64) {
    fn0 = %h()

block0(v0: i64):
    jump block1(v0)

block1(v1: i64):
    call fn0()
    v2 = iadd_imm v1, -1
    brif v2, block1(v2), block2

block2:
    return
}
'''
# The least and the greatest argument of each type. No number is below -2^63, nor is one 2^64 or above.
ENDS = (('i8', -2**7, 2**8 - 1), ('i16', -2**15, 2**16 - 1), ('i32', -2**31, 2**32 - 1), ('i64', -2**63, 2**64 - 1),
        ('i128', -2**63, 2**64 - 1))
# The words, the text, the status: `test` has one check that fails.
LIMITED = [
    (['inline'], CALLED, 0),
    (['test'], TESTED, 6),
    (['gen', '--number', '1', '--functions', '50', '--workers', '2'], '', 0),
]
TOKEN = re.compile(r'->|%\w+|\w+|[(){}\[\],:=.<>]')
FAULTS = []


def expect(holds, what):
    """Notes and prints what does not hold."""
    if not holds:
        FAULTS.append(what)
        print('FAULT', what)


def cuts(program, whole):
    """`check` of the text cut to nothing, and behind each of its tokens."""
    for end in [0, *(match.end() for match in TOKEN.finditer(whole))]:
        text = whole[:end]
        *lines, last = text.split('\n')
        found = call(program, ['check'], text.encode())
        if text == '' or text.endswith('}'):
            wanted = (0, f'ok {text.count("}")}\n'.encode(), b'')
        else:
            wanted = (1, b'', f'error {len(lines) + 1}:{len(last) + 1} Syntax\n'.encode())
        expect(found == wanted, f'a text cut at {end}: {found}')


def answered(program, name, words, text, kind=None):
    """What is written where there is no fault, else nothing beside the line of a fault of this kind."""
    status, out, err = call(program, words, text.encode())
    if kind is None:
        expect((status, err) == (0, b''), f'{name}: {status} {err!r}')
    else:
        line = re.compile(rb'error (\d+:\d+ )?' + kind.encode() + rb'\n')
        expect(status == 1 and out == b'' and line.fullmatch(err), f'{name}: {status} {err!r}')
    return out


def values(count):
    """A function of one block that defines so many values."""
    return function('%f', ''.join(f'    v{i} = iconst.i8 0\n' for i in range(count)))


def params(count):
    """A function with a block of so many parameters."""
    listed = ', '.join(f'v{i}: i8' for i in range(count))
    return function('%f', f'    return\n\nblock1({listed}):\n')


def large(program, scale):
    """The largest texts of one shape each."""
    answered(program, 'a chain of callers', ['inline'], chain(int(65_536 * scale)))
    answered(program, 'values of a block', ['inline'], values(int(130_000 * scale)))
    answered(program, 'parameters of a block', ['check'], params(int(262_000 * scale)))
    answered(program, 'aliases', ['check'], aliases(int(3_400_000 * scale), 'v{}->v{}\n'))
    answered(program, 'one name', ['check'], function('%' + 'x' * int(60_000_000 * scale)))
    answered(program, 'brackets', ['check'], '[' * int(1_000_000 * scale), 'Syntax')


def ran(program, name, words, text, wanted):
    """A run of the function %f that answers so."""
    found = call(program, ['run', '--entry', '%f', *words], text.encode())
    expect(found == wanted, f'{name}: {found[0]} {found[1][:80]!r} {found[2]!r}')


def runs(program, scale):
    """Runs at their limits, and words that are none."""
    steps = int(1_000_000_000 * scale)
    ran(program, 'an endless loop', ['--steps', str(steps)], SPIN, (0, b'going\n', b''))
    last = b'returned []\nmemory 00fffff0:' + b' 00' * 15 + b' 07\n'
    for at, out in ((16_777_215, last), (16_777_216, b'trapped heap_oob\n')):
        ran(program, f'byte {at}', ['--memory', '16777216', f'--args={at}'], STORE, (0, out, b''))
    for ty, low, high in ENDS:
        text = f'function %f({ty}) {{\nblock0(v0: {ty}):\n    return\n}}\n'
        for number in (low, high):
            ran(program, f'{ty} {number}', [f'--args={number}'], text, (0, b'returned []\n', b''))
        for number in (low - 1, high + 1):
            ran(program, f'{ty} {number}', [f'--args={number}'], text, (1, b'', b'error BadArgs\n'))
    count = 18_000
    ran(program, 'a long script', [f'--args={count}', '--script=' + ','.join(['return'] * count)], HOST,
        (0, b'host %h()\n' * count + b'returned []\n', b''))
    script = ', '.join(['return'] * 131_072)
    found = call(program, ['test'], f'test run\n{HOST}; host: {script}\n; run: %f({len(script) // 8}) == []\n'.encode())
    report = b'pass run %%f line %d\n1 passed, 0 failed, 0 skipped\n' % (HOST.count('\n') + 3)
    expect(found == (0, report, b''), f'a script of a megabyte: {found[0]} {found[1][:80]!r} {found[2]!r}')


def refusals(program):
    """Each run within a little more memory than before, from what the program cannot begin with on."""
    for words, text, wanted in LIMITED:
        whole = call(program, words, text.encode())
        expect(whole[0] == wanted, f'{words[0]}: {whole[0]}')
        answers, begun = set(), False
        for memory in range(1 << 20, 1 << 28, 1 << 14):
            found = call(program, words, text.encode(), memory=memory)
            begun = begun or found[0] in (5, wanted)
            expect(not begun or found in (whole, (5, b'', b'error NoMemory\n')),
                   f'{words[0]} within {memory}: {found[0]} {found[2]!r}')
            answers.add(found[0])
            if found == whole:
                break
        expect(found == whole, f'{words[0]} is never done')
        print(f'{words[0]}: {sorted(answers)}, done within {memory}')


def filling(i):
    """A function of 1,032 bytes with one site."""
    lines = ''.join(f'    v{k + 2} = iadd v{k + 1}, v{k}\n' for k in range(39))
    return (f'function %f{i:05}(i64) -> i64 fast {{\n    fn0 = %g(i64) -> i64 fast\nblock0(v0: i64):\n'
            f'    v1 = call fn0(v0)\n{lines}    return v40\n}}\n\n')


def filled(size):
    """As many functions as a text of this size has room for, and blanks up to its last byte."""
    head = 'function %g(i64) -> i64 {\nblock0(v0: i64):\n    v1 = iadd_imm v0, 1\n    return v1\n}\n\n'
    count = (size - len(head)) // len(filling(0))
    return (head + ''.join(filling(i) for i in range(count))).ljust(size)


def memories(program, scale):
    """A text of 64 MiB by several workers on as many processors, within less and less memory."""
    text = filled(int(67_108_864 * scale))
    whole = answered(program, 'a text of 64 MiB', ['inline'], text)
    everywhere = sorted(os.sched_getaffinity(0))
    for count in (1, 2, 4):
        for memory in (None, 4 << 30, 2 << 30, 1 << 30, 512 << 20, 256 << 20, 128 << 20, 64 << 20):
            status, out, err = call(program, ['inline', '--workers', str(count)], text.encode(), memory=memory,
                                    processors=everywhere[:count])
            done = (status, out, err) == (0, whole, b'')
            refused = memory is not None and (status, out, err) == (5, b'', b'error NoMemory\n')
            expect(done or refused, f'inline on {count} processors within {memory}: {status} {err!r}')
            answer = 'done' if done else 'no memory' if refused else 'neither'
            print(f'inline on {count} processors within {memory}: {answer}')


def main():
    """Runs all, and ends with status 1 where there was a fault."""
    program, scale = program_and_scale(__doc__)
    cuts(program, EXAMPLE)
    cuts(program, JOINED)
    refusals(program)
    large(program, scale)
    runs(program, scale)
    memories(program, scale)
    print(f'{len(FAULTS)} faults')
    sys.exit(1 if FAULTS else 0)


if __name__ == '__main__':
    main()
