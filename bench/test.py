#!/usr/bin/env python3
"""Speed and memory of `test` on a large file, and how it grows.

    python3 bench/test.py PATH/clifinl [SCALE]

`rt ci`, or `rt run` in crates/clifinl, builds the program and leaves it in out/. Five files of 65,000 functions and
some 60 MB each; SCALE (1, and at most that) makes them smaller. In four of them each function has one directive: a run,
a line of the canonical text, a line after the pass, or the pass's whole output. The fifth is for `test verifier`, and
its functions have no fault and no directive. Each run stands between two of the file's half: twice the file should take
at most 2.2 times the time, by the processor's clock."""
import os
import tempfile

from timing import program_and_scale, run, scaled, twice

REPEATS = 3

LINES = ''.join(f'    v{i + 1} = iadd_imm v{i}, {i}\n' for i in range(33))

# What is checked, the header, and a function's directive.
KINDS = [
    ('runs', 'test run\n', '; run: %f{0}(5) == 533\n'),
    ('lines of the canonical text', 'test cat\n', '; check: return v33\n'),
    ('lines after the pass', 'test inline\n', '; check: return v33\n'),
    ('output of the pass, all of it', 'test inline precise-output\n', '; (no functions inlined into %f{0})\n'),
    ('functions by themselves', 'test verifier\n', ''),
]


def text(header, directive, count):
    """So many functions, each with its directive."""
    functions = (f'function %f{i}(i64) -> i64 {{\nblock0(v0: i64):\n{LINES}    return v33\n}}\n' + directive.format(i)
                 for i in range(count))
    return header + ''.join(functions)


def main():
    """Measures each file and its half."""
    program, scale = program_and_scale(__doc__)
    count = scaled(65_000, scale)
    with tempfile.TemporaryDirectory() as folder:
        path = os.path.join(folder, 'text')
        for name, header, directive in KINDS:
            half, whole = (text(header, directive, number) for number in (count // 2, count))
            took, times = twice([program, 'test'], half, whole, path, REPEATS)
            memory = run([program, 'test'], path).memory
            print('%-30s %.1f MB, %.2f s of the processor, %.2f times its half, %.1f bytes a byte of text' % (
                name, len(whole) / 1e6, took, times, memory / len(whole)))


if __name__ == '__main__':
    main()
