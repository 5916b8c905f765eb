#!/usr/bin/env python3
"""Speed and memory of `check` and `print`, beside `wc -w` on the same text in the same run.

    python3 bench/check.py PATH/clifinl [SCALE]

`rt ci`, or `rt run` in crates/clifinl, builds the program and leaves it in out/. SCALE (1, and at most that) makes all
texts smaller. First 14 MB of 65,000 small functions in chains of calls and 60 MB of large bodies: the median of five
runs by the clock, on all processors and on one of them, as a multiple of `wc -w` on the same, since processors differ,
and the most memory that a run held, a byte of text. Then texts of one shape each, each run between two of its half:
twice the text should take at most 2.2 times the time, by the processor's clock."""
import os
import tempfile

from small_functions import clif_functions
from texts import aliases, bodies, body, function, jumps
from timing import medians, program_and_scale, scaled, twice, write

REPEATS = 5
ONE = ', one processor'


def functions(count):
    """So many functions that return at once."""
    return ''.join(function(f'%f{i}') for i in range(count))


def far_functions(count):
    """The same, with names of two numbers that are far apart."""
    return ''.join(function(f'u{i % 7}:{131_000 * (i // 7)}') for i in range(count))


def far_values(count):
    """Values whose numbers are far apart, up to the greatest that 131,000 of them may have."""
    return function('%f', ''.join(f'    v{32_700 * i} = iconst.i8 0\n' for i in range(count)))


def names(count):
    """Callee declarations of different names."""
    return function('%f', '', '    sig0 = () fast\n' + ''.join(f'    fn{i} = %name{i} sig0\n' for i in range(count)))


# Of each shape the number of the half, and the text.
SHAPES = {
    'functions': (32_000, functions),
    'lines of a function': (25_000, lambda n: body(0, n)),
    'blocks of a function': (40_000, lambda n: function('%f', jumps(n))),
    'aliases in a chain': (1_000_000, aliases),
    'values with numbers far apart': (65_000, far_values),
    'names of callees': (120_000, names),
    'names of functions, far apart': (32_000, far_functions),
}


def measure_text(program, name, text, path):
    """`check` and `print` of a text, on all processors and on one, beside `wc -w`."""
    write(path, text)
    jobs = {}
    for job, words in (('wc -w', ['wc', '-w']), ('check', [program, 'check']), ('print', [program, 'print'])):
        jobs[job] = words, path
        jobs[job + ONE] = ['taskset', '-c', '0', *words], path
    found = medians(jobs, REPEATS)
    words = {ending: found.pop('wc -w' + ending).clock for ending in ('', ONE)}
    print('%s, %.1f MB: wc -w %.3f s, %.3f s on one processor' % (name, len(text) / 1e6, *words.values()))
    for job, (clock, _, memory) in found.items():
        print('  %-22s %.3f s, %.2f times wc -w, %.1f bytes a byte of text'
              % (job, clock, clock / words[ONE if job.endswith(ONE) else ''], memory / len(text)))


def main():
    """Measures the two texts, then the shapes."""
    program, scale = program_and_scale(__doc__)
    with tempfile.TemporaryDirectory() as folder:
        path = os.path.join(folder, 'text')
        small = clif_functions(14e6 * scale, 'chained')
        measure_text(program, f'{len(small)} small functions', ''.join(small), path)
        measure_text(program, 'large bodies', bodies(60e6 * scale), path)
        for name, (number, make) in SHAPES.items():
            count = scaled(number, scale)
            half, whole = make(count), make(2 * count)
            found = {it: twice([program, it], half, whole, path, REPEATS) for it in ('check', 'print')}
            print('%d %s:' % (2 * count, name), ', '.join('%s %.3f s, %.2f times its half' % (it, *times)
                                                          for it, times in found.items()))


if __name__ == '__main__':
    main()
