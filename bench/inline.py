#!/usr/bin/env python3
"""Speed and memory of `inline`, beside `wc -w` on the same text in the same run.

    python3 bench/inline.py PATH/clifinl [SCALE]

`rt ci`, or `rt run` in crates/clifinl, builds the program and leaves it in out/. SCALE (1, and at most that) makes all
texts smaller. First three texts of 14 MB, of about 65,000 small functions each: in chains of calls, and the same with
fans and `try_call`s, of which about twice as much is written, and one where three of eight call a function of the
module, of which a third more is written. Then 60 MB of large bodies. With one, two and four workers: the median of five
runs by the clock, as a multiple of `wc -w`, how much is written, and the most memory that a run held, a byte of input
and output together. Beside the second text, where it is installed, LLVM's `opt` inlines the same functions, read and
written as LLVM IR, by its own policy. Then modules of one shape each and their halves, with one worker, each run
between two of the half: twice the sites should take at most 2.2 times the time, by the processor's clock.

A function has at most 262,144 parts. A site of the least callee has four of them once it is inlined, so of 40,000 sites
before 200,000 lines, which have 240,004 parts, only the first 7,380 are inlined. Nor can 1,000 calls be inlined under a
table of 1,000 entries. So further shapes have one of the two numbers, and the other as large as it can be."""
import os
import shutil
import subprocess
import tempfile

from small_functions import clif_functions, llvm_functions
from texts import bodies, caller, chain, function, jumps
from timing import medians, program_and_scale, scaled, twice, write

REPEATS = 5
WIDEST = ['--callee-size', '262144', '--caller-size', '262144']

CALL = '    call fn0()\n'
SMALL = function('%g')


def caller_of_g(lines):
    """The function of these lines in which fn0 is %g."""
    return caller('%f', '%g', lines)


def sites_in_a_block(count):
    """Sites, one behind the other."""
    return SMALL + caller_of_g(CALL * count)


def sites_in_blocks(count):
    """Sites, each in a block of its own."""
    return SMALL + caller_of_g(''.join(f'{CALL}    jump block{i + 1}\n\nblock{i + 1}:\n' for i in range(count)))


def sites_of_three_blocks(count):
    """Sites whose callee has three blocks."""
    return function('%g', jumps(2)) + caller_of_g(CALL * count)


def try_sites(count):
    """Sites that are `try_call`s, with no handlers."""
    lines = (f'    try_call fn0(), sig0, block{i + 1}, []\n\nblock{i + 1}:\n' for i in range(count))
    return SMALL + caller_of_g(''.join(lines))


def sites_before_lines(sites, lines):
    """Sites, and behind them lines that do nothing."""
    return SMALL + caller_of_g(CALL * sites + '    nop\n' * lines)


def sites_before_five_lines_each(sites):
    """Five lines behind for each site."""
    return sites_before_lines(sites, sites * 5)


def few_sites_before_lines(lines):
    """Three sites for forty lines: as many as have room before 200,000 lines."""
    return sites_before_lines(lines * 3 // 40, lines)


def many_sites_before_lines(sites):
    """Five lines for two sites: as many as have room behind 40,000 sites."""
    return sites_before_lines(sites, sites * 5 // 2)


def callees(count):
    """Sites of one caller, each of a callee of its own."""
    small = ''.join(function(f'%g{i}') for i in range(count))
    declared = ''.join(f'    fn{i} = %g{i} sig0\n' for i in range(count))
    calls = ''.join(f'    call fn{i}()\n' for i in range(count))
    return small + function('%f', calls, '    sig0 = () fast\n' + declared)


def blocks_of_a_callee(count):
    """One site, of a callee of many blocks."""
    return function('%g', jumps(count)) + caller_of_g(CALL)


def refused_sites(count):
    """Calls of a large body that the callee size refuses, or, where that is wide, the caller size."""
    return function('%g', '    nop\n' * 60_000) + caller_of_g(CALL * count)


def calls_under_a_table(count):
    """One site, under a table of 1,000 entries, of a callee with calls, which get that table."""
    table = ', '.join(f'tag{i}: block2' for i in range(1_000))
    return (caller('%g', '%h', CALL * count)
            + caller_of_g(f'    try_call fn0(), sig0, block1, [{table}]\n\nblock1:\n    return\n\nblock2:\n'))


# The number, what it counts, the text, the options; the half of the number is measured beside.
SHAPES = [
    (40_000, 'sites in one block', sites_in_a_block, WIDEST),
    (32_000, 'sites in one block', sites_in_a_block, WIDEST),
    (32_000, 'sites in one block, of a callee of three blocks', sites_of_three_blocks, WIDEST),
    (32_000, 'sites that are `try_call`s', try_sites, WIDEST),
    (40_000, 'blocks with a site each', sites_in_blocks, WIDEST),
    (40_000, 'sites, 5 lines for each behind', sites_before_five_lines_each, WIDEST),
    (200_000, 'lines, 3 sites for 40 of them before', few_sites_before_lines, WIDEST),
    (40_000, 'sites, 5 lines for 2 of them behind', many_sites_before_lines, WIDEST),
    (20_000, 'different callees of one caller', callees, WIDEST),
    (60_000, 'blocks of a callee', blocks_of_a_callee, WIDEST),
    (250, 'calls under a table of 1,000 entries', calls_under_a_table, WIDEST),
    (40_000, 'sites of a large body that is refused', refused_sites, []),
    (40_000, 'sites of a large body that the caller size refuses', refused_sites,
     ['--callee-size', '262144', '--caller-size', '50000']),
    (65_536, 'functions in a chain', chain, []),
]


def written(words, path):
    """How many bytes these words write."""
    with open(path, 'rb') as text:
        return len(subprocess.run(words, stdin=text, stdout=subprocess.PIPE, check=True).stdout)


def opt_jobs(text, count, path):
    """`opt` over so many functions of the text, where it is installed."""
    opt = shutil.which('opt')
    if opt is None:
        print('`opt` is not installed')
        return {}
    write(path, ''.join(llvm_functions(count, text)))
    return {'opt': ([opt, '-S', '-passes=inline', '-o', '-', path], path)}


def measure_text(program, name, text, path, others):
    """`inline` of a text, and the other jobs beside it."""
    write(path, text)
    jobs = {'wc -w': (['wc', '-w'], path)}
    for workers in (1, 2, 4):
        jobs[f'{workers} workers'] = [program, 'inline', '--workers', str(workers)], path
    both = len(text) + written(*jobs['1 workers'])
    found = medians({**jobs, **others}, REPEATS)
    words = found.pop('wc -w').clock
    print('%s, %.1f MB, %.1f MB are written: wc -w %.3f s' % (name, len(text) / 1e6, (both - len(text)) / 1e6, words))
    for job, (clock, processor, memory) in found.items():
        print('  %-10s %.3f s, %.2f times wc -w, %.3f s of the processors, %.1f bytes a byte of both' % (
            job, clock, clock / words, processor, memory / both))


# The small functions: the text, and what it is called.
TEXTS = [
    ('chained', 'in chains'),
    ('mixed', 'with fans and `try_call`s'),
    ('sparse', 'three of eight with a callee of the module'),
]


def measure_texts(program, scale, path):
    """`inline` of the small functions and of the large bodies."""
    for text, name in TEXTS:
        functions = clif_functions(14e6 * scale, text)
        others = opt_jobs(text, len(functions), path + '.ll') if text == 'mixed' else {}
        measure_text(program, f'{len(functions)} small functions, {name}', ''.join(functions), path, others)
    measure_text(program, 'large bodies', bodies(60e6 * scale), path, {})


def measure_shapes(program, scale, path):
    """`inline` of the shapes and of their halves, with one worker."""
    for number, name, make, options in SHAPES:
        count = scaled(number, scale)
        words = [program, 'inline', '--workers', '1', *options]
        found = twice(words, make(count // 2), make(count), path, REPEATS)
        print('%d %s: %.3f s, %.2f times its half' % (count, name, *found))


def main():
    """Measures the texts, then the shapes."""
    program, scale = program_and_scale(__doc__)
    with tempfile.TemporaryDirectory() as folder:
        path = os.path.join(folder, 'text')
        measure_texts(program, scale, path)
        measure_shapes(program, scale, path)


if __name__ == '__main__':
    main()
