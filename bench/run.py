#!/usr/bin/env python3
"""Steps a second of `run`, and its memory at a deep recursion.

    python3 bench/run.py PATH/clifinl [SCALE]

`rt ci`, or `rt run` in crates/clifinl, builds the program and leaves it in out/. Each loop is run once and twice as
long; SCALE (1, and at most that) makes it shorter. The time is the processor's, the median of five runs, less that of a
run of one turn. Wanted: 25 million steps a second of arithmetic and 10 million of the others, a million frames within
250 MB, twice the steps in at most 2.1 times the time."""
import os
import tempfile

from timing import medians, program_and_scale, scaled, write

REPEATS = 5

TEXT = '''function %arithmetic(i64) -> i64 {
block0(v0: i64):
    v1 = iconst.i64 0
    jump block1(v0, v1)

block1(v2: i64, v3: i64):
    v4 = imul_imm v3, 3
    v5 = iadd v4, v2
    v6 = bxor v5, v3
    v7 = iadd_imm v2, -1
    brif v7, block1(v7, v6), block2

block2:
    return v6
}

function %calls(i64) -> i64 {
    fn0 = %calls(i64) -> i64

block0(v0: i64):
    brif v0, block1, block2

block1:
    v1 = iadd_imm v0, -1
    v2 = call fn0(v1)
    v3 = iadd_imm v2, 1
    return v3

block2:
    return v0
}

function %memory(i64) {
block0(v0: i64):
    jump block1(v0)

block1(v1: i64):
    v2 = band_imm v1, 4088
    v3 = load.i64 v2
    v4 = iadd v3, v1
    store v4, v2
    v5 = iadd_imm v1, -1
    brif v5, block1(v5), block2

block2:
    return
}

function %tables(i64) {
block0(v0: i64):
    jump block1(v0)

block1(v1: i64):
    v2 = ireduce.i32 v1
    v3 = band_imm v2, 3
    v4 = iadd_imm v1, -1
    br_table v3, block2(v4), [block2(v4), block3(v4), block2(v4)]

block2(v5: i64):
    brif v5, block1(v5), block4

block3(v6: i64):
    jump block2(v6)

block4:
    return
}
'''

# The entry, how many turns its loop takes, and about how many steps a turn has.
LOOPS = [('arithmetic', 4_000_000, 5), ('calls', 1_000_000, 5), ('memory', 2_000_000, 6), ('tables', 2_000_000, 5.25)]


def words_of(program, entry, turns):
    """The words that run so many turns of a loop."""
    return [program, 'run', '--entry', '%' + entry, '--args', str(turns), '--steps', '1000000000']


def main():
    """Measures each loop; the runs of one turn, of all, and of twice as many take turns."""
    program, scale = program_and_scale(__doc__)
    with tempfile.TemporaryDirectory() as folder:
        path = os.path.join(folder, 'text')
        write(path, TEXT)
        for entry, number, steps in LOOPS:
            turns = scaled(number, scale)
            jobs = {count: (words_of(program, entry, count), path) for count in (1, turns, 2 * turns)}
            idle, once, double = medians(jobs, REPEATS).values()
            seconds = max(once.processor - idle.processor, 1e-3)
            print('%-10s %5.1f million steps a second, twice %.2f times, %4.0f MB' % (
                entry, turns * steps / seconds / 1e6, (double.processor - idle.processor) / seconds,
                once.memory / 1e6))


if __name__ == '__main__':
    main()
