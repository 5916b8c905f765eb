#!/usr/bin/env python3
"""Speed and memory of reading: the tokens of a text, and its raw module, beside `wc -w` on the same text.

    python3 bench/reading.py PATH/read_counts [SCALE]

`rt run` in crates/read_counts builds the program and leaves it in out/. It reads standard input and stops behind the
bytes, the tokens, or the raw module: `raw` is read from the list of the tokens, `text` from the bytes, each by as many
workers as are asked for. A step's time is the median of nine runs, less that of reading the bytes alone; that of the
raw module includes its tokens. With one worker it is the processor's time (user and system), since a machine is seldom
idle, with several it is the clock's, as is that of the bytes then. Memory is the most that a run held, a byte of text.

First a text of about 60 MB whose bodies have many forms of lines. Then texts of one shape each, once and twice as
large: twice the text should take at most 2.2 times the time. SCALE (1, and at most that) makes all texts smaller."""
import os
import random
import tempfile

from timing import medians, program_and_scale, scaled, write

REPEATS = 9

# Each step's words for the program, and whether several workers read.
STEPS = {
    'bytes': (['bytes'], False),
    'tokens': (['tokens'], False),
    'raw, four workers': (['raw', '4'], True),
    'raw, one worker': (['raw', '1'], False),
    'text, four workers': (['text', '4'], True),
}
SHOWN = [step for step in STEPS if step != 'bytes']

BINARY = 'iadd isub imul band bor bxor smin umax udiv srem ishl rotr'.split()
UNARY = 'ineg bnot iabs clz popcnt bswap'.split()
TYPES = 'i8 i16 i32 i64'.split()
CONDITIONS = 'eq ne slt sge ult ule'.split()


def line_of(chance, value):
    """A line that defines `value`, or has no result."""
    a, b, c = (chance.randrange(max(value, 1)) for _ in range(3))
    form = chance.randrange(20)
    if form < 4:
        return 'v%d = %s v%d, v%d' % (value, chance.choice(BINARY), a, b)
    if form == 4:
        return 'v%d = %s v%d' % (value, chance.choice(UNARY), a)
    if form < 7:
        return 'v%d = iconst.%s %d' % (value, chance.choice(TYPES), chance.randint(-1000, 1000000))
    if form < 9:
        return 'v%d = iadd_imm.i64 v%d, %d' % (value, a, chance.randint(-100, 100))
    if form == 9:
        return 'v%d = icmp %s v%d, v%d' % (value, chance.choice(CONDITIONS), a, b)
    if form == 10:
        return 'v%d = select v%d, v%d, v%d' % (value, a, b, c)
    if form == 11:
        return 'v%d = uextend.i64 v%d' % (value, a)
    if form == 12:
        return 'v%d = load.i64 notrap aligned v%d+%d' % (value, a, 8 * chance.randrange(9))
    if form == 13:
        return 'store notrap v%d, v%d-8' % (a, b)
    if form == 14:
        return 'v%d = stack_load.i32 ss0+4' % value
    if form == 15:
        return '@%04x v%d -> v%d' % (chance.randrange(65536), value, a)
    if form == 16:
        return '<%d, ss0> v%d = call fn0(v%d, v%d)' % (chance.randrange(9), value, a, b)
    if form == 17:
        return 'v%d = call_indirect sig0, v%d(v%d)' % (value, a, b)
    if form == 18:
        return 'trapz v%d, user%d' % (a, chance.randrange(9))
    return 'nop ; a comment on this line'


def end_of(chance, value, blocks):
    """The last line of a block."""
    a, b, c = (chance.randrange(max(value, 1)) for _ in range(3))
    x, y = chance.randrange(blocks), chance.randrange(blocks)
    return chance.choice([
        'return v%d, v%d' % (a, b),
        'jump block%d(v%d)' % (x, a),
        'brif v%d, block%d(v%d), block%d' % (a, x, b, y),
        'br_table v%d, block%d, [block%d, block%d(v%d)]' % (a, x, y, x, b),
        'try_call fn0(v%d), sig0, block%d(ret0, v%d), [ tag1: block%d(exn0), default: block%d ]' % (a, x, b, y, x),
        'return_call fn0(v%d)' % a,
        'trap int_ovf',
    ])


def mixed(size):
    """Functions of 1 to 9 blocks, whose bodies have many forms of lines."""
    chance = random.Random(1)
    parts, length = [], 0
    while length < size:
        lines = ['function %%f%d(i64 uext, i32) -> i64 system_v {' % len(parts),
                 '    ss0 = explicit_slot 8, align = 8', '    sig0 = (i64) -> i64 tail',
                 '    fn0 = colocated %g sig0', '']
        value = 0
        blocks = chance.randint(1, 9)
        for block in range(blocks):
            lines.append('block%d(v%d: i64, v%d: i32):' % (block, value, value + 1))
            value += 2
            for _ in range(chance.randint(1, 40)):
                lines.append('    ' + line_of(chance, value))
                value += 1
            lines.append('    ' + end_of(chance, value, blocks))
        lines.append('}\n\n')
        parts.append('\n'.join(lines))
        length += len(parts[-1])
    return ''.join(parts)


def whole(lines, params='', name='f'):
    """A function of one block with these lines."""
    return 'function %%%s() {\nblock0%s:\n%s\n}\n' % (name, params, '\n'.join(lines))


# Of each shape the number of the half, and the text.
SHAPES = {
    'functions': (1_000_000, lambda n: ''.join(whole(['return'], name='f%d' % i) for i in range(n))),
    'instructions of a block': (262_000, lambda n: whole('v%d = iadd v0, v%d' % (i, i - 1) for i in range(1, n))),
    'values of a block': (262_000, lambda n: whole(['return'], '(%s)' % ', '.join('v%d: i64' % i for i in range(n)))),
    'values of a return': (262_000, lambda n: whole(['return ' + ', '.join('v%d' % i for i in range(n))])),
    'entries of a table': (100_000, lambda n: whole(['try_call fn0(), sig0, block1, [%s]' % ', '.join(
        'tag%d: block%d(exn0)' % (i, i) for i in range(n))])),
    'comments': (1_000_000, lambda n: '; a comment\n' * n),
}


def steps_of(program, texts):
    """For each text the median times and the memory of each step, and of `wc -w`."""
    steps = {step: [program, *words] for step, (words, _) in STEPS.items()} | {'wc': ['wc', '-w']}
    jobs = {}
    with tempfile.TemporaryDirectory() as folder:
        for number, text in enumerate(texts):
            path = os.path.join(folder, str(number))
            write(path, text)
            jobs |= {(number, step): (words, path) for step, words in steps.items()}
        found = medians(jobs, REPEATS)
    return [{step: found[number, step] for step in steps} for number in range(len(texts))]


def net(found, shown):
    """A step's seconds, less those of reading the bytes: the processor's, or the clock's where several workers read."""
    took = lambda step: found[step].clock if STEPS[shown][1] else found[step].processor
    return max(took(shown) - took('bytes'), 1e-3)


def main():
    """Measures the text of many forms, then the shapes."""
    program, scale = program_and_scale(__doc__)
    text = mixed(60e6 * scale)
    [found] = steps_of(program, [text])
    length = len(text)
    print('%.1f MB with many forms' % (length / 1e6))
    for step in SHOWN:
        seconds = net(found, step)
        print('  %-18s %.3f s, %4.0f MB/s, %.1f bytes a byte of text'
              % (step, seconds, length / 1e6 / seconds, found[step].memory / length))
    print('  wc -w              %.3f s, %4.0f MB/s' % (found['wc'].processor, length / 1e6 / found['wc'].processor))
    for name, (number, make) in SHAPES.items():
        count = scaled(number, scale)
        once, double = make(count), make(2 * count)
        first, second = steps_of(program, [once, double])
        print('%d %s (%.1f MB):' % (count, name, len(once) / 1e6), end=' ')
        print(', '.join('%s %.3f s, twice %.2f times' % (step, net(first, step), net(second, step) / net(first, step))
                        for step in SHOWN))


if __name__ == '__main__':
    main()
