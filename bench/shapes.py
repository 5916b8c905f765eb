#!/usr/bin/env python3
"""How the time of each command grows on texts that repeat one form.

    python3 bench/shapes.py PATH/clifinl [SCALE [WORD..]]

`rt ci`, or `rt run` in crates/clifinl, builds the program and leaves it in out/. SCALE (1, and at most that) makes all
texts smaller; words pick the shapes whose names have one of them. Each shape is a text of n parts, and is measured at
n, 2n and 4n by one worker: the processor's time, the least of seven runs that take turns, less that of an empty text.
Twice the parts should take at most 2.2 times the time; the last line names the greatest multiple. Where 4n takes less
than 0.05 s no multiple is told, since a run differs by some hundredths.

At the end a function of 65,000 blocks that may all leave to one common block is checked beside as many bytes of
straight code: it should take less than twice the time."""
import os
import sys
import tempfile

from texts import body, caller, function
from timing import program_and_scale, run, scaled, write

REPEATS = 7
SHORT = 0.05
WIDEST = ['--callee-size=262144', '--caller-size=262144']
CALL = '    call fn0()\n'


# ---- check: functions of many blocks

# The first blocks of a function: a value behind two ways, so that where it is available takes the paths.
FORK = """function %f(i64) -> i64 fast {
block0(v0: i64):
    brif v0, block900001, block900002

block900001:
    jump block900003

block900002:
    jump block900003

block900003:
    v7 = iconst.i64 7
"""


def blocks(count, other, first='    jump block1\n'):
    """A function of a chain of blocks, each of which may also go to another one. A value from before the chain is used
    in the last."""
    parts = [FORK, first, '\nblock1:\n']
    for i in range(1, count):
        parts.append(f'    brif v0, block{i + 1}, block{other(i)}\n\nblock{i + 1}:\n')
    parts.append('    v5 = iadd v7, v0\n    return v5\n\n')
    return ''.join(parts)


def common_exit(count):
    """Each block may leave to one common block."""
    return blocks(count, lambda _: count + 1) + f'block{count + 1}:\n    return v0\n}}\n'


def back_to_first(count):
    """Each block may go back to the first one behind the entry."""
    return blocks(count, lambda _: 1) + '}\n'


def back_to_half(count):
    """Each block may go back to the first one behind the entry, or, from the half on, to that in the middle."""
    return blocks(count, lambda i: 1 if i <= count // 2 else count // 2) + '}\n'


def there_and_back(count):
    """Each block may go to the one before it, and the entry to both ends: no order of the blocks is one of loops."""
    return blocks(count, lambda i: max(i - 1, 1), f'    brif v0, block1, block{count}\n') + '}\n'


def skips(count):
    """Each block may pass over the next one."""
    return blocks(count, lambda i: min(i + 2, count)) + '}\n'


def nested_loops(count):
    """Blocks in loops within loops: the first half leads in, and each of the other half back to one of the first."""
    return blocks(count, lambda i: i + 1 if i <= count // 2 else max(count - i, 1)) + '}\n'


def two_chains(count):
    """Two chains of blocks, side by side, each block of which may go over to the other chain."""
    half = count // 2
    parts = [FORK, '    brif v0, block1, block2\n\n']
    for i in range(1, half):
        for side in (0, 1):
            at = 2 * i - 1 + side
            parts.append(f'block{at}:\n    brif v0, block{at + 2}, block{2 * i + 2 - side}\n\n')
    for side in (0, 1):
        parts.append(f'block{2 * half - 1 + side}:\n    v{9 + side} = iadd v7, v0\n    return v{9 + side}\n\n')
    return ''.join(parts) + '}\n'


def handlers(count):
    """Calls in a chain, each with a handler in one common block."""
    lines = ''.join(f'    try_call fn0(), sig0, block{i + 1}, [ default: block{count + 1} ]\n\nblock{i + 1}:\n'
                    for i in range(count))
    end = f'    return\n\nblock{count + 1}:\n'
    return function('%f', lines + end, '    sig0 = () fast\n    fn0 = %h sig0\n')


# ---- check: declarations

def declared(count, signature):
    """Declarations of one function by one long signature."""
    lines = ''.join(f'    fn{i} = %f sig0\n' for i in range(count))
    ret = '    trap user0\n' if '->' in signature else '    return\n'
    params = ', '.join(f'v{i}: i8' for i in range(count)) if not signature.startswith('()') else ''
    return (f'function %f{signature} fast {{\nblock0({params}):\n{ret}}}\n\n'
            f'function %g() fast {{\n    sig0 = {signature} fast\n{lines}\nblock0:\n    return\n}}\n')


def by_parameters(count):
    """Of n parameters."""
    return declared(count, '(' + ', '.join(['i8'] * count) + ')')


def by_results(count):
    """Of n results."""
    return declared(count, '() -> ' + ', '.join(['i8'] * count))


def tail_calls_of_results(count):
    """Lines that tail call a function of n results."""
    results = ', '.join(['i8'] * count)
    lines = ''.join(f'    return_call fn0()\n\nblock{i + 1}:\n' for i in range(count))
    return (f'function %g() -> {results} tail {{\n    sig0 = () -> {results} tail\n    fn0 = %h sig0\n\n'
            f'block0:\n{lines}    trap user0\n}}\n')


def tried_calls_of_results(count):
    """Lines that call a function of n results, under a table, and hand none on."""
    results = ', '.join(['i8'] * count)
    lines = ''.join(f'    try_call fn0(), sig0, block{i + 1}, []\n\nblock{i + 1}:\n' for i in range(count))
    return function('%g', lines, f'    sig0 = () -> {results} fast\n    fn0 = %h sig0\n')


# ---- inline

def sites(count, declarations, calls=CALL):
    """Sites of one callee that has these declarations."""
    return function('%g', '', declarations) + caller('%f', '%g', calls * count)


def hosts(count):
    """Declarations of host functions."""
    return '    sig0 = () fast\n' + ''.join(f'    fn{i} = %h{i} sig0\n' for i in range(count))


def sites_of_hosts(count):
    """Sites of a callee that declares 2n host functions."""
    return sites(count, hosts(2 * count))


def sites_of_signatures(count):
    """Sites of a callee with n / 4 signatures."""
    kinds = ['i8', 'i16', 'i32', 'i64']
    lines = []
    for i in range(count // 4):
        digits = [kinds[i >> 2 * k & 3] for k in range(10)]
        lines.append(f'    sig{i} = ({", ".join(digits)}) fast\n')
    return sites(count, ''.join(lines))


def sites_of_a_long_signature(count):
    """Sites of a callee with one signature of 2n parameters."""
    return sites(count, '    sig0 = (' + ', '.join(['i8'] * (2 * count)) + ') fast\n')


def sites_of_long_names(count):
    """Sites, a thousand in each function, of a callee that declares ten names of 20 n bytes."""
    names = ''.join(f'    fn{i} = %{"x" * (20 * count)}{i} sig0\n' for i in range(10))
    callers = (caller(f'%f{i}', '%g', CALL * 1_000) for i in range(count // 1_000))
    return function('%g', '', '    sig0 = () fast\n' + names) + ''.join(callers)


def sites_of_two(count):
    """Sites of two callees by turns: one that declares n host functions and is refused, and a small one."""
    calls = '    call fn0()\n    call fn1()\n' * count
    return (function('%g', '', hosts(count)) + function('%s')
            + function('%f', calls, '    sig0 = () fast\n    fn0 = %g sig0\n    fn1 = %s sig0\n'))


def nested_callees(count):
    """A chain of functions, each of which declares a host function of its own and gets those of all below it."""
    def one(i):
        hosts_and_next = f'    sig0 = () fast\n    fn0 = %f{i - 1} sig0\n    fn1 = %h{i} sig0\n'
        return function(f'%f{i}', '    call fn0()\n', hosts_and_next)
    return function('%f0') + ''.join(one(i) for i in range(1, count))


# ---- run

def tail_calls(_):
    """A loop by tail calls, each with a debug tag."""
    return ('function %f(i64) tail {\n    fn0 = %f(i64) tail\n\nblock0(v0: i64):\n    brif v0, block1, block2\n\n'
            'block1:\n    v1 = iadd_imm v0, -1\n    <7> return_call fn0(v1)\n\nblock2:\n    return\n}\n')


def recursion(tag):
    """A recursion, at whose end a loop has as many sequence points."""
    return (f'function %f(i64) {{\n    fn0 = %g(i64, i64)\n\nblock0(v0: i64):\n    {tag}call fn0(v0, v0)\n    return\n}}\n\n'
            'function %g(i64, i64) {\n    fn0 = %g(i64, i64)\n\nblock0(v0: i64, v1: i64):\n    brif v0, block1, block2(v1)\n\n'
            'block1:\n    v2 = iadd_imm v0, -1\n    call fn0(v2, v1)\n    return\n\n'
            'block2(v3: i64):\n    sequence_point\n    v4 = iadd_imm v3, -1\n    brif v4, block2(v4), block3\n\n'
            'block3:\n    return\n}\n')


# ---- test

SMALL = 'function %f{0}() {{\nblock0:\n    return\n}}\n'


def header_lines(header):
    """As many header lines as functions."""
    return lambda count: f'test {header}\n' * count + ''.join(SMALL.format(i) for i in range(count))


def line_tests(directive, header='cat'):
    """A function of n lines, and as many directives of its lines."""
    return lambda count: (f'test {header}\n\nfunction %f(i64) {{\nblock0(v0: i64):\n'
                          + ''.join(f'    v{i + 1} = iadd_imm v{i}, 1\n' for i in range(count)) + '    return\n}\n'
                          + ''.join(directive.format(i) for i in range(count)))


def run_words(count):
    """What `run` is asked for."""
    return ['run', '--entry=%f', f'--args={count}', '--steps=1000000000']


# Of each shape the number, the words (or what gives them), and the text.
SHAPES = {
    'check: blocks with one common exit': (15_000, ['check'], common_exit),
    'check: blocks that may go back to the first': (15_000, ['check'], back_to_first),
    'check: blocks that may go back to the first or the middle': (15_000, ['check'], back_to_half),
    'check: blocks that may go to the one before': (15_000, ['check'], there_and_back),
    'check: blocks that may pass over the next': (15_000, ['check'], skips),
    'check: loops within loops': (15_000, ['check'], nested_loops),
    'check: two chains of blocks': (15_000, ['check'], two_chains),
    'check: handlers in one common block': (8_000, ['check'], handlers),
    'check: declarations of n parameters': (12_000, ['check'], by_parameters),
    'check: declarations of n results': (12_000, ['check'], by_results),
    'check: tail calls of n results': (12_000, ['check'], tail_calls_of_results),
    'check: try_calls of n results': (12_000, ['check'], tried_calls_of_results),
    'inline: sites of 2n host functions': (8_000, ['inline', *WIDEST], sites_of_hosts),
    'inline: sites of n / 4 signatures': (8_000, ['inline', *WIDEST], sites_of_signatures),
    'inline: sites of a signature of 2n parameters': (8_000, ['inline', *WIDEST], sites_of_a_long_signature),
    'inline: sites that the caller size refuses': (
        8_000, lambda n: ['inline', '--callee-size=262144', f'--caller-size={6 * n + 20}'], sites_of_hosts),
    'inline: sites of two, of which one is refused': (
        8_000, lambda n: ['inline', '--callee-size=262144', f'--caller-size={8 * n + 20}'], sites_of_two),
    'inline: sites of long names': (4_000, ['inline'], sites_of_long_names),
    'inline: host functions down a chain': (8_000, ['inline'], nested_callees),
    'run: tail calls with a tag': (160_000, run_words, tail_calls),
    'run: points below frames without a tag': (80_000, run_words, lambda _: recursion('')),
    'run: points below a frame with a tag': (80_000, run_words, lambda _: recursion('<7> ')),
    'test: as many headers `inline` as functions': (8_000, ['test'], header_lines('inline')),
    'test: as many headers `run` as functions': (8_000, ['test'], header_lines('run')),
    'test: as many headers `cat` as functions': (8_000, ['test'], header_lines('cat')),
    'test: a `check:` for each line': (16_000, ['test'], line_tests('; check: iadd_imm\n')),
    'test: a `not:` for each line': (16_000, ['test'], line_tests('; not: absent{0}\n')),
    'test: one `check:` that is found late, behind `not:`s': (
        16_000, ['test'], lambda n: line_tests('; not: absent{0}\n')(n) + '; check: return\n'),
}


def words_for(words, count):
    """The words of a shape of this number."""
    found = words(count) if callable(words) else words
    return found + ['--workers=1'] if found[0] == 'inline' else found


def least(program, jobs):
    """For each job, words and a text's path, the least processor's time of some runs that take turns."""
    found = [[] for _ in jobs]
    for _ in range(REPEATS):
        for times, (words, path) in zip(found, jobs):
            times.append(run([program, *words], path).processor)
    return [min(times) for times in found]


def measure(program, words, make, count, folder):
    """The times at n, 2n and 4n, less that of an empty text, and the greater multiple, where it can be told."""
    empty = os.path.join(folder, 'empty')
    write(empty, '')
    jobs = [(['check'], empty)]
    for k in (1, 2, 4):
        path = os.path.join(folder, f'text{k}')
        write(path, make(k * count))
        jobs.append((words_for(words, k * count), path))
    idle, *times = least(program, jobs)
    times = [max(it - idle, 1e-4) for it in times]
    return times, max(b / a for a, b in zip(times, times[1:])) if times[-1] >= SHORT else None


def straight_code(program, scale, folder):
    """A function of many blocks with one common exit beside as many bytes of straight code."""
    count = scaled(65_000, scale)
    exits = common_exit(count)
    straight = body(0, len(exits) // 30)
    paths = []
    for name, text in (('exits', exits), ('straight', straight)):
        paths.append(os.path.join(folder, name))
        write(paths[-1], text)
    first, other = least(program, [(['check'], path) for path in paths])
    print('check of %d blocks with one common exit: %.3f s; of as many bytes of straight code (%.2f times): %.3f s; '
          '%.2f times' % (count, first, len(straight) / len(exits), other, first / other))


def main():
    """Measures the shapes."""
    wanted = sys.argv[3:]
    program, scale = program_and_scale(__doc__)
    greatest = 0, 'none'
    with tempfile.TemporaryDirectory() as folder:
        for name, (number, words, make) in SHAPES.items():
            if wanted and not any(word in name for word in wanted):
                continue
            times, multiple = measure(program, words, make, scaled(number, scale), folder)
            shown = 'short' if multiple is None else '%.2f times' % multiple
            print('%-56s n = %6d: %s s, %s' % (name, scaled(number, scale), ', '.join('%.3f' % it for it in times), shown),
                  flush=True)
            if multiple is not None:
                greatest = max(greatest, (multiple, name))
        if not wanted:
            straight_code(program, scale, folder)
    print('greatest: %.2f times (%s)' % greatest)


if __name__ == '__main__':
    main()
