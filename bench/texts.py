"""Texts of one shape each, which more than one script reads."""


def function(name, lines='', declared=''):
    """A function without parameters and results: its declarations, these lines, and a `return`."""
    empty = '\n' if declared else ''
    return f'function {name}() fast {{\n{declared}{empty}block0:\n{lines}    return\n}}\n\n'


def caller(name, callee, lines):
    """A function of these lines in which fn0 is another one."""
    return function(name, lines, f'    sig0 = () fast\n    fn0 = {callee} sig0\n')


def chain(count):
    """So many functions, each but the first of which calls the one before it."""
    callers = (caller(f'%f{i}', f'%f{i - 1}', '    call fn0()\n') for i in range(1, count))
    return function('%f0') + ''.join(callers)


def jumps(count):
    """So many lines that jump, each to a block that begins behind it."""
    return ''.join(f'    jump block{i + 1}\n\nblock{i + 1}:\n' for i in range(count))


def aliases(count, line='    v{} -> v{}\n'):
    """A function whose parameter has so many other words, each for the one before it."""
    lines = ''.join(line.format(i + 1, i) for i in range(count))
    return f'function %f(i64) -> i64 fast {{\nblock0(v0: i64):\n{lines}    return v{count}\n}}\n'


def body(index, lines):
    """A function of one large body, in blocks of a thousand lines."""
    out = [f'function %g{index}(i64, i64) -> i64 fast {{\nblock0(v0: i64, v1: i64):\n']
    value, block = 2, 0
    for k in range(lines):
        if k % 1000 == 999:
            block += 1
            out.append(f'    jump block{block}\n\nblock{block}:\n')
        out.append(f'    v{value} = iadd v{value - 1}, v{value - 2}\n')
        value += 1
    out.append(f'    return v{value - 1}\n}}\n\n')
    return ''.join(out)


def bodies(size):
    """So many functions of 50,000 lines that they have this size together, or a little more."""
    parts, length = [], 0
    while length < size:
        parts.append(body(len(parts), 50_000))
        length += len(parts[-1])
    return ''.join(parts)
