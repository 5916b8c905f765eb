"""Small functions of about 215 bytes each, as CLIF and as LLVM IR, so that 65,000 of them make 14 MB.

Each adds a number and calls the one before it, in chains of 64, and two of four branch on what comes back. In a mixed
text every eighth calls by a `try_call`, and the last of each chain calls the seven before it. In a sparse text three of
eight call the one before them, and the others a function of the host."""

MOST = 65_536
# How many functions each kind calls.
CALLS = {'leaf': 0, 'add': 1, 'branch': 1, 'try': 1, 'fan': 7}


def kind(i, text):
    """What the function of this number does in a text that is `chained`, `mixed` or `sparse`."""
    if i % 64 == 0:
        return 'leaf'
    if text == 'mixed' and i % 64 == 63:
        return 'fan'
    if text == 'mixed' and i % 8 == 7:
        return 'try'
    return 'add' if i % 4 < 2 else 'branch'


def callees(i, text):
    """The names of the functions that the function of this number calls."""
    names = [f'f{i - 1 - k}' for k in range(CALLS[kind(i, text)])]
    if text == 'sparse' and i % 8 not in (1, 4, 7):
        return [f'host{i % 100}' for _ in names]
    return names


# The lines of each kind: {0} stands for a number, and in LLVM IR what follows it for the names of the callees.
CLIF = {
    'leaf': '    v1 = iadd_imm v0, {0}\n    return v1\n',
    'add': '    v1 = iadd_imm v0, {0}\n    v2 = call fn0(v1)\n    return v2\n',
    'branch': '    v1 = iadd_imm v0, {0}\n    v2 = call fn0(v1)\n    brif v2, block1, block2(v1)\n\n'
              'block1:\n    return v2\n\nblock2(v3: i64):\n    v4 = imul v3, v2\n    return v4\n',
    'try': '    try_call fn0(v0), sig0, block1(ret0), [ default: block2 ]\n\n'
           'block1(v1: i64):\n    v2 = imul v0, v1\n    return v2\n\nblock2:\n    return v0\n',
    'fan': ''.join(f'    v{k + 1} = call fn{k}(v{k})\n' for k in range(7)) + '    return v7\n',
}
LLVM = {
    'leaf': '  %v1 = add i64 %v0, {0}\n  ret i64 %v1\n',
    'add': '  %v1 = add i64 %v0, {0}\n  %v2 = call fastcc i64 @{1}(i64 %v1)\n  ret i64 %v2\n',
    'branch': '  %v1 = add i64 %v0, {0}\n  %v2 = call fastcc i64 @{1}(i64 %v1)\n  %c = icmp ne i64 %v2, 0\n'
              '  br i1 %c, label %block1, label %block2\n\nblock1:\n  ret i64 %v2\n\n'
              'block2:\n  %v3 = phi i64 [ %v1, %block0 ]\n  %v4 = mul i64 %v3, %v2\n  ret i64 %v4\n',
    'try': '  %v1 = invoke fastcc i64 @{1}(i64 %v0) to label %block1 unwind label %block2\n\n'
           'block1:\n  %v2 = mul i64 %v0, %v1\n  ret i64 %v2\n\n'
           'block2:\n  %v3 = landingpad i64 cleanup\n  ret i64 %v0\n',
    'fan': ''.join(f'  %v{k + 1} = call fastcc i64 @{{{k + 1}}}(i64 %v{k})\n' for k in range(7)) + '  ret i64 %v7\n',
}


def clif_function(i, text):
    """The function of this number as CLIF."""
    names = callees(i, text)
    signature = '    sig0 = (i64) -> i64 fast\n' if names else ''
    declared = ''.join(f'    fn{k} = %{name} sig0\n' for k, name in enumerate(names))
    empty = '\n' if names else ''
    lines = CLIF[kind(i, text)].format(i % 99 + 1)
    return f'function %f{i}(i64) -> i64 fast {{\n{signature}{declared}{empty}block0(v0: i64):\n{lines}}}\n\n'


def llvm_function(i, text):
    """The function of this number as LLVM IR."""
    personality = ' personality i32 0' if kind(i, text) == 'try' else ''
    lines = LLVM[kind(i, text)].format(i % 99 + 1, *callees(i, text))
    return f'define fastcc i64 @f{i}(i64 %v0){personality} {{\nblock0:\n{lines}}}\n\n'


def clif_functions(size, text):
    """The texts of so many functions that they have about this size together, but no more than a module may have."""
    parts, length = [], 0
    while length < size and len(parts) < MOST:
        parts.append(clif_function(len(parts), text))
        length += len(parts[-1])
    return parts


def llvm_functions(count, text):
    """So many functions as LLVM IR."""
    return [llvm_function(i, text) for i in range(count)]
