#!/usr/bin/env python3
"""Where a check of a crate spends its time.

    python3 bench/proof_times.py CRATE [HOW_MANY]

Checks the crate from nothing with one job, and prints the functions and files of lemmas that took longest, in seconds
by the clock: what passed between one file that the check keeps in `out/incremental` and the next. Other work on the
machine makes them longer. `Lts` is what a function's code does, step by step, and grows with what it drops where it
returns early; `Proof` is the proof of its goals."""

import collections
import os
import shutil
import subprocess
import sys


def main():
    """Checks the crate, and prints what took longest."""
    if len(sys.argv) < 2:
        sys.exit(__doc__)
    crate = sys.argv[1]
    most = int(sys.argv[2]) if len(sys.argv) > 2 else 20
    root = os.path.dirname(os.path.dirname(os.path.abspath(__file__)))
    folder = os.path.join(root, 'crates', crate)
    kept = os.path.join(folder, 'out', 'incremental')
    shutil.rmtree(kept, ignore_errors=True)
    check = subprocess.run(['rt', 'check', '--jobs', '1'], cwd=folder, stdout=subprocess.DEVNULL, check=False)
    ends = sorted((os.stat(os.path.join(at, name)).st_mtime, name)
                  for at, _, names in os.walk(kept) for name in names if name.endswith('.oantt'))
    took = collections.Counter()
    for (before, _), (end, name) in zip(ends, ends[1:]):
        path = name.removesuffix('.oantt').removeprefix('Rattle-%s-' % crate).removeprefix('proofs.').split('.')
        part = next((it for it in ('Lts', 'Proof', 'Tie') if it in path), '')
        item = '.'.join(path[:path.index(part)] if part else path[:-1]) or path[0]
        took[item, part] += end - before
    print('status %d; %.0f s, of which' % (check.returncode, sum(took.values())))
    for (item, part), time in took.most_common(most):
        print('%7.1f  %s %s' % (time, item, part))


if __name__ == '__main__':
    main()
