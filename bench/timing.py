"""Runs of a program over a file, with what they took, and the words of the scripts that measure them."""
import json
import os
import statistics
import subprocess
import sys
import time
from typing import NamedTuple


class Run(NamedTuple):
    """Seconds by the clock, seconds of the processor (user and system), and the peak memory in bytes, which is never
    below that of the process that begins the run."""
    clock: float
    processor: float
    memory: int


def program_and_scale(doc):
    """What a script's words say: the program's path, and the scale, above 0 and at most 1, which is 1 where it is left
    out. Where they say nothing, this text is shown, and the script ends."""
    if len(sys.argv) < 2:
        sys.exit(doc)
    scale = float(sys.argv[2]) if len(sys.argv) > 2 else 1.0
    if not 0 < scale <= 1:
        sys.exit('SCALE is above 0 and at most 1')
    return os.path.abspath(sys.argv[1]), scale


def scaled(count, scale):
    """So much of a number, but 2 at least, so that it has a half."""
    return max(int(count * scale), 2)


def write(path, text):
    """Writes a text to a file."""
    with open(path, 'w') as file:
        file.write(text)


def run_from_here(words, path):
    """Runs these words over the file; a run that fails ends the measurement."""
    with open(path, 'rb') as text, open(os.devnull, 'wb') as out:
        begin = time.monotonic()
        process = subprocess.Popen(words, stdin=text, stdout=out)
        _, status, usage = os.wait4(process.pid, 0)
        clock = time.monotonic() - begin
    if status != 0:
        sys.exit('%s ended with %d' % (' '.join(words), os.waitstatus_to_exitcode(status)))
    return Run(clock, usage.ru_utime + usage.ru_stime, usage.ru_maxrss * 1024)


def run(words, path):
    """The same, begun by a process of its own, since this one may hold large texts."""
    done = subprocess.run([sys.executable, __file__, path, *words], stdout=subprocess.PIPE, check=False)
    if done.returncode != 0:
        sys.exit(done.returncode)
    return Run(*json.loads(done.stdout))


def median(runs):
    """The medians of the times of some runs, and their most memory."""
    return Run(statistics.median(it.clock for it in runs), statistics.median(it.processor for it in runs),
               max(it.memory for it in runs))


def medians(jobs, repeats):
    """For each job, which is words and the path of a file, the medians of so many runs and their most memory. The jobs
    take turns, so that what disturbs the machine for a while disturbs them alike."""
    found = {name: [] for name in jobs}
    for _ in range(repeats):
        for name, (words, path) in jobs.items():
            found[name].append(run(words, path))
    return {name: median(runs) for name, runs in found.items()}


def twice(words, half, whole, path, repeats):
    """The processor's time of these words over a text, and how many times that of another it is: medians of so many
    runs that stand each between two of the other, since a processor changes its speed."""
    other = path + '.half'
    write(other, half)
    write(path, whole)
    took, times = [], []
    before = run(words, other).processor
    for _ in range(repeats):
        took.append(run(words, path).processor)
        behind = run(words, other).processor
        times.append(2 * took[-1] / (before + behind))
        before = behind
    return statistics.median(took), statistics.median(times)


if __name__ == '__main__':
    print(json.dumps(run_from_here(sys.argv[2:], sys.argv[1])))
