"""A run of the built program over a text, within limits."""

import os
import resource
import signal
import subprocess
import tempfile

# How long a run may take.
SECONDS = 600


def end_of(words, **options):
    """The status and what is on standard error, by the options of `subprocess.run`. A run that takes longer is stopped;
    it has no status, and in place of its standard error stands that it has no end."""
    try:
        done = subprocess.run(words, stderr=subprocess.PIPE, timeout=SECONDS, check=False, **options)
    except subprocess.TimeoutExpired:
        return None, b"no end within %d seconds" % SECONDS
    return done.returncode, done.stderr


def call(program, words, text, room=None, memory=None, processors=None):
    """The status, what was written, and what is on standard error. `room` is how many bytes the sink takes, `memory`
    how many bytes of addresses the program may have, `processors` those that it may run on."""

    def limit():
        if room is not None:
            signal.signal(signal.SIGXFSZ, signal.SIG_IGN)
            resource.setrlimit(resource.RLIMIT_FSIZE, (room, room))
        if processors is not None:
            os.sched_setaffinity(0, processors)

    with tempfile.TemporaryFile() as source, tempfile.TemporaryFile() as sink:
        source.write(text)
        source.seek(0)
        limited = [] if memory is None else ["sh", "-c", f'ulimit -v {memory >> 10}; exec "$0" "$@"']
        status, err = end_of([*limited, program, *words], stdin=source, stdout=sink, preexec_fn=limit)
        sink.seek(0)
        return status, sink.read(), err


def call_without_source(program, words):
    """The same where each call of the source fails: standard input is a folder."""
    folder = os.open("/", os.O_RDONLY)
    try:
        with tempfile.TemporaryFile() as sink:
            status, err = end_of([program, *words], stdin=folder, stdout=sink)
            sink.seek(0)
            return status, sink.read(), err
    finally:
        os.close(folder)
