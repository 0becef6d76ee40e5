"""What the soaks share: a run of the program on some bytes, and the texts that they begin with."""

import os
import random
import resource
import signal
from concurrent.futures import ProcessPoolExecutor
from pathlib import Path

EXAMPLES = Path(__file__).resolve().parent.parent / "examples"
SECONDS = 60


class Ran:
    """How a run ended: its status (below 0 a signal), what it wrote, its processor time and its greatest memory."""

    def __init__(self, status, output, error, seconds, kilobytes):
        self.status = status
        self.output = output
        self.error = error
        self.seconds = seconds
        self.kilobytes = kilobytes


def scratch(data=b""):
    """A file without a name that holds these bytes, read from its start."""
    file = os.memfd_create("soak")
    left = memoryview(data)
    while left:
        left = left[os.write(file, left) :]
    os.lseek(file, 0, os.SEEK_SET)
    return file


def content(file):
    length = os.fstat(file).st_size
    return os.pread(file, length, 0) if length else b""


def run(program, words, data, environment=None, limit=None):
    """Runs the program with these words on these bytes. A limit is the number of bytes that it may map."""
    given = scratch(data)
    try:
        return run_on(given, program, words, environment, limit)
    finally:
        os.close(given)


def run_on(given, program, words, environment=None, limit=None, kept=True):
    """Runs the program with these words on a file. What it writes is not read where it isn't to be kept."""
    os.lseek(given, 0, os.SEEK_SET)
    files = [given, scratch(), scratch()]
    child = os.fork()
    if child == 0:
        for target, file in enumerate(files):
            os.dup2(file, target)
        resource.setrlimit(resource.RLIMIT_CPU, (SECONDS, SECONDS))
        if limit is not None:
            resource.setrlimit(resource.RLIMIT_AS, (limit, limit))
        signal.alarm(4 * SECONDS)
        try:
            os.execve(program, [program, *words], environment or {})
        finally:
            os._exit(127)
    _, status, used = os.wait4(child, 0)
    output, error = content(files[1]) if kept else b"", content(files[2])
    for file in files[1:]:
        os.close(file)
    return Ran(os.waitstatus_to_exitcode(status), output, error, used.ru_utime + used.ru_stime, used.ru_maxrss)


def scripts():
    """The scripts of the examples."""
    return [path.read_bytes() for path in sorted(EXAMPLES.glob("**/script"))]


def each_in_parallel(work, items):
    """What work(item) returns for each item, with as many at work as there are processors."""
    with ProcessPoolExecutor(os.cpu_count() or 1) as pool:
        return list(pool.map(work, items))


def in_parallel(work, count, seed):
    """What work((number of runs, source of chance)) returns for each share of a number of runs."""
    workers = os.cpu_count() or 1
    numbers = [count // workers + (1 if worker < count % workers else 0) for worker in range(workers)]
    return each_in_parallel(work, [(number, random.Random(f"{seed} {worker}")) for worker, number in enumerate(numbers)])
