"""Threads that cannot be made, and many of them on one core."""
import os
import resource
import shutil
import subprocess
import sys

from program import ALL, THREADS, told
from rows import PIPELINE, TWO_VALUES, TWO_WORDS, Row

NOBODY = 65_534

CASES = [
    (PIPELINE, "run --workers 8"),
    (TWO_VALUES, "run --workers 16"),
    (TWO_VALUES, "run --image --workers 3"),
    (TWO_VALUES, "picture --workers 4"),
    (TWO_VALUES, "history --workers 8"),
    ("work/2", "work 2 --workers 8"),
    (PIPELINE, "history --workers 3"),
    (PIPELINE, "run"),
    (TWO_WORDS, None),
    (TWO_WORDS, "--workers 8"),
    ("live/a-put-line-to-no-source", None),
]


def threads_fail(tools, tally, case, words):
    """Each thread in its turn cannot be made, and each with all behind it."""
    row = Row(tools, case, words)
    if "--image" in row.words:
        row.input = tools.rawgrid.run(["asm"], row.input).out
        row.due = row.run()
    for count in (1, ALL):
        for first in range(200):
            run = row.run(fails=(THREADS, first, count))
            if not run.failed[THREADS]:
                break
            tally.count("refused threads")
            what = f"{row.name}: thread {first} was not made: {told(run.status)} {run.err}"
            tally.expect(row.is_whole(run), what, row.input)
            if row.words[0:1] == ["history"]:
                lawful = tools.rawgrid.run(["check"], run.out)
                tally.expect(lawful.out.startswith(b"lawful "), f"{row.name}: {lawful.out} without thread {first}", run.out)


def none_to_be_had(tools, tally):
    """The system itself makes no thread: its limit on processes is what the user has."""
    for case, words in [(TWO_VALUES, "run --workers 64"), (PIPELINE, "run --workers 64"), *CASES]:
        row = Row(tools, case, words)
        if "--image" in row.words:
            continue
        program = tools.file_for_all("rawlive" if row.is_live else "rawgrid")
        process = subprocess.Popen(
            [program, *row.words],
            stdin=tools.file(row.input),
            stdout=subprocess.PIPE,
            stderr=subprocess.PIPE,
            preexec_fn=refuse_processes,
        )
        # (64 parts that give way to each other take long beside runs that never rest.)
        out, err = process.communicate(timeout=300)
        tally.count("runs that could make no thread")
        if row.varies:
            lawful = tools.rawgrid.run(["check"], out)
            tally.expect(lawful.out.startswith(b"lawful "), f"{row.name}: {lawful.out} without threads", out)
            out = row.due.out
        right = (process.returncode, out, err) == row.due[:3]
        tally.expect(right, f"{row.name}: {told(process.returncode)} {err[:200]} where no thread can be made", row.input)


def refuse_processes():
    """Has the system refuse this process each further one, which it does not to root, and makes sure of it."""
    if os.getuid() == 0:
        os.setgid(NOBODY)
        os.setuid(NOBODY)
    resource.setrlimit(resource.RLIMIT_NPROC, (1, 1))
    try:
        if os.fork() == 0:
            os._exit(0)
    except OSError:
        return
    sys.exit("the system still makes processes")


def crowded(tools, tally, runs):
    """64 workers on one core, on which another process never rests: the same bytes each time."""
    core = tools.cores[0]
    busy = subprocess.Popen([sys.executable, "-c", "import os; os.nice(10)\nwhile True: pass"])
    try:
        os.sched_setaffinity(busy.pid, {core})
        row = Row(tools, TWO_VALUES, "run --workers 64")
        for _ in range(runs):
            run = row.run(cores={core})
            tally.count("runs of 64 workers on one core")
            tally.expect(row.is_whole(run), f"{row.name}: {told(run.status)} {run.err} on one core", row.input)
    finally:
        busy.kill()
        busy.wait()
