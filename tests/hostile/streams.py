"""Streams that fail: each call in its turn, and streams of the operating system that end, are full, closed or slow."""
import array
import fcntl
import os
import subprocess
import termios
import threading

from program import ALL, ERRORS, READS, WRITES, told
from rows import Row

MAX_INPUT = 33_554_432
# At most so many calls of a row fail in pieces of one length, spread over all of them.
CALLS = 2_000


def calls_fail(tools, tally, case, words, pieces, stride=1):
    """Each call of the source, of `out` and of `err` fails, or each `stride`-th, alone and with all behind it, in pieces of
    several lengths. Where there are more calls than `CALLS`, each so many fail that these are left."""
    row = Row(tools, case, words)
    for piece in pieces:
        for count in (1, ALL):
            reads_fail(tally, row, piece, count, max(stride, stride_of(row.input, piece)))
            writes_fail(tally, row, piece, count, max(stride, stride_of(row.due.out, piece)))
            errors_fail(tally, row, piece, count)


def stride_of(data, piece):
    """Each how many-th call fails of those that give or take the bytes in such pieces."""
    return max(1, -(-len(data) // (piece * CALLS)))


def reads_fail(tally, row, piece, count, stride):
    for call in range(0, 1_000_000, stride):
        run = row.run(fails=(READS, call, count), piece=piece)
        if not run.failed[READS]:
            return tally.expect(row.is_whole(run), f"{row.name}: other output in pieces of {piece}", row.input)
        tally.count("failed reads")
        # (`debug --live` takes one byte a call)
        right = run.status == 7 and run.err == b"read fault\n" and row.is_early(run.out, given=call)
        tally.expect(right, f"{row.name}: read {call} failed, piece {piece}: {told(run.status)} {run.err}", row.input)


def writes_fail(tally, row, piece, count, stride):
    for call in range(0, 1_000_000, stride):
        run = row.run(fails=(WRITES, call, count), piece=piece)
        if not run.failed[WRITES]:
            return
        tally.count("failed writes")
        # A fault of the input is told before a write that failed.
        status, err = (row.due.status, row.due.err) if row.due.status == 2 else (8, b"write fault\n")
        right = (run.status, run.err) == (status, err) and row.is_front(run.out)
        tally.expect(right, f"{row.name}: write {call} failed, piece {piece}: {told(run.status)} {run.err}", row.input)


def errors_fail(tally, row, piece, count):
    for call in range(1_000_000):
        run = row.run(fails=(ERRORS, call, count), piece=piece)
        if not run.failed[ERRORS]:
            return
        tally.count("failed writes of err")
        right = run.status == row.due.status and run.out == row.due.out and row.due.err.startswith(run.err)
        tally.expect(right, f"{row.name}: write {call} of err failed: {told(run.status)} {run.err}", row.input)


def grows(tools, tally):
    """An input that grows past the most that is taken, or up to it, while it is read."""
    too_long, not_ascii = (10, b"input too long\n"), (2, b"refused line 1: not-ascii\n")
    for program, words, size, due in (
        (tools.rawgrid, ["run"], MAX_INPUT + 1, too_long),
        (tools.rawgrid, ["list"], MAX_INPUT + 1, too_long),
        (tools.rawlive, [], MAX_INPUT + 1, too_long),
        (tools.rawgrid, ["run"], MAX_INPUT, not_ascii),
        (tools.rawgrid, ["list"], MAX_INPUT, (2, b"refused image at 0: bad-magic\n")),
        (tools.rawlive, [], MAX_INPUT, not_ascii),
    ):
        # (What is added are bytes 0.)
        run = program.run(words, b"#" * 100, grown=size)
        tally.count("inputs that grow")
        right = (run.status, run.err) == due and not run.out
        tally.expect(right, f"{words} of an input that grows to {size} bytes: {told(run.status)} {run.err}")


# Streams of the operating system. Here the programs run alone, without preload.c.


def begin(path, words, **streams):
    streams.setdefault("stdin", subprocess.DEVNULL)
    return subprocess.Popen([path, *words], **{"stdout": subprocess.PIPE, "stderr": subprocess.PIPE, **streams})


def ended(tally, name, process, status, err=None, out=None):
    """Waits for the process, and looks at how it ended, and at what it wrote where that is given."""
    seen_out, seen_err = process.communicate(timeout=60)
    tally.count("other streams")
    right = process.returncode == status and err in (None, seen_err) and out in (None, seen_out)
    tally.expect(right, f"{name}: {told(process.returncode)}, due is {status}; err is {seen_err}")


def closed_pipes(tools, tally):
    """`out` is a pipe whose reader goes away after so many bytes. None ends by a signal."""
    for case, words in (("runs/a-pipeline-of-1000-words", None), ("runs/a-pipeline-of-1000-words", "history")):
        row = Row(tools, case, words)
        for bytes_read in (0, 1, 2, 7, 100, 4_095, 4_096, 4_097, 10_000):
            process = begin(tools.path("rawgrid"), row.words, stdin=subprocess.PIPE)
            fill = threading.Thread(target=feed, args=(process.stdin, row.input))
            # The pipe holds less than what is due, so that the program is not done before its reader goes away.
            shrink(process.stdout)
            fill.start()
            got = b""
            while len(got) < bytes_read:
                got += os.read(process.stdout.fileno(), bytes_read - len(got))
            process.stdout.close()
            err = process.stderr.read()
            status = process.wait(timeout=60)
            fill.join()
            tally.count("closed pipes")
            right = status == 8 and err == b"write fault\n" and row.due.out.startswith(got)
            tally.expect(right, f"{row.name}: {told(status)} on a pipe that is closed after {bytes_read} bytes")
    live_pipe_closes(tools, tally)
    live_debugger_answers(tools, tally)


def live_pipe_closes(tools, tally):
    """rawlive, whose reader goes away after the first word, reads on, and tells it at the end of its input."""
    row = Row(tools, "live/two-words", None)
    first, _, rest = row.input.rpartition(b"put ")
    process = begin(tools.path("rawlive"), [], stdin=subprocess.PIPE)
    process.stdin.write(first)
    process.stdin.flush()
    process.stdout.readline()
    process.stdout.close()
    process.stdin.write(b"put " + rest)
    process.stdin.close()
    err = process.stderr.read()
    status = process.wait(timeout=60)
    tally.count("closed pipes")
    tally.expect(status == 8 and err == b"write fault\n", f"rawlive: {told(status)} {err} on a pipe that is closed")


def live_debugger_answers(tools, tally):
    """`debug --live` answers each line before more comes, and the last one, without its newline, at the end of input."""
    row = Row(tools, "scripts/forth", None)
    head = row.input[: row.input.index(b"\nscript\n") + 8]
    process = begin(tools.path("rawgrid"), ["debug", "--live"], stdin=subprocess.PIPE)
    process.stdin.write(head)
    lines = (b"forth 1", b"forth one", b"at 0 41", b"forth 1")
    for line, due in zip(lines, (b"at 0 1 ", b"bad-command\n", b"past-end\n", b"at 0 2 ")):
        process.stdin.write(line + b"\n")
        process.stdin.flush()
        seen = process.stdout.readline()
        tally.expect(seen.startswith(due), f"debug --live: {seen} to {line}")
    ended(tally, "debug --live", process, 0, b"", b"")
    process = begin(tools.path("rawgrid"), ["debug", "--live"], stdin=subprocess.PIPE)
    process.stdin.write(head + b"echo a\necho b")
    process.stdin.flush()
    tally.expect(process.stdout.readline() == b"a\n", "debug --live: no answer to a line behind which another begins")
    ended(tally, "debug --live", process, 0, b"", b"b\n")
    # (a reader that goes away after the first answer)
    process = begin(tools.path("rawgrid"), ["debug", "--live"], stdin=subprocess.PIPE)
    process.stdin.write(head + b"echo a\n")
    process.stdin.flush()
    process.stdout.readline()
    process.stdout.close()
    process.stdin.write(b"echo b\n")
    process.stdin.close()
    err = process.stderr.read()
    status = process.wait(timeout=60)
    tally.count("closed pipes")
    tally.expect(status == 8 and err == b"write fault\n", f"debug --live: {told(status)} {err} on a pipe that is closed")


def shrink(pipe):
    set_pipe_size = 1031
    fcntl.fcntl(pipe, set_pipe_size, 4096)


def feed(pipe, data):
    try:
        pipe.write(data)
        pipe.close()
    except BrokenPipeError:
        pass


def odd_streams(tools, tally):
    """A full device, a folder, closed streams, a slow pipe, an input without end."""
    one = Row(tools, "runs/one-tile-adds-and-halts", None)
    bad = Row(tools, "refused/bad-size-of-nine-columns", None)
    live = Row(tools, "live/two-words", None)
    with open("/dev/full", "wb") as full:
        for row in (one, live):
            name = f"{row.name}, to a full device"
            ended(tally, name, started(tools, row, stdout=full), 8, err=b"write fault\n")
            name = f"{row.name}, with err on a full device"
            ended(tally, name, started(tools, row, stderr=full), 0, out=row.due.out)
        ended(tally, "a refused set, with err on a full device", started(tools, bad, stderr=full), 2, out=b"")
    folder = os.open("/", os.O_RDONLY)
    for row in (one, live):
        path, words = tools.path("rawlive" if row.is_live else "rawgrid"), row.words
        read_fault = {"err": b"read fault\n", "out": b""}
        ended(tally, f"{row.name}, from a folder", begin(path, words, stdin=folder), 7, **read_fault)
        ended(tally, f"{row.name}, without input", closed(path, words, 0), 7, **read_fault)
        ended(tally, f"{row.name}, without output", started(tools, row, closes=1), 8, err=b"write fault\n")
        ended(tally, f"{row.name}, without err", started(tools, row, closes=2), 0, out=row.due.out)
        ended(tally, f"{row.name}, a byte at a time", slowly(path, words, row.input), 0, err=b"", out=row.due.out)
        with open("/dev/zero", "rb") as zeros:
            ended(tally, f"{row.name}, an input without end", begin(path, words, stdin=zeros), 10, out=b"")
    ended(tally, "a refused set, without err", started(tools, bad, closes=2), 2, out=b"")
    os.close(folder)


def closed(path, words, fd, **streams):
    """Begins the program with a standard stream closed."""
    return begin(path, words, preexec_fn=lambda: os.close(fd), **streams)


def started(tools, row, closes=None, **streams):
    """Begins the program on the input of a row."""
    path = tools.path("rawlive" if row.is_live else "rawgrid")
    source = tools.file(row.input)
    if closes is None:
        return begin(path, row.words, stdin=source, **streams)
    return closed(path, row.words, closes, stdin=source, **streams)


def unread(pipe):
    """How many bytes nobody took from the pipe yet."""
    count = array.array("i", [0])
    fcntl.ioctl(pipe, termios.FIONREAD, count)
    return count[0]


def slowly(path, words, data):
    """Begins the program, and gives it one byte at a time, the next one only once that one was taken."""
    process = begin(path, words, stdin=subprocess.PIPE, bufsize=0)

    def give():
        for i in range(len(data)):
            process.stdin.write(data[i : i + 1])
            while unread(process.stdin):
                os.sched_yield()
        process.stdin.close()
        process.stdin = None

    giver = threading.Thread(target=give)
    giver.start()
    giver.join()
    return process
