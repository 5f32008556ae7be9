"""A program that is run again and again, with calls that fail: what preload.c does, as Python sees it."""
import collections
import os
import signal
import struct
import subprocess
import tempfile

# The kinds of calls, as preload.c counts them.
MEMORY, THREADS, READS, WRITES, ERRORS = KINDS = range(5)
ALL = 2**64 - 1

REQUEST = struct.Struct("<IIIIQQQ" + "QQ" * len(KINDS))
ANSWER = struct.Struct("<Q" + "Q" * 2 * len(KINDS))

# What a run came to: its status, or the signal that ended it, below 0; what it wrote; how many calls of each kind it made, and
# how many of them failed.
Run = collections.namedtuple("Run", "status out err calls failed")


def build_preload(folder):
    """Compiles preload.c into the folder, and gives the name of what it makes."""
    made = os.path.join(folder, "preload.so")
    source = os.path.join(os.path.dirname(os.path.abspath(__file__)), "preload.c")
    subprocess.run(["cc", "-O2", "-Wall", "-shared", "-fPIC", "-o", made, source, "-ldl"], check=True)
    return made


class Program:
    """A program that waits to be run. Each run is a process of its own, over files as standard streams."""

    def __init__(self, path, preload):
        memory = "/dev/shm" if os.path.isdir("/dev/shm") else None
        self.streams = [tempfile.TemporaryFile(dir=memory) for _ in range(3)]
        their_from, self.to = os.pipe()
        self.back, their_to = os.pipe()
        self.server = subprocess.Popen(
            [path],
            stdin=self.streams[0],
            stdout=self.streams[1],
            stderr=self.streams[2],
            pass_fds=(their_from, their_to),
            env={"LD_PRELOAD": preload, "HOSTILE_PIPES": f"{their_from} {their_to}"},
        )
        os.close(their_from)
        os.close(their_to)

    def run(self, words, data=b"", fails=(), piece=0, seconds=60, space=0, cores=(), grown=0):
        """Runs it once. `fails` is (KIND, FIRST, COUNT): so many calls of the kind fail, from the first of these on."""
        failing = [0] * (2 * len(KINDS))
        if fails:
            kind, first, count = fails
            failing[2 * kind : 2 * kind + 2] = first, count
        fd = self.streams[0].fileno()
        os.ftruncate(fd, len(data))
        os.pwrite(fd, data, 0)
        words = [word if isinstance(word, bytes) else word.encode() for word in words]
        text = b"".join(word + b"\0" for word in words)
        mask = sum(1 << core for core in cores)
        os.write(self.to, REQUEST.pack(len(text), len(words), piece, seconds, space, mask, grown, *failing) + text)
        answer = os.read(self.back, ANSWER.size)
        if len(answer) != ANSWER.size:
            raise RuntimeError(f"the process behind the runs has ended: {self.written(2)!r}")
        status, *counts = ANSWER.unpack(answer)
        status = -os.WTERMSIG(status) if os.WIFSIGNALED(status) else os.WEXITSTATUS(status)
        return Run(status, self.written(1), self.written(2), counts[: len(KINDS)], counts[len(KINDS) :])

    def written(self, stream):
        fd = self.streams[stream].fileno()
        return os.pread(fd, os.fstat(fd).st_size, 0)

    def size(self):
        """How many bytes of address space it has before a run begins."""
        with open(f"/proc/{self.server.pid}/statm") as statm:
            return int(statm.read().split()[0]) * os.sysconf("SC_PAGE_SIZE")

    def close(self):
        os.close(self.to)
        self.server.wait()
        os.close(self.back)


def told(status):
    """A status in words."""
    return f"status {status}" if status >= 0 else f"signal {signal.Signals(-status).name}"
