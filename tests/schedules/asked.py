"""What both scripts ask the built program, and what they make of its answers."""
import collections
import os
import re
import subprocess

from direct import MASK

ROOT = os.path.dirname(os.path.dirname(os.path.dirname(os.path.abspath(__file__))))
# What ./rawgrid built. (That sums up all sources in each call.)
PROGRAM = f"{ROOT}/crates/rawgrid/out/rawgrid"
SPECIAL = [0, 1, 2, 31, 32, 0x7FFF, 0x8000, 0xFFFF, 0x10000, 0x7FFFFFFF, 0x80000000, MASK - 1, MASK]
VERDICT = re.compile(
    r"(proved \d+(?: cycles \d+)?|unproved at \d+: .* hangs on an input|unproved: (inputs \d+ for \d+|out \d+|too many terms)"
    r"|refuted: (outcome [a-z ]+|words \d+ for \d+|out \d+)(\n(feed|word|claim) .*)*)\n"
)
STATUSES = {"proved": 0, "unproved": 12, "unproved:": 12, "refuted:": 13}


def is_built():
    """Has ./rawgrid build the program where it is not there, and returns whether it runs."""
    return subprocess.run([f"{ROOT}/rawgrid", "--version"], stdout=subprocess.DEVNULL).returncode == 0


def rawgrid(words, text):
    """Runs the program, and gives its status, output and errors."""
    done = subprocess.run([PROGRAM, *words], input=text.encode(), stdout=subprocess.PIPE, stderr=subprocess.PIPE, timeout=600)
    return done.returncode, done.stdout.decode(), done.stderr.decode()


def made(name, *size):
    """The text of a flow of bench/flows."""
    return subprocess.run([f"{ROOT}/bench/flows", name, *map(str, size)], stdout=subprocess.PIPE, check=True).stdout.decode()


def with_words(text, words):
    """The set with these words in its source."""
    lines = [line for line in text.splitlines() if not line.startswith("feed ")]
    at = 1 + max(k for k, line in enumerate(lines) if line.split()[0] in ("source", "sink"))
    lines[at:at] = ["feed 1 0 0 W " + " ".join(map(str, words[k : k + 8])) for k in range(0, len(words), 8)]
    return "\n".join(lines) + "\n"


def received(text):
    """The outcome and the words of the sink of a set; None where it does not run."""
    status, out, _ = rawgrid(["run", "--workers", "1"], text)
    if status not in (0, 3, 4, 5, 6):
        return None
    return out.split("\n", 1)[0], [int(line[5:], 16) for line in out.splitlines() if line.startswith("word ")]


def some_words(chance, count):
    return [chance.choice(SPECIAL) if chance.randrange(3) == 0 else chance.randrange(1 << 32) for _ in range(count)]


class Tried:
    """What was counted and what went wrong for one flow."""

    def __init__(self, name):
        self.name, self.counts, self.wrong = name, collections.Counter(), []

    def expect(self, right, what):
        self.counts["checks"] += 1
        if not right:
            self.wrong.append(f"{self.name}: {what}")


def verdict(tried, text, claim):
    """What `prove` says of a set and a claim."""
    status, out, err = rawgrid(["prove"], text + "claim\n" + claim.text())
    tried.expect(VERDICT.fullmatch(out) and not err and status == STATUSES[out.split()[0]], f"prove: {status} {out!r} {err!r}")
    return out.strip()


def some_lists(inputs, chance):
    """The words of the inputs, and some others."""
    return [inputs] + [some_words(chance, len(inputs)) for _ in range(5)]


def try_refutation(tried, flow, text, out):
    """A refutation says what a run of the set with its words gives, and what the flow does."""
    first, *rest = out.splitlines()
    words = [int(word, 16) for line in rest if line.startswith("feed ") for word in line.split()[5:]]
    told = dict(line.split() for line in rest if not line.startswith("feed "))
    (outcome, got), outs = received(with_words(text, words)), flow.outs(words)
    if outcome != "outcome done":
        due = "refuted: " + " ".join(outcome.split()[:2])
    elif len(got) != len(outs):
        due = f"refuted: words {len(got)} for {len(outs)}"
    else:
        k = next((k for k, (a, b) in enumerate(zip(got, outs)) if a != b), None)
        due = f"refuted: out {k}"
        pair = {} if k is None else {"word": f"{got[k]:08x}", "claim": f"{outs[k]:08x}"}
        tried.expect(told == pair, f"a refutation: {out!r}, and {pair}")
    tried.expect(first == due, f"a refutation: {first}, and {due}")
