"""The runs whose calls are let fail: each command of both programs, on inputs of the cases of tests/."""
import os
import subprocess

TESTS = os.path.dirname(os.path.dirname(os.path.abspath(__file__)))

PIPELINE = "runs/a-pipeline-of-1000-words"
ONE_TILE = "runs/one-tile-adds-and-halts"
TWO_VALUES = "runs/two-values-of-one-network"
TWO_WORDS = "live/two-words"

# The cases, each with other words than its own where it has some here.
SMALL = [
    (ONE_TILE, None),
    (TWO_VALUES, None),
    (TWO_VALUES, "run --workers 2"),
    (ONE_TILE, "picture"),
    (TWO_VALUES, "cycles"),
    (TWO_VALUES, "cycles --lost"),
    (TWO_VALUES, "path"),
    (TWO_VALUES, "trace --whole"),
    (TWO_VALUES, "explore --from 1 --cycles 2"),
    (TWO_VALUES, "depths"),
    (TWO_VALUES, "steady"),
    (TWO_VALUES, "names"),
    (TWO_VALUES, "lines"),
    ("images/run-of-version-2", None),
    ("images/asm-writes-version-2", None),
    ("images/list-of-version-1", None),
    (TWO_VALUES, "history"),
    (TWO_VALUES, "history --workers 2"),
    ("histories/lawful", None),
    ("histories/the-first-step-waits", None),
    ("scripts/forth-and-back", None),
    ("scripts/live-goes-on-behind-faulty-lines", None),
    ("claims/a-sum", None),
    ("claims/an-absolute-value", None),
    ("claims/an-or-for-an-exclusive-or", None),
    ("plans/one-send-to-the-east", None),
    ("flows/one-constant", None),
    ("flows/one-constant", "run --flow"),
    ("flows/one-constant", "flow --schedule"),
    ("flows/endless-without-sources", None),
    ("plans/one-send-to-the-east", "cycles --plan"),
    ("work/1", None),
    ("work/2", "work 2 --workers 4"),
    ("words/help", None),
    ("words/version", None),
    ("words/refused-no-words", None),
    ("refused/bad-size-of-nine-columns", None),
    (TWO_WORDS, None),
    (TWO_WORDS, "--workers 2"),
    ("live/a-put-line-to-no-source", None),
    ("live/a-fault-of-the-set", None),
    ("live/two-words", "--help"),
]
LARGE = [
    (PIPELINE, None),
    (PIPELINE, "run --workers 4"),
    (PIPELINE, "picture --workers 4"),
    (PIPELINE, "history --workers 4"),
    (PIPELINE, "cycles"),
    (PIPELINE, "trace"),
    (PIPELINE, "asm"),
]


class Row:
    """A run: the program's name, its words and its input, and what it comes to where nothing fails."""

    def __init__(self, tools, case, words):
        folder = os.path.join(TESTS, case)
        if words is None:
            with open(f"{folder}/words") as it:
                words = it.read()
        self.is_live = case.startswith("live/")
        self.words = words.split()
        self.name = f"{'rawlive' if self.is_live else 'rawgrid'} {' '.join(self.words)} on {case}"
        self.input = input_of(folder)
        self.program = tools.rawlive if self.is_live else tools.rawgrid
        # Which list of steps a history by several workers has is left to the threads.
        self.varies = self.words[:1] == ["history"] and "--workers" in self.words
        # `debug --live` has answered the whole lines that it was given, by the bytes up to the last of them.
        self.answered = {} if "--live" in self.words else None
        self.due = self.run()

    def run(self, **how):
        return self.program.run(self.words, self.input, **how)

    def is_whole(self, run):
        """Whether the run did all that is due."""
        same = len(run.out) == len(self.due.out) if self.varies else run.out == self.due.out
        return same and (run.status, run.err) == (self.due.status, self.due.err)

    def is_front(self, out):
        """Whether these bytes begin what is due."""
        return len(out) <= len(self.due.out) if self.varies else self.due.out.startswith(out)

    def is_early(self, out, given=0):
        """Whether these bytes may stand on `out` where the run ended with a failure that is none of `out`, behind so many
        bytes of input."""
        if self.is_live:
            return self.is_front(out) and b"rest" not in out and (not out or out.endswith(b"\n"))
        if self.answered is not None:
            return out == self.answers(self.input[: self.input.rfind(b"\n", 0, given) + 1])
        return not out

    def answers(self, lines):
        """What is answered to an input of whole lines: nothing where they end before the line `script` or with it."""
        if lines not in self.answered:
            self.answered[lines] = self.program.run(self.words, lines).out
        return self.answered[lines]


def input_of(folder):
    if os.path.exists(f"{folder}/make"):
        return subprocess.run(["./make"], cwd=folder, stdout=subprocess.PIPE, check=True).stdout
    if os.path.exists(f"{folder}/in"):
        with open(f"{folder}/in", "rb") as it:
            return it.read()
    return b""
