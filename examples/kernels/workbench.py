"""A workbench for program sets of rawgrid: writes their text, runs them, and reads reports into plain values.

One file that needs the standard library alone; copy it beside your own scripts. Python 3.8 or later.

    import workbench

    adder = workbench.ProgramSet(1, 1, limit=100)
    adder.source(1, 0, 0, "W", [3, 4])
    adder.sink(1, 0, 0, "E", room=1)
    adder.tile(0, 0, "addu $5, $24, $0 \n addu $24, $5, $24 \n halt")
    adder.switch(0, 0, "1:W>P \n 1:W>P \n halt 1:P>E")
    report = workbench.run(adder.text())
    print(report.outcome, report.sinks[1, 0, 0, "E"].words)      # done [7]

Words are numbers from 0 to 2^32 - 1; where a set is written, negative numbers stand for their two's complements.
Places are pairs (column, row), and ports are (network, column, row, side).
"""
import os
import subprocess
from dataclasses import dataclass, field
from typing import Dict, List, Optional, Tuple

MASK = 0xFFFFFFFF
WORDS_ON_A_LINE = 16

Place = Tuple[int, int]
Port = Tuple[int, int, int, str]


# Sets

class ProgramSet:
    """The text of a set, made line by line. The methods take what the lines of the text take, in the same order."""

    def __init__(self, columns, rows, limit, depth=None, about=""):
        """`limit` is how many instructions each processor executes at most, `depth` how many values a wire holds
        (4 where it is not said), and `about` is a comment for the first lines of the text."""
        self.columns, self.rows, self.limit, self.depth, self.about = columns, rows, limit, depth, about
        self.constants = {}
        self._ports, self._feeds, self._memories, self._shows, self._programs = [], [], [], [], []

    def places(self):
        """All places, row by row: the order in which tiles are numbered."""
        return [(x, y) for y in range(self.rows) for x in range(self.columns)]

    def define(self, **constants):
        """Names numbers for all programs: after define(rows=8), `{rows}` in a program is 8."""
        self.constants.update(constants)

    def source(self, network, x, y, side, words=()):
        """A source at this side of an edge tile, and the words that it sends."""
        self._ports.append(f"source {network} {x} {y} {side}")
        self._feeds += _long_lines(f"feed {network} {x} {y} {side}", words)

    def sink(self, network, x, y, side, room):
        """A sink there, with room for so many words."""
        self._ports.append(f"sink {network} {x} {y} {side} {room}")

    def data(self, x, y, address, words):
        """Words in the memory of a tile, from this address on, which is a multiple of 4."""
        for first in range(0, len(words), WORDS_ON_A_LINE):
            line = f"data {x} {y} {address + 4 * first}"
            self._memories += _long_lines(line, words[first:first + WORDS_ON_A_LINE])

    def misses(self, x, y, turns):
        """How many turns the tile pauses after its first miss, its second one, and so on: 0 to 255 each."""
        self._memories += _long_lines(f"misses {x} {y}", turns)

    def show(self, x, y, address, count):
        """Has the report show so many words of the memory of a tile."""
        self._shows.append(f"show {x} {y} {address} {count}")

    def tile(self, x, y, program, **numbers):
        """The program of a tile, as tile text. `{name}` in it is a number of this call or of `define`."""
        self._section(f"tile {x} {y}", program, numbers)

    def switch(self, x, y, program, **numbers):
        """The program of the switch beside a tile, as switch text, with numbers in it as in that of a tile."""
        self._section(f"switch {x} {y}", program, numbers)

    def all_tiles(self, program, numbers=lambda x, y: {}):
        """Gives all tiles one program, in which those have numbers of their own: numbers(x, y) is a dict of them."""
        for x, y in self.places():
            self.tile(x, y, program, **numbers(x, y))

    def all_switches(self, program, numbers=lambda x, y: {}):
        """Gives all switches one program, as `all_tiles` does."""
        for x, y in self.places():
            self.switch(x, y, program, **numbers(x, y))

    def _section(self, head, program, numbers):
        text = layout(program.format(**{**self.constants, **numbers}))
        if text:
            self._programs.append(f"{head}\n{text}\nend")

    def text(self):
        """The text of the set, which `rawgrid run` reads."""
        about = [f"# {line}".rstrip() for line in self.about.strip().splitlines()]
        head = [f"grid {self.columns} {self.rows}", f"limit {self.limit}"]
        depth = [] if self.depth is None else [f"depth {self.depth}"]
        lines = about + head + depth + self._ports + self._feeds + self._memories + self._shows + self._programs
        return "\n".join(lines) + "\n"


def _long_lines(start, words):
    """Lines that begin with `start`, each with the next words behind it."""
    words = [str(word) if -1 << 31 <= word < 0 else str(word & MASK) for word in words]
    return [" ".join([start] + words[first:first + WORDS_ON_A_LINE]) for first in range(0, len(words), WORDS_ON_A_LINE)]


def layout(program):
    """The lines of a program in columns: labels at the left edge, then names, operands and comments."""
    lines = []
    for line in program.splitlines():
        code, _, comment = (part.strip() for part in line.partition("#"))
        if code:
            lines.append(_laid_out(code, comment))
        elif comment:
            lines.append(f"        # {comment}")
    return "\n".join(lines)


def _laid_out(code, comment):
    words = code.split()
    label = words.pop(0) if words[0].endswith(":") else ""
    is_named = words and ">" not in words[0]
    name = [f"{words.pop(0):<5}"] if is_named else []
    line = f"{label:<7} " + " ".join(name + words)
    return (f"{line:<35} # {comment}" if comment else line).rstrip()


# Runs

class Refused(Exception):
    """The program refused the words, the text or the image. `line` is the faulty line, `offset` the faulty byte."""

    def __init__(self, message):
        super().__init__(message)
        # (./try says more before its line, and no kind)
        words = (message.splitlines() or [""])[-1].replace(":", "").split()
        self.kind = words[-1] if words[:1] == ["refused"] else ""
        self.line = int(words[2]) if words[1:2] == ["line"] else None
        self.offset = int(words[3]) if words[1:3] == ["image", "at"] else None


class Failed(Exception):
    """The program could not be called, could not read, write or take memory, or ended in a way that it does not document."""


OUTCOME_STATUSES = {0: "done", 3: "deadlock", 4: "stuck", 5: "trapped", 6: "limit"}
# Of `check` and of `prove`: an answer like any other, and the lines that say why were written.
ANSWER_STATUSES = {11: "unlawful", 12: "unproved", 13: "refuted"}


def call(words, stdin, program=None):
    """Calls rawgrid with these words, and returns what it wrote. `stdin` and the result are bytes.

    The program is `program`, or that of the environment variable RAWGRID, or else the one on the PATH.
    Outcomes such as a deadlock, a history that is not lawful and a claim that is not proved are answers.
    Raises Refused and Failed.
    """
    program = program or os.environ.get("RAWGRID") or "rawgrid"
    try:
        ended = subprocess.run([program, *words], input=stdin, stdout=subprocess.PIPE, stderr=subprocess.PIPE)
    except OSError as error:
        raise Failed(f"{program}: {error.strerror}; RAWGRID names another program") from None
    message = ended.stderr.decode("ascii", "replace").strip()
    if ended.returncode == 2:
        raise Refused(message)
    if ended.returncode not in OUTCOME_STATUSES and ended.returncode not in ANSWER_STATUSES:
        raise Failed(message or f"status {ended.returncode}")
    return ended.stdout


def _ask(words, text, program):
    """What a command writes of the text of a set, or of an image where it is bytes."""
    image = ["--image"] if isinstance(text, bytes) else []
    stdin = text if isinstance(text, bytes) else text.encode("ascii")
    return call(words[:1] + image + words[1:], stdin, program).decode("ascii")


def run(text, program=None, workers=None):
    """Runs the text of a set, or an image where it is bytes, and returns its Report."""
    number = [] if workers is None else ["--workers", str(workers)]
    return read_report(_ask(["run"] + number, text, program))


def with_words(text, words):
    """The text of a set whose sources send other words: `words` has those of ports, each a list.

    Sources that are not named keep theirs. Raises KeyError where a port is no source of the set.
    """
    lines, left = [], dict(words)
    for line in text.splitlines():
        kind, *tokens = line.split("#")[0].replace(",", " ").split() or [""]
        port = _port_of(tokens) if kind in ("source", "feed") else None
        if kind == "feed" and port in words:
            continue
        lines.append(line)
        if kind == "source" and port in left:
            lines += _long_lines(f"feed {' '.join(map(str, port))}", left.pop(port))
    if left:
        raise KeyError(next(iter(left)))
    return "\n".join(lines) + "\n"


def _port_of(tokens):
    """The port that the tokens behind `source` or `feed` name."""
    network, x, y = (int(token, 16 if token.startswith("0x") else 10) for token in tokens[:3])
    return network, x, y, tokens[3]


# Reports

@dataclass
class Wait:
    """A processor that waits on a wire for the one at its other end; all three by number."""
    processor: int
    wire: int
    other: int


@dataclass
class Source:
    mark: str
    sent: int


@dataclass
class Sink:
    mark: str
    words: List[int] = field(default_factory=list)


@dataclass
class Processor:
    """A tile or a switch at rest: its mark, how many instructions it has executed, and where it stands."""
    mark: str
    count: int
    pc: int
    registers: List[int] = field(default_factory=list)


@dataclass
class Cache:
    misses: int
    turns: int


@dataclass
class Report:
    """A report, part by part. `outcome` is done, deadlock, stuck, trapped or limit.

    `waits` is the cycle of a deadlock or the chain of one that is stuck, and `end` then the processor in which the
    chain ends, with its mark. `processor` is the one that is named where the outcome is trapped or limit.
    """
    outcome: str
    processor: Optional[int] = None
    cause: Optional[str] = None
    waits: List[Wait] = field(default_factory=list)
    end: Optional[Tuple[int, str]] = None
    sources: Dict[Port, Source] = field(default_factory=dict)
    sinks: Dict[Port, Sink] = field(default_factory=dict)
    tiles: Dict[Place, Processor] = field(default_factory=dict)
    switches: Dict[Place, Processor] = field(default_factory=dict)
    memory: Dict[Place, Dict[int, int]] = field(default_factory=dict)
    wires: Dict[int, List[int]] = field(default_factory=dict)
    caches: Dict[Place, Cache] = field(default_factory=dict)

    def words(self, x, y, address, count):
        """So many words of the memory of a tile, which the set has to show."""
        memory = self.memory[x, y]
        return [memory[address + 4 * k] for k in range(count)]

    def steps(self):
        """How many instructions all tiles and switches have executed."""
        return sum(processor.count for part in (self.tiles, self.switches) for processor in part.values())


@dataclass
class Spent:
    """In how many cycles a processor fired, stalled for its cache, waited for a value or for room, was stopped."""
    fired: int = 0
    stalled: int = 0
    starved: int = 0
    blocked: int = 0
    stopped: int = 0


@dataclass
class Cycles:
    """What `rawgrid cycles` counts: all processors that can step do so at once, in each cycle.

    `waited` has for each wait, by the numbers of its processor and its wire, in how many cycles it stood. `passed` has
    for each wire how many values went through it.
    """
    outcome: str
    cycles: int = 0
    steps: int = 0
    tiles: Dict[Place, Spent] = field(default_factory=dict)
    switches: Dict[Place, Spent] = field(default_factory=dict)
    sources: Dict[Port, Spent] = field(default_factory=dict)
    sinks: Dict[Port, Spent] = field(default_factory=dict)
    waited: Dict[Tuple[int, int], int] = field(default_factory=dict)
    passed: Dict[int, int] = field(default_factory=dict)


def cycles(text, program=None):
    """Counts the cycles of the text of a set, or of an image where it is bytes, and returns its Cycles."""
    return read_cycles(_ask(["cycles"], text, program))


def read_cycles(text):
    """Reads what `rawgrid cycles` writes."""
    lines = [line.split() for line in text.splitlines()]
    counted = Cycles(lines[0][1])
    for words in lines[1:]:
        _read_count(counted, words)
    return counted


def _read_count(counted, words):
    first = words[0]
    if first == "cycles":
        counted.cycles, counted.steps = int(words[1]), int(words[3])
    elif first in ("tile", "switch"):
        part = counted.tiles if first == "tile" else counted.switches
        part[_place(words)] = _spent(words[3:])
    elif first in ("source", "sink"):
        part = counted.sources if first == "source" else counted.sinks
        part[_port(words)] = _spent(words[5:])
    elif first == "wait" and "cycles" in words:
        counted.waited[int(words[1]), int(words[3])] = int(words[7])
    elif first == "passed":
        counted.passed[int(words[1])] = int(words[2])


def _spent(words):
    return Spent(**{kind: int(count) for kind, count in zip(words[::2], words[1::2])})


# Claims, depths, names and traces

@dataclass
class Verdict:
    """What `rawgrid prove` says of a set and a claim: whether it is proved or refuted, and the first line that it wrote.

    Of a refutation, `words` are those of the sources by their ports, as `with_words` takes them. Where an out is wrong,
    `word` is what the set gives and `claim` what is claimed.
    """
    is_proved: bool
    line: str
    is_refuted: bool = False
    words: dict = field(default_factory=dict)
    word: int = None
    claim: int = None


def prove(text, claim, program=None):
    """Asks whether the text of a set is proved to do what a claim says, for all words, and returns the Verdict.

    The claim is the text of a flow, with its line `claim` or without it.
    """
    behind = claim if any(line.split("#")[0].split() == ["claim"] for line in claim.splitlines()) else "claim\n" + claim
    line, *rest = _ask(["prove"], text.rstrip("\n") + "\n" + behind, program).splitlines()
    verdict = Verdict(line.startswith("proved"), line, line.startswith("refuted"))
    for kind, *words in map(str.split, rest):
        if kind == "feed":
            network, x, y, side = words[:4]
            verdict.words.setdefault((int(network), int(x), int(y), side), []).extend(int(word, 16) for word in words[4:])
        elif kind == "word":
            verdict.word = int(words[0], 16)
        else:
            verdict.claim = int(words[0], 16)
    return verdict


@dataclass
class Depths:
    """What `rawgrid depths` says: the outcome and the steps at each depth, and from where on reports are the same.

    `done_from` is the depth from which the set is done. `never_done_from` is that of the deadlock for which it never
    is, and `waits` its cycle. Where neither can be said, both are None.
    """
    outcomes: Dict[int, str] = field(default_factory=dict)
    steps: Dict[int, int] = field(default_factory=dict)
    same_from: int = 0
    done_from: Optional[int] = None
    never_done_from: Optional[int] = None
    waits: List[Wait] = field(default_factory=list)


def depths(text, program=None):
    """Runs the text of a set, or an image where it is bytes, at each depth of its wires, and returns its Depths."""
    found = Depths()
    for line in _ask(["depths"], text, program).splitlines():
        words = line.split()
        if words[0] == "depth":
            found.outcomes[int(words[1])], found.steps[int(words[1])] = words[2], int(words[4])
        elif words[0] == "same":
            found.same_from = int(words[2])
        elif words[0] == "done":
            found.done_from = int(words[2])
        elif words[0] == "never":
            found.never_done_from = int(words[4])
        elif words[0] == "wait":
            found.waits.append(Wait(int(words[1]), int(words[3]), int(words[5])))
    return found


@dataclass
class Stretch:
    """Turns of one processor in cycles that follow each other; `wait` is `value` or `room`, and `wire` what it was for."""
    processor: int
    first: int
    turns: int
    pcs: Tuple[int, int]
    wait: Optional[str] = None
    wire: Optional[int] = None


@dataclass
class Path:
    """What `rawgrid path` says: the turns that each cycle had to wait for, in stretches from the first cycle on.

    `own`, `values` and `room` count the turns that come after an own turn, after a wait for a value and after one for
    room. `turns` has how many turns of the path each processor takes.
    """
    outcome: str = ""
    cycles: int = 0
    steps: int = 0
    fired: int = 0
    stalled: int = 0
    own: int = 0
    values: int = 0
    room: int = 0
    turns: Dict[int, int] = field(default_factory=dict)
    stretches: List[Stretch] = field(default_factory=list)


def path(text, program=None):
    """Finds what bounds the cycles of the text of a set, or of an image where it is bytes, and returns its Path."""
    lines = [line.split() for line in _ask(["path"], text, program).splitlines()]
    found = Path(lines[0][1])
    for words in lines[1:]:
        if words[0] == "cycles":
            found.cycles, found.steps = int(words[1]), int(words[3])
        elif words[0] == "path":
            found.fired, found.stalled, found.own, found.values, found.room = (int(words[i]) for i in (2, 4, 6, 8, 10))
        elif words[0] == "on":
            found.turns[int(words[1])] = int(words[3])
        elif words[0] == "from":
            wait = (words[10], int(words[11])) if len(words) > 10 else (None, None)
            found.stretches.append(
                Stretch(int(words[5]), int(words[1]), int(words[3]), (int(words[7]), int(words[9])), *wait))
    return found


@dataclass
class Wire:
    """A wire by its network and the two processors that it joins; of a switch, with the side: `switch 0 0 E`."""
    network: int
    producer: str
    consumer: str


@dataclass
class Names:
    """What the numbers of a set stand for: `processors[2]` is `switch 0 0`, and `wires[8]` a Wire."""
    processors: Dict[int, str] = field(default_factory=dict)
    wires: Dict[int, Wire] = field(default_factory=dict)


def names(text, program=None):
    """Asks what the numbers of the text of a set, or of an image where it is bytes, stand for: its Names."""
    found = Names()
    for line in _ask(["names"], text, program).splitlines():
        kind, number, *words = line.split()
        if kind == "processor":
            port = len(words) > 3                         # behind a port: how many words, or its room
            found.processors[int(number)] = " ".join(words[:5] if port else words)
        elif kind == "wire":
            ends = " ".join(words[3:]).split(" to ")
            found.wires[int(number)] = Wire(int(words[1]), *ends)
    return found


@dataclass
class Trace:
    """What `rawgrid trace` tells, line by line: `docs/FORMATS.md`, 'Trace', says what the entries of a line mean.

    `listing` is the text of the set. `state` has the entries of each processor before cycle `first`, and `turns` for
    each cycle from there on the entries of each processor whose turn is told. `counts` is that of the whole run.
    """
    listing: str = ""
    first: int = 0
    state: Dict[int, List[str]] = field(default_factory=dict)
    turns: Dict[int, Dict[int, List[str]]] = field(default_factory=dict)
    counts: Optional[Cycles] = None


def trace(text, first=0, most=1000, program=None):
    """Follows the text of a set, or an image where it is bytes, from cycle `first` on for at most so many cycles."""
    written = _ask(["trace", "--from", str(first), "--cycles", str(most)], text, program)
    listing, _, told = written.partition("\ntrace ")
    told, _, counts = told.partition("\ncounts\n")
    begin, *lines = told.splitlines()
    listing = "".join(line + "\n" for line in listing.splitlines() if not line.startswith(("label ", "line ")))
    found = Trace(listing, int(begin), counts=read_cycles(counts))
    now = found.state
    for line in lines:
        number, *entries = line.split()
        if number == "cycle":
            now = found.turns[int(entries[0])] = {}
        else:
            now[int(number)] = entries
    return found


def read_report(text):
    """Reads what `rawgrid run` writes."""
    lines = [line.split() for line in text.splitlines()]
    report = _read_outcome(lines[0])
    last = None
    for words in lines[1:]:
        reader = _READERS[words[0]]
        last = reader(report, words, last) or last
    return report


def _read_outcome(words):
    report = Report(words[1])
    if report.outcome in ("trapped", "limit"):
        report.processor = int(words[2])
    if report.outcome == "trapped":
        report.cause = words[3]
    return report


def _place(words):
    return int(words[1]), int(words[2])


def _port(words):
    return int(words[1]), int(words[2]), int(words[3]), words[4]


def _hex(words):
    return [int(word, 16) for word in words]


def _read_wait(report, words, _):
    report.waits.append(Wait(int(words[1]), int(words[3]), int(words[5])))


def _read_ends(report, words, _):
    report.end = int(words[1]), " ".join(words[2:])


def _read_source(report, words, _):
    report.sources[_port(words)] = Source(" ".join(words[5:-2]), int(words[-1]))


def _read_sink(report, words, _):
    sink = report.sinks[_port(words)] = Sink(" ".join(words[5:-2]))
    return sink


def _read_word(_, words, sink):
    sink.words += _hex(words[1:])


def _read_tile(report, words, _):
    tile = report.tiles[_place(words)] = Processor(" ".join(words[3:-4]), int(words[-3]), int(words[-1]))
    return tile


def _read_registers(_, words, tile):
    tile.registers += _hex(words[2:])


def _read_memory(report, words, _):
    report.memory.setdefault(_place(words), {})[int(words[3], 16)] = int(words[4], 16)


def _read_switch(report, words, _):
    mark, numbers = " ".join(words[3:-9]), words[-9:]
    report.switches[_place(words)] = Processor(mark, int(numbers[1]), int(numbers[3]), _hex(numbers[5:]))


def _read_wire(report, words, _):
    report.wires[int(words[1])] = _hex(words[2:])


def _read_stall(report, words, _):
    report.caches[_place(words)] = Cache(int(words[4]), int(words[6]))


_READERS = {"wait": _read_wait, "ends": _read_ends, "source": _read_source, "sink": _read_sink, "word": _read_word,
            "tile": _read_tile, "regs": _read_registers, "mem": _read_memory, "switch": _read_switch,
            "wire": _read_wire, "stall": _read_stall}
