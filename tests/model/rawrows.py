"""The part of the model that compares a set with a claim of rows: a stream behind the line `claim`, whose second line
says how many rows there are. It is evaluated row by row, on words, and on terms.
"""
import rawproof
from rawmodel import MASK, Grid, Sink, Source, number

# where an input or an out stands that names no place
USUAL = (1, 0, 0, "W")


def is_stream(lines):
    """Returns whether lines, as lists of words, are those of a stream and not of a flow."""
    return len(lines) > 1 and lines[1][0] == "rows"


class Stream:
    """A stream: how many rows there are, the definitions of a row, and what goes to each sink."""

    def __init__(self, lines):
        self.rows = number(lines[1][1])
        self.nodes, self.widths, self.outs = [], {}, {}
        for kind, name, *rest in lines[2:]:
            if kind == "input":
                at = self.place(rest)
                self.nodes.append((name, "input", at))
                self.widths[at] = self.widths.get(at, 0) + 1
            elif kind == "def":
                self.nodes.append((name, *rest))
            elif kind == "out":
                self.outs.setdefault(self.place(rest), []).append(name)

    @staticmethod
    def place(words):
        """Returns the place of a port that a line names, or the usual one."""
        return (int(words[0]), number(words[1]), number(words[2]), words[3]) if words else USUAL

    def values(self, words, make):
        """Yields the values of the definitions of each row, by name, where the sources have these words."""
        left, before = {at: iter(words[at]) for at in self.widths}, None
        for _ in range(self.rows):
            now = {}
            for name, kind, *parts in self.nodes:
                if kind == "input":
                    now[name] = next(left[parts[0]])
                elif kind == "const":
                    now[name] = number(parts[0]) & MASK
                elif kind == "pre":
                    now[name] = number(parts[1]) & MASK if before is None else before[parts[0]]
                else:
                    now[name] = make(kind, now[parts[0]], now[parts[1]])
            yield now
            before = now

    def due(self, words, make):
        """Returns what each sink is due of all rows, by its place."""
        due = {at: [] for at in self.outs}
        for now in self.values(words, make):
            for at, names in self.outs.items():
                due[at].extend(now[name] for name in names)
        return due


def misfed(grid, stream):
    """Returns how many words are due of the first port that has more or fewer, and how many it has, or None."""
    for port in grid.ports:
        if isinstance(port, Source):
            many = stream.rows * stream.widths.get(port.place, 0)
            if len(port.words) != many:
                return many, len(port.words)
    return None


def misgot(grid, stream):
    """Returns how many words the first sink has received that is due more or fewer, and how many, or None."""
    for port in grid.ports:
        if isinstance(port, Sink):
            many = stream.rows * len(stream.outs.get(port.place, []))
            if len(port.words) != many:
                return len(port.words), many
    return None


def words_of(grid, kind):
    """Returns the words of the ports of a kind, by their places."""
    return {port.place: port.words for port in grid.ports if isinstance(port, kind)}


def both(grid, stream, due):
    """Returns what the sinks have received, and what is due, in the order in which the stream names them."""
    got = words_of(grid, Sink)
    return [word for at in stream.outs for word in got[at]], [word for at in stream.outs for word in due[at]]


def refuted(lines, stream):
    """Returns the lines of a refutation of a stream by the words of the set, or None where its run is right."""
    grid = Grid(lines)
    fed = list(rawproof.feed_lines(grid)) if sum(map(len, words_of(grid, Source).values())) <= 4096 else []
    words = {at: list(its) for at, its in words_of(grid, Source).items()}
    grid.run()
    told, status = grid.outcome()
    if status:
        return [f"refuted: outcome {told[0].split()[1]}", *fed]
    counts = misgot(grid, stream)
    if counts:
        return [f"refuted: words {counts[0]} for {counts[1]}", *fed]
    got, due = both(grid, stream, stream.due(words, lambda op, a, b: rawproof.VALUES[op](a, b) & MASK))
    for k, (one, other) in enumerate(zip(got, due)):
        if one != other:
            return [f"refuted: out {k}", *fed, f"word {one:08x}", f"claim {other:08x}"]
    return None


def prove(lines, claim):
    """Returns the lines of `prove` of a set and a stream, but that no other words are looked for than those of the set."""
    stream = Stream(claim)
    counts = misfed(Grid(lines), stream)
    if counts:
        return ["unproved: inputs {} for {}".format(*counts)]
    own = refuted(lines, stream)
    if own:
        return own
    grid = rawproof.TermGrid(lines)
    words = {at: list(its) for at, its in words_of(grid, Source).items()}
    hangs = grid.run()
    if hangs:
        return [hangs]
    got, due = both(grid, stream, stream.due(words, rawproof.make))
    least = rawproof.least_other(got, due)
    if least is not None:
        return [f"unproved: out {least}"]
    return [f"proved {len(due)} cycles {Grid(lines).run_by_clock().cycles}"]
