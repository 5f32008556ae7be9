"""What the kernels of this folder share: sets that say what their reports have to be, exchanges, and a command line.

    NAME.py TILES [--seed N] [--depth N] [--small] [--miss N] [--expect] [--claim]

TILES is 1, 4, 16 or 64. The text of the set is written; with --expect it is the lines `outcome`, `sink`, `word` and
`mem` that its report has to have. These are computed from the definition of the problem, never by emulation.
With --claim it is the claim that the set computes the problem for all words of its sources, of a kernel that has one:
`prove` reads it behind the set.
With --miss N each miss of a cache costs N turns. How many there are is known by a run alone: so the set is run first,
by the program of the environment variable RAWGRID, or ./rawgrid at the top of the repository, or the one on the PATH.
"""
import argparse
import os
import random
import sys

import workbench
from workbench import MASK

SIDES = {1: 1, 4: 2, 16: 4, 64: 8}
LIMIT = 10_000_000
BUILT = f"{os.path.dirname(os.path.realpath(__file__))}/../../rawgrid"
PROGRAM = os.environ.get("RAWGRID") or (BUILT if os.path.isfile(BUILT) else "rawgrid")
# how many numbers the miss streams of a set have at most, all together
MISSES = 262_144


class DoesNotFit(Exception):
    """The problem cannot be dealt to so many tiles."""


class KernelSet(workbench.ProgramSet):
    """A set on a square of tiles, or on so many rows, that also knows what has to come out of it."""

    def __init__(self, side, about, rows=None):
        super().__init__(side, rows or side, LIMIT, about=about)
        self._due_sinks, self._due_memory = [], []
        self.claim = None

    def expect_sink(self, network, x, y, side, words):
        """A sink with room for these words, which it has to get."""
        self.sink(network, x, y, side, len(words))
        self._due_sinks.append(f"sink {network} {x} {y} {side} full got {len(words)}")
        self._due_sinks += [f"word {word & MASK:08x}" for word in words]

    def expect_memory(self, x, y, address, words):
        """Shows the words of a tile's memory from this address on, which have to be these in the end."""
        self.show(x, y, address, len(words))
        self._due_memory += [f"mem {x} {y} 0x{address + 4 * k:08x} {word & MASK:08x}" for k, word in enumerate(words)]

    def expected(self):
        """The lines of the report that are known beforehand."""
        return "\n".join(["outcome done"] + self._due_sinks + self._due_memory) + "\n"

    def claim_lines(self, *parts):
        """Claims of the set what these lines say, a flow or a stream on a grid of its size."""
        self.claim = lines("claim", f"grid {self.columns} {self.rows}", *parts) + "\n"


# Programs

def lines(*parts):
    """A program of these lines and lists of lines, without those that are empty or None."""
    program = []
    for part in parts:
        program += [part] if isinstance(part, str) else [line for line in part or [] if line]
    return "\n".join(line for line in program if line)


def unrolled(count, body):
    """The lines that body(j) gives for each j below count, one after another."""
    return "\n".join(body(j) for j in range(count))


def routes(*parts):
    """The routes on one line of a switch, without those that are empty or None."""
    return " ".join(part for part in parts if part)


def loop(label, *body, register="r0"):
    """The lines of a switch as a loop, which counts a register down on its last line.

    `bnezd` goes back while the register was not 0, and lowers it in any case: so the loop is done once more than the
    register says.
    """
    body = [line for line in body if line]
    body[-1] = f"bnezd {register}, {label} {body[-1]}"
    body[0] = f"{label}: {body[0]}"
    return body


# Placements and ways through the grid

def snake(side):
    """All places, the first row to the east, the next one back to the west, and so on: each beside the last one."""
    return [(x if y % 2 == 0 else side - 1 - x, y) for y in range(side) for x in range(side)]


def snake_end(side):
    """The side at which a snake leaves the grid."""
    return "E" if side % 2 else "W"


def side_towards(place, other):
    """The side of a place at which its neighbour lies."""
    (x, y), (other_x, other_y) = place, other
    return {(1, 0): "E", (-1, 0): "W", (0, 1): "S", (0, -1): "N"}[other_x - x, other_y - y]


def snake_sides(side, k):
    """The sides at which the snake comes into its k-th place and leaves it. It comes in from the west."""
    places = snake(side)
    come = side_towards(places[k], places[k - 1]) if k else "W"
    go = side_towards(places[k], places[k + 1]) if k + 1 < len(places) else snake_end(side)
    return come, go


# Exchanges

def one_way(position, distance, network, come, go, is_lower):
    """Switch lines that bring a word from each lower tile of a line to the tile `distance` further on, or back.

    A group of 2 distance tiles has `distance` pairs: the tiles at i and i + distance. The pairs take the line one
    after another, and the switches between pass the word on. All words go the same way, so no two switches wait for
    each other, at any depth.
    """
    place = position % (2 * distance)
    body = []
    for i in range(distance):
        first, last = (i, i + distance) if is_lower else (i + distance, i)
        if place == first:
            body.append(f"{network}:P>{go}")
        elif place == last:
            body.append(f"{network}:{come}>P")
        elif i < place < i + distance:
            body.append(f"{network}:{come}>{go}")
    return body


def exchange(label, position, distance, forth, back, count):
    """Two loops of a switch: its tile and the partner at that distance on a line swap words.

    They swap one word more than the switch register `count` says. First the lower one of the two gives all of its
    words, on network 1, then the other one, on network 2. (Word by word in both directions is right too, and slow:
    switches between the two ends, each with a line for either direction, wait for each other twice for each word.)
    `forth` and `back` are the sides towards the upper and the lower end of the line.
    """
    there = one_way(position, distance, 1, back, forth, True)
    home = one_way(position, distance, 2, forth, back, False)
    return [f"move r0, {count}", *loop(f"{label}f", *there), f"move r0, {count}", *loop(f"{label}b", *home)]


class Placement:
    """Where the tiles of a power of two stand: each bit of a tile's number is a bit of its column or of its row.

    `rows` is row by row: the low bits are those of the column. `z-order` takes bits of both in turn, so that tiles
    whose numbers differ in a low bit lie near each other in both directions.
    """
    ORDERS = ("rows", "z-order")

    def __init__(self, side, order="rows"):
        distances = [1 << k for k in range(side.bit_length() - 1)]
        if order == "rows":
            self._axes = [(0, distance) for distance in distances] + [(1, distance) for distance in distances]
        else:
            self._axes = [(axis, distance) for distance in distances for axis in (0, 1)]

    def place(self, tile):
        """The column and the row of a tile."""
        place = [0, 0]
        for k, (axis, distance) in enumerate(self._axes):
            place[axis] += (tile >> k & 1) * distance
        return place[0], place[1]

    def exchange(self, label, place, bit, count):
        """The exchange of the tile at a place with the one whose number differs in the bit of this value."""
        axis, distance = self._axes[bit.bit_length() - 1]
        forth, back = ("E", "W") if axis == 0 else ("S", "N")
        return exchange(label, place[axis], distance, forth, back, count)


def sum_of_tiles(x, y, side, operation, register):
    """Tile lines that bring the sum of a register over all tiles to tile 0 and out of the grid in the north.

    `operation` is addu, or another one of two registers; the words go as `sum_to_first` routes them.
    """
    if x > 0:
        return f"{operation} $24, {register}, {'$24' if x < side - 1 else '$0'}"
    return lines(
        f"{operation} {register}, {register}, $24" if side > 1 else "",
        f"{operation} $25, {register}, {'$25' if y < side - 1 else '$0'}")


def sum_to_first(x, y, side):
    """Switch lines that bring a word of each tile to tile 0 and out of the grid in the north.

    A tile gets one word from the east on network 1, unless it is the last of its row, and sends one to the west; in
    the first column it gets another one from the south on network 2, and sends one to the north.
    """
    return lines(
        "1:E>P" if x < side - 1 else "",
        "1:P>W" if x > 0 else "",
        "2:S>P" if x == 0 and y < side - 1 else "",
        "2:P>N" if x == 0 else "",
        "halt")


# Numbers

def big_endian(values):
    """Bytes as words, the first byte of four the highest."""
    return [int.from_bytes(bytes(values[k:k + 4]), "big") for k in range(0, len(values), 4)]


# The command line

def make(build, tiles, seed=1, small=False, **options):
    """The set that a kernel's `build` makes. Raises DoesNotFit."""
    return build(SIDES[tiles], random.Random(seed), small, **options)


def with_costly_misses(program_set, report, turns):
    """Gives each tile a miss stream in which each of its misses, which a report has, costs so many turns."""
    for (x, y), cache in report.caches.items():
        program_set.misses(x, y, [turns] * cache.misses)


def turns_of(text):
    """How many turns a miss costs, as an option says it."""
    if not text.isdecimal() or int(text) > 255:
        raise argparse.ArgumentTypeError(f"{text} is no number from 0 to 255")
    return int(text)


def put(text):
    """Writes to standard output, and ends where that fails."""
    try:
        sys.stdout.write(text)
        sys.stdout.flush()
    except OSError as error:
        os.dup2(os.open(os.devnull, os.O_WRONLY), 1)
        if not isinstance(error, BrokenPipeError):
            print(f"{os.path.basename(sys.argv[0])}: {error.strerror}", file=sys.stderr)
        sys.exit(8)


def main(build, placements=()):
    """The command line of a kernel: build(side, random, small) gives its KernelSet.

    Where there are placements, build takes one more argument of this name, one of them.
    """
    parser = argparse.ArgumentParser(description=sys.modules["__main__"].__doc__)
    parser.add_argument("tiles", type=int, choices=sorted(SIDES), help="how many tiles the grid has")
    parser.add_argument("--seed", type=int, default=1, help="another number makes another input")
    parser.add_argument("--depth", type=int, choices=range(1, 8), help="how many values a wire holds (4)")
    parser.add_argument("--small", action="store_true", help="a problem that can be followed by hand")
    parser.add_argument("--miss", type=turns_of, metavar="N", help="each miss costs so many turns, 0 to 255 (0)")
    parser.add_argument("--expect", action="store_true", help="write what the report has to have")
    parser.add_argument("--claim", action="store_true", help="write what is claimed for all words of the sources")
    if placements:
        parser.add_argument("--placement", choices=placements, default=placements[0], help="where the tiles stand")
    words = parser.parse_args()
    options = {"placement": words.placement} if placements else {}
    try:
        program_set = make(build, words.tiles, words.seed, words.small, **options)
    except DoesNotFit:
        parser.error("the problem does not fit so many tiles")
    program_set.depth = words.depth
    if words.claim:
        if program_set.claim is None:
            parser.error("nothing is claimed of this set")
        put(program_set.claim)
        return
    if words.miss is not None and not words.expect:
        try:
            report = workbench.run(program_set.text(), PROGRAM)
        except workbench.Failed as error:
            parser.error(str(error))
        if sum(cache.misses for cache in report.caches.values()) > MISSES:
            parser.error(f"the set misses its caches more often than a set can say, {MISSES:,} times")
        with_costly_misses(program_set, report, words.miss)
    put(program_set.expected() if words.expect else program_set.text())
