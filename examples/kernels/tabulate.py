"""The document docs/KERNELS.md: the cycles of all kernels as tables, with what each shows about the machine."""
import kernel
import workbench

MISS = 20                               # turns that a miss costs in the last column

HEAD = """\
# Kernels and their cycles

Tiled processors are judged by kernels at 1, 4, 16 and 64 tiles. These are the fourteen of `examples/kernels/`, counted
by `rawgrid cycles`: in each cycle all processors step that can. `examples/kernels/README.md` says what they compute and
how they are spread. This page was written by

```
examples/kernels/check --write
```

which makes and runs each set, compares what comes out with the definition of its problem, and counts. The numbers are
cycles of the clock that is defined in `MACHINE.md`. They are no time of any machine, and speed-ups are of cycles.

## Cycles

`speed-up` is how many times fewer cycles are needed than on one tile, for the same problem.
"""

SHARES = """\

## What the tiles do, on 64 tiles

Of all cycles of all tiles, the shares in which they fired, waited for a value (starved), waited for room (blocked) and
were stopped, being done before the last. Then the share of the cycles of all switches in which these fired; the cache
misses of all tiles, on one tile and on 64; and the speed-up on 64 tiles where each miss costs {miss} turns.
"""

PATHS = """\

## What bounds each, on 64 tiles

The critical path, as `rawgrid path` finds it: one turn of each cycle, each of which had to wait for the one before
(`FORMATS.md`, 'Path'). The tile with the most turns of it, the share of these, and the share of the turns of all
switches, of all cycles; then how many turns came after a wait for a value, and how many after one for room. The last
column is read off these numbers: it is the code of one tile where this has 90 percent of the turns, and of few tiles
where four have so many; it is moving where switches have 20 percent, and the room on wires where as many turns waited
for room as for values.
"""

PICTURES = """\

## As pictures

This is jacobi on 64 tiles: each tile by the shares of its cycles, and each link by the values that passed on it.

![jacobi on 64 tiles: where its cycles go](pictures/kernels/jacobi.svg)

`examples/kernels/jacobi.py 64 | tools/rawgrid-heat > heat.svg` draws it, and so any other kernel, with `--miss 20`
where each miss of a cache is to cost 20 turns (lesson 18 of `HANDBOOK.md`). `tools/rawgrid-sweep --plot` draws a table
of many runs as bars (lesson 20).
"""

LESSONS = """\

## What each shows

- **matmul**: more than 64 times fewer cycles. On 64 tiles the part of a row of B that a tile needs fits its registers,
  and one load less stands in the inner loop. No tile sends an operand on: the switches do.
- **jacobi**: tiles hardly wait. What is lost is the work at the edges of blocks, of which there are more the smaller
  the blocks are.
- **life**: the same with two phases, and with words that go round the torus through whole rows and columns.
- **sort**: the least speed-up. Each round moves all words and merges them again, and the rounds grow with the square of
  the logarithm of the tiles. With `sort.py --placement z-order` fewer cycles are needed: the rounds that come most
  often are then between neighbours.
- **nqueens**: hardly a word is sent. The tile with the most work decides, and the others wait with their counts.
- **floyd**: each pivot is broadcast from where it lies, and all wait for the one that has it.
- **ntt**: half of all words move before each of the stages that go from tile to tile.
- **firbank**: a pipeline of all tiles, past which samples and sums stream. What is lost is the loop over samples, which
  each tile has for itself, and the filling of the pipeline.
- **aes**: blocks have nothing to do with each other, so almost nothing is lost; words come and go while tiles compute.
- **crc**: the same, with one product more for each tile, to move its remainder to its place.
- **scan**: two additions a word on many tiles where one tile has one, since the sum of the words before comes later: so
  4 tiles need more than a third of the cycles of one. From there on it grows with the tiles.
- **histeq**: one tile adds up the last counts and makes the table, and all others wait for it.
- **wht2d**: four corner turns, in which each tile sends a word to each other one. The order of the messages keeps them
  from deadlock, and its price is the waiting.
- **edit**: a wave. Tiles wait until it reaches them, and are done when it has passed.

Where misses cost turns, matmul, ntt, floyd and others have speed-ups above 64: the caches of 64 tiles hold what that of
one does not.
"""


class Row:
    """What is counted of one kernel, by the number of tiles."""

    def __init__(self, name):
        self.name, self.cycles, self.slow_cycles, self.misses, self.last = name, {}, {}, {}, None
        self.path = None

    def count(self, tiles, program_set, program):
        report = workbench.run(program_set.text(), program)
        counted = workbench.cycles(program_set.text(), program)
        if counted.steps != report.steps():
            raise ValueError(f"{self.name} on {tiles} tiles: {counted.steps} steps counted, {report.steps()} run")
        self.cycles[tiles] = counted.cycles
        self.misses[tiles] = sum(cache.misses for cache in report.caches.values())
        self.last = counted
        self.path = workbench.path(program_set.text(), program) if tiles == 64 else None
        kernel.with_costly_misses(program_set, report, MISS)
        self.slow_cycles[tiles] = workbench.cycles(program_set.text(), program).cycles

    def speed_up(self, tiles):
        return self.cycles[1] / self.cycles[tiles]

    def tile_shares(self):
        """The shares of the last count in which tiles fired, were starved, blocked and stopped, in percent."""
        all_cycles = self.last.cycles * len(self.last.tiles)
        spent = self.last.tiles.values()
        return [100 * sum(getattr(tile, kind) for tile in spent) / all_cycles
                for kind in ("fired", "starved", "blocked", "stopped")]

    def switch_share(self):
        return 100 * sum(switch.fired for switch in self.last.switches.values()) / (
            self.last.cycles * len(self.last.switches))


    def path_shares(self):
        """Of the turns of the path the shares of tiles, from the greatest on, each with its tile, and that of switches."""
        tiles = {p: turns for p, turns in self.path.turns.items() if p < 64}
        switches = sum(turns for p, turns in self.path.turns.items() if 64 <= p < 128)
        most = sorted(tiles.items(), key=lambda it: (-it[1], it[0]))
        return [(f"{p % 8} {p // 8}", 100 * turns / self.path.cycles) for p, turns in most], 100 * switches / self.path.cycles

    def bound(self):
        """What bounds it, by its path."""
        tiles, switches = self.path_shares()
        if self.path.room and self.path.room >= self.path.values:
            return "code, and room on wires"
        if tiles[0][1] >= 90:
            return "the code of one tile"
        if sum(share for _, share in tiles[:4]) >= 90:
            return "the code of few tiles"
        return "code, and moving words" if switches >= 20 else "the code of many tiles, one after another"

    def path_row(self):
        tiles, switches = self.path_shares()
        return [self.name, tiles[0][0], f"{tiles[0][1]:.0f}", f"{switches:.1f}", f"{self.path.values:,}",
                f"{self.path.room:,}", self.bound()]


def table(head, rows):
    lines = ["| " + " | ".join(head) + " |", "|---|" + "---:|" * (len(head) - 1)]
    return "\n".join(lines + ["| " + " | ".join(row) + " |" for row in rows]) + "\n"


def document(rows):
    """The text of the page, of the rows of all kernels."""
    cycles = table(
        ["kernel", "1 tile", "4 tiles", "16 tiles", "64 tiles", "speed-up at 4", "at 16", "at 64"],
        [[row.name] + [f"{row.cycles[tiles]:,}" for tiles in (1, 4, 16, 64)]
         + [f"{row.speed_up(tiles):.2f}" for tiles in (4, 16, 64)] for row in rows])
    shares = table(
        ["kernel", "fired %", "starved %", "blocked %", "stopped %", "switches fired %", "misses at 1", "misses at 64",
         f"speed-up at 64, {MISS} turns a miss"],
        [[row.name] + [f"{share:.0f}" for share in row.tile_shares()]
         + [f"{row.switch_share():.1f}", f"{row.misses[1]:,}", f"{row.misses[64]:,}",
            f"{row.slow_cycles[1] / row.slow_cycles[64]:.1f}"] for row in rows])
    paths = table(["kernel", "tile with most", "its turns %", "switches %", "values", "room", "what bounds it"],
                  [row.path_row() for row in rows])
    return HEAD + "\n" + cycles + SHARES.format(miss=MISS) + "\n" + shares + PATHS + "\n" + paths + PICTURES + LESSONS
