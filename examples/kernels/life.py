#!/usr/bin/env python3
"""life: Conway's Life on a torus, with a byte for each cell and blocks of cells on the tiles."""
import kernel
from kernel import big_endian, lines, loop, unrolled

ABOUT = """
life: {generations} generations of Conway's Life on a torus of {size} by {size} cells, on {side} by {side} tiles

Tile (x, y) has a block of {block} by {block} cells, a byte each, with a rim of one cell around it, twice: the old cells
and the new ones. In each generation the tiles first give the east and west edges of their blocks to their
neighbours, and then the north and south edges together with the corners that have just come in. Network 1
joins neighbours; network 2 joins the two ends of each row and of each column, which are neighbours on a torus.
"""


def next_generation(cells):
    """The rule: a cell lives with three neighbours, or with two where it lived before."""
    size = len(cells)
    new = [[0] * size for _ in range(size)]
    for i in range(size):
        for j in range(size):
            around = [cells[(i + di) % size][(j + dj) % size] for di in (-1, 0, 1) for dj in (-1, 0, 1) if di or dj]
            new[i][j] = int(sum(around) == 3 or sum(around) == 2 and cells[i][j] == 1)
    return new


class Edges:
    """The two edges of a block in one direction: where they stand, and who swaps them.

    `first` and `last` are the offsets of the edge cells from the first cell of a line across the block, `before` and
    `behind` those of the rim. `step` leads from one such line to the next, and there are `words` of them.
    """

    def __init__(self, label, title, position, side, start, step, words, line, length):
        self.label, self.title, self.position, self.side = label, title, position, side
        self.start, self.step, self.words = start, step, words
        self.first, self.last, self.before, self.behind = 0, length - line, -line, length

    def has_lower(self):
        """Whether a tile lies to the west, or to the north."""
        return self.position > 0

    def has_upper(self):
        """Whether a tile lies to the east, or to the south."""
        return self.position < self.side - 1


def both_edges(x, y, side, block, pitch):
    """The edges to the east and west, and those to the south and north with the corners."""
    from_top = f"addiu $1, $20, {pitch + 4}     # from the top"
    from_corner = f"addiu $1, $20, {pitch + 3}     # from corner to corner"
    return [Edges("edge", "east and west", x, side, from_top, pitch, block, 1, block),
            Edges("edge2", "south and north", y, side, from_corner, 1, block + 2, pitch, block * pitch)]


def swap_alone(edges):
    """On one tile the edges of the block are each other's neighbours."""
    return [f"lbu $5, {edges.last}($1)", f"lbu $6, {edges.first}($1)",
            f"sb $5, {edges.before}($1)", f"sb $6, {edges.behind}($1)"]


def swap_with_neighbours(edges):
    """A byte for each neighbour, and then one from each."""
    return [edges.has_upper() and f"lbu $24, {edges.last}($1)",
            edges.has_lower() and f"lbu $24, {edges.first}($1)",
            edges.has_lower() and f"sb $24, {edges.before}($1)",
            edges.has_upper() and f"sb $24, {edges.behind}($1)"]


def round_the_torus(edges):
    """The tiles at both ends of a line swap edges on network 2: the lower end takes first, the upper one gives."""
    is_lower = not edges.has_lower()
    given, taken = (edges.first, edges.before) if is_lower else (edges.last, edges.behind)
    step, label = edges.step, edges.label
    give = lines(
        f"addiu $1, $1, {-edges.words * step}         # round the torus: give",
        f"{label}g: lbu $25, {given}($1)",
        f"lbu $25, {given + step}($1)",
        f"addiu $1, $1, {2 * step}",
        f"bne $1, $2, {label}g")
    take = lines(
        f"addiu $1, $1, {-edges.words * step}         # round the torus: take",
        f"{label}t: sb $25, {taken}($1)",
        f"sb $25, {taken + step}($1)",
        f"addiu $1, $1, {2 * step}",
        f"bne $1, $2, {label}t")
    return lines(take, give) if is_lower else lines(give, take)


def give_edges(edges):
    is_alone = edges.side == 1
    is_at_end = not is_alone and not (edges.has_lower() and edges.has_upper())
    return lines(
        f"# {edges.title} edges",
        edges.start,
        f"addiu $2, $1, {edges.words * edges.step}",
        f"{edges.label}:",
        swap_alone(edges) if is_alone else swap_with_neighbours(edges),
        f"addiu $1, $1, {edges.step}",
        f"bne $1, $2, {edges.label}",
        round_the_torus(edges) if is_at_end else "")


def column_sum(register, j, pitch, middle):
    """The sum of the three cells in column j; the middle one is kept too."""
    return lines(
        f"lbu ${register}, {j}($1)",
        f"lbu ${middle}, {j + pitch}($1)",
        f"addu ${register}, ${register}, ${middle}",
        f"lbu $8, {j + 2 * pitch}($1)",
        f"addu ${register}, ${register}, $8")


def new_cell(j, pitch):
    """The new cell j: three registers have the sums of the columns around it, which change places from cell to cell."""
    left, middle, right = [(5, 6, 7), (6, 7, 5), (7, 5, 6)][j % 3]
    cell, next_cell = (10, 11) if j % 2 == 0 else (11, 10)
    return lines(
        column_sum(right, j + 1, pitch, next_cell),
        f"addu $12, ${left}, ${middle}",
        f"addu $12, $12, ${right}      # all nine",
        f"subu $13, $12, ${cell}      # the neighbours",
        f"or $13, $13, ${cell}",
        "xori $13, $13, 3",
        "sltiu $13, $13, 1        # 3, or 2 and the cell itself",
        f"sb $13, {j}($2)")


def new_cells(block, pitch, unroll):
    return lines(
        f"""
        # the new cells
        addiu $1, $20, 4                # one row north of the old cell
        addiu $2, $21, {pitch + 4}      # the new cell
        li   $4, {block}
        row: addiu $3, $1, {block}
        chunk:""",
        column_sum(5, -1, pitch, 9),
        column_sum(6, 0, pitch, 9),
        "move $10, $9",
        unrolled(unroll, lambda j: new_cell(j, pitch)),
        f"addiu $1, $1, {unroll}",
        f"addiu $2, $2, {unroll}",
        "bne $1, $3, chunk" if unroll < block else "",
        f"addiu $1, $1, {pitch - block}",
        f"addiu $2, $2, {pitch - block}",
        "addiu $4, $4, -1",
        "bne $4, $0, row")


def tile_program(x, y, side, block, pitch, generations):
    return lines(
        f"""
        li   $24, {generations - 1}     # for the switch: generations, words of the edges
        li   $24, {block - 1}
        li   $24, {block + 1}""" if side > 1 else "",
        f"""
        li   $20, 0                     # the old cells
        li   $21, {pitch * (block + 2)} # the new cells
        li   $22, {generations}
        gener:""",
        [give_edges(edges) for edges in both_edges(x, y, side, block, pitch)],
        new_cells(block, pitch, min(8, block)),
        """
        move $5, $20                    # old and new change places
        move $20, $21
        move $21, $5
        addiu $22, $22, -1
        bne  $22, $0, gener
        halt""")


def swap_lines(edges, forth, back, count):
    """The loops of the switch for one direction: neighbours on network 1, then round the torus on network 2."""
    lower, upper, label = edges.has_lower(), edges.has_upper(), edges.label
    if not lower:
        to_lower, to_upper = f"2:{forth}>P", f"2:P>{forth}"
    elif not upper:
        to_lower, to_upper = f"2:P>{back}", f"2:{back}>P"
    else:
        to_lower, to_upper = f"2:{forth}>{back}", f"2:{back}>{forth}"
    return lines(
        f"move r0, {count}",
        loop(label, upper and f"1:P>{forth}", lower and f"1:P>{back}",
             lower and f"1:{back}>P", upper and f"1:{forth}>P"),
        f"move r0, {count}",
        loop(f"{label}b", to_lower),
        f"move r0, {count}",
        loop(f"{label}f", to_upper))


def switch_program(x, y, side, block, pitch):
    east_west, south_north = both_edges(x, y, side, block, pitch)
    return lines(
        "move r3, 1:P",
        "move r2, 1:P",
        "move r1, 1:P",
        "gener:",
        swap_lines(east_west, "E", "W", "r2"),
        swap_lines(south_north, "S", "N", "r1"),
        "bnezd r3, gener",
        "halt")


def first_cells(random, size, small):
    """A blinker, or cells at random."""
    cells = [[int(random.random() < 0.35) for _ in range(size)] for _ in range(size)]
    if small:
        cells = [[0] * size for _ in range(size)]
        cells[1][size // 2 - 1:size // 2 + 2] = [1, 1, 1]
    return cells


def build(side, random, small):
    size, generations = (4 * min(side, 2), 1) if small else (64, 12)
    block = size // side
    if block < 4:
        raise kernel.DoesNotFit
    old = first_cells(random, size, small)
    new = old
    for _ in range(generations):
        new = next_generation(new)
    pitch = block + 8                   # row i of the block, from -1 to block, has cell j at (i + 1) * pitch + 4 + j
    end = pitch * (block + 2) * (generations % 2)
    program_set = kernel.KernelSet(side, ABOUT.format(generations=generations, size=size, side=side, block=block))
    for x, y in program_set.places():
        for i in range(block):
            row, columns = y * block + i, slice(x * block, (x + 1) * block)
            program_set.data(x, y, (i + 1) * pitch + 4, big_endian(old[row][columns]))
            program_set.expect_memory(x, y, end + (i + 1) * pitch + 4, big_endian(new[row][columns]))
        program_set.tile(x, y, tile_program(x, y, side, block, pitch, generations))
        if side > 1:
            program_set.switch(x, y, switch_program(x, y, side, block, pitch))
    return program_set


if __name__ == "__main__":
    kernel.main(build)
