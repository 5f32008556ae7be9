#!/usr/bin/env python3
"""jacobi: relaxation of a grid of integers with a fixed border, with blocks of cells on the tiles."""
import kernel
from kernel import lines, loop, routes, unrolled

ABOUT = """
jacobi: {turns} turns of relaxation on {size} by {size} cells with a fixed border, on {side} by {side} tiles

Each cell becomes a quarter of the sum of its four neighbours, rounded down. Tile (x, y) has a block of {block} by
{block} cells with a rim of one cell around it, twice: the old cells and the new ones. In each turn the tiles first give
the edges of their blocks to their neighbours, east and west on network 1, south and north on network 2.
"""


def relaxed(cells):
    """The cells after one turn; those of the border stay."""
    size = len(cells) - 2
    new = [row[:] for row in cells]
    for i in range(1, size + 1):
        for j in range(1, size + 1):
            new[i][j] = (cells[i - 1][j] + cells[i + 1][j] + cells[i][j - 1] + cells[i][j + 1]) >> 2
    return new


class Neighbours:
    """Which neighbours a tile has."""

    def __init__(self, x, y, side):
        self.west, self.east, self.north, self.south = x > 0, x < side - 1, y > 0, y < side - 1


def give_edges(has, block, pitch):
    """A loop along the edges of the block: a word goes to each neighbour, and one comes from each."""
    return lines(
        f"""
        # give and get edges
        addiu $1, $20, {pitch}          # runs along the rows of the block
        addiu $2, $20, 4                # runs along its columns
        addiu $3, $2, {4 * block}
        edge:""",
        [has.east and f"lw $24, {4 * block}($1)     # east edge goes east",
         has.south and f"lw $25, {block * pitch}($2)    # south edge goes south",
         has.west and "sw $24, 0($1)           # from the west",
         has.north and "sw $25, 0($2)           # from the north",
         has.west and "lw $24, 4($1)           # west edge goes west",
         has.north and f"lw $25, {pitch}($2)        # north edge goes north",
         has.east and f"sw $24, {4 * (block + 1)}($1)",
         has.south and f"sw $25, {(block + 1) * pitch}($2)"],
        f"""
        addiu $1, $1, {pitch}
        addiu $2, $2, 4
        bne  $2, $3, edge""")


def relax(block, pitch, unroll):
    """Two loops over the cells of the block, of which so many stand in one turn of the inner loop."""
    return lines(
        f"""
        # relax
        move $1, $20                    # the cell to the north
        addiu $2, $21, {pitch}          # the new cell, less 4
        li   $4, {block}
        row: addiu $3, $1, {4 * block}
        chunk:""",
        unrolled(unroll, lambda j: f"""
        lw   $5, {4 * j + 4}($1)
        lw   $6, {4 * j + 4 + 2 * pitch}($1)
        addu $5, $5, $6
        lw   $6, {4 * j + pitch}($1)
        addu $5, $5, $6
        lw   $6, {4 * j + 8 + pitch}($1)
        addu $5, $5, $6
        srl  $5, $5, 2
        sw   $5, {4 * j + 4}($2)"""),
        f"""
        addiu $1, $1, {4 * unroll}
        addiu $2, $2, {4 * unroll}""",
        "bne $1, $3, chunk" if unroll < block else "",
        """
        addiu $1, $1, 8
        addiu $2, $2, 8
        addiu $4, $4, -1
        bne  $4, $0, row""")


def tile_program(has, side, block, turns):
    pitch = 4 * (block + 2)
    return lines(
        f"""
        li   $24, {turns - 1}           # for the switch: turns, and words of an edge
        li   $24, {block - 1}""" if side > 1 else "",
        f"""
        li   $20, 0                     # the old cells
        li   $21, {pitch * (block + 2)} # the new cells
        li   $22, {turns}
        turn:""",
        give_edges(has, block, pitch) if side > 1 else "",
        relax(block, pitch, min(8, block)),
        """
        move $5, $20                    # old and new change places
        move $20, $21
        move $21, $5
        addiu $22, $22, -1
        bne  $22, $0, turn
        halt""")


def switch_program(has):
    """The words of an edge in the order in which the tile gives and takes them."""
    return lines(
        "move r3, 1:P",
        "move r2, 1:P",
        "turn: move r0, r2",
        loop("edge",
             routes(has.east and "1:P>E", has.south and "2:P>S"),
             routes(has.west and "1:W>P", has.north and "2:N>P"),
             routes(has.west and "1:P>W", has.north and "2:P>N"),
             routes(has.east and "1:E>P", has.south and "2:S>P")),
        "bnezd r3, turn",
        "halt")


def put_cells(program_set, x, y, block, old, new, turns):
    """The block of a tile with its rim, the border of the new cells, and the cells that have to come out."""
    pitch, size = 4 * (block + 2), 4 * (block + 2) * (block + 2)
    for i in range(block + 2):
        row = old[y * block + i][x * block:(x + 1) * block + 2]
        program_set.data(x, y, i * pitch, row)
        if i in (0, block + 1):
            program_set.data(x, y, size + i * pitch, row)
        else:
            program_set.data(x, y, size + i * pitch, row[:1])
            program_set.data(x, y, size + i * pitch + 4 * (block + 1), row[-1:])
    for i in range(1, block + 1):
        row = new[y * block + i][x * block + 1:(x + 1) * block + 1]
        program_set.expect_memory(x, y, size * (turns % 2) + i * pitch + 4, row)


def build(side, random, small):
    size, turns, end = (4, 2, 100) if small else (64, 16, 1 << 20)
    block = size // side
    if block < 1:
        raise kernel.DoesNotFit
    old = [[random.randrange(end) for _ in range(size + 2)] for _ in range(size + 2)]
    new = old
    for _ in range(turns):
        new = relaxed(new)
    program_set = kernel.KernelSet(side, ABOUT.format(turns=turns, size=size, side=side, block=block))
    for x, y in program_set.places():
        has = Neighbours(x, y, side)
        put_cells(program_set, x, y, block, old, new, turns)
        program_set.tile(x, y, tile_program(has, side, block, turns))
        if side > 1:
            program_set.switch(x, y, switch_program(has))
    return program_set


if __name__ == "__main__":
    kernel.main(build)
