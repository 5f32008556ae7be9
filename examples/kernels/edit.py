#!/usr/bin/env python3
"""edit: the edit distance of two strings by dynamic programming, columns on the tiles, a wave through a snake."""
import kernel
from kernel import lines, loop, routes, unrolled

ABOUT = """
edit: the edit distance of strings of {rows} and {columns} letters, on {side} by {side} tiles

Each tile has {share} columns of the table, one row of them at a time; the tiles follow each other in a snake. A letter
of the first string comes in from the west and goes along the snake on network 1: it makes a row. The entry at the east
end of a tile's row is what the next tile needs at the west end of its own; it goes on network 2. So a wave goes
through the table: tile i works on a row while tile i + 1 works on the one before. The last entry goes out.
"""


def distances(first, second):
    """The last row of the table of distances of prefixes, row by row, as it is defined."""
    row = list(range(len(second) + 1))
    for i, letter in enumerate(first, 1):
        above, row = row, [i]
        for j, other in enumerate(second, 1):
            row.append(min(above[j] + 1, row[j - 1] + 1, above[j - 1] + (other != letter)))
    return row


def one_entry(j, letters):
    """An entry of the row: $5 has the one to the west; $6 and $7 in turn the diagonal one and the one above."""
    above, diagonal = (7, 6) if j % 2 == 0 else (6, 7)
    return f"""
        lw   ${above}, {4 * j}($2)      # above
        lw   $8, {letters + 4 * j}($2)  # the letter of the column
        xor  $8, $8, $4
        sltu $8, $0, $8
        addu $8, $8, ${diagonal}        # change a letter, or none
        slt  $9, ${above}, $5
        beq  $9, $0, west{j}
        move $5, ${above}
        west{j}: addiu $5, $5, 1        # or put one in, or drop one
        slt  $9, $8, $5
        beq  $9, $0, put{j}
        move $5, $8
        put{j}: sw $5, {4 * j}($2)"""


def tile_program(first_column, share, unroll, rows, is_last):
    """A tile has a row of the table at address 0 and the letters of its columns behind it."""
    is_first = first_column == 0
    return lines(
        f"""
        li   $24, {rows - 1}            # for the switch: rows less 1
        li   $1, {rows}
        li   $3, {4 * share}            # the end of my row
        li   $10, {first_column}        # the entry to the west, in the row above
        row: move $4, $24               # the letter of this row
        li   $2, 0
        move $6, $10                    # the diagonal entry""",
        "addiu $10, $10, 1        # the entry to the west is the number of the row" if is_first
        else "move $10, $25            # the entry to the west",
        "move $5, $10",
        "chunk:",
        unrolled(unroll, lambda j: one_entry(j, 4 * share)),
        f"""
        addiu $2, $2, {4 * unroll}
        bne  $2, $3, chunk""" if unroll < share else "",
        "" if is_last else "move $25, $5             # the east end for the next tile",
        """
        addiu $1, $1, -1
        bne  $1, $0, row""",
        "move $24, $5             # the distance" if is_last else "",
        "halt")


def switch_program(come, go, is_first, is_last):
    return lines(
        "move r0, 1:P",
        loop("row",
             routes(f"1:{come}>P", not is_last and f"1:{come}>{go}"),
             not is_first and f"2:{come}>P",
             not is_last and f"2:P>{go}"),
        f"1:P>{go}" if is_last else "",
        "halt")


def build(side, random, small):
    rows, columns = (5, 8) if small else (512, 384)
    tiles = side * side
    if small and tiles > 4:
        raise kernel.DoesNotFit
    share, unroll = columns // tiles, 2 if small else 6
    second = [random.randrange(97, 101) for _ in range(columns)]
    first = [random.randrange(97, 101) for _ in range(rows)]
    last_row = distances(first, second)
    program_set = kernel.KernelSet(side, ABOUT.format(rows=rows, columns=columns, side=side, share=share))
    places = kernel.snake(side)
    program_set.source(1, 0, 0, "W", first)
    program_set.expect_sink(1, *places[-1], kernel.snake_end(side), [last_row[columns]])
    for x, y in program_set.places():
        tile = places.index((x, y))
        start, is_last = tile * share, tile == tiles - 1
        program_set.data(x, y, 0, range(start + 1, start + 1 + share))
        program_set.data(x, y, 4 * share, second[start:start + share])
        program_set.expect_memory(x, y, 0, last_row[start + 1:start + 1 + share])
        program_set.tile(x, y, tile_program(start, share, unroll, rows, is_last))
        come, go = kernel.snake_sides(side, tile)
        program_set.switch(x, y, switch_program(come, go, tile == 0, is_last))
    return program_set


if __name__ == "__main__":
    kernel.main(build)
