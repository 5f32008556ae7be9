#!/usr/bin/env python3
"""nqueens: counts the ways to place N queens by backtracking on bit masks; the first rows are dealt to the tiles."""
import kernel
from kernel import lines

STACK = 0x8000

ABOUT = """
nqueens: the ways to put {queens} queens on a board of {queens} by {queens} without a threat, on {side} by {side} tiles

The {fronts} ways to place the first {rows} queens are dealt to the tiles, three masks for each: the columns that are
taken, and those that the two diagonals threaten in the next row. A tile goes through the rest by backtracking,
with a stack in its memory. Then the counts are added up, along the rows to the west and along the first column
to the north, and the sum goes out.
"""


def placed(board, queens):
    """The boards with one queen more, in the next row: tuples of the columns of all rows."""
    row = len(board)
    return [board + (column,) for column in range(queens)
            if all(column != other and abs(column - other) != row - k for k, other in enumerate(board))]


def boards(rows, queens):
    """All ways to place queens in so many first rows."""
    found = [()]
    for _ in range(rows):
        found = [longer for board in found for longer in placed(board, queens)]
    return found


def masks(board, queens):
    """The columns that are taken, and those that either diagonal threatens in the next row, as bits."""
    rows = len(board)
    left = [column + rows - k for k, column in enumerate(board)]
    right = [column - rows + k for k, column in enumerate(board)]
    return [sum(1 << column for column in columns if 0 <= column < queens) for columns in (board, left, right)]


def tile_program(x, y, side, queens, words):
    return lines(
        f"""
        li   $1, 0                      # the count
        li   $2, 0                      # the next front
        li   $3, {4 * words}            # their end
        li   $4, {(1 << queens) - 1}    # all columns
        li   $5, {STACK}
        beq  $2, $3, sum
        front: lw $8, 0($2)             # columns that are taken
        lw   $9, 4($2)                  # threatened by a diagonal to the left
        lw   $10, 8($2)                 # and to the right
        addiu $2, $2, 12
        li   $6, {STACK}                # the stack is empty
        enter: or $11, $8, $9
        or   $11, $11, $10
        nor  $11, $11, $0
        and  $11, $11, $4               # free places of this row
        try: beq $11, $0, pop
        subu $12, $0, $11
        and  $12, $12, $11              # the lowest of them
        xor  $11, $11, $12
        or   $13, $8, $12
        beq  $13, $4, found
        sw   $8, 0($6)                  # keep this row, go to the next
        sw   $9, 4($6)
        sw   $10, 8($6)
        sw   $11, 12($6)
        addiu $6, $6, 16
        move $8, $13
        or   $9, $9, $12
        sll  $9, $9, 1
        or   $10, $10, $12
        srl  $10, $10, 1
        b    enter
        found: addiu $1, $1, 1
        b    try
        pop: beq $6, $5, done
        addiu $6, $6, -16
        lw   $8, 0($6)
        lw   $9, 4($6)
        lw   $10, 8($6)
        lw   $11, 12($6)
        b    try
        done: bne $2, $3, front
        sum:                            # along the row, along the first column""",
        kernel.sum_of_tiles(x, y, side, "addu", "$1"),
        "halt")


def build(side, random, small):
    queens, rows = (5, 1) if small else (10, 4)
    tiles = side * side
    if small and tiles > 4:
        raise kernel.DoesNotFit
    fronts = [masks(board, queens) for board in boards(rows, queens)]
    random.shuffle(fronts)
    program_set = kernel.KernelSet(
        side, ABOUT.format(queens=queens, side=side, fronts=len(fronts), rows=rows))
    program_set.expect_sink(2, 0, 0, "N", [len(boards(queens, queens))])
    for tile, (x, y) in enumerate(program_set.places()):
        words = [mask for front in fronts[tile::tiles] for mask in front]
        program_set.data(x, y, 0, words)
        program_set.tile(x, y, tile_program(x, y, side, queens, len(words)))
        program_set.switch(x, y, kernel.sum_to_first(x, y, side))
    return program_set


if __name__ == "__main__":
    kernel.main(build)
