#!/usr/bin/env python3
"""scan: prefix sums, several times over; each tile sums its piece, and the totals of pieces go through the grid."""
import itertools

import kernel
from kernel import MASK, lines, routes, unrolled

ABOUT = """
scan: {rounds} times the prefix sums of {count} words modulo 2^32, on {side} by {side} tiles

In each round a tile makes the prefix sums of its own {share} words. Their total goes east along the row on network 1,
so that each tile gets the sum of those to the west; totals of rows go south along the last column on network 2, and
the sum of all rows above goes back to the west. What a tile has to add to its words it adds in the next round.
"""


def prefix_sums(words):
    return [total & MASK for total in itertools.accumulate(words)]


def pass_totals(x, y, side):
    """$2 is the total of this tile; $4 becomes the sum of all tiles before it."""
    if x == 0:
        return """
            move $24, $2                # my total goes east
            move $4, $24                # from the rows above"""
    if x < side - 1:
        return """
            move $4, $24                # those to the west
            addu $24, $4, $2
            addu $4, $4, $24            # and the rows above"""
    row = """
        move $4, $24                    # those to the west
        addu $5, $4, $2                 # the total of this row"""
    if y == 0:
        return lines(row, """
            move $25, $5
            move $24, $0                # no rows above""")
    return lines(
        row,
        "move $6, $25             # the rows above",
        "addu $25, $6, $5" if y < side - 1 else "",
        """
        move $24, $6                    # for the others of this row
        addu $4, $4, $6""")


def tile_program(x, y, side, share, rounds):
    unroll = min(8, share)
    is_alone = side == 1
    return lines(
        "" if is_alone else f"li $24, {rounds - 1}           # for the switch: rounds less 1",
        f"""
        li   $20, {rounds}
        li   $3, {4 * share}            # the end
        li   $4, 0                      # to be added to each word
        round: li $1, 0
        li   $2, 0                      # the sum so far
        words:""",
        unrolled(unroll, lambda j: lines(
            f"lw $5, {4 * j}($1)",
            "" if is_alone else "addu $5, $5, $4",
            "addu $2, $2, $5",
            f"sw $2, {4 * j}($1)")),
        f"addiu $1, $1, {4 * unroll}",
        "bne $1, $3, words",
        "" if is_alone else pass_totals(x, y, side),
        """
        addiu $20, $20, -1
        bne  $20, $0, round""",
        "" if is_alone else add_rest(unroll),
        "halt")


def add_rest(unroll):
    return lines(
        """
        li   $1, 0                      # what is still to be added
        rest:""",
        unrolled(unroll, lambda j: f"""
        lw   $5, {4 * j}($1)
        addu $5, $5, $4
        sw   $5, {4 * j}($1)"""),
        f"addiu $1, $1, {4 * unroll}",
        "bne $1, $3, rest")


def switch_program(x, y, side):
    if x == 0:
        body = ["1:P>E", "1:E>P"]
    elif x < side - 1:
        body = ["1:W>P", "1:P>E", routes("1:E>P", "1:E>W")]
    else:
        body = ["1:W>P", y > 0 and "2:N>P", y < side - 1 and "2:P>S", "1:P>W"]
    return lines("move r3, 1:P", kernel.loop("round", *body, register="r3"), "halt")


def build(side, random, small):
    count, rounds, end = (32, 2, 10) if small else (8192, 16, 1 << 32)
    tiles = side * side
    share = count // tiles
    if small and tiles > 4:
        raise kernel.DoesNotFit
    words = [random.randrange(end) for _ in range(count)]
    sums = words
    for _ in range(rounds):
        sums = prefix_sums(sums)
    program_set = kernel.KernelSet(side, ABOUT.format(rounds=rounds, count=count, side=side, share=share))
    for tile, (x, y) in enumerate(program_set.places()):
        mine = slice(tile * share, (tile + 1) * share)
        program_set.data(x, y, 0, words[mine])
        program_set.expect_memory(x, y, 0, sums[mine])
        program_set.tile(x, y, tile_program(x, y, side, share, rounds))
        if side > 1:
            program_set.switch(x, y, switch_program(x, y, side))
    return program_set


if __name__ == "__main__":
    kernel.main(build)
