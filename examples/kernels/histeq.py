#!/usr/bin/env python3
"""histeq: a histogram of an image, its sums as a table that evens out grey levels, and the image through the table."""
import itertools

import kernel
from kernel import big_endian, lines, loop, routes, unrolled

ABOUT = """
histeq: {count} pixels of {levels} grey levels are evened out, on {side} by {side} tiles

Each tile counts the levels of its {share} pixels. The counts are added up level by level, along the rows to the west on
network 1 and along the first column to the north on network 2. Tile 0 makes the table: for each level the count of
all pixels up to it, times {top} / {count}. The table goes to all tiles on network 1, along the first row and down the
columns, once all counts are in: an entry that left earlier would wait for switches that still bring counts, and those
in the end for tile 0. Then each tile puts its pixels through the table.
"""


class Layout:
    """Where things stand in the memory of a tile: a word for each level, then a byte for each, then the pixels."""

    def __init__(self, levels):
        self.counts, self.table, self.pixels = 0, 4 * levels, 5 * levels


class Role:
    """What a tile has to do with the counts of others."""

    def __init__(self, x, y, side):
        self.is_first, self.is_first_column = x == y == 0, x == 0
        self.has_east, self.has_south = x < side - 1, x == 0 and y < side - 1


def equalised(pixels, levels):
    """The definition: a pixel becomes the share of pixels that are not lighter, of the greatest level."""
    counts = [0] * levels
    for pixel in pixels:
        counts[pixel] += 1
    table = [total * (levels - 1) // len(pixels) for total in itertools.accumulate(counts)]
    return [table[pixel] for pixel in pixels]


def count_levels(at, share, unroll):
    return lines(
        f"""
        li   $1, {at.pixels}
        li   $2, {at.pixels + share}
        count:""",
        unrolled(unroll, lambda j: f"""
        lbu  $4, {j}($1)
        sll  $4, $4, 2
        lw   $5, {at.counts}($4)
        addiu $5, $5, 1
        sw   $5, {at.counts}($4)"""),
        f"addiu $1, $1, {unroll}",
        "bne $1, $2, count")


def add_count(role, at, j):
    """The count of one level: those from the east and the south are added, and it goes on, or into the table."""
    if not role.is_first_column:
        send = "addu $24, $4, $24" if role.has_east else "move $24, $4"
        return lines(f"lw $4, {at.counts + 4 * j}($1)", send)
    program = [f"lw $4, {at.counts + 4 * j}($1)", role.has_east and "addu $4, $4, $24"]
    if not role.is_first:
        return lines(program, "addu $25, $4, $25" if role.has_south else "move $25, $4")
    return lines(program, [role.has_south and "addu $4, $4, $25"], f"""
        addu $8, $8, $4
        mul  $5, $8, $7
        srl  $5, $5, 24
        sb   $5, {j}($6)""")


def add_counts(role, at, levels, factor):
    return lines(
        f"""
        li   $1, 0                      # the counts of all tiles, level by level
        li   $2, {4 * levels}""",
        f"""
        li   $6, {at.table}             # the table
        li   $7, {factor}
        li   $8, 0                      # pixels up to this level""" if role.is_first else "",
        "level:",
        unrolled(8, lambda j: add_count(role, at, j)),
        "addiu $6, $6, 8" if role.is_first else "",
        """
        addiu $1, $1, 32
        bne  $1, $2, level""")


def give_table(at):
    return lines(
        f"""
        li   $1, {at.table}
        give:                           # the table goes to all""",
        unrolled(8, lambda j: f"lbu $24, {j}($1)"),
        """
        addiu $1, $1, 8
        bne  $1, $6, give""")


def take_table(at, levels):
    return lines(
        f"""
        li   $1, {at.table}
        li   $2, {at.table + levels}
        entry:                          # the table""",
        unrolled(8, lambda j: f"sb $24, {j}($1)"),
        """
        addiu $1, $1, 8
        bne  $1, $2, entry""")


def map_pixels(at, share, unroll):
    return lines(
        f"""
        li   $1, {at.pixels}
        li   $2, {at.pixels + share}
        map:""",
        unrolled(unroll, lambda j: f"""
        lbu  $4, {j}($1)
        lbu  $4, {at.table}($4)
        sb   $4, {j}($1)"""),
        f"addiu $1, $1, {unroll}",
        "bne $1, $2, map",
        "halt")


def tile_program(role, side, at, share, levels, factor):
    unroll = min(8, share)
    is_alone = side == 1
    return lines(
        "" if is_alone else f"li $24, {levels - 1}          # for the switch: levels less 1",
        count_levels(at, share, unroll),
        add_counts(role, at, levels, factor),
        "" if is_alone else give_table(at) if role.is_first else take_table(at, levels),
        map_pixels(at, share, unroll))


def switch_program(role, x, y, side):
    counts = ["1:E>P" if role.has_east else "", "1:P>W" if x > 0 else "",
              "2:S>P" if role.has_south else "", "2:P>N" if x == 0 and y > 0 else ""]
    if role.is_first:
        table = routes("1:P>E", "1:P>S")
    elif y == 0:
        table = routes("1:W>P", role.has_east and "1:W>E", "1:W>S")
    else:
        table = routes("1:N>P", y < side - 1 and "1:N>S")
    return lines("move r1, 1:P", "move r0, r1", loop("level", *counts), "move r0, r1", loop("entry", table), "halt")


def build(side, random, small):
    count, levels = (32, 8) if small else (49152, 256)
    tiles = side * side
    if small and tiles > 4:
        raise kernel.DoesNotFit
    share = count // tiles
    pixels = [min(levels - 1, int(levels * random.random() ** 2)) for _ in range(count)]
    even = equalised(pixels, levels)
    factor = ((levels - 1) << 24) // count          # exact for these counts, so no table entry is rounded wrongly
    at = Layout(levels)
    program_set = kernel.KernelSet(side, ABOUT.format(
        count=count, levels=levels, top=levels - 1, side=side, share=share))
    for tile, (x, y) in enumerate(program_set.places()):
        mine = slice(tile * share, (tile + 1) * share)
        program_set.data(x, y, at.pixels, big_endian(pixels[mine]))
        program_set.expect_memory(x, y, at.pixels, big_endian(even[mine]))
        role = Role(x, y, side)
        program_set.tile(x, y, tile_program(role, side, at, share, levels, factor))
        if side > 1:
            program_set.switch(x, y, switch_program(role, x, y, side))
    return program_set


if __name__ == "__main__":
    kernel.main(build)
