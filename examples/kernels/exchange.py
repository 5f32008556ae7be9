#!/usr/bin/env python3
"""exchange: on a line of eight tiles, pairs at a distance swap words, in two ways.

    exchange.py DISTANCE [--words N] [--way streams|words]

With `streams` the lower tile of a pair gives all its words, on network 1, and then the upper one, on network 2: all
words on a network go one way. With `words` each word is followed by one of the partner: the switches between the two
have a line for either direction in one loop. Both are right, at every depth.
"""
import argparse
import sys

import kernel
from kernel import lines, loop, one_way, unrolled

TILES = 8
UNROLL = 8


def give(register, count):
    return lines(
        "li $1, 0",
        f"li $2, {4 * count}",
        f"give: {unrolled(UNROLL, lambda j: f'lw ${register}, {4 * j}($1)')}",
        f"addiu $1, $1, {4 * UNROLL}",
        "bne $1, $2, give")


def take(register, count):
    return lines(
        "li $1, 0",
        f"li $2, {4 * count}",
        f"take: {unrolled(UNROLL, lambda j: f'sw ${register}, {4 * (count + j)}($1)')}",
        f"addiu $1, $1, {4 * UNROLL}",
        "bne $1, $2, take")


def word_by_word(is_lower, count):
    """Gives and takes in turn; the lower tile gives first."""
    def swap(j):
        mine, other = 4 * j, 4 * (count + j)
        if is_lower:
            return f"lw $24, {mine}($1) \n sw $25, {other}($1)"
        return f"sw $24, {other}($1) \n lw $25, {mine}($1)"
    return lines(
        "li $1, 0",
        f"li $2, {4 * count}",
        f"swap: {unrolled(UNROLL, swap)}",
        f"addiu $1, $1, {4 * UNROLL}",
        "bne $1, $2, swap")


def tile_program(is_lower, count, way):
    if way == "words":
        body = word_by_word(is_lower, count)
    elif is_lower:
        body = lines(give(24, count), take(25, count))
    else:
        body = lines(take(24, count), give(25, count))
    return lines(f"li $24, {count - 1}           # for the switch: words less 1", body, "halt")


def switch_program(position, distance, way):
    if way == "words":
        there = one_way(position, distance, 1, "W", "E", True)
        back = one_way(position, distance, 2, "E", "W", False)
        by_pairs = [line for pair in zip(there, back) for line in pair]
        return lines("move r0, 1:P", loop("swap", *by_pairs), "halt")
    return lines("move r3, 1:P", kernel.exchange("swap", position, distance, "E", "W", "r3"), "halt")


def build(distance, count, way):
    """Tile x has the words 100 x, 100 x + 1 and so on, and has to get those of its partner."""
    program_set = kernel.KernelSet(TILES, __doc__, rows=1)
    for x in range(TILES):
        partner = x ^ distance
        program_set.data(x, 0, 0, [100 * x + k for k in range(count)])
        program_set.expect_memory(x, 0, 4 * count, [100 * partner + k for k in range(count)])
        program_set.tile(x, 0, tile_program(x < partner, count, way))
        program_set.switch(x, 0, switch_program(x, distance, way))
    return program_set


def main():
    parser = argparse.ArgumentParser(description=__doc__.splitlines()[0])
    parser.add_argument("distance", type=int, choices=[1, 2, 4])
    parser.add_argument("--words", type=int, default=64, help="how many words each tile gives, a multiple of 8")
    parser.add_argument("--way", choices=["streams", "words"], default="streams")
    parser.add_argument("--depth", type=int, choices=range(1, 8))
    words = parser.parse_args()
    program_set = build(words.distance, words.words, words.way)
    program_set.depth = words.depth
    sys.stdout.write(program_set.text())


if __name__ == "__main__":
    main()
