#!/usr/bin/env python3
"""all_to_all: a plan in which each tile sends one word to each other tile, with the sends in one of three orders.

    all_to_all.py TILES [--order sender|shift|xor]

`sender`: all sends of tile 0, then all of tile 1, and so on. `shift`: in round s tile t sends to tile t + s, modulo the
number of tiles. `xor`: in round s tile t sends to the tile whose number is the exclusive or of t and s. The words are
the same, and so is what comes out; the plan routes them in the order of its lines.
"""
import argparse

import kernel


def sends(tiles, order):
    """Pairs of a sender and a target, in order."""
    if order == "sender":
        return [(tile, other) for tile in range(tiles) for other in range(tiles) if other != tile]
    if order == "shift":
        return [(tile, (tile + shift) % tiles) for shift in range(1, tiles) for tile in range(tiles)]
    return [(tile, tile ^ mask) for mask in range(1, tiles) for tile in range(tiles)]


def plan(tiles, order):
    side = kernel.SIDES[tiles]
    program = [f"grid {side} {side}"]
    for number, (tile, other) in enumerate(sends(tiles, order)):
        network = 1 + number // tiles % 2
        program.append(f"send {network} {tile % side} {tile // side} {number} {other % side} {other // side}")
    return "\n".join(program) + "\n"


def main():
    parser = argparse.ArgumentParser(description=__doc__.splitlines()[0])
    parser.add_argument("tiles", type=int, choices=[4, 16, 64])
    parser.add_argument("--order", choices=["sender", "shift", "xor"], default="xor")
    words = parser.parse_args()
    print(plan(words.tiles, words.order), end="")


if __name__ == "__main__":
    main()
