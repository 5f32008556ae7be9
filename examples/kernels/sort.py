#!/usr/bin/env python3
"""sort: bitonic sort of blocks; each tile merge-sorts its own words, then pairs of tiles exchange and split."""
import kernel
from kernel import lines, unrolled

ABOUT = """
sort: {count} signed words, {share} on each of {side} by {side} tiles, in bitonic order of blocks

Each tile sorts its own words by merging, from runs of 1 to runs of {share}. Then come {rounds} rounds: tile t and
its partner exchange all their words, each merges both lists, and one keeps the lower half and the other the upper
one. In the end tile t, counted row by row, has the words from number {share} t on.
"""


def bitonic_rounds(tiles):
    """The rounds in order: the bit in which the numbers of partners differ, and the bit that tells the direction."""
    rounds = []
    size = 2
    while size <= tiles:
        bit = size // 2
        while bit:
            rounds.append((bit, size))
            bit //= 2
        size *= 2
    return rounds


def keeps_lower(tile, bit, size):
    """Whether a tile keeps the lower half in this round."""
    return (tile & bit == 0) == (tile & size == 0)


def merge_sort(share):
    """Sorts the words at $20 by merging runs into those at $22, which change places after each pass."""
    return f"""
        # sort by merging: $1 bytes are a run
        li   $1, 4
        pass: move $2, $20              # first run
        addiu $3, $20, {4 * share}      # the end of all
        move $4, $22                    # where the result goes
        pair: addu $5, $2, $1           # second run, and the end of the first
        addu $6, $5, $1                 # the end of the second
        move $7, $5
        lw   $8, 0($2)
        lw   $9, 0($5)
        merge: slt $10, $9, $8
        bne  $10, $0, second
        first: sw $8, 0($4)
        addiu $2, $2, 4
        addiu $4, $4, 4
        beq  $2, $7, rest2
        lw   $8, 0($2)
        slt  $10, $9, $8
        beq  $10, $0, first
        second: sw $9, 0($4)
        addiu $5, $5, 4
        addiu $4, $4, 4
        beq  $5, $6, rest1
        lw   $9, 0($5)
        slt  $10, $9, $8
        bne  $10, $0, second
        b    first
        rest1: sw $8, 0($4)             # the first run has more
        addiu $2, $2, 4
        addiu $4, $4, 4
        lw   $8, 0($2)
        bne  $2, $7, rest1
        b    next
        rest2: sw $9, 0($4)             # the second run has more
        addiu $5, $5, 4
        addiu $4, $4, 4
        lw   $9, 0($5)
        bne  $5, $6, rest2
        next: move $2, $6
        bne  $2, $3, pair
        move $10, $20
        move $20, $22
        move $22, $10
        sll  $1, $1, 1
        slti $10, $1, {4 * share}
        bne  $10, $0, pass"""


def give(network_register, share, unroll):
    return lines(
        "move $2, $20            # give mine",
        f"addiu $4, $20, {4 * share}",
        f"give{network_register}:",
        unrolled(unroll, lambda j: f"lw ${network_register}, {4 * j}($2)"),
        f"addiu $2, $2, {4 * unroll}",
        f"bne $2, $4, give{network_register}")


def take(network_register, share, unroll):
    return lines(
        "move $3, $21            # take the partner's",
        f"addiu $4, $21, {4 * share}",
        f"take{network_register}:",
        unrolled(unroll, lambda j: f"sw ${network_register}, {4 * j}($3)"),
        f"addiu $3, $3, {4 * unroll}",
        f"bne $3, $4, take{network_register}")


def swap_as_lower(share, unroll):
    return lines("swapa:", give(24, share, unroll), take(25, share, unroll), "jr $31")


def swap_as_upper(share, unroll):
    return lines("swapb:", take(24, share, unroll), give(25, share, unroll), "jr $31")


def merge_half(name, share):
    """Merges mine at $20 and the partner's at $21 into $22, from the lower or the upper end, up to half of all."""
    if name == "lower":
        step, start, end, is_second = 4, 0, 4 * share, "slt $10, $9, $8"
    else:
        step, start, end, is_second = -4, 4 * share - 4, -4, "slt $10, $8, $9"
    return f"""
        {name}: addiu $2, $20, {start}
        addiu $3, $21, {start}
        addiu $4, $22, {start}
        addiu $5, $22, {end}            # the end
        lw   $8, 0($2)
        lw   $9, 0($3)
        {is_second}
        bne  $10, $0, {name}2
        {name}1: sw $8, 0($4)
        addiu $4, $4, {step}
        addiu $2, $2, {step}
        beq  $4, $5, {name}3
        lw   $8, 0($2)
        {is_second}
        beq  $10, $0, {name}1
        {name}2: sw $9, 0($4)
        addiu $4, $4, {step}
        addiu $3, $3, {step}
        beq  $4, $5, {name}3
        lw   $9, 0($3)
        {is_second}
        bne  $10, $0, {name}2
        b    {name}1
        {name}3: move $10, $20          # merged is mine now
        move $20, $22
        move $22, $10
        jr   $31"""


def tile_program(tile, rounds, share):
    unroll = min(8, share)
    are_lower = [tile & bit == 0 for bit, _ in rounds]
    keep_lower = [keeps_lower(tile, bit, size) for bit, size in rounds]
    calls = []
    for number, (bit, size) in enumerate(rounds):
        half = "lower" if keep_lower[number] else "upper"
        calls += [f"# round {number}: with tile {tile ^ bit}, keep the {half} half",
                  f"jal {'swapa' if are_lower[number] else 'swapb'}",
                  f"jal {half}"]
    return lines(
        f"li $24, {share - 1}           # for the switch: words less 1" if rounds else "",
        f"""
        li   $20, 0                     # mine
        li   $21, {4 * share}           # the partner's
        li   $22, {8 * share}           # merged""",
        merge_sort(share),
        calls,
        "halt",
        swap_as_lower(share, unroll) if True in are_lower else "",
        swap_as_upper(share, unroll) if False in are_lower else "",
        merge_half("lower", share) if True in keep_lower else "",
        merge_half("upper", share) if False in keep_lower else "")


def switch_program(place, rounds, placement):
    return lines(
        "move r3, 1:P",
        *[placement.exchange(f"r{number}", place, bit, "r3") for number, (bit, _) in enumerate(rounds)],
        "halt")


def build(side, random, small, placement="rows"):
    count, end = (16, 100) if small else (4096, 1 << 31)
    tiles = side * side
    share = count // tiles
    if share < 4:
        raise kernel.DoesNotFit
    words = [random.randrange(-end, end) for _ in range(count)]
    rounds = bitonic_rounds(tiles)
    swaps = share.bit_length() - 1 + len(rounds)        # so often $20 and $22 change places
    placed = kernel.Placement(side, placement)
    program_set = kernel.KernelSet(side, ABOUT.format(count=count, share=share, side=side, rounds=len(rounds)))
    for tile in range(tiles):
        x, y = placed.place(tile)
        mine = slice(tile * share, (tile + 1) * share)
        program_set.data(x, y, 0, words[mine])
        program_set.expect_memory(x, y, 8 * share * (swaps % 2), sorted(words)[mine])
        program_set.tile(x, y, tile_program(tile, rounds, share))
        if rounds:
            program_set.switch(x, y, switch_program((x, y), rounds, placed))
    return program_set


if __name__ == "__main__":
    kernel.main(build, placements=kernel.Placement.ORDERS)
