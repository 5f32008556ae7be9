#!/usr/bin/env python3
"""ntt: a Fourier transform of integers modulo the prime 12289, with butterflies within and between tiles."""
import kernel
from kernel import lines, unrolled

PRIME = 12289
GENERATOR = 11                          # its powers are all units modulo the prime
RECIPROCAL = (1 << 32) // PRIME

ABOUT = """
ntt: the Fourier transform of {count} words modulo {prime}, {share} on each of {side} by {side} tiles

Decimation in frequency: for h = {half}, {quarter}, .. 1, words u and v at a distance of h become u + v and (u - v) w^j.
All such pairs are made within a tile. When u and v lie on two tiles, these exchange half their words: the tile
with the u gives its second half for the first half of the other one. Then both have u and v at a distance of {local},
and other words than before: the bits of the index that tell the tile and the place change places. The powers are
made one from another, and products are reduced with the high word of a product with 2^32 / {prime}.
In the end a tile has {share} words in a row of the result, whose index has its bits in reverse; which row, is the
number of the tile with its bits moved round by one.
"""


def transform(words, root):
    """The definition: entry j is the sum of words[i] root^(i j)."""
    count = len(words)
    powers = [1]
    for _ in range(count - 1):
        powers.append(powers[-1] * root % PRIME)
    return [sum(word * powers[i * j % count] for i, word in enumerate(words)) % PRIME for j in range(count)]


def bits_reversed(k, bits):
    return int(format(k, f"0{bits}b")[::-1], 2)


def swaps(tiles):
    """The bits of the tile's number in the order in which they become bits of the place: from the top, and it again."""
    bits = tiles.bit_length() - 1
    return list(range(bits - 1, -1, -1)) + ([bits - 1] if bits else [])


def first_powers(tile, tiles, share, root):
    """For each swap the power of the first pair, and the root of that stage.

    `places` tells for each bit of the tile's number which bit of the index it stands for, and `top` which one the
    highest bit of the place stands for; a swap exchanges the two. The power has the bits below that of the stage.
    """
    place_bits = share.bit_length() - 1
    places = [place_bits + k for k in range(tiles.bit_length() - 1)]
    top = place_bits - 1
    powers = []
    for bit in swaps(tiles):
        places[bit], top = top, places[bit]
        exponent = sum((tile >> k & 1) << place for k, place in enumerate(places) if place < top)
        powers.append((pow(root, exponent, PRIME), root))
        root = root * root % PRIME
    return powers, root


def reduce(register, label):
    """A number below 2^29 becomes its remainder; $20 has the prime, $21 the reciprocal."""
    return f"""
        mulhu $6, ${register}, $21      # reduce: about the quotient
        mul  $6, $6, $20
        subu ${register}, ${register}, $6
        sltu $6, ${register}, $20
        bne  $6, $0, {label}
        subu ${register}, ${register}, $20
        {label}:"""


def give_second_half(number, partner, half):
    unroll = min(4, half)
    return lines(
        f"# with tile {partner}: my second half for its first half",
        f"li $2, {4 * half}",
        f"give{number}:",
        unrolled(unroll, lambda j: f"lw $24, {4 * j}($2)"),
        f"addiu $2, $2, {4 * unroll}",
        f"bne $2, $19, give{number}",
        f"li $2, {4 * half}",
        f"take{number}:",
        unrolled(unroll, lambda j: f"sw $25, {4 * j}($2)"),
        f"addiu $2, $2, {4 * unroll}",
        f"bne $2, $19, take{number}")


def give_first_half(number, partner, share):
    unroll = min(4, share // 2)
    return lines(
        f"# with tile {partner}: my first half for its second half, which waits behind my words",
        "li $2, 0",
        f"take{number}:",
        unrolled(unroll, lambda j: f"sw $24, {4 * (share + j)}($2)"),
        f"addiu $2, $2, {4 * unroll}",
        f"bne $2, $1, take{number}",
        "li $2, 0",
        f"give{number}:",
        unrolled(unroll, lambda j: f"""
        lw   $25, {4 * j}($2)
        lw   $5, {4 * (share + j)}($2)
        sw   $5, {4 * j}($2)"""),
        f"addiu $2, $2, {4 * unroll}",
        f"bne $2, $1, give{number}")


def stage():
    """The function that makes all pairs at a distance of $1 bytes, with the powers of the root $9 from $8 on."""
    return lines(
        """
        # all pairs at a distance of h, with the powers from $8 on of the root $9
        stage: li $3, 0                 # the first pair with this power
        power: move $2, $3
        addu $4, $2, $1                 # a distance of h
        pair: lw $5, 0($2)              # u
        lw   $6, 0($4)                  # v
        addu $7, $5, $6
        sltu $10, $7, $20
        bne  $10, $0, psum
        subu $7, $7, $20
        psum: sw $7, 0($2)
        subu $5, $5, $6
        addu $5, $5, $20
        mul  $5, $5, $8""",
        reduce(5, "pdif"),
        """
        sw   $5, 0($4)
        addu $2, $4, $1                 # the next block
        addu $4, $2, $1
        sltu $10, $2, $19
        bne  $10, $0, pair
        mul  $8, $8, $9                 # the next power""",
        reduce(8, "ppow"),
        """
        addiu $3, $3, 4
        bne  $3, $1, power
        jr   $31""")


def tile_program(tile, tiles, share, root):
    powers, local_root = first_powers(tile, tiles, share, root)
    exchanges = []
    for number, (bit, (power, stage_root)) in enumerate(zip(swaps(tiles), powers)):
        is_lower = tile >> bit & 1 == 0
        partner = tile ^ 1 << bit
        exchanges += [give_second_half(number, partner, share // 2) if is_lower
                      else give_first_half(number, partner, share),
                      f"li $8, {power}             # the first power of {stage_root}",
                      f"li $9, {stage_root}",
                      "jal stage"]
    is_alone = tiles == 1
    return lines(
        "" if is_alone else f"li $24, {share // 2 - 1}           # for the switch: words of an exchange less 1",
        f"""
        li   $20, {PRIME}               # the prime
        li   $21, {RECIPROCAL}          # 2^32 / prime
        li   $19, {4 * share}           # the end of the words
        li   $1, {2 * share}            # h, in bytes""",
        exchanges,
        "# the tile alone" if is_alone else "# the rest of the stages",
        f"li $9, {local_root}             # the root",
        "" if is_alone else "srl $1, $1, 1",
        """
        alone: li $8, 1
        jal  stage
        mul  $9, $9, $9                 # half of h: the square of the root""",
        reduce(9, "proot"),
        """
        srl  $1, $1, 1
        slti $10, $1, 4
        beq  $10, $0, alone
        halt""",
        stage())


def switch_program(place, tiles, placement):
    return lines(
        "move r3, 1:P",
        *[placement.exchange(f"swap{number}", place, 1 << bit, "r3") for number, bit in enumerate(swaps(tiles))],
        "halt")


def build(side, random, small, placement="rows"):
    count, tiles = 16 if small else 4096, side * side
    share = count // tiles
    if share < 4:
        raise kernel.DoesNotFit
    root = pow(GENERATOR, (PRIME - 1) // count, PRIME)
    words = [random.randrange(PRIME) for _ in range(count)]
    entries = transform(words, root)
    bits, tile_bits = count.bit_length() - 1, tiles.bit_length() - 1
    in_reverse = [entries[bits_reversed(k, bits)] for k in range(count)]
    placed = kernel.Placement(side, placement)
    program_set = kernel.KernelSet(side, ABOUT.format(
        count=count, prime=PRIME, share=share, side=side, half=count // 2, quarter=count // 4, local=share // 2))
    for tile in range(tiles):
        x, y = placed.place(tile)
        row = (tile << 1 | tile >> tile_bits - 1) & tiles - 1 if tile_bits else 0
        program_set.data(x, y, 0, words[tile * share:(tile + 1) * share])
        program_set.expect_memory(x, y, 0, in_reverse[row * share:(row + 1) * share])
        program_set.tile(x, y, tile_program(tile, tiles, share, root))
        if tiles > 1:
            program_set.switch(x, y, switch_program((x, y), tiles, placed))
    return program_set


if __name__ == "__main__":
    kernel.main(build, placements=kernel.Placement.ORDERS)
