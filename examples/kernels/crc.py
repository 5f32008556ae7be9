#!/usr/bin/env python3
"""crc: the CRC-32 of a message; pieces on the tiles, moved to their places by products of polynomials, added up."""
import kernel
from kernel import MASK, big_endian, lines, unrolled

POLYNOMIAL = 0xEDB88320                 # bits in reverse: bit 31 is x^0
MESSAGE = 1024                          # where a piece stands, behind the table

ABOUT = """
crc: the CRC-32 of {count} bytes, on {side} by {side} tiles

Each tile goes through its {share} bytes with a table of 256 words. A piece that has k bytes behind it counts x^(8k)
times, modulo the polynomial of the CRC: each tile multiplies by that, bit by bit. The sum of all is an exclusive or,
along the rows to the west and along the first column to the north; its complement goes out.
"""


def times_x(remainder):
    """A polynomial times x, modulo that of the CRC."""
    return remainder >> 1 ^ (POLYNOMIAL if remainder & 1 else 0)


def power_of_x(exponent):
    """x to this power, modulo the polynomial."""
    power = 1 << 31
    for _ in range(exponent):
        power = times_x(power)
    return power


def times_x8(remainder):
    for _ in range(8):
        remainder = times_x(remainder)
    return remainder


def crc_32(message):
    """The definition, bit by bit: the remainder begins as ones, and its complement is the CRC."""
    remainder = MASK
    for byte in message:
        remainder = times_x8(remainder ^ byte)
    return remainder ^ MASK


def one_byte(j):
    return f"""
        lbu  $4, {j}($1)
        xor  $4, $4, $3
        andi $4, $4, 255
        sll  $4, $4, 2
        lw   $4, 0($4)
        srl  $3, $3, 8
        xor  $3, $3, $4"""


def move_to_its_place(exponent):
    """The remainder in $3 times that power of x, bit by bit."""
    return f"""
        # times x^{exponent}
        li   $5, {power_of_x(exponent)}
        li   $6, {POLYNOMIAL}
        li   $7, 0                      # the product
        li   $8, 32
        bit: bgez $5, zero
        xor  $7, $7, $3
        zero: sll $5, $5, 1
        andi $4, $3, 1
        subu $4, $0, $4
        and  $4, $4, $6
        srl  $3, $3, 1
        xor  $3, $3, $4                 # times x
        addiu $8, $8, -1
        bne  $8, $0, bit
        move $3, $7"""


def sum_up(x, y, side):
    """The exclusive or of all remainders; tile 0 sends its complement out."""
    if x > 0:
        return f"xor $24, $3, {'$24' if x < side - 1 else '$0'}"
    return lines(
        "xor $3, $3, $24" if side > 1 else "",
        "xor $3, $3, $25" if y < side - 1 else "",
        "nor $25, $3, $0" if y == 0 else "move $25, $3")


def tile_program(x, y, side, share):
    tile = y * side + x
    pieces_behind = side * side - 1 - tile
    return lines(
        f"""
        li   $1, {MESSAGE}              # the next byte
        li   $2, {MESSAGE + share}      # the end
        li   $3, {0 if tile else -1}    # the remainder
        bytes:""",
        unrolled(8, one_byte),
        """
        addiu $1, $1, 8
        bne  $1, $2, bytes""",
        move_to_its_place(8 * share * pieces_behind) if pieces_behind else "",
        sum_up(x, y, side),
        "halt")


def build(side, random, small):
    count, tiles = 64 if small else 49152, side * side
    if small and tiles > 4:
        raise kernel.DoesNotFit
    share = count // tiles
    message = [random.randrange(256) for _ in range(count)]
    table = [times_x8(byte) for byte in range(256)]
    program_set = kernel.KernelSet(side, ABOUT.format(count=count, side=side, share=share))
    program_set.expect_sink(2, 0, 0, "N", [crc_32(message)])
    for tile, (x, y) in enumerate(program_set.places()):
        program_set.data(x, y, 0, table)
        program_set.data(x, y, MESSAGE, big_endian(message[tile * share:(tile + 1) * share]))
        program_set.tile(x, y, tile_program(x, y, side, share))
        program_set.switch(x, y, kernel.sum_to_first(x, y, side))
    return program_set


if __name__ == "__main__":
    kernel.main(build)
