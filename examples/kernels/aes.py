#!/usr/bin/env python3
"""aes: AES-128 in counter mode; blocks come in at the west of each row, are dealt to its tiles, leave at the east."""
import kernel
from kernel import big_endian, lines, loop, unrolled

ROUND_KEYS = 1024                       # where they stand, behind the table

ABOUT = """
aes: AES-128 in counter mode on {blocks} blocks of four words, on {side} by {side} tiles

Row y has a source in the west and a sink in the east, and {row} of the blocks. They come in on network 1 in groups
of {side}: the first block of a group is for the easternmost tile, the last for the westernmost. The results leave on
network 2 in the same order: each switch sends on the result of its tile, then those from the west.
A tile has one table of 256 words at address 0, which does SubBytes and MixColumns for the first row; the tables
of the other rows are this one rotated. The second byte of an entry is the S-box. The round keys stand at 1024.
"""


# The cipher, as FIPS 197 defines it

def times(a, b):
    """The product in GF(2^8) modulo x^8 + x^4 + x^3 + x + 1."""
    product = 0
    while b:
        if b & 1:
            product ^= a
        a = a << 1 ^ (0x11B if a & 0x80 else 0)
        b >>= 1
    return product


def substitute(byte):
    """An entry of the S-box: the inverse, and then the affine map."""
    inverse = next((other for other in range(256) if times(byte, other) == 1), 0)
    rotated = [(inverse << k | inverse >> 8 - k) & 255 for k in range(5)]
    return 0x63 ^ rotated[0] ^ rotated[1] ^ rotated[2] ^ rotated[3] ^ rotated[4]


S_BOX = [substitute(byte) for byte in range(256)]


def expand(key):
    """The 44 words of the key schedule, as lists of four bytes."""
    words = [list(key[k:k + 4]) for k in range(0, 16, 4)]
    constant = 1
    for k in range(4, 44):
        last = words[-1]
        if k % 4 == 0:
            last = [S_BOX[byte] for byte in last[1:] + last[:1]]
            last[0] ^= constant
            constant = times(constant, 2)
        words.append([a ^ b for a, b in zip(words[-4], last)])
    return words


def add_round_key(state, words):
    return [a ^ b for a, b in zip(state, [byte for word in words for byte in word])]


def shift_rows(state):
    return [state[4 * ((column + row) % 4) + row] for column in range(4) for row in range(4)]


def mix_columns(state):
    columns = [state[k:k + 4] for k in range(0, 16, 4)]
    return [times(column[row], 2) ^ times(column[(row + 1) % 4], 3) ^ column[(row + 2) % 4] ^ column[(row + 3) % 4]
            for column in columns for row in range(4)]


def encrypt(words, block):
    """A block of 16 bytes under the key of this schedule."""
    state = add_round_key(block, words[0:4])
    for number in range(1, 11):
        state = shift_rows([S_BOX[byte] for byte in state])
        if number < 10:
            state = mix_columns(state)
        state = add_round_key(state, words[4 * number:4 * number + 4])
    return state


def in_counter_mode(words, nonce, plain):
    """Each block of four words with the cipher of the nonce and the block's number added to it."""
    result = []
    for number, block in enumerate(plain):
        counter = [byte for word in nonce + [number] for byte in word.to_bytes(4, "big")]
        result.append([a ^ b for a, b in zip(block, big_endian(encrypt(words, counter)))])
    return result


# The programs

def index(source, row):
    """The byte of that row of a column, times 4, into $1."""
    shift = f"sll $1, ${source}, 2" if row == 3 else f"srl $1, ${source}, {(22, 14, 6)[row]}"
    return lines(shift, "andi $1, $1, 0x3fc")


def column_of_round(column):
    """One column of SubBytes, ShiftRows, MixColumns and AddRoundKey, from the table."""
    result = 12 + column
    program = [f"# column {column}"]
    for row in (3, 2, 1, 0):
        program.append(index(8 + (column + row) % 4, row))
        if row == 3:
            program.append(f"lw ${result}, 0($1)")
        else:
            program.append(f"""
                lw   $1, 0($1)
                srl  $2, ${result}, 8
                sll  ${result}, ${result}, 24
                or   ${result}, ${result}, $2          # rotate
                xor  ${result}, ${result}, $1""")
    return lines(program, f"lw $1, {4 * column}($5)", f"xor ${result}, ${result}, $1")


def column_of_last_round(column):
    """One column of SubBytes, ShiftRows and AddRoundKey; the word of the block is added, and it goes out."""
    result = 12 + column
    program = []
    for row in range(4):
        program.append(index(8 + (column + row) % 4, row))
        if row == 0:
            program.append(f"lbu ${result}, 1($1)")
        else:
            program.append(f"""
                lbu  $1, 1($1)
                sll  ${result}, ${result}, 8
                or   ${result}, ${result}, $1""")
    return lines(program, f"lw $1, {16 + 4 * column}($5)", f"xor ${result}, ${result}, $1",
                 f"xor $25, ${result}, ${16 + column}")


def add_first_key(column):
    counter = 26 + column if column < 3 else 20
    return lines(f"lw $1, {4 * column}($5)", f"xor ${8 + column}, ${counter}, $1")


def tile_program(x, side, first, groups, nonce):
    """$20 has the number of the block, $26 to $28 the nonce; $16 to $19 get the block."""
    place = side - 1 - x                # which block of a group
    return lines(
        f"li $24, {groups - 1}            # for the switch: groups less 1",
        f"li $24, {4 * place - 1}            # words for the east less 1" if place else "",
        f"li $24, {4 * x - 1}            # words from the west less 1" if x else "",
        f"""
        li   $20, {first + place}       # number of the block
        li   $21, {groups}
        li   $26, {nonce[0]}
        li   $27, {nonce[1]}
        li   $28, {nonce[2]}
        block: move $16, $24            # the block
        move $17, $24
        move $18, $24
        move $19, $24
        li   $5, {ROUND_KEYS}           # the round keys""",
        unrolled(4, add_first_key),
        """
        li   $6, 9
        round: addiu $5, $5, 16""",
        unrolled(4, column_of_round),
        unrolled(4, lambda column: f"move ${8 + column}, ${12 + column}"),
        """
        addiu $6, $6, -1
        bne  $6, $0, round
        # the last round: SubBytes alone, then the result goes out""",
        unrolled(4, column_of_last_round),
        f"""
        addiu $20, $20, {side}
        addiu $21, $21, -1
        bne  $21, $0, block
        halt""")


def switch_program(x, side):
    is_last = x == side - 1
    return lines(
        "move r3, 1:P",
        "" if is_last else "move r2, 1:P",
        "move r1, 1:P" if x else "",
        "group:",
        "" if is_last else lines("move r0, r2", loop("east", "1:W>E")),
        ["1:W>P"] * 4,
        ["2:P>E"] * 4,
        lines("move r0, r1", loop("west", "2:W>E")) if x else "",
        "bnezd r3, group",
        "halt")


def build(side, random, small):
    blocks = 1 if small else 512
    if blocks % (side * side):
        raise kernel.DoesNotFit
    row = blocks // side
    key = [random.randrange(256) for _ in range(16)]
    nonce = [random.randrange(1 << 32) for _ in range(3)]
    words = expand(key)
    plain = [[random.randrange(1 << 32) for _ in range(4)] for _ in range(blocks)]
    secret = in_counter_mode(words, nonce, plain)
    table = [times(byte, 2) << 24 | byte << 16 | byte << 8 | times(byte, 3) for byte in S_BOX]
    round_keys = [big_endian(word)[0] for word in words]
    program_set = kernel.KernelSet(side, ABOUT.format(blocks=blocks, side=side, row=row))
    for y in range(side):
        mine = slice(y * row, (y + 1) * row)
        program_set.source(1, 0, y, "W", [word for block in plain[mine] for word in block])
        program_set.expect_sink(2, side - 1, y, "E", [word for block in secret[mine] for word in block])
    for x, y in program_set.places():
        program_set.data(x, y, 0, table)
        program_set.data(x, y, ROUND_KEYS, round_keys)
        program_set.tile(x, y, tile_program(x, side, y * row, row // side, nonce))
        program_set.switch(x, y, switch_program(x, side))
    return program_set


if __name__ == "__main__":
    kernel.main(build)
