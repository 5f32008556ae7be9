#!/usr/bin/env python3
"""matmul: the product C = A B of integers modulo 2^32, with blocks of C on the tiles."""
import kernel
from kernel import MASK, lines, loop, routes, unrolled

ABOUT = """
matmul: C = A B, {size} by {size} integers modulo 2^32, on {side} by {side} tiles

Tile (x, y) keeps a block of {block} by {block} entries of C. For each t the column A[.][t] comes in from the west on
network 1 and goes on to the east, the row B[t][.] comes in from the north on network 2 and goes on to the south. The
tile adds the product of each pair: an outer product for each t.
"""


def product(a, b):
    """The entries of A B, by the definition."""
    columns = list(zip(*b))
    return [[sum(u * v for u, v in zip(row, column)) & MASK for column in columns] for row in a]


def random_matrix(random, size, end):
    return [[random.randrange(end) for _ in range(size)] for _ in range(size)]


def program_in_registers(size, block):
    """The program of a tile whose part of a row of B fits the registers 8 to 15."""
    return lines(
        f"""
        li   $24, {size - 1}            # for the switch: how many turns more
        li   $24, {block - 1}
        li   $1, {size}                 # t""",
        "outer:                         # the row B[t][.] into registers",
        unrolled(block, lambda j: f"move ${8 + j}, $25"),
        f"""
        li   $2, 0                      # the row of C
        li   $3, {block}
        row: move $4, $24               # A[i][t]""",
        unrolled(block, lambda j: f"""
        mul  $5, $4, ${8 + j}
        lw   $6, {4 * j}($2)
        addu $6, $6, $5
        sw   $6, {4 * j}($2)"""),
        f"addiu $2, $2, {4 * block}",
        end_of_turn())


def program_in_memory(size, block, unroll):
    """The program of a tile that keeps its part of a row of B in memory, behind its block of C."""
    row_of_b = 4 * block * block
    return lines(
        f"""
        li   $24, {size - 1}            # for the switch: how many turns more
        li   $24, {block - 1}
        li   $1, {size}                 # t
        outer:
        li   $2, {row_of_b}
        li   $3, {row_of_b + 4 * block}
        getb: sw $25, 0($2)             # the row B[t][.] into memory
        addiu $2, $2, 4
        bne  $2, $3, getb
        li   $2, 0                      # runs through C
        li   $3, {block}
        row: move $4, $24               # A[i][t]
        li   $7, {row_of_b}
        addiu $16, $2, {4 * block}      # the end of this row of C
        chunk:""",
        unrolled(unroll, lambda j: f"""
        lw   $5, {4 * j}($7)
        mul  $5, $4, $5
        lw   $6, {4 * j}($2)
        addu $6, $6, $5
        sw   $6, {4 * j}($2)"""),
        f"""
        addiu $7, $7, {4 * unroll}
        addiu $2, $2, {4 * unroll}
        bne  $2, $16, chunk""",
        end_of_turn())


def end_of_turn():
    return """
        addiu $3, $3, -1
        bne  $3, $0, row
        addiu $1, $1, -1
        bne  $1, $0, outer
        halt"""


def switch_program(x, y, side):
    """Each word of B goes to the tile and on to the south, each word of A to the tile and on to the east."""
    return lines(
        "move r3, 1:P",
        "move r2, 1:P",
        "outer: move r0, r2",
        loop("rowb", routes("2:N>P", y < side - 1 and "2:N>S")),
        "move r0, r2",
        loop("cola", routes("1:W>P", x < side - 1 and "1:W>E")),
        "bnezd r3, outer",
        "halt")


def claimed(size, side):
    """The product by the definition, each entry of it in the memory where it has to stand."""
    block = size // side
    inputs = [f"a{y * block + i}_{t}" for y in range(side) for t in range(size) for i in range(block)]
    inputs += [f"b{t}_{x * block + j}" for x in range(side) for t in range(size) for j in range(block)]

    def entry(i, j):
        address = 4 * (i % block * block + j % block)
        return lines(
            [f"def p{i}_{j}_{t} mul a{i}_{t} b{t}_{j}" for t in range(size)],
            [f"def c{i}_{j}_{t} add {'c' if t > 1 else 'p'}{i}_{j}_{t - 1} p{i}_{j}_{t}" for t in range(1, size)],
            f"mem c{i}_{j}_{size - 1} {j // block} {i // block} {address}")

    return lines([f"input {name} 0" for name in inputs], [entry(i, j) for i in range(size) for j in range(size)])


def build(side, random, small):
    size, end = (4, 10) if small else (64, 1 << 16)
    block = size // side
    if block < 1:
        raise kernel.DoesNotFit
    a, b = random_matrix(random, size, end), random_matrix(random, size, end)
    c = product(a, b)
    program_set = kernel.KernelSet(side, ABOUT.format(size=size, side=side, block=block))
    for y in range(side):
        program_set.source(1, 0, y, "W", [a[y * block + i][t] for t in range(size) for i in range(block)])
    for x in range(side):
        program_set.source(2, x, 0, "N", [b[t][x * block + j] for t in range(size) for j in range(block)])
    if small:
        # (in the whole problem there are more products than a flow has definitions)
        program_set.claim_lines(claimed(size, side))
    for x, y in program_set.places():
        rows = c[y * block:(y + 1) * block]
        program_set.expect_memory(x, y, 0, [entry for row in rows for entry in row[x * block:(x + 1) * block]])
        fits = block <= 8
        program_set.tile(x, y, program_in_registers(size, block) if fits else program_in_memory(size, block, 8))
        program_set.switch(x, y, switch_program(x, y, side))
    return program_set


if __name__ == "__main__":
    kernel.main(build)
