#!/usr/bin/env python3
"""floyd: shortest paths between all pairs (Floyd and Warshall), blocks of the matrix on the tiles, pivots broadcast."""
import itertools

import kernel
from kernel import lines, loop, routes, unrolled

NO_EDGE = 0x3FFFFFFF

ABOUT = """
floyd: lengths of shortest paths between all pairs of {size} nodes, on {side} by {side} tiles

Tile (x, y) has a block of {block} by {block} entries of the matrix. For each pivot t, the tiles that have column t send
it along their rows, east and west on network 1; the tiles that have row t send it along their columns, south
and north on network 2. Then each tile tries the way over t for each of its entries.
"""


def shortest_from(start, edges, size):
    """The lengths of shortest paths from a node: all edges are relaxed until nothing changes (Bellman and Ford)."""
    lengths = [NO_EDGE] * size
    lengths[start] = 0
    while True:
        new = lengths[:]
        for first, second, weight in edges:
            new[second] = min(new[second], lengths[first] + weight)
        if new == lengths:
            return lengths
        lengths = new


def random_graph(random, size, density):
    """The matrix of the lengths of edges."""
    return [[0 if i == j else random.randrange(1, 1000) if random.random() < density else NO_EDGE
             for j in range(size)] for i in range(size)]


def pivots_of_one_role(number, has_column, has_row, pivots, block, side):
    """The loop over pivots whose column and row this tile has, or gets from others."""
    unroll = min(8, block)
    column, row = 4 * block * block, 4 * block * block + 4 * block
    title = {(True, True): "both are here", (True, False): "the columns are here",
             (False, True): "the rows are here", (False, False): "both come in"}[has_column, has_row]

    def get(j):
        return lines(
            [f"lw $7, {4 * block * j}($5)", side > 1 and "move $24, $7", f"sw $7, {4 * j}($4)"] if has_column else "",
            [f"lw $7, {4 * j}($6)", side > 1 and "move $25, $7", f"sw $7, {4 * block + 4 * j}($4)"] if has_row else "",
            "" if has_column else f"sw $24, {4 * j}($4)",
            "" if has_row else f"sw $25, {4 * block + 4 * j}($4)")

    return lines(
        f"# {pivots} pivots: {title}",
        f"li $1, {pivots}",
        "li $2, 0                # top of the column" if has_column else "",
        "li $3, 0                # begin of the row" if has_row else "",
        f"run{number}: li $4, {column}",
        "move $5, $2" if has_column else "",
        "move $6, $3" if has_row else "",
        f"get{number}:",
        unrolled(unroll, get),
        [has_column and f"addiu $5, $5, {4 * block * unroll}",
         has_row and f"addiu $6, $6, {4 * unroll}",
         f"addiu $4, $4, {4 * unroll}",
         f"slti $7, $4, {row}",
         f"bne $7, $0, get{number}"] if unroll < block else "",
        "jal relax",
        "addiu $2, $2, 4" if has_column else "",
        f"addiu $3, $3, {4 * block}" if has_row else "",
        "addiu $1, $1, -1",
        f"bne $1, $0, run{number}")


def relax(block):
    """The function that tries the way over the pivot for all entries, in strips of as many columns as fit registers."""
    unroll = min(8, block)
    column, row = 4 * block * block, 4 * block * block + 4 * block
    return lines(
        f"""
        relax: li $23, 0                # the top of the strip
        li   $22, {row}
        strip:""",
        unrolled(unroll, lambda j: f"lw ${8 + j}, {4 * j}($22)"),
        f"""
        move $4, $23
        li   $5, {column}
        line: lw $6, 0($5)              # to the pivot""",
        unrolled(unroll, lambda j: f"""
        addu $7, $6, ${8 + j}           # over the pivot
        lw   $16, {4 * j}($4)
        slt  $17, $7, $16
        beq  $17, $0, keep{j}
        sw   $7, {4 * j}($4)
        keep{j}:"""),
        f"""
        addiu $4, $4, {4 * block}
        addiu $5, $5, 4
        slti $7, $5, {row}
        bne  $7, $0, line""",
        f"""
        addiu $22, $22, {4 * unroll}
        addiu $23, $23, {4 * unroll}
        slti $7, $23, {4 * block}
        bne  $7, $0, strip""" if unroll < block else "",
        "jr $31")


def tile_program(x, y, side, block):
    """Pivots in order; those behind each other for which the tile has the same role are one loop."""
    roles = itertools.groupby((x == owner, y == owner) for owner in range(side))
    return lines(
        f"li $24, {block * block - 1}           # for the switch: words of the pivots of one tile" if side > 1 else "",
        [pivots_of_one_role(number, has_column, has_row, len(list(owners)) * block, block, side)
         for number, ((has_column, has_row), owners) in enumerate(roles)],
        "halt",
        "# all entries, in strips of as many columns as registers are free",
        relax(block))


def broadcast(network, position, owner, side, forth, back):
    """The routes of a pivot's word along a line: from the owner both ways, and each switch keeps and passes it on."""
    has_upper, has_lower = position < side - 1, position > 0
    if position == owner:
        return routes(has_upper and f"{network}:P>{forth}", has_lower and f"{network}:P>{back}")
    come, go = (back, forth) if position > owner else (forth, back)
    return routes(f"{network}:{come}>P", has_upper and has_lower and f"{network}:{come}>{go}")


def switch_program(x, y, side):
    program = ["move r2, 1:P"]
    for owner in range(side):
        program.append(f"move r0, r2             # pivots of tile column {owner} and tile row {owner}")
        program += loop(f"own{owner}", routes(broadcast(1, x, owner, side, "E", "W"),
                                              broadcast(2, y, owner, side, "S", "N")))
    return lines(program, "halt")


def build(side, random, small):
    size = 4 if small else 64
    block = size // side
    if small and side > 2:
        raise kernel.DoesNotFit
    matrix = random_graph(random, size, 0.5 if small else 0.12)
    edges = [(i, j, matrix[i][j]) for i in range(size) for j in range(size) if i != j and matrix[i][j] < NO_EDGE]
    lengths = [shortest_from(start, edges, size) for start in range(size)]
    program_set = kernel.KernelSet(side, ABOUT.format(size=size, side=side, block=block))
    for x, y in program_set.places():
        columns = slice(x * block, (x + 1) * block)
        for i in range(block):
            program_set.data(x, y, 4 * block * i, matrix[y * block + i][columns])
            program_set.expect_memory(x, y, 4 * block * i, lengths[y * block + i][columns])
        program_set.tile(x, y, tile_program(x, y, side, block))
        if side > 1:
            program_set.switch(x, y, switch_program(x, y, side))
    return program_set


if __name__ == "__main__":
    kernel.main(build)
