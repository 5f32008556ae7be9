#!/usr/bin/env python3
"""wht2d: transform coding with a two-dimensional Walsh-Hadamard transform: two corner turns (all-to-all) each way."""
import kernel
from kernel import lines, loop

ABOUT = """
wht2d: transform coding of {size} by {size} words, on {side} by {side} tiles

Each tile has {rows} rows. It transforms each row (Walsh and Hadamard: sums and differences at distances 1, 2, 4, ..).
Then the matrix is transposed: each tile sends {part} words to each other tile. That is done in two phases, along
the rows on which the tiles lie and then along their columns. In a phase, the {side} tiles of a line exchange messages
of {message} words. The first one sends all that goes east (or south), on network 1, for the farthest tile first; then
the last one all that goes west (or north), on network 2; then the second one, the last but one, and so on: one order
for all, so nobody waits in a ring. Rows, transpose, rows, transpose is the transform; {dropped} bits of each word are
dropped, and the same again is the way back.
"""


def transform(matrix):
    """H A H by the definition, where H has 1 or -1 as the bits of both numbers have an even or odd number in common."""
    size = len(matrix)
    signs = [[-1 if bin(i & j).count("1") % 2 else 1 for j in range(size)] for i in range(size)]

    def product(a, b):
        columns = list(zip(*b))
        return [[sum(u * v for u, v in zip(row, column)) for column in columns] for row in a]

    return product(product(signs, matrix), signs)


class Turn:
    """The addresses of words in the two phases of a transposition.

    Each tile has `rows` rows of the matrix, from address 0 on, and behind them the words that stand between the phases.
    The first phase goes along a row of tiles: to each tile the columns that end in its column of tiles. The second one
    goes along a column of tiles; what comes as columns becomes rows.
    """

    def __init__(self, size, side):
        self.size, self.side, self.rows = size, side, size // (side * side)

    def _matrix(self, row, column):
        return 4 * (row * self.size + column)

    def _between(self, first, second, column, row):
        """The word (column, row) from tile `first` of my row, for tile `second` of my column."""
        index = ((first * self.side + second) * self.rows + column) * self.rows + row
        return 4 * (self.size * self.rows + index)

    def _each(self, address):
        return [address(tile, column, row)
                for tile in range(self.side) for column in range(self.rows) for row in range(self.rows)]

    def given_along_row(self, other):
        return self._each(lambda tile, column, row: self._matrix(row, (tile * self.side + other) * self.rows + column))

    def taken_along_row(self, other):
        return self._each(lambda tile, column, row: self._between(other, tile, column, row))

    def given_along_column(self, other):
        return self._each(lambda tile, column, row: self._between(tile, other, column, row))

    def taken_along_column(self, other):
        return self._each(lambda tile, column, row: self._matrix(column, (other * self.side + tile) * self.rows + row))


def transform_rows(size, rows):
    return f"""
        rows: li $1, 0                  # the row
        level0: li $2, 4                # the distance, in bytes
        addiu $3, $1, {4 * size}        # the end of the row
        level: move $4, $1
        block: addu $5, $4, $2
        move $6, $5                     # the end of the first half
        pair: lw $7, 0($4)
        lw   $8, 0($5)
        addiu $4, $4, 4
        addu $9, $7, $8
        sw   $9, -4($4)
        subu $9, $7, $8
        sw   $9, 0($5)
        addiu $5, $5, 4
        bne  $4, $6, pair
        move $4, $5
        bne  $4, $3, block
        sll  $2, $2, 1
        slti $7, $2, {4 * size}
        bne  $7, $0, level
        move $1, $3
        slti $7, $1, {4 * size * rows}
        bne  $7, $0, level0
        jr   $31"""


def transpose_alone(size):
    """On one tile: the words on both sides of the diagonal change places."""
    return f"""
        turn:
        li   $1, 0                      # the diagonal entry
        li   $8, {4 * size}             # the end of its row
        diag: addiu $2, $1, 4           # along its row
        addiu $3, $1, {4 * size}        # down its column
        b    more
        swap: lw $4, 0($2)
        lw   $5, 0($3)
        sw   $4, 0($3)
        sw   $5, 0($2)
        addiu $2, $2, 4
        addiu $3, $3, {4 * size}
        more: bne $2, $8, swap
        addiu $1, $1, {4 * size + 4}
        addiu $8, $8, {4 * size}
        slti $4, $1, {4 * size * size}
        bne  $4, $0, diag
        jr   $31"""


def phase(given, taken, position, side, forth, back):
    """One phase: in turn k tile k of the line sends forth, on network 1, and then tile side - 1 - k back."""
    program = []
    for first in range(side):
        last = side - 1 - first
        if first < position:
            program += [f"# from the {back}, number {first}"] + [f"sw $24, {word}($0)" for word in taken(first)]
        elif first == position:
            for other in range(side - 1, position, -1):
                program += [f"# to the {forth}, number {other}"] + [f"lw $24, {word}($0)" for word in given(other)]
        if last > position:
            program += [f"# from the {forth}, number {last}"] + [f"sw $25, {word}($0)" for word in taken(last)]
        elif last == position:
            for other in range(position):
                program += [f"# to the {back}, number {other}"] + [f"lw $25, {word}($0)" for word in given(other)]
    program.append("# my own")
    for word, place in zip(given(position), taken(position)):
        program += [f"lw $1, {word}($0)", f"sw $1, {place}($0)"]
    return lines(program)


def transpose(x, y, turn):
    return lines(
        "turn:",
        phase(turn.given_along_row, turn.taken_along_row, x, turn.side, "east", "west"),
        phase(turn.given_along_column, turn.taken_along_column, y, turn.side, "south", "north"),
        "jr $31")


def tile_program(x, y, turn, message, dropped):
    size, rows = turn.size, turn.rows
    is_alone = turn.side == 1
    return lines(
        "" if is_alone else f"""
        li   $24, {message - 1}         # for the switch: words of a message less 1
        li   $24, 3                     # and turns less 1""",
        f"""
        jal  code
        li   $1, 0                      # drop bits
        quant: lw $5, 0($1)
        sra  $5, $5, {dropped}
        sw   $5, 0($1)
        addiu $1, $1, 4
        slti $5, $1, {4 * size * rows}
        bne  $5, $0, quant
        jal  code
        halt
        code: move $30, $31             # rows, turn, rows, turn
        jal  rows
        jal  turn
        jal  rows
        jal  turn
        jr   $30""",
        transform_rows(size, rows),
        transpose_alone(size) if is_alone else transpose(x, y, turn))


def messages(label, count, route):
    """So many messages by this route, a loop for each."""
    return lines(*[lines("move r0, r2", loop(f"{label}{k}", route)) for k in range(count)])


def line_of_switches(name, position, side, forth, back):
    """What a switch does in one phase, in the order in which the tiles of its line send."""
    program = []
    for first in range(side):
        # (`place` counts from the end at which this direction begins)
        for network, go, come, place in ((1, forth, back, position), (2, back, forth, side - 1 - position)):
            behind = side - 1 - place
            label = f"{name}{network}"
            if first < place:
                program.append(messages(f"{label}s{first}p", behind, f"{network}:{come}>{go}"))
                program.append(messages(f"{label}s{first}t", 1, f"{network}:{come}>P"))
            elif first == place:
                program.append(messages(f"{label}own", behind, f"{network}:P>{go}"))
    return lines(program)


def switch_program(x, y, side):
    return lines(
        "move r2, 1:P",
        "move r3, 1:P",
        "# four corner turns",
        "turns:",
        line_of_switches("x", x, side, "E", "W"),
        line_of_switches("y", y, side, "S", "N"),
        "bnezd r3, turns",
        "halt")


def claimed(image, dropped, places):
    """The transform and the way back by the definition, each word in the memory where it has to stand."""
    size, last = len(image), len(image) - 1

    def product(to, term, bits):
        """Defines the entries of a product with H, where its sign is that of these bits."""
        for i in range(size):
            for j in range(size):
                for k in range(1, size):
                    sign = "sub" if bin(bits(i, j, k)).count("1") % 2 else "add"
                    before = term(i, j, 0) if k == 1 else f"{to}{i}_{j}_{k - 1}"
                    yield f"def {to}{i}_{j}_{k} {sign} {before} {term(i, j, k)}"

    def transformed(of, half, whole):
        yield from product(half, lambda i, j, k: f"{of}{k}_{j}", lambda i, j, k: i & k)
        yield from product(whole, lambda i, j, k: f"{half}{i}_{k}_{last}", lambda i, j, k: k & j)

    entries = [(i, j) for i in range(size) for j in range(size)]
    rows = size // len(places)
    return lines(
        [f"def a{i}_{j} const {image[i][j]}" for i, j in entries], f"def dropped const {dropped}",
        transformed("a", "b", "c"), [f"def d{i}_{j} sra c{i}_{j}_{last} dropped" for i, j in entries],
        transformed("d", "e", "f"),
        [f"mem f{i}_{j}_{last} {places[i // rows][0]} {places[i // rows][1]} {4 * (i % rows * size + j)}" for i, j in entries])


def build(side, random, small):
    size, dropped = (4, 1) if small else (64, 3)
    tiles = side * side
    if size % tiles:
        raise kernel.DoesNotFit
    turn = Turn(size, side)
    rows, message = turn.rows, side * turn.rows ** 2
    image = [[random.randrange(256) for _ in range(size)] for _ in range(size)]
    coded = [[word >> dropped for word in row] for row in transform(image)]
    decoded = transform(coded)
    program_set = kernel.KernelSet(side, ABOUT.format(
        size=size, side=side, rows=rows, part=rows * rows, message=message, dropped=dropped))
    if small:
        # (in the whole problem there are more sums than a flow has definitions)
        program_set.claim_lines(claimed(image, dropped, list(program_set.places())))
    for tile, (x, y) in enumerate(program_set.places()):
        mine = slice(tile * rows, (tile + 1) * rows)
        program_set.data(x, y, 0, [word for row in image[mine] for word in row])
        program_set.expect_memory(x, y, 0, [word for row in decoded[mine] for word in row])
        program_set.tile(x, y, tile_program(x, y, turn, message, dropped))
        if side > 1:
            program_set.switch(x, y, switch_program(x, y, side))
    return program_set


if __name__ == "__main__":
    kernel.main(build)
