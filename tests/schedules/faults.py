"""One fault in the programs of the listing of a set, of eight kinds."""
import re

from mutants import TILE_OPERATIONS, code_lines, with_operation, with_register, with_route

SHIFTS = ("sll", "srl", "sra")
MEMORY = ("lw", "sw")


def exchanged(line, chance):
    """The line of an operation on two other registers with these two exchanged."""
    word, _, rest = line.partition(" ")
    operands = rest.split(", ")
    if word not in TILE_OPERATIONS or len(operands) != 3 or operands[1] == operands[2]:
        return None
    return f"{word} {operands[0]}, {operands[2]}, {operands[1]}"


def with_last(line, new):
    """The line with another last number."""
    found = re.fullmatch(r"(.*), (-?(?:0x)?[0-9a-f]+)", line)
    return f"{found[1]}, {new(int(found[2], 0))}" if found else None


def with_constant(line, chance):
    """The line of an operation with a constant with another constant."""
    if line.split()[0] in SHIFTS:
        return None
    return with_last(line, lambda n: n + chance.choice([-1, 1, 2, 4, 32, 255]))


def with_shift(line, chance):
    """The line of a shift by a constant with one more or less."""
    if line.split()[0] not in SHIFTS:
        return None
    return with_last(line, lambda n: max(0, min(31, n + chance.choice([-1, 1]))))


def with_address(line, chance):
    """The line of a load or a store with the address of a neighbour."""
    word, _, rest = line.partition(" ")
    if word not in MEMORY:
        return None
    register, _, address = rest.partition(", ")
    offset, _, base = address.partition("(")
    return f"{word} {register}, {int(offset, 0) + chance.choice([-4, 4])}({base}"


def left_out(line, chance):
    """No line."""
    return ""


KINDS = {
    "operation changed": with_operation,
    "operands exchanged": exchanged,
    "constant changed": with_constant,
    "route changed or lost": with_route,
    "register": with_register,
    "shift by one more or less": with_shift,
    "address": with_address,
    "instruction left out": left_out,
}


def faulty(text, kind, chance):
    """The listing with one fault of this kind; None where its programs have no place for it."""
    lines = text.splitlines()
    places = code_lines(lines)
    chance.shuffle(places)
    for k in places:
        line = KINDS[kind](lines[k], chance)
        if line is not None and line != lines[k]:
            return "\n".join(lines[:k] + ([line] if line else []) + lines[k + 1 :]) + "\n"
    return None
