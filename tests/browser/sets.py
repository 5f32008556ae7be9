"""Large sets for the tests in a browser: 8 by 8 tiles."""

SIZE = 8


def places():
    return [(t, t % SIZE, t // SIZE) for t in range(SIZE * SIZE)]


def busy(count):
    """Every tile exchanges words with one neighbour on each network, so many times; all step nearly all the time."""
    lines = [f"grid {SIZE} {SIZE}", f"limit {10 * count + 20}"]
    for t, x, y in places():
        across, along = "WE"[x % 2 == 0], "NS"[y % 2 == 0]
        lines += [f"tile {x} {y}", f"li $5, {count}", "loop: addu $24, $5, $0", f"xori $25, $5, {77 * t}"]
        lines += ["addu $6, $24, $6", "addu $7, $25, $7", "sw $7, 0($0)", "addiu $5, $5, -1", "bne $5, $0, loop", "halt", "end"]
        lines += [f"switch {x} {y}", f"nop 1:P>{across} 2:P>{along}", f"j 0 1:{across}>P 2:{along}>P", "end"]
    return "\n".join(lines) + "\n"


def way_round(x, y):
    """Returns from which side and to which one the ring along the edge goes through a place."""
    if y == 0 and x < SIZE - 1:
        return ("W" if x else "S"), "E"
    if x == SIZE - 1 and y < SIZE - 1:
        return ("N" if y else "W"), "S"
    if y == SIZE - 1 and x:
        return ("E" if x < SIZE - 1 else "N"), "W"
    return ("S" if y < SIZE - 1 else "E"), "N"


def ring():
    """A deadlock of the 28 switches at the edge, each of which takes before it gives, while the tiles inside work on."""
    lines = [f"grid {SIZE} {SIZE}", "limit 90"]
    for _, x, y in places():
        lines += [f"tile {x} {y}", "li $5, 20", "loop: addiu $24, $24, 1", "addiu $5, $5, -1", "bne $5, $0, loop", "halt", "end"]
        if 0 < x < SIZE - 1 and 0 < y < SIZE - 1:
            lines += [f"switch {x} {y}", "nop 1:r0>P", "loop: j loop 1:P>P", "end"]
        else:
            into, out = way_round(x, y)
            lines += [f"switch {x} {y}", f"nop 1:{into}>P", f"nop 1:P>{out}", "halt", "end"]
    return "\n".join(lines) + "\n"


def corner():
    """A deadlock of a tile and its switch in the corner of the east, while all others work on and are done."""
    lines = [f"grid {SIZE} {SIZE}", "limit 90"]
    for _, x, y in places():
        if (x, y) == (SIZE - 1, 0):
            lines += [f"tile {x} {y}", "addu $5, $24, $0", "halt", "end", f"switch {x} {y}", "nop 1:P>P", "halt", "end"]
        else:
            lines += [f"tile {x} {y}", "li $5, 9", "loop: addiu $5, $5, -1", "bne $5, $0, loop", "halt", "end", f"switch {x} {y}", "halt", "end"]
    return "\n".join(lines) + "\n"


def late_halt():
    """A tile waits from the first cycle on for a switch that halts in the sixth."""
    return "grid 1 1\nlimit 40\ntile 0 0\naddu $5, $24, $0\nhalt\nend\nswitch 0 0\n" + "nop\n" * 5 + "halt\nend\n"
