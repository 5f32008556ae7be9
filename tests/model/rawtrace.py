"""The trace of a grid of rawmodel.py, written from docs/FORMATS.md alone: the listing of its set, and its clock cycle by cycle.

It needs nothing of rawmodel.py but the grid that it is given.
"""

import itertools

ENDS = [(net, side) for net in (1, 2) for side in "NESWP"]
# the entries of a step come in this order of their first letters
ORDER = "-+$@!"


# ---- the listing of the set


def tile_line(name, o):
    """Returns the line of an instruction of a tile, which is its name and the numbers of its operands."""
    if name in ("lb", "lh", "lw", "lbu", "lhu", "sb", "sh", "sw"):
        return f"{name} ${o[0]}, {o[1]}(${o[2]})"
    if name in ("andi", "ori", "xori"):
        return f"{name} ${o[0]}, ${o[1]}, 0x{o[2]:04x}"
    if name == "lui":
        return f"lui ${o[0]}, 0x{o[1]:04x}"
    if name in ("j", "jal"):
        return f"{name} {o[0]}"
    if name in ("addiu", "slti", "sltiu", "sll", "srl", "sra", "beq", "bne", "bltz", "bgez", "blez", "bgtz"):
        return f"{name} {', '.join(f'${it}' for it in o[:-1])}, {o[-1]}"
    return f"{name} {', '.join(f'${it}' for it in o)}".rstrip()


def switch_line(name, operands, routes):
    """Returns the line of an instruction of a switch."""
    sent = sorted(routes, key=lambda route: ENDS.index(route[1]))
    words = [f"{net}:{source}>{side}" for (_, source), (net, side) in sent]
    return " ".join([f"{name} {', '.join(operands)}".rstrip(), *words])


def in_lines(head, words, count):
    """Returns lines of so many words each, the last one shorter."""
    return [" ".join([head, *words[i : i + count]]) for i in range(0, len(words), count)]


def port_lines(grid):
    lines = []
    is_source = {it: grid.name_of(it).startswith("source") for it in grid.ports}
    for it in grid.ports:
        lines.append(grid.name_of(it) if is_source[it] else f"{grid.name_of(it)} {it.capacity}")
    for it in grid.ports:
        if is_source[it]:
            lines += in_lines(f"feed {' '.join(map(str, it.place))}", [f"0x{word:08x}" for word in it.words], 8)
    return lines


def memory_lines(grid):
    lines = []
    for it in grid.tiles:
        place = grid.place_of(it)
        lines += [f"data {place} 0x{address:08x} 0x{word:08x}" for address, word in sorted(it.data.items())]
        lines += in_lines(f"misses {place}", list(map(str, it.costs)), 16)
    return lines + [f"show {x} {y} 0x{address:08x} {count}" for x, y, address, count in grid.shows]


def listing(grid):
    """Returns the lines of the listing of a set whose grid has not been stepped."""
    lines = [f"grid {grid.columns} {grid.rows}", f"limit {grid.limit}"]
    lines += [f"depth {grid.depth}"] if grid.depth != 4 else []
    lines += port_lines(grid) + memory_lines(grid)
    for tile, switch in zip(grid.tiles, grid.switches):
        for it, line in ((tile, tile_line), (switch, switch_line)):
            if it.program:
                lines += [grid.name_of(it), *(line(*instruction) for instruction in it.program), "end"]
    return lines


# ---- states and turns


def registers_of(processor):
    return enumerate(getattr(processor, "registers", []))


def stores_of(processor):
    """Returns the words of a tile's memory that are not those of its set, by address."""
    if not hasattr(processor, "memory"):
        return []
    words = ((address, processor.word_at(address)) for address in range(0, len(processor.memory), 4))
    return [(address, word) for address, word in words if word != processor.data.get(address, 0)]


def state_line(processor):
    """Returns the line of a processor's state, or None where it has no entry."""
    entries = [f"#{processor.count}"] if processor.count else []
    for wire in sorted(processor.outputs.values(), key=lambda it: it.number):
        entries += [f"+{wire.number}={value:x}" for value in wire.values]
    entries += [f"${register}={word:x}" for register, word in registers_of(processor) if word]
    entries += [f"@{address:x}={word:x}" for address, word in stores_of(processor)]
    misses = getattr(processor, "misses", 0)
    entries += [f"!{misses}"] if misses else []
    return " ".join([f"{processor.number} {pc_of(processor)}", *entries]) if entries else None


def pc_of(processor):
    return getattr(processor, "pc", 0)


def turn_line(processor, turn):
    """Returns the line of a turn, after the cycle in which it was had."""
    if turn == "fired":
        entries = sorted(processor.entries, key=lambda entry: ORDER.index(entry[0]))
        return " ".join([f"{processor.number} {pc_of(processor)}", *entries])
    if turn == "stalled":
        return f"{processor.number} s"
    if turn == "stopped":
        return f"{processor.number} x {processor.mark}"
    return f"{processor.number} w{turn.number}"


# ---- the whole run


MOST_TURNS = 1 << 24


def in_pieces(items):
    """Returns the longest pieces of equal items that follow one another: each with how many they are."""
    return [(it, len(list(group))) for it, group in itertools.groupby(items)]


def times_text(times):
    return f"*{times}" if times > 1 else ""


def turns_text(processor, turn, times):
    """Returns the word of so many turns."""
    if turn == "stopped":
        return f"x {processor.mark}"
    return (turn[0] if turn in ("fired", "stalled") else f"w{turn.number}") + times_text(times)


def whole_lines(grid, cycles):
    """Returns the lines of the whole run of a grid at its start, which has so many cycles."""
    if (cycles + 1) * len(grid.processors) > MOST_TURNS:
        return []
    turns = [[] for _ in grid.processors]
    sent = {wire.number: [] for it in grid.processors for wire in it.outputs.values()}
    for k in range(cycles + 1):
        now = grid.turns()
        grid.cycle(now)
        for it, turn in zip(turns, now):
            it.append(turn)
        for it in grid.processors:
            for entry in it.entries:
                if entry[0] == "+":
                    sent[int(entry[1:].split("=")[0])].append(k)
    lines = [f"whole {cycles}"]
    for it, had in zip(grid.processors, turns):
        lines.append(" ".join([str(it.number), *(turns_text(it, *piece) for piece in in_pieces(had))]))
    for number, ks in sorted(sent.items()):
        distances = [k - before for k, before in zip(ks, [0, *ks])]
        if ks:
            words = [f"{distance}{times_text(times)}" for distance, times in in_pieces(distances)]
            lines.append(" ".join([f"sent {number}", *words]))
    return lines


# ---- the trace


def is_told(turn, before):
    """Returns whether a turn has a line, where `before` is the turn of the cycle before, None at the first position."""
    return before is None or turn in ("fired", "stalled") or turn != before


def trace(grid, cycles, first, count, more):
    """Returns the lines of the trace of a grid at its start, from a cycle on, for so many cycles, up to its counts.

    `cycles` is how many cycles the grid has, and `more` has the lines between the listing and the cycles.
    """
    begin = min(first, cycles)
    end = min(begin + count, cycles)
    lines = listing(grid) + more + [f"trace {begin}"]
    for _ in range(begin):
        grid.cycle(grid.turns())
    lines += filter(None, map(state_line, grid.processors))
    before = [None] * len(grid.processors)
    for k in range(begin, end + 1 if end == cycles else end):
        turns = grid.turns()
        grid.cycle(turns)
        lines.append(f"cycle {k}")
        lines += [turn_line(*it) for *it, earlier in zip(grid.processors, turns, before) if is_told(it[1], earlier)]
        before = turns
    return lines + ["counts"]
