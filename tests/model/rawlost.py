"""To what the lost cycles of a grid of rawmodel.py are lost, as docs/FORMATS.md says ('Lost cycles').

It needs nothing of rawmodel.py but the grid that it is given.
"""

import collections

KINDS = ("tiles", "switches", "ports", "stalled", "stopped", "ring")


def waits(turn):
    return turn not in ("fired", "stalled", "stopped")


def root_of(turns, p):
    """Returns the number of the processor to which the waits of a cycle lead from one, or None where they come round."""
    seen = set()
    while waits(turns[p]):
        if p in seen:
            return None
        seen.add(p)
        wire = turns[p]
        p = (wire.producer if wire.consumer.number == p else wire.consumer).number
    return p


def kind_of(grid, turns, root):
    """Returns the kind of a root."""
    if root is None:
        return "ring"
    if turns[root] != "fired":
        return turns[root]
    return ("tiles", "switches", "ports")[min(root // grid.count, 2)]


def lost_lines(grid, cycles):
    """Returns the lines of lost cycles of a grid at its start, which has so many cycles."""
    lost = [collections.Counter() for _ in grid.processors]
    for _ in range(cycles):
        turns = grid.turns()
        grid.cycle(turns)
        for p, turn in enumerate(turns):
            if waits(turn):
                lost[p][kind_of(grid, turns, root_of(turns, p))] += 1
    return [f"lost {p} " + " ".join(f"{kind} {it[kind]}" for kind in KINDS) for p, it in enumerate(lost) if it]
