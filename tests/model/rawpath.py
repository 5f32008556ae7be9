"""The path of a set, found in the lines of its trace alone, as docs/FORMATS.md says ('Path').

Of the grid it needs nothing but the processors at the ends of its wires.
"""

import collections


class Cycle:
    """Who goes on in a cycle, each with its pc before it, and for which wire it waited in the cycle before, if for one."""

    def __init__(self):
        self.pcs, self.waited, self.stalled = {}, {}, set()


def cycles_in(trace):
    """Returns the cycles that a trace from cycle 0 on tells."""
    cycles, pcs, waits = [], collections.Counter(), {}
    for line in trace[next(i for i, line in enumerate(trace) if line.startswith("trace ")) + 1 :]:
        first, *words = line.split()
        if first == "counts":
            break
        if first == "cycle":
            cycles.append(Cycle())
            continue
        p = int(first)
        if not cycles:
            pcs[p] = int(words[0])
        elif words[0][0] == "w":
            waits[p] = int(words[0][1:])
        elif words[0] != "x":
            cycles[-1].pcs[p] = pcs[p]
            if len(cycles) > 1 and p not in cycles[-2].pcs:
                cycles[-1].waited[p] = waits[p]
            if words[0] == "s":
                cycles[-1].stalled.add(p)
            else:
                pcs[p] = int(words[0])
    return [it for it in cycles if it.pcs]


def path(grid, trace):
    """Returns the lines of the path."""
    cycles = cycles_in(trace)
    if not cycles:
        return []
    k, p = len(cycles) - 1, min(cycles[-1].pcs)
    turns, stretches, end, stalled, kinds = collections.Counter(), [], k, 0, collections.Counter()
    while k >= 0:
        turns[p] += 1
        stalled += p in cycles[k].stalled
        number = cycles[k].waited.get(p)
        if k and number is None:
            kinds["own"] += 1
            k -= 1
            continue
        line = f"from {k} turns {end - k + 1} of {p} pc {cycles[k].pcs[p]} to {cycles[end].pcs[p]}"
        if k:
            wire = grid.wires[number]
            kind, other = ("value", wire.producer) if wire.consumer.number == p else ("room", wire.consumer)
            kinds[kind] += 1
            line += f" {kind} {number}"
            p = other.number
        stretches.append(line)
        k -= 1
        end = k
    lines = [
        f"path fired {len(cycles) - stalled} stalled {stalled} own {kinds['own']} values {kinds['value']} room {kinds['room']}"
    ]
    return lines + [f"on {p} turns {turns[p]}" for p in sorted(turns)] + stretches[::-1]
