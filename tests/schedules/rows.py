"""Streams by direct evaluation: their lines, what each sink gets of all rows under any words, and the flows that they are when all rows are written out."""
from direct import MASK, OPERATIONS

USUAL = ("1", "0", "0", "W")


def each_once(places):
    return list(dict.fromkeys(places))


class Stream:
    """A stream by its lines: sources and sinks by their places, and the definitions of a row."""

    def __init__(self, text):
        lines = [line.split("#")[0].split() for line in text.splitlines()]
        lines = [line for line in lines if line]
        self.grid, self.count = lines[0], int(lines[1][1])
        self.inputs = [(line[1], tuple(line[2:]) or USUAL) for line in lines if line[0] == "input"]
        self.row = [line for line in lines if line[0] in ("input", "def")]
        self.outs = [(line[1], tuple(line[2:]) or USUAL) for line in lines if line[0] == "out"]
        self.sources, self.sinks = each_once(place for _, place in self.inputs), each_once(place for _, place in self.outs)
        self.words = {place: [] for place in self.sources}
        for line in lines:
            if line[0] == "feed":
                self.words[tuple(line[1:5])] += [int(word, 0) & MASK for word in line[5:]]

    def received(self, words):
        """What each sink gets, where the sources have these words."""
        left, got, before = {place: iter(words[place]) for place in self.sources}, {place: [] for place in self.sinks}, None
        for _ in range(self.count):
            values = {}
            places = iter(self.inputs)
            for line in self.row:
                if line[0] == "input":
                    values[line[1]] = next(left[next(places)[1]])
                elif line[2] == "const":
                    values[line[1]] = int(line[3], 0) & MASK
                elif line[2] == "pre":
                    values[line[1]] = int(line[4], 0) & MASK if before is None else before[line[3]]
                else:
                    values[line[1]] = OPERATIONS[line[2]](values[line[3]], values[line[4]]) & MASK
            for name, place in self.outs:
                got[place].append(values[name])
            before = values
        return got

    def claim(self):
        """The flow of all rows: its inputs are the words of the sources, one behind the other, and its outs those of the sinks."""
        lines = [self.grid]
        for source in self.sources:
            own = [name for name, place in self.inputs if place == source]
            for r in range(self.count):
                for name in own:
                    lines.append(["input", f"{name}_{r}", "0"])
        defined = {line[1]: line for line in self.row}

        def named(name, r):
            line = defined[name]
            while line[0] == "def" and line[2] == "pre" and r > 0:
                name, r = line[3], r - 1
                line = defined[name]
            return f"{name}_{r}"

        for line in self.row:
            if line[0] == "def" and line[2] == "pre":
                lines.append(["def", f"{line[1]}_0", "const", line[4]])
        for r in range(self.count):
            for line in self.row:
                if line[0] == "def" and line[2] == "const":
                    lines.append(["def", f"{line[1]}_{r}", "const", line[3]])
                elif line[0] == "def" and line[2] != "pre":
                    lines.append(["def", f"{line[1]}_{r}", line[2], named(line[3], r), named(line[4], r)])
        for sink in self.sinks:
            for r in range(self.count):
                lines += [["out", named(name, r)] for name, place in self.outs if place == sink]
        return "".join(" ".join(line) + "\n" for line in lines)
