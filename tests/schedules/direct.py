"""Flows by direct evaluation: their lines, the values of their outs under any words, and small changes of them."""

MASK = 0xFFFFFFFF


def signed(word):
    return word - (1 << 32) if word >> 31 else word


OPERATIONS = {
    "add": lambda a, b: a + b,
    "sub": lambda a, b: a - b,
    "mul": lambda a, b: a * b,
    "mulhi": lambda a, b: signed(a) * signed(b) >> 32,
    "mulhu": lambda a, b: a * b >> 32,
    "and": lambda a, b: a & b,
    "or": lambda a, b: a | b,
    "xor": lambda a, b: a ^ b,
    "nor": lambda a, b: ~(a | b),
    "slt": lambda a, b: int(signed(a) < signed(b)),
    "sltu": lambda a, b: int(a < b),
    "sll": lambda a, b: a << b % 32,
    "srl": lambda a, b: a >> b % 32,
    "sra": lambda a, b: signed(a) >> b % 32,
}


class Flow:
    """The lines of a flow as lists of words."""

    def __init__(self, text):
        lines = [line.split("#")[0].split() for line in text.splitlines()]
        self.lines = [line for line in lines if line]

    def text(self):
        return "".join(" ".join(line) + "\n" for line in self.lines)

    def inputs(self):
        """The words that are put in."""
        return [int(line[2], 0) & MASK for line in self.lines if line[0] == "input"]

    def outs(self, words):
        """The values of the outs, where these words are put in."""
        values, given, outs = {}, iter(words), []
        for line in self.lines:
            if line[0] == "input":
                values[line[1]] = next(given)
            elif line[0] == "def" and line[2] == "const":
                values[line[1]] = int(line[3], 0) & MASK
            elif line[0] == "def":
                values[line[1]] = OPERATIONS[line[2]](values[line[3]], values[line[4]]) & MASK
            elif line[0] == "out":
                outs.append(values[line[1]])
        return outs

    def changed(self, chance):
        """The flow with one operation changed: another one, its operands exchanged, or another operand; None where it has none."""
        places = [k for k, line in enumerate(self.lines) if line[0] == "def" and line[2] != "const"]
        if not places:
            return None
        other = Flow(self.text())
        line = other.lines[chance.choice(places)]
        kind = chance.randrange(3)
        if kind == 0:
            line[2] = chance.choice([op for op in OPERATIONS if op != line[2]])
        elif kind == 1:
            line[3], line[4] = line[4], line[3]
        else:
            names = [it[1] for it in other.lines[: other.lines.index(line)] if it[0] in ("input", "def")]
            line[3 + chance.randrange(2)] = chance.choice(names)
        return other

    def but_for(self, word, k):
        """The flow of which out k is one more where the first input is this word, and else the same."""
        first = next((line[1] for line in self.lines if line[0] == "input"), None)
        if first is None:
            return None
        other = Flow(self.text())
        outs = [line for line in other.lines if line[0] == "out"]
        added = [["def", "word_", "const", str(word)], ["def", "one_", "const", "1"], ["def", "other_", "xor", first, "word_"],
                 ["def", "there_", "sltu", "other_", "one_"], ["def", "more_", "add", outs[k][1], "there_"]]
        at = other.lines.index(outs[0])
        ahead = [line for line in other.lines if line[0] != "out"]
        outs = [list(line) for line in outs]
        outs[k][1] = "more_"
        assert at <= len(other.lines)
        other.lines = ahead + added + outs
        return other
