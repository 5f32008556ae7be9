"""Texts of streams in Python, by what FORMATS.md says of them: their fault, their meaning, and the words of each row."""
import re

MASK = 2**32
USUAL = ("1", 0, 0, "W")
MAX_NODES = 8192
MAX_WORDS = 262_144
MAX_SINK = 1_000_000
MAX_SINKS = 4_000_000


def signed(word):
    return word - MASK if word >= MASK // 2 else word


OPERATIONS = {
    "add": lambda a, b: a + b,
    "sub": lambda a, b: a - b,
    "mul": lambda a, b: a * b,
    "mulhi": lambda a, b: (signed(a) * signed(b)) >> 32,
    "mulhu": lambda a, b: (a * b) >> 32,
    "and": lambda a, b: a & b,
    "or": lambda a, b: a | b,
    "xor": lambda a, b: a ^ b,
    "nor": lambda a, b: ~(a | b),
    "slt": lambda a, b: int(signed(a) < signed(b)),
    "sltu": lambda a, b: int(a < b),
    "sll": lambda a, b: a << (b % 32),
    "srl": lambda a, b: a >> (b % 32),
    "sra": lambda a, b: signed(a) >> (b % 32),
}


def is_name(token):
    return re.fullmatch(r"[A-Za-z_][A-Za-z_0-9]*", token)


def number(token):
    """The word that a token stands for, or None."""
    if re.fullmatch(r"-?[0-9]+", token):
        value = int(token)
    elif re.fullmatch(r"-?0x[0-9a-fA-F]+", token):
        value = int(token, 16)
    else:
        return None
    return value % MASK if -(2**31) <= value < MASK else None


def edge(tokens):
    """The edge that four tokens name, or None."""
    if len(tokens) < 4 or tokens[0] not in ("1", "2") or tokens[3] not in ("N", "E", "S", "W"):
        return None
    x, y = number(tokens[1]), number(tokens[2])
    return None if x is None or y is None else (tokens[0], x, y, tokens[3])


def port_line(word, tokens):
    place = USUAL if len(tokens) == 1 else edge(tokens[1:])
    return place and (word, tokens[0], place)


def definition(tokens):
    if len(tokens) == 3 and tokens[1] == "const" and number(tokens[2]) is not None:
        return ("const", tokens[0], number(tokens[2]))
    if len(tokens) == 4 and tokens[1] == "pre" and is_name(tokens[2]) and number(tokens[3]) is not None:
        return ("pre", tokens[0], tokens[2], number(tokens[3]))
    if len(tokens) == 4 and tokens[1] in OPERATIONS and is_name(tokens[2]) and is_name(tokens[3]):
        return ("apply", tokens[0], tokens[1], tokens[2], tokens[3])
    return None


def statement(line):
    """What a line says, or None where it is of no form."""
    word, tokens = line[0], line[1:]
    if word == "grid" and len(tokens) == 2 and None not in map(number, tokens):
        return ("grid", number(tokens[0]), number(tokens[1]))
    if word == "rows" and len(tokens) == 1 and number(tokens[0]) is not None:
        return ("rows", number(tokens[0]))
    if word in ("input", "out") and len(tokens) in (1, 5) and is_name(tokens[0]):
        return port_line(word, tokens)
    if word == "def" and tokens and is_name(tokens[0]):
        return definition(tokens)
    if word == "feed" and len(tokens) >= 5 and edge(tokens[:4]) and None not in map(number, tokens[4:]):
        return ("feed", edge(tokens[:4]), [number(token) for token in tokens[4:]])
    return None


def lines_of(text):
    lines = text.split("\n")
    return [line.split() for line in (lines[:-1] if text.endswith("\n") else lines)]


def is_off(size, place):
    """Whether no port stands at an edge of a grid of this size."""
    if size is None:
        return True
    columns, rows = size
    _, x, y, side = place
    at = {"N": y == 0, "S": y == rows - 1, "W": x == 0, "E": x == columns - 1}
    return not (x < columns and y < rows and at[side])


NAMED = ("input", "const", "pre", "apply")


def statement_fault(said, size, count, known, all_names, all_sources):
    """What is wrong with a statement behind others, or None."""
    word = said[0]
    if word == "grid" and not (1 <= said[1] <= 8 and 1 <= said[2] <= 8):
        return "bad-size"
    if word in ("input", "out") and is_off(size, said[2]):
        return "port-off-edge"
    if word == "feed" and said[1] not in all_sources:
        return "undeclared-edge"
    if word == "grid" and size or word == "rows" and count is not None or word in NAMED and said[1] in known:
        return "repeated"
    if word == "apply" and not {said[3], said[4]} <= known or word == "out" and said[1] not in known:
        return "unknown-name"
    if word == "pre" and said[2] not in all_names:
        return "unknown-name"
    if word == "rows" and not 1 <= said[1] <= 262_144:
        return "over-limit"
    return None


def fault(text):
    """The line and the kind of the least fault of the text of a stream as a text, or None."""
    lines = lines_of(text)
    statements = [statement(line) if line else None for line in lines]
    all_names = {said[1] for said in statements if said and said[0] in NAMED}
    all_sources = {said[2] for said in statements if said and said[0] == "input"}
    size = count = None
    known = set()
    for at, (line, said) in enumerate(zip(lines, statements), 1):
        if not line:
            continue
        if size is None and line[0] != "grid" or size is not None and count is None and line[0] != "rows":
            return at, "missing"
        if said is None:
            return at, "bad-line"
        wrong = statement_fault(said, size, count, known, all_names, all_sources)
        if wrong:
            return at, wrong
        if said[0] == "grid":
            size = said[1:]
        elif said[0] == "rows":
            count = said[1]
        elif said[0] in NAMED:
            known.add(said[1])
    return whole_fault(len(lines) + 1, [said for said in statements if said], size, count)


def whole_fault(end, statements, size, count):
    """What is wrong behind the last line, or None."""
    takes, gets, given = {}, {}, {}
    for said in statements:
        if said[0] == "input":
            takes[said[2]] = takes.get(said[2], 0) + 1
        elif said[0] == "out":
            gets[said[2]] = gets.get(said[2], 0) + 1
        elif said[0] == "feed":
            given[said[1]] = given.get(said[1], 0) + len(said[2])
    if size is None or count is None or not gets or any(given.get(place, 0) < count * n for place, n in takes.items()):
        return end, "missing"
    nodes = sum(said[0] in NAMED for said in statements)
    words = sum(count * n for n in takes.values())
    due = [count * n for n in gets.values()]
    more = any(given.get(place, 0) > count * n for place, n in takes.items())
    if more or nodes > MAX_NODES or words > MAX_WORDS or max(due) > MAX_SINK or sum(due) > MAX_SINKS:
        return end, "over-limit"
    return None


class Stream:
    """The stream of a text that has no fault."""

    def __init__(self, text):
        statements = [statement(line) for line in lines_of(text) if line]
        self.count = next(said[1] for said in statements if said[0] == "rows")
        self.defined = [said for said in statements if said[0] in NAMED]
        self.numbers = {said[1]: v for v, said in enumerate(self.defined)}
        self.sources = self.places(statements, "input")
        self.sinks = self.places(statements, "out")
        self.outs = [(self.sinks.index(said[2]), self.numbers[said[1]]) for said in statements if said[0] == "out"]
        self.words = {place: [] for place in self.sources}
        for said in statements:
            if said[0] == "feed":
                self.words[said[1]] += said[2]

    @staticmethod
    def places(statements, word):
        places = []
        for said in statements:
            if said[0] == word and said[2] not in places:
                places.append(said[2])
        return places

    def node_count(self):
        """How many nodes the flow has that it is."""
        return sum(map(len, self.words.values())) + self.count * len(self.defined)

    def row(self, taken, before):
        """The values of the nodes of the next row, of which this many words of each source are taken."""
        values = []
        for said in self.defined:
            if said[0] == "input":
                values.append(self.words[said[2]][taken[said[2]]])
                taken[said[2]] += 1
            elif said[0] == "const":
                values.append(said[2])
            elif said[0] == "pre":
                values.append(said[3] if before is None else before[self.numbers[said[2]]])
            else:
                a, b = values[self.numbers[said[3]]], values[self.numbers[said[4]]]
                values.append(OPERATIONS[said[2]](a, b) % MASK)
        return values

    def due(self):
        """What each sink is due of all rows, by direct evaluation."""
        taken = dict.fromkeys(self.sources, 0)
        due = [[] for _ in self.sinks]
        before = None
        for _ in range(self.count):
            before = self.row(taken, before)
            for sink, node in self.outs:
                due[sink].append(before[node])
        return due
