#!/usr/bin/env python3
"""A second emulator of the grid, written from docs/MACHINE.md and docs/FORMATS.md alone, to compare rawgrid with.

    tests/model/rawmodel.py run < examples/sum.set
    tests/model/rawmodel.py cycles < examples/sum.set
    tests/model/rawmodel.py trace --from 2 --cycles 10 < examples/sum.set
    tests/model/rawmodel.py names < examples/sum.set
    tests/model/rawmodel.py lines < examples/sum.set
    tests/model/rawmodel.py path < examples/sum.set
    tests/model/rawmodel.py depths < examples/sum.set
    tests/model/rawmodel.py prove < tests/claims/a-sum/in
    cat examples/deadlock-route-order.set examples/deadlock-route-order.script | tests/model/rawmodel.py debug

It reads the text of a set that has no fault (of faults it sees an unknown name alone), writes its report (`run`), the
counts of its clock (`cycles`), its path (`path`), its clock cycle by cycle (`trace`), what its numbers mean (`names`),
which lines give its instructions (`lines`), what it comes to at each depth (`depths`) or whether its time is the same with all words (`steady`), or reads a script
or a claim behind it and does what that says (`debug`) or says whether it is proved (`prove`), and ends with the status
that is due. Nothing in it is proved, and it shares no code with rawgrid. Python's standard library is enough.
tests/check --model compares the two.
"""
import argparse
import itertools
import sys

sys.dont_write_bytecode = True
import rawlost  # noqa: E402
import rawpath  # noqa: E402
import rawtrace  # noqa: E402

COMMANDS = ("run", "cycles", "path", "trace", "depths", "steady", "names", "lines", "debug", "prove")
MASK = 0xFFFFFFFF
MEMORY = 65536
SIDES = "NESW"
STEPS_TO = {"N": (0, -1), "E": (1, 0), "S": (0, 1), "W": (-1, 0)}
OPPOSITE = {"N": "S", "E": "W", "S": "N", "W": "E"}
# the ends of a processor in the order in which waits are looked at
ENDS = [(net, side) for net in (1, 2) for side in "NESWP"]
NETWORK_OF_REGISTER = {24: 1, 25: 2}


def signed(word):
    """Returns a word as a signed number."""
    return word - (1 << 32) if word >> 31 else word


SHIFTS_BY_CONSTANT = {
    "sll": lambda t, n: t << n,
    "srl": lambda t, n: t >> n,
    "sra": lambda t, n: signed(t) >> n,
}
SHIFTS_BY_REGISTER = {"sllv": "sll", "srlv": "srl", "srav": "sra"}
OF_TWO = {
    "addu": lambda s, t: s + t,
    "subu": lambda s, t: s - t,
    "and": lambda s, t: s & t,
    "or": lambda s, t: s | t,
    "xor": lambda s, t: s ^ t,
    "nor": lambda s, t: ~(s | t),
    "slt": lambda s, t: int(signed(s) < signed(t)),
    "sltu": lambda s, t: int(s < t),
    "mul": lambda s, t: s * t,
    "mulhi": lambda s, t: signed(s) * signed(t) >> 32,
    "mulhu": lambda s, t: s * t >> 32,
}
OF_ONE = {"clz": lambda s: 32 - s.bit_length(), "popc": lambda s: bin(s).count("1")}
WITH_NUMBER = {
    "addiu": lambda s, i: s + i,
    "slti": lambda s, i: int(signed(s) < i),
    "sltiu": lambda s, i: int(s < i & MASK),
    "andi": lambda s, z: s & z,
    "ori": lambda s, z: s | z,
    "xori": lambda s, z: s ^ z,
}
BRANCHES = {
    "bltz": lambda s: signed(s) < 0,
    "bgez": lambda s: signed(s) >= 0,
    "blez": lambda s: signed(s) <= 0,
    "bgtz": lambda s: signed(s) > 0,
}
# the names of instructions by the fields of their words: by fn where op is 0 or 28, by rt where it is 1, and else by op
BY_FN = {
    0: {0: "sll", 2: "srl", 3: "sra", 4: "sllv", 6: "srlv", 7: "srav", 8: "jr", 9: "jalr", 33: "addu", 35: "subu",
        36: "and", 37: "or", 38: "xor", 39: "nor", 42: "slt", 43: "sltu"},
    28: {2: "mul", 3: "mulhi", 4: "mulhu", 32: "clz", 34: "popc", 63: "halt"},
}
BY_RT = {0: "bltz", 1: "bgez"}
BY_OP = {2: "j", 3: "jal", 4: "beq", 5: "bne", 6: "blez", 7: "bgtz", 9: "addiu", 10: "slti", 11: "sltiu", 12: "andi",
         13: "ori", 14: "xori", 15: "lui", 32: "lb", 33: "lh", 35: "lw", 36: "lbu", 37: "lhu", 40: "sb", 41: "sh",
         43: "sw"}
NAMES = {*BY_FN[0].values(), *BY_FN[28].values(), *BY_RT.values(), *BY_OP.values()}
SWITCH_NAMES = {"nop", "j", "beqz", "bnez", "bnezd", "move", "halt"}
# of loads and stores, how many bytes; of loads, whether with the sign
LOADS = {"lb": (1, True), "lh": (2, True), "lw": (4, False), "lbu": (1, False), "lhu": (2, False)}
STORES = {"sb": 1, "sh": 2, "sw": 4}


class UnknownName(ValueError):
    """No instruction and no line of a set has this name."""


class Line:
    """Which line is being read, for whoever tells of a fault in it; none where all are read."""

    at = None


def noted(lines):
    """Yields numbered lines, and notes which one is being read."""
    for Line.at, it in lines:
        yield Line.at, it
    Line.at = None


def number(token):
    """Returns the number that a token is."""
    return int(token, 16 if token.startswith("0x") else 10)


def after(word, tokens):
    """Returns the numbers behind the first word of a line, which has to be this one."""
    if tokens[0] != word:
        raise UnknownName(tokens[0])
    return map(number, tokens[1:])


class Wire:
    """A queue between two processors."""

    def __init__(self, number, producer, consumer):
        self.number, self.producer, self.consumer = number, producer, consumer
        self.values = []
        self.sent = []

    def send(self, value):
        self.values.append(value & MASK)
        self.sent.append(value & MASK)
        self.producer.note(f"+{self.number}={value & MASK:x}")


class Processor:
    """A tile, a switch or a port: its wires by end, what its next step takes and sends, and the step."""

    def __init__(self, number, depth):
        self.number, self.depth = number, depth
        self.inputs, self.outputs = {}, {}
        self.count = 0
        self.mark = None
        self.owed = 0
        # what the last step did, as the entries of a trace
        self.entries = []

    def note(self, entry):
        self.entries.append(entry)

    def takes(self):
        """Returns how many values the next step takes from each input end."""
        return {}

    def sends(self):
        """Returns the output ends to which the next step sends, or may send."""
        return set()

    def first_wait(self):
        """Returns the wire for which the processor waits, or None where it is enabled."""
        takes, sends = self.takes(), self.sends()
        for end in ENDS:
            if end in takes and len(self.inputs[end].values) < takes[end]:
                return self.inputs[end]
        for end in ENDS:
            if end in sends and len(self.outputs[end].values) >= self.depth:
                return self.outputs[end]
        return None

    def take(self, end):
        self.note(f"-{self.inputs[end].number}")
        return self.inputs[end].values.pop(0)


class Executor(Processor):
    """A tile or a switch: a processor with a program."""

    def __init__(self, number, depth, limit):
        super().__init__(number, depth)
        self.limit = limit
        self.pc = 0
        self.program = []
        # of each instruction the number of the line that gives it, and the labels with the places for which they stand
        self.lines, self.labels = [], []

    def begin(self):
        if not self.program:
            self.mark = "halted"

    def assemble(self, lines):
        """Reads the lines of a section, each as its number and its tokens: labels, and the statements between them."""
        statements = []
        for line, tokens in lines:
            if tokens[0].endswith(":"):
                self.labels.append((len(statements), tokens[0][:-1]))
                tokens = tokens[1:]
            if tokens:
                statements += self.expanded(tokens, len(statements))
            self.lines += [line] * (len(statements) - len(self.lines))
        labels = {name: place for place, name in self.labels}
        self.program = [self.instruction(it, labels) for _, it in noted(zip(self.lines, statements))]

    def go_to(self, pc):
        self.pc = pc & MASK
        if self.pc >= len(self.program):
            self.mark = "trapped pc"

    def finish(self):
        """Counts a step."""
        self.count += 1
        if self.mark is None and self.count == self.limit:
            self.mark = "limit"


class Tile(Executor):
    """A tile: an instruction is its name and the numbers of its operands, in the order of its text."""

    def __init__(self, number, depth, limit):
        super().__init__(number, depth, limit)
        self.registers = [0] * 32
        self.memory = bytearray(MEMORY)
        # the words that the set gives, by address
        self.data = {}
        self.costs = []
        self.misses = self.turns = 0
        self.cache = {}

    def expanded(self, tokens, place):
        """Returns the instructions of a statement, which begin at a place, as tokens."""
        name, operands = tokens[0], tokens[1:]
        if name == "nop":
            return [["sll", "$0", "$0", "0"]]
        if name == "move":
            return [["addu", *operands, "$0"]]
        if name == "b":
            return [["beq", "$0", "$0", *operands]]
        if name == "li":
            return self.load_of(operands[0], number(operands[1]) & MASK)
        if name == ".word":
            return [self.decoded(number(operands[0]) & MASK, place)]
        return [tokens]

    @staticmethod
    def load_of(register, word):
        """Returns the one or two instructions that load a word into a register."""
        high, low = word >> 16, word & 0xFFFF
        if -0x8000 <= signed(word) < 0x8000:
            return [["addiu", register, "$0", str(signed(word))]]
        if word < 0x10000:
            return [["ori", register, "$0", str(word)]]
        if low == 0:
            return [["lui", register, str(high)]]
        return [["lui", register, str(high)], ["ori", register, register, str(low)]]

    @staticmethod
    def decoded(word, place):
        """Returns the instruction whose word this is, at a place."""
        op, fn = word >> 26, word & 63
        s, t, d = (f"${word >> shift & 31}" for shift in (21, 16, 11))
        low = word & 0xFFFF
        offset = low - 0x10000 if low >> 15 else low
        name = BY_FN[op][fn] if op in BY_FN else BY_RT[word >> 16 & 31] if op == 1 else BY_OP[op]
        if name in SHIFTS_BY_CONSTANT:
            return [name, d, t, str(word >> 6 & 31)]
        if name in SHIFTS_BY_REGISTER:
            return [name, d, t, s]
        if name in OF_TWO:
            return [name, d, s, t]
        if name in OF_ONE or name == "jalr":
            return [name, d, s]
        if name in WITH_NUMBER:
            return [name, t, s, str(low if name in ("andi", "ori", "xori") else offset)]
        if name in LOADS or name in STORES:
            return [name, t, f"{offset}({s})"]
        if name in BRANCHES:
            return [name, s, str(place + 1 + offset)]
        if name in ("beq", "bne"):
            return [name, s, t, str(place + 1 + offset)]
        return {"lui": [name, t, str(low)], "jr": [name, s], "halt": [name]}.get(name, [name, str(word & 0x3FFFFFF)])

    def instruction(self, tokens, labels):
        """Returns an instruction as its name and the numbers of its operands."""
        name, operands = tokens[0], tokens[1:]
        if name not in NAMES:
            raise UnknownName(name)
        if name in LOADS or name in STORES:
            offset, base = operands[1].rstrip(")").split("(")
            operands = [operands[0], offset, base]
        values = [labels[it] if it in labels else number(it.lstrip("$")) for it in operands]
        # (a signed number may be written as the word that it is)
        return name, [signed(it & MASK) for it in values]

    def listed(self, place):
        """Returns the instruction at a place as the listing has it."""
        name, o = self.program[place]
        o = [signed(it & MASK) for it in o]
        if name in LOADS or name in STORES:
            return f"{name} ${o[0]}, {o[1]}(${o[2]})"
        registers = {"lui": 1, "j": 0, "jal": 0, "jr": 1, "halt": 0, "jalr": 2, "beq": 2, "bne": 2}.get(name)
        if registers is None:
            registers = 3 if name in OF_TWO or name in SHIFTS_BY_REGISTER else 1 if name in BRANCHES else 2
        texts = [f"${it}" for it in o[:registers]]
        texts += [f"0x{it:04x}" if name in ("andi", "ori", "xori", "lui") else str(it) for it in o[registers:]]
        return " ".join([name, ", ".join(texts)]).rstrip()

    def sources(self):
        """Returns the registers that the instruction reads, `rs` before `rt`."""
        name, o = self.program[self.pc]
        if name in SHIFTS_BY_CONSTANT:
            return [o[1]]
        if name in SHIFTS_BY_REGISTER:
            return [o[2], o[1]]
        if name in OF_TWO:
            return [o[1], o[2]]
        if name in OF_ONE or name in WITH_NUMBER or name == "jalr":
            return [o[1]]
        if name in BRANCHES or name == "jr":
            return [o[0]]
        if name in ("beq", "bne"):
            return [o[0], o[1]]
        if name in LOADS:
            return [o[2]]
        if name in STORES:
            return [o[2], o[0]]
        return []

    def target(self):
        """Returns the register that the instruction writes, or None."""
        name, o = self.program[self.pc]
        if name == "jal":
            return 31
        if name in STORES or name in BRANCHES or name in ("beq", "bne", "j", "jr", "halt"):
            return None
        return o[0]

    def takes(self):
        taken = {}
        for number in self.sources():
            if number in NETWORK_OF_REGISTER:
                end = (NETWORK_OF_REGISTER[number], "P")
                taken[end] = taken.get(end, 0) + 1
        return taken

    def sends(self):
        target = self.target()
        return {(NETWORK_OF_REGISTER[target], "P")} if target in NETWORK_OF_REGISTER else set()

    def operand(self, number):
        if number in NETWORK_OF_REGISTER:
            return self.take((NETWORK_OF_REGISTER[number], "P"))
        return self.registers[number]

    def write(self, value):
        target = self.target()
        if target in NETWORK_OF_REGISTER:
            self.outputs[NETWORK_OF_REGISTER[target], "P"].send(value)
        elif target:
            self.registers[target] = value & MASK
            self.note(f"${target}={value & MASK:x}")

    def word_at(self, address):
        return int.from_bytes(self.memory[address : address + 4], "big")

    def touch(self, address):
        """Touches the cache, two lines a set: a miss costs the next number of the miss stream."""
        line = address // 32
        ways = self.cache.setdefault(line % 64, [])
        if line in ways:
            ways.remove(line)
        else:
            cost = self.costs[self.misses] if self.misses < len(self.costs) else 0
            self.misses += 1
            self.turns += cost
            self.owed += cost
            self.note(f"!{cost}")
        ways.append(line)
        del ways[:-2]

    def access(self, address, size):
        """Touches lawful bytes and returns whether they are; else traps."""
        if address % size:
            self.mark = "trapped misaligned"
        elif address + size > MEMORY:
            self.mark = "trapped past-memory"
        else:
            self.touch(address)
            return True
        return False

    def step(self):
        name, o = self.program[self.pc]
        values = [self.operand(number) for number in self.sources()]
        pc = self.execute(name, o, values)
        if pc is not None:
            self.go_to(pc)
        self.finish()

    def execute(self, name, o, values):
        """Does the row of an instruction, and returns the next pc; None where it halts or traps."""
        following = self.pc + 1
        if name == "halt":
            self.mark = "halted"
            return None
        if name in LOADS:
            return self.load(*LOADS[name], values[0] + o[1] & MASK)
        if name in STORES:
            return self.store(STORES[name], values[0] + o[1] & MASK, values[1])
        if name in ("j", "jal"):
            if name == "jal":
                self.write(following)
            return o[0]
        if name in ("jr", "jalr"):
            if name == "jalr":
                self.write(following)
            return values[0]
        if name in BRANCHES:
            return o[1] if BRANCHES[name](values[0]) else following
        if name in ("beq", "bne"):
            return o[2] if (values[0] == values[1]) == (name == "beq") else following
        self.write(self.result(name, o, values))
        return following

    def result(self, name, o, values):
        if name in SHIFTS_BY_CONSTANT:
            return SHIFTS_BY_CONSTANT[name](values[0], o[2])
        if name in SHIFTS_BY_REGISTER:
            return SHIFTS_BY_CONSTANT[SHIFTS_BY_REGISTER[name]](values[1], values[0] % 32)
        if name in OF_TWO:
            return OF_TWO[name](*values)
        if name in OF_ONE:
            return OF_ONE[name](values[0])
        if name in WITH_NUMBER:
            return WITH_NUMBER[name](values[0], o[2])
        return o[1] << 16  # lui

    def load(self, size, with_sign, address):
        if not self.access(address, size):
            return None
        self.note(f"@{address & -4:x}")
        self.write(int.from_bytes(self.memory[address : address + size], "big", signed=with_sign))
        return self.pc + 1

    def store(self, size, address, value):
        if not self.access(address, size):
            return None
        self.memory[address : address + size] = (value & (1 << 8 * size) - 1).to_bytes(size, "big")
        self.note(f"@{address & -4:x}={self.word_at(address & -4):x}")
        return self.pc + 1


class Switch(Executor):
    """A switch: an instruction is its name, its operands, and its routes as pairs of what is sent and an output end."""

    def __init__(self, number, depth, limit):
        super().__init__(number, depth, limit)
        self.registers = [0] * 4

    def expanded(self, tokens, place):
        """Returns the one instruction of a statement as tokens; routes alone are a `nop`."""
        return [["nop", *tokens] if ">" in tokens[0] else tokens]

    def instruction(self, tokens, labels):
        """Returns an instruction as its name, its operands and its routes."""
        operands = [it for it in tokens[1:] if ">" not in it]
        if tokens[0] not in SWITCH_NAMES:
            raise UnknownName(tokens[0])
        if tokens[0] in ("j", "beqz", "bnez", "bnezd"):
            target = operands[-1]
            operands[-1] = str(labels[target] if target in labels else number(target))
        routes = []
        for token in tokens[1:]:
            if ">" in token:
                net, way = token.split(":")
                sent, side = way.split(">")
                routes.append(((int(net), sent), (int(net), side)))
        return tokens[0], operands, routes

    def listed(self, place):
        """Returns the instruction at a place as the listing has it."""
        name, operands, routes = self.program[place]
        routes = sorted(routes, key=lambda it: ENDS.index(it[1]))
        texts = [f"{end[0]}:{sent[1]}>{end[1]}" for sent, end in routes]
        return " ".join([name, ", ".join(operands), *texts] if operands else [name, *texts])

    def moved(self):
        """Returns the input end that a move names, or None."""
        name, operands, _ = self.program[self.pc]
        if name == "move" and ":" in operands[1]:
            net, side = operands[1].split(":")
            return int(net), side
        return None

    def takes(self):
        named = {sent for sent, _ in self.program[self.pc][2] if sent[1] in "NESWP"}
        if self.moved():
            named.add(self.moved())
        return {end: 1 for end in named}

    def sends(self):
        return {end for _, end in self.program[self.pc][2]}

    def step(self):
        name, operands, routes = self.program[self.pc]
        before = list(self.registers)
        values = {end: self.take(end) for end in sorted(self.takes(), key=ENDS.index)}
        for sent, end in sorted(routes, key=lambda route: ENDS.index(route[1])):
            self.outputs[end].send(values[sent] if sent in values else before[int(sent[1][1])])
        pc = self.control(name, operands, before, values)
        if pc is None:
            self.mark = "halted"
        else:
            self.go_to(pc)
        self.finish()

    def control(self, name, operands, before, values):
        """Does the operation, and returns the next pc; None where it halts."""
        following = self.pc + 1
        if name == "halt":
            return None
        if name == "j":
            return int(operands[0])
        if name == "move":
            end = self.moved()
            self.write(int(operands[0][1]), values[end] if end else before[int(operands[1][1])])
        if name in ("beqz", "bnez", "bnezd"):
            number = int(operands[0][1])
            if name == "bnezd":
                self.write(number, before[number] - 1 & MASK)
            return int(operands[1]) if (before[number] == 0) == (name == "beqz") else following
        return following

    def write(self, register, value):
        self.registers[register] = value
        self.note(f"${register}={value:x}")


class Source(Processor):
    """A source with the words that it puts in."""

    def __init__(self, number, depth, place):
        super().__init__(number, depth)
        self.place, self.words = place, []

    def begin(self):
        if self.count == len(self.words):
            self.mark = "spent"

    def sends(self):
        return {(self.place[0], "P")}

    def step(self):
        self.outputs[self.place[0], "P"].send(self.words[self.count])
        self.count += 1
        self.begin()


class Sink(Processor):
    """A sink with the words that it has taken out."""

    def __init__(self, number, depth, place, capacity):
        super().__init__(number, depth)
        self.place, self.capacity, self.words = place, capacity, []

    def begin(self):
        if len(self.words) == self.capacity:
            self.mark = "full"

    def takes(self):
        return {(self.place[0], "P"): 1}

    def step(self):
        self.words.append(self.take((self.place[0], "P")))
        self.count += 1
        self.begin()


class Grid:
    """The grid of a set, given as the lines of its text; where a depth is given, with that one."""

    tile_kind, switch_kind, wire_kind = Tile, Switch, Wire

    def __init__(self, lines, depth=None):
        lines = [(i, it.split("#")[0].replace(",", " ").split()) for i, it in enumerate(lines, 1)]
        lines = [(i, it) for i, it in lines if it]
        self.depth = depth or next((number(it[1]) for _, it in lines if it[0] == "depth"), 4)
        lines = noted(lines)
        self.columns, self.rows = after("grid", next(lines)[1])
        if not (1 <= self.columns <= 8 and 1 <= self.rows <= 8):
            raise ValueError(self.columns, self.rows)
        (self.limit,) = after("limit", next(lines)[1])
        self.count = self.columns * self.rows
        self.tiles = [self.tile_kind(t, self.depth, self.limit) for t in range(self.count)]
        self.switches = [self.switch_kind(self.count + t, self.depth, self.limit) for t in range(self.count)]
        self.ports, self.shows, self.wires = [], [], []
        self.read(lines)
        self.join()
        for it in self.processors:
            it.begin()

    @property
    def processors(self):
        return [*self.tiles, *self.switches, *self.ports]

    def at(self, x, y):
        return y * self.columns + x

    def read(self, lines):
        for _, tokens in lines:
            if tokens[0] in ("tile", "switch"):
                kind = self.tiles if tokens[0] == "tile" else self.switches
                section = itertools.takewhile(lambda it: it[1] != ["end"], lines)
                kind[self.at(*map(number, tokens[1:]))].assemble(section)
            else:
                self.read_line(tokens)

    def read_line(self, tokens):
        kind, *words = tokens
        if kind in ("source", "sink"):
            place = int(words[0]), number(words[1]), number(words[2]), words[3]
            number_of = 2 * self.count + len(self.ports)
            port = Source(number_of, self.depth, place) if kind == "source" else Sink(number_of, self.depth, place, number(words[4]))
            self.ports.append(port)
        elif kind == "feed":
            place = int(words[0]), number(words[1]), number(words[2]), words[3]
            port = next(it for it in self.ports if isinstance(it, Source) and it.place == place)
            port.words += [number(it) & MASK for it in words[4:]]
        elif kind == "data":
            address = number(words[2])
            tile = self.tiles[self.at(*map(number, words[:2]))]
            for word in words[3:]:
                tile.data[address] = number(word) & MASK
                tile.memory[address : address + 4] = tile.data[address].to_bytes(4, "big")
                address += 4
        elif kind == "misses":
            self.tiles[self.at(*map(number, words[:2]))].costs += map(number, words[2:])
        elif kind == "show":
            self.shows.append(tuple(map(number, words)))
        elif kind != "depth":
            raise UnknownName(kind)

    def wire(self, producer, out, consumer, into):
        wire = self.wire_kind(len(self.wires), producer, consumer)
        self.wires.append(wire)
        producer.outputs[out] = consumer.inputs[into] = wire

    def join(self):
        """Makes the wires in the order of their numbers."""
        for tile, switch in zip(self.tiles, self.switches):
            for net in (1, 2):
                self.wire(switch, (net, "P"), tile, (net, "P"))
            for net in (1, 2):
                self.wire(tile, (net, "P"), switch, (net, "P"))
        for net in (1, 2):
            for t, switch in enumerate(self.switches):
                for side in SIDES:
                    x, y = t % self.columns + STEPS_TO[side][0], t // self.columns + STEPS_TO[side][1]
                    if 0 <= x < self.columns and 0 <= y < self.rows:
                        self.wire(switch, (net, side), self.switches[self.at(x, y)], (net, OPPOSITE[side]))
        for port in self.ports:
            net, x, y, side = port.place
            switch = self.switches[self.at(x, y)]
            if isinstance(port, Source):
                self.wire(port, (net, "P"), switch, (net, side))
            else:
                self.wire(switch, (net, side), port, (net, "P"))

    # ---- runs

    def run(self):
        """Steps one processor after another until none is enabled."""
        fired = True
        while fired:
            fired = False
            for it in self.processors:
                while it.mark is None and it.first_wait() is None:
                    it.step()
                    fired = True

    def run_by_clock(self):
        """Steps all that can step at once, cycle by cycle, and returns the counts."""
        counts = Counts()
        while True:
            turns = self.turns()
            if not self.goes_on(turns):
                return counts
            counts.note(self.processors, turns)
            self.cycle(turns)

    def turns(self):
        """Returns what each processor does in the next cycle."""
        return [self.turn(it) for it in self.processors]

    @staticmethod
    def goes_on(turns):
        return any(it in ("fired", "stalled") for it in turns)

    def cycle(self, turns):
        """Does a cycle in which the processors have these turns."""
        for it, turn in zip(self.processors, turns):
            it.entries = []
            if turn == "stalled":
                it.owed -= 1
        # (each has what it takes, and room for what it sends, so none of them changes what another one does)
        for it, turn in zip(self.processors, turns):
            if turn == "fired":
                it.step()

    @staticmethod
    def turn(processor):
        if processor.mark is not None:
            return "stopped"
        if processor.owed:
            return "stalled"
        return processor.first_wait() or "fired"

    # ---- the outcome

    def waits_of(self, processor):
        """Returns the wire for which a processor waits and who is at its other end, or None where it is stopped."""
        if processor.mark is not None:
            return None
        wire = processor.first_wait()
        return wire, wire.producer if wire.consumer is processor else wire.consumer

    def chain_of(self, processor):
        """Returns the waits from a processor on, up to a stopped one or to one that was there before."""
        chain, seen = [], set()
        while processor.number not in seen and self.waits_of(processor):
            seen.add(processor.number)
            wire, other = self.waits_of(processor)
            chain.append((processor, wire, other))
            processor = other
        return chain, processor

    def outcome(self):
        """Returns the lines of the outcome and the status."""
        told = "wait {0.number} wire {1.number} for {2.number}".format
        for it in self.processors:
            chain, last = self.chain_of(it)
            if chain and last is it:
                return [f"outcome deadlock {len(chain)}", *(told(*link) for link in chain)], 3
        for it in self.processors:
            if it.mark and it.mark.startswith("trapped"):
                return [f"outcome trapped {it.number} {it.mark.split()[1]}"], 5
        for it in self.processors:
            if it.mark == "limit":
                return [f"outcome limit {it.number} count {it.count}"], 6
        for it in [*self.tiles, *self.switches]:
            if it.mark != "halted":
                chain, last = self.chain_of(it)
                return ["outcome stuck", *(told(*link) for link in chain), f"ends {last.number} {last.mark}"], 4
        return ["outcome done"], 0

    # ---- what is written

    def place_of(self, processor):
        t = processor.number % self.count
        return f"{t % self.columns} {t // self.columns}"

    def name_of(self, processor):
        if isinstance(processor, (Source, Sink)):
            return f"{type(processor).__name__.lower()} {' '.join(map(str, processor.place))}"
        return f"{type(processor).__name__.lower()} {self.place_of(processor)}"

    def mark_of(self, processor):
        return processor.mark or f"waits {processor.first_wait().number}"

    def report(self):
        """Returns the lines of the report."""
        lines = self.outcome()[0]
        for it in self.ports:
            verb = "sent" if isinstance(it, Source) else "got"
            lines.append(f"{self.name_of(it)} {self.mark_of(it)} {verb} {it.count}")
            if isinstance(it, Sink):
                lines += [f"word {word:08x}" for word in it.words]
        for it in self.tiles:
            lines.append(f"{self.name_of(it)} {self.mark_of(it)} count {it.count} pc {it.pc}")
            for first in range(0, 32, 8):
                lines.append(f"regs {first} " + " ".join(f"{word:08x}" for word in it.registers[first : first + 8]))
        for x, y, address, count in self.shows:
            memory = self.tiles[self.at(x, y)].memory
            for a in range(address, address + 4 * count, 4):
                lines.append(f"mem {x} {y} 0x{a:08x} {memory[a:a + 4].hex()}")
        for it in self.switches:
            registers = " ".join(f"{word:08x}" for word in it.registers)
            lines.append(f"{self.name_of(it)} {self.mark_of(it)} count {it.count} pc {it.pc} regs {registers}")
        for wire in self.wires:
            if wire.values:
                lines.append(f"wire {wire.number} " + " ".join(f"{word:08x}" for word in wire.values))
        for it in self.tiles:
            lines.append(f"stall {self.place_of(it)} misses {it.misses} turns {it.turns}")
        return lines

    @property
    def steps(self):
        """How many steps all tiles and switches have taken."""
        return sum(it.count for it in [*self.tiles, *self.switches])

    def waits_for_values(self):
        """Returns whether it is deadlocked and each processor of the reported cycle waits for a value."""
        for it in self.processors:
            chain, last = self.chain_of(it)
            if chain and last is it:
                return all(wire.consumer is waiting for waiting, wire, _ in chain)
        return False

    def cycles(self, counts, lost=()):
        """Returns the lines of `cycles`, with those of lost cycles where they are given."""
        lines = self.outcome()[0]
        steps = self.steps
        lines.append(f"cycles {counts.cycles} steps {steps}")
        for it in self.processors:
            kinds = ["fired", "stalled", "starved", "blocked", "stopped"]
            if not isinstance(it, Tile):
                kinds.remove("stalled")
            if isinstance(it, Source):
                kinds.remove("starved")
            if isinstance(it, Sink):
                kinds.remove("blocked")
            spent = " ".join(f"{kind} {counts.spent.get((it.number, kind), 0)}" for kind in kinds)
            lines.append(f"{self.name_of(it)} {spent}")
        lines += lost
        for it in self.processors:
            for ends in (it.inputs, it.outputs):
                for end in ENDS:
                    waited = counts.waited.get((it.number, ends[end].number), 0) if end in ends else 0
                    if waited:
                        other = ends[end].producer if ends is it.inputs else ends[end].consumer
                        lines.append(f"wait {it.number} wire {ends[end].number} for {other.number} cycles {waited}")
        lines += [f"passed {wire.number} {len(wire.sent)}" for wire in self.wires if wire.sent]
        return lines


    def end_of(self, wire, ends_of, processor):
        """Returns the name of the processor at an end of a wire, and for a switch the side at which the end is."""
        side = next(end[1] for end, it in ends_of(processor).items() if it is wire)
        return f"{self.name_of(processor)} {side}" if isinstance(processor, Switch) else self.name_of(processor)

    def names(self):
        """Returns the lines of `names`."""
        lines = []
        for it in self.processors:
            given = ""
            if isinstance(it, Source):
                given = f" words {len(it.words)}"
            if isinstance(it, Sink):
                given = f" room {it.capacity}"
            lines.append(f"processor {it.number} {self.name_of(it)}{given}")
        for wire in self.wires:
            net = next(end[0] for end, it in wire.producer.outputs.items() if it is wire)
            sent = self.end_of(wire, lambda it: it.outputs, wire.producer)
            taken = self.end_of(wire, lambda it: it.inputs, wire.consumer)
            lines.append(f"wire {wire.number} network {net} from {sent} to {taken}")
        return lines

    def lines(self):
        """Returns the lines of `lines`."""
        lines = []
        for it in [*self.tiles, *self.switches]:
            for place in range(len(it.program) + 1):
                given = f" line {it.lines[place]}" if place < len(it.program) else ""
                labels = "".join(f" label {name}" for at, name in it.labels if at == place)
                if given or labels:
                    lines.append(f"{self.name_of(it)} {place}{given}{labels}")
        return lines

    def sources(self):
        """Returns the lines of a trace that say the same."""
        executors = [*self.tiles, *self.switches]
        labels = [f"label {it.number} {place} {name}" for it in executors for place, name in it.labels]
        return labels + [f"line {it.number} {place} {line}" for it in executors for place, line in enumerate(it.lines)]


class Debugger:
    """A script on a set: the grid after so many steps of the serial order, and the current processor."""

    def __init__(self, lines):
        self.lines = lines
        self.current = 0
        self.restart()

    def restart(self):
        self.grid = Grid(self.lines)
        self.movers = []
        self.turn = 0

    @property
    def processor(self):
        return self.grid.processors[self.current]

    def step(self):
        """Takes the next step of the serial order, and returns the processor that took it, or None at rest."""
        processors = self.grid.processors
        for _ in processors:
            it = processors[self.turn]
            self.turn = (self.turn + 1) % len(processors)
            if it.mark is None and it.first_wait() is None:
                it.step()
                self.movers.append(it.number)
                return it
        return None

    def go_to(self, moment):
        """Goes to the state after so many steps of the serial order."""
        self.restart()
        while len(self.movers) < moment:
            self.step()

    def until(self, is_stop, before=lambda: None):
        """Goes on until right after the next step that is a stop, and returns whether there is one; else it stays."""
        moment = len(self.movers)
        while True:
            old = before()
            it = self.step()
            if it is None:
                self.go_to(moment)
                return False
            if is_stop(it, old):
                return True

    def until_count(self, count):
        """Goes right after so many steps of the current processor, where it takes so many; else it stays."""
        moment = len(self.movers)
        self.restart()
        while self.processor.count < count:
            if self.step() is None:
                self.go_to(moment)
                return False
        return True

    def go_to_rest(self):
        while self.step() is not None:
            pass

    def until_stop(self):
        """Goes right after the last step of the current processor, where it takes one more; else it stays."""
        moment, count = len(self.movers), self.processor.count
        self.go_to_rest()
        if self.processor.count == count:
            self.go_to(moment)
            return False
        return self.until_count(self.processor.count)

    def last(self, is_stop, before):
        """Goes back right after the latest step so far that is a stop, and returns whether there is one; else it stays."""
        moment, found = len(self.movers), None
        self.restart()
        while len(self.movers) < moment:
            old = before()
            if is_stop(self.step(), old):
                found = len(self.movers)
        self.go_to(moment if found is None else found)
        return found is not None

    def place(self, it=None):
        it = it or self.processor
        mark = it.mark or (f"waits {it.first_wait().number}" if it.first_wait() else "ready")
        pc = f" pc {it.pc}" if isinstance(it, Executor) else ""
        return f"at {it.number} {it.count} {mark}{pc}"

    def where(self):
        """Returns the place, and the instruction that is next."""
        it = self.processor
        has_next = isinstance(it, Executor) and it.pc < len(it.program)
        return self.place() + (f"  {it.listed(it.pc)}" if has_next else "")

    def word_at(self, address):
        return int.from_bytes(self.processor.memory[address : address + 4], "big")

    def named(self, words):
        """Returns the processor that the first words name, and the other words."""
        if words[0] in ("tile", "switch"):
            tile = self.grid.at(number(words[1]), number(words[2]))
            return tile + (self.grid.count if words[0] == "switch" else 0), words[3:]
        return number(words[0]), words[1:]

    def aim(self, what, words):
        """Returns which steps are stops: those that send on a wire, or change a word or a register, to a value or to any."""
        place = number(words[0])
        value = number(words[1]) & MASK if words[1:] else None
        if what == "wire":
            # (the wires of a grid that is begun anew are others)
            self.current = self.grid.wires[place].producer.number
            sent = lambda: self.grid.wires[place].sent
            return lambda it, old: any(value in (None, v) for v in sent()[old:]), lambda: len(sent())
        now = lambda: self.word_at(place) if what == "mem" else self.processor.registers[place]
        return lambda it, old: it is self.processor and now() != old and value in (None, now()), now

    def goes(self, words):
        """Does a command that goes somewhere, and returns whether it led to a place; None where the words are none."""
        kind, *words = words
        if kind == "at" or (kind == "until" and words[0] == "count"):
            self.current, words = self.named(words if kind == "at" else words[1:])
            return self.until_count(number(words[0]))
        if kind == "back":
            return self.until_count(max(self.processor.count - number(words[0]), 0))
        if kind == "forth":
            more = number(words[0])
            return more == 0 or self.until_count(self.processor.count + more)
        if kind == "until" and words[0] == "stop":
            return self.until_stop()
        if kind == "until" and words[0] == "pc":
            labels = {name: place for place, name in self.processor.labels}
            pc = labels[words[1]] if words[1] in labels else number(words[1])
            return self.until(lambda it, old: it is self.processor and it.pc == pc)
        if kind == "until":
            return self.until(*self.aim(words[0], words[1:]))
        if kind == "last":
            return self.last(*self.aim(words[0], words[1:]))
        return None

    def shows(self, words):
        """Returns the lines of a command that shows something."""
        kind, *words = words
        it = self.processor
        if kind == "echo":
            return [" ".join(words)]
        if kind == "rest":
            self.go_to_rest()
            return self.grid.outcome()[0]
        if kind == "where":
            return [self.where()]
        if kind == "all":
            return [self.place(it) for it in self.grid.processors]
        if kind == "mem":
            address, count = map(number, words)
            return [f"mem 0x{a:08x} {self.word_at(a):08x}" for a in range(address, address + 4 * count, 4)]
        if kind == "wires":
            return [f"wire {w.number} " + " ".join(f"{it:08x}" for it in w.values) for w in self.grid.wires if w.values]
        if kind == "waits":
            waits = [(p, self.grid.waits_of(p)) for p in self.grid.processors if p.mark is None and p.first_wait()]
            return [f"wait {p.number} wire {wire.number} for {other.number}" for p, (wire, other) in waits]
        if kind == "passed":
            sent = self.grid.wires[number(words[0])].sent
            return [" ".join([f"passed {number(words[0])} {len(sent)}", *(f"{it:08x}" for it in sent[-8:])])]
        if kind == "code":
            near = range(max(it.pc - number(words[0]), 0), min(it.pc + number(words[0]) + 1, len(it.program)))
            return [f"code {i} {it.listed(i)}{' *' if i == it.pc else ''}" for i in near]
        if isinstance(it, Source) or isinstance(it, Sink):
            return [f"{'sent' if isinstance(it, Source) else 'got'} {it.count}"]
        words = [f"{word:08x}" for word in it.registers]
        if isinstance(it, Switch):
            return ["regs " + " ".join(words)]
        return [f"regs {first} " + " ".join(words[first : first + 8]) for first in range(0, 32, 8)]

    def obey(self, words):
        """Does what the words of a line say, and returns what that writes."""
        went = self.goes(words)
        if went is None:
            return self.shows(words)
        return [self.place() if went else "none"]


def debug(lines):
    """Returns what the script behind the line `script` writes; it names nothing that is not there."""
    begins = next(i for i, line in enumerate(lines) if line.split("#")[0].split() == ["script"])
    debugger = Debugger(lines[:begins])
    script = (line.split("#")[0].replace(",", " ").split() for line in lines[begins + 1 :])
    return [told for words in script if words for told in debugger.obey(words)]


class Counts:
    """How the cycles of each processor were spent."""

    def __init__(self):
        self.cycles, self.spent, self.waited = 0, {}, {}

    def note(self, processors, turns):
        self.cycles += 1
        for it, turn in zip(processors, turns):
            kind = turn
            if isinstance(turn, Wire):
                kind = "starved" if turn.consumer is it else "blocked"
                key = it.number, turn.number
                self.waited[key] = self.waited.get(key, 0) + 1
            self.spent[it.number, kind] = self.spent.get((it.number, kind), 0) + 1


DEPTHS = range(1, 8)


def depths(text):
    """Returns the lines of `depths`: the set is run at each depth, all else as it says."""
    grids = {depth: Grid(text, depth) for depth in DEPTHS}
    cycles = {depth: grid.run_by_clock().cycles for depth, grid in grids.items()}
    lines = []
    for depth, grid in grids.items():
        lines.append(f"depth {depth} {grid.outcome()[0][0].split()[1]} steps {grid.steps} cycles {cycles[depth]}")
    same = min(d for d in DEPTHS if all(grids[k].report() == grids[d].report() for k in DEPTHS if k > d))
    lines.append(f"same from {same}")
    lines.append(f"fastest from {min(DEPTHS, key=cycles.get)}")
    done = [d for d in DEPTHS if grids[d].outcome()[1] == 0]
    dead = [d for d in DEPTHS if grids[d].waits_for_values()]
    if done:
        lines.append(f"done from {done[0]}")
    elif dead:
        lines += [f"never done, deadlock from {dead[0]}", *grids[dead[0]].outcome()[0][1:]]
    else:
        lines.append("not done up to 7")
    return lines


def main(words=None):
    parser = argparse.ArgumentParser(description=__doc__, formatter_class=argparse.RawDescriptionHelpFormatter)
    parser.add_argument("command", choices=COMMANDS)
    parser.add_argument("--from", type=int, default=0, dest="first", metavar="C")
    parser.add_argument("--cycles", type=int, default=1000, metavar="K")
    parser.add_argument("--workers", type=int, metavar="N", help="one thread does it all, whatever N is")
    parser.add_argument("--whole", action="store_true")
    parser.add_argument("--lost", action="store_true")
    options = parser.parse_args(words)
    text = sys.stdin.read().split("\n")
    if options.command == "debug":
        sys.stdout.write("".join(line + "\n" for line in debug(text)))
        return
    if options.command in ("prove", "steady"):
        # (that module stands on this one)
        import rawproof

        lines = getattr(rawproof, options.command)(text)
        print(*lines, sep="\n")
        sys.exit({"proved": 0, "steady": 0, "refuted:": 13}.get(lines[0].split()[0], 12))
    if options.command == "depths":
        print(*depths(text), sep="\n")
        return
    grid = Grid(text)
    if options.command in ("names", "lines"):
        sys.stdout.write("".join(line + "\n" for line in getattr(grid, options.command)()))
        return
    if options.command == "run":
        grid.run()
        lines = grid.report()
    else:
        counts = grid.run_by_clock()
        lost = rawlost.lost_lines(Grid(text), counts.cycles) if options.lost else []
        lines = grid.cycles(counts, lost)
    if options.command == "path":
        outcome = grid.outcome()[0]
        trace = rawtrace.trace(Grid(text), counts.cycles, 0, counts.cycles + 1, [])
        lines = lines[: len(outcome) + 1] + rawpath.path(grid, trace)
    if options.command == "trace":
        whole = rawtrace.whole_lines(Grid(text), counts.cycles) if options.whole else []
        lines = rawtrace.trace(Grid(text), counts.cycles, options.first, options.cycles, grid.sources() + whole) + lines
    print(*lines, sep="\n")
    sys.exit(grid.outcome()[1])


if __name__ == "__main__":
    main()
