"""The part of the model that steps a grid with terms in place of the words of its sources, and compares what its sinks
receive, or what stands at other places, with a claim: a flow behind the line `claim`.

A term is a word, as an int, or a `Term`: an input, or an operation on two terms. Terms that stand alike are one object.
Two terms are seen to be the same where they are one object, or where their difference as sums or their
exclusive or comes to nothing; where terms are not, their classes are asked.
"""
import heapq
import random

import rawrows
from rawmodel import (
    BRANCHES, LOADS, MASK, NETWORK_OF_REGISTER, OF_ONE, OF_TWO, SHIFTS_BY_CONSTANT, SHIFTS_BY_REGISTER, STORES, WITH_NUMBER, Grid, Source, Sink,
    Switch, Tile, Wire, number,
)

TO_OPERATION = {"addu": "add", "subu": "sub", "addiu": "add", "slti": "slt", "sltiu": "sltu", "andi": "and", "ori": "or",
                "xori": "xor"}
VALUES = {TO_OPERATION.get(name, name): OF_TWO[name] for name in OF_TWO}
VALUES.update({name: lambda a, b, shift=SHIFTS_BY_CONSTANT[name]: shift(a, b % 32) for name in SHIFTS_BY_CONSTANT})
COMMUTE = {"add", "mul", "mulhi", "mulhu", "and", "or", "xor", "nor"}
SHIFTS = set(SHIFTS_BY_CONSTANT)
# of an operation and a word, the term that it is: the other one (None), or a word
WITH_WORD = {("add", 0): None, ("sub", 0): None, ("or", 0): None, ("xor", 0): None, ("and", 0): 0, ("and", MASK): None,
             ("or", MASK): MASK, ("mul", 1): None, ("mul", 0): 0, ("mulhi", 0): 0, ("mulhu", 0): 0, ("mulhu", 1): 0,
             ("sltu", 0): 0}
# an operation of two words, that one operation does with what it makes of both
TWICE = {"add", "mul", "and", "or", "xor"}


class Hangs(Exception):
    """A word is wanted of a term that is none."""


class Term:
    """An input (its number), or an operation on two terms. Terms are numbered as they are made."""

    made = {}

    def __init__(self, key):
        self.key, self.number = key, len(Term.made)

    @staticmethod
    def of(*key):
        if key not in Term.made:
            Term.made[key] = Term(key)
        return Term.made[key]


def on_word(term):
    """Returns the operation, the term and the word of a term that is an operation on a term and a word."""
    if isinstance(term, Term) and term.key[0] in VALUES and isinstance(term.key[2], int):
        return term.key
    return None, None, None


def joined(op, a, word):
    """Returns what an operation on a term and a word is by the rules of one operation, or None."""
    if op in SHIFTS and word % 32 == 0:
        return a
    if (op, word) in WITH_WORD:
        return a if WITH_WORD[op, word] is None else WITH_WORD[op, word]
    inner, x, first = on_word(a)
    if inner != op:
        return None
    if op in SHIFTS:
        by = first % 32 + word % 32
        return Term.of(op, x, min(by, 31)) if op == "sra" else Term.of(op, x, by) if by < 32 else 0
    if op in TWICE:
        word = VALUES[op](first, word) & MASK
        if (op, word) in WITH_WORD:
            return x if WITH_WORD[op, word] is None else WITH_WORD[op, word]
        return Term.of(op, x, word)
    return None


def again(op, a, word):
    """Returns the term of what a rule gives: an operation on a term and a word."""
    found = joined(op, a, word)
    return Term.of(op, a, word % 32 if op in SHIFTS else word) if found is None else found


def with_word(op, a, word):
    """Returns the term of an operation on a term that is no word, and a word."""
    found = joined(op, a, word)
    if found is not None:
        return found
    power = word.bit_length() - 1 if word >= 2 and word & (word - 1) == 0 else 0
    inner, x, first = on_word(a)
    if op == "sub":
        return again("add", a, -word & MASK)
    if op == "mul" and power:
        return again("sll", a, power)
    if op == "mulhu" and power:
        return again("srl", a, 32 - power)
    if op == "mulhi" and word == 1:
        return again("sra", a, 31)
    if op == "nor" and word == 0:
        return again("xor", a, MASK)
    if op == "slt" and word == 0:
        return again("srl", a, 31)
    if (op, inner) in (("srl", "sll"), ("sll", "srl")) and first % 32 == word % 32:
        return again("and", x, VALUES[op](MASK, word) & MASK)
    if (op, inner) in (("and", "or"), ("or", "and")) and first == word:
        return word
    return again(op, a, word)


def beside(op, s, t):
    """Returns what an operation on two terms is that are no words, by what the first is made of, or None."""
    inner, *parts = s.key
    if inner == "input" or op not in ("and", "or", "xor", "sub", "add"):
        return None
    x, y = parts
    is_either = x is t or y is t
    if (op, inner) in (("and", "or"), ("or", "and")) and is_either:
        return t
    if (op, inner) in (("and", "and"), ("or", "or")) and is_either:
        return s
    if (op, inner) in (("xor", "xor"), ("sub", "add")) and is_either:
        return y if x is t else x
    if (op, inner) == ("add", "sub") and y is t:
        return x
    if op in ("and", "or") and inner == "xor" and x is t and y == MASK:
        return 0 if op == "and" else MASK
    return None


def of_terms(op, a, b):
    """Returns the term of an operation on two terms that are no words."""
    if a is b:
        if op in ("slt", "sltu", "xor", "sub"):
            return 0
        if op in ("and", "or"):
            return a
        return again("xor", a, MASK) if op == "nor" else Term.of(op, a, b)
    found = beside(op, a, b)
    if found is None and op in COMMUTE:
        found = beside(op, b, a)
        if found is None and a.number > b.number:
            a, b = b, a
    return Term.of(op, a, b) if found is None else found


def make(op, a, b):
    """Returns the term of an operation on two terms, in the normal form."""
    if isinstance(a, int) and isinstance(b, int):
        return VALUES[op](a, b) & MASK
    if op in COMMUTE and isinstance(a, int):
        a, b = b, a
    if isinstance(b, int):
        return with_word(op, a, b)
    if op in SHIFTS:
        if a == 0:
            return 0
        inner, term, word = on_word(b)
        return Term.of(op, a, term if inner == "and" and word % 32 == 31 else b)
    return Term.of(op, a, b) if isinstance(a, int) else of_terms(op, a, b)


def sum_parts(term):
    """Returns the terms that a sum is made of, each with its factor; None where a term is no sum."""
    op, a, b = term.key if len(term.key) == 3 else (None, None, None)
    if op in ("add", "sub"):
        return [(a, 1), (b, 1 if op == "add" else MASK)]
    if op == "mul" and isinstance(b, int):
        return [(a, b)]
    if op == "sll" and isinstance(b, int):
        return [(a, 1 << b % 32)]
    if op == "xor" and b == MASK:
        return [(a, MASK), (MASK, 1)]
    if op == "xor" and b == 1 << 31:
        return [(a, 1), (b, 1)]
    return None


def is_same_sum(one, other):
    """Returns whether the difference of two terms comes to nothing, taken apart from the term that was made last on."""
    factors, heap, rest = {}, [], 0

    def add(term, factor):
        nonlocal rest
        if isinstance(term, int):
            rest = rest + term * factor & MASK
        elif term in factors:
            factors[term] = factors[term] + factor & MASK
        else:
            factors[term] = factor
            heapq.heappush(heap, (-term.number, term))

    add(one, 1)
    add(other, MASK)
    while heap:
        _, term = heapq.heappop(heap)
        factor = factors.pop(term)
        if factor:
            parts = sum_parts(term)
            if parts is None:
                return False
            for part, times in parts:
                add(part, times * factor & MASK)
    return rest == 0


def moved(word, by):
    """Returns a word that is moved to the left, by less than 0 to the right; what leaves it is lost."""
    return word << by & MASK if by >= 0 else word >> -by


def bit_parts(term):
    """Returns the terms whose bits make those of a term by exclusive or, each with a move and a mask, and a word; None
    where it is another operation."""
    op, a, b = term.key if len(term.key) == 3 else (None, None, None)
    if op == "xor":
        return [(a, 0, MASK), (b, 0, MASK)], 0
    if op == "sub" and a == MASK:
        return [(b, 0, MASK)], MASK
    if not isinstance(b, int):
        return None
    if op == "and":
        return [(a, 0, b)], 0
    if op in ("or", "nor"):
        return [(a, 0, ~b & MASK)], b if op == "or" else ~b & MASK
    if op == "add" and b == 1 << 31:
        return [(a, 0, MASK)], b
    if op == "sll":
        return [(a, b % 32, moved(MASK, b % 32))], 0
    if op in ("srl", "sra"):
        signs = [(a, -j, 1 << 31 - j) for j in range(b % 32)] if op == "sra" else []
        return [(a, -(b % 32), moved(MASK, -(b % 32))), *signs], 0
    return None


def is_same_exclusive_or(one, other):
    """Returns whether the exclusive or of two terms comes to nothing, taken apart from the term that was made last on."""
    masks, heap, rest = {}, [], 0

    def add(term, by, mask):
        nonlocal rest
        if isinstance(term, int):
            rest ^= moved(term, by) & mask
        elif mask:
            if (term, by) not in masks:
                heapq.heappush(heap, (-term.number, -by, term))
            masks[term, by] = masks.get((term, by), 0) ^ mask

    add(one, 0, MASK)
    add(other, 0, MASK)
    while heap:
        _, by, term = heapq.heappop(heap)
        by, mask = -by, masks.pop((term, -by))
        if mask:
            parts = bit_parts(term)
            if parts is None:
                return False
            rest ^= moved(parts[1], by) & mask
            for part, more, kept in parts[0]:
                add(part, by + more, moved(kept, by) & mask)
    return rest == 0


def is_same(one, other):
    """Returns whether two terms are seen to be the same."""
    return one is other or one == other or is_same_sum(one, other) or is_same_exclusive_or(one, other)


class Classes:
    """For each term one that has the same value, made anew of the classes of its parts."""

    def __init__(self):
        self.samples, self.first, self.classes = {}, {}, {}
        for term in sorted(Term.made.values(), key=lambda it: it.number):
            parts = term.key[1:] if term.key[0] in VALUES else ()
            for part in parts:
                self.of(part)
            made = make(term.key[0], *(self.of(part) for part in parts)) if parts else term
            self.classes[term] = self.like(made)

    def of(self, term):
        """Returns the class of a term; a word has one when it is asked for first."""
        if term not in self.classes:
            self.classes[term] = self.like(term)
        return self.classes[term]

    def like(self, term):
        """Returns the first class with the samples of a term, where both are seen to be the same, or else the term."""
        first = self.first.setdefault(self.samples_of(term), term)
        return first if is_same(first, term) else term

    def samples_of(self, term):
        """Returns the values of a term under four lists of words for the inputs."""
        if isinstance(term, int):
            return (term,) * 4
        if term not in self.samples:
            op, *parts = term.key
            if op == "input":
                self.samples[term] = tuple(random.Random(4 * parts[0] + k).getrandbits(32) for k in range(4))
            else:
                pairs = zip(*(self.samples_of(part) for part in parts))
                self.samples[term] = tuple(VALUES[op](a, b) & MASK for a, b in pairs)
        return self.samples[term]


def least_other(ones, others):
    """Returns the first place where two terms are not seen to be the same, as they stand or else by their classes; None
    where there is none."""
    places = [k for k, (one, other) in enumerate(zip(ones, others)) if not is_same(one, other)]
    if places:
        classes = Classes()
        places = [k for k, (one, other) in enumerate(zip(ones, others)) if not is_same(classes.of(one), classes.of(other))]
    return places[0] if places else None


def wanted(term):
    """Returns the word that a term has to be."""
    if not isinstance(term, int):
        raise Hangs
    return term


class TermWire(Wire):
    def send(self, value):
        self.values.append(value)


class TermTile(Tile):
    """A tile whose registers and memory words are terms."""

    def begin(self):
        super().begin()
        self.cells = dict(self.data)

    def word_at(self, address):
        return self.cells.get(address, 0)

    def write(self, value):
        target = self.target()
        if target in NETWORK_OF_REGISTER:
            self.outputs[NETWORK_OF_REGISTER[target], "P"].send(value)
        elif target:
            self.registers[target] = value

    def execute(self, name, o, values):
        if name in BRANCHES or name in ("beq", "bne", "jr", "jalr"):
            values = [wanted(it) for it in values]
        if name in LOADS or name in STORES:
            values[0] = wanted(values[0])
        return super().execute(name, o, values)

    def result(self, name, o, values):
        if name in OF_ONE:
            return super().result(name, o, [wanted(it) for it in values])
        if name in SHIFTS_BY_CONSTANT:
            return make(name, values[0], o[2])
        if name in SHIFTS_BY_REGISTER:
            return make(SHIFTS_BY_REGISTER[name], values[1], values[0])
        if name in OF_TWO:
            return make(TO_OPERATION.get(name, name), *values)
        if name in WITH_NUMBER:
            return make(TO_OPERATION[name], values[0], o[2] & MASK)
        return o[1] << 16 & MASK  # lui

    def load(self, size, with_sign, address):
        if not self.access(address, size):
            return None
        cell = self.cells.get(address & -4, 0)
        if size < 4:
            bytes_ = wanted(cell).to_bytes(4, "big")[address % 4 : address % 4 + size]
            cell = int.from_bytes(bytes_, "big", signed=with_sign) & MASK
        self.write(cell)
        return self.pc + 1

    def store(self, size, address, value):
        if not self.access(address, size):
            return None
        if size < 4:
            bytes_ = bytearray(wanted(self.cells.get(address & -4, 0)).to_bytes(4, "big"))
            bytes_[address % 4 : address % 4 + size] = (wanted(value) & (1 << 8 * size) - 1).to_bytes(size, "big")
            value = int.from_bytes(bytes_, "big")
        self.cells[address & -4] = value
        return self.pc + 1


class TermSwitch(Switch):
    """A switch whose registers are terms."""

    def control(self, name, operands, before, values):
        if name in ("beqz", "bnez", "bnezd"):
            wanted(before[int(operands[0][1])])
        return super().control(name, operands, before, values)

    def write(self, register, value):
        self.registers[register] = value


class TermGrid(Grid):
    """The grid of a set, with the k-th input in place of the k-th word of all its sources."""

    tile_kind, switch_kind, wire_kind = TermTile, TermSwitch, TermWire

    def __init__(self, lines):
        super().__init__(lines)
        self.words = 0
        for it in self.ports:
            if isinstance(it, Source):
                it.words = [Term.of("input", self.words + k) for k in range(len(it.words))]
                self.words += len(it.words)

    def run(self):
        """Steps all in the serial order until none is enabled; returns where it hangs, or None."""
        steps, fired = 0, True
        while fired:
            fired = False
            for it in self.processors:
                if it.mark is None and it.first_wait() is None:
                    try:
                        it.step()
                    except Hangs:
                        return f"unproved at {steps}: {it.number} hangs on an input"
                    steps, fired = steps + 1, True
        return None


def claimed(lines):
    """Returns how many inputs a claim has, and the terms of its outs."""
    terms, outs, inputs = {}, [], 0
    for kind, *words in lines:
        if kind == "input":
            terms[words[0]] = Term.of("input", inputs)
            inputs += 1
        elif kind == "def" and words[1] == "const":
            terms[words[0]] = number(words[2]) & MASK
        elif kind == "def":
            terms[words[0]] = make(words[1], terms[words[2]], terms[words[3]])
        elif kind in ("out", "mem"):
            outs.append(terms[words[0]])
    return inputs, outs


def values(lines, words):
    """Returns the values of a claim's outs under words for its inputs."""
    known, outs, left = {}, [], iter(words)
    for kind, *rest in lines:
        if kind == "input":
            known[rest[0]] = next(left)
        elif kind == "def" and rest[1] == "const":
            known[rest[0]] = number(rest[2]) & MASK
        elif kind == "def":
            known[rest[0]] = VALUES[rest[1]](known[rest[2]], known[rest[3]]) & MASK
        elif kind in ("out", "mem"):
            outs.append(known[rest[0]])
    return outs


def sinks(grid):
    """Returns the sinks of a grid, in the order of their numbers."""
    return [it for it in grid.ports if isinstance(it, Sink)]


def places(grid, lines):
    """Returns the places that a claim names: a sink and the number of a word there, or a tile and an address."""
    named, ports = [], {it.place: it for it in sinks(grid)}
    for kind, *words in lines:
        if kind == "out" and len(words) == 5:
            port = ports[int(words[1]), number(words[2]), number(words[3]), words[4]]
            named.append((port, sum(other is port for other, _ in named)))
        elif kind == "mem":
            named.append((grid.tiles[grid.at(*map(number, words[1:3]))], number(words[3])))
    return named


def miscount(grid, named):
    """Returns how many words the first sink has of which another number is claimed, and this number, or None."""
    for sink in sinks(grid):
        many = sum(other is sink for other, _ in named)
        if named and len(sink.words) != many:
            return len(sink.words), many
    return None


def found(grid, named):
    """Returns what stands at the places of a claim; where it names none, what the sinks of a grid have received, those of
    the first port first."""
    if not named:
        return [word for it in sinks(grid) for word in it.words]
    return [it.words[at] if isinstance(it, Sink) else it.word_at(at) for it, at in named]


def feed_lines(grid):
    """Returns the lines `feed` of the listing of a set."""
    for it in grid.ports:
        if isinstance(it, Source):
            for k in range(0, len(it.words), 8):
                yield " ".join(["feed", *map(str, it.place), *(f"0x{word:08x}" for word in it.words[k : k + 8])])


def refuted(lines, flow):
    """Returns the lines of a refutation of a claim by the words of the set, or None where its run is right."""
    grid = Grid(lines)
    fed = list(feed_lines(grid))
    words = [word for it in grid.ports if isinstance(it, Source) for word in it.words]
    grid.run()
    told, status = grid.outcome()
    if status:
        return [f"refuted: outcome {told[0].split()[1]}", *fed]
    named = places(grid, flow)
    counts = miscount(grid, named)
    if counts:
        return [f"refuted: words {counts[0]} for {counts[1]}", *fed]
    got, outs = found(grid, named), values(flow, words)
    if len(got) != len(outs):
        return [f"refuted: words {len(got)} for {len(outs)}", *fed]
    for k, (one, other) in enumerate(zip(got, outs)):
        if one != other:
            return [f"refuted: out {k}", *fed, f"word {one:08x}", f"claim {other:08x}"]
    return None


def prove(lines):
    """Returns the lines of `prove`, but that no other words are looked for than those of the set."""
    begins = next(i for i, line in enumerate(lines) if line.split("#")[0].replace(",", " ").split() == ["claim"])
    flow = [line.split("#")[0].replace(",", " ").split() for line in lines[begins + 1 :]]
    flow = [words for words in flow if words]
    if rawrows.is_stream(flow):
        return rawrows.prove(lines[:begins], flow)
    grid = TermGrid(lines[:begins])
    inputs = sum(words[0] == "input" for words in flow)
    if inputs != grid.words:
        return [f"unproved: inputs {inputs} for {grid.words}"]
    own = refuted(lines[:begins], flow)
    if own:
        return own
    hangs = grid.run()
    if hangs:
        return [hangs]
    got = found(grid, places(grid, flow))
    _, outs = claimed(flow)
    least = least_other(got, outs)
    if least is not None:
        return [f"unproved: out {least}"]
    return [f"proved {len(outs)} cycles {Grid(lines[:begins]).run_by_clock().cycles}"]


def steady(lines):
    """Returns the line of `steady`."""
    hangs = TermGrid(lines).run()
    if hangs:
        return [hangs.replace("unproved", "unsteady")]
    return [f"steady cycles {Grid(lines).run_by_clock().cycles}"]
