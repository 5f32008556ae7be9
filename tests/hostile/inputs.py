"""Inputs of each kind that are valid: sets, histories, scripts, plans, flows, live input and words, made by chance.

Each is made of a random.Random that is given, so that the same seed makes the same inputs. Sets are small and have low limits:
a program that is made by chance seldom halts."""
import os
import sys

sys.path.insert(0, f"{os.path.dirname(os.path.abspath(__file__))}/../../tools")
import commands  # noqa: E402

# The operands of tile instructions by their names, as docs/MACHINE.md has them: d, s, t registers, n a shift, I and Z numbers,
# T a target of a branch, J of a jump, A an address.
TILE = {
    "d t n": "sll srl sra",
    "d t s": "sllv srlv srav",
    "d s t": "addu subu and or xor nor slt sltu mul mulhi mulhu",
    "d s": "clz popc move",
    "s": "jr",
    "d j": "jalr",
    "s T": "bltz bgez blez bgtz",
    "s t T": "beq bne",
    "t s I": "addiu slti sltiu",
    "t s Z": "andi ori xori",
    "t Z": "lui",
    "t A": "lb lh lw lbu lhu sb sh sw",
    "J": "j jal",
    "T": "b",
    "l W": "li",
    "": "halt nop",
}
TILE_FORMS = [(name, operands.split()) for operands, names in TILE.items() for name in names.split()]
SIDES = "NESW"
OPPOSITE = {"N": "S", "S": "N", "E": "W", "W": "E"}
FLOW_OPS = "add sub mul mulhi mulhu and or xor nor slt sltu sll srl sra".split()


def number(r):
    """A number of a word, in one of its forms."""
    form = r.randrange(6)
    if form < 3:
        return str(r.randrange(20))
    if form == 3:
        return str(-r.randrange(1, 40_000))
    if form == 4:
        return f"0x{r.getrandbits(32):x}"
    return r.choice(("4294967295", "2147483648", "-2147483648", "0xFFFFFFFF", "65535", "65536", "007"))


class Grid:
    """What the lines of a set have to fit to: its sizes and its ports."""

    def __init__(self, r):
        self.cols, self.rows = r.choice(((1, 1), (1, 1), (2, 1), (1, 2), (2, 2), (3, 2), (r.randint(1, 8), r.randint(1, 8))))
        self.tiles = self.cols * self.rows
        self.ports = []  # (kind, net, x, y, side), in order
        for _ in range(r.randrange(6)):
            x, y = r.randrange(self.cols), r.randrange(self.rows)
            side = r.choice(SIDES)
            # One that is at the edge.
            x, y = {"N": (x, 0), "S": (x, self.rows - 1), "W": (0, y), "E": (self.cols - 1, y)}[side]
            port = (r.choice(("source", "sink")), r.choice("12"), x, y, side)
            if port not in self.ports:
                self.ports.append(port)

    def ends(self, x, y, net, kind):
        """The directions of the wires that the switch of a tile has on a network, to it from sources, from it to sinks."""
        near = {"N": y > 0, "S": y < self.rows - 1, "W": x > 0, "E": x < self.cols - 1}
        return [side for side in SIDES if near[side] or (kind, net, x, y, side) in self.ports] + ["P"]

    def sources(self):
        return [port for port in self.ports if port[0] == "source"]


def tile_lines(r):
    """The program of a tile."""
    size = r.choice((1, 2, 3, 5, 8, 12))
    lines, made = [], 0
    labels = [f"{r.choice('abxyZ_')}{i}" for i in range(r.randrange(3))]
    places = {label: r.randrange(size) for label in labels}
    for at in range(size):
        name, operands = r.choice(TILE_FORMS) if r.random() < 0.7 else ("addu", ["d", "s", "t"])
        text = f"{name} " + r.choice((", ", ",", " ")).join(tile_operand(r, it, name, made, labels) for it in operands)
        head = "".join(f"{label}:\n" for label in labels if places[label] == at)
        lines.append(head + text + r.choice(("", "", "", "   # 1", "\t", "\r")))
        made += 2
    return lines + r.choice(([], ["halt"], ["halt"], ["j 0"]))


def register(r):
    return f"${r.choice((0, 1, 2, 3, 4, 5, 6, 24, 24, 25, 31))}"


def tile_operand(r, form, name, made, labels):
    if form in "dst":
        return register(r)
    if form == "l":
        return f"${r.randrange(24)}"
    if form == "j":
        return f"${r.randrange(1, 24)}"
    if form == "n":
        return str(r.randrange(32))
    if form == "I":
        return str(r.choice((0, 1, -1, 7, -32768, 32767, "0xffff8000", r.randrange(100))))
    if form == "Z":
        return r.choice(("0", "0xffff", "65535", str(r.randrange(65_536))))
    if form == "W":
        return number(r)
    if form == "A":
        return f"{4 * r.randrange(20)}({r.choice(('$0', '$0', '$0', '$5'))})"
    return r.choice(labels) if labels and r.random() < 0.7 else str(r.randrange(max(1, made)))


def switch_lines(r, grid, x, y):
    """The program of the switch beside a tile."""
    lines = []
    size = r.choice((1, 2, 3, 5, 8))
    ins = [f"{net}:{side}" for net in "12" for side in grid.ends(x, y, net, "source")]
    outs = [f"{net}:{side}" for net in "12" for side in grid.ends(x, y, net, "sink")]
    for _ in range(size):
        one = r.randrange(4)
        routes = []
        for out in r.sample(outs, r.randrange(min(4, len(outs)) + 1)):
            net, side = out.split(":")
            sent = [it for it in ins if it[0] == net] + [f"{net}:r{one}"]
            routes.append(f"{r.choice(sent)}>{side}")
        rd = f"r{r.randrange(4)}"
        target = r.randrange(size)
        name = r.choice(("", "", "", "nop", "halt", f"j {target}", f"beqz {rd}, {target}", f"bnez {rd} {target}",
                         f"bnezd {rd}, {target}", f"move {rd}, {r.choice(ins)}", f"move {rd}, r{one}"))
        lines.append(f"{name} {' '.join(routes)}".strip() or "nop")
    return lines + r.choice((["halt"], ["halt"], ["j 0"], []))


def relay(r, grid):
    """Programs that hand words on: from each source to the other side of its tile or to the tile, which sends them back."""
    for _, net, x, y, side in grid.sources():
        outs = grid.ends(x, y, net, "sink")
        to = OPPOSITE[side] if OPPOSITE[side] in outs else "P"
        yield "switch", x, y, [f"loop: j loop {net}:{side}>{to}" + (f" {net}:{side}>P" if r.random() < 0.3 and to != "P" else "")]
    for y in range(grid.rows):
        for x in range(grid.cols):
            yield "tile", x, y, ["move $24, $24"] * r.randrange(3) + ["halt"]


def sections(r, grid):
    """The sections of tiles and switches, each of which stands once."""
    made = {}
    for kind, x, y, lines in relay(r, grid) if r.random() < 0.4 else ():
        made.setdefault((kind, x, y), lines)
    for _ in range(r.randrange(2 * grid.tiles + 1) if grid.tiles < 8 else 3):
        x, y = r.randrange(grid.cols), r.randrange(grid.rows)
        if r.random() < 0.5:
            made.setdefault(("tile", x, y), tile_lines(r))
        else:
            made.setdefault(("switch", x, y), switch_lines(r, grid, x, y))
    return [[f"{kind} {x} {y}", *lines, "end"] for (kind, x, y), lines in made.items()]


def set_with_grid(r):
    """The lines of a set, with its grid."""
    grid = Grid(r)
    head = [f"grid {grid.cols} {grid.rows}", f"limit {r.choice((1, 2, 5, 20, 100, 300))}"]
    ports = [" ".join(map(str, port)) + (f" {r.choice((0, 1, 2, 5, 100))}" if port[0] == "sink" else "") for port in grid.ports]
    others = sections(r, grid)
    for _, net, x, y, side in grid.sources():
        for _ in range(r.randrange(3)):
            others.append([f"feed {net} {x} {y} {side} " + " ".join(number(r) for _ in range(r.randint(1, 4)))])
    for _ in range(r.randrange(3)):
        place = f"{r.randrange(grid.cols)} {r.randrange(grid.rows)}"
        others.append([f"misses {place} " + " ".join(str(r.randrange(9)) for _ in range(r.randint(1, 4)))])
        others.append([f"show {place} {4 * r.randrange(20)} {r.randint(1, 4)}"])
    words = r.sample(range(20), r.randrange(4))
    x, y = r.randrange(grid.cols), r.randrange(grid.rows)
    others += [[f"data {x} {y} {4 * at} {number(r)}"] for at in words]
    if r.random() < 0.4:
        others.append([f"depth {r.randint(1, 7)}"])
    r.shuffle(others)
    lines = head + ports + [line for part in others for line in part]
    if r.random() < 0.2:
        lines.insert(r.randrange(len(lines)), r.choice(("", "# " + "x" * r.randrange(60), "\t,\r")))
    return lines, grid


def text_of(lines):
    return "\n".join(lines).encode() + b"\n"


def a_set(r):
    return text_of(set_with_grid(r)[0])


def a_script(r):
    lines, grid = set_with_grid(r)
    lines.append("script")
    procs = 2 * grid.tiles + len(grid.ports)
    current = 0
    for _ in range(r.randrange(8)):
        command = r.choice(("at", "at", "at", "back", "regs", "mem", "wires", "waits"))
        if command == "at":
            current = r.randrange(procs)
            lines.append(f"at {current} {r.choice((0, 0, 0, 1, 1, 2))}")
        elif command == "back":
            lines.append(f"back {r.randrange(4)}")
        elif command != "mem":
            lines.append(command)
        elif current < grid.tiles:
            lines.append(f"mem {4 * r.randrange(20)} {r.randint(1, 5)}")
    return text_of(lines)


def a_live(r):
    lines, grid = set_with_grid(r)
    lines.append("live")
    for _ in range(r.randrange(8)):
        if grid.sources():
            _, net, x, y, side = r.choice(grid.sources())
            lines.append(f"put {net} {x} {y} {side} {number(r)}")
    return text_of(lines)


def a_plan(r):
    cols, rows = r.choice(((1, 1), (2, 1), (2, 2), (3, 3), (8, 8)))
    places = [f"{x} {y}" for x in range(cols) for y in range(rows)]
    lines = [f"grid {cols} {rows}"]
    for _ in range(r.randrange(6)):
        targets = r.sample(places, r.randint(1, min(4, len(places))))
        lines.append(f"send {r.choice('12')} {r.choice(places)} {number(r)} {' '.join(targets)}")
    return text_of(lines)


def a_flow(r):
    cols, rows = r.choice(((1, 1), (2, 1), (2, 2), (3, 3), (8, 8)))
    lines = [f"grid {cols} {rows}"]
    names = []
    for i in range(r.randint(1, 9)):
        name = f"{r.choice('abXY_')}{i}"
        kind = r.randrange(4) if names else r.randrange(2)
        if kind == 0:
            lines.append(f"input {name} {number(r)}")
        elif kind == 1:
            lines.append(f"def {name} const {number(r)}")
        else:
            lines.append(f"def {name} {r.choice(FLOW_OPS)} {r.choice(names)} {r.choice(names)}")
        names.append(name)
        if r.random() < 0.2:
            lines.append(f"out {r.choice(names)}")
    lines.append(f"out {r.choice(names)}")
    return text_of(lines)


def words(r):
    """Words that are a command of rawgrid, or of rawlive."""
    command = r.choice((*commands.COMMANDS, None))
    taken = commands.taken_by(command) if command else [it for it in commands.OPTIONS if it.names == ["--workers"]]
    taken = [it for it in taken if r.random() < 0.4]
    options = []
    for it in taken:
        if not it.needs or any(it.needs in other.names for other in taken):
            number = r.choice(("1", "2", "3", "0x4")) if it.fields["values"] else str(r.randint(1, 20))
            options.append([r.choice(it.names), number] if it.number else [r.choice(it.names)])
    r.shuffle(options)
    head = [command.name, *([str(r.randint(1, 9))] if command.number else [])] if command else []
    return [*head, *(word for option in options for word in option)]


def longest_lines(r):
    """Lines of each kind that have as many bytes as fit, or one more; each with a set, a plan, a flow or a mark before it."""
    size = r.choice((1_000, 1_000, 1_000, 1_001))
    source = "grid 2 1\nlimit 9\nsource 1 0 0 W\n"

    def filled(head, word):
        """The head, and the word as often as it fits, and blanks up to the size."""
        line = head + word * ((size - len(head)) // len(word))
        return line + " " * (size - len(line))

    return r.choice(
        (
            source + filled("feed 1 0 0 W", " " + r.choice(("1", "0xffffffff", "-1"))),
            source + filled("data 0 0 0", " 7"),
            source + filled("misses 0 0", " 255"),
            source + filled("show 0 0 0 ", "0")[:-1] + "4",
            source + filled("limit ", "0"),
            source + filled("#", "#"),
            source + filled(",\t\r", " "),
            source + "tile 0 0\n" + filled("l", "L")[:-1] + ":\nend",
            source + "tile 0 0\n" + filled("addu $1, $2,", ",") + "\nend",
            source + "tile 0 0\n" + filled("addu $1, $2,", ",")[:-2] + "$3\nhalt\nend",
            source + "tile 0 0\nli $5, " + "0" * (size - 8) + "7\nhalt\nend",
            source + "tile 0 0\nlw $5, " + "0" * (size - 11) + "($0)\nhalt\nend",
            source + "switch 0 0\n" + filled("1:W>E 1:W>P 2:P>E 2:E>P", " ") + "\nend",
            source + "switch 0 0\nmove r0, 1:W" + " " * (size - 22) + " 1:r1>E 2:r1>P"[-10:] + "\nend",
            source + "live\nput 1 0 0 W " + "0" * (size - 13) + "7",
            source + "live\n" + "put 1 0 0 W 7\n" * 70,
            source + "script\nat 0 " + "0" * (size - 5),
            source + "script\n" + "wires\nwaits\nregs\n" * 50,
            source + "history\n" + "0" * (size - 1) + "2",
            source + "history\n" + "2\n" * r.randrange(3),
            "grid 8 8\n" + filled("send 1 0 0 7", "".join(f" {x} {y}" for x in range(8) for y in range(8))),
            "grid 8 8\nsend 1 0 0 " + "0" * (size - 16) + "7 7 7",
            "grid 1 1\ninput " + filled("n", "m")[: size - 8] + " 1\nout " + filled("n", "m")[: size - 8],
            "grid 1 1\ndef a const " + "0" * (size - 13) + "1\nout a",
        )
    ).encode() + r.choice((b"\n", b""))
