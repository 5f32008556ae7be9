"""Sets at each limit and one past it, as text and as image.

Each case is made twice: with the number at its limit, and with one more. The first has to be taken: `asm` of the text makes the
very bytes of the image, which are made here by themselves; `list` and `asm` make them again, and both run. The second has to be
refused, as text and as image, at the line and at the offset of what is too much."""
import collections
import struct

from program import told

MAX_INPUT = 33_554_432

Image = collections.namedtuple("Image", "bytes marks")


def word(number):
    return struct.pack(">I", number)


class Maker:
    """A set that is made as text and as image: its lines, and by tile what the image has of it."""

    def __init__(self, cols=1, rows=1, limit=1, depth=4):
        self.lines = [f"grid {cols} {rows}", f"limit {limit}"]
        if depth != 4:
            self.lines.append(f"depth {depth}")
        self.cols, self.rows, self.limit, self.depth = cols, rows, limit, depth
        self.ports = []
        self.code = collections.defaultdict(int)
        self.routes = collections.defaultdict(int)
        self.memory = collections.defaultdict(list)
        self.misses = collections.defaultdict(list)
        self.shows = []

    def place(self, tile):
        return f"{tile % self.cols} {tile // self.cols}"

    def port(self, net, tile, side, room=None):
        kind = "source" if room is None else "sink"
        tail = "" if room is None else f" {room}"
        self.lines.append(f"{kind} {net} {self.place(tile)} {side}{tail}")
        self.ports.append([net, tile, side, room, []])
        return len(self.ports) - 1

    def feed(self, port, count):
        net, tile, side, _, words = self.ports[port]
        for size in sizes(count, 400):
            self.lines.append(f"feed {net} {self.place(tile)} {side} " + " ".join(["7"] * size))
            words.extend([7] * size)

    def data(self, tile, address, count):
        for size in sizes(count, 400):
            self.lines.append(f"data {self.place(tile)} {address} " + " ".join(["9"] * size))
            self.memory[tile] += [(address + 4 * i, 9) for i in range(size)]
            address += 4 * size

    def miss(self, tile, numbers):
        for begin in range(0, len(numbers), 200):
            part = numbers[begin : begin + 200]
            self.lines.append(f"misses {self.place(tile)} " + " ".join(map(str, part)))
        self.misses[tile] += numbers

    def show(self, tile, address, count):
        self.lines.append(f"show {self.place(tile)} {address} {count}")
        self.shows.append((tile, address, count))

    def section(self, kind, tile, count):
        self.lines += [f"{kind} {self.place(tile)}"] + ["nop"] * count + ["end"]
        (self.code if kind == "tile" else self.routes)[tile] = count

    def text(self):
        return ("\n".join(self.lines) + "\n").encode()

    def image(self):
        """The image, with the offsets of the fields that a case is about."""
        made, marks = bytearray(b"RAWT" + word(2)), {}

        def put(mark, field):
            marks[mark] = len(made)
            made.extend(field)

        put("cols", bytes([self.cols]))
        put("rows", bytes([self.rows]))
        put("depth", bytes([self.depth, 0]))
        put("limit", word(self.limit))
        put("ports", word(len(self.ports)))
        for i, (net, tile, side, room, words) in enumerate(self.ports):
            made.extend([room is not None, net, tile % self.cols, tile // self.cols, "NESW".index(side), 0, 0, 0])
            put(("port", i), word(len(words) if room is None else room))
            made.extend(b"".join(map(word, words)))
        for tile in range(min(self.cols, 8) * min(self.rows, 8)):
            put(("code", tile), word(self.code[tile]) + bytes(4 * self.code[tile]))
            put(("routes", tile), word(self.routes[tile]) + bytes(8 * self.routes[tile]))
            put(("memory", tile), word(len(self.memory[tile])))
            for address, value in self.memory[tile]:
                put(("address", tile), word(address) + word(value))
            put(("misses", tile), word(len(self.misses[tile])) + bytes(it & 255 for it in self.misses[tile]))
        put("shows", word(len(self.shows)))
        for tile, address, count in self.shows:
            made.extend(word(tile))
            put("show address", word(address))
            put("show count", word(count))
        return Image(bytes(made), marks)


def sizes(count, most):
    """The count in parts of at most so many."""
    return [most] * (count // most) + ([count % most] if count % most else [])


def last_line(made):
    return len(made.lines)


def grid_cases():
    yield "columns", lambda n: Maker(cols=n), 8, lambda m: 1, "bad-size", "cols"
    yield "rows", lambda n: Maker(rows=n), 8, lambda m: 1, "bad-size", "rows"
    yield "limit", lambda n: Maker(limit=n), 10_000_000, lambda m: 2, "over-limit", "limit"
    yield "depth", lambda n: Maker(depth=n), 7, lambda m: 3, "over-limit", "depth"


def program_cases():
    def one(kind):
        def make(n):
            made = Maker()
            made.section(kind, 0, n)
            return made

        return make

    def all_of(kind, most):
        def make(n):
            made = Maker(cols=8, rows=8)
            for tile, count in enumerate(sizes(n, most)):
                made.section(kind, tile, count)
            return made

        return make

    before_end = lambda m: len(m.lines) - 1
    yield "instructions of a tile", one("tile"), 16_384, before_end, "too-long", ("code", 0)
    yield "instructions of all tiles", all_of("tile", 16_384), 131_072, last_line, "over-limit", ("code", 8)
    yield "instructions of a switch", one("switch"), 8_192, before_end, "too-long", ("routes", 0)
    yield "instructions of all switches", all_of("switch", 8_192), 65_536, last_line, "over-limit", ("routes", 8)


def port_cases():
    def words_of_one(n):
        made = Maker()
        made.feed(made.port(1, 0, "W"), n)
        return made

    def words_of_two(n):
        made = Maker()
        first, second = made.port(1, 0, "W"), made.port(2, 0, "W")
        made.feed(first, n - 1)
        made.feed(second, 1)
        return made

    def room(n):
        made = Maker()
        made.port(1, 0, "E", n)
        return made

    def rooms(n):
        made = Maker()
        for side, size in zip("NESWN", sizes(n, 1_000_000)):
            made.port(1 + (len(made.ports) == 4), 0, side, size)
        return made

    yield "words of a source", words_of_one, 262_144, last_line, "over-limit", ("port", 0)
    yield "words of all sources", words_of_two, 262_144, last_line, "over-limit", ("port", 1)
    yield "room of a sink", room, 1_000_000, last_line, "over-limit", ("port", 0)
    yield "room of all sinks", rooms, 4_000_000, last_line, "over-limit", ("port", 4)


def memory_cases():
    def words(n):
        made = Maker(cols=8)
        for tile, count in enumerate(sizes(n, 16_384)):
            made.data(tile, 0, count)
        return made

    def address(n):
        made = Maker()
        made.data(0, 4 * n, 1)
        return made

    def miss(n):
        made = Maker()
        made.miss(0, [n])
        return made

    def misses(n):
        made = Maker(cols=2)
        made.miss(0, [1] * (n - 1))
        made.miss(1, [1])
        return made

    yield "words of all data lines", words, 65_536, last_line, "over-limit", ("memory", 4)
    yield "an address of data", address, 16_383, last_line, "over-limit", ("address", 0)
    yield "a number of a miss stream", miss, 255, last_line, "over-limit", None
    yield "numbers of all miss streams", misses, 262_144, last_line, "over-limit", ("misses", 1)


def show_cases():
    def lines(n):
        made = Maker()
        for _ in range(n):
            made.show(0, 0, 1)
        return made

    def words(n):
        made = Maker()
        made.show(0, 0, n)
        return made

    def all_words(n):
        made = Maker()
        for count in sizes(n, 16_384):
            made.show(0, 0, count)
        return made

    def address(n):
        made = Maker()
        made.show(0, 4 * n, 1)
        return made

    def end(n):
        made = Maker()
        made.show(0, 65_528, n)
        return made

    yield "show lines", lines, 1_000, last_line, "over-limit", "shows"
    yield "words of a show line", words, 16_384, last_line, "over-limit", "show count"
    yield "words of all show lines", all_words, 65_536, last_line, "over-limit", "show count"
    yield "an address of a show line", address, 16_383, last_line, "over-limit", "show address"
    yield "the end of a show line", end, 2, last_line, "over-limit", "show count"


def all_ports(cols, rows):
    """All ports of a grid, and one that is there already: 8 for each column and row."""
    made = Maker(cols, rows)
    for net in (1, 2):
        for room in (None, 0):
            for x in range(cols):
                made.port(net, x, "N", room)
                made.port(net, x + cols * (rows - 1), "S", room)
            for y in range(rows):
                made.port(net, y * cols, "W", room)
                made.port(net, y * cols + cols - 1, "E", room)
    return made


CASES = [*grid_cases(), *program_cases(), *port_cases(), *memory_cases(), *show_cases()]


def taken(tools, tally, name, made):
    """A set at its limit is taken as text and as image, which are each other's."""
    text, image = made.text(), made.image().bytes
    run = tools.rawgrid.run
    assembled = run(["asm"], text)
    tally.expect(assembled[:3] == (0, image, b""), f"{name}: asm of the text: {told(assembled.status)} {assembled.err}", text)
    listing = run(["list"], image)
    tally.expect(listing.status == 0, f"{name}: list of the image: {told(listing.status)} {listing.err}", image)
    tally.expect(run(["asm"], listing.out).out == image, f"{name}: asm of its listing makes another image", image)
    of_text, of_image = run(["run"], text), run(["run", "--image", "--workers", "4"], image)
    tally.expect(of_text.status in (0, 3, 4, 5, 6) and not of_text.err, f"{name}: {told(of_text.status)} {of_text.err}", text)
    tally.expect(of_text[:3] == of_image[:3], f"{name}: other reports of text and image", text)
    tally.count("sets at a limit", 2)


def refused(tools, tally, name, words, data, line):
    run = tools.rawgrid.run(words, data)
    due = (2, b"", line.encode() + b"\n")
    tally.count("sets past a limit")
    tally.expect(run[:3] == due, f"{name}, {' '.join(words)}: {told(run.status)} {run.err}, due is {line}", data)


def at_limit(tools, tally, number):
    """A case of CASES, at its limit and one past it."""
    name, make, most, line_of, kind, mark = CASES[number]
    taken(tools, tally, name, make(most))
    past = make(most + 1)
    line = f"refused line {line_of(past)}: {kind}"
    for words in (["run"], ["asm"]):
        refused(tools, tally, name, words, past.text(), line)
    if mark is not None:
        image = past.image()
        for words in (["run", "--image"], ["list"]):
            refused(tools, tally, name, words, image.bytes, f"refused image at {image.marks[mark]}: bad-field")


def at_least(tools, tally):
    """One below the least value, where that is not 0."""
    for name, made, line, mark in (
        ("no columns", Maker(cols=0), "1: bad-size", "cols"),
        ("no rows", Maker(rows=0), "1: bad-size", "rows"),
        ("limit 0", Maker(limit=0), "2: over-limit", "limit"),
        ("depth 0", Maker(depth=0), "3: over-limit", "depth"),
    ):
        refused(tools, tally, name, ["run"], made.text(), f"refused line {line}")
        image = made.image()
        refused(tools, tally, name, ["list"], image.bytes, f"refused image at {image.marks[mark]}: bad-field")


def ports(tools, tally):
    for cols, rows in ((1, 1), (8, 8), (8, 1)):
        made = all_ports(cols, rows)
        tally.expect(len(made.ports) == 8 * (cols + rows), "the number of ports")
        taken(tools, tally, f"all ports of {cols} by {rows}", made)
        made.port(2, 0, "N", 0)
        refused(tools, tally, "a port too many", ["run"], made.text(), f"refused line {last_line(made)}: double-port")
        image = made.image()
        refused(tools, tally, "a port too many", ["list"], image.bytes, "refused image at 16: bad-field")


def comments(size):
    """So many bytes of lines of 1,000 bytes at most, none of which says anything."""
    return (b"#" + b" " * 998 + b"\n") * (size // 1_000) + b" " * (size % 1_000 - 1) + b"\n"


def inputs(tools, tally):
    """An input of the greatest length that is a set, and one byte more; a line of the greatest length, and one byte more."""
    head, tail, mark = b"grid 1 1\nlimit 1\n", b"show 0 0 0 1\n", b"live\n"
    text = head + comments(MAX_INPUT - len(head + tail)) + tail
    run = tools.rawgrid.run(["run"], text)
    tally.expect(run.status == 0, f"a set of {len(text)} bytes: {told(run.status)} {run.err}")
    run = tools.rawgrid.run(["run"], text + b"\n")
    tally.expect((run.status, run.err) == (10, b"input too long\n"), f"a set of a byte more: {told(run.status)} {run.err}")
    text = head + comments(MAX_INPUT - len(head + mark)) + mark
    run = tools.rawlive.run([], text)
    tally.expect((run.status, run.out) == (0, b"rest done\n"), f"live input of {len(text)} bytes: {told(run.status)} {run.err}")
    run = tools.rawlive.run([], text + b"\n")
    tally.expect((run.status, run.err) == (10, b"input too long\n"), f"live input of a byte more: {told(run.status)} {run.err}")
    for line in (b"#" + b"x" * 999, b" " * 1_000, b"limit" + b" " * 994 + b"1", b"limit " + b"0" * 993 + b"1"):
        is_limit = line.startswith(b"limit")
        text = b"grid 1 1\n" + line + (b"" if is_limit else b"\nlimit 1")
        run = tools.rawgrid.run(["run"], text)
        tally.expect(run.status == 0, f"a line of 1,000 bytes: {told(run.status)} {run.err}", text)
        text = text.replace(line, line + b" ")
        refused(tools, tally, "a line of 1,001 bytes", ["run"], text, "refused line 2: line-too-long")
    tally.count("inputs and lines at their limits", 8)


def live_words(tools, tally):
    """As many words of live input as sources have room for, and one more."""
    head = "grid 1 1\nlimit 1\nsource 1 0 0 W\nlive\n"
    text = (head + "put 1 0 0 W 1\n" * 262_144).encode()
    run = tools.rawlive.run([], text)
    tally.expect((run.status, run.out) == (0, b"rest done\n"), f"262,144 live words: {told(run.status)} {run.err}")
    run = tools.rawlive.run([], text + b"put 1 0 0 W 1\n")
    due = (2, b"", b"refused line 262149: over-limit\n")
    tally.expect(run[:3] == due, f"262,145 live words: {told(run.status)} {run.err}")
    tally.count("live inputs at their limit", 2)


def words(tools, tally):
    """Words at their limits, and past them."""
    for line, status in (
        ("run --workers 64", 0),
        ("run --workers 65", 2),
        ("history --workers 64", 0),
        ("history --workers 65", 2),
        ("work 100000", 0),
        ("work 100001", 2),
        ("work 1 --workers 64", 0),
        ("work 1 --workers 65", 2),
    ):
        run = tools.rawgrid.run(line.split(), b"grid 1 1\nlimit 1\n")
        tally.expect(run.status == status, f"{line}: {told(run.status)} {run.err}")
    for line, status in (("--workers 64", 0), ("--workers 65", 2), ("--workers 0", 2)):
        run = tools.rawlive.run(line.split(), b"grid 1 1\nlimit 1\nlive\n")
        tally.expect(run.status == status, f"rawlive {line}: {told(run.status)} {run.err}")
    text = b"grid 1 1\nlimit 1\nscript\nmem 0 16384\n"
    tally.expect(tools.rawgrid.run(["debug"], text).out.count(b"\n") == 16_384, "mem of a whole memory")
    refused(tools, tally, "mem past memory", ["debug"], text + b"mem 4 16384\n", "refused line 5: bad-command")
    tally.count("words at their limits", 13)


def longest_run(tools, tally):
    """As many steps as a limit allows."""
    text = b"grid 1 1\nlimit 10000000\ntile 0 0\nj 0\nend\nswitch 0 0\nj 0\nend\n"
    for line in ("run --workers 1", "run --workers 2"):
        run = tools.rawgrid.run(line.split(), text)
        due = run.status == 6 and run.out.startswith(b"outcome limit 0 count 10000000\n")
        tally.expect(due, f"{line} to the greatest limit: {told(run.status)} {run.err} {run.out[:40]}", text)
    tally.count("runs to the greatest limit", 2)
