"""Edits of inputs: of bytes, of words, of lines, of fields of images, and halves of two that are put together."""
import re

NUMBERS = b"0 1 2 3 7 8 9 -1 31 32 63 64 65 127 128 255 256 1000 1001 8191 8192 16384 16385 65532 65535 65536 131072 262144".split()
NUMBERS += b"1000000 1000001 2147483647 2147483648 4294967295 4294967296 -2147483648 -2147483649 0x 0xffffffff 0x100000000 00 1e3 +1".split()
WORDS = b"""grid limit depth source sink feed data misses show tile switch end live script history put at back regs mem wires waits
send input def out const halt nop j li .word lw sw addu beq move bnezd beqz b $0 $24 $25 $31 $32 r0 r3 r4 N E S W P 1:W>E 1:W>P 1:P>E
2:N>S 1:r0>E 3:W>E 1:E>P 4($0) -4($0) : a: # ,""".split()

# The greatest limit that an edited set may keep: what runs longer is tried by limits.py.
MOST_STEPS = 20_000


def edit_bytes(r, text):
    at = r.randrange(len(text) + 1)
    byte = bytes([r.choice((r.randrange(32, 127), r.randrange(32, 127), r.randrange(256), 10, 32))])
    way = r.randrange(4)
    if way == 0:
        return text[:at] + byte + text[at:]
    if way == 1:
        return text[:at] + text[at + r.choice((1, 1, 4, 40)) :]
    if way == 2:
        other = r.randrange(len(text) + 1)
        return text[:at] + text[other : other + 20] + text[at:]
    return text[:at] + byte + text[at + 1 :]


def edit_token(r, text):
    tokens = re.split(rb"([ \n]+)", text)
    at = 2 * r.randrange((len(tokens) + 1) // 2)
    way = r.randrange(5)
    if way == 0:
        tokens[at] = r.choice(NUMBERS)
    elif way == 1:
        tokens[at] = r.choice(WORDS)
    elif way == 2:
        tokens[at] = tokens[2 * r.randrange((len(tokens) + 1) // 2)]
    elif way == 3:
        tokens[at] += b" " + r.choice(NUMBERS)
    else:
        tokens[at] = b""
    return b"".join(tokens)


def edit_line(r, text):
    lines = text.split(b"\n")
    at, other = r.randrange(len(lines)), r.randrange(len(lines))
    way = r.randrange(4)
    if way == 0:
        del lines[at]
    elif way == 1:
        lines.insert(at, lines[other])
    elif way == 2:
        lines[at], lines[other] = lines[other], lines[at]
    else:
        lines[at] += lines[other]
    return b"\n".join(lines)


def edit_number(r, text):
    """Another number in place of one."""
    places = list(re.finditer(rb"\b\d+\b", text))
    if not places:
        return edit_bytes(r, text)
    place = r.choice(places)
    return text[: place.start()] + r.choice(NUMBERS) + text[place.end() :]


def edit_text(r, text):
    for _ in range(r.randint(1, 5)):
        text = r.choice((edit_bytes, edit_token, edit_line, edit_number))(r, text)
    return short_run(text)


def short_run(text):
    """The text with a limit that is soon reached."""

    def lower(match):
        return match[1] + match[2] if int(match[2]) <= MOST_STEPS or int(match[2]) > 10_000_000 else match[1] + b"300"

    return re.sub(rb"(?m)^([ \t,\r]*limit[ \t,\r]+)(\d+)", lower, text)


def fields(image):
    """The fields of an image, each by its place and its length, and those of its miss streams once more."""
    found = [(0, 4), (4, 4), (8, 1), (9, 1), (10, 1), (11, 1), (12, 4), (16, 4)]

    def take(size):
        at = sum(found[-1])
        found.append((at, size))
        return int.from_bytes(image[at : at + size], "big")

    def take_many(*sizes):
        for _ in range(take(4)):
            for size in sizes:
                take(size)

    # (Bytes 10 and 11 of version 1 are one field; as two it can be edited too.)
    misses = []
    for _ in range(int.from_bytes(image[16:20], "big")):
        is_source = take(1) == 0
        for size in (1, 1, 1, 1, 3):
            take(size)
        for _ in range(take(4) * is_source):
            take(4)
    for _ in range(image[8] * image[9]):
        take_many(4)
        take_many(8)
        take_many(4, 4)
        begin = len(found)
        if image[7] == 2:
            take_many(1)
        misses += found[begin:]
    take_many(4, 4, 4)
    return found, misses


def edit_field(r, image, places):
    at, size = r.choice(places)
    value = r.choice((0, 1, 2, 255, 2 ** (8 * size) - 1, 2 ** (8 * size - 1), r.getrandbits(8 * size)))
    now = int.from_bytes(image[at : at + size], "big")
    value = r.choice((value, now + 1, now - 1, now ^ (1 << r.randrange(8 * size))))
    return image[:at] + (value % 2 ** (8 * size)).to_bytes(size, "big") + image[at + size :]


def edit_image(r, image):
    places, _ = fields(image)
    for _ in range(r.randint(1, 5)):
        image = edit_field(r, image, places) if r.random() < 0.8 else edit_bytes(r, image)
    return short_image(image)


def short_image(image):
    limit = int.from_bytes(image[12:16], "big")
    if len(image) < 16 or not MOST_STEPS < limit <= 10_000_000:
        return image
    return image[:12] + (limit % 300 + 1).to_bytes(4, "big") + image[16:]


def first_version(image):
    """The image of version 1 of the set of an image of version 2, with depth 4 and no miss streams."""
    kept = bytearray(image)
    for at, size in reversed(fields(image)[1]):
        del kept[at : at + size]
    kept[4:8] = b"\0\0\0\1"
    kept[10:12] = b"\0\0"
    return bytes(kept)


def spliced(r, one, other):
    return short_run(one[: r.randrange(len(one) + 1)] + other[r.randrange(len(other) + 1) :])


def random_bytes(r):
    size = r.choice((0, 1, 4, 20, 100, 400))
    way = r.randrange(4)
    if way == 0:
        return r.getrandbits(8 * size).to_bytes(size, "big") if size else b""
    if way == 1:
        return b"RAWT\0\0\0" + r.choice((b"\1", b"\2")) + (r.getrandbits(8 * size).to_bytes(size, "big") if size else b"")
    if way == 2:
        return bytes(r.choice(b"gridlmt 0123456789\n#:>$-x,") for _ in range(size))
    return b" ".join(r.choice(WORDS + NUMBERS + [b"\n"] * 20) for _ in range(size // 4))
