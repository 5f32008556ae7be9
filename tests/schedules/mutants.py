"""Small changes of the programs in the listing of a set."""

TILE_OPERATIONS = ["addu", "subu", "and", "or", "xor", "nor", "slt", "sltu", "mul", "mulhi", "mulhu", "sllv", "srlv", "srav"]


def code_lines(lines):
    """The places of lines that are instructions."""
    places, inside = [], False
    for k, line in enumerate(lines):
        word = line.split()[0]
        if word in ("tile", "switch"):
            inside = True
        elif word == "end":
            inside = False
        elif inside and word != "halt":
            places.append(k)
    return places


def with_register(line, chance):
    """The line with one of its registers another one."""
    fields = line.replace(",", " , ").split(" ")
    places = [k for k, field in enumerate(fields) if field.startswith("$")]
    if not places:
        return None
    fields[chance.choice(places)] = f"${chance.choice([chance.randrange(32), 24, 25])}"
    return " ".join(fields).replace(" , ", ", ")


def with_operation(line, chance):
    """The line with another operation on the same operands."""
    word, _, rest = line.partition(" ")
    return f"{chance.choice(TILE_OPERATIONS)} {rest}" if word in TILE_OPERATIONS else None


def with_number(line, chance):
    """The line with its last number another one."""
    head, _, last = line.rpartition(" ")
    try:
        return f"{head} {int(last, 0) + chance.choice([-1, 1, 4, 32])}"
    except ValueError:
        return None


def with_route(line, chance):
    """The line of a switch with an end of a route another one, or with a route less."""
    fields = line.split()
    places = [k for k, field in enumerate(fields) if ">" in field]
    if not places:
        return None
    k = chance.choice(places)
    if chance.randrange(3) == 0:
        del fields[k]
    else:
        network, _, route = fields[k].partition(":")
        ends = route.split(">")
        ends[chance.randrange(2)] = chance.choice("NESWP")
        fields[k] = f"{network}:{'>'.join(ends)}"
    return " ".join(fields)


def mutant(text, chance):
    """The listing with one small change of its programs; None where the change cannot be made."""
    lines = text.splitlines()
    places = code_lines(lines)
    if not places:
        return None
    k, kind = chance.choice(places), chance.randrange(7)
    if kind == 0:
        del lines[k]
    elif kind == 1:
        lines.insert(k, lines[k])
    elif kind == 2 and k + 1 in places:
        lines[k], lines[k + 1] = lines[k + 1], lines[k]
    else:
        line = [with_register, with_operation, with_number, with_route][kind - 3 if kind > 2 else 0](lines[k], chance)
        if line is None:
            return None
        lines[k] = line
    made = "\n".join(lines) + "\n"
    return made if made != text else None
