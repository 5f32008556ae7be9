"""Puts the turns of a whole run into a trace of a part of it, as docs/FORMATS.md has them: lines `whole N` to `sent`."""


def times(count):
    return f"*{count}" if count > 1 else ""


def turns_of(lines):
    """Returns for each processor its turns, each with how many follow one another, and for each wire when values were sent."""
    now, since, turns, sent, k = {}, {}, {}, {}, -1
    for words in map(str.split, lines):
        if words[0] == "cycle":
            k = int(words[1])
            continue
        p, kind = int(words[0]), "f" if words[1].isdigit() else " ".join(words[1:])
        for it in words[2:] if kind == "f" else []:
            if it[0] == "+":
                sent.setdefault(int(it[1:].partition("=")[0]), []).append(k)
        if now.get(p) == kind:
            continue
        if p in now:
            turns.setdefault(p, []).append(now[p] + times(k - since[p]))
        now[p], since[p] = kind, k
    for p, kind in now.items():
        turns.setdefault(p, []).append(kind if kind[0] == "x" else kind + times(k + 1 - since[p]))
    return k, turns, sent


def gaps_of(cycles):
    """Returns how far each of these cycles is behind the one before, the first one behind cycle 0; equal ones together."""
    gaps = [b - a for a, b in zip([0, *cycles], cycles)]
    words, i = [], 0
    while i < len(gaps):
        end = next((j for j in range(i, len(gaps)) if gaps[j] != gaps[i]), len(gaps))
        words.append(f"{gaps[i]}{times(end - i)}")
        i = end
    return words


def with_whole(part, whole):
    """Returns the trace of a part with the turns of the whole run, of which the other trace has all cycles."""
    lines = whole.split("\n")
    last, turns, sent = turns_of(lines[lines.index("cycle 0") : lines.index("counts")])
    added = [f"whole {last}", *(f"{p} {' '.join(turns[p])}" for p in sorted(turns)), *(f"sent {w} {' '.join(gaps_of(sent[w]))}" for w in sorted(sent))]
    listing, _, rest = part.partition("\ntrace ")
    return "\n".join([listing, *added, f"trace {rest}"])
