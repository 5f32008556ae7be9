"""Memory that is not there: each request is refused in its turn, each with all behind it, and address space is limited."""
from program import ALL, MEMORY, told
from rows import Row

# How many limits on address space are tried.
SIZES = 50


def is_right(row, run):
    """Whether the run did all, or said that there was no memory."""
    return row.is_whole(run) or (run.status == 9 and run.err == b"no memory\n" and row.is_early(run.out))


def requests_fail(tools, tally, case, words, stride=1):
    """The N-th request for memory is refused, and then each from the N-th on, for every N, or each `stride`-th."""
    row = Row(tools, case, words)
    for count, kind in ((1, "refused requests"), (ALL, "requests of which all are refused from one on")):
        tried = whole = 0
        for first in range(0, 10_000_000, stride):
            run = row.run(fails=(MEMORY, first, count))
            if not run.failed[MEMORY]:
                tally.expect(row.is_whole(run), f"{row.name}: other output with all memory", row.input)
                break
            tally.count(kind)
            tried += 1
            whole += row.is_whole(run)
            what = f"{row.name}: request {first} of memory was refused: {told(run.status)} {run.err}, {len(run.out)} bytes"
            tally.expect(is_right(row, run), what, row.input)
        tally.note(f"{row.name}: {tried} {kind}, {whole} with the whole output")
        if count == 1 and "--workers" in row.words and not row.is_live:
            # A fabric that finds no memory gives way to serial turns.
            tally.expect(whole > 0, f"{row.name}: no run without a fabric was whole", row.input)


def space_is_short(tools, tally, case, words):
    """The limit on address space goes up in equal steps from what the program has when it begins to what it needs."""
    row = Row(tools, case, words)
    least = row.program.size()
    most = least
    while not row.is_whole(row.run(space=most)):
        most += max(65_536, (most - least) // 4)
    whole = 0
    for step in range(SIZES):
        run = row.run(space=least + (most - least) * step // SIZES)
        tally.count("limits on address space")
        whole += row.is_whole(run)
        what = f"{row.name}: {step} of {SIZES} parts of {most - least} bytes of space: {told(run.status)} {run.err}"
        tally.expect(is_right(row, run), what, row.input)
    tally.note(f"{row.name}: {most - least} bytes of further space are enough; {whole} of {SIZES} smaller ones were")
