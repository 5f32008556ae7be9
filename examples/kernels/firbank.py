#!/usr/bin/env python3
"""firbank: a bank of FIR filters over one stream; their rounded outputs are added up on the way to the sink."""
import kernel
from kernel import lines, loop, routes

ABOUT = """
firbank: {filters} FIR filters of {taps} taps over {samples} samples, on {side} by {side} tiles

A sample comes in from the west and goes along a snake through all tiles, on network 1: each switch gives it to
its tile and sends it on at once. Each tile has {share} of the filters; each filter's output is shifted right by 8.
The sum over all filters grows on network 2 along the same snake, and goes out at its end: a sum for each sample.
"""


def filtered(coefficients, samples):
    """The outputs of one filter, by the definition, each shifted right by 8."""
    return [sum(weight * samples[i - t] for t, weight in enumerate(coefficients) if t <= i) >> 8
            for i in range(len(samples))]


def one_filter(taps):
    """The output of the filter at $1 for the newest sample, at $2, into $5."""
    first = """
        lw   $8, 0($1)
        lw   $9, 0($2)
        mul  $5, $8, $9"""
    return lines(first, [f"""
        lw   $8, {4 * t}($1)
        lw   $9, {-4 * t}($2)
        mul  $8, $8, $9
        addu $5, $5, $8""" for t in range(1, taps)])


def tile_program(is_first, share, taps, samples):
    """The filters stand from address 0 on, behind them zeros and then the samples as they come."""
    newest = 4 * taps * share + 4 * taps - 4
    return lines(
        f"""
        li   $24, {samples - 1}         # for the switch: samples less 1
        li   $2, {newest}               # where the next sample goes, behind {taps - 1} zeros
        li   $3, {samples}
        sample: sw $24, 0($2)
        li   $1, 0
        li   $4, 0                      # the sum of my filters""",
        f"""
        li   $6, {4 * taps * share}
        filter:""" if share > 1 else "",
        one_filter(taps),
        """
        sra  $5, $5, 8
        addu $4, $4, $5""",
        f"""
        addiu $1, $1, {4 * taps}
        bne  $1, $6, filter""" if share > 1 else "",
        "move $25, $4" if is_first else "addu $25, $4, $25        # and of those before",
        """
        addiu $2, $2, 4
        addiu $3, $3, -1
        bne  $3, $0, sample
        halt""")


def switch_program(come, go, is_first, is_last):
    return lines(
        "move r0, 1:P",
        loop("sample",
             routes(f"1:{come}>P", not is_last and f"1:{come}>{go}"),
             not is_first and f"2:{come}>P",
             f"2:P>{go}"),
        "halt")


def claimed(bank, taps, samples, end):
    """What the sink gets of a row, which is one sample: the sum over all filters, by the definition."""
    def one(f):
        return lines(
            [f"def p{f}_{t} mul c{bank[f][t] % 256} x{t}" for t in range(taps)],
            sums(f"s{f}_", [f"p{f}_{t}" for t in range(taps)]),
            f"def y{f} sra s{f}_{taps - 1} shift")

    def sums(name, parts):
        return [f"def {name}{k} add {f'{name}{k - 1}' if k > 1 else parts[0]} {parts[k]}" for k in range(1, len(parts))]

    filters = len(bank)
    weights = sorted({weight for coefficients in bank for weight in coefficients})
    return lines(
        f"rows {samples}",
        "input x0",
        [f"def x{t} pre x{t - 1} 0" for t in range(1, taps)],
        [f"def c{weight % 256} const {weight}" for weight in weights],
        "def shift const 8",
        [one(f) for f in range(filters)],
        sums("z", [f"y{f}" for f in range(filters)]),
        f"out z{filters - 1} {end}")


def build(side, random, small):
    filters, taps, samples = (4, 4, 6) if small else (64, 16, 256)
    tiles = side * side
    if filters % tiles:
        raise kernel.DoesNotFit
    share = filters // tiles
    bank = [[random.randrange(-128, 128) for _ in range(taps)] for _ in range(filters)]
    stream = [random.randrange(-2048, 2048) for _ in range(samples)]
    sums = [sum(outputs) for outputs in zip(*[filtered(coefficients, stream) for coefficients in bank])]
    program_set = kernel.KernelSet(side, ABOUT.format(
        filters=filters, taps=taps, samples=samples, side=side, share=share))
    places = kernel.snake(side)
    program_set.source(1, 0, 0, "W", stream)
    program_set.expect_sink(2, *places[-1], kernel.snake_end(side), sums)
    end = f"2 {places[-1][0]} {places[-1][1]} {kernel.snake_end(side)}"
    program_set.claim_lines(claimed(bank, taps, samples, end))
    for tile, (x, y) in enumerate(places):
        mine = bank[tile * share:(tile + 1) * share]
        program_set.data(x, y, 0, [weight for coefficients in mine for weight in coefficients])
        program_set.tile(x, y, tile_program(tile == 0, share, taps, samples))
        come, go = kernel.snake_sides(side, tile)
        program_set.switch(x, y, switch_program(come, go, tile == 0, tile == tiles - 1))
    return program_set


if __name__ == "__main__":
    kernel.main(build)
