#!/usr/bin/env python3
"""Tests of the workbench: python3 examples/kernels/test_workbench.py

They run ./rawgrid at the top of the repository, or the program of the environment variable RAWGRID.
"""
import glob
import os
import sys
import unittest

sys.dont_write_bytecode = True
HERE = os.path.dirname(os.path.realpath(__file__))
sys.path.insert(0, HERE)
import kernel
import workbench

PROGRAM = os.environ.get("RAWGRID", f"{HERE}/../../rawgrid")

STUCK = """\
outcome stuck
wait 0 wire 0 for 1
wait 1 wire 4 for 2
ends 2 spent
source 1 0 0 W spent sent 1
sink 2 0 0 E waits 5 got 2
word 00000007
word ffffffff
tile 0 0 waits 0 count 3 pc 2
regs 0 00000000 00000001 00000000 00000000 00000000 00000000 00000000 00000000
regs 8 00000000 00000000 00000000 00000000 00000000 00000000 00000000 00000000
regs 16 00000000 00000000 00000000 00000000 00000000 00000000 00000000 00000000
regs 24 00000000 00000000 00000000 00000000 00000000 00000000 00000000 0000001f
mem 0 0 0x00000040 00000003
mem 0 0 0x00000044 00000004
switch 0 0 trapped pc count 1 pc 1 regs 00000000 00000002 00000000 00000000
wire 0 00000003 00000004
stall 0 0 misses 6 turns 210
"""


def adder():
    """Two words from the west are added, and the sum goes out to the east."""
    program_set = workbench.ProgramSet(1, 1, limit=100, about="an adder")
    program_set.source(1, 0, 0, "W", [3, -1])
    program_set.sink(1, 0, 0, "E", room=1)
    program_set.tile(0, 0, """
        move $5, $24
        addu $24, $5, $24
        halt""")
    program_set.switch(0, 0, """
        1:W>P
        1:W>P
        halt 1:P>E""")
    return program_set


class Sets(unittest.TestCase):
    def test_lines_stand_in_the_order_that_a_set_needs(self):
        self.assertEqual(adder().text().splitlines()[:6], [
            "# an adder", "grid 1 1", "limit 100", "source 1 0 0 W", "sink 1 0 0 E 1", "feed 1 0 0 W 3 -1"])

    def test_layout_puts_labels_names_and_comments_in_columns(self):
        self.assertEqual(workbench.layout("loop: bne $1, $2, loop # again\nhalt\n\n# end\n1:P>E 2:W>P"), "\n".join([
            "loop:   bne   $1, $2, loop          # again",
            "        halt",
            "        # end",
            "        1:P>E 2:W>P"]))

    def test_long_data_go_on_where_they_ended(self):
        program_set = workbench.ProgramSet(1, 1, limit=9)
        program_set.data(0, 0, 64, range(20))
        lines = [line for line in program_set.text().splitlines() if line.startswith("data")]
        self.assertEqual([line.split()[:5] for line in lines],
                         [["data", "0", "0", "64", "0"], ["data", "0", "0", "128", "16"]])

    def test_numbers_of_a_place_stand_before_those_of_the_set(self):
        program_set = workbench.ProgramSet(2, 1, limit=9)
        program_set.define(first=7, step=2)
        program_set.all_tiles("li $5, {first} \n li $6, {step}", lambda x, y: {"first": 10 + x})
        self.assertEqual(workbench.run(program_set.text(), PROGRAM).tiles[1, 0].registers[5:7], [11, 2])

    def test_an_empty_program_is_no_section(self):
        program_set = workbench.ProgramSet(1, 1, limit=9)
        program_set.switch(0, 0, "  \n")
        self.assertNotIn("switch", program_set.text())


CLAIM = "grid 1 1\ninput x 0\ninput y 0\ndef s add y x\nout s\n"


class Reports(unittest.TestCase):
    def test_each_part_is_read(self):
        report = workbench.read_report(STUCK)
        self.assertEqual(report.outcome, "stuck")
        self.assertEqual(report.waits, [workbench.Wait(0, 0, 1), workbench.Wait(1, 4, 2)])
        self.assertEqual(report.end, (2, "spent"))
        self.assertEqual(report.sources, {(1, 0, 0, "W"): workbench.Source("spent", 1)})
        self.assertEqual(report.sinks, {(2, 0, 0, "E"): workbench.Sink("waits 5", [7, 0xFFFFFFFF])})
        tile = report.tiles[0, 0]
        self.assertEqual((tile.mark, tile.count, tile.pc), ("waits 0", 3, 2))
        self.assertEqual((tile.registers[1], tile.registers[31], len(tile.registers)), (1, 31, 32))
        self.assertEqual(report.words(0, 0, 0x40, 2), [3, 4])
        self.assertEqual(report.switches, {(0, 0): workbench.Processor("trapped pc", 1, 1, [0, 2, 0, 0])})
        self.assertEqual(report.wires, {0: [3, 4]})
        self.assertEqual(report.caches, {(0, 0): workbench.Cache(6, 210)})
        self.assertEqual(report.steps(), 4)

    def test_each_line_of_each_stored_report_is_read(self):
        for path in sorted(glob.glob(f"{HERE}/../*.report")):
            with open(path, encoding="ascii") as stored:
                text = stored.read()
            with self.subTest(path):
                report = workbench.read_report(text)
                self.assertEqual(len(report.tiles), len(report.caches))
                self.assertTrue(all(len(tile.registers) == 32 for tile in report.tiles.values()))

    def test_trapped_and_limit_name_a_processor(self):
        trapped = workbench.read_report("outcome trapped 5 past-memory\n")
        self.assertEqual((trapped.outcome, trapped.processor, trapped.cause), ("trapped", 5, "past-memory"))
        limit = workbench.read_report("outcome limit 3 count 100\n")
        self.assertEqual((limit.outcome, limit.processor), ("limit", 3))


class Runs(unittest.TestCase):
    def test_a_run_gives_the_words_of_a_sink(self):
        report = workbench.run(adder().text(), PROGRAM)
        self.assertEqual((report.outcome, report.sinks[1, 0, 0, "E"].words), ("done", [2]))

    def test_an_image_runs_as_its_text(self):
        image = workbench.call(["asm"], adder().text().encode("ascii"), PROGRAM)
        self.assertEqual(workbench.run(image, PROGRAM), workbench.run(adder().text(), PROGRAM, workers=2))

    def test_a_refusal_names_its_line(self):
        with self.assertRaises(workbench.Refused) as caught:
            workbench.run("grid 1 1\nlimit 9\ndepth 8\n", PROGRAM)
        self.assertEqual((caught.exception.line, caught.exception.kind), (3, "over-limit"))

    def test_a_refusal_of_an_image_names_its_offset(self):
        with self.assertRaises(workbench.Refused) as caught:
            workbench.run(b"RAWT\0\0\0\3", PROGRAM)
        self.assertEqual((caught.exception.offset, caught.exception.kind), (4, "bad-version"))


class Answers(unittest.TestCase):
    def test_a_claim_is_proved_with_its_line_and_without(self):
        for claim in (CLAIM, "# any two words\nclaim\n" + CLAIM):
            verdict = workbench.prove(adder().text(), claim, PROGRAM)
            self.assertEqual(verdict, workbench.Verdict(True, "proved 1 cycles 6"))

    def test_a_claim_that_is_not_proved_is_an_answer(self):
        verdict = workbench.prove(adder().text(), CLAIM.replace("add", "mul"), PROGRAM)
        self.assertFalse(verdict.is_proved)
        self.assertTrue(verdict.line)

    def test_words_that_refute_a_claim_are_told(self):
        verdict = workbench.prove(adder().text(), CLAIM.replace("add", "sub"), PROGRAM)
        self.assertEqual((verdict.is_refuted, verdict.line), (True, "refuted: out 0"))
        report = workbench.run(workbench.with_words(adder().text(), verdict.words), PROGRAM)
        self.assertEqual([[verdict.word]], [sink.words for sink in report.sinks.values()])
        self.assertNotEqual(verdict.word, verdict.claim)

    def test_a_history_that_is_not_lawful_is_an_answer(self):
        written = workbench.call(["check"], (adder().text() + "history\n0\n").encode("ascii"), PROGRAM)
        self.assertEqual(written, b"unlawful at 0: 0 waits wire 0 for 1\n")

    def test_depths_are_read_with_each_verdict(self):
        found = workbench.depths(adder().text(), PROGRAM)
        self.assertEqual((found.same_from, found.done_from, found.never_done_from), (1, 1, None))
        self.assertEqual((found.outcomes[7], found.steps[7]), ("done", 6))
        stopped = workbench.depths(adder().text().replace(" 3 -1", " 3"), PROGRAM)
        self.assertEqual((stopped.outcomes[1], stopped.done_from, stopped.never_done_from), ("stuck", None, None))
        with open(f"{HERE}/../deadlock-two-switches.set", encoding="ascii") as text:
            never = workbench.depths(text.read(), PROGRAM)
        self.assertEqual((never.done_from, never.never_done_from), (None, 1))
        self.assertEqual(never.waits, [workbench.Wait(2, 9, 3), workbench.Wait(3, 8, 2)])

    def test_names_say_what_numbers_stand_for(self):
        found = workbench.names(adder().text(), PROGRAM)
        self.assertEqual(found.processors, {
            0: "tile 0 0", 1: "switch 0 0", 2: "source 1 0 0 W", 3: "sink 1 0 0 E"})
        self.assertEqual(found.wires[2], workbench.Wire(1, "tile 0 0", "switch 0 0 P"))
        self.assertEqual(found.wires[4], workbench.Wire(1, "source 1 0 0 W", "switch 0 0 W"))

    def test_a_trace_is_read_cycle_by_cycle(self):
        found = workbench.trace(adder().text(), 1, 2, PROGRAM)
        self.assertEqual((found.first, sorted(found.turns)), (1, [1, 2]))
        self.assertEqual(found.listing.splitlines()[0], "grid 1 1")
        self.assertEqual(found.state[2], ["0", "#1", "+4=3"])
        self.assertEqual(found.turns[1][1], ["1", "-4", "+0=3"])
        self.assertEqual(found.counts, workbench.cycles(adder().text(), PROGRAM))

    def test_other_words_take_the_place_of_those_of_a_source(self):
        text = workbench.with_words(adder().text(), {(1, 0, 0, "W"): [40, -2]})
        self.assertEqual(workbench.run(text, PROGRAM).sinks[1, 0, 0, "E"].words, [38])
        self.assertEqual(text.count("feed"), 1)
        with self.assertRaises(KeyError):
            workbench.with_words(adder().text(), {(2, 0, 0, "W"): [1]})

    def test_sources_that_are_not_named_keep_their_words(self):
        self.assertEqual(workbench.with_words(adder().text(), {}), adder().text())


COUNTED = """\
outcome stuck
wait 1 wire 4 for 3
ends 3 halted
cycles 5 steps 8
tile 0 0 fired 2 stalled 1 starved 0 blocked 0 stopped 2
tile 1 0 fired 2 stalled 0 starved 3 blocked 0 stopped 0
switch 0 0 fired 2 starved 1 blocked 0 stopped 2
switch 1 0 fired 2 starved 2 blocked 0 stopped 1
source 1 0 0 W fired 3 blocked 1 stopped 1
sink 2 1 0 E fired 1 starved 4 stopped 0
wait 1 wire 4 for 3 cycles 3
wait 2 wire 2 for 0 cycles 1
passed 2 1
passed 8 17
"""


class Clock(unittest.TestCase):
    def test_each_count_is_read(self):
        counted = workbench.read_cycles(COUNTED)
        self.assertEqual((counted.outcome, counted.cycles, counted.steps), ("stuck", 5, 8))
        self.assertEqual(counted.tiles[0, 0], workbench.Spent(fired=2, stalled=1, stopped=2))
        self.assertEqual(counted.switches[1, 0], workbench.Spent(fired=2, starved=2, stopped=1))
        self.assertEqual(counted.sources, {(1, 0, 0, "W"): workbench.Spent(fired=3, blocked=1, stopped=1)})
        self.assertEqual(counted.sinks, {(2, 1, 0, "E"): workbench.Spent(fired=1, starved=4)})
        self.assertEqual(counted.waited, {(1, 4): 3, (2, 2): 1})
        self.assertEqual(counted.passed, {2: 1, 8: 17})

    def test_a_run_and_its_cycles_have_the_same_steps(self):
        counted, report = workbench.cycles(adder().text(), PROGRAM), workbench.run(adder().text(), PROGRAM)
        self.assertEqual(counted.steps, report.steps())
        self.assertEqual({place: spent.fired for place, spent in counted.tiles.items()},
                         {place: tile.count for place, tile in report.tiles.items()})


class Placements(unittest.TestCase):
    def test_each_place_has_one_tile(self):
        for order in kernel.Placement.ORDERS:
            placed = kernel.Placement(8, order)
            self.assertEqual(len({placed.place(tile) for tile in range(64)}), 64)

    def test_rows_is_the_order_of_tiles(self):
        self.assertEqual(kernel.Placement(4).place(6), (2, 1))

    def test_partners_of_an_exchange_lie_on_one_line(self):
        for order in kernel.Placement.ORDERS:
            placed = kernel.Placement(8, order)
            for bit in (1, 2, 4, 8, 16, 32):
                (x, y), (other_x, other_y) = placed.place(0), placed.place(bit)
                self.assertTrue(x == other_x or y == other_y)


if __name__ == "__main__":
    unittest.main()
