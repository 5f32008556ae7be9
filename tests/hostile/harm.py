"""Bytes that mean harm: inputs of each kind that are valid, edited, spliced, random, or as long as fits, and what the programs
have to do with each, whatever it is.

Inputs are made in parts of 1,000, each from a seed of its own, which names the part. Of each run is looked at whether it ended
within its time, with a status that the table in docs/FORMATS.md has for the command, and wrote either one line on standard error
or its whole output. A valid input also goes from text to image and back, is run by several numbers of workers, and its history
is checked. No emulator stands here: outputs of the programs are compared with each other."""
import random
import re

import edits
import inputs
from program import told

OUTCOMES = {b"done": 0, b"deadlock": 3, b"stuck": 4, b"trapped": 5, b"limit": 6}
SET_KINDS = """not-ascii line-too-long missing bad-line bad-size off-grid port-off-edge double-port undeclared-edge repeated
over-limit double-label unknown-name bad-operand range-of no-label bad-word bad-route two-sources two-registers too-long"""
KINDS = {
    "set": SET_KINDS,
    "history": SET_KINDS + " bad-entry",
    "script": SET_KINDS + " bad-command past-end",
    "plan": "not-ascii line-too-long missing bad-line bad-size off-grid repeated over-limit",
    "flow": "not-ascii line-too-long missing bad-line bad-size repeated unknown-name over-limit",
    "claim": SET_KINDS,
    "live": SET_KINDS,
}
KINDS = {name: set(kinds.encode().split()) for name, kinds in KINDS.items()}
IMAGE_KINDS = set(b"bad-magic bad-version short bad-field extra".split())
SECONDS = 60
UNPROVED = re.compile(
    rb"unproved( at \d+: \d+ hangs on an input|: inputs \d+ for \d+|: out \d+|: too many terms)\n"
)
REFUTED = re.compile(
    rb"refuted: (outcome (deadlock|stuck|trapped|limit)|words \d+ for \d+|out \d+)\n(feed [12] \d \d [NESW]( 0x[0-9a-f]{8}){1,8}\n)*"
    rb"(word [0-9a-f]{8}\nclaim [0-9a-f]{8}\n)?"
)


class Looks:
    """What is looked at in each run of a part."""

    def __init__(self, tools, tally, r):
        self.tools, self.tally, self.r = tools, tally, r

    def run(self, words, data, live=False):
        program = self.tools.rawlive if live else self.tools.rawgrid
        many = "--workers" in words or b"--workers" in words
        self.tally.count("runs")
        return program.run(words, data, seconds=SECONDS, cores=self.tools.cores if many else ())

    def expect(self, right, what, run, data):
        if not right:
            self.tally.expect(right, f"{what}: {told(run.status)} {run.err[:100]} {run.out[:100]}", data)

    def is_refused(self, what, run, data, kinds, out=False):
        """Whether the run was refused. If it was, then by one line, of a line that is there or the next one, and with nothing on
        `out`, unless there may be something."""
        if run.status != 2:
            return False
        match = re.fullmatch(rb"refused line (\d+): ([a-z-]+)\n", run.err)
        lines = data.count(b"\n") + (not data.endswith(b"\n"))
        right = match and 1 <= int(match[1]) <= lines + 1 and match[2] in kinds and (out or not run.out)
        self.expect(right, f"{what} is refused in another way", run, data)
        return True

    def is_image_refused(self, what, run, data):
        if run.status != 2:
            return False
        match = re.fullmatch(rb"refused image at (\d+): ([a-z-]+)\n", run.err)
        right = match and int(match[1]) <= len(data) and match[2] in IMAGE_KINDS and not run.out
        self.expect(right, f"{what} is refused in another way", run, data)
        return True

    def report(self, what, run, data):
        """A whole report, with the status of its outcome. Gives the number of its steps."""
        outcome = run.out[: run.out.find(b"\n")].split()[1:2]
        tiles, switches, stalls = (len(re.findall(rb"^%s " % it, run.out, re.M)) for it in (b"tile", b"switch", b"stall"))
        last = run.out[run.out.rfind(b"\n", 0, -1) + 1 :]
        right = (
            outcome
            and run.status == OUTCOMES.get(outcome[0])
            and not run.err
            and tiles == switches == stalls > 0
            and re.fullmatch(rb"stall \d+ \d+ misses \d+ turns \d+\n", last)
        )
        self.expect(right, f"{what} has no whole report", run, data)
        counts = re.findall(rb"^(?:tile|switch) .* count (\d+)|^(?:source|sink) .* (?:sent|got) (\d+)", run.out, re.M)
        return sum(int(count or sent) for count, sent in counts)

    def set_or_image(self, is_image, data, valid):
        """A text or an image of a set: `run`, and if it is taken, all other commands that it fits."""
        what = "an image" if is_image else "a set"
        option = ["--image"] if is_image else []
        run = self.run(["run", *option], data)
        if is_image:
            refused = self.is_image_refused(what, run, data)
        else:
            refused = self.is_refused(what, run, data, KINDS["set"])
        other = "list" if is_image else "asm"
        if refused:
            self.expect(not valid, f"{what} that is valid", run, data)
            if self.r.random() < 0.1:
                again = self.run([other], data)
                self.expect(again[:3] == run[:3], f"{other} of {what} that is refused", again, data)
            return
        steps = self.report(what, run, data)
        self.tally.count(f"{what} taken")
        if self.r.random() < (0.3 if valid else 0.05):
            self.there_and_back(is_image, data)
        if self.r.random() < (0.3 if valid else 0.05):
            self.workers(option, data, run)
        if self.r.random() < (0.3 if valid else 0.05):
            self.history(option, data, run, steps)
        if self.r.random() < 0.05:
            drawn = self.run(["picture", *option], data)
            whole = drawn.out.startswith(b"<svg ") and drawn.out.endswith(b"</svg>\n") and not drawn.err
            self.expect(whole and drawn.status == run.status, f"picture of {what}", drawn, data)

        if self.r.random() < 0.05:
            counted = self.run(["cycles", *option], data)
            whole = counted.out.split(b"\n")[0] == run.out.split(b"\n")[0] and b"\ncycles " in counted.out and not counted.err
            self.expect(whole and counted.status == run.status, f"cycles of {what}", counted, data)
            lost = self.run(["cycles", "--lost", *option], data)
            others = b"".join(line for line in lost.out.splitlines(True) if not line.startswith(b"lost "))
            self.expect(others == counted.out and not lost.err, f"cycles --lost of {what}", lost, data)
            self.traced(what, option, data, counted)

    def traced(self, what, option, data, counted):
        """What is told cycle by cycle ends with what is counted of all cycles; the page has the same
        lines, as text in a script element of their own."""
        first = str(self.r.randint(0, 9))
        trace = self.run(["trace", *option, "--from", first, "--cycles", "20"], data)
        whole = trace.out.endswith(b"counts\n" + counted.out) and not trace.err
        self.expect(whole and trace.status == counted.status, f"trace of {what}", trace, data)
        page = self.run(["explore", "--cycles", "20", "--from", first, *option], data)
        text = b'\n<script type="text/plain" id="trace">\n' + trace.out + b"</script>\n"
        whole = page.out.startswith(b"<!DOCTYPE html>\n") and page.out.endswith(b"</html>\n") and not page.err
        shown = whole and page.out.count(text) == 1
        self.expect(shown and page.status == counted.status, f"explore of {what}", page, data)

    def there_and_back(self, is_image, data):
        """What is listed and read again is the same image, and its listing the same text."""
        image = data
        if not is_image:
            made = self.run(["asm"], data)
            self.expect(made.status == 0 and not made.err, "asm of a set that runs", made, data)
            image = made.out
        listing = self.run(["list"], image)
        self.expect(listing.status == 0 and not listing.err, "list of an image that is right", listing, data)
        again = self.run(["asm"], listing.out)
        if image[4:8] == b"\0\0\0\1":
            same = edits.first_version(again.out) == image
        else:
            same = again.out == image
        self.expect(again.status == 0 and same, "an image that is listed and read again", again, data)
        self.tally.count("sets there and back")

    def workers(self, option, data, run):
        """The report of 4 workers is that of one, and each tenth time that of 16, which take longer."""
        for count in ("4", "16") if self.r.random() < 0.1 else ("4",):
            other = self.run(["run", *option, "--workers", count], data)
            self.expect(other[:3] == run[:3], f"the report of {count} workers", other, data)
            self.tally.count(f"sets by 1 and {count} workers")

    def history(self, option, data, run, steps):
        """The history is lawful, and as long as the report says."""
        many = ["--workers", self.r.choice("1234")] if self.r.random() < 0.5 else []
        made = self.run(["history", *option, *many], data)
        self.expect(made.status == run.status and not made.err, "history of a set that runs", made, data)
        checked = self.run(["check"], made.out)
        self.expect(checked[:3] == (0, b"lawful %d\n" % steps, b""), f"check of a history of {steps} steps", checked, made.out)
        self.tally.count("histories")

    def set(self, data, valid):
        self.set_or_image(False, data, valid)

    def image(self, data, valid):
        self.set_or_image(True, data, valid)

    def check(self, data, valid):
        run = self.run(["check"], data)
        if self.is_refused("a history", run, data, KINDS["history"]):
            return self.expect(not valid, "a history that is valid", run, data)
        if run.status == 11:
            right = re.fullmatch(rb"unlawful at \d+: \d+ (waits wire \d+ for \d+|stopped)\n", run.out)
        else:
            right = run.status == 0 and re.fullmatch(rb"lawful \d+\n", run.out)
        self.expect(right and not run.err and not (valid and run.status), "a history", run, data)
        self.tally.count("a history taken")

    def script(self, data, valid):
        run = self.run(["debug"], data)
        if run.status == 2 and run.err.endswith(b": past-end\n"):
            self.is_refused("a script", run, data, KINDS["script"], out=True)
        elif self.is_refused("a script", run, data, KINDS["script"]):
            self.expect(not valid, "a script that is valid", run, data)
        else:
            self.expect(run.status == 0 and not run.err and (not run.out or run.out.endswith(b"\n")), "a script", run, data)
            self.tally.count("a script taken")

    def made(self, command, data, valid):
        """A plan or a flow: the set that is made of it runs to its end, since each word comes and each value is made."""
        run = self.run([command], data)
        if self.is_refused(f"a {command}", run, data, KINDS[command]):
            return self.expect(not valid, f"a {command} that is valid", run, data)
        self.expect(run.status == 0 and not run.err, f"a {command}", run, data)
        self.tally.count(f"a {command} taken")
        if valid or self.r.random() < 0.2:
            report = self.run(["run"], run.out)
            self.report(f"the set of a {command}", report, data)
            self.expect(report.status == 0, f"the set of a {command} is not done", report, data)

    def plan(self, data, valid):
        self.made("plan", data, valid)

    def flow(self, data, valid):
        self.made("flow", data, valid)
        # (a search and a proof take as long as many other runs)
        if self.r.random() < 0.1:
            self.schedule(data)

    def schedule(self, data):
        """A flow: the set that is scheduled for it is proved of it, and it is refused where the flow is."""
        plain, run = self.run(["flow"], data), self.run(["flow", "--schedule"], data)
        self.expect((run.status, run.err) == (plain.status, plain.err), "a flow that is scheduled", run, data)
        if run.status == 0:
            proved = self.run(["prove"], run.out + b"claim\n" + data)
            self.expect(proved.status == 0 and not proved.err, "the schedule of a flow", proved, data)
            self.tally.count("a schedule proved")

    def claim(self, data, valid):
        """A set with a claim. What is valid as it is made is a flow as the claim of its own set, which is proved."""
        run = self.run(["prove"], data)
        if self.is_refused("a claim", run, data, KINDS["claim"]):
            return self.expect(not valid, "a claim that is valid", run, data)
        due = {0: re.compile(rb"proved \d+( cycles \d+)?\n"), 12: UNPROVED, 13: REFUTED}.get(run.status)
        right = due and due.fullmatch(run.out)
        self.expect(right and not run.err and not (valid and run.status), "a claim", run, data)
        self.tally.count("a claim taken")
        if run.status == 13:
            self.refuted(data, run)

    def refuted(self, data, run):
        """The words of a refutation, as those of the set, refute the claim alike."""
        first = lambda line: line.replace(b",", b" ").split()[:1]
        lines = [line for line in data.split(b"\n") if first(line) != [b"feed"]]
        ports = [k for k, line in enumerate(lines) if first(line) in ([b"source"], [b"sink"])]
        feeds = [line for line in run.out.split(b"\n") if line.startswith(b"feed ")]
        behind = ports[-1] + 1 if ports else 0
        again = self.run(["prove"], b"\n".join(lines[:behind] + feeds + lines[behind:]))
        self.expect((again.status, again.out) == (13, run.out), "the words of a refutation", again, data)
        self.tally.count("a claim refuted")

    def live(self, data, valid):
        run = self.run(["--workers", self.r.choice("1234")] if self.r.random() < 0.2 else [], data, live=True)
        gots = run.out.split(b"\n")[:-1]
        if run.status == 2:
            self.is_refused("live input", run, data, KINDS["live"], out=True)
            right = run.out[-1:] in (b"", b"\n") and all(re.fullmatch(rb"got \d+ [0-9a-f]{8}", it) for it in gots)
            self.expect(right, "live input that is refused", run, data)
            return self.expect(not valid, "live input that is valid", run, data)
        last = gots.pop() if gots else b""
        outcome = last[len(b"rest ") :]
        right = last.startswith(b"rest ") and run.status == OUTCOMES.get(outcome) and not run.err
        self.expect(right, "live input", run, data)
        self.tally.count("live input taken")
        self.fed(data, run, gots, outcome)

    def fed(self, data, run, gots, outcome):
        """What came out is what the sinks have where the same words are fed by the text of a set."""
        report = self.run(["run"], as_fed(data))
        taken, port = {}, None
        ports = 2 * len(re.findall(rb"^tile ", report.out, re.M)) - 1
        for line in report.out.split(b"\n"):
            if line.startswith((b"source ", b"sink ")):
                ports += 1
                port = b"got %d " % ports
            elif line.startswith(b"word "):
                taken.setdefault(port, []).append(port + line[len(b"word ") :])
        came = {}
        for line in gots:
            came.setdefault(line[: line.rfind(b" ") + 1], []).append(line)
        right = came == taken and report.out.startswith(b"outcome " + outcome) and report.status == run.status
        self.expect(right, "live input beside the set that is fed so", run, data)

    def words(self, data, valid):
        """Words by themselves, with a small set as input. Those without a command are words of rawlive."""
        words = [word for word in data.split(b"\0") if word]
        live = not words or words[0] == b"--workers" or (not valid and self.r.random() < 0.3)
        run = self.run(words, b"grid 1 1\nlimit 3\ntile 0 0\nhalt\nend\n" + b"live\n" * live, live=live)
        if run.err == b"refused use\n":
            self.expect(run.status == 2 and not run.out and not valid, "words", run, data)
        else:
            right = run.status in (0, 2, 3, 4, 5, 6) and bool(run.out) != bool(run.err) and run.err.count(b"\n") < 2
            self.expect(right, "words", run, data)
            self.tally.count("words taken")


def as_fed(data):
    """The set of live input that was taken, with `feed` lines for its `put` lines."""
    lines = data.split(b"\n")
    mark = next(i for i, line in enumerate(lines) if tokens(line) == [b"live"])
    # (Without zeros in front of a number, since `feed` is longer than `put`, and a line has a greatest length.)
    puts = [[re.sub(rb"^(-?)0+(?=\d)", rb"\1", it) for it in tokens(line)] for line in lines[mark + 1 :]]
    return b"\n".join(lines[:mark] + [b" ".join([b"feed", *put[1:]]) for put in puts if put]) + b"\n"


def tokens(line):
    return line.split(b"#")[0].replace(b",", b" ").split()


def as_words(r):
    return b"\0".join(word.encode() for word in inputs.words(r))


def edit_words(r, data):
    for _ in range(r.randint(1, 3)):
        words = data.split(b"\0")
        at = r.randrange(len(words))
        way = r.randrange(5)
        if way == 0:
            words[at] = edits.edit_bytes(r, words[at])
        elif way == 1:
            words.insert(at, r.choice(words + [b"--workers", b"--image", b"--help", b"run", b"\xff", b"x" * r.choice((10, 100_000))]))
        elif way == 2:
            del words[at]
        elif way == 3:
            words[at] = r.choice(edits.NUMBERS)
        else:
            r.shuffle(words)
        data = b"\0".join(words) or b"run"
    return re.sub(rb"(?<=[0-9])[0-9]{2,}", b"0", data)


def bases(looks, kind, count):
    """So many valid inputs of a kind."""
    r = looks.r
    makers = {"script": inputs.a_script, "plan": inputs.a_plan, "flow": inputs.a_flow, "live": inputs.a_live, "words": as_words}
    for _ in range(count):
        if kind in makers:
            yield makers[kind](r)
            continue
        if kind == "claim":
            flow = inputs.a_flow(r)
            yield looks.run(["flow"], flow).out + b"claim\n" + flow
            continue
        text = inputs.a_set(r)
        if kind == "set":
            yield text
        elif kind == "image":
            image = looks.run(["asm"], text).out
            is_first = image[10:11] == b"\4" and b"misses" not in text and r.random() < 0.5
            yield edits.first_version(image) if is_first else image
        else:
            yield looks.run(["history"], text).out


def variants(looks, kind, valid, count):
    """So many inputs that come from valid ones, most of which are valid no more."""
    r = looks.r
    edit = {"image": edits.edit_image, "words": edit_words}.get(kind, edits.edit_text)
    for _ in range(count):
        way = r.random()
        if way < 0.7:
            yield edit(r, r.choice(valid))
        elif way < 0.82:
            yield edits.spliced(r, r.choice(valid), r.choice(valid))
        elif way < 0.9:
            yield edits.random_bytes(r)
        else:
            yield inputs.longest_lines(r)


PART = 1_000
SHARES = {"set": 26, "image": 15, "history": 10, "script": 12, "plan": 6, "flow": 8, "claim": 8, "live": 10, "words": 5}


def part(tools, tally, seed, kind, number):
    """A part of the inputs of a kind: a tenth is valid as it is made."""
    r = random.Random(f"{seed} {kind} {number}")
    looks = Looks(tools, tally, r)
    look = {"history": looks.check}.get(kind) or getattr(looks, kind)
    valid = list(bases(looks, kind, PART // 10))
    for data in valid:
        look(data, True)
    for data in variants(looks, kind, valid, PART - len(valid)):
        look(data, False)
    tally.count(f"inputs: {kind}", PART)
