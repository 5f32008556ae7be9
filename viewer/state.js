"use strict";
// What holds at the beginning of a cycle k, and what is done in it, in numbers and in words.

const TRACE = document.getElementById("trace").textContent, PLACE = endOfListing(TRACE);
const SET = readSet(TRACE.slice(0, PLACE).trim().split("\n")), WIRES = wiresOf(SET), RUN = readTrace(TRACE, PLACE, SET, WIRES), OUTCOME = readOutcome(RUN);
const CLOSED = closedIn(RUN, OUTCOME), SUMS = sumTurns(RUN, SET.processors);
const INPUTS = listOf(SET.processors, () => []), OUTPUTS = listOf(SET.processors, () => []);
WIRES.forEach((wire, w) => {
  OUTPUTS[wire.from].push(w);
  INPUTS[wire.to].push(w);
});

// ---- processors

const isTile = (p) => p < SET.tiles;
const isPort = (p) => p >= 2 * SET.tiles;
const portOf = (p) => SET.ports[p - 2 * SET.tiles];
const isSource = (p) => isPort(p) && portOf(p).kind === "source";
const programOf = (p) => SET.programs[p] || [];
const placeOf = (t) => t % SET.columns + " " + Math.floor(t / SET.columns);
const otherEnd = (w, p) => (WIRES[w].from === p ? WIRES[w].to : WIRES[w].from);

function nameOf(p) {
  if (isTile(p)) return "tile " + placeOf(p);
  if (!isPort(p)) return "switch " + placeOf(p - SET.tiles);
  return portOf(p).kind + " " + portOf(p).place.join(" ");
}

// ---- the state before cycle k

// Whether the page has the position at rest.
const knowsEnd = () => OUTCOME.cycles === RUN.end;
// Whether the page has the state before cycle k, and not the turns alone.
const hasState = (k) => k >= RUN.first && k <= RUN.last;
const turnAt = (p, k) => RUN.kinds[p * RUN.width + k - RUN.begin];
const waitAt = (p, k) => RUN.waits[p * RUN.width + k - RUN.begin];
const pcAt = (p, k) => valueBefore(RUN.pcs[p], k, 0);
const stepsAt = (p, k) => RUN.stepsBefore[p] + countBefore(RUN.steps[p], k);
const missesAt = (p, k) => RUN.missesBefore[p] + countBefore(RUN.misses[p], k);
const registerAt = (p, r, k) => valueBefore(RUN.registers[p][r], k, 0);
const givenWord = (t, address) => (SET.data[t] && SET.data[t].get(address)) || 0;
const wordAt = (t, address, k) => valueBefore(RUN.memories[t].get(address), k, givenWord(t, address));
const valuesAt = (w, k) => (hasState(k) ? RUN.sent[w].values.slice(countBefore(RUN.taken[w], k), countBefore(RUN.sent[w], k)) : []);
const instructionAt = (p, k) => (hasState(k) && programOf(p)[pcAt(p, k)]) || "";

// The label before instruction i of a program, and how far behind it that is, where the trace has the labels.
function labelBefore(p, i) {
  const label = (SET.labels[p] || []).filter((it) => it.i <= i).at(-1);
  return label ? label.name + (i > label.i ? "+" + (i - label.i) : "") : "";
}

// The line of the text that gives instruction i of a program, in words, where the trace has the lines.
const lineText = (p, i) => (SET.lines[p] && SET.lines[p][i] ? "line " + SET.lines[p][i] : "");

// The pc of p before cycle k, in words.
function pcText(p, k) {
  const pc = pcAt(p, k), label = labelBefore(p, pc), line = lineText(p, pc);
  return "pc " + pc + (label ? " (" + label + ")" : "") + (line ? ", " + line : "");
}

// ---- what is done in cycle k

const sentIn = (w, k) => writtenIn(RUN.sent[w], k);
// The values that are taken from wire w in cycle k, the front one first.
const takenIn = (w, k) => RUN.sent[w].values.slice(countBefore(RUN.taken[w], k), countBefore(RUN.taken[w], k + 1));

// Adds how many turns of each kind processor p has before position k, of those that the page has.
function addTurns(counts, p, k) {
  const i = k - RUN.begin, block = i >> SUM.shift, at = 6 * (p * SUMS.blocks + block), { kinds } = RUN;
  for (let kind = FIRED; kind <= STOPPED; kind++) counts[kind] += SUMS.sums[at + kind];
  for (let j = p * RUN.width + (block << SUM.shift), end = p * RUN.width + i; j < end; j++) counts[kinds[j]]++;
  return counts;
}

const turnsUpTo = (p, k) => addTurns([0, 0, 0, 0, 0, 0], p, k);

// How many turns of each kind, which is its place, processor p has from cycle `from` on, up to cycle `end`.
function turnsFrom(p, from, end) {
  const before = turnsUpTo(p, from);
  return turnsUpTo(p, end).map((count, kind) => count - before[kind]);
}

// How many cycles before k a processor spent in each kind of turn, from the first one of the page on.
const turnsBefore = (p, k) => turnsUpTo(p, k).slice(1);

// How many values are sent on wire w from cycle `from` on, up to cycle `end`.
const sendsFrom = (w, from, end) => countBefore(RUN.sends[w], end) - countBefore(RUN.sends[w], from);

// Whether the waits, the trap or the limit of the outcome stand in cycle k.
const isTold = (k) => knowsEnd() && k >= (OUTCOME.waits.length ? CLOSED : RUN.end);

// ---- in words

const hex = (value) => value.toString(16).padStart(8, "0");
const many = (count, what) => count + " " + what + (count === 1 ? "" : "s");
const markOf = (p) => (isPort(p) || programOf(p).length ? RUN.marks[p] : "empty program");

// One word, or a mark, for what p does in cycle k.
function turnWord(p, k) {
  const kind = turnAt(p, k);
  if (kind === STOPPED) return markOf(p);
  return kind === FIRED ? "fires" : KINDS[kind];
}

// The class of what p does in cycle k: a kind, or the first word of the mark with which it is stopped.
const turnClass = (p, k) => (turnAt(p, k) === STOPPED ? markOf(p).split(" ")[0] : KINDS[turnAt(p, k)]);

function whyWaits(p, w, k) {
  if (!hasState(k)) return (WIRES[w].from === p ? "waits for room on wire " : "waits for a value on wire ") + w + ", " + nameOf(otherEnd(w, p));
  const other = nameOf(otherEnd(w, p)), held = valuesAt(w, k).length;
  if (WIRES[w].from === p) return "has to send to " + other + ", but wire " + w + " is full with " + many(held, "value");
  return "needs a value from " + other + ", but wire " + w + (held ? " holds only " + held : " is empty");
}

function whatFires(p, k, show) {
  if (!hasState(k)) return "takes a step";
  const parts = [];
  for (const w of INPUTS[p]) for (const value of takenIn(w, k)) parts.push("takes " + show(value) + " from " + nameOf(WIRES[w].from));
  for (const w of OUTPUTS[p]) if (sentIn(w, k) !== undefined) parts.push("sends " + show(sentIn(w, k)) + " to " + nameOf(WIRES[w].to));
  RUN.registers[p].forEach((history, r) => {
    const value = writtenIn(history, k);
    if (value !== undefined) parts.push((isTile(p) ? "$" : "r") + r + " becomes " + show(value));
  });
  const loaded = writtenIn(RUN.loads[p], k), stored = writtenIn(RUN.stores[p], k), cost = writtenIn(RUN.misses[p], k);
  if (loaded !== undefined) parts.push("loads from 0x" + hex(loaded));
  if (stored !== undefined) parts.push("the word at 0x" + hex(stored) + " becomes " + show(wordAt(p, stored, k + 1)));
  if (cost !== undefined) parts.push("misses its cache, which costs " + many(cost, "turn"));
  return parts.join("; ") || whereTo(p, k);
}

// Of a step that takes, sends and writes nothing: where it goes.
function whereTo(p, k) {
  const next = writtenIn(RUN.pcs[p], k);
  return instructionAt(p, k).startsWith("halt") ? "halts" : "goes to instruction " + next;
}

// What p does in cycle k, as a sentence without its subject.
function sentenceOf(p, k, show) {
  if (waitAt(p, k) >= 0) return whyWaits(p, waitAt(p, k), k);
  if (turnAt(p, k) === STALLED) return "pays a turn for a cache miss";
  if (turnAt(p, k) === STOPPED) return "takes no more steps: " + markOf(p);
  return whatFires(p, k, show);
}

function outcomeSentence() {
  const p = Number(OUTCOME.words[0]);
  switch (OUTCOME.word) {
    case "done": return "every tile and every switch is halted";
    case "deadlock": return "a cycle of " + p + " processors, each waits for the next";
    case "trapped": return nameOf(p) + " is trapped: " + OUTCOME.words[1];
    case "limit": return nameOf(p) + " has executed its limit of " + SET.limit;
    default: return "the waits from " + nameOf(OUTCOME.waits[0].processor) + " end in " + nameOf(OUTCOME.ends) + ", " + OUTCOME.endMark;
  }
}

function summaryOf(k) {
  const counts = [0, 0, 0, 0, 0, 0];
  for (let p = 0; p < SET.processors; p++) counts[turnAt(p, k)]++;
  const when = k === OUTCOME.cycles ? "at rest after " + many(k, "cycle") : "cycle " + k + " of " + OUTCOME.cycles;
  const parts = counts.map((count, kind) => count + " " + (kind === FIRED ? "firing" : KINDS[kind]));
  return when + ": " + parts.slice(1).join(", ");
}
