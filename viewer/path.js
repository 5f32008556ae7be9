"use strict";
// The critical path: one turn of each cycle, each of which had to wait for the one before it. Its last turn is that of the
// least processor that goes on in the last cycle, so it is found from the end of the run backwards.

const goesOn = (p, k) => turnAt(p, k) === FIRED || turnAt(p, k) === STALLED;

// The path in the cycles of this page, cut into stretches of one processor. `wire` is the wire for which it waited in the
// cycle before the first one of the stretch, or -1 where the page has no such cycle.
function stretchesOf() {
  const found = [];
  if (!knowsEnd() || OUTCOME.cycles <= RUN.begin) return found;
  let k = OUTCOME.cycles - 1, end = k + 1, p = 0;
  while (!goesOn(p, k)) p++;
  for (; k >= RUN.begin; k--) {
    const wire = k === RUN.begin || goesOn(p, k - 1) ? -1 : waitAt(p, k - 1);
    if (wire < 0 && k > RUN.begin) continue;
    found.push({ p, from: k, end, wire });
    end = k;
    p = wire < 0 ? p : otherEnd(wire, p);
  }
  return found.reverse();
}

const PATH = stretchesOf();

// Which stretch is in cycle k, or -1 behind the last one.
const stretchAt = (k) => PATH.findIndex(({ from, end }) => from <= k && k < end);
const stretchesIn = (from, end) => PATH.filter((it) => it.from < end && it.end > from);
const isByValue = ({ p, wire }) => wire >= 0 && WIRES[wire].to === p;
const isByRoom = ({ p, wire }) => wire >= 0 && WIRES[wire].from === p;

// How many of its turns are steps, and how often it had to wait for a value and for room.
function countsOfPath() {
  const counts = { steps: 0, values: 0, rooms: 0 };
  for (const it of PATH) {
    if (isByValue(it)) counts.values++;
    if (isByRoom(it)) counts.rooms++;
    for (let k = it.from; k < it.end; k++) if (turnAt(it.p, k) === FIRED) counts.steps++;
  }
  return counts;
}

const PATH_COUNTS = countsOfPath();

// How many turns of the path are in these cycles, by processors.
function pathTurns(from, end) {
  const turns = new Array(SET.processors).fill(0);
  for (const it of stretchesIn(from, end)) turns[it.p] += Math.min(end, it.end) - Math.max(from, it.from);
  return turns;
}

// The wires over which the path goes in these cycles, and how often.
function pathHops(from, end) {
  const hops = new Map();
  for (const it of stretchesIn(from, end)) if (it.wire >= 0 && it.from >= from) hops.set(it.wire, (hops.get(it.wire) || 0) + 1);
  return hops;
}

// ---- in words

function pathParts(k) {
  if (!knowsEnd()) return [make("p", {}, "The path is found from the end of the run, which this page does not have.")];
  if (!PATH.length) return [make("p", {}, "No processor goes on in a cycle of this page.")];
  const cycles = OUTCOME.cycles - RUN.begin, { steps, values, rooms } = PATH_COUNTS;
  const counts = many(steps, "step") + " and " + many(cycles - steps, "stall turn") + "; " + (cycles - 1 - values - rooms) +
    " go on where the one before was, " + values + " had to wait for a value, " + rooms + " for room.";
  return [make("p", {}, pathMeaning(rooms)), make("p", {}, counts), make("h3", {}, "most of its turns"), pathTable(), ...pathList(k)];
}

function pathMeaning(rooms) {
  const chain = "One turn of each of the " + many(OUTCOME.cycles - RUN.begin, "cycle") + (RUN.begin ? " of this page" : "") + ", each of which had to wait for the one before it. ";
  if (RUN.begin) return chain + "This page begins with cycle " + RUN.begin + ": the path before it is not on this page.";
  const sooner = "So in no order of steps does the last one come sooner";
  return chain + sooner + (rooms ? "." : ", and deeper wires do not change that, since none waits for room.");
}

// The processors on which it is most.
function pathTable() {
  const table = make("table", {}), turns = pathTurns(RUN.begin, RUN.end);
  const all = turns.flatMap((count, p) => (count ? [{ p, count }] : [])), cycles = OUTCOME.cycles - RUN.begin;
  for (const { p, count } of topOf(all)) table.append(row("", chooser(p), number(count), make("td", { className: "num soft" }, percent(count / cycles))));
  return table;
}

// Its stretches round cycle k.
function pathList(k) {
  const at = stretchAt(Math.min(k, OUTCOME.cycles - 1)), first = Math.max(0, Math.min(at - 20, PATH.length - 41)), table = make("table", {});
  for (const it of PATH.slice(first, first + 41)) {
    const { p, from, end, wire } = it, by = wire < 0 ? "" : (isByValue(it) ? "value, wire " : "room, wire ") + wire;
    const pcs = isPort(p) || !hasState(from) || !hasState(end - 1) ? "" : "pc " + pcAt(p, from) + (end - from > 1 ? " to " + pcAt(p, end - 1) : "");
    const cycles = from + (end - from > 1 ? " to " + (end - 1) : "");
    table.append(row(from <= k && k < end ? "now" : "", linkTo(cycles, () => jump(from, p)), chooser(p), by, pcs));
  }
  const part = PATH.length > 41 ? ": " + PATH.length + ", here those round this cycle" : "";
  return [make("h3", {}, "its stretches, and what each waited for" + part), region("stretches", "critical path", table)];
}
