"use strict";
// The texts in the frames beside the grid: how the run ends, the chosen cycles, the way of a word.

// ---- how the run ends

function storyOf(k) {
  const box = make("div", { className: knowsEnd() ? "story " + OUTCOME.word : "story part" });
  if (!knowsEnd()) box.append(...storyOfPart());
  else if (!isTold(k)) box.append(storyOfRest());
  else box.append(...storyOfEnd());
  if (RUN.positions < RUN.width) box.append(storyOfStates());
  return box;
}


// What is said in a cycle in which the outcome does not stand yet.
const storyOfRest = () => make("p", {}, "At rest after " + many(OUTCOME.cycles, "cycle") + ": " + OUTCOME.word + ". ", linkTo("Show the end", () => goTo(RUN.end)));

// A command, which is broken at blanks alone.
const command = (text) => make("code", {}, ...text.split(" ").flatMap((word, i) => [i ? " " : "", make("span", { className: "command" }, word)]));

// What a page says that has the turns of the whole run and the states of a part of it.
function storyOfStates() {
  const states = linkTo("cycles " + RUN.first + " to " + RUN.last, () => goTo(RUN.first));
  const others = "; of all others it has what each processor did, and what was sent where.";
  return make("p", { className: "soft" }, "Registers, memory and values are on this page for the ", states, others);
}

// What a page says that ends before the run does.
function storyOfPart() {
  const from = Math.max(0, OUTCOME.cycles - 500);
  return [
    make("h2", {}, "A part of the run"),
    make("p", {}, "This page has the cycles " + RUN.first + " to " + RUN.last + ". The grid is not at rest after them: the run goes on to cycle " + OUTCOME.cycles + "."),
    make("p", {}, "It ends as " + OUTCOME.word + ": " + outcomeSentence() + "."),
    make("p", {}, "A page with its end: ", command("rawgrid explore --from " + from)),
  ];
}

function storyOfEnd() {
  const isOfOne = OUTCOME.word === "trapped" || OUTCOME.word === "limit";
  const parts = [make("h2", {}, (isOfOne ? "" : OUTCOME.word + ": ") + outcomeSentence())];
  if (OUTCOME.waits.length) parts.push(waitList(), ...waitsTold());
  if (isOfOne) parts.push(standsAt(Number(OUTCOME.words[0])), make("p", {}, CAUSES[OUTCOME.words[1]] || ""));
  return parts;
}

const CAUSES = {
  misaligned: "The address of its load or store is no multiple of the size.",
  "past-memory": "The address of its load or store lies past the last byte of memory.",
  pc: "There is no instruction at its pc.",
};

const chooser = (p) => linkTo(nameOf(p), () => choose(p));

function waitList() {
  const list = make("ol", {});
  for (const { processor, wire } of OUTCOME.waits) {
    const instruction = instructionAt(processor, RUN.end);
    const at = instruction ? make("span", { className: "soft" }, " Its instruction: ", make("code", {}, instruction)) : "";
    list.append(make("li", {}, chooser(processor), " " + whyWaits(processor, wire, RUN.end) + ".", at));
  }
  if (OUTCOME.ends >= 0) list.append(make("li", {}, chooser(OUTCOME.ends), " is " + OUTCOME.endMark + ": it takes no more steps, so nobody before it goes on."));
  return list;
}

function waitsTold() {
  const since = linkTo("cycle " + CLOSED, () => goTo(CLOSED));
  const others = CLOSED < RUN.end ? "; the others came to rest by cycle " + RUN.end + "." : ".";
  const before = CLOSED === RUN.begin && CLOSED > 0 ? " or before, which this page does not have" : "";
  const held = make("p", {}, OUTCOME.ends < 0 ? "These waits hold since " : "All of this holds since ", since, before + others);
  if (OUTCOME.word !== "deadlock") return [held];
  return [make("p", {}, "Each waits for the next and the last one for the first, so none of them ever goes on."), held];
}

function standsAt(p) {
  const instruction = instructionAt(p, RUN.end), place = hasState(RUN.end) ? " at " + pcText(p, RUN.end) : "";
  return make("p", {}, chooser(p), " stands" + place + (instruction ? ": " + instruction : ""));
}

// ---- the chosen cycles

// A column of counts and their shares for each group of processors, a row for each kind of turn.
function sharesTable(groups, from, end) {
  const table = make("table", {}, row("", make("th", {}), ...groups.map(([name]) => make("th", { className: "num", scope: "col" }, name))));
  const sums = groups.map(([, processors]) => sumOver(processors, from, end));
  const cell = (count, all) => make("td", { className: "num" }, String(count), make("span", { className: "soft" }, percent(count / all).padStart(5, "\u00a0")));
  KINDS.slice(1).forEach((kind, i) => table.append(row("", kind, ...sums.map((counts, n) => cell(counts[i + 1], Math.max(1, (end - from) * groups[n][1].length))))));
  return table;
}

// The counts of all kinds of processors, and of the chosen one.
function rangeTable({ from, end }) {
  const groups = [["tiles", ROWS.tiles()], ["switches", ROWS.switches()], ["ports", ROWS.ports()], [nameOf(PAGE.p), [PAGE.p]]];
  return sharesTable(groups.filter(([, processors]) => processors.length), from, end);
}

function rangeParts({ from, end }) {
  const cycles = end - from, table = rangeTable({ from, end });
  const actions = [button("zoom to them", zoomToRange), button("show in grid", () => setMode("shares")), button("let go (Esc)", () => setRange(null))];
  const head = make("h2", {}, "cycles " + from + " to " + (end - 1) + " ", make("span", { className: "soft" }, many(cycles, "cycle")));
  return [head, make("div", { className: "row" }, ...actions), table, ...mostSent(from, end), ...mostWaited(from, end)];
}

const button = (text, action) => make("button", { type: "button", onclick: action }, text);

function sumOver(processors, from, end) {
  const before = sumOf(processors, from);
  return sumOf(processors, end).map((count, kind) => count - before[kind]);
}

const MOST = 8;
const topOf = (counts) => counts.sort((a, b) => b.count - a.count).slice(0, MOST);

function mostSent(from, end) {
  const all = WIRES.map((_, w) => ({ w, count: sendsFrom(w, from, end) })).filter((it) => it.count), sum = all.reduce((a, it) => a + it.count, 0);
  const table = make("table", {});
  for (const { w, count } of topOf(all)) table.append(row("", "wire " + w, chooser(WIRES[w].from), "to", chooser(WIRES[w].to), number(count)));
  return [make("h3", {}, many(sum, "value") + " sent on " + many(all.length, "wire") + (all.length > MOST ? ", most on" : "")), table];
}

function mostWaited(from, end) {
  const table = make("table", {}), all = [], { waits } = RUN;
  for (let p = 0; p < SET.processors; p++) {
    const counts = new Uint32Array(WIRES.length), at = p * RUN.width - RUN.begin;
    for (let i = at + from, last = at + end; i < last; i++) if (waits[i] >= 0) counts[waits[i]]++;
    for (const w of [...INPUTS[p], ...OUTPUTS[p]]) if (counts[w]) all.push({ p, w, count: counts[w] });
  }
  for (const { p, w, count } of topOf(all)) {
    const kind = WIRES[w].to === p ? "starved by" : "blocked by";
    table.append(row("", chooser(p), kind, chooser(otherEnd(w, p)), "wire " + w, number(count)));
  }
  return all.length ? [make("h3", {}, "longest waits"), table] : [];
}

// ---- the way of a word

function wayParts(way) {
  const list = make("ol", {}), first = way[0], isKnown = first.sent >= RUN.first;
  list.append(isKnown ? hop(first.sent, WIRES[first.w].from, madeBy(first)) : make("li", {}, "sent before cycle " + RUN.first));
  for (const place of way) {
    const { w, taken } = place, to = WIRES[w].to;
    if (taken === undefined) list.append(make("li", {}, "it is still on wire " + w + " to " + nameOf(to) + " after cycle " + RUN.last));
    else list.append(hop(taken, to, usedBy(place)));
  }
  const actions = [button("show in the timeline", lookAtWay), button("let go (Esc)", () => follow(null))];
  return [make("h2", {}, "the way of " + wordText(first.value)), list, make("div", { className: "row" }, ...actions)];
}

const hop = (k, p, text) => make("li", {}, linkTo("cycle " + k, () => jump(k, p)), ": " + nameOf(p) + " " + text);

// How the first one on the way has it.
function madeBy({ w, sent }) {
  const p = WIRES[w].from, by = instructionAt(p, sent);
  return (isPort(p) ? "gives it" : "makes it by " + by) + " and sends it on wire " + w;
}

function usedBy({ w, taken }) {
  const p = WIRES[w].to, on = isSwitch(p) ? placesBehindOf(w, taken) : [];
  if (on.length) return "sends it on to " + on.map((it) => nameOf(WIRES[it.w].to) + " on wire " + it.w).join(" and ");
  return isPort(p) ? "gets it" : "takes it: " + instructionAt(p, taken) + (isTile(p) ? "; " + whatItGives(p, taken) : "");
}

const placesBehindOf = (w, taken) => placesBehind({ w, i: countBefore(RUN.taken[w], taken) });

// What a tile makes of it in the same step.
function whatItGives(p, k) {
  const sends = OUTPUTS[p].filter((w) => sentIn(w, k) !== undefined).map((w) => "sends " + wordText(sentIn(w, k)) + " on wire " + w);
  const written = RUN.registers[p].map((history, r) => [r, writtenIn(history, k)]).filter(([, value]) => value !== undefined);
  const writes = written.map(([r, value]) => "$" + r + " becomes " + wordText(value)), stored = writtenIn(RUN.stores[p], k);
  const stores = stored === undefined ? [] : ["the word at 0x" + hex(stored) + " becomes " + wordText(wordAt(p, stored, k + 1))];
  return [...sends, ...writes, ...stores].join("; ") || "it decides where to go";
}
