"use strict";
// The texts beside the grid: all of the chosen processor, and tables of all.

// Makes an element; what it contains is inserted as text or as elements, never as markup.
function make(name, properties, ...content) {
  const element = document.createElement(name);
  for (const key in properties) {
    if (key in element) element[key] = properties[key];
    else element.setAttribute(key, properties[key]);
  }
  element.append(...content);
  return element;
}

const row = (name, ...cells) => make("tr", { className: name }, ...cells.map((cell) => (cell instanceof HTMLTableCellElement ? cell : make("td", {}, cell))));
const number = (text) => make("td", { className: "num" }, String(text));
const region = (id, label, table) => make("div", { id, className: "scroll", tabIndex: 0, role: "region", "aria-label": label }, table);
const linkTo = (text, action) => make("button", { className: "plain", type: "button", onclick: action }, text);

// A word as the reader wants it: as eight hexadecimal digits, or as a signed decimal number.
const wordText = (value) => (PAGE.isDecimal ? String(value | 0) : hex(value));

// ---- the chosen processor

function panelOf(p, k) {
  const turn = make("span", { className: "kind " + turnClass(p, k) }, turnWord(p, k));
  const head = make("h2", {}, nameOf(p) + " ", make("span", { className: "soft" }, "#" + p + " "), turn);
  const parts = [head, make("p", { id: "does" }, sentenceOf(p, k, wordText))];
  if (!hasState(k)) return [...parts, noState(k), ...turnParts(p, k)];
  if (isPort(p)) parts.push(...portWords(p, k));
  else parts.push(make("p", { className: "soft" }, countsOf(p, k)), ...programParts(p, k));
  parts.push(...wireParts(p, k));
  if (isTile(p)) parts.push(...memoryParts(p, k));
  return [...parts, ...turnParts(p, k)];
}

const noState = (k) => make("p", { className: "soft" }, "Its registers and values in this cycle are not on this page: ", command("rawgrid explore --whole --from " + k));

// A value that can be pressed, and leads to where it was written, or shows its way.
const lead = (text, title, action) => make("button", { className: "value", type: "button", title, onclick: action }, text);

const countsOf = (p, k) => "count " + stepsAt(p, k) + ", " + pcText(p, k) + (missesAt(p, k) ? ", misses " + missesAt(p, k) : "");

function programParts(p, k) {
  if (!programOf(p).length) return [make("p", {}, "It has no program.")];
  return [programTable(p, k), make("h3", {}, "registers"), registersOf(p, k)];
}

// The instructions round the pc, all where they are few.
function programTable(p, k) {
  const program = programOf(p), pc = pcAt(p, k), next = turnAt(p, k) === FIRED ? writtenIn(RUN.pcs[p], k) : -1;
  const first = program.length <= 150 ? 0 : Math.max(0, pc - 60), end = program.length <= 150 ? program.length : Math.min(program.length, pc + 90);
  const body = make("tbody", {});
  if (first) body.append(row("", make("td", { colSpan: 3 }, first + " instructions before")));
  const does = ["", "now", "stalled", "waits", "waits", "stopped"][turnAt(p, k)];
  for (let i = first; i < end; i++) {
    body.append(...labelRows(p, i), instructionRow(p, i, i === pc ? does : "", i === next));
  }
  if (end < program.length) body.append(row("", make("td", { colSpan: 3 }, program.length - end + " instructions behind")));
  else body.append(...labelRows(p, end));
  return region("code", "program", make("table", {}, body));
}

// The labels before an instruction, where the trace has them.
const labelRows = (p, i) => (SET.labels[p] || []).filter((it) => it.i === i).map(({ name }) => row("label", "", make("td", { colSpan: 2 }, name + ":")));

// A line of the program; `does` is what the processor does there, if it stands there.
function instructionRow(p, i, does, isNext) {
  const notes = [does, isNext ? "next" : "", lineText(p, i)].filter(Boolean).join(", ");
  const line = row(does ? "now" : isNext ? "next" : "", number((does ? "> " : "") + i), programOf(p)[i], make("td", { className: "soft" }, notes));
  if (does) line.setAttribute("aria-current", "step");
  return line;
}

// The registers that were written in this run; those of a switch all.
function registersOf(p, k) {
  const box = make("div", { id: "registers" });
  for (let r = 0; r < (isTile(p) ? 32 : 4); r++) {
    const history = RUN.registers[p][r];
    if (isTile(p) && !history) continue;
    const old = registerAt(p, r, k), value = writtenIn(history, k), isNew = value !== undefined;
    const name = (isTile(p) ? "$" : "r") + r, text = name.padEnd(4, "\u00a0");
    const written = history && countBefore(history, k) && history.cycles[countBefore(history, k) - 1] >= RUN.first;
    const shown = written ? lead(wordText(old), "to the cycle in which " + name + " was written", () => toOrigin(p, history, k)) : wordText(old);
    box.append(make("span", { className: isNew ? "now" : old ? "" : "soft" }, text, shown, isNew ? " becomes " + wordText(value) : ""));
  }
  if (isTile(p)) box.append(make("span", { className: "soft rest" }, box.childNodes.length ? "all others 0" : "all 0"));
  return box;
}

// Goes to the cycle before k in which this was written last.
function toOrigin(p, history, k) {
  jump(history.cycles[countBefore(history, k) - 1], p);
}

// The addresses of words that are touched in this run, given by the set or shown in the report.
function addressesOf(t) {
  const all = new Set([...RUN.memories[t].keys(), ...(SET.data[t] ? SET.data[t].keys() : [])]);
  for (const show of SET.shows) {
    if (show.tile === t) for (let i = 0; i < show.count; i++) all.add(show.address + 4 * i);
  }
  return [...all].sort((a, b) => a - b);
}

function memoryParts(t, k) {
  const all = addressesOf(t);
  if (!all.length) return [];
  const loaded = writtenIn(RUN.loads[t], k), stored = writtenIn(RUN.stores[t], k), body = make("tbody", {});
  const touched = all.findIndex((address) => address === loaded || address === stored);
  const first = Math.max(0, Math.min(touched - 100, all.length - 200));
  for (const address of all.slice(first, first + 200)) {
    const does = address === stored ? "becomes " + wordText(wordAt(t, address, k + 1)) : address === loaded ? "is loaded" : "";
    const history = RUN.memories[t].get(address), count = history ? countBefore(history, k) : 0, text = wordText(wordAt(t, address, k));
    const isWritten = count && history.cycles[count - 1] >= RUN.first;
    const shown = isWritten ? lead(text, "to the cycle in which it was stored", () => toOrigin(t, history, k)) : text;
    body.append(row(does ? "now" : "", "0x" + hex(address), shown, does));
  }
  const part = all.length > 200 ? ": " + all.length + " words, here " + first + " to " + (first + 199) : "";
  return [make("h3", {}, "memory touched, given or shown" + part), region("words", "memory", make("table", {}, body))];
}

function wireParts(p, k) {
  const body = make("tbody", {});
  const add = (w, way, end) => {
    if (RUN.sent[w].values.length || waitAt(p, k) === w) body.append(wireRow(p, w, k, way + " " + WIRES[w].net + ":" + end));
  };
  for (const w of INPUTS[p]) add(w, "in", WIRES[w].into);
  for (const w of OUTPUTS[p]) add(w, "out", WIRES[w].out);
  return body.childNodes.length ? [make("h3", {}, "wires, front value first"), make("table", {}, body)] : [];
}

function wireRow(p, w, k, end) {
  const sent = sentIn(w, k), taken = takenIn(w, k).length;
  const notes = [taken ? taken + " taken" : "", sent === undefined ? "" : "sent", waitAt(p, k) === w ? "waits" : ""];
  const does = notes.filter(Boolean).join(", "), cell = make("td", { className: "wrap" }), from = countBefore(RUN.taken[w], k);
  valuesAt(w, k).forEach((value, i) => cell.append(i ? " " : "", lead(wordText(value), "follow this word", () => follow({ w, i: from + i }))));
  if (sent !== undefined) cell.append(cell.childNodes.length ? " " : "", lead("+ " + wordText(sent), "follow this word", () => follow(placesOn(w, k).at(-1))));
  if (!cell.childNodes.length) cell.append("-");
  return row(does ? "now" : "", end, "wire " + w, nameOf(otherEnd(w, p)), cell, make("td", { className: "wrap" }, does));
}

// The words of a port round the next one. Those that a sink got before the first cycle are not on this page.
function portWords(p, k) {
  const port = portOf(p), done = stepsAt(p, k), w = [...INPUTS[p], ...OUTPUTS[p]][0], body = make("tbody", {});
  const before = isSource(p) ? 0 : RUN.stepsBefore[p];
  const words = isSource(p) ? port.words : RUN.sent[w].values.slice(0, countBefore(RUN.taken[w], k + 1));
  if (before) body.append(row("", make("td", { colSpan: 3 }, before + " words before cycle " + RUN.first + " are not on this page")));
  const first = Math.max(0, Math.min(done - before - 40, words.length - 80));
  words.slice(first, first + 80).forEach((word, i) => {
    const place = before + first + i, isNow = place === done && turnAt(p, k) === FIRED;
    body.append(row(isNow ? "now" : "", number(place), wordText(word), portNote(p, place < done, isNow)));
  });
  const head = isSource(p) ? "words of the source: " + done + " of " + port.words.length + " sent" : "words of the sink: " + done + " got, room for " + port.room;
  return [make("h3", {}, head), make("table", {}, body)];
}

function portNote(p, isDone, isNow) {
  if (isNow) return isSource(p) ? "sent now" : "taken now";
  if (isDone) return isSource(p) ? "sent" : "got";
  return "to come";
}

const kindHeads = () => KINDS.slice(1).map((kind) => make("th", { className: "num", scope: "col" }, kind));

function turnParts(p, k) {
  const table = make("table", {}, row("", make("th", {}), ...kindHeads()));
  table.append(row("", RUN.begin ? "since cycle " + RUN.begin : "so far", ...turnsBefore(p, k).map(number)));
  table.append(row("", "whole run", ...OUTCOME.totals[p].map(number)));
  const waits = OUTCOME.waited.filter((wait) => wait.processor === p);
  const lines = waits.map((wait) => make("p", {}, "wire " + wait.wire + " for " + nameOf(wait.other) + ": " + many(wait.cycles, "cycle")));
  return [make("h3", {}, "cycles"), table, ...(lines.length ? [make("h3", {}, "waited in the whole run"), ...lines] : [])];
}

// ---- tables of all processors

function countParts(k) {
  const table = make("table", {}, row("", make("th", { scope: "col" }, "processor"), ...kindHeads()));
  for (let p = 0; p < SET.processors; p++) table.append(row("", chooser(p), ...turnsBefore(p, k).map(number)));
  return [table];
}

// The cycle in words: the same that the grid shows.
function cycleParts(k) {
  const table = make("table", {});
  for (let p = 0; p < SET.processors; p++) table.append(row("", chooser(p), make("td", { className: "wrap" }, sentenceOf(p, k, wordText))));
  return [table];
}
