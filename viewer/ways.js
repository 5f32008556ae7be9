"use strict";
// Where a word comes from and where it goes, and the search for a cycle. All of it looks up what is in the histories.

// ---- the way of a word

// The routes of a switch's instruction: the network, the input's side or a register, and the output's side.
const routesOf = (text) => [...text.matchAll(/([12]):(\w+)>(\w)/g)].map((found) => ({ net: Number(found[1]), from: found[2], to: found[3] }));
const inputAt = (p, net, side) => INPUTS[p].find((w) => WIRES[w].net === net && WIRES[w].into === side);
const outputAt = (p, net, side) => OUTPUTS[p].find((w) => WIRES[w].net === net && WIRES[w].out === side);
const isSwitch = (p) => !isTile(p) && !isPort(p);

// The value number i on wire w: the place from which a switch took it, or nothing where it begins here.
function placeBefore({ w, i }) {
  const k = RUN.sent[w].cycles[i], wire = WIRES[w];
  if (k < RUN.first || !isSwitch(wire.from)) return null;
  const route = routesOf(instructionAt(wire.from, k)).find((it) => it.net === wire.net && it.to === wire.out);
  const from = route && inputAt(wire.from, wire.net, route.from);
  return from === undefined ? null : { w: from, i: countBefore(RUN.taken[from], k) };
}

// The places to which a switch sent on what it took, in the cycle in which it did.
function placesBehind({ w, i }) {
  const k = RUN.taken[w].cycles[i], wire = WIRES[w];
  if (k === undefined || !isSwitch(wire.to)) return [];
  const routes = routesOf(instructionAt(wire.to, k)).filter((it) => it.net === wire.net && it.from === wire.into);
  return routes.map((it) => outputAt(wire.to, wire.net, it.to)).map((out) => ({ w: out, i: countBefore(RUN.sent[out], k) }));
}

// All places of the word that is at one of them, from the first on; where it is sent on to several, one after another.
function wayOf(place) {
  let first = place;
  for (let before = placeBefore(first), most = 1000; before && most > 0; before = placeBefore(first), most--) first = before;
  const places = [first];
  for (let n = 0; n < places.length && n < 400; n++) places.push(...placesBehind(places[n]));
  return places.map(({ w, i }) => ({ w, i, value: RUN.sent[w].values[i], sent: RUN.sent[w].cycles[i], taken: RUN.taken[w].cycles[i] }));
}

// The places of the values that wire w holds before cycle k, and of one that is sent in it.
function placesOn(w, k) {
  const from = countBefore(RUN.taken[w], k), end = countBefore(RUN.sent[w], k + 1);
  return listOf(end - from, (_, n) => ({ w, i: from + n }));
}

// ---- the search: places in the run that a text names, of which the next or the last one is gone to

const wordOf = (text) => (/^-?\d+$/.test(text) ? Number(text) >>> 0 : /^(0x)?[0-9a-f]{1,8}$/.test(text) ? parseInt(text.replace("0x", ""), 16) : undefined);

// The places of a history, from the first cycle of the page on: all, or those of one value. `what` says it in words.
function found(history, p, what, due) {
  const hits = [], { cycles, values } = history || newHistory(), begin = countBefore({ cycles }, RUN.first);
  const next = (i) => (due !== undefined ? values.indexOf(due, i) : i < cycles.length ? i : -1);
  for (let i = next(begin); i >= 0; i = next(i + 1)) hits.push({ k: cycles[i], p, value: values[i], what });
  return hits;
}

// Where processor p begins a turn that a test allows.
function turnsThat(p, allows, what) {
  const hits = [], isNew = (k) => k === RUN.begin || turnAt(p, k) !== turnAt(p, k - 1) || waitAt(p, k) !== waitAt(p, k - 1);
  for (let k = RUN.begin; k <= RUN.end; k++) if (allows(turnAt(p, k)) && isNew(k)) hits.push({ k, p, what: () => what });
  return hits;
}

const sendHits = (w, due) => found(RUN.sent[w], WIRES[w].from, (value) => "sends " + wordText(value) + " on wire " + w, due);
const registerHits = (p, r, due) => found(RUN.registers[p][r], p, (value) => (isTile(p) ? "$" : "r") + r + " becomes " + wordText(value), due);
const addressHits = (p, address, due) => [
  ...found(RUN.memories[p] && RUN.memories[p].get(address), p, (value) => "the word at 0x" + hex(address) + " becomes " + wordText(value), due),
  ...(due === undefined ? found(RUN.loads[p], p, () => "loads from 0x" + hex(address), address) : []),
];

const stepsFrom = (p, pc) => found(RUN.steps[p], p, () => "fires at pc " + pc).filter(({ k }) => pcAt(p, k) === pc);

// A value wherever it is written: on wires, to registers and to memory.
function valueHits(due) {
  const hits = WIRES.flatMap((_, w) => sendHits(w, due));
  for (let p = 0; p < SET.processors; p++) {
    RUN.registers[p].forEach((_, r) => hits.push(...registerHits(p, r, due)));
    for (const address of RUN.memories[p].keys()) hits.push(...addressHits(p, address, due));
  }
  return hits;
}

// The kinds of events that have a name; each is of one processor.
const EVENTS = {
  waits: (p) => turnsThat(p, (kind) => kind === STARVED || kind === BLOCKED, "begins to wait"),
  starved: (p) => turnsThat(p, (kind) => kind === STARVED, "begins to wait for a value"),
  blocked: (p) => turnsThat(p, (kind) => kind === BLOCKED, "begins to wait for room"),
  stalled: (p) => turnsThat(p, (kind) => kind === STALLED, "begins to pay for a miss"),
  stops: (p) => turnsThat(p, (kind) => kind === STOPPED, "is stopped"),
  fires: (p) => turnsThat(p, (kind) => kind === FIRED, "begins to fire"),
  misses: (p) => found(RUN.misses[p], p, () => "misses its cache"),
  loads: (p) => found(RUN.loads[p], p, (address) => "loads from 0x" + hex(address)),
  stores: (p) => found(RUN.stores[p], p, (address) => "stores at 0x" + hex(address)),
  sends: (p) => OUTPUTS[p].flatMap((w) => sendHits(w)),
  takes: (p) => INPUTS[p].flatMap((w) => found(RUN.taken[w], p, () => "takes from wire " + w)),
};

// `$5`, `r2`, `@48`, `wire 8`, `pc 12`, a value, or the name of an event; the first ones may be followed by `= VALUE`.
function hitsOf(text, p) {
  const [subject, wanted] = text.toLowerCase().trim().split(/\s*=\s*/), due = wanted === undefined ? undefined : wordOf(wanted);
  if (wanted !== undefined && due === undefined) return null;
  const label = (SET.labels[p] || []).find(({ name }) => subject === "pc " + name.toLowerCase());
  if (label) return stepsFrom(p, label.i);
  const parts = subject.match(/^(\$|r|@|wire|w|pc)\s*(0x)?([0-9a-f]+)$/);
  if (parts) {
    const place = parseInt(parts[3], parts[2] || parts[1] === "@" ? 16 : 10);
    switch (parts[1]) {
      case "@": return addressHits(p, place - (place % 4), due);
      case "pc": return stepsFrom(p, place);
      case "wire": case "w": return WIRES[place] ? sendHits(place, due) : null;
      default: return registerHits(p, place, due);
    }
  }
  if (wordOf(subject) !== undefined) return valueHits(wordOf(subject));
  const event = subject && Object.keys(EVENTS).find((name) => name.startsWith(subject.replace(/s$/, "")));
  return event ? EVENTS[event](p) : null;
}

// The next hit behind a cycle and a processor, or the last one before them, and how many there are.
function hitFrom(text, k, p, isForth) {
  const hits = hitsOf(text, p);
  if (!hits) return { message: "not understood" };
  hits.sort((a, b) => a.k - b.k || a.p - b.p);
  const isBehind = (it) => it.k > k || (it.k === k && it.p > p);
  const isBefore = (it) => it.k < k || (it.k === k && it.p < p);
  const n = isForth ? hits.findIndex(isBehind) : hits.length - 1 - [...hits].reverse().findIndex(isBefore);
  if (!hits.length) return { message: "nowhere on this page" };
  if (n < 0 || n >= hits.length) return { message: (isForth ? "none behind here, " : "none before here, ") + many(hits.length, "place") + " on this page" };
  return { hit: hits[n], message: n + 1 + " of " + hits.length + ": " + nameOf(hits[n].p) + " " + hits[n].what(hits[n].value) + " in cycle " + hits[n].k };
}
