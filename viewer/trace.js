"use strict";
// The run, read from the lines of the trace. A long trace is read byte by byte, since lines and words that are cut out
// take several times as long.

const TEXT = { all: "", bytes: new Uint8Array(0), at: 0 };
const [LINE_END, BLANK, STAR, EQUALS] = [10, 32, 42, 61];

function readDecimal() {
  const { bytes } = TEXT;
  let value = 0, { at } = TEXT, digit = bytes[at] - 48;
  while (digit >= 0 && digit <= 9) {
    value = 10 * value + digit;
    digit = bytes[++at] - 48;
  }
  TEXT.at = at;
  return value;
}

function readHex() {
  const { bytes } = TEXT;
  let value = 0, { at } = TEXT;
  for (; bytes[at] > EQUALS || (bytes[at] >= 48 && bytes[at] <= 57); at++) value = 16 * value + bytes[at] - (bytes[at] <= 57 ? 48 : 87);
  TEXT.at = at;
  return value;
}

// Whether this byte comes next, which is then read.
function readIf(byte) {
  if (TEXT.bytes[TEXT.at] !== byte) return false;
  TEXT.at++;
  return true;
}

const readWord = () => (readIf(EQUALS) ? readHex() : undefined);

function restOfLine() {
  const begin = TEXT.at;
  skipLine();
  return TEXT.all.slice(begin, TEXT.at);
}

function skipLine() {
  while (TEXT.bytes[TEXT.at] !== LINE_END) TEXT.at++;
}

// What an entry of a line writes, by its first letter.
function readEntry(run, p, k, sign) {
  switch (sign) {
    case "+": return write(run.sent[readDecimal()], k, readWord());
    case "-": return mark(run.taken[readDecimal()], k);
    case "$": return write((run.registers[p][readDecimal()] ||= newHistory()), k, readWord());
    case "@": return readTouch(run, p, k);
    case "#": run.stepsBefore[p] = readDecimal(); return undefined;
    default: if (k >= run.first) return write(run.misses[p], k, readDecimal());
  }
  run.missesBefore[p] = readDecimal();
  return undefined;
}

function readTouch(run, p, k) {
  const address = readHex(), value = readWord(), word = touchedWord(run, p, address);
  write(value === undefined ? run.loads[p] : run.stores[p], k, address);
  if (value !== undefined) write(word, k, value);
}

function setTurn(run, p, k, kind, wire) {
  const at = p * run.width + k - run.begin;
  run.kinds[at] = kind;
  run.waits[at] = wire;
}

const kindOfWait = (run, p, wire) => (run.wires[wire].to === p ? STARVED : BLOCKED);

// A line of a step, or of the state before the first cycle.
function readStep(run, p, k) {
  if (k >= run.first) {
    setTurn(run, p, k, FIRED, -1);
    mark(run.steps[p], k);
  }
  write(run.pcs[p], k, readDecimal());
  while (readIf(BLANK)) readEntry(run, p, k, String.fromCharCode(TEXT.bytes[TEXT.at++]));
}

function readLine(run, k) {
  const p = readDecimal();
  readIf(BLANK);
  switch (TEXT.all[TEXT.at]) {
    case "s": setTurn(run, p, k, STALLED, -1); break;
    case "x": setTurn(run, p, k, STOPPED, -1); readMark(run, p); break;
    case "w": readWait(run, p, k); break;
    default: readStep(run, p, k);
  }
  skipLine();
}

function readWait(run, p, k) {
  TEXT.at++;
  const wire = readDecimal();
  setTurn(run, p, k, kindOfWait(run, p, wire), wire);
}

function readMark(run, p) {
  TEXT.at += 2;
  run.marks[p] = restOfLine();
}

// Who waited or was stopped in the cycle before does so in this one, unless it has a line.
function beginCycle(run, k) {
  if (k === run.first) return;
  const end = run.kinds.length;
  for (let at = k - run.begin; at < end; at += run.width) {
    if (run.kinds[at - 1] <= STALLED) continue;
    run.kinds[at] = run.kinds[at - 1];
    run.waits[at] = run.waits[at - 1];
  }
}

// The turns of the whole run, where the page has them: of each processor, with how many follow one another.
function readTurns(run, p) {
  let k = 0;
  while (readIf(BLANK)) {
    const turn = TEXT.all[TEXT.at];
    if (turn === "x") {
      readMark(run, p);
      for (; k <= run.end; k++) setTurn(run, p, k, STOPPED, -1);
      return;
    }
    TEXT.at++;
    const wire = turn === "w" ? readDecimal() : -1, kind = turn === "f" ? FIRED : turn === "s" ? STALLED : kindOfWait(run, p, wire);
    for (const end = k + readTimes(); k < end; k++) setTurn(run, p, k, kind, wire);
  }
}

const readTimes = () => (readIf(STAR) ? readDecimal() : 1);

// The cycles in which values were sent on a wire, each by its distance from the one before.
function readSends(run) {
  TEXT.at += 5;
  const w = readDecimal(), cycles = [];
  let k = 0;
  while (readIf(BLANK)) {
    const gap = readDecimal();
    for (let times = readTimes(); times > 0; times--) cycles.push((k += gap));
  }
  run.sends[w] = { cycles };
}

function readWhole(run, end) {
  for (; TEXT.at < end; TEXT.at++) {
    if (TEXT.all[TEXT.at] === "s") readSends(run);
    else readTurns(run, readDecimal());
  }
}

function readCycles(run, end) {
  let k = run.first - 1;
  for (; TEXT.at < end; TEXT.at++) {
    if (TEXT.all[TEXT.at] !== "c") readLine(run, k);
    else {
      beginCycle(run, ++k);
      skipLine();
    }
  }
}

// The lines `label P I NAME` and `line P I L`: where the text of the set has a label before instruction I, and in which of
// its lines this instruction stands.
function readNames(set) {
  while (TEXT.all[TEXT.at] === "l") {
    const isLabel = TEXT.all[TEXT.at + 1] === "a";
    TEXT.at += isLabel ? 6 : 5;
    const p = readDecimal(), i = readIf(BLANK) && readDecimal();
    readIf(BLANK);
    if (isLabel) (set.labels[p] ||= []).push({ i, name: restOfLine() });
    else (set.lines[p] ||= [])[i] = readDecimal();
    TEXT.at++;
  }
}

// Reads the lines behind the listing, which ends where `at` is.
function readTrace(text, at, set, wires) {
  Object.assign(TEXT, { all: text, bytes: new TextEncoder().encode(text), at });
  readNames(set);
  const begin = text.indexOf("\ntrace ", at - 1) + 1, end = text.lastIndexOf("\ncounts\n") + 1;
  const numberAt = (place) => parseInt(text.slice(place, place + 12), 10);
  const first = numberAt(begin + 6), last = numberAt(text.lastIndexOf("\ncycle ", end) + 7), isWhole = TEXT.at < begin;
  const run = newRun(set, wires, first, last - first + 1, isWhole ? numberAt(TEXT.at + 6) : -1);
  skipLine();
  TEXT.at++;
  if (isWhole) readWhole(run, begin);
  TEXT.at = text.indexOf("\n", begin) + 1;
  readCycles(run, end);
  run.counts = text.slice(end + 7).trim().split("\n");
  Object.assign(TEXT, { all: "", bytes: new Uint8Array(0) });
  for (let w = 0; w < wires.length; w++) run.sends[w] = isWhole ? run.sends[w] || { cycles: [] } : run.sent[w];
  return run;
}
