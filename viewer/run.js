"use strict";
// The run of the set. Each register, word of memory, pc and wire is a history of what was written to it and in which
// cycle, so any cycle is found by binary search, forth and back alike.

const KINDS = ["", "fired", "stalled", "starved", "blocked", "stopped"];
const [FIRED, STALLED, STARVED, BLOCKED, STOPPED] = [1, 2, 3, 4, 5];

// ---- histories: the cycles in which something was written, rising, and the values

const newHistory = () => ({ cycles: [], values: [] });

function write(history, k, value) {
  history.cycles.push(k);
  history.values.push(value);
}

// (steps and what is taken have no values)
const mark = (history, k) => history.cycles.push(k);

// How many entries were written before cycle k.
function countBefore(history, k) {
  let low = 0, high = history.cycles.length;
  while (low < high) {
    const middle = (low + high) >> 1;
    if (history.cycles[middle] < k) low = middle + 1;
    else high = middle;
  }
  return low;
}

// The last value that was written before cycle k, or the one that was there at the start.
function valueBefore(history, k, initial) {
  const count = history ? countBefore(history, k) : 0;
  return count ? history.values[count - 1] : initial;
}

// The value that is written in cycle k, if any.
function writtenIn(history, k) {
  const count = history ? countBefore(history, k) : 0;
  return history && history.cycles[count] === k ? history.values[count] : undefined;
}

// ---- the run

const listOf = (length, make) => Array.from({ length }, make);

// States are known of the positions `first` to `last`, turns of `begin` to `end`: these are the same, or the whole run.
function newRun(set, wires, first, positions, end) {
  const n = set.processors, begin = end < 0 ? first : 0, last = first + positions - 1, width = (end < 0 ? last : end) - begin + 1;
  return {
    wires, positions, first, last, begin, end: begin + width - 1, width,
    // what each processor does in each cycle, and for which wire it waits, or -1
    kinds: new Uint8Array(n * width), waits: new Int16Array(n * width).fill(-1), marks: [],
    // how many steps and cache misses each had before the first cycle
    stepsBefore: new Array(n).fill(0), missesBefore: new Array(n).fill(0),
    pcs: listOf(n, newHistory), steps: listOf(n, newHistory), misses: listOf(n, newHistory), loads: listOf(n, newHistory), stores: listOf(n, newHistory),
    registers: listOf(n, () => []), memories: listOf(n, () => new Map()),
    sent: listOf(wires.length, newHistory), taken: listOf(wires.length, newHistory),
    // in which cycles a value was sent on each wire, also where the value is not on this page
    sends: [], counts: [],
  };
}

function touchedWord(run, p, address) {
  if (!run.memories[p].has(address)) run.memories[p].set(address, newHistory());
  return run.memories[p].get(address);
}

// ---- sums of turns

const SUM = { width: 64, shift: 6 };

// How many turns of each kind each processor had before each 64th position.
function sumTurns(run, processors) {
  const blocks = (run.width >> SUM.shift) + 1, sums = new Uint32Array(processors * blocks * 6);
  for (let p = 0; p < processors; p++) {
    const counts = [0, 0, 0, 0, 0, 0];
    for (let i = 0; i < run.width; i++) {
      if (i % SUM.width === 0) sums.set(counts, 6 * (p * blocks + (i >> SUM.shift)));
      counts[run.kinds[p * run.width + i]]++;
    }
  }
  return { blocks, sums };
}
