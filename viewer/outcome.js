"use strict";
// How the run ends: its outcome, the counts of the whole run, and since when the waits of the outcome hold.

const numberAfter = (words, name) => (words.includes(name) ? Number(words[words.indexOf(name) + 1]) : 0);

// A line `wait P wire W for Q`: of the outcome before the line `cycles`, of the counts after it.
function readWaitOf(outcome, words) {
  const wait = { processor: Number(words[1]), wire: Number(words[3]), other: Number(words[5]) };
  if (outcome.cycles < 0) outcome.waits.push(wait);
  else outcome.waited.push({ ...wait, cycles: Number(words[7]) });
}

const READ_COUNT = {
  outcome: (outcome, words) => { [outcome.word, ...outcome.words] = words.slice(1); },
  wait: readWaitOf,
  ends: (outcome, words) => { outcome.ends = Number(words[1]); outcome.endMark = words.slice(2).join(" "); },
  cycles: (outcome, words) => { outcome.cycles = Number(words[1]); outcome.steps = Number(words[3]); },
  passed: (outcome, words) => { outcome.passed[Number(words[1])] = Number(words[2]); },
};

function readOutcome(run) {
  const outcome = { word: "", words: [], waits: [], ends: -1, endMark: "", cycles: -1, steps: 0, totals: [], waited: [], passed: [] };
  for (const line of run.counts) {
    const words = line.split(" ");
    if (READ_COUNT[words[0]]) READ_COUNT[words[0]](outcome, words);
    else outcome.totals.push(KINDS.slice(1).map((kind) => numberAfter(words, kind)));
  }
  // whether the page has the state at rest, and the turns at rest
  outcome.atRest = outcome.cycles === run.last;
  outcome.told = new Set(outcome.waits.map((wait) => wait.processor));
  if (outcome.ends >= 0) outcome.told.add(outcome.ends);
  if (outcome.word === "trapped" || outcome.word === "limit") outcome.told.add(Number(outcome.words[0]));
  return outcome;
}

// Since which position a processor waits for this wire, or is stopped where the wire is -1, looking back from the end.
function heldSince(run, p, wire) {
  const at = p * run.width, holds = (i) => (wire < 0 ? run.kinds[at + i] === STOPPED : run.waits[at + i] === wire);
  let i = run.width - 1;
  while (i > 0 && holds(i - 1)) i--;
  return run.begin + i;
}

// The cycle since which all waits of the outcome hold and the processor in which they end is stopped. Where this is the
// first cycle of a page that begins late, they may have held before.
function closedIn(run, outcome) {
  if (outcome.cycles !== run.end || !outcome.waits.length) return run.end;
  const held = outcome.waits.map((wait) => heldSince(run, wait.processor, wait.wire));
  return Math.max(...held, outcome.ends < 0 ? run.begin : heldSince(run, outcome.ends, -1));
}
