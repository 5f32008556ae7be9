"use strict";
// The set of the run, read from the listing at the head of the trace, and the wires that it makes.

const AWAY = { N: [0, -1], E: [1, 0], S: [0, 1], W: [-1, 0] };
const OPPOSITE = { N: "S", E: "W", S: "N", W: "E" };
const NETWORKS = [1, 2];

// Tiles are the processors 0 to tiles - 1, then come their switches in the same order, then the ports. `labels` and
// `lines` say where the text of the set has a program's labels and instructions, where the trace tells it.
function newSet() {
  return { columns: 0, rows: 0, tiles: 0, processors: 0, limit: 0, depth: 4, ports: [], data: [], misses: [], shows: [], programs: [], labels: [], lines: [] };
}

const tileAt = (set, x, y) => Number(y) * set.columns + Number(x);
const portAt = (set, words) => set.ports.find((port) => port.kind === "source" && port.place.join(" ") === words.join(" "));

function addPort(set, [kind, net, x, y, side, room]) {
  set.ports.push({ kind, net: Number(net), x: Number(x), y: Number(y), side, place: [net, x, y, side], room: Number(room || 0), words: [] });
}

const READ_LINE = {
  grid: (set, words) => {
    [set.columns, set.rows] = words.slice(1).map(Number);
    set.tiles = set.columns * set.rows;
  },
  limit: (set, words) => { set.limit = Number(words[1]); },
  depth: (set, words) => { set.depth = Number(words[1]); },
  source: addPort,
  sink: addPort,
  feed: (set, words) => { portAt(set, words.slice(1, 5)).words.push(...words.slice(5).map(Number)); },
  data: (set, [, x, y, address, word]) => { (set.data[tileAt(set, x, y)] ||= new Map()).set(Number(address), Number(word)); },
  misses: (set, [, x, y, ...turns]) => { (set.misses[tileAt(set, x, y)] ||= []).push(...turns.map(Number)); },
  show: (set, [, x, y, address, count]) => { set.shows.push({ tile: tileAt(set, x, y), address: Number(address), count: Number(count) }); },
};

// Reads the program that begins behind a line, and returns the number of its line `end`.
function readProgram(set, lines, i, [kind, x, y]) {
  const end = lines.indexOf("end", i);
  set.programs[tileAt(set, x, y) + (kind === "switch" ? set.tiles : 0)] = lines.slice(i + 1, end);
  return end;
}

// Where the listing of a trace ends: at the first line that tells of its text, of the turns of the run or of its cycles.
const endOfListing = (text) => text.search(/^(label|line|whole|trace)\b/m);

// Reads the lines of the listing.
function readSet(lines) {
  const set = newSet();
  for (let i = 0; lines[i]; i++) {
    const words = lines[i].split(" ");
    if (READ_LINE[words[0]]) READ_LINE[words[0]](set, words);
    else i = readProgram(set, lines, i, words);
  }
  set.processors = 2 * set.tiles + set.ports.length;
  return set;
}

// A wire leads from a processor to another one; each calls its end of it by a side, or P between a tile and its switch.
const newWire = (from, out, to, into, net) => ({ from, out, to, into, net });

function tileWires(set, t) {
  const inward = NETWORKS.map((net) => newWire(set.tiles + t, "P", t, "P", net));
  return [...inward, ...NETWORKS.map((net) => newWire(t, "P", set.tiles + t, "P", net))];
}

function links(set, net, t) {
  const found = [];
  for (const side of "NESW") {
    const x = (t % set.columns) + AWAY[side][0], y = Math.floor(t / set.columns) + AWAY[side][1];
    const inside = x >= 0 && y >= 0 && x < set.columns && y < set.rows;
    if (inside) found.push(newWire(set.tiles + t, side, set.tiles + tileAt(set, x, y), OPPOSITE[side], net));
  }
  return found;
}

function portWire(set, port, i) {
  const beside = set.tiles + tileAt(set, port.x, port.y), p = 2 * set.tiles + i;
  return port.kind === "source" ? newWire(p, "P", beside, port.side, port.net) : newWire(beside, port.side, p, "P", port.net);
}

// The wires in the order of their numbers.
function wiresOf(set) {
  const tiles = Array.from({ length: set.tiles }, (_, t) => t);
  return [
    ...tiles.flatMap((t) => tileWires(set, t)),
    ...NETWORKS.flatMap((net) => tiles.flatMap((t) => links(set, net, t))),
    ...set.ports.map((port, i) => portWire(set, port, i)),
  ];
}
