"use strict";
// The timeline: a row for each processor, a column for each cycle or for many. Each kind of turn has a colour and a place
// in the row, so that no colour is needed to tell them apart. Above it are a ruler and all of the run, with its window.

const LINE = { first: RUN.begin, count: RUN.width, label: 104, step: 1, height: 13, rows: [], range: null, drag: null, isDragged: false };
const OVERVIEW = 26, RULER = 18;
const topOfRow = (row) => Math.round(row * LINE.height);
const timelineEnd = () => LINE.first + LINE.count;
const xOf = (k) => LINE.label + (k - LINE.first) * LINE.step;

// Which processors have a row, in which order: that of the grid, each tile with its switch, and then the ports.
const ROWS = {
  "all, by place": () => [...listOf(2 * SET.tiles, (_, i) => (i >> 1) + (i % 2) * SET.tiles), ...listOf(SET.ports.length, (_, i) => 2 * SET.tiles + i)],
  tiles: () => listOf(SET.tiles, (_, t) => t),
  switches: () => listOf(SET.tiles, (_, t) => SET.tiles + t),
  ports: () => listOf(SET.ports.length, (_, i) => 2 * SET.tiles + i),
  "the outcome's": () => [...OUTCOME.told],
  "the word's": () => [...new Set(PAGE.way.flatMap(({ w }) => [WIRES[w].from, WIRES[w].to]))],
  "the path's": () => ROWS["all, by place"]().filter((p) => PATH.some((it) => it.p === p)),
};

function colours() {
  const style = getComputedStyle(document.documentElement), of = (name) => style.getPropertyValue("--" + name).trim();
  const kinds = ["", of("fired-edge"), of("stalled-edge"), of("starved-edge"), of("blocked-edge"), of("edge")];
  return { ink: of("ink"), soft: of("soft"), rule: of("rule"), on: of("on"), page: of("page"), cell: of("cell"), way: of("way"), critical: of("critical"), kinds };
}

// From where and how high the bar of a kind is, within a row.
function barOf(kind, height) {
  const third = Math.max(1, Math.floor((height - 2) / 3));
  switch (kind) {
    case FIRED: return [1, height - 2];
    case STALLED: return [1 + third, third];
    case STARVED: return [height - 1 - third, third];
    case BLOCKED: return [1, third];
    default: return [Math.floor(height / 2), 1];
  }
}

function drawBar(pen, kind, x, y, width, height, colour) {
  const [from, high] = barOf(kind, height);
  pen.fillStyle = colour.kinds[kind];
  pen.fillRect(x, y + from, width, high);
}

function penOf(canvas, width, height) {
  const ratio = window.devicePixelRatio || 1, pen = canvas.getContext("2d");
  Object.assign(canvas, { width: Math.round(width * ratio), height: Math.round(height * ratio) });
  Object.assign(canvas.style, { width: width + "px", height: height + "px" });
  pen.scale(ratio, ratio);
  return pen;
}

// ---- the rows

// The size of the type on the canvas, which follows that of the page.
const typeSize = () => parseFloat(getComputedStyle(document.documentElement).fontSize) / 15;

function sizeRows(isFitted, space) {
  const least = isFitted ? 2 : Math.round(12 * typeSize());
  const height = Math.max(least, Math.min(Math.round(20 * typeSize()), space / LINE.rows.length));
  LINE.height = height > 8 ? Math.floor(height) : height;
  LINE.label = Math.round(112 * typeSize());
}

function drawTimeline(canvas, k, chosen) {
  const width = canvas.parentElement.clientWidth, height = LINE.height, colour = colours();
  const pen = penOf(canvas, width, height * LINE.rows.length);
  LINE.step = (width - LINE.label - 6) / LINE.count;
  pen.textBaseline = "middle";
  if (LINE.step < 1.5) drawAllShares(pen, canvas, width, colour);
  drawRules(pen, width, colour);
  if (LINE.step >= 1.5) LINE.rows.forEach((p, row) => drawTurns(pen, p, topOfRow(row), topOfRow(row + 1) - topOfRow(row), colour));
  drawLabels(pen, chosen, colour);
  drawClosing(pen, height * LINE.rows.length, colour);
  drawPathInTime(pen, colour);
  drawWayInTime(pen, colour);
  const what = "timeline: cycles " + LINE.first + " to " + (timelineEnd() - 1) + " of " + LINE.rows.length + " processors";
  setAttribute(canvas, "aria-label", what + "; the counts beside it have the same in numbers");
  drawRuler(width, colour);
  drawNow(k);
}

// Lines between rows that are not low.
function drawRules(pen, width, colour) {
  if (LINE.height <= 8) return;
  pen.fillStyle = colour.rule;
  LINE.rows.forEach((_, row) => pen.fillRect(0, (row + 1) * LINE.height - 1, width, 1));
}

// Writes the names anew: no more of the timeline changes with the chosen processor.
function drawNames(canvas, chosen) {
  const pen = canvas.getContext("2d"), width = LINE.label - 8, colour = colours();
  pen.clearRect(0, 0, width, LINE.height * LINE.rows.length);
  drawRules(pen, width, colour);
  drawLabels(pen, chosen, colour);
}

// The names, as many as there is room for; that of the chosen processor and those of the outcome in any case.
function drawLabels(pen, chosen, colour) {
  const height = LINE.height, size = Math.min(Math.max(height, 10), 11) * typeSize(), least = Math.ceil((size + 1) / height), every = everyRow(least);
  pen.font = size + "px monospace";
  const isOn = (p) => OUTCOME.cycles === RUN.end && OUTCOME.told.has(p);
  LINE.rows.forEach((p, row) => {
    if (p !== chosen && row % every && !(isOn(p) && every === 1)) return;
    if (p !== chosen && every > 1 && Math.abs(row - LINE.rows.indexOf(chosen)) < least) return;
    pen.fillStyle = isOn(p) ? colour.on : p === chosen ? colour.ink : colour.soft;
    pen.fillText((p === chosen ? ">" : isOn(p) ? "!" : " ") + nameOf(p), 2, Math.max(size / 2, row * height + height / 2) + 1);
  });
}

// Where there is no room for all names, those at the beginning of each row of the grid, or of every so many.
function everyRow(least) {
  const row = SET.columns * (document.getElementById("which-rows").value === "all, by place" ? 2 : 1);
  return least > 1 ? Math.ceil(least / row) * row : 1;
}

// A bar for each turn; those of one kind side by side are one bar where they are narrow. Wide ones name the instruction.
function drawTurns(pen, p, y, height, colour) {
  const gap = LINE.step >= 6 ? 1 : 0, end = timelineEnd(), size = 10 * typeSize();
  pen.font = size + "px monospace";
  for (let k = LINE.first; k < end; ) {
    const kind = turnAt(p, k);
    let next = k + 1;
    while (!gap && next < end && turnAt(p, next) === kind) next++;
    drawBar(pen, kind, xOf(k), y, Math.max(1, (next - k) * LINE.step - gap), height, colour);
    const name = kind === FIRED && height >= size + 1 ? instructionAt(p, k).split(" ")[0] : "";
    if (name && LINE.step > 0.62 * size * name.length + 4) {
      pen.fillStyle = colour.page;
      pen.fillText(name, xOf(k) + 3, y + height / 2 + 1);
    }
    k = next;
  }
}

// A line at the cycle since which the waits of the outcome hold.
function drawClosing(pen, height, colour) {
  if (OUTCOME.cycles !== RUN.end || !OUTCOME.waits.length || CLOSED < LINE.first) return;
  pen.fillStyle = colour.on;
  pen.fillRect(xOf(CLOSED) - 1, 0, 1, height);
}

// The critical path: a line along each of its stretches, and on to the processor of the next one.
function drawPathInTime(pen, colour) {
  if (!PAGE.hasPath) return;
  const line = new Path2D();
  for (const points of pathLines()) thinned(points).forEach(([x, y], i) => (i ? line.lineTo(x, y) : line.moveTo(x, y)));
  for (const [width, name] of [[4.5, "page"], [2.5, "critical"]]) {
    pen.lineWidth = width;
    pen.strokeStyle = colour[name];
    pen.stroke(line);
  }
}

// The points of the critical path, as lines that end where its next processor has no row.
function pathLines() {
  const half = LINE.height / 2, rows = new Map(LINE.rows.map((p, row) => [p, row * LINE.height + half])), lines = [[]];
  for (const { p, from, end } of stretchesIn(LINE.first - 1, timelineEnd() + 1)) {
    const y = rows.get(p), x = Math.max(LINE.label, xOf(from));
    if (y !== undefined) lines.at(-1).push([x, y], [Math.max(x, xOf(end)), y]);
    else if (lines.at(-1).length) lines.push([]);
  }
  return lines;
}

// A line without what changes nothing: of its points in one column of pixels the first and the last stay, the highest and
// the lowest.
function thinned(points) {
  const kept = [];
  for (let i = 0, end; i < points.length; i = end) {
    let low = i, high = i;
    for (end = i + 1; end < points.length && Math.floor(points[end][0]) === Math.floor(points[i][0]); end++) {
      if (points[end][1] < points[low][1]) low = end;
      if (points[end][1] > points[high][1]) high = end;
    }
    for (const at of new Set([i, Math.min(low, high), Math.max(low, high), end - 1])) kept.push(points[at]);
  }
  return kept;
}

// The word that is followed: a line from where it is sent to where it is taken, wire after wire.
function drawWayInTime(pen, colour) {
  const half = LINE.height / 2, at = (p, k) => [xOf(k + 0.5), LINE.rows.indexOf(p) * LINE.height + half];
  pen.lineWidth = 2;
  for (const { w, sent, taken } of PAGE.way) {
    const { from, to } = WIRES[w], [x, y] = at(from, sent), end = at(to, taken === undefined ? RUN.last : taken);
    if (y < 0 || end[1] < 0 || sent < RUN.first) continue;
    pen.strokeStyle = pen.fillStyle = colour.way;
    pen.beginPath();
    pen.moveTo(x, y);
    pen.lineTo(...end);
    pen.stroke();
    for (const [a, b] of taken === undefined ? [[x, y]] : [[x, y], end]) {
      pen.beginPath();
      pen.arc(a, b, Math.min(5, half), 0, 7);
      pen.fill();
    }
  }
}
