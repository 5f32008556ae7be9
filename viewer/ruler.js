"use strict";
// The ruler of the timeline, the strip of the whole run above it, and which cycles the timeline shows.

// A distance of 1, 2 or 5 and zeros, not less than `least`.
function niceStep(least) {
  const power = 10 ** Math.floor(Math.log10(Math.max(1, least)));
  return [1, 2, 5, 10].map((it) => it * power).find((it) => it >= least);
}

function drawRuler(width, colour) {
  const size = 11 * typeSize(), height = RULER * typeSize(), pen = penOf(document.getElementById("ruler"), width, height);
  const digits = String(timelineEnd()).length, step = niceStep((digits + 2) * 0.62 * size / LINE.step), small = Math.max(1, step / 5);
  pen.font = size + "px monospace";
  pen.textBaseline = "middle";
  pen.fillStyle = colour.soft;
  pen.fillText(" cycle", 2, height / 2);
  for (let k = Math.ceil(LINE.first / small) * small; k < timelineEnd(); k += small) {
    const isNamed = k % step === 0, x = xOf(k);
    pen.fillStyle = isNamed ? colour.soft : colour.rule;
    pen.fillRect(x, isNamed ? 0 : height - 5, 1, height);
    pen.fillStyle = colour.ink;
    if (isNamed && x + digits * 0.62 * size < width) pen.fillText(String(k), x + 3, height / 2);
  }
}

function drawOverview() {
  const canvas = document.getElementById("overview"), width = document.getElementById("rows").clientWidth, colour = colours(), height = OVERVIEW * typeSize();
  const pen = penOf(canvas, width, height), ratio = canvas.width / width;
  const columns = Math.round((width - LINE.label - 6) * ratio), image = pen.createImageData(columns, canvas.height);
  const edges = listOf(columns + 1, (_, x) => RUN.begin + Math.floor((x * RUN.width) / columns));
  fillShares(new Uint32Array(image.data.buffer), columns, LINE.rows, edges, 0, canvas.height, pixelsOf(colour), false);
  pen.putImageData(image, Math.round(LINE.label * ratio), 0);
  pen.font = 11 * typeSize() + "px monospace";
  pen.textBaseline = "middle";
  pen.fillStyle = colour.soft;
  pen.fillText(" together", 2, height / 2);
}

const overviewStep = () => (document.getElementById("rows").clientWidth - LINE.label - 6) / RUN.width;

// The frames: of the shown cycle, of the chosen range, and of what the timeline shows of the whole.
function drawNow(k) {
  const place = (id, from, to, isSeen) => {
    const style = document.getElementById(id).style;
    Object.assign(style, { left: from + "px", width: Math.max(2, to - from) + "px", display: isSeen ? "" : "none" });
    return style;
  };
  const height = LINE.height * LINE.rows.length + "px", now = Math.floor(xOf(k)), { range } = LINE, most = timelineEnd();
  place("now", now - 2, now + Math.max(3, Math.ceil(LINE.step) + 1), k >= LINE.first && k < most).height = height;
  const from = range ? Math.max(LINE.first, range.from) : 0, end = range ? Math.min(most, range.end) : 0;
  for (const id of ["span", "span-ruler"]) place(id, xOf(from), xOf(end), from < end).height = id === "span" ? height : "";
  const step = overviewStep(), x = (cycle) => LINE.label + (cycle - RUN.begin) * step;
  place("window", x(LINE.first), x(most), true);
  place("now-overview", x(k) - 1, x(k) + 1, true);
  place("states", x(RUN.first), x(RUN.last + 1), RUN.positions < RUN.width);
  const flag = document.getElementById("flag");
  flag.textContent = k;
  flag.style.display = k >= LINE.first && k < most ? "" : "none";
  flag.style.left = Math.max(LINE.label - 10, Math.min(now - 2, document.getElementById("rows").clientWidth - flag.offsetWidth)) + "px";
}

// ---- the window and the range

const clampFirst = (first) => Math.max(RUN.begin, Math.min(RUN.end + 1 - LINE.count, Math.round(first)));

// Moves the window of the timeline where cycle k is not in it, or so that it is in the middle; whether it moved.
function followCycle(k, toMiddle) {
  const isIn = k >= LINE.first && k < timelineEnd();
  if (isIn && !toMiddle) return false;
  LINE.first = clampFirst(k - Math.floor(LINE.count / 2));
  return true;
}

function setCount(count) {
  LINE.count = Math.max(Math.min(16, RUN.width), Math.min(RUN.width, Math.round(count)));
}

function zoomTimeline(factor, k) {
  setCount(LINE.count * factor);
  followCycle(k, true);
}

// Zooms so that the cycle at a place stays there.
function zoomAt(factor, x) {
  const k = LINE.first + (x - LINE.label) / LINE.step, share = (k - LINE.first) / LINE.count;
  setCount(LINE.count * factor);
  LINE.first = clampFirst(k - share * LINE.count);
}

function showCycles(from, end) {
  setCount(end - from);
  LINE.first = clampFirst(from - (LINE.count - (end - from)) / 2);
}

// The cycles that counts and shares are of: the chosen range, else what the timeline shows.
const chosenRange = () => LINE.range || { from: LINE.first, end: Math.min(timelineEnd(), Math.max(LINE.first + 1, OUTCOME.cycles)) };

// The processor and the cycle at a place of the canvas; in the labels there is no cycle.
function pointedAt(canvas, event) {
  const { left, top } = canvas.getBoundingClientRect(), x = event.clientX - left - LINE.label;
  const row = Math.floor((event.clientY - top) / LINE.height), k = LINE.first + Math.floor(x / LINE.step);
  return { p: LINE.rows[Math.max(0, Math.min(LINE.rows.length - 1, row))], k: x < 0 ? -1 : Math.max(RUN.begin, Math.min(RUN.end, k)) };
}

// Scrolls the rows so that processor p is in sight.
function showRow(p) {
  const box = document.getElementById("rows"), y = LINE.rows.indexOf(p) * LINE.height;
  if (y < 0) return;
  if (y < box.scrollTop || y + LINE.height > box.scrollTop + box.clientHeight) box.scrollTop = y - (box.clientHeight - LINE.height) / 2;
}
