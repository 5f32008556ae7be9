"use strict";
// The mouse, or a finger, over the timeline, its ruler and the strip of the whole run.

function tellPlace(canvas, event) {
  const { p, k } = pointedAt(canvas, event), w = k < 0 ? -1 : waitAt(p, k), step = Math.ceil(1 / LINE.step), end = Math.min(RUN.end, k + step);
  const of = "cycle " + k + ", " + nameOf(p) + ": ";
  if (k < 0) return nameOf(p);
  if (step > 1 && end > k) return "cycles " + k + " to " + (end - 1) + ", " + nameOf(p) + ": " + sharesText(turnsFrom(p, k, end), end - k);
  return of + turnWord(p, k) + (w < 0 ? "" : ", wire " + w) + (instructionAt(p, k) ? ", " + instructionAt(p, k) : "");
}

function connectTimeline() {
  const canvas = byId("canvas");
  on("in", "click", () => zoomTime(0.5));
  on("out", "click", () => zoomTime(2));
  on("all", "click", showAll);
  on("count-shown", "click", () => setRange({ from: LINE.first, end: timelineEnd() }));
  on("which-rows", "change", setRows);
  on("fit", "change", redraw);
  on("canvas", "click", (event) => {
    if (LINE.isDragged) return;
    const { p, k } = pointedAt(canvas, event);
    if (k >= 0) PAGE.k = k;
    choose(p);
  });
  on("canvas", "mousemove", (event) => {
    const box = byId("hover");
    setText(box, tellPlace(canvas, event));
    box.style.left = Math.max(0, Math.min(event.clientX + 14, window.innerWidth - box.offsetWidth - 8)) + "px";
    box.style.top = event.clientY - 30 + "px";
  });
  on("canvas", "mouseleave", () => setText(byId("hover"), ""));
  on("canvas", "dblclick", () => (LINE.range ? zoomToRange() : showAll()));
  for (const id of ["canvas", "ruler"]) connectDrag(id);
  on("ruler", "click", (event) => !LINE.isDragged && goTo(pointedAt(canvas, event).k));
  for (const id of ["rows", "scale-of-time", "strip"]) on(id, "wheel", onWheel, { passive: false });
  connectOverview();
}

// Drawing over the timeline or its ruler chooses cycles.
function connectDrag(id) {
  const at = (event) => LINE.first + (event.clientX - byId("canvas").getBoundingClientRect().left - LINE.label) / LINE.step;
  on(id, "pointerdown", (event) => {
    if (event.button || at(event) < LINE.first) return;
    LINE.isDragged = false;
    LINE.drag = { from: at(event), x: event.clientX };
    byId(id).setPointerCapture(event.pointerId);
  });
  on(id, "pointermove", (event) => {
    if (!LINE.drag || (!LINE.isDragged && Math.abs(event.clientX - LINE.drag.x) < 4)) return;
    LINE.isDragged = true;
    const [from, end] = [LINE.drag.from, at(event)].sort((a, b) => a - b);
    setRange({ from: Math.floor(from), end: Math.ceil(end) }, true);
  });
  for (const name of ["pointerup", "pointercancel"]) {
    on(id, name, () => {
      if (LINE.drag && LINE.isDragged) setRange(LINE.range);
      LINE.drag = null;
    });
  }
}

// The wheel zooms over the ruler and the strip, and over the rows with the control key; with shift it moves.
function onWheel(event) {
  const x = event.clientX - byId("canvas").getBoundingClientRect().left, isOnRows = event.currentTarget.id === "rows";
  const sideways = event.shiftKey ? event.deltaY || event.deltaX : Math.abs(event.deltaX) > Math.abs(event.deltaY) ? event.deltaX : 0;
  if (isOnRows && !sideways && !event.ctrlKey && !event.metaKey) return;
  event.preventDefault();
  if (sideways) LINE.first = clampFirst(LINE.first + Math.sign(sideways) * Math.max(1, (Math.abs(sideways) / 2) / LINE.step));
  else zoomAt(event.deltaY < 0 ? 0.8 : 1.25, Math.max(LINE.label, x));
  drawSoon();
}

// Many events before the next frame make one drawing.
function drawSoon() {
  if (PAGE.frame) return;
  PAGE.frame = requestAnimationFrame(() => {
    PAGE.frame = 0;
    drawTime();
  });
}

// Drawing over the strip of all cycles chooses what the timeline shows; a click moves its window there.
function connectOverview() {
  const at = (event) => RUN.begin + (event.clientX - byId("overview").getBoundingClientRect().left - LINE.label) / overviewStep();
  on("strip", "pointerdown", (event) => {
    LINE.drag = { from: at(event), x: event.clientX };
    byId("strip").setPointerCapture(event.pointerId);
  });
  on("strip", "pointermove", (event) => {
    if (!LINE.drag || Math.abs(event.clientX - LINE.drag.x) < 4) return;
    const [from, end] = [LINE.drag.from, at(event)].sort((a, b) => a - b);
    showCycles(Math.floor(from), Math.ceil(end));
    drawSoon();
  });
  on("strip", "pointerup", (event) => {
    if (LINE.drag && Math.abs(event.clientX - LINE.drag.x) < 4) LINE.first = clampFirst(at(event) - LINE.count / 2);
    LINE.drag = null;
    drawTime();
  });
}
