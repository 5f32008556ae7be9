"use strict";
// The start of the page: what is written once, and the first drawing.

// The signs of the timeline's legend.
function drawKeys() {
  for (const place of document.querySelectorAll(".key")) {
    const canvas = document.createElement("canvas");
    drawBar(penOf(canvas, 22, 14), Number(place.dataset.kind), 0, 0, 22, 14, colours());
    place.replaceChildren(canvas);
  }
}

function writeHead() {
  const word = knowsEnd() ? OUTCOME.word : "cycles " + RUN.first + " to " + RUN.last;
  setText(byId("head"), word);
  byId("head").className = knowsEnd() ? OUTCOME.word : "";
  setText(byId("sum"), knowsEnd() ? outcomeSentence() : "the run goes on to cycle " + OUTCOME.cycles + ": " + OUTCOME.word);
  const size = "grid " + SET.columns + " " + SET.rows + ", limit " + SET.limit + ", depth " + SET.depth;
  const begin = RUN.begin ? "; this page begins with cycle " + RUN.begin : "";
  byId("facts").title = size;
  setText(byId("facts"), size + "; " + many(OUTCOME.cycles, "cycle") + ", " + many(OUTCOME.steps, "step") + begin);
  setText(byId("counts-head"), "counts of all processors " + (RUN.begin ? "from cycle " + RUN.begin + " on " : "") + "up to this cycle");
  document.title = word + " - grid " + SET.columns + " " + SET.rows + " - rawgrid explore";
}

function writeControls() {
  for (const id of ["slide", "cycle"]) Object.assign(byId(id), { min: RUN.begin, max: RUN.end });
  for (let p = 0; p < SET.processors; p++) byId("pick").append(make("option", { value: p }, nameOf(p) + " #" + p));
  for (const name in ROWS) if (name !== "the word's" && ROWS[name]().length) byId("which-rows").append(make("option", {}, name));
  if (matchMedia("(prefers-reduced-motion: reduce)").matches) byId("speed").value = "1";
  document.body.classList.toggle("many", IS_LARGE);
  // a long run of many processors is looked at as a whole first
  if (RUN.width > 1500 && SET.processors > 30) document.body.classList.add("long");
  byId("fit").checked = RUN.width > 1500;
  if (document.body.classList.contains("long")) byId("which-rows").value = "tiles";
  LINE.rows = ROWS[byId("which-rows").value]();
}

// A page opens at its first cycle; one of a run that did not end well at the end, with a processor that is told.
function start() {
  writeHead();
  writeControls();
  if (OUTCOME.told.size) PAGE.p = [...OUTCOME.told][0];
  if (knowsEnd() && OUTCOME.word !== "done") PAGE.k = RUN.end;
  buildGrid(byId("grid"), choose);
  readAddress();
  byId("pick").value = PAGE.p;
  connectCycles();
  connectPanel();
  connectViews();
  connectTimeline();
  connectWindow();
  drawKeys();
  redraw();
  // (the timeline has its height now)
  redraw();
  showRow(PAGE.p);
  showBoxes(byId("grid"), isTold(PAGE.k) && OUTCOME.told.size ? [...OUTCOME.told] : [PAGE.p]);
}

start();
