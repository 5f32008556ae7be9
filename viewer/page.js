"use strict";
// The page: which cycle is shown and which processor is chosen, and the controls that change them.

const PAGE = {
  k: RUN.first, p: 0, zoom: 1, isDecimal: false, timer: 0, frame: 0, story: "",
  // the places of the word that is followed, and the cycles and processors from which links were followed
  way: [], trail: [],
  hasPath: false, hasKeys: true, isLarge: false, isPrinted: false,
};
const byId = (id) => document.getElementById(id);

// ---- drawing

function draw() {
  const { k, p } = PAGE;
  if (followCycle(k, false)) drawTime();
  else drawNow(k);
  drawGrid(k, p);
  drawStory();
  drawPanel();
  drawTables();
  byId("slide").value = k;
  byId("cycle").value = k;
  setAttribute(byId("slide"), "aria-valuetext", summaryOf(k));
  setText(byId("say"), summaryOf(k));
  keepAddress();
}

function drawTime() {
  drawTimeline(byId("canvas"), PAGE.k, PAGE.p);
  if (VIEW.isHeat) drawShares();
}

// The shares of the chosen cycles in the grid, with the words of its legend.
function drawShares() {
  nameShares();
  drawGrid(PAGE.k, PAGE.p);
}

function nameShares() {
  const { from, end } = chosenRange();
  setText(byId("which"), "cycles " + from + " to " + (end - 1) + " fired; width of a wire: up to " + many(mostSends(from, end), "word"));
}

// The address names the cycle and the processor, so that it can be sent on, and what else is not as at the start.
function keepAddress() {
  const { range } = LINE, { k, p, hasPath, isLarge, hasKeys } = PAGE;
  const chosen = range ? "&range=" + range.from + "-" + range.end : "";
  const address = "#cycle=" + k + "&p=" + p + chosen + (hasPath ? "&path=on" : "") + (isLarge ? "&large=on" : "") + (hasKeys ? "" : "&keys=off");
  if (location.hash === address) return;
  try {
    history.replaceState(null, "", address);
  } catch {
    // a browser refuses this where it is done too often, or for a file: the page is right without it
  }
}

function drawStory() {
  const shown = isTold(PAGE.k) + ":" + knowsEnd();
  if (PAGE.story === shown) return;
  PAGE.story = shown;
  byId("story").replaceChildren(storyOf(PAGE.k));
}

function drawPanel() {
  const boxes = ["code", "words"], tops = boxes.map((id) => (byId(id) ? byId(id).scrollTop : 0));
  byId("panel").replaceChildren(...panelOf(PAGE.p, PAGE.k));
  boxes.forEach((id, i) => byId(id) && keepInSight(byId(id), tops[i]));
}

// Scrolls a box as it was, or to its marked row where that is out of sight.
function keepInSight(box, top) {
  const marked = box.querySelector(".now");
  box.scrollTop = top;
  if (marked && (marked.offsetTop < top || marked.offsetTop > top + box.clientHeight - 24)) box.scrollTop = marked.offsetTop - box.clientHeight / 2;
}

const TABLES = { counts: countParts, "words-of-cycle": cycleParts, path: pathParts };

// A table is drawn while it is open.
function drawTable(id) {
  if (byId(id).open) byId(id).lastElementChild.replaceChildren(...TABLES[id](PAGE.k));
}

function drawTables() {
  for (const id in TABLES) drawTable(id);
}

function drawRange() {
  const { range } = LINE;
  byId("range").hidden = !range;
  byId("range").replaceChildren(...(range ? rangeParts(range) : []));
}

function redraw() {
  // (a picture can't be cut at the end of a page of paper)
  if (PAGE.isPrinted) sizeRows(true, 480);
  else sizeRows(byId("fit").checked, byId("rows").clientHeight);
  fitGrid(byId("grid"), byId("signs"), PAGE.zoom);
  drawWay(PAGE.way);
  drawOverview();
  drawTime();
  draw();
}

// ---- going about

function goTo(k) {
  PAGE.k = Math.max(RUN.begin, Math.min(RUN.end, Math.round(k) || 0));
  draw();
}

function choose(p) {
  PAGE.p = Math.max(0, Math.min(SET.processors - 1, p));
  byId("pick").value = PAGE.p;
  draw();
  drawNames(byId("canvas"), PAGE.p);
  if (LINE.range) byId("range").querySelector("table")?.replaceWith(rangeTable(LINE.range));
  showRow(PAGE.p);
  showBoxes(byId("grid"), [PAGE.p]);
}

// Goes along a link, from which there is a way back.
function jump(k, p) {
  if (k === PAGE.k && p === PAGE.p) return;
  PAGE.trail.push({ k: PAGE.k, p: PAGE.p });
  arrive(k, p);
}

function arrive(k, p) {
  PAGE.k = Math.max(RUN.begin, Math.min(RUN.end, k));
  choose(p);
  const last = PAGE.trail.at(-1);
  byId("return").hidden = !last;
  if (last) setText(byId("return"), "back to " + last.k);
}

function goBack() {
  const { k, p } = PAGE.trail.pop();
  arrive(k, p);
}

// Goes to the next cycle in which the chosen processor fires, or back to the last one.
function goToStep(way) {
  let k = PAGE.k + way;
  while (k >= RUN.begin && k <= RUN.end && turnAt(PAGE.p, k) !== FIRED) k += way;
  if (k >= RUN.begin && k <= RUN.end) goTo(k);
}

const goToNextStep = () => goToStep(1);
const goToStepBefore = () => goToStep(-1);

function play(isOn) {
  clearInterval(PAGE.timer);
  PAGE.timer = 0;
  if (isOn && PAGE.k === RUN.end) goTo(RUN.begin);
  if (isOn) PAGE.timer = setInterval(() => (PAGE.k < RUN.end ? goTo(PAGE.k + 1) : play(false)), 1000 / byId("speed").value);
  setText(byId("play"), isOn ? "pause" : "play");
  setAttribute(byId("say"), "aria-live", isOn ? "off" : "polite");
}

function find(isForth) {
  const { message, hit } = hitFrom(byId("find").value, PAGE.k, PAGE.p, isForth);
  setText(byId("answer"), message);
  byId("answer").title = message;
  if (hit) jump(hit.k, hit.p);
}

// Shows the way of the word at a place of a wire.
function follow(place) {
  PAGE.way = place ? wayOf(place) : [];
  byId("way").hidden = !place;
  byId("way").replaceChildren(...(place ? wayParts(PAGE.way) : []));
  drawWay(PAGE.way);
  if (byId("which-rows").value === "the word's") setRows();
  drawTime();
  if (place) byId("way").scrollIntoView({ block: "nearest" });
}

// Shows in the timeline the processors on the way alone, in their order, and the cycles that it takes.
function lookAtWay() {
  if (![...byId("which-rows").options].some((it) => it.value === "the word's")) byId("which-rows").append(make("option", {}, "the word's"));
  byId("which-rows").value = "the word's";
  const cycles = PAGE.way.flatMap(({ sent, taken }) => [sent, taken]).filter((k) => k >= RUN.first);
  showCycles(Math.min(...cycles) - 1, Math.max(...cycles) + 2);
  byId("fit").checked = false;
  setRows();
}

// ---- the chosen cycles

function setRange(range, isDrawn) {
  const most = Math.max(RUN.begin + 1, Math.min(RUN.end + 1, OUTCOME.cycles));
  const from = range && Math.max(RUN.begin, Math.min(range.from, most - 1)), end = range && Math.max(from + 1, Math.min(range.end, most));
  LINE.range = range && { from, end };
  if (isDrawn) return drawNow(PAGE.k);
  drawRange();
  drawNow(PAGE.k);
  if (VIEW.isHeat) drawShares();
  return keepAddress();
}

// The chosen cycles begin or end with the shown one.
function setEdge(name) {
  const { from, end } = LINE.range || { from: PAGE.k, end: PAGE.k + 1 };
  setRange(name === "from" ? { from: PAGE.k, end: Math.max(end, PAGE.k + 1) } : { from: Math.min(from, PAGE.k), end: PAGE.k + 1 });
}

function zoomToRange() {
  showCycles(LINE.range.from, LINE.range.end);
  if (!followCycle(PAGE.k, false)) return drawTime();
  showCycles(LINE.range.from, LINE.range.end);
  goTo(LINE.range.from);
  return drawTime();
}

// Whether the grid shows a cycle or shares. Nothing else changes but its legend, which may leave it another height.
function setMode(mode) {
  byId("mode").value = mode;
  VIEW.isHeat = mode === "shares";
  byId("signs").classList.toggle("shares", VIEW.isHeat);
  if (VIEW.isHeat) nameShares();
  fitGrid(byId("grid"), byId("signs"), PAGE.zoom);
  drawWay(PAGE.way);
  drawGrid(PAGE.k, PAGE.p);
}

// The critical path is drawn while its part of the panel is open.
function togglePath() {
  if (PAGE.hasPath === byId("path").open) return;
  PAGE.hasPath = byId("path").open;
  drawTable("path");
  drawTime();
  if (!VIEW.isHeat) drawGrid(PAGE.k, PAGE.p);
  keepAddress();
}

function zoomTime(factor) {
  zoomTimeline(factor, PAGE.k);
  drawTime();
}

function showAll() {
  LINE.count = RUN.width;
  LINE.first = RUN.begin;
  drawTime();
}

// Takes the cycle and the processor from the address, where it names them.
function readAddress() {
  const words = new URLSearchParams(location.hash.slice(1)), isNumber = (text) => /^\d{1,9}$/.test(text);
  if (isNumber(words.get("p"))) PAGE.p = Math.min(SET.processors - 1, Number(words.get("p")));
  if (isNumber(words.get("cycle"))) PAGE.k = Math.max(RUN.begin, Math.min(RUN.end, Number(words.get("cycle"))));
  const range = /^(\d{1,9})-(\d{1,9})$/.exec(words.get("range"));
  if (range) setRange({ from: Number(range[1]), end: Number(range[2]) });
  setLarge(words.get("large") === "on");
  PAGE.hasPath = byId("path").open = words.get("path") === "on";
  PAGE.hasKeys = words.get("keys") !== "off";
  byId("keys").checked = PAGE.hasKeys;
}

function setRows() {
  const rows = ROWS[byId("which-rows").value]();
  LINE.rows = rows.length ? rows : ROWS["all, by place"]();
  redraw();
  showRow(PAGE.p);
}
