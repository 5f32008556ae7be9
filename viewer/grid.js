"use strict";
// The grid as a drawing: what is drawn once, and what changes with the cycle.

const SVG = "http://www.w3.org/2000/svg";

// ---- small helpers

function shape(name, attributes, parent) {
  const element = document.createElementNS(SVG, name);
  for (const key in attributes) element.setAttribute(key, attributes[key]);
  if (parent) parent.append(element);
  return element;
}

function setAttribute(element, key, value) {
  if (element.getAttribute(key) !== String(value)) element.setAttribute(key, value);
}

function setText(element, text) {
  if (element.textContent !== text) element.textContent = text;
}

// ---- what is drawn once

const VIEW = {
  root: null, width: 0, height: 0, scale: 1, detail: "", boxes: [], wires: [], waits: [],
  // the path along the waits of the outcome and its tags; the bands of the critical path and of the word that is followed
  path: null, tags: null, isTagged: false, critical: null, way: null,
  // whether shares of cycles are shown, and not one cycle
  isHeat: false,
};

function frame() {
  const left = Math.min(-10, ...BOXES.map((box) => box.x)) - 8, top = Math.min(-10, ...BOXES.map((box) => box.y)) - 8;
  const right = Math.max(SET.columns * CELL.width - 22, ...BOXES.map((box) => box.x + box.width)) + 14;
  const bottom = Math.max(SET.rows * CELL.height - 16, ...BOXES.map((box) => box.y + box.height)) + 10;
  return { left, top, width: right - left, height: bottom - top };
}

function buildGrid(parent, choose) {
  const { left, top, width, height } = frame();
  const label = "grid of " + SET.columns + " by " + SET.rows + " tiles: what each processor does in this cycle";
  VIEW.root = shape("svg", { viewBox: [left, top, width, height].join(" "), role: "group", "aria-label": label }, null);
  Object.assign(VIEW, { width, height });
  buildHeads(shape("defs", {}, VIEW.root));
  buildGround();
  VIEW.path = shape("path", { class: "path" }, VIEW.root);
  for (const name of ["critical", "way"]) VIEW[name] = { bands: shape("g", { class: name }, VIEW.root), tags: shape("g", { class: name }, null), shown: null };
  WIRES.forEach((wire, w) => VIEW.wires.push(buildWire(w)));
  for (let p = 0; p < SET.processors; p++) VIEW.waits.push(shape("path", { class: "wait" }, VIEW.root));
  BOXES.forEach((box, p) => VIEW.boxes.push(buildBox(p, box, choose)));
  VIEW.tags = shape("g", {}, VIEW.root);
  VIEW.root.append(VIEW.critical.tags, VIEW.way.tags);
  parent.append(VIEW.root);
}

// The heads of arrows: networks 1 and 2, waits, and waits of the outcome.
function buildHeads(parent) {
  for (const i of [1, 2, 3, 4]) {
    const size = { markerWidth: 16, markerHeight: 16, refX: i === 4 ? 10 : 7, refY: 8 };
    const head = shape("marker", { id: "head" + i, viewBox: "0 0 16 16", markerUnits: "userSpaceOnUse", orient: "auto", ...size }, parent);
    shape("path", { class: "head" + i, d: i === 4 ? "M0 1L12 8L0 15z" : "M1 4L9 8L1 12z" }, head);
  }
}

// Cells and channels.
function buildGround() {
  for (let t = 0; t < SET.tiles; t++) {
    const { x, y } = cornerOf(t), size = { width: CELL.width - 12, height: CELL.height - 12, rx: 6 };
    shape("rect", { class: "cell", x: x - 8, y: y - 8, ...size }, VIEW.root);
  }
  const seen = new Set();
  CHANNELS.forEach((channel, w) => {
    const isOfPort = isPort(WIRES[w].from) || isPort(WIRES[w].to), key = channel.x + " " + channel.y;
    if (!isOfPort && seen.has(key)) return;
    if (!isOfPort) seen.add(key);
    buildChannel(channel, isOfPort);
  });
}

// All four lanes of a link, or the one lane of a port.
function buildChannel({ x, y, length, way, lane }, isOfPort) {
  const offset = isOfPort ? LANE * lane : 0, across = isOfPort ? LANE : 4 * LANE;
  const place = isUpright(way) ? { x: x + offset, y, width: across, height: length } : { x, y: y + offset, width: length, height: across };
  shape("rect", { class: "link", ...place }, VIEW.root);
}

function buildWire(w) {
  const group = shape("g", { class: "" }, VIEW.root), channel = CHANNELS[w], track = trackOf(channel);
  const from = along(channel, track, 1), to = along(channel, track, channel.length - 4);
  const line = shape("path", { d: "M" + from.join(" ") + "L" + to.join(" ") }, group);
  return { group, line, shown: null };
}

function buildBox(p, box, choose) {
  const group = shape("g", { class: "box", role: "button", tabindex: -1 }, VIEW.root), { x, y, width, height } = box;
  shape("rect", { x, y, width, height, rx: 4 }, group);
  shape("rect", { class: "ring", x: x - 4.5, y: y - 4.5, width: width + 9, height: height + 9, rx: 7 }, group);
  const text = (name, dx, dy) => shape("text", { class: name, x: x + dx, y: y + dy }, group);
  const parts = { group, title: shape("title", {}, group), shown: null };
  if (isPort(p)) parts.mark = text("count", 6, height - 4);
  else {
    parts.name = text("name", 6, 18);
    parts.sign = shape("rect", { class: "sign" }, group);
    text("number end", width - 6, IS_LARGE ? 13 : 18).textContent = "#" + p;
    Object.assign(parts, { mark: text("mark", 6, 37), code: text("code", 6, IS_LARGE ? 43 : 56), pc: text("pc", 6, 56) });
  }
  group.addEventListener("click", () => choose(p));
  return parts;
}

// ---- what changes with the cycle

function drawGrid(k, chosen) {
  const { from, end } = chosenRange();
  const most = VIEW.isHeat ? mostSends(from, end) : 0;
  for (let w = 0; w < WIRES.length; w++) (VIEW.isHeat ? drawUse : drawWire)(w, VIEW.isHeat ? from : k, end, most);
  for (let p = 0; p < SET.processors; p++) VIEW.isHeat ? drawHeat(p, k, p === chosen, from, end) : drawBox(p, k, p === chosen);
  for (let p = 0; p < SET.processors; p++) drawWait(p, k);
  drawPath(k);
  drawCritical(k, from, end);
}

function isNew(view, shown) {
  if (view.shown === shown) return false;
  view.shown = shown;
  return true;
}

// A wire with the values that it holds at the beginning of cycle k. Of those that are taken in this cycle the frame alone
// is drawn; one that is sent in it stands at the wire's beginning.
function drawWire(w, k) {
  const view = VIEW.wires[w], held = valuesAt(w, k), taken = hasState(k) ? takenIn(w, k).length : 0, sent = sentIn(w, k);
  const isSent = sendsFrom(w, k, k + 1) > 0;
  if (!isNew(view, [held.join(), taken, sent, isSent].join(":"))) return;
  emptyWire(view);
  const moves = taken > 0 || isSent, holds = held.length > 0 || moves;
  setAttribute(view.group, "class", "wire net" + WIRES[w].net + (holds ? " holds" : "") + (moves ? " moves" : ""));
  setAttribute(view.line, "marker-end", holds ? "url(#head" + WIRES[w].net + ")" : "none");
  if (!holds) return;
  const size = beadSize(w), gap = size + 1;
  held.forEach((value, i) => drawBead(view.group, w, CHANNELS[w].length - 5 - size - gap * i, size, i < taken ? "bead taken" : "bead"));
  if (isSent) drawBead(view.group, w, 6, size, "bead");
  const shown = sent === undefined ? held[0] : sent;
  if (shown !== undefined) drawValue(view.group, w, shown, sent === undefined ? 6 : 13);
  const does = (taken ? "; taken: " + taken : "") + (sent === undefined ? "" : "; sent: " + hex(sent));
  shape("title", {}, view.group).textContent = wireName(w) + ": " + held.map(hex).join(" ") + does;
}

function emptyWire(view) {
  while (view.group.childNodes.length > 1) view.group.lastChild.remove();
  view.line.style.strokeWidth = "";
}

const wireName = (w) => "wire " + w + ", network " + WIRES[w].net + ", from " + nameOf(WIRES[w].from) + " to " + nameOf(WIRES[w].to);
const beadSize = (w) => Math.min(9, LANE - 3, Math.floor((CHANNELS[w].length - 8) / (SET.depth + 1)) - 1);

const mostSends = (from, end) => Math.max(1, ...WIRES.map((_, w) => sendsFrom(w, from, end)));

// How much a wire is used in a range of cycles, as its width; `most` is how many values the most used one has.
function drawUse(w, from, end, most) {
  const view = VIEW.wires[w], sends = sendsFrom(w, from, end), share = sends / Math.max(1, end - from);
  if (!isNew(view, ["use", from, end, VIEW.detail].join())) return;
  emptyWire(view);
  setAttribute(view.group, "class", "wire net" + WIRES[w].net + (sends ? " holds" : ""));
  setAttribute(view.line, "marker-end", "none");
  if (!sends) return;
  view.line.style.strokeWidth = (1 + (sends / most) * (LANE + 1)).toFixed(1) + "px";
  if (CHANNELS[w].length > 60 && VIEW.detail !== "tiny") drawText(view.group, w, many(sends, "word"), 10);
  const title = wireName(w) + ": " + many(sends, "value") + " in the cycles " + from + " to " + (end - 1) + ", " + percent(share);
  shape("title", {}, view.group).textContent = title;
}

const percent = (share) => (share > 0 && share < 0.01 ? "<1%" : share < 1 && share > 0.99 ? ">99%" : Math.round(100 * share) + "%");

function drawBead(group, w, distance, size, name) {
  const [x, y] = along(CHANNELS[w], trackOf(CHANNELS[w]), distance);
  shape("rect", { class: name, x: x - size / 2, y: y - size / 2, width: size, height: size, rx: 2 }, group);
}

const drawValue = (group, w, value, distance) => drawText(group, w, value.toString(16), distance);

function drawText(group, w, text, distance) {
  const channel = CHANNELS[w], [x, y] = along(channel, trackOf(channel), distance);
  const place = isUpright(channel.way) ? { x: x + 4, y, transform: "rotate(-90 " + (x + 4) + " " + y + ")" } : { x, y: y + 4 };
  const name = channel.way === "W" || channel.way === "S" ? "end" : "start";
  shape("text", { class: name, ...place }, group).textContent = text;
}

function drawBox(p, k, isChosen) {
  const view = VIEW.boxes[p], isOn = isTold(k) && OUTCOME.told.has(p), word = turnWord(p, k);
  if (!isNew(view, [word, waitAt(p, k), isOn, isChosen, stepsAt(p, k), pcAt(p, k), hasState(k), VIEW.detail].join())) return;
  paint(view, "");
  const names = ["box", turnClass(p, k), isOn ? "on" : "", isChosen ? "chosen" : "", isPort(p) ? "port" : ""];
  nameBox(view, names, isChosen, labelOf(p, k));
  if (isPort(p)) setText(view.mark, portText(p, k, word));
  else drawTexts(p, k, word, view);
}

function nameBox(view, names, isChosen, label) {
  setAttribute(view.group, "class", names.filter(Boolean).join(" "));
  setAttribute(view.group, "tabindex", isChosen ? 0 : -1);
  setAttribute(view.group, "aria-pressed", isChosen);
  setAttribute(view.group, "aria-label", label);
  setText(view.title, label);
}

const paint = (view, colour) => { view.group.firstChild.style.fill = colour; };

// A box with the share of cycles in which its processor fired; the fuller its colour, the more.
function drawHeat(p, k, isChosen, from, end) {
  const view = VIEW.boxes[p], isOn = isTold(k) && OUTCOME.told.has(p);
  if (!isNew(view, ["heat", from, end, isOn, isChosen, VIEW.detail].join())) return;
  const counts = turnsFrom(p, from, end), share = counts[FIRED] / Math.max(1, end - from);
  const label = nameOf(p) + ", cycles " + from + " to " + (end - 1) + ": " + sharesText(counts, end - from);
  nameBox(view, ["box", "heat", isOn ? "on" : "", isChosen ? "chosen" : "", isPort(p) ? "port" : ""], isChosen, label);
  paint(view, "color-mix(in srgb, var(--heat) " + Math.round(100 * share) + "%, var(--page))");
  if (isPort(p)) return setText(view.mark, portOf(p).kind + " " + portOf(p).net + ": " + counts[FIRED]);
  const most = [STALLED, STARVED, BLOCKED, STOPPED].reduce((a, b) => (counts[b] > counts[a] ? b : a));
  setText(view.mark, percent(share) + (VIEW.detail === "large" ? " fired" : ""));
  setText(view.code, counts[most] ? KINDS[most] + " " + percent(counts[most] / (end - from)) : "");
  setText(view.pc, "");
  placeTexts(p, view, percent(share));
}

const sharesText = (counts, cycles) => KINDS.slice(1).map((kind, i) => kind + " " + percent(counts[i + 1] / Math.max(1, cycles))).join(", ");

function labelOf(p, k) {
  const w = waitAt(p, k), instruction = instructionAt(p, k);
  const wait = w < 0 ? "" : ", wire " + w + " for " + nameOf(otherEnd(w, p));
  return nameOf(p) + ", processor " + p + ": " + turnWord(p, k) + wait + (instruction ? ", pc " + pcAt(p, k) + " " + instruction : "");
}

function portText(p, k, word) {
  const port = portOf(p), count = stepsAt(p, k) + "/" + (isSource(p) ? port.words.length : port.room);
  const whole = port.kind + " " + port.net + ": " + count + " " + word;
  return whole.length <= (VIEW.detail === "large" ? 28 : 20) ? whole : cutTo(count + " " + word, 28);
}

const cutTo = (text, length) => (text.length > length ? text.slice(0, length - 2) + ".." : text);

// What fits into the box of a tile or a switch, by the size in which it is drawn.
function drawTexts(p, k, word, view) {
  const isLarge = VIEW.detail === "large", wait = waitAt(p, k);
  const whole = word + (wait >= 0 && isLarge ? ", wire " + wait : "");
  setText(view.mark, whole.length <= (isLarge ? 18 : 8) ? whole : word.split(" ")[0]);
  setText(view.code, cutTo(instructionAt(p, k), Math.floor((BOXES[p].width - 10) / 6)));
  setText(view.pc, programOf(p).length && hasState(k) ? "pc " + pcAt(p, k) : "");
  placeTexts(p, view, "");
  drawSign(turnAt(p, k), BOXES[p], view.sign);
}

// The lines of a box. Where it is tiny it has the place alone, and a sign for the kind of its turn, or a share.
function placeTexts(p, view, share) {
  const lines = IS_LARGE ? { large: [13, 28, 43], medium: [20, 42, 0], tiny: [35, 35, 0] } : { large: [18, 37, 56], medium: [19, 40, 59], tiny: [43, 43, 0] };
  const isTiny = VIEW.detail === "tiny", place = placeOf(isTile(p) ? p : p - SET.tiles);
  [view.name, view.mark, view.pc].forEach((text, i) => setAttribute(text, "y", BOXES[p].y + lines[VIEW.detail][i]));
  setText(view.name, isTiny ? (isTile(p) ? place : share ? "" : "sw") : nameOf(p));
  if (isTiny && share) setText(view.name, isTile(p) ? share : share === "0%" ? "" : share);
  setAttribute(view.sign, "height", 0);
}

// The sign of a kind of turn is its bar in the timeline.
function drawSign(kind, box, sign) {
  if (VIEW.detail !== "tiny") return;
  const [from, high] = barOf(kind, 22), x = box.x + box.width - 36;
  for (const [key, value] of Object.entries({ x, y: box.y + box.height / 2 - 11 + from, width: 30, height: Math.max(high, 3) })) setAttribute(sign, key, value);
}

// The arrow from a processor that waits to the one that it waits for.
function drawWait(p, k) {
  const arrow = VIEW.waits[p], w = VIEW.isHeat ? -1 : waitAt(p, k);
  const isOn = isTold(k) && OUTCOME.waits.some((wait) => wait.processor === p);
  setAttribute(arrow, "class", isOn ? "wait on" : "wait");
  setAttribute(arrow, "marker-end", w < 0 ? "none" : isOn ? "url(#head4)" : "url(#head3)");
  if (w < 0) return setAttribute(arrow, "d", "");
  const [from, to] = waitEnds(p, w), cut = isOn ? 6 : 3;
  const tip = [0, 1].map((i) => to[i] - cut * Math.sign(to[i] - from[i]));
  return setAttribute(arrow, "d", "M" + from.join(" ") + "L" + tip.join(" "));
}

// The path along the waits of the outcome, closed for a deadlock, and their tags.
function drawPath(k) {
  const told = isTold(k) && !VIEW.isHeat ? OUTCOME.waits : [];
  const points = told.map((wait) => waitEnds(wait.processor, wait.wire).map((point) => point.join(" ")).join("L")).join("L");
  setAttribute(VIEW.path, "d", points ? "M" + points + (OUTCOME.word === "deadlock" ? "Z" : "") : "");
  if (VIEW.isTagged === told.length > 0) return;
  VIEW.isTagged = told.length > 0;
  VIEW.tags.replaceChildren();
  told.filter((wait) => CHANNELS[wait.wire].length > 80).forEach(buildTag);
}

function buildTag(wait) {
  const [from, to] = waitEnds(wait.processor, wait.wire), x = (from[0] + to[0]) / 2, y = (from[1] + to[1]) / 2;
  const group = shape("g", { class: "tag" }, VIEW.tags);
  if (from[0] === to[0]) group.setAttribute("transform", "rotate(-90 " + x + " " + y + ")");
  shape("rect", { x: x - 25, y: y - 6.5, width: 50, height: 13, rx: 3 }, group);
  shape("text", { class: "middle", x, y: y + 3.5 }, group).textContent = "wire " + wait.wire;
}

// The wires on which a word went, with the cycles in which it was sent; `places` are those of `wayOf`.
function drawWay(places) {
  emptyBands(VIEW.way);
  for (const { w, sent } of places) drawBand(VIEW.way, w, sent < RUN.first ? "<" + RUN.first : String(sent), VIEW.isTagged ? 0.2 : 0.5);
}

function emptyBands(view) {
  view.bands.replaceChildren();
  view.tags.replaceChildren();
}

// A band along a wire with a text on it, which stands beside the name of the wire where that is in the middle.
function drawBand(view, w, text, share) {
  const channel = CHANNELS[w], track = trackOf(channel), [from, to] = [along(channel, track, 0), along(channel, track, channel.length)];
  shape("path", { d: "M" + from.join(" ") + "L" + to.join(" ") }, view.bands);
  const [x, y] = along(channel, track, channel.length * share);
  const size = VIEW.detail === "large" ? 11 : VIEW.detail === "medium" ? 19 : 26, width = (0.62 * text.length + 0.8) * size;
  const tag = shape("g", { class: "tag of-way" }, view.tags);
  shape("rect", { x: x - width / 2, y: y - 0.65 * size, width, height: 1.3 * size, rx: 3 }, tag);
  const label = shape("text", { class: "middle", x, y: y + 0.36 * size }, tag);
  label.textContent = text;
  label.style.fontSize = size + "px";
}

// The critical path: in a cycle the processor that has its turn, and the wire for which it waited before; in shares of
// cycles all on the path in them, and how often it goes over a wire.
function drawCritical(k, from, end) {
  const stretch = PAGE.hasPath ? stretchAt(k) : -1;
  if (!isNew(VIEW.critical, [PAGE.hasPath, VIEW.detail, VIEW.isHeat ? from + "-" + end : stretch].join())) return;
  emptyBands(VIEW.critical);
  if (!PAGE.hasPath) return;
  if (VIEW.isHeat) {
    const turns = pathTurns(from, end), most = Math.max(...turns);
    turns.forEach((count, p) => count && drawCriticalBox(p, 2 + (8 * count) / most));
    for (const [w, count] of pathHops(from, end)) drawBand(VIEW.critical, w, String(count), 0.5);
  } else if (stretch >= 0) {
    const { p, wire, from: since } = PATH[stretch];
    drawCriticalBox(p, 6);
    if (wire >= 0) drawBand(VIEW.critical, wire, String(since - 1), 0.5);
  }
}

function drawCriticalBox(p, stroke) {
  const { x, y, width, height } = BOXES[p];
  shape("rect", { class: "turn", x: x - 5, y: y - 5, width: width + 10, height: height + 10, rx: 8, "stroke-width": stroke }, VIEW.critical.bands);
}
