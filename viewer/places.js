"use strict";
// Where each box and each wire of the grid stands, and how large it is drawn.

// the distances of cells, the sizes of boxes, and the width of a lane, of which a channel has four; a large grid has its
// boxes closer together, so that their names can still be read where all of it is in sight
const IS_LARGE = SET.columns > 4 || SET.rows > 3;
const CELL = IS_LARGE ? { width: 236, height: 140 } : { width: 252, height: 220 };
const TILE = IS_LARGE ? { x: 0, y: 0, width: 116, height: 50 } : { x: 0, y: 0, width: 132, height: 66 };
const SWITCH = IS_LARGE ? { x: 66, y: 80, width: 116, height: 50 } : { x: 52, y: 128, width: 148, height: 66 };
const LANE = IS_LARGE ? 12 : 16;
const PORT = { width: 200, height: LANE };
const CHANNEL = IS_LARGE ? 67 : 58;

const cornerOf = (t) => ({ x: (t % SET.columns) * CELL.width, y: Math.floor(t / SET.columns) * CELL.height });
const isUpright = (way) => way === "N" || way === "S";
const laneOf = (net, way) => 2 * (net - 1) + (way === "N" || way === "W" ? 1 : 0);

// The channel of a wire between a tile and its switch.
function tileChannel(wire) {
  const corner = cornerOf(Math.min(wire.from, wire.to));
  return { x: corner.x + CHANNEL, y: corner.y + TILE.height, length: SWITCH.y - TILE.height, way: isTile(wire.from) ? "S" : "N" };
}

// The channel at a side of a switch, which is the link to its neighbour where it has one.
function sideChannel(side, corner) {
  const across = CELL.width - SWITCH.width, down = CELL.height - SWITCH.height;
  switch (side) {
    case "E": return { x: corner.x + SWITCH.x + SWITCH.width, y: corner.y + SWITCH.y, length: across };
    case "W": return { x: corner.x + SWITCH.x - across, y: corner.y + SWITCH.y, length: across };
    case "S": return { x: corner.x + TILE.width + 4, y: corner.y + SWITCH.y + SWITCH.height, length: down };
    default: return { x: corner.x + TILE.width + 4, y: corner.y + SWITCH.y - down, length: down };
  }
}

// Ports in the north and the south stand beside one another, so each lane of them has a length of its own.
function portChannel(wire, p) {
  const { side, net } = portOf(p), corner = cornerOf((wire.from === p ? wire.to : wire.from) - SET.tiles);
  const way = p === wire.from ? OPPOSITE[side] : side, lane = laneOf(net, way), channel = { ...sideChannel(side, corner), way };
  if (side === "S") channel.length = 40 + 21 * lane;
  if (side === "N") {
    channel.y = corner.y - 22 - 21 * lane;
    channel.length = corner.y + SWITCH.y - channel.y;
  }
  return channel;
}

// The corner and length of a wire's channel, the way in which its values go, and its lane.
function channelOf(wire) {
  const port = [wire.from, wire.to].find(isPort);
  let channel;
  if (isTile(wire.from) || isTile(wire.to)) channel = tileChannel(wire);
  else if (port !== undefined) channel = portChannel(wire, port);
  else channel = { ...sideChannel(wire.out, cornerOf(wire.from - SET.tiles)), way: wire.out };
  return { ...channel, lane: laneOf(wire.net, channel.way) };
}

const CHANNELS = WIRES.map(channelOf);
const trackOf = (channel) => LANE * channel.lane + LANE / 2;

// The point of a channel at a track across it and a distance along its way.
function along(channel, track, distance) {
  const { x, y, length, way } = channel;
  switch (way) {
    case "E": return [x + distance, y + track];
    case "W": return [x + length - distance, y + track];
    case "S": return [x + track, y + distance];
    default: return [x + track, y + length - distance];
  }
}

// The two ends of the wait of p on wire w. A tile and its switch may wait for one wire: their arrows are apart.
function waitEnds(p, w) {
  const wire = WIRES[w], channel = CHANNELS[w], sends = wire.from === p;
  const inside = isTile(wire.from) || isTile(wire.to);
  const track = inside ? 2 * LANE * (wire.net - 1) + (isTile(p) ? LANE : 2 * LANE - 1) : LANE * (channel.lane + 1) - (sends ? 1 : 3);
  const ends = [along(channel, track, 1), along(channel, track, channel.length - 1)];
  return sends ? ends : ends.reverse();
}

function boxOf(p) {
  if (isPort(p)) return portBox(p);
  const corner = cornerOf(isTile(p) ? p : p - SET.tiles), box = isTile(p) ? TILE : SWITCH;
  return { x: corner.x + box.x, y: corner.y + box.y, width: box.width, height: box.height };
}

function portBox(p) {
  const channel = CHANNELS[[...INPUTS[p], ...OUTPUTS[p]][0]], { side } = portOf(p);
  const [x, y] = along(channel, trackOf(channel), isSource(p) ? 0 : channel.length);
  if (!isUpright(side)) return { ...PORT, x: side === "W" ? x - PORT.width : x, y: y - PORT.height / 2 };
  return { ...PORT, x: x - 160, y: side === "N" ? y - PORT.height : y };
}

const BOXES = listOf(SET.processors, (_, p) => boxOf(p));

// ---- the size of the drawing

const DETAILS = [["large", 0.85], ["medium", IS_LARGE ? 0.55 : 0.42], ["tiny", 0]];
const HEAD_SIZES = { large: 16, medium: 22, tiny: 40 };

// Fits the grid into its place, `zoom` times larger, and draws as much of it as can then be read.
function fitGrid(place, legend, zoom) {
  const isWide = window.innerWidth >= 900, width = place.clientWidth - 18;
  const height = isWide ? place.clientHeight - legend.offsetHeight - 14 : Infinity;
  const whole = Math.min(width / VIEW.width, height / VIEW.height, 1.7 * typeSize());
  VIEW.scale = zoom * Math.max(whole, isWide ? 0.2 : IS_LARGE ? 0.42 : 0.34);
  VIEW.detail = DETAILS.find(([, least]) => VIEW.scale >= least)[0];
  for (const side of ["markerWidth", "markerHeight"]) setAttribute(document.getElementById("head4"), side, HEAD_SIZES[VIEW.detail]);
  setAttribute(VIEW.root, "width", Math.floor(VIEW.width * VIEW.scale));
  setAttribute(VIEW.root, "height", Math.floor(VIEW.height * VIEW.scale));
  setAttribute(VIEW.root, "class", VIEW.detail + (IS_LARGE ? " dense" : ""));
  // names of ten pixels, as long as they fit
  VIEW.root.style.setProperty("--tiny", Math.max(28, Math.min(IS_LARGE ? 40 : 44, 10.5 * typeSize() / VIEW.scale)) + "px");
}

// Scrolls the grid so that the boxes of these processors are in sight, in the middle where they were not.
function showBoxes(place, processors) {
  const [left, top] = VIEW.root.getAttribute("viewBox").split(" ").map(Number), boxes = processors.map((p) => BOXES[p]);
  const scrollTo = (key, from, to, offset, size) => {
    const begin = offset + from * VIEW.scale, end = offset + to * VIEW.scale;
    if (begin < place[key] || end > place[key] + size) place[key] = (begin + end - size) / 2;
  };
  const drawn = VIEW.root.getBoundingClientRect(), frame = place.getBoundingClientRect();
  const offsetX = drawn.left - frame.left + place.scrollLeft, offsetY = drawn.top - frame.top + place.scrollTop;
  scrollTo("scrollLeft", Math.min(...boxes.map((it) => it.x)) - left, Math.max(...boxes.map((it) => it.x + it.width)) - left, offsetX, place.clientWidth);
  scrollTo("scrollTop", Math.min(...boxes.map((it) => it.y)) - top, Math.max(...boxes.map((it) => it.y + it.height)) - top, offsetY, place.clientHeight);
}
