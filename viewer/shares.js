"use strict";
// Many cycles in one column of pixels: the shares of their turns. They are set pixel by pixel, since a rectangle for each
// would take ten times as long.

const channels = (text) => {
  const digits = text.length === 4 ? [...text.slice(1)].map((it) => it + it).join("") : text.slice(1);
  return [0, 2, 4].map((i) => parseInt(digits.slice(i, i + 2), 16));
};
// A colour, mixed with that of the page, as a pixel.
function pixelOf(text, page, share) {
  const ground = channels(page), [r, g, b] = channels(text).map((part, i) => Math.round(part * share + ground[i] * (1 - share)));
  return 0xff000000 | (b << 16) | (g << 8) | r;
}

// The pixels of the kinds of turns. What is stopped has the colour of the page.
function pixelsOf({ kinds, page }) {
  return kinds.map((colour, kind) => (kind && kind < STOPPED ? pixelOf(colour, page, kind === STARVED ? 0.55 : 1) : pixelOf(page, page, 1)));
}

// The colour of a mixture of turns, by their shares.
function mixtureOf(kinds, before, behind, all) {
  let [r, g, b] = [0, 0, 0];
  for (let kind = FIRED; kind <= STOPPED; kind++) {
    const share = (behind[kind] - before[kind]) / all, pixel = kinds[kind];
    r += share * (pixel & 255);
    g += share * ((pixel >> 8) & 255);
    b += share * ((pixel >> 16) & 255);
  }
  return 0xff000000 | (b << 16) | (g << 8) | r;
}

// Many cycles in one column of pixels: the shares of turns that fired, stalled and starved from below, of blocked ones from
// above. They are set pixel by pixel: a rectangle for each would take ten times as long.
function drawAllShares(pen, canvas, width, colour) {
  const ratio = canvas.width / width, left = Math.round(LINE.label * ratio), columns = Math.round(LINE.count * LINE.step * ratio);
  const image = pen.createImageData(columns, canvas.height), pixels = new Uint32Array(image.data.buffer), kinds = pixelsOf(colour);
  const edges = listOf(columns + 1, (_, x) => LINE.first + Math.floor((x * LINE.count) / columns)), isLow = LINE.height * ratio < 8;
  LINE.rows.forEach((p, row) => {
    const top = Math.round(row * LINE.height * ratio), high = Math.round((row + 1) * LINE.height * ratio) - top - (LINE.height > 8 ? 1 : 0);
    fillShares(pixels, columns, [p], edges, top, high, kinds, isLow);
  });
  pen.putImageData(image, left, 0);
}

// A row of pixels: at each column the shares of these processors between two edges, or where it is low the mixture of
// their colours.
function fillShares(pixels, columns, processors, edges, top, high, kinds, isLow) {
  let before = sumOf(processors, edges[0]), behind = sumOf(processors, edges[0]), most = edges[0];
  for (let x = 0; x < columns; x++) {
    // (where there are more columns than cycles, some have the same one)
    const end = Math.max(edges[x + 1], edges[x] + 1), all = (end - edges[x]) * processors.length;
    if (x && edges[x] !== edges[x - 1]) [before, behind] = [behind, before];
    if (end !== most) sumInto(behind, processors, end);
    most = end;
    let y = top + high, sum = 0;
    if (isLow) {
      const pixel = mixtureOf(kinds, before, behind, all);
      while (y > top) pixels[--y * columns + x] = pixel;
      continue;
    }
    for (const kind of [FIRED, STALLED, STARVED]) {
      sum += behind[kind] - before[kind];
      for (const to = top + high - Math.round((sum / all) * high); y > to; ) pixels[--y * columns + x] = kinds[kind];
    }
    const blocked = top + Math.round(((behind[BLOCKED] - before[BLOCKED]) / all) * high);
    for (let up = top; up < blocked && up < y; up++) pixels[up * columns + x] = kinds[BLOCKED];
    for (let up = Math.max(top, blocked); up < y; up++) pixels[up * columns + x] = kinds[0];
  }
}

function sumInto(counts, processors, k) {
  counts.fill(0);
  for (const p of processors) addTurns(counts, p, k);
  return counts;
}

const sumOf = (processors, k) => sumInto([0, 0, 0, 0, 0, 0], processors, k);
