// Pixels on canvases: a picture as it is, by its layers, or with what differs; rulers, grid and marks.
import { LAYER_FILLED, LAYER_HELD_BACK, LAYER_SPRITE, UNDRAWN } from "./rules.js";
import { LAYERS } from "./words.js";

const TILE = 8;
const RULER = { top: 18, side: 30 };

/** The colours of layers, three bytes each, as the desk has them. */
export const LAYER_COLOURS = layerColours();

function layerColours() {
  const table = new Uint8Array(3 * 256);
  /** @type {[number, string][]} */
  const colours = [[0, LAYERS.background], [LAYER_HELD_BACK, LAYERS["held back"]], [LAYER_FILLED, LAYERS.filled], [UNDRAWN, LAYERS["not drawn"]]];
  LAYERS.sprites.forEach((/** @type {string} */ colour, /** @type {number} */ n) => colours.push([LAYER_SPRITE + n, colour]));
  for (const [layer, colour] of colours) table.set([0, 2, 4].map((at) => parseInt(colour.slice(at, at + 2), 16)), 3 * layer);
  return table;
}

/**
 * Puts pixels of four bytes on a canvas of that size, one for one. What no call has drawn is black, or stays clear.
 * @param {HTMLCanvasElement} canvas
 * @param {Uint8Array} pixels
 * @param {number} columns
 * @param {boolean} clear
 */
export function put(canvas, pixels, columns, clear = false) {
  const rows = pixels.length / 4 / columns, image = new ImageData(new Uint8ClampedArray(pixels), columns, rows);
  if (!clear) for (let at = 3; at < pixels.length; at += 4) image.data[at] = 255;
  if (canvas.width !== columns || canvas.height !== rows) {
    canvas.width = columns;
    canvas.height = rows;
  }
  canvas.getContext("2d")?.putImageData(image, 0, 0);
}

/**
 * The picture with the layers over it, from 0, none, to 1, layers alone.
 * @param {Uint8Array} pixels
 * @param {Uint8Array} layers
 * @param {number} strength
 */
export function layered(pixels, layers, strength) {
  if (!strength) return pixels;
  const made = new Uint8Array(pixels.length);
  for (let at = 0; at < layers.length; at++) {
    for (let part = 0; part < 3; part++) made[4 * at + part] = pixels[4 * at + part] * (1 - strength) + LAYER_COLOURS[3 * layers[at] + part] * strength;
    made[4 * at + 3] = 255;
  }
  return made;
}

/**
 * A picture, darkened, with some pixels in magenta.
 * @param {Uint8Array} pixels
 * @param {Uint8Array} marks
 */
export function marked(pixels, marks) {
  const made = new Uint8Array(pixels.length);
  for (let at = 0, to = 0; at < marks.length; at++, to += 4) {
    const mark = marks[at];
    made[to] = mark ? 255 : pixels[to] / 3;
    made[to + 1] = mark ? 0 : pixels[to + 1] / 3;
    made[to + 2] = mark ? 255 : pixels[to + 2] / 3;
    made[to + 3] = 255;
  }
  return made;
}

/**
 * The greatest whole scale from 1 to 6 at which so many columns fit a width.
 * @param {number} columns
 * @param {number} width
 */
export function fitting(columns, width) {
  return Math.min(Math.max(Math.floor(width / columns), 1), 6);
}

/**
 * @param {HTMLCanvasElement} canvas
 * @param {number} columns
 * @param {number} rows
 * @param {number} scale
 */
export function sized(canvas, columns, rows, scale) {
  canvas.style.width = `${columns * scale}px`;
  canvas.style.height = `${rows * scale}px`;
}

/**
 * A canvas of this size on the page, in pixels of the screen.
 * @param {HTMLCanvasElement} canvas
 * @param {number} width
 * @param {number} height
 */
function fine(canvas, width, height) {
  const ratio = window.devicePixelRatio || 1;
  canvas.width = Math.round(width * ratio);
  canvas.height = Math.round(height * ratio);
  canvas.style.width = `${width}px`;
  canvas.style.height = `${height}px`;
  const pen = /** @type {CanvasRenderingContext2D} */ (canvas.getContext("2d"));
  pen.setTransform(ratio, 0, 0, ratio, 0, 0);
  pen.clearRect(0, 0, width, height);
  return pen;
}

/**
 * Grid, the row just drawn and the cursor, over a picture.
 * @param {HTMLCanvasElement} canvas
 * @param {number} columns
 * @param {number} rows
 * @param {number} scale
 * @param {{grid: boolean, row: number | null, cursor: {row: number, column: number, pinned: boolean} | null}} marks
 */
export function paintMarks(canvas, columns, rows, scale, { grid, row, cursor }) {
  const width = columns * scale, height = rows * scale, pen = fine(canvas, width, height);
  if (grid) {
    pen.fillStyle = "rgb(160 160 160 / 55%)";
    for (let x = TILE; x < columns; x += TILE) pen.fillRect(x * scale - 0.5, 0, 1, height);
    for (let y = TILE; y < rows; y += TILE) pen.fillRect(0, y * scale - 0.5, width, 1);
  }
  if (row !== null) {
    pen.fillStyle = "rgb(0 0 0 / 70%)";
    pen.fillRect(0, row * scale - 2, width, 1);
    pen.fillRect(0, (row + 1) * scale + 1, width, 1);
    pen.fillStyle = "#ffffff";
    pen.fillRect(0, row * scale - 1, width, 1);
    pen.fillRect(0, (row + 1) * scale, width, 1);
  }
  if (cursor) {
    pen.lineWidth = 1;
    const x = cursor.column * scale, y = cursor.row * scale;
    for (const [grow, colour] of /** @type {[number, string][]} */ ([[1.5, "#000000"], [0.5, cursor.pinned ? "#ffd84a" : "#ffffff"]])) {
      pen.strokeStyle = colour;
      pen.strokeRect(x - grow, y - grow, scale + 2 * grow, scale + 2 * grow);
    }
  }
}

/**
 * Rulers: columns above, rows on the left, and on the right the line that draws each row.
 * @param {HTMLCanvasElement[]} canvases above, left, right
 * @param {number} columns
 * @param {number} rows
 * @param {number} firstLine
 * @param {number} scale
 * @param {{row: number | null, column: number | null}} here
 */
export function paintRulers([top, left, right], columns, rows, firstLine, scale, here) {
  const style = getComputedStyle(document.documentElement), quiet = style.getPropertyValue("--quiet"), ink = style.getPropertyValue("--ink");
  const gap = scale > 1 ? 16 : 32;
  const font = "11px ui-monospace, 'DejaVu Sans Mono', monospace";
  const above = fine(top, columns * scale, RULER.top);
  above.font = font;
  above.textAlign = "left";
  for (let x = 0; x < columns; x += TILE) {
    above.fillStyle = quiet;
    above.fillRect(x * scale, x % gap ? RULER.top - 4 : RULER.top - 7, 1, x % gap ? 4 : 7);
    if (x % gap === 0 && x * scale + 20 < columns * scale) above.fillText(String(x), x * scale + 3, RULER.top - 7);
  }
  if (here.column !== null) {
    above.fillStyle = ink;
    above.fillRect(here.column * scale, RULER.top - 5, Math.max(scale, 2), 5);
  }
  for (const [canvas, add, side] of /** @type {[HTMLCanvasElement, number, string][]} */ ([[left, 0, "left"], [right, firstLine, "right"]])) {
    const pen = fine(canvas, RULER.side, rows * scale);
    pen.font = font;
    pen.textAlign = side === "left" ? "right" : "left";
    for (let y = 0; y < rows; y += TILE) {
      const long = y % gap ? 4 : 7;
      pen.fillStyle = quiet;
      pen.fillRect(side === "left" ? RULER.side - long : 0, y * scale, long, 1);
      if (y % gap === 0) pen.fillText(String(y + add), side === "left" ? RULER.side - 9 : 9, y * scale + (y ? 4 : 9));
    }
    if (here.row !== null) {
      pen.fillStyle = ink;
      pen.fillRect(side === "left" ? RULER.side - 5 : 0, here.row * scale, 5, Math.max(scale, 2));
    }
  }
}

export const RULER_WIDTH = RULER.side;
