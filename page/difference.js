// Which pixels differ between two pictures, in the words of `desk differ`.
import { colourWords, grouped } from "./words.js";

/**
 * Where two pictures differ: how many pixels, whether each does, and of each row how many.
 * @typedef {{count: number, marks: Uint8Array, byRow: Uint32Array, first: number, last: number}} Difference
 */

/**
 * @param {Uint8Array} one
 * @param {Uint8Array} other
 * @param {number} columns four bytes a pixel, so many a row
 * @returns {Difference}
 */
export function differing(one, other, columns) {
  const pixels = one.length / 4;
  const a = new Uint32Array(one.buffer, one.byteOffset, pixels), b = new Uint32Array(other.buffer, other.byteOffset, pixels);
  const marks = new Uint8Array(pixels), byRow = new Uint32Array(pixels / columns);
  let count = 0, first = -1, last = -1;
  for (let at = 0; at < pixels; at++) {
    if (a[at] === b[at]) continue;
    marks[at] = 1;
    byRow[(at / columns) | 0]++;
    if (!count++) first = at;
    last = at;
  }
  return { count, marks, byRow, first, last };
}

/**
 * Numbers that rise: 67 to 71, 73 to 79.
 * @param {number[]} numbers
 */
export function runs(numbers) {
  /** @type {[number, number][]} */
  const parts = [];
  for (const number of numbers) {
    const last = parts[parts.length - 1];
    if (last && last[1] === number - 1) last[1] = number;
    else parts.push([number, number]);
  }
  return parts.map(([a, b]) => (a === b ? String(a) : `${a} to ${b}`)).join(", ");
}

/**
 * The rows that differ, from the first to the last, and those among them that do not.
 * @param {Difference} found
 */
export function rowsOf({ byRow }) {
  const touched = [...byRow.keys()].filter((row) => byRow[row]);
  const first = touched[0], last = touched[touched.length - 1];
  const same = [];
  for (let row = first; row <= last; row++) if (!byRow[row]) same.push(row);
  return { first, last, touched: touched.length, same };
}

/**
 * The first line that `desk differ` prints.
 * @param {Difference} found
 */
export function sentence(found) {
  if (!found.count) return "no pixel differs";
  const { first, last, touched, same } = rowsOf(found);
  const of = `${grouped(found.count)} of ${grouped(found.marks.length)}`;
  const text = `${of} pixels differ, in ` + (first === last ? `row ${first}` : `rows ${first} to ${last}`);
  return text + (same.length ? ` (${touched} of these ${last - first + 1} rows; the same in both: ${runs(same)})` : "");
}

/**
 * The two lines below it: the first and the last pixel that differs.
 * @param {Difference} found
 * @param {Uint8Array} one
 * @param {Uint8Array} other
 * @param {number} columns
 */
export function ends(found, one, other, columns) {
  if (!found.count) return [];
  /**
   * @param {Uint8Array} picture
   * @param {number} at
   */
  const colour = (picture, at) => colourWords(picture[4 * at], picture[4 * at + 1], picture[4 * at + 2]);
  return [["first", found.first], ["last", found.last]].map(([word, at]) => {
    const place = Number(at);
    return `  ${(word + ":").padEnd(6)} row ${Math.floor(place / columns)}, column ${place % columns}: A has ${colour(one, place)}; B has ${colour(other, place)}`;
  });
}
