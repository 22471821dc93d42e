// Words. What registers, the status and layers are called stands in tables that the desk reads too (desk/machines.json, desk/layers.json).

/** @type {{machines: any, layers: any}} */
const tables = JSON.parse(document.getElementById("words")?.textContent ?? "{}");
export const MACHINES = tables.machines;
export const LAYERS = tables.layers;

/**
 * A text with its places filled: {name}, or {name:04X} in hexadecimal.
 * @param {string} text
 * @param {Record<string, string | number>} values
 */
export function filled(text, values) {
  return text.replace(/\{(\w+)(?::0(\d)X)?\}/g, (_, name, digits) => (digits ? hex(Number(values[name]), Number(digits)) : String(values[name])));
}

/**
 * @param {number} number
 * @param {number} digits
 */
export function hex(number, digits = 2) {
  return number.toString(16).toUpperCase().padStart(digits, "0");
}

/** @param {ArrayLike<number>} bytes */
export function hexes(bytes) {
  return Array.from(bytes, (byte) => hex(byte)).join(" ");
}

/**
 * A number with commas: 10,880.
 * @param {number} number
 */
export function grouped(number) {
  return number.toLocaleString("en-GB");
}

/**
 * @param {number} count
 * @param {string} word
 */
export function many(count, word) {
  return `${grouped(count)} ${word}${count === 1 ? "" : "s"}`;
}

/**
 * "row 3", "rows 3 to 5".
 * @param {number} first
 * @param {number} last
 * @param {string} word
 */
export function span(first, last, word) {
  return first === last ? `${word} ${first}` : `${word}s ${first} to ${last}`;
}

/**
 * What the rules read in a register.
 * @param {boolean} atHome
 * @param {number} number
 * @param {number} value
 */
export function registerWords(atHome, number, value) {
  /** @type {any[] | undefined} */
  const parts = (atHome && MACHINES.home.registers[number]) || MACHINES.handheld.registers[number];
  return parts?.map(({ bit, is, on, off, mask = 255, times = 1, plus = 0, say }) => {
    if (bit !== undefined) return (value >> bit) & 1 ? on ?? `${is} on` : off ?? `${is} off`;
    const told = (value & mask) * times + plus;
    return filled(say, { number: told, address: hex(told, 4) });
  }).join(", ") ?? "no rule reads it";
}

/**
 * @param {number} red
 * @param {number} green
 * @param {number} blue
 */
export function colourWords(red, green, blue) {
  return `red ${red}, green ${green}, blue ${blue}`;
}

/**
 * The status byte in words.
 * @param {number} value
 */
export function statusWords(value) {
  const told = MACHINES.status.filter((/** @type {[number, string]} */ [bit]) => value & bit);
  return told.map((/** @type {[number, string]} */ [, words]) => words).join(", ") || "nothing";
}

/**
 * Which tile of video memory a sprite's tile is, with its address, and why (R5.8).
 * @param {Uint8Array} registers
 * @param {number} tile
 */
export function spriteTile(registers, tile) {
  const bit = (registers[6] >> 2) & 1, real = tile + 256 * bit;
  return `tile ${real} at ${hex(32 * real, 4)} (register 6 ${bit ? "has" : "has no"} bit 2)`;
}
