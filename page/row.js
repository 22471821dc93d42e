// One row in words: what the library drew, and the reasons, which are held to it column by column before they are told.
import { CLEAR, DRAWN, HELD_BACK, LAYER_FILLED, LAYER_HELD_BACK, LAYER_SPRITE, MOST, RuledRow, STRUCK, UNDRAWN, UNSEEN } from "./rules.js";
import { SAYS } from "./says.js";
import { colourWords, filled, hex, hexes, registerWords, spriteTile } from "./words.js";
/** @typedef {import("./machines.js").Device} Device */
/** @typedef {import("./machines.js").Screen} Screen */
/** @typedef {import("./rules.js").Sprite} Sprite */
/** @typedef {import("./rules.js").Background} Background */

const NINTH_BIT = 0x40, MET_BIT = 0x20; // of the status (R5.7, R5.11)

/** A row as a device would draw it now. Where the page's reasons are not the library's answer, it says so and tells nothing else. */
export class ToldRow {
  /**
   * @param {Device} device
   * @param {Screen} screen
   * @param {number} number
   */
  constructor(device, screen, number) {
    this.screen = screen;
    this.number = number;
    const now = device.rowNow(screen, number);
    this.pixels = now.pixels;
    this.layers = now.layers;
    this.colours = device.colours();
    this.palette = device.palette;
    this.call = device.machine.prefix + "pixel";
    this.colourSize = device.machine.colourSize;
    this.registers = device.registers;
    this.rules = new RuledRow(device.vram.bytes.slice(), this.registers, device.at("VERTICAL_SCROLL"), screen, number);
    /** What is not as the library has it; empty where all is. */
    this.wrong = this.check(now.status);
  }

  /** @param {number} column */
  pixel(column) {
    return Array.from(this.pixels.slice(4 * column, 4 * column + 4));
  }

  /** @param {number} status */
  check(status) {
    for (let column = 0; column < this.screen.columns; column++) {
      const colour = this.rules.colours[column];
      for (let part = 0; part < 4; part++) {
        if (this.colours[4 * colour + part] !== this.pixels[4 * column + part]) return this.disagree(`column ${column}, its colour`);
      }
      if (this.rules.layers[column] !== this.layers[column]) return this.disagree(`column ${column}, its layer`);
    }
    if (!!(status & NINTH_BIT) !== this.rules.ninth) return this.disagree("a ninth sprite");
    return !!(status & MET_BIT) !== this.rules.met ? this.disagree("two sprites that meet") : "";
  }

  /**
   * The library's other engine has the same pixel.
   * @param {Device} device
   * @param {number} column
   */
  samePixel(device, column) {
    const alone = device.pixel(this.screen.number, this.number, column);
    if (!alone || alone.some((byte, part) => byte !== this.pixel(column)[part])) this.wrong = this.disagree(`column ${column}, ${this.call}`);
  }

  /** @param {string} what */
  disagree(what) {
    return filled(SAYS.disagree, { where: this.screen.said, row: this.number, what });
  }

  /** What is said of a pixel that was checked. */
  get checkedPixel() {
    return filled(SAYS.checkedPixel, { call: this.call });
  }

  /**
   * How many pixels of a sprite were drawn, and stand under the fill.
   * @param {Sprite} sprite
   */
  underFill(sprite) {
    return [...sprite.fates].filter(([column, fate]) => fate === DRAWN && this.layers[column] === LAYER_FILLED).length;
  }
}

/** @param {number} layer */
export function layerWords(layer) {
  if (layer === UNDRAWN) return "nothing drawn";
  if (layer >= LAYER_SPRITE) return `sprite ${layer - LAYER_SPRITE}`;
  if (layer === LAYER_FILLED) return "the fill of columns 0 to 7";
  return layer === LAYER_HELD_BACK ? "background, which holds a sprite back" : "background";
}

/** @param {Background} back */
function backgroundWords(back) {
  const flags = [[back.across, "flipped across"], [back.down, "flipped down"], [back.priority, "priority"]].filter(([on]) => on).map(([, word]) => ", " + word);
  return `tile ${back.tile} of the map's column ${back.column}, row ${back.line} (entry at ${hex(back.entry, 4)}), palette ${back.palette}, code ${back.code}${flags.join("")}`;
}

/** @param {number} byte */
const two = (byte) => hex(byte);

/**
 * What became of a sprite's pixel in a column that it reaches; empty where it does not reach it.
 * @param {ToldRow} told
 * @param {Sprite} sprite
 * @param {number} column
 */
function fateWords(told, sprite, column) {
  const { rules } = told, behind = rules.beyond.indexOf(sprite);
  if (behind >= 0) {
    if (column < sprite.stand.x || column >= sprite.stand.x + sprite.width) return "";
    const place = rules.laid.length + behind + 1;
    return place === MOST + 1 ? "ninth: eight are laid before it, and it is not" : `after the ninth (${place}th on the row): not laid`;
  }
  const fate = sprite.fates.get(column);
  if (!fate) return "";
  const [place, tested] = sprite.places.get(column) ?? [0, 0], number = sprite.codes.get(column) ?? 0;
  const code = `code ${number} of its tile ${sprite.shown}, ${spriteTile(told.registers, sprite.shown)}`;
  if (fate === CLEAR) return `clear: ${code}`;
  if (fate === HELD_BACK) return `held back: ${code}; the background there has priority` + (tested === column ? "" : ` (the mask is asked for column ${tested}: a scrolled left edge)`);
  if (fate === UNSEEN) return `unseen: its X byte ${two(sprite.x)} is off the screen; ${code} marks place ${place} all the same`;
  if (fate === STRUCK) {
    const by = rules.laid.find((other) => other.marks.has(place));
    return `struck: ${code}; sprite ${by?.number} has marked its place (${place}) already`;
  }
  const over = told.layers[column];
  if (over === LAYER_FILLED) return `drawn: ${code}; colour ${16 + number}; then the fill was laid over it`;
  return `drawn: ${code}; colour ${16 + number}` + (over - LAYER_SPRITE === sprite.number ? "" : `; then sprite ${over - LAYER_SPRITE} was drawn over it`);
}

/**
 * A pixel in words: pairs of a name and what it is, then the sprites that reach it.
 * @param {ToldRow} told
 * @param {number} column
 */
export function pixelFacts(told, column) {
  const { rules } = told, pixel = told.pixel(column), colour = rules.colours[column], layer = told.layers[column];
  const onRow = [...rules.laid, ...rules.beyond];
  const reach = onRow.map((sprite) => ({ sprite, words: fateWords(told, sprite, column) })).filter(({ words }) => words);
  const stored = told.palette.slice(told.colourSize * colour, told.colourSize * (colour + 1));
  return {
    bytes: `${hexes(pixel)}: ${colourWords(pixel[0], pixel[1], pixel[2])}`,
    colour: `${colour}: palette ${colour >> 4}, code ${colour & 15}`,
    stored: hexes(stored),
    layer: `${layer}: ${layerWords(layer)}`,
    behind: backgroundWords(rules.back[column]),
    sprites: `${onRow.length} on the row, ${reach.length} ${reach.length === 1 ? "reaches" : "reach"} this column`,
    reach,
  };
}

/**
 * The same as `desk pixel` prints it.
 * @param {ToldRow} told
 * @param {number} column
 * @param {string} when
 */
export function pixelText(told, column, when) {
  const facts = pixelFacts(told, column);
  return [
    `row ${told.number}, column ${column} of ${told.screen.said}, ${when}`,
    `  bytes   ${facts.bytes}`, `  colour  ${facts.colour}`, `  layer   ${facts.layer}`, `  behind  ${facts.behind}`,
    `  sprites ${facts.sprites}` + (facts.reach.length ? ":" : ""),
    ...facts.reach.map(({ sprite, words }) => `    sprite ${String(sprite.number).padEnd(2)}  ${words}`),
    "  " + told.checkedPixel,
  ].join("\n");
}

/**
 * The screen columns of a sprite.
 * @param {ToldRow} told
 * @param {Sprite} sprite
 */
function columnsWords(told, sprite) {
  const first = sprite.stand.x, last = Math.min(first + sprite.width, told.screen.columns) - 1;
  if (!sprite.stand.seen || last < first) return "off screen";
  return first === last ? String(first) : `${first} to ${last}`;
}

/**
 * The sprites of a row: what stands above the table, and its rows.
 * @param {ToldRow} told
 */
export function spriteFacts(told) {
  const { rules } = told, count = rules.laid.length + rules.beyond.length;
  const end = rules.end === null ? "no Y byte of D0 ends the list" : `a Y byte of D0 ends the list before sprite ${rules.end}`;
  const rows = [...rules.laid, ...rules.beyond].map((sprite, index) => {
    const fates = [...sprite.fates].filter(([column, fate]) => column < told.screen.columns || fate === UNSEEN).map(([, fate]) => fate);
    const counts = [DRAWN, HELD_BACK, STRUCK, CLEAR].map((wanted) => fates.filter((fate) => fate === wanted).length);
    const laid = index < rules.laid.length;
    const under = told.underFill(sprite), hidden = under ? filled(SAYS.underFill, { count: under }) : "";
    const note = laid ? (sprite.stand.seen ? hidden : "unseen") : index === MOST ? "NINTH: not laid, and sets status bit 6" : "after the ninth: not laid";
    return { place: index + 1, sprite: sprite.number, y: two(sprite.y), x: two(sprite.x), tile: `${sprite.shown}: ${sprite.real}, ${hex(32 * sprite.real, 4)}`, columns: columnsWords(told, sprite), counts: laid ? counts : null, note };
  });
  return { head: `${count || "no"} sprite${count === 1 ? "" : "s"} on the row, each ${rules.tall ? 16 : 8} high; their table is at ${hex(rules.table, 4)}; ${end}`, tiles: `${registerWords(false, 6, told.registers[6])} (register 6)`, rows, met: rules.met };
}

/**
 * The same as `desk sprites` prints it.
 * @param {ToldRow} told
 * @param {string} when
 */
export function spritesText(told, when) {
  const { head, tiles, rows, met } = spriteFacts(told);
  /**
   * @param {unknown} value
   * @param {number} width
   */
  const right = (value, width) => String(value).padStart(width);
  return [
    `row ${told.number} of ${told.screen.said} (line ${told.rules.line}), ${when}`,
    "  " + head,
    "  " + tiles,
    ...(rows.length ? ["  place  sprite   Y   X  its tile is   columns      drawn  held back  struck  clear"] : []),
    ...rows.map((row) => {
      const start = `  ${right(row.place, 5)}  ${right(row.sprite, 6)}  ${row.y}  ${row.x}  ${row.tile.padEnd(12)}  ${row.columns.padEnd(11)}  `;
      if (!row.counts) return start + row.note;
      const [drawn, held, struck, clear] = row.counts;
      return `${start}${right(drawn, 5)}  ${right(held, 9)}  ${right(struck, 6)}  ${right(clear, 5)}` + (row.note && "  " + row.note);
    }),
    ...(met ? ["  two sprites meet here: status bit 5 is set"] : []),
    "  " + SAYS.checkedRow,
  ].join("\n");
}
