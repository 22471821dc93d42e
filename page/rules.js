// Section 5 of docs/RULES.md once more, for the words: which sprites are on a row, and what became of each of their pixels. No picture comes from here:
// row.js holds every row that is spoken of to the library's answer.
/** @typedef {import("./machines.js").Screen} Screen */

export const DRAWN = "drawn", HELD_BACK = "held back", STRUCK = "struck", UNSEEN = "unseen", CLEAR = "clear";
export const MOST = 8; // sprites that are laid on a line (R5.7)
export const LAYER_HELD_BACK = 1, LAYER_FILLED = 2, LAYER_SPRITE = 64;
export const UNDRAWN = 255; // in place of a layer, where no step has drawn

/**
 * How a sprite stands (R5.9, R5.10): tile pixels start to below end from column x on; the places that it asks the two masks for.
 * @typedef {{seen: boolean, x: number, start: number, end: number, priority: number, mark: number}} Stand
 */

/**
 * What a row of a screen goes by.
 * @typedef {{mapX: (x: number) => number, mapY: (x: number) => number, markAt: (x: number) => number, stand: (byte: number) => Stand, fill: number}} View
 * fill: the colour that columns 0 to 7 show over everything, or -1
 */

/**
 * @param {number} x
 * @param {number} width
 * @returns {Stand} where both masks go by the true column, and no pixel outside the row draws or marks
 */
const edged = (x, width) => ({ seen: true, x: Math.max(x, 0), start: Math.max(-x, 0), end: Math.min(width - x, 8), priority: Math.max(x, 0), mark: Math.max(x, 0) });

/** @type {Record<string, (registers: Uint8Array, scroll: number, row: number, line: number) => View>} */
const VIEWS = {
  // Area 0: R5.1, R5.5, R5.9
  visible(registers, scroll, _row, line) {
    const early = registers[0] & 8 ? 8 : 0, cut = ((304 - registers[8]) % 256) % 8, mapY = (line + scroll) % 224;
    return {
      mapX: (x) => (x + 304 - registers[8]) % 256,
      mapY: () => mapY,
      markAt: (x) => (x < 8 - cut ? (x - cut + 256) % 256 : x),
      stand(byte) {
        const gone = 48 + early - byte, x = Math.max(-gone, 0), start = Math.max(gone, 0), seen = byte > 40 && byte < 208;
        return { seen, x, start, end: x > 160 ? 8 : Math.min(160 - x, 8), priority: x - start, mark: seen ? byte : byte + start };
      },
      fill: -1,
    };
  },
  // Area 1: R5.1, R5.10
  effective(registers, _scroll, row) {
    const early = registers[0] & 8 ? 8 : 0;
    return {
      mapX: (x) => x,
      mapY: () => row,
      markAt: (x) => x,
      stand(byte) {
        const x = (byte - early + 256) % 256;
        return { seen: true, x, start: 0, end: 8, priority: x, mark: byte };
      },
      fill: -1,
    };
  },
  // Area 2: section 18
  edges(registers, scroll, row, line) {
    const early = registers[0] & 8 ? 8 : 0;
    return { ...VIEWS.visible(registers, scroll, row, line), markAt: (x) => x, stand: (byte) => edged(byte - 48 - early, 160) };
  },
  // The home machine: R20.4 to R20.7
  home(registers, scroll, row) {
    const early = registers[0] & 8 ? 8 : 0, across = registers[0] & 64 && row < 16 ? 0 : registers[8];
    return {
      mapX: (x) => (x - across + 256) % 256,
      mapY: (x) => (registers[0] & 128 && x >= 192 ? row : (row + scroll) % 224),
      markAt: (x) => x,
      stand: (byte) => edged(byte - early, 256),
      fill: registers[0] & 32 ? 16 + (registers[7] & 15) : -1,
    };
  },
};

/**
 * What a row of a screen goes by.
 * @param {Screen} screen
 * @param {Uint8Array} registers
 * @param {number} scroll
 * @param {number} row
 */
export function viewOf(screen, registers, scroll, row) {
  return VIEWS[screen.view](registers, scroll, row, row + screen.firstLine);
}

/**
 * The code of a pixel of a tile's line (R5.3).
 * @param {Uint8Array} memory
 * @param {number} address
 * @param {number} pixel
 */
function codeAt(memory, address, pixel) {
  let code = 0;
  for (let plane = 0; plane < 4; plane++) code |= ((memory[address + plane] >> (7 - pixel)) & 1) << plane;
  return code;
}

/**
 * The background of one column: its tile, what the map's flags say, its colour (R5.2).
 * @param {Uint8Array} memory
 * @param {Uint8Array} registers
 * @param {number} mapX
 * @param {number} mapY
 */
function background(memory, registers, mapX, mapY) {
  const column = mapX >> 3, line = mapY >> 3, entry = (registers[2] & 0x0e) * 1024 + 2 * (32 * line + column);
  const high = memory[entry + 1], tile = memory[entry] + 256 * (high & 1);
  const across = !!(high & 2), down = !!(high & 4), palette = (high >> 3) & 1, priority = !!(high & 16);
  const code = codeAt(memory, 32 * tile + 4 * (down ? 7 - (mapY & 7) : mapY & 7), across ? 7 - (mapX & 7) : mapX & 7);
  return { column, line, entry, tile, across, down, palette, priority, code, colour: code + 16 * palette };
}
/** @typedef {ReturnType<typeof background>} Background */

/** A sprite on the row: its bytes, how it stands, and what became of each of its columns, by screen column. */
export class Sprite {
  /**
   * @param {number} number
   * @param {number} y
   * @param {number} x
   * @param {number} shown its tile of this row
   * @param {number} address
   * @param {Stand} stand
   */
  constructor(number, y, x, shown, address, stand) {
    this.number = number;
    this.y = y;
    this.x = x;
    this.shown = shown;
    this.real = address >> 5; // and which tile of video memory that is
    this.address = address;
    this.stand = stand;
    /** @type {Map<number, string>} */
    this.fates = new Map();
    /** @type {Map<number, number>} */
    this.codes = new Map();
    /**
     * The place that the sprite mask was asked for, and the one of the priority mask.
     * @type {Map<number, [number, number]>}
     */
    this.places = new Map();
    /** @type {Set<number>} */
    this.marks = new Set();
  }

  /** How many columns its tile covers, shown or not. */
  get width() {
    return Math.max(this.stand.end - this.stand.start, 0);
  }
}

/** A row of a screen: colour numbers, layers, status bits, and the sprites that are laid on it and those that are not. */
export class RuledRow {
  /**
   * @param {Uint8Array} memory
   * @param {Uint8Array} registers
   * @param {number} scroll
   * @param {Screen} screen
   * @param {number} row
   */
  constructor(memory, registers, scroll, screen, row) {
    this.line = row + screen.firstLine;
    this.width = screen.columns;
    this.memory = memory;
    this.view = viewOf(screen, registers, scroll, row);
    /** @type {Background[]} */
    this.back = [];
    this.front = new Set();
    for (let x = 0; x < this.width; x++) {
      const back = background(memory, registers, this.view.mapX(x), this.view.mapY(x));
      this.back.push(back);
      if (back.priority && back.code) this.front.add(this.view.markAt(x));
    }
    this.colours = this.back.map((back) => back.colour);
    this.layers = new Uint8Array(this.width);
    this.tall = !!(registers[1] & 2);
    this.table = (registers[5] & 0x7e) * 128;
    /**
     * The sprite whose Y byte D0 ends the list.
     * @type {number | null}
     */
    this.end = null;
    /** @type {Sprite[]} */
    const found = [];
    for (let n = 0; n < 64; n++) {
      const y = memory[this.table + n], top = (y + 1) % 256;
      if (y === 0xd0) {
        this.end = n;
        break;
      }
      if (top <= this.line && this.line < top + (this.tall ? 16 : 8)) found.push(this.sprite(registers, n, y, this.line - top));
    }
    this.laid = found.slice(0, MOST);
    this.beyond = found.slice(MOST);
    this.ninth = this.beyond.length > 0;
    this.met = false;
    /** @type {Set<number>} */
    const mask = new Set();
    for (const sprite of this.laid) {
      this.lay(sprite, mask);
      for (const place of sprite.marks) mask.add(place);
    }
    if (this.view.fill >= 0) {
      this.colours.fill(this.view.fill, 0, 8);
      this.layers.fill(LAYER_FILLED, 0, 8);
    }
  }

  /**
   * @param {Uint8Array} registers
   * @param {number} n
   * @param {number} y
   * @param {number} line
   */
  sprite(registers, n, y, line) {
    const x = this.memory[this.table + 128 + 2 * n], tile = this.memory[this.table + 129 + 2 * n];
    const shown = this.tall ? (tile & 0xfe) + (line >> 3) : tile;
    return new Sprite(n, y, x, shown, (registers[6] & 4 ? 8192 : 0) + 32 * shown + 4 * (line & 7), this.view.stand(x));
  }

  /**
   * R5.11 and R5.12: the sprite on the row, with its marks; the mask has those of the sprites before it.
   * @param {Sprite} sprite
   * @param {Set<number>} mask
   */
  lay(sprite, mask) {
    const { stand } = sprite;
    for (let c = 0; c < sprite.width; c++) {
      const column = stand.x + c, place = (stand.mark + c) & 255, tested = (stand.priority + c + 256) & 255;
      const code = codeAt(this.memory, sprite.address, stand.start + c);
      sprite.codes.set(column, code);
      sprite.places.set(column, [place, tested]);
      if (!code) {
        sprite.fates.set(column, CLEAR);
      } else if (stand.seen && this.front.has(tested)) {
        sprite.fates.set(column, HELD_BACK);
        if (column < this.width && this.layers[column] === 0) this.layers[column] = LAYER_HELD_BACK;
      } else {
        sprite.marks.add(place);
        const struck = mask.has(place);
        if (struck) this.met = true;
        sprite.fates.set(column, !stand.seen ? UNSEEN : struck ? STRUCK : DRAWN);
        if (stand.seen && !struck && column < this.width) {
          this.colours[column] = 16 + code;
          this.layers[column] = LAYER_SPRITE + sprite.number;
        }
      }
    }
  }
}
