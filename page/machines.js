// The two machines, each as one description; all else of the page goes by these.
import { answered } from "./library.js";
import { MACHINES } from "./words.js";
/** @typedef {import("./library.js").Library} Library */
/** @typedef {import("./library.js").Slice} Slice */

/**
 * What is drawn: how sentences call it, its size, the line of its row 0, the X byte of a sprite in its column 0, whether a sprite goes around from one edge to the
 * other, and which rules it goes by (rules.js).
 * @typedef {{number: number, name: string, said: string, columns: number, rows: number, firstLine: number, left: number, around: boolean, view: string}} Screen
 */

/**
 * @typedef {object} Machine
 * @property {string} name
 * @property {string} prefix of its calls
 * @property {boolean} areas whether its steps and pixels have an area
 * @property {number} block the size of its block
 * @property {Record<string, number>} at offsets in the block
 * @property {Screen[]} screens by their numbers
 * @property {number} colourSize bytes of a colour in the palette
 * @property {number} levels values of red, green and blue
 * @property {(bytes: ArrayLike<number>, at: number) => number[]} colour red, green and blue of the palette's bytes
 * @property {(levels: number[]) => number[]} bytes of a colour by its levels of red, green and blue
 * @property {(bytes: ArrayLike<number>, at: number) => number[]} parts the levels of red, green and blue
 */

/**
 * The bytes of a block that both machines have in the same places.
 * @param {Record<string, number>} n
 */
const shared = (n) => ({
  STATUS: n.AT_STATUS, REGISTERS: n.AT_REGISTERS, COUNTER: n.AT_COUNTER, JUMPED: n.AT_JUMPED, LINE_COUNT: n.AT_LINE_COUNT, ADDRESS: n.AT_ADDRESS,
  READ_BUFFER: n.AT_READ_BUFFER, CHOSEN: n.AT_CHOSEN, COMMAND_LATCHED: n.AT_COMMAND_LATCHED, COMMAND_BYTE: n.AT_COMMAND_BYTE,
});

/**
 * What a palette's form, so many bytes with so many bits each for red (lowest), green and blue, makes of a colour (R4.6, R20.2).
 * @param {{bytes: number, bits: number}} form
 * @returns {Pick<Machine, "colourSize" | "levels" | "parts" | "colour" | "bytes">}
 */
function palette({ bytes: size, bits }) {
  const levels = 1 << bits;
  /** @type {Machine["parts"]} */
  const parts = (bytes, at) => {
    const value = size === 2 ? bytes[at] + 256 * bytes[at + 1] : bytes[at];
    return [0, 1, 2].map((part) => (value >> (bits * part)) % levels);
  };
  return {
    colourSize: size, levels, parts,
    colour: (bytes, at) => parts(bytes, at).map((part) => (part * 255) / (levels - 1)),
    bytes: (found) => {
      const value = found.reduce((sum, level, part) => sum + (level << (bits * part)), 0);
      return size === 2 ? [value & 255, value >> 8] : [value];
    },
  };
}

/**
 * The handheld.
 * @param {Library} library
 * @returns {Machine}
 */
export function handheld({ numbers: n }) {
  const visible = { columns: n.VISIBLE_WIDTH, rows: n.VISIBLE_HEIGHT, firstLine: 24, left: 48, around: false };
  return {
    name: "handheld", prefix: "vdp_", areas: true, block: n.STATE_SIZE,
    at: { ...shared(n), VERTICAL_SCROLL: n.AT_VERTICAL_SCROLL, PALETTE: n.AT_PALETTE, COLOURS: n.AT_COLOURS },
    screens: [
      { number: 0, name: "visible", said: "area 0", ...visible, view: "visible" },
      { number: 1, name: "effective", said: "area 1", columns: n.EFFECTIVE_WIDTH, rows: n.EFFECTIVE_HEIGHT, firstLine: 0, left: 0, around: true, view: "effective" },
      { number: 2, name: "true edges", said: "area 2", ...visible, view: "edges" },
    ],
    ...palette(MACHINES.handheld.palette),
  };
}

/**
 * The home machine (docs/HOME.md). Past byte 22 its block has other places than the handheld's.
 * @param {Library} library
 * @returns {Machine}
 */
export function home({ numbers: n }) {
  return {
    name: "home machine", prefix: "vdp_home_", areas: false, block: n.HOME_STATE_SIZE,
    at: { ...shared(n), VERTICAL_SCROLL: n.HOME_AT_VERTICAL_SCROLL, PALETTE: n.HOME_AT_PALETTE, COLOURS: n.HOME_AT_COLOURS },
    screens: [{ number: 0, name: "home screen", said: "the home machine", columns: n.HOME_WIDTH, rows: n.HOME_HEIGHT, firstLine: 0, left: 0, around: false, view: "home" }],
    ...palette(MACHINES.home.palette),
  };
}

/**
 * Both of them.
 * @param {Library} library
 */
export function machines(library) {
  return [handheld(library), home(library)];
}

/**
 * What a device was at a moment.
 * @typedef {{state: Uint8Array, vram: Uint8Array}} Saved
 */

/** A device and its video memory. */
export class Device {
  /**
   * @param {Library} library
   * @param {Machine} machine
   * @param {number} table
   */
  constructor(library, machine, table) {
    this.library = library;
    this.machine = machine;
    this.table = table;
    this.state = library.slice(machine.block);
    this.vram = library.slice(library.numbers.VRAM_SIZE);
    /** @param {string} name */
    const call = (name) => library.calls[machine.prefix + name];
    this.calls = { new: call("new_table"), out: call("out"), input: call("input"), step: call("layer_step"), row: call("layer_row_step"), pixel: call("pixel"), dump: call("dump_tileset") };
    this.reset();
  }

  reset() {
    this.calls.new(this.state.at, this.state.size, this.table);
    this.vram.bytes.fill(0);
  }

  close() {
    this.library.release(this.state, this.vram);
  }

  /** @returns {Saved} */
  save() {
    return { state: this.state.bytes.slice(), vram: this.vram.bytes.slice() };
  }

  /** @param {Saved} saved */
  restore({ state, vram }) {
    this.state.bytes.set(state);
    this.vram.bytes.set(vram);
  }

  /**
   * A byte of the block.
   * @param {string} name
   */
  at(name) {
    return this.state.bytes[this.machine.at[name]];
  }

  get counter() {
    return this.at("COUNTER");
  }

  get registers() {
    const at = this.machine.at.REGISTERS;
    return this.state.bytes.slice(at, at + 11);
  }

  get address() {
    const at = this.machine.at.ADDRESS;
    return this.state.bytes[at] + 256 * this.state.bytes[at + 1];
  }

  get palette() {
    const at = this.machine.at.PALETTE;
    return this.state.bytes.slice(at, at + 32 * this.machine.colourSize);
  }

  /**
   * The refusal of a write.
   * @param {number} port
   * @param {number} value
   * @returns {number}
   */
  out(port, value) {
    return this.calls.out(this.state.at, this.state.size, this.vram.at, this.vram.size, port, value) & 255;
  }

  /**
   * The word of a read.
   * @param {number} port
   * @returns {number}
   */
  input(port) {
    return this.calls.input(this.state.at, this.state.size, this.vram.at, this.vram.size, port) >>> 0;
  }

  /**
   * A step that draws its row in the frame. (Past its last parameter, a call without areas takes none.)
   * @param {Slice} frame
   * @param {Slice} layers
   * @param {number} area
   * @returns {number}
   */
  step(frame, layers, area) {
    return this.calls.step(this.state.at, this.state.size, this.vram.at, this.vram.size, frame.at, frame.size, layers.at, layers.size, area) >>> 0;
  }

  /**
   * @param {Slice} row
   * @param {Slice} layers
   * @param {number} area
   * @returns {number}
   */
  rowStep(row, layers, area) {
    return this.calls.row(this.state.at, this.state.size, this.vram.at, this.vram.size, row.at, row.size, layers.at, layers.size, area) >>> 0;
  }

  /**
   * The four bytes of a pixel as its row would be drawn now, or null where there is none.
   * @param {number} area
   * @param {number} row
   * @param {number} column
   */
  pixel(area, row, column) {
    const place = this.machine.areas ? [area, row, column] : [row, column];
    const word = BigInt.asUintN(64, this.calls.pixel(this.state.at, this.state.size, this.vram.at, this.vram.size, ...place));
    const bytes = Number(word >> 32n);
    return (word >> 24n) & 1n ? [bytes & 255, (bytes >>> 8) & 255, (bytes >>> 16) & 255, bytes >>> 24] : null;
  }

  /**
   * Draws the sheet of all tiles; its refusal.
   * @param {Slice} sheet
   * @returns {number}
   */
  dump(sheet) {
    return this.calls.dump(this.state.at, this.state.size, this.vram.at, this.vram.size, sheet.at, sheet.size) & 255;
  }

  /**
   * A row as it would be drawn now: its pixels, its layers, and the status bits that it sets. The device stays.
   * @param {Screen} screen
   * @param {number} row
   */
  rowNow(screen, row) {
    const saved = this.state.bytes.slice();
    const pixels = this.library.slice(4 * screen.columns), layers = this.library.slice(screen.columns);
    const { STATUS, REGISTERS, COUNTER, JUMPED } = this.machine.at;
    this.state.bytes[STATUS] = 0;
    this.state.bytes[REGISTERS + 9] = this.at("VERTICAL_SCROLL"); // which a step to line 0 takes
    this.state.bytes[COUNTER] = (screen.firstLine + row + 255) % 256;
    this.state.bytes[JUMPED] = 1; // so that the next line is this row's, and no jump
    const answer = answered(this.rowStep(pixels, layers, screen.number));
    if (!answer.drawn || answer.row !== row) throw new Error(`row ${row} was not drawn`);
    const told = { pixels: pixels.bytes.slice(), layers: layers.bytes.slice(), status: this.at("STATUS") };
    this.state.bytes.set(saved);
    this.library.release(pixels, layers);
    return told;
  }

  /** The 32 colours that a row would be drawn with now, four bytes each. The device stays. */
  colours() {
    return this.settled(() => {
      const at = this.machine.at.COLOURS;
      return this.state.bytes.slice(at, at + 128);
    });
  }

  /**
   * What `look` gives when the device has gone on to a row and drawn it, so that its colours are those of the palette. The device stays.
   * @template T
   * @param {() => T} look
   * @returns {T}
   */
  settled(look) {
    const saved = this.state.bytes.slice(), screen = this.machine.screens[0];
    const row = this.library.slice(4 * screen.columns), layers = this.library.slice(screen.columns);
    while (!answered(this.rowStep(row, layers, screen.number)).drawn);
    const told = look();
    this.state.bytes.set(saved);
    this.library.release(row, layers);
    return told;
  }
}
