// A trace in words, line by line as `desk list` prints it: statements of the desk's language that make the same records again, each with what it does.
import { answered } from "./library.js";
import { Device } from "./machines.js";
import { READ, STEP, WRITE } from "./trace.js";
import { viewOf } from "./rules.js";
import { REPORTS } from "./says.js";
import { colourWords, hex, hexes, registerWords, span, spriteTile, statusWords } from "./words.js";
/** @typedef {import("./library.js").Library} Library */
/** @typedef {import("./machines.js").Machine} Machine */
/** @typedef {import("./machines.js").Screen} Screen */
/** @typedef {import("./trace.js").Trace} Trace */

const CHUNK = 16; // bytes on a line
const MOST_LINES = 200000;

/**
 * A line of the list: the record that it begins with, how many it has, the statement, its words, and whether it is a write.
 * @typedef {{record: number, count: number, statement: string, words: string, write: boolean}} Listed
 */

const FLAGS = /** @type {[string, number][]} */ ([["across", 2], ["down", 4], ["palette1", 8], ["priority", 16]]);

/**
 * A sprite's Y byte: the line that it begins at, and the row, where the screen shows any of it.
 * @param {Screen} screen
 * @param {Uint8Array} registers
 * @param {number} sprite
 * @param {number} value
 */
function yWords(screen, registers, sprite, value) {
  if (value === 0xd0) return `Y byte D0, which ends the list before sprite ${sprite}`;
  const first = (value + 1) % 256, row = first - screen.firstLine, last = row + (registers[1] & 2 ? 15 : 7);
  return `sprite ${sprite} from line ${first} on, ` + (last >= 0 && row < screen.rows ? `row ${row}` : "off the screen");
}

/**
 * A sprite's X byte and its tile.
 * @param {Screen} screen
 * @param {Uint8Array} registers
 * @param {number} sprite
 * @param {number} x
 * @param {number} tile
 */
function xWords(screen, registers, sprite, x, tile) {
  const early = registers[0] & 8 ? 8 : 0, column = x - screen.left - early, stand = viewOf(screen, registers, 0, 0).stand(x);
  const shows = stand.seen && stand.end > stand.start && stand.x < screen.columns, pair = tile & 0xfe;
  const place = `X ${x}, column ${screen.around ? (column + 256) % 256 : column}${shows ? "" : ", not drawn there"}`;
  return `sprite ${sprite}: ${place}; ` + (registers[1] & 2 ? `its tiles ${pair} and ${pair + 1} from ${spriteTile(registers, pair)}` : `its tile ${tile} is ${spriteTile(registers, tile)}`);
}

/**
 * What stands at these addresses, by the registers as they are; places of sprites are those of the screen.
 * @param {Device} device
 * @param {Screen} screen
 * @param {number} address
 * @param {number[]} values
 */
function videoWords(device, screen, address, values) {
  const last = address + values.length - 1, { registers } = device;
  const table = (registers[5] & 0x7e) * 128, names = (registers[2] & 0x0e) * 1024;
  const where = (address === last ? hex(address, 4) : `${hex(address, 4)} to ${hex(last, 4)}`) + ": ";
  if (table <= address && last < table + 64) {
    if (values.length === 1) return where + yWords(screen, registers, address - table, values[0]);
    return `${where}the Y bytes of ${span(address - table, last - table, "sprite")}`;
  }
  if (table + 128 <= address && last < table + 256) {
    const sprite = (address - table - 128) >> 1;
    if (values.length === 2 && address % 2 === 0) return where + xWords(screen, registers, sprite, values[0], values[1]);
    return `${where}X and tile of ${span(sprite, (last - table - 128) >> 1, "sprite")}`;
  }
  if (names <= address && last < names + 1792) {
    const first = (address - names) >> 1, end = (last - names) >> 1, place = `the map's column ${first % 32}, row ${first >> 5}`;
    if (values.length !== 2 || address % 2) return `${where}from ${place} to column ${end % 32}, row ${end >> 5}`;
    return `${where}${place}: tile ${values[0] + (values[1] % 2) * 256}` + FLAGS.filter(([, bit]) => values[1] & bit).map(([word]) => ", " + word).join("");
  }
  const tile = address >> 5, to = last >> 5;
  return where + (tile === to && values.length < 32 ? `in tile ${tile}` : span(tile, to, "tile"));
}

/**
 * Bytes as lines of at most CHUNK, and as bytes with how many times where the same come again and again.
 * @param {number[]} values
 * @returns {Generator<[number[], number]>}
 */
function* pieces(values) {
  for (let at = 0; at < values.length; ) {
    let length = 0, best = 1, many = 1;
    for (const period of [1, 2, 4, 8, 16]) {
      if (at + period > values.length) break;
      let times = 1;
      const same = () => {
        const from = at + times * period;
        if (from + period > values.length) return false;
        for (let k = 0; k < period; k++) if (values[from + k] !== values[at + k]) return false;
        return true;
      };
      while (same()) times++;
      if (times > 1 && times * period > CHUNK && times * period > length) [length, best, many] = [times * period, period, times];
    }
    if (length) yield [values.slice(at, at + best), many];
    else yield [values.slice(at, at + CHUNK), 1];
    at += length || CHUNK;
  }
}

/** Goes through the records with a device beside them, and makes lines. */
export class Lister {
  /**
   * @param {Library} library
   * @param {Machine} machine
   * @param {number} table
   * @param {Trace} trace
   */
  constructor(library, machine, table, trace) {
    this.library = library;
    this.machine = machine;
    this.trace = trace;
    this.device = new Device(library, machine, table);
    this.atHome = !machine.areas;
    /** @type {Listed[]} */
    this.lines = [];
    this.at = 0;
    this.from = 0; // the record that the line begins with
    this.area = 0;
    /** @type {number | null} */
    this.drawn = null;
    this.cut = false; // there are more lines than are kept
    const n = library.numbers;
    this.command = n.PORT_COMMAND;
    this.data = n.PORT_DATA;
    this.line = n.PORT_LINE;
  }

  /** @returns {Generator<number, void>} */
  *run() {
    const { trace } = this, [first] = this.machine.screens;
    if (this.atHome) this.say("home", `the home machine, ${first.columns} x ${first.rows}`);
    try {
      for (let turn = 1; this.at < trace.count && !this.cut; turn++) {
        this.from = this.at;
        const kind = trace.kinds[this.at];
        if (kind === STEP) this.steps();
        else if (kind === READ) this.read();
        else if (!this.commands()) this.write();
        this.cut = this.lines.length >= MOST_LINES;
        if (turn % 64 === 0) yield this.at / trace.count;
      }
    } finally {
      this.device.close();
    }
  }

  /**
   * @param {string} statement
   * @param {string} words
   * @param {number[]} refusals
   * @param {string} place
   */
  say(statement, words, refusals = [], place = "") {
    const bad = refusals.filter((number) => number);
    if (bad.length) {
      const count = refusals.length > 1 ? ` (${bad.length} of ${refusals.length} records)` : "";
      words = `REFUSED${count}: ${this.library.refusal(bad[0])}`;
    }
    const write = this.trace.kinds[this.from] === WRITE;
    this.lines.push({ record: this.from, count: this.at - this.from, statement, words: [place, words].filter((part) => part).join(": "), write });
    this.from = this.at;
  }

  place() {
    return `line ${this.device.counter}, ` + (this.drawn === null ? "before any row" : `after row ${this.drawn}`);
  }

  get screen() {
    return this.machine.screens[this.area];
  }

  // Port calls.
  /**
   * The values of the writes to this port that follow one another from here.
   * @param {number} at
   * @param {number} port
   * @param {number} most
   */
  writesFrom(at, port, most = Infinity) {
    const { trace } = this;
    /** @type {number[]} */
    const values = [];
    while (at < trace.count && trace.kinds[at] === WRITE && trace.places[at] === port && values.length < most) values.push(trace.values[at++]);
    return values;
  }

  /** @param {number} count */
  out(count) {
    const refusals = [];
    for (const end = this.at + count; this.at < end; this.at++) refusals.push(this.device.out(this.trace.places[this.at], this.trace.values[this.at]));
    return refusals;
  }

  /** Two command bytes, with the data behind them, as a statement; false where they are none. */
  commands() {
    const both = this.writesFrom(this.at, this.command, 2);
    if (both.length < 2 || this.device.at("COMMAND_LATCHED")) return false;
    const [first, second] = both, size = this.machine.colourSize, place = this.place();
    if (second >= 0x80 && second <= 0x8a) {
      const refusals = this.out(2);
      this.say(`reg ${second - 0x80} = ${hexes([first])}`, registerWords(this.atHome, second - 0x80, first), refusals, place);
      return true;
    }
    let data = this.writesFrom(this.at + 2, this.data);
    if (second === 0xc0 && first < 32 * size && first % size === 0 && data.length >= size) {
      const number = first / size;
      data = data.slice(0, Math.min(Math.floor(data.length / size) * size, size * (32 - number)));
      const refusals = this.out(2 + data.length);
      const words = data.length === size ? this.colour(data, 0) : span(number, number + data.length / size - 1, "colour");
      this.say(`colour ${number} = ${hexes(data)}`, words, refusals, place);
      return true;
    }
    if (second < 0x40 || second >= 0x80 || !data.length) return false;
    let address = first + 256 * (second - 0x40), start = true;
    for (const [values, times] of pieces(data.slice(0, this.library.numbers.VRAM_SIZE - address))) {
      const all = times > 1 ? Array.from({ length: values.length * times }, (_, k) => values[k % values.length]) : values;
      const refusals = this.out(all.length + (start ? 2 : 0));
      const statement = start ? `vram ${hex(address, 4)} = ` : "write BE = ";
      this.say(statement + hexes(values) + (times > 1 ? ` times ${times}` : ""), videoWords(this.device, this.screen, address, all), refusals, start ? place : "");
      address += all.length;
      start = false;
    }
    return true;
  }

  /**
   * @param {ArrayLike<number>} bytes
   * @param {number} at
   */
  colour(bytes, at) {
    const [red, green, blue] = this.machine.colour(bytes, at);
    return colourWords(red, green, blue);
  }

  /** A write on its own. */
  write() {
    const { device } = this, port = this.trace.places[this.at], value = this.trace.values[this.at];
    const place = this.place(), latched = device.at("COMMAND_LATCHED"), first = device.at("COMMAND_BYTE"), chosen = device.at("CHOSEN"), { address } = device;
    const refusals = this.out(1);
    let words = "";
    if (!refusals[0]) {
      if (port === this.command) words = latched ? this.secondWords(first, value) : "the first byte of a command";
      else if (chosen === 1) words = videoWords(device, this.screen, address, [value]);
      else words = this.paletteWords(address, value);
    }
    this.say(`write ${hexes([port])} = ${hexes([value])}`, words, refusals, place);
  }

  /**
   * Of a byte that was written to the palette.
   * @param {number} address
   * @param {number} value
   */
  paletteWords(address, value) {
    if (this.machine.colourSize === 1) return `colour ${address}: ${this.colour([value], 0)}`;
    if (address % 2 === 0) return `palette address ${hex(address)}: latched until the odd byte comes`;
    return `colour ${address >> 1}: ${this.colour(this.device.palette, address - 1)}`;
  }

  /**
   * @param {number} first
   * @param {number} second
   */
  secondWords(first, second) {
    if (second < 0x80) return `address ${hex((first + 256 * second) % 16384, 4)}, ` + (second >= 0x40 ? "to write" : "to read: the buffer is loaded, and the address goes up");
    if (second < 0xc0) return `register ${second % 128} is ${hex(first)}: ${registerWords(this.atHome, second % 128, first)}`;
    return `palette address ${hex(first % (32 * this.machine.colourSize))}`;
  }

  read() {
    const port = this.trace.places[this.at], place = this.place(), { address } = this.device;
    const word = this.device.input(port), value = (word >>> 8) & 255;
    this.at++;
    let words = `data: ${hex(value)}; the byte at ${hex(address, 4)} is read ahead`;
    if (port === this.line) words = `the line counter: ${hex(value)} (${value})`;
    else if (port === this.command) words = `the status: ${hex(value)}, ${statusWords(value)}; it is 0 now`;
    this.say(`read ${hexes([port])}`, words, [word & 255], place);
  }

  /** The steps that follow one another and are of one sort: what they answer, whether they draw, the counter going up by one. */
  steps() {
    const { trace, device, library } = this, area = trace.places[this.at];
    if (area !== this.area) {
      this.area = area;
      this.say(`area ${area}`, `steps of area ${area} from here on, ${this.screen.columns} x ${this.screen.rows}`);
    }
    const row = library.slice(4 * this.screen.columns), layers = library.slice(this.screen.columns);
    let count = 0, line = 0, to = 0, firstRow = 0, lastRow = 0, sort = "", said = answered(0);
    while (this.at < trace.count && trace.kinds[this.at] === STEP && trace.places[this.at] === area) {
      const mark = device.state.bytes.slice();
      const answer = answered(device.rowStep(row, layers, area));
      const here = `${answer.refusal} ${answer.interrupt} ${answer.report} ${answer.drawn}`;
      if (count && (here !== sort || device.counter !== to + 1)) {
        device.state.bytes.set(mark);
        break;
      }
      if (!count) [line, firstRow, sort, said] = [device.counter, answer.row, here, answer];
      [to, lastRow] = [device.counter, answer.row];
      count++;
      this.at++;
      if (device.counter === 0) this.drawn = null;
      if (answer.drawn) this.drawn = answer.row;
    }
    library.release(row, layers);
    const words = [(count === 1 ? `line ${line} draws ` : `lines ${line} to ${to} draw `) + (said.drawn ? span(firstRow, lastRow, "row") : "no row")];
    if (said.report) words.push(REPORTS[said.report]);
    if (said.interrupt) words.push(count === 1 ? "an interrupt" : "an interrupt at each");
    this.say(`steps ${count}`, words.join(", "), [said.refusal]);
  }
}
