// A trace run on a device: what each step answered, its frames, and the way back to any moment of it.
import { answered } from "./library.js";
import { Device } from "./machines.js";
import { UNDRAWN } from "./rules.js";
import { READ, STEP, WRITE } from "./trace.js";
/** @typedef {import("./library.js").Library} Library */
/** @typedef {import("./machines.js").Machine} Machine */
/** @typedef {import("./machines.js").Screen} Screen */
/** @typedef {import("./machines.js").Saved} Saved */
/** @typedef {import("./trace.js").Trace} Trace */

const LAST_LINE = 255; // the step from it begins a pass
const MOST_KEPT = 96; // moments that are kept
const FIRST_GAP = 512; // records between two of them, at first

/** Where the steps of one size of screen draw. */
class Canvas {
  /**
   * @param {Library} library
   * @param {Screen} screen
   */
  constructor(library, screen) {
    this.columns = screen.columns;
    this.rows = screen.rows;
    this.frame = library.slice(4 * screen.columns * screen.rows);
    this.row = library.slice(screen.columns);
    this.layers = new Uint8Array(screen.columns * screen.rows).fill(UNDRAWN);
    this.by = new Int32Array(screen.rows).fill(-1); // the step that drew each row, from 0
  }

  save() {
    return { pixels: this.frame.bytes.slice(), layers: this.layers.slice(), by: this.by.slice() };
  }

  /** @param {ReturnType<Canvas["save"]> | undefined} saved */
  restore(saved) {
    if (saved) {
      this.frame.bytes.set(saved.pixels);
      this.layers.set(saved.layers);
      this.by.set(saved.by);
    } else {
      this.frame.bytes.fill(0);
      this.layers.fill(UNDRAWN);
      this.by.fill(-1);
    }
  }
}

/**
 * A moment that can be gone back to: so many records, and steps among them, are done.
 * @typedef {{record: number, step: number, device: Saved, canvases: Map<number, ReturnType<Canvas["save"]>>}} Kept
 */

/** A device that goes through the records of a trace, and the pictures that it has drawn, by their width. */
export class Player {
  /**
   * @param {Library} library
   * @param {Machine} machine
   * @param {number} table
   * @param {Trace} trace
   * @param {number | null} area that every step is drawn as; null: as recorded
   */
  constructor(library, machine, table, trace, area) {
    this.library = library;
    this.machine = machine;
    this.trace = trace;
    this.area = area;
    this.device = new Device(library, machine, table);
    /** @type {Map<number, Canvas>} */
    this.canvases = new Map();
    this.record = 0;
    this.step = 0;
  }

  close() {
    this.device.close();
    for (const canvas of this.canvases.values()) this.library.release(canvas.frame, canvas.row);
    this.canvases.clear();
  }

  /** @param {Screen} screen */
  canvas(screen) {
    let canvas = this.canvases.get(screen.columns);
    if (!canvas) this.canvases.set(screen.columns, (canvas = new Canvas(this.library, screen)));
    return canvas;
  }

  /** @returns {Kept} */
  save() {
    const canvases = new Map(Array.from(this.canvases, ([width, canvas]) => [width, canvas.save()]));
    return { record: this.record, step: this.step, device: this.device.save(), canvases };
  }

  /** @param {Kept} kept */
  restore(kept) {
    this.record = kept.record;
    this.step = kept.step;
    this.device.restore(kept.device);
    for (const screen of this.machine.screens) {
      const saved = kept.canvases.get(screen.columns);
      if (saved || this.canvases.has(screen.columns)) this.canvas(screen).restore(saved);
    }
  }

  /** One record. The word of a step; of others 0. */
  next() {
    const { trace, record: at, device } = this;
    const kind = trace.kinds[at], place = trace.places[at];
    this.record++;
    if (kind === WRITE) device.out(place, trace.values[at]);
    else if (kind === READ) device.input(place);
    else return this.stepped(this.area ?? place);
    return 0;
  }

  /**
   * A step of this area.
   * @param {number} area
   */
  stepped(area) {
    const canvas = this.canvas(this.machine.screens[area]);
    const word = this.device.step(canvas.frame, canvas.row, area);
    if (word & (1 << 24)) {
      const row = (word >>> 16) & 255;
      canvas.layers.set(canvas.row.bytes, row * canvas.columns);
      canvas.by[row] = this.step;
    }
    this.step++;
    return word;
  }

  /**
   * Goes on until so many records are done.
   * @param {number} record
   */
  to(record) {
    while (this.record < record) this.next();
  }
}

/**
 * The steps from one line 0 to the next, or from a trace's beginning: first step, the one past the last, and the widths of what they drew.
 * @typedef {{first: number, end: number, widths: Set<number>}} Pass
 */

/** A trace from its first record to its last, with an index of its steps. */
export class Film {
  /**
   * @param {Library} library
   * @param {Machine} machine
   * @param {number} table
   * @param {Trace} trace
   * @param {number | null} area
   */
  constructor(library, machine, table, trace, area) {
    this.library = library;
    this.machine = machine;
    this.table = table;
    this.trace = trace;
    this.area = area;
    this.player = new Player(library, machine, table, trace, area);
    this.records = new Uint32Array(trace.steps); // of each step its record
    this.words = new Uint32Array(trace.steps); // what it answered
    this.counters = new Uint8Array(trace.steps); // and the line counter after it
    /** @type {Pass[]} */
    this.passes = [];
    /**
     * How many rows each area has drawn.
     * @type {Map<number, number>}
     */
    this.drawn = new Map();
    /** @type {Kept[]} */
    this.kept = [this.player.save()];
    this.gap = FIRST_GAP;
  }

  close() {
    this.player.close();
  }

  /**
   * Runs the whole trace; between its turns others may work.
   * @returns {Generator<number, void>}
   */
  *run() {
    const { player, trace } = this;
    for (let at = 0; at < trace.count; at++) {
      if (at - this.kept[this.kept.length - 1].record >= this.gap) this.keep();
      const before = player.device.counter, isStep = trace.kinds[at] === STEP;
      const word = player.next();
      if (isStep) this.note(at, word, before);
      if (at % 256 === 255) yield at / trace.count;
    }
    if (!this.passes.length) this.passes.push({ first: 0, end: 0, widths: new Set() });
  }

  /** Keeps this moment; where there are too many, every second one goes. */
  keep() {
    this.kept.push(this.player.save());
    if (this.kept.length > MOST_KEPT) {
      this.kept = this.kept.filter((_, index) => index % 2 === 0);
      this.gap *= 2;
    }
  }

  /**
   * @param {number} record
   * @param {number} word
   * @param {number} before what the counter read
   */
  note(record, word, before) {
    const step = this.player.step - 1;
    this.records[step] = record;
    this.words[step] = word;
    this.counters[step] = this.player.device.counter;
    if (before === LAST_LINE || !this.passes.length) this.passes.push({ first: step, end: step, widths: new Set() });
    const pass = this.passes[this.passes.length - 1];
    pass.end = step + 1;
    if (answered(word).drawn) {
      const area = this.areaOf(step);
      pass.widths.add(this.machine.screens[area].columns);
      this.drawn.set(area, (this.drawn.get(area) ?? 0) + 1);
    }
  }

  /**
   * The area that a step was drawn as.
   * @param {number} step
   */
  areaOf(step) {
    return this.area ?? this.trace.places[this.records[step]];
  }

  /**
   * The passes that drew something of this size; where none did, the last one.
   * @param {Screen} screen
   */
  frames(screen) {
    const found = this.passes.filter((pass) => pass.widths.has(screen.columns));
    return found.length ? found : this.passes.slice(-1);
  }

  /**
   * The record that begins the pass behind this one, or the end: where the pass's picture stands whole.
   * @param {Pass} pass
   */
  endOf(pass) {
    return pass.end < this.trace.steps ? this.records[pass.end] : this.trace.count;
  }

  /** The screen to look at: the first that has drawn a row, those of area 0's size before the others; else area 0's, or that of the chosen area. */
  screen() {
    const all = this.machine.screens, first = all[this.area ?? 0];
    const drawn = [...this.drawn.keys()].map((number) => all[number]).sort((a, b) => Number(a.columns !== first.columns) - Number(b.columns !== first.columns) || a.number - b.number);
    return drawn[0] ?? first;
  }

  /**
   * The nearest kept moment at which at most so many records are done.
   * @param {number} record
   */
  nearest(record) {
    let low = 0, high = this.kept.length - 1;
    while (low < high) {
      const middle = (low + high + 1) >> 1;
      if (this.kept[middle].record <= record) low = middle;
      else high = middle - 1;
    }
    return this.kept[low];
  }

  /**
   * Brings a player of this trace to the moment at which so many records are done.
   * @param {number} record
   * @param {Player} player
   */
  seek(record, player = this.player) {
    const kept = this.nearest(record);
    if (player.record > record || player.record < kept.record) player.restore(kept);
    player.to(record);
    return player;
  }

  /**
   * How many steps there are among so many records.
   * @param {number} record
   */
  stepsIn(record) {
    let low = 0, high = this.trace.steps;
    while (low < high) {
      const middle = (low + high) >> 1;
      if (this.records[middle] < record) low = middle + 1;
      else high = middle;
    }
    return low;
  }

  /**
   * The pass that holds a step.
   * @param {number} step
   */
  passOf(step) {
    let low = 0, high = this.passes.length - 1;
    while (low < high) {
      const middle = (low + high + 1) >> 1;
      if (this.passes[middle].first <= step) low = middle;
      else high = middle - 1;
    }
    return this.passes[low];
  }
}
