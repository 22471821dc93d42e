// A trace as records (docs/TRACES.md), read by the library's own reader.
import { hexes } from "./words.js";
/** @typedef {import("./library.js").Library} Library */
/** @typedef {import("./machines.js").Machine} Machine */

export const WRITE = 1, READ = 2, STEP = 3;
const CUT = "the record is cut: the trace ends in it";

/** The records of a trace, up to the first that is none. */
export class Trace {
  /**
   * @param {Uint8Array} data
   * @param {string} name
   */
  constructor(data, name) {
    this.data = data;
    this.name = name;
    const most = Math.ceil(data.length / 3);
    this.kinds = new Uint8Array(most);
    this.places = new Uint8Array(most); // a port or an area
    this.values = new Uint8Array(most);
    this.offsets = new Uint32Array(most + 1);
    this.count = 0;
    this.steps = 0;
    /** What is wrong behind the last record; empty where nothing is. */
    this.wrong = "";
  }

  /**
   * Reads all records; between its turns others may work.
   * @param {Library} library
   * @param {Machine} machine
   * @returns {Generator<number, void>}
   */
  *read(library, machine) {
    const { data } = this, size = BigInt(data.length), next = library.calls.vdp_record_next;
    // room by powers of two, so that the next trace can have it again
    const lent = library.slice(2 ** Math.max(Math.ceil(Math.log2(data.length || 1)), 16));
    lent.bytes.set(data);
    let at = 0;
    try {
      for (;;) {
        const word = next(lent.at, size, BigInt(at)) >>> 0;
        const kind = word & 255, place = (word >>> 8) & 255;
        if (kind === 0) break;
        if (kind > STEP || (kind === STEP && place >= machine.screens.length)) {
          this.wrong = `byte ${at}, record ${this.count + 1}: ${whatsWrong(data, at, machine)}`;
          break;
        }
        this.kinds[this.count] = kind;
        this.places[this.count] = place;
        this.values[this.count] = (word >>> 16) & 255;
        this.offsets[this.count++] = at;
        if (kind === STEP) this.steps++;
        at += word >>> 24;
        if (this.count % 4096 === 0) yield at / data.length;
      }
    } finally {
      this.offsets[this.count] = at;
      library.release(lent);
    }
  }
}

/**
 * Why no record stands at this offset.
 * @param {Uint8Array} data
 * @param {number} at
 * @param {Machine} machine
 */
function whatsWrong(data, at, machine) {
  const mark = String.fromCharCode(...data.slice(at, at + 2));
  /** @type {Record<string, number>} */
  const lengths = { PW: 4, PR: 3, LS: 3 };
  if (!(mark in lengths)) {
    if (mark.length < 2 && Object.keys(lengths).some((known) => known.startsWith(mark))) return CUT;
    return `no record begins with the bytes ${hexes(data.slice(at, at + 2))}`;
  }
  if (at + lengths[mark] > data.length) return CUT;
  return `a step of area ${data[at + 2]}, and ` + (machine.areas ? "there is no such area" : "the home machine's steps are of area 0");
}

/**
 * Bytes of a write to a port, for each value.
 * @param {number} port
 * @param {number[]} values
 */
export function writes(port, ...values) {
  return values.flatMap((value) => [0x50, 0x57, port, value]);
}
