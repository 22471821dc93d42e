// The proved library as WebAssembly: its calls, and the memory that they are lent.

/**
 * Numbers of include/vdp.h by their names without VDP_, and what the header says behind each refusal.
 * @typedef {{numbers: Record<string, number>, refusals: Record<string, string>}} Header
 */

/** A lent buffer: a pointer and a length, as every call takes it. */
export class Slice {
  /**
   * @param {WebAssembly.Memory} memory
   * @param {number} at
   * @param {number} length
   */
  constructor(memory, at, length) {
    this.memory = memory;
    this.at = at;
    this.length = length;
    this.size = BigInt(length); // a length is 64 bits wide in the module
    this.view = new Uint8Array(memory.buffer, at, length);
  }

  /** Its bytes. Memory that grows gets a new buffer, and so the view is made anew then. */
  get bytes() {
    if (this.view.buffer !== this.memory.buffer) this.view = new Uint8Array(this.memory.buffer, this.at, this.length);
    return this.view;
  }
}

export class Library {
  /**
   * @param {WebAssembly.Exports} exports
   * @param {Header} header
   */
  constructor(exports, header) {
    /** @type {Record<string, Function>} */
    this.calls = /** @type {any} */ (exports);
    this.memory = /** @type {WebAssembly.Memory} */ (exports.memory);
    this.numbers = header.numbers;
    this.refusals = header.refusals;
    this.free = Number(/** @type {WebAssembly.Global} */ (exports.__heap_base).value);
    /**
     * Slices that were given back, by their length.
     * @type {Map<number, Slice[]>}
     */
    this.kept = new Map();
  }

  /**
   * @param {Uint8Array} module
   * @param {Header} header
   */
  static async load(module, header) {
    const made = await WebAssembly.instantiate(/** @type {BufferSource} */ (module), {});
    const library = new Library(/** @type {any} */ (made).instance.exports, header);
    const { VERSION_MAJOR: major, VERSION_MINOR: minor, VERSION_SMALL: small } = header.numbers;
    if (library.calls.vdp_version() !== 65536 * major + 256 * minor + small) throw new Error("the module and include/vdp.h are not of one version");
    return library;
  }

  /**
   * A buffer of zeros.
   * @param {number} length
   */
  slice(length) {
    const old = this.kept.get(length)?.pop();
    if (old) {
      old.bytes.fill(0);
      return old;
    }
    const at = this.free;
    this.free += (length + 15) & ~15;
    const lacking = this.free - this.memory.buffer.byteLength;
    if (lacking > 0) this.memory.grow(Math.ceil(lacking / 65536));
    return new Slice(this.memory, at, length);
  }

  /**
   * Gives buffers back, for others of the same length.
   * @param {Slice[]} slices
   */
  release(...slices) {
    for (const slice of slices) {
      const list = this.kept.get(slice.length) ?? [];
      list.push(slice);
      this.kept.set(slice.length, list);
    }
  }

  /**
   * A refusal in words, as the header has it.
   * @param {number} number
   */
  refusal(number) {
    return number in this.refusals ? `refusal ${number}, ${this.refusals[number]}` : `refusal ${number}`;
  }
}

/**
 * The parts of the word that a step answers.
 * @param {number} word
 */
export function answered(word) {
  return { refusal: word & 255, interrupt: (word >>> 8) & 1, report: (word >>> 9) & 3, drawn: (word >>> 24) & 1, row: (word >>> 16) & 255 };
}
