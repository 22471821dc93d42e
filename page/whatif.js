// The view "What if": a question with sliders, its answer in words, and three pictures: old, new, and what differs.
import { any, byId, input, make, once, onNumber, save, select } from "./dom.js";
import { ends } from "./difference.js";
import { fitting, marked, put, sized } from "./paint.js";
import { Asker, changed, meaning } from "./question.js";
import { SAYS } from "./says.js";
import { colourWords, filled, hex, hexes } from "./words.js";
/** @typedef {import("./film.js").Film} Film */
/** @typedef {import("./machines.js").Screen} Screen */
/** @typedef {import("./question.js").Question} Question */
/** @typedef {import("./question.js").Answer} Answer */

const PICTURES = ["pic-old", "pic-new", "pic-diff"];
const JUMP_BACK = 0xd5; // the counter reads from here on up to the jump twice

export class WhatIf {
  constructor() {
    /** @type {Film | null} */
    this.film = null;
    /** @type {Asker | null} */
    this.asker = null;
    /** @type {Screen | null} */
    this.screen = null;
    /** @type {Question} */
    this.question = { line: 90, frame: 1, seen: 1, kind: "colour", index: 3, value: [0x00, 0x0f] };
    /** @type {Answer | null} */
    this.answer = null;
    this.painted = 0; // how many answers were shown
    /** @type {(() => void)[]} */
    this.changes = [];
    this.later = once(() => this.update());
    this.listen();
  }

  /**
   * A film to ask.
   * @param {Film} film
   * @param {Screen} screen
   * @param {Partial<Question> | null} given null: the question stays; empty: it is of the colour that the picture has most of
   */
  load(film, screen, given) {
    this.asker?.close();
    this.film = film;
    this.screen = screen;
    this.asker = new Asker(film, screen);
    Object.assign(this.question, { frame: 1, seen: 1 }, given && !given.kind ? { kind: "colour", index: this.commonest(), ...given } : given);
    const { kind, index, value } = this.question, size = film.machine.colourSize;
    if (kind === "colour" && (!given?.value && (given || value.length !== size))) this.question.value = this.other("colour", index);
    const most = String(this.asker.frames.length);
    for (const id of ["frame-number", "seen-number"]) input(id).max = most;
    any("frame-count").textContent = `of ${most},`;
    any("seen-count").textContent = `of ${most}`;
    input("frame-number").disabled = most === "1";
    any("seen").hidden = most === "1";
    any("three-readout").textContent = SAYS.point;
    this.band();
    this.controls();
    this.fit();
    this.update();
  }

  /** The number of the colour that the first frame has most of. */
  commonest() {
    const { asker, film } = this;
    if (!asker || !film) return 0;
    const picture = asker.oldPicture(1), pixels = new Uint32Array(picture.buffer, picture.byteOffset, picture.length / 4);
    /** @type {Map<number, number>} */
    const counts = new Map();
    for (const pixel of pixels) counts.set(pixel, (counts.get(pixel) ?? 0) + 1);
    const [most] = [...counts].reduce((one, other) => (other[1] > one[1] ? other : one));
    return Math.max(new Uint32Array(asker.before.device.colours().buffer).indexOf(most), 0);
  }

  /** Which lines draw rows, under the slider. */
  band() {
    const { screen } = this;
    if (!screen) return;
    const band = any("line-band"), from = screen.firstLine, to = Math.min(from + screen.rows - 1, 255);
    // the slider's thumb goes from its half width to that before the end
    band.style.left = `calc(8px + (100% - 16px) * ${from / 255})`;
    band.style.width = `calc((100% - 16px) * ${(to - from) / 255})`;
    band.replaceChildren(make("span", {}, `lines ${from} to ${to} draw rows 0 to ${screen.rows - 1}`));
  }

  listen() {
    for (const id of ["line", "line-number"]) onNumber(input(id), (line) => this.set({ line }));
    onNumber(input("frame-number"), (frame) => this.set({ frame, seen: frame }));
    onNumber(input("seen-number"), (seen) => this.set({ seen }));
    select("kind").addEventListener("change", () => this.ofKind(/** @type {Question["kind"]} */ (select("kind").value)));
    onNumber(input("index-number"), (index) => this.ofIndex(index));
    input("index-address").addEventListener("input", () => {
      const address = parseInt(input("index-address").value, 16);
      if (address >= 0 && address < 0x4000) this.ofIndex(address);
    });
    input("value-hex").addEventListener("input", () => {
      const bytes = input("value-hex").value.replace(/[^0-9A-Fa-f]/g, "").match(/../g)?.map((pair) => parseInt(pair, 16)) ?? [];
      if (bytes.length === this.question.value.length) this.set({ value: bytes }, "value-hex");
    });
    for (const id of ["value-hex", "index-address", "line-number", "frame-number", "seen-number", "index-number"]) input(id).addEventListener("change", () => this.controls("", true));
    any("save-trace").addEventListener("click", () => {
      const trace = this.newTrace();
      if (trace && this.film) save(trace, this.film.trace.name.replace(/\.(desk|trace)$/, "") + "-changed.trace");
    });
    for (const id of PICTURES) {
      const canvas = canvasOf(id);
      for (const kind of ["pointermove", "pointerdown"]) canvas.addEventListener(kind, (event) => this.point(canvas, /** @type {PointerEvent} */ (event)));
      canvas.addEventListener("pointerleave", () => (any("three-readout").textContent = SAYS.point));
    }
    new ResizeObserver(() => this.fit()).observe(any("three"));
  }

  /**
   * @param {Partial<Question>} part
   * @param {string} but the field that is being typed in
   */
  set(part, but = "") {
    Object.assign(this.question, part);
    this.controls(but);
    this.later();
  }

  /**
   * Another kind of change, with a value of its own: what is there, turned over.
   * @param {Question["kind"]} kind
   */
  ofKind(kind) {
    const index = kind === "colour" ? 3 : kind === "register" ? 8 : 0;
    this.set({ kind, index, value: this.other(kind, index) });
  }

  /** @param {number} index */
  ofIndex(index) {
    this.set({ index, ...(this.question.kind === "colour" ? {} : { value: this.other(this.question.kind, index) }) }, "index-address");
  }

  /**
   * A value that is another than the one at the end of the trace.
   * @param {Question["kind"]} kind
   * @param {number} index
   */
  other(kind, index) {
    const { film } = this;
    if (!film) return [0];
    const { device } = film.seek(film.trace.count), size = film.machine.colourSize;
    if (kind === "register") return [device.registers[index] ^ (index === 8 || index === 9 ? 16 : 255)];
    if (kind === "memory") return [device.vram.bytes[index] ^ 255];
    const levels = film.machine.parts(device.palette, size * index);
    return film.machine.bytes(levels.map((level) => film.machine.levels - 1 - level));
  }

  /**
   * The controls show the question.
   * @param {string} but the field that is being typed in
   * @param {boolean} all whether a field that has the focus shows it too
   */
  controls(but = "", all = false) {
    const { question: q, film } = this;
    if (!film) return;
    /**
     * @param {string} id
     * @param {string | number} value
     */
    const show = (id, value) => {
      const field = input(id);
      if (id !== but && field.value !== String(value)) field.value = String(value);
    };
    show("line", q.line);
    any("line-hex").textContent = hexes([q.line]);
    for (const [id, value] of /** @type {[string, number][]} */ ([["line-number", q.line], ["frame-number", q.frame], ["seen-number", q.seen], ["index-number", q.index]])) {
      if (all || document.activeElement !== input(id)) show(id, value);
    }
    input("seen-number").min = String(q.frame);
    select("kind").value = q.kind;
    const memory = q.kind === "memory";
    input("index-number").hidden = memory;
    input("index-address").hidden = !memory;
    input("index-number").max = q.kind === "colour" ? "31" : "10";
    if (memory) show("index-address", hex(q.index, 4));
    input("value-hex").maxLength = 3 * q.value.length - 1;
    input("value-hex").style.width = `calc(${3 * q.value.length - 1}ch + 24px)`;
    show("value-hex", hexes(q.value));
    const swatch = any("value-swatch");
    swatch.hidden = q.kind !== "colour";
    if (q.kind === "colour") swatch.style.background = `rgb(${film.machine.colour(q.value, 0).join(" ")})`;
    any("value-words").textContent = meaning(film, q);
    this.valueSliders();
  }

  /** A slider for each part of the value: red, green and blue, or the byte. */
  valueSliders() {
    const { question: q, film } = this;
    if (!film) return;
    const { machine } = film, colour = q.kind === "colour";
    const names = colour ? ["Red", "Green", "Blue"] : ["Byte"], most = colour ? machine.levels - 1 : 255;
    const place = any("value-sliders"), form = names.join() + most;
    if (place.dataset.form !== form) {
      place.dataset.form = form;
      place.replaceChildren(...names.map((name, part) => {
        const range = /** @type {HTMLInputElement} */ (make("input", { type: "range", min: "0", max: String(most), "aria-label": `${name} of the new value`, id: `value-${part}` }));
        range.addEventListener("input", () => this.slid(part, Number(range.value)));
        return make("label", { class: "slider" }, make("span", { class: "label" }, name), range, make("output", { id: `value-out-${part}` }));
      }));
    }
    const levels = colour ? machine.parts(q.value, 0) : q.value;
    names.forEach((_, part) => {
      const range = input(`value-${part}`);
      if (range.value !== String(levels[part])) range.value = String(levels[part]);
      any(`value-out-${part}`).textContent = colour ? hex(levels[part], 1) : hexes([levels[part]]);
    });
  }

  /**
   * @param {number} part
   * @param {number} level
   */
  slid(part, level) {
    const { film, question: q } = this;
    if (!film) return;
    if (q.kind !== "colour") return this.set({ value: [level] });
    const levels = film.machine.parts(q.value, 0);
    levels[part] = level;
    this.set({ value: film.machine.bytes(levels) });
  }

  /** Asks, and shows the answer. */
  update() {
    const { asker, film, screen, question: q } = this;
    if (!asker || !film || !screen) return;
    q.frame = Math.min(Math.max(q.frame, 1), asker.frames.length);
    q.seen = Math.min(Math.max(q.seen, q.frame), asker.frames.length);
    const found = asker.ask(q);
    const notes = [];
    if ("problem" in found) {
      this.answer = null;
      any("head").textContent = "No answer";
      any("why").textContent = found.problem;
      any("sentence").textContent = "";
      const old = asker.oldPicture(q.seen);
      PICTURES.forEach((id) => put(canvasOf(id), id === "pic-diff" ? marked(old, new Uint8Array(old.length / 4)) : old, screen.columns));
      seamOf().hidden = true;
      any("from").textContent = "";
    } else {
      this.answer = found;
      any("head").textContent = found.head;
      any("why").textContent = found.why;
      any("sentence").textContent = found.sentence;
      notes.push(...found.notes);
      if (q.line >= JUMP_BACK && q.line < JUMP_BACK + 5 + film.table) notes.push(filled(SAYS.twice, { line: q.line }));
      put(canvasOf("pic-old"), found.old, screen.columns);
      put(canvasOf("pic-new"), found.new, screen.columns);
      put(canvasOf("pic-diff"), marked(found.new, found.difference.marks), screen.columns);
      const seam = seamOf();
      seam.hidden = found.seam === null;
      if (found.seam !== null) seam.style.top = `${(100 * found.seam) / screen.rows}%`;
      any("from").textContent = found.seam === null ? "" : `, from row ${found.seam} on`;
    }
    any("notes").hidden = !notes.length;
    any("notes").textContent = notes.join(" ");
    byId("save-trace", HTMLButtonElement).disabled = !this.answer;
    this.painted++;
    for (const told of this.changes) told();
  }

  /** The scale at which three pictures stand side by side; on a narrow page the new one is larger than the two others. */
  fit() {
    const { screen } = this;
    if (!screen) return;
    const room = any("three").clientWidth - 36, side = fitting(screen.columns, (room - 32) / 3), narrow = room < 3 * screen.columns + 32;
    const figures = PICTURES.map((id) => /** @type {HTMLElement} */ (canvasOf(id).closest("figure")));
    const small = fitting(screen.columns, (room - 12) / 2);
    figures.forEach((figure, index) => {
      const alone = narrow && (index === 1 || 2 * screen.columns + 12 > room);
      sized(canvasOf(PICTURES[index]), screen.columns, screen.rows, narrow ? (alone ? fitting(screen.columns, room) : small) : side);
      figure.style.order = narrow ? String([1, 0, 2][index]) : "";
    });
  }

  /**
   * What stands under the pointer, in both pictures.
   * @param {HTMLCanvasElement} canvas
   * @param {PointerEvent} event
   */
  point(canvas, event) {
    const { answer, screen } = this;
    if (!answer || !screen) return;
    const box = canvas.getBoundingClientRect();
    const column = Math.floor(((event.clientX - box.left) / box.width) * screen.columns), row = Math.floor(((event.clientY - box.top) / box.height) * screen.rows);
    if (column < 0 || row < 0 || column >= screen.columns || row >= screen.rows) return;
    const at = 4 * (row * screen.columns + column);
    /** @param {Uint8Array} picture */
    const colour = (picture) => colourWords(picture[at], picture[at + 1], picture[at + 2]);
    const differs = answer.difference.marks[at / 4];
    any("three-readout").textContent = `row ${row}, column ${column}, line ${row + screen.firstLine}: ` + (differs ? `${colour(answer.old)} → ${colour(answer.new)}` : colour(answer.old) + ", the same");
  }

  /** The trace with the change in it. */
  newTrace() {
    return this.film && this.answer ? changed(this.film, this.answer.place, this.question) : null;
  }

  /** All that `desk differ` prints of the frame that is looked at. */
  text() {
    const { answer, screen } = this;
    return answer && screen ? [answer.sentence, ...ends(answer.difference, answer.old, answer.new, screen.columns)].join("\n") : "";
  }
}

/** @param {string} id */
function canvasOf(id) {
  return /** @type {HTMLCanvasElement} */ (any(id).querySelector("canvas"));
}

function seamOf() {
  return /** @type {HTMLElement} */ (any("pic-new").querySelector(".seam"));
}
