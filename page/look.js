// The view "Look": the picture as it stands after any step, what the cursor points at, and the panels beside it.
import { any, byId, input, make, once, onNumber, select } from "./dom.js";
import { Player } from "./film.js";
import { answered } from "./library.js";
import { fitting, LAYER_COLOURS, layered, paintMarks, paintRulers, put, RULER_WIDTH, sized } from "./paint.js";
import { Panels } from "./panels.js";
import { layerWords, ToldRow } from "./row.js";
import { REPORTS } from "./says.js";
import { grouped, hexes, many, statusWords } from "./words.js";
/** @typedef {import("./film.js").Film} Film */
/** @typedef {import("./listing.js").Lister} Lister */
/** @typedef {import("./machines.js").Screen} Screen */

/** @typedef {{row: number, column: number, pinned: boolean}} Cursor */

const PLAY_STEPS = 4; // steps that are played for each picture of the page

export class Look {
  constructor() {
    /** @type {Film | null} */
    this.film = null;
    /** @type {Screen | null} */
    this.screen = null;
    /**
     * A second device, which goes back to the steps that drew a row.
     * @type {Player | null}
     */
    this.inspector = null;
    this.record = 0; // so many records are done
    /** @type {Cursor | null} */
    this.cursor = null;
    /** @type {{key: string, told: ToldRow, when: string} | null} */
    this.row = null;
    this.playing = false;
    this.panels = new Panels(this);
    this.later = once(() => this.update());
    this.listen();
  }

  /**
   * @param {Film} film
   * @param {Screen} screen
   * @param {Lister | null} lister
   * @param {string} script
   * @param {number | null} record to stand at; null: the end of its first frame
   */
  load(film, screen, lister, script, record = null) {
    this.stop();
    this.inspector?.close();
    this.inspector = new Player(film.library, film.machine, film.table, film.trace, film.area);
    this.film = film;
    this.screen = screen;
    this.row = null;
    if (this.cursor && (this.cursor.row >= screen.rows || this.cursor.column >= screen.columns)) this.cursor = null;
    this.frames = film.frames(screen);
    input("step").max = String(film.trace.steps);
    input("look-frame").max = String(this.frames.length);
    any("look-frames").textContent = `of ${grouped(this.frames.length)}`;
    this.panels.load(lister, script);
    this.record = Math.min(record ?? film.endOf(this.frames[0]), film.trace.count);
    this.update();
  }

  listen() {
    input("step").addEventListener("input", () => this.toStep(Number(input("step").value)));
    onNumber(input("look-frame"), (frame) => this.toFrame(frame));
    /** @type {[string, () => void][]} */
    const buttons = [
      ["frame-back", () => this.byFrame(-1)], ["frame-on", () => this.byFrame(1)], ["step-back", () => this.byStep(-1)], ["step-on", () => this.byStep(1)],
      ["play", () => (this.playing ? this.stop() : this.play())],
    ];
    for (const [id, does] of buttons) any(id).addEventListener("click", does);
    select("scale").addEventListener("change", () => this.update());
    for (const id of ["rulers", "grid", "layers"]) input(id).addEventListener("input", () => this.later());
    const surface = any("surface");
    surface.addEventListener("pointermove", (event) => this.point(event, false));
    surface.addEventListener("pointerdown", (event) => this.point(event, true));
    surface.addEventListener("pointerleave", () => {
      if (this.cursor && !this.cursor.pinned) this.at(null);
    });
    surface.addEventListener("keydown", (event) => this.cursorKey(event));
    document.addEventListener("keydown", (event) => this.key(event));
    new ResizeObserver(() => this.later()).observe(/** @type {HTMLElement} */ (any("picture").parentElement));
    matchMedia("(prefers-color-scheme: dark)").addEventListener("change", () => this.later());
  }

  // Time.
  /** How many steps are done. */
  get steps() {
    return this.film?.stepsIn(this.record) ?? 0;
  }

  /** The frame that the last step belongs to, from 1. */
  get frame() {
    const { film, frames } = this;
    if (!film || !frames) return 1;
    const pass = film.passOf(Math.max(this.steps - 1, 0));
    let found = 1;
    frames.forEach((frame, index) => {
      if (frame.first <= pass.first) found = index + 1;
    });
    return found;
  }

  /** @param {number} record */
  to(record) {
    this.record = Math.min(Math.max(record, 0), this.film?.trace.count ?? 0);
    this.later();
  }

  /**
   * The moment just after a step.
   * @param {number} step so many are done
   */
  toStep(step) {
    const { film } = this;
    if (film) this.to(step ? film.records[Math.min(step, film.trace.steps) - 1] + 1 : 0);
  }

  /**
   * The whole picture of a frame.
   * @param {number} number
   */
  toFrame(number) {
    const frame = this.frames?.[number - 1];
    if (frame) this.toStep(frame.end);
  }

  /** @param {number} by */
  byStep(by) {
    this.stop();
    this.toStep(Math.max(this.steps + by, 0));
  }

  /** @param {number} by */
  byFrame(by) {
    this.stop();
    this.toFrame(Math.min(Math.max(this.frame + by, 1), this.frames?.length ?? 1));
  }

  play() {
    const { film } = this;
    if (!film) return;
    this.playing = true;
    if (this.steps >= film.trace.steps) this.record = 0;
    const tick = () => {
      if (!this.playing || film !== this.film) return;
      if (this.steps >= film.trace.steps) return this.stop();
      this.record = film.records[Math.min(this.steps + PLAY_STEPS, film.trace.steps) - 1] + 1;
      this.update();
      requestAnimationFrame(tick);
    };
    requestAnimationFrame(tick);
    this.playButton();
  }

  stop() {
    this.playing = false;
    this.playButton();
  }

  playButton() {
    const button = any("play");
    button.setAttribute("aria-label", this.playing ? "Pause" : "Play");
    button.setAttribute("aria-pressed", String(this.playing));
  }

  /** @param {KeyboardEvent} event */
  key(event) {
    const { target } = event;
    if (any("look").hidden || event.defaultPrevented || event.altKey || event.ctrlKey || event.metaKey) return;
    if (target instanceof HTMLElement && target.closest("input, select, textarea, summary, [role=tablist], #surface, #panel")) return;
    const by = event.key === "ArrowRight" ? 1 : event.key === "ArrowLeft" ? -1 : 0;
    if (by) event.shiftKey ? this.byFrame(by) : this.byStep(by);
    else if (event.key === " " && !(target instanceof HTMLButtonElement)) this.playing ? this.stop() : this.play();
    else return;
    event.preventDefault();
  }

  // The cursor.
  /** @param {Cursor | null} cursor */
  at(cursor) {
    this.cursor = cursor;
    this.later();
  }

  /**
   * @param {PointerEvent} event
   * @param {boolean} pin
   */
  point(event, pin) {
    const { screen } = this;
    if (!screen || (!pin && this.cursor?.pinned && event.buttons === 0)) return;
    const box = byId("screen", HTMLCanvasElement).getBoundingClientRect();
    const column = Math.floor(((event.clientX - box.left) / box.width) * screen.columns), row = Math.floor(((event.clientY - box.top) / box.height) * screen.rows);
    if (column < 0 || row < 0 || column >= screen.columns || row >= screen.rows) return;
    const same = this.cursor?.pinned && this.cursor.row === row && this.cursor.column === column;
    if (pin && same) return this.at({ row, column, pinned: false });
    this.at({ row, column, pinned: pin || event.buttons !== 0 });
    if (pin) this.panels.chosen();
  }

  /** @param {KeyboardEvent} event */
  cursorKey(event) {
    const { screen } = this, by = event.shiftKey ? 8 : 1;
    if (!screen) return;
    if (event.key === "Escape") return this.at(null);
    const move = /** @type {Record<string, [number, number]>} */ ({ ArrowUp: [-by, 0], ArrowDown: [by, 0], ArrowLeft: [0, -by], ArrowRight: [0, by] })[event.key];
    if (!move) return;
    event.preventDefault();
    const { row, column } = this.cursor ?? { row: 0, column: 0 };
    this.at({ row: Math.min(Math.max(row + move[0], 0), screen.rows - 1), column: Math.min(Math.max(column + move[1], 0), screen.columns - 1), pinned: true });
  }

  /**
   * A row as it was drawn, or where no step has drawn it yet as it would be drawn now; and in words which.
   * @param {number} number
   */
  toldRow(number) {
    const { film, screen, inspector, frames } = this;
    if (!film || !screen || !inspector || !frames) return null;
    const player = film.seek(this.record), canvas = player.canvas(screen), step = canvas.by[number];
    const key = step >= 0 ? `${number} ${step}` : `${number} now ${this.record}`;
    if (this.row?.key === key) return this.row;
    let told, when;
    if (step >= 0) {
      const by = film.machine.screens[film.areaOf(step)], { device } = film.seek(film.records[step] + 1, inspector);
      told = new ToldRow(device, by, number);
      const drawn = canvas.frame.bytes.subarray(4 * number * screen.columns, 4 * (number + 1) * screen.columns);
      if (!told.wrong && told.pixels.some((byte, at) => byte !== drawn[at])) told.wrong = told.disagree("the row that was drawn is not the row as it would be drawn");
      when = `as frame ${frames.indexOf(film.passOf(step)) + 1} of ${frames.length} drew it at line ${device.counter}`;
    } else {
      told = new ToldRow(film.seek(this.record, inspector).device, screen, number);
      when = "which is not drawn yet: as it would be drawn now";
    }
    this.row = { key, told, when };
    return this.row;
  }

  // What is shown.
  update() {
    const { film, screen } = this;
    if (!film || !screen || any("look").hidden) return;
    const player = film.seek(this.record), canvas = player.canvas(screen), { device } = player;
    const strength = Number(input("layers").value) / 100, surface = byId("screen", HTMLCanvasElement);
    put(surface, layered(canvas.frame.bytes, canvas.layers, strength), screen.columns);
    const rulers = input("rulers").checked, room = any("picture").clientWidth, most = Math.max(fitting(screen.rows, innerHeight - 330), 2);
    // on a narrow page the ruler on the right gives way
    const both = rulers && (fitting(screen.columns, room - 2 * RULER_WIDTH) >= fitting(screen.columns, room - RULER_WIDTH) || room > 600);
    const scale = Number(select("scale").value) || Math.min(fitting(screen.columns, room - (rulers ? RULER_WIDTH : 0) - (both ? RULER_WIDTH : 0)), most);
    sized(surface, screen.columns, screen.rows, scale);
    const steps = this.steps, answer = steps ? answered(film.words[steps - 1]) : null;
    const here = steps && answer?.drawn && film.machine.screens[film.areaOf(steps - 1)].columns === screen.columns ? answer.row : null;
    paintMarks(byId("marks", HTMLCanvasElement), screen.columns, screen.rows, scale, { grid: input("grid").checked, row: here, cursor: this.cursor });
    const ruled = /** @type {HTMLCanvasElement[]} */ (["top", "left", "right"].map((side) => document.querySelector(`.ruler.${side}`)));
    for (const ruler of ruled) ruler.hidden = !rulers || (ruler === ruled[2] && !both);
    if (rulers) paintRulers(ruled, screen.columns, screen.rows, screen.firstLine, scale, { row: this.cursor?.row ?? here, column: this.cursor?.column ?? null });
    this.legend(strength ? canvas.layers : null);
    const slider = input("step");
    if (slider.value !== String(steps)) slider.value = String(steps);
    if (document.activeElement !== input("look-frame")) input("look-frame").value = String(this.frame);
    const inLine = steps ? this.record - film.records[steps - 1] - 1 : this.record;
    const drew = here !== null ? `row ${here} is just drawn` : answer ? "this line draws no row" : "nothing is drawn yet";
    any("step-words").textContent = `step ${grouped(steps)} of ${grouped(film.trace.steps)}: line ${device.counter} (${hexes([device.counter])}), ${drew}` + (inLine ? `, then ${many(inLine, "port call")}` : "");
    this.state(device, answer);
    this.panels.update();
  }

  /**
   * @param {import("./machines.js").Device} device
   * @param {ReturnType<typeof answered> | null} answer
   */
  state(device, answer) {
    const status = device.at("STATUS");
    const facts = [
      ["Line", `${device.counter} (${hexes([device.counter])})`],
      ["Status", `${hexes([status])}: ${statusWords(status)}`],
      ["Interrupt", answer?.interrupt ? "asked for by this step" : "none"],
      ["Report", answer?.report ? REPORTS[answer.report] : "none"],
      ["Line count", String(device.at("LINE_COUNT"))],
      ["Latched scroll", String(device.at("VERTICAL_SCROLL"))],
      ["Registers 0 to 10", hexes(device.registers)],
    ];
    any("state").replaceChildren(...facts.map(([name, value]) => make("div", {}, make("dt", {}, name), make("dd", {}, value))));
  }

  /**
   * Which colour is which layer, of those that the picture has.
   * @param {Uint8Array | null} layers
   */
  legend(layers) {
    const place = any("legend");
    place.hidden = !layers;
    if (!layers) return;
    const found = [...new Set(layers)].sort((a, b) => a - b);
    place.replaceChildren(...found.map((layer) => make("span", {}, make("i", { style: `background: rgb(${LAYER_COLOURS.slice(3 * layer, 3 * layer + 3).join(" ")})` }), layerWords(layer))));
  }
}
