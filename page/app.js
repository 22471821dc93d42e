// The page's start: the library, the trace that it was given or is handed, the two views, and the settings.
import { any, byId, input, make, select, tabs } from "./dom.js";
import { Film } from "./film.js";
import { Library } from "./library.js";
import { Lister } from "./listing.js";
import { Look } from "./look.js";
import { machines } from "./machines.js";
import { interruptFrames } from "./panels.js";
import { pixelText, spritesText } from "./row.js";
import { SAYS } from "./says.js";
import { inTurns, Stopped } from "./tasks.js";
import { Trace } from "./trace.js";
import { filled, many } from "./words.js";
import { WhatIf } from "./whatif.js";
/** @typedef {import("./question.js").Question} Question */

/**
 * What the page comes with: a trace as base64, its name, the script's text, the machine, the line table, and the question to begin with.
 * @typedef {{trace: string, name: string, script: string, machine: string, table: number, question: Partial<Question>}} Given
 */

/**
 * Does the work of a generator in short turns.
 * @typedef {(work: Generator<number, void>) => Promise<void>} Turns
 */

/** @param {string} text */
const bytesOf = (text) => Uint8Array.from(atob(text.trim()), (letter) => letter.charCodeAt(0));
/** @param {string} id */
const textOf = (id) => any(id).textContent ?? "";

class App {
  /** @param {Library} library */
  constructor(library) {
    this.library = library;
    this.machines = machines(library);
    this.machine = this.machines[0];
    this.whatif = new WhatIf();
    this.look = new Look();
    /** @type {AbortController | null} */
    this.running = null;
    /** @type {Lister | null} */
    this.lister = null;
    /**
     * What is open.
     * @type {{data: Uint8Array, name: string, script: string, made: string} | null}
     */
    this.file = null;
    /** @type {Film | null} */
    this.film = null;
    this.chosen = ""; // the area, as its setting has it
    /**
     * The film of the trace with the change in it.
     * @type {Film | null}
     */
    this.changedFilm = null;
    this.settings();
    this.listen();
  }

  settings() {
    select("machine").replaceChildren(...this.machines.map((machine) => make("option", { value: machine.name }, machine.name)));
    const { VERSION_MAJOR: major, VERSION_MINOR: minor, VERSION_SMALL: small } = this.library.numbers;
    any("version").textContent = `face ${major}.${minor}.${small}`;
    const theme = select("theme");
    theme.addEventListener("change", () => {
      if (theme.value) document.documentElement.dataset.theme = theme.value;
      else delete document.documentElement.dataset.theme;
      this.look.update();
    });
  }

  listen() {
    this.view = tabs(/** @type {HTMLElement} */ (any("tab-look").parentElement), (tab) => {
      for (const id of ["whatif", "look"]) any(id).hidden = id !== tab.getAttribute("aria-controls");
      if (!any("look").hidden) this.look.update();
      else {
        this.look.stop();
        this.whatif.fit();
      }
    });
    input("file").addEventListener("change", async () => {
      const [file] = input("file").files ?? [];
      if (file) await this.take(file);
      input("file").value = "";
    });
    for (const kind of ["dragenter", "dragover"]) {
      document.addEventListener(kind, (event) => {
        event.preventDefault();
        any("drop").hidden = false;
      });
    }
    document.addEventListener("dragleave", (event) => {
      if (!event.relatedTarget) any("drop").hidden = true;
    });
    document.addEventListener("drop", async (event) => {
      event.preventDefault();
      any("drop").hidden = true;
      const file = event.dataTransfer?.files[0];
      if (file) await this.take(file);
    });
    any("problem-close").addEventListener("click", () => this.problem(""));
    any("busy-stop").addEventListener("click", () => this.running?.abort());
    for (const id of ["machine", "table", "area"]) select(id).addEventListener("change", () => this.again());
    for (const radio of document.getElementsByName("which")) radio.addEventListener("change", () => this.which());
    this.whatif.changes.push(() => this.questionChanged());
    this.look.panels.asks = (colour) => {
      this.view?.(any("tab-whatif"));
      this.whatif.set({ kind: "colour", index: colour, value: this.whatif.other("colour", colour) });
    };
    document.addEventListener("click", (event) => {
      const menu = /** @type {HTMLDetailsElement} */ (any("settings"));
      if (menu.open && event.target instanceof Node && !menu.contains(event.target)) menu.open = false;
    });
    document.addEventListener("keydown", (event) => {
      if (event.key === "Escape") /** @type {HTMLDetailsElement} */ (any("settings")).open = false;
    });
  }

  /** @param {string} text */
  problem(text) {
    any("problem").hidden = !text;
    any("problem-text").textContent = text;
  }

  /**
   * A file that was picked or dropped.
   * @param {File} file
   */
  async take(file) {
    if (file.name.endsWith(".desk")) {
      this.problem(`${file.name} is a script. \`desk make ${file.name} -o FILE\` makes a trace of it, \`desk page ${file.name} -o FILE\` a page.`);
      return;
    }
    await this.open(new Uint8Array(await file.arrayBuffer()), file.name, "", {});
  }

  /** The same trace with other settings. */
  async again() {
    this.machine = this.machines.find((machine) => machine.name === select("machine").value) ?? this.machines[0];
    if (this.file) await this.open(this.file.data, this.file.name, this.file.script, null, this.file.made);
  }

  /**
   * Does long work with the progress shown, one at a time.
   * @template T
   * @param {string} what
   * @param {(turns: (work: Generator<number, void>) => Promise<void>) => Promise<T>} work
   * @returns {Promise<T | null>}
   */
  async busy(what, work) {
    this.running?.abort();
    const control = new AbortController(), began = performance.now();
    this.running = control;
    try {
      return await work((generator) => inTurns(generator, control.signal, (done) => {
        if (performance.now() - began < 150) return;
        any("busy").hidden = false;
        any("busy-text").textContent = `${what}: ${Math.floor(100 * done)} %`;
        byId("busy-bar", HTMLProgressElement).value = done;
      }));
    } catch (error) {
      if (error instanceof Stopped) return null;
      throw error;
    } finally {
      if (this.running === control) {
        any("busy").hidden = true;
        this.running = null;
      }
    }
  }

  /**
   * Reads a trace and runs it.
   * @param {Trace} trace
   * @param {import("./machines.js").Machine} machine
   * @param {number} table
   * @param {number | null} area
   * @param {Turns} turns
   */
  async filmed(trace, machine, table, area, turns) {
    await turns(trace.read(this.library, machine));
    const film = new Film(this.library, machine, table, trace, area);
    try {
      await turns(film.run());
    } catch (error) {
      film.close();
      throw error;
    }
    return film;
  }

  /**
   * Runs a trace. Where it is stopped, or nothing of it can be read, what was open stays.
   * @param {Uint8Array} data
   * @param {string} name
   * @param {string} script
   * @param {Partial<Question> | null} question null: only the settings are others
   * @param {string} made the machine that its script is for; of a trace none is known
   */
  async open(data, name, script, question, made = "") {
    const table = Number(select("table").value), trace = new Trace(data, name);
    const chosen = question ? "" : select("area").value;
    const area = this.machine.areas && /^\d$/.test(chosen) ? Number(chosen) : null;
    const film = await this.busy(`Running ${name}`, (turns) => this.filmed(trace, this.machine, table, area, turns));
    if (!film) return this.settingsAgain();
    const wrong = trace.wrong && `${name}: ${trace.wrong}.` + (trace.count ? " What stands before it is shown." : this.film ? " What was open stays." : "");
    if (wrong && !trace.count && this.film) {
      film.close();
      this.problem(wrong);
      return this.settingsAgain();
    }
    this.problem(wrong || (made && made !== film.machine.name ? filled(SAYS.otherMachine, { name, machine: made }) : ""));
    const before = this.film;
    this.film = film;
    this.file = { data, name, script, made };
    this.chosen = chosen;
    this.areas(film, chosen);
    const screen = this.screen(film, chosen);
    any("file-name").textContent = name;
    any("file-size").textContent = `${many(trace.count, "record")}, ${many(trace.steps, "step")}` + (film.machine === this.machines[0] ? "" : `, ${film.machine.name}`);
    document.title = `${name} · The desk`;
    this.lister = null;
    this.oldAgain();
    this.whatif.load(film, screen, question);
    this.look.load(film, screen, null, script);
    before?.close();
    await this.list(film, script);
  }

  /** What was open stays: the settings are its own. Where another run has begun, they are that one's. */
  settingsAgain() {
    const { film } = this;
    if (!film || this.running) return;
    this.machine = film.machine;
    select("machine").value = film.machine.name;
    select("table").value = String(film.table);
    this.areas(film, this.chosen);
  }

  /**
   * The list of what the trace does, when the picture is there already.
   * @param {Film} film
   * @param {string} script
   */
  async list(film, script) {
    const lister = new Lister(this.library, film.machine, film.table, film.trace);
    const done = await this.busy("Listing", async (turns) => {
      await turns(lister.run());
      return true;
    });
    if (!done) lister.cut = true;
    if (this.film !== film) return;
    this.lister = lister;
    if (this.look.film === film) {
      this.look.panels.load(lister, script);
      this.look.update();
    }
  }

  /**
   * The areas to choose from: as the trace has it, by size where it has drawn two sizes, or every step drawn as one area.
   * @param {Film} film
   * @param {string} chosen
   */
  areas(film, chosen) {
    const sizes = new Map([...film.drawn.keys()].map((number) => [film.machine.screens[number].columns, film.machine.screens[number]]));
    const options = [["", "as recorded"]];
    if (film.area === null && sizes.size > 1) options.push(...[...sizes.values()].map((screen) => [`size ${screen.number}`, `as recorded, what is ${screen.columns} x ${screen.rows}`]));
    if (film.machine.areas) options.push(...film.machine.screens.map((screen) => [String(screen.number), `every step as area ${screen.number}: ${screen.name}, ${screen.columns} x ${screen.rows}`]));
    if (chosen.startsWith("size") && !options.some(([value]) => value === chosen)) options.push([chosen, "as recorded, the other size"]);
    select("area").replaceChildren(...options.map(([value, words]) => make("option", { value }, words)));
    select("area").value = chosen;
    select("area").disabled = !film.machine.areas;
  }

  /**
   * @param {Film} film
   * @param {string} chosen
   */
  screen(film, chosen) {
    return chosen.startsWith("size") ? film.machine.screens[Number(chosen.slice(5))] : film.screen();
  }

  // The trace with the change in it, to be looked at.
  oldAgain() {
    this.changedFilm?.close();
    this.changedFilm = null;
    const [old] = /** @type {NodeListOf<HTMLInputElement>} */ (document.getElementsByName("which"));
    old.checked = true;
  }

  /** The question is another: what is looked at goes back to the trace as it is. */
  questionChanged() {
    const [, made] = /** @type {NodeListOf<HTMLInputElement>} */ (document.getElementsByName("which"));
    made.disabled = !this.whatif.answer;
    if (!this.changedFilm || !this.film) return;
    const { record } = this.look;
    this.oldAgain();
    this.look.load(this.film, this.screen(this.film, this.chosen), this.lister, this.file?.script ?? "", record);
  }

  async which() {
    const [, made] = /** @type {NodeListOf<HTMLInputElement>} */ (document.getElementsByName("which"));
    const { film, file } = this, data = this.whatif.newTrace();
    if (!film || !file) return;
    if (!made.checked || !data) {
      const { record } = this.look;
      this.oldAgain();
      this.look.load(film, this.screen(film, this.chosen), this.lister, file.script, record);
      return;
    }
    const trace = new Trace(data, file.name), lister = new Lister(this.library, film.machine, film.table, trace);
    const other = await this.busy("Running it with the change", async (turns) => {
      const run = await this.filmed(trace, film.machine, film.table, film.area, turns);
      try {
        await turns(lister.run());
      } catch (error) {
        run.close();
        throw error;
      }
      return run;
    });
    if (!other) return this.oldAgain();
    this.changedFilm = other;
    this.look.load(other, this.screen(other, this.chosen), lister, file.script, Math.min(this.look.record, trace.count));
  }
}

async function start() {
  /** @type {Given} */
  const given = JSON.parse(textOf("given"));
  const unpack = new (/** @type {any} */ (globalThis).DecompressionStream)("gzip");
  const module = await new Response(new Blob([bytesOf(textOf("module"))]).stream().pipeThrough(unpack)).arrayBuffer();
  const library = await Library.load(new Uint8Array(module), JSON.parse(textOf("header"))), app = new App(library);
  select("table").value = String(given.table);
  app.machine = app.machines.find(({ name }) => name === given.machine) ?? app.machine;
  select("machine").value = app.machine.name;
  await app.open(bytesOf(given.trace), given.name, given.script, given.question, given.script && given.machine);
  // For the browser's console, and for the tests: the calls, and what the page holds.
  Object.assign(globalThis, { desk: { app, library, interruptFrames, pixelText, spritesText, ready: true } });
}

/** @param {unknown} error */
const failed = (error) => {
  any("problem").hidden = false;
  any("problem-text").textContent = `The page has failed: ${error instanceof Error ? error.message : error}. It needs WebAssembly with BigInt and DecompressionStream, as browsers have them from 2023 on.`;
};
addEventListener("unhandledrejection", (event) => failed(event.reason));
start().catch((error) => {
  failed(error);
  throw error;
});
