// The panels of the view "Look": the pixel, the writes, registers, sprites of a row, tiles, colours, interrupts, and the script.
import { any, input, make, onNumber, tabs } from "./dom.js";
import { answered } from "./library.js";
import { put } from "./paint.js";
import { pixelFacts, spriteFacts } from "./row.js";
import { SAYS } from "./says.js";
import { colourWords, grouped, hex, hexes, many, registerWords } from "./words.js";
/** @typedef {import("./look.js").Look} Look */
/** @typedef {import("./listing.js").Lister} Lister */

const LINE = 40; // the height of a line of the list
const MOST_FRAMES = 300; // that the interrupts are listed of
const NAMES = ["Pixel", "Writes", "Registers", "Sprites", "Tiles", "Palette", "Interrupts", "Script"];

export class Panels {
  /** @param {Look} look */
  constructor(look) {
    this.look = look;
    /** @type {Lister | null} */
    this.lister = null;
    this.script = "";
    this.shown = "Pixel";
    /** @type {import("./listing.js").Listed[]} */
    this.lines = [];
    this.tile = 0;
    this.colour = 0;
    this.spriteRow = 0;
    /**
     * Asks what if, of a colour.
     * @type {(colour: number) => void}
     */
    this.asks = () => {};
    const list = any("panel-tabs");
    list.append(...NAMES.map((name) => make("button", { role: "tab", id: `panel-${name}`, "aria-controls": "panel", "aria-selected": String(name === "Pixel"), tabindex: name === "Pixel" ? "0" : "-1" }, name)));
    this.choose = tabs(list, (tab) => {
      this.shown = tab.textContent ?? "";
      any("panel").setAttribute("aria-labelledby", tab.id);
      any("panel").replaceChildren();
      any("panel").scrollTop = 0;
      this.update();
    });
    any("panel").addEventListener("scroll", () => this.shown === "Writes" && this.visible());
    any("panel").addEventListener("keydown", (event) => this.listKey(event));
  }

  /**
   * @param {Lister | null} lister
   * @param {string} script
   */
  load(lister, script) {
    this.lister = lister;
    this.script = script;
    any("panel-Script").hidden = !script;
    if (!script && this.shown === "Script") this.choose(any("panel-Pixel"));
    any("panel").replaceChildren();
  }

  /** A pixel was chosen: where nothing of it is shown, its panel comes. */
  chosen() {
    if (!["Pixel", "Sprites"].includes(this.shown)) this.choose(any("panel-Pixel"));
  }

  update() {
    const { look } = this, panel = any("panel");
    if (!look.film) return;
    if (look.cursor) this.spriteRow = look.cursor.row;
    /** @type {Record<string, (panel: HTMLElement) => void>} */
    const paint = {
      Pixel: (to) => this.pixel(to), Writes: (to) => this.writes(to), Registers: (to) => this.registers(to), Sprites: (to) => this.sprites(to),
      Tiles: (to) => this.tiles(to), Palette: (to) => this.palette(to), Interrupts: (to) => this.interrupts(to), Script: (to) => to.replaceChildren(make("pre", {}, this.script)),
    };
    paint[this.shown](panel);
  }

  /** @param {HTMLElement} panel */
  pixel(panel) {
    const { look } = this, { cursor } = look;
    const told = cursor && look.toldRow(cursor.row);
    if (!cursor || !told || !look.film || !look.inspector) {
      panel.replaceChildren(make("p", { class: "quiet" }, "Point at the picture, or click to keep a pixel. With the keyboard: Tab to the picture, then the arrow keys; Escape lets it go."));
      return;
    }
    const row = told.told, { column } = cursor;
    row.samePixel(look.inspector.device, column);
    const facts = pixelFacts(row, column), [red, green, blue] = row.pixel(column);
    const entries = [
      ["Row", String(cursor.row)], ["Column", String(column)], ["Line", `${row.rules.line} (${hexes([row.rules.line])})`], ["Drawn", told.when],
      ["Bytes", facts.bytes], ["Colour", facts.colour], ["In the palette", facts.stored], ["Layer", facts.layer], ["Behind", facts.behind], ["Sprites", facts.sprites],
      ...facts.reach.map(({ sprite, words }) => [`Sprite ${sprite.number}`, `place ${[...row.rules.laid, ...row.rules.beyond].indexOf(sprite) + 1}; ${words}`]),
    ];
    const list = make("dl", { class: "facts" });
    for (const [name, value] of entries) {
      const said = make("dd", {}, value);
      if (name === "Bytes") said.prepend(make("span", { class: "swatch", style: `background: rgb(${red} ${green} ${blue})` }));
      list.append(make("dt", {}, name), said);
    }
    panel.replaceChildren(row.wrong ? make("p", { class: "wrong" }, row.wrong) : list, ...(row.wrong ? [] : [make("p", { class: "ok" }, row.checkedPixel)]));
  }

  // The writes: only the lines that can be seen are on the page.
  /** @param {HTMLElement} panel */
  writes(panel) {
    const { look, lister } = this;
    if (!lister) {
      panel.replaceChildren(make("p", { class: "quiet" }, "The list is being made."));
      return;
    }
    if (!panel.querySelector(".list")) {
      const only = make("label", { class: "check" }, make("input", { type: "checkbox", id: "writes-only" }), "Writes alone");
      panel.replaceChildren(only, make("div", { class: "list", role: "group", "aria-label": "What the trace does; a click goes there" }));
      input("writes-only").addEventListener("change", () => {
        this.fill();
        this.reveal();
      });
      this.fill();
      this.reveal();
    } else if (look.playing || !panel.matches(":hover, :focus-within")) {
      this.reveal();
    }
    this.visible();
  }

  fill() {
    const { lister } = this;
    if (!lister) return;
    this.lines = input("writes-only").checked ? lister.lines.filter((line) => line.write) : lister.lines;
    const list = /** @type {HTMLElement} */ (any("panel").querySelector(".list"));
    list.style.height = `${this.lines.length * LINE + (lister.cut ? LINE : 0)}px`;
    list.replaceChildren();
  }

  /** The line that the moment stands at: the last that has begun. */
  current() {
    const { record } = this.look;
    let low = 0, high = this.lines.length - 1;
    while (low < high) {
      const middle = (low + high + 1) >> 1;
      if (this.lines[middle].record < record) low = middle;
      else high = middle - 1;
    }
    return low;
  }

  reveal() {
    const panel = any("panel"), list = /** @type {HTMLElement | null} */ (panel.querySelector(".list"));
    if (!list) return;
    const top = list.offsetTop + this.current() * LINE;
    if (top < panel.scrollTop + LINE || top > panel.scrollTop + panel.clientHeight - 2 * LINE) panel.scrollTop = top - panel.clientHeight / 2;
    this.visible();
  }

  visible() {
    const panel = any("panel"), list = /** @type {HTMLElement | null} */ (panel.querySelector(".list"));
    if (!list || !this.lister) return;
    const first = Math.max(Math.floor((panel.scrollTop - list.offsetTop) / LINE) - 4, 0), last = Math.min(first + Math.ceil(panel.clientHeight / LINE) + 8, this.lines.length);
    const now = this.current(), focused = document.activeElement instanceof HTMLElement ? document.activeElement.dataset.line : undefined;
    const made = [];
    for (let at = first; at < last; at++) {
      const line = this.lines[at];
      const button = make("button", { style: `top: ${at * LINE}px`, "data-line": String(at), class: line.write ? "" : "steps", title: `${line.statement}\n${line.words}`, "aria-current": String(at === now) }, make("span", {}, line.statement), make("span", { class: "words" }, line.words));
      button.addEventListener("click", () => this.look.to(line.record + line.count));
      made.push(button);
    }
    if (this.lister.cut) made.push(make("p", { style: `position: absolute; top: ${this.lines.length * LINE}px`, class: "quiet" }, `The list ends here, at record ${grouped(this.lister.at)}.`));
    list.replaceChildren(...made);
    if (focused !== undefined) this.lineAt(list, focused)?.focus({ preventScroll: true });
  }

  /** @param {KeyboardEvent} event */
  listKey(event) {
    const by = event.key === "ArrowDown" ? 1 : event.key === "ArrowUp" ? -1 : 0, { target } = event;
    if (this.shown !== "Writes" || !by || !(target instanceof HTMLElement) || target.dataset.line === undefined) return;
    event.preventDefault();
    const at = Math.min(Math.max(Number(target.dataset.line) + by, 0), this.lines.length - 1), panel = any("panel");
    const list = /** @type {HTMLElement} */ (panel.querySelector(".list")), top = list.offsetTop + at * LINE;
    if (top < panel.scrollTop + LINE) panel.scrollTop = top - LINE;
    if (top > panel.scrollTop + panel.clientHeight - 2 * LINE) panel.scrollTop = top - panel.clientHeight + 2 * LINE;
    this.visible();
    this.lineAt(list, String(at))?.focus({ preventScroll: true });
  }

  /**
   * The button of a line, where it is on the page.
   * @param {HTMLElement} list
   * @param {string} at
   * @returns {HTMLElement | null}
   */
  lineAt(list, at) {
    return list.querySelector(`[data-line="${at}"]`);
  }

  /** @param {HTMLElement} panel */
  registers(panel) {
    const { film, record } = this.look;
    if (!film) return;
    const { device } = film.seek(record), table = tableOf("Register", "Byte", "What it says");
    device.registers.forEach((value, number) => table.append(rowOf([String(number), hexes([value]), registerWords(!film.machine.areas, number, value)])));
    const chosen = ["none", "video memory", "the palette"][device.at("CHOSEN")];
    const more = [["Memory chosen", chosen], ["Address", hex(device.address, 4)], ["Read buffer", hexes([device.at("READ_BUFFER")])],
      ["Command byte", device.at("COMMAND_LATCHED") ? hexes([device.at("COMMAND_BYTE")]) + ", waits for its second" : "none waits"]];
    const list = make("dl", { class: "facts", style: "margin-top: 12px" });
    for (const [name, value] of more) list.append(make("dt", {}, name), make("dd", {}, value));
    panel.replaceChildren(table, list);
  }

  /** @param {HTMLElement} panel */
  sprites(panel) {
    const { look } = this, { screen } = look;
    if (!screen) return;
    this.spriteRow = Math.min(this.spriteRow, screen.rows - 1);
    const told = look.toldRow(this.spriteRow);
    if (!told) return;
    if (!panel.querySelector("#sprite-row")) {
      panel.replaceChildren(
        make("label", { class: "field" }, "Row", make("input", { type: "number", id: "sprite-row", min: "0", max: String(screen.rows - 1), "aria-label": "Row whose sprites are listed" })), make("div", { id: "sprite-list" }));
      onNumber(input("sprite-row"), (row) => look.at({ row, column: look.cursor?.column ?? 0, pinned: true }));
    }
    const field = input("sprite-row");
    if (document.activeElement !== field) field.value = String(this.spriteRow);
    const { told: row, when } = told, facts = spriteFacts(row);
    const parts = [make("p", { class: "quiet" }, `Line ${row.rules.line}, ${when}.`), make("p", {}, `${facts.head}; ${facts.tiles}.`)];
    if (facts.rows.length) {
      const table = tableOf("Place", "Sprite", "Y", "X", "Its tile is", "Columns", "Drawn", "Held back", "Struck", "Clear");
      for (const entry of facts.rows) {
        const cells = [entry.place, entry.sprite, entry.y, entry.x, entry.tile, entry.columns, ...(entry.counts ?? [])].map(String);
        const made = rowOf(cells);
        if (!entry.counts) made.append(make("td", { colspan: "4", class: "words" }, entry.note));
        else if (entry.note) made.children[5].append(" ", make("span", { class: "words" }, entry.note));
        table.append(made);
      }
      parts.push(make("div", { class: "scrolls" }, table));
    }
    if (facts.met) parts.push(make("p", {}, "Two sprites meet here: status bit 5 is set."));
    parts.push(row.wrong ? make("p", { class: "wrong" }, row.wrong) : make("p", { class: "ok" }, SAYS.checkedRow));
    any("sprite-list").replaceChildren(...(row.wrong ? parts.slice(-1) : parts));
  }

  /** @param {HTMLElement} panel */
  tiles(panel) {
    const { film, record } = this.look;
    if (!film) return;
    const { library } = film, n = library.numbers, { device } = film.seek(record);
    if (!panel.querySelector("canvas")) {
      const canvas = make("canvas", { tabindex: "0", role: "application", "aria-label": "All tiles: tiles 0 to 255 as background, below them the same as sprites; arrow keys choose one" });
      panel.replaceChildren(make("p", { class: "quiet" }, "Tiles 0 to 255 as background in palette 0; below them tiles 256 to 511 as sprites in palette 1."), make("div", { class: "tile-row" }, make("div", { class: "sheet-wrap" }, canvas), make("div", { id: "tile-facts" })));
      const point = (/** @type {PointerEvent} */ event) => {
        const box = canvas.getBoundingClientRect();
        this.tile = 16 * Math.floor(((event.clientY - box.top) / box.height) * 32) + Math.floor(((event.clientX - box.left) / box.width) * 16);
        this.tileFacts();
      };
      canvas.addEventListener("pointermove", point);
      canvas.addEventListener("pointerdown", point);
      canvas.addEventListener("keydown", (event) => {
        const by = { ArrowUp: -16, ArrowDown: 16, ArrowLeft: -1, ArrowRight: 1 }[event.key];
        if (!by) return;
        event.preventDefault();
        this.tile = Math.min(Math.max(this.tile + by, 0), 511);
        this.tileFacts();
      });
    }
    const sheet = library.slice(n.TILESET_SIZE);
    const refused = device.settled(() => device.dump(sheet));
    put(/** @type {HTMLCanvasElement} */ (panel.querySelector("canvas")), sheet.bytes, n.TILESET_WIDTH, true);
    library.release(sheet);
    if (refused) panel.replaceChildren(make("p", { class: "wrong" }, library.refusal(refused)));
    else this.tileFacts();
  }

  /** The tile that is pointed at: where it stands, and its codes by the library. */
  tileFacts() {
    const { film, record } = this.look;
    if (!film) return;
    const { library } = film, { device } = film.seek(record), tall = device.registers[1] & 2 && this.tile > 255;
    // with sprites 16 high the two tiles of a pair stand one below the other (R5.14)
    const at = this.tile - 256, column = at & 15, line = at >> 4;
    const tile = tall ? 256 + 32 * (line >> 1) + 2 * column + (line & 1) : Math.min(Math.max(this.tile, 0), 511);
    const codes = library.slice(library.numbers.TILE_CODES);
    library.calls.vdp_read_tile(device.vram.at, device.vram.size, tile, codes.at, codes.size);
    const grid = make("div", { class: "codes", "aria-label": "Codes of the tile" }, ...Array.from(codes.bytes, (code) => make("span", {}, hex(code, 1))));
    library.release(codes);
    const address = 32 * tile, name = `Tile ${tile}` + (tile > 255 ? `: a sprite's tile ${tile - 256}, where register 6 has bit 2` : "");
    any("tile-facts").replaceChildren(make("p", {}, name), make("p", { class: "quiet" }, `at ${hex(address, 4)}; its codes:`), grid);
  }

  /** @param {HTMLElement} panel */
  palette(panel) {
    const { film, record } = this.look;
    if (!film) return;
    const { device } = film.seek(record), colours = device.colours(), stored = device.palette, size = film.machine.colourSize;
    if (!panel.querySelector(".swatches")) {
      panel.replaceChildren(...[0, 1].flatMap((palette) => [
        make("h2", {}, `Palette ${palette}` + (palette ? ", which sprites have" : "")),
        make("div", { class: "swatches", role: "group", "aria-label": `Palette ${palette}` }, ...Array.from({ length: 16 }, (_, code) => {
          const number = 16 * palette + code, button = make("button", { "data-colour": String(number), "aria-label": `Colour ${number}` }, hex(code, 1));
          button.addEventListener("click", () => {
            this.colour = number;
            this.update();
          });
          return button;
        })),
      ]), make("dl", { class: "facts", id: "colour-facts" }), make("button", { id: "colour-ask", style: "margin-top: 12px" }, "Ask what if it changes"));
      any("colour-ask").addEventListener("click", () => this.asks(this.colour));
    }
    for (const button of /** @type {NodeListOf<HTMLElement>} */ (panel.querySelectorAll("[data-colour]"))) {
      const number = Number(button.dataset.colour), [red, green, blue] = colours.subarray(4 * number);
      button.style.background = `rgb(${red} ${green} ${blue})`;
      button.style.color = 2 * red + 5 * green + blue > 1100 ? "#000" : "#fff";
      button.setAttribute("aria-pressed", String(number === this.colour));
    }
    const [red, green, blue] = colours.subarray(4 * this.colour);
    const facts = [["Colour", `${this.colour}: palette ${this.colour >> 4}, code ${this.colour & 15}`], ["Bytes", hexes(stored.slice(size * this.colour, size * (this.colour + 1)))], ["Shows", colourWords(red, green, blue)]];
    any("colour-facts").replaceChildren(...facts.flatMap(([name, value]) => [make("dt", {}, name), make("dd", {}, value)]));
  }

  /** @param {HTMLElement} panel */
  interrupts(panel) {
    const { film } = this.look;
    if (!film || panel.firstChild) return;
    const frames = interruptFrames(film);
    const parts = frames.slice(0, MOST_FRAMES).flatMap(({ name, lines }) => {
      const buttons = lines.map(({ line, step }) => {
        const button = make("button", { "aria-label": `Line ${line}: go there` }, String(line));
        button.addEventListener("click", () => this.look.toStep(step + 1));
        return button;
      });
      const title = name[0].toUpperCase() + name.slice(1) + (lines.length ? `: ${many(lines.length, "line")} interrupt${lines.length === 1 ? "s" : ""}` : ": no line interrupts");
      return [make("h2", {}, title), make("div", { class: "lines" }, ...buttons)];
    });
    if (frames.length > MOST_FRAMES) parts.push(make("p", { class: "quiet" }, `The first ${MOST_FRAMES} of ${grouped(frames.length)} frames are listed.`));
    panel.replaceChildren(...parts);
  }
}

/**
 * The lines whose step asked for an interrupt, frame by frame, as `desk interrupts` tells them: those of a pass that draws no row go with the frame behind it.
 * @param {import("./film.js").Film} film
 */
export function interruptFrames(film) {
  /** @type {{name: string, lines: {line: number, step: number}[]}[]} */
  const frames = [];
  /** @type {{line: number, step: number}[]} */
  let lines = [];
  for (const pass of film.passes) {
    for (let step = pass.first; step < pass.end; step++) if (answered(film.words[step]).interrupt) lines.push({ line: film.counters[step], step });
    if (!pass.widths.size) continue;
    frames.push({ name: `frame ${frames.length + 1}`, lines });
    lines = [];
  }
  if (!frames.length) frames.push({ name: "frame 1", lines });
  else if (lines.length) frames.push({ name: "then, before a row is drawn", lines });
  return frames;
}

/** @param {string[]} heads */
function tableOf(...heads) {
  return make("table", {}, make("tr", {}, ...heads.map((head) => make("th", { scope: "col" }, head))));
}

/** @param {string[]} cells */
function rowOf(cells) {
  return make("tr", {}, ...cells.map((cell, at) => make("td", at === 2 && cells.length === 3 ? { class: "words" } : {}, cell)));
}
