// "When the counter reads L in frame n, this becomes that": the trace with the change in it, what it draws, and the answer in words.
import { differing, rowsOf, sentence } from "./difference.js";
import { Player } from "./film.js";
import { answered } from "./library.js";
import { READ, WRITE, writes } from "./trace.js";
import { SAYS } from "./says.js";
import { colourWords, filled, registerWords } from "./words.js";
/** @typedef {import("./film.js").Film} Film */
/** @typedef {import("./film.js").Pass} Pass */
/** @typedef {import("./machines.js").Screen} Screen */
/** @typedef {import("./difference.js").Difference} Difference */

/**
 * What is asked. frame: of the change, from 1; seen: of the pictures. index: a colour, a register or an address; value: its bytes.
 * @typedef {{line: number, frame: number, seen: number, kind: "colour" | "register" | "memory", index: number, value: number[]}} Question
 */

/**
 * Where a change goes in: before this record; the step that set the counter so, or -1 where the counter reads so before the first.
 * @typedef {{record: number, step: number}} Place
 */

/**
 * The bytes to the ports that a change is: what a program would write.
 * @param {Film} film
 * @param {Question} question
 */
function portBytes({ machine, library: { numbers: n } }, { kind, index, value }) {
  if (kind === "register") return [n.PORT_COMMAND, value[0], n.PORT_COMMAND, 0x80 + index];
  const address = kind === "colour" ? [machine.colourSize * index, 0xc0] : [index % 256, 0x40 + (index >> 8)];
  return [n.PORT_COMMAND, address[0], n.PORT_COMMAND, address[1], ...value.flatMap((byte) => [n.PORT_DATA, byte])];
}

/**
 * The last moment at which the counter reads so in this pass (the first time that it does); null where it never does.
 * @param {Film} film
 * @param {Pass} pass
 * @param {number} line
 * @returns {Place | null}
 */
function placeOf(film, pass, line) {
  const fresh = pass.first === 0 && film.counters[0] !== 0;
  let step = fresh && line === 0 ? -1 : pass.first;
  while (step >= 0 && step < pass.end && film.counters[step] !== line) step++;
  if (step >= pass.end && step >= 0) return null;
  const next = step + 1;
  return { record: next < film.trace.steps ? film.records[next] : film.trace.count, step };
}

/**
 * What a question comes to: both pictures of the frame that is looked at, where they differ, and the words.
 * @typedef {{place: Place, old: Uint8Array, new: Uint8Array, difference: Difference, sentence: string, head: string, why: string, notes: string[], seam: number | null}} Answer
 */

/** Asks one film questions, again and again. */
export class Asker {
  /**
   * @param {Film} film
   * @param {Screen} screen
   */
  constructor(film, screen) {
    this.film = film;
    this.screen = screen;
    this.frames = film.frames(screen);
    this.before = new Player(film.library, film.machine, film.table, film.trace, film.area);
    this.after = new Player(film.library, film.machine, film.table, film.trace, film.area);
    this.oldSeen = -1;
    this.old = new Uint8Array(0);
  }

  close() {
    this.before.close();
    this.after.close();
  }

  /**
   * The picture of a frame as the trace draws it.
   * @param {number} seen
   */
  oldPicture(seen) {
    if (this.oldSeen !== seen) {
      const player = this.film.seek(this.film.endOf(this.frames[seen - 1]), this.before);
      this.old = player.canvas(this.screen).frame.bytes.slice();
      this.oldSeen = seen;
    }
    return this.old;
  }

  /**
   * @param {Question} question
   * @returns {Answer | {problem: string}}
   */
  ask(question) {
    const { film, screen, after } = this;
    const pass = this.frames[question.frame - 1];
    const place = pass && placeOf(film, pass, question.line);
    if (!place) return { problem: filled(SAYS.never, { line: question.line, frame: question.frame }) };
    film.seek(place.record, after);
    if (after.device.at("COMMAND_LATCHED")) return { problem: SAYS.latched };
    const notes = this.follows(question, place) ? [SAYS.follows] : [];
    const bytes = portBytes(film, question);
    let refused = 0;
    for (let k = 0; k < bytes.length; k += 2) refused ||= after.device.out(bytes[k], bytes[k + 1]);
    after.to(film.endOf(this.frames[question.seen - 1]));
    after.record = Infinity; // with the change in it, it is no moment of the trace
    if (refused) return { problem: film.library.refusal(refused) };
    const made = after.canvas(screen).frame.bytes.slice();
    const old = this.oldPicture(question.seen), difference = differing(old, made, screen.columns);
    const drawn = this.drawnBy(pass, place), seam = question.seen === question.frame && !this.otherwise(question) ? drawn.next : null;
    return { place, old, new: made, difference, sentence: sentence(difference), notes, seam, ...this.words(question, place, difference, drawn) };
  }

  /**
   * Whether the trace goes on at the data port with the address from before: the change has moved it.
   * @param {Question} question
   * @param {Place} place
   */
  follows({ kind }, place) {
    const { trace, library: { numbers: n } } = this.film;
    if (kind === "register") return false;
    for (let at = place.record; at < trace.count; at++) {
      const port = trace.places[at];
      if (trace.kinds[at] === WRITE || trace.kinds[at] === READ) {
        if (port === n.PORT_DATA) return true;
        if (port === n.PORT_COMMAND && trace.kinds[at] === WRITE) return false;
      }
    }
    return false;
  }

  /**
   * What is to be said of a register that goes another way than the rows; empty of all else. (Register 7 is read on the home machine.)
   * @param {Question} question
   */
  otherwise({ kind, index }) {
    return (kind === "register" && (index !== 7 || this.film.machine.areas) && SAYS.registers[index]) || "";
  }

  /**
   * Of this pass: the last row that was drawn up to the change, and the next behind it.
   * @param {Pass} pass
   * @param {Place} place
   */
  drawnBy(pass, place) {
    /** @param {number} step */
    const row = (step) => {
      const answer = answered(this.film.words[step]);
      return answer.drawn && this.film.machine.screens[this.film.areaOf(step)].columns === this.screen.columns ? answer.row : null;
    };
    let last = null, next = null;
    for (let step = pass.first; step <= place.step; step++) last = row(step) ?? last;
    for (let step = place.step + 1; step < pass.end && next === null; step++) next = row(step);
    return { last, next, here: place.step >= 0 ? row(place.step) : null };
  }

  /**
   * The answer in plain words: which rows change, and why from there on.
   * @param {Question} question
   * @param {Place} place
   * @param {Difference} difference
   * @param {{last: number | null, next: number | null, here: number | null}} drawn
   */
  words(question, place, difference, drawn) {
    const w = SAYS.answer, { line, frame, seen } = question;
    const several = this.frames.length > 1 || seen !== frame;
    let head = several ? filled(w.noneIn, { seen }) : w.none;
    if (difference.count) {
      const { first, last } = rowsOf(difference);
      head = filled(first === last ? w.row : w.rows, { first, last }) + (several ? filled(w.inFrame, { seen }) : "") + ".";
    }
    let why = drawn.here !== null ? w.drawn : drawn.last !== null ? w.all : w.before;
    if (drawn.here !== null && drawn.next === null) why = w.last;
    let text = this.otherwise(question) || filled(why, { line, last: drawn.last ?? 0, next: drawn.next ?? 0 });
    // What is said of rows is held to the pictures: none of those that were drawn before the change may differ.
    if (seen === frame && !this.kept(place, difference)) text = SAYS.disagreeRows;
    return { head, why: text };
  }

  /**
   * Whether every row of this frame that the change came after is the same.
   * @param {Place} place
   * @param {Difference} difference
   */
  kept(place, difference) {
    const by = this.after.canvas(this.screen).by;
    return difference.byRow.every((count, row) => !count || by[row] > place.step);
  }
}

/**
 * The trace with the change in it.
 * @param {Film} film
 * @param {Place} place
 * @param {Question} question
 */
export function changed(film, place, question) {
  const { trace } = film, at = trace.offsets[place.record], bytes = portBytes(film, question);
  const added = [];
  for (let k = 0; k < bytes.length; k += 2) added.push(...writes(bytes[k], bytes[k + 1]));
  const end = trace.offsets[trace.count], made = new Uint8Array(end + added.length);
  made.set(trace.data.subarray(0, at));
  made.set(added, at);
  made.set(trace.data.subarray(at, end), at + added.length);
  return made;
}

/**
 * What the value means.
 * @param {Film} film
 * @param {Question} question
 */
export function meaning({ machine }, { kind, index, value }) {
  if (kind === "register") return registerWords(!machine.areas, index, value[0]);
  if (kind === "memory") return "";
  const [red, green, blue] = machine.colour(value, 0);
  return colourWords(red, green, blue);
}
