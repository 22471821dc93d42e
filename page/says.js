// What the page says of its own.

/** What a step reports, by its number. */
export const REPORTS = ["", "the screen ends", "the screen ends, with the display off"];

export const SAYS = {
  disagree: "THE PAGE'S REASONS DISAGREE WITH THE LIBRARY, which is proved: believe the picture, and tell us ({where}, row {row}: {what})",
  disagreeRows: "THE PAGE'S REASONS DISAGREE WITH THE LIBRARY, which is proved: a row that was drawn before the change differs. Believe the pictures, and tell us.",
  checkedPixel: "checked with the library: its row, its layers and {call} say the same",
  checkedRow: "checked with the library: its row, its layers and its status bits say the same",
  otherMachine: "{name} is a script for the {machine}. Here its trace runs on the other one, where its bytes mean something else.",
  underFill: "{count} under the fill",
  never: "In frame {frame} the counter never reads {line} after a step of this trace.",
  latched: "A command byte waits for its second there: the chip would take this write for it.",
  follows: "The trace goes on at the data port with the address from before, which this write has moved: what follows is stored elsewhere, as it would be on the console.",
  point: "Point at a picture to compare a pixel.",
  twice: "The counter reads {line} twice in a pass; the first time is meant.",
  answer: {
    rows: "Rows {first} to {last} change",
    row: "Row {first} changes",
    inFrame: " in frame {seen}",
    none: "No pixel changes.",
    noneIn: "No pixel changes in frame {seen}.",
    drawn: "The step that set the counter to {line} has drawn row {last} already, and that row keeps what it has. Row {next}, the next to be drawn, is the first that can show the change.",
    last: "The step that set the counter to {line} has drawn row {last}, the last one of this pass. The change can show from the next pass on.",
    all: "When the counter reads {line}, the rows of this pass are drawn. The change can show from the next pass on.",
    before: "When the counter reads {line}, no row of this pass is drawn yet. The change can show in all of them.",
  },
  // Of registers that go another way than the rows (docs/HANDBOOK.md, "When does each write show?").
  registers: /** @type {Record<number, string>} */ ({
    3: "No rule reads register 3: it shows in no row.",
    4: "No rule reads register 4: it shows in no row.",
    7: "No rule reads register 7: it shows in no row.",
    9: "Register 9 waits: rows go by the scroll that was taken when the counter became 0. The change can show from row 0 of the next pass on, whatever the counter reads.",
    10: "Register 10 shows in no row: the next line interrupt comes where it would have come, and the new number counts from there on.",
  }),
};
