#!/usr/bin/env python3
"""checks.py PAGE FOLDER [NAME..]: the page in a real browser, beside the native library and the desk. A line for each check, `ok:` or `FAILED:`."""
import base64
import json
import pathlib
import random
import re
import sys
import time
import traceback

import browser
import native

PAGE, FOLDER, ONLY = pathlib.Path(sys.argv[1]).resolve(), pathlib.Path(sys.argv[2]).resolve(), sys.argv[3:]
CHECKS = []
LARGEST, PICTURES_A_SECOND = 200 * 1024, 30


def check(function):
    CHECKS.append(function)
    return function


def opened(page, data, name="trace", question=None):
    """The page has run this trace, and listed it."""
    page.ask("async (text, name, question) => { await desk.app.open(Uint8Array.from(atob(text), (c) => c.charCodeAt(0)), name, '', question); }", native.encoded(data), name, question or {})


SHOWN = """() => {
  const { look } = desk.app, canvas = document.getElementById("screen"), frames = [];
  document.getElementById("layers").value = 0;
  for (let n = 1; n <= look.frames.length; n++) {
    look.toFrame(n);
    look.update();
    const data = canvas.getContext("2d").getImageData(0, 0, canvas.width, canvas.height).data;
    let text = "", layers = "";
    for (let at = 0; at < data.length; at += 4) text += String.fromCharCode(data[at], data[at + 1], data[at + 2]);
    for (const layer of look.film.seek(look.record).canvas(look.screen).layers) layers += String.fromCharCode(layer);
    frames.push([btoa(text), btoa(layers)]);
  }
  return { columns: canvas.width, rows: canvas.height, frames };
}"""


def same_frames(page, data, seen, wanted):
    """What differs between the canvas and the native library's frames; empty where nothing does."""
    page.run("desk.app.view(document.getElementById('tab-look'))")
    shown = page.ask(SHOWN)
    if (shown["columns"], shown["rows"]) != seen.size or len(shown["frames"]) != len(wanted):
        return f"{len(shown['frames'])} frames of {shown['columns']} x {shown['rows']}, and the library draws {len(wanted)} of {seen.size}"
    for number, (here, there) in enumerate(zip(shown["frames"], wanted), 1):
        for what, one, other in zip(("pixels", "layers"), here, there):
            if base64.b64decode(one) != other:
                return f"frame {number}: other {what}"
    return ""


@check
def pictures(page):
    """every frame of every script and trace: the canvas has the native library's pixels, and the layers are its layers"""
    count = 0
    for path, data in native.sources():
        opened(page, data, path.name)
        seen, wanted = native.frames(data)
        wrong = same_frames(page, data, seen, wanted)
        assert not wrong, f"{path}: {wrong}"
        count += len(wanted)
    return f"{len(native.sources())} of them, {count} frames"


@check
def areas(page):
    """so it is with every step drawn as area 0, 1 or 2, with either size of what is recorded, and by line table 0"""
    count = 0
    for name in ("edges-visible", "areas", "late", "sprites"):
        data = (native.ROOT / "tests" / "traces" / f"{name}.trace").read_bytes()
        opened(page, data, name)
        for area in (0, 1, 2):
            changed(page, "area", str(area))
            wrong = same_frames(page, data, *native.frames(native.as_area(data, area), 1, area))
            assert not wrong, f"{name} as area {area}: {wrong}"
            count += 1
        changed(page, "area", "")
        changed(page, "table", "0")
        wrong = same_frames(page, data, *native.frames(data, 0))
        assert not wrong, f"{name} by table 0: {wrong}"
        changed(page, "table", "1")
        count += 1
    both = (native.ROOT / "tests" / "traces" / "areas.trace").read_bytes()
    opened(page, both, "areas")
    for value in page.run("[...document.getElementById('area').options].map((o) => o.value).filter((v) => v.startsWith('size'))"):
        changed(page, "area", value)
        wrong = same_frames(page, both, *native.frames(both, 1, int(value[5:])))
        assert not wrong, f"areas, {value}: {wrong}"
        count += 1
    changed(page, "area", "")
    return f"{count} runs"


def changed(page, name, value):
    """A setting is another, and the trace has run again."""
    page.ask("async (id, value) => { document.getElementById(id).value = value; await desk.app.again(); }", name, value)


@check
def answers(page):
    """the list of the Rust's answers gives the same words and checksums"""
    data = (native.ROOT / "crates" / "replay" / "stdin").read_bytes()
    return page.ask("""(text) => {
      const { library } = desk, bytes = Uint8Array.from(atob(text), (c) => c.charCodeAt(0)), view = new DataView(bytes.buffer);
      const state = library.slice(library.numbers.OLD_STATE_SIZE), vram = library.slice(library.numbers.VRAM_SIZE), row = library.slice(1024), c = library.calls;
      const sum = (part, length) => { let total = 0; for (let i = 0; i < length; i++) total += (i + 1) * part[i]; return total; };
      if (c.vdp_new_table(state.at, state.size, 0)) throw new Error("no device");
      let rows = 0;
      for (let at = 0; at < bytes.length; at += 16) {
        const kind = String.fromCharCode(bytes[at]), place = bytes[at + 1];
        const word = (kind === "W" ? c.vdp_out(state.at, state.size, vram.at, vram.size, place, bytes[at + 2])
          : kind === "R" ? c.vdp_input(state.at, state.size, vram.at, vram.size, place)
          : c.vdp_row_step(state.at, state.size, vram.at, vram.size, row.at, row.size, place)) >>> 0;
        const drawn = kind === "S" && word & 1 << 24;
        if (drawn) rows++;
        const here = [word, sum(state.bytes, 219), drawn ? sum(row.bytes, place === 1 ? 1024 : 640) : 0], there = [4, 8, 12].map((k) => view.getUint32(at + k, true));
        if (here.some((value, k) => value !== there[k])) throw new Error(`record ${at / 16}: ${here} and not ${there}`);
      }
      if (bytes.length !== 65536 * 16) throw new Error("another list");
      return `${bytes.length / 16} calls, ${rows} rows`;
    }""", native.encoded(data))


def questions():
    """Traces with a frame, a line, a frame to look at and a change each."""
    scripts = native.ROOT / "docs" / "scripts"
    lines = (0, 1, 22, 23, 24, 25, 66, 89, 90, 91, 142, 165, 166, 167, 168, 192, 193, 212, 213, 218, 219, 254)
    for line in lines:
        yield scripts / "split-old.desk", 1, line, 1, ("colour", 3, [0x00, 0x0F])
    for line in (0, 23, 47, 60, 166, 167, 255):
        yield scripts / "flicker.desk", 1, line, 2, ("memory", 0x3F84, [0x58])
        yield scripts / "flicker.desk", 2, line, 2, ("memory", 0x3F02, [0x3F])
    for number, value in enumerate((0x08, 0x02, 0xFD, 0x00, 0x00, 0x7D, 0x00, 0x05, 0x33, 0x44, 0x10)):
        yield native.ROOT / "tests" / "traces" / "layers.trace", 1, 70 + number, 1, ("register", number, [value])
    for line in (10, 60, 100):
        yield scripts / "write-scroll.desk", 1, line, 1, ("register", 9, [0x21])
        yield scripts / "write-scroll.desk", 1, line, 2, ("register", 9, [0x21])
        yield scripts / "write-at-once.desk", 1, line, 1, ("memory", 0x0008 + line % 8, [0x5A])
        yield native.ROOT / "tests" / "traces" / "sprites.trace", 1, line, 1, ("colour", 17 + line % 5, [0x5A, 0x0C])


@check
def sentences(page):
    """what if: the sentence, and the trace with the change in it, are those of `desk differ`"""
    count, differ = 0, 0
    made, old = FOLDER / "changed.trace", None
    for path, frame, line, seen, (kind, index, value) in questions():
        data = native.trace(path)
        if old != path:
            opened(page, data, path.name)
            old = path
        at = native.insertion(data, frame, line)
        asked = {"line": line, "frame": frame, "seen": seen, "kind": kind, "index": index, "value": value}
        told = page.ask("""(question) => {
          const { whatif } = desk.app;
          whatif.set(question);
          whatif.update();
          return { text: whatif.text(), sentence: document.getElementById("sentence").textContent, head: document.getElementById("head").textContent, why: document.getElementById("why").textContent,
                   trace: whatif.answer && btoa(String.fromCharCode(...whatif.newTrace())) };
        }""", asked)
        assert at is not None and told["trace"], f"{path.name}: {asked}: {told}"
        made.write_bytes(data[:at] + native.change(kind, index, value) + data[at:])
        assert base64.b64decode(told["trace"]) == made.read_bytes(), f"{path.name}: {asked}: another trace"
        said = re.sub(r"^frame \d+: ", "", native.desk("differ", path, made, "--frame", seen).rstrip("\n"))
        assert told["text"] == said, f"{path.name}: {asked}: the page says\n{told['text']}\nand the desk\n{said}"
        assert told["sentence"] == said.split("\n")[0]
        rows = re.search(r" in (rows? .*?)( \(|$)", told["sentence"])
        assert told["head"].lower().startswith(rows.group(1) if rows else "no pixel"), told
        assert "DISAGREE" not in told["why"], told
        count, differ = count + 1, differ + bool(rows)
    assert count >= 50 and 10 < differ < count, (count, differ)
    return f"{count} places, {differ} of them with pixels that differ"


@check
def opening(page):
    """the page opens with the author's question, L at 90, and its answer"""
    page.open(PAGE)
    words = page.run("document.querySelector('.asked').innerText.replace(/\\s+/g, ' ')")
    assert words.startswith("When the line counter reads 5A in frame of 1"), words
    assert page.run("[document.getElementById('line').value, document.getElementById('index-number').value, document.getElementById('value-hex').value].join()") == "90,3,00 0F"
    head, sentence = page.run("[document.getElementById('head').textContent, document.getElementById('sentence').textContent]")
    assert head == "Rows 67 to 143 change.", head
    assert sentence == native.desk("differ", native.ROOT / "docs/scripts/split-old.desk", native.ROOT / "docs/scripts/split-new.desk").split("\n")[0], sentence
    assert page.run("document.getElementById('why').textContent").startswith("The step that set the counter to 90 has drawn row 66 already"), "why"
    for id, path in (("pic-old", "split-old"), ("pic-new", "split-new")):
        seen, wanted = native.frames(native.trace(native.ROOT / f"docs/scripts/{path}.desk"))
        data = page.run(f"(() => {{ const c = document.querySelector('#{id} canvas'); return [...c.getContext('2d').getImageData(0, 0, c.width, c.height).data]; }})()")
        assert bytes(value for at, value in enumerate(data) if at % 4 < 3) == wanted[0][0], id
    return head


@check
def problems(page):
    """where the chip would not take the change as it is meant, or the counter never reads so, the page says it; a write of the trace on the same line is set over"""

    def asked(script, **question):
        opened(page, native.language.made(script, "script", ".", 1).trace)
        return page.ask("""(question) => {
          const { whatif } = desk.app, text = (id) => { const e = document.getElementById(id); return e.hidden ? "" : e.textContent; };
          whatif.set(question);
          whatif.update();
          const pixels = document.querySelector("#pic-new canvas").getContext("2d").getImageData(0, 0, 1, 144).data;
          return { head: text("head"), why: text("why"), notes: text("notes"), rows: [66, 67].map((row) => [...pixels.slice(4 * row, 4 * row + 3)]), which: document.querySelector("[value=new]").disabled };
        }""", {"line": 90, "frame": 1, "seen": 1, "kind": "colour", "index": 0, "value": [0x00, 0x0F], **question})

    memory = {"kind": "memory", "index": 5, "value": [0x77]}
    told = asked("steps 90\nwrite BF = 12\nsteps 100")
    assert told["head"] == "No answer" and told["why"].startswith("A command byte waits for its second") and told["which"], told
    told = asked("steps 50")
    assert told["head"] == "No answer" and "never reads 90" in told["why"], told
    told = asked("vram 0 = FF\nsteps 95\nwrite BE = 11\nsteps 100", **memory)
    assert told["notes"].startswith("The trace goes on at the data port"), told
    assert not asked("vram 0 = FF\nsteps 95\nwrite BE = 11\nsteps 100", kind="register", index=8, value=[3])["notes"]
    assert not asked("vram 0 = FF\nsteps 95\nvram 1 = 11\nsteps 100", **memory)["notes"]
    assert "twice" in asked("passes 2", line=0xDA)["notes"] and not asked("passes 2", line=0xDB)["notes"]
    told = asked("colour 0 = 0F 00\nsteps 90\ncolour 0 = F0 00\nsteps 100")
    assert told["rows"] == [[255, 0, 0], [0, 0, 255]], told
    return "8 questions"


@check
def listings(page):
    """the list is that of `desk list`, word for word, of every script and trace and of random ones"""
    lines = 0
    random = [(path, path.read_bytes()) for path in sorted((FOLDER / "random").glob("*.trace"))]
    assert random
    for path, data in native.sources() + random:
        opened(page, data, path.name)
        here = page.run("desk.app.lister.lines.map((line) => line.statement.padEnd(24) + '  # ' + line.words + '\\n').join('')")
        there, _ = native.listing.listed(native.records.Trace(data, "trace"), 1)
        if here != there:
            one, other = next((a, b) for a, b in zip(here.split("\n"), there.split("\n")) if a != b)
            raise AssertionError(f"{path}: the page has\n{one}\nand the desk\n{other}")
        lines += there.count("\n")
    return f"{lines} lines"


@check
def interrupts(page):
    """the lines that interrupt are those of `desk interrupts`, frame by frame"""
    count = 0
    for path, data in native.sources():
        opened(page, data, path.name)
        here = page.run("desk.interruptFrames(desk.app.film).map(({ name, lines }) => [name, lines.map(({ line }) => line)])")
        said = [f"{name}: " + (f"{'line' if len(lines) == 1 else 'lines'} {native.difference.runs(lines)}" if lines else "none") for name, lines in here]
        assert said == native.desk("interrupts", path).rstrip("\n").split("\n"), (path.name, said)
        count += sum(len(lines) for _, lines in here)
    assert count > 20, count
    return f"{count} lines"


@check
def reasons(page):
    """what is told of pixels and of the sprites of a row is what `desk pixel` and `desk sprites` print"""
    count = 0
    places = {"tests/traces/layers.trace": ((24, 65), (24, 27), (80, 80)), "tests/traces/sprites.trace": ((76, 40), (0, 0)), "docs/scripts/flicker.desk": ((44, 115), (44, 45)),
              "tests/traces/edges-visible.trace": ((20, 3), (60, 5)), "tests/traces/edges-true.trace": ((20, 3), (100, 157)), "docs/scripts/split-old.desk": ((66, 0),)}
    random = sorted((FOLDER / "random").glob("*.trace"))
    places.update({str(path): tuple((row, column) for row in (30, 71, 110) for column in (2, 77, 158)) for path in random[:2]})
    for name, spots in places.items():
        path = native.ROOT / name
        data = native.trace(path)
        opened(page, data, path.name)
        page.run("(() => { const { look } = desk.app; look.toFrame(look.frames.length); look.update(); })()")
        for row, column in spots:
            here = page.ask("""(row, column) => {
              const { look } = desk.app, { told, when } = look.toldRow(row);
              told.samePixel(look.inspector.device, column);
              return [told.wrong, desk.pixelText(told, column, when), desk.spritesText(told, when)];
            }""", row, column)
            there = ["", native.desk("pixel", path, row, column).rstrip("\n"), native.desk("sprites", path, row).rstrip("\n")]
            assert here == there, f"{name}, row {row}, column {column}:\n" + "\n".join(f"{a}\n-- and not\n{b}" for a, b in zip(here, there) if a != b)
            count += 1
    return f"{count} places"


def control(page, name, event="input"):
    """An event of a control."""
    return f"document.getElementById({json.dumps(name)}).dispatchEvent(new Event({json.dumps(event)}, {{bubbles: true}}))"


def settled(page):
    """What waits for the next picture of the page is done."""
    page.run("new Promise((done) => requestAnimationFrame(() => requestAnimationFrame(() => done(true))))")


def focus(page, name):
    page.ask("(id) => { const e = document.getElementById(id); e.scrollIntoView({block: 'center'}); e.focus(); }", name)


KEYS = {"ArrowRight": 39, "ArrowLeft": 37, "ArrowUp": 38, "ArrowDown": 40, "Home": 36, "End": 35, "Escape": 27}


@check
def asking(page):
    """each control of the question, by keys, pointer and typing"""
    page.open(PAGE)
    question = lambda: page.run("desk.app.whatif.question")  # noqa: E731
    head = lambda: page.run("document.getElementById('head').textContent")  # noqa: E731
    focus(page, "line")
    page.key("ArrowRight", 39)
    settled(page)
    assert question()["line"] == 91 and head() == "Rows 68 to 143 change.", (question(), head())
    assert page.run("document.getElementById('line-hex').textContent") == "5B"
    page.key("Home", 36)
    settled(page)
    assert head() == "Rows 1 to 143 change." and question()["line"] == 0, head()
    page.key("End", 35)
    settled(page)
    assert head() == "No answer" or "never reads 255" in page.run("document.getElementById('why').textContent") or question()["line"] == 255
    # the slider, dragged
    x, y = page.place("#line")
    page.pointer("mousePressed", x, y, 1)
    settled(page)
    middle = question()["line"]
    page.pointer("mouseMoved", x + 60, y, 1)
    settled(page)
    dragged = question()["line"]
    page.pointer("mouseReleased", x + 60, y)
    assert 100 < middle < 150 < dragged + 30 and dragged > middle, (middle, dragged)
    # typed
    for name, text, key, wanted in (("line-number", "100", "line", 100), ("index-number", "1", "index", 1), ("value-hex", "F0 0A", "value", [0xF0, 0x0A])):
        typed(page, name, text)
        assert question()[key] == wanted, (name, question())
    assert page.run("document.getElementById('value-words').textContent") == "red 0, green 255, blue 170"
    # red, green and blue
    for part, wanted in ((0, [0xF1, 0x0A]), (1, [0xE1, 0x0A]), (2, [0xE1, 0x0B])):
        focus(page, f"value-{part}")
        page.key(*(("ArrowLeft", 37) if part == 1 else ("ArrowRight", 39)))
        settled(page)
        assert question()["value"] == wanted, (part, question())
    # other kinds
    for kind, most in (("register", 10), ("memory", None), ("colour", 31)):
        page.ask("(kind) => { const s = document.getElementById('kind'); s.value = kind; s.dispatchEvent(new Event('change')); }", kind)
        settled(page)
        assert question()["kind"] == kind
        shown = page.run("[document.getElementById('index-number').hidden, document.getElementById('index-address').hidden, document.getElementById('index-number').max]")
        assert shown[:2] == [kind == "memory", kind != "memory"] and (most is None or shown[2] == str(most)), shown
        if kind == "register":
            typed(page, "index-number", "9")
            assert "waits" in page.run("document.getElementById('why').textContent")
            focus(page, "value-0")
            page.key("Home", 36)
            settled(page)
            assert question()["value"] == [0]
        if kind == "memory":
            typed(page, "index-address", "0004")
            typed(page, "value-hex", "00")
            typed(page, "line-number", "90")
            settled(page)
            assert question()["index"] == 4 and question()["value"] == [0] and head().startswith("Rows "), (question(), head())
    # frames
    opened(page, native.trace(native.ROOT / "docs/scripts/flicker.desk"), "flicker.desk")
    assert page.run("[document.getElementById('frame-number').disabled, document.getElementById('frame-count').textContent].join()") == "false,of 2,"
    typed(page, "frame-number", "2")
    assert question()["frame"] == 2 and question()["seen"] == 2
    typed(page, "frame-number", "1")
    typed(page, "seen-number", "2")
    assert question()["frame"] == 1 and question()["seen"] == 2 and "frame 2" in head(), head()
    # the pointer on a picture
    x, y = page.place("#pic-new canvas")
    page.pointer("mouseMoved", x, y)
    assert re.match(r"row 7\d, column \d+, line 9\d: red ", page.run("document.getElementById('three-readout').textContent")), "readout"
    # the new trace is saved
    assert page.run("""(async () => {
      const made = []; const old = URL.createObjectURL; URL.createObjectURL = (blob) => { made.push(blob); return old(blob); };
      document.getElementById('save-trace').click(); URL.createObjectURL = old;
      const bytes = new Uint8Array(await made[0].arrayBuffer()), wanted = desk.app.whatif.newTrace();
      return bytes.length === wanted.length && bytes.every((byte, at) => byte === wanted[at]);
    })()"""), "the saved trace"
    return "moved"


def typed(page, name, text):
    """Text typed into a field in place of what stands there."""
    focus(page, name)
    page.ask("(id) => document.getElementById(id).select()", name)
    page.call("Input.insertText", text=text)
    settled(page)


def seen_sharp(page):
    """What a screenshot shows, at three times, is the picture of half a frame, each pixel of it nine times, and black where nothing is drawn yet."""
    page.ask("() => { const s = document.getElementById('scale'); s.value = '3'; s.dispatchEvent(new Event('change')); }")
    page.run("desk.app.look.at(null), desk.app.look.toStep(66)")
    settled(page)
    box = page.run("(() => { const e = document.getElementById('screen'); e.scrollIntoView({block: 'center'}); const b = e.getBoundingClientRect(); return [b.left + scrollX, b.top + scrollY]; })()")
    settled(page)
    shot = native.png.read(page.picture(FOLDER / "seen.png", clip={"x": box[0], "y": box[1], "width": 480, "height": 432, "scale": 1}))
    trace = native.records.Trace(native.trace(native.ROOT / "docs/scripts/flicker.desk"), "trace")
    data, steps = b"", 0
    for record in trace:
        steps += record.kind == native.records.STEP
        if steps > 66:
            break
        data += record.kind + bytes([record.place]) + (bytes([record.value]) if record.kind == native.records.WRITE else b"")
    _, [(wanted, _)] = native.frames(data)
    colours = shot.colours()
    for row in [row for row in range(144) if abs(row - 42) > 1]:  # but for the marks at the row just drawn
        for column in range(160):
            for at in ((3 * row) * 480 + 3 * column, (3 * row + 2) * 480 + 3 * column + 2):
                assert tuple(colours[at][:3]) == tuple(wanted[3 * (160 * row + column) : 3 * (160 * row + column) + 3]), f"row {row}, column {column}: {colours[at]}"


@check
def looking(page):
    """each control of the picture and of time, each panel, the cursor by pointer and by keys"""
    page.open(PAGE)
    opened(page, native.trace(native.ROOT / "docs/scripts/flicker.desk"), "flicker.desk")
    page.click("#tab-look")
    look = lambda what: page.run(f"desk.app.look.{what}")  # noqa: E731
    text = lambda name: page.run(f"document.getElementById({json.dumps(name)}).textContent")  # noqa: E731
    assert page.run("document.getElementById('whatif').hidden") and look("steps") == 261, look("steps")
    for button, wanted in (("frame-on", 523), ("frame-back", 261), ("step-on", 262), ("step-back", 261), ("step-back", 260)):
        page.click(f"#{button}")
        settled(page)
        assert look("steps") == wanted, (button, look("steps"))
    typed(page, "look-frame", "2")
    assert look("steps") == 523
    focus(page, "step")
    page.key("Home", 36)
    settled(page)
    assert look("steps") == 0 and "nothing is drawn yet" in text("step-words")
    for _ in range(24):
        page.key("ArrowRight", 39)
    settled(page)
    assert look("steps") == 24 and "row 0 is just drawn" in text("step-words") and "line 24 (18)" in text("step-words"), text("step-words")
    page.run("document.activeElement.blur()")
    for key, shift, wanted in (("ArrowRight", False, 25), ("ArrowLeft", False, 24), ("ArrowRight", True, 523), ("ArrowLeft", True, 261)):
        page.key(key, KEYS[key], shift)
        settled(page)
        assert look("steps") == wanted, (key, shift, look("steps"))
    page.run("desk.app.look.toStep(0)")
    settled(page)
    page.click("#play")
    page.wait("desk.app.look.playing && desk.app.look.steps > 8")
    page.click("#play")
    assert not look("playing")
    # scale, rulers, grid, layers
    for scale in range(1, 7):
        page.ask("(n) => { const s = document.getElementById('scale'); s.value = n; s.dispatchEvent(new Event('change')); }", str(scale))
        assert page.run("document.getElementById('screen').getBoundingClientRect().width") == 160 * scale
        assert page.run("document.getElementById('screen').getBoundingClientRect().left >= document.getElementById('picture').getBoundingClientRect().left"), "the left edge cannot be reached"
    seen_sharp(page)
    for name, ask in (("rulers", "document.querySelector('.ruler.left').hidden"), ("grid", "(() => { const c = document.getElementById('marks'); return c.getContext('2d').getImageData(0, 0, c.width, c.height).data.filter((v) => v).length; })()")):
        before = page.run(ask)
        page.click(f"#{name}")
        settled(page)
        assert page.run(ask) != before, name
    page.ask("() => { const s = document.getElementById('scale'); s.value = '0'; s.dispatchEvent(new Event('change')); }")
    page.run("desk.app.look.toFrame(1)")
    focus(page, "layers")
    page.key("End", 35)
    settled(page)
    legend = page.run("[...document.querySelectorAll('#legend span')].map((e) => e.textContent)")
    assert legend == ["background"] + [f"sprite {n}" for n in range(8)], legend
    page.key("Home", 36)
    settled(page)
    assert page.run("document.getElementById('legend').hidden")
    # the cursor
    box = page.run("(() => { const e = document.getElementById('screen'); e.scrollIntoView({block: 'center'}); const b = e.getBoundingClientRect(); return [b.left, b.top, b.width / 160]; })()")
    at = lambda row, column: (box[0] + (column + 0.5) * box[2], box[1] + (row + 0.5) * box[2])  # noqa: E731
    page.pointer("mouseMoved", *at(44, 45))
    settled(page)
    assert look("cursor") == {"row": 44, "column": 45, "pinned": False}, look("cursor")
    said = text("panel")
    for words in ("Row44", "Column45", "Line68 (44)", "as frame 1 of 2 drew it at line 68", "sprite 3", "tile 0", "In the paletteDF 02", "checked with the library"):
        assert words in said, (words, said)
    page.pointer("mousePressed", *at(44, 45), 1)
    page.pointer("mouseReleased", *at(44, 45))
    page.pointer("mouseMoved", *at(10, 10))
    settled(page)
    assert look("cursor")["pinned"] and look("cursor")["row"] == 44
    focus(page, "surface")
    for key, shift, wanted in (("ArrowDown", False, (45, 45)), ("ArrowRight", True, (45, 53)), ("ArrowUp", False, (44, 53)), ("ArrowLeft", False, (44, 52))):
        page.key(key, KEYS[key], shift)
        settled(page)
        assert (look("cursor")["row"], look("cursor")["column"]) == wanted, look("cursor")
    # panels
    page.click("#panel-Sprites")
    settled(page)
    assert "NINTH: not laid, and sets status bit 6" in text("panel") and "10 sprites on the row" in text("panel"), text("panel")
    typed(page, "sprite-row", "10")
    assert "no sprites on the row" in text("panel"), text("panel")
    page.click("#panel-Registers")
    assert "the map is at 3800" in text("panel"), text("panel")
    page.click("#panel-Tiles")
    x, y = page.run("(() => { const b = document.querySelector('#panel canvas').getBoundingClientRect(); return [b.left + b.width / 32, b.top + b.height * 16.5 / 32]; })()")
    page.pointer("mouseMoved", x, y)
    assert "Tile 256" in text("tile-facts") and "at 2000" in text("tile-facts") and "0022220002222220" in text("tile-facts"), text("tile-facts")
    page.click("#panel-Palette")
    page.click("[data-colour='18']")
    assert "DF 02" in text("colour-facts") and "red 255, green 221, blue 34" in text("colour-facts"), text("colour-facts")
    page.click("#panel-Writes")
    settled(page)
    assert page.run("document.querySelectorAll('.list button').length") > 5
    page.click("#writes-only")
    settled(page)
    found = page.run("""(() => { const p = desk.app.look.panels; const at = p.lines.findIndex((line) => line.statement === 'vram 3F02 = D0');
      document.getElementById('panel').scrollTop = at * 40; p.visible(); document.querySelector(`[data-line="${at}"]`).click(); return p.lines[at].words; })()""")
    settled(page)
    assert found.startswith("line 0, before any row: 3F02: Y byte D0") and look("steps") == 262 and "then 3 port calls" in text("step-words"), (found, text("step-words"))
    opened(page, (native.ROOT / "tests/traces/interrupts.trace").read_bytes(), "interrupts.trace")
    page.click("#panel-Interrupts")
    lines = page.run("[...document.querySelectorAll('.lines button')].map((e) => Number(e.textContent))")
    text_lines = (native.ROOT / "tests/traces/interrupts.text").read_text().split("\n")
    wanted = [int(line.split()[2], 16) for line in text_lines if line.startswith("s 0 ") and line.split()[3] == "1"]
    assert lines == wanted and wanted, (lines, wanted)
    page.click(".lines button")
    settled(page)
    assert "asked for by this step" in text("state")
    # with the change
    page.open(PAGE)
    page.click("#tab-look")
    page.click("input[value=new] + span")
    page.wait("desk.app.changedFilm !== null")
    settled(page)
    shown = page.run("(() => { const c = document.getElementById('screen').getContext('2d'); return [...c.getImageData(0, 66, 1, 1).data, ...c.getImageData(0, 67, 1, 1).data]; })()")
    assert shown == [255, 0, 0, 255, 0, 0, 255, 255], shown
    page.click("#panel-Palette")
    page.click("[data-colour='3']")
    page.click("#colour-ask")
    settled(page)
    assert page.run("document.getElementById('look').hidden") and page.run("desk.app.whatif.question.index") == 3 and page.run("desk.app.changedFilm") is None
    return "moved"


@check
def settings(page):
    """settings, and traces that are picked or dropped; what is wrong with one is told with its offset"""
    page.open(PAGE)
    page.click("summary")
    for name, value, ask, wanted in (("area", "1", "document.querySelector('#pic-new canvas').width", 256), ("area", "", "document.querySelector('#pic-new canvas').width", 160),
                                     ("table", "0", "desk.app.film.table", 0), ("table", "1", "desk.app.film.table", 1), ("theme", "dark", "document.documentElement.dataset.theme", "dark"),
                                     ("theme", "", "document.documentElement.dataset.theme ?? 'none'", "none")):
        page.ask("(id, value) => { const s = document.getElementById(id); s.value = value; s.dispatchEvent(new Event('change')); }", name, value)
        page.wait(f"({ask}) === {json.dumps(wanted)}")
    assert page.run("[...document.getElementById('machine').options].map((option) => option.value)") == ["handheld", "home machine"]
    page.key("Escape", 27)
    assert not page.run("document.getElementById('settings').open")
    node = page.call("DOM.getDocument")["root"]["nodeId"]
    field = page.call("DOM.querySelector", nodeId=node, selector="#file")["nodeId"]
    page.call("DOM.setFileInputFiles", nodeId=field, files=[str(native.ROOT / "tests/traces/sprites.trace")])
    page.wait("document.getElementById('file-name').textContent === 'sprites.trace'")
    cases = {b"PR~XX\0\0LS\0": "byte 3, record 2: no record begins with the bytes 58 58", b"LS\0LS\xffLS\0": "byte 3, record 2: a step of area 255, and there is no such area",
             b"PR~PW\xbf": "byte 3, record 2: the record is cut: the trace ends in it", b"": "", b"P": "byte 0, record 1: the record is cut: the trace ends in it",
             b"\x89PNG\r\n": "byte 0, record 1: no record begins with the bytes 89 50"}
    shown = ""
    for number, (data, wanted) in enumerate(cases.items()):
        path = FOLDER / f"dropped-{number}.trace"
        path.write_bytes(data)
        for kind in ("dragEnter", "dragOver", "drop"):
            page.call("Input.dispatchDragEvent", type=kind, x=200, y=200, data={"items": [], "files": [str(path)], "dragOperationsMask": 1})
        # of one that begins with what is no record nothing is shown, and what was open stays
        kept = wanted.startswith("byte 0,")
        shown = shown if kept else path.name
        page.wait(f"document.getElementById('problem-text').textContent.startsWith({json.dumps(path.name)})" if kept else f"document.getElementById('file-name').textContent === {json.dumps(path.name)}")
        assert page.run("document.getElementById('file-name').textContent") == shown
        said = page.run("document.getElementById('problem').hidden ? '' : document.getElementById('problem-text').textContent")
        assert (said.startswith(f"{path.name}: {wanted}") if wanted else said == ""), (data, said)
        assert not wanted or said.endswith(" What was open stays." if kept else " What stands before it is shown."), said
        if wanted:
            error = native.records.whats_wrong(data, int(re.search(r"byte (\d+)", wanted).group(1)))
            assert wanted.endswith(error), error
    script = FOLDER / "some.desk"
    script.write_text("steps 1\n")
    page.call("DOM.setFileInputFiles", nodeId=field, files=[str(script)])
    page.wait("document.getElementById('problem-text').textContent.startsWith('some.desk is a script.')")
    page.click("#problem-close")
    assert page.run("document.getElementById('problem').hidden")
    return f"{len(cases)} dropped"


@check
def long(page):
    """a trace of a million records: the page stays awake, tells its progress, and can be stopped"""
    page.open(PAGE)
    path = FOLDER / "million.trace"
    some = (native.ROOT / "tests/traces/sprites.trace").read_bytes()
    body = native.records.step(0) * 3 + native.records.write(0xBF, 0x12, 0x88)
    path.write_bytes(some + body * (1_000_000 // 5))
    page.run("""(() => { globalThis.turns = []; let last = performance.now();
      const tick = () => { const now = performance.now(); turns.push(now - last); last = now; globalThis.ticking = requestAnimationFrame(tick); }; tick(); })()""")
    node = page.call("DOM.getDocument")["root"]["nodeId"]
    field = page.call("DOM.querySelector", nodeId=node, selector="#file")["nodeId"]
    page.call("DOM.setFileInputFiles", nodeId=field, files=[str(path)])
    page.wait("!document.getElementById('busy').hidden && document.getElementById('busy-bar').value > 0")
    page.click("#busy-stop")
    page.wait("document.getElementById('busy').hidden")
    assert page.run("document.getElementById('file-name').textContent") == "split-old.desk", "what was open stays"
    began = time.monotonic()
    page.call("DOM.setFileInputFiles", nodeId=field, files=[str(path)])
    page.wait("document.getElementById('file-name').textContent === 'million.trace'", 300)
    ran = time.monotonic() - began
    page.wait("desk.app.lister !== null", 300)
    listed = time.monotonic() - began
    page.run("cancelAnimationFrame(ticking)")
    turns = page.run("turns.slice(2)")
    # one that sleeps would have nearly all of the time in one turn; others at work on this machine make some of them long
    asleep = sum(turn for turn in turns if turn > 400) / sum(turns)
    assert asleep < 0.25, f"{asleep:.0%} of the time in turns of more than 400 ms"
    count = page.run("desk.app.film.trace.count")
    assert count >= 1_000_000, count
    # anywhere in it, at once
    took = page.run("""(() => { desk.app.view(document.getElementById('tab-look')); const took = [];
      for (let k = 1; k < 20; k++) { const began = performance.now(); desk.app.look.toStep(Math.floor(desk.app.film.trace.steps * k / 20)); desk.app.look.update(); took.push(performance.now() - began); }
      return took.sort((a, b) => a - b)[9]; })()""")
    assert took < 250, f"{took:.0f} ms to go to a step"
    path.unlink()
    return f"{count:,} records: shown after {ran:.1f} s, listed after {listed:.1f} s, {len(turns) / sum(turns) * 1000:.0f} pictures of the page a second meanwhile, {took:.0f} ms to any step"


@check
def speed(page):
    """pictures a second while L is dragged, and the size of the file"""
    size = PAGE.stat().st_size
    assert size < LARGEST, f"{size:,} bytes"
    page.open(PAGE)
    page.call("Performance.enable", timeDomain="threadTicks")
    work = lambda: next(metric["value"] for metric in page.call("Performance.getMetrics")["metrics"] if metric["name"] == "TaskDuration")  # noqa: E731
    best = (0, 0)
    for _ in range(3):
        before = work()
        shown, seconds = page.run("""(async () => {
          const slider = document.getElementById('line'), { whatif } = desk.app, before = whatif.painted, began = performance.now();
          let at = 24, up = 1;
          while (performance.now() - began < 1000) {
            slider.value = at; slider.dispatchEvent(new Event('input', { bubbles: true }));
            at += up; if (at > 190 || at < 24) up = -up;
            await new Promise((done) => requestAnimationFrame(done));
          }
          return [whatif.painted - before, (performance.now() - began) / 1000];
        })()""")
        best = max(best, (shown / seconds, 1000 * (work() - before) / shown))
    # where others are at work on this machine, by the work of a picture: at most half of the time that there is for it
    assert best[0] >= PICTURES_A_SECOND or best[1] <= 500 / PICTURES_A_SECOND, f"{best[0]:.0f} pictures a second, {best[1]:.1f} ms of work each"
    return f"{best[0]:.0f} pictures a second, {best[1]:.1f} ms of work each; the file has {size:,} bytes"


@check
def narrow(page):
    """at 400 pixels of width, and at 320, nothing goes past the edge, in either view and in every panel, light and dark"""
    count = 0
    for width, touch in ((400, True), (320, True), (1280, False)):
        for dark in (False, True):
            page.size(width, 900, dark, touch)
            page.open(PAGE)
            for view in ("tab-whatif", "tab-look"):
                page.run(f"desk.app.view(document.getElementById('{view}'))")
                for panel in ("Pixel", "Writes", "Registers", "Sprites", "Tiles", "Palette", "Interrupts") if view == "tab-look" else ("",):
                    if panel:
                        page.run(f"desk.app.look.panels.choose(document.getElementById('panel-{panel}'))")
                    settled(page)
                    wide = page.run("document.scrollingElement.scrollWidth")
                    assert wide <= width, f"{view} {panel}: {wide} pixels wide at {width}"
                    count += 1
    page.size(1280, 900)
    return f"{count} views"


@check
def touched(page):
    """a finger: L, a tab, a pixel"""
    page.size(400, 900, False, True)
    page.open(PAGE)

    def tap(selector, across=0.5, down=0.5):
        box = page.ask("(s) => { const e = document.querySelector(s); e.scrollIntoView({block: 'center'}); const b = e.getBoundingClientRect(); return [b.left, b.top, b.width, b.height]; }", selector)
        point = [{"x": box[0] + across * box[2], "y": box[1] + down * box[3]}]
        page.call("Input.dispatchTouchEvent", type="touchStart", touchPoints=point)
        page.call("Input.dispatchTouchEvent", type="touchEnd", touchPoints=[])
        settled(page)

    tap("#line", 0.25)
    line = page.run("desk.app.whatif.question.line")
    assert 55 < line < 72, line
    tap("#tab-look")
    page.wait("!document.getElementById('look').hidden")
    tap("#surface", 0.5, 0.5)
    page.wait("desk.app.look.cursor !== null")
    cursor = page.run("desk.app.look.cursor")
    assert abs(cursor["row"] - 72) < 2 and abs(cursor["column"] - 80) < 2, cursor
    small = page.run("[...document.querySelectorAll('header button, #whatif button, .buttons button, select, input[type=number]')].filter((e) => e.offsetParent && e.getBoundingClientRect().height < 34).map((e) => e.id)")
    assert not small, f"too small for a finger: {small}"
    page.size(1280, 900)
    return f"L {line}"


@check
def names(page):
    """every control has a name, and every text stands out from its ground, light and dark"""
    roles = {"button", "slider", "spinbutton", "textbox", "combobox", "checkbox", "radio", "tab", "DisclosureTriangle", "progressbar", "menulistpopup"}
    count, least = 0, 99
    for dark in (False, True):
        page.size(1280, 900, dark)
        page.open(PAGE)
        page.run("document.getElementById('settings').open = true")
        for view, panels in (("tab-whatif", ("",)), ("tab-look", ("Pixel", "Writes", "Registers", "Sprites", "Tiles", "Palette", "Interrupts"))):
            page.run(f"desk.app.view(document.getElementById('{view}'))")
            for panel in panels:
                if panel:
                    page.run(f"desk.app.look.at({{row: 66, column: 3, pinned: true}}), desk.app.look.panels.choose(document.getElementById('panel-{panel}'))")
                settled(page)
                for node in page.call("Accessibility.getFullAXTree")["nodes"]:
                    if node.get("role", {}).get("value") in roles and not node.get("ignored"):
                        assert node.get("name", {}).get("value", "").strip(), f"{view} {panel}: a {node['role']['value']} has no name: {node}"
                        count += 1
                told = page.run(CONTRAST)
                assert told[0] >= 4.5, f"{view} {panel}, {'dark' if dark else 'light'}: contrast {told[0]:.2f}: {told[1]}"
                least = min(least, told[0])
    page.size(1280, 900)
    return f"{count} controls, the least contrast {least:.1f}"


CONTRAST = """(() => {
  const parse = (text) => { const c = document.createElement('canvas').getContext('2d'); c.fillStyle = text; c.fillRect(0, 0, 1, 1); return [...c.getImageData(0, 0, 1, 1).data]; };
  const light = ([r, g, b]) => { const f = (v) => (v /= 255) <= 0.03928 ? v / 12.92 : ((v + 0.055) / 1.055) ** 2.4; return 0.2126 * f(r) + 0.7152 * f(g) + 0.0722 * f(b); };
  let worst = [99, ''];
  for (const e of document.querySelectorAll('body *')) {
    const own = [...e.childNodes].some((n) => n.nodeType === 3 && n.textContent.trim());
    if (!own || !e.offsetParent || e.closest('script, [disabled], [data-colour]')) continue;
    let ground = null;
    for (let at = e; at && !ground; at = at.parentElement) { const c = parse(getComputedStyle(at).backgroundColor); if (c[3] === 255) ground = c; }
    const a = light(parse(getComputedStyle(e).color)), b = light(ground ?? [255, 255, 255]);
    const ratio = (Math.max(a, b) + 0.05) / (Math.min(a, b) + 0.05);
    if (ratio < worst[0]) worst = [ratio, e.outerHTML.slice(0, 120)];
  }
  return worst;
})()"""


@check
def given(page):
    """`desk page` puts a script or a trace in the page, with the script's text"""
    path = FOLDER / "given.html"
    said = native.desk("page", native.ROOT / "docs/scripts/flicker.desk", "-o", path)
    assert said.startswith(f"{path}: a page with ") and path.stat().st_size < LARGEST, said
    page.open(path)
    assert page.run("document.getElementById('file-name').textContent") == "flicker.desk"
    page.click("#tab-look")
    page.click("#panel-Script")
    assert page.run("document.getElementById('panel').textContent") == (native.ROOT / "docs/scripts/flicker.desk").read_text()
    assert not page.wrong(), page.wrong()
    native.desk("page", native.ROOT / "tests/traces/layers.trace", "-o", path, "--table", "0")
    page.open(path)
    assert page.run("[document.getElementById('file-name').textContent, desk.app.film.table, document.getElementById('panel-Script').hidden].join()") == "layers.trace,0,true"
    assert page.run("desk.app.whatif.answer !== null")
    return "both"


def damaged(old, new):
    """A page with this part of its code changed."""
    text = PAGE.read_text(encoding="utf-8")
    assert text.count(old) == 1, f"{text.count(old)} times: {old}"
    path = FOLDER / "damaged.html"
    path.write_text(text.replace(old, new), encoding="utf-8")
    return path


@check
def caught(page):
    """slips in a copy of the page: reasons that are not the library's are told as such and nothing else is, and the comparisons above find the others"""
    data = native.trace(native.ROOT / "docs/scripts/flicker.desk")
    page.open(damaged("MOST = 8;", "MOST = 7;"))
    opened(page, data)
    page.run("desk.app.view(document.getElementById('tab-look')), desk.app.look.at({ row: 44, column: 101, pinned: true }), desk.app.look.update()")
    for panel in ("Pixel", "Sprites"):
        page.run(f"desk.app.look.panels.choose(document.getElementById('panel-{panel}'))")
        said = page.run("document.getElementById('panel').textContent")
        assert "DISAGREE WITH THE LIBRARY" in said and "tile" not in said, said
    page.open(damaged("by[row] > place.step", "by[row] > place.step + 1"))
    assert page.run("document.getElementById('why').textContent").startswith("THE PAGE'S REASONS DISAGREE WITH THE LIBRARY"), "rows"
    for old, new in (("canvas.layers.set(canvas.row.bytes, row * canvas.columns)", "canvas.layers.set(canvas.row.bytes, (row ^ 1) * canvas.columns)"),
                     ("putImageData(image, 0, 0)", "putImageData(image, 0, 1)")):
        page.open(damaged(old, new))
        opened(page, data)
        assert same_frames(page, data, *native.frames(data)), f"not caught: {new}"
    return "4 of them"


HOME = native.library.HOME


def homes():
    """Names and bytes of traces for the home machine: of every script of docs, of tests/desk/home-corners.desk, and random ones."""
    paths = native.scripts(True) + [native.ROOT / "tests" / "desk" / "home-corners.desk"] + sorted((FOLDER / "home").glob("*.trace"))
    return [(path, native.trace(path)) for path in paths]


def chosen(page, name):
    """The page stands open on this machine."""
    page.ask("(name) => { const s = document.getElementById('machine'); s.value = name; s.dispatchEvent(new Event('change')); }", name)
    page.wait(f"desk.app.film.machine.name === {json.dumps(name)}")


@check
def home(page):
    """the home machine: every frame of every script and of random traces has the native library's pixels and layers, by either line table, and the last one is that of home-snapshot"""
    page.open(PAGE)
    chosen(page, "home machine")
    assert page.run("[document.getElementById('machine').disabled, document.getElementById('area').disabled].join()") == "false,true"
    count, layers = 0, set()
    for path, data in homes():
        opened(page, data, path.name)
        for table in (0, 1):
            changed(page, "table", str(table))
            seen, wanted = native.frames(data, table, None, HOME)
            wrong = same_frames(page, data, seen, wanted)
            assert not wrong, f"{path.name}, table {table}: {wrong}"
            count += len(wanted)
        assert wanted[-1][0] == native.programs.picture("home-snapshot", data).data, f"{path.name}: home-snapshot draws another picture"
        layers |= set(wanted[-1][1])
    assert layers >= {0, 1, 2, 64, 65}, layers
    return f"{len(homes())} of them, {count} frames"


@check
def home_words(page):
    """the home machine: lists, interrupts, pixels and sprites are told as the desk tells them with --home, and no row disagrees with the library"""
    page.open(PAGE)
    chosen(page, "home machine")
    rows = places = lines = 0
    pick = random.Random(1)
    for path, data in homes():
        made = FOLDER / "home.trace"
        made.write_bytes(data)
        opened(page, data, path.name)
        here = page.run("desk.app.lister.lines.map((line) => line.statement.padEnd(24) + '  # ' + line.words + '\\n').join('')")
        there, _ = native.listing.listed(native.records.Trace(data, "trace", HOME), 1)
        assert here == there, f"{path.name}: another list"
        lines += there.count("\n")
        here = page.run("desk.interruptFrames(desk.app.film).map(({ name, lines }) => [name, lines.map(({ line }) => line)])")
        said = [f"{name}: " + (f"{'line' if len(found) == 1 else 'lines'} {native.difference.runs(found)}" if found else "none") for name, found in here]
        assert said == native.desk("interrupts", made, "--home").rstrip("\n").split("\n"), (path.name, said)
        wrong = page.run("(() => { const { look } = desk.app; look.toFrame(look.frames.length); look.update(); return Array.from({ length: 192 }, (_, row) => look.toldRow(row).told.wrong).filter((words) => words); })()")
        assert not wrong, f"{path.name}: {wrong[0]}"
        rows += 192
        # of a script with no steps the page stands at its beginning, the desk at its end
        for row, column in [(46, 3), (63, 3), (65, 0), (0, 8), (191, 255)] + [(pick.randrange(192), pick.randrange(256)) for _ in range(4)] if b"LS\0" in data else []:
            here = page.ask("""(row, column) => {
              const { look } = desk.app, { told, when } = look.toldRow(row);
              told.samePixel(look.inspector.device, column);
              return [told.wrong, desk.pixelText(told, column, when), desk.spritesText(told, when)];
            }""", row, column)
            there = ["", native.desk("pixel", made, row, column, "--home").rstrip("\n"), native.desk("sprites", made, row, "--home").rstrip("\n")]
            assert here == there, f"{path.name}, row {row}, column {column}:\n" + "\n".join(f"{a}\n-- and not\n{b}" for a, b in zip(here, there) if a != b)
            places += 1
    return f"{lines} lines, {rows} rows, {places} places"


@check
def home_questions(page):
    """the home machine: what if: the sentence, and the trace with the change in it, are those of `desk differ --home`"""
    page.open(PAGE)
    chosen(page, "home machine")
    path, made, old = native.ROOT / "docs" / "scripts" / "home-bar.desk", FOLDER / "home-changed.trace", FOLDER / "home-old.trace"
    data = native.trace(path)
    old.write_bytes(data)
    opened(page, data, path.name)
    assert page.run("desk.app.whatif.question.value.length") == 1, "a colour of the home machine has one byte"
    whys = {(2, 90): "The step that set the counter to 90 has drawn row 90 already, and that row keeps what it has. Row 91,", (2, 0): "The step that set the counter to 0 has drawn row 0 already"}
    count = 0
    for frame, line, kind, index, value in [(2, line, "colour", 0, [0x3F]) for line in (0, 1, 90, 189, 190)] + [(1, 90, "colour", 0, [0x3F]), (2, 90, "register", 0, [0x60]), (2, 90, "register", 7, [0x07]), (2, 90, "register", 8, [0x31]),
                                            (1, 90, "register", 9, [0x31]), (2, 90, "memory", 0x3F80, [0x40]), (1, 190, "colour", 23, [0x30]), (1, 191, "colour", 0, [0x3F])]:
        asked = {"line": line, "frame": frame, "seen": 2, "kind": kind, "index": index, "value": value}
        told = page.ask("""(question) => {
          const { whatif } = desk.app;
          whatif.set(question);
          whatif.update();
          return { text: whatif.text(), head: document.getElementById("head").textContent, why: document.getElementById("why").textContent, trace: whatif.answer && btoa(String.fromCharCode(...whatif.newTrace())) };
        }""", asked)
        at = native.insertion(data, frame, line, HOME)
        made.write_bytes(data[:at] + native.change(kind, index, value) + data[at:])
        assert told["trace"] and base64.b64decode(told["trace"]) == made.read_bytes(), f"{asked}: another trace: {told}"
        said = re.sub(r"^frame \d+: ", "", native.desk("differ", old, made, "--home", "--frame", 2).rstrip("\n"))
        assert told["text"] == said, f"{asked}: the page says\n{told['text']}\nand the desk\n{said}"
        assert "DISAGREE" not in told["why"] and told["why"].startswith(whys.get((frame, line), "")), told
        if (frame, line, kind) == (2, 90, "colour"):
            assert told["head"] == "Rows 91 to 191 change in frame 2.", told
        if (kind, index) == ("register", 7):
            assert "No rule reads" not in told["why"], told
        count += 1
    return f"{count} places"


@check
def home_panels(page):
    """the home machine: its panels, its legend, its settings, a page with its script in it; and a script for the other machine is told"""
    path = FOLDER / "home-given.html"
    native.desk("page", native.ROOT / "docs" / "scripts" / "home-fill.desk", "-o", path)
    page.open(path)
    text = lambda name: page.run(f"document.getElementById({json.dumps(name)}).textContent")  # noqa: E731
    problem = lambda: page.run("document.getElementById('problem').hidden ? '' : document.getElementById('problem-text').textContent")  # noqa: E731
    assert page.run("[desk.app.film.machine.name, document.getElementById('machine').value, document.getElementById('file-name').textContent].join()") == "home machine,home machine,home-fill.desk"
    assert "lines 0 to 191 draw rows 0 to 191" in text("line-band") and problem() == "", problem()
    page.click("#tab-look")
    typed(page, "look-frame", "2")
    assert page.run("[document.getElementById('screen').width, document.getElementById('screen').height].join()") == "256,192"
    focus(page, "layers")
    page.key("End", 35)
    settled(page)
    legend = page.run("[...document.querySelectorAll('#legend span')].map((e) => e.textContent)")
    assert legend == ["background", "the fill of columns 0 to 7", "sprite 0", "sprite 2", "sprite 3"], legend
    shown = page.run("[...document.getElementById('screen').getContext('2d').getImageData(3, 63, 1, 1).data]")
    assert shown == [0, 0, 0x88, 255], shown
    page.key("Home", 36)
    page.run("desk.app.look.at({ row: 63, column: 3, pinned: true })")
    for panel, words in (("Pixel", ("Row63", "Column3", "2: the fill of columns 0 to 7", "then the fill was laid over it", "In the palette15", "vdp_home_pixel say the same")),
                         ("Registers", ("fill on, lock of rows 0 to 15 off", "the fill has colour 16")), ("Sprites", ("6 under the fill", "2 sprites on the row")),
                         ("Writes", ("the fill has colour 16", "lines 0 to 191 draw rows 0 to 191")), ("Script", ("include home-scene.desk",))):
        page.run(f"desk.app.look.panels.choose(document.getElementById('panel-{panel}'))")
        settled(page)
        for said in words:
            assert said in text("panel"), (panel, said, text("panel"))
    page.click("#panel-Palette")
    page.click("[data-colour='23']")
    assert "Bytes0F" in text("colour-facts") and "red 255, green 255, blue 0" in text("colour-facts"), text("colour-facts")
    page.click("#panel-Tiles")
    settled(page)
    sheet = page.run("(() => { const c = document.querySelector('#panel canvas').getContext('2d'); return [...c.getImageData(8, 0, 1, 1).data, ...c.getImageData(2, 128, 1, 1).data]; })()")
    assert sheet == [170, 85, 0, 255, 255, 255, 0, 255], sheet
    # the same bytes on the other machine, and back
    page.run("document.getElementById('settings').open = true")
    chosen(page, "handheld")
    assert problem() == "home-fill.desk is a script for the home machine. Here its trace runs on the other one, where its bytes mean something else.", problem()
    chosen(page, "home machine")
    assert problem() == "", problem()
    page.open(PAGE)
    chosen(page, "home machine")
    assert problem().startswith("split-old.desk is a script for the handheld."), problem()
    areas = (native.ROOT / "tests" / "traces" / "areas.trace").read_bytes()
    opened(page, areas, "areas.trace")
    assert problem().startswith(f"areas.trace: byte 3, record 2: {native.records.whats_wrong(areas, 3, HOME)}."), problem()
    # nothing goes past the edge
    for width in (400, 1280):
        page.size(width, 900, False, width < 600)
        page.open(path)
        for view in ("tab-whatif", "tab-look"):
            page.run(f"desk.app.view(document.getElementById('{view}'))")
            settled(page)
            wide = page.run("document.scrollingElement.scrollWidth")
            assert wide <= width, f"{view}: {wide} pixels wide at {width}"
    page.size(1280, 900)
    return "shown"


@check
def home_caught(page):
    """the home machine: slips in a copy of the page are caught: reasons that are not the library's are told as such"""
    data = native.trace(native.ROOT / "tests" / "desk" / "home-corners.desk")
    slips = 0
    for old, new in (("registers[7] & 15", "registers[7] & 7"), ("row < 16 ? 0", "row < 8 ? 0"), ("x >= 192 ? row", "x >= 184 ? row"), ("edged(byte - early, 256)", "edged(byte - early - 8, 256)"),
                     ("this.layers.fill(LAYER_FILLED, 0, 8)", "this.layers.fill(0, 0, 8)")):
        page.open(damaged(old, new))
        chosen(page, "home machine")
        opened(page, data)
        wrong = page.run("(() => { const { look } = desk.app; look.toFrame(2); look.update(); return Array.from({ length: 192 }, (_, row) => look.toldRow(row).told.wrong).filter((words) => words); })()")
        assert wrong and wrong[0].startswith("THE PAGE'S REASONS DISAGREE WITH THE LIBRARY") and "the home machine, row" in wrong[0], (new, wrong[:1])
        slips += 1
    return f"{slips} of them"


def main():
    page, failed = browser.Browser(), 0
    try:
        page.size(1280, 900)
        page.open(PAGE)
        for function in CHECKS:
            if ONLY and function.__name__ not in ONLY:
                continue
            began = time.monotonic()
            try:
                said = function(page)
                wrong = page.wrong()
                assert not wrong, f"the page complains: {wrong}"
                print(f"ok: {function.__doc__}: {said} ({time.monotonic() - began:.1f} s)", flush=True)
            except (AssertionError, browser.Failed) as error:
                failed += 1
                print(f"{error}\nFAILED: {function.__doc__}", flush=True)
                if ONLY:
                    traceback.print_exc()
    finally:
        page.close()
    sys.exit(1 if failed else 0)


main()
