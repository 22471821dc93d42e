"""The subcommands: what each does and prints. Which words each takes is in arguments.py."""
import sys

import difference
import errors
import files
import frame_sprites
import header
import language
import layers
import lettering
import library
import listing
import machines
import page as pages
import pictures
import play
import png
import programs
import records
import row as rows
import rules

TABLES = (library.N["OLD_TABLE"], library.N["CHART_TABLE"])


# ---- what several of them share
class Said:
    """Where words go: standard output, or standard error where a file goes to standard output."""

    to_error, notes = False, set()


def say(text):
    print(text, file=sys.stderr if Said.to_error else sys.stdout)


def note(text):
    """A word to the author, once, on standard error."""
    if text not in Said.notes:
        Said.notes.add(text)
        sys.stdout.flush()  # so that both stand in their order, where they go to one place
        print(f"desk: note: {text}", file=sys.stderr)


def many(count, word):
    return f"{count:,} {word}{'' if count == 1 else 's'}"


def shown(name):
    return errors.shown(name)


def scripted(options, name, wanted, without):
    """What a script makes, with its notes told."""
    made = language.script(name, options.table, wanted, without)
    for text in made.notes:
        note(text)
    return made


def machine_of(options):
    """The machine that is asked for."""
    return machines.machine(options.home)


def trace_bytes(options, name, without):
    """The bytes of a trace; of a script (NAME.desk) those that it makes, but for the lines of these labels."""
    if files.is_script(name):
        return scripted(options, name, machine_of(options), without).trace
    if without:
        raise errors.Bad(f"desk: {shown(name)}: --without goes with a script, whose name ends in {files.SCRIPT}: a trace has no labels")
    return files.read(name, files.MOST_TRACE)


def loaded(options, name, without=None):
    """The trace that is named, for the machine that is asked for."""
    data = trace_bytes(options, name, options.without if without is None else without)
    return records.Trace(data, shown(name), machine_of(options).chip)


def played(options, name, keep=None, watch=None, without=None):
    """The trace that is named, run to its end."""
    return play.Run(loaded(options, name, without), options.table, keep, play.Progress(options.progress), watch)


def area_of(options, run):
    if options.area is not None and options.home:
        raise errors.Bad(f"desk {options.command}: --home and --area do not go together: the home machine has one picture, and no areas")
    if options.area is not None and not library.is_area(options.area):
        raise errors.Bad(f"desk: area {options.area}: the library has no such area")
    return run.area(options.area)


def save(name, picture, what):
    files.write(name, png.written(picture.width, picture.height, picture.data))
    if name != "-":
        say(f"{shown(name)}: {what}")


def finished(options, found, screen, across=None, owners=()):
    """Pictures as one file shows them: scaled, with what was asked for around them; and where they are by layers, these with their colours below."""
    pictures.fits(found[0], len(found), options.scale)
    drawn = [pictures.scaled(picture, options.scale, options.grid) for picture in found]
    if options.rulers:
        drawn = [lettering.ruled(picture, screen, options.scale, options.grid) for picture in drawn]
    sheet = pictures.sheet(drawn, across)
    there = set().union(*owners)
    return lettering.with_legend(sheet, there, options.scale) if there else sheet


def has_frame(count, number, name):
    if number is not None and number > count:
        raise errors.Bad(f"desk: {name}: frame {number}, and there {'is' if count == 1 else 'are'} {many(count, 'frame')}")


def plain(frame, by_layers, colours=layers.COLOURS):
    return pictures.of_layers(frame.size, frame.layers, colours) if by_layers else pictures.of_pixels(frame.size, frame.pixels)


# ---- make and list
def make(options):
    made = scripted(options, options.script, None, options.without)
    trace = made.trace
    files.write(options.output, trace)
    if options.output != "-":
        found = records.Trace(trace, options.output, made.machine.chip)
        steps = sum(record.kind == records.STEP for record in found)
        say(f"{shown(options.output)}: {many(len(trace), 'byte')}, {many(found.count, 'record')}, {many(steps, 'step')} among them")
    if len(trace) > records.LIMIT:
        takers = "home-trace and home-snapshot" if made.machine.home else "trace, snapshot and layers"
        note(f"the trace has {len(trace):,} bytes. The programs {takers} take at most {records.LIMIT:,}; the desk, which goes by the library, has no limit")


def list_trace(options):
    data = trace_bytes(options, options.trace, options.without)
    broken = None
    try:
        found = records.Trace(data, shown(options.trace), machine_of(options).chip)
    except records.Broken as error:
        found, broken = error.before, error
    steps = language.PASS[options.table]
    say(f"# {shown(options.trace)}: {many(len(data), 'byte')}, {many(found.count, 'record')}; line table {options.table}, {steps} steps to a pass")
    text, notes = listing.listed(found, options.table, options.each)
    sys.stdout.write(text)
    for words in notes:
        note(words)
    if broken:
        raise broken


# ---- interrupts
def interrupts(options):
    """The lines that interrupt, a line for each frame."""
    trace = loaded(options, options.trace)
    device, tally = library.Device(options.table, trace.chip), play.Tally()
    lines, frame = [], 0

    def told(which):
        say(f"{which}: " + (f"{'line' if len(lines) == 1 else 'lines'} {difference.runs(lines)}" if lines else "none"))

    for record, answer, ended in play.walked(trace, device, tally):
        if ended:
            frame += 1
            told(f"frame {frame}")
            lines = []
        if answer and answer.interrupt:
            lines.append(device.counter)
    if tally.fresh or not frame:
        told(f"frame {frame + 1}")
    elif lines:
        told("then, before a row is drawn")


# ---- pictures
class Drawn:
    """The frames of a trace as pictures, by their numbers; how many there are, their screen, what is to be said of them, and by layers which of these there
    are."""

    def __init__(self, frames, count, screen, notes, owners=()):
        self.frames, self.count, self.screen, self.notes, self.owners = frames, count, screen, notes, owners


def drawn(options):
    trace = loaded(options, options.trace)
    run = play.Run(trace, options.table, options.frame or play.ALL, play.Progress(options.progress))
    area = area_of(options, run)
    rows_there = sum(count for number, count in run.rows_drawn.items() if run.areas[number].size == area.size)
    others = sum(run.rows_drawn.values()) - rows_there
    if not rows_there:
        note(f"no step of the trace has drawn a row of {area.named}")
    if others:
        note(f"{many(others, 'row')} of an area of another size not shown: --area chooses")
    kept, count = run.frames(area), run.count(area)
    has_frame(count, options.frame, shown(options.trace))
    if options.check:
        check(options, trace.data, area, plain(kept[count], options.layers, layers.PROGRAM))
    wanted = {number: frame for number, frame in kept.items() if options.frame in (None, number)}
    owners = [set(frame.layers) for frame in wanted.values()] if options.layers else []
    return Drawn({number: plain(frame, options.layers) for number, frame in wanted.items()}, count, machine_of(options).screens[area.number], run.notes(area, options.frame), owners)


def check(options, data, area, last):
    """The proved program of this picture draws the same."""
    known = machine_of(options).programs
    program = known.get("layers" if options.layers else str(options.table))
    if options.layers and program and options.table != TABLES[-1]:
        raise errors.Bad(f"desk show: --check: the program `{program}` goes by table {TABLES[-1]} alone")
    if not program:
        raise errors.Bad(f"desk show: --check: no program draws the home machine's {'layers' if options.layers else 'picture by table 0'}")
    if area.size != library.areas(area.chip)[0].size:
        raise errors.Bad(f"desk show: --check: `{program}` draws no {area.named}")
    if programs.picture(program, data).data != last.data:
        raise errors.Bad(f"desk: THE PICTURE OF `{program}` IS ANOTHER: believe the program, and tell us")
    say(f"checked: `{program}` draws the same")


def show(options):
    found = drawn(options)
    sheet = finished(options, list(found.frames.values()), found.screen, None, found.owners)
    size = f"{found.screen.columns} x {found.screen.rows}"
    if options.frame:
        what = f"frame {options.frame} of {found.count}, {size}"
    else:
        what = f"1 frame, {size}" if found.count == 1 else f"{found.count:,} frames of {size}, row by row"
    how = (", by layers" if options.layers else "") + machine_of(options).said
    save(options.output, sheet, what + (f", scale {options.scale}" if options.scale > 1 else "") + how)
    for words in found.notes:
        note(words)


def compared(options):
    """The two that are compared: of each its name, and its run. With --without one script is both, first without the lines of that label."""
    if options.other is None:
        if not options.without:
            raise errors.Bad("desk differ: a second trace is missing, or --without LABEL (--help tells more)")
        both = [(options.one, options.without), (options.one, [])]
    elif options.without:
        raise errors.Bad("desk differ: two traces, or one script and --without LABEL, but not both")
    else:
        both = [(options.one, []), (options.other, [])]
    return [(shown(name), played(options, name, options.frame or play.ALL, None, without)) for name, without in both]


def differ(options):
    (one_name, one_run), (other_name, other_run) = both = compared(options)
    areas = [area_of(options, run) for _, run in both]
    if areas[0].size != areas[1].size:
        raise errors.Bad(f"desk: {one_name} draws area {areas[0].number}, {other_name} area {areas[1].number}, of another size: --area chooses")
    counts = [run.count(area) for (_, run), area in zip(both, areas)]
    for (name, _), count in zip(both, counts):
        has_frame(count, options.frame, name)
    if counts[0] != counts[1]:
        note(f"{one_name} has {many(counts[0], 'frame')}, {other_name} {many(counts[1], 'frame')}: those that both have are compared")
    numbers = [options.frame] if options.frame else range(1, min(counts) + 1)
    found, owners = [], []
    for number in numbers:
        frames = [run.frames(area)[number] for (_, run), area in zip(both, areas)]
        one, other = (plain(frame, options.layers) for frame in frames)
        places = pictures.differing(one, other)
        told = difference.words(one, other, places, layers.words_at if options.layers else difference.colour_words)
        say(("" if max(counts) == 1 else f"frame {number}: ") + (told.split("\n")[0] if options.brief else told))
        if options.output:
            pictures.fits(one, (3 if options.sides else 1) * len(numbers), options.scale)
            found += ([one, other] if options.sides else []) + [pictures.marked(other, places)]
            owners += [set(frame.layers) for frame in frames] if options.layers and options.sides else []
    if options.output:
        what = ("A, B, and B" if options.sides else "B") + " with the changed pixels in magenta"
        save(options.output, finished(options, found, machine_of(options).screens[areas[0].number], 3 if options.sides else None, owners), what)
    for letter, (_, run), area in zip("AB", both, areas):
        for words in run.notes(area, options.frame):
            note(words if one_run.notes(areas[0], options.frame) == other_run.notes(areas[1], options.frame) else f"{letter}: {words}")


# ---- one row
class Watch:
    """Keeps the device as it stood when the row that is asked for was drawn, by the size of the area: in the frame that is asked for, or the last time."""

    def __init__(self, row, frame):
        self.row, self.frame, self.seen = row, frame, {}

    def __call__(self, area, row, frame, device, pixels, layers):
        if row == self.row and self.frame in (None, frame):
            self.seen[area.size] = frame, area, device.copy(), pixels, layers


def told_row(options):
    """The row that is asked for, as its frame drew it or as it would be drawn now, and in words which."""
    name, watch = shown(options.trace), Watch(options.row, options.frame)
    run = played(options, options.trace, None, watch)
    area = area_of(options, run)
    if options.row >= area.rows:
        raise errors.Bad(f"desk: row {options.row}: {area.named} has rows 0 to {area.rows - 1}")
    count = run.count(area)
    has_frame(count, options.frame, name)
    if options.now:
        return rows.Row(run.device, area, options.row), "as it would be drawn now, at the end of the trace"
    if area.size not in watch.seen:
        if options.frame:
            raise errors.Bad(f"desk: {name}: frame {options.frame} has not drawn row {options.row}")
        return rows.Row(run.device, area, options.row), "which the trace has not drawn: as it would be drawn now, at its end"
    frame, by, device, pixels, layers = watch.seen[area.size]
    told = rows.Row(device, by, options.row)
    if (told.pixels, told.layers) != (pixels, layers):
        raise errors.Bad(told.wrong("the row that was drawn is not the row as it would be drawn"))
    return told, f"as frame {frame} of {count} drew it at line {device.counter}"


def pixel(options):
    told, when = told_row(options)
    if options.column >= told.area.columns:
        raise errors.Bad(f"desk: column {options.column}: {told.area.named} has columns 0 to {told.area.columns - 1}")
    say(rows.pixel_text(told, options.column, when))


def sprites(options):
    if options.row is not None:
        if options.sprite is not None:
            raise errors.Bad("desk sprites: a row, or --sprite, but not both")
        told, when = told_row(options)
        say(rows.sprites_text(told, when))
        return
    if options.now:
        raise errors.Bad("desk sprites: --now needs a row")
    every_row(options)


def every_row(options):
    """The sprites of every row that has some, rows with the same list together; with --sprite the rows of that one, and its place in them."""
    kept = {}

    def watch(area, row, frame, device, pixels, layers):
        if not rules.view_of(area):
            raise errors.Bad(f"desk: the desk has no rules for the sprites of {area.named}")
        if options.frame in (None, frame):
            kept.setdefault((area.size, frame), {})[row] = frame_sprites.OnRow(rows.Row(device, area, row), options.sprite)

    run = played(options, options.trace, None, watch)
    area = area_of(options, run)
    has_frame(run.count(area), options.frame, shown(options.trace))
    for (size, frame), by_row in sorted(kept.items()):
        if size == area.size:
            say(f"frame {frame} of {run.count(area)}, {area.named}:")
            say(frame_sprites.words(by_row, options.sprite))
    if not any(size == area.size for size, _ in kept):
        say("the trace draws no row")


# ---- what authors look at in a debugger
def tiles(options):
    device = played(options, options.trace).device
    if options.fresh:
        device = device.settled()
    elif device.at("DIRTY"):
        note("the palette has changed since the last row was drawn, and the chip's dump has the colours from before: --fresh makes them anew")
    sheet = library.Buffer(library.N["TILESET_SIZE"])
    refused = device.dump(sheet)
    if refused:
        raise errors.Bad(f"desk: {header.refusal(refused)}")
    size = library.N["TILESET_WIDTH"], library.N["TILESET_HEIGHT"]
    picture = pictures.scaled(pictures.of_pixels(size, bytes(sheet.bytes)), options.scale, options.grid)
    save(options.output, picture, "tiles 0 to 255 as background in palette 0, below them the same as sprites in palette 1; 16 across")


def palette(options):
    device = played(options, options.trace).device
    size, colours = machine_of(options).palette.bytes, device.colours()
    stored = device.at("PALETTE", size * len(colours))
    if options.home:
        say("home")  # so that it is a script
    for number, (red, green, blue, _) in enumerate(colours):
        say(f"colour {number:2} = {listing.hexes(stored[size * number : size * (number + 1)])}  # red {red:3}, green {green:3}, blue {blue:3}")
    if device.at("DIRTY"):
        note("the palette has changed since the last row was drawn: the next row will show these colours")
    if options.output:
        data = b"".join(colour[:3] for colour in colours)
        save(options.output, pictures.scaled(pictures.Picture(16, 2, data), options.scale), "colours 0 to 15, below them 16 to 31")


# ---- a page
def page(options):
    name, script, at_home = options.trace, "", options.home
    if files.is_script(name):
        made = scripted(options, name, machines.home() if at_home else None, options.without)
        data, script, at_home = made.trace, files.text(name), made.machine.home
    else:
        data = trace_bytes(options, name, options.without)
    records.Trace(data, shown(name), machines.machine(at_home).chip)
    text = pages.made(pages.given(name, data, script, at_home, options.table, {})).encode("utf-8")
    files.write(options.output, text)
    if options.output != "-":
        say(f"{shown(options.output)}: a page with {shown(name)} in it, {many(len(text), 'byte')}; it opens in a browser, from disk")
