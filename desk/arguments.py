"""The words of a call, and the exit status: 0 done, 1 the input is bad, 2 something could not be read or written."""
import argparse
import re
import sys

import commands
import errors
import files
import header
import language
import line


class Parser(argparse.ArgumentParser):
    """What is wrong with the words of a call is bad input: status 1."""

    def error(self, message):
        raise errors.Bad(f"{self.prog}: {errors.printable(message)} (--help tells more)")


def count_of(least, most=None):
    def number(text):
        value = None
        if len(text) <= line.MOST_DIGITS and re.fullmatch(r"[0-9]+|0x[0-9A-Fa-f]+", text):
            value = int(text, 16 if "x" in text else 10)
        if value is None or value < least or (most is not None and value > most):
            raise argparse.ArgumentTypeError(f"`{errors.printable(text)}` is no number from {least} " + (f"to {most}" if most is not None else "up"))
        return value

    return number


def parser():
    top = Parser(prog="desk", description="Ask the video chip a question in a few lines, and see the answer. docs/DESK.md has an example of each command.",
                 epilog="A TRACE is a file of records (docs/TRACES.md), a script (its name ends in .desk), or - for a trace on standard input. "
                 "Exit status: 0 done, 1 the input is bad, 2 something could not be read or written.")
    version = ".".join(str(header.NUMBERS["VERSION_" + part]) for part in ("MAJOR", "MINOR", "SMALL"))
    top.add_argument("--version", action="version", version=f"desk, for the library's face {version}")
    kinds = top.add_subparsers(dest="command", metavar="COMMAND", parser_class=Parser)

    def command(name, does, function, *traces, **more):
        sub = kinds.add_parser(name, help=does, description=does[0].upper() + does[1:] + ".", **more)
        for trace in traces:
            sub.add_argument(trace, metavar={"one": "A", "other": "B"}.get(trace, trace.upper()), nargs="?" if trace == "other" else None)
        sub.add_argument("--table", type=int, choices=commands.TABLES, default=commands.TABLES[-1], help="the line table of the device: 1, 262 steps to a pass (default), or 0, 261 steps")
        sub.add_argument("--without", action="append", metavar="LABEL", default=[], help="leave out the lines of the script that have this label" if name != "differ" else
                         "of one script, A: compare it without the lines that have this label, and with them")
        if name != "make":
            sub.add_argument("--home", action="store_true", help="on the home machine (docs/HOME.md)")
        sub.set_defaults(function=function)
        return sub

    def output(sub, what, required=True):
        sub.add_argument("-o", dest="output", metavar="FILE", required=required, help=f"where {what} goes; - is standard output")

    def looks(sub, scale=1, grid=True, rulers=True):
        sub.add_argument("--scale", type=count_of(1), default=scale, metavar="N", help=f"draw each pixel N times across and down (default {scale})")
        if grid:
            sub.add_argument("--grid", action="store_true", help="a line between any two tiles of 8 x 8 pixels; it covers no pixel")
        if rulers:
            sub.add_argument("--rulers", action="store_true", help="rows, columns, and what the line counter reads when each row is drawn, written beside the picture")

    def running(sub, frames=True):
        sub.add_argument("--progress", action="store_true", help="tell the progress from the start, not only after two seconds")
        if frames:
            sub.add_argument("--frame", type=count_of(1), metavar="N", help="the frame of the Nth pass that draws, from 1")
            sub.add_argument("--area", type=count_of(0), metavar="N", help="the area to look at: 0 visible, 1 effective, 2 with true edges (default: the one that is drawn)")

    sub = command("make", "make a trace of a script", commands.make, "script", epilog=language.HELP, formatter_class=argparse.RawDescriptionHelpFormatter)
    output(sub, "the trace")
    sub = command("list", "tell in words what each record of a trace does; what it prints is a script that makes the trace again", commands.list_trace, "trace")
    sub.add_argument("--each", action="store_true", help="every record on a line of its own")
    sub = command("interrupts", "tell the lines that interrupt, a line for each frame", commands.interrupts, "trace")
    sub = command("show", "draw the frames of a trace, several of them as one sheet", commands.show, "trace")
    output(sub, "the PNG")
    looks(sub)
    sub.add_argument("--layers", action="store_true", help="each pixel coloured by the layer that owns it, with a legend below")
    sub.add_argument("--check", action="store_true", help="also run build/bin/snapshot, layers or home-snapshot, and hold its picture to the last frame")
    running(sub)
    sub = command("differ", "tell which pixels differ between two traces, or with --without between a script without some lines and with them", commands.differ, "one", "other")
    output(sub, "a PNG with the changed pixels marked", False)
    looks(sub)
    sub.add_argument("--layers", action="store_true", help="compare the layers that own the pixels, not the colours")
    sub.add_argument("--sides", action="store_true", help="put both pictures beside the marked one")
    sub.add_argument("--brief", action="store_true", help="one line a frame: how many pixels, in which rows")
    running(sub)
    sub = command("pixel", "tell what a pixel is, and why: its colour, its layer, and what became of each sprite that reaches it", commands.pixel, "trace")
    sub.add_argument("row", type=count_of(0), metavar="ROW")
    sub.add_argument("column", type=count_of(0), metavar="COLUMN")
    sub.add_argument("--now", action="store_true", help="as it would be drawn at the end of the trace, and not as it was drawn")
    running(sub)
    sub = command("sprites", "tell which sprites are on a row, in order, with the ninth marked; with no row, on every row", commands.sprites, "trace")
    sub.add_argument("row", type=count_of(0), metavar="ROW", nargs="?")
    sub.add_argument("--sprite", type=count_of(0, 63), metavar="N", help="the rows of this sprite, and its place on each")
    sub.add_argument("--now", action="store_true", help="as it would be drawn at the end of the trace, and not as it was drawn")
    running(sub)
    sub = command("tiles", "draw all tiles as they stand at the end of a trace", commands.tiles, "trace")
    output(sub, "the PNG")
    looks(sub, rulers=False)
    sub.add_argument("--fresh", action="store_true", help="with the colours of the palette as it is, not those of the last row")
    running(sub, False)
    sub = command("palette", "tell the 32 colours as they stand at the end of a trace", commands.palette, "trace")
    output(sub, "a PNG of them", False)
    looks(sub, 16, False, False)
    running(sub, False)
    sub = command("page", "put a trace in a page that opens in a browser (docs/PAGE.md)", commands.page, "trace")
    output(sub, "the page")
    return top


def parsed(words):
    """The options of a call. B of `differ`, which may be missing, may stand behind options too, which argparse does not take."""
    top = parser()
    options, rest = top.parse_known_args(words)
    if options.command == "differ" and options.other is None and len(rest) == 1 and not rest[0].startswith("--"):
        options.other, rest = rest[0], []
    if rest:
        top.error(f"not taken: {' '.join(rest)}")
    return options


def called(words):
    """Does what the words say; the exit status."""
    try:
        if sys.stdout is None:
            raise errors.Failed("desk: standard output is closed")
        files.begin()
        options = parsed(words)
        if not options.command:
            raise errors.Bad("desk: a command is missing (--help tells which there are)")
        commands.Said.to_error, commands.Said.notes = getattr(options, "output", None) == "-", set()
        if getattr(options, "output", None) == "":
            raise errors.Bad("desk: -o: the name of a file is missing behind it")
        options.function(options)
        sys.stdout.flush()
        return 0
    except SystemExit as end:  # --help and --version
        return flushed(end.code or 0)
    except language.Refused as error:
        status, text = error.status, str(error)
    except errors.Bad as error:
        status, text = 1, str(error)
    except errors.Failed as error:
        status, text = 2, str(error)
    except BrokenPipeError:
        status, text = 2, ""
    except OSError as error:
        status, text = 2, f"desk: standard output: {error.strerror or error}"
    except KeyboardInterrupt:
        status, text = 2, "desk: stopped"
    except MemoryError:
        status, text = 2, "desk: there is not enough memory for this"
    ended(text)
    return status


def flushed(status):
    try:
        sys.stdout.flush()
        return status
    except OSError as error:
        print(f"desk: standard output: {error.strerror or error}", file=sys.stderr)
        return 2


def ended(text):
    """What was printed so far goes out, then what went wrong; neither may fail once more."""
    try:
        sys.stdout.flush()
    except (OSError, AttributeError):
        pass
    if text:
        print(text, file=sys.stderr)
