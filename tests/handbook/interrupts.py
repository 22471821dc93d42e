#!/usr/bin/env python3
"""interrupts.py [--write] PAGE: which lines interrupt, by either line table. For every value of register 10: the lines of a first pass and of a later one, as
the library's steps report them, are those of the formula, and the table of PAGE tells them (with --write it is made anew). What is written to registers 0, 1
and 10 at each reading of a pass does what the page says."""
import pathlib
import sys

from device import COMMAND, TABLES, Device, register

HEAD = "| Register 10 | Lines that interrupt | How many | In a first pass |\n|---|---|---|---|\n"
ALONE = 21  # values below have a row of their own; the others are told by their N
LAST = 193  # the last line that is counted to
END = 0xC1  # the line at which the screen ends
ON, OFF = register(0, 0x10), register(0, 0)  # line interrupts


def wrong(text):
    sys.exit(f"interrupts.py: {text}")


def lines(device):
    """The lines that interrupt, from the next step on up to FF."""
    found = []
    while True:
        if device.step().interrupt:
            found.append(device.line)
        if device.line == 255:
            return found


def first_pass(table, n, switch=ON):
    """A device that reads FF after its first pass, with register 10 at n from before it on; and the lines that have interrupted."""
    device = Device(table)
    device.write(switch + register(10, n))
    return device, lines(device)


# ---- every value
def formula(n, first, steps):
    """The lines of a first pass, which begins with line 1, or of one that begins with line 0."""
    if n == 0:
        return [*range(1 if first else 0, steps - (256 - 0xD5)), *range(0xD5, 256)]
    return [k for k in range(LAST + 1) if (k > 0 and (k - 1) % (n + 1) == 0 if first else (k + 2) % (n + 1) == 0)]


def every_value():
    """Of each value from 1 on its lines, those of a first pass and those of a later one."""
    found = {}
    for table, steps in TABLES.items():
        for n in range(256):
            device, first = first_pass(table, n)
            later, again = lines(device), lines(device)
            if first != formula(n, True, steps) or later != formula(n, False, steps) or again != later:
                wrong(f"table {table}, register 10 at {n}: in the first pass {first}, then {later}, {again}")
            if n and found.setdefault(n, (first, later)) != (first, later):
                wrong(f"register 10 at {n}: not the same by both tables")
    return found


# ---- the table
def term(times, more):
    """times × N + more, as it is printed."""
    if times == 0:
        return str(more)
    return ("" if times == 1 else str(times)) + "N" + ("" if more == 0 else f" + {more}" if more > 0 else f" − {-more}")


def short(lines):
    return f"{lines[0]}, {lines[1]}, {lines[2]} .. {lines[-1]}"


def row(found, low, high):
    """The row of these values, which have equally many lines."""
    first, later = found[low]
    if low < ALONE:
        return f"| {low} | {short(later)} | {len(later)} | {short(first)} |\n"
    count, most = len(later), len(first)
    for n in range(low, high + 1):
        assert found[n] == ([1 + j * (n + 1) for j in range(len(found[n][0]))], [j * (n + 1) - 2 for j in range(1, count + 1)])
    laters = ", ".join(term(j, j - 2) for j in range(1, count + 1)) or "none"
    firsts = ", ".join(term(j, j + 1) for j in range(most)) + (f" (up to {LAST})" if len(found[high][0]) < most else "")
    return f"| {low} to {high} | {laters} | {count} | {firsts} |\n"


def made(found):
    text, low = HEAD + f"| 0 | every line | {max(TABLES.values())}, by table 0 {min(TABLES.values())} | every line from 1 on |\n", 1
    while low < 256:
        high = low
        while low >= ALONE and high < 255 and len(found[high + 1][1]) == len(found[low][1]):
            high += 1
        text, low = text + row(found, low, high), high + 1
    return text


# ---- writes in the middle of a pass: `index` is how many lines of the pass have gone before
def readings(device, steps):
    """Each reading of a pass with its index, and a copy of the device at it."""
    for index in range(steps):
        device.step()
        yield index, device.line, device.copy()


def register_10(table, steps, old, new):
    """The interrupt that is being counted comes where it would have come, and the new number counts from there on; else from line 0 on. A new 0 counts also
    past line 193, once a line past 192 has taken it."""
    every = formula(0, False, steps)
    for index, line, device in readings(first_pass(table, old)[0], steps):
        device.write(register(10, new))
        coming = [k for k in range(index + 1, steps) if old == 0 or (k <= LAST and (k + 2) % (old + 1) == 0)]
        wanted = range(coming[0], LAST + 1, new + 1) if coming else []
        if new == 0:
            wanted = range(coming[0] if coming else max(index + 1, LAST) + 1, steps)
        elif coming and coming[0] > LAST:
            wanted = coming[:1]
        wanted = [every[k] for k in wanted]
        if (line != 255 and lines(device) != wanted) or lines(device) != formula(new, False, steps):
            wrong(f"table {table}, register 10 from {old} to {new} while the counter reads {line}: not at {wanted}, and then as {new} has it")
    return steps


def register_0(found, table, steps, n):
    """Bit 4: from the next line on; the count goes on while it is off."""
    for index, line, device in readings(first_pass(table, n, OFF)[0], steps - 1):
        device.write(ON)
        if lines(device) != [k for k in found[n][1] if k > line and index <= LAST]:
            wrong(f"table {table}, line interrupts on while the counter reads {line}")
    return steps - 1


def register_1(table, steps, value, report):
    """Bit 5: each line from C1 on, until the status is read, interrupts, also where the bit is set later. Bit 6: in the report at C1, and in no other."""
    start = first_pass(table, 255, OFF)[0]
    start.chip.input(COMMAND)
    for index, line, device in readings(start, steps - 1):
        device.write(register(1, value))
        ended = index >= END
        while device.line != 255:
            answer = device.step()
            ended = ended or device.line == END
            if answer.interrupt != ended or answer.report != (report if device.line == END else 0):
                wrong(f"table {table}, register 1 at {value:02X} from line {line} on: interrupt {answer.interrupt}, report {answer.report} at {device.line}")
        device.chip.input(COMMAND)
        if lines(device) != list(formula(0, False, steps)[END:]):
            wrong(f"table {table}, register 1 at {value:02X} from line {line} on: not quiet from the read of the status to C1")
    return steps - 1


found = every_value()
write = sys.argv[1] == "--write"
page = pathlib.Path(sys.argv[-1])
before = page.read_text(encoding="utf-8")
start = before.index(HEAD)
after = before[:start] + made(found) + before[before.index("\n\n", start) + 1 :]
if write:
    page.write_text(after, encoding="utf-8")
elif before != after:
    wrong(f"{page} has another table. It is\n{made(found)}")
tried = 0
for table, steps in TABLES.items():
    tried += sum(register_10(table, steps, *both) for both in ((31, 15), (91, 30), (30, 91), (255, 3), (1, 200), (194, 10), (31, 0), (255, 0), (0, 31)))
    tried += register_0(found, table, steps, 31)
    tried += sum(register_1(table, steps, *both) for both in ((0x20, 2), (0x60, 1)))
print(f"256 values, and {tried:,} writes in the middle of a pass, by either table")
