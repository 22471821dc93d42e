"""include/vdp.h as numbers and words: the desk has no list of its own of sizes, offsets or refusals."""
import pathlib
import re

import errors

ROOT = pathlib.Path(__file__).resolve().parent.parent
HEADER = ROOT / "include" / "vdp.h"


def parsed():
    """The constants by their names without VDP_, and what the header says behind each."""
    try:
        text = HEADER.read_text(encoding="utf-8")
    except OSError as error:
        raise errors.could_not(HEADER, error)
    numbers, words = {}, {}
    for name, value, said in re.findall(r"^#define VDP_(\w+) +(0x[0-9A-Fa-f]+|\d+)\b(?: +/\* (.*?) \*/)?", text, re.M):
        numbers[name] = int(value, 0)
        words[name] = said
    return numbers, words


NUMBERS, WORDS = parsed()


def refusal(number):
    """A refusal in words, as the header has it."""
    for name, value in NUMBERS.items():
        if value == number and (name == "OK" or name.startswith("REFUSED_")):
            return f"refusal {number}, {WORDS[name]}" if number else "accepted"
    return f"refusal {number}"
