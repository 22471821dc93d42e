"""What can go wrong, by the exit status that it gives; and names of files as they can be printed."""
import os


class Bad(Exception):
    """The input is bad: status 1. Its text is one line or more, whole."""


class Failed(Exception):
    """Something could not be read or written: status 2."""


def printable(text):
    """A text on one line, whatever stands in it."""
    return "".join(character if character.isprintable() else _escaped(character) for character in str(text))


def shown(name):
    """A file's name, or what `-` stands for."""
    return "standard input" if name == "-" else printable(name)


def _escaped(character):
    """A line break, say, as \\n; a byte that is no text as \\xFF."""
    if "\udc80" <= character <= "\udcff":
        return f"\\x{os.fsencode(character)[0]:02X}"
    return character.encode("unicode_escape").decode("ascii")


def why(error):
    """An OSError, or what Python says of a name that no file can have, in words."""
    if isinstance(error, OSError):
        return error.strerror or str(error)
    return "no file can have this name"


def could_not(name, error):
    """The Failed that tells of an error with this file."""
    return Failed(f"desk: {shown(name)}: {why(error)}")
