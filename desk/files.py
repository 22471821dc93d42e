"""What is read and written: whole files, or standard input and output by the name `-`."""
import codecs
import errno
import os
import stat
import sys

import errors

SCRIPT = ".desk"
MOST_TRACE, MOST_SCRIPT, MOST_PICTURE = 1 << 26, 1 << 24, 1 << 24  # bytes of a file that is read
_read = set()  # the plain files that were read: an output is none of them


def begin():
    """Nothing has been read."""
    _read.clear()


def read(name, most):
    """The bytes of a file; a longer one than this is refused before it is read whole."""
    try:
        if name == "-":
            if sys.stdin is None:
                raise OSError(errno.EBADF, os.strerror(errno.EBADF))
            data = _upto(sys.stdin.buffer, most)
        else:
            with open(name, "rb") as file:
                at = os.fstat(file.fileno())
                if stat.S_ISREG(at.st_mode):
                    _read.add((at.st_dev, at.st_ino))
                data = _upto(file, most)
    except (OSError, ValueError) as error:
        raise errors.could_not(name, error)
    if len(data) > most:
        raise errors.Bad(f"desk: {errors.shown(name)}: it has more than {most:,} bytes")
    return data


def _upto(file, most):
    """All of a file, and one byte more than `most` where it has more: some files have no end."""
    data = bytearray()
    while len(data) <= most:
        part = file.read(min(1 << 20, most + 1 - len(data)))
        if not part:
            break
        data += part
    return bytes(data)


def write(name, data):
    """All of it or nothing: a plain file is written beside its place first. A file that was read is not written over."""
    try:
        if name == "-":
            sys.stdout.buffer.write(data)
            sys.stdout.buffer.flush()
            return
        allowed(name)
        if os.path.exists(name) and not stat.S_ISREG(os.stat(name).st_mode):
            with open(name, "wb", buffering=0) as file:
                file.write(data)
        else:
            _replaced(name, data)
    except (OSError, ValueError) as error:
        raise errors.could_not("standard output" if name == "-" else name, error)


def allowed(name):
    """This is not the name of a file that was read."""
    try:
        at = os.stat(name)
    except (OSError, ValueError):
        return
    if (at.st_dev, at.st_ino) in _read:
        raise errors.Bad(f"desk: {errors.shown(name)}: the output is an input, which it would be written over: name another file")


def _replaced(name, data):
    """Beside its place, and then into it; what is named by a link is written where the link points to."""
    place = os.path.realpath(name)
    beside = os.path.join(os.path.dirname(place), f".desk-{os.getpid()}")
    try:
        with open(beside, "wb") as file:
            file.write(data)
        os.replace(beside, place)
    except BaseException:
        if os.path.lexists(beside):
            os.unlink(beside)
        raise


def text(name):
    """The text of a script."""
    data = read(name, MOST_SCRIPT)
    data = data[len(codecs.BOM_UTF8) :] if data.startswith(codecs.BOM_UTF8) else data
    try:
        return data.decode("utf-8")
    except UnicodeDecodeError as error:
        before = data[: error.start]
        line = before.count(b"\n") + 1
        column = len(before[before.rfind(b"\n") + 1 :].decode("utf-8")) + 1
        raise errors.Bad(f"{errors.shown(name)}:{line}:{column}: byte {data[error.start]:02X} is no text (UTF-8)")


def there(name):
    """Whether something has this name."""
    try:
        return os.path.lexists(name)
    except ValueError:
        return False


def is_script(name):
    return name.endswith(SCRIPT)
