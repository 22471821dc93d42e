"""One line of a script as words with their columns, taken from left to right; an error is at a column."""
import re

import errors

MOST_TIMES = 65536
MOST_SHOWN = 60  # characters of a word, in an error
MOST_DIGITS = 12  # of a number: no statement takes a longer one
LABEL = re.compile(r"([A-Za-z][\w-]*):")
TOKEN = re.compile(r'\s*(?:(#.*)|("[^"]*")|(=)|([^\s#"=]+)|("))')


class Token:
    def __init__(self, text, column, quoted=False):
        self.text, self.column, self.quoted = text, column, quoted

    def __str__(self):
        """As an error tells it: on one line, and a long one cut."""
        text = errors.printable(self.text)
        return f"`{text}`" if len(text) <= MOST_SHOWN else f"`{text[:MOST_SHOWN]}..`"


class Wrong(Exception):
    """An error in the script, at a column of the line; status as in errors.py. Behind one that is the last, no other is looked for."""

    def __init__(self, column, text, status=1, last=False):
        super().__init__(text)
        self.column, self.status, self.last = column, status, last


def tokens(line):
    """The words of a line with their columns, and the column past the last one. Columns count from 1."""
    found, at, end = [], 0, 1
    while True:
        match = TOKEN.match(line, at)
        if not match or match.group(1) is not None:
            return found, end
        if match.group(5):
            raise Wrong(match.start(5) + 1, "a quotation mark without its second")
        group = next(g for g in (2, 3, 4) if match.group(g) is not None)
        text = match.group(group)
        found.append(Token(text[1:-1] if group == 2 else text, match.start(group) + 1, group == 2))
        at, end = match.end(), match.end() + 1


class Line:
    """The words of one line, taken from left to right. A label stands before all others, with a colon."""

    def __init__(self, found, end):
        label = found and not found[0].quoted and LABEL.fullmatch(found[0].text)
        self.label = label.group(1) if label else None
        self.found, self.end, self.at = found[1:] if label else found, end, 0

    def again(self):
        """The line from its first word on, as a block takes it several times."""
        self.at = 0
        return self

    def peek(self):
        return self.found[self.at] if self.at < len(self.found) else None

    def take(self, what):
        token = self.peek()
        if token is None:
            raise Wrong(self.end, f"the line ends too early: {what} is missing")
        self.at += 1
        return token

    def word(self, *words):
        """One of these words, or nothing: None."""
        token = self.peek()
        if token and not token.quoted and token.text in words:
            self.at += 1
            return token
        return None

    def must(self, text):
        token = self.take(f"`{text}`")
        if token.quoted or token.text != text:
            raise Wrong(token.column, f"{token} where `{text}` should be")

    def hexadecimal(self, what, most):
        token = self.take(what)
        digits = len(f"{most:X}")
        if token.quoted or not re.fullmatch(r"(0x)?[0-9A-Fa-f]+", token.text) or int(token.text, 16) > most:
            raise Wrong(token.column, f"{token}: {what} is hexadecimal, {'0' * digits} to {most:X}")
        return int(token.text, 16)

    def number(self, what, most, least=0):
        token = self.take(what)
        value = None
        if not token.quoted and len(token.text) <= MOST_DIGITS and re.fullmatch(r"-?[0-9]+|0x[0-9A-Fa-f]+", token.text):
            value = int(token.text, 16 if "x" in token.text else 10)
        if value is None or not least <= value <= most:
            raise Wrong(token.column, f"{token}: {what} is a number from {least} to {most:,}")
        return value

    def bytes(self, what):
        """Bytes to the end of the line, or to `times`."""
        values = [self.hexadecimal(what, 255)]
        while self.peek() and not (self.peek().text == "times" and not self.peek().quoted):
            values.append(self.hexadecimal(what, 255))
        return values

    def times(self):
        return self.number("how many times", MOST_TIMES, 1) if self.word("times") else 1

    def close(self):
        token = self.peek()
        if token:
            raise Wrong(token.column, f"{token}: nothing more is taken here")
