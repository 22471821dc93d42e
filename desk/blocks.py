"""A script as lines, and as blocks of lines that `repeat` and `end` hold; each with its place."""
from line import Line, Wrong, tokens

MOST_DEEP = 8  # blocks in blocks, and scripts in scripts


class Statement:
    """A line that has words: its place, the lines of its block, where it is a `repeat`, and what is wrong with it, where it is none."""

    def __init__(self, name, number, line, wrong=None):
        self.place, self.line, self.wrong, self.body = f"{name}:{number}", line, wrong, None


def parsed(text, name):
    """The statements of a text."""
    top, open_blocks = [], []
    for number, content in enumerate(text.split("\n"), 1):
        line = None
        try:
            found, end = tokens(content.rstrip("\r"))
            if not found:
                continue
            line = Line(found, end)
            statement = _opened(line, Statement(name, number, line), open_blocks)
        except Wrong as error:
            statement = Statement(name, number, line, error)
        if statement:
            inside = open_blocks[:-1] if statement.body is not None else open_blocks
            (inside[-1].body if inside else top).append(statement)
    for statement in open_blocks:
        statement.wrong = Wrong(statement.line.found[0].column, "a `repeat` without its `end`")
    return top


def _opened(line, statement, open_blocks):
    """The statement of a line; a `repeat` is open from here on, and an `end`, which closes one, is None."""
    if not line.found:
        raise Wrong(line.end, "a label alone: behind it stands the statement that it names")
    first = line.found[0]
    if first.quoted or first.text not in ("repeat", "end"):
        return statement
    if first.text == "repeat":
        if len(open_blocks) == MOST_DEEP:
            raise Wrong(first.column, f"more than {MOST_DEEP} blocks in one another", last=True)
        statement.body = []
        open_blocks.append(statement)
        return statement
    if not open_blocks:
        raise Wrong(first.column, "an `end` without its `repeat`")
    open_blocks.pop()
    if line.label:
        raise Wrong(first.column, "`end` takes no label: the one of its `repeat` names the block")
    line.at = 1
    line.close()
    return None
