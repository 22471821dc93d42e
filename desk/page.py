"""`desk page`: the page of `make page` (docs/PAGE.md) with another script or trace in it."""
import base64
import json
import os
import pathlib
import re

import errors
import header

PAGE = pathlib.Path(os.environ.get("DESK_PAGE") or header.ROOT / "build" / "desk.html")  # of `make page`, or the one that DESK_PAGE names
GIVEN = re.compile(r'(<script type="application/json" id="given">)(.*?)(</script>)', re.S)


def plain(value):
    """JSON as it may stand between the marks of a script of a page."""
    return json.dumps(value, ensure_ascii=True, separators=(",", ":")).replace("<", "\\u003c")


def given(name, data, script, at_home, table, question):
    """What the page is given: the bytes of a trace, its name, of a script its text, the machine, the line table and the question to begin with."""
    return {"trace": base64.b64encode(data).decode("ascii"), "name": os.path.basename(errors.shown(name)), "script": script,
            "machine": "home machine" if at_home else "handheld", "table": table, "question": question}


def filled(text, what):
    """A page with this in it."""
    made, count = GIVEN.subn(lambda match: match.group(1) + plain(what) + match.group(3), text)
    if count != 1:
        raise errors.Bad(f"desk: {PAGE}: no page of `make page`")
    return made


def made(what):
    """The page of `make page` with this in it."""
    try:
        return filled(PAGE.read_text(encoding="utf-8", errors="replace"), what)
    except FileNotFoundError:
        raise errors.Failed(f"desk: no {PAGE}: `make page` makes it")
    except OSError as error:
        raise errors.could_not(PAGE, error)
