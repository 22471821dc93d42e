"""The layers that own pixels: their names, the colours by which the desk shows them (layers.json), and those of the program `layers`."""
import json
import pathlib

import errors
import header

BACKGROUND, HELD_BACK, FILLED, SPRITE = (header.NUMBERS["LAYER_" + name] for name in ("BACKGROUND", "HELD_BACK", "FILLED", "SPRITE"))
UNDRAWN = 255  # in place of a layer, where no step has drawn
NAMES = {BACKGROUND: "background", HELD_BACK: "held back", FILLED: "filled", UNDRAWN: "not drawn"}


def _loaded():
    path = pathlib.Path(__file__).with_name("layers.json")
    try:
        told = json.loads(path.read_text(encoding="utf-8"))
    except OSError as error:
        raise errors.could_not(path, error)
    colours = {layer: told[name] for layer, name in NAMES.items()}
    colours.update({SPRITE + n: colour for n, colour in enumerate(told["sprites"])})
    return {layer: tuple(bytes.fromhex(colour)) for layer, colour in colours.items()}


COLOURS = _loaded()
_by_colour = {colour: layer for layer, colour in COLOURS.items()}
# R15.5
PROGRAM = {BACKGROUND: (32, 32, 32), HELD_BACK: (255, 0, 255), UNDRAWN: (0, 0, 0), **{SPRITE + n: (4 * n, 255 - 4 * n, 128) for n in range(64)}}


def words(layer):
    if layer == UNDRAWN:
        return "nothing drawn"
    if layer >= SPRITE:
        return f"sprite {layer - SPRITE}"
    return {HELD_BACK: "background, which holds a sprite back", FILLED: "the fill of columns 0 to 7"}.get(layer, "background")


def words_at(picture, y, x):
    """The layer that a picture in the desk's colours shows at a place."""
    return words(_by_colour[tuple(picture.row(y)[3 * x : 3 * x + 3])])
