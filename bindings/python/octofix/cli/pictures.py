"""Pictures: PGM, and PNG by Pillow."""

import io

from octofix.io.errors import Unusable
from octofix.io.optional import needed

from .outputs import write
from .standing import PICTURES

# Above about this a picture is made with fewer pixels than its width asks for.
MOST_PIXELS = 1 << 26


def form_of(name):
    ending = name.rsplit(".", 1)[-1].lower()
    if ending not in ("pgm", "png"):
        raise Unusable("a picture's name ends in .pgm or .png", name)
    return ending


def write_picture(name, pixels, is_forced=False):
    write((name, PICTURES[form_of(name)]), picture(name, pixels), is_forced)


def picture(name, pixels):
    """The file of uint8 pixels, (rows, columns) of greys, or for a PNG (rows, columns, 3), the top
    row first, in the form of the name."""
    if form_of(name) == "pgm":
        return f"P5\n{pixels.shape[1]} {pixels.shape[0]}\n255\n".encode() + pixels.tobytes()
    file = io.BytesIO()
    needed("PIL.Image", "a PNG").fromarray(pixels).save(file, "PNG")
    return file.getvalue()
