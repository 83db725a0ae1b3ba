"""Names of files as YAML has them."""

import os
import re

from octofix.io.errors import Unusable

# What is a text of YAML as it stands: a name with an ending of letters.
PLAIN = re.compile(r"[A-Za-z0-9_][A-Za-z0-9_.-]*\.[A-Za-z]+")


def text_of(name):
    """A name as a text of YAML, in quotes where it may need them. YAML is Unicode: a name of other
    bytes is Unusable."""
    try:
        text = os.fsencode(name).decode()
    except UnicodeDecodeError:
        raise Unusable("its name isn't UTF-8, so that no YAML can name it", name) from None
    return text if PLAIN.fullmatch(text) else f'"{"".join(map(_escaped, text))}"'


def _escaped(sign):
    if sign in '"\\':
        return f"\\{sign}"
    return sign if sign.isprintable() else f"\\U{ord(sign):08x}"
