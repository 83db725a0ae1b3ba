"""Lines of numbers."""

import io
import re
import warnings

import numpy as np

from ..errors import Unusable, on_line
from ..poses import number_of


def table_of(body, columns, first_line, delimiter=None, width=None):
    """These columns of lines of numbers as (n, len(columns)).

    Blank lines and what follows a '#' are passed over. first_line is the number that the first line
    of the body has in its file, for what is said of a fault. Where a width is given each line has
    that many words."""
    if not re.search(rb"\S", body):
        return np.empty((0, len(columns)))
    is_all = columns == list(range(width or 0))
    form = {"usecols": None if is_all else columns, "delimiter": delimiter, "ndmin": 2}
    comments = "#" if b"#" in body else None
    try:
        with warnings.catch_warnings():
            warnings.filterwarnings("ignore", "loadtxt: ")
            # (between the rows of a generator Python hears an interrupt)
            rows = (row for row in io.BytesIO(body))
            table = np.loadtxt(rows, comments=comments, **form)
        # (of comments alone it makes a table without columns)
        table = table.reshape(-1, len(columns)) if table.size == 0 else table
        if table.shape[1] != len(columns):
            raise ValueError(f"the lines have {table.shape[1]} numbers")
    except (ValueError, IndexError, OverflowError) as error:
        _find_fault(body, columns, first_line, delimiter, width)
        raise Unusable(str(error).split(";")[0], line=first_line) from None
    if width and not is_all and not _is_even(body, width, delimiter):
        _find_fault(body, columns, first_line, delimiter, width)
    return table


def words_of(row, delimiter):
    """The words of a line with the columns that they begin in, from 1."""
    if delimiter is None:
        # (a space that doesn't break parts no words)
        return [(it[0], it.start() + 1) for it in re.finditer(r"\S+", row, re.ASCII)]
    found, start = [], 0
    for part in row.split(delimiter):
        blanks = len(part) - len(part.lstrip())
        found.append((part.strip(), start + blanks + 1))
        start += len(part) + 1
    return found


def _is_even(body, width, delimiter):
    """Whether each line that isn't blank has this many words."""
    if b"#" in body:
        body = re.sub(rb"#[^\n]*", b"", body)
    parting = delimiter and delimiter.encode()
    rows = (it for it in io.BytesIO(body) if not it.isspace())
    return {len(it.split(parting)) for it in rows} <= {width}


def _find_fault(body, columns, first_line, delimiter, width):
    """Raises the first fault of the lines, with its place."""
    for line, row in enumerate(bytes(body).decode("utf-8", "replace").split("\n"), first_line):
        row = row.split("#")[0].rstrip()
        if not row.strip():
            continue
        words = words_of(row, delimiter)
        for word, column in (words[it] for it in sorted(columns) if it < len(words)):
            with on_line(line):
                number_of(word, column)
        many = f"{len(words)} numbers" if len(words) != 1 else "1 number"
        if len(words) <= max(columns):
            said = f"the line has {many}, and {max(columns) + 1} are needed"
            raise Unusable(said, line=line, column=len(row) + 1)
        if width and len(words) != width:
            said = f"the line has {many}, and the others have {width}"
            raise Unusable(said, line=line, column=len(row) + 1)
