"""The manual page of the command octofix, in mdoc."""

import re

HEAD = r"""
.Dd {date}
.Dt OCTOFIX 1
.Os
.Sh NAME
.Nm octofix
.Nd maps of point clouds, and pictures, grids and points of maps
.Sh SYNOPSIS
.Nm
.Ar command
.Op Ar option ...
.Nm
.Fl \-help | \-version
.Nm
.Ar command
.Fl \-help
.Sh DESCRIPTION
.Nm
makes occupancy maps of point clouds, and answers what is in them.
A map is a binary file of the OctoMap library
.Pq Ql .bt
or a snapshot, and
.Ql \-
stands for standard input or output.
.Bl -tag -width Ds"""
TAIL = r"""
.Sh ENVIRONMENT
.Bl -tag -width Ds
.It Ev OCTOFIX_LIBRARY
The file of the library
.Pa liboctofix.so.1 ,
where it is not the one that is installed beside the command.
.El
.Sh EXIT STATUS
.Bl -tag -width Ds
{statuses}
.El
.Sh SEE ALSO
.Xr octomap 1"""

# Between two sentences; mdoc wants each to begin a line.
SENTENCE = re.compile(r"(?<=[\w)][.:])\s(?=[A-Z])")


def escaped(text):
    text = text.replace("\\", r"\e").replace("-", r"\-")
    return re.sub(r"^(?=[.'])", r"\\&", text, flags=re.M)


def prose(text):
    """The lines of a text: an indented block is shown as it stands."""
    lines = []
    for block in re.split(r"\n\s*\n", text):
        if block.startswith("    "):
            shown = re.sub(r"^    ", "", block, flags=re.M)
            lines += [".Bd -literal -offset indent", escaped(shown), ".Ed"]
        else:
            lines += [".Pp", escaped(SENTENCE.sub("\n", block))]
    return lines


def tag_of(option):
    """The line of a list that names an option and its values."""
    # (many choices have no room in one line, and are parted behind a bar)
    values = ["Ar " + escaped(it).replace("|", r"|\:") for it in option.values]
    if not option.names:
        return " ".join([".It", *values, *["..."] * option.takes_more])
    flags = " , ".join(f"Fl {escaped(it[1:])}" for it in option.names)
    return " ".join([".It", flags, *values])


def options(command):
    lines = []
    for title, group in command.groups:
        lines += [".Pp", escaped(f"{title[0].upper()}{title[1:]}:"), ".Bl -tag -width Ds"]
        for it in group:
            lines += [tag_of(it), escaped(it.help) or r"\&"]
        lines.append(".El")
    return lines


def page(commands, statuses, date):
    lines = [HEAD.lstrip("\n").format(date=date)]
    for it in (it for it in commands if " " not in it.name):
        lines += [f".It Cm {it.name}", escaped(it.help)]
    lines += [".El", ".Sh COMMANDS"]
    for it in commands:
        # (a heading has a paragraph already)
        lines += [f".Ss octofix {it.name}", *prose(it.text)[1:], *options(it)]
    shown = "\n".join(f".It {number}\n{escaped(text)}" for number, text in statuses)
    return "\n".join([*lines, TAIL.lstrip("\n").format(statuses=shown), ""])
