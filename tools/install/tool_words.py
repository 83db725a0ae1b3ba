"""The words of the command octofix, as its parsers have them."""

import argparse
import re
from dataclasses import dataclass


@dataclass
class Option:
    """An option with its values, or what stands without a name before it."""

    names: list
    values: list
    choices: list
    help: str
    takes_more: bool

    @classmethod
    def of(cls, action):
        values = action.metavar or action.dest.upper()
        if action.choices and not action.metavar:
            values = "|".join(map(str, action.choices))
        values = list(values) if isinstance(values, tuple) else [values]
        takes_more = action.nargs in ("+", "*")
        count = 0 if action.nargs == 0 else action.nargs if isinstance(action.nargs, int) else 1
        values = values[:count] + values[-1:] * (count - len(values))
        text = (action.help or "") % {"prog": "octofix", **vars(action)}
        return cls(action.option_strings, values, list(action.choices or []), text, takes_more)


@dataclass
class Command:
    """A subcommand, with those above it in its name: what it says of itself, and its options by
    groups, a title each."""

    name: str
    help: str
    text: str
    groups: list

    def options(self):
        return [it for _, group in self.groups for it in group]


def commands_of(top, before=""):
    """The commands of a parser with subcommands, each before those below it."""
    below = [it for it in top._actions if isinstance(it, argparse._SubParsersAction)]
    helps = {it.dest: it.help or "" for each in below for it in each._choices_actions}
    found = []
    for name, parser in ((it, parser) for each in below for it, parser in each.choices.items()):
        groups = [(title_of(it), options_of(it)) for it in parser._action_groups]
        groups = [it for it in groups if it[1]]
        text = parser.description.strip()
        found.append(Command(before + name, helps.get(name, ""), text, groups))
        found += commands_of(parser, f"{before}{name} ")
    return found


def options_of(group):
    shown = [it for it in group._group_actions if it.help != argparse.SUPPRESS]
    return [Option.of(it) for it in shown if not isinstance(it, argparse._SubParsersAction)]


def title_of(group):
    # (Python 3.9 has another title, and a page is the same by each Python)
    return "options" if group.title == "optional arguments" else group.title


def statuses_of(text):
    """Pairs of a status and what it means, of a line such as 'statuses: 0 done; 2 usage'."""
    text = " ".join(text.split()).partition(": ")[2]
    return [tuple(it.split(" ", 1)) for it in re.split(r"; (?=\d)", text)]
