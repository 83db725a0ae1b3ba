"""The completions of the command octofix, for bash and zsh."""

BASH = """\
# The words of octofix in bash; where none is fit, files.

_octofix() {{
    local word=${{COMP_WORDS[COMP_CWORD]}} command=${{COMP_WORDS[1]}} words=
    local before=${{COMP_WORDS[COMP_CWORD - 1]}}
    COMPREPLY=()
    case $command in {above}) ((COMP_CWORD == 2)) || command+=" ${{COMP_WORDS[2]}}" ;; esac
    if ((COMP_CWORD == 1)); then
        words='{commands} --help --version'
    else
        case $command:$before in
{below}
{choices}
        *) case $word in -*) _octofix_options ;; esac ;;
        esac
    fi
    mapfile -t COMPREPLY < <(compgen -W "$words" -- "$word")
}}

# The options of a command; the words and the command are those of _octofix.
_octofix_options() {{
    case $command in
{options}
    esac
}}

complete -o default -F _octofix octofix octofix-unproved
"""
ZSH = """\
#compdef octofix octofix-unproved
# The words of octofix in zsh.

local -a tasks
tasks=(
{commands}
)

if ((CURRENT == 2)); then
    _describe task tasks
    return
fi
local task=$words[2]
shift words
((CURRENT--))
case $task in
{above})
    if ((CURRENT == 2)); then
        tasks=(
{below}
        )
        _describe task tasks
        return
    fi
    task+=" $words[2]"
    shift words
    ((CURRENT--))
    ;;
esac
case $task in
{options}
esac
"""


def above(commands):
    """The commands that have others below them, as a pattern of a case."""
    return "|".join(dict.fromkeys(it.name.split()[0] for it in commands if " " in it.name))


def bash(commands):
    choices = [
        f"        '{command.name}:{name}') words='{' '.join(map(str, it.choices))}' ;;"
        for command in commands for it in command.options() if it.choices for name in it.names
    ]  # fmt: skip
    options = []
    for command in commands:
        names = " ".join(name for it in command.options() for name in it.names)
        options.append(f"    '{command.name}') words='{names}' ;;")
    names = {"": [it.name for it in commands if " " not in it.name]}
    for it in (it for it in commands if " " in it.name):
        names.setdefault(it.name.split()[0], []).append(it.name.split()[1])
    below = [f"        '{it}:{it}') words='{' '.join(few)}' ;;" for it, few in names.items() if it]
    filled = {"choices": "\n".join(choices), "options": "\n".join(options)}
    filled.update(below="\n".join(below), above=above(commands))
    return BASH.format(commands=" ".join(names[""]), **filled)


def quoted(text):
    """A word of zsh, in which brackets and colons stand for themselves."""
    return "'" + text.replace("'", "'\\''") + "'"


def plain(text):
    return text.replace("\\", "\\\\").replace("[", "\\[").replace("]", "\\]").replace(":", "\\:")


def values_of(option):
    kind = f"({' '.join(map(str, option.choices))})" if option.choices else "_files"
    return "".join(f":{plain(it)}:{kind}" for it in option.values)


def arguments_of(option):
    """What _arguments of zsh is told of an option, or of what stands without a name."""
    if not option.names:
        return [quoted("*" * option.takes_more + (values_of(option) or ":FILE:_files"))]
    return [quoted(f"{name}[{plain(option.help)}]{values_of(option)}") for name in option.names]


def described(commands, indent):
    lines = (quoted(f"{it.name.split()[-1]}:{plain(it.help)}") for it in commands)
    return "\n".join(" " * indent + it for it in lines)


def zsh(commands):
    first = [it for it in commands if " " not in it.name]
    lines = []
    for command in commands:
        words = [word for it in command.options() for word in arguments_of(it)]
        body = " \\\n        ".join(["_arguments", *words])
        lines.append(f"{quoted(command.name)})\n    {body}\n    ;;")
    below = described([it for it in commands if " " in it.name], 12)
    filled = {"above": above(commands), "below": below, "options": "\n".join(lines)}
    return ZSH.format(commands=described(first, 4), **filled)
