"""The launcher's completions for shells and its manual page, made of its table and of the pages of the tools."""
from __future__ import annotations

from collections.abc import Iterator, Mapping
from typing import Optional

from yotarimu.common.pages import Declared, command_names, declared_in, page_of
from yotarimu.programs.table import Option, Table

# A range of so many values is completed by each, a larger one by its ends and what stands unless given.
MOST_VALUES = 16
NAME = "fractal"
# Two dashes in bold, as the macros of man write them.
DASHES = "\\fB\\-\\-"
BASH = """\
# Completes the words of `{name}` in bash. ./fractal shell makes it from what `{name} dev table` lists.
_{name}() {{
    local current=${{COMP_WORDS[COMP_CWORD]}} before=${{COMP_WORDS[COMP_CWORD - 1]}} command=${{COMP_WORDS[1]}} words=
    # bash takes `=` for a word.
    [ "$current" = = ] && before=$before current=
    [ "$before" = = ] && before=${{COMP_WORDS[COMP_CWORD - 2]}}
    if [ "$COMP_CWORD" -eq 1 ]; then
        words='{first}'
    else
        case $before in
{values}
            *)
                case $command in
                    {commands})
                        words='{options}'
                        [ "$command $COMP_CWORD" != 'load 2' ] || words='{kinds}'
                        ;;
                    watch)
                        words='{mode_options}'
                        [ "$COMP_CWORD" -ne 2 ] || words='{leading}'
                        case "$COMP_CWORD ${{COMP_WORDS[2]}}" in
                            '3 memory' | '3 counts' | '4 views' | '5 counts') words='{modes}' ;;
                        esac
                        ;;
                    help) words='{first}' ;;
                    dev) [ "$COMP_CWORD" -ne 2 ] || words='{maintenance}' ;;
{tools}
                esac
                ;;
        esac
    fi
    COMPREPLY=($(compgen -W "$words" -- "$current"))
}}
complete -o bashdefault -o default -F _{name} {name}
"""
ZSH = """\
#compdef {name}
# Completes the words of `{name}` in zsh. ./fractal shell makes it from what `{name} dev table` lists.
local -a words_of_{name}
words_of_{name}=(
{described}
)
if (( CURRENT == 2 )); then
    _describe -t commands command words_of_{name}
    return
fi
local command=$words[2]
shift words
(( CURRENT-- ))
case $command in
    {commands})
        local -a further
        [[ $command == load ]] && further=({further})
        _arguments -S $further \\
{options}
        ;;
    watch)
        _arguments -S '1:mode:({leading})' '*:further:' \\
{mode_options}
        ;;
    help) _describe -t commands command words_of_{name} ;;
{tools}
    *) _files ;;
esac
"""


def values_of(option: Option) -> str:
    """The values of an option that are offered."""
    values = list(option.values)
    offered = values if len(values) <= MOST_VALUES + 1 else [values[0], option.default, values[-1]]
    return " ".join(map(str, dict.fromkeys(offered)))


def bash(table: Table) -> str:
    """The completion for bash."""
    offered = {name: values_of(it) for name, it in table.mode_options.items()}
    offered.update((name, choices_of(it)) for options in tool_options().values() for name, it in options.items()
                   if name not in offered and choices_of(it))
    values = "\n".join(f"            --{name}) words='{some}' ;;" for name, some in offered.items())
    tools = "\n".join(f"                    {tool}) words='{words_of({**options, **further_of(tool, table)})}' ;;"
                      for tool, options in tool_options().items())
    return BASH.format(name=NAME, first=" ".join([*table.commands, *table.own]), values=values,
                       options=words_of(table.options), mode_options=words_of(table.mode_options),
                       kinds=" ".join(table.kinds), tools=tools, maintenance=" ".join(command_names("dev")),
                       commands="|".join(table.commands), leading=leading_words(table),
                       modes=" ".join(table.mode_rows))


def zsh(table: Table) -> str:
    """The completion for zsh."""
    purposes = {**{name: row[2] for name, row in table.command_rows.items()}, **table.own}
    described = "\n".join(f"    {zsh_text(f'{name}:{purpose}')}" for name, purpose in purposes.items())
    options, mode_options = (
        " \\\n".join(f"            {zsh_text(option_text(option))}" for option in some.values())
        for some in (table.options, table.mode_options))
    kinds = "'1:kind:({})' '2:seed:' '3:size:'".format(" ".join(table.kinds))
    tools = "\n".join(f"    {tool}) _arguments -S '*:file:_files' {' '.join(zsh_tool(tool, options, table))} ;;"
                      for tool, options in tool_options().items())
    return ZSH.format(name=NAME, described=described, commands="|".join(table.commands), options=options, further=kinds,
                      mode_options=mode_options, leading=leading_words(table), tools=tools)


def zsh_tool(tool: str, options: Mapping[str, Declared], table: Table) -> Iterator[str]:
    """The options of a tool as zsh takes them."""
    for name, it in options.items():
        values = f":{it.value}:{f'({choices_of(it)})' if choices_of(it) else '_files'}" if it.value else ""
        yield zsh_text(f"--{name}{'=' if it.value else ''}[{plain(it.purpose)}]{values}")
    for option in further_of(tool, table).values():
        yield zsh_text(option_text(option))


def fish(table: Table) -> str:
    """The completion for fish."""
    lines = [f"# Completes the arguments of `{NAME}` in fish; ./fractal shell makes it.",
             f"function __{NAME}_in", "    contains -- (commandline -opc)[2] $argv", "end"]
    purposes = {**{name: row[2] for name, row in table.command_rows.items()}, **table.own}
    for name, purpose in purposes.items():
        lines.append(f"complete -c {NAME} -n __fish_use_subcommand -f -a {fish_text(name)} -d {fish_text(purpose)}")
    for commands, options in ((" ".join(table.commands), table.options), ("watch", table.mode_options)):
        lines += [fish_line(commands, name, it.purpose, values_of(it)) for name, it in options.items()]
    lines.append(f"complete -c {NAME} -n '__{NAME}_in watch' -f -a {fish_text(leading_words(table))}")
    lines.append(f"complete -c {NAME} -n '__{NAME}_in dev' -f -a {fish_text(' '.join(command_names('dev')))}")
    for tool, declared in tool_options().items():
        lines += [fish_line(tool, name, plain(it.purpose), choices_of(it) if it.value else None)
                  for name, it in declared.items()]
        lines += [fish_line(tool, name, it.purpose, values_of(it)) for name, it in further_of(tool, table).items()]
    return "\n".join(lines) + "\n"


def fish_line(commands: str, name: str, purpose: str, values: Optional[str]) -> str:
    """An option of commands as fish takes it: None as its values for a flag, nothing for any."""
    wanted = "" if values is None else f" -x -a {fish_text(values)}" if values else " -r"
    return f"complete -c {NAME} -n '__{NAME}_in {commands}' -l {name}{wanted} -d {fish_text(purpose)}"


def fish_text(text: str) -> str:
    """A text between quotes of fish."""
    return "'" + text.replace("\\", "\\\\").replace("'", "\\'") + "'"


def tool_options() -> dict[str, dict[str, Declared]]:
    """The options that the page of each tool declares."""
    return {tool: declared_in(page_of(tool)) for tool in command_names()}


def further_of(tool: str, table: Table) -> Mapping[str, Option]:
    """The options of the programs that a tool takes too, if its page says so."""
    return table.mode_options if "[--OPTION VALUE" in page_of(tool) else {}


def choices_of(declared: Declared) -> str:
    """The words that the value of a tool's option may be; nothing for a number or any text."""
    return "" if isinstance(declared.values, range) else " ".join(map(str, declared.values))


def plain(purpose: str) -> str:
    """A purpose without what would end a description in zsh."""
    return purpose.replace("[", "(").replace("]", ")")


def words_of(options: Mapping[str, object]) -> str:
    """Options as they are typed."""
    return " ".join(f"--{name}" for name in options)


def leading_words(table: Table) -> str:
    """What may stand right behind `watch`."""
    return " ".join([*table.mode_rows, "memory", "views", "counts"])


def option_text(option: Option) -> str:
    """An option as zsh takes it."""
    return f"--{option.name}=[{option.purpose}]:{option.range_text()}:({values_of(option)})"


def zsh_text(text: str) -> str:
    """A text between quotes of zsh."""
    return "'" + text.replace("'", "'\\''") + "'"


def man(table: Table) -> str:
    """The manual page in the macros of man."""
    lines = [f'.TH {NAME.upper()} 1 "" "{NAME} {table.version}" ""', ".SH NAME",
             f"{NAME} \\- simulates a machine that runs tasks speculatively and commits them in timestamp order",
             ".SH SYNOPSIS", f".B {NAME}", ".I COMMAND", f"[{DASHES}\\fIOPTION VALUE\\fR]...", "<", ".I INPUT",
             ".SH DESCRIPTION", "An image comes from standard input, a report goes to standard output.", ".SH COMMANDS"]
    for name, (further, given, purpose) in table.command_rows.items():
        lines += entry(f"{name} {further}".strip(), f"{purpose}; reads {given or 'nothing'}")
    lines.append(".SH MODES OF WATCH")
    for name, (further, given, purpose) in table.mode_rows.items():
        lines += entry(f"{name} {further}".strip(), f"{purpose}; reads {given}")
    lines.append(".SH FURTHER WORDS")
    for name, purpose in table.own.items():
        lines += entry(f"{name} {table.own_words[name]}".strip(), purpose)
    lines += [".SH OPTIONS", "Each at most once, as", f"{DASHES}\\fIOPTION VALUE\\fR",
              "or", f"{DASHES}\\fIOPTION\\fR=\\fIVALUE\\fR."]
    for option in table.mode_options.values():
        place = "" if option.name in table.options else "behind watch alone: "
        lines += entry(f"--{option.name}",
                       f"{place}{option.purpose} ({option.range_text()}; default {option.default})")
    lines.append(".SH OPTIONS OF TOOLS")
    for tool, declared in tool_options().items():
        lines += [f".SS {tool}"] if declared else []
        for name, it in declared.items():
            limits = "; ".join(filter(None, [it.range_text(), it.default and f"default {it.default}"]))
            lines += entry(f"--{name} {it.value}".strip(), f"{it.purpose}{limits and f' ({limits})'}")
    lines.append(".SH GENERATED IMAGES")
    for name, (sizes, purpose) in table.kinds.items():
        lines += entry(name, f"{purpose}; SIZE is {sizes[0]} to {sizes[-1]}")
    lines.append(".SH EXIT STATUS")
    for number, meaning in table.statuses.items():
        lines += entry(str(number), meaning)
    lines += [".SH EXAMPLES", ".nf", escape(f"{NAME} run < image.bin > report"),
              escape(f"cat image.bin report | {NAME} check"), ".fi"]
    return "\n".join(lines) + "\n"


def entry(name: str, text: str) -> list[str]:
    """An entry of the manual page."""
    return [".TP", f".B {escape(name)}", escape(text)]


def escape(text: str) -> str:
    """A text as troff takes it."""
    text = text.replace("\\", "\\e").replace("-", "\\-").replace("'", "\\(aq").replace("`", "\\(ga")
    return f"\\&{text}" if text.startswith(".") else text


KINDS = {"bash": bash, "zsh": zsh, "fish": fish, "man": man}
