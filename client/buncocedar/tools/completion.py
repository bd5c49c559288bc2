"""Completion of the words of `bunco` in a shell, from the option lists of its commands."""

from __future__ import annotations

import shlex
from typing import List

from .main import COMMANDS, Command
from .options import Option, options_of

WORDS = (*(command.name for command in COMMANDS), "help", "completion")


# --- bash


def _bash_choices(command: Command, option: Option) -> List[str]:
    """What may stand behind an option: its choices, a file where it takes one, or nothing that could be completed."""
    before = "|".join(f"{command.name}:{name}" for name in option.names)
    if option.choices:
        return [f"        {before}) COMPREPLY=($(compgen -W {shlex.quote(' '.join(option.choices))} -- \"$word\")); return ;;"]
    return [f"        {before}) return ;;"]


def bash() -> str:
    """The completion for bash. Where it gives nothing, names of files are completed."""
    values, options = [], []
    for command in COMMANDS:
        found = options_of(command.load().parser())
        for option in found:
            if option.names and option.value:
                values += _bash_choices(command, option)
        names = " ".join(name for option in found for name in option.names)
        options.append(f"            {command.name}) options={shlex.quote(names)} ;;")
    return "\n".join(
        [
            "# Completion of bunco in bash: `bunco completion bash` writes it.",
            "_bunco() {",
            "    local word=${COMP_WORDS[COMP_CWORD]} before=${COMP_WORDS[COMP_CWORD - 1]} command=${COMP_WORDS[1]} options=",
            "    COMPREPLY=()",
            "    if [ \"$COMP_CWORD\" -eq 1 ] || [ \"$COMP_CWORD:$command\" = 2:help ]; then",
            f"        COMPREPLY=($(compgen -W {shlex.quote(' '.join(WORDS))} -- \"$word\"))",
            "        return",
            "    fi",
            "    case $command:$before in",
            *values,
            "        completion:*) COMPREPLY=($(compgen -W 'bash zsh' -- \"$word\")); return ;;",
            "    esac",
            "    case $word in",
            "        -*)",
            "            case $command in",
            *(f"    {line}" for line in options),
            "            esac",
            "            COMPREPLY=($(compgen -W \"$options\" -- \"$word\"))",
            "            ;;",
            "    esac",
            "}",
            "complete -o bashdefault -o default -F _bunco bunco",
            "",
        ]
    )


# --- zsh


def _zsh_quoted(text: str) -> str:
    """A text inside of a specification, where brackets and colons would end a part."""
    for character in "\\[]:":
        text = text.replace(character, f"\\{character}")
    return text


def _zsh_action(option: Option) -> str:
    return f"({' '.join(option.choices)})" if option.choices else "_files"


def _zsh_specifications(option: Option, place: int) -> List[str]:
    value = _zsh_quoted(option.value)
    if not option.names:
        return [f"{place}:{value}:_files"]
    behind = f":{value}:{_zsh_action(option)}" if option.value else ""
    return [f"{name}[{_zsh_quoted(option.about)}]{behind}" for name in option.names]


def _zsh_arguments(command: Command) -> str:
    specifications, place = [], 0
    for option in options_of(command.load().parser()):
        place += not option.names
        specifications += _zsh_specifications(option, place)
    return " ".join(map(shlex.quote, specifications))


def zsh() -> str:
    """The completion for zsh."""
    listed = [*((command.name, command.about) for command in COMMANDS), ("help", "the page of a command")]
    described = " ".join(shlex.quote(f"{name}:{about}") for name, about in listed)
    return "\n".join(
        [
            "#compdef bunco",
            "# Completion of bunco in zsh: `bunco completion zsh` writes it.",
            "_bunco() {",
            "    local -a commands",
            f"    commands=({described})",
            "    if (( CURRENT == 2 )) || [[ $CURRENT:$words[2] == 3:help ]]; then",
            "        _describe command commands",
            "        return",
            "    fi",
            "    shift words",
            "    (( CURRENT-- ))",
            "    case $words[1] in",
            *(f"        {command.name}) _arguments {_zsh_arguments(command)} ;;" for command in COMMANDS),
            "        completion) _values shell bash zsh ;;",
            "    esac",
            "}",
            "if [[ $funcstack[1] == _bunco ]]; then _bunco \"$@\"; else compdef _bunco bunco; fi",
            "",
        ]
    )


SHELLS = {"bash": bash, "zsh": zsh}
