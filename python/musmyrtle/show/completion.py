"""Completion for bash and zsh, made from the table of commands."""
from collections.abc import Iterable, Sequence

from musmyrtle.show.arguments import Argument, arguments_of
from musmyrtle.show.commands import Command
from musmyrtle.show.engines import COMMAND

BASH_FRONT = f"""# Completion of {COMMAND} for bash: eval "$({COMMAND} completion bash)"
_{COMMAND}() {{
    local word=${{COMP_WORDS[COMP_CWORD]}} before=${{COMP_WORDS[COMP_CWORD-1]}} command=${{COMP_WORDS[1]}}
    local words= values= files=
    COMPREPLY=()
    if [ "$COMP_CWORD" -eq 1 ]; then
        COMPREPLY=($(compgen -W "help @COMMANDS@" -- "$word"))
        return
    fi
    # In bash, "--channel=A" is three words.
    if [ "$before" = "=" ]; then
        before=${{COMP_WORDS[COMP_CWORD-2]}}
    elif [ "$word" = "=" ]; then
        word=
    fi
    case "$command ${{COMP_WORDS[COMP_CWORD-2]}}" in
@PAIRS@    esac
    case "$command $before" in
"""
BASH_MIDDLE = """    esac
    case "$command" in
    help) values="@COMMANDS@" ;;
"""
BASH_BACK = f"""    esac
    case $word in
    -*) COMPREPLY=($(compgen -W "$words" -- "$word")) ;;
    *)
        COMPREPLY=($(compgen -W "$values" -- "$word"))
        [ -z "$files" ] || compopt -o default ;;
    esac
}}
complete -F _{COMMAND} {COMMAND}
"""
"""The end of the script. Names of files are left to bash itself, which knows `~`, quotes and spaces."""


def values_of(arguments: Iterable[Argument]) -> str:
    """Returns the known words that stand alone."""
    return " ".join(choice for it in arguments if not it.options for choice in it.choices)


def names_of(commands: Iterable[Command]) -> str:
    """Returns the names of commands."""
    return " ".join(it.name for it in commands)


def bash(commands: Sequence[Command]) -> str:
    """Returns the script for bash."""
    parsed = [(it.name, list(arguments_of(it.parser()))) for it in commands]
    pairs, known = [], []
    for name, arguments in parsed:
        for it in arguments:
            patterns = " | ".join(f'"{name} {option}"' for option in it.options)
            if len(it.values) > 1:
                pairs.append(f"    {patterns}) return ;;\n")
            if patterns and it.choices:
                words = f'compgen -W "{" ".join(it.choices)}" -- "$word"'
                known.append(f"    {patterns}) COMPREPLY=($({words})); return ;;\n")
            elif patterns and it.value:
                known.append(f"    {patterns}) {'compopt -o default; ' if it.is_file else ''}return ;;\n")
    lines = []
    for name, arguments in parsed:
        options = " ".join(option for it in arguments for option in it.options)
        files = "yes" if any(it.is_file and not it.options for it in arguments) else ""
        lines.append(f'    {name}) words="{options}" values="{values_of(arguments)}" files={files} ;;\n')
    text = "".join([BASH_FRONT.replace("@PAIRS@", "".join(pairs)), *known, BASH_MIDDLE, *lines, BASH_BACK])
    return text.replace("@COMMANDS@", names_of(commands))


def quoted(text: str) -> str:
    """Returns a text between single quotes, with what `_arguments` of zsh reads in it escaped."""
    for special in ("\\", "[", "]", ":"):
        text = text.replace(special, f"\\{special}")
    return "'" + text.replace("'", "'\\''") + "'"


def zsh_words(argument: Argument) -> list[str]:
    """Returns the words of `_arguments` for an argument."""
    action = f"({' '.join(argument.choices)})" if argument.choices else "_files" if argument.is_file else ""
    values = "".join(f":{quoted(it)[1:-1]}:{action}" for it in argument.values)
    if not argument.options:
        return [f"'{values}'"]
    return [quoted(f"*{it}")[:-1] + f"{'=' if values and it.startswith('--') else ''}"
            f"[{quoted(argument.help)[1:-1]}]{values}'" for it in argument.options]


def zsh(commands: Sequence[Command]) -> str:
    """Returns the script for zsh."""
    lines = [f"#compdef {COMMAND}\n"
             f"# Completion of {COMMAND} for zsh: eval \"$({COMMAND} completion zsh)\" after compinit,\n"
             f"# or {COMMAND} completion zsh > FOLDER/_{COMMAND} before it, with a FOLDER of fpath\n"
             f"_{COMMAND}() {{\n    local -a commands\n    commands=(\n        'help:Describes a command'\n"]
    lines += [f"        {quoted(it.name)[:-1]}:{quoted(first_line(it.purpose))[1:]}\n" for it in commands]
    lines.append("    )\n    if (( CURRENT == 2 )); then\n"
                 "        _describe command commands\n        return\n    fi\n"
                 "    shift words\n    (( CURRENT-- ))\n    case $words[1] in\n"
                 f"    help) _arguments ':command:({names_of(commands)})' ;;\n")
    for it in commands:
        words = [word for argument in arguments_of(it.parser()) for word in zsh_words(argument)]
        lines.append(f"    {it.name}) _arguments {' '.join(words)} ;;\n")
    lines.append(f"    esac\n}}\n# As a file of fpath it is a function, and completes at once.\n"
                 f"if [[ $funcstack[1] == _{COMMAND} ]]; then\n    _{COMMAND} \"$@\"\nelse\n"
                 f"    compdef _{COMMAND} {COMMAND}\nfi\n")
    return "".join(lines)


def first_line(text: str) -> str:
    """Returns the first sentence of a purpose, without its point."""
    return " ".join(text.split()).partition(". ")[0].removesuffix(".")
