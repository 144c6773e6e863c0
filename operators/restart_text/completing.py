"""Completion for bash, made from the commands' own arguments: python3 -m restart_text.completing prints the script, and `make install` puts it
where bash looks for it."""
import argparse

from .command import parser
from .stamping import version

SCRIPT = """# Completion of restart-text %(version)s for bash.
_restart_text() {
    local current=${COMP_WORDS[COMP_CWORD]} before=${COMP_WORDS[COMP_CWORD-1]} command= word offered=
    COMPREPLY=()
    for word in "${COMP_WORDS[@]:1:COMP_CWORD-1}"; do
        if [[ $word != -* ]]; then
            command=$word
            break
        fi
    done
    case $command:$before in
%(values)s
    esac
    case $command in
    "") offered="%(commands)s" ;;
%(options)s
    esac
    if [[ -z $command || $current == -* ]]; then
        COMPREPLY=($(compgen -W "$offered" -- "$current"))
    fi
}
# Where nothing is offered, files are.
complete -o bashdefault -o default -F _restart_text restart-text
"""
NOTHING = "COMPREPLY=() && compopt +o bashdefault +o default 2>/dev/null; return"


def commands_of(top):
    """Each command's parser."""
    return next(action.choices for action in top._actions if isinstance(action, argparse._SubParsersAction))


def script(top=None):
    top = top or parser()
    commands = commands_of(top)
    values, options = {}, []
    for name, made in commands.items():
        found = [action for action in made._actions if action.option_strings]
        options.append('    %s) offered="%s" ;;' % (name, " ".join(option for action in found for option in action.option_strings)))
        for action in found:
            if value_of(action):
                values.setdefault(value_of(action), []).extend("%s:%s" % (name, option) for option in action.option_strings)
    first = [*commands, *(option for action in top._actions if action.option_strings for option in action.option_strings)]
    cases = ["    %s) %s ;;" % (" | ".join(places), value) for value, places in values.items()]
    return SCRIPT % {"version": version(), "commands": " ".join(first), "options": "\n".join(options), "values": "\n".join(cases)}


def value_of(action):
    """What bash does for the value of an option: offers its choices, or files, or nothing; empty where it has none."""
    if action.nargs == 0:
        return ""
    if action.choices:
        return 'COMPREPLY=($(compgen -W "%s" -- "$current")); return' % " ".join(map(str, action.choices))
    return "return" if action.metavar and set(action.metavar.split(".")) & {"FILE", "PATH", "FOLDER", "PAGE", "PICTURE"} else NOTHING


if __name__ == "__main__":
    print(script(), end="")
