"""completion: writes what completes the words of virraupez in a shell: its commands, their options, and files.

In ~/.bashrc stands `eval "$(./virraupez completion bash)"`, and in ~/.zshrc, after compinit, the same with zsh."""
from __future__ import annotations

from .. import TYPE_CHECKING, command, vocabulary

if TYPE_CHECKING:
    import argparse
    from typing import Iterator, List, Optional

BASH = """# The words of virraupez in bash; made by `virraupez completion bash`.
_virraupez() {{
  local word=${{COMP_WORDS[COMP_CWORD]}} words="" options=""
  if ((COMP_CWORD == 1)); then
    words="{commands} help" options="--help --version"
  else
    case ${{COMP_WORDS[1]}} in
{rows}
    help) words="{commands}" ;;
    esac
  fi
  [[ $word != -* ]] || words=$options
  COMPREPLY=($(compgen -W "$words" -- "$word"))
}}
complete -o default -F _virraupez virraupez
"""
ZSH = """#compdef virraupez
# The words of virraupez in zsh; made by `virraupez completion zsh`.
_virraupez() {{
  local -a names
  names=(
{names}
  )
  if ((CURRENT == 2)); then
    _describe command names
    _arguments '--help[show what there is]' '--version[write the version]'
    return
  fi
  shift words
  ((CURRENT -= 1))
  case $words[1] in
{rows}
    help) _describe command names ;;
  esac
}}
# A file of a folder of completions is read as the function itself.
if [[ ${{funcstack[1]-}} == _virraupez ]]; then
  _virraupez "$@"
else
  compdef _virraupez virraupez
fi
"""
SHELLS = ("bash", "zsh")
# What options take that is the name of a file.
NAMES_OF_FILES = ("FILE", "DOCUMENT", "RULES", "DIR")


def parser(prog: Optional[str] = None) -> command.Parser:
    made = command.parser(__doc__, "The status is 0, and 2 if the text can't be written.", prog)
    made.add_argument("shell", metavar="SHELL", choices=SHELLS, help=f"{' or '.join(SHELLS)}")
    return made


def run(asked: argparse.Namespace, out: command.Output) -> int:
    all_commands = vocabulary.all_commands()
    out.write(bash(all_commands) if asked.shell == "bash" else zsh(all_commands))
    return command.FINE


def bash(all_commands: List[vocabulary.Command]) -> str:
    rows = []
    for it in all_commands:
        options = " ".join(name for option in it.options for name in option.names)
        choices = " ".join(choice for place in it.places for choice in place.choices)
        rows.append(f'    {it.name}) options="{options}" words="{choices}" ;;')
    return BASH.format(commands=" ".join(it.name for it in all_commands), rows="\n".join(rows))


def zsh(all_commands: List[vocabulary.Command]) -> str:
    names = "\n".join(f"    {quoted(it.name + ':' + it.says)}" for it in all_commands)
    rows = "\n".join(f"    {it.name}) _arguments {' '.join(quoted(spec) for spec in specs(it))} ;;" for it in all_commands)
    return ZSH.format(names=names, rows=rows)


def specs(it: vocabulary.Command) -> Iterator[str]:
    """What _arguments of zsh takes for each option and place of a command."""
    for option in it.options:
        for name in option.names:
            taken = "".join(f":{it}:{'_files' if it in NAMES_OF_FILES else ''}" for it in option.taken)
            yield f"*{name}[{bare(option.says)}]{taken}"
    for number, place in enumerate(it.places, 1):
        what = f"({' '.join(place.choices)})" if place.choices else "_files"
        yield f"{'*' if place.often else number}:{place.takes}:{what}"


def bare(text: str) -> str:
    """A text without signs that _arguments takes for its own."""
    return text.replace("[", "(").replace("]", ")").replace(":", ";")


def quoted(text: str) -> str:
    return "'" + text.replace("'", "'\\''") + "'"
