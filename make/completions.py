"""What bash, zsh and fish complete behind the name of the desk, made from its help; and behind that of a program without words.

Behind `desk` stand its words and options. Behind a word stand its options and, in the place of each argument, what may be there: a file for
FILE, the choices that the help names one by one, or nothing.
"""
from __future__ import annotations

from collections.abc import Mapping

from helps import Help, Item

BASH = """\
# Completion of desk for bash.
_desk() {
  local current=${COMP_WORDS[COMP_CWORD]} options places place=0 at
  COMPREPLY=()
  if ((COMP_CWORD == 1)); then
    mapfile -t COMPREPLY < <(compgen -W '%(first)s' -- "$current")
    return
  fi
  case "${COMP_WORDS[1]}" in
%(words)s    *) return ;;
  esac
  for ((at = 2; at < COMP_CWORD; at++)); do
    case "${COMP_WORDS[at]}" in
      %(valued)s)
        [[ ${COMP_WORDS[at + 1]} == = ]] && ((at++))
        ((at++))
        ;;
      -*) ;;
      *) ((place++)) ;;
    esac
  done
  if ((at > COMP_CWORD)); then
    return
  elif [[ $current == -* ]]; then
    mapfile -t COMPREPLY < <(compgen -W "$options" -- "$current")
  elif [[ ${places[place]} == FILE ]]; then
    compopt -o default 2> /dev/null
  else
    mapfile -t COMPREPLY < <(compgen -W "${places[place]}" -- "$current")
  fi
}
complete -F _desk desk
"""

BASH_WORD = """\
    %(word)s)
      options='%(options)s'
      places=(%(places)s)
      ;;
"""

ZSH = """\
#compdef desk
# Completion of desk for zsh.
local context state state_descr line
local -A opt_args
local -a commands
commands=(
%(commands)s)
_arguments -C%(options)s '1: :->command' '*:: :->behind' && return
case $state in
  command) _describe command commands ;;
  behind)
    case $words[1] in
%(words)s    esac
    ;;
esac
"""

FISH = """\
# Completion of desk for fish.
complete -c desk -f
"""

BASH_ALONE = """\
# Completion of %(name)s for bash.
complete -o default -W '%(options)s' %(name)s
"""

ZSH_ALONE = """\
#compdef %(name)s
# Completion of %(name)s for zsh.
_arguments%(options)s%(arguments)s
"""

FISH_ALONE = """\
# Completion of %(name)s for fish.
"""


def flags_of(told: Help) -> str:
    """All options of a help, in one line."""
    return " ".join(flag for it in told.items("Options") for flag in it.flags())


def place_of(argument: Item) -> str:
    """What may stand in the place of an argument: the word FILE for a file, else choices, if any."""
    return "FILE" if argument.value() == "FILE" else " ".join(argument.choices())


def bash(whole: Help, words: Mapping[str, Help]) -> str:
    """The completion for bash."""
    valued = [flag for told in words.values() for it in told.items("Options") if it.value() for flag in it.flags()]
    cases = []
    for word, told in words.items():
        places = " ".join(f"'{place_of(it)}'" for it in told.items("Arguments"))
        cases.append(BASH_WORD % {"word": word, "options": flags_of(told), "places": places})
    return BASH % {"first": f"{' '.join(words)} {flags_of(whole)}", "words": "".join(cases), "valued": " | ".join(valued)}


def zsh_text(text: str) -> str:
    """A text as it stands between single quotes, within a description."""
    return "".join("\\" + c if c in "\\[]:" else c for c in text).replace("'", "'\\''")


def zsh_option(option: Item) -> str:
    """The words that tell `_arguments` of an option; help and the version are asked for alone."""
    about = f"[{zsh_text(option.about)}]"
    if option.value():
        return "".join(f" '{it}={about}:{option.value()}:'" for it in option.flags())
    alone = "(- *)" if {"--help", "--version"} & set(option.flags()) else ""
    return "".join(f" '{alone}{it}{about}'" for it in option.flags())


def zsh_argument(number: int, argument: Item) -> str:
    """The words that tell `_arguments` of an argument."""
    place = place_of(argument)
    action = "_files" if place == "FILE" else f"({place})" if place else ""
    return f" '{number}:{argument.value()}:{action}'"


def zsh(whole: Help, words: Mapping[str, Help]) -> str:
    """The completion for zsh."""
    commands = "".join(f"  '{it.name}:{zsh_text(it.about)}'\n" for it in whole.items("Commands"))
    cases = []
    for word, told in words.items():
        options = "".join(zsh_option(it) for it in told.items("Options"))
        arguments = "".join(zsh_argument(*it) for it in enumerate(told.items("Arguments"), 1))
        cases.append(f"      {word}) _arguments{options}{arguments} ;;\n")
    options = "".join(zsh_option(it) for it in whole.items("Options"))
    return ZSH % {"commands": commands, "options": options, "words": "".join(cases)}


def fish_text(text: str) -> str:
    """A text between single quotes."""
    return "'" + text.replace("\\", "\\\\").replace("'", "\\'") + "'"


def fish_option(where: str, option: Item) -> str:
    """The line that tells of an option, where this condition holds."""
    forms = " ".join(f"-l {it[2:]}" if it.startswith("--") else f"-s {it[1:]}" for it in option.flags())
    return f"complete -c desk -n {where} {forms}{' -x' if option.value() else ''} -d {fish_text(option.about)}\n"


def fish_argument(where: str, argument: Item) -> str:
    """The line that tells of an argument, where this condition holds; none where nothing can be named."""
    place = place_of(argument)
    if not place:
        return ""
    given = "-F" if place == "FILE" else f"-a '{place}' -d {argument.value()}"
    return f"complete -c desk -n {where} {given}\n"


def fish(whole: Help, words: Mapping[str, Help]) -> str:
    """The completion for fish."""
    lines = [fish_option("__fish_use_subcommand", it) for it in whole.items("Options")]
    lines += [f"complete -c desk -n __fish_use_subcommand -a {it.name} -d {fish_text(it.about)}\n" for it in whole.items("Commands")]
    for word, told in words.items():
        where = f"'__fish_seen_subcommand_from {word}'"
        lines += [fish_option(where, it) for it in told.items("Options")]
        lines += [fish_argument(where, it) for it in told.items("Arguments")]
    return FISH + "".join(lines)


def bash_alone(name: str, told: Help) -> str:
    """The completion for bash of a program that has no words: its options, and else files."""
    return BASH_ALONE % {"name": name, "options": flags_of(told)}


def zsh_alone(name: str, told: Help) -> str:
    """The completion for zsh of a program that has no words."""
    options = "".join(zsh_option(it) for it in told.items("Options"))
    arguments = "".join(zsh_argument(*it) for it in enumerate(told.items("Arguments"), 1))
    return ZSH_ALONE % {"name": name, "options": options, "arguments": arguments}


def fish_alone(name: str, told: Help) -> str:
    """The completion for fish of a program that has no words, behind which files may stand."""
    options = ""
    for it in told.items("Options"):
        forms = " ".join(f"-l {flag[2:]}" if flag.startswith("--") else f"-s {flag[1:]}" for flag in it.flags())
        options += f"complete -c {name} {forms} -d {fish_text(it.about)}\n"
    return FISH_ALONE % {"name": name} + options
