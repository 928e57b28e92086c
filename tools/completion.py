"""Makes the completion files of bash and zsh: the commands of `tfstatectl`, their options, and the
values of these, as `tfstatectl --help` lists them."""
import re

from manual import commands

PATHS = {"FOLDER": "-d", "FROM": "-d", "TO": "-d", "DIR": "-d", "FILE": "-f"}
POSSIBLE = re.compile(r" *\[possible values: ([^]]*)\]")
DEFAULT = re.compile(r" *\[default: [^]]*\]")


def possible_in(meaning):
    """Returns the possible values that the meaning of a word lists."""
    found = POSSIBLE.search(meaning)
    return found[1].split(", ") if found else []


def options_of(parts):
    """Returns the options of a command: for each its spellings, the names of its values, whether
    these may be left out, and its meaning."""
    found = []
    for term, meaning in parts.get("Options", []):
        names = re.findall(r"(?<!\S)--?[a-zA-Z][a-z-]*", term)
        found.append((names, re.findall(r"<([^>]+)>", term), "[" in term, meaning))
    return found


def words_of(parts):
    """Returns the words of a command by their positions: for each its name, whether more may
    follow, and its meaning."""
    return [(term.strip("<>[]."), term.endswith("..."), meaning) for term, meaning in parts.get("Arguments", [])]


def compgen(name, meaning):
    """Returns what bash offers for a value, as options of `compgen`; none for an unknown one."""
    if possible_in(meaning):
        return f"-W '{' '.join(possible_in(meaning))}'"
    return PATHS.get(name, "")


def bash_case(command, parts):
    """Returns the lines of bash for a command."""
    lines = []
    for names, values, _, meaning in options_of(parts):
        if values:
            lines += [f"    {'|'.join(f'{command}:{name}' for name in names)}) kind=\"{compgen(values[0], meaning)}\" ;;"]
    words = [text for text in (compgen(name, meaning) for name, _, meaning in words_of(parts)) if text]
    spelled = " ".join(name for names, *_ in options_of(parts) for name in names)
    lines += [f"    {command}:*) options='{spelled}' kind=\"{' '.join(dict.fromkeys(words))}\" ;;"]
    return lines


def bash_text(program):
    """Returns the file for bash."""
    known = commands(program)
    cases = [line for command, parts in known.items() for line in bash_case(command, parts)]
    return "\n".join([
        "# Completes the commands of tfstatectl, their options, and the values of these.",
        "_tfstatectl() {",
        "  local word=${COMP_WORDS[COMP_CWORD]} options='' kind=''",
        "  COMPREPLY=()",
        '  if [ "$COMP_CWORD" -eq 1 ]; then',
        f"    mapfile -t COMPREPLY < <(compgen -W '{' '.join(known)} help --help --version' -- \"$word\")",
        "    return",
        "  fi",
        '  case "${COMP_WORDS[1]}:${COMP_WORDS[COMP_CWORD-1]}" in',
        *cases,
        f"    help:*) kind=\"-W '{' '.join(known)}'\" ;;",
        "  esac",
        '  if [ "${word:0:1}" = - ] && [ -n "$options" ]; then',
        '    mapfile -t COMPREPLY < <(compgen -W "$options" -- "$word")',
        '  elif [ -n "$kind" ]; then',
        "    mapfile -t COMPREPLY < <(eval \"compgen $kind\" -- '\"$word\"')",
        "  fi",
        "}",
        "complete -o filenames -F _tfstatectl tfstatectl", ""])


def quoted(text):
    """Returns a text in single quotes, for zsh."""
    return "'" + text.replace("'", "'\\''") + "'"


def escaped(text, marks):
    """Returns a text with a backslash before each of some marks."""
    return re.sub(f"([{re.escape(marks)}])", r"\\\1", text)


def described(meaning):
    """Returns a meaning as the description of an option for zsh."""
    return escaped(DEFAULT.sub("", POSSIBLE.sub("", meaning)), "[]\\")


def action(name, meaning):
    """Returns how zsh completes a value."""
    if possible_in(meaning):
        return f"({' '.join(possible_in(meaning))})"
    return {"-d": "_files -/", "-f": "_files"}.get(PATHS.get(name), "")


def zsh_specs(parts):
    """Returns the specifications of a command's options and words, for `_arguments` of zsh."""
    specs = []
    for names, values, is_optional, meaning in options_of(parts):
        colon = "::" if is_optional else ":"
        taken = "".join(f"{colon}{value}:{action(value, meaning)}" for value in values)
        specs += [quoted(f"{name}[{described(meaning)}]{taken}") for name in names]
    for place, (name, is_many, meaning) in enumerate(words_of(parts), 1):
        specs.append(quoted(f"{'*' if is_many else place}:{name}:{action(name, meaning)}"))
    return specs


def zsh_text(program):
    """Returns the file for zsh."""
    known = commands(program)
    listed = " ".join(quoted(f"{name}:{escaped(parts[''][0], ':')}") for name, parts in known.items())
    lines = ["#compdef tfstatectl", "_tfstatectl() {", "  local -a commands", f"  commands=({listed})",
             "  if (( CURRENT == 2 )); then", "    _describe command commands", "    return", "  fi",
             "  local command=${words[2]}", "  shift words", "  (( CURRENT-- ))", '  case "$command" in']
    for name, parts in known.items():
        lines += [f"    {name})", "      _arguments \\", " \\\n".join(f"        {spec}" for spec in zsh_specs(parts)), "      ;;"]
    return "\n".join([*lines, "  esac", "}", '_tfstatectl "$@"', ""])


def completions(program):
    """Returns each file by its path in the package. The program is `tfstatectl`."""
    return {"usr/share/bash-completion/completions/tfstatectl": bash_text(program), "usr/share/zsh/vendor-completions/_tfstatectl": zsh_text(program)}
