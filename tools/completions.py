#!/usr/bin/env python3
"""Writes what the shells bash, zsh and fish complete of crashbpf's command line, from what its help says.

    tools/completions.py [FOLDER]

takes the helps from docs/crashbpf.1, which tests/gate/run.py compares with the program's own, and writes the files crashbpf.bash,
_crashbpf (zsh) and crashbpf.fish to FOLDER, docs/completions where it isn't given. tools/check_documents.py compares what
stands there with what is written here. So a new command or option is completed once the page has it.

Which words an option takes is read from its description, where that is `WHAT: word; word, more of it [default: word]` with
the default among them. An argument or a value named as one of FILES is a file, and any other value is left to the reader.
"""
import re
import sys
from dataclasses import dataclass
from pathlib import Path

sys.dont_write_bytecode = True

import man_page

TOP = Path(__file__).resolve().parent.parent
FILES = ("LOG", "RAW", "PROGRAM", "SOURCE", "FILE", "IMAGE", "BASE", "REPORT", "PATH", "FOLDER", "DIR")
NOTE = "Made by tools/completions.py of the program's help."


@dataclass
class Option:
    """An option: its names, its value's name or None, the words that the value may be, and what the help says of it."""

    names: list
    value: str
    words: list
    says: str


@dataclass
class Command:
    """A command: its name, what the help says of it, its options, and the names of its arguments, with `...` where repeated."""

    name: str
    says: str
    options: list
    arguments: list


def listed(text, title):
    """Returns the items of a list of a help, each with what is said of it; where that is wrapped it is joined."""
    items = []
    for line in text.partition(f"{title}:\n")[2].partition("\n\n")[0].split("\n"):
        begun = re.match(r"(?: {2}| {6})(?=\S)", line)
        if begun:
            name, _, says = line.strip().partition("  ")
            items.append([name, says.strip()])
        elif line.strip() and items:
            items[-1][1] += f" {line.strip()}"
    return items


def words_of(says):
    """Returns the words that an option's description lists, or none."""
    found = re.fullmatch(r"[^:]*: (.*) \[default: (\S+)\]", says)
    words = [re.split(r"[,\s]", it.strip())[0] for it in found[1].split(";")] if found else []
    return words if found and found[2] in words else []


def option_of(item, says):
    names = re.findall(r"--?[A-Za-z][\w-]*", item.partition("<")[0])
    value = re.search(r"<(.*)>", item)
    return Option(names, value[1] if value else None, words_of(says) if value else [], says)


def options_in(text):
    return [option_of(*it) for it in listed(text, "Options")]


def commands_in(helps):
    """Returns the commands of the helps, `help` as well."""
    names = listed(helps[""], "Commands")
    return [
        Command(
            name,
            says,
            options_in(helps.get(name, "")),
            [re.sub(r"[<>\[\]]", "", it) for it, _ in listed(helps.get(name, ""), "Arguments")],
        )
        for name, says in names
    ]


def is_file(name):
    return name.removesuffix("...") in FILES


def flags(options):
    return " ".join(name for it in options for name in it.names)


def bash_case(command, options, what):
    names = "|".join(f"*\\ {command.name}\\ {name}" for it in options for name in it.names)
    return f"    {names}) {what} ;;"


def bash_cases(command, options, what):
    return [bash_case(command, options, what)] if options else []


def bash(commands, general):
    """The file for bash, version 4 or newer."""
    names = " ".join(it.name for it in commands)
    lines = [f"# Completions of crashbpf for bash. {NOTE}", "_crashbpf() {"]
    lines += ["    local word=${COMP_WORDS[COMP_CWORD]} before=${COMP_WORDS[COMP_CWORD - 1]} words=", "    COMPREPLY=()"]
    lines += ['    [ "$word" != = ] || word=', '    [ "$before" != = ] || before=${COMP_WORDS[COMP_CWORD - 2]}']
    lines += ['    case "$COMP_CWORD ${COMP_WORDS[1]} $before" in', f"    1\\ *) words='{names} {flags(general)}' ;;"]
    lines += [f"    *\\ help\\ *) words='{names}' ;;"]
    for it in commands:
        valued = [option for option in it.options if option.value]
        lines += [bash_case(it, [option], f"words='{' '.join(option.words)}'") for option in valued if option.words]
        lines += bash_cases(it, [option for option in valued if not option.words and is_file(option.value)], ":")
        lines += bash_cases(it, [option for option in valued if not option.words and not is_file(option.value)], "return")
        if it.options:
            lines.append(f"    *\\ {it.name}\\ *) [[ $word != -* ]] || words='{flags(it.options)}' ;;")
    lines += ["    esac", '    if [ -n "$words" ]; then']
    lines += ['        mapfile -t COMPREPLY < <(compgen -W "$words" -- "$word")', "    else", "        compopt -o filenames"]
    lines += ['        mapfile -t COMPREPLY < <(compgen -f -- "$word")', "    fi", "}", "complete -F _crashbpf crashbpf"]
    return "\n".join(lines) + "\n"


def zsh_quoted(text):
    return "'" + text.replace("'", "'\\''") + "'"


def zsh_value(option):
    """Returns what zsh completes after an option."""
    if not option.value:
        return ""
    shown = option.value.replace(":", "\\:")
    return f":{shown}:" + (f"({' '.join(option.words)})" if option.words else "_files" if is_file(option.value) else " ")


def zsh_option(option):
    """Returns an option as zsh has it."""
    says = re.sub(r"([\[\]\\:])", r"\\\1", option.says)
    names = option.names
    exclusive = f"({' '.join(names)})" if len(names) > 1 else ""
    return [zsh_quoted(f"{exclusive}{name}[{says}]{zsh_value(option)}") for name in names]


def zsh_argument(place, name):
    action = "_files" if is_file(name) else " "
    return zsh_quoted(f"*:{name.removesuffix('...')}:{action}" if name.endswith("...") else f"{place}:{name}:{action}")


def zsh(commands, general):
    """The file for zsh, of its completion system."""
    lines = ["#compdef crashbpf", f"# Completions of crashbpf for zsh. {NOTE}", "_crashbpf() {", "  local -a commands", "  commands=("]
    lines += ["    " + zsh_quoted(f"{it.name}:{it.says}") for it in commands]
    lines += ["  )", "  if (( CURRENT == 2 )); then", "    _describe command commands"]
    lines += ["    _arguments " + " ".join(word for it in general for word in zsh_option(it)), "    return", "  fi"]
    lines += ["  shift words", "  (( CURRENT-- ))", "  case $words[1] in", "  help) _describe command commands ;;"]
    for it in commands:
        if it.options:
            words = [word for option in it.options for word in zsh_option(option)]
            words += [zsh_argument(place, name) for place, name in enumerate(it.arguments, 1)]
            lines += [f"  {it.name})", "    _arguments \\"]
            lines += [f"      {word} \\" for word in words[:-1]] + [f"      {words[-1]}", "    ;;"]
    lines += ["  esac", "}", '_crashbpf "$@"']
    return "\n".join(lines) + "\n"


def fish_quoted(text):
    return "'" + text.replace("\\", "\\\\").replace("'", "\\'") + "'"


def fish_option(option, when, program="crashbpf"):
    """Returns a line of fish for an option of a program, with when it is offered, where that isn't always."""
    names = " ".join(f"-l {it[2:]}" if it.startswith("--") else f"-s {it[1:]}" for it in option.names)
    value = ""
    if option.value:
        value = f" -x -a {fish_quoted(' '.join(option.words))}" if option.words else " -r -F" if is_file(option.value) else " -x"
    begun = f"complete -c {program}" + (f" -n {fish_quoted(when)}" if when else "")
    return f"{begun} {names}{value} -d {fish_quoted(option.says)}"


def fish(commands, general):
    """The file for fish."""
    none = "__fish_use_subcommand"
    lines = [f"# Completions of crashbpf for fish. {NOTE}", "complete -c crashbpf -f"]
    lines += [f"complete -c crashbpf -n {none} -a {it.name} -d {fish_quoted(it.says)}" for it in commands]
    lines += [fish_option(it, none) for it in general]
    names = " ".join(it.name for it in commands)
    lines.append(f"complete -c crashbpf -n '__fish_seen_subcommand_from help' -a {fish_quoted(names)}")
    for it in commands:
        when = f"__fish_seen_subcommand_from {it.name}"
        lines += [fish_option(option, when) for option in it.options]
        if any(is_file(name) for name in it.arguments):
            lines.append(f"complete -c crashbpf -n {fish_quoted(when)} -F")
    return "\n".join(lines) + "\n"


def bash_alone(program):
    """The file for bash of a program without commands. After `--` stand the words of another program."""
    name = program.name.replace("-", "_")
    chosen = [it for it in program.options if it.words]
    asked = [it for it in program.options if it.value and not it.words and not is_file(it.value)]
    lines = [f"# Completions of {program.name} for bash. {NOTE}", f"_{name}() {{"]
    lines += ["    local word=${COMP_WORDS[COMP_CWORD]} before=${COMP_WORDS[COMP_CWORD - 1]} words=", "    COMPREPLY=()"]
    lines += ['    [[ " ${COMP_WORDS[*]:0:COMP_CWORD} " != *" -- "* ]] || { compopt -o default; return; }', '    case "$before" in']
    lines += [f"    {'|'.join(it.names)}) words='{' '.join(it.words)}' ;;" for it in chosen]
    lines += [f"    {'|'.join(name for it in asked for name in it.names)}) return ;;"] if asked else []
    lines += [f"    *) [[ $word != -* ]] || words='{flags(program.options)}' ;;", "    esac", '    if [ -n "$words" ]; then']
    lines += ['        mapfile -t COMPREPLY < <(compgen -W "$words" -- "$word")', "    else", "        compopt -o filenames"]
    lines += ['        mapfile -t COMPREPLY < <(compgen -f -- "$word")', "    fi", "}", f"complete -F _{name} {program.name}"]
    return "\n".join(lines) + "\n"


def zsh_alone(program):
    """The file for zsh of a program without commands."""
    words = [word for option in program.options for word in zsh_option(option)]
    lines = [f"#compdef {program.name}", f"# Completions of {program.name} for zsh. {NOTE}", "_arguments \\"]
    return "\n".join([*lines, *(f"  {word} \\" for word in words), "  '*:file:_files'"]) + "\n"


def fish_alone(program):
    """The file for fish of a program without commands."""
    lines = [f"# Completions of {program.name} for fish. {NOTE}"]
    return "\n".join([*lines, *(fish_option(it, None, program.name) for it in program.options)]) + "\n"


def files(page):
    """Returns the three files, by name, of the text of the man page."""
    helps = man_page.helps_in(page)
    commands, general = commands_in(helps), options_in(helps[""])
    return {"crashbpf.bash": bash(commands, general), "_crashbpf": zsh(commands, general), "crashbpf.fish": fish(commands, general)}


def main(words):
    if words and words[0].startswith("-"):
        sys.exit(__doc__)
    folder = Path(words[0]) if words else TOP / "docs/completions"
    folder.mkdir(parents=True, exist_ok=True)
    for name, text in files((TOP / "docs/crashbpf.1").read_text()).items():
        (folder / name).write_text(text)


if __name__ == "__main__":
    main(sys.argv[1:])
