#!/usr/bin/env python3
"""Makes what `make install` puts beside the program, of the texts of its own help: the manual page, and the completions of
bash, zsh and fish.

usage: pages.py PROGRAM FOLDER      makes tigertopo.1, tigertopo.bash, _tigertopo and tigertopo.fish in FOLDER
"""

import re
import subprocess
import sys
from pathlib import Path

SECTION = re.compile(r"^(Usage|Arguments|Commands|Options|Examples?|Exit status):", re.M)


class Option:
    """An option of a command: its names, the word for its value if it has one, and what is said of it."""

    def __init__(self, line):
        names, said = re.split(r"\s{2,}", line.strip(), maxsplit=1)
        self.value = (re.search(r"<(.+?)>", names) or [None, None])[1]
        self.names = re.findall(r"--?[a-zA-Z][a-z-]*", names)
        self.said = said

    @property
    def long(self):
        return self.names[-1].removeprefix("--")


class Help:
    """The help of the program, or of a command of it, in its parts."""

    def __init__(self, program, command=None):
        words = [program, "help", *([command] if command else [])]
        text = subprocess.run(words, capture_output=True, text=True, check=True).stdout
        self.name = command
        self.about, _, rest = text.partition("\n\n")
        self.usage = re.search(r"^Usage: (.*)$", rest, re.M)[1]
        self.commands = [re.split(r"\s{2,}", it.strip(), maxsplit=1) for it in self.lines(rest, "Commands")]
        self.arguments = [re.split(r"\s{2,}", it.strip(), maxsplit=1) for it in self.lines(rest, "Arguments")]
        self.options = [Option(it) for it in self.lines(rest, "Options")]
        behind = re.search(r"^Options:\n(?:.+\n)+\n?((?s:.*))\Z", rest, re.M)
        self.story = behind[1].strip("\n") if behind else ""

    @staticmethod
    def lines(text, title):
        found = re.search(rf"^{title}:\n((?:[ ]+.+\n)+)", text, re.M)
        return found[1].splitlines() if found else []


def program_of(program):
    """The program's help, and that of each command but `help`."""
    top = Help(program)
    return top, [Help(program, name) for name, _ in top.commands if name != "help"]


def roff(text):
    """The text as a manual page has it."""
    lines = text.replace("\\", "\\e").replace("-", "\\-").splitlines()
    return "\n".join("\\&" + it if it[:1] in (".", "'") else it for it in lines)


def story(text):
    """Paragraphs, with examples and tables as they stand."""
    made = []
    for part in re.split(r"\n{2,}", text):
        title = SECTION.match(part)
        if title:
            head, _, rest = part.partition("\n")
            made += [".PP", roff(head), ".nf", roff(rest), ".fi"]
        elif part:
            made += [".PP", roff(part)]
    return "\n".join(made)


def page(version, top, commands):
    """The manual page."""
    made = [f'.TH TIGERTOPO 1 "" "{roff(version)}" "User Commands"', ".SH NAME", f"tigertopo \\- {roff(top.about)}",
            ".SH SYNOPSIS", *(line for it in commands for line in (".B " + roff(it.usage), ".br")), ".SH COMMANDS"]
    for it in commands:
        made += [f".SS {roff(it.name)}", roff(it.about) + ".", story(it.story)]
        for name, said in it.arguments:
            made += [".TP", f".I {roff(name)}", roff(said)]
        for option in it.options:
            value = f" <{option.value}>" if option.value else ""
            made += [".TP", f".B {roff(', '.join(option.names) + value)}", roff(option.said)]
    examples, _, status = top.story.partition("Exit status:\n")
    made += [".SH EXAMPLES", ".nf", roff(examples.partition("\n")[2].rstrip("\n")), ".fi", ".SH EXIT STATUS", ".nf", roff(status), ".fi"]
    return "\n".join(it for it in made if it) + "\n"


def bash(top, commands):
    """Completions of bash."""
    cases = "\n".join(
        f"        {it.name}) options=\"{' '.join('--' + o.long for o in it.options)}\"; values=\"{' '.join('--' + o.long for o in it.options if o.value)}\" ;;"
        for it in commands)
    return f"""# Completions of tigertopo for bash.
_tigertopo() {{
    local word=${{COMP_WORDS[COMP_CWORD]}} before=${{COMP_WORDS[COMP_CWORD-1]}} options= values=
    COMPREPLY=()
    if [ "$COMP_CWORD" = 1 ]; then
        COMPREPLY=($(compgen -W "{' '.join(name for name, _ in top.commands)} --help --version" -- "$word"))
        return
    fi
    case ${{COMP_WORDS[1]}} in
{cases}
        help) COMPREPLY=($(compgen -W "{' '.join(it.name for it in commands)}" -- "$word")); return ;;
    esac
    case $word in
        -*) case " $values " in *" $before "*) ;; *) COMPREPLY=($(compgen -W "$options" -- "$word")); return ;; esac ;;
    esac
    COMPREPLY=($(compgen -f -- "$word"))
}}
complete -o filenames -F _tigertopo tigertopo
"""


def quoted(text):
    """The text between single quotes, as zsh and fish read it."""
    return "'" + text.replace("\\", "\\\\").replace("'", "'\\''") + "'"


def zsh(top, commands):
    """Completions of zsh."""
    names = "\n".join(f"        {quoted(name + ':' + said.replace(':', ' '))}" for name, said in top.commands)
    cases = []
    for it in commands:
        told = [quoted(f"--{o.long}[{re.sub(r'[][:]', ' ', o.said)}]" + (f":{o.value.replace(':', ' ')}:_files" if o.value else "")) for o in it.options]
        cases.append(f"        {it.name}) _arguments {' '.join(told)} '*:FILES:_files' ;;")
    return f"""#compdef tigertopo
# Completions of tigertopo for zsh.
_tigertopo() {{
    local -a commands
    commands=(
{names}
    )
    if (( CURRENT == 2 )); then
        _describe command commands
        return
    fi
    local command=$words[2]
    (( CURRENT-- ))
    shift words
    case $command in
{chr(10).join(cases)}
        help) _describe command commands ;;
    esac
}}
_tigertopo "$@"
"""


def fish(top, commands):
    """Completions of fish."""
    made = ["# Completions of tigertopo for fish."]
    made += [f"complete -c tigertopo -n __fish_use_subcommand -f -a {name} -d {quoted(said)}" for name, said in top.commands]
    for it in commands:
        for option in it.options:
            value = " -r" if option.value else ""
            made.append(f"complete -c tigertopo -n '__fish_seen_subcommand_from {it.name}' -l {option.long}{value} -d {quoted(option.said)}")
    return "\n".join(made) + "\n"


def pages(program):
    """Each file by its name."""
    version = subprocess.run([program, "--version"], capture_output=True, text=True, check=True).stdout.strip()
    top, commands = program_of(program)
    return {"tigertopo.1": page(version, top, commands), "tigertopo.bash": bash(top, commands),
            "_tigertopo": zsh(top, commands), "tigertopo.fish": fish(top, commands)}


def main():
    if len(sys.argv) != 3:
        sys.exit(__doc__)
    folder = Path(sys.argv[2])
    folder.mkdir(parents=True, exist_ok=True)
    for name, text in pages(sys.argv[1]).items():
        (folder / name).write_text(text)


if __name__ == "__main__":
    main()
