#!/usr/bin/env python3
"""Makes the manual pages and the completions for bash of isobench and isoslab out of the text of their help.

    python3 tools/make_manual.py            ends with 1 if share/ is not what would be made
    python3 tools/make_manual.py --write    makes share/man/man1/NAME.1 and share/bash-completion/completions/NAME

`man share/man/man1/isobench.1` shows a page; `. share/bash-completion/completions/isobench` completes in this shell.
"""
import pathlib
import re
import sys

TOP = pathlib.Path(__file__).resolve().parent.parent
# The crate of each program's help, and the command that is given the name of a file.
PROGRAMS = {"isobench": ("arguments", "session"), "isoslab": ("slab_command", "write")}
WORDS = TOP / "crates" / "program" / "src"
SHARE = TOP / "share"


def help_lines(crate):
    text = (TOP / "crates" / crate / "src" / "help.rt").read_text(encoding="utf-8")
    return re.search(r'^const HELP: &str = "\\\n(.*?)^";', text, re.MULTILINE | re.DOTALL)[1].splitlines()


def version():
    found = [it for file in sorted(WORDS.glob("*.rt")) for it in re.findall(r'"(?: )?(\d+\.\d+\.\d+)"', file.read_text(encoding="utf-8"))]
    return found[0] if found else sys.exit(f"no version in {WORDS.relative_to(TOP)}")


def sections(lines):
    """The help in parts: the first line, the usage, the commands, what more is told, the arguments, the statuses and where the manual is."""
    parts, inside = [], []
    for line in [*lines, ""]:
        if line:
            inside.append(line)
        elif inside:
            parts.append(inside)
            inside = []
    if len(parts) < 6 or parts[1][0] != "Usage:" or not parts[-2][0].startswith("Exit status"):
        sys.exit("the help has other parts than this script knows")
    return *parts[:3], sum(parts[3:-3], []), *parts[-3:]


def usages(lines):
    """The commands of the usage, each as one line."""
    joined = []
    for line in lines:
        if line.startswith("   "):
            joined[-1] += " " + line.strip()
        else:
            joined.append(line)
    return joined


def roff(text):
    """A text for roff: hyphens of options stay ASCII, and a line does not begin with a control character."""
    text = text.replace("\\", "\\e").replace("-", "\\-")
    return "\\&" + text if text[:1] in (".", "'") else text


def command_page(lines):
    """The commands: each with its sentence, its example and its options."""
    page, example = [], False
    for line in lines:
        if command := re.match(r"([a-z]+) +(.*)", line):
            page += [".TP", f".B {command[1]}", roff(command[2])]
        elif option := re.match(r" {11}(--[a-z]+(?:=\w+)?) +(.*)", line):
            page += [".RS", ".TP", f".B {roff(option[1])}", roff(option[2]), ".RE"]
        elif line.startswith(" " * 13) and not line.startswith(" " * 24):
            page += [".IP", ".nf", roff(line.strip()), ".fi"]
            example = True
            continue
        elif page[-1] == ".RE":
            page[-1:] = [roff(line.strip()), ".RE"]
        else:
            page += ([".IP"] if example else []) + [roff(line.strip())]
        example = False
    return page


def manual(lines):
    first, usage, commands, more, arguments, statuses, manual_of = sections(lines)
    name, purpose = first[0].split(": ", 1)
    page = [f'.TH {name.upper()} 1 "" "{name} {version()}" "User Commands"', ".SH NAME", f"{name} \\- {roff(purpose)}", ".SH SYNOPSIS", ".nf"]
    page += [roff(line[2:]) for line in usage[1:]] + [".fi", ".SH COMMANDS", *command_page(commands)]
    page += [".SH DESCRIPTION", *map(roff, more)] if more else []
    page += [".SH ARGUMENTS", *map(roff, arguments), ".SH EXIT STATUS", roff(statuses[0])]
    for line in statuses[1:]:
        number, meaning = line.split(maxsplit=1)
        page += [".TP", f".B {number}", roff(meaning)]
    return "\n".join([*page, ".SH SEE ALSO", *map(roff, manual_of)]) + "\n"


def completion(program, naming, lines):
    """The completion: commands, and the options and words that the usage shows for each; `naming` takes the name of a file."""
    words = {}
    for line in usages(sections(lines)[1][1:]):
        if command := re.match(rf"  {program} ([a-z]+) ?(.*)", line):
            shown = [it.strip("[]") for it in command[2].split()]
            options = [re.sub(r"=[A-Z]$", "=", it) for it in shown if it.startswith("--")]
            choices = [f"{it.split('=')[0]}={value}" for it in options if "|" in it for value in it.split("=")[1].split("|")]
            plain = [value for it in shown if "|" in it and not it.startswith("--") for value in it.split("|")]
            words[command[1]] = [it for it in options if "|" not in it] + choices + plain + ["--help"]
    cases = "\n".join(f"        {name}) words='{' '.join(given)}' ;;" for name, given in words.items())
    return f"""# Completion of {program} for bash, made by tools/make_manual.py.
_{program}() {{
    local words word=${{COMP_LINE:0:COMP_POINT}}
    word=${{word##* }}
    case ${{COMP_WORDS[1]}} in
{cases}
        *) words='{' '.join(words)} --help --version' ;;
    esac
    [ "$COMP_CWORD" -eq 1 ] && words='{' '.join(words)} --help --version'
    mapfile -t COMPREPLY < <(compgen -W "$words" -- "$word")
    # bash takes = for the end of a word
    [[ $word == *=* ]] && COMPREPLY=("${{COMPREPLY[@]#"${{word%"${{word##*=}}"}}"}}")
    [[ ${{COMPREPLY[0]}} == *= ]] && compopt -o nospace
    [ "${{COMP_WORDS[1]}}" = {naming} ] && [[ $word != -* ]] && compopt -o default
}}
complete -F _{program} {program}
"""


def main():
    words = sys.argv[1:]
    if words not in ([], ["--write"]):
        print(__doc__, end="")
        sys.exit(0 if words == ["--help"] else 2)
    made = {}
    for program, (crate, naming) in PROGRAMS.items():
        made[SHARE / "man" / "man1" / f"{program}.1"] = manual(help_lines(crate))
        made[SHARE / "bash-completion" / "completions" / program] = completion(program, naming, help_lines(crate))
    other = [file for file, text in made.items() if not file.exists() or file.read_text(encoding="utf-8") != text]
    if words:
        for file in other:
            file.parent.mkdir(parents=True, exist_ok=True)
            file.write_text(made[file], encoding="utf-8")
        return
    for file in other:
        print(f"{file.relative_to(TOP)} is not as tools/make_manual.py makes it")
    sys.exit(1 if other else 0)


main()
