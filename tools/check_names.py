#!/usr/bin/env python3
"""Checks the README.md of each crate, and the pages of docs/, against the crates' sources, and the width of their lines.

    python3 tools/check_names.py      ends with 1 if a README.md is missing or too long, something is named that is not
                                      there, or a line of code or of a contract is too wide

A README.md has at most ten lines: its title, what the crate has, and then how that is stated, what is proved and what is not.
crates/README.md links it. What is in its backticks is one of these:

    `name`, `Type::name`           is declared in src/ or specs/ of the crate, or is the name of a crate
    `crate::name`                  is declared there in that crate
    `crate/Module`: `name`, ..     a file in specs/ of that crate, and what is declared in it
    call .. (`name`, ..)           in a line on what is proved: clauses of calls named before the bracket, and where a clause
                                   is a record of `specs/Promise.antt`, the fields of that record
    `folder/`                      a folder of the repository

Of README.md and docs/ the second and third form are looked up, and this one, where the file may lack its ending:

    `crate/path`: `name`, ..       a file or folder in a crate, and what stands in it

A comment of the code cites a decision by the heading of its entry, as `DECISIONS.md, "Ties"`.

A function `put_x` takes a sink, a short text, or bytes and the place from which on it appends; a function `fill_x` takes none of these,
and something that it may change.

A line of code or of a contract has at most 120 characters; comments, imports and lines with a text in quotes may have more.
"""
import functools
import pathlib
import re
import sys

TOP = pathlib.Path(__file__).resolve().parent.parent
CRATES = TOP / "crates"
MOST_LINES = 10
MOST_COLUMNS = 120
PARTS = ["- Stated by ", "- Proved: ", "- Not proved: "]
NAME = r"`[\w:]+`"
PATH = re.compile(rf"`(\w+/[\w/.-]+)`(?:: ({NAME}(?:(?:, | and ){NAME})*))?")
MODULE = re.compile(rf"`(\w+)/(\w+)`(?:: ({NAME}(?:(?:, | and ){NAME})*))?")
CITED = re.compile(r'DECISIONS\.md, "([^"]+)"')
PUT_INTO = re.compile(r"Sink\b|ArrayString<|\bText\b|room: &mut \[u8\], at: usize")
VERB = re.compile(r"(?m)^ *(?:pub(?:\([a-z]+\))? )?(?:const )?fn ((put|fill)_\w+)((?:<[^(]*>)?\((?:[^()]|\([^()]*\))*\))")
# `fill` is a word of scripts here
FILLS_NOTHING = {"script::fill_line"}
FREE = re.compile(r"//|(?:pub |ghost )?use |[^\"]*\"")
BRACKET = re.compile(rf"\(({NAME}(?:, {NAME})*)\)")
QUOTED = re.compile(r"`([^`]+)`")
DECLARED = re.compile(r"\b(?:fn|struct|enum|trait|type|const|macro_rules!) (\w+)")
USED = re.compile(r"\bpub use ([^;]*);")
DEFINED = re.compile(r"^\s*(?:\w+ )*?pub (?:record |data )?(\w+)", re.MULTILINE)
BLOCK = re.compile(r"^(?:pub )?(?:impl(?:<.*?>)?(?: [\w<>', :]+ for)?|trait|struct|enum) (\w+)")
CALL = re.compile(r"^\s*(?:pub )?(?:const )?fn (\w+)")
CLAUSE = re.compile(r"\bensures\*? (\w+) \{ ?(\w*)")
RECORD = re.compile(r"^pub record (\w+)(.*?)\n(?=\S|\Z)", re.MULTILINE | re.DOTALL)
FIELD = re.compile(r"^  pub (\w+) :", re.MULTILINE)


def names():
    """The crates of this repository."""
    lines = (TOP / "crates.txt").read_text(encoding="utf-8").splitlines()
    return [line.partition(":")[0] for line in lines if re.match(r"[a-z]", line)]


def texts(crate, part, ending):
    return [file.read_text(encoding="utf-8") for file in sorted((CRATES / crate / part).glob(f"*.{ending}"))]


@functools.cache
def declared(crate):
    """All names that are declared in the src/ and specs/ of a crate, and those that it re-exports."""
    found = set()
    for text in texts(crate, "src", "rt"):
        found.update(DECLARED.findall(text))
        found.update(name for listed in USED.findall(text) for name in re.findall(r"\w+", listed))
    for text in texts(crate, "specs", "antt"):
        found.update(DEFINED.findall(text))
    return found


@functools.cache
def defined(crate, module):
    """What a file of definitions declares; None where there is no such file."""
    file = CRATES / crate / "specs" / f"{module}.antt"
    return set(DEFINED.findall(file.read_text(encoding="utf-8"))) if file.exists() else None


@functools.cache
def promises(crate):
    """The fields of each record of specs/Promise.antt in a crate."""
    file = CRATES / crate / "specs" / "Promise.antt"
    text = file.read_text(encoding="utf-8") if file.exists() else ""
    return {record: FIELD.findall(body) for record, body in RECORD.findall(text)}


def clauses_in(crate, line):
    """The clauses that begin in a line of a contract, and the fields of the promises that they are."""
    for clause, record in CLAUSE.findall(line):
        yield from [clause, *promises(crate).get(record, [])]


@functools.cache
def calls(crate):
    """The clauses of each call, by the call's name and, in a type or a trait, by both names too."""
    found = {}
    for text in texts(crate, "src", "rt"):
        owner = call = None
        for line in text.splitlines():
            block, head = BLOCK.match(line), CALL.match(line)
            if block:
                owner = block[1]
            if head:
                call = [head[1], f"{owner}::{head[1]}"] if line.startswith(" ") else [head[1]]
            elif re.match(r"\s*\{|\}", line):
                call = None
            owner = None if line.startswith("}") else owner
            for name in call or []:
                found.setdefault(name, set()).update(clauses_in(crate, line))
    return found


@functools.cache
def variants(crate, owner):
    """The variants of an enum."""
    bodies = re.findall(rf"\benum {owner} \{{(.*?)^\}}", "\n".join(texts(crate, "src", "rt")), re.MULTILINE | re.DOTALL)
    return {name for body in bodies for name in re.findall(r"^ +([A-Z]\w*)", body, re.MULTILINE)}


def split(crate, path, crates):
    """The crate that a path begins in, and the rest of it."""
    first, _, rest = path.partition("::")
    return (first, rest) if rest and first in crates else (crate, path)


def is_there(crate, path, crates):
    """Whether a name is declared in the crate that it begins with, or else in this one."""
    where, rest = split(crate, path, crates)
    owner, _, name = rest.rpartition("::")
    if owner:
        in_module = (CRATES / where / "src" / f"{owner}.rt").exists() and name in declared(where)
        return in_module or rest in calls(where) or name in variants(where, owner)
    return rest in declared(where) or rest in crates or path.endswith("/") and (TOP / path).is_dir()


def lost_definitions(line, crates):
    """The files of definitions that a line names and that are not there, and what they do not declare."""
    for crate, module, listed in MODULE.findall(line):
        known = defined(crate, module) if crate in crates else None
        if known is None:
            yield f"no definitions {crate}/{module}"
            continue
        yield from (f"no {name} in {crate}/{module}" for name in re.findall(r"\w+", listed) if name not in known | {"and"})


def lost_clauses(crate, line, crates):
    """The clauses in brackets that no call named before the bracket has."""
    begin, known = 0, set()
    for bracket in BRACKET.finditer(line):
        clauses = re.findall(r"`(\w+)`", bracket[1])
        if any(re.search(r"[A-Z]", clause) for clause in clauses) or not clauses:
            continue
        before = [split(crate, path, crates) for path in QUOTED.findall(line[begin:bracket.start()])]
        new = [calls(where)[path] for where, path in before if path in calls(where)]
        begin, known = bracket.end(), set().union(*new) if new else known
        yield from (f"no clause {clause} of the calls before it" for clause in clauses if clause not in known)


def lost(crate, line, crates):
    """What a line names and is not there."""
    yield from lost_definitions(line, crates)
    rest = MODULE.sub("", line)
    if line.startswith("- Proved"):
        yield from lost_clauses(crate, rest, crates)
        rest = BRACKET.sub(lambda found: found[0] if re.search(r"[A-Z]|::", found[0]) else "", rest)
    yield from (f"no {path}" for path in QUOTED.findall(rest) if not is_there(crate, path, crates))


def text_at(path, crates):
    """What stands in a file of a crate, by its path without `crates/`, and where it may lack its ending; None where there is none."""
    crate, _, rest = path.partition("/")
    names = [path, f"{path}.rt", f"{path}.antt", f"{crate}/specs/{rest}.antt"]
    for file in [CRATES / name for name in names] if crate in crates else []:
        if file.is_file():
            return file.read_text(encoding="utf-8")
    return "" if crate in crates and (CRATES / path).is_dir() else None


def lost_in_page(line, crates):
    """The paths, calls and names that a line of a page has and the crates do not."""
    for path, listed in PATH.findall(line):
        text = text_at(path, crates)
        if text is None and path.split("/")[0] in crates:
            yield f"no {path}"
        elif text:
            yield from (f"no {name} in {path}" for name in QUOTED.findall(listed) if not re.search(rf"\b{name.split('::')[-1]}\b", text))
    for path in QUOTED.findall(line):
        if re.fullmatch(r"\w+(::\w+)+", path) and path.split("::")[0] in crates and not is_there("", path, crates):
            yield f"no {path}"


def lost_in_pages(crates):
    for page in [TOP / "README.md", *sorted((TOP / "docs").glob("*.md"))]:
        for number, line in enumerate(page.read_text(encoding="utf-8").splitlines(), 1):
            yield from (f"{page.relative_to(TOP)}:{number}: {what}" for what in lost_in_page(line, crates))


def lost_decisions():
    """The decisions that the code cites and that docs/DECISIONS.md does not have."""
    headings = re.findall(r"^### (.*)$", (TOP / "docs" / "DECISIONS.md").read_text(encoding="utf-8"), re.MULTILINE)
    for file in sorted(CRATES.glob("*/src/**/*.rt")):
        for cited in CITED.findall(file.read_text(encoding="utf-8")):
            if cited not in headings:
                yield f"{file.relative_to(TOP)}: no decision {cited}"


def wide_lines():
    """The lines of code and of contracts that are too wide."""
    for file in sorted(CRATES.glob("*/src/**/*.rt")):
        for number, line in enumerate(file.read_text(encoding="utf-8").splitlines(), 1):
            if len(line) > MOST_COLUMNS and not FREE.match(line.strip()):
                yield f"{file.relative_to(TOP)}:{number}: more than {MOST_COLUMNS} characters"


def wrong_verbs():
    """The functions that put what is no text, and those that fill what is no list."""
    for file in sorted(CRATES.glob("*/src/**/*.rt")):
        text, crate = file.read_text(encoding="utf-8"), file.relative_to(CRATES).parts[0]
        for found in VERB.finditer(text):
            name, verb, into = found[1], found[2], re.sub(r"\s+", " ", found[3])
            where = f"{file.relative_to(TOP)}:{text.count(chr(10), 0, found.start(1)) + 1}"
            if verb == "put" and not PUT_INTO.search(into):
                yield f"{where}: {name} puts into neither a sink, a short text nor bytes from a place on"
            elif verb == "fill" and (PUT_INTO.search(into) or "&mut " not in into) and f"{crate}::{name}" not in FILLS_NOTHING:
                yield f"{where}: {name} fills nothing that is handed in"


def lost_in_readme(crate, page, crates):
    """What is wrong with the README.md of a crate, and what it names and is not there."""
    name = f"crates/{crate}/README.md"
    if f"]({crate}/README.md)" not in page:
        yield f"crates/README.md: no link to {name}"
    if not (TOP / name).exists():
        yield f"{name}: there is none"
        return
    lines = (TOP / name).read_text(encoding="utf-8").splitlines()
    if len(lines) > MOST_LINES:
        yield f"{name}: more than {MOST_LINES} lines"
    if lines[:1] != [f"# {crate}"]:
        yield f"{name}: its title is not {crate}"
    yield from (f"{name}: no line begins with `{part}`" for part in PARTS if not any(line.startswith(part) for line in lines))
    for number, line in enumerate(lines, 1):
        yield from (f"{name}:{number}: {what}" for what in lost(crate, line, crates))


def main():
    if sys.argv[1:]:
        print(__doc__, end="")
        sys.exit(0 if sys.argv[1:] == ["--help"] else 2)
    crates = names()
    page = (CRATES / "README.md").read_text(encoding="utf-8")
    wrong = [it for crate in crates for it in lost_in_readme(crate, page, set(crates))]
    wrong += [*lost_in_pages(set(crates)), *lost_decisions(), *wide_lines(), *wrong_verbs()]
    print("".join(f"{it}\n" for it in wrong), end="")
    sys.exit(1 if wrong else 0)


main()
