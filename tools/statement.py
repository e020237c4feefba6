#!/usr/bin/env python3
"""Lists the definitions that a clause of `run` rests on, each once, those that it uses before it.

    python3 tools/statement.py headline session_headline     the list: file, line, name, how many lines
    python3 tools/statement.py --count headline               the numbers of definitions, lines and files
    python3 tools/statement.py --files headline               the files, each with its number of lines
    python3 tools/statement.py --check                        ends with 1 if docs/audit.md does not name what it should
    python3 tools/statement.py --write                        names it there, between the marks, chapter by chapter

A clause is a field of the record RunsAs in crates/commands/specs/Promise.antt; the name of any other definition of a
specs/ folder does as well, as CRATE/FILE.NAME. Lines are those of definitions with the comments above them; blank lines,
imports and heads of files are not counted, nor what the toolchain's library defines. Types that the code declares are
listed, and not counted.
"""
import argparse
import re
import sys
from dataclasses import dataclass, field
from functools import lru_cache
from pathlib import Path

ROOT = Path(__file__).resolve().parents[1]
PAGE = ROOT / "docs" / "audit.md"
PROMISE = ("commands", "Promise", "RunsAs")
TOLD = ["headline", "session_headline"]
MARK = re.compile(r"<!-- drawn by tools/statement.py: (\w+) -->\n.*?<!-- end of what is drawn -->", re.S)
# The chapters of the page, each with the files whose definitions it names.
CHAPTERS = {
    "mesh": ["iso_defs/Lists", "iso_defs/Grid", "iso_defs/Face", "iso_defs/Cell", "iso_defs/Place", "iso_defs/Scratch"],
    "watertight": ["iso_defs/Manifold", "iso_defs/Verdict", "iso_base/Triangles", "bench_core/Surface"],
    "text": ["iso_defs/Bytes", "iso_defs/Texts"],
    "volume": ["iso_base/Volume", "command_terms/Volumes"],
    "streams": ["byte_streams/Seen", "byte_streams/Causes", "command_terms/Outcome", "commands/Headline"],
    "session": [
        "voxel_list/Areas", "edit_log/Log", "iso_base/Points", "unpadded_volume/Unpadded", "bench_core/Machine",
        "mesh_cache/Cache", "bench_core/Keeping", "script/Names", "script/Commands", "script/Replies", "session/Lines",
        "session/Worlds", "session/Sessions", "iso_io/Shelves", "commands/Outcome", "commands/Volumes",
        "commands/Sessions", "commands/Serving", "commands/SessionMeshes",
    ],
    "words": ["arguments/Words", "text_lines/Numbers"],
    "file": [
        "text_lines/Lines", "text_lines/Words", "text_samples/Text", "text_samples/Hex", "iso_base/SampleBytes",
        "nrrd_read/Fields", "nrrd_read/Checks", "nrrd_read/Nrrd",
    ],
}
BEGINS = re.compile(r"(?:(?:abbrev|unfoldable)\s+)?(?:pub\s+)?(?:(record|data)\s+)?([^\s:(]+)")
OPENS = re.compile(r"^(abbrev|unfoldable|pub|record|data)\b")
IMPORT = re.compile(r"^use\s+Rattle\.(\w+)\.specs\.([\w.]+?)(?:\.\{(.*)\}|\s+as\s+([\w-]+))?$")
WORD = re.compile(r"[^\s(){}\[\],;.λ→×∷]+(?:\.[^\s(){}\[\],;.λ→×∷]+)*")


@dataclass
class Definition:
    """A definition of a specs/ folder: its name, where it stands, and its text with the comments above it."""

    crate: str
    file: str
    name: str
    line: int
    lines: list = field(default_factory=list)

    @property
    def key(self):
        return self.crate, self.file, self.name

    @property
    def path(self):
        return f"crates/{self.crate}/specs/{self.file}.antt"

    @property
    def code(self):
        return "\n".join(line for line in self.lines if not line.lstrip().startswith("--"))


@dataclass
class Page:
    """A file of definitions: what it defines, and where the names come from that it imports."""

    definitions: dict
    imported: dict
    qualified: dict


def variants_of(definition):
    """Returns the constructors of a data type, or the fields of a record, by which other definitions may name it."""
    if not re.search(r"\bdata\b", definition.code.split(":")[0]):
        return []
    return re.findall(r"^\s+(\S+)\s+:", definition.code, re.M)


@lru_cache(maxsize=None)
def page_of(crate, file):
    """Reads a file of definitions, or returns None if there is none."""
    path = ROOT / "crates" / crate / "specs" / f"{file}.antt"
    if not path.is_file():
        return None
    definitions, imported, qualified, above, last = {}, {}, {}, [], None
    for number, line in enumerate(path.read_text(encoding="utf-8").splitlines(), 1):
        found = IMPORT.match(line)
        if found:
            note_import(found, imported, qualified)
        elif not line.strip():
            above, last = [], None
        elif line.startswith("--"):
            above.append(line)
            last = None
        elif OPENS.match(line):
            name = BEGINS.match(line)[2]
            last = Definition(crate, file, name, number, [*above, line])
            definitions[name] = last
            above = []
        elif last:
            last.lines.append(line)
    for definition in list(definitions.values()):
        for name in variants_of(definition):
            definitions.setdefault(name, definition)
    return Page(definitions, imported, qualified)


def note_import(found, imported, qualified):
    """Notes from where the names of a `use` line come."""
    crate, file, names, alias = found.groups()
    if crate == "std":
        return
    if alias:
        qualified[alias] = (crate, file)
        return
    for name in (names or "").split(","):
        if name.strip():
            imported[name.strip()] = (crate, file)


def resolve(crate, file, name):
    """Returns the definition of a name that a file uses, the type of the code that it names, or None."""
    page = page_of(crate, file)
    if page is None:
        return None
    head = name.split(".")[0]
    if head in page.qualified:
        return target(*page.qualified[head], name.split(".")[-1])
    for word in (name, head):
        if word in page.definitions:
            return page.definitions[word]
        if word in page.imported:
            return target(*page.imported[word], word)
    return None


def target(crate, file, name):
    """Returns what a name is that stands in a file of a crate: a definition, or a type that the code declares."""
    if file.startswith("declared."):
        parts = [part for part in file.split(".")[1:] if part != "TheVariants"]
        return f"{crate}::{'::'.join(parts)}"
    page = page_of(crate, file)
    if page is None and "." in file:
        # The constructors of a data type are a module of its file.
        return target(crate, file.rsplit(".", 1)[0], file.rsplit(".", 1)[1])
    return page.definitions.get(name) if page else None


def uses_of(definition, text=None):
    """Returns what the text of a definition names, in the order in which it does."""
    found = []
    for word in WORD.findall(definition.code if text is None else text):
        one = resolve(definition.crate, definition.file, word)
        if one is not None and one is not definition and one not in found:
            found.append(one)
    return found


def clause_of(name):
    """Returns the definition that holds a clause, and the clause's own text."""
    if "." in name:
        place, own = name.split(".")
        crate, file = place.split("/")
        definition = page_of(crate, file).definitions[own]
        return definition, definition.code
    crate, file, record = PROMISE
    definition = page_of(crate, file).definitions[record]
    found = re.search(rf"^  pub {name} :(.*?)(?=^  (?:pub|--)|\Z)", "\n".join(definition.lines), re.M | re.S)
    if not found:
        sys.exit(f"{record} has no clause {name}")
    return definition, found[1]


def in_order(names):
    """Returns the definitions that clauses rest on, those that one uses before it, and the types of the code."""
    ordered, types, seen = [], [], set()

    def visit(one):
        if isinstance(one, str):
            if one not in types:
                types.append(one)
            return
        if one.key in seen:
            return
        seen.add(one.key)
        for other in uses_of(one):
            visit(other)
        ordered.append(one)

    sys.setrecursionlimit(10_000)
    for name in names:
        holder, text = clause_of(name)
        seen.add(holder.key)
        for one in uses_of(holder, text):
            visit(one)
        if "." in name:
            ordered.append(holder)
    return ordered, types


def drawn(chapter, ordered):
    """Returns the lines of a chapter: each of its files, with the definitions that the clauses rest on."""
    lines = ["| file | definitions, each with its line |", "|---|---|"]
    for place in CHAPTERS[chapter]:
        crate, file = place.split("/")
        found = [f"`{one.name.replace('|', '&#124;')}` {one.line}" for one in ordered if one.key[:2] == (crate, file)]
        if not found:
            sys.exit(f"tools/statement.py: nothing rests on {place}, which the chapter {chapter} has")
        lines.append(f"| [{place}](../crates/{crate}/specs/{file}.antt) | {', '.join(found)} |")
    return lines


def page_with(ordered):
    """Returns the page with what it is to name between its marks."""
    known = {place for places in CHAPTERS.values() for place in places}
    for place in sorted({f"{one.crate}/{one.file}" for one in ordered} - known):
        sys.exit(f"tools/statement.py: no chapter of docs/audit.md has {place}")
    page = PAGE.read_text(encoding="utf-8")
    marks = [found[1] for found in MARK.finditer(page)]
    if sorted(marks) != sorted(CHAPTERS):
        sys.exit(f"docs/audit.md has other marks than the chapters {' '.join(CHAPTERS)}")

    def draw(found):
        begin = f"<!-- drawn by tools/statement.py: {found[1]} -->"
        return "\n".join([begin, "", *drawn(found[1], ordered), "", "<!-- end of what is drawn -->"])

    return page, MARK.sub(draw, page)


def draw_page(writes):
    """Writes the page, or looks whether it is as it would be written."""
    page, wanted = page_with(in_order(TOLD)[0])
    if page == wanted:
        return 0
    if writes:
        PAGE.write_text(wanted, encoding="utf-8")
        return 0
    print("docs/audit.md does not name the definitions of now: python3 tools/statement.py --write")
    return 1


def main():
    parser = argparse.ArgumentParser(description=__doc__, formatter_class=argparse.RawDescriptionHelpFormatter)
    parser.add_argument("clause", nargs="*", help="headline, session_headline, .., or CRATE/FILE.NAME")
    parser.add_argument("--count", action="store_true", help="print the numbers alone")
    parser.add_argument("--files", action="store_true", help="print the files with their numbers of lines")
    parser.add_argument("--check", action="store_true", help="look whether docs/audit.md names them")
    parser.add_argument("--write", action="store_true", help="have docs/audit.md name them")
    words = parser.parse_args()
    if words.check or words.write:
        sys.exit(draw_page(words.write))
    if not words.clause:
        parser.error("which clause?")
    ordered, types = in_order(words.clause)
    files = {}
    for one in ordered:
        files[one.path] = files.get(one.path, 0) + len(one.lines)
    if words.files:
        for path, lines in sorted(files.items(), key=lambda it: -it[1]):
            print(f"{lines:5}  {path}")
    elif not words.count:
        for one in ordered:
            print(f"{one.path}:{one.line}: {one.name} ({len(one.lines)})")
        for one in types:
            print(f"type of the code: {one}")
    print(f"{len(ordered)} definitions, {sum(files.values())} lines, {len(files)} files")


if __name__ == "__main__":
    main()
