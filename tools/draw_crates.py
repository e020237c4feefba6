#!/usr/bin/env python3
"""Draws the crates into crates/README.md and docs/architecture.md, from crates.txt and from the README.md of each.

    python3 tools/draw_crates.py            ends with 1 if what stands there is not what would be drawn
    python3 tools/draw_crates.py --write    draws it between the marks
    python3 tools/draw_crates.py --above NAME    lists the crates that depend on one, lowest first: they are proved again if it changes

crates/README.md has a list by the groups of crates.txt, which begin with a comment `# == GROUP ==`: each crate with a link to
its README.md and with what stands below the title there. Then a graph by groups, in which an arrow leads from a crate to one
that it depends on, unless it depends on that one by way of another as well; crates of tests and of runs are not in it.
docs/architecture.md has the groups alone, drawn in the same way, and the crates by height, where a crate stands one above the
highest that it depends on.
"""
import pathlib
import re
import sys

TOP = pathlib.Path(__file__).resolve().parent.parent
INDEX = TOP / "crates" / "README.md"
PAGE = TOP / "docs" / "architecture.md"
BEGIN = "<!-- drawn by tools/draw_crates.py -->"
END = "<!-- end of what is drawn -->"
GROUP = re.compile(r"# == (.*) ==")


def crates():
    """The groups, each with its crates, and each crate of this repository with those of this repository that it depends on."""
    groups, named, inside = {}, {}, None
    for line in (TOP / "crates.txt").read_text(encoding="utf-8").splitlines():
        if heading := GROUP.fullmatch(line):
            groups[heading[1]] = inside = []
        name, colon, others = line.split("#")[0].partition(":")
        if colon and inside is None:
            sys.exit(f"crates.txt: {name.strip()} stands in no group")
        if colon:
            inside.append(name.strip())
            named[name.strip()] = others.split()
    return groups, {name: [other for other in others if other in named] for name, others in named.items()}


def below_each(named):
    """All crates below each."""
    below = {}

    def look(name):
        if name not in below:
            below[name] = set(named[name]).union(*map(look, named[name]))
        return below[name]

    for name in named:
        look(name)
    return below


def heights(named):
    height = {}

    def look(name):
        if name not in height:
            height[name] = 1 + max(map(look, named[name]), default=-1)
        return height[name]

    for name in named:
        look(name)
    return height


def purpose(name):
    """What stands below the title of a crate's README.md."""
    readme = TOP / "crates" / name / "README.md"
    if not readme.exists():
        sys.exit(f"{readme.relative_to(TOP)}: there is none")
    return readme.read_text(encoding="utf-8").splitlines()[2]


def by_group(groups):
    lines = []
    for group, inside in groups.items():
        lines += ["", f"## {group}", "", *(f"- [{name}]({name}/README.md): {purpose(name)}" for name in inside)]
    return lines[1:]


def by_height(named):
    height = heights(named)
    lines = ["```text"]
    for level in range(max(height.values()), -1, -1):
        lines.append(f"{level:2}  " + "  ".join(name for name in named if height[name] == level))
    return lines + ["```"]


def graph(groups, named):
    below = below_each(named)
    lines = ["```mermaid", "flowchart BT"]
    shown = [name for name in named if not name.endswith(("_tests", "_runs"))]
    for number, (group, inside) in enumerate(groups.items()):
        drawn = [name for name in inside if name in shown]
        if drawn:
            lines += [f'    subgraph group_{number}["{group}"]', *(f"        {name}" for name in drawn), "    end"]
    for name in shown:
        direct = [other for other in named[name] if not any(other in below[third] for third in named[name])]
        if direct:
            lines.append(f"    {name} --> {' & '.join(direct)}")
    return lines + ["```"]


def group_graph(groups, named):
    """The groups, with an arrow from each to those that its crates depend on, unless it depends on them by way of another."""
    group_of = {name: group for group, inside in groups.items() for name in inside}
    direct = {group: [] for group in groups if not group.startswith("Tests")}
    for name, others in named.items():
        for other in others:
            below = direct.get(group_of[name], ())
            # (laws that are handed on as calls speak of code; the page tells so)
            if below != () and group_of[name] != next(iter(groups)) and group_of[other] not in [group_of[name], *below]:
                below.append(group_of[other])
    ids = {group: f"group_{number}" for number, group in enumerate(direct)}
    below = below_each(direct)
    lines = ["```mermaid", "flowchart BT", *(f'    {ids[group]}["{group}"]' for group in direct)]
    for group, others in direct.items():
        shown = [other for other in others if not any(other in below[third] for third in others)]
        if shown:
            lines.append(f"    {ids[group]} --> {' & '.join(ids[other] for other in shown)}")
    return lines + ["```"]


def with_drawn(page, drawings):
    """The page with each drawing between a pair of marks, in order."""
    first, *rest = page.split(BEGIN)
    parts = [first]
    for drawing, part in zip(drawings, rest, strict=True):
        parts.append("\n".join([BEGIN, "", *drawing, "", END]) + part.split(END)[1])
    return "".join(parts)


def main():
    words = sys.argv[1:]
    groups, named = crates()
    if len(words) == 2 and words[0] == "--above" and words[1] in named:
        below, height = below_each(named), heights(named)
        print("\n".join(sorted((name for name in named if words[1] in below[name]), key=height.get)))
        sys.exit(0)
    if words not in ([], ["--write"], ["--check"]):
        print(__doc__, end="")
        sys.exit(0 if words == ["--help"] else 2)
    drawings = {INDEX: [by_group(groups), graph(groups, named)], PAGE: [group_graph(groups, named), by_height(named)]}
    wrong = False
    for file, drawing in drawings.items():
        page = file.read_text(encoding="utf-8")
        drawn = with_drawn(page, drawing)
        if words == ["--write"]:
            file.write_text(drawn, encoding="utf-8")
        elif drawn != page:
            wrong = True
            print(f"{file.relative_to(TOP)} is not as tools/draw_crates.py draws it")
    sys.exit(1 if wrong else 0)


main()
