#!/usr/bin/env python3
"""Tries the edits of crates: wrong bodies, each of which the checker must refuse.

    python3 tools/try_edits.py             all of them: a few hours of one processor
    python3 tools/try_edits.py NAME ..     those of these crates
    python3 tools/try_edits.py --kept [--lanes N] [NAME ..]
                                           the same over what `rt check` kept of each crate: some ten seconds an edit
    python3 tools/try_edits.py --look      tries none, and ends with 1 if one cannot be applied, or docs/trust.md counts others

The gate tries the edits in crates/NAME/must-fail/. Those in crates/NAME/edits/ have the same form, and are tried by this script
alone: before a crate whose code or contracts changed is handed in. It puts them beside the gate's, in a copy of the crates,
and runs `rt ci NAME ..` there, which proves what it has not proved on this machine before; in a kit whose gate takes no names
`rt must-fail NAME ..`, which proves the crates below first. It ends with the status of that, and with 1 if an edit could not
be tried.

With --kept every crate must have been proved by `rt check` as it stands. Each lane (one, if not told) has a copy of the crates
with what was kept, applies one edit after the other there, and runs `rt check`. The repository is not changed.
"""
import concurrent.futures
import os
import pathlib
import queue
import re
import shutil
import subprocess
import sys
import tempfile

TOP = pathlib.Path(__file__).resolve().parent.parent


def with_edits():
    """The crates that have edits."""
    return sorted({edit.parent.parent.name for edit in TOP.glob("crates/*/*/*.edit")})


def edits_of(name):
    """The edits of a crate, those of the gate first."""
    crate = TOP / "crates" / name
    return [*sorted(crate.glob("must-fail/*.edit")), *sorted(crate.glob("edits/*.edit"))]


def copy_to(room, names):
    """Copies the crates, with all edits of those named where the gate looks for them, and no edits of others."""
    for file in ("crates.txt", "HANDLES"):
        shutil.copyfile(TOP / file, room / file)
    left_out = shutil.ignore_patterns("out", "must-fail", "edits")
    for crate in sorted(it for it in (TOP / "crates").iterdir() if it.is_dir()):
        to = room / "crates" / crate.name
        shutil.copytree(crate, to, ignore=left_out)
        if crate.name in names:
            (to / "must-fail").mkdir()
            for edit in edits_of(crate.name):
                shutil.copyfile(edit, to / "must-fail" / edit.name)


def pairs_of(edit):
    """The file that an edit changes, and each line of it that it replaces, in turn with what stands there then."""
    lines = edit.read_text(encoding="utf-8").splitlines()
    file = next(line.removeprefix("file: ") for line in lines if line.startswith("file: "))
    parts = [line[5:] for line in lines if line.startswith(("old: ", "new: "))]
    return edit.parent.parent / file, list(zip(parts[::2], parts[1::2]))


def edited_text(edit):
    """The text of the file with the edit applied; None if what it replaces does not stand there exactly once."""
    file, pairs = pairs_of(edit)
    text = file.read_text(encoding="utf-8") if file.is_file() else ""
    for old, new in pairs:
        if text.count(old) != 1:
            return None
        text = text.replace(old, new)
    return text if pairs else None


def look():
    """Says which edits cannot be applied."""
    bad = [edit for edit in sorted(TOP.glob("crates/*/*/*.edit")) if edited_text(edit) is None]
    for edit in bad:
        print(f"{edit.relative_to(TOP)}: what it replaces does not stand once in its file")
    return int(bool(bad) | has_other_counts())


def has_other_counts():
    """Says whether docs/trust.md counts other edits than there are."""
    page = (TOP / "docs" / "trust.md").read_text(encoding="utf-8")
    counts = {folder: len([*TOP.glob(f"crates/*/{folder}/*.edit")]) for folder in ("must-fail", "edits")}
    other = [folder for folder, count in counts.items() if not re.search(rf"`crates/\*/{folder}/\*\.edit` hold {count} ", page)]
    for folder in other:
        print(f"docs/trust.md: there are {counts[folder]} edits in {folder}/")
    return bool(other)


def tried(command, room):
    """What a command came to: its status, whether an edit could not be tried, and whether it said anything."""
    ran = subprocess.Popen(command, cwd=room, stdout=subprocess.PIPE, stderr=subprocess.STDOUT, text=True)
    is_bad = has_said = False
    for line in ran.stdout:
        is_bad = is_bad or "BAD EDIT" in line
        if "must-fail" in line or "NOT PROVED" in line or line.startswith("rt: FAILED") or " passed, " in line:
            has_said = True
            print(line, end="", flush=True)
    return ran.wait(), is_bad, has_said


def try_from_nothing(names):
    """Tries all edits of these crates as the gate tries its own."""
    with tempfile.TemporaryDirectory() as folder:
        room = pathlib.Path(folder)
        copy_to(room, names)
        status, is_bad, has_said = tried(["rt", "ci", *names], room)
        if status == 2 and not has_said:
            status, is_bad, _ = tried(["rt", "must-fail", *names], room)
        return status or int(is_bad)


def link_or_copy(source, target):
    """Links a file of a library, which nobody writes to, or copies it onto another disk."""
    try:
        os.link(source, target)
    except OSError:
        shutil.copy2(source, target)


def make_lane(room):
    """Copies the crates, with the libraries that were made of them."""
    copy_to(room, [])
    for made in TOP.glob("crates/*/out/rlib"):
        to = room / made.relative_to(TOP)
        shutil.copytree(made, to, copy_function=link_or_copy)
        # (the stamp is written anew where a library is)
        if (made / "stamp").is_file():
            (to / "stamp").unlink()
            shutil.copy2(made / "stamp", to / "stamp")


def check(crate):
    """What `rt check` of a crate in a lane says, and whether it is proved."""
    ran = subprocess.run(["rt", "check", "--jobs", "1"], cwd=crate, stdout=subprocess.PIPE, stderr=subprocess.STDOUT, text=True)
    return ran.stdout, ran.returncode == 0


def try_over_kept(name, lanes):
    """Tries the edits of a crate in a free lane; says what came of each, and counts those that were refused and the others."""
    room = lanes.get()
    try:
        kept = TOP / "crates" / name / "out" / "incremental"
        crate = room / "crates" / name
        if not kept.is_dir():
            return [f"{name}: NOT TRIED: run `rt check` there first"], 0, 1
        shutil.copytree(kept, crate / "out" / "incremental")
        if not check(crate)[1]:
            return [f"{name}: NOT TRIED: it is not proved as it stands"], 0, 1
        said = [try_edit(edit, crate) for edit in edits_of(name)]
        is_sound = check(crate)[1]
        shutil.rmtree(crate / "out" / "incremental")
        if not is_sound:
            said.append(f"{name}: NOT SOUND: it is not proved over what was kept after its edits")
        refused = sum(line.endswith(": refused") for line in said)
        return said, refused, len(said) - refused
    finally:
        lanes.put(room)


def try_edit(edit, crate):
    """Applies an edit in a lane's crate, checks it, and takes it back."""
    label = f"{crate.name}/{edit.parent.name}/{edit.name}"
    text = edited_text(edit)
    if text is None:
        return f"{label}: BAD EDIT: what it replaces does not stand once in its file"
    file = crate / pairs_of(edit)[0].relative_to(edit.parent.parent)
    before = file.read_text(encoding="utf-8")
    file.write_text(text, encoding="utf-8")
    output, is_proved = check(crate)
    file.write_text(before, encoding="utf-8")
    if is_proved:
        return f"{label}: NOT REFUSED"
    if "logic=not-proved" not in output:
        return f"{label}: BAD EDIT: it does not reach the prover"
    return f"{label}: refused"


def try_all_over_kept(names, count):
    """Tries all edits of these crates over what was kept, in so many lanes."""
    lanes, passed, failed = queue.Queue(), 0, 0
    with tempfile.TemporaryDirectory() as folder:
        for number in range(count):
            room = pathlib.Path(folder) / str(number)
            room.mkdir()
            make_lane(room)
            lanes.put(room)
        with concurrent.futures.ThreadPoolExecutor(count) as pool:
            for said, refused, others in pool.map(lambda name: try_over_kept(name, lanes), names):
                print("\n".join(said), flush=True)
                passed, failed = passed + refused, failed + others
    print(f"{passed} passed, {failed} failed")
    return int(failed > 0)


def main():
    words = sys.argv[1:]
    if words == ["--look"]:
        sys.exit(look())
    is_kept = words[:1] == ["--kept"]
    words = words[is_kept:]
    count = 1
    if is_kept and words[:1] == ["--lanes"]:
        if not re.fullmatch(r"[1-9]\d?", "".join(words[1:2])):
            sys.exit("try_edits: --lanes takes a number")
        count, words = int(words[1]), words[2:]
    known = with_edits()
    if unknown := [name for name in words if name not in known]:
        sys.exit(f"try_edits: {unknown[0]} is no crate with edits")
    sys.exit(try_all_over_kept(words or known, count) if is_kept else try_from_nothing(words or known))


if __name__ == "__main__":
    main()
