#!/usr/bin/env python3
"""check_docs.py: scripts/check-docs accepts a copy of the repository, and complains of each gap that is planted in it."""
import pathlib
import re
import shutil
import subprocess
import sys
import tempfile

sys.dont_write_bytecode = True
TOP = pathlib.Path(__file__).resolve().parent.parent
sys.path.insert(0, str(TOP / "scripts"))
from antt import read_declarations

COPIED = ("crates", "docs", "include", "scripts", "tests")
REQUIREMENTS, TRUSTED, GATE = "docs/REQUIREMENTS.md", "docs/TRUSTED.md", "crates/gate_c/src/lib.rt"
LISTED_FILE = re.compile(r"^\| `(crates/(\w+)/specs/(\w+)\.antt)` \| (\d+) \| (?!def )", re.M)


def read(path):
    return (TOP / path).read_text(encoding="utf-8")


def changed(path, pattern, replacement):
    """A file with the first match of a pattern replaced."""
    text, count = re.subn(pattern, replacement, read(path), count=1, flags=re.M)
    if count == 0:
        sys.exit(f"check_docs.py: {path} has no {pattern}")
    return {path: text}


def moved_definition():
    """A definition of a listed file moves to a file that is not listed, and is imported from there."""
    for path, crate, _, _ in LISTED_FILE.findall(read(TRUSTED)):
        text = read(path)
        last = read_declarations(text)[-1]
        lines = text.split("\n")
        if last.kind == "definition" and not lines[last.lines[0]].startswith(" "):
            moved = "\n".join(lines[number] for number in last.lines) + "\n"
            imports = "\n".join(line for line in lines if line.startswith("use ")) + "\n"
            kept = "\n".join(line for number, line in enumerate(lines) if number not in last.lines)
            new = f"crates/{crate}/specs/Planted.antt"
            own = f"use Rattle.{crate}.specs.Planted.{{{last.name}}}\n"
            return {path: "pub " + own + kept, new: imports + moved}, f"{new}: {last.name} is believed and not listed"
    sys.exit("check_docs.py: no listed file ends with a definition")


def listed_for_nothing():
    path, crate, _, _ = LISTED_FILE.findall(read(TRUSTED))[0]
    new = f"crates/{crate}/specs/Planted.antt"
    row = f"| `{new}` | 2 | what nothing leads to |\n"
    files = {new: "abbrev pub planted : Type 0\nplanted = Type 0\n", **changed(TRUSTED, LISTED_FILE.pattern, lambda match: row + match.group())}
    return files, f"{new}: planted is listed and nothing believed leads to it"


def unread_word():
    """A word in a definition that no import explains."""
    path = LISTED_FILE.findall(read(TRUSTED))[0][0]
    return {path: read(path).rstrip("\n") + " planted\n"}, "the kit's the notation: planted is believed and not listed"


def kit_name_left_out():
    row = re.search(r"^\| `([\w.]+)` \| `([^`]+)`.*\n", read(TRUSTED), re.M)
    return changed(TRUSTED, re.escape(row.group()), ""), f"the kit's {row.group(1)}: {row.group(2)} is believed and not listed"


def kit_name_too_many():
    files = changed(TRUSTED, r"^(\| `[\w.]+` \| )`", r"\1`planted`, `")
    return files, "planted is listed and nothing believed leads to it"


def type_left_out():
    listed = re.search(r"^The code's types: fn `(\w+)::(\w+)`, ", read(TRUSTED), re.M)
    files = changed(TRUSTED, re.escape(listed.group()), "The code's types: fn ")
    return files, f"crates/{listed.group(1)}/src/lib.rt: {listed.group(2)} is believed and not listed"


def export_left_out():
    return changed(TRUSTED, r"^\| fn `gate_c::(\w+)`.*\n", ""), "is exported and not listed"


def caller_asked():
    return changed(GATE, r"^    ensures", "    requires { Type }\n    ensures"), "has a requires"


def uncited_definition():
    return changed(TRUSTED, r"^(\| fn `gate_c::.*)\| nothing is changed \|$", r"\1| def `section.lent_after` |"), "does not cite section.lent_after"


def wrong_count():
    path, _, _, lines = LISTED_FILE.findall(read(TRUSTED))[0]
    return changed(TRUSTED, rf"^(\| `{path}` \| ){lines}", rf"\g<1>{int(lines) + 1}"), f"{path}: {lines} lines are listed"


def wrong_total():
    return changed(TRUSTED, r"^In all: ", "In all: 1"), "is in all"


def names_of_nothing():
    row = "| A sentence. | def `text.planted` | fn `text::planted` | test `tests/planted` | edit `text/planted` |\n"
    return {REQUIREMENTS: read(REQUIREMENTS) + row}, "no def text.planted"


PLANTS = (moved_definition, listed_for_nothing, unread_word, kit_name_left_out, kit_name_too_many, type_left_out, export_left_out, caller_asked,
          uncited_definition, wrong_count, wrong_total, names_of_nothing)


def check(copy, files):
    """What check-docs says of the copy with these files in it; the copy is left as it was."""
    before = {path: (copy / path).read_text(encoding="utf-8") if (copy / path).exists() else None for path in files}
    for path, text in files.items():
        (copy / path).write_text(text, encoding="utf-8")
    done = subprocess.run([sys.executable, copy / "scripts/check-docs"], capture_output=True, text=True)
    for path, text in before.items():
        (copy / path).unlink() if text is None else (copy / path).write_text(text, encoding="utf-8")
    return done.returncode, done.stdout + done.stderr


def main():
    failures = 0
    with tempfile.TemporaryDirectory() as folder:
        copy = pathlib.Path(folder)
        for name in COPIED:
            shutil.copytree(TOP / name, copy / name)
        status, said = check(copy, {})
        if status != 0:
            sys.exit(f"check_docs.py: the copy itself is refused\n{said}")
        for plant in PLANTS:
            files, complaint = plant()
            status, said = check(copy, files)
            if status != 1 or complaint not in said:
                failures += 1
                print(f"check_docs.py: {plant.__name__}: no '{complaint}' in\n{said}")
    print(f"check_docs.py: {len(PLANTS)} planted gaps, {failures} not found")
    return 1 if failures else 0


sys.exit(main())
