#!/usr/bin/env python3
"""rattle.py VERB CRATE [FLAG..]: runs the kit's `rattle VERB` for a crate over the proved libraries that stand in crates/*/out/rlib.

rt itself takes a library only where its own check left it, and not where `rt ci` did: it would prove each once more. The words are those that
rt hands to the compiler.

  words(crate)     == what `rattle check` and `rattle build` need, to be run in the crate's folder
  kit()            == the kit's folder
  lacking(crate)   == the crates below it that have no proved library
"""
import functools
import pathlib
import re
import subprocess
import sys

TOP = pathlib.Path(__file__).resolve().parent.parent


@functools.cache
def kit():
    return pathlib.Path(subprocess.run(["rt", "doc"], capture_output=True, text=True, check=True).stdout.strip()).parent


@functools.cache
def listed():
    """{crate: (whether it is an archive, what it builds on)} of crates.txt"""
    rows = re.findall(r"^(\w+)( +staticlib)?[^:#\n]*:([^#\n]*)", (TOP / "crates.txt").read_text(encoding="utf-8"), re.M)
    return {name: (bool(archive), names.split()) for name, archive, names in rows}


def below(crate):
    found = []
    for name in listed()[crate][1]:
        found += [it for it in [*below(name), name] if it not in found] if name in listed() else []
    return found


def rlib(crate, top=TOP):
    return top / "crates" / crate / "out/rlib" / f"{crate}.rlib"


def lacking(crate):
    return [name for name in below(crate) if not (rlib(name) / "format").is_file()]


def words(crate, top=TOP):
    archive, names = listed()[crate]
    is_program = (top / "crates" / crate / "src/main.rt").is_file()
    said = ["--crate-name", crate, "src/main.rt" if is_program else "src/lib.rt"]
    for name in ["std", *(it for it in names if it not in listed())]:
        said += ["--extern", f"{name}={kit()}/rlibs/{name}.rlib"]
    said += ["-L", f"dependency={kit()}/rlibs"]
    for name in names:
        said += ["--extern", f"{name}={rlib(name, top)}"] if name in listed() else []
    for name in below(crate):
        said += ["-L", f"dependency={rlib(name, top).parent}"]
    said += ["--antt-project", f"{kit()}/rattle/logic/antt-project.json", "--logic-built", f"{kit()}/logic_built", "--links", f"{crate}="]
    return said + ["--crate-type", "staticlib"] * archive


def main(verb, crate, *flags):
    if lacking(crate):
        print(f"rattle.py: no proved library of {' '.join(lacking(crate))}", file=sys.stderr)
        return 2
    folder = TOP / "crates" / crate
    (folder / "out").mkdir(exist_ok=True)
    toolchain = ["--toolchain", f"{kit()}/toolchain"] * (verb == "build")
    return subprocess.run([f"{kit()}/bin/rattle", verb, *words(crate), *toolchain, *flags], cwd=folder, stdin=subprocess.DEVNULL).returncode


if __name__ == "__main__":
    if len(sys.argv) < 3 or sys.argv[2] not in listed():
        sys.exit(__doc__)
    sys.exit(main(*sys.argv[1:]))
