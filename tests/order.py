#!/usr/bin/env python3
"""order.py: scripts/test ends with rt's last line exactly if all that it calls succeeds, and no must-fail edit is bad.

It is run in a folder where each thing that it calls is a stand-in, once with all of them well and once for each that fails.
"""
import os
import pathlib
import shutil
import subprocess
import sys
import tempfile

top = pathlib.Path(__file__).resolve().parent.parent
CALLED = ("scripts/need", "scripts/check-docs", "scripts/build", "scripts/check-edits", "tests/run")
RT = ("rt ci",)
WELL, BAD, SILENT = "rt: ok; must-fail edits: 5 refused; done", "rt: ok; must-fail edits: 5 refused, 1 bad; done", ""
LAST = "7 passed, 0 failed"


def stand_in(path, body):
    path.parent.mkdir(parents=True, exist_ok=True)
    path.write_text("#!/bin/sh\n" + body)
    path.chmod(0o755)


def run(failing, said=WELL):
    """The status and the last line of scripts/test where the thing of that name fails, and rt says this before its last line."""
    with tempfile.TemporaryDirectory() as folder:
        root = pathlib.Path(folder)
        for name in CALLED:
            stand_in(root / name, "exit %d\n" % (name == failing))
        stand_in(root / "bin/rt", 'echo "%s"\necho "%s"\ncase "rt $1" in "%s") exit 1 ;; esac\n' % (said, LAST, failing))
        shutil.copy(top / "scripts/test", root / "scripts/test")
        path = "%s:%s" % (root / "bin", os.environ["PATH"])
        ran = subprocess.run([root / "scripts/test"], capture_output=True, text=True, env=dict(os.environ, PATH=path), timeout=60)
        return ran.returncode, ran.stdout.rstrip("\n").rpartition("\n")[2]


def main():
    status, last = run(None)
    if status != 0 or last != LAST:
        sys.exit(f"order: with all well scripts/test ends with status {status} and {last!r}")
    for name in CALLED + RT:
        status, last = run(name)
        if status == 0 or last == LAST:
            sys.exit(f"order: where {name} fails scripts/test ends with status {status} and {last!r}")
    for said in (BAD, SILENT):
        status, last = run(None, said)
        if status == 0 or last == LAST:
            sys.exit(f"order: where rt says {said!r} scripts/test ends with status {status} and {last!r}")
    print(f"order: scripts/test stops at each of the {len(CALLED + RT)} things that it calls")


main()
