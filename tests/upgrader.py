#!/usr/bin/env python3
"""upgrader.py PROGRAM: the built upgrader, run on files: the sheet on its standard output, or its message on standard error."""
import pathlib
import random
import subprocess
import sys
import tempfile

import reference as ref

program = str(pathlib.Path(sys.argv[1]).resolve())
sample = pathlib.Path(__file__).resolve().parent.parent / "sample"
TEXTS = [(sample / name).read_bytes() for name in ("hosts.allow", "hosts.deny", "byuid", "portacl")]
OLD = ref.sheet_of(TEXTS + [b""])
FULLEST = ref.sheet_of([b"\n" * 16384, b"\n" * 16384, b"\n" * 8192, b"x" * 4096, b""])


def expect(what, arguments, out, err):
    run = subprocess.run([program, *arguments], capture_output=True, timeout=120)
    if run.stdout != out or run.stderr != err.encode():
        print(f"upgrader: {what}: wrote {run.stdout[:200]} and {run.stderr}, not {out[:200]} and {err!r}")
        sys.exit(1)


def main():
    rng, files, ran = random.Random(1), 0, 0
    with tempfile.TemporaryDirectory() as folder:
        path = pathlib.Path(folder) / "sheet"

        def file(what, sheet):
            path.write_bytes(sheet)
            answer = ref.upgrade(sheet, 1 << 20)
            if ref.refused(answer):
                expect(what, [str(path)], b"", f"{path}: refused {answer[0]} section {answer[1]}: no sheet of four sections\n")
            else:
                expect(what, [str(path)], answer, "")

        for what, sheet in (("the sample sheet", OLD), ("sixteen zero bytes", bytes(16)), ("fifteen", bytes(15)), ("an empty file", b""),
                            ("a sheet with its tables", OLD + b"\0\0"), ("the fullest", FULLEST), ("one byte less", FULLEST[:-1]),
                            ("one byte more", FULLEST + b"\0"), ("far more", FULLEST + bytes(1 << 20)), ("lines at fault", b"\0\0\0\1x" + bytes(12)),
                            ("over a limit", b"\0\0\x40\1" + bytes(50000)), ("far more of 255", b"\xff" * (1 << 20))):
            file(what, sheet)
            files += 1
        expect("no argument", [], b"", "usage: upgrader FILE\n")
        expect("a missing file", [folder + "/none"], b"", folder + "/none: No such file or directory\n")
        expect("a folder", [folder], b"", folder + ": Is a directory\n")
        for ran in range(1, 101):
            sheet = bytearray(OLD)
            for _ in range(rng.choice([0, 1, 3])):
                sheet[rng.randrange(len(sheet))] = rng.randrange(256)
            file("a damaged sheet", bytes(sheet[:rng.choice([len(sheet), len(sheet), rng.randrange(len(sheet))])]))
        with open("/dev/full", "wb") as full:
            path.write_bytes(OLD)
            run = subprocess.run([program, str(path)], stdout=full, stderr=subprocess.PIPE, timeout=120, check=False)
            if run.stderr != b"standard output: No space left on device\n":
                print(f"upgrader: a full disk: {run.stderr}")
                sys.exit(1)
    print(f"upgrader: {files} files and {ran} damaged sheets as expected")


main()
