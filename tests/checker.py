#!/usr/bin/env python3
"""checker.py PROGRAM: the built checker, run on files: its one line, or its message on standard error."""
import pathlib
import random
import subprocess
import sys
import tempfile

import reference as ref

program = str(pathlib.Path(sys.argv[1]).resolve())
sample = pathlib.Path(__file__).resolve().parent.parent / "sample"
TEXTS = [(sample / name).read_bytes() for name in ("hosts.allow", "hosts.deny", "byuid", "portacl")]
TABLES = ref.section_five([(b"vans", b".vans.example /depot\n"), (b"depot", b"10.20.1.\n")])
SHEET = ref.pack(TEXTS + [TABLES], 57360)
FULLEST = ref.pack([b"\n" * 16384, b"\n" * 16384, b"\n" * 8192, b"uid:0:tcp:0," * 340 + b"uid:10:tcp:65535",
                    ref.section_five([(b"t", b"\n" * 12280)])], 57360)
# what is read of a file at most, and the line of a longer one
MOST = 1 << 20
TOO_LONG = "too long: over 1048576 bytes, and the longest sheet has 57360"


def many(count):
    return ref.section_five([(b"%x" % i, b"") for i in range(count)])


def long_table(size):
    """a sheet of so many bytes that is sound but for the limit of its tables"""
    return bytes(16) + ref.section_five([(b"t", b"\n" * (size - 16 - 8))])


def line_of(sheet):
    answer = ref.check(sheet)
    return ("refused %d section %d line %d" % answer if ref.refused(answer) else answer) + "\n"


def expect(what, arguments, out, err):
    run = subprocess.run([program, *arguments], capture_output=True, timeout=120)
    if run.stdout != out.encode() or run.stderr != err.encode():
        print(f"checker: {what}: wrote {run.stdout} and {run.stderr}, not {out!r} and {err!r}")
        sys.exit(1)


def main():
    rng, ran = random.Random(1), 0
    with tempfile.TemporaryDirectory() as folder:
        path = pathlib.Path(folder) / "sheet"

        def file(what, sheet, line):
            path.write_bytes(sheet)
            expect(what, [str(path)], line + "\n", "")

        file("the sample sheet", SHEET, "sheet ok")
        file("P11, eighteen zero bytes", bytes(18), "sheet ok")
        file("P11, seventeen", bytes(17), "refused 1 section 5 line 0")
        file("P11, nineteen", bytes(19), "refused 3 section 0 line 0")
        file("four sections", bytes(16), "refused 1 section 5 line 0")
        file("fifteen zero bytes", bytes(15), "refused 1 section 4 line 0")
        file("a cut sheet", SHEET[:-1], "refused 1 section 5 line 0")
        file("an empty file", b"", "refused 1 section 1 line 0")
        file("the fullest sheet", FULLEST, "sheet ok")
        file("one byte less", FULLEST[:-1], "refused 1 section 5 line 0")
        file("one byte more", FULLEST + b"\0", "refused 3 section 0 line 0")
        file("a table of one byte more", FULLEST[:-12280 - 4] + (12281).to_bytes(4, "big") + b"\n" * 12281, "refused 17 section 5 line 0")
        file("64 tables", ref.sheet_of([b"", b"", b"", b"", many(64)]), "sheet ok")
        file("65 tables", ref.sheet_of([b"", b"", b"", b"", many(65)]), "refused 17 section 5 line 0")
        file("65,535 tables", ref.sheet_of([b"", b"", b"", b"", many(65535)]), "refused 17 section 5 line 0")
        file("2,000 tables, and one too few", ref.sheet_of([b"ALL: /gone\n", b"", b"", b"", many(2000)]), "refused 15 section 1 line 1")
        file("all that is read", (FULLEST + bytes(MOST))[:MOST], "refused 3 section 0 line 0")
        file("the same of 255", b"\xff" * MOST, "refused 2 section 1 line 0")
        file("a table that fills it", long_table(MOST), "refused 17 section 5 line 0")
        file("a byte more than is read", long_table(MOST + 1), TOO_LONG)
        file("a byte more of zeros", bytes(MOST + 1), TOO_LONG)
        file("far more than is read", bytes(MOST << 6), TOO_LONG)
        expect("no argument", [], "", "usage: checker FILE\n")
        expect("a missing file", [folder + "/none"], "", folder + "/none: No such file or directory\n")
        expect("a folder", [folder], "", folder + ": Is a directory\n")
        path.write_bytes(SHEET)
        with open("/dev/full", "wb") as full:
            run = subprocess.run([program, str(path)], stdout=full, stderr=subprocess.PIPE, timeout=120, check=False)
            if run.stderr != b"standard output: No space left on device\n":
                print(f"checker: a full disk: {run.stderr}")
                sys.exit(1)
        for ran in range(1, 201):
            sheet = bytearray(SHEET)
            for _ in range(rng.choice([0, 1, 1, 3])):
                sheet[rng.randrange(len(sheet))] = rng.choice([0, 9, 10, 32, 58, 64, 92, 255])
            sheet = bytes(sheet[:rng.choice([len(sheet), len(sheet), rng.randrange(len(sheet))])])
            file("a damaged sheet", sheet, line_of(sheet)[:-1])
    print(f"checker: 25 files and {ran} damaged sheets as expected")


main()
