#!/usr/bin/env python3
"""converter.py PROGRAM: the built converter, run on files: the text on its standard output, or its message on standard error."""
import pathlib
import random
import subprocess
import sys
import tempfile

import differential as gen
import reference as ref

program = str(pathlib.Path(sys.argv[1]).resolve())
sample = pathlib.Path(__file__).resolve().parent.parent / "sample"


def expect(what, arguments, out, err):
    run = subprocess.run([program, *arguments], capture_output=True, timeout=120)
    if run.stdout != out or run.stderr != err.encode():
        print(f"converter: {what}: wrote {run.stdout[:200]} and {run.stderr}, not {out[:200]} and {err!r}")
        sys.exit(1)


def main():
    rng, files, ran = random.Random(1), 0, 0
    with tempfile.TemporaryDirectory() as folder:
        path = pathlib.Path(folder) / "byuid"

        def file(what, text):
            path.write_bytes(text)
            answer = ref.convert(text, 1 << 20)
            if ref.refused(answer):
                expect(what, [str(path)], b"", f"{path}: refused {answer[0]} section {answer[1]}: a byuid text has at most 8192 bytes\n")
            else:
                expect(what, [str(path)], answer, "")

        line = b"255.255.255.255/32:1,65535\n"
        for what, text in (("the sample text", (sample / "byuid").read_bytes()), ("an empty file", b""), ("one line", b"10.0.0.0/8:80,90"), ("a newline", b"\n"),
                           ("lines that were ignored", b"10.0.0.1/8:80,90\n10.0.0.0/8:90,80\n"), ("the fullest", (line * 400)[:8192]), ("one byte more", (line * 400)[:8193]),
                           ("far more", line * 100000), ("bytes of every kind", bytes(range(256)))):
            file(what, text)
            files += 1
        expect("no argument", [], b"", "usage: converter FILE\n")
        expect("a missing file", [folder + "/none"], b"", folder + "/none: No such file or directory\n")
        expect("a folder", [folder], b"", folder + ": Is a directory\n")
        for ran in range(1, 101):
            file("a generated text", gen.byuid_text(rng, 1))
        with open("/dev/full", "wb") as full:
            path.write_bytes(line)
            run = subprocess.run([program, str(path)], stdout=full, stderr=subprocess.PIPE, timeout=120, check=False)
            if run.stderr != b"standard output: No space left on device\n":
                print(f"converter: a full disk: {run.stderr}")
                sys.exit(1)
    print(f"converter: {files} files and {ran} generated texts as expected")


main()
