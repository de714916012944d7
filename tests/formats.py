#!/usr/bin/env python3
"""formats.py LIBRARY: the example of docs/FORMATS.md, its bytes read out of the document: the index is the one that gate_index writes for the
sheet, and the answer the one that gate_verdicts gives to the request by it. What stands beside the bytes says the same as they do, and
man/station-index.5 shows the same index. Then each byte of index and answer is changed, one at a time: the calls must disagree. Prints one line."""
import ctypes
import pathlib
import re
import sys

import differential as gen
import reference as ref

TOP = pathlib.Path(__file__).resolve().parent.parent
SHEET, INDEX, REQUEST, ANSWER = range(4)


def fail(what, *shown):
    print("formats: " + what, *shown, sep="\n    ")
    sys.exit(1)


def dumped(line):
    """the bytes of a line of a dump: pairs of hex digits, and behind three blanks or more what they are"""
    return bytes.fromhex(re.split(r" {3,}", line.strip())[0])


def blocks(page):
    """the dumps of the page, each the bytes and the lines of one"""
    found = []
    for paragraph in page.split("\n\n"):
        lines = paragraph.rstrip("\n").split("\n")
        if all(re.match(r"    [0-9a-f]{2} +[0-9a-f]{2} ", line) for line in lines):
            found.append((b"".join(map(dumped, lines)), lines))
    return found


def written(call, room, *texts):
    """the number of an answer, and the bytes"""
    out = ctypes.create_string_buffer(room)
    w = call(out, room, *(x for text in texts for x in (text, len(text))))
    return w.number, out.raw[:w.count]


def check_beside(lines):
    """of an index: two numbers a line; `A to B` beside them says what they are"""
    for line in lines:
        numbers = [int.from_bytes(dumped(line)[at:at + 4], "big") for at in (0, 4)]
        said = re.search(r"(\d+) to (\d+)$", line)
        if said and numbers != [int(n) for n in said.groups()]:
            fail("a line says other numbers than its bytes", line)


def planted(lib, dumps):
    """a byte changed in the document is noticed"""
    for which in (INDEX, ANSWER):
        for at in range(len(dumps[which])):
            changed = list(dumps)
            changed[which] = dumps[which][:at] + bytes([dumps[which][at] ^ 1]) + dumps[which][at + 1:]
            if agree(lib, changed):
                fail(f"byte {at} of the dump {which} can be another")


def agree(lib, dumps):
    sheet, index, request, answer = dumps
    return written(lib.gate_index, 1000, sheet) == (0, index) and written(lib.gate_verdicts, 1000, sheet, index, request) == (0, answer)


def main():
    lib, page = gen.load(sys.argv[1]), (TOP / "docs/FORMATS.md").read_text(encoding="utf-8")
    manual = (TOP / "man/station-index.5").read_text(encoding="utf-8")
    found = blocks(page[page.index("## An example"):])
    if len(found) != 4:
        fail("the example has a sheet, an index, a request and an answer", len(found))
    dumps = [dump for dump, _ in found]
    if not agree(lib, dumps):
        fail("the calls write otherwise", *(dump.hex(" ", 4) for dump in dumps), written(lib.gate_index, 1000, dumps[SHEET]),
             written(lib.gate_verdicts, 1000, *dumps[:3]))
    sheet = ref.sheet_of([b"in.ftpd: 10.\n", b"ALL: ALL\n", b"", b"", ref.NO_TABLES])
    if dumps[SHEET] != sheet or ref.index(sheet, 72) != dumps[INDEX] or ref.verdicts(*dumps[:3], 36) != dumps[ANSWER]:
        fail("the reference writes otherwise")
    check_beside(found[INDEX][1])
    planted(lib, dumps)
    shown = [line for line in manual.split("\n") if re.match(r"[0-9a-f]{2} +[0-9a-f]{2} ", line)]
    if b"".join(map(dumped, shown)) != dumps[INDEX]:
        fail("station-index.5 shows another index")
    print(f"formats: the example of docs/FORMATS.md is what the calls write: {', '.join(str(len(dump)) for dump in dumps)} bytes")


main()
