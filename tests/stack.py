#!/usr/bin/env python3
"""stack.py ARCHIVE: the most stack that any call can need, on any input: the frames of the archive's functions, added along the deepest
path of calls. GATE_STACK must leave a margin over it.

A frame is what a function pushes and takes off the stack pointer, with its return address; all of it is counted, wherever it stands in
the function, so that the sum is never too small. A function may call itself only if it is listed below with the most of its frames that
can stand at once. A call that is the last thing that a function does may be a jump: one to the function itself is a loop, and takes no
frame, as those of the sides of EXCEPT in lists::walk to each other, which the compiler joins; one to another function counts as a call.
For x86-64, as objdump shows it. Prints one line; exits with 1 where the margin is not left.
"""
import functools
import pathlib
import re
import subprocess
import sys

HEADER = (pathlib.Path(__file__).resolve().parent.parent / "include/gate.h").read_text(encoding="utf-8")
# for the first call of memcpy, memmove or memset through a dynamic linker, and for what a thread keeps on its stack
MARGIN = 8192
OUTSIDE = {"memcpy", "memmove", "memset"}


def macro(name):
    return int(re.search(rf"^#define {name} (\d+)", HEADER, re.M).group(1))


# one for each depth that a rule may lead to, and one for none
RECURSIVE = {"views::level::raised": 5}


# a frame of many pages is taken step by step, in a loop: it is read as taken at once
PAGES = re.compile(r"\tmov +%rsp,%r11\n.*\tsub +\$(0x[0-9a-f]+),%r11\n.*\tsub +\$0x[0-9a-f]+,%rsp\n.*\tmovq +\$0x0,\(%rsp\)\n.*\tcmp +%r11,%rsp\n.*\tjne .*\n")


def fail(what):
    print("stack: " + what)
    sys.exit(1)


def taken(instruction, number):
    """bytes taken off the stack pointer; adding a negative number takes too"""
    if instruction == "sub":
        return number
    return (1 << 64) - number if number >> 63 else 0


def functions(archive):
    """{name: [bytes of its frame, names that it calls]}"""
    listing = subprocess.run(["objdump", "-dr", "--no-show-raw-insn", archive], capture_output=True, text=True, check=True).stdout
    if "elf64-x86-64" not in listing:
        fail("the archive is not for x86-64")
    found, now = {}, None
    for line in PAGES.sub(r"\tsub    $\1,%rsp\n", listing).split("\n"):
        if begin := re.match(r"[0-9a-f]+ <(.+)>:$", line):
            now = found.setdefault(begin.group(1), [8, set()])
        elif take := re.search(r"\t(sub|add) +\$(0x[0-9a-f]+),%rsp", line):
            now[0] += taken(take.group(1), int(take.group(2), 16))
        elif "\tpush " in line:
            now[0] += 8
        elif re.search(r"\tcall +\*|,%rsp$", line):
            fail("a call or a frame that can't be followed: " + line.strip())
        elif called := re.search(r"R_X86_64_(?:PLT32|PC32|GOTPCREL\w*)\t(?:\.text\.)?([^\s+-]+)", line):
            now[1].add(called.group(1))
        elif within := re.search(r"\tcall +[0-9a-f]+ <([^+>]+)>", line):
            now[1].add(within.group(1))
    return found


def deepest(found):
    """{export: bytes}"""
    @functools.lru_cache(None)
    def below(name, path):
        if name not in found:
            return 0
        frame, calls = found[name]
        if name in calls and name not in RECURSIVE or calls & set(path):
            fail(f"{name} is called while it runs, and it is not known how often")
        others = [below(other, path + (name,)) for other in calls if other != name]
        return frame * RECURSIVE.get(name, 1) + max(others, default=0)
    return {name: below(name, ()) for name in found if name.startswith("gate_")}


def main():
    found = functions(sys.argv[1])
    unknown = {called for _, calls in found.values() for called in calls if not called.startswith(".")} - set(found) - OUTSIDE
    if unknown:
        fail(f"calls out of the archive: {sorted(unknown)}")
    needed = deepest(found)
    top = max(needed, key=needed.get)
    print(f"stack: by frames at most {needed[top]} bytes by {top}, of {macro('GATE_STACK')}")
    if needed[top] + MARGIN > macro("GATE_STACK"):
        fail(f"less than {MARGIN} bytes are left")


main()
