#!/usr/bin/env python3
"""install.py: scripts/install into a temporary folder: every file is there, a program is compiled by what pkg-config says and runs,
the installed programs run, and the man pages are clean under mandoc's linter. Wrong arguments and a missing file install nothing."""
import os
import pathlib
import re
import shutil
import subprocess
import sys
import tempfile

top = pathlib.Path(__file__).resolve().parent.parent
FILES = {"lib/libgate.a": 0o644, "lib/pkgconfig/libgate.pc": 0o644, "include/gate.h": 0o644, "bin/gate": 0o755, "bin/checker": 0o755,
         "bin/upgrader": 0o755, "bin/converter": 0o755, "share/man/man1/converter.1": 0o644, "share/man/man1/gate.1": 0o644, "share/man/man1/checker.1": 0o644, "share/man/man1/upgrader.1": 0o644,
         "share/man/man3/libgate.3": 0o644, "share/man/man5/station-sheet.5": 0o644, "share/man/man5/station-index.5": 0o644}
PROGRAM = """#include <gate.h>
#include <stdio.h>
int main(void) {
    struct gate_request request = gate_request_to("sshd", 4);
    struct gate_answer a = gate_verdict_for("sshd: UNKNOWN\\n", 14, "ALL: ALL\\n", 9, &request);
    printf("%s %s, %s line %d\\n", GATE_VERSION, gate_word_text(a.word), gate_section_text(a.file), (int)a.line);
    return 0;
}
"""
# mandoc looks for the pages that a page names on this machine, where they need not be
ELSEWHERE = ("referenced manual not found", "outdated mandoc.db")


def fail(what):
    print("install: " + what)
    sys.exit(1)


def run(*command, status=0, **more):
    done = subprocess.run(command, capture_output=True, text=True, timeout=60, **more)
    if done.returncode != status:
        fail(f"{' '.join(map(str, command))}: status {done.returncode}\n{done.stdout}{done.stderr}")
    return done.stdout


def installed(root):
    return {str(p.relative_to(root)): p.stat().st_mode & 0o777 for p in root.rglob("*") if p.is_file()}


def program(destdir, prefix):
    """a program against what was installed"""
    environment = {**os.environ, "PKG_CONFIG_PATH": f"{destdir}{prefix}/lib/pkgconfig", "PKG_CONFIG_SYSROOT_DIR": str(destdir)}
    flags = run("pkg-config", "--cflags", "--libs", "libgate", env=environment).split()
    version = run("pkg-config", "--modversion", "libgate", env=environment).strip()
    (destdir / "program.c").write_text(PROGRAM, encoding="utf-8")
    run("gcc", str(destdir / "program.c"), *flags, "-o", str(destdir / "program"))
    out = run(str(destdir / "program"))
    if out != f"{version} granted, allow line 1\n":
        fail("the program wrote " + out)


def one(folder, name, arguments, prefix):
    destdir = folder / name
    run(str(top / "scripts/install"), *arguments, str(destdir))
    root = pathlib.Path(f"{destdir}{prefix}")
    if installed(destdir) != {f"{prefix[1:]}/{path}": mode for path, mode in FILES.items()}:
        fail(f"{name}: installed {installed(destdir)}")
    program(destdir, prefix)
    (destdir / "sheet").write_bytes(bytes(18))
    if run(str(root / "bin/checker"), str(destdir / "sheet")) != "sheet ok\n":
        fail("the checker")
    (destdir / "sheet").write_bytes(bytes(16))
    if run(str(root / "bin/upgrader"), str(destdir / "sheet")) != "\0" * 18:
        fail("the upgrader")
    (destdir / "byuid").write_bytes(b"10.0.0.0/8:80,90\n")
    if run(str(root / "bin/converter"), str(destdir / "byuid")) != "10.0.0.0/8,80-90\n":
        fail("the converter")
    run(str(root / "bin/gate"), "--version")


def pages():
    for page in sorted((top / "man").iterdir()):
        done = subprocess.run(["mandoc", "-Tlint", "-Wstyle", str(page)], capture_output=True, text=True, timeout=60)
        said = [line for line in (done.stdout + done.stderr).split("\n") if line and not any(text in line for text in ELSEWHERE)]
        if said:
            fail("\n".join(said))


def documented():
    """libgate.3 shows every call of the header that is not an export with a call ending in _for beside it"""
    header = (top / "include/gate.h").read_text(encoding="utf-8")
    page = (top / "man/libgate.3").read_text(encoding="utf-8")
    shown = {m.group(1) for m in re.finditer(r"^\.Fn (\w+) ", page, re.M)}
    unknown = [name for name in shown if not re.search(r"\b%s\(" % name, header)]
    missing = [name for name in re.findall(r"\b(gate_\w+_(?:for|text)|gate_(?:host|request|settings)_\w+)\(", header) if name not in shown]
    if unknown or missing:
        fail(f"libgate.3: not in the header {unknown}, not on the page {sorted(set(missing))}")


def nothing(folder):
    """wrong arguments, and a tree that was not built"""
    for arguments in (["--prefix"], ["--prefix", "usr"], ["-x"], ["a", "b"]):
        run(str(top / "scripts/install"), *arguments, status=2, cwd=folder)
    bare = folder / "bare"
    for name in ("scripts", "include", "man"):
        shutil.copytree(top / name, bare / name)
    run(str(bare / "scripts/install"), str(folder / "none"), status=1)
    if (folder / "none").exists():
        fail("something was installed of nothing")


def main():
    with tempfile.TemporaryDirectory() as name:
        folder = pathlib.Path(name)
        one(folder, "default", [], "/usr/local")
        one(folder, "prefix", ["--prefix", "/opt/gate"], "/opt/gate")
        nothing(folder)
    pages()
    documented()
    print(f"install: {len(FILES)} files in place, a program linked and run, man pages clean")


main()
