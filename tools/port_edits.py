#!/usr/bin/env python3
"""Brings the must-fail edits of the last commit in the old form to today's spelling, each with the same wrong meaning.

usage: tools/port_edits.py trees DIR       makes DIR/right, the sources of that commit as port.py and the respelling turn them, and DIR/1, 2, ..
                                           in which the wrong lines of clauses and definitions were turned the same way
       tools/port_edits.py turn DIR [NAME..]   writes crates/*/must-fail/*.edit by them, and prints what is left to do by hand

A replacement in code whose old text still stands once is kept as it is. Of any other the turned right lines and the turned wrong lines are
set side by side; what differs is looked for in today's file, token by token, and becomes pairs of lines of today's layout.
"""
import collections
import difflib
import os
import pathlib
import re
import subprocess
import sys

TOP = pathlib.Path(__file__).resolve().parent.parent
sys.dont_write_bytecode = True
sys.path[:0] = [str(TOP / "scripts"), str(TOP / "tools")]
import respell
from edits import PROGRAM_LINE

EVERYWHERE = dict(line.split("\t") for line in (TOP / "tools/respelled.tsv").read_text().splitlines())
LANDED = "29a8d36"
PORT = "/opt/rattle/port/port.py"
TOKEN = re.compile(r'"(?:\\.|[^"\\\n])*"|[(){}\[\],;.⌜⌝«»]|[^\s(){}\[\],;.⌜⌝«»"]+|"')


def landed(path):
    return subprocess.run(["git", "show", f"{LANDED}:{path}"], cwd=TOP, check=True, capture_output=True).stdout.decode()


def listed(pattern):
    said = subprocess.run(["git", "ls-tree", "-r", "--name-only", LANDED, "crates"], cwd=TOP, check=True, capture_output=True).stdout.decode()
    return [p for p in said.split("\n") if re.fullmatch(pattern, p)]


class Pair:
    def __init__(self, crate, edit, label, file, old, new):
        self.crate, self.edit, self.label, self.file, self.old, self.new = crate, edit, label, file, old, new
        self.path = f"crates/{crate}/{file}"
        self.round = None


def lines_of(edit):
    """The lines of an edit file; in place of each pair's lines `old` and `new` a Pair."""
    crate, label, file, old, out = edit.split("/")[1], "", None, None, []
    for line in landed(edit).split("\n"):
        begins = PROGRAM_LINE.fullmatch(line)
        if begins:
            label = begins[1]
        if line.startswith("file: "):
            file = line[len("file: "):]
        elif line.startswith("old: "):
            old = line[len("old: "):]
            continue
        elif line.startswith("new:"):
            out.append(Pair(crate, edit, label, file, old, line[len("new:"):].removeprefix(" ")))
            continue
        out.append(line)
    return out


def all_edits():
    return {edit: lines_of(edit) for edit in listed(r"crates/\w+/must-fail/(incremental/)?[\w-]+\.edit")}


def is_turned(pair, text):
    """Whether it changes a definition, a clause or an import."""
    if pair.file.startswith("specs/"):
        return True
    at = text.index(pair.old)
    return any(a < at + len(pair.old) and at < b for a, b in respell.clauses(text))


def planned(edits):
    """Gives each pair that is to be turned the number of a tree, so that no two of a tree change one line or lines beside one another."""
    taken = collections.defaultdict(set)
    text_of = {}
    for edit, lines in edits.items():
        texts = {}
        for p in (p for p in lines if isinstance(p, Pair)):
            text = texts.get(p.path) or text_of.setdefault(p.path, landed(p.path))
            if text.count(p.old) != 1:
                sys.exit(f"{edit}: {p.label}: {p.old}")
            texts[p.path] = text.replace(p.old, p.new)
            p.plain = text_of[p.path].count(p.old) == 1
            if is_turned(p, text):
                if not p.plain:
                    print(f"look: {edit}: {p.label}: it changes what an earlier one made")
                    p.round = 0
                    continue
                line = text_of[p.path][:text_of[p.path].index(p.old)].count("\n")
                p.line = line
                k = 1
                while any((p.path, line + d) in taken[k] for d in range(-2, 3)):
                    k += 1
                taken[k].add((p.path, line))
                p.round = k
    return max((k for k in taken if taken[k]), default=0)


def make_tree(folder, changes):
    folder.mkdir(parents=True)
    for path in listed(r"crates/\w+/(src|specs)/.*") + ["crates.txt"]:
        text = landed(path)
        places = {p: text.index(p.old) for p in changes.get(path, [])}
        for p, at in sorted(places.items(), key=lambda place: -place[1]):
            text = text[:at] + p.new + text[at + len(p.old):]
        (folder / path).parent.mkdir(parents=True, exist_ok=True)
        (folder / path).write_text(text, encoding="utf-8")
    git = ["git", "-c", "user.name=x", "-c", "user.email=x@x"]
    for words in (["init", "-q"], ["add", "-A"], ["commit", "-qm", "landed"]):
        subprocess.run(git + words, cwd=folder, check=True)
    script = pathlib.Path(PORT).read_text().replace('SAID = "/tmp/port-said"', f'SAID = "{folder}.said"')
    script = script.replace("HERE = os.path.dirname(os.path.realpath(__file__))", f'HERE = "{os.path.dirname(PORT)}"')
    said = subprocess.run([sys.executable, "-c", script], cwd=folder, capture_output=True, text=True)
    pathlib.Path(f"{folder}.log").write_text(said.stdout + said.stderr)
    respelled(folder)
    print(f"port_edits: {folder}: status {said.returncode}", flush=True)


def respelled(top):
    own = {p.name for p in (top / "crates").iterdir()}
    for path in sorted(p for p in (top / "crates").rglob("*") if p.suffix in (".antt", ".rt")):
        text = path.read_text()
        theirs = respell.of_libraries(text, own)
        to = {a: b for a, b in EVERYWHERE.items() if a not in theirs}
        path.write_text(respell.turn_rt(text, to) if path.suffix == ".rt" else respell.in_code(text, to))


def trees(folder):
    edits = all_edits()
    rounds = planned(edits)
    pairs = [p for lines in edits.values() for p in lines if isinstance(p, Pair)]
    print(f"port_edits: {len(pairs)} pairs, {sum(p.round is not None for p in pairs)} to be turned, in {rounds} trees", flush=True)
    for k in range(rounds + 1):
        changes = collections.defaultdict(list)
        for p in pairs:
            if k and p.round == k:
                changes[p.path].append(p)
        at = folder / (str(k) if k else "right")
        if not at.exists():
            make_tree(at, changes)


def hunks_of(right, wrong):
    """The runs of lines that differ: those of the right text and those of the wrong one."""
    a, b = right.split("\n"), wrong.split("\n")
    return [(a[i:j], b[k:m]) for op, i, j, k, m in difflib.SequenceMatcher(None, a, b, False).get_opcodes() if op != "equal"]


def tokens(text):
    """Pairs of places: each token, with the space before it."""
    return [m.span() for m in TOKEN.finditer(text)]


def difference(a, b):
    """How many tokens two texts share at the front, and how many of the rest at the back."""
    s, t = [a[i:j] for i, j in tokens(a)], [b[i:j] for i, j in tokens(b)]
    front = next((k for k, (x, y) in enumerate(zip(s, t)) if x != y), min(len(s), len(t)))
    rest = min(len(s), len(t)) - front
    back = next((k for k in range(rest) if s[-1 - k] != t[-1 - k]), rest)
    return front, back


def short_pair(line, wrong, text, around):
    """A part of the line that stands once in the text, with `around` tokens beside what differs at least, and what stands in its place."""
    front, back = difference(line, wrong)
    s, t = tokens(line), tokens(wrong)
    left, right = max(front - around[0], 0), max(back - around[1], 0)
    turn = 0
    while True:
        a, b = (s[left][0] if left < len(s) else len(line)), (s[-1 - right][1] if right < len(s) else 0)
        c, d = (t[left][0] if left < len(t) else len(wrong)), (t[-1 - right][1] if right < len(t) else 0)
        if not left and turn > 1:
            a = c = 0
        old, new = line[a:b], wrong[c:d]
        is_whole = old.strip() and (not new or new.strip() == new or not left) and line[:a] + new + line[b:] == wrong
        if is_whole and text.count(old) == 1:
            return old, new
        if left == 0 and right == 0 and turn > 3:
            return None
        if turn % 2 and right or not left and right:
            right -= 1
        elif left:
            left -= 1
        turn += 1


def turned(pair, right, wrong, text):
    """What differs between the right lines and the wrong ones, as pairs of one line each, or None."""
    around = difference(pair.old, pair.new)
    if len(right) != len(wrong):
        # broken otherwise: what differs lies within one line of the right text
        a, b = "\n".join(right), "\n".join(wrong)
        front, back = difference(a, b)
        s, t = tokens(a), tokens(b)
        last = len(s) - back
        begin, end = (s[front][0], s[last - 1][1]) if last > front else (s[front][0], s[front][0]) if front < len(s) else (len(a), len(a))
        if "\n" in a[begin:end]:
            return None
        new = re.sub(r"\s+", " ", b[t[front][0]:t[len(t) - back - 1][1]]) if len(t) - back > front else ""
        gap = " " if last == front and new and not a[:begin].endswith(("(", " ")) else ""
        after = " " if last == front and new and not re.match(r"[).;,]|$", a[end:], re.M) else ""
        wrong = (a[:begin] + gap + new + after + a[end:]).split("\n")
    found = []
    for line, other in zip(right, wrong):
        if line != other:
            part = short_pair(line, other, text, around)
            if not part:
                return None
            found.append(part)
            text = text.replace(*part)
    return found


def heading(line):
    """A line of an edit file that is no pair's: names of theorems and definitions are respelled."""
    begins = PROGRAM_LINE.fullmatch(line)
    if not begins:
        return line
    target = begins[2] if "::" in begins[2] else ".".join(EVERYWHERE.get(w, w.replace("-", "_")) for w in begins[2].split("."))
    said = re.sub(r"`([^`]+)`", lambda m: "`" + EVERYWHERE.get(m[1], m[1]) + "`", begins[3])
    return f"# {begins[1]} ({target}): {said}"


def turn(folder, names):
    edits = all_edits()
    planned(edits)
    hunks = {}
    left = 0
    for path in sorted({p.path for lines in edits.values() for p in lines if isinstance(p, Pair) and p.round}):
        here = [p for lines in edits.values() for p in lines if isinstance(p, Pair) and p.round and p.path == path]
        for k in {p.round for p in here}:
            pairs = sorted((p for p in here if p.round == k), key=lambda p: p.line)
            if not (folder / str(k) / path).exists():
                continue
            differ = hunks_of((folder / "right" / path).read_text(), (folder / str(k) / path).read_text())
            if len(pairs) < len(differ):
                # an import that was laid out otherwise
                differ = [d for d in differ if not all(re.match(r"(pub )?(ghost )?use ", line) for line in d[0] + d[1])]
            if len(pairs) == len(differ):
                hunks.update(zip(pairs, differ))
            else:
                print(f"left: {path}: tree {k} differs in {len(differ)} places for {len(pairs)} pairs: {', '.join(p.label for p in pairs)}: {differ}")
    for edit, lines in edits.items():
        if names and edit.split("/")[1] not in names:
            continue
        texts, out = {}, []
        for line in lines:
            if not isinstance(line, Pair):
                out.append(heading(line))
                continue
            p = line
            text = texts.get(p.path) or (TOP / p.path).read_text()
            pairs = [(p.old, p.new)] if p.round is None else turned(p, *hunks[p], text) if p in hunks else None
            if not pairs or any(text.count(old) != 1 for old, _ in pairs[:1]):
                left += 1
                print(f"left: {edit}: {p.label}: {p.file}\n    {p.old}\n    {p.new}\n    {hunks.get(p)}")
                pairs = pairs or [(p.old, p.new)]
            for old, new in pairs:
                out += ["old: " + old, ("new: " + new).rstrip()] if new.strip() else ["old: " + old, "new:"]
                text = text.replace(old, new)
            texts[p.path] = text
        to = TOP / edit.replace("/incremental/", "/")
        if to != TOP / edit and (TOP / edit).exists():
            if to.exists():
                sys.exit(f"{to}: another edit file has this name")
            subprocess.run(["git", "mv", edit, str(to)], cwd=TOP, check=True)
        to.write_text("\n".join(out))
    print(f"port_edits: {left} left by hand")


if __name__ == "__main__":
    if sys.argv[1:2] == ["trees"]:
        trees(pathlib.Path(sys.argv[2]).resolve())
    elif sys.argv[1:2] == ["turn"]:
        turn(pathlib.Path(sys.argv[2]).resolve(), sys.argv[3:])
    else:
        sys.exit(__doc__)
