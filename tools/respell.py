#!/usr/bin/env python3
"""Spells this repository's own definitions and lemmas as today's Rattle does: words in snake case, types and modules in camel case.

usage: tools/respell.py [TOP]      once, on a tree that port.py has turned, with everything committed

A name that a file of specs/ or proofs/ declares and that is in camelCase or holds a dash is written with underscores wherever it
stands as a name: in .antt files, and in the clauses, imports and comments of .rt files. What a function's Proof.antt declares for
itself is left, as the names of goals are Rattle's. Where a lemma would have a definition's name, it gets _lem.
It prints each file in which two names fall together.
"""
import collections
import pathlib
import re
import sys

NAME = r"[^\s(){}.;,@\"«»\[\]:\\]+"
TOKEN = re.compile(r"--[^\n]*|//[^\n]*|\"(?:[^\"\\\n]|\\.)*\"|" + NAME)
DECLARED = re.compile(r"(?m)^ *(?:(?:pub|abbrev|unfoldable|opaque|pattern|data|record|\|) )*(" + NAME + r")(?: \{[^{}\n]*\})*(?: \([^\n]*?\))* :(?= |$)")
HEADED = re.compile(r"(?m)^\s*(?:pub )?(?:data|record) (\S+)")


def snake(name):
    if name[0].isupper():
        return name.replace("-", "_")
    return re.sub(r"(?<=[a-z0-9])[A-Z]", lambda m: "_" + m[0].lower(), name).replace("-", "_")


def code_of(text):
    return re.sub(r"--[^\n]*", "", text)


def is_own_proof(path):
    return path.name == "Proof.antt"


def declarations(files):
    """Each declared name, with the files that declare it."""
    found = collections.defaultdict(set)
    for path, text in files.items():
        if path.suffix == ".antt" and not is_own_proof(path):
            code = code_of(text)
            for m in list(DECLARED.finditer(code)) + list(HEADED.finditer(code)):
                found[m[1]].add(path)
    return found


def respellings(found):
    """Old names to new ones; of names that fall together the definition's is the plain one."""
    groups = collections.defaultdict(list)
    for name in sorted(found):
        groups[snake(name)].append(name)
    to = {}
    for plain, names in groups.items():
        def rank(name):
            in_specs = any("specs" in p.parts for p in found[name])
            return (not in_specs, not re.search(r"[a-z][A-Z]", name), "-" in name)
        names.sort(key=rank)
        for at, name in enumerate(names):
            new = plain if at == 0 else plain + "_lem" * at
            if new != name:
                to[name] = new
    to["◌orElse◌"] = "◌or_else◌"
    # today's library has a choice of that name, which is no part of a chain
    to.update({"when": "when_found", "if": "when", "if◌then◌else◌": "when◌then◌else◌"})
    to["◌andThen◌"] = "◌and_then◌"
    # these would meet a word of the library, or a field of the code, in one file
    for name in ("bit-and", "bit-or", "name-end"):
        to[name] = snake(name) + "_lem"
    return to


def in_code(text, to, fields=None):
    """The text with each name respelled; after a dot only fields are."""
    def turn(m):
        word = m[0]
        if word.startswith(("--", "//")):
            return in_comment(word, to)
        if word.startswith('"'):
            return word
        if fields is not None and m.start() and text[m.start() - 1] == "." and word not in fields:
            return word
        return to.get(word, word)
    return TOKEN.sub(turn, text)


def in_comment(text, to):
    def turn(m):
        return to.get(m[0], m[0]) if re.search(r"[a-z0-9][A-Z]", m[0]) or m[0] in here else m[0]
    here = in_comment.own
    return re.sub(r"[^\s(){}.;,@\"«»\[\]:\\`]+", turn, text)


in_comment.own = set()

USE = re.compile(r"\buse ([^\s;{]+)\.\{([^}]*)\}")


def of_libraries(text, own):
    """The names that a file imports from a library."""
    found = set()
    for m in re.finditer(r"\buse ([\w.]+?)(?: as (\w+))?;?$", text, re.M):
        steps = m[1].split(".")
        if steps[0] != "Rattle" or steps[1] not in own:
            found |= set(re.findall(rf"(?<![\w.]){m[2] or steps[-1]}\.({NAME})", text))
    for m in USE.finditer(text):
        steps = m[1].split(".")
        if steps[0] != "Rattle" or steps[1] not in own:
            found |= {it.split(" as ")[0].strip() for it in m[2].split(",")}
    return found


CLAUSE = re.compile(r"\b(?:requires\*?|ensures\*?|ghost)\b[^\n{;]*\{")


def clauses(text):
    """Where clauses and imports stand in a .rt file: pairs of places."""
    spans = [m.span() for m in re.finditer(r"ghost use [^;]*;", text)]
    for m in CLAUSE.finditer(text):
        if any(a <= m.start() < b for a, b in spans):
            continue
        depth, at = 1, m.end()
        while depth:
            depth += {"{": 1, "}": -1}.get(text[at], 0)
            at += 1
        spans.append((m.end(), at))
    return sorted(spans)


def turn_rt(text, to):
    out, last = [], 0
    for a, b in clauses(text):
        out += [re.sub(r"//[^\n]*", lambda m: in_comment(m[0], to), text[last:a]), in_code(text[a:b], to)]
        last = b
    return "".join(out + [re.sub(r"//[^\n]*", lambda m: in_comment(m[0], to), text[last:])])


def fields_of(files):
    found = set()
    for path, text in files.items():
        if path.suffix == ".antt":
            code = code_of(text)
            for m in re.finditer(r"(?m)^( *)(?:pub )?record [^\n]*where\n((?:\1 +[^\n]*\n|\s*\n)*)", code):
                found |= {f[1] for f in DECLARED.finditer(m[2])}
    return found


def fallen_together(path, old, to):
    names = collections.defaultdict(set)
    for m in TOKEN.finditer(old):
        if not m[0].startswith(("--", "//", '"')):
            names[to.get(m[0], m[0])].add(m[0])
    return {k: v for k, v in names.items() if len(v) > 1}


def main(argv):
    top = pathlib.Path(argv[0] if argv else ".")
    paths = sorted(p for p in (top / "crates").rglob("*") if p.suffix in (".antt", ".rt") and "out" not in p.parts)
    files = {p: p.read_text(encoding="utf-8") for p in paths}
    found = declarations(files)
    to, fields = respellings(found), fields_of(files)
    own = {p.name for p in (top / "crates").iterdir()}
    changed, everywhere = 0, to
    for path, text in files.items():
        in_comment.own = {n for n in found if path in found[n]}
        theirs = of_libraries(text, own)
        to = {a: b for a, b in everywhere.items() if a not in theirs}
        if path.suffix == ".rt":
            new = turn_rt(text, to)
            said = "\n".join(text[a:b] for a, b in clauses(text))
            for name, olds in sorted(fallen_together(path, said, to).items()):
                print(f"look: {path.relative_to(top)}: {' and '.join(sorted(olds))} are {name}")
        else:
            new = in_code(text, to, fields if is_own_proof(path) else None)
            for name, olds in sorted(fallen_together(path, text, to).items()):
                print(f"look: {path.relative_to(top)}: {' and '.join(sorted(olds))} are {name}")
        if new != text:
            path.write_text(new, encoding="utf-8")
            changed += 1
    (top / "tools/respelled.tsv").write_text("".join(f"{a}\t{b}\n" for a, b in sorted(everywhere.items())), encoding="utf-8")
    print(f"respell: {len(everywhere)} names, {changed} files")


if __name__ == "__main__":
    sys.exit(main(sys.argv[1:]))
