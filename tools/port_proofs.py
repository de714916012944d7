#!/usr/bin/env python3
"""Writes a function's Proof.antt of the older form, which answers its goals by their places, as Invariants.antt and Answers.antt.

usage: tools/port_proofs.py NAMES.json CRATE [FOLDER..]

NAMES.json is what `rt check --generated DIR --old-names` writes for the crate. Each goal, step and loop gets today's name; an answer
that only says `search rules` is left out. A Proof.antt that it can't read stays, and a line says why.
"""
import json
import pathlib
import re
import sys

ID = r"[^\s(){}.;,@\"«»\[\]\\]+"
SPEC = re.compile(r"(?ms)^(\S+[-_]spec)\b[^\n:=]*=(.*?)(?=^\S|\Z)")
GENERATED = re.compile(r"^use Rattle\.\w+\.proofs\.(?:\S+\.)?(?:Statement|Tie|Goals|Given|Lts)\b")


def plain(name):
    return name.replace("_", "-").lower()


def snake(name):
    if name[0].isupper():
        return name.replace("-", "_")
    return re.sub(r"(?<=[a-z0-9])[A-Z]", lambda m: "_" + m[0].lower(), name).replace("-", "_")


def atoms(text):
    """A call's arguments: what stands in brackets is one."""
    out, i = [], 0
    while i < len(text):
        if text[i].isspace():
            i += 1
            continue
        j, depth = i, 0
        while j < len(text) and (depth or not text[j].isspace()):
            depth += {"(": 1, "{": 1, "[": 1, ")": -1, "}": -1, "]": -1}.get(text[j], 0)
            j += 1
        out.append(text[i:j])
        i = j
    return out


def chunks(text):
    """The top-level parts of a file: a comment or use line, or a declaration with its clauses."""
    found = []
    for line in text.split("\n"):
        head = re.match(rf"((?:abbrev |pub |unfoldable )*)({ID})", line)
        if line[:1].isspace() or not line.strip() or line[0] in ")]}":
            if found:
                found[-1][1].append(line)
            continue
        if line.startswith(("--", "use ", "infix", "module ")):
            found.append([None, [line]])
        elif line.startswith("unfolding ") and found and found[-1][0]:
            found[-1][1].append(line)
        elif found and found[-1][0] and head and head[2] == found[-1][0]:
            found[-1][1].append(line)
        else:
            found.append([head[2] if head else None, [line]])
    return [(name, "\n".join(lines).rstrip()) for name, lines in found]


class Function:
    def __init__(self, names):
        self.needs = [tuple(it) for it in names["needs"]]
        self.places = {}
        self.parent = {}
        for old, parent, (step, new), *_ in names["places"]:
            self.parent[old] = parent
            self.places[old] = (step, new)
        self.at = [it[0] for it in names["asked_at"]]
        self.loops = names["loops"]
        self.changed = names["changed"]
        self.clauses, self.fields, self.arms, self.known = {}, {}, {}, {}
        rows = zip(names["places"], names["clauses"], names["arms"], names["typed"])
        for (old, _, _, _, renamed), clauses, arm, known in rows:
            self.fields[old] = dict(map(tuple, renamed))
            self.clauses[old] = clauses["fields"] if clauses else []
            self.arms[old] = arm
            self.known[old] = {plain(step): name for name, step in known}
        self.pre = names["pre"]["fields"] if names["pre"] else []
        self.asked = names["asked"]
        self.steps = {}
        for old, new in self.places.values():
            if old:
                self.steps.setdefault(plain(old), set()).add(new)

    def step(self, word, place):
        """Today's name of a step that is before this place."""
        at = place
        while at:
            old, new = self.places[at]
            if old and plain(old) == plain(word):
                return new
            at = self.parent[at]
        found = self.steps.get(plain(word), set())
        return next(iter(found)) if len(found) == 1 else None


def turn_paths(body, fn, place, roots):
    """The body with each path from a record of facts in today's names."""
    roots = set(roots)
    while True:
        for m in re.finditer(rf"\blet ({ID})(?: : {ID})? = ({ID})((?:\.{ID})*) in\b", body):
            if m[2] in roots and m[1] not in roots and all(p == "before" for p in m[3].split(".")[1:]):
                roots.add(m[1])
                break
        else:
            break

    for m in re.finditer(rf"\blet ({ID}) = ({ID})((?:\.before)*\.{ID}\.given\.0) in\s*", body):
        if m[2] in roots:
            rest = re.sub(rf"(?<![^\s(){{}},\[]){re.escape(m[1])}\.(?=\d)", f"{m[2]}{m[3]}.", body[m.end():])
            return turn_paths(body[: m.start()] + rest, fn, place, roots)

    calls = {}
    for m in re.finditer(rf"\blet ({ID}) = ({ID})((?:\.before)*)\.({ID}) in\b", body):
        at = place
        while m[2] in roots and at:
            if plain(fn.places[at][0]) == plain(m[4]):
                calls[m[1]] = fn.clauses[at]
                break
            at = fn.parent[at]

    def turn(m):
        root, parts = m[1], m[2].split(".")[1:]
        if root in calls and parts[0] == "ensures":
            return as_pairs(f"{root}.ensures", parts[1:], calls[root])
        if root not in roots:
            return m[0]
        parts = [p for p in parts if p != "before"]
        if not parts:
            return root
        head, rest = parts[0], parts[1:]
        if head == "requires":
            return as_pairs(".".join([root, head]), rest, fn.pre)
        if head in ("args", "ranges", "well-formed", "well_formed", "type_inv", "type-inv", "initial", "lifetimes"):
            return ".".join([root, head.replace("-", "_")] + rest)
        at = place
        while at:
            known = fn.known[at].get(plain(head))
            if known and rest[:1] == ["given"]:
                return ".".join([root, "type_inv", known] + rest[1:])
            arm = fn.arms[at]
            for new, step, path in arm[2] if arm else []:
                if plain(step) == plain(head) and rest[: len(path)] == path and path:
                    if new == "ensures":
                        return as_pairs(".".join([root, arm[0], new]), rest[len(path):], fn.clauses[at])
                    return ".".join([root, arm[0], new] + rest[len(path):])
            at = fn.parent[at]
        at = place
        while at and plain(fn.places[at][0]) != plain(head):
            at = fn.parent[at]
        if not at and re.search(r"\d$", head):
            base, at = plain(head).rstrip("0123456789"), place
            while at and plain(fn.places[at][0]).rstrip("0123456789") != base:
                at = fn.parent[at]
        if not at:
            return ".".join([root, fn.step(head, place) or head.replace("-", "_")] + rest)
        rest = [fn.fields[at].get(p, p) if k == 0 else p for k, p in enumerate(rest)]
        if rest[:1] in (["new"], ["auto"]) and rest[1:2] and rest[1].isdigit():
            rest[1] = "out"
        if rest[:1] == ["ensures"]:
            return as_pairs(".".join([root, fn.places[at][1], "ensures"]), rest[1:], fn.clauses[at])
        return ".".join([root, fn.places[at][1]] + rest)

    return re.sub(rf"(?<![^\s(){{}},\[]) *({ID})((?:\.{ID})+)".replace(" *", ""), turn, body)


def by_name(path, fields):
    """A path into nested pairs, by the names of the clauses that these were made."""
    n = len(fields)
    if n < 2 or not path or not path[0].isdigit():
        return [p.replace("-", "_") if k == 0 and not p.isdigit() and fields else p for k, p in enumerate(path)]
    if int(path[0]) > 1:
        return [fields[int(path[0])]] + path[1:]
    for k in range(n):
        pairs = ["1"] * k + ["0"] * (k < n - 1)
        if path[: len(pairs)] == pairs:
            return [fields[k]] + path[len(pairs):]
    return [fields[1]] + path[1:]


def as_pairs(path, rest, fields):
    """A fact of several clauses at a path: a part of it by its name, or the whole as nested pairs."""
    if rest or len(fields) < 2:
        return ".".join([path] + by_name(rest, fields))
    text = f"{path}.{fields[-1]}"
    for name in reversed(fields[:-1]):
        text = f"({path}.{name}, {text})"
    return text


def parts_of(term):
    """The parts of a pair, or None."""
    term = term.strip()
    if not (term.startswith("(") and atoms(term) == [term]):
        return None
    found, depth, last = [], 0, 1
    for k, ch in enumerate(term):
        depth += {"(": 1, "{": 1, "[": 1, ")": -1, "}": -1, "]": -1}.get(ch, 0)
        if ch == "," and depth == 1:
            found.append(term[last:k])
            last = k + 1
    if term[last:-1].strip():
        found.append(term[last:-1])
    return found if len(found) > 1 else None


def as_record(term, fields):
    """An answer to several clauses, which were nested pairs, as a record of them."""
    n = len(fields)
    lead = re.match(r"(?s)((?:let .*? in\s+)*)(.*)", term)
    head, body = ("", term)
    if term.startswith("let "):
        at = max(m.end() for m in re.finditer(r"\bin\s+", term))
        head, body = term[:at].rstrip() + "\n    ", term[at:]
    found = parts_of(body)
    values = []
    while found and len(values) < n:
        if len(found) == n - len(values):
            values += found
            break
        values.append(found[0])
        if len(values) == n - 1:
            values.append(", ".join(found[1:]))
            break
        if len(found) == 2 and is_plain(found[1]):
            values += ["search rules"] * (n - len(values))
            break
        found = parts_of(found[1]) if len(found) == 2 else None
    if len(values) == n:
        return head + "record { " + "; ".join(f"{f} = {v.strip()}" for f, v in zip(fields, values)) + " }"
    word = body.strip().lstrip("(").split()[0]
    if word in ("rw", "simp") and not body.strip().startswith("("):
        words = atoms(body)
        if len(words) == 3:
            return head + f"{words[0]} {words[1]} ({as_record(words[2], fields)})"
        return term
    if word in ("search", "outright", "absurd", "elim", "cc", "omega", "grind", "record") or found:
        return term
    path = lambda k: ".".join(["both"] + ["1"] * k + ["0"] * (k < n - 1))
    return head + f"let both = {body.strip()} in record {{ " + "; ".join(f"{f} = {path(k)}" for k, f in enumerate(fields)) + " }"


def is_plain(body):
    return re.sub(r"\s+", " ", body.strip()) == "search rules"


def loop_params(fn, k):
    names, changed = fn.loops[k][1], fn.changed[k]
    first = [(f"{v}₀" if c else v, f"l.initial.{v}" if c else f"l.{v}") for v, c in zip(names, changed)]
    last = [(v, f"l.{v}") for v, c in zip(names, changed) if c]
    return first + last


def convert(path, names, crate, module):
    text = path.read_text(encoding="utf-8")
    fn = Function(names)
    parts = chunks(text)
    spec = SPEC.search(re.sub(r"--[^\n]*", lambda m: " " * len(m[0]), text))
    if not spec:
        raise ValueError("no proof of the function")
    body = spec[2].strip()
    call = re.fullmatch(r"tie\.close\s*\(\s*tie\.spec(.*)\)", body, re.S) or re.fullmatch(r"let facts = tie\.spec(.*?)\bin\s+tie\.close facts", body, re.S)
    if not call:
        raise ValueError("another form")
    args = atoms(call[1])
    whole = re.search(r"(?m)^unfolding .*$", dict((n, t) for n, t in parts if n).get(spec[1], ""))
    loops = len(fn.loops)
    want = 2 * loops + len(fn.needs)
    if len(args) != want:
        args = align(args, fn, want)
    head = [t for n, t in parts if n is None and not GENERATED.match(t)]
    comments = [t for t in head if t.startswith("--")]
    uses = [t for t in head if t.startswith("use ")]
    own = {n: t for n, t in parts if n and n != spec[1]}
    invariants, answers, helpers, used = [], [], [], set()
    here = f"Rattle.{crate}.proofs.{module}"

    # loops
    inv = args[: 2 * loops]
    for k in range(loops):
        new = fn.loops[k][0][1]
        for word, arg in zip(("invariant", "decreases"), inv[2 * k : 2 * k + 2]):
            used.add(arg)
            decl = own.get(arg)
            params = loop_params(fn, k)
            if arg.startswith("("):
                m = re.fullmatch(r"\(λ ([^.]*)\.\s+(.*)\)", arg, re.S)
                if not m:
                    raise ValueError("a loop's term: " + arg[:60])
                binders, term = m[1].split(), m[2]
            else:
                if not decl:
                    raise ValueError("no " + arg)
                m = re.search(rf"(?m)^{re.escape(arg)}((?: [^\s=]+)*) =(.*)\Z", decl, re.S)
                if not m:
                    raise ValueError("cannot read " + arg)
                binders, term = m[1].split(), m[2].strip()
            if len(binders) != len(params):
                raise ValueError(f"{arg} has {len(binders)} arguments, and the loop {len(params)}")
            sub = {b: to for b, (_, to) in zip(binders, params) if b != "_"}
            term = re.sub(rf"(?<![^\s(){{}},\[.])({ID})", lambda m: sub.get(m[1], m[1]), term)
            opened = re.search(r"(?m)^unfolding .*$", decl or "")
            invariants.append(f"abbrev pub {word}-{new} : goal.{word}-{new}\n" + (opened[0] + "\n" if opened else "") + f"{word}-{new} l = {term}")
    # goals
    for k, arg in enumerate(args[2 * loops :]):
        if arg is None:
            continue
        old, new = fn.needs[k]
        place = fn.at[k] if k < len(fn.at) else None
        if arg.startswith("("):
            m = re.fullmatch(r"\(λ ([^.]*)\.\s+(.*)\)", arg, re.S)
            if m:
                binders, term, opened = m[1].split(), m[2].strip(), whole
            else:
                binders, term, opened = ["c"], arg + " c", None
        elif arg in own:
            used.add(arg)
            decl = own[arg]
            m = re.search(rf"(?m)^{re.escape(arg)}((?: [^\s=]+)*) =(.*)\Z", decl, re.S)
            if not m:
                raise ValueError("cannot read " + arg)
            if "tie." not in decl.split("\n")[0]:
                binders, term, opened = ["c"], arg + " c", None
                used.discard(arg)
            else:
                binders, term = m[1].split(), m[2].strip()
                opened = re.search(r"(?m)^unfolding .*$", decl)
                if not binders:
                    raise ValueError(arg + " takes no facts")
        else:
            binders, term, opened = ["c"], arg + " c", None
        if is_plain(term):
            continue
        root = binders[0]
        term = turn_paths(term, fn, place, {root})
        if root != "c":
            term = re.sub(rf"(?<![^\s(){{}},\[]){re.escape(root)}(?![^\s(){{}},.\]])", "c", term)
        if len(fn.asked.get(old, [])) > 1:
            term = as_record(term, fn.asked[old])
        answers.append(f"pub {new} : goal.{new}\n" + (opened[0] + "\n" if opened else "") + f"{new} c = {term}")
    for name, decl in own.items():
        if name not in used:
            helpers.append((name, decl))
    folder = path.parent
    words = " ".join(invariants)
    result = {}
    note = "\n".join(comments)
    if invariants:
        result["Invariants.antt"] = "\n".join(comments) + "\n" + "\n".join(u for u in uses) + f"\nuse {here}.Given as goal\n\n" + "\n\n".join(invariants) + "\n"
    if answers or helpers:
        result["Answers.antt"] = ("\n".join(comments) + "\n" if not invariants else "") + "\n".join(uses) + f"\nuse {here}.Goals as goal\n\n" + "\n\n".join([d for _, d in helpers] + answers) + "\n"
    path.unlink()
    for name, text in result.items():
        (folder / name).write_text(trim_uses(text), encoding="utf-8")
    if not result:
        for p in [folder, *folder.parents]:
            if p.name == "proofs" or any(p.iterdir()):
                break
            p.rmdir()
    return bool(result)


def trim_uses(text):
    """Without the imports of names that the text does not use."""
    lines, out = text.split("\n"), []
    code = "\n".join(re.sub(r"--.*", "", l) for l in lines if not l.startswith("use "))
    words = set(re.findall(ID, code)) | set(re.findall(r"[^\s(){}.;,@\"«»\[\]\\:]+", code))
    operators = {w for w in words}
    for line in lines:
        m = re.fullmatch(r"use (\S+)\.\{(.*)\}", line)
        if m:
            keep = []
            for it in m[2].split(","):
                it = it.strip()
                local = it.split(" as ")[-1]
                pieces = [p for p in local.split("◌") if p]
                if "◌" in local and all(p in words for p in pieces) or local in words or local == "[]" and "[]" in code:
                    keep.append(it)
            if keep:
                out.append(f"use {m[1]}.{{{', '.join(keep)}}}")
        elif (m := re.fullmatch(r"use (\S+) as (\S+)", line)):
            if re.search(rf"(?<![^\s(){{}},\[]){re.escape(m[2])}\.", code):
                out.append(line)
        else:
            out.append(line)
    return "\n".join(out)


def align(args, fn, want):
    """Leaves out arguments that only search, where today fewer goals are asked for."""
    loops = 2 * len(fn.loops)
    head, rest = args[:loops], args[loops:]
    surplus = len(args) - want
    if surplus < 0:
        raise ValueError(f"{len(args)} arguments, and {want} goals")
    flat = [re.sub(r"\s+", " ", a) for a in rest]
    trivial = [bool(re.fullmatch(r"\(λ [^.]*\. search rules\)", a)) for a in flat]
    # the last goals keep their places; a named answer fits a goal of its own old name
    n, m = len(rest), len(fn.needs)
    NO = -10**9
    best = [[NO] * (m + 1) for _ in range(n + 1)]
    best[n][m] = 0
    step = {}
    for i in range(n, -1, -1):
        for j in range(m, -1, -1):
            if i < n and trivial[i] and best[i + 1][j] > NO and best[i + 1][j] >= best[i][j]:
                best[i][j], step[i, j] = best[i + 1][j], "drop"
            if i < n and j < m and best[i + 1][j + 1] > NO:
                name = plain(rest[i]) if not rest[i].startswith("(") else ""
                need = fn.needs[j][0]
                gain = 3 if name and name == plain(need) else 1 if (not trivial[i]) == need.startswith("returns") else 0
                if not trivial[i]:
                    gain += -5 if need.startswith(("enum_", "same_length", "known_")) else 1 if "requires" in need else 0
                if best[i + 1][j + 1] + gain > best[i][j]:
                    best[i][j], step[i, j] = best[i + 1][j + 1] + gain, "take"
    if best[0][0] <= NO:
        raise ValueError("its arguments fit no goals")
    out, i, j = [], 0, 0
    while (i, j) in step and (i < n or j < m):
        if step[i, j] == "take":
            out.append(rest[i])
            j += 1
        i += 1
    return head + out


def main(argv):
    names = json.loads(pathlib.Path(argv[0]).read_text(encoding="utf-8"))
    crate = argv[1]
    root = pathlib.Path("crates") / crate / "proofs"
    done = 0
    for path in sorted(root.rglob("Proof.antt")):
        module = ".".join(path.parent.relative_to(root).parts)
        if argv[2:] and module not in argv[2:]:
            continue
        key = f"Rattle-{crate}-proofs.{module}.Lts"
        try:
            if key not in names:
                raise ValueError("no names")
            convert(path, names[key], crate, module)
            done += 1
        except ValueError as why:
            print(f"left: {path}: {why}")
    print(f"port_proofs: {crate}: {done} turned")


if __name__ == "__main__":
    sys.exit(main(sys.argv[1:]))
