"""Holds docs/TRUSTED.md to what its contracts and claims lead to.

A part is a section (##) whose tables begin rows with `fn` or `def`: contracts and claims. What these lead to, and no earlier
part does, is listed in that part and nothing else is:
  | `PATH` | LINES | what it defines |         every definition of a file that no other part names
  | `PATH` | LINES | def `CRATE.NAME`, .. |    these definitions of a file
  The code's types: fn `CRATE::TYPE`, ..
  In all: N lines of definitions, N of types, N of contracts
The section "The kit's definitions" lists the kit's names that the parts end at: | `MODULE` | `NAME`, .. | what they mean |
Counted are the lines that are not blank, not a comment and not an import.
"""
import dataclasses
import re

from antt import counted_lines
from believed import CodeType, Contract, Definition, KitName, code_path

KIT_SECTION, NOTATION = "The kit's definitions", "the notation"
CITED = re.compile(r"\b(def|fn|claim|law|edit|test) ((?:`[^`]+`(?:, )?)+)")
TOTALS = re.compile(r"^In all: ([\d,]+) lines of definitions, ([\d,]+) of types, ([\d,]+) of contracts", re.M)


@dataclasses.dataclass
class Row:
    """A file that a part lists: how many lines, and of which definitions; no names mean all that no other part names."""
    path: str
    lines: int
    names: list


@dataclasses.dataclass
class Part:
    title: str
    text: str
    roots: list
    rows: list
    types: list


def cells(line):
    return [cell.strip() for cell in re.split(r"(?<!\\)\|", line)[1:-1]]


def quoted(words):
    return [name.replace("\\|", "|") for name in re.findall(r"`([^`]+)`", words)]


def cited(words, kind):
    return [name for found, names in CITED.findall(words) if found == kind for name in quoted(names)]


def number(digits):
    return int(digits.replace(",", ""))


class Page:
    def __init__(self, crates, text):
        self.crates, self.faults = crates, []
        sections = re.split(r"^## ", text, flags=re.M)[1:]
        self.parts = [part for part in map(self.read_part, sections) if part.roots]
        self.kit = {name for section in sections if section.startswith(KIT_SECTION) for name in self.read_kit(section)}
        self.believed = {}
        for part in self.parts:
            for item in crates.closure(part.roots):
                self.believed.setdefault(item, part.title)

    # ## What the page lists

    def code(self, kind, name):
        crate, *modules, item = name.split("::")
        return kind(code_path(crate, modules), item)

    def read_part(self, section):
        title, _, text = section.partition("\n")
        part = Part(title, text, [], [], [])
        for line in text.split("\n"):
            row = cells(line)
            if line.startswith("The code's types:"):
                part.types += [self.code(CodeType, name) for name in cited(line, "fn")]
            elif len(row) == 3 and re.match(r"[\d,]+$", row[1]):
                names = [Definition(row[0].strip("`"), name.partition(".")[2]) for name in cited(row[2], "def")]
                part.rows.append(Row(row[0].strip("`"), number(row[1]), names))
            elif row:
                part.roots += self.read_roots(row)
        return part

    def read_roots(self, row):
        """The contracts and claims of a row; a contract cites what the row says that it does."""
        contracts = [self.code(Contract, name) for name in cited(row[0], "fn")]
        roots = contracts + [self.crates.find(*name.split(".", 1)) for name in cited(row[0], "def")]
        known = [root for root in roots if self.crates.exists(root)]
        self.faults += [f"{described(root)} is not found" for root in roots if root not in known]
        named = {item for root in known for item in self.crates.leads_to(root)}
        for name in (cited(" ".join(row[1:]), "def") if contracts else []):
            if self.crates.find(*name.split(".", 1)) not in named:
                self.faults.append(f"{described(roots[0])} does not cite {name}")
        return known

    def read_kit(self, section):
        for line in section.split("\n"):
            row = cells(line)
            if len(row) == 3 and "`" in row[1]:
                module = "" if row[0] == NOTATION else row[0].strip("`")
                yield from (KitName(module, name) for name in quoted(row[1]))

    def listed_by(self, part, row):
        if row.names:
            return [name for name in row.names if self.crates.exists(name)]
        elsewhere = {name for other in self.parts if other is not part for named in other.rows for name in named.names}
        return [item for item in self.crates.definitions(row.path) if item not in elsewhere]

    def listed(self):
        """Each definition and type that the parts list, with the title of its part."""
        items = {}
        for part in self.parts:
            items.update((item, part.title) for row in part.rows for item in self.listed_by(part, row))
            items.update((item, part.title) for item in part.types)
        return items

    # ## Checks

    def check(self):
        found = {item: title for item, title in self.believed.items() if isinstance(item, (Definition, CodeType))}
        self.compare(self.listed(), found)
        self.compare(dict.fromkeys(self.kit), {item: None for item in self.believed if isinstance(item, KitName)})
        self.check_contracts()
        for part in self.parts:
            self.check_counts(part)
        return self.faults

    def compare(self, listed, believed):
        for item in sorted(set(listed) | set(believed), key=described):
            if item not in listed:
                self.faults.append(f"{described(item)} is believed and not listed")
            elif item not in believed:
                self.faults.append(f"{described(item)} is listed and nothing believed leads to it")
            elif listed[item] != believed[item]:
                self.faults.append(f"{described(item)} is listed under '{listed[item]}' and believed under '{believed[item]}'")

    def check_contracts(self):
        """Every export is listed, and no listed contract asks anything of its caller."""
        path = code_path("gate_c", [])
        for name in self.crates.exports(path):
            if Contract(path, name) not in self.believed:
                self.faults.append(f"{path}: {name} is exported and not listed")
        for item in self.believed:
            if isinstance(item, Contract) and re.search(r"^ *requires\b", self.crates.code(item), re.M):
                self.faults.append(f"{item.path}: {item.name} has a requires")

    def check_counts(self, part):
        for row in part.rows:
            lines = sum(self.size(item) for item in self.listed_by(part, row))
            if lines != row.lines:
                self.faults.append(f"{row.path}: {lines} lines are listed under '{part.title}', not {row.lines}")
        found = TOTALS.search(part.text)
        items = [item for item, title in self.believed.items() if title == part.title]
        sums = [sum(self.size(item) for item in items if isinstance(item, kind)) for kind in (Definition, CodeType, Contract)]
        if not found or [number(digits) for digits in found.groups()] != sums:
            self.faults.append("'{}' is in all {} lines of definitions, {} of types, {} of contracts".format(part.title, *sums))

    def size(self, item):
        if isinstance(item, Definition):
            return len(self.crates.declaration(item).lines)
        return len(list(counted_lines(self.crates.code(item))))


def described(item):
    if isinstance(item, KitName):
        return f"the kit's {item.module or NOTATION}: {item.name}"
    return f"{item.path}: {item.name}"
