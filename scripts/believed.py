"""What a contract or a claim leads to: the definitions, the code's types, and the kit's names.

The walk takes each word of a text for what the file's imports and declarations say it is, and goes on with that text. A word
that is both bound in a text and a definition's name counts as the definition: rather too much is believed than too little.
A word that nothing explains is counted as a name of the kit without a module, so that none is passed over in silence.
"""
import dataclasses
import pathlib
import re

import antt

SYNTAX = set("abbrev unfoldable pub record data where let in do elim requires ensures ( ) [ ] { } ; , . : = → ← ↦ | λ ⌜ ⌝ ⟦ ⟧ _".split())
LITERAL = re.compile(r'^(?:"|\d|\.)')
# What a contract says of its answer and of what a slice holds at the call's entry and exit, beside the names of its parameters.
ANSWER, HELD = "result", {"now", "old", "new"}
CODE_IMPORT = re.compile(r"^(?:pub )?use ([^;]+);$", re.M)
CODE_TYPE = r"^(?P<text>(?:pub )?(?:struct|enum) %s\b(?:[^;{]*;|.*?^\}))"
FUNCTION = r"^(?P<text>(?:pub )?(?:extern \"C\" )?fn %s\b[^{}]*?(?:^ *(?:requires|ensures)\b.*?(?=^\{$))?)(?:^\{$| \{$)"
CLAUSE = re.compile(r"^ *(?:requires|ensures)\b", re.M)
EXPORT = re.compile(r'^pub extern "C" fn (\w+)', re.M)


@dataclasses.dataclass(frozen=True, order=True)
class Definition:
    path: str
    name: str


@dataclasses.dataclass(frozen=True, order=True)
class CodeType:
    """A struct or an enum, by the file it stands in."""
    path: str
    name: str


@dataclasses.dataclass(frozen=True, order=True)
class KitName:
    module: str
    name: str


@dataclasses.dataclass(frozen=True, order=True)
class Contract:
    """A function's types and its `requires` and `ensures`."""
    path: str
    name: str


@dataclasses.dataclass(frozen=True)
class Scope:
    """The names of a file, what they mean, and the modules that stand under an alias."""
    names: dict
    aliases: dict


def code_path(crate, modules):
    return f"crates/{crate}/src/{'/'.join(modules) if modules else 'lib'}.rt"


def operator_parts(name):
    """The words of an operator: `if`, `then` and `else` of `if◌then◌else◌`."""
    return [part for part in name.split("◌") if part] if "◌" in name else []


def code_imports(text):
    """{name: path} of what a file of code imports: `use a::b;` and `use a::{b, c::d};`."""
    found = {}
    for path in CODE_IMPORT.findall(text):
        start, brace, names = re.sub(r"\s", "", path).partition("{")
        for name in names.rstrip("}").split(",") if brace else [""]:
            if start + name:
                found[(start + name).split("::")[-1]] = start + name
    return found


class Crates:
    """The crates of a project, read as far as is asked."""

    def __init__(self, top):
        self.top = pathlib.Path(top)
        self.texts, self.declared, self.scopes = {}, {}, {}

    def text(self, path):
        if path not in self.texts:
            file = self.top / path
            self.texts[path] = file.read_text(encoding="utf-8") if file.is_file() else ""
        return self.texts[path]

    # ## Definitions

    def declarations(self, path):
        if path not in self.declared:
            self.declared[path] = antt.read_declarations(self.text(path)) if path.endswith(".antt") else []
        return self.declared[path]

    def declaration(self, item):
        return next((d for d in self.declarations(item.path) if d.name == item.name), None)

    def definitions(self, path):
        return [Definition(path, declaration.name) for declaration in self.declarations(path)]

    def find(self, crate, name):
        """The definition of that name in a crate, wherever it stands."""
        for path in sorted((self.top / "crates" / crate / "specs").glob("**/*.antt")):
            item = Definition(path.relative_to(self.top).as_posix(), name)
            if self.declaration(item):
                return item
        return Definition(f"crates/{crate}/specs", name)

    def exists(self, item):
        return bool(self.declaration(item) if isinstance(item, Definition) else self.code(item))

    def scope(self, path):
        if path not in self.scopes:
            scope = self.scopes[path] = Scope({}, {})
            for item in antt.read_imports(self.text(path)):
                if item.alias:
                    scope.aliases[item.alias] = item.path
                for here, original in item.names.items():
                    scope.names[here] = self.imported(item.path, original)
            for declaration in self.declarations(path):
                for name in [declaration.name] + declaration.constructors:
                    scope.names[name] = Definition(path, declaration.name)
        return self.scopes[path]

    def imported(self, module, name):
        """What a name means that is imported from a module: of these crates, or of the kit."""
        match = re.match(r"Rattle\.(\w+)\.specs\.(.*)$", module)
        if not match or not (self.top / "crates" / match.group(1)).is_dir():
            return KitName(module, name)
        crate, rest = match.group(1), match.group(2).split(".")
        if rest[0] == "declared":
            rest = [part for part in rest[1:] if part != "TheVariants"]
            return CodeType(code_path(crate, rest[:-1]), rest[-1])
        found = self.scope(f"crates/{crate}/specs/{'/'.join(rest)}.antt").names.get(name)
        return found or KitName(module, name)

    def meanings(self, text, path, bound):
        """What the words of a text mean in the scope of a file; bound are names that need no meaning."""
        tokens = antt.split_tokens(text)
        scope = self.scope(path)
        explained = bound | antt.local_names(tokens) | SYNTAX | {part for name in scope.names for part in operator_parts(name)}
        for word in {token.word for token in tokens}:
            found = self.meanings_of(word, scope)
            head, _, field = word.partition(".")
            if not found and head in scope.names and word != head:
                found = [scope.names[head]]
            if not found and word not in explained and head not in explained and not LITERAL.match(word):
                found = [KitName("", word)]
            yield from found

    def meanings_of(self, word, scope):
        """What a word means in a scope: a name, a name after an alias, operators that begin with it, or what `do` stands for."""
        if word in scope.names:
            return [scope.names[word]]
        alias, _, member = word.partition(".")
        if member and alias in scope.aliases:
            return [self.imported(scope.aliases[alias], member)]
        if word == "do":
            return [meaning for name, meaning in scope.names.items() if name == "◌>>=◌"]
        return [meaning for name, meaning in scope.names.items() if word in operator_parts(name)[:1]]

    # ## Code

    def code_types(self, text, path):
        """The types that a text of code names; one that is not found counts as a name of the kit without a module."""
        without_own_names = re.sub(r"//.*|\"C\"|\b(?:struct|enum) \w+|^ +[A-Z]\w*", "", text, flags=re.M)
        for word in set(re.findall(r"(?:\w+::)*\b[A-Z]\w*", without_own_names)):
            found = self.code_name(word, path)
            yield found if self.code(found) else KitName("", word)

    def code_name(self, word, path):
        """The type that a word would be in a file of code: by its imports, by a path, or in the file itself."""
        crate, *modules = pathlib.PurePath(path.removeprefix("crates/").replace("/src/", "/")).with_suffix("").parts
        imports = code_imports(self.text(path))
        first, *rest = imports.get(word, word).split("::")
        if not rest:
            return CodeType(path, word)
        starts = {"crate": (crate, []), "super": (crate, modules[:-1])}
        crate, modules = starts.get(first, (first, []))
        return CodeType(code_path(crate, modules + rest[:-1]), rest[-1])

    def code(self, item):
        """The text of a type, or of a function up to its body."""
        pattern = CODE_TYPE if isinstance(item, CodeType) else FUNCTION
        match = re.search(pattern % re.escape(item.name), self.text(item.path), re.M | re.S)
        return match.group("text") if match else ""

    def exports(self, path):
        return EXPORT.findall(self.text(path))

    # ## The walk

    def leads_to(self, item):
        """What the text of one item names."""
        if isinstance(item, Definition):
            module = "".join(line for line in self.text(item.path).splitlines(True) if line.startswith("module "))
            return self.meanings(self.declaration(item).text, item.path, antt.local_names(antt.split_tokens(module)))
        if isinstance(item, CodeType):
            return self.code_types(self.code(item), item.path)
        if isinstance(item, Contract):
            signature, *clauses = CLAUSE.split(self.code(item))
            unlabelled = "\n".join(clause[clause.index("{"):] for clause in clauses)
            arguments = set(re.findall(r"(\w+):", signature)) | {ANSWER}
            said = {KitName("", word) for word in HELD if re.search(rf"\w\.{word}\b", unlabelled)}
            said |= {KitName("", ANSWER)} if re.search(rf"\b{ANSWER}\b", unlabelled) else set()
            return [*self.code_types(signature, item.path), *self.meanings(unlabelled, item.path, arguments), *said]
        return []

    def closure(self, roots):
        reached, waiting = set(roots), list(roots)
        while waiting:
            for item in self.leads_to(waiting.pop()):
                if item not in reached:
                    reached.add(item)
                    waiting.append(item)
        return reached
