"""Reads files of definitions (.antt) and the imports of definitions into code (.rt).

  split_tokens(text)      == the words of a text with the lines they stand on, comments left out
  read_imports(text)      == what the text's `use` lines import
  read_declarations(text) == the declarations of a file of definitions
  counted_lines(text)     == the lines that count
  local_names(tokens)     == the names that a declaration binds itself
It knows layout and binders, not types.
"""
import dataclasses
import re

TOKEN = re.compile(r'--.*|(?P<word>"(?:\\.|[^"\\])*"|\[\]|[(){}\[\];,⌜⌝⟦⟧]|[^\s(){}\[\];,"⌜⌝⟦⟧]+)')
IMPORT = re.compile(r"^(?:pub |ghost )?use (?P<path>[^\s{};]+?)(?:\.\{(?P<names>[^}]*)\})?(?: as (?P<alias>[^\s;]+))?;?[ \t]*$", re.M)
SIGNATURE = re.compile(r"^\s*(?:(?:abbrev|unfoldable|opaque|pub) )*(?P<name>[^\s(){}]+)(?: [({][^(){}]*[)}])* :(?: |$)")
GROUP = re.compile(r"^\s*(?:pub )?(?P<kind>record|data) (?P<name>\S+)")
HEADER = re.compile(r"^\s*(?:infix[lr]? |module |(?:unfoldable |abbrev )?mutual$)")
CONSTRUCTORS = re.compile(r"^  (\S[^:(){}]*?) :(?: |$)")
OPENING, CLOSING = set("([{⌜⟦"), set(")]}⌝⟧")


@dataclasses.dataclass
class Token:
    word: str
    line: int


@dataclasses.dataclass
class Import:
    """`path.{names}`, each under its name here; or the module `path` under an alias, by default its last word."""
    path: str
    names: dict
    alias: str


@dataclasses.dataclass
class Declaration:
    """A definition, a record or a data type, with the numbers of its lines and its text."""
    name: str
    kind: str
    lines: list
    text: str = ""

    @property
    def constructors(self):
        lines = self.text.split("\n")[1:] if self.kind == "data" else []
        return [name for line in lines if (match := CONSTRUCTORS.match(line)) for name in match.group(1).split()]


def split_tokens(text):
    found = []
    for number, line in enumerate(text.split("\n")):
        for match in TOKEN.finditer(line):
            word = (match.group("word") or "").replace("«", "").replace("»", "")
            if len(word) > 1 and word.endswith("."):
                found += [Token(word[:-1], number), Token(".", number)]
            elif word:
                found.append(Token(word, number))
    return found


def read_imports(text):
    imports = []
    for match in IMPORT.finditer(text):
        names = {}
        for item in (match.group("names") or "").split(","):
            original, _, renamed = item.strip().partition(" as ")
            if original:
                names[renamed.strip() or original] = original
        last = match.group("path").rpartition(".")[2]
        imports.append(Import(match.group("path"), names, match.group("alias") or ("" if names else last)))
    return imports


def counted_lines(text):
    """The numbers and texts of the lines that are not blank, not a comment and not an import."""
    without_imports = IMPORT.sub(lambda match: "\n" * match.group().count("\n"), text)
    for number, line in enumerate(without_imports.split("\n")):
        if line.strip() and not line.strip().startswith(("--", "//", "pub mod ")):
            yield number, line


def read_declarations(text):
    """A header (infix, module, mutual) is counted with the declaration after it; what it opens is indented deeper."""
    declarations, headers, level = [], [], 0
    for number, line in counted_lines(text):
        indent = len(line) - len(line.lstrip())
        level = indent if headers and indent > level else min(level, indent)
        if indent == level and HEADER.match(line):
            headers.append(number)
            continue
        start = (GROUP.match(line) or SIGNATURE.match(line)) if indent == level else None
        if start:
            kind = start.groupdict().get("kind", "definition")
            declarations.append(Declaration(start.group("name"), kind, headers))
            headers = []
        if not declarations:
            raise ValueError(f"line {number + 1} belongs to no declaration: {line}")
        declarations[-1].lines.append(number)
        declarations[-1].text += line + "\n"
    return declarations


def names_before(tokens, at, stops):
    """The words on one line before a place, back to an open bracket or to one of the stops."""
    words, depth = [], 0
    for token in reversed(tokens[:at]):
        depth += (token.word in CLOSING) - (token.word in OPENING)
        if depth < 0 or token.line != tokens[at].line or (depth == 0 and token.word in stops):
            break
        words.append(token.word)
    return words


def names_after_lambda(tokens, at):
    words = []
    for token in tokens[at + 1:]:
        if token.word == ".":
            break
        words.append(token.word)
    return words


def local_names(tokens):
    """Arguments, fields, constructors, and what λ, let, do, elim and where bind, in one set for the whole text."""
    names = set()
    for at, token in enumerate(tokens):
        if token.word in ("=", ":"):
            names.update(names_before(tokens, at, {";", "let"}))
        elif token.word == "↦":
            names.update(names_before(tokens, at, {"|"}))
        elif token.word == "←":
            names.update(names_before(tokens, at, {"do"}))
        elif token.word == "λ":
            names.update(names_after_lambda(tokens, at))
        elif token.word == "let" and at + 1 < len(tokens):
            names.add(tokens[at + 1].word)
    return names
