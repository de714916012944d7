#!/usr/bin/env python3
"""header.py [ARCHIVE]: include/gate.h says what crates/gate_c exports, with the structs of crates/codes, and compiles cleanly.

Read from the sources: the exports' names, parameters and answers, the structs, and the numbers and limits of the definitions. From
these a C file is made, of which every line holds only where the header agrees: function pointers, sizes, offsets, numbers. Names of
parameters, which C does not compare, are compared as texts. Of an archive the symbols are compared too. Every call is made by
tests/calls.c, tests/stack.c and tests/differential.py.

Then disagreements are planted, one at a time, in the header or in the sources: each must be found. Prints one line; exits with 1 at a
fault.
"""
import pathlib
import re
import shutil
import subprocess
import sys
import tempfile

top = pathlib.Path(__file__).resolve().parent.parent
HEADER, EXPORTS, STRUCTS = "include/gate.h", "crates/gate_c/src/lib.rt", "crates/codes/src/lib.rt"
FAULTS, SECTIONS = "crates/section/specs/Refusal.antt", "crates/section/specs/Section.antt"
ANSWERS, REQUESTS = "crates/codes/specs/Answers.antt", "crates/codes/specs/Requests.antt"
FIELDS, LINES, GROUPS = "crates/elements/specs/Request.antt", "crates/lines/specs/Line.antt", "crates/portacl/specs/Portacl.antt"
TABLES, INDEX = "crates/tables/specs/Table.antt", "crates/index/specs/Index.antt"
CALLERS = {"tests/calls.c": "gate_%s(", "tests/stack.c": '"gate_%s"', "tests/differential.py": '("%s",'}
ORDER = "crates/authbind/specs/Authbind.antt"
FILES = [HEADER, EXPORTS, STRUCTS, FAULTS, SECTIONS, ANSWERS, REQUESTS, FIELDS, LINES, GROUPS, TABLES, INDEX, ORDER]

SLICES = {"&[u8]": "const uint8_t *", "&mut [u8]": "uint8_t *", "&[u32]": "const uint32_t *"}
NUMBERS = {"u32": "uint32_t", "u64": "uint64_t"}
SIZES = {"u32": 4, "u64": 8}
# gate_check and gate_command are functions, so their answers' structs have names of their own
TAGS = {"GateCheck": "gate_checked", "GateCommand": "gate_command_answer"}
# numbers that the definitions write as themselves
ZEROS = ["GATE_ANSWERED", "GATE_NO_SECTION", "GATE_NO_WORD"]
NEEDED = {"memcpy", "memmove", "memset"}
WARNINGS = ["-Wall", "-Wextra", "-Wpedantic", "-Wconversion", "-Werror"]
# what the declarations say, and all that is warned of when code is made
DECLARATIONS, CODE = ["-fsyntax-only"], ["-c", "-o", "/dev/null"]
STANDARDS = {"gcc": ["c99", "c11", "c17"], "g++": ["c++98", "c++03", "c++11", "c++14", "c++17", "c++20"]}
STANDARDS.update({"clang": STANDARDS["gcc"], "clang++": STANDARDS["g++"]})
OPTIONAL = ("clang", "clang++")


class Disagreement(Exception):
    pass


def snake(name):
    return re.sub(r"(?<=[a-z0-9])(?=[A-Z])", "_", name)


def tag(name):
    return TAGS.get(name, snake(name).lower())


# What the sources say

def exports(source):
    """{name: ([(parameter, kind)], answer)}, lifetimes left out"""
    found = {}
    for name, parameters, answer in re.findall(r'pub extern "C" fn (\w+)(?:<[^>]*>)?\(([^)]*)\) -> (\w+)', source):
        pairs = [re.sub(r"'\w+ ", "", p).split(": ") for p in re.split(r",\s*", parameters.strip()) if p]
        found[name] = ([tuple(p) for p in pairs], answer)
    if len(found) != source.count("#[unsafe(no_mangle)]"):
        raise Disagreement("an export was not read")
    return found


def structs(source):
    """{name: [(field, kind)]}"""
    return {name: re.findall(r"pub (\w+): (\w+)", body) for name, body in re.findall(r"#\[repr\(C\)\]\n(?:#\[derive\([\w, ]*\)\]\n)?pub struct (\w+) \{([^}]*)\}", source)}


def parameters_in_c(parameters):
    """[(type, name)]: a slice is a pointer and a length"""
    flat = []
    for name, kind in parameters:
        flat += [(SLICES[kind], name), ("size_t", name + "_len")] if kind in SLICES else [(NUMBERS[kind], name)]
    return flat


def layout(fields):
    """offsets, and the size, as repr(C) lays fields out"""
    offsets, at = [], 0
    for name, kind in fields:
        size = SIZES[kind]
        at = -(-at // size) * size
        offsets.append((name, at))
        at += size
    widest = max(SIZES[kind] for _, kind in fields)
    return offsets, -(-at // widest) * widest


def equations(source, function, pattern):
    found = re.findall(r"^%s %s$" % (function, pattern), source, re.M)
    if not found:
        raise Disagreement(f"no definition {function}")
    return found


def kinds(source, function):
    """of a chain `eqb n NUMBER .. CASE`, or `Some CASE`: [(CASE, NUMBER)]"""
    body = re.search(r"^%s [^=]*=((?:.|\n)*?)\n\n" % function, source, re.M)
    found = re.findall(r"eqb \w+ (\d+)\b(?:[^A-Z]|Some\b)*(?:[A-Z]\.)?([A-Z]\w*)", body.group(1)) if body else []
    if not found:
        raise Disagreement(f"no definition {function}")
    return [(case, number) for number, case in found]


def constant(source, pattern, what):
    found = re.search(pattern, source, re.M)
    if not found:
        raise Disagreement(f"no definition of {what}")
    return int(found.group(1))


def words(text):
    """[(definition, text, number)] of the table of words"""
    return equations(text[ANSWERS], r"(\w+) = word", r'"([^"]+)" (\d+)')


def sections(text):
    """{name: (order, limit)}"""
    found = re.findall(r"^(\w+) = record \{ order = (\d+); limit = (\d+) \}$", text[SECTIONS], re.M)
    return {name.upper(): (int(order), int(limit)) for name, order, limit in found}


def numbers(text):
    """{enumerator: number} that the definitions give"""
    told = {name: 0 for name in ZEROS}
    for case, number in equations(text[FAULTS], "fault_number", r"F\.(\w+) = (\d+)"):
        told["GATE_" + snake(case).upper()] = int(number)
    for section, (order, _) in sections(text).items():
        told["GATE_" + section] = order
    for case, _, number in words(text):
        told["GATE_" + snake(case).upper()] = int(number)
    told["GATE_NO_ADDRESS"] = constant(text[ANSWERS], r"^no_address = (\d+)$", "a refused address's kind")
    for function, prefix in (("name_state", "NAME_"), ("user_state", "USER_"), ("protocol_of", "")):
        for case, number in kinds(text[REQUESTS], function):
            told["GATE_" + prefix + snake(case).upper()] = int(number)
    for case, number in kinds(text[REQUESTS], "mark_of"):
        told["GATE_" + snake(case).upper() + "_FILE"] = int(number)
    for case, number in kinds(text[ORDER], "access_of"):
        told["GATE_" + snake(case).upper()] = int(number)
    for case, number in kinds(text[REQUESTS], "address_of"):
        told["GATE_" + {"Unknown": "ADDRESS_UNKNOWN", "V4": "IPV4", "V6": "IPV6"}[case]] = int(number)
    return told


def answer_size(text):
    """of an answer's bytes: pairs of four, and numbers by their digits of 256"""
    body = re.search(r"^answer_bytes a =\n((?: .*\n)+)", text[INDEX], re.M)
    if not body:
        raise Disagreement("no definition of an answer's bytes")
    return 8 * body.group(1).count("two_bytes ") + sum(int(n) for n in re.findall(r"to_digits 256 (\d+)", body.group(1)))


def limits(text):
    """{macro: number} of sizes; those of outputs follow from the others"""
    fields, found = text[FIELDS], {f"GATE_{name}_LIMIT": limit for name, (_, limit) in sections(text).items()}
    # the tables have no count of bytes before them
    found["GATE_SHEET_LIMIT"] = sum(4 + limit for limit in found.values()) - 4
    found["GATE_TABLES_COUNT"] = constant(text[TABLES], r"ltb (\d+) \(length \(tables_of t\)\)", "the most tables")
    found["GATE_TABLE_NAME_LIMIT"] = constant(text[TABLES], r"^is_table_name n = .*in_range 1 (\d+) \(length n\)", "the limit of a table's name")
    found["GATE_DAEMON_LIMIT"] = constant(fields, r"in_range 1 (\d+) \(length r\.daemon\)", "the daemon's limit")
    found["GATE_USER_LIMIT"] = constant(fields, r"in_range 1 (\d+) \(length r\.user_name\)", "the user's limit")
    found["GATE_NAME_LIMIT"] = constant(fields, r"in_range 1 (\d+) \(length h\.name\)", "the name's limit")
    found["GATE_GROUPS_LIMIT"] = constant(text[GROUPS], r"leb \(length b\.groups\) (\d+)", "the groups' limit")
    line = found["GATE_LINE_LIMIT"] = constant(text[LINES], r"is_too_long t = ltb (\d+) \(length t\)", "the line's limit")
    found["GATE_ADDRESS_ROOM"] = 8 * 4 + 7
    found["GATE_CARRY_ROOM"] = found["GATE_PORTACL_LIMIT"]
    most_changed = {"ALLOW": (0, len("x\n")), "DENY": (0, len("ALL: ALL\n")), "BYUID": (1, len("0.0.0.0/0:0,0\n")), "PORTACL": (1, len(","))}
    found["GATE_CHANGES_ROOM"] = 8 * sum((found[f"GATE_{name}_LIMIT"] + unended) // least for name, (unended, least) in most_changed.items())
    found["GATE_TIDY_ROOM"] = max(found["GATE_ALLOW_LIMIT"], found["GATE_DENY_LIMIT"])
    found["GATE_INDEX_ROOM"] = 8 + 32 * sum(found[f"GATE_{name}_LIMIT"] // len("a:b\n") for name in ("ALLOW", "DENY"))
    found["GATE_REQUESTS"] = constant(text[INDEX], r"^read_requests t = parted (\d+) t$", "the most requests")
    name_at = constant(text[INDEX], r"^read_host t = do\n  h ← cut (\d+) t\n", "a host's numbers")
    found["GATE_REQUEST_ROOM"] = 256 + 2 * (name_at + 256) + 1 + 256
    found["GATE_ANSWER_BYTES"] = answer_size(text)
    found["GATE_AUTHBIND_ROOM"] = len("/etc/authbind/byaddr/!") + found["GATE_ADDRESS_ROOM"] + len(",1023")
    most = max(found["GATE_DAEMON_LIMIT"], found["GATE_USER_LIMIT"]) + 1 + found["GATE_NAME_LIMIT"]
    found["GATE_EXPANSION_ROOM"] = line // 2 * most + line % 2
    return found


# What the header says

def uncommented(source):
    return re.sub(r"/\*.*?\*/", "", source, flags=re.S)


def prototypes(source):
    """{name: [parameter]} of what is declared and not defined"""
    found = re.findall(r"^struct \w+ (\w+)\(([^)]*)\);", uncommented(source), re.M)
    return {name: [p.split()[-1].lstrip("*") for p in re.split(r",\s*", parameters)] for name, parameters in found}


def enumerators(source):
    return {name for body in re.findall(r"^enum \w+ \{([^}]*)\}", uncommented(source), re.M) for name in re.findall(r"GATE_\w+", body)}


def word_texts(source):
    """{(enumerator, text)} that gate_word_text gives to words"""
    body = re.search(r"gate_word_text\(uint32_t word\) \{(.*?)\n\}", source, re.S).group(1)
    return {pair for pair in re.findall(r'case (\w+): return "([^"]+)";', body) if pair[0] not in ZEROS}


def same(what, header, sources):
    if set(header) != set(sources):
        raise Disagreement(f"{what}: only in the header {sorted(set(header) - set(sources))}, only in the sources {sorted(set(sources) - set(header))}")


def agreeing_c(declared, laid_out, told):
    """a C file that compiles where the header agrees"""
    lines = ['#include "gate.h"']
    for name, (parameters, answer) in declared.items():
        kinds_in_c = ", ".join(kind for kind, _ in parameters_in_c(parameters))
        lines.append(f"struct {tag(answer)} (*const {name}_declared)({kinds_in_c}) = {name};")
    for name, fields in laid_out.items():
        offsets, size = layout(fields)
        lines.append(f'_Static_assert(sizeof(struct {tag(name)}) == {size}, "size of {tag(name)}");')
        for (field, at), (_, kind) in zip(offsets, fields):
            lines.append(f'_Static_assert(offsetof(struct {tag(name)}, {field}) == {at}, "{tag(name)}.{field}");')
            lines.append(f"const {NUMBERS[kind]} *{tag(name)}_{field}(struct {tag(name)} *s);")
            lines.append(f"const {NUMBERS[kind]} *{tag(name)}_{field}(struct {tag(name)} *s) {{ return &s->{field}; }}")
    lines += [f'_Static_assert({name} == {number}, "{name}");' for name, number in told.items()]
    return "\n".join(lines) + "\n"


def compiled(compiler, standard, include, path, how):
    return subprocess.run([compiler, "-std=" + standard, *WARNINGS, *how, "-I" + str(include), str(path)], capture_output=True, text=True)


def check(text, folder):
    """raises a Disagreement where header and sources differ"""
    declared, laid_out, told = exports(text[EXPORTS]), structs(text[STRUCTS]), numbers(text)
    shown = prototypes(text[HEADER])
    same("calls", shown, declared)
    for name, (parameters, _) in declared.items():
        if shown[name] != [p for _, p in parameters_in_c(parameters)]:
            raise Disagreement(f"{name}: parameters {shown[name]}")
    same("numbers", enumerators(text[HEADER]), told)
    same("words", word_texts(text[HEADER]), {("GATE_" + snake(name).upper(), word) for name, word, _ in words(text)})
    tags = re.findall(r"^(?:struct|enum) (\w+) \{", uncommented(text[HEADER]), re.M)
    functions = re.findall(r"\b(\w+)\([^)]*\)\s*[;{]", uncommented(text[HEADER]))
    if set(tags) & set(functions):
        raise Disagreement(f"a type and a function of one name: {sorted(set(tags) & set(functions))}")
    (folder / "gate.h").write_text(text[HEADER], encoding="utf-8")
    (folder / "agreeing.c").write_text(agreeing_c(declared, laid_out, {**told, **limits(text)}), encoding="utf-8")
    run = compiled("gcc", "c11", folder, folder / "agreeing.c", DECLARATIONS)
    if run.returncode:
        raise Disagreement(re.sub(r".*error: ", "", next(line for line in run.stderr.split("\n") if "error: " in line)))
    return declared


# An edit of one file each, after which header and sources disagree
PLANTED = [
    (HEADER, "struct gate_checked gate_check(", "struct gate_checked gate_checks("),
    (HEADER, "uint32_t uid);\n\n/* Which file", "uint32_t uid, uint32_t gid);\n\n/* Which file"),
    (HEADER, "uint64_t high, uint64_t low);", "uint64_t low, uint64_t high);"),
    (HEADER, "uint32_t client_state, uint32_t client_kind", "uint32_t server_state, uint32_t client_kind"),
    (HEADER, "uint32_t kind, uint64_t high,", "uint32_t kind, uint32_t high,"),
    (HEADER, "gate_write_address(uint8_t *out", "gate_write_address(const uint8_t *out"),
    (HEADER, "const uint32_t *groups, size_t groups_len, uint32_t protocol", "const uint64_t *groups, size_t groups_len, uint32_t protocol"),
    (HEADER, "struct gate_written gate_pack(", "struct gate_checked gate_pack("),
    (HEADER, "    uint64_t allow_place, allow_len;\n    uint64_t deny_place", "    uint64_t allow_len, allow_place;\n    uint64_t deny_place"),
    (HEADER, "    uint32_t word;    ", "    uint64_t word;    "),
    (HEADER, "uint64_t count; /* bytes written */", "uint64_t count, more; /* bytes written */"),
    (HEADER, "    uint64_t tables_place, tables_len;", "    uint64_t tables_len, tables_place;"),
    (HEADER, "size_t portacl_len, const uint8_t *tables, size_t tables_len);", "size_t portacl_len);"),
    (HEADER, "const uint8_t *tables, size_t tables_len,\n", "const uint8_t *table, size_t table_len,\n"),
    (HEADER, "struct gate_written gate_upgrade(", "struct gate_written gate_update("),
    (HEADER, "struct gate_written gate_convert(", "struct gate_written gate_renew("),
    (HEADER, "GATE_RETIRED_FORM = 22 ", "GATE_RETIRED_FORM = 20 "),
    (HEADER, "GATE_CUT_SHORT = 1, ", "GATE_CUT_SHORT = 20, "),
        (HEADER, "GATE_TOO_DEEP = 16,", "GATE_TOO_DEEP = 20,"),
    (HEADER, "GATE_TABLES = 5", "GATE_TABLES = 6"),
    (HEADER, "GATE_TABLES_LIMIT 12288", "GATE_TABLES_LIMIT 12289"),
    (HEADER, "GATE_TABLES_COUNT 64", "GATE_TABLES_COUNT 65"),
    (HEADER, "GATE_TABLE_NAME_LIMIT 64", "GATE_TABLE_NAME_LIMIT 255"),
    (HEADER, "GATE_LATE_ANSWER = 19,", "GATE_LATE_ANSWER = 20,"),
    (HEADER, "GATE_ALLOWED = 1,", "GATE_ALLOWED = 3,"),
    (HEADER, "GATE_AUTHBIND_ROOM 66", "GATE_AUTHBIND_ROOM 65"),
    (HEADER, "GATE_CARRY_ROOM GATE_PORTACL_LIMIT", "GATE_CARRY_ROOM GATE_BYUID_LIMIT"),
    (HEADER, "uint64_t count, other_count;", "uint64_t other_count, count;"),
    (HEADER, "gate_carry(uint8_t *plain, size_t plain_len, uint8_t *marked, size_t marked_len", "gate_carry(uint8_t *marked, size_t marked_len, uint8_t *plain, size_t plain_len"),
    (HEADER, "GATE_DENY_LIMIT / 9", "GATE_DENY_LIMIT / 10"),
    (HEADER, "gate_salvage(uint8_t *out, size_t out_len, uint8_t *list, size_t list_len", "gate_salvage(uint8_t *list, size_t list_len, uint8_t *out, size_t out_len"),
    (HEADER, "GATE_BAD_PROPOSAL = 20,", "GATE_BAD_PROPOSAL = 23,"),
    (HEADER, "GATE_WRONG_INDEX = 21,", "GATE_WRONG_INDEX = 23,"),
    (HEADER, "struct gate_written gate_index(", "struct gate_written gate_list("),
    (HEADER, "const uint8_t *index, size_t index_len,\n", "const uint8_t *list, size_t list_len,\n"),
    (HEADER, "const uint8_t *requests, size_t requests_len);", "size_t requests_len, const uint8_t *requests);"),
    (HEADER, "GATE_ALLOW_LIMIT / 4 + GATE_DENY_LIMIT / 4", "GATE_ALLOW_LIMIT / 5 + GATE_DENY_LIMIT / 5"),
    (HEADER, "GATE_REQUESTS 32", "GATE_REQUESTS 33"),
    (HEADER, "GATE_REQUEST_ROOM (41 + 4 * 255)", "GATE_REQUEST_ROOM (41 + 4 * 256)"),
    (HEADER, "GATE_ANSWER_BYTES 36", "GATE_ANSWER_BYTES 32"),
    (INDEX, "parted 32 t", "parted 31 t"),
    (INDEX, "to_digits 256 8 a.looked", "to_digits 256 4 a.looked"),
    (EXPORTS, "pub extern \"C\" fn gate_verdicts", "pub extern \"C\" fn gate_answers"),
    (HEADER, "GATE_TIDY_ROOM GATE_ALLOW_LIMIT", "GATE_TIDY_ROOM GATE_BYUID_LIMIT"),
    (HEADER, "struct gate_written gate_propose(", "struct gate_written gate_offer("),
    (HEADER, "uint32_t section, const uint8_t *proposal, size_t proposal_len);", "const uint8_t *proposal, size_t proposal_len, uint32_t section);"),
    (HEADER, "    uint32_t word;  /* GATE_TEST", "    uint64_t word;  /* GATE_TEST"),
    (ORDER, "given (eqb n 2) Other", "given (eqb n 3) Other"),
    (ANSWERS, 'word "read" 8', 'word "read" 9'),
    (HEADER, "GATE_ASK = 3,", "GATE_ASK = 7,"),
    (HEADER, "GATE_NAME_MATTERS = 9 ", "GATE_NAME_MATTERS = 10 "),
    (HEADER, "GATE_NAME_MATTERS: return \"name matters\"", "GATE_NAME_MATTERS: return \"ask\""),
    (HEADER, "struct gate_answer gate_name_matters(", "struct gate_checked gate_name_matters("),
    (HEADER, "struct gate_answer gate_sheet_name_matters(", "struct gate_answer gate_sheet_user_matters("),
    (ANSWERS, 'word "name matters" 9', 'word "name matters" 3'),
    (EXPORTS, "pub extern \"C\" fn gate_tables_name_matters", "pub extern \"C\" fn gate_tables_matters"),
    (HEADER, "GATE_UDP = 17", "GATE_UDP = 16"),
    (HEADER, "GATE_MARKED_FILE = 1", "GATE_MARKED_FILE = 2"),
    (HEADER, "uint32_t mark, uint32_t port, uint32_t kind", "uint32_t port, uint32_t mark, uint32_t kind"),
    (HEADER, "GATE_USER_NOT_FETCHED = 0", "GATE_USER_NOT_FETCHED = 1"),
    (HEADER, "GATE_BYUID_LIMIT 8192", "GATE_BYUID_LIMIT 8193"),
    (HEADER, "GATE_PORTACL_LIMIT 4096", "GATE_PORTACL_LIMIT 1024"),
    (HEADER, "GATE_NAME_LIMIT 255", "GATE_NAME_LIMIT 256"),
    (HEADER, "GATE_SHEET_LIMIT 57360", "GATE_SHEET_LIMIT 57364"),
    (HEADER, "GATE_ADDRESS_ROOM 39", "GATE_ADDRESS_ROOM 45"),
    (HEADER, "struct gate_host {", "struct gate_expand { int x; };\nstruct gate_host {"),
    (EXPORTS, "pub extern \"C\" fn gate_unpack", "pub extern \"C\" fn gate_open"),
    (EXPORTS, "    uid: u32,\n) -> GateAnswer", "    uid: u64,\n) -> GateAnswer"),
    (STRUCTS, "    pub kind: u32,\n    pub high: u64,", "    pub high: u64,\n    pub kind: u32,"),
    (STRUCTS, "    pub word: u32,\n    pub file: u32,", "    pub word: u32,\n    pub file: u32,\n    pub looked_at: u64,"),
    (FAULTS, "fault_number F.BadTable = 17", "fault_number F.BadTable = 17\nfault_number F.Later = 18"),
    (TABLES, "ltb 64 (length (tables_of t))", "ltb 63 (length (tables_of t))"),
    (TABLES, "in_range 1 64 (length n)", "in_range 1 65 (length n)"),
    (ANSWERS, 'word "no line" 4', 'word "no line" 5'),
    (ANSWERS, 'word "not ruled" 5', 'word "unruled" 5'),
    (ANSWERS, "no_address = 255", "no_address = 0"),
    (HEADER, "GATE_NO_ADDRESS = 255", "GATE_NO_ADDRESS = 0"),
    (HEADER, "struct gate_command_answer gate_command(uint8_t *out", "struct gate_answer gate_command(uint8_t *out"),
    (HEADER, "    uint64_t place, len;\n    uint64_t count;", "    uint64_t count;\n    uint64_t place, len;"),
    (HEADER, "GATE_EXEMPT: return \"exempt\"", "GATE_EXEMPT: return \"granted\""),
    (SECTIONS, "order = 4; limit = 4096", "order = 4; limit = 1024"),
    (REQUESTS, "given (eqb n 2) U.Known", "given (eqb n 3) U.Known"),
    (REQUESTS, "given (eqb n 1) Marked", "given (eqb n 33) Marked"),
    (LINES, "ltb 2047", "ltb 2048"),
    (GROUPS, "(length b.groups) 16", "(length b.groups) 17"),
]


def planted(text, folder):
    for name, old, new in PLANTED:
        if text[name].count(old) < 1:
            fail(f"{name} has no {old!r} to plant a disagreement in")
        try:
            check({**text, name: text[name].replace(old, new, 1)}, folder)
        except Disagreement:
            continue
        fail(f"not found: in {name}, {new!r} for {old!r}")


def called(declared):
    """each test names every call, in its own way"""
    for path, form in CALLERS.items():
        source = (top / path).read_text(encoding="utf-8")
        missing = [name for name in declared if form % name[len("gate_"):] not in source]
        if missing:
            raise Disagreement(f"{path} does not call {missing}")


def symbols(archive, declared):
    """what the archive defines for callers, and needs"""
    listed = subprocess.run(["nm", "-g", archive], capture_output=True, text=True, check=True).stdout
    defined = set(re.findall(r"^[0-9a-f]+ [A-Z] (\w+)$", listed, re.M))
    needed = set(re.findall(r"^ +U (\w+)$", listed, re.M)) - defined
    same("the archive's calls", {name for name in defined if name.startswith("gate_")}, declared)
    same("what the archive needs", needed, NEEDED)


def clean():
    """how many compilers and standards the header is clean under"""
    ran = 0
    with tempfile.TemporaryDirectory() as name:
        for compiler, standards in STANDARDS.items():
            if compiler in OPTIONAL and not shutil.which(compiler):
                continue
            path = pathlib.Path(name) / ("whole.cc" if "++" in compiler else "whole.c")
            path.write_text((top / "tests/header.c").read_text(encoding="utf-8"), encoding="utf-8")
            for standard in standards:
                run, ran = compiled(compiler, standard, top / "include", path, CODE), ran + 1
                if run.returncode:
                    fail(f"{compiler} -std={standard}:\n{run.stderr}")
    return ran


def looked_at():
    """an address that may be refused can't be read without looking"""
    with tempfile.TemporaryDirectory() as name:
        path = pathlib.Path(name) / "unlooked.c"
        path.write_text('#include "gate.h"\nvoid f(struct gate_host *h);\nvoid f(struct gate_host *h) { gate_host_read(h, "x", 1); }\n', encoding="utf-8")
        if "unused-result" not in compiled("gcc", "c11", top / "include", path, CODE).stderr:
            fail("gate_host_read can be called without looking at its answer")


def fail(what):
    print("header: " + what)
    sys.exit(1)


def main():
    text = {name: (top / name).read_text(encoding="utf-8") for name in FILES}
    try:
        with tempfile.TemporaryDirectory() as folder:
            declared = check(text, pathlib.Path(folder))
            planted(text, pathlib.Path(folder))
        called(declared)
        if len(sys.argv) > 1:
            symbols(sys.argv[1], declared)
    except Disagreement as fault:
        fail(str(fault))
    looked_at()
    print(f"header: {len(declared)} calls agree, {len(PLANTED)} planted disagreements found, clean under {clean()} standards")


main()
