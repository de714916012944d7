#!/usr/bin/env python3
"""differential.py LIBRARY CASES [SEED [NAME..]]: every export of the gate beside tests/reference.py, on generated inputs.

Inputs are rule-shaped, near misses and damaged texts, tables, sheets and commands, and requests with numbers outside their kinds. Each
answer is compared whole, and every byte of the lent output, with some beyond it. Prints one line, and exits with 1 at the first
difference, which it shows, or where some kind of answer never came up. With names, such as tidy_case, only the cases of these functions
are compared, whatever kinds come up.

There is a process for each processor. What a case is handed follows from the seed, its function's name and its turn alone, so that the cases
are the same on any machine.
"""
import collections
import concurrent.futures
import ctypes
import functools
import multiprocessing
import os
import random
import sys

import reference as ref
from reference import BAD

U8P, SIZE, U32, U64 = ctypes.c_char_p, ctypes.c_size_t, ctypes.c_uint32, ctypes.c_uint64
WORDS = {0: None, 1: "granted", 2: "denied", 3: "ask", 4: "no line", 5: "not ruled", 6: "exempt", 7: "test", 8: "read", 9: "name matters"}
PARTS = ("allow", "deny", "byuid", "portacl", "tables")
NO_ADDRESS = 255


def struct(**fields):
    common = [("number", U32), ("section", U32), ("line", U64)]
    return type("Answer", (ctypes.Structure,), {"_fields_": common + list(fields.items())})


Answer = struct(word=U32, file=U32, place=U64, len=U64, looked=U64)
Command = struct(word=U32, file=U32, place=U64, len=U64, count=U64, looked=U64)
Check = struct()
Written = struct(count=U64)
WrittenTwo = struct(count=U64, other_count=U64)
Next = struct(word=U32, count=U64)
Parts = struct(**{f"{part}_{what}": U64 for part in PARTS for what in ("place", "len")})
Address = struct(kind=U32, high=U64, low=U64)


def load(path):
    lib = ctypes.CDLL(path)
    text, out = [U8P, SIZE], [ctypes.c_void_p, SIZE]
    host = [U32, U32, U64, U64] + text
    request = text + host * 2 + [U32] + text
    bind = [U32, U32, U64, U64, U32]
    portacl = text + [U32] * 5 + [ctypes.POINTER(U32), SIZE] + [U32, U32]
    for name, arguments, answer in (
            ("verdict", text * 2 + request, Answer), ("sheet_verdict", text + request, Answer), ("tables_verdict", text * 3 + request, Answer),
            ("name_matters", text * 2 + request, Answer), ("sheet_name_matters", text + request, Answer), ("tables_name_matters", text * 3 + request, Answer),
            ("command", out + text * 2 + request + [U32], Command), ("sheet_command", out + text + request + [U32], Command),
            ("byuid", text + [U32] + bind, Answer), ("sheet_byuid", text + bind, Answer),
            ("portacl", portacl, Answer), ("sheet_portacl", portacl, Answer),
            ("authbind", out + bind + text, Next), ("carry", out * 2 + text + [U32], WrittenTwo), ("salvage", out * 2 + text, WrittenTwo),
            ("propose", out + text * 2 + [U32], Written), ("drop", out + text * 2 + [U32] + text, Written),
            ("index", out + text, Written), ("verdicts", out + text * 3, Written),
            ("check", text, Check), ("unpack", text, Parts), ("pack", out + text * 5, Written), ("upgrade", out + text, Written), ("convert", out + text, Written),
            ("expand", out + text + request + [U32], Written),
            ("read_address", text, Address), ("write_address", out + [U32, U64, U64], Written)):
        function = getattr(lib, "gate_" + name)
        function.argtypes, function.restype = arguments, answer
    return lib


# The exports, called as the reference is: refusals are (number, section, line)

def refusal(a):
    """of an answer whose number is not 0: all else is 0, but for the kind of an address, which is none"""
    rest = {name: getattr(a, name) for name, _ in a._fields_[3:]}
    if any(value != (NO_ADDRESS if name == "kind" else 0) for name, value in rest.items()):
        return ("refused, yet with more than that", rest)
    return a.number, a.section, a.line


def sized(text):
    return [text, len(text)]


def state_args(rng, value, absent, most):
    """the number of a state, and the bytes beside it: some that are to be ignored where none are known"""
    if isinstance(value, bytes):
        return [2] + sized(value)
    junk = rng.choice([b"", b"", b"junk", b"j" * most])
    return [rng.choice([3, 4, 255, 2 ** 32 - 1]) if value == BAD else absent.index(value)] + sized(junk)


def address_args(rng, address):
    """kind, high and low; what a kind does not use is anything"""
    anything = rng.choice([0, 0, rng.getrandbits(64)])
    if address == BAD:
        if rng.random() < 0.5:
            return [4, anything, rng.choice([2 ** 32, 2 ** 64 - 1])]
        return [rng.choice([1, 2, 3, 5, 7, NO_ADDRESS, 2 ** 32 - 1]), anything, 0]
    if address is None:
        return [0, anything, anything]
    kind, n = address
    return [4, anything, n] if kind == "4" else [6, *divmod(n, 1 << 64)]


def host_args(rng, host):
    state, *name = state_args(rng, host[0], [None, False], 300)
    return [state] + address_args(rng, host[1]) + name


def request_args(rng, r):
    user = state_args(rng, r["user"], ["not fetched", None], 300)
    return sized(r["daemon"]) + host_args(rng, r["client"]) + host_args(rng, r["server"]) + user


def port_arg(rng, port):
    return rng.choice([65536, 65537, 2 ** 32 - 1]) if port == BAD else port


def verdict(rng, call, texts, whole, r):
    """whole: what the file's number leads to, of which the command is a part"""
    return decided(call(*(x for text in texts for x in sized(text)), *request_args(rng, r)), whole)


def decided(a, whole):
    if a.number:
        return refusal(a)
    command = whole[a.file][a.place:a.place + a.len]
    return ("an answer's section", a.section) if a.section else (WORDS[a.word], a.file, a.line, a.place if command else None, command, a.looked)


def name_matters(rng, call, texts, r):
    a = call(*(x for text in texts for x in sized(text)), *request_args(rng, r))
    if a.number:
        return refusal(a)
    rest, found = (a.section, a.place, a.len, a.looked), (WORDS[a.word], a.file, a.line)
    return ("more than a place", rest, found) if any(rest) else "name matters" if found == ("name matters", 0, 0) else found


def command(rng, room, call, texts, whole, r, process):
    """the verdict, and the bytes written behind it"""
    answers = []

    def kept(*arguments):
        answers.append(call(*arguments))
        return answers[0]

    out = written(rng, room, kept, *(x for text in texts for x in sized(text)), *request_args(rng, r), process)
    answer = decided(answers[0], whole)
    return answer + (out,) if isinstance(out, bytes) else out


def word(a):
    if a.number:
        return refusal(a)
    rest = (a.section, a.line, a.file, a.place, a.len, a.looked)
    return ("more than a word", rest) if any(rest) else WORDS[a.word]


def byuid(rng, call, text, mark, port, address, uid):
    number = rng.choice([2, 3, 2 ** 31, 2 ** 32 - 1]) if mark == BAD else ["plain", "marked"].index(mark)
    return word(call(*sized(text), number, port_arg(rng, port), *address_args(rng, address), uid))


def sheet_byuid(rng, call, sheet, port, address, uid):
    return word(call(*sized(sheet), port_arg(rng, port), *address_args(rng, address), uid))


def authbind(rng, room, call, port, address, uid, answers):
    """the word, and the name written"""
    kinds = {"absent": [0], "allowed": [1], "other": [2], BAD: [3, 4, 127, 128, 255]}
    given, words = bytes(rng.choice(kinds[answer]) for answer in answers), []

    def kept(*arguments):
        a = call(*arguments)
        words.append(WORDS[a.word] if not (a.section or a.line) or a.number else ("an answer with a place", a.section, a.line))
        return a

    out = written(rng, room, kept, port_arg(rng, port), *address_args(rng, address), uid, *sized(given))
    return (words[0], out) if isinstance(out, bytes) else out


def portacl(rng, call, text, settings, uid, groups, protocol, port):
    array = (U32 * max(1, len(groups)))(*groups)
    number = rng.choice([0, 1, 5, 7, 16, 18, 2 ** 32 - 1]) if protocol == BAD else {b"tcp": 6, b"udp": 17}[protocol]
    return word(call(*sized(text), settings["enabled"], settings["port_high"], settings["suser_exempt"],
                     settings["autoport_exempt"], uid, array, len(groups), number, port_arg(rng, port)))


def check(call, sheet):
    a = call(*sized(sheet))
    return refusal(a) if a.number else "sheet ok"


def unpack(call, sheet):
    a = call(*sized(sheet))
    return refusal(a) if a.number else [(getattr(a, part + "_place"), getattr(a, part + "_len")) for part in PARTS]


def written(rng, room, call, *arguments):
    """the bytes written at the front of a lent output; all others, and some beyond it, must stay"""
    before = rng.randbytes(room + 8)
    out = ctypes.create_string_buffer(before, room + 8)
    a = call(out, room, *arguments)
    count = 0 if a.number else a.count
    if out.raw[count:] != before[count:]:
        return ("bytes changed beyond", count)
    return refusal(a) if a.number else out.raw[:count]


def written_two(rng, rooms, call, *arguments):
    """the same of two lent outputs"""
    before = [rng.randbytes(room + 8) for room in rooms]
    outs = [ctypes.create_string_buffer(each, len(each)) for each in before]
    a = call(outs[0], rooms[0], outs[1], rooms[1], *arguments)
    counts = [0, 0] if a.number else [a.count, a.other_count]
    if any(out.raw[count:] != each[count:] for out, count, each in zip(outs, counts, before)):
        return ("bytes changed beyond", counts)
    return refusal(a) if a.number else [out.raw[:count] for out, count in zip(outs, counts)]


def read_address(call, text):
    a = call(*sized(text))
    if a.number:
        return refusal(a)
    return ("4", a.low) if a.kind == 4 and a.high == 0 else (str(a.kind), (a.high << 64) + a.low)


# Generated inputs

class Random(random.Random):
    """with a choice that takes a third of the time"""

    def choice(self, seq):
        return seq[int(self.random() * len(seq))]


NAMES = [b"p.x.example", b"q.x.example", b"x.example", b"host", b"HOST", b"10.0.0.1", b"a.b", b"unknown", b"all", b"a;b"]
DAEMONS = [b"sshd", b"in.tftpd", b"SSHD", b"all", b"console"]
USERS = [b"fitter", b"FITTER", b"a;b", b"known", b"x" * 64]
WIDE = [0, 1, (1 << 128) - 1, 0x3ffe0505000200010000000000000009, 0x3ffe0505000200020000000000000000, 0x20010db8 << 96]
SMALL = [0, 0x0a000001, 0x839b49ff, 0x839b4a00, 0x0aff0001, 0xffffffff]
HOSTS = [
    b"ALL", b"all", b"LOCAL", b"KNOWN", b"UNKNOWN", b"PARANOID", b".x.example", b".X.EXAMPLE", b".tue.nl", b".", b"..", b".a.",
    b"[3ffe:505:2:1::]/64", b"[3ffe:505:2:1::9]", b"[::]/0", b"[::ffff:0:0]/96", b"[::ffff:10.0.0.1]", b"[::]/80", b"[::1]/128", b"[::1]/129", b"[::1]/01", b"[::1", b"[1.2.3.4]", b"[::]/",
    b"10.0.0.1", b"10.", b"10.0.", b"131.155.", b"131.155.72.", b"1.2.3.4.", b"10", b"131.155.72.0/255.255.254.0", b"131.155.72.0/23", b"0.0.0.0/0", b"10.0.0.0/8", b"10.0.0.0/33", b"10.0.0.0/08", b"10.0.0.1/8",
    b"10.0.0.1/255.0.0.0", b"10.0.0.0/255.0.0.0", b"0.0.0.0/0.0.0.0", b"010.0.0.1", b"256.0.0.1", b"1.2.3", b"1./255.",
    b"p.x.example", b"P.X.Example", b"host", b"host.", b"-a_b", b"a..b", b"x/y", b"a;b", b"\\", b"]", b"n" * 255, b"n" * 256,
]
HALVES = [b"ALL", b"KNOWN", b"UNKNOWN", b"LOCAL", b"PARANOID", b"fitter", b"Fitter", b"sshd", b"x.", b".", b"u" * 64, b"u" * 65, b"EXCEPT", b"!"]
PLAIN_DAEMONS = DAEMONS + [b"ALL", b"ALL", b"KNOWN", b"sshd@10.0.0.1", b"ALL@.x.example", b"x" * 65, b"sshd."]
ODD = [b"@x", b"/etc/x", b"x@", b"x@@y", b"x@/y", b"a@b@c", b"@", b"!@/y", b"/", b"/!", b"x@/", b"/v@x", b"/v@@x", b"a@/v@x", b"/vans", b"/" + b"n" * 65,
       b"/v@/v", b"LOCAL@/v", b"/EXCEPT"]
NOBODY = dict(daemon=b"", client=(None, None), server=(None, None), user=None)
COMMANDS = [b"", b" ", b"/bin/log %u", b" spawn %h %% ", b"%", b"%z", b"a \\\n b %\\\nc", b"%U", b"[:] %a:%A"]


def pick(rng, *pools):
    return rng.choice(rng.choice(pools))


def element(rng, client):
    kind = rng.random()
    if kind < 0.03:
        return rng.choice(ODD)
    if client:
        if kind < 0.25:
            return rng.choice(HALVES) + b"@" + rng.choice(HOSTS)
        return rng.choice(HOSTS) if kind < 0.8 else rng.choice([b"ALL", b"KNOWN", b"UNKNOWN", b"LOCAL", b"[::]/0", b"0.0.0.0/0.0.0.0"])
    if kind < 0.1:
        return rng.choice(HALVES) + b"@" + rng.choice(HOSTS)
    return rng.choice(PLAIN_DAEMONS) if kind < 0.6 else b"ALL"


def elements(rng, client):
    out = []
    for i in range(rng.choice([1, 1, 1, 2, 3, 5])):
        out.append(element(rng, client))
        if rng.random() < 0.25:
            out.append(rng.choice([b"EXCEPT", b"except", b"Except"]))
    if rng.random() < 0.9 and out[-1].upper() == b"EXCEPT":
        out.append(element(rng, client))
    return rng.choice([b" ", b", ", b"\t", b","]).join(out)


def hosts_line(rng):
    kind = rng.random()
    if kind < 0.08:
        return b"# " + bytes(rng.choice(b"abc:\\\x00\xff @") for _ in range(rng.randrange(12)))
    if kind < 0.14:
        return rng.choice([b"", b" ", b"\t ", b" # no comment", b"x", b":", b"ALL:", b": ALL", b", : ,", b"EXCEPT: EXCEPT", b"[a: b: c"])
    line = elements(rng, False) + rng.choice([b":", b" : "]) + elements(rng, True)
    if rng.random() < 0.4:
        line += b":" + rng.choice(COMMANDS)
    return line


def joined_line(rng):
    line = hosts_line(rng)
    if rng.random() < 0.15:
        at = rng.randrange(len(line) + 1)
        line = line[:at] + b"\\\n" + line[at:]
    if rng.random() < 0.02:
        line += b" " * rng.randrange(1990, 2060)
    return line


@functools.cache
def known_lines():
    """some thousands without a fault that name no table"""
    rng, known = Random(1), []
    while len(known) < 5000:
        line = joined_line(rng)
        if ref.verdict(line + b"\n", b"", NOBODY) == (13, 0, 0):
            known.append(line)
    return known


def sound_lines(rng, most):
    return [rng.choice(known_lines()) for _ in range(most)]


def padding(rng, length):
    """so many bytes of lines that hold no rule: mostly long comments"""
    comments = 0 if rng.random() < 0.1 else max(0, length) // 1024
    return (b"#" * 1023 + b"\n") * comments + b"\n" * (length - 1024 * comments)


def damaged_text(rng, text):
    """another byte, or no last newline; mostly neither"""
    if rng.random() < 0.15 and text:
        at = rng.randrange(len(text))
        text = text[:at] + bytes([rng.choice([0, 9, 10, 13, 32, 35, 37, 44, 47, 58, 64, 91, 92, 93, 127, 200])]) + text[at + rng.randrange(2):]
    return text[:-1] if rng.random() < 0.1 else text


def hosts_text(rng, sound):
    most = rng.choice([0, 1, 2, 3, 6])
    lines = sound_lines(rng, most) if sound else [joined_line(rng) for _ in range(most)]
    text = b"".join(line + b"\n" for line in lines)
    return text if sound else damaged_text(rng, text)


# Tables

SOUND_HOSTS = [h for h in HOSTS if ref.pattern(h)]
# none equals another but for its case
TABLE_NAMES = [b"vans", b"Depot", b"a", b"b", b"c", b"d", b"e", b"f", b"x.", b".x", b"ALL", b"Except", b"10", b"-_.", b"n" * 64]
BAD_NAMES = [b"", b"", b"n" * 65, b"n" * 255, b"a/b", b"/a", b"a b", b"v!", b"v,", b"v@x", b"\xe4", b"a\0", b"a\n"]
BAD_WORDS = [b"EXCEPT", b"except", b"a,b", b"host,", b",", b"fitter@host", b"fitter@/vans", b"fitter@/missing", b"@vans", b"/", b"/!", b"/" + b"n" * 65, b"#", b"a:b",
             b"\\", b"\r", b"host\r", b"10.0.0.1/33", b"host.", b"10", b"[::1", b"n" * 256, b"\0", b"\xff", b"x@", b"a\\"]


def other_case(rng, name):
    return rng.choice([name, name, name.upper(), name.lower(), name.swapcase()])


def table_text(rng, words):
    """words parted in every way that parts them"""
    gaps = [b" ", b"\n", b"\t", b"\n\n", b" \t\n "]
    return rng.choice([b"", b"", b" ", b"\n"]) + b"".join(w + rng.choice(gaps) for w in words[:-1]) + b"".join(words[-1:]) + rng.choice([b"", b"\n", b" "])


def sound_tables(rng):
    """a level for each, and each names tables of later levels alone: four deep at most"""
    names = rng.sample(TABLE_NAMES, rng.choice([1, 2, 2, 3, 4, 5, 8]))
    levels = sorted(rng.randrange(4) for _ in names)
    tables = []
    for name, level in zip(names, levels):
        words = [rng.choice(SOUND_HOSTS) for _ in range(rng.choice([0, 0, 1, 1, 2, 3]))]
        words += [b"/" + other_case(rng, other) for other, later in zip(names, levels) if later > level and rng.random() < 0.6]
        rng.shuffle(words)
        tables.append((other_case(rng, name), table_text(rng, words)))
    rng.shuffle(tables)
    return tables


def chain(names):
    """each names the next, and the last a host"""
    return [(name, b"/" + following) for name, following in zip(names, names[1:])] + [(names[-1], b"0.0.0.0/0 [::]/0")]


def faulty_tables(rng):
    tables, kind, at = sound_tables(rng), rng.randrange(9), 0
    at = rng.randrange(len(tables))
    name, text = tables[at]
    if kind == 0:  # missing
        tables[at] = name, text + rng.choice([b" /missing", b"\n/g", b"\t/x", b" /vans2"])
    elif kind == 1:  # twice
        tables.insert(rng.randrange(len(tables) + 1), (other_case(rng, name), table_text(rng, [rng.choice(SOUND_HOSTS)])))
    elif kind == 2:  # a ring, of one or of all
        ring = rng.sample(tables, rng.choice([1, len(tables)]))
        tables = [(n, t + b" /" + ring[(ring.index((n, t)) + 1) % len(ring)][0]) if (n, t) in ring else (n, t) for n, t in tables]
    elif kind == 3:  # chains of four to six
        tables = chain(rng.sample(TABLE_NAMES, rng.choice([4, 5, 5, 5, 6])))
        rng.shuffle(tables)
    elif kind == 4:
        tables[at] = name, table_text(rng, [w for w in (rng.choice(BAD_WORDS), rng.choice(SOUND_HOSTS)) for _ in range(rng.choice([1, 1, 2]))])
    elif kind == 5:
        tables[at] = rng.choice(BAD_NAMES), text
        if rng.random() < 0.3:
            tables.append((tables[at][0], b""))
    elif kind == 6:
        tables += [(b"t%d" % i, rng.choice([b"", b"host"])) for i in range(rng.choice([63, 64, 65]) - len(tables))]
    elif kind == 7:  # at the limit, or over it
        most = ref.TABLES_LIMIT + rng.choice([0, 0, 1, 2])
        tables[at] = name, text + rng.choice([b" ", b"\n", b" host"]) * most
        over = len(ref.section_five(tables)) - most
        tables[at] = name, tables[at][1][:len(tables[at][1]) - over]
    else:
        return faulty_tables(rng) + [(n, t + rng.choice([b"", b" EXCEPT", b" /missing"])) for n, t in faulty_tables(rng)[:2]]
    return tables


def damaged(rng, five):
    """cut, with bytes behind it, with another count or another byte"""
    kind = rng.random()
    if kind < 0.4:
        return five[:rng.randrange(len(five))]
    if kind < 0.6:
        return five + rng.randbytes(rng.choice([1, 1, 2, 100]))
    if kind < 0.8:
        count = int.from_bytes(five[:2], "big")
        return (rng.choice([max(0, count - 1), count + 1, 65, 65535]) & 0xffff).to_bytes(2, "big") + five[2:]
    at = rng.randrange(len(five))
    return five[:at] + bytes([rng.choice([0, 1, 2, 32, 33, 47, 255, rng.randrange(256)])]) + five[at + 1:]


def tables_of(rng):
    """a section five, and the names that rules take: of its tables, or of none"""
    kind = rng.random()
    if kind < 0.1:
        return rng.choice([ref.NO_TABLES, ref.NO_TABLES, b"", b"\0"]), [b"vans"]
    tables = sound_tables(rng) if kind < 0.65 else faulty_tables(rng)
    names = [name for name, _ in tables if ref.is_table_name(name)] or [b"vans"]
    five = ref.section_five(tables)
    return damaged(rng, five) if kind > 0.95 else five, names + ([b"missing"] if rng.random() < 0.08 else [])


def naming_line(rng, names):
    """a rule that names tables: in its clients, behind a user, behind a daemon"""
    def reference():
        return b"/" + other_case(rng, rng.choice(names))

    def daemon():
        return rng.choice([b"ALL", b"ALL", rng.choice(DAEMONS), b"ALL@" + reference(), rng.choice(DAEMONS) + b"@" + reference()])

    def client():
        return rng.choice([reference(), reference(), reference(), rng.choice([b"ALL", b"KNOWN", b"UNKNOWN", b"fitter", b"Fitter"]) + b"@" + reference(),
                           rng.choice(SOUND_HOSTS)])

    def some(one):
        out = one()
        while rng.random() < 0.4:
            out += rng.choice([b" ", b", ", b" EXCEPT ", b"\texcept "]) + one()
        return out
    line = some(daemon) + rng.choice([b":", b" : "]) + some(client) + rng.choice([b"", b"", b": log %h", b": %c"])
    if rng.random() < 0.05:
        at = rng.randrange(len(line) + 1)
        line = line[:at] + b"\\\n" + line[at:]
    return line


def naming_text(rng, sound, names):
    """rules that name tables, among others that do not"""
    lines = sound_lines(rng, rng.choice([0, 0, 1, 2])) if sound else [joined_line(rng)]
    for _ in range(rng.choice([0, 1, 1, 2])):
        lines.insert(rng.randrange(len(lines) + 1), naming_line(rng, names))
    text = b"".join(line + b"\n" for line in lines)
    return text if sound else damaged_text(rng, text)


# Files full of repeats

def tidy_words(rng, names, client):
    """a list: its elements, and EXCEPTs between some"""
    def reference():
        return b"/" + rng.choice(names)

    def one():
        if names and rng.random() < 0.3:
            return rng.choice([b"fitter@" + reference(), reference()] if client else [b"sshd@" + reference(), b"ALL@" + reference()])
        return rng.choice([b"ALL", b"ALL", b"fitter@10.", b"KNOWN@ALL", rng.choice(SOUND_HOSTS)] if client else [b"ALL", b"ALL", b"sshd@10.0.0.1", rng.choice(DAEMONS)])

    words = [one()]
    while rng.random() < 0.4:
        words += [b"EXCEPT"] * (rng.random() < 0.4) + [one()]
    return words


def nearly(rng, words):
    """another list, mostly: in another order, an element more or less, an EXCEPT more or less; it may be at fault"""
    words, at, kind = list(words), rng.randrange(len(words)), rng.randrange(5)
    if kind == 0:
        rng.shuffle(words)
    elif kind == 1:
        words.insert(at, words[at])
    elif kind == 2 and len(words) > 1:
        del words[at]
    elif kind == 3:
        words += [b"EXCEPT", rng.choice([b"x", b"ALL", words[0]])]
    else:
        words = [w for w in words if w != b"EXCEPT"]
    return words


def tidy_line(rng, rule):
    """a rule in other case, parted otherwise, with any command, continued somewhere"""
    gaps = [b" ", b" ", b",", b", ", b"\t", b" ,\t"]
    daemons, clients = (rng.choice(gaps).join(other_case(rng, w) for w in words) for words in rule)
    line = daemons + rng.choice([b":", b" : ", b",:\t"]) + clients + rng.choice([b"", b"", b"", b":", b": log %h", b" : %c"])
    while rng.random() < 0.15:
        at = rng.randrange(len(line) + 1)
        line = line[:at] + b"\\\n" + line[at:]
    return line


def tidy_text(rng, sound, names):
    """few rules again and again, near misses among them, comments and blanks between"""
    rules = [(tidy_words(rng, names, False), tidy_words(rng, names, True)) for _ in range(rng.choice([1, 2, 3]))]
    rules += [([b"ALL"], [b"ALL"])] * (rng.random() < 0.2)
    lines = []
    for _ in range(rng.choice([0, 1, 2, 3, 5, 8, 20])):
        daemons, clients = rng.choice(rules)
        if rng.random() < 0.25:
            daemons, clients = rng.choice([(nearly(rng, daemons), clients), (daemons, nearly(rng, clients)), (clients, daemons)])
        line = tidy_line(rng, (daemons, clients)) if rng.random() < 0.85 else rng.choice([b"", b" \t", b"# ALL: ALL", b"#\\\n", b"\\\n"])
        if not sound or not ref.hosts_fault(1, line + b"\n"):
            lines.append(line)
    if not sound:
        lines.insert(rng.randrange(len(lines) + 1), joined_line(rng))
    text = b"".join(line + b"\n" for line in lines)
    return text if sound else damaged_text(rng, text)


def proposal_of(rng, text):
    """of a file without a fault: the longest, a part of it, its numbers in another order and repeated, and such as are not accepted"""
    numbers, kind = ref.needless(text), rng.random()
    rules = [line.number for line, _ in ref.rules_in(text)]
    if kind < 0.3:
        return ref.proposal_of(numbers)
    if kind < 0.5:
        numbers = [n for n in numbers if rng.random() < 0.6]
    elif kind < 0.65:
        numbers = [rng.choice(numbers) for _ in range(rng.choice([1, 5, 50]))] if numbers else []
    elif kind < 0.9:
        physical = text.count(b"\n")
        wrong = rng.choice([0, physical + 1, 16384, 16385, 16386, 2 ** 32 - 1, 256 * rng.randrange(1, 100), rng.randrange(physical + 2), rng.choice(rules or [7]), (rules or [1])[0]])
        numbers.insert(rng.randrange(len(numbers) + 1), wrong)
    elif kind < 0.94:
        numbers = rules
    rng.shuffle(numbers)
    unparted = rng.choice([b"\0", b"\0\0", b"\0\0\0", rng.randbytes(3)]) if kind > 0.97 else b""
    return ref.proposal_of(numbers) + unparted


def vast_texts():
    """files as long as they may be: of one rule again and again, of rules that all differ, of both, and behind a rule for all"""
    letters = [b"%c" % c for c in b"abcdefghijklmnopqrstuvwxyz_-"]
    differing = b"".join(a + b + b":" + c + b"\n" for a in letters for b in letters for c in letters)[:16384 // 5 * 5]
    yield b"a:b\n" * 4096
    yield differing
    yield differing[:8190] + differing[:8190].upper()
    yield b"ALL:all\n" + b"a:b\n" * 4094
    yield b"\\\n" * 8190 + b"a:b\n"
    yield b"a:b\n" + b"\n" * 16376 + b"A:B\n"
    yield b"a:b\nA:\\\nB\n" * 1638
    yield (b"a:" + b"b EXCEPT " * 200 + b"b\n") * 9


def nest(words):
    """tables that name the next so often, and the last with so many names: the most work that one reference can ask for"""
    names = [b"a", b"b", b"c", b"d"]
    return [(name, b" ".join([b"/" + names[i + 1]] * many if i < 3 else [b"x"] * many)) for i, (name, many) in enumerate(zip(names, words))]


def vast_tables(most):
    """section fives that cost most where each reference is walked anew, or each name is looked for among all; of so many tables"""
    yield ref.section_five(nest([1022, 1022, 1022, 1534]))
    yield ref.section_five(nest([1022, 1022, 1022, 1535]))
    yield ref.section_five([(b"", b"")] * most)
    yield ref.section_five([(b"%x" % i, b"") for i in range(most)])
    yield ref.section_five([(b"%x" % i, b"/%x" % ((i + 1) % (most // 3))) for i in range(most // 3)])
    yield ref.section_five([(b"a", b"/a " * 4000), (b"b", b"/a /b " * 4000)])


# Users

NAMED = [b"fitter", b"FITTER", b"Fitter", b"known", b"all", b"a", b"b", b"A", b"u" * 64]


def user_element(rng, hosts):
    """a user at a host that mostly matches, or a host alone"""
    if rng.random() < 0.2:
        return rng.choice([b"ALL", b"10.", b"host", b"11."])
    half = rng.choice([rng.choice([b"fitter", b"FITTER", b"Fitter", b"a", b"A", b"b", b"u" * 64]), rng.choice([b"KNOWN", b"known", b"UNKNOWN", b"Unknown", b"ALL", b"all"])])
    return half + b"@" + rng.choice(hosts)


def user_text(rng, hosts):
    """few rules, whose client lists look at users, with EXCEPT round them"""
    out = b""
    for _ in range(rng.choice([0, 1, 1, 2, 3])):
        clients = user_element(rng, hosts)
        while rng.random() < 0.55:
            clients += rng.choice([b" ", b", ", b" EXCEPT ", b" except "]) + user_element(rng, hosts)
        if rng.random() < 0.1:
            at = rng.randrange(len(clients) + 1)
            clients = clients[:at] + b"\\\n" + clients[at:]
        out += rng.choice([b"", b"", b"# fitter@10.\n"]) + rng.choice([b"ALL", b"sshd", b"ALL", b"ALL EXCEPT ftpd", b"ftpd"]) + b": " + clients + rng.choice([b"", b"", b": log %u"]) + b"\n"
    return out


def user_request(rng):
    """by sshd's client host at 10.0.0.1, of every user state"""
    user = rng.choice(["not fetched", "not fetched", None, rng.choice(NAMED), rng.choice(NAMED), rng.choice(USERS)])
    r = dict(request(rng), daemon=rng.choice([b"sshd", b"SSHD", b"sshd", b"ftpd"]), client=(b"host", rng.choice([("4", 0x0a000001), ("6", 0xffff0a000001)])), user=user)
    return r if rng.random() < 0.97 else dict(r, user=rng.choice([b"", b"u" * 65, BAD]))


def near_mapped(rng):
    """an IPv4 address as an IPv6 socket shows it, or with one bit of the 96 before it otherwise, or none of them set"""
    front = rng.choice([0xffff, 0xffff, 0xffff, 0xffff ^ 1 << rng.randrange(96), 0x1ffff, 0xfffe, 0])
    return "6", front << 32 | rng.choice([rng.choice(SMALL), rng.choice(SMALL), rng.getrandbits(32)])


ADDRESSES = [lambda rng: None, lambda rng: ("4", rng.choice(SMALL)), lambda rng: ("4", rng.getrandbits(32)), lambda rng: ("6", rng.choice(WIDE)),
             lambda rng: ("6", rng.getrandbits(128)), near_mapped, near_mapped]


def host(rng):
    name = rng.choice([None, False, rng.choice(NAMES), rng.choice(NAMES), rng.choice(NAMES)])
    address = rng.choice(ADDRESSES)(rng)
    if rng.random() < 0.015:
        name = rng.choice([b"", b"n" * 255, b"n" * 256, BAD])
    if rng.random() < 0.005:
        address = BAD
    return name, address


def request(rng):
    daemon = rng.choice(DAEMONS) if rng.random() < 0.99 else rng.choice([b"", b"d" * 64, b"d" * 65])
    user = rng.choice(["not fetched", None, rng.choice(USERS)]) if rng.random() < 0.99 else rng.choice([b"", b"u" * 64, b"u" * 65, BAD])
    return dict(daemon=daemon, client=host(rng), server=host(rng), user=user)


def near_prefix(rng, width):
    """an address of a net, an address that differs from it at some bit first, and a length that ends there or next to it"""
    half = width // 2
    at = rng.choice([0, 1, half - 1, half, half + 1, width - 1, width, rng.randrange(width), rng.randrange(width)])
    net, last = rng.getrandbits(width), width - 1 - at
    address = net if at == width else net ^ 1 << last ^ rng.getrandbits(last)
    return net, address, min(max(at + rng.choice([-1, 0, 1, 1]), 0), width)


def byuid_text(rng, old=0.5):
    """old: how often lines of the retired form are likely"""
    def address():
        if rng.random() < 0.11:
            return ref.address_text(rng.choice([("4", rng.getrandbits(32)), ("6", rng.getrandbits(128))]))
        return rng.choice([b"10.0.0.0", b"10.0.0.0", b"10.0.0.1", b"0.0.0.0", b"0.0.0.0", b"::", b"::", b"255.255.255.255", b"::", b"::1", b"3ffe:505:2:1::9", b"3ffe:505:2:1::",
                           b"010.0.0.1", b"10.0", b"::ffff:10.0.0.1", b"::ffff:0:0"])

    def port():
        return rng.choice([b"80", b"80", b"80", b"0", b"1", b"1023", b"65535", b"65536", b"080", b"", b"511", b"512", b"1023", b"%d" % rng.randrange(1200)])

    def line():
        kind = rng.randrange(8)
        head = address()
        if kind < 2:
            head += b"-" + address()
        elif kind < 6:
            head += b"/" + rng.choice([b"0", b"8", b"16", b"24", b"32", b"33", b"64", b"96", b"128", b"129", b"08", b""])
        if kind == 5:
            return old_line()
        return head + b"," + port() + (b"-" + port() if rng.random() < 0.5 else b"")

    def old_line():
        """addr4/len:pmin,pmax, and what is nearly that: bits set, min over max, ports out of range, other marks"""
        head = rng.choice([b"10.0.0.0/8", b"10.0.0.0/8", b"10.0.0.0/30", b"0.0.0.0/0", b"10.0.0.1/32", b"10.0.0.1/8", b"10.0.0.0/08", b"10.0.0.0/33", b"10.0.0/8", b"10.0.0.0",
                           b"::/0", b"::ffff:10.0.0.0/8", b"10.0.0.0-10.0.0.1", b"%s/%d" % (address(), rng.randrange(33))])
        return head + rng.choice([b":"] * 6 + [b",", b"::", b" :", b"/"]) + port() + rng.choice([b","] * 6 + [b"-", b",,", b":"]) + port()

    shapes = [line] * 12 + [lambda: b"# x", lambda: b"", lambda: line() + b"\r", lambda: b" " + line()] + [old_line] * (2 if rng.random() < old else 0)
    text = b"\n".join(rng.choice(shapes)() for _ in range(rng.randrange(7)))
    if rng.random() < 0.01:
        text += b"x" * rng.choice([8192 - len(text), 8193 - len(text)])
    return text


def portacl_text(rng):
    def entry():
        good = b"%s:%s:%s:%s" % (rng.choice([b"uid", b"gid"]), rng.choice([b"80", b"0", b"432", b"4294967295"]), rng.choice([b"tcp", b"udp"]),
                                 rng.choice([b"80", b"0", b"1023", b"65535"]))
        return good if rng.random() < 0.9 else rng.choice([b"", b"UID:80:tcp:80", b"uid:080:tcp:80", b"uid:80:tcp", b"uid:80:tcp:80:", b"uid:4294967296:tcp:80",
                                                           b"uid:80:tcp:65536", b" uid:80:tcp:80", b"uid:80:icmp:80", good + b"\n"])
    text = b",".join(entry() for _ in range(rng.choice([0, 1, 2, 4])))
    if rng.random() < 0.02:
        text = b",".join([b"uid:0:tcp:0"] * rng.choice([84, 340, 340]) + [b"uid:10:tcp:65535" if rng.random() < 0.5 else b"uid:100:tcp:65535"])
    return text


def carried_text(rng):
    """entries that mostly come in pairs, for few uids and for ports about the ends of both spans"""
    pairs = [(rng.choice([b"432", b"432", b"80", b"4294967295"]), rng.choice([0, 1, 2, 79, 80, 80, 511, 512, 1022, 1023, 1024, 65535, rng.randrange(1100)]))
             for _ in range(rng.choice([0, 1, 2, 5, 20, 150]))]
    entries = [b"%s:%s:%s:%d" % (b"uid" if rng.random() < 0.95 else b"gid", uid, protocol, port)
               for uid, port in pairs for protocol in (b"tcp", b"udp") if rng.random() < 0.9]
    rng.shuffle(entries)
    if rng.random() < 0.1:
        entries.insert(rng.randrange(len(entries) + 1), rng.choice([b"", b"uid", b"uid:432:tcp:080"]))
    return b",".join(entries)


def texts_of(rng):
    """five texts for a sheet: mostly sound"""
    sound = rng.random() < 0.85
    ports = byuid_text(rng)
    while sound and ref.byuid_fault(ports):
        ports = byuid_text(rng, 0)
    if rng.random() < 0.1:
        ports = byuid_text(rng, 1) + rng.choice([b"", b"\n10.0.0.0/8:80,90", b"\n0.0.0.0/0:1,1\n"])
    acl = portacl_text(rng)
    while sound and ref.portacl_fault(acl):
        acl = portacl_text(rng)
    if rng.random() < 0.5:
        return [hosts_text(rng, sound), hosts_text(rng, sound), ports, acl, ref.NO_TABLES]
    five, names = tables_of(rng)
    return [naming_text(rng, sound, names), naming_text(rng, sound, names), ports, acl, five]


def sheet_of(rng, texts):
    """their sheet: whole, cut, too long, with another count or another byte"""
    sheet, kind = ref.sheet_of(texts), rng.random()
    if kind < 0.6:
        return sheet
    if kind < 0.7:
        return sheet[:rng.randrange(len(sheet))]
    if kind < 0.75:
        return sheet + rng.randbytes(rng.choice([1, 1, 2, 4, 100]))
    if kind < 0.9:
        section = rng.randrange(4)
        at = sum(4 + len(t) for t in texts[:section])
        count, limit = len(texts[section]), ref.LIMITS[section + 1]
        count = rng.choice([max(0, count - 1), count + 1, limit, limit + 1, 2 ** 32 - 1, count << 8 & 0xffffffff])
        return sheet[:at] + count.to_bytes(4, "big") + sheet[at + 4:]
    at = rng.randrange(len(sheet))
    return sheet[:at] + bytes([rng.randrange(256)]) + sheet[at + 1:]


# Damaged sheets

BAD_LINES = [
    b"ALL: h\xc3\xb6st", b"ALL: a\0", b"ALL: ALL\r", b" \x7f", b"x", b"ALL:", b": ALL", b"EXCEPT: a", b" # no comment", b"[a: b", b"ALL: ALL EXCEPT", b"EXCEPT ALL: ALL",
    b"ALL: a EXCEPT except b", b"ALL: @x", b"/vans: ALL", b"a@@b: ALL", b"ALL: a@@b", b"ALL: 1.2.3", b"LOCAL: ALL", b"ALL: a b, c!", b"KNOWN: [::1]/129", b"ALL: /", b"ALL: 10.0.0.0/33",
    b"ALL: ALL: %", b"ALL: ALL: %z", b"sshd: ALL: log %h %", b"ALL: /gone", b"a@/gone: ALL", b"ALL: fitter@/gone EXCEPT /a"]


def bad_line(rng):
    """one that is refused, whatever the tables are; over one physical line or several"""
    kind = rng.random()
    line = rng.choice(BAD_LINES)
    if kind < 0.05:
        line = rng.choice([b"#", b" ", b"ALL: ALL: ", b"x"]) + b"c" * rng.choice([2047, 2048, 2100])
    elif kind < 0.1:
        line = joined_line(rng)
    for _ in range(rng.choice([0, 0, 0, 1, 2, 5])):
        at = rng.randrange(len(line) + 1)
        line = line[:at] + b"\\\n" + line[at:]
    return line


def unended(rng, text):
    """what a last line without its newline may be: any at all, a comment, blanks, dropped pairs, the very rule that stands for a bad one"""
    return rng.choice([text[:-1], text + rng.choice([b"x", b"# end", b" ", b"ALL: ALL", b"ALL: ALL\\\n", b"\\\n", b"\\\n\\\n", b"\\", bad_line(rng)])])


def salvaged_text(rng, names):
    """lines of hosts.allow or hosts.deny: some sound, some bad, some that name tables"""
    kinds = [lambda: sound_lines(rng, 1)[0]] * 3 + [lambda: bad_line(rng)] * 3 + [lambda: naming_line(rng, names)] * 2 + [lambda: joined_line(rng)]
    text = b"".join(rng.choice(kinds)() + b"\n" for _ in range(rng.choice([0, 1, 2, 3, 6, 12])))
    return unended(rng, text) if rng.random() < 0.25 else text


def grown(rng, deny, five):
    """a deny text that is about at its limit once it is salvaged"""
    deny += b"x\n" * rng.choice([0, 1, 1, 5, 5, 1820])
    if ref.frame_five(five):
        return deny
    length = len(ref.salvaged_hosts(deny, b"ALL: ALL", ref.Tables(ref.read_tables(five)[0]))[0])
    return padding(rng, ref.LIMITS[2] - length + rng.choice([-1, 0, 0, 1, 2, 8])) + deny


def salvaged_portacl(rng):
    entries = [e for _ in range(rng.choice([0, 1, 1, 2, 4])) for e in portacl_text(rng).split(b",")]
    for _ in range(rng.choice([0, 0, 1, 2])):
        entries.insert(rng.randrange(len(entries) + 1), rng.choice([b"", b"", b"uid:www:tcp:80", b"uid:1:tcp:080", b"\n", b"gid:1:udp:1\n"]))
    return b",".join(entries)[:ref.LIMITS[4]]


def damaged_sheet(rng):
    """mostly of a sound frame with sound tables, and with bad lines and entries in each section"""
    tables = sound_tables(rng) if rng.random() < 0.6 else rng.choice([[], chain(rng.sample(TABLE_NAMES, 5)), [(b"a", b"/a"), (b"b", b"host /A")], faulty_tables(rng)])
    names = [name for name, _ in tables if ref.is_table_name(name)] or [b"vans"]
    five = ref.section_five(tables)
    ports = byuid_text(rng, 1) + rng.choice([b"", b"\n10.0.0.0/8:80,90", b"\n0.0.0.0/0:1,1\n"])
    texts = [salvaged_text(rng, names), salvaged_text(rng, names), ports, salvaged_portacl(rng), damaged(rng, five) if rng.random() < 0.02 else five]
    if rng.random() < 0.02:
        texts[1] = grown(rng, texts[1], texts[4])
    if rng.random() < 0.003:
        texts[0] += b"x\n" * 9000
        texts[0] = texts[0][:rng.choice([16383, 16384, 16385])]
    return ref.sheet_of(texts) if rng.random() < 0.9 else sheet_of(rng, texts)


def mended(sheet):
    """what there was to mend in a sheet of a sound frame: the section and the lowest number of each bad line"""
    parts, at = ref.counted_sections(sheet)
    texts, tables, found = [sheet[place:place + n] for place, n in parts], ref.Tables(ref.read_tables(sheet[at:])[0]), set()
    for section, text in (("allow", texts[0]), ("deny", texts[1])):
        for line in ref.lines(text):
            faults = ref.line_faults(line)
            names = [] if faults else ref.named_in_rule(line)
            faults |= {15 for name in names if not tables.has(name)} | {16 for name in names if tables.leads_past(name)}
            if faults:
                found |= {f"{section} {min(faults)}"} | ({f"{section} continued"} if b"\\\n" in line.raw else set())
                found |= {f"{section} comment"} if line.text.startswith(b"#") else set()
    found |= {"byuid"} if ref.byuid_fault(texts[2]) else set()
    found |= {"portacl"} if ref.portacl_fault(texts[3]) else set()
    return found


def command_of(rng):
    pieces = [rng.choice([b"%a", b"%A", b"%n", b"%N", b"%h", b"%H", b"%u", b"%c", b"%d", b"%s", b"%p", b"%%", b"u", b" ", b"\t", b";|&$(`)", b"/bin/log"])
              for _ in range(rng.choice([0, 1, 1, 2, 3, 6, 12]))]
    if rng.random() < 0.1:
        pieces.insert(rng.randrange(len(pieces) + 1), rng.choice([b"%", b"%z", b"%U", b"%C", b"%\t", b"% ", b"%%%"]))
    if rng.random() < 0.05:
        pieces.insert(rng.randrange(len(pieces) + 1), bytes([rng.choice([0, 8, 10, 11, 13, 31, 127, 128, 255])]))
    command = b"".join(pieces)
    if rng.random() < 0.05:
        command = command + rng.choice([b" ", b"x", b"%p"]) * 2048
        command = command[:rng.choice([2046, 2047, 2048])]
    for _ in range(rng.choice([0, 0, 0, 1, 2])):
        at = rng.randrange(len(command) + 1)
        command = command[:at] + rng.choice([b"\\\n", b"\\\n", b"\\\n\\\n", b"\\", b"\\\\\n"]) + command[at:]
    return rng.choice([b"", b"", b" ", b"\t "]) + command + rng.choice([b"", b"", b" ", b" \t"])


def expansion_request(rng):
    """names of any bytes"""
    r = request(rng)
    if rng.random() < 0.3:
        r["daemon"] = rng.randbytes(rng.choice([1, 8, 64]))
        if isinstance(r["user"], bytes):
            r["user"] = rng.randbytes(rng.choice([1, 8, 64]))
        for end in ("client", "server"):
            if isinstance(r[end][0], bytes):
                r[end] = (rng.randbytes(rng.choice([1, 8, 255])), r[end][1])
    return r


def command_line(rng):
    """a rule for everyone, with a command that may be at fault"""
    return rng.choice([b"ALL: ALL:", b"ALL: ALL EXCEPT x :", b"sshd, all: [::]/0, 0.0.0.0/0.0.0.0:"]) + command_of(rng) + b"\n"


def process_of(rng):
    return rng.choice([0, 9, 10, 4711, 2 ** 32 - 1, rng.getrandbits(32)])


def room_for(rng, result):
    """about the length of the result, where there is one: of what is written"""
    n = rng.randrange(60) if ref.refused(result) else len(result[-1] if isinstance(result, tuple) else result)
    return max(0, rng.choice([n, n, n + 1, n - 1, n + 20, 0, rng.randrange(n + 1)]))


def address_of(rng):
    return rng.choice([None, BAD, ("4", rng.choice(SMALL)), ("4", rng.getrandbits(32)), ("6", rng.choice(WIDE)), ("6", rng.getrandbits(128)),
                       near_mapped(rng), ("6", sum(rng.choice([0, 0, 1, 0x10, 0xffff, rng.getrandbits(16)]) << 16 * i for i in range(8)))])


def address_text(rng):
    kind, address = rng.random(), address_of(rng)
    if kind < 0.3:
        groups = [rng.choice([b"0", b"0", b"1", b"ffff", b"FfFf", b"0a", b"00000", b"", b"12.3.4.5"]) for _ in range(rng.choice([2, 4, 7, 8, 8, 8, 9]))]
        return b":".join(groups)
    text = b"10.0.0.1" if address == BAD else ref.address_text(address)
    if kind < 0.6:
        at = rng.randrange(len(text) + 1)
        text = text[:at] + rng.choice([b"", b":", b".", b"0", b"f", b"%", b"/", b"\0", b" "]) + text[at + rng.randrange(2):]
    return text


# Indexes and requests in bytes

def indexed_texts(rng):
    """five texts of a sheet that is mostly accepted, whose rules mostly match"""
    kind = rng.random()
    if kind < 0.2:
        return texts_of(rng)
    if kind < 0.35:
        hosts, five = [b"10.", b"10.0.0.1", b"ALL", b"host", b"11.", b"/t", b"/u"], ref.section_five([(b"t", b"11. /u"), (b"u", b"net.example 10.")])
        return [user_text(rng, hosts), user_text(rng, hosts) + rng.choice([b"", b"ALL: ALL\n"]), b"", b"", five]
    if kind < 0.6:
        return [tidy_text(rng, True, []), tidy_text(rng, True, []) + rng.choice([b"", command_line(rng)]), b"", b"", ref.NO_TABLES]
    tables = sound_tables(rng)
    names = [name for name, _ in tables]
    allow, deny = naming_text(rng, True, names), naming_text(rng, True, names) + rng.choice([b"", b"ALL: ALL : \n", b"ALL: ALL: log %h\n"])
    return [allow, deny, byuid_text(rng, 0), b"", ref.section_five(tables)]


def indexed_sheet(rng):
    texts = indexed_texts(rng)
    return ref.sheet_of(texts) if rng.random() < 0.9 else sheet_of(rng, texts)


def wrong_index(rng, index):
    """one byte changed, cut or added, a number changed, entries in another order, one left out, one twice; that of another sheet"""
    kind, entries = rng.randrange(9), [index[at:at + 32] for at in range(8, len(index), 32)]
    if kind == 0:
        at = rng.randrange(len(index))
        return index[:at] + bytes([index[at] ^ 1 << rng.randrange(8)]) + index[at + 1:]
    if kind == 1:
        return index[:rng.choice([len(index) - 1, rng.randrange(len(index)), 8, 0])]
    if kind == 2:
        return index + rng.choice([b"\0", index[-1:], index[-32:], rng.randbytes(32)])
    if kind == 3:
        at = 4 * rng.randrange(len(index) // 4)
        number = int.from_bytes(index[at:at + 4], "big") + rng.choice([-1, 1])
        return index[:at] + (number & 0xffffffff).to_bytes(4, "big") + index[at + 4:]
    if kind == 4:
        rng.shuffle(entries)
    elif kind == 5 and entries:
        del entries[rng.randrange(len(entries))]
    elif kind == 6 and entries:
        entries.insert(rng.randrange(len(entries)), rng.choice(entries))
    elif kind == 7:
        other = ref.index(indexed_sheet(rng), 1 << 32)
        return b"" if ref.refused(other) else other
    else:
        return index[4:8] + index[:4] + index[8:]
    return index[:8] + b"".join(entries)


def raw_request(rng, r):
    """its bytes; where a name is not known there may be some beside it, which are not looked at, and where a field is bad it is so in any way"""
    def text(value, known):
        return ref.text_bytes(value if known else rng.choice([b"", b"", b"junk", b"j" * rng.choice([64, 65, 255])]))

    def one_of(value, absent):
        return 2 if isinstance(value, bytes) else rng.choice([3, 4, 127, 255]) if value == BAD else absent.index(value)

    def host(value):
        name, address = value
        kind, high, low = address_args(rng, address)
        kind = kind if kind < 256 else 255
        return bytes([one_of(name, [None, False]), kind]) + high.to_bytes(8, "big") + low.to_bytes(8, "big") + text(name, isinstance(name, bytes))

    user = r["user"]
    return (ref.text_bytes(r["daemon"]) + host(r["client"]) + host(r["server"]) + bytes([one_of(user, ["not fetched", None])])
            + text(user, isinstance(user, bytes)))


def writable(r):
    """a request whose texts have a count in one byte"""
    texts = [r["daemon"], r["client"][0], r["server"][0], r["user"]]
    return all(len(t) < 256 for t in texts if isinstance(t, bytes))


def one_request(rng):
    r = rng.choice([request, request, expansion_request, user_request])(rng)
    while not writable(r):
        r = request(rng)
    if rng.random() < 0.05:
        hosts = [(BAD, None), (b"", None), (None, BAD)]
        fields = {"daemon": [b"", b"d" * 65], "client": hosts, "server": hosts, "user": [b"", b"u" * 65, BAD]}
        name = rng.choice(list(fields))
        r = dict(r, **{name: rng.choice(fields[name])})
    return r


def asked_together(rng):
    """requests, and their bytes: so many, or one more than may be; whole, cut, or with bytes behind them"""
    rs = [one_request(rng) for _ in range(rng.choice([0, 1, 1, 2, 3, 5, 8, 31, 32, 32, 33, 34] if rng.random() < 0.3 else [1, 2, 3, 4]))]
    text, kind = b"".join(raw_request(rng, r) for r in rs), rng.random()
    if kind < 0.05:
        return None, text[:rng.randrange(len(text) + 1)]
    if kind < 0.1:
        return None, text + rng.choice([b"\0", b"\xff", rng.randbytes(rng.choice([1, 40, 41]))])
    if kind < 0.13 and text:
        at = rng.randrange(len(text))
        return None, text[:at] + rng.randbytes(1) + text[at + 1:]
    return rs, text


# What each export is to be seen to answer

FILES = {"4", "5", "6", "7", "8", "9", "10", "11"}
TABLES = {"15", "16", "17"}
SHEET = {"1", "2", "3", "12", "22"} | FILES | TABLES
VERDICTS = {"granted", "denied", "ask", "13"}
BYUID = {"granted", "no line", "not ruled", "13"}
PORTACL = {"granted", "denied", "exempt", "not ruled", "13"}
MATTERS = {"granted", "denied", "name matters", "13"}
KINDS = {
    "name_matters": MATTERS | FILES | {"2", "15"}, "tables_name_matters": MATTERS | FILES | TABLES | {"1", "2", "3"},
    "sheet_name_matters": MATTERS | SHEET,
    "command": VERDICTS | FILES | {"2", "14", "15"}, "sheet_command": VERDICTS | SHEET | {"14"},
    "verdict": VERDICTS | FILES | {"2", "15"}, "tables_verdict": VERDICTS | FILES | TABLES | {"1", "2", "3"}, "byuid": BYUID | {"2", "22"}, "portacl": PORTACL | {"2", "12"},
    "sheet_verdict": VERDICTS | SHEET, "sheet_byuid": BYUID | SHEET, "sheet_portacl": PORTACL | SHEET,
    "carry": {"answered", "2", "12", "13", "14"},
    "salvage": {"answered", "1", "2", "3", "14", "15", "17", "unchanged", "grown", "byuid", "portacl"}
               | {f"{section} {what}" for section in ("allow", "deny") for what in (*range(4, 12), 15, 16, "continued", "comment")},
    "index": {"answered", "14", "no rule", "continued", "command", "comment"} | SHEET,
    "verdicts": {"answered", "13", "14", "21", "of none", "of 1", "of 31", "of 32", "33 and more", "cut", "bad among good", "each bad"} | SHEET
                | {f"its {word}" for word in ("granted", "denied", "ask", "no rule", "13")}
                | {f"a wrong index {what}" for what in ("shorter", "longer", "as long")},
    "propose": {"answered", "1", "2", "3", "13", "14"} | FILES | TABLES, "drop": {"answered", "1", "2", "3", "13", "14", "20", "granted", "denied", "ask", "moved"} | FILES | TABLES,
    "authbind": {"test", "read", "granted", "denied", "not ruled", "13", "14", "18", "19"},
    "check": SHEET | {"sheet ok"}, "unpack": SHEET | {"answered"}, "pack": {"answered", "14"} | SHEET,
    "upgrade": {"answered", "1", "2", "3", "14"}, "convert": {"answered", "2", "14"},
    "expand": {"answered", "5", "6", "11", "13", "14"},
    "read_address": {"4", "6", "13"}, "write_address": {"answered", "13", "14"},
}


def kind_of(answer):
    return answer if isinstance(answer, str) else str(answer[0]) if isinstance(answer, tuple) else "answered"


class Difference(Exception):
    """its text says where"""


# How many turns a process takes at a time.
BLOCK = 100


def run_block(library, seed, names, turns):
    """compares the cases of these turns; answers what each export was seen to answer, and what rules that look at users got"""
    lib, rng = load(library), Random()
    seen = {name: set() for name in KINDS}
    answers, asks = collections.Counter(), collections.Counter()

    def compare(name, got, expected, *inputs):
        seen[name].add(kind_of(expected))
        if got != expected:
            raise Difference("\n    ".join([f"{name}: got {got}, expected {expected}", *map(str, inputs)]))

    def command_case(name, call, texts, whole, answer, r):
        """of an expected verdict: the same call, with the command written"""
        process = process_of(rng)
        room = room_for(rng, ref.with_command(answer, r, process, 1 << 32))
        got = command(rng, room, call, texts, whole, r, process)
        compare(name, got, ref.with_command(answer, r, process, room), texts, r, process, room)

    def hosts_case():
        sound = rng.random() < 0.7
        allow, deny, r = hosts_text(rng, sound), hosts_text(rng, sound), rng.choice([request, expansion_request])(rng)
        if rng.random() < 0.5:
            allow, deny = rng.choice([(allow + command_line(rng), deny), (allow, deny + command_line(rng))])
        if rng.random() < 0.003:
            allow += padding(rng, rng.choice([16384, 16385]) - len(allow))
        expected = ref.verdict(allow, deny, r)
        compare("verdict", verdict(rng, lib.gate_verdict, [allow, deny], [b"", allow, deny], r), expected, allow, deny, r)
        compare("name_matters", name_matters(rng, lib.gate_name_matters, [allow, deny], r), ref.name_matters(allow, deny, r), allow, deny, r)
        command_case("command", lib.gate_command, [allow, deny], [b"", allow, deny], expected, r)

    def tables_case():
        sound = rng.random() < 0.8
        five, names = tables_of(rng)
        allow, deny, r = naming_text(rng, sound, names), naming_text(rng, sound, names), rng.choice([request, expansion_request])(rng)
        if rng.random() < 0.01:
            allow += padding(rng, rng.choice([16384, 16385]) - len(allow))
        expected = ref.verdict(allow, deny, r, five)
        got = verdict(rng, lib.gate_tables_verdict, [allow, deny, five], [b"", allow, deny], r)
        compare("tables_verdict", got, expected, allow, deny, five, r)
        got = name_matters(rng, lib.gate_tables_name_matters, [allow, deny, five], r)
        compare("tables_name_matters", got, ref.name_matters(allow, deny, r, five), allow, deny, five, r)
        if rng.random() < 0.05:
            compare("name_matters", name_matters(rng, lib.gate_name_matters, [allow, deny], r), ref.name_matters(allow, deny, r), allow, deny, r)
            expected = ref.verdict(allow, deny, r)
            compare("verdict", verdict(rng, lib.gate_verdict, [allow, deny], [b"", allow, deny], r), expected, allow, deny, r)
            command_case("command", lib.gate_command, [allow, deny], [b"", allow, deny], expected, r)

    def cut_cases():
        """a sheet with tables, cut at every place, and its section five handed in so"""
        texts = [b"ALL: /a\n", b"ALL: ALL\n", b"", b"", ref.section_five(sound_tables(rng)[:3])]
        sheet, r = ref.sheet_of(texts), request(rng)
        for n in range(len(sheet) + 1):
            compare("check", check(lib.gate_check, sheet[:n]), ref.check(sheet[:n]), sheet, n)
        for n in range(len(texts[4]) + 1):
            expected = ref.verdict(texts[0], texts[1], r, texts[4][:n])
            got = verdict(rng, lib.gate_tables_verdict, [*texts[:2], texts[4][:n]], [b"", *texts[:2]], r)
            compare("tables_verdict", got, expected, texts, n, r)
            got = written(rng, 1000, lib.gate_pack, *(x for text in (*texts[:4], texts[4][:n]) for x in sized(text)))
            compare("pack", got, ref.pack([*texts[:4], texts[4][:n]], 1000), texts, n)

    def vast_cases():
        texts = [b"ALL: /a\n" * 2000, b"ALL: /b, b@/a EXCEPT x@/A\n", b"", b"a@/1: ALL EXCEPT /7cf\n"]
        cases = [(five, allow) for five in vast_tables(2000) for allow in texts] + [(five, texts[3]) for five in vast_tables(65535)]
        for five, allow in cases:
            r = request(rng)
            expected = ref.verdict(allow, b"ALL: ALL\n", r, five)
            got = verdict(rng, lib.gate_tables_verdict, [allow, b"ALL: ALL\n", five], [b"", allow, b"ALL: ALL\n"], r)
            compare("tables_verdict", got, expected, allow, five[:100], len(five), r)

    def user_cases():
        """rules that look at users, by texts, with tables and by a sheet; every user of theirs gets what the answer says"""
        hosts = [b"10.", b"10.", b"10.0.0.1", b"ALL", b"host", b"11.", b"KNOWN"]
        everyone = [b"", b"ALL: ALL\n"]
        allow, deny, r = user_text(rng, hosts), user_text(rng, hosts) + rng.choice(everyone), user_request(rng)
        expected = ref.name_matters(allow, deny, r)
        answers[kind_of(expected)] += 1
        asks["ask" if ref.verdict(allow, deny, dict(r, user="not fetched"))[0] == "ask" else "no ask", kind_of(expected)] += 1
        compare("name_matters", name_matters(rng, lib.gate_name_matters, [allow, deny], r), expected, allow, deny, r)
        five = ref.section_five([(b"t", b"11. /u"), (b"u", b"net.example 10.")])
        hosts += [b"/t", b"/T", b"/u"]
        allow, deny = user_text(rng, hosts), user_text(rng, hosts) + rng.choice(everyone)
        expected = ref.name_matters(allow, deny, r, five)
        compare("tables_name_matters", name_matters(rng, lib.gate_tables_name_matters, [allow, deny, five], r), expected, allow, deny, five, r)
        sheet = ref.sheet_of([allow, deny, b"", b"", five])
        compare("sheet_name_matters", name_matters(rng, lib.gate_sheet_name_matters, [sheet], r), ref.sheet_name_matters(sheet, r), sheet, r)

    def crowd_cases():
        """many users in a file, most of whom decide nothing"""
        def crowd():
            rules = [b"ALL: %s@%s%s\n" % (rng.choice([b"u%d" % i, b"U%d" % (i // 2)]), rng.choice([b"10.", b"11.", b"host"]), rng.choice([b"", b" EXCEPT u%d@ALL" % i]))
                     for i in range(rng.choice([20, 200]))]
            return b"".join(rules) + rng.choice([b"", b"ALL: KNOWN@10. UNKNOWN@10.\n", b"ALL: ALL\n"])
        allow, deny, r = crowd(), rng.choice([b"", crowd()]), user_request(rng)
        compare("name_matters", name_matters(rng, lib.gate_name_matters, [allow, deny], r), ref.name_matters(allow, deny, r), allow, deny, r)

    def upgrade_case():
        texts = texts_of(rng)
        sheet = sheet_of(rng, texts[:4] + [b""]) if rng.random() < 0.8 else ref.sheet_of(texts)
        if rng.random() < 0.1:
            sheet += ref.NO_TABLES
        room = room_for(rng, ref.upgrade(sheet, 1 << 32))
        compare("upgrade", written(rng, room, lib.gate_upgrade, *sized(sheet)), ref.upgrade(sheet, room), sheet, room)

    def prefix_cases():
        net, address, length = near_prefix(rng, 128)
        allow, deny, r = b"ALL: [%s]/%d\n" % (ref.address_text(("6", net)), length), b"ALL: ALL\n", dict(request(rng), client=(None, ("6", address)))
        expected = ref.verdict(allow, deny, r)
        compare("verdict", verdict(rng, lib.gate_verdict, [allow, deny], [b"", allow, deny], r), expected, allow, r)
        kind, width = rng.choice([("4", 32), ("6", 128)])
        net, address, length = near_prefix(rng, width)
        beyond = rng.choice([net % 2 ** (width - length)] * 3 + [0])
        case = b"%s/%d,80" % (ref.address_text((kind, net - beyond)), length), "plain", 80, (kind, address), 432
        compare("byuid", byuid(rng, lib.gate_byuid, *case), ref.byuid(*case), *case)

    def mapped_cases():
        """patterns of both kinds for the very address of a client and a server, what is written of it, and byuid lines"""
        address = near_mapped(rng)
        dotted, text = ref.address_text(("4", address[1] % 2 ** 32)), ref.address_text(address)
        pattern = rng.choice([dotted, dotted.partition(b".")[0] + b".", dotted + b"/32", b"[%s]" % text, b"[::ffff:0:0]/96", b"[::]/0"])
        rule = rng.choice([b"ALL: %s: %%a %%A %%h %%H %%c %%s\n", b"ALL@%s: ALL: %%A %%a\n"]) % pattern
        allow, deny = rng.choice([(rule, b"ALL: ALL\n"), (b"", rule)])
        name = rng.choice([None, None, False, b"host"])
        r = dict(request(rng), client=(name, address), server=(name, rng.choice([address, near_mapped(rng)])))
        expected = ref.verdict(allow, deny, r)
        compare("verdict", verdict(rng, lib.gate_verdict, [allow, deny], [b"", allow, deny], r), expected, allow, deny, r)
        command_case("command", lib.gate_command, [allow, deny], [b"", allow, deny], expected, r)
        five = ref.section_five([(b"t", b"net.example " + pattern)])
        if rng.random() < 0.5:
            allow, deny = allow.replace(pattern, b"/t"), deny.replace(pattern, b"/t")
            expected = ref.verdict(allow, deny, r, five)
            got = verdict(rng, lib.gate_tables_verdict, [allow, deny, five], [b"", allow, deny], r)
            compare("tables_verdict", got, expected, allow, deny, five, r)
        sheet = ref.sheet_of([allow, deny, b"", b"", five])
        expected = ref.sheet_verdict(sheet, r)
        compare("sheet_verdict", verdict(rng, lib.gate_sheet_verdict, [sheet], [sheet] * 3, r), expected, sheet, r)
        command_case("sheet_command", lib.gate_sheet_command, [sheet], [sheet] * 3, expected, r)
        case = rng.choice([b"%s,80" % dotted, b"%s,80" % text, b"::ffff:0:0/96,80", b"0.0.0.0/0,80"]), "plain", 80, address, 432
        compare("byuid", byuid(rng, lib.gate_byuid, *case), ref.byuid(*case), *case)

    def byuid_request():
        address = rng.choice([host(rng)[1], ("4", 0x0a000000 + rng.randrange(3)), ("6", rng.randrange(3))])
        port = BAD if rng.random() < 0.02 else rng.choice([0, 1, 80, 80, 80, 80, 511, 512, 512, 1023, 1024])
        return port, address, rng.choice([0, 1, 432, 432, 432])

    def authbind_case():
        """addresses with few groups that are not zero, about those left out; answers that mostly go on"""
        groups = [rng.choice([0, 0, 0, 0, 1, 0x10, 0xfffe, 0xffff]) for _ in range(8)]
        low = sum(group << 16 * place for place, group in enumerate(groups[:rng.choice([1, 2, 3, 4, 8, 8])]))
        address = rng.choice([address_of(rng), ("4", rng.choice(SMALL)), ("6", low), ("6", low), ("6", 0xffff << 32 | low % 2 ** 32)])
        port, _, uid = byuid_request()
        uid = rng.choice([uid, 2 ** 32 - 1, rng.getrandbits(32)])
        answers = ["absent"] * rng.choice([0, 1, 2, 2, 3, 3, 4])
        answers += rng.choice([[]] * 4 + [["allowed"], ["other"], ["allowed", "absent"], ["other", "allowed"], [BAD]])
        case = port, address, uid, answers
        result = ref.authbind(*case, 1 << 32)
        room = room_for(rng, result if ref.refused(result) else result[1])
        compare("authbind", authbind(rng, room, lib.gate_authbind, *case), ref.authbind(*case, room), case, room)

    def convert_case():
        """a text converted, and asked as the text was before the old form was retired"""
        text = byuid_text(rng, 1)
        room = room_for(rng, ref.convert(text, 1 << 32))
        expected = ref.convert(text, room)
        compare("convert", written(rng, room, lib.gate_convert, *sized(text)), expected, text, room)
        if not ref.refused(expected):
            case = rng.choice(["plain", "marked"]), *byuid_request()
            compare("byuid", byuid(rng, lib.gate_byuid, expected, *case), ref.byuid_before(text, *case), text, case)
            compare("convert", written(rng, len(text), lib.gate_convert, *sized(expected)), expected, expected)

    def carry_case():
        text, uid = rng.choice([carried_text, carried_text, carried_text, portacl_text])(rng), rng.choice([0, 80, 432, 432, 432, 2 ** 32 - 1])
        result = ref.carry(text, uid, 1 << 32, 1 << 32)
        rooms = [room_for(rng, result if ref.refused(result) else each) for each in (result if not ref.refused(result) else [result] * 2)]
        compare("carry", written_two(rng, rooms, lib.gate_carry, *sized(text), uid), ref.carry(text, uid, *rooms), text, uid, rooms)

    def salvage_case():
        """a damaged sheet salvaged: what comes of it is accepted, and stays as it is when it is salvaged again"""
        sheet = damaged_sheet(rng)
        result = ref.salvage(sheet, 1 << 32, 1 << 32)
        sizes = [rng.randrange(60)] * 2 if ref.refused(result) else [len(each) for each in result]
        rooms = [max(0, n) for n in rng.choice([sizes] * 4 + [[sizes[0] - 1, sizes[1]], [sizes[0], sizes[1] - 1], [n + 20 for n in sizes], [0, sizes[1]], [sizes[0], 0]])]
        expected = ref.salvage(sheet, *rooms)
        compare("salvage", written_two(rng, rooms, lib.gate_salvage, *sized(sheet)), expected, sheet, rooms)
        if ref.refused(expected):
            seen["salvage"] |= {"grown"} if expected == (2, 2, 0) and not ref.refused(ref.counted_sections(sheet)) else set()
            return
        new, changes = expected
        seen["salvage"] |= mended(sheet) or {"unchanged"}
        compare("check", check(lib.gate_check, sheet), ref.check(sheet) if changes else "sheet ok", sheet)
        compare("check", check(lib.gate_check, new), "sheet ok", sheet, new)
        compare("salvage", written_two(rng, [len(new), 0], lib.gate_salvage, *sized(new)), [new, b""], sheet, new)

    def compare_drop(section, text, five, proposal, room):
        expected = ref.drop(section, text, five, proposal, room)
        got = written(rng, room, lib.gate_drop, *sized(text), *sized(five), section, *sized(proposal))
        compare("drop", got, expected, section, text[:1000], five[:1000], proposal[:1000], room)
        return expected

    def compare_verdicts(section, text, new, five, proposal):
        """by the old file and by the new one: the same word, file and command, and the line less the lines that went above it"""
        other, r, named = rng.choice([b"", hosts_text(rng, True)]), rng.choice([request, user_request])(rng), set(ref.numbers_of(proposal))

        def verdict_by(file):
            allow, deny = (file, other) if section == 1 else (other, file)
            return verdict(rng, lib.gate_tables_verdict, [allow, deny, five], [b"", allow, deny], r)

        before, after = verdict_by(text), verdict_by(new)
        if not ref.refused(before):
            removed = ref.removed_above(text, named, before[2]) if before[1] == section else 0
            seen["drop"] |= {"moved"} if removed else set()
            before, after = (before[0], before[1], before[2] - removed, before[4]), (after[0], after[1], after[2], after[4])
        compare("drop", after, before, section, text, new, five, other, r)

    def tidy_case():
        five, names = (ref.NO_TABLES, []) if rng.random() < 0.4 else tables_of(rng)
        text, section = tidy_text(rng, rng.random() < 0.85, names), rng.choice([1, 2]) if rng.random() < 0.97 else rng.choice([0, 3, 5, 257, 2 ** 32 - 1])
        if rng.random() < 0.01:
            text += padding(rng, rng.choice([16384, 16385]) - len(text))
        room = room_for(rng, ref.propose(section, text, five, 1 << 32))
        got = written(rng, room, lib.gate_propose, *sized(text), *sized(five), section)
        compare("propose", got, ref.propose(section, text, five, room), section, text, five, room)
        faulty = ref.file_fault(section, text, five)
        proposal = rng.randbytes(rng.choice([0, 4, 7])) if faulty else proposal_of(rng, text)
        new = compare_drop(section, text, five, proposal, room_for(rng, ref.drop(section, text, five, proposal, 1 << 32)))
        for _ in range(0 if ref.refused(new) else 8 if proposal else 1):
            compare_verdicts(section, text, new, five, proposal)

    def every_proposal_case():
        """of a short file: no proposal of its lines that is accepted is longer than the one that is proposed"""
        text = tidy_text(rng, True, [])
        lines = range(text.count(b"\n") + 2)
        if len(lines) > 9:
            return
        proposed = written(rng, len(text), lib.gate_propose, *sized(text), *sized(ref.NO_TABLES), 2)
        for chosen in range(1 << len(lines)):
            proposal = ref.proposal_of([n for n in lines if chosen >> n & 1])
            accepted = not ref.refused(compare_drop(2, text, ref.NO_TABLES, proposal, len(text)))
            if accepted and len(proposal) > len(proposed):
                compare("propose", proposed, proposal, text)

    def vast_tidy_cases():
        for text in vast_texts():
            expected = ref.propose(2, text, ref.NO_TABLES, 16384)
            compare("propose", written(rng, 16384, lib.gate_propose, *sized(text), *sized(ref.NO_TABLES), 2), expected, text[:100], len(text))
            numbers, new = ref.numbers_of(expected), ref.drop(2, text, ref.NO_TABLES, expected, 16384)
            for room in (16384, len(new), max(0, len(new) - 1)):
                compare_drop(2, text, ref.NO_TABLES, expected, room)
            for proposal in (ref.proposal_of(numbers[::-1]), expected * 20, expected + b"\0", expected + b"\0\0\0\1", b"\0\0\0\1" * 50000):
                compare_drop(2, text, ref.NO_TABLES, proposal, 16384)

    def compare_index(sheet, room):
        expected = ref.index(sheet, room)
        compare("index", written(rng, room, lib.gate_index, *sized(sheet)), expected, sheet[:2000], room)
        if ref.refused(expected):
            return
        parts = ref.unpack(sheet)[:2]
        lines = [line for place, n in parts for line in ref.lines(sheet[place:place + n])]
        rules = [line for place, n in parts for line, _ in ref.rules_in(sheet[place:place + n])]
        seen["index"] |= ({"no rule"} if not rules else set()) | ({"comment"} if len(lines) > len(rules) else set())
        seen["index"] |= {"continued" for line in rules if b"\n" in line.raw} | {"command" for line in rules if len(ref.separators(line.raw)) > 1}

    def lone_bytes(sheet, r):
        """what the lone call answers, as bytes: its own place too where there is no command"""
        a = lib.gate_sheet_verdict(*sized(sheet), *request_args(rng, r))
        return ref.number_bytes(a.number, a.section, a.line, a.word, a.file, a.place, a.len) + a.looked.to_bytes(8, "big")

    def compare_verdicts_by(sheet, given, rs, requests, room):
        expected = ref.verdicts(sheet, given, requests, room)
        got = written(rng, room, lib.gate_verdicts, *sized(sheet), *sized(given), *sized(requests))
        compare("verdicts", got, expected, sheet[:2000], given[:2000], requests[:2000], room)
        if ref.refused(expected):
            seen["verdicts"] |= {"33 and more"} if expected[0] == 13 and rs and len(rs) > ref.REQUESTS else {"cut"} if expected[0] == 13 else set()
            return
        if rs is not None:
            compare("verdicts", got, b"".join(lone_bytes(sheet, r) for r in rs), sheet, rs)
        answers = [expected[at:at + ref.ANSWER_BYTES] for at in range(0, len(expected), ref.ANSWER_BYTES)]
        bad = [answer[3] == 13 for answer in answers]
        seen["verdicts"].add(f"of {len(answers) or 'none'}")
        if any(bad):
            seen["verdicts"].add("each bad" if all(bad) else "bad among good")
        seen["verdicts"] |= {"its 13" if answer[3] else "its no rule" if not answer[19] else f"its {WORDS[answer[15]]}" for answer in answers}

    def index_case():
        """a sheet's index, and requests by it, by a wrong one, and with too little room"""
        sheet = indexed_sheet(rng)
        compare_index(sheet, room_for(rng, ref.index(sheet, 1 << 32)))
        right = ref.index(sheet, 1 << 32)
        rs, requests = asked_together(rng)
        given = rng.randbytes(rng.choice([0, 8, 40])) if ref.refused(right) else right if rng.random() < 0.8 else wrong_index(rng, right)
        if not ref.refused(right) and given != right:
            seen["verdicts"].add("a wrong index " + ("shorter" if len(given) < len(right) else "longer" if len(given) > len(right) else "as long"))
        exact = ref.verdicts(sheet, given, requests, 1 << 32)
        room = room_for(rng, exact) if rng.random() < 0.3 else 40 if ref.refused(exact) else len(exact)
        compare_verdicts_by(sheet, given, rs, requests, room)

    def every_index_case():
        """of a short sheet: its index with each byte changed, cut at each place, with a byte behind it; requests cut at each place"""
        sheet = indexed_sheet(rng)
        right = ref.index(sheet, 1 << 32)
        if ref.refused(right) or len(right) > 8 + 32 * 8:
            return
        rs = [one_request(rng) for _ in range(2)]
        requests = b"".join(raw_request(rng, r) for r in rs)
        for at in range(len(right)):
            compare_verdicts_by(sheet, right[:at], rs, requests, 72)
            compare_verdicts_by(sheet, right[:at] + bytes([right[at] ^ 1 << rng.randrange(8)]) + right[at + 1:], rs, requests, 72)
        compare_verdicts_by(sheet, right + b"\0", rs, requests, 72)
        for at in range(len(requests)):
            compare_verdicts_by(sheet, right, None, requests[:at], 72)
        for room in (0, 35, 36, 71, 72, 73):
            compare_verdicts_by(sheet, right, rs, requests, room)

    def vast_index_cases():
        """files of the most rules, of rules over many lines, and three hundred of which the last matches"""
        far = b"".join(b"sshd%d: 10.%d.\n" % (i, i % 256) for i in range(300))
        pairs = [(far, b"ALL: ALL: log %h\n"), (b"", far + b"ALL: ALL\n"), (b"# x\n" * 4096, b"\n" * 16384)]
        for allow, deny in [(text, text) for text in vast_texts()] + pairs:
            sheet = ref.sheet_of([allow, deny, b"", b"", ref.NO_TABLES])
            right = ref.index(sheet, 1 << 32)
            for room in (len(right), len(right) - 1):
                compare_index(sheet, room)
            rs = [one_request(rng) for _ in range(32)]
            compare_verdicts_by(sheet, right, rs, b"".join(raw_request(rng, r) for r in rs), 32 * 36)
            for given in (right[:-1], right + b"\0", right[:-1] + bytes([right[-1] ^ 1]), bytes(len(right)), b""):
                compare_verdicts_by(sheet, given, [], b"", 0)

    def portacl_request():
        settings = dict(enabled=rng.choice([0, 1, 1, 1, 2]), port_high=rng.choice([0, 79, 80, 1023, 1023, 65535, 2 ** 32 - 1]),
                        suser_exempt=rng.choice([0, 1, 7]), autoport_exempt=rng.choice([0, 1, 7]))
        groups = [rng.choice([0, 80, 432]) for _ in range(rng.choice([0, 1, 2, 16, 17]))]
        protocol = BAD if rng.random() < 0.02 else rng.choice([b"tcp", b"udp"])
        return settings, rng.choice([0, 80, 432]), groups, protocol, BAD if rng.random() < 0.02 else rng.choice([0, 80, 1023, 65535])

    def port_cases():
        mark = BAD if rng.random() < 0.02 else rng.choice(["plain", "plain", "marked"])
        case = (byuid_text(rng), mark, *byuid_request())
        compare("byuid", byuid(rng, lib.gate_byuid, *case), ref.byuid(*case), *case)
        case = (portacl_text(rng), *portacl_request())
        compare("portacl", portacl(rng, lib.gate_portacl, *case), ref.portacl(*case), *case)

    def sheet_cases():
        texts, r = texts_of(rng), rng.choice([request, request, expansion_request])(rng)
        if rng.random() < 0.4:
            texts[rng.randrange(2)] += command_line(rng)
        sheet = sheet_of(rng, texts)
        compare("check", check(lib.gate_check, sheet), ref.check(sheet), sheet)
        compare("unpack", unpack(lib.gate_unpack, sheet), ref.unpack(sheet), sheet)
        expected = ref.sheet_verdict(sheet, r)
        compare("sheet_verdict", verdict(rng, lib.gate_sheet_verdict, [sheet], [sheet] * 3, r), expected, sheet, r)
        compare("sheet_name_matters", name_matters(rng, lib.gate_sheet_name_matters, [sheet], r), ref.sheet_name_matters(sheet, r), sheet, r)
        command_case("sheet_command", lib.gate_sheet_command, [sheet], [sheet] * 3, expected, r)
        case = byuid_request()
        compare("sheet_byuid", sheet_byuid(rng, lib.gate_sheet_byuid, sheet, *case), ref.sheet_byuid(sheet, *case), sheet, case)
        case = portacl_request()
        compare("sheet_portacl", portacl(rng, lib.gate_sheet_portacl, sheet, *case), ref.sheet_portacl(sheet, *case), sheet, case)
        if rng.random() < 0.01:
            section = rng.randrange(4)
            texts[section] += padding(rng, ref.LIMITS[section + 1] + rng.randrange(2) - len(texts[section]))
        room = room_for(rng, ref.pack(texts, 1 << 32))
        got = written(rng, room, lib.gate_pack, *(x for text in texts for x in sized(text)))
        compare("pack", got, ref.pack(texts, room), texts, room)

    def expand_case():
        text, r, process = command_of(rng), expansion_request(rng), process_of(rng)
        room = room_for(rng, ref.expand(text, r, process, 1 << 32))
        got = written(rng, room, lib.gate_expand, *sized(text), *request_args(rng, r), process)
        compare("expand", got, ref.expand(text, r, process, room), text, r, process, room)

    def address_cases():
        text = address_text(rng)
        compare("read_address", read_address(lib.gate_read_address, text), ref.read_address(text), text)
        address = address_of(rng)
        room = room_for(rng, ref.write_address(address, 39))
        compare("write_address", written(rng, room, lib.gate_write_address, *address_args(rng, address)), ref.write_address(address, room), address, room)

    every = {1: [hosts_case, tables_case, user_cases, upgrade_case, prefix_cases, mapped_cases, port_cases, convert_case, authbind_case, carry_case, salvage_case,
                 tidy_case, index_case, sheet_cases, expand_case, address_cases],
             100: [every_proposal_case, every_index_case], 1000: [cut_cases, crowd_cases], 1 << 32: [vast_cases, vast_tidy_cases, vast_index_cases]}
    for turn in turns:
        for case in (case for step in every if turn % step == 0 for case in every[step] if not names or case.__name__ in names):
            rng.seed(f"{seed} {case.__name__} {turn}")
            try:
                case()
            except Difference as difference:
                raise Difference(f"{case.__name__} of turn {turn}, seed {seed}: {difference}") from None
    return seen, answers, asks


def run_blocks(library, cases, seed, names):
    """the same of all turns; the difference that is shown is the first"""
    seen = {name: set() for name in KINDS}
    answers, asks = collections.Counter(), collections.Counter()
    blocks = [range(at, min(at + BLOCK, cases)) for at in range(0, cases, BLOCK)]
    known_lines()  # before the processes part
    with concurrent.futures.ProcessPoolExecutor(len(os.sched_getaffinity(0)), multiprocessing.get_context("fork")) as pool:
        for block in pool.map(functools.partial(run_block, library, seed, names), blocks):
            for name in KINDS:
                seen[name] |= block[0][name]
            answers += block[1]
            asks += block[2]
    return seen, answers, asks


def missing(cases, seen, answers, asks):
    """what was never seen of an export, and what came up too rarely"""
    never = [f"{name} {kind}" for name in KINDS for kind in sorted(KINDS[name] - seen[name])]
    rare = [kind for kind in ("granted", "denied", "name matters") if answers[kind] < cases // 20]
    rare += ["ask where no name matters"] * (sum(asks["ask", kind] for kind in ("granted", "denied")) < cases // 20)
    return ["never seen: " + ", ".join(never)] * bool(never) + ["too rarely seen of rules that look at users: " + ", ".join(rare)] * bool(rare)


def main():
    library, cases, seed, names = sys.argv[1], int(sys.argv[2]), (sys.argv[3:4] or ["1"])[0], sys.argv[4:]
    try:
        seen, answers, asks = run_blocks(library, cases, seed, names)
    except Difference as difference:
        print(difference)
        sys.exit(1)
    compared = [name for name in KINDS if seen[name]]
    faults = missing(cases, seen, answers, asks) if not names else [] if compared else ["no case has such a name"]
    for fault in faults:
        print("differential:", fault)
    if faults:
        sys.exit(1)
    print(f"differential: {cases} cases of each of {len(compared)} exports agree" + ("" if names else "; every kind of answer was among them"))


if __name__ == "__main__":
    main()
