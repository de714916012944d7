#!/usr/bin/env python3
"""vectors.py [--check]: writes crates/vectors/stdout, what the gate must answer to the cases of crates/vectors/stdin, by
tests/reference.py. With --check the file is compared instead. The head of the case file says how a case is written."""
import pathlib
import sys

import reference as ref
from reference import BAD

crate = pathlib.Path(__file__).resolve().parent.parent / "crates" / "vectors"
BLOCK = 65536
HEAD = 66
FIELDS = 31


class Malformed(Exception):
    pass


# A case line

def number(text, most):
    n = ref.decimal(text, most)
    if n is None:
        raise Malformed
    return n


def special(name, run, before, kept):
    """what <name> adds to a field, after a run of plain bytes and all the bytes before it"""
    if name == b"":
        return b""
    if name.startswith(b"*"):
        item, many = run or before[-1:], number(name[1:], BLOCK)
        if not item:
            raise Malformed
        return (item * many)[len(item):max(many, len(item))]
    if name.startswith(b"@"):
        return kept[len(before):number(name[1:], len(kept))]
    return b"\n" if name == b"n" else bytes([number(name, 255)])


def field(raw, kept):
    out, rest = b"", raw.strip(b" \t")
    while rest:
        run, opened, rest = rest.partition(b"<")
        out += run
        if opened:
            name, closed, rest = rest.partition(b">")
            if not closed:
                raise Malformed
            out += special(name, run, out, kept)
    return out


def fields_of(line, kept):
    raw = line.split(b"|")
    out = [field(part, kept) for part in (raw if raw[-1] else raw[:-1])]
    if len(out) > FIELDS or HEAD + sum(map(len, out)) >= BLOCK:
        raise Malformed
    return out


# What fields stand for

def address(text):
    read = ref.read_address(text)
    return read if not ref.refused(read) else None if text[:1] == b"?" else BAD


def state(text, kinds):
    """kinds: what the mark at the front of a name stands for"""
    return text[1:] if text[:1] == b"=" else kinds.get(text[:1], BAD)


def request(daemon, client, client_address, server, server_address, user):
    names = {b"?": None, b"!": False}
    return dict(daemon=daemon, client=(state(client, names), address(client_address)),
                server=(state(server, names), address(server_address)), user=state(user, {b"-": "not fetched", b"?": None}))


def port_of(n):
    return n if n < 65536 else BAD


def byuid(port, at, uid, mark, text):
    return shown(ref.byuid(text, {0: "plain", 1: "marked"}.get(mark, BAD), port_of(port), address(at), uid))


def sheet_byuid(port, at, uid, sheet):
    return shown(ref.sheet_byuid(sheet, port_of(port), address(at), uid))


def portacl(decide, enabled, port_high, suser_exempt, autoport_exempt, uid, protocol, port, text, *groups):
    settings = dict(enabled=enabled, port_high=port_high, suser_exempt=suser_exempt, autoport_exempt=autoport_exempt)
    return shown(decide(text, settings, uid, list(groups), {6: b"tcp", 17: b"udp"}.get(protocol, BAD), port_of(port)))


# Answers

def refusal(answer):
    return b"refused %d section %d line %d" % answer


def shown(answer):
    return refusal(answer) if ref.refused(answer) else answer if isinstance(answer, bytes) else answer.encode()


def rule(file, line):
    return b", no file" if file == 0 else b", %s line %d" % ([b"allow", b"deny"][file - 1], line)


def ruling(answer):
    if ref.refused(answer):
        return refusal(answer)
    word, file, line, _, command, looked = answer
    return word.encode() + rule(file, line) + b", looked at %d" % looked + (b", command:" + command if command else b"")


def matter(answer):
    if ref.refused(answer) or isinstance(answer, str):
        return shown(answer)
    word, file, line = answer
    return word.encode() + rule(file, line)


def read_address(text):
    read = ref.read_address(text)
    return text + b" -> " + (refusal(read) if ref.refused(read) else ref.write_address(read, 39))


def unpack(sheet):
    parts = ref.unpack(sheet)
    if ref.refused(parts):
        return refusal(parts)
    return b"\n".join(b"%s at %d, %d bytes" % (name, *part) for name, part in zip((b"allow", b"deny", b"byuid", b"portacl", b"tables"), parts))


def packed(answer, sheet):
    if ref.refused(answer):
        return refusal(answer)
    return b"%d bytes, %s" % (len(answer), b"the same" if answer.startswith(sheet) else b"others")


def pack(room, *texts):
    *texts, sheet = texts
    return packed(ref.pack(texts, min(room, BLOCK)), sheet)


def upgrade(room, old, sheet):
    return packed(ref.upgrade(old, min(room, BLOCK)), sheet)


def expand(*fields):
    *of, process, room, command = fields
    return shown(ref.expand(command, request(*of), process, min(room, BLOCK)))


def authbind(room, port, at, uid, answers):
    kinds = {0: "absent", 1: "allowed", 2: "other"}
    answer = ref.authbind(port_of(port), address(at), uid, [kinds.get(byte, BAD) for byte in answers], min(room, BLOCK))
    return refusal(answer) if ref.refused(answer) else b" ".join([answer[0].encode()] + [answer[1]] * bool(answer[1]))


def carry(room, other, uid, text, plain, marked):
    answer = ref.carry(text, uid, min(room, BLOCK), min(other, BLOCK))
    return refusal(answer) if ref.refused(answer) else packed(answer[0], plain) + b"\n" + packed(answer[1], marked)


def salvage(room, other, sheet, new, changes):
    answer = ref.salvage(sheet, min(room, BLOCK), min(other, BLOCK))
    return refusal(answer) if ref.refused(answer) else packed(answer[0], new) + b"\n" + packed(answer[1], changes)


def propose(room, section, text, tables, proposal):
    return packed(ref.propose(section, text, tables, min(room, BLOCK)), proposal)


def drop(room, section, text, tables, proposal, new):
    return packed(ref.drop(section, text, tables, proposal, min(room, BLOCK)), new)


def index(room, sheet, expected):
    return packed(ref.index(sheet, min(room, BLOCK)), expected)


def verdicts(room, sheet, given, requests, answers):
    return packed(ref.verdicts(sheet, given, requests, min(room, BLOCK)), answers)


# Each call with the kinds of its fields: t a text, n a number, N any number of numbers.
CALLS = {
    b"verdict": ("tttttttt", lambda *f: ruling(ref.verdict(*f[6:], request(*f[:6])))),
    b"tables_verdict": ("ttttttttt", lambda *f: ruling(ref.verdict(*f[6:8], request(*f[:6]), f[8]))),
    b"name_matters": ("tttttttt", lambda *f: matter(ref.name_matters(*f[6:], request(*f[:6])))),
    b"tables_name_matters": ("ttttttttt", lambda *f: matter(ref.name_matters(*f[6:8], request(*f[:6]), f[8]))),
    b"sheet_name_matters": ("ttttttt", lambda *f: matter(ref.sheet_name_matters(f[6], request(*f[:6])))),
    b"byuid": ("ntnnt", byuid),
    b"portacl": ("nnnnnnntN", lambda *f: portacl(ref.portacl, *f)),
    b"sheet_verdict": ("ttttttt", lambda *f: ruling(ref.sheet_verdict(f[6], request(*f[:6])))),
    b"sheet_byuid": ("ntnt", sheet_byuid),
    b"sheet_portacl": ("nnnnnnntN", lambda *f: portacl(ref.sheet_portacl, *f)),
    b"check": ("t", lambda sheet: shown(ref.check(sheet))),
    b"unpack": ("t", unpack),
    b"pack": ("ntttttt", pack),
    b"upgrade": ("ntt", upgrade),
    b"convert": ("nt", lambda room, text: shown(ref.convert(text, min(room, BLOCK)))),
    b"expand": ("ttttttnnt", expand),
    b"authbind": ("nntnt", authbind),
    b"carry": ("nnnttt", carry),
    b"salvage": ("nnttt", salvage),
    b"propose": ("nnttt", propose),
    b"drop": ("nntttt", drop),
    b"index": ("ntt", index),
    b"verdicts": ("ntttt", verdicts),
    b"read_address": ("t", read_address),
    b"write_address": ("nt", lambda room, text: shown(ref.write_address(address(text), min(room, BLOCK)))),
}


def answer(line, kept):
    """the lines that a case writes"""
    try:
        name, *fields = fields_of(line, kept)
        kinds, call = CALLS.get(name) or ("", None)
        least = kinds.rstrip("N")
        if not call or len(fields) < len(least) or len(fields) > len(least) and kinds == least:
            raise Malformed
        kinds = least.ljust(len(fields), "n")
        return call(*(number(f, 2 ** 32 - 1) if kind == "n" else f for kind, f in zip(kinds, fields)))
    except Malformed:
        return b"malformed: " + line


def kept_text(line):
    """the text that a line beginning with @ keeps; none where it is malformed"""
    try:
        return fields_of(line, b"")[1]
    except (Malformed, IndexError):
        return b""


def main():
    out, kept, cases = [], b"", 0
    for line in (crate / "stdin").read_bytes().split(b"\n"):
        if line.startswith(b"@"):
            kept = kept_text(line)
        elif line.startswith(b"-"):
            out.append(line)
        elif line and not line.startswith(b"#"):
            out.append(answer(line, kept))
            cases += 1
    text = b"".join(line + b"\n" for line in out)
    if "--check" not in sys.argv:
        (crate / "stdout").write_bytes(text)
    elif (crate / "stdout").read_bytes() != text:
        print("vectors: crates/vectors/stdout is not what the reference writes")
        return 1
    print(f"vectors: {cases} cases")
    return 0


sys.exit(main())
