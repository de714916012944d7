"""Document 01, and the requests of document 02 that are met, once more in Python, written from the papers alone: what the exported
functions are compared with.

It shares nothing with the definitions in crates/*/specs and favours the plainest way to say a thing.
Hosts are pairs (name, address): name is None (unknown), False (paranoid) or bytes; address is None, ("4", n) or ("6", n).
Users are "not fetched", None (unknown) or bytes. BAD in the place of a state, an address, a port or a protocol stands for what is
outside its kinds. Refusals are tuples (number, section, line). The tables of request 1 are a list of pairs (name, text).
"""
import functools
import ipaddress
import re

LIMITS = {1: 16384, 2: 16384, 3: 8192, 4: 4096}
TABLES, TABLES_LIMIT, TABLES_COUNT, TABLES_DEEP = 5, 12288, 64, 4
NO_TABLES = b"\0\0"
BLANKS = b" \t"
NAME = re.compile(rb"[A-Za-z0-9_.-]+\Z")
OUTSIDE = re.compile(rb"[^\t -~]")
FIELD = rb"(?:0|[1-9][0-9]{0,9})"
BAD = "bad"

# the same answer once more for the same bytes
again = functools.lru_cache(maxsize=4096)


def lower(text):
    return text.lower()  # of bytes: ASCII letters alone


def same(a, b):
    return lower(a) == lower(b)


def decimal(text, most):
    if not re.fullmatch(FIELD, text) or int(text) > most:
        return None
    return int(text)


# Addresses

def read4(text):
    fields = [decimal(f, 255) for f in text.split(b".")]
    if len(fields) != 4 or None in fields:
        return None
    return int.from_bytes(bytes(fields), "big")


@again
def read6(text):
    """As inet_pton: by Python's own reader, after ruling out what it takes besides (zones) or takes otherwise."""
    if not re.fullmatch(rb"[0-9A-Fa-f:.]*", text):
        return None
    if b"." in text:
        tail = text[text.rindex(b":") + 1:] if b":" in text else b"x"
        if read4(tail) is None:
            return None
    try:
        return int(ipaddress.IPv6Address(text.decode()))
    except ValueError:
        return None


def read_address(text):
    if read4(text) is not None:
        return ("4", read4(text))
    if read6(text) is not None:
        return ("6", read6(text))
    return (13, 0, 0)


@again
def address_text(address):
    if address is None:
        return b"unknown"
    kind, n = address
    if kind == "4":
        return str(ipaddress.IPv4Address(n)).encode()
    groups = [(n >> (16 * i)) & 0xffff for i in range(7, -1, -1)]
    best, length = 0, 0
    for i in range(8):
        run = 0
        while i + run < 8 and groups[i + run] == 0:
            run += 1
        if run > length:
            best, length = i, run
    text = [b"%x" % g for g in groups]
    if length < 2:
        return b":".join(text)
    return b":".join(text[:best]) + b"::" + b":".join(text[best + length:])


def same_bits(width, length, a, b):
    """the first bits of two numbers of so many bits, compared one by one (document 02, request 5)"""
    return all(a >> place & 1 == b >> place & 1 for place in range(width - 1, width - 1 - length, -1))


def within(room, text):
    return (14, 0, 0) if len(text) > room else text


def write_address(address, room):
    """a refusal, or the bytes written"""
    return (13, 0, 0) if address == BAD else within(room, address_text(address))


# Lines

class Line:
    def __init__(self, number, place, raw, ended):
        self.number, self.place, self.raw, self.ended = number, place, raw, ended
        self.text = raw.replace(b"\\\n", b"")
        self.is_rule = not self.text.startswith(b"#") and self.text.strip(BLANKS) != b""  # neither a comment nor blank


@again
def lines(text):
    out, start, first, number = [], 0, 1, 1
    for end in re.finditer(rb"\\?\n", text):
        number += 1
        if end[0] == b"\n":
            out.append(Line(first, start, text[start:end.start()], True))
            start, first = end.end(), number
    if start < len(text):
        out.append(Line(first, start, text[start:], False))
    return out


def separators(raw):
    found, inside = [], False
    for i, b in enumerate(raw):
        if inside:
            inside = b != 93
        elif b == 91:
            inside = True
        elif b == 58 and len(found) < 2:
            found.append(i)
    return found


def words(part):
    return tuple(w for w in re.split(rb"[ \t,]", part.replace(b"\\\n", b"")) if w)


@again
def rule(raw):
    """daemons, clients, raw command (None where there is no second separator)"""
    at = separators(raw)
    if not at:
        return None
    daemons = words(raw[:at[0]])
    if len(at) == 1:
        return daemons, words(raw[at[0] + 1:]), None
    return daemons, words(raw[at[0] + 1:at[1]]), raw[at[1] + 1:]


def trimmed(raw):
    return raw.replace(b"\\\n", b"").strip(BLANKS)


def bad_percent(command):
    i = 0
    while i < len(command):
        if command[i:i + 1] == b"%":
            if command[i + 1:i + 2] not in [bytes([c]) for c in b"aAnNhHucdsp%"]:
                return True
            i += 2
        else:
            i += 1
    return False


# Elements

WILD = [b"ALL", b"LOCAL", b"KNOWN", b"UNKNOWN", b"PARANOID"]


def is_word(text, word):
    return same(text, word)


@again
def pattern(e):
    """what it matches: a function of a host, or None"""
    for w in WILD:
        if same(e, w):
            return {
                b"ALL": lambda h: True,
                b"LOCAL": lambda h: isinstance(h[0], bytes) and b"." not in h[0],
                b"KNOWN": lambda h: isinstance(h[0], bytes) and h[1] is not None,
                b"UNKNOWN": lambda h: h[0] is None or h[1] is None,
                b"PARANOID": lambda h: h[0] is False,
            }[w]
    if e.startswith(b"."):
        if not NAME.match(e) or not 2 <= len(e) <= 255:
            return None
        return lambda h: isinstance(h[0], bytes) and len(h[0]) > len(e) and lower(h[0]).endswith(lower(e))
    if e.startswith(b"["):
        if b"]" not in e:
            return None
        inner, rest = e[1:].split(b"]", 1)
        net = read6(inner)
        if rest == b"":
            bits = 128
        elif rest.startswith(b"/"):
            bits = decimal(rest[1:], 128)
        else:
            bits = None
        if net is None or bits is None:
            return None
        return lambda h: h[1] is not None and h[1][0] == "6" and same_bits(128, bits, h[1][1], net)
    if e and all(b in b"0123456789./" for b in e):
        test = None
        if read4(e) is not None:
            n = read4(e)
            test = lambda a: a == n
        elif b"/" in e:
            left, right = e.split(b"/", 1)
            net, mask, ones = read4(left), read4(right), decimal(right, 32)
            if mask is None and ones is not None:  # document 02, request 2
                mask = int("1" * ones + "0" * (32 - ones), 2)
            if net is not None and mask is not None:
                test = lambda a: a & mask == net
        elif e.endswith(b"."):
            fields = [decimal(f, 255) for f in e[:-1].split(b".")]
            if len(fields) <= 3 and None not in fields:
                test = lambda a: list(a.to_bytes(4, "big"))[:len(fields)] == fields
        if test is None:
            return None
        return lambda h: h[1] is not None and h[1][0] == "4" and test(h[1][1])
    if not NAME.match(e) or len(e) > 255 or e.endswith(b"."):
        return None
    return lambda h: isinstance(h[0], bytes) and same(h[0], e)


def halves(e):
    at = e.find(b"@", 1)
    return (e, None) if at < 0 else (e[:at], e[at + 1:])


def nine(e, in_daemons):
    """netgroups, and in daemons a / at the start (document 02, request 1)"""
    first, second = halves(e)
    return e[:1] == b"@" or in_daemons and e[:1] == b"/" or second is not None and second[:1] == b"@"


def plain(t):
    return bool(NAME.match(t)) and len(t) <= 64 and not any(same(t, w) for w in WILD)


def is_table_name(name):
    return bool(NAME.match(name)) and len(name) <= 64


def table_named(e):
    """the name in /name, None where e is of another form"""
    return e[1:] if e.startswith(b"/") and is_table_name(e[1:]) else None


@again
def host_pattern(e):
    """what it matches, /name first of the kinds: a function of the request's tables and of a host, or None"""
    if e.startswith(b"/"):
        name = table_named(e)
        return None if name is None else (lambda tables, h: tables.matches(name, h))
    match = pattern(e)
    return None if match is None else (lambda tables, h: match(h))


@again
def daemon_element(e):
    name, host = halves(e)
    if not (same(name, b"ALL") or plain(name)):
        return None
    of_host = (lambda tables, h: True) if host is None else host_pattern(host)
    if of_host is None:
        return None
    return lambda tables, r: (same(name, b"ALL") or same(name, r["daemon"])) and of_host(tables, r["server"])


@again
def client_element(e):
    user, host = halves(e)
    if host is None:
        match = host_pattern(e)
        return None if match is None else (lambda tables, r: match(tables, r["client"]))
    match = host_pattern(host)
    if match is None or not (any(same(user, w) for w in (b"ALL", b"KNOWN", b"UNKNOWN")) or plain(user)):
        return None

    def look(tables, r):
        if not match(tables, r["client"]):
            return False
        u = r["user"]
        if u == "not fetched":
            return "ask"
        if same(user, b"ALL"):
            return True
        if same(user, b"KNOWN"):
            return u is not None
        if same(user, b"UNKNOWN"):
            return u is None
        return u is not None and same(u, user)
    return look


# Tables (document 02, request 1)

@again
def read_tables(text):
    """None where section five is cut short; else the tables, and the bytes after the last"""
    if len(text) < 2:
        return None
    tables, at = [], 2
    for _ in range(int.from_bytes(text[:2], "big")):
        pair = []
        for width in (1, 4):
            begin = at + width
            end = begin + int.from_bytes(text[at:begin], "big")
            if len(text) < begin or len(text) < end:
                return None
            pair.append(text[begin:end])
            at = end
        tables.append(tuple(pair))
    return tables, text[at:]


def section_five(tables):
    """its bytes"""
    return len(tables).to_bytes(2, "big") + b"".join(bytes([len(n)]) + n + len(t).to_bytes(4, "big") + t for n, t in tables)


@again
def table_words(text):
    return [w for w in re.split(rb"[ \t\n]", text) if w]


def bad_word(w):
    """in a table: no EXCEPT, no users"""
    return same(w, b"EXCEPT") or host_pattern(w) is None


class Tables:
    """What the tables of a section five answer: each question about a table, a depth and a host once."""

    def __init__(self, tables):
        self.named = {}
        for name, text in tables:
            self.named.setdefault(lower(name), table_words(text))
        self.known, self.deep, self.names, self.counts = {}, {}, {}, {}

    def has(self, name):
        return lower(name) in self.named

    def names_in(self, name):
        """the names of the tables that a table names"""
        if name not in self.names:
            self.names[name] = {lower(table_named(w)) for w in self.named.get(name, []) if table_named(w) is not None}
        return self.names[name]

    def leads_past(self, name, depth=TABLES_DEEP):
        """whether a table leads more than so deep, itself being the first; one that is missing leads nowhere"""
        if depth == 0:
            return True
        key = lower(name), depth
        if key not in self.deep:
            self.deep[key] = any(self.leads_past(other, depth - 1) for other in self.names_in(key[0]))
        return self.deep[key]

    def matches(self, name, host, depth=TABLES_DEEP):
        """any pattern of that table, and of those that it names, with the remaining depth falling"""
        key = lower(name), host, depth
        if key not in self.known:
            self.known[key] = depth > 0 and any(self.word_matches(w, host, depth - 1) for w in self.named.get(key[0], []))
        return self.known[key]

    def word_matches(self, w, host, depth):
        if table_named(w) is not None:
            return self.matches(table_named(w), host, depth)
        match = host_pattern(w)
        return match is not None and match(self, host)

    def tried(self, name, host, depth=TABLES_DEEP):
        """how many patterns are tried in that table, in order until one matches (document 02, request 12); what is tried in a table that
        one of them names counts besides"""
        key = lower(name), host, depth
        if key not in self.counts:
            count = 0
            for w in self.named.get(key[0], []) if depth > 0 else []:
                count += 1 + (0 if table_named(w) is None else self.tried(table_named(w), host, depth - 1))
                if self.word_matches(w, host, depth - 1):
                    break
            self.counts[key] = count
        return self.counts[key]


@again
def tables_of(five):
    """those of a section five that is soundly framed, none where it is None"""
    return Tables([] if five is None else read_tables(five)[0])


@again
def table_in(e):
    """the name of a table that an element names, behind an @ or not"""
    first, second = halves(e)
    return table_named(first if second is None else second)


def looked_at(tables, e, host):
    """what an element counts (document 02, request 12): itself, and what is tried in the table that it names"""
    name = table_in(e)
    return 1 if name is None else 1 + tables.tried(name, host)


def named_in_rule(line):
    """the names of tables in the elements of both lists"""
    return named_in(line.raw) if line.is_rule else []


@again
def named_in(raw):
    daemons, clients, _ = rule(raw)
    found = []
    for ws, in_daemons in ((daemons, True), (clients, False)):
        for w in ws:
            first, second = halves(w)
            name = table_named(second) if second is not None else None if in_daemons else table_named(first)
            if name is not None:
                found.append(name)
    return found


def rule_fault(number, files, wrong):
    """of two files without a fault of their own: the first rule that names a table that is wrong"""
    for section, text in files:
        for line in lines(text):
            if any(wrong(name) for name in named_in_rule(line)):
                return (number, section, line.number)
    return None


def misnamed_table(pairs, tables):
    """15 in section five: a name given twice, at the later's place, or a name in a table that is missing"""
    seen = set()
    for number, (name, text) in enumerate(pairs, 1):
        missing = any(table_named(w) is not None and not tables.has(table_named(w)) for w in table_words(text))
        if lower(name) in seen or missing:
            return (15, TABLES, number)
        seen.add(lower(name))
    return None


def bad_table(five, pairs):
    """17"""
    if len(pairs) > TABLES_COUNT or len(five) > TABLES_LIMIT:
        return (17, TABLES, 0)
    for number, (name, text) in enumerate(pairs, 1):
        if not is_table_name(name) or any(bad_word(w) for w in table_words(text)):
            return (17, TABLES, number)
    return None


def frame_five(five):
    """1, then 3"""
    read = read_tables(five)
    return (1, TABLES, 0) if read is None else (3, 0, 0) if read[1] else None


@again
def naming_fault(allow, deny, five):
    """15, 16 and 17, in that order; five is None in a call without tables, and else soundly framed"""
    pairs = [] if five is None else read_tables(five)[0]
    tables, files = tables_of(five), ((1, allow), (2, deny))
    return (rule_fault(15, files, lambda name: not tables.has(name)) or misnamed_table(pairs, tables)
            or rule_fault(16, files, tables.leads_past) or (None if five is None else bad_table(five, pairs)))


# Checks

def misplaced(ws):
    except_at = [same(w, b"EXCEPT") for w in ws]
    return any(x and (i == 0 or i == len(ws) - 1 or except_at[i - 1] or except_at[i + 1]) for i, x in enumerate(except_at))


def line_faults(line):
    """every number that the line is given"""
    found = set() if line.ended else {4}
    if not line.text.startswith(b"#") and OUTSIDE.search(line.text):
        found.add(5)
    if len(line.text) > 2047:
        found.add(6)
    return found | rule_faults(line.raw) if line.is_rule else found


@again
def rule_faults(raw):
    """those of the numbers 7 to 11"""
    found, parts = set(), rule(raw)
    if parts is None:
        return {7}
    daemons, clients, command = parts
    for ws, kind, in_daemons in ((daemons, daemon_element, True), (clients, client_element, False)):
        if all(same(w, b"EXCEPT") for w in ws):
            found.add(7)
        if misplaced(ws):
            found.add(8)
        for w in ws:
            if same(w, b"EXCEPT"):
                continue
            if nine(w, in_daemons):
                found.add(9)
            elif kind(w) is None:
                found.add(10)
    if bad_percent(trimmed(command or b"")):
        found.add(11)
    return found


@again
def hosts_fault(section, text):
    for line in lines(text):
        found = line_faults(line)
        if found:
            return (min(found), section, line.number)
    return None


def over(section, text):
    return (2, section, 0) if len(text) > LIMITS[section] else None


def request_fault(r):
    bad = not 1 <= len(r["daemon"]) <= 64 or r["user"] == BAD
    for name, address in (r["client"], r["server"]):
        bad = bad or name == BAD or address == BAD or isinstance(name, bytes) and not 1 <= len(name) <= 255
    bad = bad or isinstance(r["user"], bytes) and not 1 <= len(r["user"]) <= 64
    return (13, 0, 0) if bad else None


def held(r):
    """the request with client and server addresses as IPv4 where 80 zero bits and 16 ones come first (document 02, request 7)"""
    def as_ipv4(host):
        name, address = host
        if address in (None, BAD) or address[0] == "4":
            return host
        bits = f"{address[1]:0128b}"
        return (name, ("4", int(bits[96:], 2))) if bits[:96] == "0" * 80 + "1" * 16 else host

    return dict(r, client=as_ipv4(r["client"]), server=as_ipv4(r["server"]))


# The verdict

class Asks(Exception):
    pass


@again
def at_except(ws):
    """a list before its first EXCEPT, and what follows that, None where it has none"""
    cut = next((i for i, w in enumerate(ws) if same(w, b"EXCEPT")), None)
    return (ws, None) if cut is None else (ws[:cut], ws[cut + 1:])


def list_matches(ws, look):
    """What follows EXCEPT is itself a list."""
    left, right = at_except(ws)
    for w in left:
        found = look(w)
        if found == "ask":
            raise Asks
        if found:
            return right is None or not list_matches(right, look)
    return False


def verdict(allow, deny, r, five=None):
    """a refusal, or (word, file, line, place of the raw command in that file, its bytes, elements looked at); no place where there are
    none. five: the bytes of section five, None in a call without tables"""
    r = held(r)
    fault = (over(1, allow) or over(2, deny) or (None if five is None else frame_five(five)) or hosts_fault(1, allow)
             or hosts_fault(2, deny) or naming_fault(allow, deny, five) or request_fault(r))
    return fault or search(allow, deny, r, tables_of(five))


def search(allow, deny, r, tables):
    """the same of texts without a fault and a sound request as it is held"""
    looked = 0

    def look(element, end):
        """at one element of a list, whose hosts are those of that end"""
        def at(w):
            nonlocal looked
            looked += looked_at(tables, w, r[end])
            return element(w)(tables, r)
        return at

    for number, text, word in ((1, allow, "granted"), (2, deny, "denied")):
        for line in lines(text):
            if not line.is_rule:
                continue
            daemons, clients, command = rule(line.raw)
            try:
                if not list_matches(daemons, look(daemon_element, "server")):
                    continue
                if not list_matches(clients, look(client_element, "client")):
                    continue
            except Asks:
                return ("ask", number, line.number, None, b"", looked)
            if not trimmed(command or b""):
                return (word, number, line.number, None, b"", looked)
            return (word, number, line.number, line.place + len(line.raw) - len(command), command, looked)
    return ("granted", 0, 0, None, b"", looked)


# Does the name matter? (document 02, request 14)

@again
def users_named(text):
    """every half before an @ in a file, in whatever place and of whatever bytes, that has the size of a name"""
    return {half for w in re.split(rb"[ \t,:\n]", text.replace(b"\\\n", b"")) for half in halves(w)[:1] if b"@" in w[1:] and 1 <= len(half) <= 64}


def unnamed(named):
    """a name that equals none of them: a number, in digits"""
    return next(b"%d" % n for n in range(len(named) + 1) if b"%d" % n not in named)


def name_matters(allow, deny, r, five=None):
    """a refusal as verdict's, "name matters", or the (word, file, line) that every user gets: unknown, or any name of 1 to 64 bytes. A rule
    looks at a user by whether the name is known and whether it equals a half, so that all that differ are among those tried here"""
    own = verdict(allow, deny, r, five)
    if refused(own):
        return own
    r, tables, named = held(r), tables_of(five), users_named(allow) | users_named(deny)
    places = {search(allow, deny, dict(r, user=user), tables)[:3] for user in named | {None, unnamed(named)}}
    return "name matters" if len(places) > 1 else places.pop()


# Dropping rules that never fire (document 02, request 6)

EVERYONE = ((b"all",), (b"all",))


@again
def rules_in(text):
    """the rules of a file without a fault: each line, and the elements and EXCEPTs of both lists, in order and in lower case"""
    found = []
    for line in lines(text):
        if line.is_rule:
            daemons, clients, _ = rule(line.raw)
            found.append((line, (tuple(map(lower, daemons)), tuple(map(lower, clients)))))
    return found


@again
def file_fault(section, text, five):
    """the file's own checks, with those of the tables; a section that is neither is 13 at once"""
    if section not in (1, 2):
        return (13, 0, 0)
    files = (text, b"") if section == 1 else (b"", text)
    return over(section, text) or frame_five(five) or hosts_fault(section, text) or naming_fault(*files, five)


def accepted(text, named):
    """each named line is a rule, and an earlier kept rule has the same lists or is ALL: ALL"""
    kept, left = set(), set(named)
    for line, lists in rules_in(text):
        if line.number not in left:
            kept.add(lists)
        elif lists not in kept and EVERYONE not in kept:
            return False
        left.discard(line.number)
    return not left


def needless(text):
    """as many lines as can be accepted: whatever is kept can only help those behind it, so each is dropped that can be"""
    kept, found = set(), []
    for line, lists in rules_in(text):
        if lists in kept or EVERYONE in kept:
            found.append(line.number)
        else:
            kept.add(lists)
    return found


def without_lines(text, named):
    """the file with only those lines gone, their dropped pairs and their ending newlines with them"""
    return b"".join(line.raw + b"\n" * line.ended for line in lines(text) if line.number not in named)


def removed_above(text, named, number):
    """how many physical lines go with the named ones above a line"""
    return sum(1 + line.raw.count(b"\n") for line in lines(text) if line.number in named and line.number < number)


def numbers_of(proposal):
    """of four bytes each, most significant first; None where it can't be parted so"""
    if len(proposal) % 4:
        return None
    return [int.from_bytes(proposal[at:at + 4], "big") for at in range(0, len(proposal), 4)]


def proposal_of(numbers):
    return b"".join(n.to_bytes(4, "big") for n in numbers)


def propose(section, text, five, room):
    """a refusal, or the proposal's bytes"""
    return file_fault(section, text, five) or within(room, proposal_of(needless(text)))


def drop(section, text, five, proposal, room):
    """a refusal, or the bytes of the new file"""
    fault, named = file_fault(section, text, five), numbers_of(proposal)
    if not fault and (named is None or not accepted(text, named)):
        fault = (20, 0, 0)
    return fault or within(room, without_lines(text, set(named)))


# Ports

def net(text, kind, read, width):
    """(kind, low, high) of addr/len without a set bit beyond len, or None"""
    address, slash, length = text.partition(b"/")
    n, m = read(address), decimal(length, width)
    if not slash or n is None or m is None or n & ((1 << (width - m)) - 1):
        return None
    return kind, n, n | ((1 << (width - m)) - 1)


# The old form of byuid lines, retired (document 02, request 11)

@again
def retired(line):
    """of "a line that this form used to accept", addr4/len:pmin,pmax: as byuid_line; else None"""
    form = re.fullmatch(rb"([0-9./]*):([0-9]*),([0-9]*)", line)
    if not form:
        return None
    span, low, high = net(form[1], "4", read4, 32), decimal(form[2], 65535), decimal(form[3], 65535)
    if span is None or low is None or high is None or low > high:
        return None
    return span + (low, high)


def byuid_fault(text):
    """22 with section 3 and the first such line"""
    for number, line in enumerate(text.split(b"\n"), 1):
        if retired(line):
            return (22, 3, number)
    return None


def convert(text, room):
    """a refusal, or the text with just those lines as addr4/len,pmin-pmax"""
    return over(3, text) or within(room, b"\n".join(line.replace(b",", b"-").replace(b":", b",") if retired(line) else line for line in text.split(b"\n")))


@again
def byuid_line(line):
    """(kind, low, high, port low, port high) or None"""
    def ports(text):
        ends = text.split(b"-")
        values = [decimal(p, 65535) for p in ends]
        if len(ends) > 2 or None in values:
            return None
        return values[0], values[-1]

    for kind, read, width in (("4", read4, 32), ("6", read6, 128)):
        head, comma, tail = line.partition(b",")
        if comma and ports(tail):
            ends = [read(x) for x in head.split(b"-")]
            if len(ends) <= 2 and None not in ends:
                return (kind, ends[0], ends[-1]) + ports(tail)
            if net(head, kind, read, width):
                return net(head, kind, read, width) + ports(tail)
    return None


SPANS = {"plain": range(1, 512), "marked": range(512, 1024)}


def byuid(text, mark, port, address, uid):
    """mark: the file that the text comes from, "plain" or "marked" """
    return over(3, text) or byuid_fault(text) or by_lines(text, byuid_line, mark, port, address, uid)


def byuid_before(text, mark, port, address, uid):
    """what the decision was before request 11: both forms grant, and no line is refused"""
    return over(3, text) or by_lines(text, lambda line: byuid_line(line) or retired(line), mark, port, address, uid)


def by_lines(text, read, mark, port, address, uid):
    if address is None or BAD in (address, mark, port):
        return (13, 0, 0)
    if not 1 <= port <= 1023 or uid == 0:
        return "not ruled"
    if port not in SPANS[mark]:
        return "no line"
    for line in text.split(b"\n"):
        form = read(line)
        if form and form[0] == address[0] and form[1] <= address[1] <= form[2] and form[3] <= port <= form[4]:
            return "granted"
    return "no line"


# The whole authbind order (document 02, request 4)

def left_out(address):
    """"80 zero bits and then 16 ones", or "96 zero bits and a seventh group not zero" """
    kind, n = address
    bits = format(n, "0128b")
    return kind == "6" and (bits[:96] == "0" * 80 + "1" * 16 or bits[:96] == "0" * 96 and bits[96:112] != "0" * 16)


def names(port, address, uid):
    """the names of the tests in their order, and the one of the byuid file"""
    mark = b"!" if 512 <= port <= 1023 else b""

    def name(folder, leaf):
        return b"/etc/authbind/" + folder + b"/" + mark + leaf

    text = address_text(address)
    tests = [name(b"byport", b"%d" % port), name(b"byaddr", text + b",%d" % port)]
    if address[0] == "4":
        tests.append(name(b"byaddr", text + b":%d" % port))
    else:
        whole = b":".join(b"%x" % (address[1] >> 16 * i & 0xffff) for i in range(7, -1, -1))
        if whole != text:
            tests.append(name(b"byaddr", whole + b",%d" % port))
    return tests, name(b"byuid", b"%d" % uid)


def authbind(port, address, uid, answers, room):
    """a refusal, or the word and the name written; answers: "absent", "allowed", "other" or BAD"""
    if address is None or BAD in (address, port) or BAD in answers:
        return (13, 0, 0)
    if not 1 <= port <= 1023 or uid == 0:
        return ("not ruled", b"")
    if left_out(address):
        return (18, 0, 0)
    tests, read = names(port, address, uid)
    for i, answer in enumerate(answers):
        settles = answer != "absent"
        if i == len(tests) or settles and i + 1 < len(answers):
            return (19, 0, 0)
        if settles:
            return ("granted" if answer == "allowed" else "denied", b"")
    word, name = ("test", tests[len(answers)]) if len(answers) < len(tests) else ("read", read)
    return (14, 0, 0) if len(name) > room else (word, name)


@again
def entry(text):
    form = re.fullmatch(rb"(uid|gid):(%s):(tcp|udp):(%s)" % (FIELD, FIELD), text)
    if not form or int(form.group(2)) > 2 ** 32 - 1 or int(form.group(4)) > 65535:
        return None
    return form.group(1), int(form.group(2)), form.group(3), int(form.group(4))


def entries_of(text):
    return [entry(e) for e in text.split(b",")] if text else []


def portacl_fault(text):
    entries = entries_of(text)
    return (12, 4, entries.index(None) + 1) if None in entries else None


def portacl(text, settings, uid, groups, protocol, port):
    if over(4, text) or portacl_fault(text):
        return over(4, text) or portacl_fault(text)
    if len(groups) > 16 or protocol == BAD or port == BAD:
        return (13, 0, 0)
    if settings["enabled"] == 0:
        return "not ruled"
    if settings["autoport_exempt"] and port == 0:
        return "exempt"
    if port > settings["port_high"]:
        return "not ruled"
    if settings["suser_exempt"] and uid == 0:
        return "exempt"
    for idtype, ident, of, at in entries_of(text):
        if of == protocol and at == port and (ident == uid if idtype == b"uid" else ident in groups):
            return "granted"
    return "denied"


# Port lists for the other system (document 02, request 13)

def carry(text, uid, room, other):
    """the plain and the marked text"""
    if over(4, text) or portacl_fault(text):
        return over(4, text) or portacl_fault(text)
    if uid == 0:
        return (13, 0, 0)
    tcp, udp = ({port for idtype, ident, of, port in entries_of(text) if idtype == b"uid" and ident == uid and of == wanted} for wanted in (b"tcp", b"udp"))
    plain, marked = (b"".join(b"0.0.0.0/0,%d\n::/0,%d\n" % (port, port) for port in SPANS[mark] if port in tcp & udp) for mark in ("plain", "marked"))
    return (14, 0, 0) if len(plain) > room or len(marked) > other else [plain, marked]


# Expansion

HOUSE = frozenset(b"ABCDEFGHIJKLMNOPQRSTUVWXYZabcdefghijklmnopqrstuvwxyz0123456789@%-_=+:,./")


def inserted(letter, r, process):
    def name(host):
        return b"unknown" if host[0] is None else b"paranoid" if host[0] is False else host[0]

    def name_or_address(host):
        return host[0] if isinstance(host[0], bytes) else address_text(host[1])

    client, server, daemon = r["client"], r["server"], r["daemon"]
    user = r["user"] if isinstance(r["user"], bytes) else None
    unknown_server = not isinstance(server[0], bytes) and server[1] is None
    return {
        "a": address_text(client[1]),
        "A": address_text(server[1]),
        "n": name(client),
        "N": name(server),
        "h": name_or_address(client),
        "H": name_or_address(server),
        "u": b"unknown" if user is None else user,
        "c": name_or_address(client) if user is None else user + b"@" + name_or_address(client),
        "d": daemon,
        "s": daemon if unknown_server else daemon + b"@" + name_or_address(server),
        "p": b"%d" % process,
        "%": b"%",
    }[letter]


def expand(command, r, process, room):
    """a refusal, or the bytes written"""
    r = held(r)
    joined = command.replace(b"\\\n", b"")
    if OUTSIDE.search(joined):
        return (5, 0, 0)
    if len(joined) > 2047:
        return (6, 0, 0)
    if bad_percent(trimmed(command)):
        return (11, 0, 0)
    if request_fault(r):
        return request_fault(r)

    def piece(match):
        return bytes(b if b in HOUSE else 95 for b in inserted(chr(match.group(1)[0]), r, process))

    return within(room, re.sub(rb"%(.)", piece, trimmed(command), flags=re.S))


# The verdict and its command in one call

def refused(answer):
    return isinstance(answer, tuple) and isinstance(answer[0], int)


def with_command(answer, r, process, room):
    """of a verdict: a refusal, or the verdict with the bytes that are written for the command behind it"""
    if refused(answer):
        return answer
    text = expand(answer[4], r, process, room)
    return text if refused(text) else answer + (text,)


# The station sheet

def texts_fault(texts):
    """of five texts, the fifth without a count of its own; its frame comes behind the limits of the others"""
    fault = None
    for section, text in enumerate(texts[:4], 1):
        fault = fault or over(section, text)
    return (fault or frame_five(texts[4]) or hosts_fault(1, texts[0]) or hosts_fault(2, texts[1]) or portacl_fault(texts[3])
            or naming_fault(texts[0], texts[1], texts[4]) or byuid_fault(texts[2]))


def counted_sections(sheet):
    """a refusal, or the (place, length) of each of the four texts behind their counts, and where they end"""
    at, parts = 0, []
    for section in LIMITS:
        if len(sheet) < at + 4:
            return (1, section, 0)
        count = int.from_bytes(sheet[at:at + 4], "big")
        if count > LIMITS[section]:
            return (2, section, 0)
        if len(sheet) < at + 4 + count:
            return (1, section, 0)
        parts.append((at + 4, count))
        at += 4 + count
    return parts, at


@again
def unpack(sheet):
    """a refusal, or the (place, length) of each of the five texts"""
    framed = counted_sections(sheet)
    if refused(framed):
        return framed
    parts, at = framed
    parts = parts + [(at, len(sheet) - at)]
    return texts_fault([sheet[place:place + n] for place, n in parts]) or parts


def sheet_of(texts):
    return b"".join(len(t).to_bytes(4, "big") + t for t in texts[:4]) + texts[4]


def pack(texts, room):
    """a refusal, or the bytes written"""
    return texts_fault(texts) or within(room, sheet_of(texts))


def upgrade(sheet, room):
    """of document 01's sheets of four sections, soundly framed: a refusal, or the bytes written"""
    framed = counted_sections(sheet)
    if refused(framed):
        return framed
    return (3, 0, 0) if framed[1] < len(sheet) else within(room, sheet + NO_TABLES)


# Salvage (document 02, request 9)

def is_bad_line(line, tables):
    """one that is refused: by a fault of its own, or, a rule that has none, by 15 or 16"""
    return bool(line_faults(line)) or any(not tables.has(name) or tables.leads_past(name) for name in named_in_rule(line))


def salvaged_hosts(text, instead, tables):
    """the new text, and the numbers of the bad lines"""
    new, bad = [], []
    for line in lines(text):
        if is_bad_line(line, tables):
            bad.append(line.number)
            new.append(instead)
        else:
            new.append(line.raw)
    return b"".join(raw + b"\n" for raw in new), bad


@again
def salvaged(sheet):
    """a refusal, or the new sheet and the list of the changes"""
    framed = counted_sections(sheet)
    if refused(framed):
        return framed
    allow, deny, ports, acl = (sheet[place:place + n] for place, n in framed[0])
    five = sheet[framed[1]:]
    if frame_five(five):
        return frame_five(five)
    pairs, tables = read_tables(five)[0], tables_of(five)
    if misnamed_table(pairs, tables) or bad_table(five, pairs):
        return misnamed_table(pairs, tables) or bad_table(five, pairs)
    new_allow, in_allow = salvaged_hosts(allow, b"", tables)
    new_deny, in_deny = salvaged_hosts(deny, b"ALL: ALL", tables)
    in_byuid = [number for number, line in enumerate(ports.split(b"\n"), 1) if retired(line)]
    in_portacl = [number for number, read in enumerate(entries_of(acl), 1) if read is None]
    new_acl = b",".join(e for e in acl.split(b",") if entry(e))
    texts = [new_allow, new_deny, convert(ports, len(ports)), new_acl, five]
    for section in LIMITS:
        if over(section, texts[section - 1]):
            return over(section, texts[section - 1])
    changes = b"".join(section.to_bytes(4, "big") + number.to_bytes(4, "big")
                       for section, numbers in enumerate([in_allow, in_deny, in_byuid, in_portacl], 1) for number in numbers)
    return sheet_of(texts), changes


def salvage(sheet, room, list_room):
    """a refusal, or both as they are written"""
    answer = salvaged(sheet)
    if refused(answer):
        return answer
    new, changes = answer
    return (14, 0, 0) if len(new) > room or len(changes) > list_room else [new, changes]


def check(sheet):
    return unpack(sheet) if refused(unpack(sheet)) else "sheet ok"


def of_sheet(decision, sheet):
    """decision, a function of the parts and the five texts, by a sheet"""
    parts = unpack(sheet)
    return parts if refused(parts) else decision(parts, [sheet[place:place + n] for place, n in parts])


def sheet_verdict(sheet, r):
    """as verdict, the place being one in the sheet"""
    def decision(parts, texts):
        answer = verdict(texts[0], texts[1], r, texts[4])
        if refused(answer) or answer[3] is None:
            return answer
        word, file, line, place, *rest = answer
        return word, file, line, parts[file - 1][0] + place, *rest
    return of_sheet(decision, sheet)


def sheet_name_matters(sheet, r):
    return of_sheet(lambda parts, texts: name_matters(texts[0], texts[1], r, texts[4]), sheet)


def sheet_byuid(sheet, *request):
    return of_sheet(lambda parts, texts: byuid(texts[2], "plain", *request), sheet)


def sheet_portacl(sheet, *request):
    return of_sheet(lambda parts, texts: portacl(texts[3], *request), sheet)


# An index of rules (document 02, request 8; docs/FORMATS.md fixes the bytes)

REQUESTS, ANSWER_BYTES = 32, 36
VERDICT_WORDS = ("granted", "denied", "ask")


def number_bytes(*numbers):
    """four bytes each, most significant first"""
    return b"".join(n.to_bytes(4, "big") for n in numbers)


def rule_numbers(line, base):
    """its first and last physical line, and where it, its daemons and its clients begin and end; base: where its text begins in the sheet"""
    at, begin = separators(line.raw), base + line.place
    clients_end = at[1] if len(at) > 1 else len(line.raw)
    return (line.number, line.number + line.raw.count(b"\n"), begin, begin + len(line.raw), begin, begin + at[0], begin + at[0] + 1, begin + clients_end)


@again
def index_bytes(sheet):
    """of an accepted sheet"""
    counts, entries = [], b""
    for place, n in unpack(sheet)[:2]:
        rules = [line for line, _ in rules_in(sheet[place:place + n])]
        counts.append(len(rules))
        entries += b"".join(number_bytes(*rule_numbers(line, place)) for line in rules)
    return number_bytes(*counts) + entries


def index(sheet, room):
    """a refusal, or the bytes of the index"""
    parts = unpack(sheet)
    return parts if refused(parts) else within(room, index_bytes(sheet))


class CutShort(Exception):
    pass


class Bytes:
    """taken from the front, so many at a time"""

    def __init__(self, text):
        self.text, self.at = text, 0

    def take(self, count):
        if len(self.text) - self.at < count:
            raise CutShort
        self.at += count
        return self.text[self.at - count:self.at]

    def number(self, count=1):
        return int.from_bytes(self.take(count), "big")

    def counted(self):
        return self.take(self.number())


def address_by(kind, high, low):
    if kind == 0:
        return None
    if kind == 4:
        return ("4", low) if low < 1 << 32 else BAD
    return ("6", high << 64 | low) if kind == 6 else BAD


def take_host(front):
    state, address = front.number(), address_by(front.number(), front.number(8), front.number(8))
    name = front.counted()
    return {0: None, 1: False, 2: name}.get(state, BAD), address


def take_request(front):
    daemon, client, server = front.counted(), take_host(front), take_host(front)
    state, name = front.number(), front.counted()
    return dict(daemon=daemon, client=client, server=server, user={0: "not fetched", 1: None, 2: name}.get(state, BAD))


def parted_requests(text):
    """a list, or None where they can't be parted or are more than 32"""
    front, found = Bytes(text), []
    try:
        while front.at < len(text):
            found.append(take_request(front))
    except CutShort:
        return None
    return found if len(found) <= REQUESTS else None


def text_bytes(text):
    return bytes([len(text)]) + text


def host_bytes(host, beside=b""):
    """beside: bytes of a name that is not known"""
    (name, address), states = host, {None: 0, False: 1}
    state, text = (2, name) if isinstance(name, bytes) else (3 if name == BAD else states[name], beside)
    kind, n = {None: (0, 0), BAD: (5, 0)}.get(address) or (int(address[0]), address[1])
    return bytes([state, kind]) + n.to_bytes(16, "big") + text_bytes(text)


def request_bytes(r, beside=b""):
    user = r["user"]
    state, name = (2, user) if isinstance(user, bytes) else ({"not fetched": 0, None: 1, BAD: 3}[user], beside)
    return text_bytes(r["daemon"]) + host_bytes(r["client"], beside) + host_bytes(r["server"], beside) + bytes([state]) + text_bytes(name)


def no_command_place(sheet, word, file, number):
    """the place in an answer without a command: behind the second separator of the rule, or its end; of an ask where its text begins"""
    if not file:
        return 0
    place, n = unpack(sheet)[file - 1]
    if word == "ask":
        return place
    line = next(line for line in lines(sheet[place:place + n]) if line.number == number)
    at = separators(line.raw)
    return place + line.place + (at[1] + 1 if len(at) > 1 else len(line.raw))


def answer_bytes(sheet, r):
    """the answer that the request gets alone, as bytes"""
    answer = sheet_verdict(sheet, r)
    if refused(answer):
        return number_bytes(*answer) + bytes(ANSWER_BYTES - 12)
    word, file, line, place, command, looked = answer
    place = no_command_place(sheet, word, file, line) if place is None else place
    return number_bytes(0, 0, line, VERDICT_WORDS.index(word) + 1, file, place, len(command)) + looked.to_bytes(8, "big")


def verdicts(sheet, given, requests, room):
    """a refusal of the whole call, or the bytes of all answers"""
    fault = unpack(sheet) if refused(unpack(sheet)) else (21, 0, 0) if given != index_bytes(sheet) else None
    asked = None if fault else parted_requests(requests)
    if not fault and asked is None:
        fault = (13, 0, 0)
    return fault or within(room, b"".join(answer_bytes(sheet, r) for r in asked))
