#!/usr/bin/env python3
"""inetd.py PROGRAM: example/inetd.c with real connections on 127.0.0.1 and ::1, a stand-in ident server of its own, and a sheet that is
sound, cut, refused, missing and replaced while it runs; bursts of connections that are asked for together, by an index that is made again when
the sheet changes; then 2,000 connections, 16 at a time, each answer compared. Ends by itself."""
import concurrent.futures
import contextlib
import os
import pathlib
import signal
import socket
import subprocess
import sys
import tempfile
import threading
import time

import reference as ref

CONNECTIONS, AT_ONCE, TIMEOUT = 2000, 16, 0.4
GRANTED, REFUSED = b"granted\n", b"refused\n"
FAMILIES = {"127.0.0.1": socket.AF_INET, "::1": socket.AF_INET6}
DENY_ALL = b"ALL: ALL: log denied %c\n"
FULLEST = ref.pack([b"\n" * 16384, b"\n" * 16384, b"\n" * 8192, b"uid:0:tcp:0," * 340 + b"uid:10:tcp:65535",
                    ref.section_five([(b"t", b"\n" * 12280)])], 57360)


def fail(what):
    print("inetd: " + what)
    sys.exit(1)


def sheet_of(allow, deny=DENY_ALL, tables=()):
    return ref.pack([allow, deny, b"", b"", ref.section_five(list(tables))], 57360)


class Ident:
    """an ident server on both loopback addresses, at one port; answer(query) is the bytes to send, or None to stay silent"""

    def __init__(self):
        self.queries, self.answer, self.lock = [], lambda query: b"", threading.Lock()
        self.listeners = self.listen()
        self.port = self.listeners[0].getsockname()[1]
        for listener in self.listeners:
            threading.Thread(target=self.accept, args=(listener,), daemon=True).start()

    @staticmethod
    def listen():
        for _ in range(100):
            four = socket.create_server(("127.0.0.1", 0), backlog=128)
            try:
                return four, socket.create_server(("::1", four.getsockname()[1]), family=socket.AF_INET6, backlog=128)
            except OSError:
                four.close()
        fail("no port for the ident server")

    def accept(self, listener):
        while True:
            connection = listener.accept()[0]
            threading.Thread(target=self.serve, args=(connection,), daemon=True).start()

    def serve(self, connection):
        with connection:
            connection.settimeout(5)
            try:
                query = connection.makefile("rb").readline(100)
                with self.lock:
                    self.queries.append(query)
                answer = self.answer(query)
                if answer is None:
                    connection.recv(1)
                else:
                    connection.sendall(answer)
            except OSError:
                pass


def userid(user):
    """an answerer that names the user"""
    return lambda query: query.strip().replace(b",", b" , ") + b" : USERID : UNIX : " + user + b"\r\n"


class Inetd:
    """the program, running; its log is a file"""

    def __init__(self, program, folder, ident_port):
        self.sheet, self.log = folder / "sheet", folder / "log"
        self.process = subprocess.Popen(
            [program, "-i", str(ident_port), "-t", str(int(TIMEOUT * 1000)), str(self.sheet), "console"],
            stdout=subprocess.PIPE, stderr=self.log.open("wb"), text=True)
        self.ports = {}
        for _ in FAMILIES:
            address, port = self.process.stdout.readline().split()
            self.ports[address] = int(port)

    def replace(self, sheet):
        """as `gate pack` does: the new sheet appears whole or not at all"""
        beside = self.sheet.with_suffix(".new")
        beside.write_bytes(sheet)
        os.replace(beside, self.sheet)

    def open(self, address):
        """a client at the address, which waits"""
        client = socket.socket(FAMILIES[address])
        client.settimeout(10)
        client.connect((address, self.ports[address]))
        return client

    @staticmethod
    def told(client):
        """what it is told, and its port"""
        with client:
            port, told = client.getsockname()[1], b""
            while chunk := client.recv(100):
                told += chunk
            return told, port

    def connect(self, address):
        """what a client at the address is told, and the client's port"""
        return self.told(self.open(address))

    def logged(self, before=""):
        """the lines behind those: of connections, and the program's own"""
        lines = self.log.read_text()[len(before):].split("\n")[:-1]
        return [line for line in lines if not line.startswith("inetd: ")], [line for line in lines if line.startswith("inetd: ")]

    @contextlib.contextmanager
    def stopped(self):
        """connections that are opened within it wait together"""
        self.process.send_signal(signal.SIGSTOP)
        os.waitid(os.P_PID, self.process.pid, os.WSTOPPED | os.WNOWAIT)
        try:
            yield
        finally:
            self.process.send_signal(signal.SIGCONT)

    def end(self):
        self.process.terminate()
        self.process.wait(10)
        self.process.stdout.close()


class Tests:
    def __init__(self, inetd, ident):
        self.inetd, self.ident, self.ran = inetd, ident, 0

    def expect(self, what, address, told, logged, queries=0):
        """one connection: what the client is told, what the log's new line ends in, how often the ident server was asked"""
        self.ran += 1
        before, asked = self.inetd.log.read_text(), len(self.ident.queries)
        answer, port = self.inetd.connect(address)
        lines, _ = self.inetd.logged(before)
        if answer != told or len(lines) != 1 or not lines[0].endswith(logged) or not lines[0].startswith("console: "):
            fail(f"{what}: told {answer}, logged {lines}, not {told} and {logged!r}")
        new = self.ident.queries[asked:]
        if new != [b"%d,%d\r\n" % (port, self.inetd.ports[address])] * queries:
            fail(f"{what}: asked the ident server {new}")

    def verdicts(self):
        self.inetd.replace(sheet_of(b"\nconsole: 127.0.0.1: log %a %A %d %u\n"))
        self.expect("granted", "127.0.0.1", GRANTED, "console: 127.0.0.1: granted, allow line 2, would run: log 127.0.0.1 127.0.0.1 console unknown")
        self.expect("denied", "::1", REFUSED, "console: ::1: denied, deny line 1, would run: log denied ::1")
        self.inetd.replace(sheet_of(b"console@[::1]: [::1]/128\nsshd: ALL\n"))
        self.expect("granted, IPv6", "::1", GRANTED, "::1: granted, allow line 1")
        self.expect("denied, IPv4", "127.0.0.1", REFUSED, "denied, deny line 1, would run: log denied 127.0.0.1")
        self.inetd.replace(sheet_of(b"console: /vans\n", tables=[(b"vans", b"10.20.30. /depot\n"), (b"depot", b"127.0.0.1\n")]))
        self.expect("granted by a table", "127.0.0.1", GRANTED, "127.0.0.1: granted, allow line 1")
        self.expect("in no table", "::1", REFUSED, "denied, deny line 1, would run: log denied ::1")
        self.inetd.replace(sheet_of(b"", b""))
        self.expect("no rule", "127.0.0.1", GRANTED, "granted, no rule, line 0")

    def asked(self):
        self.inetd.replace(sheet_of(b"console: fitter@ALL: run %u for %c\n"))
        for address in FAMILIES:
            self.ident.answer = userid(b"fitter")
            self.expect("the user", address, GRANTED, f"fitter@{address}: granted, allow line 1, would run: run fitter for fitter@{address}", 1)
            self.ident.answer = userid(b"stranger")
            self.expect("another user", address, REFUSED, f"denied, deny line 1, would run: log denied stranger@{address}", 1)
        self.ident.answer = userid(b"a;b\x1b")
        self.expect("a user with odd bytes", "127.0.0.1", REFUSED, "a_b_@127.0.0.1: denied, deny line 1, would run: log denied a_b_@127.0.0.1", 1)

    def unasked(self):
        """where the gate asks and every user gets the same answer no ident server is asked, and the user is unknown"""
        self.ident.answer = userid(b"fitter")
        denied = "denied, deny line 1, would run: log denied "
        for what, rules, told, logged in (
                ("every user", b"console: ALL@ALL: run %u\n", GRANTED, "granted, allow line 1, would run: run unknown"),
                ("known or not", b"console: KNOWN@ALL UNKNOWN@ALL\n", GRANTED, "granted, allow line 1"),
                ("the same rule by another element", b"\nconsole: fitter@ALL, ALL\n", GRANTED, "granted, allow line 2"),
                ("a user taken out again", b"console: fitter@ALL EXCEPT FITTER@ALL\n", REFUSED, denied)):
            self.inetd.replace(sheet_of(rules))
            for address in FAMILIES:
                self.expect(what, address, told, f"console: {address}: {logged}" + (address if logged == denied else ""))
        self.inetd.replace(sheet_of(b"console: fitter@/t EXCEPT fitter@/u\n", tables=[(b"t", b"/u [::1]"), (b"u", b"127.0.0.1")]))
        self.expect("a user taken out by a table", "127.0.0.1", REFUSED, denied + "127.0.0.1")
        self.expect("not by that table", "::1", GRANTED, "fitter@::1: granted, allow line 1", 1)
        self.inetd.replace(sheet_of(b"console: fitter@ALL\nconsole: ALL\n"))
        self.expect("another rule for another user", "::1", GRANTED, "fitter@::1: granted, allow line 1", 1)
        self.ident.answer = userid(b"stranger")
        self.expect("the same word, another line", "::1", GRANTED, "stranger@::1: granted, allow line 2", 1)
        self.inetd.replace(sheet_of(b"", b"console: fitter@ALL EXCEPT fitter@ALL\n"))
        self.expect("no rule for any user", "::1", GRANTED, "granted, no rule, line 0")

    def unanswered(self):
        """whatever is no sound answer leaves the user unknown, and the connection answered in time"""
        self.inetd.replace(sheet_of(b"console: UNKNOWN@ALL: run %u\n"))
        known, unknown = "denied, deny line 1, would run: log denied fitter@127.0.0.1", "127.0.0.1: granted, allow line 1, would run: run unknown"
        self.ident.answer = userid(b"fitter")
        self.expect("a sound answer", "127.0.0.1", REFUSED, known, 1)
        self.ident.answer = lambda query: None
        began = time.monotonic()
        self.expect("no answer", "127.0.0.1", GRANTED, unknown, 1)
        if not TIMEOUT - 0.1 < time.monotonic() - began < TIMEOUT + 3:
            fail(f"no answer took {time.monotonic() - began} s")
        sound = userid(b"fitter")
        for what, answer in {
                "an error": lambda query: query.strip() + b" : ERROR : NO-USER\r\n", "nothing": lambda query: b"",
                "no line": lambda query: sound(query)[:-2], "other ports": lambda query: sound(b"1,2\r\n"), "no ports": lambda query: sound(b","),
                "no user": userid(b""), "a user of 65 bytes": userid(b"u" * 65), "a zero": userid(b"fit\0ter"),
                "a long line": userid(b"fitter" * 1000), "garbage": lambda query: bytes(range(128, 256)) * 40 + b"\n",
                "no system": lambda query: query.strip() + b":USERID::fitter\r\n", "an HTTP answer": lambda query: b"HTTP/1.0 400 Bad Request\r\n\r\n"}.items():
            self.ident.answer = answer
            self.expect(what, "127.0.0.1", GRANTED, unknown, 1)
        self.ident.answer = userid(b"u" * 64)
        self.expect("a user of 64 bytes", "127.0.0.1", REFUSED, "log denied " + "u" * 64 + "@127.0.0.1", 1)

    def refusals(self):
        good = sheet_of(b"ALL: ALL\n")
        for what, sheet, logged in (
                ("a cut sheet", good[:-1], "refused 1 (the sheet ends within a section), section 5 (tables), line 0"),
                ("a sheet of four sections", good[:-2], "refused 1 (the sheet ends within a section), section 5 (tables), line 0"),
                ("a rule without its table", ref.sheet_of([b"ALL: /vans\n", b"", b"", b"", ref.NO_TABLES]),
                 "refused 15 (no table of this name, or two), section 1 (allow), line 1"),
                ("a sheet cut to nothing", b"", "refused 1 (the sheet ends within a section), section 1 (allow), line 0"),
                ("a byte more", good + b"\0", "refused 3 (bytes follow the last section), section 0 (no section), line 0"),
                ("the fullest sheet and a byte", FULLEST + b"\0", "refused 3 (bytes follow the last section), section 0 (no section), line 0"),
                ("a megabyte more", good + bytes(1 << 20), "refused 3 (bytes follow the last section), section 0 (no section), line 0"),
                ("a text over its limit", b"\0\0\x40\1" + bytes(50000), "refused 2 (longer than its section may be), section 1 (allow), line 0"),
                ("a bad line", good[:4] + b"ALL: A*L\n" + good[13:], "refused 10 (no element kind fits), section 1 (allow), line 1")):
            self.inetd.replace(sheet)
            self.expect(what, "127.0.0.1", REFUSED, f"console: 127.0.0.1: {logged}")
        self.inetd.sheet.unlink()
        self.expect("a missing sheet", "::1", REFUSED, "console: ::1: refused, no sheet: No such file or directory")
        self.inetd.sheet.mkdir()
        self.expect("a folder for a sheet", "::1", REFUSED, "refused, no sheet: Is a directory")
        self.inetd.sheet.rmdir()
        self.inetd.replace(FULLEST)
        self.expect("the fullest sheet", "::1", GRANTED, "granted, no rule, line 0")
        self.inetd.replace(good)
        self.expect("a sheet again", "::1", GRANTED, "granted, allow line 1")

    def made(self, what, sheet, address, told, logged, index):
        """one connection by a sheet, and the index that is made for it: a number of rules, or None where the kept one is the sheet's"""
        self.inetd.replace(sheet)
        before = self.inetd.log.read_text()
        self.expect(what, address, told, logged)
        _, own = self.inetd.logged(before)
        if own != ([] if index is None else [f"inetd: index of {index} rules made"]):
            fail(f"{what}: {own}, not {index}")

    def indexes(self):
        """made at the first connection, again where a rule begins or ends elsewhere, and else kept; a sheet that is refused has none"""
        rules, granted = b"sshd: ALL\nconsole: 127.0.0.1\n", "127.0.0.1: granted, allow line 2"
        good = sheet_of(rules)
        self.made("an index", sheet_of(b"console: ALL\n"), "::1", GRANTED, "granted, allow line 1", 2)
        self.made("another", good, "127.0.0.1", GRANTED, granted, 3)
        self.made("the same sheet", good, "127.0.0.1", GRANTED, granted, None)
        self.made("the same bytes in another file", good, "::1", REFUSED, "denied, deny line 1, would run: log denied ::1", None)
        self.made("rules at the same places", sheet_of(rules.replace(b"127", b"128")), "127.0.0.1", REFUSED,
                  "denied, deny line 1, would run: log denied 127.0.0.1", None)
        self.made("other tables alone", sheet_of(rules, tables=[(b"t", b"host")]), "127.0.0.1", GRANTED, granted, None)
        self.made("rules a byte further", sheet_of(b"\n" + rules), "127.0.0.1", GRANTED, "granted, allow line 3", 3)
        self.made("one rule more", sheet_of(rules + b"x: y\n"), "127.0.0.1", GRANTED, granted, 4)
        self.made("a cut sheet", good[:-1], "127.0.0.1", REFUSED, "refused 1 (the sheet ends within a section), section 5 (tables), line 0", None)
        self.made("a sheet without rules", sheet_of(b"", b""), "127.0.0.1", GRANTED, "granted, no rule, line 0", 0)
        self.made("the first again", good, "127.0.0.1", GRANTED, granted, 3)

    def bursts(self):
        """connections that wait together are asked for together, 32 at most, each answered as alone; one that waits for its user holds up none"""
        self.inetd.replace(sheet_of(b"console: 127.0.0.1: log %a\nconsole: fitter@[::1]\n"))
        self.ident.answer = lambda query: None
        before, addresses = self.inetd.log.read_text(), (["127.0.0.1"] * 3 + ["::1"]) * 10
        with self.inetd.stopped():
            clients = [(address, self.inetd.open(address)) for address in addresses]
        began = time.monotonic()
        answers = [(address, self.inetd.told(client)[0]) for address, client in clients if address == "127.0.0.1"]
        if time.monotonic() - began > TIMEOUT / 2:
            fail(f"a burst: granted connections waited {time.monotonic() - began} s for others")
        answers += [(address, self.inetd.told(client)[0]) for address, client in clients if address == "::1"]
        self.ran += len(answers)
        lines, own = self.inetd.logged(before)
        if any(told != (GRANTED if address == "127.0.0.1" else REFUSED) for address, told in answers):
            fail(f"a burst: {answers}")
        granted = sum(line == "console: 127.0.0.1: granted, allow line 1, would run: log 127.0.0.1" for line in lines)
        denied = sum(line == "console: ::1: denied, deny line 1, would run: log denied ::1" for line in lines)
        if (granted, denied, len(lines)) != (30, 10, 40):
            fail(f"a burst: logged {lines}")
        if own != ["inetd: index of 3 rules made", "inetd: 32 connections at once", "inetd: 8 connections at once"]:
            fail(f"a burst: {own}")
        before = self.inetd.log.read_text()
        self.inetd.replace(sheet_of(b"")[:-1])
        with self.inetd.stopped():
            clients = [self.inetd.open("::1") for _ in range(5)]
        told = [self.inetd.told(client)[0] for client in clients]
        lines, own = self.inetd.logged(before)
        refusal = "console: ::1: refused 1 (the sheet ends within a section), section 5 (tables), line 0"
        if told != [REFUSED] * 5 or lines != [refusal] * 5 or own != ["inetd: 5 connections at once"]:
            fail(f"a burst by a cut sheet: {told}, {lines}, {own}")

    def load(self):
        """connections while the sheet is replaced over and over, by sheets that say the same at other places"""
        sheets = [sheet_of(b"#" * n + b"\nconsole: fitter@127.0.0.1, [::1]: run %c\n") for n in (1, 700, 2000)]
        self.inetd.replace(sheets[0])
        self.ident.answer = lambda query: userid(b"fitter" if is_fitter(int(query.split(b",")[0])) else b"stranger")(query)
        before = self.inetd.log.read_text()

        def one(i):
            address = "::1" if i % 4 == 0 else "127.0.0.1"
            told, port = self.inetd.connect(address)
            return told, GRANTED if address == "::1" or is_fitter(port) else REFUSED

        with concurrent.futures.ThreadPoolExecutor(AT_ONCE) as pool:
            jobs = [pool.submit(one, i) for i in range(CONNECTIONS)]
            turn = 0
            while not all(job.done() for job in jobs):
                turn += 1
                self.inetd.replace(sheets[turn % 3])
                time.sleep(0.002)
        answers = [job.result() for job in jobs]
        wrong = [pair for pair in answers if pair[0] != pair[1]]
        lines, own = self.inetd.logged(before)
        granted = sum(told == GRANTED for told, _ in answers)
        if wrong or len(lines) != CONNECTIONS or sum(": granted, allow line 2" in line for line in lines) != granted:
            fail(f"under load: {len(wrong)} wrong answers, as {wrong[:3]}; {len(lines)} lines logged")
        return granted, turn, sum("index of 2 rules made" in line for line in own)


def is_fitter(port):
    return port // 2 % 2 == 0


def free_port():
    with socket.create_server(("127.0.0.1", 0)) as listener:
        return listener.getsockname()[1]


def running(program, ident, ident_port, run):
    """what run(tests) answers, and how many connections it compared, of a program of its own"""
    with tempfile.TemporaryDirectory() as name:
        inetd = Inetd(program, pathlib.Path(name), ident_port)
        tests = Tests(inetd, ident)
        try:
            return run(tests), tests.ran
        finally:
            inetd.end()


def single(tests):
    tests.verdicts()
    tests.asked()
    tests.unasked()
    tests.unanswered()
    tests.refusals()
    tests.indexes()
    tests.bursts()


def no_ident_server(tests):
    tests.inetd.replace(sheet_of(b"console: UNKNOWN@ALL: run %u\n"))
    tests.expect("no ident server", "127.0.0.1", GRANTED, "granted, allow line 1, would run: run unknown")


def main():
    signal.alarm(120)
    program, ident = sys.argv[1], Ident()
    _, compared = running(program, ident, ident.port, single)
    _, more = running(program, ident, free_port(), no_ident_server)
    (granted, replaced, made), _ = running(program, ident, ident.port, Tests.load)
    print(f"inetd: {compared + more} connections as expected; {CONNECTIONS} under load, {granted} granted, the sheet replaced {replaced} times, "
          f"its index made {made} times")


main()
