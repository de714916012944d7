#!/usr/bin/env python3
"""program.py PROGRAM [STATIONS]: the built program gate, run as its users run it: every subcommand with answers and refusals, arguments
that could be misread, files that can't be read or written, signals, and generated stations beside tests/reference.py. Prints one line;
exits with 1 where something was not as expected, which it shows.

A wrong program may write where it should not, and may run as root: so it is given no path outside a scratch folder to write to, works in
that folder, and reads a copy of the sample. Devices are only opened here, as its standard output."""
import contextlib
import errno
import os
import pathlib
import random
import re
import resource
import shutil
import signal
import stat
import subprocess
import sys
import tempfile
import time

import differential as gen
import reference as ref

PROGRAM = str(pathlib.Path(sys.argv[1]).resolve())
STATIONS = int(sys.argv[2]) if len(sys.argv) > 2 else 300
TOP = pathlib.Path(__file__).resolve().parent.parent
SCRATCH = tempfile.mkdtemp(prefix="gate-tests-")
SAMPLE = shutil.copytree(TOP / "sample", SCRATCH + "/sample")
FLEET = SAMPLE + "/fleet"
NAMES = ("hosts.allow", "hosts.deny", "byuid", "portacl")
TEXTS = [(TOP / "sample" / name).read_bytes() for name in NAMES]
SHEET_LIMIT = 57360
SHEET = ref.pack(TEXTS + [ref.NO_TABLES], SHEET_LIMIT)
OLD_SHEET = SHEET[:-2]
COMMANDS = ("check", "match", "byuid", "portacl", "authbind", "pack", "unpack", "fleet", "upgrade", "convert", "carry", "salvage", "tidy", "index", "explain", "test")
PAGE = os.sysconf("SC_PAGE_SIZE")
runs, failures, statuses, skipped = 0, [], set(), []


def gate(*arguments, stdin=b"", **how):
    """stdin: bytes, or an open file"""
    global runs
    runs += 1
    how = {"capture_output": True, "timeout": 20, "input" if isinstance(stdin, bytes) else "stdin": stdin, "cwd": SCRATCH, **how}
    done = subprocess.run([PROGRAM, *map(os.fsencode, arguments)], **how)
    statuses.add(done.returncode)
    return done


def fail(what, *shown):
    failures.append(what)
    print("program: not as expected:", what, *shown, sep="\n    ")


def expect(what, done, status, out=None, err=None):
    """status as given; out and err: bytes to be equal to, or a string to be found; None for anything"""
    def fits(bytes_, wanted):
        return wanted is None or (wanted.encode() in bytes_ if isinstance(wanted, str) else bytes_ == wanted)
    if done.returncode != status or not fits(done.stdout, out) or not fits(done.stderr, err):
        fail(what, f"status {done.returncode}, not {status}", done.stdout, done.stderr, f"wanted {out!r} and {err!r}")


def write_tables(folder, tables):
    """a file for each pair of a name and a text; those that were there go"""
    shutil.rmtree(folder, ignore_errors=True)
    os.mkdir(folder)
    for name, text in tables:
        pathlib.Path(os.fsdecode(os.fsencode(folder) + b"/" + name)).write_bytes(text)
    return str(folder)


def write_station(folder, texts, tables=None):
    """tables: its own, or None where it has no folder of them"""
    folder = pathlib.Path(folder)
    folder.mkdir(exist_ok=True)
    for name, text in zip(NAMES, texts):
        (folder / name).write_bytes(text)
    shutil.rmtree(folder / "tables", ignore_errors=True)
    if tables is not None:
        write_tables(folder / "tables", tables)
    return str(folder)


def station(folder, allow=b"", deny=b"", byuid=b"", portacl=b"", tables=None):
    return write_station(folder, [allow, deny, byuid, portacl], tables)


# Arguments

MISREAD = {
    "match": [
        *(["sshd", client] for client in (
            "10.20.30.400", "10.20.30", "010.20.30.40", "10.20.30.40 ", " 10.20.30.40", "", "-", "unknow", "UNKNOWN", "[::1]", "::1%eth0", ":::",
            "10.20.30.40/8", "van7.vans.example", "0x0a.1.1.1", "1::2::3", "@10.20.30.40", "u" * 65 + "@10.20.30.40", "unknown@10.20.30.40",
            "Paranoid@10.20.30.40", "fitter@", "fitter@van7")),
        *([daemon, "10.20.30.40"] for daemon in ("", "d" * 65, "@10.0.0.1", "sshd@", "sshd@10.20.30.400", "sshd@host", "sshd@[::1]", "a@b@1.2.3.4")),
        *(["sshd", "10.20.30.40", *options] for options in (
            ["--name", ""], ["--name="], ["--name", "n" * 256], ["--name", "unknown"], ["--name", "PARANOID"], ["--name", "a", "--paranoid"],
            ["--name", "a", "--name", "b"], ["--name"], ["--nam", "a"], ["--paranoid=1"], ["--process", "-1"], ["--process", "4294967296"],
            ["--process", "0x10"], ["--process", "1 "], ["--process", ""], ["--process", "01"], ["--server-name", "a", "--server-paranoid"],
            ["--user", "a"], ["-x"], ["-qx"], ["10.0.0.1"], ["--index"], ["--index", ""], ["--index", SAMPLE], ["--index", SAMPLE + "/none"],
            ["--index", SAMPLE + "/byuid"], ["--index", "-"], ["--index", SAMPLE + "/byuid", "--index", SAMPLE + "/byuid"])),
        ["sshd", "fitter@10.20.30.40", "--unknown-user"], ["sshd"], [],
    ],
    "byuid": [
        *([uid, "10.20.1.2,80"] for uid in ("www-data", "root", "-1", "4294967296", "0432", "", "1e3", "+1", "0x1", "432 ")),
        *(["432", what] for what in ("10.20.1.2,80x", "10.20.1.2,65536", "10.20.1.2,http", "10.20.1.2:80", "unknown,80", ",80", "10.20.1.2,",
                                     "10.20.1.2,080", "10.20.1.400,80", "10.20.1.2", "10.20.1.2,80,81", "10.20.1.2,-1", "[::1],80", "10.20.0.0/16,80")),
        ["432"], ["432", "10.20.1.2,80", "x"], ["432", "10.20.1.2,80", "--groups", "1"],
        *(["432", "10.20.1.2,600", *options] for options in (
            ["--marked"], ["--marked", ""], ["--marked", "-"], ["--marked", SAMPLE], ["--marked", SAMPLE + "/none"],
            ["--marked", SAMPLE + "/byuid", "--marked", SAMPLE + "/byuid"], ["--marked=" + SAMPLE + "/none"], ["--mark", SAMPLE + "/byuid"])),
    ],
    "portacl": [
        *([uid, "tcp:80"] for uid in ("www-data", "-1", "4294967296", "00", "")),
        *(["432", what] for what in ("sctp:80", "TCP:80", "tcp", "tcp:", "tcp:65536", "80", "udp:-1", "udp:080", "tcp:80:", "tcp80", "")),
        *(["432", "tcp:80", *options] for options in (
            ["--groups", "www"], ["--groups", "20,,21"], ["--groups", ""], ["--groups", ",".join(["1"] * 17)], ["--groups", "4294967296"],
            ["--groups", "20,"], ["--groups", "00000000000000000000020"], ["--enabled", "yes"], ["--enabled", ""], ["--port-high", "-1"],
            ["--suser-exempt", "4294967296"], ["--autoport-exempt", "x"])),
    ],
}


def test_misread():
    for command, cases in MISREAD.items():
        for case in cases:
            expect(f"{command} {case} is an error", gate(command, SAMPLE, *case), 2, b"", "gate: ")
    for case in ([], ["432"], ["www-data", "10.20.1.2,80"], ["432", "10.20.1.2:80"], ["432", "10.20.1.2,65536"], ["432", "10.20.1.2,080"], ["432", "unknown,80"],
                 ["432", "[::1],80"], ["-1", "::1,80"], ["432", "::1,80", "x"], ["432", "::1,80", "--root"], ["432", "::1,80", "--marked", "x"]):
        expect(f"authbind {case} is an error", gate("authbind", *case), 2, b"", "gate: ")
    for case in ([], ["portacl"], ["portacl", "432", "p"], ["portacl", "www", "p", "m"], ["portacl", "0432", "p", "m"], ["portacl", "4294967296", "p", "m"],
                 ["portacl", "432", "p", "m", "x"], ["portacl", "432", "p", ""], ["portacl", "432", "p", "p"], ["portacl", "432", "p", "./p"], ["portacl", "432", ".", "m"]):
        expect(f"carry {case} is an error", gate("carry", *case), 2, b"", "gate: ")
    for case in ([], ["s"], ["s", "n", "x"], ["-", ""], ["-", "."], ["-", "n", "--tables", "."], ["s", "n", "-f"], ["-", "s", "-Q"]):
        expect(f"salvage {case} is an error", gate("salvage", *case), 2, b"", "gate: ")
    for case in ([], ["s"], ["s", "i", "x"], [SAMPLE, "i"], ["-", "i"], ["-", ""], ["-", "."], ["s", "i", "--tables", "."], ["s", "i", "-f"], ["-", "i", "-Q"]):
        expect(f"index {case} is an error", gate("index", *case), 2, b"", "gate: ")
    deny = SAMPLE + "/hosts.deny"
    for case in ([], [SAMPLE], [SAMPLE + "/byuid"], ["-"], [deny, "--as"], [deny, "--as", ""], [deny, "--as", "hosts.deny"], [deny, "--as", "DENY"], [deny, "n", "x"], [deny, ""],
                 [deny, "."], [deny, "--lines", "1"], [deny, "n", "--lines"], [deny, "n", "--lines", ""], [deny, "n", "--lines", "1,"], [deny, "n", "--lines", ",1"],
                 [deny, "n", "--lines", "1 "], [deny, "n", "--lines", "01"], [deny, "n", "--lines", "-1"], [deny, "n", "--lines", "x"], [deny, "n", "--lines", "4294967296"],
                 [deny, "n", "--lines", ",".join(["1"] * 4097)], [deny, "--tables", SAMPLE + "/none"], [SAMPLE + "/none/hosts.deny"], [SAMPLE, "--as", "deny"]):
        expect(f"tidy {case} is an error", gate("tidy", *case), 2, b"", "gate: ")
    for case in (["23"], ["x"], ["-1"], ["010"], [""], ["1", "2"], ["4294967306"]):
        expect(f"explain {case} is an error", gate("explain", *case), 2, b"", "gate: ")
    for case in ([], ["chek"], [""], ["-q"], ["--Version"], ["--version", "x"], ["check"], ["check", SAMPLE, SAMPLE], ["pack", SAMPLE], ["unpack", "x"],
                 ["test", SAMPLE], ["fleet", SAMPLE], ["upgrade", "x"], ["convert", "x"], ["fleet", FLEET, "--tables", FLEET + "/tables"], ["check", "--warning", SAMPLE], ["check", "-q", "-q", SAMPLE], ["check", "--quiet=1", SAMPLE]):
        expect(f"gate {case} is an error", gate(*case), 2, b"", "gate: ")


def test_read():
    """what is just inside, and where options may stand"""
    for what, arguments, status in (
            ("the longest daemon", ["match", SAMPLE, "d" * 64, "10.20.30.40"], 1),
            ("the longest name", ["match", SAMPLE, "sshd", "10.1.1.1", "--name", "n" * 255], 1),
            ("the longest user", ["match", SAMPLE, "sshd", "u" * 64 + "@10.1.1.1"], 1),
            ("a user with an @", ["match", SAMPLE, "sshd", "a@b@10.1.1.1"], 1),
            ("an unknown address", ["match", SAMPLE, "sshd@unknown", "unknown"], 1),
            ("the largest uid", ["byuid", SAMPLE, "4294967295", "::1,123"], 0),
            ("port 65535", ["byuid", SAMPLE, "1", "::1,65535"], 4),
            ("the plain file for a marked one, port 123", ["byuid", SAMPLE, "1", "::1,123", "--marked", SAMPLE + "/byuid"], 0),
            ("the plain file for a marked one, port 600", ["byuid", SAMPLE, "1", "::1,600", "--marked=" + SAMPLE + "/byuid"], 1),
            ("port 0", ["portacl", SAMPLE, "1", "tcp:0"], 0),
            ("sixteen groups", ["portacl", SAMPLE, "1", "udp:123", "--groups", ",".join(["1"] * 15 + ["20"])], 0),
            ("settings", ["portacl", SAMPLE, "0", "udp:124", "--suser-exempt", "0"], 1),
            ("not enabled", ["portacl", SAMPLE, "0", "udp:124", "--enabled=0"], 4),
            ("port_high", ["portacl", SAMPLE, "432", "tcp:80", "--port-high", "79"], 4),
            ("no automatic port", ["portacl", SAMPLE, "1", "tcp:0", "--autoport-exempt", "0"], 1),
            ("options first", ["match", "--name", "van7.vans.example", SAMPLE, "sshd", "10.1.1.1"], 0),
            ("an option with its value", ["match", SAMPLE, "--name=van7.vans.example", "sshd", "10.1.1.1"], 0),
            ("-- ends options", ["match", "-q", "--", SAMPLE, "--name", "10.1.1.1"], 1)):
        done = gate(*arguments)
        expect(what, done, status, None, b"")
    expect("-q prints nothing", gate("match", SAMPLE, "-q", "sshd", "10.1.1.1"), 1, b"", b"")
    expect("version", gate("--version"), 0, re.search(r'GATE_VERSION "(.*)"', (TOP / "include/gate.h").read_text())[1], b"")
    done, manual = gate("--help"), (TOP / "man/gate.1").read_text()
    expect("help", done, 0, "Exit status", b"")
    listed = tuple(re.findall(r"^  ([a-z]+)  ", done.stdout.decode(), re.M))
    if listed != COMMANDS:
        fail("the commands of the help are those tested here", listed)
    for command in COMMANDS:
        expect("help of " + command, gate(command, "--help"), 0, "usage: gate %s " % command, b"")
        if f"\n.Cm {command}\n" not in manual or f"\n.Ss gate {command}\n" not in manual:
            fail(f"the manual page has {command} in its synopsis and as a part")


# Answers

ASK_AGAIN = "why       this rule looks at the user, who is not fetched: ask again with USER@ or --unknown-user\n"
VAN = ["sshd@192.0.2.1", "10.20.30.40", "--name", "van7.vans.example"]


def test_names(folder):
    """ask, where every user gets the same answer: that answer and its rule"""
    for what, allow, deny, answer in (
            ("every user", b"sshd: ALL@10.\n", b"ALL: ALL\n", "granted, by %s/hosts.allow:1"),
            ("known or not", b"# x\nsshd: KNOWN@10. UNKNOWN@10.\n", b"ALL: ALL\n", "granted, by %s/hosts.allow:2"),
            ("taken out again", b"sshd: fitter@10. EXCEPT FITTER@10.\n", b"\n\nALL: ALL\n", "denied, by %s/hosts.deny:3"),
            ("no rule for any user", b"sshd: fitter@10. EXCEPT fitter@10.\n", b"ALL: x\n", "granted, by no rule")):
        where = station(folder + "/names", allow, deny)
        answer = answer % where if "%s" in answer else answer
        line = f"{ASK_AGAIN}name      does not matter: every user is {answer}\nlooked at "
        expect("a name that does not matter: " + what, gate("match", where, "sshd", "10.20.30.41"), 3, line, b"")
        expect("quiet: " + what, gate("match", "-q", where, "sshd", "10.20.30.41"), 3, b"", b"")
        status = 1 if answer.startswith("denied") else 0
        for user in ("fitter@10.20.30.41", "x@10.20.30.41"):
            done = gate("match", where, "sshd", user)
            expect("its user: " + what, done, status, answer.split(",")[0] + "\n", b"")
            if b"\nname " in done.stdout:
                fail("a name is spoken of where none is asked for", done.stdout)


def test_answers(folder):
    sheet = os.path.join(folder, "station.sheet")
    pathlib.Path(sheet).write_bytes(SHEET)
    for what, where, at in (("a folder", SAMPLE, SAMPLE + "/%s"), ("a sheet", sheet, sheet + "(%s)")):
        expect("granted by " + what, gate("match", where, *VAN), 0,
               b"granted\nrule      %s:2\ntext      sshd: .vans.example EXCEPT spare.vans.example\nlooked at 3 elements\n" % (at % "hosts.allow").encode(), b"")
        expect("ask by " + what, gate("match", where, "sshd", "10.20.30.41"), 3, "ask\nrule      %s:3\n" % (at % "hosts.allow"), b"")
        expect("denied by " + what, gate("match", where, "sshd", "10.9.30.41", "--paranoid"), 1,
               b"denied\nrule      %s:2\ntext      ALL: ALL: /usr/bin/logger -t gate refused \\\n              %%d to %%a\n"
               b"command   /usr/bin/logger -t gate refused     %%d to %%a\nexpanded  /usr/bin/logger -t gate refused     sshd to 10.9.30.41\n"
               b"looked at 7 elements\n" % (at % "hosts.deny").encode(), b"")
        expect("byuid by " + what, gate("byuid", where, "432", "10.20.1.2,80"), 0,
               b"granted\nrule      %s:1\ntext      10.20.0.0/16,80\n" % (at % "byuid").encode(), b"")
        expect("portacl by " + what, gate("portacl", where, "5", "udp:123", "--groups", "19,20"), 0,
               b"granted\nrule      %s entry 2\ntext      gid:20:udp:123\n" % (at % "portacl").encode(), b"")
        expect("tested by " + what, gate("test", where, SAMPLE + "/requests"), 0, "13 requests, all as expected", b"")
        expect("checked as " + what, gate("check", "-W", where), 0, "sound, 398 bytes", b"")
        expect("the name matters by " + what, gate("match", where, "sshd", "10.20.30.41"), 3,
               ASK_AGAIN + "name      matters: not every user gets the same answer\nlooked at ", b"")
        expect("only where it is not known, by " + what, gate("match", where, "sshd", "fitter@10.20.30.41"), 0,
               "from 10.20.30.41\nlooked at ", b"")
    test_names(folder)
    expect("no rule", gate("match", station(folder + "/none"), *VAN), 0, "granted\nwhy       no rule", b"")
    expect("no line", gate("byuid", SAMPLE, "432", "10.21.1.2,80"), 1, b"no line\n", b"")
    expect("a verdict by standard input", gate("match", "-", *VAN, stdin=SHEET), 0, "granted\nrule      -(hosts.allow):2\n", b"")
    expect("%p", gate("match", station(folder + "/p", b"ALL: ALL: x %p %N %n %c\n"), "sshd@unknown", "u@::1", "--process", "7", "--server-name", "s"), 0,
           "expanded  x 7 s unknown u@::1\n", b"")
    bad = station(folder + "/bad", b"ALL\nALL: x!\n", b"ALL: ALL", b"", b"x")
    for command, arguments in (("match", VAN), ("byuid", ["1", "::1,80"]), ("portacl", ["1", "tcp:80"]), ("test", [SAMPLE + "/requests"])):
        expect(command + " of a refused station", gate(command, bad, *arguments), 2, b"", "refused: 4 faults")


# Checks

MARKED = b"""\
hosts.allow:1: no element kind fits [10]
    1 | sshd: 10.20.30.400, ok, 10.20.0.0/33
      |       ^~~~~~~~~~~~      ^~~~~~~~~~~~
      = write four fields of 0 to 255 in fewest digits, or one to three, each followed by a dot
      = write a net of four fields, each 0 to 255 in fewest digits, and behind the slash a mask of four fields or a length of 0 to 32
hosts.allow:2: EXCEPT not between two elements [8]
    3 |   EXCEPT b
      |   ^~~~~~
      = EXCEPT stands between two elements, as in ALL EXCEPT .x.example
hosts.allow:5: no colon, or a list with no element [7]
    5 | sshd: ::1
      |       ^
      = an IPv6 address stands in brackets: [::1]
hosts.allow:6: % at the end or before a letter that it does not take [11]
    6 | ALL: ALL: %% %z %
      |              ^~ ^
      = behind % stands one of a A n N h H u c d s p, or %, which writes one percent sign
hosts.allow:7: a byte that is not printable ASCII, blank or tab [5]
    7 | sshd: ALL?
      |          ^
      = a carriage return: the file has CR LF line ends, and needs LF alone (tr -d '\\r')
hosts.allow:8: the last line has no ending newline [4]
    8 | x
      |  ^
      = end it with a newline
hosts.allow:8: no colon, or a list with no element [7]
    8 | x
      |  ^
      = a rule is DAEMONS : CLIENTS, or DAEMONS : CLIENTS : COMMAND
portacl:1: entry 2: not a portacl entry [12]
    1 | uid:1:tcp:1,,gid:2:udp:2
      |             ^
      = an empty entry: a comma too many
portacl:1: entry 3: not a portacl entry [12]
    1 | uid:1:tcp:1,,gid:2:udp:2
      |              ^~~~~~~~~~~
      = the list has no newline, not at its end either (truncate -s -1 takes the last byte away)
"""
MARKED_ALLOW = b"sshd: 10.20.30.400, ok, 10.20.0.0/33\nALL: \\\n  EXCEPT b\n# x\nsshd: ::1\nALL: ALL: %% %z %\nsshd: ALL\r\nx"

# A line of hosts.allow, and the marks under it
MARKS = [
    (b" : ALL", " ^"), (b"ALL: ", "     ^"), (b"ALL", "   ^"), (b"a [b: ALL", "  ^"), (b"a [b] c", "       ^"),
    (b"a EXCEPT EXCEPT b: ALL", "  ^~~~~~ ^~~~~~"), (b"EXCEPT a: ALL", "^~~~~~"), (b"ALL: a EXCEPT", "       ^~~~~~"),
    (b"a EXCEPT b: EXCEPT c", "            ^~~~~~"),
    (b"@a b: c@@d", "^~    ^~~~"), (b"/a b: c@/d", "^~"), (b"a: /!, b@/, /c@d", "   ^~  ^~~  ^~~~"), (b"LOCAL: x!, ok", "^~~~~  ^~"), (b"[ x ]: ALL", "^   ^"), (b"ALL: ALL: %a %", "             ^"),
    (b"\xc3\xa4: \x01", "^^  ^"),
]

# A line of a file, and what is warned of it: a part of the message, or None
WARNINGS = {
    "hosts.allow": [
        (b"ALL: ALL: deny", "deny is a word of hosts_options"), (b"sshd: a: SPAWN /bin/x", "spawn is"), (b"sshd: a: severity=info", "severity is"),
        (b"sshd: a: nice 10", "nice is"), (b"sshd: a: nice -n 10 /bin/x", None), (b"sshd: a: umask 022", "umask is"), (b"sshd: a: /bin/deny", None),
        (b"sshd: a: denyhosts x", None), (b"sshd: a: /bin/x", None), (b"sshd: 3ffe::1", "write [3ffe::1]"),
        (b"sshd: a: group staff", "group is"), (b"sshd: a: nice", "nice is"), (b"sshd: a, fe80::1/64", "write [fe80::1]"),
        (b"sshd: [3ffe::1]", None), (b"sshd: [3ffe::1]: deny", "deny is"),
        (b"sshd@fe:d:c:b:a:9:8:7: ALL", "write [fe:d:c:b:a:9:8:7]"), (b"sshd: host: x", None), (b"fade: bad: x", None),
        (b"sshd: 10.20.30.0/255.255.0.0", "the net of this mask is 10.20.0.0"), (b"sshd: a@10.20.30.0/255.255.0.0", "matches no address"),
        (b"sshd@1.2.3.4/0.0.0.0: ALL", "matches no address"), (b"sshd: 10.20.0.0/255.255.0.0", None), (b"ALL: ALL\nsshd: a", "never reached"),
        (b"sshd: [::ffff:10.1.2.3]", "held as IPv4; write 10.1.2.3/32"), (b"sshd: a@[::FFFF:a01:203]/112", "write 10.1.0.0/16"),
        (b"sshd@[::ffff:0:0]/96: ALL", "write 0.0.0.0/0"), (b"sshd: [::ffff:0:0]/95", None), (b"sshd: [::fffe:10.1.2.3]", None),
        (b"sshd: [::10.1.2.3], [::1:ffff:10.1.2.3], [::]/0", None),
        (b"x, all: b ALL\nsshd: a", "never reached"), (b"ALL: ALL EXCEPT a\nsshd: a", None), (b"ALL: a@b ALL\nsshd: a", None), (b"ALL: ALL\n# x\n", None),
        (b"sshd: ALL\nsshd: a", None)],
    "byuid": [
        (b"10.0.0.0/8,80\r", "carriage return"), (b" 10.0.0.0/8,80", "blank"), (b"10.0.0.0/8, 80", "perhaps: 10.0.0.0/8,80"), (b"10.0.0.0/8,http", "no number"),
        (b"3FFE:0505::/32,http", "no number"),
        (b"10.0.0.1/8,80", "perhaps: 10.0.0.0/8,80"), (b"3ffe::1/16,80", "perhaps: 3ffe::/16,80"), (b"10.0.0.9-10.0.0.1,80", "perhaps: 10.0.0.1-10.0.0.9,80"),
        (b"10.0.0.0/8,90-80", "perhaps: 10.0.0.0/8,80-90"), (b"10.0.0.0/8:90,80", "perhaps: 10.0.0.0/8,80-90"), (b"10.0.0.1/8:80,90", "perhaps: 10.0.0.0/8,80-90"), (b"10.0.0.0/8: 80,90", "blank"), (b"10.0.0.0/8,1024", "not ruled"),
        (b"10.0.0.0/8,0", "not ruled"), (b"10.0.0.0/8", "no comma"), (b"10.0.0.0/33,80", "not of the form"), (b"10.0.0,80", "not of the form"),
        (b"10.0.0.0/8,080", "fewest digits"), (b"x" * 300, "no comma"), (b"10.0.0.0/8,80", None), (b"10.0.0.0/8,0-80", None), (b"10.0.0.0/8,511-2000", None),
        (b"10.0.0.0/8,512", "granted by the marked file only"), (b"10.0.0.0/8,1023-2000", "granted by the marked file only"),
        (b"::/0,80", None), (b"10.0.0.1-10.0.0.9,80-90", None), (b"# x", None), (b"", None), (b"  \r", None),
        (b"3FFE:0505::/32,80", None), (b"::ffff:10.0.0.0/128,80", None)],
}


def test_checks(folder):
    marked = station(folder + "/marked", MARKED_ALLOW, b"", b"", b"uid:1:tcp:1,,gid:2:udp:2\n")
    expect("faults with their marks", gate("check", ".", cwd=marked), 1, b".: 9 faults\n",
           b"".join(b"./" + line if line[:2] in (b"ho", b"po") else line for line in MARKED.splitlines(True)))
    expect("check -q prints nothing", gate("check", "-q", marked), 1, b"", b"")
    for line, marks in MARKS:
        expect(f"the marks of {line}", gate("check", station(folder + "/one", line + b"\n")), 1, "1 fault", "\n      | %s\n" % marks)
    for file, lines in WARNINGS.items():
        for line, warning in lines:
            where = station(folder + "/warned", **{file.replace("hosts.", ""): line + b"\n"})
            done = gate("check", "-W", where)
            expect(f"{line} warns of {warning}", done, 0, "sound", warning or b"")
            expect(f"{line} without -W", gate("check", where), 0, "sound", b"")
    done = gate("check", "-W", station(folder + "/open", b"ALL: ALL\n", b"\nsshd: ALL\n"))
    expect("a deny file out of reach", done, 0, "1 warning", "hosts.deny:2: warning: never reached, nor any rule behind it: line 1 of hosts.allow")
    done = gate("check", "-W", station(folder + "/open", b"ALL: ALL\nsshd: a\nsshd: b\n", b"sshd: a\n"))
    expect("rules out of reach in both files", done, 0, "2 warnings",
           "hosts.deny:1: warning: never reached")
    for what, sheet, line in (
            ("fifteen bytes", bytes(15), b"-(portacl): the sheet ends within a section: its count, of four bytes, is not there whole [1]\n"),
            ("sixteen bytes", bytes(16), b"-(tables): the sheet ends within a section: the count of its tables, of two bytes, is not there whole [1]\n"
             b"      = a sheet of four sections, from before there were tables: gate upgrade OLD NEW appends an empty fifth\n"),
            ("seventeen bytes", bytes(17), b"-(tables): the sheet ends within a section: the count of its tables, of two bytes, is not there whole [1]\n"),
            ("nineteen bytes", bytes(19), b"-: bytes follow the last section [3]\n"),
            ("a cut table", bytes(17) + b"\2\1a\0\0\0\0\1", b"-(tables): the sheet ends within a section: its count is 2 tables, and table 2 is not there whole [1]\n"),
            ("two megabytes", bytes(1 << 21), b"-: over 1048576 bytes, and the longest sheet has 57360: it is not looked at\n"),
            ("a cut sheet", SHEET[:-3], b"-(portacl): the sheet ends within a section: its count is 29 bytes, and 28 follow [1]\n")):
        expect(what, gate("check", "-", stdin=sheet), 1, b"-: 1 fault\n", line)
    expect("eighteen zero bytes", gate("check", "-", stdin=bytes(18)), 0, b"-: sound, 18 bytes\n", b"")
    expect("a megabyte", gate("check", "-", stdin=bytes(1 << 20)), 1, b"-: 1 fault\n", b"-: bytes follow the last section [3]\n")
    expect("a text for a sheet", gate("check", SAMPLE + "/hosts.allow"), 1, "1 fault", "give the folder that holds all four")
    most = station(folder + "/most", b"x\n" * 8192, b"x\n" * 8191 + b"x", b"x\n" * 4096, b"," * 4096)
    before = time.monotonic()
    expect("20,482 faults and as many warnings", gate("check", "-W", most), 1, ": 20482 faults, 4096 warnings", None)
    if time.monotonic() - before > 2:
        fail("faults take too long")
    expect("a text over its limit", gate("check", station(folder + "/over", b"\n" * 16385 + b"x\n")), 1, ": 2 faults", "16387 bytes, and the most is 16384 [2]")
    for what, text in (("lines", b"x\n" * 100000), ("one line", b"ALL:" + b" a" * 100000)):
        far = station(folder + "/far", text, text, text, text)
        expect(f"texts far over their limits: {what}", gate("check", "-W", far), 1, ": 4 faults\n", "over 65536 bytes")
    for size in (16384, 16385, 65535, 65536, 65537):
        expect(f"one line of {size} bytes", gate("check", "-W", station(folder + "/line", b"x" * size, b"\\\n" * (size // 2))), 1, " faults\n", "[4]"
               if size <= 65536 else "[2]")


def test_marked(folder):
    """the marked file, by its name, beside the station's plain one"""
    marked, long = folder + "/!432", folder + "/long"
    pathlib.Path(marked).write_bytes(b"# x\n10.20.0.0/16,80-600\n")
    pathlib.Path(long).write_bytes(b"\n" * 8193)
    both = station(folder + "/both", byuid=b"10.20.0.0/16,500-600\n")
    rule = "granted\nrule      %s:%d\ntext      %s\n"
    for what, arguments, status, out in (
            ("port 600 by the marked file", ["432", "10.20.1.2,600", "--marked", marked], 0, rule % (marked, 2, "10.20.0.0/16,80-600")),
            ("port 512 by the marked file", ["432", "10.20.1.2,512", "--marked", marked], 0, rule % (marked, 2, "10.20.0.0/16,80-600")),
            ("port 511 by the plain file", ["432", "10.20.1.2,511", "--marked", marked], 0, rule % (both + "/byuid", 1, "10.20.0.0/16,500-600")),
            ("port 499 by neither", ["432", "10.20.1.2,499", "--marked", marked], 1, "no line\n"),
            ("port 601 by neither", ["432", "10.20.1.2,601", "--marked", marked], 1, "no line\n"),
            ("port 600 without a marked file", ["432", "10.20.1.2,600"], 1, "no line\nwhy       the plain file grants ports 1 to 511; give the marked one"),
            ("root", ["0", "10.20.1.2,600", "--marked", marked], 4, "not ruled\n"), ("port 1024", ["432", "10.20.1.2,1024", "--marked", marked], 4, "not ruled\n"),
            ("quiet", ["432", "10.20.1.2,600", "-q", "--marked", marked], 0, b"")):
        expect("byuid: " + what, gate("byuid", both, *arguments), status, out, b"")
    expect("a marked file over its limit", gate("byuid", both, "432", "10.20.1.2,80", "--marked", long), 2, b"", "long: refused: longer than its section may be [2]")
    pathlib.Path(long).write_bytes(b"x\n10.0.0.0/8:600,700\n")
    expect("a marked file of the retired form", gate("byuid", both, "432", "10.20.1.2,80", "--marked", long), 2, b"", "long:2: refused: a line of the retired form")
    expect("a marked file that is not there", gate("byuid", both, "432", "10.20.1.2,80", "--marked", folder + "/none"), 2, b"", "No such file")
    requests = folder + "/requests"
    pathlib.Path(requests).write_text(f"byuid 432 10.20.1.2,600 --marked {marked} => granted marked:2\nbyuid 432 10.20.1.2,511 --marked {marked} => granted byuid:1\n"
                                      "byuid 432 10.20.1.2,600 => no line\n")
    expect("marked files in requests", gate("test", both, requests), 0, "3 requests, all as expected", b"")
    pathlib.Path(requests).write_text("byuid 432 10.20.1.2,600 --marked none => granted\n")
    expect("a missing marked file in requests", gate("test", both, requests), 2, "1 not read", "none: No such file")


def test_authbind(folder):
    """authbind's files in a folder of their own: each of them decides where those before it are absent"""
    root = pathlib.Path(folder + "/root")

    def ask(address, port, *options, uid="432"):
        return gate("authbind", uid, f"{address},{port}", "--root", str(root), *options)

    for address, names in (("10.20.1.2", ["10.20.1.2,%d", "10.20.1.2:%d"]), ("2001:db8::1", ["2001:db8::1,%d", "2001:db8:0:0:0:0:0:1,%d"]),
                           ("1:2:3:4:5:6:7:8", ["1:2:3:4:5:6:7:8,%d"])):
        for port, mark in ((80, ""), (511, ""), (512, "!"), (1023, "!")):
            shutil.rmtree(root, ignore_errors=True)
            for part in ("byport", "byaddr", "byuid"):
                (root / "etc/authbind" / part).mkdir(parents=True)
            byuid = root / f"etc/authbind/byuid/{mark}432"
            expect("no file at all", ask(address, port), 1, f"no line\nabsent    {byuid}\n", b"")
            byuid.write_text(f"10.0.0.0/9,1-1023\n::/0,{port}\n")
            expect("a line of byuid", ask(address, port), 0, f"granted\nrule      {byuid}:{1 if '.' in address else 2}\n", b"")
            expect("another port", ask(address, port - 1 if port in (511, 1023) else port + 1), 0 if "." in address else 1, None, b"")
            for path in [root / f"etc/authbind/byaddr/{mark}{name % port}" for name in reversed(names)] + [root / f"etc/authbind/byport/{mark}{port}"]:
                path.touch(mode=0o644)
                expect(f"{path} denies", ask(address, port), 1, f"denied\nfile      {path}\nwhy       Permission denied\n".encode(), b"")
                path.chmod(0o755)
                expect(f"{path} grants", ask(address, port), 0, f"granted\nfile      {path}\n".encode(), b"")
                expect("quiet", ask(address, port, "-q"), 0, b"", b"")
    for what, done, status, out, err in (
            ("root", ask("10.20.1.2", 80, uid="0"), 4, "not ruled\n", b""), ("port 1024", ask("10.20.1.2", 1024), 4, "not ruled\n", b""),
            ("an address with dots", ask("::ffff:10.20.1.2", 80), 2, b"", "[18]"), ("the loopback", ask("::1", 80), 1, "no line\n", b"")):
        expect(what, done, status, out, err)
    (root / "etc/authbind/byuid/432").write_bytes(b"#" * 8193)
    expect("a byuid file over its limit", ask("::1", 80), 2, b"", "432: refused: longer than its section may be [2]")
    (root / "etc/authbind/byuid/432").write_bytes(b"::/0,80\n10.0.0.0/8:80,90\n")
    expect("a byuid file of the retired form", ask("::1", 80), 2, b"", "432:2: refused: a line of the retired form that used to grant [22]; gate convert OLD NEW rewrites such lines")
    (root / "etc/authbind/byuid/432").unlink()
    (root / "etc/authbind/byuid/432").mkdir()
    expect("a byuid file that can't be read", ask("::1", 80), 2, b"", "Is a directory")
    expect("a root that is too long", gate("authbind", "432", "::1,80", "--root", "x/" * 2100), 2, b"", "the path is too long")


def test_explain(folder):
    expect("explain lists all", gate("explain"), 0, "\n14  ", b"")
    expect("explain lists the last", gate("explain"), 0, "\n22  ", b"")
    for number in range(23):
        done = gate("explain", str(number))
        expect(f"explain {number}", done, 0, "What to do", b"")
        example = re.search(rb"Example, in (hosts.allow|portacl|byuid|a table):\n    (.*)\n", done.stdout)
        if not example or number in (2, 4, 6):
            continue
        text = re.sub(rb" \(.*\)", b"", example[2]).replace(b"\\r", b"\r")
        if example[1] == b"a table":
            where = station(folder + "/explained", tables=[(b"t", text)])
        else:
            where = station(folder + "/explained", **{example[1].decode().replace("hosts.", ""): text + (b"\n" if example[1] == b"hosts.allow" else b"")})
        expect(f"the example of {number}", gate("check", where), 1, ": 1 fault", f"[{number}]\n")


# Requests

def test_requests(folder):
    def requests(text):
        path = os.path.join(folder, "requests")
        pathlib.Path(path).write_bytes(text)
        return path
    van = b"match sshd 10.1.1.1 --name van7.vans.example"
    for answer, status in ((b"granted", 0), (b"granted hosts.allow:2", 0), (b"granted hosts.allow:2:", 0), (b" granted ", 0), (b"denied", 1), (b"ask", 1),
                           (b"granted hosts.allow:3", 1), (b"granted hosts.allow:2: x", 1), (b"granted no rule", 1), (b"granted hosts", 1),
                           (b"grant", 2), (b"granted:", 2), (b"", 2), (b"GRANTED", 2)):
        expect(f"expecting {answer}", gate("test", SAMPLE, requests(van + b" => " + answer)), status)
    expect("what differs is shown", gate("test", SAMPLE, requests(b"\n" + van + b" => denied\n")), 1, "1 request, 1 not as expected\n",
           "requests:2: not as expected: %s\n    expected  denied\n    answered  granted hosts.allow:2:\n" % van.decode())
    for line in (b"match sshd", b"verdict a b", van, b"=> granted", b"byuid www-data ::1,80 => granted", b"portacl 1 sctp:80 => denied", b"check => ask",
                 b"match -q sshd 10.1.1.1 => denied", b"match sshd 10.1.1.1 --index x => denied", b"match sshd 10.20.30.400 => denied", b"x" * 5000 + b" => ask", b"byuid 1 ::1,80\0 => ask",
                 b"match " + b"a " * 40 + b"=> ask"):
        done = gate("test", SAMPLE, requests(b"# one\n" + line + b"\n" + van + b" => denied\n"))
        expect(f"{line[:60]} is no request", done, 2, "1 not as expected, 1 not read", "requests:2: ")
    expect("no request at all", gate("test", SAMPLE, requests(b"# x\n\n")), 2, b"", "holds no request")
    expect("requests by standard input", gate("test", SAMPLE, "-", stdin=van + b" => granted\n"), 0, b"-: 1 request, all as expected\n", b"")
    expect("both by standard input", gate("test", "-", "-"), 2, b"", "both")
    expect("test -q", gate("test", "-q", SAMPLE, requests(van + b" => denied\n")), 1, b"", b"")
    printed = gate("test", "--print", SAMPLE, SAMPLE + "/requests").stdout
    expect("what --print prints is as expected", gate("test", SAMPLE, requests(printed)), 0, "13 requests, all as expected", b"")


# Indexes

def test_index(folder):
    sheet, index, right = pathlib.Path(folder) / "one.sheet", pathlib.Path(folder) / "one.index", ref.index(SHEET, 1 << 32)
    sheet.write_bytes(SHEET)
    written = b"%s: 136 bytes, 4 rules\n" % os.fsencode(index)
    expect("an index", gate("index", sheet, index), 0, written, b"")
    if index.read_bytes() != right or sheet.read_bytes() != SHEET or left_over(folder):
        fail("an index is the one of the sheet", index.read_bytes(), right)
    index.write_bytes(b"what was there")
    index.chmod(0o640)
    expect("an index over another", gate("index", "-", index, stdin=SHEET), 0, written, b"")
    if index.read_bytes() != right or index.stat().st_mode & 0o777 != 0o640:
        fail("an index over another keeps its mode")
    expect("an index quietly", gate("index", "-q", sheet, index), 0, b"", b"")
    expect("an index from and to standard streams", gate("index", "-", "-", stdin=SHEET), 0, right, b"")
    expect("of a sheet without rules", gate("index", "-", index, stdin=ref.sheet_of([b"", b"", b"", b"", ref.NO_TABLES])), 0, ": 8 bytes, 0 rules\n", b"")
    expect("of one rule", gate("index", "-", index, stdin=ref.sheet_of([b"", b"a:b\n", b"", b"", ref.NO_TABLES])), 0, ": 40 bytes, 1 rule\n", b"")
    most = ref.sheet_of([b"a:b\n" * 4096, b"a:b\n" * 4096, b"", b"", ref.NO_TABLES])
    expect("of the most rules", gate("index", "-", index, stdin=most), 0, ": 262152 bytes, 8192 rules\n", b"")
    expect("an answer by it", gate("match", "-", "sshd", "10.1.1.1", "--index", index, stdin=most), 0, "looked at 8192 elements\n", b"")
    test_index_places(folder, sheet, index)
    test_by_index(folder, sheet, right)


def test_index_places(folder, sheet, index):
    """a sheet that is refused and a place that can't be written change nothing"""
    os.link(sheet, folder + "/linked")
    os.symlink(sheet, folder + "/symbolic")
    for what, name, message in (("its sheet", sheet, "is the sheet"), ("another name of it", folder + "/linked", "is the sheet"),
                                ("it by another path", folder + "/./one.sheet", "is the sheet"), ("a link to it", folder + "/symbolic", "symbolic link"),
                                ("a folder", folder, "is a folder"), ("no folder", folder + "/none/x", "none/x: No such file")):
        expect("an index for " + what, gate("index", sheet, name), 2, b"", message)
    with sheet.open("rb") as source:
        expect("an index for its sheet on standard input", gate("index", "-", sheet, stdin=source), 2, b"", "is the sheet")
    if sheet.read_bytes() != SHEET or left_over(folder):
        fail("an index that can't be written changes nothing")
    expect("of no sheet", gate("index", folder + "/none", index), 2, b"", "none: No such file")
    for what, bytes_, message in (("a cut sheet", SHEET[:-1], "refused: 1 fault"), ("nothing", b"", "the sheet ends within a section"), ("a byte more", SHEET + b"\0", "[3]"),
                                  ("a sheet of four sections", OLD_SHEET, "gate upgrade OLD NEW"),
                                  ("three bad lines", ref.sheet_of([b"x\n", b"a:/t\n", b"", b"y", ref.NO_TABLES]), "refused: 3 faults")):
        index.write_bytes(b"what was there")
        expect("an index of " + what, gate("index", "-", index, stdin=bytes_), 2, b"", message)
        expect("the same to standard output", gate("index", "-", "-", stdin=bytes_), 2, b"", message)
        if index.read_bytes() != b"what was there" or left_over(folder):
            fail("a sheet that is refused changes no index: " + what)


def test_by_index(folder, sheet, right):
    """gate match --index: the same answers, and an error for another index"""
    index = pathlib.Path(folder) / "right.index"
    index.write_bytes(right)
    for arguments in (VAN, ["sshd", "10.20.30.41"], ["sshd", "fitter@10.20.30.41"], ["sshd", "10.9.30.41", "--paranoid"], ["x", "unknown"], ["sshd", "10.20.30.41", "--unknown-user"],
                      ["console@192.0.2.1", "::1", "--server-name", "a", "--process", "7"], ["sshd", "::ffff:10.20.30.41"], ["-q", "sshd", "10.1.1.1"]):
        for where in (sheet, SAMPLE):
            alone = gate("match", where, *arguments)
            expect(f"by the index: {arguments}", gate("match", where, *arguments, "--index", index), alone.returncode, alone.stdout, alone.stderr)
    expect("a sheet on standard input", gate("match", "-", *VAN, "--index", index, stdin=SHEET), 0, "granted\nrule      -(hosts.allow):2\n", b"")
    expect("an index on standard input", gate("match", sheet, *VAN, "--index", "-", stdin=right), 0, "granted\n", b"")
    expect("both on standard input", gate("match", "-", *VAN, "--index=-", stdin=SHEET), 2, b"", "can't both come from standard input")
    for what, bytes_ in (("no bytes", b""), ("a byte less", right[:-1]), ("a byte more", right + b"\0"), ("a byte changed", right[:-1] + bytes([right[-1] ^ 1])), ("a sheet", SHEET),
                         ("a megabyte", bytes(1 << 20)), ("another sheet's", ref.index(ref.sheet_of([b"a:b\n", b"", b"", b"", ref.NO_TABLES]), 1000))):
        index.write_bytes(bytes_)
        expect("by an index of " + what, gate("match", sheet, *VAN, "--index", index), 2, b"", f"gate: {index}: not the index of {sheet} [21]: gate index writes it\n")
    expect("a refused sheet comes first", gate("match", "-", *VAN, "--index", index, stdin=SHEET[:-1]), 2, b"", "refused: 1 fault")


# Files

def left_over(folder):
    return [path for path in pathlib.Path(folder).rglob(".gate-*")]


def test_reading(folder):
    text = os.path.join(folder, "text")
    pathlib.Path(text).write_bytes(b"x")
    for command in ("check", "match", "byuid", "portacl", "test"):
        rest = {"match": VAN, "byuid": ["1", "::1,80"], "portacl": ["1", "tcp:80"], "test": [SAMPLE + "/requests"]}.get(command, [])
        for what, path, message in (("a missing file", folder + "/none", "none: No such file"), ("a path through a file", text + "/x", "Not a directory"),
                                    ("an empty path", "", "(empty): No such file")):
            expect(f"{command} of {what}", gate(command, path, *rest), 2, b"", message)
    part = station(folder + "/part")
    os.unlink(part + "/byuid")
    expect("a station of three texts", gate("check", part), 2, b"", "part/byuid: No such file: a station has")
    os.mkdir(part + "/byuid")
    expect("a folder for a text", gate("check", part), 2, b"", "part/byuid: Is a directory")
    expect("a missing file of requests", gate("test", SAMPLE, folder + "/none"), 2, b"", "none: No such file")
    expect("a folder for requests", gate("test", SAMPLE, SAMPLE), 2, b"", "Is a directory")
    expect("a folder for a sheet", gate("unpack", SAMPLE, folder + "/x"), 2, b"", "Is a directory")
    os.chmod(text, 0)
    os.chmod(folder, 0o755)
    if os.geteuid() == 0:
        expect("an unreadable file", gate("check", text, user=65534), 2, b"", "text: Permission denied")
    else:
        expect("an unreadable file", gate("check", text), 2, b"", "text: Permission denied")
    for what, arguments in (("explain", ["explain"]), ("check", ["check", SAMPLE]), ("pack", ["pack", SAMPLE, "-"]), ("help", ["--help"]),
                            ("match", ["match", SAMPLE, *VAN])):
        with open("/dev/full", "wb") as full:
            done = gate(*arguments, capture_output=False, stdout=full, stderr=subprocess.PIPE)
        expect(what + " to a full device", done, 2, None, "standard output: No space left on device")
    closed = subprocess.run(["/bin/sh", "-c", '"$0" check - <&-', PROGRAM], capture_output=True, check=False)
    expect("closed standard input", closed, 2, b"", "standard input: Bad file descriptor")
    closed = subprocess.run(["/bin/sh", "-c", '"$0" explain >&-', PROGRAM], capture_output=True, check=False)
    expect("closed standard output", closed, 2, None, "standard output: Bad file descriptor")


def make_device(path):
    """a full device of our own, where the system lets us make one"""
    try:
        os.mknod(path, 0o600 | stat.S_IFCHR, os.makedev(1, 7))
    except OSError:
        return []
    return [path]


def test_pack(folder):
    sheet, new = folder + "/station.sheet", folder + "/new.sheet"
    expect("packing", gate("pack", SAMPLE, sheet), 0, b"%s: 398 bytes\n" % sheet.encode(), b"")
    expect("packing to standard output", gate("pack", SAMPLE, "-"), 0, SHEET, b"")
    os.chmod(sheet, 0o640)
    expect("packing again", gate("pack", "-q", SAMPLE, sheet), 0, b"", b"")
    gate("pack", SAMPLE, new, umask=0o027)
    for path, mode in ((sheet, 0o640), (new, 0o640)):
        if pathlib.Path(path).read_bytes() != SHEET or os.stat(path).st_mode & 0o777 != mode:
            fail(f"bytes and mode of {path}", oct(os.stat(path).st_mode))
    os.symlink("station.sheet", folder + "/link")
    os.mkfifo(folder + "/fifo")
    device = make_device(folder + "/device")
    own = station(folder + "/own", tables=[(b"vans", b"")])
    for what, where, path, message in (
            ("a folder", SAMPLE, folder, "is a folder"), ("a symbolic link", SAMPLE, folder + "/link", "is a symbolic link"),
            ("no path", SAMPLE, "", "no path"),
            *(("a device", SAMPLE, path, "is no regular file") for path in device), ("a pipe", SAMPLE, folder + "/fifo", "is no regular file"),
            ("a missing folder", SAMPLE, folder + "/none/sheet", "No such file"), ("a text of its own", own, own + "/byuid", "is one of the texts"),
            ("a table of its own", own, own + "/tables/vans", "is one of the texts"),
            ("a sheet for a folder", sheet, new, "is no folder"), ("a missing station", folder + "/none", new, "No such file"),
            ("a refused station", station(folder + "/bad", b"x\ny\n"), sheet, "refused: 2 faults")):
        expect("packing to or from " + what, gate("pack", where, path), 2, b"", message)
    if pathlib.Path(sheet).read_bytes() != SHEET or left_over(folder):
        fail("refusals leave all as it was")


def test_unpack(folder):
    sheet, out = folder + "/station.sheet", folder + "/out"
    pathlib.Path(sheet).write_bytes(SHEET)

    def has_texts(where):
        return [(pathlib.Path(where) / name).read_bytes() for name in NAMES] == TEXTS and sorted(os.listdir(where)) == sorted(NAMES)
    expect("unpacking", gate("unpack", sheet, out + "//", umask=0o022), 0, b"%s: hosts.allow, hosts.deny, byuid, portacl\n" % out.encode(), b"")
    modes = {oct(os.stat(path).st_mode & 0o777) for path in (out, out + "/byuid")}
    if not has_texts(out) or modes != {"0o755", "0o644"}:
        fail("what is unpacked", modes)
    os.mkdir(folder + "/empty")
    expect("unpacking from standard input to a folder", gate("unpack", "-q", "-", folder + "/empty", stdin=SHEET), 0, b"", b"")
    if not has_texts(folder + "/empty"):
        fail("what is unpacked to an empty folder")
    (pathlib.Path(out) / "portacl").write_bytes(b"mine")
    expect("texts are not replaced", gate("unpack", sheet, out), 2, b"", "hosts.allow: is there already")
    if (pathlib.Path(out) / "portacl").read_bytes() != b"mine":
        fail("a text was replaced")
    os.chmod(out + "/byuid", 0o600)
    expect("unpacking by force", gate("unpack", "--force", sheet, out), 0, None, b"")
    if not has_texts(out) or os.stat(out + "/byuid").st_mode & 0o777 != 0o600:
        fail("what is unpacked by force")
    os.unlink(out + "/byuid")
    os.symlink("hosts.deny", out + "/byuid")
    os.symlink("nowhere", folder + "/dangling")
    for what, arguments, message in (
            ("a text that is a link", ["-f", sheet, out], "is a symbolic link"), ("a file for a folder", [sheet, sheet], "is no folder"),
            ("a missing folder above", [sheet, folder + "/no/such"], "No such file"), ("no path", [sheet, ""], "give a folder"),
            ("standard output", [sheet, "-"], "give a folder"), ("a link to nowhere", [sheet, folder + "/dangling"], "leads nowhere"),
            ("a missing sheet", [folder + "/none", out + "2"], "No such file")):
        expect("unpacking: " + what, gate("unpack", *arguments), 2, b"", message)
    expect("unpacking a cut sheet", gate("unpack", "-", out + "2", stdin=SHEET[:-1]), 2, b"", "refused: 1 fault")
    if os.path.exists(out + "2") or left_over(folder):
        fail("refusals leave nothing")


# Tables

TABLES = sorted((path.name.encode(), path.read_bytes()) for path in (TOP / "sample/fleet/tables").iterdir())
STATIONS_TEXTS = {name: [(TOP / "sample/fleet" / name / file).read_bytes() for file in NAMES] for name in ("north", "south")}
SHEETS = {name: ref.pack(texts + [ref.section_five(TABLES)], SHEET_LIMIT) for name, texts in STATIONS_TEXTS.items()}

TABLES_MARKED = b"""\
./hosts.allow:1: no table of this name [15]
    1 | sshd: /a, x@/missing
      |             ^~~~~~~~
      = there is no table missing: name one that is there, or write its hosts into ./tables/missing
./tables/vans: table 7: a second table of this name [15]
      = names are compared without case, and ./tables/VANS is table 1: rename one, or put all their hosts into one
./tables/vans:3: table 7: no table of this name [15]
    3 | 10.0.0.0/8 /missing
      |            ^~~~~~~~
      = there is no table missing: name one that is there, or write its hosts into ./tables/missing
./hosts.allow:2: a rule leads more than four tables deep [16]
    2 | ALL@/A: /VANS
      |     ^~
      = /a /b /c /d /e: the table that a rule names is the first, and the fourth may name none
./tables/vans:1: table 7: no host pattern [17]
    1 | # vans
      | ^
      = a table has no comments: it holds hosts, and nothing else
./tables/vans:2: table 7: no host pattern [17]
    2 | van7, EXCEPT fitter@x ::1 /!
      | ^~~~~ ^~~~~~ ^~~~~~~~ ^~~ ^~
      = the hosts of a table are parted by blanks, tabs and newlines, not by commas
      = a table has no EXCEPT: it stands in the rule, as in /name EXCEPT host
      = a table has no users and no netgroups: a user stands in the rule, as in user@/name
      = an IPv6 address stands in brackets, and a table has no commands
      = a table is named by / and 1 to 64 letters, digits, - _ .
./tables/x~: table 8: its name is not of 1 to 64 letters, digits, - _ . [17]
      = every file in a folder of tables is one, but for those that begin with a dot: rename it, or take it out
"""
CHAIN = [(b"a", b"/b"), (b"b", b"/c"), (b"c", b"/d"), (b"d", b"/e"), (b"e", b"host")]


def test_tables(folder):
    """a station's own tables, and those of another folder"""
    marked = station(folder + "/marked", b"sshd: /a, x@/missing\nALL@/A: /VANS\n", tables=CHAIN + [
        (b"VANS", b""), (b"vans", b"# vans\nvan7, EXCEPT fitter@x ::1 /!\n10.0.0.0/8 /missing\n"), (b"x~", b"")])
    expect("faults of tables with their marks", gate("check", ".", cwd=marked), 1, b".: 7 faults\n", TABLES_MARKED)
    expect("the same of a sheet", gate("check", "-", stdin=SHEETS["north"].replace(b"/depot\n", b"/depto\n")), 1, b"-: 1 fault\n",
           "-(tables/vans):3: table 2: no table of this name [15]\n    3 | /depto\n      | ^~~~~~\n      = there is no table depto in this sheet\n")
    north, tables = FLEET + "/north", FLEET + "/tables"
    expect("a rule that names a table where there is none", gate("check", north), 1, ": 2 faults\n", "has no folder of tables; give it with --tables FOLDER")
    expect("with the tables", gate("check", "-W", north, "--tables", tables), 0, "sound, 362 bytes as a sheet", b"")
    for what, arguments, status, out in (
            ("match", ["match", north, "console", "10.20.1.9"], 0, "granted\n"), ("byuid", ["byuid", north, "432", "10.20.1.2,80"], 0, "granted\n"),
            ("portacl", ["portacl", north, "432", "udp:80"], 1, "denied\n"), ("test", ["test", north, north + "/requests"], 0, "8 requests, all as expected")):
        expect(what + " without tables", gate(*arguments), 2, b"", "no table of this name [15]")
        expect(what + " with tables", gate(*arguments, "--tables", tables), status, out, b"")
    with open(folder + "/requests", "wb") as requests:
        requests.write(b"match sshd 10.1.1.1 --tables x => denied\n")
    expect("tables in a request", gate("test", SAMPLE, folder + "/requests"), 2, "1 not read", "without the station, --tables, --index and -q")
    sheet = folder + "/north.sheet"
    expect("packing with tables", gate("pack", north, sheet, "--tables", tables + "/"), 0, "362 bytes", b"")
    if pathlib.Path(sheet).read_bytes() != SHEETS["north"]:
        fail("a sheet with tables", pathlib.Path(sheet).read_bytes(), SHEETS["north"])
    expect("a sheet has its tables", gate("check", sheet, "--tables", tables), 2, b"", "has its tables with it")
    expect("a sheet on standard input", gate("check", "-", "--tables", tables, stdin=SHEET), 2, b"", "has its tables with it")
    own = station(folder + "/own", b"ALL: /vans\n", tables=[(b"vans", b"10.0.0.1/8\n"), (b".hidden", b"EXCEPT"), (b"left", b"")])
    expect("a station's own tables", gate("check", "-W", own), 0, "sound, 58 bytes as a sheet, 2 warnings", "left: warning: no rule leads to this table")
    expect("a net in a table", gate("check", "-W", own), 0, None, "tables/vans:1: warning: matches no address")
    expect("the same folder by its name", gate("check", own, "--tables", own + "/tables"), 0, "sound, 58 bytes", b"")
    expect("two folders of tables", gate("check", own, "--tables", tables), 2, b"", "own/tables: this station has tables of its own, and is given those of")
    for what, where, message in (("none", folder + "/none", "none: No such file"), ("a file", sheet, "Not a directory"), ("no path", "", "(empty): No such file")):
        expect("tables of " + what, gate("check", north, "--tables", where), 2, b"", message)
    os.mkdir(own + "/tables/deeper")
    expect("a folder for a table", gate("check", own), 2, b"", "tables/deeper: is no file: a table is a file")
    os.rmdir(own + "/tables/deeper")
    os.symlink("nowhere", own + "/tables/dangling")
    expect("a link to nowhere for a table", gate("check", own), 2, b"", "tables/dangling: No such file")
    test_table_limits(folder)
    test_unpacked_tables(folder)


def test_table_limits(folder):
    for count, status, message in ((64, 0, b""), (65, 1, "tables: 65 tables, and the most is 64 [17]"), (1024, 1, "1024 tables"), (1025, 2, "over 1024 files")):
        where = station(folder + "/many", tables=[(b"t%d" % i, b"") for i in range(count)])
        expect(f"{count} tables", gate("check", where), status, None, message)
    for size, status, message in ((12288 - 8, 0, b""), (12288 - 7, 1, "tables: 12289 bytes with their names and counts, and the most is 12288 [17]"),
                                  (100000, 1, "65545 bytes")):
        where = station(folder + "/long", tables=[(b"t", b"\n" * size)])
        expect(f"a table of {size} bytes", gate("check", where), status, None, message)
    for name, status in ((b"n" * 64, 0), (b"n" * 65, 1), (b"n" * 255, 1), (b"a b", 1), (b"EXCEPT", 0), (b"10", 0), (b"\xc3\xa4", 1)):
        expect(f"a table called {name}", gate("check", station(folder + "/named", tables=[(name, b"")])), status, None, "[17]" if status else b"")
    before = time.monotonic()
    for five in gen.vast_tables(5000):
        expect("vast tables", gate("check", "-", stdin=ref.sheet_of([b"ALL: /a\n", b"", b"", b"", five])), ref.refused(ref.frame_five(five) or ref.naming_fault(
            b"ALL: /a\n", b"", five)), None, None)
    if time.monotonic() - before > 20:
        fail("vast tables take too long")


def test_unpacked_tables(folder):
    """into a new folder, into one that is there, over tables that are there; and back"""
    sheet, out = folder + "/tabled.sheet", folder + "/out"
    pathlib.Path(sheet).write_bytes(SHEETS["north"])

    def has_all(where):
        texts = [(pathlib.Path(where) / name).read_bytes() for name in NAMES]
        tables = sorted((path.name.encode(), path.read_bytes()) for path in (pathlib.Path(where) / "tables").iterdir())
        return texts == STATIONS_TEXTS["north"] and tables == TABLES and sorted(os.listdir(where)) == sorted(NAMES + ("tables",))

    expect("unpacking tables", gate("unpack", sheet, out, umask=0o022), 0, b"%s: hosts.allow, hosts.deny, byuid, portacl, 2 tables\n" % out.encode(), b"")
    modes = [oct(os.stat(path).st_mode & 0o777) for path in (out, out + "/tables", out + "/tables/vans")]
    if not has_all(out) or modes != ["0o755", "0o755", "0o644"]:
        fail("unpacked tables", modes)
    expect("and packing them again", gate("pack", out, folder + "/again.sheet"), 0, "362 bytes", b"")
    if pathlib.Path(folder + "/again.sheet").read_bytes() != SHEETS["north"]:
        fail("a sheet, unpacked and packed, is the same")
    os.mkdir(folder + "/empty")
    expect("into an empty folder", gate("unpack", sheet, folder + "/empty", umask=0o022), 0, "2 tables", b"")
    if not has_all(folder + "/empty") or left_over(folder):
        fail("unpacked tables in a folder that was there", sorted(pathlib.Path(folder + "/empty").rglob("*")))
    shutil.rmtree(out + "/tables")
    (pathlib.Path(out) / "tables").mkdir()
    (pathlib.Path(out) / "tables/vans").write_bytes(b"mine")
    for name in NAMES:
        (pathlib.Path(out) / name).unlink()
    expect("a table is not replaced", gate("unpack", sheet, out), 2, b"", "tables/vans: is there already")
    if (pathlib.Path(out) / "tables/vans").read_bytes() != b"mine" or os.listdir(out) != ["tables"]:
        fail("a table was replaced")
    expect("but by force", gate("unpack", "-f", sheet, out), 0, "2 tables", b"")
    if not has_all(out):
        fail("tables unpacked by force")
    for name in ("other", "VANS"):
        (pathlib.Path(out) / "tables" / name).write_bytes(b"")
        expect("a table that the sheet has not", gate("unpack", "-f", sheet, out), 2, b"", f"tables/{name}: is no table of this sheet: move it away first")
        (pathlib.Path(out) / "tables" / name).unlink()
    os.rename(out + "/tables", folder + "/shared")
    os.symlink(folder + "/shared", out + "/tables")
    expect("tables that others have too", gate("unpack", "-f", sheet, out), 2, b"", "tables: is a symbolic link, and others may have these tables too")
    os.unlink(out + "/tables")
    os.rename(folder + "/shared", out + "/tables")
    expect("tables where the sheet has none", gate("unpack", "-f", "-", out, stdin=SHEET), 2, b"", "is no table of this sheet")
    dotted = ref.sheet_of([b"", b"", b"", b"", ref.section_five([(b".x", b"")])])
    expect("a table that can't be a file", gate("unpack", "-", folder + "/dotted", stdin=dotted), 2, b"", "table 1 is called .x")
    if os.path.exists(folder + "/dotted") or not has_all(out) or left_over(folder):
        fail("refusals leave all as it was")


def test_fleet(folder):
    """every station of a folder, with one folder of tables"""
    fleet = folder + "/fleet"
    shutil.copytree(FLEET, fleet)
    tables, sheets = fleet + "/tables", {name: pathlib.Path(fleet) / (name + ".sheet") for name in SHEETS}
    lines = b"".join(b"%s: %d bytes\n" % (os.fsencode(path), len(SHEETS[name])) for name, path in sorted(sheets.items()))
    expect("a fleet", gate("fleet", fleet, tables), 0, lines + b"%s: 2 stations, 2 sheets written\n" % fleet.encode(), b"")
    if any(path.read_bytes() != SHEETS[name] for name, path in sheets.items()) or left_over(fleet):
        fail("the sheets of a fleet")
    for name, path in sheets.items():
        expect(f"what {name} answers", gate("test", path, f"{fleet}/{name}/requests"), 0, "all as expected", b"")
    expect("a fleet, quiet", gate("fleet", "-q", fleet, tables), 0, b"", b"")

    def expect_kept(what, status, out, err, *options, kept=("north", "south")):
        for path in sheets.values():
            path.write_bytes(b"what was there")
        expect(what, gate("fleet", fleet, tables, *options), status, out, err)
        for name, path in sheets.items():
            if path.read_bytes() != (b"what was there" if name in kept else SHEETS[name]):
                fail(what + ": the sheet of " + name, path.read_bytes()[:40])
        if left_over(fleet):
            fail(what + " leaves nothing", left_over(fleet))

    south = pathlib.Path(fleet) / "south"
    (south / "hosts.deny").write_bytes(b"ALL: ALL\nsshd: /nobody, x!\nALL: /nobody\n")
    expect_kept("a fleet with a faulty station", 1, "south: 2 faults; %s is as it was\n%s: 2 stations, 1 sheet written\n" % (sheets["south"], fleet),
                "south/hosts.deny:3: no table of this name [15]", kept=["south"])
    expect_kept("the same, quiet", 1, b"", "south/hosts.deny:2: no element kind fits [10]", "-q", kept=["south"])
    (south / "hosts.deny").write_bytes(STATIONS_TEXTS["south"][1])
    (south / "byuid").unlink()
    expect_kept("a fleet with a station of three texts", 2, "/south: an error\n%s: 2 stations, 1 sheet written\n" % fleet, "south/byuid: No such file", kept=["south"])
    (south / "byuid").write_bytes(b"")
    os.mkdir(fleet + "/empty")
    expect_kept("a fleet with an empty folder", 2, "3 stations, 2 sheets written", "empty/hosts.allow: No such file", kept=[])
    os.rename(fleet + "/empty", fleet + "/.hidden")
    write_tables(fleet + "/south/tables", [(b"vans", b"")])
    expect_kept("a station with tables of its own", 2, "1 sheet written", "south/tables: this station has tables of its own", kept=["south"])
    shutil.rmtree(fleet + "/south/tables")
    (pathlib.Path(tables) / "vans").write_bytes(b"a, b\n/depto\n")
    expect_kept("a fleet with faulty tables", 1, "south: 2 faults of the tables; ", "tables/vans:2: table 2: no table of this name [15]")
    done = gate("fleet", fleet, tables)
    if done.stderr.count(b"[15]") != 1 or done.stderr.count(b"[17]") != 1:
        fail("faults of the tables are shown once", done.stderr)
    (pathlib.Path(tables) / "vans").write_bytes(TABLES[1][1])
    (pathlib.Path(tables) / "spare").write_bytes(b"10.0.0.1/8\n")
    expect("a table that no station uses", gate("fleet", "-W", fleet, tables), 0, "2 sheets written", "tables/spare: warning: no rule of any station leads to this table")
    done = gate("fleet", "-W", fleet, tables)
    if done.stderr.count(b"warning") != 2:
        fail("warnings of the tables are shown once", done.stderr)
    os.unlink(tables + "/spare")
    sheets["south"].unlink()
    os.mkdir(sheets["south"])
    expect("a folder in a sheet's place", gate("fleet", fleet, tables), 2, "3 stations, 1 sheet written", "south.sheet: is a folder")
    os.rmdir(sheets["south"])
    for what, arguments, message in (("no stations", [tables, tables], "holds no station"), ("no folder", [folder + "/none", tables], "none: No such file"),
                                     ("no tables", [fleet, folder + "/none"], "none: No such file"), ("a sheet for tables", [fleet, sheets["north"]], "Not a directory")):
        expect("a fleet of " + what, gate("fleet", *arguments), 2, b"", message)
    expect("a fleet again", gate("fleet", fleet, tables), 0, "2 stations, 2 sheets written", b"")


def test_upgrade(folder):
    """sheets of four sections"""
    old, new = pathlib.Path(folder) / "old.sheet", pathlib.Path(folder) / "new.sheet"
    old.write_bytes(OLD_SHEET)
    expect("a sheet of four sections", gate("check", old), 1, None, "gate upgrade OLD NEW appends an empty fifth")
    expect("upgrading", gate("upgrade", old, new), 0, b"%s: 398 bytes, with no tables\n" % os.fsencode(new), b"")
    if new.read_bytes() != SHEET or old.read_bytes() != OLD_SHEET:
        fail("an upgraded sheet")
    expect("upgrading from and to standard streams", gate("upgrade", "-", "-", stdin=OLD_SHEET), 0, SHEET, b"")
    expect("upgrading in place", gate("upgrade", "-q", old, old), 0, b"", b"")
    if old.read_bytes() != SHEET:
        fail("a sheet upgraded in place")
    faulty = ref.sheet_of([b"x\n", b"ALL: /vans", b"", b",", b""])
    expect("a sheet with faults in its lines", gate("upgrade", "-", new, stdin=faulty), 0, "bytes, with no tables", "it has faults: gate check shows them")
    if new.read_bytes() != faulty + bytes(2):
        fail("an upgraded sheet with faults")
    full = ref.sheet_of([b"\n" * 16384, b"\n" * 16384, b"\n" * 8192, b"x" * 4096, b""])
    expect("the longest sheet of four sections", gate("upgrade", "-", new, stdin=full), 0, "45074 bytes", None)
    for what, sheet, message in (
            ("a sheet of five sections", SHEET, "has its tables already"), ("one with tables", SHEETS["north"], "has its tables already"),
            ("a cut one", OLD_SHEET[:-1], "section 4, portacl: it is no sheet of four sections [1]"), ("none", b"", "section 1, allow: it is no sheet of four sections [1]"),
            ("one with a byte more", OLD_SHEET + b"\0", "bytes follow the fourth section, and are no tables: it is no sheet of four sections [3]"),
            ("one over a limit", b"\0\0\x40\1" + bytes(20000), "section 1, allow: it is no sheet of four sections [2]"), ("a text", TEXTS[0], "it is no sheet of four sections [2]"),
            ("two megabytes", bytes(1 << 21), "over 1048576 bytes, and the longest sheet has 57360")):
        new.write_bytes(b"what was there")
        expect("upgrading " + what, gate("upgrade", "-", new, stdin=sheet), 2, b"", message)
        if new.read_bytes() != b"what was there" or left_over(folder):
            fail("a refused upgrade changes nothing")
    expect("upgrading nothing", gate("upgrade", folder + "/none", new), 2, b"", "none: No such file")
    expect("upgrading to a folder", gate("upgrade", old, folder), 2, b"", "is a folder")


def test_carry(folder):
    """a portacl list as byuid texts: both files, or neither"""
    plain, marked = pathlib.Path(folder) / "432", pathlib.Path(folder) / "!432"
    both = b"".join(b"uid:432:%s:%d," % (protocol, port) for port in (600, 9, 512, 80) for protocol in (b"udp", b"tcp"))
    text = both + b"uid:432:tcp:7,gid:432:udp:7,uid:432:udp:1024,uid:432:tcp:1024"
    expected = ref.carry(text, 432, 4096, 4096)
    expect("carrying a list over", gate("carry", "-", "432", plain, marked, stdin=text), 0, b"%s: 40 bytes\n%s: 46 bytes\n" % (os.fsencode(plain), os.fsencode(marked)), b"")
    if [plain.read_bytes(), marked.read_bytes()] != expected or left_over(folder):
        fail("carried texts", plain.read_bytes(), marked.read_bytes(), expected)
    for port, file, status in ((80, "plain", 0), (9, "plain", 0), (7, "plain", 1), (512, "marked", 0), (600, "marked", 0), (601, "marked", 1)):
        station_of = station(folder + "/carried", b"", b"", plain.read_bytes(), b"")
        for address in ("10.20.1.2", "2001:db8::1", "::ffff:1.2.3.4"):
            expect(f"what was written grants {port}", gate("byuid", station_of, "432", f"{address},{port}", "--marked", marked), status, None, None)
    expect("carrying over quietly", gate("carry", "-q", "-", "433", plain, marked, stdin=text), 0, b"", b"")
    if plain.read_bytes() + marked.read_bytes():
        fail("another uid has no lines")
    longest = b",".join(b"uid:1:%s:%d" % (protocol, port) for port in range(100, 246) for protocol in (b"tcp", b"udp"))
    expect("a list near its limit", gate("carry", "-", "1", plain, marked, stdin=longest), 0, None, b"")
    if [plain.read_bytes(), marked.read_bytes()] != ref.carry(longest, 1, 4096, 4096):
        fail("the texts of a list near its limit")
    for what, uid, text, message in (
            ("root's", "0", both[:-1], "uid 0: byuid never rules root"), ("a bad entry", "0", both, "standard input: entry 9: not a portacl entry [12]"),
            ("4,097 bytes", "432", b"," * 4097, "4097 bytes, and the most is 4096 [2]"), ("a megabyte", "432", b"," * (1 << 20), "over 65536 bytes, and the most is 4096 [2]"),
            ("a newline at the end", "432", both[:-1] + b"\n", "entry 8: not a portacl entry [12]")):
        plain.write_bytes(b"old plain"), marked.write_bytes(b"old marked")
        expect("carrying over " + what, gate("carry", "-", uid, plain, marked, stdin=text), 2, b"", message)
        if plain.read_bytes() != b"old plain" or marked.read_bytes() != b"old marked" or left_over(folder):
            fail("a refused list changes neither file: " + what)
    expect("a list that is not there", gate("carry", folder + "/none", "432", plain, marked), 2, b"", "none: No such file")
    expect("a folder for the marked text", gate("carry", "-", "432", plain, folder, stdin=text), 2, b"", "is a folder")
    expect("a folder that is not there", gate("carry", "-", "432", plain, folder + "/none/m", stdin=b""), 2, b"", "none/m: No such file")
    if plain.read_bytes() != b"old plain" or left_over(folder):
        fail("an error of the second file leaves the first as it was")


# A sheet with a bad line of each kind, and what comes of it.
DAMAGED = [b"# vans\nsshd: 10.20.30.400\nsshd: \\\n LOCAL \\\n EXCEPT\nconsole: /vans\nconsole: /gone, /vans\nftpd: /deep: log %h\nsshd: h\xc3\xb6st\nALL: ALL: 100%",
           b"x\nALL: LOCAL\n#\n# the end", b"::/0,80\n10.0.0.0/8:80,90\n10.0.0.1/8:80,90\n192.0.2.7/32:443,443", b"uid:80:tcp:80,,uid:www-data:tcp:80,gid:20:udp:53,",
           ref.section_five([(b"vans", b"van7"), (b"deep", b"/deep")])]
MENDED = [b"# vans\n\n\nconsole: /vans\n\n\n\n\n", b"ALL: ALL\nALL: LOCAL\n#\nALL: ALL\n", b"::/0,80\n10.0.0.0/8,80-90\n10.0.0.1/8:80,90\n192.0.2.7/32,443-443",
          b"uid:80:tcp:80,gid:20:udp:53", DAMAGED[4]]
MENDINGS = b"""hosts.allow:2: dropped [10] sshd: 10.20.30.400
hosts.allow:3: dropped [8] sshd: \\? LOCAL \\? EXCEPT
hosts.allow:7: dropped [15] console: /gone, /vans
hosts.allow:8: dropped [16] ftpd: /deep: log %h
hosts.allow:9: dropped [5] sshd: h??st
hosts.allow:10: dropped [4] ALL: ALL: 100%
hosts.deny:1: now ALL: ALL [7] x
hosts.deny:4: now ALL: ALL [4] # the end
byuid:2: rewritten [22] 10.0.0.0/8:80,90
byuid:4: rewritten [22] 192.0.2.7/32:443,443
portacl entry 2: dropped [12] (empty)
portacl entry 3: dropped [12] uid:www-data:tcp:80
portacl entry 5: dropped [12] (empty)
"""


def test_salvage(folder):
    """damaged sheets: what is written, what is shown of it, and that the damaged one is kept"""
    old, new = pathlib.Path(folder) / "damaged.sheet", pathlib.Path(folder) / "mended.sheet"
    damaged, mended = ref.sheet_of(DAMAGED), ref.sheet_of(MENDED)
    old.write_bytes(damaged)
    written = MENDINGS + b"%s: %d bytes, 13 changes\n" % (os.fsencode(new), len(mended))
    expect("salvaging", gate("salvage", old, new), 1, written, b"")
    if new.read_bytes() != mended or old.read_bytes() != damaged or ref.salvage(damaged, 1 << 32, 1 << 32)[0] != mended or left_over(folder):
        fail("a salvaged sheet", new.read_bytes(), mended)
    expect("what was salvaged is sound", gate("check", new), 0, "sound", b"")
    expect("salvaging it again", gate("salvage", new, folder + "/again"), 0, b"%s/again: %d bytes, nothing was changed\n" % (os.fsencode(folder), len(mended)), b"")
    if pathlib.Path(folder + "/again").read_bytes() != mended:
        fail("a sheet salvaged again is the same")
    expect("salvaging quietly", gate("salvage", "-q", old, new), 1, b"", b"")
    expect("salvaging a sound sheet quietly", gate("salvage", "-q", "-", new, stdin=SHEET), 0, b"", b"")
    if new.read_bytes() != SHEET:
        fail("a sound sheet is written as it is")
    expect("salvaging from and to standard streams", gate("salvage", "-", "-", stdin=damaged), 1, mended, MENDINGS)
    expect("the same of a sound sheet", gate("salvage", "-", "-", stdin=SHEET), 0, SHEET, b"")
    os.link(old, folder + "/linked")
    os.symlink(old, folder + "/symbolic")
    for what, name, message in (("itself", old, "is the sheet to be salvaged"), ("another name of it", folder + "/linked", "is the sheet to be salvaged"),
                                ("itself by another path", folder + "/./damaged.sheet", "is the sheet to be salvaged"), ("a link to it", folder + "/symbolic", "symbolic link"),
                                ("a folder", folder, "is a folder"), ("a folder that is not there", folder + "/none/new", "none/new: No such file")):
        expect("salvaging to " + what, gate("salvage", old, name), 2, b"", message)
        if old.read_bytes() != damaged or left_over(folder):
            fail("the damaged sheet is kept: " + what)
    with open(old, "rb") as source:
        expect("standard input is the sheet itself", gate("salvage", "-", old, stdin=source), 2, b"", "is the sheet to be salvaged")
    expect("salvaging nothing", gate("salvage", folder + "/none", new), 2, b"", "none: No such file")
    bad_pattern, second = ref.section_five([(b"a", b"x,")]), ref.section_five([(b"a", b""), (b"A", b"")])
    for what, sheet, message in (
            ("a cut sheet", damaged[:-1], "not salvaged: 1 fault of its frame"), ("nothing at all", b"", "(hosts.allow): the sheet ends within a section"),
            ("a sheet of four sections", OLD_SHEET, "gate upgrade OLD NEW"), ("one with a byte more", damaged + b"\0", "bytes follow the last section [3]\ngate: standard input: not salvaged"),
            ("one over a limit", b"\0\0\x40\1" + bytes(20000), "its count is 16385 bytes, and the most is 16384 [2]"), ("two megabytes", bytes(1 << 21), "over 1048576 bytes"),
            ("bad tables", ref.sheet_of(DAMAGED[:4] + [bad_pattern]), "table 1: no host pattern [17]"),
            ("two tables of one name", ref.sheet_of(DAMAGED[:4] + [second]), "not salvaged: 1 fault of its tables"),
            ("a deny that grows past its limit", ref.sheet_of([b"", b"x\n" * 1821, b"", b"", ref.NO_TABLES]),
             "standard input: not salvaged: hosts.deny with ALL: ALL for its bad lines is over 16384 bytes [2]")):
        new.write_bytes(b"what was there")
        expect("salvaging " + what, gate("salvage", "-", new, stdin=sheet), 2, b"", message)
        if new.read_bytes() != b"what was there" or left_over(folder):
            fail("a sheet that can't be salvaged changes nothing: " + what)
    test_damaged_sheets(folder)


def shown_change(section, number, fault, was):
    text = "".join(chr(byte) if 32 <= byte < 127 else "?" for byte in was)
    text = text[:197] + "..." if len(text) > 200 else text or "(empty)"
    place, done = {1: ("hosts.allow:", "dropped"), 2: ("hosts.deny:", "now ALL: ALL"), 3: ("byuid:", "rewritten"), 4: ("portacl entry ", "dropped")}[section]
    return f"{place}{number}: {done} [{fault}] {text}\n"


def shown_changes(sheet):
    """of a sheet that can be salvaged, by the reference"""
    parts, at = ref.counted_sections(sheet)
    texts, tables, out = [sheet[place:place + n] for place, n in parts], ref.Tables(ref.read_tables(sheet[at:])[0]), ""
    for section in (1, 2):
        for line in ref.lines(texts[section - 1]):
            if ref.is_bad_line(line, tables):
                missing = 15 if not ref.line_faults(line) and any(not tables.has(name) for name in ref.named_in_rule(line)) else 16
                out += shown_change(section, line.number, min(ref.line_faults(line) or {missing}), line.raw)
    out += "".join(shown_change(3, number, 22, line) for number, line in enumerate(texts[2].split(b"\n"), 1) if ref.retired(line))
    if texts[3]:
        out += "".join(shown_change(4, number, 12, each) for number, each in enumerate(texts[3].split(b","), 1) if ref.entry(each) is None)
    return out.encode()


def test_damaged_sheets(folder):
    """generated ones beside the reference"""
    rng, new = random.Random(9), pathlib.Path(folder) / "new"
    for _ in range(STATIONS):
        sheet = gen.damaged_sheet(rng)
        expected = ref.salvage(sheet, 1 << 32, 1 << 32)
        new.write_bytes(b"what was there")
        done = gate("salvage", "-", new, stdin=sheet)
        if ref.refused(expected):
            expect("a generated sheet that can't be salvaged", done, 2, b"", "not salvaged")
            written = b"what was there"
        else:
            written, changes = expected
            last = b"%s: %d bytes, " % (os.fsencode(new), len(written)) + (b"%d change%s\n" % (len(changes) // 8, b"s"[:len(changes) > 8]) if changes else b"nothing was changed\n")
            expect("a generated damaged sheet", done, 1 if changes else 0, shown_changes(sheet) + last, b"")
        if new.read_bytes() != written:
            fail("a generated damaged sheet", sheet, new.read_bytes(), written)


REPEATS = (b"# deny\nALL: 10.0.0.1, .x.example\nsshd: /vans EXCEPT van7\nall: 10.0.0.1 .X.example: log %h\nSSHD: \\\n\t/VANS except\\\n van7 \nALL: .x.example 10.0.0.1\n\n"
           b"ALL: ALL: log %a\nftpd: ALL\nall: all\n")
NEEDLESS = {4: 2, 5: 3, 11: 10, 12: 10}


def shown_needless(path, text, witnesses):
    """what is printed of each line and of the one that makes it needless"""
    rows = text.split(b"\n")
    return b"".join(b"%s:%d: never fires: line %d %s\n%5d | %s\n%5d | %s\n" % (
        path, line, witness, b"is ALL: ALL" if witness == 10 else b"has the same lists", line, rows[line - 1], witness, rows[witness - 1].replace(b"\t", b"?"))
        for line, witness in sorted(witnesses.items()))


def test_tidy(folder):
    """rules that never fire: shown, and dropped where a file is given"""
    where = pathlib.Path(station(folder + "/repeats", deny=REPEATS, tables=[(b"vans", b"van7 van8")]))
    deny, new, path = where / "hosts.deny", where / "new", os.fsencode(where / "hosts.deny")
    five = ref.section_five([(b"vans", b"van7 van8")])
    tidied = ref.drop(2, REPEATS, five, ref.propose(2, REPEATS, five, 16384), 16384)
    if ref.needless(REPEATS) != sorted(NEEDLESS):
        fail("the reference's proposal", ref.needless(REPEATS))
    shown = shown_needless(path, REPEATS, NEEDLESS)
    expect("rules that never fire", gate("tidy", deny), 1, shown + b"%s: 4 of 8 rules never fire\n" % path, b"")
    expect("quietly", gate("tidy", "-q", deny), 1, b"", b"")
    if sorted(os.listdir(where)) != sorted(NAMES + ("tables",)) or deny.read_bytes() != REPEATS:
        fail("showing them writes nothing")
    expect("dropping them", gate("tidy", deny, new), 0, shown + b"%s: %d bytes, 4 of 8 rules dropped\n" % (os.fsencode(new), len(tidied)), b"")
    if new.read_bytes() != tidied or deny.read_bytes() != REPEATS or left_over(where):
        fail("a tidied file", new.read_bytes(), tidied)
    expect("to standard output", gate("tidy", deny, "-"), 0, tidied, b"")
    expect("a file of another name", gate("tidy", new), 2, b"", "new: is this a hosts.allow or a hosts.deny? --as allow or --as deny tells")
    for which in ("allow", "deny"):
        expect("it is tidy as " + which, gate("tidy", new, "--as", which), 0, b"%s: 0 of 4 rules never fire\n" % os.fsencode(new), b"")
    expect("from standard input", gate("tidy", "-", "-", "--as=deny", "--tables", where / "tables", stdin=REPEATS), 0, tidied, b"")
    expect("no tables with standard input", gate("tidy", "-", "--as", "deny", stdin=REPEATS, cwd=where), 2, b"", "standard input:3: no table of this name [15]")
    expect("that it is refused", gate("tidy", "-", "--as", "deny", stdin=b"x\n"), 2, b"", "gate: standard input: refused: 1 fault; ")
    expect("tables twice", gate("tidy", deny, "--tables", write_tables(folder + "/other", [])), 2, b"", "this station has tables of its own")
    expect("some lines alone", gate("tidy", deny, "-", "--lines", "12,4,12"), 0, ref.without_lines(REPEATS, {4, 12}), b"")
    for lines, message in (("4,2", ":2: may fire: no earlier rule that stays has the same lists, or is ALL: ALL [20]\n"), ("2", ":2: may fire"), ("10,11", ":11: may fire"), ("1", ":1: no rule begins at this line [20]\n"),
                           ("6", ":6: no rule begins"), ("9", ":9: no rule begins"), ("0", ":0: no rule begins"), ("13", ":13: no rule begins"), ("4294967295", ":4294967295: no rule begins")):
        new.write_bytes(b"what was there")
        expect("lines that may not be dropped: " + lines, gate("tidy", deny, new, "--lines", lines), 2, b"", message)
        if new.read_bytes() != b"what was there" or left_over(where):
            fail("a refused proposal changes nothing: " + lines)
    for other in ("hosts.allow", "byuid", "portacl", "tables/vans"):
        kept = (where / other).read_bytes()
        expect("the place of another text: " + other, gate("tidy", deny, where / other), 2, b"", other + ": is another text of the station: give another name for the new file\n")
        if (where / other).read_bytes() != kept:
            fail("another text is as it was: " + other)
    expect("and that it is refused", gate("tidy", deny, new, "--lines", "2"), 2, b"", "refused: a proposal that is not accepted; nothing was written; without --lines every rule is shown that may be dropped\n")
    deny.chmod(0o640)
    expect("in place", gate("tidy", "-q", deny, deny), 0, b"", b"")
    if deny.read_bytes() != tidied or deny.stat().st_mode & 0o777 != 0o640:
        fail("a file tidied in place")
    draft = where / "draft"
    draft.write_bytes(REPEATS)
    expect("a draft into the station's own file", gate("tidy", "-q", draft, deny, "--as", "deny"), 0, b"", b"")
    if deny.read_bytes() != tidied:
        fail("a draft that became the station's own file")
    draft.unlink()
    expect("what is left is sound", gate("check", where), 0, "sound", None)
    test_tidy_refusals(where)


def test_tidy_refusals(where):
    deny, allow, new = where / "hosts.deny", where / "hosts.allow", where / "new"
    new.write_bytes(b"what was there")
    for what, text, message in (
            ("a bad line", b"ALL: ALL\nALL: ALL\nx\n", "hosts.allow:3: no colon, or a list with no element [7]"), ("no last newline", b"ALL: ALL", "hosts.allow:1: the last line has no ending newline [4]"),
            ("a table that is missing", b"ALL: /none\n", "write its hosts into"), ("16,385 bytes", b"\n" * 16385, "16385 bytes, and the most is 16384 [2]"),
            ("a megabyte", b"\n" * (1 << 20), "over 65536 bytes, and the most is 16384 [2]"), ("a zero", b"\0\n", "[5]")):
        allow.write_bytes(text)
        expect("tidying " + what, gate("tidy", allow, new), 2, b"", message)
        expect("showing " + what, gate("tidy", allow), 2, b"", "refused: ")
    allow.write_bytes(b"ALL: ALL\n" * 2)
    write_tables(where / "tables", [(b"vans", b"EXCEPT")])
    expect("a bad table", gate("tidy", allow, new), 2, b"", "tables/vans:1: table 1: no host pattern [17]")
    write_tables(where / "tables", [])
    if new.read_bytes() != b"what was there" or left_over(where):
        fail("a refused file changes nothing")
    expect("a folder for NEW", gate("tidy", allow, where), 2, b"", "is a folder")
    os.symlink(new, where / "link")
    expect("a link for NEW", gate("tidy", allow, where / "link"), 2, b"", "is a symbolic link")
    allow.write_bytes(b"a:b\n" * 4096)
    before = time.monotonic()
    expect("the most rules", gate("tidy", allow, new), 0, b": 4 bytes, 4095 of 4096 rules dropped\n".decode(), b"")
    if new.read_bytes() != b"a:b\n" or time.monotonic() - before > 5:
        fail("the most rules, in time")
    allow.write_bytes(b"")
    expect("an empty file", gate("tidy", allow), 0, b"%s: 0 of 0 rules never fire\n" % os.fsencode(allow), b"")
    expect("an empty file, written", gate("tidy", allow, "-"), 0, b"", b"")


def test_generated_tidying(folder, rng):
    """generated files with their tables: what is dropped is what the reference drops, and a file at fault is refused"""
    answered = 0
    for _ in range(STATIONS // 3):
        tables, names = generated_tables(rng)
        tables = as_files(tables)
        text, five, section = gen.tidy_text(rng, rng.random() < 0.8, names), ref.section_five(tables or []), rng.choice([1, 2])
        where = station(folder + "/generated", **{("allow", "deny")[section - 1]: text}, tables=tables)
        file = f"{where}/{NAMES[section - 1]}"
        expected = ref.propose(section, text, five, 16384)
        if ref.refused(expected):
            expect("a generated file at fault", gate("tidy", file, "-"), 2, b"", f"[{expected[0]}]")
            continue
        answered += 1
        expect("a generated file", gate("tidy", file, "-"), 0, ref.drop(section, text, five, expected, 16384), b"")
        done = gate("tidy", file)
        if [int(n) for n in re.findall(rb":(\d+): never fires: ", done.stdout)] != ref.numbers_of(expected) or done.returncode != bool(expected):
            fail("the lines of a generated file", done.stdout, ref.numbers_of(expected))
    if not answered:
        fail("no generated file was tidied")


RETIRED = b"# x\n10.0.0.0/8:80,90\n10.0.0.1/8:80,90\n::/0,80\r\n192.0.2.7/32:443,443"
RENEWED = b"# x\n10.0.0.0/8,80-90\n10.0.0.1/8:80,90\n::/0,80\r\n192.0.2.7/32,443-443"


def test_convert(folder):
    """byuid texts with lines of the retired form"""
    old, new = pathlib.Path(folder) / "432", pathlib.Path(folder) / "new"
    old.write_bytes(RETIRED)
    where = station(folder + "/retired", byuid=RETIRED)
    shown = (b"%s/byuid:2: a line of the retired form that used to grant [22]\n    2 | 10.0.0.0/8:80,90\n      | ^~~~~~~~~~~~~~~~\n"
             b"      = write 10.0.0.0/8,80-90, which grants the same; gate convert does it for all such lines of the file\n" % os.fsencode(where))
    expect("lines of the retired form", gate("check", where), 1, ": 2 faults", shown.decode())
    expect("the last without a newline", gate("check", where), 1, None, "byuid:5: a line of the retired form that used to grant [22]\n")
    expect("of a sheet", gate("check", "-", stdin=ref.sheet_of([b"", b"", RETIRED, b"", bytes(2)])), 1, ": 2 faults", "gate convert does it for the text that gate unpack writes")
    expect("each is a fault, and no warning", gate("check", "-W", where), 1, ": 2 faults, 2 warnings", "byuid:3: warning: grants nothing: its address has bits set beyond its length")
    expect("no decision by it", gate("byuid", where, "432", "10.20.1.2,80"), 2, b"", "refused: 2 faults")
    expect("nor a verdict", gate("match", where, "sshd", "10.20.1.2"), 2, b"", "[22]")
    expect("nor a sheet", gate("pack", where, new), 2, b"", "[22]")
    expect("converting", gate("convert", old, new), 0, b"%s: %d bytes, 2 lines rewritten\n" % (os.fsencode(new), len(RENEWED)), b"")
    if new.read_bytes() != RENEWED or old.read_bytes() != RETIRED:
        fail("a converted text")
    expect("converting from and to standard streams", gate("convert", "-", "-", stdin=RETIRED), 0, RENEWED, b"")
    expect("converting again", gate("convert", new, new), 0, b"%s: %d bytes, 0 lines rewritten\n" % (os.fsencode(new), len(RENEWED)), b"")
    expect("converting in place", gate("convert", "-q", old, old), 0, b"", b"")
    if old.read_bytes() != RENEWED or new.read_bytes() != RENEWED:
        fail("a text converted in place")
    expect("what was converted is sound", gate("check", station(folder + "/retired", byuid=RENEWED)), 0, "sound", b"")
    expect("an empty text", gate("convert", "-", "-", stdin=b""), 0, b"", b"")
    new.write_bytes(b"what was there")
    expect("a text over its limit", gate("convert", "-", new, stdin=b"\n" * 8193), 2, b"", "standard input: refused: longer than its section may be: the most is 8192 bytes [2]")
    expect("a text of two megabytes", gate("convert", "-", new, stdin=bytes(1 << 21)), 2, b"", "[2]")
    if new.read_bytes() != b"what was there" or left_over(folder):
        fail("a refused conversion changes nothing")
    expect("converting nothing", gate("convert", folder + "/none", new), 2, b"", "none: No such file")
    expect("converting to a folder", gate("convert", old, folder), 2, b"", "is a folder")


def faulty(library, call, turn, **what):
    return {**os.environ, "LD_PRELOAD": library, "FAULT_CALL": call, "FAULT_TURN": str(turn), **{"FAULT_" + k.upper(): str(int(v)) for k, v in what.items()}}


def test_faults(folder):
    """signals, full disks and failing calls: what was there stays, and nothing is left beside it"""
    library = folder + "/faults.so"
    subprocess.run(["gcc", "-shared", "-fPIC", "-Wall", "-Wextra", "-Werror", str(TOP / "tests/faults.c"), "-o", library], check=True)
    sheet, old, texts = pathlib.Path(folder) / "station.sheet", b"what was there", folder + "/texts"
    write_station(texts, [b"", b"", b"", b""])
    (pathlib.Path(folder) / "one.sheet").write_bytes(SHEET)

    def expect_old(what, status, *arguments, message="as it was", kept=True, **how):
        sheet.write_bytes(old)
        shutil.rmtree(folder + "/out", ignore_errors=True)
        expect(what, gate(*arguments, **how), status, b"", message)
        if kept and sheet.read_bytes() != old or left_over(folder) or kept and os.path.exists(folder + "/out"):
            fail(what + " changes nothing", sheet.read_bytes()[:40], left_over(folder), os.listdir(folder))

    pack, unpack, replace = ["pack", SAMPLE, str(sheet)], ["unpack", folder + "/one.sheet", folder + "/out"], ["unpack", "-f", folder + "/one.sheet", texts]
    for number in (signal.SIGTERM, signal.SIGINT, signal.SIGHUP):
        for call in ("write", "fsync"):
            expect_old(f"{number.name} at {call} of pack", -number, *pack, message=None, env=faulty(library, call, 1, signal=number))
            for turn in range(1, 5):
                expect_old(f"{number.name} at {call} {turn} of unpack", -number, *unpack, message=None, env=faulty(library, call, turn, signal=number))
    for turn in range(1, 5):
        expect_old("a signal before any text is replaced", -signal.SIGTERM, *replace, message=None, env=faulty(library, "fsync", turn, signal=signal.SIGTERM))
        if any((pathlib.Path(texts) / name).read_bytes() for name in NAMES):
            fail("a text was replaced before all were on disk")
    for call, error in (("write", errno.ENOSPC), ("fsync", errno.EIO), ("rename", errno.EACCES)):
        message = os.strerror(error) + "; nothing was written, and what was there is as it was"
        expect_old(f"{error} at {call} of pack", 2, *pack, message=message, env=faulty(library, call, 1, errno=error))
        expect_old(f"{error} at {call} of unpack", 2, *unpack, message=message, env=faulty(library, call, 1, errno=error))
        expect_old(f"{error} at {call} of salvage", 2, "salvage", folder + "/one.sheet", sheet, message=message, env=faulty(library, call, 1, errno=error))
        expect_old(f"{error} at {call} of index", 2, "index", folder + "/one.sheet", sheet, message=message, env=faulty(library, call, 1, errno=error))
    expect_old("a signal at fsync of index", -signal.SIGTERM, "index", folder + "/one.sheet", sheet, message=None, env=faulty(library, "fsync", 1, signal=signal.SIGTERM))
    deny, repeats = pathlib.Path(folder) / "hosts.deny", b"ALL: x\nall: X\n"
    deny.write_bytes(repeats)
    for call, error in (("write", errno.ENOSPC), ("fsync", errno.EIO), ("rename", errno.EACCES)):
        expect(f"{error} at {call} of tidy", gate("tidy", deny, deny, env=faulty(library, call, 1, errno=error)), 2, b"", os.strerror(error) + "; nothing was written")
    expect("a signal at fsync of tidy", gate("tidy", deny, deny, env=faulty(library, "fsync", 1, signal=signal.SIGTERM)), -signal.SIGTERM, b"", None)
    if deny.read_bytes() != repeats or left_over(folder):
        fail("a file that could not be tidied is as it was", deny.read_bytes(), left_over(folder))
    test_faults_with_tables(folder, library)
    expect_old("a folder that can't be synced", 2, *pack, message="perhaps not on disk", kept=False, env=faulty(library, "fsync", 2, errno=errno.EIO))
    if sheet.read_bytes() != SHEET:
        fail("a sheet whose folder was not synced is there")
    expect_old("a file over the size limit", 2, *pack, message="File too large", preexec_fn=lambda: resource.setrlimit(resource.RLIMIT_FSIZE, (100, 100)))
    expect_old("a signal as the sheet takes its place", -signal.SIGTERM, *pack, message=None, kept=False,
               env=faulty(library, "rename", 1, signal=signal.SIGTERM))
    if sheet.read_bytes() != SHEET:
        fail("a sheet in place is whole")
    sheet.write_bytes(old)
    done = gate(*pack, env=faulty(library, "fsync", 1, signal=signal.SIGKILL))
    left = left_over(folder)
    if done.returncode != -signal.SIGKILL or sheet.read_bytes() != old or len(left) != 1:
        fail("a killed pack leaves the sheet as it was, and its temporary file", left)
    expect("packing beside what a killed pack left", gate(*pack), 0, "398 bytes", b"")
    if sheet.read_bytes() != SHEET or left_over(folder) != left:
        fail("a sheet beside what a killed pack left")
    left[0].unlink()
    ignoring = gate(*pack, env=faulty(library, "fsync", 1, signal=signal.SIGHUP), preexec_fn=lambda: signal.signal(signal.SIGHUP, signal.SIG_IGN))
    expect("a signal that is ignored", ignoring, 0, "398 bytes", b"")


def test_faults_with_tables(folder, library):
    """the same of a sheet with tables, into a new folder and into one that is there, and of a fleet run"""
    sheet, old = folder + "/tabled.sheet", b"what was there"
    pathlib.Path(sheet).write_bytes(SHEETS["north"])
    files = len(NAMES) + len(TABLES)

    def expect_nothing(what, status, message, **how):
        for is_there in (False, True):
            with tempfile.TemporaryDirectory(dir=folder) as where:
                out = pathlib.Path(where) / "out"
                if is_there:
                    out.mkdir()
                expect(what, gate("unpack", sheet, out, **how), status, b"", message)
                if out.exists() != is_there or is_there and os.listdir(out) or left_over(where):
                    fail(what + " changes nothing", sorted(pathlib.Path(where).rglob("*")))

    for call in ("write", "fsync"):
        for turn in range(1, files + 1):
            expect_nothing(f"a signal at {call} {turn} of tables", -signal.SIGTERM, None, env=faulty(library, call, turn, signal=signal.SIGTERM))
            expect_nothing(f"an error at {call} {turn} of tables", 2, "nothing was written, and what was there is as it was",
                           env=faulty(library, call, turn, errno=errno.ENOSPC))
    expect_nothing("an error at the first rename of tables", 2, None, env=faulty(library, "rename", 1, errno=errno.EACCES))
    expect("an error at mkdir", gate("unpack", sheet, folder + "/out", env=faulty(library, "mkdir", 1, errno=errno.ENOSPC)), 2, b"", "No space left")
    if os.path.exists(folder + "/out") or left_over(folder):
        fail("an error at mkdir leaves nothing")
    fleet = folder + "/fleet"
    shutil.copytree(FLEET, fleet)
    for turn, name in enumerate(sorted(SHEETS), 1):
        for station_name in SHEETS:
            (pathlib.Path(fleet) / (station_name + ".sheet")).write_bytes(old)
        done = gate("fleet", fleet, fleet + "/tables", env=faulty(library, "rename", turn, errno=errno.ENOSPC))
        expect(f"a fleet in which {name} can't be written", done, 2, "2 stations, 1 sheet written", f"{name}.sheet: No space left on device; nothing was written")
        kept = [n for n in SHEETS if (pathlib.Path(fleet) / (n + ".sheet")).read_bytes() == old]
        if kept != [name] or left_over(fleet):
            fail("of a fleet only what failed is as it was", kept)


@contextlib.contextmanager
def small_disk(folder, pages):
    """a file system of so many pages, mounted where only a process of our own sees it, and gone with that; None where no one may mount"""
    script = 'mount -t tmpfs -o size="$1" gate "$0" && echo mounted && exec cat'
    command = ["unshare", "--map-root-user", "--mount", "/bin/sh", "-c", script, folder, str(pages * PAGE)]
    try:
        holder = subprocess.Popen(command, stdin=subprocess.PIPE, stdout=subprocess.PIPE, stderr=subprocess.DEVNULL)
    except OSError:
        yield None
        return
    with holder:
        seen = pathlib.Path(f"/proc/{holder.pid}/root{folder}")
        yield seen if holder.stdout.readline() == b"mounted\n" else None


def leave_pages(disk, free):
    """fills the disk but for so many pages"""
    with open(disk / "fill", "wb", buffering=0) as fill:
        fill.truncate(0)
        try:
            while fill.write(bytes(PAGE)):
                pass
        except OSError as error:
            if error.errno != errno.ENOSPC:
                raise
        fill.truncate(fill.tell() - free * PAGE)


def test_full_disk(folder):
    """the disk is really full, from the first byte or in the midst: what was there stays, and nothing is left beside it"""
    message, old = "No space left on device; nothing was written, and what was there is as it was", b"what was there"
    large = station(folder + "/large", b"\n" * 16384, b"\n" * 16384)
    (pathlib.Path(folder) / "one.sheet").write_bytes(SHEET)
    os.mkdir(folder + "/disk")
    with small_disk(folder + "/disk", 16) as disk:
        if not disk:
            skipped.append("no full disk was tried: the system lets us mount none")
            return
        sheet, texts = disk / "station.sheet", write_station(disk / "texts", [b""] * 4)
        sheet.write_bytes(old)
        for free, what, arguments in ((0, "pack", ["pack", SAMPLE, sheet]), (1, "pack in the midst", ["pack", large, sheet]),
                                      (0, "unpack", ["unpack", folder + "/one.sheet", disk / "out"]),
                                      (2, "unpack in the midst", ["unpack", folder + "/one.sheet", disk / "out"]),
                                      (2, "unpack over texts", ["unpack", "-f", folder + "/one.sheet", texts])):
            leave_pages(disk, free)
            expect(f"{what} on a full disk", gate(*arguments), 2, b"", message)
            if sheet.read_bytes() != old or left_over(disk) or (disk / "out").exists() or any((disk / "texts" / name).read_bytes() for name in NAMES):
                fail(f"{what} on a full disk changes nothing", sheet.read_bytes()[:40], sorted(disk.rglob("*")))
        leave_pages(disk, 1)
        expect("pack into the last page", gate("pack", SAMPLE, sheet), 0, "398 bytes", b"")
        if sheet.read_bytes() != SHEET or left_over(disk):
            fail("a sheet in the last page is whole")


# Generated stations beside the reference

def hosts_faults(section, text):
    found = [(2, section, 0)] if len(text) > ref.LIMITS[section] else []
    for line in ref.lines(text):
        numbers = ref.line_faults(line)
        if 4 in numbers:
            found.append((4, section, line.number))
        if numbers - {4} and (line.ended or not line.raw.endswith(b"\\")):
            found.append((min(numbers - {4}), section, line.number))
    return found


def naming_faults(number, texts, tables):
    """of lines that are sound but for what they name: a missing name comes before one that leads too deep"""
    found = []
    for section in (1, 2):
        for line in ref.lines(texts[section - 1]):
            if ref.line_faults(line) - {4} or not line.ended and line.raw.endswith(b"\\"):
                continue
            names = ref.named_in_rule(line)
            missing = any(not tables.has(name) for name in names)
            if missing if number == 15 else not missing and any(map(tables.leads_past, names)):
                found.append((number, section, line.number))
    return found


def table_faults(number, pairs, tables, five):
    """one for a name, and one for each line of a table that has a bad word"""
    found, seen = [], set()
    if number == 17:
        found += [(17, 5, 0)] * ((len(pairs) > 64) + (len(five) > 12288))
    for place, (name, text) in enumerate(pairs, 1):
        bad_name = ref.lower(name) in seen if number == 15 else not ref.is_table_name(name)
        seen.add(ref.lower(name))
        wrong = (lambda w: ref.table_named(w) is not None and not tables.has(ref.table_named(w))) if number == 15 else ref.bad_word
        lines = sum(any(map(wrong, ref.table_words(line))) for line in text.split(b"\n"))
        found += [(number, 5, place)] * (bad_name + lines)
    return found


def all_faults(texts):
    """in the order in which the gate would answer with them; the fifth text is soundly framed"""
    pairs = ref.read_tables(texts[4])[0]
    tables = ref.Tables(pairs)
    found = hosts_faults(1, texts[0]) + hosts_faults(2, texts[1]) + [(12, 4, i) for i, e in enumerate(ref.entries_of(texts[3]), 1) if e is None]
    found += naming_faults(15, texts, tables) + table_faults(15, pairs, tables, texts[4])
    found += naming_faults(16, texts, tables) + table_faults(17, pairs, tables, texts[4])
    return found + [(22, 3, i) for i, line in enumerate(texts[2].split(b"\n"), 1) if ref.retired(line)]


def shown_faults(err):
    found = []
    for line in err.split(b"\n"):
        table = re.search(rb": table (\d+): [^\n]*\[(\d+)\]$", line)
        limit = re.search(rb": \d+ (?:tables|bytes with their names and counts), and the most is \d+ \[17\]$", line)
        own = re.search(rb"\b(hosts\.allow|hosts\.deny|byuid|portacl)\)?(?::(\d+))?: (?:entry (\d+): )?[^\n]*\[(\d+)\]$", line)
        if table:
            found.append((int(table[2]), 5, int(table[1])))
        elif limit:
            found.append((17, 5, 0))
        elif own:
            found.append((int(own[4]), NAMES.index(own[1].decode()) + 1, int(own[3] or own[2] or 0)))
    return found


def generated_tables(rng):
    """tables, and the names that rules take"""
    tables = rng.choice([lambda: [], lambda: gen.sound_tables(rng), lambda: gen.faulty_tables(rng)])()
    return tables, [name for name, _ in tables if ref.is_table_name(name)] + [b"vans"]


def as_files(tables):
    """them as a folder has them, in its order; None where a name can't be a file's that is read"""
    names = [name for name, _ in tables]
    if len(set(names)) < len(names) or any(not name or name.startswith(b".") or b"/" in name or b"\0" in name for name in names):
        return None
    return sorted(tables)


def test_generated_checks(folder, rng):
    for _ in range(STATIONS // 2):
        tables, names = generated_tables(rng)
        hosts = [gen.naming_text(rng, False, names) if rng.random() < 0.5 else gen.hosts_text(rng, False) for _ in range(2)]
        texts = hosts + [gen.byuid_text(rng)[:8192], gen.portacl_text(rng)[:4096], ref.section_five(tables)]
        faults = all_faults(texts)
        if bool(faults) != ref.refused(ref.pack(texts, SHEET_LIMIT)) or faults and faults[0] != ref.pack(texts, SHEET_LIMIT):
            fail("the reference agrees with itself", faults, ref.pack(texts, SHEET_LIMIT), texts)
        done = gate("check", "-", stdin=ref.sheet_of(texts))
        if done.returncode != bool(faults) or shown_faults(done.stderr) != faults:
            fail("all faults of a sheet", texts, done.stderr, shown_faults(done.stderr), faults)
        files = as_files(tables)
        if files is not None:
            faults = all_faults(texts[:4] + [ref.section_five(files)])
            shared = rng.random() < 0.5
            where = write_station(folder + "/generated", texts, None if shared else files)
            option = ["--tables", write_tables(folder + "/shared", files)] if shared else []
            done = gate("check", "-W", where, *option)
            if done.returncode != bool(faults) or shown_faults(done.stderr) != faults:
                fail("all faults of a folder", texts, done.stderr, shown_faults(done.stderr), faults)
        sheet = gen.sheet_of(rng, texts)
        done, answer = gate("check", "-", stdin=sheet), ref.check(sheet)
        first = re.search(rb"\[(\d+)\]$", done.stderr, re.M)
        if done.returncode != ref.refused(answer) or ref.refused(answer) and (not first or int(first[1]) != answer[0]):
            fail("a damaged sheet", sheet, done.stderr, answer)


def match_line(r):
    """the words of a request"""
    words = [b"match", r["daemon"] + b"@" + ref.address_text(r["server"][1])]
    user = r["user"] + b"@" if isinstance(r["user"], bytes) else b""
    words.append(user + ref.address_text(r["client"][1]))
    for (name, _), option in ((r["client"], b"--"), (r["server"], b"--server-")):
        words += [option + b"name", name] if isinstance(name, bytes) else [option + b"paranoid"] if name is False else []
    return words + ([b"--unknown-user"] if r["user"] is None else [])


def match_answer(texts, r):
    word, file, line, _, command, _ = ref.verdict(texts[0], texts[1], r, texts[4])
    if not file:
        return b"granted no rule"
    answer = b"%s %s:%d" % (word.encode(), NAMES[file - 1].encode(), line)
    expanded = ref.expand(command, r, 0, 1 << 20)
    return answer if word == "ask" else answer + b":" + (b" " + expanded if expanded else b"")


def name_line(texts, r, where):
    """what a verdict that asks says of the name"""
    told = ref.name_matters(texts[0], texts[1], r, texts[4])
    if told == "name matters":
        return "name      matters: not every user gets the same answer\n"
    word, file, line = told
    path = "" if not file else f"{where}({NAMES[file - 1]})" if where.endswith(".sheet") else f"{where}/{NAMES[file - 1]}"
    return f"name      does not matter: every user is {word}, by " + (f"{path}:{line}\n" if file else "no rule\n")


def byuid_case(rng, texts):
    address = rng.choice([("4", rng.choice(gen.SMALL)), ("6", rng.choice(gen.WIDE)), ("4", 0x0a000000), ("6", 1)])
    port, uid = rng.choice([0, 1, 80, 80, 80, 511, 512, 1023, 1024]), rng.choice([0, 432, 432, 432])
    answer = ref.byuid(texts[2], "plain", port, address, uid)
    if answer == "granted":
        lines = [ref.byuid(line, "plain", port, address, uid) for line in texts[2].split(b"\n")]
        answer += " byuid:%d" % (lines.index("granted") + 1)
    return [b"byuid", b"%d" % uid, b"%s,%d" % (ref.address_text(address), port)], answer.encode()


def portacl_case(rng, texts):
    settings = dict(enabled=rng.choice([0, 1, 1, 1]), port_high=rng.choice([79, 1023, 1023]), suser_exempt=rng.choice([0, 1]),
                    autoport_exempt=rng.choice([0, 1]))
    uid, groups, protocol, port = rng.choice([0, 80, 432]), rng.sample([0, 80, 432], rng.randrange(3)), rng.choice([b"tcp", b"udp"]), rng.choice([0, 80, 1023])
    answer = ref.portacl(texts[3], settings, uid, groups, protocol, port)
    if answer == "granted":
        entries = [ref.portacl(entry, settings, uid, groups, protocol, port) for entry in texts[3].split(b",")]
        answer += " portacl entry %d" % (entries.index("granted") + 1)
    words = [b"portacl", b"%d" % uid, b"%s:%d" % (protocol, port)] + ([b"--groups", b",".join(b"%d" % g for g in groups)] if groups else [])
    for name, value in settings.items():
        words += [b"--" + name.replace("_", "-").encode(), b"%d" % value]
    return words, answer.encode()


def generated_request(rng, make=gen.request):
    while True:
        r = make(rng)
        names = [r["client"][0], r["server"][0]]
        if not ref.request_fault(r) and b"unknown" not in names:
            return r


def test_generated_answers(folder, rng):
    path, seen, names = pathlib.Path(folder) / "requests", set(), set()
    for turn in range(STATIONS):
        texts, make = gen.texts_of(rng), gen.request
        if turn % 4 == 0:
            texts[:2], make = [gen.user_text(rng, [b"10.", b"11.", b"host"]) for _ in range(2)], gen.user_request
        if ref.refused(ref.pack(texts, SHEET_LIMIT)):
            continue
        requests = [generated_request(rng, make) for _ in range(8)]
        cases = [(match_line(r), match_answer(texts, r)) for r in requests]
        asking = [(words, r) for (words, answer), r in zip(cases, requests) if answer.startswith(b"ask ")]
        cases += [case(rng, texts) for case in (byuid_case, portacl_case) for _ in range(4)]
        path.write_bytes(b"".join(b" ".join(words) + b" => x\n" for words, _ in cases))
        files = as_files(ref.read_tables(texts[4])[0])
        where = folder + "/generated.sheet"
        if files is not None and rng.random() < 0.7:
            where = write_station(folder + "/generated", texts, files)
        else:
            pathlib.Path(where).write_bytes(ref.sheet_of(texts))
        done = gate("test", "--print", where, str(path))
        expected = b"".join(b" ".join(words) + b" => " + answer + b"\n" for words, answer in cases)
        if done.returncode or done.stdout != expected:
            fail("generated requests", texts, done.stderr, *(pair for pair in zip(done.stdout.split(b"\n"), expected.split(b"\n")) if pair[0] != pair[1]))
        seen |= {answer.split(b" ")[0] for _, answer in cases}
        if turn % 5 == 0:
            index = pathlib.Path(folder) / "generated.index"
            index.write_bytes(ref.index(ref.sheet_of(texts), 1 << 32))
            for words, _ in cases[:3]:
                arguments = [where, *(os.fsdecode(word) for word in words[1:])]
                alone = gate("match", *arguments)
                expect(f"by the index: {words}", gate("match", *arguments, "--index", index), alone.returncode, alone.stdout, b"")
        for words, r in asking[:1]:
            line = name_line(texts, r, where)
            names.add(line.split(":")[0])
            expect(f"the name: {words}", gate("match", where, *(os.fsdecode(word) for word in words[1:])), 3, line, b"")
        if turn % 10 == 0:
            words, answer = cases[rng.randrange(len(cases))]
            status = {b"granted": 0, b"exempt": 0, b"denied": 1, b"no": 1, b"ask": 3, b"not": 4}[answer.split(b" ")[0]]
            done = gate(words[0].decode(), where, *(os.fsdecode(word) for word in words[1:]))
            expect(f"alone: {words}", done, status, answer.split(b" ")[0].decode(), b"")
    if seen != {b"granted", b"denied", b"ask", b"no", b"not", b"exempt"}:
        fail("every answer came up", seen)
    if len(names) != 2:
        fail("names that matter and names that do not came up", names)


def run_all():
    rng = random.Random(1)
    os.chmod(SCRATCH, 0o755)
    test_misread()
    test_read()
    for test in (test_answers, test_checks, test_marked, test_authbind, test_carry, test_salvage, test_tidy, test_index, test_explain, test_requests, test_reading, test_pack, test_unpack, test_tables, test_fleet, test_convert,
                 test_upgrade, test_faults, test_full_disk):
        with tempfile.TemporaryDirectory(dir=SCRATCH) as folder:
            test(folder)
    for test in (test_generated_checks, test_generated_answers, test_generated_tidying):
        with tempfile.TemporaryDirectory(dir=SCRATCH) as folder:
            test(folder, rng)


def main():
    for number in (signal.SIGHUP, signal.SIGINT, signal.SIGTERM):
        signal.signal(number, signal.SIG_DFL)  # whoever runs this may ignore them, and what is ignored stays so in a child
    try:
        run_all()
    finally:
        shutil.rmtree(SCRATCH)
    if not {0, 1, 2, 3, 4} <= statuses:
        fail("every exit status came up", statuses)
    if not failures:
        print("; ".join([f"program: {runs} runs as expected", *skipped]))
    sys.exit(1 if failures else 0)


main()
