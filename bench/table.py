"""table.py COMPARE GATE.so [BEFORE.so]: runs bench/compare.c, once for times and once under callgrind for instructions, and prints what it
found as two tables. Each row is a case of bench/compare.c."""
import pathlib
import subprocess
import sys
import tempfile

GATE, BEFORE, WRAPPERS, FILES, SUM = "gate", "before", "tcp_wrappers", "files", "sum"


def lines_of(command):
    done = subprocess.run(command, stdout=subprocess.PIPE, text=True, check=True)
    return [line.split("\t") for line in done.stdout.splitlines()]


def times(compare, libraries, folder):
    return [(case, int(size), who, float(time)) for case, size, who, time in lines_of([compare, "time", folder, *libraries])]


def instructions(compare, libraries, folder):
    """Callgrind counts inside `counted` alone and writes a file each time that function ends: the files are numbered as the lines are."""
    counts = pathlib.Path(folder, "counts")
    tool = ["valgrind", "-q", "--tool=callgrind", "--toggle-collect=counted", "--dump-after=counted", f"--callgrind-out-file={counts}"]
    lines = lines_of([*tool, compare, "count", folder, *libraries])
    return [(case, int(size), who, total(pathlib.Path(f"{counts}.{i}"))) for i, (case, size, who, _) in enumerate(lines, 1)]


def total(path):
    return next(int(line.split()[1]) for line in path.read_text(encoding="utf-8").splitlines() if line.startswith("totals:"))


def by_case(measured):
    """{case: (bytes, {who: figure})}, in the order of the cases."""
    rows = {}
    for case, size, who, figure in measured:
        rows.setdefault(case, (size, {}))[1][who] = figure
    return rows


def quotient(figures, who, divisor):
    """One figure by another or by a number of bytes; None where either is missing or 0."""
    below = figures.get(divisor) if isinstance(divisor, str) else divisor
    return figures[who] / below if below and who in figures else None


# The columns: heading, what it is, digits behind the point, the figure of a case.
COLUMNS = [
    ("gate", "a call of the gate", 0, lambda size, f: f[GATE]),
    ("a byte", "the same, by the bytes that the call is handed", 2, lambda size, f: quotient(f, GATE, size)),
    ("sum", "adding up those bytes one at a time, by the bytes: the floor", 2, lambda size, f: quotient(f, SUM, size)),
    ("wrappers", "a call of tcp_wrappers, which reads its files in memory and checks nothing; - where it has no such call", 0,
     lambda size, f: f.get(WRAPPERS)),
    ("ratio", "gate to wrappers", 3, lambda size, f: quotient(f, GATE, WRAPPERS)),
    ("files", "opening and reading those files whole, as the gate's caller does", 0, lambda size, f: f.get(FILES)),
]
AGAINST = [
    ("before", "a call of the other archive", 0, lambda size, f: f.get(BEFORE)),
    ("to before", "gate to before; at most 1 is no slower", 3, lambda size, f: quotient(f, GATE, BEFORE)),
]


def cell(value, digits):
    return "-" if value is None else f"{value:,.{digits}f}"


def show(title, rows, columns):
    print(f"\n{title}\n{'case':<26}{'bytes':>8}" + "".join(f"{heading:>11}" for heading, *_ in columns))
    for case, (size, figures) in rows.items():
        print(f"{case:<26}{size:>8,}" + "".join(f"{cell(figure(size, figures), digits):>11}" for _, _, digits, figure in columns))
    growing = [row for case, row in rows.items() if case.startswith("growth: ")]
    nests = {case: figures[GATE] for case, (_, figures) in rows.items() if case.startswith("nest: ")}
    for sheet, kind in (("full sheet", "plain"), ("full sheet, shortest rules", "the shortest plain")):
        if sheet in rows:
            plain = rows[sheet][1][GATE]
            print(f"to a full sheet of {kind} rules:", ", ".join(f"{case} {figure / plain:.3f}" for case, figure in nests.items()))
    for kind in ("repeats", "differing"):
        figures = [rows.get(f"{kind}: {call}", (0, {}))[1].get(GATE) for call in ("verdict", "propose", "drop")]
        if all(figures):
            print(f"{kind}: propose {figures[1] / figures[0]:.3f} and drop {figures[2] / figures[0]:.3f} verdicts by the same file")
    for kind in ("burst", "daemons"):
        lone, one, none = [rows.get(f"{kind}: {call}", (0, {}))[1].get(GATE) for call in ("32 lone calls", "one call", "of none")]
        if lone and one and none:
            print(f"{kind}: one call for 32 requests {one / lone:.3f} of 32 lone calls; to check sheet and index {none / one:.3f} of it, "
                  f"to go past the rules {(one - none) / one:.3f}")
    for who in (GATE, BEFORE):
        a_byte = [quotient(figures, who, size) for size, figures in growing]
        if all(a_byte):
            print(f"growth of {who}: {', '.join(cell(a, 2) for a in a_byte)} a byte; last to first {a_byte[-1] / a_byte[0]:.3f}")


def main(compare, *libraries):
    columns = COLUMNS + (AGAINST if len(libraries) > 1 else [])
    for heading, meaning, *_ in columns:
        print(f"{heading:<11}{meaning}")
    with tempfile.TemporaryDirectory(dir="/dev/shm") as folder:
        show("Nanoseconds, the least over many rounds of one run that take all in turn", by_case(times(compare, libraries, folder)), columns)
        show("Instructions of one call by callgrind, without the kernel's; the gate's repeat exactly",
             by_case(instructions(compare, libraries, folder)), columns)


main(*sys.argv[1:])
