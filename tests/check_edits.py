#!/usr/bin/env python3
"""check_edits.py: scripts/check-edits accepts wrong programs that the prover refuses, and complains of each planted edit that shows nothing.

It builds a repository of one small crate in a temporary folder, and reads what check-edits and try-edits say of its edits.
"""
import pathlib
import subprocess
import sys
import tempfile

SCRIPTS = pathlib.Path(__file__).resolve().parent.parent / "scripts"

CRATE = {
    "specs/Lib.antt": "pub mod Small\n",
    "specs/Small.antt": """-- One more, up to nine.
use Rattle.std.specs.Prelude.{ℕ, ◌+◌, Bool, true, false, ltb}

abbrev pub pick : Bool → ℕ → ℕ → ℕ
pick true a b = a
pick false a b = b

unfoldable pub raised : ℕ → ℕ
raised b = pick (ltb b 9) (b + 1) b
""",
    "src/lib.rt": """// One more, up to nine.
#![tactic(auto)]

ghost use Rattle.std.specs.Prelude.{◌≡◌, ◌||◌, eqb};
ghost use Rattle.small.specs.Small.{raised};

pub fn is_end(b: u8) -> bool
    ensures { result ≡ (eqb b 0 || eqb b 9) }
{
    (b == 0) | (b == 9)
}

pub fn raise(b: u8) -> u8
    ensures { result ≡ raised b }
{
    if b < 9 {
        return b + 1;
    }
    b
}

pub fn raise_twice(b: u8) -> u8
    ensures { result ≡ raised (raised b) }
{
    let once = raise(b);
    raise(once)
}
""",
    "proofs/Lib.antt": "pub mod Laws\n",
    "proofs/Laws.antt": """-- Nine is the end. Assumes nothing.
use Rattle.std.specs.Prelude.{◌≡◌}
use mathlib.Core.Path.{refl}
use Rattle.small.specs.Small.{raised}

pub raised_nine : raised 9 ≡ 9
unfolding raised
raised_nine = refl
""",
    "proofs/raise/Answers.antt": """-- Each branch is one of the definition's. Assumes nothing.
use borrow.Author.Tests.{lt-ltb, le-ltb}
use Rattle.small.specs.Small.{raised}
use Rattle.small.proofs.raise.Goals as goal

pub returns-then-b-lt9 : goal.returns-then-b-lt9
unfolding raised
returns-then-b-lt9 c = simp (lt-ltb _ 9 c.if-b-lt9.true)

pub returns : goal.returns
unfolding raised
returns c = simp (le-ltb _ 9 c.if-b-lt9.false)
""",
}

# two wrong programs of each function, and one of a theorem; in wrong_1 a callee and its caller are both wrong, in wrong_2 the proof's names change
SOUND = {
    "wrong_1": """# end_at_eight (small::is_end): eight is no end
file: src/lib.rt
old: (b == 0) | (b == 9)
new: (b == 0) | (b == 8)
# raised_by_two (small::raise): one more is not two more
old:         return b + 1;
new:         return b + 2;
# raised_once (small::raise_twice): the second call is of what the first answered
old:     raise(once)
new:     raise(b)
""",
    "wrong_2": """# end_at_one (small::is_end): one is no end
file: src/lib.rt
old: (b == 0) | (b == 9)
new: (b == 1) | (b == 9)
# raised_below_eight (small::raise): eight is raised too
old:     if b < 9 {
new:     if b < 8 {
# twice_is_once (small::raise_twice): twice is not once
old: result ≡ raised (raised b)
new: result ≡ raised b
""",
    "wrong_3": """# nine_raised (raised_nine): nine stays nine
file: specs/Small.antt
old: ltb b 9
new: ltb b 10
""",
}

# edits that show nothing, though the prover refuses all but the one that is right
PLANTED = {
    "joined": """# hollow (small::raise): a right program whose proof no longer fits
file: src/lib.rt
old:     if b < 9 {
new:     if (b < 9) && (b < 9) {
# right_over_wrong (small::raise_twice): a right program over a callee that is not proved
old:     let once = raise(b);
new:     let once = raise((b));
# right_beside_wrong (small::is_end): a right program beside a wrong one
old: (b == 0) | (b == 9)
new: (b == 0) | ((b == 9))
# misnamed (small::rise): no function has this name
old: // One more, up to nine.
new: // One more.
""",
    "right_alone": """# right_alone (small::is_end): a right program
file: src/lib.rt
old: (b == 0) | (b == 9)
new: ((b == 0)) | (b == 9)
""",
    "no_definition": """# no_definition (raised_nine): there is no c
file: specs/Small.antt
old: (b + 1) b
new: (b + 1) c
""",
    "no_program": """# no_program (small::raise): there is no c
file: src/lib.rt
old:         return b + 1;
new:         return c + 1;
""",
    "proof_changed": "# proof_changed (small::raise): it says nothing of the code\nfile: proofs/raise/Answers.antt\nold: lt-ltb _ 9\nnew: lt-ltb _ 8\n",
}

COMPLAINTS = [
    "small/joined: hollow (small::raise): its proof does not fit the code",
    "small/joined: right_over_wrong (small::raise_twice): it is still proved",
    "small/joined: right_beside_wrong (small::is_end): it is still proved",
    "small/joined: misnamed (small::rise): the log has no function of this name",
    "small/right_alone: right_alone (small::is_end): it is still proved",
    "small/no_definition: what it changes is no program or definition",
    "small/no_program: what it changes is no program",
    "small/proof_changed: proof_changed: it changes a proof",
    "small: small::is_end has one wrong program",
]


def write(top, texts):
    for name, text in texts.items():
        path = top / name
        path.parent.mkdir(parents=True, exist_ok=True)
        path.write_text(text, encoding="utf-8")


def edits(texts):
    return {f"must-fail/{name}.edit": text for name, text in texts.items()}


def ran(top, *command):
    run = subprocess.run(command, cwd=top, capture_output=True, text=True)
    return run.returncode, run.stdout + run.stderr


def demand(what, holds, said):
    if not holds:
        sys.exit(f"check_edits: {what}; what was said:\n{said}")


def main():
    with tempfile.TemporaryDirectory() as folder:
        top = pathlib.Path(folder)
        crate = top / "crates" / "small"
        write(top, {"crates.txt": "small:\n"})
        write(crate, {**CRATE, **edits(SOUND)})
        status, said = ran(top, SCRIPTS / "check-edits", "--untried")
        demand("sound edits were not taken, untried", status == 0 and said.endswith("check-edits: ok, 7 wrong programs, not tried\n"), said)
        status, said = ran(top, SCRIPTS / "check-edits")
        demand("sound edits were not accepted", status == 0 and said.endswith("check-edits: ok, 7 wrong programs, each refused by itself\n"), said)
        status, said = ran(top, SCRIPTS / "check-edits", "crates/small/must-fail/wrong_3.edit")
        demand("one file was not accepted", status == 0 and "ok, 1 wrong programs" in said, said)
        (crate / "must-fail" / "wrong_2.edit").unlink()
        write(crate, edits(PLANTED))
        status, said = ran(top, SCRIPTS / "check-edits")
        for complaint in COMPLAINTS:
            demand("no complaint: " + complaint, "check-edits: " + complaint in said, said)
        demand("other complaints, or the wrong status", status == 1 and f"FAILED, {len(COMPLAINTS)} complaints; besides 4 wrong programs" in said, said)
    print(f"check_edits: 7 wrong programs accepted, {len(COMPLAINTS)} complaints of planted edits")


if __name__ == "__main__":
    main()
