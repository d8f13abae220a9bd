#!/usr/bin/env python3
"""Tests `wrong_bodies.py --grouped` in a copy of the scripts: over a stand-in for `rt` that answers as `rt check` does, what it makes of each answer, above all
that it takes nothing for a refusal that is none. With --real over a small crate instead that `rt` itself proves.
"""
import argparse
import os
import pathlib
import re
import shutil
import subprocess
import sys
import tempfile

TOP = pathlib.Path(__file__).resolve().parents[2]
SCRIPTS = "tools/gate/wrong_bodies.py", "tools/gate/grouped_bodies.py", "tools/common/crates.py", "tools/common/rattle.py"
# Says of each function what its body asks for: what begins with `RIGHT` is proved.
STAND_IN = r"""#!/usr/bin/env python3
import os, pathlib, re, sys
text = pathlib.Path("src/lib.rt").read_text()
pathlib.Path("out/incremental").mkdir(parents=True, exist_ok=True)
bodies = dict(re.findall(r"fn (\w+)\(\) \{\n    (\w+)\n\}", text))
line = {name: text[: text.index(f"fn {name}()")].count("\n") + 2 for name in bodies}
asked = [it.removeprefix("--only=made::") for it in sys.argv if it.startswith("--only")]
changed = [name for name, body in bodies.items() if body != f"RIGHT_{name}"]
with open(os.environ["SEEN"], "a") as it:
    print(" ".join(["whole"] * (not asked) + changed), file=it)
is_alone = len(changed) < 2
bad = [name for name in changed if bodies[name] == "BAD"]
if bad:
    print(f"src/lib.rt:{line[bad[0]]}:5: error[unsupported-method]: no method of that name")
    sys.exit(1)
if any(body == "KILLED" for body in bodies.values()) and not is_alone:
    print("fn made::one: no proof: expected answers in ./proofs/one/Answers.antt; `search` did not prove `returns`")
    os.kill(os.getpid(), 9)
fell = 0
for name, body in bodies.items():
    if asked and name not in asked:
        continue
    said = "proved"
    if body in ("GOAL", "KILLED") or body == "CALLS_GOAL" and is_alone:
        print(f"note: src/lib.rt:{line[name]}:1: it is not proved that what the function ensures holds when it returns (`returns`)")
        said = f"no proof: expected answers in ./proofs/{name}/Answers.antt; `search` did not prove `returns`"
    if body == "BOTH":
        said = f"no proof: expected answers in ./proofs/{name}/Answers.antt; `search` did not prove `returns`; it calls `made::one`, which is not proved"
    if body in ("CALLS", "CALLS_GOAL") and not is_alone:
        said = "no proof: it calls `made::one`, which is not proved"
    if body in ("UNFIT", "GONE"):
        why = "`returns`: the two types differ" if body == "UNFIT" else "`returns`: module `Goals` has no `returns` that can be named from here"
        print(f"./proofs/{name}/Answers.antt:3:9: error: {why}")
        said = "not proved"
    if body == "RESTS" and not is_alone:
        print(f"./proofs/{name}/Answers.antt:3:9: error: `made.proofs.one`, which this file's imports depend on, has declarations that were not admitted")
        said = "not proved"
    if body == "LIMIT":
        said = "could not tell"
    fell += said != "proved"
    print(f"fn made::{name}: {said}")
stops = any(body == "LIMIT" for body in bodies.values())
if stops and fell == 1:
    print("rattle: no verdict, since antt ran out of memory")
    sys.exit(3)
print(f"only={len(asked)} proved={len(asked) - fell}" if asked else f"logic={'not-proved' if fell else 'proved'} functions=9")
sys.exit(1 if fell else 0)
"""
NAMES = "one", "two", "three", "four"
# the bodies that the edits make of the functions in turn, what is said of each, whether all are refused, and how many are first tried together
CASES = (
    ("goals", ("GOAL", "GOAL"), ("refused: `returns` of", "refused: `returns` of"), True, 2),
    ("a proof that is kept", ("UNFIT", "GONE"), ("refused, since a proof no longer fits: ", "refused, since a proof names what is gone: "), True, 2),
    ("a goal beside a callee", ("GOAL", "BOTH"), ("refused: `returns`", "refused: `returns`"), True, 2),
    ("a body that proves", ("GOAL", "RIGHT_TOO", "GOAL"), ("refused: ", "NOT REFUSED: ", "refused: "), False, 3),
    ("a body that doesn't compile", ("GOAL", "BAD", "GOAL"), ("refused: ", "BAD EDIT: src/lib.rt:", "refused: "), False, 3),
    ("a callee alone, and it proves", ("GOAL", "CALLS"), ("refused: ", "NOT REFUSED: "), False, 2),
    ("a callee alone, and it doesn't", ("GOAL", "CALLS_GOAL"), ("refused: ", "refused: `returns`"), True, 2),
    ("a file that rests on a callee", ("GOAL", "RESTS"), ("refused: ", "NOT REFUSED: "), False, 2),
    ("a check that is killed", ("RIGHT_TOO", "KILLED", "GOAL", "RIGHT_TOO"), ("NOT REFUSED: ", "refused: ", "refused: ", "NOT REFUSED: "), False, 4),
    ("a check that can't tell", ("GOAL", "LIMIT"), ("refused: ", "NOT TRIED: "), False, 2),
    ("a function that names another", ("GOAL", "one", "GOAL"), ("refused: ", "NOT REFUSED: ", "refused: "), False, 2),
    ("a function twice", ("GOAL", "one:UNFIT", "GOAL"), ("refused: ", "refused, since a proof no longer fits: ", "refused: "), True, 2),
    ("all that can't tell", ("LIMIT", "LIMIT"), ("NOT TRIED: ", "NOT TRIED: "), False, 2),
)
# of the real crate: edits, and what is said of them
CRATE = """//! Numbers.
#![tactic(auto)]

ghost use Rattle.std.specs.Prelude.{◌≡◌, ◌↔◌, ◌+◌, ◌<◌, ◌≤◌, IsTrue};

/// The number behind.
pub fn next(count: u8) -> u8
    requires { count < 255 }
    ensures { result ≡ count + 1 }
{
    count + 1
}

/// Whether the number has one digit.
pub fn is_digit(count: u8) -> bool
    ensures { IsTrue result ↔ (count ≤ 9) }
{
    count <= 9
}

/// A number that isn't zero.
pub fn behind(count: u8) -> u8
    ensures { 1 ≤ result }
{
    if is_digit(count) { next(count) } else { 255 }
}
"""
EDITS = {
    "it_stays": ("    count + 1", "    count", "refused: `returns`"),
    "nine_is_no_digit": ("count <= 9", "count < 9", "refused: `returns`"),
    "a_text_is_a_number": ("    count + 1", '    count + "1"', "BAD EDIT: src/lib.rt:11:"),
    "another_number_is_answered": ("else { 255 }", "else { 254 }", "NOT REFUSED: "),
}
failed = []


def check(what, held, said=""):
    print(f"{'passed' if held else 'failed'}: {what}", flush=True)
    if not held:
        print(said)
        failed.append(what)


def made(folder, source, edits):
    """Makes a repository of one crate with its wrong bodies, and the scripts."""
    for script in SCRIPTS:
        (folder / script).parent.mkdir(parents=True, exist_ok=True)
        shutil.copy(TOP / script, folder / script)
    (folder / "crates.txt").write_text("made:\n", encoding="utf-8")
    (folder / "HANDLES").write_text("Handles allowed: none.\n", encoding="utf-8")
    crate = folder / "crates" / "made"
    (crate / "src").mkdir(parents=True)
    (crate / "src" / "lib.rt").write_text(source, encoding="utf-8")
    (crate / "wrong-bodies").mkdir()
    for name, (old, new) in edits.items():
        (crate / "wrong-bodies" / f"{name}.edit").write_text(f"file: src/lib.rt\nold: {old}\nnew: {new}\n", encoding="utf-8")


def tried(folder, words, environment):
    return subprocess.run(
        [sys.executable, "-B", str(folder / SCRIPTS[0]), "--grouped", *words],
        env={**os.environ, **environment},
        stdout=subprocess.PIPE,
        stderr=subprocess.STDOUT,
        text=True,
        check=False,
    )


def said_of(run):
    return dict(re.findall(r"^made/(\w+)\.edit: (.*)$", run.stdout, re.M))


def try_case(name, bodies, wanted, is_refused, count):
    with tempfile.TemporaryDirectory() as at:
        folder = pathlib.Path(at) / "repository"
        named = dict(zip(NAMES, bodies))
        source = "//! Bodies.\n" + "".join(f"\nfn {it}() {{\n    RIGHT_{it}\n}}\n" for it in named)
        edits = {it: (body.partition(":")[0] if ":" in body else it, body.rpartition(":")[2]) for it, body in named.items()}
        made(folder, source, {it: (f"RIGHT_{of}", body) for it, (of, body) in edits.items()})
        program = pathlib.Path(at) / "rt"
        program.write_text(STAND_IN, encoding="utf-8")
        program.chmod(0o755)
        seen = pathlib.Path(at) / "seen"
        run = tried(folder, ["made"], {"PATH": f"{at}:{os.environ['PATH']}", "SEEN": str(seen)})
        said = said_of(run)
        held = all(said.get(it, "").startswith(words) for it, words in zip(named, wanted)) and run.returncode == int(not is_refused)
        refused = sum(it.startswith("refused") for it in wanted)
        check(name, held and f"\n{refused} of {len(bodies)} refused: " in run.stdout, run.stdout)
        checks = seen.read_text(encoding="utf-8").splitlines()
        check(f"{name}, {count} together", checks[0] == "whole" and len(checks[1].split()) == count, "\n".join(checks))


def try_real():
    with tempfile.TemporaryDirectory() as at:
        folder = pathlib.Path(at) / "repository"
        made(folder, CRATE, {name: (old, new) for name, (old, new, _) in EDITS.items()})
        run = tried(folder, ["made"], {})
        said = said_of(run)
        for name, (_, _, words) in EDITS.items():
            check(f"by rt: {name}", said.get(name, "").startswith(words), run.stdout)
        check("by rt: two of four are refused", run.returncode == 1 and "\n2 of 4 refused: " in run.stdout, run.stdout)


def main():
    parser = argparse.ArgumentParser(description=__doc__, formatter_class=argparse.RawDescriptionHelpFormatter)
    parser.add_argument("--real", action="store_true", help="over a crate that rt proves")
    if parser.parse_args().real:
        try_real()
    else:
        for case in CASES:
            try_case(*case)
    return int(bool(failed))


if __name__ == "__main__":
    sys.exit(main())
