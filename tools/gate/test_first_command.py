#!/usr/bin/env python3
"""Tests `./x509_tool` and the tools behind it, in a copy of the scripts with a stand-in for `rt` that answers as `rt try` and `rt ci` do. With the
word `real` it also runs the sources by `rt` itself, on a value, on bad input, and on input whose answer is over the limit of an unproved run.
"""
import argparse
import os
import pathlib
import re
import shutil
import subprocess
import sys
import tempfile
import time
import tomllib

sys.path.insert(0, str(pathlib.Path(__file__).resolve().parents[1]))
from common.crates import ABOVE_NAMES, crate_of, crates_below, lines_of, path_of

TOP = pathlib.Path(__file__).resolve().parents[2]
# What takes long to read, and serves no type: matching of names, paths that are validated, and tables of Unicode.
LARGE = {"x509_match", "x509_constraints", "x509_policy", "x509_path_steps", "x509_validation", "caseless", "ucd_category", "unicode_normalization"}
# What serves no type of names and below.
ABOVE = {"x509_ext", "x509_sct", "x509_cert", "x509_check", "x509_path", "x509_all_types"}
WORD, TYPE, ROW = re.compile(r'\("([\w-]+)", Kind::(\w+)\)'), re.compile(r'Kind::(\w+) => "(\w+)"'), re.compile(r'^ +"(\w+)" =>', re.M)
BUILD, RUN = "tools/build/build_program.py", "tools/build/run_unproved.py"
SCRIPTS = ("x509_tool", "crates.txt", "HANDLES", "docs/GATE.md", "tools/common/crates.py", BUILD, RUN)
# Answers by the words that the test hands on: VERB in the first line, then what `rt` prints on each stream, and its status.
STAND_IN = r"""#!/usr/bin/env python3
import os, sys
words = sys.argv[1:]
crate = os.path.basename(os.getcwd())
if words[0] == "try":
    said = {
        "good": ("0603550406\n", "checked: ended status=0\nrun=ended status=0 runners=1 proved=no\n", 0),
        "bad": ("refused: Malformed\n", "checked: ended status=1\nrun=ended status=1 runners=1 proved=no\n", 1),
        "told": ("", "said by the program\nchecked: ended status=2\nrun=ended status=2 runners=1 proved=no\n", 2),
        "long": ("", "checked: no-answer: the program wrote more than 1048576 bytes\nrun=no-answer proved=no\n", 6),
        "broken": ("", "error: src/main.rt:3:1: no such name\nrun=none proved=no\n", 1),
    }[words[-1]]
    if sys.stdin.read() != "input\n":
        sys.exit(9)
    sys.stdout.write(said[0])
    sys.stderr.write(said[1])
    sys.exit(said[2])
if words != ["ci"]:
    sys.exit(9)
for crate in sorted(os.listdir("crates")):
    if crate == os.environ.get("FAILS"):
        print(f"rt: {crate} NOT PROVED")
        sys.exit(1)
    print(f"rt: {crate} proved")
os.makedirs("crates/x509_tool/out")
with open("crates/x509_tool/out/x509_tool", "w") as it:
    it.write("#!/bin/sh\necho proved $*\nexit 5\n")
os.chmod("crates/x509_tool/out/x509_tool", 0o755)
"""
USAGE = b"usage: x509_tool reencode TYPE [rfc5280|raw] | name | encode-name\n       x509_tool path [--any-signature] MOMENT\n"
# The types of x509_tool that x509_name_tool has too.
KINDS = {
    "any": "Any",
    "integer": "Int",
    "name": "Name",
    "oid": "ObjectIdentifier",
    "rdn": "RelativeDistinguishedName",
    "serial": "SerialNumber",
    "time": "Time",
    "validity": "Validity",
}
failed = []


def check(what, held, said=""):
    print(f"{'passed' if held else 'failed'}: {what}")
    if not held:
        failed.append(what)
        print(said)


def run(words, top, given=b"input\n", **more):
    return subprocess.run(words, cwd=top, input=given, capture_output=True, check=False, env={**os.environ, **more})


def copy_of_scripts(folder):
    """A repository of the scripts, with a source in each crate's folder."""
    for file in SCRIPTS:
        (folder / file).parent.mkdir(parents=True, exist_ok=True)
        shutil.copy(TOP / file, folder / file)
    for crate in os.listdir(TOP / "crates"):
        source = folder / "crates" / crate / "src" / "lib.rt"
        source.parent.mkdir(parents=True)
        source.touch()
    stand_in = folder / "bin" / "rt"
    stand_in.parent.mkdir()
    stand_in.write_text(STAND_IN, encoding="ascii")
    stand_in.chmod(0o755)
    return {"PATH": f"{stand_in.parent}:{os.environ['PATH']}"}


def unproved(top, more):
    """Without a program, or with one that is older than a source."""
    for word, status, printed in (("good", 0, b"0603550406\n"), ("bad", 1, b"refused: Malformed\n")):
        ended = run(["./x509_tool", word], top, **more)
        one_line = ended.stderr.count(b"\n") == 1 and b"unproved" in ended.stderr
        check(f"unproved, {word}", (ended.returncode, ended.stdout) == (status, printed) and one_line, ended)
    ended = run(["./x509_tool", "told"], top, **more)
    own = ended.stderr.splitlines()[1:]
    check("unproved, what the program says on standard error", (ended.returncode, own) == (2, [b"said by the program"]), ended)
    for word in ("long", "broken"):
        ended = run(["./x509_tool", word], top, **more)
        check(f"unproved, no answer: {word}", (ended.returncode, ended.stdout) == (3, b"") and b"no answer" in ended.stderr, ended)


def built(top, more):
    """The build, one that fails, and the program that it leaves."""
    ended = run([BUILD, "x509_tool"], top, FAILS="x509_name", **more)
    check("a crate that isn't proved ends the build", ended.returncode == 1 and b"NOT PROVED" in ended.stderr, ended)
    check("and leaves no program", not (top / "crates/x509_tool/out/x509_tool").exists())
    ended = run([BUILD, "x509_tool"], top, **more)
    lines = ended.stderr.decode().splitlines()
    is_told = len(lines) > 1 and f" {len(lines)} of {len(lines)} crates" in lines[-1] and lines[-1].endswith("100%")
    check("the build tells each crate, and ends at all", ended.returncode == 0 and is_told, ended)
    ended = run(["./x509_tool", "some", "words"], top, **more)
    check("the proved program runs", (ended.returncode, ended.stdout, ended.stderr) == (5, b"proved some words\n", b""), ended)
    later = time.time() + 5
    os.utime(top / "crates/x509_name/src/lib.rt", (later, later))
    ended = run(["./x509_tool", "good"], top, **more)
    check("a source that is newer makes it stale", (ended.returncode, ended.stdout) == (0, b"0603550406\n"), ended)


def read():
    """What the first command waits for: all that its crate stands on is read."""
    for what, words, unread in (
        ("the first command reads nothing above names", ["reencode", "oid"], LARGE | ABOVE),
        ("a certificate needs neither validated paths nor tables of Unicode", ["reencode", "certificate"], LARGE),
    ):
        lines = lines_of(path_of(crate_of("x509_tool", words), crates_below()))
        found = sorted(unread.intersection(" ".join(lines).replace(":", " ").split()))
        check(what, not found, found)
    text = (TOP / "crates/x509_tool_run/src/command.rt").read_text(encoding="utf-8")
    types = dict(TYPE.findall(text))
    rows = {row for it in (TOP / "crates/x509_types/src").glob("*.rt") for row in ROW.findall(it.read_text(encoding="utf-8"))}
    kinds = {word: types[kind] for word, kind in WORD.findall(text)}
    above = {word for word, kind in kinds.items() if kind not in rows}
    check("the types above names are those that stand in no table below", above == ABOVE_NAMES, above)
    check("and the others are tried over both programs", {word: kind for word, kind in kinds.items() if word not in above} == KINDS, kinds)


def alike():
    """Both proved programs, where `rt ci` left them, say the same of the same words and lines."""
    programs = [TOP / "crates" / it / "out" / it for it in ("x509_tool", "x509_name_tool")]
    if not all(it.exists() for it in programs):
        print("not tried: both proved programs over the same lines, since they aren't built")
        return
    asked = [(["name"], line) for line in lines_of_rows("Name")] + [(["encode-name"], line) for line in (b"CN=www.example.org,C=DE\n", b"CN\n", b"\xff\n", b"")]
    for word, kind in KINDS.items():
        for line in lines_of_rows(kind):
            asked += [(["reencode", word, *profile], line) for profile in ([], ["raw"], ["rfc5280"], ["der"])]
    asked += [(words, b"0603550406\n") for words in (["--help"], ["--version"], ["-h"], [], ["reencode"], ["reencode", "oids"], ["names"])]
    said = [[run([it, *words], TOP, line) for it in programs] for words, line in asked]
    other = [it for it, (a, b) in zip(asked, said) if (a.returncode, a.stdout, a.stderr) != (b.returncode, b.stdout, b.stderr)]
    statuses = {status: sum(a.returncode == status for a, _ in said) for status in (0, 1, 2)}
    check(f"both programs say the same, of {len(asked)} lines, by status {statuses}", not other and min(statuses.values()) > 4, other[:3])


def lines_of_rows(kind):
    """Hex texts of the rows of a type, one of them no hex."""
    text = (TOP / f"crates/x509_test_rows/rows/{kind}.txt").read_text(encoding="utf-8")
    found = re.findall(r"^\d+ \w+ ([0-9A-F]{2,800}) =", text, re.M)[:20]
    return [f"{it}\n".encode() for it in found] + [b"0\n"]


def processor_seconds():
    """Of the processes that ended."""
    spent = os.times()
    return spent.children_user + spent.children_system


def real():
    """By `rt` itself."""
    tool = [TOP / RUN, "x509_tool", "reencode"]
    for given, words, status, printed in ((b"0603550406\n", ["oid"], 0, b"0603550406\n"), (b"06035504\n", ["oid"], 1, b"refused: Malformed\n")):
        before = processor_seconds()
        ended = run(tool + words, TOP, given)
        print(f"{processor_seconds() - before:.0f} processor seconds from the sources to the answer")
        check(f"the sources answer {printed}", (ended.returncode, ended.stdout) == (status, printed), ended)
    ended = run([*tool, "certificate"], TOP, b"3000\n")
    check("of a certificate too", (ended.returncode, ended.stdout) == (1, b"refused: Malformed\n"), ended)
    version = tomllib.loads((TOP / "bindings/rust/Cargo.toml").read_text(encoding="utf-8"))["package"]["version"]
    ended = run([TOP / RUN, "x509_tool", "--version"], TOP, b"")
    check("the version is that of the package for Rust", (ended.returncode, ended.stdout.decode()) == (0, f"x509_tool {version}\n"), ended)
    ended = run([TOP / RUN, "x509_tool", "--help"], TOP, b"")
    is_help = ended.returncode == 0 and ended.stdout.startswith(USAGE + b"\n") and ended.stdout.count(b"\n") > 8
    check("--help begins with the usage", is_help, ended)
    for words in (["--help", "x"], ["-h"], ["version"], []):
        ended = run([TOP / RUN, "x509_tool", *words], TOP, b"")
        check(f"other words get the usage alone: {words}", (ended.returncode, ended.stdout) == (2, USAGE), ended)
    octets = b"04830F4240" + b"00" * 1_000_000 + b"\n"
    ended = run(tool + ["any"], TOP, octets)
    is_none = (ended.returncode, ended.stdout) == (3, b"") and b"no answer" in ended.stderr
    check("an answer of 2 MB is none, and nothing is printed", is_none, ended.stderr[-300:])


def main():
    parser = argparse.ArgumentParser(description=__doc__)
    parser.add_argument("real", nargs="?", choices=["real"], help="run the sources by `rt` itself too")
    given = parser.parse_args()
    read()
    alike()
    with tempfile.TemporaryDirectory() as folder:
        top = pathlib.Path(folder)
        more = copy_of_scripts(top)
        unproved(top, more)
        built(top, more)
    if given.real:
        real()
    return 1 if failed else 0


if __name__ == "__main__":
    sys.exit(main())
