#!/usr/bin/env python3
"""Looks whether a test sees each answer of the calls that may answer `Memory`: a body that gave up with it in the place of another answer would be proved.

The calls and their answers are those of the sources, from x509_der to x509_codec: each function that other crates can call and that answers a `Result`, by
its signature, the `# Errors` of its docs and its contract. tools/data/seen.txt has a line for each, which says what sees the answer. Told are a call or an
answer without a line, and a line that doesn't hold: whose function doesn't name its call any more, is run by no test, or whose test doesn't name its refusal.
"""
import argparse
import dataclasses
import functools
import pathlib
import re
import sys

sys.path.insert(0, str(pathlib.Path(__file__).resolve().parents[1]))
from common.crates import TOP, crates_below, path_of
from common.header import calls as calls_from_c
from common.rattle import all_functions, calls, functions
from common.rows import ROWS

TABLE = TOP / "tools" / "data" / "seen.txt"
CALLERS = TOP / "tools" / "gate" / "test_callers.sh"
FIRST, LAST = "x509_der", "x509_codec"
WORDS = ["Overlength", "Malformed", "Failed", "SetDuplicate", "Value", "EndOfStream", "UnknownValue", "TrailingData", "InvalidVectorLength"]
WORDS += ["Refused", "PublicKey", "Signature", "NonUniqueRdn", "NonUniqueATV", "InvalidAttribute", "MissingAttributes"]
FAULTS = {"PathFault": "PathReason", "ValidationFault": "ValidationReason"}
NEVER = "None: it is never refused", "No memory is taken"


@dataclasses.dataclass(frozen=True)
class Line:
    number: int
    crate: str
    call: str
    answers: tuple[str, ...]
    where: tuple[str, ...]  # a file and a function, or `clause` with its name, or `unseen`, or `untested`
    source: tuple[str, ...]  # with what the answers of a function of a library come; else none

    @property
    def of(self):
        return self.crate, self.call


@functools.cache
def variants(crate, name):
    """The variants of an enum of faults, of the crate or of one that it stands on, but for that of memory and for what only holds a place and a reason."""
    for below in sorted(path_of(crate, crates_below()), reverse=True):
        for file in sorted((TOP / "crates" / below / "src").rglob("*.rt")):
            if told := re.search(rf"^pub enum {name} \{{\n(.*?)^\}}", file.read_text(encoding="utf-8"), re.M | re.S):
                return frozenset(re.findall(r"^    (\w+)", told[1], re.M)) - {"Memory", "At"}
    raise ValueError(f"where is {name}?")


def takes_memory(it):
    """Whether the call may answer that it is out of memory."""
    if "Result" not in it.answer or any(said in it.errors for said in NEVER):
        return False
    told = it.errors + it.contract
    hands_on = it.errors == "" or re.search(r"\[`|\bThose of\b", it.errors)
    return "emory" in told or "AllocError" in it.answer or "alloc: Global" in it.head and bool(hands_on)


def refusals(crate, it):
    """The answers of a call but for `Ok` and that it is out of memory. Of faults all may come, but where its docs name some, and neither the reasons as a
    whole nor those of another call."""
    found, named = set(), set(re.findall(r"`(?:\w+::)*(\w+)", it.errors))
    for fault, reason in FAULTS.items():
        if fault in it.answer:
            every = variants(crate, fault) | variants(crate, reason)
            found |= every if reason in named or "Those of" in it.errors else every & named or every
    return found or (named | set(re.findall(r"\w+", it.contract))) & set(WORDS)


def wanted():
    """The calls that may answer that they are out of memory, by crate and name."""
    crates = list(crates_below())
    found = {}
    for crate in crates[crates.index(FIRST) : crates.index(LAST) + 1]:
        for name, it in calls(crate):
            if takes_memory(it):
                found[crate, name] = it
    return found


def lines():
    for number, text in enumerate(TABLE.read_text(encoding="utf-8").splitlines(), 1):
        if text and not text.startswith("#"):
            named, answers, where, *source = (it.split() for it in text.split("|"))
            yield Line(number, *named, tuple(answers), tuple(where), tuple(sum(source, [])))


def names(text, call):
    """Whether a function's body has a call of that name, of a method with any value or type in front, of another function with its crate or nothing."""
    of, _, name = call.rpartition("::")
    return re.search(rf"{r'(?:::|[.])' if of else r'(?:(?<![.:])|x509_[a-z_]+::)'}\b{name}(?:::<[^()]*>)?\(", text) is not None


def is_run(function, others):
    """Whether the function is a test, the program's first, or is named by another one of its crate."""
    named = re.compile(rf"\b{function.name}\b")
    return "#[test]" in function.docs or function.name == "main" or any(named.search(it.body) for it in others if it is not function)


def rows_of(kind):
    file = ROWS / "rows" / f"{kind}.txt"
    return file.read_text(encoding="utf-8") if file.exists() else ""


def in_capitals(word):
    """`X509_SET_DUPLICATE` has the word `SetDuplicate` so."""
    return re.sub(r"(?<=[a-z])(?=[A-Z])", "_", word).upper()


def names_answer(text, word):
    return re.search(rf"\b(?:{word}|{in_capitals(word)})\b", text) is not None


def faults_of_source(line, asked, seen):
    """What is wrong with that which is to bring these answers."""
    what, *name = line.source
    if what == "rows":
        for it in line.answers:
            if not re.search(r"= same$" if it == "Ok" else rf"= refused: {it}$", rows_of(*name), re.M):
                yield f"no row of {name[0]} is answered so: {it}"
    elif what == "c":
        told = {it.name: it.statuses for it in calls_from_c()}
        yield from (f"{name[0]} doesn't answer {it}" for it in line.answers if f"X509_{in_capitals(it)}" not in told.get(name[0], ()))
    elif what == "by":
        yield from (f"no test sees {it} of {' '.join(name)}" for it in line.answers if it not in seen.get(tuple(name), ()))
    elif what == "with":
        yield from (f"no test sees {it} of {' '.join(name[:2])}" for it in line.answers if it not in seen.get(tuple(name[:2]), ()))
        both = line.of, tuple(name[:2])
        yield from (f"{of[1]} doesn't call {name[2]}" for of in both if of not in asked or not names(asked[of].body, name[2]))
    elif what == "run":
        if f'"$gate/{name[0]}"' not in CALLERS.read_text(encoding="utf-8"):
            yield f"{CALLERS.name} doesn't run {name[0]}"
    elif what == "tests":
        crate, _, file = name[0].partition("/")
        here = functions(TOP / "crates" / crate / "src" / f"{file}.rt")
        if not any(it.name == name[1] and "#[test]" in it.docs for it in here):
            yield f"{name[0]} has no test {name[1]}"
    elif what == "stated":
        text = (TOP / name[0]).read_text(encoding="utf-8")
        yield from (f"{name[0]} doesn't state {it}" for it in line.answers if it != "Ok" and not names_answer(text, it))
    else:
        yield f"what is {what}?"


def faults_of_clause(line, asked):
    """What is wrong with the clause that is to leave no choice of these answers."""
    clause = re.search(rf"\bensures {line.where[1]} \{{(.*?)(?=\bensures\b|\Z)", asked[line.of].head, re.S)
    yield from (f"no clause {line.where[1]} has {it}" for it in line.answers if clause is None or not names_answer(clause[1], it))


def faults_of_test(line, asked, found, seen):
    """What is wrong with the function that is to call it."""
    crate, _, file = line.where[0].partition("/")
    of_crate = found(crate)
    here = [it for it in of_crate if it.file == TOP / "crates" / crate / "src" / f"{file}.rt"]
    function = next((it for it in here if it.name == line.where[1] and names(it.body, line.call)), None)
    if function is None:
        yield f"{line.where[0]} has no {line.where[1]} that calls it"
    elif line.source:
        yield from faults_of_source(line, asked, seen)
    elif not crate.endswith(("_tests", "_bench")):
        yield f"{crate} has no tests"
    elif not is_run(function, of_crate):
        yield f"{line.where[1]} is run by no test"
    else:
        text = function.file.read_text(encoding="utf-8")
        yield from (f"{line.where[0]} doesn't name {it}" for it in line.answers if it != "Ok" and not names_answer(text, it))


def faults(line, asked, found, seen):
    """What is wrong with a line."""
    if line.of not in asked:
        yield "there is no such call that takes memory"
    elif unknown := set(line.answers) - {"Ok"} - set(WORDS) - refusals(line.crate, asked[line.of]):
        yield f"there are no such answers: {' '.join(sorted(unknown))}"
    elif line.where[0] == "clause":
        yield from faults_of_clause(line, asked)
    elif line.source[:1] == ("with",):
        yield from faults_of_source(line, asked, seen)
    elif line.where[0] not in ("unseen", "untested"):
        yield from faults_of_test(line, asked, found, seen)


def seen_by(told):
    """Of each call the answers that lines say a test sees, from those on which others stand to these."""
    seen, left = {}, list(told)
    while ready := [it for it in left if it.source[:1] not in (("by",), ("with",)) or set(it.answers) <= seen.get(it.source[1:3], set())]:
        for it in ready:
            seen.setdefault(it.of, set()).update(it.answers)
        left = [it for it in left if it not in ready]
    return seen


def main():
    argparse.ArgumentParser(description=__doc__, formatter_class=argparse.RawDescriptionHelpFormatter).parse_args()
    asked, told, kept = wanted(), list(lines()), {}

    def found(crate):
        if crate not in kept:
            kept[crate] = list(all_functions(crate))
        return kept[crate]

    seen = seen_by(told)
    wrong = [f"{TABLE.name}:{line.number}: {line.call}: {it}" for line in told for it in faults(line, asked, found, seen)]
    answers = [(of, answer) for of, it in asked.items() for answer in sorted({"Ok"} | refusals(of[0], it))]
    wrong += [f"{' '.join(of)}: no test sees {answer}" for of, answer in answers if answer not in seen.get(of, ())]
    for it in wrong:
        print(it)
    unseen, untested = (sum(len(it.answers) for it in told if it.where[0] == why) for why in ("unseen", "untested"))
    print(
        f"{len(asked)} calls with {len(answers)} answers beside Memory, {unseen} of them unseen, {untested} untested; "
        f"{len(wrong)} without a line, or lines that don't hold"
    )
    return int(bool(wrong) or not asked)


if __name__ == "__main__":
    sys.exit(main())
