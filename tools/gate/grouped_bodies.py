"""Tries wrong bodies of a crate in groups, each over one copy of the crate, and reads from one check what the prover says of each function that was changed.

An edit is refused where the function that it changes isn't proved for a reason of its own: a goal that the prover's search leaves, or a file of its proof
that no longer fits. That it calls a function that isn't proved is none, since that may be the work of another edit. A check that stops before it says anything
of the functions says nothing of any edit: what doesn't compile is put aside, and else the group is halved. Where a group doesn't tell, the edit is tried by
itself, and where its function is proved, it is tried by itself over the whole crate, which is what `rt must-fail` does.
"""
import collections
import contextlib
import dataclasses
import os
import pathlib
import re
import resource
import shutil
import subprocess
import sys

sys.path.insert(0, str(pathlib.Path(__file__).resolve().parents[1]))
from common.crates import TOP
from common.rattle import all_functions, without_parameters

PARTS = "src", "specs", "proofs"
KEPT = "out/incremental"
# what comes of an edit
GOAL, PROOF, GONE, OTHER, BAD, PROVED, UNTRIED = (
    "refused",
    "refused, since a proof no longer fits",
    "refused, since a proof names what is gone",
    "refused, and by no goal",
    "BAD EDIT",
    "NOT REFUSED",
    "NOT TRIED",
)
OWN = GOAL, PROOF, GONE
REFUSED = *OWN, OTHER
# the last name of a path of a type
TYPE = re.compile(r"(?:\w+::)*(\w+)")
# what a check says
LINE = re.compile(r"(\w+) (\S+): (proved|not proved|no proof|could not tell)(.*)")
NOTE = re.compile(r"note: (src/\S+:\d+):\d+: (.*) \(`([^`]+)`\)(.*)")
ERROR = re.compile(r"(?:\./)?((?:src|specs|proofs)/\S+):(\d+):\d+: error(\[|: )(?:`([^`]*)`: )?(.*)")
NAMES = re.compile(r"has no field|is not in scope|has no `")
# of an error in a text of the sources or of the definitions: it can't be read, and isn't only false
UNREAD = re.compile(r"is not in scope|has no field|is no name|operand is missing|expected the end|cannot continue")
LEFT = re.compile(r"`search` did not prove (.*?)(?:; it calls|; it passes|$)")
MISSING = re.compile(r"^rattle: error: `\w+` has no function `(\S+)`", re.M)
ENDS = re.compile(r"only=\d+ proved=\d+|logic=(?:not-)?proved\b")
# a library was built over kept work that no longer fits, so nothing is known
STALE = re.compile(r"module .Rattle-\w+-.*Run the lower steps again")


@dataclasses.dataclass
class Edit:
    """A wrong body: its file, the texts that it makes of files of the crate, the functions that it changes, whose names in a check are known, or none."""

    file: pathlib.Path
    texts: dict
    changed: list
    names: list

    @property
    def name(self):
        return self.file.name


@dataclasses.dataclass
class Answer:
    """What came of an edit, and the prover's words."""

    kind: str
    words: str


@dataclasses.dataclass
class Fault:
    """An error that a check prints: its place, whether the text couldn't be read, and its line. What stops before the prover has its kind in brackets."""

    path: str
    number: int
    is_unread: bool
    line: str


class NotRead(Exception):
    """Why an edit can't be applied."""


def applied(edit, folder):
    """The texts of the files that an edit changes, as `rt must-fail` applies it."""
    texts, path, old = {}, None, None
    for line in edit.read_text(encoding="utf-8").split("\n"):
        if line.startswith("file: "):
            path = line[len("file: ") :].strip()
            if path not in texts:
                texts[path] = (folder / path).read_text(encoding="utf-8")
        elif line.startswith("old: "):
            old = line[len("old: ") :]
        elif line.startswith("new:"):
            if path is None or not old:
                raise NotRead("a `new:` line stands before any `file:` or `old:` line")
            if (count := texts[path].count(old)) != 1:
                raise NotRead(f"an `old:` text is in {path} {count} times, and not once")
            texts[path] = texts[path].replace(old, line[len("new:") :].removeprefix(" "))
            old = None
    if all(text == (folder / path).read_text(encoding="utf-8") for path, text in texts.items()):
        raise NotRead("it changes nothing")
    return texts


def words_of(text):
    return set(re.findall(r"[A-Za-z_]\w*", text))


def module_of(function, crate):
    """The path of the module that a function stands in."""
    parts = list(function.file.relative_to(TOP / "crates" / crate / "src").with_suffix("").parts)
    return "::".join([crate, *[it for it in parts if it not in ("lib", "main", "mod")]])


def in_name(text, parameters):
    """A type as the name of an impl has it: no parameter and no lifetime, but `Any` for one that is a parameter, `Ref` for a reference, and what is built in
    with a capital."""
    text = text.partition(" where ")[0].strip()
    if text in parameters:
        return "Any"
    tuple_of = f"Tuple{text.count(',') + 1}" if text.startswith("(") else ""
    parts = re.findall(r"&|'\w+|\w+", text)
    return tuple_of + "".join("Ref" if it == "&" else it[0].upper() + it[1:] for it in parts if it[0] != "'" and it not in (*parameters, "mut", "dyn"))


def name_of(function, crate):
    """The name under which a check tells of a function: an impl of a trait has one that is made of its types."""
    module = module_of(function, crate)
    word, behind = re.match(r"(?:pub )?(impl\b|trait\b|) ?(.*)", function.block).groups()
    if not word:
        return f"{module}::{function.name}"
    parameters = re.findall(r"[<,] *(\w+)", behind[: len(behind) - len(without_parameters(behind))])
    behind = without_parameters(behind) if word == "impl" else behind
    trait, is_of_trait, of = behind.rstrip(" {").partition(" for ")
    if word == "trait" or not is_of_trait:
        return f"{module}::{TYPE.match(behind)[1]}::{function.name}"
    named, _, of_named = trait.partition("<")
    return f"{module}::{in_name(of, parameters)}{TYPE.match(named)[1]}{in_name(of_named, parameters)}::{function.name}"


def found_as(name, known):
    """The name as a check has it: a method may stand in the module of its type."""
    found = [it for it in known if it.split("::")[-2:] == name.split("::")[-2:]]
    return name if name in known else found[0] if len(found) == 1 else None


def changed_by(texts, folder, functions):
    """The functions whose bodies are changed, or none where something else is too: a constant, a contract, a definition."""
    found = []
    for path, text in texts.items():
        was, now = (folder / path).read_text(encoding="utf-8").split("\n"), text.split("\n")
        if len(was) != len(now):
            return []
        for number, (one, other) in enumerate(zip(was, now), 1):
            if one != other:
                here = [it for it in functions if it.file == folder / path and it.first + it.head.count("\n") < number <= it.last]
                if not here:
                    return []
                found += [it for it in here if it not in found]
    return found


def parts_of(name, crate):
    """What a check names of a function beside it: the beginning of the names of its closures, and its folders of proofs. A method's name has its type's."""
    path = name.split("::")[1:]
    for cut in (1, 2):
        if len(path) >= cut and (cut == 1 or path[-2][:1].isupper()):
            module, own = path[:-cut], path[-cut:]
            yield "::".join([crate, *module, "fn", *own, ""]), "/".join(["proofs", *module, "fn", *own, ""])
    yield None, "/".join(["proofs", *path, ""])


def is_of(path, begin, folder):
    """Whether a file is of the proof of a function, or of one of its closures."""
    return path.startswith(folder) and (begin is not None or "/" not in path[len(folder) :])


class Said:
    """What a check said: a line for each function, the notes in front of it, and the errors."""

    def __init__(self, text, status):
        self.text, self.lines, self.functions, self.notes, self.errors, notes = text, {}, [], {}, [], []
        for line in text.splitlines():
            if it := LINE.fullmatch(line):
                self.lines[it[2]] = it[3], it[4].removeprefix(": ")
                self.notes[it[2]], notes = notes, []
                self.functions += [it[2]] if it[1] == "fn" else []
            elif it := NOTE.fullmatch(line):
                notes.append((it[3], f"{it[1]}: {it[2]}{it[4]}"))
            elif it := ERROR.match(line):
                is_unread = it[3] == "[" or not it[1].startswith("proofs/") and (not it[4] or UNREAD.search(it[5]) is not None)
                self.errors.append(Fault(it[1], int(it[2]), is_unread, line))
        # without its last line a check has come to no end
        self.is_whole = status in (0, 1) and any(ENDS.match(line) for line in text.splitlines()) and not STALE.search(text)
        self.is_proved = self.is_whole and status == 0

    @property
    def unread(self):
        return next((it.line for it in self.errors if it.is_unread), None)

    def of(self, name, crate):
        """What it says of a function: a kind of answer, or none where it doesn't tell, and its words."""
        places = list(parts_of(name, crate))
        own = [it for it in self.lines if it == name or it.startswith(tuple(begin for begin, _ in places if begin))]
        if name not in own:
            return None, "nothing is said of it"
        fell = [it for it in own if self.lines[it][0] != "proved"]
        if not fell:
            return PROVED, ""
        errors = [it.line for it in self.errors if any(is_of(it.path, begin, folder) for begin, folder in places)]
        said = f"fn {fell[0]}: {', '.join(it for it in self.lines[fell[0]] if it)}"
        if any("not admitted" in it for it in errors):
            # it rests on what isn't proved
            return None, said
        for it in fell:
            if left := LEFT.search(self.lines[it][1]):
                notes = [words for goal, words in self.notes[it] if f"`{goal}`" in left[1]]
                return GOAL, f"{left[1]} of {it}" + (f" ({notes[0]})" if notes else "")
        is_own = not any(re.search("it calls|it passes|a call of", self.lines[it][1]) or self.lines[it][0] == "could not tell" for it in fell)
        if not errors or not is_own:
            return None, said
        # as `rt must-fail`, which says that a refusal for a name that is gone says little of the contract
        unfit = [it for it in errors if not NAMES.search(it)]
        return (PROOF, unfit[0]) if unfit else (GONE, errors[0])


class Tried:
    """The tries of some edits of a crate, over a copy of the repository."""

    def __init__(self, crate, copy, jobs, most):
        self.crate, self.jobs, self.most = crate, jobs, most
        self.source, self.folder = TOP / "crates" / crate, copy / "crates" / crate
        self.seed, self.answers, self.checks = copy / "seed", {}, 0
        self.functions, self.is_proved = list(all_functions(crate)), False

    def begin(self, edits, whole):
        """Proves the crate as it stands, or else the functions that the edits change, so that what a check says of these is the edits' work."""
        if (self.source / KEPT).is_dir():
            linked(self.source / KEPT, self.folder / KEPT)
        names = {it for edit in edits for it in edit.names}
        said = self.check([], None if whole else names)
        while (missing := MISSING.search(said.text)) and missing[1] in names:
            names.remove(missing[1])
            said = self.check([], names)
        self.keep(said)
        self.is_proved = whole
        for edit in edits:
            found = [found_as(it, said.functions) for it in edit.names]
            edit.names = [] if None in found else found

    def keep(self, said):
        """Keeps what a check of the crate as it stands has proved, for the others to begin with."""
        if not said.is_proved:
            sys.exit(f"{self.crate} isn't proved as it stands:\n{said.text[-3000:]}")
        shutil.rmtree(self.seed, ignore_errors=True)
        os.rename(self.folder / KEPT, self.seed)

    def read(self, files):
        """The edits that can be applied."""
        found = []
        for file in files:
            try:
                texts = applied(file, self.source)
            except (NotRead, OSError) as why:
                self.tell(file.name, BAD, str(why))
                continue
            changed = changed_by(texts, self.source, self.functions)
            # the value of a constant may be the work of a `const fn`, and no contract stands between
            is_open = any("const fn" in it.head.split("\n")[0] for it in changed)
            found.append(Edit(file, texts, changed, [] if is_open else [name_of(it, self.crate) for it in changed]))
        return found

    def tell(self, name, kind, words):
        self.answers[name] = Answer(kind, words)
        print(f"{self.crate}/{name}: {kind}: {words[:400]}" if words else f"{self.crate}/{name}: {kind}", flush=True)

    def check(self, edits, names=None):
        """What a check says with these edits: of the whole crate, or of the functions of these names and what they call."""
        for part in PARTS:
            shutil.rmtree(self.folder / part, ignore_errors=True)
            if (self.source / part).is_dir():
                shutil.copytree(self.source / part, self.folder / part)
        for path in {it for edit in edits for it in edit.texts}:
            was = (self.source / path).read_text(encoding="utf-8").split("\n")
            now = list(was)
            for edit in edits:
                if path in edit.texts:
                    # no two of a group change one line
                    for at, (one, other) in enumerate(zip(was, edit.texts[path].split("\n"))):
                        now[at] = other if other != one else now[at]
            text = edits[0].texts[path] if len(edits) == 1 else "\n".join(now)
            (self.folder / path).write_text(text, encoding="utf-8")
        if self.seed.is_dir():
            shutil.rmtree(self.folder / KEPT, ignore_errors=True)
            linked(self.seed, self.folder / KEPT)
        run = subprocess.run(
            ["rt", "check", "--jobs", str(self.jobs), *[f"--only={it}" for it in sorted(names or ())]],
            cwd=self.folder,
            stdin=subprocess.DEVNULL,
            stdout=subprocess.PIPE,
            stderr=subprocess.STDOUT,
            errors="replace",
            check=False,
        )
        self.checks += 1
        return Said(run.stdout, run.returncode)

    def groups(self, edits):
        """Groups in which no two change the same function, and none a function that another one's names, as it was or as it is now."""
        left = list(edits)
        while left:
            group, owned, named, rest = [], set(), set(), []
            for edit in left:
                own = {(it.file, it.first) for it in edit.changed} | set(edit.names)
                called = {it.name for it in edit.changed}
                calls = self.words(edit)
                if len(group) < self.most and not own & owned and not called & named and not calls & {it.name for other in group for it in other.changed}:
                    group.append(edit)
                    owned |= own
                    named |= calls
                else:
                    rest.append(edit)
            yield group
            left = rest

    def words(self, edit):
        """The names in the bodies of the functions that an edit changes."""
        found = set()
        for it in edit.changed:
            path = str(it.file.relative_to(self.source))
            lines = edit.texts[path].split("\n")[it.first + it.head.count("\n") : it.last]
            found |= words_of(it.body) | words_of("\n".join(lines))
        return found

    def try_all(self, edits):
        """Tries all, and tells what came of each."""
        alone = [it for it in edits if not it.names]
        for group in self.groups([it for it in edits if it.names]):
            alone += self.try_group(group)
        for edit in alone:
            self.try_alone(edit)

    def try_group(self, group):
        """Tries a group, and answers those of which it didn't tell that they are refused."""
        if len(group) < 2:
            return group
        said = self.check(group, {it for edit in group for it in edit.names})
        if not said.is_whole:
            told = [edit for edit in group if self.has_error(edit, said)]
            rest = [edit for edit in group if edit not in told]
            if told:
                return told + self.try_group(rest)
            half = len(group) // 2
            return self.try_group(group[:half]) + self.try_group(group[half:])
        left = []
        for edit in group:
            kind, words = self.of(edit, said)
            if kind in OWN:
                self.tell(edit.name, kind, words)
            else:
                left.append(edit)
        return left

    def of(self, edit, said):
        """What a check says of an edit by the functions that it changes: proved where each is, and else what it says of the first that isn't."""
        if self.has_error(edit, said):
            return None, ""
        told = [said.of(name, self.crate) for name in edit.names]
        return next((it for it in told if it[0] in OWN), next((it for it in told if it[0] is None), told[0] if told else (None, "")))

    def has_error(self, edit, said):
        """Whether a check has an error in a text that the edit changes."""
        files = {str(it.file.relative_to(self.source)): [] for it in edit.changed}
        for it in edit.changed:
            files[str(it.file.relative_to(self.source))].append((it.first, it.last))
        return any(first <= it.number <= last for it in said.errors for first, last in files.get(it.path, []))

    def try_alone(self, edit):
        """Tries an edit by itself: by its functions, and where these don't tell that it is refused by the whole crate."""
        if edit.names:
            said = self.check([edit], set(edit.names))
            kind, words = self.of(edit, said)
            if said.is_whole and kind in OWN:
                return self.tell(edit.name, kind, words)
        if not self.is_proved:
            self.keep(self.check([]))
            self.is_proved = True
        said = self.check([edit])
        return self.tell(edit.name, *self.judged(edit, said))

    def judged(self, edit, said):
        """What a check of the whole crate says of an edit that was tried by itself."""
        if said.is_proved:
            return PROVED, "the crate is still proved"
        if said.unread:
            return BAD, said.unread
        if not said.is_whole:
            return UNTRIED, "the check came to no end: " + " ".join(said.text.split("\n")[-4:])
        own = self.of(edit, said)
        fell = [it for it, (told, _) in said.lines.items() if told != "proved"]
        told = [own, *[said.of(it, self.crate) for it in fell]]
        for wanted in OWN:
            for kind, words in told:
                if kind == wanted:
                    return kind, words
        if any(said.lines[it][0] == "could not tell" for it in fell):
            return UNTRIED, "the prover could not tell"
        return OTHER, next((it.line for it in said.errors), next((f"{it}: {', '.join(said.lines[it])}" for it in fell), ""))


def linked(folder, to):
    """Copies what a check kept: what was proved by links, since a check replaces such a file and changes none."""

    def copy(one, other):
        if one.endswith(".oantt"):
            with contextlib.suppress(OSError):
                return os.link(one, other)
        return shutil.copy2(one, other)

    shutil.copytree(folder, to, symlinks=True, copy_function=copy)


def seconds():
    """The processor seconds of the checks until now."""
    used = resource.getrusage(resource.RUSAGE_CHILDREN)
    return used.ru_utime + used.ru_stime


def try_crates(files_of, copy, whole, jobs, most):
    """Tries the edits of each crate over a copy of the repository, prints what came of each and how many of each kind, and answers whether all are refused. It
    begins with a proof of each crate, or else of the functions alone that the edits change.
    """
    kinds, checks, begun = collections.Counter(), 0, seconds()
    for crate, files in files_of.items():
        tried = Tried(crate, copy, jobs, most)
        edits = tried.read(files)
        if edits:
            tried.begin(edits, whole)
            tried.try_all(edits)
        kinds.update(it.kind for it in tried.answers.values())
        checks += tried.checks
        shutil.rmtree(tried.seed, ignore_errors=True)
        shutil.rmtree(tried.folder / "out" / "incremental", ignore_errors=True)
    count = sum(len(files) for files in files_of.values())
    told = ", ".join(f"{kinds[kind]} {kind}" for kind in (*REFUSED, BAD, PROVED, UNTRIED) if kinds[kind])
    print(f"{sum(kinds[it] for it in REFUSED)} of {count} refused: {told}; {checks} checks, {seconds() - begun:.0f} processor seconds")
    return sum(kinds[it] for it in REFUSED) == count
