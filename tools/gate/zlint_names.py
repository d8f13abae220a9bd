"""The lints of zlint that stand beside rules of x509_lint and x509_lint_web, of tools/data/zlint.txt: for list_rules.py and list_web_rules.py."""
import collections
import pathlib
import re

NAMES = pathlib.Path(__file__).resolve().parents[2] / "tools/data/zlint.txt"
CRATES = "x509_lint", "x509_lint_web"
LINT = re.compile(r"[ewn]_[a-z0-9_]+")
# lints beside one rule
MOST = 3
# what begins a line that has no rule
TWICE, OTHERS = "twice ", "- "
HEAD = """Behind a rule stand lints of zlint 3 (`e_`, `w_`, `n_`) that ask for the same or a part of it, maybe with other limits. Their names are from memory:
a rule without one may have one all the same. Other lints are at the end.
"""


def lines():
    """The lines of the file: of each the crate of its section, what is in front of the colon, and what is behind it."""
    crate = ""
    for line in NAMES.read_text(encoding="utf-8").splitlines():
        if section := re.fullmatch(r"# (x509_\w+)", line):
            crate = section[1]
        elif line and not line.startswith("#"):
            name, _, said = line.partition(": ") if line.startswith(TWICE) else line.rpartition(": ")
            yield crate, name, said


def quoted(lints):
    return ", ".join(f"`{lint}`" for lint in lints)


class Lints:
    """The lints of a crate: those beside its rules, and those beside none, by why that is so."""

    def __init__(self, crate):
        self.lines = list(lines())
        self.beside = [(name, said.split(", ")) for owner, name, said in self.lines if owner == crate and not name.startswith((TWICE, OTHERS))]
        self.others = [(name.removeprefix(OTHERS), said.split(", ")) for owner, name, said in self.lines if owner == crate and name.startswith(OTHERS)]

    def of(self, rule):
        """What is said of a rule: its lints, or nothing."""
        return quoted(dict(self.beside).get(rule, ()))

    def end(self):
        """The end of the page: the lints beside no rule."""
        return "\n## Other lints of zlint\n\n" + "".join(f"- {why}: {quoted(lints)}.\n" for why, lints in self.others)

    def faults(self, rules):
        """What is wrong with the lines of the crate, which has these rules, and with the lints of the whole file."""
        counts = collections.Counter(name for name, _ in self.beside)
        named = {*counts, *re.findall(r"`(\w+)`", " ".join(why for why, _ in self.others))}
        yield from (f"{NAMES.name}: there is no rule {name}" for name in sorted(named) if name not in rules)
        yield from (f"{NAMES.name}: the rule {name} has {count} lines" for name, count in counts.items() if count > 1)
        yield from (f"{NAMES.name}: the rule {name} has more than {MOST} lints" for name, lints in self.beside if len(lints) > MOST)
        crates = dict.fromkeys(owner for owner, _, _ in self.lines)
        yield from (f"{NAMES.name}: a section is that of no crate with rules: {owner or 'that of the first lines'}" for owner in crates if owner not in CRATES)
        yield from self.faults_of_lints()

    def faults_of_lints(self):
        twice = {name.removeprefix(TWICE): said for _, name, said in self.lines if name.startswith(TWICE)}
        others = collections.Counter(lint for _, name, said in self.lines if name.startswith(OTHERS) for lint in said.split(", "))
        beside = collections.Counter(lint for _, name, said in self.lines if not name.startswith((TWICE, OTHERS)) for lint in said.split(", "))
        for lint in sorted({*beside, *others, *twice}):
            if not LINT.fullmatch(lint):
                yield f"{NAMES.name}: no lint has such a name: {lint}"
            if beside[lint] > 1 and not twice.get(lint):
                yield f"{NAMES.name}: {lint} stands beside several rules, and no line says why"
            if lint in twice and beside[lint] < 2:
                yield f"{NAMES.name}: {lint} doesn't stand beside several rules, and a line says why it does"
            if others[lint] + (beside[lint] > 0) > 1:
                yield f"{NAMES.name}: {lint} stands beside no rule, and once more"
