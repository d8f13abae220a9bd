#!/usr/bin/env python3
"""Makes docs/RULES.md: what RFC 5280 says MUST or SHOULD hold of certificates and CRLs, RFC 2986 and RFC 2985 of CSRs, and RFC 5914 of trust anchors, by
section, with the rule of x509_lint that tells where it is broken, and lints of zlint beside it; of what none tells how many sentences there are, and why.

The sentences and their answers stand in tools/data/rfc5280.txt, and the lints in tools/data/zlint.txt; the rules, and how bad it is to break each, are taken
from the code, crates/x509_lint/src/rule. With `--check` it fails where a rule of the code stands in no line of the sentences, where its docs don't say its
section, where a line names a rule that isn't there, where a sentence has no answer, where a lint has no name of one or stands beside several rules without a
word why, and where docs/RULES.md is another text.
"""
import argparse
import collections
import pathlib
import re
import sys

import zlint_names

TOP = pathlib.Path(__file__).resolve().parents[2]
SENTENCES = TOP / "tools/data/rfc5280.txt"
RULES = TOP / "crates/x509_lint/src/rule"
PAGE = TOP / "docs/RULES.md"
LEVELS = ("MUST NOT", "SHOULD NOT", "MUST", "SHOULD", "GRAMMAR")
SEVERITIES = {"must": "error", "should": "warning", "not_judged": "not judged"}
# Why there is no rule, by the word that says so in the sentences.
REASONS = {
    "issuer": "needs what the issuer has, or has issued before",
    "key": "needs to know how the key was made, or what it may do",
    "world": "needs to know what stands outside: who the subject is, what an address leads to",
    "encoding": "nothing else can be encoded, or the decoder refuses it",
    "application": "says what applications do, and nothing about the object",
    "open": "a rule could stand, and there is none yet",
}
HEAD = f"""# What RFC 5280 says, and the rules of `x509_lint`

{zlint_names.HEAD}
`tools/gate/list_rules.py` makes this page of `tools/data/rfc5280.txt`, `tools/data/zlint.txt` and the rules in `crates/x509_lint/src/rule`. Each line has what
RFC 5280, or another standard that is named, says MUST or SHOULD hold, in our own words, and the rule for it. GRAMMAR: a size or a type of the ASN.1. A broken
rule is an error behind MUST, MUST NOT and GRAMMAR, a warning behind SHOULD and SHOULD NOT, where no other word is given. The calls are proved to find exactly
the broken ones, by the definitions of `crates/x509_lint/specs`. Sentences without a rule are in `tools/data/rfc5280.txt`; why, and in brackets how many:

"""


class Rules(dict):
    """The rules of the code, by what the lines call them: `name` of a certificate's, `crl:name` of a CRL's, `csr:name` of a CSR's, `anchor:name` of an
    anchor's."""

    def __init__(self):
        super().__init__()
        for path in sorted(RULES.glob("*.rt")):
            self.update(rules_of(path, OWNERS.get(path.stem, "")))
        self.update(rules_of(RULES / "constraint.rt", "anchor:"))  # anchors have those on name constraints as they are
        docs = docs_of(RULES.with_suffix(".rt").read_text())
        for owner, variant in MALFORMED.items():
            severity, section, _ = self[("crl:" if owner == "crl:" else "") + "extension_malformed"]
            self[owner + "extension_malformed"] = severity, section, docs[variant]


# The rules that an extension is malformed are variants of `Rule`, with its type; CSRs and anchors have them with the section of certificates.
MALFORMED = {
    "": "ExtensionMalformed",
    "crl:": "CrlExtensionMalformed",
    "csr:": "RequestExtensionMalformed",
    "anchor:": "AnchorExtensionMalformed",
}
OWNERS = {"crl_entry": "crl:", "crl_extension": "crl:", "crl_field": "crl:", "request": "csr:", "anchor": "anchor:"}


def docs_of(text):
    """What stands in front of each variant of an enum."""
    said = re.findall(r"((?:    ///[^\n]*\n)+)    (\w+)(?:\(\w+\))?,\n", text)
    return {variant: " ".join(lines.replace("///", " ").split()) for lines, variant in said}


def rules_of(path, owner):
    """The rules of a group: for each its severity, its standard, its section and its docs."""
    text = path.read_text()
    docs = docs_of(text)
    for variant, severity, other, given in re.findall(r"^ +(\w+)(?:\(\w+\))? =>\s+(must|should|not_judged)(_of)?\(([^;]*?)\),\n", text, re.M):
        texts = re.findall(r'"([^"]*)"', given)
        standard, name, section = texts[:3] if other else ("RFC 5280", *texts[:2])
        yield owner + name, (SEVERITIES[severity], f"{standard} {section}", docs.get(variant, ""))


def sections():
    """The sections of the sentences: each its number and title, and its sentences with their rules and why there are none."""
    found = []
    for number, line in enumerate(SENTENCES.read_text().splitlines(), 1):
        if section := re.fullmatch(r"# ((?:RFC \d+ )?[A-Z0-9.]*[0-9.][0-9]*) (.*)", line):
            found.append((section[1], section[2], []))
        elif line.startswith("= "):
            found[-1][2][-1]["rules"] += [it.strip() for it in line[2:].split(",")]
        elif line.startswith("- "):
            kind, _, more = line[2:].partition(": ")
            if kind not in REASONS:
                sys.exit(f"{SENTENCES.name}:{number}: no reason is called {kind}")
            found[-1][2][-1]["reasons"].append((kind, more))
        elif line and not line.startswith("#"):
            if not line.startswith(LEVELS):
                sys.exit(f"{SENTENCES.name}:{number}: it begins with none of {', '.join(LEVELS)}")
            found[-1][2].append({"text": line, "rules": [], "reasons": []})
    return found


def told_of(name, usual, rules, lints):
    """A rule, how bad it is to break it where that isn't what is usual there, and the lints beside it."""
    severity = rules[name][0] if name in rules else usual
    more = "; ".join(filter(None, ["" if severity == usual else severity, lints.of(name)]))
    return f"`{name.rpartition(':')[2]}`" + (f" ({more})" if more else "")


def answer(sentence, rules, lints):
    """What is said behind a sentence: its rules, each name once, and why there are none or not all."""
    usual = "warning" if sentence["text"].startswith("SHOULD") else "error"
    told = {}
    for name in sentence["rules"]:
        severity = rules[name][0] if name in rules else usual
        told.setdefault((name.rpartition(":")[2], severity), told_of(name, usual, rules, lints))
    why = [f"*{kind}*{': ' + more if more else ''}" for kind, more in sentence["reasons"]]
    return "; ".join(filter(None, [", ".join(told.values()), "; ".join(why)]))


def is_listed(sentence):
    """Whether a sentence stands on the page: it has a rule, or one could stand."""
    return bool(sentence["rules"]) or any(kind == "open" for kind, _ in sentence["reasons"])


def page(rules, all_sections, lints):
    sentences = [it for _, _, sentences in all_sections for it in sentences]
    others = collections.Counter(it["reasons"][0][0] for it in sentences if not is_listed(it) and it["reasons"])
    ruled = sum(bool(it["rules"]) for it in sentences)
    still = sum(any(kind == "open" for kind, _ in it["reasons"]) for it in sentences)
    lines = [HEAD, *(f"- *{kind}*{f' ({others[kind]})' if others[kind] else ''}: {why}.\n" for kind, why in REASONS.items())]
    told = f"{ruled} of them with a rule, {still} for which one could stand and doesn't yet or not wholly"
    lines.append(f"\n{len(sentences)} sentences, {told}; {len(rules)} rules, {len(lints.beside)} of them with lints of zlint.\n")
    for number, title, of_section in all_sections:
        listed = [it for it in of_section if is_listed(it)]
        lines.append(f"\n## {number} {title}\n\n" if listed else "")
        for it in listed:
            level = next(level for level in LEVELS if it["text"].startswith(level))
            lines.append(f"- **{level}** {it['text'][len(level) + 1:]}. {answer(it, rules, lints)}\n")
    return "".join(lines) + lints.end()


def faults(rules, all_sections):
    """What is wrong with the sentences."""
    named = {name for _, _, sentences in all_sections for it in sentences for name in it["rules"]}
    yield from (f"the rule {name} stands on no line" for name in rules if name not in named)
    yield from (f"the docs of the rule {name} don't say its section, {section}" for name, (_, section, docs) in rules.items() if f"({section}" not in docs)
    yield from (f"there is no rule {name}" for name in sorted(named) if name not in rules)
    for number, _, sentences in all_sections:
        yield from (f"{number}: no answer: {it['text']}" for it in sentences if not it["rules"] and not it["reasons"])


def made():
    rules, all_sections, lints = Rules(), sections(), zlint_names.Lints("x509_lint")
    return page(rules, all_sections, lints), len(rules), [*faults(rules, all_sections), *lints.faults(rules)]


def written(description, path, what, make):
    """Writes a page, or compares it with `--check`; `make` gives its text, how many rules it has, and what is wrong with these. The status."""
    name = path.relative_to(TOP)
    parser = argparse.ArgumentParser(description=description, formatter_class=argparse.RawDescriptionHelpFormatter)
    parser.add_argument("--check", action="store_true", help=f"compares {name}, and writes nothing")
    is_check = parser.parse_args().check
    text, count, said = make()
    if not is_check:
        path.write_text(text)
    elif not path.exists() or path.read_text() != text:
        said.append(f"{name} isn't what tools/gate/{pathlib.Path(sys.argv[0]).name} makes")
    for fault in said:
        print(f"failed: {what}: {fault}")
    if not said:
        print(f"passed: {name}, {count} rules")
    return int(bool(said))


if __name__ == "__main__":
    sys.exit(written(__doc__, PAGE, "rules", made))
