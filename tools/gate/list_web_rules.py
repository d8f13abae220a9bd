#!/usr/bin/env python3
"""Makes docs/WEB_RULES.md: the rules of x509_lint_web, by group in the order in which they are asked, of each what breaks it, its section, how bad it is, since
when and until when it is in force, and lints of zlint beside it.

The lints are taken from tools/data/zlint.txt, and all else from the code, crates/x509_lint_web/src/rule. With `--check` it fails where the docs of a rule don't
say its section, how bad it is or its dates, where a rule stands in no place of the list of all rules, or in another order there than its group has, where a lint
has no name of one, stands beside a rule that isn't there or beside several without a word why, and where docs/WEB_RULES.md is another text.
"""
import re
import sys

import zlint_names
from list_rules import TOP, docs_of, written

CODE = TOP / "crates/x509_lint_web/src"
PAGE = TOP / "docs/WEB_RULES.md"
SEVERITIES = {"must": "error", "should": "warning"}
WORDS = {"from_day": "from", "before_day": "until"}
HEAD = f"""# The rules of `x509_lint_web`, with sections and days from memory of version 2.1

{zlint_names.HEAD}
`tools/gate/list_web_rules.py` makes this page of `tools/data/zlint.txt` and `crates/x509_lint_web/src/rule`: the rules of the CA/Browser Forum's Baseline
Requirements for TLS server certificates (TLS BR), of version 2.0 and later, that a certificate alone shows. `lint_web` is proved to find exactly those that are
in force at a validation time and broken, by the definitions of `crates/x509_lint_web/specs`; `x509_linter --web MOMENT` prints them. In brackets: the section,
`warning` where that is no error, and the day from which on a rule is in force, without one from the beginning; behind `until` the day from which on it no
longer is.

- A certificate of a *TLS server* has no basic constraints, or ones that are read and don't set cA, and no EKU, or one that is read and has serverAuth.
- One of an *authority that may stand above TLS servers* has basic constraints that are read and set cA, and such an EKU or none. One of these is that of a
  *root* where the issuer is the subject, and SKI and AKI, where both are read, don't tell two keys.
- One of an *OCSP responder* has such basic constraints as a TLS server's or none, and an EKU that is read and has OCSPSigning, but not serverAuth.
- One of an *authority that signs precertificates* sets cA so, and has an EKU that is read and has that purpose (RFC 6962 3.1); a *subordinate authority* is one
  that may stand above TLS servers, and whose issuer isn't its subject.
- What an extension says is judged where there is one of its type alone, and it is read. What RFC 5280 says just as strictly is a rule of `x509_lint`
  (`docs/RULES.md`).

"""


def rules_of(path):
    """The rules of a group: each its variant, its docs, and of its entry how bad it is, its name, its section and its dates."""
    text = path.read_text()
    docs = docs_of(text)
    for variant, severity, given in re.findall(r"^ +(\w+) =>\s+(must|should)\(([^;]*?)\),\n", text, re.M):
        name, section = re.findall(r'"([^"]*)"', given)[:2]
        dates = ["{} {}-{:0>2}-{:0>2}".format(WORDS[way], *date) for way, *date in re.findall(r"(from_day|before_day)\((\d+), (\d+), (\d+)", given)]
        yield variant, docs.get(variant, ""), SEVERITIES[severity], name, section, ", ".join(dates)


def groups():
    """The groups in the order of all rules: each its enum, what it is about, and its rules."""
    text = (CODE / "rule.rt").read_text()
    listed = re.findall(r"^    WebRule::(\w+)\((\w+)::(\w+)\),$", text, re.M)
    for group, enum in dict.fromkeys((group, enum) for group, enum, _ in listed):
        path = CODE / "rule" / f"{group.lower()}.rt"
        about = re.match(r"((?://! [^\n]*\n)+)", path.read_text())[1].replace("//! ", "").replace("\n", " ").strip()
        yield about, list(rules_of(path)), [variant for other, _, variant in listed if other == group]


def made():
    faults, lines, names, lints = [], [], [], zlint_names.Lints("x509_lint_web")
    for about, rules, listed in groups():
        lines.append(f"\n## {about.partition(' (TLS BR')[0]}\n\n")
        names += [name for _, _, _, name, _, _ in rules]
        if [variant for variant, *_ in rules] != listed:
            faults.append(f"the list of all rules has others, or another order: {about}")
        for variant, docs, severity, name, section, dates in rules:
            end = f" (TLS BR {section}, {severity}{f', {dates}' if dates else ''})."
            if not docs.endswith(end):
                faults.append(f"the docs of {variant} don't end in{end}")
            told = [section, "" if severity == "error" else severity, dates.removeprefix("from ")]
            beside = f" {lints.of(name)}." if lints.of(name) else ""
            lines.append(f"- `{name}`: {docs.removesuffix(end)} ({', '.join(filter(None, told))}).{beside}\n")
    counts = f"{len(names)} rules, {len(lints.beside)} of them with lints of zlint.\n"
    return HEAD + counts + "".join(lines) + lints.end(), len(names), [*faults, *lints.faults(names)]


if __name__ == "__main__":
    sys.exit(written(__doc__, PAGE, "web rules", made))
