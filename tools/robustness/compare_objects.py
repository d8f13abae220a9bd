#!/usr/bin/env python3
"""Compares what x509_show prints of the objects that `gather_objects.py` gathered with what openssl prints, field by field, and runs x509_linter over those
that are accepted.

Fields and spellings are those of `tools/gate/compare_with_openssl.py`. It counts, for each source, the objects that both accept, with the fields that were
compared and the objects that differ; those that openssl alone accepts, which isn't wrong where they aren't strict DER; and those that x509_show alone
accepts. What neither accepts is no object here. With `--alone FILE` it lists those that one of the two alone accepts there, by digest and source.

With `--linter PROGRAM` the linter has to end with status 0 or 1 on each certificate and CRL that is accepted, and the findings are counted.
"""
import argparse
import collections
import concurrent.futures
import pathlib
import subprocess
import sys

sys.path.insert(0, str(pathlib.Path(__file__).resolve().parents[1] / "gate"))
from compare_with_openssl import KINDS_OF_OBJECTS, openssl, printed


def kind_said(data):
    """The kind of object that openssl takes it for; None where it refuses it.

    It takes PKCS #12 without a password for the certificate in it, so that is asked for too."""
    kind = next((kind for kind, (word, _) in KINDS_OF_OBJECTS.items() if openssl(data, kind=word) is not None), None)
    words = ["openssl", "pkcs12", "-noout", "-passin", "pass:"]
    if kind == "certificate" and subprocess.run(words, input=data, capture_output=True, check=False).returncode == 0:
        return None
    return kind


def linted(linter, data):
    """The findings of the linter; it has to end with status 0, or 1 where a rule that has to be kept is broken."""
    run = subprocess.run([linter], input=data, capture_output=True, check=False)
    findings = [line.split(": ", 1)[1] for line in run.stdout.decode().splitlines()]
    if run.returncode != int(any(it.startswith("error") for it in findings)):
        raise RuntimeError(f"x509_linter ends with {run.returncode}: {run.stdout[:200]} {run.stderr[-200:]}")
    return findings


class Judged:
    """What became of an object: as what and by whom it is accepted, and what was found."""

    def __init__(self, program, linter, row, data):
        self.digest, self.source, self.name = row[:3]
        self.kind, self.by = None, "neither"
        self.fields, self.differ, self.undecodable, self.findings = 0, [], [], []
        try:
            self.judge(program, linter, data)
        except (RuntimeError, ValueError, TypeError, LookupError, AttributeError, subprocess.CalledProcessError) as error:
            self.differ = [("whether it can be compared", f"{type(error).__name__}: {error}", None)]

    def judge(self, program, linter, data):
        if (lines := printed(program, data)) is None:
            self.kind = kind_said(data)
            self.by = "openssl alone" if self.kind else "neither"
            return
        self.kind = lines[0]["text"]
        if linter and self.kind in ("certificate", "CRL"):
            self.findings = linted(linter, data)
        both = KINDS_OF_OBJECTS[self.kind][1](lines, data) if self.kind in KINDS_OF_OBJECTS else None
        self.by = "both" if both else "x509_show alone"
        self.fields, self.differ, self.undecodable = both or (0, [], [])


def judged(program, linter, folder, jobs):
    """What became of each object, in the order of the list."""
    rows = [line.split("\t") for line in (folder / "index.tsv").read_text(encoding="utf-8").splitlines()]
    with concurrent.futures.ThreadPoolExecutor(jobs) as pool:
        yield from pool.map(lambda row: Judged(program, linter, row, (folder / "objects" / f"{row[0]}.der").read_bytes()), rows)


def main(given):
    counts, fields, findings = collections.Counter(), collections.Counter(), collections.Counter()
    listed = open(given.alone, "w", encoding="utf-8") if given.alone else None
    for it in judged(given.program, given.linter, given.folder, given.jobs):
        place = f"{it.digest} {it.source} {it.name}"
        counts[it.source, str(it.kind), it.by] += 1
        counts["differ", str(it.kind), ""] += bool(it.differ)
        fields[it.kind] += it.fields
        findings.update(set(it.findings))
        for name, why in it.undecodable:
            counts["payloads not in DER", name, str(why)] += 1
        for name, mine, theirs in it.differ:
            print(f"differs: {place}: {name}: x509_show says {mine!r}, and openssl {theirs!r}")
        if listed and it.by in ("openssl alone", "x509_show alone"):
            print(it.kind, it.by, place, sep="\t", file=listed)
    for (what, kind, by), count in sorted(counts.items()):
        print(what, kind, by, count, sep="\t")
    for kind, count in fields.items():
        print("fields", kind, count, sep="\t")
    for finding, count in findings.most_common():
        print("finding", finding, count, sep="\t")
    failed = sum(count for (what, _, _), count in counts.items() if what == "differ")
    both = sum(count for (_, _, by), count in counts.items() if by == "both")
    said = f"{both} objects that both accept, {sum(fields.values())} fields; {failed} objects differ"
    print(f"{'failed' if failed else 'passed'}: x509_show beside openssl, {said}")
    return int(failed > 0)


if __name__ == "__main__":
    parser = argparse.ArgumentParser(description=__doc__, formatter_class=argparse.RawDescriptionHelpFormatter)
    parser.add_argument("program", metavar="PROGRAM", help="the program, as crates/x509_show/out/x509_show")
    parser.add_argument("folder", metavar="FOLDER", type=pathlib.Path, help="what gather_objects.py wrote")
    parser.add_argument("--linter", metavar="PROGRAM", help="crates/x509_linter/out/x509_linter, to be run too")
    parser.add_argument("--alone", metavar="FILE", help="where those are listed that one of the two alone accepts")
    parser.add_argument("--jobs", type=int, default=4, help="how many objects are compared at a time")
    sys.exit(main(parser.parse_args()))
