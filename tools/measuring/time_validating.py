#!/usr/bin/env python3
"""Counts the instructions of validating paths, from their bytes to the answer, by valgrind's callgrind, beside webpki, mbedtls, Go and OpenSSL.

LIBRARY is `libx509.so`, as `tools/build/link_c_library.sh` makes it; without it the others are asked alone. `validating_inputs.py` makes each input by Python's
`cryptography`, valid, and with something spoilt: no authority, a path length, a policy that is missing, a name outside, an entry of the CRL, an OID twice, or
dates. Who answers both rightly gets a figure; else it says who refuses the valid one, or takes the spoilt one. What each answers goes to standard error.

A figure is a tenth of the difference of runs that ask once and 11 times, or, where asking takes over 30 milliseconds, the difference of runs that don't ask and
that ask once. What is spent in, and below, the functions that check signatures and make keys for that isn't counted: OpenSSL's ASN1_item_verify_ex and
OSSL_DECODER_..; mbedtls_pk_verify_ext, mbedtls_md and mbedtls_pk_parse_subpubkey; Go's checkSignature and parsePublicKey; ring's VerificationAlgorithm::verify.
The library does neither: its figure is that of x509_path_validate_views, which also says what is to be verified of each certificate, and under which key.
It decodes the anchor each time; the others decode it once.

Then come paths that grow, each size twice the one before, with x509_path_validate_views and x509_path_check: the instructions of each size, and in brackets how
many times those of the size before they are. 2 is linear; n log n of these sizes gives at most 2.4.

The programs are `validating.c`, `validating_openssl.c` and `validating_mbedtls.c`, compiled here by $CC, `validating.go`, and `validating.rs`, by cargo over
Debian's librust-webpki-dev, without a network. Go runs without its collector. What isn't installed is left out, with a line that says so.
"""
import argparse
import os
import pathlib
import resource
import subprocess
import sys
import tempfile

sys.path.insert(0, str(pathlib.Path(__file__).resolve().parents[1]))
sys.dont_write_bytecode = True
from common.callgrind import counted
from common.peers import GO, built_c, built_go, built_rust, signatures_and_keys
from validating_inputs import GROWING, INPUTS

HERE = pathlib.Path(__file__).resolve().parent
# seconds of processor time that a run may take
LIMIT = 20
OURS = "ours"
# who can be asked, and of what
ASKED = {"path": {OURS, "webpki", "mbedtls", "go", "openssl"}, "crl": {OURS, "mbedtls", "go", "openssl"}, "again": {OURS, "mbedtls", "go", "openssl"}}


def build(folder, library, wanted):
    """The programs that can be built of those that are wanted, by who answers."""
    makers = {
        OURS: lambda: None if library is None else built_c(HERE / "validating.c", folder / "ours", "-ldl"),
        "webpki": lambda: built_rust(HERE / "validating.rs", folder),
        "mbedtls": lambda: built_c(HERE / "validating_mbedtls.c", folder / "mbedtls", "-lmbedx509", "-lmbedcrypto"),
        "go": lambda: built_go(HERE / "validating.go", folder / "go"),
        "openssl": lambda: built_c(HERE / "validating_openssl.c", folder / "openssl", "-lcrypto"),
    }
    found = {}
    for who, make in makers.items():
        if who not in wanted:
            continue
        program = make()
        if program is None:
            print(f"left out, since it isn't installed or given: {who}")
        else:
            found[who] = program
    return found


class Asker:
    """Asks the programs about cases."""

    def __init__(self, folder, library, programs):
        self.folder, self.programs = folder, programs
        self.environment = {**GO, "LIBRARY": str(library)}

    def answer(self, who, what, case):
        """Whether a case is valid, or None over the limit; the seconds that it takes; and the words."""
        before = resource.getrusage(resource.RUSAGE_CHILDREN)
        ended = subprocess.run(
            [self.programs[who], case, what, "1"],
            capture_output=True,
            text=True,
            check=False,
            env={**os.environ, **self.environment},
            preexec_fn=lambda: resource.setrlimit(resource.RLIMIT_CPU, (LIMIT, LIMIT)),
        )
        seconds = resource.getrusage(resource.RUSAGE_CHILDREN).ru_utime - before.ru_utime
        if ended.returncode < 0:
            return None, seconds, ""
        if ended.returncode:
            sys.exit(f"{who} fails on {case.name}: {ended.stderr}")
        return ended.stdout.startswith("yes"), seconds, ended.stdout.strip()

    def instructions(self, who, what, case, few, many):
        """The instructions of asking once, by the difference of asking so many times, without those that are left out."""
        left_out = None if who == OURS else signatures_and_keys(who)
        words = [self.programs[who], case, what]
        less, more = (whole - below for whole, below in (counted([*words, str(it)], self.folder, left_out, self.environment) for it in (few, many)))
        return (more - less) // (many - few)

    def told(self, who, what, valid, spoilt):
        """What stands in the table: the instructions where both are answered rightly, or why there are none."""
        good, seconds, said = self.answer(who, what, valid)
        bad, _, words = self.answer(who, what, spoilt)
        print(f"{valid.stem}, {who}: {said or 'no answer'}; spoilt: {words or 'no answer'}", file=sys.stderr, flush=True)
        if good is None or bad is None:
            return f"over {LIMIT} s"
        if good and not bad:
            # what is asked again is cheap, and its first time may prepare the others
            return f"{self.instructions(who, what, valid, *((1, 11) if what == 'again' or seconds < 0.03 else (0, 1))):,}"
        return " and ".join(word for word, is_so in (("refuses", not good), ("takes the spoilt one", bad)) if is_so)


def put(folder, label, case):
    file = folder / f"{label}.bin"
    case.put(file)
    return file


def compare(asker, folder, labels):
    """The table of inputs."""
    print("| Input | " + " | ".join(asker.programs) + " |\n|---" + "|--:" * len(asker.programs) + "|", flush=True)
    for label, text, what, make in INPUTS:
        if labels and label not in labels:
            continue
        valid, spoilt = (put(folder, label + front, make(front != "")) for front in ("", "-spoilt"))
        cells = [asker.told(who, what, valid, spoilt) if who in ASKED[what] else "" for who in asker.programs]
        print(f"| {text} | " + " | ".join(cells) + " |", flush=True)


def grow(asker, folder, labels):
    """The table of what grows."""
    print("| What grows | sizes | bytes of the largest | `x509_path_validate_views` | `x509_path_check` |\n|---|---|--:|---|---|", flush=True)
    for label, text, make, sizes in GROWING:
        if labels and label not in labels:
            continue
        cases = [make(size)(False) for size in sizes]
        files = [put(folder, f"{label}-{size}", case) for size, case in zip(sizes, cases)]
        cells = []
        for what in ("path", "check"):
            if not all(asker.answer(OURS, what, it)[0] for it in files):
                cells.append("refused")
                continue
            found = [asker.instructions(OURS, what, it, 1, 2) for it in files]
            ratios = ", ".join(f"{after / before:.2f}" for before, after in zip(found, found[1:]))
            cells.append(", ".join(f"{it:,}" for it in found) + f" ({ratios})")
        print(f"| {text} | {', '.join(f'{it:,}' for it in sizes)} | {len(cases[-1]):,} | " + " | ".join(cells) + " |", flush=True)


def main():
    parser = argparse.ArgumentParser(description=__doc__, formatter_class=argparse.RawDescriptionHelpFormatter)
    parser.add_argument("library", metavar="LIBRARY", type=pathlib.Path, nargs="?")
    everyone = ASKED["path"]
    parser.add_argument("--who", nargs="+", default=sorted(everyone), choices=sorted(everyone), help="ask these alone")
    labels = sorted({it[0] for it in (*INPUTS, *GROWING)})
    parser.add_argument("--inputs", nargs="+", default=[], choices=labels, metavar="WORD", help=f"these inputs alone: {', '.join(labels)}")
    parser.add_argument("--growth", choices=("with", "without", "alone"), default="with", help="the table of what grows, beside that of inputs")
    words = parser.parse_args()
    library = words.library and words.library.resolve()
    with tempfile.TemporaryDirectory() as name:
        folder = pathlib.Path(name)
        asker = Asker(folder, library, build(folder, library, words.who))
        if words.growth != "alone":
            compare(asker, folder, words.inputs)
        if words.growth != "without" and OURS in asker.programs:
            grow(asker, folder, words.inputs)


if __name__ == "__main__":
    main()
