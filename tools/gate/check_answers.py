#!/usr/bin/env python3
"""Holds the calls of include/x509.h and the answers that it lists for each against the contracts, and against what tests have seen.

With --wrap it writes FOLDER/answers.c and FOLDER/answers.link: a program that is linked with the first, by the options of the second, notes which answers each
call gave it, and appends them at its end to the file that X509_ANSWERS names.

Else it takes two such files, and tells each of these:
- a call whose contract allows another answer than the header lists, or doesn't allow one of these, of X509_OK, X509_ROOM, X509_MEMORY, X509_ABSENT,
  X509_REPEATED, X509_FAULT and X509_LIMIT; which of the other refusals come is said by the contract's relations over the types;
- an answer that the header lists, and that no test has seen with all memory (SEEN);
- X509_MEMORY in SEEN, or an answer that the header doesn't list;
- a call that lists X509_MEMORY, and that didn't answer it where each of its allocations was refused in turn (REFUSED).
It ends with 1 where there is one.
"""
import argparse
import pathlib
import re
import sys

sys.path.insert(0, str(pathlib.Path(__file__).resolve().parents[1]))
from common.header import TOP, calls, statuses

EXPORTS = TOP / "crates" / "x509_c" / "src"
CRATES = ["x509_c_calls", "x509_c_lint"]
FROM = r"use Rattle\.x509_c_(?:calls|lint)\.specs\."
# how a contract names what a call answers, and the header; Refused is any of the others
STATUSES = {"Done": "X509_OK", "NoRoom": "X509_ROOM", "Absent": "X509_ABSENT", "Repeated": "X509_REPEATED", "Faulty": "X509_FAULT", "Limit": "X509_LIMIT"}
# calls that take no memory, of which the contract says so by the refusals that it has, or by the type that is decoded
TELLS_NONE = {
    "x509_signed_slice": "X509_MALFORMED is its one refusal",
    "x509_time_from_text": "X509_FAILED is its one refusal",
    "x509_may_sign_crls": "may_sign_crls of x509_c_calls, which it is, has a clause that says so",
    "x509_timestamp_next": "X509_MALFORMED is its one refusal",
    "x509_log_chain_next": "X509_MALFORMED is its one refusal",
    "x509_finding_next": "X509_MALFORMED is its one refusal",
    "x509_extended_key_usage_next": "an object identifier wants no memory",
    "x509_policy_mappings_next": "a pair of object identifiers wants no memory",
    "x509_server_name_view": "X509_VALUE is its one refusal",
    "x509_email_address_view": "X509_VALUE is its one refusal",
}
# calls that may answer X509_MEMORY by their contract, and take none for any value
TAKES_NONE = {
    "x509_serial_number": "up to 21 octets stand within the value",
    "x509_crl_number_encode": "up to 20 octets stand within the value, and more are refused",
}


# ---- what the contracts allow


class Contracts:
    """Which statuses the relations of the contracts allow."""

    def __init__(self):
        self.texts = {path.stem: path.read_text(encoding="utf-8") for crate in CRATES for path in (TOP / "crates" / crate / "specs").glob("*.antt") if path.stem != "Lib"}
        self.known = {}

    def module_of(self, name, text):
        """The module of the specs that a text has a name from."""
        for module, names in re.findall(FROM + r"(\w+)\.\{([^}]*)\}", text):
            if name in re.split(r",\s*", names):
                return module
        return None

    def relations(self, text):
        """The relations over a status that a text names, each with its module."""
        used = {name for names in re.findall(FROM + r"\w+\.\{([^}]*)\}", text) for name in re.split(r",\s*", names)}
        return {(module, name) for name in used if (module := self.module_of(name, text)) and self.is_relation(module, name)}

    def is_relation(self, module, name):
        return re.search(rf"(?m)^(?:unfoldable|abbrev) (?:pub )?{name} :[^\n]*(?:\n +[^\n]*)*?→ Status → Type 0$", self.texts.get(module, "")) is not None

    def allowed(self, module, name):
        """The statuses of which the relation can hold: those with a clause that isn't ⊥, or those of the relations that it is made of."""
        if (module, name) in self.known:
            return self.known[module, name]
        self.known[module, name] = set()
        text, found = self.texts[module], set()
        for clause in re.finditer(rf"(?m)^{name}(?: [^\n=]*)? =(?:[^\n]*(?:\n +[^\n]*)*)", text):
            head, body = clause[0].split("=", 1)
            status = next((it for it in (*STATUSES, "Refused") if re.search(rf"\b{it}\b", head)), None)
            if status is not None:
                found |= set() if body.strip() == "⊥" else {status}
                continue
            found |= {it for it in (*STATUSES, "Refused") if re.search(rf"≡ (?:statuses\.)?{it}\b", body)}
            for other in re.findall(r"\b[A-Z]\w*\b", body):
                where = module if self.is_relation(module, other) else self.module_of(other, text)
                if where and self.is_relation(where, other):
                    found |= self.allowed(where, other)
        self.known[module, name] = found
        return found

    def exports(self):
        """Of each call the statuses that its contract allows, and whether memory is among its refusals."""
        for path in sorted(EXPORTS.glob("*.rt")):
            text = path.read_text(encoding="utf-8")
            for name, contract in re.findall(r'(?s)pub extern "C" fn (x509_\w+)\(.*?\n?\) -> i32\n(.*?)\n\{', text):
                found = set()
                for module, relation in self.relations(text):
                    if re.search(rf"(?<![\w.]){relation}\b", contract):
                        found |= self.allowed(module, relation)
                found |= {it for it in (*STATUSES, "Refused") if re.search(rf"status ≡ {it}\b(?! Memory)", contract)}
                takes_none = re.search(r"\b(status|answer)\s*× \(\1 ≡ Refused Memory → ⊥\)", contract) or name in TELLS_NONE
                yield name, {STATUSES[it] for it in found if it != "Refused"} | (set() if takes_none else {"X509_MEMORY"})


def compare_contracts(asked):
    """What the header lists of a call beside what its contract allows."""
    told = dict(Contracts().exports())
    kinds = {*STATUSES.values(), "X509_MEMORY"}
    for call in asked:
        listed = kinds & set(call.statuses)
        if call.name not in told:
            yield f"{call.name}: no contract"
        elif told[call.name] != listed:
            yield f"{call.name}: the contract allows {sorted(told[call.name] - listed)} too, and doesn't allow {sorted(listed - told[call.name])}"


# ---- what tests have seen

FRONT = """/* Made by check_answers.py of x509.h. */
#include <stdio.h>
#include <stdlib.h>
#include "x509.h"

static unsigned seen[%d];
static const char *const names[] = {%s};

/* statuses are from -2 to 9 */
static x509_status note(int call, x509_status status)
{
    seen[call] |= 1u << (status + 2);
    return status;
}

__attribute__((destructor)) static void tell(void)
{
    const char *path = getenv("X509_ANSWERS");
    FILE *file = path == NULL ? NULL : fopen(path, "a");
    for (int call = 0; file != NULL && call < %d; call++)
        for (int status = -2; status <= 9; status++)
            if (seen[call] & 1u << (status + 2))
                fprintf(file, "%%s %%d\\n", names[call], status);
    if (file != NULL)
        fclose(file);
}
"""


def declared(parameter):
    return f"{'const ' if parameter.is_const else ''}{parameter.kind} {'*' if parameter.is_pointer else ''}{parameter.name}"


def wrap(asked, folder):
    names = ", ".join(f'"{call.name}"' for call in asked)
    text = FRONT % (len(asked), names, len(asked))
    for number, call in enumerate(asked):
        takes, given = ", ".join(map(declared, call.parameters)), ", ".join(it.name for it in call.parameters)
        text += f"\nx509_status __real_{call.name}({takes});\nx509_status __wrap_{call.name}({takes});\n"
        text += f"x509_status __wrap_{call.name}({takes}) {{ return note({number}, __real_{call.name}({given})); }}\n"
    (folder / "answers.c").write_text(text, encoding="ascii")
    (folder / "answers.link").write_text("".join(f"-Wl,--wrap={call.name}\n" for call in asked), encoding="ascii")


def noted(path):
    """Of each call the statuses that a file has."""
    names = {number: name for name, number in statuses().items()}
    found = {}
    for line in path.read_text(encoding="ascii").splitlines():
        call, number = line.split()
        found.setdefault(call, set()).add(names[int(number)])
    return found


def compare_seen(asked, seen, refused):
    for call in asked:
        wanted, found = set(call.statuses) - {"X509_MEMORY"}, seen.get(call.name, set())
        yield from (f"{call.name}: no test sees {it}" for it in call.statuses if it in wanted - found)
        yield from (f"{call.name}: it has answered {it} with all memory" for it in sorted(found - wanted))
        under = refused.get(call.name, set())
        if "X509_MEMORY" not in call.statuses:
            yield from (f"{call.name}: it has answered X509_MEMORY" for _ in under & {"X509_MEMORY"})
        elif call.name in TAKES_NONE:
            yield from (f"{call.name}: it takes memory" for _ in under & {"X509_MEMORY"})
            if "X509_OK" not in under:
                yield f"{call.name}: no test tries that it takes no memory"
        elif "X509_MEMORY" not in under:
            yield f"{call.name}: no test refuses its allocations"


def main():
    parser = argparse.ArgumentParser(description=__doc__, formatter_class=argparse.RawDescriptionHelpFormatter)
    parser.add_argument("--wrap", metavar="FOLDER", type=pathlib.Path, help="write answers.c and answers.link there")
    parser.add_argument("seen", metavar="SEEN", nargs="?", type=pathlib.Path, help="what tests with all memory have noted")
    parser.add_argument("refused", metavar="REFUSED", nargs="?", type=pathlib.Path, help="what those have noted that refuse allocations")
    given = parser.parse_args()
    asked = [call for call in calls() if call.statuses]
    if given.wrap:
        wrap(asked, given.wrap)
        return 0
    if given.refused is None:
        parser.error("SEEN and REFUSED are needed")
    wrong = [*compare_contracts(asked), *compare_seen(asked, noted(given.seen), noted(given.refused))]
    for it in wrong:
        print(it)
    print(f"{len(asked)} calls with {sum(len(call.statuses) for call in asked)} answers, {len(wrong)} without a contract or a test, or other answers")
    return 1 if wrong else 0


if __name__ == "__main__":
    sys.exit(main())
