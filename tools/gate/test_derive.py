#!/usr/bin/env python3
"""Changes types in a copy of the sources, and looks what tools/build/derive.py writes of them, and what it refuses."""
import argparse
import pathlib
import re
import shutil
import subprocess
import sys
import tempfile

sys.path.insert(0, str(pathlib.Path(__file__).resolve().parents[1]))
sys.dont_write_bytecode = True
from common.crates import TOP
from common.grammar import OF_TYPES

EXTENSION, EXTENSION_SPECS = "x509_ext/src/extension.rt", "x509_ext/specs/Extension.antt"
EXTENSION_CHECK, EXTENSION_EQUALITY = "x509_check/src/extension.rt", "x509_ext/specs/ExtensionEquality.antt"
POINT, POINT_SPECS = "x509_ext/src/pkix/issuing_distribution_point.rt", "x509_ext/specs/IssuingDistributionPoint.antt"
PLACE, PLACE_SPECS = "x509_ext/src/pkix/name/distribution_point_name.rt", "x509_ext/specs/DistributionPointName.antt"
PLACE_CHECK, PLACE_EQUALITY = "x509_check/src/general_name.rt", "x509_ext/specs/GeneralNameEquality.antt"
NAMES, ODD = "x509_ext/src/pkix/name_constraints.rt", "../tools/data/odd_glue.txt"
PERIOD, PERIOD_SPECS = "x509_ext/src/pkix/private_key_usage_period.rt", "x509_ext/specs/PrivateKeyUsagePeriod.antt"
ISSUER, ISSUER_SPECS = "x509_ext/src/pkix/authority_key_identifier.rt", "x509_ext/specs/AuthorityKeyIdentifier.antt"
KEY_CHECK, KEY_EQUALITY = "x509_check/src/payload.rt", "x509_ext/specs/KeyEquality.antt"
POINT_CHECK, POINT_EQUALITY = "x509_check/src/constraint.rt", "x509_ext/specs/RevocationEquality.antt"
# a field more of a type: in its struct, in the ASN.1 of its docs, and in the comment and the grammar line of its specs
EXTENSION_FIELD = (
    (EXTENSION, "    pub extn_value: OctetString,\n", "    pub extn_value: OctetString,\n\n    /// More.\n    pub more: Option<BitString>,\n"),
    (EXTENSION, "OCTET STRING }", "OCTET STRING,\n///     more       [2] IMPLICIT BIT STRING OPTIONAL }"),
    (EXTENSION_SPECS, "extn_value: OCTET STRING (", "extn_value: OCTET STRING, more: [2]BIT STRING? ("),
    (EXTENSION_SPECS, "⊗ required octet_string)\n", "⊗ (required octet_string ⊗ optional (implicit 2 bit_string)))\n"),
)
POINT_FIELD = (
    (POINT, "_attribute_certs: bool,\n}", "_attribute_certs: bool,\n\n    /// More.\n    pub more: Option<BitString>,\n}"),
    (POINT, "BOOLEAN DEFAULT FALSE }", "BOOLEAN DEFAULT FALSE,\n///     more                        [6] EXPLICIT BIT STRING OPTIONAL }"),
    (POINT_SPECS, "[5]BOOLEAN=FALSE (", "[5]BOOLEAN=FALSE, more: {6}BIT STRING? ("),
    (POINT_SPECS, "⊗ said_or_not 5))\n", "⊗ (said_or_not 5 ⊗ optional (explicit 6 bit_string))))\n"),
)
# of a type that took no memory, whose form the specs don't use yet
PERIOD_FIELD = (
    (PERIOD, "_after: Option<GeneralizedTime>,\n}", "_after: Option<GeneralizedTime>,\n\n    /// More.\n    pub more: Option<OctetString>,\n}"),
    (PERIOD, "[1] IMPLICIT GeneralizedTime OPTIONAL }", "[1] IMPLICIT GeneralizedTime OPTIONAL,\n///     more       [2] IMPLICIT OCTET STRING OPTIONAL }"),
    (PERIOD_SPECS, "[1]GeneralizedTime? (", "[1]GeneralizedTime?, more: [2]OCTET STRING? ("),
    (PERIOD_SPECS, "⊗ optional (implicit 1 generalized_time)\n", "⊗ (optional (implicit 1 generalized_time) ⊗ optional (implicit 2 octet_string))\n"),
)
# of a type that is made in two further places
ISSUER_FIELD = (
    (ISSUER, "_number: Option<SerialNumber>,\n}", "_number: Option<SerialNumber>,\n\n    /// More.\n    pub more: Option<OctetString>,\n}"),
    (ISSUER, "SerialNumber OPTIONAL }", "SerialNumber OPTIONAL,\n///     more                       [3] IMPLICIT OCTET STRING OPTIONAL }"),
    (ISSUER_SPECS, "under Rfc5280 (RFC", "under Rfc5280, more: [3]OCTET STRING? (RFC"),
    (
        ISSUER_SPECS,
        "optional (implicit 2 (serial_number rfc5280_serial_number)))\n",
        "(optional (implicit 2 (serial_number rfc5280_serial_number)) ⊗ optional (implicit 3 octet_string)))\n",
    ),
)
# a field less, and a field in another frame
EXTENSION_FIELD_GONE = (
    (
        EXTENSION,
        "    /// Whether an implementation that doesn't know the extension, or can't process its value, has to refuse the\n"
        "    /// certificate or CRL (RFC 5280 4.2).\n    pub critical: bool,\n\n",
        "",
    ),
    (EXTENSION, "///     critical   BOOLEAN DEFAULT FALSE,\n", ""),
    (EXTENSION_SPECS, " critical: BOOLEAN=FALSE,", ""),
    (EXTENSION_SPECS, "⊗ (defaulted boolean_default boolean ⊗ required octet_string)\n", "⊗ required octet_string\n"),
)
EXTENSION_FIELD_TAGGED = (
    (EXTENSION, "critical   BOOLEAN", "critical   [0] EXPLICIT BOOLEAN"),
    (EXTENSION_SPECS, "critical: BOOLEAN", "critical: {0}BOOLEAN"),
    (EXTENSION_SPECS, "boolean_default boolean ⊗", "boolean_default (explicit 0 boolean) ⊗"),
)
PLACE_CASE = (
    (PLACE, "(RelativeDistinguishedName),\n}", "(RelativeDistinguishedName),\n\n    /// More.\n    Other(OctetString),\n}"),
    (PLACE_SPECS, "relative_distinguished_name ∥ none\n", "relative_distinguished_name ∥ Other holds implicit 2 octet_string ∥ none\n"),
)
# what is changed, the file for which it is run, and what then stands in which file
WRITTEN = (
    (
        EXTENSION_FIELD,
        EXTENSION,
        {
            EXTENSION: (
                "        let more = read_optional_implicit::<BitString>(alloc, 2, &mut rest)?;\n        end(rest)?;\n        Ok(Extension {\n",
                "            extn_value: self.extn_value.try_clone(alloc)?,\n            more: self.more.try_clone(alloc)?,\n",
                "                defaulted(&self.critical),\n                (&self.extn_value, optional_implicit(2, &self.more)),\n",
                "                (\n"
                "                    both(&self.extn_value, &other.extn_value),\n"
                "                    both_optional_implicit(2, &self.more, &other.more),\n"
                "                ),\n",
                "use x509_prim::{BitString, OctetString};\n",
                "    #[inline(always)]\n    fn read_content(",
            ),
            EXTENSION_CHECK: (
                "        check_optional_implicit::<BitString>(2, &mut rest)?;\n        end(rest)\n",
                "use crate::field::{check_defaulted, check_field, check_optional_implicit};\n",
            ),
            EXTENSION_SPECS: (
                "extension_fields : Part (List ℕ × (Bool × (List ℕ × Option BitParts)))\n",
                "(λ e. (e.extn_id, (e.critical, (e.extn_value, e.more)))) (λ (extn_id, (critical, (extn_value, more))). "
                "record { extn_id = extn_id; critical = critical; extn_value = extn_value; more = more }) extension_fields\n",
                "extension_cmp : PartOrder (List ℕ × (Bool × (List ℕ × Option BitParts)))\n",
                "extension_order = by_parts (λ e. (e.extn_id, (e.critical, (e.extn_value, e.more)))) extension_cmp\n",
            ),
            EXTENSION_EQUALITY: ("(exact_both exact_octets (exact_both exact_bool (exact_both exact_octets (exact_option exact_bit_string))))\n",),
        },
    ),
    (
        EXTENSION_FIELD_GONE,
        EXTENSION,
        {
            EXTENSION: (
                "        let parts = (&self.extn_id, &self.extn_value);\n",
                "            both(&self.extn_id, &other.extn_id),\n            both(&self.extn_value, &other.extn_value),\n        );\n",
                "    SetOrd, Spelled, Tag, TryClone, ValueOrd, both, end, read_field,\n};\n",
            ),
            EXTENSION_CHECK: ("use crate::field::check_field;\n",),
        },
    ),
    (
        EXTENSION_FIELD_TAGGED,
        EXTENSION,
        {
            EXTENSION: (
                "        let critical = read_defaulted_explicit::<bool>(alloc, 0, &mut rest)?;\n",
                "        let parts = (\n            &self.extn_id,\n            (defaulted_explicit(0, &self.critical), &self.extn_value),\n        );\n",
                "                both_defaulted_explicit(0, &self.critical, &other.critical),\n",
                "    SetOrd, Spelled, Tag, TryClone, ValueOrd, both, both_defaulted_explicit, defaulted_explicit,\n"
                "    end, read_defaulted_explicit, read_field,\n",
            ),
            EXTENSION_CHECK: ("        check_defaulted_explicit::<bool>(0, &mut rest)?;\n",),
        },
    ),
    (
        POINT_FIELD,
        POINT,
        {
            POINT: (
                "            only_contains_attribute_certs: _,\n            more: _,\n        } = self;\n",
                "            only_contains_attribute_certs: self.only_contains_attribute_certs,\n            more: self.more.try_clone(alloc)?,\n",
                "        let more = read_optional_explicit::<BitString>(alloc, 6, &mut rest)?;\n        end(rest)?;\n",
                "                (\n"
                "                    defaulted_implicit(5, &self.only_contains_attribute_certs),\n"
                "                    optional_explicit(6, &self.more),\n"
                "                ),\n",
                "\n};\nuse x509_prim::BitString;\n\n",
            ),
            POINT_CHECK: (
                "        check_defaulted_implicit::<bool>(5, &mut rest)?;\n        check_optional_explicit::<BitString>(6, &mut rest)?;\n        end(rest)\n",
                "use x509_prim::{BitString, read_named_bits, read_named_number};\n",
            ),
            POINT_SPECS: (
                "Part ((Option DistributionPointName × (Bool × Bool)) × (Option Reasons × (Bool × (Bool × Option BitParts))))\n",
                "(i.only_some_reasons, (i.indirect_crl, (i.only_contains_attribute_certs, i.more)))))\n",
            ),
            POINT_EQUALITY: (
                "(exact_both exact_bool (exact_both exact_bool (exact_option exact_bit_string)))))))\n",
                "use Rattle.x509_prim.specs.Equality.{exact_bit_string}\n",
            ),
        },
    ),
    (
        PERIOD_FIELD,
        PERIOD,
        {
            PERIOD: (
                "impl TryClone for PrivateKeyUsagePeriod {\n    fn try_clone(&self, alloc: Global) -> Result<PrivateKeyUsagePeriod, Error> {\n",
                "            not_after: self.not_after,\n            more: self.more.try_clone(alloc)?,\n",
                "private_key_usage_period_contents };\n\n    ghost IDENTIFIER",
                "        let more = read_optional_implicit::<OctetString>(alloc, 2, &mut rest)?;\n        end(rest)?;\n",
                "        option_has_spelling(&self.more);\n",
                "use x509_prim::OctetString;\n",
            ),
            PERIOD_SPECS: (
                "Part (Option CivilTime × (Option CivilTime × Option (List ℕ)))\n",
                "search (part_rules, generalized_time_lawful, octet_string_lawful) depth 20\n",
                "PartOrder (Option CivilTime × (Option CivilTime × Option (List ℕ)))\n",
                "use Rattle.std.specs.Prelude.{Option, refl, List, ℕ}\n",
                "use Rattle.x509_prim.specs.OctetString.{octet_string, octet_string_lawful}\n",
            ),
            KEY_CHECK: ("        check_optional_implicit::<OctetString>(2, &mut rest)?;\n        end(rest)\n",),
            KEY_EQUALITY: ("(exact_both (exact_option exact_date_time) (exact_both (exact_option exact_date_time) (exact_option exact_octets)))\n",),
        },
    ),
    (
        ISSUER_FIELD,
        ISSUER,
        {
            ISSUER: (
                "            authority_cert_serial_number: _,\n            more: _,\n        } = self;\n",
                "        let more = read_optional_implicit::<OctetString>(alloc, 3, &mut rest)?;\n        end(rest)?;\n",
                "                (\n"
                "                    optional_implicit(2, &self.authority_cert_serial_number),\n"
                "                    optional_implicit(3, &self.more),\n"
                "                ),\n",
            ),
            ISSUER_SPECS: (
                "Part (Option (List ℕ) × (Option (List GeneralName) × (Option (List ℕ) × Option (List ℕ))))\n",
                "search (part_rules, octet_string_lawful, general_names_lawful, serial_number_lawful) depth 20\n",
            ),
            KEY_CHECK: ("        check_optional_implicit::<OctetString>(3, &mut rest)?;\n        end(rest)\n",),
        },
    ),
    (
        PLACE_CASE,
        PLACE,
        {
            PLACE: (
                "            DistributionPointName::Other(_) => {}\n        }\n",
                "            DistributionPointName::Other(other) => {\n                DistributionPointName::Other(other.try_clone(alloc)?)\n            }\n",
                "            DistributionPointName::Other(_) => implicit_identifier::<OctetString>(2),\n",
                "        matches!(octet, 0xA0 | 0xA1 | 0x82)\n",
                "            0x82 => DistributionPointName::Other(OctetString::read_content(alloc, content)?),\n",
                "            DistributionPointName::Other(other) => other.put_content(room),\n",
                "            DistributionPointName::Other(other) => other.has_spelling(),\n",
                "use x509_prim::OctetString;\n",
            ),
            PLACE_CHECK: ("            0x82 => OctetString::pass_content(content),\n            _ => Err(ErrorKind::Malformed.into()),\n",),
            PLACE_EQUALITY: ("(exact_last rdn_decides, (exact_last exact_octets, tt)))\n",),
        },
    ),
)
# what is said of each value that is made by hand without a field, and how many there are: two of each type, and of the second both in clauses too
MADE = {
    EXTENSION_FIELD: (": a value of Extension without more\n", 2),
    ISSUER_FIELD: (": a value of AuthorityKeyIdentifier without more\n", 4),
}
# what is changed so that a type and its grammar don't say the same, and what `--check` says
UNLIKE = (
    (EXTENSION_FIELD[:3], "Extension has 4 fields, and x509_ext::specs::Extension::extension_fields 3"),
    ((EXTENSION_FIELD[0], *EXTENSION_FIELD[2:]), "Extension has 4 fields, and its docs 3"),
    ((*EXTENSION_FIELD[:2], EXTENSION_FIELD[3]), "Extension has 4 fields, and its comment 0"),
    (((PERIOD, "[1] IMPLICIT", "[1] EXPLICIT"),), "PrivateKeyUsagePeriod.not_after is optional explicit 1 in its docs, and optional implicit 1 in "),
    (((EXTENSION_SPECS, "critical: BOOLEAN=FALSE", "critical: BOOLEAN"),), "Extension.critical is required in its comment, and defaulted in "),
    (
        ((PERIOD, "_before: Option<GeneralizedTime>,", "_before: GeneralizedTime,"),),
        "PrivateKeyUsagePeriod.not_before is GeneralizedTime, and optional implicit 0 in ",
    ),
    (PLACE_CASE[:1], "DistributionPointName has other cases than x509_ext::specs::DistributionPointName::distribution_point_name_cases"),
)
# an impl that is taken out
SET_ORD = "impl SetOrd for Extension {\n    ghost set_order = { ⟦<Extension as EncodingOrd>⟧.encoding_order };\n}\n\n"
# what is changed at once, and what `--check` says of it
FAULTS = (
    (NAMES, "            excluded_subtrees: _,\n", ""),
    (POINT_EQUALITY, "exact_reasons = exact_by (λ (r : Reasons). r.0)", "exact_reasons = exact_by (λ (r : Reasons). r)"),
    (ODD, "# ---- x509_sct\n", f"# ---- x509_sct\n{NAMES} TryClone NameConstraints: why\n{NAMES} Drop Nothing: why\n"),
    (ODD, ": has no content\n", "\n"),
    (EXTENSION, SET_ORD, ""),
)
FOUND = (
    f"failed: {NAMES} Drop NameConstraints: it isn't what tools/build/derive.py writes\n",
    f"failed: {POINT_EQUALITY} equality exact_reasons: it isn't what tools/build/derive.py writes\n",
    f"failed: {NAMES} TryClone NameConstraints: it is what would be written",
    f"failed: {NAMES} Drop Nothing: there is no such thing",
    "failed: x509_sct/src/poison.rt Content CtPrecertificatePoison: no reason",
    f"failed: {EXTENSION} SetOrd Extension: it isn't what tools/build/derive.py writes\n",
    "+            excluded_subtrees: _,\n",
)
# impls that are taken out of a file, and written again
TRAITS = ("Drop", "TryClone", "Content", "Spelled")


def copied(folder):
    """Puts the sources of types and the tools into a folder."""
    shutil.copytree(TOP / "tools", folder / "tools", ignore=shutil.ignore_patterns("__pycache__", "*.gz"))
    for crate in OF_TYPES:
        for part in ("src", "specs"):
            shutil.copytree(TOP / "crates" / crate / part, folder / "crates" / crate / part)


def run(folder, *arguments):
    return subprocess.run([sys.executable, "-B", folder / "tools" / "build" / "derive.py", *arguments], capture_output=True, encoding="utf-8", check=False)


class Copy:
    """A copy with some changes, which it takes back."""

    def __init__(self, folder, changes):
        self.folder, self.changes = folder, changes

    def __enter__(self):
        self.texts = {file: file.read_text(encoding="utf-8") for file in (self.folder / "crates").rglob("*") if file.suffix in (".rt", ".antt")}
        self.texts |= {file: file.read_text(encoding="utf-8") for file in (self.folder / "crates" / name for name, _, _ in self.changes)}
        for name, old, new in self.changes:
            file = self.folder / "crates" / name
            text = file.read_text(encoding="utf-8")
            if old not in text:
                raise ValueError(f"{name} has no {old!r}")
            file.write_text(text.replace(old, new, 1), encoding="utf-8")

    def __exit__(self, *_):
        for file, text in self.texts.items():
            if file.read_text(encoding="utf-8") != text:
                file.write_text(text, encoding="utf-8")


def faults(folder):
    crates = folder / "crates"
    for changes, file, wanted in WRITTEN:
        with Copy(folder, changes):
            said, count = MADE.get(changes, (": a value of ", 0))
            if (found := run(folder, file).stdout).count(said) != count:
                yield f"{file}: not {count} times {said!r} in {found}"
            for name, texts in wanted.items():
                text = (crates / name).read_text(encoding="utf-8")
                yield from (f"{name} has no {it!r}" for it in texts if it not in text)
            if (after := run(folder, "--check")).returncode:
                yield f"{file}: what was written isn't what would be: {after.stdout}"
    for changes, wanted in UNLIKE:
        with Copy(folder, changes):
            found = run(folder, "--check")
            if not found.returncode or wanted not in found.stdout:
                yield f"no {wanted!r} in {found.stdout}"
    with Copy(folder, FAULTS):
        found = run(folder, "--check")
        for wanted in FOUND:
            if not found.returncode or wanted not in found.stdout:
                yield f"no {wanted!r} in {found.stdout}"
    whole = (crates / NAMES).read_text(encoding="utf-8")
    parts = [re.search(rf"\n(?:#\[.*\n)?impl {trait} for NameConstraints {{\n(?:.*\n)*?}}\n", whole)[0] for trait in TRAITS]
    with Copy(folder, [(NAMES, part, "") for part in parts]):
        run(folder, NAMES)
        run(folder, EXTENSION, "Extension")
        for name in (NAMES, EXTENSION):
            if (crates / name).read_bytes() != (TOP / "crates" / name).read_bytes():
                yield f"{name} isn't written as it was"


def main():
    argparse.ArgumentParser(description=__doc__).parse_args()
    with tempfile.TemporaryDirectory() as made:
        folder = pathlib.Path(made)
        copied(folder)
        found = list(faults(folder))
    for it in found:
        print(f"failed: derive.py: {it}")
    if not found:
        print(f"passed: derive.py: {len(WRITTEN)} changes of types are written, {len(UNLIKE) + len(FAULTS)} faults are found")
    return int(bool(found))


if __name__ == "__main__":
    sys.exit(main())
