#!/usr/bin/env python3
"""Writes a table of the calls of include/x509.h as C, for spoil_calls.c: a wrapper of each call, what it takes, fills in and may answer.

It fails where a prototype is of a form that it doesn't know, answers no statuses, or names one that the header hasn't; so each prototype has its row.
"""
import argparse
import pathlib
import re
import sys

sys.path.insert(0, str(pathlib.Path(__file__).resolve().parents[1]))
from common.header import HEADER, calls, statuses, structs, without_comments

NUMBERS = ("uint32_t", "uint64_t", "size_t", "int32_t", "x509_status")
# what answers no status has a test of its own in spoil_calls.c
OTHERS = ("x509_version",)
# what is said of each certificate of a path
CERTIFICATE = "x509_path_certificate"


def fields(kind, known, at="0"):
    """Each number and each span of a struct: where it stands, its size, and whether it is a span."""
    if kind == "x509_span" or kind in NUMBERS:
        return [(at, f"sizeof({kind})", int(kind == "x509_span"))]
    found = []
    for it in known[kind]:
        place = f"{at} + offsetof({kind}, {it.name})"
        # an array is one number, however long it is
        found += [(place, f"{it.count} * sizeof({it.kind})", 0)] if it.count else fields(it.kind, known, place)
    return found


def listed(found):
    """Fields as C lists them."""
    return ", ".join(f"{{{at}, {size}, {is_span}}}" for at, size, is_span in found)


def row(call, number, known, numbers):
    """The wrapper of a call and its row."""
    words, inputs, scalars, flags, output, lists = [], [], [], set(), None, 0
    rest = list(call.parameters)
    while rest:
        it = rest.pop(0)
        behind = rest[0] if rest else None
        if it.is_const and it.kind == "uint8_t" and behind is not None and behind.kind == "size_t" and not behind.is_pointer:
            rest.pop(0)
            words += [f"a->in[{len(inputs)}].bytes", f"a->in[{len(inputs)}].len"]
            inputs.append(it.name)
        elif it.is_const and it.kind in known and behind is not None and behind.name == f"{it.name}_size" and behind.kind == "size_t":
            # the bytes of a struct, which the library may find anywhere
            rest.pop(0)
            words += [f"(const void *)a->in[{len(inputs)}].bytes", f"a->in[{len(inputs)}].len"]
            inputs.append(it.name)
        elif it.is_const and it.kind == "size_t" and behind is not None and behind.name == "count" and inputs[-1] != "path":
            # one piece, which is the whole
            rest.pop(0)
            words += [f"&a->in[{len(inputs) - 1}].len", "1"]
        elif it.is_const and it.kind == "size_t" and behind is not None and behind.name == "count":
            rest.pop(0)
            words += ["a->lens", "a->count"]
            flags.add("HAS_LENS")
        elif it.is_const and it.kind == "x509_signed_crl" and behind is not None and behind.name == "count":
            rest.pop(0)
            words += ["a->crls", "a->count"]
            flags.add("HAS_CRLS")
        elif it.is_const and it.kind == "x509_span" and behind is not None and behind.name == f"{it.name.removesuffix('s')}_count":
            rest.pop(0)
            words += [f"a->spans[{lists}]", f"a->span_counts[{lists}]"]
            lists += 1
        elif it.is_const and it.kind == "x509_span":
            words.append("a->leaf")
        elif it.is_const and it.kind == "x509_bad_link" and behind is not None and behind.name == f"{it.name}_count":
            rest.pop(0)
            words += ["a->bad", "a->bad_count"]
        elif it.is_const and it.kind == "uint32_t" and behind is not None and behind.name == "count":
            rest.pop(0)
            words += ["a->by", "a->by_count"]
            flags.add("IS_BY_INDEX")
        elif it.is_pointer and it.kind == "uint32_t" and [other.name for other in rest[:2]] == ["room", "written"]:
            rest = rest[2:]
            words += ["a->index", "a->room", "a->written"]
            flags.add("INDEXES")
        elif it.is_pointer and not it.is_const and it.kind == "size_t" and behind is not None and behind.name == "room":
            rest.pop(0)
            words += ["a->places", "a->room"]
            flags.add("FINDS")
        elif it.is_pointer and not it.is_const and it.kind == CERTIFICATE and behind is not None and behind.name == "certificate_room":
            rest.pop(0)
            words += ["a->certificates", "a->certificate_room"]
            flags.add("VIEWS")
        elif it.is_pointer and not it.is_const and it.kind == "uint8_t" and behind is not None and behind.name == "room":
            words += ["a->out", "a->room"]
            if rest.pop(0).kind != "size_t" or not rest:
                raise ValueError(f"{call.name}: a buffer without a room")
            if rest[0].name == "written" and rest[0].kind == "size_t":
                rest.pop(0)
                words.append("a->written")
                flags.add("WRITES")
            else:
                # a struct says how many bytes there are, whether they fit or not
                flags.add("WRITES_ASIDE")
        elif it.is_pointer and it.name == "at" and it.kind == "size_t":
            words.append("a->at")
            flags.add("WALKS")
        elif it.is_pointer and it.name == "issuer" and it.kind == "x509_span":
            # what a walk carries on from step to step
            words.append("a->issuer")
            flags.add("CARRIES")
        elif it.is_const and it.kind in known and it.name == "view":
            words.append("(const void *)a->view")
        elif it.is_pointer and not it.is_const and output is None:
            words.append("a->found")
            output = it.kind
        elif not it.is_pointer and it.kind in NUMBERS:
            words.append(f"({it.kind})a->number[{len(scalars)}]")
            scalars.append(it.name)
        else:
            raise ValueError(f"{call.name}: what is the parameter {it}?")
    if not call.statuses or not set(call.statuses) <= set(numbers):
        raise ValueError(f"{call.name}: it answers {call.statuses}")
    told = fields(output, known) if output else []
    list_of_fields = listed(told) or "{0, 0, 0}"
    return "\n".join(
        (
            f"static x509_status call_{number}(const arguments *a) {{ return {call.name}({', '.join(words)}); }}",
            f"static const field fields_{number}[] = {{{list_of_fields}}};",
            f"#define ROW_{number} {{\"{call.name}\", call_{number}, {{{', '.join(map(quoted, inputs)) or 'NULL'}}}, {len(inputs)}, "
            f"{{{', '.join(map(quoted, scalars)) or 'NULL'}}}, {len(scalars)}, {' | '.join(sorted(flags)) or '0'}, "
            f"{f'sizeof({output})' if output else '0'}, fields_{number}, {len(told)}, {' | '.join(f'ANSWERS({it})' for it in call.statuses)}}}",
        )
    )


def quoted(text):
    return f'"{text}"'


def main():
    argparse.ArgumentParser(description=__doc__).parse_args()
    text = HEADER.read_text(encoding="utf-8")
    known, numbers, found = structs(text), statuses(text), calls(text)
    named = re.findall(r"\b(x509_\w+)\s*\(", without_comments(text))
    if sorted(named) != sorted(it.name for it in found):
        raise ValueError(f"prototypes that weren't read: {set(named) ^ {it.name for it in found}}")
    asked = [it for it in found if it.name not in OTHERS]
    print("/* Made by calls_table.py of x509.h. */")
    print(f"static const field CERTIFICATE_FIELDS[] = {{{listed(fields(CERTIFICATE, known))}}};")
    for number, call in enumerate(asked):
        print(row(call, number, known, numbers))
    print(f"static const call CALLS[] = {{{', '.join(f'ROW_{number}' for number in range(len(asked)))}}};")
    print(f"enum {{ CALL_COUNT = {len(asked)} }};")
    return 0


if __name__ == "__main__":
    sys.exit(main())
