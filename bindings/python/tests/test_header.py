"""What the package repeats of include/x509.h: numbers, structs and calls are as a C compiler reads them, and no call is made with another number of words than
it takes, or with a word of another type.

usage: X509_LIBRARY=.../libx509.so PYTHONPATH=bindings/python/src python3 -m unittest discover -s bindings/python/tests
"""

from __future__ import annotations

import ctypes
import enum
import os
import pathlib
import shutil
import subprocess
import sys
import unittest
from typing import Any

import x509_cert as ours
from x509_cert import _header, _library

sys.path.insert(0, str(pathlib.Path(__file__).resolve().parents[3] / "tools"))
from common import header, interface

TEXT = header.HEADER.read_text(encoding="utf-8")
STRUCTS = header.structs(TEXT)
CALLS = header.calls(TEXT)
COMPILER = os.environ.get("CC", "cc")
NUMBERS = {"uint8_t": ctypes.c_uint8, "uint32_t": ctypes.c_uint32, "int32_t": ctypes.c_int32, "uint64_t": ctypes.c_uint64, "size_t": ctypes.c_size_t}


def class_of(name: str) -> Any:
    """The class of a struct of the header, as `CertificateView` of `x509_certificate`."""
    words = "".join(it.capitalize() for it in name.removeprefix("x509_").split("_"))
    return getattr(_header, words, None) or getattr(_header, f"{words}View")


def type_of(kind: str) -> Any:
    return NUMBERS.get(kind) or (ctypes.c_int if kind == "x509_status" else class_of(kind))


def fitting(it: header.Parameter) -> Any:
    """A word that the parameter takes."""
    if not it.is_pointer:
        return type_of(it.kind)()
    if it.is_const and it.kind == "uint8_t":
        return b"a"
    return (type_of(it.kind) * 1)()


def others(it: header.Parameter) -> list[Any]:
    """Words that it doesn't take, each of which is one that another parameter may take, or a slip."""
    slips = ["a", 1.5, bytearray(b"a"), object()]
    if not it.is_pointer:
        return [*slips, b"a", None, ctypes.byref(type_of(it.kind)())]
    if it.is_const and it.kind == "uint8_t":
        return [*slips, 1, ctypes.byref(ctypes.c_size_t()), (ctypes.c_size_t * 1)()]
    kinds = [kind for kind in (ctypes.c_uint8, ctypes.c_uint32, ctypes.c_size_t, _header.Span, _header.KeyView) if kind is not type_of(it.kind)]
    return [*slips, 1, b"a", *(ctypes.byref(kind()) for kind in kinds), *((kind * 1)() for kind in kinds)]


@unittest.skipIf(shutil.which(COMPILER) is None, "a C compiler isn't installed")
class Compiled(unittest.TestCase):
    def test_numbers_and_structs(self) -> None:
        told = iter(interface.asked(TEXT))
        for name in header.constants(TEXT):
            with self.subTest(name):
                self.assertEqual(getattr(_header, name.removeprefix("X509_")), int(next(told)))
        for name, fields in STRUCTS.items():
            with self.subTest(name):
                kind = class_of(name)
                offsets = [getattr(kind, it.name).offset for it in fields]
                self.assertEqual([ctypes.sizeof(kind), ctypes.alignment(kind), *offsets], list(map(int, next(told).split())))
        self.assertEqual(list(told), [])

    def test_calls(self) -> None:
        """Declared once more as they were read of the header, the calls are the same ones; as others they aren't."""
        read = "".join(f"{it.answer} {it.name}({', '.join(map(interface.in_c, it.parameters)) or 'void'});\n" for it in CALLS)
        others = ("(uint8_t *, size_t, uint8_t *, size_t, size_t *)", "(const uint8_t *, size_t, uint8_t *, size_t, uint32_t *)", "(const uint8_t *, size_t)")
        for declared, is_same in ((read, True), *((f"x509_status x509_name_text{words};\n", False) for words in others)):
            with self.subTest(declared[:100]):
                words = [COMPILER, "-std=c11", "-fsyntax-only", "-I", str(header.HEADER.parent), "-xc", "-"]
                ended = subprocess.run(words, input=f"#include <x509.h>\n{declared}", text=True, capture_output=True)
                self.assertEqual(ended.returncode == 0, is_same, ended.stderr)


class Declared(unittest.TestCase):
    def test_fields(self) -> None:
        found = {name for name, it in vars(_header).items() if isinstance(it, type) and issubclass(it, ctypes.Structure) and it.__module__ == _header.__name__}
        self.assertEqual(found, {class_of(name).__name__ for name in STRUCTS})
        for name, fields in STRUCTS.items():
            with self.subTest(name):
                wanted = [(it.name, type_of(it.kind) * it.count if it.count else type_of(it.kind)) for it in fields]
                self.assertEqual(class_of(name)._fields_, wanted)

    def test_calls(self) -> None:
        """Bytes that a call reads go in as `bytes`, all else that it is pointed at by a pointer of its type."""
        wanted = {}
        for call in CALLS:
            words = [type_of(it.kind) for it in call.parameters]
            for at, it in enumerate(call.parameters):
                if it.is_pointer:
                    words[at] = ctypes.c_char_p if it.is_const and it.kind == "uint8_t" else ctypes.POINTER(words[at])
            wanted[call.name] = [type_of(call.answer), *words]
        self.assertEqual(_header.CALLS, wanted)

    def test_numbers_of_enums(self) -> None:
        rows: dict[str, type[enum.Enum]] = {
            "KEY_": ours.KeyKind,
            "SIGNATURE_": ours.SignatureKind,
            "ANCHOR_": ours.AnchorKind,
            "CRL_": ours.CrlFault,
        }
        for front, kind in rows.items():
            with self.subTest(front):
                names = [it.removeprefix("X509_") for it in header.constants(TEXT)]
                left_out = ("KEY_USAGE_", "CRL_WITHOUT_FAULT")
                wanted = {it: getattr(_header, it) for it in names if it.startswith(front) and not it.startswith(left_out)}
                self.assertEqual({f"{front}{it.name.upper()}": it.value for it in kind}, wanted)
        states = {it.name.upper(): it.value for it in ours.RevocationState}
        self.assertEqual(states, {it: getattr(_header, it) for it in ("UNDETERMINED", "UNREVOKED", "REVOKED")})


class NotMade(unittest.TestCase):
    """Calls with words that would be read as others, or written to."""

    def test_of_each_call(self) -> None:
        for call in CALLS:
            asked, words = _library._call(call.name), list(map(fitting, call.parameters))
            for at, it in enumerate(call.parameters):
                for other in others(it):
                    with self.subTest(call=call.name, parameter=it.name, other=other), self.assertRaises(ctypes.ArgumentError):
                        asked(*words[:at], other, *words[at + 1 :])
            for few in range(len(words)):
                with self.subTest(call=call.name, words=few), self.assertRaises(TypeError):
                    asked(*words[:few])

    def test_of_the_package(self) -> None:
        count, written = ctypes.c_size_t(), ctypes.byref(ctypes.c_size_t())
        rows: dict[str, tuple[object, ...]] = {
            "no buffer": (b"a",),
            "no room": (b"a", None, written),
            "nowhere to say how much": (b"a", None, count),
            "one more": (b"a", None, count, written, count),
            "no bytes": (None, None, count, written),
            "a text": ("a", None, count, written),
            "a number": (5, None, count, written),
            "a number as room": (b"a", None, 0, written),
            "bytes that may change": (bytearray(b"a"), None, count, written),
        }
        for name, words in rows.items():
            with self.subTest(name), self.assertRaises(TypeError):
                _library.status_of("x509_name_text", *words)
        with self.assertRaises(ctypes.ArgumentError):
            _library.status_of("x509_name_text", b"a", None, ctypes.c_uint32(), written)
        with self.assertRaises(ctypes.ArgumentError):
            _library.view("x509_certificate_view", _header.CrlView, b"a")
        with self.assertRaises(ctypes.ArgumentError):
            _library.number("x509_invalidity_date", b"a")
        with self.assertRaises(KeyError):
            _library.status_of("x509_no_such_call")


class Made(unittest.TestCase):
    def test_as_they_are_lent(self) -> None:
        """Bytes with zeros in them, and none; a status below 0; and numbers of each size."""
        self.assertEqual(_library.fill("x509_serial_text", bytes([0, 0x80, 0, 0])), b"00:80:00:00")
        self.assertEqual(_library.fill("x509_name_build", b""), b"\x30\x00")
        self.assertEqual(_library.fill("x509_name_text", b"\x30\x00"), b"")
        written = ctypes.c_size_t()
        room = _library.status_of("x509_serial_text", b"\x05", None, ctypes.c_size_t(0), ctypes.byref(written))
        self.assertEqual((room, written.value), (_header.ROOM, 2))
        self.assertEqual(_library.number("x509_key_usage", bytes.fromhex("03020106")), _header.KEY_USAGE_KEY_CERT_SIGN | _header.KEY_USAGE_CRL_SIGN)
        # 1970-01-01T00:00:05Z
        self.assertEqual(_library.seconds("x509_invalidity_date", b"\x18\x0f19700101000005Z"), 5)


if __name__ == "__main__":
    unittest.main()
