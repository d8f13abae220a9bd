"""The version, which the file VERSION has, and each place that repeats it."""
import dataclasses
import pathlib
import re

TOP = pathlib.Path(__file__).resolve().parents[2]
FORM = r"(?:0|[1-9]\d*)\.(?:0|[1-9]\d*)\.(?:0|[1-9]\d*)"


@dataclasses.dataclass(frozen=True)
class Version:
    """Three numbers, of which the last two fit into an octet each, as `x509_version` has them."""

    major: int
    minor: int
    patch: int

    def __str__(self):
        return f"{self.major}.{self.minor}.{self.patch}"

    def number(self):
        """The number that `x509_version` answers."""
        return self.major << 16 | self.minor << 8 | self.patch

    def numbers(self):
        return self.major, self.minor, self.patch


def parsed(text):
    if not re.fullmatch(FORM, text):
        raise ValueError(f"{text!r} is no version MAJOR.MINOR.PATCH")
    found = Version(*map(int, text.split(".")))
    if max(found.numbers()) > 255:
        raise ValueError(f"{text}: a number above 255 has no room in x509_version")
    return found


def version(top=TOP):
    return parsed((top / "VERSION").read_text(encoding="utf-8").strip())


def places(it):
    """Each place: its file, what stands there around the version, and how it is spelled there."""
    rust = f"0x{it.number() >> 16:04x}_{it.number() & 0xFFFF:04x}"
    package = r'name = "x509-rattle"\nversion = "'
    return (
        *(("include/x509.h", rf"^#define X509_VERSION_{name} ", r"\d+", "$", str(number)) for name, number in zip(("MAJOR", "MINOR", "PATCH"), it.numbers())),
        ("include/x509.h", r"^#define X509_VERSION ", r"0x[0-9a-f]{6}", "$", f"0x{it.number():06x}"),
        ("crates/x509_c/src/text.rt", r"fn x509_version\(\) -> u32\n    ensures \{ result ≡ ", r"\d+", r" \}", str(it.number())),
        ("crates/x509_c/src/text.rt", r"fn x509_version\(\) -> u32\n[^\n]*\n\{\n    ", r"0x[0-9a-f_]+", r"\n\}", rust),
        ("crates/x509_tool_run/src/version.rt", r'^pub const VERSION: &str = "', FORM, '"', str(it)),
        ("bindings/rust/Cargo.toml", package, FORM, '"', str(it)),
        ("bindings/rust/Cargo.lock", package, FORM, '"', str(it)),
        ("bindings/python/pyproject.toml", r'^version = "', FORM, '"', str(it)),
        ("bindings/python/src/x509_cert/__init__.py", r'^__version__ = "', FORM, '"', str(it)),
        ("bindings/python/src/x509_cert/_library.py", r'ctypes\.CDLL\("libx509\.so\.', r"\d+", r'"\)', str(it.major)),
    )
