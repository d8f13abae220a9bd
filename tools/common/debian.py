"""The Debian packages of a release."""
import dataclasses
import email.utils

from common.packages import File, compressed, write_deb

# the oldest version of the package for Python that the tests run with
CRYPTOGRAPHY = "38"
ARCHITECTURE, TRIPLET = "amd64", "x86_64-linux-gnu"
MAINTAINER = "Nulloebony maintainers <maintainers@users.noreply.nulloebony.example>"
ABOUT = """ Certificates, CRLs, PKCS #10 requests (CSRs), trust anchors and signed
 certificate timestamps (RFC 5280, 2986, 5914, 6962) are decoded, encoded,
 built and checked; each function is proved to meet its contract.
 .
"""
CLEANS = b"""#!/bin/sh
set -e
# what the interpreter has written beside the package's files, and beside the examples where they were run
for folder in usr/lib/python3/dist-packages/x509_cert usr/share/doc/python3-x509-rattle/examples; do
    if [ -d "$DPKG_ROOT/$folder" ]; then
        find "$DPKG_ROOT/$folder" -type d -name __pycache__ -exec rm -rf {} +
    fi
done
"""


@dataclasses.dataclass(frozen=True)
class Package:
    """A package: its name, what it is in a line and in a sentence, its fields beside these, and its files."""

    name: str
    title: str
    text: str
    fields: dict[str, str]
    files: list[File]
    control: list[File] = dataclasses.field(default_factory=list)

    def architecture(self):
        return self.fields.get("Architecture", ARCHITECTURE)


def control(package, version, files):
    """The file control: a field in each line."""
    size = sum(-(-len(it.data) // 1024) for it in files)
    fields = {"Package": package.name, "Source": "x509-rattle", "Version": str(version), "Architecture": ARCHITECTURE, "Maintainer": MAINTAINER}
    fields |= {"Installed-Size": str(size), "Priority": "optional", **package.fields}
    text = "".join(f"{name}: {value}\n" for name, value in fields.items())
    return f"{text}Description: {package.title}\n{ABOUT} {package.text}\n".encode()


def changelog(version, time):
    """The changelog in Debian's form, which the version's page of CHANGELOG.md is the text of."""
    date = email.utils.formatdate(time)
    return f"x509-rattle ({version}) unstable; urgency=medium\n\n  * Version {version}: see CHANGELOG.md of the sources.\n\n -- {MAINTAINER}  {date}\n".encode()


def symbols(version, calls):
    """Which version each call came with, for dpkg-shlibdeps."""
    lines = "".join(f" {name}@Base {since}\n" for name, since in sorted(calls.items()))
    return f"libx509.so.{version.major} libx509-rattle{version.major} #MINVER#\n* Build-Depends-Package: libx509-rattle-dev\n{lines}".encode()


def documents(package, version, time, licences):
    """The files that each package has below usr/share/doc."""
    folder = f"usr/share/doc/{package}"
    return [File(f"{folder}/changelog.gz", compressed(changelog(version, time))), File(f"{folder}/copyright", licences)]


def write(out, package, version, time, licences):
    """Writes a package into a folder."""
    files = [*package.files, *documents(package.name, version, time, licences)]
    own = [File("control", control(package, version, files)), *package.control]
    write_deb(out / f"{package.name}_{version}_{package.architecture()}.deb", own, files, time)


def shipped(it, package, part):
    """The examples in a language, with their data."""
    folders = f"{part}/", "data/"
    return [File(f"usr/share/doc/{package}/examples/{name}", data) for name, data in it.examples.items() if name.startswith(folders)]


def packages(it):
    """The packages of what `it` has: the version, the library's files, the programs, the manual pages, the files of the package for Python."""
    version, lib = it.version, f"usr/lib/{TRIPLET}"
    name, same = f"libx509-rattle{version.major}", f"(= {version})"
    shared = f"libx509.so.{version}"
    trigger = File("triggers", b"activate-noawait ldconfig\n")
    shlibs = File("shlibs", f"libx509 {version.major} {name} (>= {version})\n".encode())
    yield Package(
        name,
        "X.509 in strict DER, proved: shared library",
        "This package has the library for C.",
        {"Section": "libs", "Multi-Arch": "same", "Depends": f"libc6 (>= {it.glibc_of_library})"},
        [
            File(f"{lib}/{shared}", it.shared),
            File(f"{lib}/libx509.so.{version.major}", link=shared),
            File(f"usr/share/doc/{name}/PROVED.md.gz", compressed(it.proved)),
            File(f"usr/share/lintian/overrides/{name}", f"# the soname is that of the C interface\n{name}: package-name-doesnt-match-sonames *\n".encode()),
        ],
        [trigger, shlibs, File("symbols", symbols(version, it.calls))],
    )
    yield Package(
        "libx509-rattle-dev",
        "X.509 in strict DER, proved: header and static library",
        "This package has what programs in C and C++ are built with.",
        {"Section": "libdevel", "Multi-Arch": "same", "Depends": f"{name} {same}"},
        [
            File("usr/include/x509.h", it.header),
            File(f"{lib}/libx509.a", it.static),
            File(f"{lib}/libx509.so", link=f"libx509.so.{version.major}"),
            *it.found_by(lib, "/usr", f"lib/{TRIPLET}", "../../include"),
            *(File(f"usr/share/man/man3/{page}.gz", compressed(data)) for page, data in it.pages.items() if page.endswith(".3")),
            *(File(f"usr/share/doc/libx509-rattle-dev/{page}.gz", compressed(data)) for page, data in it.docs.items()),
            *shipped(it, "libx509-rattle-dev", "c"),
        ],
    )
    yield Package(
        "x509-rattle-tools",
        "X.509 in strict DER, proved: programs",
        "This package has x509_show, x509_linter and x509_tool.",
        {"Section": "utils", "Depends": f"libc6 (>= {it.glibc_of_programs})"},
        [
            *(File(f"usr/bin/{program}", data, 0o755) for program, data in it.programs.items()),
            *(File(f"usr/share/man/man1/{page}.gz", compressed(data)) for page, data in it.pages.items() if page.endswith(".1")),
        ],
    )
    yield Package(
        "python3-x509-rattle",
        "X.509 in strict DER, proved: package for Python",
        "This package has the package x509_cert for Python.",
        {
            "Section": "python",
            "Architecture": "all",
            "Depends": f"python3 (>= 3.11), {name} (>= {version})",
            "Suggests": f"python3-cryptography (>= {CRYPTOGRAPHY})",
        },
        [
            *(File(f"usr/lib/python3/dist-packages/{path}", data) for path, data in it.python.items()),
            *shipped(it, "python3-x509-rattle", "python"),
        ],
        [File("prerm", CLEANS, 0o755)],
    )
