#!/usr/bin/env python3
"""Makes a release of the commit that is checked out, in a new or an empty folder: the archive with header, libraries, programs and manual pages, the Debian
packages, the wheel, the crate, and SHA256SUMS. The same commit and toolchain give the same bytes each time.

It refuses changes that aren't committed, and a tree that `rt ci` hasn't passed: each proof of a crate and of its tests and each wrong body has to be in
the gate's record (tools/common/gate_record.py), and `rt ci` over a clone of the commit, which then has tests and programs alone to run, has to end with
none failed. All is built in that clone, of what was proved.
"""
import argparse
import dataclasses
import hashlib
import importlib.util
import os
import pathlib
import re
import shutil
import subprocess
import sys
import tempfile
import time

sys.path.insert(0, str(pathlib.Path(__file__).resolve().parents[1]))
sys.dont_write_bytecode = True
from common import debian
from common.crates import TOP, crates_below, path_of
from common.gate_record import kit, lacking
from common.interface import is_released, listed
from common.packages import File, sums, tar
from common.page import page
from common.version import Version, version

PROGRAMS = "x509_show", "x509_linter", "x509_tool"
NAME = "x509-rattle"
SCRIPTS = pathlib.Path("tools/build")
# what a program in C, Rust or Python is written after; the others in examples/ are tests
EXAMPLES = {
    "c": "authority.c facts.c name.c path.c payload.h payloads.c revoked.c show.c timestamps.c tls_client.c verifying.h",
    "python": "authority.py facts.py name.py path.py payload.py payloads.py show.py tls_client.py",
    "data": "certificate.der list.der request.der",
}
# the pages that users look things up in
DOCS = "OPERATIONS.md", "PROMISES.md", "RULES.md", "WEB_RULES.md"
STRIP = "strip", "--remove-section=.comment"


def run(words, folder, **more):
    """What a command prints; where it fails, this ends with what it said."""
    found = subprocess.run(list(map(str, words)), cwd=folder, stdin=subprocess.DEVNULL, capture_output=True, text=True, check=False, **more)
    if found.returncode:
        sys.exit(f"{' '.join(map(str, words))} ended with {found.returncode}:\n{found.stdout}{found.stderr}")
    return found.stdout


def git(folder, *words):
    return run(["git", *words], folder).strip()


def say(text):
    print(text, file=sys.stderr, flush=True)


# ---- what may be released


def stop_unless_clean():
    changed = git(TOP, "status", "--porcelain")
    if changed:
        sys.exit(f"these changes aren't committed:\n{changed}")
    it = version()
    tag = git(TOP, "tag", "--list", f"v{it}")
    if tag and git(TOP, "rev-list", "-n1", tag) != git(TOP, "rev-parse", "HEAD"):
        sys.exit(f"the tag {tag} is of another commit: VERSION has to be raised")
    if not is_released(it):
        say(f"note: the heading of {it} in CHANGELOG.md has no date, so this is a release to be tried")


def gate_said(clone):
    """The last lines of `rt ci`, without what was done in this run and what in earlier ones."""
    missing = lacking(clone)
    if missing:
        sys.exit("`rt ci` hasn't passed this tree; `bash .ci/run` is to pass first. Its record lacks\n" + "".join(f"  {it}\n" for it in missing))
    say("the gate's record has each proof; rt ci runs tests and programs")
    lines = run(["rt", "ci"], clone).rstrip().splitlines()
    if not re.fullmatch(r"[1-9]\d* passed, 0 failed", lines[-1]):
        sys.exit(f"rt ci ended with {lines[-1]}")
    told = next(it for it in lines if it.startswith("rt: ok; "))
    return [told.split("; done in this run")[0].split("; every proof")[0], lines[-1]]


# ---- what is built


@dataclasses.dataclass(frozen=True)
class Built:
    """What a release is made of."""

    version: Version
    time: int
    proved: bytes
    header: bytes
    static: bytes
    shared: bytes
    programs: dict[str, bytes]
    pages: dict[str, bytes]
    python: dict[str, bytes]
    calls: dict[str, Version]
    licences: bytes
    linked: bytes
    changelog: bytes
    examples: dict[str, bytes]
    docs: dict[str, bytes]
    glibc_of_library: str
    glibc_of_programs: str
    templates: dict[str, str]

    def filled(self, name, values):
        """A file of tools/build/package, with these values and those of the version."""
        text = self.templates[name]
        for key, value in {"VERSION": self.version, "MAJOR": self.version.major, **values}.items():
            text = text.replace(f"@{key}@", str(value))
        return text.encode()

    def found_by(self, lib, prefix, libdir, include):
        """The files for pkg-config and CMake, in the folder of the library."""
        values = {"PREFIX": prefix, "LIB": libdir, "INCLUDE": include}
        folders = {"x509.pc": "pkgconfig", "x509Config.cmake": "cmake/x509", "x509ConfigVersion.cmake": "cmake/x509"}
        return [File(f"{lib}/{folder}/{name}", self.filled(f"{name}.in", values)) for name, folder in folders.items()]


def glibc_of(*files):
    """The lowest version of the GNU C library that has all that these files need of it."""
    said = "".join(run(["readelf", "--version-info", "--wide", it], None) for it in files)
    found = {tuple(map(int, it.split("."))) for it in re.findall(r"\bName: GLIBC_([\d.]+)", said)}
    return ".".join(map(str, max(found)))


def stripped_library(archive, shared):
    """Both without what only a debugger asks for."""
    run([*STRIP, "--strip-debug", "--enable-deterministic-archives", archive], None)
    run([*STRIP, "--strip-unneeded", shared], None)
    return archive, shared


def stripped_programs(programs, folder):
    """Copies of the programs in a folder, without their symbols' names."""
    made = []
    for it in programs:
        made.append(folder / it.name)
        run([*STRIP, "-o", made[-1], it], None)
    return made


def build_library(clone, folder):
    """Puts libx509.a and the shared library into a folder, without what only a debugger asks for."""
    it = version(clone)
    run([SCRIPTS / "link_c_library.sh", folder], clone)
    run([SCRIPTS / "link_shared.sh", folder, it], clone)
    return stripped_library(folder / "libx509.a", folder / f"libx509.so.{it}")


def build_programs(clone, folder):
    """Copies the programs that `rt ci` has left into a folder, without their symbols' names."""
    return stripped_programs([clone / "crates" / name / "out" / name for name in PROGRAMS], folder)


def linked_libraries(clone):
    """The toolchain's libraries that the C library and the programs are linked with."""
    named = crates_below()
    wanted = set().union(*(path_of(name, named) for name in ("x509_c", *PROGRAMS)))
    found, todo = set(), []
    for line in (clone / "crates.txt").read_text(encoding="utf-8").splitlines():
        name, _, deps = line.partition("#")[0].partition(":")
        if name.strip() and name.split()[0] in wanted:
            todo += [it for it in deps.split() if it not in named]
    while todo:
        it = todo.pop()
        if it not in found:
            found.add(it)
            todo += re.findall(r"^dep (\w+)$", (kit() / "rlibs" / f"{it}.rlib" / "format").read_text(errors="replace"), re.M)
    return sorted(found)


def licence_of(library):
    """The texts of the licence of a library of the toolchain; of two that may be chosen that of MIT."""
    files = sorted((kit() / "rattle" / library).glob("LICENSE*"))
    names = {it.name for it in files}
    return [it.read_text(encoding="utf-8").strip() for it in files if it.name != "LICENSE-APACHE" or "LICENSE-MIT" not in names]


def linked_text(libraries):
    """What is linked with the code of this repository, under which licences."""
    texts = {it: licence_of(it) for it in libraries}
    without = [it for it, found in texts.items() if not found]
    text = "The library and the programs are linked with these libraries of the toolchain, under the licences below.\n"
    if without:
        text += f"Of its libraries {', '.join(without)} and of its heap, which are linked too, the toolchain has no text of a licence.\n"
    for name, found in texts.items():
        text += "".join(f"\n---- {name}\n\n{it}\n" for it in found)
    return text.encode()


def copyright_of(clone, linked):
    """The file copyright of a Debian package."""
    mit = (clone / "LICENSE-MIT").read_text(encoding="utf-8")
    owner = re.search(r"^Copyright \(c\) (.*)$", mit, re.M)[1]
    head = f"x509-rattle: {owner}\n\nIts licence is the Apache License 2.0, which is /usr/share/common-licenses/Apache-2.0, or this one, as you like:\n\n"
    return head.encode() + mit.encode() + b"\n" + linked


# ---- what is told of it


def checksums(clone):
    """A checksum for the sources of each crate, and one for the rest."""
    files = git(clone, "ls-files").splitlines()
    parts = {}
    for name in sorted(files):
        folders = name.split("/")
        parts.setdefault(f"crates/{folders[1]}" if folders[0] == "crates" else "the rest", []).append(name)
    for part, names in parts.items():
        told = "".join(f"{hashlib.sha256((clone / name).read_bytes()).hexdigest()}  {name}\n" for name in names)
        yield f"| `{part}` | {len(names)} | `{hashlib.sha256(told.encode()).hexdigest()}` |"


def proved_text(clone, template, gate, libraries, built):
    """PROVED.md."""
    indented = lambda lines: "\n".join(f"      {line}" for line in lines)
    values = {
        "VERSION": version(clone),
        "COMMIT": git(clone, "rev-parse", "HEAD"),
        "DATE": git(clone, "show", "-s", "--format=%cs", "HEAD"),
        "TREE": git(clone, "rev-parse", "HEAD^{tree}"),
        "TOOLCHAIN": indented(run(["rt", "version"], clone).strip().splitlines()),
        "GATE": indented(gate),
        "COMPILER": run([os.environ.get("CC", "cc"), "--version"], clone).splitlines()[0],
        "LIBRARIES": ", ".join(f"`{it}`" for it in libraries),
        "BUILT": "\n".join(f"    {hashlib.sha256(it.read_bytes()).hexdigest()}  {it.name}" for it in built),
        "SOURCES": "\n".join(["| | Files | SHA-256 |", "|---|--:|---|", *checksums(clone)]),
    }
    return re.sub("@([A-Z]+)@", lambda found: str(values[found[1]]), template).encode()


def pages(clone, moment):
    """The manual pages, with the version and the day: those of the programs, and that of the header."""
    values = {"@VERSION@": str(version(clone)), "@DATE@": time.strftime("%Y-%m-%d", time.gmtime(moment))}
    found = {"x509.3": page(clone / "include/x509.h", *values.values()).encode()}
    for it in sorted((clone / "docs/man").glob("*.1")):
        text = it.read_text(encoding="utf-8")
        for key, value in values.items():
            text = text.replace(key, value)
        found[it.name] = text.encode()
    return found


def examples(clone):
    """The examples that are shipped, by the name of their folder and of the file there."""
    found = {f"{part}/{name}": (clone / "examples" / part / name).read_bytes() for part, names in EXAMPLES.items() for name in names.split()}
    return found | {f"rust/{it.name}": it.read_bytes() for it in sorted((clone / "bindings/rust/examples").glob("*.rs"))}


def python_backend(clone):
    """The module by which the package for Python is built."""
    spec = importlib.util.spec_from_file_location("backend", clone / "bindings/python/backend.py")
    backend = importlib.util.module_from_spec(spec)
    spec.loader.exec_module(backend)
    return backend


def python_files(clone):
    """The files of the package for Python, with what it is called."""
    sources, backend = clone / "bindings/python/src", python_backend(clone)
    found = {it.relative_to(sources).as_posix(): it.read_bytes() for it in sorted(sources.rglob("*")) if it.suffix in (".py", ".typed")}
    return found | {f"{backend.NAME}.dist-info/METADATA": backend.METADATA.encode(), f"{backend.NAME}.dist-info/INSTALLER": b"dpkg\n"}


def build(clone, folder, moment):
    """All that the packages are made of."""
    gate = gate_said(clone)
    say("building the C library")
    return built_of(clone, build_library(clone, folder), build_programs(clone, folder), gate, moment)


def built_of(clone, library, programs, gate, moment):
    """All that the packages are made of, over this static and shared library, these programs, and what the gate has said."""
    static, shared = library
    libraries = linked_libraries(clone)
    linked = linked_text(libraries)
    templates = {it.name: it.read_text(encoding="utf-8") for it in (clone / "tools/build/package").iterdir()}
    proved = proved_text(clone, templates["PROVED.md.in"], gate, libraries, [static, shared, *programs])
    return Built(
        version=version(clone),
        time=moment,
        proved=proved,
        header=(clone / "include/x509.h").read_bytes(),
        static=static.read_bytes(),
        shared=shared.read_bytes(),
        programs={it.name: it.read_bytes() for it in programs},
        pages=pages(clone, moment),
        python=python_files(clone),
        calls={
            name.split()[1]: since
            for name, (since, _) in listed((clone / "include/abi.txt").read_text(encoding="utf-8")).items()
            if name.startswith("call ")
        },
        licences=copyright_of(clone, linked),
        linked=linked,
        changelog=(clone / "CHANGELOG.md").read_bytes(),
        examples=examples(clone),
        docs={name: (clone / "docs" / name).read_bytes() for name in DOCS},
        glibc_of_library=glibc_of(shared),
        glibc_of_programs=glibc_of(*(programs or [shared])),
        templates=templates,
    )


# ---- the packages


def archive(it, clone):
    """The files of the archive, which stand where a prefix has them."""
    shared, documents = f"libx509.so.{it.version}", f"share/doc/{NAME}"
    return [
        *(File(f"bin/{name}", data, 0o755) for name, data in it.programs.items()),
        File("include/x509.h", it.header),
        File("lib/libx509.a", it.static),
        File(f"lib/{shared}", it.shared, 0o755),
        File(f"lib/libx509.so.{it.version.major}", link=shared),
        File("lib/libx509.so", link=f"libx509.so.{it.version.major}"),
        *it.found_by("lib", "${pcfiledir}/../..", "lib", "../include"),
        *(File(f"share/man/man{name[-1]}/{name}", data) for name, data in it.pages.items()),
        *(File(f"{documents}/examples/{name}", data) for name, data in it.examples.items()),
        *(File(f"{documents}/{name}", data) for name, data in it.docs.items()),
        *(File(f"{documents}/{name}", (clone / name).read_bytes()) for name in ("LICENSE-APACHE", "LICENSE-MIT")),
        File(f"{documents}/LICENSES-LINKED", it.linked),
        File(f"{documents}/CHANGELOG.md", it.changelog),
        File(f"{documents}/PROVED.md", it.proved),
    ]


def write_wheel(it, clone, folder, out):
    """The wheel with its library, by the package's own module."""
    licences = folder / "licences"
    licences.mkdir()
    (licences / "LICENSES-LINKED").write_bytes(it.linked)
    (licences / "PROVED.md").write_bytes(it.proved)
    platform = f"manylinux_{max('2.17', it.glibc_of_library, key=lambda it: tuple(map(int, it.split('.')))).replace('.', '_')}_x86_64"
    library = folder / f"libx509.so.{it.version}"
    python_backend(clone).build_wheel(str(out), {"library": str(library), "licences": str(licences), "platform": platform})


def write_crate(it, clone, folder, out, more=()):
    """The crate as cargo packages it, which builds it over the library."""
    target = folder / "target"
    words = ["cargo", "package", "--quiet", "--offline", "--locked", "--target-dir", target, *more]
    run(words, clone / "bindings/rust", env={**os.environ, "X509_LIBRARY": str(folder)})
    name = f"{NAME}-{it.version}.crate"
    (out / name).write_bytes((target / "package" / name).read_bytes())


def write_release(out, clone, folder):
    moment = int(git(clone, "show", "-s", "--format=%ct", "HEAD"))
    os.environ["SOURCE_DATE_EPOCH"] = str(moment)
    it = build(clone, folder, moment)
    say("writing the packages")
    write_packages(it, clone, folder, out)
    write_crate(it, clone, folder, out)
    (out / "SHA256SUMS").write_text(sums(out), encoding="utf-8")


def write_packages(it, clone, folder, out):
    """Writes the archive, the Debian packages and the wheel."""
    moment = it.time
    out.mkdir(parents=True, exist_ok=True)
    root = f"{NAME}-{it.version}-linux-x86_64"
    (out / f"{root}.tar.gz").write_bytes(tar(archive(it, clone), root, moment))
    for package in debian.packages(it):
        debian.write(out, package, it.version, moment, it.licences)
    write_wheel(it, clone, folder, out)


def write_tried(out, library, programs, folder):
    """Writes packages of the files as they stand, over a library that is built, to be tried and not to be released: nothing is asked of the gate."""
    moment = int(git(TOP, "show", "-s", "--format=%ct", "HEAD"))
    os.environ["SOURCE_DATE_EPOCH"] = str(moment)
    it = built_of(TOP, library, programs, ["These packages are to be tried: nothing is said of what was proved."], moment)
    write_packages(it, TOP, folder, out)
    if shutil.which("cargo"):
        write_crate(it, TOP, folder, out, ["--allow-dirty", "--no-verify"])


def main():
    parser = argparse.ArgumentParser(description=__doc__, formatter_class=argparse.RawDescriptionHelpFormatter)
    parser.add_argument("out", metavar="OUT", type=pathlib.Path, help="a new or an empty folder")
    out = parser.parse_args().out.resolve()
    os.environ["LC_ALL"] = "C.UTF-8"
    stop_unless_clean()
    if out.exists() and any(out.iterdir()):
        sys.exit(f"{out} isn't empty")
    with tempfile.TemporaryDirectory(prefix="release-") as name:
        clone, folder = pathlib.Path(name, "repository"), pathlib.Path(name, "built")
        folder.mkdir()
        git(TOP, "clone", "--quiet", ".", clone)
        if git(clone, "rev-parse", "HEAD") != git(TOP, "rev-parse", "HEAD"):
            sys.exit("the clone has another commit")
        write_release(out, clone, folder)
    print((out / "SHA256SUMS").read_text(encoding="utf-8"), end="")
    return 0


if __name__ == "__main__":
    sys.exit(main())
