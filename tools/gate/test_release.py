#!/usr/bin/env python3
"""Makes a release twice, which has to give the same bytes, and installs each part of it: the archive into a folder that is moved then, the Debian packages
into a root directory, the wheel into a fresh virtual environment, and the crate into a fresh project. With nothing of the repository on any path it runs what
README.md says of the install and the whole programs that stand there, the programs, and reads a certificate of the system's store. Then it removes
each part, and nothing may be left. What isn't installed on the machine is left out, with a line that says so.

It is run before a release. With --over it is part of `.ci/run`: it tries packages of the files as they stand, over a library and programs that are built, of
which no more is asked than that they install, run and go.
"""
import argparse
import filecmp
import importlib.util
import os
import pathlib
import re
import shutil
import ssl
import subprocess
import sys
import tempfile

sys.path.insert(0, str(pathlib.Path(__file__).resolve().parents[1]))
sys.dont_write_bytecode = True
from common.interface import listed
from common.version import TOP, version

VERSION = version()
ARCHIVE = f"x509-rattle-{VERSION}-linux-x86_64"
CERTIFICATE = TOP / "examples/data/certificate.der"
STORE = pathlib.Path("/etc/ssl/certs")
# what examples/data/make.py puts into the certificate
LINES = ("subject: CN=www.example.org,O=Beispiel\\, Söhne & Co,C=DE", "not after: 2055-06-07 08:09:10 UTC")
PROGRAMS = "x509_show", "x509_linter", "x509_tool"
# fields of the packages that the root directory is to have, as far as they ask for them
OTHERS = "libc6", "python3"
NAME = ["C", "DE", "O", "Haus, Hof", "CN", "www.example.org"]
SNIPPETS = {"c": "text.c", "cpp": "text.cc", "cmake": "CMakeLists.txt", "python": "text.py"}


class Test:
    """A test, with its folder and what it has found."""

    def __init__(self, release, folder, programs=PROGRAMS):
        self.release, self.folder, self.programs, self.failed = release, folder, programs, 0

    def says(self, name, found, wanted=True):
        if found == wanted:
            print(f"passed: {name}", flush=True)
        else:
            print(f"failed: {name}: {found}, and not {wanted}", flush=True)
            self.failed = 1

    def has(self, program, what):
        if shutil.which(program):
            return True
        print(f"left out, since {program} isn't installed: {what}", flush=True)
        return False

    def ended(self, words, at, path="/usr/bin:/bin", data="", **more):
        """Runs a command with no more in its environment than is given."""
        environment = {"PATH": path, "HOME": str(self.folder / "home"), "LC_ALL": "C.UTF-8", **more}
        return subprocess.run(list(map(str, words)), cwd=at, env=environment, input=data, capture_output=True, text=True, check=False)

    def run(self, name, words, at, **more):
        """Runs a command so, and gives what it prints; None, and a failed test, where it fails."""
        found = self.ended(words, at, **more)
        if found.returncode:
            self.says(name, f"status {found.returncode}\n{found.stdout}{found.stderr}", "status 0")
            return None
        return found.stdout

    def prints(self, name, words, at, **more):
        """Whether a program prints what there is in the certificate."""
        said = self.run(name, words, at, **more)
        if said is not None:
            lines = [it.strip() for it in said.splitlines()]
            self.says(name, [it for it in LINES if it not in lines], [])


# ---- README


def blocks(language):
    """The snippets of README.md in a language."""
    text = (TOP / "README.md").read_text(encoding="utf-8")
    return re.findall(rf"^```{language}\n(.*?)^```$", text, re.S | re.M)


def script(lines, prefix):
    """Commands of README.md, with this prefix."""
    return "set -eu\n" + re.sub(r"\bPREFIX\b", str(prefix), lines)


def write_snippets(folder):
    """Writes the whole programs of README.md, and the certificate."""
    for language, name in SNIPPETS.items():
        (folder / name).write_text(blocks(language)[0], encoding="utf-8")
    shutil.copy(CERTIFICATE, folder / "cert.der")


def write_rust(folder):
    """Writes the program of README.md in Rust, which has a `main`."""
    (folder / "src").mkdir(exist_ok=True)
    (folder / "src/main.rs").write_text(next(it for it in blocks("rust") if "fn main()" in it), encoding="utf-8")
    (folder / "Cargo.toml").write_text('[package]\nname = "text"\nversion = "0.0.0"\nedition = "2021"\n', encoding="utf-8")


# ---- the archive


def tells_names(test, library):
    """The shared library shows the calls of include/abi.txt, and nothing else; its soname is that of the version."""
    said = test.run("names", ["nm", "-D", "--defined-only", library], "/") or ""
    calls = {name.split()[1] for name in listed() if name.startswith("call ")}
    test.says("the shared library shows the calls of include/abi.txt alone", set(re.findall(r" T (\w+)$", said, re.M)) ^ calls, set())
    test.says("and nothing else", len(said.splitlines()), len(calls))
    said = test.run("soname", ["readelf", "-d", library], "/") or ""
    test.says("its soname", re.findall(r"soname: \[(.*)\]", said), [f"libx509.so.{VERSION.major}"])


def try_c(test, at, flags, library, what):
    """The programs of README.md in C and C++, by the flags of pkg-config, over the shared and the static library."""
    for compiler, source in (("cc -std=c11", "text.c"), ("c++ -std=c++17", "text.cc")):
        words = [*compiler.split(), "-Wall", "-Wextra", "-pedantic", "-Werror", source]
        for kind, more in (("shared", ["--libs"]), ("static", None)):
            name = f"{what}: {source}, {kind}"
            said = test.run(name, ["pkg-config", "--cflags", *(more or []), "x509"], at, **flags)
            if said is None or test.run(name, [*words, *said.split(), *([] if more else [library / "libx509.a"]), "-o", "built"], at) is None:
                continue
            loaded = {"LD_LIBRARY_PATH": str(library)} if more else {}
            test.prints(name, ["./built", "cert.der"], at, **loaded)


def try_cmake(test, at, prefix, what):
    if test.has("cmake", f"{what}: CMake"):
        configured = test.run(f"{what}: CMake", ["cmake", "-S", ".", "-B", "build", f"-DCMAKE_PREFIX_PATH={prefix}"], at)
        if configured is not None and test.run(f"{what}: CMake", ["cmake", "--build", "build"], at) is not None:
            test.prints(f"{what}: CMake", ["build/text", "cert.der"], at)
        shutil.rmtree(at / "build", ignore_errors=True)


def words_of(text):
    """The options and commands that a help text lists."""
    return re.findall(r"^  (-{1,2}[\w-]*|[a-z-]+)", text, re.M)


def try_programs(test, folder, pages, at, what):
    for name in PROGRAMS:
        if name not in test.programs:
            print(f"left out, since it isn't built: {what}: {name}", flush=True)
            continue
        test.says(f"{what}: {name} --version", test.run(name, [folder / name, "--version"], at), f"{name} {VERSION}\n")
        text = test.run(name, [folder / name, "--help"], at) or ""
        if pages and test.has("man", f"{what}: manual pages"):
            page = test.run(name, ["man", "--warnings", "-l", f"{pages}/{name}.1"], at, MANWIDTH="200", MAN_KEEP_FORMATTING="") or ""
            test.says(
                f"{what}: the manual page of {name} has each word of its help",
                ([it for it in words_of(text) if it not in page], len(words_of(text)) > 3),
                ([], True),
            )
            test.says(f"{what}: and its version", f"x509-rattle {VERSION}" in page)
    if "x509_show" in test.programs:
        test.prints(f"{what}: x509_show", [folder / "x509_show", "cert.der"], at)
        try_store(test, folder / "x509_show", at, what)
    if "x509_tool" in test.programs:
        try_tool(test, folder, at, what)
    if "x509_linter" in test.programs:
        try_linter(test, folder, at, what)


def try_tool(test, folder, at, what):
    said = test.run("x509_tool", [folder / "x509_tool", "reencode", "oid"], at, data="0603550406\n")
    test.says(f"{what}: x509_tool", said, "0603550406\n")


def try_linter(test, folder, at, what):
    found = test.ended([folder / "x509_linter", "cert.der", "text.c"], at)
    lines = [it for it in found.stdout.splitlines() if it != "cert.der:" and not re.fullmatch(r"certificate: (error|warning) \w+ \(RFC \d+ [\d.]+\)", it)]
    test.says(
        f"{what}: x509_linter",
        (found.returncode, lines, found.stderr),
        (2, [], "x509_linter: text.c: not a certificate, CRL, CSR or trust anchor in DER, PEM or hex; it doesn't begin with an element of DER\n"),
    )


def try_store(test, program, at, what):
    """The program reads a certificate of the system's store, and prints the serial number that openssl prints."""
    found = sorted(it for it in STORE.glob("*.pem") if it.is_file()) if STORE.is_dir() else []
    if not found or not test.has("openssl", f"{what}: a certificate of the store"):
        return
    (at / "store.der").write_bytes(ssl.PEM_cert_to_DER_cert(found[0].read_text(encoding="ascii")))
    serial = (test.run("openssl", ["openssl", "x509", "-in", found[0], "-noout", "-serial"], at) or "").strip().removeprefix("serial=")
    said = test.run(f"{what}: a certificate of the store", [program, "store.der"], at) or ""
    told = [it.replace(":", "") for it in re.findall(r"^ *serial: ([0-9A-F:]+)$", said, re.M)]
    test.says(f"{what}: the serial number of a certificate of the store", [int(it, 16) for it in told], [int(serial, 16)])


# ---- the examples that are shipped


def try_c_examples(test, at, examples, flags, what):
    """Those in C, over the shared library."""
    said = test.run(f"{what}: examples in C", ["pkg-config", "--cflags", "--libs", "x509"], at, **flags)
    crypto = test.ended(["pkg-config", "--cflags", "--libs", "libcrypto"], at).stdout.split()
    if not crypto:
        print(f"left out, since libcrypto with its headers isn't installed: {what}: paths and an authority in C", flush=True)
    if said is None:
        return
    lib = {"LD_LIBRARY_PATH": ":".join(it.removeprefix("-L") for it in said.split() if it.startswith("-L"))}
    for name, more, words in (
        ("show", [], [CERTIFICATE]),
        ("facts", [], [CERTIFICATE]),
        ("name", [], NAME),
        ("authority", crypto, ["made"]),
        ("path", crypto, None),
        ("revoked", crypto, None),
        ("timestamps", crypto, None),
    ):
        if name in ("authority", "path", "revoked", "timestamps") and not crypto:
            continue
        built = ["cc", "-std=c11", "-Wall", "-Wextra", "-Werror", examples / f"c/{name}.c", *said.split(), *more, "-o", name]
        if test.run(f"{what}: examples/c/{name}.c", built, at) is not None and words is not None:
            (at / "made").mkdir(exist_ok=True)
            has_told(test, f"{what}: examples/c/{name}.c", name, [at / name, *words], at, **lib)


def try_python_examples(test, at, examples, python, what, **paths):
    for name, words in (("show", [CERTIFICATE]), ("facts", [CERTIFICATE]), ("name", NAME), ("authority", ["made"])):
        if name == "authority" and test.ended([python, "-c", "import cryptography"], at).returncode:
            print(f"left out, since Python's cryptography isn't installed: {what}: an authority in Python", flush=True)
            continue
        (at / "made").mkdir(exist_ok=True)
        has_told(test, f"{what}: examples/python/{name}.py", name, [python, examples / f"python/{name}.py", *words], at, **paths)


def has_told(test, what, name, words, at, **more):
    """Whether an example ends well and says what it is to say."""
    said = test.run(what, words, at, **more)
    wanted = {"show": LINES[0], "name": "CN=www.example.org,O=Haus\\, Hof,C=DE"}.get(name)
    if said is not None:
        test.says(what, wanted is None or wanted in said.splitlines())


def try_documents(test, folder, parts, what):
    """What the READMEs point to is there."""
    for name in (*(f"examples/{it}" for it in parts), *("OPERATIONS.md",) * ("c" in parts)):
        found = [it for it in folder.glob(f"{name}*") if it.is_file() or any(it.iterdir())]
        test.says(f"{what}: {name} is shipped", len(found) > 0)


def try_header_page(test, page, at, what):
    """The manual page of the header has each call of it."""
    if test.has("man", f"{what}: man 3 x509"):
        said = test.run(f"{what}: man 3 x509", ["man", "--warnings", "-l", page], at, MANWIDTH="200", MAN_KEEP_FORMATTING="") or ""
        calls = {name.split()[1] for name in listed() if name.startswith("call ")}
        test.says(f"{what}: man 3 x509 has each call", sorted(it for it in calls if it not in said), [])


def try_proved(test, prefix):
    """PROVED.md names the commit, and checksums of what stands beside it."""
    text = (prefix / "share/doc/x509-rattle/PROVED.md").read_text(encoding="utf-8")
    commit = subprocess.run(["git", "rev-parse", "HEAD"], cwd=TOP, check=True, capture_output=True, text=True).stdout.strip()
    test.says("PROVED.md has the commit", commit in text)
    test.says("PROVED.md has what the gate printed", re.search(r"^ +[1-9]\d* passed, 0 failed$", text, re.M) is not None)
    sums = re.findall(r"^    ([0-9a-f]{64})  (\S+)$", text, re.M)
    files = {it.name: it for it in prefix.rglob("*") if it.is_file() and not it.is_symlink()}
    told = "".join(f"{digest}  {files[name]}\n" for digest, name in sums if name in files)
    checked = subprocess.run(["sha256sum", "--check", "--quiet"], input=told.encode(), check=False).returncode
    test.says("PROVED.md has the checksums of what was built", (len(sums), checked), (2 + len(PROGRAMS), 0))
    paths = "git ls-files crates/x509_tool | LC_ALL=C sort | xargs sha256sum | sha256sum"
    said = subprocess.run(paths, shell=True, cwd=TOP, check=True, capture_output=True, text=True).stdout.split()[0]
    test.says("PROVED.md has the checksums of the sources", f"| `{said}` |" in text)


def try_archive(test):
    """The archive in a new folder, by the lines of README.md, and in one that has something else, which moves then."""
    at, prefix = test.folder / "archive", test.folder / "prefix"
    at.mkdir()
    (at / "bare").mkdir()
    write_snippets(at / "bare")
    shutil.copy(test.release / f"{ARCHIVE}.tar.gz", at / "bare")
    test.run("README, C, in a folder that isn't there yet", ["bash", "-c", script(blocks("sh")[0], test.folder / "new")], at / "bare")
    (prefix / "lib").mkdir(parents=True)
    (prefix / "lib/other").write_text("")
    write_snippets(at)
    shutil.copy(test.release / f"{ARCHIVE}.tar.gz", at)
    if test.run("README, C", ["bash", "-c", script(blocks("sh")[0], prefix) + "./text cert.der >said\n"], at) is not None:
        test.says("README, C", [it for it in LINES if it not in (at / "said").read_text(encoding="utf-8").splitlines()], [])
    moved = prefix.rename(test.folder / "moved to")
    prefix = moved.rename(test.folder / "moved")
    tells_names(test, prefix / "lib/libx509.so")
    if test.has("pkg-config", "the archive: C and C++"):
        try_c(test, at, {"PKG_CONFIG_PATH": f"{prefix}/lib/pkgconfig"}, prefix / "lib", "the archive")
        said = test.run("version", ["pkg-config", "--modversion", "x509"], at, PKG_CONFIG_PATH=f"{prefix}/lib/pkgconfig")
        test.says("the archive: the version of pkg-config", said, f"{VERSION}\n")
    try_cmake(test, at, prefix, "the archive")
    try_programs(test, prefix / "bin", prefix / "share/man/man1", at, "the archive")
    documents = prefix / "share/doc/x509-rattle"
    try_documents(test, documents, ("c", "python", "rust", "data"), "the archive")
    try_header_page(test, prefix / "share/man/man3/x509.3", at, "the archive")
    if test.has("pkg-config", "the archive: examples in C"):
        try_c_examples(test, at, documents / "examples", {"PKG_CONFIG_PATH": f"{prefix}/lib/pkgconfig"}, "the archive")
    return prefix


def remove_archive(test, prefix):
    """What `tar tf` lists is removed, and only what was there before is left."""
    names = subprocess.run(["tar", "tf", test.release / f"{ARCHIVE}.tar.gz"], check=True, capture_output=True, text=True).stdout.splitlines()
    for name in sorted(names, reverse=True):
        path = prefix / name.removeprefix(ARCHIVE).strip("/")
        if path.is_dir() and not path.is_symlink():
            if not any(path.iterdir()):
                path.rmdir()
        else:
            path.unlink()
    test.says("the archive, removed, leaves what was there", [it.relative_to(prefix).as_posix() for it in sorted(prefix.rglob("*"))], ["lib", "lib/other"])


# ---- the crate


def try_crate(test, prefix):
    if not test.has("cargo", "the crate"):
        return
    tools = {"path": f"{pathlib.Path(shutil.which('cargo')).parent}:/usr/bin:/bin"}
    # where rustup is told of its toolchains and cargo of its store
    tools |= {name: os.environ.get(name, str(pathlib.Path.home() / folder)) for name, folder in (("RUSTUP_HOME", ".rustup"), ("CARGO_HOME", ".cargo"))}
    for name, lines, more in (
        ("README, Rust", script(blocks("sh")[1], prefix), {}),
        ("Rust, by pkg-config", script(blocks("sh")[1], prefix).replace("X509_LIBRARY=", "OTHER="), {"PKG_CONFIG_PATH": f"{prefix}/lib/pkgconfig"}),
    ):
        at = test.folder / name
        at.mkdir()
        write_rust(at)
        shutil.copy(test.release / f"x509-rattle-{VERSION}.crate", at)
        shutil.copy(CERTIFICATE, at / "cert.der")
        if test.run(name, ["bash", "-c", lines], at, **tools, **more) is not None:
            test.prints(name, ["target/debug/text", "cert.der"], at)
    for name in ("LICENSE-APACHE", "LICENSE-MIT"):
        test.says(f"the crate has {name}", filecmp.cmp(at / f"x509-rattle-{VERSION}" / name, TOP / name, shallow=False))


# ---- the wheel


def listing(folder):
    """What is below a folder, but what an interpreter or pip leaves of its own."""
    return {it.relative_to(folder).as_posix() for it in folder.rglob("*") if "__pycache__" not in it.parts}


def try_wheel(test):
    at = test.folder / "wheel"
    venv = at / "venv"
    at.mkdir()
    write_snippets(at)
    (wheel,) = test.release.glob("*.whl")
    shutil.copy(wheel, at)
    tools = {"path": f"{pathlib.Path(sys.executable).parent}:/usr/bin:/bin", "PIP_NO_INDEX": "1", "PIP_DISABLE_PIP_VERSION_CHECK": "1"}
    first, _, others = blocks("sh")[2].partition("\n")
    if test.run("README, a virtual environment", ["bash", "-c", first], at, **tools) is None:
        return
    before = listing(venv)
    said = test.run("README, Python", ["bash", "-c", "set -eu\n" + others], at, **tools)
    test.says("README, Python", [it for it in LINES if it not in (said or "").splitlines()], [])
    for name in ("LICENSE-APACHE", "LICENSE-MIT"):
        found = next(venv.glob(f"lib/python*/site-packages/x509_cert-{VERSION}.dist-info/licenses/{name}"), None)
        test.says(f"the wheel has {name}", found is not None and filecmp.cmp(found, TOP / name, shallow=False))
    asked = "import x509_cert._library as it; print(it.library_version(), it._library()._name)"
    carried = next(venv.glob("lib/python*/site-packages/x509_cert/libx509.so"), None)
    metadata = next(venv.glob("lib/python*/site-packages/x509_cert-*.dist-info/METADATA"), None)
    test.says("the wheel says which cryptography", metadata is not None and 'cryptography>=38; extra == "cryptography"' in metadata.read_text(encoding="utf-8"))
    said = test.run("the wheel", [venv / "bin/python", "-c", "import x509_cert; print(x509_cert.__version__)"], at)
    test.says("the wheel says its version", said, f"{VERSION}\n")
    test.says("the wheel carries its library", test.run("the wheel", [venv / "bin/python", "-c", asked], at), f"{VERSION.numbers()} {carried}\n")
    test.run("the wheel, removed", [venv / "bin/python", "-m", "pip", "uninstall", "-q", "-y", "x509-cert"], at)
    test.says("the wheel, removed, leaves nothing", listing(venv) - before, set())


# ---- the Debian packages


def root_directory(test):
    """A root directory for dpkg, which holds the packages for installed that the others ask for, and has the files of none."""
    root = test.folder / "root"
    for name in ("info", "updates", "triggers"):
        (root / "var/lib/dpkg" / name).mkdir(parents=True)
    said = subprocess.run(["dpkg-query", "--status", *OTHERS], check=False, capture_output=True, text=True).stdout
    kept = [
        it
        for it in said.splitlines()
        if it.startswith(("Package:", "Status:", "Architecture:", "Multi-Arch:", "Version:", "Maintainer:", "Description:")) or not it
    ]
    (root / "var/lib/dpkg/status").write_text("\n".join([*kept, ""]), encoding="utf-8")
    for name in OTHERS:
        (root / f"var/lib/dpkg/info/{name}.list").write_text("", encoding="utf-8")
    return root


def dpkg(test, root, *words):
    # a script of a package knows the root directory by DPKG_ROOT; there is no shell in it
    own = ["dpkg", f"--root={root}", "--force-script-chrootless", f"--log={test.folder}/dpkg.log", *map(str, words)]
    return test.run("dpkg", own, test.folder, path="/usr/sbin:/usr/bin:/sbin:/bin")


def install_packages(test, root, files):
    """Installs the packages by dpkg, where this runs as root, and else takes them apart."""
    if os.geteuid() == 0:
        return dpkg(test, root, "--install", *files) is not None
    print("left out, since this doesn't run as root: dpkg --install; the packages are taken apart by dpkg-deb -x", flush=True)
    return all(test.run("dpkg-deb", ["dpkg-deb", "-x", it, root], test.folder) is not None for it in files)


def try_packages(test):
    files = sorted(test.release.glob("*.deb"))
    test.says("four packages", len(files), 4)
    if not test.has("dpkg", "the Debian packages"):
        return
    if test.has("lintian", "its answers to the Debian packages"):
        test.says("lintian", test.run("lintian", ["lintian", "--allow-root", "--fail-on", "error,warning", *files], "/"), "")
    root, at = root_directory(test), test.folder / "packages"
    at.mkdir()
    write_snippets(at)
    before = listing(root)
    if not install_packages(test, root, files):
        return
    library = root / "usr/lib/x86_64-linux-gnu"
    if test.has("pkg-config", "the packages: C and C++"):
        try_c(test, at, {"PKG_CONFIG_SYSROOT_DIR": str(root), "PKG_CONFIG_LIBDIR": f"{library}/pkgconfig"}, library, "the packages")
    try_cmake(test, at, root / "usr", "the packages")
    try_programs(test, root / "usr/bin", None, at, "the packages")
    python = "/usr/bin/python3" if os.path.exists("/usr/bin/python3") else sys.executable
    paths = {"PYTHONPATH": f"{root}/usr/lib/python3/dist-packages", "LD_LIBRARY_PATH": str(library)}
    test.prints("the packages: Python", [python, "text.py", "cert.der"], at, **paths)
    of_c, of_python = (root / f"usr/share/doc/{name}" for name in ("libx509-rattle-dev", "python3-x509-rattle"))
    try_documents(test, of_c, ("c", "data"), "the packages")
    try_documents(test, of_python, ("python", "data"), "the packages")
    try_header_page(test, root / "usr/share/man/man3/x509.3.gz", at, "the packages")
    try_python_examples(test, at, of_python / "examples", python, "the packages", **paths)
    fields = test.run("Suggests", ["dpkg-deb", "--field", next(it for it in files if it.name.startswith("python3-")), "Suggests"], at)
    test.says("the package for Python says which cryptography", (fields or "").startswith("python3-cryptography"))
    if os.geteuid() == 0:
        names = [it.name.split("_")[0] for it in files]
        dpkg(test, root, "--purge", *names)
        left = [it for it in listing(root) - before if not it.startswith("var/lib/dpkg/")]
        test.says("the packages, removed, leave nothing", left, [])
        test.says("and dpkg knows no more of them", [it for it in names if list((root / "var/lib/dpkg/info").glob(f"{it}*"))], [])


# ---- what is refused


def try_refusals(test):
    """A tree that isn't committed, and one in which a crate was changed, are refused."""
    if not test.has("rt", "what make_release.py refuses"):
        return
    clone, out = test.folder / "changed", test.folder / "refused"
    git = lambda *words: subprocess.run(
        ["git", "-c", "user.name=test", "-c", "user.email=test@example.org", *map(str, words)], cwd=clone, check=True, capture_output=True
    )
    subprocess.run(["git", "clone", "--quiet", TOP, clone], check=True)
    source = clone / "crates/x509_prim/src/lib.rt"
    source.write_text(source.read_text(encoding="utf-8") + "// changed\n", encoding="utf-8")
    for name, wanted in (("changes that aren't committed", "crates/x509_prim/src/lib.rt"), ("a crate that was changed", "x509_prim: its proofs")):
        found = subprocess.run([sys.executable, clone / "tools/build/make_release.py", out], check=False, capture_output=True, text=True)
        test.says(f"refused: {name}", (found.returncode, wanted in found.stderr, out.exists() and any(out.iterdir())), (1, True, False))
        git("commit", "--quiet", "--all", "--allow-empty", "--message", "changed")


# ---- the release


def make(out):
    subprocess.run([sys.executable, TOP / "tools/build/make_release.py", out], check=True, stdout=subprocess.DEVNULL)
    return out


def compare(test, one, other):
    """Two makes of the release have the same bytes, and SHA256SUMS is right."""
    names = sorted(it.name for it in one.iterdir())
    same, _, _ = filecmp.cmpfiles(one, other, names, shallow=False)
    test.says("two makes give the same bytes", (sorted(same), sorted(it.name for it in other.iterdir())), (names, names))
    test.says("SHA256SUMS", test.run("SHA256SUMS", ["sha256sum", "--check", "--quiet", "SHA256SUMS"], one), "")
    listed_names = [line.split()[1] for line in (one / "SHA256SUMS").read_text(encoding="utf-8").splitlines()]
    test.says("SHA256SUMS has each file", [*listed_names, "SHA256SUMS"], [*(it for it in names if it != "SHA256SUMS"), "SHA256SUMS"])


def load_maker():
    """The module that makes releases."""
    spec = importlib.util.spec_from_file_location("make_release", TOP / "tools/build/make_release.py")
    maker = importlib.util.module_from_spec(spec)
    sys.modules["make_release"] = maker
    spec.loader.exec_module(maker)
    return maker


def merged(library, folder):
    """libx509.a and the shared library of what link_c_library.sh has put into a folder."""
    for name in ("libx509_c.a", "liblibc_c.a"):
        shutil.copy(library / name, folder)
    subprocess.run([TOP / "tools/build/link_shared.sh", folder, str(VERSION)], check=True)
    return folder / "libx509.a", folder / f"libx509.so.{VERSION}"


def try_over(library, folder):
    """Packages over the library of a folder, and the programs that are built."""
    built, out = folder / "built", folder / "tried"
    built.mkdir()
    programs = [it for it in (TOP / "crates" / name / "out" / name for name in PROGRAMS) if it.is_file()]
    maker = load_maker()
    maker.write_tried(out, maker.stripped_library(*merged(library, built)), maker.stripped_programs(programs, built), built)
    test = Test(out, folder, [it.name for it in programs])
    prefix = try_archive(test)
    if list(out.glob("*.crate")):
        try_crate(test, prefix)
    try_wheel(test)
    try_packages(test)
    remove_archive(test, prefix)
    return test.failed


def main():
    parser = argparse.ArgumentParser(description=__doc__, formatter_class=argparse.RawDescriptionHelpFormatter)
    parser.add_argument(
        "releases", metavar="FOLDER", nargs="*", type=pathlib.Path, help="one or two folders that make_release.py has made of this commit, in place of new ones"
    )
    parser.add_argument("--over", metavar="LIBRARY", type=pathlib.Path, help="try packages over the library in this folder, which link_c_library.sh has put there")
    words = parser.parse_args()
    if words.over:
        with tempfile.TemporaryDirectory(prefix="test-release-") as name:
            folder = pathlib.Path(name).resolve()
            (folder / "home").mkdir()
            return try_over(words.over.resolve(), folder)
    asked = [it.resolve() for it in words.releases]
    with tempfile.TemporaryDirectory(prefix="test-release-") as name:
        folder = pathlib.Path(name).resolve()
        (folder / "home").mkdir()
        made = [*asked[:2], *(make(folder / f"release {at}") for at in range(2 - len(asked[:2])))]
        test = Test(made[0], folder)
        compare(test, *made)
        try_refusals(test)
        prefix = try_archive(test)
        try_proved(test, prefix)
        try_crate(test, prefix)
        try_wheel(test)
        try_packages(test)
        remove_archive(test, prefix)
    return test.failed


if __name__ == "__main__":
    sys.exit(main())
