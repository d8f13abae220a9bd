"""Runs that x509_show and x509_linter have to end alike: help and version, files, directories, what is refused, and an output that can't be written.

What is to be printed is stated here by hand, but for the texts that are handed in.
"""
import base64
import os
import pathlib
import shutil
import subprocess
import sys
import tempfile
import tomllib

sys.path.insert(0, str(pathlib.Path(__file__).resolve().parents[1]))
from common.der import context, header_len, integer, object_identifier, octet_string, sequence, set_of

TOP = pathlib.Path(__file__).resolve().parents[2]
DATA, SIGNED_DATA = object_identifier(1, 2, 840, 113549, 1, 7, 1), object_identifier(1, 2, 840, 113549, 1, 7, 2)
NO_END, OTHER_END = "no line ends its PEM", "the line that ends its PEM hasn't the label of the one that begins it"
NO_BASE64 = "what stands in its PEM is no base64"
PEM = {
    b"-----BEGIN CERTIFICATE-----\nMAA\n-----END CERTIFICATE-----\n": NO_BASE64,
    b"-----BEGIN CERTIFICATE-----\nMA A=\n-----END CERTIFICATE-----\n": NO_BASE64,
    b"-----BEGIN CERTIFICATE-----\nMAA=\n-----END X509 CRL-----\n": OTHER_END,
    b"-----BEGIN CERTIFICATE-----\nMAA=\n-----\n": OTHER_END,
    b"-----BEGIN TRUSTED CERTIFICATE-----\n": NO_END,
    b"-----BEGIN X509 CRL-----\nMAA=\n": NO_END,
    b"-----BEGIN CERTIFICATE REQUEST-----\r\n": NO_END,
}
PEM_OF_NOTHING = b"-----BEGIN CERTIFICATE-----\nMAA=\n-----END CERTIFICATE-----\n"
NO_ELEMENT = "; it doesn't begin with an element of DER"
UNFINISHED = "; it begins as a SEQUENCE does, but its length isn't DER, or goes beyond the end"
NO_SEQUENCE = "; the element that it begins with is no SEQUENCE"
WHOLE = "; its SEQUENCE is whole, but "


def unread(path, offset, kind="a certificate"):
    """What is told of a whole SEQUENCE of which a field can't be read."""
    return f"{WHOLE}{path}, at offset {offset}, isn't what {kind} has there"


def unended(path, offset, kind="a certificate"):
    """What is told of a whole SEQUENCE of which a field has octets behind its last one."""
    return f"{WHOLE}behind the last field of {path}, at offset {offset}, stand octets that {kind} hasn't there"


# the empty SEQUENCE
NOTHING = unread("tbsCertificate", 2)
GARBAGE = {
    PEM_OF_NOTHING: NOTHING,
    b"-----BEGIN ": "; it begins as PEM does, but no whole line of it begins an object",
    b"-----BEGIN": NO_ELEMENT,
    b"\xff" * 40: NO_ELEMENT,
    b"\x30\x80\0\0": UNFINISHED,
    b"\x30\x05\x02\x01\x01": UNFINISHED,
    b"\x02\x01\x01": NO_SEQUENCE,
    b"\x30\x03\x02\x01\x01": unread("tbsCertificate", 2),
    b"\x30\x03\x02\x01\x01\0\0": "; behind its SEQUENCE, at offset 5, stand octets that don't belong to it: 2",
    b"no certificate\n": NO_ELEMENT,
    b" -----BEGIN CERTIFICATE-----\n": NO_ELEMENT,
    b"\n" + b"ab" * 20: NO_ELEMENT,
}


def behind(place, count):
    return f"; behind its SEQUENCE, at offset {place}, stand octets that don't belong to it: {count}"


def looks(data, whole=WHOLE):
    """What is told of DER that is no object of its kind: by the octets of its outer element alone (X.690 8.1). Of a whole SEQUENCE it is this."""
    digits = data[1] & 127 if data[1] > 127 else 0
    end = 2 + digits + (int.from_bytes(data[2 : 2 + digits], "big") if digits else data[1])
    if data[0] != 0x30:
        return NO_ELEMENT if end > len(data) else NO_SEQUENCE
    if end > len(data):
        return UNFINISHED
    return behind(end, len(data) - end) if end < len(data) else whole


def pem_of(data):
    """PEM of an object (RFC 7468 2): its base64 in lines, or in one; lines that end otherwise; a text around it; another label."""
    text = base64.b64encode(data).decode()
    lines = "".join(f"{text[at : at + 64]}\n" for at in range(0, len(text), 64))
    for label, body in (("CERTIFICATE", lines), ("X", text + "\n")):
        found = f"-----BEGIN {label}-----\n{body}-----END {label}-----\n"
        ends = (found.replace("\n", end) for end in ("\r\n", "\r", " \t\n", "\n\n"))
        yield from (it.encode() for it in (found, *ends, found.rstrip(), f"Subject: ö\n\n{found}a comment\n"))


def info_of(content, content_type=SIGNED_DATA):
    """A ContentInfo (RFC 5652 3)."""
    return sequence(content_type, context(0, content))


def signed_data(*elements):
    """A SignedData of no signer, and with these elements for its certificates and CRLs (RFC 5652 5.1)."""
    return info_of(sequence(integer(1), set_of(), sequence(DATA), *elements, set_of()))


def version():
    """The version of the package for Rust, which the programs have too."""
    return tomllib.loads((TOP / "bindings/rust/Cargo.toml").read_text(encoding="utf-8"))["package"]["version"]


def ended(program, words, data=b"", stdout=subprocess.PIPE, stderr=subprocess.PIPE):
    """The status of a run, and what it writes to each stream."""
    run = subprocess.run([program, *words], input=data, stdout=stdout, stderr=stderr, check=False)
    return run.returncode, (run.stdout or b"").decode(), (run.stderr or b"").decode()


def counted(program, runs):
    """Prints which of the runs didn't end as stated, each a name, whether it did, and how it ended. The status."""
    count = failed = 0
    for name, is_so, found in runs:
        count += 1
        if not is_so:
            failed += 1
            print(f"failed: {program}, {name}: {found}")
    print(f"{'failed' if failed else 'passed'}: {program}, {count} runs, {failed} of them not as stated")
    return int(failed > 0)


class Program:
    """A program: its file, its name, its line of usage, how it tells that an input is no object, objects with their texts and statuses, and what it tells above
    the usage of an option that is none."""

    def __init__(self, path, usage, no_object, objects, wrong=lambda option: ""):
        self.path, self.name, self.usage, self.no_object, self.objects = path, usage.split()[1], usage, no_object, objects
        self.wrong = wrong

    def told(self, label, reason):
        return 2, "", f"{self.name}: {label}: {reason}\n"

    def itself(self):
        """What the program says of itself."""
        for words in (["--help"], ["--version", "--help"], ["no such file", "--help", "--no-option"]):
            status, out, said = ended(self.path, words)
            yield f"{words}", (status, said) == (0, "") and out.startswith(self.usage + "\n") and out.count("\n") > 8, out
        yield from self.compared(
            [
                ("--version", ["--version"], b"", (0, f"{self.name} {version()}\n", "")),
                ("--version behind a name", ["no such file", "--version"], b"", (0, f"{self.name} {version()}\n", "")),
                ("an option that is none", ["--xml"], b"", (2, "", self.wrong("--xml") + self.usage)),
                ("an option that is none, and a file", ["-x", "no such file"], b"", (2, "", self.wrong("-x") + self.usage)),
                ("help with something behind it", ["--help=all"], b"", (2, "", self.wrong("--help=all") + self.usage)),
            ]
        )

    def compared(self, runs):
        for name, words, data, wanted in runs:
            found = ended(self.path, words, data)
            yield name, found == wanted, f"{found}, and not {wanted}"

    def refused(self):
        """Inputs that are no object."""
        yield "nothing", [], b"", self.told("standard input", f"{self.no_object}; it is empty")
        yield "white space", [], b" \r\n", self.told("standard input", f"{self.no_object}; it is empty")
        for data, reason in PEM.items():
            yield f"PEM {data[:30]}", [], data, self.told("standard input", reason)
        for data, told in GARBAGE.items():
            yield f"garbage {data[:30]}", [], data, self.told("standard input", self.no_object + told)
        for data, _, _ in self.objects:
            yield f"an object of {len(data)} bytes and an octet behind it", [], data + b"\0", self.told("standard input", self.no_object + looks(data + b"\0"))
        yield "an input of 16 MiB", [], b"\1" * 16777216, self.told("standard input", self.no_object + NO_SEQUENCE)
        yield "a longer input", [], b"\1" * 16777217, self.told("standard input", "longer than 16777216 bytes")

    def files(self, folder):
        """Files, one or several, and names that are none."""
        paths = []
        for at, (data, text, status) in enumerate(self.objects):
            path = str(folder / f"{at} ö.der")
            pathlib.Path(path).write_bytes(data)
            paths.append(path)
            for words in ([path], ["--", path], [str(folder / "." / path)]):
                yield f"the file {at}, {len(words)} words", words, b"", (status, text, "")
            yield f"the object {at} on standard input, by name", ["-"], data, (status, text, "")
            for armoured in pem_of(data):
                yield f"the object {at} in PEM, {armoured[:20]}", [], armoured, (status, text, "")
        missing, hidden, strange = str(folder / "no such file"), str(folder / "hidden"), str(folder / "a\nb\x1b[2J")
        yield "no file", [missing], b"", self.told(missing, "no such file")
        yield "a file below a file", [paths[0] + "/x"], b"", self.told(paths[0] + "/x", "can't be opened")
        yield "an empty name", [""], b"", self.told("(an empty name)", "no such file")
        yield "a name that isn't UTF-8", [b"\xff"], b"", self.told("(an empty name)", "no such file")
        yield "a name that could end a line", [strange], b"", self.told("(a name with control characters)", "no such file")
        yield "a name behind --", ["--", "--help"], b"", self.told("--help", "no such file")
        pathlib.Path(hidden).write_bytes(b"")
        os.chmod(hidden, 0)
        if os.geteuid():
            yield "a file that may not be read", [hidden], b"", self.told(hidden, "permission denied")
        if os.path.exists("/proc/self/mem"):
            yield "a file of which a read fails", ["/proc/self/mem"], b"", self.told("/proc/self/mem", "can't be read")
        yield from self.several(paths, missing)
        yield from self.bundles(folder / "chain.pem")
        yield from self.signed(folder)
        yield from self.signed_by_openssl(folder)
        yield from self.directories(folder, paths[0])

    def bundles(self, path):
        """PEM of several objects, each of which is called by its number."""
        pem = [next(pem_of(data)) for data, _, _ in self.objects]
        statuses = [status for _, _, status in self.objects]
        path.write_bytes(b"a comment\n".join(pem))

        def texts(label, first=1):
            return "".join(f"{label}, object {at}:\n{text}" for at, (_, text, _) in enumerate(self.objects, first) if text)

        yield "PEM of several objects", [str(path)], b"", (max(statuses), texts(path), "")
        yield "PEM of several objects on standard input", [], b"".join(pem), (max(statuses), texts("standard input"), "")
        found = texts("standard input", 2)
        for name, data, reason in (
            ("no object", PEM_OF_NOTHING, self.no_object + NOTHING),
            ("an empty object", PEM_OF_NOTHING.replace(b"MAA=\n", b""), f"{self.no_object}; it is empty"),
            ("no base64", PEM_OF_NOTHING.replace(b"MAA=\n", b"MAA\n"), NO_BASE64),
            ("another end", PEM_OF_NOTHING.replace(b"END CERTIFICATE", b"END X"), OTHER_END),
            ("no end", PEM_OF_NOTHING.rpartition(b"-----END")[0], NO_END),
        ):
            said = f"{self.name}: standard input, object 1: {reason}\n"
            yield f"PEM of {name} and several others", [], data + b"".join(pem), (2, found, said)
        said = "".join(f"{self.name}: standard input, object {at}: {self.no_object}{NOTHING}\n" for at in (1, 2))
        yield "PEM of twice no object", [], PEM_OF_NOTHING * 2, (2, "", said)
        ends = (b"\n" + b"a comment\n" * 1_800_000).join(pem)
        yield "PEM of more than 16 MiB", [], ends, (max(statuses), texts("standard input"), "")
        last = len(pem)
        said = f"{self.name}: standard input, object {last}: {OTHER_END}\n"
        shown = "".join(f"standard input, object {at}:\n{text}" for at, (_, text, _) in enumerate(self.objects[:-1], 1) if text)
        yield "PEM of several objects without its last hyphen", [], b"".join(pem).rstrip()[:-1], (2, shown, said)
        first = self.objects[0]
        heading = f"standard input:\n{first[1]}" if first[1] else ""
        yield "PEM of several objects and a file", [str(path), "-"], first[0], (max(statuses), texts(path) + heading, "")

    def numbered(self, label, objects):
        """What is printed of these objects of an input of several."""
        return "".join(f"{label}, object {at}:\n{text}" if text else "" for at, (_, text, _) in enumerate(objects, 1))

    def signed(self, folder):
        """A SignedData, which stands for the certificates and CRLs in it (RFC 5652 5.1)."""
        path, octets, label = folder / "bundle.p7b", [data for data, _, _ in self.objects], "standard input"
        for at, (data, text, status) in enumerate(self.objects):
            for field in (0, 1):
                yield f"a SignedData with the object {at} alone under [{field}]", [], signed_data(context(field, data)), (status, text, "")
        data, text, status = self.objects[0]
        one = signed_data(context(0, data))
        for armoured in pem_of(one):
            yield f"a SignedData with one object in PEM, {armoured[:20]}", [], armoured, (status, text, "")
        yield "a SignedData with one object and an empty field", [], signed_data(context(0, data), context(1)), (status, text, "")
        several = signed_data(context(0, *octets[:-1]), context(1, octets[-1]))
        path.write_bytes(several)
        worst = max(status for _, _, status in self.objects)
        found = (worst, self.numbered(label, self.objects), "")
        yield "a SignedData", [str(path)], b"", (worst, self.numbered(path, self.objects), "")
        yield "a SignedData on standard input", [], several, found
        yield "a SignedData in hex", [], several.hex(":").encode() + b"\n", found
        yield "a SignedData in PEM", [], next(pem_of(several)).replace(b"CERTIFICATE", b"PKCS7"), found
        yield "a SignedData whose objects stand the other way round", [], signed_data(context(0, *octets[::-1])), (worst, self.numbered(label, self.objects[::-1]), "")
        signer = sequence(integer(1), sequence(), sequence(), sequence(), octet_string(b"\xff"))
        full = sequence(integer(3), set_of(sequence(DATA)), sequence(DATA, context(0, octet_string(b"text"))), context(0, *octets), set_of(signer))
        yield "a SignedData with a signer", [], info_of(full), found
        pem = b"".join(next(pem_of(it)) for it in (several, octets[0], one))
        objects = self.objects + self.objects[:1] * 2
        yield "PEM of a SignedData, an object and another SignedData", [], pem, (worst, self.numbered(label, objects), "")
        said = f"{self.name}: {label}, object 2: {self.no_object}{NO_SEQUENCE}\n"
        objects = [self.objects[0], (b"", "", 2), *self.objects[1:]]
        odd = signed_data(context(0, octets[0], context(3, DATA, sequence()), *octets[1:]))
        yield "a SignedData with a certificate in another form", [], odd, (2, self.numbered(label, objects), said)
        said = f"{self.name}: {label}, object 2: {self.no_object}{unread('tbsCertificate', header_len(len(one)))}\n"
        nested = signed_data(context(0, octets[0], one, *octets[1:]))
        yield "a SignedData in a SignedData", [], nested, (2, self.numbered(label, objects), said)
        for name, data, reason in (
            ("without certificates and CRLs", signed_data(), WHOLE),
            ("of no certificates", signed_data(context(0)), WHOLE),
            ("of no certificates and no CRLs", signed_data(context(0), context(1)), WHOLE),
            ("whose last octet is missing", several[:-1], UNFINISHED),
            ("with a certificate whose last octet is missing", signed_data(context(0, octets[0][:-1])), WHOLE),
            ("with an octet behind a certificate", signed_data(context(0, octets[0], b"\0")), WHOLE),
            ("with an octet behind it", one + b"\0", looks(one + b"\0")),
            ("with an octet behind its signers", info_of(sequence(integer(1), set_of(), sequence(DATA), context(0, octets[0]), set_of(), b"\0")), WHOLE),
            ("with its fields in another order", signed_data(context(1, octets[0]), context(0, octets[0])), WHOLE),
            ("with a field that is none", signed_data(context(0, octets[0]), context(2, octets[0])), WHOLE),
            ("without its version", info_of(sequence(set_of(), sequence(DATA), context(0, octets[0]), set_of())), WHOLE),
            ("without its algorithms", info_of(sequence(integer(1), sequence(DATA), context(0, octets[0]), set_of())), WHOLE),
            ("without its content", info_of(sequence(integer(1), set_of(), context(0, octets[0]), set_of())), WHOLE),
            ("without its signers", info_of(sequence(integer(1), set_of(), sequence(DATA), context(0, octets[0]))), WHOLE),
            ("of another content type", sequence(DATA, context(0, sequence(integer(1), set_of(), sequence(DATA), context(0, octets[0]), set_of()))), WHOLE),
            ("under another tag", sequence(SIGNED_DATA, context(1, sequence(integer(1), set_of(), sequence(DATA), context(0, octets[0]), set_of()))), WHOLE),
            ("with something behind its content", sequence(SIGNED_DATA, context(0, sequence(integer(1), set_of(), sequence(DATA), context(0, octets[0]), set_of())), integer(1)), WHOLE),
            ("without the type of its content", sequence(integer(1), set_of(), sequence(DATA), context(0, octets[0]), set_of()), WHOLE),
        ):
            # what stands first in it is no SEQUENCE, and so no signed part
            told = unread("tbsCertificate", header_len(len(data))) if reason == WHOLE else reason
            yield f"a SignedData {name}", [], data, self.told(label, self.no_object + told)
        within = folder / "signed"
        within.mkdir()
        (within / "one.p7c").write_bytes(one)
        (within / "several.p7b").write_bytes(several)
        heading = f"{within}/one.p7c:\n{text}" if text else ""
        yield "a directory with SignedData in it", [str(within)], b"", (worst, heading + self.numbered(within / "several.p7b", self.objects), "")

    def signed_by_openssl(self, folder):
        """PKCS #7 that OpenSSL makes of those among the objects that it takes for certificates and CRLs."""
        if not shutil.which("openssl"):
            return
        certificates, crls, label = folder / "certificates.pem", folder / "crl.pem", "standard input"

        def made(*words):
            return subprocess.run(["openssl", "crl2pkcs7", "-outform", "DER", *words], stdout=subprocess.PIPE, stderr=subprocess.DEVNULL, check=False)

        def is_taken(data):
            certificates.write_bytes(next(pem_of(data)))
            return made("-nocrl", "-certfile", certificates).returncode == 0

        def is_crl(data):
            crls.write_bytes(next(pem_of(data)).replace(b"CERTIFICATE", b"X509 CRL"))
            return made("-in", crls).returncode == 0

        taken = [it for it in self.objects if is_taken(it[0])]
        certificates.write_bytes(b"".join(next(pem_of(data)) for data, _, _ in taken))
        if len(taken) > 1:
            worst = max(status for _, _, status in taken)
            bundle = made("-nocrl", "-certfile", certificates).stdout
            yield "PKCS #7 of OpenSSL", [], bundle, (worst, self.numbered(label, taken), "")
            yield "PKCS #7 of OpenSSL in PEM", [], next(pem_of(bundle)).replace(b"CERTIFICATE", b"PKCS7"), (worst, self.numbered(label, taken), "")
        lists = [it for it in self.objects if is_crl(it[0])]
        for data, text, status in lists[:1]:
            crls.write_bytes(next(pem_of(data)).replace(b"CERTIFICATE", b"X509 CRL"))
            yield "PKCS #7 of OpenSSL with a CRL", [], made("-in", crls).stdout, (status, text, "")
            if taken:
                found = [*taken, (data, text, status)]
                bundle, worst = made("-in", crls, "-certfile", certificates).stdout, max(status for _, _, status in found)
                yield "PKCS #7 of OpenSSL with certificates and a CRL", [], bundle, (worst, self.numbered(label, found), "")

    def several(self, paths, missing):
        data = self.objects[0][0]
        texts = [f"{path}:\n{text}" if text else "" for path, (_, text, _) in zip(paths, self.objects)]
        statuses = [status for _, _, status in self.objects]
        yield "all files", paths, b"", (max(statuses), "".join(texts), "")
        yield "all files, turned round", paths[::-1], b"", (max(statuses), "".join(texts[::-1]), "")
        yield "one twice", [paths[0]] * 2, b"", (statuses[0], texts[0] * 2, "")
        said = f"{self.name}: {missing}: no such file\n"
        yield "one that is missing between two", [paths[0], missing, paths[-1]], b"", (2, texts[0] + texts[-1], said)
        heading = f"standard input:\n{self.objects[0][1]}" if self.objects[0][1] else ""
        yield "a file and standard input", [paths[-1], "-"], data, (max(statuses[-1], statuses[0]), texts[-1] + heading, "")
        again = f"{self.name}: standard input: {self.no_object}; it is empty\n"
        yield "standard input twice", ["-", "-"], data, (2, heading, again)

    def directories(self, folder, other):
        """Directories, which stand for the files in them, and a file outside."""
        data, text, status = self.objects[0]

        def headed(path, text):
            return f"{path}:\n{text}" if text else ""

        def made(name):
            (folder / name).mkdir()
            return folder / name

        full, names = made("full"), ["b.der", "a.der", "B.der", "ä.der", "-"]
        for at, name in enumerate(names):
            (full / name).write_bytes(self.objects[at % len(self.objects)][0])
        found = {name: self.objects[at % len(self.objects)] for at, name in enumerate(names)}
        found = [(name, *found[name][1:]) for name in sorted(names, key=os.fsencode)]
        worst, texts = max(status for _, _, status in found), "".join(headed(full / name, text) for name, text, _ in found)
        yield "a directory of several files", [str(full)], data, (worst, texts, "")
        yield "a directory that ends with a slash", [f"{full}/"], data, (worst, texts, "")
        yield "a directory and standard input", [str(full), "-"], data, (max(worst, status), texts + headed("standard input", text), "")
        empty = made("empty")
        yield "an empty directory", [str(empty)], data, (0, "", "")
        yield "an empty directory and a file", [str(empty), other], b"", (status, headed(other, text), "")
        outer = made("outer")
        (outer / "below").mkdir()
        (outer / "below" / "one").write_bytes(data)
        yield "a directory with a directory alone in it", [str(outer)], data, (0, "", "")
        (outer / "one").write_bytes(data)
        (outer / "inward").symlink_to("below")
        (outer / "aside").symlink_to(other)
        os.mkfifo(outer / "pipe")
        shown = headed(outer / "aside", text) + headed(outer / "one", text)
        yield "a directory with directories, links and a pipe in it", [str(outer)], b"", (status, shown, "")
        yield "a link to a directory", [str(outer / "inward")], b"", (status, headed(outer / "inward" / "one", text), "")
        broken = made("broken")
        (broken / "link").symlink_to("none")
        (broken / "one").write_bytes(data)
        said = f"{self.name}: {broken}/link: no such file\n"
        yield "a directory with a broken link in it", [str(broken)], b"", (2, headed(broken / "one", text), said)
        strange = made("strange")
        (strange / "one").write_bytes(data)
        pathlib.Path(os.fsdecode(os.fsencode(strange) + b"/\xff")).write_bytes(data)
        yield "a directory with a name in it that isn't UTF-8", [str(strange)], b"", (2, headed(strange / "one", text), self.told(strange, "is a directory")[2])
        if os.geteuid():
            hidden = made("no list")
            hidden.chmod(0o300)
            yield "a directory that may not be listed", [str(hidden)], b"", self.told(hidden, "permission denied")
            hidden.chmod(0o700)

    def unwritten(self, folder):
        """An output that takes nothing, and messages that can't be written."""
        data, text, _ = next(it for it in self.objects if it[1])
        path = folder / "full.der"
        path.write_bytes(data)
        with open("/dev/full", "wb") as full:
            for words, said in (
                ([], f"{self.name}: standard input: the output can't be written\n"),
                ([str(path)], f"{self.name}: {path}: the output can't be written\n"),
                ([str(path), "-"], f"{self.name}: {path}: the output can't be written\n{self.name}: standard input: the output can't be written\n"),
                (["--help"], f"{self.name}: the output can't be written\n"),
                (["--version"], f"{self.name}: the output can't be written\n"),
            ):
                found = ended(self.path, words, data, stdout=full)
                yield f"a full output {len(words)} {words[:1]}", found == (2, "", said), found
            for words, wanted in (([], 2), (["--xml"], 2), (["no such file"], 2)):
                found = ended(self.path, words, b"", stderr=full)
                yield f"messages that can't be written {words}", found == (wanted, "", ""), found
                found = ended(self.path, words, data if not words else b"", stdout=full, stderr=full)
                yield f"neither can be written {words}", found == (2, "", ""), found

    def checked(self):
        """For each run a name, whether it ended as stated, and how it ended."""
        with tempfile.TemporaryDirectory() as name:
            folder = pathlib.Path(name)
            yield from self.itself()
            yield from self.compared(self.refused())
            yield from self.compared(self.files(folder))
            yield from self.unwritten(folder)
