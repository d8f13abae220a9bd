"""CRLs and CSRs that openssl makes, for comparing what is printed of them."""
import pathlib
import subprocess
import tempfile

CONFIG = """
[ca]
default_ca = authority
[authority]
database = index.txt
default_md = sha256
default_crl_days = 30
certificate = authority.pem
private_key = authority.key
[plain]
authorityKeyIdentifier = keyid:always
[named]
authorityKeyIdentifier = keyid:always,issuer:always
issuerAltName = DNS:authority.example,URI:http://authority.example/
[point]
issuingDistributionPoint = critical,@of_users
[of_users]
fullname = URI:http://a.example/users.crl
onlyuser = TRUE
[reasons]
authorityKeyIdentifier = keyid:always
issuingDistributionPoint = critical,@of_reasons
[of_reasons]
fullname = URI:http://a.example/x.crl
indirectCRL = TRUE
onlysomereasons = keyCompromise,CACompromise
[authorities]
issuingDistributionPoint = critical,@of_authorities
[of_authorities]
onlyCA = TRUE
[req]
distinguished_name = name
prompt = no
string_mask = utf8only
[name]
C = DE
O = Beispiel, Söhne & Co
CN = An authority
[authority_certificate]
basicConstraints = critical,CA:TRUE
subjectKeyIdentifier = hash
subjectAltName = DNS:authority.example
[password]
challengePassword = a secret, and more
unstructuredName = An unstructured name
[usages]
subjectAltName = DNS:a.example,IP:192.0.2.7,IP:2001:db8::1,email:x@a.example,URI:http://a.example/
keyUsage = critical,digitalSignature,keyEncipherment
extendedKeyUsage = serverAuth,clientAuth
[constraints]
basicConstraints = critical,CA:TRUE,pathlen:3
keyUsage = critical,keyCertSign,cRLSign
certificatePolicies = 1.2.3.4,2.5.29.32.0
"""
KEYS = {
    "RSA": ["RSA", "-pkeyopt", "rsa_keygen_bits:2048"],
    "P-256": ["EC", "-pkeyopt", "ec_paramgen_curve:P-256"],
    "P-384": ["EC", "-pkeyopt", "ec_paramgen_curve:P-384"],
    "Ed25519": ["ED25519"],
}
REASONS = (
    "",
    ",unspecified",
    ",keyCompromise",
    ",CACompromise",
    ",affiliationChanged",
    ",superseded",
    ",cessationOfOperation",
    ",certificateHold",
    ",removeFromCRL",
    ",keyTime,20251231235959Z",
    ",CAkeyTime,20200229000000Z",
)


def openssl(folder, *words):
    subprocess.run(["openssl", *words], cwd=folder, capture_output=True, check=True)


def entries(count):
    """Revoked certificates, as openssl keeps them: one with each reason in turn."""
    for at in range(count):
        serial = (at * at + 1).to_bytes(4, "big").lstrip(b"\0").hex().upper()
        revoked = f"26{at % 12 + 1:02}{at % 28 + 1:02}020304Z{REASONS[at % len(REASONS)]}"
        yield f"R\t300101000000Z\t{revoked}\t{serial}\tunknown\t/CN={at}\n"


def crls(folder):
    for key in ("RSA", "P-256"):
        openssl(folder, "genpkey", "-algorithm", *KEYS[key], "-out", "authority.key")
        words = ["-key", "authority.key", "-utf8", "-config", "config", "-extensions", "authority_certificate"]
        openssl(folder, "req", "-x509", "-new", *words, "-out", "authority.pem")
        for count, extensions in ((0, None), (11, None), (0, "plain"), (11, "plain"), (300, "named"), (3, "point"), (22, "reasons"), (1, "authorities")):
            (folder / "index.txt").write_text("".join(entries(count)), encoding="ascii")
            words = [] if extensions is None else ["-crlexts", extensions]
            openssl(folder, "ca", "-gencrl", "-config", "config", *words, "-out", "crl.pem")
            openssl(folder, "crl", "-in", "crl.pem", "-outform", "DER", "-out", "crl.der")
            yield f"CRL of {count} with {extensions} under {key}", (folder / "crl.der").read_bytes()


def requests(folder):
    for key, algorithm in KEYS.items():
        openssl(folder, "genpkey", "-algorithm", *algorithm, "-out", "subject.key")
        for extensions in (None, "usages", "constraints"):
            for attributes in ("", "attributes = password\n"):
                (folder / "config").write_text(CONFIG.replace("[req]\n", "[req]\n" + attributes), encoding="utf-8")
                words = [] if extensions is None else ["-reqexts", extensions]
                openssl(folder, "req", "-new", "-key", "subject.key", "-utf8", "-config", "config", *words, "-outform", "DER", "-out", "request.der")
                yield f"CSR with {extensions} and {attributes.strip()} under {key}", (folder / "request.der").read_bytes()


def made(kind):
    """CRLs (`crl`) or CSRs (`req`) of openssl in DER, each with a name."""
    with tempfile.TemporaryDirectory() as name:
        folder = pathlib.Path(name)
        (folder / "config").write_text(CONFIG, encoding="utf-8")
        yield from crls(folder) if kind == "crl" else requests(folder)
