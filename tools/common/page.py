"""The manual page x509(3), made of include/x509.h: its comments as text, its declarations as they stand."""
import re

HEADING = re.compile(r"---- (.*)")
# lines of the header for a compiler alone
FOR_COMPILERS = re.compile(r"^#(?:ifndef|ifdef|endif|include|define X509_H)\b.*\n|^extern \"C\" \{\n|^\}\n(?=#endif)|^\}$\n?", re.M)


def escaped(text):
    """A text as roff prints it."""
    text = text.replace("\\", "\\e").replace("-", "\\-")
    return "".join(f"\\&{line}" if line.startswith((".", "'")) else line for line in text.splitlines(True))


def paragraphs(comment):
    """The paragraphs of a comment, each in a line."""
    lines = [re.sub(r"^ ?\* ?", "", line).rstrip() for line in comment.strip().split("\n")]
    return [" ".join(it.split()) for it in "\n".join(lines).split("\n\n") if it.strip()]


def described(comment):
    """What a comment says, the first line of which may be a heading."""
    for text in paragraphs(comment):
        heading = HEADING.fullmatch(text)
        yield f".SH {escaped(heading[1].upper())}\n" if heading else f".PP\n{escaped(text)}\n"


def declared(code):
    """Declarations as they stand, with the comments within them."""
    text = FOR_COMPILERS.sub("", code).strip("\n")
    return f".PP\n.nf\n{escaped(text)}\n.fi\n" if text.strip() else ""


def split(text):
    """The comments of the header that stand at the beginning of a line, and the code between them, which may have comments behind it."""
    at = 0
    for found in re.finditer(r"^/\*(.*?)\*/[^\S\n]*\n", text, re.S | re.M):
        yield "", text[at : found.start()]
        yield found[1], ""
        at = found.end()
    yield "", text[at:]


def page(header, version, day):
    """The page of a header, with the version and the day."""
    text = header.read_text(encoding="utf-8")
    body = "".join("".join(described(comment)) if comment else declared(code) for comment, code in split(text))
    return (
        f'.TH X509 3 "{day}" "x509-rattle {version}" "X.509 in strict DER"\n'
        ".SH NAME\nx509 \\- X.509 certificates, CRLs, CSRs and trust anchors in strict DER\n"
        ".SH SYNOPSIS\n.nf\n#include <x509.h>\n\ncc main.c $(pkg\\-config \\-\\-cflags \\-\\-libs x509)\n.fi\n"
        f".SH DESCRIPTION\n{body}"
        ".SH SEE ALSO\n.BR x509_show (1),\n.BR x509_linter (1),\n.BR x509_tool (1)\n"
    )
