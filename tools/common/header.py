"""What include/x509.h declares: its calls with their parameters, what is said of them and the statuses that they may answer, its structs, and its numbers."""
import dataclasses
import pathlib
import re

TOP = pathlib.Path(__file__).resolve().parents[2]
HEADER = TOP / "include" / "x509.h"
COMMENT = re.compile(r"/\*.*?\*/", re.S)
CONSTANT = re.compile(r"^#define (X509_\w+) +(\(?-?\w+\)?)[ \t]*$", re.M)
# what a comment says last of its calls
ANSWERS = re.compile(r"\bAnswers ([^.]*)\.")


@dataclasses.dataclass(frozen=True)
class Parameter:
    """A parameter or a field: its type without `const` and without the star, whether it is a pointer and to what doesn't change, and of how many it is an array."""

    name: str
    kind: str
    is_pointer: bool
    is_const: bool
    count: int = 0


@dataclasses.dataclass(frozen=True)
class Call:
    name: str
    answer: str
    parameters: tuple[Parameter, ...]
    statuses: tuple[str, ...]  # of its comment's last sentence, Answers ..; of a call that answers no status none
    said: str = ""  # the rest of its comment, in one line; nothing where that is of a whole section


def without_comments(text):
    return COMMENT.sub("", text)


def parameter(text):
    """`const uint8_t *in`, `uint8_t purpose[64]` and the like."""
    found = re.fullmatch(r"(const )?(\w+) (\*?)(\w+)(?:\[(\d+)\])?", " ".join(text.split()))
    if found is None:
        raise ValueError(f"what is the parameter {text!r}?")
    return Parameter(found[4], found[2], found[3] == "*", found[1] is not None, int(found[5] or 0))


def parameters(text):
    return () if text.strip() == "void" else tuple(map(parameter, text.split(",")))


def calls(text=None):
    """The calls in the order of the header. A comment speaks of the prototypes between it and the next one."""
    text = HEADER.read_text(encoding="utf-8") if text is None else text
    found, statuses, said = [], (), ""
    for part in re.finditer(r"/\*.*?\*/|^(\w+) (x509_\w+)\(([^)]*)\);", text, re.S | re.M):
        if part[2] is None:
            comment = " ".join(part[0].removeprefix("/*").removesuffix("*/").replace("\n *", "\n").split())
            told = ANSWERS.search(comment)
            statuses = tuple(told[1].split(", ")) if told else ()
            said = "" if comment.startswith("----") else comment[: told.start() if told else None].strip()
        else:
            found.append(Call(part[2], part[1], parameters(part[3]), statuses, said))
    return found


def structs(text=None):
    """The fields of each struct."""
    text = without_comments(HEADER.read_text(encoding="utf-8") if text is None else text)
    found = re.finditer(r"typedef struct \{([^}]*)\} (\w+);", text)
    return {it[2]: tuple(parameter(field) for field in it[1].split(";") if field.strip()) for it in found}


def constants(text=None):
    """The constants that are numbers, each as it is written, but those of the version."""
    text = without_comments(HEADER.read_text(encoding="utf-8") if text is None else text)
    return {name: number for name, number in CONSTANT.findall(text) if not name.startswith("X509_VERSION")}


def statuses(text=None):
    """The numbers of the statuses, which stand in front of the first comment on profiles."""
    text = HEADER.read_text(encoding="utf-8") if text is None else text
    front = text.split("/* Profiles:", 1)[0]
    return {name: int(number.strip("()")) for name, number in re.findall(r"^#define (X509_\w+) (\(?-?\d+\)?)$", front, re.M)}
