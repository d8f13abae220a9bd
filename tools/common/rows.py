"""The rows of crates/x509_test_rows: each line of `stdin` is a type's name, a profile and the hex of an encoding, and its answer is that line of `stdout`."""
from .crates import TOP

ROWS = TOP / "crates" / "x509_test_rows"
MALFORMED = "refused: Malformed"
# headers of an indefinite length, of lengths that claim too much, and of one cut off
HEADERS = ["30800000", "3084FFFFFFFF", "30850100000000", "3081FF"]


def lines_of(name):
    """The lines of `stdin` or `stdout`. Only a line feed ends one."""
    return (ROWS / name).read_bytes().decode().split("\n")


def vectors():
    """Yields the type and the hex text of each row that is answered by its own bytes, once."""
    seen = set()
    for row, answer in zip(lines_of("stdin"), lines_of("stdout")):
        words = row.split(" ")
        if len(words) == 3 and answer and words[2].upper() == answer and (words[0], answer) not in seen:
            seen.add((words[0], answer))
            yield words[0], answer
