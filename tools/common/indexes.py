"""Pages whose end a tool makes: what stands behind the line that names the tool."""
import argparse
import pathlib
import re
import sys
import textwrap

from .crates import TOP

WIDTH = 160


def listed(text):
    """The lines of an entry of a list, none of whose words in backticks is broken."""
    whole = re.sub(r"`[^`]*`", lambda found: found[0].replace(" ", "\0"), f"- {text}")
    return textwrap.fill(whole, WIDTH, subsequent_indent="  ", break_long_words=False, break_on_hyphens=False).replace("\0", " ").split("\n")


def put(description, page, made):
    """Puts lines behind the line of the page that names the tool, or compares them with `--check`; `made` gives these, and what they have. The status."""
    parser = argparse.ArgumentParser(description=description, formatter_class=argparse.RawDescriptionHelpFormatter)
    parser.add_argument("--check", action="store_true", help=f"compares {page}, and writes nothing")
    is_check = parser.parse_args().check
    tool = f"tools/gate/{pathlib.Path(sys.argv[0]).name}"
    file = TOP / page
    text = file.read_text(encoding="utf-8")
    front, mark, _ = text.partition(f"<!-- {tool} makes what follows -->\n")
    lines, told = made()
    wanted = front + mark + "".join(f"{it}\n" for it in lines)
    said = "" if mark else f"{page} has no line that names {tool}"
    if mark and not is_check:
        file.write_text(wanted, encoding="utf-8")
    elif mark and text != wanted:
        said = f"{page} isn't what {tool} makes"
    print(f"failed: {said}" if said else f"passed: {page}, {told}")
    return int(bool(said))
