#!/usr/bin/env python3
"""Looks whether each file and folder that the pages name is there: of CONTRIBUTING.md by its path from the top of the repository, and at least one in each step of
a recipe; of the other pages by its name, or by the end of its path.

A word in backticks names a file where it has one of the endings below, or a slash behind a folder of the repository. A word with a part in capitals, `NAME` or
`PREFIX/lib`, or with `..` stands for others.
"""
import argparse
import fnmatch
import pathlib
import re
import sys

sys.path.insert(0, str(pathlib.Path(__file__).resolve().parents[1]))
from common.crates import TOP

RECIPES = "CONTRIBUTING.md"
FEWEST = 4
ENDINGS = r"antt|rt|py|pyi|sh|c|h|rs|go|md|txt|edit|in|1"
FILE = re.compile(rf"(?:[\w.*-]+/)*[\w.*-]+\.(?:{ENDINGS})")
STANDS_FOR = re.compile(r"(?:^|[/_.])[A-Z]+(?:[/_.](?!md\b)|$)|\.\.")
# What the pages name and the repository hasn't: the toolchain's pages, what a release or a tool makes, files of a reader's.
OTHERS = {"START.md", "READING.md", "LANGUAGE.md", "CONTRACTS.md", "ANTT.md", "Invariants.antt", "PROVED.md", "testssl.sh"}
LEFT_OUT = {".git", "out", "target", "__pycache__"}


def all_files():
    """The paths of files and folders of the repository, from its top."""
    found, todo = [], [TOP]
    while todo:
        for it in todo.pop().iterdir():
            if it.name not in LEFT_OUT:
                found.append(it.relative_to(TOP).as_posix())
                todo += [it] if it.is_dir() and not it.is_symlink() else []
    return found


def named(text):
    """The files and folders that a text names in backticks; of a command its first word."""
    tops = {it.name for it in TOP.iterdir() if it.is_dir()}
    for quoted in re.findall(r"`([^`\n]+)`", text):
        word = quoted.split(" ")[0].rstrip("/")
        if (FILE.fullmatch(word) or "/" in word and word.split("/")[0] in tops) and not STANDS_FOR.search(word) and word not in OTHERS:
            yield word


def is_there(word, ends, is_whole):
    """Whether the file is there, or one by a pattern: by its whole path, or by the end of a path."""
    if "*" in word:
        return bool(fnmatch.filter(ends, word))
    return (TOP / word).exists() or not is_whole and word in ends


def recipes(text):
    """The steps of each recipe."""
    for part in re.findall(r"^## Recipe \d+: [^\n]*\n(.*?)(?=^## |\Z)", text, re.M | re.S):
        yield re.findall(r"^\d+\. (.*?)(?=^\d+\. |^$|\Z)", part, re.M | re.S)


def pages():
    """The pages but for those that a tool makes of the sources, each with its text."""
    files = [*TOP.glob("*.md"), *(TOP / "docs").glob("*.md"), *TOP.glob("bindings/*/README.md"), TOP / "tools" / "README.md"]
    return {it.relative_to(TOP).as_posix(): it.read_text(encoding="utf-8") for it in sorted(files)}


def main():
    argparse.ArgumentParser(description=__doc__, formatter_class=argparse.RawDescriptionHelpFormatter).parse_args()
    ends = {"/".join(parts[at:]) for parts in (it.split("/") for it in all_files()) for at in range(len(parts))}
    missing, count = [], 0
    for page, text in pages().items():
        words = set(named(text))
        count += len(words)
        missing += [f"{page}: there is no {word}" for word in sorted(words) if not is_there(word, ends, page == RECIPES and "/" in word)]
    told = list(recipes(pages()[RECIPES]))
    missing += [f"{RECIPES}: a step names no file: {step.strip()}" for steps in told for step in steps if not any("/" in it for it in named(step))]
    if len(told) < FEWEST or not all(told):
        missing.append(f"{RECIPES}: {len(told)} recipes with steps, and not {FEWEST}")
    print("\n".join(missing) or f"{count} files and folders that the pages name are there, those of {len(told)} recipes by their whole path")
    return int(bool(missing))


if __name__ == "__main__":
    sys.exit(main())
