"""Runs the program with its allocations counted, and some of them refused (`allocations.c`)."""
import os
import pathlib
import subprocess
import tempfile


class Counted:
    """A program whose allocations are counted."""

    def __init__(self, program):
        self.program = pathlib.Path(program).resolve()
        self.folder = tempfile.TemporaryDirectory(prefix="allocations-")
        self.library = pathlib.Path(self.folder.name, "allocations.so")
        self.counts = pathlib.Path(self.folder.name, "counts")
        source = pathlib.Path(__file__).with_suffix(".c")
        subprocess.run(["cc", "-O2", "-shared", "-fPIC", "-o", self.library, source, "-ldl"], check=True)

    def run(self, words, data, refuse=None):
        """The status, what was printed and said, and what was counted: allocations, most bytes at once, refused ones."""
        env = {**os.environ, "LD_PRELOAD": str(self.library), "COUNTS": str(self.counts)}
        if refuse:
            env["REFUSE"] = refuse
        done = subprocess.run([self.program, *words], input=data, capture_output=True, env=env, timeout=60)
        counted = [int(number) for number in self.counts.read_text(encoding="ascii").split()]
        return done.returncode, done.stdout, done.stderr, counted
