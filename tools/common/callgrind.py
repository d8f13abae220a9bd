"""How many instructions a program takes, by valgrind's callgrind."""
import os
import subprocess


def counted(words, folder, left_out=None, environment=None, given=b""):
    """How many instructions a program takes, and how many of them below the functions whose names `left_out` finds, none of which calls another. Its files
    are put into `folder`, and `given` is what it reads from standard input."""
    out = folder / "callgrind.out"
    asked = ["valgrind", "--tool=callgrind", "--compress-strings=no", f"--callgrind-out-file={out}", *words]
    subprocess.run(asked, check=True, capture_output=True, env={**os.environ, **(environment or {})}, input=given)
    whole, below, callee, is_call = 0, 0, "", False
    with out.open(encoding="utf-8") as lines:
        for line in lines:
            if line.startswith("summary: "):
                whole = int(line.split()[1])
            elif line.startswith("cfn="):
                callee = line[4:].rstrip("\n")
            elif is_call and left_out is not None and left_out.search(callee):
                # the line behind a call: where it stands, and what it takes with all that is called there
                below += int(line.split()[1])
            is_call = line.startswith("calls=")
    return whole, below
