"""The stored files: which they are and how each is made. The gate runs the program on its stored
standard input and holds what it writes to the stored answers.
"""
import subprocess
import sys
from pathlib import Path

HERE = Path(__file__).resolve().parent
ROOT = HERE.parent
CASES = "crates/negwafir/stdin"
ANSWERS = "crates/negwafir/stdout"
EXAMPLE = "examples/first.txt"
EXAMPLE_ANSWERS = "examples/first.out"
CALLS_ANSWERS = "crates/calls/stdout"
CONTROLLER_ANSWERS = "examples/controller.out"


def read(name):
    return (ROOT / name).read_bytes()


def run(script, data=b""):
    """What a script of this folder writes for an input."""
    return subprocess.run([sys.executable, HERE / script], input=data, stdout=subprocess.PIPE, check=True).stdout


def make():
    """Each stored file's name and what it must hold, made anew."""
    cases = run("cases.py")
    return (
        (CASES, cases),
        (ANSWERS, run("reference.py", cases)),
        (EXAMPLE_ANSWERS, run("reference.py", read(EXAMPLE))),
        (CALLS_ANSWERS, run("calls.py")),
        (CONTROLLER_ANSWERS, run("controller.py")),
    )
