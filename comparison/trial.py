"""Runs a changed program, unproved and in a copy, and says whether it was told from the right one.

The kit's `rt try` compiles a program with checks, unproved, and runs it on each of the cases in a folder. A program may
write so many bytes only, so the stored cases are in parts; a few that tell most of the changed programs are a case of
their own. What these leave is the program that calls the libraries as the workbench does not. The interpreter of
`rt try` would not come to the end of as many cases, and is given up at once.
"""
import os
import re
import shutil
import signal
import subprocess
import tempfile
import threading
from pathlib import Path

import reference
from few import few_cases
from groups import grouped
from stored import CALLS_ANSWERS, CASES, EXAMPLE, ROOT, read

NOT_A_PROGRAM, TOLD, SURVIVES = "not a program", "told", "survives"
REFUSED, FAULT, DIFFERS, NO_ANSWER = 1, 4, 5, 6  # what `rt try` ends with
MOST_WRITTEN = 2**20  # bytes that `rt try` lets a program write
SECONDS = 60  # for each run, more than ten times what the right program takes
PATIENCE = 1800  # seconds for all of it, with the compiling


def parts_of_cases():
    """The stored cases in parts that are answered in so many bytes, each of them some groups and for a workbench of its own."""
    by_group, part, written = {}, [], 0
    for (title, _), with_ending in zip(grouped(read(CASES), read(EXAMPLE)), re.findall(rb"[^\n]*\n|[^\n]+", read(CASES))):
        by_group.setdefault(title, []).append(with_ending)
    for group in map(b"".join, by_group.values()):
        size = len(reference.answers_to(group))
        if part and written + size > MOST_WRITTEN * 9 // 10:  # what the lists hold before a group alters an answer or two
            yield b"".join(part)
            part, written = [], 0
        part.append(group)
        written += size
    yield b"".join(part)


class Room:
    """A copy of the code, in a folder of its own, with cases for each of the programs: what goes in, and what has to come out."""

    def __init__(self, folder, programs):
        self.folder, self.programs = folder, programs
        for source in (ROOT / "crates").glob("*/src"):
            shutil.copytree(source, folder / source.relative_to(ROOT))
        shutil.copy(ROOT / "crates.txt", folder)
        for program, cases in programs.items():
            (folder / program).mkdir()
            for name, (given, wanted) in cases.items():
                (folder / program / name).write_bytes(given)
                (folder / program / f"{name}.stdout").write_bytes(wanted)

    def judge(self, changed):
        """What becomes of the programs with these files changed. The code is as it was afterwards."""
        for path, text in changed.items():
            (self.folder / path).write_text(text)
        try:
            return next((verdict for verdict in map(self.run, self.programs) if verdict != SURVIVES), SURVIVES)
        finally:
            for path in changed:
                (self.folder / path).write_text((ROOT / path).read_text())

    def run(self, program):
        """What becomes of a program as it stands in the room. One that doesn't end is told by that."""
        trial = subprocess.Popen(
            ["rt", "try", "--steps", "1", "--seconds", str(SECONDS), "--cases", self.folder / program],
            cwd=self.folder / "crates" / program,
            stdin=subprocess.DEVNULL,
            stdout=subprocess.PIPE,
            stderr=subprocess.STDOUT,
            start_new_session=True,
        )
        try:
            said, _ = trial.communicate(timeout=PATIENCE)
        except subprocess.TimeoutExpired:
            return TOLD
        finally:
            end(trial)
        return self.verdict(program, trial.returncode, said.decode("utf-8", "replace"))

    def verdict(self, program, status, said):
        """A program survives if every case ran to its end, with status 0, and gave what it had to."""
        if status == REFUSED:
            return NOT_A_PROGRAM
        if status in (FAULT, DIFFERS, NO_ANSWER) or re.search(r"^case=\S+ run=no-answer\b", said, re.M):
            return TOLD  # also where the run broke off after a case that did not end
        ran = re.findall(r"^case=(\S+) run=ended status=(\d+) .*\boutput=expected\b", said, re.M)
        if status != 0 or sorted(name for name, _ in ran) != sorted(self.programs[program]):
            raise SystemExit(f"mutation: rt try fails:\n{said}")
        return SURVIVES if all(ended == "0" for _, ended in ran) else TOLD


def end(trial):
    """Ends the trial and whatever it has started."""
    try:
        os.killpg(trial.pid, signal.SIGKILL)
    except ProcessLookupError:
        pass
    trial.wait()


def cases_of_the_workbench():
    """The few cases and all of them in parts, each with what the reference answers."""
    inputs = {"few": few_cases(), **{f"part-{at}": part for at, part in enumerate(parts_of_cases())}}
    return {name: (given, reference.answers_to(given)) for name, given in inputs.items()}


class Rooms:
    """Rooms for as many trials at a time as are wanted."""

    def __init__(self, jobs):
        self.keeper = tempfile.TemporaryDirectory(prefix="mutation-")
        folder = Path(self.keeper.name)
        programs = {"negwafir": cases_of_the_workbench(), "calls": {"all": (b"", read(CALLS_ANSWERS))}}
        self.free = [Room(folder / f"room-{job}", programs) for job in range(jobs)]
        self.lock = threading.Lock()
        if self.free[0].judge({}) != SURVIVES:
            raise SystemExit("mutation: the code as it is does not give the stored answers, so nothing can be told")

    def judge(self, changed):
        with self.lock:
            room = self.free.pop()
        try:
            return room.judge(changed)
        finally:
            with self.lock:
                self.free.append(room)
