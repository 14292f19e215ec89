"""What trials of a program at its worst share: its runs, with calls that fail, and a tally of cases and faults."""

import os
import pathlib
import subprocess
import tempfile

EINTR, EIO, EAGAIN, EPIPE = 4, 5, 11, 32
SECONDS = 120


class Tally:
    """The cases of one heading, and those at fault."""

    def __init__(self):
        self.rows, self.faults = [], []

    def heading(self, name):
        self.name = name
        self.rows.append([name, 0, 0])

    def case(self, label, good, seen=""):
        self.rows[-1][1] += 1
        if not good:
            self.rows[-1][2] += 1
            self.faults.append(f"{self.name}: {label}: {seen}")


class Ended:
    """How a run ended: its status, and what it wrote."""

    def __init__(self, status, out, err):
        self.status, self.out, self.err = status, out, err

    def __repr__(self):
        return f"status {self.status}, {len(self.out)} bytes, {self.err!r}"


def library():
    """The library that makes calls fail, built into a new folder."""
    made = pathlib.Path(tempfile.mkdtemp()) / "faults.so"
    source = pathlib.Path(__file__).with_name("faults.c")
    subprocess.run(["cc", "-O2", "-shared", "-fPIC", "-o", made, source], check=True)
    return made


FAULTS = library()


def run(program, words, given=b"", faults={}, stdin=None, stdout=None, **more):
    """Runs a program on these words and this input."""
    environment = dict(os.environ)
    if faults:
        environment.update({name: str(value) for name, value in faults.items()}, LD_PRELOAD=str(FAULTS))
    source = {"input": given} if stdin is None else {"stdin": stdin}
    try:
        ran = subprocess.run([program, *words], env=environment, stdout=stdout or subprocess.PIPE, stderr=subprocess.PIPE,
                             timeout=SECONDS, **source, **more)
    except subprocess.TimeoutExpired:
        return Ended("none: it did not end", b"", b"")
    return Ended(ran.returncode, ran.stdout or b"", ran.stderr)


def allocations(program, words, given):
    """How many allocations a run makes."""
    told = pathlib.Path(tempfile.mkdtemp()) / "calls"
    run(program, words, given, {"CALLS": told})
    return int(told.read_text())


def tried(count, every):
    """Of the numbers from 1 to the count the first and the last five hundred, and every so many between."""
    return [number for number in range(1, count + 1) if number <= 500 or number > count - 500 or number % every == 0]


def told(tally):
    """Prints the rows and the first faults; the status to end with."""
    for name, cases, faults in tally.rows:
        print(f"{cases:6} cases {faults:4} faults  {name}")
    for fault in tally.faults[:20]:
        print("at fault:", fault)
    print(f"{sum(row[1] for row in tally.rows)} cases, {len(tally.faults)} faults")
    return 1 if tally.faults else 0
