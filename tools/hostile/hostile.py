#!/usr/bin/env python3
"""Tries the built program at its worst: refused memory, failing and short reads and writes, real streams, random lists and
words. Says how many cases there were and which were at fault, and ends with 1 where any was.

    tools/hostile/hostile.py [--lists N] [--jobs N] [--every N]

The program has to be built (bin/scramble). What each case must give is told by the manual: docs/MANUAL.md."""

import argparse
import fcntl
import functools
import itertools
import os
import pathlib
import pty
import random
import signal
import subprocess
import sys
import tempfile
import time
import tty
from concurrent.futures import ThreadPoolExecutor

import trials
from trials import EAGAIN, EINTR, EIO, EPIPE, SECONDS, Ended, Tally, allocations, told, tried

TOP = pathlib.Path(__file__).resolve().parents[2]
sys.dont_write_bytecode = True
sys.path.insert(0, str(TOP / "tools"))
import event_table  # noqa: E402

PROGRAM = TOP / "crates/scramble/out/scramble"
ZEROS = "0" * 64
SHEET = ["sheet", "--seed", ZEROS]
EVENTS = [event.id for event in event_table.EVENTS]
COMPETITION = "".join(f"{event} 2\n" for event in EVENTS).encode()
SMALL = b"clock 1\n"
CHECK = ["check", "--seed", ZEROS]
SEPARATOR = b"=====\n"
NO_MEMORY = b"scramble: out of memory\n"
NOT_READ = b"scramble: input could not be read\n"
NOT_WRITTEN = b"scramble: output could not be written\n"
run = functools.partial(trials.run, PROGRAM)


def rounds_of(sheet):
    """The beginnings of a sheet that end with a round, the empty one first."""
    starts = [place for place in range(len(sheet)) if sheet.startswith(b"Round ", place) and sheet[place - 1:place] in (b"", b"\n")]
    return {sheet[:place] for place in starts} | {b"", sheet}


# ---- refused memory

def refused_memory(tally, pool, every=1):
    """Each allocation refused in turn, from the first to the last, or every so many of a long row: the program answers
    that it is out of memory and has written whole rounds, or none but a sheet's; or it did without."""
    checked = COMPETITION + SEPARATOR + run(SHEET, COMPETITION).out
    for words, given in [([*SHEET, "--workers", "7"], COMPETITION), (["tables", "333"], b""), (["load", "3"], b""), (CHECK, checked)]:
        tally.heading("refused memory: " + " ".join(words).replace(ZEROS, "Z"))
        whole = run(words, given)
        count = allocations(PROGRAM, words, given)
        wanted = rounds_of(whole.out) if words[0] == "sheet" else {b""}

        def refuse(number):
            return number, run(words, given, {"FAIL_ALLOC": number})

        for number, ended in pool.map(refuse, tried(count, every)):
            done = ended.status == 0 and ended.out == whole.out and ended.err == b""
            wants = ended.status == 7 and ended.out in wanted and ended.err == NO_MEMORY
            tally.case(f"allocation {number} of {count}", done or wants, ended)


# ---- failing calls

def failing_calls(tally):
    """Reads and writes of a list of one round that fail in turn, read and written a byte at a time and whole."""
    sheet = run(SHEET, SMALL).out
    lines = sheet.splitlines(keepends=True)
    usage = run(["sheet"]).err
    tally.heading("a read fails")
    for error, number in itertools.product([EIO, EINTR, EAGAIN], range(1, len(SMALL) + 2)):
        ended = run(SHEET, SMALL, {"SHORT": 1, "FAIL_READ": number, "FAIL_WITH": error})
        tally.case(f"read {number}", (ended.status, ended.out, ended.err) == (5, b"", NOT_READ), ended)
    ended = run(SHEET, SMALL, {"SHORT": 1, "FAIL_READ": len(SMALL) + 2})
    tally.case("a read behind the end", (ended.status, ended.out, ended.err) == (0, sheet, b""), ended)
    tally.heading("a write fails")
    for error, number in itertools.product([EIO, EINTR, EPIPE], range(1, len(lines) + 1)):
        ended = run(SHEET, SMALL, {"FAIL_WRITE": number, "FAIL_WITH": error})
        tally.case(f"write {number}", (ended.status, ended.out, ended.err) == (6, b"".join(lines[:number - 1]), NOT_WRITTEN), ended)
    ended = run(SHEET, SMALL, {"FAIL_WRITE": len(lines) + 1})
    tally.case("a write behind the last", (ended.status, ended.out, ended.err) == (0, sheet, b""), ended)
    for number in range(1, len(sheet) + 1):
        ended = run(SHEET, SMALL, {"SHORT": 1, "FAIL_WRITE": number})
        tally.case(f"byte {number}", (ended.status, ended.out, ended.err) == (6, sheet[:number - 1], NOT_WRITTEN), ended)
    tally.heading("a message's write fails")
    for number in range(1, len(usage) + 1):
        ended = run(["sheet"], b"", {"SHORT": 1, "FAIL_ERR": number})
        tally.case(f"byte {number}", (ended.status, ended.out, ended.err) == (2, b"", usage[:number - 1]), ended)


# ---- real streams

def last_read_fails():
    """A terminal that is hung up behind a part of a list."""
    ours, theirs = pty.openpty()
    tty.setraw(theirs)
    os.write(ours, b"clock 1\nclo")
    running = subprocess.Popen([PROGRAM, *SHEET], stdin=theirs, stdout=subprocess.PIPE, stderr=subprocess.PIPE)
    os.close(theirs)
    time.sleep(0.2)
    os.close(ours)
    out, err = running.communicate(timeout=SECONDS)
    return Ended(running.returncode, out, err)


def reader_gone():
    """An output whose reader goes before anything is written."""
    running = subprocess.Popen([PROGRAM, *SHEET], stdin=subprocess.PIPE, stdout=subprocess.PIPE, stderr=subprocess.PIPE,
                               preexec_fn=lambda: signal.signal(signal.SIGPIPE, signal.SIG_DFL))
    running.stdout.close()
    running.stdin.write(b"clock 26\n" * 64)
    running.stdin.close()
    err = running.stderr.read()
    return Ended(running.wait(SECONDS), b"", err)


def stopped_and_going_on(words, given):
    """A run that is stopped and goes on, thrice."""
    running = subprocess.Popen([PROGRAM, *words], stdin=subprocess.PIPE, stdout=subprocess.PIPE, stderr=subprocess.PIPE)
    running.stdin.write(given)
    running.stdin.close()
    running.stdin = None
    for _ in range(3):
        time.sleep(0.1)
        running.send_signal(signal.SIGSTOP)
        time.sleep(0.1)
        running.send_signal(signal.SIGCONT)
    out, err = running.communicate(timeout=SECONDS)
    return Ended(running.returncode, out, err)


def real_streams(tally):
    """The system's own streams at their worst."""
    tally.heading("real streams")
    sheet = run(SHEET, SMALL).out

    def case(label, ended, status, err, out=b""):
        tally.case(label, (ended.status, ended.out, ended.err) == (status, out, err), ended)

    with open("/dev/full", "wb") as full:
        case("a full disk", run(SHEET, SMALL, stdout=full), 6, NOT_WRITTEN)
    case("a closed output", run(SHEET, SMALL, preexec_fn=lambda: os.close(1)), 6, NOT_WRITTEN)
    case("a closed input", run(SHEET, preexec_fn=lambda: os.close(0)), 5, NOT_READ)
    case("a closed output of messages", run(["sheet"], preexec_fn=lambda: os.close(2)), 2, b"")
    with open("/dev/null") as nothing:
        case("an output opened to read alone", run(SHEET, SMALL, stdout=nothing), 6, NOT_WRITTEN)
    folder = os.open("/", os.O_RDONLY)
    case("a folder as input", run(SHEET, stdin=folder), 5, NOT_READ)
    os.close(folder)
    case("an input that fails in the middle", last_read_fails(), 5, NOT_READ)
    ours, theirs = os.pipe()
    fcntl.fcntl(ours, fcntl.F_SETFL, os.O_NONBLOCK)
    case("an input that would wait and may not", run(SHEET, stdin=ours), 5, NOT_READ)
    os.close(ours)
    os.close(theirs)
    ended = reader_gone()
    tally.case("an output whose reader is gone", ended.status in (6, -signal.SIGPIPE), ended)
    with tempfile.TemporaryFile() as zeros:
        zeros.truncate(100_000_000)
        case("100 MB of zeros", run(SHEET, stdin=zeros), 3, b"scramble: list is longer than 4096 bytes\n")
        place = os.lseek(zeros.fileno(), 0, os.SEEK_CUR)
        tally.case("no more of them taken", place <= 4097, place)
    for words in [[b"\xff"], [b"one", b"clock", b"\xc3("], [b"sheet", b"--seed", b"\xed\xa0\x80"]]:
        case(f"words that are no text: {words[-1]}", run(words), 1, b"")
    with_all = run([*SHEET, "--tries", "7"], COMPETITION).out
    for workers in ["1", "7"]:
        ended = stopped_and_going_on([*SHEET, "--tries", "7", "--workers", workers], COMPETITION)
        case(f"stopped and going on, {workers} workers", ended, 0, b"", with_all)


# ---- random lists and words

def random_line(chance):
    """A line of a list, mostly a right one."""
    event = chance.choice([*EVENTS, "clock", "minx", "555", "clock", "777", "666"])
    groups = str(chance.choice([1, 1, 1, 2, 3]))
    words = [event, groups] + ([str(chance.randrange(6))] if chance.random() < 0.2 else [])
    if chance.random() < 0.03:
        words[chance.randrange(len(words))] = chance.choice(["444", "0", "01", "27", "-1", "x", "\u00e9", "\0", "16", "1 1 1", ""])
    blank = chance.choice([" ", "\t", "  ", " \t "])
    return chance.choice(["", "", "", " ", "\t"]) + blank.join(words) + chance.choice(["", "", "", " ", "\t", "\r"])


def random_list(chance):
    """A list of a few lines, some of them empty, and its last maybe without an end."""
    lines = [random_line(chance) if chance.random() < 0.9 else "" for _ in range(chance.randrange(5))]
    if chance.random() < 0.3:
        named = [line + chance.choice(["", ": Final", " :A ", ":", ": " + "x" * 41]) for line in lines]
        lines = [chance.choice(["version 2", "version 2\r", "version 2 "])] + named
    text = "\n".join(lines) + chance.choice(["", "\n", "\r\n"])
    return text.encode() + (b"\xff" if chance.random() < 0.01 else b"")


def random_words(chance):
    """Words of a sheet with its seed, and options of which one may be wrong."""
    seed = "".join(chance.choice("0123456789abcdefABCDEF") for _ in range(64))
    options = [[f"--seed={seed}"] if chance.random() < 0.5 else ["--seed", seed], ["--tries", str(chance.randrange(20))]]
    if chance.random() < 0.3:
        options.append(["--attempts", str(chance.choice([1, 2, 50, 1000000]))])
    if chance.random() < 0.3:
        options.append(["--short", str(chance.choice([1, 2, 50, 1000]))])
    if chance.random() < 0.03:
        options.append([chance.choice(["--", "--help", "-s", "--tries=1", "--seeds", "--attempts=0", "--short=1001", "x", "--attempts"])])
    chance.shuffle(options)
    return ["sheet", *itertools.chain(*options)]


def checked_again(words, given, sheet):
    """A sheet that was written, checked with its list, seed and attempts, and again without its last byte."""
    names = ("--seed", "--attempts")
    options = [word for place, word in enumerate(words) if word.startswith(names) or words[place - 1] in names]
    text = given + (b"" if given.endswith(b"\n") or not given else b"\n") + SEPARATOR + sheet
    whole, cut = run(["check", *options], text), run(["check", *options], text[:-1])
    agrees = (whole.status, whole.out, whole.err) == (0, b"agrees\n", b"")
    return agrees and (not sheet or (cut.status, cut.out) == (9, b""))


def random_runs(tally, pool, count):
    """Random lists and words by 1 worker and by 7, which give the same; and the sheet agrees."""
    tally.heading("random lists and words, by 1 and by 7 workers")
    chance = random.Random(count)
    cases = [(random_words(chance), random_list(chance)) for _ in range(count)]

    def both(case):
        words, given = case
        one, seven = run([*words, "--workers", "1"], given), run([*words, "--workers=7"], given)
        return case, one, seven, one.status != 0 or checked_again(words, given, one.out)

    statuses = {}
    for (words, given), one, seven, agrees in pool.map(both, cases):
        same = (one.status, one.out, one.err) == (seven.status, seven.out, seven.err)
        right = one.status in (0, 2, 3, 4) and (one.err == b"") == (one.status == 0)
        tally.case(f"{words} {given!r}", same and right and agrees, (one, seven, agrees))
        statuses[one.status] = statuses.get(one.status, 0) + 1
    print("statuses of the random runs:", ", ".join(f"{status}: {n}" for status, n in sorted(statuses.items())))


def main():
    """Tries all of it."""
    reader = argparse.ArgumentParser(description=__doc__.splitlines()[0])
    reader.add_argument("--lists", type=int, default=1000, help="how many random lists (1000)")
    reader.add_argument("--every", type=int, default=1,
                        help="of more than a thousand allocations, every so many between the first and the last (1)")
    reader.add_argument("--jobs", type=int, default=os.cpu_count(), help="runs side by side")
    asked = reader.parse_args()
    tally = Tally()
    with ThreadPoolExecutor(asked.jobs) as pool:
        failing_calls(tally)
        real_streams(tally)
        refused_memory(tally, pool, asked.every)
        random_runs(tally, pool, asked.lists)
    return told(tally)


if __name__ == "__main__":
    if not PROGRAM.exists():
        sys.exit("the program isn't built: run bin/scramble first")
    sys.exit(main())
