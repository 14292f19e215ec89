#!/usr/bin/env python3
"""Tries the built programs beside the first one, scramble-pages and scramble-wcif, at their worst: refused memory, failing and
short reads and writes, real streams, and spoilt sheets and files. Says how many cases there were and which were at fault, and
ends with 1 where any was.

    tools/hostile/beside.py [--spoilt N] [--jobs N]

The three programs have to be built (bin/scramble, bin/pages, bin/scramble-wcif)."""

import argparse
import html
import itertools
import json
import os
import pathlib
import random
import re
import sys
import tempfile
from concurrent.futures import ThreadPoolExecutor

from trials import EAGAIN, EINTR, EIO, EPIPE, Tally, allocations, run, told, tried

TOP = pathlib.Path(__file__).resolve().parents[2]
SCRAMBLE, PAGES, WCIF = (TOP / f"crates/{name}/out/{name}" for name in ("scramble", "scramble_pages", "scramble_wcif"))
ZEROS = "0" * 64
MOST = 67_108_864
SEPARATOR = b"\n=====\n"


def sheet_of(listed):
    """The sheet of a list."""
    return run(SCRAMBLE, ["sheet", "--seed", ZEROS, "--tries", "0"], listed).out


def file_of(events):
    """A competition's file with a round of so many groups for each of these events."""
    rounds = [{"id": event, "rounds": [{"id": f"{event}-r1", "scrambleSetCount": groups}]} for event, groups in events]
    return json.dumps({"name": "Spo\u00eflt \"Open\" 2026", "events": rounds, "persons": [], "extensions": [1.5e3, None]}).encode()


def runs():
    """Each program by each of its main words, with an input of some size and a small one: name, program, words, both."""
    every = [("222", 1), ("333", 2), ("sq1", 1), ("clock", 1), ("minx", 1), ("777", 1), ("333fm", 1), ("pyram", 1)]
    listed = "".join(f"{event} {groups}\n" for event, groups in every).encode()
    sheet, small = sheet_of(listed), sheet_of(b"clock 1\n")
    whole, one = file_of(every), file_of([("clock", 1)])
    return [
        ("scramble-pages", PAGES, ["--name", "A & B"], sheet, small),
        ("scramble-pages", PAGES, ["--html", "--name", "A & B"], sheet, small),
        ("scramble-wcif", WCIF, ["list"], whole, one),
        ("scramble-wcif", WCIF, ["fill"], whole + SEPARATOR + sheet, one + SEPARATOR + small),
    ]


def line(name, text):
    """A message."""
    return f"{name}: {text}\n".encode()


# ---- memory and calls that fail

def refused_memory(tally, pool, name, program, words, given):
    """Each allocation refused in turn: want of memory is told, and what was written is a first part; or it did without."""
    tally.heading(f"{name} {' '.join(words)}: refused memory")
    whole, count = run(program, words, given), allocations(program, words, given)
    tally.case("with ample memory", whole.status == 0 and whole.out and not whole.err, whole)

    def refuse(number):
        return number, run(program, words, given, {"FAIL_ALLOC": number})

    for number, ended in pool.map(refuse, tried(count, 10)):
        done = (ended.status, ended.out, ended.err) == (0, whole.out, whole.err)
        wants = ended.status == 7 and whole.out.startswith(ended.out) and ended.err == line(name, "out of memory")
        tally.case(f"allocation {number} of {count}", done or wants, ended)


def failing_calls(tally, pool, name, program, words, given):
    """Reads, writes and writes of a message that fail in turn, a byte at a time and whole."""
    whole = run(program, words, given)

    def ended_by(faults, status, out, err):
        """Whether a run with such faults ends so."""
        def case(fault):
            ended = run(program, *((["--what"], b"") if "FAIL_ERR" in fault else (words, given)), fault)
            written = out(fault) if callable(out) else out
            said = err(fault) if callable(err) else err
            return fault, (ended.status, ended.out, ended.err) == (status, written, said), ended
        for fault, good, ended in pool.map(case, faults):
            tally.case(str(fault), good, ended)

    tally.heading(f"{name} {' '.join(words)}: a read fails")
    places = [*range(1, 40), *range(40, len(given) + 2, 97), len(given) + 1]
    reads = [{"SHORT": 1, "FAIL_READ": place, "FAIL_WITH": error} for error, place in itertools.product([EIO, EINTR, EAGAIN], places)]
    ended_by(reads, 5, b"", line(name, "input could not be read"))
    tally.heading(f"{name} {' '.join(words)}: a write fails")
    most = len(whole.out)
    places = [*range(1, min(60, most)), *range(60, most, 1 + most // 300), most]
    writes = [{"SHORT": 1, "FAIL_WRITE": place, "FAIL_WITH": error} for error, place in itertools.product([EIO, EPIPE], places)]
    ended_by(writes, 6, lambda fault: whole.out[:fault["FAIL_WRITE"] - 1], line(name, "output could not be written"))
    usage = run(program, ["--what"]).err
    tally.heading(f"{name}: a message's write fails")
    messages = [{"SHORT": 1, "FAIL_ERR": place} for place in range(1, len(usage) + 1)]
    ended_by(messages, 2, b"", lambda fault: usage[:fault["FAIL_ERR"] - 1])


def real_streams(tally, name, program, words, given):
    """The system's own streams at their worst."""
    tally.heading(f"{name} {' '.join(words)}: real streams")
    not_read, not_written = line(name, "input could not be read"), line(name, "output could not be written")

    def case(label, ended, status, err, out=b""):
        tally.case(label, (ended.status, ended.out, ended.err) == (status, out, err), ended)

    with open("/dev/full", "wb") as full:
        case("a full disk", run(program, words, given, stdout=full), 6, not_written)
    case("a closed output", run(program, words, given, preexec_fn=lambda: os.close(1)), 6, not_written)
    case("a closed input", run(program, words, preexec_fn=lambda: os.close(0)), 5, not_read)
    case("a closed output of messages", run(program, ["--what"], preexec_fn=lambda: os.close(2)), 2, b"")
    with open("/dev/null") as nothing:
        case("an output opened to read alone", run(program, words, given, stdout=nothing), 6, not_written)
    folder = os.open("/", os.O_RDONLY)
    case("a folder as input", run(program, words, stdin=folder), 5, not_read)
    os.close(folder)
    with tempfile.TemporaryFile() as zeros:
        zeros.truncate(4 * MOST)
        case("256 MB of zeros", run(program, words, stdin=zeros), 3, line(name, f"input is longer than {MOST} bytes"))
        place = os.lseek(zeros.fileno(), 0, os.SEEK_CUR)
        tally.case("no more of them taken than a block too many", place <= MOST + 65536, place)
    for bad in [[b"\xff"], [*words, b"\xc3("]]:
        case(f"words that are no text: {bad[-1]}", run(program, bad), 1, b"")


# ---- spoilt inputs

def spoilt(chance, text):
    """A text with one thing changed, and the place up to which it is as before."""
    place, way = chance.randrange(len(text)), chance.randrange(8)
    other = bytes([chance.choice([chance.randrange(256), *b'\n .,"{}[]:\\0123456789ABURFDLB\'w/()-+'])])
    lines = text.splitlines(keepends=True)
    if way == 0:
        return text[:place] + other + text[place + 1:]
    if way == 1:
        return text[:place] + other + text[place:]
    if way == 2:
        return text[:place] + text[place + 1:]
    if way == 3:
        return text[:place]
    if way == 4:
        return text[:place] + text[place:place + 40] + text[place:]
    one, two = sorted((chance.randrange(len(lines)), chance.randrange(len(lines))))
    if way == 5:
        lines[one], lines[two] = lines[two], lines[one]
    elif way == 6:
        del lines[one]
    else:
        lines.insert(one, lines[two])
    return b"".join(lines)


def words_of(pages):
    """The words of pages in HTML, in order."""
    return [html.unescape(word) for word in re.findall(r'<span class="word"[^>]*>([^<]*)</span>', pages)]


def sheet_words(sheet):
    """The words of a sheet's scrambles, in order."""
    scrambles = re.findall(r"(?m)^(?:\d|E\d)\. (.*)$", sheet)
    return [word for scramble in scrambles for word in scramble.split()]


def spoilt_sheets(tally, pool, count, sheet):
    """Spoilt sheets: refused at a line that isn't before what was changed, or taken, with each word on its page."""
    tally.heading("scramble-pages --html: spoilt sheets")
    chance = random.Random(count)
    statuses = {}

    def case(text):
        return text, run(PAGES, ["--html"], text)

    for text, ended in pool.map(case, [spoilt(chance, sheet) for _ in range(count)]):
        same = len(os.path.commonprefix([sheet, text]))
        first = text[:same].count(b"\n") + 1
        at = re.fullmatch(rb"scramble-pages: line (\d+): [^\n]+\n", ended.err)
        refused = ended.status in (3, 10) and ended.out == b"" and at and int(at[1]) >= first - (same == len(text))
        taken = ended.status == 0 and ended.err == b"" and words_of(ended.out.decode()) == sheet_words(text.decode())
        tally.case(repr(text[max(0, same - 40):same + 40]), refused or taken, ended)
        statuses[ended.status] = statuses.get(ended.status, 0) + 1
    print("statuses of the spoilt sheets:", ", ".join(f"{status}: {n}" for status, n in sorted(statuses.items())))


def once(pairs):
    """An object, which has each key once."""
    if len({key for key, _ in pairs}) < len(pairs):
        raise ValueError("a key twice")
    return dict(pairs)


def no_constant(word):
    raise ValueError(word)


def read(text):
    """What a text is in JSON by another reader, or None."""
    try:
        return json.loads(text.decode(), object_pairs_hook=once, parse_constant=no_constant, parse_float=str, parse_int=str)
    except (ValueError, RecursionError):
        return None


def without_sets(value):
    """A competition's file without the sets of its rounds."""
    for event in value["events"]:
        for of_event in event["rounds"]:
            of_event.pop("scrambleSets", None)
    return value


def spoilt_files(tally, pool, count, given):
    """Spoilt files: refused with one line and nothing written; or another reader of JSON takes them too, and what `fill`
    gives is the same but for its sets."""
    chance = random.Random(count)
    whole, sheet = given.split(SEPARATOR)
    statuses = {}

    def case(text):
        return text, run(WCIF, ["list"], text), run(WCIF, ["fill"], text + SEPARATOR + sheet)

    tally.heading("scramble-wcif list and fill: spoilt files")
    for text, listed, filled in pool.map(case, [spoilt(chance, whole) for _ in range(count)]):
        value = read(text)
        for ended in (listed, filled):
            one_line = re.fullmatch(rb"scramble-wcif: [^\n]+\n", ended.err)
            refused = ended.status == 3 and ended.out == b"" and one_line
            tally.case(repr(text), refused or ended.status == 0 and value is not None, ended)
            statuses[ended.status] = statuses.get(ended.status, 0) + 1
        if filled.status == 0 and value is not None:
            tally.case(repr(text), without_sets(read(filled.out)) == without_sets(value), filled)
        if value is None:
            tally.case(repr(text), listed.status == filled.status == 3, (listed, filled))
    print("statuses of the spoilt files:", ", ".join(f"{status}: {n}" for status, n in sorted(statuses.items())))


def main():
    """Tries all of it."""
    reader = argparse.ArgumentParser(description=__doc__.splitlines()[0])
    reader.add_argument("--spoilt", type=int, default=2000, help="how many spoilt sheets, and files (2000)")
    reader.add_argument("--jobs", type=int, default=os.cpu_count(), help="runs side by side")
    asked = reader.parse_args()
    tally = Tally()
    all_runs = runs()
    with ThreadPoolExecutor(asked.jobs) as pool:
        for name, program, words, given, small in all_runs:
            failing_calls(tally, pool, name, program, words, small)
            real_streams(tally, name, program, words, small)
            refused_memory(tally, pool, name, program, words, given)
        spoilt_sheets(tally, pool, asked.spoilt, all_runs[0][3])
        spoilt_files(tally, pool, asked.spoilt, all_runs[3][3])
    return told(tally)


if __name__ == "__main__":
    for program in (SCRAMBLE, PAGES, WCIF):
        if not program.exists():
            sys.exit(f"{program.name} isn't built: run bin/scramble, bin/pages and bin/scramble-wcif first")
    sys.exit(main())
