"""The tables of events and of what is scrambled for them, as `row_of` and `puzzle_row_of` in
crates/scr_notation/specs/Event.antt have them.

EVENTS are the events, in the order of their numbers, each with what its puzzle's row says. Scripts take from here which events
there are, so that an event is added to none of them.
"""
import collections
import os
import re
import sys

TOP = os.path.dirname(os.path.dirname(os.path.abspath(__file__)))
TABLE = "crates/scr_notation/specs/Event.antt"
ROW = re.compile(r'^row_of (\w+) = \(codes "([^"]*)", codes "([^"]*)", puzzle\.(\w+), (\d+)\)$', re.M)
PUZZLE = re.compile(r"^puzzle_row_of puzzle\.(\w+) = puzzle_row (\w+|\([^)]*\)) (None|\(up_to \d+ \d+\)) (None|\(Some family\.\w+\)) "
                    r"(true|false) (None|\(Some \d+\))$", re.M)

# its name in code, its id, its name on sheets, its puzzle, the puzzle's kind and what the kind's turns are of, the scrambles of
# a group without the two extra ones, its greatest and its usual minimum (None where its moves are random), its family of tables,
# and how many layers the cube has whose net is shown; None where it has none of these
Event = collections.namedtuple("Event", "variant id name puzzle kind turns per_group greatest usual family net_side")


def read(path):
    with open(os.path.join(TOP, path), encoding="utf-8") as file:
        return file.read()


def row_from(found, puzzles):
    variant, id_, name, puzzle, per_group = found.groups()
    _, kind, minima, family, _, side = puzzles[puzzle].groups()
    kind, *turns = kind.strip("()").split()
    greatest, usual = [int(number) for number in re.findall(r"\d+", minima)] or (None, None)
    family = family.strip("()").partition(".")[2] or None
    side = int(side.strip("()").split()[1]) if side != "None" else None
    return Event(variant, id_, name, puzzle, kind, tuple(turns), int(per_group), greatest, usual, family, side)


def table():
    """The rows, each event once, as the list of all events has them."""
    text = read(TABLE)
    order = re.search(r"^events = ((?:\w+ ∷ )+)\[\]$", text, re.M)[1].split(" ∷ ")[:-1]
    puzzles = {found[1]: found for found in PUZZLE.finditer(text)}
    rows = {found[1]: row_from(found, puzzles) for found in ROW.finditer(text)}
    if sorted(rows) != sorted(order):
        sys.exit("event_table: %s: the rows of `row_of` can't be read, or aren't those of `events`" % TABLE)
    return [rows[variant] for variant in order]


EVENTS = table()
BY_ID = {event.id: event for event in EVENTS}


def puzzle_of(event):
    """The puzzle, as names of events call it: the first word of the name."""
    return event.name.split()[0]


def scrambled_as(id_):
    """The ids of the events that have the states and scrambles of one, which is among them: they have its puzzle."""
    return [event.id for event in EVENTS if event.puzzle == BY_ID[id_].puzzle]
