#!/usr/bin/env python3
"""A made-up competition of 62 groups, in which each event of scramble has a round, as its own file (WCIF).

    tools/bundle/competition.py > competition.json
"""
import json
import os
import sys

sys.path.insert(0, os.path.join(os.path.dirname(os.path.abspath(__file__)), ".."))
import event_table  # noqa: E402

# How many groups each round of an event has; an event that isn't here has one round of one. The first is none of scramble's.
GROUPS = {
    "444": [2, 1], "333": [8, 6, 4, 1], "222": [6, 2, 1], "pyram": [5, 2, 1], "skewb": [4, 1], "clock": [4, 1],
    "sq1": [2, 1], "minx": [2, 1], "555": [2, 1], "666": [1], "777": [1], "333bf": [1, 1], "333fm": [1, 1]}
GROUPS.update((event.id, [1]) for event in event_table.EVENTS if event.id not in GROUPS)
ATTEMPTS_APART = "333fm"
NAMES = {1: [], 2: ["First round"], 3: ["First round", "Second round"], 4: ["First round", "Second round", "Semi-final"]}


def file():
    """The competition's file, with much else in it that is to be passed over."""
    events = [{"id": event, "rounds": [
        {"id": "%s-r%d" % (event, i + 1), "format": "a", "timeLimit": {"centiseconds": 60000}, "scrambleSetCount": count,
         "scrambleSets": [], "results": []} for i, count in enumerate(counts)]} for event, counts in GROUPS.items()]
    persons = [{"name": "Zoë %d" % i, "wcaId": None, "registration": {"eventIds": list(GROUPS)}} for i in range(200)]
    return json.dumps({"formatVersion": "1.0", "id": "MyOpen2026", "name": "Öpen", "persons": persons, "events": events})


def attempts():
    """What stands behind the group in the names of the PDFs of a group of fewest moves, which has one for each attempt."""
    count = event_table.BY_ID[ATTEMPTS_APART].per_group
    return [" attempt %d" % (i + 1) for i in range(count)] + [" extra 1", " extra 2"]


def names():
    """The names of the PDFs that its folder has."""
    pdfs = ["%s %s %s%s" % (event, name, "ABCDEFGH"[i], attempt) for event, counts in GROUPS.items() if event != "444"
            for name, count in zip(NAMES[len(counts)] + ["Final"], counts) for i in range(count)
            for attempt in (attempts() if event == ATTEMPTS_APART else [""])]
    return ["%02d %s" % (i + 1, name) for i, name in enumerate(pdfs)]


if __name__ == "__main__":
    print(file())
