"""What each event looks like after a scramble, by a second program that shares nothing with the proved one but
the table of events: which there are, and which are cubes.

letters(event, scramble) gives the text of a picture's letters in the order that docs/DEFINITIONS.md states.
"""
import os
import re
import sys

sys.path.insert(0, os.path.dirname(os.path.dirname(os.path.abspath(__file__))))
import event_table  # noqa: E402

EVENTS = tuple(event.id for event in event_table.EVENTS)
CUBES = tuple(event.id for event in event_table.EVENTS if event.kind == "Faces")


# ---- cubes: a sticker is where its cubie stands, x to the right, y up and z to the front, and which way it looks

def quarter(axis, sign, v):
    """A quarter about an axis, clockwise as seen from its positive end, or from its negative one."""
    for _ in range(1 if sign > 0 else 3):
        x, y, z = v
        v = [(x, z, -y), (-z, y, x), (y, -x, z)][axis]
    return v


def cube_letters(side, words):
    last, cells = side - 1, [(row, column) for row in range(side) for column in range(side)]
    faces = (("U", (0, 1, 0), lambda r, c: (2 * c - last, last, 2 * r - last)),
             ("R", (1, 0, 0), lambda r, c: (last, last - 2 * r, last - 2 * c)),
             ("F", (0, 0, 1), lambda r, c: (2 * c - last, last - 2 * r, last)),
             ("D", (0, -1, 0), lambda r, c: (2 * c - last, -last, last - 2 * r)),
             ("L", (-1, 0, 0), lambda r, c: (-last, last - 2 * r, 2 * c - last)),
             ("B", (0, 0, -1), lambda r, c: (last - 2 * c, last - 2 * r, -last)))
    places = [(at(*cell), looks) for _, looks, at in faces for cell in cells]
    letter = dict(zip(places, (name for name, _, _ in faces for _ in cells)))
    sides = {"U": (1, 1), "D": (1, -1), "R": (0, 1), "L": (0, -1), "F": (2, 1), "B": (2, -1)}
    for word in words:
        layers, face, wide, amount = re.fullmatch(r"(\d?)([URFDLB])(w?)([2']?)", word).groups()
        axis, sign = sides[face]
        least = last - 2 * ((int(layers or 2) if wide else 1) - 1)
        for _ in range({"": 1, "2": 2, "'": 3}[amount]):
            letter = {(quarter(axis, sign, place), quarter(axis, sign, looks)) if sign * place[axis] >= least else (place, looks): it
                      for (place, looks), it in letter.items()}
    return "".join(letter[it] for it in places)


# ---- puzzles whose moves are given by where each sticker goes

def moved(stickers, letters, word, goes):
    """The letters after one move: `goes` says where a sticker is taken, and how often."""
    place = {sticker: k for k, sticker in enumerate(stickers)}
    to, times = goes(word)
    for _ in range(times):
        new = list(letters)
        for k, sticker in enumerate(stickers):
            new[place[to(sticker)]] = letters[k]
        letters = new
    return letters


def pyram_letters(words):
    """A sticker is the weights of the corners U, L, R and B, which add up to 9."""
    nine = ((7, 1, 1), (4, 4, 1), (5, 2, 2), (4, 1, 4), (1, 7, 1), (2, 5, 2), (1, 4, 4), (2, 2, 5), (1, 1, 7))
    faces = (("F", "ULR"), ("R", "URB"), ("L", "UBL"), ("D", "BRL"))
    stickers = [tuple(dict(zip(corners, weights)).get(corner, 0) for corner in "ULRB") for _, corners in faces for weights in nine]
    clockwise = {"U": "LBR", "L": "URB", "R": "UBL", "B": "ULR"}

    def goes(word):
        corner, least = word[0].upper(), 7 if word[0].islower() else 4
        ring = clockwise[corner]
        follows = {**{ring[k]: ring[(k + 1) % 3] for k in range(3)}, corner: corner}

        def to(sticker):
            weight = dict(zip("ULRB", sticker))
            new = {follows[it]: weight[it] for it in "ULRB"}
            return tuple(new[it] for it in "ULRB") if weight[corner] >= least else sticker
        return to, 2 if word.endswith("'") else 1

    letters = [name for name, _ in faces for _ in nine]
    for word in words:
        letters = moved(stickers, letters, word, goes)
    return "".join(letters)


def skewb_letters(words):
    """A sticker is a point of a cube from 0 to 6, x to the right, y up and z to the front."""
    five = ((1, 1), (1, 5), (3, 3), (5, 1), (5, 5))
    faces = (("U", lambda r, c: (c, 6, r)), ("R", lambda r, c: (6, 6 - r, 6 - c)), ("F", lambda r, c: (c, 6 - r, 6)),
             ("D", lambda r, c: (c, 0, 6 - r)), ("L", lambda r, c: (0, 6 - r, c)), ("B", lambda r, c: (6 - c, 6 - r, 0)))
    stickers = [at(*cell) for _, at in faces for cell in five]
    corners = {"U": (-1, 1, -1), "L": (-1, -1, 1), "R": (1, -1, -1), "B": (-1, -1, -1)}

    def goes(word):
        signs = corners[word[0]]

        def to(point):
            u = [sign * (it - 3) for sign, it in zip(signs, point)]
            if sum(u) <= 0:
                return point
            u = u[1:] + u[:1] if signs[0] * signs[1] * signs[2] > 0 else u[2:] + u[:2]
            return tuple(3 + sign * it for sign, it in zip(signs, u))
        return to, 2 if word.endswith("'") else 1

    letters = [name for name, _ in faces for _ in five]
    for word in words:
        letters = moved(stickers, letters, word, goes)
    return "".join(letters)


MINX_FACES = "U F R BR BL L D B DBR DR DL DBL".split()
# the faces beside each, clockwise as seen from outside, and the one opposite to each
BESIDE = {face: ring.split() for face, ring in {
    "U": "F L BL BR R", "F": "U R DR DL L", "R": "U BR DBR DR F", "BR": "U BL B DBR R", "BL": "U L DBL B BR", "L": "U F DL DBL BL",
    "D": "B DBL DL DR DBR", "B": "BR BL DBL D DBR", "DBR": "R BR B D DR", "DR": "F R DBR D DL", "DL": "F DR D DBL L", "DBL": "BL L DL D B"}.items()}
OPPOSITE = {"U": "D", "F": "B", "R": "DBL", "BR": "DL", "BL": "DR", "L": "DBR"}
OPPOSITE.update({low: high for high, low in OPPOSITE.items()})


def minx_letters(words):
    """A sticker is the faces that it touches, its own first, and then clockwise."""
    stickers = []
    for face in MINX_FACES:
        ring = BESIDE[face]
        stickers += [(face,)] + [it for k in range(5) for it in ((face, ring[k]), (face, ring[k], ring[(k + 1) % 5]))]

    def goes(word):
        kept = {"R": "L", "D": "U"}.get(word[0])
        about = OPPOSITE[kept] if kept else "U"
        ring, follows = BESIDE[about], {face: face for face in MINX_FACES}
        for k in range(5):
            follows[ring[k]], follows[OPPOSITE[ring[k]]] = ring[(k + 1) % 5], OPPOSITE[ring[(k + 1) % 5]]

        def to(sticker):
            moves = kept not in sticker if kept else "U" in sticker
            return tuple(follows[face] for face in sticker) if moves else sticker
        return to, {"U": 1, "U'": 4}.get(word) or (2 if word.endswith("++") else 3)

    letters = [sticker[0] for sticker in stickers]
    for word in words:
        letters = moved(stickers, letters, word, goes)
    return " ".join(letters)


# ---- units and dials

def sq1_letters(scramble):
    """The units of the top from the cut at the back on, of the bottom from the cut at the front on, and the equator."""
    units, is_turned = [int(it, 16) for it in "00811922a33bc44d55e66f77"], False
    for word in re.findall(r"\(-?\d,-?\d\)|/", scramble.replace(" ", "")):
        if word == "/":
            units[0:6], units[12:18] = units[12:18], units[0:6]
            is_turned = not is_turned
        else:
            top, bottom = map(int, word[1:-1].split(","))
            units = [units[(k - top) % 12] for k in range(12)] + [units[12 + (k - bottom) % 12] for k in range(12)]
    return "".join("%x" % unit for unit in units) + ("/" if is_turned else "-")


def clock_letters(words):
    """The hours of both sides, each as it is seen from there. A pin turns the four dials around it, and corners both sides."""
    hours, seen = [[0] * 9, [0] * 9], 0
    rows, columns = {"U": (0,), "D": (1,)}, {"L": (0,), "R": (1,)}
    for word in words:
        if word == "y2":
            seen = 1 - seen
            continue
        pins, amount, sign = re.fullmatch(r"([A-Z]+)(\d)([+-])", word).groups()
        amount = int(sign + amount)
        at = [rows.get(it, (0, 1)) for it in pins if it in "UD"] or [(0, 1)], [columns[it] for it in pins if it in "LR"] or [(0, 1)]
        if pins == "ALL":
            at = [(0, 1)], [(0, 1)]
        dials = {(row + down, column + right) for row in at[0][0] for column in at[1][0] for down in (0, 1) for right in (0, 1)}
        for row, column in dials:
            hours[seen][3 * row + column] += amount
            if row != 1 and column != 1:
                hours[1 - seen][3 * row + 2 - column] -= amount
    return " ".join(str(hour % 12 or 12) for side in hours for hour in side)


def letters(event, scramble):
    """The letters of the picture of an event's puzzle after a scramble."""
    words = scramble.split()
    if event in CUBES:
        return cube_letters(int(event[0]), words)
    if event == "sq1":
        return sq1_letters(scramble)
    return {"pyram": pyram_letters, "skewb": skewb_letters, "minx": minx_letters, "clock": clock_letters}[event](words)
