#!/usr/bin/env python3
"""another_solver.py PROGRAM: checks a sheet of 3x3x3s whose scrambles another solver found.

Takes the built program, makes the sheet of a short list by it, turns a cube of stickers by each scramble, has the state
solved by `rubiks_dikcube` of Debian's package `rubiks`, and writes the solution taken back in the scramble's place. The
program must find that this sheet agrees, and that it doesn't where one turn is left out.
"""
import os
import re
import subprocess
import sys

sys.dont_write_bytecode = True
sys.path.insert(0, os.path.dirname(os.path.dirname(os.path.abspath(__file__))))
from event_table import scrambled_as  # noqa: E402

SEED = '0' * 64
# a group of each event that has the states and scrambles of a 3x3x3
LIST = ''.join('%s 1\n' % event for event in scrambled_as('333'))

# x goes right, y up, z to the front; a face is told by the way that it looks
FACES = {'U': (0, 1, 0), 'D': (0, -1, 0), 'R': (1, 0, 0), 'L': (-1, 0, 0), 'F': (0, 0, 1), 'B': (0, 0, -1)}

# where the sticker at a row and a column of a face is, in the net that the solver reads: B above U, F below it, L to its
# left, R and then D to its right
PLACES = {
    'U': lambda row, column: (column - 1, 1, row - 1),
    'B': lambda row, column: (column - 1, row - 1, -1),
    'F': lambda row, column: (column - 1, 1 - row, 1),
    'L': lambda row, column: (-1, column - 1, row - 1),
    'R': lambda row, column: (1, 1 - column, row - 1),
    'D': lambda row, column: (1 - column, -1, row - 1),
}


def solved():
    return {(PLACES[face](row, column), FACES[face]): face
            for face in FACES for row in range(3) for column in range(3)}


def quarter(vector, axis):
    """A vector turned clockwise by a quarter, as seen from where the axis points."""
    along = sum(x * y for x, y in zip(vector, axis))
    (a, b, c), (p, q, r) = vector, axis
    across = (b * r - c * q, c * p - a * r, a * q - b * p)
    return tuple(axis[i] * along + across[i] for i in range(3))


def turned(cube, turn):
    axis = FACES[turn[0]]
    for _ in range({'': 1, '2': 2, "'": 3}[turn[1:]]):
        cube = {(quarter(place, axis), quarter(way, axis)) if sum(x * y for x, y in zip(place, axis)) == 1 else (place, way): letter
                for (place, way), letter in cube.items()}
    return cube


def played(turns):
    cube = solved()
    for turn in turns:
        cube = turned(cube, turn)
    return cube


def pattern(cube):
    def row_of(face, row):
        return ''.join(cube[(PLACES[face](row, column), FACES[face])] for column in range(3))
    rows = [row_of('B', row) for row in range(3)]
    rows += [''.join(row_of(face, row) for face in 'LURD') for row in range(3)]
    rows += [row_of('F', row) for row in range(3)]
    return '\n'.join(rows) + '*\n'


def solution(cube):
    """The solver's first solution; it goes on for as long as its input is open."""
    solver = subprocess.Popen('(cat; sleep 20) | timeout 21 stdbuf -oL rubiks_dikcube -p', shell=True, text=True,
                              stdin=subprocess.PIPE, stdout=subprocess.PIPE, stderr=subprocess.STDOUT)
    solver.stdin.write(pattern(cube))
    solver.stdin.close()
    for line in solver.stdout:
        if line.startswith('Solution'):
            solver.kill()
            return [word[0] + {'1': '', '2': '2', '3': "'"}[word[1]] for word in line.split(':')[1].split()]
    sys.exit('the solver found nothing')


def taken_back(turns):
    return [turn[0] + {'': "'", '2': '2', "'": ''}[turn[1:]] for turn in reversed(turns)]


def run(program, words, text):
    done = subprocess.run([program, *words, '--seed', SEED], input=text, capture_output=True, text=True)
    return done.returncode, done.stdout, done.stderr


def main():
    program = sys.argv[1]
    sheet = run(program, ['sheet'], LIST)[1]
    lines = []
    for line in sheet.split('\n'):
        scramble = re.match(r'(E?\d\. )(.*)', line)
        if scramble:
            turns = scramble.group(2).split()
            line = scramble.group(1) + ' '.join(taken_back(solution(played(turns))))
        lines.append(line)
    other = '\n'.join(lines)
    short = re.sub(r'\n1\. \S+ ', '\n1. ', other, count=1)
    found = run(program, ['check'], LIST + '=====\n' + other)
    fault = run(program, ['check'], LIST + '=====\n' + short)
    print(found, fault)
    good = other != sheet and found == (0, 'agrees\n', '') and fault == (9, '', 'scramble: line 3 differs\n')
    print('good' if good else 'BAD')
    sys.exit(0 if good else 1)


main()
