"""Lemmas of a proof file as text: their statements, their clauses, and what a clause's body is made of."""
import re
from dataclasses import dataclass

DATA = re.compile(r"(ℕ|Bool|List|Option|Type|ℤ|Vec|Char|String)\b")
SIGNATURE = re.compile(r"^( *)(?:pub )?([^\s:(){}=]+) : (.*)$")
WORD = re.compile(r"[()\[\]{},;]|[^\s()\[\]{},;]+")
OPENS, CLOSES = "([{", ")]}"


@dataclass(frozen=True)
class Lemma:
    """A statement and its clauses, as ranges of the lines of its file."""

    name: str
    indent: str
    start: int
    clauses: tuple
    statement: str

    @property
    def first(self):
        return self.clauses[0][0]

    @property
    def end(self):
        return self.clauses[-1][1]

    def binders(self):
        """A name for each argument that a clause with no cases takes: its own, or one for a premise."""
        found = []
        for number, part in enumerate(it.strip() for it in parts_of(self.statement, "→")[:-1]):
            named = re.match(r"[({][^:()]* : ", part)
            names = [it for group in re.findall(r"\(([^:()]*) : ", part) for it in group.split()]
            found += names if named else [f"h{number}"]
        return found


def lemmas_of(lines):
    """The lemmas of a file, but for those with names of their own behind `where`, and those that give numbers or lists."""
    found, at = [], 0
    while at < len(lines):
        match = SIGNATURE.match(lines[at])
        if not match:
            at += 1
            continue
        indent, name = match[1], match[2]
        clauses, here = [], at + 1
        while here < len(lines):
            line = lines[here]
            if line.startswith(f"{indent}{name} ") and not SIGNATURE.match(line):
                clauses.append([here, here + 1])
            elif clauses and (line.startswith(indent + "  ") or not is_balanced("\n".join(lines[clauses[-1][0] : here]))):
                clauses[-1][1] = here + 1
            elif clauses or not line.startswith((indent + "  ", indent + "unfolding")):
                break
            here += 1
        if re.search(r"(^|\s)where$", "\n".join(lines[at : here + 1]), re.M):
            while here < len(lines) and (not lines[here].strip() or lines[here].startswith(indent + " ")):
                here += 1
        elif clauses:
            said = [it.strip() for it in lines[at : clauses[0][0]] if not it.strip().startswith("unfolding")]
            statement = " ".join(said).split(" : ", 1)[1]
            if not DATA.match(parts_of(statement, "→")[-1].strip()):
                found.append(Lemma(name, indent, at, tuple(map(tuple, clauses)), statement))
        at = max(here, at + 1)
    return found


def parts_of(text, sign):
    """The parts of a text between signs that stand in no brackets."""
    depth, parts, last = 0, [], 0
    for at, letter in enumerate(text):
        depth += (letter in OPENS) - (letter in CLOSES)
        if depth == 0 and text.startswith(sign, at):
            parts.append(text[last:at])
            last = at + len(sign)
    return [*parts, text[last:]]


def head_and_body(text):
    """What stands before and behind a text's first sign of equality, or nothing where it has none."""
    depth = 0
    for at, letter in enumerate(text):
        depth += (letter in OPENS) - (letter in CLOSES)
        if depth == 0 and letter == "=" and text[at - 1] == " " and text[at + 1 : at + 2] in (" ", "\n"):
            return text[:at].rstrip(), text[at + 1 :].strip()
    return None, None


def words_of(text):
    """Pairs of a place and the word there; each bracket, comma and semicolon is one."""
    return [(it.start(), it[0]) for it in WORD.finditer(text)]


def is_balanced(text):
    depth = 0
    for letter in text:
        depth += (letter in OPENS) - (letter in CLOSES)
        if depth < 0:
            return False
    return depth == 0


def end_of_let(text, here):
    """The place of the `in` that ends the `let` at a place."""
    depth, left = 0, 0
    for at, word in words_of(text[here:]):
        depth += (word in OPENS) - (word in CLOSES)
        left += (depth == 0) * ((word == "let") - (word == "in"))
        if depth == 0 and word == "in" and left == 0:
            return here + at
    return None


class Body:
    """What a clause, a branch or a name is: values with names (`lets`, each with its place), and what is made of them."""

    def __init__(self, text, start):
        self.text, self.start, self.lets, here = text, start, [], 0
        while text.startswith("let ", here) and (end := end_of_let(text, here)):
            self.lets.append((here, text[here + 4 : end]))
            here = end + 2 + len(text[end + 2 :]) - len(text[end + 2 :].lstrip())
        self.rest = here

    @property
    def end(self):
        return self.start + len(self.text)

    def all(self):
        """It, and the bodies of long values and of branches in it."""
        yield self
        for place, value in self.lets:
            head, body = head_and_body(value + " ")
            if head and ":" in head and "\n" in body:
                yield from Body(body, self.start + self.text.index(body, place)).all()
        for place, body in self.branches():
            yield from Body(body, self.start + place).all()

    def branches(self):
        tail = self.text[self.rest :].rstrip()
        begin = re.search(r"\[\s*\|", tail)
        if not (tail.startswith("elim ") and tail.endswith("]") and begin):
            return
        inside = tail[begin.end() : -1]
        at = self.rest + begin.end()
        for part in parts_of(inside, "|"):
            arrow = part.find("↦")
            body = part[arrow + 1 :].strip()
            if arrow >= 0 and body:
                yield at + part.index(body, arrow + 1), body
            at += len(part) + 1
