"""Shorter forms of a body: one call of `grind` or `cc` over the lemmas that it cites, laid out as `rt fmt` lays it out."""
import re
from dataclasses import dataclass

from lemmas import Body, CLOSES, DATA, OPENS, end_of_let, head_and_body, is_balanced, parts_of, words_of

WIDTH, MOST_ENTRIES, LONGEST_VALUE = 118, 12, 120
# Words of proofs that are no lemmas to be listed.
GLUE = set("ap sym subst refl absurd omega grind cc arith elim let in inl inr record simp search auto cond".split())
SIGNS = set("∙ → ↦ λ = ≡ : | , ; in let + - * / % < ≤ :: ∷ ++ × && || ≢ ∘ ^ elim".split()) | set(CLOSES)


@dataclass(frozen=True)
class Spot:
    """A place of a lemma that a call may take: the text between `at` and `end` of one of its clauses, or all of them."""

    index: int
    clause: str
    at: int
    end: int
    head: str
    indent: str

    def put(self, form):
        """The clause with the form in that place."""
        if self.head:
            return laid(f"{self.head} =", form, self.indent + "    ")
        lead = self.clause[self.clause.rfind("\n", 0, self.at) + 1 : self.at]
        deeper = " " * (len(lead) - len(lead.lstrip()) + 4) if lead.strip() else lead
        before = self.clause[: self.at].rstrip(" ") if lead.strip() else self.clause[: self.at]
        return laid(before, form, deeper) + self.clause[self.end :]


def laid(before, form, indent):
    """A call behind a text: in its line, in a line of its own, or with a line an entry."""
    is_blank = not before.split("\n")[-1].strip()
    one = before + form if is_blank else f"{before} {form}"
    if len(one.split("\n")[-1]) <= WIDTH:
        return one
    if not is_blank and len(indent + form) <= WIDTH:
        return f"{before}\n{indent}{form}"
    word, entries = entries_of(form)
    lines = [f"{indent}{word} (", *(f"{indent}  {entry}," for entry in entries), f"{indent})"]
    return (before.rstrip(" ") if is_blank else before + "\n") + "\n".join(lines)


def entries_of(form):
    """The word of a call and the entries of its list."""
    word, list_ = form.split(" ", 1)
    return word, [it.strip() for it in parts_of(list_[1:-1], ",")] if list_.startswith("(") else [list_]


def called(word, entries):
    return f"{word} {entries[0]}" if entries == ["arith"] else f"{word} ({', '.join(entries)})"


def weight(text):
    """By what texts are compared: lines, then words, then letters."""
    return text.count("\n") + 1, len(text.split()), len(text)


def spots_of(lemma, lines):
    """The places of a lemma, each with its text and the facts that have names before it."""
    for index, (start, end) in enumerate(lemma.clauses):
        clause = "\n".join(lines[start:end])
        head, text = head_and_body(clause)
        if end - start < 2 or head is None or text.startswith("record {"):
            continue
        whole = Body(text, clause.index(text, len(head)))
        for body in whole.all():
            if body is not whole and "\n" not in body.text:
                continue
            later = [place for place, _ in body.lets[1:]]
            behind = later[:: max(1, len(later) // 3)] + [body.rest] * bool(body.lets)
            for at in [0, *(it for it in behind if "\n" in body.text[it:])]:
                heads = [head_and_body(value + " ")[0] or value for place, value in body.lets if place < at]
                facts = {it.split(":")[0].strip() for it in heads if not DATA.match(it.split(":")[-1].strip())}
                own = head if body is whole and at == 0 else ""
                yield Spot(index, clause, body.start + at, body.end, own, lemma.indent), body.text[at:], facts
    if len(lemma.clauses) > 1:
        text = "\n".join(lines[lemma.first : lemma.end])
        yield Spot(-1, text, 0, len(text), f"{lemma.indent}{lemma.name} {' '.join(lemma.binders())}", lemma.indent), text, set()


def forms_at(lemma, lines, known):
    """Pairs of a place and a form that would take fewer lines there, or would with half its entries."""
    for spot, text, facts in spots_of(lemma, lines):
        for form in forms_of(text, known | facts, lemma.name):
            word, entries = entries_of(form)
            half = called(word, sorted(entries, key=len)[: (len(entries) + 1) // 2])
            cites_itself = spot.index < 0 and any(lemma.name in entry for entry in entries)
            if weight(spot.put(half))[0] < weight(spot.clause)[0] and not cites_itself:
                yield spot, form


def forms_of(text, known, own):
    """Calls over the known names that a text has, as they are and as they are applied there."""
    words = [word.split(".")[0] for _, word in words_of(text)]
    names = list(dict.fromkeys(word for word in words if word in known - GLUE - {own}))
    calls = applications(text, {*names, own})
    itself = [call for call in calls if " " in call and re.search(rf"(^|[(\s]){re.escape(own)}\s", call)]
    in_brackets = lambda it: f"({it})" if re.search(r" [∙≡] ", it) else it
    made = ["grind arith"]
    for list_, patterns in ((names + itself, ["grind (arith, {})"]), (calls, ["cc ({})", "grind (arith, {})"])):
        if 0 < len(list_) <= MOST_ENTRIES:
            made += [pattern.format(", ".join(map(in_brackets, list_))) for pattern in patterns]
    return list(dict.fromkeys(made))


def values_of(text):
    """The short values that have names in a text, and the names that can't be told outside it."""
    hidden = re.findall(r"λ ([^.]*)\.", text) + re.findall(r"\| \w+ \(?(\w+)", text) + re.findall(r"\| (\w+) ↦", text)
    values, hidden = {}, {word for group in hidden for word in group.split()}
    for it in re.finditer(r"\blet ", text):
        end = end_of_let(text, it.start())
        name, value = head_and_body(text[it.end() : end] + " ")
        if end is None or name is None:
            continue
        name, value = name.split(":")[0].strip(), " ".join(value.split())
        is_long = len(value) > LONGEST_VALUE or re.match("(elim|omega|grind|cc) ", value)
        if is_long or re.search("let |[;↦|]", value) or not is_balanced(value):
            hidden.add(name)
        else:
            values[name] = value
    return values, hidden


def applications(text, cited):
    """The outermost applications of cited names, with the values of the text's own names put in; the name alone where
    an application can't be told so."""
    values, hidden = values_of(text)
    words, found, at = words_of(text), [], 0
    while at < len(words):
        place, word = words[at]
        if word.split(".")[0] not in cited:
            at += 1
            continue
        end, depth = at + 1, 0
        while end < len(words) and (depth or words[end][1] not in SIGNS):
            depth += (words[end][1] in OPENS) - (words[end][1] in CLOSES)
            end += 1
        piece = " ".join(text[place : words[end][0] if end < len(words) else len(text)].split())
        for _ in range(4):
            for name, value in values.items():
                told = f"({value})" if " " in value else value
                piece = re.sub(rf"(?<![^\s()\[\]{{}},]){re.escape(name)}(?=[\s()\[\]{{}},.]|$)", lambda _: told, piece)
        own = {it.split(".")[0] for _, it in words_of(piece)} & (hidden | set(values))
        is_told = not own and not re.search("[λ;↦|]", piece) and is_balanced(piece) and len(piece) < 160
        found.append(piece if is_told else word)
        at = end if is_told else at + 1
    return list(dict.fromkeys(found))
