"""The words of a source file of Rattle, without comments, attributes and what is said for the prover alone."""
import re

TOKEN = re.compile(r"""
    (?P<skip>\s+|//[^\n]*|/\*.*?\*/)
  | (?P<text>b?"(?:\\.|[^"\\])*"|b?r\#*".*?"\#*)
  | (?P<char>b?'(?:\\.[^']*|[^'\\])')
  | (?P<life>'[A-Za-z_]\w*)
  | (?P<number>\d[\d_]*(?:\.\d+)?\w*)
  | (?P<word>[^\W\d]\w*)
  | (?P<sign>::|->|=>|\.\.=|\.\.|&&|\|\||[-+*/%^&|=!<>]=|.)
""", re.X | re.S)
OPENS, CLOSES = {"{": "}", "(": ")", "[": "]"}, {"}", ")", "]"}
CLAUSES = {"requires", "ensures"}


def tokens(text):
    """Pairs of a kind and a text, with the marks `<<` and `>>` left as two."""
    found = [(match.lastgroup, match[0]) for match in TOKEN.finditer(text) if match.lastgroup not in ("skip", "life")]
    return without_ghosts(found)


def closing(words, at):
    """The place behind the bracket that closes the one at a place."""
    depth = 0
    while True:
        text = words[at][1] if words[at][0] == "sign" else ""
        depth += (text in OPENS) - (text in CLOSES)
        at += 1
        if depth == 0:
            return at


def ghost_end(words, at):
    """The place behind a ghost item: its `;` or `,`, or the bracket that closes what it stands in."""
    while True:
        text = words[at][1]
        if text in OPENS:
            at = closing(words, at)
        elif text in CLOSES:
            return at
        elif text in (";", ","):
            return at + 1
        else:
            at += 1


def drop_visibility(out):
    """Takes back a `pub` or a `pub(..)` at the end."""
    if [text for _, text in out[-4::3]] == ["pub", ")"]:
        del out[-4:]
    elif out and out[-1][1] == "pub":
        out.pop()


def without_ghosts(words):
    """The words without ghost items, clauses and attributes; a test is left out with what its attribute stands before."""
    out, at = [], 0
    while at < len(words):
        text = words[at][1]
        if text == "ghost" and words[at + 1][0] == "word":
            at = ghost_end(words, at)
            drop_visibility(out)
        elif text in CLAUSES and words[at][0] == "word":
            at += 1 if words[at + 1][1] == "{" else 2
            at = closing(words, at)
        elif text == "#" and words[at + 1][1] in ("[", "!"):
            begin = at + (1 if words[at + 1][1] == "[" else 2)
            end = closing(words, begin)
            inside = [word for _, word in words[begin:end]]
            at = end
            if "test" in inside:
                out.append(("test", "#[test]"))
        else:
            out.append(words[at])
            at += 1
    return out
