"""Types, as far as they tell which function a call means.

A type is None where it isn't known, and else a tuple: ("own", a struct or enum, its arguments), ("list", element), which stands
for slices, arrays, vectors and iterators alike, ("option", some), ("result", ok, err), ("tuple", parts), ("plain", name) for
numbers and texts, ("param", name) for a type parameter that is left open, ("closure", result), or ("other", name) for what
stands in std and the kit. References are the types that they refer to.
"""
from tokens import closing

LISTS = {"Vec", "ArrayVec", "Iter", "Range", "Box"}
NUMBERS = set("u8 u16 u32 u64 u128 usize i8 i16 i32 i64 i128 isize bool char f32 f64".split())
NUMBER, TEXT, UNIT, BOOL = ("plain", "number"), ("plain", "text"), ("tuple", ()), ("plain", "bool")


class Reader:
    """Reads words one by one."""

    def __init__(self, words, at=0):
        self.words, self.at = words, at

    def text(self, ahead=0):
        return self.words[self.at + ahead][1] if self.at + ahead < len(self.words) else ""

    def kind(self, ahead=0):
        return self.words[self.at + ahead][0] if self.at + ahead < len(self.words) else ""

    def take(self):
        self.at += 1
        return self.words[self.at - 1][1]

    def takes(self, *texts):
        """Takes the next words if they are these."""
        if all(self.text(k) == text and self.kind(k) in ("sign", "word") for k, text in enumerate(texts)):
            self.at += len(texts)
            return True
        return False

    def needs(self, text):
        if not self.takes(text):
            raise SyntaxError("%s stands where %s should: .. %s .." % (
                self.text(), text, " ".join(word for _, word in self.words[max(0, self.at - 12) : self.at + 12])))


# ---- types as they are written: ("path", [(name, arguments), ..], (type, trait) or None), ("list", T), ("tuple", Ts), or
# ("bound", paths)

def read_type(reader):
    if reader.takes("&") or reader.takes("&&"):
        reader.takes("mut")
        return read_type(reader)
    if reader.takes("*"):
        reader.take()
        return read_type(reader)
    if reader.takes("["):
        element = read_type(reader)
        if reader.takes(";"):
            skip_to(reader, "]")
        reader.needs("]")
        return ("list", element)
    if reader.takes("("):
        parts = read_until(reader, ")", read_type)
        return ("tuple", parts)
    if reader.takes("!"):
        return ("path", [("!", [])], None)
    if reader.takes("impl") or reader.takes("dyn"):
        return ("bound", read_bounds(reader))
    if reader.kind() in ("number", "char", "text") or reader.text() in ("{", "-"):
        return read_constant(reader)
    return read_path(reader)


def read_constant(reader):
    """A constant as an argument of a type."""
    if reader.text() == "{":
        skip_brackets(reader)
        return ("constant", "{}")
    reader.takes("-")
    return ("constant", reader.take())


def read_path(reader):
    """A path in a type."""
    outer = None
    if reader.takes("<"):
        first = read_type(reader)
        trait = read_type(reader) if reader.takes("as") else None
        reader.needs(">")
        reader.needs("::")
        outer = (first, trait)
    parts = []
    while True:
        name, arguments = reader.take(), []
        reader.takes("::") if reader.text(1) == "<" else None
        if reader.takes("<"):
            arguments = read_arguments(reader)
        elif reader.text() == "(" and name in ("Fn", "FnMut", "FnOnce"):
            reader.take()
            read_until(reader, ")", read_type)
            arguments = [read_type(reader)] if reader.takes("->") else [("tuple", [])]
        parts.append((name, arguments))
        if not reader.takes("::"):
            return ("path", parts, outer)


def read_arguments(reader):
    """Arguments behind `<`, up to `>`, without those of named types."""
    arguments = []
    while not reader.takes(">"):
        if reader.takes(","):
            continue  # behind a lifetime
        if reader.kind() == "word" and reader.text(1) in ("=", ":"):
            named = reader.take()
            if reader.take() == "=":
                read_type(reader)
            else:
                arguments.append(("named", named, read_bounds(reader)))
        else:
            arguments.append(read_type(reader))
        reader.takes(",")
    return arguments


def read_bounds(reader):
    """Bounds, joined by `+`."""
    bounds = []
    while True:
        reader.takes("?")
        if reader.kind() == "word" or reader.text() == "<":
            bounds.append(read_type(reader))
        if not reader.takes("+"):
            return bounds


def read_until(reader, end, read_one):
    found = []
    while not reader.takes(end):
        found.append(read_one(reader))
        reader.takes(",")
    return found


def skip_to(reader, *ends):
    """Goes on to one of these signs, over brackets."""
    while reader.text() not in ends or reader.kind() != "sign":
        if reader.kind() == "sign" and reader.text() in "{([":
            skip_brackets(reader)
        else:
            reader.at += 1


def skip_brackets(reader):
    """Goes behind the bracket that closes the next one, and gives the words between."""
    begin, reader.at = reader.at, closing(reader.words, reader.at)
    return reader.words[begin + 1 : reader.at - 1]


# ---- types compared

def unify(pattern, found, solved):
    """Whether a type is like a pattern, whose parameters are then solved."""
    if pattern is None or found is None:
        return True
    if pattern[0] == "param":
        known = solved.get(pattern[1])
        if known is None or known == ("param", pattern[1]):
            solved[pattern[1]] = found
        return True
    if pattern[0] != found[0]:
        return found[0] == "param"
    if pattern[0] == "own":
        if pattern[1] is not found[1]:
            return False
        return all([unify(a, b, solved) for a, b in zip(pattern[2], found[2])])
    if pattern[0] == "tuple":
        return len(pattern[1]) == len(found[1]) and all([unify(a, b, solved) for a, b in zip(pattern[1], found[1])])
    if pattern[0] == "constant":
        return not (pattern[1].isdigit() and found[1].isdigit()) or pattern[1] == found[1]
    if pattern[0] in ("plain", "other"):
        return pattern[1] == found[1]
    return all([unify(a, b, solved) for a, b in zip(pattern[1:], found[1:])])


def put_in(type_, solved):
    """A type with its parameters replaced by those that are solved."""
    if not isinstance(type_, tuple) or not type_:
        return type_
    if type_[0] == "param":
        return solved.get(type_[1], type_)
    if type_[0] == "own":
        return ("own", type_[1], tuple(put_in(it, solved) for it in type_[2]))
    if type_[0] == "tuple":
        return ("tuple", tuple(put_in(it, solved) for it in type_[1]))
    if type_[0] in ("list", "option", "result", "closure"):
        return (type_[0], *(put_in(it, solved) for it in type_[1:]))
    return type_
