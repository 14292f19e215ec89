"""Which functions a body calls: it is read expression by expression, with the type of each as far as that can be told."""
from tokens import OPENS
from type_forms import BOOL, NUMBER, TEXT, UNIT, Reader, read_arguments, read_type, skip_brackets, skip_to

LEVELS = [{"="}, {"..", "..="}, {"||"}, {"&&"}, {"==", "!=", "<", ">", "<=", ">="}, {"|"}, {"^"}, {"&"}, {"<<", ">>"},
          {"+", "-"}, {"*", "/", "%"}, {"as"}]
LEVEL = {sign: level for level, signs in enumerate(LEVELS) for sign in signs}
ASSIGNS = {"+=", "-=", "*=", "/=", "%=", "^=", "&=", "|=", "<<=", ">>="}


class Body:
    """One function's body, for one choice of its type parameters. What it calls is told to the way."""

    def __init__(self, way, function, env):
        self.way, self.scopes, self.function, self.env = way, way.scopes, function, env
        self.module, self.names, self.acts = function.module, [{}], False
        self.gives = self.lower(function.result)

    def lower(self, written):
        return self.scopes.lower(written, self.module, self.env)

    def read(self):
        for pattern, type_, _ in self.function.parameters:
            self.bind(Reader(pattern), self.env.get("Self") if type_ is None else self.lower(type_))
        self.block(Reader(self.function.body))

    # ---- names and patterns

    def name_type(self, name):
        for names in reversed(self.names):
            if name in names:
                return names[name]
        return None

    def is_local(self, name):
        return any(name in names for names in self.names)

    def bind(self, reader, type_):
        """Binds the names of a pattern, up to a sign that ends it."""
        reader.takes("|")
        self.bind_one(reader, type_)
        while reader.takes("|"):
            self.bind_one(reader, type_)

    def bind_one(self, reader, type_):
        while reader.text() in ("&", "&&", "mut", "ref"):
            reader.take()
        if reader.text() in ("(", "["):
            self.bind_parts(Reader(skip_brackets(reader)), type_)
        elif reader.kind() == "word" and reader.text() != "_":
            self.bind_path(reader, type_)
        else:
            while reader.kind() in ("number", "char", "text") or reader.text() in ("-", "..", "..=", "_"):
                reader.take()

    def bind_parts(self, inner, type_):
        place = 0
        while inner.at < len(inner.words):
            part = type_[1] if type_ and type_[0] == "list" else self.scopes.field(type_, str(place))
            self.bind(inner, part)
            inner.takes(",")
            place += 1

    def bind_path(self, reader, type_):
        names = [reader.take()]
        while reader.takes("::"):
            if reader.takes("<"):
                read_arguments(reader)
            else:
                names.append(reader.take())
        if reader.text() == "(":
            self.bind_tuple(Reader(skip_brackets(reader)), names[-1], type_)
        elif reader.text() == "{":
            self.bind_fields(Reader(skip_brackets(reader)), names[-1], type_)
        elif len(names) == 1 and names[0][0].islower():
            self.names[-1][names[0]] = type_
            if reader.takes("@"):
                self.bind(reader, type_)
        elif reader.text() in ("..", "..="):
            reader.take()
            reader.take()

    def bind_tuple(self, inner, name, type_):
        if type_ and type_[0] in ("option", "result") and name in ("Some", "Ok", "Err"):
            self.bind(inner, type_[2 if name == "Err" else 1])
            return
        fields = self.fields_of(type_, name)
        place = 0
        while inner.at < len(inner.words):
            self.bind(inner, fields.get(str(place)))
            inner.takes(",")
            place += 1

    def bind_fields(self, inner, name, type_):
        fields = self.fields_of(type_, name)
        while inner.at < len(inner.words):
            if inner.takes(".."):
                continue
            while inner.text() in ("mut", "ref"):
                inner.take()
            field = inner.text()
            if inner.text(1) == ":":
                inner.at += 2
                self.bind(inner, fields.get(field))
            else:
                self.bind_one(inner, fields.get(field))
            inner.takes(",")

    def fields_of(self, type_, name):
        """The fields of a struct, or of a variant of an enum."""
        if not type_ or type_[0] != "own":
            return {}
        if type_[1].variants:
            return self.scopes.variant_fields(type_, name)
        return {field: self.scopes.field(type_, field) for field in type_[1].fields}

    # ---- statements

    def block(self, reader):
        """The type of a block's last expression."""
        self.names.append({})
        last = UNIT
        while reader.at < len(reader.words):
            last = self.statement(reader)
        self.names.pop()
        return last

    def statement(self, reader):
        if reader.takes(";"):
            return UNIT
        if reader.takes("let"):
            self.let(reader)
            return UNIT
        if reader.text() in ("const", "static", "use") and reader.kind() == "word":
            self.inner_item(reader)
            return UNIT
        type_ = self.expression(reader, 0, True)
        return UNIT if reader.takes(";") else type_

    def inner_item(self, reader):
        if reader.take() == "use":
            skip_to(reader, ";")
            return
        name = reader.take()
        reader.needs(":")
        self.names[-1][name] = self.lower(read_type(reader))
        skip_to(reader, ";")

    def let(self, reader):
        begin = reader.at
        skip_to(reader, ":", "=", ";")
        pattern, written, type_ = reader.words[begin : reader.at], None, None
        if reader.takes(":"):
            written = self.lower(read_type(reader))
        if reader.takes("="):
            type_ = self.expression(reader, 0, True)
            if reader.takes("else"):
                self.acts = True
                self.block(Reader(skip_brackets(reader)))
        reader.takes(";")
        self.bind(Reader(pattern), written or type_)

    # ---- expressions

    def expression(self, reader, level, structs):
        """The type of an expression; `structs` says whether a brace may begin a struct's fields."""
        type_ = self.prefix(reader, structs)
        while True:
            sign, length = self.sign(reader)
            if sign in ASSIGNS or sign == "=" and level == 0:
                reader.at += length
                self.acts = self.acts or sign != "="
                self.expression(reader, 0, structs)
                type_ = UNIT
            elif sign in LEVEL and sign != "=" and LEVEL[sign] >= level:
                reader.at += length
                type_ = self.operated(reader, type_, sign, structs)
            else:
                return type_

    def sign(self, reader):
        """The next sign between operands, and of how many words it is."""
        first, second = reader.text(), reader.text(1)
        if reader.kind() == "sign" and first in "<>" and (second == first or second == first + "="):
            return first + second, 2
        return (first, 1) if reader.kind() == "sign" or first == "as" else ("", 0)

    def operated(self, reader, left, sign, structs):
        if sign == "as":
            return self.lower(read_type(reader))
        self.acts = self.acts or sign not in ("..", "..=")
        if sign in ("..", "..="):
            if self.ends(reader, structs):
                return ("list", left)
            self.expression(reader, LEVEL[sign] + 1, structs)
            return ("list", left)
        self.expression(reader, LEVEL[sign] + 1, structs)
        return BOOL if sign in ("||", "&&", "==", "!=", "<", ">", "<=", ">=") else left

    def ends(self, reader, structs):
        """Whether no operand follows."""
        if reader.at >= len(reader.words) or reader.text() in (")", "]", "}", ",", ";", "=>"):
            return True
        return not structs and reader.text() == "{"

    def prefix(self, reader, structs):
        if reader.takes("&") or reader.takes("&&"):
            reader.takes("mut")
            return self.prefix(reader, structs)
        if reader.takes("*"):
            return self.prefix(reader, structs)
        if reader.takes("-") or reader.takes("!"):
            self.acts = True
            return self.prefix(reader, structs)
        if reader.takes("..") or reader.takes("..="):
            if not self.ends(reader, structs):
                self.expression(reader, 2, structs)
            return ("list", NUMBER)
        if reader.text() in ("return", "break", "continue") and reader.kind() == "word":
            reader.take()
            if not self.ends(reader, structs):
                self.expression(reader, 0, structs)
            return None
        if reader.text() in ("|", "||", "move") and reader.kind() in ("sign", "word"):
            return self.closure(reader, ())
        return self.behind(reader, self.primary(reader, structs))

    def closure(self, reader, given):
        """A closure, whose parameters have these types where it says none."""
        reader.takes("move")
        self.names.append({})
        if not reader.takes("||"):
            reader.needs("|")
            place = 0
            while not reader.takes("|"):
                begin = reader.at
                skip_to(reader, ":", ",", "|")
                pattern = reader.words[begin : reader.at]
                type_ = self.lower(read_type(reader)) if reader.takes(":") else given[place] if place < len(given) else None
                self.bind(Reader(pattern), type_)
                reader.takes(",")
                place += 1
        if reader.takes("->"):
            read_type(reader)
        gives = self.expression(reader, 0, True)
        self.names.pop()
        return ("closure", gives)

    def primary(self, reader, structs):
        text, kind = reader.text(), reader.kind()
        if kind in ("number", "char", "text"):
            reader.take()
            return NUMBER if kind != "text" else ("list", NUMBER) if text.startswith("b") else TEXT
        if text == "(":
            return self.tuple(Reader(skip_brackets(reader)))
        if text == "[":
            return self.array(Reader(skip_brackets(reader)))
        if text == "{" or text == "unsafe":
            reader.takes("unsafe")
            return self.block(Reader(skip_brackets(reader)))
        if kind == "word" and text in ("if", "match", "loop", "while", "for"):
            reader.take()
            self.acts = True
            return getattr(self, "read_" + text)(reader)
        if text in ("true", "false"):
            reader.take()
            return BOOL
        return self.path(reader, structs)

    def tuple(self, inner):
        parts, is_tuple = [], False
        while inner.at < len(inner.words):
            parts.append(self.expression(inner, 0, True))
            is_tuple = inner.takes(",") or is_tuple
        return parts[0] if len(parts) == 1 and not is_tuple else ("tuple", tuple(parts))

    def array(self, inner):
        element = None
        while inner.at < len(inner.words):
            element = self.expression(inner, 0, True) or element
            inner.takes(",") or inner.takes(";")
        return ("list", element)

    # ---- branches and loops

    def condition(self, reader):
        """A condition, in which `let` may bind names. Whether another event's variant is asked for."""
        is_other = False
        while True:
            if reader.takes("let"):
                begin = reader.at
                skip_to(reader, "=")
                pattern = reader.words[begin : reader.at]
                reader.needs("=")
                type_ = self.expression(reader, LEVEL["&&"] + 1, False)
                is_other = is_other or not self.way.may_be(self.module, pattern)
                self.bind(Reader(pattern), type_)
            else:
                self.expression(reader, LEVEL["&&"] + 1, False)
            if reader.takes("||"):
                self.expression(reader, 0, False)
            if not reader.takes("&&"):
                return is_other

    def read_if(self, reader):
        self.names.append({})
        is_other = self.condition(reader)
        words = skip_brackets(reader)
        type_ = None if is_other else self.block(Reader(words))
        self.names.pop()
        if reader.takes("else"):
            other = self.read_if(reader) if reader.takes("if") else self.block(Reader(skip_brackets(reader)))
            type_ = other if type_ in (None, UNIT) else type_
        return type_

    def read_match(self, reader):
        asked = self.expression(reader, 0, False)
        inner, type_, is_found = Reader(skip_brackets(reader)), None, False
        while inner.at < len(inner.words):
            begin = inner.at
            skip_to(inner, "=>")
            head = inner.words[begin : inner.at]
            inner.needs("=>")
            body = inner.at
            self.skip_arm(inner)
            if not is_found and self.way.may_be(self.module, head):
                arm = self.arm(head, inner.words[body : inner.at], asked)
                type_ = arm if type_ in (None, UNIT) else type_
                is_found = self.way.settles(self.module, head, asked)
            inner.takes(",")
        return type_

    def skip_arm(self, inner):
        if inner.text() == "{":
            skip_brackets(inner)
        else:
            while inner.at < len(inner.words) and inner.text() != ",":
                inner.at += 1 if inner.kind() != "sign" or inner.text() not in OPENS else 0
                if inner.kind() == "sign" and inner.text() in OPENS:
                    skip_brackets(inner)

    def arm(self, head, body, asked):
        self.names.append({})
        reader = Reader(head)
        self.bind(reader, asked)
        if reader.takes("if"):
            self.expression(reader, 0, True)
        type_ = self.expression(Reader(body), 0, True)
        self.names.pop()
        return type_

    def read_loop(self, reader):
        self.block(Reader(skip_brackets(reader)))
        return None

    def read_while(self, reader):
        self.names.append({})
        self.condition(reader)
        self.block(Reader(skip_brackets(reader)))
        self.names.pop()
        return UNIT

    def read_for(self, reader):
        begin = reader.at
        while not (reader.text() == "in" and reader.kind() == "word"):
            reader.at += 1
        pattern = reader.words[begin : reader.at]
        reader.needs("in")
        over = self.expression(reader, 0, False)
        self.names.append({})
        self.bind(Reader(pattern), over[1] if over and over[0] == "list" else None)
        self.block(Reader(skip_brackets(reader)))
        self.names.pop()
        return UNIT
