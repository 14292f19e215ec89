"""Calls: what a path or a method means where it is called, and what types go into it."""
from bodies import Body
from items import Alias, Const, Function, Group, Type
from standard import closure_given, result_of, takes_nothing
from type_forms import BOOL, TEXT, Reader, put_in, read_arguments, read_type, skip_brackets, unify

WRAPS = {"Some": lambda it: ("option", it), "Ok": lambda it: ("result", it, None), "Err": lambda it: ("result", None, it)}
STOPS = {"unreachable", "panic"}


class Calls(Body):
    """A body with the part that reads paths, fields and calls."""

    # ---- paths

    def path(self, reader, structs):
        parts, given = self.read_parts(reader)
        if reader.text() == "!" and reader.text(1) in ("(", "[", "{"):
            reader.take()
            return self.macro(parts[-1][0], skip_brackets(reader))
        if given is None and len(parts) == 1 and self.is_local(parts[0][0]):
            return self.local(reader, parts[0][0])
        meaning = self.meaning(parts, given)
        if reader.text() == "(":
            return self.call_path(meaning, parts, Reader(skip_brackets(reader)))
        if reader.text() == "{" and structs and meaning[0] == "make":
            return self.literal(meaning[1], meaning[2], Reader(skip_brackets(reader)))
        if meaning[0] == "functions":
            return ("closure", self.called(meaning[1], parts[-1][1], [], parts[-1][0]))
        return self.valued(meaning, parts[-1][0])

    def valued(self, meaning, name):
        """The type of a path that isn't called."""
        if meaning[0] in ("make", "value"):
            return meaning[1]
        return ("option", None) if name == "None" else None

    def local(self, reader, name):
        type_ = self.name_type(name)
        if reader.text() != "(":
            return type_
        self.arguments(Reader(skip_brackets(reader)))
        self.acts = True
        return type_[1] if type_ and type_[0] == "closure" else None

    def read_parts(self, reader):
        """The names of a path with their arguments, and the type before it, if it begins with one in `<>`."""
        given, parts = None, []
        if reader.takes("<"):
            given = self.lower(read_type(reader))
            if reader.takes("as"):
                read_type(reader)
            reader.needs(">")
            reader.needs("::")
        while True:
            name, arguments = reader.take(), []
            if reader.text() == "::" and reader.text(1) == "<":
                reader.at += 2
                arguments = read_arguments(reader)
            parts.append((name, arguments))
            if not reader.takes("::"):
                return parts, given

    def meaning(self, parts, given):
        """What a path means: functions that it may be, a type that it makes, a value of a type, or nothing of ours."""
        names = [name for name, _ in parts]
        if given is not None:
            return self.of_type(self.scopes.inner_types(given, names[:-1]), names[-1])
        if names[0] in self.env:
            type_ = self.scopes.inner_types(self.env[names[0]], names[1:-1])
            return self.of_type(type_, names[-1]) if len(names) > 1 else ("make", type_, None)
        found = self.scopes.find(self.module, names)
        if found is None:
            return self.of_standard(parts)
        item, rest = found
        if isinstance(item, tuple):
            return ("make", self.scopes.own(item[0], []), item[1])
        if isinstance(item, Function):
            return ("functions", [(item, {})])
        if isinstance(item, Const):
            return ("value", self.scopes.lower(item.type, item.module, {}))
        if isinstance(item, Group):
            return ("trait", item, rest[0] if rest else "")
        if isinstance(item, (Type, Alias)):
            type_ = self.lower(("path", parts[: len(parts) - len(rest)], None))
            return self.of_type(type_, rest[0]) if rest else ("make", type_, None)
        return ("nothing",)

    def of_type(self, type_, name):
        """What stands behind a type and `::`."""
        if type_ and type_[0] == "own" and name in type_[1].variants:
            return ("make", type_, name)
        functions = self.scopes.methods(type_, name, self.module)
        if functions:
            return ("functions", functions)
        if type_ and type_[0] == "param":
            return ("open", name)
        const = self.scopes.const(type_, name)
        return ("value", const) if const else ("standard", type_)

    def of_standard(self, parts):
        if len(parts) == 1:
            return ("nothing",)
        type_ = self.lower(("path", parts[:-1], None))
        functions = self.scopes.methods(type_, parts[-1][0], self.module)
        return ("functions", functions) if functions else ("standard", type_)

    # ---- calls

    def call_path(self, meaning, parts, inner):
        name = parts[-1][0]
        if name in WRAPS and meaning[0] == "nothing":
            return WRAPS[name](self.arguments(inner)[0])
        if meaning[0] == "make":
            return self.literal(meaning[1], meaning[2], inner, False)
        arguments = self.arguments(inner)
        if meaning == ("nothing",) and not self.scopes.is_from_outside(self.module, name):
            self.way.unknown.add((self.function, name))
        if meaning[0] == "trait":
            functions = self.scopes.methods(arguments[0] if arguments else None, meaning[2], self.module)
            meaning = ("functions", functions) if functions else ("open", name)
        if meaning[0] == "functions":
            return self.called(meaning[1], parts[-1][1], arguments, name)
        if meaning[0] == "open":
            return self.unsure(name, arguments)
        if len(meaning) > 1 and meaning[1] and meaning[1][0] == "own":
            self.way.unknown.add((self.function, name))
        self.acts = self.acts or not takes_nothing(name, arguments)
        return self.made_by_standard(meaning[1] if len(meaning) > 1 else None, name)

    def made_by_standard(self, type_, name):
        if type_ and type_[0] == "list" and name in ("with_capacity", "from_array", "from_slice"):
            return ("result", type_, None)
        return type_ if name in ("new", "from", "default") else None

    def arguments(self, inner, given=()):
        found = []
        while inner.at < len(inner.words):
            while inner.text() in ("&", "mut") and inner.text(1) in ("|", "||", "move", "&"):
                inner.take()
            is_closure = inner.text() in ("|", "||", "move") and inner.kind() in ("sign", "word")
            found.append(self.closure(inner, given) if is_closure else self.expression(inner, 0, True))
            inner.takes(",")
        return found

    def called(self, functions, turbofish, arguments, name):
        """The type of a call of one of these functions, each of which is followed."""
        result = None
        for function, env in functions:
            solved = self.solved(function, env, turbofish, arguments)
            self.way.call(self.function, function, solved, len(functions))
            result = result or self.scopes.lower(function.result, function.module, solved)
        return result

    def solved(self, function, env, turbofish, arguments):
        """What a function's type parameters, and those of its impl, are in a call."""
        open_ = {**env, **{name: ("param", name) for name, _ in function.generics}}
        answers = {name: self.lower(written) for (name, _), written in zip(function.generics, turbofish)}
        answers = {name: type_ for name, type_ in answers.items() if type_ is not None}
        types = [None if type_ is None else self.scopes.lower(type_, function.module, open_) for _, type_, _ in function.parameters]
        if function.parameters and function.parameters[0][1] is None:
            types = [env.get("Self"), *types[1:]]
        for pattern, found in zip(types[len(types) - len(arguments) :] if len(arguments) < len(types) else types, arguments):
            unify(pattern, found, answers)
        for name, bounds in function.generics:
            self.solve_closure(answers.get(name), bounds or (), function, open_, answers)
        full = {**env, **{name: ("param", name) for name, _ in function.generics}, **answers}
        if "Self" in full:
            full["Self"] = put_in(full["Self"], answers)
        return full

    def solve_closure(self, type_, bounds, function, open_, answers):
        """What a closure gives is what its bound says that it gives."""
        for bound in bounds:
            if type_ and type_[0] == "closure" and bound[0] == "path" and bound[1][-1][0] in ("Fn", "FnMut", "FnOnce"):
                unify(self.scopes.lower(bound[1][-1][1][0], function.module, open_), type_[1], answers)

    def unsure(self, name, arguments):
        """A method of an unknown type: all that it may be are followed."""
        own = [it for it in self.scopes.all_named(name) if len(it[0].parameters) in (len(arguments), len(arguments) + 1)]
        if not own:
            self.acts = self.acts or not takes_nothing(name, arguments)
            return None
        self.way.unsure.setdefault((self.function, name), [function for function, _ in own])
        return self.called(own, [], [], name)

    # ---- what stands behind an operand

    def behind(self, reader, type_):
        while True:
            if reader.text() == "." and reader.kind() == "sign":
                reader.take()
                type_ = self.member(reader, type_)
            elif reader.text() == "[":
                self.acts = True
                inner = self.tuple(Reader(skip_brackets(reader)))
                is_range = inner and inner[0] == "list"
                type_ = type_ if is_range or type_ == TEXT else type_[1] if type_ and type_[0] == "list" else None
            elif reader.text() == "(":
                self.arguments(Reader(skip_brackets(reader)))
                type_ = type_[1] if type_ and type_[0] == "closure" else None
            elif reader.text() == "?":
                reader.take()
                type_ = self.tried(type_)
            else:
                return type_

    def tried(self, type_):
        """What `?` gives; an error of another type is converted."""
        self.acts = True
        if not type_ or type_[0] not in ("option", "result"):
            return None
        gives = self.gives
        if type_[0] == "result" and type_[2] and gives and gives[0] == "result" and gives[2]:
            found = self.scopes.conversion(type_[2], gives[2])
            if found:
                self.way.call(self.function, *found, 1)
        return type_[1]

    def member(self, reader, type_):
        name, turbofish = reader.take(), []
        if reader.text() == "::" and reader.text(1) == "<":
            reader.at += 2
            turbofish = read_arguments(reader)
        if reader.text() != "(":
            for part in name.split("."):
                type_ = self.scopes.field(type_, part)
            return type_
        return self.method(type_, name, turbofish, Reader(skip_brackets(reader)))

    def method(self, type_, name, turbofish, inner):
        functions = self.scopes.methods(type_, name, self.module)
        if functions:
            return self.called(functions, turbofish, self.arguments(inner), name)
        arguments = self.arguments(inner, closure_given(type_, name))
        if type_ is None or type_[0] == "param":
            found = self.unsure(name, arguments)
            return found if found is not None else result_of(type_, name, arguments)
        if type_[0] == "own":
            self.way.unknown.add((self.function, name))
        self.acts = self.acts or not takes_nothing(name, arguments)
        return result_of(type_, name, arguments)

    # ---- values

    def literal(self, type_, variant, inner, has_names=True):
        """A value of a struct or a variant with its fields."""
        if not type_ or type_[0] != "own":
            self.arguments(inner)
            return type_
        opened = ("own", type_[1], tuple(("param", name) for name, _ in type_[1].generics))
        fields = self.scopes.variant_fields(opened, variant) if variant else {
            name: self.scopes.field(opened, name) for name in type_[1].fields}
        answers, place = {}, 0
        while inner.at < len(inner.words):
            if inner.takes(".."):
                self.expression(inner, 0, True)
                continue
            name = inner.take() if has_names else str(place)
            found = self.expression(inner, 0, True) if not has_names or inner.takes(":") else self.name_type(name)
            unify(fields.get(name), found, answers)
            inner.takes(",")
            place += 1
        return put_in(type_ if any(it and it[0] != "param" for it in type_[2]) else opened, answers)

    def macro(self, name, words):
        """A call of a macro, of whose words those are read that are expressions."""
        if name in STOPS:
            return None
        self.acts = True
        inner = Reader(words)
        if name == "matches":
            self.expression(inner, 0, True)
            return BOOL
        while inner.at < len(inner.words):
            if inner.takes("in") or inner.takes(",") or inner.takes(";"):
                continue
            self.expression(inner, 0, True)
        return TEXT if name == "format" else None
