"""The items of crates: modules, types, traits, impls and functions, as their sources declare them."""
import os

from tokens import OPENS, closing, tokens
from type_forms import Reader, read_bounds, read_type, read_until, skip_brackets, skip_to

VISIBLE = {"pub", "final", "unsafe", "extern", "async"}


class Module:
    """What names mean in a module: its own items, and what it takes from others."""

    def __init__(self, crate, path):
        self.crate, self.path, self.items, self.uses, self.globs = crate, path, {}, {}, []


class Type:
    """A struct or an enum: fields, or variants with theirs."""

    def __init__(self, name, module, generics):
        self.name, self.module, self.generics, self.fields, self.variants = name, module, generics, {}, {}


class Alias:
    def __init__(self, name, module, generics, type_):
        self.name, self.module, self.generics, self.type = name, module, generics, type_


class Const:
    def __init__(self, name, module, type_):
        self.name, self.module, self.type = name, module, type_


class Group:
    """A trait or an impl: its functions, types and constants."""

    def __init__(self, module, generics):
        self.module, self.generics, self.functions, self.types, self.consts = module, generics, {}, {}, {}
        self.name = self.trait = self.type = None
        self.supers = []


class Function:
    """A function: its parameters, their types and the type of what it gives, as written, and the words of its body."""

    def __init__(self, name, module, owner):
        self.name, self.module, self.owner = name, module, owner
        self.generics, self.parameters, self.result, self.body = [], [], None, None

    def has_self(self):
        """Whether it is a method."""
        return bool(self.parameters) and self.parameters[0][0] == [("word", "self")]

    def title(self):
        """As documents call it: with its type, if it is a method."""
        owner = self.owner and (self.owner.name if self.owner.type is None else type_name(self.owner.type))
        return "%s::%s" % (owner, self.name) if owner else self.name


def type_name(written):
    return written[1][-1][0] if written[0] == "path" else "_"


def read_generics(reader):
    """The parameters behind `<`: each with its bounds; of constants None."""
    found = []
    if not reader.takes("<"):
        return found
    while not reader.takes(">"):
        if reader.takes("const"):
            name = reader.take()
            reader.needs(":")
            read_type(reader)
            found.append((name, None))
        elif reader.kind() == "word":
            name = reader.take()
            found.append((name, read_bounds(reader) if reader.takes(":") else []))
        else:
            reader.take()
        reader.takes(",")
    return found


def skip_where(reader):
    if reader.takes("where"):
        skip_to(reader, "{", ";")


class Crates:
    """All crates of a repository that are read, with the list of their impls."""

    def __init__(self, top):
        self.top, self.crates, self.impls, self.functions = top, {}, [], []

    def crate(self, name):
        if name not in self.crates:
            folder = os.path.join(self.top, "crates", name, "src")
            if not os.path.exists(os.path.join(folder, "lib.rt")):
                return None
            self.crates[name] = Module(name, ())
            self.read_file(self.crates[name], folder, "lib.rt")
        return self.crates[name]

    def read_file(self, module, folder, file):
        with open(os.path.join(folder, file), encoding="utf-8") as source:
            words = tokens(source.read())
        below = folder if file == "lib.rt" else os.path.join(folder, file[:-3])
        Items(self, module, below).read_all(Reader(words))


class Items:
    """Reads the items of one file or module into it."""

    def __init__(self, crates, module, folder):
        self.crates, self.module, self.folder = crates, module, folder

    def read_all(self, reader):
        while reader.at < len(reader.words):
            is_test = False
            while reader.kind() == "test":
                reader.take()
                is_test = True
            if is_test:
                self.skip_item(reader)
            else:
                self.read_one(reader, None)

    def skip_item(self, reader):
        skip_to(reader, "{", ";")
        reader.take() if reader.text() == ";" else skip_brackets(reader)

    def skip_visibility(self, reader):
        while reader.text() in VISIBLE:
            reader.take()
            if reader.text() == "(":
                skip_brackets(reader)

    def read_one(self, reader, group):
        """One item, of a module or of a trait or an impl."""
        self.skip_visibility(reader)
        if reader.text() == "const" and reader.text(1) == "fn":
            reader.take()
        word = reader.take()
        read = getattr(self, "read_" + word, None) if word in ITEMS else None
        if read:
            read(reader, group)
        elif word == "macro_rules":
            reader.take(), reader.take()
            skip_brackets(reader)
        elif word not in (";",):
            raise SyntaxError("%s: an item begins with %s %s" % (self.module.path, word, reader.text()))

    def read_use(self, reader, _group):
        self.read_use_tree(reader, [])
        reader.needs(";")

    def read_use_tree(self, reader, before):
        path = list(before)
        while True:
            if reader.takes("{"):
                read_until(reader, "}", lambda inner: self.read_use_tree(inner, path))
                return
            if reader.takes("*"):
                self.module.globs.append(path)
                return
            path.append(reader.take())
            if reader.takes("as"):
                self.module.uses[reader.take()] = path
                return
            if not reader.takes("::"):
                name = path[-2] if path[-1] == "self" else path[-1]
                self.module.uses[name] = path[:-1] if path[-1] == "self" else path
                return

    def read_mod(self, reader, _group):
        name = reader.take()
        module = self.module.items[name] = Module(self.module.crate, self.module.path + (name,))
        if reader.takes(";"):
            self.crates.read_file(module, self.folder, name + ".rt")
        else:
            words = skip_brackets(reader)
            Items(self.crates, module, os.path.join(self.folder, name)).read_all(Reader(words))

    def read_struct(self, reader, _group):
        name = reader.take()
        struct = self.module.items[name] = Type(name, self.module, read_generics(reader))
        struct.fields = self.read_fields(reader) or {}
        skip_where(reader)
        reader.takes(";")

    def read_fields(self, reader):
        """Fields in braces or brackets, if any follow, by names or by numbers."""
        if reader.text() == "{":
            inner, fields = Reader(skip_brackets(reader)), {}
            while inner.at < len(inner.words):
                self.skip_visibility(inner)
                name = inner.take()
                inner.needs(":")
                fields[name] = read_type(inner)
                inner.takes(",")
            return fields
        if reader.text() == "(":
            inner, fields = Reader(skip_brackets(reader)), {}
            while inner.at < len(inner.words):
                self.skip_visibility(inner)
                fields[str(len(fields))] = read_type(inner)
                inner.takes(",")
            return fields
        return None

    def read_enum(self, reader, _group):
        name = reader.take()
        enum = self.module.items[name] = Type(name, self.module, read_generics(reader))
        inner = Reader(skip_brackets(reader))
        while inner.at < len(inner.words):
            variant = inner.take()
            enum.variants[variant] = self.read_fields(inner) or {}
            if inner.takes("="):
                skip_to(inner, ",")
            inner.takes(",")

    def read_type(self, reader, group):
        name, generics = reader.take(), read_generics(reader)
        bounds = read_bounds(reader) if reader.takes(":") else []
        written = read_type(reader) if reader.takes("=") else ("bound", bounds)
        reader.needs(";")
        if group is None:
            self.module.items[name] = Alias(name, self.module, generics, written)
        else:
            group.types[name] = written

    def read_const(self, reader, group):
        name = reader.take()
        reader.needs(":")
        const = Const(name, self.module, read_type(reader))
        skip_to(reader, ";")
        reader.take()
        (self.module.items if group is None else group.consts)[name] = const

    def read_static(self, reader, group):
        reader.takes("mut")
        self.read_const(reader, group)

    def read_trait(self, reader, _group):
        name = reader.take()
        trait = Group(self.module, read_generics(reader))
        trait.name = name
        trait.supers = read_bounds(reader) if reader.takes(":") else []
        skip_where(reader)
        self.module.items[name] = trait
        self.read_group(reader, trait)

    def read_impl(self, reader, _group):
        impl = Group(self.module, read_generics(reader))
        first = read_type(reader)
        impl.trait, impl.type = (first, read_type(reader)) if reader.takes("for") else (None, first)
        skip_where(reader)
        self.read_group(reader, impl)
        self.crates.impls.append(impl)

    def read_group(self, reader, group):
        inner = Reader(skip_brackets(reader))
        while inner.at < len(inner.words):
            if inner.kind() == "test":
                inner.take()
                self.skip_item(inner)
            else:
                self.read_one(inner, group)

    def read_fn(self, reader, group):
        function = Function(reader.take(), self.module, group)
        function.generics = read_generics(reader)
        inner = Reader(skip_brackets(reader))
        while inner.at < len(inner.words):
            function.parameters.append(read_parameter(inner))
            inner.takes(",")
        function.result = read_type(reader) if reader.takes("->") else ("tuple", [])
        skip_where(reader)
        if not reader.takes(";"):
            function.body = skip_brackets(reader)
        (self.module.items if group is None else group.functions)[function.name] = function
        self.crates.functions.append(function)


ITEMS = {"use", "mod", "struct", "enum", "type", "const", "static", "trait", "impl", "fn"}


def read_parameter(reader):
    """The words of a parameter's pattern, its type, and whether it is `&mut`; the type of self is None."""
    begin = reader.at
    is_changed = reader.text() == "&" and reader.text(1) == "mut"
    while reader.text() in ("&", "mut"):
        reader.take()
    if reader.text() == "self" and reader.text(1) in ("", ","):
        reader.take()
        return ([("word", "self")], None, is_changed)
    reader.at = begin
    while reader.text() != ":" or reader.kind() != "sign":
        reader.at = closing(reader.words, reader.at) if reader.text() in OPENS else reader.at + 1
    pattern = reader.words[begin : reader.at]
    reader.needs(":")
    is_changed = reader.text() == "&" and reader.text(1) == "mut"
    return (pattern, read_type(reader), is_changed)
