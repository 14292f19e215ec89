"""What names, types and methods mean where they stand."""
import os

from items import Alias, Crates, Group, Module, Type
from type_forms import LISTS, NUMBER, NUMBERS, TEXT, unify

TEXTS = {"str", "String", "ArrayString"}


class Scopes:
    """All crates that a program stands on, with what their impls are for."""

    def __init__(self, top, crate):
        self.all = Crates(top)
        self.all.crate(crate)
        self.read_used()
        self.by_method, self.patterns = {}, {}
        for impl in self.all.impls:
            self.add_impl(impl)

    def read_used(self):
        """Reads each crate that one names, until all are there."""
        names = set(os.listdir(os.path.join(self.all.top, "crates")))
        while True:
            before = len(self.all.crates)
            for module in list(self.modules()):
                for path in list(module.uses.values()) + module.globs:
                    if path[0] in names:
                        self.all.crate(path[0])
            if len(self.all.crates) == before:
                return

    def modules(self):
        todo = list(self.all.crates.values())
        while todo:
            module = todo.pop()
            yield module
            todo += [item for item in module.items.values() if isinstance(item, Module)]

    def add_impl(self, impl):
        open_ = {name: ("param", name) for name, _ in impl.generics}
        self.patterns[impl] = self.lower(impl.type, impl.module, open_)
        if self.patterns[impl] is None or self.patterns[impl][0] == "param":
            return  # an impl for what references refer to, which are taken for it
        trait = self.trait_of(impl)
        for name in {*impl.functions, *impl.types, *impl.consts, *(trait.functions if trait else ())}:
            self.by_method.setdefault(name, []).append(impl)

    def trait_of(self, impl):
        if impl.trait is None or impl.trait[0] != "path":
            return None
        found = self.find(impl.module, [name for name, _ in impl.trait[1]])
        return found[0] if found and isinstance(found[0], Group) else None

    # ---- names

    def find(self, module, names, seen=()):
        """The item that a path names, and the names behind it that are no modules' items; None for what stands elsewhere."""
        first = names[0]
        if first == "crate":
            item = self.all.crates[module.crate]
        elif first in ("self", "super"):
            item = self.parent(module) if first == "super" else module
        else:
            item = self.find_first(module, first, seen)
        for k, name in enumerate(names[1:], 1):
            if not isinstance(item, Module):
                return item and (item, names[k:])
            item = self.find_first(item, name, seen)
        return item and (item, [])

    def parent(self, module):
        item = self.all.crates[module.crate]
        for name in module.path[:-1]:
            item = item.items[name]
        return item

    def find_first(self, module, name, seen):
        """What one name means in a module; a variant that is used by its name is a pair of its enum and that."""
        if name in module.items:
            return module.items[name]
        if name in module.uses and (module, name) not in seen:
            path = module.uses[name]
            found = self.find(module, path, (*seen, (module, name)))
            if found:
                return found[0] if not found[1] else (found[0], found[1][0])
            return None
        for path in module.globs:
            found = self.find(module, path, seen) if (module, name) not in seen else None
            if found and not found[1]:
                inner = found[0]
                if isinstance(inner, Module) and name in inner.items:
                    return inner.items[name]
                if isinstance(inner, Type) and name in inner.variants:
                    return (inner, name)
        return self.all.crates.get(name)

    def is_from_outside(self, module, name):
        """Whether a module takes a name from std or from the kit."""
        first = module.uses.get(name, ["crate"])[0]
        return first not in ("crate", "self", "super") and first not in self.all.crates and first not in module.items

    # ---- types

    def lower(self, written, module, env):
        """The type that is written in a module, where parameters are these."""
        if written is None or written[0] == "bound" or written == ("path", [("_", [])], None):
            return None
        if written[0] == "constant":
            return written
        if written[0] == "list":
            return ("list", self.lower(written[1], module, env))
        if written[0] == "tuple":
            return ("tuple", tuple(self.lower(it, module, env) for it in written[1]))
        if written[0] != "path":
            return None
        _, parts, outer = written
        if outer:
            return self.inner_types(self.lower(outer[0], module, env), [name for name, _ in parts])
        if parts[0][0] in env:
            return self.inner_types(env[parts[0][0]], [name for name, _ in parts[1:]])
        return self.lower_name(parts, module, env)

    def lower_name(self, parts, module, env):
        arguments = [self.lower(it, module, env) for it in parts[-1][1] if it[0] != "named"]
        found = self.find(module, [name for name, _ in parts])
        name = parts[-1][0]
        if found and isinstance(found[0], Alias):
            inner = dict(zip([it for it, _ in found[0].generics], arguments))
            return self.lower(found[0].type, found[0].module, inner)
        if found and isinstance(found[0], Type):
            return self.own(found[0], arguments)
        if name == "Option":
            return ("option", (arguments or [None])[0])
        if name == "Result":
            return ("result", *(arguments + [None, None])[:2])
        if name in LISTS:
            return ("list", (arguments or [None])[0])
        return NUMBER if name in NUMBERS else TEXT if name in TEXTS else ("other", name)

    def own(self, item, arguments):
        """A type with these arguments, as far as they are given."""
        known = list(arguments[: len(item.generics)])
        return ("own", item, tuple(known + [("param", name) for name, _ in item.generics[len(known) :]]))

    def inner_types(self, type_, names):
        """The types that a type has by impls of traits, one behind the other."""
        for name in names:
            found = None
            for impl, solved in self.impls_with(type_, name):
                if name in impl.types:
                    found = self.lower(impl.types[name], impl.module, {**solved, "Self": type_})
            type_ = found
        return type_

    def impls_with(self, type_, name):
        """The impls for a type that have something of this name, with their parameters."""
        if type_ is None or type_[0] == "param":
            return []
        found = []
        for impl in self.by_method.get(name, ()):
            solved = {}
            if self.patterns[impl][0] == type_[0] and unify(self.patterns[impl], type_, solved):
                opened = {it: ("param", it) for it, _ in impl.generics}
                found.append((impl, {**opened, **{it: value for it, value in solved.items() if value is not None}}))
        return found

    def field(self, type_, name):
        """The type of a field."""
        if type_ and type_[0] == "tuple" and name.isdigit() and int(name) < len(type_[1]):
            return type_[1][int(name)]
        if type_ and type_[0] == "own" and name in type_[1].fields:
            return self.lower(type_[1].fields[name], type_[1].module, dict(zip([it for it, _ in type_[1].generics], type_[2])))
        return None

    def variant_fields(self, type_, name):
        """The types of the fields of a variant."""
        env = dict(zip([it for it, _ in type_[1].generics], type_[2]))
        return {field: self.lower(written, type_[1].module, env) for field, written in type_[1].variants.get(name, {}).items()}

    # ---- methods

    def methods(self, type_, name, module):
        """The functions that a method or a function of a type may mean, each with the parameters of its impl: those of the
        type itself, or else those of traits, and of these those that the module brings in, if any."""
        own, by_trait = [], []
        for impl, solved in self.impls_with(type_, name):
            env = {**solved, "Self": type_}
            trait = self.trait_of(impl)
            if impl.trait is None:
                own += [(impl.functions[name], env)] if name in impl.functions else []
            elif name in impl.functions:
                by_trait.append((impl.functions[name], env, trait))
            elif trait and name in trait.functions and trait.functions[name].body is not None:
                by_trait.append((trait.functions[name], env, trait))
        if own:
            return own
        if len(by_trait) > 1:
            near = [it for it in by_trait if it[2] and self.brings(module, it[2])]
            by_trait = near or by_trait
        return [(function, env) for function, env, _ in by_trait]

    def brings(self, module, trait):
        """Whether a trait has its name in a module."""
        return self.find_first(module, trait.name, ()) is trait

    def all_named(self, name):
        """All functions of impls with this name that go by a value of their type: what a method of an unknown type may be."""
        found = []
        for impl in self.by_method.get(name, ()):
            function = impl.functions.get(name)
            if function and function.has_self():
                env = {it: ("param", it) for it, _ in impl.generics}
                found.append((function, {**env, "Self": self.patterns[impl]}))
        return found

    def const(self, type_, name):
        for impl, solved in self.impls_with(type_, name):
            trait = self.trait_of(impl)
            const = impl.consts.get(name) or (trait and trait.consts.get(name))
            if const:
                return self.lower(const.type, const.module, {**solved, "Self": type_})
        return None

    def conversion(self, from_, to):
        """The `from` by which `?` makes one error of another, with the parameters of its impl."""
        for impl, solved in self.impls_with(to, "from") if from_ != to else ():
            written = impl.trait[1][-1][1] if impl.trait and "from" in impl.functions else []
            if written and unify(self.lower(written[0], impl.module, solved), from_, solved):
                return impl.functions["from"], {**solved, "Self": to}
        return None
