"""What the methods of std and of the kit give, as far as types of ours go through them."""
from type_forms import BOOL, NUMBER, TEXT, UNIT

SAME_LIST = set("iter iter_mut into_iter rev copied cloned skip take step_by as_slice as_mut_slice chain filter to_vec by_ref drain "
                "clone as_ref as_mut skip_while take_while cycle".split())
ONE = set("get get_mut first last pop next nth max min find first_mut last_mut next_back remove max_by_key min_by_key".split())
SAME_OPTION = set("as_ref as_mut take cloned copied filter or or_else replace clone insert".split())
UNWRAPS = set("unwrap expect unwrap_or unwrap_or_else unwrap_or_default unwrap_unchecked".split())
NUMBERS_OF_LISTS = set("len count sum position capacity".split())
TESTS = set("is_empty contains any all is_some is_none is_ok is_err starts_with ends_with eq".split())


def takes_nothing(name, arguments):
    """Whether a call of std only reads or wraps: it has no argument, or is one of these conversions."""
    return not arguments or name in ("new", "from", "unwrap_or", "expect")


def gives(argument):
    return argument[1] if argument and argument[0] == "closure" else None


def closure_given(type_, name):
    """The types that a closure gets from a method of std."""
    if not type_ or type_[0] not in ("list", "option", "result"):
        return ()
    if name == "fold":
        return (None, type_[1])
    return (type_[2],) if name in ("map_err", "unwrap_or_else", "or_else") and type_[0] == "result" else (type_[1],)


def of_list(type_, name, arguments):
    if name in SAME_LIST:
        return type_
    if name in ONE:
        return ("option", type_[1])
    if name in NUMBERS_OF_LISTS:
        return NUMBER
    table = {"enumerate": ("list", ("tuple", (NUMBER, type_[1]))), "as_bytes": ("list", NUMBER), "chunks": ("list", type_),
             "chunks_mut": ("list", type_), "windows": ("list", type_), "split_at": ("tuple", (type_, type_)),
             "split_at_mut": ("tuple", (type_, type_)), "collect": type_, "as_str": TEXT}
    if name == "map":
        return ("list", gives(arguments[0]))
    if name == "zip":
        other = arguments[0]
        return ("list", ("tuple", (type_[1], other[1] if other and other[0] == "list" else None)))
    if name == "fold":
        return arguments[0]
    return table.get(name, UNIT if name in ("push", "push_reserved", "clear", "swap", "fill", "copy_from_slice") else None)


def of_option(type_, name, arguments):
    if name in SAME_OPTION:
        return type_
    if name in UNWRAPS:
        return type_[1]
    if name == "map":
        return ("option", gives(arguments[0]))
    if name == "and_then":
        return gives(arguments[0])
    if name in ("ok_or", "ok_or_else"):
        return ("result", type_[1], gives(arguments[0]) if name == "ok_or_else" else arguments[0])
    return ("list", type_[1]) if name == "iter" else None


def of_result(type_, name, arguments):
    table = {"ok": ("option", type_[1]), "err": ("option", type_[2]), "as_ref": type_, "as_mut": type_}
    if name in UNWRAPS:
        return type_[1]
    if name == "map":
        return ("result", gives(arguments[0]), type_[2])
    if name == "map_err":
        return ("result", type_[1], gives(arguments[0]))
    return gives(arguments[0]) if name == "and_then" else table.get(name)


def result_of(type_, name, arguments):
    """What a method of std gives."""
    if name in TESTS:
        return BOOL
    if type_ and type_[0] in ("list", "option", "result"):
        return {"list": of_list, "option": of_option, "result": of_result}[type_[0]](type_, name, arguments)
    if type_ == TEXT:
        return {"as_bytes": ("list", NUMBER), "bytes": ("list", NUMBER), "chars": ("list", NUMBER), "len": NUMBER, "as_str": TEXT,
                "trim": TEXT, "split": ("list", TEXT), "get": ("option", TEXT)}.get(name)
    if type_ == NUMBER:
        return NUMBER
    return type_ if name in ("clone", "as_ref", "as_mut", "borrow") else None
