"""The way of a slot of one event: the functions that are reached from a call, in the order of first calls."""
from calls import Calls
from items import Type

# the turns that each kind of puzzles has
TURNS = {"Faces": {"Face"}, "Axes": {"Axis", "Tip"}, "LayersAndTwist": {"Layers", "Twist"}, "PinSets": {"Pins", "Over"},
         "WideTurns": {"Wide"}}


class Way:
    """All that is reached, with who calls what; `unsure` has the calls whose type isn't known, with all that they may be."""

    def __init__(self, scopes, event):
        self.scopes, self.event = scopes, event
        self.functions, self.callers, self.unsure, self.several, self.unknown = [], {}, {}, set(), set()
        self.calls, self.acts, self.seen = {}, {}, set()
        self.own = {"Event": {event.variant}, "Puzzle": {event.puzzle}, "Kind": {event.kind}, "Turn": TURNS[event.kind]}

    def call(self, caller, function, env, candidates):
        """A call, which is followed unless the function does nothing, as a law."""
        if is_law(function) or function.body is None:
            return
        if candidates > 1:
            self.several.add((caller, function.name))
        if function not in self.calls:
            self.functions.append(function)
            self.calls[function], self.acts[function], self.callers[function] = set(), False, []
        if caller is not None:
            self.calls[caller].add(function)
            if (caller, candidates) not in self.callers[function]:
                self.callers[function].append((caller, candidates))
        key = (function, frozenset(env.items()))
        if key not in self.seen:
            self.seen.add(key)
            body = Calls(self, function, env)
            body.read()
            self.acts[function] = self.acts[function] or body.acts

    def counted(self):
        """The functions that do something: they are handed something to change, branch, loop, compute, look into a
        list, hand arguments to std, or call such a one."""
        doing = {function for function in self.functions if self.acts[function] or changes(function)}
        while True:
            more = {function for function in self.functions if function not in doing and self.calls[function] & doing}
            if not more:
                return [function for function in self.functions if function in doing]
            doing |= more

    # ---- which arms are the event's

    def variants(self, module, words):
        """The variants of events, kinds and turns that each alternative of a pattern names."""
        found, begin, depth = [[]], 0, 0
        for at, (kind, text) in enumerate(words):
            depth += (text in "([{" if kind == "sign" else 0) - (text in ")]}" if kind == "sign" else 0)
            if text == "if" and kind == "word":
                break
            if text == "|" and depth == 0:
                found.append([])
            if text == "::" and words[at - 1][0] == "word" and words[at + 1][0] == "word":
                item = self.scopes.find(module, [words[at - 1][1]])
                enum = item and item[0]
                if isinstance(enum, Type) and enum.name in self.own and enum.module.crate == "scr_notation":
                    found[-1].append((enum.name, words[at + 1][1]))
        return found

    def may_be(self, module, words):
        """Whether a pattern may be met by values of the event."""
        return any(all(name in self.own[enum] for enum, name in named) for named in self.variants(module, words))

    def settles(self, module, words, asked):
        """Whether a pattern is met by whatever the event has there: it is the event itself, its puzzle, or its kind."""
        is_one = asked and asked[0] == "own" and asked[1].name in ("Event", "Puzzle", "Kind")
        has_guard = any(text == "if" and kind == "word" for kind, text in words)
        return bool(is_one and not has_guard and any(named and all(name in self.own[enum] for enum, name in named)
                                                     for named in self.variants(module, words)))


def changes(function):
    """Whether a function is handed something to change."""
    return any(is_changed for _, _, is_changed in function.parameters)


def is_law(function):
    """Whether a function gives nothing and changes nothing: it is there for what its contract says."""
    return function.result == ("tuple", []) and not changes(function)
