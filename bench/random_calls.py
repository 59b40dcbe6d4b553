#!/usr/bin/env python3
"""Writes rows of calls on random terms: terms that are made normal twice, and equalities of products against a naive closure."""

import random
import sys

TERMS = 150
PRODUCTS = 12
QUESTIONS = 10

HEAD = """# Written by bench/random_calls.py.
"""


def value(rng, binders):
    """A name, a place of a binder, a literal, a function or an aggregate."""
    kinds = ["name", "literal"] + ["place"] * (2 if binders else 0) + ["function", "aggregate"]
    kind = rng.choice(kinds)
    if kind == "name":
        return f"f{rng.randrange(3)}"
    if kind == "literal":
        return f"c{rng.randrange(2)}"
    if kind == "place":
        return f"b{rng.randrange(binders)}"
    if kind == "function":
        return f"F0(f{rng.randrange(3)})"
    return f"G0({term(rng, 2, binders + 1)})"


def leaf(rng, binders):
    kind = rng.randrange(5)
    if kind == 0:
        return rng.choice("01")
    if kind == 1:
        return f"=({value(rng, binders)},{value(rng, binders)})"
    if kind == 2:
        return f"P0({value(rng, binders)})"
    return f"R{rng.randrange(3)}({value(rng, binders)})"


def term(rng, depth, binders):
    """A term of at most this depth, under so many binders."""
    if depth == 0:
        return leaf(rng, binders)
    kind = rng.randrange(7)
    if kind < 2:
        return f"+({term(rng, depth - 1, binders)},{term(rng, depth - 1, binders)})"
    if kind < 4:
        return f"*({term(rng, depth - 1, binders)},{term(rng, depth - 1, binders)})"
    if kind == 4:
        return f"S({term(rng, depth - 1, binders + 1)})"
    return f"{rng.choice('#!')}({term(rng, depth - 1, binders)})"


# A value is the text of a name, a literal or an aggregate, or a function and its arguments.

ATOMS = ["f0", "f1", "f2", "f3", "c0", "c1", "G0(R0(F7(f0)))"]


def text(it):
    if isinstance(it, str):
        return it
    return f"F{it[0]}({','.join(text(argument) for argument in it[1:])})"


def parts(it):
    """The value, and what stands in it: nothing does in an aggregate."""
    inner = [] if isinstance(it, str) else [part for argument in it[1:] for part in parts(argument)]
    return inner + [it]


def parts_of(values):
    return sorted({part for it in values for part in parts(it)}, key=text)


def calls_in(values):
    return [it for it in parts_of(values) if not isinstance(it, str)]


def alike(pairs, one, other):
    """Whether two calls have one function, and arguments that are equal by these pairs."""
    return one[0] == other[0] and len(one) == len(other) and all(both in pairs for both in zip(one[1:], other[1:]))


def closure(values, sides, calls):
    """The least congruence that holds the equalities, by trying all pairs until nothing changes."""
    pairs = {(it, it) for it in values} | set(sides)
    while True:
        more = {(b, a) for a, b in pairs}
        more |= {(a, d) for a, b in pairs for c, d in pairs if b == c}
        more |= {(a, b) for a in calls for b in calls if alike(pairs, a, b)}
        if more <= pairs:
            return pairs
        pairs |= more


# How a factor holds a term that is no factor itself: so that values stand in the product, and so that they do not.

SHOWN = ["{}", "#({})", "!({})", "+({},R0(f0))", "+(P1(c0),{})", "#(*({},P1(f1)))", "!(+(0,{}))", "#(!({}))"]
HIDDEN = ["S({})", "#(S({}))", "+(S({}),R0(f0))", "P1(G0({}))", "!(*(P1(f1),S({})))", "R0(F6(G0({})))"]


def row(name, values):
    return f"{name}({','.join(text(it) for it in values)})"


def equality(*values):
    return row("=", values)


def predicate(*values):
    return row("P0", values)


def relation(*values):
    return row("R0", values)


def negated_predicate(*values):
    return f"!({predicate(*values)})"


def negated_equality(*values):
    return f"!({equality(*values)})"


def product(rng, factors):
    """The factors in this order, grouped at random, with a 1 here and there."""
    if len(factors) == 1:
        return rng.choice([factors[0]] * 4 + [f"*(1,{factors[0]})", f"*({factors[0]},1)"])
    at = rng.randrange(1, len(factors))
    return f"*({product(rng, factors[:at])},{product(rng, factors[at:])})"


class Factors:
    """Equalities, and values, one or two at a time, that stand in further factors or are hidden there."""

    def __init__(self, rng, sides, shown, hidden):
        self.sides, self.said_inside = list(sides), []
        self.standing = parts_of([it for values in sides + shown for it in values])
        factors = [equality(*both) for both in sides]
        factors += [self.held(rng, SHOWN, values) for values in shown]
        factors += [self.held(rng, HIDDEN, values) for values in hidden]
        rng.shuffle(factors)
        self.count = len(factors)
        self.written = product(rng, factors)

    def held(self, rng, forms, values):
        """A factor of one of these forms that holds the values; an equality of two counts where it is the factor itself."""
        make = rng.choice([predicate, relation] + [equality] * 2 * (len(values) == 2))
        form = rng.choice(forms)
        if make is equality:
            (self.sides if form == "{}" else self.said_inside).append(tuple(values))
        return form.format(make(*values))

    def related(self, values):
        """The pairs of these values that are equal."""
        return closure(parts_of(values), self.sides, calls_in(self.standing))

    def nearly_related(self, values):
        """Those that would be, if all calls stood in the product, and the equalities within its factors counted."""
        return closure(parts_of(values), self.sides + self.said_inside, calls_in(values))


class Questions:
    """Pairs of values to ask about: half of them related, and half of the others nearly related."""

    def __init__(self, rng, values, related, nearly):
        everything = [(a, b) for a in values for b in values if a != b]
        self.rng = rng
        self.related = [both for both in everything if both in related]
        self.nearly = [both for both in everything if both in nearly and both not in related]
        self.everything = everything + [(a, a) for a in values]

    def ask(self):
        kind = self.rng.choice([self.related, self.related, self.nearly, self.everything])
        return self.rng.choice(kind or self.everything)

    def points(self):
        """Two pairs in any order, one of them related."""
        return self.rng.sample([self.ask(), self.rng.choice(self.related)], 2)


def answered(rng, values, factors):
    """Questions about the values, by the closure. What is not entailed is not gained either, though further factors say it."""
    related = factors.related(values)
    questions = Questions(rng, values, related, factors.nearly_related(values))
    for _ in range(QUESTIONS):
        a, b = questions.ask()
        print(f"entails {factors.written} {text(a)} {text(b)} => {'yes' if (a, b) in related else 'no'}")
        if (a, b) not in related and not rng.randrange(4):
            print(f"append {factors.written} {equality(a, b)} {text(a)} {text(b)} => nothing")
            print(f"copy {factors.written} *({predicate(a)},{equality(a, b)}) {factors.count} {predicate(b)} => nothing")


def nested(rng, level):
    """A value with calls in calls up to this level."""
    if level == 0 or rng.randrange(3) == 0:
        return rng.choice(ATOMS)
    if rng.randrange(3) == 0:
        return (8, nested(rng, level - 1), nested(rng, level - 1))
    return (7, nested(rng, level - 1))


def some(rng, values, count):
    """So many times one or two of the values."""
    return [[rng.choice(values) for _ in range(rng.randrange(1, 3))] for _ in range(count)]


def random_product(rng, values, equalities):
    """Questions about the values, some of which stand in equalities, some in further factors, and some nowhere or hidden."""
    sides = [(rng.choice(values), rng.choice(values)) for _ in range(equalities)]
    calls = calls_in(values)
    answered(rng, values, Factors(rng, sides, some(rng, calls, 3), some(rng, calls, 3)))


def nested_calls(rng):
    """The same with calls in calls."""
    values = parts_of([nested(rng, 3) for _ in range(5)] + ATOMS)
    random_product(rng, values, 5)


class Ways:
    """Values, and the edges between them, where there is one way between any two of them."""

    def __init__(self):
        self.edges = {}

    def way(self, a, b):
        """The edges of the way from a to b, found by trying all ways; None where there is none."""
        seen, tried = {a}, [(a, [])]
        for at, edges in tried:
            if at == b:
                return edges
            for to, edge in self.edges.get(at, []):
                if to not in seen:
                    seen.add(to)
                    tried.append((to, edges + [edge]))
        return None

    def are_joined(self, a, b):
        return self.way(a, b) is not None

    def join(self, a, b, edge):
        self.edges.setdefault(a, []).append((b, edge))
        self.edges.setdefault(b, []).append((a, edge))

    def close(self, calls):
        """Joins calls with equal arguments until none is left. False where two calls are equal in another way already, so that there are two ways."""
        joined = set()
        while True:
            ready = [both for both in calls if both not in joined and all(self.are_joined(x, y) for x, y in zip(both[0][1:], both[1][1:]))]
            if not ready:
                return True
            for both in ready:
                if self.are_joined(*both):
                    return False
                joined.add(both)
                self.join(*both, both)

    def counted(self, a, b, of_call):
        """How many equalities are on the way, those between arguments too, and `of_call` for each two calls."""
        edges = self.way(a, b)
        between = [(x, y) for edge in edges if edge for x, y in zip(edge[0][1:], edge[1][1:])]
        calls = sum(1 for edge in edges if edge)
        return len(edges) - calls + calls * of_call + sum(self.counted(x, y, of_call) for x, y in between)


def pairs_of_calls(rng, levels):
    """Values, and for each level two calls of a function of its own; None where both are the same."""
    values, calls = ATOMS[:6], []
    for level in range(levels):
        wide = rng.randrange(1, 3)
        both = tuple((level, *(rng.choice(values) for _ in range(wide))) for _ in range(2))
        if both[0] == both[1]:
            return None
        values = values + list(both)
        calls.append(both)
    return values, calls


def chained(rng, levels):
    """Such values, factors in which most of the calls stand, and equalities that leave one way between any two values; None where there are two."""
    made = pairs_of_calls(rng, levels)
    if not made:
        return None
    values, calls = made
    ways, sides = Ways(), []
    for _ in ATOMS[:6]:
        a, b = rng.choice(values), rng.choice(values)
        if not ways.are_joined(a, b):
            ways.join(a, b, None)
            sides.append((a, b))
    standing = parts_of([it for side in sides for it in side])
    left = [it for both in calls for it in both if it not in standing]
    shown = [[it] for it in left if rng.randrange(4)]
    hidden = [[it] for it in left if [it] not in shown]
    factors = Factors(rng, sides, shown, hidden)
    stand = [both for both in calls if all(it in factors.standing for it in both)]
    return (values, factors, ways) if ways.close(stand) else None


def longest(values, ways):
    """The most equalities on a way through calls."""
    return max((ways.counted(a, b, 0) for a in values for b in values if ways.way(a, b) and any(ways.way(a, b))), default=0)


def copied(questions, factors, ways):
    """A mark of two points that stands behind the factors, and one like it, of a negated equality perhaps with its sides exchanged."""
    like = questions.rng.choice([predicate, negated_predicate, negated_equality])
    (a, x), (b, y) = questions.points()
    while like is negated_equality and (ways.are_joined(a, y) or ways.are_joined(b, x)):
        (a, x), (b, y) = questions.points()  # else it may follow in both orders, by two numbers of steps
    turned = like is negated_equality and questions.rng.randrange(2)
    wanted = like(y, x) if turned else like(x, y)
    steps = lambda: f"{4 + turned + ways.counted(a, x, 0) + ways.counted(b, y, 0)} steps"
    found = ways.are_joined(a, x) and ways.are_joined(b, y)
    print(f"copy {factors.written} *({like(a, b)},{equality(a, x)}) {factors.count} {wanted} => {steps() if found else 'nothing'}")


def chains(rng):
    """Chains through calls: how many links they have, and the steps of what is gained by them."""
    made = None
    while not made or longest(made[0], made[2]) < 9:
        made = chained(rng, 5)
    values, factors, ways = made
    related = {(a, b) for a in values for b in values if ways.are_joined(a, b)}
    questions = Questions(rng, values, related, factors.nearly_related(values))
    for _ in range(QUESTIONS):
        a, b = questions.ask()
        links, derived, appended = "nothing", "nothing", "nothing"
        if ways.are_joined(a, b):
            steps = ways.counted(a, b, 0)
            links, derived, appended = ways.counted(a, b, 1), f"{3 + steps} steps", f"{2 + steps} steps"
        print(f"links {factors.written} {text(a)} {text(b)} => {links}")
        print(f"derive {factors.written} {text(a)} {text(b)} => {derived}")
        print(f"append {factors.written} {equality(b, a)} {text(a)} {text(b)} => {appended}")
        copied(questions, factors, ways)


def main():
    rng = random.Random(20)
    print(HEAD + "\n# Terms that are made normal twice: the second time takes no step.\n")
    for _ in range(TERMS):
        print(f"rests {term(rng, rng.randrange(1, 6), 0)} => yes")
    print("\n# Equalities of random products, answered by trying all pairs again and again. Values under squashes, negations and + stand in the")
    print("# product, and those under sums and in aggregates do not; an equality counts where it is a factor itself.\n")
    values = ATOMS + [(7, it) for it in ATOMS[:5]]
    for _ in range(PRODUCTS):
        random_product(rng, values, 4)
    print("\n# The same with calls in calls.\n")
    for _ in range(PRODUCTS):
        nested_calls(rng)
    print("\n# Chains through calls, where there is one way between any two values: one step for each equality on it, and three more to derive one, two")
    print("# to append one, and four to copy a mark, or five where its sides are exchanged.\n")
    for _ in range(PRODUCTS):
        chains(rng)


if __name__ == "__main__":
    sys.exit(main())
