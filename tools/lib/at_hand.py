"""Puts the terms of a written answer at hand of a `search` at the same goal, so that it need only find what differs."""

import re

# What opens and closes, and the words between which a term names others.
OPENS, CLOSES = "([{", ")]}"
WORD = re.compile(r"[\w.-]+|\S")
# A term that is a call of a tactic, whose goal is known only where it stands, and one that rewrites its goal first.
TACTIC = re.compile(r"(?:search|grind|omega|cc|assumption|first_of|hlevel)(?![\w.-])")
REWRITES = re.compile(r"(?:rw|simp)(?![\w.-])")
# A term that stays as it is: one that holds at any goal, and a value whose type is known only where it stands. A value
# of a function's run is the one that the goal speaks of, and no other would do.
AS_IT_IS = re.compile(r"absurd(?![\w.-])|\d+$|\[\]$|_$")
VALUE = re.compile(r"c(?:\.(?!ensures\b|requires\b)[\w+-]+)*\.(?:now|old|result|value|(?:new|args)\.\w+)$")
# A term of a sum, whose type is known only where it stands.
MADE = re.compile(r"(in[lr]) *\(")
SET = re.compile(r"(?<![\w.-])let ([\w+-]+) = ([\w.+-]+) in(?![\w.-])")
# A term by which a goal holds whose sides compute to the same, and a name.
COMPUTES = re.compile(r"refl|\?")
NAME = re.compile(r"[\w+-]+")
# What a goal is asked of, and where such a question stands: on a line of its own, so that its place tells it from
# others.
SEARCH = "search rules"
LINE = "\n        "
ASKED = re.compile(r" +(?:Prim\.first_of \()?")
# (a lemma may have this name)
FIRST = "Prim.first_of"
FAILED = re.compile(r"\.antt:(\d+):(\d+): error: `([^`]+)`: (`(?:search|grind|omega|cc)`)?")
# What puts a term at hand of a question.
RIGHT = "let right = "
# The words with which a term is refused whose type is not the one that is wanted where it stands.
MISMATCH = "but this has type"


def words_of(term):
    """The words and signs of a term, each with the place where it begins and its depth in brackets."""
    depth = 0
    for it in WORD.finditer(term):
        depth -= it[0] in CLOSES
        yield it[0], it.start(), depth
        depth += it[0] in OPENS


def split_at(term, sign):
    """The parts of a term between such signs outside of brackets.

    >>> split_at("f (a, b), c", ",")
    ['f (a, b)', 'c']
    """
    places = [-1, *(at for word, at, depth in words_of(term) if word == sign and not depth), len(term)]
    return [it for it in (term[one + 1 : other].strip() for one, other in zip(places, places[1:])) if it]


def resolved(term, bound):
    """A path with the one in the place of its first name that this is set to.

    >>> resolved("tried.new.self", {"tried": "c.push"}), resolved("c.args.at", {"c": None})
    ('c.push.new.self', 'c.args.at')
    """
    first, dot, rest = term.partition(".")
    return f"{bound.get(first) or first}{dot}{rest}"


def bound_in(text, bound):
    """The variables that are bound behind a text, each with the path that it is set to, or None. Each name of the text
    counts as one.

    >>> bound_in("let tried = c.push in let e = f tried in", {})["tried"], bound_in("λ h.", {"a": "c.x"})
    ('c.push', {'λ': None, 'h': None, 'a': 'c.x'})
    """
    known = {**{it: None for it in NAME.findall(text)}, **bound}
    for name, term in SET.findall(text):
        known[name] = resolved(term, known)
    return known


def let_of(term):
    """The `let` that a term begins with, up to its `in`, and the term behind it; None if it begins with none.

    >>> let_of("let a = let b = c in d in f a")
    ('let a = let b = c in d in', 'f a')
    >>> let_of("f a")
    """
    open_ones = 0
    for word, at, depth in words_of(term):
        if not depth and word in ("let", "in"):
            open_ones += 1 if word == "let" else -1
        if not open_ones:
            return (term[: at + 2], term[at + 2 :].strip()) if at else None
    return None


def binders_of(term):
    """The variables that a term binds, with their λ, and the term behind them; None if it binds none.

    >>> binders_of("λ (h : T a.b) was. f h")
    ('λ (h : T a.b) was.', 'f h')
    """
    if not term.startswith("λ"):
        return None
    ends = next((at for at, it in dots_of(term)), None)
    return (term[: ends + 1], term[ends + 1 :].strip()) if ends else None


def dots_of(term):
    """The dots outside of brackets that end a row of variables."""
    depth = 0
    for at, it in enumerate(term):
        depth += (it in OPENS) - (it in CLOSES)
        if it == "." and not depth and term[at + 1 : at + 2].isspace():
            yield at, it


def is_closed(term, opens):
    """Whether the bracket at this place of a term is closed at the term's end.

    >>> is_closed("(a, b)", 0), is_closed("(a) (b)", 0)
    (True, False)
    """
    depth = 0
    for at in range(opens, len(term)):
        depth += (term[at] in OPENS) - (term[at] in CLOSES)
        if not depth:
            return at == len(term) - 1
    return False


def beside(term, bound={}):
    """A term in which these variables are bound as a `search` that has it at hand: as `right`, where its type is known
    by itself. Each of its parts gets one.

    >>> shown = lambda term: " ".join(beside(term).split())
    >>> shown("let a = b in f a c.x")
    'let a = b in let right = f a c.x in search rules'
    >>> shown("λ h. (f h, omega (arith, h))")
    'λ h. ((let right = f h in search rules), ( Prim.first_of (search rules, omega (arith, h))))'
    >>> shown("record { a = f c.x; b = rw e refl; }")
    'record { a = (let right = f c.x in search rules); b = (rw e ( search rules)) }'
    >>> shown("rw e at t")
    'let right = rw e at t in search rules'
    >>> shown("inl (f c.x)")
    'inl ((let right = f c.x in search rules))'
    >>> shown("let a = b in (a, meets, [])")
    'let a = b in ((let right = a in search rules), ( search (rules, meets)), ([]))'
    >>> shown("let a = c.push in (a.new.self, a.ensures.value)")
    'let a = c.push in ((a.new.self), (let right = a.ensures.value in search rules))'
    """
    term = " ".join(term.split())
    in_front = let_of(term) or binders_of(term)
    if in_front:
        return f"{in_front[0]} {beside(in_front[1], bound_in(in_front[0], bound))}"
    if term.startswith("(") and is_closed(term, 0):
        return f"({', '.join(f'({beside(it, bound)})' for it in split_at(term[1:-1], ','))})"
    made = MADE.match(term)
    if made and is_closed(term, made.end() - 1):
        return f"{made[1]} {beside(term[made.end() - 1 :], bound)}"
    if re.match(r"elim (?!.*\belim\b)[^\[]*\[ *\|", term) and is_closed(term, term.index("[")):
        return in_branches(term, bound)
    if re.match(r"record *\{", term) and is_closed(term, term.index("{")):
        fields = [it.partition("=") for it in split_at(term[term.index("{") + 1 : -1], ";")]
        return f"record {{ {'; '.join(f'{name.strip()} = ({beside(it, bound)})' for name, _, it in fields)} }}"
    return leaf(term, bound)


def in_branches(term, bound):
    """A term by cases with the term of each case at hand of a `search`.

    >>> " ".join(in_branches("elim c.x [ | left a ↦ f a | right ↦ g c ]", {}).split())
    'elim c.x [ | left a ↦ (let right = f a in search rules) | right ↦ (let right = g c in search rules) ]'
    """
    head, _, rest = term.partition("[")
    cases = [it.partition("↦") for it in split_at(rest[:-1], "|")]
    own = [f"| {of.strip()} ↦ ({beside(it, bound_in(of, bound))})" for of, _, it in cases]
    return f"{head}[ {' '.join(own)} ]"


def leaf(term, bound):
    """A term that has no parts as a `search` that has it at hand. A name that is not bound is one of its lemmas, whose
    arguments need not be known."""
    if AS_IT_IS.match(term) or VALUE.match(resolved(term, bound)):
        return term
    if TACTIC.match(term):
        return LINE + (SEARCH if term == SEARCH else f"{FIRST} ({SEARCH}, {term})")
    if REWRITES.match(term) and not any(word == "at" and not depth for word, _, depth in words_of(term)):
        tactic, by, rest = parts_of_rewriting(term)
        return f"{tactic} {by} ({beside(rest, bound)})"
    if NAME.fullmatch(term) and not COMPUTES.fullmatch(term) and term not in bound:
        return f"{LINE}search (rules, {term})"
    return LINE + SEARCH if COMPUTES.fullmatch(term) else f"let right = {term} in{LINE}{SEARCH}"


def parts_of_rewriting(term):
    """The tactic of a term that rewrites its goal, its list, and the term that proves what is left.

    >>> parts_of_rewriting("rw (e, ← f) (g a b)")
    ('rw', '(e, ← f)', '(g a b)')
    >>> parts_of_rewriting("rw zero-add")
    ('rw', 'zero-add', 'refl')
    """
    tactic, _, rest = term.partition(" ")
    if rest.startswith("("):
        ends = next(at for at in range(1, len(rest) + 1) if is_closed(rest[:at], 0))
    else:
        ends = rest.find(" ") if " " in rest else len(rest)
    return tactic, rest[:ends], rest[ends:].strip() or "refl"


def left_open(lines, text):
    """The goals that a question in this text leaves open, as these lines of a check say, each with its line.

    >>> text = "f c = let a : b = search rules in let right = d a in\\n        search rules\\n"
    >>> lines = [f"p/Answers.antt:{at}: error: `f`: `search`: no proof of `x` was found." for at in ("1:19", "2:9")]
    >>> left_open(lines[:1], text), len(left_open(lines, text))
    ({}, 1)
    """
    places = text.split("\n")
    found = {}
    for line in lines:
        it = FAILED.search(line)
        if it and it[4] and ASKED.fullmatch(places[int(it[1]) - 1][: int(it[2]) - 1]):
            found.setdefault(it[3], line)
    return found


def end_of(row, at):
    """Where the term ends that begins at this place of a line: a whole one behind what opens a term, and else an
    argument.

    >>> row = "let a = f (g b) c.x, h"
    >>> [row[at : end_of(row, at)] for at in (8, 10, 16)]
    ['f (g b) c.x', '(g b)', 'c.x']
    """
    before = row[:at].rstrip()
    is_whole = not before or before[-1] in "(,=;∙" or re.search(r"(?<![\w.-])in$", before)
    ends = (",", ";", "in", "∙") if is_whole else ()
    for word, place, depth in words_of(row[at:]):
        if depth < 0 or not depth and word in ends:
            return at + len(row[at : at + place].rstrip())
        if not is_whole and not depth and (word not in OPENS):
            return at + place + len(word)
    return len(row.rstrip())


def refused_in(text, line):
    """The place of the term in a text of answers that a line of a check refuses for its type, or for what a tactic in
    it did not prove: its row, where it begins and where it ends. None where the line refuses no such term.

    >>> line = "./proofs/f/Answers.antt:1:19: error: `f`: the two types differ .. expected type `a` but this has type `b`"
    >>> refused_in("f c = let a = h b d.x in a", line)
    (0, 18, 21)
    """
    it = FAILED.search(line)
    if not it or not it[4] and MISMATCH not in line:
        return None
    number, at = int(it[1]) - 1, int(it[2]) - 1
    row = text.split("\n")[number]
    end = end_of(row, at)
    return (number, at, end) if end > at and bool(it[4]) == bool(TACTIC.match(row[at:end])) else None


def finer(text, place):
    """A text of answers with the term at a place at hand of a `search` there.

    >>> finer("f c = let a = h b d.x in a", (0, 18, 21))
    'f c = let a = h b (let right = d.x in\\n        search rules) in a'
    """
    rows = text.split("\n")
    number, at, end = place
    row = rows[number]
    # (a row above may set a variable too)
    bound = bound_in(row[:at], dict(SET.findall("\n".join(rows[:number]))))
    rows[number] = f"{row[:at]}({beside(row[at:end], bound)}){row[end:]}"
    return "\n".join(rows)


def without(text, line):
    """A text of answers without the term at hand in which a line of a check finds fault with a name or a step, and that
    term; None where it is the only one at hand, or none is at fault.

    >>> text = "f c = (let right = h c.x in\\n        search rules, let right = d in\\n        search rules)"
    >>> without(text, "./proofs/f/Answers.antt:1:24: error: `f`: record `p` has no field `x`")
    ('f c = (\\n        search rules, let right = d in\\n        search rules)', 'h c.x')
    """
    it = FAILED.search(line)
    if not it or text.count(RIGHT) < 2:
        return None
    number, at = int(it[1]) - 1, int(it[2]) - 1
    rows = text.split("\n")
    begins = rows[number].rfind(RIGHT, 0, at)
    if begins < 0 or not rows[number].endswith(" in"):
        return None
    term = rows[number][begins + len(RIGHT) : -len(" in")]
    rows[number] = rows[number][:begins]
    return "\n".join(rows), term


def has_term(text, line):
    """Whether the question in a text of answers that a line of a check leaves open has a term at hand.

    >>> text = "f c = (let right = d in\\n        search rules, \\n        search rules)"
    >>> lines = [f"p/Answers.antt:{at}:9: error: `f`: `search`: no proof of `x` was found." for at in (2, 3)]
    >>> [has_term(text, it) for it in lines]
    [True, False]
    """
    number = int(FAILED.search(line)[1]) - 1
    return text.split("\n")[number - 1].endswith(" in")


def place_of(text, term):
    """The last place in a text of answers at which a term stands, or None.

    >>> place_of("f c = let a = d.x in let right = h d.x in\\n        search rules", "d.x")
    (0, 35, 38)
    """
    for number, row in reversed([*enumerate(text.split("\n"))]):
        found = [*re.finditer(rf"(?<![\w.-]){re.escape(term)}(?![\w.-])", row)]
        if found:
            return (number, *found[-1].span())
    return None
