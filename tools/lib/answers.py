"""A function's Answers.antt as answers to named goals, and whether one of them, under another name, answers a goal that
a wrong body has and the right body has not."""

import re
from dataclasses import dataclass, field
from enum import Enum

from . import at_hand

BEGINS = re.compile(r"^(?:abbrev )?pub (\S+) : goal\.\S+", re.M)
# The goals that a line of a check names as open, or as what an error in a proof is about.
OPEN = re.compile(r"it is not proved that .*\(`([^`]+)`\)|^`search` did not prove ((?:`[^`]+`(?:, | and )?)+)")
FAILS = re.compile(r"\.antt:\d+:\d+: error: `([^`]+)`")
GONE = re.compile(r"error: `[^`]+`: `goal\.([^`]+)`: module `[^`]+` has no")
# The parts of a line, and those that steer: a path begins or ends there, or is named after what stands beside them.
TOKEN = re.compile(r'"[^"]*"|\w+|=>|->|::|==|!=|<=|>=|&&|\|\||\S')
STEERS = re.compile(r"=>|==|!=|<=|>=|&&|\|\||[<>!?|;{}]|if|else|match|while|for|in|loop|return|break|continue|move")
# The word of a goal's name that tells what it asks of a call or of a loop.
ASKS = re.compile(r"-(requires|init|preserved|smaller)(?:-|$)")
# What a goal is asked of alone, and the import of what it names.
SEARCH = "search rules"
IMPORTS = {"rules": "std.proofs.Common", "arith": "std.proofs.Common", "common_steps": "std.proofs.lemmas.Grind"}
# What a goal is asked of there that the right body's proof has no answer to.
LONGER = f"{at_hand.FIRST} ({SEARCH}, {SEARCH} depth 7 fits 3000, grind (arith, common_steps))"
# How many checks are asked for at most before terms that do not fit are given up, and what is at hand then.
MOST_TRIES = 6
NOTHING = ["nothing"]
# Begins what is said of a term that names what the edit has not, and that is not at hand.
ALL_BUT = "all but "
# The words with which an answer is refused that names what is not there.
NO_NAME = "has no field"
# The words with which a `search` in an answer says that it tried all that it could, or that what it asked last did.
EVERY_WAY = "Every way was tried"
ENDED = re.compile(r"`grind` found no proof|the goal does not follow")
# The words of a verdict that names the goals which `search` left open, and those that find fault with what the function
# calls.
SEARCHED = "`search` did not prove"
CALLS = re.compile(r"\bit calls `|\ba call of `.* which has no proof\b")
# Why a body that is not proved is not refused either.
LITTLE = "a proof names what the edit took away, and no goal refuses it: change a value, and keep the names"
SAFETY = "is not judged: only goals of safety are open, which an empty contract would have too: change the result"
AT_HAND = "NOT REFUSED: `search` proves its goals where it has the right body's answers at hand"
UNFIT = "is not judged: terms of the right body's answer do not fit: keep the names, and change another value"
INNER = "is not judged: only an invariant is open: let a clause fail, or say in a line '# breaks:' how it is broken"
LIMIT = "is not judged: `search` stopped at a limit, so the goal may hold: give it a form in which it does not"


class Verdict(Enum):
    """What is known of a wrong body, or of a function of it."""

    REFUSED = "a goal about the result refuses it"
    NOT_REFUSED = "its contract lets it through, or it cannot be judged"
    OPEN = "another check has to be asked"


def answers_of(text):
    """The text before the first answer, and each answer by its goal's name.

    >>> answers_of("use a.{b}\\n\\npub returns : goal.returns\\nreturns g c = b\\n")
    ('use a.{b}\\n\\n', {'returns': 'pub returns : goal.returns\\nreturns g c = b\\n'})
    """
    found = list(BEGINS.finditer(text))
    ends = [*(it.start() for it in found[1:]), len(text)]
    head = text[: found[0].start()] if found else text
    return head, {it[1]: text[it.start() : end] for it, end in zip(found, ends)}


def parts_of(goal):
    """A goal's name without its clause, and the clause, if it names one.

    >>> parts_of("returns-then-is_none-clause-len")
    ('returns-then-is_none', 'len')
    >>> parts_of("get-requires")
    ('get-requires', None)
    """
    path, _, clause = goal.partition("-clause-")
    return path, clause or None


def kind_of(goal):
    """What a goal asks for, whatever path leads there.

    >>> kind_of("returns-then-len-gt1-clause-len")
    ('returns', None)
    >>> kind_of("get_mut-block-requires-else-is_none")
    ('get_mut', 'requires')
    >>> kind_of("loop-at-preserved")
    ('loop', 'preserved')
    """
    path, _ = parts_of(goal)
    asks = ASKS.search(path)
    return path.split("-")[0], asks and asks[1]


def calls_in(tokens):
    """The names of the functions that a line calls, in its order. A variant is none."""
    return [it for it, behind in zip(tokens, tokens[1:]) if behind == "(" and re.match(r"[a-z_]", it)]


def keeps_paths(old, new):
    """Whether a line that is replaced by another leaves the paths through its function as they are, with their names:
    it changes a value that is returned or passed on, in no condition, and calls functions of the same names.

    >>> keeps_paths("        _ => None,", "        _ => Some(Choice::List),")
    True
    >>> keeps_paths("    self.boxes.get(at, k).next", "    self.boxes.get(self.head, 0).prev")
    True
    >>> keeps_paths("    let mut it = QueueSession::new(alloc);", "    let mut it = TransferSession::new(alloc);")
    True
    >>> keeps_paths("    if x > 100 {", "    if x > 101 {")
    False
    >>> keeps_paths("        Some(why) if batch.is_empty() => Err(why),", "        Some(why) => Err(why),")
    False
    >>> keeps_paths("    let n = self.len;", "    let n = self.most;")
    False
    >>> keeps_paths("    self.list.first()", "    self.list.last()")
    False
    >>> keeps_paths("    let (tail, rest) = parts(all);", "    let (_, rest) = parts(all);")
    False
    >>> keeps_paths("    list.append(&mut rest);", "    rest.append(list); *list = rest;")
    False
    """
    both = [TOKEN.findall(it) for it in (old, new)]
    shorter = min(map(len, both))
    first = next((at for at in range(shorter) if both[0][at] != both[1][at]), shorter)
    behind = next((at for at in range(shorter - first) if both[0][-1 - at] != both[1][-1 - at]), shorter - first)
    changed = [it for line in both for it in line[first : len(line) - behind]]
    before, after = both[0][:first], both[0][len(both[0]) - behind :]
    # (the arm or the statement that the change stands in)
    before = before[max((at for at, it in enumerate(before, 1) if it in ("=>", ";", "{", "}")), default=0) :]
    after = after[: next((at for at, it in enumerate(after) if it in (";", "{", "}")), len(after))]
    # (a condition may be named after what a name or a field is set to, but not after what a call is passed)
    is_set = "=" in before and before.count("(") == before.count(")") and after[:1] != ["::"]
    is_set = is_set or "=" in [*changed, *after]
    steers = any(STEERS.fullmatch(it) for it in [*changed, *before, *after])
    return not is_set and not steers and calls_in(both[0]) == calls_in(both[1])


def put_under(goal, answers):
    """The ways to put a goal's name, or those of its clauses, on answers to goals that ask for the same on other paths:
    each as pairs of an answer's name and its new one.

    >>> put_under("returns-then-len-gt1", ["returns-then-len-eq0", "get-requires"])
    [[('returns-then-len-eq0', 'returns-then-len-gt1')]]
    >>> put_under("returns-then-c", ["returns-clause-len", "returns-clause-first"])
    [[('returns-clause-len', 'returns-then-c-clause-len'), ('returns-clause-first', 'returns-then-c-clause-first')]]
    >>> put_under("returns-then-c-clause-len", ["returns-clause-len", "returns-clause-first"])
    [[('returns-clause-len', 'returns-then-c-clause-len')]]
    """
    path, clause = parts_of(goal)
    ways = {}
    for name in answers:
        other, of = parts_of(name)
        if kind_of(name) == kind_of(goal) and other != path and (clause is None or of == clause):
            ways.setdefault((other, of is None), []).append((name, f"{path}-clause-{of}" if of else path))
    return [*ways.values()]


def renamed(text, pairs):
    """An answer under another goal's name, as the pairs say. It cites the tests of the new path.

    >>> renamed("returns-then-a g c = f c.if-a.true\\n", [("returns-then-a", "returns-then-b")])
    'returns-then-b g c = f c.if-b.true\\n'
    >>> renamed("returns-then-a g c = f c.if-a.true\\n", [("returns-then-a", "returns-else-a")])
    'returns-else-a g c = f c.if-a.false\\n'
    """
    changes = dict(pairs)
    for old, new in pairs:
        olds, news = (re.split(r"-(then|else)-", parts_of(it)[0])[1:] for it in (old, new))
        for at in range(0, min(len(olds), len(news)), 2):
            fields = [{"then": "true", "else": "false"}[it[at]] for it in (olds, news)]
            changes[f"c.if-{olds[at + 1]}.{fields[0]}"] = f"c.if-{news[at + 1]}.{fields[1]}"
            changes.setdefault(f"c.if-{olds[at + 1]}", f"c.if-{news[at + 1]}")
    longest = sorted(changes, key=len, reverse=True)
    words = re.compile(rf"(?<![\w.-])(goal\.)?({'|'.join(map(re.escape, longest))})(?![\w-])")
    return words.sub(lambda it: (it[1] or "") + changes[it[2]], text)


def with_answers(text, ways, without):
    """The text of an Answers.antt with answers under new names as well, each at hand of a `search`, and without some of
    its own. What stands behind one of those, as a definition that others use, stays.

    >>> text = "use a.{b}\\n\\npub f : goal.f\\nf c =\\n    b\\n\\ng : b\\ng = h\\n\\npub k : goal.k\\nk = g\\n"
    >>> with_answers(text, [], {"f"})
    'use a.{b}\\n\\ng : b\\ng = h\\n\\npub k : goal.k\\nk = g\\n\\n'
    """
    head, answers = answers_of(text)
    more = [asked_of(new, {new: renamed(answers[old], pairs)}) for pairs in ways for old, new in pairs]
    own = [behind(name, it) if name in without else it for name, it in answers.items()]
    return importing(head, IMPORTS if more else ()) + "".join([*own, "\n", *more])


def begun(crate, folder):
    """The text of an Answers.antt that has no answer yet, for the function of a crate whose proof is in a folder.

    >>> begun("base", "Chain/get")
    'use Rattle.base.proofs.Chain.get.Goals as goal\\n\\n'
    """
    return f"use Rattle.{crate}.proofs.{folder.replace('/', '.')}.Goals as goal\n\n"


def asked_beside(text, goals, absent, binders="", questions=()):
    """The text of an Answers.antt with a `search` as the answer to each of these goals that has the terms of its
    written answer at hand, and with a hole for each of the others, but for those that are absent.

    >>> text = "use Rattle.std.proofs.Common.{rules, arith}\\n\\npub f : goal.f\\nf g c = h c\\n\\npub k : goal.k\\nk = b\\n"
    >>> print(asked_beside(text, ["f"], {"k"}), end="")
    use Rattle.std.proofs.lemmas.Grind.{common_steps}
    use Rattle.std.proofs.Common.{rules, arith}
    <BLANKLINE>
    pub f : goal.f
    f g c = let right = h c in
            search rules
    """
    head, answers = answers_of(text)
    own = [f"pub {it} : goal.{it}\n{it} = ?\n" for it in answers if it not in absent and it not in goals]
    own += [behind(it, answers[it]) for it in answers]
    own += [questions[it] if it in questions else asked_of(it, answers, binders) for it in goals]
    return importing(head, IMPORTS) + "".join(own)


def asked_of(goal, answers, binders=""):
    """A `search` as the answer to a goal that has the terms of its written answer at hand, and a longer one where there
    is no such answer.

    >>> asked_of("k", {}, " c").startswith("pub k : goal.k\\nk c =\\n        Prim.first_of (search rules, search rules depth")
    True
    """
    answer = answers.get(goal, "")
    begins = re.search(rf"^{re.escape(goal)}(?: \w+)* =", answer, re.M)
    question = at_hand.LINE + LONGER
    if begins:
        question = at_hand.beside(answer[begins.end() : len(answer) - len(behind(goal, answer))])
        question = question if question.startswith("\n") else f" {question}"
    # (a line above an answer may open definitions)
    opened = "".join(re.findall(r"^unfolding .*\n", answer, re.M))
    return f"pub {goal} : goal.{goal}\n{opened}{goal}{binders_of(goal, answers, binders)} ={question}\n"


def with_terms(question, terms):
    """A question with these terms at hand where they stand, or not at hand, as far as it has them.

    >>> with_terms("f c = let right = h d.x in\\n        search rules\\n", ["d.x", "e"])
    'f c = let right = h (let right = d.x in\\n        search rules) in\\n        search rules\\n'
    >>> with_terms("f c = let right = h d.x in\\n        search rules\\n", ["all but h d.x"])
    'f c = \\n        search rules\\n'
    """
    for term in terms:
        place = at_hand.place_of(question, term)
        if term.startswith(ALL_BUT):
            question = question.replace(f"{at_hand.RIGHT}{term.removeprefix(ALL_BUT)} in\n", "\n")
        elif place:
            question = at_hand.finer(question, place)
    return question


def binders_of(goal, answers, otherwise=""):
    """The variables of an answer to a goal, as its own answer or another one has them.

    >>> binders_of("g", {"f": "pub f : goal.f\\nf g c = b\\n"})
    ' g c'
    """
    binders = {it: re.search(rf"^{re.escape(it)}((?: \w+)*) =", answer, re.M) for it, answer in answers.items()}
    own = binders.get(goal)
    # (an answer may have further variables of its own goal)
    return own[1] if own else min((it[1] for it in binders.values() if it), key=len, default=otherwise)


def importing(head, names):
    """The lines before the first answer, with an import of each of these names that they lack.

    >>> importing("use Rattle.std.proofs.Common.{arith}\\n", ["rules", "arith"])
    'use Rattle.std.proofs.Common.{rules}\\nuse Rattle.std.proofs.Common.{arith}\\n'
    """
    new = [it for it in names if not re.search(rf"(?<![\w-]){it}(?![\w-])", head)]
    return "".join(f"use Rattle.{IMPORTS[it]}.{{{it}}}\n" for it in new) + head


def behind(name, answer):
    """What stands behind an answer in its text, up to the next one."""
    ends = re.search(rf"^(?!(?:abbrev |pub )*{re.escape(name)} )[\w+].*", answer, re.M)
    return answer[ends.start() :] if ends else ""


def failing_in(lines, text):
    """The goals whose answers, of this text, do not hold as these lines of a check say, and those that are not there.

    >>> lines = ["./proofs/f/Answers.antt:9:5: error: `returns`: record `base.proofs.f.Past` has no field `get`"]
    >>> lines += ["./proofs/f/Answers.antt:3:9: error: `f`: `goal.f-requires`: module `base.proofs.f.Goals` has no `f-requires`"]
    >>> failing_in(lines, "pub returns : goal.returns\\nreturns c = b\\npub f-requires : goal.f-requires\\nf-requires = b\\n")
    ({'returns'}, {'f-requires'})
    """
    names = answers_of(text)[1].keys()
    gone = {it[1] for it in map(GONE.search, lines) if it} & names
    return {it[1] for it in map(FAILS.search, lines) if it} & names - gone, gone


def with_calls(text, calls):
    """The text of an Answers.antt in which the steps of functions, and what they ask for, have other functions' names.

    >>> with_calls("pub one-requires : goal.one-requires\\none-requires c = c.in_ok-one.was one\\n", [("one", "two")])
    'pub two-requires : goal.two-requires\\ntwo-requires c = c.in_ok-two.was one\\n'
    """
    names = "|".join(map(re.escape, sorted(answers_of(text)[1], key=len, reverse=True)))
    words = re.compile(rf"(?<![\w.-])(?:(?:c|goal)\.[\w.-]+{f'|(?:{names})(?![.-]|[^ ]*[)])' if names else ''})")
    new = dict(calls)
    part = re.compile(rf"(?<!\w)({'|'.join(map(re.escape, new))})(?!\w)")
    return words.sub(lambda it: part.sub(lambda name: new[name[1]], it[0]), text)


def calls_changed(old, new):
    """The functions that a line calls in place of others, as pairs of the old name and the new one.

    >>> calls_changed("    one(x) + f(y)", "    two(x) + f(y)")
    [('one', 'two')]
    >>> calls_changed("    one(x)", "    two(three(x))")
    []
    """
    both = [calls_in(TOKEN.findall(it)) for it in (old, new)]
    return [it for it in zip(*both) if it[0] != it[1]] if len(both[0]) == len(both[1]) else []


def drops_calls(old, new):
    """Whether a text leaves out calls of another one, and has no new ones but those without arguments, and no new
    paths.

    >>> drops_calls("    let at = take(words); hand_out(at)", "    Stack::new()")
    True
    >>> drops_calls("    one(x)", "    two(x)"), drops_calls("    f(x)", "    if y { f(x) }"), drops_calls("    x", "    y")
    (False, False, False)
    """
    both = [TOKEN.findall(re.sub(r"\w+\(\)", "", it)) for it in (old, new)]
    was, now = [sorted(calls_in(it)) for it in both]
    steers = [sum(bool(STEERS.fullmatch(it)) for it in line) for line in both]
    return {*now} < {*was} and len(now) < len(was) and steers[1] <= steers[0]


def is_of_contract(goal):
    """Whether a goal is about what the function promises: what it ensures, the invariant of a type, or that of a loop.
    Others ask that a step is safe: that an index or a number is in range, that a place is never reached, that what a
    function requires holds where it is called, or that a loop ends.

    >>> [is_of_contract(it) for it in ("returns-then-x-clause-len", "invariant_of-self-2", "loop-at-preserved")]
    [True, True, True]
    >>> [is_of_contract(it) for it in ("unreachable-requires", "get-requires", "overflow_add-x", "loop-at-smaller")]
    [False, False, False, False]
    """
    name, asks = kind_of(goal)
    return asks in ("preserved", "init") or not asks and name in ("returns", "invariant_of")


def is_promise(goal):
    """Whether a goal is a clause of what the function ensures.

    >>> is_promise("returns-then-x-clause-len"), is_promise("invariant_of-self"), is_promise("loop-at-preserved")
    (True, False, False)
    """
    return kind_of(goal) == ("returns", None)


def promises_first(goals):
    """Goals in their order, but those first that are clauses of what the function ensures.

    >>> promises_first(["loop-init", "returns"])
    ['returns', 'loop-init']
    """
    return sorted(goals, key=lambda it: not is_promise(it))


def searched_in(lines, text):
    """The goals that have a `search` as their answers in this text and that these lines of a check name as not proved,
    though every way was tried, each with its line.

    >>> line = "./proofs/f/Answers.antt:7:9: error: `f`: `search`: no proof of `goal.f` was found. Every way was tried: .."
    >>> [len(searched_in([line], f"pub f : goal.f\\nf g c = {it}\\n")) for it in ("search rules", "g (search rules)")]
    [1, 0]
    """
    found = {it[1]: line for line in lines if has_ended(line) for it in [FAILS.search(line)] if it}
    known = answers_of(text)[1]
    is_search = {it: re.search(rf"^{re.escape(it)} [^=]*= search\b", known.get(it, ""), re.M) for it in found}
    return {goal: line for goal, line in found.items() if is_search[goal]}


def has_ended(line):
    """Whether a `search` in an answer tried all that it could, or else what it asked last did.

    >>> has_ended("error: `f`: `search`: no proof of `a` was found. It stopped 5 lemmas deep, with lemmas still to try")
    False
    >>> has_ended("error: `f`: `search`: no proof of `a` was found. It stopped 5 lemmas deep. .. `grind` found no proof.")
    True
    >>> has_ended("error: `f`: `search`: no proof of `a` was found. It stopped 5 lemmas deep. .. stopped at its own limit")
    False
    >>> has_ended("error: `f`: `search`: no proof of `a` was found. Every way was tried. .. stopped at its own limit")
    True
    """
    return EVERY_WAY in line or bool(ENDED.search(line)) and "stopped at its own limit" not in line


def is_at_limit(line):
    """Whether a line with an open goal says that `search` stopped before it had tried all that it could."""
    return not has_ended(line) if FAILS.search(line) else "gave up at one of its limits" in line


def open_in(lines):
    """The goals that these lines of a check name as open, each with its line.

    >>> open_in(["note: src/a.rt:3:5: it is not proved that a (`f`)", "`search` did not prove `f`, `returns`"])
    {'f': 'note: src/a.rt:3:5: it is not proved that a (`f`)', 'returns': '`search` did not prove `f`, `returns`'}
    """
    found = {}
    for line in lines:
        for goal in goals_in([line]):
            found.setdefault(goal, line)
    return found


def asking(text, goals, questions=()):
    """The text of an Answers.antt with a hole for each of its answers, and one for each of these goals; and with
    questions under other names, each as its name, its goal and its text.

    >>> print(asking("use a.{b}\\npub f-requires : goal.f-requires\\nf-requires c = b\\n", ["returns", "returns"]), end="")
    use a.{b}
    pub f-requires : goal.f-requires
    f-requires = ?
    pub returns : goal.returns
    returns = ?
    >>> print(asking("", [], [("asked-1", "f", "pub f : goal.f\\nf g c = f-is\\n")]).split("}\\n")[-1], end="")
    asked-1 : goal.f
    asked-1 g c = f-is
    """
    head, answers = answers_of(text)
    holes = [f"pub {it} : goal.{it}\n{it} = ?\n" for it in dict.fromkeys([*answers, *goals])]
    own = [behind(it, answers[it]) for it in answers] if questions else []
    return with_questions(head + "".join([*own, *holes]), questions)


def with_questions(text, questions):
    """The text of an Answers.antt with questions under other names, each as its name, its goal and its text."""
    named = [re.sub(rf"^(?:pub )?{re.escape(goal)}(?= )", name, it, flags=re.M) for name, goal, it in questions]
    return importing(text, IMPORTS if questions else ()) + "".join(named)


def holes_in(lines, folder):
    """The goals of the function whose proof lies in a folder that these lines of a check tell to have holes as answers.

    >>> lines = ["./proofs/a/f/Answers.antt:7:11: goal ? in `returns`", "./proofs/a/g/Answers.antt:7:7: goal ? in `x`"]
    >>> holes_in(lines, "a/f")
    ['returns']
    """
    hole = re.compile(rf"(?:\./)?proofs/{re.escape(folder)}/Answers\.antt:\d+:\d+: goal \? in `([^`]+)`")
    return [it[1] for it in map(hole.match, lines) if it]


def is_proved(name, lines, folder):
    """Whether an answer of this name in a folder of proofs has no error as these lines of a check say.

    >>> lines = ["./proofs/f/Answers.antt:7:11: error: `asked-1`: `search`: no proof of `a` was found."]
    >>> is_proved("asked-1", lines, "f"), is_proved("asked-2", lines, "f"), is_proved("asked-1", lines, "g")
    (False, True, True)
    """
    about = [it for it in lines if re.match(rf"(?:\./)?proofs/{re.escape(folder)}/Answers\.antt:\d+:\d+: error", it)]
    names = [it[1] if it else None for it in map(FAILS.search, about)]
    return name not in names and None not in names


def goals_in(lines):
    """The goals that these lines of a check name as open.

    >>> goals_in(["note: src/a.rt:3:5: it is not proved that the function ensures its clauses (`returns`)"])
    ['returns']
    >>> goals_in(["`search` did not prove `get-requires`, `returns`; it calls `f`, which is not proved"])
    ['get-requires', 'returns']
    """
    found = [it for it in map(OPEN.search, lines) if it]
    names = [it for one in found for it in ([one[1]] if one[1] else re.findall("`([^`]+)`", one[2]))]
    return [*dict.fromkeys(names)]


def is_for_callees(verdict):
    """Whether a verdict refuses a function for what it calls, and names no goal of its own.

    >>> is_for_callees("not proved; it calls `base::Chain::empty`, which is not proved")
    True
    >>> is_for_callees("no proof: it calls `base::Chain::of_one`, which is not proved")
    True
    >>> is_for_callees("no proof: a call of `queue::Consumer::release`, which has no proof: help: prove it first")
    True
    >>> is_for_callees("no proof: `search` did not prove `returns`; it calls `base::Chain::get`, which is not proved")
    False
    >>> is_for_callees("not proved")
    False
    """
    return SEARCHED not in verdict and bool(CALLS.search(verdict))


@dataclass(eq=False)
class Suspect:
    """A function with a wrong body that a check did not prove, and what is tried before that counts as a refusal. Where
    a written answer does not fit, its goal is asked of a `search` that has the answer's terms at hand. Answers that do
    not fit are then taken away, so that other goals are tried, and the right body's answers are tried at goals that it
    may not have.

    A goal refuses the body if it is about the result, if the `search` did not prove it, and if that proves the right
    body's. So it does where the right body's answer is at hand. Where the right body needs no answer, the goal is one
    of the right body's, or none of the right body's answers about the result proves it; and if `search` stopped at a
    limit, a longer one did not prove it either. An invariant may hold without a proof that is found, since callers
    never see it. So it refuses the body only if the edit says how the body breaks it."""

    # The folder of the function's proof, the text of its answers, whether the edit leaves the paths as they are, the
    # functions that it calls in place of others, as pairs, whether it leaves calls out, and the variables of each
    # answer.
    folder: str
    text: str
    keeps: bool
    calls: list
    drops: bool
    binders: str
    # The goal and the terms that the edit names, whether what it names is trusted to prove the right body's, and whether
    # terms are looked for where nothing is at hand.
    named: str = None
    named_terms: tuple = ()
    is_trusted: bool = True
    looks: bool = False
    # Whether the edit says how the body breaks an invariant.
    is_explained: bool = False
    # The answers that are taken away, those of these whose goals are not there, the ways that were found to hold, the
    # goals at which none did, the one goal that is looked at, with the ways to answer it that are left, and how many
    # checks were asked for.
    gone: set = field(default_factory=set)
    absent: set = field(default_factory=set)
    held: list = field(default_factory=list)
    tried: set = field(default_factory=set)
    goal: str = None
    ways: list = field(default_factory=list)
    tries: int = 0
    # The questions whether the right body's answers to other goals prove a goal that it has not, by their names, with
    # that goal, and the goals of which all of these were asked.
    others: dict = field(default_factory=dict)
    others_for: str = None
    others_tried: set = field(default_factory=set)
    # The goals that are asked for with the right body's answers at hand, the texts of the questions that are not the
    # first, and of these goals those that were proved, and those at which the right body's terms do not fit.
    beside: list = field(default_factory=list)
    questions: dict = field(default_factory=dict)
    proved: set = field(default_factory=set)
    unfit: set = field(default_factory=set)
    # For each goal the terms of its answer that do not fit, and are at hand where they stand.
    terms: dict = field(default_factory=dict)
    # Whether the answers have other functions' names.
    is_renamed: bool = False
    # The goals that are open, each with the line that says so, and the paths of the right body's, once these are known.
    open: dict = field(default_factory=dict)
    right: set = None
    # The line that shows that the body is refused, once there is one, and the goal of it that was asked for; and before
    # that the goal, the line and the question of which it is not known yet whether it proves the right body's goal.
    refused: str = None
    by: str = None
    asserted: tuple = None

    def __post_init__(self):
        # Whether the goal is asked for that the edit names, how the answers were before they got other functions'
        # names, and these names the other way round.
        self.is_named, self.written, self.back = self.asks_first(), self.text, [(new, old) for old, new in self.calls]
        if not self.is_named:
            return
        self.beside = [self.named]
        self.terms = {self.named: [*self.named_terms]} if self.named_terms else {}
        if self.calls:
            self.text = with_calls(self.text, self.calls)
        if self.named_terms == NOTHING:
            self.questions = {self.named: self.bare(self.named)}
        elif self.named_terms:
            question = asked_of(self.named, answers_of(self.text)[1], self.binders)
            self.questions = {self.named: with_terms(question, self.named_terms)}

    def asks_first(self):
        """Whether the goal that the edit names is asked for before all others: where terms are at hand, or none are
        looked for, and it can refuse the body."""
        is_bare = self.named_terms == NOTHING and self.looks
        has_terms = self.named_terms or self.named in answers_of(self.text)[1]
        return bool(self.named) and self.may_refuse(self.named) and bool(has_terms) and not is_bare

    def may_refuse(self, goal):
        """Whether a goal can refuse the body: a clause of what the function ensures, or an invariant, if the edit says
        how the body breaks it."""
        return is_of_contract(goal) and (self.is_explained or is_promise(goal))

    def is_of_right(self, goal):
        """Whether one of the goals is known to be one of the right body's."""
        path = parts_of(goal)[0]
        known = {parts_of(it)[0] for it in answers_of(self.text)[1]} | (self.right or set())
        return path in known or self.keeps and kind_of(goal) == ("returns", None)

    def takes(self, lines):
        """Takes what a check said of the function, and judges it."""
        if self.goal and not self.has_way(lines):
            return self.goes_on()
        if self.others:
            return self.has_others(lines)
        if self.beside:
            return self.has_beside(lines)
        found = {**open_in(lines), **searched_in(lines, self.text)}
        self.open = {goal: line for goal, line in found.items() if goal not in self.proved}
        if self.refuses():
            return Verdict.REFUSED
        fail, gone = failing_in(lines, self.text)
        new = (fail | gone) - self.gone
        if new and self.calls:
            self.text, self.calls, self.is_renamed = with_calls(self.text, self.calls), (), True
            return self.asks()
        self.gone, self.absent = self.gone | new, self.absent | gone
        asked = {it for it in new & fail if self.may_refuse(it)} or {*self.at_limit()}
        self.beside = sorted(it for it in asked - self.proved - self.unfit if self.is_of_right(it))
        # (to take answers away whose goals are not there opens no goal, so the next way can be tried in the same check)
        return self.asks() if self.beside or new & fail or new and not self.open else self.chooses()

    def has_beside(self, lines):
        """Takes what a check said of the goals that were asked for with the right body's answers at hand: one that is
        open refuses the body, even where `search` stopped at a limit. Where none is, all is checked without the answers
        that do not fit; and as if the edit named no goal, if it did."""
        asked, text = self.beside, self.answers()
        found = at_hand.left_open(lines, text)
        about = {goal: line for line in lines for goal in named_in(line) or asked if " error: " in line}
        for goal in promises_first(asked):
            if goal in found and self.is_enough(goal, text, found[goal]):
                question = answers_of(text)[1][goal]
                self.asserted = goal, found[goal], with_calls(question, self.back) if self.is_renamed else question
                # (that the question proves the right body's goal was shown when the edit got the goal's name)
                is_shown = self.is_named and self.is_trusted or self.terms.get(goal) == NOTHING
                return self.confirms(True) if is_shown else self.asks()
        self.proved |= {goal for goal in asked if goal not in about}
        left = [it for it in asked if it in about]
        self.questions = {it: question for it in left for question in [self.finer(it, text, about[it])] if question}
        self.unfit |= {*left} - self.questions.keys()
        self.beside = [*self.questions]
        if self.is_named and not self.beside:
            self.text = self.written
        # (it is not known yet whether another question proves the right body's goal)
        self.is_named = False
        self.open = {goal: line for goal, line in self.open.items() if goal not in self.proved}
        return self.asks()

    def is_enough(self, goal, text, line):
        """Whether a line tells of a question for a goal that is enough to refuse the body if it is left open: it has
        what the right body's answer has there, or else `search` tried every way."""
        terms = self.terms.get(goal, [])
        is_part = any(it.startswith(ALL_BUT) for it in terms)
        return has_ended(line) or terms != NOTHING and (not is_part or at_hand.has_term(text, line))

    def finer(self, goal, text, line):
        """The next question for a goal, after one in a text in which a line refuses a term: with this term at hand
        where it stands, or without the one that names what is not there, or else with none; and None after that."""
        place = at_hand.refused_in(text, line) if self.tries < MOST_TRIES else None
        was = self.terms.get(goal, [])
        other = at_hand.without(text, line) if self.tries < MOST_TRIES and was != NOTHING else None
        if other and (not place or self.term_at(text, place) in was):
            self.terms[goal] = [*was, ALL_BUT + other[1]]
            return answers_of(other[0])[1][goal]
        # (what has another name is no evidence, but what the edit left out is)
        if was == NOTHING or not place and NO_NAME in line and not self.drops:
            return None
        if not place:
            self.terms[goal] = NOTHING
            return self.bare(goal)
        self.terms[goal] = [*was, self.term_at(text, place)]
        return answers_of(at_hand.finer(text, place))[1][goal]

    @staticmethod
    def term_at(text, place):
        """The term at a place of a text: of its row, from one column to another."""
        return text.split("\n")[place[0]][place[1] : place[2]]

    def bare(self, goal):
        """A question for a goal with nothing at hand."""
        return asked_of(goal, {goal: f"{goal}{binders_of(goal, answers_of(self.text)[1], self.binders)} = {SEARCH}\n"})

    def confirms(self, is_proved):
        """Takes whether the question that the body leaves open proves the right body's goal. If so, it refuses the
        body, and else nothing is at hand in the next check."""
        goal, line, _ = self.asserted
        self.asserted, self.beside = None, []
        if is_proved:
            self.refused, self.by = line, goal
            return Verdict.REFUSED
        self.terms[goal], self.questions, self.beside = NOTHING, {goal: self.bare(goal)}, [goal]
        self.is_named = False
        return self.asks()

    def at_limit(self):
        """The open goals about the result at which `search` stopped at a limit, and that are not asked for yet."""
        known = self.proved | self.unfit
        return [it for it in self.open if self.may_refuse(it) and is_at_limit(self.open[it]) and it not in known]

    def has_way(self, lines):
        """Whether the way that was tried holds, as a check said."""
        path, clause = parts_of(self.goal)
        if any(of == self.goal or not clause and parts_of(of)[0] == path for it in lines for of in named_in(it)):
            del self.ways[0]
            return False
        self.held.append(self.ways[0])
        self.goal, self.ways = None, []
        return True

    def goes_on(self):
        """Goes on with the goal that is looked at, or another one."""
        if self.ways:
            return self.asks()
        self.tried.add(self.goal)
        return self.chooses()

    def chooses(self):
        """Chooses the goal that is looked at, if there is one, and judges the function if there is none."""
        self.goal, self.ways, self.others, self.others_for = None, [], {}, None
        if self.refuses():
            return Verdict.REFUSED
        left = {it: self.ways_to(it) for it in self.open if it not in self.tried and not self.is_of_right(it)}
        # (those first that can refuse the body, and of these the one that takes fewest checks)
        order = sorted((it for it in left if left[it]), key=lambda it: (not self.counts(it), len(left[it])))
        if order:
            self.goal, self.ways = order[0], left[order[0]]
            return self.asks()
        unknown = next((it for it in self.open if self.counts(it) and not self.is_known(it)), None)
        if unknown:
            self.others, self.others_for = self.questions_for(unknown), unknown
            return self.asks()
        return self.asks_beside()

    def other_answers(self, goal):
        """The right body's answers about the result that no way puts under a goal's name."""
        put = {old for way in self.ways_to(goal) for old, _ in way}
        return [it for it in answers_of(self.text)[1] if is_of_contract(it) and it not in put]

    def questions_for(self, goal):
        """Questions whether these prove the goal, by names of their own."""
        answers = answers_of(self.text)[1]
        texts = [renamed(answers[it], [(it, goal)]) for it in self.other_answers(goal)]
        return {f"asked-{at}": asked_of(goal, {goal: it}, self.binders) for at, it in enumerate(texts)}

    def has_others(self, lines):
        """Takes what a check said of these questions: a goal that one of them proves is not open."""
        failed = {name for line in lines if " error: " in line for name in named_in(line)}
        if self.others.keys() - failed:
            self.proved.add(self.others_for)
            self.open.pop(self.others_for, None)
        self.others_tried.add(self.others_for)
        return self.chooses()

    def asks_beside(self):
        """Asks for the goals of the right body at which `search` stopped at a limit, with the right body's answers at
        hand: if there are none, nothing is left to try."""
        at_limit = self.at_limit()
        unknown = [it for it in at_limit if not self.is_of_right(it)]
        if unknown and self.right is None:
            # (which goals the right body has is asked for all such functions of the crate together)
            self.goal = unknown[0]
            return self.asks()
        self.beside = [it for it in at_limit if it not in unknown]
        return self.asks() if self.beside else Verdict.NOT_REFUSED

    def asks(self):
        """Asks for another check."""
        self.tries += 1
        return Verdict.OPEN

    def ways_to(self, goal):
        """The ways to answer a goal that the right body may not have by the right body's answers."""
        names = [*answers_of(self.text)[1]]
        return put_under(goal, [it for it in names if it in self.gone]) or put_under(goal, names)

    def counts(self, goal):
        """Whether an open goal can refuse the body."""
        return self.may_refuse(goal) and not is_at_limit(self.open[goal]) and goal not in self.unfit

    def is_known(self, goal):
        """Whether it is known that a goal is one of the right body's, or that none of the right body's answers proves
        it."""
        is_tried = goal in self.tried or not self.ways_to(goal)
        are_others = goal in self.others_tried or not self.other_answers(goal)
        return self.is_of_right(goal) or is_tried and are_others

    def refuses(self):
        """Whether an open goal refuses the body, as far as is known."""
        for goal in promises_first(self.open):
            if self.counts(goal) and self.is_known(goal):
                self.refused, self.by = self.open[goal], goal
                return True
        return False

    def waits(self):
        """Whether it has to be known which goals the right body has, or what proves one, before the next way is
        tried."""
        return bool(self.asserted) or bool(self.goal or self.others) and self.right is None

    def answers(self):
        """The text of the answers with the next way, or None where none is left."""
        if self.beside:
            return asked_beside(self.text, self.beside, self.absent, self.binders, self.questions)
        if self.others:
            # (only a goal with an answer can be named)
            goal = self.others_for
            text = with_answers(self.text, self.held, self.gone) + f"pub {goal} : goal.{goal}\n{goal} = ?\n"
            return with_questions(text, [(name, goal, it) for name, it in self.others.items()])
        ways = [*self.held, *self.ways[:1]]
        is_left = ways or not self.gone >= answers_of(self.text)[1].keys()
        return with_answers(self.text, ways, self.gone) if is_left else None

    def fault(self):
        """Why a body that is not proved is not refused."""
        at_limit, unfit = self.at_limit(), sorted(it for it in self.unfit if it in self.open or it in self.gone)
        if at_limit or unfit:
            return f"{LIMIT} (`{at_limit[0]}`)" if at_limit else f"{UNFIT} (`{unfit[0]}`)"
        inner = sorted(it for it in {*self.open, *self.gone} if is_of_contract(it) and not self.may_refuse(it))
        if inner:
            return f"{INNER} (`{inner[0]}`)"
        if self.proved:
            return f"{AT_HAND} (`{min(self.proved)}`)"
        return f"{SAFETY} (`{[*self.open][0]}`)" if self.open else LITTLE


def named_in(line):
    """The goals that a line of a check is about."""
    return goals_in([line]) or [it[1] for it in [FAILS.search(line)] if it]
