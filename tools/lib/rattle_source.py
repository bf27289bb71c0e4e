"""Reads sources in Rattle as `rt fmt` lays them out: their items, with doc comments and contracts, their functions, and
their text without the bodies of these.

An item begins on a line of its own, and ends before the next line at its indent that does not go on with it.
"""

import re
from collections import namedtuple
from dataclasses import dataclass
from functools import lru_cache

# An item: the file that it stands in, the number of its first line, its kind, its name, its visibility, its lines
# without the doc comment, that comment, its attributes, and what the reader of the file knows of the words in it.
Item = namedtuple("Item", "file line kind name visible lines doc attributes words")
# A clause of a contract: `requires`, `ensures` or `ensures*`, its name or an empty text, and its lines.
Clause = namedtuple("Clause", "kind name lines")

CONTINUES = re.compile(r"[{})\]]|where\b")
ATTRIBUTE = re.compile(r"#!?\[")
HEAD = re.compile(
    r'(?:pub(?:\(\w+\))? )?(?P<kind>(?:const |unsafe |extern "C" )*fn|struct|enum|trait|type|mod|use|unsafe impl|impl'
    r"|const|static|ghost use|ghost)\b ?(?P<name>\w+)?"
)
CLAUSE = re.compile(r"(requires|ensures\*?) ?(\w*)")


@dataclass(frozen=True, order=True)
class Function:
    """A function: its file, its lines, what a check may call its type, if it has one, its name, and the beginning of
    the `impl` or trait that it stands in, with the imports there."""

    path: str
    first: int
    last: int
    types: tuple
    name: str
    header: str


def indent_of(line):
    return len(line) - len(line.lstrip())


def dedented(lines):
    """Lines without the indent that they all have."""
    least = min((indent_of(it) for it in lines if it.strip()), default=0)
    return [it[least:] for it in lines]


def dedented_to(lines, indent):
    """Lines with this indent in place of that which they all have."""
    return [" " * indent + it for it in dedented(lines)]


def parts(lines, first, last, indent):
    """What stands at an indent between two lines: for each part the numbers of its lines, and its end."""
    at = first
    while at < last:
        ends = at + 1
        while ends < last and not (lines[ends].strip() and indent_of(lines[ends]) == indent):
            ends += 1
        while ends < last and CONTINUES.match(lines[ends].lstrip()):
            ends += 1
            while ends < last and not (lines[ends].strip() and indent_of(lines[ends]) == indent):
                ends += 1
        yield at, ends
        at = ends


def items_of(file, lines, first, last, indent, words):
    """The items at an indent between two lines, each with the doc comment and the attributes above it.

    >>> lines = ["/// Returns one.", "#[test]", "pub fn f() -> u8 {", "    1", "}", "", "use a::b;"]
    >>> for it in items_of("src/lib.rt", lines, 0, len(lines), 0, {}):
    ...     print(it.line, it.kind, it.name, it.visible, len(it.lines), it.doc, it.attributes)
    3 fn f pub 3 ['Returns one.'] ['#[test]']
    7 use a  1 [] []
    """
    doc, attributes = [], []
    for at, ends in parts(lines, first, last, indent):
        text = lines[at].strip()
        body = lines[at:ends]
        while body and not body[-1].strip():
            body.pop()
        if text.startswith("//") and not text.startswith("//!"):
            doc.append(re.sub(r"^///? ?", "", text))
        elif ATTRIBUTE.match(text):
            attributes.append("\n".join(dedented(body)))
        elif text:
            head = HEAD.match(text)
            kind, name = (head["kind"], head["name"] or "") if head else ("part", re.match(r"(?:pub )?(\w*)", text)[1])
            visible = re.match(r"(?:pub(?:\(\w+\))?(?= ))?", text)[0]
            kind = "fn" if kind.endswith("fn") else kind.removeprefix("unsafe ")
            yield Item(file, at + 1, kind, name, visible, body, doc, attributes, words)
        if text and not text.startswith("//") and not ATTRIBUTE.match(text) or not lines[ends - 1].strip():
            doc, attributes = [], []


def inside(item):
    """The items within an `impl`, a trait, a struct, an enum or a module."""
    opens = next((n for n, it in enumerate(item.lines) if it.endswith("{")), None)
    if opens is None:
        return []
    indent = indent_of(item.lines[0]) + 4
    found = items_of(item.file, item.lines, opens + 1, len(item.lines) - 1, indent, item.words)
    return [it._replace(line=item.line + it.line - 1) for it in found]


def contract_of(item):
    """The lines of a function before its contract, and its clauses.

    >>> lines = ["fn f(x: u8) -> u8", "    requires few { x < 9 }", "    ensures { result ≡ x }", "{", "    x", "}"]
    >>> item, = items_of("src/lib.rt", lines, 0, len(lines), 0, {})
    >>> head, clauses = contract_of(item)
    >>> head, [(it.kind, it.name) for it in clauses]
    (['fn f(x: u8) -> u8'], [('requires', 'few'), ('ensures', '')])
    """
    indent, head, clauses = indent_of(item.lines[0]), [], []
    for line in item.lines:
        text = line.strip()
        if indent_of(line) == indent and text.startswith("{"):
            break
        begins = CLAUSE.match(text) if indent_of(line) == indent + 4 else None
        if begins:
            clauses.append(Clause(begins[1], begins[2], []))
        if clauses:
            clauses[-1].lines.append(line.rstrip(";"))
            if text.endswith("};"):
                break
            continue
        opens = re.search(r" \{(?:.*\})?$|;$", line)
        head.append(line[: opens.start()] if opens else line)
        if opens:
            break
    return dedented(head), clauses


def bare(clauses):
    """The lines of clauses, without the words that begin them."""
    return [re.sub(r"^ *(?:requires|ensures\*?) \w* ?\{", "", line) for it in clauses for line in it.lines]


def header_of(item):
    """The first lines of an `impl` or a trait, up to its brace, as one line.

    >>> lines = ["impl<T> A for B<T>", "where", "    T: C,", "{", "    type D = u8;", "}"]
    >>> header_of(*items_of("src/lib.rt", lines, 0, len(lines), 0, {}))
    'impl<T> A for B<T> where T: C,'
    """
    head = []
    for line in item.lines:
        head.append(line.strip())
        if line.endswith("{") or line.endswith("{}"):
            break
    return re.sub(r" ?\{\}?$", "", " ".join(head))


@lru_cache(None)
def functions_of(path, text):
    """The functions of a file, in its order.

    >>> text = "fn f() {}\\n\\nimpl A for B {\\n    ghost use c.{d};\\n\\n    fn g() {\\n        1\\n    }\\n}\\n"
    >>> for it in functions_of("src/lib.rt", text):
    ...     print(it.first, it.last, it.types, it.name, repr(it.header))
    1 1 () f ''
    6 8 ('B', 'BA', 'BA') g 'impl A for B {\\n    ghost use c.{d};\\n'
    """
    lines = text.split("\n")
    return tuple(functions_in(path, items_of(path, lines, 0, len(lines), 0, {})))


def functions_in(path, items, types=(), header=""):
    """The functions among items, and within them, below what a check may call their type and what stands above them."""
    for item in items:
        if item.kind == "fn":
            yield Function(path, item.line, item.line + len(item.lines) - 1, types, item.name, header)
        elif item.kind == "ghost use" and header:
            header += "".join(f"{it}\n" for it in item.lines)
        elif item.kind in ("impl", "trait", "mod"):
            yield from functions_in(path, inside(item), *(outer_of(item) if item.kind != "mod" else ()))


def outer_of(item):
    """What a check may call the type of an `impl` or of a trait, and its lines up to its brace."""
    opens = next((number for number, it in enumerate(item.lines) if it.endswith("{")), len(item.lines) - 1)
    return types_of(header_of(item)), "".join(f"{it}\n" for it in item.lines[: opens + 1])


def types_of(header):
    """What a check may name the type of an `impl` or of a trait: with the trait's name behind it, and its arguments.

    >>> types_of("impl<P> Order<Waiting<P>> for BySector {")
    ('BySector', 'BySectorOrder', 'BySectorOrderWaiting')
    >>> types_of("impl<'a, T> IntoIterator for &'a mut List<T> {")
    ('RefMutList', 'RefMutListIntoIterator', 'RefMutListIntoIterator')
    """
    header = re.sub(r"\bwhere\b.*|\{.*", "", header)
    if "trait " in header:
        return (re.search(r"trait (\w+)", header)[1],)
    bare = without_parameters(header)
    trait, is_of_trait, of = bare.rpartition(" for ")
    borrow = re.match(r"&(?:'\w+ )?(mut )?", of)
    of = re.findall(r"\w+", re.sub(r"<.*", "", of.removeprefix("impl")))[-1]
    of = f"Ref{'Mut' if borrow[1] else ''}{of}" if borrow else of
    # (the parameters of the `impl` are no part of the name)
    own = re.findall(r"[<,]\s*(\w+)\s*(?=[:,>])", header[: len(header) - len(bare) + len("impl")])
    words = [it for it in re.findall(r"(?<!')\b[A-Za-z_]\w*", trait.removeprefix("impl")) if it not in own]
    outer = re.findall(r"\w+", re.sub(r"<.*", "", trait.removeprefix("impl")))[-1:]
    return (of, of + "".join(outer), of + "".join(it[0].upper() + it[1:] for it in words)) if is_of_trait else (of,)


def without_parameters(header):
    """An `impl` without the parameters that it declares."""
    if not header.startswith("impl<"):
        return header
    depth = 0
    for at, it in enumerate(header):
        depth += (it == "<") - (it == ">" and header[at - 1] != "-")
        if it == ">" and depth == 0:
            return "impl" + header[at + 1 :]
    return header


def is_for_all(header):
    """Whether an `impl` is one of a type itself, for all of its arguments.

    >>> is_for_all("impl<T: Linked<Links<T>>, O: Order<T>> SortedList<T, O> {\\n")
    True
    >>> is_for_all("impl<T: Ord> SortedList<T, Least> {\\n")
    False
    >>> is_for_all("impl<'a, T> Iterator for Values<'a, T> {\\n")
    False
    """
    of = re.match(r"impl\s+\w+(?:<([^<>]*)>)?\s*(?:where\b|\{)", without_parameters(header))
    parameters = header[: len(header) - len(without_parameters(header)) + len("impl")]
    named = [it.strip() for it in (of[1] or "").split(",") if it.strip()] if of else []
    return bool(of) and all(re.search(rf"[<,]\s*{re.escape(it)}\s*[:,>]", parameters) for it in named)


def named_by(header):
    """How many arguments an `impl` names of the type that it is of.

    >>> named_by("impl<'a, T: Linked<Links<T>>> CursorMut<'a, T> {\\n"), named_by("impl Steps {\\n")
    (2, 0)
    """
    of = re.match(r"impl\s+\w+(<[^<>]*>)?", without_parameters(header))
    return arguments_in(of[1] or "") if of else 0


def declared_by(name, text):
    """How many parameters a type of this name declares.

    >>> declared_by("CursorMut", "pub struct CursorMut<'a, T, N: OwnsNodes<T> = OwnedCursor<T, u8>> {\\n}")
    3
    >>> declared_by("Steps", "pub struct Steps {\\n}")
    0
    """
    found = re.search(rf"^(?:pub(?:\([a-z]+\))? )?(?:struct|enum|trait) {name}\b(<.*)?", text, re.M | re.S)
    after = f"impl{found[1] or ''}" if found else "impl"
    return arguments_in(after[len("impl") : len(after) - len(without_parameters(after)) + len("impl")])


def arguments_in(text):
    """How many arguments stand between the outer brackets of a text.

    >>> [arguments_in(it) for it in ("", "<T>", "<'a, T, ByFn<T, F>>")]
    [0, 1, 3]
    """
    depths = [text[:at].count("<") - text[:at].count(">") for at, it in enumerate(text) if it == ","]
    return depths.count(1) + 1 if text else 0


def is_generic(function, text):
    """Whether a function, or the `impl` or trait that it stands in, has parameters beside lifetimes.

    >>> is_generic(Function("", 1, 1, (), "f", ""), "fn f<'a, T: Drop>(x: &'a T) {}")
    True
    >>> is_generic(Function("", 1, 1, (), "f", ""), "fn f<'a>(x: &'a u8) {}")
    False
    >>> is_generic(Function("", 1, 1, (), "f", "impl<T> A<T> {\\n"), "    fn f() {}")
    True
    """
    own = "\n".join(text.split("\n")[function.first - 1 : function.last]).split("{")[0]
    of_type = rf"(?:\bfn {function.name}|^impl)<(?:\s*'\w+,)*\s*[A-Za-z]"
    return any(re.search(of_type, it) for it in (own, function.header)) or bool(re.search(r": &?(?:mut )?impl\b", own))


def module_of(path):
    """The module of a file, as the names of its parts."""
    inside = re.sub(r"(/mod)?\.rt$", "", path).split("/")[1:]
    return [] if inside in (["lib"], ["main"]) else inside


def body_of(function, lines):
    """The lines of a function's body between its braces, as a slice, or None where they cannot be told, or where others
    read them: they may compute with a constant function, and an `impl` that one returns is the type of what is there.

    >>> lines = ["fn f(x: u8) -> u8", "    ensures { result ≡ x }", "{", "    x", "}"]
    >>> lines[body_of(Function("", 1, 5, (), "f", ""), lines)]
    ['    x']
    >>> lines = ["fn f() {", "    g()", "}"]
    >>> lines[body_of(Function("", 1, 3, (), "f", ""), lines)]
    ['    g()']
    >>> lines = ["fn f(", "    x: u8,", ") -> u8 {", "    x", "}"]
    >>> lines[body_of(Function("", 1, 5, (), "f", ""), lines)]
    ['    x']
    >>> body_of(Function("", 1, 4, (), "next", ""), ["    fn next();", "}", "impl B for A {", "    type Item = u8;"])
    >>> body_of(Function("", 1, 3, (), "f", ""), ["    const fn f() {", "        1", "    }"])
    >>> body_of(Function("", 1, 3, (), "f", ""), ["fn f() -> impl Iterator {", "    empty()", "}"])
    """
    own = lines[function.first - 1 : function.last]
    indent = re.match(" *", own[0])[0]
    # (behind a contract the brace has a line of its own)
    opening = re.compile(rf"{indent}(?:|\).* |(?:\S.* )?fn .* )\{{")
    opens = next((number for number, it in enumerate(own) if opening.fullmatch(it)), None)
    head = " ".join(own[: (opens or 0) + 1])
    if opens is None or own[-1] != f"{indent}}}" or re.search(r"\bconst\b.*\bfn\b|-> .*\bimpl\b", head):
        return None
    inside = own[opens + 1 : -1]
    is_inside = all(not it or it.startswith(f"{indent} ") for it in inside)
    return slice(function.first + opens, function.last - 1) if is_inside else None


def without_bodies(path, text):
    """The lines of a source without the bodies of its functions and without comments."""
    lines = text.split("\n")
    for it in reversed(functions_of(path, text)):
        body = body_of(it, lines)
        if body:
            lines[body] = []
    return [it for it in lines if it.strip() and not it.lstrip().startswith("//")]
