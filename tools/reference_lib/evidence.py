"""What holds a contract: the promises of the documents of theorems, and the wrong bodies."""

import os
import re
from collections import defaultdict, namedtuple
from functools import lru_cache
from types import SimpleNamespace

from lib import edits, rattle_source

from . import sources

DOCUMENTS = ("promises/collections.md", "promises/shared.md", "promises/programs.md")

# A promise: its document, its section, its name, its crate, its sentences, its points by their first words, and the
# functions that it cites. A section is its title, and what it says before its first promise.
Promise = namedtuple("Promise", "document section name crate text points functions")
Section = namedtuple("Section", "title intro")
# A function that a promise cites: its file, its name, and the names of the clauses that are meant, if not all.
Cited = namedtuple("Cited", "file name clauses")
# A function in a file: the name that it has in a text, its item, and the `impl` or the trait that it stands in, if any.
Call = namedtuple("Call", "name item outer")
# A wrong body: its crate, its name, the functions that it makes wrong, as pairs of a file and a line, and the promises
# that it names itself.
WrongBody = namedtuple("WrongBody", "crate name functions promises")


def crates():
    return sorted(it.name for it in os.scandir(f"{sources.TOP}/crates") if it.is_dir())


def type_of(outer):
    """The name of the type of an `impl` or of a trait, and the trait that an `impl` is of, or an empty text."""
    header = rattle_source.header_of(outer)
    types = rattle_source.types_of(header)
    # (a check puts a word before the name of a type that is borrowed)
    name = re.sub(r"^Ref(Mut)?", "", types[0]) if " for &" in header else types[0]
    return name, types[1].removeprefix(types[0]) if len(types) > 1 else ""


@lru_cache(None)
def calls_in(file):
    """The functions of a file."""
    found = []
    for item in sources.read(*file).items:
        if item.kind == "fn":
            found.append(Call(item.name, item, None))
        elif item.kind in ("impl", "trait"):
            name = type_of(item)[0]
            mark = "&" if re.search(r" for &", rattle_source.header_of(item)) else ""
            found += [Call(f"{mark}{name}::{it.name}", it, item) for it in sources.inside(item) if it.kind == "fn"]
    return found


def model_of(call):
    """The `impl` that says what a contract sees of the type of a function."""
    name = type_of(call.outer)[0] if call.outer is not None else ""
    for file in sources.files_of(call.item.file[0]) if name else ():
        for it in file.items:
            if it.kind == "impl" and it.name in ("", "Model") and type_of(it) == (name, "Model"):
                return it
    return None


@lru_cache(None)
def wrong_bodies():
    """All wrong bodies."""
    found = []
    for name in crates():
        crate = SimpleNamespace(name=name, folder=f"{sources.TOP}/crates/{name}")
        folder = f"{crate.folder}/wrong_bodies"
        for file in sorted(os.listdir(folder)) if os.path.isdir(folder) else ():
            edit, _ = edits.read_edit(crate, file)
            functions = {((name, it.path), it.first) for it in edit.functions} if edit else set()
            named = re.findall(r"^# promise: (.*)$", sources.text_of(f"{folder}/{file}"), re.M)
            found.append(WrongBody(name, file.removesuffix(".edit"), frozenset(functions), tuple(named)))
    return found


def sections(text):
    """The sections of a document: for each its title and its text."""
    for part in re.split(r"^## ", text, flags=re.M)[1:]:
        title, _, rest = part.partition("\n")
        yield title, rest


def intro_of(section):
    """What a section says before its first promise."""
    return re.split(r"^\*\*", section, flags=re.M)[0].strip()


def paragraphs(text):
    """The promises of a section: for each its name, its sentences, and its points by their first words."""
    for part in re.split(r"\n\n(?=\*\*)", "\n\n" + text)[1:]:
        name, rest = re.match(r"\*\*(.*?)\.?\*\*\s*(.*)", part, re.S).groups()
        points = re.findall(r"^- (Contract|Rests on|By|Refuses)\b(.*\n?(?:  .*\n?)*)", rest, re.M)
        yield re.sub(r"\s+", " ", name), re.sub(r"\n\n- .*?(?=\n\n|\Z)", "", rest, flags=re.S).strip(), dict(points)


def is_file(path):
    return os.path.isfile(f"{sources.TOP}/crates/{path}")


def file_of(crate, path):
    """The file that a promise names, of its section's crate or by another crate's name."""
    if is_file(f"{crate}/{path}"):
        return crate, path
    first, _, more = path.partition("/")
    return first, more


def functions_in(crate, point):
    """The functions that a point cites, with their clauses."""
    for names, file in cited_in(crate, point, "rt"):
        for name, clauses in re.findall(r"`([&\w:]+)`(?: \(([^)]*)\))?", names):
            yield Cited(file, name, tuple(re.findall(r"`([\w*]+)`", clauses)))


def names_in(crate, point):
    """The definitions or lemmas that a point cites, as pairs of a name and a file."""
    for names, file in cited_in(crate, point, "antt"):
        yield from ((it, "/".join(file)) for it in re.findall(r"`([\w'-]+)`", names))


def cited_in(crate, point, ending):
    """What a point says of each file that it names with this ending."""
    flat = re.sub(r"\s+", " ", point)
    for names, files in re.findall(rf"(.*?) in ((?:`[\w/.-]+\.{ending}`(?:, | and )?)+)", flat):
        for path in re.findall(r"`([\w/.-]+)`", files):
            yield names, file_of(crate, path)


@lru_cache(None)
def public_types(crate):
    items = (it for file in sources.files_of(crate) for it in file.items)
    return {it.name for it in items if it.kind in ("struct", "enum", "trait") and it.visible == "pub"}


def is_open(call):
    """Whether a function is public, or one that a trait asks for."""
    if call.outer is None:
        return call.item.visible == "pub"
    name, trait = type_of(call.outer)
    if call.outer.kind == "trait" or trait:
        return True
    return call.item.visible == "pub" and name in public_types(call.item.file[0])


def key_of(item):
    """What stands for an item: its file and its line."""
    return item.file, item.line


class Holders:
    """What holds the contract of each function: promises, by their numbers, and wrong bodies; and what is amiss."""

    def __init__(self):
        self.bodies, self.promises, self.faults = defaultdict(list), defaultdict(list), []
        self.cited = [self.calls_of(it) for it in promises()]
        for number, found in enumerate(self.cited):
            for call, clauses in found:
                self.promises[key_of(call.item)].append((number, clauses))
        self.refused = [[] for _ in promises()]
        for body in wrong_bodies():
            held = dict.fromkeys(key_of(it.item) for it in held_by(body))
            for function in held:
                self.bodies[function].append(body)
            self.place(body, held)

    def calls_of(self, promise):
        """The functions that a promise cites, each with the clauses that it names."""
        found = []
        for cited in promise.functions:
            meant = meant_by(cited)
            own = {clause for call in meant for clause in clauses_of(call)}
            missing = [f"a clause `{it}` of" for it in cited.clauses if meant and it not in own]
            if not meant and not is_type(cited):
                missing.append("the function")
            where = f"`{cited.name}` in {'/'.join(cited.file)}, which is not there"
            self.faults += [f"the promise '{promise.name}' cites {it} {where}" for it in missing]
            found += [(call, tuple(it for it in cited.clauses if it in clauses_of(call))) for call in meant]
        return found

    def place(self, body, held):
        """Gives a wrong body to its promises: those that it names or that name it, or else those that cite the
        functions whose contracts it is held against."""
        numbers = [number for name in body.promises for number in self.named(name, body)]
        numbers += [n for n, it in enumerate(promises()) if body.name in refused_by(it) and is_near(it, body)]
        numbers = numbers or [number for it in held for number, _ in self.promises[it]]
        for number in dict.fromkeys(numbers):
            self.refused[number].append(body)
        if not numbers:
            self.faults.append(f"no promise refuses the wrong body {body.crate}/{body.name}: name one in it")

    def named(self, name, body):
        """The promise of a name: of the wrong body's crate, if there are several."""
        found = [number for number, it in enumerate(promises()) if it.name == name]
        near = [it for it in found if is_near(promises()[it], body)]
        found = near if len(found) > 1 else found
        if len(found) != 1:
            there = f"of which there are {len(found)}"
            self.faults.append(f"the wrong body {body.crate}/{body.name} names the promise '{name}', {there}")
        return found


@lru_cache(None)
def calls_of(crate):
    """The functions of a crate."""
    return [it for file in sources.files_of(crate) for it in calls_in((crate, file.path))]


def name_in_edits(call):
    """How the names of the wrong bodies of a function begin."""
    words = re.sub(r"(?<=[a-z])(?=[A-Z])", "_", call.name.removeprefix("&"))
    return words.replace("::", "_").lower()


def held_by(body):
    """The functions whose contracts a wrong body is held against: those that it makes wrong, or where these are private
    those that its name begins with, if there are some."""
    made_wrong = [it for it in calls_of(body.crate) if key_of(it.item) in body.functions]
    opened = [it for it in made_wrong if is_open(it)]
    named = [it for it in calls_of(body.crate) if is_open(it) and f"{body.name}_".startswith(f"{name_in_edits(it)}_")]
    longest = max((len(name_in_edits(it)) for it in named), default=0)
    return opened or [it for it in named if len(name_in_edits(it)) == longest] or made_wrong


def is_near(promise, body):
    """Whether a promise is of a wrong body's crate, or cites functions of it."""
    return body.crate in (promise.crate, *(it.file[0] for it in promise.functions))


@lru_cache(None)
def refused_in(point):
    return frozenset(re.findall(r"`(\w+)`", point))


def refused_by(promise):
    return refused_in(promise.points.get("Refuses", ""))


def clauses_of(call):
    """The names of the clauses of a function."""
    return [it.name for it in rattle_source.contract_of(call.item)[1]]


def is_type(cited):
    """Whether a promise cites a type, of which it means what the compiler knows."""
    items = sources.read(*cited.file).items if is_file("/".join(cited.file)) else ()
    return any(it.name == cited.name and it.kind in ("struct", "enum", "trait") for it in items)


def meant_by(cited):
    """The functions that a name means: of several in a file those that others can call, and that have such clauses."""
    if not is_file("/".join(cited.file)):
        return []
    found = [it for it in calls_in(cited.file) if cited.name in (it.name, it.item.name)]
    found = [it for it in found if is_open(it)] or found
    # (what has no clause of its own has those of its trait)
    fitting = [it for it in found if not clauses_of(it) or set(clauses_of(it)).intersection(cited.clauses)]
    return fitting if cited.clauses and fitting else found


@lru_cache(None)
def promises():
    """All promises, in the order of the documents."""
    found = []
    for document in DOCUMENTS:
        for section, body in sections(sources.text_of(f"{sources.TOP}/docs/{document}")):
            of_section = re.search(r"[Tt]he crate is `(\w+)`", body)
            for name, sentences, points in paragraphs(body):
                own = re.search(r"[Tt]he crate is `(\w+)`", sentences) or of_section
                crate = own[1] if own else ""
                cited = list(functions_in(crate, points.get("Contract", "")))
                found.append(Promise(document, Section(section, intro_of(body)), name, crate, sentences, points, cited))
    return found
