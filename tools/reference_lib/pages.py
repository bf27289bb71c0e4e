"""Writes pages in Markdown: types, traits and calls, each with its contract, and with what holds it."""

import re
import textwrap
from collections import defaultdict

from lib import rattle_source
from lib.rattle_source import dedented, header_of

from . import definitions, evidence, sources
from .evidence import Call, key_of

WIDTH = 120
# What says in a sentence what a call costs, where its doc comment has no section for it.
COST = re.compile(
    r"(?<!follow )\bat once\b|\bwalks?\b|\bmoves?\b.*\blinks?\b|\bfew moves\b|\ballocations?\b|\bmemory\b|\bcompares?\b"
    r"|\bcomparisons?\b|\bgoes through\b|\bconstant\b|\b(?:no|same) time\b|\btime grows\b"
    r"|\bone (?:load|swap|store)\b|\breads the head\b|\bwaits? (?:for|while)\b"
)
AT_ONCE = "at once"
# What an `impl` has for proofs, and what says nothing to a caller.
PROOFS = ("total", "laws", "lawful", "computes", "matches_partial_cmp", "matches_eq")
TYPES = ("struct", "enum", "trait", "type", "const")


def sentences(text):
    """The sentences of a text, each on one line."""
    flat = re.sub(r"\s+", " ", text).strip()
    return re.split(r"(?<=\.) (?=[A-Z`])", flat) if flat else []


def unlinked(text):
    """A comment without the brackets by which it links names."""
    return re.sub(r"\[(`[^`\]]+`)\](?!\()", r"\1", text)


def doc_of(item):
    """A doc comment: its text, and its sections by their titles."""
    text = unlinked("\n".join(item.doc))
    main, *more = re.split(r"^# +", text, flags=re.M)
    parts = (it.partition("\n") for it in more)
    return main.strip(), {title.strip(): body.strip() for title, _, body in parts}


def cost_of(item):
    """What a doc comment says that a call costs."""
    text, more = doc_of(item)
    found = ["At once." if n == 0 and AT_ONCE in it else it for n, it in enumerate(sentences(text)) if COST.search(it)]
    return more.get("Complexity") or " ".join(found)


def cost_of_call(call):
    """What a call costs, as its own doc comment says it, or else that of its type, of each call."""
    own = cost_of(call.item)
    if own or call.outer is None or call.outer.kind == "trait":
        return own
    found = types_named(call.item.file[0], evidence.type_of(call.outer)[0])
    of_each = sentences(doc_of(found[0])[0]) if len(found) == 1 else []
    return " ".join(it for it in of_each if COST.search(it) and re.match(r"(?:Each|No) (?:call|step)\b", it))


def summary_of(item):
    return (sentences(doc_of(item)[0]) or [""])[0]


def types_named(crate, name):
    return [it for file in sources.files_of(crate) for it in file.items if it.name == name and it.kind in TYPES]


def is_hidden(crate, trait):
    """Whether a trait is a crate's own, and not public."""
    found = types_named(crate, trait)
    return trait == "Sealed" or bool(found) and all(it.visible != "pub" for it in found)


def impls_of(item):
    """The `impl`s of a type, each with its trait or an empty text: those of its own file first."""
    crate, path = item.file
    is_one = len(types_named(crate, item.name)) == 1
    for file in sorted(sources.files_of(crate), key=lambda it: it.path != path):
        for it in file.items if is_one or file.path == path else ():
            if it.kind == "impl":
                name, trait = evidence.type_of(it)
                if name == item.name and not is_hidden(crate, trait):
                    yield it, trait


def anchor_of(heading):
    """The anchor that a code host gives a heading."""
    return re.sub(r"[^\w\- ]", "", heading.lower()).replace(" ", "-")


def source_link(file):
    return f"[{'/'.join(file)}](../../crates/{'/'.join(file)})"


def stem_of(file):
    return re.sub(r".*/|\.antt$", "", file)


def words_link(words):
    """Names of definitions or lemmas, by the files in which they stand."""
    found = defaultdict(list)
    for name, file in words:
        found[file].append(name)
    return "; ".join(f"{names(it)} in [{stem_of(file)}](../../crates/{file})" for file, it in found.items())


def bodies_link(crate, found):
    return f"{names(found)} in [{crate}](../../crates/{crate}/wrong_bodies)" if found else ""


def in_parentheses(words):
    return f" ({names(words)})" if words else ""


def names(words):
    return ", ".join(f"`{it}`" for it in words)


class Page:
    """A page that is being written. `places` has where headings are, by what they stand for."""

    def __init__(self, name, places):
        self.name, self.places, self.lines, self.anchors = f"{name}.md", places, [], defaultdict(int)

    def text(self):
        return re.sub(r"\n{3,}", "\n\n", "\n".join(self.lines)).strip() + "\n"

    def heading(self, level, text, *keys):
        anchor = anchor_of(text)
        count, self.anchors[anchor] = self.anchors[anchor], self.anchors[anchor] + 1
        for key in keys:
            self.places.setdefault(key, (self.name, f"{anchor}-{count}" if count else anchor))
        self.lines += ["", f"{'#' * level} {text}", ""]

    def prose(self, text, hanging=""):
        """Text that is wrapped anew, as a paragraph or as a point."""
        if not hanging and self.lines and self.lines[-1].startswith(("- ", "  ")):
            self.lines.append("")
        how = {"break_long_words": False, "break_on_hyphens": False, "subsequent_indent": hanging}
        self.lines += textwrap.wrap(re.sub(r"\s+", " ", text), WIDTH, **how) + ([] if hanging else [""])

    def point(self, name, text):
        if text:
            self.prose(f"- {name}: {text}", "  ")

    def code(self, lines, language="rust"):
        self.lines += ["", f"```{language}", *lines, "```", ""]

    def link(self, key, text):
        """A link to what a key stands for, or the text alone where it has no heading."""
        if key not in self.places:
            return text
        other, anchor = self.places[key]
        return f"[{text}]({'' if other == self.name else other}#{anchor})"

    def head(self, file):
        """What a module says of itself."""
        self.lines += [*unlinked("\n".join(file.about)).split("\n"), ""]

    def about(self, item):
        """A doc comment, but for its section of costs. Blocks of code in it are Rust."""
        text, more = doc_of(item)
        self.lines += [*text.split("\n"), ""]
        for title, body in more.items():
            if title != "Complexity":
                body = re.sub(r"^```\n(.*?)^```$", r"```rust\n\1```", body, flags=re.M | re.S)
                self.lines += [*f"**{title}.** {body}".split("\n"), ""]


class Writer:
    """Writes what is public to a page."""

    def __init__(self, page, holders):
        self.page, self.holders, self.used = page, holders, {}

    def glossary(self):
        """What the words of the contracts on the page mean, as it stands beside their definitions."""
        told = [(name, file, definitions.meaning_of(name, file)) for name, file in sorted(self.used)]
        if any(meaning for _, _, meaning in told):
            self.page.heading(2, "Words")
        for name, file, meaning in told:
            if meaning:
                self.page.point(f"`{name}` of [{stem_of(file)}](../../crates/{file})", meaning)

    def item(self, item, name, paths, last=""):
        """An item, with the paths by which users name it; of a type whose later calls are on another page, those before
        the first of these."""
        if item.kind == "fn":
            self.call(2, Call(name, item, None))
            return
        self.page.heading(2, f"`{name}`", key_of(item))
        self.page.code(declaration(item))
        self.page.about(item)
        self.page.prose(f"Path: {names(paths)}. Source: {source_link(item.file)}.")
        if item.kind == "trait":
            self.trait(item)
        elif item.kind in ("struct", "enum"):
            self.type(item, last)

    def later(self, item, first):
        """The calls of a type from one on, on a page of their own."""
        self.page.prose(f"The type, and its other calls: {self.page.link(key_of(item), f'`{item.name}`')}.")
        calls = calls_of(item, impls_of(item))
        self.calls(calls[index_of(first, calls) :])

    def type(self, item, last):
        impls = list(impls_of(item))
        models = [it for it, trait in impls if trait == "Model"]
        for it in models:
            self.view(it)
        if not models:
            self.read_by(item, [it for it, _ in impls])
        calls = calls_of(item, impls)
        others = [(it, trait) for it, trait in impls if trait not in ("", "Model")]
        self.table([it for _, it in calls])
        self.calls(calls[: index_of(last, calls)])
        for it, trait in others:
            if sources.inside(it):
                self.of_trait(item, it, trait)
        marks = sorted({trait for it, trait in others if not sources.inside(it)})
        if marks:
            self.page.prose(f"It is {names(marks)} too.")

    def calls(self, calls):
        header = ""
        for outer, call in calls:
            if header_of(outer) != header:
                header = header_of(outer)
                self.page.prose(f"Of `{header}`:")
            self.call(3, call)

    def view(self, model):
        """What a contract sees of a type."""
        found = {it.name: it for it in sources.inside(model) if it.kind == "ghost"}
        value, view = (body_of(found[it]) if it in found else "" for it in ("Value", "view"))
        self.page.prose(f"**What a contract sees**: `{value}`, by `{view}`.")
        words = self.words([value], found["Value"].words)
        self.page.prose(f"Words: {words}.") if words else None
        head = re.match(r"[\w'-]+", value)[0]
        where = found["Value"].words.get(head)
        lines = where and definition_of(where, head)
        if lines:
            self.page.code(lines, "antt")

    def read_by(self, item, impls):
        """What clauses read of a type that has no view: functions of files of specs."""
        files = dict.fromkeys(file for outer in impls for it in sources.inside(outer) for file in it.words.values())
        for file in files:
            found = readers(file, item.name)
            if found:
                link = f"[{stem_of(file)}](../../crates/{file})"
                self.page.prose(f"**What a contract sees**: what the functions of {link} read of it.")
                self.page.code(found, "antt")

    def table(self, calls):
        """The calls of a type, each with its first sentence."""
        for it in calls:
            name = it.name.split("::")[-1]
            self.page.point(self.page.link(key_of(it.item), f"`{name}`"), summary_of(it.item) or "see there")
        self.page.lines.append("")

    def call(self, level, call):
        head, clauses = rattle_source.contract_of(call.item)
        self.page.heading(level, f"`{call.name}`", key_of(call.item))
        self.page.code(head)
        self.page.about(call.item)
        if clauses:
            self.page.code(dedented([line for it in clauses for line in it.lines]))
        self.held(call)

    def held(self, call, name=""):
        """What a call costs, what holds its contract, and where the words of that stand."""
        clauses = rattle_source.contract_of(call.item)[1]
        points = {
            "Cost": cost_of_call(call),
            "Promise": ", ".join(self.promises(call)),
            "Wrong bodies": bodies_link(call.item.file[0], [it.name for it in self.holders.bodies[key_of(call.item)]]),
            "Words": self.words(rattle_source.bare(clauses), call.item.words),
        }
        if not name:
            for it in points.items():
                self.page.point(*it)
        else:
            # (a sentence has no stop before the semicolon)
            said = [f"{n[0].lower()}{n[1:]}: {it.removesuffix('.')}" for n, it in points.items() if it]
            self.page.point(f"`{name}`", "; ".join(said))

    def words(self, lines, words):
        """The definitions that some lines name, which the page then explains."""
        found = definitions.words_in(lines, words)
        self.used.update(dict.fromkeys(found))
        return words_link(found)

    def promises(self, call):
        for number, clauses in self.holders.promises[key_of(call.item)]:
            link = self.page.link(("promise", number), evidence.promises()[number].name)
            yield link + in_parentheses(clauses)

    def of_trait(self, item, outer, trait):
        """An `impl` of a trait: what it says, and what holds the contracts of its functions."""
        by_reference = re.search(r" for &(?:'\w+ )?(mut )?", header_of(outer))
        mark = f"&{by_reference[1] or ''}" if by_reference else ""
        name = f"`{mark}{item.name}` as `{trait}`"
        functions = [it for it in sources.inside(outer) if it.kind == "fn"]
        self.page.heading(3, name, key_of(outer), *map(key_of, functions))
        self.page.code([f"{header_of(outer)} {{", *inner_lines(outer), "}"])
        for it in functions:
            self.held(Call(f"{item.name}::{it.name}", it, outer), it.name)

    def trait(self, item):
        functions = [Call(f"{item.name}::{it.name}", it, item) for it in sources.inside(item) if it.kind == "fn"]
        self.table(functions)
        for it in functions:
            self.call(3, it)


def calls_of(item, impls):
    """The calls of a type, each with its block."""
    own = [it for it, trait in impls if not trait]
    return [(it, Call(f"{item.name}::{m.name}", m, it)) for it in own for m in sources.inside(it) if is_call(m)]


def index_of(name, calls):
    """The index of a call by its name, or how many calls there are."""
    return next((at for at, (_, it) in enumerate(calls) if it.name.endswith(f"::{name}")), len(calls))


def is_call(item):
    return item.kind == "fn" and item.visible == "pub"


def body_of(ghost):
    """What a ghost item is, on one line."""
    text = " ".join(it.strip() for it in ghost.lines)
    return re.match(r"ghost \w+ = \{ (.*) \};", text)[1]


def definition_of(file, name):
    """The definition of a name in a file of specs, with the comment above it; and of a short name that of the record
    which it stands for."""
    text = sources.text_of(f"{sources.TOP}/crates/{file}")
    begins = rf"(?:pub record|abbrev pub) {re.escape(name)}(?![\w'-])"
    found = re.search(rf"((?:^ *--.*\n)*)(^ *{begins}.*\n(?:(?! *$).*\n)*)", text, re.M)
    if not found:
        return []
    lines = dedented((found[1] + found[2]).rstrip("\n").split("\n"))
    if "abbrev" in found[2]:
        words = {**dict.fromkeys(re.findall(r"^ *pub record ([\w'-]+)", text, re.M), file), **sources.imported(text)}
        for word in re.findall(r"[\w'-]+", found[2].partition("=")[2]):
            more = definition_of(words[word], word) if word in words else []
            if more:
                return [*lines, "", *more]
    return lines


def readers(file, name):
    """The functions of a file of specs that take a value of a type, and nothing else: their types, with the comments
    above them."""
    text = sources.text_of(f"{sources.TOP}/crates/{file}")
    found = re.findall(rf"^((?: *--.*\n)*) *abbrev pub (\S+ : {name}\b[^→\n]*→ [^→\n]*)$", text, re.M)
    return [line for comment, it in found for line in [*dedented(comment.split("\n")[:-1]), it]]


def inner_lines(outer):
    """What an `impl` of a trait says: its types, its ghost items but for proofs, and its functions without bodies."""
    found = []
    for it in sources.inside(outer):
        if it.kind == "fn":
            head, clauses = rattle_source.contract_of(it)
            head[-1] += "" if clauses else ";"
            text = head + [line for one in clauses for line in rattle_source.dedented_to(one.lines, 4)]
            text[-1] += ";" if clauses else ""
        elif it.kind == "type" or it.kind == "ghost" and it.name not in PROOFS:
            text = dedented(it.lines)
        else:
            continue
        found += [""] * bool(found) + [f"    {line}".rstrip() for line in text]
    return found


def declaration(item):
    """A type as a user sees it: without what is private, and a trait without its contracts."""
    attributes = [it for it in item.attributes if it.startswith("#[derive")]
    if item.kind in ("const", "type"):
        return attributes + item.lines
    if item.kind == "trait":
        return attributes + trait_lines(item)
    if not item.lines[0].endswith("{"):
        return attributes + item.lines
    shown = [it for it in sources.inside(item) if item.kind == "enum" or it.visible == "pub"]
    hidden = [it for it in sources.inside(item) if it not in shown]
    lines = [f"    {line}" for it in shown for line in [*(f"/// {one}" for one in it.doc), *dedented(it.lines)]]
    if not lines:
        return [*attributes, f"{item.lines[0]} .. }}"]
    return [*attributes, item.lines[0], *lines, *(["    .."] if hidden else []), "}"]


def trait_lines(item):
    """A trait: its types, and its ghost items with the comments above them."""
    found = []
    for it in sources.inside(item):
        if it.kind in ("type", "ghost"):
            mark = "//" if it.kind == "ghost" else "///"
            found += [""] * bool(found) + [f"    {mark} {one}" for one in it.doc]
            found += [f"    {line}" for line in dedented(it.lines)]
    return [f"{header_of(item)} {{", *found, "    ..", "}"] if found else [f"{header_of(item)} .."]
