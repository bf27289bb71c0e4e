"""What the words of contracts mean: the definitions that clauses name, and those that these name in turn."""

import re
from functools import lru_cache

from lib import rattle_source

from . import evidence, sources

BEGINS = re.compile(r"^ *(?:abbrev (?:pub )?|(?:pub )?(?:record|data) )([\w'-]+)", re.M)
# A word that is no part of a longer name, and no field.
WORD = re.compile(r"(?<![\w.'-])[\w'-]+")


@lru_cache(None)
def text_of(path):
    return re.sub(r"--.*", "", sources.text_of(f"{sources.TOP}/crates/{path}"))


@lru_cache(None)
def texts_of(path):
    """The definitions of a file of specs, each up to the next."""
    found = list(BEGINS.finditer(text_of(path)))
    ends = [*(it.start() for it in found[1:]), len(text_of(path))]
    return {it[1]: text_of(path)[it.start() : end] for it, end in zip(found, ends)}


def meaning_of(name, path):
    """What the comment above a definition says."""
    begins = BEGINS.pattern.replace("([\\w'-]+)", rf"{re.escape(name)}(?![\w'-])")
    found = re.search(rf"((?:^ *--.*\n)+){begins}", sources.text_of(f"{sources.TOP}/crates/{path}"), re.M)
    return " ".join(re.sub(r"^ *-- ?", "", it) for it in found[1].strip("\n").split("\n")) if found else ""


@lru_cache(None)
def imports_of(path):
    return sources.imported(text_of(path))


@lru_cache(None)
def aliases_of(path):
    """The files that a file of specs gives a name of its own."""
    found = re.findall(r"^ *use Rattle\.([\w.]+) as (\w+)", text_of(path), re.M)
    return {alias: sources.spec_file(module) for module, alias in found}


@lru_cache(None)
def home(name, path):
    """A name and the file in which it stands, where another file names it again."""
    if name in texts_of(path) or name not in imports_of(path):
        return name, path
    return home(name, imports_of(path)[name])


@lru_cache(None)
def named_by(name, path):
    """The definitions that a definition names, as pairs of a name and a file."""
    text, own, imported = texts_of(path).get(name, ""), texts_of(path), imports_of(path)
    found = {}
    for word in WORD.findall(text):
        if word != name and word in own:
            found[word, path] = None
        elif word in imported:
            found[home(word, imported[word])] = None
    for alias, word in re.findall(r"(?<![\w.])(\w+)\.([\w'-]+)", text):
        if aliases_of(path).get(alias):
            found[home(word, aliases_of(path)[alias])] = None
    return list(found)


def below(roots):
    """The definitions that these rest on, without themselves, nearest first."""
    found, left = dict.fromkeys(roots), list(roots)
    while left:
        more = [it for it in dict.fromkeys(other for it in left for other in named_by(*it)) if it not in found]
        found.update(dict.fromkeys(more))
        left = more
    return list(found)[len(roots) :]


def words_in(lines, words):
    """The definitions that some lines name."""
    found = (it for it in WORD.findall("\n".join(lines)) if it in words)
    return [home(it, words[it]) for it in dict.fromkeys(found)]


def of_contract(call, clauses):
    """The definitions that the contract of a function names, or these clauses of it, and what it requires: with those
    of the trait's items beside it, and of what contracts see of its type."""
    told = rattle_source.contract_of(call.item)[1]
    kept = [it for it in told if not clauses or it.name in clauses or it.kind == "requires"]
    found = dict.fromkeys(words_in(rattle_source.bare(kept), call.item.words))
    for outer in filter(None, (call.outer, evidence.model_of(call))):
        for it in sources.inside(outer):
            if it.kind == "ghost" and it.name not in ("view", "invariant", "inverse"):
                found.update(dict.fromkeys(words_in(it.lines, it.words)))
    return found
