"""The sources of the crates: their files, the words that contracts may have, and what a crate makes public."""

import os
import re
from collections import namedtuple
from functools import lru_cache

from lib import rattle_source
from lib.common import TOP, text_of
from lib.rattle_source import items_of

# A file: its crate, its path in the crate, what its `//!` lines say, its items, and its words.
File = namedtuple("File", "crate path about items words")


def inside(item):
    """The items within an `impl`, a trait, a struct, an enum or a module, with the words that it and they import."""
    found = rattle_source.inside(item)
    words = {**item.words, **words_of(found)}
    return [it._replace(words=words) for it in found]


def words_of(items):
    """Which file of specs each name comes from that these items import, below crates/."""
    return imported(" ".join(line.strip() for it in items if it.kind == "ghost use" for line in it.lines))


def imported(text):
    """Which file of specs or proofs each name comes from that a text imports."""
    found = {}
    for module, names in re.findall(r"\buse Rattle\.([\w.]+?)\.\{(.*?)\}(?=;|\s|$)", text):
        where = spec_file(module)
        for name in re.split(r",\s*", names) if where else ():
            found[name.strip()] = where
    return found


@lru_cache(None)
def spec_file(module):
    """The file of a module of specs or proofs, below crates/, if a crate here has it: where another module names it
    again, its own."""
    path, more = module.split("."), []
    while len(path) > 2:
        file = "/".join(path) + ".antt"
        if os.path.isfile(f"{TOP}/crates/{file}"):
            again = more and re.search(rf"^pub use Rattle\.([\w.]+\.{more[0]})$", text_of(f"{TOP}/crates/{file}"), re.M)
            return spec_file(".".join([again[1], *more[1:]])) if again else file
        more.insert(0, path.pop())
    return None


@lru_cache(None)
def read(crate, path):
    """A file of a crate."""
    lines = text_of(f"{TOP}/crates/{crate}/{path}").split("\n")
    about = [it[3:].removeprefix(" ") for it in lines if it.startswith("//!")]
    found = list(items_of((crate, path), lines, 0, len(lines), 0, {}))
    words = words_of(found)
    return File(crate, path, about, [it._replace(words=words) for it in found], words)


@lru_cache(None)
def files_of(crate):
    """The files of a crate."""
    found = []
    for at, folders, names in os.walk(f"{TOP}/crates/{crate}/src"):
        folders.sort()
        found += [os.path.relpath(f"{at}/{it}", f"{TOP}/crates/{crate}") for it in sorted(names) if it.endswith(".rt")]
    return [read(crate, it) for it in found]


def says_more(file):
    """Whether the head of a file has more than one paragraph."""
    return "" in file.about


def module_of(file):
    """The path of a file's module in its crate."""
    return re.sub(r"(?:/mod)?\.rt$", "", file.path.removeprefix("src/")).replace("/", "::")


def module_file(crate, module):
    """The file of a module of a crate."""
    if not module:
        return read(crate, "src/lib.rt")
    path = "src/" + "/".join(module)
    return read(crate, f"{path}.rt" if os.path.isfile(f"{TOP}/crates/{crate}/{path}.rt") else f"{path}/mod.rt")


def uses_of(items):
    """What items name again for all: for each name the path that it has."""
    for item in items:
        if item.kind == "use" and item.visible == "pub":
            text = " ".join(it.strip() for it in item.lines)
            path, names = re.match(r"pub use ([\w:]+?)(?:::\{(.*)\})?;", text).groups()
            for name in re.split(r",\s*", names.strip(" ,")) if names else [path.split("::")[-1]]:
                yield name, f"{path}::{name}" if names else path


def resolved(crate, module, name):
    """The item that a path leads to, from a module of a crate: where it is defined."""
    file = module_file(crate, module)
    for item in file.items:
        if item.name == name and item.kind in ("struct", "enum", "trait", "fn", "type", "const"):
            return item
    for other, path in uses_of(file.items):
        if other == name:
            return item_at(crate, module, path)
    return None


def item_at(crate, module, path):
    """The item of a path as a `use` has it, in a module of a crate."""
    first, *more = path.split("::")
    if os.path.isdir(f"{TOP}/crates/{first}"):
        return resolved(first, more[:-1], more[-1])
    within = [] if first == "crate" else [*module, first]
    return resolved(crate, [*within, *more[:-1]], more[-1])


def surface(crate, module=()):
    """What a crate makes public: for each item the path that a user writes, and the item where it is defined."""
    file = module_file(crate, list(module))
    yield from of_module(crate, module, file.items)
    for item in file.items:
        if item.kind == "mod" and item.visible == "pub":
            if item.lines[0].endswith(";"):
                yield from surface(crate, (*module, item.name))
            else:
                yield from of_module(crate, (*module, item.name), inside(item))


def of_module(crate, module, items):
    path = "::".join([crate, *module])
    for item in items:
        if item.visible == "pub" and item.kind in ("struct", "enum", "trait", "fn", "type", "const"):
            yield f"{path}::{item.name}", item
    for name, used in uses_of(items):
        item = item_at(crate, list(module), used)
        if item is None:
            raise LookupError(f"no source of the crates defines {used}, which {path} makes public")
        yield f"{path}::{name}", item
