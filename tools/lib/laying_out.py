"""Lays wrong bodies out in copies of a crate: each in the place of its function's body, or in a twin of its
function."""

import os
import re
import shutil
from collections import Counter
from dataclasses import dataclass, replace

from . import common, rattle_source
from .common import text_of
from .rattle_source import functions_of, is_for_all, module_of

CLOSURE = re.compile(r"(?:[(,={]\s*|\bmove\s+|&mut\s+)\|")
# A body for a function of any type, where its proof is left open.
ENDLESS = "loop {}"
# A proof that is left open, by the module and the name of its function.
OPEN_PROOF = """use Rattle.{module}.Statement.{{statement}}

pub {name}_spec : {{M : Type 1}} → statement M
{name}_spec = ?
"""


@dataclass(frozen=True)
class Twin:
    """A copy of a function under another name, with a wrong body: its file, its text, its name, and the folders of its
    proof and of the function's, if there is one."""

    path: str
    text: str
    name: str
    proof: str
    original: str


def texts_of(crate, edits):
    """The texts of a crate's files with these edits made."""
    texts = {}
    for path in {path for edit in edits for path, _ in edit.lines}:
        lines = text_of(f"{crate.folder}/{path}").split("\n")
        for edit in edits:
            for (at, number), text in edit.lines.items():
                if at == path:
                    lines[number - 1] = text
        texts[path] = "\n".join(lines)
    return texts


def proofs_of(crate, function):
    """The folders of proofs, below proofs/, that may be a function's."""
    module = module_of(function.path)
    for at, folders, files in os.walk(f"{crate.folder}/proofs"):
        *outer, name = os.path.relpath(at, f"{crate.folder}/proofs").split("/")
        is_there = outer == module if not function.types else bool(outer) and outer[-1].split("+")[0] in function.types
        if name == function.name and is_there and any(it.endswith(".antt") for it in files):
            yield "/".join([*outer, name])


def proof_of(crate, function, lines):
    """The folder of a function's proof, below proofs/, where it can be told; it need not be there."""
    found = list(proofs_of(crate, function))
    outer = f"{crate.folder}/proofs/{'/'.join(module_of(function.path))}"
    cycles = [it for it in os.listdir(outer) if it.startswith("+")] if os.path.isdir(outer) else []
    # (a function that is passed to what calls it has its proof under their names)
    if any(function.name in re.split("[+-]", it) for it in cycles):
        return None
    if len(found) > 1 or any("#[cycle" in it for it in lines[max(function.first - 5, 0) : function.first]):
        return None
    if not found and not function.header or is_for_whole(crate, function):
        home = home_of(crate, function) if function.types else function.path
        found = found or ["/".join([*module_of(home), *function.types, function.name])] if home else found
    return found[0] if found and "+" not in found[0] else None


def home_of(crate, function):
    """The file that declares a method's type, whose module the method's name has; None where it cannot be told."""
    declares = re.compile(rf"^(?:pub(?:\([a-z]+\))? )?(?:struct|enum|trait) {function.types[0]}\b", re.M)
    sources = [os.path.relpath(it, crate.folder) for it in common.files_in(f"{crate.folder}/src")]
    homes = [it for it in sources if declares.search(text_of(f"{crate.folder}/{it}"))]
    return homes[0] if len(homes) == 1 else None


def is_for_whole(crate, function):
    """Whether a function stands in an `impl` of a type itself, for all of its arguments, those with a default too."""
    if not is_for_all(function.header):
        return False
    home = home_of(crate, function)
    declared = home and rattle_source.declared_by(function.types[0], text_of(f"{crate.folder}/{home}"))
    return not home or rattle_source.named_by(function.header) == declared


def can_have_twin(crate, edit):
    """Whether the function that an edit makes wrong may have a twin, as far as its place tells: what a trait asks for
    has none."""
    function, *others = edit.functions
    is_inside = all(at == function.path and function.first <= n <= function.last for at, n in edit.lines)
    is_of_trait = len(function.types) > 1 or "trait " in function.header
    has_one_proof = len(list(proofs_of(crate, function))) < 2
    return is_inside and has_one_proof and not edit.is_alone and not others and not is_of_trait


def twin_of(crate, edit, number):
    """A twin of the one function that an edit makes wrong, with its body; None where the function cannot have one."""
    if not can_have_twin(crate, edit):
        return None
    function, = edit.functions
    lines = text_of(f"{crate.folder}/{function.path}").split("\n")
    above = function.first
    # (its attributes stand above it, up to the next blank line or item)
    while re.match(r"\s*[^\s}].*[^{;]$", lines[above - 2]):
        above -= 1
    head = [it for it in lines[above - 1 : function.first - 1] if not it.lstrip().startswith("//")]
    body = [edit.lines.get((function.path, n), lines[n - 1]) for n in range(function.first, function.last + 1)]
    name = f"{function.name}_{number}"
    body[0] = re.sub(rf"\bfn {function.name}\b", f"fn {name}", body[0], count=1)
    text = "\n".join([*head, *body])
    # (closures in a twin would be proved again, with all that they are passed to)
    if "#[cycle" in text or CLOSURE.search(text):
        return None
    text = f"{function.header}{text}\n}}\n" if function.header else f"{text}\n"
    proof = next(proofs_of(crate, function), None) or proof_of(crate, function, lines)
    return Twin(function.path, text, name, proof and f"{proof}_{number}", proof)


def numbers_of(crate, edits):
    """The numbers of edits, by their names: 1 for what takes the place of a function's body, and others for twins."""
    in_place = [it for it in edits if not twin_of(crate, it, 2)]
    counts = Counter(function for it in in_place for function in it.functions)
    numbers = {it.name: 1 for it in in_place}
    for edit in edits:
        if edit.name not in numbers:
            counts.update(edit.functions)
            numbers[edit.name] = max(counts[it] for it in edit.functions)
    return numbers


def in_twin(edit, twin, texts):
    """An edit with the function that it makes wrong in a copy that has its twin."""
    types = next(iter(edit.functions)).types
    found = [it for it in functions_of(twin.path, texts[twin.path]) if (it.name, it.types) == (twin.name, types)]
    return replace(edit, functions=frozenset(found))


def lay_out(crate, edits, numbers):
    """Lays edits out in one copy of a crate, a function's second one in a twin, by their numbers."""
    twins = [twin_of(crate, it, numbers[it.name]) if numbers[it.name] > 1 else None for it in edits]
    texts = texts_of(crate, [it for it, twin in zip(edits, twins) if not twin])
    for it in filter(None, twins):
        was = texts.get(it.path) or text_of(f"{crate.folder}/{it.path}")
        texts[it.path] = f"{was}\n{it.text}"
    laid = [in_twin(it, twin, texts) if twin else it for it, twin in zip(edits, twins)]
    return Layout(crate, laid, twins, texts)


def as_they_are(crate, edits):
    """A copy of a crate with its right bodies, in the place of one with these edits."""
    return Layout(crate, edits, [None] * len(edits), {})


def write(path, text):
    with open(path, "w", encoding="utf-8") as file:
        file.write(text)


def put_answers(suspect, folder):
    """Writes the answers that are tried for a suspect, or none where none is left."""
    text, file = suspect.answers(), f"{folder}/Answers.antt"
    if text is not None:
        common.write(file, text)
    elif os.path.exists(file):
        os.remove(file)


@dataclass
class Layout:
    """Wrong bodies in one copy of a crate: the edits with the functions that they make wrong there, the twin of each,
    or None, and the texts of the files that differ, by their paths."""

    crate: object
    edits: list
    twins: list
    texts: dict

    def write(self, room, suspects):
        """Writes the copy, with the answers that are tried for suspects, which lie by the names of their edits."""
        for part in common.rtlib().PARTS:
            if os.path.isdir(f"{self.crate.folder}/{part}"):
                shutil.copytree(f"{self.crate.folder}/{part}", f"{room}/{part}")
        for path, text in self.texts.items():
            write(f"{room}/{path}", text)
        for edit, twin in zip(self.edits, self.twins):
            of_edit = suspects.get(edit.name, {}).values()
            if not twin:
                for it in of_edit:
                    if it.text:
                        put_answers(it, f"{room}/proofs/{it.folder}")
            elif twin.proof:
                self.copy_proof(twin, of_edit, f"{room}/proofs")

    def copy_proof(self, twin, suspects, folder):
        """Gives a twin a copy of its function's proof, with the twin's name in place of the function's."""
        dotted = [f".{self.crate.name}.proofs.{it.replace('/', '.')}." for it in (twin.original, twin.proof)]
        # (the copy of its function's proof may have the answers of another edit)
        if os.path.isdir(f"{self.crate.folder}/proofs/{twin.original}"):
            shutil.copytree(f"{self.crate.folder}/proofs/{twin.original}", f"{folder}/{twin.proof}")
        for it in suspects:
            put_answers(it, f"{folder}/{twin.proof}")
        for file in common.files_in(f"{folder}/{twin.proof}"):
            write(file, text_of(file).replace(*dotted))

    def leave_open(self, room):
        """Gives each function of the copy that no edit makes wrong a proof that is left open, where its path is known,
        and a body that costs a check next to nothing: what calls it is proved from its contract."""
        made_wrong = [it for edit in self.edits for it in edit.functions]
        wrong = {(it.path, it.types, it.name) for it in made_wrong}
        wrong |= {(it.path, of.types, it.name) for it in filter(None, self.twins) for of in made_wrong}
        for file in common.files_in(f"{room}/src"):
            path, text = os.path.relpath(file, room), text_of(file)
            lines, right = text.split("\n"), text.split("\n")
            for function in functions_of(path, text):
                proof = proof_of(self.crate, function, right)
                if proof and (path, function.types, function.name) not in wrong:
                    self.open_proof(function.name, proof, room)
                    body = rattle_source.body_of(function, lines)
                    if body and body.stop > body.start:
                        lines[body] = ENDLESS, *[""] * (body.stop - body.start - 1)
            write(file, "\n".join(lines))

    def open_proof(self, name, proof, room):
        """Leaves the proof of a function open, by its name and the folder of its proof."""
        folder = f"{room}/proofs/{proof}"
        os.makedirs(folder, exist_ok=True)
        for it in os.listdir(folder):
            if it.endswith(".antt"):
                os.remove(f"{folder}/{it}")
        module = f"{self.crate.name}.proofs.{proof.replace('/', '.')}"
        write(f"{folder}/Proof.antt", OPEN_PROOF.format(module=module, name=name))
