"""What tools/first_run tries of older versions of Python."""

import ast
import glob
import os
import shutil
import subprocess

from .common import TOP, text_of

# The least version of Python for the scripts, as README.md says, and that for what ./replay needs.
LEAST = "3.9"
LEAST_FOR_REPLAY = "3.8"
# What ./replay needs of tools/, and calls that are newer than its version.
OF_REPLAY = ("unproved", "lib/__init__.py", "lib/common.py", "lib/toolchain.py")
NEWER = ("removeprefix", "removesuffix")
# Reads all modules of a folder, and runs their examples.
EXAMPLES = """import doctest, importlib, os, sys
sys.path.insert(0, sys.argv[1])
names = sorted(it[:-3] for it in os.listdir(sys.argv[1] + "/lib") if it.endswith(".py"))
sys.exit(any(doctest.testmod(importlib.import_module("lib." + it)).failed for it in names))
"""


def python_of(version):
    """A Python of this version, on the path or among those of pyenv, if there is one."""
    of_pyenv = glob.glob(f"{os.environ.get('PYENV_ROOT', TOP)}/versions/{version}.*/bin/python3")
    for it in filter(None, [shutil.which(f"python{version}"), *of_pyenv]):
        if subprocess.run([it, "-c", ""], capture_output=True).returncode == 0:
            return it
    return None


def scripts_of(top):
    """The scripts of tools/ and bench/, by their paths below the top of a checkout."""
    found = (f"{folder}/{it}" for folder in ("tools", "bench") for it in sorted(os.listdir(f"{top}/{folder}")))
    return [it for it in found if os.path.isfile(f"{top}/{it}") and "." not in it]


def tree_of(path, version):
    """The text of a file, as this version of Python reads it."""
    return ast.parse(text_of(f"{TOP}/{path}"), feature_version=tuple(map(int, version.split("."))))


def faults_of_replay():
    """What shows, in what ./replay needs of tools/, that it needs a newer Python."""
    found = [(path, it) for path in OF_REPLAY for it in ast.walk(tree_of(f"tools/{path}", LEAST_FOR_REPLAY))]
    newer = [(path, it) for path, it in found if is_union(it) or getattr(it, "attr", "") in NEWER]
    return [f"line {it.lineno} of tools/{path} needs a newer Python" for path, it in newer]


def is_union(node):
    """Whether a node of a text joins two sets, or two dictionaries, which an older Python cannot."""
    return isinstance(node, (ast.BinOp, ast.AugAssign)) and isinstance(node.op, ast.BitOr)


def faults_of_tools(checkout):
    """What is wrong with the scripts of tools/ and bench/ by the least Python, if there is one, and else with their texts."""
    faults = [] if f"Python {LEAST}" in text_of(f"{TOP}/README.md") else [f"README.md does not name Python {LEAST}"]
    names = scripts_of(TOP)
    modules = [f"tools/lib/{it}" for it in sorted(os.listdir(f"{TOP}/tools/lib")) if it.endswith(".py")]
    for path in [*names, *modules]:
        try:
            tree_of(path, LEAST)
        except SyntaxError as why:
            faults.append(f"{path} is no text of Python {LEAST}: {why}")
    python = python_of(LEAST)
    runs = [[f"{TOP}/{it}", "--help"] for it in names] + [["-c", EXAMPLES, f"{TOP}/tools"]]
    for words in runs if python else ():
        ran = checkout.run(command=[python, "-B", *words])
        faults += [f"by {python}: {words}: {ran}"] if ran.status or ran.err else []
    return faults
