"""A release of the library for C and Rust: what it has, laid out of a proof, byte for byte the same each time."""

import gzip
import hashlib
import json
import os
import re
import shutil
import subprocess
import tarfile
import tempfile
from collections import namedtuple

from . import archive, common, machine_code
from .common import TOP, text_of

# Of a release: its version, the commit and its time, the toolchain, and the folder that the proof was left in.
Release = namedtuple("Release", "version commit time kit proof")
SONAME = "libcordyceps.so.0"
EXPORTS = "CORDYCEPS_0 { global: cordyceps_*; local: *; };\n"
# The first lines of a function for C.
EXPORT = re.compile(r'((?:^///.*\n)*)^#\[unsafe\(no_mangle\)\]\npub extern "C" fn (\w+)((?:.*\n)*?)^\{', re.M)
INLINED = "\n  It is also in the archive, for linkers that inline it, as {by} prepared it."
# The programs by which a release is made, with the words by which each tells its version.
TOOLS = (["gcc", "--version"], ["ar", "--version"], ["cargo", "--version"], ["dpkg-deb", "--version"])


class NotMade(Exception):
    """Says why there is no release."""


def run(*words, **how):
    """Runs a command, and answers what it wrote."""
    ran = subprocess.run(words, stdin=subprocess.DEVNULL, capture_output=True, text=True, errors="replace", **how)
    if ran.returncode:
        raise NotMade(f"{words[0]} ended with status {ran.returncode}: {(ran.stdout + ran.stderr).strip()}")
    return ran.stdout


def put(path, text):
    os.makedirs(os.path.dirname(path), exist_ok=True)
    with open(path, "wb") as it:
        it.write(text if isinstance(text, bytes) else text.encode())
    os.chmod(path, 0o644)


def bytes_of(path):
    with open(path, "rb") as it:
        return it.read()


def copy(path, to):
    put(to, bytes_of(path))


def paths_in(folder):
    """The files below a folder, by their paths there."""
    return [os.path.relpath(it, folder) for it in common.files_in(folder)]


def sum_of(path):
    return hashlib.sha256(bytes_of(path)).hexdigest()


def make(release, packers, to):
    """Makes all files of a release in a folder, by functions that pack the folder of the tarball."""
    with tempfile.TemporaryDirectory(prefix="release-") as room:
        for name in ("module.bc", "words", "made.a"):
            shutil.copy(f"{release.proof}/{name}", room)
        inlined_by = compile(release, room)
        top = f"{room}/cordyceps-{release.version}-x86_64-linux"
        lay_out(release, room, top, inlined_by)
        os.makedirs(to)
        for pack in packers:
            pack(release, top, room, to)
        put(f"{to}/SHA256SUMS", "".join(f"{sum_of(f'{to}/{it}')}  {it}\n" for it in paths_in(to)))


def compile(release, room):
    """Makes the libraries and the assembly, and answers the compiler that prepared the archive to be inlined. The
    module has to give the object that was proved, byte for byte, and gcc the same code from the assembly."""
    kit = release.kit
    machine_code.compile(kit, machine_code.module_of(room), room)
    machine_code.tool(kit, "llvm-ar", "x", "--output", f"{room}", f"{room}/made.a")
    (made,) = machine_code.tool(kit, "llvm-ar", "t", f"{room}/made.a").split()
    if bytes_of(f"{room}/{made}") != bytes_of(f"{room}/proved.o"):
        raise NotMade("the module that was kept does not compile to the object that was proved")
    run("gcc", "-c", f"{room}/cordyceps.s", "-o", f"{room}/assembled.o")
    fault = machine_code.fault_of_assembled(kit, f"{room}/assembled.o", (f"{room}/cordyceps.o", f"{room}/heap.o"))
    if fault:
        raise NotMade(fault)
    put(f"{room}/exports", EXPORTS)
    words = ["-shared", "--soname", SONAME, "--version-script", f"{room}/exports", "--hash-style=gnu", "--eh-frame-hdr"]
    words += ["--build-id=sha1", "--strip-all", "-z", "relro", "-z", "now", f"{kit}/toolchain/lib/libc.so.6"]
    machine_code.tool(kit, "ld.lld", *words, f"{room}/cordyceps.o", f"{room}/heap.o", "-o", f"{room}/{SONAME}")
    by = machine_code.inlined(machine_code.module_of(room), room)
    machine_code.archive(kit, room, f"{room}/{archive.NAME}")
    return by


def lay_out(release, room, top, inlined_by):
    """Makes the folder that the tarball has."""
    licences = archive.licences(release.kit, room)
    without = [it for it, texts in licences.items() if not texts]
    filled = {"VERSION": release.version, "UNLICENSED": ", ".join(without) or "none"}
    for name in (archive.NAME, SONAME):
        copy(f"{room}/{name}", f"{top}/lib/{name}")
    copy(f"{room}/cordyceps.s", f"{top}/assembly/{archive.ASSEMBLY}")
    copy(f"{room}/module.bc", f"{top}/llvm/cordyceps.bc")
    for it in archive.HEADERS:
        copy(it, f"{top}/include/{os.path.basename(it)}")
    for it in paths_in(f"{TOP}/c/tests"):
        copy(f"{TOP}/c/tests/{it}", f"{top}/tests/{it}")
    for it in ("event_loop.c", "run_queue.c"):
        copy(f"{TOP}/c/{it}", f"{top}/examples/{it}")
    copy(f"{TOP}/c/release/Makefile", f"{top}/Makefile")
    put(f"{top}/lib/pkgconfig/cordyceps.pc", archive.pkg_config("${pcfiledir}/../..", "lib"))
    for name in ("cordyceps-config.cmake", "cordyceps-config-version.cmake"):
        text = archive.template(name, INCLUDE="${_cordyceps_library}/../include", VERSION=release.version)
        put(f"{top}/lib/cmake/cordyceps/{name}", text)
    put(f"{top}/NOTICES", archive.notices(licences))
    put(f"{top}/CONTRACTS.md", contracts(release))
    by = INLINED.format(by=inlined_by) if inlined_by else ""
    put(f"{top}/README.md", archive.template("README.md", INLINED=by, **filled))
    lay_out_crate(f"{top}/rust", room, top)
    put(f"{top}/MANIFEST.json", manifest(release, room, top, licences, inlined_by))


def contracts_by_name():
    """The contract of each function for C, as the source has it."""
    texts = map(text_of, common.files_in(f"{TOP}/crates/{archive.CRATE}/src"))
    found = [it.groups() for text in texts for it in EXPORT.finditer(text)]
    return {name: f'{comment}pub extern "C" fn {name}{more.rstrip()}\n' for comment, name, more in found}


def contracts(release):
    """The page with all contracts."""
    head = f"# What is proved of each call\n\nThese are the contracts of the source, at commit {release.commit}.\n"
    return "\n".join([head, *(f"## {it}\n\n```rust\n{by}```\n" for it, by in sorted(contracts_by_name().items()))])


def manifest(release, room, top, licences, inlined_by):
    """What the release was made from and by, and a sum of each of its files."""
    said, kit = text_of(f"{release.proof}/said"), release.kit
    versions = [machine_code.tool(kit, "clang", "--version").splitlines()[0]]
    versions += [run(*it).splitlines()[0] for it in TOOLS if shutil.which(it[0])]
    facts = {
        "name": "cordyceps",
        "version": release.version,
        "target": "x86_64-unknown-linux-gnu",
        "commit": release.commit,
        "toolchain": text_of(f"{kit}/KIT-ID").strip(),
        "logic": re.search(r"^logic /.*\bsum=(\S+)", said, re.M)[1],
        "verdict": archive.PROVED.search(said)[0],
        "trusted_of_c": re.findall(r"^axioms .*$", said, re.M),
        "compiled_with": machine_code.module_of(room).words,
        "inlined_as_prepared_by": inlined_by,
        "made_by": versions,
        "object_that_was_proved": sum_of(f"{room}/proved.o"),
        "parts_of_the_toolchain": {it: [os.path.basename(file) for file in files] for it, files in licences.items()},
        "to_ask_before_publishing": "the owner of the Rattle toolchain, of the parts that have no licence here",
        "functions": sorted(contracts_by_name()),
        "sha256": {it: sum_of(f"{top}/{it}") for it in paths_in(top)},
    }
    return json.dumps(facts, indent=1) + "\n"


def tarball(release, top, _, to):
    """Packs a folder into a tarball which says nothing of who makes it, and when."""
    name = os.path.basename(top)

    def plain(it):
        it.mtime, it.uid, it.gid, it.uname, it.gname = release.time, 0, 0, "", ""
        it.mode = 0o755 if it.isdir() else 0o644
        return it

    with open(f"{to}/{name}.tar.gz", "wb") as file, gzip.GzipFile("", "wb", 9, file, mtime=0) as packed:
        with tarfile.open(fileobj=packed, mode="w", format=tarfile.USTAR_FORMAT) as tar:
            for it in paths_in(top):
                tar.add(f"{top}/{it}", f"{name}/{it}", filter=plain)


def lay_out_crate(folder, room, top):
    """Makes the Rust crate, with the assembly and the licences in it."""
    for it in run("git", "-C", f"{TOP}/rust", "ls-files").split():
        copy(f"{TOP}/rust/{it}", f"{folder}/{it}")
    copy(f"{room}/cordyceps.s", f"{folder}/assembly/{archive.ASSEMBLY}")
    copy(f"{top}/NOTICES", f"{folder}/NOTICES")


def crate(release, top, room, to):
    """Has cargo pack the crate, which builds it too."""
    if common.left_out("the packed crate", ("cargo",)):
        return
    variables = {it: by for it, by in os.environ.items() if it != "CORDYCEPS_LIB_DIR"}
    words = ["cargo", "package", "--offline", "--locked", "--allow-dirty", "--target-dir", f"{room}/target"]
    shutil.copytree(f"{top}/rust", f"{room}/crate")
    run(*words, cwd=f"{room}/crate", env=variables)
    name = f"cordyceps-c-{release.version}.crate"
    copy(f"{room}/target/package/{name}", f"{to}/{name}")
