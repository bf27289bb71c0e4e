"""The packages for Debian of a release: libcordyceps0 with the shared library, and libcordyceps-dev to build with."""

import gzip
import hashlib
import os

from . import archive, common, releasing

LIBRARIES = "usr/lib/x86_64-linux-gnu"
MAINTAINER = "Nimbaqi maintainers <maintainers@users.noreply.nimbaqi.example>"
CONTROL = """Package: {name}
Source: cordyceps
Version: {version}
Architecture: amd64
Maintainer: {maintainer}
Installed-Size: {size}
{fields}Priority: optional
Multi-Arch: same
Description: {title}
 Timers, priority queues and lists, whose elements have checked tickets or are
 structs of the caller's, and inboxes and piles that threads share. Each call
 is proved to do what its contract says, to touch no memory that is not its
 own, and to return.
"""
SHARED = "Section: libs\nDepends: libc6 (>= 2.14)\n"
TO_BUILD = "Section: libdevel\nDepends: libcordyceps0 (= {version})\nRecommends: pkg-config\n"
CHANGES = "cordyceps ({version}) unstable; urgency=medium\n\n  * Version {version}.\n\n -- {maintainer}  {date}\n"


def make(release, top, room, to):
    """Makes both packages of the folder that the tarball has."""
    if common.left_out("the packages for Debian", ("dpkg-deb",)):
        return
    shared, build = f"{room}/libcordyceps0", f"{room}/libcordyceps-dev"
    releasing.copy(f"{top}/lib/{releasing.SONAME}", f"{shared}/{LIBRARIES}/{releasing.SONAME}")
    releasing.put(f"{shared}/DEBIAN/triggers", "activate-noawait ldconfig\n")
    releasing.put(f"{shared}/DEBIAN/shlibs", f"libcordyceps 0 libcordyceps0 (>= {release.version})\n")
    pack(release, top, shared, to, SHARED, "proved intrusive collections")
    releasing.copy(f"{top}/lib/{archive.NAME}", f"{build}/{LIBRARIES}/{archive.NAME}")
    os.symlink(releasing.SONAME, f"{build}/{LIBRARIES}/libcordyceps.so")
    for it in archive.HEADERS:
        releasing.copy(it, f"{build}/usr/include/{os.path.basename(it)}")
    config = archive.pkg_config("/usr", "lib/x86_64-linux-gnu")
    releasing.put(f"{build}/{LIBRARIES}/pkgconfig/cordyceps.pc", config)
    for name in ("cordyceps-config.cmake", "cordyceps-config-version.cmake"):
        text = archive.template(name, INCLUDE="/usr/include", VERSION=release.version)
        releasing.put(f"{build}/{LIBRARIES}/cmake/cordyceps/{name}", text)
    documents = f"{build}/usr/share/doc/libcordyceps-dev"
    for it in ("CONTRACTS.md", "MANIFEST.json"):
        releasing.copy(f"{top}/{it}", f"{documents}/{it}")
    for it in releasing.paths_in(f"{top}/examples"):
        releasing.copy(f"{top}/examples/{it}", f"{documents}/examples/{it}")
    pack(release, top, build, to, TO_BUILD, "proved intrusive collections (development files)")


def pack(release, top, folder, to, fields, title):
    """Adds to a package what each one has, and packs it."""
    name = os.path.basename(folder)
    documents = f"{folder}/usr/share/doc/{name}"
    releasing.copy(f"{top}/NOTICES", f"{documents}/copyright")
    filled = {"name": name, "version": release.version, "maintainer": MAINTAINER, "title": title}
    date = releasing.run("date", "-u", "-R", "-d", f"@{release.time}", env={**os.environ, "LC_ALL": "C"}).strip()
    changes = gzip.compress(CHANGES.format(date=date, **filled).encode(), 9, mtime=0)
    releasing.put(f"{documents}/changelog.gz", changes)
    files = [it for it in releasing.paths_in(folder) if not it.startswith("DEBIAN/")]
    sizes = sum(os.path.getsize(f"{folder}/{it}") for it in files if not os.path.islink(f"{folder}/{it}"))
    filled["fields"] = fields.format(**filled)
    releasing.put(f"{folder}/DEBIAN/control", CONTROL.format(size=sizes // 1024 + 1, **filled))
    plain = [it for it in files if not os.path.islink(f"{folder}/{it}")]
    sums = (f"{hashlib.md5(releasing.bytes_of(f'{folder}/{it}')).hexdigest()}  {it}\n" for it in plain)
    releasing.put(f"{folder}/DEBIAN/md5sums", "".join(sums))
    for at, _, _ in os.walk(folder):
        os.chmod(at, 0o755)
    words = ["dpkg-deb", "-Zxz", "--root-owner-group", "--build", folder, f"{to}/{name}_{release.version}_amd64.deb"]
    releasing.run(*words, env={**os.environ, "SOURCE_DATE_EPOCH": str(release.time)})
