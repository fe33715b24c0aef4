"""Finds the parts of the programs of a release: the crates of the Rattle kit, and Debian's packages of Go's
sources.

The README.md of a crate of the kit names the Rust crate that it follows, and the licence texts are next to
it. The version of a Debian package is from dpkg, and its licence from its file `copyright`. A licence that is
in neither place is reported as NOASSERTION.
"""
import os
import re
import shutil
import subprocess

from sources import TOP, read

UNKNOWN = "NOASSERTION"
# The phrases that identify a licence text of the kit.
TEXTS = [
    ("MIT", "Permission is hereby granted, free of charge"),
    ("Apache-2.0", "Apache License"),
    ("Unicode-3.0", "UNICODE LICENSE V3"),
]
# The short names in Debian's copyright files that differ from the names of SPDX.
SHORT = {
    "BSD-3-clause": "BSD-3-Clause",
    "BSD-3-clause~Google": "BSD-3-Clause",
    "Go": "BSD-3-Clause",
    "Expat": "MIT",
}


class Failure(Exception):
    """The parts of a program cannot be found."""


class Part:
    """A part of a program: its version and licence, its origin, the files with the licence's text, and the
    names of the crates that it uses."""

    def __init__(self, name, version, licence, source, files, needs=()):
        self.name, self.version, self.licence, self.source, self.files, self.needs = (name, version, licence,
                                                                                      source, files, needs)


# The Rattle kit.


def kit():
    """Returns the folder of the kit whose `rt` is on the PATH. Raises `Failure` if there is no `rt`."""
    found = shutil.which("rt")
    if found is None:
        raise Failure(
            "'rt' is not on the PATH: the Rattle toolchain is needed (README.md, 'Build, run, test')"
        )
    return os.path.dirname(os.path.dirname(os.path.realpath(found)))


def kit_name():
    """Returns the kit's name and version, such as rattle-kit and 13f."""
    return read(os.path.join(kit(), "KIT-ID")).split()[0].rpartition("-")[::2]


def crates():
    """Returns the crates of this repository by name, each with the crates that it uses."""
    lines = [it for it in read("crates.txt").split("\n") if ":" in it and not it.startswith("#")]
    return {it.partition(":")[0].split()[0]: it.partition(":")[2].split() for it in lines}


def needs_of_crate(name, own):
    """Returns the crates that a crate uses. crates.txt names them for a crate of this repository, and the
    crate's library for a crate of the kit."""
    if name in own:
        return own[name]
    return re.findall(r"^dep (\S+)$", read_head(os.path.join(kit(), "rlibs", name + ".rlib", "format")), re.M)


def read_head(path):
    with open(path, encoding="utf-8", errors="replace") as file:
        return file.read(1 << 16)


def closure(name, needs):
    """Returns a name and all names that it needs, directly or not, sorted. The value of each is the sorted
    list of its own needs."""
    found, waiting = {}, [name]
    while waiting:
        it = waiting.pop()
        if it not in found:
            found[it] = sorted(needs(it))
            waiting += found[it]
    return {it: found[it] for it in sorted(found)}


def licence_files(folder):
    return sorted(os.path.join(folder, it) for it in os.listdir(folder) if it.startswith("LICENSE"))


def licence_of(files):
    """Returns the licence in these files: the licence of a single file, or both licences of LICENSE-APACHE
    and LICENSE-MIT, joined by OR. Returns `UNKNOWN` for other sets of files."""
    known = [next((short for short, words in TEXTS if words in read(it)), UNKNOWN) for it in files]
    if [os.path.basename(it) for it in files] == ["LICENSE-APACHE", "LICENSE-MIT"]:
        return " OR ".join(known)
    return known[0] if len(known) == 1 else UNKNOWN


def source_of(folder, name):
    """Returns a phrase with the name of the kit. If the README.md of the crate names the Rust crate that it
    follows, the phrase has that crate and its version."""
    path = os.path.join(folder, "README.md")
    found = (re.search(r"Rust crate `%s` (\d[\w.]*\d)" % re.escape(name), read(path))
             if os.path.isfile(path)
             else None)
    said = ", which follows the Rust crate %s %s" % (name, found.group(1)) if found else ""
    return "a crate of %s-%s%s" % (*kit_name(), said)


def kit_part(name, needs):
    folder = os.path.join(kit(), "rattle", name)
    files = licence_files(folder) if os.path.isdir(folder) else []
    return Part(name, kit_name()[1], licence_of(files), source_of(folder, name), files, needs)


def kit_parts(program):
    """Returns as parts the crates of the kit that a program in Rattle uses, directly or not."""
    own = crates()
    found = closure(program, lambda it: needs_of_crate(it, own))
    return [kit_part(name, needs) for name, needs in found.items() if name not in own]


def kit_crates_used(program):
    """Returns the crates of the kit that are named by a program in Rattle or by a crate of this repository
    that it uses."""
    own = crates()
    found = closure(program, lambda it: own.get(it, []))
    return [name for name in found if name not in own]


# The programs in Go.


def said(*command, **how):
    done = subprocess.run(command, capture_output=True, text=True, **how)
    if done.returncode != 0:
        raise Failure("%s: %s" % (" ".join(command[:2]), done.stderr.strip() or "it failed"))
    return done.stdout


# The folder with the sources of each program in Go.
GO = {"csid-front": "go/front", "csid-etcd": "go/etcd"}


def go_folders(program):
    """Returns the folders of all packages that a program in Go imports, directly or not, outside this
    repository."""
    listed = said(os.path.join(TOP, "go", "go"), "list", "-deps", "-f", "{{.Dir}}", ".",
                  cwd=os.path.join(TOP, GO[program]))
    return sorted({os.path.realpath(it) for it in listed.split("\n") if it and not it.startswith(TOP)})


def debian_names(folders):
    """Returns the sorted names of the Debian packages that own the sources in these folders. One file of a
    folder is looked up, since all files of a folder are in one package."""
    sources = [os.path.join(it, next(name for name in sorted(os.listdir(it)) if name.endswith((".go", ".s"))))
               for it in folders]
    return sorted(
        {line.split(":")[0] for line in said("dpkg-query", "--search", *sources).split("\n") if line}
    )


def debian_part(name):
    path = "/usr/share/doc/%s/copyright" % name
    found = (
        re.search(r"^Files: \*\n(?:.+\n)*?License: (\S+)", read(path), re.M) if os.path.isfile(path) else None
    )
    licence = SHORT.get(found.group(1), found.group(1)) if found else UNKNOWN
    version = said("dpkg-query", "--show", "--showformat=${Version}", name)
    return Part(name, version, licence, "a Debian package", [path] if os.path.isfile(path) else [])


def go_parts(program):
    """Returns the Debian packages of the sources of a program in Go: Go's own library, and the imported
    packages."""
    return [debian_part(it) for it in debian_names(go_folders(program))]
