"""Tests a release: its folder, its tar.gz and its parts list, and the states in which ./release refuses to
begin."""
import hashlib
import json
import os
import pathlib
import re
import shutil
import subprocess
import sys
import tarfile
import tempfile

from sources import TOP, version

BUILD = "release: %s is not there, or older than a source: call %s first\n"
CSID, CSICTL, FRONT, ETCD = ("crates/csid/out/csid", "crates/csictl/out/csictl", "go/front/out/front",
                             "go/etcd/out/csid-etcd")
USAGE = "release: usage: ./release [--out FOLDER | --check]\n"
NO_KIT = "%s: 'rt' is not on the PATH: the Rattle toolchain is needed (README.md, 'Build, run, test')\n"
# For each row: the programs that exist, the file that is newer than they (None: no file), and the line that
# ./release prints.
REFUSED = [
    ([], None, BUILD % (CSID, "./build")),
    ([CSID, FRONT], None, BUILD % (CSICTL, "./build")),
    ([CSID, CSICTL], None, BUILD % (FRONT, "go/front/build")),
    ([CSID, CSICTL, FRONT], "crates/csid/src/main.rt", BUILD % (CSID, "./build")),
    ([CSID, CSICTL, FRONT], "crates.txt", BUILD % (CSID, "./build")),
    ([CSID, CSICTL, FRONT], "go/front/main.go", BUILD % (FRONT, "go/front/build")),
    ([CSID, CSICTL, FRONT], "go/src/fomaheti/frames/replies.go", BUILD % (FRONT, "go/front/build")),
    ([CSID, CSICTL, FRONT], "go/front/build", BUILD % (FRONT, "go/front/build")),
    ([CSID, CSICTL, FRONT], "go/go", BUILD % (FRONT, "go/front/build")),
    ([CSID, CSICTL, FRONT], "VERSION", BUILD % (FRONT, "go/front/build")),
]
# The same rows for csid-etcd, if the sources of etcd's client are installed. The front was built again after
# the newer file.
REFUSED_ETCD = [
    ([CSID, CSICTL, FRONT], None, BUILD % (ETCD, "go/etcd/build")),
    ([CSID, CSICTL, FRONT, ETCD], "go/etcd/import.go", BUILD % (ETCD, "go/etcd/build")),
    ([CSID, CSICTL, FRONT, ETCD], "go/etcd/build", BUILD % (ETCD, "go/etcd/build")),
    ([CSID, CSICTL, FRONT, ETCD], "go/go", BUILD % (ETCD, "go/etcd/build")),
    ([CSID, CSICTL, FRONT, ETCD], "go/src/fomaheti/frames/requests.go", BUILD % (ETCD, "go/etcd/build")),
    ([CSID, CSICTL, FRONT, ETCD], "VERSION", BUILD % (ETCD, "go/etcd/build")),
]


def run(*words, **more):
    done = subprocess.run(words, capture_output=True, text=True, **more)
    return done.returncode, done.stdout, done.stderr


def output(*words):
    return subprocess.run(words, capture_output=True, text=True, check=True).stdout.strip()


def checksum(path):
    return hashlib.sha256(pathlib.Path(path).read_bytes()).hexdigest()


def folder_rows(folder, name, package):
    yield "the files", sorted(os.listdir(folder)), sorted(
        ["SHA256SUMS", name + ".tar.gz", name + ".spdx.json", package]
    )
    yield "their checksums", run("sha256sum", "--check", "--quiet", "--strict", "SHA256SUMS", cwd=folder), (
        0, "", ""
    )
    with open(os.path.join(folder, "SHA256SUMS"), encoding="utf-8") as file:
        listed = [line.split()[1] for line in file]
    yield "whose checksums there are", sorted(listed), sorted(set(os.listdir(folder)) - {"SHA256SUMS"})


def files_of(programs):
    """Returns the files of a release without licences: the programs, their manual pages and completions,
    csid.spdx.json, VERSION, README.md, and the committed files of docs/ and deploy/."""
    parts = ["README.md", "VERSION", "docs", "deploy"]
    committed = output("git", "-C", TOP, "ls-files", *parts).split("\n")
    pages = [it + ".1" for it in programs] + ["csid-config.5", "csid-protocol.7", "csid-new.8"]
    return ([it.replace("csid-front", "front") for it in programs]
            + committed
            + ["man/" + it for it in pages]
            + ["completions/" + it for it in programs]
            + ["csid.spdx.json"])


def archive_rows(path, name, programs):
    """The tar.gz has the files of a release. Their owners, dates and order do not show who made it."""
    date = int(output("git", "-C", TOP, "log", "-1", "--format=%ct"))
    with tarfile.open(path) as archive:
        members = archive.getmembers()
        names = [it.name for it in members]
        yield "owners and dates", {(it.uid, it.gid, it.uname, it.gname, it.mtime) for it in members}, {
            (0, 0, "", "", date)
        }
        yield "modes", {it.mode for it in members}, {0o644, 0o755}
        yield "the order", names, sorted(names, key=lambda it: it.split("/"))
        for program, built in programs.items():
            held = archive.extractfile("%s/%s" % (name, program.replace("csid-front", "front"))).read()
            yield program, hashlib.sha256(held).hexdigest(), checksum(built)
        files = {it.name.partition("/")[2]
                 for it in members
                 if it.isfile() and not it.name.startswith(name + "/licences/")}
        yield "the files but for licences", sorted(files), sorted(files_of(programs))
        yield "a licence", "%s/licences/clap/LICENSE-MIT" % name in names, True
        of_etcd = ["csid-etcd", "man/csid-etcd.1", "completions/csid-etcd",
                   "licences/golang-etcd-server-dev/copyright"]
        yield "what is there of csid-etcd", [it for it in of_etcd if "%s/%s" % (name, it) in names], (
            of_etcd if "csid-etcd" in programs else []
        )


def licence_rows(folder, name):
    """Each part with a known licence has the text of the licence."""
    with open(os.path.join(folder, name + ".spdx.json"), encoding="utf-8") as file:
        parts = [it["name"]
                 for it in json.load(file)["packages"]
                 if it["primaryPackagePurpose"] == "LIBRARY" and it["licenseDeclared"] != "NOASSERTION"]
    with tarfile.open(os.path.join(folder, name + ".tar.gz")) as archive:
        held = {it.name.split("/")[2]
                for it in archive.getmembers()
                if it.isfile() and it.name.startswith(name + "/licences/")}
    yield "parts without the text of their licence", sorted(set(parts) - held), []


def list_rows(path, programs):
    """Compares the parts list: its programs, some parts whose versions rt or dpkg also knows, and its
    relations."""
    with open(path, encoding="utf-8") as file:
        made = json.load(file)
    packages = {it["name"]: it for it in made["packages"]}
    yield "the form", (made["spdxVersion"], made["name"]), ("SPDX-2.3", "csid-" + version())
    for name, program in programs.items():
        said = packages[name]
        yield "the program " + name, (said["versionInfo"], said["checksums"][0]["checksumValue"]), (
            version(), checksum(program)
        )
    kit = output("rt", "version").split()[0]
    for name, licence in [("clap", "Apache-2.0 OR MIT"), ("mio", "MIT"), ("sqlite_disk", "NOASSERTION")]:
        said = packages[name]
        yield "the crate " + name, ("rattle-kit-" + said["versionInfo"], said["licenseDeclared"]), (kit,
                                                                                                    licence)
    sources = [("golang-google-grpc-dev", "Apache-2.0"), ("golang-golang-x-net-dev", "BSD-3-Clause")]
    for name, licence in sources + ([("golang-etcd-server-dev", "Apache-2.0"),
                                     ("golang-go.uber-zap-dev", "MIT")]
                                    if "csid-etcd" in programs
                                    else []):
        said = packages[name]
        yield "the package " + name, (said["versionInfo"], said["licenseDeclared"]), (
            output("dpkg-query", "-Wf", "${Version}", name), licence
        )
    told = {it["licenseDeclared"] for it in made["packages"]}
    yield "licences that are no expressions of SPDX", [
        it for it in told if not re.fullmatch(r"[A-Za-z0-9.-]+( (OR|AND) [A-Za-z0-9.-]+)*", it)
    ], []
    named = {it[key] for it in made["relationships"] for key in ("spdxElementId", "relatedSpdxElement")}
    yield "what relations name", named, {it["SPDXID"] for it in made["packages"]} | {"SPDXRef-DOCUMENT"}
    found = {(it["spdxElementId"], it["relatedSpdxElement"])
             for it in made["relationships"]
             if it["relationshipType"] == "DEPENDS_ON"}
    for one, other, stands in [
        ("csid", "sqlite", True),
        ("csid", "serde-json", True),
        ("csictl", "serde-json", True),
        ("csictl", "sqlite", False),
        ("clap", "strsim", True),
        ("csid-etcd", "golang-etcd-server-dev", "csid-etcd" in programs),
        ("csid-front", "golang-etcd-server-dev", False),
        ("csid-front", "golang-google-grpc-dev", True),
    ]:
        yield "%s stands on %s" % (one, other), ("SPDXRef-" + one, "SPDXRef-" + other) in found, stands


def clone(folder):
    """Clones the committed repository, with the ./release of the working tree."""
    subprocess.run(["git", "clone", "--quiet", "--shared", TOP, folder], check=True)
    shutil.copy(os.path.join(TOP, "release"), folder)


def touch(path, seconds):
    """Makes a file unless it exists, and makes it executable. Its date is `seconds` after the date of
    packaging/tests/release.py."""
    os.makedirs(os.path.dirname(path), exist_ok=True)
    with open(path, "a"):
        pass
    os.chmod(path, 0o755)
    date = os.stat(os.path.join(os.path.dirname(__file__), "release.py")).st_mtime
    os.utime(path, (date, date + seconds))


def refusal_rows(is_etcd):
    all_programs = [CSID, CSICTL, FRONT] + ([ETCD] if is_etcd else [])
    with tempfile.TemporaryDirectory() as folder:
        top = os.path.join(folder, "csid")
        clone(top)
        for words in (["x"], ["--out"], ["--check", "x"], ["--out", "a", "b"]):
            yield "./release " + " ".join(words), run("./release", *words, cwd=top), (2, "", USAGE)
        rows = [(*row, []) for row in REFUSED] + [(*row, [FRONT]) for row in REFUSED_ETCD if is_etcd]
        for programs, newer, wanted, again in rows:
            for path in (CSID, CSICTL, FRONT, ETCD):
                shutil.rmtree(os.path.join(top, os.path.dirname(path)), ignore_errors=True)
            yield "with %s, and %s newer" % (programs, newer), refused(top, programs, newer, again), (1, "",
                                                                                                      wanted)
        with open(os.path.join(top, "README.md"), "a") as file:
            file.write("\n")
        yield "with a file that was changed", refused(top, all_programs, None, []), (
            1, "", "release: files differ from the last commit: commit them first\n"
        )
    for name in ("licences", "spdx"):
        words = [sys.executable, os.path.join(TOP, "packaging", name),
                 *["/nowhere"] * (3 if name == "spdx" else 1)]
        yield name + " without the kit", run(*words, env={"PATH": "/nowhere", "SOURCE_DATE_EPOCH": "0"}), (
            1, "", NO_KIT % name
        )


def refused(top, programs, newer, again):
    """Runs ./release with these programs built, a newer source unless it is None, and some programs built
    again. Returns its exit status, output and errors."""
    for path in programs:
        touch(os.path.join(top, path), (1 << 30) + (2 if path in again else 0))
    if newer:
        touch(os.path.join(top, newer), (1 << 30) + 1)
    done = run("./release", cwd=top)
    if newer:
        touch(os.path.join(top, newer), 0)
    return done


# Replacements for the programs of packaging/ in a clone, whose own work does not matter here.
PLAYED = {
    "licences": "mkdir -p ${*: -1}",
    "deb": 'echo >"$2/csid_$(cat VERSION)_$(dpkg --print-architecture).deb"',
    "test": "",
}


def difference_rows(is_etcd):
    """A check makes two releases, and reports if they differ: by folder, time zone, umask or chance."""
    said = "release: two releases of the same programs differ\n"
    with tempfile.TemporaryDirectory() as folder:
        top = os.path.join(folder, "csid")
        clone(top)
        for path in [CSID, CSICTL, FRONT] + ([ETCD] if is_etcd else []):
            touch(os.path.join(top, path), 1 << 30)
        for what, wanted in [
            ("echo the same", (0, "")),
            ('echo "$1"', (1, said)),
            ('echo "${TZ-}"', (1, said)),
            ("umask", (1, said)),
            ("mktemp -u", (1, said)),
        ]:
            for name, text in {**PLAYED, "spdx": what}.items():
                with open(os.path.join(top, "packaging", name), "w", encoding="utf-8") as file:
                    file.write('#!/usr/bin/env bash\nset -eu\ncd "$(dirname "$0")/.."\n%s\n' % text)
            status, _, error = run("./release", "--check", cwd=top)
            # Without the sources of etcd's client there is an additional line.
            yield "a check of releases that have what %r gives" % what, (
                status, "".join(it for it in error.splitlines(True) if "NOT in it" not in it)
            ), wanted


def parts(programs, folder):
    architecture = output("dpkg", "--print-architecture")
    name = "csid-%s-%s" % (version(), architecture)
    return [
        folder_rows(folder, name, "csid_%s_%s.deb" % (version(), architecture)),
        archive_rows(os.path.join(folder, name + ".tar.gz"), name, programs),
        licence_rows(folder, name),
        list_rows(os.path.join(folder, name + ".spdx.json"), programs),
        refusal_rows("csid-etcd" in programs),
        difference_rows("csid-etcd" in programs),
    ]
