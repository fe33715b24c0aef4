"""Tests the Debian package: its files, what lintian reports, and that it can be installed, used, upgraded,
removed and purged.

It is installed into a temporary folder, with a system that has only the tools of the maintainer scripts. The
programs of systemd in this system record how they were called.
"""
import contextlib
import gzip
import hashlib
import os
import pathlib
import re
import shlex
import shutil
import subprocess
import tempfile
import time
from email.utils import parsedate_to_datetime

from sources import read, version
from tests.rows import LeftOut

# The seconds that a program may take to make its socket, or to answer.
SECONDS = 20
# The tools of the system that the maintainer scripts call (`rm` is there, so that a script which removes too
# much can do so), and the tools of systemd.
TOOLS = ["sh", "rm", "rmdir", "systemd-sysusers"]
CALLED = ["deb-systemd-helper", "deb-systemd-invoke", "systemctl"]
TABLES = "var/lib/csid/volumes.db"
CONFIG = "etc/csid/config.toml"
LICENCES = "./usr/share/doc/csid/licences/"
CSID_SOCKET = "run/csid/csid.sock"
FRONT_SOCKET = "run/csid-front/csi.sock"
UPDATED = ["deb-systemd-helper update-state csid.service",
           "deb-systemd-helper update-state csid-front.service", "systemctl --system daemon-reload"]
RESTARTED = ["deb-systemd-invoke try-restart csid.service csid-front.service"]
STOPPED = ["deb-systemd-invoke stop csid-front.service csid.service", "systemctl --system daemon-reload"]
STOPPED_ETCD = ["deb-systemd-invoke stop csid-front.service csid.service",
                "deb-systemd-invoke stop csid-etcd.service", "systemctl --system daemon-reload"]
RESTARTED_ETCD = ["deb-systemd-invoke try-restart csid-etcd.service",
                  "deb-systemd-invoke try-restart csid.service csid-front.service"]
ETCD_UNIT = "etc/systemd/system/csid-etcd.service"
# Files that only the package with csid-etcd has.
OF_ETCD = ["./usr/bin/csid-etcd", "./usr/share/bash-completion/completions/csid-etcd",
           "./usr/share/man/man1/csid-etcd.1.gz"]
PURGED = ["deb-systemd-helper purge csid.service csid-front.service"]
LEFT = (
    "csid: /var/lib/csid has the record of volumes and is left; remove it by hand once no volume is in use\n"
)
VOLUME = "volume vol-1 1048576"


def checksum(path):
    return hashlib.sha256(pathlib.Path(path).read_bytes()).hexdigest()


def run(*words, **more):
    done = subprocess.run(words, capture_output=True, text=True, stdin=subprocess.DEVNULL,
                          timeout=10 * SECONDS, **more)
    return done.returncode, done.stdout, done.stderr


def need(tool):
    if not shutil.which(tool):
        raise LeftOut("%s is not here" % tool)


class System:
    """A folder in which packages are installed, with the tools that their scripts call."""

    def __init__(self, root):
        self.root = root
        for folder in ["var/lib/dpkg/info", "var/lib/dpkg/updates", "run/systemd/system", "run/csid",
                       "run/csid-front", "etc", "bin", "dev", "tmp"]:
            os.makedirs(self.path(folder))
        for file in ["var/lib/dpkg/status", "etc/passwd", "etc/group", "calls"]:
            open(self.path(file), "x").close()
        for tool in TOOLS:
            self.put(shutil.which(tool), "bin/" + tool)
        for name in CALLED:
            self.write("bin/" + name, '#!/bin/sh\necho "${0##*/} $*" >>/calls\n', 0o755)

    def path(self, name):
        return os.path.join(self.root, name.lstrip("/"))

    def write(self, name, text, mode):
        pathlib.Path(self.path(name)).write_text(text, encoding="utf-8")
        os.chmod(self.path(name), mode)

    def put(self, program, place):
        """Copies a program, and the libraries that it is linked to."""
        shutil.copy(program, self.path(place))
        self.put_libraries(program)

    def put_libraries(self, program):
        for library in re.findall(r"(/\S+) \(0x", run("ldd", program)[1]):
            if not os.path.exists(self.path(library)):
                os.makedirs(os.path.dirname(self.path(library)), exist_ok=True)
                shutil.copy(library, self.path(library))

    def dpkg(self, *words):
        """Runs dpkg. Returns its exit status, the lines of errors of csid's scripts and of dpkg, and how the
        scripts called systemd."""
        self.write("calls", "", 0o644)
        status, _, error = run("dpkg", "--root=" + self.root, "--log=" + self.path("dpkg.log"),
                               "--force-depends", "--force-confold", *words)
        said = [line + "\n" for line in error.splitlines() if line.startswith(("csid: ", "dpkg: error"))]
        return status, "".join(said), read(self.path("calls")).splitlines()

    def inside(self, *words):
        return run("chroot", self.root, *words)

    def command(self, unit):
        """Returns the words of the command that a unit starts, and the variables that it sets. A word that is
        a variable is replaced by the words of its value."""
        text = re.sub(r"\\\n\s*", "", read(self.path("lib/systemd/system/" + unit)))
        variables = dict(word.split("=", 1)
                         for line in re.findall(r"^Environment=(.*)$", text, re.M)
                         for word in shlex.split(line))
        words = []
        for word in shlex.split(re.search(r"^ExecStart=(.*)$", text, re.M).group(1)):
            words += variables[word[1:]].split() if word.startswith("$") else [word]
        return words, variables

    @contextlib.contextmanager
    def started(self, unit, socket):
        """Runs the command of a unit until the block ends, and first waits for its socket. An old socket is
        removed before, as systemd does."""
        if os.path.exists(self.path(socket)):
            os.unlink(self.path(socket))
        words, variables = self.command(unit)
        process = subprocess.Popen(["chroot", self.root, *words], env={**os.environ, **variables},
                                   stdin=subprocess.DEVNULL, stderr=subprocess.PIPE, text=True)
        try:
            end = time.monotonic() + SECONDS
            while not os.path.exists(self.path(socket)) and process.poll() is None and time.monotonic() < end:
                time.sleep(0.02)
            yield process
        finally:
            process.kill()
            process.wait()

    def tables(self):
        """Returns the checksums of the file of volumes and of its WAL, for each that exists."""
        return {name: checksum(self.path(name))
                for name in (TABLES, TABLES + "-wal")
                if os.path.exists(self.path(name))}


def ended(process):
    process.terminate()
    return process.communicate(timeout=SECONDS)[1]


def content_rows(programs, package):
    """Compares the paths and modes of the files. For licences, which depend on the parts of the programs,
    compares only the modes."""
    held = [re.sub(r" +\d+ \d{4}-\d\d-\d\d \d\d:\d\d ", " ", it)
            for it in run("dpkg-deb", "--contents", package)[1].splitlines()]
    listed = [it for it in held if LICENCES not in it]
    wanted = [it
              for it in read("packaging", "debian", "contents").splitlines()
              if "csid-etcd" in programs or it.split()[-1] not in OF_ETCD]
    yield "the modes of licences", {it.partition(LICENCES)[0] for it in held if LICENCES in it}, {
        "drwxr-xr-x root/root ", "-rw-r--r-- root/root ",
    }
    yield "what is there and is not listed", sorted(set(listed) - set(wanted)), []
    yield "what is listed and is not there", sorted(set(wanted) - set(listed)), []


def control_rows(programs, package):
    """The package depends on the packages of the linked libraries and of the programs that the maintainer
    scripts call. The checksums in the package match its files."""
    linked = {os.path.realpath(it)
              for name in ("csid", "csictl")
              for it in re.findall(r"(/\S+) \(0x", run("ldd", programs[name])[1])}
    # If /lib is a link to /usr/lib, dpkg knows a library by either name.
    named = linked | {it.removeprefix("/usr") for it in linked}
    libraries = {line.split(":")[0] for line in run("dpkg-query", "--search", *named)[1].splitlines()}
    needed = run("dpkg-deb", "--field", package, "Depends")[1].strip().split(", ")
    yield "what the package needs", {
        " | ".join(re.sub(r" \(.*\)$", "", it) for it in one.split(" | ")) for one in needed
    }, libraries | {"init-system-helpers", "systemd | systemd-standalone-sysusers | systemd-sysusers"}
    with tempfile.TemporaryDirectory() as tree:
        run("dpkg-deb", "--raw-extract", package, tree)
        files = [
            os.path.relpath(os.path.join(at, it), tree) for at, _, names in os.walk(tree) for it in names
        ]
        yield "its checksums", run("md5sum", "--check", "--quiet", "--strict", "DEBIAN/md5sums", cwd=tree), (
            0, "", ""
        )
        listed = [line[34:] for line in read(tree, "DEBIAN", "md5sums").splitlines()]
        yield "the files that have them", sorted(listed), sorted(
            it for it in files if not it.startswith("DEBIAN/")
        )
        units = [it for it in files if it.startswith("lib/systemd/system/")]
        examples = [it for it in files if "/examples/etcd.d/" in it]
        yield "units that name a place of another package", [
            it for it in units if re.search("/usr/local|/etc/systemd/system", read(tree, it))
        ], []
        with gzip.open(os.path.join(tree, "usr/share/doc/csid/changelog.gz"), "rt", encoding="utf-8") as file:
            dated = file.read().rstrip().rpartition("  ")[2]
        yield "the date of its changelog", parsedate_to_datetime(dated).timestamp(), os.path.getmtime(
            os.path.join(tree, "DEBIAN", "control")
        )
        yield "examples that name one", [it for it in examples if "/usr/local" in read(tree, it)], []
        # Debian counts whole KiB for each file, and 1 KiB for each folder.
        folders = [at for at, _, _ in os.walk(tree) if not os.path.relpath(at, tree).startswith("DEBIAN")]
        sizes = [-(-os.path.getsize(os.path.join(tree, it)) // 1024) for it in listed]
        yield "its size", run("dpkg-deb", "--field", package, "Installed-Size")[1].strip(), str(
            len(folders) + sum(sizes)
        )


def lintian_rows(package):
    need("lintian")
    status, out, _ = run("lintian", "--allow-root", "--fail-on", "error", package)
    yield "lintian", (status, [line for line in out.splitlines() if line.startswith("E:")]), (0, [])


def called(system, *words):
    """Makes a call by csictl. Returns its status, its output after the first line, and its errors."""
    status, out, error = system.inside("/usr/bin/csictl", "call", "--socket", "/" + CSID_SOCKET, "--method",
                                       *words)
    return status, out.partition("\n")[2].strip(), error


def use_rows(programs, system):
    """Runs the programs, and the commands of the units with the configuration of the package."""
    for name in programs:
        system.put_libraries(system.path("usr/bin/" + name))
        yield name + " --version", system.inside("/usr/bin/" + name, "--version"), (
            0, "%s %s\n" % (name, version()), ""
        )
    yield "the configuration", system.inside("/usr/bin/csid", "pipe", "--config", "/" + CONFIG), (0, "", "")
    os.makedirs(system.path("var/lib/csid"))
    yield "csid-new makes the file of volumes", system.inside(*system.command("csid-new.service")[0]), (0, "",
                                                                                                        "")
    with system.started("csid.service", CSID_SOCKET) as csid:
        # This call comes before the front is started, since the front keeps a connection to csid.
        yield "csid answers", called(system, "CreateVolume", "--name", "a", "--mode", "1"), (0, VOLUME, "")
        with system.started("csid-front.service", FRONT_SOCKET) as front:
            yield "the front is there", os.path.exists(system.path(FRONT_SOCKET)), True
            ended(front)
            yield "it ends when it is asked to", front.returncode, 0
        yield "what csid said", ended(
            csid
        ), "csid: /%s: volumes 0, attachments 0, next number 1, format 2\n" % TABLES


def later(package, folder):
    """Makes a package with a later version, and returns its path."""
    tree, made = os.path.join(folder, "later"), os.path.join(folder, "later.deb")
    run("dpkg-deb", "--raw-extract", package, tree)
    control = os.path.join(tree, "DEBIAN", "control")
    text = re.sub(r"^(Version: .*)$", r"\1+later", read(control), flags=re.M)
    pathlib.Path(control).write_text(text, encoding="utf-8")
    run("dpkg-deb", "--root-owner-group", "-Zgzip", "-z1", "--build", tree, made)
    return made


def upgrade_rows(system, package, folder):
    """An upgrade keeps the operator's files, and stops and starts the running units."""
    before, config = system.tables(), read(system.path(CONFIG)) + "# mine\n"
    system.write(CONFIG, config, 0o644)
    yield "an upgrade", system.dpkg("--install", later(package, folder)), (0, "", UPDATED + RESTARTED)
    yield "the tables after it", system.tables(), before
    yield "the configuration after it", read(system.path(CONFIG)), config
    with system.started("csid.service", CSID_SOCKET):
        yield "the volumes after it", called(system, "ListVolumes"), (0, VOLUME + " -", "")


def remove_rows(system, package):
    """A remove keeps the tables and the configuration. A purge keeps the tables, but removes a folder without
    tables."""
    before = system.tables()
    yield "a remove", system.dpkg("--remove", "csid"), (0, "", STOPPED)
    yield "what it leaves", (system.tables(), os.path.exists(system.path(CONFIG)),
                             os.path.exists(system.path("usr/bin/csid"))), (before, True, False)
    yield "a purge", system.dpkg("--purge", "csid"), (0, LEFT, PURGED)
    yield "what it leaves", (system.tables(), os.path.exists(system.path("etc/csid"))), (before, False)
    shutil.rmtree(system.path("var/lib/csid"))
    os.makedirs(system.path("var/lib/csid"))
    yield "an install again", system.dpkg("--install", package), (0, "", UPDATED)
    yield "a purge at once", system.dpkg("--purge", "csid"), (0, "", STOPPED + PURGED)
    yield "a folder without volumes", os.path.exists(system.path("var/lib/csid")), False


def etcd_rows(system, package, folder):
    """An upgrade stops and starts the operator's copy of the unit of csid-etcd, if it exists. A purge keeps
    it."""
    os.makedirs(os.path.dirname(system.path(ETCD_UNIT)), exist_ok=True)
    example = read(system.path("usr/share/doc/csid/examples/csid-etcd.service"))
    yield "the program of the example", re.findall(r"^ExecStart=(\S+)", example, re.M), ["/usr/bin/csid-etcd"]
    system.write(ETCD_UNIT, example, 0o644)
    yield "an upgrade over csid-etcd", system.dpkg("--install", later(package, folder)), (0, "",
                                                                                          UPDATED
                                                                                          + RESTARTED_ETCD)
    yield "a remove over csid-etcd", system.dpkg("--remove", "csid"), (0, "", STOPPED_ETCD)
    yield "its unit after it", read(system.path(ETCD_UNIT)), example
    os.unlink(system.path(ETCD_UNIT))
    yield "an install after it", system.dpkg("--install", package), (0, "", UPDATED + RESTARTED)


def install_rows(programs, package):
    if os.geteuid() != 0:
        raise LeftOut("only root can install packages")
    for tool in TOOLS + ["chroot", "ldd"]:
        need(tool)
    with tempfile.TemporaryDirectory() as folder:
        system = System(os.path.join(folder, "root"))
        yield "an install", system.dpkg("--install", package), (0, "", UPDATED)
        yield "the user", re.findall(r"^(csid):x:\d+:\d+:(.*)$", read(system.path("etc/passwd")), re.M), [
            ("csid", "CSI controller plugin csid:/var/lib/csid:/usr/sbin/nologin")
        ]
        yield "no file of volumes", os.path.exists(system.path("var/lib/csid")), False
        yield from use_rows(programs, system)
        yield from upgrade_rows(system, package, folder)
        if "csid-etcd" in programs:
            yield from etcd_rows(system, package, folder)
        yield from remove_rows(system, package)


def parts(programs, package):
    return [
        content_rows(programs, package),
        control_rows(programs, package),
        lintian_rows(package),
        install_rows(programs, package),
    ]
