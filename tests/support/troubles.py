"""Parts of tests/faults that disturb the surroundings of programs: the disk, signals, clocks."""
import ctypes
import json
import os
import pathlib
import random
import re
import shutil
import signal
import subprocess
import threading
import time

from tests.support import change_stores
from tests.vectors import messages as v
from tests.support.programs import CONFIG, NAME, SECONDS, Etcd, Frames, Grpc, asked, program, wait

LEASE, NOBODY = 3, 65534
BLOCK = v.unhex("1a060a001a020801")
LIBC = ctypes.CDLL(None, use_errno=True)
NEW_MOUNTS, NEW_TIME = 0x20000, 0x80


def only(body, *numbers):
    """Returns the value of a field in a message. Further numbers are for nested messages."""
    for number in numbers:
        body = dict(change_stores.fields(body))[number]
    return body


class Record:
    """The ids and names of the volumes that exist, from the OK replies, and all ids that were ever given."""

    def __init__(self, run):
        self.run, self.names, self.standing = run, {}, {}

    def does(self, ask, what, of):
        """Creates or deletes a volume, and records it. Returns True for OK, or otherwise the refusal."""
        answer, why = (
            ask("CreateVolume", v.name(of) + BLOCK) if what == "make" else ask("DeleteVolume", v.vol(of))
        )
        if answer is None:
            return why
        if what == "make":
            given = only(answer, 1, 2).decode()
            first = self.names.setdefault(given, of)
            self.run.check("%s is given to %s and to %s" % (given, first, of), first == of)
            self.standing[given] = of
        else:
            self.standing.pop(of, None)
        return True

    def compare(self, what, found):
        more, less = sorted(set(found) - set(self.standing)), sorted(set(self.standing) - set(found))
        self.run.check("%s: %r, and not %r" % (what, more[:9], less[:9]),
                       sorted(found) == sorted(self.standing), (found, self.standing))


def listed(ask):
    """Returns the ids in all pages, or None if a page is refused."""
    ids, token = [], b""
    while True:
        body, _ = ask("ListVolumes", v.starting_token(token) if token else b"")
        if body is None:
            return None
        told = change_stores.fields(body)
        ids += [only(it, 1, 2).decode() for number, it in told if number == 1]
        token = dict(told).get(2, b"")
        if not token:
            return ids


UNANSWERED = ("closed unanswered", "nobody answers", "[Errno 32] Broken pipe",
              "[Errno 104] Connection reset by peer")
NOT_MADE = re.compile(r"13 store refused|13 store is down")
# The lines of csid about its file (docs/OPERATING.md, "Arguments and exit statuses of `csid`";
# docs/TABLES.md).
OF_FILE = (r"volumes \d+, attachments 0, next number \d+, format 2", "unable to open database file",
           "database or disk is full", "disk I/O error", "there is no such file, and none is made",
           "a change was refused, by the database or for memory; from then on .*",
           "the database refused a read",
           "the database refused a call: (database or disk is full|disk I/O error)",
           "the database failed: .*")
DISK_LINES = re.compile(
    r"csid: (DB: (%s)|a (read of|write to) a connection failed|end of input at byte \d+)$" % "|".join(OF_FILE)
)


class Disk:
    """A small disk with the file of a csid that runs without the rights of root, and the troubles of the
    disk. A method that makes a trouble returns the function that ends it."""

    def __init__(self, run):
        self.run, self.folder, self.file = run, run.path("disk"), run.path("disk/db")
        if LIBC.unshare(NEW_MOUNTS):
            raise OSError("no namespace of mounts")
        os.mkdir(self.folder)
        subprocess.run(["mount", "--make-rprivate", "/"], check=True)
        subprocess.run(["mount", "-t", "tmpfs", "-o", "size=8m,mode=755,uid=%d,gid=%d" % (NOBODY, NOBODY),
                        "none", self.folder], check=True)
        csid = shutil.copy(program("CSID", "crates/csid/out/csid"), run.path("csid"))
        os.chown(run.folder, NOBODY, NOBODY)
        os.chmod(run.folder, 0o755)
        who = {"user": NOBODY, "group": NOBODY, "extra_groups": []}
        pathlib.Path(run.path("config")).write_text(CONFIG)
        subprocess.run([csid, "pipe", "--tables", self.file], check=True, stdin=subprocess.DEVNULL, **who)
        self.csid = run.start("csid.sock", csid, "serve", "--socket", run.path("csid.sock"), "--tables",
                              self.file, "--existing", "--config", run.path("config"), **who)

    def full(self, source):
        path, left = os.path.join(self.folder, "filler"), source.choice(
            (0, 0, 4096, 20000, 150000, 300000, 600000)
        )
        with open(path, "wb", buffering=0) as file:
            try:
                while file.write(bytes(4096)):
                    pass
            except OSError:
                file.truncate(max(0, os.path.getsize(path) - left))
        return lambda: os.unlink(path)

    def rights(self, source):
        path = source.choice(
            [it for it in (self.folder, self.file, self.file + "-wal") if os.path.exists(it)]
        )
        mode = os.stat(path).st_mode & 0o777
        os.chmod(path, source.choice((0, 0o400)))
        return lambda: os.chmod(path, mode)

    def aside(self, _):
        moved = [
            (it, it.replace("/db", "/aside")) for it in (self.file, self.file + "-wal") if os.path.exists(it)
        ]
        for path, place in moved:
            os.rename(path, place)
        return lambda: [os.rename(place, path) for path, place in moved]

    def without_log(self, source):
        """Ends csid and removes the WAL, if its contents are in the file within a second."""
        log = self.file + "-wal"
        if os.path.exists(log) and wait(lambda: os.path.getsize(log) <= 41, 1):
            self.csid.end(source.choice((signal.SIGTERM, signal.SIGKILL)))
            os.unlink(log)
        return lambda: None

    def killed(self, _):
        self.csid.end()
        return lambda: None

    def is_back(self):
        try:
            return asked(self.csid.revive().socket, v.probe()) == [(0, "", v.READY[8:])]
        except OSError:
            return False


def one_call(run, record, source, client, waits):
    """Makes a random create or delete. Adds it to `waits` unless it is answered with OK."""
    of = source.choice(sorted(set(record.standing) - {it for _, it in waits}) or [""])
    call = (("remove", of)
            if of
            and source.random() < (0.6 if len(record.standing) > 200 else 0.35)
            else ("make", "v%d-%d" % (run.number, source.randrange(1 << 40))))
    try:
        done = record.does(client.ask, *call)
    except OSError as error:
        done = str(error)
    run.seen["call: %s" % ("OK" if done is True else done)] += 1
    if done is not True:
        waits.append(call)
        run.check("a call is refused with %r" % done, done in UNANSWERED or NOT_MADE.match(done), repr(call))


def makes(run, record, disk, waits):
    """Makes each call in doubt again until it is OK, for at most two seconds each."""
    for call in waits:

        def again():
            client = Frames(disk.csid.socket)
            try:
                return record.does(client.ask, *call) is True
            except OSError:
                return False
            finally:
                client.close()

        run.check("a call that was repeated is not OK", wait(again, 2, 0.05), repr(call))


def disk(run):
    """The volume of each call that was answered with OK exists after each trouble of the disk. Calls are
    served again within 2 s."""
    it, record, lines = Disk(run), Record(run), 0
    for source in run.inputs():
        waits, troubles = [], list(dict.fromkeys(source.choices([it.full, it.full, it.rights, it.aside,
                                                                 it.without_log, it.killed],
                                                                k=source.choice((1, 1, 2)))))
        client = Frames(it.csid.socket) if source.randrange(2) else None
        one_call(run, record, source, client, waits) if client else None
        troubles = [trouble for trouble in troubles if not (client and trouble in (it.aside, it.without_log))]
        ends = [trouble(source) for trouble in troubles]
        for _ in range(source.randrange(1, 12)):
            try:
                client = client or Frames(it.csid.revive().socket)
                one_call(run, record, source, client, waits)
            except OSError:
                client = None
            if client and source.randrange(3) == 0:
                client = client.close()
        if client:
            client.close()
        run.seen.update(trouble.__name__ for trouble in troubles)
        for end in reversed(ends):
            end()
        run.check("service is back after %r: %r" % ([trouble.__name__ for trouble in troubles],
                                                    it.csid.lines()[-2:]), wait(it.is_back, 2, 0.05))
        makes(run, record, it, waits)
        client = Frames(it.csid.socket)
        record.compare("what is listed after %r" % [trouble.__name__ for trouble in troubles],
                       listed(client.ask) or [])
        client.close()
        said = [line.replace(it.file, "DB") for line in it.csid.lines()]
        for line in said[lines:]:
            run.seen[re.sub(r"\d+", "N", line)] += 1
            run.check("csid says %r" % line, DISK_LINES.match(line))
        lines = len(said)
    subprocess.run(["umount", "-l", it.folder], check=True)


SIGNALS = [signal.SIGSTOP] * 2 + [signal.SIGTERM, signal.SIGKILL, signal.SIGHUP, signal.SIGPIPE,
                                  signal.SIGUSR1]


class Stack:
    """etcd, csid-etcd, csid and the front, and callers of the front."""

    def __init__(self, run, clocks=None):
        self.run, self.etcd, self.record, self.over = run, Etcd(run), Record(run), threading.Event()
        pathlib.Path(run.path("config")).write_text(CONFIG)
        log_path, csid, csi = [run.path(it) for it in ("log.sock", "csid.sock", "csi.sock")]
        self.keeper = run.start("log.sock", program("CSID_ETCD", "go/etcd/out/csid-etcd"), "--name", NAME,
                                "--listen", log_path, "--endpoints", self.etcd.endpoint, "--lease",
                                str(LEASE), "--revision", run.path("revision"), clocks=clocks)
        self.csid = run.start("csid.sock", program("CSID", "crates/csid/out/csid"), "serve", "--socket", csid,
                              "--log", log_path, "--config", run.path("config"), clocks=clocks)
        self.front = run.start("csi.sock", program("FRONT", "go/front/out/front"), "--csid", csid, "--listen",
                               csi, "--grace", "2s", clocks=clocks)
        self.all = [self.etcd, self.keeper, self.csid, self.front]
        self.callers = [threading.Thread(target=self.calls, args=(number,), daemon=True)
                        for number in range(4)]

    def calls(self, number):
        """Creates and deletes volumes, and repeats each call until it is OK."""
        source, count, mine, client = random.Random("%d %d" % (self.run.asked.seed, number)), 0, [], None
        while not self.over.is_set():
            count += 1
            call = (("remove", source.choice(mine))
                    if mine
                    and source.random() < 0.4
                    else ("make", "c%d-%d" % (number, count)))
            done, end = False, time.monotonic() + 4 * SECONDS
            # A late reply is a finding, but the caller does not give up: the call may have been made, and the
            # record would not have it.
            while done is not True:
                if time.monotonic() > end:
                    self.run.check("service is back", False, repr(call))
                    end = time.monotonic() + 4 * SECONDS
                try:
                    client = client or Grpc(self.front.socket, 10)
                    done = self.record.does(lambda method, message: (client.call(b"/csi.v1.Controller/"
                                                                                 + method.encode(), message),
                                                                     "refused"), *call)
                except OSError:
                    client = client and client.close()
                time.sleep(0.02 if done is True else 0.1)
            mine = [of for of, name in list(self.record.standing.items()) if name.startswith("c%d-" % number)]

    def sends(self, source):
        """Sends a signal to one of the four programs. After SIGSTOP the program continues within 1.5 leases,
        and sometimes gets SIGTERM or SIGKILL just before."""
        victim, how = source.choice(self.all), source.choice(SIGNALS)
        if victim.has_ended():
            return
        victim.process.send_signal(how)
        self.run.seen["%s to %s" % (how.name, os.path.basename(victim.words[0]))] += 1
        if how == signal.SIGSTOP:
            time.sleep(source.choice((0.01, 0.1, 0.5, 1, LEASE, 1.5 * LEASE)))
            if source.randrange(3) == 0:
                victim.process.send_signal(source.choice((signal.SIGTERM, signal.SIGKILL)))
            victim.process.send_signal(signal.SIGCONT)
        if victim is self.etcd:
            self.etcd.begun = time.monotonic()
            wait(victim.has_ended, 2)

    def keeps_no_longer(self, source):
        """Kills or stops csid-etcd. The key of its lock is gone after its lease, and a continued csid-etcd
        does not say that it leads. Waits first until etcd runs for longer than a lease, since an etcd that
        starts again counts each lease from its start."""
        self.run.seen["the lock is lost"] += 1
        time.sleep(max(0, self.etcd.begun + LEASE + 2 - time.monotonic()))
        self.keeper.process.send_signal(source.choice((signal.SIGSTOP, signal.SIGSTOP, signal.SIGKILL)))
        begin = time.monotonic()
        self.run.check("the lock is kept for more than %.1f s" % (LEASE + 2),
                       wait(lambda: not self.etcd.locks(), LEASE + 2, 0.1))
        self.run.check("the lock is kept for %.1f s" % (time.monotonic() - begin),
                       time.monotonic() - begin <= LEASE + 2)
        if not self.keeper.has_ended():
            self.keeper.process.send_signal(signal.SIGCONT)
            told = asked(self.keeper.socket, v.frame(change_stores.LEAD))
            self.run.check("it says that it leads, and does not",
                           not told or told[0][0] != 0 or self.etcd.locks())

    def revive(self):
        """Starts the programs that have ended, and continues the stopped programs. Returns True."""
        for it in self.all:
            it.revive()
            it.process.send_signal(signal.SIGCONT)
        return True

    def lists(self, found):
        """Adds a list of all listed ids to `found`, and returns True. Returns False if a page is refused or
        not answered."""
        try:
            client = Grpc(self.front.socket, 10)
            ids = listed(lambda method, message: (client.call(b"/csi.v1.Controller/" + method.encode(),
                                                              message), ""))
        except OSError:
            return False
        found += [ids] * (ids is not None)
        return ids is not None

    def ends(self):
        """Ends the callers. Checks that the listing and the rows of etcd then have the volumes that the
        replies have given."""
        self.over.set()
        self.run.check("the callers end",
                       wait(lambda: self.revive() and not any(it.is_alive() for it in self.callers),
                            5 * SECONDS, 0.1))
        found = []
        self.run.check("all is listed at the end",
                       wait(lambda: self.revive() and self.lists(found), pause=0.5))
        self.record.compare("what is listed", found[-1] if found else [])
        rows = {"vol-%d" % int(key[-20:]): json.loads(value)["name"]
                for key, (value, _) in self.etcd.rows().items()
                if "/volumes/" in key}
        self.run.check("the rows are %r, and not %r" % (rows, self.record.standing),
                       rows == self.record.standing)


def signals(run, clocks=None):
    """Each change that was answered with OK is in the rows, and no id is given twice."""
    stack = Stack(run, clocks)
    for it in stack.callers:
        it.start()
    for source in run.inputs():
        if source.randrange(10) == 0 and not stack.keeper.has_ended():
            stack.keeps_no_longer(source)
        else:
            stack.sends(source)
        time.sleep(source.choice((0, 0.1, 0.5, 1)))
        stack.revive()
    stack.ends()
    run.seen["ids that were given"] = len(stack.record.names)


def clock(run):
    """The part `signals`, where each start of a program gets another monotonic clock and another clock since
    the boot, in most cases years ahead or some time behind."""
    print(("clock: left out: jumps of the wall clock, which no namespace has, so that they would be those of"
           " the whole machine"), flush=True)
    source = random.Random(run.asked.seed)

    def begins():
        ahead = source.choice((0, 10**8, 10**9, -int(time.monotonic() * source.random())))
        if LIBC.unshare(NEW_TIME):
            raise OSError("no namespace of clocks")
        with open("/proc/self/timens_offsets", "w") as file:
            file.write("monotonic %d 0\nboottime %d 0\n" % (ahead, ahead))

    signals(run, begins)
