"""The commands in the recipes of docs/OPERATING.md and docs/DEVICES.md, unchanged."""

import functools
import glob
import importlib.util
import os
import pathlib
import re
import shutil
import subprocess
import tempfile

from tests.support.processes import TOP
from tests.support.recipes import (ME, NODES, OWNER, POOLS, Place, RecipeTest, blocks, create, has, publish,
                                   read, stands, wait)
from tests.support.rows import each


ATTACHMENTS = "### Attachments that the copy does not have"


class RecipesTest(RecipeTest):
    """The commands in the recipes of docs/OPERATING.md."""

    def test_ways_of_a_copy(self):
        """sqlite3 can copy the file, but not while a connection is served. A copy of the file without its WAL
        then lacks the last change."""
        backup, vacuum = 'sqlite3 volumes.db ".backup COPY"', "sqlite3 volumes.db \"VACUUM INTO 'COPY'\""
        with Place(self.csictl, self.csid) as place:
            place.call(*create("a"))
            for command in [backup, vacuum]:
                place.rows()
                self.check(command, place.in_folder(command), ("", "", 0))
                self.check("its copy", place.rows("COPY"), ({1: "a"}, 2))
                os.unlink(place.folder + "COPY")
            place.front_calls(create("b"))
            place.must("systemctl start csid-front")
            for command, status, line in [
                (backup, 1, "database is locked"),
                (vacuum, 5, "stepping, database is locked (5)"),
            ]:
                self.check(command + " while a connection is served", place.in_folder(command),
                           ("", "Error: %s\n" % line, status))
                self.check("its copy is empty", os.path.getsize(place.folder + "COPY"), 0)
            place.in_folder("cp volumes.db COPY")
            self.check("a copy of the file alone while a connection is served", place.rows("COPY"),
                       ({1: "a"}, 2))

    def test_copy_while_served(self):
        with Place(self.csictl, self.csid) as place:
            for words in [create("a"), create("b"), publish("vol-1", "n1")]:
                place.call(*words)
            place.front_calls(create("c"))
            place.must("systemctl start csid-front")
            self.check("a copy of a file that is served", place.recipe("### A copy of a file that is served"),
                       (has(3, 1, 4), "", 0))
            self.check("it has no log", os.listdir(place.copies()), ["volumes.db"])
            rows = place.rows(place.copies() + "/volumes.db")
            self.assertEqual(rows, ({1: "a", 2: "b", 3: "c"}, 4))
            self.check("the front is back", place.control.runs("csid-front") is not None, True)

    def test_daily_copies(self):
        """There are fifteen copies of earlier days. After a new copy there are fourteen: the new one, and the
        thirteen newest of the earlier ones."""
        days = ["2026-01-%02d-000000.db" % day for day in range(1, 16)]
        with Place(self.csictl, self.csid) as place:
            place.call(*create("a"))
            daily = place.top + "/root/csid-daily/"
            os.mkdir(daily)
            for day in days:
                open(daily + day, "x").close()
            came = place.recipe("### A copy of a file that is served", 1)
            left = sorted(os.listdir(daily))
            self.check("what the copy has", came, (has(1, 0, 2), "", 0))
            self.check("the earlier copies that stay", left[:-1], days[2:])
            self.check("the new copy", place.rows(daily + left[-1]), ({1: "a"}, 2))

    def test_copy_while_stopped(self):
        """Only the WAL has the last change."""
        with Place(self.csictl, self.csid) as place:
            place.front_calls(create("a"))
            place.must("systemctl start csid-front")
            self.check("a copy while csid is stopped",
                       place.recipe("### A copy of a file while `csid` is stopped"), (has(1, 0, 2), "", 0))
            self.check("file and log", sorted(os.listdir(place.copies())), ["volumes.db", "volumes.db-wal"])
            self.check("what both have", place.rows(place.copies() + "/volumes.db"), ({1: "a"}, 2))

    def test_restore_of_attachments(self):
        """After the copy, vol-1 moved from n1 to n2, vol-2 was detached and deleted, vol-3 was attached at
        n1, and vol-40 was created and attached read-only at n2. vol-4 did not change. The recipes show these
        differences, and repair all but one: vol-2 is left, and can be deleted."""
        detached, attached = "vol-1 rw n1\nvol-2 rw n1\n", "vol-1 rw n2\nvol-3 rw n1\nvol-40 ro n2\n"
        with Place(self.csictl, self.csid) as place:
            copies = self.begin_restore(place)
            place.orchestrator("vol-1\nvol-3\nvol-4\nvol-40\n", attached)

            def compared(name, came):
                self.check(name, place.recipe("### A restore", 1, copies=copies), (came, "", 0))

            compared("the differences", "vol-40\nvol-2\n" + detached + attached)
            self.shows("what is detached", place.recipe(ATTACHMENTS, 0, copies=copies), [])
            made = place.recipe("### A volume that the copy does not have")
            self.shows("what is created", made, ["volume vol-40 1048576"])
            readonly = ["context readonly=%s" % it for it in ("false", "false", "true")]
            self.shows("what is attached", place.recipe(ATTACHMENTS, 1, copies=copies), readonly)
            compared("compared again", "vol-2\n")
            self.check("the number", place.recipe("### A restore", 2), ("41\n" + has(5, 3, 41), "", 0))
            place.must("systemctl start csid")
            elsewhere = "9 FAILED_PRECONDITION volume is published elsewhere\n"
            self.check("a second node for a writer", place.call(*publish("vol-3", "n2")), elsewhere)
            self.check("the one that is left", place.call("DeleteVolume", "--volume", "vol-2"), "0 OK\n")

    def begin_restore(self, place):
        """Makes four volumes, the first two attached at n1, and a copy, and does step 1 of restoring it.
        Returns the folder of the copy."""
        for name in ["a", "b", "c", "d"]:
            place.call(*create(name))
        for volume in ["vol-1", "vol-2"]:
            place.call(*publish(volume, "n1"))
        place.recipe("### A copy of a file that is served")
        place.must("systemctl stop csid-front")
        copies = place.copies()
        place.recipe("### A restore", 0, copies=copies)
        return copies

    def test_attachments_of_kubernetes(self):
        """The block that writes `attached` gets kubectl's lines about two volumes and four attachments, one
        of a volume that is not listed."""
        (_, block) = blocks("### Volume ids in Kubernetes", "DEPLOY.md")
        with tempfile.TemporaryDirectory() as folder:
            kubectl = os.path.join(folder, "kubectl")
            with open(kubectl, "w") as file:
                file.write(
                    '#!/bin/sh\ncase "$2" in\n'
                    "persistentvolumes) printf 'pvc-b vol-2 true\\npvc-a vol-1 \\n' ;;\n"
                    "volumeattachments) printf 'pvc-b n1\\npvc-a n2\\npvc-b n2\\npvc-x n2\\n' ;;\nesac\n"
                )
            os.chmod(kubectl, 0o755)
            path = folder + ":" + os.environ["PATH"]
            subprocess.run(["bash", "-euo", "pipefail", "-c", block], cwd=folder,
                           env={**os.environ, "PATH": path}, check=True)
            with open(os.path.join(folder, "attached")) as file:
                self.check("attached", file.read(), "vol-1 rw n2\nvol-2 ro n1\nvol-2 ro n2\n")

    def shows(self, name, came, wanted):
        """Compares csictl's output, but for its lines that begin with `0 OK`. There must be no errors."""
        out, errors, status = came
        shown = [line for line in out.split("\n") if line and not line.startswith("0 OK")]
        self.check(name, (shown, errors, status), (wanted, "", 0))

    def test_lines(self):
        """A WAL next to a restored file would bring back the changes after the copy."""
        with Place(self.csictl, self.csid) as place:
            place.call(*create("a"))
            place.recipe("### A copy of a file that is served")
            place.must("systemctl stop csid-front")
            place.front_calls(create("b"))
            place.must("systemctl start csid-front; systemctl stop csid csid-front; cp %s/volumes.db"
                       " /var/lib/csid/volumes.db" % place.copies())
            self.check("a log that stays beside a restored file", place.check(), (has(2, 0, 3), "", 0))

    def test_change(self):
        change, already = ("### A change of the configuration",
                           "6 ALREADY_EXISTS volume exists and is not compatible\n")
        with Place(self.csictl, self.csid) as place:
            place.call(*create("a"))
            place.configure({**POOLS, "p3": (1, "c")}, NODES)
            self.check("a further pool", place.recipe(change),
                       ("name pools.example.org, pools 3, nodes 2\n" + has(1, 0, 2), "", 0))
            self.check("the front is back", place.control.runs("csid-front") is not None, True)
            self.check("a volume in it", place.call(*create("b", "c")), "0 OK\nvolume vol-2 1048576\n")
            place.configure({"p1": (10, "x"), "p3": (1, "c")}, NODES)
            place.recipe(change)
            self.check("a create under other segments", place.call(*create("a")), already)
            place.configure({"fast": (10, "x"), "p3": (1, "c")}, NODES)
            self.check("a pool that is renamed", place.recipe("### A pool that is renamed"),
                       (has(2, 0, 3), "", 0))
            place.must("systemctl stop csid-front")
            self.check("its volume", place.call(*create("a", "x")), "0 OK\nvolume vol-1 1048576\n")
            place.configure({"p3": (1, "c")}, {})
            said = place.recipe(change)
            self.check("a pool that is taken away", said[1:],
                       ("csid: volumes.db: volume 1: it is vol-1 (a), 1 MiB in pool fast\n"
                        "csid: volumes.db: volume 1: its pool is not one of the configuration\n", 4))
            # The refused configuration is not used.
            self.assertEqual(place.call(*create("a", "x")), "0 OK\nvolume vol-1 1048576\n")

    def test_node_that_died(self):
        with Place(self.csictl, self.csid) as place:
            for words in [create("a"), create("b"), create("c")]:
                place.call(*words)
            for volume, node in [("vol-1", "n1"), ("vol-2", "n2"), ("vol-3", "n1")]:
                place.call(*publish(volume, node))
            self.check("the volumes of the node are detached",
                       place.recipe("### A node that died", CSID_SOCKET=place.control.socket),
                       ("unpublished vol-1 from n1\nunpublished vol-3 from n1\n", "", 0))
            self.check("those of another one stay", place.call("ListVolumes"),
                       "0 OK\nvolume vol-1 1048576 -\nvolume vol-2 1048576 n2\nvolume vol-3 1048576 -\n")

    def test_move(self):
        move = "### A move to another machine"
        with Place(self.csictl, self.csid) as old, Place(self.csictl, self.csid, is_new=False) as new:
            old.front_calls(create("a"))
            old.must("systemctl start csid-front")
            self.check("what is moved", old.recipe(move, 0), ("", "", 0))
            self.check("nothing runs there", [old.control.runs(unit) for unit in ("csid", "csid-front")],
                       [None, None])
            shutil.copytree(old.copies(), new.top + "/root/csid-move")
            # The files may lose their modes when they are moved to another machine.
            for path in glob.glob(new.top + "/root/csid-move/*"):
                os.chmod(path, 0o644)
            self.check("the file on the new machine", new.recipe(move, 1), (has(1, 0, 2), "", 0))
            self.check("who may read it", (new.owners(), new.modes()), ({OWNER}, {"0o600"}))
            new.must("systemctl stop csid-front")
            self.check("the next volume there", new.call(*create("b")), "0 OK\nvolume vol-2 1048576\n")

    def test_upgrade(self):
        """An upgrade copies the programs and the file, and csid adopts the file, which has format 1. The way
        back and a restore bring back the programs and the file of format 1. In this test the new programs are
        the same as the old ones."""
        with Place(self.csictl, self.csid) as place:
            place.must("systemctl stop csid; rm /var/lib/csid/*")
            shutil.copy(os.path.join(TOP, "tests", "stored", "format-1-1.db"), place.folder + "volumes.db")
            release = os.path.join(place.top, "release")
            shutil.copytree(place.top + "/usr/local/bin", release)
            want = "name pools.example.org, pools 2, nodes 2\n" + has(1, 0, 2, format=1)
            self.check("an upgrade", place.recipe("### An upgrade", release=release), (want, "", 0))
            wait(lambda: read(place.control.lines("csid")))
            self.check("the file is taken over", place.check(), (has(1, 0, 2), "", 0))
            self.check("the programs before", sorted(os.listdir(place.copies())),
                       ["csictl", "csid", "front", "volumes.db"])
            self.check("a way back", place.recipe("### A way back", copies=place.copies()), ("", "", 0))
            self.check("the file before", place.recipe("### A restore", 0, copies=place.copies()),
                       (has(1, 0, 2, format=1), "", 0))

    def test_pages(self):
        """csid adopts a file of an earlier release, which keeps its pages of 4,096 bytes. The recipe for
        smaller pages then gives the file pages of 1,024 bytes, as a new file has, with the same rows. Its
        copy keeps the pages of 4,096 bytes."""
        with Place(self.csictl, self.csid) as place:
            size = "PRAGMA page_size"
            self.check("the pages of a file that is made", place.in_folder('sqlite3 volumes.db "%s"' % size),
                       ("1024\n", "", 0))
            place.must("systemctl stop csid; rm /var/lib/csid/*")
            shutil.copy(os.path.join(TOP, "tests", "stored", "format-1-1.db"), place.folder + "volumes.db")
            place.must(
                "csid pipe --tables /var/lib/csid/volumes.db --config /etc/csid/config.toml < /dev/null;"
                " chmod 600 /var/lib/csid/*"
            )
            for path in glob.glob(place.folder + "volumes.db*"):
                os.chown(path, *OWNER)
            before = place.rows()
            self.check("the pages of a file that stood", place.in_folder('sqlite3 volumes.db "%s"' % size),
                       ("4096\n", "", 0))
            self.check("smaller pages", place.recipe("### Smaller pages"),
                       ("delete\nwal\n" + has(1, 0, 2), "", 0))
            place.must("systemctl stop csid-front csid")
            self.check("who may read it", (place.owners(), place.modes()), ({OWNER}, {"0o600"}))
            self.check("its pages then", place.in_folder('sqlite3 volumes.db "%s"' % size), ("1024\n", "", 0))
            self.check("its rows then", place.rows(), before)
            self.check("the pages of the copy",
                       place.shell('sqlite3 %s/volumes.db "%s"' % (place.copies(), size)), ("4096\n", "", 0))


LOW = "volume 40: its number is not from 1 to below the next number"


class RestoreTest(RecipeTest):
    """The copy has one of the orchestrator's three volumes, and a volume that was deleted after the copy."""

    def setUp(self):
        super().setUp()
        self.place = self.enterContext(Place(self.csictl, self.csid))
        for name in ["a", "b"]:
            self.place.call(*create(name))
        self.place.recipe("### A copy of a file that is served")
        self.place.must("systemctl stop csid-front")
        self.copies = self.place.copies()
        self.place.call("DeleteVolume", "--volume", "vol-1")
        self.place.front_calls(create("c"))
        self.place.must("systemctl start csid-front")
        restored = self.place.recipe("### A restore", 0, copies=self.copies)
        self.assertEqual(restored, (has(2, 0, 3), "", 0))
        self.place.orchestrator("vol-40\nvol-2\nvol-3\n", "vol-40 rw n1\n")

    def test_rows_of_the_copy_are_back(self):
        """The files before the restore are moved next to the copy."""
        self.assertEqual((self.place.owners(), self.place.modes()), ({OWNER}, {"0o600"}))
        self.assertEqual(self.place.rows(), ({1: "a", 2: "b"}, 3))
        self.assertEqual(self.place.rows(self.copies + "/old/volumes.db"), ({2: "b", 3: "c"}, 4))

    def test_volumes_that_are_missing_and_left_are_named(self):
        came = self.place.recipe("### A restore", 1, copies=self.copies)
        self.assertEqual(came, ("vol-3\nvol-40\nvol-1\nvol-40 rw n1\n", "", 0))

    def make_again(self):
        """Makes the missing volume again, and attaches it. Returns the output without the replies, the errors
        and the status of both."""
        self.place.recipe("### A restore", 1, copies=self.copies)
        came = [self.place.recipe("### A volume that the copy does not have"),
                self.place.recipe(ATTACHMENTS, 1, copies=self.copies)]
        return [(re.sub("(?m)^0 OK.*\n", "", out), error, status) for out, error, status in came]

    def test_missing_volume_is_made_again_and_attached(self):
        wanted = [("volume vol-40 1048576\n", "", 0), ("context readonly=false\n", "", 0)]
        self.assertEqual(self.make_again(), wanted)

    def test_second_run_changes_nothing(self):
        """The folder for the old files exists, so nothing is moved or replaced."""
        self.make_again()
        rows, old = self.place.rows(), self.place.rows(self.copies + "/old/volumes.db")
        for options in "-euo", "-o":
            out, error, status = self.place.recipe("### A restore", 0, options=options, copies=self.copies)
            self.check("what is said", (out, "File exists" in error, status), ("", True, 1))
        self.check("the restored file", self.place.rows(), rows)
        self.check("the old file", self.place.rows(self.copies + "/old/volumes.db"), old)

    def test_node_whose_id_begins_with_a_dash(self):
        self.place.configure(POOLS, {"-n": 2}, "")
        self.place.orchestrator("vol-2\n", "vol-2 rw -n\n")
        self.place.recipe("### A restore", 1, copies=self.copies)
        out, error, status = self.place.recipe(ATTACHMENTS, 1, copies=self.copies)
        self.check("it is attached", (out.splitlines()[1:], error, status),
                   (["context readonly=false"], "", 0))
        os.rename(self.copies + "/attached-since", self.copies + "/detached-since")
        out, error, status = self.place.recipe(ATTACHMENTS, 0, copies=self.copies)
        self.check("it is detached", (out, error, status), ("0 OK -\n", "", 0))
        self.check("what the file has", self.place.check(), (has(2, 0, 3), "", 0))

    def test_next_number_is_raised_above_the_volumes(self):
        self.make_again()
        self.place.must("sqlite3 /var/lib/csid/volumes.db 'UPDATE meta SET next_number = 40'")
        lines = "volume 40: it is vol-40 (pvc-40), 1 MiB in pool p1", stands(LOW)
        error = "".join("csid: volumes.db: %s\n" % line for line in lines)
        self.assertEqual(self.place.check(), ("", error, 4))
        self.assertEqual(self.place.recipe("### A restore", 2), ("41\n" + has(3, 1, 41), "", 0))
        self.place.front_calls(["Probe"])
        self.assertEqual(self.place.recipe("### A restore", 3), ("", "", 0))
        self.place.must("systemctl stop csid-front")
        self.assertEqual(self.place.call(*create("d")), "0 OK\nvolume vol-41 1048576\n")


class FailedRecipeTest(RecipeTest):
    """A command of a recipe fails, and the whole block was pasted into a terminal."""

    def setUp(self):
        super().setUp()
        self.place = self.enterContext(Place(self.csictl, self.csid))
        self.place.call(*create("a"))

    def pasted(self, heading, number=0, **how):
        return self.place.recipe(heading, number, options="-o", **how)

    def deny_copies(self):
        """Replaces the folder of the copies by a file, so that no copy can be made."""
        os.rmdir(self.place.top + "/root")
        pathlib.Path(self.place.top + "/root").touch()

    def test_upgrade_without_a_copy_installs_nothing(self):
        self.deny_copies()
        release = os.path.join(self.place.top, "release")
        os.mkdir(release)
        for name in "csid", "csictl", "front":
            pathlib.Path(release, name).touch()
        status = self.pasted("### An upgrade", release=release)[2]
        sizes = [os.path.getsize("%s/usr/local/bin/%s" % (self.place.top, it)) for it in os.listdir(release)]
        self.check("the status, and whether a program is new", (status, 0 in sizes), (1, False))

    def test_pages_stay_without_a_copy(self):
        self.place.must("systemctl stop csid; sqlite3 /var/lib/csid/volumes.db 'PRAGMA journal_mode = DELETE;"
                        " PRAGMA page_size = 4096; VACUUM' > pages")
        self.deny_copies()
        status = self.pasted("### Smaller pages")[2]
        size = self.place.in_folder('sqlite3 volumes.db "PRAGMA page_size"')
        self.check("the status and the pages", (status, size), (1, ("4096\n", "", 0)))

    def test_refused_configuration_is_not_installed(self):
        self.place.configure({"p3": (1, "c")}, {})
        before = self.configurations()
        status = self.pasted("### A change of the configuration")[2]
        self.check("the status and the files", (status, self.configurations()), (4, before))

    def configurations(self):
        folder = pathlib.Path(self.place.top, "etc/csid")
        return {it.name: it.read_text() for it in folder.iterdir()}

    @each(["### A change of the configuration", "### A pool that is renamed"])
    def test_second_run_keeps_the_first_configuration(self, heading):
        first = self.configurations()["config.toml"]
        self.place.configure({**POOLS, "fast": (10, "a")}, NODES)
        for _ in range(2):
            self.check("a run", self.pasted(heading)[2], 0)
            self.place.must("systemctl stop csid-front")
        self.check("it is kept", first in self.configurations().values(), True)

    def test_daily_copies_stay_where_a_copy_fails(self):
        days = ["2026-01-%02d-000000.db" % day for day in range(1, 16)]
        daily = self.place.top + "/root/csid-daily/"
        os.mkdir(daily)
        for day in days:
            open(daily + day, "x").close()
        self.place.configure({"p3": (1, "c")}, {}, "")
        status = self.pasted("### A copy of a file that is served", 1)[2]
        self.check("the status and the copies", (status, sorted(os.listdir(daily))), (4, days))

    def test_daily_copy_of_a_killed_run_is_removed(self):
        daily = self.place.top + "/root/csid-daily/"
        os.mkdir(daily)
        pathlib.Path(daily, "2026-01-01-000000.db.new").write_text("cut")
        self.place.recipe("### A copy of a file that is served", 1)
        self.check("the endings", {os.path.splitext(it)[1] for it in os.listdir(daily)}, {".db"})


POOL_OF_NONE = "volume 1: its pool is not one of the configuration"
NODE_OF_NONE = "volume 1 at node n1: its node is not one of the configuration"
VOL_1 = "volume 1: it is vol-1 (a), 1 MiB in pool p1"
# For each row: the change, the pools, the nodes, the line that refuses the change, and the line before it.
# Both are None if the change is allowed.
CHANGES = [
    ("a further pool", {**POOLS, "p3": (1, "c")}, NODES, None, None),
    ("a further node", POOLS, {**NODES, "n3": 1}, None, None),
    ("a larger pool", {**POOLS, "p1": (20, "a")}, NODES, None, None),
    ("a node with more volumes", POOLS, {**NODES, "n1": 3}, None, None),
    ("a pool of just its volumes", {**POOLS, "p1": (2, "a")}, NODES, None, None),
    ("a pool of less", {**POOLS, "p1": (1, "a")}, NODES, "pool p1: its volumes have more bytes than it has",
     "pool p1: its volumes have 2 MiB, and it has 1 MiB"),
    ("a node with fewer volumes", POOLS, {**NODES, "n1": 1},
     "node n1: more volumes are attached there than it can have",
     "node n1: 2 volumes are attached there, and it can have 1"),
    ("a pool that is gone", {"p2": (4, "b")}, NODES, POOL_OF_NONE, VOL_1),
    ("a pool that is renamed", {"fast": (10, "a"), "p2": (4, "b")}, NODES, POOL_OF_NONE, VOL_1),
    ("a node that is gone", POOLS, {"n2": 2}, NODE_OF_NONE, VOL_1),
    ("a node that is renamed", POOLS, {"n7": 2, "n2": 2}, NODE_OF_NONE, VOL_1),
    ("a node without volumes that is gone", POOLS, {"n1": 2}, None, None),
    ("other segments", {**POOLS, "p1": (10, "x")}, NODES, None, None),
]
HEADINGS = "ID     NAME  POOL  SIZE   CAPABILITIES              PARAMETERS  MUTABLE  NODES\n"
ROW = "vol-%d  %s     %s    1 MiB  block:SINGLE_NODE_WRITER  -           -        %s\n"


class ChangedConfigurationTest(RecipeTest):
    """The recipes for a changed configuration, over three volumes: vol-1 and vol-2 are in p1 and attached at
    n1, and vol-3 is in p2."""

    def setUp(self):
        super().setUp()
        self.place = self.enterContext(Place(self.csictl, self.csid))
        for words in create("a"), create("b"), create("c", "b"):
            self.place.call(*words)
        for volume in "vol-1", "vol-2":
            self.place.call(*publish(volume, "n1"))

    @each(CHANGES)
    def test_change_that_loses_volumes_is_refused(self, name, pools, nodes, line, more):
        self.place.configure(pools, nodes)
        came = self.place.in_folder("csid --check-tables volumes.db --config $config.new")
        if line is None:
            self.assertEqual(came, (has(3, 2, 4), "", 0))
        else:
            error = "csid: volumes.db: %s\ncsid: volumes.db: %s\n" % (more, stands(line))
            self.assertEqual(came, ("", error, 4))

    def test_volumes_of_each_pool_and_node_are_listed(self):
        wanted = (HEADINGS
                  + ROW % (1, "a", "p1", "n1")
                  + ROW % (2, "b", "p1", "n1")
                  + ROW % (3, "c", "p2", "-")
                  + "\nPOOL  VOLUMES  SIZE\np1    2        2 MiB\np2    1        1 MiB\n"
                  + "\nNODE  VOLUMES  SIZE\nn1    2        2 MiB\n")
        self.place.rows()
        self.assertEqual(self.place.in_folder("csid --list-tables volumes.db"), (wanted, "", 0))

    def test_volumes_of_a_pool_that_is_emptied_are_listed(self):
        wanted = (HEADINGS
                  + ROW % (3, "c", "p2", "-")
                  + "\nPOOL  VOLUMES  SIZE\np2    1        1 MiB\n"
                  + "\nNODE  VOLUMES  SIZE\n")
        self.place.rows()
        self.assertEqual(self.place.recipe("### A pool that is emptied"), (wanted, "", 0))


class DevicesTest(RecipeTest):
    def test_size(self):
        """The recipe shows the size of a volume, and that a deleted volume does not exist."""
        with Place(self.csictl, self.csid) as place:
            for number in range(1, 8):
                place.call("CreateVolume", "--name", "pvc-%d" % number, "--mode", "1")
            how = dict(page="DEVICES.md", CSID_SOCKET=place.control.socket)
            out, errors, status = place.recipe("## How a node plugin learns of a volume", **how)
            shown = "\n".join(out.splitlines()[:2]), errors, status
            self.check("the seventh", shown, ("ID        vol-7\nSIZE      1 MiB", "", 0))
            place.call("DeleteVolume", "--volume", "vol-7")
            out, errors, status = place.recipe("## How a node plugin learns of a volume", **how)
            refused = "", "csictl: vol-7: no volume has this id\n", 1
            self.check("none after it is deleted", (out, errors, status), refused)

    def test_data_without_volume(self):
        """Data on a device is reported if its volume is not listed, but never without a listing."""
        heading = "## When they are swept"
        with Place(self.csictl, self.csid) as place:
            data = os.path.join(place.top, "data")
            os.mkdir(data)
            for name in ["vol-1.img", "vol-2.img", "vol-3.img", "vol-10.img", "vol-1.img.new", "lost+found"]:
                open(os.path.join(data, name), "x").close()
            for name in ["a", "b", "c"]:
                place.call(*create(name))
            place.call("DeleteVolume", "--volume", "vol-2")
            how = dict(page="DEVICES.md", data=data, TMPDIR=place.top, CSID_SOCKET=place.control.socket)
            said = place.recipe(heading, **how)
            self.check("data without a volume", said, ("vol-10\nvol-2\n", "", 0))
            place.must("systemctl stop csid-front csid; rm -f /run/csid/csid.sock")
            out, errors, _ = place.recipe(heading, **how)
            self.check("where nobody serves", (out, "No such file or directory" in errors), ("", True))


class KubernetesChangeTest(RecipeTest):
    """The commands of docs/DEPLOY.md that change the configuration of a pod, and list its volumes."""

    def setUp(self):
        super().setUp()
        if importlib.util.find_spec("yaml") is None:
            self.skipTest("python's yaml is not installed")
        self.place = self.enterContext(Place(self.csictl, self.csid, is_new=False, kubectl=ME))
        self.manifest = self.place.top + "/deploy/kubernetes.yaml"
        os.mkdir(os.path.dirname(self.manifest))
        shutil.copy(os.path.join(TOP, "deploy", "kubernetes.yaml"), self.manifest)
        volume = functools.partial(create, key="topology.pools.example.org/zone")
        self.place.front_calls(volume("a"), volume("b"))
        self.place.must("kubectl apply --filename deploy/kubernetes.yaml")
        self.change, self.look = blocks("### A changed configuration in Kubernetes", "DEPLOY.md")
        self.before = self.place.control.runs("csid")

    def changes(self, gibibytes):
        """Sets the size of the pool of 10 TiB in the manifest to this many GiB, and runs the commands that
        change it, as pasted into a terminal. Volumes have 2 GiB of the pool. Returns the output, the errors
        and the status."""
        text = pathlib.Path(self.manifest).read_text()
        self.assertEqual(text.count("bytes = %d\n" % (10 << 40)), 1)
        with open(self.manifest, "w") as file:
            file.write(text.replace("bytes = %d\n" % (10 << 40), "bytes = %d\n" % (gibibytes << 30)))
        return self.place.shell(self.change, "-o")

    def test_pod_is_replaced_after_the_check(self):
        self.assertEqual(self.changes(2), (has(2, 0, 3), "", 0))
        self.assertNotIn(self.place.control.runs("csid"), [None, self.before])

    def test_pod_stays_where_the_check_refuses_the_change(self):
        out, line, status = self.changes(1)
        self.assertEqual((out, status), ("", 4))
        self.assertIn("pool p1: its volumes have more bytes than it has", line)
        self.assertEqual(self.place.control.runs("csid"), self.before)

    def test_volumes_of_a_pod_that_serves_are_shown(self):
        out, errors, status = self.place.shell(self.look)
        self.assertEqual((errors, status), ("", 0))
        listed = re.findall(r"^(vol-\d+) +(\S+) +p1 ", out, re.M)
        self.assertEqual(listed, [("vol-1", "a"), ("vol-2", "b")])


class KubernetesTest(RecipeTest):
    """The commands of docs/DEPLOY.md that copy the file out of its claim and into it."""

    def setUp(self):
        super().setUp()
        if importlib.util.find_spec("yaml") is None:
            self.skipTest("python's yaml is not installed")
        self.place = self.enterContext(Place(self.csictl, self.csid, is_new=False, kubectl=ME))
        place, volume = self.place, functools.partial(create, key="topology.pools.example.org/zone")
        os.mkdir(place.top + "/root/deploy")
        for name in ["kubernetes.yaml", "kubernetes-tables.yaml"]:
            shutil.copy(os.path.join(TOP, "deploy", name), place.top + "/root/deploy")
        place.front_calls(volume("a"), volume("b"))
        place.front_calls(volume("late"), name="last-frames")
        place.must("kubectl apply --filename /root/deploy/kubernetes.yaml")
        place.front_calls(["Probe"])
        first, out, again = blocks("### A copy of the file in Kubernetes", "DEPLOY.md")
        # A pod makes one more volume while it ends. Only the WAL has it.
        whole = "volumes.db: OK\nvolumes.db-wal: OK\n" + has(3, 0, 4)
        self.assertEqual(place.shell(first + out + again), (whole, "", 0))
        self.volume = volume

    def test_csid_serves_after_a_copy(self):
        self.assertIsNotNone(self.place.control.runs("csid"))
        self.place.must("systemctl stop csid-front")
        since = self.place.call(*self.volume("since"))
        self.assertEqual(since, "0 OK\nvolume vol-4 1073741824\n")

    def restore(self):
        """Restores the copy, after a further volume was made. Returns the output, the errors and the status
        of the steps."""
        place = self.place
        begin, end, start = blocks("### A restore of the file in Kubernetes", "DEPLOY.md")
        into = blocks("### In Kubernetes, from etcd to a file", "ETCD.md")[2]
        raised = blocks("### A restore")[2]
        (copies,) = glob.glob(place.top + "/root/kubernetes-*")
        place.must("systemctl stop csid-front")
        place.call(*self.volume("since"))
        place.front_calls(["Probe"], name="last-frames")
        place.must("systemctl start csid-front")
        return place.shell(begin + end + raised + into + start, copies=copies)

    def test_volumes_of_the_copy_are_restored(self):
        """The volume that was made after the copy is gone, and its number is not used again."""
        served = "csid: /var/lib/csid/volumes.db: " + has(3, 0, 41)
        self.assertEqual(self.restore(), ("41\n" + has(3, 0, 41) + "volumes.db: OK\n" + served, "", 0))
        self.place.must("systemctl stop csid-front")
        self.assertEqual(self.place.call(*self.volume("d")), "0 OK\nvolume vol-41 1073741824\n")
        self.place.must("systemctl stop csid")
        self.assertEqual(self.place.rows(), ({1: "a", 2: "b", 3: "late", 41: "d"}, 42))

    def test_file_before_the_restore_is_put_aside(self):
        self.restore()
        (aside,) = glob.glob(self.place.folder + "restored-*/volumes.db")
        self.assertEqual(self.place.rows(aside), ({1: "a", 2: "b", 3: "late", 4: "since"}, 5))
