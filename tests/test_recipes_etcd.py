"""The commands in the recipes of docs/ETCD.md, unchanged."""

import contextlib
import functools
import glob
import importlib.util
import os
import pathlib
import re
import shutil
import sqlite3
import subprocess

from tests.support.processes import TOP, program
from tests.support.recipes import (Cluster, Etcd, ME, MIB, NODE, OWNER, PLUGIN, Place, RecipeTest, SECONDS,
                                   blocks, create, has, publish, read)
from tests.support.rows import each


# Parts of names that are hard to write in JSON, in SQL or in lines.
HARD = ["plain", "it's", 'a "quoted" one', "back\\slash", "\\b \\u0008 \\", "a\ttab", "a line\nand one",
        "and\r\n", "é日本𝄞", "\u2028\ufeff", "<&>", "%s %020d", "-- ;", "' || x'", ".quit", "\n.quit\n", "/",
        " ", "{}", "a" * 120]


@functools.cache
def many_frames(csictl):
    """Returns calls that make 300 volumes of all kinds, and attach, change and delete some of them."""
    return b"".join(subprocess.run([csictl, "frame", "--method", *words], capture_output=True,
                                   check=True).stdout
                    for number in range(1, 301)
                    for words in calls_of(number))


def calls_of(i):
    """Yields the words of the calls for volume `i`."""
    volume, mode = ["--volume", "vol-%d" % i], ["--mode", "3" if i % 2 else "5"]
    create = ["CreateVolume", "--name=%s %d" % (HARD[i % len(HARD)], i), "--required", str((1 + i % 8) * MIB)]
    create += [*mode, "--topology", "zone=" + "ab"[i % 2]]
    if i % 2:
        create += ["--parameters", "type=it's %d" % i, "--fs", "ext4"]
    if i % 3:
        create += ["--mutable", 'k=\\%d"' % i]
    yield create
    used = [*mode, *(["--fs", "ext4", "--readonly"] if i % 2 else [])]
    for node, is_used in [("n1", i % 3 == 0), (NODE, i % 4 == 0)]:
        if is_used:
            yield ["ControllerPublishVolume", *volume, "--node", node, *used]
    if i % 11 == 0:
        yield ["ControllerModifyVolume", *volume, "--mutable", "z='"]
    if i % 7 == 1 and i % 3 and i % 4 or i == 300:
        yield ["ControllerUnpublishVolume", *volume]
        yield ["DeleteVolume", *volume]


def all_rows(path):
    """Returns all rows of a file, with the types of their values."""
    with contextlib.closing(sqlite3.connect(path, timeout=SECONDS)) as file:
        return {table: [[(type(it), it) for it in row]
                        for row in file.execute("SELECT * FROM %s ORDER BY 1, 2" % table)]
                for table in ("meta", "volumes", "attachments")}


MANIFESTS = ["kubernetes.yaml", "kubernetes-etcd.yaml", "kubernetes-tables.yaml"]


class EtcdRecipeTest(RecipeTest):
    """The commands in the recipes of docs/ETCD.md, over an etcd."""

    # Further programs for the folder of the recipes.
    programs = {}

    def setUp(self):
        super().setUp()
        self.need_etcd()
        self.etcd = self.enterContext(Etcd())
        programs = {"csid-etcd": self.csid_etcd, **self.programs}
        self.place = self.enterContext(Place(self.csictl, self.csid, is_new=False, **programs))
        self.place.variables.update(ENDPOINTS=self.etcd.endpoint, ETCDCTL_API="3")

    def recipe(self, heading, *numbers, **variables):
        """Runs blocks of a recipe, after the block with which all recipes begin. Returns the output, the
        errors and the status."""
        first, members = blocks("## From a file to etcd, and back", "ETCD.md")[0], "10.0.0.%d:2379"
        members = ",".join(members % it for it in (1, 2, 3))
        self.assertIn(members, first)
        self.assertIn("name=%s\n" % PLUGIN, first)
        text = "".join(blocks(heading, "ETCD.md")[number] for number in numbers)
        return self.place.shell(first.replace(members, self.etcd.endpoint) + text, **variables)


# The listing of csid-etcd after the trial.
LISTED = """\
ID     NAME   POOL  SIZE   CAPABILITIES              PARAMETERS  MUTABLE  NODES
vol-1  pvc-7  p1    1 MiB  block:SINGLE_NODE_WRITER  -           -        -

POOL  VOLUMES  SIZE
p1    1        1 MiB

NODE  VOLUMES  SIZE
"""


class TrialTest(EtcdRecipeTest):
    """The commands of "A trial", with the endpoint of the test's etcd."""

    def setUp(self):
        super().setUp()
        front = self.place.top + "/usr/local/bin/front"
        os.unlink(front)
        os.symlink(program("front"), front)
        shutil.copy(self.place.top + "/etc/csid/config.toml", self.place.top)

    def test_volume_is_made_and_found_by_its_name(self):
        text = blocks("## A trial", "ETCD.md")[0].replace("csid-etcd ", "csid-etcd --endpoints $ENDPOINTS ")
        socket = "until [ -S control.sock ]; do sleep 0.1; done\n"
        text = text.replace("control.sock &\n", "control.sock &\n" + socket)
        out, _, status = self.place.shell("trap 'kill $(jobs -p)' EXIT\n" + text)
        self.assertEqual((out, status), ("created vol-1, 1 MiB\n" + LISTED, 0))


OVER, BACK = "### From a file to etcd", "### From etcd to a file"


class FileAndEtcdTest(EtcdRecipeTest):
    """Volumes of all kinds move from a file to etcd, and back."""

    def setUp(self):
        super().setUp()
        place = self.place
        place.configure({"p1": (2000, "a"), "p2": (2000, "b")}, {"n1": 1000, NODE: 1000}, "")
        pathlib.Path(place.top + "/calls").write_bytes(many_frames(self.csictl))
        place.must(
            "csid pipe --tables /var/lib/csid/volumes.db --config /etc/csid/config.toml < calls > replies;"
            " systemctl start csid"
        )
        self.rows, self.listing = all_rows(place.folder + "volumes.db"), self.list_volumes()
        volumes, attachments = len(self.rows["volumes"]), len(self.rows["attachments"])
        self.assertTrue(volumes > 250 and attachments > 100 and self.listing.count("\n") > 250)
        self.counts = has(volumes, attachments, 301)
        self.count = volumes + attachments + 1
        place.must("systemctl start csid-front csid-etcd")

    def list_volumes(self):
        self.place.must("systemctl stop csid-front")
        return self.place.call("ListVolumes", "--all")

    def said(self):
        """Returns the lines of csid since its start."""
        return read(self.place.control.lines("csid")).replace(self.place.top, "")

    def check_nothing_runs(self):
        for unit in "csid", "csid-front", "csid-etcd":
            self.assertIsNone(self.place.control.runs(unit), unit)

    def go_over(self):
        """Does the steps from the file to etcd. Returns the folder of the copies."""
        self.place.must("systemctl stop csid-etcd")
        self.assertEqual(self.recipe(OVER, 0, 1), (self.counts * 2, "", 0))
        copies = self.place.copies()
        self.check_nothing_runs()
        self.assertEqual(self.recipe(OVER, 2, copies=copies), ("", "", 0))
        open(self.place.control.over_etcd, "x").close()
        self.assertEqual(self.recipe(OVER, 3), ("", "", 0))
        return copies

    def test_import_is_refused_while_a_csid_etcd_leads(self):
        lock, holder, *_ = self.etcd.ctl("get", "--prefix", PLUGIN + "/lock/").stdout.split("\n")
        line = (
            "csid-etcd: --import: %s: %s has the lock or waits for it, and must be stopped first; nothing was"
            " written\n" % (lock.partition("/")[2], holder)
        )
        self.assertEqual(self.recipe(OVER, 0, 1), (self.counts, line, 1))

    def test_import_over_a_row_is_refused_until_the_row_is_removed(self):
        self.place.must("systemctl stop csid-etcd")
        self.etcd.ctl("put", PLUGIN + "/volumes/00000000000000000001", "{}")
        there = "volumes/00000000000000000001: it is there already; nothing was written"
        line = "csid-etcd: --import: %s\n" % there
        self.assertEqual(self.recipe(OVER, 0, 1), (self.counts, line, 1))
        self.place.must("rm -r %s" % self.place.copies())
        self.assertEqual(self.recipe(OVER, 4), ("1\n", "", 0))
        self.assertEqual(self.recipe(OVER, 0, 1), (self.counts * 2, "", 0))

    def test_volumes_are_the_same_over_etcd(self):
        copies = self.go_over()
        self.assertEqual(all_rows(copies + "/volumes.db"), self.rows)
        self.assertEqual(self.said(), "csid: /run/csid-etcd/log.sock: " + self.counts)
        self.assertEqual(self.list_volumes(), self.listing)

    def test_next_volume_is_a_row_of_etcd(self):
        self.go_over()
        self.place.must("systemctl stop csid-front")
        self.assertEqual(self.place.call(*create("next")), "0 OK\nvolume vol-301 1048576\n")
        export = "csid-etcd --name %s --export --endpoints %s > exported" % (PLUGIN, self.etcd.endpoint)
        self.place.must("systemctl stop csid csid-etcd; " + export)
        row = "INSERT INTO volumes VALUES (301,'next',1048576,'p1',"
        self.assertIn(row, read(self.place.top + "/exported"))

    def go_back(self, copies, counts):
        """Does the steps back to a file, which then has these counts."""
        self.place.must("systemctl start csid-front; mv %s aside" % copies)
        self.assertEqual(self.recipe(BACK, 0), ("", "", 0))
        self.check_nothing_runs()
        out, error, status = self.recipe(BACK, 1)
        error = re.sub(r"revision \d+", "revision R", error)
        self.assertEqual((out, error, status), (counts, "csid-etcd: at revision R: " + counts, 0))

    def test_number_of_a_volume_that_was_deleted_over_etcd_is_not_given_again_by_the_file(self):
        copies = self.go_over()
        self.place.must("systemctl stop csid-front")
        self.assertEqual(self.place.call(*create("next")), "0 OK\nvolume vol-301 1048576\n")
        self.assertEqual(self.place.call("DeleteVolume", "--volume", "vol-301"), "0 OK\n")
        counts = has(len(self.rows["volumes"]), len(self.rows["attachments"]), 302)
        self.go_back(copies, counts)
        after = all_rows(self.place.folder + "volumes.db")
        self.assertEqual([[value for _, value in row] for row in after["meta"]], [[1, 2, 302]])
        for table in "volumes", "attachments":
            self.assertEqual(after[table], self.rows[table])
        os.unlink(self.place.control.over_etcd)
        self.assertEqual(self.recipe(BACK, 2), ("", "", 0))
        self.assertEqual(self.said(), "csid: /var/lib/csid/volumes.db: " + counts)

    def test_rows_of_the_file_are_the_same_after_both_ways(self):
        self.go_back(self.go_over(), self.counts)
        self.assertEqual(self.place.owners(), {OWNER})
        self.assertEqual(all_rows(self.place.folder + "volumes.db"), self.rows)

    def test_volumes_are_the_same_over_the_file(self):
        self.go_back(self.go_over(), self.counts)
        os.unlink(self.place.control.over_etcd)
        self.assertEqual(self.recipe(BACK, 2), ("", "", 0))
        self.assertEqual(self.said(), "csid: /var/lib/csid/volumes.db: " + self.counts)
        self.assertEqual(self.list_volumes(), self.listing)
        self.assertEqual(self.recipe(BACK, 3), ("%d\n" % self.count, "", 0))


class FailedEtcdRecipeTest(EtcdRecipeTest):
    """A variable is empty, a block runs twice, or etcd does not answer, and the whole block was pasted into a
    terminal."""

    programs = {"kubectl": ME}

    def pasted(self, heading, number, **variables):
        """Runs one block as a terminal does into which it is pasted."""
        text = blocks(heading, "ETCD.md")[number]
        return self.place.shell("cd /var/lib/csid\n" + text, options="-o",
                                etcd="--endpoints " + self.etcd.endpoint,
                                config=self.place.top + "/etc/csid/config.toml", **variables)

    @each([(OVER, 4), (BACK, 3)])
    def test_empty_name_removes_nothing(self, heading, number):
        """Without a name the prefix would be a slash, with which all keys of Kubernetes begin."""
        self.etcd.ctl("put", "/registry/secrets/a", "b")
        out, error, _ = self.pasted(heading, number, name="")
        self.check("what is said", (out, "name: parameter null or not set" in error), ("", True))
        self.check("the key", self.etcd.ctl("get", "/registry/secrets/a").stdout, "/registry/secrets/a\nb\n")

    def test_empty_folder_moves_nothing(self):
        """Without a folder mv would replace the WAL by the file."""
        files = {"volumes.db": "file", "volumes.db-wal": "changes"}
        for name, text in files.items():
            pathlib.Path(self.place.folder, name).write_text(text)
        error = self.pasted(OVER, 2, copies="")[1]
        found = {it.name: it.read_text() for it in pathlib.Path(self.place.folder).iterdir()}
        self.check("what is said", "copies: parameter null or not set" in error, True)
        self.check("the files", found, files)

    def test_second_run_in_a_claim_replaces_nothing(self):
        """The folder for the old files exists, so csid may have served the file since the first run."""
        if importlib.util.find_spec("yaml") is None:
            self.skipTest("python's yaml is not installed")
        os.mkdir(self.place.top + "/root/deploy")
        shutil.copy(os.path.join(TOP, "deploy", "kubernetes-tables.yaml"), self.place.top + "/root/deploy")
        os.mkdir(self.place.folder + "aside")
        pathlib.Path(self.place.folder, "volumes.db").write_text("served since")
        pathlib.Path(self.place.top, "volumes.db").write_text("copy")
        block = blocks("### In Kubernetes, from etcd to a file", "ETCD.md")[2]
        status = self.place.shell(block, "-o", deploy=self.place.top + "/root/deploy", aside="aside")[2]
        served = pathlib.Path(self.place.folder, "volumes.db").read_text()
        self.check("the status and the file", (status, served), (1, "served since"))

    def test_export_that_fails_leaves_no_file(self):
        """With an empty file csid would give numbers again."""
        self.etcd.end()
        out, _, status = self.pasted(BACK, 1, name=PLUGIN)
        self.check("the counts, the status and the files", (out, status, os.listdir(self.place.folder)),
                   ("", 1, []))


class Format1Test(EtcdRecipeTest):
    def test_rows_of_format_1_are_not_imported(self):
        shutil.copy(os.path.join(TOP, "tests", "stored", "format-1-1.db"), self.place.folder + "volumes.db")
        line = "csid-etcd: --import: meta: its format is 1, and that of rows in etcd 2; nothing was written\n"
        self.assertEqual(self.recipe(OVER, 0, 1), (has(1, 0, 2, format=1), line, 1))


class KubernetesEtcdTest(EtcdRecipeTest):
    """Volumes move from the file in a claim to etcd, and back. Each pod makes one more volume while it ends.
    """

    programs = {"kubectl": ME}

    def setUp(self):
        if importlib.util.find_spec("yaml") is None:
            self.skipTest("python's yaml is not installed")
        super().setUp()
        os.mkdir(self.place.top + "/root/deploy")
        for name in MANIFESTS:
            shutil.copy(os.path.join(TOP, "deploy", name), self.place.top + "/root/deploy")
        volume = functools.partial(create, key="topology.pools.example.org/zone")
        self.place.front_calls(*map(volume, "abc"), publish("vol-1", "worker-1"),
                               ["DeleteVolume", "--volume", "vol-2"])
        self.place.front_calls(volume("late"), name="last-frames")
        self.place.must("kubectl apply --filename /root/deploy/kubernetes.yaml")
        self.place.front_calls(["Probe"])
        self.later = volume("later")

    def walk(self, *steps):
        """Runs all steps. Returns the output, the errors without the revision, and the status."""
        first = blocks("### In Kubernetes", "ETCD.md")[0]
        first = re.sub(r'etcd=".*"', 'etcd="--endpoints %s"' % self.etcd.endpoint, first)
        out, error, status = self.place.shell(first + "".join(steps))
        return out, re.sub(r"revision \d+", "revision R", error), status

    # The recipes in Kubernetes share some steps with the recipes without Kubernetes.

    def go_over(self):
        no_new_rows, aside, to_deployment = blocks("### In Kubernetes, from a file to etcd", "ETCD.md")
        _, out, _ = blocks("### A copy of the file in Kubernetes", "DEPLOY.md")
        came = self.walk(no_new_rows, out, blocks(OVER, "ETCD.md")[1], aside, to_deployment)
        (self.aside,) = glob.glob(self.place.folder + "kubernetes-*/volumes.db")
        return came

    def go_back(self):
        back = blocks("### In Kubernetes, from etcd to a file", "ETCD.md")
        no_new, to_nothing, into, to_stateful_set = back
        _, out, _, no_rows = blocks(BACK, "ETCD.md")
        self.go_over()
        self.place.front_calls(self.later, name="last-frames")
        return self.walk(no_new, to_nothing, out, into, to_stateful_set, no_rows)

    def list_volumes(self):
        self.place.must("systemctl stop csid-front")
        listed = self.place.call("ListVolumes", "--all")
        self.place.must("systemctl start csid-front")
        return re.findall("^volume (\\S+)", listed, re.M)

    def test_volumes_go_from_a_claim_to_etcd(self):
        counts = has(3, 1, 5)
        served = "csid: /run/csid-etcd/log.sock: " + counts
        out = "volumes.db: OK\nvolumes.db-wal: OK\n" + counts * 2 + served
        self.assertEqual(self.go_over(), (out, "", 0))
        self.assertEqual(self.list_volumes(), ["vol-1", "vol-3", "vol-4"])

    def test_file_of_the_claim_is_put_aside(self):
        """Otherwise csid would serve the file."""
        self.go_over()
        self.assertEqual(self.place.rows(self.aside), ({1: "a", 3: "c", 4: "late"}, 5))
        came = self.place.shell(
            "csid serve --socket unused --tables /var/lib/csid/volumes.db --existing --config"
            " /etc/csid/config.toml"
        )
        line = "csid: /var/lib/csid/volumes.db: it has no tables, and none are made\n"
        self.assertEqual(came, ("", line, 4))

    def test_volumes_go_from_etcd_to_a_claim(self):
        counts = has(4, 1, 6)
        out = counts + "volumes.db: OK\ncsid: /var/lib/csid/volumes.db: " + counts + "6\n"
        self.assertEqual(self.go_back(), (out, "csid-etcd: at revision R: " + counts, 0))
        self.assertEqual(self.list_volumes(), ["vol-1", "vol-3", "vol-4", "vol-5"])

    def test_file_in_the_claim_has_the_rows_of_etcd(self):
        self.go_back()
        self.place.must("systemctl stop csid-front csid")
        self.assertEqual(self.place.rows(), ({1: "a", 3: "c", 4: "late", 5: "later"}, 6))
        path = self.place.folder + "volumes.db"
        self.assertEqual(all_rows(path)["attachments"], all_rows(self.aside)["attachments"])
        self.assertEqual(oct(os.stat(path).st_mode & 0o777), "0o600")

    def test_new_claim_gets_no_file_any_more(self):
        self.go_back()
        self.assertEqual(list(Cluster(self.place.top).object("configmap")["data"]), ["config.toml"])
