"""Runs the commands of deploy/ with the built programs."""

import contextlib
import os
import re
import subprocess
import tempfile
import time

from tests.support.deploy import (ETCD_MANIFEST, FIRST, Kubernetes, Nomad, Pod, UNITS, Unit, commands,
                                  etcd_commands, first_steps, help_of, need_namespaces, over_log, plain,
                                  value)
from tests.support.change_stores import KeptChangeStore
from tests.support.processes import SECONDS, read, run, wait, write
from tests.support.rows import ProgramTest


class ProgramsTest(ProgramTest):
    """The commands of deploy/ and the built programs."""

    def test_options(self):
        """The built programs know the options in deploy/, and csid can read the configurations."""
        helps = [help_of(self.csid, "serve"), help_of(self.front)]
        for where, *both in commands():
            for text, words in zip(helps, both):
                self.check_option(where, text, words)
        for where, text in [("the manifest", Kubernetes().config()), ("the Nomad job", Nomad().config())]:
            with tempfile.NamedTemporaryFile("w", suffix=".toml") as file:
                file.write(text + "\n")
                file.flush()
                done = subprocess.run([self.csid, "pipe", "--config", file.name], stdin=subprocess.DEVNULL,
                                      capture_output=True, text=True, timeout=SECONDS)
            self.check("the configuration of " + where, (done.returncode, done.stderr), (0, ""))

    def check_option(self, where, text, words):
        """The help of a program has each option that it is given."""
        for option in [w for w in words if w.startswith("--")]:
            self.check("%s in %s" % (option, where),
                       re.search(r"(^|[\s-])%s\b" % option.lstrip("-"), text) is not None, True)

    def test_options_over_etcd(self):
        """The built programs know the options of deploy/ over etcd."""
        for program in [self.csid_etcd, self.front, self.csid]:
            for where, *words, _ in etcd_commands():
                given = dict(zip([self.csid_etcd, self.csid, self.front], words))[program]
                self.check_option(where, over_log(program) if program == self.csid else help_of(program),
                                  given)


class FirstStepTest(ProgramTest):
    """csid makes no file without being asked. The first step makes the file that csid expects, at the given
    path, and keeps an existing file."""

    def test_csid_wants_a_file(self):
        for where, words, _ in commands():
            with self.subTest(where=where):
                self.assertIn("--existing", words)
                self.assertEqual(value(words, "--idle"), "60")

    def test_unit_makes_the_file_that_csid_wants(self):
        """No condition of the unit skips a file that was made only in part."""
        unit = Unit(FIRST)
        tables = value(Unit(UNITS[0]).words(), "--tables")
        self.assertEqual(value(unit.words(), "--tables"), tables)
        for key in "ConditionPathExists", "ConditionFileNotEmpty":
            self.assertEqual(unit.all(key), [], key)

    def test_nothing_starts_the_unit_by_itself(self):
        self.assertEqual(Unit(FIRST).all("WantedBy"), [])
        for name in UNITS:
            for key in "Wants", "Requires", "ExecStartPre":
                self.assertNotIn(FIRST, str(Unit(name).all(key)))

    def steps(self):
        """Yields for each first step: its place, a function, the path of the file that it makes, and True if
        the step needs the variable NEW. The function runs the step, and returns its status, standard error
        and the content of the file, or None if there is no file. Skips the test if csid is not built."""
        if not os.access(self.csid, os.X_OK):
            self.skipTest("%s is not built" % self.csid)
        os.symlink(self.csid, os.path.join(self.folder, "csid"))
        config, file = os.path.join(self.folder, "config.toml"), os.path.join(self.folder, "volumes.db")
        write(config, (Nomad().config() + "\n").encode())
        path = self.folder + ":" + os.environ["PATH"]
        for where, step, there in first_steps():
            step = re.sub(r"/\S+/config\.toml", config, step.replace(there, file))

            def make(step=step, **told):
                variables = {**os.environ, "PATH": path, **told}
                _, error, status = run(["sh", "-c", step], env=variables, stdin=subprocess.DEVNULL)
                return status, error, read(file) if os.path.exists(file) else None

            for name in "volumes.db", "volumes.db-wal":
                with contextlib.suppress(FileNotFoundError):
                    os.unlink(os.path.join(self.folder, name))
            yield where, make, file, "NEW" in step

    def test_file_is_made_where_the_step_is_told_to(self):
        for where, make, _, is_told in self.steps():
            with self.subTest(where=where):
                if is_told:
                    self.assertEqual(make(), (0, "", None))
                status, error, content = make(NEW="yes")
                self.assertEqual((status, error, content[:15]), (0, "", b"SQLite format 3"))

    def test_file_whose_making_was_cut_short_is_made_whole(self):
        for where, make, file, _ in self.steps():
            with self.subTest(where=where):
                whole = make(NEW="yes")[2]
                for suffix in "", "-wal":
                    os.unlink(file + suffix)
                write(file, b"SQLite format 3\0\4\0")
                status, error, content = make(NEW="yes")
                self.assertEqual((status, error, len(content)), (0, "", len(whole)))
                self.assertEqual(make(NEW="yes"), (0, "", content))

    def test_file_that_is_whole_is_kept(self):
        for where, make, _, _ in self.steps():
            with self.subTest(where=where):
                whole = make(NEW="yes")[2]
                self.assertIsNotNone(whole)
                self.assertEqual(make(NEW="yes"), (0, "", whole))

    def test_other_file_is_kept(self):
        for where, make, file, _ in self.steps():
            with self.subTest(where=where):
                write(file, b"mine")
                self.assertEqual(make(NEW="yes")[::2], (4, b"mine"))

    def test_other_file_is_kept_also_next_to_a_log(self):
        for where, make, file, _ in self.steps():
            with self.subTest(where=where):
                make(NEW="yes")
                write(file, b"mine")
                self.assertEqual(make(NEW="yes")[::2], (4, b"mine"))


class CheckBeforeStartTest(ProgramTest):
    """The checks of csid.service before a start."""

    def setUp(self):
        super().setUp()
        if not os.access(self.csid, os.X_OK):
            self.skipTest("%s is not built" % self.csid)
        self.find, self.judge = Unit(UNITS[0]).all("ExecStartPre")
        self.put("config", Nomad().config() + "\n")

    def put(self, name, text):
        write(os.path.join(self.folder, name), text.encode())

    def end(self, command):
        """Runs a command of the unit over files in the folder of the test. Returns the status, the output and
        the errors."""
        unit = Unit(UNITS[0])
        script = unit.script(command)
        for option, name in ("--tables", "/volumes.db"), ("--config", "/config"):
            script = script.replace(value(unit.words(), option), self.folder + name)
        out, error, status = run(["sh", "-c", script.replace("/usr/local/bin/csid", self.csid)])
        return status, out.decode(), error.replace(self.folder, "")

    def make(self):
        words = ["pipe", "--tables", self.folder + "/volumes.db", "--config", self.folder + "/config"]
        self.assertEqual(run([self.csid, *words], input=b""), (b"", "", 0))

    def test_missing_file_is_not_made_and_the_unit_that_makes_it_is_named(self):
        status, _, line = self.end(self.find)
        self.assertEqual(status, 1)
        self.assertIn("systemctl start csid-new ", line)
        self.assertFalse(os.path.exists(self.folder + "/volumes.db"))

    def test_log_alone_is_left_to_the_check(self):
        self.put("volumes.db-wal", "changes")
        self.assertEqual(self.end(self.find), (0, "", ""))

    def test_tables_are_summarized(self):
        self.make()
        has = "volumes 0, attachments 0, next number 1, format 2\n"
        self.assertEqual((self.end(self.find), self.end(self.judge)), ((0, "", ""), (0, has, "")))

    def test_configuration_that_is_refused_is_left_to_csid(self):
        self.make()
        self.put("config", "")
        self.assertEqual(self.end(self.judge), (0, "", "csid: /config: the key 'name' is missing\n"))

    def test_tables_that_are_refused_end_the_start(self):
        self.put("volumes.db", "mine")
        status, _, line = self.end(self.judge)
        self.assertEqual((status, line[:19]), (1, "csid: /volumes.db: "))

    def test_tables_that_are_refused_end_the_start_also_next_to_a_log(self):
        self.make()
        self.put("volumes.db", "mine")
        status, _, line = self.end(self.judge)
        self.assertEqual((status, line[:19]), (1, "csid: /volumes.db: "))


class CheckInPodTest(ProgramTest):
    """The init container of the manifest prevents a start with a configuration or a file that csid refuses.
    """

    def setUp(self):
        super().setUp()
        manifest = Kubernetes()
        pod = self.enterContext(Pod(self.folder, manifest, {"csid": self.csid}))
        self.config = self.folder + "/etc/csid/config.toml"
        self.tables = self.folder + "/var/lib/csid/volumes.db"
        self.words = [pod.below(word) for word in plain(manifest.first["check"]["command"])]
        self.words[0] = self.csid
        pod.first_step()

    def ends(self):
        out, line, status = run(self.words)
        return out.decode(), line.replace(self.folder, ""), status

    def test_file_that_csid_takes_is_summarized(self):
        has = "volumes 0, attachments 0, next number 1, format 2\n"
        self.assertEqual(self.ends(), (has, "", 0))

    def test_missing_file_is_refused(self):
        for suffix in "", "-wal":
            os.unlink(self.tables + suffix)
        out, line, status = self.ends()
        self.assertEqual((out, line[:27], status), ("", "csid: /var/lib/csid/volumes", 4))
        self.assertFalse(os.path.exists(self.tables))

    def test_other_file_is_refused(self):
        write(self.tables, b"mine")
        self.assertEqual(self.ends()[2], 4)

    def test_configuration_is_refused(self):
        write(self.config, b"")
        self.assertEqual(self.ends(), ("", "csid: /etc/csid/config.toml: the key 'name' is missing\n", 3))


class ProcessesTest(ProgramTest):
    """The commands of the manifests as first processes of namespaces. Folders and programs differ."""

    def test_first_processes(self):
        """csid and the front, each as the first process of a namespace, end by SIGTERM."""
        need_namespaces()
        manifest = Kubernetes()
        for name, socket in [("csid", "/run/csid/csid.sock"), ("front", "/csi/csi.sock")]:
            with tempfile.TemporaryDirectory() as folder, Pod(
                folder, manifest, {"csid": self.csid, "front": self.front}
            ) as pod:
                if name == "csid":
                    pod.first_step()
                pod.start(name)
                wait(lambda: os.path.exists(folder + socket))
                self.check(name + " ends by SIGTERM", pod.ends(name), True)

    def test_processes_over_etcd(self):
        """The commands of a pod over etcd: csid-etcd without etcd, and csid and the front over a played
        change store. The front waits for less time here."""
        need_namespaces()
        manifest = Kubernetes(ETCD_MANIFEST)
        with tempfile.TemporaryDirectory() as folder, Pod(
            folder, manifest, {"csid-etcd": self.csid_etcd}
        ) as pod:
            path = folder + value(manifest.containers["csid-etcd"]["command"], "--listen")
            pod.start("csid-etcd", {"$(ENDPOINTS)": "127.0.0.1:1", "$(POD_NAME)": "csid-0"})
            self.check("csid-etcd makes its socket without etcd", wait(lambda: os.path.exists(path)), True)
            self.check("it ends by SIGTERM", (pod.ends("csid-etcd"), os.path.exists(path)), (True, False))
        over_log(self.csid)
        with tempfile.TemporaryDirectory() as folder, Pod(
            folder, manifest, {"csid": self.csid, "front": self.front}
        ) as pod:
            self.check_takeover(pod, folder + value(plain(manifest.containers["csid"]["command"]), "--log"))

    def check_takeover(self, pod, path):
        """The front's socket exists while csid serves, and csid serves while it has its change store."""
        backend, endpoint = pod.folder + "/run/csid/csid.sock", pod.folder + "/csi/csi.sock"
        shorter = {value(pod.manifest.containers["front"]["command"], "--standby"): "1s"}
        pod.start("csid")
        pod.start("front", shorter)
        self.check("csid makes its socket without a log", wait(lambda: os.path.exists(backend)), True)
        time.sleep(1.5)
        self.check("the front makes none before csid serves", os.path.exists(endpoint), False)
        log = KeptChangeStore(path)
        self.assertTrue(wait(lambda: os.path.exists(endpoint)), "the front makes a socket")
        self.check("csid made its first row", log.rows(), ([], [], [(1, 2, 1)]))
        log.end()
        self.check("without the log the front ends", wait(lambda: pod.processes["front"].poll() is not None),
                   True)
        self.check("by itself, and takes its socket away",
                   (pod.processes["front"].returncode, os.path.exists(endpoint)), (3, False))
        pod.start("front", shorter)
        log = KeptChangeStore(path)
        self.check("and serves again once the log is back", wait(lambda: os.path.exists(endpoint)), True)
        for name in ["front", "csid"]:
            self.check(name + " over a log ends by SIGTERM", pod.ends(name), True)
        log.end()
