"""Starts etcd, an API server and the controllers, in a folder."""

import http.client
import json
import os
import pathlib
import re
import socket
import ssl
import subprocess
import sys
import time

# The seconds to wait for an event. If a pod found no room, the scheduler tries it again after 60 to 90
# seconds.
SECONDS = 120
# Before the first of these versions of Kubernetes, storage capacity must be enabled. Before the second, a
# port without authentication must be disabled.
CAPACITY, ONE_PORT = (1, 21), (1, 23)
# The controllers, but not the controllers that judge a node by the reports of a kubelet.
CONTROLLERS = """
    statefulset disruption serviceaccount serviceaccount-token root-ca-cert-publisher garbagecollector
    persistentvolume-binder attachdetach pvc-protection pv-protection
""".split()


class LeftOut(Exception):
    """A row that needs a program or file that is missing."""


def free_port():
    with socket.socket() as one:
        one.bind(("127.0.0.1", 0))
        return one.getsockname()[1]


def wait(happens):
    """Calls `happens` until its result is true, or the time is over. Returns the last result."""
    end = time.monotonic() + SECONDS
    while True:
        found = happens()
        if found or time.monotonic() > end:
            return found
        time.sleep(0.2)


def version_of(program):
    said = subprocess.run([program, "--version"], capture_output=True, text=True).stdout
    return tuple(map(int, re.search(r"(\d+)\.(\d+)", said).groups()))


def need_pods(cluster):
    if not cluster.has_pods():
        raise LeftOut("no kube-controller-manager and no kube-scheduler are given")


class Cluster:
    """The servers of a cluster, and requests to them from the administrator or another user."""

    def __init__(self, folder, programs):
        self.folder, self.programs, self.processes = folder, programs, []
        self.version = version_of(programs[1])
        self.gates = ["--feature-gates=CSIStorageCapacity=true"] if self.version < CAPACITY else []
        self.port = free_port()
        self.address = "https://127.0.0.1:%d" % self.port

    def begin(self):
        """Starts the servers, each with a log in the folder, and waits for the API server. The controllers
        are started only if their programs are given. Ends the script if the API server does not get ready."""
        self.certify()
        self.start_servers()
        if not wait(self.is_ready):
            said = pathlib.Path(self.path("1.log")).read_text()[-2000:]
            sys.exit("tests/kubernetes: the API server does not get ready: " + said)
        if self.has_pods():
            self.start_controllers()

    def start_servers(self):
        """Starts etcd and the API server."""
        client, peer = ("http://127.0.0.1:%d" % free_port() for _ in range(2))
        self.start(0, *["--data-dir", self.path("etcd"), "--initial-cluster", "default=" + peer],
                   *["--listen-client-urls", client, "--advertise-client-urls", client],
                   *["--listen-peer-urls", peer, "--initial-advertise-peer-urls", peer])
        self.start(1, "--etcd-servers=" + client, "--bind-address=127.0.0.1", "--advertise-address=127.0.0.1",
                   "--secure-port=%d" % self.port, "--endpoint-reconciler-type=none",
                   "--authorization-mode=RBAC", "--service-cluster-ip-range=10.0.0.0/24",
                   "--tls-cert-file=" + self.path("server.crt"),
                   "--tls-private-key-file=" + self.path("server.key"),
                   "--client-ca-file=" + self.path("ca.crt"), "--service-account-issuer=" + self.address,
                   "--service-account-key-file=" + self.path("accounts.pub"),
                   "--service-account-signing-key-file=" + self.path("accounts.key"), *self.gates,
                   *(["--runtime-config=storage.k8s.io/v1alpha1=true"] if self.gates else []))

    def start_controllers(self):
        """Starts the controller manager and the scheduler."""
        common = ["--kubeconfig=" + self.path("config"), "--leader-elect=false", "--bind-address=127.0.0.1",
                  *self.gates, *(["--port=0"] if self.version < ONE_PORT else [])]
        self.start(3, *common, "--service-account-private-key-file=" + self.path("accounts.key"),
                   "--root-ca-file=" + self.path("ca.crt"), "--secure-port=%d" % free_port(),
                   "--cert-dir=" + self.path("3"), "--controllers=" + ",".join(CONTROLLERS))
        self.start(4, *common, "--secure-port=%d" % free_port(), "--cert-dir=" + self.path("4"))

    def has_pods(self):
        return len(self.programs) == 5

    def path(self, name):
        return os.path.join(self.folder, name)

    def start(self, number, *words):
        command = [self.programs[number], *words]
        with open(self.path("%d.log" % number), "w") as log:
            streams = {"stdin": subprocess.DEVNULL, "stdout": log, "stderr": log}
            self.processes.append(subprocess.Popen(command, cwd=self.folder, **streams))

    def end(self):
        for process in reversed(self.processes):
            process.terminate()
            try:
                process.wait(timeout=SECONDS)
            except subprocess.TimeoutExpired:
                process.kill()
                process.wait()

    def openssl(self, words):
        command = ["openssl", *words.split()]
        subprocess.run(command, cwd=self.folder, check=True, capture_output=True)

    def certify(self):
        """Makes certificates, keys and configurations of kubectl. One configuration has no credentials."""
        self.openssl("req -x509 -newkey rsa:2048 -nodes -days 2 -subj /CN=ca -keyout ca.key -out ca.crt")
        self.sign("server", "/CN=kube-apiserver", "subjectAltName=IP:127.0.0.1")
        self.sign("admin", "/O=system:masters/CN=admin", "extendedKeyUsage=clientAuth")
        self.openssl("genrsa -out accounts.key 2048")
        self.openssl("rsa -in accounts.key -pubout -out accounts.pub")
        certificate, key = self.path("admin.crt"), self.path("admin.key")
        self.configure("config", {"client-certificate": certificate, "client-key": key})
        self.configure("nobody", {})
        self.tls = ssl.create_default_context(cafile=self.path("ca.crt"))
        self.tls.load_cert_chain(certificate, key)

    def sign(self, name, subject, extension):
        """Makes a key, and a certificate of it from the CA."""
        pathlib.Path(self.path("extension")).write_text(extension)
        files = "-keyout %s.key -out %s.csr" % (name, name)
        self.openssl("req -newkey rsa:2048 -nodes -subj %s %s" % (subject, files))
        files = "-in %s.csr -extfile extension -out %s.crt" % (name, name)
        self.openssl("x509 -req -days 2 -CA ca.crt -CAkey ca.key -CAcreateserial " + files)

    def configure(self, name, user):
        """Writes a configuration of kubectl for a user."""
        cluster = {"server": self.address, "certificate-authority": self.path("ca.crt")}
        config = {
            "apiVersion": "v1",
            "kind": "Config",
            "current-context": "c",
            "contexts": [{"name": "c", "context": {"cluster": "c", "user": "u"}}],
            "clusters": [{"name": "c", "cluster": cluster}],
            "users": [{"name": "u", "user": user}],
        }
        with open(self.path(name), "w") as file:
            json.dump(config, file)

    def ask(self, method, path, body=None, user=None):
        """Sends a request as the administrator, or as another user. Returns the status, and the object of the
        answer, or its text if it is no object."""
        options = {"context": self.tls, "timeout": SECONDS}
        connection = http.client.HTTPSConnection("127.0.0.1", self.port, **options)
        kind = "application/merge-patch+json" if method == "PATCH" else "application/json"
        headers = {"Content-Type": kind, "Accept": "application/json"}
        if user:
            headers["Impersonate-User"] = user
        connection.request(method, path, None if body is None else json.dumps(body), headers)
        answer = connection.getresponse()
        text = answer.read().decode()
        connection.close()
        return answer.status, json.loads(text) if text.startswith("{") else text

    def get(self, path):
        """Returns the object at a path, or None."""
        status, answer = self.ask("GET", path)
        return answer if status == 200 else None

    def is_ready(self):
        try:
            return self.ask("GET", "/readyz")[0] == 200
        except OSError:
            return False

    def kubectl(self, *words, text=None, config="config"):
        """Runs kubectl, with a text as its input file. Returns its status, output and errors."""
        variables = {**os.environ, "KUBECONFIG": self.path(config), "HOME": self.folder}
        words += ("-f", "-") if text is not None else ()
        options = {"env": variables, "capture_output": True, "text": True, "timeout": SECONDS}
        done = subprocess.run([self.programs[2], *words], input=text, **options)
        return done.returncode, done.stdout, done.stderr

    def read_back(self, text):
        return json.loads(self.kubectl("get", "-o", "json", text=text)[1])["items"]

    def try_create(self, document, validate):
        """Creates an object in a dry run by kubectl. Returns its status, output and errors."""
        words = ["create", "--dry-run=server", "--validate=" + validate]
        return self.kubectl(*words, text=json.dumps(document))
