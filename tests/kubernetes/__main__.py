"""Runs the rows over the programs in the arguments."""

import importlib.util
import os
import shutil
import signal
import sys
import tempfile

if importlib.util.find_spec("yaml") is None:
    sys.exit("tests/kubernetes: python's yaml is not here")

from tests.kubernetes.applied import applied_rows
from tests.kubernetes.claim import claim_rows
from tests.kubernetes.cluster import Cluster, LeftOut
from tests.kubernetes.drain import drain_rows
from tests.kubernetes.manifest import manifest
from tests.kubernetes.pod import pod_rows
from tests.kubernetes.rights import rights_rows


def run(part):
    """Prints each row of a part. Returns the numbers of passed and of failed rows. An error in the part
    counts as a failed row."""
    passed = failed = 0
    try:
        for name, found, wanted in part:
            if found == wanted:
                passed += 1
                print("passed: " + name, flush=True)
            else:
                failed += 1
                print("failed: %s: %r, wanted %r" % (name, found, wanted), flush=True)
    except LeftOut as why:
        print("left out: %s: %s" % (part.__name__, why))
    except Exception as why:
        failed += 1
        print("failed: %s: what it looks for is not there: %r" % (part.__name__, why))
    return passed, failed


def run_all(cluster):
    cluster.begin()
    text, replaced = manifest(cluster.version)
    for line in replaced:
        print(line)
    parts = [
        applied_rows(cluster, text, replaced),
        rights_rows(cluster),
        pod_rows(cluster, text),
        claim_rows(cluster),
        drain_rows(cluster),
    ]
    counts = [run(part) for part in parts]
    return [sum(column) for column in zip(*counts)]


def main(words):
    if len(words) not in (3, 5):
        usage = "usage: python3 -m tests.kubernetes ETCD APISERVER KUBECTL [MANAGER SCHEDULER]"
        print(usage, file=sys.stderr)
        return 2
    programs = [os.path.abspath(shutil.which(word) or word) for word in words]
    for program in programs:
        if not os.access(program, os.X_OK):
            print("tests/kubernetes: no program at %s" % program, file=sys.stderr)
            return 2
    signal.signal(signal.SIGTERM, lambda *_: sys.exit(1))
    with tempfile.TemporaryDirectory() as folder:
        cluster = Cluster(folder, programs)
        try:
            passed, failed = run_all(cluster)
        finally:
            cluster.end()
    print("%d rows passed, %d failed" % (passed, failed))
    return 1 if failed else 0


if __name__ == "__main__":
    sys.exit(main(sys.argv[1:]))
