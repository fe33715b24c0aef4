"""Applies the manifest: as a dry run, in earnest, and again."""

import json
import re

from tests.kubernetes.manifest import (NEW, bare, by_kind, changed, leaves, missing, misspelt, original, said)
from tests.kubernetes.refused import refused_rows


def try_rows(cluster, others, number, replaced):
    """Dry runs of the manifest `others`, which has this number of objects besides its namespace. `replaced`
    has the parts that were replaced for an older server. If there are such parts, the server must refuse the
    original manifest."""
    status, lines, why = cluster.kubectl("apply", "--dry-run=server", "--validate=true", text=others)
    wanted = 0, ["created (server dry run)"] * number, ""
    yield "a try of the manifest", (status, said(lines), why), wanted
    if replaced:
        rest = original().split("\n---\n", 1)[1]
        status, _, why = cluster.kubectl("apply", "--dry-run=server", "--validate=true", text=rest)
        known = re.search("no matches for kind|unknown field|Unsupported value", why) is not None
        yield "as it stands the older server does not take it", (status != 0, known), (True, True)
    status, lines, why = cluster.kubectl("apply", "--server-side", "--dry-run=server", text=others)
    wanted = 0, ["serverside-applied (server dry run)"] * number, ""
    yield "a try by the server's own schema", (status, said(lines), why), wanted
    names = cluster.kubectl("get", "--ignore-not-found", "-o", "name", text=others)[1]
    yield "a try makes nothing", names, ""


def read_back_rows(cluster, text, meant, found):
    """Each object has each value of the manifest when it is read back. The comparison also finds a field that
    a server drops silently."""
    kinds = [[one["kind"] for one in objects] for objects in (found, meant)]
    yield "what is read back are its objects", *kinds
    for want, one in zip(meant, found):
        name = want["kind"], want["metadata"]["name"], leaves(want)
        yield "%s %s is read back with its %d leaves" % name, missing(want, one), []
    account = misspelt(by_kind(text)["ServiceAccount"], "metadata.namespace", "namespac")
    wrong = changed(account, "metadata.name", "other")
    words = "create --dry-run=server --validate=false -n csid -o json".split()
    dropped = json.loads(cluster.kubectl(*words, text=json.dumps(wrong))[1])
    yield "a field that is dropped is found", missing(wrong, dropped), [".metadata.namespac"]


def again_rows(cluster, text, found):
    # kubectl reports a StatefulSet with claims as configured each time, since the server adds defaults to the
    # claims.
    again = cluster.kubectl("apply", text=text)[0], cluster.kubectl("diff", text=text)[:2]
    yield "applied again", again, (0, (0, ""))
    objects = [[bare(one) for one in objects] for objects in (cluster.read_back(text), found)]
    yield "it is as it was", *objects
    lines = cluster.kubectl("apply", text=text.replace(NEW, ""))[1]
    yield "the key of the first step is taken away", "configmap/csid configured" in lines, True
    data = cluster.get("/api/v1/namespaces/csid/configmaps/csid")["data"]
    yield "and is gone", sorted(data), ["config.toml"]


def applied_rows(cluster, text, replaced):
    namespace, others = text.split("\n---\n", 1)
    meant = list(by_kind(text).values())
    # The other objects need the namespace even in a dry run.
    yield "the namespace is made", said(cluster.kubectl("apply", text=namespace)[1]), ["created"]
    yield from refused_rows(cluster, text)
    yield from try_rows(cluster, others, len(meant) - 1, replaced)
    status, lines, why = cluster.kubectl("apply", "--validate=true", text=text)
    wanted = 0, ["unchanged"] + ["created"] * (len(meant) - 1), ""
    yield "the manifest is applied", (status, said(lines), why), wanted
    found = cluster.read_back(text)
    yield from read_back_rows(cluster, text, meant, found)
    yield from again_rows(cluster, text, found)
