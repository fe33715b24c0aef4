"""The objects of the manifest, in the form for a server, and as they are read back."""

import copy
import os
import pathlib

import yaml

TOP = os.path.dirname(os.path.dirname(os.path.dirname(os.path.abspath(__file__))))
MANIFEST = os.path.join(TOP, "deploy", "kubernetes.yaml")
ACCOUNT, OTHER = "system:serviceaccount:csid:csid", "system:serviceaccount:csid:other"
DRIVER, ZONE = "pools.example.org", "topology.pools.example.org/zone"
# For each part of the manifest that older servers do not know: the first version that knows it, and its
# replacement.
LATER = [
    ((1, 21), "apiVersion: policy/v1\n", "apiVersion: policy/v1beta1\n"),
    ((1, 27), "  unhealthyPodEvictionPolicy: AlwaysAllow\n", ""),
    ((1, 27), "accessModes: [ReadWriteOncePod]\n", "accessModes: [ReadWriteOnce]\n"),
]
POLICY, UNHEALTHY = LATER[0][0], LATER[1][0]
# A line of the manifest that is removed after the first start, its image, and another image.
NEW = '  new: "yes"\n'
IMAGE, NEWER = "registry.example.org/csid:1", "registry.example.org/csid:2"
# In place of a value, this leaves the field out.
GONE = object()


def original():
    return pathlib.Path(MANIFEST).read_text()


def manifest(version):
    """Returns the manifest for a server of this version, and the list of its replacements."""
    text, replaced = original(), []
    for since, own, instead in LATER:
        assert text.count(own) == 1, own
        if version < since:
            text = text.replace(own, instead)
            replaced.append("replaced before a server older than %d.%d: %s by %s" % (*since, own.strip(),
                                                                                     instead.strip()
                                                                                     or "nothing"))
    return text, replaced


def by_kind(text):
    return {document["kind"]: document for document in yaml.safe_load_all(text)}


def pod_alone(whole):
    """Returns a PodTemplate with the pod of a StatefulSet, and with its claims as volumes."""
    template = copy.deepcopy(whole["spec"]["template"])
    claims = [claim["metadata"]["name"] for claim in whole["spec"]["volumeClaimTemplates"]]
    template["spec"]["volumes"] += [{"name": name, "persistentVolumeClaim": {"claimName": name}}
                                    for name in claims]
    kind = {"apiVersion": "v1", "kind": "PodTemplate"}
    return {**kind, "metadata": whole["metadata"], "template": template}


def place(document, path):
    """Returns the object or list that has the last key of a path, and this key. The keys have dots between
    them. A key of digits is an index of a list."""
    words = [int(word) if word.isdigit() else word for word in path.split(".")]
    for word in words[:-1]:
        document = document[word]
    return document, words[-1]


def misspelt(document, path, wrong):
    """Returns an object with a misspelt field. Its name stays, since kubectl needs one."""
    document = copy.deepcopy(document)
    holder, name = place(document, path)
    holder[wrong] = holder[name] if path == "metadata.name" else holder.pop(name)
    return document


def changed(document, path, value):
    """Returns a copy of an object with another value of the field at `path`, or without this field if the
    value is GONE."""
    document = copy.deepcopy(document)
    holder, name = place(document, path)
    if value is GONE:
        del holder[name]
    else:
        holder[name] = value
    return document


def leaves(meant):
    """Returns the number of values in an object. An empty list or object is one value."""
    if isinstance(meant, (dict, list)) and meant:
        return sum(map(leaves, meant.values() if isinstance(meant, dict) else meant))
    return 1


def missing(meant, found, path=""):
    """Returns the paths at which an object differs from the manifest. The server may add values."""
    if isinstance(meant, dict) and isinstance(found, dict):
        parts = [(key, meant[key], found.get(key, GONE)) for key in meant]
    elif isinstance(meant, list) and isinstance(found, list) and len(meant) == len(found):
        parts = [(str(at), *pair) for at, pair in enumerate(zip(meant, found))]
    else:
        return [] if meant == found else [path]
    return [place for key, *pair in parts for place in missing(*pair, path + "." + key)]


def bare(one):
    """Returns an object without its metadata and status, and its generation, or None if it has no generation.
    """
    own = {key: value for key, value in one.items() if key not in ("metadata", "status")}
    return own, one["metadata"].get("generation")


def said(lines):
    """Returns kubectl's word for each object, such as 'created', without the object's name."""
    return [line.split(" ", 1)[1] for line in lines.strip().split("\n") if " " in line]


def condition(one, kind):
    return next((c for c in one.get("status", {}).get("conditions", []) if c["type"] == kind), {})
