"""The server refuses objects with a misspelt field or a wrong value."""

import json
import re

from tests.kubernetes.claim import CLAIM
from tests.kubernetes.manifest import GONE, by_kind, changed, misspelt, pod_alone, said
from tests.support.data import tables

# The server's words about a misspelt field.
UNKNOWN = "unknown field"
ROWS = tables("kubernetes", globals())


def tries_of(kinds):
    """Returns the dry runs: each with its kind, its description, the object, kubectl's own check ("true" or
    "false"), and a pattern of the refusal."""
    tries = [(kind, "%s for %s" % (wrong, path), misspelt(kinds[kind], path, wrong), "true", UNKNOWN)
             for kind, path, wrong in ROWS["MISSPELT"]]
    # kubectl does not check types here, so the server must refuse the object.
    for kind, path, value, pattern in ROWS["WRONG"]:
        what = "no " + path if value is GONE else "%s: %s" % (path, json.dumps(value))
        tries.append((kind, what, changed(kinds[kind], path, value), "false", pattern))
    return tries


def refused_rows(cluster, text):
    kinds = {**by_kind(text), **by_kind(CLAIM)}
    kinds["PodTemplate"] = pod_alone(kinds["StatefulSet"])
    yield "each kind has a misspelt field", {kind for kind, _, _ in ROWS["MISSPELT"]}, set(kinds)
    yield "and a wrong value", {kind for kind, _, _, _ in ROWS["WRONG"]}, set(kinds)
    for kind in ["PersistentVolumeClaim", "PodTemplate"]:
        status, lines, why = cluster.try_create(kinds[kind], "true")
        found = status, said(lines), why
        yield "%s is taken as it is" % kind, found, (0, ["created (server dry run)"], "")
    for kind, what, document, validate, pattern in tries_of(kinds):
        status, lines, why = cluster.try_create(document, validate)
        is_refused = status != 0 and re.search(pattern, why)
        found = "refused" if is_refused else lines + why
        yield "%s is refused with %s" % (kind, what), found, "refused"
