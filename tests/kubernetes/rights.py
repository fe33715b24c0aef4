"""Checks the rights of the pod's account."""

from tests.kubernetes.manifest import ACCOUNT, OTHER
from tests.support.data import tables

ROWS = tables("kubernetes-rights", {})
# What the account may (True) or may not (False) read with its token.
GETS = [
    ("persistentvolumes", True),
    ("csistoragecapacities -n csid", True),
    ("secrets -n csid", False),
    ("csistoragecapacities -n default", False),
]


def rules(cluster, user, namespace):
    """Returns all rights of a user in a namespace, each as a group, a resource and a verb."""
    body = {
        "apiVersion": "authorization.k8s.io/v1",
        "kind": "SelfSubjectRulesReview",
        "spec": {"namespace": namespace},
    }
    path = "/apis/authorization.k8s.io/v1/selfsubjectrulesreviews"
    review = cluster.ask("POST", path, body, user)[1]
    return {(group, resource, verb)
            for rule in review["status"]["resourceRules"]
            for group in rule["apiGroups"]
            for resource in rule["resources"]
            for verb in rule["verbs"]}


def can(cluster, group, resource, verb, namespace):
    """Returns kubectl's answer if the account has a right: yes or no."""
    name, _, part = resource.partition("/")
    kind = name + ("." + group if group else "")
    subresource = ["--subresource=" + part] if part else []
    words = [verb, kind, "--as=" + ACCOUNT, "--namespace=" + namespace, *subresource]
    return cluster.kubectl("auth", "can-i", *words)[1].strip()


def said_rows(cluster, may):
    """Asks kubectl about each right alone. The account has the rights of its roles, the rights of the Role
    only in the namespace csid, and no right of "MUST NOT"."""
    for role, namespace in [("ClusterRole", "default"), ("Role", "csid")]:
        for group, resource, verb in sorted(may[role]):
            found = can(cluster, group, resource, verb, namespace)
            yield "may %s %s in %s" % (verb, resource, namespace), found, "yes"
    for group, resource, verb in sorted(may["Role"]):
        found = can(cluster, group, resource, verb, "default")
        yield "may not %s %s in default" % (verb, resource), found, "no"
    for resource, group, verbs in ROWS["MUST NOT"]:
        for verb in verbs.split():
            found = can(cluster, group, resource, verb, "csid")
            yield "may not %s %s" % (verb, resource), found, "no"


def rights_rows(cluster):
    may = {role: {(group, resource, verb) for resource, group, verbs in ROWS[role] for verb in verbs.split()}
           for role in ("ClusterRole", "Role")}
    yield from said_rows(cluster, may)
    for namespace, rights in [("csid", may["ClusterRole"] | may["Role"]), ("default", may["ClusterRole"])]:
        # Rights that each account has are not from the manifest.
        has = rules(cluster, ACCOUNT, namespace) - rules(cluster, OTHER, namespace)
        differences = sorted(has - rights), sorted(rights - has)
        yield "has in %s no further right, and lacks none" % namespace, differences, ([], [])
    yield from token_rows(cluster)


def token_rows(cluster):
    body = {
        "apiVersion": "authentication.k8s.io/v1",
        "kind": "TokenRequest",
        "spec": {"expirationSeconds": 600},
    }
    path = "/api/v1/namespaces/csid/serviceaccounts/csid/token"
    status, answer = cluster.ask("POST", path, body)
    yield "the account has a token", status, 201
    for words, may in GETS:
        token = "--token=" + answer["status"]["token"]
        status, _, why = cluster.kubectl(token, "get", *words.split(), config="nobody")
        found = status == 0, "Forbidden" in why
        yield "with it %s get %s" % ("may" if may else "may not", words), found, (may, not may)
