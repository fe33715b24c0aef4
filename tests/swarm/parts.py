"""Yields the checks: each has a name, a function, and the value that the function must return."""

import time

GREETING = "hello"
# The scope, the sharing and the type of a volume, and the access mode that csid keeps.
FORMS = [
    ("single", "none", "mount", "SINGLE_NODE_WRITER"),
    ("single", "readonly", "mount", "SINGLE_NODE_READER_ONLY"),
    ("single", "onewriter", "mount", "SINGLE_NODE_WRITER"),
    ("single", "all", "mount", "SINGLE_NODE_WRITER"),
    ("multi", "readonly", "mount", "MULTI_NODE_READER_ONLY"),
    ("multi", "onewriter", "block", "MULTI_NODE_SINGLE_WRITER"),
    ("multi", "all", "block", "MULTI_NODE_MULTI_WRITER"),
]
# Volumes that csid refuses: a file system is mounted at several nodes, and one or all of them may write.
UNSUPPORTED = [("multi", "onewriter", "mount", None), ("multi", "all", "mount", None)]
KILLS, CREATES = 8, 30


def refused(swarm, *names):
    """Returns Docker's answer to a removal that it refuses, or '' if it removes the volume."""
    try:
        swarm.remove(*names)
    except RuntimeError as why:
        return str(why)
    return ""


def replaced(swarm, service):
    """Makes Docker replace the task of a service. Returns a function that returns True once the new task
    runs."""
    former = swarm.container(service)
    swarm.docker("service", "update", "--detach", "--force", service)
    return lambda: swarm.container(service) not in ("", former)


def begin_checks(swarm):
    swarm.begin()
    yield "the node has its id and its limit", swarm.node, ("csid:latest", "n1", 2)


def attached_checks(swarm):
    """A volume is created, attached and written."""
    swarm.create("data", 32)
    yield "a volume is created", swarm.volumes, {"data": "vol-1"}
    yield "csid has it with its size", lambda: swarm.rows()["data"]["bytes"], 32 << 20
    yield "it is attached nowhere", swarm.attached, {}
    swarm.serve("user", "data")
    yield "a service with it runs", lambda: swarm.states("user"), ["Running"]
    yield "csid has it attached at the node", swarm.attached, {"vol-1": ["n1"]}
    yield "it is one loop device", swarm.devices, ["vol-1"]
    yield "its file system is ext4", lambda: swarm.execute("user", "findmnt -no FSTYPE /data"), "ext4"
    swarm.execute("user", "echo %s > /data/greeting" % GREETING)
    yield "what is written is read", lambda: swarm.execute("user", "cat /data/greeting"), GREETING
    yield "a removal is refused", lambda: "in use" in refused(swarm, "data"), True
    yield "and removes nothing", swarm.kept, {"data": "vol-1"}


def moved_checks(swarm):
    """The task of the service is replaced, and the node is drained."""

    def read():
        return swarm.execute("user", "cat /data/greeting")

    def states():
        return swarm.states("user")

    yield "the task is replaced", replaced(swarm, "user"), True
    yield "the next task reads what was written", read, GREETING
    swarm.engine.kill("node-plugin")
    yield "it is replaced after the node plugin was killed", replaced(swarm, "user"), True
    yield "that task reads it", read, GREETING
    swarm.docker("service", "scale", "--detach", "user=2")
    yield "a second task waits", states, ["Pending", "Running"]
    swarm.docker("service", "scale", "--detach", "user=1")
    yield "one task is left", states, ["Running"]
    swarm.make("drain")
    yield "a drained node has no task", states, ["Pending"]
    yield "csid has the volume detached", swarm.attached, {}
    swarm.make("active")
    yield "an active node has a task again", states, ["Running"]
    yield "this task reads it", read, GREETING
    yield "the volume is still one loop device", swarm.devices, ["vol-1"]


def removed_checks(swarm):
    swarm.docker("service", "rm", "user")
    yield "without the service it is detached", swarm.attached, {}
    yield "Swarm leaves it staged", swarm.devices, ["vol-1"]
    swarm.unstage("data")
    yield "unstaged by hand it is no loop device", swarm.devices, []
    swarm.remove("data")
    yield "it is removed", swarm.both, ({}, {})


def life_checks(swarm):
    yield from attached_checks(swarm)
    yield from moved_checks(swarm)
    yield from removed_checks(swarm)


def form_checks(swarm):
    for scope, sharing, kind, _ in FORMS + UNSUPPORTED:
        name = "-".join([scope, sharing, kind])
        swarm.create(name, 1, "--opt", "tier=fast", kind=kind, scope=scope, sharing=sharing)
    names = ["-".join(form[:3]) for form in FORMS]
    yield "volumes of each supported form are created", lambda: sorted(swarm.created()), sorted(names)
    yield "csid has the same", swarm.agree, True
    for name, form in zip(names, FORMS):
        row = swarm.rows()[name]
        found = [(each["access"], each["mode"]) for each in row["capabilities"]], row["parameters"]
        yield "%s, with an option" % name, lambda: found, ([form[2:]], {"tier": "fast"})
    # Only with --force Swarm removes a volume that was never created.
    swarm.remove("--force", *("-".join(form[:3]) for form in UNSUPPORTED))
    swarm.remove(*names)
    yield "all are removed", swarm.both, ({}, {})


def pool_checks(swarm):
    names = ["full-%d" % number for number in range(9)]
    for name in names:
        swarm.create(name, 32)
    yield "7 of 9 volumes are created", lambda: len(swarm.created()), 7
    yield "csid has the same", swarm.agree, True
    swarm.remove(*list(swarm.created())[:2])
    yield "2 are removed, and 7 are left", lambda: len(swarm.volumes()), 7
    yield "all 7 are created", lambda: len(swarm.created()), 7
    yield "csid has the same 7", swarm.agree, True
    swarm.remove(*swarm.volumes())
    yield "all are removed", swarm.both, ({}, {})


def kill_checks(swarm):
    swarm.create("used", 1)
    swarm.serve("holder", "used")
    yield "a service with a volume runs", lambda: swarm.states("holder"), ["Running"]
    used = swarm.kept()["used"]
    names = ["kill-%d" % number for number in range(CREATES)]
    killed = kill_under_creates(swarm, names)
    yield "csid is killed", lambda: len(killed), KILLS
    yield "Swarm has each volume created", lambda: sorted(swarm.created()), sorted([*names, "used"])
    yield "csid has the same", swarm.agree, True
    yield "no two have one id", lambda: len(set(swarm.kept().values())), CREATES + 1
    yield "the volume of the service is attached", swarm.attached, {used: ["n1"]}
    yield "it is the one loop device", swarm.devices, [used]
    swarm.docker("service", "rm", "holder")
    yield "it is detached", swarm.attached, {}
    swarm.unstage("used")
    yield "no loop device is left", swarm.devices, []
    swarm.remove(*names, "used")
    yield "all are removed", swarm.both, ({}, {})


def kill_under_creates(swarm, names):
    """Kills csid several times while volumes are created. Returns the ids of the processes."""
    killed = set()
    for number in range(KILLS):
        for name in names[number::KILLS]:
            swarm.create(name, 1)
        time.sleep(number * 0.02)
        killed.add(swarm.engine.kill("csid"))
    return killed
