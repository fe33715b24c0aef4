"""Runs Docker Swarm over the plugin of deploy/swarm.json: csid, the front and the example node plugin.

python3 -m tests.swarm ROOT

ROOT is a Debian root with Docker 23 or newer, which is not changed. debootstrap makes it in some minutes,
with 600 MB:

    debootstrap --variant=minbase --include=docker.io,docker-cli,tini,e2fsprogs,mount sid ROOT

Prints a line for each check. The last line is 'N checks passed, M failed', and the exit status is 0 only if
none failed. The first failed check ends the script. It takes about two minutes, and is called by hand. It
needs root, namespaces, overlayfs, loop devices and cgroups at /sys/fs/cgroup, and says what is missing. CSID,
FRONT and NODE_PLUGIN name other programs than the built ones.

dockerd runs in its own namespaces over a temporary folder: neither Docker nor a network of this machine is
used, and its processes, mounts and loop devices end with the script.

- life: a volume is created, attached to a service, written, read by its next task, detached and deleted
- forms: the access modes and parameters that csid keeps for the options of Docker
- pool: 9 volumes for a pool with room for 7
- kills: csid is killed 8 times while 30 volumes are created; then Swarm, csid and the loop devices agree
"""
