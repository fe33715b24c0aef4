"""The crates of the repository, and folders in which crates are checked side by side.

A run of rt locks the folders that it reads. So each of several runs gets a folder of its own, with links to
the files of the crates that it reads, and to their built libraries.
"""
import os
import pathlib
import shutil

PARTS = ("src", "specs", "proofs")
# The memory for a check of the largest crates, in bytes.
CHECK_BYTES = 4_000_000_000


def read_crates():
    """Returns the lines of crates.txt by crate, and for each crate the crates of this repository that it
    uses."""
    with open("crates.txt", encoding="utf-8") as file:
        lines = [line.strip() for line in file if line.partition("#")[0].strip()]
    named = {line.partition(":")[0].split()[0]: line for line in lines}
    words = {name: line.partition(":")[2].split() for name, line in named.items()}
    return named, {name: [it for it in used if it in named] for name, used in words.items()}


def below(name, uses):
    """Returns the crates that a crate uses, directly or not, the lowest first."""
    found = []
    for used in uses[name]:
        found += [it for it in [*below(used, uses), used] if it not in found]
    return found


def with_below(names, uses):
    """Returns these crates and all crates that they use, the lowest first."""
    found = []
    for name in names:
        found += [it for it in [*below(name, uses), name] if it not in found]
    return found


def weight(name):
    """Returns the number of lines in a crate's files, as an estimate of the time of its proof."""
    lines = 0
    for part in PARTS:
        for at, _, names in os.walk(f"crates/{name}/{part}"):
            for it in names:
                lines += pathlib.Path(f"{at}/{it}").read_bytes().count(b"\n")
    return lines


def is_program(name):
    return os.path.isfile(f"crates/{name}/src/main.rt")


def lanes_for():
    """Returns the number of checks to run side by side: one for each processor, but not more than fit into
    free memory."""
    with open("/proc/meminfo", encoding="ascii") as file:
        free = next(int(line.split()[1]) * 1024 for line in file if line.startswith("MemAvailable:"))
    return max(1, min(len(os.sched_getaffinity(0)), free // CHECK_BYTES))


def link(source, to):
    """Makes a folder with links to another folder's files, or with copies if links are impossible."""
    try:
        shutil.copytree(source, to, copy_function=os.link)
    except (OSError, shutil.Error):
        shutil.rmtree(to, ignore_errors=True)
        shutil.copytree(source, to)


def make_stage(stage, name, lines, uses):
    """Makes a folder with all crates that a crate uses, as they are built. Makes in it an empty folder for
    the crate itself, and returns the path of this folder."""
    room = f"{stage}/crates/{name}"
    os.makedirs(room)
    with open(f"{stage}/crates.txt", "w", encoding="utf-8") as file:
        file.write("".join(f"{lines[it]}\n" for it in with_below([name], uses)))
    if os.path.isfile("HANDLES"):
        shutil.copy("HANDLES", stage)
    for used in below(name, uses):
        for part in (*PARTS, "out/rlib"):
            if os.path.isdir(f"crates/{used}/{part}"):
                link(f"crates/{used}/{part}", f"{stage}/crates/{used}/{part}")
    return room
