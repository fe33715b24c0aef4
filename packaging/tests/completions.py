"""Tests the completions: what bash offers after some words, and that all options of the programs are offered.
"""
import os
import re
import subprocess
import tempfile

from sources import TOP, read
from tests.helps import COMMON, options_of, values_of

# Loads the file of completions, and completes the last of the words after it.
COMPLETE = """
source "$1"
shift
COMP_WORDS=("$@")
COMP_CWORD=$((${#COMP_WORDS[@]} - 1))
function=$(complete -p "$1" | sed -n 's/^complete -F \\([a-z_]*\\) .*/\\1/p')
"$function"
printf '%s\\n' "${COMPREPLY[@]}"
"""


def offered(words, folder):
    path = os.path.join(TOP, "packaging", "completions", words[0])
    done = subprocess.run(["bash", "-c", COMPLETE, "bash", path, *words], capture_output=True, text=True,
                          cwd=folder)
    return done.stdout.split(), done.stderr


def word_rows():
    with tempfile.TemporaryDirectory() as folder:
        for name in ("volumes.db", "config.toml"):
            open(os.path.join(folder, name), "x").close()
        for row in read("packaging", "tests", "completions.txt").splitlines():
            line, stroke, wanted = row.partition(" |")
            if stroke:
                yield "after %r" % line, offered(line.split(" "), folder), (wanted.split(), "")


def option_rows(programs):
    for name, program in programs.items():
        for command, options in options_of(name, program).items():
            words = [name, *([command] if command else []), "--"]
            yield "the options of %s %s" % (name, command), sorted(
                set(offered(words, TOP)[0]) - COMMON
            ), sorted(options)


def value_rows(programs):
    """After an option with a value no option is offered, and after an option with a file or a socket files
    are offered."""
    with tempfile.TemporaryDirectory() as folder:
        open(os.path.join(folder, "volumes.db"), "x").close()
        for name, program in programs.items():
            for command, values in values_of(name, program).items():
                words = [name, *([command] if command else [])]
                found = {option: (offered([*words, option, "--"], folder)[0],
                                  "volumes.db" in offered([*words, option, "v"], folder)[0])
                         for option in values}
                yield "after the options of %s %s" % (name, command), found, {
                    option: ([], value in ("FILE", "PATH", "COPY")) for option, value in values.items()
                }


# A value that csictl takes for each option of a message. The options of a capability need its mode.
VALUES = {
    "--name": ["a"],
    "--required": ["1"],
    "--limit": ["1"],
    "--mode": ["1"],
    "--fs": ["ext4", "--mode", "1"],
    "--parameters": ["k=v"],
    "--mutable": ["k=v"],
    "--topology": ["k=v"],
    "--volume": ["vol-1"],
    "--node": ["n1"],
    "--readonly": [],
    "--max": ["1"],
    "--token": ["1"],
    "--message": [""],
}


def field_rows(csictl):
    """For each method exactly those options are offered that csictl takes for it."""
    for method in methods():
        taken = [option
                 for option, value in VALUES.items()
                 if subprocess.run([csictl, "frame", "--method", method, option, *value],
                                   capture_output=True).returncode == 0]
        for command in ("frame", "call"):
            said = set(offered(["csictl", command, "--method", method, "--"], TOP)[0])
            yield "the options of %s for %s" % (command, method), sorted(said & set(VALUES)), sorted(taken)


def methods():
    return offered(["csictl", "call", "--method", ""], TOP)[0]


def method_rows():
    lists = re.findall(r"^\| `/csi\.v1\.\w+/M` \| (.*) \|$", read("docs", "PROTOCOL.md"), re.M)
    yield "the methods", sorted(methods()), sorted(", ".join(lists).split(", "))


def parts(programs):
    return [
        word_rows(),
        option_rows(programs),
        value_rows(programs),
        method_rows(),
        field_rows(programs["csictl"]),
    ]
