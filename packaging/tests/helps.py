"""Reads the options of programs in their help."""
import re
import subprocess

# The seconds that a program may take to print its help.
SECONDS = 20
# Options that each command of clap has, and that programs in Go have but do not list.
COMMON = {"--help", "--version"}
SUBCOMMANDS = {
    "csid": ["pipe", "serve"],
    "csictl": [
        *["show", "frame", "call", "vectors"],
        *["status", "volumes", "nodes", "pools", "volume", "create", "publish", "unpublish", "delete"],
    ],
    "csid-front": [],
    "csid-etcd": [],
}


def help_of(program, words):
    return subprocess.run([program, *words, "--help"], capture_output=True, text=True, timeout=SECONDS,
                          check=True).stdout


def listed(program, words):
    """Returns the options in the help of a program as --name. clap prints them as --name, and Go as -name."""
    return {"--" + it
            for it in re.findall(r"^ +(?:-\w, )?--?([a-z][a-z-]+)\b", help_of(program, words), re.M)}


def options_of(name, program):
    """Returns the options of a program by subcommand ('' for the program itself), without the common options.
    """
    return {it: listed(program, [it] if it else []) - COMMON for it in ["", *SUBCOMMANDS[name]]}


def values_of(name, program):
    """Returns the options with a value by subcommand, each with the name of its value: --name <VALUE> of
    clap, -name VALUE of Go."""
    found = {it: help_of(program, [it] if it else []) for it in ["", *SUBCOMMANDS[name]]}
    return {it: {"--" + option: value
                 for option, value in re.findall(r"^ +--?([a-z][a-z-]+) <?([A-Z][^ >\n]*)", text, re.M)}
            for it, text in found.items()}
