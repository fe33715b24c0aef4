"""Reads the files of the repository."""
import os
import pathlib

TOP = os.path.dirname(os.path.dirname(os.path.realpath(__file__)))


def read(*path):
    """Returns the text of a file. The path is relative to the top of the repository, or absolute."""
    return pathlib.Path(TOP, *path).read_text(encoding="utf-8")


def version():
    return read("VERSION").strip()
