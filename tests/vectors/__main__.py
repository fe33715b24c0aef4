"""Prints the vectors, or the expected output of `csictl vectors`."""

import argparse

from tests.vectors import corpus


def main():
    parser = argparse.ArgumentParser(prog="python3 -m tests.vectors", description=__doc__)
    parser.add_argument("--names", action="store_true", help="print `ok NAME` for each instead")
    if parser.parse_args().names:
        print("\n".join("ok " + name for name in corpus.names()))
    else:
        print("\n".join([corpus.HEAD, *corpus.lines()]))


if __name__ == "__main__":
    main()
