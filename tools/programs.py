#!/usr/bin/env python3
"""Which program the stop-watches and the checks run.

usage: tools/programs.py [PROGRAM]     prints its path, or says that there is none and has the status 1

It is the word that names one, or what ARMSDT names, or the proved program, or else the one that examples/run builds before any proof.
"""
import os
import sys

TOP = os.path.dirname(os.path.dirname(os.path.abspath(__file__)))
PROVED = os.path.join(TOP, "crates", "armsdt", "out", "armsdt")
UNPROVED = os.path.join(TOP, "out", "armsdt")


def found(word=None):
    """The path of the program, or None where it isn't there."""
    named = word or os.environ.get("ARMSDT")
    paths = [os.path.abspath(named)] if named else [PROVED, UNPROVED]
    return next((path for path in paths if os.access(path, os.X_OK) and os.path.isfile(path)), None)


def program(word=None):
    """The path of the program; a script ends where there is none."""
    path = found(word)
    if path is None:
        named = word or os.environ.get("ARMSDT")
        sys.exit(f"{sys.argv[0]}: there is no program {named}" if named else f"{sys.argv[0]}: no program is built: run examples/run first")
    return path


if __name__ == "__main__":
    print(program(*sys.argv[1:2]))
