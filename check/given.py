"""What the commands of this folder are given."""

import argparse
import shlex
import shutil


def runnable(words):
    """A program that can be run, with its words."""
    if shutil.which((shlex.split(words) or [""])[0]) is None:
        raise argparse.ArgumentTypeError(f"no program {words!r} (oracle/build makes the original, rt run in crates/driver the driver)")
    return words
