"""The version of the recorder: that of racebench, which it is packed with."""
import argparse

VERSION = "0.1.0"


def add(parser: argparse.ArgumentParser) -> None:
    """The option that prints the version as `racebench --version` does."""
    parser.add_argument("--version", action="version", version=f"racebench {VERSION}", help="prints the version")
