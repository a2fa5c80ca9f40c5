#!/usr/bin/env python3
"""Writes the script of one kind of work to standard output.

    bench/work.py NAME [--scale F] [--seed N]

At scale 1 it nearly fills a copy, which holds 65,536 operations; F may be a fraction, as 1/8. The
same words give the same script.
"""

import argparse
import sys
from random import Random

from works.chain import chain
from works.fan import fan
from works.leases import leases
from works.maps import maps
from works.merge import merge
from works.overlaps import overlaps
from works.storm import storm

OPERATIONS = 65536
WORKS = {work.__name__: work for work in (chain, fan, maps, storm, leases, merge, overlaps)}


def scale_of(text: str) -> float:
    """A number, or a fraction as 1/8."""
    above, _, below = text.partition("/")
    return float(above) / float(below or 1)


def script(name: str, scale: float, seed: int = 1) -> bytes:
    """The script of the work of this name."""
    lines = WORKS[name](int(OPERATIONS * scale), Random("%s %s" % (name, seed)))
    return "".join(line + "\n" for line in lines).encode()


def main() -> None:
    parser = argparse.ArgumentParser(description="Writes the script of one kind of work.")
    parser.add_argument("name", choices=WORKS)
    parser.add_argument("--scale", type=scale_of, default=1, help="of a full copy (default: 1)")
    parser.add_argument("--seed", type=int, default=1, help="of the random choices (default: 1)")
    chosen = parser.parse_args()
    sys.stdout.buffer.write(script(chosen.name, chosen.scale, chosen.seed))


if __name__ == "__main__":
    main()
