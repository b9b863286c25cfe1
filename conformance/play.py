#!/usr/bin/env python3
"""Plays the examples and the worked connections on the program. Its answers are to be the bytes of examples/expected/, and those that were written by hand.

  python3 conformance/play.py
  python3 conformance/play.py --program 'PATH/PROGRAM'

The model has no part in it. The last line is `N passed, M failed`, and the status is 0 only if M is 0.
"""
import argparse
import os
import shlex
import shutil
import sys
import tempfile
from concurrent.futures import ThreadPoolExecutor

import with_model  # noqa: F401
from all_cases import CUT_SHORT, examples, played as worked
from differential import PROGRAM, first_difference, ran


def cases(folder):
    """Of each connection its name, the words of the program, its requests, and how the program is to end."""
    for stem, words, data, expected in examples():
        yield f"examples/{stem}.http", words, data, (int(stem in CUT_SHORT), expected, b"")
    yield from ((title, words, asked, wanted) for title, _, words, asked, wanted in worked(folder))


def main():
    options = argparse.ArgumentParser(description=__doc__.split("\n")[0])
    options.add_argument("--program", default=PROGRAM, help="the program and its first words, as a shell would read them")
    program = shlex.split(options.parse_args().program)
    if shutil.which(program[0]) is None:
        sys.exit(f"play.py: there is no program {program[0]}; ./afplane build makes it")
    passed = failed = 0
    with tempfile.TemporaryDirectory(prefix="afplane-play-") as folder:
        with ThreadPoolExecutor(os.cpu_count()) as lanes:
            played = [(name, wanted, lanes.submit(ran, program, words, data)) for name, words, data, wanted in cases(folder)]
        for name, wanted, ending in played:
            got = ending.result()
            passed, failed = passed + (got == wanted), failed + (got != wanted)
            if got != wanted:
                print(f"{name}: status {got[0]}, standard error {got[2][:200]!r}; {first_difference(wanted[1], got[1])}")
    print(f"{passed} passed, {failed} failed")
    return 1 if failed or not passed else 0


if __name__ == "__main__":
    sys.exit(main())
