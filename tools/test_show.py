#!/usr/bin/env python3
"""Tests tools/show and tools/runfile: on the examples, on random input and on damaged input, from a fixed seed.

The tests stand in tools/tests, one subject a file. The last line is 'N passed, M failed'.
"""
import sys

sys.dont_write_bytecode = True

from tests import browser, calls, common, drawings, hostile, papers, progress, reactions, recordings, runfiles, runs, sequences, unrolled

SUBJECTS = sequences, runs, papers, reactions, drawings, recordings, runfiles, unrolled, browser, calls, hostile, progress


def main():
    words = sys.argv[1:]
    for subject in SUBJECTS:
        for name, test in list(vars(subject).items()):
            if name.startswith("test_") and test.__module__ == subject.__name__ and (not words or name in words):
                test()
    print(f"{common.passed} passed, {common.failed} failed")
    return common.failed != 0


if __name__ == "__main__":
    sys.exit(main())
