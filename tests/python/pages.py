"""Runs the examples of docs/user/python.md, in the order in which they stand, and those of the package's public names.

usage: pages.py FILE"""
import doctest
import io
import contextlib
import sys

import telling

import radixjoin

HOW = doctest.ELLIPSIS | doctest.NORMALIZE_WHITESPACE


def faults_of(path):
    """What the examples don't print as the page has it."""
    told = io.StringIO()
    with contextlib.redirect_stdout(told):
        found = doctest.testfile(path, module_relative=False, optionflags=HOW, encoding="utf-8")
    yield from told.getvalue().splitlines() if found.failed else []
    yield from [] if found.attempted > 20 else [f"only {found.attempted} examples"]


def faults_of_names():
    """What the examples of public names don't print as they have it, and functions without one."""
    runner, told = doctest.DocTestRunner(optionflags=HOW), io.StringIO()
    for name in radixjoin.__all__:
        value = getattr(radixjoin, name)
        tests = doctest.DocTestFinder(recurse=False).find(value, name, globs={"radixjoin": radixjoin})
        yield from [] if isinstance(value, type) or any(test.examples for test in tests) else [f"{name} has no example"]
        with contextlib.redirect_stdout(told):
            for test in tests:
                runner.run(test)
    yield from told.getvalue().splitlines() if runner.failures else []


if __name__ == "__main__":
    telling.attempt("examples of public names", faults_of_names)
    telling.attempt("docs/user/python.md", faults_of, sys.argv[1])
