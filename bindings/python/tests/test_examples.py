"""The examples in the docstrings, run."""
import doctest
import importlib
import pkgutil
import unittest

import cushiedoo


def load_tests(loader: unittest.TestLoader, tests: unittest.TestSuite, pattern: object) -> unittest.TestSuite:
    """Adds the examples of every module."""
    modules = [name for _, name, _ in pkgutil.walk_packages(cushiedoo.__path__, "cushiedoo.") if not name.endswith("__main__")]
    for name in ["cushiedoo", *modules]:
        tests.addTests(doctest.DocTestSuite(importlib.import_module(name)))
    return tests
