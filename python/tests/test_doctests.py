"""The examples in the package's own comments."""

import doctest
import importlib
import pkgutil
import unittest

import radwelio


def load_tests(loader: unittest.TestLoader, tests: unittest.TestSuite, pattern: object) -> unittest.TestSuite:
    for module in pkgutil.iter_modules(radwelio.__path__, "radwelio."):
        if not module.name.endswith("__main__"):
            tests.addTests(doctest.DocTestSuite(importlib.import_module(module.name)))
    return tests
