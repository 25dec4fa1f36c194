"""Runs the examples in the package's docstrings and in the README files."""
import doctest
import importlib
import os
import pkgutil
import unittest

import chroma
from reference import TOP


class Docs(unittest.TestCase):
    def test_docstrings(self):
        tried = 0
        for name in ["chroma"] + ["chroma." + found.name for found in pkgutil.iter_modules(chroma.__path__)]:
            result = doctest.testmod(importlib.import_module(name), extraglobs=vars(chroma))
            self.assertEqual(result.failed, 0, name)
            tried += result.attempted
        self.assertGreater(tried, 30)

    def test_every_name_has_words(self):
        for name in chroma.__all__:
            if name != "VERSION":
                self.assertGreater(len(getattr(chroma, name).__doc__), 40, name)

    def test_readme(self):
        for path in ("README.md", os.path.join("bindings", "python", "README.md")):
            result = doctest.testfile(os.path.join(TOP, path), module_relative=False)
            self.assertEqual(result.failed, 0, path)
            self.assertGreater(result.attempted, 2, path)
