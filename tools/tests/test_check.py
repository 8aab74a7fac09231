"""Tests how tools/check looks at the sources: with stand-ins for the Python that has mypy and pyflakes."""
import contextlib
import importlib.machinery
import importlib.util
import io
import os
import stat
import sys
import tempfile
import unittest

TOP = os.path.dirname(os.path.dirname(os.path.dirname(os.path.abspath(__file__))))
sys.path.insert(0, os.path.join(TOP, 'tools'))
# A Python that has mypy alone, which ends with the status of its first word.
PYTHON = '#!/bin/sh\n[ "$2" = mypy ] || exit 1\n[ "$3" = --version ] || exit {status}\n'


def check_module():
    """The module tools/check."""
    loader = importlib.machinery.SourceFileLoader('tools_check', os.path.join(TOP, 'tools', 'check'))
    module = importlib.util.module_from_spec(importlib.util.spec_from_loader('tools_check', loader))
    loader.exec_module(module)
    return module


def is_python(path):
    """Whether a file is a script in Python."""
    with open(path, 'rb') as file:
        return file.readline() == b'#!/usr/bin/env python3\n'


class Sources(unittest.TestCase):
    def setUp(self):
        folder = tempfile.TemporaryDirectory()
        self.addCleanup(folder.cleanup)
        self.python = os.path.join(folder.name, 'python')
        self.check = check_module()

    def looked(self, status):
        """What is found where mypy ends with a status and pyflakes is not installed, and what is said."""
        with open(self.python, 'w') as file:
            file.write(PYTHON.format(status=status))
        os.chmod(self.python, stat.S_IRWXU)
        self.check.PYTHONS = ['/nowhere/python', self.python]
        with contextlib.redirect_stdout(io.StringIO()) as said:
            return list(self.check.checked_sources()), said.getvalue()

    def test_a_finding_fails(self):
        self.assertEqual([self.looked(0)[0], self.looked(1)[0]], [[True], [False]])

    def test_what_is_not_installed_is_said(self):
        self.assertIn('pyflakes is not installed (package: pyflakes3)', self.looked(0)[1])

    def test_the_sources_are_there(self):
        for path in self.check.SOURCES:
            self.assertTrue(os.path.exists(os.path.join(TOP, path)), path)

    def test_each_script_is_checked(self):
        found = [os.path.relpath(os.path.join(folder, name), TOP) for top in ('bench', 'tests', 'tools', 'vectors')
                 for folder, _, names in os.walk(os.path.join(TOP, top)) for name in names
                 if '.' not in name and is_python(os.path.join(folder, name))]
        self.assertEqual(self.check.SCRIPTS, sorted(found))


if __name__ == '__main__':
    unittest.main()
