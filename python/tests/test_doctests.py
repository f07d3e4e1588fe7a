"""The examples of the docstrings, and of the package's README."""

import doctest
import pathlib
import unittest

from attempt import begun
from palqytun import Journal, _answers, _arguments, _library, _words, commands, core, differences, effects, errors, frames, futures, journals, retries, values

import palqytun

MODULES = [palqytun, commands, core, differences, effects, errors, frames, futures, journals, retries, values, _answers, _arguments, _library, _words]
README = pathlib.Path(__file__).resolve().parents[1] / "README.md"


INPUT = bytes.fromhex("000a00000000000000140000000000000000000000000000000454696c6c")
SLEPT = bytes.fromhex("001e0000000000000006000000000100")


def with_vm(test: doctest.DocTest) -> None:
    """Gives an example of a method the VM, or the journal, that it goes on from."""
    if test.name.startswith("palqytun.core.VM."):
        test.globs["vm"] = begun()
    if test.name.startswith("palqytun.journals.Journal."):
        test.globs.update(journal=Journal([INPUT]), slept=SLEPT)


def load_tests(loader: unittest.TestLoader, tests: unittest.TestSuite, pattern: str | None) -> unittest.TestSuite:
    for module in MODULES:
        tests.addTests(doctest.DocTestSuite(module, setUp=with_vm))
    tests.addTests(doctest.DocFileSuite(str(README), module_relative=False))
    return tests


class Examples(unittest.TestCase):
    def test_there_are_some(self) -> None:
        """An example that isn't found isn't run: most methods and each module with a value to show have one."""
        finder = doctest.DocTestFinder(exclude_empty=True)
        found = {it.name for module in MODULES for it in finder.find(module) if it.examples}
        self.assertGreater(len([it for it in found if it.startswith("palqytun.core.VM.")]), 20)
        self.assertIn("palqytun.core", found)


if __name__ == "__main__":
    unittest.main()
