"""Lets pytest run the tests of this folder: each test runs as a program, as by hand, and each check that it tells is an item."""

import json
import os
import subprocess
import tempfile

import pytest

HERE = os.path.dirname(os.path.abspath(__file__))
# The bodies of the tests are no modules for pytest.
collect_ignore_glob = ["*.py"]
LONGEST_NAME = 200


def pytest_collect_file(file_path, parent):
    """A test is a program in a folder below this one."""
    if file_path.suffix == "" and str(file_path.parent) != HERE and os.access(file_path, os.X_OK):
        return Test.from_parent(parent, path=file_path)
    return None


class Test(pytest.File):
    """A test. It runs as soon as pytest asks for its checks."""

    def collect(self):
        with tempfile.NamedTemporaryFile("r", encoding="utf-8") as told:
            run = subprocess.run([self.path], stdout=subprocess.PIPE, stderr=subprocess.STDOUT, encoding="utf-8", errors="replace", check=False,
                                 env={**os.environ, "TLX_TOLD": told.name})
            checks = [json.loads(line) for line in told]
        names = {}
        for check in checks:
            name = " ".join(check["name"].split())[:LONGEST_NAME]
            names[name] = number = names.get(name, 0) + 1
            yield Check.from_parent(self, name=name if number == 1 else f"{name} ({number})", holds=check["holds"], why=check["why"])
        # a test that ends early, or one of whose parts tells its counts alone
        is_told = any(not check["holds"] for check in checks)
        yield Check.from_parent(self, name="its end", holds=run.returncode == 0 or is_told, why=f"status {run.returncode}\n{run.stdout[-4000:]}")


class Check(pytest.Item):
    """A check of a test."""

    def __init__(self, *, holds, why, **words):
        super().__init__(**words)
        self.holds, self.why = holds, why

    def runtest(self):
        if not self.holds:
            raise AssertionError(self.why)

    def repr_failure(self, excinfo, style=None):
        return f"{self.name}: {excinfo.value}"

    def reportinfo(self):
        return self.path, None, self.name
