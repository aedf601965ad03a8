"""The package as pip installs it, and its types."""

from __future__ import annotations

import os
import shutil
import subprocess
import sys
import tempfile
import unittest

import lazyset

PYTHON = os.path.join(os.path.dirname(os.path.dirname(os.path.abspath(__file__))), "python")

SAYS = "import lazyset, importlib.metadata as m; print(lazyset.__file__, lazyset.__version__, m.version('lazyset'))"


def has_pip() -> bool:
    asked = subprocess.run([sys.executable, "-m", "pip", "--version"], stdout=subprocess.DEVNULL, stderr=subprocess.DEVNULL)
    return asked.returncode == 0


class Package(unittest.TestCase):
    def setUp(self) -> None:
        self.folder = tempfile.mkdtemp(prefix="lazyset-package-")
        self.addCleanup(shutil.rmtree, self.folder)

    def test_the_names_that_it_gives(self) -> None:
        for name in lazyset.__all__:
            self.assertTrue(hasattr(lazyset, name), name)
        self.assertEqual(lazyset.__all__, sorted(lazyset.__all__, key=lambda name: (not name.isupper(), name)))

    @unittest.skipUnless(has_pip(), "pip isn't installed")
    def test_pip_installs_it_without_an_index(self) -> None:
        alone = {**os.environ, "PYTHONPATH": self.folder, "PYTHONDONTWRITEBYTECODE": "1", "PIP_ROOT_USER_ACTION": "ignore"}
        install = [sys.executable, "-m", "pip", "install", "-q", "--disable-pip-version-check", "--no-index", "--no-compile"]
        subprocess.run([*install, "--target", self.folder, PYTHON], env=alone, check=True, timeout=60)
        said = subprocess.run([sys.executable, "-c", SAYS], env=alone, stdout=subprocess.PIPE, text=True, check=True).stdout.split()
        self.assertEqual(said[0], os.path.join(self.folder, "lazyset", "__init__.py"))
        self.assertEqual(said[1], said[2])
        self.assertTrue(os.path.exists(os.path.join(self.folder, "lazyset", "py.typed")))

    @unittest.skipUnless(shutil.which("mypy"), "mypy isn't installed")
    def test_its_types(self) -> None:
        words = ["mypy", "--strict", f"--cache-dir={self.folder}", "lazyset", "wheel_builder.py", "examples/webhook_receiver.py"]
        checked = subprocess.run(words, cwd=PYTHON, stdout=subprocess.PIPE, text=True)
        self.assertEqual((checked.returncode, checked.stdout.split(":")[0]), (0, "Success"), checked.stdout)
