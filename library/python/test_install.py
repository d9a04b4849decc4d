"""Builds the package and installs it by pip, with no network, into an environment of its own.

usage: python3 -m unittest test_install   (in this folder; SILJUVATT_LIB names the folder with libsiljuvatt.a)
"""

import base64
import csv
import hashlib
import os
import shutil
import subprocess
import sys
import tempfile
import unittest
import venv
import zipfile
from pathlib import Path
from unittest import mock

import backend
import siljuvatt

HERE = Path(__file__).resolve().parent
LIB = str(Path(os.environ.get("SILJUVATT_LIB") or backend.STATICLIB).resolve())
VERSION = siljuvatt.__version__

# What is run with the installed package: where it is, where its library is, and that a packet goes in and comes out.
USE = """
import importlib.metadata, siljuvatt
from siljuvatt import Bus, ExtendedFields, Format, Station, pieces
board = ExtendedFields(1, 5, 0, 0, 2)
station = Station(Format.EXTENDED)
slot = station.open(Bus.B, board)
for image in pieces(Format.EXTENDED, board, b"004127019"):
    station.receive(Bus.B, image)
print(siljuvatt.__file__)
print(siljuvatt._loaded._name)
print(importlib.metadata.version("siljuvatt"), siljuvatt.version(), station.read_bytes(slot).decode())
"""


def environment(**changes):
    """This one's, with nothing in it that says where the module or its library is."""
    left = {name: value for name, value in os.environ.items()
            if name not in ("PYTHONPATH", "SILJUVATT_SO", "SILJUVATT_LIB") and not name.startswith("PIP_")}
    return {**left, "PIP_CONFIG_FILE": os.devnull, "PIP_DISABLE_PIP_VERSION_CHECK": "1", **changes}


def tree():
    """The files here, and when each was written."""
    return {path: path.stat().st_mtime_ns for path in HERE.rglob("*")
            if path.is_file() and path.parent.name != "__pycache__"}


class Case(unittest.TestCase):
    def setUp(self):
        folder = tempfile.TemporaryDirectory()
        self.addCleanup(folder.cleanup)
        self.folder = Path(folder.name).resolve()


class Installing(Case):
    def setUp(self):
        super().setUp()
        venv.create(self.folder / "venv", system_site_packages=True)  # pip is there, and need not be made again
        self.python = self.folder / "venv" / "bin" / "python"

    def run_python(self, *arguments, **changes):
        return subprocess.run(
            [self.python, *arguments], cwd=self.folder, env=environment(**changes), capture_output=True, text=True)

    def pip(self, *arguments, **changes):
        return self.run_python("-m", "pip", "install", "--no-index", *map(str, arguments), **changes)

    def installed(self, *arguments):
        """Installs, uses the package from another folder, and returns where it and its library are."""
        ran = self.pip(*arguments, SILJUVATT_LIB=LIB)
        self.assertEqual(ran.returncode, 0, ran.stdout + ran.stderr)
        ran = self.run_python("-c", USE)
        self.assertEqual((ran.returncode, ran.stderr), (0, ""))
        module, library, said = ran.stdout.splitlines()
        self.assertEqual(said, f"{VERSION} {siljuvatt.VERSION} 004127019")
        return Path(module).parent, Path(library)

    def test_from_the_tree(self):
        before = tree()
        package, library = self.installed(HERE)
        self.assertIn(self.folder / "venv", package.parents)
        self.assertEqual(library, package / "libsiljuvatt.so")
        self.assertTrue((package / "py.typed").is_file())
        self.assertEqual(tree(), before)

    def test_from_a_wheel_of_a_copy_of_this_folder_alone(self):
        copied = self.folder / "copied"
        shutil.copytree(HERE, copied, ignore=shutil.ignore_patterns("__pycache__", "*.so"))
        build = [sys.executable, "-c", "import backend; print(backend.build_wheel('.'))"]
        built = subprocess.run(build, cwd=copied, env=environment(SILJUVATT_LIB=LIB), capture_output=True, text=True)
        self.assertEqual((built.returncode, built.stderr), (0, ""))
        package, library = self.installed(copied / built.stdout.strip())
        self.assertIn(self.folder / "venv", package.parents)
        self.assertEqual(library, package / "libsiljuvatt.so")

    def test_editable(self):
        ran = self.pip("--editable", HERE)
        self.assertEqual(ran.returncode, 0, ran.stdout + ran.stderr)
        ran = self.run_python("-c", "import siljuvatt; print(siljuvatt.__file__)")
        self.assertEqual(ran.stdout, f"{HERE / 'siljuvatt' / '__init__.py'}\n")

    def test_without_the_static_library(self):
        ran = self.pip(HERE, SILJUVATT_LIB=str(self.folder))
        self.assertNotEqual(ran.returncode, 0)
        self.assertIn(f"{self.folder / 'libsiljuvatt.a'} is not there; build it by: compare/build siljuvatt", ran.stderr)
        self.assertNotIn("Traceback", ran.stderr)
        self.assertNotEqual(self.run_python("-c", "import siljuvatt").returncode, 0)


class Wheel(Case):
    def setUp(self):
        super().setUp()
        with mock.patch.dict(os.environ, SILJUVATT_LIB=LIB):
            self.path = self.folder / backend.build_wheel(self.folder)
        with zipfile.ZipFile(self.path) as wheel:
            self.entries = wheel.infolist()
            self.files = {entry.filename: wheel.read(entry) for entry in self.entries}
        self.about = f"siljuvatt-{VERSION}.dist-info"

    def test_files(self):
        self.assertEqual(self.path.name, f"siljuvatt-{VERSION}-py3-none-linux_x86_64.whl")
        self.assertEqual(sorted(self.files), sorted(
            [f"siljuvatt/{name}" for name in ("__init__.py", "py.typed", "libsiljuvatt.so")]
            + [f"{self.about}/{name}" for name in ("METADATA", "WHEEL", "RECORD")]))
        self.assertEqual(self.files["siljuvatt/__init__.py"], (HERE / "siljuvatt" / "__init__.py").read_bytes())
        self.assertEqual(self.files["siljuvatt/libsiljuvatt.so"][:4], b"\x7FELF")

    def test_record(self):
        rows = list(csv.reader(self.files[f"{self.about}/RECORD"].decode().splitlines()))
        self.assertEqual([row[0] for row in rows], list(self.files))
        for path, digest, size in rows:
            if path.endswith("/RECORD"):
                self.assertEqual((digest, size), ("", ""))
                continue
            method, _, text = digest.partition("=")
            digest = base64.urlsafe_b64encode(hashlib.new(method, self.files[path]).digest()).decode()
            self.assertEqual(f"{text}=", digest)  # the = at its end is left out
            self.assertEqual(int(size), len(self.files[path]))

    def test_described(self):
        wheel = self.files[f"{self.about}/WHEEL"].decode().splitlines()
        self.assertIn("Tag: py3-none-linux_x86_64", wheel)
        self.assertIn("Root-Is-Purelib: false", wheel)
        metadata = self.files[f"{self.about}/METADATA"].decode().splitlines()
        for line in ("Name: siljuvatt", f"Version: {VERSION}", "Requires-Python: >=3.9"):
            self.assertIn(line, metadata)

    def test_the_same_again(self):
        before = self.path.read_bytes()
        with mock.patch.dict(os.environ, SILJUVATT_LIB=LIB):
            backend.build_wheel(self.folder)
        self.assertEqual(self.path.read_bytes(), before)
        self.assertEqual({entry.date_time for entry in self.entries}, {(1980, 1, 1, 0, 0, 0)})

    def test_files_can_be_read_by_all(self):
        self.assertEqual({entry.external_attr >> 16 for entry in self.entries}, {0o644})

    def test_no_source_package(self):
        self.assertRaisesRegex(backend.UnsupportedOperation, "pip wheel", backend.build_sdist, self.folder)


class MakeShared(Case):
    def make(self, *arguments, **changes):
        return subprocess.run([HERE.parent / "make-shared", *arguments], env=environment(**changes),
                              cwd=self.folder, capture_output=True, text=True)

    def test_beside_the_archive_or_where_it_is_told(self):
        shutil.copy(Path(LIB) / "libsiljuvatt.a", self.folder)
        for arguments, made in [(["libsiljuvatt.a"], "libsiljuvatt.so"), (["libsiljuvatt.a", "other.so"], "other.so")]:
            ran = self.make(*arguments)
            self.assertEqual((ran.returncode, ran.stdout, ran.stderr), (0, "", ""))
            use = [sys.executable, "-c", "import siljuvatt; print(siljuvatt.version())"]
            used = subprocess.run(use, cwd=HERE, env=environment(SILJUVATT_SO=str(self.folder / made)),
                                  capture_output=True, text=True)
            self.assertEqual((used.stdout, used.stderr), (f"{siljuvatt.VERSION}\n", ""))

    def test_told_what_is_wrong(self):
        (self.folder / "empty.a").write_bytes(b"no archive")
        for arguments, status, text in [
                (["none.a"], 1, "compare/build siljuvatt"), (["a", "b", "c"], 2, "usage"),
                (["empty.a"], 1, "cc makes no shared library of empty.a")]:
            ran = self.make(*arguments)
            self.assertEqual(ran.returncode, status)
            self.assertIn(text, ran.stderr)
            self.assertNotIn("Traceback", ran.stderr)

    def test_without_a_compiler(self):
        (self.folder / "libsiljuvatt.a").touch()
        (self.folder / "python3").symlink_to(sys.executable)
        for command in ("bash", "env", "dirname"):
            (self.folder / command).symlink_to(shutil.which(command))
        ran = self.make("libsiljuvatt.a", PATH=str(self.folder))
        self.assertEqual((ran.returncode, ran.stderr), (1, "cc is not there; on Debian it comes by: apt install gcc\n"))


if __name__ == "__main__":
    unittest.main()
