"""Where the package finds its library, what it says of a missing or older one, and that structs and docstrings hold."""
from __future__ import annotations

import ctypes
import doctest
import importlib
import os
import pkgutil
import re
import shutil
import subprocess
import sys
import tempfile
import unittest
from pathlib import Path

import support
from support import LIBRARY, REPOSITORY, SAMPLE

import ads_metafile
from ads_metafile import _library, _rows

READ = """
import sys
import ads_metafile
print(ads_metafile.__version__)
try:
    print(len(ads_metafile.open(sys.argv[1])), ads_metafile._library._library()._name)
except ImportError as error:
    print(error)
"""


class Found(unittest.TestCase):
    """The package alone, in a folder of its own, outside of the repository."""

    def setUp(self) -> None:
        made = tempfile.TemporaryDirectory(prefix="a ü ")
        self.addCleanup(made.cleanup)
        self.folder = Path(made.name).resolve()
        self.package = self.folder / "lib" / "ads_metafile"
        shutil.copytree(REPOSITORY / "python" / "ads_metafile", self.package,
                        ignore=lambda folder, names: [name for name in names if name.startswith("libads")])

    def answer(self, **changed: str) -> str:
        """What the package says beside its version."""
        environment = support.environment(PYTHONPATH=str(self.package.parent), PYTHONUTF8="1") | changed
        environment = {name: value for name, value in environment.items() if value}
        ran = subprocess.run([sys.executable, "-S", "-W", "error", "-c", READ, str(SAMPLE)], env=environment,
                             capture_output=True, text=True, check=True, encoding="utf-8")
        version, answer = ran.stdout.splitlines()
        self.assertEqual(version, ads_metafile.__version__)
        return answer

    def library(self, source: str, script: str) -> str:
        """A shared library of that source, whose symbols have the versions of the script."""
        (self.folder / "other.c").write_text(source)
        (self.folder / "other.map").write_text(script)
        path = self.folder / "libother.so"
        subprocess.run(["gcc", "-shared", "-fPIC", f"-Wl,--version-script={self.folder}/other.map", "-o", str(path),
                        str(self.folder / "other.c")], check=True)
        return str(path)

    def test_missing(self) -> None:
        said = self.answer(ADS_LIBRARY="", LD_LIBRARY_PATH="")
        self.assertRegex(said, "libads.so.0.*run `make` in the repository, or set ADS_LIBRARY")

    def test_named(self) -> None:
        self.assertEqual(self.answer(ADS_LIBRARY=str(LIBRARY)), f"1 {LIBRARY}")
        said = self.answer(ADS_LIBRARY=str(self.folder / "none.so"))
        self.assertRegex(said, "none.so.*run `make` in the repository, or set ADS_LIBRARY")
        self.assertRegex(self.answer(ADS_LIBRARY=str(self.folder)), "run `make` in the repository")

    def test_beside_the_package(self) -> None:
        for beside in (self.package.parent / LIBRARY.name, self.package / LIBRARY.name):
            beside.symlink_to(LIBRARY)
            self.assertEqual(self.answer(ADS_LIBRARY=""), f"1 {beside}")

    def test_in_a_checkout(self) -> None:
        built = self.folder / "target" / "lib" / LIBRARY.name
        built.parent.mkdir(parents=True)
        built.symlink_to(LIBRARY)
        self.assertIn("run `make`", self.answer(ADS_LIBRARY="", LD_LIBRARY_PATH=""))
        (self.folder / "include").mkdir()
        (self.folder / "include" / "ads.h").touch()
        self.assertEqual(self.answer(ADS_LIBRARY=""), f"1 {built}")

    def test_by_the_loader(self) -> None:
        self.assertEqual(self.answer(ADS_LIBRARY="", LD_LIBRARY_PATH=str(LIBRARY.parent)), "1 libads.so.0")

    def test_older(self) -> None:
        older = self.library("void ads_read(void) {}", "ADS_0.8 { global: ads_*; local: *; };")
        self.assertRegex(self.answer(ADS_LIBRARY=older),
                         r"libother.so is an older libads.*needs version ADS_0\.9.*`make`")
        part = self.library("void ads_ancestors(void) {}", "ADS_0.9 { global: ads_*; local: *; };")
        self.assertRegex(self.answer(ADS_LIBRARY=part), "libother.so is no whole libads: it has no ads_begin.*`make`")
        none = self.library("void other(void) {}", "OTHER { global: other; local: *; };")
        self.assertRegex(self.answer(ADS_LIBRARY=none), "libother.so is no libads.*`make`")

    def test_before_the_blocks(self) -> None:
        names = [name for name in _library._SIGNATURES if name not in ("ads_pack", "ads_unpack")]
        functions = "".join(f"void {name}(void) {{}}\n" for name in names)
        before = self.library(functions, "ADS_0.9 { global: ads_*; local: *; };")
        self.assertRegex(self.answer(ADS_LIBRARY=before),
                         r"libother.so is an older libads.*needs version ADS_0\.10;.*`make`")
        part = self.library(functions + "void ads_pack(void) {}",
                            "ADS_0.9 { global: ads_ancestors; }; ADS_0.10 { global: ads_*; local: *; };")
        self.assertRegex(self.answer(ADS_LIBRARY=part), "libother.so is no whole libads: it has no ads_unpack.*`make`")


class Layout(unittest.TestCase):
    def test_sizes(self) -> None:
        sizes = {_library.Row: 104, _library.Reading: 24, _library.Written: 16, _library.Counted: 16,
                 _library.CountedRow: 24, _library.ParentAnswer: 16, _library.Ends: 32, _library.Part: 24,
                 _library.AncestryAnswer: 24, _library.Priced: 40, _library.DescriptionStruct: 504}
        self.assertEqual({each: ctypes.sizeof(each) for each in sizes}, sizes)

    def test_rows(self) -> None:
        """Both descriptions of a row have the same places, those of the header's comments."""
        header = (REPOSITORY / "include" / "ads.h").read_text()
        row = header[header.index("typedef struct ads_row {"):header.index("} ads_row;")]
        places = {name: int(place) for name, place in re.findall(r"^    \w+ (\w+)(?:\[38\])?; +/\* +(\d+):", row, re.M)}
        self.assertEqual({name: getattr(_library.Row, name).offset for name in _rows.FIELDS}, places)
        whole = _library.Row(place=1, header=2, contents=3, bytes=4, end=5, dependencies=6, offset=-7, multichunk=True,
                             ending=2)
        self.assertEqual(_rows.RECORD.unpack(bytes(whole)), (bytes(38), 1, 2, 3, 4, 5, 6, -7, True, False, 2))

    def test_every_function_of_the_header(self) -> None:
        header = re.sub(r"/\*.*?\*/", "", (REPOSITORY / "include" / "ads.h").read_text(), flags=re.S)
        functions = re.findall(r"^(?:ads_\w+|bool) (ads_\w+)\((.*?)\);", header, re.M | re.S)
        parameters = {name: 0 if given == "void" else given.count(",") + 1 for name, given in functions}
        self.assertEqual({name: len(types) - 1 for name, types in _library._SIGNATURES.items()}, parameters)

    def test_exported_names(self) -> None:
        for name in ads_metafile.__all__:
            self.assertTrue(hasattr(ads_metafile, name), name)
        for number, name in ads_metafile.NAMES.items():
            self.assertEqual(getattr(ads_metafile, name), number)
            self.assertIn(name, ads_metafile.__all__)


class Examples(unittest.TestCase):
    def test_docstrings(self) -> None:
        """The examples of every module of the package, as doctest runs them."""
        names = [module.name for module in pkgutil.walk_packages(ads_metafile.__path__, "ads_metafile.")]
        attempted = 0
        for name in ["ads_metafile", *(name for name in names if not name.endswith("__main__"))]:
            with self.subTest(name):
                result = doctest.testmod(importlib.import_module(name))
                self.assertEqual(result.failed, 0)
                attempted += result.attempted
        self.assertGreater(attempted, 25)

    def test_package_is_typed(self) -> None:
        self.assertTrue(os.path.isfile(os.path.join(ads_metafile.__path__[0], "py.typed")))


if __name__ == "__main__":
    unittest.main()
