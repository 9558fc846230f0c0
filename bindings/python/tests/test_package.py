"""The package: its examples, the demo, how the library is found, and that values are values."""

import copy
import doctest
import importlib
import os
import pickle
import pkgutil
import subprocess
import sys
import tempfile
import threading
import unittest
from dataclasses import replace
from pathlib import Path

import johikape
from johikape import (
    BoundingBox,
    Column,
    Filter,
    GeoStatistics,
    Interval,
    NameSearch,
    Rates,
    Refusal,
    fold,
)

FOLDER = Path(__file__).resolve().parents[1]

PILE_SIX = """\
Wanted: readings above 55 degrees in pile six, x 10 to 20 and y 38 to 46.
monday.parquet     420 readings, 31.5 to 51.5 degrees: cannot match, skip it
tuesday.parquet    256 readings, 36.0 to 63.5 degrees: may match, read it
wednesday.parquet  440 readings, 55.5 to 66.0 degrees: cannot match, skip it
The index is asked for x 10 to 20, y 38 to 46, from 55 degrees on.
"""


def load_tests(loader, tests, pattern):
    """Adds the examples in the documentation."""
    tests.addTests(doctest.DocTestSuite(johikape))
    for module in pkgutil.iter_modules(johikape.__path__, "johikape."):
        tests.addTests(doctest.DocTestSuite(importlib.import_module(module.name)))
    return tests


def python(*arguments, **environment):
    """Runs Python in the package's folder, with a changed environment; None takes a name out."""
    changed = {**os.environ, **environment}
    return subprocess.run(
        [sys.executable, *arguments],
        cwd=FOLDER,
        env={name: value for name, value in changed.items() if value is not None},
        capture_output=True,
        text=True,
    )


class Program(unittest.TestCase):
    def test_demo(self):
        done = python("-m", "johikape", "demo")
        self.assertEqual((done.returncode, done.stdout, done.stderr), (0, PILE_SIX, ""))

    def test_help(self):
        done = python("-m", "johikape")
        self.assertEqual((done.returncode, done.stderr), (0, ""))
        self.assertIn("python3 -m johikape demo", done.stdout)
        done = python("-m", "johikape", "show")
        self.assertEqual((done.returncode, done.stdout), (2, ""))


class Library(unittest.TestCase):
    def test_a_path_that_has_none(self):
        done = python("-c", "import johikape", JOHIKAPE_LIBRARY="no/such/library.so")
        self.assertNotEqual(done.returncode, 0)
        self.assertRegex(done.stderr, "ImportError: johikape cannot load .*no/such/library.so")
        self.assertIn("bindings/build", done.stderr)

    def test_no_library_at_all(self):
        # A copy of the package without a library, in a folder that is no checkout.
        with tempfile.TemporaryDirectory() as folder:
            package = Path(folder, "a", "b", "johikape")
            package.mkdir(parents=True)
            for source in (FOLDER / "johikape").glob("*.py"):
                (package / source.name).write_bytes(source.read_bytes())
            look = f"import sys; sys.path.insert(0, {str(package.parent)!r}); import johikape"
            done = python("-c", look, JOHIKAPE_LIBRARY=None)
            self.assertIn("johikape finds no libjohikape.so: run bindings/build", done.stderr)
            # Beside the package, and where a checkout has it, it is found.
            library = johikape._library.library._name
            for place in (package, Path(folder, "target", "staticlib")):
                place.mkdir(parents=True, exist_ok=True)
                found = place / "libjohikape.so"
                found.symlink_to(library)
                done = python("-c", look, JOHIKAPE_LIBRARY=None)
                self.assertEqual((done.returncode, done.stderr), (0, ""))
                found.unlink()

    def test_a_library_of_another_kind(self):
        import _ctypes

        done = python("-c", "import johikape", JOHIKAPE_LIBRARY=_ctypes.__file__)
        self.assertRegex(done.stderr, "ImportError: .* has no johikape_.*: run bindings/build anew")


class Values(unittest.TestCase):
    box = BoundingBox((170, -170), (0, 1), m=(31.5, 48))
    values = [
        Interval(0, 1),
        box,
        Column(0, 6),
        GeoStatistics(bbox=box, total_points=240),
        Filter.intersects(Column(0, 6), box) & (Filter.unknown() | Filter.literal_false()),
        Filter.has_z(Column(0, 6)),
        NameSearch(1, 2),
        NameSearch(None, 3),
        Rates(7, 5, 3),
    ]

    def test_shown_as_written(self):
        for value in self.values:
            self.assertEqual(eval(repr(value), vars(johikape)), value)

    def test_copied_and_kept(self):
        for value in self.values:
            kept = pickle.loads(pickle.dumps(value))
            for other in (copy.copy(value), copy.deepcopy(value), kept):
                self.assertEqual(other, value)
                self.assertEqual(hash(other), hash(value))

    def test_replaced(self):
        record = GeoStatistics(bbox=self.box, total_points=240)
        self.assertEqual(
            replace(record, total_points=180), GeoStatistics(bbox=self.box, total_points=180)
        )
        with self.assertRaises(OverflowError):
            replace(record, total_points=2**63)

    def test_a_refusal_is_kept(self):
        self.assertEqual(pickle.loads(pickle.dumps(Refusal(3))).number, 3)


class Threads(unittest.TestCase):
    def test_one_filter_by_many(self):
        wanted = Filter.intersects(Column(0, 6), BoundingBox((0, 1), (0, 1)))
        answers = []

        def work(n):
            record = fold([GeoStatistics(bbox=BoundingBox((n, n + 1), (0, 1)))] * 100)
            answers.append((n, bool(wanted.evaluate_by_position([record]))))

        threads = [threading.Thread(target=work, args=(n,)) for n in range(8)]
        for thread in threads:
            thread.start()
        for thread in threads:
            thread.join()
        self.assertEqual(sorted(answers), [(n, n <= 1) for n in range(8)])


if __name__ == "__main__":
    unittest.main()
