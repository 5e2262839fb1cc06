"""Tests of bwlchareg.py, with the examples of its text and of README.md. Run as a program."""

import ctypes
import doctest
import os
import pickle
import re
import shutil
import subprocess
import sys
import tempfile
import unittest
from array import array
from concurrent.futures import ThreadPoolExecutor
from decimal import Decimal
from pathlib import Path
from unittest import mock

import bwlchareg
from bwlchareg import Kind, Label, Mark, Query, Reason, Refusal
from bwlchareg import check, check_query, credentials, list_sets, verify, write

HERE = Path(bwlchareg.__file__).resolve().parent
LIBRARY = bwlchareg._library._name

SHOP = [
    [1, 1, Kind.LINKING, 3, 2, 0],  # Shop.discount <- Shop.accredited.student
    [1, 3, Kind.MEMBERSHIP, 2, 0, 0],  # Shop.accredited <- School
    [2, 2, Kind.MEMBERSHIP, 4, 0, 0],  # School.student <- Ann
    [1, 1, Kind.MEMBERSHIP, 4, 0, 0],  # Shop.discount <- Ann
]
ANN = Query(principal=4, owner=1, name=1, depth=2)
RECORD = [1, 2, 2, 0, 3, 0]


def table(credential_list, cells=(), automata=(), edges=()):
    """The table of these records."""
    sorts = [credential_list, cells, automata, edges]
    return [len(sort) for sort in sorts] + [number for sort in sorts for one in sort for number in one]


T = table(SHOP)
CONSTRAINED = table(
    [*SHOP[:2], SHOP[2][:5] + [1], SHOP[3]],
    automata=[[1, 2, Mark.EVERY_WORD]],
    edges=[[1, 0, Label.OTHER_ROLES, 1, 1, 1], [1, 1, Label.EVERY_ROLE, 0, 0, 1]],
)

# For each refusal an input, and the position.
REFUSED = {
    Reason.SHORT_HEAD: (0, lambda: check([0, 0, 0])),
    Reason.COUNT_OVER_LIMIT: (0, lambda: check([21, 0, 0, 0])),
    Reason.WRONG_LENGTH: (0, lambda: check(T[:-1])),
    Reason.CREDENTIAL: (2, lambda: check(table([SHOP[0], [1, 3, 5, 2, 0, 0]]))),
    Reason.PART_CELL: (1, lambda: check(table([], cells=[[1, 1, 1]]))),
    Reason.CHAIN: (1, lambda: check(table([[1, 1, Kind.INTERSECTION, 1, 0, 0]], cells=[[1, 1, 0]]))),
    Reason.EDGE: (1, lambda: check(table([], (), [[1, 1, 0]], [[1, 0, Label.ROLES_OF_OWNER, 1, 1, 0]]))),
    Reason.QUERY: (4, lambda: check_query(T, ANN._replace(depth=17))),
    Reason.NO_MINIMAL_SET: (0, lambda: list_sets([0, 0, 0, 0], ANN)),
    Reason.LONGER_LIST: (0, lambda: with_most_sets(1)),
    Reason.RECORD_LENGTH: (3, lambda: verify(T, ANN, RECORD[:4])),
    Reason.NODE: (2, lambda: verify(T, ANN, [1, 4, 2, 0, 3, 0])),
    Reason.BRANCH: (2, lambda: verify(T, ANN._replace(depth=1), RECORD)),
    Reason.WORD: (1, lambda: verify(CONSTRAINED, ANN, RECORD)),
    Reason.NOT_LISTED: (0, lambda: write(T, ANN, 15)),
    Reason.LONGER_RECORD: (0, lambda: write(T, ANN, 7, limit=5)),
    Reason.MARK: (2, lambda: check(table([], automata=[[1, 1, Mark.SOME_WORD], [1, 1, 2]]))),
}


def with_most_sets(most):
    """The list of T, if there could be no more sets than so many."""
    with mock.patch.object(bwlchareg, "MAX_SETS", most):
        return list_sets(T, ANN)


class Calls(unittest.TestCase):
    def test_the_shop(self):
        self.assertIsNone(check(T))
        self.assertIsNone(check_query(T, ANN))
        self.assertEqual(list_sets(T, ANN), [7, 8])
        self.assertEqual(list_sets(T, ANN._replace(depth=1)), [8])
        self.assertEqual(list_sets(CONSTRAINED, ANN), [8])
        self.assertEqual(write(T, ANN, 7), RECORD)
        self.assertEqual(write(T, ANN, 8, limit=2), [4, 0])
        self.assertEqual(verify(T, ANN, RECORD), 7)

    def test_sets(self):
        self.assertEqual(credentials(0), [])
        self.assertEqual(credentials(0b1101), [1, 3, 4])
        self.assertEqual(credentials(0xFFFFFFFF), list(range(1, 33)))

    def test_a_long_list_and_a_long_record(self):
        """Six roles in a row that contain each other in three ways, and a last one in two."""
        rows = [[1, role, Kind.CONTAINMENT, 1, role + 1, 0] for role in range(1, 7) for _ in range(3)]
        long = table(rows + [[1, 7, Kind.MEMBERSHIP, 4, 0, 0]] * 2)
        sets = list_sets(long, ANN._replace(depth=7))
        self.assertEqual(len(sets), 3**6 * 2)
        self.assertEqual(sets, sorted(set(sets)))
        self.assertTrue(all(len(credentials(one)) == 7 for one in sets))

        # Each of twelve roles asks twice for the next: 2^12 - 1 nodes.
        rows = [[1, role, Kind.INTERSECTION, 2 * role - 1, 0, 0] for role in range(1, 12)]
        cells = [[1, role + 1, next] for role in range(1, 12) for next in (2 * role, 0)]
        wide = table(rows + [[1, 12, Kind.MEMBERSHIP, 4, 0, 0]], cells)
        query = ANN._replace(depth=12)
        record = write(wide, query, 2**12 - 1, limit=8190)
        self.assertEqual(len(record), 8190)
        self.assertEqual(verify(wide, query, record), 2**12 - 1)
        with self.assertRaisesRegex(Refusal, "^refused 16 at 0: "):
            write(wide, query, 2**12 - 1, limit=8189)

    def test_threads_at_once(self):
        asked = [ANN._replace(principal=1 + i % 5, depth=1 + i % 3) for i in range(300)]
        alone = [answer(query) for query in asked]
        with ThreadPoolExecutor(max_workers=8) as threads:
            self.assertEqual(list(threads.map(answer, asked)), alone)
        self.assertIn([7, 8], alone)


def answer(query):
    try:
        return list_sets(T, query)
    except Refusal as refusal:
        return str(refusal)


class Refusals(unittest.TestCase):
    def test_each_is_raised_with_number_position_and_words(self):
        self.assertEqual(set(REFUSED), set(Reason))
        for reason, (position, call) in REFUSED.items():
            with self.subTest(reason=reason), self.assertRaises(Refusal) as raised:
                call()
            refusal = raised.exception
            self.assertEqual((refusal.number, refusal.position), (reason, position))
            self.assertEqual(refusal.position_words != "", position != 0)
            self.assertEqual(str(pickle.loads(pickle.dumps(refusal))), str(refusal))

    def test_in_words(self):
        said = {4: "refused 4 at 3, the credential: a field of the credential is outside what its kind allows"}
        said[9] = "refused 9 at 0: there is no minimal set"
        said[18] = "refused 18 at 0: not a refusal of version " + bwlchareg.VERSION
        for number, words in said.items():
            self.assertEqual(str(Refusal(number, 3 if number == 4 else 0)), words)


class Inputs(unittest.TestCase):
    def test_any_sequence_and_bytes(self):
        packed = b"".join(number.to_bytes(2, "little") for number in T)
        for same in (tuple(T), array("H", T), array("Q", T), packed, bytearray(packed), memoryview(packed)):
            self.assertEqual(list_sets(same, ANN), [7, 8], type(same))
        self.assertEqual(verify(T, tuple(ANN), array("H", RECORD)), 7)

    def test_nothing(self):
        for nothing in ([], (), b"", array("H")):
            with self.assertRaisesRegex(Refusal, "^refused 1 at 0: "):
                check(nothing)
            with self.assertRaisesRegex(Refusal, "^refused 11 at 1, "):
                verify(T, ANN, nothing)
        with self.assertRaisesRegex(Refusal, "^refused 16 at 0: "):
            write(T, ANN, 7, limit=0)

    def test_the_edges_of_a_range_go_to_the_library(self):
        for number in (0, 65535):
            with self.assertRaisesRegex(Refusal, "^refused 4 at 1, "):
                check([1, 0, 0, 0, 1, 1, number, 4, 0, 0])
        with self.assertRaisesRegex(Refusal, "^refused 15 at 0: "):
            write(T, ANN, 2**32 - 1)

    def test_numbers_out_of_range(self):
        for number in (-1, 65536, 2**63, -(2**64), 10**5000):
            self.raises(ValueError, r"table\[3\] is ", check, [0, 0, 0, number])
            self.raises(ValueError, r"record\[1\] is ", verify, T, ANN, [1, number])
            self.raises(ValueError, r"query\.depth is ", check_query, T, ANN._replace(depth=number))
        for number in (-1, 2**32):
            self.raises(ValueError, "credential_set is ", write, T, ANN, number)
            self.raises(ValueError, "credential_set is ", credentials, number)
        self.raises(ValueError, "limit is -1, ", write, T, ANN, 7, -1)
        self.raises(ValueError, r"table\[0\] is 65536, not 0 to 65535$", check, [65536])
        self.raises(ValueError, "record has 3 bytes", verify, T, ANN, b"123")

    def test_wrong_types(self):
        for wrong in (1.0, "1", None, Decimal(1), [1]):
            self.raises(TypeError, r"table\[0\] is a ", check, [wrong, 0, 0, 0])
            self.raises(TypeError, r"query\.owner is a ", list_sets, T, ANN._replace(owner=wrong))
            self.raises(TypeError, "credential_set is a ", credentials, wrong)
        for wrong in (None, 7, [1, 2, 3], "abc"):
            self.raises(TypeError, "", check_query, T, wrong)
        self.raises(TypeError, "", check, None)

    def raises(self, error, words, call, *arguments):
        with self.subTest(call=call.__name__), self.assertRaisesRegex(error, words):
            call(*arguments)


def words_of_cases(text):
    """The words that a C function returns, by number."""
    found = re.findall(r'((?:case \d+: )+)return "(.*)";', text)
    return {int(number): said for cases, said in found for number in re.findall(r"\d+", cases)}


class Header(unittest.TestCase):
    """The module has what bindings/c/bwlchareg.h has."""

    text = (HERE.parent / "c/bwlchareg.h").read_text()

    def test_constants(self):
        here = dict(vars(bwlchareg))
        for names in (Kind, Label, Mark):
            here.update(names.__members__)
        here.update({f"REFUSED_{reason.name}": reason for reason in Reason}, ACCEPTED=0)
        there = re.findall(r"^    BWLCHAREG_(\w+) = (\d+)", self.text, re.MULTILINE)
        self.assertEqual(len(there), 46)
        for name, number in there:
            self.assertEqual(here.get(name), int(number), name)

    def test_version(self):
        there = dict(re.findall(r"^#define BWLCHAREG_(VERSION\w*) (.*)$", self.text, re.MULTILINE))
        self.assertEqual(there["VERSION"], f'"{bwlchareg.VERSION}"')
        self.assertEqual(int(there["VERSION_NUMBER"]), bwlchareg.VERSION_NUMBER)
        parts = [int(there[f"VERSION_{part}"]) for part in ("MAJOR", "MINOR", "PATCH")]
        self.assertEqual(".".join(map(str, parts)), bwlchareg.VERSION)
        self.assertEqual(parts[0] * 10000 + parts[1] * 100 + parts[2], bwlchareg.VERSION_NUMBER)

    def test_words(self):
        words, positions = map(words_of_cases, self.text.split("*bwlchareg_position_words("))
        self.assertEqual(words, {0: "accepted", **{reason: Refusal(reason, 0).words for reason in Reason}})
        for reason in Reason:
            self.assertEqual(positions.get(reason, ""), Refusal(reason, 1).position_words, reason)

    def test_calls_are_declared(self):
        for name, parameters in re.findall(r"^uint32_t bwlchareg_(\w+)\(([^)]*)\);", self.text, re.MULTILINE):
            if name != "version":
                call = getattr(bwlchareg._library, f"bwlchareg_{name}")
                self.assertEqual(len(call.argtypes), parameters.count(",") + 1, name)
                self.assertIs(call.restype, ctypes.c_uint32)


class Loading(unittest.TestCase):
    def run_python(self, folder, **environment):
        command = [sys.executable, "-B", "-c", "import bwlchareg; print(bwlchareg._library._name)"]
        environment = {**os.environ, "PYTHONPATH": str(folder), **environment}
        return subprocess.run(command, env=environment, capture_output=True, text=True, cwd="/")

    def test_a_library_that_is_named_and_missing_or_another(self):
        for wrong in ("/nowhere/libbwlchareg.so", "/", "libm.so.6"):
            ran = self.run_python(HERE, BWLCHAREG_LIBRARY=wrong)
            self.assertIn("ImportError: cannot load bwlchareg's shared library: ", ran.stderr)
            self.assertNotEqual(ran.returncode, 0)

    def test_another_version(self):
        number = bwlchareg.VERSION_NUMBER
        with mock.patch.object(ctypes, "CDLL") as loaded:
            version = loaded.return_value.bwlchareg_version
            for version.return_value in (number, number // 100 * 100 + 99):
                self.assertIs(bwlchareg._loaded("one"), loaded.return_value)
            for version.return_value in (number - 100, number + 100, number + 10000):
                with self.assertRaisesRegex(ImportError, f"^one has version number [0-9]+, not {number}$"):
                    bwlchareg._loaded("one")

    @unittest.skipUnless(Path(LIBRARY).is_file(), "the library is known by its name alone")
    def test_the_library_beside_the_module(self):
        with tempfile.TemporaryDirectory() as folder:
            library = Path(folder, "libbwlchareg.so." + bwlchareg.VERSION[:-2]).resolve()
            shutil.copy(bwlchareg.__file__, folder)
            shutil.copy(LIBRARY, library)
            ran = self.run_python(folder, BWLCHAREG_LIBRARY="")
            self.assertEqual(ran.stdout.strip(), str(library), ran.stderr)


def load_tests(loader, tests, pattern):
    tests.addTests(doctest.DocTestSuite(bwlchareg))
    tests.addTests(doctest.DocFileSuite("README.md"))
    return tests


if __name__ == "__main__":
    unittest.main()
