"""Tests of the module: on worked tables, on changed and cut ones, and against the model of the formats on tables made by chance."""

import doctest
import os
import random
import sys
import unittest

import scale_info

TOP = os.path.dirname(os.path.dirname(os.path.dirname(os.path.realpath(__file__))))


def sample(name: str) -> bytes:
    with open(os.path.join(TOP, "samples", name), "rb") as file:
        return file.read()


KINDS, VEC = sample("kinds.scale"), sample("vec_u32.scale")
VALUE, TEXT = bytes([1, 0, 0, 0, 7, 2, 0, 0, 0]), '{"left":1,"right":{"Just":[2]}}'


class Worked(unittest.TestCase):
    """What each call gives for worked tables."""

    def test_tables(self) -> None:
        scale_info.check(KINDS)
        self.assertTrue(scale_info.json(VEC).startswith('{"types":[{"id":0,'))
        self.assertEqual(scale_info.prune(VEC, [1]), sample("u32.scale"))
        self.assertEqual(scale_info.prune(VEC, []), b"\0")
        stripped = scale_info.strip(KINDS)
        self.assertEqual(scale_info.strip(stripped), stripped)
        self.assertLess(len(stripped), len(KINDS))

    def test_metadata(self) -> None:
        for name in ("metadata_14.scale", "metadata_15.scale", "metadata_16.scale", "metadata_at_version.scale", "metadata.hex"):
            self.assertEqual(scale_info.table(sample(name)), VEC, name)

    def test_types(self) -> None:
        self.assertEqual(scale_info.find(KINDS, "demo::Choice"), [2])
        self.assertEqual(scale_info.find(KINDS, "Choice"), [])
        self.assertEqual(scale_info.describe(KINDS, 4), "[u8; 3]")
        self.assertIn("struct Pair", scale_info.describe(KINDS, 0))
        self.assertIsNone(scale_info.difference(KINDS, 1, VEC, 1))
        self.assertEqual(scale_info.difference(KINDS, 3, VEC, 1), "Vec<u32> -> u32")
        self.assertEqual(scale_info.changes(KINDS, VEC), ["- demo::Pair", "- demo::Choice", "- bitvec::order::Lsb0"])
        self.assertEqual(scale_info.changes(KINDS, KINDS), [])

    def test_values(self) -> None:
        self.assertEqual(scale_info.value(KINDS, 0, VALUE), TEXT)
        self.assertEqual(scale_info.encode(KINDS, 0, TEXT), VALUE)


class Errors(unittest.TestCase):
    """Each error, and the number that goes with it."""

    def refused(self, error: type[scale_info.Error], number: int, call, *given: object) -> None:
        with self.assertRaises(error) as raised:
            call(*given)
        self.assertEqual(raised.exception.number, number)

    def test_errors(self) -> None:
        deep = sample("recursive.scale")
        self.refused(scale_info.Malformed, 0, scale_info.check, b"")
        self.refused(scale_info.TrailingBytes, 0, scale_info.check, b"\0\0")
        self.refused(scale_info.NoSuchType, 11, scale_info.prune, KINDS, [11])
        self.refused(scale_info.NoSuchType, -1, scale_info.describe, KINDS, -1)
        self.refused(scale_info.NoSuchType, 1 << 32, scale_info.describe, KINDS, 1 << 32)
        self.refused(scale_info.Dangling, 9, scale_info.prune, bytes([4, 0, 0, 0, 2, 36, 0]), [0])
        self.refused(scale_info.Version, 13, scale_info.table, b"meta\x0d\x00")
        self.refused(scale_info.NoText, 0, scale_info.find, KINDS, "\ud800")
        self.refused(scale_info.NoJson, 0, scale_info.encode, KINDS, 1, "[")
        self.refused(scale_info.Unsupported, 0, scale_info.value, KINDS, 7, b"\0")
        self.refused(scale_info.TooDeep, 0, scale_info.value, deep, 0, bytes(200))
        self.refused(scale_info.MalformedValue, 0, scale_info.value, KINDS, 1, bytes(3))
        self.refused(scale_info.TrailingValue, 0, scale_info.value, KINDS, 1, bytes(5))
        self.refused(scale_info.Mismatch, 0, scale_info.encode, KINDS, 1, "true")

    def test_said(self) -> None:
        self.assertEqual(str(scale_info.NoSuchType(11)), "no such type 11")
        self.assertEqual(str(scale_info.Malformed(0)), "the bytes are no table")


class Changed(unittest.TestCase):
    """Cut and changed tables: a call gives its output or one of its errors."""

    def outcome(self, call, *given: object) -> type[scale_info.Error] | None:
        try:
            call(*given)
        except scale_info.Error as error:
            return type(error)
        return None

    def test_cut(self) -> None:
        for length in range(len(KINDS)):
            for call, *given in ((scale_info.check,), (scale_info.json,), (scale_info.strip,), (scale_info.prune, [0]), (scale_info.find, "a")):
                self.assertEqual(self.outcome(call, KINDS[:length], *given), scale_info.Malformed, (length, call))

    def test_changed(self) -> None:
        for place in range(len(KINDS)):
            for byte in (0, 1, 4, 127, 128, 255):
                table = KINDS[:place] + bytes([byte]) + KINDS[place + 1 :]
                found = self.outcome(scale_info.check, table)
                for call, *given in ((scale_info.json,), (scale_info.strip,), (scale_info.find, "a"), (scale_info.changes, table)):
                    own = self.outcome(call, table, *given)
                    self.assertTrue(own == found or (found is None and own is scale_info.Dangling), (place, byte, call))


class Model(unittest.TestCase):
    """Cases made by chance, as checks/fuzz makes them for the programs: each answer is what the model of the formats says."""

    CASES = int(os.environ.get("SCALE_INFO_CASES", "600"))

    def test_cases(self) -> None:
        sys.path[:0] = [os.path.join(TOP, "checks"), os.path.join(TOP, "checks", "rows")]
        sys.dont_write_bytecode = True
        from fuzz_calls import cases  # noqa: PLC0415

        seed = int(os.environ.get("SCALE_INFO_SEED", "1"))
        number = 0
        for name, answer, given in cases(random.Random(seed), self.CASES):
            with self.subTest(call=name, number=number, seed=seed):
                try:
                    found = getattr(scale_info, name)(*given)
                except scale_info.Error as error:
                    found = (type(error).__name__, error.number)
                self.assertEqual(found, answer)
            number += 1
        self.assertEqual(number, self.CASES)


def load_tests(loader, tests, pattern):
    tests.addTests(doctest.DocTestSuite(scale_info))
    return tests


if __name__ == "__main__":
    unittest.main()
