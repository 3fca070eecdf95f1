"""Values as people read them: with names and units, scaled, and the raw numbers beside them."""
from __future__ import annotations

import unittest

from test_values import datasets
from trdp_slot import DoesNotFit, Element, decimals_of

# An element, the bytes of its value, and what people read of that.
ELEMENTS = [
    ("type = 'INT16', unit = 'km/h', scale = 0.1", "00fd", "25.3 km/h (253)"),
    ("type = 'INT16', unit = '°C', scale = 0.5, offset = -40", "0000", "-40.0 °C (0)"),
    ("type = 'INT8', scale = -0.1", "00", "0.0 (0)"), ("type = 'UINT8', scale = 2", "05", "10 (5)"),
    ("type = 'UINT8', offset = 0.25", "05", "5.25 (5)"), ("type = 'UINT8', unit = '%'", "05", "5 %"),
    ("type = 'UINT8', size = 2, unit = 'V', scale = 0.1", "0103", "[0.1, 0.3] V ([1, 3])"),
    ("type = 'UINT64', scale = 0.001", "ffffffffffffffff", "1.84467440737096e+16 (18446744073709551615)"),
    ("type = 'UINT8', scale = 1e-300", "03", "3e-300 (3)"),
    ("type = 10, as = 'REAL32', unit = 'm'", "3dcccccd", "0.1 m"),
    ("type = 10, as = 'REAL32', unit = 'm', scale = 1000", "3dcccccd", "100 m (0.1)"),
    ("type = 10, as = 'REAL32', size = 2", "7f7fffffff800000", "[3.4028235e+38, -inf]"),
    ("type = 11, as = 'REAL64'", "3fd5555555555555", "0.3333333333333333"),
    ("type = 'BOOL8'", "01", "True (1)"), ("type = 'BOOL8', size = 2", "0007", "[False, 7] ([0, 7])"),
    ("type = 'BITSET8'", "01", "1"), ("type = 1, as = 'ANTIVALENT8'", "01", "False (1)"),
    ("type = 'BITSET8', as = 'ANTIVALENT8'", "03", "3"),
    ("type = 'TIMEDATE48', unit = 's'", "000000010002", "(1, 2) s"),
    ("type = 'CHAR8', size = 4", "4f27c3bc", "\"O'ü\""), ("type = 'CHAR8', size = 2", "c341", "[195, 65]"),
    ("type = 'CHAR8', size = 2, scale = 2", "0102", "[2, 4] ([1, 2])"), ("type = 'UTF16', size = 2", "20ac0000", "'€'"),
]


class Readings(unittest.TestCase):
    """What `reading` answers."""

    def test_each_kind_of_element(self) -> None:
        """Of a number that is scaled or means something, the raw one is in brackets."""
        for element, data, read in ELEMENTS:
            with self.subTest(element, data=data):
                of = datasets(f"[[dataset]]\nid = 40\nelement = [{{ {element}, name = 'it' }}]")
                self.assertEqual(of.reading(40, bytes.fromhex(data)), f"{{it: {read}}}")

    def test_datasets(self) -> None:
        """What has no names is read as a list, within others and alone; names are before what has one."""
        of = datasets("[[dataset]]\nid = 40\nelement = [{ type = 8 }, { type = 1, size = 0 }, { type = 2, size = 2 }]\n"
                      "[[dataset]]\nid = 41\nelement = [{ type = 40 }, { type = 42, size = 2, name = 'lamps' }]\n"
                      "[[dataset]]\nid = 42\nelement = [{ type = 8, name = 'on' }, { type = 10, as = 'REAL32' }]\n")
        data = bytes.fromhex("02" "0100" "4142" "05" "3f800000" "06" "00000000")
        self.assertEqual(of.reading(40, data[:5]), str(of.unpack(40, data[:5])))
        self.assertEqual(of.reading(41, data), "{[2, [1, 0], [65, 66]], lamps: [{on: 5, 1}, {on: 6, 0}]}")
        self.assertEqual(of.reading(0, b"\x01\x02"), "0102")
        with self.assertRaisesRegex(DoesNotFit, "^dataset 40: 1 bytes are left over$"):
            of.reading(40, data[:6])

    def test_decimals(self) -> None:
        """They are those of scale and offset; a REAL has its own, and a double has no more than 15."""
        for element, decimals in [
            (Element("UINT8", 1), 0), (Element("UINT8", 1, scale=100.0), 0), (Element("UINT8", 1, scale=0.25), 2),
            (Element("UINT8", 1, scale=0.5, offset=-0.125), 3), (Element("UINT8", 1, scale=1e-15), 15),
            (Element("UINT8", 1, scale=1e-16), None), (Element("UINT32", 1, as_="REAL32", scale=0.5), None),
        ]:
            self.assertEqual(decimals_of(element), decimals)
