"""Names of a configuration as identifiers of Python, C and C++."""
from __future__ import annotations

import keyword
import unittest

from trdp_slot._spelling import WORDS, spellings


class Spellings(unittest.TestCase):
    """What each name becomes."""

    def test_names(self) -> None:
        """Other characters, digits and keywords are changed; names that differ only in case get a number."""
        cases = {
            ("doors", "_x", "Temp_1"): ("doors", "_x", "Temp_1"),
            ("door state", "2nd-door", "Tür", "a.b[0]", ""): ("door_state", "_2nd_door", "T_r", "a_b_0_", "_"),
            ("class", "lambda", "None", "double", "and", "new", "restrict", "unix", "Class"):
                ("class_", "lambda_", "None_", "double_", "and_", "new_", "restrict_", "unix_", "Class"),
            ("door", "Door", "DOOR", "other"): ("door", "Door_2", "DOOR_3", "other"),
            ("a-b", "a_b", "A b", "a_b_2"): ("a_b", "a_b_2", "A_b_3", "a_b_2_2"),
            ("a_2", "a", "A"): ("a_2", "a", "A_3"),
            ("if", "if_", "IF_"): ("if_", "if__2", "IF__3"),
            ("__init__", "--", "_x__y", "+", "2", "_2_2"): ("_init__", "_", "_x__y", "_2", "_2_2", "_2_2_2"),
        }
        for names, identifiers in cases.items():
            with self.subTest(names):
                self.assertEqual(tuple(it.identifier for it in spellings(names)), identifiers)

    def test_changed(self) -> None:
        """Each changed name is known, and is described by a sentence; a tool may reserve further words."""
        found = spellings(["door", "door-state", "list"], reserved={"list"})
        self.assertEqual([it.is_changed for it in found], [False, True, True])
        self.assertEqual([str(it) for it in found if it.is_changed],
                         ["the name 'door-state' is written door_state", "the name 'list' is written list_"])

    def test_keywords(self) -> None:
        """Each keyword of this Python is changed, and no changed word is a keyword again."""
        found = [it.identifier for it in spellings(sorted(WORDS))]
        self.assertEqual([it for it in found if keyword.iskeyword(it) or it in WORDS], [])
        self.assertLessEqual(set(keyword.kwlist), WORDS)
