"""Names of a configuration as identifiers, which are the same in Python, C and C++.

A name that is no identifier has `_` in place of every other character, and before a leading digit. A keyword of one of
the languages has `_` after it. A name that equals an earlier one except for case gets `_2`, then `_3`, and so on. Of
several `_` at the beginning one stays: a class of Python hides a name that begins with two.
"""
from __future__ import annotations

import itertools
import keyword
import re
from collections.abc import Container, Iterable, Iterator
from typing import NamedTuple

C_WORDS = frozenset("""
    _Alignas _Alignof _Atomic _BitInt _Bool _Complex _Decimal128 _Decimal32 _Decimal64 _Generic _Imaginary _Noreturn
    _Static_assert _Thread_local alignas alignof asm auto bool break case char const constexpr continue default do
    double else enum extern false float for goto if inline int long nullptr register restrict return short
    signed sizeof static static_assert struct switch thread_local true typedef typeof typeof_unqual union unsigned void
    volatile while
    errno linux s6_addr st_atime st_ctime st_mtime unix
""".split())
"""The keywords of C99 to C23, and macros in small letters, which the compiler or a header of the system defines."""

CPP_WORDS = frozenset("""
    alignas alignof and and_eq asm auto bitand bitor bool break case catch char char16_t char32_t char8_t class co_await
    co_return co_yield compl concept const const_cast consteval constexpr constinit continue decltype default delete do
    double dynamic_cast else enum explicit export extern false float for friend goto if inline int long mutable
    namespace new noexcept not not_eq nullptr operator or or_eq private protected public register reinterpret_cast
    requires return short signed sizeof static static_assert static_cast struct switch template this thread_local throw
    true try typedef typeid typename union unsigned using virtual void volatile wchar_t while xor xor_eq
""".split())
"""The keywords of C++11 to C++23."""

WORDS = C_WORDS | CPP_WORDS | frozenset(keyword.kwlist)
"""The words that are no identifiers in one of the languages."""


class Spelling(NamedTuple):
    """A name, and the identifier that it becomes."""

    name: str
    identifier: str

    @property
    def is_changed(self) -> bool:
        """Whether the identifier differs from the name."""
        return self.name != self.identifier

    def __str__(self) -> str:
        """What a tool says of a name that is changed."""
        return f"the name {self.name!r} is written {self.identifier}"


def spellings(names: Iterable[str], reserved: Container[str] = ()) -> list[Spelling]:
    """The identifiers of names that lie side by side, in their order, all of them different. `reserved` has further
    words that are treated as keywords."""
    taken: set[str] = set()
    found: list[Spelling] = []
    for name in names:
        identifier = next(it for it in candidates(name, reserved) if it.lower() not in taken)
        taken.add(identifier.lower())
        found.append(Spelling(name, identifier))
    return found


def candidates(name: str, reserved: Container[str]) -> Iterator[str]:
    """What a name may become: the first one that no earlier name has is taken."""
    first = identifier_of(name, reserved)
    yield first
    for number in itertools.count(2):
        yield numbered(first, number)


def identifier_of(name: str, reserved: Container[str] = ()) -> str:
    """What a name becomes if no earlier name has it."""
    first = visible(re.sub("[^A-Za-z0-9_]", "_", name))
    if not first or first[0].isdigit():
        first = "_" + first
    return first + "_" if first in WORDS or first in reserved else first


def numbered(identifier: str, number: int) -> str:
    """What a name becomes if an earlier name has its identifier."""
    return visible(f"{identifier}_{number}")


def visible(identifier: str) -> str:
    """An identifier that begins with one underscore at most."""
    return re.sub("^__+", "_", identifier)
