"""The tables of a configuration."""
from __future__ import annotations

import contextlib
import os
import tomllib
from collections.abc import Iterator, Mapping
from typing import Any

from ._faults import ConfigFault
from ._shown import shown

TOML_MOST = 1 << 24  # bytes of a file that is read: a device such as /dev/zero has no end


def read_toml(path: str | os.PathLike[str]) -> dict[str, Any]:
    with open(path, "rb") as file:
        data = file.read(TOML_MOST + 1)
    if len(data) > TOML_MOST:
        raise ConfigFault(f"the file has more than {TOML_MOST} bytes")
    try:
        return tomllib.loads(data.decode())
    except RecursionError:
        raise ConfigFault("arrays or tables nest too deep") from None


@contextlib.contextmanager
def faults_of(path: str | os.PathLike[str]) -> Iterator[None]:
    """Has each fault that is found within name the file."""
    try:
        yield
    except ConfigFault as fault:
        raise ConfigFault(f"{os.fspath(path)}: {fault}") from None


def tables(table: Mapping[str, Any], key: str) -> list[Mapping[str, Any]]:
    """The tables of an array at a key; none where it isn't there."""
    found = table.get(key, [])
    if isinstance(found, dict):
        raise ConfigFault(f"{key} is a table, and no array of tables: [[{key}]] begins each")
    if not isinstance(found, list) or not all(isinstance(it, dict) for it in found):
        raise ConfigFault(f"{key} is no array of tables")
    return found


def config_number(table: Mapping[str, Any], key: str, low: int, high: int, default: int | None = None,
                  where: str = "") -> int:
    """The whole number at a key of a table; `where` is how the table is called."""
    number = table.get(key, default)
    if number is None:
        raise ConfigFault(f"{where}{key} is missing")
    if not isinstance(number, int) or isinstance(number, bool) or not low <= number <= high:
        raise ConfigFault(f"{where}{key} is {shown(number)}, and no whole number of {low} to {high}")
    return number
