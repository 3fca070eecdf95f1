"""Why nothing is imported."""
from __future__ import annotations


class DeviceFault(ValueError):
    """A file is no device configuration. The text begins with the line, if the fault has one."""

    def __init__(self, line: int | None, text: str) -> None:
        super().__init__(text if line is None else f"line {line}: {text}")


class WrongWords(ValueError):
    """The words of the command line do not match the file, such as an interface that it does not have."""
