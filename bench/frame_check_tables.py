#!/usr/bin/env python3
"""Writes crates/trdp_fcs/src/tables.rt: the frame check's registers past bytes of 0."""
from __future__ import annotations


import subprocess
from pathlib import Path

GENERATOR = 0xEDB88320
OUT = Path(__file__).resolve().parent.parent / "crates/trdp_fcs/src/tables.rt"

HEAD = """\
//! The register past bytes of 0, for each first byte: what the frame check looks up.
//!
//! The numbers are written by `bench/frame_check_tables.py`; that they are right is proved.

/// The first table is the register past one byte of 0, the eighth that past eight, each at the
/// byte that the register was before.
"""


def past_zero(register: int) -> int:
    """The register past one byte of 0."""
    for _ in range(8):
        register = register >> 1 ^ (GENERATOR if register % 2 else 0)
    return register


def main() -> None:
    row = list(range(256))
    rows = []
    for _ in range(8):
        row = [past_zero(register) for register in row]
        rows.append("[" + ", ".join(f"0x{register:08x}" for register in row) + "]")
    OUT.write_text(
        HEAD
        + "pub(crate) static TABLES: [[u32; 256]; 8] = [\n"
        + ",\n".join(rows)
        + ",\n];\n"
    )
    subprocess.run(["rt", "fmt"], cwd=OUT.parent.parent, check=True)


if __name__ == "__main__":
    main()
