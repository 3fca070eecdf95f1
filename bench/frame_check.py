#!/usr/bin/env python3
"""How fast the frame check is, beside a plain body with the same tables, one with one table, and zlib's.

    bench/frame_check.py [--save]           needs rt, rustc and zlib's library

The crate trdp_fcs is built into a static library, with a function that C calls, and linked with bench/frame_check.rs,
which times all bodies in one process. A line has the bytes, the body, nanoseconds of a check (the best of 50 rounds),
and how many times as long the proved body takes.
"""
from __future__ import annotations

import re
import subprocess

import results
from proved_library import run

LINE = re.compile(r" *(\d+)  (\S.*?) +([\d.]+) +[\d.]+ times")
LIBRARY = """\
//! The frame check for a C caller.
#![tactic(auto)]

use trdp_fcs::frame_check;

/// The frame check of the bytes.
#[unsafe(no_mangle)]
pub extern "C" fn proved_frame_check(bytes: &[u8]) -> u32 {
    frame_check(bytes)
}
"""


def main() -> None:
    given = results.arguments(__doc__).parse_args()
    rows: list[dict[str, object]] = []

    def play(program: str) -> None:
        said = subprocess.run([program], stdout=subprocess.PIPE, text=True, check=True).stdout
        print(said, end="")
        rows.extend({"bytes": int(it[1]), "body": it[2], "ns": float(it[3])} for it in LINE.finditer(said))

    run("frame_check", ["trdp_fcs"], {"lib.rt": LIBRARY}, play, ["z"])
    if given.save:
        # The crate is proved before it is built.
        results.save("frame_check", {"rows": rows}, proved=True)


if __name__ == "__main__":
    main()
