#!/usr/bin/env python3
"""What `trdpd` says where there is no configuration to look at: its help, its version, and files that can't be read.

It was proved with the logic of the toolchain that is here, as `rt version` prints it.

    bench/command_words.py [PROGRAM]              default: crates/trdpd/out/trdpd (./run prove builds it)

Prints a line for each case whose words or status differ, and then how many there were. The status is 0 where none
differs. As root it leaves out the file that no one may read, since root may.
"""
from __future__ import annotations

import os
import pathlib
import subprocess
import sys
import tempfile

TOP = os.path.dirname(os.path.dirname(os.path.abspath(__file__)))
sys.path.insert(0, f"{TOP}/package")
from version import program_version  # noqa: E402

HELP = """\
A communication node for the Train Real-time Data Protocol (TRDP, IEC 61375-2-3)

Usage: trdpd <COMMAND>

Commands:
  check   Say what a configuration means, or what is wrong with it
  run     Play the script at standard input; print what the node gives
  serve   Serve the node for N turns without a rest; print its totals
  daemon  Serve the node at its ports until it is stopped
  help    Print this message or the help of the given subcommand(s)

Options:
  -h, --help     Print help
  -V, --version  Print version

Example, with a configuration of this project:
  trdpd check examples/control/door.toml
  trdpd daemon examples/control/door.toml --totals 60

The manual page: man trdpd, or man docs/trdpd.1 in the project's folder
"""
UNREADABLE = "config fault Unreadable\n"
# The ways to learn why a file can't be read, and those that stay at one line.
TELLING = (["check"], ["daemon"])
SHORT = (["run"], ["serve", "--turns", "0"])


def version() -> str:
    """The line of the version, from the program's source and from the toolchain."""
    kit = subprocess.run([os.environ.get("RT") or "rt", "version"], capture_output=True, text=True, check=True).stdout
    return f"trdpd {program_version()}, proved with logic {kit.split()[-1]}\n"


def cases(folder: pathlib.Path) -> list[tuple[list[str], int, str, str]]:
    """Words, and the status, the output and the error stream of each."""
    missing, kept = folder / "missing.toml", folder / "kept.toml"
    kept.write_text("")
    kept.chmod(0)
    files = [(missing, "No such file or directory (os error 2)"), (folder, "Is a directory (os error 21)")]
    if os.geteuid() != 0:
        files.append((kept, "Permission denied (os error 13)"))
    found = [([word], 2, "", HELP) for word in ("--help", "-h", "help")]
    found += [([word], 0, version(), "") for word in ("--version", "-V")]
    for path, why in files:
        found += [([*words, str(path)], 1, "", f"{UNREADABLE}{path}: {why}\n") for words in TELLING]
        found += [([*words, str(path)], 1, "", UNREADABLE) for words in SHORT]
    return found


def main(program: str = f"{TOP}/crates/trdpd/out/trdpd") -> int:
    program = os.path.abspath(program)
    faults = 0
    with tempfile.TemporaryDirectory() as folder:
        rows = cases(pathlib.Path(folder))
        for words, status, output, errors in rows:
            ran = subprocess.run([program, *words], stdin=subprocess.DEVNULL, capture_output=True, text=True,
                                 timeout=60)
            if (ran.returncode, ran.stdout, ran.stderr) != (status, output, errors):
                faults += 1
                print(f"{' '.join(words)}: {ran.returncode}, {ran.stdout!r}, {ran.stderr!r}")
    print(f"{len(rows)} command lines, {faults} differ")
    return 1 if faults else 0


if __name__ == "__main__":
    sys.exit(main(*sys.argv[1:]))
