"""Runs the tool from a checkout: `python3 clients/python/trdp_view`."""
from __future__ import annotations

import pathlib
import sys

if not __package__:
    # Python has this folder in its path then, and not the one with all packages.
    sys.path[0] = str(pathlib.Path(__file__).resolve().parent.parent)

from trdp_view import main  # noqa: E402

sys.exit(main())
