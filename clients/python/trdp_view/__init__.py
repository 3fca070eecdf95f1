"""A page that shows how a network of TRDP differs from its configuration.

    trdp-view 10.0.0.2 --group 239.192.0.1 --toml node.toml
    dumpcap -i eth0 -w - | trdp-view - --toml node.toml
    trdp-view capture.pcapng --toml node.toml --print

It reads the telegrams that come to the ports of an address, or those of a capture, and serves a page at 127.0.0.1.
`docs/trdp-view.1` says what the page shows and what --print prints.
"""
from __future__ import annotations

from .command import main

__all__ = ["main"]
