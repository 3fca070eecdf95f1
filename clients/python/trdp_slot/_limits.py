"""The limits of lines, values and slots."""
from __future__ import annotations

PD_MOST = 1432
"""The most bytes that a telegram of process data carries."""
MD_MOST = 65388
"""The most bytes that a message carries, and the most of a dataset's zero value."""
DATAGRAM_MOST = 65507
"""The most bytes of one datagram, and so of one line to a UDP control port."""
LINE_MOST = 140_000
"""The most bytes of a line over a control socket, with its end."""
PATH_MOST = 107
"""The most bytes of a control socket's path."""
ANY = "0.0.0.0"
"""In a filter: from any address, to any address."""
U32_MOST = 0xFFFFFFFF
SLOTS_MOST = 16
"""The most slots of a node."""
LEASE_MOST = 86_400_000_000
"""The longest lease of a daemon, in microseconds."""
