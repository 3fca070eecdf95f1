"""What a captured packet holds: the IPv4 packet behind the header of its link."""
from __future__ import annotations

ETHERNET, RAW_IP, COOKED, IPV4, COOKED_2 = 1, 101, 113, 228, 276
"""The types of links that are understood, by the numbers of captures: of Linux cooked captures both versions."""
WITHOUT_HEADER = (RAW_IP, IPV4)
# Where the header of a link has the type of what follows, and where that begins.
HEADERS = {ETHERNET: (12, 14), COOKED: (14, 16), COOKED_2: (0, 20)}
LINKS = (*WITHOUT_HEADER, *HEADERS)
TYPE_IPV4 = b"\x08\x00"
VLAN_TAGS = (b"\x81\x00", b"\x88\xa8", b"\x91\x00")


def ip_packet(link: int, data: bytes) -> bytes | None:
    """The IPv4 packet in a packet of a link that is one of LINKS; None if it holds none."""
    if link in WITHOUT_HEADER:
        return data
    place, start = HEADERS[link]
    kind = data[place:place + 2]
    while kind in VLAN_TAGS:
        # A tag has two bytes of its own, and then the type of what follows.
        kind = data[start + 2:start + 4]
        start += 4
    return data[start:] if kind == TYPE_IPV4 else None
