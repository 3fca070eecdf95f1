"""Makes the configuration of a node from the XML device configuration of IEC 61375-2-3, for trdp_import.py.

`import_device` reads a file and makes a node of one of its interfaces, `files_of` and `skeletons_of` make the texts of
its files, and `write_folder` writes them. What is lost, and what else there is to know, is in a `Report`.
"""
from __future__ import annotations

from ._faults import DeviceFault, WrongWords
from ._files import files_of, import_device, skeletons_of
from ._folder import write_folder
from ._hosts import Hosts, read_hosts
from ._importing import OPERATOR_AFTER
from ._node import Node, Wanted
from ._report import Report
from ._tree import FILE_MOST

__all__ = ["FILE_MOST", "OPERATOR_AFTER", "DeviceFault", "Hosts", "Node", "Report", "Wanted", "WrongWords", "files_of",
           "import_device", "read_hosts", "skeletons_of", "write_folder"]
