"""What a file says of the network: its telegrams by their comIds, and the datasets that they carry."""
from __future__ import annotations

from trdp_slot import Datasets, DoesNotFit
from trdp_telegram import Telegram

WITHOUT_VALUE = ("Pr", "Mc", "Me")
"""The types of telegrams that mostly carry nothing, whatever the dataset of their comId is."""


class File:
    """A configuration, or any other file with `[[dataset]]` and `[[telegram]]` tables; or that there is none."""

    def __init__(self, datasets: Datasets | None = None) -> None:
        self.is_there = datasets is not None
        self.datasets = datasets or Datasets({})
        self.named = self.datasets.by_names()
        self.known = self.datasets.telegrams
        self._lengths: dict[int, int | None] = {0: None}  # of the datasets whose values all have one length

    def dataset_of(self, com_id: int) -> int:
        """The dataset of a comId's payload; 0 if none is known."""
        return self.datasets.com_ids.get(com_id, 0)

    def is_fault(self, telegram: Telegram) -> bool:
        """Whether a telegram has a payload that is no value of its comId's dataset."""
        if telegram.kind in WITHOUT_VALUE and not telegram.payload:
            return False
        return not self.is_value(telegram.com_id, telegram.payload)

    def is_value(self, com_id: int, payload: bytes) -> bool:
        """Whether a payload is a value of the comId's dataset, as far as that is known."""
        number = self.dataset_of(com_id)
        if not number:
            return True
        length = self.length(number)
        if length is not None:
            # Any bytes are numbers, so only their count matters.
            return len(payload) == length
        try:
            self.datasets.unpack(number, payload)
        except DoesNotFit:
            return False
        return True

    def length(self, number: int) -> int | None:
        """How many bytes each value of a dataset has; None if they differ, as those with an array of size 0."""
        if number not in self._lengths:
            within = (it for it in self.datasets.elements[number] if isinstance(it.type, int))
            is_fixed = all(it.size for it in self.datasets.elements[number]) and all(
                self.length(it.type) is not None for it in within if isinstance(it.type, int))
            self._lengths[number] = self.datasets.zero_size(number) if is_fixed else None
        return self._lengths[number]
