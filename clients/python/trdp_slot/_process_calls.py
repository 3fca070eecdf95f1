"""The calls of process data."""
from __future__ import annotations

from typing import Any

from ._client import Client, one_at_a_time
from ._indications import Handle, Value
from ._limits import ANY, PD_MOST
from ._records import must_be_class
from ._words import address_word, bytes_of, counts_words, hex_word, number_word, place_word


class ProcessCalls(Client):
    """Publishers, subscriptions and requesters."""

    @one_at_a_time
    def publish(self, com_id: int, place: str, *, dataset: int = 0, cycle_us: int = 0, group: int = 0, etb: int = 0,
                op_trn: int = 0, tries: int = 1) -> Handle:
        """Makes a publisher, which sends a value of `dataset` (0: bytes) to `place` every `cycle_us` (0: when it is
        pulled, else 1000 or more) while the node leads redundancy group `group` (0: always), once it has a value by
        `put`.

        A second try, where the answer to the first got lost, makes a second publisher."""
        words = [number_word("com_id", com_id), number_word("dataset", dataset), number_word("cycle_us", cycle_us),
                 number_word("group", group, 0, 255), *counts_words(etb, op_trn), place_word("place", place)]
        return self._calls.open("publisher", "publish", words, tries, dataset)

    @one_at_a_time
    def put(self, handle: Handle | int, value: Any, *, tries: int | None = None) -> None:
        """Gives a publisher its value. A value of its dataset is packed, and refused by DoesNotFit where it doesn't
        fit; bytes are sent as they are, and the node looks whether they are one. A second try does no harm."""
        dataset = handle.dataset if isinstance(handle, Handle) else 0
        data = self._payload(dataset, value, PD_MOST)
        self._calls.act("put", handle, [hex_word(data)], self._terms.tries_of(tries))
        if isinstance(handle, Handle):
            handle._data = data

    @one_at_a_time
    def unpublish(self, handle: Handle | int, *, tries: int | None = None) -> None:
        """Ends a publisher. A second try does no harm."""
        self._calls.end("unpublish", handle, tries)

    @one_at_a_time
    def subscribe(self, com_id: int, *, dataset: int = 0, low: str = ANY, high: str = ANY, dest: str = ANY,
                  etb: int = 0, op_trn: int = 0, time_us: int = 0, behaviour: str = "zero", tries: int = 1) -> Handle:
        """Makes a subscription of telegrams of `com_id` whose payload is a value of `dataset` (0: bytes), from an
        address in `low` to `high`, sent to `dest`. `time_us` is the supervision time (0: none, else 1000 or more),
        after which without a telegram `Silent` is reported and the value becomes zero (`behaviour` "zero") or stays
        ("keep").

        A second try, where the answer to the first got lost, makes a second subscription, of which no one knows the
        handle."""
        if behaviour not in ("zero", "keep"):
            raise ValueError(f"behaviour is {behaviour!r}, and neither zero nor keep")
        words = [number_word("com_id", com_id), number_word("dataset", dataset), address_word("low", low),
                 address_word("high", high), address_word("dest", dest), *counts_words(etb, op_trn),
                 number_word("time_us", time_us), behaviour]
        return self._calls.open("subscription", "subscribe", words, tries, dataset)

    @one_at_a_time
    def get(self, handle: Handle | int, *, into: type[Any] | None = None, tries: int | None = None) -> Value:
        """What a subscription shows: its state, the counter of its latest telegram, and the value, which is an instance
        of `into`, where that is given: a dataclass that `trdp-structs` wrote. A second try does no harm. Raises
        DoesNotFit where the daemon has another dataset of that number than this client."""
        if into is not None:
            must_be_class(into)
        _, state, counter, word = self._calls.act("get", handle, [], self._terms.tries_of(tries), "value")
        dataset = handle.dataset if isinstance(handle, Handle) else 0
        data = bytes_of(word)
        is_value = into is not None or dataset in self.datasets
        return Value(state, int(counter), self.datasets.unpack(dataset, data, into=into) if is_value else data)

    @one_at_a_time
    def unsubscribe(self, handle: Handle | int, *, tries: int | None = None) -> None:
        """Ends a subscription. A second try does no harm."""
        self._calls.end("unsubscribe", handle, tries)

    @one_at_a_time
    def openpull(self, com_id: int, place: str, *, reply_com_id: int = 0, reply_address: str = ANY, etb: int = 0,
                 op_trn: int = 0, tries: int = 1) -> Handle:
        """Makes a requester, which asks `place` for `reply_com_id` (0: for `com_id`) by requests of `com_id`; the
        reply goes to `reply_address` (0.0.0.0: to where the request came from). A second try may make a second
        requester."""
        words = [number_word("com_id", com_id), number_word("reply_com_id", reply_com_id),
                 address_word("reply_address", reply_address), *counts_words(etb, op_trn), place_word("place", place)]
        return self._calls.open("requester", "openpull", words, tries)

    @one_at_a_time
    def pull(self, handle: Handle | int, *, tries: int = 1) -> None:
        """Sends one pull request. A second try may send a second one."""
        self._calls.act("pull", handle, [], tries)

    @one_at_a_time
    def closepull(self, handle: Handle | int, *, tries: int | None = None) -> None:
        """Ends a requester. A second try does no harm."""
        self._calls.end("closepull", handle, tries)
