"""The calls of message data."""
from __future__ import annotations

import uuid
from typing import Any

from ._client import Client, one_at_a_time
from ._indications import Handle
from ._limits import ANY, MD_MOST
from ._words import address_word, counts_words, hex_word, number_word, place_word, session_word, status_word, uri_word


class MessageCalls(Client):
    """Listeners, callers and repliers."""

    @one_at_a_time
    def listen(self, com_id: int | None, *, low: str = ANY, high: str = ANY, dest: str = ANY, uri: str = "",
               etb: int = 0, op_trn: int = 0, tries: int = 1) -> Handle:
        """Makes a listener to messages of `com_id` (None: of any) from an address in `low` to `high`, sent to
        `dest`, whose destination URI is `uri` ("": any). `Notified`, `Asked` and `Overrun` report what it hears.

        A second try may make a second listener, which hears nothing while the first one is there."""
        words = ["any" if com_id is None else number_word("com_id", com_id), address_word("low", low),
                 address_word("high", high), address_word("dest", dest), uri_word("uri", uri),
                 *counts_words(etb, op_trn)]
        return self._calls.open("listener", "listen", words, tries)

    @one_at_a_time
    def unlisten(self, handle: Handle | int, *, tries: int | None = None) -> None:
        """Ends a listener. Its open repliers stay. A second try does no harm."""
        self._calls.end("unlisten", handle, tries)

    @one_at_a_time
    def notify(self, com_id: int, place: str, value: Any = b"", *, dataset: int = 0, source_uri: str = "",
               dest_uri: str = "", etb: int = 0, op_trn: int = 0, tries: int = 1) -> None:
        """Sends one notification, with bytes or a value of `dataset`. A second try may send a second one."""
        words = [number_word("com_id", com_id), uri_word("source_uri", source_uri), uri_word("dest_uri", dest_uri),
                 *counts_words(etb, op_trn), place_word("place", place),
                 hex_word(self._payload(dataset, value, MD_MOST))]
        self._calls.call(["notify", *words], tries)

    @one_at_a_time
    def request(self, com_id: int, place: str, value: Any = b"", *, dataset: int = 0, session: uuid.UUID | None = None,
                expected: int = 1, time_us: int = 5_000_000, source_uri: str = "", dest_uri: str = "", etb: int = 0,
                op_trn: int = 0, retries: int = 0, tries: int = 1) -> Handle:
        """Makes a caller, and sends its request, with bytes or a value of `dataset`. Answers of `expected` places
        (1 to 8; 0: any number) are waited for over `time_us` (1000 or more), and reported by `Replied`; `Closed`
        says how it ended. `retries` (0 to 2) is how often the node sends it again while no one answers. `session`
        names the exchange; where it is None, a random one is used.

        A second try, where the answer to the first got lost, is refused by SessionOpen, as the first one's session
        is open; what results from that one is reported under a handle of kind "unknown"."""
        session = session or uuid.uuid4()
        words = [number_word("com_id", com_id), session_word(session), number_word("expected", expected, 0, 255),
                 number_word("time_us", time_us), uri_word("source_uri", source_uri),
                 uri_word("dest_uri", dest_uri), *counts_words(etb, op_trn), place_word("place", place),
                 hex_word(self._payload(dataset, value, MD_MOST))]
        if retries:
            words.append(number_word("retries", retries, 0, 255))
        return self._calls.open("caller", "request", words, tries)

    @one_at_a_time
    def reply(self, handle: Handle | int, com_id: int, value: Any = b"", *, dataset: int = 0, status: int = 0,
              tries: int = 1) -> None:
        """Answers what a replier was asked, with bytes or a value of `dataset`; the replier is over. `status` is 0
        or more.

        A second try sends no second reply: where the first one took effect it is refused by NoHandle."""
        data = self._payload(dataset, value, MD_MOST)
        words = [number_word("com_id", com_id), status_word(status), hex_word(data)]
        self._calls.act("reply", handle, words, tries)
        self._objects.forget(handle)

    @one_at_a_time
    def query(self, handle: Handle | int, com_id: int, value: Any = b"", *, dataset: int = 0, status: int = 0,
              time_us: int = 5_000_000, tries: int = 1) -> None:
        """Answers in the same way, and waits over `time_us` (1000 or more) for a confirmation: `Confirmed` or
        `Closed` says how it ended. A second try sends no second one: where the first one took effect it is
        refused by State."""
        words = [number_word("com_id", com_id), status_word(status), number_word("time_us", time_us),
                 hex_word(self._payload(dataset, value, MD_MOST))]
        self._calls.act("query", handle, words, tries)

    @one_at_a_time
    def replyerror(self, handle: Handle | int, com_id: int, status: int, *, tries: int = 1) -> None:
        """Answers by an error, with a `status` below 0; the replier is over. A second try sends no second one:
        where the first one took effect it is refused by NoHandle."""
        self._calls.act("replyerror", handle, [number_word("com_id", com_id), status_word(status)], tries)
        self._objects.forget(handle)

    @one_at_a_time
    def confirm(self, handle: Handle | int, place: str, status: int = 0, *, tries: int = 1) -> None:
        """Confirms the query that a caller has from `place`, which is the `source` of its `Replied`. `status` is 0
        or more. A second try sends no second one: where the first one took effect it is refused by State or
        NoHandle."""
        self._calls.act("confirm", handle, [place_word("place", place), status_word(status)], tries)

    @one_at_a_time
    def abort(self, handle: Handle | int, *, tries: int | None = None) -> None:
        """Ends a caller or a replier at once. The other side isn't informed. A second try does no harm."""
        self._calls.end("abort", handle, tries)
