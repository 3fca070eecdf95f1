"""Why calls are refused: of each call its refusals in their order, and whether they apply."""
from __future__ import annotations

from collections.abc import Callable, Iterator
from typing import TYPE_CHECKING, Any

from .data import Publisher, Requester
from .messages import Caller, Replier
from .rules import counts_match
from .telegrams import MD_PAYLOAD_MAX, PD_PAYLOAD_MAX
from .texts import Pair

if TYPE_CHECKING:
    from .slot import Slot

# Refusals in their order, and whether each applies.
Reasons = Iterator[tuple[str, bool]]

SHORTEST = 1000
EXPECTED_MAX = 8
RETRIES_MAX = 2


def dataset_refusals(slot: Slot, dataset: int) -> Reasons:
    datasets = slot.setting.datasets
    yield "NoDataset", not datasets.has(dataset)
    yield "TooLong", datasets.zero_size(dataset) > PD_PAYLOAD_MAX


def publish(slot: Slot, it: Any, com_id: int, dataset: int, cycle: int, group: int, etb: int, op_trn: int,
            to: Pair) -> Reasons:
    yield "Cycle", 0 < cycle < SHORTEST
    yield from dataset_refusals(slot, dataset)
    yield "Quota", slot.is_full("publisher")


def put(slot: Slot, publisher: Publisher, value: bytes) -> Reasons:
    yield "TooLong", len(value) > PD_PAYLOAD_MAX
    yield "Shape", not slot.setting.datasets.fits(publisher.dataset, value)


def subscribe(slot: Slot, it: Any, com_id: int, dataset: int, low: int, high: int, dest: int, etb: int, op_trn: int,
              time: int, zero: bool) -> Reasons:
    yield "Timeout", 0 < time < SHORTEST
    yield "Range", low > high
    yield from dataset_refusals(slot, dataset)
    yield "Quota", slot.is_full("subscription")


def openpull(slot: Slot, it: Any, *terms: Any) -> Reasons:
    yield "Quota", slot.is_full("requester")


def pull(slot: Slot, requester: Requester) -> Reasons:
    yield "State", not counts_match(requester.topo, slot.setting.topo)


def listen(slot: Slot, it: Any, com_id: int, low: int, high: int, *terms: Any) -> Reasons:
    yield "Range", low > high
    yield "Quota", slot.is_full("listener")


def notify(slot: Slot, it: Any, com_id: int, source_uri: bytes, dest_uri: bytes, etb: int, op_trn: int, to: Pair,
           payload: bytes) -> Reasons:
    yield "State", not counts_match((etb, op_trn), slot.setting.topo)
    yield "TooLong", len(payload) > MD_PAYLOAD_MAX


def request(slot: Slot, it: Any, com_id: int, session: int, expected: int, time: int, source_uri: bytes,
            dest_uri: bytes, etb: int, op_trn: int, to: Pair, payload: bytes, retries: int) -> Reasons:
    yield "State", not counts_match((etb, op_trn), slot.setting.topo)
    yield "Timeout", time < SHORTEST
    yield "Expected", expected > EXPECTED_MAX
    yield "TooLong", len(payload) > MD_PAYLOAD_MAX
    yield "SessionOpen", slot.has_session("caller", session)
    yield "Quota", slot.is_full("caller")
    yield "Retries", retries > RETRIES_MAX


def reply(slot: Slot, replier: Replier, com_id: int, status: int, payload: bytes) -> Reasons:
    yield "State", not replier.asked
    yield "Status", status < 0
    yield "TooLong", len(payload) > MD_PAYLOAD_MAX


def query(slot: Slot, replier: Replier, com_id: int, status: int, time: int, payload: bytes) -> Reasons:
    yield "State", not replier.asked
    yield "Timeout", time < SHORTEST
    yield "Status", status < 0
    yield "TooLong", len(payload) > MD_PAYLOAD_MAX


def replyerror(slot: Slot, replier: Replier, com_id: int, status: int) -> Reasons:
    yield "State", not replier.asked
    yield "Status", status >= 0


def confirm(slot: Slot, caller: Caller, place: Pair, status: int) -> Reasons:
    yield "State", not caller.answers.get(place)
    yield "Status", status < 0


def nothing(slot: Slot, it: Any) -> Reasons:
    yield from ()


RULES: dict[str, Callable[..., Reasons]] = {
    "publish": publish, "put": put, "unpublish": nothing, "subscribe": subscribe, "get": nothing,
    "unsubscribe": nothing, "openpull": openpull, "pull": pull, "closepull": nothing, "listen": listen,
    "unlisten": nothing, "notify": notify, "request": request, "reply": reply, "query": query,
    "replyerror": replyerror, "confirm": confirm, "abort": nothing,
}  # fmt: skip


def refusal_of(word: str, slot: Slot, it: Any, values: tuple[Any, ...]) -> str | None:
    """The first refusal of a call that applies, None where none does; `it` is the object that is called, if one is."""
    return next((name for name, applies in RULES[word](slot, it, *values) if applies), None)
