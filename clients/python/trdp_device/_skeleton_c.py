"""The application of a slot in C, which puts zeros and prints what it hears."""
from __future__ import annotations

from ipaddress import IPv4Address

from trdp_slot import Datasets

from ._calls import Call, Kind
from ._skeleton import made_calls, remarks
from ._slots import Slot

PROGRAM = """\
/* The application @NAME@ of slot @NUMBER@: it puts zeros, and prints what it hears. Written by trdp-import.
 *
 *     cc -std=c99 -Wall -Wextra -O2 -o @NAME@ @NAME@_skeleton.c
 *     ./@NAME@ [PATH]
 *
 * The node has to run: trdpd daemon node.toml. PATH is that of the slot's control socket, if it has one.
 * trdp-structs writes a struct for each dataset.@REMARKS@ */
#include "trdp_slot.h"

#include <stdio.h>

struct publisher {
    const char *name;
    struct trdp_slot_publisher terms;
    size_t length; /* of the value */
    uint32_t handle;
};

struct subscription {
    const char *name;
    struct trdp_slot_subscription terms;
    uint32_t handle;
};

struct listener {
    const char *name;
    struct trdp_slot_listener terms;
    uint32_t handle;
};

/* An entry without a name is behind the last one. */
static struct publisher publishers[] = {
@PUBLISHERS@    { NULL, { 0, 0, 0, 0, 0, 0, { 0, 0 } }, 0, 0 }
};

static struct subscription subscriptions[] = {
@SUBSCRIPTIONS@    { NULL, { 0, 0, 0, 0, 0, 0, 0, 0, false }, 0 }
};

static struct listener listeners[] = {
@LISTENERS@    { NULL, { false, 0, 0, 0, 0, NULL, 0, 0 }, 0 }
};

/* Makes all objects, in a slot in which nothing is left of an earlier program. */
static enum trdp_slot_error make(struct trdp_slot *slot)
{
    enum trdp_slot_error error = trdp_slot_reset(slot);
    for (struct publisher *it = publishers; it->name != NULL && error == TRDP_SLOT_OK; it++)
        error = trdp_slot_publish(slot, &it->terms, &it->handle);
    for (struct subscription *it = subscriptions; it->name != NULL && error == TRDP_SLOT_OK; it++)
        error = trdp_slot_subscribe(slot, &it->terms, &it->handle);
    for (struct listener *it = listeners; it->name != NULL && error == TRDP_SLOT_OK; it++)
        error = trdp_slot_listen(slot, &it->terms, &it->handle);
    return error;
}

/* Gives each publisher a value. Before that it sends nothing. */
static enum trdp_slot_error put_zeros(struct trdp_slot *slot)
{
    static const uint8_t zeros[TRDP_SLOT_VALUE];
    enum trdp_slot_error error = TRDP_SLOT_OK;
    for (struct publisher *it = publishers; it->name != NULL && error == TRDP_SLOT_OK; it++)
        error = trdp_slot_put(slot, it->handle, zeros, it->length);
    return error;
}

/* Prints what each subscription shows. */
static enum trdp_slot_error show(struct trdp_slot *slot)
{
    static uint8_t bytes[TRDP_SLOT_VALUE];
    enum trdp_slot_error error = TRDP_SLOT_OK;
    for (struct subscription *it = subscriptions; it->name != NULL && error == TRDP_SLOT_OK; it++) {
        struct trdp_slot_value value;
        error = trdp_slot_get(slot, it->handle, &value, bytes, sizeof bytes);
        if (error == TRDP_SLOT_OK)
            printf("%s %s %u bytes\\n", it->name, trdp_slot_state_text(value.state), (unsigned)value.length);
    }
    return error;
}

/* Prints what the node reports within a second. */
static enum trdp_slot_error hear(struct trdp_slot *slot)
{
    static uint8_t bytes[TRDP_SLOT_MESSAGE];
    int64_t end = trdp_slot_now() + 1000, left;
    while ((left = end - trdp_slot_now()) > 0) {
        struct trdp_slot_indication told;
        enum trdp_slot_error error = trdp_slot_next(slot, (uint32_t)left, &told, bytes, sizeof bytes);
        if (error == TRDP_SLOT_OK)
            printf("%s %u\\n", trdp_slot_kind_text(told.kind), (unsigned)told.handle);
        else if (error == TRDP_SLOT_LOST)
            printf("%u lost\\n", (unsigned)told.lost);
        else if (error != TRDP_SLOT_TIMEOUT)
            return error;
    }
    return TRDP_SLOT_OK;
}

/* Makes and shows, until a call fails, for example because the node was started again. */
static enum trdp_slot_error run(struct trdp_slot *slot)
{
    enum trdp_slot_error error = make(slot);
    if (error == TRDP_SLOT_OK)
        error = put_zeros(slot);
    while (error == TRDP_SLOT_OK) {
        error = show(slot);
        if (error == TRDP_SLOT_OK)
            error = hear(slot);
    }
    return error;
}

int main(int argc, char **argv)
{
    static char line[TRDP_SLOT_OVERHEAD + 2 * TRDP_SLOT_VALUE], text[TRDP_SLOT_LINE];
    static uint8_t kept[TRDP_SLOT_LINE];
    static struct trdp_slot slot;
    struct trdp_slot_terms terms = { .address = 0x7f000001, .port = @PORT@, .number = @NUMBER@,
        .timeout = 200, .tries = 3,
        .line = line, .line_room = sizeof line, .text = text, .text_room = sizeof text,
        .kept = kept, .kept_room = sizeof kept };
    enum trdp_slot_error error = argc > 1 ? trdp_slot_open_path(&slot, argv[1], &terms)
        : trdp_slot_open(&slot, &terms);
    setvbuf(stdout, NULL, _IOLBF, 0);
    while (error != TRDP_SLOT_ARGUMENT && error != TRDP_SLOT_BUSY) {
        error = run(&slot);
        printf("%s\\n", trdp_slot_error_text(error));
        poll(NULL, 0, 1000); /* and begin again */
    }
    trdp_slot_close(&slot);
    return 1;
}
"""


def c_text(slot: Slot, number: int, datasets: Datasets) -> str:
    """The program of a slot."""
    found = remarks(slot)
    lines = ["\n *\n * What has no line in the file of this slot:", *(f"\n *     {comment(it)}" for it in found)]
    words = {
        "NAME": slot.name, "NUMBER": str(number), "PORT": str(slot.port), "REMARKS": "".join(lines) if found else "",
        "PUBLISHERS": "".join(publisher(it, datasets) for it in made_calls(slot, Kind.PUBLISHER)),
        "SUBSCRIPTIONS": "".join(map(subscription, made_calls(slot, Kind.SUBSCRIPTION))),
        "LISTENERS": "".join(map(listener, made_calls(slot, Kind.LISTENER))),
    }
    text = PROGRAM
    for word, value in words.items():
        text = text.replace(f"@{word}@", value)
    return text


def comment(line: str) -> str:
    """A line in a comment of C."""
    return line.replace("*/", "*_/").replace("/*", "/_*")


def publisher(call: Call, datasets: Datasets) -> str:
    """The entry of a publisher."""
    _, com_id, dataset, cycle, group, etb, op_trn, place = call.lines[-1].split(" ")
    length = datasets.zero_size(call.dataset) if call.dataset else 0
    home, _, port = place.partition(":")
    return (f'    {{ "{call.name}", {{ {com_id}, {dataset}, {cycle}, {group}, {etb}, {op_trn}, '
            f"{{ {address(home)}, {port} }} }}, {length}, 0 }},\n")


def subscription(call: Call) -> str:
    """The entry of a subscription."""
    _, com_id, dataset, low, high, dest, etb, op_trn, time, behaviour = call.lines[-1].split(" ")
    keeps = "true" if behaviour == "keep" else "false"
    return (f'    {{ "{call.name}", {{ {com_id}, {dataset}, {address(low)}, {address(high)}, {address(dest)}, {etb}, '
            f"{op_trn}, {time}, {keeps} }}, 0 }},\n")


def listener(call: Call) -> str:
    """The entry of a listener."""
    _, com_id, low, high, dest, uri, etb, op_trn = call.lines[-1].split(" ")
    user = "NULL" if uri == "-" else '"' + "".join(f"\\{it:03o}" for it in bytes.fromhex(uri)) + '"'
    return (f'    {{ "{call.name}", {{ false, {com_id}, {address(low)}, {address(high)}, {address(dest)}, {user}, '
            f"{etb}, {op_trn} }}, 0 }},\n")


def address(text: str) -> str:
    """An address as a number of C."""
    return f"0x{int(IPv4Address(text)):08x}"
