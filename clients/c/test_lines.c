/* Calls are written, and errors are read, as docs/SCRIPT.md has them. */
#include "test_teller.h"

#include <stdio.h>

/* Each error is known by its name, and has it as its text. */
static void errors(void)
{
    char text[64];
    unsigned error = TRDP_SLOT_REFUSED_NO_HANDLE;
    for (; error <= TRDP_SLOT_FAULT_BAD_WORD; error++) {
        const char *name = trdp_slot_error_text((enum trdp_slot_error)error);
        if (error == TRDP_SLOT_REFUSED_OTHERWISE)
            name = "refused Newname";
        snprintf(text, sizeof text, "%s%s\n", name[0] == 'l' ? "" : "0 ", name);
        tell('=', text);
        CHECK_ERROR(trdp_slot_pull(&at_port.slot, 3), (enum trdp_slot_error)error);
    }
    tell('=', "line fault Newname\n");
    CHECK_ERROR(trdp_slot_pull(&at_port.slot, 3), TRDP_SLOT_FAULT_OTHERWISE);
    tell('=', "fault NoGroup\n");
    CHECK_ERROR(trdp_slot_pull(&at_port.slot, 3), TRDP_SLOT_NODE_NO_GROUP);
    tell('=', "fault SlotsFull\n");
    CHECK_ERROR(trdp_slot_pull(&at_port.slot, 3), TRDP_SLOT_NODE_SLOTS_FULL);
    tell('=', "fault Newname\n");
    CHECK_ERROR(trdp_slot_pull(&at_port.slot, 3), TRDP_SLOT_NODE_OTHERWISE);
    tell('=', "1 done\n");
    CHECK_ERROR(trdp_slot_pull(&at_port.slot, 3), TRDP_SLOT_OTHER_SLOT);
    CHECK(strcmp(trdp_slot_error_text((enum trdp_slot_error)77), "no error of a slot") == 0);
}

/* Calls of process data are written as docs/SCRIPT.md has them. */
static void data_lines(void)
{
    uint32_t handle = 0;
    struct trdp_slot *slot = &at_port.slot;
    struct trdp_slot_publisher publisher = { .com_id = 100, .dataset = 1001, .cycle = 100000,
        .group = 3, .etb = 17, .op_trn = 4, .to = { 0x0a000002, 17224 } };
    tell('=', "0 handle 7\n");
    CHECK_ERROR(trdp_slot_publish(slot, &publisher, &handle), TRDP_SLOT_OK);
    CHECK(handle == 7 && had("publish 100 1001 100000 3 17 4 10.0.0.2:17224"));
    struct trdp_slot_subscription subscription = { .com_id = 100, .dataset = 1001,
        .low = 0x0a000002, .high = 0x0a000004, .destination = 0x0a000001, .time = 500000 };
    CHECK_ERROR(trdp_slot_subscribe(slot, &subscription, &handle), TRDP_SLOT_OK);
    CHECK(had("subscribe 100 1001 10.0.0.2 10.0.0.4 10.0.0.1 0 0 500000 zero"));
    subscription.keep = true;
    CHECK_ERROR(trdp_slot_subscribe(slot, &subscription, &handle), TRDP_SLOT_OK);
    CHECK(had("subscribe 100 1001 10.0.0.2 10.0.0.4 10.0.0.1 0 0 500000 keep"));
    struct trdp_slot_requester requester = { .com_id = 100, .reply_com_id = 200,
        .reply_address = 0x0a000007, .to = { 0x0a000003, 17224 } };
    CHECK_ERROR(trdp_slot_openpull(slot, &requester, &handle), TRDP_SLOT_OK);
    CHECK(had("openpull 100 200 10.0.0.7 0 0 10.0.0.3:17224"));
    tell('=', "0 done\n");
    CHECK_ERROR(trdp_slot_put(slot, 1, (const uint8_t *)"\2\0\1\0\xff", 5), TRDP_SLOT_OK);
    CHECK(had("put 1 02000100ff"));
    CHECK_ERROR(trdp_slot_put(slot, 4294967295, NULL, 0), TRDP_SLOT_OK);
    CHECK(had("put 4294967295 -"));
    CHECK(!trdp_slot_unpublish(slot, 1) && had("unpublish 1"));
    CHECK(!trdp_slot_unsubscribe(slot, 2) && had("unsubscribe 2"));
    CHECK(!trdp_slot_pull(slot, 3) && had("pull 3"));
    CHECK(!trdp_slot_closepull(slot, 3) && had("closepull 3"));
}

/* Calls of messages are written as docs/SCRIPT.md has them. */
static void message_lines(void)
{
    uint32_t handle = 0;
    struct trdp_slot *slot = &at_port.slot;
    struct trdp_slot_listener listener = { .com_id = 300, .low = 0x0a000002, .high = 0x0a000004,
        .destination = 0x0a000001, .uri = "car" };
    tell('=', "0 handle 7\n");
    CHECK(!trdp_slot_listen(slot, &listener, &handle)
        && had("listen 300 10.0.0.2 10.0.0.4 10.0.0.1 636172 0 0"));
    CHECK(!trdp_slot_listen(slot, &(struct trdp_slot_listener){ .any = true }, &handle)
        && had("listen any 0.0.0.0 0.0.0.0 0.0.0.0 - 0 0"));
    struct trdp_slot_caller caller = { .com_id = 300, .session = { [3] = 1, [4] = 0xab, [15] = 1 },
        .expected = 2, .time = 1000000, .source_uri = "door", .destination_uri = "car",
        .to = { 0x0a000002, 17225 }, .payload = (const uint8_t *)"\r", .length = 1 };
    CHECK(!trdp_slot_request(slot, &caller, &handle)
        && had("request 300 00000001-ab00-0000-0000-000000000001 2 1000000 646f6f72 636172"
               " 0 0 10.0.0.2:17225 0d"));
    caller.retries = 2;
    caller.length = 0;
    CHECK(!trdp_slot_request(slot, &caller, &handle)
        && had("request 300 00000001-ab00-0000-0000-000000000001 2 1000000 646f6f72 636172"
               " 0 0 10.0.0.2:17225 - 2"));
    struct trdp_slot_notification notification = { .com_id = 300, .source_uri = "door",
        .to = { 0x0a000002, 17225 }, .payload = (const uint8_t *)"\r", .length = 1 };
    tell('=', "0 done\n");
    CHECK(!trdp_slot_notify(slot, &notification)
        && had("notify 300 646f6f72 - 0 0 10.0.0.2:17225 0d"));
    CHECK(!trdp_slot_reply(slot, 4, 301, 0, (const uint8_t *)"\f", 1) && had("reply 4 301 0 0c"));
    CHECK(!trdp_slot_query(slot, 4, 301, 5, 500000, NULL, 0) && had("query 4 301 5 500000 -"));
    CHECK(!trdp_slot_replyerror(slot, 4, 301, INT32_MIN)
        && had("replyerror 4 301 -2147483648"));
    CHECK(!trdp_slot_confirm(slot, 3, notification.to, 0) && had("confirm 3 10.0.0.2:17225 0"));
    CHECK(!trdp_slot_abort(slot, 3) && had("abort 3"));
    CHECK(!trdp_slot_reset(slot) && had("reset"));
    CHECK(!trdp_slot_unlisten(slot, 4) && had("unlisten 4"));
}

/* What an operator learns. */
static void operator_texts(void)
{
    struct trdp_slot_tally totals;
    struct trdp_slot_usage usages[2];
    size_t count = 0;
    struct trdp_slot_kinds quotas = { 1, 2, 3, 4, 5, 6 };
    tell('=', "taken 18446744073709551615 offered 2 lost 3 unread 4 memory 5\n");
    CHECK_ERROR(trdp_slot_totals(&at_port.slot, &totals), TRDP_SLOT_OK);
    CHECK(had("totals") && totals.taken == UINT64_MAX && totals.offered == 2);
    CHECK(totals.lost == 3 && totals.unread == 4 && totals.memory == 5);
    tell('=', "0 1/2 3/4 5/6 7/8 9/10 11/12 18446744073709551615\n1 0/1 0/0 0/0 0/0 0/0 0/0 -\n");
    CHECK_ERROR(trdp_slot_slots(&at_port.slot, usages, 2, &count), TRDP_SLOT_OK);
    CHECK(had("slots") && count == 2 && usages[0].slot == 0 && usages[1].slot == 1);
    CHECK(usages[0].objects.publishers == 1 && usages[0].objects.repliers == 11);
    CHECK(usages[0].quotas.subscriptions == 4 && usages[0].quotas.callers == 10);
    CHECK(usages[0].has_spoken && usages[0].silent == UINT64_MAX && !usages[1].has_spoken);
    CHECK_ERROR(trdp_slot_slots(&at_port.slot, usages, 1, &count), TRDP_SLOT_CUT);
    tell('=', "0 1/2 3/4 5/6 7/8 9/10 11/12 18446744073709551616\n|"
              "taken 1 offered 2 lost 3 unread 4\n|taken 1 offered 2 lost 3 unread 4 memory -\n|"
              "0 1/2 3/4 5/6 7/8 9/10 11/12\n|0 1/2 3/4 5/6 7/8 9/10 11/12 1\n\n|okay\n|ok\n");
    uint32_t strange = at_port.slot.strange;
    CHECK_ERROR(trdp_slot_addslot(&at_port.slot, &quotas), TRDP_SLOT_OK);
    CHECK(at_port.slot.strange == strange + 6 && had("addslot 1 2 3 4 5 6"));
    tell('=', "ok\n");
    CHECK(!trdp_slot_topology(&at_port.slot, 4294967295, 4) && had("topology 4294967295 4"));
    CHECK(!trdp_slot_role(&at_port.slot, 255, true) && had("role 255 leader"));
    CHECK(!trdp_slot_role(&at_port.slot, 3, false) && had("role 3 follower"));
}

/* Arguments out of their range, and lines that are too long, send nothing. */
static void arguments(void)
{
    static uint8_t bytes[4096];
    uint32_t handle = 9;
    struct trdp_slot_listener listener = { .uri = "012345678901234567890123456789012" };
    latest();
    CHECK_ERROR(trdp_slot_listen(&at_port.slot, &listener, &handle), TRDP_SLOT_ARGUMENT);
    CHECK_ERROR(trdp_slot_put(&at_port.slot, 1, NULL, 1), TRDP_SLOT_ARGUMENT);
    size_t most = (sizeof at_port.line - 6) / 2;
    CHECK_ERROR(trdp_slot_put(&at_port.slot, 1, bytes, most + 1), TRDP_SLOT_LONG);
    CHECK_ERROR(trdp_slot_put(&at_port.slot, 1, bytes, SIZE_MAX), TRDP_SLOT_LONG);
    CHECK(handle == 9 && at_port.slot.tried == 0 && had("unlisten 4"));
    listener.uri = "01234567890123456789012345678901";
    tell('=', "0 handle 1\n");
    CHECK_ERROR(trdp_slot_listen(&at_port.slot, &listener, &handle), TRDP_SLOT_OK);
    tell('=', "0 done\n");
    CHECK_ERROR(trdp_slot_put(&at_port.slot, 1, bytes, most), TRDP_SLOT_OK);
    struct trdp_slot other;
    struct trdp_slot_terms terms = at_port.slot.terms;
    terms.text_room = TRDP_SLOT_TEXT_ROOM - 1;
    CHECK_ERROR(trdp_slot_open(&other, &terms), TRDP_SLOT_ARGUMENT);
    struct trdp_slot_indication told;
    CHECK_ERROR(trdp_slot_pull(&other, 1), TRDP_SLOT_ARGUMENT);
    CHECK_ERROR(trdp_slot_next(&other, 0, &told, bytes, 1), TRDP_SLOT_ARGUMENT);
    trdp_slot_close(&other);
}

/* The longest line without a payload, and the longest answer, fit in the least rooms. */
static void longest(void)
{
    static const char uri[] = "01234567890123456789012345678901";
    static char text[2 * TRDP_SLOT_VALUE + 64];
    static uint8_t bytes[TRDP_SLOT_VALUE];
    struct trdp_slot_value value = { .length = 0 };
    uint32_t handle = 0;
    struct trdp_slot_caller caller = { .com_id = UINT32_MAX, .expected = 255, .time = UINT32_MAX,
        .source_uri = uri, .destination_uri = uri, .etb = UINT32_MAX, .op_trn = UINT32_MAX,
        .to = { UINT32_MAX, 65535 }, .retries = 255 };
    struct trdp_slot_terms terms = at_port.slot.terms;
    at_port.slot.terms.line_room = TRDP_SLOT_OVERHEAD;
    at_port.slot.terms.text_room = TRDP_SLOT_TEXT_ROOM;
    tell('=', "0 handle 1\n");
    CHECK_ERROR(trdp_slot_request(&at_port.slot, &caller, &handle), TRDP_SLOT_OK);
    size_t front = (size_t)snprintf(text, sizeof text, "0 value Silent 4294967295 ");
    memset(text + front, 'f', 2 * TRDP_SLOT_VALUE);
    memcpy(text + front + 2 * TRDP_SLOT_VALUE, "\n", 2);
    tell('=', text);
    CHECK_ERROR(trdp_slot_get(&at_port.slot, 1, &value, bytes, sizeof bytes), TRDP_SLOT_OK);
    CHECK(value.length == sizeof bytes && bytes[sizeof bytes - 1] == 255);
    at_port.slot.terms = terms;
}

void test_lines(void)
{
    errors();
    data_lines();
    message_lines();
    arguments();
    longest();
    operator_texts();
}
