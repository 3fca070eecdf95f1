/* Sessions: the other side asks, the doors answer. */
#include "test_node.h"

#include <stdio.h>

static uint32_t listener, caller, replier;

/* How long a request is open, in microseconds: one that ends by its time alone, so late the doors
 * may be with what they do before; and one that ends otherwise. */
enum { OPEN = 600000, LONG = 30000000 };

/* Terms of a request in a session that no request was in. */
static struct trdp_slot_caller request_terms(uint8_t expected, uint32_t time)
{
    static uint8_t number;
    return (struct trdp_slot_caller){ .com_id = 1201, .session = { 1, [15] = ++number },
        .expected = expected, .time = time, .source_uri = "other",
        .to = { door_address, MD }, .payload = closed, .length = 2 };
}

/* Asks, and whether the doors hear it. */
static bool is_asked(uint8_t expected, uint32_t time, uint8_t retries)
{
    struct trdp_slot_caller terms = request_terms(expected, time);
    terms.retries = retries;
    caller = replier = 0;
    if (trdp_slot_request(other, &terms, &caller) != TRDP_SLOT_OK
        || !is_told(door, TRDP_SLOT_ASKED, listener))
        return false;
    replier = told.replier;
    return memcmp(told.session, terms.session, sizeof told.session) == 0
        && told.com_id == 1201 && strcmp(told.source_uri, "other") == 0
        && told.length == 2 && told.payload[0] == 4;
}

/* Whether the other side has this answer. */
static bool is_replied(enum trdp_slot_answer answer, int32_t status, size_t length)
{
    bool is_so = is_told(other, TRDP_SLOT_REPLIED, caller);
    if (is_so && (told.answer != answer || told.status != status))
        printf("    %s %d\n", trdp_slot_answer_text(told.answer), (int)told.status);
    return is_so && told.answer == answer && told.status == status && told.length == length
        && told.com_id == 2201 && told.source.address == door_address;
}

/* A reply, an error, a query and its confirmation. */
static void answers(void)
{
    struct trdp_slot_place place;
    CHECK(is_asked(1, LONG, 0));
    CHECK_ERROR(trdp_slot_reply(door, replier, 2201, -1, closed, 1), TRDP_SLOT_REFUSED_STATUS);
    CHECK_ERROR(trdp_slot_reply(door, replier, 2201, 0, opened, 7), TRDP_SLOT_OK);
    CHECK(is_replied(TRDP_SLOT_MP, 0, 7) && memcmp(told.payload, opened, 7) == 0);
    CHECK(is_closed(other, caller, TRDP_SLOT_DONE));
    CHECK_ERROR(trdp_slot_reply(door, replier, 2201, 0, opened, 7), TRDP_SLOT_REFUSED_NO_HANDLE);
    CHECK(is_asked(1, LONG, 2));
    CHECK_ERROR(trdp_slot_replyerror(door, replier, 2201, 0), TRDP_SLOT_REFUSED_STATUS);
    CHECK_ERROR(trdp_slot_replyerror(door, replier, 2201, INT32_MIN), TRDP_SLOT_OK);
    CHECK(is_replied(TRDP_SLOT_ME, INT32_MIN, 0) && is_closed(other, caller, TRDP_SLOT_DONE));
    CHECK(is_asked(1, LONG, 0));
    CHECK_ERROR(trdp_slot_query(door, replier, 2201, 7, 999, closed, 1),
        TRDP_SLOT_REFUSED_TIMEOUT);
    CHECK_ERROR(trdp_slot_query(door, replier, 2201, INT32_MAX, LONG, closed, 1),
        TRDP_SLOT_OK);
    CHECK_ERROR(trdp_slot_query(door, replier, 2201, 7, LONG, closed, 1),
        TRDP_SLOT_REFUSED_STATE);
    CHECK(is_replied(TRDP_SLOT_MQ, INT32_MAX, 1));
    place = told.source;
    place.port ^= 1;
    CHECK_ERROR(trdp_slot_confirm(other, caller, place, 5), TRDP_SLOT_REFUSED_STATE);
    CHECK_ERROR(trdp_slot_confirm(other, caller, told.source, -1), TRDP_SLOT_REFUSED_STATUS);
    CHECK_ERROR(trdp_slot_confirm(other, caller, told.source, 5), TRDP_SLOT_OK);
    CHECK(is_closed(other, caller, TRDP_SLOT_DONE));
    CHECK(is_told(door, TRDP_SLOT_CONFIRMED, replier) && told.status == 5);
}

/* Sessions that end otherwise. */
static void endings(void)
{
    /* No one answers. */
    CHECK(is_asked(0, 60000, 0) && is_closed(door, replier, TRDP_SLOT_REPLY_MISSED));
    CHECK(is_closed(other, caller, TRDP_SLOT_NO_REPLY));
    /* It is asked again once its replier is over. */
    CHECK(is_asked(1, OPEN, 1));
    CHECK_ERROR(trdp_slot_abort(door, replier), TRDP_SLOT_OK);
    CHECK(is_told(door, TRDP_SLOT_ASKED, listener) && told.replier > replier);
    CHECK_ERROR(trdp_slot_abort(door, told.replier), TRDP_SLOT_OK);
    CHECK_ERROR(trdp_slot_abort(door, replier), TRDP_SLOT_REFUSED_NO_HANDLE);
    CHECK(is_closed(other, caller, TRDP_SLOT_NO_REPLY));
    /* Two answers are expected, and one comes. */
    CHECK(is_asked(2, OPEN, 0));
    CHECK_ERROR(trdp_slot_reply(door, replier, 2201, 0, NULL, 0), TRDP_SLOT_OK);
    CHECK(is_replied(TRDP_SLOT_MP, 0, 0));
    CHECK(is_closed(other, caller, TRDP_SLOT_NOT_ALL_REPLIES));
    /* A query that isn't confirmed. */
    CHECK(is_asked(1, OPEN, 0));
    CHECK_ERROR(trdp_slot_query(door, replier, 2201, 0, 100000, NULL, 0), TRDP_SLOT_OK);
    CHECK(is_replied(TRDP_SLOT_MQ, 0, 0) && is_closed(door, replier, TRDP_SLOT_NO_CONFIRM));
    CHECK(is_closed(other, caller, TRDP_SLOT_NOT_CONFIRMED));
    /* An answer of any number. */
    CHECK(is_asked(0, OPEN, 0));
    CHECK_ERROR(trdp_slot_reply(door, replier, 2201, 0, NULL, 0), TRDP_SLOT_OK);
    CHECK(is_replied(TRDP_SLOT_MP, 0, 0) && is_closed(other, caller, TRDP_SLOT_DONE));
    CHECK(is_quiet(other) && is_quiet(door));
}

/* A second request, which the doors can't take. */
static void overrun(void)
{
    CHECK(is_asked(1, LONG, 0));
    uint32_t first = caller, second = 0;
    struct trdp_slot_caller terms = request_terms(1, LONG);
    CHECK_ERROR(trdp_slot_request(other, &terms, &second), TRDP_SLOT_OK);
    CHECK(is_told(door, TRDP_SLOT_OVERRUN, listener));
    CHECK_ERROR(trdp_slot_abort(other, second), TRDP_SLOT_OK);
    CHECK_ERROR(trdp_slot_reply(door, replier, 2201, 0, NULL, 0), TRDP_SLOT_OK);
    CHECK(is_replied(TRDP_SLOT_MP, 0, 0) && is_closed(other, first, TRDP_SLOT_DONE));
    CHECK(is_quiet(other) && is_quiet(door));
}

/* What a node refuses of sessions, in its own words. */
static void session_refusals(void)
{
    uint32_t first = 0, second = 0, more = 99;
    struct trdp_slot_caller terms = request_terms(9, LONG);
    CHECK_ERROR(trdp_slot_request(door, &terms, &more), TRDP_SLOT_REFUSED_EXPECTED);
    terms.expected = 1;
    terms.retries = 3;
    CHECK_ERROR(trdp_slot_request(door, &terms, &more), TRDP_SLOT_REFUSED_RETRIES);
    terms.retries = 0;
    terms.time = 999;
    CHECK_ERROR(trdp_slot_request(door, &terms, &more), TRDP_SLOT_REFUSED_TIMEOUT);
    terms.time = LONG;
    terms.to.address = other_address; /* where no listener is */
    CHECK_ERROR(trdp_slot_request(door, &terms, &first), TRDP_SLOT_OK);
    CHECK_ERROR(trdp_slot_request(door, &terms, &more), TRDP_SLOT_REFUSED_SESSION_OPEN);
    terms = request_terms(1, LONG);
    terms.to.address = other_address;
    CHECK_ERROR(trdp_slot_request(door, &terms, &second), TRDP_SLOT_OK);
    terms = request_terms(1, 60000);
    terms.to.address = other_address;
    CHECK_ERROR(trdp_slot_request(door, &terms, &more), TRDP_SLOT_REFUSED_QUOTA);
    CHECK_ERROR(trdp_slot_abort(door, second), TRDP_SLOT_OK);
    CHECK_ERROR(trdp_slot_request(door, &terms, &second), TRDP_SLOT_OK);
    CHECK(is_closed(door, second, TRDP_SLOT_NO_REPLY));
    CHECK_ERROR(trdp_slot_put(door, first, closed, 1), TRDP_SLOT_REFUSED_WRONG_KIND);
    CHECK_ERROR(trdp_slot_abort(door, first), TRDP_SLOT_OK);
    /* The train is another one than that of the call. */
    script("operator topology 17 4");
    terms.etb = 18;
    CHECK_ERROR(trdp_slot_request(door, &terms, &more), TRDP_SLOT_REFUSED_STATE);
    struct trdp_slot_notification notification = { .etb = 18, .to = terms.to };
    CHECK_ERROR(trdp_slot_notify(door, &notification), TRDP_SLOT_REFUSED_STATE);
    struct trdp_slot_requester requester = { .op_trn = 5, .to = terms.to };
    CHECK_ERROR(trdp_slot_openpull(door, &requester, &first), TRDP_SLOT_OK);
    CHECK_ERROR(trdp_slot_pull(door, first), TRDP_SLOT_REFUSED_STATE);
    CHECK_ERROR(trdp_slot_closepull(door, first), TRDP_SLOT_OK);
    script("operator topology 0 0");
    CHECK(more == 99);
}

void test_sessions(void)
{
    struct trdp_slot_listener any = { .com_id = 1201 };
    CHECK_ERROR(trdp_slot_listen(door, &any, &listener), TRDP_SLOT_OK);
    answers();
    endings();
    overrun();
    session_refusals();
}
