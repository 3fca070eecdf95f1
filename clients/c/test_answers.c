/* Answers that come late or twice or not at all, marks, the question whose port it is, indications
 * that are kept, and a lease. */
#include "test_teller.h"

#include <stdio.h>

/* Answers that come late or twice, and what isn't an answer. */
static void stale_answers(void)
{
    uint32_t handle = 0, stale = at_port.slot.stale, strange = at_port.slot.strange;
    struct trdp_slot_requester requester = { .com_id = 1 };
    struct trdp_slot_value value = { .length = 0 };
    uint8_t bytes[4];
    tell('=', "0 done\n|0 handle 8\n|0 handle 8\n");
    CHECK_ERROR(trdp_slot_openpull(&at_port.slot, &requester, &handle), TRDP_SLOT_OK);
    CHECK(handle == 8 && at_port.slot.stale == stale + 1);
    latest();
    tell('=', "0 value Valid 1 0a0b0c0d0e\n");
    CHECK_ERROR(trdp_slot_get(&at_port.slot, 1, &value, bytes, sizeof bytes), TRDP_SLOT_CUT);
    CHECK(at_port.slot.stale == stale + 2 && value.length == 5 && bytes[3] == 0x0d);
    CHECK_ERROR(trdp_slot_get(&at_port.slot, 1, &value, NULL, 0), TRDP_SLOT_CUT);
    tell('=', "0 value Valid 1 0|0 handle x\n|done\n|\n|0 opened\n|0 done|0 done\n");
    CHECK_ERROR(trdp_slot_pull(&at_port.slot, 1), TRDP_SLOT_OK);
    CHECK(at_port.slot.strange == strange + 6);
    /* What waits before a call isn't its answer, though it is of its form. */
    stale = at_port.slot.stale;
    tell('!', "0 done\n|0 refused Range\n|0 silent 9\n");
    latest();
    tell('=', "0 refused State\n");
    CHECK_ERROR(trdp_slot_pull(&at_port.slot, 1), TRDP_SLOT_REFUSED_STATE);
    struct trdp_slot_indication told;
    CHECK_ERROR(trdp_slot_next(&at_port.slot, 0, &told, NULL, 0), TRDP_SLOT_OK);
    CHECK(at_port.slot.stale == stale + 2 && told.handle == 9);
    /* No answer at all: that many tries of that many milliseconds. */
    tell('=', "");
    int64_t start = trdp_slot_now();
    at_port.slot.terms.timeout = 20;
    at_port.slot.terms.tries = 3;
    CHECK_ERROR(trdp_slot_pull(&at_port.slot, 1), TRDP_SLOT_TIMEOUT);
    CHECK(at_port.slot.tried == 3 && trdp_slot_now() - start >= 60);
    at_port.slot.terms.timeout = ANSWER;
    at_port.slot.terms.tries = 1;
}

/* The next indication. */
static struct trdp_slot_indication next(enum trdp_slot_error wanted, uint32_t wait)
{
    static uint8_t bytes[4];
    struct trdp_slot_indication told;
    memset(&told, 0, sizeof told);
    CHECK_ERROR(trdp_slot_next(&at_port.slot, wait, &told, bytes, sizeof bytes), wanted);
    return told;
}

/* Indications that come while an answer is awaited are kept in their order; and those for which
 * there is no room are reported as lost. */
static void kept_indications(void)
{
    tell('=', "0 silent 1\n|0 alive 2\n|0 closed 3 Done\n|0 done\n|0 silent 4\n");
    CHECK_ERROR(trdp_slot_pull(&at_port.slot, 1), TRDP_SLOT_OK);
    CHECK(at_port.slot.kept_length > 0 && next(TRDP_SLOT_OK, 0).kind == TRDP_SLOT_FELL_SILENT);
    CHECK(next(TRDP_SLOT_OK, 0).handle == 2 && next(TRDP_SLOT_OK, 0).reason == TRDP_SLOT_DONE);
    CHECK(at_port.slot.kept_length == 0 && next(TRDP_SLOT_OK, ANSWER).handle == 4);
    next(TRDP_SLOT_TIMEOUT, 10);
    /* Room for two of eleven bytes and four each, and not for a third. */
    size_t room = at_port.slot.terms.kept_room;
    at_port.slot.terms.kept_room = 44;
    tell('=', "0 silent 1\n|0 silent 2\n|0 silent 3\n|0 silent 4\n|0 done\n");
    CHECK_ERROR(trdp_slot_pull(&at_port.slot, 1), TRDP_SLOT_OK);
    CHECK(next(TRDP_SLOT_LOST, 0).lost == 2 && next(TRDP_SLOT_OK, 0).handle == 1);
    CHECK(next(TRDP_SLOT_OK, 0).handle == 2);
    next(TRDP_SLOT_TIMEOUT, 0);
    at_port.slot.terms.kept_room = 0;
    CHECK_ERROR(trdp_slot_pull(&at_port.slot, 1), TRDP_SLOT_OK);
    CHECK(next(TRDP_SLOT_LOST, 0).lost == 4);
    at_port.slot.terms.kept_room = room;
    /* A payload that is longer than the room. */
    tell('=', "0 notified 1 10.0.0.2:17225 300 - 61 0102030405\n|0 done\n");
    CHECK_ERROR(trdp_slot_pull(&at_port.slot, 1), TRDP_SLOT_OK);
    struct trdp_slot_indication told = next(TRDP_SLOT_CUT, 0);
    CHECK(told.length == 5 && told.payload[3] == 4 && told.com_id == 300);
}

/* A datagram that is longer than the slot's text is reported as lost. */
static void overlong(void)
{
    static char text[6000];
    size_t front = (size_t)snprintf(text, sizeof text, "0 notified 1 10.0.0.2:17225 300 - - ");
    memset(text + front, '0', 5000);
    memcpy(text + front + 5000, "\n|0 done\n", 10);
    tell('=', text);
    CHECK_ERROR(trdp_slot_pull(&at_port.slot, 1), TRDP_SLOT_OK);
    CHECK(next(TRDP_SLOT_LOST, 0).lost == 1);
    memcpy(text + front + 5000, "\n", 2);
    tell('!', text);
    latest();
    CHECK(next(TRDP_SLOT_LOST, 100).lost == 1);
    next(TRDP_SLOT_TIMEOUT, 0);
}

/* Takes all that waits; counts what comes, and what is reported as lost. */
static void take_all(uint32_t *told_of, uint32_t *lost)
{
    struct trdp_slot_indication told;
    enum trdp_slot_error error;
    while ((error = trdp_slot_next(&at_port.slot, 0, &told, NULL, 0)) != TRDP_SLOT_TIMEOUT) {
        if (!CHECK(error == TRDP_SLOT_OK || error == TRDP_SLOT_LOST))
            return;
        *told_of += error == TRDP_SLOT_OK;
        *lost += told.lost;
    }
}

/* What the system drops as its buffer is full is reported with the next datagram, where the system
 * counts it. */
static void flood(void)
{
    int room = 4096;
    uint32_t lost = 0, told_of = 0;
    setsockopt(at_port.slot.socket, SOL_SOCKET, SO_RCVBUF, &room, sizeof room);
    for (int i = 1; i <= 200; i++) {
        tell('!', "0 silent 1\n");
        if (i % 50 == 0)
            latest(); /* so that the daemon's buffer isn't full too */
    }
    take_all(&told_of, &lost);
    CHECK(told_of > 0 && told_of < 200);
    tell('!', "0 silent 1\n");
    latest();
    take_all(&told_of, &lost);
#ifdef SO_RXQ_OVFL
    CHECK(lost > 0 && told_of + lost == 201);
#endif
}

/* A reset is over with the mark after it, and sent again where that isn't answered, or the answer
 * to the reset itself isn't there. */
static void reset(void)
{
    uint32_t handle = 0, stale = at_port.slot.stale;
    struct trdp_slot_requester requester = { .com_id = 1 };
    at_port.slot.terms.timeout = 300;
    at_port.slot.terms.tries = TRIES;
    tell('=', "0 silent 1\n|0 done\n");
    tell('%', "1");
    CHECK_ERROR(trdp_slot_reset(&at_port.slot), TRDP_SLOT_OK);
    CHECK(at_port.slot.tried >= 2 && at_port.slot.tried < TRIES);
    CHECK(next(TRDP_SLOT_OK, 0).handle == 1);
    at_port.slot.terms.timeout = 600;
    at_port.slot.terms.tries = 3;
    tell('=', "");
    CHECK_ERROR(trdp_slot_reset(&at_port.slot), TRDP_SLOT_TIMEOUT);
    CHECK(at_port.slot.tried == 3 && had("reset"));
    /* No mark is answered, and so nothing is made. */
    at_port.slot.terms.tries = 1;
    tell('=', "0 done\n");
    tell('%', "2");
    CHECK_ERROR(trdp_slot_reset(&at_port.slot), TRDP_SLOT_TIMEOUT);
    tell('=', "0 handle 7\n");
    CHECK_ERROR(trdp_slot_openpull(&at_port.slot, &requester, &handle), TRDP_SLOT_TIMEOUT);
    CHECK(at_port.slot.tried == 0 && handle == 0 && had("reset"));
    at_port.slot.terms.timeout = ANSWER;
    CHECK_ERROR(trdp_slot_openpull(&at_port.slot, &requester, &handle), TRDP_SLOT_OK);
    CHECK(handle == 7 && at_port.slot.tried == 1 && at_port.slot.stale == stale);
    CHECK(next(TRDP_SLOT_OK, 0).handle == 1);
    /* Answers to marks that come late are none to a call; and a port that is another slot's. */
    at_port.slot.marks = 2;
    at_port.slot.mark = 0;
    tell('=', "line fault Count\n|line fault Unknown\n|line fault BadWord\n");
    CHECK_ERROR(trdp_slot_pull(&at_port.slot, 1), TRDP_SLOT_FAULT_BAD_WORD);
    tell('=', "1 done\n");
    CHECK_ERROR(trdp_slot_reset(&at_port.slot), TRDP_SLOT_OTHER_SLOT);
}

/* An answer that comes after its time isn't that to the next call. */
static void late_answers(void)
{
    uint32_t handle = 0, stale = at_port.slot.stale;
    struct trdp_slot_requester requester = { .com_id = 1 };
    tell('=', "");
    at_port.slot.terms.timeout = 20;
    CHECK_ERROR(trdp_slot_openpull(&at_port.slot, &requester, &handle), TRDP_SLOT_TIMEOUT);
    at_port.slot.terms.timeout = ANSWER;
    tell('=', "0 handle 8\n");
    tell('!', "0 handle 7\n"); /* which waits before the answer to the mark */
    CHECK_ERROR(trdp_slot_openpull(&at_port.slot, &requester, &handle), TRDP_SLOT_OK);
    CHECK(handle == 8 && at_port.slot.stale == stale + 1);
}

/* A remark where a third of the lease has passed. */
static void lease(void)
{
    uint32_t told_of = 0, lost = 0;
    tell('=', "0 done\n");
    CHECK_ERROR(trdp_slot_pull(&at_port.slot, 5), TRDP_SLOT_OK);
    next(TRDP_SLOT_TIMEOUT, 100);
    CHECK(had("pull 5"));
    at_port.slot.terms.lease = 60;
    next(TRDP_SLOT_TIMEOUT, 0);
    CHECK(had("#"));
    CHECK_ERROR(trdp_slot_pull(&at_port.slot, 6), TRDP_SLOT_OK);
    /* It says one while it waits too: until it has two answers, of which each is to one. */
    tell('+', "0 silent 1\n");
    CHECK(next(TRDP_SLOT_OK, ANSWER).handle == 1 && next(TRDP_SLOT_OK, ANSWER).handle == 1);
    CHECK(had("#"));
    at_port.slot.terms.lease = 0;
    latest();
    take_all(&told_of, &lost); /* the answers to further ones */
    CHECK(lost == 0);
}

/* The port is another slot's. Then no remark goes there for the lease: it would have that slot's
 * indications come here. */
static void wrong_port(struct trdp_slot *slot)
{
    slot->terms.number = 3;
    CHECK_ERROR(trdp_slot_pull(slot, 1), TRDP_SLOT_OTHER_SLOT);
    slot->terms.lease = 60;
    tell('+', "3 silent 1\n");
    next(TRDP_SLOT_TIMEOUT, 100);
    slot->terms.lease = slot->terms.number = 0;
    CHECK(slot->tried == 0 && had("#"));
}

/* The question whose port it is goes before the first call, as often as a line may be sent. If it
 * isn't answered the call isn't sent, and the next call asks again. */
void test_question(void)
{
    struct trdp_slot *slot = &at_port.slot;
    wrong_port(slot);
    slot->terms.timeout = 100;
    slot->terms.tries = 2;
    tell('%', "2");
    tell('=', "0 done\n");
    CHECK_ERROR(trdp_slot_pull(slot, 1), TRDP_SLOT_TIMEOUT);
    CHECK(slot->tried == 0 && had("#"));
    /* The answers come late, and aren't taken for the call's. */
    slot->terms.timeout = ANSWER;
    uint32_t stale = slot->stale;
    tell('!', "0 refused NoHandle\n|0 refused NoHandle\n");
    latest();
    CHECK_ERROR(trdp_slot_pull(slot, 2), TRDP_SLOT_OK);
    CHECK(slot->tried == 1 && had("pull 2") && slot->stale == stale + 2);
    /* From then on no call asks: a question wouldn't be answered. */
    tell('%', "1");
    slot->terms.tries = 1;
    CHECK_ERROR(trdp_slot_pull(slot, 3), TRDP_SLOT_OK);
    tell('%', "0");
}

void test_answers(void)
{
    stale_answers();
    kept_indications();
    overlong();
    reset();
    late_answers();
    lease();
    flood();
}
