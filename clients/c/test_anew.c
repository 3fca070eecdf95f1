/* What goes wrong on the way, objects that are gone, and the operator. */
#include "test_node.h"

#include <stdio.h>

/* How long an answer is waited for that the relay drops or holds back, in milliseconds; and how
 * often, as a slow machine's answer to a later try isn't there so soon. */
enum { MISSED = 300, TRIES = 100 };

/* Has no answer under way any more; after that each is waited for. */
static void settle(struct trdp_slot *slot)
{
    slot->terms.timeout = WAIT;
    CHECK_ERROR(trdp_slot_pull(slot, UINT32_MAX), TRDP_SLOT_REFUSED_NO_HANDLE);
}

/* Has the relay drop the next answer, or hold it back, of a line that is sent so often. */
static void miss(struct trdp_slot *slot, const char *what, uint32_t tries)
{
    settle(slot);
    slot->terms.timeout = MISSED;
    slot->terms.tries = tries;
    script(what);
}

/* Answers that the relay drops. The publisher that is left is the answer. */
static uint32_t dropped_answers(struct trdp_slot *slot)
{
    uint32_t first = 0, handle = 0;
    struct trdp_slot_publisher terms = publisher();
    CHECK_ERROR(trdp_slot_publish(slot, &terms, &first), TRDP_SLOT_OK);
    miss(slot, "drop 1", 1);
    CHECK_ERROR(trdp_slot_put(slot, first, closed, sizeof closed), TRDP_SLOT_TIMEOUT);
    miss(slot, "drop 1", TRIES);
    CHECK_ERROR(trdp_slot_put(slot, first, closed, sizeof closed), TRDP_SLOT_OK);
    CHECK(slot->tried >= 2 && slot->tried < TRIES);
    /* A second publish makes a second publisher: this handle isn't the next one. */
    miss(slot, "drop 1", TRIES);
    CHECK_ERROR(trdp_slot_publish(slot, &terms, &handle), TRDP_SLOT_OK);
    CHECK(slot->tried >= 2 && handle == first + 2);
    settle(slot);
    CHECK_ERROR(trdp_slot_publish(slot, &terms, &handle), TRDP_SLOT_REFUSED_QUOTA);
    CHECK_ERROR(trdp_slot_unpublish(slot, first + 1), TRDP_SLOT_OK);
    /* A second unpublish finds it over. */
    miss(slot, "drop 1", TRIES);
    CHECK_ERROR(trdp_slot_unpublish(slot, first + 2), TRDP_SLOT_REFUSED_NO_HANDLE);
    CHECK(slot->tried >= 2 && slot->tried < TRIES);
    return first;
}

/* Answers that the relay doubles, and holds back. */
static void late_answers(struct trdp_slot *slot, uint32_t first)
{
    uint32_t handle = 0, stale;
    struct trdp_slot_publisher terms = publisher();
    settle(slot);
    stale = slot->stale;
    /* Doubled: the second one is dropped before the next call, or isn't of its form. */
    script("double 2");
    CHECK_ERROR(trdp_slot_put(slot, first, opened, sizeof opened), TRDP_SLOT_OK);
    CHECK_ERROR(trdp_slot_publish(slot, &terms, &handle), TRDP_SLOT_OK);
    poll(NULL, 0, 50);
    CHECK_ERROR(trdp_slot_unpublish(slot, handle), TRDP_SLOT_OK);
    CHECK(slot->stale == stale + 2);
    /* Held back until the call was given up; then dropped. */
    miss(slot, "hold 1", 1);
    CHECK_ERROR(trdp_slot_publish(slot, &terms, &handle), TRDP_SLOT_TIMEOUT);
    script("release");
    slot->terms.timeout = WAIT;
    CHECK_ERROR(trdp_slot_unpublish(slot, first), TRDP_SLOT_OK);
    CHECK(slot->stale == stale + 3 && slot->strange == 0);
    CHECK_ERROR(trdp_slot_unpublish(slot, handle + 1), TRDP_SLOT_OK);
    /* A reset whose answer is lost, though that to the mark after it isn't. */
    miss(slot, "drop 1", TRIES);
    CHECK_ERROR(trdp_slot_reset(slot), TRDP_SLOT_OK);
    CHECK(slot->tried >= 2 && slot->tried < TRIES);
}

/* Makes the doors' objects, as an application does at its start. */
static enum trdp_slot_error begin(uint32_t *publishes)
{
    struct trdp_slot_publisher terms = publisher();
    enum trdp_slot_error error = trdp_slot_publish(door, &terms, publishes);
    return error != TRDP_SLOT_OK ? error
        : trdp_slot_put(door, *publishes, closed, sizeof closed);
}

/* The doors' slot is reset: what it had is gone, and its handles go on. */
static void begun_anew(void)
{
    struct trdp_slot_publisher terms = publisher();
    uint32_t before = 0, after = 0;
    CHECK_ERROR(trdp_slot_publish(door, &terms, &before), TRDP_SLOT_OK);
    CHECK_ERROR(trdp_slot_reset(door), TRDP_SLOT_OK);
    CHECK_ERROR(trdp_slot_put(door, before, closed, sizeof closed),
        TRDP_SLOT_REFUSED_NO_HANDLE);
    CHECK_ERROR(trdp_slot_publish(door, &terms, &after), TRDP_SLOT_OK);
    CHECK(after == before + 1);
    CHECK_ERROR(trdp_slot_reset(door), TRDP_SLOT_OK);
}

/* A daemon that is ended, and one that is started again: the application learns of it by a
 * refusal, and makes its objects again. */
static void started_anew(void)
{
    uint32_t publishes = 0, follows = 0;
    struct trdp_slot_subscription terms = subscription(true);
    CHECK_ERROR(trdp_slot_subscribe(other, &terms, &follows), TRDP_SLOT_OK);
    CHECK_ERROR(begin(&publishes), TRDP_SLOT_OK);
    CHECK(publishes > 1
        && comes_to_show(other, follows, TRDP_SLOT_VALID, closed, sizeof closed));
    drop_told(other);
    script("end");
    if (test_folder != NULL)
        CHECK_ERROR(trdp_slot_put(door, publishes, opened, sizeof opened), TRDP_SLOT_RESTARTED);
    CHECK_ERROR(trdp_slot_put(door, publishes, opened, sizeof opened), TRDP_SLOT_NOBODY);
    CHECK(comes_to_tell(other, TRDP_SLOT_FELL_SILENT, follows));
    script("start");
    CHECK_ERROR(trdp_slot_put(door, publishes, opened, sizeof opened),
        TRDP_SLOT_REFUSED_NO_HANDLE);
    CHECK(door->tried == 1); /* so it isn't that a first try took effect */
    CHECK_ERROR(begin(&publishes), TRDP_SLOT_OK);
    CHECK(publishes == 1 && comes_to_tell(other, TRDP_SLOT_ALIVE, follows));
    CHECK_ERROR(trdp_slot_unpublish(door, publishes), TRDP_SLOT_OK);
    CHECK_ERROR(trdp_slot_unsubscribe(other, follows), TRDP_SLOT_OK);
    drop_told(other);
}

/* Whether the doors have no publisher any more within some time, as the operator sees it. */
static bool is_reset(void)
{
    static struct test_slot operator_slot;
    struct trdp_slot_usage usage = { .slot = 0 };
    size_t count = 0;
    int64_t until = trdp_slot_now() + WAIT;
    enum trdp_slot_error error;
    test_open(&operator_slot, "127.0.9.1", 18100, WAIT);
    do {
        poll(NULL, 0, 50);
        error = trdp_slot_slots(&operator_slot.slot, &usage, 1, &count);
    } while ((error == TRDP_SLOT_BUSY || usage.objects.publishers > 0) && trdp_slot_now() < until);
    trdp_slot_close(&operator_slot.slot);
    return error == TRDP_SLOT_CUT && count == 2 && usage.objects.publishers == 0;
}

/* A daemon that has a lease of a second: an application keeps its objects that knows it, though it
 * only waits, and one that says nothing loses them. The first one is told a shorter one, so that it
 * may be late. */
static void leased(void)
{
    uint32_t publishes = 0;
    script("end");
    script("lease 1");
    if (test_folder != NULL)
        CHECK_ERROR(trdp_slot_reset(door), TRDP_SLOT_RESTARTED);
    CHECK_ERROR(begin(&publishes), TRDP_SLOT_OK);
    door->terms.lease = 300;
    CHECK_ERROR(trdp_slot_next(door, 2200, &told, payload, sizeof payload), TRDP_SLOT_TIMEOUT);
    CHECK_ERROR(trdp_slot_put(door, publishes, opened, sizeof opened), TRDP_SLOT_OK);
    door->terms.lease = 0;
    CHECK(is_reset() && is_quiet(door));
    CHECK_ERROR(trdp_slot_put(door, publishes, opened, sizeof opened),
        TRDP_SLOT_REFUSED_NO_HANDLE);
    script("end");
    script("start");
    if (test_folder != NULL)
        CHECK_ERROR(trdp_slot_reset(door), TRDP_SLOT_RESTARTED);
}

/* An application at a control socket that is gone, and with it all that it made; and a second one,
 * beside one that lives. */
static void successor(void)
{
    static struct test_slot second;
    struct trdp_slot_publisher terms = publisher();
    uint32_t before = 0, after = 0;
    CHECK_ERROR(trdp_slot_publish(door, &terms, &before), TRDP_SLOT_OK);
    test_open(&second, "127.0.9.1", 18000, WAIT);
    CHECK_ERROR(trdp_slot_pull(&second.slot, before), TRDP_SLOT_BUSY);
    trdp_slot_close(door);
    CHECK_ERROR(trdp_slot_publish(&second.slot, &terms, &after), TRDP_SLOT_OK);
    CHECK_ERROR(trdp_slot_pull(&second.slot, before), TRDP_SLOT_REFUSED_NO_HANDLE);
    CHECK(after == before + 1);
    trdp_slot_close(&second.slot);
    test_open(&doors, "127.0.9.1", 18000, WAIT);
}

/* The longest message of a control socket, and one of a UDP port. */
static void longest(void)
{
    static char line[TRDP_SLOT_OVERHEAD + 2 * TRDP_SLOT_MESSAGE], text[sizeof line];
    static uint8_t sent[TRDP_SLOT_MESSAGE], got[sizeof sent];
    struct trdp_slot_terms others_terms = other->terms;
    uint32_t all = 0;
    struct trdp_slot_listener any = { .com_id = 700 };
    struct trdp_slot_notification terms = { .com_id = 700, .to = { door_address, MD },
        .payload = sent, .length = test_folder != NULL ? sizeof sent : 32000 };
    for (size_t i = 0; i < sizeof sent; i++)
        sent[i] = (uint8_t)(i % 251);
    CHECK_ERROR(trdp_slot_listen(door, &any, &all), TRDP_SLOT_OK);
    door->terms.text = text;
    door->terms.text_room = sizeof text;
    other->terms.line = line;
    other->terms.line_room = sizeof line;
    CHECK_ERROR(trdp_slot_notify(other, &terms), TRDP_SLOT_OK);
    CHECK_ERROR(trdp_slot_next(door, WAIT, &told, got, sizeof got), TRDP_SLOT_OK);
    CHECK(told.handle == all && told.length == terms.length
        && memcmp(got, sent, terms.length) == 0);
    terms.length = sizeof sent;
    if (test_folder == NULL)
        CHECK_ERROR(trdp_slot_notify(other, &terms), TRDP_SLOT_LONG);
    other->terms = others_terms;
    CHECK_ERROR(trdp_slot_unlisten(door, all), TRDP_SLOT_OK);
}

/* Waits until the doors' node has taken that many datagrams and lines, beside the lines of its
 * operator, which this says. */
static bool have_taken(struct trdp_slot *operates, uint64_t count)
{
    int64_t until = trdp_slot_now() + WAIT;
    struct trdp_slot_tally tally;
    static uint64_t said;
    do {
        if (trdp_slot_totals(operates, &tally) != TRDP_SLOT_OK)
            return false;
        said++;
    } while (tally.taken < count + said && trdp_slot_now() < until);
    return tally.taken >= count + said;
}

/* Many notifications to an application that doesn't read: those that it receives, and those that
 * it learns were lost, are all. */
static void unread(void)
{
    enum { COUNT = 2000, LENGTH = 200 };
    static struct test_slot operator_slot;
    struct trdp_slot *operates = &operator_slot.slot;
    struct trdp_slot_listener any = { .com_id = 701 };
    struct trdp_slot_notification terms = { .com_id = 701, .to = { door_address, MD },
        .payload = payload, .length = LENGTH };
    struct trdp_slot_tally tally;
    uint32_t all = 0, last = 0, lost = 0, told_of = 0;
    int64_t until = trdp_slot_now() + WAIT;
    enum trdp_slot_error error;
    test_open(&operator_slot, "127.0.9.1", 18100, WAIT);
    CHECK_ERROR(trdp_slot_listen(door, &any, &all), TRDP_SLOT_OK);
    /* The ends of the earlier operators may not be seen yet. */
    while ((error = trdp_slot_totals(operates, &tally)) == TRDP_SLOT_BUSY
        && trdp_slot_now() < until)
        poll(NULL, 0, 10);
    if (!CHECK_ERROR(error, TRDP_SLOT_OK))
        return;
    for (uint32_t count = 1; count <= COUNT; count++) {
        enum trdp_slot_error sent = trdp_slot_notify(other, &terms);
        if (sent != TRDP_SLOT_OK && !CHECK_ERROR(sent, TRDP_SLOT_OK))
            return;
        if (count % 50 == 0 && !CHECK(have_taken(operates, tally.taken + count)))
            return;
    }
    /* The system's count comes with the next datagram. */
    any.com_id = terms.com_id = 702;
    CHECK_ERROR(trdp_slot_unlisten(door, all), TRDP_SLOT_OK);
    CHECK_ERROR(trdp_slot_listen(door, &any, &last), TRDP_SLOT_OK);
    CHECK_ERROR(trdp_slot_notify(other, &terms), TRDP_SLOT_OK);
    do {
        error = trdp_slot_next(door, WAIT, &told, payload, sizeof payload);
        if (error != TRDP_SLOT_OK && error != TRDP_SLOT_LOST)
            break;
        told_of += error == TRDP_SLOT_OK && told.com_id == 701;
        lost += told.lost;
    } while (error == TRDP_SLOT_LOST || told.com_id == 701);
    CHECK(told_of > 0 && lost > 0 && told_of + lost == COUNT);
    if (told_of + lost != COUNT)
        printf("    %u and %u\n", (unsigned)told_of, (unsigned)lost);
    CHECK_ERROR(trdp_slot_unlisten(door, last), TRDP_SLOT_OK);
    trdp_slot_close(operates);
}

/* The operator's calls. */
static void operate(void)
{
    static struct test_slot fifth[5];
    struct trdp_slot *operates = &fifth[0].slot;
    struct trdp_slot_usage usages[TRDP_SLOT_SLOTS];
    struct trdp_slot_tally totals;
    struct trdp_slot_kinds quotas = { 1, 2, 3, 4, 5, 256 };
    uint32_t handle = 0;
    size_t count = 0;
    struct trdp_slot_publisher terms = publisher();
    test_open(&fifth[0], "127.0.9.1", 18100, WAIT);
    CHECK_ERROR(trdp_slot_publish(door, &terms, &handle), TRDP_SLOT_OK);
    CHECK_ERROR(trdp_slot_topology(operates, 17, 4), TRDP_SLOT_OK);
    struct trdp_slot_notification notification = { .etb = 18, .to = { other_address, MD } };
    CHECK_ERROR(trdp_slot_notify(door, &notification), TRDP_SLOT_REFUSED_STATE);
    CHECK_ERROR(trdp_slot_topology(operates, 0, 0), TRDP_SLOT_OK);
    CHECK_ERROR(trdp_slot_role(operates, 0, true), TRDP_SLOT_NODE_NO_GROUP);
    CHECK_ERROR(trdp_slot_role(operates, 3, true), TRDP_SLOT_OK);
    CHECK_ERROR(trdp_slot_role(operates, 3, false), TRDP_SLOT_OK);
    CHECK_ERROR(trdp_slot_totals(operates, &totals), TRDP_SLOT_OK);
    CHECK(totals.taken >= 7 && totals.offered >= 6 && totals.memory == 0);
    CHECK_ERROR(trdp_slot_slots(operates, usages, TRDP_SLOT_SLOTS, &count), TRDP_SLOT_OK);
    CHECK(count == 2 && usages[0].slot == 0 && usages[0].has_spoken);
    CHECK(usages[0].objects.publishers == 1 && usages[0].quotas.publishers == 3);
    CHECK(usages[0].quotas.repliers == 1 && usages[0].silent < 60000000);
    CHECK(usages[1].slot == 1 && usages[1].quotas.publishers == 1);
    CHECK(!usages[1].has_spoken && usages[1].silent == 0);
    CHECK_ERROR(trdp_slot_addslot(operates, &quotas), TRDP_SLOT_OK);
    CHECK_ERROR(trdp_slot_slots(operates, usages, 1, &count), TRDP_SLOT_CUT);
    CHECK(count == 3 && usages[0].objects.publishers == 1);
    quotas.repliers++;
    CHECK_ERROR(trdp_slot_addslot(operates, &quotas), TRDP_SLOT_FAULT_BAD_WORD);
    quotas.repliers--;
    for (int i = 3; i < TRDP_SLOT_SLOTS; i++)
        CHECK_ERROR(trdp_slot_addslot(operates, &quotas), TRDP_SLOT_OK);
    CHECK_ERROR(trdp_slot_addslot(operates, &quotas), TRDP_SLOT_NODE_SLOTS_FULL);
    CHECK_ERROR(trdp_slot_slots(operates, usages, TRDP_SLOT_SLOTS, &count), TRDP_SLOT_OK);
    CHECK(count == TRDP_SLOT_SLOTS && memcmp(&usages[15].quotas, &quotas, sizeof quotas) == 0);
    CHECK_ERROR(trdp_slot_unpublish(door, handle), TRDP_SLOT_OK);
    CHECK_ERROR(trdp_slot_role(door, 3, true), TRDP_SLOT_FAULT_UNKNOWN);
    CHECK_ERROR(trdp_slot_pull(operates, 1), TRDP_SLOT_OPERATORS_PORT);
    CHECK_ERROR(trdp_slot_role(operates, 3, true), TRDP_SLOT_OK);
    /* Each is answered at its own; over control sockets a fifth one is one too many. */
    for (int i = 1; i < 5; i++) {
        test_open(&fifth[i], "127.0.9.1", 18100, WAIT);
        CHECK_ERROR(trdp_slot_role(&fifth[i].slot, 3, true),
            i == 4 && test_folder != NULL ? TRDP_SLOT_BUSY : TRDP_SLOT_OK);
    }
    for (int i = 0; i < 5; i++)
        trdp_slot_close(&fifth[i].slot);
}

void test_anew(void)
{
    static struct test_slot relayed;
    if (test_folder == NULL && test_open(&relayed, "127.0.9.3", 18000, WAIT)) {
        late_answers(&relayed.slot, dropped_answers(&relayed.slot));
        trdp_slot_close(&relayed.slot);
        /* Behind the relay's slot the doors' indications come here again. */
        trdp_slot_close(door);
        test_open(&doors, "127.0.9.1", 18000, WAIT);
    }
    if (test_folder != NULL)
        successor();
    begun_anew();
    started_anew();
    leased();
    operate();
    unread();
    longest();
}
