/* A daemon that is started again while an application only listens: the application is told once, at
 * a control socket by the end of its connection and at a UDP port when it looks at its objects. */
#include "test_node.h"

/* What the other side publishes to the doors, and what the doors hear of it. */
static struct trdp_slot_publisher sent(void)
{
    struct trdp_slot_publisher terms = publisher();
    terms.to = (struct trdp_slot_place){ door_address, PD };
    return terms;
}

static struct trdp_slot_subscription heard(void)
{
    struct trdp_slot_subscription terms = subscription(true);
    terms.low = terms.high = other_address;
    terms.destination = door_address;
    return terms;
}

/* Whether the doors have a subscription that shows what the other side sends; its handle comes. */
static bool follows(uint32_t *handle)
{
    struct trdp_slot_subscription terms = heard();
    bool is_so = CHECK_ERROR(trdp_slot_subscribe(door, &terms, handle), TRDP_SLOT_OK)
        && CHECK(comes_to_show(door, *handle, TRDP_SLOT_VALID, closed, sizeof closed));
    drop_told(door);
    return is_so;
}

/* The doors listen before the restart and after it, and no line of theirs goes out between. */
static void listens(void)
{
    uint32_t publishes = 0, before = 0, after = 0;
    struct trdp_slot_publisher terms = sent();
    struct trdp_slot_value value;
    CHECK_ERROR(trdp_slot_publish(other, &terms, &publishes), TRDP_SLOT_OK);
    CHECK_ERROR(trdp_slot_put(other, publishes, closed, sizeof closed), TRDP_SLOT_OK);
    if (!follows(&before))
        return;
    script("end");
    script("start");
    if (test_folder != NULL) {
        CHECK_ERROR(trdp_slot_next(door, WAIT, &told, payload, sizeof payload),
            TRDP_SLOT_RESTARTED);
        CHECK(door->socket == -1);
    }
    /* Told once: the next one connects again, and nothing more comes. */
    CHECK(is_quiet(door) && door->socket >= 0);
    CHECK_ERROR(trdp_slot_get(door, before, &value, payload, sizeof payload),
        TRDP_SLOT_REFUSED_NO_HANDLE);
    CHECK(door->tried == 1 && is_quiet(door));
    /* And all is as before, once the subscription is made again. */
    CHECK(follows(&after) && after == 1);
    CHECK_ERROR(trdp_slot_unpublish(other, publishes), TRDP_SLOT_OK);
    CHECK(comes_to_tell(door, TRDP_SLOT_FELL_SILENT, after) && is_quiet(door));
    CHECK_ERROR(trdp_slot_unsubscribe(door, after), TRDP_SLOT_OK);
}

void test_restarts(void)
{
    listens();
}
