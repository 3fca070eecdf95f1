/* A slot that is opened at another slot's port, or at the operator's: it changes nothing there. */
#include "test_node.h"

/* The application of slot 1, and one that takes slot 1 for slot 0. */
static struct test_slot rightful, wrong;

enum { SECOND = 18001, OPERATOR = 18100 };

/* Whether each call of the wrong one is refused before it is sent. */
static bool is_refused(enum trdp_slot_error wanted)
{
    struct trdp_slot_publisher terms = publisher();
    uint32_t handle = 99;
    bool is_so = CHECK_ERROR(trdp_slot_reset(&wrong.slot), wanted) && wrong.slot.tried == 0;
    is_so = CHECK_ERROR(trdp_slot_publish(&wrong.slot, &terms, &handle), wanted) && is_so;
    return is_so && handle == 99 && wrong.slot.tried == 0;
}

/* How many publishers slot 1 has, as the operator sees it. */
static uint32_t publishers(void)
{
    static struct test_slot operates;
    struct trdp_slot_usage usages[2] = { { .slot = 9 }, { .slot = 9 } };
    size_t count = 0;
    test_open(&operates, "127.0.9.1", OPERATOR, WAIT);
    CHECK_ERROR(trdp_slot_slots(&operates.slot, usages, 2, &count), TRDP_SLOT_OK);
    CHECK(count == 2 && usages[1].slot == 1);
    trdp_slot_close(&operates.slot);
    return usages[1].objects.publishers;
}

/* Slot 1's port. At a control socket the rightful one can connect while the wrong one is open. */
static void other_slot(void)
{
    struct trdp_slot_publisher terms = { .com_id = 2900, .cycle = 20000,
        .to = { other_address, PD } };
    uint32_t handle = 0;
    if (test_folder != NULL && test_open(&wrong, "127.0.9.1", SECOND, WAIT))
        CHECK(is_refused(TRDP_SLOT_OTHER_SLOT) && publishers() == 0);
    if (!test_open(&rightful, "127.0.9.1", SECOND, WAIT))
        return;
    rightful.slot.terms.number = 1;
    CHECK_ERROR(trdp_slot_publish(&rightful.slot, &terms, &handle), TRDP_SLOT_OK);
    if (test_folder == NULL)
        test_open(&wrong, "127.0.9.1", SECOND, WAIT);
    CHECK(is_refused(test_folder != NULL ? TRDP_SLOT_BUSY : TRDP_SLOT_OTHER_SLOT));
    CHECK_ERROR(trdp_slot_put(&rightful.slot, handle, closed, sizeof closed), TRDP_SLOT_OK);
    CHECK(handle == 1 && publishers() == 1);
    CHECK_ERROR(trdp_slot_reset(&rightful.slot), TRDP_SLOT_OK);
    trdp_slot_close(&rightful.slot);
    trdp_slot_close(&wrong.slot);
}

/* The operator's port, whose own calls ask nothing. */
static void operators_port(void)
{
    if (!test_open(&wrong, "127.0.9.1", OPERATOR, WAIT))
        return;
    CHECK(is_refused(TRDP_SLOT_OPERATORS_PORT));
    CHECK_ERROR(trdp_slot_topology(&wrong.slot, 0, 0), TRDP_SLOT_OK);
    CHECK(is_refused(TRDP_SLOT_OPERATORS_PORT));
    trdp_slot_close(&wrong.slot);
}

void test_wrong_port(void)
{
    other_slot();
    operators_port();
}
