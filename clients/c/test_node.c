/* The calls and the indications, at two daemons that the script `check` starts and ends where it
 * is told to: door.toml at 127.0.9.1, over UDP with a relay before it at 127.0.9.3, and other.toml
 * at 127.0.9.2. A line with @ before it says to the script what to do; it answers when that is
 * done. This has process data and notifications. */
#include "test_node.h"

#include <stdio.h>
#include <stdlib.h>

struct test_slot doors, others;
uint32_t door_address, other_address;
struct trdp_slot_indication told;
uint8_t payload[2048];

const uint8_t closed[] = { 4, 0, 0, 0, 0, 0, 0 };
const uint8_t opened[] = { 4, 2, 2, 0, 0, 0, 1 };

void script(const char *what)
{
    char answer[16];
    printf("@%s\n", what);
    fflush(stdout);
    if (fgets(answer, sizeof answer, stdin) == NULL) {
        printf("the script is gone\n");
        exit(3);
    }
}

bool is_told(struct trdp_slot *slot, enum trdp_slot_kind kind, uint32_t handle)
{
    enum trdp_slot_error error = trdp_slot_next(slot, WAIT, &told, payload, sizeof payload);
    if (error == TRDP_SLOT_OK && told.kind == kind && told.handle == handle)
        return true;
    printf("    %s", trdp_slot_error_text(error));
    if (error == TRDP_SLOT_OK)
        printf(": %s %u", trdp_slot_kind_text(told.kind), (unsigned)told.handle);
    printf("\n");
    return false;
}

bool comes_to_tell(struct trdp_slot *slot, enum trdp_slot_kind kind, uint32_t handle)
{
    int64_t until = trdp_slot_now() + WAIT;
    while (trdp_slot_now() < until
        && trdp_slot_next(slot, WAIT, &told, payload, sizeof payload) == TRDP_SLOT_OK
        && (told.kind == TRDP_SLOT_FELL_SILENT || told.kind == TRDP_SLOT_ALIVE))
        if (told.kind == kind && told.handle == handle)
            return true;
    printf("    at last: %s %u\n", trdp_slot_kind_text(told.kind), (unsigned)told.handle);
    return false;
}

void drop_told(struct trdp_slot *slot)
{
    while (trdp_slot_next(slot, 0, &told, payload, sizeof payload) == TRDP_SLOT_OK)
        continue;
}

bool is_closed(struct trdp_slot *slot, uint32_t handle, enum trdp_slot_reason reason)
{
    if (!is_told(slot, TRDP_SLOT_CLOSED, handle))
        return false;
    if (told.reason != reason)
        printf("    %s\n", trdp_slot_reason_text(told.reason));
    return told.reason == reason;
}

bool is_quiet(struct trdp_slot *slot)
{
    enum trdp_slot_error error = trdp_slot_next(slot, 50, &told, payload, sizeof payload);
    if (error == TRDP_SLOT_OK)
        printf("    %s %u\n", trdp_slot_kind_text(told.kind), (unsigned)told.handle);
    return error == TRDP_SLOT_TIMEOUT;
}

bool shows(struct trdp_slot *slot, uint32_t handle, enum trdp_slot_state state,
    const uint8_t *bytes, size_t length)
{
    uint8_t found[TRDP_SLOT_VALUE];
    struct trdp_slot_value value = { .length = 0 };
    return trdp_slot_get(slot, handle, &value, found, sizeof found) == TRDP_SLOT_OK
        && value.state == state && value.length == length
        && (length == 0 || memcmp(found, bytes, length) == 0);
}

bool comes_to_show(struct trdp_slot *slot, uint32_t handle, enum trdp_slot_state state,
    const uint8_t *bytes, size_t length)
{
    int64_t until = trdp_slot_now() + WAIT;
    while (!shows(slot, handle, state, bytes, length)) {
        if (trdp_slot_now() > until)
            return false;
        poll(NULL, 0, 10);
    }
    return true;
}

struct trdp_slot_publisher publisher(void)
{
    return (struct trdp_slot_publisher){ .com_id = 2101, .dataset = 5002, .cycle = 20000,
        .to = { other_address, PD } };
}

struct trdp_slot_subscription subscription(bool keep)
{
    return (struct trdp_slot_subscription){ .com_id = 2101, .dataset = 5002,
        .low = door_address, .high = door_address, .destination = other_address,
        .time = 200000, .keep = keep };
}

/* A value on its way. Answers the publisher, which has the doors open. */
static uint32_t process_data(void)
{
    uint32_t publishes = 0, keeps = 0;
    struct trdp_slot_value value = { .length = 0 };
    struct trdp_slot_publisher terms = publisher();
    struct trdp_slot_subscription keep = subscription(true);
    keep.time = 0;
    CHECK_ERROR(trdp_slot_subscribe(other, &keep, &keeps), TRDP_SLOT_OK);
    CHECK(keeps == 1 && shows(other, keeps, TRDP_SLOT_NEVER, closed + 4, 3));
    CHECK_ERROR(trdp_slot_publish(door, &terms, &publishes), TRDP_SLOT_OK);
    CHECK_ERROR(trdp_slot_put(door, publishes, closed, sizeof closed), TRDP_SLOT_OK);
    CHECK(publishes == 1
        && comes_to_show(other, keeps, TRDP_SLOT_VALID, closed, sizeof closed));
    CHECK_ERROR(trdp_slot_put(door, publishes, opened, sizeof opened), TRDP_SLOT_OK);
    CHECK(comes_to_show(other, keeps, TRDP_SLOT_VALID, opened, sizeof opened));
    CHECK_ERROR(trdp_slot_get(other, keeps, &value, payload, 2), TRDP_SLOT_CUT);
    CHECK(value.length == sizeof opened && value.counter > 0 && payload[1] == 2);
    CHECK_ERROR(trdp_slot_unsubscribe(other, keeps), TRDP_SLOT_OK);
    CHECK_ERROR(trdp_slot_get(other, keeps, &value, payload, 2), TRDP_SLOT_REFUSED_NO_HANDLE);
    return publishes;
}

/* Two subscriptions with a supervision time fall silent when the publisher ends, and one is alive
 * with another one. */
static void supervision(uint32_t publishes)
{
    uint32_t keeps = 0, zeroes = 0;
    struct trdp_slot_publisher terms = publisher();
    struct trdp_slot_subscription keep = subscription(true), zero = subscription(false);
    CHECK_ERROR(trdp_slot_subscribe(other, &keep, &keeps), TRDP_SLOT_OK);
    CHECK_ERROR(trdp_slot_subscribe(other, &zero, &zeroes), TRDP_SLOT_OK);
    CHECK(comes_to_show(other, keeps, TRDP_SLOT_VALID, opened, sizeof opened));
    CHECK(comes_to_show(other, zeroes, TRDP_SLOT_VALID, opened, sizeof opened));
    drop_told(other); /* where the machine was slow */
    CHECK_ERROR(trdp_slot_unpublish(door, publishes), TRDP_SLOT_OK);
    CHECK(comes_to_tell(other, TRDP_SLOT_FELL_SILENT, keeps));
    CHECK(comes_to_tell(other, TRDP_SLOT_FELL_SILENT, zeroes));
    CHECK(comes_to_show(other, keeps, TRDP_SLOT_SILENT, opened, sizeof opened));
    CHECK(comes_to_show(other, zeroes, TRDP_SLOT_SILENT, closed + 4, 3));
    CHECK_ERROR(trdp_slot_unsubscribe(other, zeroes), TRDP_SLOT_OK);
    CHECK_ERROR(trdp_slot_publish(door, &terms, &publishes), TRDP_SLOT_OK);
    CHECK_ERROR(trdp_slot_put(door, publishes, closed, sizeof closed), TRDP_SLOT_OK);
    CHECK(comes_to_tell(other, TRDP_SLOT_ALIVE, keeps));
    CHECK(comes_to_show(other, keeps, TRDP_SLOT_VALID, closed, sizeof closed));
    CHECK_ERROR(trdp_slot_unsubscribe(other, keeps), TRDP_SLOT_OK);
    CHECK_ERROR(trdp_slot_unpublish(door, publishes), TRDP_SLOT_OK);
    drop_told(other);
}

/* The status of the doors as a struct. */
struct status {
    uint8_t count;
    uint8_t states[8];
    uint16_t obstacles;
};

static const struct trdp_slot_element status_elements[] = {
    TRDP_SLOT_ONE(struct status, count, TRDP_SLOT_UINT8),
    TRDP_SLOT_COUNTED(struct status, states, TRDP_SLOT_UINT8),
    TRDP_SLOT_ONE(struct status, obstacles, TRDP_SLOT_UINT16) };
static const struct trdp_slot_dataset status_dataset =
    TRDP_SLOT_DATASET(struct status, status_elements);

/* A value of a dataset on its way. */
static void values(void)
{
    uint32_t publishes = 0, follows = 0;
    struct trdp_slot_publisher terms = publisher();
    struct trdp_slot_subscription all = subscription(true);
    struct trdp_slot_value shown;
    struct status says = { 4, { 0, 2, 2, 1 }, 0x0102 }, seen = { 9, { 9 }, 9 };
    all.time = 0;
    CHECK_ERROR(trdp_slot_subscribe(other, &all, &follows), TRDP_SLOT_OK);
    CHECK_ERROR(trdp_slot_get_value(other, follows, &shown, &status_dataset, &seen), TRDP_SLOT_OK);
    CHECK(shown.state == TRDP_SLOT_NEVER && seen.count == 0 && seen.obstacles == 0);
    CHECK_ERROR(trdp_slot_publish(door, &terms, &publishes), TRDP_SLOT_OK);
    CHECK_ERROR(trdp_slot_put_value(door, publishes, &status_dataset, &says), TRDP_SLOT_OK);
    CHECK(comes_to_show(other, follows, TRDP_SLOT_VALID, (const uint8_t *)"\4\0\2\2\1\1\2", 7));
    CHECK_ERROR(trdp_slot_get_value(other, follows, &shown, &status_dataset, &seen), TRDP_SLOT_OK);
    CHECK(shown.state == TRDP_SLOT_VALID && seen.count == 4 && seen.obstacles == 0x0102);
    CHECK(memcmp(seen.states, says.states, sizeof says.states) == 0);
    says.count = 9;
    CHECK_ERROR(trdp_slot_put_value(door, publishes, &status_dataset, &says), TRDP_SLOT_NO_FIT);
    CHECK_ERROR(trdp_slot_unpublish(door, publishes), TRDP_SLOT_OK);
    CHECK_ERROR(trdp_slot_unsubscribe(other, follows), TRDP_SLOT_OK);
}

/* A value that is pulled. */
static void pull(void)
{
    uint32_t publishes, follows, pulls = 0;
    static uint8_t longest[TRDP_SLOT_VALUE + 1] = { 1, 2, 3 };
    struct trdp_slot_publisher terms = { .com_id = 2200, .to = { other_address, PD } };
    struct trdp_slot_subscription all = { .com_id = 2200 };
    struct trdp_slot_requester requester = { .com_id = 2100, .reply_com_id = 2200,
        .to = { door_address, PD } };
    CHECK_ERROR(trdp_slot_publish(door, &terms, &publishes), TRDP_SLOT_OK);
    CHECK_ERROR(trdp_slot_put(door, publishes, longest, TRDP_SLOT_VALUE), TRDP_SLOT_OK);
    CHECK_ERROR(trdp_slot_put(door, publishes, longest, TRDP_SLOT_VALUE + 1),
        TRDP_SLOT_REFUSED_TOO_LONG);
    CHECK_ERROR(trdp_slot_subscribe(other, &all, &follows), TRDP_SLOT_OK);
    CHECK_ERROR(trdp_slot_openpull(other, &requester, &pulls), TRDP_SLOT_OK);
    CHECK(shows(other, follows, TRDP_SLOT_NEVER, NULL, 0));
    CHECK_ERROR(trdp_slot_pull(other, pulls), TRDP_SLOT_OK);
    CHECK(comes_to_show(other, follows, TRDP_SLOT_VALID, longest, TRDP_SLOT_VALUE));
    CHECK_ERROR(trdp_slot_openpull(other, &requester, &pulls), TRDP_SLOT_REFUSED_QUOTA);
    CHECK_ERROR(trdp_slot_pull(other, follows), TRDP_SLOT_REFUSED_WRONG_KIND);
    CHECK_ERROR(trdp_slot_closepull(other, pulls), TRDP_SLOT_OK);
    CHECK_ERROR(trdp_slot_pull(other, pulls), TRDP_SLOT_REFUSED_NO_HANDLE);
    CHECK_ERROR(trdp_slot_unsubscribe(other, follows), TRDP_SLOT_OK);
    CHECK_ERROR(trdp_slot_unpublish(door, publishes), TRDP_SLOT_OK);
}

/* What a node refuses of process data, in its own words. */
static void data_refusals(void)
{
    uint32_t handle = 99, made[3];
    struct trdp_slot_publisher terms = publisher();
    CHECK_ERROR(trdp_slot_put(door, handle, closed, 1), TRDP_SLOT_REFUSED_NO_HANDLE);
    terms.cycle = 999;
    CHECK_ERROR(trdp_slot_publish(door, &terms, &handle), TRDP_SLOT_REFUSED_CYCLE);
    terms.cycle = 0;
    terms.dataset = 77;
    CHECK_ERROR(trdp_slot_publish(door, &terms, &handle), TRDP_SLOT_REFUSED_NO_DATASET);
    terms.dataset = 5002;
    for (int i = 0; i < 3; i++)
        CHECK_ERROR(trdp_slot_publish(door, &terms, &made[i]), TRDP_SLOT_OK);
    CHECK_ERROR(trdp_slot_publish(door, &terms, &handle), TRDP_SLOT_REFUSED_QUOTA);
    CHECK_ERROR(trdp_slot_put(door, made[0], closed, 3), TRDP_SLOT_REFUSED_SHAPE);
    for (int i = 0; i < 3; i++)
        CHECK_ERROR(trdp_slot_unpublish(door, made[i]), TRDP_SLOT_OK);
    struct trdp_slot_subscription bad = subscription(true);
    bad.time = 999;
    CHECK_ERROR(trdp_slot_subscribe(door, &bad, &handle), TRDP_SLOT_REFUSED_TIMEOUT);
    bad.time = 1000;
    bad.low = UINT32_MAX;
    CHECK_ERROR(trdp_slot_subscribe(door, &bad, &handle), TRDP_SLOT_REFUSED_RANGE);
    CHECK(handle == 99 && is_quiet(door));
}

/* A notification from the other side to the doors, with two URIs and a payload. */
static void notify(uint32_t com_id, const char *source, const char *destination, size_t length)
{
    static uint8_t bytes[sizeof payload];
    struct trdp_slot_notification terms = { .com_id = com_id, .source_uri = source,
        .destination_uri = destination, .to = { door_address, MD },
        .payload = bytes, .length = length };
    for (size_t i = 0; i < length; i++)
        bytes[i] = (uint8_t)(i * 7);
    CHECK_ERROR(trdp_slot_notify(other, &terms), TRDP_SLOT_OK);
}

static void notifications(void)
{
    uint32_t cars, all, more = 99;
    struct trdp_slot_listener car = { .com_id = 300, .low = other_address, .high = other_address,
        .destination = door_address, .uri = "car" };
    struct trdp_slot_listener any = { .any = true };
    CHECK_ERROR(trdp_slot_listen(door, &car, &cars), TRDP_SLOT_OK);
    CHECK_ERROR(trdp_slot_listen(door, &any, &all), TRDP_SLOT_OK);
    CHECK_ERROR(trdp_slot_listen(door, &any, &more), TRDP_SLOT_REFUSED_QUOTA);
    notify(300, "other", "car", 3);
    CHECK(is_told(door, TRDP_SLOT_NOTIFIED, cars));
    CHECK(told.source.address == other_address && told.source.port == MD && told.com_id == 300);
    CHECK(strcmp(told.source_uri, "other") == 0 && strcmp(told.destination_uri, "car") == 0);
    CHECK(told.length == 3 && memcmp(told.payload, "\0\7\16", 3) == 0);
    notify(UINT32_MAX, NULL, "01234567890123456789012345678901", 0);
    CHECK(is_told(door, TRDP_SLOT_NOTIFIED, all));
    CHECK(told.com_id == UINT32_MAX && told.length == 0 && told.source_uri[0] == '\0');
    CHECK(strcmp(told.destination_uri, "01234567890123456789012345678901") == 0);
    notify(300, NULL, NULL, 1500);
    CHECK_ERROR(trdp_slot_next(door, WAIT, &told, payload, 10), TRDP_SLOT_CUT);
    CHECK(told.handle == all && told.length == 1500 && payload[9] == 63);
    any.low = 1;
    CHECK_ERROR(trdp_slot_listen(door, &any, &more), TRDP_SLOT_REFUSED_RANGE);
    CHECK_ERROR(trdp_slot_unlisten(door, cars), TRDP_SLOT_OK);
    CHECK_ERROR(trdp_slot_unlisten(door, all), TRDP_SLOT_OK);
    CHECK(more == 99 && is_quiet(door));
}

void test_node(void)
{
    door_address = test_address("127.0.9.1");
    other_address = test_address("127.0.9.2");
    if (!test_open(&doors, "127.0.9.1", 18000, WAIT)
        || !test_open(&others, "127.0.9.2", 18000, WAIT))
        return;
    supervision(process_data());
    values();
    pull();
    data_refusals();
    notifications();
    test_sessions();
    test_wrong_port();
    test_restarts();
    test_anew();
    trdp_slot_close(door);
    trdp_slot_close(other);
}
