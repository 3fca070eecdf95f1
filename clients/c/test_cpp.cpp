// The header in C++11 and later: it compiles without a warning, and so does what a program writes
// with it. The script `check` compiles this, and doesn't run it.
#include "trdp_slot.h"

struct door {
    uint8_t state;
    struct trdp_slot_timedate48 since;
};

struct doors {
    uint8_t count;
    struct door each[8];
    uint16_t obstacles[2];
    float speed;
    double way;
};

static const struct trdp_slot_element door_elements[] = {
    TRDP_SLOT_ONE(struct door, state, TRDP_SLOT_UINT8),
    TRDP_SLOT_ONE(struct door, since, TRDP_SLOT_TIMEDATE48) };
static const struct trdp_slot_dataset door_dataset = TRDP_SLOT_DATASET(struct door, door_elements);
static const struct trdp_slot_element doors_elements[] = {
    TRDP_SLOT_ONE(struct doors, count, TRDP_SLOT_UINT8),
    TRDP_SLOT_NESTED_COUNTED(struct doors, each, &door_dataset),
    TRDP_SLOT_ARRAY(struct doors, obstacles, TRDP_SLOT_UINT16),
    TRDP_SLOT_ONE(struct doors, speed, TRDP_SLOT_REAL32),
    TRDP_SLOT_ONE(struct doors, way, TRDP_SLOT_REAL64) };
static const struct trdp_slot_dataset doors_dataset =
    TRDP_SLOT_DATASET(struct doors, doors_elements);

int main()
{
    static char line[512], text[TRDP_SLOT_TEXT_ROOM];
    static uint8_t kept[4096];
    struct trdp_slot_terms terms = trdp_slot_terms();
    struct trdp_slot slot;
    struct doors doors = {};
    uint32_t handle = 0;
    terms.timeout = 200;
    terms.tries = 1;
    terms.line = line;
    terms.line_room = sizeof line;
    terms.text = text;
    terms.text_room = sizeof text;
    terms.kept = kept;
    terms.kept_room = sizeof kept;
    struct trdp_slot_publisher publisher = trdp_slot_publisher();
    publisher.com_id = 2101;
    enum trdp_slot_error error = trdp_slot_open_path(&slot, "/run/trdpd/18000", &terms);
    if (error == TRDP_SLOT_OK)
        error = trdp_slot_reset(&slot);
    if (error == TRDP_SLOT_OK)
        error = trdp_slot_publish(&slot, &publisher, &handle);
    if (error == TRDP_SLOT_OK)
        error = trdp_slot_put_value(&slot, handle, &doors_dataset, &doors);
    trdp_slot_close(&slot);
    return error == TRDP_SLOT_OK ? 0 : 1;
}
