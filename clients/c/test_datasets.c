/* Values of datasets, as a struct and as bytes, and descriptions that are none. */
#include "test.h"

#include <float.h>
#include <math.h>

struct inner {
    int8_t low;
    uint16_t many[3];
};

struct outer {
    uint8_t count;
    struct inner each[2];
    char name[4];
    struct trdp_slot_timedate48 time;
    int64_t last;
};

static const struct trdp_slot_element inner_elements[] = {
    TRDP_SLOT_ONE(struct inner, low, TRDP_SLOT_INT8),
    TRDP_SLOT_ARRAY(struct inner, many, TRDP_SLOT_UTF16) };
static const struct trdp_slot_dataset inner = TRDP_SLOT_DATASET(struct inner, inner_elements);
static const struct trdp_slot_element outer_elements[] = {
    TRDP_SLOT_ONE(struct outer, count, TRDP_SLOT_UINT8),
    TRDP_SLOT_NESTED_COUNTED(struct outer, each, &inner),
    TRDP_SLOT_ARRAY(struct outer, name, TRDP_SLOT_CHAR8),
    TRDP_SLOT_ONE(struct outer, time, TRDP_SLOT_TIMEDATE48),
    TRDP_SLOT_ONE(struct outer, last, TRDP_SLOT_INT64) };
static const struct trdp_slot_dataset outer = TRDP_SLOT_DATASET(struct outer, outer_elements);

/* A value as bytes and back, room that is too small, and what is none. */
static void values(void)
{
    static const uint8_t wire[] = { 1, 0xff, 0, 7, 0, 8, 1, 9, 'd', 'o', 'o', 'r',
        0, 0, 0, 2, 0x80, 0, 0xff, 0xff, 0xff, 0xff, 0xff, 0xff, 0xff, 0xfe };
    struct outer value = { .count = 1, .each = { { .low = -1, .many = { 7, 8, 265 } } },
        .name = { 'd', 'o', 'o', 'r' }, .time = { 2, 0x8000 }, .last = -2 }, back;
    uint8_t bytes[64], longer[sizeof wire + 1] = { 0 };
    size_t length = 0;
    CHECK_ERROR(trdp_slot_pack(&outer, &value, bytes, sizeof bytes, &length), TRDP_SLOT_OK);
    CHECK(length == sizeof wire && memcmp(bytes, wire, length) == 0);
    CHECK_ERROR(trdp_slot_unpack(&outer, wire, sizeof wire, &back), TRDP_SLOT_OK);
    CHECK(back.count == 1 && back.each[0].low == -1 && back.each[0].many[2] == 265);
    CHECK(memcmp(back.name, "door", 4) == 0 && back.time.ticks == 0x8000 && back.last == -2);
    memset(bytes, 9, sizeof bytes);
    CHECK_ERROR(trdp_slot_pack(&outer, &value, bytes, 3, &length), TRDP_SLOT_CUT);
    CHECK(length == sizeof wire && bytes[2] == 0 && bytes[3] == 9);
    value.count = 3;
    CHECK_ERROR(trdp_slot_pack(&outer, &value, bytes, sizeof bytes, &length), TRDP_SLOT_NO_FIT);
    CHECK_ERROR(trdp_slot_unpack(&outer, wire, sizeof wire - 1, &back), TRDP_SLOT_NO_FIT);
    CHECK(back.count == 0 && back.last == 0);
    memcpy(longer, wire, sizeof wire);
    CHECK_ERROR(trdp_slot_unpack(&outer, longer, sizeof longer, &back), TRDP_SLOT_NO_FIT);
    CHECK_ERROR(trdp_slot_unpack(&outer, NULL, 0, &back), TRDP_SLOT_NO_FIT);
    /* Three of seven bytes, for which there is room for two. */
    uint8_t three[1 + 3 * 7 + 4 + 6 + 8] = { 3 };
    CHECK_ERROR(trdp_slot_unpack(&outer, three, sizeof three, &back), TRDP_SLOT_CUT);
    CHECK(back.count == 0);
}

struct reals {
    float single[4];
    double twice;
    uint8_t count;
    float counted[3];
    double last;
};

static const struct trdp_slot_element reals_elements[] = {
    TRDP_SLOT_ARRAY(struct reals, single, TRDP_SLOT_REAL32),
    TRDP_SLOT_ONE(struct reals, twice, TRDP_SLOT_REAL64),
    TRDP_SLOT_ONE(struct reals, count, TRDP_SLOT_UINT8),
    TRDP_SLOT_COUNTED(struct reals, counted, TRDP_SLOT_REAL32),
    TRDP_SLOT_ONE(struct reals, last, TRDP_SLOT_REAL64) };
static const struct trdp_slot_dataset reals = TRDP_SLOT_DATASET(struct reals, reals_elements);

/* A float and a double are the bytes of IEEE 754, whatever these mean: a number, the smallest one,
 * -0, an infinity, or a NaN, of which each bit is kept. */
static void floats(void)
{
    static const uint8_t wire[] = { 0xbf, 0xc0, 0, 0, 0, 0, 0, 1, 0x80, 0, 0, 0, 0x7f, 0xa0, 0, 5,
        0x3f, 0xb9, 0x99, 0x99, 0x99, 0x99, 0x99, 0x9a, 1, 0x7f, 0x7f, 0xff, 0xff,
        0xff, 0xf0, 0, 0, 0, 0, 0, 0 };
    struct reals value = { .single = { -1.5f, FLT_MIN / (1 << 23), -0.0f }, .twice = 0.1,
        .count = 1, .counted = { FLT_MAX }, .last = -HUGE_VAL }, back;
    uint32_t nan = 0x7fa00005;
    uint8_t bytes[64];
    size_t length = 0;
    memcpy(&value.single[3], &nan, sizeof nan);
    CHECK_ERROR(trdp_slot_pack(&reals, &value, bytes, sizeof bytes, &length), TRDP_SLOT_OK);
    CHECK(length == sizeof wire && memcmp(bytes, wire, length) == 0);
    CHECK_ERROR(trdp_slot_unpack(&reals, wire, sizeof wire, &back), TRDP_SLOT_OK);
    CHECK(memcmp(back.single, value.single, sizeof back.single) == 0);
    CHECK(back.twice == 0.1 && back.counted[0] == FLT_MAX && back.last == -HUGE_VAL);
}

/* Whether a dataset of these elements is one. */
static bool is_dataset(const struct trdp_slot_element *elements, size_t count, size_t size)
{
    uint8_t value[64] = { 0 }, bytes[64];
    struct trdp_slot_dataset dataset = { elements, count, size };
    size_t length = 0;
    enum trdp_slot_error error = trdp_slot_pack(&dataset, value, bytes, sizeof bytes, &length);
    CHECK(error == TRDP_SLOT_OK || error == TRDP_SLOT_ARGUMENT);
    CHECK(trdp_slot_unpack(&dataset, bytes, length, value) == error);
    return error == TRDP_SLOT_OK;
}

/* What no dataset can be is refused, and nothing is touched. */
static void no_datasets(void)
{
    static const struct trdp_slot_element one[] = { { TRDP_SLOT_UINT8, 1, 0, 1, 1, NULL },
        { TRDP_SLOT_UINT16, 0, 2, 2, 3, NULL } };
    struct trdp_slot_element wrong[2] = { one[0], one[1] };
    CHECK(is_dataset(one, 2, 8) && is_dataset(one, 1, 1));
    CHECK(!is_dataset(one, 0, 8) && !is_dataset(NULL, 1, 8) && !is_dataset(one, 257, 8));
    CHECK(!is_dataset(one, 2, 7)); /* a member beyond its struct */
    CHECK(!is_dataset(one + 1, 1, 8)); /* nothing counts it */
    wrong[0].type = TRDP_SLOT_INT8;
    CHECK(!is_dataset(wrong, 2, 8)); /* nor does that */
    wrong[0].type = TRDP_SLOT_UINT32;
    CHECK(!is_dataset(wrong, 2, 8)); /* another width */
    wrong[0] = one[0];
    wrong[1].size = 4;
    CHECK(!is_dataset(wrong, 2, 8)); /* more items than the member has */
    wrong[1].size = 3;
    CHECK(is_dataset(wrong, 2, 8));
    wrong[0].type = TRDP_SLOT_REAL32;
    CHECK(!is_dataset(wrong, 2, 8)); /* another width, and it counts nothing */
    wrong[0].type = (enum trdp_slot_type)17;
    CHECK(!is_dataset(wrong, 2, 8)); /* no type */
    wrong[0].type = TRDP_SLOT_NESTED;
    CHECK(!is_dataset(wrong, 2, 8)); /* in which nothing is nested */
    /* Five deep, and six. */
    struct trdp_slot_dataset nested[6];
    struct trdp_slot_element each[6];
    for (int i = 0; i < 6; i++) {
        each[i] = one[0];
        if (i > 0) {
            each[i].type = TRDP_SLOT_NESTED;
            each[i].dataset = &nested[i - 1];
        }
        nested[i] = (struct trdp_slot_dataset){ &each[i], 1, 1 };
    }
    CHECK(is_dataset(&each[4], 1, 1) && !is_dataset(&each[5], 1, 1));
}

void test_datasets(void)
{
    values();
    floats();
    no_datasets();
}
