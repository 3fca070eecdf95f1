/* What the tests of the calls at two daemons share. */
#ifndef TRDP_SLOT_TEST_NODE_H
#define TRDP_SLOT_TEST_NODE_H

#include "test.h"

/* The doors' application and that of the other side. */
extern struct test_slot doors, others;
static struct trdp_slot *const door = &doors.slot, *const other = &others.slot;
extern uint32_t door_address, other_address;

/* The latest indication, and its payload. */
extern struct trdp_slot_indication told;
extern uint8_t payload[2048];

extern const uint8_t closed[7], opened[7];

enum { WAIT = 10000, PD = 17224, MD = 17225 };

/* Has the script do something. */
void script(const char *what);

/* Whether the next indication of a slot is of that kind and that object. */
bool is_told(struct trdp_slot *slot, enum trdp_slot_kind kind, uint32_t handle);

/* The same of a subscription, behind what it is told of silences where the machine is slow. */
bool comes_to_tell(struct trdp_slot *slot, enum trdp_slot_kind kind, uint32_t handle);

/* Drops the indications that are there. */
void drop_told(struct trdp_slot *slot);

/* Whether the next indication of a slot is that this object is over for that reason. */
bool is_closed(struct trdp_slot *slot, uint32_t handle, enum trdp_slot_reason reason);

/* Whether nothing comes to a slot for a while. */
bool is_quiet(struct trdp_slot *slot);

/* Whether a subscription shows this. */
bool shows(struct trdp_slot *slot, uint32_t handle, enum trdp_slot_state state,
    const uint8_t *bytes, size_t length);

/* The same, within some time. */
bool comes_to_show(struct trdp_slot *slot, uint32_t handle, enum trdp_slot_state state,
    const uint8_t *bytes, size_t length);

/* What the doors publish, and what the other side subscribes to. */
struct trdp_slot_publisher publisher(void);

struct trdp_slot_subscription subscription(bool keep);

/* The tests of message data's sessions, of wrong ports, of restarts, and of what goes wrong on the
 * way. */
void test_sessions(void);
void test_wrong_port(void);
void test_restarts(void);
void test_anew(void);

#endif
