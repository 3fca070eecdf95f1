/* What the parts of the test of trdp_slot.h share. */
#ifndef TRDP_SLOT_TEST_H
#define TRDP_SLOT_TEST_H

#include "trdp_slot.h"

/* Counts a check, and says which one where it fails. */
#define CHECK(condition) check((condition), #condition, __FILE__, __LINE__)

bool check(bool is_so, const char *what, const char *file, int line);

/* Whether an error is this one; says which it is where it isn't. */
#define CHECK_ERROR(call, wanted) check_error((call), (wanted), #call, __FILE__, __LINE__)

bool check_error(enum trdp_slot_error error, enum trdp_slot_error wanted, const char *what,
    const char *file, int line);

/* After so many seconds a child of the test ends, whatever happens. */
enum { CHILD_SECONDS = 600 };

/* A slot with its buffers. */
struct test_slot {
    struct trdp_slot slot;
    char line[4096];
    char text[4096];
    uint8_t kept[4096];
};

/* Where the control sockets of the daemons are, in a folder for each address; NULL where their
 * control ports are UDP ports. */
extern const char *test_folder;

/* Opens a slot at an address and a port, with one try of so many milliseconds; or at the path that
 * stands for them in `test_folder`, or at that path. */
bool test_open(struct test_slot *it, const char *address, uint16_t port, uint32_t timeout);
enum trdp_slot_error test_open_path(struct test_slot *it, const char *path, uint32_t timeout);

/* The address of a text that is one. */
uint32_t test_address(const char *text);

/* Reading texts, and values of datasets, in memory. */
void test_texts(void);
void test_datasets(void);

/* A control port of a daemon that is a few lines of this test. */
void test_teller(void);

/* Control sockets: a daemon that is a few lines of this test, in a folder that it makes. */
void test_paths(void);

/* The calls: two daemons, which the script `check` starts and ends where it is told to. */
void test_node(void);

#endif
