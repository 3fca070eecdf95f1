/* A slot at a control socket of a daemon that is a child of this test, and does what a function of
 * it says. */
#ifndef TRDP_SLOT_TEST_PATHS_H
#define TRDP_SLOT_TEST_PATHS_H

#include "test.h"

/* The path, the slot at it, and its latest indication. */
extern char path[64];
extern struct test_slot at_path;
static struct trdp_slot *const slot = &at_path.slot;
extern struct trdp_slot_indication told_at_path;

enum { WAIT = 20000 };

/* Ends the child, and with it the test that waits for it. */
void fail(const char *what);

/* Listens at the path, behind one that may have listened there. */
int listens(void);

/* The next connection. */
int takes(int listener);

/* Hears a line, of which that is the beginning; answers its length without its end. */
size_t hears_front(int connection, const char *front);

void hears(int connection, const char *line);

void says(int connection, const char *text);

/* The next connection, and its first line. */
int begins(int listener);

/* Hears the question whose port it is, which comes before the first call, and answers it as the
 * port of slot 0 does. */
void hears_question(int connection);

/* Starts a child that does this with what it listens by, or with -1. */
void child_begins(void (*act)(int listener), int listener);

/* Starts a child that does this, and listens already. */
void child_does(void (*act)(int listener));

/* Whether the child has done all of that. */
bool child_is_done(void);

/* Opens the slot at a child that does this. */
bool open_at(void (*act)(int listener), uint32_t timeout);

void close_and_wait(void);

/* The next text of the slot. */
enum trdp_slot_error next(uint32_t wait);

/* The tests of ends, late answers, resets, leases and wrong paths. */
void test_ends(void);

#endif
