/* A slot at a daemon that is a child of this test, and says what it is told to. */
#ifndef TRDP_SLOT_TEST_TELLER_H
#define TRDP_SLOT_TEST_TELLER_H

#include "test.h"

/* The slot. */
extern struct test_slot at_port;

/* How long an answer is waited for that comes, in milliseconds; and more tries than are needed. */
enum { ANSWER = 20000, TRIES = 100 };

/* Tells the daemon what to say: `=` to the next lines of the slot, `+` to its remarks too, `!` at
 * once; texts with `|` between them. `%` and a digit leave so many of the next marks and questions
 * unanswered. */
void tell(char when, const char *texts);

/* The latest line that the daemon had. What it said before has come then. */
const char *latest(void);

/* Whether the latest line that the daemon had is this one. */
bool had(const char *line);

/* The tests at it. The first one has a slot of which no call was made yet. */
void test_question(void);
void test_lines(void);
void test_answers(void);

#endif
