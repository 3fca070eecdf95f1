/* Control sockets: `busy`, ends, answers that come late, resets, leases, and wrong paths. */
#include "test_paths.h"

/* Another application lives there, as often as is said; then it doesn't. The first time may be said
 * when the path is opened. */
static void says_busy(int listener)
{
    for (int i = 0; i < 4; i++) {
        int connection = takes(listener);
        says(connection, "busy\n");
        close(connection);
    }
    int connection = begins(listener);
    hears_question(connection);
    hears(connection, "pull 1");
    says(connection, "0 done\n");
    hears(connection, "pull 2");
    /* What is said before the end is `busy` though the line after it isn't heard. */
    says(connection, "0 silent 1\nbusy\n");
    close(connection);
    listen(listener, 0);
    hears(begins(listener), "pull 3");
}

static void busy(void)
{
    if (!open_at(says_busy, WAIT))
        return;
    if (slot->socket >= 0)
        CHECK_ERROR(trdp_slot_pull(slot, 1), TRDP_SLOT_BUSY);
    CHECK(slot->socket == -1);
    CHECK_ERROR(trdp_slot_pull(slot, 1), TRDP_SLOT_BUSY);
    CHECK_ERROR(trdp_slot_pull(slot, 1), TRDP_SLOT_BUSY);
    /* One that waits for indications alone doesn't hammer at it. */
    int64_t tried = slot->connected;
    CHECK_ERROR(next(WAIT), TRDP_SLOT_BUSY);
    CHECK(slot->connected - tried >= TRDP_SLOT_PAUSE);
    CHECK_ERROR(trdp_slot_pull(slot, 1), TRDP_SLOT_OK);
    /* A line that can't be sent shows in what was said before. */
    char line[] = "pull 2";
    CHECK_ERROR(trdp_slot_send(slot, line, 6, trdp_slot_now() + WAIT), TRDP_SLOT_OK);
    struct pollfd wait = { slot->socket, 0, 0 };
    CHECK(poll(&wait, 1, WAIT) == 1 && (wait.revents & POLLHUP) != 0);
    CHECK_ERROR(trdp_slot_send_bytes(slot, "pull 2\n", 7, 0), TRDP_SLOT_BUSY);
    CHECK(next(0) == TRDP_SLOT_LOST && told_at_path.lost == 1);
    CHECK_ERROR(trdp_slot_pull(slot, 3), TRDP_SLOT_RESTARTED);
    close_and_wait();
}

/* A connection that ends, and a daemon that is gone for a while. */
static void ends(int listener)
{
    int connection = begins(listener);
    hears_question(connection);
    hears(connection, "pull 1");
    says(connection, "0 silent 1\n0 done\n0 silent 2\n0 sil");
    close(connection);
    connection = begins(listener); /* where nothing is asked any more */
    hears(connection, "pull 2");
    close(connection);
    connection = begins(listener);
    hears(connection, "pull 3");
    says(connection, "0 silent 3\n0 done\n");
    hears(connection, "reset");
    close(connection);
    close(listener);
}

/* The same, that comes late. */
static void comes_late(int listener)
{
    poll(NULL, 0, 250);
    listener = listens();
    int connection = begins(listener);
    says(connection, "0 silent 5\n");
    hears(connection, "pull 5");
}

static void ended(void)
{
    if (!open_at(ends, WAIT))
        return;
    CHECK_ERROR(trdp_slot_pull(slot, 1), TRDP_SLOT_OK);
    CHECK(next(0) == TRDP_SLOT_OK && told_at_path.handle == 1);
    CHECK(next(WAIT) == TRDP_SLOT_OK && told_at_path.handle == 2);
    /* Told once; the next one connects again. */
    CHECK(next(WAIT) == TRDP_SLOT_RESTARTED && slot->socket == -1);
    CHECK_ERROR(trdp_slot_pull(slot, 2), TRDP_SLOT_RESTARTED);
    CHECK_ERROR(trdp_slot_pull(slot, 3), TRDP_SLOT_OK);
    /* What was kept is about objects that are gone. */
    CHECK(slot->kept_length > 0);
    CHECK_ERROR(trdp_slot_reset(slot), TRDP_SLOT_RESTARTED);
    CHECK(child_is_done() && slot->kept_length == 0);
    CHECK(next(0) == TRDP_SLOT_LOST && told_at_path.lost == 1);
    /* No one listens at the path, or there is none: a call says so at once, and who waits waits. */
    CHECK_ERROR(trdp_slot_pull(slot, 3), TRDP_SLOT_NOBODY);
    int64_t start = trdp_slot_now();
    CHECK_ERROR(next(50), TRDP_SLOT_NOBODY);
    CHECK(trdp_slot_now() - start >= 50);
    unlink(path);
    CHECK_ERROR(trdp_slot_pull(slot, 3), TRDP_SLOT_NOBODY);
    child_begins(comes_late, -1);
    CHECK(next(WAIT) == TRDP_SLOT_OK && told_at_path.handle == 5);
    char line[] = "pull 5";
    CHECK_ERROR(trdp_slot_send(slot, line, 6, trdp_slot_now() + WAIT), TRDP_SLOT_OK);
    close_and_wait();
    CHECK_ERROR(trdp_slot_pull(slot, 3), TRDP_SLOT_ARGUMENT);
    CHECK_ERROR(next(0), TRDP_SLOT_ARGUMENT);
}

/* Answers that come late. */
static void answers_late(int listener)
{
    int connection = begins(listener);
    hears_question(connection);
    hears(connection, "pull 0");
    says(connection, "0 done\n");
    hears(connection, "pull 1");
    hears(connection, "get");
    says(connection, "0 done\n0 silent 1\nline fault Count\n");
    hears(connection, "pull 2");
    says(connection, "0 refused State\n");
    hears(connection, "pull 3");
    hears(connection, "get mark"); /* said once, as nothing is lost, and answered late */
    hears_front(connection, "#");
    says(connection, "0 done\nline fault BadWord\n");
    hears(connection, "pull 6");
    says(connection, "0 refused State\n");
    hears(connection, "pull 7"); /* whose answer is lost, and that to the mark after it */
    hears(connection, "mark");
    says(connection, "lost 2\n");
    hears(connection, "get");
    says(connection, "line fault Count\n");
    hears(connection, "pull 9");
    says(connection, "0 done\n");
}

static void late_answers(void)
{
    if (!open_at(answers_late, WAIT))
        return;
    CHECK_ERROR(trdp_slot_pull(slot, 0), TRDP_SLOT_OK);
    slot->terms.timeout = 60;
    CHECK_ERROR(trdp_slot_pull(slot, 1), TRDP_SLOT_TIMEOUT);
    slot->terms.timeout = WAIT;
    CHECK_ERROR(trdp_slot_pull(slot, 2), TRDP_SLOT_REFUSED_STATE);
    CHECK(slot->stale == 1 && next(0) == TRDP_SLOT_OK && told_at_path.handle == 1);
    slot->terms.timeout = 30;
    CHECK_ERROR(trdp_slot_pull(slot, 3), TRDP_SLOT_TIMEOUT);
    CHECK(slot->tried == 1);
    CHECK_ERROR(trdp_slot_pull(slot, 4), TRDP_SLOT_TIMEOUT);
    CHECK_ERROR(trdp_slot_pull(slot, 5), TRDP_SLOT_TIMEOUT);
    CHECK(slot->tried == 0);
    char line[] = "# ";
    CHECK_ERROR(trdp_slot_send(slot, line, 1, trdp_slot_now() + WAIT), TRDP_SLOT_OK);
    slot->terms.timeout = WAIT;
    CHECK_ERROR(trdp_slot_pull(slot, 6), TRDP_SLOT_REFUSED_STATE);
    CHECK(slot->tried == 1 && slot->stale == 2);
    slot->terms.timeout = 30;
    CHECK_ERROR(trdp_slot_pull(slot, 7), TRDP_SLOT_TIMEOUT);
    CHECK_ERROR(trdp_slot_pull(slot, 8), TRDP_SLOT_TIMEOUT);
    CHECK(next(WAIT) == TRDP_SLOT_LOST && told_at_path.lost == 2);
    slot->terms.timeout = WAIT;
    CHECK_ERROR(trdp_slot_pull(slot, 9), TRDP_SLOT_OK);
    close_and_wait();
}

/* A reset isn't over before the mark after it is answered. */
static void resets(int listener)
{
    int connection = begins(listener);
    hears_question(connection);
    hears(connection, "reset");
    hears(connection, "get");
    says(connection, "0 silent 1\n0 done\n");
    poll(NULL, 0, 100);
    says(connection, "line fault Count\n");
    hears(connection, "pull 1");
    says(connection, "0 done\n");
}

static void reset(void)
{
    if (!open_at(resets, WAIT))
        return;
    int64_t start = trdp_slot_now();
    CHECK_ERROR(trdp_slot_reset(slot), TRDP_SLOT_OK);
    CHECK(trdp_slot_now() - start >= 90 && slot->tried == 1);
    CHECK_ERROR(trdp_slot_pull(slot, 1), TRDP_SLOT_OK);
    CHECK(next(0) == TRDP_SLOT_OK && told_at_path.handle == 1);
    close_and_wait();
}

/* A remark while the slot waits, and while a call does; none without a lease, and none after a
 * line that is younger than a third of it. */
static void hears_remarks(int listener)
{
    int connection = begins(listener);
    hears_question(connection);
    hears(connection, "pull 0");
    says(connection, "0 done\n");
    for (int i = 0; i < 3; i++)
        hears(connection, "#");
    says(connection, "0 silent 1\n");
    hears_front(connection, "");
    while (hears_front(connection, "") == 1)
        continue; /* further remarks up to the call */
    for (int i = 0; i < 3; i++)
        hears(connection, "#");
    says(connection, "0 done\n");
    while (hears_front(connection, "") == 1)
        continue; /* and up to the next one, which has no lease */
    struct pollfd wait = { connection, POLLIN, 0 };
    if (poll(&wait, 1, 100) != 0)
        fail("a remark without a lease");
    says(connection, "0 done\n");
}

static void lease(void)
{
    if (!open_at(hears_remarks, WAIT))
        return;
    int64_t start = trdp_slot_now();
    CHECK_ERROR(trdp_slot_pull(slot, 0), TRDP_SLOT_OK);
    slot->terms.lease = 90;
    CHECK(next(WAIT) == TRDP_SLOT_OK && told_at_path.handle == 1);
    CHECK(trdp_slot_now() - start >= 80);
    poll(NULL, 0, 40);
    CHECK(next(0) == TRDP_SLOT_TIMEOUT); /* a third has passed, so that this says one */
    CHECK_ERROR(trdp_slot_pull(slot, 1), TRDP_SLOT_OK);
    slot->terms.lease = 0;
    CHECK_ERROR(trdp_slot_pull(slot, 2), TRDP_SLOT_OK);
    close_and_wait();
}

/* The question whose path it is, whose answer comes late. */
static void hears_questions(int listener)
{
    int connection = begins(listener);
    hears(connection, "get 0");
    hears(connection, "get 0");
    says(connection, "0 refused NoHandle\n0 silent 1\n0 refused NoHandle\n");
    hears(connection, "get");
    says(connection, "line fault Count\n");
    hears(connection, "pull 2");
    says(connection, "0 done\n");
    close(connection);
    hears(begins(listener), "pull 3"); /* where nothing is asked any more */
}

static void questions(void)
{
    if (!open_at(hears_questions, 60))
        return;
    CHECK_ERROR(trdp_slot_pull(slot, 1), TRDP_SLOT_TIMEOUT);
    CHECK(slot->tried == 0);
    slot->terms.timeout = WAIT;
    CHECK_ERROR(trdp_slot_pull(slot, 2), TRDP_SLOT_OK);
    CHECK(slot->tried == 1 && slot->stale == 1);
    CHECK(next(0) == TRDP_SLOT_OK && told_at_path.handle == 1);
    CHECK_ERROR(next(WAIT), TRDP_SLOT_RESTARTED);
    CHECK_ERROR(trdp_slot_pull(slot, 3), TRDP_SLOT_RESTARTED);
    close_and_wait();
}

/* Another slot's path, and the operator's: the call isn't sent, and the connection is ended. */
static void says_wrong(int listener)
{
    static const char *const answers[] = { "7 refused NoHandle\n", "line fault Unknown\n" };
    char more;
    for (int i = 0; i < 3; i++) {
        int connection = begins(listener);
        if (i == 2) {
            hears(connection, "role 3 leader"); /* which asks nothing */
            says(connection, "ok\n");
        }
        hears(connection, "get 0");
        says(connection, answers[i > 0]);
        if (read(connection, &more, 1) != 0)
            fail("a line is sent to a wrong path");
        close(connection);
    }
}

static void wrong_paths(void)
{
    uint32_t handle = 9;
    struct trdp_slot_requester requester = { .com_id = 1 };
    if (!open_at(says_wrong, WAIT))
        return;
    CHECK_ERROR(trdp_slot_reset(slot), TRDP_SLOT_OTHER_SLOT);
    CHECK(slot->tried == 0 && slot->socket == -1);
    /* One that waits for indications doesn't go there again, and waits. */
    int64_t start = trdp_slot_now();
    CHECK_ERROR(next(2 * TRDP_SLOT_PAUSE), TRDP_SLOT_OTHER_SLOT);
    CHECK(slot->socket == -1 && trdp_slot_now() - start >= 2 * TRDP_SLOT_PAUSE);
    CHECK_ERROR(trdp_slot_openpull(slot, &requester, &handle), TRDP_SLOT_OPERATORS_PORT);
    CHECK(slot->tried == 0 && slot->socket == -1 && handle == 9);
    CHECK_ERROR(trdp_slot_role(slot, 3, true), TRDP_SLOT_OK);
    CHECK_ERROR(trdp_slot_reset(slot), TRDP_SLOT_OPERATORS_PORT);
    CHECK(child_is_done());
    trdp_slot_close(slot);
}

/* The operator's path, whose answer to a question is also that of a mark, and comes late. */
static void says_unknown(int listener)
{
    int connection = begins(listener);
    hears(connection, "role 1 leader");
    says(connection, "ok\n");
    hears(connection, "get 0");
    hears(connection, "role"); /* `mark` would be answered as the question is */
    says(connection, "line fault Unknown\nline fault Count\n");
    hears(connection, "role 2 leader");
    says(connection, "ok\n");
}

static void question_and_mark(void)
{
    if (!open_at(says_unknown, WAIT))
        return;
    CHECK_ERROR(trdp_slot_role(slot, 1, true), TRDP_SLOT_OK);
    slot->mark = 2; /* as after two marks: the next one would be `mark` */
    slot->terms.timeout = 60;
    CHECK_ERROR(trdp_slot_pull(slot, 1), TRDP_SLOT_TIMEOUT);
    CHECK(slot->tried == 0);
    slot->terms.timeout = WAIT;
    CHECK_ERROR(trdp_slot_role(slot, 2, true), TRDP_SLOT_OK);
    close_and_wait();
}

/* What an operator's line is answered, late, isn't the answer to the question: at a slot's path,
 * where another fault is before that, and at the operator's, where nothing else comes. */
static void says_faults_late(int listener)
{
    int connection = begins(listener);
    hears(connection, "role 1 leader");
    hears(connection, "get 0");
    says(connection, "fault NoGroup\nline fault Unknown\n0 refused NoHandle\n");
    hears(connection, "get");
    says(connection, "line fault Count\n");
    hears(connection, "pull 1");
    says(connection, "0 done\n");
    close(connection);
    connection = begins(listener);
    hears(connection, "role 1 leader");
    hears(connection, "get 0");
    says(connection, "ok\nline fault Unknown\n");
    char more;
    if (read(connection, &more, 1) != 0)
        fail("a line is sent to a wrong path");
}

static void late_faults(void)
{
    static const enum trdp_slot_error wanted[] = { TRDP_SLOT_OK, TRDP_SLOT_OPERATORS_PORT };
    if (!open_at(says_faults_late, 60))
        return;
    for (int i = 0; i < 2; i++) {
        slot->is_known = false; /* as of a new slot */
        slot->terms.timeout = 60;
        CHECK_ERROR(trdp_slot_role(slot, 1, true), TRDP_SLOT_TIMEOUT);
        slot->terms.timeout = i == 0 ? WAIT : 1000;
        CHECK_ERROR(trdp_slot_pull(slot, 1), wanted[i]);
        if (i == 0)
            CHECK(next(WAIT) == TRDP_SLOT_RESTARTED);
    }
    close_and_wait();
}

/* The longest waits, many times, end later than now. */
static void longest_wait(void)
{
    struct trdp_slot waits = { .path = "x",
        .terms = { .timeout = UINT32_MAX, .tries = UINT32_MAX } };
    CHECK(trdp_slot_deadline(&waits) > trdp_slot_now());
}

void test_ends(void)
{
    longest_wait();
    busy();
    ended();
    late_answers();
    reset();
    lease();
    questions();
    wrong_paths();
    question_and_mark();
    late_faults();
}
