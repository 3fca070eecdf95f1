/* The daemon that says what it is told to, and the slot at it. */
#include "test_teller.h"

#include <signal.h>
#include <stdio.h>
#include <stdlib.h>
#include <sys/wait.h>

static const char here[] = "127.0.9.9";
enum { PORT = 18009 };

struct test_slot at_port;
static int teller = -1; /* where it is told from */

/* Says these texts, with `|` between them. */
static void say(int socket, const struct sockaddr_in *to, const char *texts, size_t length)
{
    size_t first = 0;
    for (size_t i = 0; i <= length; i++) {
        if (i == length || texts[i] == '|') {
            if (i > first)
                sendto(socket, texts + first, i - first, 0, (const struct sockaddr *)to,
                    sizeof *to);
            first = i + 1;
        }
    }
}

/* The answer to a line of the header's own: a mark, by which it finds its place among the answers,
 * or the question whose port this is. NULL for a call. */
static const char *own_answer(const char *text, size_t length)
{
    static const char *const lines[] = { "mark", "get", "get mark", "get 0" };
    static const char *const answers[] = { "line fault Unknown\n", "line fault Count\n",
        "line fault BadWord\n", "0 refused NoHandle\n" };
    for (int i = 0; i < 4; i++)
        if (strlen(lines[i]) == length && memcmp(lines[i], text, length) == 0)
            return answers[i];
    return NULL;
}

/* The daemon: what comes from the teller with `=` before it is said to the next line of the slot,
 * which is no remark, with `+` to the next remark too, and with `!` at once to where the latest
 * line came from; `?` is answered by that line. A mark and
 * a question are answered, and aren't the latest line; after `%` and a number that many of them
 * aren't answered. */
static void daemon_of_test(int socket)
{
    static char text[65536], next[65536], line[65536];
    size_t next_length = 0, line_length = 0;
    int unanswered = 0;
    bool answers_remarks = false;
    struct sockaddr_in slot, from;
    memset(&slot, 0, sizeof slot);
    for (;;) {
        socklen_t size = sizeof from;
        ssize_t count = recvfrom(socket, text, sizeof text, 0, (struct sockaddr *)&from, &size);
        if (count < 1)
            continue;
        size_t length = (size_t)count;
        if (text[0] == '=' || text[0] == '+') {
            answers_remarks = text[0] == '+';
            next_length = length - 1;
            memcpy(next, text + 1, next_length);
        } else if (text[0] == '!') {
            say(socket, &slot, text + 1, length - 1);
        } else if (text[0] == '?') {
            sendto(socket, line, line_length, 0, (struct sockaddr *)&from, size);
        } else if (text[0] == '%') {
            unanswered = text[1] - '0';
        } else if (own_answer(text, length) != NULL) {
            const char *answer = own_answer(text, length);
            if (unanswered-- <= 0)
                sendto(socket, answer, strlen(answer), 0, (struct sockaddr *)&from, size);
        } else {
            slot = from;
            memcpy(line, text, length);
            line_length = length;
            if (text[0] != '#' || answers_remarks)
                say(socket, &slot, next, next_length);
        }
    }
}

/* A socket at the test's port, or one that is connected to it. */
static int udp(bool is_bound)
{
    struct sockaddr_in place;
    memset(&place, 0, sizeof place);
    place.sin_family = AF_INET;
    place.sin_addr.s_addr = htonl(test_address(here));
    place.sin_port = htons(PORT);
    int made = socket(AF_INET, SOCK_DGRAM, 0);
    const struct sockaddr *at = (const struct sockaddr *)&place;
    if (made < 0 || (is_bound ? bind(made, at, sizeof place) : connect(made, at, sizeof place)))
        abort();
    return made;
}

void tell(char when, const char *texts)
{
    static char text[65536];
    size_t length = strlen(texts);
    text[0] = when;
    memcpy(text + 1, texts, length);
    CHECK(send(teller, text, length + 1, 0) == (ssize_t)length + 1);
}

const char *latest(void)
{
    static char text[65536];
    struct pollfd wait = { teller, POLLIN, 0 };
    tell('?', "");
    ssize_t count = poll(&wait, 1, 20000) < 1 ? 0 : recv(teller, text, sizeof text - 1, 0);
    text[count < 0 ? 0 : count] = '\0';
    return text;
}

bool had(const char *line)
{
    bool is_so = strcmp(latest(), line) == 0;
    if (!is_so)
        printf("    had: %s\n", latest());
    return is_so;
}

/* The daemon ends once it has the first try, while the answer to that is waited for. A later one
 * finds no one, but it isn't known whether the first one took effect. */
static void ends_meanwhile(pid_t child)
{
    static const char line[] = "pull 4294967295"; /* which it hasn't had before */
    tell('=', "");
    at_port.slot.terms.timeout = 500;
    at_port.slot.terms.tries = TRIES;
    pid_t killer = fork();
    if (killer == 0) {
        alarm(CHILD_SECONDS);
        while (strcmp(latest(), line) != 0)
            poll(NULL, 0, 10);
        kill(child, SIGKILL);
        _exit(0);
    }
    CHECK_ERROR(trdp_slot_pull(&at_port.slot, UINT32_MAX), TRDP_SLOT_TIMEOUT);
    CHECK(at_port.slot.tried >= 2 && at_port.slot.tried < TRIES);
    waitpid(killer, NULL, 0);
}

/* No one is there any more, which is reported at once. */
static void nobody(void)
{
    int64_t start = trdp_slot_now();
    if (!test_open(&at_port, here, PORT, 10000))
        return;
    at_port.slot.terms.tries = 2;
    /* Nobody says whose port it is, so that the call itself isn't sent. */
    CHECK_ERROR(trdp_slot_pull(&at_port.slot, 1), TRDP_SLOT_NOBODY);
    CHECK_ERROR(trdp_slot_reset(&at_port.slot), TRDP_SLOT_NOBODY);
    CHECK(at_port.slot.tried == 0 && trdp_slot_now() - start < 5000);
    at_port.slot.is_known = true; /* as after an answer */
    CHECK_ERROR(trdp_slot_pull(&at_port.slot, 1), TRDP_SLOT_NOBODY);
    CHECK_ERROR(trdp_slot_reset(&at_port.slot), TRDP_SLOT_NOBODY);
    CHECK(at_port.slot.tried == 1 && trdp_slot_now() - start < 5000);
    trdp_slot_close(&at_port.slot);
}

void test_teller(void)
{
    int socket = udp(true);
    pid_t child = fork();
    if (child == 0) {
        alarm(CHILD_SECONDS);
        daemon_of_test(socket);
    }
    close(socket);
    teller = udp(false);
    if (CHECK(child > 0) && test_open(&at_port, here, PORT, ANSWER)) {
        CHECK(had("#"));
        test_question();
        test_lines();
        test_answers();
        ends_meanwhile(child);
    }
    trdp_slot_close(&at_port.slot);
    kill(child, SIGKILL);
    waitpid(child, NULL, 0);
    nobody();
    close(teller);
}
