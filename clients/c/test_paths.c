/* Control sockets: paths, lines in pieces, the longest one and longer ones, and what is lost. */
#include "test_paths.h"

#include <signal.h>
#include <stdio.h>
#include <stdlib.h>
#include <sys/stat.h>
#include <sys/wait.h>

static char folder[] = "/tmp/trdp_slot_XXXXXX";
static uint8_t bytes[8];
static pid_t child;
char path[64];
struct test_slot at_path;
struct trdp_slot_indication told_at_path;

void fail(const char *what)
{
    printf("    the daemon of the test: %s\n", what);
    fflush(stdout);
    _exit(1);
}

int listens(void)
{
    struct sockaddr_un place;
    memset(&place, 0, sizeof place);
    place.sun_family = AF_UNIX;
    memcpy(place.sun_path, path, strlen(path));
    unlink(path);
    int listener = socket(AF_UNIX, SOCK_STREAM, 0);
    if (listener < 0 || bind(listener, (struct sockaddr *)&place, sizeof place) != 0
        || listen(listener, 8) != 0)
        abort();
    return listener;
}

int takes(int listener)
{
    int connection = accept(listener, NULL, NULL);
    if (connection < 0)
        fail("nobody connects");
    return connection;
}

size_t hears_front(int connection, const char *front)
{
    static char line[TRDP_SLOT_LINE + 1];
    size_t length = 0;
    while (read(connection, line + length, 1) == 1 && line[length] != '\n'
        && length < TRDP_SLOT_LINE)
        length++;
    line[length] = '\0';
    if (strncmp(line, front, strlen(front)) != 0) {
        printf("    in place of %s: ", front);
        fail(line);
    }
    return length;
}

void hears(int connection, const char *line)
{
    if (hears_front(connection, line) != strlen(line))
        fail(line);
}

void says(int connection, const char *text)
{
    size_t length = strlen(text);
    if (send(connection, text, length, MSG_NOSIGNAL) != (ssize_t)length)
        fail("nobody reads");
}

int begins(int listener)
{
    int connection = takes(listener);
    hears(connection, "#");
    return connection;
}

void hears_question(int connection)
{
    hears(connection, "get 0");
    says(connection, "0 refused NoHandle\n");
}

void child_begins(void (*act)(int listener), int listener)
{
    fflush(stdout);
    child = fork();
    if (child == 0) {
        alarm(CHILD_SECONDS);
        act(listener);
        _exit(0);
    }
    if (listener >= 0)
        close(listener);
}

void child_does(void (*act)(int listener))
{
    child_begins(act, listens());
}

bool child_is_done(void)
{
    int status = -1;
    return waitpid(child, &status, 0) == child && status == 0;
}

bool open_at(void (*act)(int listener), uint32_t timeout)
{
    child_does(act);
    enum trdp_slot_error error = test_open_path(&at_path, path, timeout);
    return error == TRDP_SLOT_BUSY || CHECK_ERROR(error, TRDP_SLOT_OK);
}

void close_and_wait(void)
{
    trdp_slot_close(slot);
    CHECK(child_is_done());
}

enum trdp_slot_error next(uint32_t wait)
{
    memset(&told_at_path, 0, sizeof told_at_path);
    return trdp_slot_next(slot, wait, &told_at_path, bytes, sizeof bytes);
}

/* Lines that come byte by byte, and several at once. */
static void says_pieces(int listener)
{
    static const char text[] = "3 silent 7\n3 value Valid 9 0a0b\n3 al";
    int connection = begins(listener);
    hears(connection, "get 0");
    says(connection, "3 refused NoHandle\n");
    hears(connection, "get 1");
    for (size_t i = 0; i < sizeof text - 1; i++) {
        send(connection, text + i, 1, MSG_NOSIGNAL);
        poll(NULL, 0, 1);
    }
    hears(connection, "get 2");
    says(connection, "ive 8\n3 refused NoHandle\n3 silent 9\n3 silent 10\n");
    hears(connection, "done");
}

static void pieces(void)
{
    struct trdp_slot_value value = { .length = 0 };
    if (!open_at(says_pieces, WAIT))
        return;
    slot->terms.number = 3;
    CHECK_ERROR(trdp_slot_get(slot, 1, &value, bytes, sizeof bytes), TRDP_SLOT_OK);
    CHECK(value.counter == 9 && value.length == 2 && bytes[1] == 0x0b && slot->tried == 1);
    CHECK_ERROR(trdp_slot_get(slot, 2, &value, bytes, sizeof bytes), TRDP_SLOT_REFUSED_NO_HANDLE);
    CHECK(next(0) == TRDP_SLOT_OK && told_at_path.handle == 7);
    CHECK(next(0) == TRDP_SLOT_OK && told_at_path.handle == 8);
    CHECK(told_at_path.kind == TRDP_SLOT_ALIVE);
    CHECK(next(WAIT) == TRDP_SLOT_OK && told_at_path.handle == 9);
    CHECK(next(WAIT) == TRDP_SLOT_OK && told_at_path.handle == 10);
    CHECK(next(0) == TRDP_SLOT_TIMEOUT && slot->strange == 0 && slot->stale == 0);
    CHECK_ERROR(trdp_slot_send(slot, at_path.line, (size_t)snprintf(at_path.line, 9, "done"), 0),
        TRDP_SLOT_OK);
    close_and_wait();
}

/* The longest message, both ways. The sender's buffer takes a piece of it alone. */
static void says_longest(int listener)
{
    int connection = begins(listener);
    hears_question(connection);
    if (hears_front(connection, "notify 300 - - 0 0 10.0.0.2:17225 00010203")
        != strlen("notify 300 - - 0 0 10.0.0.2:17225 ") + 2 * TRDP_SLOT_MESSAGE)
        fail("the line is cut");
    says(connection, "0 notified 1 10.0.0.2:17225 300 - - ");
    for (int i = 0; i < TRDP_SLOT_MESSAGE; i++)
        says(connection, "fe");
    says(connection, "\n0 done\n");
    hears(connection, "unlisten 4"); /* there is no room for a longer line */
    says(connection, "0 done\n");
}

static void longest(void)
{
    static char line[TRDP_SLOT_OVERHEAD + 2 * TRDP_SLOT_MESSAGE], text[sizeof line];
    static uint8_t kept[sizeof text + 4], payload[TRDP_SLOT_MESSAGE + 1];
    struct trdp_slot_terms terms = { .timeout = WAIT, .tries = 1,
        .line = line, .line_room = sizeof line, .text = text, .text_room = sizeof text,
        .kept = kept, .kept_room = sizeof kept };
    struct trdp_slot_notification notification = { .com_id = 300,
        .to = { 0x0a000002, 17225 }, .payload = payload, .length = TRDP_SLOT_MESSAGE };
    int room = 1;
    for (size_t i = 0; i < sizeof payload; i++)
        payload[i] = (uint8_t)i;
    child_does(says_longest);
    CHECK_ERROR(trdp_slot_open_path(slot, path, &terms), TRDP_SLOT_OK);
    setsockopt(slot->socket, SOL_SOCKET, SO_SNDBUF, &room, sizeof room);
    CHECK_ERROR(trdp_slot_notify(slot, &notification), TRDP_SLOT_OK);
    memset(payload, 0, sizeof payload);
    CHECK_ERROR(trdp_slot_next(slot, WAIT, &told_at_path, payload, sizeof payload), TRDP_SLOT_OK);
    CHECK(told_at_path.length == TRDP_SLOT_MESSAGE && payload[TRDP_SLOT_MESSAGE - 1] == 0xfe);
    CHECK(payload[0] == 0xfe && payload[TRDP_SLOT_MESSAGE] == 0);
    notification.length = sizeof payload;
    slot->terms.line_room = 2 * TRDP_SLOT_MESSAGE;
    CHECK_ERROR(trdp_slot_notify(slot, &notification), TRDP_SLOT_LONG);
    slot->terms.line_room = strlen("unlisten 4"); /* and none for its end */
    CHECK_ERROR(trdp_slot_unlisten(slot, 4), TRDP_SLOT_LONG);
    slot->terms.line_room++;
    CHECK_ERROR(trdp_slot_unlisten(slot, 4), TRDP_SLOT_OK);
    close_and_wait();
}

/* A line that is longer than the text is lost, and what is after it isn't. */
static void says_overlong(int listener)
{
    int connection = begins(listener);
    hears_question(connection);
    hears(connection, "pull 1");
    says(connection, "0 notified 1 10.0.0.2:17225 300 - - ");
    for (int i = 0; i < 5000; i++)
        says(connection, "00");
    says(connection, "\n0 silent 2\n0 done\n");
    hears(connection, "pull 1");
    says(connection, "0 silent 3\nlost 7\n0 silent 4\nlost 0\nlost 01\nlost\n0 done\n");
    hears(connection, "pull 2");
    says(connection, "0 silent 3\nlost 4294967295\n0 done\n");
    hears(connection, "pull 3");
    says(connection, "0 done\n0 silent 5\nlost 3\nlost 4\n0 silent 6\n");
}

/* What the daemon dropped is reported in its place. */
static void losses(void)
{
    if (!open_at(says_overlong, WAIT))
        return;
    CHECK_ERROR(trdp_slot_pull(slot, 1), TRDP_SLOT_OK);
    CHECK(next(0) == TRDP_SLOT_LOST && told_at_path.lost == 1);
    CHECK(next(0) == TRDP_SLOT_OK && told_at_path.handle == 2);
    CHECK_ERROR(trdp_slot_pull(slot, 1), TRDP_SLOT_OK);
    CHECK(next(0) == TRDP_SLOT_OK && told_at_path.handle == 3);
    CHECK(next(0) == TRDP_SLOT_LOST && told_at_path.lost == 7);
    CHECK(next(0) == TRDP_SLOT_OK && told_at_path.handle == 4);
    CHECK(next(0) == TRDP_SLOT_TIMEOUT && slot->strange == 3);
    size_t room = slot->terms.kept_room;
    slot->terms.kept_room = 0;
    CHECK_ERROR(trdp_slot_pull(slot, 2), TRDP_SLOT_OK);
    CHECK(next(0) == TRDP_SLOT_LOST && told_at_path.lost == 4294967295);
    slot->terms.kept_room = room;
    CHECK_ERROR(trdp_slot_pull(slot, 3), TRDP_SLOT_OK);
    CHECK(next(WAIT) == TRDP_SLOT_OK && told_at_path.handle == 5);
    CHECK(next(WAIT) == TRDP_SLOT_LOST && told_at_path.lost == 3);
    CHECK(next(WAIT) == TRDP_SLOT_LOST && told_at_path.lost == 4);
    CHECK(next(WAIT) == TRDP_SLOT_OK && told_at_path.handle == 6);
    close_and_wait();
}

/* What a path may be, and how a socket is. */
static void opening(void)
{
    static char longer[TRDP_SLOT_PATH + 1];
    memset(longer, 'a', TRDP_SLOT_PATH);
    CHECK_ERROR(test_open_path(&at_path, longer, WAIT), TRDP_SLOT_ARGUMENT);
    CHECK_ERROR(trdp_slot_pull(slot, 1), TRDP_SLOT_ARGUMENT);
    CHECK_ERROR(test_open_path(&at_path, "", WAIT), TRDP_SLOT_ARGUMENT);
    CHECK_ERROR(test_open_path(&at_path, NULL, WAIT), TRDP_SLOT_ARGUMENT);
    longer[TRDP_SLOT_PATH - 1] = '\0';
    CHECK_ERROR(test_open_path(&at_path, longer, WAIT), TRDP_SLOT_NOBODY);
    unlink(path);
    CHECK_ERROR(test_open_path(&at_path, path, WAIT), TRDP_SLOT_NOBODY);
    int listener = listens();
    CHECK_ERROR(test_open_path(&at_path, path, WAIT), TRDP_SLOT_OK);
    CHECK((fcntl(slot->socket, F_GETFD) & FD_CLOEXEC) != 0);
    CHECK((fcntl(slot->socket, F_GETFL) & O_NONBLOCK) != 0);
    trdp_slot_close(slot);
    close(listener);
    CHECK_ERROR(test_open_path(&at_path, path, WAIT), TRDP_SLOT_NOBODY);
    trdp_slot_close(slot);
    struct trdp_slot_terms terms = slot->terms;
    terms.port = 18009;
    terms.address = 0x7f000909;
    CHECK_ERROR(trdp_slot_open(slot, &terms), TRDP_SLOT_OK);
    CHECK((fcntl(slot->socket, F_GETFD) & FD_CLOEXEC) != 0);
    trdp_slot_close(slot);
}

/* A path that this user may not connect to. */
static void forbidden(void)
{
    int listener = listens();
    chmod(path, 0);
    if (geteuid() == 0 && seteuid(65534) != 0)
        abort();
    CHECK(test_open_path(&at_path, path, WAIT) == TRDP_SLOT_SYSTEM && errno == EACCES);
    CHECK(trdp_slot_pull(slot, 1) == TRDP_SLOT_SYSTEM && errno == EACCES);
    errno = 0;
    CHECK(next(0) == TRDP_SLOT_SYSTEM && errno == EACCES);
    if (getuid() == 0 && seteuid(0) != 0)
        abort();
    chmod(path, 0600);
    CHECK(next(500) == TRDP_SLOT_TIMEOUT && slot->socket >= 0);
    trdp_slot_close(slot);
    close(listener);
}

void test_paths(void)
{
    if (!CHECK(mkdtemp(folder) != NULL))
        return;
    chmod(folder, 0755);
    snprintf(path, sizeof path, "%s/18000", folder);
    pieces();
    longest();
    losses();
    test_ends();
    opening();
    forbidden();
    unlink(path);
    rmdir(folder);
}
