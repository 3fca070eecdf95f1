/* The test of trdp_slot.h; the script `check` compiles and runs it.
 *
 *     test texts           what needs no daemon
 *     test paths           control sockets, without a daemon too
 *     test node            the calls, at two daemons that `check` starts
 *     test node FOLDER     the same over control sockets in that folder */
#include "test.h"

#include <stdio.h>

static unsigned passed, failed;

const char *test_folder;

bool check(bool is_so, const char *what, const char *file, int line)
{
    if (is_so) {
        passed++;
    } else {
        failed++;
        printf("%s:%d: not so: %s\n", file, line, what);
    }
    return is_so;
}

bool check_error(enum trdp_slot_error error, enum trdp_slot_error wanted, const char *what,
    const char *file, int line)
{
    if (error != wanted)
        printf("%s:%d: %s\n", file, line, trdp_slot_error_text(error));
    return check(error == wanted, what, file, line);
}

uint32_t test_address(const char *text)
{
    uint32_t address = 0;
    CHECK(trdp_slot_address(text, &address));
    return address;
}

/* The terms of a slot with its buffers, and one try of that many milliseconds. */
static struct trdp_slot_terms terms_of(struct test_slot *it, uint32_t timeout)
{
    return (struct trdp_slot_terms){ .timeout = timeout, .tries = 1,
        .line = it->line, .line_room = sizeof it->line,
        .text = it->text, .text_room = sizeof it->text,
        .kept = it->kept, .kept_room = sizeof it->kept };
}

bool test_open(struct test_slot *it, const char *address, uint16_t port, uint32_t timeout)
{
    char path[TRDP_SLOT_PATH];
    struct trdp_slot_terms terms = terms_of(it, timeout);
    if (test_folder != NULL) {
        snprintf(path, sizeof path, "%s/%s/%u", test_folder, address, (unsigned)port);
        enum trdp_slot_error error = test_open_path(it, path, timeout);
        /* Where another one lives there, the first call says so, if this doesn't. */
        return error == TRDP_SLOT_BUSY || CHECK_ERROR(error, TRDP_SLOT_OK);
    }
    terms.address = test_address(address);
    terms.port = port;
    return CHECK_ERROR(trdp_slot_open(&it->slot, &terms), TRDP_SLOT_OK);
}

enum trdp_slot_error test_open_path(struct test_slot *it, const char *path, uint32_t timeout)
{
    struct trdp_slot_terms terms = terms_of(it, timeout);
    return trdp_slot_open_path(&it->slot, path, &terms);
}

int main(int argc, char **argv)
{
    test_folder = argc == 3 ? argv[2] : NULL;
    if (argc == 2 && strcmp(argv[1], "texts") == 0) {
        test_texts();
        test_datasets();
        test_teller();
    } else if (argc == 2 && strcmp(argv[1], "paths") == 0) {
        test_paths();
    } else if (argc >= 2 && argc <= 3 && strcmp(argv[1], "node") == 0) {
        test_node();
    } else {
        return 2;
    }
    printf("%u passed, %u failed\n", passed, failed);
    return failed == 0 ? 0 : 1;
}
