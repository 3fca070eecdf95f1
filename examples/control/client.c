/* A client of a control port of trdpd: sends lines, and prints all that comes back within a time.
 *
 *     gcc -Wall -Wextra -O2 -o client examples/control/client.c
 *     ./client ADDRESS PORT SECONDS LINE..
 *     ./client PATH SECONDS LINE..
 *     ./client 127.0.0.1 18000 1 'get 2'
 *     ./client /run/trdpd/18000 1 'get 2'
 *
 * PATH is that of a control socket, with a slash in it.
 *
 * It uses the socket of clients/c/trdp_slot.h, and none of its calls: the lines are those of
 * docs/SCRIPT.md, word for word. clients/c/door.c is an application that uses the calls. The exit
 * status is 0 where something came back, 1 where nothing did, 2 for other words. */
#include "../../clients/c/trdp_slot.h"
#include <stdio.h>
#include <stdlib.h>

/* Prints what comes back until that time. Returns whether something did. */
static bool show(struct trdp_slot *slot, int64_t until)
{
    bool heard = false;
    struct trdp_slot_piece piece;
    enum trdp_slot_error error;
    while ((error = trdp_slot_await(slot, until, &piece)) == TRDP_SLOT_OK) {
        fwrite(piece.text, 1, piece.length, stdout);
        fflush(stdout);
        heard = true;
    }
    if (error != TRDP_SLOT_TIMEOUT)
        fprintf(stderr, "client: %s\n", trdp_slot_error_text(error));
    return heard;
}

int main(int argc, char **argv)
{
    static char line[TRDP_SLOT_OVERHEAD], text[TRDP_SLOT_LINE];
    struct trdp_slot_terms terms = { .timeout = 200, .tries = 1, .line = line,
        .line_room = sizeof line, .text = text, .text_room = sizeof text };
    int first = argc > 1 && strchr(argv[1], '/') != NULL ? 3 : 4; /* of the lines */
    if (argc <= first || (first == 4 && !trdp_slot_address(argv[1], &terms.address))) {
        fprintf(stderr, "usage: client ADDRESS PORT SECONDS LINE..\n"
                        "       client PATH SECONDS LINE..\n");
        return 2;
    }
    terms.port = first == 4 ? (uint16_t)atoi(argv[2]) : 0;
    struct trdp_slot slot;
    enum trdp_slot_error error = first == 4 ? trdp_slot_open(&slot, &terms)
        : trdp_slot_open_path(&slot, argv[1], &terms);
    int64_t until = trdp_slot_now() + (int64_t)(atof(argv[first - 1]) * 1000);
    for (int i = first; i < argc && error == TRDP_SLOT_OK; i++)
        error = trdp_slot_send(&slot, argv[i], strlen(argv[i]), until); /* its end, for the zero */
    if (error != TRDP_SLOT_OK) {
        fprintf(stderr, "client: %s\n", trdp_slot_error_text(error));
        return 1;
    }
    bool heard = show(&slot, until);
    trdp_slot_close(&slot);
    return heard ? 0 : 1;
}
