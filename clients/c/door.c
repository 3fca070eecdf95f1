/* A door controller: it sends the other side how its doors are, and shows how those of the other
 * side are, once a second.
 *
 *     gcc -std=c99 -Wall -Wextra -O2 -o door clients/c/door.c
 *     ./door ADDRESS PORT OTHER SECONDS
 *     ./door PATH OTHER SECONDS
 *     ./door 127.0.9.1 18000 127.0.9.2 60
 *
 * ADDRESS and PORT are those of its slot's control port, PATH is that of its control socket, with a
 * slash in it, and OTHER is the address of the other side's node. door.toml and other.toml
 * configure both sides. It begins with a reset, and makes its objects again where they are gone.
 * The exit status is 2 for other words, 1 where the slot can't be opened. */
#include "trdp_slot.h"

#include <stdio.h>
#include <stdlib.h>

struct doors {
    struct trdp_slot slot;
    uint32_t other;
    bool is_reset;      /* whether what is there is this program's own */
    uint32_t publisher; /* the handles; 0 where there is none */
    uint32_t subscription;
};

/* All that was made is gone. */
static void begin_anew(struct doors *doors)
{
    doors->is_reset = false;
    doors->publisher = doors->subscription = 0;
}

/* Makes what isn't there yet: one publisher and one subscription, of comId 2101, in a slot in which
 * nothing is left of an earlier program. */
static enum trdp_slot_error begin(struct doors *doors)
{
    struct trdp_slot_publisher tells = { .com_id = 2101, .dataset = 5002, .cycle = 100000,
        .to = { doors->other, 17224 } };
    struct trdp_slot_subscription hears = { .com_id = 2101, .dataset = 5002,
        .low = doors->other, .high = doors->other, .time = 500000, .keep = true };
    enum trdp_slot_error error = TRDP_SLOT_OK;
    if (!doors->is_reset)
        error = trdp_slot_reset(&doors->slot);
    doors->is_reset = error == TRDP_SLOT_OK;
    if (error == TRDP_SLOT_OK && doors->publisher == 0)
        error = trdp_slot_publish(&doors->slot, &tells, &doors->publisher);
    if (error == TRDP_SLOT_OK && doors->subscription == 0)
        error = trdp_slot_subscribe(&doors->slot, &hears, &doors->subscription);
    return error;
}

/* Tells how the doors are, and shows how those of the other side are. */
static enum trdp_slot_error tell_and_show(struct doors *doors, uint8_t obstacles)
{
    uint8_t status[] = { 4, 0, 0, 0, 0, 0, obstacles }, bytes[TRDP_SLOT_VALUE];
    struct trdp_slot_value value;
    enum trdp_slot_error error = begin(doors);
    if (error == TRDP_SLOT_OK)
        error = trdp_slot_put(&doors->slot, doors->publisher, status, sizeof status);
    if (error == TRDP_SLOT_OK)
        error = trdp_slot_get(&doors->slot, doors->subscription, &value, bytes, sizeof bytes);
    if (error == TRDP_SLOT_OK)
        printf("%s: %u doors, %u bytes\n", trdp_slot_state_text(value.state),
            (unsigned)bytes[0], (unsigned)value.length);
    /* The daemon was started again, or the connection has ended. */
    if (error == TRDP_SLOT_REFUSED_NO_HANDLE || error == TRDP_SLOT_RESTARTED)
        begin_anew(doors);
    return error;
}

/* Shows what the node sends without being asked, for some time, or until the connection ends. */
static void listen_for(struct doors *doors, uint32_t milliseconds)
{
    int64_t end = trdp_slot_now() + milliseconds, left;
    while ((left = end - trdp_slot_now()) > 0) {
        struct trdp_slot_indication told;
        switch (trdp_slot_next(&doors->slot, (uint32_t)left, &told, NULL, 0)) {
        case TRDP_SLOT_OK:
            printf("%s %u\n", trdp_slot_kind_text(told.kind), (unsigned)told.handle);
            break;
        case TRDP_SLOT_LOST:
            printf("%u lost\n", (unsigned)told.lost);
            break;
        case TRDP_SLOT_RESTARTED:
            begin_anew(doors);
            return;
        default:
            break;
        }
    }
}

int main(int argc, char **argv)
{
    static char line[512], text[TRDP_SLOT_TEXT_ROOM];
    static uint8_t kept[4096];
    struct doors doors = { .publisher = 0 };
    struct trdp_slot_terms terms = { .timeout = 200, .tries = 1,
        .line = line, .line_room = sizeof line, .text = text, .text_room = sizeof text,
        .kept = kept, .kept_room = sizeof kept };
    bool has_path = argc == 4 && strchr(argv[1], '/') != NULL;
    if ((!has_path && (argc != 5 || !trdp_slot_address(argv[1], &terms.address)))
        || !trdp_slot_address(argv[argc - 2], &doors.other)) {
        fprintf(stderr, "usage: door ADDRESS PORT OTHER SECONDS\n"
                        "       door PATH OTHER SECONDS\n");
        return 2;
    }
    terms.port = has_path ? 0 : (uint16_t)atoi(argv[2]);
    enum trdp_slot_error error = has_path ? trdp_slot_open_path(&doors.slot, argv[1], &terms)
        : trdp_slot_open(&doors.slot, &terms);
    if (error != TRDP_SLOT_OK) {
        fprintf(stderr, "door: %s\n", trdp_slot_error_text(error));
        return 1;
    }
    setvbuf(stdout, NULL, _IOLBF, 0);
    for (int second = 0; second < atoi(argv[argc - 1]); second++) {
        error = tell_and_show(&doors, (uint8_t)second);
        if (error != TRDP_SLOT_OK)
            printf("%s\n", trdp_slot_error_text(error));
        listen_for(&doors, 1000);
    }
    trdp_slot_reset(&doors.slot); /* over UDP, what isn't ended stays in the daemon */
    trdp_slot_close(&doors.slot);
    return 0;
}
