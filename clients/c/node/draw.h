/* Random numbers, words, lines and events for the tests, always the same after the same seed. */
#ifndef DRAW_H
#define DRAW_H

#include "records.h"

/* Where the random numbers have come to; the slot of the line, and the latest handles of some slots. */
struct draw {
    uint64_t state;
    uint64_t moment;
    uint32_t slot;
    uint32_t handles[2];
};

/* The next random number below a limit. */
static inline uint32_t draw_below(struct draw *draw, uint32_t limit)
{
    draw->state = draw->state * 6364136223846793005u + 1442695040888963407u;
    return (uint32_t)((draw->state >> 33) % limit);
}

/* One of some words. */
static inline const char *draw_word(struct draw *draw, const char *const *words, uint32_t count)
{
    return words[draw_below(draw, count)];
}

static inline void draw_number(struct draw *draw, struct text *to, uint32_t limit)
{
    static const char *const odd[] = { " 4294967295", " 4294967296", " 07", " -", " x", " 65536", " 256", " 1.2" };
    if (!draw_below(draw, 60)) put(to, draw_word(draw, odd, 8));
    else put_number(to, draw_below(draw, limit));
}

static inline void draw_bytes(struct draw *draw, struct text *to, uint32_t limit)
{
    uint8_t bytes[2000];
    size_t length = draw_below(draw, draw_below(draw, 50) ? 12 : limit);
    for (size_t i = 0; i < length; i++) bytes[i] = (uint8_t)draw_below(draw, 256);
    put_bytes(to, bytes, length);
}

/* The check of a header, as the standard has it, by half bytes. */
static inline uint32_t header_check(const uint8_t *bytes, size_t length)
{
    static uint32_t table[16];
    uint32_t check = UINT32_MAX;
    for (uint32_t i = 0; !table[15] && i < 16; i++) {
        uint32_t part = i;
        for (int bit = 0; bit < 4; bit++) part = part >> 1 ^ (part & 1 ? 0xedb88320u : 0);
        table[i] = part;
    }
    for (size_t i = 0; i < length; i++) {
        check ^= bytes[i];
        check = check >> 4 ^ table[check & 15];
        check = check >> 4 ^ table[check & 15];
    }
    return ~check;
}

static inline void write_number(uint8_t *at, uint32_t number)
{
    for (int i = 0; i < 4; i++) at[i] = (uint8_t)(number >> (24 - 8 * i));
}

/* A telegram that may well pass the filters: of process data, or of message data. */
static inline void draw_telegram(struct draw *draw, struct text *to, int is_message)
{
    static const char *const kinds[] = { "Pd", "Pr", "Pp", "Mn", "Mr", "Mp", "Mq", "Mc", "Me" };
    const char *kind = kinds[is_message ? 3 + draw_below(draw, 6) : draw_below(draw, 3)];
    uint32_t length = draw_below(draw, 12), head = is_message ? 112 : 36;
    uint8_t bytes[144] = { 0 };
    write_number(bytes, draw_below(draw, is_message ? 1 : 40));
    bytes[4] = 1;
    bytes[6] = (uint8_t)kind[0];
    bytes[7] = (uint8_t)kind[1];
    write_number(bytes + 8, 100 + draw_below(draw, 4));
    write_number(bytes + 20, length);
    if (is_message) {
        write_number(bytes + 24, kind[1] == 'e' ? UINT32_MAX : 0);
        if (kind[1] != 'n') bytes[43] = (uint8_t)draw_below(draw, 6);
        write_number(bytes + 44, kind[1] == 'r' || kind[1] == 'q' ? draw_below(draw, 9000) : 0);
    } else if (kind[1] == 'r') write_number(bytes + 28, draw_below(draw, 2) ? 100 + draw_below(draw, 4) : 0);
    for (uint32_t i = 0; i < 4; i++) bytes[head + i] = (uint8_t)(header_check(bytes, head) >> 8 * i);
    for (uint32_t i = 0; i < length; i++) bytes[head + 4 + i] = (uint8_t)draw_below(draw, 4);
    if (!draw_below(draw, 20)) bytes[draw_below(draw, head + 4)] ^= 1;
    put_bytes(to, bytes, head + 4 + (length + 3) / 4 * 4);
}

static inline void draw_place(struct draw *draw, struct text *to)
{
    static const char *const places[] = { " 10.0.0.2:17224", " 10.0.0.3:17225", " 10.0.0.1:17225", " 0.0.0.0:0",
                                          " 239.192.0.1:17224", " 10.0.0.2:17225", " 10.0.0.256:1", " 10.0.0.2" };
    put(to, draw_word(draw, places, draw_below(draw, 40) ? 6 : 8));
}

static inline void draw_address(struct draw *draw, struct text *to)
{
    static const char *const addresses[] = { " 0.0.0.0", " 10.0.0.1", " 10.0.0.2", " 10.0.0.9", " 10.0.0" };
    put(to, draw_word(draw, addresses, draw_below(draw, 50) ? 4 : 5));
}

/* A word of message data, or of a datagram. */
static inline void draw_rest(struct draw *draw, struct text *to, int field, uint32_t what)
{
    static const char *const uris[] = { " -", " -", " 636172", " 646f6f72", " 00" };
    static const char *const sessions[] = { " 00000000-0000-0000-0000-00000000000", " urn:uuid:0000000000000000000000000000000" };
    char digit[2] = { (char)('0' + draw_below(draw, 6)), 0 };
    switch (field) {
    case ANY_COM_ID: if (draw_below(draw, 3)) put_number(to, 100 + draw_below(draw, 4)); else put(to, " any"); break;
    case SOURCE_URI: case DESTINATION_URI: put(to, draw_word(draw, uris, draw_below(draw, 50) ? 4 : 5)); break;
    case SESSION: put(to, draw_word(draw, sessions, 2)); put(to, digit); break;
    case EXPECTED: draw_number(draw, to, 4); break;
    case RETRIES: if (draw_below(draw, 2)) draw_number(draw, to, 4); break;
    case STATUS: put_number(to, (int64_t)draw_below(draw, 4) - 1); break;
    case FROM: case TO: draw_place(draw, to); break;
    case BYTES:
        if ((what == TRDP_NODE_PD || what == TRDP_NODE_MD) && draw_below(draw, 12)) draw_telegram(draw, to, what == TRDP_NODE_MD);
        else draw_bytes(draw, to, 1600);
        break;
    default: stop("no such field");
    }
}

/* Notes the handles that came of a line. */
static inline void note_handles(struct draw *draw, struct trdp_node *node)
{
    struct trdp_node_record record;
    for (size_t i = 0; trdp_node_record(node, i, &record) == TRDP_NODE_OK; i++) {
        uint32_t handle = record.what == TRDP_NODE_HANDLE ? record.handle : record.replier;
        if (handle) draw->handles[record.slot & 1] = handle;
    }
}

/* One of the latest handles of the slot, or any number. */
static inline void draw_handle(struct draw *draw, struct text *to)
{
    uint32_t latest = draw->handles[draw->slot & 1], below = draw_below(draw, 16);
    if (draw_below(draw, 12) && below < latest) put_number(to, latest - below);
    else draw_number(draw, to, 4000);
}

static inline void draw_field(struct draw *draw, struct text *to, int field, uint32_t what)
{
    static const char *const datasets[] = { " 0", " 0", " 0", " 1001", " 1002", " 9" };
    switch (field) {
    case HANDLE: draw_handle(draw, to); break;
    case COM_ID: case REPLY_COM_ID: put_number(to, 100 + draw_below(draw, 4)); break;
    case DATASET: put(to, draw_word(draw, datasets, 6)); break;
    case TIME: draw_number(draw, to, draw_below(draw, 3) ? 20000 : 1100); break;
    case GROUP: draw_number(draw, to, 3); break;
    case ETB: case OP_TRN: draw_number(draw, to, draw_below(draw, 6) ? 1 : 3); break;
    case LOW: case HIGH: case DESTINATION: case REPLY_ADDRESS: draw_address(draw, to); break;
    case KEEP: put(to, draw_below(draw, 2) ? " keep" : " zero"); break;
    case MOMENT: put_number(to, (int64_t)draw->moment); break;
    case LEADER: put(to, draw_below(draw, 2) ? " leader" : " follower"); break;
    case QUOTAS: draw_number(draw, to, draw_below(draw, 2) ? 6 : 256); break;
    default: draw_rest(draw, to, field, what);
    }
}

/* A line, without its newline. One in 30 cannot be read. */
static inline void draw_line(struct draw *draw, struct text *to)
{
    static const char *const words[] = {
        "moment", "moment", "moment", "pd", "pd", "pd", "md", "md", "md", "publish", "publish", "put", "put", "put",
        "subscribe", "get", "get", "listen", "request", "request", "reply", "query", "replyerror", "confirm", "notify",
        "openpull", "pull", "abort", "topology", "role", "unpublish", "unsubscribe", "closepull", "unlisten", "reset",
        "addslot", "jump"
    };
    const char *word = draw_word(draw, words, draw_below(draw, 8) ? 28 : sizeof words / sizeof *words);
    uint32_t what = what_of(word);
    const int *fields = fields_of(what);
    draw->moment += draw_below(draw, 1500);
    if (what >= TRDP_NODE_PUBLISH) {
        draw->slot = draw_below(draw, 40) ? draw_below(draw, 2) : draw_below(draw, 20);
        put(to, "call");
        put_number(to, draw->slot);
        put(to, " ");
    }
    put(to, word);
    for (int i = 0; fields[i] != NO_FIELD; i++) draw_field(draw, to, fields[i], what);
    if (!draw_below(draw, 300)) put(to, " 1");
}

/* An event of random bytes, whose `what` is one of the known ones more often than not. */
static inline void draw_event(struct draw *draw, struct event *event)
{
    uint8_t *at = (uint8_t *)&event->numbers;
    for (size_t i = 0; i < sizeof event->numbers; i++) at[i] = (uint8_t)draw_below(draw, draw_below(draw, 3) ? 3 : 256);
    event->numbers.what = draw_below(draw, 32);
    event->numbers.slot = (uint16_t)draw_below(draw, 3);
    event->length = draw_below(draw, draw_below(draw, 20) ? 60 : 1600);
    for (size_t i = 0; i < event->length; i++) event->bytes[i] = (uint8_t)draw_below(draw, 256);
}

#endif
