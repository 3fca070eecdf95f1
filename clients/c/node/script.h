/* The lines of docs/SCRIPT.md as structs of trdp_node.h: for the tests, in C and C++. What can be
 * read as a line is left to the library: this reads only lines without a fault. */
#ifndef SCRIPT_H
#define SCRIPT_H

#include "../trdp_node.h"

#include <stdio.h>
#include <stdlib.h>
#include <string.h>

enum { LINE_MOST = 140000, WORDS_MOST = 20, TEXT_MOST = 1 << 22 };

/* An event with its bytes. */
struct event {
    struct trdp_node_event numbers;
    uint8_t bytes[LINE_MOST / 2];
    size_t length;
};

/* Text that grows up to its end. */
struct text {
    char *at;
    size_t length, room;
};

/* The words of a line. */
struct words {
    char line[LINE_MOST + 1];
    const char *at[WORDS_MOST];
    int count;
};

/* Ends a test that can't go on. */
static inline void stop(const char *why)
{
    fprintf(stderr, "stopped: %s\n", why);
    exit(70);
}

/* Makes room for text. */
static inline struct text new_text(void)
{
    struct text text = { (char *)malloc(TEXT_MOST), 0, TEXT_MOST };
    if (!text.at) stop("no memory for a text");
    return text;
}

static inline void add(struct text *to, const char *from, size_t length)
{
    if (length > to->room - to->length) stop("the text is too long");
    if (length) memcpy(to->at + to->length, from, length);
    to->length += length;
}

/* Splits a line at its spaces. */
static inline void split(struct words *words, const char *line, size_t length)
{
    char *at = words->line;
    if (length > LINE_MOST) stop("the line is too long");
    memcpy(at, line, length);
    at[length] = 0;
    for (words->count = 0; at && words->count < WORDS_MOST; words->count++) {
        words->at[words->count] = at;
        at = strchr(at, ' ');
        if (at) *at++ = 0;
    }
}

static inline uint32_t number_of(const char *word)
{
    return (uint32_t)strtoull(word, NULL, 10);
}

static inline uint32_t address_of(const char *word, uint16_t *port)
{
    uint32_t address = 0;
    char *end = NULL;
    for (int i = 0; i < 4; i++, word = end + 1) address = address << 8 | (uint32_t)strtoul(word, &end, 10);
    if (port && *end == ':') *port = (uint16_t)strtoul(end + 1, NULL, 10);
    return address;
}

static inline unsigned digit_of(char digit)
{
    return (unsigned)(digit <= '9' ? digit - '0' : (digit | 32) - 'a' + 10);
}

static inline size_t bytes_of(const char *word, uint8_t *to)
{
    size_t length = strcmp(word, "-") ? strlen(word) / 2 : 0;
    for (size_t i = 0; i < length; i++) to[i] = (uint8_t)(digit_of(word[2 * i]) << 4 | digit_of(word[2 * i + 1]));
    return length;
}

/* A session in any of its forms: 32 digits, with whatever else between them. */
static inline void session_of(const char *word, uint8_t *to)
{
    int count = 0;
    if (strlen(word) > 9 && word[8] == ':') word += 9;
    for (; *word && count < 32; word++) {
        if (strchr("-{}", *word)) continue;
        to[count / 2] = (uint8_t)((unsigned)to[count / 2] << 4 | digit_of(*word));
        count++;
    }
}

/* Which event a word names; 0 if none. A call is named by its own word. */
static inline uint32_t what_of(const char *word)
{
    static const struct { const char *word; uint32_t what; } names[] = {
        { "moment", TRDP_NODE_MOMENT }, { "topology", TRDP_NODE_TOPOLOGY }, { "role", TRDP_NODE_ROLE },
        { "pd", TRDP_NODE_PD }, { "md", TRDP_NODE_MD }, { "addslot", TRDP_NODE_ADD_SLOT },
        { "publish", TRDP_NODE_PUBLISH }, { "put", TRDP_NODE_PUT }, { "unpublish", TRDP_NODE_UNPUBLISH },
        { "subscribe", TRDP_NODE_SUBSCRIBE }, { "get", TRDP_NODE_GET },
        { "unsubscribe", TRDP_NODE_UNSUBSCRIBE }, { "openpull", TRDP_NODE_OPEN_PULL },
        { "pull", TRDP_NODE_PULL }, { "closepull", TRDP_NODE_CLOSE_PULL }, { "listen", TRDP_NODE_LISTEN },
        { "unlisten", TRDP_NODE_UNLISTEN }, { "notify", TRDP_NODE_NOTIFY }, { "request", TRDP_NODE_REQUEST },
        { "reply", TRDP_NODE_REPLY }, { "query", TRDP_NODE_QUERY }, { "replyerror", TRDP_NODE_REPLY_ERROR },
        { "confirm", TRDP_NODE_CONFIRM }, { "abort", TRDP_NODE_ABORT }, { "reset", TRDP_NODE_RESET },
    };
    for (size_t i = 0; i < sizeof names / sizeof *names; i++)
        if (!strcmp(names[i].word, word)) return names[i].what;
    return 0;
}

/* Which field of an event a word of a line is. */
enum field {
    HANDLE, COM_ID, DATASET, TIME, GROUP, ETB, OP_TRN, TO, BYTES, LOW, HIGH, DESTINATION, KEEP, REPLY_COM_ID,
    REPLY_ADDRESS, ANY_COM_ID, SOURCE_URI, DESTINATION_URI, SESSION, EXPECTED, RETRIES, STATUS, FROM, MOMENT, LEADER,
    QUOTAS, NO_FIELD = -1
};

/* The words of a call of message data after its own one; ended by NO_FIELD. */
static inline const int *message_fields_of(uint32_t what)
{
    static const int listen[] = { ANY_COM_ID, LOW, HIGH, DESTINATION, DESTINATION_URI, ETB, OP_TRN, NO_FIELD };
    static const int notify[] = { COM_ID, SOURCE_URI, DESTINATION_URI, ETB, OP_TRN, TO, BYTES, NO_FIELD };
    static const int request[] = { COM_ID, SESSION, EXPECTED, TIME, SOURCE_URI, DESTINATION_URI, ETB, OP_TRN, TO,
                                   BYTES, RETRIES, NO_FIELD };
    static const int reply[] = { HANDLE, COM_ID, STATUS, BYTES, NO_FIELD };
    static const int query[] = { HANDLE, COM_ID, STATUS, TIME, BYTES, NO_FIELD };
    static const int confirm[] = { HANDLE, TO, STATUS, NO_FIELD };
    static const int handle[] = { HANDLE, NO_FIELD };
    switch (what) {
    case TRDP_NODE_LISTEN: return listen;
    case TRDP_NODE_NOTIFY: return notify;
    case TRDP_NODE_REQUEST: return request;
    case TRDP_NODE_REPLY: case TRDP_NODE_REPLY_ERROR: return reply;
    case TRDP_NODE_QUERY: return query;
    case TRDP_NODE_CONFIRM: return confirm;
    default: return handle;
    }
}

/* The words of an event after its own one. */
static inline const int *fields_of(uint32_t what)
{
    static const int moment[] = { MOMENT, NO_FIELD }, topology[] = { ETB, OP_TRN, NO_FIELD };
    static const int role[] = { GROUP, LEADER, NO_FIELD }, datagram[] = { FROM, TO, BYTES, NO_FIELD };
    static const int add_slot[] = { QUOTAS, QUOTAS, QUOTAS, QUOTAS, QUOTAS, QUOTAS, NO_FIELD };
    static const int publish[] = { COM_ID, DATASET, TIME, GROUP, ETB, OP_TRN, TO, NO_FIELD };
    static const int put[] = { HANDLE, BYTES, NO_FIELD }, reset[] = { NO_FIELD };
    static const int subscribe[] = { COM_ID, DATASET, LOW, HIGH, DESTINATION, ETB, OP_TRN, TIME, KEEP, NO_FIELD };
    static const int open_pull[] = { COM_ID, REPLY_COM_ID, REPLY_ADDRESS, ETB, OP_TRN, TO, NO_FIELD };
    switch (what) {
    case TRDP_NODE_MOMENT: return moment;
    case TRDP_NODE_TOPOLOGY: return topology;
    case TRDP_NODE_ROLE: return role;
    case TRDP_NODE_PD: case TRDP_NODE_MD: return datagram;
    case TRDP_NODE_ADD_SLOT: return add_slot;
    case TRDP_NODE_PUBLISH: return publish;
    case TRDP_NODE_PUT: return put;
    case TRDP_NODE_SUBSCRIBE: return subscribe;
    case TRDP_NODE_OPEN_PULL: return open_pull;
    case TRDP_NODE_RESET: return reset;
    default: return message_fields_of(what);
    }
}

/* Reads a word of message data, or of a datagram. */
static inline void read_word(struct event *event, int field, const char *word)
{
    struct trdp_node_event *to = &event->numbers;
    switch (field) {
    case ANY_COM_ID: to->any = !strcmp(word, "any"); to->com_id = number_of(word); break;
    case SOURCE_URI: bytes_of(word, to->source_uri); break;
    case DESTINATION_URI: bytes_of(word, to->destination_uri); break;
    case SESSION: session_of(word, to->session); break;
    case EXPECTED: to->expected = (uint8_t)number_of(word); break;
    case RETRIES: to->retries = (uint8_t)number_of(word); break;
    case STATUS: to->status = (int32_t)strtoll(word, NULL, 10); break;
    case FROM: to->from_address = address_of(word, &to->from_port); break;
    case TO: to->to_address = address_of(word, &to->to_port); break;
    case BYTES: event->length = bytes_of(word, event->bytes); break;
    default: stop("no such field");
    }
}

/* Reads a word. */
static inline void read_field(struct event *event, int field, const char *word, int index)
{
    struct trdp_node_event *to = &event->numbers;
    switch (field) {
    case HANDLE: to->handle = number_of(word); break;
    case COM_ID: to->com_id = number_of(word); break;
    case DATASET: to->dataset = number_of(word); break;
    case TIME: to->time = number_of(word); break;
    case GROUP: to->group = (uint8_t)number_of(word); break;
    case ETB: to->etb = number_of(word); break;
    case OP_TRN: to->op_trn = number_of(word); break;
    case LOW: to->low = address_of(word, NULL); break;
    case HIGH: to->high = address_of(word, NULL); break;
    case DESTINATION: to->destination = address_of(word, NULL); break;
    case KEEP: to->keep = !strcmp(word, "keep"); break;
    case REPLY_COM_ID: to->reply_com_id = number_of(word); break;
    case REPLY_ADDRESS: to->reply_address = address_of(word, NULL); break;
    case MOMENT: to->moment = strtoull(word, NULL, 10); break;
    case LEADER: to->leader = !strcmp(word, "leader"); break;
    case QUOTAS: to->quotas[index] = (uint16_t)number_of(word); break;
    default: read_word(event, field, word);
    }
}

/* Reads a line that has no fault; 0 if it has no event. */
static inline int read_line(struct event *event, struct words *words, const char *line, size_t length)
{
    const int *fields;
    int at = 1;
    if (length && line[length - 1] == '\n') length--;
    if (length && line[length - 1] == '\r') length--;
    if (!length || *line == '#') return 0;
    split(words, line, length);
    memset(&event->numbers, 0, sizeof event->numbers);
    event->length = 0;
    if (!strcmp(words->at[0], "call")) {
        event->numbers.slot = (uint16_t)number_of(words->at[1]);
        at = 3;
    }
    event->numbers.what = what_of(words->at[at - 1]);
    fields = fields_of(event->numbers.what);
    for (int i = 0; fields[i] != NO_FIELD && at < words->count; i++) read_field(event, fields[i], words->at[at++], i);
    return 1;
}

/* The bytes of a file, up to its end or to that many. */
static inline size_t read_file(const char *path, char *to, size_t room)
{
    FILE *file = fopen(path, "rb");
    size_t length;
    if (!file) stop("a file can't be read");
    length = fread(to, 1, room, file);
    fclose(file);
    if (length == room) stop("a file is too long");
    return length;
}

/* The end of the line that begins there: after its newline, or at the text's end. */
static inline const char *line_end(const char *line, const char *end)
{
    const void *found = memchr(line, '\n', (size_t)(end - line));
    return found ? (const char *)found + 1 : end;
}

#endif
