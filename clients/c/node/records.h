/* The records of trdp_node.h as the lines of docs/SCRIPT.md: for the tests, in C and C++. */
#ifndef RECORDS_H
#define RECORDS_H

#include "script.h"

#include <inttypes.h>

static inline void put(struct text *to, const char *text)
{
    add(to, text, strlen(text));
}

static inline void put_number(struct text *to, int64_t number)
{
    char text[24];
    snprintf(text, sizeof text, " %" PRId64, number);
    put(to, text);
}

static inline void put_bytes(struct text *to, const uint8_t *bytes, size_t length)
{
    static const char digits[] = "0123456789abcdef";
    char *at;
    put(to, length ? " " : " -");
    if (length > (to->room - to->length) / 2) stop("the text is too long");
    at = to->at + to->length;
    for (size_t i = 0; i < length; i++) {
        *at++ = digits[bytes[i] >> 4];
        *at++ = digits[bytes[i] & 15];
    }
    to->length += 2 * length;
}

static inline void put_uri(struct text *to, const uint8_t *uri)
{
    const void *end = memchr(uri, 0, TRDP_NODE_URI);
    put_bytes(to, uri, end ? (size_t)((const uint8_t *)end - uri) : (size_t)TRDP_NODE_URI);
}

static inline void put_place(struct text *to, const struct trdp_node_record *of)
{
    char text[32];
    snprintf(text, sizeof text, " %u.%u.%u.%u:%u", of->address >> 24, of->address >> 16 & 255, of->address >> 8 & 255,
             of->address & 255, of->port);
    put(to, text);
}

static inline void put_session(struct text *to, const uint8_t *session)
{
    char text[4];
    put(to, " ");
    for (int i = 0; i < TRDP_NODE_SESSION; i++) {
        snprintf(text, sizeof text, "%s%02x", i == 4 || i == 6 || i == 8 || i == 10 ? "-" : "", session[i]);
        put(to, text);
    }
}

static inline void put_message(struct text *to, const struct trdp_node_record *of)
{
    put_place(to, of);
    put_number(to, of->com_id);
    put_uri(to, of->source_uri);
    put_uri(to, of->destination_uri);
    put_bytes(to, of->bytes, of->length);
}

/* The name that a function of the header knows. */
static inline void put_name(struct text *to, enum trdp_node_status (*known)(uint32_t, struct trdp_node_name *),
                            uint32_t code)
{
    struct trdp_node_name name;
    if (known(code, &name) != TRDP_NODE_OK) stop("a code has no name");
    put(to, " ");
    put(to, name.text);
}

/* One of some words. */
static inline void put_word(struct text *to, const char *const *words, size_t count, uint32_t code)
{
    if (code >= count) stop("a code is above its last one");
    put(to, words[code]);
}

/* What else a record of message data has after its first words. */
static inline void put_rest(struct text *to, const struct trdp_node_record *of)
{
    static const char *const kinds[] = { " Mn", " Mr", " Mp", " Mq", " Mc", " Me" };
    switch (of->what) {
    case TRDP_NODE_NOTIFIED: put_message(to, of); break;
    case TRDP_NODE_ASKED:
        put_number(to, of->replier);
        put_session(to, of->session);
        put_message(to, of);
        break;
    case TRDP_NODE_REPLIED:
        put_place(to, of);
        put_word(to, kinds, 6, of->code);
        put_number(to, of->status);
        put_number(to, of->com_id);
        put_bytes(to, of->bytes, of->length);
        break;
    case TRDP_NODE_CONFIRMED: put_number(to, of->status); break;
    case TRDP_NODE_CLOSED: put_name(to, trdp_node_reason_name, of->code); break;
    default: break;
    }
}

/* Prints a record as `trdpd run` does. */
static inline void put_record(struct text *to, const struct trdp_node_record *of)
{
    static const char *const words[] = { "", " handle", " done", " value", " refused", " opened", " silent", " alive",
                                         " notified", " asked", " overrun", " replied", " confirmed", " closed",
                                         " send pd", " send md" };
    static const char *const states[] = { " Never", " Valid", " Silent" };
    char slot[8];
    snprintf(slot, sizeof slot, "%u", of->slot);
    put(to, slot);
    put_word(to, words, 16, of->what);
    switch (of->what) {
    case TRDP_NODE_DONE: case TRDP_NODE_OPENED: break;
    case TRDP_NODE_VALUE:
        put_word(to, states, 3, of->code);
        put_number(to, of->counter);
        put_bytes(to, of->bytes, of->length);
        break;
    case TRDP_NODE_REFUSED: put_name(to, trdp_node_refusal_name, of->code); break;
    case TRDP_NODE_SEND_PD: case TRDP_NODE_SEND_MD:
        put_place(to, of);
        put_bytes(to, of->bytes, of->length);
        break;
    default:
        put_number(to, of->handle);
        put_rest(to, of);
    }
    put(to, "\n");
}

/* Prints what came of an event: the node's fault, or its records. */
static inline void put_done(struct text *to, struct trdp_node *node, const struct trdp_node_done *done)
{
    struct trdp_node_record record;
    if (done->status) {
        put(to, "fault");
        put_name(to, trdp_node_fault_name, done->status);
        put(to, "\n");
    }
    for (size_t i = 0; i < done->records; i++) {
        if (trdp_node_record(node, i, &record) != TRDP_NODE_OK) stop("a record isn't there");
        put_record(to, &record);
    }
    if (trdp_node_record(node, done->records, &record) != TRDP_NODE_NO_RECORD) stop("there is one more record");
}

#endif
