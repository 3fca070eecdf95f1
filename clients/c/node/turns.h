/* A script over one node, its lines by turns as lines and in numbers. */
#ifndef TURNS_H
#define TURNS_H

#include "records.h"

/* How often there was no memory, and for what. */
struct refusals {
    unsigned long line, step, text;
};

/* A script that is played, with room of its own. */
struct turns {
    const char *script, *end;
    struct event event;
    struct words words;
    struct text found;
    struct refusals refusals;
};

/* Whether there was no memory for an event: then the node is as it was, and there are no records. */
static inline int is_refused(struct trdp_node *node, enum trdp_node_status status, const struct trdp_node_state *before)
{
    struct trdp_node_record record;
    struct trdp_node_state now;
    if (status != TRDP_NODE_OUT_OF_MEMORY) return 0;
    if (trdp_node_state(node, &now) != TRDP_NODE_OK) stop("no state");
    if (now.now != before->now || now.next_due != before->next_due || now.slots != before->slots) stop("another state");
    if (trdp_node_record(node, 0, &record) != TRDP_NODE_NO_RECORD) stop("a refused event has a record");
    return 1;
}

/* Plays a line as one, again if there was no memory for it. */
static inline void play_line(struct turns *turns, struct trdp_node *node, const char *line, size_t length)
{
    struct trdp_node_state before;
    struct trdp_node_text text;
    enum trdp_node_status status;
    if (trdp_node_state(node, &before) != TRDP_NODE_OK) stop("no state");
    status = trdp_node_line(node, line, length, &text);
    if (is_refused(node, status, &before)) {
        turns->refusals.line++;
        status = trdp_node_line(node, line, length, &text);
    }
    if (status == TRDP_NODE_TEXT_LOST) {
        turns->refusals.text++;
        if (text.length) stop("a lost text");
        status = trdp_node_text(node, &text);
    }
    if (status > TRDP_NODE_SLOTS_FULL || status == TRDP_NODE_OUT_OF_MEMORY) stop("a line isn't taken");
    add(&turns->found, text.text, text.length);
}

/* Plays a line in numbers, again if there was no memory for it. */
static inline void play_numbers(struct turns *turns, struct trdp_node *node, const char *line, size_t length)
{
    const struct event *event = &turns->event;
    struct trdp_node_state before;
    struct trdp_node_done done;
    enum trdp_node_status status;
    if (!read_line(&turns->event, &turns->words, line, length)) return;
    if (trdp_node_state(node, &before) != TRDP_NODE_OK) stop("no state");
    status = trdp_node_step(node, &event->numbers, event->bytes, event->length, &done);
    if (is_refused(node, status, &before)) {
        turns->refusals.step++;
        status = trdp_node_step(node, &event->numbers, event->bytes, event->length, &done);
    }
    if (status > TRDP_NODE_SLOTS_FULL || status == TRDP_NODE_OUT_OF_MEMORY) stop("an event isn't taken");
    put_done(&turns->found, node, &done);
}

/* Plays the script, its first line in numbers if `turn` is odd. */
static inline void play_turns(struct turns *turns, struct trdp_node *node, unsigned long turn)
{
    turns->found.length = 0;
    for (const char *at = turns->script; at < turns->end; turn++) {
        const char *next = line_end(at, turns->end);
        size_t length = (size_t)(next - at) - (next[-1] == '\n');
        if (turn & 1) play_numbers(turns, node, at, length);
        else play_line(turns, node, at, length);
        at = next;
    }
}

#endif
