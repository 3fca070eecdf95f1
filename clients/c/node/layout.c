/* Compares the layout of the header's structs and its numbers with those that the library takes. */
#include "../trdp_node.h"

#include <stdio.h>
#include <string.h>

/* A field of a struct, or an array: where its members begin, how many they are, and the size of each. */
struct part {
    size_t at, count, size;
    const char *name;
};

#define ONE(type, name) { offsetof(struct type, name), 1, sizeof(((struct type *)0)->name), #type "." #name }
#define MANY(type, name) { offsetof(struct type, name), sizeof(((struct type *)0)->name) / sizeof(((struct type *)0)->name[0]), \
                           sizeof(((struct type *)0)->name[0]), #type "." #name }
#define E(name) ONE(trdp_node_event, name)
#define R(name) ONE(trdp_node_record, name)
#define LENGTH(array) (sizeof(array) / sizeof *(array))

static const uint64_t numbers[] = {
    sizeof(struct trdp_node_event), sizeof(struct trdp_node_record), sizeof(struct trdp_node_done),
    sizeof(struct trdp_node_text), sizeof(struct trdp_node_state), sizeof(struct trdp_node_fault),
    sizeof(struct trdp_node_name), TRDP_NODE_SESSION, TRDP_NODE_URI, TRDP_NODE_KINDS, TRDP_NODE_FAULT_TEXT,
    TRDP_NODE_NAME, TRDP_NODE_OK, TRDP_NODE_NO_SLOT, TRDP_NODE_PAST, TRDP_NODE_TOO_LATE, TRDP_NODE_NO_GROUP,
    TRDP_NODE_OUT_OF_MEMORY, TRDP_NODE_SLOTS_FULL, TRDP_NODE_LINE_TOO_LONG, TRDP_NODE_LINE_UNKNOWN,
    TRDP_NODE_LINE_COUNT, TRDP_NODE_LINE_BAD_WORD, TRDP_NODE_TEXT_LOST, TRDP_NODE_NO_EVENT, TRDP_NODE_BAD_FLAG,
    TRDP_NODE_BAD_QUOTA, TRDP_NODE_NO_RECORD, TRDP_NODE_NO_CODE, TRDP_NODE_BAD_CONFIG, TRDP_NODE_NO_NODE,
    TRDP_NODE_BAD_POINTER, TRDP_NODE_OWN_BYTES, TRDP_NODE_MOMENT, TRDP_NODE_TOPOLOGY, TRDP_NODE_ROLE, TRDP_NODE_PD,
    TRDP_NODE_MD, TRDP_NODE_ADD_SLOT, TRDP_NODE_PUBLISH, TRDP_NODE_PUT, TRDP_NODE_UNPUBLISH, TRDP_NODE_SUBSCRIBE,
    TRDP_NODE_GET, TRDP_NODE_UNSUBSCRIBE, TRDP_NODE_OPEN_PULL, TRDP_NODE_PULL, TRDP_NODE_CLOSE_PULL, TRDP_NODE_LISTEN,
    TRDP_NODE_UNLISTEN, TRDP_NODE_NOTIFY, TRDP_NODE_REQUEST, TRDP_NODE_REPLY, TRDP_NODE_QUERY, TRDP_NODE_REPLY_ERROR,
    TRDP_NODE_CONFIRM, TRDP_NODE_ABORT, TRDP_NODE_RESET, TRDP_NODE_HANDLE, TRDP_NODE_DONE, TRDP_NODE_VALUE,
    TRDP_NODE_REFUSED, TRDP_NODE_OPENED, TRDP_NODE_SILENT, TRDP_NODE_ALIVE, TRDP_NODE_NOTIFIED, TRDP_NODE_ASKED,
    TRDP_NODE_OVERRUN, TRDP_NODE_REPLIED, TRDP_NODE_CONFIRMED, TRDP_NODE_CLOSED, TRDP_NODE_SEND_PD, TRDP_NODE_SEND_MD,
    TRDP_NODE_NEVER, TRDP_NODE_VALID, TRDP_NODE_SILENT_VALUE, TRDP_NODE_REFUSED_NO_HANDLE,
    TRDP_NODE_REFUSED_WRONG_KIND, TRDP_NODE_REFUSED_STATE, TRDP_NODE_REFUSED_CYCLE, TRDP_NODE_REFUSED_TIMEOUT,
    TRDP_NODE_REFUSED_EXPECTED, TRDP_NODE_REFUSED_STATUS, TRDP_NODE_REFUSED_RANGE, TRDP_NODE_REFUSED_NO_DATASET,
    TRDP_NODE_REFUSED_TOO_LONG, TRDP_NODE_REFUSED_SHAPE, TRDP_NODE_REFUSED_SESSION_OPEN, TRDP_NODE_REFUSED_QUOTA,
    TRDP_NODE_REFUSED_EXHAUSTED, TRDP_NODE_REFUSED_RETRIES, TRDP_NODE_REASON_DONE, TRDP_NODE_REASON_NO_REPLY,
    TRDP_NODE_REASON_NOT_ALL_REPLIES, TRDP_NODE_REASON_NOT_CONFIRMED, TRDP_NODE_REASON_REPLY_MISSED,
    TRDP_NODE_REASON_NO_CONFIRM, TRDP_NODE_MESSAGE_NOTIFY, TRDP_NODE_MESSAGE_REQUEST, TRDP_NODE_MESSAGE_REPLY,
    TRDP_NODE_MESSAGE_QUERY, TRDP_NODE_MESSAGE_CONFIRM, TRDP_NODE_MESSAGE_ERROR
};

static const struct part event_parts[] = {
    E(moment), E(what), E(handle), E(com_id), E(dataset), E(time), E(etb), E(op_trn), E(from_address), E(to_address),
    E(low), E(high), E(destination), E(reply_com_id), E(reply_address), E(status), E(slot), E(from_port), E(to_port),
    MANY(trdp_node_event, quotas), E(group), E(leader), E(keep), E(any), E(expected), E(retries),
    MANY(trdp_node_event, session), MANY(trdp_node_event, source_uri), MANY(trdp_node_event, destination_uri)
};
static const struct part record_parts[] = {
    R(bytes), R(length), R(what), R(handle), R(replier), R(code), R(counter), R(com_id), R(address), R(status), R(slot),
    R(port), MANY(trdp_node_record, session), MANY(trdp_node_record, source_uri),
    MANY(trdp_node_record, destination_uri)
};
static const struct part done_parts[] = { ONE(trdp_node_done, records), ONE(trdp_node_done, status) };
static const struct part text_parts[] = {
    ONE(trdp_node_text, text), ONE(trdp_node_text, length), ONE(trdp_node_text, records), ONE(trdp_node_text, status)
};
static const struct part state_parts[] = {
    ONE(trdp_node_state, now), ONE(trdp_node_state, next_due), ONE(trdp_node_state, slots)
};
static const struct part fault_parts[] = { ONE(trdp_node_fault, number), MANY(trdp_node_fault, text) };
static const struct part name_parts[] = { MANY(trdp_node_name, text) };

static unsigned passed, failed;

static void check(int is_so, const char *what, size_t index)
{
    passed += is_so != 0;
    if (is_so) return;
    failed++;
    printf("layout: %s %u differs\n", what, (unsigned)index);
}

/* The number in so many bytes, the lowest first: both ends of this library are on one kind of machine. */
static uint64_t number_at(const unsigned char *at, size_t size)
{
    uint64_t number = 0;
    while (size--) number = number << 8 | at[size];
    return number;
}

/* The header's numbers are the library's, and there are as many. */
static void compare_numbers(void)
{
    for (size_t i = 0; i < LENGTH(numbers); i++) check(trdp_node_layout(i) == numbers[i], "the number of index", i);
    check(trdp_node_layout(LENGTH(numbers)) == UINT64_MAX, "what comes after the numbers,", LENGTH(numbers));
    check(trdp_node_layout(SIZE_MAX) == UINT64_MAX, "the number of the last index", 0);
}

/* The library finds each field of an event where the header has it. */
static void compare_event(void)
{
    struct trdp_node_event event;
    unsigned char *bytes = (unsigned char *)&event;
    size_t field = 0;
    for (size_t i = 0; i < sizeof event; i++) bytes[i] = (unsigned char)(i * 37 + 11);
    for (size_t i = 0; i < LENGTH(event_parts); i++) {
        const struct part *part = event_parts + i;
        for (size_t j = 0; j < part->count; j++) {
            uint64_t own = number_at(bytes + part->at + j * part->size, part->size);
            check(trdp_node_layout_event(&event, field++) == own, part->name, j);
        }
    }
    check(trdp_node_layout_event(&event, field) == UINT64_MAX, "what comes after the fields,", field);
}

/* The library wrote 1, 2, 3 .. into the fields of a struct; where a pointer is, it wrote nothing. */
static void compare_result(const void *result, const struct part *parts, size_t count, int has_pointer)
{
    const unsigned char *bytes = (const unsigned char *)result;
    uint64_t number = 1;
    for (size_t i = 0; i < count; i++)
        for (size_t j = 0; j < parts[i].count; j++, number++)
            if (i || !has_pointer)
                check(number_at(bytes + parts[i].at + j * parts[i].size, parts[i].size) == number, parts[i].name, j);
}

static void compare_results(void)
{
    struct trdp_node_record record;
    struct trdp_node_done done;
    struct trdp_node_text text;
    struct trdp_node_state state;
    struct trdp_node_fault fault;
    struct trdp_node_name name;
    memset(&record, 255, sizeof record);
    memset(&done, 255, sizeof done);
    memset(&text, 255, sizeof text);
    memset(&state, 255, sizeof state);
    memset(&fault, 255, sizeof fault);
    memset(&name, 255, sizeof name);
    trdp_node_layout_results(&record, &done, &text, &state, &fault, &name);
    compare_result(&record, record_parts, LENGTH(record_parts), 1);
    compare_result(&done, done_parts, LENGTH(done_parts), 0);
    compare_result(&text, text_parts, LENGTH(text_parts), 1);
    compare_result(&state, state_parts, LENGTH(state_parts), 0);
    compare_result(&fault, fault_parts, LENGTH(fault_parts), 0);
    compare_result(&name, name_parts, LENGTH(name_parts), 0);
}

int main(void)
{
    compare_numbers();
    compare_event();
    compare_results();
    printf("layout: %u passed, %u failed\n", passed, failed);
    return failed != 0;
}
