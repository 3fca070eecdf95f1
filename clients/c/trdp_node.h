/* A node of the Train Real-time Data Protocol as a library: C99, and C++11 or later. It has no
 * socket, no clock, no thread and no global state. The program passes one event at a time, in
 * numbers or as a line of a script, and sends the telegrams that the node returns.
 *
 *     struct trdp_node node = TRDP_NODE_NONE;
 *     struct trdp_node_fault fault;
 *     struct trdp_node_done done;
 *     struct trdp_node_record record;
 *     if (trdp_node_open(&node, config, config_length, &fault) != TRDP_NODE_OK) ..
 *     struct trdp_node_event event = { .what = TRDP_NODE_MOMENT, .moment = 100000 };
 *     if (trdp_node_step(&node, &event, NULL, 0, &done) != TRDP_NODE_OK) ..
 *     for (size_t i = 0; trdp_node_record(&node, i, &record) == TRDP_NODE_OK; i++)
 *         if (record.what == TRDP_NODE_SEND_PD) ..    record.bytes goes to record.address
 *     trdp_node_close(&node);
 *
 * Link libtrdp_node.a and three functions that give it memory: rattle_alloc, rattle_realloc and
 * rattle_dealloc. trdp_node_alloc.c has them over malloc. docs/SCRIPT.md says what each event means.
 * Addresses and ports are in host order (0x0a000002 is 10.0.0.2), times in microseconds, and a
 * moment counts from when the node was opened. In C++ keep the word `struct`, as in
 * struct trdp_node_record: functions have the same names.
 *
 * STATUS. Every function but trdp_node_close returns an enum trdp_node_status. It is TRDP_NODE_OK if
 * the function did what it says. With NO_NODE, BAD_POINTER and OWN_BYTES nothing was done, and nothing
 * is written. With every other status but TEXT_LOST the node is as it was, but has no records any
 * more if an event or a line was rejected. The struct for the result is written then too: it has the
 * status, and no records, no text or no name.
 *
 * BORROWED BYTES. The bytes of a record and the text of a line are the node's own. They stay until
 * the node's next event, line or text, or its close. Reading them later is undefined. As bytes of
 * an event of the same node they are refused, as long as they are borrowed: OWN_BYTES. Copy them
 * first. Another node takes them as they are.
 *
 * UNDEFINED. A struct trdp_node that doesn't begin as TRDP_NODE_NONE, or that was copied, and used or
 * closed as both. Two calls with one node at the same time; two nodes may be used by two threads. A
 * call from a signal handler or an interrupt. A pointer that isn't NULL and doesn't point to what its
 * type says, or has fewer bytes than the length says. A struct for a result that shares memory with
 * another argument. Functions for memory that don't do what trdp_node_alloc.c says.
 * After trdp_node_close the node is TRDP_NODE_NONE again, and a call answers NO_NODE. To open a node
 * that is open loses the one before, and its memory.
 *
 * VALUES. A value or a payload goes as it is, in TRDP's byte order: its numbers are big-endian.
 * trdp_slot_pack and trdp_slot_unpack of trdp_slot.h convert the datasets of a configuration. */
#ifndef TRDP_NODE_H
#define TRDP_NODE_H

#include <stddef.h>
#include <stdint.h>

#if defined UINTPTR_MAX && UINTPTR_MAX < UINT64_MAX
#error "libtrdp_node is for 64-bit processors only"
#endif

#ifdef __cplusplus
/* What is usual in C: casts, and a function with the name of a struct. */
#ifdef __GNUC__
#pragma GCC diagnostic push
#pragma GCC diagnostic ignored "-Wold-style-cast"
#pragma GCC diagnostic ignored "-Wshadow"
#pragma GCC diagnostic ignored "-Wzero-as-null-pointer-constant"
#endif
extern "C" {
#endif

enum {
    /* The bytes of a session's identifier. */
    TRDP_NODE_SESSION = 16,
    /* The longest URI. A shorter one has zeros behind it. */
    TRDP_NODE_URI = 32,
    /* The kinds of a slot's objects, in the order of the quotas: publishers, subscriptions,
     * requesters, listeners, callers, repliers. */
    TRDP_NODE_KINDS = 6,
    /* The bytes of a configuration fault's text, with the zero after it. */
    TRDP_NODE_FAULT_TEXT = 60,
    /* The bytes of a name, with the zero after it. */
    TRDP_NODE_NAME = 16
};

/* How a function ended. */
enum trdp_node_status {
    TRDP_NODE_OK = 0,

    /* The node rejects the event: trdp_node_fault_name has the names of these. */
    TRDP_NODE_NO_SLOT = 1,
    TRDP_NODE_PAST = 2,
    TRDP_NODE_TOO_LATE = 3,
    TRDP_NODE_NO_GROUP = 4,
    TRDP_NODE_OUT_OF_MEMORY = 5, /* the event, line or configuration may be passed again */
    TRDP_NODE_SLOTS_FULL = 6,

    /* The line has no event. */
    TRDP_NODE_LINE_TOO_LONG = 11,
    TRDP_NODE_LINE_UNKNOWN = 12,
    TRDP_NODE_LINE_COUNT = 13,
    TRDP_NODE_LINE_BAD_WORD = 14,

    /* The node processed the event, and there is no memory for the text of its records. The records
     * are there, and trdp_node_text tries again. Don't pass the line again. */
    TRDP_NODE_TEXT_LOST = 20,

    TRDP_NODE_NO_EVENT = 21,   /* `what` of the event is none of TRDP_NODE_MOMENT .. */
    TRDP_NODE_BAD_FLAG = 22,   /* a flag that the event needs is neither 0 nor 1 */
    TRDP_NODE_BAD_QUOTA = 23,  /* a quota is above 256 */
    TRDP_NODE_NO_RECORD = 24,  /* there is no record of that index */
    TRDP_NODE_NO_CODE = 25,    /* nothing has that number */
    TRDP_NODE_BAD_CONFIG = 26, /* the configuration has a fault */

    /* What this header finds by itself. */
    TRDP_NODE_NO_NODE = 31,     /* the node is NULL, or isn't open */
    TRDP_NODE_BAD_POINTER = 32, /* another pointer is NULL, or a length is above PTRDIFF_MAX */
    TRDP_NODE_OWN_BYTES = 33    /* the bytes are borrowed from the same node */
};

/* Which event it is, or which call of a slot. */
enum trdp_node_what {
    TRDP_NODE_MOMENT = 1,   /* moment */
    TRDP_NODE_TOPOLOGY = 2, /* etb, op_trn */
    TRDP_NODE_ROLE = 3,     /* group, leader */
    TRDP_NODE_PD = 4,       /* from_*, to_*, bytes: a datagram at the port of process data */
    TRDP_NODE_MD = 5,       /* from_*, to_*, bytes: a datagram at the port of message data */
    TRDP_NODE_ADD_SLOT = 6, /* quotas */

    /* slot, and: */
    TRDP_NODE_PUBLISH = 10,     /* com_id, dataset, time, group, etb, op_trn, to_* */
    TRDP_NODE_PUT = 11,         /* handle, bytes */
    TRDP_NODE_UNPUBLISH = 12,   /* handle */
    TRDP_NODE_SUBSCRIBE = 13,   /* com_id, low, high, destination, etb, op_trn, dataset, time, keep */
    TRDP_NODE_GET = 14,         /* handle */
    TRDP_NODE_UNSUBSCRIBE = 15, /* handle */
    TRDP_NODE_OPEN_PULL = 16,   /* com_id, reply_com_id, reply_address, etb, op_trn, to_* */
    TRDP_NODE_PULL = 17,        /* handle */
    TRDP_NODE_CLOSE_PULL = 18,  /* handle */
    TRDP_NODE_LISTEN = 19,      /* any, com_id, low, high, destination, destination_uri, etb, op_trn */
    TRDP_NODE_UNLISTEN = 20,    /* handle */
    TRDP_NODE_NOTIFY = 21,      /* com_id, etb, op_trn, to_*, *_uri, bytes */
    TRDP_NODE_REQUEST = 22,     /* com_id, session, expected, time, retries, etb, op_trn, to_*, *_uri,
                                   bytes */
    TRDP_NODE_REPLY = 23,       /* handle, com_id, status, bytes */
    TRDP_NODE_QUERY = 24,       /* handle, com_id, status, time, bytes */
    TRDP_NODE_REPLY_ERROR = 25, /* handle, com_id, status */
    TRDP_NODE_CONFIRM = 26,     /* handle, to_*, status */
    TRDP_NODE_ABORT = 27,       /* handle */
    TRDP_NODE_RESET = 28
};

/* An event. The fields that its `what` doesn't name aren't read. */
struct trdp_node_event {
    uint64_t moment;        /* when it is now */
    uint32_t what;          /* an enum trdp_node_what */
    uint32_t handle;        /* of the object that the call is for */
    uint32_t com_id;
    uint32_t dataset;       /* one of the configuration, or 0 for any bytes */
    uint32_t time;          /* a cycle, a supervision time or a timeout */
    uint32_t etb;           /* the topology counters */
    uint32_t op_trn;
    uint32_t from_address;  /* of a datagram */
    uint32_t to_address;    /* of a datagram, or of the telegrams of an object */
    uint32_t low;           /* the range of source addresses; 0 and 0 for any */
    uint32_t high;
    uint32_t destination;   /* the address that telegrams are sent to, 0 for any */
    uint32_t reply_com_id;  /* what is asked for, 0 for com_id */
    uint32_t reply_address; /* where the reply goes, 0 for back to here */
    int32_t status;
    uint16_t slot;          /* whose call it is */
    uint16_t from_port;
    uint16_t to_port;
    uint16_t quotas[TRDP_NODE_KINDS];
    uint8_t group;          /* a redundancy group, 0 for none */
    uint8_t leader;         /* flag: the node leads the group from now on */
    uint8_t keep;           /* flag: the value stays when the subscription falls silent */
    uint8_t any;            /* flag: the listener receives every comId, whatever com_id says */
    uint8_t expected;       /* how many socket addresses are expected to answer, 1 to 8; 0 for any */
    uint8_t retries;        /* how often the request is sent again at most, 0 to 2 */
    uint8_t session[TRDP_NODE_SESSION];
    uint8_t source_uri[TRDP_NODE_URI];
    uint8_t destination_uri[TRDP_NODE_URI];
};

/* Which record it is. Every record has its slot, and the fields that are named here. Every other
 * field is 0. */
enum trdp_node_record_what {
    TRDP_NODE_HANDLE = 1,     /* handle: of the new object */
    TRDP_NODE_DONE = 2,       /* the call took effect */
    TRDP_NODE_VALUE = 3,      /* code: an enum trdp_node_value; counter, bytes */
    TRDP_NODE_REFUSED = 4,    /* code: an enum trdp_node_refusal */
    TRDP_NODE_OPENED = 5,     /* the slot was added */
    TRDP_NODE_SILENT = 6,     /* handle */
    TRDP_NODE_ALIVE = 7,      /* handle */
    TRDP_NODE_NOTIFIED = 8,   /* handle, address, port, com_id, *_uri, bytes */
    TRDP_NODE_ASKED = 9,      /* the same, replier, session */
    TRDP_NODE_OVERRUN = 10,   /* handle */
    TRDP_NODE_REPLIED = 11,   /* handle, address, port, code: an enum trdp_node_message; status,
                                 com_id, bytes */
    TRDP_NODE_CONFIRMED = 12, /* handle, status */
    TRDP_NODE_CLOSED = 13,    /* handle, code: an enum trdp_node_reason */
    TRDP_NODE_SEND_PD = 14,   /* address, port, bytes: send them from the port of process data */
    TRDP_NODE_SEND_MD = 15    /* address, port, bytes: send them from the port of message data */
};

/* How good a subscription's value is. */
enum trdp_node_value { TRDP_NODE_NEVER = 0, TRDP_NODE_VALID = 1, TRDP_NODE_SILENT_VALUE = 2 };

/* Why a call was refused; it changed nothing. trdp_node_refusal_name has the names. */
enum trdp_node_refusal {
    TRDP_NODE_REFUSED_NO_HANDLE = 1,
    TRDP_NODE_REFUSED_WRONG_KIND = 2,
    TRDP_NODE_REFUSED_STATE = 3,
    TRDP_NODE_REFUSED_CYCLE = 4,
    TRDP_NODE_REFUSED_TIMEOUT = 5,
    TRDP_NODE_REFUSED_EXPECTED = 6,
    TRDP_NODE_REFUSED_STATUS = 7,
    TRDP_NODE_REFUSED_RANGE = 8,
    TRDP_NODE_REFUSED_NO_DATASET = 9,
    TRDP_NODE_REFUSED_TOO_LONG = 10,
    TRDP_NODE_REFUSED_SHAPE = 11,
    TRDP_NODE_REFUSED_SESSION_OPEN = 12,
    TRDP_NODE_REFUSED_QUOTA = 13,
    TRDP_NODE_REFUSED_EXHAUSTED = 14,
    TRDP_NODE_REFUSED_RETRIES = 15
};

/* Why a request or an answer is over. trdp_node_reason_name has the names. */
enum trdp_node_reason {
    TRDP_NODE_REASON_DONE = 0,
    TRDP_NODE_REASON_NO_REPLY = 1,
    TRDP_NODE_REASON_NOT_ALL_REPLIES = 2,
    TRDP_NODE_REASON_NOT_CONFIRMED = 3,
    TRDP_NODE_REASON_REPLY_MISSED = 4,
    TRDP_NODE_REASON_NO_CONFIRM = 5
};

/* The message type of an answer to a request. */
enum trdp_node_message {
    TRDP_NODE_MESSAGE_NOTIFY = 0,  /* Mn */
    TRDP_NODE_MESSAGE_REQUEST = 1, /* Mr */
    TRDP_NODE_MESSAGE_REPLY = 2,   /* Mp */
    TRDP_NODE_MESSAGE_QUERY = 3,   /* Mq */
    TRDP_NODE_MESSAGE_CONFIRM = 4, /* Mc */
    TRDP_NODE_MESSAGE_ERROR = 5    /* Me */
};

/* A record: what the node sends to a slot. */
struct trdp_node_record {
    const uint8_t *bytes; /* a value, a payload or a telegram, borrowed */
    size_t length;        /* how many bytes it has; if 0, `bytes` may be any pointer */
    uint32_t what;        /* an enum trdp_node_record_what */
    uint32_t handle;
    uint32_t replier;     /* the handle of the replier that is to answer */
    uint32_t code;
    uint32_t counter;     /* the sequence counter of the latest telegram */
    uint32_t com_id;
    uint32_t address;     /* where it came from, or goes to */
    int32_t status;
    uint16_t slot;
    uint16_t port;        /* of the address */
    uint8_t session[TRDP_NODE_SESSION];
    uint8_t source_uri[TRDP_NODE_URI];
    uint8_t destination_uri[TRDP_NODE_URI];
};

/* What came of an event. */
struct trdp_node_done {
    size_t records;  /* how many records it has */
    uint32_t status; /* what the function returns too */
};

/* What came of a line. */
struct trdp_node_text {
    const char *text; /* what `trdpd run` prints for it, borrowed, without a zero after it */
    size_t length;    /* how many bytes it has */
    size_t records;   /* how many records the line's event has */
    uint32_t status;  /* what the function returns too */
};

/* The state of a node. */
struct trdp_node_state {
    uint64_t now;      /* its latest moment */
    uint64_t next_due; /* the next moment by which something is due; UINT64_MAX for none */
    size_t slots;      /* how many slots it has, 1 to 16 */
};

/* What is wrong with a configuration. */
struct trdp_node_fault {
    uint32_t number;                 /* 1 to 12 in the order of docs/SCRIPT.md, 0 for none */
    char text[TRDP_NODE_FAULT_TEXT]; /* as `trdpd run` prints it: config fault WrongType callers */
};

/* A name, as docs/SCRIPT.md has it. */
struct trdp_node_name {
    char text[TRDP_NODE_NAME];
};

/* The functions of libtrdp_node.a. They look at no pointer: use those below, or do as they do. A node
 * that trdp_node_raw_open wrote is good for each of them until trdp_node_raw_close. It writes NULL if
 * the configuration has a fault. Bytes, line and config may have any pointer that isn't NULL if their
 * length is 0. */
void trdp_node_raw_open(const uint8_t *config, size_t length, void **node,
                        struct trdp_node_fault *fault);
void trdp_node_raw_close(void *node);
void trdp_node_raw_step(void *node, const struct trdp_node_event *event, const uint8_t *bytes,
                        size_t length, struct trdp_node_done *done);
void trdp_node_raw_record(void *node, size_t index, struct trdp_node_record *record);
void trdp_node_raw_line(void *node, const uint8_t *line, size_t length,
                        struct trdp_node_text *text);
void trdp_node_raw_text(void *node, struct trdp_node_text *text);
void trdp_node_raw_state(void *node, struct trdp_node_state *state);
uint32_t trdp_node_raw_refusal_name(uint32_t refusal, struct trdp_node_name *name);
uint32_t trdp_node_raw_fault_name(uint32_t fault, struct trdp_node_name *name);
uint32_t trdp_node_raw_reason_name(uint32_t reason, struct trdp_node_name *name);

/* For a test of this header: which sizes of the structs and which numbers the library has, and
 * where it finds the fields. */

/* The number of that index; UINT64_MAX past the last. Index 0 to 6 are the sizes of the structs
 * event, record, done, text, state, fault and name, 7 to 11 the numbers of the first enum. Then come
 * the numbers of the enums trdp_node_status, trdp_node_what, trdp_node_record_what,
 * trdp_node_value, trdp_node_refusal, trdp_node_reason and trdp_node_message, each in its order. */
uint64_t trdp_node_layout(size_t index);
/* The field of that index, from 0, in the order of struct trdp_node_event, each number of an array
 * by itself; UINT64_MAX past the last. Status is read as an unsigned number. */
uint64_t trdp_node_layout_event(const struct trdp_node_event *event, size_t field);
/* Writes 1, 2, 3 .. into the fields of each struct, in their order, and of an array into each of
 * its members; no pointer is written. */
void trdp_node_layout_results(struct trdp_node_record *record, struct trdp_node_done *done,
                              struct trdp_node_text *text, struct trdp_node_state *state,
                              struct trdp_node_fault *fault, struct trdp_node_name *name);

/* A node. Only the functions below look into it. Don't copy it. */
struct trdp_node {
    void *at;             /* where the library has the node; NULL while it isn't open */
    uintptr_t bytes;      /* the records' bytes that are borrowed: from here .. */
    uintptr_t bytes_end;  /* .. to before this address; 0 and 0 if there are none */
    uintptr_t text;       /* the same of the text */
    uintptr_t text_end;
};

/* A node that isn't open. */
#ifdef __cplusplus
#define TRDP_NODE_NONE { nullptr, 0, 0, 0, 0 }
#else
#define TRDP_NODE_NONE { NULL, 0, 0, 0, 0 }
#endif

/* Whether bytes of the caller can be passed to a node: NULL only if there are none. */
static inline int trdp_node_can_be(const void *bytes, size_t length) {
    return length <= PTRDIFF_MAX && (bytes || !length);
}

/* Whether the node lends one of these bytes. */
static inline int trdp_node_lends(const struct trdp_node *node, const void *bytes, size_t length) {
    uintptr_t from = (uintptr_t)bytes, to = from + length;
    return length && ((from < node->bytes_end && node->bytes < to)
                      || (from < node->text_end && node->text < to));
}

/* Forgets what the node lent: the next event is on its way. */
static inline void trdp_node_take_back(struct trdp_node *node) {
    node->bytes = node->bytes_end = node->text = node->text_end = 0;
}

/* The bytes, or some pointer that isn't NULL if there are none. */
static inline const uint8_t *trdp_node_bytes(const void *bytes, size_t length) {
    return length ? (const uint8_t *)bytes : (const uint8_t *)"";
}

/* Opens a node of a configuration in TOML. It must not be open: it would be lost, with its memory. If
 * the configuration has a fault, BAD_CONFIG, or OUT_OF_MEMORY; then `fault` says which, and `node` is
 * as it was. */
static inline enum trdp_node_status trdp_node_open(struct trdp_node *node, const void *config,
                                                   size_t length, struct trdp_node_fault *fault) {
    void *at = NULL;
    if (!node) return TRDP_NODE_NO_NODE;
    if (!fault || !trdp_node_can_be(config, length)) return TRDP_NODE_BAD_POINTER;
    trdp_node_raw_open(trdp_node_bytes(config, length), length, &at, fault);
    if (fault->number == 12) return TRDP_NODE_OUT_OF_MEMORY;
    if (fault->number) return TRDP_NODE_BAD_CONFIG;
    node->at = at;
    trdp_node_take_back(node);
    return TRDP_NODE_OK;
}

/* Frees a node, if it is open. */
static inline void trdp_node_close(struct trdp_node *node) {
    if (!node || !node->at) return;
    trdp_node_raw_close(node->at);
    node->at = NULL;
    trdp_node_take_back(node);
}

/* Lets the node process an event. `bytes` is the value, payload or datagram of an event that has
 * one; else it isn't read. */
static inline enum trdp_node_status trdp_node_step(struct trdp_node *node,
                                                   const struct trdp_node_event *event,
                                                   const void *bytes, size_t length,
                                                   struct trdp_node_done *done) {
    if (!node || !node->at) return TRDP_NODE_NO_NODE;
    if (!event || !done || !trdp_node_can_be(bytes, length)) return TRDP_NODE_BAD_POINTER;
    if (trdp_node_lends(node, bytes, length)) return TRDP_NODE_OWN_BYTES;
    trdp_node_take_back(node);
    trdp_node_raw_step(node->at, event, trdp_node_bytes(bytes, length), length, done);
    return (enum trdp_node_status)done->status;
}

/* Writes the record of that index, from 0, of the latest event or line: slot by slot, slots rising,
 * and each slot's in their order, as `trdpd run` prints them. NO_RECORD past the last. */
static inline enum trdp_node_status trdp_node_record(struct trdp_node *node, size_t index,
                                                     struct trdp_node_record *record) {
    if (!node || !node->at) return TRDP_NODE_NO_NODE;
    if (!record) return TRDP_NODE_BAD_POINTER;
    trdp_node_raw_record(node->at, index, record);
    if (!record->what) return TRDP_NODE_NO_RECORD;
    if (record->length) {
        uintptr_t from = (uintptr_t)record->bytes, to = from + record->length;
        if (!node->bytes_end || from < node->bytes) node->bytes = from;
        if (to > node->bytes_end) node->bytes_end = to;
    }
    return TRDP_NODE_OK;
}

/* Notes that the node lends this text. */
static inline enum trdp_node_status trdp_node_lend(struct trdp_node *node,
                                                   const struct trdp_node_text *text) {
    node->text = (uintptr_t)text->text;
    node->text_end = node->text + text->length;
    return (enum trdp_node_status)text->status;
}

/* Lets the node process the event of a line of a script, which comes without its newline. The text
 * is what `trdpd run` prints for the line, of an event that the node rejects `fault` and its name. */
static inline enum trdp_node_status trdp_node_line(struct trdp_node *node, const void *line,
                                                   size_t length, struct trdp_node_text *text) {
    if (!node || !node->at) return TRDP_NODE_NO_NODE;
    if (!text || !trdp_node_can_be(line, length)) return TRDP_NODE_BAD_POINTER;
    if (trdp_node_lends(node, line, length)) return TRDP_NODE_OWN_BYTES;
    trdp_node_take_back(node);
    trdp_node_raw_line(node->at, trdp_node_bytes(line, length), length, text);
    return trdp_node_lend(node, text);
}

/* Prints the records of the latest event or line. TEXT_LOST if there is no memory for the text. */
static inline enum trdp_node_status trdp_node_text(struct trdp_node *node,
                                                   struct trdp_node_text *text) {
    if (!node || !node->at) return TRDP_NODE_NO_NODE;
    if (!text) return TRDP_NODE_BAD_POINTER;
    trdp_node_raw_text(node->at, text);
    return trdp_node_lend(node, text);
}

/* Writes what moment it is for the node, when something is due next, and how many slots it has. */
static inline enum trdp_node_status trdp_node_state(const struct trdp_node *node,
                                                    struct trdp_node_state *state) {
    if (!node || !node->at) return TRDP_NODE_NO_NODE;
    if (!state) return TRDP_NODE_BAD_POINTER;
    trdp_node_raw_state(node->at, state);
    return TRDP_NODE_OK;
}

/* The name of a refusal: `code` of a record that is REFUSED. NO_CODE, and an empty name, if there is
 * none of that number. */
static inline enum trdp_node_status trdp_node_refusal_name(uint32_t refusal,
                                                           struct trdp_node_name *name) {
    uint32_t status;
    if (!name) return TRDP_NODE_BAD_POINTER;
    status = trdp_node_raw_refusal_name(refusal, name);
    return (enum trdp_node_status)status;
}

/* The name of a node's fault: a status from NO_SLOT to SLOTS_FULL. Otherwise the same. */
static inline enum trdp_node_status trdp_node_fault_name(uint32_t fault,
                                                         struct trdp_node_name *name) {
    uint32_t status;
    if (!name) return TRDP_NODE_BAD_POINTER;
    status = trdp_node_raw_fault_name(fault, name);
    return (enum trdp_node_status)status;
}

/* The name of a reason: `code` of a record that is CLOSED. Otherwise the same. */
static inline enum trdp_node_status trdp_node_reason_name(uint32_t reason,
                                                          struct trdp_node_name *name) {
    uint32_t status;
    if (!name) return TRDP_NODE_BAD_POINTER;
    status = trdp_node_raw_reason_name(reason, name);
    return (enum trdp_node_status)status;
}

#ifdef __cplusplus
}
#ifdef __GNUC__
#pragma GCC diagnostic pop
#endif
#endif
#endif
