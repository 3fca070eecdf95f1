/* The calls of an application at the control port of trdpd, a node of the Train Real-time Data
 * Protocol, and the operator's calls: C99 and POSIX, one header, no allocation, no thread, no
 * global state. It compiles as C++11 and later too.
 *
 *     static char line[512], text[TRDP_SLOT_TEXT_ROOM];
 *     static uint8_t kept[8192];
 *     struct trdp_slot slot;
 *     struct trdp_slot_terms terms = { .port = 18000, .timeout = 200, .tries = 1,
 *         .line = line, .line_room = sizeof line, .text = text, .text_room = sizeof text,
 *         .kept = kept, .kept_room = sizeof kept };
 *     trdp_slot_address("127.0.0.1", &terms.address);
 *     enum trdp_slot_error error = trdp_slot_open(&slot, &terms);
 *
 * At a control socket the same terms do without an address and a port:
 *
 *     enum trdp_slot_error error = trdp_slot_open_path(&slot, "/run/trdpd/18000", &terms);
 *
 * With -std=c99 include this before the system's headers, or define _DEFAULT_SOURCE: otherwise the
 * system hides its clock. docs/SCRIPT.md says what each call means, with all its words, and
 * docs/DAEMON.md what a control port and a control socket are. Addresses and ports are in host
 * order, times of calls in microseconds, waits and the lease in milliseconds. A slot is for one
 * thread at a time.
 *
 * Each call, and each function that opens a slot, returns an enum trdp_slot_error: TRDP_SLOT_OK if
 * it did what it says.
 *
 * A CLEAN START. A program that makes objects calls trdp_slot_reset first, and again whenever it
 * learns that its objects are gone: then nothing is left of an earlier program, or of a try that
 * was only half done. No other function does that, so a program that only looks disturbs no objects.
 *
 * LOST ANSWERS. A call waits `timeout` milliseconds for its answer. Over UDP it then sends the same
 * line again, `tries` times in all. If only the answer got lost or is late, the node has taken the
 * line all the same. Then a second try is a second call:
 *
 *     put, get, reset, topology,     the same again: no harm
 *     role, totals, slots
 *     publish, subscribe, openpull,  a second object, which takes its place in the quota too; the
 *     listen                         handle of one of the two stays unknown
 *     addslot                        a second slot
 *     pull, notify                   the telegram goes out twice
 *     request                        refused SessionOpen; the caller's handle stays unknown until
 *                                    `replied` or `closed` has it
 *     query                          refused State
 *     confirm                        refused State, or NoHandle if the caller is over
 *     reply, replyerror, abort,      refused NoHandle, as the object is over
 *     unpublish, unsubscribe,
 *     closepull, unlisten
 *
 * With `tries` 1 none of these happens, and TRDP_SLOT_TIMEOUT says that it isn't known whether the
 * call took effect. `timeout` and `tries` may be changed between two calls; `tried` of the slot says
 * how often the line of the latest call was sent. At a control socket a line is sent once, and the
 * call waits `tries` times `timeout` for its answer.
 *
 * WHICH ANSWER IS WHOSE. Answers have no number. Before each call the client reads what is there:
 * it drops answers and counts them in `stale`, and keeps indications. After a call whose answer
 * didn't come, or that was sent more than once, the next call first sends a *mark*, a line that
 * can't be read and does nothing, and waits for its answer: by then every earlier answer that will
 * ever come has come. If the mark's answer doesn't come either, the call returns TIMEOUT with
 * `tried` 0: it wasn't sent. So if the network keeps the order, as within a machine, no answer is
 * taken for the answer to another call, unless the network brings an answer twice, which it does
 * not do within a machine.
 *
 * WHOSE PORT IT IS. The first call of a slot begins with a question, the line `get 0`. No object
 * has the handle 0, so that line changes no object, and its refusal begins with the number of the
 * port's slot. If that isn't `number`, the call returns OTHER_SLOT; at the operator's port it
 * returns OPERATORS_PORT. The call itself isn't sent then, and the next call asks again. A
 * connection to such a path is ended, so that it keeps nobody out. Over UDP the indications of the
 * other slot come here from trdp_slot_open on, until its own application sends its next line. The
 * question may be sent `tries` times, which `tried` doesn't count. So the first call may take
 * longer, by `tries` times `timeout`. If no answer comes, the call returns TIMEOUT with `tried` 0,
 * and the next call asks again. Once the port has said that it is this slot's, no call asks again,
 * even after a connection has ended. The operator's calls and trdp_slot_next ask nothing.
 *
 * OBJECTS THAT ARE GONE. A daemon that was started again has no objects, and refuses handles that
 * it gave before. So does a daemon after its lease for this slot has run out.
 * TRDP_SLOT_REFUSED_NO_HANDLE of a handle that should be there means that all objects have to be
 * made again. (At a second try it may also mean that the first one took effect.) Over UDP
 * indications don't show this, so an application that only waits for them calls `get` now and then:
 * then the indications also come here again. At a control socket the end of the connection shows
 * it, once, by TRDP_SLOT_RESTARTED, whether a call or trdp_slot_next finds it. The next call
 * connects again. It returns TRDP_SLOT_NOBODY while the daemon is gone, TRDP_SLOT_SYSTEM with
 * EACCES while the path isn't this application's yet, and TRDP_SLOT_BUSY if another application
 * came before. What was kept of the connection is dropped, and counted as lost.
 *
 * INDICATIONS THAT COME WHILE A CALL WAITS are kept in the caller's `kept`, and trdp_slot_next
 * returns them in their order. An indication that finds no room there, or is longer than `text`, is
 * dropped and counted, and the next trdp_slot_next returns TRDP_SLOT_LOST and how many. On Linux it
 * does the same for datagrams that the system dropped because the socket's buffer was full, once
 * another datagram comes. At a control socket the daemon says how many texts it dropped, and
 * trdp_slot_next reports that in their place. What the daemon couldn't send over UDP isn't reported
 * here (docs/DAEMON.md).
 *
 * A LEASE. If the daemon has one, `lease` of the terms says how long it is. The slot then sends a
 * remark, `#`, whenever a third of it has passed since its latest line, in a call that waits and in
 * trdp_slot_next. No thread does that: a program that hangs sends nothing, and loses its objects,
 * as it should. A program that computes for longer than the lease calls trdp_slot_next with a wait
 * of 0 meanwhile.
 *
 * FORK AND EXEC. The socket closes when this program becomes another one. A child of `fork` that
 * keeps it keeps the slot's application alive; it calls trdp_slot_close, which ends only its own
 * copy, and nothing else of the slot. */
#ifndef TRDP_SLOT_H
#define TRDP_SLOT_H

#if defined(__STRICT_ANSI__) && !defined(_DEFAULT_SOURCE)
#define _DEFAULT_SOURCE
#endif

#include <errno.h>
#include <fcntl.h>
#include <limits.h>
#include <netinet/in.h>
#include <poll.h>
#include <stdbool.h>
#include <stddef.h>
#include <stdint.h>
#include <string.h>
#include <sys/socket.h>
#include <sys/types.h>
#include <sys/uio.h>
#include <sys/un.h>
#include <time.h>
#include <unistd.h>

enum {
    /* A line, and an indication, with n bytes of payload has at most 256 + 2 n bytes. */
    TRDP_SLOT_OVERHEAD = 256,
    /* The least `text_room`: every answer fits in it. */
    TRDP_SLOT_TEXT_ROOM = 3072,
    /* The longest datagram. */
    TRDP_SLOT_DATAGRAM = 65507,
    /* The longest line at a control socket, with its end. */
    TRDP_SLOT_LINE = 140000,
    /* The longest payload of a message. Over UDP it has some 32,000 bytes at most. */
    TRDP_SLOT_MESSAGE = 65388,
    /* The bytes of a control socket's path with the zero after it. */
    TRDP_SLOT_PATH = 108,
    /* The most slots of a node. */
    TRDP_SLOT_SLOTS = 16,
    /* How long trdp_slot_next waits before it tries again to connect, in milliseconds. */
    TRDP_SLOT_PAUSE = 100,
    /* The longest value of a publisher or a subscription. */
    TRDP_SLOT_VALUE = 1432,
    /* The longest URI, without the zero after it. */
    TRDP_SLOT_URI = 32,
    /* The bytes of a session's identifier. */
    TRDP_SLOT_SESSION = 16,
    /* The bytes of an address's text with the zero after it. */
    TRDP_SLOT_ADDRESS_TEXT = 16
};

/* How a function ended. trdp_slot_error_text gives the text of each. */
enum trdp_slot_error {
    TRDP_SLOT_OK,
    /* No answer came at any try, or no indication within the wait. */
    TRDP_SLOT_TIMEOUT,
    /* No one is at the control port, as the system said at once; a call wasn't taken. */
    TRDP_SLOT_NOBODY,
    /* The system refused; errno says why. */
    TRDP_SLOT_SYSTEM,
    /* An argument is out of its range, or the slot isn't open. Nothing was sent. */
    TRDP_SLOT_ARGUMENT,
    /* The line is longer than `line_room` or a datagram. Nothing was sent. */
    TRDP_SLOT_LONG,
    /* The bytes are more than the room that was given; the first of them are there. */
    TRDP_SLOT_CUT,
    /* Indications were lost, or answers; `lost` says how many. */
    TRDP_SLOT_LOST,
    /* The control port is that of another slot than `number`. With `tried` 0, as at the first call,
     * the call wasn't sent. Otherwise the daemon has changed since, and that slot took the call. */
    TRDP_SLOT_OTHER_SLOT,
    /* The port is the operator's, where no slot's calls are taken. The call wasn't sent. */
    TRDP_SLOT_OPERATORS_PORT,
    /* At a control socket: another application lives there. */
    TRDP_SLOT_BUSY,
    /* At a control socket: the connection has ended, and with it all objects. They are to be made
     * again; the next call connects again. */
    TRDP_SLOT_RESTARTED,
    /* A value isn't one of its dataset, or bytes aren't. */
    TRDP_SLOT_NO_FIT,

    /* The call was refused, and changed nothing. docs/SCRIPT.md says when. */
    TRDP_SLOT_REFUSED_NO_HANDLE,
    TRDP_SLOT_REFUSED_WRONG_KIND,
    TRDP_SLOT_REFUSED_STATE,
    TRDP_SLOT_REFUSED_CYCLE,
    TRDP_SLOT_REFUSED_TIMEOUT,
    TRDP_SLOT_REFUSED_EXPECTED,
    TRDP_SLOT_REFUSED_STATUS,
    TRDP_SLOT_REFUSED_RANGE,
    TRDP_SLOT_REFUSED_NO_DATASET,
    TRDP_SLOT_REFUSED_TOO_LONG,
    TRDP_SLOT_REFUSED_SHAPE,
    TRDP_SLOT_REFUSED_SESSION_OPEN,
    TRDP_SLOT_REFUSED_QUOTA,
    TRDP_SLOT_REFUSED_EXHAUSTED,
    TRDP_SLOT_REFUSED_RETRIES,
    /* By a name that this header doesn't know. */
    TRDP_SLOT_REFUSED_OTHERWISE,

    /* The daemon couldn't read the line, and it changed nothing. */
    TRDP_SLOT_FAULT_TOO_LONG,
    TRDP_SLOT_FAULT_UNKNOWN,
    TRDP_SLOT_FAULT_COUNT,
    TRDP_SLOT_FAULT_BAD_WORD,
    /* By a name that this header doesn't know. */
    TRDP_SLOT_FAULT_OTHERWISE,

    /* The node took no notice of an operator's line. */
    TRDP_SLOT_NODE_NO_GROUP,
    TRDP_SLOT_NODE_SLOTS_FULL,
    /* By a name that this header doesn't know. */
    TRDP_SLOT_NODE_OTHERWISE
};

/* An address and a port, such as 10.0.0.2:17224. */
struct trdp_slot_place {
    uint32_t address; /* host order: 0x0a000002 is 10.0.0.2 */
    uint16_t port;
};

/* What a slot is opened with. The buffers stay the slot's until it is closed. */
struct trdp_slot_terms {
    uint32_t address; /* of the control port; at a control socket neither is looked at */
    uint16_t port;
    uint16_t number;  /* the slot's number: with it its answers begin */
    uint32_t timeout; /* how long a try waits for its answer, in milliseconds, 1 or more */
    uint32_t tries;   /* how often a line is sent at most, 1 or more; at a control socket once */
    char *line;       /* for a line that goes out */
    size_t line_room; /* TRDP_SLOT_OVERHEAD, and two for each byte of the longest payload */
    char *text;       /* for what comes */
    size_t text_room; /* the same, and at least TRDP_SLOT_TEXT_ROOM */
    uint8_t *kept;    /* for indications that come while an answer is awaited */
    size_t kept_room; /* their bytes and four for each; with 0 each is lost, and counted */
    uint32_t lease;   /* the daemon's lease, in milliseconds; 0 if it has none */
};

/* An application's end of a control port. Read its counts; change only `timeout`, `tries` and
 * `lease`. */
struct trdp_slot {
    struct trdp_slot_terms terms;
    int socket;         /* for a poll of one's own; -1 if there is no connection */
    size_t kept_length; /* how much of `kept` is in use; 0 if no indication is kept */
    uint32_t tried;     /* how often the line of the latest call was sent */
    uint32_t lost;      /* indications that were lost and aren't reported yet */
    uint32_t stale;     /* answers that belonged to no call that waited */
    uint32_t strange;   /* texts that this header can't read */
    uint32_t dropped;   /* the system's count of datagrams that it dropped */

    /* Only the functions below look at these. */
    char path[TRDP_SLOT_PATH];    /* of a control socket; "" at a UDP port */
    size_t come;                  /* how many bytes of a connection are in `text` */
    size_t taken;                 /* how many of these were read */
    bool is_skipping;             /* the line that comes is longer than `text` */
    bool is_unsure;               /* answers to earlier lines may still come */
    bool is_operator;             /* the latest line was an operator's */
    bool is_known;                /* the port has said that it is this slot's */
    unsigned mark;                /* which mark was sent last */
    uint32_t marks;               /* how many marks were sent whose answers haven't come */
    int64_t spoke;                /* when the latest line went out */
    int64_t connected;            /* when it was tried to connect, the last time */
    enum trdp_slot_error absence; /* why there is no connection, or nothing to say at the port */
    int reason;                   /* of SYSTEM: errno */
};

/* What a publisher is made of. */
struct trdp_slot_publisher {
    uint32_t com_id;
    uint32_t dataset; /* one of the configuration, or 0 for any bytes */
    uint32_t cycle;   /* in microseconds, 1000 or more; 0 to send only when it is pulled */
    uint8_t group;    /* the redundancy group, 0 for none */
    uint32_t etb;     /* the topology counters of its telegrams, 0 for every train */
    uint32_t op_trn;
    struct trdp_slot_place to;
};

/* What a subscription is made of. */
struct trdp_slot_subscription {
    uint32_t com_id;
    uint32_t dataset;     /* one of the configuration, or 0 for any bytes */
    uint32_t low;         /* the range of source addresses; 0 and 0 for any */
    uint32_t high;
    uint32_t destination; /* the address that telegrams are sent to, 0 for any */
    uint32_t etb;
    uint32_t op_trn;
    uint32_t time;        /* the supervision time in microseconds, 1000 or more; 0 for none */
    bool keep;            /* keeps its value when it falls silent, which else becomes zero */
};

/* What a requester is made of, which pulls process data. */
struct trdp_slot_requester {
    uint32_t com_id;
    uint32_t reply_com_id;  /* what is asked for, 0 for com_id */
    uint32_t reply_address; /* where the reply goes, 0 for back to here */
    uint32_t etb;
    uint32_t op_trn;
    struct trdp_slot_place to;
};

/* What a listener is made of. */
struct trdp_slot_listener {
    bool any;        /* hears every comId, whatever com_id says */
    uint32_t com_id;
    uint32_t low;    /* as of a subscription */
    uint32_t high;
    uint32_t destination;
    const char *uri; /* the destination URI, 1 to 32 bytes; NULL or "" for any */
    uint32_t etb;
    uint32_t op_trn;
};

/* What a notification is made of. */
struct trdp_slot_notification {
    uint32_t com_id;
    const char *source_uri; /* at most 32 bytes; NULL or "" for none */
    const char *destination_uri;
    uint32_t etb;
    uint32_t op_trn;
    struct trdp_slot_place to;
    const uint8_t *payload; /* NULL for none */
    size_t length;
};

/* What a caller is made of, which sends a request and waits for its answers. */
struct trdp_slot_caller {
    uint32_t com_id;
    uint8_t session[TRDP_SLOT_SESSION]; /* bytes that no one else in the train uses */
    uint8_t expected;                   /* how many places are to answer, 1 to 8; 0 for any */
    uint32_t time;                      /* how long is waited, in microseconds, 1000 or more */
    const char *source_uri;             /* as of a notification */
    const char *destination_uri;
    uint32_t etb;
    uint32_t op_trn;
    struct trdp_slot_place to;
    const uint8_t *payload;
    size_t length;
    uint8_t retries;                    /* how often it is sent again, 0 to 2 */
};

/* How good a subscription's value is: never heard, valid, or silent for its supervision time. */
enum trdp_slot_state { TRDP_SLOT_NEVER, TRDP_SLOT_VALID, TRDP_SLOT_SILENT };

/* What a subscription shows. Its bytes lie where the caller said. */
struct trdp_slot_value {
    enum trdp_slot_state state;
    uint32_t counter; /* of the latest telegram that was accepted */
    size_t length;    /* of the whole value, in bytes */
};

/* What a node sends without being asked. */
enum trdp_slot_kind {
    TRDP_SLOT_FELL_SILENT, /* `silent`: a subscription heard nothing for its supervision time */
    TRDP_SLOT_ALIVE,       /* a silent subscription accepted a telegram again */
    TRDP_SLOT_NOTIFIED,    /* a listener heard a notification */
    TRDP_SLOT_ASKED,       /* a listener heard a request; `replier` owes the answer */
    TRDP_SLOT_OVERRUN,     /* a listener heard a request that this slot will not answer */
    TRDP_SLOT_REPLIED,     /* a caller has an answer */
    TRDP_SLOT_CONFIRMED,   /* a replier's query is confirmed, and it is over */
    TRDP_SLOT_CLOSED       /* a caller or a replier is over */
};

/* What an answer is: a reply, a query that is to be confirmed, or an error. */
enum trdp_slot_answer { TRDP_SLOT_MP, TRDP_SLOT_MQ, TRDP_SLOT_ME };

/* Why a caller or a replier is over. */
enum trdp_slot_reason {
    TRDP_SLOT_DONE,
    TRDP_SLOT_NO_REPLY,
    TRDP_SLOT_NOT_ALL_REPLIES,
    TRDP_SLOT_NOT_CONFIRMED,
    TRDP_SLOT_REPLY_MISSED,
    TRDP_SLOT_NO_CONFIRM
};

/* An indication. What isn't said to be of its kind is 0. */
struct trdp_slot_indication {
    enum trdp_slot_kind kind;
    uint32_t handle;                           /* of the object that it is about */
    uint32_t replier;                          /* asked: the handle to answer with */
    uint8_t session[TRDP_SLOT_SESSION];        /* asked */
    struct trdp_slot_place source;             /* notified, asked, replied */
    uint32_t com_id;                           /* notified, asked, replied */
    char source_uri[TRDP_SLOT_URI + 1];        /* notified, asked: with a zero after it */
    char destination_uri[TRDP_SLOT_URI + 1];   /* notified, asked */
    enum trdp_slot_answer answer;              /* replied */
    int32_t status;                            /* replied, confirmed */
    enum trdp_slot_reason reason;              /* closed */
    uint8_t *payload;                          /* notified, asked, replied: the bytes handed in */
    size_t length;                             /* of the whole payload */
    uint32_t lost;                             /* with TRDP_SLOT_LOST: how many were lost */
};

/* So many objects of each kind. */
struct trdp_slot_kinds {
    uint32_t publishers;
    uint32_t subscriptions;
    uint32_t requesters;
    uint32_t listeners;
    uint32_t callers;
    uint32_t repliers;
};

/* What a slot has and may have at most. */
struct trdp_slot_usage {
    uint16_t slot; /* its number */
    struct trdp_slot_kinds objects;
    struct trdp_slot_kinds quotas;
    bool has_spoken; /* whether a line has come from it since its latest connection ended, or its lease ran out */
    uint64_t silent; /* how many microseconds ago its latest line came */
};

/* What a daemon has counted since it began. */
struct trdp_slot_tally {
    uint64_t taken;
    uint64_t offered;
    uint64_t lost;
    uint64_t unread;
    uint64_t memory;
};

/* ---- Texts ---- */

/* The text of an error, as `refused NoHandle` and `line fault Count`. */
static inline const char *trdp_slot_error_text(enum trdp_slot_error error)
{
    switch (error) {
    case TRDP_SLOT_OK: return "ok";
    case TRDP_SLOT_TIMEOUT: return "nothing came in time";
    case TRDP_SLOT_NOBODY: return "nobody is at the control port";
    case TRDP_SLOT_SYSTEM: return "the system refused";
    case TRDP_SLOT_ARGUMENT: return "an argument is out of its range";
    case TRDP_SLOT_LONG: return "the line is too long";
    case TRDP_SLOT_CUT: return "the bytes are more than the room";
    case TRDP_SLOT_LOST: return "indications were lost";
    case TRDP_SLOT_OTHER_SLOT: return "the control port is another slot's";
    case TRDP_SLOT_OPERATORS_PORT: return "this is the operator's port, and no slot's";
    case TRDP_SLOT_BUSY: return "another application is at the control socket";
    case TRDP_SLOT_RESTARTED: return "the connection has ended, and all objects with it";
    case TRDP_SLOT_NO_FIT: return "the value is none of its dataset";
    case TRDP_SLOT_REFUSED_NO_HANDLE: return "refused NoHandle";
    case TRDP_SLOT_REFUSED_WRONG_KIND: return "refused WrongKind";
    case TRDP_SLOT_REFUSED_STATE: return "refused State";
    case TRDP_SLOT_REFUSED_CYCLE: return "refused Cycle";
    case TRDP_SLOT_REFUSED_TIMEOUT: return "refused Timeout";
    case TRDP_SLOT_REFUSED_EXPECTED: return "refused Expected";
    case TRDP_SLOT_REFUSED_STATUS: return "refused Status";
    case TRDP_SLOT_REFUSED_RANGE: return "refused Range";
    case TRDP_SLOT_REFUSED_NO_DATASET: return "refused NoDataset";
    case TRDP_SLOT_REFUSED_TOO_LONG: return "refused TooLong";
    case TRDP_SLOT_REFUSED_SHAPE: return "refused Shape";
    case TRDP_SLOT_REFUSED_SESSION_OPEN: return "refused SessionOpen";
    case TRDP_SLOT_REFUSED_QUOTA: return "refused Quota";
    case TRDP_SLOT_REFUSED_EXHAUSTED: return "refused Exhausted";
    case TRDP_SLOT_REFUSED_RETRIES: return "refused Retries";
    case TRDP_SLOT_REFUSED_OTHERWISE: return "refused by an unknown name";
    case TRDP_SLOT_FAULT_TOO_LONG: return "line fault TooLong";
    case TRDP_SLOT_FAULT_UNKNOWN: return "line fault Unknown";
    case TRDP_SLOT_FAULT_COUNT: return "line fault Count";
    case TRDP_SLOT_FAULT_BAD_WORD: return "line fault BadWord";
    case TRDP_SLOT_FAULT_OTHERWISE: return "line fault by an unknown name";
    case TRDP_SLOT_NODE_NO_GROUP: return "fault NoGroup";
    case TRDP_SLOT_NODE_SLOTS_FULL: return "fault SlotsFull";
    case TRDP_SLOT_NODE_OTHERWISE: return "fault by an unknown name";
    }
    return "no error of a slot";
}

/* The text of a value's state: Never, Valid, Silent. */
static inline const char *trdp_slot_state_text(enum trdp_slot_state state)
{
    static const char *const texts[] = { "Never", "Valid", "Silent" };
    return (size_t)state < 3 ? texts[state] : "no state";
}

/* The text of an indication's kind: its word in the line. */
static inline const char *trdp_slot_kind_text(enum trdp_slot_kind kind)
{
    static const char *const texts[] = { "silent", "alive", "notified", "asked",
        "overrun", "replied", "confirmed", "closed" };
    unsigned number = (unsigned)kind;
    return number < sizeof texts / sizeof *texts ? texts[number] : "no kind";
}

/* The two letters of an answer: Mp, Mq, Me. */
static inline const char *trdp_slot_answer_text(enum trdp_slot_answer answer)
{
    static const char *const texts[] = { "Mp", "Mq", "Me" };
    return (size_t)answer < 3 ? texts[answer] : "no answer";
}

/* The text of a reason, as NoReply. */
static inline const char *trdp_slot_reason_text(enum trdp_slot_reason reason)
{
    static const char *const texts[] = { "Done", "NoReply", "NotAllReplies",
        "NotConfirmed", "ReplyMissed", "NoConfirm" };
    return (size_t)reason < 6 ? texts[reason] : "no reason";
}

/* ---- Reading; whatever doesn't read leaves `bad` set ---- */

/* What is left of a text. */
struct trdp_slot_reader {
    const char *at;
    const char *end;
    bool bad;
};

/* Hexadecimal digits in a text, two for each byte. */
struct trdp_slot_digits {
    const char *first;
    size_t length; /* in bytes */
};

/* Steps over these words where they come next, and answers whether they do. */
static inline bool trdp_slot_reads(struct trdp_slot_reader *reader, const char *words)
{
    size_t length = strlen(words);
    if (reader->bad || (size_t)(reader->end - reader->at) < length
        || memcmp(reader->at, words, length) != 0)
        return false;
    reader->at += length;
    return true;
}

/* Steps over these words, which have to come next. */
static inline void trdp_slot_expect(struct trdp_slot_reader *reader, const char *words)
{
    if (!trdp_slot_reads(reader, words))
        reader->bad = true;
}

/* A number of at most `most`, in decimal without leading zeros. */
static inline uint64_t trdp_slot_read_count(struct trdp_slot_reader *reader, uint64_t most)
{
    const char *first = reader->at;
    uint64_t number = 0;
    while (reader->at < reader->end && *reader->at >= '0' && *reader->at <= '9') {
        uint64_t digit = (uint64_t)(*reader->at - '0');
        if (number > most / 10 || 10 * number > most - digit)
            break;
        number = 10 * number + digit;
        reader->at++;
    }
    bool is_more = reader->at < reader->end && *reader->at >= '0' && *reader->at <= '9';
    if (reader->at == first || is_more || (*first == '0' && reader->at - first > 1))
        reader->bad = true;
    return reader->bad ? 0 : number;
}

/* The same of 32 bits. */
static inline uint32_t trdp_slot_read_number(struct trdp_slot_reader *reader, uint32_t most)
{
    return (uint32_t)trdp_slot_read_count(reader, most);
}

/* A status, with a minus sign where it is below 0. */
static inline int32_t trdp_slot_read_status(struct trdp_slot_reader *reader)
{
    if (!trdp_slot_reads(reader, "-"))
        return (int32_t)trdp_slot_read_number(reader, INT32_MAX);
    uint32_t number = trdp_slot_read_number(reader, (uint32_t)INT32_MAX + 1);
    if (number == 0)
        reader->bad = true;
    return (int32_t)-(int64_t)number;
}

/* An address: four numbers with dots between them. */
static inline uint32_t trdp_slot_read_address(struct trdp_slot_reader *reader)
{
    uint32_t address = 0;
    for (int part = 0; part < 4; part++) {
        if (part > 0)
            trdp_slot_expect(reader, ".");
        address = address << 8 | trdp_slot_read_number(reader, 255);
    }
    return address;
}

/* A place: an address, a colon and a port. */
static inline struct trdp_slot_place trdp_slot_read_place(struct trdp_slot_reader *reader)
{
    struct trdp_slot_place place;
    place.address = trdp_slot_read_address(reader);
    trdp_slot_expect(reader, ":");
    place.port = (uint16_t)trdp_slot_read_number(reader, UINT16_MAX);
    return place;
}

/* The value of a hexadecimal digit; 16 for what is none. */
static inline unsigned trdp_slot_digit(char digit)
{
    if (digit >= '0' && digit <= '9')
        return (unsigned)(digit - '0');
    return digit >= 'a' && digit <= 'f' ? (unsigned)(digit - 'a') + 10 : 16;
}

/* The digits of bytes; `-` for none. */
static inline struct trdp_slot_digits trdp_slot_read_digits(struct trdp_slot_reader *reader)
{
    struct trdp_slot_digits digits = { reader->at, 0 };
    if (trdp_slot_reads(reader, "-"))
        return digits;
    while (reader->at < reader->end && trdp_slot_digit(*reader->at) < 16)
        reader->at++;
    size_t count = (size_t)(reader->at - digits.first);
    if (count == 0 || count % 2 != 0)
        reader->bad = true;
    digits.length = reader->bad ? 0 : count / 2;
    return digits;
}

/* Puts the bytes into the room, and answers TRDP_SLOT_CUT where they are more. */
static inline enum trdp_slot_error trdp_slot_decode(struct trdp_slot_digits digits,
    uint8_t *bytes, size_t room)
{
    size_t length = digits.length < room ? digits.length : room;
    for (size_t i = 0; i < length; i++)
        bytes[i] = (uint8_t)(trdp_slot_digit(digits.first[2 * i]) << 4
            | trdp_slot_digit(digits.first[2 * i + 1]));
    return length < digits.length ? TRDP_SLOT_CUT : TRDP_SLOT_OK;
}

/* A URI, of at most 32 bytes, none of them zero. */
static inline void trdp_slot_read_uri(struct trdp_slot_reader *reader,
    char uri[TRDP_SLOT_URI + 1])
{
    uint8_t bytes[TRDP_SLOT_URI];
    struct trdp_slot_digits digits = trdp_slot_read_digits(reader);
    if (trdp_slot_decode(digits, bytes, sizeof bytes) != TRDP_SLOT_OK
        || memchr(bytes, 0, digits.length) != NULL) {
        reader->bad = true;
        return;
    }
    memcpy(uri, bytes, digits.length);
    uri[digits.length] = '\0';
}

/* A session's identifier, as 0a0b0c0d-0000-0000-0000-000000000001. */
static inline void trdp_slot_read_session(struct trdp_slot_reader *reader,
    uint8_t session[TRDP_SLOT_SESSION])
{
    for (int i = 0; i < TRDP_SLOT_SESSION; i++) {
        if (i == 4 || i == 6 || i == 8 || i == 10)
            trdp_slot_expect(reader, "-");
        struct trdp_slot_digits digits = { reader->at, 1 };
        if (reader->bad || reader->end - reader->at < 2 || trdp_slot_digit(reader->at[0]) > 15
            || trdp_slot_digit(reader->at[1]) > 15) {
            reader->bad = true;
            return;
        }
        trdp_slot_decode(digits, &session[i], 1);
        reader->at += 2;
    }
}

/* What a text of a control port is: a datagram, or a line of a connection. */
enum trdp_slot_form {
    TRDP_SLOT_FORM_STRANGE,    /* none of these */
    TRDP_SLOT_FORM_OTHER_SLOT, /* one of these, for another slot */
    TRDP_SLOT_FORM_HANDLE,
    TRDP_SLOT_FORM_DONE,
    TRDP_SLOT_FORM_VALUE,
    TRDP_SLOT_FORM_ERROR,      /* a refusal, a line fault or a node's fault */
    TRDP_SLOT_FORM_INDICATION,
    TRDP_SLOT_FORM_LOST,       /* that many texts were lost */
    TRDP_SLOT_FORM_OK,         /* of the operator's port */
    TRDP_SLOT_FORM_TOTALS,
    TRDP_SLOT_FORM_USAGES      /* the lines of one slot or of several */
};

/* What a text of a control port says. */
struct trdp_slot_said {
    enum trdp_slot_form form;
    enum trdp_slot_error error;       /* of an error */
    uint32_t handle;                  /* of a handle */
    struct trdp_slot_value value;     /* of a value */
    struct trdp_slot_indication told; /* of an indication */
    struct trdp_slot_digits digits;   /* the bytes of a value or an indication, in the text */
    struct trdp_slot_tally totals;   /* of totals */
};

/* The error from `first` on whose text is the rest of the line; `otherwise` where none before it
 * is, but the rest is that of an error and one word. */
static inline enum trdp_slot_form trdp_slot_read_error(struct trdp_slot_reader *reader,
    struct trdp_slot_said *said, enum trdp_slot_error first, enum trdp_slot_error otherwise)
{
    for (unsigned error = first; error < (unsigned)otherwise; error++) {
        const char *text = trdp_slot_error_text((enum trdp_slot_error)error);
        size_t length = strlen(text);
        if ((size_t)(reader->end - reader->at) == length
            && memcmp(reader->at, text, length) == 0) {
            reader->at += length;
            said->error = (enum trdp_slot_error)error;
            return TRDP_SLOT_FORM_ERROR;
        }
    }
    trdp_slot_expect(reader, otherwise == TRDP_SLOT_FAULT_OTHERWISE ? "line fault "
        : otherwise == TRDP_SLOT_NODE_OTHERWISE ? "fault " : "refused ");
    const char *name = reader->at;
    while (reader->at < reader->end && ((*reader->at >= 'A' && *reader->at <= 'Z')
        || (*reader->at >= 'a' && *reader->at <= 'z')))
        reader->at++;
    if (reader->at == name)
        reader->bad = true;
    said->error = otherwise;
    return TRDP_SLOT_FORM_ERROR;
}

/* The value after `value`. */
static inline enum trdp_slot_form trdp_slot_read_value(struct trdp_slot_reader *reader,
    struct trdp_slot_said *said)
{
    unsigned state = TRDP_SLOT_NEVER;
    while (state <= TRDP_SLOT_SILENT
        && !trdp_slot_reads(reader, trdp_slot_state_text((enum trdp_slot_state)state)))
        state++;
    if (state > TRDP_SLOT_SILENT)
        reader->bad = true;
    else
        said->value.state = (enum trdp_slot_state)state;
    trdp_slot_expect(reader, " ");
    said->value.counter = trdp_slot_read_number(reader, UINT32_MAX);
    trdp_slot_expect(reader, " ");
    said->digits = trdp_slot_read_digits(reader);
    said->value.length = said->digits.length;
    return TRDP_SLOT_FORM_VALUE;
}

/* The message of `notified` and `asked`, after the handles. */
static inline void trdp_slot_read_message(struct trdp_slot_reader *reader,
    struct trdp_slot_said *said)
{
    said->told.source = trdp_slot_read_place(reader);
    trdp_slot_expect(reader, " ");
    said->told.com_id = trdp_slot_read_number(reader, UINT32_MAX);
    trdp_slot_expect(reader, " ");
    trdp_slot_read_uri(reader, said->told.source_uri);
    trdp_slot_expect(reader, " ");
    trdp_slot_read_uri(reader, said->told.destination_uri);
    trdp_slot_expect(reader, " ");
    said->digits = trdp_slot_read_digits(reader);
}

/* The answer of `replied`, after the handle. */
static inline void trdp_slot_read_reply(struct trdp_slot_reader *reader,
    struct trdp_slot_said *said)
{
    said->told.source = trdp_slot_read_place(reader);
    trdp_slot_expect(reader, " ");
    unsigned answer = TRDP_SLOT_MP;
    while (answer <= TRDP_SLOT_ME
        && !trdp_slot_reads(reader, trdp_slot_answer_text((enum trdp_slot_answer)answer)))
        answer++;
    if (answer > TRDP_SLOT_ME)
        reader->bad = true;
    else
        said->told.answer = (enum trdp_slot_answer)answer;
    trdp_slot_expect(reader, " ");
    said->told.status = trdp_slot_read_status(reader);
    trdp_slot_expect(reader, " ");
    said->told.com_id = trdp_slot_read_number(reader, UINT32_MAX);
    trdp_slot_expect(reader, " ");
    said->digits = trdp_slot_read_digits(reader);
}

/* The reason of `closed`. */
static inline void trdp_slot_read_reason(struct trdp_slot_reader *reader,
    struct trdp_slot_said *said)
{
    unsigned reason = TRDP_SLOT_DONE;
    while (reason <= TRDP_SLOT_NO_CONFIRM
        && !trdp_slot_reads(reader, trdp_slot_reason_text((enum trdp_slot_reason)reason)))
        reason++;
    if (reason > TRDP_SLOT_NO_CONFIRM)
        reader->bad = true;
    else
        said->told.reason = (enum trdp_slot_reason)reason;
}

/* An indication, after the slot's number. */
static inline enum trdp_slot_form trdp_slot_read_indication(struct trdp_slot_reader *reader,
    struct trdp_slot_said *said)
{
    unsigned kind = TRDP_SLOT_FELL_SILENT;
    while (kind <= TRDP_SLOT_CLOSED
        && !trdp_slot_reads(reader, trdp_slot_kind_text((enum trdp_slot_kind)kind)))
        kind++;
    if (kind > TRDP_SLOT_CLOSED) {
        reader->bad = true;
        return TRDP_SLOT_FORM_STRANGE;
    }
    said->told.kind = (enum trdp_slot_kind)kind;
    trdp_slot_expect(reader, " ");
    said->told.handle = trdp_slot_read_number(reader, UINT32_MAX);
    if (kind == TRDP_SLOT_FELL_SILENT || kind == TRDP_SLOT_ALIVE || kind == TRDP_SLOT_OVERRUN)
        return TRDP_SLOT_FORM_INDICATION;
    trdp_slot_expect(reader, " ");
    if (kind == TRDP_SLOT_ASKED) {
        said->told.replier = trdp_slot_read_number(reader, UINT32_MAX);
        trdp_slot_expect(reader, " ");
        trdp_slot_read_session(reader, said->told.session);
        trdp_slot_expect(reader, " ");
    }
    if (kind == TRDP_SLOT_ASKED || kind == TRDP_SLOT_NOTIFIED)
        trdp_slot_read_message(reader, said);
    else if (kind == TRDP_SLOT_REPLIED)
        trdp_slot_read_reply(reader, said);
    else if (kind == TRDP_SLOT_CONFIRMED)
        said->told.status = trdp_slot_read_status(reader);
    else
        trdp_slot_read_reason(reader, said);
    said->told.length = said->digits.length;
    return TRDP_SLOT_FORM_INDICATION;
}

/* An answer or an indication, after the slot's number. */
static inline enum trdp_slot_form trdp_slot_read_content(struct trdp_slot_reader *reader,
    struct trdp_slot_said *said)
{
    static const char refused[] = "refused ";
    if (trdp_slot_reads(reader, "done"))
        return TRDP_SLOT_FORM_DONE;
    if (trdp_slot_reads(reader, "handle ")) {
        said->handle = trdp_slot_read_number(reader, UINT32_MAX);
        return TRDP_SLOT_FORM_HANDLE;
    }
    if (trdp_slot_reads(reader, "value "))
        return trdp_slot_read_value(reader, said);
    if (trdp_slot_reads(reader, refused)) {
        reader->at -= sizeof refused - 1;
        return trdp_slot_read_error(reader, said, TRDP_SLOT_REFUSED_NO_HANDLE,
            TRDP_SLOT_REFUSED_OTHERWISE);
    }
    return trdp_slot_read_indication(reader, said);
}

/* What an operator learns of a slot: its number, its objects and quotas of each kind, and how long
 * ago its latest line came. */
static inline void trdp_slot_read_usage(struct trdp_slot_reader *reader,
    struct trdp_slot_usage *usage)
{
    uint32_t counts[12];
    usage->slot = (uint16_t)trdp_slot_read_number(reader, UINT16_MAX);
    for (int kind = 0; kind < 6; kind++) {
        trdp_slot_expect(reader, " ");
        counts[kind] = trdp_slot_read_number(reader, UINT32_MAX);
        trdp_slot_expect(reader, "/");
        counts[kind + 6] = trdp_slot_read_number(reader, UINT32_MAX);
    }
    memcpy(&usage->objects, counts, sizeof usage->objects);
    memcpy(&usage->quotas, counts + 6, sizeof usage->quotas);
    trdp_slot_expect(reader, " ");
    usage->has_spoken = !trdp_slot_reads(reader, "-");
    usage->silent = usage->has_spoken ? trdp_slot_read_count(reader, UINT64_MAX) : 0;
}

/* The lines of slots, from the first one on. */
static inline enum trdp_slot_form trdp_slot_read_usages(struct trdp_slot_reader *reader)
{
    struct trdp_slot_usage usage;
    trdp_slot_read_usage(reader, &usage);
    while (!reader->bad && reader->at != reader->end) {
        trdp_slot_expect(reader, "\n");
        trdp_slot_read_usage(reader, &usage);
    }
    return TRDP_SLOT_FORM_USAGES;
}

/* What a daemon has counted. */
static inline enum trdp_slot_form trdp_slot_read_totals(struct trdp_slot_reader *reader,
    struct trdp_slot_said *said)
{
    trdp_slot_expect(reader, "taken ");
    said->totals.taken = trdp_slot_read_count(reader, UINT64_MAX);
    trdp_slot_expect(reader, " offered ");
    said->totals.offered = trdp_slot_read_count(reader, UINT64_MAX);
    trdp_slot_expect(reader, " lost ");
    said->totals.lost = trdp_slot_read_count(reader, UINT64_MAX);
    trdp_slot_expect(reader, " unread ");
    said->totals.unread = trdp_slot_read_count(reader, UINT64_MAX);
    trdp_slot_expect(reader, " memory ");
    said->totals.memory = trdp_slot_read_count(reader, UINT64_MAX);
    return TRDP_SLOT_FORM_TOTALS;
}

/* A text that doesn't begin with a slot's number. */
static inline enum trdp_slot_form trdp_slot_read_common(struct trdp_slot_reader *reader,
    struct trdp_slot_said *said)
{
    if (trdp_slot_reads(reader, "lost ")) {
        said->told.lost = trdp_slot_read_number(reader, UINT32_MAX);
        if (said->told.lost == 0)
            reader->bad = true;
        return TRDP_SLOT_FORM_LOST;
    }
    if (trdp_slot_reads(reader, "ok"))
        return TRDP_SLOT_FORM_OK;
    if (*reader->at == 't')
        return trdp_slot_read_totals(reader, said);
    return *reader->at == 'f'
        ? trdp_slot_read_error(reader, said, TRDP_SLOT_NODE_NO_GROUP, TRDP_SLOT_NODE_OTHERWISE)
        : trdp_slot_read_error(reader, said, TRDP_SLOT_FAULT_TOO_LONG, TRDP_SLOT_FAULT_OTHERWISE);
}

/* What a text of the control port says to the slot of that number. It is of one of the forms where
 * it is that form's text exactly, a newline at its end; else it is strange. */
static inline void trdp_slot_read(uint16_t number, const char *text, size_t length,
    struct trdp_slot_said *said)
{
    memset(said, 0, sizeof *said);
    if (length == 0 || text[length - 1] != '\n')
        return;
    struct trdp_slot_reader reader = { text, text + length - 1, false };
    enum trdp_slot_form form;
    uint32_t slot = number;
    if (*text < '0' || *text > '9') {
        form = trdp_slot_read_common(&reader, said);
    } else {
        slot = trdp_slot_read_number(&reader, UINT16_MAX);
        trdp_slot_expect(&reader, " ");
        if (reader.at < reader.end && *reader.at >= '0' && *reader.at <= '9') {
            reader.at = text;
            slot = number;
            form = trdp_slot_read_usages(&reader);
        } else {
            form = trdp_slot_read_content(&reader, said);
        }
    }
    if (reader.bad || reader.at != reader.end)
        return;
    said->form = slot == number ? form : TRDP_SLOT_FORM_OTHER_SLOT;
}

/* ---- Writing; each word but the first with a space before it ---- */

/* A line that is being written. */
struct trdp_slot_writer {
    char *line;
    size_t room;
    size_t length;
    bool full; /* something didn't fit */
    bool bad;  /* an argument was out of its range */
};

/* Appends text. */
static inline void trdp_slot_write(struct trdp_slot_writer *writer, const char *text,
    size_t length)
{
    if (writer->full || writer->room - writer->length < length) {
        writer->full = true;
        return;
    }
    memcpy(writer->line + writer->length, text, length);
    writer->length += length;
}

/* Appends a word as it is, without a space. */
static inline void trdp_slot_write_text(struct trdp_slot_writer *writer, const char *text)
{
    trdp_slot_write(writer, text, strlen(text));
}

/* Appends a number's digits, without a space. */
static inline void trdp_slot_write_decimal(struct trdp_slot_writer *writer, uint32_t number)
{
    char digits[10];
    size_t first = sizeof digits;
    do {
        digits[--first] = (char)('0' + number % 10);
        number /= 10;
    } while (number > 0);
    trdp_slot_write(writer, digits + first, sizeof digits - first);
}

/* Appends a number. */
static inline void trdp_slot_write_number(struct trdp_slot_writer *writer, uint32_t number)
{
    trdp_slot_write_text(writer, " ");
    trdp_slot_write_decimal(writer, number);
}

/* Appends a status. */
static inline void trdp_slot_write_status(struct trdp_slot_writer *writer, int32_t status)
{
    trdp_slot_write_text(writer, status < 0 ? " -" : " ");
    trdp_slot_write_decimal(writer, (uint32_t)(status < 0 ? -(int64_t)status : status));
}

/* Appends an address. */
static inline void trdp_slot_write_address(struct trdp_slot_writer *writer, uint32_t address)
{
    for (int part = 0; part < 4; part++) {
        trdp_slot_write_text(writer, part == 0 ? " " : ".");
        trdp_slot_write_decimal(writer, address >> (24 - 8 * part) & 255);
    }
}

/* Appends a place. */
static inline void trdp_slot_write_place(struct trdp_slot_writer *writer,
    struct trdp_slot_place place)
{
    trdp_slot_write_address(writer, place.address);
    trdp_slot_write_text(writer, ":");
    trdp_slot_write_decimal(writer, place.port);
}

/* Appends the two digits of each byte, without a space. */
static inline void trdp_slot_write_digits(struct trdp_slot_writer *writer, const uint8_t *bytes,
    size_t length)
{
    static const char digits[] = "0123456789abcdef";
    if (writer->full || (writer->room - writer->length) / 2 < length) {
        writer->full = true;
        return;
    }
    for (size_t i = 0; i < length; i++) {
        writer->line[writer->length++] = digits[bytes[i] >> 4];
        writer->line[writer->length++] = digits[bytes[i] & 15];
    }
}

/* Appends bytes; `-` for none. */
static inline void trdp_slot_write_bytes(struct trdp_slot_writer *writer, const uint8_t *bytes,
    size_t length)
{
    if (bytes == NULL && length > 0)
        writer->bad = true;
    else if (length == 0)
        trdp_slot_write_text(writer, " -");
    else {
        trdp_slot_write_text(writer, " ");
        trdp_slot_write_digits(writer, bytes, length);
    }
}

/* Appends a URI, which has at most 32 bytes; NULL is none. */
static inline void trdp_slot_write_uri(struct trdp_slot_writer *writer, const char *uri)
{
    size_t length = 0;
    while (uri != NULL && length <= TRDP_SLOT_URI && uri[length] != '\0')
        length++;
    if (length > TRDP_SLOT_URI)
        writer->bad = true;
    else
        trdp_slot_write_bytes(writer, (const uint8_t *)uri, length);
}

/* Appends the two topology counters. */
static inline void trdp_slot_write_counters(struct trdp_slot_writer *writer, uint32_t etb,
    uint32_t op_trn)
{
    trdp_slot_write_number(writer, etb);
    trdp_slot_write_number(writer, op_trn);
}

/* Appends a filter: from which addresses to which one. */
static inline void trdp_slot_write_filter(struct trdp_slot_writer *writer, uint32_t low,
    uint32_t high, uint32_t destination)
{
    trdp_slot_write_address(writer, low);
    trdp_slot_write_address(writer, high);
    trdp_slot_write_address(writer, destination);
}

/* Appends a session's identifier. */
static inline void trdp_slot_write_session(struct trdp_slot_writer *writer,
    const uint8_t session[TRDP_SLOT_SESSION])
{
    static const uint8_t ends[] = { 0, 4, 6, 8, 10, 16 };
    for (int part = 0; part < 5; part++) {
        trdp_slot_write_text(writer, part == 0 ? " " : "-");
        trdp_slot_write_digits(writer, session + ends[part],
            (size_t)(ends[part + 1] - ends[part]));
    }
}

/* ---- Addresses as text ---- */

/* Reads an address: four numbers of 0 to 255 without leading zeros, with dots between them, as
 * "127.0.0.1". Answers whether it is one; the address comes in host order. */
static inline bool trdp_slot_address(const char *text, uint32_t *address)
{
    struct trdp_slot_reader reader = { text, text + strlen(text), false };
    uint32_t found = trdp_slot_read_address(&reader);
    if (reader.bad || reader.at != reader.end)
        return false;
    *address = found;
    return true;
}

/* Writes an address in host order as text, with a zero after it. Answers the text. */
static inline char *trdp_slot_address_text(uint32_t address, char text[TRDP_SLOT_ADDRESS_TEXT])
{
    char room[TRDP_SLOT_ADDRESS_TEXT];
    struct trdp_slot_writer writer = { room, sizeof room, 0, false, false };
    trdp_slot_write_address(&writer, address);
    memcpy(text, room + 1, writer.length - 1);
    text[writer.length - 1] = '\0';
    return text;
}

/* ---- The socket ---- */

/* Milliseconds since some moment. */
static inline int64_t trdp_slot_now(void)
{
    struct timespec time;
    if (clock_gettime(CLOCK_MONOTONIC, &time) != 0)
        return 0;
    return (int64_t)time.tv_sec * 1000 + time.tv_nsec / 1000000;
}

/* One more, unless the count is at its end. */
static inline void trdp_slot_count(uint32_t *count, uint32_t more)
{
    *count += more < UINT32_MAX - *count ? more : UINT32_MAX - *count;
}

/* Whether the slot's control port is a control socket. */
static inline bool trdp_slot_has_path(const struct trdp_slot *slot)
{
    return slot->path[0] != '\0';
}

/* Whether errno says that nothing is there, or no room, and no more. */
static inline bool trdp_slot_would_wait(void)
{
    return errno == EAGAIN || errno == EWOULDBLOCK;
}

/* Waits until the socket can be read, or written, or that moment has come. */
static inline enum trdp_slot_error trdp_slot_poll(int socket, short events, int64_t until)
{
    struct pollfd wait = { socket, events, 0 };
    int64_t left = until - trdp_slot_now();
    if (poll(&wait, socket < 0 ? 0 : 1, left < 0 ? 0 : left < INT_MAX ? (int)left : INT_MAX) < 0
        && errno != EINTR)
        return TRDP_SLOT_SYSTEM;
    return TRDP_SLOT_OK;
}

/* Drops the indications that are kept, and counts them as lost. */
static inline void trdp_slot_drop_kept(struct trdp_slot *slot)
{
    size_t at = 0;
    while (at < slot->kept_length) {
        uint32_t size;
        memcpy(&size, slot->terms.kept + at, sizeof size);
        at += sizeof size + size;
        trdp_slot_count(&slot->lost, 1);
    }
    slot->kept_length = 0;
}

/* Leaves a connection that has ended, or is to a wrong path. What is kept of it is about objects
 * that are gone. */
static inline enum trdp_slot_error trdp_slot_leave(struct trdp_slot *slot,
    enum trdp_slot_error error)
{
    close(slot->socket);
    slot->socket = -1;
    slot->come = slot->taken = 0;
    slot->is_skipping = slot->is_unsure = false;
    slot->marks = 0;
    slot->absence = error == TRDP_SLOT_RESTARTED ? TRDP_SLOT_NOBODY : error;
    trdp_slot_drop_kept(slot);
    return error;
}

/* A text that has come, in the slot's room up to the next one. */
struct trdp_slot_piece {
    const char *text;
    size_t length;
};

/* Counts as lost what the system says that it dropped before this datagram, where it says so. */
static inline void trdp_slot_count_dropped(struct trdp_slot *slot, struct msghdr *message)
{
#ifdef SO_RXQ_OVFL
    for (struct cmsghdr *part = CMSG_FIRSTHDR(message); part != NULL;
         part = CMSG_NXTHDR(message, part)) {
        uint32_t dropped;
        if (part->cmsg_level != SOL_SOCKET || part->cmsg_type != SO_RXQ_OVFL)
            continue;
        memcpy(&dropped, CMSG_DATA(part), sizeof dropped);
        trdp_slot_count(&slot->lost, dropped - slot->dropped);
        slot->dropped = dropped;
    }
#else
    (void)slot;
    (void)message;
#endif
}

/* Takes a datagram that waits at the socket. One that is longer than the slot's text can only be an
 * indication, and is counted as lost. TIMEOUT where none waits. */
static inline enum trdp_slot_error trdp_slot_take_datagram(struct trdp_slot *slot,
    struct trdp_slot_piece *piece)
{
    for (;;) {
        struct iovec part = { slot->terms.text, slot->terms.text_room };
        union {
            struct cmsghdr head;
            char room[64];
        } control;
        struct msghdr message;
        memset(&message, 0, sizeof message);
        message.msg_iov = &part;
        message.msg_iovlen = 1;
        message.msg_control = control.room;
        message.msg_controllen = sizeof control.room;
        ssize_t count = recvmsg(slot->socket, &message, 0);
        if (count < 0 && errno == EINTR)
            continue;
        if (count < 0)
            return trdp_slot_would_wait() ? TRDP_SLOT_TIMEOUT
                : errno == ECONNREFUSED ? TRDP_SLOT_NOBODY : TRDP_SLOT_SYSTEM;
        trdp_slot_count_dropped(slot, &message);
        if ((message.msg_flags & MSG_TRUNC) != 0) {
            trdp_slot_count(&slot->lost, 1);
            continue;
        }
        piece->text = slot->terms.text;
        piece->length = (size_t)count;
        return TRDP_SLOT_OK;
    }
}

/* Whether a whole line of the connection is in the slot's text; it is read then. */
static inline bool trdp_slot_has_line(struct trdp_slot *slot, struct trdp_slot_piece *piece)
{
    const char *first = slot->terms.text + slot->taken;
    size_t length = slot->come - slot->taken;
    const char *end = length > 0 ? (const char *)memchr(first, '\n', length) : NULL;
    if (end == NULL)
        return false;
    piece->text = first;
    piece->length = (size_t)(end - first) + 1;
    slot->taken += piece->length;
    return true;
}

/* Reads more of the connection after the front of a line that is there. A line that fills the
 * slot's text is skipped; it can only be an indication, and is counted as lost. */
static inline enum trdp_slot_error trdp_slot_read_more(struct trdp_slot *slot)
{
    slot->come -= slot->taken;
    memmove(slot->terms.text, slot->terms.text + slot->taken, slot->come);
    slot->taken = 0;
    if (slot->come == slot->terms.text_room) {
        if (!slot->is_skipping)
            trdp_slot_count(&slot->lost, 1);
        slot->is_skipping = true;
        slot->come = 0;
    }
    ssize_t count;
    do
        count = recv(slot->socket, slot->terms.text + slot->come,
            slot->terms.text_room - slot->come, 0);
    while (count < 0 && errno == EINTR);
    if (count < 0 && trdp_slot_would_wait())
        return TRDP_SLOT_TIMEOUT;
    if (count <= 0)
        return trdp_slot_leave(slot, TRDP_SLOT_RESTARTED);
    slot->come += (size_t)count;
    return TRDP_SLOT_OK;
}

/* Takes the next line of the connection. TIMEOUT where no whole one is there; RESTARTED where the
 * connection has ended, and BUSY where another application has it. */
static inline enum trdp_slot_error trdp_slot_take_line(struct trdp_slot *slot,
    struct trdp_slot_piece *piece)
{
    for (;;) {
        if (!trdp_slot_has_line(slot, piece)) {
            enum trdp_slot_error error = trdp_slot_read_more(slot);
            if (error != TRDP_SLOT_OK)
                return error;
        } else if (slot->is_skipping) {
            slot->is_skipping = false; /* that was the rest of it */
        } else {
            bool is_busy = piece->length == 5 && memcmp(piece->text, "busy\n", 5) == 0;
            return is_busy ? trdp_slot_leave(slot, TRDP_SLOT_BUSY) : TRDP_SLOT_OK;
        }
    }
}

/* Takes a text that is there. TIMEOUT where none is. */
static inline enum trdp_slot_error trdp_slot_take(struct trdp_slot *slot,
    struct trdp_slot_piece *piece)
{
    return trdp_slot_has_path(slot) ? trdp_slot_take_line(slot, piece)
        : trdp_slot_take_datagram(slot, piece);
}

/* Whether an error says that the port is another slot's or the operator's. */
static inline bool trdp_slot_is_of_wrong_port(enum trdp_slot_error error)
{
    return error == TRDP_SLOT_OTHER_SLOT || error == TRDP_SLOT_OPERATORS_PORT;
}

/* Whether the port has said so last. */
static inline bool trdp_slot_is_wrong(const struct trdp_slot *slot)
{
    return trdp_slot_is_of_wrong_port(slot->absence);
}

/* Says `#` if a third of the lease has passed since the latest line, but at no wrong port. Returns
 * when it is to be said next. What goes wrong with it shows in what comes. */
static inline int64_t trdp_slot_stay(struct trdp_slot *slot)
{
    int64_t third = slot->terms.lease / 3;
    if (slot->terms.lease == 0 || slot->socket < 0 || trdp_slot_is_wrong(slot))
        return INT64_MAX;
    if (trdp_slot_now() - slot->spoke >= third) {
        (void)send(slot->socket, "#\n", trdp_slot_has_path(slot) ? 2 : 1, MSG_NOSIGNAL);
        slot->spoke = trdp_slot_now();
    }
    return slot->spoke + (third > 0 ? third : 1);
}

/* Waits for a text until that moment, and takes it. */
static inline enum trdp_slot_error trdp_slot_await(struct trdp_slot *slot, int64_t until,
    struct trdp_slot_piece *piece)
{
    for (;;) {
        enum trdp_slot_error error = trdp_slot_take(slot, piece);
        if (error != TRDP_SLOT_TIMEOUT)
            return error;
        if (trdp_slot_now() >= until)
            return TRDP_SLOT_TIMEOUT;
        int64_t due = trdp_slot_stay(slot);
        if (trdp_slot_poll(slot->socket, POLLIN, due < until ? due : until) != TRDP_SLOT_OK)
            return TRDP_SLOT_SYSTEM;
    }
}

/* Waits for a text until that moment, takes it, and reads it. */
static inline enum trdp_slot_error trdp_slot_await_said(struct trdp_slot *slot, int64_t until,
    struct trdp_slot_said *said, struct trdp_slot_piece *piece)
{
    enum trdp_slot_error error = trdp_slot_await(slot, until, piece);
    if (error == TRDP_SLOT_OK)
        trdp_slot_read(slot->terms.number, piece->text, piece->length, said);
    return error;
}

/* Keeps an indication, or how many were lost, its length before it. Where there is no room it is
 * counted as lost. */
static inline void trdp_slot_keep(struct trdp_slot *slot, const struct trdp_slot_piece *piece,
    uint32_t lost)
{
    uint32_t size = (uint32_t)piece->length;
    size_t left = slot->terms.kept_room - slot->kept_length;
    if (left < sizeof size || left - sizeof size < piece->length) {
        trdp_slot_count(&slot->lost, lost);
        return;
    }
    uint8_t *to = slot->terms.kept + slot->kept_length;
    memcpy(to, &size, sizeof size);
    memcpy(to + sizeof size, piece->text, piece->length);
    slot->kept_length += sizeof size + piece->length;
}

/* Whether a text says that a line couldn't be read. */
static inline bool trdp_slot_is_line_fault(const struct trdp_slot_said *said)
{
    return said->form == TRDP_SLOT_FORM_ERROR && said->error >= TRDP_SLOT_FAULT_TOO_LONG
        && said->error <= TRDP_SLOT_FAULT_OTHERWISE;
}

/* The fault of the mark that was sent last. A mark is a line that can't be read, and does nothing:
 * what comes before its answer is of lines before it. Three take turns, so that one that comes late
 * isn't taken for the next one. */
static inline enum trdp_slot_error trdp_slot_mark_fault(const struct trdp_slot *slot)
{
    return slot->mark == 0 ? TRDP_SLOT_FAULT_UNKNOWN
        : slot->mark == 1 ? TRDP_SLOT_FAULT_COUNT : TRDP_SLOT_FAULT_BAD_WORD;
}

/* Takes the answer to a mark. Answers whether it is that to the latest one, after which no answer
 * to a line before it comes. */
static inline bool trdp_slot_takes_mark(struct trdp_slot *slot, enum trdp_slot_error fault)
{
    if (fault != trdp_slot_mark_fault(slot)) {
        slot->marks -= slot->marks > 0;
        return false;
    }
    /* Of more than three that are under way, one before it may have the same answer. */
    slot->marks = slot->marks > 3 ? slot->marks - 1 : 0;
    slot->is_unsure = false;
    return true;
}

/* Puts aside what isn't awaited: keeps an indication, and counts all else. */
static inline void trdp_slot_put_aside(struct trdp_slot *slot, const struct trdp_slot_said *said,
    const struct trdp_slot_piece *piece)
{
    if (said->form == TRDP_SLOT_FORM_INDICATION) {
        trdp_slot_keep(slot, piece, 1);
    } else if (said->form == TRDP_SLOT_FORM_LOST) {
        trdp_slot_keep(slot, piece, said->told.lost);
        slot->marks = 0; /* the answer to one may be lost */
    } else if (said->form == TRDP_SLOT_FORM_STRANGE || said->form == TRDP_SLOT_FORM_OTHER_SLOT) {
        trdp_slot_count(&slot->strange, 1);
    } else if (slot->marks > 0 && trdp_slot_is_line_fault(said)) {
        (void)trdp_slot_takes_mark(slot, said->error);
    } else {
        trdp_slot_count(&slot->stale, 1);
    }
}

/* Takes all that is there before a call. */
static inline enum trdp_slot_error trdp_slot_drain(struct trdp_slot *slot)
{
    int64_t until = trdp_slot_now() + slot->terms.timeout;
    do {
        struct trdp_slot_piece piece;
        enum trdp_slot_error error = trdp_slot_take(slot, &piece);
        if (error == TRDP_SLOT_OK) {
            struct trdp_slot_said said;
            trdp_slot_read(slot->terms.number, piece.text, piece.length, &said);
            trdp_slot_put_aside(slot, &said, &piece);
        } else if (error != TRDP_SLOT_NOBODY) { /* which is of a line before this one */
            return error == TRDP_SLOT_TIMEOUT ? TRDP_SLOT_OK : error;
        }
    } while (trdp_slot_now() < until);
    return TRDP_SLOT_OK;
}

/* Sends a datagram. Where the system says that a line before found no one, tries once more. */
static inline enum trdp_slot_error trdp_slot_send_datagram(struct trdp_slot *slot,
    const char *bytes, size_t length)
{
    bool again = true;
    while (send(slot->socket, bytes, length, 0) < 0) {
        if (errno == ECONNREFUSED && again)
            again = false;
        else if (errno != EINTR)
            return errno == ECONNREFUSED ? TRDP_SLOT_OK : TRDP_SLOT_SYSTEM;
    }
    return TRDP_SLOT_OK;
}

/* Sends all of these bytes by that moment. Where the connection has ended, what was said before is
 * heard first: `busy` may be there. TIMEOUT where none of them went out; where some did, the rest
 * would be missing for ever, so that the connection is ended. */
static inline enum trdp_slot_error trdp_slot_send_bytes(struct trdp_slot *slot, const char *bytes,
    size_t length, int64_t until)
{
    size_t sent = 0;
    while (sent < length) {
        ssize_t count = send(slot->socket, bytes + sent, length - sent, MSG_NOSIGNAL);
        if (count >= 0) {
            sent += (size_t)count;
        } else if (errno == EPIPE || errno == ECONNRESET) {
            enum trdp_slot_error error = trdp_slot_drain(slot);
            return error != TRDP_SLOT_OK ? error : trdp_slot_leave(slot, TRDP_SLOT_RESTARTED);
        } else if (trdp_slot_would_wait() && trdp_slot_now() < until) {
            if (trdp_slot_poll(slot->socket, POLLOUT, until) != TRDP_SLOT_OK)
                return TRDP_SLOT_SYSTEM;
        } else if (errno != EINTR) {
            enum trdp_slot_error error = trdp_slot_would_wait() ? TRDP_SLOT_TIMEOUT
                : TRDP_SLOT_SYSTEM;
            return sent == 0 ? error : trdp_slot_leave(slot, TRDP_SLOT_RESTARTED);
        }
    }
    return TRDP_SLOT_OK;
}

/* Sends a line, after which there is room for its end. */
static inline enum trdp_slot_error trdp_slot_send(struct trdp_slot *slot, char *line,
    size_t length, int64_t until)
{
    enum trdp_slot_error error;
    if (trdp_slot_has_path(slot)) {
        line[length] = '\n';
        error = trdp_slot_send_bytes(slot, line, length + 1, until);
    } else {
        error = trdp_slot_send_datagram(slot, line, length);
    }
    if (error == TRDP_SLOT_OK)
        slot->spoke = trdp_slot_now();
    return error;
}

/* ---- Opening and closing ---- */

/* A socket that never blocks, and closes where this program becomes another one; -1 where there is
 * none. */
static inline int trdp_slot_socket(int family, int type)
{
#if defined(SOCK_CLOEXEC) && defined(SOCK_NONBLOCK)
    return socket(family, type | SOCK_CLOEXEC | SOCK_NONBLOCK, 0);
#else
    int made = socket(family, type, 0);
    if (made >= 0 && (fcntl(made, F_SETFL, O_NONBLOCK) != 0
        || fcntl(made, F_SETFD, FD_CLOEXEC) != 0)) {
        int reason = errno;
        close(made);
        errno = reason;
        return -1;
    }
    return made;
#endif
}

/* Makes a socket that is connected to a place; -1 where it can't. */
static inline int trdp_slot_connected(int family, int type, const struct sockaddr *place,
    socklen_t length)
{
    int control = trdp_slot_socket(family, type);
    if (control >= 0 && connect(control, place, length) != 0) {
        int reason = errno;
        close(control);
        errno = reason;
        return -1;
    }
    return control;
}

/* Connects to the control port of an address. */
static inline enum trdp_slot_error trdp_slot_connect_port(struct trdp_slot *slot)
{
    struct sockaddr_in node;
    memset(&node, 0, sizeof node);
    node.sin_family = AF_INET;
    node.sin_addr.s_addr = htonl(slot->terms.address);
    node.sin_port = htons(slot->terms.port);
    slot->socket = trdp_slot_connected(AF_INET, SOCK_DGRAM,
        (const struct sockaddr *)&node, sizeof node);
    if (slot->socket < 0)
        return TRDP_SLOT_SYSTEM;
#ifdef SO_RXQ_OVFL
    int on = 1; /* where the system can't, it reports nothing that it drops */
    (void)setsockopt(slot->socket, SOL_SOCKET, SO_RXQ_OVFL, &on, sizeof on);
#endif
    return TRDP_SLOT_OK;
}

/* Connects to the control socket. NOBODY where no one listens there, or it isn't there (yet);
 * TIMEOUT where those who wait to be connected are too many. */
static inline enum trdp_slot_error trdp_slot_connect_path(struct trdp_slot *slot)
{
    struct sockaddr_un node;
    memset(&node, 0, sizeof node);
    node.sun_family = AF_UNIX;
    memcpy(node.sun_path, slot->path, strlen(slot->path));
    slot->socket = trdp_slot_connected(AF_UNIX, SOCK_STREAM,
        (const struct sockaddr *)&node, sizeof node);
    slot->connected = trdp_slot_now();
    slot->reason = errno;
    slot->absence = slot->socket >= 0 ? TRDP_SLOT_OK
        : errno == ENOENT || errno == ECONNREFUSED ? TRDP_SLOT_NOBODY
        : trdp_slot_would_wait() ? TRDP_SLOT_TIMEOUT : TRDP_SLOT_SYSTEM;
    return slot->absence;
}

/* Connects, and says `#`, by which this is the application. */
static inline enum trdp_slot_error trdp_slot_connect(struct trdp_slot *slot)
{
    char remark[2] = { '#', '\n' };
    enum trdp_slot_error error = trdp_slot_has_path(slot) ? trdp_slot_connect_path(slot)
        : trdp_slot_connect_port(slot);
    return error != TRDP_SLOT_OK ? error
        : trdp_slot_send(slot, remark, 1, trdp_slot_now() + slot->terms.timeout);
}

/* Connects, where there is no connection, by that moment; it is tried again and again, unless
 * another application is there. Only a call tries a wrong path again. */
static inline enum trdp_slot_error trdp_slot_connect_by(struct trdp_slot *slot, int64_t until)
{
    bool is_wrong = trdp_slot_is_wrong(slot);
    while (slot->socket < 0) {
        int64_t now = trdp_slot_now();
        int64_t due = is_wrong ? INT64_MAX : slot->connected + TRDP_SLOT_PAUSE;
        if (now >= due) {
            if (trdp_slot_connect(slot) == TRDP_SLOT_BUSY)
                return TRDP_SLOT_BUSY;
        } else if (now >= until) {
            errno = slot->reason;
            return slot->absence;
        } else if (trdp_slot_poll(-1, 0, due < until ? due : until) != TRDP_SLOT_OK) {
            return TRDP_SLOT_SYSTEM;
        }
    }
    return TRDP_SLOT_OK;
}

/* Closes the socket; errno stays. What the slot has made over UDP stays in the daemon, and so do
 * its handles, which no one lists: an application that leaves for good ends its objects before. At
 * a control socket they are gone with the connection, unless another process has it too: a child
 * of `fork` closes its copy by this call, and the parent's connection stays. */
static inline void trdp_slot_close(struct trdp_slot *slot)
{
    int reason = errno;
    if (slot->socket >= 0)
        close(slot->socket);
    slot->socket = -1;
    slot->path[0] = '\0';
    errno = reason;
}

/* A slot that isn't open, of these terms; whether they are in range. */
static inline bool trdp_slot_begins(struct trdp_slot *slot, const struct trdp_slot_terms *terms)
{
    memset(slot, 0, sizeof *slot);
    slot->terms = *terms;
    slot->socket = -1;
    return terms->timeout > 0 && terms->tries > 0 && terms->line != NULL && terms->text != NULL
        && (terms->kept != NULL || terms->kept_room == 0)
        && terms->line_room >= TRDP_SLOT_OVERHEAD && terms->text_room >= TRDP_SLOT_TEXT_ROOM;
}

/* Opens a slot: connects a socket to its control port, and has its indications come here from now
 * on. It waits for nothing, and doesn't know whether a daemon is there: the first call shows it.
 * Errors: ARGUMENT if a buffer is missing or too small, or `timeout`, `tries` or `port` is 0;
 * SYSTEM. */
static inline enum trdp_slot_error trdp_slot_open(struct trdp_slot *slot,
    const struct trdp_slot_terms *terms)
{
    if (!trdp_slot_begins(slot, terms) || terms->port == 0)
        return TRDP_SLOT_ARGUMENT;
    enum trdp_slot_error error = trdp_slot_connect(slot);
    if (error != TRDP_SLOT_OK)
        trdp_slot_close(slot);
    return error;
}

/* Opens a slot at a control socket: connects to its path, such as "/run/trdpd/18000", and is the
 * application from then on. It waits for no answer.
 * Errors: ARGUMENT if a buffer is missing or too small, `timeout` or `tries` is 0, or the path
 * is empty or longer than 107 bytes; the slot isn't open then. NOBODY if no one listens there;
 * SYSTEM, as with EACCES if this user may not connect; BUSY if another application lives
 * there, if the daemon has said so already, and else the first call shows it. Then the slot is open
 * all the same, and each call tries again to connect, until it is closed. */
static inline enum trdp_slot_error trdp_slot_open_path(struct trdp_slot *slot, const char *path,
    const struct trdp_slot_terms *terms)
{
    if (!trdp_slot_begins(slot, terms) || path == NULL || path[0] == '\0'
        || strlen(path) >= sizeof slot->path)
        return TRDP_SLOT_ARGUMENT;
    memcpy(slot->path, path, strlen(path));
    return trdp_slot_connect(slot);
}

/* ---- Calls ---- */

/* Whether the slot is open, connected or not. */
static inline bool trdp_slot_is_open(const struct trdp_slot *slot)
{
    return slot->socket >= 0 || trdp_slot_has_path(slot);
}

/* How often a line is sent at most. A connection loses none. */
static inline uint32_t trdp_slot_tries(const struct trdp_slot *slot)
{
    return trdp_slot_has_path(slot) ? 1 : slot->terms.tries;
}

/* Until when the answer to a line that goes out now is awaited. */
static inline int64_t trdp_slot_deadline(const struct trdp_slot *slot)
{
    uint64_t wait = slot->terms.timeout, most = INT64_MAX / 2;
    if (trdp_slot_has_path(slot))
        wait *= slot->terms.tries;
    return trdp_slot_now() + (int64_t)(wait < most ? wait : most);
}

/* Sends the next mark. */
static inline enum trdp_slot_error trdp_slot_send_mark(struct trdp_slot *slot, int64_t until)
{
    static const char *const marks[] = { "mark", "get", "get mark" };
    static const char *const operators[] = { "mark", "role", "role mark mark" };
    char line[16];
    slot->mark = (slot->mark + 1) % 3;
    const char *mark = slot->is_operator ? operators[slot->mark] : marks[slot->mark];
    memcpy(line, mark, strlen(mark));
    enum trdp_slot_error error = trdp_slot_send(slot, line, strlen(mark), until);
    if (error == TRDP_SLOT_OK)
        trdp_slot_count(&slot->marks, 1);
    return error;
}

/* Waits for the answer to the latest mark. `wanted` is a form that counts as `is_heard` where it
 * comes before. */
static inline enum trdp_slot_error trdp_slot_hear_mark(struct trdp_slot *slot, int64_t until,
    enum trdp_slot_form wanted, bool *is_heard)
{
    for (;;) {
        struct trdp_slot_piece piece;
        struct trdp_slot_said said;
        enum trdp_slot_error error = trdp_slot_await_said(slot, until, &said, &piece);
        if (error != TRDP_SLOT_OK)
            return error;
        if (said.form == TRDP_SLOT_FORM_OTHER_SLOT)
            return TRDP_SLOT_OTHER_SLOT;
        if (said.form == wanted)
            *is_heard = true;
        else if (!trdp_slot_is_line_fault(&said))
            trdp_slot_put_aside(slot, &said, &piece);
        else if (trdp_slot_takes_mark(slot, said.error))
            return TRDP_SLOT_OK;
    }
}

/* Has no answer to an earlier line under way any more: sends a mark, and waits for its answer. A
 * connection loses no mark, unless it says so, and so has one under way at most. */
static inline enum trdp_slot_error trdp_slot_settle(struct trdp_slot *slot)
{
    enum trdp_slot_error error = TRDP_SLOT_OK;
    bool is_heard = false;
    for (uint32_t tried = 0; slot->is_unsure && tried < trdp_slot_tries(slot); tried++) {
        int64_t until = trdp_slot_deadline(slot);
        if (!trdp_slot_has_path(slot) || slot->marks == 0)
            error = trdp_slot_send_mark(slot, until);
        if (error == TRDP_SLOT_OK)
            error = trdp_slot_hear_mark(slot, until, TRDP_SLOT_FORM_STRANGE, &is_heard);
        if (error == TRDP_SLOT_TIMEOUT && tried + 1 < trdp_slot_tries(slot))
            error = TRDP_SLOT_OK;
        else if (error != TRDP_SLOT_OK)
            return error;
    }
    return error;
}

/* Waits for the answer to a line until that moment: one of that form, or an error. NOBODY as soon
 * as the system says so. */
static inline enum trdp_slot_error trdp_slot_hear(struct trdp_slot *slot,
    enum trdp_slot_form wanted, int64_t until, struct trdp_slot_said *said,
    struct trdp_slot_piece *piece)
{
    for (;;) {
        enum trdp_slot_error error = trdp_slot_await_said(slot, until, said, piece);
        if (error != TRDP_SLOT_OK)
            return error;
        if (said->form == wanted)
            return TRDP_SLOT_OK;
        if (said->form == TRDP_SLOT_FORM_OTHER_SLOT)
            return TRDP_SLOT_OTHER_SLOT;
        if (said->form == TRDP_SLOT_FORM_ERROR
            && (slot->marks == 0 || !trdp_slot_is_line_fault(said)))
            return said->error;
        trdp_slot_put_aside(slot, said, piece);
    }
}

/* Waits for the answer to the question until that moment. If answers to earlier lines may still
 * come, a fault may be one of these. Then the operator's port is known by it only if nothing else
 * comes. */
static inline enum trdp_slot_error trdp_slot_hear_question(struct trdp_slot *slot, int64_t until)
{
    bool is_unknown = false;
    for (;;) {
        struct trdp_slot_said said;
        struct trdp_slot_piece piece;
        enum trdp_slot_error error = trdp_slot_hear(slot, TRDP_SLOT_FORM_VALUE, until, &said,
            &piece);
        bool is_fault = slot->is_unsure && error >= TRDP_SLOT_FAULT_TOO_LONG;
        is_unknown = is_unknown || error == TRDP_SLOT_FAULT_UNKNOWN;
        if (!is_fault && error != TRDP_SLOT_TIMEOUT)
            return error;
        if (!is_fault || trdp_slot_now() >= until)
            return is_unknown ? TRDP_SLOT_FAULT_UNKNOWN : TRDP_SLOT_TIMEOUT;
    }
}

/* Asks whose port this is, until an answer comes; a late one to an earlier question is as good. The
 * operator's port answers as it does to the mark 0, so the next mark is another one. */
static inline enum trdp_slot_error trdp_slot_identify(struct trdp_slot *slot)
{
    enum trdp_slot_error error = TRDP_SLOT_TIMEOUT;
    uint32_t asked = 0;
    slot->mark = 0;
    while (error == TRDP_SLOT_TIMEOUT && asked++ < trdp_slot_tries(slot)) {
        char question[] = "get 0";
        int64_t until = trdp_slot_deadline(slot);
        error = trdp_slot_send(slot, question, strlen(question), until);
        if (error == TRDP_SLOT_OK)
            error = trdp_slot_hear_question(slot, until);
        slot->is_unsure = slot->is_unsure || error == TRDP_SLOT_TIMEOUT;
    }
    slot->is_known = error == TRDP_SLOT_OK
        || (error >= TRDP_SLOT_REFUSED_NO_HANDLE && error <= TRDP_SLOT_REFUSED_OTHERWISE);
    if (slot->is_known)
        error = TRDP_SLOT_OK;
    else if (error == TRDP_SLOT_FAULT_UNKNOWN)
        error = TRDP_SLOT_OPERATORS_PORT;
    bool is_wrong = trdp_slot_is_of_wrong_port(error);
    if (is_wrong && trdp_slot_has_path(slot))
        return trdp_slot_leave(slot, error);
    if (is_wrong || slot->is_known)
        slot->absence = error;
    return error;
}

/* What comes before each call: a connection, if there is none; what waits is taken; the port is
 * asked whose it is, unless it has said so; and answers that are still under way are waited for. */
static inline enum trdp_slot_error trdp_slot_prepare(struct trdp_slot *slot)
{
    slot->tried = 0;
    enum trdp_slot_error error = slot->socket < 0 ? trdp_slot_connect(slot) : TRDP_SLOT_OK;
    if (error == TRDP_SLOT_OK)
        error = trdp_slot_drain(slot);
    if (error == TRDP_SLOT_OK && !slot->is_known && !slot->is_operator)
        error = trdp_slot_identify(slot);
    return error == TRDP_SLOT_OK ? trdp_slot_settle(slot) : error;
}

/* Sends the line of a call, and counts the try. */
static inline enum trdp_slot_error trdp_slot_try(struct trdp_slot *slot,
    const struct trdp_slot_writer *line, int64_t until)
{
    enum trdp_slot_error error = trdp_slot_send(slot, line->line, line->length, until);
    slot->tried += error == TRDP_SLOT_OK;
    return error;
}

/* The error of a call after its tries. No one may be there now who took an earlier one. */
static inline enum trdp_slot_error trdp_slot_after_tries(const struct trdp_slot *slot,
    enum trdp_slot_error error)
{
    return error == TRDP_SLOT_NOBODY && slot->tried > 1 ? TRDP_SLOT_TIMEOUT : error;
}

/* Makes a call: sends its line until an answer of that form or an error comes. */
static inline enum trdp_slot_error trdp_slot_ask(struct trdp_slot *slot,
    const struct trdp_slot_writer *line, enum trdp_slot_form wanted,
    struct trdp_slot_said *said, struct trdp_slot_piece *piece)
{
    slot->tried = 0;
    if (line->bad || !trdp_slot_is_open(slot))
        return TRDP_SLOT_ARGUMENT;
    if (line->full)
        return TRDP_SLOT_LONG;
    enum trdp_slot_error error = trdp_slot_prepare(slot);
    if (error != TRDP_SLOT_OK)
        return error;
    do {
        int64_t until = trdp_slot_deadline(slot);
        error = trdp_slot_try(slot, line, until);
        if (error != TRDP_SLOT_OK)
            return error;
        error = trdp_slot_hear(slot, wanted, until, said, piece);
        slot->is_unsure = slot->is_unsure || error == TRDP_SLOT_TIMEOUT;
    } while (error == TRDP_SLOT_TIMEOUT && slot->tried < trdp_slot_tries(slot));
    return trdp_slot_after_tries(slot, error);
}

/* The same, where the text itself isn't looked at. */
static inline enum trdp_slot_error trdp_slot_call(struct trdp_slot *slot,
    const struct trdp_slot_writer *line, enum trdp_slot_form wanted,
    struct trdp_slot_said *said)
{
    struct trdp_slot_piece piece;
    return trdp_slot_ask(slot, line, wanted, said, &piece);
}

/* A line that begins with that word, in the slot's room; its end fits in after it. */
static inline struct trdp_slot_writer trdp_slot_line(struct trdp_slot *slot, const char *word)
{
    size_t most = trdp_slot_has_path(slot) ? TRDP_SLOT_LINE : TRDP_SLOT_DATAGRAM;
    size_t room = slot->terms.line_room < most ? slot->terms.line_room : most;
    struct trdp_slot_writer writer = { slot->terms.line,
        trdp_slot_has_path(slot) ? room - 1 : room, 0, false, false };
    slot->is_operator = false;
    trdp_slot_write_text(&writer, word);
    return writer;
}

/* Makes a call that is answered by a handle, which is left as it is where it isn't. */
static inline enum trdp_slot_error trdp_slot_make(struct trdp_slot *slot,
    const struct trdp_slot_writer *line, uint32_t *handle)
{
    struct trdp_slot_said said;
    enum trdp_slot_error error = trdp_slot_call(slot, line, TRDP_SLOT_FORM_HANDLE, &said);
    if (error == TRDP_SLOT_OK)
        *handle = said.handle;
    return error;
}

/* Makes a call that is answered by `done`. */
static inline enum trdp_slot_error trdp_slot_do(struct trdp_slot *slot,
    const struct trdp_slot_writer *line)
{
    struct trdp_slot_said said;
    return trdp_slot_call(slot, line, TRDP_SLOT_FORM_DONE, &said);
}

/* A line that begins with that word and a handle. */
static inline struct trdp_slot_writer trdp_slot_line_of(struct trdp_slot *slot, const char *word,
    uint32_t handle)
{
    struct trdp_slot_writer writer = trdp_slot_line(slot, word);
    trdp_slot_write_number(&writer, handle);
    return writer;
}

/* The line of a replier's answer, up to its status. */
static inline struct trdp_slot_writer trdp_slot_answer_line(struct trdp_slot *slot,
    const char *word, uint32_t handle, uint32_t com_id, int32_t status)
{
    struct trdp_slot_writer writer = trdp_slot_line_of(slot, word, handle);
    trdp_slot_write_number(&writer, com_id);
    trdp_slot_write_status(&writer, status);
    return writer;
}

/* Makes a call of a handle and nothing more. */
static inline enum trdp_slot_error trdp_slot_do_handle(struct trdp_slot *slot, const char *word,
    uint32_t handle)
{
    struct trdp_slot_writer line = trdp_slot_line_of(slot, word, handle);
    return trdp_slot_do(slot, &line);
}

/* ---- Process data ----
 *
 * Every call below may return TIMEOUT, NOBODY, SYSTEM, OTHER_SLOT, OPERATORS_PORT, at a control
 * socket BUSY and RESTARTED, ARGUMENT for a slot that isn't open, and LONG if it carries bytes. Each
 * comment names the refusals that docs/SCRIPT.md has for the call. */

/* Makes a publisher, whose handle comes. A second try may make a second one.
 * Refusals: CYCLE, NO_DATASET, TOO_LONG, QUOTA, EXHAUSTED. */
static inline enum trdp_slot_error trdp_slot_publish(struct trdp_slot *slot,
    const struct trdp_slot_publisher *terms, uint32_t *handle)
{
    struct trdp_slot_writer line = trdp_slot_line(slot, "publish");
    trdp_slot_write_number(&line, terms->com_id);
    trdp_slot_write_number(&line, terms->dataset);
    trdp_slot_write_number(&line, terms->cycle);
    trdp_slot_write_number(&line, terms->group);
    trdp_slot_write_counters(&line, terms->etb, terms->op_trn);
    trdp_slot_write_place(&line, terms->to);
    return trdp_slot_make(slot, &line, handle);
}

/* Gives a publisher its value: a value of its dataset, at most 1432 bytes. Before the first one
 * nothing is sent. Refusals: NO_HANDLE, WRONG_KIND, TOO_LONG, SHAPE. */
static inline enum trdp_slot_error trdp_slot_put(struct trdp_slot *slot, uint32_t handle,
    const uint8_t *bytes, size_t length)
{
    struct trdp_slot_writer line = trdp_slot_line_of(slot, "put", handle);
    trdp_slot_write_bytes(&line, bytes, length);
    return trdp_slot_do(slot, &line);
}

/* Ends a publisher. A second try may be refused NO_HANDLE. Refusals: NO_HANDLE, WRONG_KIND. */
static inline enum trdp_slot_error trdp_slot_unpublish(struct trdp_slot *slot, uint32_t handle)
{
    return trdp_slot_do_handle(slot, "unpublish", handle);
}

/* Makes a subscription, whose handle comes. A second try may make a second one.
 * Refusals: TIMEOUT, RANGE, NO_DATASET, TOO_LONG, QUOTA, EXHAUSTED. */
static inline enum trdp_slot_error trdp_slot_subscribe(struct trdp_slot *slot,
    const struct trdp_slot_subscription *terms, uint32_t *handle)
{
    struct trdp_slot_writer line = trdp_slot_line(slot, "subscribe");
    trdp_slot_write_number(&line, terms->com_id);
    trdp_slot_write_number(&line, terms->dataset);
    trdp_slot_write_filter(&line, terms->low, terms->high, terms->destination);
    trdp_slot_write_counters(&line, terms->etb, terms->op_trn);
    trdp_slot_write_number(&line, terms->time);
    trdp_slot_write_text(&line, terms->keep ? " keep" : " zero");
    return trdp_slot_make(slot, &line, handle);
}

/* Looks at a subscription: how good its value is, and the value in `bytes`, which has so much
 * room; TRDP_SLOT_VALUE is always enough. CUT if it is longer: `length` is that of the whole
 * value, and the first bytes are there. Refusals: NO_HANDLE, WRONG_KIND. */
static inline enum trdp_slot_error trdp_slot_get(struct trdp_slot *slot, uint32_t handle,
    struct trdp_slot_value *value, uint8_t *bytes, size_t room)
{
    struct trdp_slot_said said;
    struct trdp_slot_writer line = trdp_slot_line_of(slot, "get", handle);
    enum trdp_slot_error error = trdp_slot_call(slot, &line, TRDP_SLOT_FORM_VALUE, &said);
    if (error != TRDP_SLOT_OK)
        return error;
    *value = said.value;
    return trdp_slot_decode(said.digits, bytes, room);
}

/* Ends a subscription. A second try may be refused NO_HANDLE. Refusals: NO_HANDLE, WRONG_KIND. */
static inline enum trdp_slot_error trdp_slot_unsubscribe(struct trdp_slot *slot,
    uint32_t handle)
{
    return trdp_slot_do_handle(slot, "unsubscribe", handle);
}

/* Makes a requester, whose handle comes. A second try may make a second one.
 * Refusals: QUOTA, EXHAUSTED. */
static inline enum trdp_slot_error trdp_slot_openpull(struct trdp_slot *slot,
    const struct trdp_slot_requester *terms, uint32_t *handle)
{
    struct trdp_slot_writer line = trdp_slot_line(slot, "openpull");
    trdp_slot_write_number(&line, terms->com_id);
    trdp_slot_write_number(&line, terms->reply_com_id);
    trdp_slot_write_address(&line, terms->reply_address);
    trdp_slot_write_counters(&line, terms->etb, terms->op_trn);
    trdp_slot_write_place(&line, terms->to);
    return trdp_slot_make(slot, &line, handle);
}

/* Sends one pull request; a second try may send a second one.
 * Refusals: NO_HANDLE, WRONG_KIND, STATE. */
static inline enum trdp_slot_error trdp_slot_pull(struct trdp_slot *slot, uint32_t handle)
{
    return trdp_slot_do_handle(slot, "pull", handle);
}

/* Ends a requester. A second try may be refused NO_HANDLE. Refusals: NO_HANDLE, WRONG_KIND. */
static inline enum trdp_slot_error trdp_slot_closepull(struct trdp_slot *slot, uint32_t handle)
{
    return trdp_slot_do_handle(slot, "closepull", handle);
}

/* ---- Messages ----
 *
 * A payload has TRDP_SLOT_MESSAGE bytes at most, and over UDP some 32,000: two digits each fit in a
 * datagram. ARGUMENT if a URI is longer than 32 bytes, or `payload` is NULL and `length` isn't
 * 0. */

/* Makes a listener, whose handle comes. A second try may make a second one. Only one application of
 * a node should answer requests of a comId: if two applications listen to the same requests, both
 * are asked, the caller takes only the first reply, and its confirmation reaches both repliers.
 * Refusals: RANGE, QUOTA, EXHAUSTED. */
static inline enum trdp_slot_error trdp_slot_listen(struct trdp_slot *slot,
    const struct trdp_slot_listener *terms, uint32_t *handle)
{
    struct trdp_slot_writer line = trdp_slot_line(slot, "listen");
    if (terms->any)
        trdp_slot_write_text(&line, " any");
    else
        trdp_slot_write_number(&line, terms->com_id);
    trdp_slot_write_filter(&line, terms->low, terms->high, terms->destination);
    trdp_slot_write_uri(&line, terms->uri);
    trdp_slot_write_counters(&line, terms->etb, terms->op_trn);
    return trdp_slot_make(slot, &line, handle);
}

/* Ends a listener. A second try may be refused NO_HANDLE. Refusals: NO_HANDLE, WRONG_KIND. */
static inline enum trdp_slot_error trdp_slot_unlisten(struct trdp_slot *slot, uint32_t handle)
{
    return trdp_slot_do_handle(slot, "unlisten", handle);
}

/* Sends one notification; a second try may send a second one. Refusals: STATE, TOO_LONG. */
static inline enum trdp_slot_error trdp_slot_notify(struct trdp_slot *slot,
    const struct trdp_slot_notification *terms)
{
    struct trdp_slot_writer line = trdp_slot_line(slot, "notify");
    trdp_slot_write_number(&line, terms->com_id);
    trdp_slot_write_uri(&line, terms->source_uri);
    trdp_slot_write_uri(&line, terms->destination_uri);
    trdp_slot_write_counters(&line, terms->etb, terms->op_trn);
    trdp_slot_write_place(&line, terms->to);
    trdp_slot_write_bytes(&line, terms->payload, terms->length);
    return trdp_slot_do(slot, &line);
}

/* Sends a request, and makes the caller that waits for its answers, whose handle comes. `replied`
 * reports each answer, `closed` that it is over. A second try is refused SESSION_OPEN if the
 * first one took effect: the handle then comes with `replied` and `closed`.
 * Refusals: STATE, TIMEOUT, EXPECTED, TOO_LONG, SESSION_OPEN, QUOTA, EXHAUSTED, RETRIES. */
static inline enum trdp_slot_error trdp_slot_request(struct trdp_slot *slot,
    const struct trdp_slot_caller *terms, uint32_t *handle)
{
    struct trdp_slot_writer line = trdp_slot_line(slot, "request");
    trdp_slot_write_number(&line, terms->com_id);
    trdp_slot_write_session(&line, terms->session);
    trdp_slot_write_number(&line, terms->expected);
    trdp_slot_write_number(&line, terms->time);
    trdp_slot_write_uri(&line, terms->source_uri);
    trdp_slot_write_uri(&line, terms->destination_uri);
    trdp_slot_write_counters(&line, terms->etb, terms->op_trn);
    trdp_slot_write_place(&line, terms->to);
    trdp_slot_write_bytes(&line, terms->payload, terms->length);
    if (terms->retries > 0)
        trdp_slot_write_number(&line, terms->retries);
    return trdp_slot_make(slot, &line, handle);
}

/* Sends the reply of a replier, which is over then; the status is 0 or more. A second try may be
 * refused NO_HANDLE. Refusals: NO_HANDLE, WRONG_KIND, STATE, STATUS, TOO_LONG. */
static inline enum trdp_slot_error trdp_slot_reply(struct trdp_slot *slot, uint32_t handle,
    uint32_t com_id, int32_t status, const uint8_t *payload, size_t length)
{
    struct trdp_slot_writer line = trdp_slot_answer_line(slot, "reply", handle, com_id,
        status);
    trdp_slot_write_bytes(&line, payload, length);
    return trdp_slot_do(slot, &line);
}

/* Sends a reply that is to be confirmed, and lets the replier wait for that: `time` in
 * microseconds, 1000 or more; `confirmed` or `closed` says how it ends. A second try may be
 * refused STATE. Refusals: NO_HANDLE, WRONG_KIND, STATE, TIMEOUT, STATUS, TOO_LONG. */
static inline enum trdp_slot_error trdp_slot_query(struct trdp_slot *slot, uint32_t handle,
    uint32_t com_id, int32_t status, uint32_t time, const uint8_t *payload, size_t length)
{
    struct trdp_slot_writer line = trdp_slot_answer_line(slot, "query", handle, com_id,
        status);
    trdp_slot_write_number(&line, time);
    trdp_slot_write_bytes(&line, payload, length);
    return trdp_slot_do(slot, &line);
}

/* Sends an error instead of a reply; the replier is over then, and the status is below 0. A
 * second try may be refused NO_HANDLE. Refusals: NO_HANDLE, WRONG_KIND, STATE, STATUS. */
static inline enum trdp_slot_error trdp_slot_replyerror(struct trdp_slot *slot, uint32_t handle,
    uint32_t com_id, int32_t status)
{
    struct trdp_slot_writer line = trdp_slot_answer_line(slot, "replyerror", handle, com_id,
        status);
    return trdp_slot_do(slot, &line);
}

/* Confirms the query that a caller has from a place; the status is 0 or more. A second try may be
 * refused STATE, or NO_HANDLE if the caller is over. Refusals: NO_HANDLE, WRONG_KIND, STATE,
 * STATUS. */
static inline enum trdp_slot_error trdp_slot_confirm(struct trdp_slot *slot, uint32_t handle,
    struct trdp_slot_place place, int32_t status)
{
    struct trdp_slot_writer line = trdp_slot_line_of(slot, "confirm", handle);
    trdp_slot_write_place(&line, place);
    trdp_slot_write_status(&line, status);
    return trdp_slot_do(slot, &line);
}

/* Ends a caller or a replier, and sends nothing. A second try may be refused NO_HANDLE.
 * Refusals: NO_HANDLE, WRONG_KIND. */
static inline enum trdp_slot_error trdp_slot_abort(struct trdp_slot *slot, uint32_t handle)
{
    return trdp_slot_do_handle(slot, "abort", handle);
}

/* Resets the slot: all its objects end at once, those of an earlier program too, and no handle is
 * given out again. Nothing is sent to the network. A program that makes objects calls it first;
 * one that only looks doesn't. It is never refused, and a second try does no harm.
 *
 * A mark goes after each try. OK says that the mark after the latest one was answered, so that
 * none is under way that would end what is made from then on. Behind TIMEOUT every later call first
 * has a mark answered. */
static inline enum trdp_slot_error trdp_slot_reset(struct trdp_slot *slot)
{
    struct trdp_slot_writer line = trdp_slot_line(slot, "reset");
    slot->tried = 0;
    if (!trdp_slot_is_open(slot))
        return TRDP_SLOT_ARGUMENT;
    enum trdp_slot_error error = trdp_slot_prepare(slot);
    bool is_done = false;
    while (error == TRDP_SLOT_OK && !is_done && slot->tried < trdp_slot_tries(slot)) {
        int64_t until = trdp_slot_deadline(slot);
        error = trdp_slot_try(slot, &line, until);
        if (error != TRDP_SLOT_OK)
            return error;
        slot->is_unsure = true;
        error = trdp_slot_send_mark(slot, until);
        if (error == TRDP_SLOT_OK)
            error = trdp_slot_hear_mark(slot, until, TRDP_SLOT_FORM_DONE, &is_done);
        if (error == TRDP_SLOT_TIMEOUT) {
            is_done = false; /* whose mark isn't answered */
            if (slot->tried < trdp_slot_tries(slot))
                error = TRDP_SLOT_OK;
        }
    }
    return error == TRDP_SLOT_OK && !is_done ? TRDP_SLOT_TIMEOUT
        : trdp_slot_after_tries(slot, error);
}

/* ---- The operator ----
 *
 * The calls below are of a slot that was opened at the operator's port, or at its path, whatever
 * its `number`. At a control socket four operators may be connected at once, and a fifth one is
 * BUSY. They come to the same errors as the others but OPERATORS_PORT, to FAULT_UNKNOWN at the
 * control port of a slot, and to what is named. */

/* A line of the operator. */
static inline struct trdp_slot_writer trdp_slot_operator_line(struct trdp_slot *slot,
    const char *word)
{
    struct trdp_slot_writer writer = trdp_slot_line(slot, word);
    slot->is_operator = true;
    return writer;
}

/* Has an operator's line done. */
static inline enum trdp_slot_error trdp_slot_operate(struct trdp_slot *slot,
    const struct trdp_slot_writer *line)
{
    struct trdp_slot_said said;
    return trdp_slot_call(slot, line, TRDP_SLOT_FORM_OK, &said);
}

/* The train's network has these topology counters from now on. A second try does no harm. */
static inline enum trdp_slot_error trdp_slot_topology(struct trdp_slot *slot, uint32_t etb,
    uint32_t op_trn)
{
    struct trdp_slot_writer line = trdp_slot_operator_line(slot, "topology");
    trdp_slot_write_counters(&line, etb, op_trn);
    return trdp_slot_operate(slot, &line);
}

/* The node leads that redundancy group, 1 to 255, from now on, or follows in it. A second try does
 * no harm. Errors: NODE_NO_GROUP for 0. */
static inline enum trdp_slot_error trdp_slot_role(struct trdp_slot *slot, uint8_t group,
    bool is_leader)
{
    struct trdp_slot_writer line = trdp_slot_operator_line(slot, "role");
    trdp_slot_write_number(&line, group);
    trdp_slot_write_text(&line, is_leader ? " leader" : " follower");
    return trdp_slot_operate(slot, &line);
}

/* Opens the next slot, for that many objects of each kind, 0 to 256. A second try may open a second
 * one. Errors: NODE_SLOTS_FULL; FAULT_BAD_WORD for more than 256. */
static inline enum trdp_slot_error trdp_slot_addslot(struct trdp_slot *slot,
    const struct trdp_slot_kinds *quotas)
{
    struct trdp_slot_writer line = trdp_slot_operator_line(slot, "addslot");
    trdp_slot_write_number(&line, quotas->publishers);
    trdp_slot_write_number(&line, quotas->subscriptions);
    trdp_slot_write_number(&line, quotas->requesters);
    trdp_slot_write_number(&line, quotas->listeners);
    trdp_slot_write_number(&line, quotas->callers);
    trdp_slot_write_number(&line, quotas->repliers);
    return trdp_slot_operate(slot, &line);
}

/* What the daemon has counted since it began, this line with it. */
static inline enum trdp_slot_error trdp_slot_totals(struct trdp_slot *slot,
    struct trdp_slot_tally *totals)
{
    struct trdp_slot_said said;
    struct trdp_slot_writer line = trdp_slot_operator_line(slot, "totals");
    enum trdp_slot_error error = trdp_slot_call(slot, &line, TRDP_SLOT_FORM_TOTALS, &said);
    if (error == TRDP_SLOT_OK)
        *totals = said.totals;
    return error;
}

/* Takes the lines of slots in a text after those that are there. */
static inline void trdp_slot_take_usages(const struct trdp_slot_piece *piece,
    struct trdp_slot_usage *usages, size_t room, size_t *count)
{
    struct trdp_slot_reader reader = { piece->text, piece->text + piece->length, false };
    while (reader.at != reader.end) {
        struct trdp_slot_usage usage;
        trdp_slot_read_usage(&reader, &usage);
        trdp_slot_expect(&reader, "\n");
        if (*count < room)
            usages[*count] = usage;
        ++*count;
    }
}

/* Takes the lines of slots of a connection, which end with the answer to a mark after them. */
static inline enum trdp_slot_error trdp_slot_hear_usages(struct trdp_slot *slot,
    struct trdp_slot_usage *usages, size_t room, size_t *count)
{
    int64_t until = trdp_slot_deadline(slot);
    slot->is_unsure = true;
    enum trdp_slot_error error = trdp_slot_send_mark(slot, until);
    while (error == TRDP_SLOT_OK) {
        struct trdp_slot_piece piece;
        struct trdp_slot_said said;
        error = trdp_slot_await_said(slot, until, &said, &piece);
        if (error != TRDP_SLOT_OK)
            break;
        if (said.form == TRDP_SLOT_FORM_USAGES) {
            trdp_slot_take_usages(&piece, usages, room, count);
        } else if (!trdp_slot_is_line_fault(&said)) {
            trdp_slot_put_aside(slot, &said, &piece);
        } else if (trdp_slot_takes_mark(slot, said.error)) {
            break;
        }
    }
    return error;
}

/* What each slot has and may have at most, slots rising: as many as there are come to `count`, and
 * the first of them to `usages`, which has room for that many; TRDP_SLOT_SLOTS is always enough.
 * CUT if they are more. It changes nothing, so that this is how one looks at a daemon whose
 * applications are at control sockets. */
static inline enum trdp_slot_error trdp_slot_slots(struct trdp_slot *slot,
    struct trdp_slot_usage *usages, size_t room, size_t *count)
{
    struct trdp_slot_said said;
    struct trdp_slot_piece piece;
    struct trdp_slot_writer line = trdp_slot_operator_line(slot, "slots");
    enum trdp_slot_error error = trdp_slot_ask(slot, &line, TRDP_SLOT_FORM_USAGES, &said, &piece);
    if (error != TRDP_SLOT_OK)
        return error;
    *count = 0;
    trdp_slot_take_usages(&piece, usages, room, count);
    if (trdp_slot_has_path(slot))
        error = trdp_slot_hear_usages(slot, usages, room, count);
    return error == TRDP_SLOT_OK && *count > room ? TRDP_SLOT_CUT : error;
}

/* ---- Indications ---- */

/* Hands an indication over, with its payload in the caller's bytes; or how many were lost. */
static inline enum trdp_slot_error trdp_slot_tell(const struct trdp_slot_said *said,
    struct trdp_slot_indication *told, uint8_t *bytes, size_t room)
{
    *told = said->told;
    told->payload = bytes;
    return said->form == TRDP_SLOT_FORM_LOST ? TRDP_SLOT_LOST
        : trdp_slot_decode(said->digits, bytes, room);
}

/* Takes the first indication out of those that are kept. */
static inline enum trdp_slot_error trdp_slot_tell_kept(struct trdp_slot *slot,
    struct trdp_slot_indication *told, uint8_t *bytes, size_t room)
{
    uint32_t size;
    struct trdp_slot_said said;
    uint8_t *kept = slot->terms.kept;
    memcpy(&size, kept, sizeof size);
    trdp_slot_read(slot->terms.number, (const char *)kept + sizeof size, size, &said);
    enum trdp_slot_error error = trdp_slot_tell(&said, told, bytes, room);
    slot->kept_length -= sizeof size + size;
    memmove(kept, kept + sizeof size + size, slot->kept_length);
    return error;
}

/* Reports how many indications were lost, and counts from 0 again. */
static inline enum trdp_slot_error trdp_slot_tell_lost(struct trdp_slot *slot,
    struct trdp_slot_indication *told)
{
    memset(told, 0, sizeof *told);
    told->lost = slot->lost;
    slot->lost = 0;
    return TRDP_SLOT_LOST;
}

/* Takes the next indication: one that was kept, or the first that comes within `wait`
 * milliseconds, 0 to look only. Its payload comes to `bytes`, which has so much room.
 *
 * CUT if the payload is longer: all else is there, `length` is that of the whole payload, and
 * its first bytes are there; the rest is gone. LOST if texts were lost: `lost` says how many,
 * and there may be answers among them. What this header or the system dropped is reported before
 * those that are kept; what the daemon dropped at a control socket, in its place. TIMEOUT if
 * none came; NOBODY if the latest line found no one at the control port; SYSTEM; ARGUMENT for a
 * slot that isn't open.
 *
 * At a control socket RESTARTED if the connection has ended. The next call of this connects
 * again within its wait, without one at most once in TRDP_SLOT_PAUSE milliseconds, and answers
 * NOBODY, SYSTEM or BUSY if it couldn't. After a call that returned OTHER_SLOT or OPERATORS_PORT
 * it doesn't connect again, and returns the same after its wait.
 *
 * A program that polls `socket` itself calls this with a wait of 0 before, until it answers
 * TIMEOUT: what is kept, and what has come with another line, isn't at the socket any more. */
static inline enum trdp_slot_error trdp_slot_next(struct trdp_slot *slot, uint32_t wait,
    struct trdp_slot_indication *told, uint8_t *bytes, size_t room)
{
    int64_t until = trdp_slot_now() + wait;
    memset(told, 0, sizeof *told);
    if (!trdp_slot_is_open(slot))
        return TRDP_SLOT_ARGUMENT;
    (void)trdp_slot_stay(slot);
    if (slot->lost > 0)
        return trdp_slot_tell_lost(slot, told);
    if (slot->kept_length > 0)
        return trdp_slot_tell_kept(slot, told, bytes, room);
    do {
        struct trdp_slot_piece piece;
        struct trdp_slot_said said;
        enum trdp_slot_error error = trdp_slot_connect_by(slot, until);
        if (error == TRDP_SLOT_OK)
            error = trdp_slot_await_said(slot, until, &said, &piece);
        if (error == TRDP_SLOT_TIMEOUT)
            break;
        if (error != TRDP_SLOT_OK)
            return error;
        if (said.form == TRDP_SLOT_FORM_LOST)
            slot->marks = 0; /* the answer to one may be lost */
        if (said.form == TRDP_SLOT_FORM_INDICATION || said.form == TRDP_SLOT_FORM_LOST)
            return trdp_slot_tell(&said, told, bytes, room);
        trdp_slot_put_aside(slot, &said, &piece);
    } while (trdp_slot_now() < until);
    return slot->lost > 0 ? trdp_slot_tell_lost(slot, told) : TRDP_SLOT_TIMEOUT;
}

/* ---- Values of datasets ----
 *
 * A program writes a dataset of the configuration down once, as constants, over a struct of its own
 * with a member for each element, or has `trdp-structs` write both:
 *
 *     struct status {
 *         uint8_t count;
 *         uint8_t states[8];
 *         uint16_t obstacles;
 *     };
 *     static const struct trdp_slot_element status_elements[] = {
 *         TRDP_SLOT_ONE(struct status, count, TRDP_SLOT_UINT8),
 *         TRDP_SLOT_COUNTED(struct status, states, TRDP_SLOT_UINT8),
 *         TRDP_SLOT_ONE(struct status, obstacles, TRDP_SLOT_UINT16) };
 *     static const struct trdp_slot_dataset status_dataset =
 *         TRDP_SLOT_DATASET(struct status, status_elements);
 *
 * The member of an array is an array. That of one that the element before counts has room for as
 * many items as the program can take; there `count` says how many are in it. A value of another
 * dataset is a struct of that one's. So all memory is the program's, and nothing is allocated.
 *
 * Datasets nest 5 deep at most, the outermost one with them, and have 1 to 256 elements each. A
 * value of process data has at most TRDP_SLOT_VALUE bytes, one of a message TRDP_SLOT_MESSAGE. */

/* The types of elements, by the standard's numbers, with the type of the member. */
enum trdp_slot_type {
    TRDP_SLOT_NESTED = 0, /* a value of another dataset: its struct */
    TRDP_SLOT_BOOL8 = 1,  /* uint8_t; BITSET8 too */
    TRDP_SLOT_CHAR8 = 2,  /* uint8_t or char */
    TRDP_SLOT_UTF16 = 3,  /* uint16_t */
    TRDP_SLOT_INT8 = 4,   /* int8_t, and so on */
    TRDP_SLOT_INT16 = 5,
    TRDP_SLOT_INT32 = 6,
    TRDP_SLOT_INT64 = 7,
    TRDP_SLOT_UINT8 = 8,
    TRDP_SLOT_UINT16 = 9,
    TRDP_SLOT_UINT32 = 10,
    TRDP_SLOT_UINT64 = 11,
    TRDP_SLOT_REAL32 = 12,     /* float: a UINT32 of the configuration, `as = "REAL32"` */
    TRDP_SLOT_REAL64 = 13,     /* double: a UINT64 of the configuration, `as = "REAL64"` */
    TRDP_SLOT_TIMEDATE32 = 14, /* uint32_t, in seconds */
    TRDP_SLOT_TIMEDATE48 = 15, /* struct trdp_slot_timedate48 */
    TRDP_SLOT_TIMEDATE64 = 16  /* struct trdp_slot_timedate64 */
};

struct trdp_slot_timedate48 {
    uint32_t seconds;
    uint16_t ticks; /* of 1/65536 second */
};

struct trdp_slot_timedate64 {
    uint32_t seconds;
    uint32_t microseconds;
};

enum { TRDP_SLOT_DEPTH = 5, TRDP_SLOT_ELEMENTS = 256 };

struct trdp_slot_dataset;

/* An element of a dataset, and the member that holds it. The macros below make one. */
struct trdp_slot_element {
    enum trdp_slot_type type;
    uint32_t size; /* 1: one; more: an array of that many; 0: of as many as the one before says */
    size_t offset; /* of the member in its struct */
    size_t item;   /* the bytes of an item of the member */
    size_t room;   /* how many items the member has room for */
    const struct trdp_slot_dataset *dataset; /* of TRDP_SLOT_NESTED */
};

/* A dataset, and the struct that holds its values. */
struct trdp_slot_dataset {
    const struct trdp_slot_element *elements;
    size_t count; /* of the elements */
    size_t size;  /* of the struct */
};

#define TRDP_SLOT_ROOM(in, member) (sizeof(((in *)0)->member) / sizeof(((in *)0)->member[0]))
#define TRDP_SLOT_MANY(in, member, type, size, dataset) \
    { type, size, offsetof(in, member), sizeof(((in *)0)->member[0]), TRDP_SLOT_ROOM(in, member), \
        dataset }

/* An element of a basic type: one item, an array of as many as the member has, and an array of as
 * many as the element before says. */
#define TRDP_SLOT_ONE(in, member, type) \
    { type, 1, offsetof(in, member), sizeof(((in *)0)->member), 1, NULL }
#define TRDP_SLOT_ARRAY(in, member, type) \
    TRDP_SLOT_MANY(in, member, type, (uint32_t)TRDP_SLOT_ROOM(in, member), NULL)
#define TRDP_SLOT_COUNTED(in, member, type) TRDP_SLOT_MANY(in, member, type, 0, NULL)

/* The same of another dataset, by its address. */
#define TRDP_SLOT_NESTED_ONE(in, member, dataset) \
    { TRDP_SLOT_NESTED, 1, offsetof(in, member), sizeof(((in *)0)->member), 1, dataset }
#define TRDP_SLOT_NESTED_ARRAY(in, member, dataset) \
    TRDP_SLOT_MANY(in, member, TRDP_SLOT_NESTED, (uint32_t)TRDP_SLOT_ROOM(in, member), dataset)
#define TRDP_SLOT_NESTED_COUNTED(in, member, dataset) \
    TRDP_SLOT_MANY(in, member, TRDP_SLOT_NESTED, 0, dataset)

/* A dataset of an array of these. */
#define TRDP_SLOT_DATASET(in, elements) \
    { elements, sizeof(elements) / sizeof((elements)[0]), sizeof(in) }

/* How many bytes a number of that type has; 0 for what is none. */
static inline size_t trdp_slot_width(enum trdp_slot_type type)
{
    switch (type) {
    case TRDP_SLOT_BOOL8:
    case TRDP_SLOT_CHAR8:
    case TRDP_SLOT_INT8:
    case TRDP_SLOT_UINT8:
        return 1;
    case TRDP_SLOT_UTF16:
    case TRDP_SLOT_INT16:
    case TRDP_SLOT_UINT16:
        return 2;
    case TRDP_SLOT_INT32:
    case TRDP_SLOT_UINT32:
    case TRDP_SLOT_REAL32:
    case TRDP_SLOT_TIMEDATE32:
        return 4;
    case TRDP_SLOT_INT64:
    case TRDP_SLOT_UINT64:
    case TRDP_SLOT_REAL64:
        return 8;
    case TRDP_SLOT_NESTED:
    case TRDP_SLOT_TIMEDATE48:
    case TRDP_SLOT_TIMEDATE64:
        break;
    }
    return 0;
}

/* How many bytes an item of the member has to have; 0 where there is no such type. */
static inline size_t trdp_slot_item(const struct trdp_slot_element *element)
{
    return element->type == TRDP_SLOT_TIMEDATE48 ? sizeof(struct trdp_slot_timedate48)
        : element->type == TRDP_SLOT_TIMEDATE64 ? sizeof(struct trdp_slot_timedate64)
        : element->type != TRDP_SLOT_NESTED ? trdp_slot_width(element->type)
        : element->dataset != NULL ? element->dataset->size : 0;
}

/* Whether an element counts the array after it. */
static inline bool trdp_slot_counts_array(const struct trdp_slot_element *element)
{
    return element->size == 1 && (element->type == TRDP_SLOT_UINT8
        || element->type == TRDP_SLOT_UINT16 || element->type == TRDP_SLOT_UINT32);
}

/* Whether a dataset is one that values can be of, nested so deep at most. */
static inline bool trdp_slot_is_dataset(const struct trdp_slot_dataset *dataset, int depth)
{
    bool counts = false;
    if (depth == 0 || dataset->elements == NULL || dataset->count == 0
        || dataset->count > TRDP_SLOT_ELEMENTS)
        return false;
    for (size_t i = 0; i < dataset->count; i++) {
        const struct trdp_slot_element *element = &dataset->elements[i];
        size_t item = trdp_slot_item(element);
        if (item == 0 || element->item != item || element->size > element->room
            || (element->size == 0 && !counts) || element->offset > dataset->size
            || element->room > (dataset->size - element->offset) / item
            || (element->type == TRDP_SLOT_NESTED
                && !trdp_slot_is_dataset(element->dataset, depth - 1)))
            return false;
        counts = trdp_slot_counts_array(element);
    }
    return true;
}

/* The number that is in a member of that many bytes. */
static inline uint64_t trdp_slot_load(const uint8_t *member, size_t width)
{
    uint16_t two;
    uint32_t four;
    uint64_t eight;
    switch (width) {
    case 1:
        return *member;
    case 2:
        memcpy(&two, member, sizeof two);
        return two;
    case 4:
        memcpy(&four, member, sizeof four);
        return four;
    default:
        memcpy(&eight, member, sizeof eight);
        return eight;
    }
}

/* Puts a number into a member of that many bytes. */
static inline void trdp_slot_store(uint8_t *member, size_t width, uint64_t number)
{
    uint16_t two = (uint16_t)number;
    uint32_t four = (uint32_t)number;
    switch (width) {
    case 1:
        *member = (uint8_t)number;
        break;
    case 2:
        memcpy(member, &two, sizeof two);
        break;
    case 4:
        memcpy(member, &four, sizeof four);
        break;
    default:
        memcpy(member, &number, sizeof number);
    }
}

/* Bytes that are written; `length` counts those too for which there is no room. */
struct trdp_slot_packer {
    uint8_t *bytes;
    size_t room;
    size_t length;
};

/* Appends a number, with the highest byte first. */
static inline void trdp_slot_pack_number(struct trdp_slot_packer *packer, uint64_t number,
    size_t width)
{
    for (size_t i = width; i-- > 0; packer->length++)
        if (packer->length < packer->room)
            packer->bytes[packer->length] = (uint8_t)(number >> (8 * i) & 255);
}

/* Appends the item of a basic type. */
static inline void trdp_slot_pack_item(struct trdp_slot_packer *packer, enum trdp_slot_type type,
    const uint8_t *member)
{
    if (type == TRDP_SLOT_TIMEDATE48) {
        struct trdp_slot_timedate48 time;
        memcpy(&time, member, sizeof time);
        trdp_slot_pack_number(packer, time.seconds, 4);
        trdp_slot_pack_number(packer, time.ticks, 2);
    } else if (type == TRDP_SLOT_TIMEDATE64) {
        struct trdp_slot_timedate64 time;
        memcpy(&time, member, sizeof time);
        trdp_slot_pack_number(packer, time.seconds, 4);
        trdp_slot_pack_number(packer, time.microseconds, 4);
    } else {
        size_t width = trdp_slot_width(type);
        trdp_slot_pack_number(packer, trdp_slot_load(member, width), width);
    }
}

/* Appends a value. Answers whether each counted array has room for that many items. */
static inline bool trdp_slot_pack_value(struct trdp_slot_packer *packer,
    const struct trdp_slot_dataset *dataset, const uint8_t *value)
{
    uint64_t counted = 0;
    for (size_t i = 0; i < dataset->count; i++) {
        const struct trdp_slot_element *element = &dataset->elements[i];
        const uint8_t *member = value + element->offset;
        uint64_t items = element->size > 0 ? element->size : counted;
        if (items > element->room)
            return false;
        for (uint64_t item = 0; item < items; item++) {
            const uint8_t *at = member + item * element->item;
            if (element->type != TRDP_SLOT_NESTED)
                trdp_slot_pack_item(packer, element->type, at);
            else if (!trdp_slot_pack_value(packer, element->dataset, at))
                return false;
        }
        counted = trdp_slot_counts_array(element) ? trdp_slot_load(member, element->item) : 0;
    }
    return true;
}

/* Makes the bytes of a value, which is a struct of this dataset, as the node has them: packed, with
 * the highest byte first. They come to `bytes`, which has so much room, and how many they are to
 * `length`.
 * Errors: CUT if they are more: `length` is how many, and the first of them are there. NO_FIT
 * if a count is more than its array has room for. ARGUMENT if the dataset isn't one, as for a
 * member of another width than its type. */
static inline enum trdp_slot_error trdp_slot_pack(const struct trdp_slot_dataset *dataset,
    const void *value, uint8_t *bytes, size_t room, size_t *length)
{
    struct trdp_slot_packer packer = { bytes, room, 0 };
    if (!trdp_slot_is_dataset(dataset, TRDP_SLOT_DEPTH))
        return TRDP_SLOT_ARGUMENT;
    if (!trdp_slot_pack_value(&packer, dataset, (const uint8_t *)value))
        return TRDP_SLOT_NO_FIT;
    *length = packer.length;
    return packer.length > room ? TRDP_SLOT_CUT : TRDP_SLOT_OK;
}

/* Bytes that are read. */
struct trdp_slot_unpacker {
    const uint8_t *at;
    size_t left;
    bool is_short; /* they were too few */
    bool is_cut;   /* an array has more items than its member has room for */
};

/* The next number. */
static inline uint64_t trdp_slot_unpack_number(struct trdp_slot_unpacker *unpacker, size_t width)
{
    uint64_t number = 0;
    if (unpacker->left < width) {
        unpacker->is_short = true;
        return 0;
    }
    for (size_t i = 0; i < width; i++)
        number = number << 8 | *unpacker->at++;
    unpacker->left -= width;
    return number;
}

/* The item of a basic type, which comes to a member where there is one. Answers the number. */
static inline uint64_t trdp_slot_unpack_item(struct trdp_slot_unpacker *unpacker,
    enum trdp_slot_type type, uint8_t *member)
{
    size_t width = trdp_slot_width(type);
    if (width > 0) {
        uint64_t number = trdp_slot_unpack_number(unpacker, width);
        if (member != NULL)
            trdp_slot_store(member, width, number);
        return number;
    }
    uint32_t seconds = (uint32_t)trdp_slot_unpack_number(unpacker, 4);
    if (type == TRDP_SLOT_TIMEDATE48) {
        struct trdp_slot_timedate48 time;
        memset(&time, 0, sizeof time);
        time.seconds = seconds;
        time.ticks = (uint16_t)trdp_slot_unpack_number(unpacker, 2);
        if (member != NULL)
            memcpy(member, &time, sizeof time);
    } else {
        struct trdp_slot_timedate64 time = { seconds,
            (uint32_t)trdp_slot_unpack_number(unpacker, 4) };
        if (member != NULL)
            memcpy(member, &time, sizeof time);
    }
    return 0;
}

/* A value, which comes to a struct where there is one. Each item has a byte at least, so that this
 * ends where the bytes do. */
static inline void trdp_slot_unpack_value(struct trdp_slot_unpacker *unpacker,
    const struct trdp_slot_dataset *dataset, uint8_t *value)
{
    uint64_t counted = 0;
    for (size_t i = 0; i < dataset->count && !unpacker->is_short; i++) {
        const struct trdp_slot_element *element = &dataset->elements[i];
        uint64_t items = element->size > 0 ? element->size : counted;
        uint64_t number = 0;
        unpacker->is_cut = unpacker->is_cut || items > element->room;
        for (uint64_t item = 0; item < items && !unpacker->is_short; item++) {
            uint8_t *at = value != NULL && item < element->room
                ? value + element->offset + item * element->item : NULL;
            if (element->type == TRDP_SLOT_NESTED)
                trdp_slot_unpack_value(unpacker, element->dataset, at);
            else
                number = trdp_slot_unpack_item(unpacker, element->type, at);
        }
        counted = trdp_slot_counts_array(element) ? number : 0;
    }
}

/* Makes a value, which is a struct of this dataset, of its bytes.
 * Errors: NO_FIT if they are none: too few, or some are left over. CUT if they are one, but
 * an array has more items than its member has room for. ARGUMENT if the dataset isn't one. All
 * bytes of the struct are zero then; only ARGUMENT leaves it as it is. */
static inline enum trdp_slot_error trdp_slot_unpack(const struct trdp_slot_dataset *dataset,
    const uint8_t *bytes, size_t length, void *value)
{
    struct trdp_slot_unpacker unpacker = { bytes, length, false, false };
    if (!trdp_slot_is_dataset(dataset, TRDP_SLOT_DEPTH))
        return TRDP_SLOT_ARGUMENT;
    memset(value, 0, dataset->size);
    trdp_slot_unpack_value(&unpacker, dataset, (uint8_t *)value);
    enum trdp_slot_error error = unpacker.is_short || unpacker.left > 0 ? TRDP_SLOT_NO_FIT
        : unpacker.is_cut ? TRDP_SLOT_CUT : TRDP_SLOT_OK;
    if (error != TRDP_SLOT_OK)
        memset(value, 0, dataset->size);
    return error;
}

/* Gives a publisher its value, which is a struct of this dataset. Its bytes are on the stack
 * meanwhile, TRDP_SLOT_VALUE of them. Errors: those of trdp_slot_pack, by which nothing is sent,
 * and of trdp_slot_put. */
static inline enum trdp_slot_error trdp_slot_put_value(struct trdp_slot *slot, uint32_t handle,
    const struct trdp_slot_dataset *dataset, const void *value)
{
    uint8_t bytes[TRDP_SLOT_VALUE];
    size_t length = 0;
    enum trdp_slot_error error = trdp_slot_pack(dataset, value, bytes, sizeof bytes, &length);
    return error != TRDP_SLOT_OK ? error : trdp_slot_put(slot, handle, bytes, length);
}

/* Looks at a subscription: how good its value is comes to `shown`, and the value to a struct of
 * this dataset. Its bytes are on the stack meanwhile, TRDP_SLOT_VALUE of them. Errors: those of
 * trdp_slot_get, and of trdp_slot_unpack. */
static inline enum trdp_slot_error trdp_slot_get_value(struct trdp_slot *slot, uint32_t handle,
    struct trdp_slot_value *shown, const struct trdp_slot_dataset *dataset, void *value)
{
    uint8_t bytes[TRDP_SLOT_VALUE];
    enum trdp_slot_error error = trdp_slot_get(slot, handle, shown, bytes, sizeof bytes);
    return error != TRDP_SLOT_OK ? error : trdp_slot_unpack(dataset, bytes, shown->length, value);
}

#endif
