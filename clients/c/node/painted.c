/* Plays a script as `trdpd run CONFIG` does, each call of the library on a painted stack: as a line, and in numbers to
 * a second node.
 *
 *     painted run CONFIG     with the script as its input
 *     painted nested         opens configurations in which tables nest
 *
 * Appends to the file that STACKS names how many bytes of stack a call of each function took at most, with those of the
 * functions for memory that it called. */
#define _GNU_SOURCE
#include "records.h"

#include <pthread.h>

enum { STACK = 1 << 16, DEEP_STACK = 1 << 24, PAINT = 0x5a };
enum kind { NOTHING, OPEN, LINE, STEP, RECORD, TEXT, STATE, CLOSE, KINDS };

static const char *const kind_names[KINDS] = { "", "open", "line", "step", "record", "text", "state", "close" };
static char config[1 << 22], script[1 << 24];
static uint8_t stack[DEEP_STACK] __attribute__((aligned(4096)));
static size_t taken, most[KINDS];

/* What the calls get, and what they write. */
static struct {
    void *node;
    const void *bytes;
    size_t length, index;
    struct event event;
    struct trdp_node_fault fault;
    struct trdp_node_done done;
    struct trdp_node_record record;
    struct trdp_node_text text;
    struct trdp_node_state state;
} of;

__attribute__((noinline)) void nothing(void *it);

void nothing(void *it)
{
    __asm__ volatile("" : : "r"(it) : "memory");
}

/* One call each, as the last thing that it does: so nothing of it stays on the stack. */
static void call_nothing(void) { nothing(of.node); }
static void call_open(void) { trdp_node_raw_open((const uint8_t *)of.bytes, of.length, &of.node, &of.fault); }
static void call_line(void) { trdp_node_raw_line(of.node, (const uint8_t *)of.bytes, of.length, &of.text); }
static void call_step(void) { trdp_node_raw_step(of.node, &of.event.numbers, of.event.bytes, of.event.length, &of.done); }
static void call_record(void) { trdp_node_raw_record(of.node, of.index, &of.record); }
static void call_text(void) { trdp_node_raw_text(of.node, &of.text); }
static void call_state(void) { trdp_node_raw_state(of.node, &of.state); }
static void call_close(void) { trdp_node_raw_close(of.node); }

static void (*const calls[KINDS])(void) = { call_nothing, call_open, call_line, call_step, call_record, call_text,
                                            call_state, call_close };

/* Makes a call, and finds the lowest byte of the stack that isn't as it was painted. */
static void *use_stack(void *it)
{
    uint8_t *low = stack;
    (*(void (**)(void))it)();
    while (*low == PAINT) low++;
    taken = (size_t)((uint8_t *)__builtin_frame_address(0) - low);
    return NULL;
}

/* Makes a call of a kind on a stack of its own, and notes what it took. */
static void call(enum kind kind)
{
    size_t size = kind == OPEN ? DEEP_STACK : STACK;
    void (*function)(void) = calls[kind];
    pthread_attr_t attributes;
    pthread_t thread;
    memset(stack, PAINT, size);
    pthread_attr_init(&attributes);
    pthread_attr_setstack(&attributes, stack, size);
    if (pthread_create(&thread, &attributes, use_stack, &function)) stop("no thread");
    pthread_join(thread, NULL);
    pthread_attr_destroy(&attributes);
    if (taken > most[kind]) most[kind] = taken;
}

static void open_node(const char *from, size_t size)
{
    of.bytes = from;
    of.length = size;
    call(OPEN);
}

/* Plays a line over one node, and in numbers over the other one. Returns whether it can be read. */
static int play_line(void *nodes[2], const char *line, size_t size)
{
    static struct words words;
    of.node = nodes[0];
    of.bytes = line;
    of.length = size;
    call(LINE);
    if (of.text.status >= TRDP_NODE_LINE_TOO_LONG) return 0;
    fwrite(of.text.text, 1, of.text.length, stdout);
    if (!read_line(&of.event, &words, line, size)) return 1;
    of.node = nodes[1];
    call(STEP);
    for (of.index = 0; of.index < of.done.records; of.index++) call(RECORD);
    call(TEXT);
    call(STATE);
    return 1;
}

static int play(size_t config_length, const char *at, const char *end)
{
    static const char *const faults[] = { "TooLong", "Unknown", "Count", "BadWord" };
    void *nodes[2];
    for (int i = 0; i < 2; i++) {
        open_node(config, config_length);
        if (of.fault.number) {
            fprintf(stderr, "%s\n", of.fault.text);
            return 1;
        }
        nodes[i] = of.node;
    }
    for (unsigned long number = 1; at < end; number++) {
        const char *next = line_end(at, end);
        size_t size = (size_t)(next - at) - (next[-1] == '\n');
        if (next[-1] == '\n' && size && at[size - 1] == '\r') size--;
        if (!play_line(nodes, at, size)) {
            fflush(stdout);
            fprintf(stderr, "line %lu fault %s\n", number, faults[of.text.status - TRDP_NODE_LINE_TOO_LONG]);
            return 3;
        }
        at = next;
    }
    for (int i = 0; i < 2; i++) {
        of.node = nodes[i];
        call(CLOSE);
    }
    return 0;
}

/* Opens a configuration with as many tables in tables, each by a key of as many parts. */
static void open_nested(struct text *to, int tables, int parts)
{
    to->length = 0;
    put(to, "[node]\naddress = \"10.0.0.1\"\n[[slot]]\n[other]\nkey = ");
    for (int i = 0; i < tables; i++) {
        put(to, "{ a");
        for (int part = 1; part < parts; part++) put(to, ".a");
        put(to, " = ");
    }
    put(to, "1");
    for (int i = 0; i < tables; i++) put(to, " }");
    open_node(to->at, to->length);
    if (of.fault.number) stop(of.fault.text);
    call(CLOSE);
}

/* Appends what the calls took. */
static void append(const char *prefix)
{
    const char *path = getenv("STACKS");
    FILE *file = path ? fopen(path, "a") : stderr;
    if (!file) stop("STACKS names no file");
    for (int kind = OPEN; kind < KINDS; kind++)
        if (most[kind]) fprintf(file, "%s%s %lu\n", prefix, kind_names[kind], (unsigned long)(most[kind] - most[NOTHING]));
    if (path) fclose(file);
}

int main(int count, char **arguments)
{
    size_t size;
    int status;
    call(NOTHING);
    if (count == 2 && !strcmp(arguments[1], "nested")) {
        struct text to = new_text();
        open_nested(&to, 1, 80);
        append("80-");
        open_nested(&to, 80, 80);
        append("6400-");
        free(to.at);
        return 0;
    }
    if (count != 3) return 2;
    size = fread(script, 1, sizeof script, stdin);
    if (size == sizeof script) stop("the script is too long");
    status = play(read_file(arguments[2], config, sizeof config), script, script + size);
    append("");
    return status;
}
