/* Plays a script as `trdpd run CONFIG` does, through the library: its output, error stream and status are the same.
 * With -DNUMBERS the events go in as structs, and the records are printed from structs; a second node tells by lines
 * whether a line can be read, and what its text is. */
#include "records.h"

static char config[1 << 22];
static char script[1 << 24];

/* Prints the fault of a line. */
static int end_at(unsigned long number, enum trdp_node_status status)
{
    static const char *const faults[] = { "TooLong", "Unknown", "Count", "BadWord" };
    fflush(stdout);
    if (status < TRDP_NODE_LINE_TOO_LONG || status > TRDP_NODE_LINE_BAD_WORD) {
        fprintf(stderr, "memory fault\n");
        return 4;
    }
    fprintf(stderr, "line %lu fault %s\n", number, faults[status - TRDP_NODE_LINE_TOO_LONG]);
    return 3;
}

/* Whether the status of a line is one of a line without an event. */
static int is_line_fault(enum trdp_node_status status)
{
    return status >= TRDP_NODE_OUT_OF_MEMORY && status != TRDP_NODE_SLOTS_FULL;
}

#ifdef NUMBERS
/* Prints what comes of a line's event in numbers, which has to be the text of the other node. */
static void step(struct trdp_node *node, const char *line, size_t length, const struct trdp_node_text *other)
{
    static struct event event;
    static struct words words;
    static struct text text;
    struct trdp_node_done done;
    if (!text.at) text = new_text();
    text.length = 0;
    if (!read_line(&event, &words, line, length)) return;
    if (trdp_node_step(node, &event.numbers, event.bytes, event.length, &done) != other->status) stop("another status");
    if (done.records != other->records) stop("another number of records");
    put_done(&text, node, &done);
    if (text.length != other->length || memcmp(text.at, other->text, text.length)) stop("another text");
    fwrite(text.at, 1, text.length, stdout);
}
#endif

/* Plays the script. Returns the exit status. */
static int play(struct trdp_node *node, struct trdp_node *other, const char *at, const char *end)
{
    struct trdp_node_text text;
    for (unsigned long number = 1; at < end; number++) {
        const char *next = line_end(at, end);
        size_t length = (size_t)(next - at) - (next[-1] == '\n');
        enum trdp_node_status status;
        /* A return is dropped only before a newline. */
        if (next[-1] == '\n' && length && at[length - 1] == '\r') length--;
        status = trdp_node_line(other, at, length, &text);
        if (is_line_fault(status)) return end_at(number, status);
#ifdef NUMBERS
        step(node, at, length, &text);
#else
        (void)node;
        fwrite(text.text, 1, text.length, stdout);
#endif
        at = next;
    }
    return 0;
}

int main(int count, char **words)
{
    struct trdp_node node = TRDP_NODE_NONE, other = TRDP_NODE_NONE;
    struct trdp_node_fault fault;
    size_t length;
    int status;
    if (count != 3) return 2;
    length = read_file(words[2], config, sizeof config);
    if (trdp_node_open(&node, config, length, &fault) != TRDP_NODE_OK) {
        fprintf(stderr, "%s\n", fault.text);
        return 1;
    }
    if (trdp_node_open(&other, config, length, &fault) != TRDP_NODE_OK) stop("the second node isn't opened");
    length = fread(script, 1, sizeof script, stdin);
    if (length == sizeof script) stop("the script is too long");
    status = play(&node, &other, script, script + length);
    trdp_node_close(&node);
    trdp_node_close(&other);
    return status;
}
