/* Random lines and events, and random bytes as lines and as configuration.
 *
 *     chance COUNT SEED              tries COUNT of each
 *     chance --script COUNT SEED     prints a script of that many lines without a fault
 *
 * Each line that can be read is also handed to a second node in numbers, whose records have the same text. */
#include "draw.h"

static const char config[] =
    "[node]\naddress = \"10.0.0.1\"\ngroups = [\"239.192.0.1\"]\n"
    "[[slot]]\npublishers = 4\nsubscriptions = 4\nrequesters = 2\nlisteners = 3\ncallers = 4\nrepliers = 3\n"
    "[[slot]]\npublishers = 4\nsubscriptions = 4\nrequesters = 2\nlisteners = 3\ncallers = 4\nrepliers = 3\n"
    "[[dataset]]\nid = 1001\nelement = [{ type = \"UINT8\" }, { type = \"UINT16\", size = 0 }]\n"
    "[[dataset]]\nid = 1002\nelement = [{ type = \"INT16\" }, { type = 15 }, { type = 1001 }]\n";
static struct event event;
static struct words words;

static void open_node(struct trdp_node *node)
{
    struct trdp_node_fault fault;
    if (trdp_node_open(node, config, sizeof config - 1, &fault) != TRDP_NODE_OK) stop(fault.text);
}

/* Whether the status says that a line has no event. */
static int is_line_fault(enum trdp_node_status status)
{
    return status >= TRDP_NODE_LINE_TOO_LONG && status <= TRDP_NODE_LINE_BAD_WORD;
}

/* Hands the event of a line to another node in numbers, and compares the texts. */
static void compare(struct trdp_node *node, const struct text *line, const struct trdp_node_text *wanted, struct text *found)
{
    struct trdp_node_done done;
    found->length = 0;
    if (!read_line(&event, &words, line->at, line->length)) stop("a line without an event");
    if (trdp_node_step(node, &event.numbers, event.bytes, event.length, &done) != wanted->status) stop("another status");
    put_done(found, node, &done);
    if (found->length != wanted->length || memcmp(found->at, wanted->text, found->length)) stop("another text");
}

/* Lines that mostly can be read. Prints how many records they came to. */
static void try_lines(struct draw *draw, unsigned long count)
{
    struct trdp_node node = TRDP_NODE_NONE, other = TRDP_NODE_NONE;
    struct text line = new_text(), found = new_text();
    struct trdp_node_text text;
    unsigned long faults = 0, rejected = 0, records = 0;
    open_node(&node);
    open_node(&other);
    for (unsigned long i = 0; i < count; i++) {
        enum trdp_node_status status;
        line.length = 0;
        draw_line(draw, &line);
        status = trdp_node_line(&node, line.at, line.length, &text);
        if (is_line_fault(status)) faults++;
        if (status != TRDP_NODE_OK) rejected++;
        records += text.records;
        note_handles(draw, &node);
        if (!is_line_fault(status)) compare(&other, &line, &text, &found);
        else if (text.length || text.records) stop("a line with a fault has a text");
    }
    printf("chance: %lu lines, %lu with a fault, %lu rejected, %lu records\n", count, faults, rejected - faults, records);
    trdp_node_close(&node);
    trdp_node_close(&other);
    free(line.at);
    free(found.at);
}

/* Structs of random bytes. */
static void try_events(struct draw *draw, unsigned long count)
{
    struct trdp_node node = TRDP_NODE_NONE;
    struct text found = new_text();
    struct trdp_node_text text;
    struct trdp_node_done done;
    unsigned long taken = 0;
    open_node(&node);
    for (unsigned long i = 0; i < count; i++) {
        enum trdp_node_status status;
        draw_event(draw, &event);
        status = trdp_node_step(&node, &event.numbers, event.bytes, event.length, &done);
        if (status == TRDP_NODE_OK) taken++;
        if (status != done.status || (status && done.records)) stop("a rejected event has records");
        if (status) continue;
        found.length = 0;
        put_done(&found, &node, &done);
        if (trdp_node_text(&node, &text) != TRDP_NODE_OK) stop("the text isn't there");
        if (text.length != found.length || memcmp(text.text, found.at, found.length)) stop("another text");
    }
    printf("chance: %lu events, %lu taken\n", count, taken);
    if (taken < count / 4 || taken == count) stop("too few events are taken, or all");
    trdp_node_close(&node);
    free(found.at);
}

/* Random bytes: as a line, and in place of some bytes of the configuration. */
static void try_bytes(struct draw *draw, unsigned long count)
{
    struct trdp_node node = TRDP_NODE_NONE, opened;
    struct trdp_node_fault fault;
    struct trdp_node_text text;
    char bytes[sizeof config];
    unsigned long taken = 0;
    open_node(&node);
    for (unsigned long i = 0; i < count; i++) {
        size_t length = draw_below(draw, sizeof bytes);
        enum trdp_node_status status;
        for (size_t j = 0; j < length; j++) bytes[j] = (char)draw_below(draw, 256);
        if (trdp_node_line(&node, bytes, length, &text) == TRDP_NODE_OK && text.records) stop("random bytes are a call");
        if (i & 1) memcpy(bytes, config, length = sizeof config - 1);
        for (uint32_t j = draw_below(draw, 4); i & 1 && j; j--) bytes[draw_below(draw, (uint32_t)length)] = (char)draw_below(draw, 256);
        memset(&opened, 0, sizeof opened);
        status = trdp_node_open(&opened, bytes, length, &fault);
        if (status == TRDP_NODE_OK) taken++;
        if ((status == TRDP_NODE_OK) != (fault.number == 0) || (fault.number && !fault.text[0])) stop("another fault");
        if (fault.text[TRDP_NODE_FAULT_TEXT - 1] || (status && opened.at)) stop("a text without an end, or a node");
        trdp_node_close(&opened);
    }
    printf("chance: %lu configurations, %lu taken\n", count, taken);
    trdp_node_close(&node);
}

/* Prints a script. */
static void print_script(struct draw *draw, unsigned long count)
{
    struct trdp_node node = TRDP_NODE_NONE;
    struct text line = new_text();
    struct trdp_node_text text;
    open_node(&node);
    for (unsigned long i = 0; i < count; line.length = 0) {
        draw_line(draw, &line);
        if (is_line_fault(trdp_node_line(&node, line.at, line.length, &text))) continue;
        note_handles(draw, &node);
        add(&line, "\n", 1);
        fwrite(line.at, 1, line.length, stdout);
        i++;
    }
    trdp_node_close(&node);
    free(line.at);
}

int main(int count, char **arguments)
{
    int is_script = count == 4 && !strcmp(arguments[1], "--script");
    struct draw draw = { 0, 0, 0, { 0, 0 } };
    unsigned long number;
    if (count == 2 && !strcmp(arguments[1], "--config")) return fwrite(config, 1, sizeof config - 1, stdout) == 0;
    if (count != 3 + is_script) return 2;
    number = strtoul(arguments[1 + is_script], NULL, 10);
    draw.state = strtoull(arguments[2 + is_script], NULL, 10);
    if (is_script) {
        print_script(&draw, number);
        return 0;
    }
    try_lines(&draw, number);
    try_events(&draw, number);
    try_bytes(&draw, number / 50);
    printf("chance: 1 passed, 0 failed\n");
    return 0;
}
