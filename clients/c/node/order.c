/* Reads the records of an event with many of them, in several slots and in turns: in order, backwards, at random and
 * again after other events. Each has to be the line of the event's text that has its index. */
#include "draw.h"

enum { SLOTS = 4, OBJECTS = 48, SPREAD = 11, RANDOM = 5000 };

static const char config[] = "[node]\naddress = \"10.0.0.1\"\n"
    "[[slot]]\npublishers = 48\n[[slot]]\npublishers = 48\n[[slot]]\npublishers = 48\n[[slot]]\npublishers = 48\n";

static struct trdp_node node = TRDP_NODE_NONE;
/* The text of the latest event, and where each line of it begins and the last one ends. */
static struct text whole;
static size_t starts[SLOTS * OBJECTS + 2], count;

static void step(const struct trdp_node_event *event, const void *bytes, size_t length)
{
    struct trdp_node_done done;
    if (trdp_node_step(&node, event, bytes, length, &done) != TRDP_NODE_OK) stop("an event isn't taken");
}

/* Makes publishers whose cycles differ, so that the slots send in turns. */
static void publish_all(void)
{
    struct trdp_node_event event;
    uint8_t value;
    memset(&event, 0, sizeof event);
    for (event.handle = 1; event.handle <= OBJECTS; event.handle++)
        for (event.slot = 0; event.slot < SLOTS; event.slot++) {
            value = (uint8_t)(event.handle + event.slot);
            event.what = TRDP_NODE_PUBLISH;
            event.com_id = 1000 * event.slot + event.handle;
            event.time = 1000 * (1 + (7 * event.handle + 5 * event.slot) % SPREAD);
            step(&event, NULL, 0);
            event.what = TRDP_NODE_PUT;
            step(&event, &value, 1);
        }
}

/* Lets time come to a moment, and keeps the text of its records. */
static void come_to(uint64_t moment)
{
    struct trdp_node_event event;
    struct trdp_node_text text;
    memset(&event, 0, sizeof event);
    event.what = TRDP_NODE_MOMENT;
    event.moment = moment;
    step(&event, NULL, 0);
    if (trdp_node_text(&node, &text) != TRDP_NODE_OK) stop("there is no text");
    whole.length = 0;
    add(&whole, text.text, text.length);
    count = 0;
    starts[0] = 0;
    for (size_t i = 0; i < whole.length; i++)
        if (whole.at[i] == '\n') {
            if (count == SLOTS * OBJECTS) stop("there are more records than objects");
            starts[++count] = i + 1;
        }
    if (count != text.records) stop("another number of records");
}

/* Compares the record of an index with the line. */
static void compare(size_t index)
{
    static struct text line;
    struct trdp_node_record record;
    size_t length = starts[index + 1] - starts[index];
    if (!line.at) line = new_text();
    line.length = 0;
    if (trdp_node_record(&node, index, &record) != TRDP_NODE_OK) stop("a record isn't there");
    put_record(&line, &record);
    if (line.length != length || memcmp(line.at, whole.at + starts[index], length)) stop("another record");
}

static void no_record(size_t index)
{
    struct trdp_node_record record;
    if (trdp_node_record(&node, index, &record) != TRDP_NODE_NO_RECORD) stop("there is one more record");
}

static void read_in_order(void)
{
    for (size_t i = 0; i < count; i++) compare(i);
    no_record(count);
}

static void read_backwards(void)
{
    no_record(SIZE_MAX);
    for (size_t i = count; i > 0; i--) compare(i - 1);
}

/* Reads from a random index on, a few in order, and sometimes past the last. */
static void read_at_random(struct draw *draw)
{
    for (int i = 0; count && i < RANDOM; i++) {
        size_t at = draw_below(draw, (uint32_t)count), end = at + draw_below(draw, 4);
        for (; at < end && at < count; at++) compare(at);
        compare(draw_below(draw, (uint32_t)count));
        if (!draw_below(draw, 20)) no_record(count + draw_below(draw, 3));
    }
}

int main(void)
{
    struct trdp_node_fault fault;
    struct draw draw = { 11, 0, 0, { 0, 0 } };
    size_t most = 0;
    whole = new_text();
    if (trdp_node_open(&node, config, sizeof config - 1, &fault) != TRDP_NODE_OK) stop(fault.text);
    no_record(0);
    publish_all();
    for (uint64_t moment = 1000; moment <= 60000; moment += 1000 * (1 + draw_below(&draw, SPREAD))) {
        come_to(moment);
        if (count > most) most = count;
        read_in_order();
        read_backwards();
        read_at_random(&draw);
        read_in_order();
    }
    if (most < SLOTS * OBJECTS / 2) stop("no event has many records");
    trdp_node_close(&node);
    return 0;
}
