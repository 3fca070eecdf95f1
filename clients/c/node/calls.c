/* Each inline function of the header with pointers that are NULL, nodes that aren't open, and bytes that the node
 * lends; and each status that only some events have. */
#include "script.h"

static unsigned passed, failed;
static const char config[] = "[node]\naddress = \"10.0.0.1\"\n[[slot]]\npublishers = 2\nsubscriptions = 2\nlisteners = 1\n";
/* A telegram of comId 100 whose payload is 0a0b. */
static const char telegram[] = "pd 10.0.0.2:17224 10.0.0.1:17224 "
    "000000000100506400000064000000000000000000000002000000000000000000000000ec179c940a0b0000";

static void check_at(int is_so, const char *what, int line)
{
    passed += is_so != 0;
    if (is_so) return;
    failed++;
    printf("calls: line %d: %s\n", line, what);
}

#define CHECK(is_so) check_at(is_so, #is_so, __LINE__)
#define IS(wanted, call) check_at((call) == TRDP_NODE_##wanted, #call " isn't " #wanted, __LINE__)

static void open_node(struct trdp_node *node)
{
    struct trdp_node_fault fault;
    IS(OK, trdp_node_open(node, config, sizeof config - 1, &fault));
    CHECK(fault.number == 0 && !fault.text[0]);
}

/* Lets the node process a line. */
static struct trdp_node_text line_of(struct trdp_node *node, const char *line)
{
    struct trdp_node_text text;
    if (trdp_node_line(node, line, strlen(line), &text) != TRDP_NODE_OK) stop(line);
    return text;
}

static int says(struct trdp_node_text text, const char *wanted)
{
    return text.length == strlen(wanted) && !memcmp(text.text, wanted, text.length);
}

/* All functions refuse a node that is NULL or isn't open, and write nothing. */
static void refuse_nodes(void)
{
    struct trdp_node closed = TRDP_NODE_NONE, *const nodes[] = { NULL, &closed };
    struct trdp_node_event event;
    struct trdp_node_done done = { 7, 7 };
    struct trdp_node_record record;
    struct trdp_node_text text = { NULL, 7, 7, 7 };
    struct trdp_node_state state = { 7, 7, 7 };
    struct trdp_node_fault fault;
    memset(&event, 0, sizeof event);
    record.what = 7;
    for (int i = 0; i < 2; i++) {
        IS(NO_NODE, trdp_node_step(nodes[i], &event, NULL, 0, &done));
        IS(NO_NODE, trdp_node_record(nodes[i], 0, &record));
        IS(NO_NODE, trdp_node_line(nodes[i], "", 0, &text));
        IS(NO_NODE, trdp_node_text(nodes[i], &text));
        IS(NO_NODE, trdp_node_state(nodes[i], &state));
        trdp_node_close(nodes[i]);
    }
    IS(NO_NODE, trdp_node_open(NULL, config, sizeof config - 1, &fault));
    CHECK(done.records == 7 && record.what == 7 && text.length == 7 && state.slots == 7 && !closed.at);
}

/* All functions refuse other pointers that are NULL, and lengths that no object has. */
static void refuse_pointers(void)
{
    struct trdp_node node = TRDP_NODE_NONE;
    struct trdp_node_event event;
    struct trdp_node_done done = { 7, 7 };
    struct trdp_node_text text = { NULL, 7, 7, 7 };
    struct trdp_node_fault fault;
    size_t most = (size_t)PTRDIFF_MAX + 1;
    memset(&event, 0, sizeof event);
    fault.number = 7;
    IS(BAD_POINTER, trdp_node_open(&node, NULL, 1, &fault));
    IS(BAD_POINTER, trdp_node_open(&node, config, most, &fault));
    IS(BAD_POINTER, trdp_node_open(&node, config, sizeof config - 1, NULL));
    CHECK(!node.at && fault.number == 7);
    open_node(&node);
    IS(BAD_POINTER, trdp_node_step(&node, NULL, NULL, 0, &done));
    IS(BAD_POINTER, trdp_node_step(&node, &event, NULL, 1, &done));
    IS(BAD_POINTER, trdp_node_step(&node, &event, config, most, &done));
    IS(BAD_POINTER, trdp_node_step(&node, &event, NULL, 0, NULL));
    IS(BAD_POINTER, trdp_node_record(&node, 0, NULL));
    IS(BAD_POINTER, trdp_node_line(&node, NULL, 1, &text));
    IS(BAD_POINTER, trdp_node_line(&node, config, most, &text));
    IS(BAD_POINTER, trdp_node_line(&node, "", 0, NULL));
    IS(BAD_POINTER, trdp_node_text(&node, NULL));
    IS(BAD_POINTER, trdp_node_state(&node, NULL));
    IS(BAD_POINTER, trdp_node_refusal_name(1, NULL));
    IS(BAD_POINTER, trdp_node_fault_name(1, NULL));
    IS(BAD_POINTER, trdp_node_reason_name(1, NULL));
    CHECK(done.records == 7 && done.status == 7 && text.length == 7 && text.status == 7);
    IS(OK, trdp_node_line(&node, NULL, 0, &text));
    CHECK(text.length == 0 && text.records == 0);
    trdp_node_close(&node);
    trdp_node_close(&node);
    IS(NO_NODE, trdp_node_text(&node, &text));
}

/* Each configuration that is rejected says so, and opens nothing. */
static void refuse_configs(void)
{
    struct trdp_node node = TRDP_NODE_NONE;
    struct trdp_node_fault fault;
    const char *wrong = "[node]\naddress = 1\n";
    IS(BAD_CONFIG, trdp_node_open(&node, NULL, 0, &fault));
    CHECK(fault.number == 2 && !strcmp(fault.text, "config fault Missing node") && !node.at);
    IS(BAD_CONFIG, trdp_node_open(&node, wrong, strlen(wrong), &fault));
    CHECK(!strncmp(fault.text, "config fault ", 13) && !node.at);
    IS(BAD_CONFIG, trdp_node_open(&node, "\377", 1, &fault));
    CHECK(fault.number == 1 && !strcmp(fault.text, "config fault Toml") && !node.at);
}

/* The status of an event of that kind, in which each flag and quota is `flag`. */
static uint32_t status_of(struct trdp_node *node, uint32_t what, uint8_t flag)
{
    struct trdp_node_event event;
    struct trdp_node_done done = { 7, 7 };
    memset(&event, 0, sizeof event);
    event.what = what;
    event.leader = event.keep = event.any = flag;
    event.group = 1;
    for (int i = 0; i < TRDP_NODE_KINDS; i++) event.quotas[i] = (uint16_t)(255 + flag);
    trdp_node_step(node, &event, NULL, 0, &done);
    CHECK(!done.status || !done.records);
    return done.status;
}

/* Each number that means nothing has a status of its own; a field that isn't read may have any. */
static void refuse_numbers(void)
{
    struct trdp_node node = TRDP_NODE_NONE;
    open_node(&node);
    IS(NO_EVENT, status_of(&node, 0, 0));
    for (uint32_t what = 7; what < 10; what++) IS(NO_EVENT, status_of(&node, what, 0));
    IS(NO_EVENT, status_of(&node, 29, 0));
    IS(NO_EVENT, status_of(&node, UINT32_MAX, 0));
    IS(BAD_FLAG, status_of(&node, TRDP_NODE_ROLE, 2));
    IS(BAD_FLAG, status_of(&node, TRDP_NODE_SUBSCRIBE, 2));
    IS(BAD_FLAG, status_of(&node, TRDP_NODE_LISTEN, 255));
    IS(BAD_QUOTA, status_of(&node, TRDP_NODE_ADD_SLOT, 2));
    IS(OK, status_of(&node, TRDP_NODE_ADD_SLOT, 1));
    IS(OK, status_of(&node, TRDP_NODE_RESET, 2));
    trdp_node_close(&node);
}

/* Bytes that the node lends are refused as its own, as long as it lends them, and any part of them. */
static void refuse_lent(void)
{
    struct trdp_node node = TRDP_NODE_NONE, other = TRDP_NODE_NONE;
    struct trdp_node_record record;
    struct trdp_node_event event;
    struct trdp_node_done done = { 7, 7 };
    struct trdp_node_text text, lent;
    open_node(&node);
    open_node(&other);
    memset(&event, 0, sizeof event);
    event.what = TRDP_NODE_PD;
    line_of(&node, "call 0 subscribe 100 0 0.0.0.0 0.0.0.0 0.0.0.0 0 0 0 zero");
    line_of(&node, telegram);
    lent = line_of(&node, "call 0 get 1");
    CHECK(says(lent, "0 value Valid 0 0a0b\n"));
    IS(OWN_BYTES, trdp_node_line(&node, lent.text, lent.length, &text));
    IS(OWN_BYTES, trdp_node_line(&node, lent.text + lent.length - 1, 1, &text));
    IS(OWN_BYTES, trdp_node_line(&node, lent.text - 1, 2, &text));
    IS(OK, trdp_node_record(&node, 0, &record));
    CHECK(record.length == 2 && record.bytes[1] == 11);
    IS(OWN_BYTES, trdp_node_step(&node, &event, record.bytes, 2, &done));
    IS(OWN_BYTES, trdp_node_step(&node, &event, record.bytes + 1, 1, &done));
    IS(OK, trdp_node_record(&node, 0, &record));
    CHECK(done.records == 7 && record.length == 2);
    IS(OK, trdp_node_step(&node, &event, record.bytes, 0, &done));
    IS(NO_RECORD, trdp_node_record(&node, 0, &record));
    CHECK(!record.what && !record.length);
    line_of(&node, "call 0 get 1");
    IS(OK, trdp_node_record(&node, 0, &record));
    IS(OK, trdp_node_step(&other, &event, record.bytes, record.length, &done));
    trdp_node_close(&node);
    trdp_node_close(&other);
}

/* The text of records can be had again, by lines and by structs. */
static void print_again(void)
{
    struct trdp_node node = TRDP_NODE_NONE;
    struct trdp_node_state state;
    struct trdp_node_text text;
    struct trdp_node_event event;
    struct trdp_node_record record;
    struct trdp_node_done done;
    open_node(&node);
    memset(&event, 0, sizeof event);
    CHECK(says(line_of(&node, "call 0 publish 100 0 1000 0 0 0 10.0.0.2:17224"), "0 handle 1\n"));
    line_of(&node, "call 0 put 1 0a0b");
    IS(OK, trdp_node_state(&node, &state));
    CHECK(state.now == 0 && state.next_due == 1000 && state.slots == 1);
    event.what = TRDP_NODE_MOMENT;
    event.moment = state.next_due;
    IS(OK, trdp_node_step(&node, &event, NULL, 0, &done));
    IS(OK, trdp_node_text(&node, &text));
    CHECK(done.records == 1 && text.records == 1 && text.length > 100 && !memcmp(text.text, "0 send pd ", 10));
    event.moment = 999;
    IS(PAST, trdp_node_step(&node, &event, NULL, 0, &done));
    IS(OK, trdp_node_state(&node, &state));
    CHECK(done.status == TRDP_NODE_PAST && done.records == 0 && state.now == 1000);
    IS(OK, trdp_node_text(&node, &text));
    CHECK(text.records == 0 && text.length == 0);
    CHECK(says(line_of(&node, ""), "") && says(line_of(&node, "# a remark"), ""));
    IS(NO_SLOT, trdp_node_line(&node, "call 1 reset", 12, &text));
    CHECK(says(text, "fault NoSlot\n"));
    CHECK(says(line_of(&node, "call 0 reset"), "0 done\n"));
    IS(LINE_UNKNOWN, trdp_node_line(&node, "jump", 4, &text));
    IS(NO_RECORD, trdp_node_record(&node, 0, &record));
    CHECK(says(text, "") && text.status == TRDP_NODE_LINE_UNKNOWN && text.records == 0);
    trdp_node_close(&node);
}

/* The names that are known, each other number is none, and an unknown name is empty. */
static void name_codes(void)
{
    struct trdp_node_name name;
    for (uint32_t code = 0; code < 40; code++) {
        CHECK((trdp_node_refusal_name(code, &name) == TRDP_NODE_OK) == (code >= 1 && code <= 15) && (name.text[0] != 0) == (code >= 1 && code <= 15));
        CHECK((trdp_node_fault_name(code, &name) == TRDP_NODE_OK) == (code >= 1 && code <= 6));
        CHECK((trdp_node_reason_name(code, &name) == TRDP_NODE_OK) == (code <= 5));
    }
    IS(NO_CODE, trdp_node_refusal_name(UINT32_MAX, &name));
    CHECK(!name.text[0]);
    IS(OK, trdp_node_refusal_name(TRDP_NODE_REFUSED_SESSION_OPEN, &name));
    CHECK(!strcmp(name.text, "SessionOpen"));
    IS(OK, trdp_node_reason_name(TRDP_NODE_REASON_NOT_ALL_REPLIES, &name));
    CHECK(!strcmp(name.text, "NotAllReplies"));
    IS(OK, trdp_node_fault_name(TRDP_NODE_OUT_OF_MEMORY, &name));
    CHECK(!strcmp(name.text, "OutOfMemory"));
}

int main(void)
{
    refuse_nodes();
    refuse_pointers();
    refuse_configs();
    refuse_numbers();
    refuse_lent();
    print_again();
    name_codes();
    printf("calls: %u passed, %u failed\n", passed, failed);
    return failed != 0;
}
