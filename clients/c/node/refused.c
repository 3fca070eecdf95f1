/* Plays a script once for each of its allocations, which is refused then: 2,000 of them at most, evenly spread.
 *
 *     refused CONFIG SCRIPT
 *
 * Opening a node, an event or a line for which there was no memory changes nothing, and is taken the next time. A lost
 * text is there the next time. So each run comes to the same text as the one without a refusal, and frees all. */
#include "turns.h"

#include <stdbool.h>

#define rattle_alloc own_alloc
#define rattle_realloc own_realloc
#define rattle_dealloc own_dealloc
#include "../trdp_node_alloc.c"
#undef rattle_alloc
#undef rattle_realloc
#undef rattle_dealloc

struct rattle_tried rattle_alloc(size_t size, size_t align);
struct rattle_tried rattle_realloc(void *at, size_t kept, size_t size, size_t align);
void rattle_dealloc(void *at);

enum { RUNS_MOST = 2000 };

static char config[1 << 16], script[1 << 24];
/* How often memory was asked for, which time it is refused, and how much is held. */
static unsigned long asked, refused_one, held;
static struct turns turns;

/* Whether this time there is none. */
static bool is_none(void)
{
    return ++asked == refused_one;
}

struct rattle_tried rattle_alloc(size_t size, size_t align)
{
    struct rattle_tried none = { false, NULL };
    if (is_none()) return none;
    held++;
    return own_alloc(size, align);
}

struct rattle_tried rattle_realloc(void *at, size_t kept, size_t size, size_t align)
{
    struct rattle_tried none = { false, NULL };
    return is_none() ? none : own_realloc(at, kept, size, align);
}

void rattle_dealloc(void *at)
{
    held--;
    own_dealloc(at);
}

/* Plays the script with one allocation refused; 0 refuses none. Returns whether opening was refused. */
static int run(size_t length, unsigned long refused, unsigned long turn)
{
    struct trdp_node node = TRDP_NODE_NONE;
    struct trdp_node_fault fault;
    enum trdp_node_status status;
    int is_refused;
    asked = 0;
    refused_one = refused;
    status = trdp_node_open(&node, config, length, &fault);
    is_refused = status == TRDP_NODE_OUT_OF_MEMORY;
    if (is_refused) {
        if (node.at || held || strcmp(fault.text, "config fault OutOfMemory")) stop("a refused node holds memory");
        status = trdp_node_open(&node, config, length, &fault);
    }
    if (status != TRDP_NODE_OK) stop("no node");
    play_turns(&turns, &node, turn);
    trdp_node_close(&node);
    if (held) stop("memory isn't freed");
    return is_refused;
}

int main(int count, char **words)
{
    struct text wanted = new_text();
    unsigned long asks, runs, opens = 0;
    size_t length;
    if (count != 3) return 2;
    length = read_file(words[1], config, sizeof config);
    turns.script = script;
    turns.end = script + read_file(words[2], script, sizeof script);
    turns.found = new_text();
    run(length, 0, 0);
    asks = asked;
    add(&wanted, turns.found.at, turns.found.length);
    runs = asks < RUNS_MOST ? asks : RUNS_MOST;
    for (unsigned long i = 0; i < runs; i++) {
        if (run(length, 1 + i * asks / runs, i)) opens++;
        if (turns.found.length != wanted.length || memcmp(turns.found.at, wanted.at, wanted.length)) stop("another text");
    }
    printf("refused: %lu allocations, one refused in each of %lu runs: %lu nodes, %lu lines, %lu events, %lu texts\n", asks,
           runs, opens, turns.refusals.line, turns.refusals.step, turns.refusals.text);
    free(wanted.at);
    free(turns.found.at);
    printf("refused: 1 passed, 0 failed\n");
    return 0;
}
