/* Eight nodes in eight threads, which all come to the same text.
 *
 *     threads CONFIG SCRIPT */
#include "turns.h"

#include <pthread.h>

enum { NODES = 8 };

static char config[1 << 16], script[1 << 24];
static size_t config_length;
static struct turns turns[NODES];

/* Plays the script over a node of its own. */
static void *play(void *it)
{
    struct trdp_node node = TRDP_NODE_NONE;
    struct trdp_node_fault fault;
    if (trdp_node_open(&node, config, config_length, &fault) != TRDP_NODE_OK) stop(fault.text);
    play_turns((struct turns *)it, &node, (unsigned long)((struct turns *)it - turns));
    trdp_node_close(&node);
    return NULL;
}

int main(int count, char **words)
{
    pthread_t threads[NODES];
    size_t length;
    if (count != 3) return 2;
    config_length = read_file(words[1], config, sizeof config);
    length = read_file(words[2], script, sizeof script);
    for (int i = 0; i < NODES; i++) {
        turns[i].script = script;
        turns[i].end = script + length;
        turns[i].found = new_text();
        if (pthread_create(threads + i, NULL, play, turns + i)) stop("no thread");
    }
    for (int i = 0; i < NODES; i++) {
        const struct text *text = &turns[i].found, *first = &turns[0].found;
        if (pthread_join(threads[i], NULL)) stop("a thread doesn't end");
        if (!text->length || text->length != first->length || memcmp(text->at, first->at, text->length)) stop("another text");
    }
    printf("threads: %d nodes, %lu bytes each\n", NODES, (unsigned long)turns[0].found.length);
    printf("threads: 1 passed, 0 failed\n");
    return 0;
}
