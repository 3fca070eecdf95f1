/* Calls of the node's library in a loop, for bench/library.py.
 *
 *     library ns            prints how long one call of each kind takes, in nanoseconds: the least of 20 rounds
 *     library records       prints how long the function that gets a record takes, after a moment with 4,096 records
 *     library put COUNT     makes that many calls of one kind, for callgrind
 *     library pd COUNT
 *     library memory        opens a node of one slot with eight objects; pool.c tells what that takes */
#define _GNU_SOURCE
#include "../clients/c/trdp_node.h"

#include <stdio.h>
#include <stdlib.h>
#include <string.h>
#include <time.h>

enum { ROUNDS = 20, CALLS = 100000, SLOTS = 16, OBJECTS = 256 };

size_t pool_most(void);

static const char config[] = "[node]\naddress = \"10.0.0.1\"\n[[slot]]\npublishers = 4\nsubscriptions = 4\n";
/* A telegram of comId 100 with the payload 0a0b. */
static uint8_t telegram[] = {
    0, 0, 0, 0, 1, 0, 0x50, 0x64, 0, 0, 0, 100, 0, 0, 0, 0, 0, 0, 0, 0, 0, 0, 0, 2, 0, 0, 0, 0, 0, 0, 0, 0, 0, 0, 0, 0,
    0, 0, 0, 0, 0x0a, 0x0b, 0, 0
};
static const uint8_t value[2] = { 0x0a, 0x0b };
static struct trdp_node node = TRDP_NODE_NONE;
static const struct trdp_node_event put = { .what = TRDP_NODE_PUT, .handle = 1 };
static const struct trdp_node_event pd = { .what = TRDP_NODE_PD, .from_address = 0x0a000002, .from_port = 17224,
    .to_address = 0x0a000001, .to_port = 17224 };

static void stop(const char *why)
{
    fprintf(stderr, "library: %s\n", why);
    exit(1);
}

static void line(const char *text)
{
    struct trdp_node_text said;
    if (trdp_node_line(&node, text, strlen(text), &said) != TRDP_NODE_OK) stop(text);
}

/* Numbers the telegram, so that it isn't stale, and writes its check. */
static void number(uint32_t counter)
{
    uint32_t check = UINT32_MAX;
    for (int i = 0; i < 4; i++) telegram[i] = (uint8_t)(counter >> (24 - 8 * i));
    for (int i = 0; i < 36; i++) {
        check ^= telegram[i];
        for (int bit = 0; bit < 8; bit++) check = check >> 1 ^ (check & 1 ? 0xedb88320u : 0);
    }
    for (int i = 0; i < 4; i++) telegram[36 + i] = (uint8_t)(~check >> 8 * i);
}

/* One call each. They stay functions, so that callgrind counts them. */
__attribute__((noinline)) void one_put(void)
{
    struct trdp_node_done done;
    if (trdp_node_step(&node, &put, value, sizeof value, &done) != TRDP_NODE_OK) stop("a put isn't taken");
}

__attribute__((noinline)) void one_pd(void)
{
    struct trdp_node_done done;
    if (trdp_node_step(&node, &pd, telegram, sizeof telegram, &done) != TRDP_NODE_OK) stop("a telegram isn't taken");
}

static void one_line(void)
{
    line("call 0 put 1 0a0b");
}

/* Alternates two telegrams, of which none is stale: their counters are far apart. */
static void next_telegram(unsigned long i)
{
    static uint8_t kept[2][sizeof telegram];
    if (i < 2) {
        number(i ? 1000 : 0);
        memcpy(kept[i], telegram, sizeof telegram);
    } else memcpy(telegram, kept[i & 1], sizeof telegram);
}

static double nanoseconds(const struct timespec *from)
{
    struct timespec to;
    clock_gettime(CLOCK_MONOTONIC, &to);
    return (double)(to.tv_sec - from->tv_sec) * 1e9 + (double)(to.tv_nsec - from->tv_nsec);
}

static double least_ns(void (*call)(void), int has_telegram)
{
    double least = 1e9;
    for (int round = 0; round < ROUNDS; round++) {
        struct timespec from;
        double ns;
        clock_gettime(CLOCK_MONOTONIC, &from);
        for (unsigned long i = 0; i < CALLS; i++) {
            if (has_telegram) next_telegram(i);
            call();
        }
        ns = nanoseconds(&from) / CALLS;
        if (ns < least) least = ns;
    }
    return least;
}

/* How long a record takes, if the publishers of all slots are due. */
static double record_ns(void)
{
    static char most[1024] = "[node]\naddress = \"10.0.0.1\"\n";
    struct trdp_node_event publish = { .what = TRDP_NODE_PUBLISH, .time = 1000 }, given = put;
    struct trdp_node_event due = { .what = TRDP_NODE_MOMENT, .moment = 1000 };
    struct trdp_node_record record;
    struct trdp_node_fault fault;
    struct trdp_node_done done;
    struct timespec from;
    size_t count = 0;
    for (int i = 0; i < SLOTS; i++) strcat(most, "[[slot]]\npublishers = 256\n");
    if (trdp_node_open(&node, most, strlen(most), &fault) != TRDP_NODE_OK) stop(fault.text);
    for (given.handle = 1; given.handle <= OBJECTS; given.handle++)
        for (given.slot = publish.slot = 0; given.slot < SLOTS; publish.slot = ++given.slot) {
            trdp_node_step(&node, &publish, NULL, 0, &done);
            trdp_node_step(&node, &given, value, sizeof value, &done);
        }
    trdp_node_step(&node, &due, NULL, 0, &done);
    clock_gettime(CLOCK_MONOTONIC, &from);
    while (trdp_node_record(&node, count, &record) == TRDP_NODE_OK) count++;
    if (count != SLOTS * OBJECTS) stop("not all are due");
    return nanoseconds(&from) / (double)count;
}

static void open_node(void)
{
    struct trdp_node_fault fault;
    if (trdp_node_open(&node, config, sizeof config - 1, &fault) != TRDP_NODE_OK) stop(fault.text);
    line("call 0 publish 100 0 1000000 0 0 0 10.0.0.2:17224");
    line("call 0 subscribe 100 0 0.0.0.0 0.0.0.0 0.0.0.0 0 0 0 zero");
}

int main(int count, char **words)
{
    const char *word = count > 1 ? words[1] : "";
    unsigned long calls = count > 2 ? strtoul(words[2], NULL, 10) : 0;
    if (!strcmp(word, "memory")) {
        struct trdp_node_fault fault;
        if (trdp_node_open(&node, config, sizeof config - 1, &fault) != TRDP_NODE_OK) stop(fault.text);
        printf("most %lu\n", (unsigned long)pool_most());
        return 0;
    }
    if (!strcmp(word, "records")) {
        printf("record %.0f\n", record_ns());
        return 0;
    }
    open_node();
    if (!strcmp(word, "ns")) {
        printf("put %.0f\n", least_ns(one_put, 0));
        printf("pd %.0f\n", least_ns(one_pd, 1));
        printf("line %.0f\n", least_ns(one_line, 0));
        return 0;
    }
    for (unsigned long i = 0; i < calls; i++) {
        if (!strcmp(word, "pd")) {
            next_telegram(i);
            one_pd();
        } else one_put();
    }
    return calls == 0;
}
