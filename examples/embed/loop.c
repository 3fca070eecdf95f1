/* A device with a main loop of its own: the node is a part of the program. It sends the other device a count every
 * 100 ms, and prints the count that it gets from there.
 *
 *     gcc -std=c99 -O2 -I clients/c -o loop examples/embed/loop.c clients/c/trdp_node_alloc.c \
 *         out/unproved/libtrdp_node.a
 *     ./loop 127.0.6.1 127.0.6.2 10
 *
 * The words are its own address, the other device's, and after how many seconds it ends. The exit status is 2 for other
 * words, 1 if the node or a socket can't be opened. */
#include "trdp_node_udp.h"
#include <stdio.h>
#include <stdlib.h>

static struct trdp_node node = TRDP_NODE_NONE;
static struct trdp_node_udp udp;

/* Passes an event, and does what its records say: their bytes are the node's until the next event. */
static void step(const struct trdp_node_event *event, const void *bytes, size_t length)
{
    struct trdp_node_done done;
    struct trdp_node_record record;
    enum trdp_node_status status = trdp_node_step(&node, event, bytes, length, &done);
    if (status != TRDP_NODE_OK) printf("event %u has status %d\n", (unsigned)event->what, (int)status);
    for (size_t i = 0; trdp_node_record(&node, i, &record) == TRDP_NODE_OK; i++) {
        if (trdp_node_udp_send(&udp, &record)) perror("send");
        if (record.what == TRDP_NODE_VALUE && record.length) printf("the other device counts %u\n", record.bytes[0]);
        if (record.what == TRDP_NODE_SILENT) puts("the other device is silent");
        if (record.what == TRDP_NODE_REFUSED) printf("a call is refused: %u\n", (unsigned)record.code);
    }
}

/* Passes the datagrams that wait at a socket: 50 at most, so that a flood doesn't hold up what is due. */
static void receive(nfds_t i)
{
    static uint8_t bytes[TRDP_NODE_UDP_BYTES];
    static struct trdp_node_event event; /* all zeros */
    ssize_t length;
    for (int left = 50; left && (length = trdp_node_udp_receive(&udp, i, &event, bytes, sizeof bytes)) >= 0; left--)
        step(&event, bytes, (size_t)length);
}

int main(int argc, char **argv)
{
    static const char config[] = "[node]\naddress = \"127.0.0.1\"\n[[slot]]\npublishers = 1\nsubscriptions = 1\n";
    static struct trdp_node_event moment, call; /* all zeros */
    struct trdp_node_fault fault;
    struct trdp_node_state state;
    if (argc != 4) return 2;
    uint32_t own = ntohl(inet_addr(argv[1])), other = ntohl(inet_addr(argv[2]));
    if (trdp_node_udp_open(&udp, own)) return perror("bind"), 1;
    if (trdp_node_open(&node, config, sizeof config - 1, &fault) != TRDP_NODE_OK) return puts(fault.text), 1;
    call.what = TRDP_NODE_PUBLISH; call.com_id = 2101; call.time = 100000;
    call.to_address = other; call.to_port = TRDP_NODE_UDP_PD;
    step(&call, NULL, 0);
    call.what = TRDP_NODE_SUBSCRIBE; call.time = 500000; call.low = call.high = other;
    step(&call, NULL, 0);

    uint64_t start = trdp_node_udp_now(), end = strtoull(argv[3], NULL, 10) * 1000000, next_call = 0;
    uint8_t count = 0;
    for (uint64_t now = 0; now < end; now = trdp_node_udp_now() - start) {
        moment.what = TRDP_NODE_MOMENT; moment.moment = now;
        step(&moment, NULL, 0);
        for (nfds_t i = 0; i < udp.count; i++) receive(i);
        if (now >= next_call) {
            call.what = TRDP_NODE_PUT; call.handle = 1; count++;
            step(&call, &count, 1);
            call.what = TRDP_NODE_GET; call.handle = 2;
            step(&call, NULL, 0);
            next_call += 500000;
        }
        trdp_node_state(&node, &state);
        uint64_t next = start + (state.next_due < next_call ? state.next_due : next_call), time = trdp_node_udp_now();
        poll(udp.sockets, udp.count, next > time ? (int)((next - time + 999) / 1000) : 0);
    }
    trdp_node_close(&node);
    trdp_node_udp_close(&udp);
    return 0;
}
