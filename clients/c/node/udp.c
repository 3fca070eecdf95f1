/* Tries trdp_node_udp.h: two devices of one group send each other datagrams, and each comes to the
 * socket of the address and port to which it was sent. What can't be opened leaves no socket. */
#include "../trdp_node_udp.h"
#include <stdio.h>
#include <stdlib.h>

static const uint32_t own = 0x7f000608, other = 0x7f000609, group = 0xefc00609;

static void wanted(int good, const char *what) {
    if (good) return;
    printf("udp: %s: %s\n", what, strerror(errno));
    exit(1);
}

/* Sends three bytes as the telegram of a record of that kind. */
static void sends(const struct trdp_node_udp *udp, uint32_t what, uint32_t address, uint16_t port) {
    static const uint8_t bytes[] = { 1, 2, 3 };
    struct trdp_node_record record;
    memset(&record, 0, sizeof record);
    record.what = what;
    record.bytes = bytes;
    record.length = sizeof bytes;
    record.address = address;
    record.port = port;
    wanted(!trdp_node_udp_send(udp, &record), "it sends");
}

/* The three bytes come to the socket of that index, and nothing to another one. */
static void comes(struct trdp_node_udp *udp, nfds_t index, uint32_t what, uint32_t to, uint16_t port, uint16_t from) {
    static uint8_t bytes[TRDP_NODE_UDP_BYTES];
    static struct trdp_node_event event;
    wanted(poll(udp->sockets, udp->count, 5000) == 1, "one socket has a datagram");
    for (nfds_t i = 0; i < udp->count; i++) {
        ssize_t length = trdp_node_udp_receive(udp, i, &event, bytes, sizeof bytes);
        wanted(length == (i == index ? 3 : -1), "the datagram comes to its socket");
    }
    wanted(bytes[0] == 1 && bytes[2] == 3, "the bytes come");
    wanted(event.what == what && event.to_address == to && event.to_port == port, "it says where it was sent to");
    wanted(event.from_address == own && event.from_port == from, "it says who sent it");
}

/* A device joins as many groups as it can, and none whose address is no group's. */
static void joins(struct trdp_node_udp *udp) {
    wanted(trdp_node_udp_join(udp, own) && errno == EINVAL && udp->count == 2, "an address is no group");
    for (uint32_t i = 0; i < TRDP_NODE_UDP_GROUPS; i++)
        wanted(!trdp_node_udp_join(udp, group + i) && udp->count == 4 + 2 * i, "it joins");
    wanted(trdp_node_udp_join(udp, group - 1) && errno == ENOSPC && udp->count == 34, "there are no more groups");
}

int main(void) {
    struct trdp_node_udp here, there, third;
    uint64_t start = trdp_node_udp_now();
    wanted(!trdp_node_udp_open(&here, own) && here.count == 2, "it opens");
    wanted(trdp_node_udp_open(&third, own) && errno == EADDRINUSE && !third.count, "an address is taken");
    wanted(trdp_node_udp_open(&third, 0x01020304) && errno == EADDRNOTAVAIL && !third.count, "an address isn't its own");
    wanted(!trdp_node_udp_open(&there, other), "another one opens");
    joins(&there);
    wanted(!trdp_node_udp_join(&here, group), "it joins the same group");
    sends(&here, TRDP_NODE_VALUE, other, TRDP_NODE_UDP_PD);
    wanted(!poll(there.sockets, there.count, 50), "a value isn't sent");
    sends(&here, TRDP_NODE_SEND_PD, other, TRDP_NODE_UDP_PD);
    comes(&there, 0, TRDP_NODE_PD, other, 17224, 17224);
    sends(&here, TRDP_NODE_SEND_MD, other, TRDP_NODE_UDP_MD);
    comes(&there, 1, TRDP_NODE_MD, other, 17225, 17225);
    sends(&here, TRDP_NODE_SEND_PD, group, TRDP_NODE_UDP_PD);
    comes(&there, 2, TRDP_NODE_PD, group, 17224, 17224);
    comes(&here, 2, TRDP_NODE_PD, group, 17224, 17224);
    sends(&here, TRDP_NODE_SEND_MD, group, TRDP_NODE_UDP_MD);
    comes(&there, 3, TRDP_NODE_MD, group, 17225, 17225);
    trdp_node_udp_close(&here);
    wanted(!here.count && !trdp_node_udp_open(&here, own), "it opens again");
    trdp_node_udp_close(&here);
    trdp_node_udp_close(&there);
    wanted(trdp_node_udp_now() > start + 50000, "the clock goes");
    return 0;
}
