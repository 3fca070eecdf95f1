/* The UDP sockets and the clock for a main loop that has a node of trdp_node.h, on Linux: C99, and
 * C++11 or later.
 *
 *     struct trdp_node_udp udp;
 *     if (trdp_node_udp_open(&udp, own)) ..       both ports, at the device's own address
 *     if (trdp_node_udp_join(&udp, group)) ..     both ports, at a group's address
 *     while ((length = trdp_node_udp_receive(&udp, i, &event, bytes, sizeof bytes)) >= 0) ..
 *     if (trdp_node_udp_send(&udp, &record)) ..
 *     poll(udp.sockets, udp.count, milliseconds);
 *     trdp_node_udp_close(&udp);
 *
 * Addresses are in host order: 0x0a000002 is 10.0.0.2. No function waits; only poll does. With
 * -std=c99 include this before the system's headers, or define _DEFAULT_SOURCE. */
#ifndef TRDP_NODE_UDP_H
#define TRDP_NODE_UDP_H

#if defined __STRICT_ANSI__ && !defined _DEFAULT_SOURCE
#define _DEFAULT_SOURCE
#endif

#include "trdp_node.h"

#include <arpa/inet.h>
#include <errno.h>
#include <netinet/in.h>
#include <poll.h>
#include <string.h>
#include <sys/socket.h>
#include <sys/types.h>
#include <time.h>
#include <unistd.h>

#ifdef __cplusplus
#ifdef __GNUC__
#pragma GCC diagnostic push
#pragma GCC diagnostic ignored "-Wold-style-cast"
#pragma GCC diagnostic ignored "-Wshadow"
#endif
extern "C" {
#endif

enum {
    TRDP_NODE_UDP_PD = 17224,   /* the port of process data */
    TRDP_NODE_UDP_MD = 17225,   /* the port of message data */
    TRDP_NODE_UDP_GROUPS = 16,  /* how many groups a device can join */
    TRDP_NODE_UDP_TTL = 64,     /* how many links a telegram to a group may cross at most */
    TRDP_NODE_UDP_BYTES = 65507 /* the longest datagram */
};

/* The sockets: 0 and 1 at the device's own address, the next two at the address of its first group,
 * and so on. Sockets of process data have even indexes, sockets of message data odd ones. */
struct trdp_node_udp {
    struct pollfd sockets[2 + 2 * TRDP_NODE_UDP_GROUPS];
    uint32_t addresses[1 + TRDP_NODE_UDP_GROUPS]; /* of the sockets 2 i and 2 i + 1 */
    nfds_t count;                                 /* how many sockets are open */
};

/* Microseconds on a clock that nobody sets. */
static inline uint64_t trdp_node_udp_now(void) {
    struct timespec time;
    clock_gettime(CLOCK_MONOTONIC, &time);
    return (uint64_t)time.tv_sec * 1000000 + (uint64_t)time.tv_nsec / 1000;
}

/* A socket address. */
static inline struct sockaddr_in trdp_node_udp_at(uint32_t address, uint16_t port) {
    struct sockaddr_in at;
    memset(&at, 0, sizeof at);
    at.sin_family = AF_INET;
    at.sin_port = htons(port);
    at.sin_addr.s_addr = htonl(address);
    return at;
}

/* Sets up a socket at that address and port. At a group's address it joins the group, on the link
 * that has the device's own address. 0, or -1 and errno. */
static inline int trdp_node_udp_bind(int fd, uint32_t own, uint32_t address, uint16_t port) {
    struct sockaddr_in at = trdp_node_udp_at(address, port);
    struct ip_mreq member;
    int ttl = TRDP_NODE_UDP_TTL, yes = 1;
    member.imr_multiaddr = at.sin_addr;
    member.imr_interface.s_addr = htonl(own);
    if (setsockopt(fd, IPPROTO_IP, IP_MULTICAST_IF, &member.imr_interface,
                   sizeof member.imr_interface)
        || setsockopt(fd, IPPROTO_IP, IP_MULTICAST_TTL, &ttl, sizeof ttl)) return -1;
    if (address != own
        && (setsockopt(fd, SOL_SOCKET, SO_REUSEADDR, &yes, sizeof yes)
            || setsockopt(fd, IPPROTO_IP, IP_ADD_MEMBERSHIP, &member, sizeof member))) return -1;
    return bind(fd, (const struct sockaddr *)&at, sizeof at);
}

/* Closes the sockets from that index on. It leaves errno. */
static inline void trdp_node_udp_close_from(struct trdp_node_udp *udp, nfds_t first) {
    int error = errno;
    while (udp->count > first) close(udp->sockets[--udp->count].fd);
    errno = error;
}

/* Opens both ports at that address. 0, or -1 and errno; then no socket was added. */
static inline int trdp_node_udp_add(struct trdp_node_udp *udp, uint32_t address) {
    nfds_t first = udp->count, i;
    udp->addresses[first / 2] = address;
    for (i = first; i < first + 2; i++) {
        int fd = socket(AF_INET, SOCK_DGRAM, 0);
        if (fd < 0) break;
        udp->sockets[i].fd = fd;
        udp->sockets[i].events = POLLIN;
        udp->count = i + 1;
        if (trdp_node_udp_bind(fd, udp->addresses[0], address,
                               i % 2 ? TRDP_NODE_UDP_MD : TRDP_NODE_UDP_PD)) break;
    }
    if (i == first + 2) return 0;
    trdp_node_udp_close_from(udp, first);
    return -1;
}

/* Opens both ports at an address of the device. 0, or -1 and errno; then nothing is open. */
static inline int trdp_node_udp_open(struct trdp_node_udp *udp, uint32_t own) {
    udp->count = 0;
    return trdp_node_udp_add(udp, own);
}

/* Joins a group. 0, or -1 and errno, ENOSPC if the device has joined all that it can; then the other
 * sockets stay. */
static inline int trdp_node_udp_join(struct trdp_node_udp *udp, uint32_t group) {
    if (udp->count < 2 + 2 * TRDP_NODE_UDP_GROUPS) return trdp_node_udp_add(udp, group);
    errno = ENOSPC;
    return -1;
}

/* Closes all sockets. */
static inline void trdp_node_udp_close(struct trdp_node_udp *udp) {
    trdp_node_udp_close_from(udp, 0);
}

/* Takes a datagram that waits at the socket of that index, below udp->count: writes its bytes, and
 * the fields of its event. Returns its length, or -1 if none waits. */
static inline ssize_t trdp_node_udp_receive(const struct trdp_node_udp *udp, nfds_t i,
                                            struct trdp_node_event *event, void *bytes,
                                            size_t size) {
    struct sockaddr_in from;
    socklen_t room = sizeof from;
    ssize_t length = recvfrom(udp->sockets[i].fd, bytes, size, MSG_DONTWAIT,
                              (struct sockaddr *)&from, &room);
    if (length < 0) return -1;
    event->what = i % 2 ? TRDP_NODE_MD : TRDP_NODE_PD;
    event->from_address = ntohl(from.sin_addr.s_addr);
    event->from_port = ntohs(from.sin_port);
    event->to_address = udp->addresses[i / 2];
    event->to_port = i % 2 ? TRDP_NODE_UDP_MD : TRDP_NODE_UDP_PD;
    return length;
}

/* Sends the telegram of a record that is SEND_PD or SEND_MD, from the own address and the port of its
 * kind; of every other record it does nothing. 0, or -1 and errno if the telegram is lost. */
static inline int trdp_node_udp_send(const struct trdp_node_udp *udp,
                                     const struct trdp_node_record *record) {
    struct sockaddr_in to = trdp_node_udp_at(record->address, record->port);
    int is_md = record->what == TRDP_NODE_SEND_MD;
    if (!is_md && record->what != TRDP_NODE_SEND_PD) return 0;
    return sendto(udp->sockets[is_md].fd, record->bytes, record->length, MSG_DONTWAIT,
                  (const struct sockaddr *)&to, sizeof to) < 0 ? -1 : 0;
}

#ifdef __cplusplus
}
#ifdef __GNUC__
#pragma GCC diagnostic pop
#endif
#endif
#endif
