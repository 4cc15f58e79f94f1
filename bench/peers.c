/* Peers that read one point again and again, to measure a server of TASE.2: N connections, each with K requests outstanding, for so many seconds. It prints the replies a
 * second, and the longest time in ms between a request and its reply. Usage: peers PORT N K SECONDS [idle] */
#include <arpa/inet.h>
#include <errno.h>
#include <netinet/in.h>
#include <netinet/tcp.h>
#include <stdio.h>
#include <stdlib.h>
#include <string.h>
#include <sys/epoll.h>
#include <sys/socket.h>
#include <time.h>
#include <unistd.h>
#include "octets.h"

struct peer { int fd; size_t due; double asked; };

static double now(void) { struct timespec t; clock_gettime(CLOCK_MONOTONIC, &t); return (double)t.tv_sec + (double)t.tv_nsec / 1e9; }

static void send_all(int fd, const unsigned char *octets, size_t count) {
    while (count > 0) {
        ssize_t n = send(fd, octets, count, MSG_NOSIGNAL);
        if (n <= 0) { perror("peers: send"); exit(1); }
        octets += n; count -= (size_t)n;
    }
}

static void expect(int fd, const unsigned char *octets, size_t count) {
    unsigned char got[512];
    for (size_t have = 0; have < count;) {
        ssize_t n = recv(fd, got + have, count - have, 0);
        if (n <= 0) { fprintf(stderr, "peers: the connection ended\n"); exit(1); }
        have += (size_t)n;
    }
    if (memcmp(got, octets, count)) { fprintf(stderr, "peers: other octets\n"); exit(1); }
}

int main(int argc, char **argv) {
    if (argc < 5) return 2;
    int port = atoi(argv[1]), count = atoi(argv[2]), outstanding = atoi(argv[3]), poll = epoll_create1(0);
    double seconds = atof(argv[4]), longest = 0;
    struct peer *peers = calloc((size_t)count, sizeof *peers);
    for (int i = 0; i < count; i++) {
        struct sockaddr_in address = { .sin_family = AF_INET, .sin_port = htons((unsigned short)port), .sin_addr.s_addr = htonl(INADDR_LOOPBACK) };
        int one = 1, fd = socket(AF_INET, SOCK_STREAM, 0);
        if (connect(fd, (struct sockaddr *)&address, sizeof address)) { perror("peers: connect"); return 1; }
        setsockopt(fd, IPPROTO_TCP, TCP_NODELAY, &one, sizeof one);
        send_all(fd, CONNECT, sizeof CONNECT); expect(fd, CONNECTED, sizeof CONNECTED);
        send_all(fd, ASSOCIATE, sizeof ASSOCIATE); expect(fd, ACCEPTED, sizeof ACCEPTED);
        peers[i].fd = fd;
        struct epoll_event event = { .events = EPOLLIN, .data.u32 = (unsigned)i };
        epoll_ctl(poll, EPOLL_CTL_ADD, fd, &event);
    }
    if (argc > 5) { printf("%d peers are associated\n", count); fflush(stdout); sleep((unsigned)seconds); return 0; }
    unsigned char *burst = malloc(sizeof READ * (size_t)outstanding);
    for (int k = 0; k < outstanding; k++) memcpy(burst + sizeof READ * (size_t)k, READ, sizeof READ);
    unsigned long replies = 0;
    double begin = now(), end = begin + seconds;
    for (int i = 0; i < count; i++) { peers[i].due = sizeof READ_REPLY * (size_t)outstanding; peers[i].asked = now(); send_all(peers[i].fd, burst, sizeof READ * (size_t)outstanding); }
    struct epoll_event events[64];
    static unsigned char got[65536];
    while (now() < end) {
        int ready = epoll_wait(poll, events, 64, 100);
        for (int e = 0; e < ready; e++) {
            struct peer *p = &peers[events[e].data.u32];
            ssize_t n = recv(p->fd, got, p->due < sizeof got ? p->due : sizeof got, 0);
            if (n <= 0) { fprintf(stderr, "peers: the connection ended\n"); return 1; }
            p->due -= (size_t)n;
            if (p->due == 0) {
                double took = now() - p->asked;
                if (took > longest) longest = took;
                replies += (unsigned long)outstanding;
                p->due = sizeof READ_REPLY * (size_t)outstanding; p->asked = now();
                send_all(p->fd, burst, sizeof READ * (size_t)outstanding);
            }
        }
    }
    printf("%d connections, %d outstanding: %.0f replies/s, longest %.1f ms\n", count, outstanding, (double)replies / (now() - begin), longest * 1e3);
    return 0;
}
