/* The bare counterpart of a server of TASE.2, to measure it by: one thread and epoll. It answers the n-th message of a connection with fixed octets: a connect of the
 * transport, an association request, and from then on each read with the same reply. It looks at lengths alone. Usage: answers PORT */
#define _GNU_SOURCE
#include <arpa/inet.h>
#include <errno.h>
#include <fcntl.h>
#include <netinet/in.h>
#include <netinet/tcp.h>
#include <stdio.h>
#include <stdlib.h>
#include <string.h>
#include <sys/epoll.h>
#include <sys/socket.h>
#include <unistd.h>
#include "octets.h"

enum { ROOM = 65536, MOST = 1024 };
struct peer { int at; size_t held; unsigned char in[ROOM]; };
static struct peer *peers[MOST + 64];

static void send_all(int fd, const unsigned char *octets, size_t count) {
    while (count > 0) {
        ssize_t n = send(fd, octets, count, MSG_NOSIGNAL);
        if (n < 0 && errno == EAGAIN) { usleep(50); continue; }
        if (n <= 0) return;
        octets += n; count -= (size_t)n;
    }
}

/* Answers each whole TPKT that has come, all replies in one send. */
static void answer(int fd, struct peer *p) {
    static unsigned char out[ROOM * 2];
    size_t from = 0, filled = 0;
    while (p->held - from >= 4) {
        size_t length = (size_t)p->in[from + 2] << 8 | p->in[from + 3];
        if (length < 4 || p->held - from < length) break;
        const unsigned char *reply = p->at == 0 ? CONNECTED : p->at == 1 ? ACCEPTED : READ_REPLY;
        size_t count = p->at == 0 ? sizeof CONNECTED : p->at == 1 ? sizeof ACCEPTED : sizeof READ_REPLY;
        memcpy(out + filled, reply, count); filled += count;
        if (p->at < 2) p->at++;
        from += length;
        if (filled > ROOM) { send_all(fd, out, filled); filled = 0; }
    }
    memmove(p->in, p->in + from, p->held - from);
    p->held -= from;
    if (filled > 0) send_all(fd, out, filled);
}

int main(int argc, char **argv) {
    if (argc != 2) return 2;
    int one = 1, gate = socket(AF_INET, SOCK_STREAM | SOCK_NONBLOCK, 0), poll = epoll_create1(0);
    struct sockaddr_in address = { .sin_family = AF_INET, .sin_port = htons((unsigned short)atoi(argv[1])), .sin_addr.s_addr = htonl(INADDR_LOOPBACK) };
    setsockopt(gate, SOL_SOCKET, SO_REUSEADDR, &one, sizeof one);
    if (bind(gate, (struct sockaddr *)&address, sizeof address) || listen(gate, 512)) { perror("answers"); return 1; }
    struct epoll_event event = { .events = EPOLLIN, .data.fd = gate }, events[64];
    epoll_ctl(poll, EPOLL_CTL_ADD, gate, &event);
    for (;;) {
        int count = epoll_wait(poll, events, 64, -1);
        for (int i = 0; i < count; i++) {
            int fd = events[i].data.fd;
            if (fd == gate) {
                int peer = accept4(gate, NULL, NULL, SOCK_NONBLOCK);
                if (peer < 0 || peer >= MOST + 64) continue;
                setsockopt(peer, IPPROTO_TCP, TCP_NODELAY, &one, sizeof one);
                peers[peer] = calloc(1, sizeof **peers);
                event.events = EPOLLIN; event.data.fd = peer;
                epoll_ctl(poll, EPOLL_CTL_ADD, peer, &event);
            } else {
                struct peer *p = peers[fd];
                ssize_t n = recv(fd, p->in + p->held, ROOM - p->held, 0);
                if (n <= 0) { if (n < 0 && errno == EAGAIN) continue; close(fd); free(p); peers[fd] = NULL; continue; }
                p->held += (size_t)n;
                answer(fd, p);
            }
        }
    }
}
