/* The least server: it answers each call over UDP and TCP by the bytes that it was given for the call's version and procedure,
   with the call's number in their place, and looks at nothing else. It shows what the system and the load cost.

   least-server PORT reads lines 'udp|tcp VERSION PROCEDURE LENGTH REPLY' until there are no more: how long a call is, and the
   reply in hexadecimal, over TCP both with the marks of records. It says that it listens at 127.0.0.1, and serves. */
#define _GNU_SOURCE
#include <arpa/inet.h>
#include <netinet/tcp.h>
#include <stdint.h>
#include <stdio.h>
#include <stdlib.h>
#include <string.h>
#include <sys/epoll.h>
#include <sys/socket.h>
#include <unistd.h>

enum { UDP, TCP, LONGEST = 1 << 20 };

struct answer {
    size_t call;
    size_t length;
    unsigned char *reply;
};

static struct answer answers[2][5][16];
static unsigned char in[1 << 16], out[LONGEST];

static void fail(const char *what)
{
    perror(what);
    exit(1);
}

static void read_answers(void)
{
    char name[4], *text;
    unsigned version, procedure, byte;
    size_t call;
    while (scanf("%3s %u %u %zu %ms", name, &version, &procedure, &call, &text) == 5) {
        struct answer *answer = &answers[name[0] == 't'][version % 5][procedure % 16];
        answer->call = call;
        answer->length = strlen(text) / 2;
        answer->reply = malloc(answer->length);
        for (size_t i = 0; i < answer->length && sscanf(text + 2 * i, "%2x", &byte) == 1; i++)
            answer->reply[i] = byte;
        free(text);
    }
}

/* The answer to a call, whose bytes begin after the mark. */
static struct answer *answer_to(int transport, const unsigned char *call)
{
    return &answers[transport][call[19] % 5][call[23] % 16];
}

static int open_at(int type, int port)
{
    struct sockaddr_in where = { .sin_family = AF_INET, .sin_port = htons(port) };
    int one = 1, s = socket(AF_INET, type, 0);
    where.sin_addr.s_addr = htonl(INADDR_LOOPBACK);
    setsockopt(s, SOL_SOCKET, SO_REUSEADDR, &one, sizeof one);
    if (bind(s, (struct sockaddr *)&where, sizeof where) < 0 || (type == SOCK_STREAM && listen(s, 1024) < 0))
        fail("bind");
    return s;
}

static void watch(int poll, int s)
{
    struct epoll_event event = { .events = EPOLLIN, .data.fd = s };
    if (epoll_ctl(poll, EPOLL_CTL_ADD, s, &event) < 0)
        fail("epoll_ctl");
}

static void serve_datagrams(int s)
{
    struct sockaddr_in from;
    socklen_t length = sizeof from;
    while (recvfrom(s, in, sizeof in, MSG_DONTWAIT, (struct sockaddr *)&from, &length) >= 40) {
        struct answer *answer = answer_to(UDP, in);
        memcpy(out, answer->reply, answer->length);
        memcpy(out, in, 4);
        sendto(s, out, answer->length, 0, (struct sockaddr *)&from, length);
    }
}

static void send_all(int s, size_t count)
{
    for (size_t sent = 0; sent < count;) {
        ssize_t came = send(s, out + sent, count - sent, MSG_NOSIGNAL);
        if (came <= 0)
            return;
        sent += came;
    }
}

/* Whole calls only: what the load sends comes so. */
static void serve_stream(int s)
{
    ssize_t count = recv(s, in, sizeof in, 0);
    size_t ready = 0;
    if (count <= 0) {
        close(s);
        return;
    }
    for (ssize_t at = 0; at + 44 <= count;) {
        struct answer *answer = answer_to(TCP, in + at + 4);
        if (answer->call == 0)
            break;
        if (ready + answer->length > LONGEST) {
            send_all(s, ready);
            ready = 0;
        }
        memcpy(out + ready, answer->reply, answer->length);
        memcpy(out + ready + 4, in + at + 4, 4);
        ready += answer->length;
        at += answer->call;
    }
    send_all(s, ready);
}

int main(int count, char **words)
{
    int port = count > 1 ? atoi(words[1]) : 0, one = 1, poll = epoll_create1(0);
    int datagrams = open_at(SOCK_DGRAM, port), listener = open_at(SOCK_STREAM, port);
    struct epoll_event events[64];
    read_answers();
    watch(poll, datagrams);
    watch(poll, listener);
    puts("listening");
    fflush(stdout);
    for (;;) {
        int ready = epoll_wait(poll, events, 64, -1);
        for (int i = 0; i < ready; i++) {
            int s = events[i].data.fd;
            if (s == datagrams) {
                serve_datagrams(s);
            } else if (s == listener) {
                int client = accept(listener, NULL, NULL);
                setsockopt(client, IPPROTO_TCP, TCP_NODELAY, &one, sizeof one);
                watch(poll, client);
            } else {
                serve_stream(s);
            }
        }
    }
}
