/* A load on a server: load HOST PORT KIND COUNT MILLISECONDS LENGTH CALL sends a call, in hexadecimal, again and again for so
   long, each answered by so many bytes, and prints how many calls were answered, and in how many nanoseconds:

     tcp      COUNT calls at once on one connection, and again once all are answered
     udp      COUNT calls out on one socket
     connect  COUNT connections at once, a call on each, and again once all are answered and closed

   Over TCP call and answer have the marks of records. */
#define _GNU_SOURCE
#include <netdb.h>
#include <netinet/tcp.h>
#include <stdio.h>
#include <stdlib.h>
#include <string.h>
#include <sys/socket.h>
#include <sys/time.h>
#include <time.h>
#include <unistd.h>

enum { MOST = 256 };

static struct addrinfo *where;
static unsigned char calls[MOST * 256], buffer[1 << 18];
static size_t call_length, reply_length;

static void fail(const char *what)
{
    perror(what);
    exit(1);
}

static long long now(void)
{
    struct timespec t;
    clock_gettime(CLOCK_MONOTONIC, &t);
    return t.tv_sec * 1000000000LL + t.tv_nsec;
}

static int open_to(int type)
{
    struct timeval wait = { 10, 0 };
    int one = 1, s = socket(where->ai_family, type, 0);
    setsockopt(s, SOL_SOCKET, SO_RCVTIMEO, &wait, sizeof wait);
    if (s < 0 || connect(s, where->ai_addr, where->ai_addrlen) < 0)
        fail("connect");
    if (type == SOCK_STREAM)
        setsockopt(s, IPPROTO_TCP, TCP_NODELAY, &one, sizeof one);
    return s;
}

static void send_calls(int s, size_t count)
{
    if (send(s, calls, count * call_length, MSG_NOSIGNAL) != (ssize_t)(count * call_length))
        fail("send");
}

static void read_replies(int s, size_t count)
{
    for (size_t left = count * reply_length; left > 0;) {
        ssize_t came = recv(s, buffer, left < sizeof buffer ? left : sizeof buffer, 0);
        if (came <= 0)
            fail("recv");
        left -= came;
    }
}

static long call_over_tcp(size_t count, long long end)
{
    long done = 0;
    int s = open_to(SOCK_STREAM);
    while (now() < end) {
        send_calls(s, count);
        read_replies(s, count);
        done += count;
    }
    return done;
}

static long call_over_udp(size_t count, long long end)
{
    long done = 0;
    int s = open_to(SOCK_DGRAM);
    for (size_t i = 0; i < count; i++)
        send_calls(s, 1);
    while (now() < end) {
        if (recv(s, buffer, sizeof buffer, 0) < 0)
            fail("recv");
        send_calls(s, 1);
        done++;
    }
    for (size_t i = 0; i < count; i++, done++)
        if (recv(s, buffer, sizeof buffer, 0) < 0)
            fail("recv");
    return done;
}

static long connect_and_call(size_t count, long long end)
{
    long done = 0;
    int s[MOST];
    while (now() < end) {
        for (size_t i = 0; i < count; i++)
            s[i] = open_to(SOCK_STREAM);
        for (size_t i = 0; i < count; i++)
            send_calls(s[i], 1);
        for (size_t i = 0; i < count; i++) {
            read_replies(s[i], 1);
            close(s[i]);
        }
        done += count;
    }
    return done;
}

int main(int words, char **word)
{
    struct addrinfo wanted = { .ai_flags = AI_NUMERICHOST, .ai_socktype = SOCK_STREAM };
    unsigned byte;
    long long begin, end;
    size_t count;
    long done;
    if (words != 8 || getaddrinfo(word[1], word[2], &wanted, &where) != 0)
        return 2;
    count = strtoul(word[4], NULL, 10);
    reply_length = strtoul(word[6], NULL, 10);
    call_length = strlen(word[7]) / 2;
    if (count < 1 || count > MOST || call_length > 256)
        return 2;
    for (size_t i = 0; i < count * call_length; i++) {
        sscanf(word[7] + 2 * (i % call_length), "%2x", &byte);
        calls[i] = byte;
    }
    begin = now();
    end = begin + 1000000LL * atol(word[5]);
    if (strcmp(word[3], "tcp") == 0)
        done = call_over_tcp(count, end);
    else if (strcmp(word[3], "udp") == 0)
        done = call_over_udp(count, end);
    else
        done = connect_and_call(count, end);
    printf("%ld %lld\n", done, now() - begin);
    return 0;
}
