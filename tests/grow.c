/* Stands in front of the C library's read, and makes the kernel's table of connections grow while it is read: between the
   first read of /proc/net/tcp and the second one a connection is opened, and stays until the table is read anew. If that is
   done, a byte on descriptor 9 says so. */
#define _GNU_SOURCE
#include <arpa/inet.h>
#include <dlfcn.h>
#include <stdio.h>
#include <string.h>
#include <sys/socket.h>
#include <unistd.h>

static int listener = -1, kept = -1, has_grown;

static int is_table(int descriptor)
{
    char path[64], name[64];
    ssize_t length;
    snprintf(path, sizeof path, "/proc/self/fd/%d", descriptor);
    length = readlink(path, name, sizeof name - 1);
    if (length < 0)
        return 0;
    name[length] = 0;
    return strlen(name) > 8 && strcmp(name + strlen(name) - 8, "/net/tcp") == 0;
}

/* By a connection to a listener of its own, which never accepts it. */
static void grow(void)
{
    struct sockaddr_in where = { .sin_family = AF_INET, .sin_addr.s_addr = htonl(INADDR_LOOPBACK) };
    socklen_t length = sizeof where;
    has_grown = 1;
    if (listener < 0) {
        listener = socket(AF_INET, SOCK_STREAM, 0);
        bind(listener, (struct sockaddr *)&where, sizeof where);
        listen(listener, 100);
    }
    getsockname(listener, (struct sockaddr *)&where, &length);
    kept = socket(AF_INET, SOCK_STREAM, 0);
    if (connect(kept, (struct sockaddr *)&where, sizeof where) == 0 && write(9, "x", 1) < 0)
        perror("write");
}

/* The one that was kept goes by a reset, which leaves nothing in the table. */
static void shrink(void)
{
    struct linger at_once = { 1, 0 };
    int there = accept4(listener, NULL, NULL, SOCK_NONBLOCK);
    setsockopt(kept, SOL_SOCKET, SO_LINGER, &at_once, sizeof at_once);
    close(kept);
    if (there >= 0)
        close(there);
    kept = -1;
    has_grown = 0;
}

ssize_t read(int descriptor, void *room, size_t size)
{
    static ssize_t (*next)(int, void *, size_t);
    if (!next)
        next = (ssize_t (*)(int, void *, size_t))dlsym(RTLD_NEXT, "read");
    if (is_table(descriptor)) {
        int is_first = lseek(descriptor, 0, SEEK_CUR) == 0;
        if (is_first && kept >= 0)
            shrink();
        else if (!is_first && !has_grown)
            grow();
    }
    return next(descriptor, room, size);
}
