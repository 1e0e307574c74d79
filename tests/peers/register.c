/* Registers a program with a stock libtirpc on each netid that /etc/netconfig has, looks it up, unregisters it, and looks
   again. Each line says what was expected, and whether it came; the status is 0 if all came. */
#include <arpa/inet.h>
#include <netconfig.h>
#include <netinet/in.h>
#include <rpc/rpc.h>
#include <rpc/pmap_clnt.h>
#include <rpc/rpcb_clnt.h>
#include <stdio.h>
#include <string.h>

enum { PROGRAM = 200001, VERSION = 1, PORT = 2049 };

static int failures;

static void wants(const char *what, int is_right)
{
    printf("%s: %s\n", what, is_right ? "yes" : "NO");
    failures += !is_right;
}

static int port_of(unsigned long protocol)
{
    struct sockaddr_in server = {.sin_family = AF_INET};
    server.sin_addr.s_addr = htonl(INADDR_LOOPBACK);
    return pmap_getport(&server, PROGRAM, VERSION, protocol);
}

static void over_version_2(void)
{
    wants("version 2: registers on udp", pmap_set(PROGRAM, VERSION, IPPROTO_UDP, PORT));
    wants("version 2: refuses it again", !pmap_set(PROGRAM, VERSION, IPPROTO_UDP, PORT + 1));
    wants("version 2: is found on udp", port_of(IPPROTO_UDP) == PORT);
    wants("version 2: is not found on tcp", port_of(IPPROTO_TCP) == 0);
    wants("version 2: unregisters", pmap_unset(PROGRAM, VERSION));
    wants("version 2: is not found any more", port_of(IPPROTO_UDP) == 0);
}

/* Whether the list of all rows has one of the program on this netid. */
static int is_listed(const char *netid)
{
    struct netconfig *tcp = getnetconfigent("tcp");
    rpcblist *row = tcp == NULL ? NULL : rpcb_getmaps(tcp, "127.0.0.1");
    for (; row != NULL; row = row->rpcb_next)
        if (row->rpcb_map.r_prog == PROGRAM && strcmp(row->rpcb_map.r_netid, netid) == 0)
            return 1;
    return 0;
}

static void over_version_4(const char *netid)
{
    struct netconfig *transport = getnetconfigent(netid);
    struct sockaddr_in there = {.sin_family = AF_INET, .sin_port = htons(PORT)}, found;
    struct netbuf address = {sizeof there, sizeof there, &there}, answer = {sizeof found, 0, &found};
    if (transport == NULL) {
        printf("version 4: no netid %s in /etc/netconfig, skipped\n", netid);
        return;
    }
    printf("version 4 on %s\n", netid);
    there.sin_addr.s_addr = htonl(INADDR_LOOPBACK);
    wants("version 4: registers", rpcb_set(PROGRAM, VERSION, transport, &address));
    memset(&found, 0, sizeof found);
    wants("version 4: is found", rpcb_getaddr(PROGRAM, VERSION, transport, &answer, "127.0.0.1")
        && found.sin_port == htons(PORT) && found.sin_addr.s_addr == htonl(INADDR_LOOPBACK));
    wants("version 4: is listed", is_listed(netid));
    wants("version 4: unregisters", rpcb_unset(PROGRAM, VERSION, transport));
    wants("version 4: is not found any more",
        !rpcb_getaddr(PROGRAM, VERSION, transport, &answer, "127.0.0.1"));
    freenetconfigent(transport);
}

static void over_version_4_with_ipv6(const char *netid)
{
    struct netconfig *transport = getnetconfigent(netid);
    struct sockaddr_in6 there = {.sin6_family = AF_INET6, .sin6_port = htons(PORT), .sin6_addr = IN6ADDR_LOOPBACK_INIT};
    struct sockaddr_in6 found;
    struct netbuf address = {sizeof there, sizeof there, &there}, answer = {sizeof found, 0, &found};
    if (transport == NULL) {
        printf("version 4: no netid %s in /etc/netconfig, skipped\n", netid);
        return;
    }
    printf("version 4 on %s\n", netid);
    wants("version 4: registers", rpcb_set(PROGRAM, VERSION, transport, &address));
    wants("version 4: refuses it again", !rpcb_set(PROGRAM, VERSION, transport, &address));
    memset(&found, 0, sizeof found);
    wants("version 4: is found", rpcb_getaddr(PROGRAM, VERSION, transport, &answer, "::1")
        && found.sin6_port == htons(PORT) && IN6_IS_ADDR_LOOPBACK(&found.sin6_addr));
    wants("version 4: is listed", is_listed(netid));
    wants("version 4: unregisters", rpcb_unset(PROGRAM, VERSION, transport));
    wants("version 4: is not found any more", !rpcb_getaddr(PROGRAM, VERSION, transport, &answer, "::1"));
    wants("version 4: is not listed any more", !is_listed(netid));
    freenetconfigent(transport);
}

int main(void)
{
    over_version_2();
    over_version_4("udp");
    over_version_4("tcp");
    over_version_4_with_ipv6("udp6");
    over_version_4_with_ipv6("tcp6");
    return failures != 0;
}
