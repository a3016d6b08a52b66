/* Sends the bytes of a file as one message of J1939, and tells what the stack says of it until it is acknowledged or given up.

       message FILE INTERFACE FROM TO PGN

   The numbers are hexadecimal. j1939cat does the same, but that of can-utils 2020.11 ends with an error at the first notice of Linux 6.1. */
#define _GNU_SOURCE
#include <errno.h>
#include <net/if.h>
#include <poll.h>
#include <stdbool.h>
#include <stdint.h>
#include <stdio.h>
#include <stdlib.h>
#include <string.h>
#include <sys/socket.h>
#include <time.h>
#include <linux/can.h>
#include <linux/can/j1939.h>
#include <linux/errqueue.h>
#include <linux/net_tstamp.h>

/* The greatest message, the room for a notice, and the milliseconds that a notice may take. */
enum { ROOM = 1 << 21, NOTICE = 1024, PATIENCE = 10000 };

/* What the stack says of a message. */
enum notice { NOTHING, BEGUN, ACKNOWLEDGED, GIVEN_UP };

static unsigned number(const char *text)
{
    return (unsigned)strtoul(text, NULL, 16);
}

static struct sockaddr_can address(const char *interface, unsigned node, unsigned group)
{
    struct sockaddr_can at;
    memset(&at, 0, sizeof at);
    at.can_family = AF_CAN;
    at.can_ifindex = (int)if_nametoindex(interface);
    at.can_addr.j1939.name = J1939_NO_NAME;
    at.can_addr.j1939.addr = (uint8_t)node;
    at.can_addr.j1939.pgn = group;
    return at;
}

static int open_stack(const struct sockaddr_can *own)
{
    int on = 1;
    int notices = SOF_TIMESTAMPING_SOFTWARE | SOF_TIMESTAMPING_OPT_CMSG | SOF_TIMESTAMPING_TX_ACK | SOF_TIMESTAMPING_TX_SCHED |
        SOF_TIMESTAMPING_OPT_STATS | SOF_TIMESTAMPING_OPT_TSONLY | SOF_TIMESTAMPING_OPT_ID;
    int stack = socket(PF_CAN, SOCK_DGRAM, CAN_J1939);
    if (stack < 0 || bind(stack, (const struct sockaddr *)own, sizeof *own) < 0 ||
        setsockopt(stack, SOL_CAN_J1939, SO_J1939_ERRQUEUE, &on, sizeof on) < 0 ||
        setsockopt(stack, SOL_SOCKET, SO_TIMESTAMPING, &notices, sizeof notices) < 0) {
        return -1;
    }
    return stack;
}

static enum notice meaning(const struct sock_extended_err *told)
{
    if (told->ee_origin == SO_EE_ORIGIN_TIMESTAMPING) {
        return told->ee_info == SCM_TSTAMP_ACK ? ACKNOWLEDGED : told->ee_info == SCM_TSTAMP_SCHED ? BEGUN : NOTHING;
    }
    if (told->ee_origin == SO_EE_ORIGIN_LOCAL && told->ee_info == J1939_EE_INFO_TX_ABORT) {
        printf("given up: %s\n", strerror((int)told->ee_errno));
        return GIVEN_UP;
    }
    return NOTHING;
}

/* Takes a notice from the socket's queue of errors. */
static enum notice take(int stack)
{
    char room[NOTICE];
    struct sock_extended_err told;
    struct msghdr message;
    memset(&message, 0, sizeof message);
    message.msg_control = room;
    message.msg_controllen = sizeof room;
    if (recvmsg(stack, &message, MSG_ERRQUEUE | MSG_DONTWAIT) < 0) {
        return NOTHING;
    }
    for (struct cmsghdr *part = CMSG_FIRSTHDR(&message); part != NULL; part = CMSG_NXTHDR(&message, part)) {
        if (part->cmsg_level == SOL_CAN_J1939 && part->cmsg_type == SCM_J1939_ERRQUEUE) {
            memcpy(&told, CMSG_DATA(part), sizeof told);
            return meaning(&told);
        }
    }
    return NOTHING;
}

/* Waits until the stack says how it ended. */
static bool is_acknowledged(int stack)
{
    struct pollfd wanted = {stack, 0, 0};
    while (poll(&wanted, 1, PATIENCE) > 0) {
        enum notice notice = take(stack);
        if (notice == ACKNOWLEDGED || notice == GIVEN_UP) {
            return notice == ACKNOWLEDGED;
        }
    }
    puts("no notice");
    return false;
}

int main(int count, char **words)
{
    static char bytes[ROOM];
    if (count != 6) {
        fputs("message FILE INTERFACE FROM TO PGN\n", stderr);
        return 2;
    }
    FILE *file = fopen(words[1], "rb");
    size_t size = file == NULL ? 0 : fread(bytes, 1, sizeof bytes, file);
    struct sockaddr_can own = address(words[2], number(words[3]), J1939_NO_PGN);
    struct sockaddr_can peer = address(words[2], number(words[4]), number(words[5]));
    int stack = open_stack(&own);
    if (size == 0 || stack < 0 || sendto(stack, bytes, size, 0, (struct sockaddr *)&peer, sizeof peer) != (ssize_t)size) {
        perror(words[1]);
        return 1;
    }
    bool is_sent = is_acknowledged(stack);
    printf("%zu bytes of %s to %s: %s\n", size, words[1], words[4], is_sent ? "acknowledged" : "failed");
    return is_sent ? 0 : 1;
}
