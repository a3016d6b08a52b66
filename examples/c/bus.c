#define _GNU_SOURCE
#include "bus.h"
#include <errno.h>
#include <linux/can.h>
#include <linux/can/raw.h>
#include <net/if.h>
#include <string.h>
#include <sys/ioctl.h>
#include <sys/socket.h>
#include <time.h>
#include <unistd.h>

/* How often a frame is sent that the interface has no room for, and the microseconds between. */
enum { SENDS = 1000, SEND_PAUSE = 200 };

int open_bus(const char *interface)
{
    struct ifreq request;
    struct sockaddr_can address;
    struct can_filter filter = {CAN_EFF_FLAG, CAN_EFF_FLAG | CAN_RTR_FLAG};
    int on = 1;
    int bus = socket(PF_CAN, SOCK_RAW | SOCK_NONBLOCK | SOCK_CLOEXEC, CAN_RAW);
    memset(&request, 0, sizeof request);
    memset(&address, 0, sizeof address);
    strncpy(request.ifr_name, interface, IFNAMSIZ - 1);
    if (bus < 0 || ioctl(bus, SIOCGIFINDEX, &request) < 0) {
        return -1;
    }
    address.can_family = AF_CAN;
    address.can_ifindex = request.ifr_ifindex;
    if (setsockopt(bus, SOL_CAN_RAW, CAN_RAW_FILTER, &filter, sizeof filter) < 0 ||
        setsockopt(bus, SOL_SOCKET, SO_TIMESTAMPNS, &on, sizeof on) < 0) {
        return -1;
    }
    return bind(bus, (struct sockaddr *)&address, sizeof address) < 0 ? -1 : bus;
}

bool send_on_bus(int bus, const struct vt_out *out)
{
    struct can_frame raw;
    memset(&raw, 0, sizeof raw);
    raw.can_id = out->id | CAN_EFF_FLAG;
    raw.can_dlc = (uint8_t)out->count;
    memcpy(raw.data, out->data, out->count);
    for (int sends = 0; sends < SENDS; sends++) {
        if (write(bus, &raw, sizeof raw) == (ssize_t)sizeof raw) {
            return true;
        }
        if (errno != ENOBUFS && errno != EAGAIN && errno != EINTR) {
            return false;
        }
        usleep(SEND_PAUSE);
    }
    return false;
}

static uint64_t microseconds(struct timespec time)
{
    return (uint64_t)time.tv_sec * 1000000 + (uint64_t)time.tv_nsec / 1000;
}

static uint64_t clock_now(clockid_t clock)
{
    struct timespec time;
    clock_gettime(clock, &time);
    return microseconds(time);
}

uint64_t time_now(void)
{
    return clock_now(CLOCK_MONOTONIC);
}

/* The time at which the kernel received a message: it tells it by the time of day, whose distance from the other clock is that of now. A
 * message without it, or from the future, was received now. */
static uint64_t time_of(struct msghdr *message)
{
    uint64_t now = time_now(), today = clock_now(CLOCK_REALTIME), age = 0;
    for (struct cmsghdr *part = CMSG_FIRSTHDR(message); part != NULL; part = CMSG_NXTHDR(message, part)) {
        if (part->cmsg_level == SOL_SOCKET && part->cmsg_type == SCM_TIMESTAMPNS) {
            struct timespec time;
            memcpy(&time, CMSG_DATA(part), sizeof time);
            age = microseconds(time) < today ? today - microseconds(time) : 0;
        }
    }
    return age < now ? now - age : now;
}

enum bus_read read_from_bus(int bus, struct frame *frame)
{
    struct can_frame raw;
    union {
        struct cmsghdr aligned;
        char bytes[CMSG_SPACE(sizeof(struct timespec))];
    } control;
    struct iovec part = {&raw, sizeof raw};
    struct msghdr message = {.msg_iov = &part, .msg_iovlen = 1, .msg_control = control.bytes, .msg_controllen = sizeof control.bytes};
    if (recvmsg(bus, &message, 0) != (ssize_t)sizeof raw) {
        return errno == EAGAIN || errno == EINTR ? BUS_EMPTY : BUS_FAULT;
    }
    struct frame heard = {time_of(&message), raw.can_id & CAN_EFF_MASK, raw.can_dlc, {0}};
    memcpy(heard.data, raw.data, heard.count <= sizeof heard.data ? heard.count : sizeof heard.data);
    *frame = heard;
    return BUS_FRAME;
}
