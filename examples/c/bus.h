/* Frames on an interface of SocketCAN, such as can0. */
#ifndef BUS_H
#define BUS_H

#include "lines.h"
#include "vt_terminal.h"
#include <stdbool.h>

/* What a read gave. */
enum bus_read { BUS_FRAME, BUS_EMPTY, BUS_FAULT };

/* Opens an interface for frames with identifiers of 29 bits. Returns -1 if it cannot be opened. */
int open_bus(const char *interface);

/* Sends a frame that was put out. While the interface has no room for it, it is tried again. Returns false if it could not be sent. */
bool send_on_bus(int bus, const struct vt_out *out);

/* Reads a frame, if one waits, with the time at which it was received. */
enum bus_read read_from_bus(int bus, struct frame *frame);

/* The time now, in microseconds of a clock that does not jump. */
uint64_t time_now(void);

#endif
