// The configuration space of the device (VIRTIO 1.2, 5.6.4).
#ifndef DAEMON_SPACE_H
#define DAEMON_SPACE_H

#include <stddef.h>
#include <stdint.h>

#include "disks.h"

enum { SPACE_BYTES = 36 };

void space_fill(uint8_t space[SPACE_BYTES], const struct disks *disks, unsigned request_queues);

#endif
