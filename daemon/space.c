#include "space.h"

#include "bytes.h"

// What a queue of 128 descriptors has room for, besides the request and the response.
enum { SEG_MAX = 126 };

void space_fill(uint8_t space[SPACE_BYTES], const struct disks *disks, unsigned request_queues) {
  uint16_t target = 0, lun = 0;
  for (size_t i = 0; i < disks->count; i++) {
    if (disks->disks[i].target > target) target = disks->disks[i].target;
    if (disks->disks[i].lun > lun) lun = disks->disks[i].lun;
  }
  little_put(space, request_queues, 4);
  little_put(space + 4, SEG_MAX, 4);
  little_put(space + 8, 2048, 4);  // max_sectors
  little_put(space + 12, 64, 4);   // cmd_per_lun
  little_put(space + 16, 16, 4);   // event_info_size
  little_put(space + 20, 96, 4);   // sense_size
  little_put(space + 24, 32, 4);   // cdb_size
  little_put(space + 28, 0, 2);    // max_channel
  little_put(space + 30, target, 2);
  little_put(space + 32, lun, 4);
}
