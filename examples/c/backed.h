// What the hosts over backed disks have in common: a device with one such disk, and its guest in a thread of its own. The guest writes
// blocks of more pages than the device may have in memory, all over the disk, reads them back, and flushes them. An example
// that includes this has its name in EXAMPLE.
#ifndef BACKED_H
#define BACKED_H
#include <pthread.h>
#include <sys/eventfd.h>
#include <time.h>
#include <unistd.h>

#include "guest.h"

// Guest memory begins at BASE. Of the disk's last page 5 blocks are the disk's.
enum { BASE = 0x100000, PER_PAGE = VSCSI_PAGE / VSCSI_BLOCK, BLOCKS = 131077, PAGES = (BLOCKS + PER_PAGE - 1) / PER_PAGE };

// The guest writes pieces of 8 blocks, from the middle of a page into the next one: one in each 3 pages, and one at the disk's end.
enum { PIECE = 8, APART = 24, PIECES = 5462 };

// The status BUSY (SAM-5, 5.3.1).
enum { BUSY = 8 };

static _Alignas(4096) uint8_t memory[MEMORY];
static struct vscsi_live device;
static struct vscsi_disk disk;
static int bell = -1, notice = -1; // to the host, and to the guest
static int guest_runs = 1;

// Rings a bell, which is an eventfd.
static inline void ring(int at) {
  if (write(at, &(uint64_t){1}, 8) != 8) exit(1);
}

// Waits until a bell was rung.
static inline void await(int at) {
  uint64_t count;
  if (read(at, &count, sizeof count) != sizeof count) exit(1);
}

// Returns how many bytes of a page are the disk's. Behind them a page has zeros.
static inline size_t size_of(uint64_t page) { return page == PAGES - 1 ? (BLOCKS - page * PER_PAGE) * VSCSI_BLOCK : VSCSI_PAGE; }

// Returns the first block of a piece.
static inline uint32_t first_of(unsigned piece) { return piece < PIECES - 1 ? APART * piece + PER_PAGE / 2 : BLOCKS - PIECE; }

// Returns true if the guest writes a block.
static inline bool is_written(uint64_t block) {
  uint64_t piece = block / APART;
  return block >= BLOCKS - PIECE || (piece < PIECES - 1 && block >= first_of((unsigned)piece) && block < first_of((unsigned)piece) + PIECE);
}

// Fills blocks with what the guest writes there.
static inline void fill(uint8_t *bytes, uint64_t first, unsigned count) {
  for (unsigned k = 0; k < count; k++) {
    memset(bytes + k * VSCSI_BLOCK, (int)((first + k) % 251 + 1), VSCSI_BLOCK);
    memcpy(bytes + k * VSCSI_BLOCK, &(uint64_t){first + k}, 8);
  }
}

// Returns true if a page has what the guest wrote there, and zeros elsewhere.
static inline bool is_kept(uint64_t page, const uint8_t *bytes) {
  uint8_t wanted[VSCSI_PAGE] = {0};
  for (uint64_t k = 0; k < PER_PAGE; k++)
    if (is_written(page * PER_PAGE + k)) fill(wanted + k * VSCSI_BLOCK, page * PER_PAGE + k, 1);
  return memcmp(bytes, wanted, size_of(page)) == 0;
}

// Makes a file of zeros for the disk, which no folder names.
static inline int open_file(const char *folder) {
  char name[4096];
  snprintf(name, sizeof name, "%s/" EXAMPLE ".XXXXXX", folder);
  int file = mkstemp(name);
  if (file < 0 || unlink(name) || ftruncate(file, (off_t)BLOCKS * VSCSI_BLOCK)) exit(1);
  return file;
}

// Returns how many pages of a file have what the guest flushed.
static inline unsigned kept(int file) {
  uint8_t bytes[VSCSI_PAGE];
  unsigned count = 0;
  for (uint64_t page = 0; page < PAGES; page++)
    count += pread(file, bytes, size_of(page), (off_t)(page * VSCSI_PAGE)) == (ssize_t)size_of(page) && is_kept(page, bytes);
  return count;
}

// Leaves no memory behind, wherever the example ends.
static void end(void) {
  vscsi_live_destroy(&device);
  vscsi_disk_destroy(&disk);
}

// Makes the device. At most VSCSI_LEAST_PAGES pages of its disk are in memory.
static inline void open_device(void) {
  static const uint8_t profile = VSCSI_PROFILE_WIDE;
  const struct vscsi_unit unit = {.blocks = BLOCKS, .calm = 1};
  const struct vscsi_region region = {.guest = BASE, .size = MEMORY, .host = memory};
  struct vscsi_ring rings[QUEUES] = {{0}};
  struct vscsi_live_config config = live_config_of(&unit, 1, rings, BASE);
  atexit(end);
  config.profiles = &profile;
  must("disk", vscsi_disk_create_backed(&disk, BLOCKS, VSCSI_LEAST_PAGES));
  must("create", vscsi_live_create(&device, &config, &disk, NULL));
  must("map", vscsi_map(&device, &region, 1));
}

// Lets some time pass, before something is tried again that failed.
static inline void pause_shortly(void) { nanosleep(&(struct timespec){.tv_nsec = 1000000}, NULL); }

// Serves until nothing is left to do, and notifies the guest.
static inline void serve(void) {
  uint32_t owed;
  for (bool more = true; more;) {
    must("serve", vscsi_live_serve(&device, ~UINT32_C(1), 1000, NULL, &more));
    // The control queue comes last: what an abort is about was made available before it.
    if (!more) must("serve", vscsi_live_serve(&device, 1, 1000, NULL, &more));
    must("owed", vscsi_live_owed(&device, &owed));
    if (owed) ring(notice);
  }
}

// The guest.

// Has a command served, and again where it was answered BUSY, as where memory was refused. Returns true if that went well.
static inline bool ask(struct guest *guest, const uint8_t *block, size_t length, uint32_t out, uint32_t in) {
  do {
    request(guest, 0, block, length, out, in);
    ring(bell);
    while (!is_used(guest)) await(notice);
  } while (response_of(guest).status == BUSY);
  return is_good(guest);
}

// Writes or reads a piece. Returns true if that went well, and what was read is what was written.
static inline bool transfer(struct guest *guest, unsigned piece, bool writes) {
  uint32_t lba = first_of(piece);
  const uint8_t block[10] = {writes ? 0x2a : 0x28, 0, (uint8_t)(lba >> 24), (uint8_t)(lba >> 16), (uint8_t)(lba >> 8), (uint8_t)lba, [8] = PIECE};
  uint8_t wanted[PIECE * VSCSI_BLOCK], found[sizeof wanted];
  fill(wanted, lba, PIECE);
  if (writes) store(guest, BASE + DATA_AT, wanted, sizeof wanted);
  if (!ask(guest, block, sizeof block, writes ? sizeof wanted : 0, writes ? 0 : sizeof found)) return false;
  if (!writes) load(guest, BASE + IN_AT, found, sizeof found);
  return writes || memcmp(found, wanted, sizeof wanted) == 0;
}

// Plays the guest, and says how that went.
static void *play_guest(void *unused) {
  static const uint8_t mode_sense[6] = {0x1a, 0x08, 0x08, 0, 24}, synchronize_cache[10] = {0x35};
  struct guest guest = {.memory = memory, .base = BASE};
  unsigned written = 0, read_back = 0;
  uint8_t mode[24];
  bool told = ask(&guest, mode_sense, sizeof mode_sense, 0, sizeof mode);
  load(&guest, BASE + IN_AT, mode, sizeof mode);
  printf("guest: %s WCE=%d DPOFUA=%d\n", told ? "told" : "not told", mode[6] >> 2 & 1, mode[2] >> 4 & 1);
  for (unsigned n = 0; n < PIECES; n++) written += transfer(&guest, n * 1009 % PIECES, true);
  for (unsigned n = 0; n < PIECES; n++) read_back += transfer(&guest, n * 1009 % PIECES, false);
  bool flushed = ask(&guest, synchronize_cache, sizeof synchronize_cache, 0, 0);
  printf("guest: %u pieces written, %u read back, %s\n", written, read_back, flushed ? "flushed" : "not flushed");
  __atomic_store_n(&guest_runs, 0, __ATOMIC_RELEASE);
  ring(bell);
  return unused;
}

// Begins the guest, over a device that is there.
static inline pthread_t begin_guest(void) {
  pthread_t thread;
  bell = eventfd(0, 0), notice = eventfd(0, 0);
  if (bell < 0 || notice < 0 || pthread_create(&thread, NULL, play_guest, NULL)) exit(1);
  return thread;
}

// Returns true until the guest has gone.
static inline bool has_guest(void) { return __atomic_load_n(&guest_runs, __ATOMIC_ACQUIRE); }
#endif
