#include "blocks.h"

#include <errno.h>
#include <stdio.h>
#include <stdlib.h>
#include <string.h>

#include "caches.h"
#include "clock.h"
#include "log.h"
#include "paging.h"
#include "rare.h"

// How many blocks are moved at once; the ranges that a backlog has room for at the most; and milliseconds, of blocks_keep, of
// blocks_finish, between two tries of a file that can't be written, and between two lines that say so.
enum { CHUNK = 128, MOST_RANGES = 1 << 16, PORTION = 20, LAST_PORTIONS = 1000, LEAST_PAUSE = 50, MOST_PAUSE = 5000, COMPLAINT = 60000 };

static bool load_chunk(struct vscsi_disk *store, const struct disk *disk, uint64_t first, uint32_t count) {
  uint8_t bytes[CHUNK * DEVICE_BLOCK];
  size_t length = (size_t)count * DEVICE_BLOCK;
  if (!disk_read(disk, first, count, bytes)) return false;
  bool zeros = !bytes[0] && !memcmp(bytes, bytes + 1, length - 1);
  return zeros || store_load(store, first, count, bytes);
}

// Loads what a file doesn't have as a hole.
static bool load(struct vscsi_disk *store, const struct disk *disk) {
  uint64_t end = 0;
  for (uint64_t at = 0; disk_next(disk, &at, &end); at = end) {
    for (uint64_t here = at; here < end; here += CHUNK)
      if (!load_chunk(store, disk, here, end - here < CHUNK ? (uint32_t)(end - here) : CHUNK)) return false;
  }
  return true;
}

// Returns whether what a guest wrote to a disk is in memory alone.
static bool is_in_memory(const struct disk *disk) {
  bool is_snapshot = disk->read_only && !disk->is_protected;
  return !disk->server && (disk->file < 0 || is_snapshot);
}

bool blocks_load(struct disks *disks, char *why, size_t room) {
  for (size_t i = 0; i < disks->count; i++) {
    const struct disk *disk = &disks->disks[i];
    struct vscsi_disk *store = &disks->stores[i];
    if (store_stands(store)) continue;
    bool has_file = disk->file >= 0;
    if (disk->is_lost) return snprintf(why, room, "a disk in memory was lost for want of memory"), false;
    if (disk->is_backed ? store_make_backed(store, disk->blocks, caches_pages(disk))
                        : store_make(store, disk->blocks) && (!has_file || load(store, disk)))
      continue;
    store_drop(store);
    return snprintf(why, room, "a disk couldn't be loaded"), false;
  }
  return true;
}

void blocks_lose(struct disks *disks) {
  for (size_t i = 0; i < disks->count; i++) {
    disks->disks[i].is_lost = is_in_memory(&disks->disks[i]);
    disks->has_lost = disks->has_lost || disks->disks[i].is_lost;
  }
}

bool blocks_are_in_memory(const struct disks *disks) {
  for (size_t i = 0; i < disks->count; i++)
    if (!disks->disks[i].is_protected && (disks->disks[i].is_backed || is_in_memory(&disks->disks[i]))) return true;
  return false;
}

bool blocks_are_lost(const struct disks *disks) {
  for (size_t i = 0; i < disks->count; i++)
    if (disks->disks[i].is_lost && !store_stands(&disks->stores[i])) return true;
  return false;
}

static bool is_kept(const struct disk *disk) { return disk->file >= 0 && !disk->read_only && !disk->is_backed; }

bool blocks_are_kept(const struct disks *disks) {
  for (size_t i = 0; i < disks->count; i++)
    if (is_kept(&disks->disks[i])) return true;
  return false;
}

static struct vscsi_range *ranges_of(struct backlog *backlog) { return backlog->ranges ? backlog->ranges : backlog->few; }

static size_t room_of(const struct backlog *backlog) { return backlog->ranges ? backlog->room : FEW_RANGES; }

// Gives a backlog room for twice as many ranges. Returns false where it has as much as it gets.
static bool grow(struct backlog *backlog) {
  size_t more = 2 * room_of(backlog);
  struct vscsi_range *ranges = more <= MOST_RANGES ? realloc(backlog->ranges, more * sizeof *ranges) : NULL;
  if (!ranges) return false;
  if (!backlog->ranges) memcpy(ranges, backlog->few, sizeof backlog->few);
  backlog->ranges = ranges;
  backlog->room = more;
  return true;
}

static void swap(struct vscsi_range *a, struct vscsi_range *b) {
  struct vscsi_range kept = *a;
  *a = *b;
  *b = kept;
}

// Moves a range down a heap, behind those that begin later.
static void sift(struct vscsi_range *ranges, size_t at, size_t count) {
  for (size_t child = 2 * at + 1; child < count; at = child, child = 2 * at + 1) {
    if (child + 1 < count && ranges[child + 1].first > ranges[child].first) child++;
    if (ranges[at].first >= ranges[child].first) return;
    swap(&ranges[at], &ranges[child]);
  }
}

// Sorts ranges by their first blocks, with no memory and no call of the system, as qsort may make.
static void sort(struct vscsi_range *ranges, size_t count) {
  for (size_t i = count / 2; i-- > 0;) sift(ranges, i, count);
  for (size_t end = count; end-- > 1;) {
    swap(&ranges[0], &ranges[end]);
    sift(ranges, 0, end);
  }
}

// Joins sorted ranges that meet, or each second one with the one before it. Returns how many are left.
static size_t join(struct vscsi_range *ranges, size_t count, bool pairs) {
  size_t last = 0;
  for (size_t i = 1; i < count; i++) {
    uint64_t end = ranges[last].first + ranges[last].count, its_end = ranges[i].first + ranges[i].count;
    bool joins = pairs ? i % 2 : ranges[i].first <= end;
    if (!joins) ranges[++last] = ranges[i];
    else if (its_end > end) ranges[last].count = its_end - ranges[last].first;
  }
  return count ? last + 1 : 0;
}

// Makes room in a backlog that gets none: half of it at the least. What lies between two ranges may have to be written with them.
static void shrink(struct backlog *backlog) {
  struct vscsi_range *ranges = ranges_of(backlog);
  sort(ranges, backlog->count);
  backlog->count = join(ranges, backlog->count, false);
  if (backlog->count > room_of(backlog) / 2) backlog->count = join(ranges, backlog->count, true);
  backlog->written = backlog->synced = (struct mark){0};
}

// Notes a range of blocks.
static void note(struct backlog *backlog, struct vscsi_range range) {
  if (backlog->count == room_of(backlog) && !grow(backlog)) shrink(backlog);
  ranges_of(backlog)[backlog->count++] = range;
}

// Notes that the guest unmapped blocks of a disk.
static void note_unmapped(struct backlog *backlog, struct vscsi_range range) {
  struct vscsi_range *last = backlog->unmapped + backlog->unmapped_count;
  if (backlog->unmapped_count && last[-1].first + last[-1].count == range.first) last[-1].count += range.count;
  else if (backlog->unmapped_count < MOST_UNMAPPED) backlog->unmapped[backlog->unmapped_count++] = range;
}

static void note_disk(struct device *device, struct disk *disk, struct noted *noted) {
  struct vscsi_range ranges[VSCSI_MOST_RANGES];
  struct vscsi_counts counts = noted->counts, before = counts;
  size_t count = 0;
  bool all = true, counted = device_counts(device, disk->target, disk->lun, &counts);
  // A command that ends with GOOD may have changed blocks, also where it took no data, as FORMAT UNIT does.
  bool is_same = counted && counts.good == before.good;
  if (is_same && counts.check_conditions == before.check_conditions && counts.busy == before.busy) return;
  bool told = device_changed(device, disk->target, disk->lun, &noted->place, ranges, &count, &all);
  noted->counts = counts;
  // A command that doesn't end with GOOD changes no block, whichever blocks it names.
  if (told && is_same) return;
  // Of the commands that change blocks two alone take bytes that aren't whole blocks: UNMAP, and FORMAT UNIT with a list.
  bool unmaps = (counts.data_out - before.data_out) % DEVICE_BLOCK;
  if (!told || all) note(&disk->backlog, (struct vscsi_range){0, disk->blocks});
  for (size_t r = 0; told && !all && r < count; r++) {
    // The disk may have lost some.
    if (ranges[r].first >= disk->blocks) continue;
    if (ranges[r].count > disk->blocks - ranges[r].first) ranges[r].count = disk->blocks - ranges[r].first;
    note(&disk->backlog, ranges[r]);
    if (unmaps) note_unmapped(&disk->backlog, ranges[r]);
  }
}

void blocks_note(struct device *device, struct disks *disks, struct noted *noted) {
  for (size_t i = 0; i < disks->count; i++)
    if (is_kept(&disks->disks[i])) note_disk(device, &disks->disks[i], &noted[i]);
}

static bool is_unmapped(const struct backlog *backlog, uint64_t first, uint32_t count) {
  for (size_t i = 0; i < backlog->unmapped_count; i++) {
    struct vscsi_range it = backlog->unmapped[i];
    if (first >= it.first && first - it.first <= it.count && it.count - (first - it.first) >= count) return true;
  }
  return false;
}

// Copies blocks out of the device, or out of the disk's own value where no device has it.
static bool copy_out(struct device *device, struct disks *disks, size_t which, uint64_t first, uint32_t count, uint8_t *into) {
  const struct disk *disk = &disks->disks[which];
  bool copied = device->live ? device_blocks(device, disk->target, disk->lun, first, count, into)
                             : store_save(&disks->stores[which], first, count, into);
  if (!copied) errno = ENOMEM;
  return copied;
}

// Writes the next blocks of a disk's backlog to its file.
static bool write_chunk(struct device *device, struct disks *disks, size_t which) {
  uint8_t bytes[CHUNK * DEVICE_BLOCK];
  struct disk *disk = &disks->disks[which];
  struct mark *mark = &disk->backlog.written;
  struct vscsi_range range = ranges_of(&disk->backlog)[mark->range];
  uint64_t first = range.first + mark->done, left = range.count - mark->done;
  uint32_t count = left < CHUNK ? (uint32_t)left : CHUNK;
  bool unmapped = is_unmapped(&disk->backlog, first, count);
  if (count && !(copy_out(device, disks, which, first, count, bytes) && disk_write(disk, first, count, bytes, unmapped))) return false;
  mark->done += count;
  if (mark->done == range.count) *mark = (struct mark){.range = mark->range + 1};
  return true;
}

// Notes by which error a disk's file can't be written, and puts the next try off, each time for twice as long.
static enum kept put_off(struct disk *disk) {
  disk->error = errno;
  disk->pause = !disk->pause ? LEAST_PAUSE : disk->pause > MOST_PAUSE / 2 ? MOST_PAUSE : 2 * disk->pause;
  disk->due = clock_now() + disk->pause;
  return STUCK;
}

// Writes a disk's backlog until this time, and waits until that stands on the file.
static enum kept keep(struct device *device, struct disks *disks, size_t which, uint64_t until) {
  struct disk *disk = &disks->disks[which];
  struct backlog *backlog = &disk->backlog;
  do {
    if (backlog->written.range == backlog->count) break;
    if (!write_chunk(device, disks, which)) return put_off(disk);
  } while (clock_now() < until);
  if (!disk_sync(disk)) {
    // The system may have forgotten all that was written since it last stood there for sure, and won't say so again.
    backlog->written = backlog->synced;
    return put_off(disk);
  }
  disk->error = 0;
  disk->pause = 0;
  backlog->synced = backlog->written;
  if (backlog->written.range < backlog->count) return KEEPING;
  backlog->count = backlog->unmapped_count = 0;
  backlog->written = backlog->synced = (struct mark){0};
  return KEPT;
}

enum kept blocks_keep(struct device *device, struct disks *disks, bool at_once) {
  uint64_t until = 0;
  enum kept kept = KEPT;
  for (size_t i = 0; i < disks->count; i++) {
    struct disk *disk = &disks->disks[i];
    if (!disk->backlog.count) disk->backlog.unmapped_count = 0;
    if (!disk->backlog.count) continue;
    bool waits = disk->pause && !at_once && clock_now() < disk->due;
    if (!until) until = clock_now() + PORTION;
    enum kept its = waits ? STUCK : keep(device, disks, i, until);
    if (its > kept) kept = its;
  }
  return kept;
}

bool blocks_are_stuck(const struct disks *disks) {
  for (size_t i = 0; i < disks->count; i++)
    if (disks->disks[i].error) return true;
  return false;
}

bool blocks_are_left(const struct disks *disks) {
  for (size_t i = 0; i < disks->count; i++)
    if (disks->disks[i].backlog.count || paging_is_left(&disks->disks[i])) return true;
  return false;
}

static RARE void tell(struct disk *disk) {
  uint64_t now = clock_now();
  bool is_due = !disk->told || now - disk->told >= COMPLAINT;
  if (disk->error && is_due) {
    const char *whom = disk->reports_unwritten ? ", which its guest is told" : "";
    log_say(LOG_ERROR, disk, "can't be written%s, and is tried again: %s", whom, strerror(disk->error));
    disk->told = now;
  } else if (disk->told && !disk->error && !disk->backlog.count) {
    log_say(LOG_ERROR, disk, "can be written again");
    disk->told = 0;
  }
}

void blocks_tell(struct disks *disks) {
  for (size_t i = 0; i < disks->count; i++)
    if (disks->disks[i].error || disks->disks[i].told) tell(&disks->disks[i]);
}

uint64_t blocks_due(const struct disks *disks) {
  uint64_t due = UINT64_MAX;
  for (size_t i = 0; i < disks->count; i++) {
    const struct disk *disk = &disks->disks[i];
    if (disk->backlog.count && disk->due < due) due = disk->due;
  }
  return due;
}

bool blocks_finish(struct disks *disks, char *why, size_t room) {
  struct device none = {0};
  uint64_t until = clock_now() + LAST_PORTIONS;
  enum kept kept;
  do kept = blocks_keep(&none, disks, true);
  while (kept == KEEPING && clock_now() < until);
  for (size_t i = 0; kept != KEPT && i < disks->count; i++) {
    const struct disk *disk = &disks->disks[i];
    const char *cause = disk->error ? strerror(disk->error) : "there was no time for it";
    if (!disk->backlog.count) continue;
    snprintf(why, room, "disk %u:%u: %s: requests that weren't answered GOOD aren't kept: %s", disk->target, disk->lun, disk->path, cause);
    return false;
  }
  return true;
}
