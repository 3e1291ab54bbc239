#include "paging.h"

#include <errno.h>
#include <stdio.h>
#include <stdlib.h>
#include <string.h>
#include <sys/stat.h>

#include "caches.h"
#include "clock.h"
#include "log.h"
#include "rare.h"
#include "storage.h"

// Milliseconds: between two tries of a file that can't be read or written, and two lines that say so; for how long what was written waits for
// a sync where nobody may wait for it, and where somebody may; and of paging_finish. And how many pages don't wait.
enum { LEAST_PAUSE = 50, MOST_PAUSE = 5000, COMPLAINT = 60000, LAZY = 200, HASTY = 10, LAST = 1000, MANY_PAGES = 4096 };

static uint64_t bytes_of(const struct disk *disk) { return disk->blocks * DEVICE_BLOCK; }

bool paging_is_there(const struct disks *disks) {
  for (size_t i = 0; i < disks->count; i++)
    if (disks->disks[i].is_backed) return true;
  return false;
}

static bool open_disk(struct disk *disk, char *why, size_t room) {
  struct stat stat;
  disk->paging = calloc(1, sizeof *disk->paging);
  if (!disk->paging) return snprintf(why, room, "memory was refused"), false;
  if (disk->server) return disk->paging->has_no_holes = !server_zeroes(disk->server), true;
  if (fstat(disk->file, &stat)) return snprintf(why, room, "%s: %s", disk->path, strerror(errno)), false;
  disk->paging->is_device = S_ISBLK(stat.st_mode);
  return true;
}

bool paging_join(struct disks *disks, struct disk *disk, char *why, size_t room) {
  if (disks->storage) return open_disk(disk, why, room);
  return snprintf(why, room, "%s: the daemon began without io_uring, which the system refused", caches_word(disk)), false;
}

bool paging_open(struct disks *disks, bool comes, char *why, size_t room) {
  bool is_there = paging_is_there(disks);
  // The daemon's limits allow no ring to be made later.
  if (is_there || (comes && storage_is_built())) disks->storage = storage_make(why, room);
  bool stands = disks->storage || !is_there;
  for (size_t i = 0; stands && i < disks->count; i++) {
    if (!disks->disks[i].is_backed) continue;
    stands = open_disk(&disks->disks[i], why, room);
    if (disks->disks[i].server) storage_add(disks->storage, disks->disks[i].server);
  }
  return stands;
}

void paging_close(struct disks *disks) {
  if (!disks->storage) return;
  paging_end_rest(disks, UINT64_MAX);
  for (size_t i = 0; i < disks->count; i++) paging_leave(disks, &disks->disks[i]);
  storage_end(disks->storage);
  disks->storage = NULL;
}

void paging_leave(struct disks *disks, struct disk *disk) {
  if (!disk->paging) return;
  if (disk->server) storage_leave(disks->storage, disk->server);
  ahead_end(&disk->paging->ahead);
  free(disk->paging);
  disk->paging = NULL;
}

bool paging_watch(struct disks *disks, int epoll, uint32_t event) { return !disks->storage || storage_watch(disks->storage, epoll, event); }

// Returns whether a disk's server can't be reached now. Nothing is begun meanwhile, and nothing has to be put off.
static bool is_away(const struct disk *disk) { return disk->server && !server_is_there(disk->server); }

void paging_begin(struct disks *disks) {
  for (size_t i = 0; i < disks->count; i++) {
    struct disk *disk = &disks->disks[i];
    if (!disk->paging) continue;
    disk->paging->target = disk->target;
    disk->paging->lun = disk->lun;
    disk->paging->is_left = true;
  }
}

static unsigned longer(unsigned pause) { return !pause ? LEAST_PAUSE : pause > MOST_PAUSE / 2 ? MOST_PAUSE : 2 * pause; }

// Puts off what reads a file, or what writes it, each time for twice as long.
static RARE void put_reads_off(struct trouble *reading, uint64_t page, int error) {
  // Others that were under way with the one that failed first.
  if (reading->error && clock_now() < reading->due) return;
  reading->error = error;
  reading->is_lost = false;
  reading->page = page;
  reading->pause = longer(reading->pause);
  reading->due = clock_now() + reading->pause;
}

// Whether a page that was read by itself is lost: the storage says so of the page, and of nothing else that may pass.
static RARE bool is_lost(const struct disk *disk, const struct transfer *transfer, int error) {
  bool is_stale = transfer->stale[0] & 1;
  if (transfer->count != 1 || is_stale || disk->stops_unread || is_away(disk)) return false;
  return error == EIO || error == ENODATA || error == EILSEQ || error == EREMOTEIO;
}

// Has the device end what needs the page. Others are read by themselves for a while, so that an error is one page's.
static RARE void lose(struct paging *paging, struct device *device, uint64_t page, int error) {
  device_lost(device, paging->target, paging->lun, page);
  paging->counts.unread++;
  paging->reading = (struct trouble){.error = error, .is_lost = true, .page = page, .due = clock_now(), .told = paging->reading.told};
}

static RARE void put_writes_off(struct disk *disk, int error) {
  disk->paging->fails = true;
  if (is_away(disk) || (disk->error && clock_now() < disk->due)) return;
  disk->error = error;
  disk->pause = longer(disk->pause);
  disk->due = clock_now() + disk->pause;
}

// Returns what becomes of pages that couldn't be written, or synced. A server refuses none where its connection was lost by then.
static RARE enum run_state refused(const struct disk *disk) {
  bool is_cut = disk->server && (is_away(disk) || disk->paging->losses != server_losses(disk->server));
  return disk->reports_unwritten && !is_cut ? RUN_DENIED : RUN_FAILED;
}

// Notes pages that were written, or that couldn't be.
static void note_run(struct paging *paging, const struct transfer *transfer, enum run_state state) {
  paging->runs[paging->run_count++] = (struct run){transfer->first, transfer->count, state};
  if (state != RUN_WRITTEN) return;
  if (!paging->pages) paging->since = clock_now();
  paging->pages += transfer->count;
  paging->counts.written += transfer->count;
}

static void change_runs(struct paging *paging, enum run_state from, enum run_state to) {
  for (size_t i = 0; i < paging->run_count; i++)
    if (paging->runs[i].state == from) paging->runs[i].state = to;
  if (from == RUN_WRITTEN) paging->pages = 0;
}

// Has reads go on as ever where the page was read that couldn't be, or no command has wanted it for long.
static RARE void note_read(struct trouble *reading, const struct transfer *transfer) {
  bool has_page = reading->page >= transfer->first && reading->page - transfer->first < transfer->count;
  if (has_page || clock_now() >= reading->due + COMPLAINT) *reading = (struct trouble){.told = reading->told};
}

// Hands in a page that the device wants, or says that it doesn't come.
static void hand_in(struct paging *paging, struct device *device, uint64_t page, const uint8_t *bytes, bool comes) {
  bool loaded = comes && device_load(device, paging->target, paging->lun, page, bytes);
  if (!loaded) device_load_failed(device, paging->target, paging->lun, page);
  paging->starves = paging->starves || (comes && !loaded);
  paging->counts.handed_in += loaded;
  paging->counts.unread += !loaded;
}

// Hands in what is wanted of pages that were read ahead. Where they can't be read they are wanted once more, and read by themselves.
static void finish_ahead(struct paging *paging, struct device *device, const struct transfer *transfer, int error) {
  struct chunk *chunk = ahead_find(&paging->ahead, transfer->first);
  for (uint64_t left = chunk->wanted; left; left &= left - 1) {
    unsigned i = (unsigned)__builtin_ctzll(left);
    bool comes = !error && chunk->stands >> i & 1;
    hand_in(paging, device, chunk->first + i, transfer->pages[i], comes);
    paging->counts.ahead += comes;
  }
  paging->counts.read += error ? 0 : transfer->count;
  ahead_finish(&paging->ahead, chunk, !error);
}

static void finish_read(struct disk *disk, struct device *device, const struct transfer *transfer, int error) {
  struct paging *paging = disk->paging;
  if (error && is_lost(disk, transfer, error)) {
    lose(paging, device, transfer->first, error);
    return;
  }
  for (unsigned i = 0; i < transfer->count; i++) {
    bool is_old = error || transfer->stale[i / 64] >> i % 64 & 1;
    hand_in(paging, device, transfer->first + i, transfer->pages[i], !is_old);
  }
  paging->counts.read += error ? 0 : transfer->count;
  if (error && !is_away(disk)) put_reads_off(&paging->reading, transfer->first, error);
  else if (paging->reading.error && !error) note_read(&paging->reading, transfer);
}

// Where a sync fails the system may have forgotten all that was written before, and won't say so again.
static void finish_sync(struct disks *disks, struct disk *disk, int error) {
  struct paging *paging = disk->paging;
  paging->syncs = false;
  change_runs(paging, RUN_COVERED, error ? refused(disk) : RUN_KEPT);
  paging->counts.syncs += !error;
  if (!error) {
    if (!paging->fails && !paging->writes) disk->error = 0, disk->pause = 0;
    return;
  }
  change_runs(paging, RUN_WRITTEN, refused(disk));
  for (enum transfer_kind kind = TRANSFER_WRITE; kind <= TRANSFER_HOLE; kind++)
    for (struct transfer *it = storage_under_way(disks->storage, kind); it; it = it->next)
      if (&disks->disks[it->disk] == disk) it->doubtful = true;
  put_writes_off(disk, error);
}

// Takes a transfer that is over. Returns false where it goes on.
static bool finish(struct disks *disks, struct device *device, struct transfer *transfer, int error) {
  struct disk *disk = &disks->disks[transfer->disk];
  struct paging *paging = disk->paging;
  if (transfer->kind == TRANSFER_HOLE && error && !transfer->fills) {
    paging->has_no_holes = error == EOPNOTSUPP || error == ENOSYS || error == ENODEV;
    return storage_fill(disks->storage, transfer, bytes_of(disk)), false;
  }
  paging->transfers--;
  if (transfer->kind == TRANSFER_READ) return finish_read(disk, device, transfer, error), true;
  if (transfer->kind == TRANSFER_AHEAD) return finish_ahead(paging, device, transfer, error), true;
  if (transfer->kind == TRANSFER_SYNC) return finish_sync(disks, disk, error), true;
  paging->writes--;
  note_run(paging, transfer, error || transfer->doubtful ? refused(disk) : RUN_WRITTEN);
  if (error) put_writes_off(disk, error);
  return true;
}

// Tells the device of the pages of a run. Returns false where memory was refused: the run has those that are left then.
static bool say_run(struct paging *paging, struct device *device, struct run *run) {
  bool is_kept = run->state == RUN_KEPT, is_denied = run->state == RUN_DENIED;
  for (; run->count; run->first++, run->count--) {
    bool is_told = is_denied ? device_denied(device, paging->target, paging->lun, run->first)
                             : device_written(device, paging->target, paging->lun, run->first, is_kept);
    if (!is_told) return !(paging->starves = true);
    ++*(is_kept ? &paging->counts.kept : &paging->counts.failed);
  }
  return true;
}

// Tells the device of each run of which it is known whether it stands on the file.
static void say_runs(struct paging *paging, struct device *device) {
  size_t left = 0;
  for (size_t i = 0; i < paging->run_count; i++) {
    struct run run = paging->runs[i];
    bool is_known = run.state != RUN_WRITTEN && run.state != RUN_COVERED;
    if (!is_known || !say_run(paging, device, &run)) paging->runs[left++] = run;
  }
  paging->run_count = left;
}

// Finds whether a disk's server was lost since that was last looked at. No flush of the next connection keeps what went over that one.
static void note_losses(struct disk *disk) {
  struct paging *paging = disk->paging;
  if (!disk->server || paging->losses == server_losses(disk->server)) return;
  paging->losses = server_losses(disk->server);
  change_runs(paging, RUN_WRITTEN, RUN_FAILED);
  ahead_drop(&paging->ahead, 0, UINT64_MAX);
}

enum came paging_take(struct disks *disks, struct device *device, size_t *reads) {
  struct transfer *transfer;
  enum came came = CAME_NOTHING;
  bool passed = false;
  int error;
  while ((transfer = storage_next(disks->storage, &error, &passed))) {
    bool is_read = !error && (transfer->kind == TRANSFER_READ || transfer->kind == TRANSFER_AHEAD);
    *reads += is_read;
    if (came != CAME_MORE) came = is_read ? CAME_READS : CAME_MORE;
    if (finish(disks, device, transfer, error)) storage_put(disks->storage, transfer);
  }
  if (passed) came = CAME_MORE;
  for (size_t i = 0; came != CAME_NOTHING && i < disks->count; i++) {
    if (!disks->disks[i].paging) continue;
    note_losses(&disks->disks[i]);
    say_runs(disks->disks[i].paging, device);
  }
  return came;
}

// Pages that go into transfers as they come: those that follow one another into one.
struct gathering {
  struct disks *disks;
  size_t which;  // of them
  unsigned most;  // of a transfer
  struct transfer *now, *spare;
};

static void begin_transfer(struct disks *disks, size_t which, struct transfer *transfer) {
  struct disk *disk = &disks->disks[which];
  transfer->disk = which;
  transfer->file = disk->file;
  transfer->server = disk->server;
  disk->paging->transfers++;
  disk->paging->writes += transfer->kind == TRANSFER_WRITE || transfer->kind == TRANSFER_HOLE;
  storage_begin(disks->storage, transfer, bytes_of(disk));
}

// Has room for one more page, wherever it is. Returns false where there is none: no page is asked for then.
static bool has_room(struct gathering *gathering, enum transfer_kind kind) {
  struct transfer *now = gathering->now;
  if (now && now->count == gathering->most) {
    begin_transfer(gathering->disks, gathering->which, now);
    gathering->now = NULL;
  }
  if (!gathering->now) gathering->now = storage_take(gathering->disks->storage, kind);
  if (!gathering->spare) gathering->spare = storage_take(gathering->disks->storage, kind);
  return gathering->now && gathering->spare;
}

// Returns the buffer of the page that came last, or NULL.
static const uint8_t *last_of(const struct gathering *gathering) {
  const struct transfer *now = gathering->now;
  return now->count ? now->pages[now->count - 1] : NULL;
}

static void add_page(struct gathering *gathering, enum transfer_kind kind, uint64_t page, uint8_t *buffer) {
  struct transfer *now = gathering->now;
  if (now->count && (now->kind != kind || page != now->first + now->count)) {
    begin_transfer(gathering->disks, gathering->which, now);
    now = gathering->now = gathering->spare;
    gathering->spare = NULL;
  }
  if (!now->count) now->first = page;
  now->kind = kind;
  now->pages[now->count++] = buffer;
}

static void end_gathering(struct gathering *gathering) {
  if (gathering->now && gathering->now->count) begin_transfer(gathering->disks, gathering->which, gathering->now);
  else if (gathering->now) storage_put(gathering->disks->storage, gathering->now);
  if (gathering->spare) storage_put(gathering->disks->storage, gathering->spare);
}

// Leaves out of a chunk whose read begins each page that was given to be written, and of which the device wasn't told yet whether it is
// kept.
static void drop_given(struct disks *disks, size_t which) {
  struct paging *paging = disks->disks[which].paging;
  for (size_t i = 0; i < paging->run_count; i++) ahead_drop(&paging->ahead, paging->runs[i].first, paging->runs[i].count);
  for (enum transfer_kind kind = TRANSFER_WRITE; kind <= TRANSFER_HOLE; kind++)
    for (struct transfer *it = storage_under_way(disks->storage, kind); it; it = it->next)
      if (it->disk == which) ahead_drop(&paging->ahead, it->first, it->count);
}

// Begins to read the pages ahead that are wanted next, perhaps.
static void read_ahead(struct disks *disks, size_t which) {
  struct disk *disk = &disks->disks[which];
  struct ahead *ahead = &disk->paging->ahead;
  for (struct chunk *chunk; !disk->paging->reading.error && (chunk = ahead_begin(ahead, bytes_of(disk) / PAGE_BYTES));) {
    struct transfer *transfer = storage_take(disks->storage, TRANSFER_AHEAD);
    if (!transfer) {
      ahead_finish(ahead, chunk, false);
      return;
    }
    drop_given(disks, which);
    transfer->first = chunk->first;
    transfer->count = chunk->count;
    for (size_t i = 0; i < chunk->count; i++) transfer->pages[i] = chunk->bytes + i * PAGE_BYTES;
    begin_transfer(disks, which, transfer);
  }
}

// Begins to read the pages that commands of a disk want, and hands in those that were read ahead. Returns whether there was one.
static bool begin_reads(struct disks *disks, size_t which, struct device *device) {
  struct disk *disk = &disks->disks[which];
  struct paging *paging = disk->paging;
  bool handed_in = false, comes;
  // Beside one that can't be read others may be.
  struct gathering gathering = {disks, which, paging->reading.error ? 1 : MOST_TRANSFERRED, NULL, NULL};
  // No command of the daemon's own device wants a page.
  if (device == &disks->rest || is_away(disk) || (paging->reading.error && clock_now() < paging->reading.due)) return false;
  while (has_room(&gathering, TRANSFER_READ)) {
    uint8_t *buffer = storage_buffer(disks->storage, TRANSFER_READ, last_of(&gathering));
    uint64_t page;
    if (!buffer) break;
    if (!device_wanted(device, paging->target, paging->lun, &page)) {
      storage_put_buffer(disks->storage, buffer, TRANSFER_READ);
      break;
    }
    const uint8_t *bytes = ahead_take(&paging->ahead, page, !paging->has_turn, &comes);
    paging->has_turn = true;
    paging->counts.asked++;
    if (bytes || comes) storage_put_buffer(disks->storage, buffer, TRANSFER_READ);
    else add_page(&gathering, TRANSFER_READ, page, buffer);
    if (!bytes) continue;
    hand_in(paging, device, page, bytes, true);
    paging->counts.ahead++;
    handed_in = true;
  }
  end_gathering(&gathering);
  return handed_in;
}

// What is being read of a page that is written now may be older, and what was read ahead is.
static void note_stale(struct disks *disks, size_t which, uint64_t page) {
  ahead_drop(&disks->disks[which].paging->ahead, page, 1);
  for (struct transfer *it = storage_under_way(disks->storage, TRANSFER_READ); it; it = it->next)
    if (it->disk == which && page >= it->first && page - it->first < it->count)
      it->stale[(page - it->first) / 64] |= UINT64_C(1) << (page - it->first) % 64;
}

static bool is_zeros(const uint8_t *page) { return !page[0] && !memcmp(page, page + 1, PAGE_BYTES - 1); }

// Begins to write the pages that the guest changed.
static void begin_writes(struct disks *disks, size_t which, struct device *device) {
  struct disk *disk = &disks->disks[which];
  struct paging *paging = disk->paging;
  struct gathering gathering = {disks, which, disk->error ? 1 : MOST_TRANSFERRED, NULL, NULL};
  bool punches = disk->punches && !paging->is_device && !paging->has_no_holes;
  paging->gave_all = false;
  if (is_away(disk) || (disk->error && clock_now() < disk->due)) return;
  paging->fails = false;
  // Each transfer that is begun here takes a run, and so may those that were gathered.
  while (paging->run_count + paging->writes + 2 <= MOST_RUNS && has_room(&gathering, TRANSFER_WRITE)) {
    // A hole has no buffers.
    const uint8_t *other = gathering.now->kind == TRANSFER_WRITE ? last_of(&gathering) : NULL;
    uint8_t *buffer = storage_buffer(disks->storage, TRANSFER_WRITE, other);
    uint64_t page;
    if (!buffer) break;
    enum given given = device_give(device, paging->target, paging->lun, &page, buffer);
    bool is_hole = given == GIVEN_PAGE && punches && is_zeros(buffer);
    paging->starves = paging->starves || given == GIVEN_REFUSED;
    paging->gave_all = given == GIVEN_NONE;
    if (given != GIVEN_PAGE || is_hole) storage_put_buffer(disks->storage, buffer, TRANSFER_WRITE);
    if (given != GIVEN_PAGE) break;
    note_stale(disks, which, page);
    paging->counts.given++;
    add_page(&gathering, is_hole ? TRANSFER_HOLE : TRANSFER_WRITE, page, buffer);
  }
  end_gathering(&gathering);
}

static bool begin_sync(struct disks *disks, size_t which) {
  struct disk *disk = &disks->disks[which];
  bool is_wanted = disk->paging->pages && !disk->paging->syncs && !is_away(disk);
  struct transfer *transfer = is_wanted ? storage_take(disks->storage, TRANSFER_SYNC) : NULL;
  if (!transfer) return false;
  transfer->disk = which;
  transfer->file = disk->file;
  transfer->server = disk->server;
  transfer->first = 0;
  change_runs(disk->paging, RUN_WRITTEN, RUN_COVERED);
  disk->paging->syncs = true;
  disk->paging->transfers++;
  storage_begin(disks->storage, transfer, 0);
  return true;
}

// Returns whether it is time to sync what was written. While more of the disk is under way that waits a little.
static bool is_sync_due(const struct disk *disk, enum wait waits) {
  const struct paging *paging = disk->paging;
  if (!paging->pages || paging->syncs) return false;
  uint64_t now = clock_now(), age = now - paging->since;
  if (disk->error && now < disk->due) return false;
  if (paging->pages >= MANY_PAGES || paging->run_count >= MOST_RUNS / 2 || age >= LAZY) return true;
  return paging->transfers > paging->ahead.under_way || waits == WAITS_PERHAPS ? age >= HASTY : waits == WAITS_SURELY;
}

// Returns whether something of a disk is to be looked at though nothing of it is over by then.
static bool is_put_off(const struct disk *disk) {
  const struct paging *paging = disk->paging;
  bool waits = (paging->pages && !paging->syncs) || paging->starves || is_away(disk);
  return waits || (disk->error && clock_now() < disk->due) || (paging->reading.error && clock_now() < paging->reading.due);
}

bool paging_give(struct disks *disks, struct device *device, enum wait waits) {
  bool passes = false, handed_in = false;
  // Each is the first one some time: the last ones may find no transfer left.
  disks->turn = (disks->turn + 1) % disks->count;
  for (size_t n = 0; n < disks->count; n++) {
    size_t i = (disks->turn + n) % disks->count;
    struct paging *paging = disks->disks[i].paging;
    if (!paging) continue;
    paging->starves = false;
    if (paging->run_count) say_runs(paging, device);
    begin_writes(disks, i, device);
    handed_in = begin_reads(disks, i, device) || handed_in;
    paging->has_turn = false;
    if (device != &disks->rest && !is_away(&disks->disks[i])) read_ahead(disks, i);
    if (is_sync_due(&disks->disks[i], waits)) begin_sync(disks, i);
    passes = passes || is_put_off(&disks->disks[i]);
  }
  // Commands that wait while nothing is under way were refused memory, and no kick may come.
  if (passes || (waits == WAITS_SURELY && !paging_is_under_way(disks))) storage_pass(disks->storage);
  storage_send(disks->storage);
  return handed_in;
}

bool paging_read(struct disks *disks, struct device *device, bool *handed_in) {
  bool wants = false;
  // The first one is the one that paging_give has first behind this.
  for (size_t n = 1; n <= disks->count; n++) {
    size_t i = (disks->turn + n) % disks->count;
    const struct paging *paging = disks->disks[i].paging;
    uint64_t before = paging ? paging->counts.asked : 0;
    if (!paging) continue;
    *handed_in = begin_reads(disks, i, device) || *handed_in;
    wants = wants || paging->counts.asked != before;
  }
  if (wants) storage_send(disks->storage);
  return wants;
}

bool paging_reads(const struct disks *disks) {
  for (size_t i = 0; i < disks->count; i++)
    if (disks->disks[i].paging && ahead_is_wanted(&disks->disks[i].paging->ahead)) return true;
  return storage_under_way(disks->storage, TRANSFER_READ);
}

bool paging_is_under_way(const struct disks *disks) {
  for (size_t i = 0; i < disks->count; i++)
    if (disks->disks[i].paging && disks->disks[i].paging->transfers) return true;
  return false;
}

void paging_wait(struct disks *disks, unsigned milliseconds) { storage_wait(disks->storage, milliseconds); }

bool paging_settle(struct disks *disks, struct device *device, uint64_t until) {
  size_t reads = 0;
  for (unsigned turn = 0; turn < 2; turn++) {
    for (size_t i = 0; turn && i < disks->count; i++)
      if (disks->disks[i].paging) begin_sync(disks, i);
    for (storage_send(disks->storage); paging_is_under_way(disks); paging_take(disks, device, &reads)) {
      uint64_t now = clock_now();
      if (now >= until) return false;
      storage_wait(disks->storage, until - now < LAST ? (unsigned)(until - now) : LAST);
    }
  }
  for (size_t i = 0; i < disks->count; i++)
    if (disks->disks[i].paging) ahead_forget(&disks->disks[i].paging->ahead);
  return true;
}

// Finds whether memory has something of a disk that its file lacks.
static bool find_left(struct disks *disks, struct paging *paging, struct device *device) {
  uint8_t *buffer = storage_buffer(disks->storage, TRANSFER_WRITE, NULL);
  uint64_t page;
  enum given given = buffer ? device_give(device, paging->target, paging->lun, &page, buffer) : GIVEN_REFUSED;
  if (buffer) storage_put_buffer(disks->storage, buffer, TRANSFER_WRITE);
  if (given == GIVEN_PAGE) paging->runs[paging->run_count++] = (struct run){page, 1, RUN_FAILED};
  say_runs(paging, device);
  return given != GIVEN_NONE || paging->run_count;
}

bool paging_end(struct disks *disks, struct device *device, uint64_t until) {
  if (!paging_settle(disks, device, until)) return false;
  for (size_t i = 0; i < disks->count; i++) {
    struct paging *paging = disks->disks[i].paging;
    // What the device was never told of a run is told to the next one.
    if (paging) paging->is_left = paging->run_count || find_left(disks, paging, device);
  }
  return true;
}

static RARE void tell(struct disk *disk) {
  struct trouble *reading = &disk->paging->reading;
  uint64_t now = clock_now();
  bool is_due = !reading->told || now - reading->told >= COMPLAINT;
  if (reading->error && is_due) {
    log_say(LOG_ERROR, disk, reading->is_lost ? "can't be read, which its guest is told: %s" : "can't be read, and is tried again: %s",
            strerror(reading->error));
    reading->told = now;
  } else if (reading->told && !reading->error) {
    log_say(LOG_ERROR, disk, "can be read again");
    reading->told = 0;
  }
}

// Says of a server that it is gone, each time and once a minute, and that it is there again.
static void tell_losses(struct disk *disk) {
  struct paging *paging = disk->paging;
  uint64_t now = clock_now();
  bool is_lost = paging->told_losses != server_losses(disk->server), is_there = !is_away(disk);
  if (is_lost || (!is_there && now - paging->told_away >= COMPLAINT)) {
    log_say(LOG_ERROR, disk, "the NBD server is gone, and is tried again: %s", server_fault(disk->server));
    paging->told_losses = server_losses(disk->server);
    paging->told_away = now;
  }
  if (!paging->told_away || !is_there) return;
  log_say(LOG_ERROR, disk, "the NBD server is there again");
  paging->told_away = 0;
}

void paging_tell(struct disks *disks) {
  for (size_t i = 0; i < disks->count; i++) {
    const struct paging *paging = disks->disks[i].paging;
    if (!paging) continue;
    if (paging->reading.error || paging->reading.told) tell(&disks->disks[i]);
    if (disks->disks[i].server) tell_losses(&disks->disks[i]);
  }
}

int paging_error(const struct disk *disk) {
  if (!disk->paging || disk->error) return disk->error;
  return is_away(disk) ? ENOTCONN : disk->paging->reading.error;
}

bool paging_is_left(const struct disk *disk) { return disk->paging && disk->paging->is_left; }

bool paging_are_left(const struct disks *disks) {
  for (size_t i = 0; i < disks->count; i++)
    if (paging_is_left(&disks->disks[i])) return true;
  return false;
}

// Makes the daemon's own device of the backed disks that are in memory. It has no guest: its queues lie where nothing is mapped.
static bool make_rest(struct disks *disks) {
  enum { QUEUES = 3, APART = 0x100 };
  struct vscsi_unit units[DEVICE_MOST_UNITS];
  struct vscsi_disk stores[DEVICE_MOST_UNITS];
  uint8_t profiles[DEVICE_MOST_UNITS];
  char why[200];
  bool starved;
  const struct ring ring = {.desc = APART, .driver = 2 * APART, .device = 3 * APART, .size = 2}, rings[QUEUES] = {ring, ring, ring};
  size_t count = 0;
  for (size_t i = 0; i < disks->count; i++) {
    struct disk *disk = &disks->disks[i];
    if (!disk->paging) continue;
    // Where it isn't in memory, as one that another daemon may have, no unit has its number.
    disk->paging->target = UINT8_MAX;
    disk->paging->lun = 0;
    if (!store_stands(&disks->stores[i])) continue;
    disk->paging->target = (uint8_t)count;
    units[count] = (struct vscsi_unit){.blocks = disk->blocks, .target = (uint8_t)count, .calm = 1};
    profiles[count] = VSCSI_PROFILE_WIDE;
    stores[count] = disks->stores[i];
    disks->rest_disks[count++] = i;
  }
  const struct vscsi_live_config config = {.size = sizeof config, .features = VSCSI_F_VERSION_1, .ring_count = QUEUES, .units = units,
                                           .unit_count = count, .profiles = profiles};
  if (!device_create(&disks->rest, config, rings, stores, &starved, why, sizeof why)) return false;
  for (size_t n = 0; n < count; n++) disks->stores[disks->rest_disks[n]] = (struct vscsi_disk){0};
  disks->rest_count = count;
  return true;
}

// What memory has that the file lacks.
static const char *left_of(const struct disk *disk) {
  return disk->is_cached ? "WRITEs behind the last SYNCHRONIZE CACHE" : "WRITEs that weren't answered";
}

void paging_lose(struct disk *disk) {
  struct paging *paging = disk->paging;
  if (paging->is_left) log_say(LOG_ERROR, disk, "%s are lost: memory was refused", left_of(disk));
  paging->is_left = false;
  paging->run_count = 0;
}

bool paging_end_rest(struct disks *disks, uint64_t until) {
  struct vscsi_disk stores[DEVICE_MOST_UNITS] = {{0}};
  if (!disks->rest.live) return true;
  if (!paging_end(disks, &disks->rest, until)) return false;
  bool ended = device_end(&disks->rest, stores, disks->rest_count);
  disks->has_lost = disks->has_lost || (!ended && paging_are_left(disks));
  for (size_t n = 0; n < disks->rest_count; n++) {
    struct disk *disk = &disks->disks[disks->rest_disks[n]];
    disks->stores[disks->rest_disks[n]] = stores[n];
    if (!ended) paging_lose(disk);
  }
  return ended;
}

// Finds whether a disk's file has all, behind paging_give for the daemon's own device: nothing is changed there any more.
static bool note_written(struct disk *disk) {
  struct paging *paging = disk->paging;
  // Nothing is changed here any more of one that has all, whether its server is there or not.
  if (!paging || !paging->is_left) return true;
  bool is_written = paging->gave_all && !paging->transfers && !paging->run_count;
  if (is_written) paging->is_left = false;
  return is_written;
}

bool paging_write_rest(struct disks *disks) {
  size_t reads = 0;
  bool is_done = true;
  if (!disks->storage || (!disks->rest.live && !paging_are_left(disks))) return false;
  if (!disks->rest.live && !make_rest(disks)) {
    // The pass before this one is over, perhaps.
    paging_take(disks, &disks->rest, &reads);
    storage_pass(disks->storage);
    return storage_send(disks->storage), true;
  }
  paging_take(disks, &disks->rest, &reads);
  paging_give(disks, &disks->rest, WAITS_SURELY);
  paging_tell(disks);
  for (size_t i = 0; i < disks->count; i++) is_done = note_written(&disks->disks[i]) && is_done;
  return !is_done || !paging_end_rest(disks, UINT64_MAX) || paging_are_left(disks);
}

// Returns whether a file couldn't be written when that was last tried.
static bool fails(const struct disks *disks) {
  for (size_t i = 0; i < disks->count; i++)
    if (disks->disks[i].paging && disks->disks[i].error) return true;
  return false;
}

bool paging_finish(struct disks *disks, char *why, size_t room) {
  uint64_t until = clock_now() + LAST;
  for (size_t i = 0; i < disks->count; i++)
    if (disks->disks[i].paging) disks->disks[i].due = 0;
  // What is under way is waited for in any case.
  while (paging_write_rest(disks)) {
    if (paging_is_under_way(disks) && !fails(disks)) until = clock_now() + LAST;
    if (clock_now() >= until) break;
    paging_wait(disks, LEAST_PAUSE);
  }
  paging_end_rest(disks, UINT64_MAX);
  for (size_t i = 0; i < disks->count; i++) {
    const struct disk *disk = &disks->disks[i];
    const char *cause = paging_error(disk) ? strerror(paging_error(disk)) : "memory was refused";
    const char *place = disk->path ? disk->path : disk->uri;
    if (!paging_is_left(disk)) continue;
    snprintf(why, room, "disk %u:%u: %s: %s aren't all kept: %s", disk->target, disk->lun, place, left_of(disk), cause);
    return false;
  }
  return true;
}
